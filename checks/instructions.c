/* For checks/instructions.py, which counts the instructions of one function alone. Usage: instructions WHAT TIMES. WHAT is
       locks      passes of an office serve 32 compatible locks each: pass_of_locks
       performs   one thread makes transactions of a begin, a lock and a commit: perform_transaction, of three calls
       wakes      the same, in an office with a waker, which wakes nobody since nobody waits
       calls      one thread makes transfers of seven calls: a commit, a begin, a database and a file in IX and a page in X, another file
                  and a page of it: make_transfer
       programs   the same by two programs: make_transfer
       served     the same seven calls of a book: make_transfer
       ran        the same two programs of a book: make_transfer
   `instructions rows FILE` has a new book for 256 sessions serve the rows of a trace: serve_rows.
   All lock tables have one seed, so that the counts are the same each time. */
#include "pelgaisti.h"
#include "rows.h"

enum { LOCKERS = 32, SEED = 7 };

static pelgaisti_session sessions[LOCKERS + 1];

/* Publishes a call of each locker, and has the last session serve them by `make`. Each call has to be answered so. */
static void publish_all(uint32_t op, uint32_t mode, uint32_t kind, void (*make)(pelgaisti_pass *)) {
    pelgaisti_call call = {op, mode, {1, {7}}};
    pelgaisti_pass pass;
    pelgaisti_answer answer;
    for (int k = 0; k < LOCKERS; k++)
        if (pelgaisti_session_publish(&sessions[k], &call, NULL) != PELGAISTI_OK) exit(2);
    make(&pass);
    if (pass.served != LOCKERS || pass.starved) exit(3);
    for (int k = 0; k < LOCKERS; k++)
        if (pelgaisti_session_collect(&sessions[k], &answer) != PELGAISTI_OK || answer.reply.kind != kind) exit(4);
}

static void pass_of_others(pelgaisti_pass *pass) {
    if (pelgaisti_session_serve(&sessions[LOCKERS], pass) != PELGAISTI_OK) exit(5);
}

__attribute__((noinline)) void pass_of_locks(pelgaisti_pass *pass);

/* A function of its own, by whose name its instructions are counted. */
__attribute__((noinline)) void pass_of_locks(pelgaisti_pass *pass) {
    if (pelgaisti_session_serve(&sessions[LOCKERS], pass) != PELGAISTI_OK) exit(6);
}

/* Makes a call of the last session, and a pass for it. */
static void call_last(uint32_t op, uint32_t mode) {
    pelgaisti_call call = {op, mode, {1, {7}}};
    pelgaisti_answer answer;
    if (pelgaisti_session_publish(&sessions[LOCKERS], &call, NULL) != PELGAISTI_OK) exit(7);
    if (pelgaisti_session_serve(&sessions[LOCKERS], NULL) != PELGAISTI_OK) exit(8);
    if (pelgaisti_session_collect(&sessions[LOCKERS], &answer) != PELGAISTI_OK) exit(9);
}

static void locks(long passes) {
    /* somebody holds the resource, so the first lock of a pass needs no cell */
    call_last(PELGAISTI_BEGIN, 0);
    call_last(PELGAISTI_LOCK, PELGAISTI_IX);
    for (long k = 0; k < passes; k++) {
        publish_all(PELGAISTI_BEGIN, 0, PELGAISTI_BEGAN, pass_of_others);
        publish_all(PELGAISTI_LOCK, PELGAISTI_IX, PELGAISTI_GRANTED, pass_of_locks);
        publish_all(PELGAISTI_COMMIT, 0, PELGAISTI_COMMITTED, pass_of_others);
    }
}

static pelgaisti_book book;

typedef struct row {
    uint32_t session;
    pelgaisti_call call;
} row;

__attribute__((noinline)) void serve_rows(const row *all, size_t count);

/* A function of its own, by whose name its instructions are counted. */
__attribute__((noinline)) void serve_rows(const row *all, size_t count) {
    pelgaisti_reply reply;
    for (size_t k = 0; k < count; k++)
        if (pelgaisti_book_serve(&book, all[k].session, &all[k].call, &reply) != PELGAISTI_OK) exit(29);
}

static void rows(const char *name) {
    static row all[1 << 15];
    char line[256];
    size_t count = 0;
    FILE *file = fopen(name, "r");
    MUST(file);
    for (; fgets(line, sizeof line, file); count++) {
        MUST(count < COUNT(all));
        all[count].session = read_row(line, &all[count].call);
    }
    pelgaisti_options options = PELGAISTI_OPTIONS(256);
    options.keep = UINT64_MAX;
    options.seed = SEED;
    MUST(pelgaisti_book_open(&book, &options) == PELGAISTI_OK);
    serve_rows(all, count);
}

__attribute__((noinline)) void perform_transaction(const pelgaisti_call *calls);

/* A function of its own, by whose name its instructions are counted. */
__attribute__((noinline)) void perform_transaction(const pelgaisti_call *calls) {
    pelgaisti_answer answer;
    for (int k = 0; k < 3; k++)
        if (pelgaisti_session_perform(&sessions[0], &calls[k], UINT64_MAX, &answer) != PELGAISTI_OK) exit(6);
}

static void performs(long transactions) {
    static const pelgaisti_call calls[3] = {
        {PELGAISTI_BEGIN, 0, {0, {0}}}, {PELGAISTI_LOCK, PELGAISTI_X, {1, {7}}}, {PELGAISTI_COMMIT, 0, {0, {0}}}};
    for (long k = 0; k < transactions; k++) perform_transaction(calls);
}

enum { TRANSFER_CALLS = 7, TRANSFER_PROGRAMS = 2 };

static const pelgaisti_call transfer_calls[TRANSFER_CALLS] = {
    {PELGAISTI_COMMIT, 0, {0, {0}}},             {PELGAISTI_BEGIN, 0, {0, {0}}},
    {PELGAISTI_LOCK, PELGAISTI_IX, {1, {1}}},    {PELGAISTI_LOCK, PELGAISTI_IX, {2, {1, 2}}},
    {PELGAISTI_LOCK, PELGAISTI_X, {3, {1, 2, 3}}}, {PELGAISTI_LOCK, PELGAISTI_IX, {2, {1, 4}}},
    {PELGAISTI_LOCK, PELGAISTI_X, {3, {1, 4, 5}}}};

static const pelgaisti_program transfer_programs[TRANSFER_PROGRAMS] = {
    {PELGAISTI_COMMITS_AND_BEGINS, 0, PELGAISTI_IX, {PELGAISTI_LOCK, PELGAISTI_X, {3, {1, 2, 3}}}},
    {PELGAISTI_NOTHING, 1, PELGAISTI_IX, {PELGAISTI_LOCK, PELGAISTI_X, {3, {1, 4, 5}}}}};

static void transfer_of_calls(void) {
    pelgaisti_answer answer;
    for (int k = 0; k < TRANSFER_CALLS; k++) {
        if (pelgaisti_session_perform(&sessions[0], &transfer_calls[k], UINT64_MAX, &answer) != PELGAISTI_OK) exit(11);
        if (answer.reply.kind == PELGAISTI_REFUSED) exit(12);
    }
}

static void transfer_of_programs(void) {
    pelgaisti_program_answer answer;
    for (int k = 0; k < TRANSFER_PROGRAMS; k++) {
        if (pelgaisti_session_run(&sessions[0], &transfer_programs[k], UINT64_MAX, &answer) != PELGAISTI_OK) exit(13);
        if (answer.stop || answer.served != (k ? 2 : 5)) exit(14);
    }
}

static void transfer_of_a_book(void) {
    pelgaisti_reply reply;
    for (int k = 0; k < TRANSFER_CALLS; k++) {
        if (pelgaisti_book_serve(&book, 1, &transfer_calls[k], &reply) != PELGAISTI_OK) exit(15);
        if (reply.kind == PELGAISTI_REFUSED) exit(16);
    }
}

static void transfer_of_book_programs(void) {
    pelgaisti_program_answer answer;
    for (int k = 0; k < TRANSFER_PROGRAMS; k++) {
        if (pelgaisti_book_run(&book, 1, &transfer_programs[k], &answer) != PELGAISTI_OK) exit(20);
        if (answer.stop || answer.served != (k ? 2 : 5)) exit(21);
    }
}

static const struct {
    const char *name;
    void (*make)(void);
} ways[] = {{"calls", transfer_of_calls}, {"programs", transfer_of_programs}, {"served", transfer_of_a_book}, {"ran", transfer_of_book_programs}};

__attribute__((noinline)) void make_transfer(void (*way)(void));

/* A function of its own, by whose name its instructions are counted. */
__attribute__((noinline)) void make_transfer(void (*way)(void)) { way(); }

static void transfers(const char *name, long times, const pelgaisti_options *options) {
    static const pelgaisti_call begin = {PELGAISTI_BEGIN, 0, {0, {0}}};
    pelgaisti_answer answer;
    pelgaisti_reply reply;
    if (pelgaisti_session_perform(&sessions[0], &begin, UINT64_MAX, &answer) != PELGAISTI_OK) exit(17);
    if (pelgaisti_book_open(&book, options) != PELGAISTI_OK) exit(18);
    if (pelgaisti_book_serve(&book, 1, &begin, &reply) != PELGAISTI_OK) exit(19);
    for (size_t way = 0; way < sizeof ways / sizeof *ways; way++)
        for (long k = 0; k < times && !strcmp(name, ways[way].name); k++) make_transfer(ways[way].make);
}

static void wake_nobody(void *engine, uint32_t session) {
    (void)engine;
    (void)session;
    exit(10);
}

int main(int argc, char **argv) {
    static const pelgaisti_waker waker = {wake_nobody, NULL};
    long times = argc == 3 ? atol(argv[2]) : 0;
    int is_waking = argc == 3 && !strcmp(argv[1], "wakes");
    pelgaisti_options options = PELGAISTI_OPTIONS(LOCKERS + 1);
    options.keep = 64;
    options.seed = SEED;
    if (is_waking) options.waker = &waker;
    if (pelgaisti_office_open(sessions, &options) != PELGAISTI_OK) return 1;
    if (argc == 3 && !strcmp(argv[1], "rows")) rows(argv[2]);
    else if (argc == 3 && !strcmp(argv[1], "locks")) locks(times);
    else if (argc == 3 && (!strcmp(argv[1], "performs") || is_waking)) performs(times);
    else if (argc == 3) transfers(argv[1], times, &options);
    return 0;
}
