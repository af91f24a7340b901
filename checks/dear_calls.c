/* For checks/instructions.py, which counts the instructions of dear_call. Usage: dear_calls WHAT. WHAT is
       growth     a book grants one session 4,096 locks, as its table grows
       reserved   the same, behind a reserve
       chosen     the same of names that were chosen to have hashes alike with the seed of another book
       known      the same of names that were chosen for the seed of this one
       dump       a dump of a book that holds 8,192 locks
       commits    a call performed at once in an office whose pass serves 63 commits of 4,096 locks each
       readers    a commit before 1,023 readers that wait
       withdraw   a withdrawal from the front of a queue of 1,023
       history    4,096 polls of a book that keeps the newest 1,024 entries
       idle       a shrink of a book with 8,192 idle cells
   All lock tables have one seed, so that the counts are the same each time. bench/worst.c times such calls. */
#include "../bench/chosen.h"
#include "pelgaisti.h"
#include <stdlib.h>
#include <string.h>

enum { LOCKS = 4096, SEED = 7, OTHER_SEED = 8 };

static pelgaisti_book book;
static pelgaisti_session sessions[PELGAISTI_MAX_SESSIONS];
static uint32_t names[LOCKS];

static pelgaisti_call call_of(uint32_t op, uint32_t mode, uint32_t name) {
    pelgaisti_call call = {op, mode, {mode != 0, {name}}};
    return call;
}

static void serve(uint32_t session, pelgaisti_call call, uint32_t kind) {
    pelgaisti_reply reply;
    if (pelgaisti_book_serve(&book, session, &call, &reply) != PELGAISTI_OK || reply.kind != kind) exit(3);
}

static void open_book(uint32_t count, uint64_t bound) {
    pelgaisti_options options = PELGAISTI_OPTIONS(count);
    options.seed = SEED;
    options.keep = bound;
    if (pelgaisti_book_open(&book, &options) != PELGAISTI_OK) exit(4);
}

/* Sessions from 1 on hold LOCKS databases each. */
static void hold(uint32_t count) {
    for (uint32_t session = 1; session <= count; session++) {
        serve(session, call_of(PELGAISTI_BEGIN, 0, 0), PELGAISTI_BEGAN);
        for (uint32_t k = 0; k < LOCKS; k++) serve(session, call_of(PELGAISTI_LOCK, PELGAISTI_X, session * LOCKS + k), PELGAISTI_GRANTED);
    }
}

/* One session holds a database, and all others wait for it. */
static void queue_up(uint32_t mode) {
    open_book(PELGAISTI_MAX_SESSIONS, 0);
    for (uint32_t session = 1; session <= PELGAISTI_MAX_SESSIONS; session++) {
        serve(session, call_of(PELGAISTI_BEGIN, 0, 0), PELGAISTI_BEGAN);
        serve(session, call_of(PELGAISTI_LOCK, session == 1 ? (uint32_t)PELGAISTI_X : mode, 1),
              session == 1 ? PELGAISTI_GRANTED : PELGAISTI_WAITING);
    }
}

static void perform(uint32_t session, pelgaisti_call call) {
    pelgaisti_answer answer;
    if (pelgaisti_session_perform(&sessions[session - 1], &call, 1, &answer) != PELGAISTI_OK) exit(5);
}

static void lock_names(void) {
    for (uint32_t k = 0; k < LOCKS; k++) serve(1, call_of(PELGAISTI_LOCK, PELGAISTI_X, names[k]), PELGAISTI_GRANTED);
}

static void begin_locks(void) {
    for (uint32_t k = 0; k < LOCKS; k++) names[k] = k;
    open_book(1, 0);
    serve(1, call_of(PELGAISTI_BEGIN, 0, 0), PELGAISTI_BEGAN);
}

static void begin_reserved(void) {
    begin_locks();
    if (pelgaisti_book_reserve(&book, LOCKS, 0) != PELGAISTI_OK) exit(6);
}

static void begin_chosen(void) {
    begin_locks();
    choose_names(names, LOCKS, OTHER_SEED, 10);
}

static void begin_known(void) {
    begin_locks();
    choose_names(names, LOCKS, SEED, 10);
}

static void hold_8192(void) {
    open_book(2, 0);
    hold(2);
}

static void dump(void) {
    static pelgaisti_claim rows[2 * LOCKS + 2];
    size_t count;
    uint64_t place;
    if (pelgaisti_book_dump(&book, rows, 2 * LOCKS + 2, &count, &place) != PELGAISTI_OK || count != 2 * LOCKS + 2) exit(7);
}

static void publish_commits(void) {
    pelgaisti_call commit = call_of(PELGAISTI_COMMIT, 0, 0);
    pelgaisti_options options = PELGAISTI_OPTIONS(64);
    options.keep = 0;
    options.seed = SEED;
    options.pass_locks = UINT32_MAX; /* a pass serves all that is published */
    if (pelgaisti_office_open(sessions, &options) != PELGAISTI_OK) exit(8);
    for (uint32_t session = 1; session <= 64; session++) {
        perform(session, call_of(PELGAISTI_BEGIN, 0, 0));
        for (uint32_t k = 0; session > 1 && k < LOCKS; k++) perform(session, call_of(PELGAISTI_LOCK, PELGAISTI_X, session * LOCKS + k));
    }
    for (uint32_t session = 2; session <= 64; session++)
        if (pelgaisti_session_publish(&sessions[session - 1], &commit, NULL) != PELGAISTI_OK) exit(9);
}

static void poll_at_once(void) { perform(1, call_of(PELGAISTI_POLL, 0, 0)); }

static void queue_readers(void) { queue_up(PELGAISTI_S); }

static void queue_writers(void) { queue_up(PELGAISTI_X); }

static void commit_first(void) { serve(1, call_of(PELGAISTI_COMMIT, 0, 0), PELGAISTI_COMMITTED); }

static void withdraw_second(void) { serve(2, call_of(PELGAISTI_WITHDRAW, 0, 0), PELGAISTI_WITHDRAWN); }

static void keep_1024(void) {
    open_book(1, 1024);
    for (uint32_t k = 0; k < LOCKS; k++) serve(1, call_of(PELGAISTI_POLL, 0, 0), PELGAISTI_REFUSED);
}

static void poll_on(void) {
    for (uint32_t k = 0; k < LOCKS; k++) serve(1, call_of(PELGAISTI_POLL, 0, 0), PELGAISTI_REFUSED);
}

static void give_back_8192(void) {
    hold_8192();
    for (uint32_t session = 1; session <= 2; session++) serve(session, call_of(PELGAISTI_COMMIT, 0, 0), PELGAISTI_COMMITTED);
}

static void shrink(void) {
    if (pelgaisti_book_shrink(&book) != PELGAISTI_OK) exit(10);
}

static const struct {
    const char *name;
    void (*prepare)(void), (*call)(void);
} dear[] = {
    {"growth", begin_locks, lock_names},     {"reserved", begin_reserved, lock_names},  {"chosen", begin_chosen, lock_names},
    {"known", begin_known, lock_names},      {"dump", hold_8192, dump},                 {"commits", publish_commits, poll_at_once},
    {"readers", queue_readers, commit_first}, {"withdraw", queue_writers, withdraw_second}, {"history", keep_1024, poll_on},
    {"idle", give_back_8192, shrink},
};

__attribute__((noinline)) void dear_call(void (*call)(void));

/* A function of its own, by whose name its instructions are counted. */
__attribute__((noinline)) void dear_call(void (*call)(void)) {
    call();
    __asm__ volatile(""); /* so that the call isn't a jump, behind which nothing is counted */
}

int main(int argc, char **argv) {
    for (size_t k = 0; argc == 2 && k < sizeof dear / sizeof *dear; k++)
        if (!strcmp(argv[1], dear[k].name)) {
            dear[k].prepare();
            dear_call(dear[k].call);
            return 0;
        }
    return 2;
}
