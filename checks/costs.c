/* For checks/costs.py, which counts the instructions of measured_call. Usage: costs. Each line of the input is the name of a row, a colon, and
   NAME=NUMBER for each quantity that isn't 0; for each, a lock table with these quantities is made, one call is measured, and the lock
   table is closed. The quantities are
       sessions   sessions of the lock table
       resources  locks of another transaction, each on a resource of its own, which nobody else waits for
       others     locks of a third transaction, on the first so many of these resources
       elsewhere  sessions that wait for a resource that has nothing to do with the call
       history    entries of the history beside those of the set-up
       own        locks of the calling transaction beside those of the row
       holders    other holders of the resource at hand
       queue      waiting requests of others for this resource
       kept       deadlocks that the book keeps
       n          what else the row doubles: its comment says what it is
   Before the call there is room for what it adds, but of the rows that say otherwise. All lock tables have one seed, so that the counts are
   the same each time. */
#include "pelgaisti.h"
#include <stdio.h>
#include <stdlib.h>
#include <string.h>

enum { SEED = 7, MOST = 8192, CALLER = 1, BIG = 2, THIRD = 3, BLOCKER = 4, FIRST = 5, ELSEWHERE = 1, HERE = 2, NEW = 3, RING = 1000, OWN = 100000, IDLE = 200000, MANY = 300000 };

/* The quantities of a line, by their names. */
static struct quantity {
    const char *name;
    uint32_t number;
} quantities[] = {{"sessions", 0}, {"resources", 0}, {"others", 0}, {"elsewhere", 0}, {"history", 0}, {"own", 0}, {"holders", 0}, {"queue", 0}, {"kept", 0}, {"n", 0}};

enum { QUANTITIES = sizeof quantities / sizeof *quantities };

static uint32_t quantity(const char *name) {
    for (int k = 0; k < QUANTITIES; k++)
        if (!strcmp(name, quantities[k].name)) return quantities[k].number;
    exit(3);
}

static pelgaisti_book book;
static pelgaisti_entry entries[MOST];
static pelgaisti_claim claims[MOST];
static pelgaisti_holder holders[PELGAISTI_MAX_SESSIONS];
static uint32_t list[PELGAISTI_MAX_SESSIONS];
static pelgaisti_deadlock deadlocks[MOST];
static pelgaisti_member members[2 * MOST];
/* The next session that the set-up uses. */
static uint32_t next_session;

static void check(pelgaisti_status status) {
    if (status != PELGAISTI_OK) {
        fprintf(stderr, "%s\n", pelgaisti_status_name(status));
        exit(4);
    }
}

static pelgaisti_call call_on(uint32_t op, uint32_t mode, uint32_t name) {
    pelgaisti_call call = {op, mode, {1, {name}}};
    return call;
}

static void serve(uint32_t session, pelgaisti_call call, uint32_t kind) {
    pelgaisti_reply reply;
    check(pelgaisti_book_serve(&book, session, &call, &reply));
    if (reply.kind != kind) {
        fprintf(stderr, "session %u, op %u: %s, not %s\n", session, call.op, pelgaisti_reply_name(reply.kind), pelgaisti_reply_name(kind));
        exit(5);
    }
}

static void begin(uint32_t session) { serve(session, call_on(PELGAISTI_BEGIN, 0, 1), PELGAISTI_BEGAN); }

static void take(uint32_t session, uint32_t mode, uint32_t name) { serve(session, call_on(PELGAISTI_LOCK, mode, name), PELGAISTI_GRANTED); }

static void wait(uint32_t session, uint32_t mode, uint32_t name) { serve(session, call_on(PELGAISTI_LOCK, mode, name), PELGAISTI_WAITING); }

/* The next session, with a transaction. */
static uint32_t newcomer(void) {
    begin(next_session);
    return next_session++;
}

/* Other holders of the resource at hand, and behind them a queue. */
static void hold_here(uint32_t mode) {
    for (uint32_t k = 0; k < quantity("holders"); k++) take(newcomer(), mode, HERE);
}

static void queue_here(uint32_t mode) {
    for (uint32_t k = 0; k < quantity("queue"); k++) wait(newcomer(), mode, HERE);
}

/* ---- What a row makes before its call, and the call. ---- */

static void nothing(void) {}

static void end_own(void) { serve(CALLER, call_on(PELGAISTI_ABORT, 0, 1), PELGAISTI_ABORTED); }

static void call_begin(void) { begin(CALLER); }

static void call_lock_new(void) { take(CALLER, PELGAISTI_X, NEW); }

/* A record's ancestors are held, so the last call locks a record. */
static const pelgaisti_resource field = {5, {HERE, 1, 1, 1, 1}};

static void hold_path(void) {
    pelgaisti_call call = {PELGAISTI_LOCK, PELGAISTI_IX, field};
    for (call.resource.level = 1; call.resource.level < 5; call.resource.level++) serve(CALLER, call, PELGAISTI_GRANTED);
}

static void call_lock_field(void) {
    pelgaisti_call call = {PELGAISTI_LOCK, PELGAISTI_X, field};
    serve(CALLER, call, PELGAISTI_GRANTED);
}

static void readers(void) { hold_here(PELGAISTI_S); }

static void call_lock_read(void) { take(CALLER, PELGAISTI_S, HERE); }

static void call_lock_write(void) { wait(CALLER, PELGAISTI_X, HERE); }

static void call_lock_announce(void) { wait(CALLER, PELGAISTI_IX, HERE); }

static void readers_and_queue(void) {
    hold_here(PELGAISTI_S);
    queue_here(PELGAISTI_X);
}

/* A ring of `n` sessions but for the request of the caller, who is the oldest: the youngest waits for it, and is the victim. */
static void ring(void) {
    uint32_t first = next_session, n = quantity("n");
    take(CALLER, PELGAISTI_X, RING + n);
    for (uint32_t k = 0; k < n; k++) take(newcomer(), PELGAISTI_X, RING + k);
    for (uint32_t k = 0; k < n; k++) wait(first + k, PELGAISTI_X, RING + k + 1);
}

static void call_close_ring(void) { wait(CALLER, PELGAISTI_X, RING); }

/* The caller waits for `n` readers each of whom waits for the caller: as many victims, and then the caller has what they held. */
static void fan(void) {
    uint32_t first = next_session, n = quantity("n");
    take(CALLER, PELGAISTI_X, RING);
    for (uint32_t k = 0; k < n; k++) take(newcomer(), PELGAISTI_S, HERE);
    for (uint32_t k = 0; k < n; k++) wait(first + k, PELGAISTI_X, RING);
}

static void call_close_fan(void) { wait(CALLER, PELGAISTI_X, HERE); }

/* The same, but that each of them waits for the one before it, and the first for the caller. */
static void line(void) {
    uint32_t first = next_session, n = quantity("n");
    for (uint32_t k = 0; k < n; k++) take(newcomer(), PELGAISTI_S, HERE);
    for (uint32_t k = 0; k <= n; k++) take(k ? first + k - 1 : CALLER, PELGAISTI_X, RING + k);
    for (uint32_t k = 0; k < n; k++) wait(first + k, PELGAISTI_X, RING + k);
}

static void own_reader(void) { take(CALLER, PELGAISTI_S, HERE); }

static void call_convert(void) { serve(CALLER, call_on(PELGAISTI_CONVERT, PELGAISTI_X, HERE), PELGAISTI_GRANTED); }

static void announcers(void) {
    take(CALLER, PELGAISTI_IS, HERE);
    hold_here(PELGAISTI_IX);
}

/* Writers wait for the caller, who shares the resource with one other session. */
static void announcer_before_writers(void) {
    take(CALLER, PELGAISTI_IS, HERE);
    take(newcomer(), PELGAISTI_IS, HERE);
    queue_here(PELGAISTI_X);
}

static void call_convert_among(void) { serve(CALLER, call_on(PELGAISTI_CONVERT, PELGAISTI_IX, HERE), PELGAISTI_GRANTED); }

static void reader_among(void) {
    take(CALLER, PELGAISTI_S, HERE);
    readers_and_queue();
}

static void call_convert_wait(void) { serve(CALLER, call_on(PELGAISTI_CONVERT, PELGAISTI_X, HERE), PELGAISTI_WAITING); }

static void call_try(void) { serve(CALLER, call_on(PELGAISTI_TRY, PELGAISTI_X, HERE), PELGAISTI_REFUSED); }

static void call_try_new(void) { serve(CALLER, call_on(PELGAISTI_TRY, PELGAISTI_X, NEW), PELGAISTI_GRANTED); }

static void call_poll(void) { serve(CALLER, call_on(PELGAISTI_POLL, 0, 1), PELGAISTI_CLEAR); }

static void call_release(void) { serve(CALLER, call_on(PELGAISTI_RELEASE, 0, HERE), PELGAISTI_RELEASED); }

static void release_one(void) {
    own_reader();
    take(CALLER, PELGAISTI_S, NEW);
    serve(CALLER, call_on(PELGAISTI_RELEASE, 0, NEW), PELGAISTI_RELEASED);
}

static void writer_before_readers(void) {
    take(CALLER, PELGAISTI_X, HERE);
    queue_here(PELGAISTI_S);
}

/* The readers are granted, and as many writers wait on. */
static void writer_before_both(void) {
    writer_before_readers();
    queue_here(PELGAISTI_X);
}

/* Eight readers are granted, and the writers wait on. */
static void writer_before_eight(void) {
    take(CALLER, PELGAISTI_X, HERE);
    for (uint32_t k = 0; k < 8; k++) wait(newcomer(), PELGAISTI_S, HERE);
    queue_here(PELGAISTI_X);
}

/* The first of the queue is granted, and all others wait on. */
static void writer_before_writers(void) {
    take(CALLER, PELGAISTI_X, HERE);
    queue_here(PELGAISTI_X);
}

static void call_commit(void) { serve(CALLER, call_on(PELGAISTI_COMMIT, 0, 1), PELGAISTI_COMMITTED); }

static void call_abort(void) { serve(CALLER, call_on(PELGAISTI_ABORT, 0, 1), PELGAISTI_ABORTED); }

static void call_restart(void) { serve(CALLER, call_on(PELGAISTI_RESTART, 0, 1), PELGAISTI_RESTARTED); }

/* The caller's request for a writer's lock is first in the queue, with readers behind it and before it. */
static void request_between(void) {
    hold_here(PELGAISTI_S);
    wait(CALLER, PELGAISTI_X, HERE);
    queue_here(PELGAISTI_S);
}

static void call_withdraw(void) { serve(CALLER, call_on(PELGAISTI_WITHDRAW, 0, 1), PELGAISTI_WITHDRAWN); }

static void call_run(void) {
    pelgaisti_program program = {PELGAISTI_COMMITS_AND_BEGINS, 0, PELGAISTI_IX, {PELGAISTI_LOCK, PELGAISTI_X, field}};
    pelgaisti_program_answer answer;
    check(pelgaisti_book_run(&book, CALLER, &program, &answer));
    if (answer.served != 7) exit(6);
}

/* `n` locks of new resources. */
static void batch_of_new(void) {
    for (uint32_t k = 0; k < quantity("n"); k++) {
        entries[k].session = CALLER;
        entries[k].call = call_on(PELGAISTI_LOCK, PELGAISTI_X, HERE + k);
    }
}

static void call_batch(void) {
    size_t count;
    check(pelgaisti_book_serve_batch(&book, entries, quantity("n"), &count));
    if (count != quantity("n") || entries[count - 1].reply.kind != PELGAISTI_GRANTED) exit(8);
}

static void reader_and_readers(void) {
    own_reader();
    hold_here(PELGAISTI_S);
}

static void call_held(void) {
    pelgaisti_resource here = {1, {HERE}};
    uint32_t mode;
    check(pelgaisti_book_held(&book, CALLER, &here, &mode));
    if (mode != PELGAISTI_S) exit(9);
}

static void call_holders(void) {
    pelgaisti_resource here = {1, {HERE}};
    size_t count;
    check(pelgaisti_book_holders(&book, &here, holders, PELGAISTI_MAX_SESSIONS, &count));
    if (count != quantity("holders")) exit(10);
}

static void request_behind(void) {
    readers_and_queue();
    wait(CALLER, PELGAISTI_X, HERE);
}

static void call_blockers(void) {
    size_t count;
    check(pelgaisti_book_blockers(&book, CALLER, list, PELGAISTI_MAX_SESSIONS, &count));
    if (count != quantity("holders") + quantity("queue")) exit(11);
}

static void call_blockers_of_none(void) {
    size_t count;
    check(pelgaisti_book_blockers(&book, CALLER, list, PELGAISTI_MAX_SESSIONS, &count));
    if (count) exit(21);
}

static void call_transaction(void) {
    pelgaisti_transaction open;
    check(pelgaisti_book_transaction(&book, CALLER, &open));
}

static void call_request(void) {
    pelgaisti_claim waiting;
    check(pelgaisti_book_request(&book, CALLER, &waiting));
    if (waiting.kind != PELGAISTI_FRESH) exit(12);
}

/* The first `n` rows of it. */
static void call_dump(void) {
    uint64_t place;
    size_t count;
    check(pelgaisti_book_dump(&book, claims, quantity("n"), &count, &place));
}

/* All its lines. */
static void call_dump_line(void) {
    pelgaisti_dumping at = PELGAISTI_DUMPING;
    const size_t queue = quantity("queue");
    size_t count, lines = 0;
    uint64_t place;
    char line[100];
    check(pelgaisti_book_dump(&book, claims, MOST, &count, &place));
    while (pelgaisti_dump_line(claims, count, &at, line, sizeof line)) lines++;
    if (count > MOST || lines != count + queue) exit(24);
}

static void call_counts(void) {
    pelgaisti_counts counts;
    check(pelgaisti_book_counts(&book, &counts));
    if (counts.waiting < quantity("queue")) exit(23);
}

static void call_locks_held(void) {
    size_t count;
    check(pelgaisti_book_locks_held(&book, CALLER, &count));
    if (count < quantity("own")) exit(22);
}

/* A page of `n` of the caller's own locks. */
static void call_locks_of(void) {
    static const pelgaisti_resource first = {0, {0}};
    size_t count;
    check(pelgaisti_book_locks_of(&book, CALLER, &first, claims, quantity("n"), &count));
    if (count != quantity("n") && count < quantity("own")) exit(23);
}

static void freed(void) {
    writer_before_readers();
    call_commit();
}

static void call_ended(void) {
    size_t count;
    check(pelgaisti_book_ended(&book, list, PELGAISTI_MAX_SESSIONS, &count));
    if (count != quantity("queue")) exit(13);
}

/* `n` entries from the second one on. */
static void call_history(void) {
    size_t count;
    check(pelgaisti_book_history(&book, 1, entries, quantity("n"), &count));
    if (count != quantity("n")) exit(14);
}

static void call_take_history(void) {
    uint64_t first;
    size_t count;
    check(pelgaisti_book_take_history(&book, &first, entries, quantity("n"), &count));
    if (count != quantity("n")) exit(15);
}

static void call_keep_at_most(void) { check(pelgaisti_book_keep_at_most(&book, 10)); }

static void call_length(void) {
    uint64_t length, first;
    check(pelgaisti_book_length(&book, &first, &length));
}

/* Room for `n` resources. */
static void call_reserve_resources(void) { check(pelgaisti_book_reserve(&book, quantity("n"), 0)); }

/* `n` idle cells. */
static void idle(void) {
    uint32_t session = newcomer();
    for (uint32_t k = 0; k < quantity("n"); k++) take(session, PELGAISTI_X, IDLE + k);
    serve(session, call_on(PELGAISTI_COMMIT, 0, 1), PELGAISTI_COMMITTED);
}

static void call_shrink(void) { check(pelgaisti_book_shrink(&book)); }

static void call_close(void) { check(pelgaisti_book_close(&book)); }

/* The newest `n`. */
static void call_deadlocks(void) {
    size_t count, member_count;
    check(pelgaisti_book_deadlocks(&book, deadlocks, quantity("n"), &count, members, 2 * MOST, &member_count));
    if (count != quantity("kept") || member_count != 2 * quantity("n")) exit(22);
}

/* Twice as many deadlocks of two sessions as the book keeps. They are told once before: a first allocation of this size tidies up what the
   opening has freed, as the C library's `malloc` puts that off. */
static void deadlocked(void) {
    uint32_t one = next_session++, two = next_session++;
    for (uint32_t k = 0; k < 2 * quantity("kept"); k++) {
        begin(one);
        begin(two);
        take(one, PELGAISTI_X, RING);
        take(two, PELGAISTI_X, RING + 1);
        wait(one, PELGAISTI_X, RING + 1);
        serve(two, call_on(PELGAISTI_LOCK, PELGAISTI_X, RING), PELGAISTI_DEADLOCK);
        serve(two, call_on(PELGAISTI_ABORT, 0, 1), PELGAISTI_ABORTED);
        serve(one, call_on(PELGAISTI_ABORT, 0, 1), PELGAISTI_ABORTED);
    }
    call_deadlocks();
}

/* With the newest `kept` deadlocks. */
static void open_it(void) {
    pelgaisti_options options = PELGAISTI_OPTIONS(quantity("sessions"));
    options.keep = UINT64_MAX;
    options.seed = SEED;
    options.deadlocks = quantity("kept");
    check(pelgaisti_book_open(&book, &options));
}

static void close_it(void) { check(pelgaisti_book_close(&book)); }

static const struct row {
    const char *name;
    void (*prepare)(void), (*call)(void);
    int makes_no_room;
} rows[] = {
    {"begin", end_own, call_begin, 0},
    {"lock, of a free resource", nothing, call_lock_new, 0},
    {"lock, below four ancestors", hold_path, call_lock_field, 0},
    {"lock, beside other holders", readers, call_lock_read, 0},
    {"lock, that waits for holders", readers, call_lock_write, 0},
    {"lock, that waits behind requests for its mode", readers_and_queue, call_lock_write, 0},
    {"lock, that waits behind requests for other modes", readers_and_queue, call_lock_announce, 0},
    {"lock, that closes a cycle", ring, call_close_ring, 0},
    {"lock, that closes many cycles", fan, call_close_fan, 0},
    {"lock, that makes 1000 victims", line, call_close_fan, 0},
    {"lock, that closes a cycle that is kept", ring, call_close_ring, 0},
    {"lock, that closes many cycles that are kept", fan, call_close_fan, 0},
    {"convert, of a single holder", own_reader, call_convert, 0},
    {"convert, beside other holders", announcers, call_convert_among, 0},
    {"convert, before a queue", announcer_before_writers, call_convert_among, 0},
    {"convert, that waits", reader_among, call_convert_wait, 0},
    {"try, of a free resource", nothing, call_try_new, 0},
    {"try, refused", readers_and_queue, call_try, 0},
    {"poll", nothing, call_poll, 0},
    {"release, the first", own_reader, call_release, 0},
    {"release, the next", release_one, call_release, 0},
    {"release, that frees requests", writer_before_readers, call_release, 0},
    {"commit", nothing, call_commit, 0},
    {"commit, beside other holders", reader_and_readers, call_commit, 0},
    {"commit, that frees requests", writer_before_readers, call_commit, 0},
    {"commit, that frees readers before writers", writer_before_both, call_commit, 0},
    {"commit, that frees eight readers before writers", writer_before_eight, call_commit, 0},
    {"commit, that frees the first of a queue", writer_before_writers, call_commit, 0},
    {"abort", request_between, call_abort, 0},
    {"restart", request_between, call_restart, 0},
    {"withdraw", request_between, call_withdraw, 0},
    {"run", nothing, call_run, 0},
    {"serve_batch", batch_of_new, call_batch, 0},
    {"held", reader_and_readers, call_held, 0},
    {"holders", readers, call_holders, 0},
    {"blockers", request_behind, call_blockers, 0},
    {"blockers, of a session that doesn't wait", readers_and_queue, call_blockers_of_none, 0},
    {"transaction", nothing, call_transaction, 0},
    {"request", request_behind, call_request, 0},
    {"dump", readers_and_queue, call_dump, 0},
    {"dump_line, of all lines", writer_before_readers, call_dump_line, 0},
    {"counts", readers_and_queue, call_counts, 0},
    {"locks_held", readers_and_queue, call_locks_held, 0},
    {"locks_of, of few", readers_and_queue, call_locks_of, 0},
    {"locks_of, of many", readers_and_queue, call_locks_of, 0},
    {"ended", freed, call_ended, 0},
    {"history", nothing, call_history, 0},
    {"take_history", nothing, call_take_history, 0},
    {"length", nothing, call_length, 0},
    {"keep_at_most", nothing, call_keep_at_most, 0},
    {"reserve, resources", nothing, call_reserve_resources, 1},
    {"shrink", idle, call_shrink, 1},
    {"deadlocks", deadlocked, call_deadlocks, 0},
    {"open", close_it, open_it, 1},
    {"open, to keep deadlocks", close_it, open_it, 1},
    {"close", idle, call_close, 1},
};

__attribute__((noinline)) void measured_call(void (*call)(void));

/* A function of its own, by whose name its instructions are counted. */
__attribute__((noinline)) void measured_call(void (*call)(void)) {
    call();
    __asm__ volatile(""); /* so that the call isn't a jump, behind which nothing is counted */
}

static void measure(const struct row *row) {
    open_it();
    next_session = FIRST;
    begin(BIG);
    for (uint32_t k = 0; k < quantity("resources"); k++) take(BIG, PELGAISTI_S, MANY + k);
    begin(THIRD);
    for (uint32_t k = 0; k < quantity("others"); k++) take(THIRD, PELGAISTI_S, MANY + k);
    begin(BLOCKER);
    take(BLOCKER, PELGAISTI_X, ELSEWHERE);
    for (uint32_t k = 0; k < quantity("elsewhere"); k++) wait(newcomer(), PELGAISTI_X, ELSEWHERE);
    for (uint32_t k = 0; k < quantity("history"); k++) serve(BIG, call_on(PELGAISTI_POLL, 0, 1), PELGAISTI_CLEAR);
    begin(CALLER);
    for (uint32_t k = 0; k < quantity("own"); k++) take(CALLER, PELGAISTI_X, OWN + k);
    row->prepare();
    if (!row->makes_no_room) check(pelgaisti_book_reserve(&book, 1000, 1000));
    measured_call(row->call);
    if (row->call != call_close) check(pelgaisti_book_close(&book));
}

/* Reads the quantities of a line, behind the name of its row. */
static void read_quantities(char *words) {
    for (int k = 0; k < QUANTITIES; k++) quantities[k].number = 0;
    for (char *word = strtok(words, " \n"); word; word = strtok(NULL, " \n")) {
        char *number = strchr(word, '=');
        int k = 0;
        if (!number) exit(17);
        *number = 0;
        while (k < QUANTITIES && strcmp(word, quantities[k].name)) k++;
        if (k == QUANTITIES) exit(18);
        quantities[k].number = (uint32_t)atol(number + 1);
    }
}

int main(void) {
    char line[512];
    while (fgets(line, sizeof line, stdin)) {
        char *words = strchr(line, ':');
        size_t k = 0;
        if (!words) return 19;
        *words = 0;
        while (k < sizeof rows / sizeof *rows && strcmp(line, rows[k].name)) k++;
        if (k == sizeof rows / sizeof *rows) return 20;
        read_quantities(words + 1);
        measure(&rows[k]);
    }
    return 0;
}
