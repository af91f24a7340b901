/*
 * A small engine: two tables of accounts, and four threads that move money between them. Each move locks the two records that it
 * changes, sleeps while it waits for a lock, and undoes its change if it is chosen as a deadlock's victim, or if it has waited for a
 * minute. Between two moves a thread runs one program: it commits the one, begins the next, and locks the path to its first record. Before
 * the threads start, a record that is held is asked for without waiting, and with a short limit.
 *
 *     ./embed && cc examples/engine.c -Iout -Lout -lpelgaisti -lpthread -o engine && ./engine
 *
 * Each thread makes 500 moves, or as many as the first argument says.
 */
#define _XOPEN_SOURCE 600 /* for barriers under -std=c99 */
#include "pelgaisti.h"
#include <pthread.h>
#include <stdio.h>
#include <stdlib.h>

/* The last record of each table is used only by the two moves that make a deadlock, and before the threads start. SHORT and LONG are
   limits of waits, in milliseconds. */
enum { TABLES = 2, RECORDS = 5, MEETING = 4, THREADS = 4, BALANCE = 100, KEPT = 1024, SHORT = 20, LONG = 60000 };

static long accounts[TABLES][RECORDS];
static pthread_barrier_t both_hold_one;

/* A worker: its session, its number, how many moves it has to make and made, how often it was a victim, and how its next move begins, which
   is a pelgaisti_start. */
typedef struct worker {
    pelgaisti_session *session;
    unsigned number, moves, moved, victims;
    uint32_t start;
} worker;

/* Prints what failed and ends the program. */
static void stop(const char *why, const char *name) {
    fprintf(stderr, "engine: %s: %s\n", why, name);
    exit(1);
}

/* A record of database 1. */
static pelgaisti_resource record_of(uint32_t table, uint32_t record) {
    pelgaisti_resource resource = {3, {1, 0, 0}};
    resource.numbers[1] = table;
    resource.numbers[2] = record;
    return resource;
}

/* Performs a call without a resource and a mode. Without a bound on its turns there is an answer, unless memory is refused. */
static pelgaisti_reply ask(worker *w, uint32_t op) {
    const pelgaisti_call call = {op, 0, {0, {0}}};
    pelgaisti_answer answer;
    pelgaisti_status status = pelgaisti_session_perform(w->session, &call, PELGAISTI_ALL_TURNS, &answer);
    if (status != PELGAISTI_OK) stop("perform", pelgaisti_status_name(status));
    return answer.reply;
}

/* Locks a record exclusively, under intention locks on the database and the table. Returns 0 if the transaction became a victim, or if the
   lock wasn't granted within the limit. */
static int lock_record(worker *w, uint32_t table, uint32_t record, unsigned limit) {
    const pelgaisti_resource resource = record_of(table, record);
    pelgaisti_lock_answer answer;
    pelgaisti_status status = pelgaisti_session_lock(w->session, &resource, PELGAISTI_X, limit, &answer);
    if (status == PELGAISTI_DENIED) stop("lock", pelgaisti_refusal_name(answer.why));
    if (status != PELGAISTI_OK && status != PELGAISTI_VICTIM && status != PELGAISTI_TIMED_OUT) stop("lock", pelgaisti_status_name(status));
    w->victims += status == PELGAISTI_VICTIM;
    return status == PELGAISTI_OK;
}

/* Does what the worker's start says, and locks a record, by one program: so the lock table is taken once. If the program stopped, at a request
   that waits or has made a victim, lock_record goes on. */
static int start_with(worker *w, uint32_t table, uint32_t record) {
    const pelgaisti_program program = {w->start, 0, PELGAISTI_IX, {PELGAISTI_LOCK, PELGAISTI_X, record_of(table, record)}};
    pelgaisti_program_answer made;
    pelgaisti_lock_answer answer;
    pelgaisti_status status = pelgaisti_session_run(w->session, &program, PELGAISTI_ALL_TURNS, &made);
    if (status != PELGAISTI_OK || made.starved) stop("run", pelgaisti_status_name(status));
    if (made.stop == 0) return 1;
    status = pelgaisti_session_wait(w->session, LONG, &answer);
    if (status == PELGAISTI_TIMED_OUT) return 0;
    return lock_record(w, table, record, LONG);
}

/* While a worker holds a record, another asks for it without waiting, and then with a short limit. Its transaction goes on without
   the record. Returns 0 if anything of this went otherwise. */
static int do_without(worker *holder, worker *other) {
    ask(holder, PELGAISTI_BEGIN);
    ask(other, PELGAISTI_BEGIN);
    int held = lock_record(holder, 0, MEETING, 0);
    int refused = !lock_record(other, 0, MEETING, 0), withdrawn = !lock_record(other, 0, MEETING, SHORT);
    int goes_on = lock_record(other, 1, MEETING, 0) && ask(other, PELGAISTI_COMMIT).kind == PELGAISTI_COMMITTED;
    ask(holder, PELGAISTI_COMMIT);
    return held && refused && withdrawn && goes_on;
}

/* Moves 1 from a record of one table to a record of the other. Returns 0 if the move was undone. It is committed, or aborted, by the
   program that begins the next one. */
static int move(worker *w, uint32_t from, uint32_t record, uint32_t to, uint32_t other, int meet) {
    int taken = start_with(w, from, record);
    if (taken) accounts[from][record] -= 1;
    if (meet) pthread_barrier_wait(&both_hold_one); /* makes sure that the first moves of two workers deadlock */
    w->start = PELGAISTI_COMMITS_AND_BEGINS;
    if (taken && lock_record(w, to, other, LONG)) {
        accounts[to][other] += 1;
        return 1;
    }
    if (taken) accounts[from][record] += 1; /* a victim keeps its locks until it aborts */
    w->start = PELGAISTI_ABORTS_AND_BEGINS;
    return 0;
}

/* A thread's work: its moves, each repeated until it commits. */
static void *work(void *argument) {
    worker *w = (worker *)argument;
    uint32_t from = w->number % 2, random = w->number + 1;
    for (unsigned k = 0; k < w->moves; k++) {
        int meet = k == 0 && w->number < 2;
        random = random * 1664525u + 1013904223u;
        uint32_t record = meet ? MEETING : random >> 16 & 3, other = meet ? MEETING : random >> 20 & 3;
        int again = 0;
        while (!move(w, from, record, 1 - from, other, meet && !again)) again = 1;
        w->moved++;
        from = 1 - from;
    }
    if (ask(w, PELGAISTI_COMMIT).kind != PELGAISTI_COMMITTED) stop("commit", "was refused");
    return NULL;
}

int main(int argc, char **argv) {
    static pelgaisti_session sessions[THREADS];
    pelgaisti_book book = PELGAISTI_EMPTY;
    pthread_t threads[THREADS];
    worker workers[THREADS];
    long sum = 0;
    unsigned moves = argc > 1 ? (unsigned)strtoul(argv[1], NULL, 10) : 500, moved = 0, victims = 0;

    for (int t = 0; t < TABLES; t++)
        for (int r = 0; r < RECORDS; r++) accounts[t][r] = BALANCE;
    pthread_barrier_init(&both_hold_one, NULL, 2);
    const pelgaisti_options options = PELGAISTI_OPTIONS(THREADS);
    pelgaisti_status status = pelgaisti_office_open(sessions, &options);
    if (status != PELGAISTI_OK) stop("open", pelgaisti_status_name(status));
    for (unsigned t = 0; t < THREADS; t++) {
        worker w = {&sessions[t], t, moves, 0, 0, PELGAISTI_BEGINS};
        workers[t] = w;
    }
    int did_without = do_without(&workers[0], &workers[1]);
    for (unsigned t = 0; t < THREADS; t++) pthread_create(&threads[t], NULL, work, &workers[t]);
    for (unsigned t = 0; t < THREADS; t++) {
        pthread_join(threads[t], NULL);
        moved += workers[t].moved;
        victims += workers[t].victims;
    }

    /* hand in the sessions and close the office, which leaves one history of all calls, and the counters of all of them */
    for (int t = 1; t < THREADS && status == PELGAISTI_OK; t++) status = pelgaisti_session_hand_in(&sessions[t], &sessions[0]);
    if (status == PELGAISTI_OK) status = pelgaisti_office_close(&sessions[0], &book);
    if (status != PELGAISTI_OK) stop("close", pelgaisti_status_name(status));
    static pelgaisti_entry entries[KEPT];
    pelgaisti_counts counts;
    uint64_t length = 0, first = 0, first_kept = 0;
    size_t kept = 0;
    pelgaisti_book_length(&book, &first_kept, &length);
    pelgaisti_book_counts(&book, &counts);
    pelgaisti_book_take_history(&book, &first, entries, KEPT, &kept);
    pelgaisti_book_close(&book);

    for (int t = 0; t < TABLES; t++)
        for (int r = 0; r < RECORDS; r++) sum += accounts[t][r];
    int whole = kept > 0 && first == first_kept && first + kept == length && entries[kept - 1].reply.kind == PELGAISTI_COMMITTED;
    int ended = counts.waits_begun == counts.waits_granted + counts.victims + counts.waits_withdrawn && counts.waits_withdrawn > 0;
    printf("%u moves; the sum is %ld; a deadlock was undone: %s; the newest calls are kept: %s; each wait has ended: %s; a held record was "
           "done without: %s\n", moved, sum, victims > 0 ? "yes" : "no", whole ? "yes" : "no", ended ? "yes" : "no", did_without ? "yes" : "no");
    return !(moved == THREADS * moves && sum == TABLES * RECORDS * BALANCE && victims > 0 && whole && ended && did_without);
}
