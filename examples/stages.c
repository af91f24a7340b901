/*
 * Transactions that move from thread to thread. Three threads make a transaction one after another: the first begins and asks for a lock,
 * the second sleeps until it is granted, and the third writes and commits. A session is bound to no thread, and its locks go with it.
 * A queue in front of each stage hands the session's handle on: its mutex orders the threads.
 *
 *     ./embed && cc examples/stages.c -Iout -Lout -lpelgaisti -lpthread -o stages && ./stages
 *
 * It makes 200 transactions, or as many as the first argument says, four of them at a time.
 */
#define _XOPEN_SOURCE 600
#include "pelgaisti.h"
#include <pthread.h>
#include <semaphore.h>
#include <stdio.h>
#include <stdlib.h>
#include <string.h>

enum { STAGES = 3, SESSIONS = 4 };

/* A transaction on its way: its session's number, and what its threads tell one another, which is plain memory. */
typedef struct moving {
    uint32_t number;
    uint32_t reply; /* to its request: GRANTED or WAITING */
    long read;
} moving;

/* For each stage the transactions that wait for its thread. */
typedef struct queue {
    pthread_mutex_t guard;
    pthread_cond_t grew;
    moving *items[SESSIONS];
    unsigned count;
} queue;

static queue queues[STAGES];
static pelgaisti_session sessions[SESSIONS];
static sem_t woken[SESSIONS + 1]; /* a session's, not a thread's */
static unsigned rounds = 200;
static long record;               /* plain memory under the lock of 1/7 */

/* Unless all is well, prints what failed and ends the program. */
static void must(int is_well, const char *what) {
    if (!is_well) fprintf(stderr, "stages: %s\n", what), exit(1);
}

static void hand_on(queue *to, moving *it) {
    pthread_mutex_lock(&to->guard);
    to->items[to->count++] = it; /* from here on the handle is the next thread's */
    pthread_cond_signal(&to->grew);
    pthread_mutex_unlock(&to->guard);
}

static moving *take_next(queue *from) {
    pthread_mutex_lock(&from->guard);
    while (from->count == 0) pthread_cond_wait(&from->grew, &from->guard);
    moving *it = from->items[0];
    memmove(from->items, from->items + 1, --from->count * sizeof(from->items[0]));
    pthread_mutex_unlock(&from->guard);
    return it;
}

static void wake(void *engine, uint32_t session) { sem_post((sem_t *)engine + session); }
static const pelgaisti_waker waker = {wake, woken};

/* Performs a call of a transaction. Returns the kind of its reply. */
static uint32_t ask(const moving *it, uint32_t op, const pelgaisti_resource *on, uint32_t mode) {
    pelgaisti_call call = {op, mode, {0, {0}}};
    pelgaisti_answer answer;
    if (on != NULL) call.resource = *on;
    must(pelgaisti_session_perform(&sessions[it->number - 1], &call, PELGAISTI_ALL_TURNS, &answer) == PELGAISTI_OK, pelgaisti_op_name(op));
    return answer.reply.kind;
}

static void begin_and_ask(moving *it) {
    const pelgaisti_resource database = {1, {1}}, place = {2, {1, 7}};
    must(ask(it, PELGAISTI_BEGIN, NULL, 0) == PELGAISTI_BEGAN, "begin");
    must(ask(it, PELGAISTI_LOCK, &database, PELGAISTI_IX) == PELGAISTI_GRANTED, "the database");
    it->reply = ask(it, PELGAISTI_LOCK, &place, PELGAISTI_X);
}

/* Sleeps for what another thread has asked. Requests are granted in their order, which is that of the queue: no stage waits for itself. */
static void wait_and_read(moving *it) {
    while (it->reply == PELGAISTI_WAITING) {
        while (sem_wait(&woken[it->number]) != 0) continue;
        it->reply = ask(it, PELGAISTI_POLL, NULL, 0);
    }
    must(it->reply == PELGAISTI_GRANTED || it->reply == PELGAISTI_CLEAR, "the lock");
    it->read = record;
}

static void write_and_commit(moving *it) {
    record = it->read + 1;
    must(ask(it, PELGAISTI_COMMIT, NULL, 0) == PELGAISTI_COMMITTED, "commit");
}

static void *make_stage(void *argument) {
    static void (*const steps[STAGES])(moving *) = {begin_and_ask, wait_and_read, write_and_commit};
    const size_t stage = (size_t)((queue *)argument - queues);
    for (unsigned round = 0; round < rounds; round++) {
        moving *it = take_next(&queues[stage]);
        steps[stage](it);
        hand_on(&queues[(stage + 1) % STAGES], it); /* the last stage gives the session back for another transaction */
    }
    return NULL;
}

int main(int argc, char **argv) {
    static moving all[SESSIONS];
    pthread_t threads[STAGES];
    pelgaisti_book book = PELGAISTI_EMPTY;
    pelgaisti_options options = PELGAISTI_OPTIONS(SESSIONS);
    options.waker = &waker;
    if (argc > 1) rounds = (unsigned)strtoul(argv[1], NULL, 10);
    must(pelgaisti_office_open(sessions, &options) == PELGAISTI_OK, "open");
    for (int k = 0; k < STAGES; k++)
        must(pthread_mutex_init(&queues[k].guard, NULL) == 0 && pthread_cond_init(&queues[k].grew, NULL) == 0, "a queue");
    for (uint32_t k = 0; k < SESSIONS; k++) {
        must(sem_init(&woken[k + 1], 0, 0) == 0, "a semaphore");
        all[k].number = k + 1;
        hand_on(&queues[0], &all[k]);
    }
    for (int k = 0; k < STAGES; k++) must(pthread_create(&threads[k], NULL, make_stage, &queues[k]) == 0, "a thread");
    for (int k = 0; k < STAGES; k++) pthread_join(threads[k], NULL);
    for (int k = 1; k < SESSIONS; k++) must(pelgaisti_session_hand_in(&sessions[k], &sessions[0]) == PELGAISTI_OK, "hand in");
    must(pelgaisti_office_close(&sessions[0], &book) == PELGAISTI_OK && pelgaisti_book_close(&book) == PELGAISTI_OK, "close");
    printf("%ld transactions, each by %d threads\n", record, STAGES);
    return !(record == (long)rounds && queues[0].count == SESSIONS);
}
