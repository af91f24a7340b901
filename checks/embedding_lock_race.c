/* Time-outs that race with grants: of each pair of threads one holds a row, and gives it back at about the moment at which the other one's
   time-out of 1 ms is over. Behind each outcome the lock table is asked: after OK the row is held, after TIMED_OUT it isn't, and no request
   waits. In the end outcomes and counters agree. If no pair comes on for 20 seconds, a thread sleeps for ever, and the program fails.
   Usage: embedding_lock_race [ROUNDS [PAIRS]]. Link with -lpthread. */
#define _GNU_SOURCE
#include "embedding_lock.h"

enum { MOST = 64, STILL = 20 };

typedef struct pair {
    uint32_t number;
    pthread_barrier_t meet;
    pthread_t holder, other;
} pair;

static pelgaisti_session s[2 * MOST];
static pair all[MOST];
static uint64_t rounds = 100000, pairs = 16, done, granted, over, finished;

static void *hold(void *at) {
    pair *p = at;
    pelgaisti_session *own = &s[2 * p->number];
    const pelgaisti_resource row = {2, {p->number + 1, 1}};
    uint64_t state = p->number;
    begin(own);
    for (uint64_t k = 0; k < rounds / pairs; k++) {
        pelgaisti_lock_answer answer;
        MUST(pelgaisti_session_lock(own, &row, PELGAISTI_X, PELGAISTI_FOREVER, &answer) == PELGAISTI_OK);
        pthread_barrier_wait(&p->meet);
        const double end = now() + 0.85 + drawn(&state, 400) / 1000.0;
        pause_for(0.7);
        while (now() < end) sched_yield();
        commit(own);
        begin(own);
        pthread_barrier_wait(&p->meet);
    }
    return NULL;
}

static void *ask_for(void *at) {
    pair *p = at;
    const uint32_t number = 2 * p->number + 2;
    pelgaisti_session *own = &s[number - 1];
    const pelgaisti_resource row = {2, {p->number + 1, 1}}, above = {1, {p->number + 1}};
    begin(own);
    for (uint64_t k = 0; k < rounds / pairs; k++) {
        pelgaisti_lock_answer answer;
        pthread_barrier_wait(&p->meet);
        const pelgaisti_status status = pelgaisti_session_lock(own, &row, PELGAISTI_X, 1, &answer);
        const int is_granted = status == PELGAISTI_OK;
        MUST(is_granted || status == PELGAISTI_TIMED_OUT);
        MUST(!waits(own, number) && held_by(own, number, above) == PELGAISTI_IX);
        MUST(held_by(own, number, row) == (is_granted ? PELGAISTI_X : PELGAISTI_NL) && answer.level == 1 + (uint32_t)is_granted);
        __atomic_add_fetch(is_granted ? &granted : &over, 1, __ATOMIC_RELAXED);
        commit(own);
        begin(own);
        __atomic_add_fetch(&done, 1, __ATOMIC_RELAXED);
        pthread_barrier_wait(&p->meet);
    }
    __atomic_add_fetch(&finished, 1, __ATOMIC_RELAXED);
    return NULL;
}

/* Returns when all pairs have finished. */
static void watch(void) {
    uint64_t before = 0;
    for (int still = 0; __atomic_load_n(&finished, __ATOMIC_RELAXED) < pairs; pause_for(100)) {
        const uint64_t made = __atomic_load_n(&done, __ATOMIC_RELAXED);
        still = made == before ? still + 1 : 0;
        before = made;
        MUST(still < 10 * STILL);
    }
}

int main(int argc, char **argv) {
    pelgaisti_counts c;
    if (argc > 1) rounds = strtoull(argv[1], NULL, 10);
    if (argc > 2) pairs = strtoull(argv[2], NULL, 10);
    MUST(pairs <= MOST && open_office_with(s, 2 * pairs, 1024, NULL, 0) == PELGAISTI_OK);
    for (uint32_t k = 0; k < pairs; k++) {
        all[k].number = k;
        pthread_barrier_init(&all[k].meet, NULL, 2);
        MUST(pthread_create(&all[k].holder, NULL, hold, &all[k]) == 0 && pthread_create(&all[k].other, NULL, ask_for, &all[k]) == 0);
    }
    watch();
    for (uint32_t k = 0; k < pairs; k++) pthread_join(all[k].holder, NULL), pthread_join(all[k].other, NULL);
    count_calls(&s[0], &c);
    printf("%lu rounds: %lu granted, %lu timed out; %lu withdrawals, of which %lu too late; %lu waits, %lu polls\n", (unsigned long)done,
           (unsigned long)granted, (unsigned long)over, (unsigned long)c.calls[PELGAISTI_WITHDRAW],
           (unsigned long)c.refusals[PELGAISTI_NOT_WAITING], (unsigned long)c.waits_begun, (unsigned long)c.calls[PELGAISTI_POLL]);
    MUST(c.waits_withdrawn == over && c.calls[PELGAISTI_WITHDRAW] == over + c.refusals[PELGAISTI_NOT_WAITING]);
    MUST(c.waits_begun == c.waits_granted + c.waits_withdrawn && c.waiting == 0);
    close_all(s, 2 * pairs);
    return 0;
}
