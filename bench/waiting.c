/* Measures how threads wait for locks: waiting HOW THREADS RECORDS TRANSACTIONS [MICROSECONDS]. Each thread makes so many
   transactions, each of which locks one of so many records exclusively, holds it for so long (20 by default), asleep as one that
   reads a page from a disk, and commits. A request that waits waits as HOW says:
       sleep   until the thread whose pass has ended the wait wakes it, and polls once
       poll    polls, and sleeps between two polls: 10 microseconds at first, twice as long each time up to a millisecond
       yield   polls, and yields the processor between two polls
   Prints transactions a second, processor time a transaction, calls of the history a transaction, and of the times from a request
   that waits to its grant as the thread learns of it the median and the 99th of 100.
       ./embed && cc -O2 bench/waiting.c -Iout -Lout -lpelgaisti -lpthread -o waiting */
#define _DEFAULT_SOURCE
#include "pelgaisti.h"
#include <pthread.h>
#include <sched.h>
#include <semaphore.h>
#include <stdio.h>
#include <stdlib.h>
#include <string.h>
#include <sys/resource.h>
#include <time.h>

enum { MOST = 256 };

typedef struct worker {
    pelgaisti_session *session;
    uint32_t number, random;
    uint64_t *waits;
    size_t waited;
} worker;

static pelgaisti_session sessions[MOST];
static worker workers[MOST];
static sem_t woken[MOST + 1];
static unsigned threads, records, transactions, held = 20;
static enum { SLEEP, POLL, YIELD } how;

static uint64_t now(void) {
    struct timespec time;
    clock_gettime(CLOCK_MONOTONIC, &time);
    return (uint64_t)time.tv_sec * 1000000000u + (uint64_t)time.tv_nsec;
}

static void pause_for(long nanoseconds) {
    struct timespec time = {0, 0};
    time.tv_nsec = nanoseconds;
    nanosleep(&time, NULL);
}

static void wake(void *engine, uint32_t session) {
    (void)engine;
    sem_post(&woken[session]);
}

static const pelgaisti_waker waker = {wake, NULL};

static pelgaisti_status open_office(void) {
    pelgaisti_options options = PELGAISTI_OPTIONS(threads);
    options.keep = 0;
    if (how == SLEEP) options.waker = &waker;
    return pelgaisti_office_open(sessions, &options);
}

static pelgaisti_reply ask(worker *w, uint32_t op, uint32_t record) {
    pelgaisti_call call = {0, 0, {0, {0}}};
    pelgaisti_answer answer;
    call.op = op;
    if (record) {
        call.mode = PELGAISTI_X;
        call.resource.level = 1;
        call.resource.numbers[0] = record;
    }
    if (pelgaisti_session_perform(w->session, &call, UINT64_MAX, &answer)) exit(4);
    return answer.reply;
}

static void await(worker *w) {
    uint64_t begun = now();
    long pause = 10000;
    pelgaisti_reply reply;
    do {
        if (how == SLEEP)
            while (sem_wait(&woken[w->number]) != 0) continue;
        if (how == POLL) {
            pause_for(pause);
            pause = pause < 500000 ? 2 * pause : 1000000;
        }
        if (how == YIELD) sched_yield();
        reply = ask(w, PELGAISTI_POLL, 0);
    } while (reply.kind == PELGAISTI_WAITING);
    if (reply.kind != PELGAISTI_CLEAR) exit(4);
    w->waits[w->waited++] = now() - begun;
}

static void *work(void *argument) {
    worker *w = (worker *)argument;
    for (unsigned k = 0; k < transactions; k++) {
        w->random = w->random * 1664525u + 1013904223u;
        ask(w, PELGAISTI_BEGIN, 0);
        if (ask(w, PELGAISTI_LOCK, 1 + (w->random >> 16) % records).kind == PELGAISTI_WAITING) await(w);
        if (held) pause_for(1000L * held);
        ask(w, PELGAISTI_COMMIT, 0);
    }
    return NULL;
}

static int before(const void *a, const void *b) {
    uint64_t x = *(const uint64_t *)a, y = *(const uint64_t *)b;
    return (x > y) - (x < y);
}

static double seconds_of(struct timeval time) { return (double)time.tv_sec + (double)time.tv_usec / 1e6; }

int main(int argc, char **argv) {
    static const char *const ways[] = {"sleep", "poll", "yield"};
    pelgaisti_book book = PELGAISTI_EMPTY;
    pthread_t running[MOST];
    struct rusage used;
    uint64_t *waits, first = 0, length = 0, begun;
    size_t waited = 0;
    double all, seconds, processor;
    int way = 0;

    if (argc < 5) return 2;
    while (way < 3 && strcmp(ways[way], argv[1])) way++;
    threads = (unsigned)atoi(argv[2]);
    records = (unsigned)atoi(argv[3]);
    transactions = (unsigned)atoi(argv[4]);
    if (argc > 5) held = (unsigned)atoi(argv[5]);
    if (way == 3 || threads < 1 || threads > MOST || records < 1 || transactions < 1) return 2;
    how = way == 0 ? SLEEP : way == 1 ? POLL : YIELD;
    all = (double)threads * transactions;
    if (!(waits = malloc((size_t)all * sizeof *waits)) || open_office()) return 4;
    for (unsigned t = 0; t < threads; t++) {
        workers[t].session = &sessions[t];
        workers[t].number = workers[t].random = t + 1;
        workers[t].waits = waits + (size_t)t * transactions;
        sem_init(&woken[t + 1], 0, 0);
    }
    begun = now();
    for (unsigned t = 0; t < threads; t++) pthread_create(&running[t], NULL, work, &workers[t]);
    for (unsigned t = 0; t < threads; t++) pthread_join(running[t], NULL);
    seconds = (double)(now() - begun) / 1e9;
    getrusage(RUSAGE_SELF, &used);
    processor = seconds_of(used.ru_utime) + seconds_of(used.ru_stime);
    for (unsigned t = 0; t < threads; t++) {
        memmove(waits + waited, workers[t].waits, workers[t].waited * sizeof *waits);
        waited += workers[t].waited;
    }
    for (unsigned t = threads - 1; t > 0; t--) pelgaisti_session_hand_in(&sessions[t], &sessions[0]);
    if (pelgaisti_office_close(&sessions[0], &book) || pelgaisti_book_length(&book, &first, &length)) return 4;
    qsort(waits, waited, sizeof *waits, before);
    printf("%-5s %3u threads %3u records: %7.0f transactions a second, %6.1f us of processors and %6.2f calls each; ", ways[way],
           threads, records, all / seconds, processor / all * 1e6, (double)length / all);
    printf("%.0f in 100 wait, %.0f us at the median and %.0f at the 99th of 100\n", 100 * (double)waited / all,
           waited ? (double)waits[waited / 2] / 1e3 : 0, waited ? (double)waits[waited * 99 / 100] / 1e3 : 0);
    return 0;
}
