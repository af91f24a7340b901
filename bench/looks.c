/* Measures how long a monitor waits for a look at an office: looks THREADS MILLISECONDS [take]. 1 to 512 threads make transfers by
   programs, as threads.c does, each between 1,000 accounts of its own, so that nothing waits for a lock. They run on any processors.
   One thread more looks at the gauges, and sleeps for 200 microseconds, again and again; with `take` it tries in place of that to take
   up to 4,096 entries of the history, of which the newest 65,536 are kept. A run lasts so long, after some milliseconds; a look that
   is under way at its end is counted with its time.
   Prints how many looks or tries there were, and how many of 1,000 tries took entries; of the times of one the median, the 99th of 100
   and the longest, in ns; and the transfers a second. Fails by SIGALRM if it hangs.
       ./embed && cc -O2 bench/looks.c -Iout -Lout -lpelgaisti -lpthread -o looks */
#define _GNU_SOURCE
#include "runs.h"
#include "pelgaisti.h"
#include <pthread.h>
#include <stdatomic.h>
#include <stdlib.h>
#include <string.h>

enum { MOST = 512, PAUSE_US = 200, WARM_MS = 10, TAKEN = 4096, KEPT = 65536 };

typedef struct worker {
    _Alignas(LINE) _Atomic uint64_t made;
    uint32_t session, random;
} worker;

/* What the thread that looks has done. */
typedef struct monitor {
    int is_take;
    unsigned looks, taken;
    times times;
} monitor;

static pelgaisti_session sessions[MOST + 1];
static worker workers[MOST];
static unsigned threads;
static _Alignas(LINE) _Atomic int is_over;

/* Locks an account of the thread's own in X, after a start with its whole path. */
static void lock_one(worker *w, uint32_t start) {
    uint32_t account = draw(&w->random, 1000);
    pelgaisti_program path = {start, 3, PELGAISTI_IX, {PELGAISTI_LOCK, PELGAISTI_X, {4, {1, 1, w->session, account}}}};
    pelgaisti_program_answer answer;
    if (start != PELGAISTI_NOTHING) path.level = 0;
    if (pelgaisti_session_run(&sessions[w->session - 1], &path, UINT64_MAX, &answer) || answer.stop || answer.starved)
        fail("a session isn't given a lock");
}

static void *work(void *argument) {
    const pelgaisti_call commit = {PELGAISTI_COMMIT, 0, {0, {0}}};
    worker *w = (worker *)argument;
    pelgaisti_answer answer;
    for (uint32_t start = PELGAISTI_BEGINS; !atomic_load_explicit(&is_over, memory_order_relaxed); start = PELGAISTI_COMMITS_AND_BEGINS) {
        lock_one(w, start);
        lock_one(w, PELGAISTI_NOTHING);
        atomic_store_explicit(&w->made, w->made + 1, memory_order_relaxed);
    }
    if (w->made && pelgaisti_session_perform(&sessions[w->session - 1], &commit, UINT64_MAX, &answer)) fail("a session doesn't commit");
    return NULL;
}

static uint64_t made_so_far(void) {
    uint64_t made = 0;
    for (unsigned t = 0; t < threads; t++) made += workers[t].made;
    return made;
}

static void look(void) {
    pelgaisti_book view = PELGAISTI_EMPTY;
    pelgaisti_gauges gauges;
    if (pelgaisti_session_look(&sessions[threads], &view) || pelgaisti_book_gauges(&view, &gauges)
        || pelgaisti_look_end(&sessions[threads], &view))
        fail("there is no look");
    if (gauges.transactions > threads || gauges.waiting) fail("a look isn't of one moment");
}

/* Tries to take entries, and returns whether it did. */
static int take(void) {
    static pelgaisti_entry entries[TAKEN];
    static uint64_t next;
    uint64_t first;
    size_t count;
    pelgaisti_status status = pelgaisti_session_take_history(&sessions[threads], &first, entries, TAKEN, &count);
    if (status != PELGAISTI_OK && status != PELGAISTI_ELSEWHERE) fail("no history is taken");
    if (status == PELGAISTI_OK && first < next) fail("an entry is taken twice");
    if (status == PELGAISTI_OK) next = first + count;
    return status == PELGAISTI_OK;
}

static void close_office(void) {
    pelgaisti_book book = PELGAISTI_EMPTY;
    for (unsigned t = threads; t > 0; t--) pelgaisti_session_hand_in(&sessions[t], &sessions[0]);
    if (pelgaisti_office_close(&sessions[0], &book) || pelgaisti_book_close(&book)) fail("an office isn't closed");
}

/* Looks, or takes, until the run is over. Then no other thread makes a call, and a look that is under way ends. */
static void *watch(void *argument) {
    monitor *m = (monitor *)argument;
    do {
        uint64_t from = now(CLOCK_MONOTONIC);
        if (!m->is_take) look();
        else m->taken += (unsigned)take();
        add_time(&m->times, now(CLOCK_MONOTONIC) - from);
        m->looks++;
        usleep(PAUSE_US);
    } while (!atomic_load_explicit(&is_over, memory_order_relaxed));
    return NULL;
}

static void run(monitor *m, unsigned milliseconds) {
    static pthread_t running[MOST + 1];
    uint64_t made, begun, ns;
    for (unsigned t = 0; t < threads; t++) {
        workers[t].session = workers[t].random = t + 1;
        if (pthread_create(&running[t], NULL, work, &workers[t])) fail("no thread");
    }
    usleep(1000 * WARM_MS);
    made = made_so_far();
    begun = now(CLOCK_MONOTONIC);
    if (pthread_create(&running[threads], NULL, watch, m)) fail("no thread");
    usleep(1000 * milliseconds);
    made = made_so_far() - made;
    ns = now(CLOCK_MONOTONIC) - begun;
    atomic_store(&is_over, 1);
    for (unsigned t = 0; t <= threads; t++) pthread_join(running[t], NULL);
    printf("%s threads=%u looks=%u ", m->is_take ? "take" : "look", threads, m->looks);
    if (m->is_take) printf("taken=%.0f ", 1000.0 * m->taken / m->looks);
    printf("median=%.0f 99th=%.0f longest=%lu second=%.0f\n", time_at(&m->times, 500), time_at(&m->times, 990), m->times.longest,
           (double)made / (double)ns * 1e9);
}

int main(int argc, char **argv) {
    static monitor m;
    int milliseconds = argc > 2 ? atoi(argv[2]) : 0;
    pelgaisti_options options;
    m.is_take = argc == 4 && !strcmp(argv[3], "take");
    threads = argc > 1 ? (unsigned)atoi(argv[1]) : 0;
    if (argc < 3 || argc > 3 + m.is_take || threads < 1 || threads > MOST || milliseconds < 1) return 2;
    options = pelgaisti_default_options(threads + 1);
    options.keep = m.is_take ? KEPT : 0;
    prefer();
    alarm(30 + 2 * (unsigned)milliseconds / 1000);
    if (pelgaisti_office_open(sessions, &options)) fail("no office");
    run(&m, (unsigned)milliseconds);
    close_office();
    return 0;
}
