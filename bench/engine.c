/* Measures an engine with many threads over one lock table: engine WAY THREADS MILLISECONDS [quiet|busy [ROWS]]. WAY is
       office   one office, a session of it a thread: locks by pelgaisti_session_lock with a time-out of 50 ms, begin, commit and
                abort by pelgaisti_session_perform
       mutex    one book behind a mutex of the C library. A wait sleeps on a condition variable of its session, which the thread that
                ends the wait signals, no longer than the same time-out; awake it polls, or withdraws if the time is over
   Both make the same transactions. There are 64 rows, or so many, 16 on a page of one file, each with a balance. A transfer locks 2 to 8
   of them in any order, so that deadlocks happen: takes money from those that it locks in X, reads those that it locks in S, and pays
   into the last one. One transaction in 64 locks the file, or one page after another, in S, and sums all balances. A transaction that
   becomes a victim, or waits too long, undoes what it wrote, aborts, and is made again with other rows. 1 to 512 threads run on any
   processors, with `busy` beside three processes that are never idle. A run lasts so long, after some milliseconds.
   Prints commits a second; for a commit ns of processors; for 1,000 commits the voluntary and involuntary switches of context; the
   commits of the thread that made least, and most; of the times of transactions, from the first begin to the commit, the median, the
   99th of 100, the 999th of 1,000 and the longest, in ns; and how many became victims, and waited too long.
   Fails with status 4 if money was made or lost, and by SIGALRM if it hangs.
       ./embed && cc -O2 bench/engine.c -Iout -Lout -lpelgaisti -lpthread -o engine */
#define _GNU_SOURCE
#include "runs.h"
#include "pelgaisti.h"
#include <pthread.h>
#include <stdatomic.h>
#include <stdlib.h>
#include <string.h>

enum { MOST = 512, MOST_ROWS = 65536, PAGE = 16, LOCKS = 8, START = 1000, TIMEOUT_MS = 50, WARM_MS = 10 };

/* A thread of the engine; what its transaction has written, and the balances before that. */
typedef struct worker {
    _Alignas(LINE) _Atomic uint64_t made;
    uint64_t made_before, victims, timeouts;
    uint32_t session, random, writes, rows[LOCKS];
    long old[LOCKS], seen;
    times times;
    size_t to_tell;
    uint32_t told[2 * MOST]; /* the sessions that it has to signal */
} worker;

static int is_office;
static pelgaisti_session sessions[MOST];
static pelgaisti_book book;
static pthread_mutex_t mutex = PTHREAD_MUTEX_INITIALIZER;
static pthread_cond_t ended[MOST + 1];
static worker workers[MOST];
static unsigned threads, row_count = 64;
static long balances[MOST_ROWS]; /* written by who has X on the row, read by who has S */
static _Alignas(LINE) _Atomic int phase; /* the run warms up, is measured, is over */

static int phase_now(void) { return atomic_load_explicit(&phase, memory_order_relaxed); }

/* ---- A book behind a mutex. ---- */

/* Adds the sessions whose waits the last call has ended to those that the thread has to signal. */
static void note_ended(worker *w) {
    size_t count = 0;
    if (pelgaisti_book_ended(&book, w->told + w->to_tell, MOST, &count)) fail("a book doesn't tell whose waits have ended");
    w->to_tell += count;
}

static void signal_ended(worker *w) {
    for (; w->to_tell; w->to_tell--) pthread_cond_signal(&ended[w->told[w->to_tell - 1]]);
}

static pelgaisti_reply serve(worker *w, uint32_t op) {
    const pelgaisti_call call = {op, 0, {0, {0}}};
    pelgaisti_reply reply;
    if (pelgaisti_book_serve(&book, w->session, &call, &reply)) fail("a book serves no call");
    note_ended(w);
    return reply;
}

/* Waits for a request that was answered WAITING: OK, VICTIM or TIMED_OUT. The time runs from the first wait. */
static pelgaisti_status wait_behind_mutex(worker *w, struct timespec *until) {
    pelgaisti_reply reply = {PELGAISTI_WAITING, 0};
    if (!until->tv_sec) {
        uint64_t end = now(CLOCK_MONOTONIC) + TIMEOUT_MS * 1000000u;
        *until = (struct timespec){(time_t)(end / 1000000000u), (long)(end % 1000000000u)};
    }
    signal_ended(w);
    while (reply.kind == PELGAISTI_WAITING) {
        int is_over = pthread_cond_timedwait(&ended[w->session], &mutex, until) == ETIMEDOUT;
        reply = serve(w, is_over ? PELGAISTI_WITHDRAW : PELGAISTI_POLL);
    }
    if (reply.kind == PELGAISTI_WITHDRAWN) return PELGAISTI_TIMED_OUT;
    /* a withdrawal that comes too late is refused */
    if (reply.kind == PELGAISTI_REFUSED) return reply.value == PELGAISTI_NOT_WAITING ? PELGAISTI_OK : PELGAISTI_VICTIM;
    return reply.kind == PELGAISTI_CLEAR ? PELGAISTI_OK : PELGAISTI_VICTIM;
}

/* Locks a resource as pelgaisti_session_lock does: its path by a program, and what is left of it after a wait by another one. */
static pelgaisti_status lock_behind_mutex(worker *w, const pelgaisti_resource *at, uint32_t mode) {
    pelgaisti_program path = {PELGAISTI_NOTHING, 0, pelgaisti_parent_mode(mode), {PELGAISTI_LOCK, mode, *at}};
    pelgaisti_status status = PELGAISTI_OK;
    struct timespec until = {0, 0};
    pthread_mutex_lock(&mutex);
    while (status == PELGAISTI_OK && path.level < at->level) {
        pelgaisti_program_answer answer;
        if (pelgaisti_book_run(&book, w->session, &path, &answer) || answer.starved || answer.stop == PELGAISTI_REFUSED)
            fail("a book runs no program");
        note_ended(w);
        path.level += answer.served;
        if (answer.stop) status = answer.stop == PELGAISTI_WAITING ? wait_behind_mutex(w, &until) : PELGAISTI_VICTIM;
    }
    pthread_mutex_unlock(&mutex);
    signal_ended(w);
    return status;
}

/* ---- Both ways: a lock, which is OK, VICTIM or TIMED_OUT; and a begin, a commit or an abort. ---- */

static pelgaisti_status lock(worker *w, pelgaisti_resource at, uint32_t mode) {
    pelgaisti_lock_answer answer;
    pelgaisti_status status;
    if (!is_office) return lock_behind_mutex(w, &at, mode);
    status = pelgaisti_session_lock(&sessions[w->session - 1], &at, mode, TIMEOUT_MS, &answer);
    if (status != PELGAISTI_OK && status != PELGAISTI_VICTIM && status != PELGAISTI_TIMED_OUT) fail("a session isn't given a lock");
    return status;
}

static void make(worker *w, uint32_t op, uint32_t expected) {
    const pelgaisti_call call = {op, 0, {0, {0}}};
    pelgaisti_answer answer;
    if (is_office) {
        if (pelgaisti_session_perform(&sessions[w->session - 1], &call, UINT64_MAX, &answer)) fail("a session performs no call");
    } else {
        pthread_mutex_lock(&mutex);
        answer.reply = serve(w, op);
        pthread_mutex_unlock(&mutex);
        signal_ended(w);
    }
    if (answer.reply.kind != expected) fail("a begin, a commit or an abort is refused");
}

/* ---- Transactions. ---- */

static void write_row(worker *w, uint32_t row, long to) {
    w->rows[w->writes] = row;
    w->old[w->writes++] = balances[row];
    balances[row] = to;
}

static pelgaisti_status transfer(worker *w) {
    uint32_t last = 1 + draw(&w->random, LOCKS - 1);
    long taken = 0;
    for (uint32_t k = 0; k <= last; k++) {
        uint32_t row = draw(&w->random, row_count), writes = k == 0 || k == last || draw(&w->random, 2);
        long less = 1 + (long)draw(&w->random, 9);
        pelgaisti_status status = lock(w, (pelgaisti_resource){4, {1, 1, row / PAGE, row}}, writes ? PELGAISTI_X : PELGAISTI_S);
        if (status != PELGAISTI_OK) return status;
        if (k == last) write_row(w, row, balances[row] + taken);
        else if (writes) write_row(w, row, balances[row] - less), taken += less;
        else w->seen += balances[row];
    }
    return PELGAISTI_OK;
}

static void check_sum(void) {
    long sum = 0;
    for (uint32_t k = 0; k < row_count; k++) sum += balances[k];
    if (sum != (long)row_count * START) fail("money was made or lost");
}

static pelgaisti_status scan(worker *w) {
    pelgaisti_status status = PELGAISTI_OK;
    uint32_t pages = row_count / PAGE, from = draw(&w->random, pages);
    if (draw(&w->random, 2)) status = lock(w, (pelgaisti_resource){2, {1, 1}}, PELGAISTI_S);
    else
        for (uint32_t k = 0; k < pages && status == PELGAISTI_OK; k++)
            status = lock(w, (pelgaisti_resource){3, {1, 1, (from + k) % pages}}, PELGAISTI_S);
    if (status == PELGAISTI_OK) check_sum();
    return status;
}

/* Makes a transaction, again and again until it is committed. */
static void transaction(worker *w) {
    for (;;) {
        pelgaisti_status status;
        make(w, PELGAISTI_BEGIN, PELGAISTI_BEGAN);
        w->writes = 0;
        status = draw(&w->random, 64) ? transfer(w) : scan(w);
        if (status == PELGAISTI_OK) break;
        if (phase_now() == 1) status == PELGAISTI_VICTIM ? w->victims++ : w->timeouts++;
        for (; w->writes; w->writes--) balances[w->rows[w->writes - 1]] = w->old[w->writes - 1];
        make(w, PELGAISTI_ABORT, PELGAISTI_ABORTED);
    }
    make(w, PELGAISTI_COMMIT, PELGAISTI_COMMITTED);
}

/* ---- A run. ---- */

/* A transaction that is under way when the run is over is among the times, but not among the commits. */
static void *work(void *argument) {
    worker *w = (worker *)argument;
    while (phase_now() < 2) {
        uint64_t from = now(CLOCK_MONOTONIC);
        transaction(w);
        atomic_store_explicit(&w->made, w->made + 1, memory_order_relaxed);
        if (phase_now() > 0) add_time(&w->times, now(CLOCK_MONOTONIC) - from);
    }
    return NULL;
}

static void open_table(void) {
    pelgaisti_options options = PELGAISTI_OPTIONS(threads);
    pthread_condattr_t kind;
    options.keep = 0;
    pthread_condattr_init(&kind);
    pthread_condattr_setclock(&kind, CLOCK_MONOTONIC);
    for (unsigned t = 0; t < threads; t++) {
        pthread_cond_init(&ended[t + 1], &kind);
        workers[t].session = workers[t].random = t + 1;
    }
    for (uint32_t k = 0; k < row_count; k++) balances[k] = START;
    if (is_office ? pelgaisti_office_open(sessions, &options) : pelgaisti_book_open(&book, &options)) fail("no lock table");
}

static void close_table(void) {
    pelgaisti_gauges left;
    for (unsigned t = threads - 1; is_office && t > 0; t--) pelgaisti_session_hand_in(&sessions[t], &sessions[0]);
    if (is_office && pelgaisti_office_close(&sessions[0], &book)) fail("an office isn't closed");
    if (pelgaisti_book_gauges(&book, &left) || left.transactions || left.locks || left.waiting) fail("locks are left");
    if (pelgaisti_book_close(&book)) fail("a book isn't closed");
    check_sum();
}

/* Measures for so long, and prints what was used, and the commits. */
static void measure(unsigned milliseconds) {
    uint64_t all = 0, least = UINT64_MAX, most = 0;
    moment from, used;
    double commits;
    usleep(1000 * WARM_MS);
    from = moment_now();
    for (unsigned t = 0; t < threads; t++) workers[t].made_before = workers[t].made;
    atomic_store(&phase, 1);
    usleep(1000 * milliseconds);
    used = since(from, moment_now());
    for (unsigned t = 0; t < threads; t++) {
        uint64_t made = workers[t].made - workers[t].made_before;
        all += made;
        if (made < least) least = made;
        if (made > most) most = made;
    }
    atomic_store(&phase, 2);
    commits = all ? (double)all : 1; /* on a machine that others use a run may make nothing */
    printf("second=%.0f processor=%.0f ", (double)all / used.ns * 1e9, used.processor / commits);
    printf("voluntary=%.0f involuntary=%.0f ", 1000 * used.voluntary / commits, 1000 * used.involuntary / commits);
    printf("least=%lu most=%lu ", least, most);
}

static void run(unsigned milliseconds) {
    static pthread_t running[MOST];
    static times times;
    uint64_t victims = 0, timeouts = 0;
    open_table();
    for (unsigned t = 0; t < threads; t++)
        if (pthread_create(&running[t], NULL, work, &workers[t])) fail("no thread");
    measure(milliseconds);
    for (unsigned t = 0; t < threads; t++) {
        pthread_join(running[t], NULL);
        add_times(&times, &workers[t].times);
        victims += workers[t].victims;
        timeouts += workers[t].timeouts;
    }
    close_table();
    printf("median=%.0f 99th=%.0f 999th=%.0f ", time_at(&times, 500), time_at(&times, 990), time_at(&times, 999));
    printf("longest=%lu victims=%lu timeouts=%lu\n", times.longest, victims, timeouts);
}

int main(int argc, char **argv) {
    const char *beside = argc > 4 ? argv[4] : "quiet";
    int is_busy = !strcmp(beside, "busy"), milliseconds = argc > 3 ? atoi(argv[3]) : 0;
    if (argc < 4 || argc > 6 || milliseconds < 1 || (!is_busy && strcmp(beside, "quiet"))) return 2;
    is_office = !strcmp(argv[1], "office");
    threads = (unsigned)atoi(argv[2]);
    if (argc > 5) row_count = (unsigned)atoi(argv[5]) / PAGE * PAGE;
    if ((!is_office && strcmp(argv[1], "mutex")) || threads < 1 || threads > MOST || row_count < PAGE || row_count > MOST_ROWS) return 2;
    prefer();
    if (is_busy) start_busy();
    alarm(30 + 2 * (unsigned)milliseconds / 1000);
    printf("%s %s threads=%u rows=%u ", argv[1], beside, threads, row_count);
    run((unsigned)milliseconds);
    end_busy();
    return 0;
}
