/* Calls that wait for locks, one case after another: which outcome each has, and what the lock table has then. Each case says what it shows.
   One that hangs is ended by an alarm, behind 30 seconds. Usage: embedding_lock [CASE [SECONDS]]. Link with -Wl,--wrap=clock_gettime,--wrap=syscall and -lpthread: a thread that was
   answered WAITING, and reads the clock before its sleep, can be held up there, so that the wake-up comes first; and system calls are
   counted. */
#define _GNU_SOURCE
#include "embedding_lock.h"
#include <errno.h>
#include <signal.h>
#include <unistd.h>

enum { SESSIONS = 8 };
static pelgaisti_session s[SESSIONS + 1]; /* s[1] is that of session 1 */
static const pelgaisti_resource row = {3, {1, 1, 1}}, other = {3, {1, 2, 1}}, table = {2, {1, 1}};

static double held_up;
int __real_clock_gettime(clockid_t clock, struct timespec *at);
int __wrap_clock_gettime(clockid_t clock, struct timespec *at);
int __wrap_clock_gettime(clockid_t clock, struct timespec *at) {
    int result = __real_clock_gettime(clock, at);
    if (clock == CLOCK_MONOTONIC && held_up > 0) pause_for(held_up);
    return result;
}

/* How many system calls the library has made. */
static uint64_t system_calls;
long __real_syscall(long number, long a, long b, long c, long d, long e, long f);
long __wrap_syscall(long number, long a, long b, long c, long d, long e, long f);
long __wrap_syscall(long number, long a, long b, long c, long d, long e, long f) {
    __atomic_fetch_add(&system_calls, 1, __ATOMIC_RELAXED);
    return __real_syscall(number, a, b, c, d, e, f);
}

typedef struct job {
    pelgaisti_session *session;
    pelgaisti_resource resource;
    uint32_t mode;
    uint64_t timeout;
    int is_wait;
    pelgaisti_status status;
    pelgaisti_lock_answer answer;
    double took;
    pthread_t thread;
} job;

static void *run(void *at) {
    job *j = at;
    double begun = now();
    j->status = j->is_wait ? pelgaisti_session_wait(j->session, j->timeout, &j->answer)
                           : pelgaisti_session_lock(j->session, &j->resource, j->mode, j->timeout, &j->answer);
    j->took = now() - begun;
    return NULL;
}

static void start(job *j, uint32_t session, pelgaisti_resource r, uint32_t mode, uint64_t timeout) {
    memset(j, 0, sizeof *j);
    j->session = &s[session], j->resource = r, j->mode = mode, j->timeout = timeout;
    MUST(pthread_create(&j->thread, NULL, run, j) == 0);
}

static pelgaisti_status end(job *j) {
    pthread_join(j->thread, NULL);
    return j->status;
}

static pelgaisti_status lock(uint32_t session, pelgaisti_resource r, uint32_t mode, uint64_t timeout, pelgaisti_lock_answer *answer) {
    memset(answer, 77, sizeof *answer);
    return pelgaisti_session_lock(&s[session], &r, mode, timeout, answer);
}

/* Locks a path exclusively by a program, in at most so many turns: what it has stopped at; PELGAISTI_NOT_SERVED if it is pending. */
static uint32_t run_path(uint32_t session, pelgaisti_resource r, uint64_t turns) {
    const pelgaisti_program path = {PELGAISTI_NOTHING, 0, PELGAISTI_IX, {PELGAISTI_LOCK, PELGAISTI_X, r}};
    pelgaisti_program_answer answer;
    pelgaisti_status status = pelgaisti_session_run(&s[session], &path, turns, &answer);
    MUST(status == PELGAISTI_OK || (status == PELGAISTI_NOT_SERVED && turns == 0));
    return status == PELGAISTI_OK ? answer.stop : (uint32_t)status;
}

static void open_with(const pelgaisti_waker *waker) {
    uint32_t k;
    memset(s, 0, sizeof s);
    MUST(open_office_with(s + 1, SESSIONS, UINT64_MAX, waker, 0) == PELGAISTI_OK);
    for (k = 1; k <= SESSIONS; k++) begin(&s[k]);
}

static void open_office(void) { open_with(NULL); }
static void close_office(void) { close_all(s + 1, SESSIONS); }

static uint64_t calls_of(uint32_t op) {
    pelgaisti_counts c;
    count_calls(&s[SESSIONS], &c);
    return c.calls[op];
}

static uint64_t length(void) {
    pelgaisti_book view = PELGAISTI_EMPTY;
    uint64_t first, made = 0;
    look(&s[SESSIONS], &view);
    MUST(pelgaisti_book_length(&view, &first, &made) == PELGAISTI_OK);
    end_look(&s[SESSIONS], &view);
    return made;
}

/* A request that waits without end is granted: one poll, and the path goes on behind the level that waited. */
static void granted(void) {
    pelgaisti_lock_answer a;
    job j;
    uint64_t before;
    open_office();
    MUST(lock(1, table, PELGAISTI_X, PELGAISTI_FOREVER, &a) == PELGAISTI_OK && a.level == 2 && a.why == 0 && a.place == SESSIONS + 1);
    before = length();
    start(&j, 2, row, PELGAISTI_X, PELGAISTI_FOREVER);
    until_waits(&s[1], 2);
    pause_for(30);
    commit(&s[1]);
    MUST(end(&j) == PELGAISTI_OK && j.answer.level == 3 && j.answer.why == 0 && j.took >= 29);
    /* two levels, of which the second waits; the commit; a poll; the third level */
    MUST(length() - before == 5 && calls_of(PELGAISTI_POLL) == 1 && j.answer.place == before + 4);
    MUST(held_by(&s[1], 2, row) == PELGAISTI_X && held_by(&s[1], 2, table) == PELGAISTI_IX);
    close_office();
}

/* A time-out: not before its time, the request is gone, and the answer tells the levels that are held; then the same call goes on. */
static void times_out(void) {
    pelgaisti_lock_answer a;
    double begun;
    open_office();
    MUST(lock(1, row, PELGAISTI_S, 1000, &a) == PELGAISTI_OK);
    begun = now();
    MUST(lock(2, row, PELGAISTI_X, 60, &a) == PELGAISTI_TIMED_OUT && a.level == 2 && a.why == 0);
    MUST(now() - begun >= 59.9 && now() - begun < 3000 && !waits(&s[1], 2));
    MUST(held_by(&s[1], 2, row) == PELGAISTI_NL && held_by(&s[1], 2, table) == PELGAISTI_IX);
    MUST(lock(3, table, PELGAISTI_X, 10, &a) == PELGAISTI_TIMED_OUT && a.level == 1);
    MUST(calls_of(PELGAISTI_WITHDRAW) == 2);
    commit(&s[1]);
    MUST(lock(2, row, PELGAISTI_X, 60, &a) == PELGAISTI_OK && a.level == 3);
    close_office();
}

/* 0 never waits and never makes a victim; what is free on the path is taken. */
static void tries(void) {
    pelgaisti_lock_answer a;
    open_office();
    MUST(lock(1, row, PELGAISTI_X, 0, &a) == PELGAISTI_OK && a.level == 3);
    MUST(lock(2, row, PELGAISTI_S, 0, &a) == PELGAISTI_TIMED_OUT && a.level == 2 && a.why == 0 && !waits(&s[1], 2));
    MUST(calls_of(PELGAISTI_LOCK) == 0 && calls_of(PELGAISTI_TRY) == 6 && calls_of(PELGAISTI_WITHDRAW) == 0);
    close_office();
}

/* Denials, with their reason; statuses with which nothing is written. */
static void denied(void) {
    pelgaisti_lock_answer a, before;
    pelgaisti_session closed = PELGAISTI_EMPTY;
    pelgaisti_resource bad = {0, {0}};
    pelgaisti_call poll = {PELGAISTI_POLL, 0, {0, {0}}};
    pelgaisti_answer last;
    open_office();
    MUST(lock(1, row, PELGAISTI_NL, 5, &a) == PELGAISTI_DENIED && a.level == 0 && a.why == PELGAISTI_NOTHING_ASKED);
    ask(&s[2], PELGAISTI_COMMIT);
    MUST(lock(2, row, PELGAISTI_X, 5, &a) == PELGAISTI_DENIED && a.why == PELGAISTI_NO_TRANSACTION);
    MUST(lock(2, row, PELGAISTI_X, 0, &a) == PELGAISTI_DENIED && a.why == PELGAISTI_NO_TRANSACTION);
    memset(&before, 77, sizeof before);
    MUST(lock(1, bad, PELGAISTI_X, 5, &a) == PELGAISTI_NO_SUCH_LEVEL && memcmp(&a, &before, sizeof a) == 0);
    MUST(lock(1, bad, PELGAISTI_X, 0, &a) == PELGAISTI_NO_SUCH_LEVEL);
    bad.level = 6;
    MUST(lock(1, bad, PELGAISTI_X, 5, &a) == PELGAISTI_NO_SUCH_LEVEL && lock(1, bad, PELGAISTI_X, 0, &a) == PELGAISTI_NO_SUCH_LEVEL);
    MUST(lock(1, row, 2, 5, &a) == PELGAISTI_NO_SUCH_MODE && lock(1, row, 2, 0, &a) == PELGAISTI_NO_SUCH_MODE);
    MUST(pelgaisti_session_lock(NULL, &row, 15, 5, &a) == PELGAISTI_NULL && pelgaisti_session_lock(&s[1], NULL, 15, 5, &a) == PELGAISTI_NULL);
    MUST(pelgaisti_session_lock(&s[1], &row, 15, 5, NULL) == PELGAISTI_NULL && pelgaisti_session_wait(&s[1], 5, NULL) == PELGAISTI_NULL);
    MUST(pelgaisti_session_lock(&closed, &row, 15, 5, &a) == PELGAISTI_CLOSED && pelgaisti_session_wait(&closed, 5, &a) == PELGAISTI_CLOSED);
    MUST(pelgaisti_session_perform(&s[3], &poll, 0, &last) == PELGAISTI_NOT_SERVED);
    MUST(lock(3, row, PELGAISTI_X, 5, &a) == PELGAISTI_PENDING && lock(3, row, PELGAISTI_X, 0, &a) == PELGAISTI_PENDING && memcmp(&a, &before, sizeof a) == 0);
    MUST(pelgaisti_session_wait(&s[3], 5, &a) == PELGAISTI_OK && a.place == SESSIONS + 4);
    MUST(lock(3, row, PELGAISTI_X, 5, &a) == PELGAISTI_OK);
    MUST(pelgaisti_session_retire(&s[4]) == PELGAISTI_OK);
    MUST(lock(4, row, PELGAISTI_X, 5, &a) == PELGAISTI_RETIRED && pelgaisti_session_wait(&s[4], 5, &a) == PELGAISTI_RETIRED);
    close_office();
}

/* A victim that sleeps is woken; one that closes the cycle itself is told at once; both go on by RESTART. */
static void victim(void) {
    pelgaisti_lock_answer a;
    job j;
    open_office();
    MUST(lock(1, row, PELGAISTI_X, 0, &a) == PELGAISTI_OK && lock(2, other, PELGAISTI_X, 0, &a) == PELGAISTI_OK);
    start(&j, 2, row, PELGAISTI_S, PELGAISTI_FOREVER);
    until_waits(&s[1], 2);
    pause_for(10);
    {
        job k;
        start(&k, 1, other, PELGAISTI_S, PELGAISTI_FOREVER);
        MUST(end(&j) == PELGAISTI_VICTIM && j.answer.level == 2 && j.answer.why == 0);
        MUST(lock(2, row, PELGAISTI_S, 5, &a) == PELGAISTI_VICTIM && lock(2, row, PELGAISTI_S, 0, &a) == PELGAISTI_VICTIM);
        MUST(pelgaisti_session_wait(&s[2], 5, &a) == PELGAISTI_VICTIM);
        MUST(ask(&s[2], PELGAISTI_RESTART).kind == PELGAISTI_RESTARTED);
        MUST(end(&k) == PELGAISTI_OK);
    }
    MUST(lock(3, table, PELGAISTI_IS, 5, &a) == PELGAISTI_OK);
    MUST(ask(&s[1], PELGAISTI_COMMIT).kind == PELGAISTI_COMMITTED && ask(&s[2], PELGAISTI_COMMIT).kind == PELGAISTI_COMMITTED);
    MUST(lock(3, row, PELGAISTI_X, 0, &a) == PELGAISTI_OK && lock(4, other, PELGAISTI_X, 0, &a) == PELGAISTI_OK);
    start(&j, 3, other, PELGAISTI_X, PELGAISTI_FOREVER);
    until_waits(&s[1], 3);
    MUST(lock(4, row, PELGAISTI_X, PELGAISTI_FOREVER, &a) == PELGAISTI_VICTIM && a.level == 2);
    MUST(ask(&s[4], PELGAISTI_ABORT).kind == PELGAISTI_ABORTED && end(&j) == PELGAISTI_OK);
    close_office();
}

/* The wake-up comes between the answer WAITING and the sleep: it isn't lost. So of pelgaisti_session_wait. */
static void early(void) {
    pelgaisti_lock_answer a;
    job j;
    int k;
    for (k = 0; k < 2; k++) {
        open_office();
        MUST(lock(1, row, PELGAISTI_X, 0, &a) == PELGAISTI_OK);
        held_up = 100;
        if (k == 0) {
            start(&j, 2, row, PELGAISTI_X, 10000);
        } else {
            MUST(run_path(2, row, UINT64_MAX) == PELGAISTI_WAITING);
            memset(&j, 0, sizeof j), j.session = &s[2], j.timeout = 10000, j.is_wait = 1;
            MUST(pthread_create(&j.thread, NULL, run, &j) == 0);
        }
        until_waits(&s[1], 2);
        pause_for(50);
        commit(&s[1]);
        MUST(end(&j) == PELGAISTI_OK && j.took < 5000);
        held_up = 0;
        close_office();
    }
}

/* pelgaisti_session_wait, of a call of the engine's own: granted at once, after a while, in vain; with nothing to wait for. */
static void waits_alone(void) {
    pelgaisti_call call = {PELGAISTI_LOCK, PELGAISTI_X, {1, {5}}};
    pelgaisti_lock_answer a;
    pelgaisti_answer last;
    open_office();
    MUST(pelgaisti_session_wait(&s[1], PELGAISTI_FOREVER, &a) == PELGAISTI_OK && a.level == 0);
    MUST(pelgaisti_session_perform(&s[1], &call, 1, &last) == PELGAISTI_OK && last.reply.kind == PELGAISTI_GRANTED);
    MUST(pelgaisti_session_perform(&s[2], &call, 1, &last) == PELGAISTI_OK && last.reply.kind == PELGAISTI_WAITING);
    MUST(lock(2, row, PELGAISTI_X, 5, &a) == PELGAISTI_DENIED && a.why == PELGAISTI_IS_WAITING && waits(&s[1], 2));
    MUST(pelgaisti_session_wait(&s[2], 20, &a) == PELGAISTI_TIMED_OUT && !waits(&s[1], 2));
    MUST(pelgaisti_session_perform(&s[2], &call, 1, &last) == PELGAISTI_OK && last.reply.kind == PELGAISTI_WAITING);
    MUST(pelgaisti_session_wait(&s[2], 0, &a) == PELGAISTI_TIMED_OUT && !waits(&s[1], 2));
    MUST(pelgaisti_session_perform(&s[2], &call, 1, &last) == PELGAISTI_OK && last.reply.kind == PELGAISTI_WAITING);
    commit(&s[1]);
    MUST(pelgaisti_session_wait(&s[2], PELGAISTI_FOREVER, &a) == PELGAISTI_OK);
    close_office();
}

/* A pending call, as NO_MEMORY leaves one, that was answered WAITING by another session's pass, and whose wait is over with its wake-up made
   before pelgaisti_session_wait is called: that doesn't sleep. Nor does it if the pending call is granted, or is a withdrawal. It finishes a
   program, too. */
static void pending(void) {
    pelgaisti_call call = {PELGAISTI_LOCK, PELGAISTI_X, {1, {5}}}, take_back = {PELGAISTI_WITHDRAW, 0, {0, {0}}};
    pelgaisti_lock_answer a;
    pelgaisti_answer last;
    double begun;
    open_office();
    MUST(pelgaisti_session_perform(&s[1], &call, 1, &last) == PELGAISTI_OK && last.reply.kind == PELGAISTI_GRANTED);
    MUST(pelgaisti_session_perform(&s[2], &call, 0, &last) == PELGAISTI_NOT_SERVED);
    MUST(pelgaisti_session_serve(&s[3], NULL) == PELGAISTI_OK && waits(&s[1], 2));
    MUST(ask(&s[1], PELGAISTI_COMMIT).kind == PELGAISTI_COMMITTED && !waits(&s[1], 2));
    begun = now();
    MUST(pelgaisti_session_wait(&s[2], 10000, &a) == PELGAISTI_OK && now() - begun < 5000);
    MUST(pelgaisti_session_perform(&s[4], &call, 0, &last) == PELGAISTI_NOT_SERVED);
    MUST(pelgaisti_session_wait(&s[4], 30, &a) == PELGAISTI_TIMED_OUT && !waits(&s[1], 4));
    MUST(pelgaisti_session_perform(&s[4], &call, 1, &last) == PELGAISTI_OK && last.reply.kind == PELGAISTI_WAITING);
    MUST(pelgaisti_session_perform(&s[4], &take_back, 0, &last) == PELGAISTI_NOT_SERVED);
    MUST(pelgaisti_session_wait(&s[4], PELGAISTI_FOREVER, &a) == PELGAISTI_TIMED_OUT && !waits(&s[1], 4));
    commit(&s[2]);
    MUST(pelgaisti_session_perform(&s[4], &call, 0, &last) == PELGAISTI_NOT_SERVED);
    MUST(pelgaisti_session_wait(&s[4], PELGAISTI_FOREVER, &a) == PELGAISTI_OK);
    MUST(run_path(5, row, 0) == PELGAISTI_NOT_SERVED && lock(5, row, PELGAISTI_X, 5, &a) == PELGAISTI_PENDING);
    MUST(pelgaisti_session_wait(&s[5], 5, &a) == PELGAISTI_OK && held_by(&s[1], 5, row) == PELGAISTI_X);
    MUST(run_path(6, row, 0) == PELGAISTI_NOT_SERVED && pelgaisti_session_wait(&s[6], 30, &a) == PELGAISTI_TIMED_OUT);
    MUST(!waits(&s[1], 6) && held_by(&s[1], 6, table) == PELGAISTI_IX);
    close_office();
}

/* A waker of the engine's that is held up at session 2, so that the library's wake-up of session 3, which comes behind it, is late. */
static uint32_t at_waker, let_go, woken_by_engine;
static void slow_wake(void *engine, uint32_t session) {
    (void)engine;
    __atomic_add_fetch(&woken_by_engine, 1, __ATOMIC_SEQ_CST);
    if (__atomic_exchange_n(&at_waker, session, __ATOMIC_SEQ_CST) != 0) return;
    while (!__atomic_load_n(&let_go, __ATOMIC_SEQ_CST)) pause_for(0.2);
}
static void *commit_in_thread(void *at) {
    commit(at);
    return NULL;
}

/* A withdrawal that comes too late is told as a grant; the wake-up of that wait comes during the next wait, which it doesn't end: neither
   with OK, nor does its time begin anew. And an office with a waker of the engine's: the library wakes, too. */
static void late(void) {
    static const pelgaisti_waker waker = {slow_wake, NULL};
    pelgaisti_lock_answer a;
    pthread_t thread;
    job first, second, next;
    double begun;
    uint32_t slow, fast;
    open_with(&waker);
    at_waker = let_go = woken_by_engine = 0;
    MUST(lock(1, row, PELGAISTI_X, 0, &a) == PELGAISTI_OK && lock(4, other, PELGAISTI_X, 0, &a) == PELGAISTI_OK);
    start(&first, 2, row, PELGAISTI_S, 300);
    until_waits(&s[5], 2);
    start(&second, 3, row, PELGAISTI_S, 300);
    until_waits(&s[5], 3);
    MUST(pthread_create(&thread, NULL, commit_in_thread, &s[1]) == 0); /* grants both, wakes one, and is held up */
    MUST(end(&first) == PELGAISTI_OK && end(&second) == PELGAISTI_OK && first.answer.level == 3 && second.answer.level == 3);
    slow = __atomic_load_n(&at_waker, __ATOMIC_SEQ_CST) == 2 ? 3 : 2, fast = 5 - slow;
    MUST((slow == 3 ? &second : &first)->took >= 299 && calls_of(PELGAISTI_WITHDRAW) == 1);
    MUST(held_by(&s[5], slow, row) == PELGAISTI_S && held_by(&s[5], fast, row) == PELGAISTI_S);
    begun = now();
    start(&next, slow, other, PELGAISTI_S, 800);
    until_waits(&s[5], slow);
    pause_for(600);
    __atomic_store_n(&let_go, 1, __ATOMIC_SEQ_CST);
    pthread_join(thread, NULL);
    MUST(end(&next) == PELGAISTI_TIMED_OUT && next.answer.level == 2 && now() - begun >= 799 && now() - begun < 1350);
    MUST(held_by(&s[5], slow, other) == PELGAISTI_NL && !waits(&s[5], slow));
    start(&next, slow, other, PELGAISTI_S, PELGAISTI_FOREVER);
    until_waits(&s[5], slow);
    MUST(ask(&s[4], PELGAISTI_COMMIT).kind == PELGAISTI_COMMITTED && end(&next) == PELGAISTI_OK && woken_by_engine == 3);
    close_office();
}

/* Signals, and wake-ups that aren't for this wait (of a session of another office that has the same line, since 4,096 sessions were opened
   between them), come all the time: the time-out comes in its time, and nothing is told as granted. */
static void nothing(int number) { (void)number; }
static void disturbed(void) {
    static pelgaisti_session filler[PELGAISTI_MAX_SESSIONS], twin[SESSIONS];
    pelgaisti_call call = {PELGAISTI_LOCK, PELGAISTI_X, {1, {5}}};
    struct sigaction action;
    pelgaisti_lock_answer a;
    pelgaisti_answer last;
    uint64_t mark, mine;
    uint32_t k;
    job j;
    double begun, end_at;
    memset(&action, 0, sizeof action);
    action.sa_handler = nothing;
    sigaction(SIGUSR1, &action, NULL);
    open_office();
    MUST(pelgaisti_session_mark(&s[1], &mine) == PELGAISTI_OK);
    for (k = 0; k < 4; k++) { /* 4,096 sessions with those of the first office */
        const size_t count = k < 3 ? PELGAISTI_MAX_SESSIONS : PELGAISTI_MAX_SESSIONS - SESSIONS;
        memset(filler, 0, sizeof filler);
        MUST(open_sessions(filler, count) == PELGAISTI_OK);
        close_all(filler, count);
    }
    memset(twin, 0, sizeof twin);
    MUST(open_sessions(twin, SESSIONS) == PELGAISTI_OK && pelgaisti_session_mark(&twin[0], &mark) == PELGAISTI_OK && mark == mine + 4096);
    for (k = 0; k < 2; k++) ask(&twin[k], PELGAISTI_BEGIN);
    MUST(lock(1, row, PELGAISTI_X, 0, &a) == PELGAISTI_OK);
    begun = now();
    start(&j, 2, row, PELGAISTI_X, 400);
    until_waits(&s[1], 2);
    for (end_at = now() + 1000; now() < end_at && waits(&s[1], 2);) {
        pthread_kill(j.thread, SIGUSR1);
        pause_for(5); /* else the wake-up, and not the signal, ends the sleep in the kernel */
        MUST(pelgaisti_session_perform(&twin[0], &call, UINT64_MAX, &last) == PELGAISTI_OK && last.reply.kind == PELGAISTI_GRANTED);
        MUST(pelgaisti_session_perform(&twin[1], &call, UINT64_MAX, &last) == PELGAISTI_OK && last.reply.kind == PELGAISTI_WAITING);
        ask(&twin[0], PELGAISTI_COMMIT), ask(&twin[1], PELGAISTI_COMMIT), ask(&twin[0], PELGAISTI_BEGIN), ask(&twin[1], PELGAISTI_BEGIN);
        pause_for(5);
    }
    MUST(end(&j) == PELGAISTI_TIMED_OUT && j.answer.level == 2 && now() - begun >= 399 && now() - begun < 950);
    MUST(calls_of(PELGAISTI_POLL) > 5 && held_by(&s[1], 2, row) == PELGAISTI_NL);
    close_all(twin, SESSIONS);
    close_office();
}

/* Time-outs that are longer than any clock: the thread sleeps in one system call, and a grant ends it. */
static void forever(void) {
    static const uint64_t all[] = {UINT64_MAX - 1, UINT64_MAX / 2, (uint64_t)INT64_MAX + 1, UINT64_C(9223372036854775), UINT64_C(4294967296), UINT64_C(2147483648000), PELGAISTI_FOREVER};
    pelgaisti_lock_answer a;
    uint64_t before;
    size_t k;
    job j;
    for (k = 0; k < sizeof all / sizeof *all; k++) {
        open_office();
        MUST(lock(1, row, PELGAISTI_X, all[k], &a) == PELGAISTI_OK);
        start(&j, 2, row, PELGAISTI_X, all[k]);
        until_waits(&s[1], 2);
        before = __atomic_load_n(&system_calls, __ATOMIC_RELAXED);
        pause_for(100);
        MUST(__atomic_load_n(&system_calls, __ATOMIC_RELAXED) - before < 10);
        MUST(waits(&s[1], 2) && ask(&s[1], PELGAISTI_COMMIT).kind == PELGAISTI_COMMITTED && end(&j) == PELGAISTI_OK && j.took < 5000);
        close_office();
    }
}

/* A thread that is cancelled while it sleeps ends its wait, has its outcome, and is cancelled behind it. */
static uint32_t had_outcome;
static void *cancelled(void *at) {
    run(at);
    had_outcome = 1;
    pthread_testcancel();
    had_outcome = 2;
    return NULL;
}
static void cancel(void) {
    pelgaisti_lock_answer a;
    void *result;
    job j;
    open_office();
    MUST(lock(1, row, PELGAISTI_X, 0, &a) == PELGAISTI_OK);
    memset(&j, 0, sizeof j), j.session = &s[2], j.resource = row, j.mode = PELGAISTI_X, j.timeout = 200, had_outcome = 0;
    MUST(pthread_create(&j.thread, NULL, cancelled, &j) == 0);
    until_waits(&s[1], 2);
    pthread_cancel(j.thread);
    pthread_join(j.thread, &result);
    MUST(result == PTHREAD_CANCELED && had_outcome == 1 && j.status == PELGAISTI_TIMED_OUT && j.took >= 199);
    close_office();
}

/* errno stays as it was. */
static void keeps_errno(void) {
    pelgaisti_lock_answer a;
    open_office();
    MUST(lock(1, row, PELGAISTI_X, 0, &a) == PELGAISTI_OK);
    errno = 12345;
    MUST(lock(2, row, PELGAISTI_X, 5, &a) == PELGAISTI_TIMED_OUT && errno == 12345);
    close_office();
}

int main(int count, char **words) {
    static const struct { const char *name; void (*run)(void); } cases[] = {
        {"granted", granted}, {"times_out", times_out}, {"tries", tries}, {"denied", denied}, {"victim", victim}, {"early", early},
        {"waits_alone", waits_alone}, {"pending", pending}, {"late", late}, {"disturbed", disturbed}, {"forever", forever}, {"cancel", cancel}, {"errno", keeps_errno}};
    size_t k;
    for (k = 0; k < sizeof cases / sizeof *cases; k++) {
        if (count > 1 && strcmp(words[1], cases[k].name) != 0) continue;
        printf("%s: ", cases[k].name), fflush(stdout);
        alarm(count > 2 ? (unsigned)atoi(words[2]) : 30);
        cases[k].run();
        printf("ok\n");
    }
    return 0;
}
