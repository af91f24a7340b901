/* How threads wait for the lock table (bindings/c/turns.c): in crowds, asleep beside a look, beside threads that look and take the history, in
   slices of time, at several offices, beside forks, cancelled, and where memory is refused. Nobody hangs, and each waits no longer than a
   bound, which is generous, as the machine may be busy with other work.

   Usage: embedding_admission [CASE [SECONDS [THREADS [TRANSACTIONS [PROCESSORS]]]]]: all cases, or one, which ends after so many seconds (60);
   `crowd` with at most 256 threads, of four sessions each, each of which makes so many transactions, on so many processors. Link with
   -Wl,--wrap=malloc,--wrap=realloc,--wrap=syscall and -lpthread. Prints the line of each check that fails, and last 'N passed, M failed'. */
#define _GNU_SOURCE
#include "embedding_lock.h"
#include <errno.h>
#include <linux/futex.h>
#include <semaphore.h>
#include <sys/syscall.h>
#include <sys/wait.h>
#include <unistd.h>

enum { MOST = 256, EACH = 4, KEPT = 1024, ONE_IN = 6, WARM = 20000 };

static int passed, failed;
#define CHECK(condition) \
    do { \
        if (condition) { \
            passed++; \
        } else { \
            failed++; \
            printf("%s:%d: %s\n", __FILE__, __LINE__, #condition); \
        } \
    } while (0)

static pelgaisti_session s[MOST * EACH];
static int is_over, refuses, is_slow_to_come, is_slow_to_go_on;
static uint64_t allocations, refused, starved, sleeps, entered, returned, answered;
static __thread uint64_t own_wakes;

/* ---- What the library calls: allocations, which are refused now and then, and sleeps in the kernel, which are counted. ---- */

void *__real_malloc(size_t size);
void *__real_realloc(void *at, size_t size);
void *__wrap_malloc(size_t size);
void *__wrap_realloc(void *at, size_t size);
long __real_syscall(long number, long a, long b, long c, long d, long e, long f);
long __wrap_syscall(long number, long a, long b, long c, long d, long e, long f);

static void count(uint64_t *word) { __atomic_fetch_add(word, 1, __ATOMIC_RELAXED); }

static uint64_t value(const uint64_t *word) { return __atomic_load_n(word, __ATOMIC_SEQ_CST); }

static int is_refused(void) {
    uint64_t hash;
    if (!__atomic_load_n(&refuses, __ATOMIC_RELAXED)) return 0;
    hash = (__atomic_fetch_add(&allocations, 1, __ATOMIC_RELAXED) + 1) * UINT64_C(0x9E3779B97F4A7C15);
    if ((hash >> 33) % ONE_IN != 0) return 0;
    count(&refused);
    return 1;
}

void *__wrap_malloc(size_t size) { return is_refused() ? NULL : __real_malloc(size); }

void *__wrap_realloc(void *at, size_t size) { return is_refused() ? NULL : __real_realloc(at, size); }

/* Holds up every eighth thread that is about to sleep, so that it is called up before; and, if they are to be slow, each that was called up, or
   has called up another. */
long __wrap_syscall(long number, long a, long b, long c, long d, long e, long f) {
    const int sleeps_now = number == SYS_futex && b == FUTEX_WAIT_PRIVATE, wakes_now = number == SYS_futex && b == FUTEX_WAKE_PRIVATE;
    long result;
    if (sleeps_now && __atomic_add_fetch(&sleeps, 1, __ATOMIC_RELAXED) % 8 == 0) pause_for(0.05);
    if (wakes_now) own_wakes++;
    result = __real_syscall(number, a, b, c, d, e, f);
    if (sleeps_now && __atomic_load_n(&is_slow_to_come, __ATOMIC_RELAXED)) pause_for(0.2);
    if (wakes_now && __atomic_load_n(&is_slow_to_go_on, __ATOMIC_RELAXED)) pause_for(2);
    return result;
}

/* ---- Threads that make transactions. ---- */

/* A thread with sessions of its own: the first one's number, how many. How many transactions it is to make, 0: until all is over, and has
   made, and the longest of them in milliseconds. */
typedef struct worker {
    uint32_t first, sessions;
    uint64_t random, wanted, made;
    double longest;
    pthread_t thread;
} worker;

static worker w[MOST];

static int goes_on(const worker *it) { return it->wanted ? it->made < it->wanted : !__atomic_load_n(&is_over, __ATOMIC_RELAXED); }

/* A program with this start, which locks the session's own row, or nothing. */
static void run(uint32_t number, uint32_t start, int locks) {
    pelgaisti_program program = {start, 0, PELGAISTI_IX, {locks ? PELGAISTI_LOCK : 0, PELGAISTI_X, {3, {1, 1, 0, 0, 0}}}};
    pelgaisti_program_answer answer;
    program.last.resource.numbers[2] = number;
    if (!locks) memset(&program.last, 0, sizeof program.last);
    MUST(pelgaisti_session_run(&s[number - 1], &program, UINT64_MAX, &answer) == PELGAISTI_OK);
    MUST(answer.stop == 0 && answer.starved == 0);
}

/* The same by single calls, which are finished where memory was refused. */
static void call(uint32_t number) {
    pelgaisti_session *own = &s[number - 1];
    pelgaisti_call lock = {PELGAISTI_LOCK, PELGAISTI_X, {1, {0}}};
    pelgaisti_answer answer;
    pelgaisti_status status;
    lock.resource.numbers[0] = 1 + number;
    begin(own);
    status = pelgaisti_session_perform(own, &lock, UINT64_MAX, &answer);
    while (status == PELGAISTI_NO_MEMORY) count(&starved), status = pelgaisti_session_perform(own, NULL, UINT64_MAX, &answer);
    MUST(status == PELGAISTI_OK && answer.reply.kind == PELGAISTI_GRANTED);
    commit(own);
}

/* One or more transactions of the session with this number. */
static void transact(worker *it, uint32_t number) {
    uint32_t k, way = __atomic_load_n(&refuses, __ATOMIC_RELAXED) ? 0 : drawn(&it->random, 3);
    if (way == 0) call(number);
    else run(number, PELGAISTI_BEGINS, 1);
    for (k = 0; way == 2 && k < 3; k++, it->made++) run(number, PELGAISTI_COMMITS_AND_BEGINS, 1);
    if (way > 0) run(number, PELGAISTI_COMMITS, 0);
    it->made++;
}

static void *work(void *at) {
    worker *it = at;
    while (goes_on(it)) {
        const double begun = now();
        double took;
        transact(it, it->first + drawn(&it->random, it->sessions));
        took = now() - begun;
        if (took > it->longest) it->longest = took;
    }
    return NULL;
}

static void start_one(worker *it, uint32_t first, uint32_t sessions, uint64_t wanted) {
    const worker fresh = {first, sessions, first, wanted, 0, 0, 0};
    *it = fresh;
    MUST(pthread_create(&it->thread, NULL, work, it) == 0);
}

/* Starts so many threads, from session `first` on, with so many sessions each. */
static void start(uint32_t first, uint32_t threads, uint32_t each, uint64_t wanted) {
    for (uint32_t k = 0; k < threads; k++) start_one(&w[k], first + k * each, each, wanted);
}

static uint64_t join(uint32_t threads) {
    uint64_t made = 0;
    for (uint32_t k = 0; k < threads; k++) {
        MUST(pthread_join(w[k].thread, NULL) == 0);
        made += w[k].made;
    }
    return made;
}

static uint64_t end(uint32_t threads) {
    uint64_t made;
    __atomic_store_n(&is_over, 1, __ATOMIC_RELAXED);
    made = join(threads);
    __atomic_store_n(&is_over, 0, __ATOMIC_RELAXED);
    return made;
}

/* The same of one that goes on until all is over. */
static void end_one(pthread_t thread) {
    __atomic_store_n(&is_over, 1, __ATOMIC_RELAXED);
    MUST(pthread_join(thread, NULL) == 0);
    __atomic_store_n(&is_over, 0, __ATOMIC_RELAXED);
}

static void open_for(size_t sessions) { MUST(open_office_with(s, sessions, KEPT, NULL, 0) == PELGAISTI_OK); }

/* Two threads make transactions as fast as they can, until it is known how long calls take. */
static void warm_up(uint32_t first) {
    start(first, 2, 1, WARM);
    join(2);
}

static int is_less(const void *a, const void *b) {
    const double x = *(const double *)a, y = *(const double *)b;
    return (x > y) - (x < y);
}

static void sort(double *list, size_t length) { qsort(list, length, sizeof *list, is_less); }

/* ---- The library is used before main begins, as by a constructor in C++. ---- */

static int was_early;

__attribute__((constructor)) static void use_early(void) {
    alarm(60);
    open_for(2);
    call(1);
    close_all(s, 2);
    was_early = 1;
}

static void constructed(void) { CHECK(was_early); }

/* ---- Crowds. ---- */

static uint32_t crowd_threads = 64;
static uint64_t crowd_each = 500;

/* Each thread makes so many transactions, every other one a quarter of them, so that it ends while others wait. */
static void crowd_of(uint32_t threads, uint32_t each, uint64_t wanted) {
    pelgaisti_counts counts;
    uint64_t made;
    open_for(threads * each);
    for (uint32_t k = 0; k < threads; k++) start_one(&w[k], 1 + k * each, each, k % 2 ? wanted / 4 + 1 : wanted);
    made = join(threads);
    count_calls(&s[0], &counts);
    CHECK(made > threads / 2 * wanted && counts.calls[PELGAISTI_BEGIN] == made && counts.calls[PELGAISTI_COMMIT] == made);
    close_all(s, threads * each);
}

static void crowd(void) {
    crowd_of(crowd_threads, 1, crowd_each);
    crowd_of(crowd_threads, EACH, crowd_each);
}

/* ---- Threads that make one call when they are told to. ---- */

enum { CALLERS = 24 };

typedef struct caller {
    pelgaisti_session *session;
    sem_t go;
    pthread_t thread;
    int ends;
    double answered;
    pelgaisti_reply reply;
} caller;

static caller callers[CALLERS];
static sem_t done;

static void wait_for(sem_t *it) {
    while (sem_wait(it) != 0) continue;
}

static void *call_when_told(void *at) {
    caller *it = at;
    for (wait_for(&it->go); !it->ends; wait_for(&it->go)) {
        count(&entered);
        it->reply = ask(it->session, PELGAISTI_POLL);
        it->answered = now();
        count(&returned);
        pthread_testcancel();
        MUST(sem_post(&done) == 0);
    }
    return NULL;
}

/* In an office of that many sessions and one: all but the first have an open transaction. */
static void start_callers(uint32_t many) {
    open_for(many + 1);
    entered = returned = 0;
    MUST(sem_init(&done, 0, 0) == 0);
    for (uint32_t k = 0; k < many; k++) {
        callers[k].session = &s[k + 1];
        callers[k].ends = 0;
        begin(&s[k + 1]);
        MUST(sem_init(&callers[k].go, 0, 0) == 0 && pthread_create(&callers[k].thread, NULL, call_when_told, &callers[k]) == 0);
    }
}

static void tell(uint32_t k) { MUST(sem_post(&callers[k].go) == 0); }

static void end_callers(uint32_t many) {
    for (uint32_t k = 0; k < many; k++) {
        callers[k].ends = 1;
        tell(k);
        MUST(pthread_join(callers[k].thread, NULL) == 0);
        commit(&s[k + 1]);
    }
    close_all(s, many + 1);
}

static void spin_for(double milliseconds) {
    const double until = now() + milliseconds;
    while (now() < until) continue;
}

/* While session 1 looks for some time, the first so many make a call. Returns how long after the look the last one was answered. */
static double call_beside_look(uint32_t many, double milliseconds) {
    pelgaisti_book view = PELGAISTI_EMPTY;
    double ended, longest = 0;
    look(&s[0], &view);
    for (uint32_t k = 0; k < many; k++) tell(k);
    if (milliseconds < 0.3) spin_for(milliseconds);
    else pause_for(milliseconds);
    ended = now();
    end_look(&s[0], &view);
    for (uint32_t k = 0; k < many; k++) wait_for(&done);
    for (uint32_t k = 0; k < many; k++) {
        MUST(callers[k].reply.kind == PELGAISTI_CLEAR);
        if (callers[k].answered - ended > longest) longest = callers[k].answered - ended;
    }
    return longest;
}

/* Of the looks, some end while threads are on their way to sleep, and some when all sleep, one or more. */
static void sleepers(void) {
    enum { ROUNDS = 400 };
    static double took[ROUNDS];
    uint64_t random = 1;
    const uint64_t slept = value(&sleeps);
    start_callers(CALLERS);
    for (uint32_t k = 0; k < ROUNDS; k++) {
        const uint32_t many = k % 4 < 2 ? 1 + k % 2 : 1 + drawn(&random, CALLERS);
        took[k] = call_beside_look(many, k % 3 == 0 ? drawn(&random, 250) / 1000.0 : 1 + drawn(&random, 1000) / 1000.0);
    }
    sort(took, ROUNDS);
    CHECK(took[ROUNDS / 2] < 20 && took[ROUNDS - 1] < 10000);
    CHECK(value(&sleeps) > slept + ROUNDS / 2 && returned > ROUNDS);
    end_callers(CALLERS);
}

/* ---- Looks, and whoever takes the history. ---- */

static double look_once(pelgaisti_session *session, double milliseconds) {
    const double begun = now();
    pelgaisti_book view = PELGAISTI_EMPTY;
    double took;
    look(session, &view);
    took = now() - begun;
    if (milliseconds > 0) spin_for(milliseconds);
    end_look(session, &view);
    return took;
}

static pelgaisti_status take(pelgaisti_session *session) {
    static pelgaisti_entry entries[KEPT];
    uint64_t first;
    size_t length;
    return pelgaisti_session_take_history(session, &first, entries, KEPT, &length);
}

static void *look_often(void *at) {
    pelgaisti_session *session = at;
    for (int k = 0; k < 100; k++) MUST(look_once(session, 0.02) < 5000);
    return NULL;
}

/* Session 1 looks and takes the history beside 16 threads; and then sessions 1 to 4 look at once. */
static void looks_beside_threads(void) {
    enum { LOOKS = 100 };
    static double took[LOOKS];
    pthread_t threads[4];
    int taken = 0;
    open_for(20);
    start(5, 16, 1, 0);
    for (int k = 0; k < LOOKS; k++) took[k] = look_once(&s[0], 0.02), pause_for(0.5);
    sort(took, LOOKS);
    CHECK(took[LOOKS - 2] < 50 && took[LOOKS - 1] < 5000);
    for (int k = 0; k < LOOKS; k++) taken += take(&s[0]) == PELGAISTI_OK, pause_for(0.2);
    CHECK(taken > LOOKS / 2);
    for (int k = 0; k < 4; k++) MUST(pthread_create(&threads[k], NULL, look_often, &s[k]) == 0);
    for (int k = 0; k < 4; k++) MUST(pthread_join(threads[k], NULL) == 0);
    CHECK(end(16) > 100);
    close_all(s, 20);
}

static void *look_in_circle(void *at) {
    for (; !__atomic_load_n(&is_over, __ATOMIC_RELAXED); count(at)) look_once(&s[0], 1);
    return NULL;
}

static void *poll_often(void *at) {
    for (int k = 0; k < 50; k++) MUST(ask(at, PELGAISTI_POLL).kind == PELGAISTI_CLEAR);
    return NULL;
}

/* Beside a thread that looks in a circle, eight make 50 calls each, though they are slow to come when they are called up: as a rule each look
   waits until all have come who waited for the one before. */
static void looks_in_circle(void) {
    enum { THREADS = 8 };
    pthread_t thread, threads[THREADS];
    uint64_t made = 0;
    open_for(THREADS + 1);
    for (int k = 0; k < THREADS; k++) begin(&s[k + 1]);
    __atomic_store_n(&is_slow_to_come, 1, __ATOMIC_RELAXED);
    MUST(pthread_create(&thread, NULL, look_in_circle, &made) == 0);
    for (int k = 0; k < THREADS; k++) MUST(pthread_create(&threads[k], NULL, poll_often, &s[k + 1]) == 0);
    for (int k = 0; k < THREADS; k++) MUST(pthread_join(threads[k], NULL) == 0);
    CHECK(value(&made) < 500);
    __atomic_store_n(&is_slow_to_come, 0, __ATOMIC_RELAXED);
    end_one(thread);
    for (int k = 0; k < THREADS; k++) commit(&s[k + 1]);
    close_all(s, THREADS + 1);
}

/* The shortest of three times that 20,000 calls take. */
static double time_of_calls(pelgaisti_session *session) {
    double least = 1e9;
    for (int k = 0; k < 3; k++) {
        const double begun = now();
        double took;
        for (int n = 0; n < 10000; n++) begin(session), commit(session);
        took = now() - begun;
        if (took < least) least = took;
    }
    return least;
}

static void *take_in_circle(void *at) {
    while (!__atomic_load_n(&is_over, __ATOMIC_RELAXED)) MUST(take(at) == PELGAISTI_ELSEWHERE);
    return NULL;
}

/* Whoever takes the history while its own thread looks is told so, and the door is open then. While another tries for the table, calls stand
   back, also one that needs no table: so some hundred are made in ten milliseconds, and not many thousands. */
static void takes_are_given_up(void) {
    enum { WINDOWS = 9 };
    double calls[WINDOWS];
    pelgaisti_book view = PELGAISTI_EMPTY;
    const pelgaisti_call poll = {PELGAISTI_POLL, 0, {0, {0}}};
    pelgaisti_answer answer;
    pthread_t thread;
    double begun, took;
    open_for(3);
    look(&s[0], &view);
    begun = now();
    CHECK(take(&s[1]) == PELGAISTI_ELSEWHERE);
    took = now() - begun;
    CHECK(took > 1.5 && took < 2000);
    end_look(&s[0], &view);
    CHECK(time_of_calls(&s[0]) < 800 && take(&s[1]) == PELGAISTI_OK);
    look(&s[0], &view);
    MUST(pelgaisti_session_publish(&s[2], &poll, NULL) == PELGAISTI_OK);
    MUST(pthread_create(&thread, NULL, take_in_circle, &s[1]) == 0);
    pause_for(5);
    for (int k = 0; k < WINDOWS; k++) {
        begun = now();
        for (calls[k] = 0; now() - begun < 10; calls[k]++) MUST(pelgaisti_session_perform(&s[2], NULL, 1, &answer) == PELGAISTI_NOT_SERVED);
    }
    sort(calls, WINDOWS);
    CHECK(calls[WINDOWS / 2] < 5000);
    end_one(thread);
    end_look(&s[0], &view);
    CHECK(pelgaisti_session_perform(&s[2], NULL, 9, &answer) == PELGAISTI_OK);
    close_all(s, 3);
}

static void looks(void) {
    looks_beside_threads();
    looks_in_circle();
    takes_are_given_up();
}

/* ---- Slices of time. Before each test calls are measured, so that one slice is right. ---- */

/* How long a begin takes; the transaction ends at once. */
static double begin_once(pelgaisti_session *session) {
    const double begun = now();
    double took;
    begin(session);
    took = now() - begun;
    commit(session);
    return took;
}

static void many_transactions(pelgaisti_session *session, int count_of) {
    for (int k = 0; k < count_of; k++) begin(session), commit(session);
}

static double own_time(void) {
    struct timespec time;
    clock_gettime(CLOCK_THREAD_CPUTIME_ID, &time);
    return (double)time.tv_sec * 1e3 + (double)time.tv_nsec / 1e6;
}

/* Makes transactions until all is over, and tells how often it called somebody up, and how much of a processor it had meanwhile. */
typedef struct runner {
    uint64_t calls_up;
    double share;
} runner;

static void *go_on(void *at) {
    runner *it = at;
    const double begun = now();
    while (!__atomic_load_n(&is_over, __ATOMIC_RELAXED)) many_transactions(&s[0], 100);
    it->calls_up = own_wakes;
    it->share = own_time() / (now() - begun);
    return NULL;
}

/* Beside a thread that never stops another begins now and then. If that one had a processor to itself, it calls the other up most times: else
   this is tried again, and not judged if the machine is too busy. */
static void begins_beside_another(void) {
    enum { TIMES = 50 };
    static double took[TIMES];
    int is_tried = 0, is_right = 0;
    open_for(2);
    warm_up(1);
    for (int tries = 0; tries < 5 && !is_right; tries++) {
        runner it = {0, 0};
        pthread_t thread;
        MUST(pthread_create(&thread, NULL, go_on, &it) == 0);
        for (int k = 0; k < TIMES; k++) pause_for(2), took[k] = begin_once(&s[1]);
        end_one(thread);
        sort(took, TIMES);
        CHECK(took[TIMES / 2] < 200 && took[TIMES - 1] < 5000);
        is_tried |= it.share > 0.8;
        is_right = it.calls_up >= TIMES / 2;
    }
    CHECK(is_right || !is_tried);
    close_all(s, 2);
}

/* A thread in step with the one that tests: what it does until it has to wait. */
typedef struct partner {
    sem_t go, is_done;
    pthread_t thread;
    void (*step)(void);
} partner;

static partner other;

static void *go_in_step(void *at) {
    (void)at;
    for (wait_for(&other.go); other.step; wait_for(&other.go)) {
        other.step();
        MUST(sem_post(&other.is_done) == 0);
    }
    return NULL;
}

static void let_other(void (*step)(void)) {
    other.step = step;
    MUST(sem_post(&other.go) == 0);
    if (step) wait_for(&other.is_done);
}

static void start_other(void) {
    MUST(sem_init(&other.go, 0, 0) == 0 && sem_init(&other.is_done, 0, 0) == 0);
    MUST(pthread_create(&other.thread, NULL, go_in_step, NULL) == 0);
}

static void end_other(void) {
    let_other(NULL);
    MUST(pthread_join(other.thread, NULL) == 0);
}

static const pelgaisti_call hot = {PELGAISTI_LOCK, PELGAISTI_X, {1, {999}}};

static void make_many(void) { many_transactions(&s[0], 1000); }

static void ask_for_hot(void) {
    pelgaisti_answer answer;
    make_many();
    begin(&s[0]);
    MUST(pelgaisti_session_perform(&s[0], &hot, UINT64_MAX, &answer) == PELGAISTI_OK && answer.reply.kind == PELGAISTI_WAITING);
}

static void give_up_hot(void) { MUST(ask(&s[0], PELGAISTI_ABORT).kind == PELGAISTI_ABORTED); }

/* A thread that has the slice makes no more calls, or ends: it loses it. */
static void begins_after_another(void) {
    open_for(3);
    warm_up(1);
    start_other();
    for (int k = 0; k < 20; k++) {
        let_other(make_many);
        CHECK(begin_once(&s[1]) < 2000);
    }
    end_other();
    for (int k = 0; k < 20; k++) {
        start(1, 1, 1, 1000);
        join(1);
        CHECK(begin_once(&s[1]) < 2000);
    }
    close_all(s, 3);
}

/* A thread that waits for a lock gives its slice up: others begin at once, and not only when it is found out that it makes no calls. */
static void begins_beside_wait(void) {
    enum { TIMES = 100 };
    static double took[TIMES];
    pelgaisti_answer answer;
    const pelgaisti_call start_of = {PELGAISTI_BEGIN, 0, {0, {0}}};
    open_for(3);
    MUST(pelgaisti_session_perform(&s[2], &start_of, 9, &answer) == PELGAISTI_OK);
    MUST(pelgaisti_session_perform(&s[2], &hot, 9, &answer) == PELGAISTI_OK && answer.reply.kind == PELGAISTI_GRANTED);
    warm_up(1);
    start_other();
    for (int k = 0; k < TIMES; k++) {
        let_other(ask_for_hot);
        took[k] = begin_once(&s[1]);
        let_other(give_up_hot);
    }
    end_other();
    sort(took, TIMES);
    CHECK(took[TIMES / 4] < 0.1 && took[TIMES - 1] < 2000);
    commit(&s[2]);
    close_all(s, 3);
}

/* Of 16 threads that never stop each makes its share. If the machine was busy otherwise, once more. */
static void is_fair(void) {
    enum { THREADS = 16 };
    int is_right = 0;
    open_for(THREADS);
    warm_up(1);
    for (int tries = 0; tries < 3 && !is_right; tries++) {
        uint64_t least = UINT64_MAX, all;
        double longest = 0;
        start(1, THREADS, 1, 0);
        pause_for(1000);
        all = end(THREADS);
        for (int k = 0; k < THREADS; k++) {
            if (w[k].made < least) least = w[k].made;
            if (w[k].longest > longest) longest = w[k].longest;
        }
        is_right = least * THREADS * 10 >= all && longest < 2000;
        if (!is_right) printf("of %lu transactions the least served has %lu, and one took %.0f ms\n", (unsigned long)all, (unsigned long)least, longest);
    }
    CHECK(is_right);
    close_all(s, THREADS);
}

static void slices(void) {
    begins_beside_another();
    begins_after_another();
    begins_beside_wait();
    is_fair();
}

/* ---- Several offices. ---- */

static void *open_and_close(void *at) {
    pelgaisti_session own[2] = {PELGAISTI_EMPTY, PELGAISTI_EMPTY};
    uint64_t *made = at;
    while (!__atomic_load_n(&is_over, __ATOMIC_RELAXED)) {
        MUST(open_office_with(own, 2, KEPT, NULL, 0) == PELGAISTI_OK);
        many_transactions(&own[*made % 2], 3);
        close_all(own, 2);
        ++*made;
    }
    return NULL;
}

/* A thread opens and closes offices while others run, and while others sleep. */
static void offices_come_and_go(void) {
    pthread_t thread;
    uint64_t made = 0;
    MUST(pthread_create(&thread, NULL, open_and_close, &made) == 0);
    open_for(8);
    start(1, 8, 1, 3000);
    CHECK(join(8) >= 8 * 3000);
    close_all(s, 8);
    start_callers(CALLERS);
    for (int k = 0; k < 50; k++) MUST(call_beside_look(CALLERS, 1) < 10000);
    end_callers(CALLERS);
    end_one(thread);
    CHECK(made > 10);
}

/* A thread begins by turns at three offices: it gives up the slice of the others, and nobody waits until that is found out. */
static void offices_by_turns(void) {
    enum { OFFICES = 3, TIMES = 6000 };
    static pelgaisti_session own[OFFICES][2];
    double least = 1e9;
    for (int k = 0; k < OFFICES; k++) {
        MUST(open_office_with(own[k], 2, KEPT, NULL, 0) == PELGAISTI_OK);
        many_transactions(&own[k][0], WARM);
    }
    for (int tries = 0; tries < 3; tries++) {
        const double begun = now();
        double took;
        for (int k = 0; k < TIMES; k++) many_transactions(&own[k % OFFICES][k / OFFICES % 2], 1);
        took = now() - begun;
        if (took < least) least = took;
    }
    CHECK(least < 500);
    for (int k = 0; k < OFFICES; k++) close_all(own[k], 2);
}

static void *poll_once(void *at) {
    MUST(ask(at, PELGAISTI_POLL).kind == PELGAISTI_CLEAR);
    count(&answered);
    return NULL;
}

/* While many wait for the table of one office, at which another session looks, a call at another office sleeps for a look there, and is
   answered soon after it: so at as many offices as there are ways to wait, and more. Those that wait are slow to go on. */
static void offices_side_by_side(void) {
    enum { THREADS = 16, OFFICES = 100 };
    pelgaisti_book view = PELGAISTI_EMPTY, view_of_other = PELGAISTI_EMPTY;
    pelgaisti_session own[2] = {PELGAISTI_EMPTY, PELGAISTI_EMPTY};
    pthread_t thread, threads[THREADS];
    int late = 0;
    open_for(THREADS + 1);
    for (int k = 0; k < THREADS; k++) begin(&s[k + 1]);
    look(&s[0], &view);
    for (int k = 0; k < THREADS; k++) MUST(pthread_create(&threads[k], NULL, poll_once, &s[k + 1]) == 0);
    pause_for(10);
    __atomic_store_n(&is_slow_to_go_on, 1, __ATOMIC_RELAXED);
    for (int k = 0; k < OFFICES && !late; k++) {
        MUST(open_office_with(own, 2, KEPT, NULL, 0) == PELGAISTI_OK);
        begin(&own[1]);
        look(&own[0], &view_of_other);
        answered = 0;
        MUST(pthread_create(&thread, NULL, poll_once, &own[1]) == 0);
        pause_for(1);
        end_look(&own[0], &view_of_other);
        for (int waited = 0; waited < 1000 && value(&answered) == 0; waited++) pause_for(1);
        late = value(&answered) == 0;
        if (late) end_look(&s[0], &view);
        MUST(pthread_join(thread, NULL) == 0);
        close_all(own, 2);
    }
    CHECK(late == 0);
    __atomic_store_n(&is_slow_to_go_on, 0, __ATOMIC_RELAXED);
    if (!late) end_look(&s[0], &view);
    for (int k = 0; k < THREADS; k++) MUST(pthread_join(threads[k], NULL) == 0);
    for (int k = 0; k < THREADS; k++) commit(&s[k + 1]);
    close_all(s, THREADS + 1);
}

static void offices(void) {
    offices_come_and_go();
    offices_by_turns();
}

/* ---- Forks. ---- */

static pelgaisti_session child[2];

static void *call_in_child(void *at) {
    many_transactions(at, 3);
    return NULL;
}

/* In a child: in many offices, one after another, two threads make transactions, one of which waits for the other's look. */
static void run_child(int count_of) {
    alarm(8);
    for (int k = 0; k < count_of; k++) {
        pelgaisti_book view = PELGAISTI_EMPTY;
        pthread_t thread;
        MUST(open_office_with(child, 2, KEPT, NULL, 0) == PELGAISTI_OK);
        look(&child[0], &view);
        MUST(pthread_create(&thread, NULL, call_in_child, &child[1]) == 0);
        pause_for(0.3);
        end_look(&child[0], &view);
        many_transactions(&child[0], 20);
        MUST(pthread_join(thread, NULL) == 0);
        close_all(child, 2);
    }
    _exit(0);
}

static int fork_once(int count_of) {
    int status = -1;
    const pid_t pid = fork();
    if (pid == 0) run_child(count_of);
    while (waitpid(pid, &status, 0) < 0) MUST(errno == EINTR);
    return status == 0;
}

/* A child uses offices of its own, also as many as there are ways to wait, while threads of its parent run, or all sleep. */
static void forks(void) {
    pelgaisti_book view = PELGAISTI_EMPTY;
    open_for(8);
    start(1, 8, 1, 0);
    for (int k = 0; k < 10; k++) CHECK(fork_once(3));
    CHECK(end(8) > 0);
    close_all(s, 8);
    start_callers(CALLERS);
    look(&s[0], &view);
    for (uint32_t k = 0; k < CALLERS; k++) tell(k);
    pause_for(20);
    CHECK(fork_once(200) && returned == 0);
    end_look(&s[0], &view);
    for (uint32_t k = 0; k < CALLERS; k++) wait_for(&done);
    end_callers(CALLERS);
}

/* ---- Threads that are cancelled. ---- */

/* A thread that is cancelled while it waits isn't ended in the call: it returns from it, and ends at its next cancellation point. */
static void cancel(void) {
    pelgaisti_book view = PELGAISTI_EMPTY;
    void *result;
    start_callers(CALLERS);
    look(&s[0], &view);
    for (uint32_t k = 0; k < CALLERS; k++) tell(k);
    while (value(&entered) < CALLERS) pause_for(1);
    pause_for(20);
    for (uint32_t k = 0; k < CALLERS; k += 2) MUST(pthread_cancel(callers[k].thread) == 0);
    pause_for(5);
    CHECK(value(&returned) == 0);
    end_look(&s[0], &view);
    for (uint32_t k = 0; k < CALLERS; k += 2) CHECK(pthread_join(callers[k].thread, &result) == 0 && result == PTHREAD_CANCELED);
    for (uint32_t k = 1; k < CALLERS; k += 2) wait_for(&done);
    CHECK(value(&returned) == CALLERS);
    for (uint32_t k = 0; k < CALLERS; k += 2) MUST(pthread_create(&callers[k].thread, NULL, call_when_told, &callers[k]) == 0);
    CHECK(call_beside_look(CALLERS, 1) < 10000);
    end_callers(CALLERS);
}

/* ---- Refused memory. ---- */

/* Locks rows and gives them back, in a transaction that was begun before. */
static void *lock_and_restart(void *at) {
    worker *it = at;
    pelgaisti_session *own = &s[it->first - 1];
    for (it->made = 0; it->made < it->wanted; it->made++) {
        pelgaisti_call lock = {PELGAISTI_LOCK, PELGAISTI_IX, {1, {0}}};
        lock.resource.numbers[0] = it->first;
        for (uint32_t row = 0; row < 8; row++) {
            pelgaisti_answer answer;
            pelgaisti_status status = pelgaisti_session_perform(own, &lock, UINT64_MAX, &answer);
            while (status == PELGAISTI_NO_MEMORY) count(&starved), status = pelgaisti_session_perform(own, NULL, UINT64_MAX, &answer);
            MUST(status == PELGAISTI_OK && answer.reply.kind == PELGAISTI_GRANTED);
            lock.resource.level = 2;
            lock.resource.numbers[1] = row + 1;
        }
        MUST(ask(own, PELGAISTI_RESTART).kind == PELGAISTI_RESTARTED);
    }
    count(&returned);
    return NULL;
}

/* An office takes nearly all of its memory in its first calls: so there is a new one each time, whose threads meet at a look. */
static void memory(void) {
    enum { THREADS = 16, ROUNDS = 20 };
    for (int round = 0; round < ROUNDS; round++) {
        open_for(THREADS + 1);
        returned = 0;
        for (uint32_t k = 0; k < THREADS; k++) begin(&s[k + 1]);
        __atomic_store_n(&refuses, 1, __ATOMIC_RELAXED);
        for (uint32_t k = 0; k < THREADS; k++) {
            const worker fresh = {k + 2, 1, 0, 20, 0, 0, 0};
            w[k] = fresh;
            MUST(pthread_create(&w[k].thread, NULL, lock_and_restart, &w[k]) == 0);
        }
        while (value(&returned) < THREADS) look_once(&s[0], 0.2);
        __atomic_store_n(&refuses, 0, __ATOMIC_RELAXED);
        CHECK(join(THREADS) == THREADS * 20);
        for (uint32_t k = 0; k < THREADS; k++) commit(&s[k + 1]);
        close_all(s, THREADS + 1);
    }
    CHECK(refused > 0 && starved > 0);
    refused = starved = 0;
    open_for(32);
    __atomic_store_n(&refuses, 1, __ATOMIC_RELAXED);
    start(1, 32, 1, 200);
    CHECK(join(32) == 32 * 200);
    __atomic_store_n(&refuses, 0, __ATOMIC_RELAXED);
    close_all(s, 32);
}

int main(int given, char **words) {
    static const struct { const char *name; void (*run)(void); } cases[] = {
        {"constructed", constructed}, {"crowd", crowd}, {"sleepers", sleepers}, {"looks", looks}, {"slices", slices}, {"offices", offices},
        {"shared", offices_side_by_side}, {"fork", forks}, {"cancel", cancel}, {"memory", memory}};
    if (given > 3) crowd_threads = (uint32_t)atoi(words[3]);
    if (given > 4) crowd_each = strtoull(words[4], NULL, 10);
    MUST(crowd_threads <= MOST);
    if (given > 5) {
        cpu_set_t set;
        CPU_ZERO(&set);
        for (int k = 0; k < atoi(words[5]); k++) CPU_SET(k, &set);
        sched_setaffinity(0, sizeof set, &set);
    }
    for (size_t k = 0; k < sizeof cases / sizeof *cases; k++) {
        const double begun = now();
        if (given > 1 && strcmp(words[1], cases[k].name) != 0) continue;
        alarm(given > 2 ? (unsigned)atoi(words[2]) : 60);
        cases[k].run();
        printf("%s: %.1f s\n", cases[k].name, (now() - begun) / 1000);
        fflush(stdout);
    }
    printf("%d passed, %d failed\n", passed, failed);
    return failed != 0;
}
