/* Sixty-four threads that sleep without a limit until they are woken: in an office with a waker no wake-up is lost, whichever calls make
   the passes. Each thread runs programs: it begins, asks for locks that conflict and close cycles, and commits, or aborts when it is a
   victim. Each call is made in one of the ways in which a call can be made. A thread whose request waits sleeps on its semaphore, and
   then its poll has to reply CLEAR or DEADLOCK. In the end each wait has had one wake-up. If no call is answered for 20 seconds, a
   thread sleeps for ever, and the program fails. After each 1,000 programs the office is closed and a new one opened, since an office
   takes nearly all of its memory in its first calls.
   Usage: embedding_wakes [PROGRAMS [refuse]]. With `refuse` one allocation in 8 is refused, at random. Link with
   -Wl,--wrap=malloc,--wrap=realloc and -lpthread. */
#define _XOPEN_SOURCE 600 /* for nanosleep under -std=c99 */
#include "open.h"
#include <pthread.h>
#include <sched.h>
#include <semaphore.h>
#include <string.h>
#include <time.h>

enum { THREADS = 64, KEPT = 1024, DATABASES = 12, PAGES = 3, MOST_LOCKS = 4, STILL = 20, ONE_IN = 8, IN_A_ROUND = 1000 };

/* The ways in which a call is made: by as many turns as it takes, by one or two at first, or step by step. */
enum { PERFORM, TRY_ONCE, TRY_TWICE, SERVE, WAYS };

typedef struct worker {
    pelgaisti_session *session;
    uint32_t number, random;
    uint64_t waits, victims, programs, bad, paths, starved;
    uint64_t made[WAYS];
} worker;

static pelgaisti_session sessions[THREADS];
static worker workers[THREADS];
static sem_t woken[THREADS + 1];
static uint64_t wakes, answered, left, finished, allocations, refused, bad;
static int refuses;

void *__real_malloc(size_t size);
void *__real_realloc(void *at, size_t size);
void *__wrap_malloc(size_t size);
void *__wrap_realloc(void *at, size_t size);

/* Whether this allocation is refused: about one in ONE_IN is, by a hash of its number. */
static int is_refused(void) {
    uint64_t hash;
    if (!__atomic_load_n(&refuses, __ATOMIC_RELAXED)) return 0;
    hash = (__atomic_fetch_add(&allocations, 1, __ATOMIC_RELAXED) + 1) * UINT64_C(0x9E3779B97F4A7C15);
    if ((hash >> 33) % ONE_IN != 0) return 0;
    __atomic_fetch_add(&refused, 1, __ATOMIC_RELAXED);
    return 1;
}

void *__wrap_malloc(size_t size) { return is_refused() ? NULL : __real_malloc(size); }

void *__wrap_realloc(void *at, size_t size) { return is_refused() ? NULL : __real_realloc(at, size); }

static void wake(void *engine, uint32_t session) {
    __atomic_fetch_add(&wakes, 1, __ATOMIC_RELAXED);
    sem_post((sem_t *)engine + session);
}

static const pelgaisti_waker waker = {wake, woken};

static uint32_t random_below(worker *w, uint32_t bound) {
    w->random = w->random * 1664525u + 1013904223u;
    return (uint32_t)(((uint64_t)(w->random >> 8) * bound) >> 24);
}

/* Serves and collects in turn until the pending call is answered. */
static pelgaisti_status collect(worker *w, pelgaisti_answer *answer) {
    pelgaisti_status status;
    pelgaisti_pass pass;
    for (;;) {
        pass.starved = 0;
        pelgaisti_session_serve(w->session, &pass);
        w->starved += pass.starved;
        status = pelgaisti_session_collect(w->session, answer);
        if (status != PELGAISTI_NOT_SERVED) return status;
        sched_yield();
    }
}

/* Whether a call was left pending. */
static int is_to_be_finished(worker *w, pelgaisti_status status) {
    w->starved += status == PELGAISTI_NO_MEMORY;
    return status == PELGAISTI_NOT_SERVED || status == PELGAISTI_NO_MEMORY;
}

/* Makes a call in one of the ways. */
static pelgaisti_reply ask(worker *w, const pelgaisti_call *call) {
    const uint32_t way = random_below(w, WAYS);
    pelgaisti_answer answer = {0, {0, 0}};
    pelgaisti_status status;
    w->made[way]++;
    if (way == SERVE) {
        status = pelgaisti_session_publish(w->session, call, NULL);
        if (status == PELGAISTI_OK) status = collect(w, &answer);
    } else { /* with few turns the call may be left pending, and is finished */
        status = pelgaisti_session_perform(w->session, call, way == PERFORM ? UINT64_MAX : way, &answer);
        while (is_to_be_finished(w, status)) status = pelgaisti_session_perform(w->session, NULL, UINT64_MAX, &answer);
    }
    w->bad += status != PELGAISTI_OK;
    __atomic_fetch_add(&answered, 1, __ATOMIC_RELAXED);
    return answer.reply;
}

static pelgaisti_reply plain(worker *w, uint32_t op) {
    pelgaisti_call call = {0, 0, {0, {0}}};
    call.op = op;
    return ask(w, &call);
}

/* Sleeps while the request waits, and polls once. Whether the request was granted. */
static int settle(worker *w, pelgaisti_reply reply) {
    if (reply.kind == PELGAISTI_WAITING) {
        w->waits++;
        while (sem_wait(&woken[w->number]) != 0) continue;
        reply = plain(w, PELGAISTI_POLL);
        w->bad += reply.kind != PELGAISTI_CLEAR && reply.kind != PELGAISTI_DEADLOCK;
    } else {
        w->bad += reply.kind != PELGAISTI_GRANTED && reply.kind != PELGAISTI_DEADLOCK;
    }
    return reply.kind != PELGAISTI_DEADLOCK;
}

/* The reply at which a path has stopped, or a grant. */
static pelgaisti_reply last_of(const pelgaisti_program_answer *answer) {
    pelgaisti_reply last = {PELGAISTI_GRANTED, 0};
    if (answer->stop) last.kind = answer->stop;
    return last;
}

/* Locks a page and its database by programs. Whether both were granted. */
static int lock_path(worker *w, const pelgaisti_resource *page, uint32_t mode) {
    pelgaisti_program path = {PELGAISTI_NOTHING, 0, 0, {PELGAISTI_LOCK, 0, {0, {0}}}};
    path.above = pelgaisti_parent_mode(mode);
    path.last.mode = mode;
    path.last.resource = *page;
    w->paths++;
    while (path.level < page->level) {
        pelgaisti_program_answer answer = {0, 0, 0, 0, {0}};
        pelgaisti_status status = pelgaisti_session_run(w->session, &path, UINT64_MAX, &answer);
        while (is_to_be_finished(w, status)) status = pelgaisti_session_run(w->session, NULL, UINT64_MAX, &answer);
        __atomic_fetch_add(&answered, 1, __ATOMIC_RELAXED);
        w->starved += answer.starved;
        w->bad += status != PELGAISTI_OK || answer.served == 0;
        if (status != PELGAISTI_OK || answer.served == 0 || !settle(w, last_of(&answer))) return 0;
        path.level += answer.served; /* the level that waited is locked, too */
    }
    return 1;
}

/* A lock of a database, of a page of it by a path, or of the database in another mode. Whether it was granted. */
static int lock(worker *w) {
    static const uint32_t modes[5] = {PELGAISTI_S, PELGAISTI_X, PELGAISTI_U, PELGAISTI_X, PELGAISTI_SIX};
    pelgaisti_call call = {PELGAISTI_LOCK, 0, {1, {0}}};
    call.mode = modes[random_below(w, 5)];
    call.resource.numbers[0] = 1 + random_below(w, DATABASES);
    if (random_below(w, 3) > 0) return settle(w, ask(w, &call));
    call.resource.level = 2;
    call.resource.numbers[1] = 1 + random_below(w, PAGES);
    return lock_path(w, &call.resource, random_below(w, 2) ? PELGAISTI_X : PELGAISTI_S);
}

static void program(worker *w) {
    uint32_t locks = 1 + random_below(w, MOST_LOCKS);
    w->bad += plain(w, PELGAISTI_BEGIN).kind != PELGAISTI_BEGAN;
    while (locks > 0 && lock(w)) locks--;
    w->victims += locks > 0;
    if (locks > 0) w->bad += plain(w, PELGAISTI_ABORT).kind != PELGAISTI_ABORTED;
    else w->bad += plain(w, PELGAISTI_COMMIT).kind != PELGAISTI_COMMITTED;
}

static void *work(void *argument) {
    worker *w = (worker *)argument;
    /* the programs are shared out one by one, so that all threads work to the end */
    while ((int64_t)__atomic_fetch_sub(&left, 1, __ATOMIC_RELAXED) > 0) {
        program(w);
        w->programs++;
    }
    __atomic_fetch_add(&finished, 1, __ATOMIC_RELEASE);
    return NULL;
}

/* Returns when all threads have finished. Ends the program if no call is answered for STILL seconds. */
static void watch(void) {
    const struct timespec tick = {0, 1000000};
    uint64_t before = UINT64_MAX;
    int still = 0;
    while (__atomic_load_n(&finished, __ATOMIC_ACQUIRE) < THREADS) {
        uint64_t now = __atomic_load_n(&answered, __ATOMIC_RELAXED);
        still = now == before ? still + 1 : 0;
        before = now;
        if (still > 1000 * STILL) { /* each tick takes a millisecond or more */
            fprintf(stderr, "wakes: no call was answered for %d seconds: a wake-up is lost\n", STILL);
            exit(1);
        }
        nanosleep(&tick, NULL);
    }
}

/* Runs so many programs in an office of its own. Memory is refused only while they run: to open an office takes so many allocations
   that one of them would always be refused. */
static int run_round(uint64_t programs, int is_refusing) {
    pthread_t threads[THREADS];
    pelgaisti_book book = PELGAISTI_EMPTY;
    left = programs;
    finished = 0;
    if (open_office_with(sessions, THREADS, KEPT, &waker, 0) != PELGAISTI_OK) return 0;
    __atomic_store_n(&refuses, is_refusing, __ATOMIC_RELAXED);
    for (int t = 0; t < THREADS; t++)
        if (pthread_create(&threads[t], NULL, work, &workers[t]) != 0) return 0;
    watch();
    __atomic_store_n(&refuses, 0, __ATOMIC_RELAXED);
    for (int t = 0; t < THREADS; t++) {
        int posted = 9;
        pthread_join(threads[t], NULL);
        /* one wake-up for each wait, and none is left over */
        bad += sem_getvalue(&woken[t + 1], &posted) != 0 || posted != 0;
    }
    for (int t = THREADS - 1; t > 0; t--) bad += pelgaisti_session_hand_in(&sessions[t], &sessions[0]) != PELGAISTI_OK;
    return pelgaisti_office_close(&sessions[0], &book) == PELGAISTI_OK && pelgaisti_book_close(&book) == PELGAISTI_OK;
}

int main(int argc, char **argv) {
    uint64_t programs = argc > 1 ? strtoull(argv[1], NULL, 10) : 50000, begun = 0;
    int is_refusing = argc > 2 && !strcmp(argv[2], "refuse");
    worker all = {NULL, 0, 0, 0, 0, 0, 0, 0, 0, {0}};
    for (uint32_t t = 0; t < THREADS; t++) {
        workers[t].session = &sessions[t];
        workers[t].number = t + 1;
        workers[t].random = 2654435761u * (t + 1);
        if (sem_init(&woken[t + 1], 0, 0) != 0) return 2;
    }
    while (begun < programs) {
        uint64_t some = programs - begun < IN_A_ROUND ? programs - begun : IN_A_ROUND;
        if (!run_round(some, is_refusing)) return 2;
        begun += some;
    }
    for (int t = 0; t < THREADS; t++) {
        all.programs += workers[t].programs;
        all.waits += workers[t].waits;
        all.victims += workers[t].victims;
        all.paths += workers[t].paths;
        all.starved += workers[t].starved;
        bad += workers[t].bad;
        for (int way = 0; way < WAYS; way++) all.made[way] += workers[t].made[way];
    }
    for (int way = 0; way < WAYS; way++) bad += all.made[way] == 0;
    printf("%lu programs, %lu answers, %lu paths, %lu waits, %lu wake-ups, %lu victims; %lu allocations refused, %lu calls or passes "
           "without memory; wrong: %lu\n", (unsigned long)all.programs, (unsigned long)answered, (unsigned long)all.paths,
           (unsigned long)all.waits, (unsigned long)wakes, (unsigned long)all.victims, (unsigned long)refused,
           (unsigned long)all.starved, (unsigned long)bad);
    return bad != 0 || all.programs != programs || all.waits != wakes || all.waits == 0 || all.victims == 0 || all.paths == 0 ||
           is_refusing != (all.starved > 0);
}
