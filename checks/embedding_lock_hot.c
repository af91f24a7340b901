/* Sixty-four threads on forty hot rows of four tables, by calls that wait, with time-outs of 0 to 5 ms and some without end: no wake-up is
   lost, and what each call tells is so. Each transaction locks some rows, or a table; a victim restarts; who is out of time gives up, or does
   without. Of who reads and writes each row the program keeps count itself: a reader or writer that meets another one is wrong. In the end
   the history is made once more by a book, call by call, whose replies have to be the same; and at the place that each outcome tells, the
   history has to have an entry of this session whose reply means this outcome. If no call is answered for a minute, a thread sleeps for
   ever, and the program fails.
   Usage: embedding_lock_hot [SECONDS [THREADS [refuse | waker]]]. With `refuse` one allocation in 8 is refused, at random, and the lock table
   gives its memory back now and then, so that calls take memory: behind NO_MEMORY pelgaisti_session_wait goes on. With `waker` the office has
   a waker, which does nothing. Link with -Wl,--wrap=malloc,--wrap=realloc and -lpthread. */
#define _GNU_SOURCE
#include "embedding_lock.h"

enum { MOST = 64, TABLES = 4, ROWS = 10, STILL = 60, ONE_IN = 8, READS = 1, WRITES = 2, PIECE = 4096 };

typedef struct outcome {
    uint64_t place;
    uint32_t status, why;
} outcome;

typedef struct worker {
    pelgaisti_session *session;
    uint64_t random, commits, victims, over, denied, starved, bad;
    outcome *list;
    size_t count, room;
    uint8_t row[TABLES][ROWS]; /* 0, READS or WRITES */
} worker;

static pelgaisti_session s[MOST];
static worker workers[MOST];
static uint32_t readers[TABLES][ROWS], writers[TABLES][ROWS], threads = MOST;
static uint64_t answered, finished, allocations, refused;
static int is_over, refuses;

void *__real_malloc(size_t size);
void *__real_realloc(void *at, size_t size);
void *__wrap_malloc(size_t size);
void *__wrap_realloc(void *at, size_t size);

/* Whether this allocation is refused: about one in ONE_IN is, by a hash of its number. */
static int is_refused(void) {
    uint64_t hash;
    if (!__atomic_load_n(&refuses, __ATOMIC_RELAXED)) return 0;
    hash = (__atomic_fetch_add(&allocations, 1, __ATOMIC_RELAXED) + 1) * UINT64_C(0x9E3779B97F4A7C15);
    if ((hash >> 33) % ONE_IN != 0) return 0;
    __atomic_fetch_add(&refused, 1, __ATOMIC_RELAXED);
    return 1;
}

void *__wrap_malloc(size_t size) { return is_refused() ? NULL : __real_malloc(size); }

void *__wrap_realloc(void *at, size_t size) { return is_refused() ? NULL : __real_realloc(at, size); }

static void note(worker *w, pelgaisti_status status, const pelgaisti_lock_answer *a) {
    const outcome it = {a->place, (uint32_t)status, a->why};
    if (w->count == w->room) {
        w->room = w->room ? 2 * w->room : 1024;
        w->list = __real_realloc(w->list, w->room * sizeof *w->list);
        MUST(w->list != NULL);
    }
    w->list[w->count++] = it;
    __atomic_fetch_add(&answered, 1, __ATOMIC_RELAXED);
}

/* Locks. Behind NO_MEMORY waits until what was pending is answered, and makes the same call again. */
static pelgaisti_status lock(worker *w, const pelgaisti_resource *r, uint32_t mode, uint64_t timeout) {
    pelgaisti_lock_answer a;
    pelgaisti_status status;
    while ((status = pelgaisti_session_lock(w->session, r, mode, timeout, &a)) == PELGAISTI_NO_MEMORY) {
        do {
            w->starved++;
            sched_yield();
            status = pelgaisti_session_wait(w->session, timeout, &a);
        } while (status == PELGAISTI_NO_MEMORY);
        note(w, status, &a);
        if (status != PELGAISTI_OK) return status;
    }
    note(w, status, &a);
    w->bad += status == PELGAISTI_OK ? a.level != r->level : a.level >= r->level;
    return status;
}

/* The worker's lock on this row is granted. */
static void enter(worker *w, uint32_t t, uint32_t r, uint8_t how) {
    uint32_t others;
    if (w->row[t][r] >= how) return;
    if (how == WRITES) {
        if (w->row[t][r]) __atomic_fetch_sub(&readers[t][r], 1, __ATOMIC_RELAXED);
        others = __atomic_fetch_add(&writers[t][r], 1, __ATOMIC_RELAXED) + __atomic_load_n(&readers[t][r], __ATOMIC_RELAXED);
    } else {
        __atomic_fetch_add(&readers[t][r], 1, __ATOMIC_RELAXED);
        others = __atomic_load_n(&writers[t][r], __ATOMIC_RELAXED);
    }
    w->bad += others != 0;
    w->row[t][r] = how;
}

static void leave_all(worker *w) {
    for (uint32_t t = 0; t < TABLES; t++) {
        for (uint32_t r = 0; r < ROWS; r++) {
            if (w->row[t][r]) __atomic_fetch_sub(w->row[t][r] == WRITES ? &writers[t][r] : &readers[t][r], 1, __ATOMIC_RELAXED);
            w->row[t][r] = 0;
        }
    }
}

/* Locks a row, or now and then a table, for a time between 0 and 5 ms, or without end. */
static pelgaisti_status lock_some(worker *w) {
    const uint32_t t = drawn(&w->random, TABLES), r = drawn(&w->random, ROWS), wait = drawn(&w->random, 7);
    const int is_table = drawn(&w->random, 40) == 0;
    const uint8_t how = drawn(&w->random, 3) == 0 ? WRITES : READS;
    const pelgaisti_resource on = {is_table ? 2 : 3, {1, t + 1, is_table ? 0 : r + 1}};
    const pelgaisti_status status = lock(w, &on, how == WRITES ? PELGAISTI_X : PELGAISTI_S, wait == 6 ? PELGAISTI_FOREVER : wait);
    if (status != PELGAISTI_OK) return status;
    for (uint32_t k = is_table ? 0 : r; k <= (is_table ? ROWS - 1 : r); k++) enter(w, t, k, how);
    return status;
}

/* The work of a transaction: OK, VICTIM, or TIMED_OUT if it gives up. */
static pelgaisti_status work(worker *w) {
    for (uint32_t left = 1 + drawn(&w->random, 4); left > 0; left--) {
        const pelgaisti_status status = lock_some(w);
        w->over += status == PELGAISTI_TIMED_OUT;
        if (status == PELGAISTI_TIMED_OUT && drawn(&w->random, 2)) continue; /* does without this row */
        if (status != PELGAISTI_OK) return status;
    }
    return PELGAISTI_OK;
}

static void *run(void *at) {
    worker *w = at;
    pelgaisti_book view = PELGAISTI_EMPTY;
    pelgaisti_status status;
    while (!__atomic_load_n(&is_over, __ATOMIC_RELAXED)) {
        begin(w->session);
        while ((status = work(w)) == PELGAISTI_VICTIM) {
            w->victims++;
            leave_all(w);
            MUST(ask(w->session, PELGAISTI_RESTART).kind == PELGAISTI_RESTARTED);
        }
        w->denied += status == PELGAISTI_DENIED;
        w->commits += status == PELGAISTI_OK;
        leave_all(w);
        if (status == PELGAISTI_OK) commit(w->session);
        else MUST(ask(w->session, PELGAISTI_ABORT).kind == PELGAISTI_ABORTED);
        if (__atomic_load_n(&refuses, __ATOMIC_RELAXED) && drawn(&w->random, 4) == 0) {
            look(w->session, &view);
            MUST(pelgaisti_book_shrink(&view) == PELGAISTI_OK);
            end_look(w->session, &view);
        }
    }
    __atomic_fetch_add(&finished, 1, __ATOMIC_RELAXED);
    return NULL;
}

/* Ends the work after so many milliseconds, and returns when all threads have finished. */
static void watch(double milliseconds) {
    const double end = now() + milliseconds;
    uint64_t before = 0;
    for (int still = 0; __atomic_load_n(&finished, __ATOMIC_RELAXED) < threads; pause_for(100)) {
        const uint64_t made = __atomic_load_n(&answered, __ATOMIC_RELAXED);
        still = made == before ? still + 1 : 0;
        before = made;
        if (now() > end) __atomic_store_n(&is_over, 1, __ATOMIC_RELAXED);
        MUST(still < 10 * STILL);
    }
}

/* Whether a reply means this outcome. */
static int means(const outcome *o, const pelgaisti_reply *r) {
    const uint64_t why = r->kind == PELGAISTI_REFUSED ? r->value : 0;
    switch (o->status) {
    case PELGAISTI_OK: return r->kind == PELGAISTI_GRANTED || r->kind == PELGAISTI_CLEAR || why == PELGAISTI_NOT_WAITING;
    case PELGAISTI_VICTIM: return r->kind == PELGAISTI_DEADLOCK || why == PELGAISTI_IS_DOOMED;
    case PELGAISTI_TIMED_OUT: return r->kind == PELGAISTI_WITHDRAWN || why == PELGAISTI_WOULD_WAIT;
    default: return o->status == PELGAISTI_DENIED && why == o->why;
    }
}

/* Makes the history once more, and compares each outcome with the entry at its place. Returns how many are wrong. */
static uint64_t compare(pelgaisti_book *book) {
    static pelgaisti_entry piece[PIECE];
    pelgaisti_book again = PELGAISTI_EMPTY;
    size_t next[MOST] = {0}, got;
    uint64_t first, bad = 0;
    MUST(open_book(&again, threads) == PELGAISTI_OK && pelgaisti_book_keep_at_most(&again, 0) == PELGAISTI_OK);
    do {
        MUST(pelgaisti_book_take_history(book, &first, piece, PIECE, &got) == PELGAISTI_OK);
        for (size_t n = 0; n < got; n++) {
            const pelgaisti_entry *e = &piece[n];
            const worker *w = &workers[e->session - 1];
            size_t *at = &next[e->session - 1];
            pelgaisti_reply reply;
            MUST(pelgaisti_book_serve(&again, e->session, &e->call, &reply) == PELGAISTI_OK);
            MUST(reply.kind == e->reply.kind && reply.value == e->reply.value);
            if (*at < w->count && w->list[*at].place == first + n) bad += !means(&w->list[(*at)++], &e->reply);
        }
    } while (got > 0);
    for (uint32_t k = 0; k < threads; k++) bad += next[k] != workers[k].count;
    MUST(pelgaisti_book_close(&again) == PELGAISTI_OK);
    return bad;
}

static void quiet(void *engine, uint32_t session) { (void)engine, (void)session; }

int main(int argc, char **argv) {
    static const pelgaisti_waker waker = {quiet, NULL};
    const double seconds = argc > 1 ? strtod(argv[1], NULL) : 30;
    const char *how = argc > 3 ? argv[3] : "";
    pelgaisti_options options = PELGAISTI_OPTIONS(1);
    pthread_t all[MOST];
    pelgaisti_book book = PELGAISTI_EMPTY;
    pelgaisti_counts c;
    worker sum = {NULL, 0, 0, 0, 0, 0, 0, 0, NULL, 0, 0, {{0}}};
    uint64_t first, length, bad;
    if (argc > 2) threads = (uint32_t)strtoul(argv[2], NULL, 10);
    MUST(threads <= MOST);
    options.sessions = threads;
    options.keep = UINT64_MAX;
    options.seed = 1;
    if (strcmp(how, "waker") == 0) options.waker = &waker;
    MUST(pelgaisti_office_open(s, &options) == PELGAISTI_OK);
    __atomic_store_n(&refuses, strcmp(how, "refuse") == 0, __ATOMIC_RELAXED);
    for (uint32_t k = 0; k < threads; k++) {
        workers[k].session = &s[k];
        workers[k].random = k;
        MUST(pthread_create(&all[k], NULL, run, &workers[k]) == 0);
    }
    watch(seconds * 1e3);
    __atomic_store_n(&refuses, 0, __ATOMIC_RELAXED);
    for (uint32_t k = 0; k < threads; k++) {
        const worker *w = &workers[k];
        pthread_join(all[k], NULL);
        sum.commits += w->commits, sum.victims += w->victims, sum.over += w->over, sum.denied += w->denied;
        sum.starved += w->starved, sum.bad += w->bad, sum.count += w->count;
    }
    count_calls(&s[0], &c);
    MUST(c.waiting == 0);
    for (uint32_t k = 1; k < threads; k++) MUST(pelgaisti_session_hand_in(&s[k], &s[0]) == PELGAISTI_OK);
    MUST(pelgaisti_office_close(&s[0], &book) == PELGAISTI_OK && pelgaisti_book_length(&book, &first, &length) == PELGAISTI_OK);
    bad = sum.bad + sum.denied + compare(&book);
    MUST(pelgaisti_book_close(&book) == PELGAISTI_OK);
    printf("%lu commits, %lu victims, %lu time-outs; %lu waits, %lu polls, %lu withdrawals, of which %lu too late; NO_MEMORY %lu times, of %lu "
           "refusals; %lu entries made once more, %lu outcomes at their places; wrong: %lu\n", (unsigned long)sum.commits,
           (unsigned long)sum.victims, (unsigned long)sum.over, (unsigned long)c.waits_begun, (unsigned long)c.calls[PELGAISTI_POLL],
           (unsigned long)c.calls[PELGAISTI_WITHDRAW], (unsigned long)(c.refusals[PELGAISTI_NOT_WAITING] + c.refusals[PELGAISTI_IS_DOOMED]),
           (unsigned long)sum.starved, (unsigned long)refused, (unsigned long)length, (unsigned long)sum.count, (unsigned long)bad);
    return bad != 0 || sum.commits == 0 || sum.victims == 0 || sum.over == 0 || (refused > 0) != (sum.starved > 0);
}
