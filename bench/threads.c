/* Measures how threads share a lock table: threads WAY WORKLOAD THREADS WORK PLACE MILLISECONDS. WAY is
       calls, programs      sessions of one office, by pelgaisti_session_perform for each call, or by pelgaisti_session_run
       mutex-calls, mutex   one book behind a mutex of the C library, taken for each call, or for each program by pelgaisti_book_run
       adaptive, barging, mcs   the same behind its adaptive mutex, one that sleeps by futex and lets newcomers in, a queue of spinners
       ccsynch, server      one book that the threads serve for each other as CC-Synch does, or that a further thread serves
       mutexes, spins       16 books by page, each behind a mutex or a spin lock: a transaction is one in each book that it locks in
       berkeley             the lock subsystem of Berkeley DB, which blocks, if built with -DBERKELEY_DB
   all but `calls` and `mutex-calls` by programs: a commit or an abort with the next begin and a path, or a path alone. WORKLOAD is
       bank   transfers between two of 100,000 accounts, the lower one first: a database, a file and a page in IX and the account in X
       hot    transfers between two of 40 accounts of a page, in any order: threads wait and sleep, and deadlocks have victims
       reads  four records of one of 16 pages in S, the page, its file and the database in IS
       own    ten records of a page of the thread's own file in X, in one database of all
   There are up to 256 threads. Before each path a thread works for WORK nanoseconds. PLACE is `pinned`, to processors of their own as far
   as there are, `free`, or `robbed`: free beside three processes that are never idle. A run lasts so long, after some milliseconds; before
   and after it one thread does the same for 5 ms by `mutex`. Prints the rate over the greater of these two, transactions a second, those
   of the thread that made least in the run, and most, the time of one (median, 99th of 100, 999th of 1,000) and its processor time, in
   ns; for 1,000 of them the voluntary switches of context and the involuntary ones, yields among them; and the ticks that the host gave
   to others in all three. Fails if money was made or lost, and by SIGALRM if it hangs.
       ./embed && cc -O2 bench/threads.c -Iout -Lout -lpelgaisti -lpthread -o threads
       ./embed && cc -O2 -DBERKELEY_DB bench/threads.c -Iout -Lout -lpelgaisti -lpthread -ldb -o threads */
#define _GNU_SOURCE
#include "runs.h"
#include "pelgaisti.h"
#include <linux/futex.h>
#include <pthread.h>
#include <sched.h>
#include <semaphore.h>
#include <stdatomic.h>
#include <stdlib.h>
#include <string.h>
#include <sys/syscall.h>
#ifdef BERKELEY_DB
#include <db.h>
#endif

enum { MOST = 256, BOOKS = 16, ACCOUNTS = 100000, HOT = 40, PAGE = 50, START = 1000, SERVES = 64 };

/* The words by which threads hand programs over: of a record, or of a node of CC-Synch. */
enum { POSTED = 1, SERVED, LEADS };

/* A thread, and its record: the program that it asks for, and the answer, each on lines of its own. */
typedef struct worker {
    _Alignas(LINE) _Atomic uint32_t word;
    pelgaisti_program program;
    _Alignas(LINE) pelgaisti_program_answer answer;
    _Alignas(LINE) _Atomic uint64_t made;
    uint64_t made_before;
    uint32_t session, random, told[2 * MOST], books, book;
    int is_open; /* its transaction: 1, to be committed; 2, to be aborted */
    struct node *node;
    times times;
#ifdef BERKELEY_DB
    u_int32_t locker;
#endif
} worker;

typedef struct node {
    _Alignas(LINE) _Atomic(struct node *) next;
    _Atomic uint32_t word;
    worker *asks;
} node;

/* A book behind a lock. */
typedef struct guarded {
    _Alignas(LINE) pthread_mutex_t mutex;
    _Alignas(LINE) _Atomic uint32_t word;
    _Alignas(LINE) _Atomic(node *) tail;
    _Alignas(LINE) pelgaisti_book book;
} guarded;

typedef struct way {
    const char *name;
    void (*make)(worker *); /* makes the worker's program, and writes its answer */
    void (*enter)(guarded *, node *), (*leave)(guarded *, node *);
    uint32_t books;
} way;

static const way *how;
static int (*transaction)(worker *);
static guarded books[BOOKS];
static pelgaisti_session sessions[MOST];
static worker workers[MOST];
static node nodes[MOST + 1];
static sem_t woken[MOST + 1];
static long accounts[ACCOUNTS];
static unsigned threads;
static uint64_t work_ns;
static int is_pinned;
static _Alignas(LINE) _Atomic int phase; /* of a run: it warms up, is measured, is over */
#ifdef BERKELEY_DB
static DB_ENV *environment;
#endif

static void wake(void *engine, uint32_t session) {
    (void)engine;
    sem_post(&woken[session]);
}

static const pelgaisti_waker waker = {wake, NULL};

static void wake_all(const uint32_t *told, size_t count) {
    for (size_t k = 0; k < count; k++) sem_post(&woken[told[k]]);
}

static inline uint32_t see(_Atomic uint32_t *word) { return atomic_load_explicit(word, memory_order_acquire); }
static inline void set(_Atomic uint32_t *word, uint32_t to) { atomic_store_explicit(word, to, memory_order_release); }

/* Pauses; each so many times that it is called, yields. */
static inline void look_again(unsigned *looks, unsigned yield) {
    if (++*looks % yield == 0) sched_yield();
    else __builtin_ia32_pause();
}

/* Pauses twice as often as before; behind so many times, yields. */
static void pause_or_yield(unsigned times, unsigned most) {
    if (times > most) sched_yield();
    else
        for (unsigned k = 0; k < 1u << times; k++) __builtin_ia32_pause();
}

static unsigned processors(void) { return (unsigned)sysconf(_SC_NPROCESSORS_ONLN); }

static void pin(unsigned to) {
    cpu_set_t one;
    CPU_ZERO(&one);
    CPU_SET(to % processors(), &one);
    if (is_pinned) pthread_setaffinity_np(pthread_self(), sizeof one, &one);
}

/* ---- Locks. ---- */

static void lock_mutex(guarded *g, node *own) { (void)own, pthread_mutex_lock(&g->mutex); }
static void unlock_mutex(guarded *g, node *own) { (void)own, pthread_mutex_unlock(&g->mutex); }

static void futex(_Atomic uint32_t *at, int op, uint32_t value) { syscall(SYS_futex, at, op, value, NULL, NULL, 0); }

/* As parking_lot's: pauses that double, yields, then sleeps. The word: free, taken, taken and somebody sleeps. */
static void lock_barging(guarded *g, node *own) {
    uint32_t seen = 0, to = 1;
    (void)own;
    for (unsigned looks = 0; seen || !atomic_compare_exchange_strong(&g->word, &seen, to); seen = see(&g->word)) {
        if (seen == 1 && looks < 10) {
            pause_or_yield(++looks, 3);
        } else if (seen == 2 || (seen == 1 && atomic_compare_exchange_strong(&g->word, &seen, 2))) {
            futex(&g->word, FUTEX_WAIT_PRIVATE, 2);
            to = 2;
            looks = 0;
        }
    }
}

static void unlock_barging(guarded *g, node *own) {
    (void)own;
    if (atomic_exchange(&g->word, 0) == 2) futex(&g->word, FUTEX_WAKE_PRIVATE, 1);
}

static void lock_spin(guarded *g, node *own) {
    (void)own;
    for (unsigned tries = 3; see(&g->word) || atomic_exchange(&g->word, 1); tries++) pause_or_yield(tries, 10);
}

static void unlock_spin(guarded *g, node *own) { (void)own, set(&g->word, 0); }

/* Makes a node the last one, and returns the one before. */
static node *enter(guarded *g, node *own) {
    atomic_store_explicit(&own->next, NULL, memory_order_relaxed);
    atomic_store_explicit(&own->word, POSTED, memory_order_relaxed);
    return atomic_exchange(&g->tail, own);
}

static void lock_mcs(guarded *g, node *own) {
    node *before = enter(g, own);
    unsigned looks = 0;
    if (!before) return;
    atomic_store_explicit(&before->next, own, memory_order_release);
    while (see(&own->word) == POSTED) look_again(&looks, 128);
}

static void unlock_mcs(guarded *g, node *own) {
    node *next = atomic_load(&own->next), *last = own;
    unsigned looks = 0;
    if (!next && atomic_compare_exchange_strong(&g->tail, &last, NULL)) return;
    while (!(next = atomic_load(&own->next))) look_again(&looks, 128);
    set(&next->word, LEADS);
}

/* ---- Ways to make a program. ---- */

/* Runs a worker's program on a book, and adds to the list, which has so many sessions, those whose waits it ends. */
static void run_on(guarded *g, worker *w, uint32_t *told, size_t *count) {
    size_t ended = 0;
    if (pelgaisti_book_run(&g->book, w->session, &w->program, &w->answer) || pelgaisti_book_ended(&g->book, told + *count, MOST, &ended))
        fail("a book runs no program");
    *count += ended;
}

static void run_behind(guarded *g, worker *w) {
    size_t ended = 0;
    how->enter(g, w->node);
    run_on(g, w, w->told, &ended);
    how->leave(g, w->node);
    wake_all(w->told, ended);
}

static void by_book(worker *w) { run_behind(books, w); }

static int is_end(uint32_t start) { return start >= PELGAISTI_COMMITS && start <= PELGAISTI_ABORTS_AND_BEGINS; }

/* Ends the transaction in each book that the program doesn't lock in, and begins one where it first does. */
static void by_books(worker *w) {
    pelgaisti_program asked = w->program;
    uint32_t end = asked.start == PELGAISTI_COMMITS || asked.start == PELGAISTI_COMMITS_AND_BEGINS ? PELGAISTI_COMMITS : PELGAISTI_ABORTS;
    if (asked.last.op == PELGAISTI_LOCK) w->book = asked.last.resource.numbers[2] * 0x9E3779B9u >> 7 & (BOOKS - 1);
    for (uint32_t k = 0; is_end(asked.start) && k < BOOKS; k++)
        if (w->books >> k & 1 && !(asked.last.op && k == w->book)) {
            w->program = (pelgaisti_program){end, 0, 0, {0, 0, {0, {0}}}};
            run_behind(&books[k], w);
            w->books &= ~(1u << k);
        }
    w->program = asked;
    if (!asked.last.op) return;
    if (!(w->books >> w->book & 1)) {
        w->program.start = PELGAISTI_BEGINS;
        w->program.level = 0;
        w->books |= 1u << w->book;
    }
    run_behind(&books[w->book], w);
}

static void by_programs(worker *w) {
    if (pelgaisti_session_run(&sessions[w->session - 1], &w->program, UINT64_MAX, &w->answer)) fail("a session runs no program");
}

static pelgaisti_reply call(worker *w, uint32_t op, const pelgaisti_resource *resource, uint32_t mode) {
    pelgaisti_call asked = {op, mode, {0, {0}}};
    pelgaisti_answer answer;
    size_t ended = 0;
    if (resource) asked.resource = *resource;
    if (!how->enter) {
        if (pelgaisti_session_perform(&sessions[w->session - 1], &asked, UINT64_MAX, &answer)) fail("a session performs no call");
    } else {
        how->enter(books, w->node);
        if (pelgaisti_book_serve(&books->book, w->session, &asked, &answer.reply)
            || pelgaisti_book_ended(&books->book, w->told, MOST, &ended))
            fail("a book serves no call");
        how->leave(books, w->node);
        wake_all(w->told, ended);
    }
    return answer.reply;
}

/* Notes a reply as the program's last. */
static void note(worker *w, pelgaisti_reply reply) {
    w->answer.served++;
    if (reply.kind == PELGAISTI_WAITING || reply.kind == PELGAISTI_DEADLOCK || reply.kind == PELGAISTI_REFUSED) w->answer.stop = reply.kind;
}

/* Makes the calls of the program one after another, up to a reply at which it stops. */
static void by_calls(worker *w) {
    static const pelgaisti_program_answer none;
    const pelgaisti_program *p = &w->program;
    const pelgaisti_resource *whole = &p->last.resource;
    w->answer = none;
    if (is_end(p->start)) note(w, call(w, p->start % 2 == 0 ? PELGAISTI_COMMIT : PELGAISTI_ABORT, NULL, 0));
    if (p->start == PELGAISTI_BEGINS || p->start >= PELGAISTI_COMMITS_AND_BEGINS) note(w, call(w, PELGAISTI_BEGIN, NULL, 0));
    if (p->last.op == PELGAISTI_POLL) note(w, call(w, PELGAISTI_POLL, NULL, 0));
    for (uint32_t level = p->level + 1; p->last.op == PELGAISTI_LOCK && level <= whole->level; level++) {
        pelgaisti_resource at = {level, {0}};
        memcpy(at.numbers, whole->numbers, level * sizeof *at.numbers);
        note(w, call(w, PELGAISTI_LOCK, &at, level < whole->level ? p->above : p->last.mode));
        if (w->answer.stop) break;
    }
}

/* CC-Synch (Fatourou and Kallimanis 2012): a thread gives the tail a fresh node and takes the last one, in which it asks. The first of them
   serves up to 64, and hands the rest on. */
static void by_ccsynch(worker *w) {
    node *fresh = w->node, *at, *next;
    unsigned looks = 0;
    size_t ended = 0;
    w->node = at = enter(books, fresh);
    at->asks = w;
    atomic_store_explicit(&at->next, fresh, memory_order_release);
    while (see(&at->word) == POSTED) look_again(&looks, 512);
    if (see(&at->word) == SERVED) return;
    for (unsigned count = 0; count < SERVES && (next = atomic_load(&at->next)); count++, at = next) {
        run_on(books, at->asks, w->told, &ended);
        if (at != w->node) set(&at->word, SERVED);
    }
    set(&at->word, LEADS);
    wake_all(w->told, ended);
}

static void by_server(worker *w) {
    unsigned looks = 0;
    set(&w->word, POSTED);
    while (see(&w->word) == POSTED) look_again(&looks, 512);
}

static void *serve_all(void *is_over) {
    static uint32_t told[2 * MOST];
    if (threads < processors()) pin(threads);
    for (unsigned looks = 0; !see(is_over); look_again(&looks, 512)) {
        size_t ended = 0;
        for (unsigned t = 0; t < threads; t++)
            if (see(&workers[t].word) == POSTED) {
                run_on(books, &workers[t], told, &ended);
                set(&workers[t].word, SERVED);
                looks = 0;
            }
        wake_all(told, ended);
    }
    return NULL;
}

#ifdef BERKELEY_DB
static void open_environment(void) {
    if (db_env_create(&environment, 0)) fail("no environment");
    environment->set_lk_max_locks(environment, 20000);
    environment->set_lk_max_objects(environment, 20000);
    environment->set_lk_max_lockers(environment, 1000);
    environment->set_lk_detect(environment, DB_LOCK_YOUNGEST);
    if (environment->open(environment, NULL, DB_PRIVATE | DB_INIT_LOCK | DB_THREAD | DB_CREATE, 0)) fail("no lock subsystem");
}

/* Its answer is that of a program whose last call was granted, or made the transaction a victim. */
static void by_berkeley(worker *w) {
    static const db_lockmode_t modes[] = {
        [PELGAISTI_IS] = DB_LOCK_IREAD, [PELGAISTI_IX] = DB_LOCK_IWRITE, [PELGAISTI_S] = DB_LOCK_READ, [PELGAISTI_X] = DB_LOCK_WRITE};
    const pelgaisti_program *p = &w->program;
    DB_LOCKREQ all = {.op = DB_LOCK_PUT_ALL};
    DB_LOCK lock;
    DBT object = {.data = (void *)p->last.resource.numbers};
    int failed = 0;
    if (is_end(p->start))
        if (environment->lock_vec(environment, w->locker, 0, &all, 1, NULL) || environment->lock_id_free(environment, w->locker))
            fail("Berkeley DB takes no lock back");
    if (p->start == PELGAISTI_BEGINS || p->start >= PELGAISTI_COMMITS_AND_BEGINS) failed = environment->lock_id(environment, &w->locker);
    for (uint32_t level = p->level + 1; p->last.op && !failed && level <= p->last.resource.level; level++) {
        db_lockmode_t mode = modes[level < p->last.resource.level ? p->above : p->last.mode];
        object.size = 4 * level;
        failed = environment->lock_get(environment, w->locker, 0, &object, mode, &lock);
    }
    if (failed && failed != DB_LOCK_DEADLOCK) fail("Berkeley DB gives no lock");
    w->answer.served = 1;
    w->answer.stop = failed ? PELGAISTI_DEADLOCK : 0;
}
#endif

static const way ways[] = {
    {"mutex", by_book, lock_mutex, unlock_mutex, 1},
    {"mutex-calls", by_calls, lock_mutex, unlock_mutex, 1},
    {"adaptive", by_book, lock_mutex, unlock_mutex, 1},
    {"barging", by_book, lock_barging, unlock_barging, 1},
    {"mcs", by_book, lock_mcs, unlock_mcs, 1},
    {"ccsynch", by_ccsynch, NULL, NULL, 1},
    {"server", by_server, NULL, NULL, 1},
    {"mutexes", by_books, lock_mutex, unlock_mutex, BOOKS},
    {"spins", by_books, lock_spin, unlock_spin, BOOKS},
    {"calls", by_calls, NULL, NULL, 0},
    {"programs", by_programs, NULL, NULL, 0},
#ifdef BERKELEY_DB
    {"berkeley", by_berkeley, NULL, NULL, 0},
#endif
};

/* ---- Transactions. ---- */

/* Makes the worker's program, and what is left of its path after a wait. 0: a deadlock made this transaction the victim. */
static int finish(worker *w) {
    for (;;) {
        pelgaisti_program asked;
        how->make(w);
        if (w->answer.starved || !w->answer.served || w->answer.stop == PELGAISTI_REFUSED) fail("a program is refused");
        if (w->answer.stop != PELGAISTI_WAITING) return w->answer.stop != PELGAISTI_DEADLOCK;
        asked = w->program;
        asked.level += w->answer.served - (asked.start == PELGAISTI_NOTHING ? 0 : asked.start < PELGAISTI_COMMITS_AND_BEGINS ? 1 : 2);
        asked.start = PELGAISTI_NOTHING;
        do {
            while (sem_wait(&woken[w->session]) != 0) continue;
            w->program = (pelgaisti_program){PELGAISTI_NOTHING, 0, 0, {PELGAISTI_POLL, 0, {0, {0}}}};
            how->make(w);
        } while (w->answer.stop == PELGAISTI_WAITING);
        if (w->answer.stop) return 0;
        if (asked.level >= asked.last.resource.level) return 1;
        w->program = asked;
    }
}

/* Works, and locks a path of four levels in a mode, so many of which are locked: none in the program that begins the transaction. */
static int lock(worker *w, uint32_t level, uint32_t mode, uint32_t file, uint32_t page, uint32_t record) {
    static const uint32_t starts[] = {PELGAISTI_BEGINS, PELGAISTI_COMMITS_AND_BEGINS, PELGAISTI_ABORTS_AND_BEGINS};
    if (work_ns)
        for (uint64_t until = now(CLOCK_MONOTONIC) + work_ns; now(CLOCK_MONOTONIC) < until;) continue;
    w->program = (pelgaisti_program){PELGAISTI_NOTHING, level, mode == PELGAISTI_S ? PELGAISTI_IS : PELGAISTI_IX,
                                     {PELGAISTI_LOCK, mode, {4, {1, file, page, record}}}};
    if (level == 0) w->program.start = starts[w->is_open];
    w->is_open = 1;
    return finish(w);
}

/* Each makes a transaction, which the next one commits. 0: it was a deadlock's victim, has undone what it did, and is to be made again. */

static int transfer(worker *w, uint32_t from, uint32_t to) {
    if (!lock(w, 0, PELGAISTI_X, 1, from / PAGE, from)) return 0;
    accounts[from] -= 1;
    if (!lock(w, to / PAGE == from / PAGE ? 3 : 2, PELGAISTI_X, 1, to / PAGE, to)) {
        accounts[from] += 1;
        return 0;
    }
    accounts[to] += 1;
    return 1;
}

static int bank(worker *w) {
    uint32_t from = draw(&w->random, ACCOUNTS - 1), to = draw(&w->random, ACCOUNTS - 1);
    return from < to ? transfer(w, from, to) : transfer(w, to, from + 1);
}

static int hot(worker *w) {
    uint32_t from = draw(&w->random, HOT), to = draw(&w->random, HOT - 1);
    return transfer(w, from, to + (to >= from));
}

/* Neither of these waits. */

static int reads(worker *w) {
    uint32_t page = draw(&w->random, 16);
    for (uint32_t k = 0; k < 4; k++) lock(w, k ? 3 : 0, PELGAISTI_S, 1, page, draw(&w->random, 100));
    return 1;
}

static int own(worker *w) {
    uint32_t page = draw(&w->random, 64), record = draw(&w->random, 1000);
    for (uint32_t k = 0; k < 10; k++) lock(w, k ? 3 : 0, PELGAISTI_X, w->session, page, record + k);
    return 1;
}

/* ---- Runs. ---- */

static void *work(void *argument) {
    worker *w = (worker *)argument;
    uint64_t from, to;
    int at;
    pin(w->session - 1);
    for (from = now(CLOCK_MONOTONIC); (at = atomic_load_explicit(&phase, memory_order_relaxed)) < 2; from = to) {
        while (!transaction(w)) w->is_open = 2;
        to = now(CLOCK_MONOTONIC);
        if (at == 1) add_time(&w->times, to - from);
        atomic_store_explicit(&w->made, w->made + 1, memory_order_relaxed);
    }
    if (w->is_open) {
        w->program = (pelgaisti_program){PELGAISTI_COMMITS, 0, 0, {0, 0, {0, {0}}}};
        how->make(w);
    }
    return NULL;
}

static int is_office(void) { return how->make == by_programs || (how->make == by_calls && !how->enter); }

static void open_all(void) {
    pelgaisti_options options = PELGAISTI_OPTIONS(threads);
    pthread_mutexattr_t kind;
    options.keep = 0;
    options.waker = &waker;
    pthread_mutexattr_init(&kind);
    if (!strcmp(how->name, "adaptive")) pthread_mutexattr_settype(&kind, PTHREAD_MUTEX_ADAPTIVE_NP);
    for (unsigned k = 0; k < how->books; k++) {
        pthread_mutex_init(&books[k].mutex, &kind);
        atomic_store(&books[k].tail, NULL);
        if (pelgaisti_book_open(&books[k].book, &options)) fail("no book");
    }
    if (how->make == by_ccsynch) {
        atomic_store(&books->tail, &nodes[MOST]);
        atomic_store(&nodes[MOST].word, LEADS);
        atomic_store(&nodes[MOST].next, NULL);
    }
    if (is_office() && pelgaisti_office_open(sessions, &options)) fail("no office");
#ifdef BERKELEY_DB
    if (how->make == by_berkeley) open_environment();
#endif
    memset(workers, 0, threads * sizeof *workers);
    for (unsigned t = 0; t < threads; t++) {
        workers[t].session = workers[t].random = t + 1;
        workers[t].node = &nodes[t];
        sem_init(&woken[t + 1], 0, 0);
    }
}

static void close_all(void) {
    long money = 0;
    for (unsigned k = 0; k < how->books; k++)
        if (pelgaisti_book_close(&books[k].book)) fail("a book isn't closed");
    if (is_office()) {
        for (unsigned t = threads - 1; t > 0; t--) pelgaisti_session_hand_in(&sessions[t], &sessions[0]);
        if (pelgaisti_office_close(&sessions[0], &books->book) || pelgaisti_book_close(&books->book)) fail("an office isn't closed");
    }
#ifdef BERKELEY_DB
    if (how->make == by_berkeley) environment->close(environment, 0);
#endif
    for (unsigned k = 0; k < ACCOUNTS; k++) money += accounts[k];
    if (money != (long)ACCOUNTS * START) fail("money was made or lost");
}

/* What happened in a run: what was used, transactions, those of the threads that made least and most, ticks given to others. */
typedef struct happened {
    moment used;
    double made, least, most, stolen;
} happened;

static double stolen_so_far(void) {
    double ticks;
    FILE *stat = fopen("/proc/stat", "r");
    if (!stat || fscanf(stat, "cpu %*d %*d %*d %*d %*d %*d %*d %lf", &ticks) != 1 || fclose(stat)) fail("/proc/stat can't be read");
    return ticks;
}

static happened measure(unsigned milliseconds) {
    happened it = {{0, 0, 0, 0}, 0, 1e18, 0, stolen_so_far()};
    moment from;
    for (unsigned t = 0; t < threads; t++) workers[t].made_before = workers[t].made;
    from = moment_now();
    atomic_store(&phase, 1);
    usleep(1000 * milliseconds);
    it.used = since(from, moment_now());
    for (unsigned t = 0; t < threads; t++) {
        double made = (double)(workers[t].made - workers[t].made_before);
        it.made += made;
        if (made < it.least) it.least = made;
        if (made > it.most) it.most = made;
    }
    it.stolen = stolen_so_far() - it.stolen;
    return it;
}

/* One run, and what happened in it. */
static happened run(const way *of, unsigned count, unsigned warm, unsigned milliseconds) {
    pthread_t running[MOST], server;
    _Atomic uint32_t is_over = 0;
    happened it;
    how = of;
    threads = count;
    open_all();
    atomic_store(&phase, 0);
    if (how->make == by_server && pthread_create(&server, NULL, serve_all, &is_over)) fail("no thread");
    for (unsigned t = 0; t < threads; t++)
        if (pthread_create(&running[t], NULL, work, &workers[t])) fail("no thread");
    usleep(1000 * warm);
    it = measure(milliseconds);
    atomic_store(&phase, 2);
    for (unsigned t = 0; t < threads; t++) pthread_join(running[t], NULL);
    atomic_store(&is_over, 1);
    if (how->make == by_server) pthread_join(server, NULL);
    close_all();
    return it;
}

/* The time that so many of 1,000 transactions took at most. */
static double time_of(unsigned part) {
    times all = {0, {0}};
    for (unsigned t = 0; t < threads; t++) add_times(&all, &workers[t].times);
    return time_at(&all, part);
}

/* On a machine that others use a run may make none: then they are those of one. */
static double per(double much, double of) { return of > 0 ? much / of : much; }
static double rate_of(happened it) { return it.made / it.used.ns; }

int main(int argc, char **argv) {
    static const char *const names[] = {"bank", "hot", "reads", "own"};
    static int (*const workloads[])(worker *) = {bank, hot, reads, own};
    const way *of = NULL;
    unsigned count = argc == 7 ? (unsigned)atoi(argv[3]) : 0;
    double median, late, later, norm;
    happened it, before, after;
    for (unsigned k = 0; argc == 7 && k < sizeof ways / sizeof *ways; k++)
        if (!strcmp(ways[k].name, argv[1])) of = &ways[k];
    for (unsigned k = 0; argc == 7 && k < sizeof names / sizeof *names; k++)
        if (!strcmp(names[k], argv[2])) transaction = workloads[k];
    /* no deadlock between two books is found */
    if (!of || !transaction || count < 1 || count > MOST || atoi(argv[6]) < 1 || (of->books > 1 && transaction == hot)) return 2;
    work_ns = strtoul(argv[4], NULL, 10);
    is_pinned = !strcmp(argv[5], "pinned");
    prefer();
    if (!strcmp(argv[5], "robbed")) start_busy();
    alarm(60 + (unsigned)atoi(argv[6]) / 1000);
    for (unsigned k = 0; k < ACCOUNTS; k++) accounts[k] = START;
    before = run(&ways[0], 1, 1, 5);
    it = run(of, count, 5, (unsigned)atoi(argv[6]));
    median = time_of(500);
    late = time_of(990);
    later = time_of(999);
    after = run(&ways[0], 1, 1, 5);
    end_busy();
    norm = rate_of(after) > rate_of(before) ? rate_of(after) : rate_of(before);
    printf("%s %s threads=%u work=%s %s norm=%.3f second=%.0f least=%.0f most=%.0f ", of->name, argv[2], count, argv[4], argv[5],
           per(rate_of(it), norm), 1e9 * rate_of(it), it.least, it.most);
    printf("median=%.0f 99th=%.0f 999th=%.0f processor=%.0f voluntary=%.0f involuntary=%.0f stolen=%.0f\n", median, late, later,
           per(it.used.processor, it.made), per(1000 * it.used.voluntary, it.made), per(1000 * it.used.involuntary, it.made),
           before.stolen + it.stolen + after.stolen);
    return 0;
}
