/* How a thread waits for the lock table: the calls that wait for it, and all that they wait by. Nothing here is proved.

   A whole call tries for the table. If another session has it, the call is published, and the thread looks for the answer, which the pass of
   whoever has the table brings. Such looks are cheap for few threads and ruinous for many. So:
   - A thread begins transactions only while it has a slice of time. The others sleep in the order of coming. As a rule there is one slice:
     a thread that is alone keeps the table in its cache, and meets no locks. There are more where threads work much between calls.
   - A thread that has begun goes on without a slice, so whoever holds locks does. But no more than a few threads of an office wait for an answer
     awake. The others sleep before they publish, and whoever leaves calls up the first of them.
   - Whoever wants the table itself, for a look or to take the history, says so, and calls stand back until it has it. */
#define _GNU_SOURCE
#include "handles.h"
#include "wait.h"
#include <errno.h>
#include <linux/futex.h>
#include <sched.h>
#include <stddef.h>
#include <sys/syscall.h>
#include <unistd.h>

enum {
    /* Ticks of the processor's time-stamp counter in a microsecond, at 2.5 GHz. It needn't be exact. */
    US = 2500,

    /* Between two turns: a pause, twice as long each time, as a pass takes about as long; after so many turns the processor is yielded. */
    LEAST_PAUSE = 3 * US / 5, MOST_PAUSE = 24 * US / 5, TURNS_PER_YIELD = 64,
    /* One turn of so many tries for the lock table. The others only look for an answer: a try takes a cache line from who has the table. */
    TURNS_PER_TRY = 8,
    /* After so many turns, some 60 microseconds, a thread sleeps, and then after so many more. */
    TURNS_AWAKE = 16, TURNS_PER_SLEEP = 8,
    /* A call that may make no more turns than these never sleeps, and comes in without waiting. */
    MOST_TURNS_AWAKE = 128,
    /* As many threads of an office wait for an answer awake as there are processors, within these bounds: one more takes a processor from
       whoever has the table. */
    LEAST_AWAKE = 2, MOST_AWAKE = 8,

    /* The time of a slice: all who wait have one within ALL_SLICES, unless that makes it shorter than LEAST_SLICE, of which two switches of
       threads are a tenth. Beyond MOST_SLICE nothing is gained. */
    ALL_SLICES = 5000 * US, LEAST_SLICE = 200 * US, MOST_SLICE = 2500 * US,
    /* Whoever waits last looks so often whether the thread that has a slice makes calls: seldom enough to cost little of a processor. */
    WATCH = 250 * US,
    /* The time of threads over their time in calls, in tenths, from which on there are several slices: only where they work about as long
       between calls do several threads outdo one. There is one again only below FEWER. */
    MORE = 17, FEWER = 14,
    /* The slices, if there are several: four threads, which serve one another's calls, outdo one; two don't. Beyond MOST_SLICES all begin
       without a slice. */
    LEAST_SLICES = 4, MOST_SLICES = 7, ALL_BEGIN = 1 << 20,
    /* One call of so many is measured, with the time to the next one: a number that no pattern of calls has. A thread that slept, or had no
       processor, counts for MOST_SAMPLE at most. What was measured counts half after MEASURED; before LEAST_MEASURED all begin. */
    CALLS_PER_SAMPLE = 13, MOST_SAMPLE = 200 * US, MEASURED = 2000 * US, LEAST_MEASURED = MEASURED / 32,

    /* Threads of so many open offices at a time wait asleep. Those of further ones wait awake, and begin without a slice. */
    MOST_OFFICES = 256,

    /* Calls stand back no longer than that for who wants the table itself: it may have no processor. It tries so often; after some tries it
       sleeps so long between some more. */
    STANDS_BACK = 100 * US, PAUSE_OF_WANT = US / 5, TRIES_AWAKE = 256, TRIES_PER_SLEEP = 32, SLEEP_OF_WANT = 50 * US,
    /* A call that returns ELSEWHERE tries for so long; a look waits at most so long for those who waited for the look before it. */
    TRIES_FOR = 5000 * US, LETS_IN_FOR = 1000 * US,

    /* A thread whose tries are often in vain follows: it publishes its calls without a try, so that whoever has the table keeps it in its
       cache. A try in vain adds to its score, one in time brings that nearer to 0, and from FOLLOWS on the thread follows: so where more than
       a third of its tries are in vain. It tries again after so many calls, and if nobody serves one: then with such a score. Its first look
       comes after a pass over a few calls. */
    IN_VAIN = 2, IN_TIME = 1, FOLLOWS = 16, CALLS_FOLLOWING = 512, NOT_SERVED_IN_TIME = -32,
    TICKS_BEFORE_LOOK = 6000, TICKS_BETWEEN_LOOKS = 1500
};

/* ---- Threads that wait asleep. ---- */

/* A slice of time to begin transactions in: its number, which no other has, 0 if nobody has it; when it is over; whether somebody was called
   up to have it next; whether its thread made no call since `quiet_since`. */
struct slice {
    _Alignas(64) uint64_t number;
    uint64_t end, quiet_since;
    uint32_t is_passed, is_quiet;
};

/* A thread that waits: the slice that it was given; whether its call is published; whether it was called up, and on which processor. It lies
   on its thread's stack, so a thread that is given a slice stays until it was called up. */
struct waiter {
    struct waiter *next;
    struct slice *slice;
    uint32_t is_published, is_called, processor;
};

struct queue {
    struct waiter *first, **last;
};

/* What the threads of the office with this mark wait by; 0: of none. Under the lock: the queue of those that wait for a slice, and
   the last of them; the queue of those that wait for the table; the slices that were given. Written under the lock, and read without it: how many
   wait for a slice; how many wait for the table awake; how many are to come in before the next look. Without the lock: how many want the
   table itself; how many slices there may be; ticks of threads in calls, and in all, which may be wrong by a few. */
static struct admission {
    _Alignas(64) uint64_t mark, given;
    uint32_t lock, waiting, awake, is_on_the_way, before_look;
    struct queue for_slice, for_table;
    struct waiter *watcher;
    _Alignas(64) uint32_t wants, slices;
    uint64_t in_calls, in_all;
    struct slice slice[MOST_SLICES + 1]; /* the last one is everybody's: it has no time, and nobody has it */
} admissions[MOST_OFFICES];

/* How many threads of the process wait asleep for the table, how many want a table itself, how many of an office may wait awake, and how many
   offices were opened: what a thread knows of a handle is of one opening. */
static uint32_t sleepers, wanted, most_awake, openings;

/* What this thread knows: the session of its last begin, or of its last try in vain; the slice that it has or had. Of the measured call: how many
   calls until it, when it began, and how long it took. Its score, and the calls in which it has followed. */
static _Thread_local __attribute__((tls_model("initial-exec"))) struct {
    const pelgaisti_session *session;
    const void *at;
    struct admission *admission;
    struct slice *slice;
    uint64_t number, began, took;
    uint32_t openings, index;
    int32_t until_sample, score, followed;
} mine;

#define READ(word) __atomic_load_n(&(word), __ATOMIC_RELAXED)
#define WRITE(word, value) __atomic_store_n(&(word), value, __ATOMIC_RELAXED)
#define NOW() __builtin_ia32_rdtsc()
#define SELDOM(condition) __builtin_expect(condition, 0)

/* Pauses for so many ticks; where the counter stands still, as many times. */
static void pause_for(uint32_t ticks) {
    const uint64_t begun = NOW();
    uint32_t left = ticks;
    do __builtin_ia32_pause();
    while (--left > 0 && NOW() - begun < ticks);
}

static void lock(struct admission *a) {
    uint32_t tries = 0;
    while (__atomic_exchange_n(&a->lock, 1, __ATOMIC_ACQUIRE))
        if (++tries % 64 == 0) sched_yield();
        else __builtin_ia32_pause();
}

static void unlock(struct admission *a) { __atomic_store_n(&a->lock, 0, __ATOMIC_RELEASE); }

/* Who has published comes before who hasn't: an answer may be there. */
static void put(struct queue *q, struct waiter *it) {
    struct waiter **at = q->first && !it->is_published ? q->last : &q->first;
    while (*at && (*at)->is_published) at = &(*at)->next;
    it->next = *at;
    *at = it;
    if (!it->next) q->last = &it->next;
}

static struct waiter *take_first(struct queue *q) {
    struct waiter *it = q->first;
    if (it) q->first = it->next;
    return it;
}

/* Whether it was in the queue. */
static int take_out(struct queue *q, const struct waiter *it) {
    struct waiter **at;
    for (at = &q->first; *at && *at != it; at = &(*at)->next) {}
    if (!*at) return 0;
    *at = it->next;
    if (!*at) q->last = at;
    return 1;
}

static int is_called(const struct waiter *it) { return __atomic_load_n(&it->is_called, __ATOMIC_ACQUIRE) != 0; }

static void call_up(struct waiter *it) {
    if (!it) return;
    it->processor = (uint32_t)sched_getcpu();
    __atomic_store_n(&it->is_called, 1, __ATOMIC_RELEASE);
    syscall(SYS_futex, &it->is_called, FUTEX_WAKE_PRIVATE, 1, NULL, NULL, 0);
}

/* Sleeps until the thread is called up, or for so many ticks; UINT64_MAX: without end. It is no cancellation point. errno stays. */
static void sleep_until_called(struct waiter *self, uint64_t ticks) {
    const uint64_t ns = ticks / US * 1000;
    const struct timespec time = {(time_t)(ns / 1000000000), (long)(ns % 1000000000)};
    const int kept = errno;
    if (!is_called(self))
        syscall(SYS_futex, &self->is_called, FUTEX_WAIT_PRIVATE, 0, ticks == UINT64_MAX ? NULL : &time, NULL, 0);
    errno = kept;
}

static void wait_until_called(struct waiter *self) {
    while (!is_called(self)) sleep_until_called(self, UINT64_MAX);
}

/* Nobody waits, and nothing was measured. The mark stays, and the numbers of slices go on. */
static void forget(struct admission *a) {
    const size_t kept = offsetof(struct admission, lock);
    memset((char *)a + kept, 0, sizeof *a - kept);
    a->slices = ALL_BEGIN;
}

/* The admission of the office with this mark; NULL if it has none. With 0 one that is nobody's. */
static struct admission *admission_by(uint64_t mark, uint64_t office) {
    uint32_t k, at = (uint32_t)(office * 0x9E3779B97F4A7C15u >> 56);
    for (k = 0; k < MOST_OFFICES; k++, at = (at + 1) % MOST_OFFICES)
        if (READ(admissions[at].mark) == mark) return &admissions[at];
    return NULL;
}

void note_opening(uint64_t mark) {
    cpu_set_t processors;
    const int count = sched_getaffinity(0, sizeof processors, &processors) == 0 ? CPU_COUNT(&processors) : MOST_AWAKE;
    struct admission *a;
    uint64_t nobody;
    WRITE(most_awake, count < LEAST_AWAKE ? LEAST_AWAKE : count < MOST_AWAKE ? (uint32_t)count : MOST_AWAKE);
    do a = admission_by(nobody = 0, mark);
    while (a && !__atomic_compare_exchange_n(&a->mark, &nobody, mark, 0, __ATOMIC_SEQ_CST, __ATOMIC_SEQ_CST));
    if (a) forget(a);
    __atomic_add_fetch(&openings, 1, __ATOMIC_SEQ_CST);
}

void note_closing(uint64_t mark) {
    struct admission *a = admission_by(mark, mark);
    if (a) WRITE(a->mark, 0);
}

/* ---- Slices. ---- */

static int has_slice(void) { return READ(mine.slice->number) == mine.number; }

static uint64_t time_of_slice(const struct admission *a) {
    const uint64_t time = ALL_SLICES / (a->waiting + 1);
    return time < LEAST_SLICE ? LEAST_SLICE : time > MOST_SLICE ? MOST_SLICE : time;
}

/* Reckons how many slices there may be. */
static void reckon(struct admission *a) {
    const uint64_t tenths = 10 * READ(a->in_all) / (READ(a->in_calls) + 1), twice = tenths / 5;
    uint32_t count = twice < LEAST_SLICES ? LEAST_SLICES : (uint32_t)twice;
    if (tenths < (READ(a->slices) > 1 ? FEWER : MORE)) count = 1;
    if (count > MOST_SLICES || READ(a->in_all) < LEAST_MEASURED) count = ALL_BEGIN;
    if (READ(a->slices) != count) WRITE(a->slices, count);
}

/* Adds what was measured. Threads add without an order between them: what one adds may be lost. */
static void add_sample(struct admission *a, uint64_t in_calls, uint64_t in_all) {
    const uint64_t is_much = READ(a->in_all) > MEASURED;
    WRITE(a->in_calls, (READ(a->in_calls) >> is_much) + (in_calls < MOST_SAMPLE ? in_calls : MOST_SAMPLE));
    WRITE(a->in_all, (READ(a->in_all) >> is_much) + (in_all < MOST_SAMPLE ? in_all : MOST_SAMPLE));
    reckon(a);
}

/* The thread makes calls: nobody may have its slice. */
static void keep_slice(void) {
    if (mine.slice && READ(mine.slice->is_quiet) && has_slice()) WRITE(mine.slice->is_quiet, 0);
}

/* A call that is to be measured begins now. */
static void begin_sample(void) {
    if (mine.until_sample == 1) mine.began = NOW();
}

/* Before one call of CALLS_PER_SAMPLE, which is measured, and before the next one, which ends that. */
static void sample(void) {
    if (mine.until_sample == 1) return;
    if (mine.until_sample == 0 && mine.admission) add_sample(mine.admission, mine.took, NOW() - mine.began);
    mine.until_sample = CALLS_PER_SAMPLE;
    keep_slice();
}

/* A call that waits tells nothing of how long calls take: if this one is to be measured, the next one is. */
static void sample_next_instead(void) {
    if (mine.until_sample == 1) mine.until_sample = 2;
}

/* Takes the slice. Under the lock, as the next three. */
static void take_slice(struct admission *a, struct slice *it) {
    mine.slice = it;
    mine.index = (uint32_t)(it - a->slice);
    mine.number = ++a->given;
    if (it == &a->slice[MOST_SLICES]) return;
    WRITE(it->end, NOW() + time_of_slice(a));
    WRITE(it->is_passed, 0);
    WRITE(it->is_quiet, 0);
    WRITE(it->number, mine.number);
}

/* A slice that nobody has, or whose thread was quiet for long enough; else NULL, and all are watched from now on. */
static struct slice *slice_to_have(struct admission *a) {
    const uint64_t now = NOW();
    const uint32_t count = READ(a->slices);
    uint32_t k;
    if (count == ALL_BEGIN) return &a->slice[MOST_SLICES];
    for (k = 0; k < count; k++) {
        struct slice *it = &a->slice[k];
        if (it->is_passed) continue;
        if (it->number == 0) return it;
        if (READ(it->is_quiet) && now - it->quiet_since > WATCH / 2) return it;
        if (READ(it->is_quiet)) continue;
        it->quiet_since = now;
        WRITE(it->is_quiet, 1);
    }
    return NULL;
}

/* Gives the first that waits this slice; NULL if nobody waits, or there is no slice. The caller calls it up after the lock. */
static struct waiter *give_slice(struct admission *a, struct slice *slice) {
    struct waiter *first = slice ? take_first(&a->for_slice) : NULL;
    if (!first) return NULL;
    WRITE(a->waiting, a->waiting - 1);
    if (slice != &a->slice[MOST_SLICES]) WRITE(slice->is_passed, 1);
    first->slice = slice;
    return first;
}

/* Waits until the thread is given a slice; under the lock, which it opens meanwhile. Whoever came last watches, and so is called up last. */
static void wait_in_line(struct admission *a, struct waiter *self) {
    struct waiter *next;
    put(&a->for_slice, self);
    WRITE(a->waiting, a->waiting + 1);
    a->watcher = self;
    while (!self->slice) {
        next = give_slice(a, slice_to_have(a));
        if (next == self) return;
        unlock(a);
        call_up(next);
        sleep_until_called(self, a->watcher == self ? WATCH : UINT64_MAX);
        lock(a);
    }
    unlock(a);
    wait_until_called(self);
    lock(a);
}

/* Waits until the thread may begin. Whoever comes up calls up the next one, if there is a further slice. If it comes up on the processor of
   who called it up, that one goes first: it is on its way to sleep. */
static COLD void wait_for_slice(struct admission *a) {
    struct waiter self = {NULL, NULL, 0, 0, 0}, *next;
    lock(a);
    self.slice = a->for_slice.first ? NULL : slice_to_have(a);
    if (!self.slice) wait_in_line(a, &self);
    take_slice(a, self.slice);
    next = a->for_slice.first ? give_slice(a, slice_to_have(a)) : NULL;
    unlock(a);
    call_up(next);
    if (self.is_called && self.processor == (uint32_t)sched_getcpu()) sched_yield();
}

/* The time of the thread's slice is over, or it is given up, if the thread `waits`: calls up who is to have it next. Returns whether the thread
   goes on until that one has come. It yields first, since that one is often to run on its own processor. */
static COLD int pass_slice(int waits) {
    struct admission *a = mine.admission;
    struct waiter *next = NULL;
    int is_surplus, goes_on;
    lock(a);
    is_surplus = mine.index >= READ(a->slices);
    goes_on = !waits && !is_surplus;
    if (mine.slice->number == mine.number) {
        if (!is_surplus && !mine.slice->is_passed) next = give_slice(a, mine.slice);
        if (!goes_on) WRITE(mine.slice->number, 0);
    }
    unlock(a);
    call_up(next);
    if (next && goes_on) sched_yield();
    return goes_on;
}

static int is_mine(const pelgaisti_session *session) {
    return mine.session == session && mine.at == session->at_ && mine.openings == READ(openings);
}

/* What threads of the session's office wait by; NULL if the handle isn't open, or the office has no admission. */
static struct admission *admission_of(pelgaisti_session *session) {
    uint64_t mark;
    uint32_t number;
    if (is_mine(session)) return mine.admission;
    if (session->is_open_ != 1 || place_of(session, &mark, &number) != PELGAISTI_OK) return NULL;
    return admission_by(mark, mark);
}

/* Makes this session the one that the thread knows. A thread has one slice: that of another office is given up. */
static struct admission *know(pelgaisti_session *session) {
    struct admission *a = admission_of(session);
    if (!a || is_mine(session)) return a;
    if (mine.admission != a) {
        if (mine.admission && has_slice()) pass_slice(1);
        mine.admission = a;
        mine.slice = &a->slice[MOST_SLICES];
        mine.number = UINT64_MAX;
        mine.until_sample = CALLS_PER_SAMPLE;
    }
    mine.session = session;
    mine.at = session->at_;
    mine.openings = READ(openings);
    mine.score = mine.followed = 0;
    return a;
}

/* Whether the time of the thread's slice is over, somebody waits for one, and nobody was called up yet to have it next. */
static int is_over(void) { return READ(mine.admission->waiting) > 0 && !READ(mine.slice->is_passed) && NOW() >= READ(mine.slice->end); }

/* Before a begin, unless all begin. */
static void wait_to_begin(pelgaisti_session *session) {
    struct admission *a = is_mine(session) ? mine.admission : know(session);
    if (!a || READ(a->slices) == ALL_BEGIN) return;
    keep_slice();
    if (!has_slice() || (SELDOM(mine.index >= READ(a->slices) || is_over()) && !pass_slice(0))) wait_for_slice(a);
}

/* ---- Waiting for the table. ---- */

/* The first that sleeps, if one more may wait awake, and none is on the way: until that one has come, others may come in before it. Under the
   lock. */
static struct waiter *let_in(struct admission *a) {
    struct waiter *first = !a->is_on_the_way && a->awake < most_awake ? take_first(&a->for_table) : NULL;
    if (!first) return NULL;
    WRITE(a->is_on_the_way, 1);
    __atomic_sub_fetch(&sleepers, 1, __ATOMIC_SEQ_CST);
    return first;
}

/* Sleeps until the thread is called up, and counts it among those that wait awake. */
static void sleep_in_line(struct admission *a, struct waiter *self) {
    struct waiter *next;
    wait_until_called(self);
    lock(a);
    WRITE(a->is_on_the_way, 0);
    WRITE(a->awake, a->awake + 1);
    next = let_in(a);
    unlock(a);
    call_up(next);
}

/* Waits until the thread may wait awake. Returns whether it slept. */
static int come_in(struct admission *a) {
    struct waiter self = {NULL, NULL, 0, 0, 0};
    int has_room;
    lock(a);
    has_room = a->awake < most_awake;
    if (has_room) WRITE(a->awake, a->awake + 1);
    else {
        put(&a->for_table, &self);
        __atomic_add_fetch(&sleepers, 1, __ATOMIC_SEQ_CST);
    }
    unlock(a);
    if (!has_room) sleep_in_line(a, &self);
    return !has_room;
}

static void leave(struct admission *a) {
    struct waiter *next;
    lock(a);
    WRITE(a->awake, a->awake - 1);
    if (a->before_look > 0) WRITE(a->before_look, a->before_look - 1);
    next = let_in(a);
    unlock(a);
    call_up(next);
}

/* Calls up one who sleeps, if nobody waits awake: whoever does calls it up when it leaves. */
static COLD void rouse_one(pelgaisti_session *session) {
    struct admission *a = admission_of(session);
    struct waiter *next;
    if (!a || READ(a->awake) > 0 || READ(a->is_on_the_way)) return;
    lock(a);
    next = a->awake == 0 ? let_in(a) : NULL;
    unlock(a);
    call_up(next);
}

/* After a call by which the session may have had the table, which it has given back. Whoever sleeps has counted itself, and no longer counts as
   awake, before its last try: so either it is seen here, or that try comes after the table was given back. */
static inline pelgaisti_status after_hold(pelgaisti_session *session, pelgaisti_status status) {
    if (SELDOM(__atomic_load_n(&sleepers, __ATOMIC_SEQ_CST) > 0) && status <= PELGAISTI_NO_MEMORY) rouse_one(session);
    return status;
}

#define HOLDING(session, call) after_hold(session, CALL(session, call))

/* A whole call, NULL to go on with what is pending, or what else waits for the table, and what its last turn has written. It lies in memory, so
   that a call that is answered by its first turn saves no registers. */
struct whole_call {
    pelgaisti_session *session;
    union {
        const pelgaisti_call *call;
        const pelgaisti_program *program;
        pelgaisti_book *view;
        pelgaisti_raw_list *entries;
    } asked;
    union {
        pelgaisti_answer *call;
        pelgaisti_program_answer *program;
        uint64_t *first;
    } answer;
    uint64_t turns;
    size_t told, *count;
    int is_published;
};

/* Makes one turn of what is asked: tries for the table first, or only looks for the answer, or does neither. A call that isn't published is
   published by a turn that only looks. */
enum { LOOKS_ONLY = 0, TRIES = 1, DOES_NEITHER = 2 };
typedef pelgaisti_status turn_maker(struct whole_call *it, int how);

static void pause_before_turn(uint64_t made) {
    if (made % TURNS_PER_YIELD == 0) sched_yield();
    else pause_for(made < 4 ? LEAST_PAUSE << (made - 1) : MOST_PAUSE);
}

/* Sleeps until the thread is called up, in front of those that have published nothing, and tries again; but if a last try before that is not
   in vain, it goes on at once. */
static pelgaisti_status sleep_published(struct whole_call *it, struct admission *a, turn_maker *make) {
    struct waiter self = {NULL, NULL, 1, 0, 0};
    pelgaisti_status status;
    int is_in_line;
    lock(a);
    WRITE(a->awake, a->awake - 1);
    put(&a->for_table, &self);
    __atomic_add_fetch(&sleepers, 1, __ATOMIC_SEQ_CST);
    unlock(a);
    status = make(it, TRIES);
    if (status == PELGAISTI_NOT_SERVED) {
        sleep_in_line(a, &self);
        return make(it, TRIES);
    }
    lock(a);
    is_in_line = take_out(&a->for_table, &self);
    if (is_in_line) {
        WRITE(a->awake, a->awake + 1);
        __atomic_sub_fetch(&sleepers, 1, __ATOMIC_SEQ_CST);
    }
    unlock(a);
    if (!is_in_line) sleep_in_line(a, &self);
    return status;
}

/* Wakes whom the last turn has told of, as one that doesn't wait: the engine's waker may make calls of other sessions. */
static void wake_outside(struct whole_call *it, struct admission *a) {
    if (a) leave(a);
    wake_told(it->session);
    if (a) come_in(a);
}

/* Makes turns until the call is answered or none is left, after `made` of them, the last of which had this status. If no turn is left, the
   call is published. Without an admission the thread doesn't sleep. */
static pelgaisti_status make_turns(struct whole_call *it, struct admission *a, pelgaisti_status status, uint64_t made, turn_maker *make) {
    if (status == PELGAISTI_NOT_SERVED && !it->is_published) status = make(it, LOOKS_ONLY);
    for (; status == PELGAISTI_NOT_SERVED && made < it->turns; made++) {
        if (it->told > 0) wake_outside(it, a);
        if (a && made >= TURNS_AWAKE && made % TURNS_PER_SLEEP == 0) {
            status = sleep_published(it, a, make);
        } else {
            pause_before_turn(made);
            status = make(it, made % TURNS_PER_TRY == 1 ? TRIES : LOOKS_ONLY);
        }
    }
    return status;
}

static void note_in_vain(void) {
    if (mine.score < FOLLOWS) mine.score += IN_VAIN;
}

static void note_in_time(void) {
    if (mine.score != 0) mine.score -= mine.score > 0 ? IN_TIME : -IN_TIME;
}

/* Goes on after the first turn, which had this status and tried for the table, unless no turn may be made. A call that wasn't answered by it
   doesn't tell how long calls take. */
static COLD pelgaisti_status go_on(struct whole_call *it, pelgaisti_status status, turn_maker *make) {
    struct admission *a = NULL;
    sample_next_instead();
    if (status == PELGAISTI_NOT_SERVED && it->turns > 0) {
        a = know(it->session);
        note_in_vain();
        if (it->turns <= MOST_TURNS_AWAKE) a = NULL;
        if (a && come_in(a)) status = make(it, TRIES);
    }
    status = make_turns(it, a, status, 1, make);
    if (a) leave(a);
    if (it->told > 0) wake_told(it->session);
    return status;
}

/* Makes the call of a session that follows. */
static pelgaisti_status follow(struct whole_call *it, turn_maker *make) {
    struct admission *a = it->turns > MOST_TURNS_AWAKE ? mine.admission : NULL;
    pelgaisti_status status;
    uint64_t made;
    sample_next_instead();
    if (a) come_in(a);
    status = make(it, LOOKS_ONLY);
    for (made = 1; made <= TURNS_PER_TRY && status == PELGAISTI_NOT_SERVED; made++) {
        pause_for(made == 1 ? TICKS_BEFORE_LOOK : TICKS_BETWEEN_LOOKS);
        status = make(it, made == TURNS_PER_TRY ? TRIES : LOOKS_ONLY);
    }
    mine.followed = (mine.followed + 1) % CALLS_FOLLOWING;
    if (made > TURNS_PER_TRY) mine.score = NOT_SERVED_IN_TIME;
    else if (mine.followed == 0) mine.score = 0;
    status = make_turns(it, a, status, made, make);
    if (a) leave(a);
    if (it->told > 0) wake_told(it->session);
    return status;
}

/* Waits until nobody wants the table itself, or for long enough; first awake, and then it yields, as whoever wants it may need a processor. */
static COLD void stand_back(pelgaisti_session *session) {
    const struct admission *a = admission_of(session);
    const uint64_t begun = NOW();
    uint64_t waited;
    while (a && READ(a->wants) > 0 && (waited = NOW() - begun) < STANDS_BACK)
        if (waited < STANDS_BACK / 8) pause_for(LEAST_PAUSE);
        else sched_yield();
}

/* Whether the thread may begin a transaction of this session at once. */
static inline int may_begin(const pelgaisti_session *session) {
    const struct admission *a = mine.admission;
    if (!is_mine(session)) return 0;
    return READ(a->slices) == ALL_BEGIN || (has_slice() && !READ(mine.slice->is_quiet) && mine.index < READ(a->slices) && !is_over());
}

/* Whether a call's first turn may be made with nothing before it. Then it is counted among those to be measured, and isn't the one. */
static inline int goes_straight(const pelgaisti_session *session, uint64_t turns, int begins) {
    if (SELDOM(turns == 0 || mine.score != 0 || mine.until_sample <= 2 || READ(wanted) > 0)) return 0;
    if (begins && turns > MOST_TURNS_AWAKE && !may_begin(session)) return 0;
    mine.until_sample--;
    return 1;
}

/* Makes a call that doesn't go straight. */
static COLD pelgaisti_status make_otherwise(struct whole_call *it, turn_maker *make, int begins) {
    int is_contended;
    pelgaisti_status status;
    if (--mine.until_sample <= 1) sample();
    if (READ(wanted) > 0) stand_back(it->session);
    if (begins && it->turns > MOST_TURNS_AWAKE) wait_to_begin(it->session);
    begin_sample();
    is_contended = is_mine(it->session) && mine.score != 0;
    if (is_contended && mine.score >= FOLLOWS && !it->is_published && it->turns > TURNS_PER_TRY) {
        status = follow(it, make);
    } else {
        status = make(it, it->turns > 0 ? TRIES : it->is_published ? DOES_NEITHER : LOOKS_ONLY);
        if (is_contended && status <= PELGAISTI_NO_MEMORY) note_in_time();
        if (status != PELGAISTI_OK || it->told > 0) status = go_on(it, status, make);
    }
    if (mine.until_sample == 1) mine.took = NOW() - mine.began;
    return status;
}

/* After a call whose reply tells of a wait for a lock, in which the thread makes no calls. */
static COLD void give_up_slice(const pelgaisti_session *session) {
    sample_next_instead();
    if (is_mine(session) && has_slice()) pass_slice(1);
}

/* The archive's turn, by a copy of the handle. */
#define TURN(it, how, copy, order, call) \
    ((how) == TRIES ? after_hold((it)->session, CALL_BY_COPY((it)->session, copy, order, call)) : CALL_BY_COPY((it)->session, copy, order, call))

#define MAKES static inline __attribute__((always_inline)) pelgaisti_status

/* Begins the call: tries to perform it at once, or publishes it. */
MAKES begin_call(struct whole_call *it, int how) {
    pelgaisti_session own, *copy = &own;
    it->told = 0;
    return TURN(it, how, copy, RELEASES | ACQUIRES,
                pelgaisti_raw_session_turn(&copy, &it->asked.call, how == TRIES, &it->answer.call, &it->told));
}

MAKES make_turn(struct whole_call *it, int how) {
    pelgaisti_session own, *copy = &own;
    pelgaisti_status status;
    if (!it->is_published) {
        status = begin_call(it, how);
        it->is_published = how != TRIES;
        return status;
    }
    it->told = 0;
    return TURN(it, how, copy, ACQUIRES, pelgaisti_raw_session_resume(&copy, how, &it->answer.call, &it->told));
}

MAKES begin_program(struct whole_call *it, int how) {
    pelgaisti_session own, *copy = &own;
    it->told = 0;
    return TURN(it, how, copy, RELEASES | ACQUIRES,
                pelgaisti_raw_session_run_turn(&copy, &it->asked.program, how == TRIES, &it->answer.program, &it->told));
}

MAKES make_run_turn(struct whole_call *it, int how) {
    pelgaisti_session own, *copy = &own;
    pelgaisti_status status;
    if (!it->is_published) {
        status = begin_program(it, how);
        it->is_published = how != TRIES;
        return status;
    }
    it->told = 0;
    return TURN(it, how, copy, ACQUIRES, pelgaisti_raw_session_run_resume(&copy, how, &it->answer.program, &it->told));
}

pelgaisti_status pelgaisti_session_perform(pelgaisti_session *session, const pelgaisti_call *call, uint64_t turns,
                                           pelgaisti_answer *answer) {
    struct whole_call it = {session, {.call = call}, {.call = answer}, turns, 0, NULL, !call};
    const int begins = call && call->op == PELGAISTI_BEGIN;
    pelgaisti_status status;
    if (!session) return PELGAISTI_NULL;
    if (call && goes_straight(session, turns, begins)) {
        status = begin_call(&it, TRIES);
        if (status != PELGAISTI_OK || it.told > 0) status = go_on(&it, status, make_turn);
    } else {
        status = make_otherwise(&it, make_turn, begins);
    }
    if (SELDOM(status == PELGAISTI_OK && it.answer.call->reply.kind == PELGAISTI_WAITING)) give_up_slice(it.session);
    return WRITING(it.answer.call, status);
}

/* Whether a program with this start begins a transaction. */
#define BEGINS(start) \
    ((start) == PELGAISTI_BEGINS || (start) == PELGAISTI_COMMITS_AND_BEGINS || (start) == PELGAISTI_ABORTS_AND_BEGINS)

pelgaisti_status pelgaisti_session_run(pelgaisti_session *session, const pelgaisti_program *program, uint64_t turns,
                                       pelgaisti_program_answer *answer) {
    struct whole_call it = {session, {.program = program}, {.program = answer}, turns, 0, NULL, !program};
    const int begins = program && BEGINS(program->start);
    pelgaisti_status status;
    if (!session) return PELGAISTI_NULL;
    if (program && goes_straight(session, turns, begins)) {
        status = begin_program(&it, TRIES);
        if (status != PELGAISTI_OK || it.told > 0) status = go_on(&it, status, make_run_turn);
    } else {
        status = make_otherwise(&it, make_run_turn, begins);
    }
    if (SELDOM(status == PELGAISTI_OK && it.answer.program->stop == PELGAISTI_WAITING)) give_up_slice(it.session);
    return WRITING(it.answer.program, status);
}

pelgaisti_status pelgaisti_session_serve(pelgaisti_session *session, pelgaisti_pass *pass) {
    pelgaisti_pass unread, *made = pass ? pass : &unread;
    pelgaisti_status status;
    size_t told = 0;
    status = HOLDING(session, pelgaisti_raw_session_serve(&session, &made, &told));
    if (told > 0) wake_told(session);
    return WRITING(made, status);
}

/* ---- Whoever wants the table itself. ---- */

/* Tries until the thread has the table, or for so long. Meanwhile calls stand back. It doesn't wait to be called up: whoever has the table for
   long looks, too. */
static COLD pelgaisti_status want(struct whole_call *it, turn_maker *make, uint64_t most) {
    struct admission *a = admission_of(it->session);
    struct waiter nobody = {NULL, NULL, 0, 0, 0};
    const uint64_t begun = NOW();
    pelgaisti_status status;
    uint64_t made = 1;
    if (a) __atomic_add_fetch(&a->wants, 1, __ATOMIC_SEQ_CST);
    __atomic_add_fetch(&wanted, 1, __ATOMIC_SEQ_CST);
    while ((status = make(it, TRIES)) == PELGAISTI_NOT_SERVED && NOW() - begun < most)
        if (++made > TRIES_AWAKE && made % TRIES_PER_SLEEP == 0) sleep_until_called(&nobody, SLEEP_OF_WANT);
        else pause_for(PAUSE_OF_WANT);
    __atomic_sub_fetch(&wanted, 1, __ATOMIC_SEQ_CST);
    if (a) __atomic_sub_fetch(&a->wants, 1, __ATOMIC_SEQ_CST);
    return status;
}

static pelgaisti_status make_take(struct whole_call *it, int how) {
    pelgaisti_session *session = it->session;
    pelgaisti_status status;
    (void)how;
    status = HOLDING(session, pelgaisti_raw_session_take_history(&session, &it->answer.first, it->asked.entries, &it->count));
    return status == PELGAISTI_ELSEWHERE ? PELGAISTI_NOT_SERVED : status;
}

pelgaisti_status pelgaisti_session_take_history(pelgaisti_session *session, uint64_t *first, pelgaisti_entry *entries,
                                                size_t room, size_t *count) {
    struct whole_call it = {session, {.entries = LIST(entries, room)}, {.first = first}, 0, 0, count, 0};
    pelgaisti_status status = make_take(&it, TRIES);
    if (status == PELGAISTI_NOT_SERVED) status = want(&it, make_take, TRIES_FOR);
    if (status == PELGAISTI_NOT_SERVED) status = PELGAISTI_ELSEWHERE;
    return WRITING(first, LISTING(entries, room, count, status));
}

/* ---- Looks. A view and its session change places: while the one is open, the other is closed. ---- */

/* For ThreadSanitizer it notes in the closed handle of the session of which office it is. */
static COLD pelgaisti_status acquire_look(pelgaisti_session *session, uint64_t mark, pelgaisti_status status) {
    if (status != PELGAISTI_OK) return status;
    __tsan_acquire(words_for(mark));
    session->note_ = (uint32_t)mark;
    return status;
}

static pelgaisti_status make_look(struct whole_call *it, int how) {
    pelgaisti_session *session = it->session;
    pelgaisti_status status;
    (void)how;
    status = CALL(session, pelgaisti_raw_session_look(&session, &it->asked.view));
    return status == PELGAISTI_ELSEWHERE ? PELGAISTI_NOT_SERVED : status;
}

/* After a look, those who waited for its end come in before the next one. */
static COLD void let_others_first(pelgaisti_session *session) {
    const struct admission *a = admission_of(session);
    const uint64_t begun = NOW();
    while (a && READ(a->before_look) > 0 && NOW() - begun < LETS_IN_FOR) pause_for(LEAST_PAUSE);
}

pelgaisti_status pelgaisti_session_look(pelgaisti_session *session, pelgaisti_book *view) {
    const uint64_t mark = IS_WATCHED && session ? mark_of(session) : 0;
    struct whole_call it = {session, {.view = view}, {NULL}, 0, 0, NULL, 0};
    pelgaisti_status status;
    if (use_too(view)) return PELGAISTI_COPIED;
    if (session && !is_astray(session)) let_others_first(session);
    status = make_look(&it, TRIES);
    if (status == PELGAISTI_NOT_SERVED) status = want(&it, make_look, UINT64_MAX);
    return noting(view, IS_WATCHED ? acquire_look(session, mark, status) : status);
}

/* Under the lock of what it waits by it counts those who wait for the table, asleep or awake. */
static COLD void note_waiting(pelgaisti_session *session) {
    struct admission *a = admission_of(session);
    struct waiter *it;
    uint32_t count;
    if (!a) return;
    lock(a);
    count = a->awake;
    for (it = a->for_table.first; it; it = it->next) count++;
    WRITE(a->before_look, count);
    unlock(a);
}

pelgaisti_status pelgaisti_look_end(pelgaisti_session *session, pelgaisti_book *view) {
    pelgaisti_status status;
    if (use_too(view)) return PELGAISTI_COPIED;
    if (IS_WATCHED && session) __tsan_release(words_for(session->note_));
    status = CALL(session, pelgaisti_raw_look_end(&session, &view));
    if (status == PELGAISTI_OK) note_waiting(session);
    return after_hold(session, status);
}
