/* Calls that wait for locks. They are made of calls that don't, and of the sleep of wait.c. Nothing here is proved. */
#define _GNU_SOURCE
#include "wait.h"
#include <time.h>

/* A wait of a session: its office's mark and its number, by which it is woken; the wake-ups that were made for it before its last call;
   and the time at which the wait is over, once there is a wait. */
struct wait {
    pelgaisti_session *session;
    uint64_t mark, timeout_ms;
    uint32_t number, seen;
    int has_begun;
    struct timespec until;
};

/* A handle that isn't where it was opened is told before another argument that is NULL. */
static pelgaisti_status prepare(struct wait *it, pelgaisti_session *session, uint64_t timeout_ms, int has_all) {
    pelgaisti_status status;
    it->session = session;
    it->timeout_ms = timeout_ms;
    it->has_begun = 0;
    status = place_of(session, &it->mark, &it->number);
    return has_all || status == PELGAISTI_COPIED ? status : PELGAISTI_NULL;
}

/* Makes a call, and first notes the wake-ups so far: one that is made behind that keeps the thread from falling asleep if the reply tells of
   a wait. Those of waits that are over are among them, and cost a poll. */
static pelgaisti_status perform(struct wait *it, const pelgaisti_call *call, pelgaisti_answer *last) {
    it->seen = wake_ups_so_far(it->mark, it->number);
    return pelgaisti_session_perform(it->session, call, UINT64_MAX, last);
}

static pelgaisti_status ask(struct wait *it, uint32_t op, pelgaisti_answer *last) {
    const pelgaisti_call call = {op, 0, {0, {0}}};
    return perform(it, &call, last);
}

/* Runs a program of locks so, or with NULL what is pending: a single call, as a withdrawal, by itself, since a program's answer doesn't say
   what its last call was. Raises `level` by the locks that were granted. If memory was refused to one of its later calls, nothing is
   pending, and the status is NO_MEMORY, too. */
static pelgaisti_status run(struct wait *it, const pelgaisti_program *program, uint32_t *level, pelgaisti_answer *last) {
    pelgaisti_program_answer answer;
    pelgaisti_status status;
    it->seen = wake_ups_so_far(it->mark, it->number);
    if (!program) status = pelgaisti_session_perform(it->session, NULL, UINT64_MAX, last);
    if (!program && status != PELGAISTI_PENDING) return status;
    status = pelgaisti_session_run(it->session, program, UINT64_MAX, &answer);
    if (status != PELGAISTI_OK) return status;
    if (answer.served > 0) {
        last->place = answer.place + answer.served - 1;
        last->reply.kind = answer.stop ? answer.stop : PELGAISTI_GRANTED;
        last->reply.value = answer.values[answer.served - 1];
    }
    *level += answer.served - (answer.stop != 0);
    return answer.starved ? PELGAISTI_NO_MEMORY : PELGAISTI_OK;
}

/* The time runs from the first request that waits. In no number of milliseconds are so many seconds that the sum is too large. */
static void begin(struct wait *it) {
    it->has_begun = 1;
    clock_gettime(CLOCK_MONOTONIC, &it->until);
    it->until.tv_sec += (time_t)(it->timeout_ms / 1000);
    it->until.tv_nsec += (long)(it->timeout_ms % 1000) * 1000000;
    if (it->until.tv_nsec < 1000000000) return;
    it->until.tv_nsec -= 1000000000;
    it->until.tv_sec++;
}

/* Sleeps until the session is woken: returns 1; or until the time is over. */
static int sleeps(struct wait *it) {
    if (it->timeout_ms == PELGAISTI_FOREVER) return sleep_since(it->mark, it->number, it->seen, NULL);
    if (!it->has_begun) begin(it);
    return sleep_since(it->mark, it->number, it->seen, &it->until);
}

static pelgaisti_status outcome_of_refusal(uint64_t why) {
    switch (why) {
    case PELGAISTI_NOT_WAITING: return PELGAISTI_OK; /* a withdrawal that came too late: the request was granted */
    case PELGAISTI_IS_DOOMED: return PELGAISTI_VICTIM;
    case PELGAISTI_WOULD_WAIT: return PELGAISTI_TIMED_OUT;
    default: return PELGAISTI_DENIED;
    }
}

static pelgaisti_status outcome_of(const pelgaisti_reply *reply) {
    switch (reply->kind) {
    case PELGAISTI_DEADLOCK: return PELGAISTI_VICTIM;
    case PELGAISTI_WITHDRAWN: return PELGAISTI_TIMED_OUT;
    case PELGAISTI_REFUSED: return outcome_of_refusal(reply->value);
    default: return PELGAISTI_OK;
    }
}

/* Goes by the reply, which the last call had with this status: as long as it is WAITING, sleeps, and asks again when woken, or takes the
   request back when the time is over. */
static pelgaisti_status end_wait(struct wait *it, pelgaisti_status status, pelgaisti_answer *last) {
    while (status == PELGAISTI_OK && last->reply.kind == PELGAISTI_WAITING)
        status = ask(it, sleeps(it) ? PELGAISTI_POLL : PELGAISTI_WITHDRAW, last);
    return status == PELGAISTI_OK ? outcome_of(&last->reply) : status;
}

/* Locks the levels of the path that are left, in one taking of the lock table, up to the first reply other than GRANTED. With 0
   milliseconds each is a TRY. */
static pelgaisti_status lock_on(struct wait *it, const pelgaisti_resource *resource, uint32_t mode, uint32_t *level,
                                pelgaisti_answer *last) {
    const uint32_t op = it->timeout_ms == 0 ? PELGAISTI_TRY : PELGAISTI_LOCK;
    const pelgaisti_program rest = {PELGAISTI_NOTHING, *level, pelgaisti_parent_mode(mode), {op, mode, *resource}};
    return run(it, &rest, level, last);
}

__attribute__((weak)) void __msan_unpoison(const volatile void *at, size_t size);

/* Writes the answer, if the call has an outcome, and returns the status. */
static pelgaisti_status tell(pelgaisti_status status, uint32_t level, const pelgaisti_answer *last, pelgaisti_lock_answer *answer) {
    const pelgaisti_lock_answer told = {level, status == PELGAISTI_DENIED ? (uint32_t)last->reply.value : 0, last->place};
    if (status > PELGAISTI_NO_MEMORY && status < PELGAISTI_VICTIM) return status;
    *answer = told;
    if (__msan_unpoison) __msan_unpoison(answer, sizeof *answer);
    return status;
}

pelgaisti_status pelgaisti_session_lock(pelgaisti_session *session, const pelgaisti_resource *resource, uint32_t mode,
                                        uint64_t timeout_ms, pelgaisti_lock_answer *answer) {
    struct wait it;
    pelgaisti_answer last = {0, {0, 0}};
    pelgaisti_status status;
    uint32_t level = 0;
    status = prepare(&it, session, timeout_ms, resource && answer);
    if (status != PELGAISTI_OK) return status;
    do {
        status = end_wait(&it, lock_on(&it, resource, mode, &level, &last), &last);
        /* the level that waited is locked, too */
        if (status == PELGAISTI_OK && last.reply.kind != PELGAISTI_GRANTED) level++;
    } while (status == PELGAISTI_OK && level < resource->level);
    return tell(status, level, &last, answer);
}

pelgaisti_status pelgaisti_session_wait(pelgaisti_session *session, uint64_t timeout_ms, pelgaisti_lock_answer *answer) {
    struct wait it;
    pelgaisti_answer last = {0, {0, 0}};
    pelgaisti_status status;
    uint32_t level = 0;
    status = prepare(&it, session, timeout_ms, answer != NULL);
    if (status != PELGAISTI_OK) return status;
    status = run(&it, NULL, &level, &last);
    /* the wait of which a pending call tells may be over since long, and its wake-up was made: so it is polled, too */
    if (status == PELGAISTI_NOTHING_PENDING || (status == PELGAISTI_OK && last.reply.kind == PELGAISTI_WAITING))
        status = ask(&it, PELGAISTI_POLL, &last);
    return tell(end_wait(&it, status, &last), 0, &last, answer);
}
