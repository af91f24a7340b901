/* What the tests of calls that wait for locks share: the time, calls that are finished, and what the lock table has. Each includes it behind
   _GNU_SOURCE. */
#ifndef EMBEDDING_LOCK_H
#define EMBEDDING_LOCK_H

#include "must.h"
#include "open.h"
#include <pthread.h>
#include <sched.h>
#include <string.h>
#include <time.h>

/* The time in milliseconds, by a clock that the library doesn't read. */
static inline double now(void) {
    struct timespec t;
    clock_gettime(CLOCK_MONOTONIC_RAW, &t);
    return (double)t.tv_sec * 1e3 + (double)t.tv_nsec / 1e6;
}

static inline void pause_for(double milliseconds) {
    struct timespec t = {(time_t)(milliseconds / 1e3), 0};
    t.tv_nsec = (long)((milliseconds - (double)t.tv_sec * 1e3) * 1e6);
    while (nanosleep(&t, &t) != 0) continue;
}

/* Makes a call without a resource, and finishes it where memory is refused. */
static inline pelgaisti_reply ask(pelgaisti_session *session, uint32_t op) {
    const pelgaisti_call call = {op, 0, {0, {0}}};
    pelgaisti_answer answer = {0, {0, 0}};
    pelgaisti_status status = pelgaisti_session_perform(session, &call, UINT64_MAX, &answer);
    while (status == PELGAISTI_NO_MEMORY) sched_yield(), status = pelgaisti_session_perform(session, NULL, UINT64_MAX, &answer);
    MUST(status == PELGAISTI_OK);
    return answer.reply;
}

static inline void begin(pelgaisti_session *session) { MUST(ask(session, PELGAISTI_BEGIN).kind == PELGAISTI_BEGAN); }

static inline void commit(pelgaisti_session *session) { MUST(ask(session, PELGAISTI_COMMIT).kind == PELGAISTI_COMMITTED); }

/* The mode that session `whose` holds on the resource. */
static inline uint32_t held_by(pelgaisti_session *session, uint32_t whose, pelgaisti_resource on) {
    uint32_t mode = 0;
    pelgaisti_book view = PELGAISTI_EMPTY;
    look(session, &view);
    MUST(pelgaisti_book_held(&view, whose, &on, &mode) == PELGAISTI_OK);
    end_look(session, &view);
    return mode;
}

/* Whether a request of session `whose` waits. */
static inline int waits(pelgaisti_session *session, uint32_t whose) {
    pelgaisti_claim claim;
    pelgaisti_book view = PELGAISTI_EMPTY;
    look(session, &view);
    MUST(pelgaisti_book_request(&view, whose, &claim) == PELGAISTI_OK);
    end_look(session, &view);
    return claim.kind != 0;
}

static inline void until_waits(pelgaisti_session *session, uint32_t whose) {
    const double end = now() + 20000;
    while (!waits(session, whose)) {
        MUST(now() < end);
        sched_yield();
    }
}

/* Writes the counters of an open office. */
static inline void count_calls(pelgaisti_session *session, pelgaisti_counts *counts) {
    pelgaisti_book view = PELGAISTI_EMPTY;
    look(session, &view);
    MUST(pelgaisti_book_counts(&view, counts) == PELGAISTI_OK);
    end_look(session, &view);
}

/* Closes an office, and its book. */
static inline void close_all(pelgaisti_session *sessions, size_t count) {
    pelgaisti_book book = PELGAISTI_EMPTY;
    for (size_t k = 1; k < count; k++) MUST(pelgaisti_session_hand_in(&sessions[k], &sessions[0]) == PELGAISTI_OK);
    MUST(pelgaisti_office_close(&sessions[0], &book) == PELGAISTI_OK && pelgaisti_book_close(&book) == PELGAISTI_OK);
}

#endif
