/* Calls of books and offices on a thread with the least stack that the system allows, 16 KB. Status 0 means that it sufficed. */
#define _XOPEN_SOURCE 600
#include "open.h"
#include <limits.h>
#include <pthread.h>
#include <string.h>

enum { SESSIONS = 64, LOCKS = 200 };
static pelgaisti_session sessions[SESSIONS];
static pelgaisti_book book, view;
static pelgaisti_gauges gauges;
static pelgaisti_reply replies[PELGAISTI_CALLS];
static pelgaisti_claim claims[SESSIONS * LOCKS];
static pelgaisti_holder holders[SESSIONS];
static pelgaisti_entry entries[SESSIONS * LOCKS];
static uint32_t list[PELGAISTI_MAX_SESSIONS];
static pelgaisti_deadlock deadlocks[2];
static pelgaisti_member members[SESSIONS];
static char text[SESSIONS * 100];
static pelgaisti_answer answer;
static pelgaisti_reply reply;
static const pelgaisti_program program = {PELGAISTI_ABORTS, 0, 0, {PELGAISTI_POLL, 0, {0, {0}}}};
static const pelgaisti_program starts = {PELGAISTI_BEGINS, 0, 0, {PELGAISTI_POLL, 0, {0, {0}}}};
static pelgaisti_program_answer made;
static size_t count, member_count;
static uint64_t place;

#define MUST(condition) \
    if (!(condition)) exit(__LINE__ % 200 + 2)

static void perform(int session, uint32_t op, uint32_t mode, uint32_t database) {
    static pelgaisti_call call;
    memset(&call, 0, sizeof call);
    call.op = op;
    call.mode = mode;
    call.resource.level = 1;
    call.resource.numbers[0] = database;
    MUST(pelgaisti_session_perform(&sessions[session], &call, UINT64_MAX, &answer) == PELGAISTI_OK);
}

static void *work(void *unused) {
    static pelgaisti_resource path = {5, {1, 2, 3, 4, 5}}, last = {1, {10}};
    static pelgaisti_lock_answer locked;
    int k, n;
    MUST(open_office_with(sessions, SESSIONS, 1000, NULL, 2) == PELGAISTI_OK);
    for (k = 0; k < SESSIONS; k++) {
        MUST(pelgaisti_session_run(&sessions[k], &starts, UINT64_MAX, &made) == PELGAISTI_OK && made.served == 2);
        for (n = 0; n < LOCKS; n++) perform(k, PELGAISTI_LOCK, PELGAISTI_X, 10 + (uint32_t)(k * LOCKS + n));
        path.numbers[4] = (uint32_t)k;
        MUST(pelgaisti_session_lock(&sessions[k], &path, PELGAISTI_X, PELGAISTI_FOREVER, &locked) == PELGAISTI_OK && locked.level == 5);
        MUST(pelgaisti_session_lock(&sessions[k], &path, PELGAISTI_X, 0, &locked) == PELGAISTI_OK);
        MUST(k == 0 || pelgaisti_session_lock(&sessions[k], &last, PELGAISTI_X, 1, &locked) == PELGAISTI_TIMED_OUT);
        MUST(pelgaisti_session_wait(&sessions[k], PELGAISTI_FOREVER, &locked) == PELGAISTI_OK);
    }
    /* each waits for the next one, and the last closes a cycle of all */
    for (k = 0; k < SESSIONS; k++) perform(k, PELGAISTI_LOCK, PELGAISTI_X, 10 + (uint32_t)((k + 1) % SESSIONS * LOCKS));
    MUST(pelgaisti_session_look(&sessions[0], &view) == PELGAISTI_OK);
    MUST(pelgaisti_book_holders(&view, &last, holders, SESSIONS, &count) == PELGAISTI_OK && count == 1);
    MUST(pelgaisti_book_blockers(&view, 1, list, SESSIONS, &count) == PELGAISTI_OK);
    MUST(pelgaisti_book_dump(&view, claims, SESSIONS * LOCKS, &count, &place) == PELGAISTI_OK);
    MUST(pelgaisti_book_deadlocks(&view, deadlocks, 2, &count, members, SESSIONS, &member_count) == PELGAISTI_OK);
    MUST(count == 1 && member_count == SESSIONS && deadlocks[0].members == SESSIONS);
    MUST(pelgaisti_deadlock_text(deadlocks, members, text, sizeof text) < sizeof text);
    MUST(pelgaisti_book_reserve(&view, 100, 100) == PELGAISTI_OK && pelgaisti_book_shrink(&view) == PELGAISTI_OK);
    MUST(pelgaisti_book_gauges(&view, &gauges) == PELGAISTI_OK && pelgaisti_look_end(&sessions[0], &view) == PELGAISTI_OK);
    MUST(pelgaisti_session_take_history(&sessions[0], &place, entries, 10, &count) == PELGAISTI_OK);
    for (k = SESSIONS - 1; k > 0; k--) MUST(pelgaisti_session_hand_in(&sessions[k], &sessions[0]) == PELGAISTI_OK);
    MUST(pelgaisti_office_close(&sessions[0], &book) == PELGAISTI_OK);
    MUST(pelgaisti_book_dump(&book, claims, SESSIONS * LOCKS, &count, &place) == PELGAISTI_OK);
    MUST(pelgaisti_book_blockers(&book, 2, list, PELGAISTI_MAX_SESSIONS, &count) == PELGAISTI_OK);
    MUST(pelgaisti_book_deadlocks(&book, deadlocks, 2, &count, members, SESSIONS, &member_count) == PELGAISTI_OK && count == 1);
    memset(entries, 0, sizeof entries);
    for (k = 1; k <= SESSIONS; k++) {
        entries[k - 1].session = (uint32_t)k;
        entries[k - 1].call.op = PELGAISTI_ABORT;
    }
    MUST(pelgaisti_book_serve_batch(&book, entries, SESSIONS, &count) == PELGAISTI_OK && count == SESSIONS);
    entries[0].call.op = PELGAISTI_BEGIN;
    MUST(pelgaisti_book_serve(&book, 1, &entries[0].call, &reply) == PELGAISTI_OK);
    MUST(pelgaisti_book_run(&book, 1, &program, &made) == PELGAISTI_OK && made.served == 2);
    MUST(pelgaisti_program_replies(&program, &made, replies) == 2 && pelgaisti_book_ended(&book, list, PELGAISTI_MAX_SESSIONS, &count) == PELGAISTI_OK);
    MUST(pelgaisti_book_reserve(&book, 100, 100) == PELGAISTI_OK && pelgaisti_book_shrink(&book) == PELGAISTI_OK);
    MUST(pelgaisti_book_gauges(&book, &gauges) == PELGAISTI_OK && gauges.idle_cells == 0);
    MUST(pelgaisti_book_take_history(&book, &place, entries, 10, &count) == PELGAISTI_OK);
    MUST(pelgaisti_book_close(&book) == PELGAISTI_OK);
    MUST(open_book_of_deadlocks(&book, 1, 9) == PELGAISTI_OK);
    MUST(pelgaisti_book_close(&book) == PELGAISTI_OK);
    return unused;
}

int main(void) {
    pthread_attr_t small;
    pthread_t thread;
    pthread_attr_init(&small);
    MUST(pthread_attr_setstacksize(&small, PTHREAD_STACK_MIN) == 0);
    MUST(pthread_create(&thread, &small, work, NULL) == 0);
    MUST(pthread_join(thread, NULL) == 0);
    return 0;
}
