/*
 * Savepoints that give locks back. A transaction notes each lock when it first gets it; a savepoint is how many it has noted. Going back
 * to one releases what was got since, so that others need not wait for a part of the work that was given up.
 *
 * This gives up two-phase locking: behind a release others may change what the transaction has read. So an engine releases only locks
 * under which nothing was read or written. Where it can't tell, it keeps them to the end of the transaction, which is always right.
 *
 *     ./embed && cc examples/savepoints.c -Iout -Lout -lpelgaisti -o savepoints && ./savepoints
 */
#include "pelgaisti.h"
#include <stdio.h>
#include <stdlib.h>
#include <string.h>

static pelgaisti_session sessions[2];

/* Unless all is well, prints what failed and ends the program. */
static void must(int is_well, const char *what) {
    if (!is_well) fprintf(stderr, "savepoints: %s\n", what), exit(1);
}

/* Performs a call. Returns the kind of its reply. */
static uint32_t ask(pelgaisti_session *session, uint32_t op, const pelgaisti_resource *on, uint32_t mode) {
    pelgaisti_call call = {op, mode, {0, {0}}};
    pelgaisti_answer answer;
    if (on != NULL) call.resource = *on;
    must(pelgaisti_session_perform(session, &call, PELGAISTI_ALL_TURNS, &answer) == PELGAISTI_OK, pelgaisti_op_name(op));
    return answer.reply.kind;
}

/* A transaction's locks in the order in which it got them. A savepoint is a count of them. */
typedef struct got_locks {
    pelgaisti_session *session;
    pelgaisti_resource got[PELGAISTI_MAX_LOCKS];
    size_t count;
} got_locks;

/* An engine with many locks has a set beside the list. */
static int is_got(const got_locks *locks, const pelgaisti_resource *it) {
    for (size_t k = 0; k < locks->count; k++)
        if (locks->got[k].level == it->level && memcmp(locks->got[k].numbers, it->numbers, it->level * sizeof(uint32_t)) == 0) return 1;
    return 0;
}

/* Locks a path, and notes each level that the transaction didn't hold; one that is raised isn't noted again. Returns the last reply's kind. */
static uint32_t lock_noting(got_locks *locks, const pelgaisti_resource *resource, uint32_t mode) {
    uint32_t kind = PELGAISTI_GRANTED;
    for (uint32_t level = 0; kind == PELGAISTI_GRANTED && level < resource->level; level++) {
        const pelgaisti_call call = pelgaisti_path_call(resource, mode, level);
        kind = ask(locks->session, call.op, &call.resource, call.mode);
        if (kind == PELGAISTI_GRANTED && !is_got(locks, &call.resource)) locks->got[locks->count++] = call.resource;
    }
    return kind;
}

/* Goes back to a savepoint, once what was written since is undone. The newest first is leaves first, since a parent is locked before what
   is below it. A request that waits is withdrawn before. */
static void go_back(got_locks *locks, size_t savepoint) {
    while (locks->count > savepoint)
        must(ask(locks->session, PELGAISTI_RELEASE, &locks->got[--locks->count], 0) == PELGAISTI_RELEASED, "a lock isn't given back");
}

/* Whether session 1 holds the resource in this mode. */
static int holds(const pelgaisti_resource *resource, uint32_t mode) {
    uint32_t found = PELGAISTI_NL;
    pelgaisti_book view = PELGAISTI_EMPTY;
    must(pelgaisti_session_look(&sessions[0], &view) == PELGAISTI_OK, "look");
    must(pelgaisti_book_held(&view, 1, resource, &found) == PELGAISTI_OK, "held");
    must(pelgaisti_look_end(&sessions[0], &view) == PELGAISTI_OK, "the look's end");
    return found == mode;
}

/* Row 1/7/1 stays, in the mode to which it was raised. Row 1/8/2 is given back, and its table, in which session 2 then works. */
static void go_back_after_a_wait(got_locks *locks) {
    const pelgaisti_resource kept = {3, {1, 7, 1}}, table = {2, {1, 8}}, given = {3, {1, 8, 2}}, others = {3, {1, 9, 1}};
    got_locks other = {&sessions[1], {{0, {0}}}, 0};
    must(lock_noting(&other, &others, PELGAISTI_X) == PELGAISTI_GRANTED, "the other's row");
    must(lock_noting(locks, &kept, PELGAISTI_S) == PELGAISTI_GRANTED && locks->count == 3, "a row to read");
    const size_t savepoint = locks->count;
    must(lock_noting(locks, &given, PELGAISTI_X) == PELGAISTI_GRANTED && lock_noting(locks, &kept, PELGAISTI_X) == PELGAISTI_GRANTED, "rows to write");
    must(lock_noting(locks, &others, PELGAISTI_X) == PELGAISTI_WAITING && locks->count == 6, "a row that another session has");
    must(ask(&sessions[0], PELGAISTI_RELEASE, &given, 0) == PELGAISTI_REFUSED, "a release of who waits");
    must(ask(&sessions[0], PELGAISTI_WITHDRAW, NULL, 0) == PELGAISTI_WITHDRAWN, "its time-out");
    go_back(locks, savepoint);
    must(holds(&kept, PELGAISTI_X) && holds(&given, PELGAISTI_NL) && holds(&table, PELGAISTI_NL), "what is held behind the savepoint");
    must(ask(&sessions[1], PELGAISTI_LOCK, &table, PELGAISTI_X) == PELGAISTI_GRANTED, "the table for the other session");
}

/* Session 2 has begun before, so that session 1 is the victim. It can't go back to a savepoint: it undoes all, and aborts or restarts. */
static void a_victim_aborts(got_locks *locks) {
    const pelgaisti_resource kept = {3, {1, 7, 1}}, kept_table = {2, {1, 7}}, given = {3, {1, 8, 2}};
    must(ask(&sessions[0], PELGAISTI_COMMIT, NULL, 0) == PELGAISTI_COMMITTED && ask(&sessions[0], PELGAISTI_BEGIN, NULL, 0) == PELGAISTI_BEGAN, "begin");
    locks->count = 0;
    must(lock_noting(locks, &kept, PELGAISTI_X) == PELGAISTI_GRANTED && lock_noting(locks, &given, PELGAISTI_X) == PELGAISTI_WAITING, "a wait");
    must(ask(&sessions[1], PELGAISTI_LOCK, &kept_table, PELGAISTI_X) == PELGAISTI_WAITING, "a cycle");
    must(ask(&sessions[0], PELGAISTI_POLL, NULL, 0) == PELGAISTI_DEADLOCK, "a victim");
    must(ask(&sessions[0], PELGAISTI_RELEASE, &kept, 0) == PELGAISTI_REFUSED, "a release of a victim");
    must(ask(&sessions[0], PELGAISTI_ABORT, NULL, 0) == PELGAISTI_ABORTED && ask(&sessions[1], PELGAISTI_COMMIT, NULL, 0) == PELGAISTI_COMMITTED, "the end");
}

int main(void) {
    static got_locks locks;
    pelgaisti_book book = PELGAISTI_EMPTY;
    const pelgaisti_options options = PELGAISTI_OPTIONS(2);
    must(pelgaisti_office_open(sessions, &options) == PELGAISTI_OK, "open");
    locks.session = &sessions[0];
    for (int k = 1; k >= 0; k--) must(ask(&sessions[k], PELGAISTI_BEGIN, NULL, 0) == PELGAISTI_BEGAN, "begin");
    go_back_after_a_wait(&locks);
    a_victim_aborts(&locks);
    must(pelgaisti_session_hand_in(&sessions[1], &sessions[0]) == PELGAISTI_OK, "hand in");
    must(pelgaisti_office_close(&sessions[0], &book) == PELGAISTI_OK && pelgaisti_book_close(&book) == PELGAISTI_OK, "close");
    printf("a savepoint gave back two locks of five, and kept the one that was raised; a victim aborted\n");
    return 0;
}
