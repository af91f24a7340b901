/*
 * The smallest engine: two threads move money between two accounts, in opposite directions. Each locks the two records, and sleeps while
 * another transaction holds one. A deadlock's victim undoes its change, and restarts.
 *
 *     ./embed && cc examples/two_threads.c -Iout -Lout -lpelgaisti -lpthread -o two_threads && ./two_threads
 */
#include "pelgaisti.h"
#include <pthread.h>
#include <stdio.h>
#include <stdlib.h>

static pelgaisti_session sessions[2];
static long accounts[2] = {1000, 1000};

/* Makes a call without a resource: BEGIN, COMMIT, RESTART. */
static void make(int me, uint32_t op) {
    const pelgaisti_call call = {op, 0, {0, {0}}};
    pelgaisti_answer answer;
    if (pelgaisti_session_perform(&sessions[me], &call, PELGAISTI_ALL_TURNS, &answer) != PELGAISTI_OK) exit(1);
    if (answer.reply.kind == PELGAISTI_REFUSED) exit(1);
}

/* Locks record `record` of table 1 in database 1. Returns 0 if the transaction is a victim. */
static int lock(int me, int record) {
    const pelgaisti_resource resource = {3, {1, 1, (uint32_t)record}};
    pelgaisti_lock_answer answer;
    pelgaisti_status status = pelgaisti_session_lock(&sessions[me], &resource, PELGAISTI_X, PELGAISTI_FOREVER, &answer);
    if (status != PELGAISTI_OK && status != PELGAISTI_VICTIM) exit(1);
    return status == PELGAISTI_OK;
}

static void *work(void *session) {
    const int me = session == &sessions[1];
    for (int k = 0; k < 1000; k++) {
        make(me, PELGAISTI_BEGIN);
        for (;;) {
            const int taken = lock(me, me);
            if (taken) accounts[me]--;
            if (taken && lock(me, 1 - me)) break;
            if (taken) accounts[me]++; /* undone under the lock, which a victim keeps */
            make(me, PELGAISTI_RESTART);
        }
        accounts[1 - me]++;
        make(me, PELGAISTI_COMMIT);
    }
    return NULL;
}

int main(void) {
    const pelgaisti_options options = PELGAISTI_OPTIONS(2);
    pelgaisti_book book = PELGAISTI_EMPTY;
    pthread_t threads[2];
    if (pelgaisti_office_open(sessions, &options) != PELGAISTI_OK) return 1;
    for (int k = 0; k < 2; k++)
        if (pthread_create(&threads[k], NULL, work, &sessions[k]) != 0) return 1;
    for (int k = 0; k < 2; k++) pthread_join(threads[k], NULL);
    if (pelgaisti_session_hand_in(&sessions[1], &sessions[0]) || pelgaisti_office_close(&sessions[0], &book)) return 1;
    printf("%ld and %ld\n", accounts[0], accounts[1]);
    return pelgaisti_book_close(&book) || accounts[0] != 1000 || accounts[1] != 1000;
}
