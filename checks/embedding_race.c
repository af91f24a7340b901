/* Two threads write one number, with nothing that orders them: a race, which ThreadSanitizer has to report although the archive tells it
   what the calls order. Each writes it under a lock on a resource of its own; with the argument `waker`, in the waker that its call calls.
   Status 0 means that it didn't. With the argument `ordered` each writes it under the same lock, by calls that it publishes and collects,
   and nothing is to be reported. */
#define _XOPEN_SOURCE 600
#include "open.h"
#include <pthread.h>
#include <sched.h>
#include <string.h>

static pelgaisti_session sessions[4];
static pthread_barrier_t both_have_locked;
static long number;
static int has_committed;

static void perform(pelgaisti_session *session, uint32_t op, uint32_t mode, uint32_t database) {
    pelgaisti_call call = {0, 0, {1, {0}}};
    pelgaisti_answer answer;
    call.op = op;
    call.mode = mode;
    call.resource.numbers[0] = database;
    if (pelgaisti_session_perform(session, &call, UINT64_MAX, &answer) != PELGAISTI_OK) exit(2);
}

static void *work(void *argument) {
    pelgaisti_session *session = (pelgaisti_session *)argument;
    perform(session, PELGAISTI_BEGIN, 0, 0);
    perform(session, PELGAISTI_LOCK, PELGAISTI_X, (uint32_t)(session - sessions));
    pthread_barrier_wait(&both_have_locked);
    number += 1;
    return NULL;
}

static void write_number(void *engine, uint32_t session) {
    (void)session;
    *(long *)engine += 1;
}

/* Gives up a lock that another session waits for. The second thread does so once the first has. */
static void *commit(void *argument) {
    pelgaisti_session *session = (pelgaisti_session *)argument;
    while (session == &sessions[1] && !__atomic_load_n(&has_committed, __ATOMIC_RELAXED)) continue; /* orders nothing */
    perform(session, PELGAISTI_COMMIT, 0, 0);
    __atomic_store_n(&has_committed, 1, __ATOMIC_RELAXED);
    return NULL;
}

/* Makes a call step by step. Returns the reply's kind. */
static uint32_t make(pelgaisti_session *session, uint32_t op, uint32_t mode) {
    pelgaisti_call call = {0, 0, {1, {7}}};
    pelgaisti_answer answer;
    call.op = op;
    call.mode = mode;
    if (pelgaisti_session_publish(session, &call, NULL) != PELGAISTI_OK) exit(2);
    while (pelgaisti_session_serve(session, NULL), pelgaisti_session_collect(session, &answer) != PELGAISTI_OK) sched_yield();
    return answer.reply.kind;
}

static void *take_turns(void *argument) {
    pelgaisti_session *session = (pelgaisti_session *)argument;
    for (int k = 0; k < 100; k++) {
        make(session, PELGAISTI_BEGIN, 0);
        if (make(session, PELGAISTI_LOCK, PELGAISTI_X) == PELGAISTI_WAITING)
            while (make(session, PELGAISTI_POLL, 0) == PELGAISTI_WAITING) sched_yield();
        number += 1;
        make(session, PELGAISTI_COMMIT, 0);
    }
    return NULL;
}

int main(int argc, char **argv) {
    static const pelgaisti_waker waker = {write_number, &number};
    const char *how = argc > 1 ? argv[1] : "";
    int is_waking = !strcmp(how, "waker"), is_ordered = !strcmp(how, "ordered");
    pthread_t threads[2];
    if (open_office_with(sessions, 4, UINT64_MAX, is_waking ? &waker : NULL, 0) != PELGAISTI_OK) return 1;
    pthread_barrier_init(&both_have_locked, NULL, 2);
    for (int k = 0; k < 4 && is_waking; k++) {
        perform(&sessions[k], PELGAISTI_BEGIN, 0, 0);
        perform(&sessions[k], PELGAISTI_LOCK, PELGAISTI_X, k % 2);
    }
    for (int k = 0; k < 2; k++)
        pthread_create(&threads[k], NULL, is_waking ? commit : is_ordered ? take_turns : work, &sessions[k]);
    for (int k = 0; k < 2; k++) pthread_join(threads[k], NULL);
    return is_ordered ? number != 200 : number != 2;
}
