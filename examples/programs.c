/*
 * Four clerks move money between accounts. The lock table is a book that they share behind a mutex, and all that a clerk does between
 * two moves is one program, for which it acquires the mutex once: it commits, begins, and locks the path to the next account. A clerk
 * whose lock waits sleeps until the program that ends its wait tells of it.
 *
 *     ./embed && cc examples/programs.c -Iout -Lout -lpelgaisti -lpthread -o programs && ./programs
 *
 * Each clerk makes 2000 transfers, or as many as the first argument says.
 */
#include "pelgaisti.h"
#include <pthread.h>
#include <stdio.h>
#include <stdlib.h>

enum { CLERKS = 4, ACCOUNTS = 8 };

static long accounts[ACCOUNTS];
static unsigned transfers = 2000;
static pelgaisti_book book = PELGAISTI_EMPTY;
static pthread_mutex_t guard = PTHREAD_MUTEX_INITIALIZER; /* of the book */
static pthread_cond_t woken[CLERKS + 1];                  /* of each session, from 1 on */

/* Unless all is well, prints what failed and ends the program. */
static void must(int is_well, const char *what, const char *name) {
    if (!is_well) fprintf(stderr, "programs: %s: %s\n", what, name), exit(1);
}

/* Runs a program of the session in one acquisition of the mutex, and sleeps while its last call waits. Returns its last reply's kind. */
static uint32_t run(uint32_t session, const pelgaisti_program *program) {
    const pelgaisti_call poll = {PELGAISTI_POLL, 0, {0, {0}}};
    pelgaisti_program_answer answer;
    pelgaisti_reply replies[PELGAISTI_CALLS], last;
    uint32_t list[CLERKS];
    size_t count;
    pthread_mutex_lock(&guard);
    pelgaisti_status status = pelgaisti_book_run(&book, session, program, &answer);
    must(status == PELGAISTI_OK && !answer.starved && answer.served > 0, "run", pelgaisti_status_name(status));
    status = pelgaisti_book_ended(&book, list, CLERKS, &count);
    must(status == PELGAISTI_OK, "ended", pelgaisti_status_name(status));
    for (size_t k = 0; k < count; k++) pthread_cond_signal(&woken[list[k]]);
    last = replies[pelgaisti_program_replies(program, &answer, replies) - 1];
    while (last.kind == PELGAISTI_WAITING) {
        pthread_cond_wait(&woken[session], &guard);
        status = pelgaisti_book_serve(&book, session, &poll, &last);
        must(status == PELGAISTI_OK, "poll", pelgaisti_status_name(status));
    }
    pthread_mutex_unlock(&guard);
    return last.kind;
}

/* Locks an account exclusively, behind what `start` says, of whose path so many levels are locked already. */
static void lock_account(uint32_t session, uint32_t start, uint32_t level, uint32_t account) {
    const pelgaisti_program program = {start, level, PELGAISTI_IX, {PELGAISTI_LOCK, PELGAISTI_X, {2, {1, account}}}};
    uint32_t kind = run(session, &program);
    must(kind == PELGAISTI_GRANTED || kind == PELGAISTI_CLEAR, "lock", pelgaisti_reply_name(kind));
}

/* Makes the transfers of a clerk. It locks the lesser account first, so that no cycle of waits closes. */
static void *work(void *own) {
    const uint32_t session = *(const uint32_t *)own;
    const pelgaisti_program end = {PELGAISTI_COMMITS, 0, 0, {0, 0, {0, {0}}}};
    uint32_t start = PELGAISTI_BEGINS;
    for (unsigned k = 0; k < transfers; k++) {
        uint32_t from = (k * 5 + session) % ACCOUNTS, to = (from + 1 + k % (ACCOUNTS - 1)) % ACCOUNTS;
        /* the begin and the lock of the database are granted at once: nobody holds more than IX there */
        lock_account(session, start, 0, from < to ? from : to);
        lock_account(session, PELGAISTI_NOTHING, 1, from < to ? to : from);
        accounts[from]--;
        accounts[to]++;
        start = PELGAISTI_COMMITS_AND_BEGINS;
    }
    must(run(session, &end) == PELGAISTI_COMMITTED, "end", "no commit");
    return NULL;
}

int main(int argc, char **argv) {
    static uint32_t sessions[CLERKS];
    pthread_t threads[CLERKS];
    long sum = 0;
    if (argc > 1) transfers = (unsigned)strtoul(argv[1], NULL, 10);
    must(transfers > 0, "transfers", "none");
    const pelgaisti_options options = PELGAISTI_OPTIONS(CLERKS);
    pelgaisti_status status = pelgaisti_book_open(&book, &options);
    must(status == PELGAISTI_OK, "open", pelgaisti_status_name(status));
    for (uint32_t s = 0; s <= CLERKS; s++) pthread_cond_init(&woken[s], NULL);
    for (uint32_t s = 0; s < CLERKS; s++) {
        sessions[s] = s + 1;
        must(pthread_create(&threads[s], NULL, work, &sessions[s]) == 0, "thread", "not started");
    }
    for (uint32_t s = 0; s < CLERKS; s++) pthread_join(threads[s], NULL);
    for (int a = 0; a < ACCOUNTS; a++) sum += accounts[a];
    printf("%u transfers, and %ld in all accounts\n", CLERKS * transfers, sum);
    return pelgaisti_book_close(&book) == PELGAISTI_OK && sum == 0 ? 0 : 1;
}
