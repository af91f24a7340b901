/*
 * Lock escalation. A transaction that scans a table locks its rows one by one, and holds at most 4,096 locks. When it holds 1,000, it locks
 * the table in place of its rows, unless others work there: then it goes on with rows, and tries again later. Four threads do so, each on
 * a table of its own, while a fifth has a lock in one of the tables for a while.
 *
 *     ./embed && cc examples/escalation.c -Iout -Lout -lpelgaisti -lpthread -o escalation && ./escalation
 *
 * Each thread makes 20 transactions, or as many as the first argument says.
 */
#define _XOPEN_SOURCE 600
#include "pelgaisti.h"
#include <pthread.h>
#include <sched.h>
#include <stdio.h>
#include <stdlib.h>
#include <string.h>

/* A transaction reads and changes so many rows; it escalates at the threshold, and tries again so many locks later. */
enum { THREADS = 4, READER = THREADS, SESSIONS, ROWS = 1500, THRESHOLD = 1000, LATER = 200 };

static pelgaisti_session sessions[SESSIONS];
static unsigned transactions = 20;
static pthread_barrier_t start, has_tried, has_ended; /* the last two of the reader and the worker of table 1 */

/* Unless all is well, prints what failed and ends the program. */
static void must(int is_well, const char *what, const char *name) {
    if (!is_well) fprintf(stderr, "escalation: %s: %s\n", what, name), exit(1);
}

/* Performs a call. Returns the kind of its reply. */
static uint32_t ask(pelgaisti_session *session, uint32_t op, const pelgaisti_resource *on, uint32_t mode) {
    pelgaisti_call call = {op, mode, {0, {0}}};
    pelgaisti_answer answer;
    if (on != NULL) call.resource = *on;
    pelgaisti_status status = pelgaisti_session_perform(session, &call, PELGAISTI_ALL_TURNS, &answer);
    must(status == PELGAISTI_OK, pelgaisti_op_name(op), pelgaisti_status_name(status));
    return answer.reply.kind;
}

static int is_below(const pelgaisti_resource *parent, const pelgaisti_resource *resource) {
    return resource->level > parent->level && memcmp(parent->numbers, resource->numbers, parent->level * sizeof(uint32_t)) == 0;
}

/* Locks the parent in place of what session `number`, whose handle this is, holds below it, unless it would wait. `held` has room for
   PELGAISTI_MAX_LOCKS claims, and is the thread's own. Returns how many locks it has given back. */
static size_t escalate(pelgaisti_session *session, uint32_t number, const pelgaisti_resource *parent, pelgaisti_claim *held) {
    uint32_t mode = PELGAISTI_S;
    size_t count, below = 0;
    pelgaisti_book view = PELGAISTI_EMPTY;
    pelgaisti_status status;
    must(pelgaisti_session_look(session, &view) == PELGAISTI_OK, "look", "it isn't made");
    /* the locks behind the parent in the order of paths: those below it come first */
    status = pelgaisti_book_locks_of(&view, number, parent, held, PELGAISTI_MAX_LOCKS, &count);
    must(pelgaisti_look_end(session, &view) == PELGAISTI_OK, "look", "it doesn't end"); /* before the session's next call */
    must(status == PELGAISTI_OK, "locks of a session", pelgaisti_status_name(status));
    while (below < count && is_below(parent, &held[below].resource))
        if (held[below++].mode & ~(uint32_t)PELGAISTI_S) mode = PELGAISTI_X; /* more than S, or an intention to write */
    /* a conversion of the lock on the parent: IX and S together are SIX; a try is refused if it would wait, and changes nothing */
    if (ask(session, PELGAISTI_TRY, parent, mode) != PELGAISTI_GRANTED) return 0;
    /* from here on the parent's lock covers the others; the last ones are leaves */
    for (size_t k = below; k > 0; k--)
        must(ask(session, PELGAISTI_RELEASE, &held[k - 1].resource, 0) == PELGAISTI_RELEASED, "release", "it was refused");
    return below;
}

/* How many locks a session holds, and in which mode it has the resource. */
static size_t locks_held(pelgaisti_session *session, uint32_t number, const pelgaisti_resource *resource, uint32_t *mode) {
    pelgaisti_book view = PELGAISTI_EMPTY;
    size_t count = 0;
    must(pelgaisti_session_look(session, &view) == PELGAISTI_OK, "look", "it isn't made");
    must(pelgaisti_book_locks_held(&view, number, &count) == PELGAISTI_OK, "locks", "there is no answer");
    must(pelgaisti_book_held(&view, number, resource, mode) == PELGAISTI_OK, "a mode", "there is no answer");
    must(pelgaisti_look_end(session, &view) == PELGAISTI_OK, "look", "it doesn't end");
    return count;
}

/* What a thread has of its own. */
typedef struct worker {
    uint32_t number;
    unsigned escalated, refused;
    pelgaisti_claim held[PELGAISTI_MAX_LOCKS];
} worker;

/* One transaction: reads the rows of table `number` and changes every second one. Once the table is locked in X it needs no locks on rows. */
static void scan(worker *own, int has_reader) {
    pelgaisti_session *session = &sessions[own->number - 1];
    const pelgaisti_resource database = {1, {1}}, table = {2, {1, own->number}};
    size_t rows = 0, next = THRESHOLD - 2, given_back = 0;
    uint32_t mode = PELGAISTI_NL;
    must(ask(session, PELGAISTI_BEGIN, NULL, 0) == PELGAISTI_BEGAN, "begin", "it was refused");
    must(ask(session, PELGAISTI_LOCK, &database, PELGAISTI_IX) == PELGAISTI_GRANTED, "lock", "the database");
    must(ask(session, PELGAISTI_LOCK, &table, PELGAISTI_IX) == PELGAISTI_GRANTED, "lock", "the table");
    for (uint32_t k = 0; k < ROWS && given_back == 0; k++) {
        const pelgaisti_resource row = {3, {1, own->number, k}};
        must(ask(session, PELGAISTI_LOCK, &row, k % 2 ? PELGAISTI_X : PELGAISTI_S) == PELGAISTI_GRANTED, "lock", "a row");
        if (++rows < next) continue;
        given_back = escalate(session, own->number, &table, own->held);
        must(given_back == 0 || given_back == rows, "escalate", "other locks were given back than those on rows");
        if (given_back == 0) own->refused++, next += LATER;
        if (has_reader && rows == THRESHOLD - 2) pthread_barrier_wait(&has_tried), pthread_barrier_wait(&has_ended);
    }
    size_t count = locks_held(session, own->number, &table, &mode);
    must(given_back == 0 || (count == 2 && mode == PELGAISTI_X), "escalate", "the table isn't locked for its rows");
    own->escalated += given_back > 0;
    must(ask(session, PELGAISTI_COMMIT, NULL, 0) == PELGAISTI_COMMITTED, "commit", "it was refused");
}

static void *work(void *argument) {
    worker *own = (worker *)argument;
    pthread_barrier_wait(&start);
    for (unsigned k = 0; k < transactions; k++) scan(own, own->number == 1 && k == 0);
    return NULL;
}

/* Reads a row of table 1, to which nobody else comes, and ends once the table's worker has tried to have the table. */
static void *read_one(void *unused) {
    pelgaisti_session *session = &sessions[READER];
    const pelgaisti_resource path[] = {{1, {1}}, {2, {1, 1}}, {3, {1, 1, ROWS}}};
    must(ask(session, PELGAISTI_BEGIN, NULL, 0) == PELGAISTI_BEGAN, "begin", "it was refused");
    for (int k = 0; k < 3; k++)
        must(ask(session, PELGAISTI_LOCK, &path[k], k < 2 ? PELGAISTI_IS : PELGAISTI_S) == PELGAISTI_GRANTED, "lock", "the reader");
    pthread_barrier_wait(&start);
    pthread_barrier_wait(&has_tried);
    must(ask(session, PELGAISTI_COMMIT, NULL, 0) == PELGAISTI_COMMITTED, "commit", "it was refused");
    pthread_barrier_wait(&has_ended);
    return unused;
}

int main(int argc, char **argv) {
    static worker workers[THREADS];
    pthread_t threads[SESSIONS];
    pelgaisti_book book = PELGAISTI_EMPTY;
    unsigned escalated = 0, refused = 0;

    if (argc > 1) transactions = (unsigned)strtoul(argv[1], NULL, 10);
    pthread_barrier_init(&start, NULL, SESSIONS);
    pthread_barrier_init(&has_tried, NULL, 2);
    pthread_barrier_init(&has_ended, NULL, 2);
    const pelgaisti_options options = PELGAISTI_OPTIONS(SESSIONS);
    pelgaisti_status status = pelgaisti_office_open(sessions, &options);
    must(status == PELGAISTI_OK, "open", pelgaisti_status_name(status));
    must(pthread_create(&threads[READER], NULL, read_one, NULL) == 0, "start", "there is no thread");
    for (uint32_t k = 0; k < THREADS; k++) {
        workers[k].number = k + 1;
        must(pthread_create(&threads[k], NULL, work, &workers[k]) == 0, "start", "there is no thread");
    }
    for (int k = 0; k < SESSIONS; k++) pthread_join(threads[k], NULL);
    for (int k = 0; k < THREADS; k++) escalated += workers[k].escalated, refused += workers[k].refused;
    for (int s = 1; s < SESSIONS && status == PELGAISTI_OK; s++) status = pelgaisti_session_hand_in(&sessions[s], &sessions[0]);
    if (status == PELGAISTI_OK) status = pelgaisti_office_close(&sessions[0], &book);
    must(status == PELGAISTI_OK && pelgaisti_book_close(&book) == PELGAISTI_OK, "close", pelgaisti_status_name(status));
    printf("%u of %u transactions escalated; %u try was refused, while somebody read in the table\n", escalated, THREADS * transactions, refused);
    return !(escalated == THREADS * transactions && refused == 1);
}
