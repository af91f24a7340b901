/*
 * Two hundred clients share eight sessions. Each client is a thread, and borrows a session from a pool for one transaction: it moves 1
 * from an account to another, and gives the session back. A deadlock's victim aborts, gives its session back and tries again. A client
 * that waits for a session holds no lock, so the pool closes no cycle of waits that the lock table doesn't see.
 *
 *     ./embed && cc examples/lending.c -Iout -Lout -lpelgaisti -lpthread -o lending && ./lending
 *
 * Each client makes 20 transfers, or as many as the first argument says.
 */
#define _XOPEN_SOURCE 600 /* for barriers under -std=c99 */
#include "pelgaisti.h"
#include <pthread.h>
#include <stdio.h>
#include <stdlib.h>

/* The last two accounts, from MEETING on, are used only by the first transfers of two clients, which make a deadlock. */
enum { CLIENTS = 200, SESSIONS = 8, ACCOUNTS = 8, MEETING = ACCOUNTS - 2 };

static long accounts[ACCOUNTS];
static unsigned transfers = 20;
static pthread_barrier_t both_hold_one;

/* The sessions. In a call that waits for a lock the borrower sleeps, until its session is woken. */
static pelgaisti_session sessions[SESSIONS];

/* The pool: the indices of the sessions that nobody has borrowed. Its mutex hands a session's handle from one thread to the next. */
static pthread_mutex_t guard = PTHREAD_MUTEX_INITIALIZER;
static pthread_cond_t given_back = PTHREAD_COND_INITIALIZER;
static unsigned idle[SESSIONS], idle_count;

/* A client: its number, how many transfers it made, how often it was a victim, and what it added to each account. */
typedef struct client {
    unsigned number, made, victims;
    long added[ACCOUNTS];
} client;

/* Unless all is well, prints what failed and ends the program. */
static void must(int is_well, const char *what, const char *name) {
    if (!is_well) fprintf(stderr, "lending: %s: %s\n", what, name), exit(1);
}

static unsigned borrow(void) {
    pthread_mutex_lock(&guard);
    while (idle_count == 0) pthread_cond_wait(&given_back, &guard);
    unsigned lent = idle[--idle_count];
    pthread_mutex_unlock(&guard);
    return lent;
}

static void give_back(unsigned lent) {
    pthread_mutex_lock(&guard);
    idle[idle_count++] = lent;
    pthread_cond_signal(&given_back);
    pthread_mutex_unlock(&guard);
}

/* Performs a call without a resource and a mode. Returns the kind of its reply. */
static uint32_t ask(unsigned lent, uint32_t op) {
    const pelgaisti_call call = {op, 0, {0, {0}}};
    pelgaisti_answer answer;
    pelgaisti_status status = pelgaisti_session_perform(&sessions[lent], &call, PELGAISTI_ALL_TURNS, &answer);
    must(status == PELGAISTI_OK, pelgaisti_op_name(op), pelgaisti_status_name(status));
    return answer.reply.kind;
}

/* Locks an account exclusively, under an intention lock on database 1. Returns 0 if it became a victim. */
static int lock_account(unsigned lent, uint32_t account) {
    const pelgaisti_resource resource = {2, {1, account}};
    pelgaisti_lock_answer answer;
    pelgaisti_status status = pelgaisti_session_lock(&sessions[lent], &resource, PELGAISTI_X, PELGAISTI_FOREVER, &answer);
    must(status == PELGAISTI_OK || status == PELGAISTI_VICTIM, "lock", pelgaisti_status_name(status));
    return status == PELGAISTI_OK;
}

/* One transaction on a borrowed session. Returns 0 if it became a victim. It writes once it has both locks, so it has nothing to undo. */
static int transfer(unsigned lent, uint32_t from, uint32_t to, int meet) {
    must(ask(lent, PELGAISTI_BEGIN) == PELGAISTI_BEGAN, "begin", "an earlier client's transaction is open");
    int taken = lock_account(lent, from);
    if (meet) pthread_barrier_wait(&both_hold_one); /* the two clients hold what the other one asks for next */
    taken = taken && lock_account(lent, to);
    if (taken) accounts[from] -= 1, accounts[to] += 1;
    must(ask(lent, taken ? PELGAISTI_COMMIT : PELGAISTI_ABORT) != PELGAISTI_REFUSED, "commit or abort", "it was refused");
    return taken;
}

/* A client's work: its transfers, each repeated until it commits, each try on a session that is borrowed for it. */
static void *work(void *argument) {
    client *c = (client *)argument;
    uint32_t random = c->number + 1;
    while (c->made < transfers) {
        int meets = c->made == 0 && c->number < 2;
        random = random * 1664525u + 1013904223u;
        uint32_t from = meets ? MEETING + c->number : (random >> 16) % MEETING;
        uint32_t to = meets ? MEETING + 1 - c->number : (from + 1 + (random >> 24) % (MEETING - 1)) % MEETING;
        unsigned lent = borrow();
        int is_made = transfer(lent, from, to, meets && c->victims == 0);
        give_back(lent);
        c->made += is_made;
        c->victims += !is_made;
        c->added[from] -= is_made;
        c->added[to] += is_made;
    }
    return NULL;
}

int main(int argc, char **argv) {
    static client clients[CLIENTS];
    static pthread_t threads[CLIENTS];
    unsigned made = 0, victims = 0, wrong = 0;
    pelgaisti_book book = PELGAISTI_EMPTY;

    if (argc > 1) transfers = (unsigned)strtoul(argv[1], NULL, 10);
    pthread_barrier_init(&both_hold_one, NULL, 2);
    const pelgaisti_options options = PELGAISTI_OPTIONS(SESSIONS);
    pelgaisti_status status = pelgaisti_office_open(sessions, &options);
    must(status == PELGAISTI_OK, "open", pelgaisti_status_name(status));
    for (unsigned s = 0; s < SESSIONS; s++) give_back(s);
    for (unsigned c = 0; c < CLIENTS; c++) {
        clients[c].number = c;
        must(pthread_create(&threads[c], NULL, work, &clients[c]) == 0, "start", "there is no thread for a client");
    }
    for (unsigned c = 0; c < CLIENTS; c++) pthread_join(threads[c], NULL);
    for (unsigned c = 0; c < CLIENTS; c++) {
        made += clients[c].made;
        victims += clients[c].victims;
        for (int a = 0; a < ACCOUNTS; a++) accounts[a] -= clients[c].added[a];
    }
    for (int a = 0; a < ACCOUNTS; a++) wrong += accounts[a] != 0;
    for (int s = 1; s < SESSIONS && status == PELGAISTI_OK; s++) status = pelgaisti_session_hand_in(&sessions[s], &sessions[0]);
    if (status == PELGAISTI_OK) status = pelgaisti_office_close(&sessions[0], &book);
    must(status == PELGAISTI_OK && pelgaisti_book_close(&book) == PELGAISTI_OK, "close", pelgaisti_status_name(status));
    printf("%u transfers by %d clients on %d sessions; %u victims; %u accounts differ from what the clients added\n", made, CLIENTS,
           SESSIONS, victims, wrong);
    return !(made == CLIENTS * transfers && victims > 0 && wrong == 0 && idle_count == SESSIONS);
}
