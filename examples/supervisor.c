/*
 * What an engine does about a thread that is lost in its transaction, and about an operator who wants a transaction to end. Four threads
 * have a session each. The first one holds account 1 and waits for a client that doesn't come. The second one pays into account 0, and ends
 * while the program that commits this and begins the next transaction is pending. The third one writes to account 0, asks for account 1
 * and ends, with its transaction open and its call pending. The fourth one needs both accounts. The main thread takes over the sessions
 * of the second and the third: what was committed stays, what wasn't is undone, and their transactions end. With a session of its own it
 * then looks for whom the fourth one waits, and asks that the transaction of the first end.
 *
 *     ./embed && cc examples/supervisor.c -Iout -Lout -lpelgaisti -lpthread -o supervisor && ./supervisor
 */
#define _XOPEN_SOURCE 600
#include "pelgaisti.h"
#include <pthread.h>
#include <sched.h>
#include <semaphore.h>
#include <stdio.h>
#include <stdlib.h>

enum { IDLE = 1, PAYING, LOST, BUSY, OPERATOR, SESSIONS = OPERATOR, ACCOUNTS = 2 };

static long accounts[ACCOUNTS] = {100, 100};

/* What the engine keeps for each session, by number. It is no thread's own, so that it is there when the thread is gone. */
typedef struct client {
    uint32_t number;
    uint64_t transaction;   /* the open one */
    long before[ACCOUNTS];  /* what it has to write back if it aborts */
    int wrote[ACCOUNTS];
    sem_t woken;            /* on which its thread sleeps */
    uint64_t asked;         /* the newest transaction that somebody has asked to end */
    pelgaisti_program ran;  /* what it has run or published last, whose answer may be pending */
} client;
static client clients[SESSIONS + 1];
static pelgaisti_session sessions[SESSIONS];
static sem_t is_ready;

/* The sessions whose threads have ended. The mutex hands their handles, and what is kept for them, to whoever takes them over. */
static pthread_mutex_t guard = PTHREAD_MUTEX_INITIALIZER;
static pthread_cond_t came_back = PTHREAD_COND_INITIALIZER;
static uint32_t orphans[SESSIONS], orphan_count;

/* Unless all is well, prints what failed and ends the program. */
static void must(int is_well, const char *what, const char *name) {
    if (!is_well) fprintf(stderr, "supervisor: %s: %s\n", what, name), exit(1);
}

static void sleep_on(sem_t *it) {
    while (sem_wait(it) != 0) continue; /* a signal may end the sleep early */
}

/* The office's waker. A call that waits for a lock sleeps until the lock is granted; here a thread sleeps until it is asked to end, too. */
static void wake(void *engine, uint32_t session) { sem_post(&((client *)engine)[session].woken); }
static const pelgaisti_waker waker = {wake, clients};

/* Asks that a transaction of a session end: leaves a mark for it, and wakes the session's thread. It ends nothing. A session's transactions
   have rising numbers, so whoever asks too late doesn't take the mark of a later one away, nor asks anything of it. */
static void ask_to_end(uint32_t session, uint64_t transaction) {
    uint64_t *asked = &clients[session].asked, before = __atomic_load_n(asked, __ATOMIC_SEQ_CST);
    while (before < transaction &&
           !__atomic_compare_exchange_n(asked, &before, transaction, 0, __ATOMIC_SEQ_CST, __ATOMIC_SEQ_CST)) continue;
    wake(clients, session);
}

/* Whether somebody has asked that the client's transaction end. */
static int is_asked(const client *it) { return __atomic_load_n(&it->asked, __ATOMIC_SEQ_CST) == it->transaction; }

/* Performs a call without a resource and a mode. Returns its reply. */
static pelgaisti_reply ask(const client *it, uint32_t op) {
    const pelgaisti_call call = {op, 0, {0, {0}}};
    pelgaisti_answer answer;
    pelgaisti_status status = pelgaisti_session_perform(&sessions[it->number - 1], &call, PELGAISTI_ALL_TURNS, &answer);
    must(status == PELGAISTI_OK, pelgaisti_op_name(op), pelgaisti_status_name(status));
    return answer.reply;
}

static void begin(client *it) {
    pelgaisti_reply reply = ask(it, PELGAISTI_BEGIN);
    must(reply.kind == PELGAISTI_BEGAN, "begin", "an earlier transaction is open");
    it->transaction = reply.value;
}

/* Locks an account exclusively, under an intention lock on database 1. Returns 0 if the transaction has to end: it became a victim, or
   somebody has asked for it. Then its request may wait still. */
static int lock_account(const client *it, uint32_t account) {
    pelgaisti_program path = {PELGAISTI_NOTHING, 0, PELGAISTI_IX, {PELGAISTI_LOCK, PELGAISTI_X, {2, {1, account}}}};
    while (path.level < path.last.resource.level) {
        pelgaisti_program_answer answer;
        if (is_asked(it)) return 0;
        pelgaisti_status status = pelgaisti_session_run(&sessions[it->number - 1], &path, PELGAISTI_ALL_TURNS, &answer);
        must(status == PELGAISTI_OK && !answer.starved, "lock", pelgaisti_status_name(status));
        pelgaisti_reply last = {answer.stop, answer.values[answer.served - 1]};
        while (last.kind == PELGAISTI_WAITING) {
            sleep_on(&clients[it->number].woken);
            if (is_asked(it)) return 0;
            last = ask(it, PELGAISTI_POLL);
        }
        if (last.kind == PELGAISTI_DEADLOCK) return 0;
        must(last.kind != PELGAISTI_REFUSED, "lock", pelgaisti_refusal_name(last.value));
        path.level += answer.served; /* the level at which it has waited is locked, too */
    }
    return 1;
}

/* Adds to an account that the client has locked. */
static void add(client *it, uint32_t account, long sum) {
    if (!it->wrote[account]) it->wrote[account] = 1, it->before[account] = accounts[account];
    accounts[account] += sum;
}

static void keep_writes(client *it) {
    for (int k = 0; k < ACCOUNTS; k++) it->wrote[k] = 0;
}

/* Writes back what was there, once, under the locks. */
static void undo(client *it) {
    for (int k = 0; k < ACCOUNTS; k++)
        if (it->wrote[k]) accounts[k] = it->before[k];
    keep_writes(it);
}

/* Takes over a session whose thread has ended: hears what became of its pending call or program, undoes what wasn't committed, and ends its
   transaction, so that its number can be used again. `had_open` gets whether there was a transaction to end. NO_MEMORY: what is left to do
   is done by the same call later. RETIRED: its transaction ends with the office. */
static pelgaisti_status take_over(client *it, int *had_open) {
    const pelgaisti_call abort = {PELGAISTI_ABORT, 0, {0, {0}}};
    pelgaisti_program_answer made;
    pelgaisti_reply replies[PELGAISTI_CALLS];
    pelgaisti_answer answer;
    /* a call is heard like a program, as a program of one; pelgaisti_session_perform hears no program of several */
    pelgaisti_status status = pelgaisti_session_run(&sessions[it->number - 1], NULL, PELGAISTI_ALL_TURNS, &made);
    if (status != PELGAISTI_OK && status != PELGAISTI_NOTHING_PENDING) return status;
    const uint32_t count = status == PELGAISTI_OK ? pelgaisti_program_replies(&it->ran, &made, replies) : 0;
    for (uint32_t k = 0; k < count; k++)
        if (replies[k].kind == PELGAISTI_COMMITTED) keep_writes(it); /* a transaction behind it has written nothing yet */
    undo(it);
    status = pelgaisti_session_perform(&sessions[it->number - 1], &abort, PELGAISTI_ALL_TURNS, &answer);
    if (status != PELGAISTI_OK) return status;
    *had_open = answer.reply.kind == PELGAISTI_ABORTED; /* also if its request waited, or it was a victim; REFUSED: none was open */
    while (sem_trywait(&it->woken) == 0) continue;      /* wake-ups that its thread didn't take */
    return PELGAISTI_OK;
}

/* Waits until a thread has ended. Returns its session's number. */
static uint32_t next_orphan(void) {
    pthread_mutex_lock(&guard);
    while (orphan_count == 0) pthread_cond_wait(&came_back, &guard);
    uint32_t session = orphans[--orphan_count];
    pthread_mutex_unlock(&guard);
    return session;
}

/* Waits until a thread has ended, which has this session if `whose` isn't 0, and takes the session over. Whether there was a transaction
   to end. */
static int take_over_next(uint32_t whose) {
    int had_open = 0;
    uint32_t session = next_orphan();
    must(whose == 0 || session == whose, "take over", "another thread has ended");
    pelgaisti_status status;
    while ((status = take_over(&clients[session], &had_open)) == PELGAISTI_NO_MEMORY) sched_yield();
    must(status == PELGAISTI_OK, "take over", pelgaisti_status_name(status));
    return had_open;
}

/* Whatever ends a thread, its session comes back. */
static void come_back(void *argument) {
    pthread_mutex_lock(&guard);
    orphans[orphan_count++] = ((client *)argument)->number;
    pthread_cond_signal(&came_back);
    pthread_mutex_unlock(&guard);
}

/* Is lost with what it has written, and the program that commits it, begins the next transaction and locks the account again: it has
   published it, and heard of none of its calls. */
static void get_lost_paying(client *it) {
    const pelgaisti_program next = {PELGAISTI_COMMITS_AND_BEGINS, 0, PELGAISTI_IX, {PELGAISTI_LOCK, PELGAISTI_X, {2, {1, 0}}}};
    pelgaisti_program_answer answer;
    must(lock_account(it, 0), "lock", "nobody has it yet");
    add(it, 0, 20);
    it->ran = next;
    must(pelgaisti_session_run(&sessions[it->number - 1], &next, 0, &answer) == PELGAISTI_NOT_SERVED, "run", "a program");
    pthread_exit(NULL);
}

/* Is lost with what it has written, its locks, and a call that it has published. */
static void get_lost(client *it) {
    const pelgaisti_program one = {PELGAISTI_NOTHING, 1, PELGAISTI_IX, {PELGAISTI_LOCK, PELGAISTI_X, {2, {1, 1}}}}; /* a call alone */
    must(lock_account(it, 0), "lock", "nobody has it yet");
    add(it, 0, -30);
    it->ran = one;
    must(pelgaisti_session_publish(&sessions[it->number - 1], &one.last, NULL) == PELGAISTI_OK, "publish", "a call");
    sem_post(&is_ready);
    pthread_exit(NULL);
}

/* Sleeps until it is asked to end. */
static void stay_idle(client *it) {
    must(lock_account(it, 1), "lock", "nobody has it yet");
    add(it, 1, 5);
    sem_post(&is_ready);
    while (!is_asked(it)) sleep_on(&it->woken);
    undo(it); /* under the locks, before the abort gives them back */
    must(ask(it, PELGAISTI_ABORT).kind == PELGAISTI_ABORTED, "abort", "there was no transaction");
}

static void move(client *it) {
    if (lock_account(it, 0) && lock_account(it, 1)) {
        add(it, 0, -10);
        add(it, 1, 10);
        must(ask(it, PELGAISTI_COMMIT).kind == PELGAISTI_COMMITTED, "commit", "it was refused");
        keep_writes(it);
    }
}

static void *run(void *argument) {
    client *it = (client *)argument;
    pthread_cleanup_push(come_back, it);
    begin(it);
    if (it->number == PAYING) get_lost_paying(it);
    if (it->number == LOST) get_lost(it);
    if (it->number == IDLE) stay_idle(it);
    if (it->number == BUSY) move(it);
    pthread_cleanup_pop(1);
    return NULL;
}

/* Waits until a session waits for another one alone, and asks that the transaction of that one end. */
static void end_blocker(uint32_t waiting, uint32_t blocker) {
    pelgaisti_session *own = &sessions[OPERATOR - 1];
    pelgaisti_transaction open = {0, 0};
    pelgaisti_book view = PELGAISTI_EMPTY;
    uint32_t list[SESSIONS] = {0};
    size_t count = 0;
    for (; count != 1 || list[0] != blocker; sched_yield()) {
        must(pelgaisti_session_look(own, &view) == PELGAISTI_OK, "look", "it isn't made");
        pelgaisti_status status = pelgaisti_book_blockers(&view, waiting, list, SESSIONS, &count);
        if (status == PELGAISTI_OK) status = pelgaisti_book_transaction(&view, blocker, &open); /* of the same moment */
        must(pelgaisti_look_end(own, &view) == PELGAISTI_OK, "look", "it doesn't end");
        must(status == PELGAISTI_OK, "blockers", pelgaisti_status_name(status));
    }
    ask_to_end(blocker, open.number);
}

int main(void) {
    pthread_t threads[SESSIONS];
    pelgaisti_book book = PELGAISTI_EMPTY;
    int lost_ended = 0, others_ended = 0;

    pelgaisti_options options = PELGAISTI_OPTIONS(SESSIONS);
    options.waker = &waker;
    pelgaisti_status status = pelgaisti_office_open(sessions, &options);
    must(status == PELGAISTI_OK, "open", pelgaisti_status_name(status));
    must(sem_init(&is_ready, 0, 0) == 0, "start", "there is no semaphore");
    for (uint32_t s = 1; s <= SESSIONS; s++) {
        clients[s].number = s;
        must(sem_init(&clients[s].woken, 0, 0) == 0, "start", "there is no semaphore");
    }
    for (uint32_t s = IDLE; s <= BUSY; s++) {
        must(pthread_create(&threads[s - 1], NULL, run, &clients[s]) == 0, "start", "there is no thread");
        if (s == IDLE || s == LOST) sleep_on(&is_ready);
        if (s == PAYING) lost_ended += take_over_next(PAYING);
    }
    lost_ended += take_over_next(LOST);
    end_blocker(BUSY, IDLE);
    for (int k = 0; k < 2; k++) others_ended += take_over_next(0); /* these have ended their transactions themselves */
    for (uint32_t s = IDLE; s <= BUSY; s++) pthread_join(threads[s - 1], NULL);
    begin(&clients[LOST]); /* its number is used again */
    must(ask(&clients[LOST], PELGAISTI_COMMIT).kind == PELGAISTI_COMMITTED, "commit", "it was refused");

    for (int s = 1; s < SESSIONS && status == PELGAISTI_OK; s++) status = pelgaisti_session_hand_in(&sessions[s], &sessions[0]);
    if (status == PELGAISTI_OK) status = pelgaisti_office_close(&sessions[0], &book);
    must(status == PELGAISTI_OK && pelgaisti_book_close(&book) == PELGAISTI_OK, "close", pelgaisti_status_name(status));
    printf("%d transactions were ended for their threads, that of session %d by its own; the accounts have %ld and %ld\n", lost_ended, IDLE,
           accounts[0], accounts[1]);
    return !(lost_ended == 2 && others_ended == 0 && accounts[0] == 110 && accounts[1] == 110);
}
