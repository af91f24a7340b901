/*
 * What an engine tells of its lock table while others use it. Four threads lock two records in either order, so that they meet deadlocks.
 * Who becomes a victim writes its cycle to the log. A fifth session is the monitor's: it writes dumps, with counters of the same moment, and
 * the entries of the history since the last dump.
 *
 *     ./embed && cc examples/monitor.c -Iout -Lout -lpelgaisti -lpthread -o monitor && ./monitor dump.csv since.csv
 *     glm show --state dump.csv
 *
 * Each thread commits 500 transactions, or as many as the third argument says. The log goes to standard output.
 */
#define _XOPEN_SOURCE 600
#include "pelgaisti.h"
#include <inttypes.h>
#include <pthread.h>
#include <sched.h>
#include <semaphore.h>
#include <stdio.h>
#include <stdlib.h>
#include <string.h>

/* The rows have room for all that five sessions with two locks each, and their ancestor, can have. */
enum { WORKERS = 4, MONITOR = WORKERS, SESSIONS, KEPT_ENTRIES = 1 << 16, KEPT = 16, MEMBERS = KEPT * SESSIONS, ROWS = 8 * SESSIONS, TEXT = 4096 };

static pelgaisti_session sessions[SESSIONS];
static sem_t woken[SESSIONS];
static unsigned transactions = 500;
static unsigned is_over; /* how many workers have ended, atomically */

/* Unless all is well, prints what failed and ends the program. */
static void must(int is_well, const char *what, const char *name) {
    if (!is_well) fprintf(stderr, "monitor: %s: %s\n", what, name), exit(1);
}

static void wake(void *engine, uint32_t session) { sem_post((sem_t *)engine + session - 1); }
static const pelgaisti_waker waker = {wake, woken};

/* Performs a call. Returns its reply. */
static pelgaisti_reply ask(pelgaisti_session *session, uint32_t op, const pelgaisti_resource *on, uint32_t mode) {
    pelgaisti_call call = {op, mode, {0, {0}}};
    pelgaisti_answer answer;
    if (on != NULL) call.resource = *on;
    pelgaisti_status status = pelgaisti_session_perform(session, &call, PELGAISTI_ALL_TURNS, &answer);
    must(status == PELGAISTI_OK, pelgaisti_op_name(op), pelgaisti_status_name(status));
    return answer.reply;
}

/* Takes the lock table, to ask several questions of one moment, and gives it back. */
static void look(pelgaisti_session *session, pelgaisti_book *view) {
    const pelgaisti_status status = pelgaisti_session_look(session, view);
    must(status == PELGAISTI_OK, "look", pelgaisti_status_name(status));
}

static void end_look(pelgaisti_session *session, pelgaisti_book *view) {
    must(pelgaisti_look_end(session, view) == PELGAISTI_OK, "look", "it doesn't end");
}

/* Writes why this transaction became a victim: the text of the newest deadlock whose victim it was. The text is empty if as many newer ones
   as the office keeps have come meanwhile. */
static void tell_cycle(pelgaisti_session *session, uint64_t transaction, char *text, size_t room) {
    pelgaisti_deadlock list[KEPT];
    pelgaisti_member members[MEMBERS];
    size_t count, member_count, first = 0; /* `first`: where the members of a deadlock begin, the victim first */
    pelgaisti_book view = PELGAISTI_EMPTY;
    pelgaisti_status status;
    look(session, &view);
    status = pelgaisti_book_deadlocks(&view, list, KEPT, &count, members, MEMBERS, &member_count);
    end_look(session, &view);
    must(status == PELGAISTI_OK, "deadlocks", pelgaisti_status_name(status));
    text[0] = 0;
    for (size_t k = 0; k < count && k < KEPT && first + list[k].members <= MEMBERS; first += list[k++].members)
        if (members[first].request.transaction == transaction) pelgaisti_deadlock_text(&list[k], &members[first], text, room);
}

/* Writes the state of the lock table as the rows of `glm show --csv`, and to standard output how often requests had to wait, and what became
   of it, up to that moment. Returns its place in the history: how many calls were made before. All text is made without the lock table. */
static uint64_t write_state(pelgaisti_session *session, pelgaisti_claim *rows, size_t room, FILE *file) {
    pelgaisti_dumping at = PELGAISTI_DUMPING;
    pelgaisti_book view = PELGAISTI_EMPTY;
    pelgaisti_counts counts;
    pelgaisti_status status;
    uint64_t place;
    size_t count;
    char line[100]; /* bytes, enough for each */
    look(session, &view);
    status = pelgaisti_book_dump(&view, rows, room, &count, &place);
    if (status == PELGAISTI_OK) status = pelgaisti_book_counts(&view, &counts);
    end_look(session, &view);
    must(status == PELGAISTI_OK && count <= room, "dump", "there is too little room or memory");
    while (pelgaisti_dump_line(rows, count, &at, line, sizeof line)) fputs(line, file);
    printf("%" PRIu64 " calls, %" PRIu64 " requests\n", place, counts.requests);
    printf("%" PRIu64 " waits begun, %" PRIu64 " granted, %" PRIu64 " victims, %" PRIu64 " go on\n", counts.waits_begun,
           counts.waits_granted, counts.victims, counts.waiting);
    return place;
}

/* Writes an entry of the history as the row that `glm` reads. The library has a text for dumps and for deadlocks, and none for entries. */
static void write_entry(uint64_t place, const pelgaisti_entry *it, FILE *file) {
    const pelgaisti_resource *on = &it->call.resource;
    const uint32_t op = it->call.op, kind = it->reply.kind;
    fprintf(file, "%" PRIu64 ",%" PRIu32 ",%s,", place, it->session, pelgaisti_op_name(op));
    for (uint32_t k = 0; k < on->level; k++) fprintf(file, k ? "/%" PRIu32 : "%" PRIu32, on->numbers[k]);
    const int has_mode = op == PELGAISTI_LOCK || op == PELGAISTI_CONVERT || op == PELGAISTI_TRY;
    fprintf(file, ",%s,%s,", has_mode ? pelgaisti_mode_name(it->call.mode) : "", pelgaisti_reply_name(kind));
    if (kind == PELGAISTI_GRANTED) fputs(pelgaisti_mode_name(it->reply.value), file);
    if (kind == PELGAISTI_REFUSED) fputs(pelgaisti_refusal_name(it->reply.value), file);
    if (kind == PELGAISTI_BEGAN || kind == PELGAISTI_COMMITTED || kind == PELGAISTI_ABORTED || kind == PELGAISTI_RESTARTED)
        fprintf(file, "%" PRIu64, it->reply.value);
    fputc('\n', file);
}

/* Writes the entries of a closed office's history from this place on, the first with place 0. Returns how many. */
static uint64_t write_since(pelgaisti_book *book, uint64_t place, FILE *file) {
    pelgaisti_entry entries[64];
    uint64_t written = 0;
    for (size_t count = 1; count > 0; written += count) {
        pelgaisti_status status = pelgaisti_book_history(book, place + written, entries, 64, &count);
        must(status == PELGAISTI_OK, "history", pelgaisti_status_name(status)); /* LET_GO: more came since than are kept */
        for (size_t k = 0; k < count; k++) write_entry(written + k, &entries[k], file);
    }
    return written;
}

/* Locks two records of database 1 and commits. A victim logs its cycle and restarts, with its old number. */
static void transact(pelgaisti_session *own, sem_t *bed, uint32_t first, uint32_t second) {
    const pelgaisti_resource records[] = {{1, {1}}, {2, {1, first}}, {2, {1, second}}};
    pelgaisti_reply reply = ask(own, PELGAISTI_BEGIN, NULL, 0);
    const uint64_t transaction = reply.value;
    must(reply.kind == PELGAISTI_BEGAN, "begin", "it was refused");
    for (int k = 0; k < 3; k++) {
        reply = ask(own, PELGAISTI_LOCK, &records[k], k == 0 ? PELGAISTI_IX : PELGAISTI_X);
        while (reply.kind == PELGAISTI_WAITING) {
            while (sem_wait(bed) != 0) continue;
            reply = ask(own, PELGAISTI_POLL, NULL, 0);
        }
        if (reply.kind == PELGAISTI_DEADLOCK) {
            char text[TEXT];
            tell_cycle(own, transaction, text, sizeof text);
            fputs(text, stdout);
            must(ask(own, PELGAISTI_RESTART, NULL, 0).kind == PELGAISTI_RESTARTED, "restart", "it was refused");
            k = -1;
        } else {
            must(reply.kind == PELGAISTI_GRANTED || reply.kind == PELGAISTI_CLEAR, "lock", "it was refused");
            sched_yield();
        }
    }
    must(ask(own, PELGAISTI_COMMIT, NULL, 0).kind == PELGAISTI_COMMITTED, "commit", "it was refused");
}

static void *work(void *argument) {
    pelgaisti_session *own = (pelgaisti_session *)argument;
    const uint32_t number = (uint32_t)(own - sessions);
    for (unsigned k = 0; k < transactions; k++) transact(own, &woken[number], 1 + number % 2, 2 - number % 2);
    __atomic_add_fetch(&is_over, 1, __ATOMIC_SEQ_CST);
    return NULL;
}

int main(int argc, char **argv) {
    pelgaisti_claim rows[ROWS];
    pthread_t threads[WORKERS];
    pelgaisti_book book = PELGAISTI_EMPTY;
    uint64_t place = 0;
    must(argc > 2, "usage", "monitor DUMP SINCE [TRANSACTIONS]");
    if (argc > 3) transactions = (unsigned)strtoul(argv[3], NULL, 10);
    pelgaisti_options options = PELGAISTI_OPTIONS(SESSIONS);
    options.keep = KEPT_ENTRIES;
    options.deadlocks = KEPT;
    options.waker = &waker;
    must(pelgaisti_office_open(sessions, &options) == PELGAISTI_OK, "open", "no memory");
    for (int k = 0; k < SESSIONS; k++) must(sem_init(&woken[k], 0, 0) == 0, "start", "there is no semaphore");
    for (int k = 0; k < WORKERS; k++) must(pthread_create(&threads[k], NULL, work, &sessions[k]) == 0, "start", "there is no thread");
    /* an engine asks now and then; since the last dump no more entries may come than are kept */
    do {
        FILE *file = fopen(argv[1], "w");
        must(file != NULL, argv[1], "it can't be written");
        place = write_state(&sessions[MONITOR], rows, ROWS, file);
        must(fclose(file) == 0, argv[1], "it can't be written");
        for (int k = 0; k < 100; k++) sched_yield();
    } while (__atomic_load_n(&is_over, __ATOMIC_SEQ_CST) < WORKERS);
    for (int k = 0; k < WORKERS; k++) pthread_join(threads[k], NULL);
    for (int k = 1; k < SESSIONS; k++) must(pelgaisti_session_hand_in(&sessions[k], &sessions[0]) == PELGAISTI_OK, "hand in", "no memory");
    must(pelgaisti_office_close(&sessions[0], &book) == PELGAISTI_OK, "close", "a call is pending");
    FILE *file = fopen(argv[2], "w");
    must(file != NULL, argv[2], "it can't be written");
    const uint64_t written = write_since(&book, place, file);
    must(fclose(file) == 0, argv[2], "it can't be written");
    must(pelgaisti_book_close(&book) == PELGAISTI_OK, "close", "it isn't open");
    printf("the dump is in front of place %" PRIu64 ", and %" PRIu64 " calls were made since\n", place, written);
    return 0;
}
