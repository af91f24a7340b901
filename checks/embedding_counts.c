/* Counters of a history.

       embedding_counts calls             moves each counter by calls whose changes are worked by hand, of a book and of an office
       embedding_counts trace < TRACE     serves the rows on a book and on an office, which count the same; writes the counters as
                                          `glm stats --csv` does
       embedding_counts threads FILE N    64 threads make N random calls each on an office, while another session asks for the counters;
                                          writes them as `glm stats --csv` does, and the history to FILE */
#include "history.h"
#include "must.h"
#include "names.h"
#include "open.h"
#include "rows.h"
#include <inttypes.h>
#include <pthread.h>
#include <string.h>

enum { TRACED = 12, THREADS = 64, ROOM = 8192, WORDS = sizeof(pelgaisti_counts) / sizeof(uint64_t) };

/* The counters are words of 64 bits, one behind another. */
typedef union counters {
    pelgaisti_counts of;
    uint64_t word[WORDS];
} counters;

#define WORD(field) ((int)(offsetof(pelgaisti_counts, field) / sizeof(uint64_t)))
#define REFUSED(why) (WORD(refusals) + PELGAISTI_##why)

static counters counts_of_book(pelgaisti_book *book) {
    counters made;
    memset(&made, 0x55, sizeof made);
    MUST(pelgaisti_book_counts(book, &made.of) == PELGAISTI_OK);
    return made;
}

static pelgaisti_gauges gauges_of_book(pelgaisti_book *book) {
    pelgaisti_gauges made;
    memset(&made, 0x55, sizeof made);
    MUST(pelgaisti_book_gauges(book, &made) == PELGAISTI_OK);
    return made;
}

/* What holds of the counters of every history. */
static void must_add_up(const pelgaisti_counts *is, uint64_t length) {
    uint64_t calls = 0, refused = 0;
    for (int k = 0; k < PELGAISTI_OP_NUMBERS; k++) calls += is->calls[k];
    for (int k = 0; k < PELGAISTI_WHY_NUMBERS; k++) refused += is->refusals[k];
    MUST(calls == length && is->requests_refused <= refused);
    MUST(is->calls[0] == 0 && is->refusals[0] == 0 && is->refusals[10] == 0);
    MUST(is->requests == is->calls[PELGAISTI_LOCK] + is->calls[PELGAISTI_CONVERT] + is->calls[PELGAISTI_TRY]);
    MUST(is->requests == is->granted_at_once + is->waits_begun + is->requests_refused);
    MUST(is->waits_begun == is->waits_granted + is->victims + is->waits_withdrawn + is->waits_aborted + is->waits_restarted + is->waiting);
    MUST(is->deadlocks <= is->victims);
}

/* The counters of an open office, by a look, at which all questions are of one moment: the gauges are what the dump has, the waiting requests
   what the counters have, and the dump has the length of the history. */
static counters counts_of_office(pelgaisti_session *session, uint64_t *seen, pelgaisti_gauges *now) {
    static pelgaisti_claim rows[ROOM];
    pelgaisti_book view = PELGAISTI_EMPTY;
    pelgaisti_gauges found = {0, 0, 0, 0, 0};
    uint64_t first, place;
    counters made;
    size_t count;
    look(session, &view);
    made = counts_of_book(&view);
    *now = gauges_of_book(&view);
    MUST(pelgaisti_book_length(&view, &first, seen) == PELGAISTI_OK && first == 0);
    MUST(pelgaisti_book_dump(&view, rows, ROOM, &count, &place) == PELGAISTI_OK && place == *seen && count <= ROOM);
    end_look(session, &view);
    for (size_t k = 0; k < count; k++) {
        found.transactions += rows[k].kind == PELGAISTI_TRANSACTION_ROW;
        found.locks += rows[k].kind == PELGAISTI_HELD;
        found.waiting += rows[k].kind > PELGAISTI_HELD;
    }
    MUST(now->transactions == found.transactions && now->locks == found.locks && now->waiting == found.waiting);
    MUST(made.of.waiting == found.waiting && now->longest_queue <= found.waiting);
    must_add_up(&made.of, *seen);
    return made;
}

static pelgaisti_call call_of(uint32_t op, uint32_t mode, uint32_t database, uint32_t file) {
    pelgaisti_call call = {0, 0, {0, {0}}};
    call.op = op;
    call.mode = mode;
    call.resource.level = (database > 0) + (file > 0);
    call.resource.numbers[0] = database;
    call.resource.numbers[1] = file;
    return call;
}

/* ---- Calls whose changes are worked by hand. ---- */

#define REQUEST WORD(requests)
#define AT_ONCE REQUEST, WORD(granted_at_once)
#define REFUSED_REQUEST(why) REQUEST, WORD(requests_refused), REFUSED(why)
#define WAITS REQUEST, WORD(waits_begun), WORD(waiting)
#define GRANTED WORD(waits_granted), -WORD(waiting)

/* A call, and the counters that it moves by one beside that of its op: up, or down if the number is below 0. Two of one up are two rows. */
static const struct {
    uint32_t session, op, mode, database, file;
    int moves[8];
} made_by_hand[] = {
    {1, PELGAISTI_BEGIN, 0, 0, 0, {0}},
    {1, PELGAISTI_BEGIN, 0, 0, 0, {REFUSED(ALREADY_OPEN)}},
    {2, PELGAISTI_LOCK, PELGAISTI_S, 1, 0, {REFUSED_REQUEST(NO_TRANSACTION)}},
    {2, PELGAISTI_BEGIN, 0, 0, 0, {0}},
    {3, PELGAISTI_BEGIN, 0, 0, 0, {0}},
    {4, PELGAISTI_BEGIN, 0, 0, 0, {0}},
    {1, PELGAISTI_LOCK, PELGAISTI_NL, 1, 0, {REFUSED_REQUEST(NOTHING_ASKED)}},
    {1, PELGAISTI_CONVERT, PELGAISTI_S, 1, 0, {REFUSED_REQUEST(NOT_HELD)}},
    {1, PELGAISTI_LOCK, PELGAISTI_X, 1, 2, {REFUSED_REQUEST(PARENT_NOT_HELD)}},
    {1, PELGAISTI_LOCK, PELGAISTI_IX, 1, 0, {AT_ONCE}},
    {1, PELGAISTI_LOCK, PELGAISTI_X, 1, 2, {AT_ONCE}},
    {1, PELGAISTI_RELEASE, 0, 1, 0, {REFUSED(CHILD_HELD)}},
    {1, PELGAISTI_RELEASE, 0, 9, 0, {REFUSED(NOT_HELD)}},
    {2, PELGAISTI_TRY, PELGAISTI_X, 1, 0, {REFUSED_REQUEST(WOULD_WAIT)}},
    {2, PELGAISTI_TRY, PELGAISTI_S, 5, 0, {AT_ONCE}},
    {2, PELGAISTI_RELEASE, 0, 5, 0, {0}},
    {2, PELGAISTI_WITHDRAW, 0, 0, 0, {REFUSED(NOT_WAITING)}},
    /* session 2 waits, and takes its request back; waits, and aborts; waits, and restarts; waits, and is granted */
    {2, PELGAISTI_LOCK, PELGAISTI_S, 1, 0, {WAITS}},
    {2, PELGAISTI_LOCK, PELGAISTI_S, 2, 0, {REFUSED_REQUEST(IS_WAITING)}},
    {2, PELGAISTI_POLL, 0, 0, 0, {0}},
    {2, PELGAISTI_WITHDRAW, 0, 0, 0, {WORD(waits_withdrawn), -WORD(waiting)}},
    {2, PELGAISTI_LOCK, PELGAISTI_S, 1, 0, {WAITS}},
    {2, PELGAISTI_ABORT, 0, 0, 0, {WORD(waits_aborted), -WORD(waiting)}},
    {2, PELGAISTI_BEGIN, 0, 0, 0, {0}},
    {2, PELGAISTI_LOCK, PELGAISTI_S, 1, 0, {WAITS}},
    {2, PELGAISTI_RESTART, 0, 0, 0, {WORD(waits_restarted), -WORD(waiting)}},
    {2, PELGAISTI_LOCK, PELGAISTI_S, 1, 0, {WAITS}},
    {1, PELGAISTI_COMMIT, 0, 0, 0, {GRANTED}},
    {2, PELGAISTI_POLL, 0, 0, 0, {0}},
    /* a cycle of 2 and 3: the youngest transaction is 5, of session 2, whose wait ends; that of session 3 begins and goes on */
    {3, PELGAISTI_LOCK, PELGAISTI_S, 1, 0, {AT_ONCE}},
    {2, PELGAISTI_CONVERT, PELGAISTI_X, 1, 0, {WAITS}},
    {3, PELGAISTI_CONVERT, PELGAISTI_X, 1, 0, {REQUEST, WORD(waits_begun), WORD(victims), WORD(deadlocks)}},
    {2, PELGAISTI_LOCK, PELGAISTI_S, 2, 0, {REFUSED_REQUEST(IS_DOOMED)}},
    {2, PELGAISTI_ABORT, 0, 0, 0, {GRANTED}},
    /* a cycle of 3 and 4: the youngest transaction is that of session 4, which closes it, and whose wait ends as it begins */
    {4, PELGAISTI_LOCK, PELGAISTI_X, 2, 0, {AT_ONCE}},
    {3, PELGAISTI_LOCK, PELGAISTI_X, 2, 0, {WAITS}},
    {4, PELGAISTI_LOCK, PELGAISTI_X, 1, 0, {REQUEST, WORD(waits_begun), WORD(victims), WORD(deadlocks)}},
    {4, PELGAISTI_ABORT, 0, 0, 0, {GRANTED}},
    {3, PELGAISTI_COMMIT, 0, 0, 0, {0}},
    /* two cycles by one call: session 1 waits for 2 and for 3, each of which waits for it, and both become victims */
    {1, PELGAISTI_BEGIN, 0, 0, 0, {0}},
    {2, PELGAISTI_BEGIN, 0, 0, 0, {0}},
    {3, PELGAISTI_BEGIN, 0, 0, 0, {0}},
    {1, PELGAISTI_LOCK, PELGAISTI_S, 1, 0, {AT_ONCE}},
    {2, PELGAISTI_LOCK, PELGAISTI_S, 1, 0, {AT_ONCE}},
    {3, PELGAISTI_LOCK, PELGAISTI_S, 1, 0, {AT_ONCE}},
    {1, PELGAISTI_LOCK, PELGAISTI_X, 2, 0, {AT_ONCE}},
    {1, PELGAISTI_LOCK, PELGAISTI_X, 3, 0, {AT_ONCE}},
    {2, PELGAISTI_LOCK, PELGAISTI_S, 2, 0, {WAITS}},
    {3, PELGAISTI_LOCK, PELGAISTI_S, 3, 0, {WAITS}},
    {1, PELGAISTI_CONVERT, PELGAISTI_X, 1, 0, {REQUEST, WORD(waits_begun), WORD(victims), WORD(victims), WORD(deadlocks), -WORD(waiting)}},
    {2, PELGAISTI_ABORT, 0, 0, 0, {0}},
    {3, PELGAISTI_ABORT, 0, 0, 0, {GRANTED}}};

/* Expects these counters to be the old ones with this call. */
static void must_have_moved(const counters *old, const counters *new, size_t row) {
    counters expected = *old;
    expected.of.calls[made_by_hand[row].op]++;
    for (int k = 0; made_by_hand[row].moves[k]; k++) {
        int word = made_by_hand[row].moves[k];
        if (word > 0) expected.word[word]++;
        else expected.word[-word]--;
    }
    for (int k = 0; k < WORDS; k++) {
        if (expected.word[k] == new->word[k]) continue;
        printf("row %zu: counter %d is %" PRIu64 " in place of %" PRIu64 "\n", row, k, new->word[k], expected.word[k]);
        exit(1);
    }
}

/* Expects so many passes of the office, which have served so many published calls. A look is none. */
static void must_have_passes(pelgaisti_session *session, uint64_t made, uint64_t served) {
    pelgaisti_book view = PELGAISTI_EMPTY;
    pelgaisti_pass_counts passes = {99, 99, 99};
    look(session, &view);
    MUST(pelgaisti_book_passes(&view, NULL) == PELGAISTI_NULL);
    MUST(pelgaisti_book_passes(&view, &passes) == PELGAISTI_OK && passes.made == made && passes.served == served && passes.starved == 0);
    end_look(session, &view);
}

/* The passes of two sessions: one that serves nothing, one that serves what the other has published, and a whole call at once, whose pass
   finds nothing. */
static void count_passes(void) {
    static const pelgaisti_call begin = {PELGAISTI_BEGIN, 0, {0, {0}}};
    pelgaisti_session two[2] = {PELGAISTI_EMPTY, PELGAISTI_EMPTY};
    pelgaisti_pass_counts passes = {99, 99, 99};
    pelgaisti_book book = PELGAISTI_EMPTY;
    pelgaisti_answer answer;
    MUST(open_sessions(two, 2) == PELGAISTI_OK);
    must_have_passes(&two[0], 0, 0);
    MUST(pelgaisti_session_serve(&two[0], NULL) == PELGAISTI_OK && pelgaisti_session_publish(&two[1], &begin, NULL) == PELGAISTI_OK);
    MUST(pelgaisti_session_serve(&two[0], NULL) == PELGAISTI_OK && pelgaisti_session_collect(&two[1], &answer) == PELGAISTI_OK);
    must_have_passes(&two[1], 2, 1);
    MUST(pelgaisti_session_perform(&two[0], &begin, UINT64_MAX, &answer) == PELGAISTI_OK);
    must_have_passes(&two[1], 3, 1);
    MUST(pelgaisti_session_hand_in(&two[1], &two[0]) == PELGAISTI_OK && pelgaisti_office_close(&two[0], &book) == PELGAISTI_OK);
    /* a book that is no view has none */
    MUST(pelgaisti_book_passes(&book, &passes) == PELGAISTI_OK && passes.made == 0 && passes.served == 0 && passes.starved == 0);
    MUST(pelgaisti_book_close(&book) == PELGAISTI_OK && pelgaisti_book_passes(&book, &passes) == PELGAISTI_CLOSED);
}

static void count_by_hand(void) {
    static pelgaisti_session sessions[4];
    pelgaisti_book book = PELGAISTI_EMPTY, closed = PELGAISTI_EMPTY;
    counters of_book, of_office;
    pelgaisti_gauges gauges = {99, 99, 99, 99, 99};
    uint64_t seen, moved = 0;
    memset(&of_book, 0, sizeof of_book);
    MUST(pelgaisti_book_gauges(&closed, &gauges) == PELGAISTI_CLOSED && gauges.locks == 99);
    MUST(pelgaisti_book_counts(&closed, &of_book.of) == PELGAISTI_CLOSED && pelgaisti_book_counts(NULL, &of_book.of) == PELGAISTI_NULL);
    MUST(open_book(&book, 4) == PELGAISTI_OK && open_sessions(sessions, 4) == PELGAISTI_OK);
    MUST(pelgaisti_book_counts(&book, NULL) == PELGAISTI_NULL && pelgaisti_book_gauges(&book, NULL) == PELGAISTI_NULL);
    count_passes();
    of_office = counts_of_office(&sessions[0], &seen, &gauges);
    MUST(seen == 0 && !memcmp(&of_book, &of_office, sizeof of_book));
    for (size_t row = 0; row < COUNT(made_by_hand); row++) {
        uint32_t session = made_by_hand[row].session;
        pelgaisti_call call = call_of(made_by_hand[row].op, made_by_hand[row].mode, made_by_hand[row].database, made_by_hand[row].file);
        pelgaisti_reply reply;
        pelgaisti_answer answer;
        MUST(pelgaisti_book_serve(&book, session, &call, &reply) == PELGAISTI_OK);
        MUST(pelgaisti_session_perform(&sessions[session - 1], &call, UINT64_MAX, &answer) == PELGAISTI_OK);
        counters now = counts_of_book(&book);
        must_have_moved(&of_book, &now, row);
        must_add_up(&now.of, row + 1);
        of_book = now;
        of_office = counts_of_office(&sessions[row % 4], &seen, &gauges);
        MUST(seen == row + 1 && !memcmp(&of_book, &of_office, sizeof of_book));
    }
    for (int k = 0; k < WORDS; k++) moved += of_book.word[k] > 0 || k == WORD(waiting);
    /* all but those of no op, of no refusal, of the retired one, and of too many locks */
    MUST(moved == WORDS - 4);
    for (int k = 1; k < 4; k++) MUST(pelgaisti_session_hand_in(&sessions[k], &sessions[0]) == PELGAISTI_OK);
    MUST(pelgaisti_office_close(&sessions[0], &closed) == PELGAISTI_OK);
    of_office = counts_of_book(&closed);
    MUST(!memcmp(&of_book, &of_office, sizeof of_book));
    MUST(pelgaisti_book_close(&book) == PELGAISTI_OK && pelgaisti_book_close(&closed) == PELGAISTI_OK);
}

/* Two readers wait for a writer, and are granted by its commit; behind theirs the cell of the resource is idle, until it is given back: what
   the gauges tell then. */
static void gauge_a_queue(void) {
    static const pelgaisti_gauges queued = {3, 1, 2, 2, 0}, granted = {2, 2, 0, 0, 0}, idle = {0, 0, 0, 0, 1}, shrunk = {0, 0, 0, 0, 0};
    pelgaisti_book book = PELGAISTI_EMPTY;
    pelgaisti_call begin = call_of(PELGAISTI_BEGIN, 0, 0, 0), commit = call_of(PELGAISTI_COMMIT, 0, 0, 0);
    pelgaisti_gauges now;
    pelgaisti_reply reply;
    MUST(open_book(&book, 3) == PELGAISTI_OK);
    for (uint32_t session = 1; session <= 3; session++) {
        pelgaisti_call lock = call_of(PELGAISTI_LOCK, session == 1 ? PELGAISTI_X : PELGAISTI_S, 1, 0);
        MUST(pelgaisti_book_serve(&book, session, &begin, &reply) == PELGAISTI_OK);
        MUST(pelgaisti_book_serve(&book, session, &lock, &reply) == PELGAISTI_OK);
    }
    now = gauges_of_book(&book);
    MUST(!memcmp(&now, &queued, sizeof now));
    MUST(pelgaisti_book_serve(&book, 1, &commit, &reply) == PELGAISTI_OK);
    now = gauges_of_book(&book);
    MUST(!memcmp(&now, &granted, sizeof now));
    for (uint32_t session = 2; session <= 3; session++) MUST(pelgaisti_book_serve(&book, session, &commit, &reply) == PELGAISTI_OK);
    now = gauges_of_book(&book);
    MUST(!memcmp(&now, &idle, sizeof now) && pelgaisti_book_shrink(&book) == PELGAISTI_OK);
    now = gauges_of_book(&book);
    MUST(!memcmp(&now, &shrunk, sizeof now) && pelgaisti_book_close(&book) == PELGAISTI_OK);
}

/* The calls of batches, paths and programs count by themselves, and so do those whose entries are let go. */
static void count_several(void) {
    static const pelgaisti_resource page = {3, {10000, 1, 1}};
    pelgaisti_book book = PELGAISTI_EMPTY;
    pelgaisti_entry batch[2];
    pelgaisti_reply reply;
    pelgaisti_program_answer answer;
    size_t count;
    counters now;
    memset(batch, 0, sizeof batch);
    MUST(open_book(&book, 2) == PELGAISTI_OK && pelgaisti_book_keep_at_most(&book, 1) == PELGAISTI_OK);
    for (uint32_t k = 0; k < 2; k++) {
        batch[k].session = k + 1;
        batch[k].call = call_of(PELGAISTI_BEGIN, 0, 0, 0);
    }
    MUST(pelgaisti_book_serve_batch(&book, batch, 2, &count) == PELGAISTI_OK && count == 2);
    now = counts_of_book(&book);
    MUST(now.of.calls[PELGAISTI_BEGIN] == 2);
    for (uint32_t k = 0; k < 2; k++) batch[k].call = call_of(PELGAISTI_LOCK, PELGAISTI_S, 1, 0);
    MUST(pelgaisti_book_serve_batch(&book, batch, 2, &count) == PELGAISTI_OK && count == 2);
    now = counts_of_book(&book);
    MUST(now.of.calls[PELGAISTI_LOCK] == 2 && now.of.granted_at_once == 2);
    pelgaisti_program path = {PELGAISTI_NOTHING, 0, PELGAISTI_IX, {PELGAISTI_LOCK, PELGAISTI_X, page}};
    MUST(pelgaisti_book_run(&book, 1, &path, &answer) == PELGAISTI_OK && answer.served == 3 && answer.stop == 0);
    now = counts_of_book(&book);
    MUST(now.of.calls[PELGAISTI_LOCK] == 5 && now.of.granted_at_once == 5);
    /* commit, begin, and a path whose database is granted; the second session then waits for the page */
    pelgaisti_program program = {PELGAISTI_COMMITS_AND_BEGINS, 0, PELGAISTI_IX, {PELGAISTI_LOCK, PELGAISTI_X, page}};
    MUST(pelgaisti_book_run(&book, 2, &program, &answer) == PELGAISTI_OK && answer.served == 5);
    now = counts_of_book(&book);
    MUST(now.of.calls[PELGAISTI_COMMIT] == 1 && now.of.calls[PELGAISTI_BEGIN] == 3 && now.of.calls[PELGAISTI_LOCK] == 8);
    MUST(now.of.granted_at_once == 7 && now.of.waits_begun == 1 && now.of.waiting == 1);
    /* one lock more than a transaction may hold */
    for (uint32_t k = 0; k <= PELGAISTI_MAX_LOCKS - 4; k++) {
        pelgaisti_call lock = call_of(PELGAISTI_LOCK, PELGAISTI_S, 2 + k, 0);
        MUST(pelgaisti_book_serve(&book, 1, &lock, &reply) == PELGAISTI_OK);
    }
    now = counts_of_book(&book);
    MUST(now.of.requests == 8 + PELGAISTI_MAX_LOCKS - 3 && now.of.granted_at_once == 7 + PELGAISTI_MAX_LOCKS - 4);
    MUST(now.of.refusals[PELGAISTI_TOO_MANY_LOCKS] == 1 && now.of.requests_refused == 1);
    MUST(pelgaisti_book_close(&book) == PELGAISTI_OK);
}

/* ---- Counters as text. ---- */

static void write_counts(const pelgaisti_counts *is, const pelgaisti_gauges *now) {
    for (size_t k = 0; k < COUNT(ops); k++) printf("calls,%s,%" PRIu64 "\n", ops[k].name, is->calls[ops[k].number]);
    printf("requests,all,%" PRIu64 "\nrequests,granted,%" PRIu64 "\n", is->requests, is->granted_at_once);
    printf("requests,waiting,%" PRIu64 "\nrequests,refused,%" PRIu64 "\n", is->waits_begun, is->requests_refused);
    printf("waits,begun,%" PRIu64 "\nwaits,granted,%" PRIu64 "\nwaits,doomed,%" PRIu64 "\n", is->waits_begun, is->waits_granted, is->victims);
    printf("waits,withdrawn,%" PRIu64 "\nwaits,aborted,%" PRIu64 "\n", is->waits_withdrawn, is->waits_aborted);
    printf("waits,restarted,%" PRIu64 "\nwaits,waiting,%" PRIu64 "\n", is->waits_restarted, is->waiting);
    printf("deadlocks,calls,%" PRIu64 "\ndeadlocks,victims,%" PRIu64 "\n", is->deadlocks, is->victims);
    for (size_t k = 0; k < COUNT(reasons); k++) printf("refusals,%s,%" PRIu64 "\n", reasons[k].name, is->refusals[reasons[k].number]);
    printf("now,transactions,%" PRIu64 "\nnow,locks,%" PRIu64 "\n", now->transactions, now->locks);
    printf("now,waiting,%" PRIu64 "\nnow,longest_queue,%" PRIu64 "\n", now->waiting, now->longest_queue);
}

static void count_trace(void) {
    static pelgaisti_session sessions[TRACED];
    pelgaisti_book book = PELGAISTI_EMPTY;
    char line[256];
    uint64_t length = 0, seen;
    MUST(open_book(&book, TRACED) == PELGAISTI_OK && open_sessions(sessions, TRACED) == PELGAISTI_OK);
    for (; fgets(line, sizeof line, stdin); length++) {
        pelgaisti_call call;
        pelgaisti_reply reply;
        pelgaisti_answer answer;
        uint32_t session = read_row(line, &call);
        MUST(session > 0 && session <= TRACED);
        MUST(pelgaisti_book_serve(&book, session, &call, &reply) == PELGAISTI_OK);
        MUST(pelgaisti_session_perform(&sessions[session - 1], &call, UINT64_MAX, &answer) == PELGAISTI_OK);
        pelgaisti_gauges now = gauges_of_book(&book), seen_now;
        counters of_book = counts_of_book(&book), of_office = counts_of_office(&sessions[0], &seen, &seen_now);
        MUST(seen == length + 1 && !memcmp(&of_book, &of_office, sizeof of_book) && !memcmp(&now, &seen_now, sizeof now));
    }
    counters made = counts_of_book(&book);
    pelgaisti_gauges now = gauges_of_book(&book);
    write_counts(&made.of, &now);
}

/* ---- 64 threads. ---- */

static pelgaisti_session shared[THREADS + 1];
static long calls_each;

static void *work(void *which) {
    pelgaisti_session *session = &shared[*(int *)which];
    static const uint32_t in[] = {PELGAISTI_IS, PELGAISTI_IX, PELGAISTI_S, PELGAISTI_SIX, PELGAISTI_U, PELGAISTI_X};
    static const uint32_t what[] = {PELGAISTI_BEGIN,   PELGAISTI_BEGIN,   PELGAISTI_BEGIN,   PELGAISTI_BEGIN,  PELGAISTI_LOCK,    PELGAISTI_LOCK,   PELGAISTI_LOCK,  PELGAISTI_LOCK,
                                    PELGAISTI_LOCK,    PELGAISTI_LOCK,    PELGAISTI_LOCK,    PELGAISTI_TRY,    PELGAISTI_CONVERT, PELGAISTI_CONVERT,
                                    PELGAISTI_POLL,    PELGAISTI_RELEASE, PELGAISTI_COMMIT,  PELGAISTI_ABORT,  PELGAISTI_WITHDRAW, PELGAISTI_RESTART};
    uint64_t state = (uint64_t)*(int *)which + 1;
    for (long k = 0; k < calls_each; k++) {
        pelgaisti_call call = call_of(what[drawn(&state, COUNT(what))], 0, 0, 0);
        pelgaisti_answer answer;
        if (call.op == PELGAISTI_LOCK || call.op == PELGAISTI_TRY || call.op == PELGAISTI_CONVERT || call.op == PELGAISTI_RELEASE) {
            call = call_of(call.op, 0, 1 + drawn(&state, 16), drawn(&state, 4) == 0);
            if (call.op != PELGAISTI_RELEASE) call.mode = in[drawn(&state, 6)];
        }
        MUST(pelgaisti_session_perform(session, &call, UINT64_MAX, &answer) == PELGAISTI_OK);
    }
    return NULL;
}

static void count_threads(const char *file) {
    static int numbers[THREADS];
    pthread_t threads[THREADS];
    pelgaisti_book book = PELGAISTI_EMPTY;
    counters old, now;
    pelgaisti_gauges gauges;
    uint64_t seen = 0, first, length;
    FILE *to = fopen(file, "w");
    MUST(to);
    memset(&old, 0, sizeof old);
    MUST(open_sessions(shared, THREADS + 1) == PELGAISTI_OK);
    for (int k = 0; k < THREADS; k++) {
        numbers[k] = k;
        MUST(pthread_create(&threads[k], NULL, work, &numbers[k]) == 0);
    }
    /* at each moment the counters add up, and none but that of waiting requests has become less */
    while (seen < (uint64_t)calls_each * THREADS) {
        now = counts_of_office(&shared[THREADS], &seen, &gauges);
        for (int k = 0; k < WORDS; k++) MUST(k == WORD(waiting) || now.word[k] >= old.word[k]);
        old = now;
    }
    for (int k = 0; k < THREADS; k++) {
        MUST(pthread_join(threads[k], NULL) == 0);
        MUST(pelgaisti_session_hand_in(&shared[k], &shared[THREADS]) == PELGAISTI_OK);
    }
    MUST(pelgaisti_office_close(&shared[THREADS], &book) == PELGAISTI_OK);
    now = counts_of_book(&book);
    MUST(!memcmp(&now, &old, sizeof now));
    gauges = gauges_of_book(&book);
    write_counts(&now.of, &gauges);
    MUST(pelgaisti_book_length(&book, &first, &length) == PELGAISTI_OK && length == seen);
    for (uint64_t place = 0; place < length; place++) {
        pelgaisti_entry entry;
        size_t count;
        MUST(pelgaisti_book_history(&book, place, &entry, 1, &count) == PELGAISTI_OK && count == 1);
        write_entry(to, place, &entry);
    }
    MUST(pelgaisti_book_close(&book) == PELGAISTI_OK && fclose(to) == 0);
}

int main(int count, char **words) {
    if (count == 2 && !strcmp(words[1], "calls")) count_by_hand(), count_several(), gauge_a_queue();
    else if (count == 2 && !strcmp(words[1], "trace")) count_trace();
    else if (count == 4 && !strcmp(words[1], "threads")) calls_each = strtol(words[3], NULL, 10), count_threads(words[2]);
    else return 64;
    return 0;
}
