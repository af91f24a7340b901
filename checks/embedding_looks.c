/* Looks of sessions at the lock table of an open office: each question, what returns LOOKS, what is closed meanwhile and what goes on, each
   status, calls that wait for the table, and eight threads that call and look. Valid C99 and C++. With an argument one case, and with a
   second one the seconds after which it ends. Prints the line of each check that fails, and last 'N passed, M failed'. */
#define _XOPEN_SOURCE 600
#include "open.h"
#include <pthread.h>
#include <string.h>
#include <time.h>
#include <unistd.h>

static int passed, failed;
#define CHECK(condition) \
    do { \
        if (condition) { \
            passed++; \
        } else { \
            failed++; \
            printf("%s:%d: %s\n", __FILE__, __LINE__, #condition); \
        } \
    } while (0)
#define COUNT(list) (sizeof(list) / sizeof((list)[0]))

static pelgaisti_call call_of(uint32_t op, uint32_t mode, uint32_t level, uint32_t first, uint32_t second) {
    pelgaisti_call call;
    memset(&call, 0, sizeof call);
    call.op = op;
    call.mode = mode;
    call.resource.level = level;
    call.resource.numbers[0] = first;
    call.resource.numbers[1] = second;
    return call;
}

static pelgaisti_status length_of(pelgaisti_book *book, uint64_t *length) {
    uint64_t first;
    return pelgaisti_book_length(book, &first, length);
}

/* Whether the claim is this one, of the session's transaction with the session's number. */
static int is_claim(const pelgaisti_claim *claim, uint32_t session, uint32_t kind, uint32_t mode, uint32_t level, uint32_t doomed) {
    return claim->session == session && claim->kind == kind && claim->mode == mode && claim->transaction == session &&
           claim->doomed == doomed && claim->resource.level == level && claim->resource.numbers[0] == 1 &&
           claim->resource.numbers[1] == (level > 1 ? 2U : 0U) && claim->resource.numbers[4] == 0;
}

/* Session 1 reads database 1 and a file of it, and then wants to write the database, which session 2 reads as well. Session 3 wants
   to read below the database. */
static const uint32_t claimed[][4] = {{1, PELGAISTI_LOCK, PELGAISTI_S, 1},  {2, PELGAISTI_LOCK, PELGAISTI_IS, 1},
                                      {1, PELGAISTI_LOCK, PELGAISTI_S, 2},  {2, PELGAISTI_CONVERT, PELGAISTI_S, 1},
                                      {1, PELGAISTI_CONVERT, PELGAISTI_X, 1}, {3, PELGAISTI_LOCK, PELGAISTI_IS, 1}};

/* Expects the lines of that, worked out by hand: two holders of the database, the conversion, the request; and the file's holder. */
static void want_claims(const pelgaisti_claim *list, size_t count) {
    CHECK(count == 5);
    CHECK(is_claim(&list[0], 1, PELGAISTI_HELD, PELGAISTI_S, 1, 0) && is_claim(&list[1], 2, PELGAISTI_HELD, PELGAISTI_S, 1, 0));
    CHECK(is_claim(&list[2], 1, PELGAISTI_CONVERSION, PELGAISTI_X, 1, 0) && is_claim(&list[3], 3, PELGAISTI_FRESH, PELGAISTI_IS, 1, 0));
    CHECK(is_claim(&list[4], 1, PELGAISTI_HELD, PELGAISTI_S, 2, 0));
}

/* Whether the row tells the open transaction of the session, whose number is the session's. */
static int is_transaction(const pelgaisti_claim *row, uint32_t session, uint32_t doomed) {
    return row->session == session && row->kind == PELGAISTI_TRANSACTION_ROW && row->mode == 0 && row->transaction == session &&
           row->doomed == doomed && row->resource.level == 0 && row->resource.numbers[0] == 0 && row->resource.numbers[4] == 0;
}

static void close_all(pelgaisti_session *sessions, int count, pelgaisti_book *book) {
    for (int s = count - 1; s > 0; s--) CHECK(pelgaisti_session_hand_in(&sessions[s], &sessions[0]) == PELGAISTI_OK);
    CHECK(pelgaisti_office_close(&sessions[0], book) == PELGAISTI_OK);
}

/* Expects of a view, or of a book, what `claimed` has led to, by each question: 9 calls, of which none was let go. */
static void want_claimed(pelgaisti_book *view) {
    const pelgaisti_resource place = {1, {1}}, first = {0, {0}};
    pelgaisti_transaction open = {77, 88};
    pelgaisti_holder holders[3];
    pelgaisti_claim claims[9], claim;
    pelgaisti_entry entry;
    pelgaisti_counts counts;
    pelgaisti_gauges gauges;
    uint32_t list[3] = {77, 77, 77}, mode;
    uint64_t first_kept, length, dump_place;
    size_t count = 0;

    memset(claims, 0x55, sizeof claims);
    memset(holders, 0x55, sizeof holders);
    CHECK(pelgaisti_book_length(view, &first_kept, &length) == PELGAISTI_OK && first_kept == 0 && length == 9);
    CHECK(pelgaisti_book_history(view, 8, &entry, 1, &count) == PELGAISTI_OK && count == 1 && entry.session == 3);
    CHECK(pelgaisti_book_held(view, 1, &place, &mode) == PELGAISTI_OK && mode == PELGAISTI_S);
    CHECK(pelgaisti_book_held(view, 3, &place, &mode) == PELGAISTI_OK && mode == PELGAISTI_NL);
    CHECK(pelgaisti_book_transaction(view, 3, &open) == PELGAISTI_OK && open.number == 3 && open.doomed == 0);
    CHECK(pelgaisti_book_request(view, 3, &claim) == PELGAISTI_OK && is_claim(&claim, 3, PELGAISTI_FRESH, PELGAISTI_IS, 1, 0));
    CHECK(pelgaisti_book_request(view, 2, &claim) == PELGAISTI_OK && claim.kind == 0);
    CHECK(pelgaisti_book_holders(view, &place, holders, 1, &count) == PELGAISTI_OK && count == 2);
    CHECK(holders[0].session == 1 && holders[0].mode == PELGAISTI_S && holders[1].session == 0x55555555);
    CHECK(pelgaisti_book_holders(view, &place, NULL, 0, &count) == PELGAISTI_OK && count == 2);
    CHECK(pelgaisti_book_blockers(view, 3, list, 3, &count) == PELGAISTI_OK && count == 1 && list[0] == 1 && list[1] == 77);
    CHECK(pelgaisti_book_blockers(view, 2, NULL, 0, &count) == PELGAISTI_OK && count == 0);
    /* session 1 holds the database and a file; a page may begin behind either */
    CHECK(pelgaisti_book_locks_held(view, 1, &count) == PELGAISTI_OK && count == 2);
    CHECK(pelgaisti_book_locks_held(view, 3, &count) == PELGAISTI_OK && count == 0);
    CHECK(pelgaisti_book_locks_of(view, 1, &first, claims, 1, &count) == PELGAISTI_OK && count == 1);
    CHECK(is_claim(&claims[0], 1, PELGAISTI_HELD, PELGAISTI_S, 1, 0) && claims[1].kind == 0x55555555);
    CHECK(pelgaisti_book_locks_of(view, 1, &claims[0].resource, claims, 6, &count) == PELGAISTI_OK && count == 1);
    CHECK(is_claim(&claims[0], 1, PELGAISTI_HELD, PELGAISTI_S, 2, 0));
    /* the three transactions come before the locks and requests */
    memset(claims, 0x55, sizeof claims);
    CHECK(pelgaisti_book_dump(view, claims, 9, &count, &dump_place) == PELGAISTI_OK && count == 8 && dump_place == 9);
    for (uint32_t s = 1; s <= 3; s++) CHECK(is_transaction(&claims[s - 1], s, 0));
    want_claims(claims + 3, count - 3);
    CHECK(claims[8].kind == 0x55555555);
    CHECK(pelgaisti_book_counts(view, &counts) == PELGAISTI_OK && counts.calls[PELGAISTI_BEGIN] == 3 && counts.requests == 6 && counts.waiting == 2);
    CHECK(pelgaisti_book_gauges(view, &gauges) == PELGAISTI_OK && gauges.transactions == 3 && gauges.locks == 3 && gauges.waiting == 2);
    CHECK(gauges.longest_queue == 2 && gauges.idle_cells == 0);
}

/* What would change a view returns LOOKS, and changes and writes nothing. */
static void view_refuses(pelgaisti_book *view) {
    const pelgaisti_call poll = call_of(PELGAISTI_POLL, 0, 0, 0, 0);
    const pelgaisti_program program = {PELGAISTI_NOTHING, 0, 0, {PELGAISTI_POLL, 0, {0, {0}}}};
    const pelgaisti_options options = PELGAISTI_OPTIONS(3);
    pelgaisti_session sessions[1] = {PELGAISTI_EMPTY};
    pelgaisti_book book = PELGAISTI_EMPTY;
    pelgaisti_program_answer answer;
    pelgaisti_reply reply = {77, 88};
    pelgaisti_entry entry;
    uint32_t list[3] = {77, 77, 77};
    uint64_t first = 99;
    size_t count = 99;
    memset(&entry, 0x55, sizeof entry);
    memset(&answer, 0x55, sizeof answer);
    entry.session = 2;
    entry.call = poll;
    CHECK(pelgaisti_book_serve(view, 2, &poll, &reply) == PELGAISTI_LOOKS && reply.kind == 77);
    CHECK(pelgaisti_book_serve_batch(view, &entry, 1, &count) == PELGAISTI_LOOKS && count == 99 && entry.reply.kind == 0x55555555);
    CHECK(pelgaisti_book_run(view, 2, &program, &answer) == PELGAISTI_LOOKS && answer.served == 0x55555555);
    CHECK(pelgaisti_book_ended(view, list, 3, &count) == PELGAISTI_LOOKS && list[0] == 77 && count == 99);
    CHECK(pelgaisti_book_keep_at_most(view, 0) == PELGAISTI_LOOKS);
    CHECK(pelgaisti_book_take_history(view, &first, &entry, 1, &count) == PELGAISTI_LOOKS && first == 99 && count == 99);
    CHECK(pelgaisti_book_close(view) == PELGAISTI_LOOKS && pelgaisti_book_open(view, &options) == PELGAISTI_OPEN);
    CHECK(open_sessions(sessions, 1) == PELGAISTI_OK && pelgaisti_office_close(&sessions[0], view) == PELGAISTI_OPEN);
    CHECK(pelgaisti_session_look(&sessions[0], view) == PELGAISTI_OPEN && pelgaisti_look_end(&sessions[0], view) == PELGAISTI_OPEN);
    close_all(sessions, 1, &book);
    CHECK(pelgaisti_book_close(&book) == PELGAISTI_OK);
}

/* The handle of a session that looks is closed, for each call and for each other session. */
static void looking_session_is_closed(pelgaisti_session *looking, pelgaisti_session *other) {
    const pelgaisti_call poll = call_of(PELGAISTI_POLL, 0, 0, 0, 0);
    const pelgaisti_program program = {PELGAISTI_NOTHING, 0, 0, {PELGAISTI_POLL, 0, {0, {0}}}};
    const pelgaisti_resource place = {1, {1}};
    pelgaisti_program_answer made;
    pelgaisti_lock_answer locked;
    pelgaisti_answer answer = {99, {77, 88}};
    pelgaisti_pass pass = {99, 99};
    pelgaisti_book book = PELGAISTI_EMPTY;
    pelgaisti_entry entry;
    uint64_t number = 99;
    size_t count = 99;
    CHECK(pelgaisti_session_perform(looking, &poll, UINT64_MAX, &answer) == PELGAISTI_CLOSED && answer.place == 99);
    CHECK(pelgaisti_session_perform(looking, NULL, UINT64_MAX, &answer) == PELGAISTI_CLOSED);
    CHECK(pelgaisti_session_run(looking, &program, UINT64_MAX, &made) == PELGAISTI_CLOSED);
    CHECK(pelgaisti_session_lock(looking, &place, PELGAISTI_X, 9, &locked) == PELGAISTI_CLOSED);
    CHECK(pelgaisti_session_wait(looking, 9, &locked) == PELGAISTI_CLOSED && pelgaisti_session_publish(looking, &poll, NULL) == PELGAISTI_CLOSED);
    CHECK(pelgaisti_session_serve(looking, &pass) == PELGAISTI_CLOSED && pelgaisti_session_collect(looking, &answer) == PELGAISTI_CLOSED);
    CHECK(pelgaisti_session_hear(looking, other) == PELGAISTI_CLOSED && pelgaisti_session_hear(other, looking) == PELGAISTI_CLOSED);
    CHECK(pelgaisti_session_look(looking, &book) == PELGAISTI_CLOSED);
    CHECK(pelgaisti_session_take_history(looking, &number, &entry, 1, &count) == PELGAISTI_CLOSED && number == 99 && count == 99);
    CHECK(pelgaisti_session_seen(looking, &number) == PELGAISTI_CLOSED && pelgaisti_session_mark(looking, &number) == PELGAISTI_CLOSED);
    CHECK(pelgaisti_session_bound_passes(looking, 1, 1, 1) == PELGAISTI_CLOSED && pelgaisti_session_retire(looking) == PELGAISTI_CLOSED);
    CHECK(pelgaisti_session_hand_in(looking, other) == PELGAISTI_CLOSED && pelgaisti_session_hand_in(other, looking) == PELGAISTI_CLOSED);
    CHECK(pelgaisti_office_close(looking, &book) == PELGAISTI_CLOSED && pelgaisti_office_close(other, &book) == PELGAISTI_MISSING);
}

/* What other sessions do meanwhile: they publish, hear, retire and are handed in, and no pass is made. */
static void others_go_on(pelgaisti_session *one, pelgaisti_session *two) {
    const pelgaisti_call poll = call_of(PELGAISTI_POLL, 0, 0, 0, 0);
    pelgaisti_answer answer = {99, {77, 88}};
    pelgaisti_entry entry;
    uint64_t first, seen = 0;
    size_t count;
    CHECK(pelgaisti_session_publish(one, &poll, NULL) == PELGAISTI_OK && pelgaisti_session_serve(one, NULL) == PELGAISTI_ELSEWHERE);
    CHECK(pelgaisti_session_collect(one, &answer) == PELGAISTI_NOT_SERVED);
    CHECK(pelgaisti_session_perform(one, NULL, 20, &answer) == PELGAISTI_NOT_SERVED && answer.place == 99);
    CHECK(pelgaisti_session_take_history(one, &first, &entry, 1, &count) == PELGAISTI_ELSEWHERE);
    CHECK(pelgaisti_session_hear(one, two) == PELGAISTI_OK && pelgaisti_session_seen(one, &seen) == PELGAISTI_OK && seen <= 9);
}

/* A session looks at the lock table of an open office: the answers are those of a book, all of one moment, and it knows the history up to there
   then. It may have a call pending, which isn't served. */
static void sessions_look(void) {
    static pelgaisti_session sessions[3];
    pelgaisti_book book = PELGAISTI_EMPTY, view = PELGAISTI_EMPTY;
    pelgaisti_call begin = call_of(PELGAISTI_BEGIN, 0, 0, 0, 0), poll = call_of(PELGAISTI_POLL, 0, 0, 0, 0);
    pelgaisti_answer answer;
    uint64_t seen = 0;

    CHECK(open_sessions(sessions, 3) == PELGAISTI_OK);
    for (int s = 0; s < 3; s++) CHECK(pelgaisti_session_perform(&sessions[s], &begin, 9, &answer) == PELGAISTI_OK);
    for (size_t k = 0; k < COUNT(claimed); k++) {
        pelgaisti_call call = call_of(claimed[k][1], claimed[k][2], claimed[k][3], 1, claimed[k][3] > 1 ? 2 : 0);
        CHECK(pelgaisti_session_perform(&sessions[claimed[k][0] - 1], &call, 9, &answer) == PELGAISTI_OK);
    }
    CHECK(pelgaisti_session_publish(&sessions[1], &poll, NULL) == PELGAISTI_OK);
    CHECK(pelgaisti_session_look(&sessions[1], &view) == PELGAISTI_OK);
    want_claimed(&view);
    view_refuses(&view);
    looking_session_is_closed(&sessions[1], &sessions[0]);
    others_go_on(&sessions[0], &sessions[2]);
    CHECK(pelgaisti_book_reserve(&view, 100, 100) == PELGAISTI_OK && pelgaisti_book_shrink(&view) == PELGAISTI_OK);
    want_claimed(&view);
    CHECK(pelgaisti_look_end(&sessions[1], &view) == PELGAISTI_OK && pelgaisti_look_end(&sessions[1], &view) == PELGAISTI_OPEN);
    CHECK(pelgaisti_book_length(&view, &seen, &seen) == PELGAISTI_CLOSED);
    CHECK(pelgaisti_session_seen(&sessions[1], &seen) == PELGAISTI_OK && seen == 9);
    CHECK(pelgaisti_session_collect(&sessions[1], &answer) == PELGAISTI_NOT_SERVED);
    /* session 1's poll was published meanwhile */
    CHECK(pelgaisti_session_serve(&sessions[2], NULL) == PELGAISTI_OK);
    CHECK(pelgaisti_session_collect(&sessions[1], &answer) == PELGAISTI_OK && answer.place >= 9 && answer.place < 11);
    CHECK(pelgaisti_session_collect(&sessions[0], &answer) == PELGAISTI_OK && answer.place >= 9 && answer.place < 11);
    /* the same view, by another session */
    look(&sessions[2], &view);
    end_look(&sessions[2], &view);
    for (int s = 1; s < 3; s++) CHECK(pelgaisti_session_hand_in(&sessions[s], &sessions[0]) == PELGAISTI_OK);
    /* the last session of an office looks, too; also one that has retired */
    CHECK(pelgaisti_session_retire(&sessions[0]) == PELGAISTI_OK);
    look(&sessions[0], &view);
    end_look(&sessions[0], &view);
    CHECK(pelgaisti_office_close(&sessions[0], &book) == PELGAISTI_OK);
    CHECK(pelgaisti_book_close(&book) == PELGAISTI_OK);
}

/* Each status of a look and of its end, and then nothing has changed. */
static void looks_refuse(void) {
    pelgaisti_session two[2] = {PELGAISTI_EMPTY, PELGAISTI_EMPTY}, closed = PELGAISTI_EMPTY;
    pelgaisti_book book = PELGAISTI_EMPTY, view = PELGAISTI_EMPTY;
    pelgaisti_pass_counts passes = {99, 99, 99};
    CHECK(pelgaisti_session_look(&closed, &view) == PELGAISTI_CLOSED && pelgaisti_look_end(&closed, &view) == PELGAISTI_CLOSED);
    CHECK(open_sessions(two, 2) == PELGAISTI_OK && open_book(&book, 1) == PELGAISTI_OK);
    CHECK(pelgaisti_session_look(NULL, &view) == PELGAISTI_NULL && pelgaisti_session_look(&two[0], NULL) == PELGAISTI_NULL);
    CHECK(pelgaisti_look_end(NULL, &view) == PELGAISTI_NULL && pelgaisti_look_end(&closed, NULL) == PELGAISTI_NULL);
    CHECK(pelgaisti_session_look(&two[0], &book) == PELGAISTI_OPEN && pelgaisti_session_look(&closed, &book) == PELGAISTI_OPEN);
    CHECK(pelgaisti_look_end(&two[0], &book) == PELGAISTI_OPEN && pelgaisti_look_end(&closed, &book) == PELGAISTI_NOT_A_LOOK);
    CHECK(pelgaisti_look_end(&two[0], &view) == PELGAISTI_OPEN);
    CHECK(closed.is_open_ == 0 && view.is_open_ == 0 && pelgaisti_book_passes(&view, &passes) == PELGAISTI_CLOSED && passes.made == 99);
    look(&two[0], &view);
    CHECK(pelgaisti_look_end(&two[1], &view) == PELGAISTI_OPEN && pelgaisti_book_passes(&view, &passes) == PELGAISTI_OK && passes.made == 0);
    end_look(&two[0], &view);
    CHECK(pelgaisti_book_close(&book) == PELGAISTI_OK);
    close_all(two, 2, &book);
    CHECK(pelgaisti_book_close(&book) == PELGAISTI_OK);
}

/* A copy of a view, and one that was moved, are told; moved back it is used again. */
static void copies_of_views(void) {
    pelgaisti_session one[1] = {PELGAISTI_EMPTY};
    pelgaisti_book book = PELGAISTI_EMPTY, view = PELGAISTI_EMPTY, copy;
    uint64_t length = 99;
    CHECK(open_sessions(one, 1) == PELGAISTI_OK);
    look(&one[0], &view);
    copy = view;
    CHECK(length_of(&copy, &length) == PELGAISTI_COPIED && length == 99);
    CHECK(pelgaisti_look_end(&one[0], &copy) == PELGAISTI_COPIED && length_of(&view, &length) == PELGAISTI_OK && length == 0);
    memset(&view, 0, sizeof view);
    CHECK(pelgaisti_look_end(&one[0], &view) == PELGAISTI_CLOSED);
    view = copy;
    end_look(&one[0], &view);
    CHECK(pelgaisti_look_end(&one[0], &copy) == PELGAISTI_COPIED);
    close_all(one, 1, &book);
    CHECK(pelgaisti_book_close(&book) == PELGAISTI_OK);
}

/* A call that is made while another session looks. */
typedef struct waiting_call {
    pelgaisti_session *session;
    int way, is_over, bad;
} waiting_call;

static void *call_meanwhile(void *argument) {
    waiting_call *it = (waiting_call *)argument;
    const pelgaisti_program begin = {PELGAISTI_BEGINS, 0, 0, {0, 0, {0, {0}}}};
    const pelgaisti_call poll = call_of(PELGAISTI_POLL, 0, 0, 0, 0);
    const pelgaisti_resource place = {2, {1, 2}};
    pelgaisti_book view = PELGAISTI_EMPTY;
    pelgaisti_program_answer made;
    pelgaisti_lock_answer locked;
    pelgaisti_answer answer;
    switch (it->way) {
    case 0: it->bad = pelgaisti_session_run(it->session, &begin, UINT64_MAX, &made) != PELGAISTI_OK || made.values[0] == 0; break;
    case 1: it->bad = pelgaisti_session_perform(it->session, &poll, UINT64_MAX, &answer) != PELGAISTI_OK; break;
    case 2: it->bad = pelgaisti_session_look(it->session, &view) != PELGAISTI_OK || pelgaisti_look_end(it->session, &view) != PELGAISTI_OK; break;
    default: it->bad = pelgaisti_session_lock(it->session, &place, PELGAISTI_X, 1, &locked) != PELGAISTI_OK || locked.level != 2;
    }
    __atomic_store_n(&it->is_over, 1, __ATOMIC_SEQ_CST);
    return NULL;
}

/* A whole call, a look and a lock with a time-out wait, asleep, as long as another session looks, and are made then. */
static void calls_wait_for_a_look(void) {
    const struct timespec a_while = {0, 50000000};
    pelgaisti_session two[2] = {PELGAISTI_EMPTY, PELGAISTI_EMPTY};
    pelgaisti_book book = PELGAISTI_EMPTY, view = PELGAISTI_EMPTY;
    CHECK(open_sessions(two, 2) == PELGAISTI_OK);
    for (int way = 0; way < 4; way++) {
        waiting_call it = {&two[1], way, 0, 0};
        pthread_t thread;
        uint64_t before = 0, after = 1;
        look(&two[0], &view);
        CHECK(length_of(&view, &before) == PELGAISTI_OK);
        CHECK(pthread_create(&thread, NULL, call_meanwhile, &it) == 0);
        nanosleep(&a_while, NULL);
        CHECK(!__atomic_load_n(&it.is_over, __ATOMIC_SEQ_CST) && length_of(&view, &after) == PELGAISTI_OK && after == before);
        end_look(&two[0], &view);
        CHECK(pthread_join(thread, NULL) == 0 && it.is_over && !it.bad);
    }
    close_all(two, 2, &book);
    CHECK(pelgaisti_book_close(&book) == PELGAISTI_OK);
}

enum { LOOKERS = 8, LOOKS_EACH = 200, LOOK_ROWS = 64 };
static long looked_at; /* written under looks alone */

typedef struct looker {
    pelgaisti_session *session;
    uint32_t number;
    uint64_t bad;
} looker;

/* A thread whose calls and looks mix with those of others. At each look all answers are of one moment, and nobody else looks. */
static void *call_and_look(void *argument) {
    static pelgaisti_claim rows[LOOKERS][LOOK_ROWS];
    looker *j = (looker *)argument;
    uint32_t state = j->number;
    pelgaisti_claim *own = rows[state];
    uint64_t known = 0;
    for (int k = 0; k < LOOKS_EACH; k++) {
        static const uint32_t ops[] = {PELGAISTI_BEGIN, PELGAISTI_LOCK, PELGAISTI_LOCK, PELGAISTI_ABORT};
        pelgaisti_call call = call_of(ops[k % 4], k % 3 ? PELGAISTI_S : PELGAISTI_X, 1, (state = state * 1664525u + 1013904223u) >> 30, 0);
        pelgaisti_book view = PELGAISTI_EMPTY;
        pelgaisti_gauges now = {99, 99, 99, 99, 99}, found = {0, 0, 0, 0, 0};
        pelgaisti_counts counts;
        pelgaisti_answer answer;
        uint64_t length = 0, place = 1, seen = 0, calls = 0;
        size_t count = 0;
        j->bad += pelgaisti_session_perform(j->session, &call, UINT64_MAX, &answer) != PELGAISTI_OK;
        j->bad += pelgaisti_session_look(j->session, &view) != PELGAISTI_OK;
        looked_at++;
        j->bad += pelgaisti_book_dump(&view, own, LOOK_ROWS, &count, &place) != PELGAISTI_OK || count > LOOK_ROWS;
        j->bad += pelgaisti_book_gauges(&view, &now) != PELGAISTI_OK || pelgaisti_book_counts(&view, &counts) != PELGAISTI_OK;
        j->bad += length_of(&view, &length) != PELGAISTI_OK || length != place || length <= answer.place;
        j->bad += pelgaisti_look_end(j->session, &view) != PELGAISTI_OK;
        for (size_t n = 0; n < count; n++) {
            found.transactions += own[n].kind == PELGAISTI_TRANSACTION_ROW;
            found.locks += own[n].kind == PELGAISTI_HELD;
            found.waiting += own[n].kind > PELGAISTI_HELD;
        }
        for (int op = 0; op < PELGAISTI_OP_NUMBERS; op++) calls += counts.calls[op];
        j->bad += found.transactions != now.transactions || found.locks != now.locks || found.waiting != now.waiting;
        j->bad += calls != length || counts.waiting != now.waiting || length < known;
        j->bad += pelgaisti_session_seen(j->session, &seen) != PELGAISTI_OK || seen != length;
        known = length;
    }
    return NULL;
}

/* Eight threads make calls and look. What they write under their looks is ordered by these, also for ThreadSanitizer. */
static void threads_look(void) {
    static pelgaisti_session sessions[LOOKERS];
    pelgaisti_book book = PELGAISTI_EMPTY;
    pthread_t threads[LOOKERS];
    looker jobs[LOOKERS];
    CHECK(open_sessions(sessions, LOOKERS) == PELGAISTI_OK);
    for (int t = 0; t < LOOKERS; t++) {
        looker j = {&sessions[t], (uint32_t)t, 0};
        jobs[t] = j;
        CHECK(pthread_create(&threads[t], NULL, call_and_look, &jobs[t]) == 0);
    }
    for (int t = 0; t < LOOKERS; t++) CHECK(pthread_join(threads[t], NULL) == 0 && jobs[t].bad == 0);
    CHECK(looked_at == LOOKERS * LOOKS_EACH);
    close_all(sessions, LOOKERS, &book);
    CHECK(pelgaisti_book_close(&book) == PELGAISTI_OK);
}

int main(int count, char **words) {
    static const struct { const char *name; void (*run)(void); } cases[] = {
        {"look", sessions_look}, {"refuse", looks_refuse}, {"copies", copies_of_views}, {"wait", calls_wait_for_a_look}, {"threads", threads_look}};
    for (size_t k = 0; k < COUNT(cases); k++) {
        if (count > 1 && strcmp(words[1], cases[k].name) != 0) continue;
        alarm(count > 2 ? (unsigned)atoi(words[2]) : 60);
        cases[k].run();
    }
    printf("%d passed, %d failed\n", passed, failed);
    return failed != 0;
}
