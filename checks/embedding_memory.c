/* Refuses each allocation in turn: the call returns NO_MEMORY, or its pass is starved, nothing has changed, and the same call then
   succeeds, with the reply that it has if memory is ample. Each call that may lack memory has to meet a refusal. Also, at an
   allocation in one session's pass another session tries to serve, which returns ELSEWHERE. Link with
   -Wl,--wrap=malloc,--wrap=realloc. */
#include "open.h"
#include "refuse_one.h"
#include <string.h>

static long failed;

/* The session that tries to serve at the next allocation, the one that tries to perform a call at once and to take entries, and the statuses. */
static pelgaisti_session *meanwhile, *other;
static uint32_t told, at_once, taking;
static size_t uncounted = 99;
static uint64_t unplaced = 99;
static pelgaisti_pass unwritten;
static pelgaisti_answer unanswered = {99, {77, 88}};
static const pelgaisti_call begin = {PELGAISTI_BEGIN, 0, {0, {0}}};

/* At the next allocation they try so, once. */
static void try_meanwhile(void) {
    pelgaisti_session *session = meanwhile;
    if (!session) return;
    meanwhile = NULL;
    told = pelgaisti_session_serve(session, &unwritten);
    taking = pelgaisti_session_take_history(other, &unplaced, NULL, 0, &uncounted);
    at_once = pelgaisti_session_perform(other, &begin, 1, &unanswered);
}

#define CHECK(condition) \
    do { \
        if (!(condition)) { \
            failed++; \
            printf("%s:%d: %s\n", __FILE__, __LINE__, #condition); \
        } \
    } while (0)

/* The calls that may lack memory, and how often memory was refused to each. */
enum { BOOK_OPEN, BOOK_SERVE, BOOK_SERVE_BATCH, BOOK_RUN, BOOK_HOLDERS, OFFICE_OPEN, SESSION_SERVE, PERFORM, VIEW_HOLDERS, HAND_IN, OFFICE_CLOSE,
       OPEN_WAKING, WAKING_SERVE, WAKING_PERFORM, WAKING_LOCK, WAKING_WAIT, SESSION_RUN, BOOK_RESERVE, VIEW_RESERVE, OPEN_DEADLOCKS,
       BOOK_DEADLOCKS, OFFICE_DEADLOCKS, VIEW_DEADLOCKS, BOOK_LOCKS_OF, VIEW_LOCKS_OF, BOOK_DUMP, VIEW_DUMP, LACKING };
static const char *const lacking[LACKING] = {"book_open", "book_serve", "book_serve_batch", "book_run", "book_holders", "office_open",
                                             "session_serve", "session_perform", "book_holders of a view", "session_hand_in", "office_close",
                                             "office_open with a waker", "session_serve, which wakes", "session_perform, which wakes",
                                             "session_lock, which wakes", "session_wait, which wakes", "session_run", "book_reserve",
                                             "book_reserve of a view", "book_open to keep deadlocks", "book_deadlocks",
                                             "office_open to keep deadlocks", "book_deadlocks of a view", "book_locks_of",
                                             "book_locks_of of a view", "book_dump", "book_dump of a view"};
static long lacked[LACKING];

/* How many batches were refused memory behind the calls that they served. */
static long cut_short;

/* How many programs of a book and of a session were refused memory behind the calls that they served. */
static long run_short, session_short;

/* Whether the call was refused memory, and so is made again. */
static int is_lacking(int call, uint32_t status) {
    lacked[call] += status == PELGAISTI_NO_MEMORY;
    return status == PELGAISTI_NO_MEMORY;
}

static uint64_t length_of(pelgaisti_book *book) {
    uint64_t first, length = UINT64_MAX;
    CHECK(pelgaisti_book_length(book, &first, &length) == PELGAISTI_OK);
    return length;
}

static uint64_t idle_cells_of(pelgaisti_book *book) {
    pelgaisti_gauges gauges = {0, 0, 0, 0, 99};
    CHECK(pelgaisti_book_gauges(book, &gauges) == PELGAISTI_OK);
    return gauges.idle_cells;
}

static pelgaisti_call call_of(uint32_t op, uint32_t mode, uint32_t number) {
    pelgaisti_call call;
    memset(&call, 0, sizeof call);
    call.op = op;
    call.mode = mode;
    call.resource.level = 1;
    call.resource.numbers[0] = number;
    return call;
}

enum { SESSIONS = 9, RESOURCES = 45, CALLS = 100 };

/* The replies to a book's calls in a round without a refusal, the first one. */
static pelgaisti_reply ample[CALLS];
static int is_ample = 1;

/* The mode that each session holds on each resource, packed. */
static void modes_held(pelgaisti_book *book, uint32_t modes[SESSIONS][RESOURCES]) {
    for (uint32_t s = 0; s < SESSIONS; s++)
        for (uint32_t k = 0; k < RESOURCES; k++) {
            pelgaisti_call call = call_of(PELGAISTI_LOCK, PELGAISTI_IX, k);
            CHECK(pelgaisti_book_held(book, s + 1, &call.resource, &modes[s][k]) == PELGAISTI_OK);
        }
}

/* The kth call of a book: begins, locks that are granted, locks and conversions that wait, releases, a try, a withdrawal, polls, and
   ends. */
static pelgaisti_call nth_call(uint32_t k) {
    if (k < 9) return begin;
    if (k < 45) return call_of(PELGAISTI_LOCK, PELGAISTI_IX, k);
    if (k < 60) return call_of(PELGAISTI_LOCK, PELGAISTI_IX, 7);
    if (k < 62) return call_of(PELGAISTI_CONVERT, PELGAISTI_X, 7); /* sessions 7 and 8: a wait, and a deadlock */
    if (k < 64) return call_of(PELGAISTI_LOCK, PELGAISTI_X, 9);    /* sessions 9 and 1: a wait, and the holder's own */
    if (k < 66) return call_of(PELGAISTI_RELEASE, 0, k - 54);      /* sessions 2 and 3: locks of theirs */
    if (k == 66) return call_of(PELGAISTI_TRY, PELGAISTI_IX, 3);   /* session 4: a lock on a new resource */
    if (k == 71) return call_of(PELGAISTI_WITHDRAW, 0, 0);         /* session 9, which waits */
    if (k < 75) return call_of(PELGAISTI_POLL, 0, 0);
    if (k < 84) return call_of(PELGAISTI_COMMIT, 0, 0);
    if (k < 93) return call_of(PELGAISTI_ABORT, 0, 0);
    return begin;
}

/* Serves the kth call, again if memory is refused: then nothing has changed. */
static void serve_nth(pelgaisti_book *book, uint32_t k) {
    static uint32_t before[SESSIONS][RESOURCES], after[SESSIONS][RESOURCES];
    pelgaisti_call call = nth_call(k);
    pelgaisti_reply reply = {77, 88};
    if (left >= 0) modes_held(book, before);
    uint32_t status = pelgaisti_book_serve(book, 1 + k % SESSIONS, &call, &reply);
    if (is_lacking(BOOK_SERVE, status)) {
        CHECK(reply.kind == 77 && reply.value == 88 && length_of(book) == k);
        modes_held(book, after);
        CHECK(!memcmp(before, after, sizeof before));
        status = pelgaisti_book_serve(book, 1 + k % SESSIONS, &call, &reply);
    }
    CHECK(status == PELGAISTI_OK && length_of(book) == k + 1);
    if (is_ample) ample[k] = reply;
    CHECK(reply.kind == ample[k].kind && reply.value == ample[k].value);
}

/* Serves a batch of locks of all sessions on new resources, and the rest of it again if memory is refused. */
static void serve_batch(pelgaisti_book *book) {
    pelgaisti_entry items[3 * SESSIONS];
    uint64_t before = length_of(book);
    size_t served = 0, count = 99;
    memset(items, 0x55, sizeof items);
    for (uint32_t k = 0; k < 3 * SESSIONS; k++) {
        items[k].session = 1 + k % SESSIONS;
        items[k].call = k < SESSIONS ? begin : call_of(PELGAISTI_LOCK, PELGAISTI_IX, 200 + k / 2);
    }
    while (served < 3 * SESSIONS) {
        count = 99;
        if (is_lacking(BOOK_SERVE_BATCH, pelgaisti_book_serve_batch(book, items + served, 3 * SESSIONS - served, &count))) {
            CHECK(count == 99 && length_of(book) == before + served && items[served].reply.kind == 0x55555555);
            continue;
        }
        CHECK(count <= 3 * SESSIONS - served);
        served += count;
        CHECK(length_of(book) == before + served);
        cut_short += served < 3 * SESSIONS;
        CHECK(served == 3 * SESSIONS || items[served].reply.kind == 0x55555555);
    }
    for (uint32_t k = 0; k < 3 * SESSIONS; k++)
        CHECK(items[k].reply.kind == (k < SESSIONS ? (uint32_t)PELGAISTI_BEGAN : (uint32_t)PELGAISTI_GRANTED));
}

static void books(void) {
    pelgaisti_book book = PELGAISTI_EMPTY;
    long before = refusals;
    uint32_t status = open_book(&book, SESSIONS);
    CHECK((refusals > before) == (status == PELGAISTI_NO_MEMORY)); /* all that an opening allocates is what it makes */
    if (is_lacking(BOOK_OPEN, status)) {
        CHECK(book.is_open_ == 0 && book.at_ == NULL);
        status = open_book(&book, SESSIONS);
    }
    CHECK(status == PELGAISTI_OK);
    for (uint32_t k = 0; k < 60; k++) serve_nth(&book, k);
    pelgaisti_call seven = call_of(PELGAISTI_LOCK, PELGAISTI_IX, 7);
    pelgaisti_holder list[SESSIONS];
    size_t count = 99;
    memset(list, 0x55, sizeof list);
    status = pelgaisti_book_holders(&book, &seven.resource, list, SESSIONS, &count);
    if (is_lacking(BOOK_HOLDERS, status)) {
        CHECK(count == 99 && list[0].session == 0x55555555);
        status = pelgaisti_book_holders(&book, &seven.resource, list, SESSIONS, &count);
    }
    CHECK(status == PELGAISTI_OK && count == SESSIONS && list[0].session == 1 && list[SESSIONS - 1].session == SESSIONS);
    pelgaisti_claim claims[2];
    static const pelgaisti_resource nowhere = {0, {0}};
    memset(claims, 0x55, sizeof claims);
    count = 99;
    status = pelgaisti_book_locks_of(&book, 1, &nowhere, claims, 2, &count);
    if (is_lacking(BOOK_LOCKS_OF, status)) {
        CHECK(count == 99 && claims[0].kind == 0x55555555);
        status = pelgaisti_book_locks_of(&book, 1, &nowhere, claims, 2, &count);
    }
    CHECK(status == PELGAISTI_OK && count == 2 && claims[0].session == 1 && claims[1].session == 1);
    CHECK(claims[0].resource.numbers[0] == 7 && claims[1].resource.numbers[0] == 9);
    uint64_t length = length_of(&book), place = 99;
    memset(claims, 0x55, sizeof claims);
    count = 99;
    status = pelgaisti_book_dump(&book, claims, 2, &count, &place);
    if (is_lacking(BOOK_DUMP, status)) {
        CHECK(count == 99 && place == 99 && claims[0].kind == 0x55555555);
        status = pelgaisti_book_dump(&book, claims, 2, &count, &place);
    }
    CHECK(status == PELGAISTI_OK && count == SESSIONS + 45 && place == length && claims[1].session == 2 && claims[1].kind == 0);
    for (uint32_t k = 60; k < CALLS; k++) serve_nth(&book, k);
    CHECK(ample[66].kind == PELGAISTI_GRANTED && ample[71].kind == PELGAISTI_WITHDRAWN);
    pelgaisti_call end = call_of(PELGAISTI_ABORT, 0, 0);
    pelgaisti_reply ended;
    for (uint32_t s = 1; s <= SESSIONS; s++)
        while (is_lacking(BOOK_SERVE, pelgaisti_book_serve(&book, s, &end, &ended))) continue;
    serve_batch(&book);
    CHECK(pelgaisti_book_close(&book) == PELGAISTI_OK);
    is_ample = 0;
}

/* Serves a call of the book, again if memory is refused. */
static void serve_surely(pelgaisti_book *book, uint32_t session, pelgaisti_call call, uint32_t kind) {
    pelgaisti_reply reply = {77, 88};
    while (is_lacking(BOOK_SERVE, pelgaisti_book_serve(book, session, &call, &reply))) continue;
    CHECK(reply.kind == kind);
}

/* An answer that no call has written. */
static const pelgaisti_program_answer unmade = {77, 77, 77, 77, {77}};

/* Runs a program of one lock on a new database, again if memory is refused: then nothing has changed. */
static void run_lock(pelgaisti_book *book, uint32_t session, uint32_t number) {
    pelgaisti_program program = {PELGAISTI_NOTHING, 0, PELGAISTI_NL, {PELGAISTI_LOCK, PELGAISTI_IX, {1, {number}}}};
    pelgaisti_program_answer answer = unmade;
    uint64_t length = length_of(book);
    size_t count = 99;
    while (is_lacking(BOOK_RUN, pelgaisti_book_run(book, session, &program, &answer)))
        CHECK(answer.place == 77 && answer.served == 77 && length_of(book) == length);
    CHECK(answer.place == length && answer.served == 1 && answer.values[0] == PELGAISTI_IX && answer.stop == 0);
    CHECK(pelgaisti_book_ended(book, NULL, 0, &count) == PELGAISTI_OK && count == 0);
}

/* Session 1 runs a program that commits what session 2 waits for, begins, and locks a new path. If memory is refused to the commit,
   nothing has changed, and the same program is run again; if to a later call, the answer says so, the program tells of session 2 all the
   same, and one of the calls that are left goes on. From round to round the history is longer, and session 3 has one lock more. */
static void programs(void) {
    pelgaisti_book book = PELGAISTI_EMPTY;
    while (is_lacking(BOOK_OPEN, open_book(&book, 3))) continue;
    for (uint32_t s = 1; s <= 3; s++) serve_surely(&book, s, begin, PELGAISTI_BEGAN);
    for (uint32_t round = 0; round < 24; round++) {
        pelgaisti_program program = {PELGAISTI_COMMITS_AND_BEGINS, 0, PELGAISTI_IX, {PELGAISTI_LOCK, PELGAISTI_X, {5, {7, round, 1, 1, 1}}}};
        uint32_t left = PELGAISTI_CALLS, told_of = 0;
        run_lock(&book, 3, 100 + round);
        serve_surely(&book, 1, call_of(PELGAISTI_LOCK, PELGAISTI_X, 8), PELGAISTI_GRANTED);
        serve_surely(&book, 2, call_of(PELGAISTI_LOCK, PELGAISTI_X, 8), PELGAISTI_WAITING);
        while (left > 0) {
            pelgaisti_program_answer answer = unmade;
            uint32_t list[3] = {77, 77, 77}, length = (uint32_t)length_of(&book), status;
            size_t count = 99;
            status = pelgaisti_book_run(&book, 1, &program, &answer);
            if (is_lacking(BOOK_RUN, status)) {
                CHECK(answer.place == 77 && answer.served == 77 && length_of(&book) == length);
                continue;
            }
            CHECK(pelgaisti_book_ended(&book, list, 3, &count) == PELGAISTI_OK);
            CHECK(status == PELGAISTI_OK && answer.place == length && answer.stop == 0 && length_of(&book) == length + answer.served);
            CHECK(answer.served > 0 && answer.served <= left && answer.starved == (answer.served < left));
            CHECK(count == (left == PELGAISTI_CALLS) && (count == 0 || list[0] == 2));
            told_of += (uint32_t)count;
            run_short += answer.starved;
            left -= answer.served;
            program.start = left == 6 ? PELGAISTI_BEGINS : PELGAISTI_NOTHING;
            program.level = left < 6 ? 5 - left : 0;
        }
        CHECK(told_of == 1);
        serve_surely(&book, 2, call_of(PELGAISTI_POLL, 0, 0), PELGAISTI_CLEAR);
        for (uint32_t s = 1; s <= 2; s++) {
            serve_surely(&book, s, call_of(PELGAISTI_COMMIT, 0, 0), PELGAISTI_COMMITTED);
            serve_surely(&book, s, begin, PELGAISTI_BEGAN);
        }
    }
    CHECK(pelgaisti_book_close(&book) == PELGAISTI_OK);
}

/* Session 1 holds resources, of which one is given back; then room is made, again if memory is refused: nothing that a call tells has
   changed then. Behind it 400 locks of 4 sessions take no more memory than for the sessions' own lists. A shrink takes none. */
static void rooms(void) {
    static const uint32_t counts[] = {3, 100, 400};
    pelgaisti_book book = PELGAISTI_EMPTY;
    while (is_lacking(BOOK_OPEN, open_book(&book, 4))) continue;
    for (uint32_t s = 1; s <= 4; s++) serve_surely(&book, s, begin, PELGAISTI_BEGAN);
    for (uint32_t k = 0; k < 3; k++) serve_surely(&book, 1, call_of(PELGAISTI_LOCK, PELGAISTI_IX, 1000 + k), PELGAISTI_GRANTED);
    serve_surely(&book, 1, call_of(PELGAISTI_RELEASE, 0, 1001), PELGAISTI_RELEASED);
    for (size_t k = 0; k < 3; k++) {
        pelgaisti_call kept = call_of(PELGAISTI_LOCK, PELGAISTI_IX, 1002);
        uint64_t length = length_of(&book);
        uint64_t idle = idle_cells_of(&book);
        uint32_t mode;
        CHECK(idle == (k == 0));
        while (is_lacking(BOOK_RESERVE, pelgaisti_book_reserve(&book, counts[k], counts[k]))) {
            CHECK(length_of(&book) == length && idle_cells_of(&book) == idle);
            CHECK(pelgaisti_book_held(&book, 1, &kept.resource, &mode) == PELGAISTI_OK && mode == PELGAISTI_IX);
        }
        largest = 0;
        for (uint32_t n = 0; n < counts[k]; n++)
            serve_surely(&book, 1 + n % 4, call_of(PELGAISTI_LOCK, PELGAISTI_IX, 1000 * (uint32_t)k + 2000 + n), PELGAISTI_GRANTED);
        CHECK(largest <= 256 * 64); /* a session's list has room for at most 256 locks, each in 64 bytes or less */
        largest = 0;
        CHECK(pelgaisti_book_shrink(&book) == PELGAISTI_OK && length_of(&book) == length + counts[k]);
        CHECK(idle_cells_of(&book) == 0);
        CHECK(pelgaisti_book_held(&book, 1, &kept.resource, &mode) == PELGAISTI_OK && mode == PELGAISTI_IX);
    }
    CHECK(pelgaisti_book_close(&book) == PELGAISTI_OK);
}

enum { CLERKS = 5 };

/* Each session publishes the call, and passes of one of them serve the five: one pass, or a starved one and another. */
static void serve_five(pelgaisti_session *sessions, pelgaisti_call call, uint32_t kind) {
    pelgaisti_pass pass;
    pelgaisti_answer answer;
    for (int k = 0; k < CLERKS; k++) CHECK(pelgaisti_session_publish(&sessions[k], &call, NULL) == PELGAISTI_OK);
    CHECK(pelgaisti_session_serve(&sessions[2], &pass) == PELGAISTI_OK);
    uint32_t served = pass.served;
    if (pass.starved) {
        lacked[SESSION_SERVE]++;
        CHECK(served < CLERKS);
        CHECK(pelgaisti_session_serve(&sessions[2], &pass) == PELGAISTI_OK);
        served += pass.served;
    }
    CHECK(served == CLERKS && pass.starved == 0);
    for (int k = 0; k < CLERKS; k++)
        CHECK(pelgaisti_session_collect(&sessions[k], &answer) == PELGAISTI_OK && answer.reply.kind == kind);
}

/* Performs a call in one turn. If memory is refused, it is pending, isn't in the history, and another turn performs it. */
static void perform_nth(pelgaisti_session *session, uint32_t k, uint64_t place) {
    pelgaisti_call call = call_of(PELGAISTI_LOCK, PELGAISTI_IX, 300 + k);
    pelgaisti_answer answer = {99, {77, 88}};
    uint32_t status = pelgaisti_session_perform(session, &call, 1, &answer);
    if (is_lacking(PERFORM, status)) {
        CHECK(answer.place == 99 && pelgaisti_session_perform(session, &call, 1, &answer) == PELGAISTI_PENDING);
        CHECK(pelgaisti_session_collect(session, &answer) == PELGAISTI_NOT_SERVED && answer.place == 99);
        status = pelgaisti_session_perform(session, NULL, 1, &answer);
    }
    CHECK(status == PELGAISTI_OK && answer.place == place && answer.reply.kind == PELGAISTI_GRANTED);
}

/* Asks a view for the holders of a resource, for the locks of a session and for a dump, each again if memory is refused: then nothing is
   written. Every clerk holds resource 100, nobody waits, and there are so many locks. */
static void ask_lists(pelgaisti_book *view, size_t locks, uint64_t length) {
    static const pelgaisti_resource nowhere = {0, {0}};
    static pelgaisti_claim claims[64];
    pelgaisti_holder holders[CLERKS];
    pelgaisti_call call = call_of(PELGAISTI_LOCK, PELGAISTI_IX, 100);
    uint64_t seen = 99;
    size_t count = 99;
    while (is_lacking(VIEW_HOLDERS, pelgaisti_book_holders(view, &call.resource, holders, CLERKS, &count))) CHECK(count == 99);
    CHECK(count == CLERKS && holders[CLERKS - 1].session == CLERKS);
    count = 99;
    while (is_lacking(VIEW_LOCKS_OF, pelgaisti_book_locks_of(view, 2, &nowhere, claims, 64, &count))) CHECK(count == 99);
    CHECK(0 < count && count <= locks && claims[0].session == 2);
    count = 99;
    while (is_lacking(VIEW_DUMP, pelgaisti_book_dump(view, claims, 64, &count, &seen))) CHECK(count == 99 && seen == 99);
    CHECK(count == locks + CLERKS && seen == length);
    CHECK(claims[0].kind == PELGAISTI_TRANSACTION_ROW && claims[CLERKS].kind == PELGAISTI_HELD);
}

/* Makes room at a view, again if memory is refused. */
static void reserve_surely(pelgaisti_book *view, uint64_t length) {
    while (is_lacking(VIEW_RESERVE, pelgaisti_book_reserve(view, 500, 500))) CHECK(length_of(view) == length);
    CHECK(pelgaisti_book_shrink(view) == PELGAISTI_OK && length_of(view) == length);
}

/* A look and its end take no memory. */
static void look_surely(pelgaisti_session *session, size_t locks, uint64_t length) {
    pelgaisti_book view = PELGAISTI_EMPTY;
    const long before = left;
    look(session, &view);
    CHECK(left == before);
    ask_lists(&view, locks, length);
    reserve_surely(&view, length);
    const long behind = left;
    end_look(session, &view);
    CHECK(left == behind);
}

static void offices(void) {
    pelgaisti_session sessions[CLERKS];
    pelgaisti_book book = PELGAISTI_EMPTY;
    memset(sessions, 0, sizeof sessions);
    uint32_t status = open_sessions(sessions, CLERKS);
    if (is_lacking(OFFICE_OPEN, status)) {
        for (int k = 0; k < CLERKS; k++) CHECK(sessions[k].is_open_ == 0 && sessions[k].at_ == NULL);
        status = open_sessions(sessions, CLERKS);
    }
    CHECK(status == PELGAISTI_OK);
    for (uint32_t k = 0; k < 40; k++) {
        pelgaisti_call call = k < CLERKS ? begin : call_of(PELGAISTI_LOCK, PELGAISTI_IX, k);
        pelgaisti_session *asker = &sessions[k % CLERKS], *server = &sessions[(k + 1) % CLERKS];
        pelgaisti_pass pass;
        pelgaisti_answer answer;
        CHECK(pelgaisti_session_publish(asker, &call, NULL) == PELGAISTI_OK);
        CHECK(pelgaisti_session_serve(server, &pass) == PELGAISTI_OK);
        if (pass.starved) {
            lacked[SESSION_SERVE]++;
            CHECK(pass.served == 0 && pelgaisti_session_collect(asker, &answer) == PELGAISTI_NOT_SERVED);
            CHECK(pelgaisti_session_serve(server, &pass) == PELGAISTI_OK);
        }
        CHECK(pass.served == 1 && pass.starved == 0);
        CHECK(pelgaisti_session_collect(asker, &answer) == PELGAISTI_OK && answer.place == k);
    }
    for (uint32_t k = 0; k < 40; k++) perform_nth(&sessions[k % CLERKS], k, 40 + k);
    for (uint32_t k = 0; k < 12; k++) serve_five(sessions, call_of(PELGAISTI_LOCK, PELGAISTI_IX, 100 + k), PELGAISTI_GRANTED);
    look_surely(&sessions[3], 35 + 40 + 12 * CLERKS, 80 + 12 * CLERKS);
    serve_five(sessions, call_of(PELGAISTI_COMMIT, 0, 0), PELGAISTI_COMMITTED);
    for (int k = CLERKS - 1; k > 0; k--) {
        status = pelgaisti_session_hand_in(&sessions[k], &sessions[k / 2]);
        if (is_lacking(HAND_IN, status)) {
            uint64_t seen;
            CHECK(pelgaisti_session_seen(&sessions[k], &seen) == PELGAISTI_OK);
            status = pelgaisti_session_hand_in(&sessions[k], &sessions[k / 2]);
        }
        CHECK(status == PELGAISTI_OK);
    }
    status = pelgaisti_office_close(&sessions[0], &book);
    if (is_lacking(OFFICE_CLOSE, status)) {
        CHECK(pelgaisti_book_close(&book) == PELGAISTI_CLOSED);
        status = pelgaisti_office_close(&sessions[0], &book);
    }
    CHECK(status == PELGAISTI_OK && length_of(&book) == 80 + 13 * CLERKS);
    CHECK(pelgaisti_book_close(&book) == PELGAISTI_OK);
}

/* How often each clerk was woken in a round. */
static uint32_t wakes[CLERKS + 1];
static void note_wake(void *engine, uint32_t session) { ((uint32_t *)engine)[session]++; }

/* How often a call that was refused memory, or whose pass was starved, has woken clerk 2 all the same, by the call. */
static long woken_then[LACKING];

/* Whether clerk 2 was woken exactly if its wait has ended, and nobody else was. It is asked after each call, whatever its status. */
static int are_woken(pelgaisti_session *sessions) {
    pelgaisti_claim claim = {99, 99, 99, 99, 99, {0, {0}}};
    pelgaisti_book view = PELGAISTI_EMPTY;
    look(&sessions[4], &view);
    CHECK(pelgaisti_book_request(&view, 2, &claim) == PELGAISTI_OK);
    end_look(&sessions[4], &view);
    return wakes[1] + wakes[3] + wakes[4] + wakes[5] == 0 && wakes[2] == (claim.kind == 0);
}

/* Whether the call was refused memory, as is_lacking tells; notes whether it has woken clerk 2. */
static int is_lacking_awake(int call, uint32_t status, uint32_t before) {
    woken_then[call] += status == PELGAISTI_NO_MEMORY && wakes[2] > before;
    return is_lacking(call, status);
}

/* Clerk 4 makes passes until one isn't starved, which serve the commit of clerk 1 and a lock of clerk 3 on a new resource. */
static void serve_awake(pelgaisti_session *sessions, pelgaisti_call lock) {
    pelgaisti_answer answer;
    pelgaisti_pass pass;
    CHECK(pelgaisti_session_publish(&sessions[2], &lock, NULL) == PELGAISTI_OK);
    do {
        const uint32_t before = wakes[2];
        CHECK(pelgaisti_session_serve(&sessions[3], &pass) == PELGAISTI_OK && are_woken(sessions));
        lacked[WAKING_SERVE] += pass.starved;
        woken_then[WAKING_SERVE] += pass.starved && wakes[2] > before;
    } while (pass.starved);
    CHECK(pelgaisti_session_collect(&sessions[2], &answer) == PELGAISTI_OK && answer.reply.kind == PELGAISTI_GRANTED);
}

/* Clerk 3 performs the lock, in so many turns, and finishes it where it is left pending. */
static void perform_awake(pelgaisti_session *sessions, pelgaisti_call lock, uint64_t turns) {
    const pelgaisti_call *next = &lock;
    pelgaisti_answer answer = {99, {77, 88}};
    uint32_t status, before;
    do {
        before = wakes[2];
        status = pelgaisti_session_perform(&sessions[2], next, turns, &answer);
        next = NULL;
        CHECK(are_woken(sessions));
    } while (is_lacking_awake(WAKING_PERFORM, status, before));
    CHECK(status == PELGAISTI_OK && answer.reply.kind == PELGAISTI_GRANTED);
}

/* Clerk 3 locks a path on which nothing waits. Behind a refusal what is pending is finished, and the path is locked from the beginning. */
static void lock_awake(pelgaisti_session *sessions, uint32_t database, uint32_t level) {
    const pelgaisti_resource path = {level, {database, 2, 3, 4}};
    pelgaisti_lock_answer told = {77, 77, 77};
    uint32_t status, before;
    for (;;) {
        before = wakes[2];
        status = pelgaisti_session_lock(&sessions[2], &path, PELGAISTI_X, PELGAISTI_FOREVER, &told);
        CHECK(are_woken(sessions));
        if (!is_lacking_awake(WAKING_LOCK, status, before)) break;
        do {
            before = wakes[2];
            status = pelgaisti_session_wait(&sessions[2], PELGAISTI_FOREVER, &told);
            CHECK(are_woken(sessions));
        } while (is_lacking_awake(WAKING_WAIT, status, before));
        CHECK(status == PELGAISTI_OK && told.level == 0 && told.why == 0);
    }
    CHECK(status == PELGAISTI_OK && told.level == level && told.why == 0);
}

/* Performs a call whose memory is refused as often as it is. */
static void perform_surely(pelgaisti_session *session, pelgaisti_call call, uint32_t kind) {
    pelgaisti_answer answer = {99, {77, 88}};
    pelgaisti_status status = pelgaisti_session_perform(session, &call, 9, &answer);
    while (status == PELGAISTI_NO_MEMORY) status = pelgaisti_session_perform(session, NULL, 9, &answer);
    CHECK(status == PELGAISTI_OK && answer.reply.kind == kind);
}

/* In an office with a waker clerk 1 holds a resource, clerk 2 waits for it, and a pass serves the published commit of clerk 1, with a
   lock on a new resource behind it, by each call that makes a pass. Whatever allocation is refused, and whatever the call returns,
   clerk 2 was woken once if its wait has ended, and else a later pass wakes it. */
static void wakers(void) {
    static const pelgaisti_waker waker = {note_wake, wakes};
    pelgaisti_session sessions[CLERKS];
    pelgaisti_book book = PELGAISTI_EMPTY;
    memset(sessions, 0, sizeof sessions);
    uint32_t status = open_office_with(sessions, CLERKS, UINT64_MAX, &waker, 0);
    while (is_lacking(OPEN_WAKING, status)) {
        for (int k = 0; k < CLERKS; k++) CHECK(sessions[k].is_open_ == 0 && sessions[k].at_ == NULL);
        status = open_office_with(sessions, CLERKS, UINT64_MAX, &waker, 0);
    }
    CHECK(status == PELGAISTI_OK);
    perform_surely(&sessions[2], begin, PELGAISTI_BEGAN);
    for (uint32_t round = 0; round < 60; round++) {
        pelgaisti_call commit = call_of(PELGAISTI_COMMIT, 0, 0), lock = call_of(PELGAISTI_LOCK, PELGAISTI_IX, 300 + round);
        pelgaisti_answer answer;
        memset(wakes, 0, sizeof wakes);
        for (int k = 0; k < 2; k++) {
            perform_surely(&sessions[k], begin, PELGAISTI_BEGAN);
            perform_surely(&sessions[k], call_of(PELGAISTI_LOCK, PELGAISTI_X, 7), k == 0 ? PELGAISTI_GRANTED : PELGAISTI_WAITING);
        }
        CHECK(pelgaisti_session_publish(&sessions[0], &commit, NULL) == PELGAISTI_OK);
        switch (round % 4) {
        case 0: serve_awake(sessions, lock); break;
        case 1: perform_awake(sessions, lock, 1); break;
        case 2: perform_awake(sessions, lock, 9); break;
        default: lock_awake(sessions, lock.resource.numbers[0], 1 + round / 4 % 4);
        }
        /* where memory was refused to the commit, it was put back, though the lock may have been made behind it */
        for (int tries = 0; wakes[2] == 0 && tries < 9; tries++)
            CHECK(pelgaisti_session_serve(&sessions[3], NULL) == PELGAISTI_OK && are_woken(sessions));
        CHECK(wakes[2] == 1);
        CHECK(pelgaisti_session_collect(&sessions[0], &answer) == PELGAISTI_OK && answer.reply.kind == PELGAISTI_COMMITTED);
        perform_surely(&sessions[1], call_of(PELGAISTI_POLL, 0, 0), PELGAISTI_CLEAR);
        perform_surely(&sessions[1], commit, PELGAISTI_COMMITTED);
        CHECK(wakes[2] == 1);
    }
    for (int k = CLERKS - 1; k > 0; k--)
        while (is_lacking(HAND_IN, pelgaisti_session_hand_in(&sessions[k], &sessions[0]))) continue;
    while (is_lacking(OFFICE_CLOSE, pelgaisti_office_close(&sessions[0], &book))) continue;
    CHECK(pelgaisti_book_close(&book) == PELGAISTI_OK);
}

/* Runs a program of a session, and finishes it where memory is refused: then it is pending, and nothing was written. */
static pelgaisti_program_answer run_whole(pelgaisti_session *session, const pelgaisti_program *program) {
    pelgaisti_program_answer answer = unmade;
    pelgaisti_status status = pelgaisti_session_run(session, program, 9, &answer);
    while (is_lacking(SESSION_RUN, status)) {
        CHECK(answer.place == 77 && answer.served == 77 && answer.values[0] == 77);
        CHECK(pelgaisti_session_run(session, program, 9, &answer) == PELGAISTI_PENDING);
        status = pelgaisti_session_run(session, NULL, 9, &answer);
    }
    CHECK(status == PELGAISTI_OK && answer.served > 0 && answer.stop == 0);
    return answer;
}

/* Clerk 1 runs a program that commits what clerk 2 waits for, begins, and locks a new path; clerk 3 has published a lock. If memory is
   refused to the commit, the program is pending and is finished; if to a later call, the answer says so, clerk 2 was woken all the same,
   and another program makes the calls that are left. */
static void session_programs(void) {
    static const pelgaisti_waker waker = {note_wake, wakes};
    pelgaisti_session sessions[CLERKS];
    pelgaisti_book book = PELGAISTI_EMPTY;
    pelgaisti_answer answer;
    uint64_t length = 0;
    memset(sessions, 0, sizeof sessions);
    while (is_lacking(OPEN_WAKING, open_office_with(sessions, CLERKS, UINT64_MAX, &waker, 0))) continue;
    for (int k = 0; k < CLERKS; k++) perform_surely(&sessions[k], begin, PELGAISTI_BEGAN);
    for (uint32_t round = 0; round < 24; round++) {
        pelgaisti_program program = {PELGAISTI_COMMITS_AND_BEGINS, 0, PELGAISTI_IX, {PELGAISTI_LOCK, PELGAISTI_X, {5, {7, round, 1, 1, 1}}}};
        pelgaisti_call lock = call_of(PELGAISTI_LOCK, PELGAISTI_IX, 300 + round);
        uint32_t left = PELGAISTI_CALLS;
        memset(wakes, 0, sizeof wakes);
        perform_surely(&sessions[0], call_of(PELGAISTI_LOCK, PELGAISTI_X, 8), PELGAISTI_GRANTED);
        perform_surely(&sessions[1], call_of(PELGAISTI_LOCK, PELGAISTI_X, 8), PELGAISTI_WAITING);
        CHECK(pelgaisti_session_publish(&sessions[2], &lock, NULL) == PELGAISTI_OK);
        while (left > 0) {
            pelgaisti_program_answer made = run_whole(&sessions[0], &program);
            CHECK(made.served <= left && made.starved == (made.served < left) && wakes[2] == 1);
            session_short += made.starved;
            left -= made.served;
            program.start = left == 6 ? PELGAISTI_BEGINS : PELGAISTI_NOTHING;
            program.level = left < 6 ? 5 - left : 0;
        }
        while (pelgaisti_session_perform(&sessions[2], NULL, 9, &answer) == PELGAISTI_NO_MEMORY) continue;
        CHECK(answer.reply.kind == PELGAISTI_GRANTED && wakes[2] == 1);
        /* a program of one call, to which memory may be refused: it is pending then */
        program.start = PELGAISTI_NOTHING;
        program.level = 0;
        program.last = call_of(PELGAISTI_LOCK, PELGAISTI_IX, 500 + round);
        CHECK(run_whole(&sessions[2], &program).values[0] == PELGAISTI_IX);
        perform_surely(&sessions[1], call_of(PELGAISTI_POLL, 0, 0), PELGAISTI_CLEAR);
        for (int k = 0; k < 2; k++) {
            perform_surely(&sessions[k], call_of(PELGAISTI_COMMIT, 0, 0), PELGAISTI_COMMITTED);
            perform_surely(&sessions[k], begin, PELGAISTI_BEGAN);
        }
        /* the seven calls of the first program, and nine others */
        CHECK(pelgaisti_session_seen(&sessions[1], &length) == PELGAISTI_OK && length == CLERKS + 16 * (round + 1));
    }
    for (int k = CLERKS - 1; k > 0; k--)
        while (is_lacking(HAND_IN, pelgaisti_session_hand_in(&sessions[k], &sessions[0]))) continue;
    while (is_lacking(OFFICE_CLOSE, pelgaisti_office_close(&sessions[0], &book))) continue;
    CHECK(pelgaisti_book_close(&book) == PELGAISTI_OK);
}

/* What a call tells of deadlocks; nothing is written where memory is refused to it. */
static struct told {
    pelgaisti_deadlock list[2];
    pelgaisti_member members[4];
    size_t count, member_count;
} told_of, untold_of;

/* The newest of the deadlocks is that of these databases of sessions 1 and 2, each of which holds one in X and waits for the other. Session 2
   is its victim. */
static int are_told(size_t count, uint32_t first) {
    const pelgaisti_member *last = &told_of.members[2 * count - 2];
    return told_of.count == count && told_of.member_count == 2 * count && told_of.list[count - 1].members == 2 &&
           told_of.list[count - 1].session == 2 && last[0].request.session == 2 && last[0].held == PELGAISTI_X &&
           last[0].request.resource.numbers[0] == first && last[1].request.session == 1 && last[1].held == PELGAISTI_X &&
           last[1].request.resource.numbers[0] == first + 1;
}

/* A book that keeps two deadlocks, or isn't opened, makes two, and tells them. */
static void deadlocks_of_a_book(void) {
    pelgaisti_book book = PELGAISTI_EMPTY;
    while (is_lacking(OPEN_DEADLOCKS, open_book_of_deadlocks(&book, 2, 2))) CHECK(book.is_open_ == 0 && book.at_ == NULL);
    for (uint32_t first = 10; first < 30; first += 10) {
        for (uint32_t s = 1; s <= 2; s++) {
            serve_surely(&book, s, begin, PELGAISTI_BEGAN);
            serve_surely(&book, s, call_of(PELGAISTI_LOCK, PELGAISTI_X, first + s - 1), PELGAISTI_GRANTED);
        }
        serve_surely(&book, 1, call_of(PELGAISTI_LOCK, PELGAISTI_X, first + 1), PELGAISTI_WAITING);
        serve_surely(&book, 2, call_of(PELGAISTI_LOCK, PELGAISTI_X, first), PELGAISTI_DEADLOCK);
        serve_surely(&book, 2, call_of(PELGAISTI_ABORT, 0, 0), PELGAISTI_ABORTED);
        serve_surely(&book, 1, call_of(PELGAISTI_COMMIT, 0, 0), PELGAISTI_COMMITTED);
    }
    memset(&told_of, 0x55, sizeof told_of);
    while (is_lacking(BOOK_DEADLOCKS, pelgaisti_book_deadlocks(&book, told_of.list, 2, &told_of.count, told_of.members, 4,
                                                               &told_of.member_count)))
        CHECK(!memcmp(&told_of, &untold_of, sizeof told_of));
    CHECK(are_told(2, 20));
    CHECK(pelgaisti_book_close(&book) == PELGAISTI_OK);
}

/* The same of an office. */
static void deadlocks_of_an_office(void) {
    pelgaisti_session sessions[2] = {PELGAISTI_EMPTY, PELGAISTI_EMPTY};
    pelgaisti_book book = PELGAISTI_EMPTY, view = PELGAISTI_EMPTY;
    while (is_lacking(OFFICE_DEADLOCKS, open_office_with(sessions, 2, UINT64_MAX, NULL, 2)))
        for (int k = 0; k < 2; k++) CHECK(sessions[k].is_open_ == 0 && sessions[k].at_ == NULL);
    for (uint32_t s = 0; s < 2; s++) {
        perform_surely(&sessions[s], begin, PELGAISTI_BEGAN);
        perform_surely(&sessions[s], call_of(PELGAISTI_LOCK, PELGAISTI_X, 10 + s), PELGAISTI_GRANTED);
    }
    perform_surely(&sessions[0], call_of(PELGAISTI_LOCK, PELGAISTI_X, 11), PELGAISTI_WAITING);
    perform_surely(&sessions[1], call_of(PELGAISTI_LOCK, PELGAISTI_X, 10), PELGAISTI_DEADLOCK);
    memset(&told_of, 0x55, sizeof told_of);
    look(&sessions[0], &view);
    while (is_lacking(VIEW_DEADLOCKS, pelgaisti_book_deadlocks(&view, told_of.list, 2, &told_of.count, told_of.members, 4, &told_of.member_count)))
        CHECK(!memcmp(&told_of, &untold_of, sizeof told_of));
    end_look(&sessions[0], &view);
    CHECK(are_told(1, 10));
    while (is_lacking(HAND_IN, pelgaisti_session_hand_in(&sessions[1], &sessions[0]))) continue;
    while (is_lacking(OFFICE_CLOSE, pelgaisti_office_close(&sessions[0], &book))) continue;
    CHECK(pelgaisti_book_close(&book) == PELGAISTI_OK);
}

static void deadlocks(void) {
    memset(&untold_of, 0x55, sizeof untold_of);
    deadlocks_of_a_book();
    deadlocks_of_an_office();
}

/* While one session makes a pass, which allocates, a serve of another session returns ELSEWHERE and writes nothing, and so does a take of
   entries by a third, whose call of one turn is left pending. The calls of all three are answered afterwards. */
static void elsewhere(void) {
    pelgaisti_session sessions[3] = {PELGAISTI_EMPTY, PELGAISTI_EMPTY, PELGAISTI_EMPTY};
    pelgaisti_book book = PELGAISTI_EMPTY, view = PELGAISTI_EMPTY;
    pelgaisti_answer answer;
    pelgaisti_entry entry;
    uint64_t first = 99;
    size_t count = 99;
    CHECK(open_sessions(sessions, 3) == PELGAISTI_OK);
    for (int k = 0; k < 2; k++) CHECK(pelgaisti_session_publish(&sessions[k], &begin, NULL) == PELGAISTI_OK);
    unwritten.served = unwritten.starved = 99;
    ahead = try_meanwhile;
    meanwhile = &sessions[1];
    other = &sessions[2];
    CHECK(pelgaisti_session_serve(&sessions[0], NULL) == PELGAISTI_OK);
    CHECK(!meanwhile && told == PELGAISTI_ELSEWHERE && unwritten.served == 99 && unwritten.starved == 99);
    CHECK(at_once == PELGAISTI_NOT_SERVED && unanswered.place == 99 && taking == PELGAISTI_ELSEWHERE && unplaced == 99 && uncounted == 99);
    CHECK(pelgaisti_session_collect(&sessions[2], &answer) == PELGAISTI_NOT_SERVED);
    CHECK(pelgaisti_session_serve(&sessions[1], NULL) == PELGAISTI_OK);
    for (int k = 0; k < 3; k++) CHECK(pelgaisti_session_collect(&sessions[k], &answer) == PELGAISTI_OK && answer.reply.kind == PELGAISTI_BEGAN);
    /* a take asks for memory before it tries for the table, as the header lists it */
    look(&sessions[0], &view);
    left = 0;
    CHECK(pelgaisti_session_take_history(&sessions[1], &first, &entry, 1, &count) == PELGAISTI_NO_MEMORY && left == -1);
    CHECK(pelgaisti_session_take_history(&sessions[1], &first, &entry, 1, &count) == PELGAISTI_ELSEWHERE && first == 99 && count == 99);
    end_look(&sessions[0], &view);
    for (int k = 1; k < 3; k++) CHECK(pelgaisti_session_hand_in(&sessions[k], &sessions[0]) == PELGAISTI_OK);
    CHECK(pelgaisti_office_close(&sessions[0], &book) == PELGAISTI_OK && length_of(&book) == 3);
    CHECK(pelgaisti_book_close(&book) == PELGAISTI_OK);
}

/* Plays a round with ample memory, one round for each allocation, which is refused, or so many in a row from it on, and a last round
   without a refusal. */
static void each_in_turn(const char *name, void (*play)(void), long row) {
    long before;
    refusals = 0;
    in_a_row = row;
    play();
    for (long at = 0;; at++) {
        before = refusals;
        left = at;
        play();
        if (refusals == before) break;
    }
    left = -1;
    refused_so_far = 0;
    printf("%s: %ld allocations refused, %ld checks failed\n", name, refusals, failed);
}

int main(void) {
    each_in_turn("books", books, 1);
    each_in_turn("programs", programs, 1);
    each_in_turn("rooms", rooms, 1);
    each_in_turn("offices", offices, 1);
    each_in_turn("wakers", wakers, 1);
    each_in_turn("wakers, two in a row", wakers, 2); /* a wait lacks memory, too, for what it finishes */
    each_in_turn("programs of sessions", session_programs, 1);
    each_in_turn("deadlocks", deadlocks, 1);
    for (int call = 0; call < LACKING; call++)
        if (!lacked[call]) {
            failed++;
            printf("memory was never refused to %s\n", lacking[call]);
        }
    CHECK(cut_short > 0 && run_short > 0 && session_short > 0);
    for (int call = WAKING_SERVE; call <= WAKING_LOCK; call++)
        if (!woken_then[call]) {
            failed++;
            printf("nobody was woken by a call that lacked memory: %s\n", lacking[call]);
        }
    elsewhere();
    printf("elsewhere: %ld checks failed\n", failed);
    return failed != 0;
}
