/* The deadlocks that books and offices tell, and their text. Each expected value is worked out by hand from the rules, in the comment of its
   history. Valid C99. Prints the line of each check that fails, and last 'N passed, M failed'. */
#define _XOPEN_SOURCE 600
#include "open.h"
#include <pthread.h>
#include <sched.h>
#include <semaphore.h>
#include <string.h>

static int passed, failed;
#define CHECK(condition) \
    do { \
        if (condition) { \
            passed++; \
        } else { \
            failed++; \
            printf("%s:%d: %s\n", __FILE__, __LINE__, #condition); \
        } \
    } while (0)

static const pelgaisti_resource one = {1, {1}}, two = {1, {2}}, three = {1, {3}}, nine = {1, {9}}, none = {0, {0}};
static const pelgaisti_resource seven = {1, {7}}, table = {2, {7, 2}}, page = {3, {7, 2, 40}};

static pelgaisti_call call_of(uint32_t op, uint32_t mode, pelgaisti_resource resource) {
    pelgaisti_call call;
    call.op = op;
    call.mode = mode;
    call.resource = resource;
    return call;
}

/* ---- What is told. ---- */

enum { ROOM = 6, MEMBER_ROOM = 20 };

/* What a call has written, past which all bytes are 0x55. */
struct told {
    pelgaisti_deadlock list[ROOM];
    pelgaisti_member members[MEMBER_ROOM];
    size_t count, member_count;
    uint64_t seen;
};

static int is_unwritten(const void *from, const void *to) {
    const unsigned char *at;
    for (at = (const unsigned char *)from; at < (const unsigned char *)to; at++)
        if (*at != 0x55) return 0;
    return 1;
}

/* Nothing is written past what is told, so much of which had room. */
static int is_within(const struct told *told, size_t room, size_t member_room) {
    const size_t deadlocks = told->count < room ? told->count : room;
    const size_t members = told->member_count < member_room ? told->member_count : member_room;
    return is_unwritten(&told->list[deadlocks], &told->list[ROOM]) && is_unwritten(&told->members[members], &told->members[MEMBER_ROOM]);
}

/* What the book tells, with so much room: the newest deadlocks. */
static struct told told_by_book(pelgaisti_book *book, size_t room, size_t member_room) {
    struct told told;
    memset(&told, 0x55, sizeof told);
    CHECK(pelgaisti_book_deadlocks(book, room ? told.list : NULL, room, &told.count, member_room ? told.members : NULL, member_room,
                                   &told.member_count) == PELGAISTI_OK);
    CHECK(is_within(&told, room, member_room) && is_unwritten(&told.seen, &told.seen + 1));
    return told;
}

/* The same by a look of a session, with the length of the history then. */
static struct told told_by_session(pelgaisti_session *session, size_t room, size_t member_room) {
    pelgaisti_book view = PELGAISTI_EMPTY;
    struct told told;
    uint64_t first, seen;
    look(session, &view);
    told = told_by_book(&view, room, member_room);
    CHECK(pelgaisti_book_length(&view, &first, &seen) == PELGAISTI_OK);
    end_look(session, &view);
    told.seen = seen;
    return told;
}

static int is_deadlock(const struct told *told, size_t index, uint64_t place, uint32_t session, size_t members) {
    const pelgaisti_deadlock *it = &told->list[index];
    return it->place == place && it->session == session && it->members == members;
}

static int is_member(const struct told *told, size_t index, uint32_t session, uint64_t transaction, uint32_t kind, uint32_t mode,
                     pelgaisti_resource resource, uint32_t held) {
    const pelgaisti_claim *it = &told->members[index].request;
    return it->session == session && it->transaction == transaction && it->kind == kind && it->mode == mode && it->doomed == 0 &&
           !memcmp(&it->resource, &resource, sizeof resource) && told->members[index].held == held;
}

/* The text of a deadlock, whose members begin at this index, is this one. */
static int has_text(const struct told *told, size_t index, size_t member, const char *text) {
    static char found[2000];
    const size_t length = pelgaisti_deadlock_text(&told->list[index], &told->members[member], found, sizeof found);
    if (!strcmp(found, text) && length == strlen(text)) return 1;
    printf("%s", found);
    return 0;
}

/* ---- Histories on a book. ---- */

static void serve(pelgaisti_book *book, uint32_t session, pelgaisti_call call, uint32_t kind, uint64_t value) {
    pelgaisti_reply reply = {0, 0};
    CHECK(pelgaisti_book_serve(book, session, &call, &reply) == PELGAISTI_OK && reply.kind == kind && reply.value == value);
}

static void begin(pelgaisti_book *book, uint32_t session, uint64_t transaction) {
    serve(book, session, call_of(PELGAISTI_BEGIN, 0, none), PELGAISTI_BEGAN, transaction);
}

/* A lock that is granted at once; one that isn't, with the kind of its reply. */
static void take(pelgaisti_book *book, uint32_t session, uint32_t mode, pelgaisti_resource resource) {
    serve(book, session, call_of(PELGAISTI_LOCK, mode, resource), PELGAISTI_GRANTED, mode);
}

static void ask(pelgaisti_book *book, uint32_t session, uint32_t mode, pelgaisti_resource resource, uint32_t kind) {
    serve(book, session, call_of(PELGAISTI_LOCK, mode, resource), kind, 0);
}

static void open_telling(pelgaisti_book *book, uint32_t sessions, size_t most) {
    CHECK(open_book_of_deadlocks(book, sessions, most) == PELGAISTI_OK);
    CHECK(told_by_book(book, ROOM, MEMBER_ROOM).member_count == 0 && told_by_book(book, 0, 0).count == 0);
}

static void close_book(pelgaisti_book *book) { CHECK(pelgaisti_book_close(book) == PELGAISTI_OK); }

/* The header's example, places 0 to 5: session 2 closes the cycle, and is its younger one. */
static void cross(pelgaisti_book *book) {
    begin(book, 1, 1);
    begin(book, 2, 2);
    take(book, 1, PELGAISTI_X, one);
    take(book, 2, PELGAISTI_S, two);
    ask(book, 1, PELGAISTI_X, two, PELGAISTI_WAITING);
    ask(book, 2, PELGAISTI_S, one, PELGAISTI_DEADLOCK);
}

static void want_cross(const struct told *told, size_t index, size_t member) {
    CHECK(is_deadlock(told, index, 5, 2, 2));
    CHECK(is_member(told, member, 2, 2, PELGAISTI_FRESH, PELGAISTI_S, one, PELGAISTI_X));
    CHECK(is_member(told, member + 1, 1, 1, PELGAISTI_FRESH, PELGAISTI_X, two, PELGAISTI_S));
    CHECK(has_text(told, index, member, "deadlock at place 5: session 2 closed a cycle, session 2 is its victim\n"
                                        "  session 2, transaction 2, waits for 1 in S, which session 1 holds in X\n"
                                        "  session 1, transaction 1, waits for 2 in X, which session 2 holds in S\n"));
}

/* Places 6 to 17, behind `cross`: session 1 closes the cycle, and transaction 4 of session 2 is the younger one. Session 1 waits on, since
   session 2 keeps its lock. */
static void cross_again(pelgaisti_book *book) {
    serve(book, 2, call_of(PELGAISTI_ABORT, 0, none), PELGAISTI_ABORTED, 1);
    serve(book, 1, call_of(PELGAISTI_COMMIT, 0, none), PELGAISTI_COMMITTED, 2);
    begin(book, 1, 3);
    begin(book, 2, 4);
    take(book, 2, PELGAISTI_IX, seven);
    take(book, 2, PELGAISTI_IX, table);
    take(book, 2, PELGAISTI_X, page);
    take(book, 1, PELGAISTI_IX, seven);
    take(book, 1, PELGAISTI_IX, table);
    take(book, 1, PELGAISTI_S, nine);
    ask(book, 2, PELGAISTI_X, nine, PELGAISTI_WAITING);
    ask(book, 1, PELGAISTI_S, page, PELGAISTI_WAITING);
}

static void want_cross_again(const struct told *told, size_t index, size_t member) {
    CHECK(is_deadlock(told, index, 17, 1, 2));
    CHECK(is_member(told, member, 2, 4, PELGAISTI_FRESH, PELGAISTI_X, nine, PELGAISTI_S));
    CHECK(is_member(told, member + 1, 1, 3, PELGAISTI_FRESH, PELGAISTI_S, page, PELGAISTI_X));
    CHECK(has_text(told, index, member, "deadlock at place 17: session 1 closed a cycle, session 2 is its victim\n"
                                        "  session 2, transaction 4, waits for 9 in X, which session 1 holds in S\n"
                                        "  session 1, transaction 3, waits for 7/2/40 in S, which session 2 holds in X\n"));
}

/* Books that keep none, one, both, and more than there are: the newest, oldest first. One that let go of its history tells the same. */
static void the_newest_are_kept(void) {
    for (size_t most = 0; most < 4; most++) {
        pelgaisti_book book = PELGAISTI_EMPTY;
        const size_t kept = most < 2 ? most : 2;
        struct told told;
        open_telling(&book, 2, most);
        CHECK(pelgaisti_book_keep_at_most(&book, most == 3 ? 1 : UINT64_MAX) == PELGAISTI_OK);
        cross(&book);
        told = told_by_book(&book, ROOM, MEMBER_ROOM);
        CHECK(told.count == (most > 0) && told.member_count == 2 * told.count);
        if (most > 0) want_cross(&told, 0, 0);
        cross_again(&book);
        told = told_by_book(&book, ROOM, MEMBER_ROOM);
        CHECK(told.count == kept && told.member_count == 2 * kept);
        if (most > 1) want_cross(&told, 0, 0);
        if (most > 0) want_cross_again(&told, kept - 1, 2 * kept - 2);
        CHECK(pelgaisti_book_shrink(&book) == PELGAISTI_OK);
        CHECK(told_by_book(&book, 0, 0).count == kept);
        close_book(&book);
    }
}

/* A victim that restarts keeps its number: behind `cross`, places 6 to 10, session 1 closes the cycle, and transaction 2 is the younger one
   again. */
static void a_restarted_victim_is_one_again(void) {
    pelgaisti_book book = PELGAISTI_EMPTY;
    struct told told;
    open_telling(&book, 2, 2);
    cross(&book);
    serve(&book, 1, call_of(PELGAISTI_WITHDRAW, 0, none), PELGAISTI_WITHDRAWN, 0);
    serve(&book, 2, call_of(PELGAISTI_RESTART, 0, none), PELGAISTI_RESTARTED, 1);
    take(&book, 2, PELGAISTI_X, two);
    ask(&book, 2, PELGAISTI_S, one, PELGAISTI_WAITING);
    ask(&book, 1, PELGAISTI_S, two, PELGAISTI_WAITING);
    told = told_by_book(&book, ROOM, MEMBER_ROOM);
    CHECK(told.count == 2 && told.member_count == 4 && is_deadlock(&told, 1, 10, 1, 2));
    want_cross(&told, 0, 0);
    CHECK(is_member(&told, 2, 2, 2, PELGAISTI_FRESH, PELGAISTI_S, one, PELGAISTI_X));
    CHECK(is_member(&told, 3, 1, 1, PELGAISTI_FRESH, PELGAISTI_S, two, PELGAISTI_X));
    close_book(&book);
}

/* With less room than there is, the newest deadlocks are written, and all are counted; of members the first ones of these deadlocks, by a
   room of their own, and all of these are counted. */
static void room_is_kept(void) {
    pelgaisti_book book = PELGAISTI_EMPTY;
    open_telling(&book, 2, 9);
    cross(&book);
    cross_again(&book);
    for (size_t room = 0; room < 4; room++)
        for (size_t member_room = 0; member_room < 6; member_room++) {
            const struct told told = told_by_book(&book, room, member_room);
            CHECK(told.count == 2 && told.member_count == (room < 2 ? 2 * room : 4));
            if (room == 1) CHECK(is_deadlock(&told, 0, 17, 1, 2));
            if (room == 1 && member_room > 0) CHECK(is_member(&told, 0, 2, 4, PELGAISTI_FRESH, PELGAISTI_X, nine, PELGAISTI_S));
            if (room == 1 && member_room > 1) want_cross_again(&told, 0, 0);
            if (room > 1) CHECK(is_deadlock(&told, 0, 5, 2, 2) && is_deadlock(&told, 1, 17, 1, 2));
            if (room > 1 && member_room > 1) want_cross(&told, 0, 0);
            if (room > 1 && member_room == 3) CHECK(is_member(&told, 2, 2, 4, PELGAISTI_FRESH, PELGAISTI_X, nine, PELGAISTI_S));
            if (room > 1 && member_room > 3) want_cross_again(&told, 1, 2);
        }
    close_book(&book);
}

/* Three in a cycle, places 0 to 9: session 1 waits for 2, which waits to convert IX to SIX for 3, whose call closes the cycle. Transaction
   3 is the youngest. */
static void three_in_a_cycle(void) {
    pelgaisti_book book = PELGAISTI_EMPTY;
    struct told told;
    open_telling(&book, 3, 2);
    begin(&book, 1, 1);
    begin(&book, 2, 2);
    begin(&book, 3, 3);
    take(&book, 1, PELGAISTI_X, one);
    take(&book, 2, PELGAISTI_U, two);
    take(&book, 3, PELGAISTI_IX, three);
    take(&book, 2, PELGAISTI_IX, three);
    ask(&book, 1, PELGAISTI_IX, two, PELGAISTI_WAITING);
    ask(&book, 2, PELGAISTI_S, three, PELGAISTI_WAITING);
    ask(&book, 3, PELGAISTI_S, one, PELGAISTI_DEADLOCK);
    told = told_by_book(&book, ROOM, MEMBER_ROOM);
    CHECK(told.count == 1 && told.member_count == 3 && is_deadlock(&told, 0, 9, 3, 3));
    CHECK(is_member(&told, 0, 3, 3, PELGAISTI_FRESH, PELGAISTI_S, one, PELGAISTI_X));
    CHECK(is_member(&told, 1, 1, 1, PELGAISTI_FRESH, PELGAISTI_IX, two, PELGAISTI_U));
    CHECK(is_member(&told, 2, 2, 2, PELGAISTI_CONVERSION, PELGAISTI_SIX, three, PELGAISTI_IX));
    CHECK(has_text(&told, 0, 0, "deadlock at place 9: session 3 closed a cycle, session 3 is its victim\n"
                                "  session 3, transaction 3, waits for 1 in S, which session 1 holds in X\n"
                                "  session 1, transaction 1, waits for 2 in IX, which session 2 holds in U\n"
                                "  session 2, transaction 2, waits to convert 3 to SIX, which session 3 holds in IX\n"));
    close_book(&book);
}

/* One waits for a request that is ahead of it, places 0 to 7, as in examples/deadlock.csv: session 3 waits for 1 in X, which 2 holds in S;
   2 waits for 2, which 1 holds; and 1 asks for 1 in S, which 2's lock would let it have, but 3's request is ahead. Victim is
   session 3, with whose request the obstacle goes, so that session 1 is granted at once. */
static void one_waits_behind_a_request(void) {
    pelgaisti_book book = PELGAISTI_EMPTY;
    struct told told;
    open_telling(&book, 3, 2);
    begin(&book, 1, 1);
    begin(&book, 2, 2);
    begin(&book, 3, 3);
    take(&book, 2, PELGAISTI_S, one);
    take(&book, 1, PELGAISTI_X, two);
    ask(&book, 3, PELGAISTI_X, one, PELGAISTI_WAITING);
    ask(&book, 2, PELGAISTI_S, two, PELGAISTI_WAITING);
    take(&book, 1, PELGAISTI_S, one);
    told = told_by_book(&book, ROOM, MEMBER_ROOM);
    CHECK(told.count == 1 && told.member_count == 3 && is_deadlock(&told, 0, 7, 1, 3));
    CHECK(is_member(&told, 0, 3, 3, PELGAISTI_FRESH, PELGAISTI_X, one, PELGAISTI_S));
    CHECK(is_member(&told, 1, 2, 2, PELGAISTI_FRESH, PELGAISTI_S, two, PELGAISTI_X));
    CHECK(is_member(&told, 2, 1, 1, PELGAISTI_FRESH, PELGAISTI_S, one, PELGAISTI_NL));
    CHECK(has_text(&told, 0, 0, "deadlock at place 7: session 1 closed a cycle, session 3 is its victim\n"
                                "  session 3, transaction 3, waits for 1 in X, which session 2 holds in S\n"
                                "  session 2, transaction 2, waits for 2 in S, which session 1 holds in X\n"
                                "  session 1, transaction 1, waits for 1 in S, behind session 3\n"));
    close_book(&book);
}

/* One waits for a conversion that is ahead of it, places 0 to 8, of a session whose lock it could have beside its own: session 3 waits to
   convert 1 from IX to SIX, since 2 holds it in IX; 2 waits for 2, which 1 holds; and 1 asks for 1 in IX. The lock is told. */
static void one_waits_behind_a_conversion(void) {
    pelgaisti_book book = PELGAISTI_EMPTY;
    struct told told;
    open_telling(&book, 3, 2);
    begin(&book, 1, 1);
    begin(&book, 2, 2);
    begin(&book, 3, 3);
    take(&book, 2, PELGAISTI_IX, one);
    take(&book, 3, PELGAISTI_IX, one);
    take(&book, 1, PELGAISTI_X, two);
    serve(&book, 3, call_of(PELGAISTI_CONVERT, PELGAISTI_S, one), PELGAISTI_WAITING, 0);
    ask(&book, 2, PELGAISTI_S, two, PELGAISTI_WAITING);
    take(&book, 1, PELGAISTI_IX, one);
    told = told_by_book(&book, ROOM, MEMBER_ROOM);
    CHECK(told.count == 1 && told.member_count == 3 && is_deadlock(&told, 0, 8, 1, 3));
    CHECK(is_member(&told, 0, 3, 3, PELGAISTI_CONVERSION, PELGAISTI_SIX, one, PELGAISTI_IX));
    CHECK(is_member(&told, 1, 2, 2, PELGAISTI_FRESH, PELGAISTI_S, two, PELGAISTI_X));
    CHECK(is_member(&told, 2, 1, 1, PELGAISTI_FRESH, PELGAISTI_IX, one, PELGAISTI_IX));
    close_book(&book);
}

/* One call closes two cycles, places 0 to 8: sessions 2 and 3 hold 2 in S and wait for 1, which session 1 holds; then session 1 asks for 2
   in X. The youngest goes first, transaction 3; its shortest cycle is that with session 1, though it waits behind 2's request, too. */
static void one_call_makes_two(void) {
    pelgaisti_book book = PELGAISTI_EMPTY;
    struct told told;
    open_telling(&book, 3, 2);
    begin(&book, 1, 1);
    begin(&book, 2, 2);
    begin(&book, 3, 3);
    take(&book, 1, PELGAISTI_X, one);
    take(&book, 2, PELGAISTI_S, two);
    take(&book, 3, PELGAISTI_S, two);
    ask(&book, 2, PELGAISTI_X, one, PELGAISTI_WAITING);
    ask(&book, 3, PELGAISTI_X, one, PELGAISTI_WAITING);
    ask(&book, 1, PELGAISTI_X, two, PELGAISTI_WAITING);
    told = told_by_book(&book, ROOM, MEMBER_ROOM);
    CHECK(told.count == 2 && told.member_count == 4);
    CHECK(is_deadlock(&told, 0, 8, 1, 2) && is_deadlock(&told, 1, 8, 1, 2));
    CHECK(is_member(&told, 0, 3, 3, PELGAISTI_FRESH, PELGAISTI_X, one, PELGAISTI_X));
    CHECK(is_member(&told, 1, 1, 1, PELGAISTI_FRESH, PELGAISTI_X, two, PELGAISTI_S));
    CHECK(is_member(&told, 2, 2, 2, PELGAISTI_FRESH, PELGAISTI_X, one, PELGAISTI_X));
    CHECK(is_member(&told, 3, 1, 1, PELGAISTI_FRESH, PELGAISTI_X, two, PELGAISTI_S));
    close_book(&book);
}

/* A closed book tells none, and one that keeps none; as many as no memory has aren't kept. */
static void books_that_tell_none(void) {
    pelgaisti_book book = PELGAISTI_EMPTY;
    uint64_t first, length;
    struct told told;
    memset(&told, 0x55, sizeof told);
    CHECK(pelgaisti_book_deadlocks(&book, told.list, ROOM, &told.count, told.members, MEMBER_ROOM, &told.member_count) == PELGAISTI_CLOSED);
    CHECK(is_unwritten(&told, &told + 1));
    CHECK(open_book_of_deadlocks(&book, 2, SIZE_MAX) == PELGAISTI_NO_MEMORY);
    CHECK(open_book(&book, 2) == PELGAISTI_OK);
    cross(&book);
    cross_again(&book);
    told = told_by_book(&book, ROOM, MEMBER_ROOM);
    CHECK(told.count == 0 && told.member_count == 0);
    CHECK(pelgaisti_book_length(&book, &first, &length) == PELGAISTI_OK && first == 0 && length == 18);
    close_book(&book);
    open_telling(&book, 2, 0);
    cross(&book);
    CHECK(told_by_book(&book, ROOM, MEMBER_ROOM).count == 0);
    close_book(&book);
}

/* A text is cut as by snprintf, and has each number and mode. The members past the deadlock's own aren't read. */
static void texts(void) {
    static const pelgaisti_deadlock great = {UINT64_MAX, 1024, 3};
    static const pelgaisti_member members[] = {
        {{1024, PELGAISTI_FRESH, PELGAISTI_IS, 0, UINT64_MAX, {5, {UINT32_MAX, 0, 10, 4294967290, UINT32_MAX}}}, PELGAISTI_X},
        {{1000, PELGAISTI_CONVERSION, PELGAISTI_X, 0, 1, {2, {100, 9}}}, PELGAISTI_SIX},
        {{3, PELGAISTI_CONVERSION, PELGAISTI_U, 0, 20, {1, {0}}}, PELGAISTI_NL},
        {{77, PELGAISTI_FRESH, PELGAISTI_X, 0, 77, {1, {77}}}, PELGAISTI_X}};
    static const char text[] = "deadlock at place 18446744073709551615: session 1024 closed a cycle, session 1024 is its victim\n"
                               "  session 1024, transaction 18446744073709551615, waits for 4294967295/0/10/4294967290/4294967295 in IS, "
                               "which session 1000 holds in X\n"
                               "  session 1000, transaction 1, waits to convert 100/9 to X, which session 3 holds in SIX\n"
                               "  session 3, transaction 20, waits to convert 0 to U, behind session 1024\n";
    char found[sizeof text + 8];
    CHECK(pelgaisti_deadlock_text(&great, members, NULL, 0) == sizeof text - 1);
    for (size_t room = 0; room <= sizeof text + 4; room++) {
        const size_t length = room < sizeof text ? room : sizeof text;
        memset(found, 0x55, sizeof found);
        CHECK(pelgaisti_deadlock_text(&great, members, found, room) == sizeof text - 1);
        CHECK(room == 0 || (!memcmp(found, text, length - 1) && found[length - 1] == 0));
        CHECK(is_unwritten(found + length, found + sizeof found));
    }
}

/* ---- Offices. ---- */

static pelgaisti_session sessions[2];
static sem_t woken[3];

static void post(void *engine, uint32_t session) {
    (void)engine;
    sem_post(&woken[session]);
}

static const pelgaisti_waker waker = {post, NULL};

/* Makes a call, and counts in `bad` whether it failed. */
static pelgaisti_reply perform_or(pelgaisti_session *session, pelgaisti_call call, int *bad) {
    pelgaisti_answer answer = {0, {0, 0}};
    *bad += pelgaisti_session_perform(session, &call, UINT64_MAX, &answer) != PELGAISTI_OK;
    return answer.reply;
}

static pelgaisti_reply perform(pelgaisti_session *session, pelgaisti_call call) {
    int bad = 0;
    const pelgaisti_reply reply = perform_or(session, call, &bad);
    CHECK(bad == 0);
    return reply;
}

/* Each session has begun, in the order of numbers, and holds its own database in X. */
static void hold_each(void) {
    for (int s = 0; s < 2; s++) {
        CHECK(perform(&sessions[s], call_of(PELGAISTI_BEGIN, 0, none)).value == (uint64_t)(s + 1));
        CHECK(perform(&sessions[s], call_of(PELGAISTI_LOCK, PELGAISTI_X, s == 0 ? one : two)).kind == PELGAISTI_GRANTED);
    }
}

static void close_office(pelgaisti_book *book) {
    CHECK(pelgaisti_session_hand_in(&sessions[1], &sessions[0]) == PELGAISTI_OK);
    CHECK(pelgaisti_office_close(&sessions[0], book) == PELGAISTI_OK);
}

/* A thread with its session, and whether it sleeps until it is woken. */
struct clerk {
    uint32_t number;
    int sleeps;
    uint32_t end; /* the kind of the reply that ended its wait */
    int bad;
    char text[400]; /* why it became a victim */
};

enum { SESSIONS = 2, KEPT = 4, MEMBERS = KEPT * SESSIONS };

/* Writes why this transaction of the session became a victim: the text of the newest deadlock whose victim it was. docs/EMBEDDING.md has
   this. */
static void tell_cycle(pelgaisti_session *session, uint64_t transaction, char *text, size_t room) {
    pelgaisti_deadlock list[KEPT];
    pelgaisti_member members[MEMBERS];
    size_t count, member_count, first = 0; /* `first`: where the members of a deadlock begin */
    pelgaisti_book view = PELGAISTI_EMPTY;
    pelgaisti_status status;
    look(session, &view);
    status = pelgaisti_book_deadlocks(&view, list, KEPT, &count, members, MEMBERS, &member_count);
    end_look(session, &view);
    if (status != PELGAISTI_OK) return;
    for (size_t k = 0; k < count && k < KEPT && first + list[k].members <= MEMBERS; first += list[k++].members)
        if (members[first].request.transaction == transaction) pelgaisti_deadlock_text(&list[k], &members[first], text, room);
}

/* Asks for the other's database. The victim learns why, and aborts; the other one gets the lock. */
static void *ask_for_the_others(void *argument) {
    struct clerk *it = (struct clerk *)argument;
    pelgaisti_session *session = &sessions[it->number - 1];
    pelgaisti_reply reply = perform_or(session, call_of(PELGAISTI_LOCK, PELGAISTI_X, it->number == 1 ? two : one), &it->bad);
    while (reply.kind == PELGAISTI_WAITING) {
        if (it->sleeps) {
            while (sem_wait(&woken[it->number]) != 0) continue;
        } else {
            sched_yield();
        }
        reply = perform_or(session, call_of(PELGAISTI_POLL, 0, none), &it->bad);
    }
    it->end = reply.kind;
    if (reply.kind == PELGAISTI_DEADLOCK) {
        tell_cycle(session, it->number, it->text, sizeof it->text);
        it->bad += perform_or(session, call_of(PELGAISTI_ABORT, 0, none), &it->bad).kind != PELGAISTI_ABORTED;
    } else {
        it->bad += perform_or(session, call_of(PELGAISTI_COMMIT, 0, none), &it->bad).kind != PELGAISTI_COMMITTED;
    }
    return NULL;
}

/* Two threads ask for each other's database: whichever asks last closes the cycle, and transaction 2 is the victim. The deadlock is that of the
   entry at its place; the victim is told of it, the other session is, and so is the book of the closed office. */
static void threads_meet_a_deadlock(int sleeps) {
    pelgaisti_book book = PELGAISTI_EMPTY;
    struct clerk clerks[2] = {{1, 0, 0, 0, ""}, {2, 0, 0, 0, ""}};
    pthread_t threads[2];
    pelgaisti_entry entry;
    char text[400];
    size_t count = 0;
    struct told told, again;
    for (int s = 0; s < 3; s++) CHECK(sem_init(&woken[s], 0, 0) == 0);
    CHECK(open_office_with(sessions, 2, UINT64_MAX, sleeps ? &waker : NULL, KEPT) == PELGAISTI_OK);
    hold_each();
    for (int s = 0; s < 2; s++) {
        clerks[s].sleeps = sleeps;
        CHECK(pthread_create(&threads[s], NULL, ask_for_the_others, &clerks[s]) == 0);
    }
    for (int s = 0; s < 2; s++) CHECK(pthread_join(threads[s], NULL) == 0 && clerks[s].bad == 0);
    CHECK(clerks[1].end == PELGAISTI_DEADLOCK && (clerks[0].end == PELGAISTI_CLEAR || clerks[0].end == PELGAISTI_GRANTED));
    told = told_by_session(&sessions[0], ROOM, MEMBER_ROOM);
    CHECK(told.count == 1 && told.member_count == 2 && (told.list[0].session == 1 || told.list[0].session == 2));
    CHECK(is_deadlock(&told, 0, told.list[0].place, told.list[0].session, 2));
    CHECK(is_member(&told, 0, 2, 2, PELGAISTI_FRESH, PELGAISTI_X, one, PELGAISTI_X));
    CHECK(is_member(&told, 1, 1, 1, PELGAISTI_FRESH, PELGAISTI_X, two, PELGAISTI_X));
    snprintf(text, sizeof text, "deadlock at place %u: session %u closed a cycle, session 2 is its victim\n"
                                "  session 2, transaction 2, waits for 1 in X, which session 1 holds in X\n"
                                "  session 1, transaction 1, waits for 2 in X, which session 2 holds in X\n",
             (unsigned)told.list[0].place, (unsigned)told.list[0].session);
    CHECK(!strcmp(clerks[1].text, text) && !strcmp(clerks[0].text, ""));
    again = told_by_session(&sessions[1], 1, 1);
    CHECK(again.count == 1 && again.member_count == 2 && !memcmp(again.list, told.list, sizeof again.list[0]));
    CHECK(is_member(&again, 0, 2, 2, PELGAISTI_FRESH, PELGAISTI_X, one, PELGAISTI_X));
    close_office(&book);
    CHECK(pelgaisti_book_history(&book, told.list[0].place, &entry, 1, &count) == PELGAISTI_OK && count == 1);
    CHECK(entry.session == told.list[0].session && entry.call.op == PELGAISTI_LOCK);
    again = told_by_book(&book, ROOM, MEMBER_ROOM);
    CHECK(again.count == 1 && again.member_count == 2 && !memcmp(again.list, told.list, sizeof again.list[0]));
    CHECK(has_text(&again, 0, 0, text));
    close_book(&book);
    for (int s = 0; s < 3; s++) sem_destroy(&woken[s]);
}

/* Session 1 waits for 2, and session 2, by the call at place 5, for 1: the seven entries are in `seen`. `kept` deadlocks are told. */
static void want_deadlocks_of(size_t kept) {
    pelgaisti_book book = PELGAISTI_EMPTY;
    struct told told;
    hold_each();
    told = told_by_session(&sessions[0], ROOM, MEMBER_ROOM);
    CHECK(told.count == 0 && told.member_count == 0 && told.seen == 4);
    CHECK(perform(&sessions[0], call_of(PELGAISTI_LOCK, PELGAISTI_X, two)).kind == PELGAISTI_WAITING);
    CHECK(perform(&sessions[1], call_of(PELGAISTI_LOCK, PELGAISTI_X, one)).kind == PELGAISTI_DEADLOCK);
    CHECK(perform(&sessions[1], call_of(PELGAISTI_POLL, 0, none)).kind == PELGAISTI_DEADLOCK);
    told = told_by_session(&sessions[0], ROOM, MEMBER_ROOM);
    CHECK(told.count == kept && told.member_count == 2 * kept && told.seen == 7);
    if (kept > 0) CHECK(is_deadlock(&told, 0, 5, 2, 2));
    for (size_t room = 0; room < 3; room++)
        for (size_t member_room = 0; member_room < 4; member_room++) {
            told = told_by_session(&sessions[1], room, member_room);
            CHECK(told.count == kept && told.member_count == (room > 0 ? 2 * kept : 0) && told.seen == 7);
            if (kept > 0 && room > 0) CHECK(is_deadlock(&told, 0, 5, 2, 2));
            if (kept > 0 && room > 0 && member_room > 0) CHECK(is_member(&told, 0, 2, 2, PELGAISTI_FRESH, PELGAISTI_X, one, PELGAISTI_X));
        }
    close_office(&book);
    close_book(&book);
}

/* An office keeps as many as it was told when it was opened; opened otherwise, none. Nothing is opened or written where a call is refused. */
static void offices(void) {
    pelgaisti_book book = PELGAISTI_EMPTY;
    pelgaisti_waker off = {NULL, NULL};
    pelgaisti_session open[1] = {PELGAISTI_EMPTY};
    uint64_t first, length;
    CHECK(open_office_with(sessions, 2, UINT64_MAX, &off, 1) == PELGAISTI_NULL);
    CHECK(open_office_with(sessions, 0, UINT64_MAX, NULL, 1) == PELGAISTI_NO_SUCH_COUNT);
    CHECK(open_office_with(sessions, 2, UINT64_MAX, NULL, SIZE_MAX) == PELGAISTI_NO_MEMORY);
    CHECK(open_office_with(open, 1, UINT64_MAX, NULL, 1) == PELGAISTI_OK);
    CHECK(open_office_with(open, 1, UINT64_MAX, NULL, 1) == PELGAISTI_OPEN);
    CHECK(pelgaisti_office_close(open, &book) == PELGAISTI_OK);
    close_book(&book);

    CHECK(open_office_with(sessions, 2, 3, &waker, 0) == PELGAISTI_OK);
    want_deadlocks_of(0);
    CHECK(open_office_with(sessions, 2, UINT64_MAX, NULL, 0) == PELGAISTI_OK);
    want_deadlocks_of(0);
    CHECK(open_office_with(sessions, 2, UINT64_MAX, NULL, 1) == PELGAISTI_OK);
    want_deadlocks_of(1);
    CHECK(open_office_with(sessions, 2, 1, &waker, 3) == PELGAISTI_OK);
    want_deadlocks_of(1);

    /* the bound is the office's */
    CHECK(open_office_with(sessions, 2, 1, NULL, 3) == PELGAISTI_OK);
    hold_each();
    close_office(&book);
    CHECK(pelgaisti_book_length(&book, &first, &length) == PELGAISTI_OK && first == 3 && length == 4);
    close_book(&book);
}

int main(void) {
    the_newest_are_kept();
    a_restarted_victim_is_one_again();
    room_is_kept();
    three_in_a_cycle();
    one_waits_behind_a_request();
    one_waits_behind_a_conversion();
    one_call_makes_two();
    books_that_tell_none();
    texts();
    for (int s = 0; s < 3; s++) CHECK(sem_init(&woken[s], 0, 0) == 0);
    offices();
    for (int s = 0; s < 3; s++) sem_destroy(&woken[s]);
    for (int k = 0; k < 20; k++) threads_meet_a_deadlock(k % 2);
    printf("%d passed, %d failed\n", passed, failed);
    return failed != 0;
}
