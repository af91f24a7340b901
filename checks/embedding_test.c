/* Tests every call of pelgaisti.h with each of its statuses, and threads that share an office. Valid C99 and C++.
   Prints the line of each check that fails, and last 'N passed, M failed'. */
#define _XOPEN_SOURCE 600
#include "open.h"
#include <pthread.h>
#include <semaphore.h>
#include <sched.h>
#include <string.h>

static int passed, failed;
#define CHECK(condition) \
    do { \
        if (condition) { \
            passed++; \
        } else { \
            failed++; \
            printf("%s:%d: %s\n", __FILE__, __LINE__, #condition); \
        } \
    } while (0)

static pelgaisti_call call_of(uint32_t op, uint32_t mode, uint32_t level, uint32_t first, uint32_t second) {
    pelgaisti_call call;
    memset(&call, 0, sizeof call);
    call.op = op;
    call.mode = mode;
    call.resource.level = level;
    call.resource.numbers[0] = first;
    call.resource.numbers[1] = second;
    return call;
}

static const uint32_t off_sessions[] = {0, 4, 256, 1024, 1025, 65537, UINT32_MAX};
static const uint32_t off_ops[] = {0, 11, 256, UINT32_MAX};
static const uint32_t off_modes[] = {2, 4, 6, 8, 12, 14, 16, 255, 256, 257, UINT32_MAX};
static const uint32_t off_levels[] = {0, 6, 256, 257, UINT32_MAX};
#define COUNT(list) (sizeof(list) / sizeof((list)[0]))

static pelgaisti_status length_of(pelgaisti_book *book, uint64_t *length) {
    uint64_t first;
    return pelgaisti_book_length(book, &first, length);
}

static pelgaisti_status first_kept_of(pelgaisti_book *book, uint64_t *first) {
    uint64_t length;
    return pelgaisti_book_length(book, first, &length);
}

static uint64_t idle_cells_of(pelgaisti_book *book) {
    pelgaisti_gauges gauges = {0, 0, 0, 0, 99};
    CHECK(pelgaisti_book_gauges(book, &gauges) == PELGAISTI_OK);
    return gauges.idle_cells;
}

/* The replies that an answer to the program tells; behind them 0. */
static pelgaisti_reply told[PELGAISTI_CALLS];

static void read_replies(const pelgaisti_program *program, const pelgaisti_program_answer *answer) {
    memset(told, 0, sizeof told);
    CHECK(pelgaisti_program_replies(program, answer, told) == answer->served);
}

static void post(void *engine, uint32_t session) {
    sem_t *semaphores = (sem_t *)engine;
    sem_post(&semaphores[session]);
}

/* Each call on a handle, and what its arguments are: a pointer (p), one that may be NULL (o), options (q), a number (n), a list and its
   room (lr). */
typedef uint32_t (*any_call)(uintptr_t, uintptr_t, uintptr_t, uintptr_t, uintptr_t, uintptr_t, uintptr_t, uintptr_t, uintptr_t);
#define ANY(call) #call, (any_call)(void (*)(void))pelgaisti_##call
static const struct {
    const char *name;
    any_call call;
    const char *arguments;
} all_calls[] = {
    {ANY(book_open), "pq"}, {ANY(book_close), "p"}, {ANY(book_serve), "pnpp"}, {ANY(book_serve_batch), "plrp"}, {ANY(book_run), "pnpp"},
    {ANY(book_ended), "plrp"}, {ANY(book_held), "pnpp"}, {ANY(book_holders), "pplrp"}, {ANY(book_blockers), "pnlrp"},
    {ANY(book_transaction), "pnp"}, {ANY(book_request), "pnp"}, {ANY(book_locks_held), "pnp"}, {ANY(book_locks_of), "pnplrp"},
    {ANY(book_dump), "plrpp"}, {ANY(book_counts), "pp"}, {ANY(book_gauges), "pp"}, {ANY(book_passes), "pp"}, {ANY(book_deadlocks), "plrplrp"},
    {ANY(book_length), "ppp"}, {ANY(book_history), "pnlrp"}, {ANY(book_take_history), "pplrp"}, {ANY(book_keep_at_most), "pn"},
    {ANY(book_reserve), "pnn"}, {ANY(book_shrink), "p"}, {ANY(office_open), "pq"}, {ANY(office_close), "pp"}, {ANY(session_perform), "ponp"},
    {ANY(session_run), "ponp"}, {ANY(session_lock), "ppnnp"}, {ANY(session_wait), "pnp"}, {ANY(session_publish), "ppo"},
    {ANY(session_serve), "po"}, {ANY(session_collect), "pp"}, {ANY(session_hear), "pp"}, {ANY(session_look), "pp"}, {ANY(look_end), "pp"},
    {ANY(session_take_history), "pplrp"}, {ANY(session_seen), "pp"}, {ANY(session_mark), "pp"}, {ANY(session_retire), "p"},
    {ANY(session_hand_in), "pp"}, {ANY(session_bound_passes), "pnnn"}};

/* What the pointers point to: handles are closed, and else nothing is a number that a call takes. */
static unsigned char pointed_to[9][64];

/* Those with which nothing is opened: of no sessions, or of one whose handle isn't where it was opened. */
static pelgaisti_options openings = PELGAISTI_OPTIONS(0);

/* The status of a call whose argument `off` is NULL, if there is one, and whose lists have so much room. */
static uint32_t status_with(size_t k, size_t off, uintptr_t room) {
    uintptr_t a[9] = {0, 0, 0, 0, 0, 0, 0, 0, 0};
    for (size_t n = 0; all_calls[k].arguments[n]; n++) {
        const char is = all_calls[k].arguments[n];
        a[n] = is == 'r' ? room : is == 'n' || n == off ? 0 : is == 'q' ? (uintptr_t)&openings : (uintptr_t)pointed_to[n];
    }
    return all_calls[k].call(a[0], a[1], a[2], a[3], a[4], a[5], a[6], a[7], a[8]);
}

/* Each pointer of each call is tested, and those that may be NULL are not; with PELGAISTI_NULL nothing is written. The calls are called
   as x86-64 passes arguments, each in a word. `calls` as the program's argument prints their
   names, which checks/embedding compares with the header's. */
static void null_is_refused(void) {
    unsigned char before[9][64];
    memset(pointed_to, 0x55, sizeof pointed_to);
    memset(pointed_to[0], 0, sizeof pointed_to[0]);
    for (size_t k = 0; k < COUNT(all_calls); k++) {
        const char *arguments = all_calls[k].arguments;
        int is_right = status_with(k, 9, 1) != PELGAISTI_NULL && status_with(k, 9, 0) != PELGAISTI_NULL;
        for (size_t n = 0; arguments[n]; n++) {
            int may_be_null = arguments[n] == 'o', is_list = arguments[n] == 'l';
            if (arguments[n] == 'n' || arguments[n] == 'r') continue;
            memcpy(before, pointed_to, sizeof before);
            is_right &= (status_with(k, n, 1) == PELGAISTI_NULL) == !may_be_null;
            is_right &= may_be_null || !memcmp(before, pointed_to, sizeof before);
            is_right &= (status_with(k, n, 0) == PELGAISTI_NULL) == (!may_be_null && !is_list);
            memset(pointed_to[n], n ? 0x55 : 0, sizeof pointed_to[n]);
        }
        if (!is_right) printf("%s: ", all_calls[k].name);
        CHECK(is_right);
    }
}

/* Each call with an open handle that isn't where it was opened returns COPIED, also beside a NULL, and writes nothing: its pointer leads
   nowhere. Only of an office's opening the options, without which no number of handles is known, come first. */
static void astray_handles_are_told(void) {
    static const pelgaisti_session astray[2] = {{1, 0x55555555, (void *)1}, {2, 0x55555555, (void *)1}}, closed = PELGAISTI_EMPTY;
    static const char *const of_two[] = {"session_hear", "session_hand_in", "office_close", "session_look", "look_end"};
    unsigned char before[9][64];
    memset(pointed_to, 0x55, sizeof pointed_to);
    openings.sessions = 1;
    for (size_t which = 0; which < 4; which++) /* the first handle or the second; a view, too */
        for (size_t k = 0; k < COUNT(all_calls); k++) {
            const char *name = all_calls[k].name;
            const size_t place = which % 2;
            size_t n = 0;
            while (n < COUNT(of_two) && strcmp(name, of_two[n])) n++;
            if (place == 1 && n == COUNT(of_two)) continue;
            memcpy(pointed_to[0], place == 0 ? &astray[which / 2] : &closed, sizeof closed);
            memcpy(pointed_to[1], place == 1 ? &astray[which / 2] : &closed, sizeof closed);
            memcpy(before, pointed_to, sizeof before);
            for (size_t off = 0; off <= strlen(all_calls[k].arguments); off++) {
                if (off == place || (off == 1 && !strcmp(name, "office_open"))) continue;
                if (status_with(k, off, 1) != PELGAISTI_COPIED) printf("%s, %d: ", name, (int)off);
                CHECK(status_with(k, off, 1) == PELGAISTI_COPIED && !memcmp(before, pointed_to, sizeof before));
            }
        }
}

/* A copy of a handle, and one that was moved, are told, before and after the handle itself is closed; moved back it is used again. */
static void copies_are_told(void) {
    const pelgaisti_call begin = call_of(PELGAISTI_BEGIN, 0, 0, 0, 0);
    pelgaisti_session two[2] = {PELGAISTI_EMPTY, PELGAISTI_EMPTY}, copy, moved[3] = {PELGAISTI_EMPTY, PELGAISTI_EMPTY, PELGAISTI_EMPTY};
    pelgaisti_book book = PELGAISTI_EMPTY, other, closed = PELGAISTI_EMPTY;
    pelgaisti_reply reply = {77, 88};
    pelgaisti_answer answer = {99, {77, 88}};
    CHECK(open_sessions(two, 2) == PELGAISTI_OK);
    copy = two[1];
    CHECK(pelgaisti_session_perform(&copy, &begin, 9, &answer) == PELGAISTI_COPIED && answer.place == 99);
    CHECK(pelgaisti_session_hand_in(&copy, &two[0]) == PELGAISTI_COPIED && pelgaisti_session_hear(&two[0], &copy) == PELGAISTI_COPIED);
    CHECK(open_sessions(&copy, 1) == PELGAISTI_COPIED);
    /* an array of handles that was moved by one, as one that grows is */
    memcpy(&moved[1], two, sizeof two);
    memset(two, 0, sizeof two);
    CHECK(pelgaisti_session_perform(&moved[1], &begin, 9, &answer) == PELGAISTI_COPIED && answer.place == 99);
    CHECK(pelgaisti_session_hand_in(&moved[2], &moved[1]) == PELGAISTI_COPIED && pelgaisti_office_close(&moved[1], &book) == PELGAISTI_COPIED);
    CHECK(open_sessions(moved, 3) == PELGAISTI_COPIED);
    memcpy(two, &moved[1], sizeof two);
    CHECK(pelgaisti_session_perform(&two[1], &begin, 9, &answer) == PELGAISTI_OK && answer.reply.kind == PELGAISTI_BEGAN);
    CHECK(pelgaisti_session_hand_in(&two[1], &two[0]) == PELGAISTI_OK);
    CHECK(pelgaisti_session_retire(&copy) == PELGAISTI_COPIED && pelgaisti_session_hand_in(&copy, &two[0]) == PELGAISTI_COPIED);
    copy = two[0];
    CHECK(pelgaisti_office_close(&two[0], &book) == PELGAISTI_OK && pelgaisti_office_close(&copy, &closed) == PELGAISTI_COPIED);
    other = book;
    CHECK(pelgaisti_book_serve(&other, 1, &begin, &reply) == PELGAISTI_COPIED && reply.kind == 77);
    CHECK(pelgaisti_office_close(&two[0], &other) == PELGAISTI_COPIED);
    CHECK(pelgaisti_book_serve(&book, 1, &begin, &reply) == PELGAISTI_OK && reply.kind == PELGAISTI_BEGAN);
    CHECK(pelgaisti_book_close(&book) == PELGAISTI_OK && pelgaisti_book_close(&other) == PELGAISTI_COPIED);
}

/* Every bad argument of a book's calls gives its status, and then nothing is written. */
static void books_refuse(void) {
    pelgaisti_book book = PELGAISTI_EMPTY;
    pelgaisti_call begin = call_of(PELGAISTI_BEGIN, 0, 0, 0, 0), lock = call_of(PELGAISTI_LOCK, PELGAISTI_S, 1, 1, 0);
    pelgaisti_reply reply = {77, 88};
    pelgaisti_holder list[2] = {{5, 6}, {7, 8}};
    pelgaisti_entry entry;
    pelgaisti_program program = {PELGAISTI_BEGINS, 0, 0, {0, 0, {0, {0}}}};
    pelgaisti_program_answer answer;
    uint32_t mode = 99;
    size_t count = 99;
    uint64_t first = 99, length = 99;

    memset(&entry, 0x55, sizeof entry);
    CHECK(open_book(NULL, 3) == PELGAISTI_NULL);
    CHECK(open_book(&book, 0) == PELGAISTI_NO_SUCH_COUNT);
    CHECK(open_book(&book, PELGAISTI_MAX_SESSIONS + 1) == PELGAISTI_NO_SUCH_COUNT);
    CHECK(open_book(&book, 65537) == PELGAISTI_NO_SUCH_COUNT);
    CHECK(open_book(&book, UINT32_MAX) == PELGAISTI_NO_SUCH_COUNT);
    CHECK(book.is_open_ == 0 && book.at_ == NULL && book.look_ == NULL && pelgaisti_book_open(&book, NULL) == PELGAISTI_NULL);

    CHECK(pelgaisti_book_serve(&book, 1, &begin, &reply) == PELGAISTI_CLOSED);
    CHECK(pelgaisti_book_serve_batch(&book, &entry, 1, &count) == PELGAISTI_CLOSED);
    CHECK(pelgaisti_book_run(&book, 1, &program, &answer) == PELGAISTI_CLOSED);
    CHECK(pelgaisti_book_blockers(&book, 1, NULL, 0, &count) == PELGAISTI_CLOSED);
    CHECK(pelgaisti_book_held(&book, 1, &lock.resource, &mode) == PELGAISTI_CLOSED);
    CHECK(pelgaisti_book_holders(&book, &lock.resource, list, 2, &count) == PELGAISTI_CLOSED);
    CHECK(pelgaisti_book_length(&book, &first, &length) == PELGAISTI_CLOSED);
    CHECK(pelgaisti_book_history(&book, 0, &entry, 1, &count) == PELGAISTI_CLOSED);
    CHECK(pelgaisti_book_keep_at_most(&book, 1) == PELGAISTI_CLOSED);
    CHECK(pelgaisti_book_take_history(&book, &length, &entry, 1, &count) == PELGAISTI_CLOSED);
    CHECK(pelgaisti_book_close(&book) == PELGAISTI_CLOSED);
    CHECK(pelgaisti_book_close(NULL) == PELGAISTI_NULL);

    CHECK(open_book(&book, PELGAISTI_MAX_SESSIONS) == PELGAISTI_OK);
    CHECK(pelgaisti_book_close(&book) == PELGAISTI_OK);
    CHECK(pelgaisti_book_close(&book) == PELGAISTI_CLOSED);
    CHECK(open_book(&book, 3) == PELGAISTI_OK);
    CHECK(open_book(&book, 3) == PELGAISTI_OPEN);
    CHECK(open_book(&book, 0) == PELGAISTI_OPEN);

    for (size_t k = 0; k < COUNT(off_sessions); k++) {
        CHECK(pelgaisti_book_serve(&book, off_sessions[k], &begin, &reply) == PELGAISTI_NO_SUCH_SESSION);
        CHECK(pelgaisti_book_held(&book, off_sessions[k], &lock.resource, &mode) == PELGAISTI_NO_SUCH_SESSION);
    }
    for (size_t k = 0; k < COUNT(off_ops); k++) {
        pelgaisti_call off = call_of(off_ops[k], PELGAISTI_S, 1, 1, 0);
        CHECK(pelgaisti_book_serve(&book, 1, &off, &reply) == PELGAISTI_NO_SUCH_OP);
        CHECK(pelgaisti_book_serve(&book, 9, &off, &reply) == PELGAISTI_NO_SUCH_SESSION);
    }
    for (size_t k = 0; k < COUNT(off_levels); k++) {
        pelgaisti_call lock_off = call_of(PELGAISTI_LOCK, PELGAISTI_S, off_levels[k], 1, 0);
        pelgaisti_call convert_off = call_of(PELGAISTI_CONVERT, 2, off_levels[k], 1, 0);
        pelgaisti_call release_off = call_of(PELGAISTI_RELEASE, 0, off_levels[k], 1, 0);
        pelgaisti_call try_off = call_of(PELGAISTI_TRY, 2, off_levels[k], 1, 0);
        CHECK(pelgaisti_book_serve(&book, 1, &lock_off, &reply) == PELGAISTI_NO_SUCH_LEVEL);
        CHECK(pelgaisti_book_serve(&book, 1, &convert_off, &reply) == PELGAISTI_NO_SUCH_LEVEL);
        CHECK(pelgaisti_book_serve(&book, 1, &release_off, &reply) == PELGAISTI_NO_SUCH_LEVEL);
        CHECK(pelgaisti_book_serve(&book, 1, &try_off, &reply) == PELGAISTI_NO_SUCH_LEVEL);
        CHECK(pelgaisti_book_held(&book, 1, &lock_off.resource, &mode) == PELGAISTI_NO_SUCH_LEVEL);
        CHECK(pelgaisti_book_holders(&book, &lock_off.resource, list, 2, &count) == PELGAISTI_NO_SUCH_LEVEL);
    }
    for (size_t k = 0; k < COUNT(off_modes); k++) {
        pelgaisti_call lock_off = call_of(PELGAISTI_LOCK, off_modes[k], 1, 1, 0);
        pelgaisti_call convert_off = call_of(PELGAISTI_CONVERT, off_modes[k], 4, 1, 0);
        pelgaisti_call try_off = call_of(PELGAISTI_TRY, off_modes[k], 5, 1, 0);
        CHECK(pelgaisti_book_serve(&book, 1, &lock_off, &reply) == PELGAISTI_NO_SUCH_MODE);
        CHECK(pelgaisti_book_serve(&book, 1, &convert_off, &reply) == PELGAISTI_NO_SUCH_MODE);
        CHECK(pelgaisti_book_serve(&book, 1, &try_off, &reply) == PELGAISTI_NO_SUCH_MODE);
    }
    CHECK(pelgaisti_book_serve(NULL, 1, &begin, &reply) == PELGAISTI_NULL);
    CHECK(pelgaisti_book_serve(&book, 1, NULL, &reply) == PELGAISTI_NULL);
    CHECK(pelgaisti_book_serve(&book, 1, &begin, NULL) == PELGAISTI_NULL);
    CHECK(pelgaisti_book_held(NULL, 1, &lock.resource, &mode) == PELGAISTI_NULL);
    CHECK(pelgaisti_book_held(&book, 1, NULL, &mode) == PELGAISTI_NULL);
    CHECK(pelgaisti_book_held(&book, 1, &lock.resource, NULL) == PELGAISTI_NULL);
    CHECK(pelgaisti_book_holders(NULL, &lock.resource, list, 2, &count) == PELGAISTI_NULL);
    CHECK(pelgaisti_book_holders(&book, NULL, list, 2, &count) == PELGAISTI_NULL);
    CHECK(pelgaisti_book_holders(&book, &lock.resource, NULL, 2, &count) == PELGAISTI_NULL);
    CHECK(pelgaisti_book_holders(&book, &lock.resource, list, 2, NULL) == PELGAISTI_NULL);
    CHECK(pelgaisti_book_serve_batch(NULL, &entry, 1, &count) == PELGAISTI_NULL);
    CHECK(pelgaisti_book_serve_batch(&book, NULL, 1, &count) == PELGAISTI_NULL);
    CHECK(pelgaisti_book_serve_batch(&book, &entry, 1, NULL) == PELGAISTI_NULL);
    CHECK(pelgaisti_book_length(NULL, &first, &length) == PELGAISTI_NULL);
    CHECK(pelgaisti_book_length(&book, NULL, &length) == PELGAISTI_NULL && pelgaisti_book_length(&book, &first, NULL) == PELGAISTI_NULL);
    CHECK(pelgaisti_book_history(NULL, 0, &entry, 1, &count) == PELGAISTI_NULL);
    CHECK(pelgaisti_book_history(&book, 0, NULL, 1, &count) == PELGAISTI_NULL);
    CHECK(pelgaisti_book_history(&book, 0, &entry, 1, NULL) == PELGAISTI_NULL);
    CHECK(pelgaisti_book_keep_at_most(NULL, 1) == PELGAISTI_NULL);
    CHECK(pelgaisti_book_take_history(NULL, &length, &entry, 1, &count) == PELGAISTI_NULL);
    CHECK(pelgaisti_book_take_history(&book, NULL, &entry, 1, &count) == PELGAISTI_NULL);
    CHECK(pelgaisti_book_take_history(&book, &length, NULL, 1, &count) == PELGAISTI_NULL);
    CHECK(pelgaisti_book_take_history(&book, &length, &entry, 1, NULL) == PELGAISTI_NULL);

    CHECK(reply.kind == 77 && reply.value == 88 && mode == 99 && count == 99 && first == 99 && length == 99);
    CHECK(list[0].session == 5 && list[0].mode == 6 && list[1].session == 7 && list[1].mode == 8);
    CHECK(entry.session == 0x55555555 && entry.reply.kind == 0x55555555);
    CHECK(length_of(&book, &length) == PELGAISTI_OK && length == 0);
    CHECK(pelgaisti_book_close(&book) == PELGAISTI_OK);
}

/* Replies, modes held, holders and slices of the history, against values worked out by hand from the locking rules. */
static void books_serve(void) {
    pelgaisti_book book = PELGAISTI_EMPTY;
    pelgaisti_reply reply;
    pelgaisti_holder list[4];
    pelgaisti_entry entries[4];
    uint32_t mode = 99;
    size_t count = 99;
    uint64_t length = 99;
    pelgaisti_call begin = call_of(PELGAISTI_BEGIN, 0, 0, 0, 0), abort_all = call_of(PELGAISTI_ABORT, 0, 0, 0, 0);
    pelgaisti_call intend = call_of(PELGAISTI_LOCK, PELGAISTI_IX, 1, 1, 0), write = call_of(PELGAISTI_LOCK, PELGAISTI_X, 2, 1, 7);
    pelgaisti_call release = call_of(PELGAISTI_RELEASE, 0, 1, 1, 0);
    pelgaisti_resource elsewhere = {4, {1, 2, 3, UINT32_MAX}};

    CHECK(open_book(&book, 3) == PELGAISTI_OK);
    for (uint32_t s = 1; s <= 3; s++) {
        CHECK(pelgaisti_book_serve(&book, s, &begin, &reply) == PELGAISTI_OK);
        CHECK(reply.kind == PELGAISTI_BEGAN && reply.value == s);
        CHECK(pelgaisti_book_serve(&book, s, &intend, &reply) == PELGAISTI_OK);
        CHECK(reply.kind == PELGAISTI_GRANTED && reply.value == PELGAISTI_IX);
    }
    CHECK(pelgaisti_book_serve(&book, 2, &write, &reply) == PELGAISTI_OK && reply.kind == PELGAISTI_GRANTED && reply.value == PELGAISTI_X);
    CHECK(pelgaisti_book_serve(&book, 2, &release, &reply) == PELGAISTI_OK);
    CHECK(reply.kind == PELGAISTI_REFUSED && reply.value == PELGAISTI_CHILD_HELD);
    CHECK(pelgaisti_book_held(&book, 2, &write.resource, &mode) == PELGAISTI_OK && mode == PELGAISTI_X);
    CHECK(pelgaisti_book_held(&book, 1, &write.resource, &mode) == PELGAISTI_OK && mode == PELGAISTI_NL);
    CHECK(pelgaisti_book_held(&book, 3, &elsewhere, &mode) == PELGAISTI_OK && mode == PELGAISTI_NL);

    memset(list, 0x55, sizeof list);
    CHECK(pelgaisti_book_holders(&book, &intend.resource, list, 2, &count) == PELGAISTI_OK && count == 3);
    CHECK(list[0].session == 1 && list[0].mode == PELGAISTI_IX && list[1].session == 2 && list[1].mode == PELGAISTI_IX);
    CHECK(list[2].session == 0x55555555);
    CHECK(pelgaisti_book_holders(&book, &intend.resource, list, 4, &count) == PELGAISTI_OK && count == 3);
    CHECK(list[2].session == 3 && list[3].session == 0x55555555);
    CHECK(pelgaisti_book_holders(&book, &intend.resource, NULL, 0, &count) == PELGAISTI_OK && count == 3);
    CHECK(pelgaisti_book_holders(&book, &elsewhere, list, 4, &count) == PELGAISTI_OK && count == 0);

    CHECK(pelgaisti_book_serve(&book, 2, &abort_all, &reply) == PELGAISTI_OK && reply.kind == PELGAISTI_ABORTED && reply.value == 2);
    CHECK(length_of(&book, &length) == PELGAISTI_OK && length == 9);
    memset(entries, 0x55, sizeof entries);
    CHECK(pelgaisti_book_history(&book, 5, entries, 3, &count) == PELGAISTI_OK && count == 3);
    CHECK(entries[0].session == 3 && entries[0].call.op == PELGAISTI_LOCK && entries[0].call.mode == PELGAISTI_IX);
    CHECK(entries[0].call.resource.level == 1 && entries[0].call.resource.numbers[0] == 1 && entries[0].call.resource.numbers[1] == 0);
    CHECK(entries[1].session == 2 && entries[1].call.op == PELGAISTI_LOCK && entries[1].call.resource.level == 2);
    CHECK(entries[1].call.resource.numbers[1] == 7 && entries[1].reply.kind == PELGAISTI_GRANTED && entries[1].reply.value == PELGAISTI_X);
    CHECK(entries[2].call.op == PELGAISTI_RELEASE && entries[2].call.mode == 0 && entries[2].reply.kind == PELGAISTI_REFUSED);
    CHECK(entries[3].session == 0x55555555);
    CHECK(pelgaisti_book_history(&book, 8, entries, 4, &count) == PELGAISTI_OK && count == 1);
    CHECK(entries[0].call.op == PELGAISTI_ABORT && entries[0].call.resource.level == 0 && entries[1].call.op == PELGAISTI_LOCK);
    CHECK(pelgaisti_book_history(&book, 9, entries, 4, &count) == PELGAISTI_OK && count == 0);
    CHECK(pelgaisti_book_history(&book, UINT64_MAX, entries, 4, &count) == PELGAISTI_OK && count == 0);
    CHECK(pelgaisti_book_history(&book, 0, NULL, 0, &count) == PELGAISTI_OK && count == 0);
    CHECK(pelgaisti_book_close(&book) == PELGAISTI_OK);
}

/* Entries of the history are taken, let go by a bound, and told as such; replies are as without. */
static void history_is_let_go(void) {
    pelgaisti_book book = PELGAISTI_EMPTY;
    pelgaisti_reply reply;
    pelgaisti_entry entries[4];
    size_t count = 99;
    uint64_t first = 99, length = 99;
    pelgaisti_call begin = call_of(PELGAISTI_BEGIN, 0, 0, 0, 0), poll = call_of(PELGAISTI_POLL, 0, 0, 0, 0);
    pelgaisti_call write = call_of(PELGAISTI_LOCK, PELGAISTI_X, 1, 7, 0), commit = call_of(PELGAISTI_COMMIT, 0, 0, 0, 0);

    CHECK(open_book(&book, 2) == PELGAISTI_OK);
    CHECK(first_kept_of(&book, &first) == PELGAISTI_OK && first == 0);
    for (uint32_t s = 1; s <= 2; s++) {
        CHECK(pelgaisti_book_serve(&book, s, &begin, &reply) == PELGAISTI_OK);
        CHECK(pelgaisti_book_serve(&book, s, &write, &reply) == PELGAISTI_OK);
        CHECK(reply.kind == (s == 1 ? (uint32_t)PELGAISTI_GRANTED : (uint32_t)PELGAISTI_WAITING));
    }
    /* the two oldest are taken */
    memset(entries, 0x55, sizeof entries);
    CHECK(pelgaisti_book_take_history(&book, &first, entries, 2, &count) == PELGAISTI_OK && first == 0 && count == 2);
    CHECK(entries[0].session == 1 && entries[0].call.op == PELGAISTI_BEGIN && entries[0].reply.value == 1);
    CHECK(entries[1].session == 1 && entries[1].call.op == PELGAISTI_LOCK && entries[1].reply.kind == PELGAISTI_GRANTED);
    CHECK(entries[2].session == 0x55555555);
    CHECK(first_kept_of(&book, &first) == PELGAISTI_OK && first == 2);
    CHECK(length_of(&book, &length) == PELGAISTI_OK && length == 4);
    CHECK(pelgaisti_book_history(&book, 1, entries, 4, &count) == PELGAISTI_LET_GO && count == 2);
    CHECK(pelgaisti_book_history(&book, 2, entries, 4, &count) == PELGAISTI_OK && count == 2);
    CHECK(entries[0].session == 2 && entries[0].call.op == PELGAISTI_BEGIN && entries[1].reply.kind == PELGAISTI_WAITING);
    /* one is kept at most */
    CHECK(pelgaisti_book_keep_at_most(&book, 1) == PELGAISTI_OK);
    CHECK(first_kept_of(&book, &first) == PELGAISTI_OK && first == 3);
    CHECK(pelgaisti_book_serve(&book, 1, &commit, &reply) == PELGAISTI_OK && reply.kind == PELGAISTI_COMMITTED && reply.value == 1);
    CHECK(first_kept_of(&book, &first) == PELGAISTI_OK && first == 4);
    CHECK(pelgaisti_book_serve(&book, 2, &poll, &reply) == PELGAISTI_OK && reply.kind == PELGAISTI_CLEAR);
    CHECK(pelgaisti_book_history(&book, 4, entries, 4, &count) == PELGAISTI_LET_GO);
    CHECK(pelgaisti_book_history(&book, 5, entries, 4, &count) == PELGAISTI_OK && count == 1 && entries[0].call.op == PELGAISTI_POLL);
    /* without a bound, what was let go stays so */
    CHECK(pelgaisti_book_keep_at_most(&book, UINT64_MAX) == PELGAISTI_OK);
    CHECK(pelgaisti_book_serve(&book, 2, &poll, &reply) == PELGAISTI_OK);
    CHECK(first_kept_of(&book, &first) == PELGAISTI_OK && first == 5);
    CHECK(pelgaisti_book_take_history(&book, &first, NULL, 0, &count) == PELGAISTI_OK && first == 5 && count == 0);
    CHECK(pelgaisti_book_take_history(&book, &first, entries, 4, &count) == PELGAISTI_OK && first == 5 && count == 2);
    CHECK(pelgaisti_book_take_history(&book, &first, entries, 4, &count) == PELGAISTI_OK && first == 7 && count == 0);
    /* none is kept */
    CHECK(pelgaisti_book_keep_at_most(&book, 0) == PELGAISTI_OK);
    CHECK(pelgaisti_book_serve(&book, 2, &commit, &reply) == PELGAISTI_OK && reply.kind == PELGAISTI_COMMITTED && reply.value == 1);
    CHECK(first_kept_of(&book, &first) == PELGAISTI_OK && first == 8);
    CHECK(length_of(&book, &length) == PELGAISTI_OK && length == 8);
    CHECK(pelgaisti_book_close(&book) == PELGAISTI_OK);
}

/* A path of the greatest level is locked level by level, and the library is of the header's version. */
static void levels_are_locked(void) {
    pelgaisti_call begin = call_of(PELGAISTI_BEGIN, 0, 0, 0, 0), commit = call_of(PELGAISTI_COMMIT, 0, 0, 0, 0);
    pelgaisti_call lock = call_of(PELGAISTI_LOCK, PELGAISTI_IX, 1, 1, 2);
    pelgaisti_book book = PELGAISTI_EMPTY;
    pelgaisti_entry entries[7];
    pelgaisti_reply reply;
    size_t count = 0;
    uint32_t mode = 99;

    CHECK(pelgaisti_version() == PELGAISTI_HEADER_VERSION && PELGAISTI_HEADER_VERSION == 6);
    CHECK(PELGAISTI_LEVELS == 5 && sizeof lock.resource.numbers == 20);
    CHECK(open_book(&book, 1024) == PELGAISTI_OK);
    CHECK(pelgaisti_book_serve(&book, 1024, &begin, &reply) == PELGAISTI_OK && reply.kind == PELGAISTI_BEGAN);
    lock.resource.numbers[2] = 3;
    lock.resource.numbers[3] = 4;
    lock.resource.numbers[4] = 5;
    for (uint32_t level = 1; level <= 5; level++) {
        lock.resource.level = level;
        if (level == 5) lock.mode = PELGAISTI_X;
        CHECK(pelgaisti_book_serve(&book, 1024, &lock, &reply) == PELGAISTI_OK);
        CHECK(reply.kind == PELGAISTI_GRANTED && reply.value == lock.mode);
    }
    CHECK(pelgaisti_book_held(&book, 1024, &lock.resource, &mode) == PELGAISTI_OK && mode == PELGAISTI_X);
    lock.resource.numbers[4] = 6;
    CHECK(pelgaisti_book_held(&book, 1024, &lock.resource, &mode) == PELGAISTI_OK && mode == PELGAISTI_NL);
    CHECK(pelgaisti_book_serve(&book, 1024, &commit, &reply) == PELGAISTI_OK && reply.kind == PELGAISTI_COMMITTED && reply.value == 5);
    CHECK(pelgaisti_book_history(&book, 0, entries, 7, &count) == PELGAISTI_OK && count == 7);
    CHECK(entries[4].call.resource.level == 4 && entries[4].call.resource.numbers[3] == 4 && entries[4].call.resource.numbers[4] == 0);
    CHECK(entries[5].call.resource.level == 5 && entries[5].call.resource.numbers[4] == 5 && entries[5].session == 1024);
    CHECK(pelgaisti_book_close(&book) == PELGAISTI_OK);
}

/* Whether a struct that is returned is seen: MemorySanitizer isn't told of it. */
#if defined(__has_feature)
#if __has_feature(memory_sanitizer)
#define IS_SEEN 0
#endif
#endif
#ifndef IS_SEEN
#define IS_SEEN 1
#endif

/* The calls are functions: compound literals as arguments, pointers to them, and what they return. */
static void calls_are_functions(void) {
    pelgaisti_status (*serve)(pelgaisti_book *, uint32_t, const pelgaisti_call *, pelgaisti_reply *) = pelgaisti_book_serve;
    pelgaisti_status (*open_office)(pelgaisti_session *, const pelgaisti_options *) = pelgaisti_office_open;
    const pelgaisti_options defaults = PELGAISTI_OPTIONS(1), options = IS_SEEN ? pelgaisti_default_options(1) : defaults;
    pelgaisti_book book = PELGAISTI_EMPTY;
    pelgaisti_session session = PELGAISTI_EMPTY;
    pelgaisti_reply reply = {77, 88};

    CHECK(!memcmp(&defaults, &options, sizeof options) && options.sessions == 1 && options.pass_calls == 64 && options.pass_locks == 4096);
    CHECK(options.pass_rounds == 4 && options.keep == 1024 && options.deadlocks == 0 && options.seed == 0 && !options.waker);
    CHECK(pelgaisti_book_open(&book, &options) == PELGAISTI_OK);
#ifndef __cplusplus
    CHECK(pelgaisti_book_serve(&book, 1, &(pelgaisti_call){PELGAISTI_BEGIN, 0, {0, {0}}}, &reply) == PELGAISTI_OK);
#else
    pelgaisti_call begin = {PELGAISTI_BEGIN, 0, {0, {0}}};
    CHECK(pelgaisti_book_serve(&book, 1, &begin, &reply) == PELGAISTI_OK);
#endif
    CHECK(reply.kind == PELGAISTI_BEGAN && reply.value == 1);
    CHECK(serve(&book, 1, NULL, &reply) == PELGAISTI_NULL);
    CHECK(open_office(&session, &options) == PELGAISTI_OK && open_office(NULL, &options) == PELGAISTI_NULL);
    CHECK(pelgaisti_book_close(&book) == PELGAISTI_OK);
    CHECK(pelgaisti_office_close(&session, &book) == PELGAISTI_OK && pelgaisti_book_close(&book) == PELGAISTI_OK);
}

/* Each number has its name, and every other number is unknown. */
static void numbers_have_names(void) {
    static const char *const statuses[] = {"OK", "NO_MEMORY", "CLOSED", "NO_SUCH_SESSION", "NO_SUCH_OP", "NO_SUCH_LEVEL",
                                           "NO_SUCH_MODE", "OPEN", "NO_SUCH_COUNT", "PENDING", "NOTHING_PENDING", "NOT_SERVED",
                                           "RETIRED", "ELSEWHERE", "OTHER_OFFICE", "MISSING", "COPIED", "NULL", "SAME", "LET_GO",
                                           "unknown", "NO_SUCH_START", "NOT_ON_PATH", "NO_SUCH_ABOVE", "unknown", "VICTIM", "TIMED_OUT",
                                           "DENIED", "LOOKS", "NOT_A_LOOK"};
    static const char *const modes[] = {"NL", "IS", "unknown", "IX", "unknown", "S", "unknown", "SIX", "unknown", "unknown",
                                        "unknown", "unknown", "unknown", "U", "unknown", "X", "unknown"};
    static const char *const ops[] = {"unknown", "begin", "lock", "convert", "poll", "release", "commit", "abort", "try", "withdraw",
                                      "restart", "unknown"};
    static const char *const replies[] = {"unknown", "began", "granted", "waiting", "deadlock", "clear", "released", "committed",
                                          "aborted", "refused", "withdrawn", "restarted", "unknown"};
    static const char *const refusals[] = {"unknown", "AlreadyOpen", "NoTransaction", "IsWaiting", "IsDoomed", "NothingAsked",
                                           "NotHeld", "ParentNotHeld", "ChildHeld", "TooManyLocks", "unknown", "WouldWait",
                                           "NotWaiting", "unknown"};
    static const uint64_t off[] = {30, 255, 256, 65536, UINT32_MAX, (uint64_t)1 << 32, ((uint64_t)1 << 32) + 1, UINT64_MAX};

    for (size_t k = 0; k < COUNT(statuses); k++) CHECK(!strcmp(pelgaisti_status_name(k), statuses[k]));
    for (size_t k = 0; k < COUNT(modes); k++) CHECK(!strcmp(pelgaisti_mode_name(k), modes[k]));
    for (size_t k = 0; k < COUNT(ops); k++) CHECK(!strcmp(pelgaisti_op_name(k), ops[k]));
    for (size_t k = 0; k < COUNT(replies); k++) CHECK(!strcmp(pelgaisti_reply_name(k), replies[k]));
    for (size_t k = 0; k < COUNT(refusals); k++) CHECK(!strcmp(pelgaisti_refusal_name(k), refusals[k]));
    for (size_t k = 0; k < COUNT(off); k++)
        CHECK(!strcmp(pelgaisti_status_name(off[k]), "unknown") && !strcmp(pelgaisti_mode_name(off[k]), "unknown") &&
              !strcmp(pelgaisti_op_name(off[k]), "unknown") && !strcmp(pelgaisti_reply_name(off[k]), "unknown") &&
              !strcmp(pelgaisti_refusal_name(off[k]), "unknown"));
    CHECK(!strcmp(pelgaisti_status_name(PELGAISTI_LET_GO), "LET_GO") && !strcmp(pelgaisti_mode_name(PELGAISTI_U), "U"));
}

/* Batches: replies and entries as of calls one after another, none if one is no call, and locks of several sessions together. */
static void batches_are_served(void) {
    pelgaisti_book book = PELGAISTI_EMPTY;
    pelgaisti_entry items[6], history[8];
    size_t count = 99;
    uint64_t length = 99;
    pelgaisti_call write = call_of(PELGAISTI_LOCK, PELGAISTI_X, 1, 7, 9), read = call_of(PELGAISTI_LOCK, PELGAISTI_S, 1, 7, 9);

    CHECK(open_book(&book, 3) == PELGAISTI_OK);
    memset(items, 0x55, sizeof items);
    for (uint32_t k = 0; k < 6; k++) {
        items[k].session = 1 + k % 3;
        items[k].call = k < 3 ? call_of(PELGAISTI_BEGIN, 77, 88, 5, 6) : read;
    }
    /* the fifth is none, and so is the sixth: the first of them is told, and nothing is served */
    items[4].call.mode = 2;
    items[5].session = 4;
    CHECK(pelgaisti_book_serve_batch(&book, items, 6, &count) == PELGAISTI_NO_SUCH_MODE && count == 99);
    items[4].call.resource.level = 6;
    CHECK(pelgaisti_book_serve_batch(&book, items, 6, &count) == PELGAISTI_NO_SUCH_LEVEL);
    items[4].call.op = 11;
    CHECK(pelgaisti_book_serve_batch(&book, items, 6, &count) == PELGAISTI_NO_SUCH_OP);
    items[4].session = 0;
    CHECK(pelgaisti_book_serve_batch(&book, items, 6, &count) == PELGAISTI_NO_SUCH_SESSION);
    CHECK(length_of(&book, &length) == PELGAISTI_OK && length == 0 && items[0].reply.kind == 0x55555555);
    items[4].session = 2;
    items[5].session = 3;
    items[4].call = write;
    items[5].call = read;
    CHECK(pelgaisti_book_serve_batch(&book, items, 6, &count) == PELGAISTI_OK && count == 6);
    for (uint32_t k = 0; k < 3; k++) CHECK(items[k].reply.kind == PELGAISTI_BEGAN && items[k].reply.value == k + 1);
    CHECK(items[3].reply.kind == PELGAISTI_GRANTED && items[3].reply.value == PELGAISTI_S);
    CHECK(items[4].reply.kind == PELGAISTI_WAITING && items[5].reply.kind == PELGAISTI_WAITING);
    CHECK(pelgaisti_book_history(&book, 0, history, 8, &count) == PELGAISTI_OK && count == 6);
    for (uint32_t k = 0; k < 6; k++) {
        CHECK(items[k].session == history[k].session && items[k].call.op == history[k].call.op);
        CHECK(items[k].call.mode == history[k].call.mode && items[k].reply.value == history[k].reply.value);
        CHECK(!memcmp(&items[k].call.resource, &history[k].call.resource, sizeof history[k].call.resource));
    }
    CHECK(items[0].call.mode == 0 && items[0].call.resource.level == 0 && items[3].call.resource.numbers[1] == 0);
    /* who waits for whom: 2 for 1, 3 for 2 ahead of it */
    uint32_t blockers[2] = {77, 88};
    CHECK(pelgaisti_book_blockers(&book, 1, blockers, 2, &count) == PELGAISTI_OK && count == 0 && blockers[0] == 77);
    CHECK(pelgaisti_book_blockers(&book, 3, blockers, 2, &count) == PELGAISTI_OK && count == 1 && blockers[0] == 2 && blockers[1] == 88);
    CHECK(pelgaisti_book_blockers(&book, 2, NULL, 0, &count) == PELGAISTI_OK && count == 1);
    blockers[0] = 77;
    CHECK(pelgaisti_book_blockers(&book, 2, blockers, 2, &count) == PELGAISTI_OK && count == 1 && blockers[0] == 1 && blockers[1] == 88);
    CHECK(pelgaisti_book_blockers(&book, 4, blockers, 2, &count) == PELGAISTI_NO_SUCH_SESSION && count == 1);
    CHECK(pelgaisti_book_blockers(NULL, 1, blockers, 2, &count) == PELGAISTI_NULL);
    CHECK(pelgaisti_book_blockers(&book, 1, NULL, 2, &count) == PELGAISTI_NULL);
    CHECK(pelgaisti_book_blockers(&book, 1, blockers, 2, NULL) == PELGAISTI_NULL);
    for (uint32_t k = 0; k < 2; k++) {
        items[k].session = k + 1;
        items[k].call = call_of(PELGAISTI_ABORT, 0, 0, 0, 0);
    }
    CHECK(pelgaisti_book_serve_batch(&book, items, 2, &count) == PELGAISTI_OK && count == 2);
    CHECK(items[0].reply.value == 1 && items[1].reply.kind == PELGAISTI_ABORTED);
    CHECK(pelgaisti_book_serve_batch(&book, NULL, 0, &count) == PELGAISTI_OK && count == 0);
    CHECK(length_of(&book, &length) == PELGAISTI_OK && length == 8);
    CHECK(pelgaisti_book_close(&book) == PELGAISTI_OK);
}

/* Locks a path by a program, from behind `level` levels on, which it raises by 1 for each that is granted. Returns the last reply. */
static pelgaisti_reply lock_path(pelgaisti_book *book, uint32_t session, const pelgaisti_resource *path, uint32_t mode, uint32_t *level) {
    const pelgaisti_program program = {PELGAISTI_NOTHING, *level, pelgaisti_parent_mode(mode), {PELGAISTI_LOCK, mode, *path}};
    pelgaisti_program_answer answer;
    CHECK(pelgaisti_book_run(book, session, &program, &answer) == PELGAISTI_OK && answer.served > 0);
    *level += answer.served - (answer.stop != 0);
    read_replies(&program, &answer);
    return told[answer.served - 1];
}

/* A path in each mode: the modes held on it afterwards; where it stops, and how it goes on. */
static void paths_are_locked(void) {
    static const uint32_t modes[6][2] = {{PELGAISTI_IS, PELGAISTI_IS}, {PELGAISTI_S, PELGAISTI_IS},   {PELGAISTI_IX, PELGAISTI_IX},
                                         {PELGAISTI_U, PELGAISTI_IX},  {PELGAISTI_SIX, PELGAISTI_IX}, {PELGAISTI_X, PELGAISTI_IX}};
    pelgaisti_call begin = call_of(PELGAISTI_BEGIN, 0, 0, 0, 0), commit = call_of(PELGAISTI_COMMIT, 0, 0, 0, 0);
    pelgaisti_call poll = call_of(PELGAISTI_POLL, 0, 0, 0, 0);
    pelgaisti_session two[2] = {PELGAISTI_EMPTY, PELGAISTI_EMPTY};
    pelgaisti_book book = PELGAISTI_EMPTY;
    pelgaisti_answer answer;
    pelgaisti_reply reply;
    uint32_t mode = 99, level;
    uint64_t length = 0;

    CHECK(open_book(&book, 2) == PELGAISTI_OK);
    for (size_t m = 0; m < COUNT(modes); m++)
        for (uint32_t depth = 1; depth <= PELGAISTI_LEVELS; depth++) {
            pelgaisti_resource path = {depth, {1, 2, 3, 4, 5}};
            level = 0;
            CHECK(pelgaisti_parent_mode(modes[m][0]) == modes[m][1]);
            CHECK(pelgaisti_book_serve(&book, 1, &begin, &reply) == PELGAISTI_OK);
            reply = lock_path(&book, 1, &path, modes[m][0], &level);
            CHECK(level == depth);
            CHECK(reply.kind == PELGAISTI_GRANTED && reply.value == modes[m][0]);
            for (path.level = 1; path.level <= depth; path.level++)
                CHECK(pelgaisti_book_held(&book, 1, &path, &mode) == PELGAISTI_OK && mode == modes[m][path.level < depth]);
            CHECK(pelgaisti_book_serve(&book, 1, &commit, &reply) == PELGAISTI_OK && reply.value == depth);
        }
    CHECK(pelgaisti_parent_mode(PELGAISTI_NL) == PELGAISTI_NL && pelgaisti_parent_mode(2) == 2);
    /* NL is refused at once, and so is a path without a transaction */
    pelgaisti_resource path = {3, {1, 2, 3, 0, 0}};
    level = 0;
    reply = lock_path(&book, 1, &path, PELGAISTI_X, &level);
    CHECK(level == 0);
    CHECK(reply.kind == PELGAISTI_REFUSED && reply.value == PELGAISTI_NO_TRANSACTION);
    for (uint32_t s = 1; s <= 2; s++) CHECK(pelgaisti_book_serve(&book, s, &begin, &reply) == PELGAISTI_OK);
    reply = lock_path(&book, 1, &path, PELGAISTI_NL, &level);
    CHECK(level == 0);
    CHECK(reply.kind == PELGAISTI_REFUSED && reply.value == PELGAISTI_NOTHING_ASKED);
    /* session 1 reads the file, so that the path of session 2 waits there, and goes on once it is granted */
    path.level = 2;
    reply = lock_path(&book, 1, &path, PELGAISTI_S, &level);
    CHECK(level == 2);
    path.level = 3;
    level = 0;
    reply = lock_path(&book, 2, &path, PELGAISTI_X, &level);
    CHECK(level == 1);
    CHECK(reply.kind == PELGAISTI_WAITING);
    reply = lock_path(&book, 2, &path, PELGAISTI_X, &level);
    CHECK(level == 1);
    CHECK(reply.kind == PELGAISTI_REFUSED && reply.value == PELGAISTI_IS_WAITING);
    CHECK(pelgaisti_book_serve(&book, 1, &commit, &reply) == PELGAISTI_OK);
    CHECK(pelgaisti_book_serve(&book, 2, &poll, &reply) == PELGAISTI_OK && reply.kind == PELGAISTI_CLEAR);
    reply = lock_path(&book, 2, &path, PELGAISTI_X, &level);
    CHECK(level == 3);
    CHECK(reply.kind == PELGAISTI_GRANTED && reply.value == PELGAISTI_X);
    CHECK(pelgaisti_book_serve(&book, 2, &commit, &reply) == PELGAISTI_OK && reply.value == 3);
    /* what is held after a conversion that waited is told by the same lock again */
    for (uint32_t s = 1; s <= 2; s++) {
        pelgaisti_call share = call_of(PELGAISTI_LOCK, PELGAISTI_S, 1, 1, 0);
        CHECK(pelgaisti_book_serve(&book, s, &begin, &reply) == PELGAISTI_OK);
        CHECK(pelgaisti_book_serve(&book, s, &share, &reply) == PELGAISTI_OK && reply.kind == PELGAISTI_GRANTED);
    }
    pelgaisti_call raise = call_of(PELGAISTI_LOCK, PELGAISTI_IX, 1, 1, 0);
    CHECK(pelgaisti_book_serve(&book, 1, &raise, &reply) == PELGAISTI_OK && reply.kind == PELGAISTI_WAITING);
    CHECK(pelgaisti_book_serve(&book, 2, &commit, &reply) == PELGAISTI_OK);
    CHECK(pelgaisti_book_serve(&book, 1, &poll, &reply) == PELGAISTI_OK && reply.kind == PELGAISTI_CLEAR && reply.value == 0);
    CHECK(pelgaisti_book_held(&book, 1, &raise.resource, &mode) == PELGAISTI_OK && mode == PELGAISTI_SIX);
    CHECK(pelgaisti_book_serve(&book, 1, &raise, &reply) == PELGAISTI_OK);
    CHECK(reply.kind == PELGAISTI_GRANTED && reply.value == PELGAISTI_SIX);
    CHECK(pelgaisti_book_close(&book) == PELGAISTI_OK);

    /* an office with a bound keeps the newest entries */
    CHECK(open_office_with(NULL, 1, 2, NULL, 0) == PELGAISTI_NULL);
    CHECK(open_office_with(two, 0, 2, NULL, 0) == PELGAISTI_NO_SUCH_COUNT);
    CHECK(open_office_with(two, 1, 2, NULL, 0) == PELGAISTI_OK);
    CHECK(open_office_with(two, 1, 2, NULL, 0) == PELGAISTI_OPEN);
    for (size_t k = 0; k < 9; k++) CHECK(pelgaisti_session_perform(&two[0], &poll, 1, &answer) == PELGAISTI_OK && answer.place == k);
    CHECK(pelgaisti_office_close(&two[0], &book) == PELGAISTI_OK);
    CHECK(length_of(&book, &length) == PELGAISTI_OK && length == 9);
    CHECK(first_kept_of(&book, &length) == PELGAISTI_OK && length == 7);
    CHECK(pelgaisti_book_close(&book) == PELGAISTI_OK);
}

/* Every two modes: whether the first is granted to session 2 beside the second of session 1, and what session 1 holds after a
   request for the first. The tables are typed by hand, with the modes by rising code. */
static void modes_meet(void) {
    static const uint32_t modes[7] = {PELGAISTI_NL, PELGAISTI_IS, PELGAISTI_IX, PELGAISTI_S, PELGAISTI_SIX, PELGAISTI_U, PELGAISTI_X};
    static const char *const beside[7] = {"yyyyyyy", "yyyyynn", "yyynnnn", "yynynnn", "yynnnnn", "yynynnn", "ynnnnnn"};
    static const uint32_t after[7][7] = {{0, 1, 3, 5, 7, 13, 15},  {1, 1, 3, 5, 7, 13, 15},       {3, 3, 3, 7, 7, 15, 15},
                                         {5, 5, 7, 5, 7, 13, 15},  {7, 7, 7, 7, 7, 15, 15},       {13, 13, 15, 13, 15, 13, 15},
                                         {15, 15, 15, 15, 15, 15, 15}};
    pelgaisti_call begin = call_of(PELGAISTI_BEGIN, 0, 0, 0, 0), abort_all = call_of(PELGAISTI_ABORT, 0, 0, 0, 0);
    pelgaisti_book book = PELGAISTI_EMPTY;
    pelgaisti_reply reply;
    uint32_t mode;

    CHECK(open_book(&book, 2) == PELGAISTI_OK);
    for (size_t a = 0; a < 7; a++) {
        for (size_t g = 0; g < 7; g++) {
            pelgaisti_call first = call_of(PELGAISTI_LOCK, modes[g], 1, 1, 0), second = call_of(PELGAISTI_LOCK, modes[a], 1, 1, 0);
            for (uint32_t s = 1; s <= 2; s++) CHECK(pelgaisti_book_serve(&book, s, &begin, &reply) == PELGAISTI_OK);
            CHECK(pelgaisti_book_serve(&book, 1, &first, &reply) == PELGAISTI_OK);
            if (g == 0) CHECK(reply.kind == PELGAISTI_REFUSED && reply.value == PELGAISTI_NOTHING_ASKED);
            else CHECK(reply.kind == PELGAISTI_GRANTED && reply.value == modes[g]);
            CHECK(pelgaisti_book_serve(&book, 2, &second, &reply) == PELGAISTI_OK);
            if (a == 0) CHECK(reply.kind == PELGAISTI_REFUSED && reply.value == PELGAISTI_NOTHING_ASKED);
            else if (beside[a][g] == 'y') CHECK(reply.kind == PELGAISTI_GRANTED && reply.value == modes[a]);
            else CHECK(reply.kind == PELGAISTI_WAITING && reply.value == 0);
            CHECK(pelgaisti_book_serve(&book, 2, &abort_all, &reply) == PELGAISTI_OK && reply.kind == PELGAISTI_ABORTED);
            CHECK(pelgaisti_book_serve(&book, 1, &second, &reply) == PELGAISTI_OK);
            if (a == 0) CHECK(reply.kind == PELGAISTI_REFUSED && reply.value == PELGAISTI_NOTHING_ASKED);
            else CHECK(reply.kind == PELGAISTI_GRANTED && reply.value == after[g][a]);
            CHECK(pelgaisti_book_held(&book, 1, &first.resource, &mode) == PELGAISTI_OK && mode == after[g][a]);
            CHECK(pelgaisti_book_serve(&book, 1, &abort_all, &reply) == PELGAISTI_OK && reply.kind == PELGAISTI_ABORTED);
        }
    }
    CHECK(pelgaisti_book_close(&book) == PELGAISTI_OK);
}

/* Every bad argument of a session's calls gives its status, and a session goes through all its states. */
static void sessions_refuse(void) {
    static pelgaisti_session many[PELGAISTI_MAX_SESSIONS + 1];
    pelgaisti_session two[2] = {PELGAISTI_EMPTY, PELGAISTI_EMPTY}, one[1] = {PELGAISTI_EMPTY}, closed = PELGAISTI_EMPTY;
    pelgaisti_book book = PELGAISTI_EMPTY, other = PELGAISTI_EMPTY;
    pelgaisti_call begin = call_of(PELGAISTI_BEGIN, 0, 0, 0, 0);
    pelgaisti_answer answer = {99, {77, 88}};
    pelgaisti_pass pass = {99, 99};
    uint32_t posted = 99;
    uint64_t seen = 99, length = 0, mark = 0;
    pelgaisti_entry entry;
    size_t count = 99;

    CHECK(open_sessions(NULL, 2) == PELGAISTI_NULL);
    CHECK(open_sessions(two, 0) == PELGAISTI_NO_SUCH_COUNT);
    CHECK(open_sessions(many, PELGAISTI_MAX_SESSIONS + 1) == PELGAISTI_NO_SUCH_COUNT);
    CHECK(pelgaisti_session_publish(&two[0], &begin, &posted) == PELGAISTI_CLOSED);
    CHECK(pelgaisti_session_serve(&two[0], &pass) == PELGAISTI_CLOSED);
    CHECK(pelgaisti_session_collect(&two[0], &answer) == PELGAISTI_CLOSED);
    CHECK(pelgaisti_session_seen(&two[0], &seen) == PELGAISTI_CLOSED);
    CHECK(pelgaisti_session_take_history(&two[0], &seen, &entry, 1, &count) == PELGAISTI_CLOSED);
    CHECK(pelgaisti_session_mark(&two[0], &seen) == PELGAISTI_CLOSED);
    CHECK(pelgaisti_session_perform(&two[0], &begin, 9, &answer) == PELGAISTI_CLOSED);
    CHECK(pelgaisti_session_perform(&two[0], NULL, 9, &answer) == PELGAISTI_CLOSED);
    CHECK(pelgaisti_session_hear(&two[0], &two[1]) == PELGAISTI_CLOSED);
    CHECK(pelgaisti_session_retire(&two[0]) == PELGAISTI_CLOSED);
    CHECK(pelgaisti_session_hand_in(&two[1], &two[0]) == PELGAISTI_CLOSED);
    CHECK(pelgaisti_office_close(&two[0], &book) == PELGAISTI_CLOSED);

    CHECK(open_sessions(two, 2) == PELGAISTI_OK);
    CHECK(open_sessions(two, 1) == PELGAISTI_OPEN);
    CHECK(open_sessions(&two[1], 1) == PELGAISTI_OPEN);
    CHECK(open_sessions(one, 1) == PELGAISTI_OK);
    CHECK(pelgaisti_session_publish(NULL, &begin, &posted) == PELGAISTI_NULL);
    CHECK(pelgaisti_session_publish(&two[0], NULL, &posted) == PELGAISTI_NULL);
    CHECK(pelgaisti_session_serve(NULL, &pass) == PELGAISTI_NULL);
    CHECK(pelgaisti_session_collect(NULL, &answer) == PELGAISTI_NULL);
    CHECK(pelgaisti_session_collect(&two[0], NULL) == PELGAISTI_NULL);
    CHECK(pelgaisti_session_seen(NULL, &seen) == PELGAISTI_NULL);
    CHECK(pelgaisti_session_seen(&two[0], NULL) == PELGAISTI_NULL);
    CHECK(pelgaisti_session_take_history(NULL, &seen, &entry, 1, &count) == PELGAISTI_NULL);
    CHECK(pelgaisti_session_take_history(&two[0], NULL, &entry, 1, &count) == PELGAISTI_NULL);
    CHECK(pelgaisti_session_take_history(&two[0], &seen, NULL, 1, &count) == PELGAISTI_NULL);
    CHECK(pelgaisti_session_take_history(&two[0], &seen, &entry, 1, NULL) == PELGAISTI_NULL);
    CHECK(pelgaisti_session_mark(NULL, &seen) == PELGAISTI_NULL);
    CHECK(pelgaisti_session_mark(&two[0], NULL) == PELGAISTI_NULL);
    CHECK(pelgaisti_session_perform(NULL, &begin, 9, &answer) == PELGAISTI_NULL);
    CHECK(pelgaisti_session_perform(&two[0], &begin, 9, NULL) == PELGAISTI_NULL);
    CHECK(pelgaisti_session_perform(&two[0], NULL, 9, &answer) == PELGAISTI_NOTHING_PENDING);
    CHECK(pelgaisti_session_hear(NULL, &two[0]) == PELGAISTI_NULL);
    CHECK(pelgaisti_session_hear(&two[0], NULL) == PELGAISTI_NULL);
    CHECK(pelgaisti_session_hear(&two[0], &two[0]) == PELGAISTI_SAME);
    CHECK(pelgaisti_session_hear(&two[0], &one[0]) == PELGAISTI_OTHER_OFFICE);
    CHECK(pelgaisti_session_retire(NULL) == PELGAISTI_NULL);
    CHECK(pelgaisti_session_hand_in(NULL, &two[0]) == PELGAISTI_NULL);
    CHECK(pelgaisti_session_hand_in(&two[0], NULL) == PELGAISTI_NULL);
    CHECK(pelgaisti_session_hand_in(&two[0], &two[0]) == PELGAISTI_SAME);
    CHECK(pelgaisti_session_hand_in(&two[0], &one[0]) == PELGAISTI_OTHER_OFFICE);
    CHECK(pelgaisti_office_close(NULL, &book) == PELGAISTI_NULL);
    CHECK(pelgaisti_office_close(&two[0], NULL) == PELGAISTI_NULL);
    for (size_t k = 0; k < COUNT(off_ops); k++) {
        pelgaisti_call off = call_of(off_ops[k], PELGAISTI_S, 1, 1, 0);
        CHECK(pelgaisti_session_publish(&two[0], &off, &posted) == PELGAISTI_NO_SUCH_OP);
    }
    for (size_t k = 0; k < COUNT(off_levels); k++) {
        pelgaisti_call off = call_of(PELGAISTI_LOCK, PELGAISTI_S, off_levels[k], 1, 0);
        CHECK(pelgaisti_session_publish(&two[0], &off, &posted) == PELGAISTI_NO_SUCH_LEVEL);
    }
    for (size_t k = 0; k < COUNT(off_modes); k++) {
        pelgaisti_call off = call_of(PELGAISTI_LOCK, off_modes[k], 1, 1, 0);
        CHECK(pelgaisti_session_publish(&two[0], &off, &posted) == PELGAISTI_NO_SUCH_MODE);
    }
    CHECK(pelgaisti_session_collect(&two[0], &answer) == PELGAISTI_NOTHING_PENDING);
    CHECK(posted == 99 && pass.served == 99 && pass.starved == 99 && seen == 99 && count == 99);

    CHECK(pelgaisti_session_publish(&two[0], &begin, &posted) == PELGAISTI_OK);
    CHECK(posted == PELGAISTI_LISTED || posted == PELGAISTI_UNLISTED);
    CHECK(pelgaisti_session_publish(&two[0], &begin, NULL) == PELGAISTI_PENDING);
    CHECK(pelgaisti_session_perform(&two[0], &begin, 9, &answer) == PELGAISTI_PENDING);
    CHECK(pelgaisti_session_perform(&two[0], NULL, 0, &answer) == PELGAISTI_NOT_SERVED);
    CHECK(pelgaisti_session_perform(&one[0], NULL, 0, &answer) == PELGAISTI_NOTHING_PENDING);
    CHECK(pelgaisti_session_perform(&closed, NULL, 0, &answer) == PELGAISTI_CLOSED);
    CHECK(pelgaisti_session_mark(&two[0], &mark) == PELGAISTI_OK && mark != 0);
    CHECK(pelgaisti_session_collect(&two[0], &answer) == PELGAISTI_NOT_SERVED);
    CHECK(pelgaisti_session_retire(&two[0]) == PELGAISTI_PENDING);
    CHECK(pelgaisti_session_hand_in(&two[0], &two[1]) == PELGAISTI_PENDING);
    CHECK(pelgaisti_session_hand_in(&two[0], &one[0]) == PELGAISTI_OTHER_OFFICE);
    CHECK(pelgaisti_session_hand_in(&two[0], &closed) == PELGAISTI_CLOSED);
    CHECK(pelgaisti_session_hear(&two[0], &closed) == PELGAISTI_CLOSED);
    CHECK(pelgaisti_office_close(&two[0], &book) == PELGAISTI_MISSING);
    CHECK(answer.place == 99 && answer.reply.kind == 77 && answer.reply.value == 88);
    CHECK(pelgaisti_session_serve(&two[0], &pass) == PELGAISTI_OK && pass.served == 1 && pass.starved == 0);
    CHECK(pelgaisti_session_serve(&two[1], NULL) == PELGAISTI_OK);
    CHECK(pelgaisti_session_seen(&two[1], &seen) == PELGAISTI_OK && seen == 1);
    /* without a turn it isn't looked at that the call is served */
    CHECK(pelgaisti_session_perform(&two[0], NULL, 0, &answer) == PELGAISTI_NOT_SERVED && answer.place == 99);
    CHECK(pelgaisti_session_collect(&two[0], &answer) == PELGAISTI_OK);
    CHECK(answer.place == 0 && answer.reply.kind == PELGAISTI_BEGAN && answer.reply.value == 1);
    CHECK(pelgaisti_session_collect(&two[0], &answer) == PELGAISTI_NOTHING_PENDING);
    CHECK(pelgaisti_session_hear(&two[1], &two[0]) == PELGAISTI_OK);
    CHECK(pelgaisti_session_seen(&two[1], &seen) == PELGAISTI_OK && seen == 1);
    CHECK(pelgaisti_session_retire(&two[1]) == PELGAISTI_OK);
    CHECK(pelgaisti_session_retire(&two[1]) == PELGAISTI_RETIRED);
    CHECK(pelgaisti_session_publish(&two[1], &begin, NULL) == PELGAISTI_RETIRED);
    CHECK(pelgaisti_session_perform(&two[1], &begin, 9, &answer) == PELGAISTI_RETIRED);
    begin.op = 0;
    CHECK(pelgaisti_session_publish(&two[1], &begin, NULL) == PELGAISTI_NO_SUCH_OP);
    begin.op = PELGAISTI_BEGIN;
    CHECK(pelgaisti_session_collect(&two[1], &answer) == PELGAISTI_NOTHING_PENDING);

    CHECK(pelgaisti_office_close(&two[0], &book) == PELGAISTI_MISSING);
    CHECK(pelgaisti_session_hand_in(&two[1], &two[0]) == PELGAISTI_OK);
    CHECK(pelgaisti_session_seen(&two[1], &seen) == PELGAISTI_CLOSED);
    CHECK(pelgaisti_session_publish(&two[0], &begin, NULL) == PELGAISTI_OK);
    CHECK(pelgaisti_office_close(&two[0], &book) == PELGAISTI_PENDING);
    CHECK(pelgaisti_session_serve(&two[0], NULL) == PELGAISTI_OK);
    CHECK(pelgaisti_session_collect(&two[0], &answer) == PELGAISTI_OK);
    CHECK(answer.reply.kind == PELGAISTI_REFUSED && answer.reply.value == PELGAISTI_ALREADY_OPEN);
    CHECK(open_book(&other, 1) == PELGAISTI_OK);
    CHECK(pelgaisti_office_close(&two[0], &other) == PELGAISTI_OPEN);
    CHECK(pelgaisti_office_close(&closed, &other) == PELGAISTI_OPEN);
    CHECK(pelgaisti_book_close(&other) == PELGAISTI_OK);
    CHECK(pelgaisti_office_close(&two[0], &book) == PELGAISTI_OK);
    CHECK(pelgaisti_office_close(&two[0], &other) == PELGAISTI_CLOSED);
    CHECK(length_of(&book, &length) == PELGAISTI_OK && length == 2);
    CHECK(pelgaisti_book_close(&book) == PELGAISTI_OK);
    CHECK(pelgaisti_office_close(&one[0], &book) == PELGAISTI_OK);
    CHECK(pelgaisti_book_close(&book) == PELGAISTI_OK);

    CHECK(open_sessions(many, PELGAISTI_MAX_SESSIONS) == PELGAISTI_OK);
    for (size_t k = PELGAISTI_MAX_SESSIONS - 1; k > 0; k--) CHECK(pelgaisti_session_hand_in(&many[k], &many[k - 1]) == PELGAISTI_OK);
    CHECK(pelgaisti_office_close(&many[0], &book) == PELGAISTI_OK);
    CHECK(pelgaisti_book_close(&book) == PELGAISTI_OK);
}

/* Each office has a mark of its own, also one that is opened with a handle that an open one has left. So no session is heard by one of
   another office, or handed in to it. */
static void marks_differ(void) {
    static pelgaisti_session array[3], other[1];
    pelgaisti_session *left[3];
    pelgaisti_book book = PELGAISTI_EMPTY;
    uint64_t marks[4] = {0, 0, 0, 0}, again = 0;

    CHECK(open_sessions(other, 1) == PELGAISTI_OK);
    CHECK(pelgaisti_session_mark(&other[0], &marks[3]) == PELGAISTI_OK);
    /* office k begins at the same handle, and its last session stays open in another one */
    for (size_t k = 0; k < 3; k++) {
        left[k] = &array[2 - k];
        CHECK(open_sessions(array, 3 - k) == PELGAISTI_OK);
        CHECK(pelgaisti_session_mark(left[k], &marks[k]) == PELGAISTI_OK);
        CHECK(pelgaisti_session_mark(&array[0], &again) == PELGAISTI_OK && again == marks[k]);
        for (size_t s = 0; s < 2 - k; s++) CHECK(pelgaisti_session_hand_in(&array[s], left[k]) == PELGAISTI_OK);
    }
    for (size_t k = 0; k < 4; k++)
        for (size_t s = 0; s < 4; s++) CHECK(marks[k] != 0 && (marks[k] == marks[s]) == (k == s));
    for (size_t k = 1; k < 3; k++) {
        CHECK(pelgaisti_session_hear(left[k], left[0]) == PELGAISTI_OTHER_OFFICE);
        CHECK(pelgaisti_session_hand_in(left[k], left[0]) == PELGAISTI_OTHER_OFFICE);
    }
    for (size_t k = 0; k < 4; k++) {
        CHECK(pelgaisti_office_close(k < 3 ? left[k] : other, &book) == PELGAISTI_OK);
        CHECK(pelgaisti_book_close(&book) == PELGAISTI_OK);
    }
}

/* A session is dropped with a call pending: its handle is not used any more, and its memory is kept. The next pass of the other
   session serves the call, the lock stays, and the office can't be closed before the dropped session is handed in after all. */
static void dropped_sessions(void) {
    static pelgaisti_session two[2];
    pelgaisti_session *dropped = &two[0], *other = &two[1];
    pelgaisti_book book = PELGAISTI_EMPTY;
    pelgaisti_call begin = call_of(PELGAISTI_BEGIN, 0, 0, 0, 0), write = call_of(PELGAISTI_LOCK, PELGAISTI_X, 1, 1, 0);
    pelgaisti_call read = call_of(PELGAISTI_LOCK, PELGAISTI_S, 1, 1, 0);
    pelgaisti_pass pass = {99, 99};
    pelgaisti_answer answer = {99, {77, 88}};
    uint32_t posted = 99, mode = 99;
    uint64_t length = 99;

    CHECK(open_sessions(two, 2) == PELGAISTI_OK);
    CHECK(pelgaisti_session_publish(dropped, &begin, &posted) == PELGAISTI_OK && posted == PELGAISTI_LISTED);
    CHECK(pelgaisti_session_publish(other, &begin, &posted) == PELGAISTI_OK && posted == PELGAISTI_LISTED);
    CHECK(pelgaisti_session_serve(other, &pass) == PELGAISTI_OK && pass.served == 2 && pass.starved == 0);
    CHECK(pelgaisti_session_collect(other, &answer) == PELGAISTI_OK);
    CHECK(answer.place == 0 && answer.reply.kind == PELGAISTI_BEGAN && answer.reply.value == 1);
    CHECK(pelgaisti_session_collect(dropped, &answer) == PELGAISTI_OK);
    CHECK(answer.place == 1 && answer.reply.kind == PELGAISTI_BEGAN && answer.reply.value == 2);

    CHECK(pelgaisti_session_publish(dropped, &write, NULL) == PELGAISTI_OK);
    /* from here on the session is dropped */
    CHECK(pelgaisti_session_serve(other, &pass) == PELGAISTI_OK && pass.served == 1 && pass.starved == 0);
    CHECK(pelgaisti_session_publish(other, &read, NULL) == PELGAISTI_OK);
    CHECK(pelgaisti_session_serve(other, &pass) == PELGAISTI_OK && pass.served == 1 && pass.starved == 0);
    CHECK(pelgaisti_session_collect(other, &answer) == PELGAISTI_OK);
    CHECK(answer.place == 3 && answer.reply.kind == PELGAISTI_WAITING);
    CHECK(pelgaisti_office_close(other, &book) == PELGAISTI_MISSING);
    CHECK(length_of(&book, &length) == PELGAISTI_CLOSED && length == 99);
    /* the other session goes on: it gives up its wait */
    begin.op = PELGAISTI_ABORT;
    CHECK(pelgaisti_session_publish(other, &begin, NULL) == PELGAISTI_OK);
    CHECK(pelgaisti_session_serve(other, &pass) == PELGAISTI_OK && pass.served == 1 && pass.starved == 0);
    CHECK(pelgaisti_session_collect(other, &answer) == PELGAISTI_OK);
    CHECK(answer.place == 4 && answer.reply.kind == PELGAISTI_ABORTED && answer.reply.value == 0);
    CHECK(pelgaisti_session_retire(other) == PELGAISTI_OK);
    CHECK(pelgaisti_office_close(other, &book) == PELGAISTI_MISSING);

    /* the dropped session is taken up again: its answer was kept for it */
    CHECK(pelgaisti_session_hand_in(dropped, other) == PELGAISTI_PENDING);
    CHECK(pelgaisti_session_collect(dropped, &answer) == PELGAISTI_OK);
    CHECK(answer.place == 2 && answer.reply.kind == PELGAISTI_GRANTED && answer.reply.value == PELGAISTI_X);
    CHECK(pelgaisti_session_hand_in(dropped, other) == PELGAISTI_OK);
    CHECK(pelgaisti_office_close(other, &book) == PELGAISTI_OK);
    CHECK(pelgaisti_book_held(&book, 1, &write.resource, &mode) == PELGAISTI_OK && mode == PELGAISTI_X);
    CHECK(length_of(&book, &length) == PELGAISTI_OK && length == 5);
    CHECK(pelgaisti_book_close(&book) == PELGAISTI_OK);
}

/* 64 sessions come and go on the publication list: each is served in every round, and the history has all their polls. */
static void sixty_four_sessions_poll_in_turn(void) {
    static pelgaisti_session sessions[64];
    pelgaisti_book book = PELGAISTI_EMPTY;
    pelgaisti_call poll = call_of(PELGAISTI_POLL, 0, 0, 0, 0);
    uint64_t length = 99;

    CHECK(open_sessions(sessions, 64) == PELGAISTI_OK);
    for (uint64_t place = 0; place < 12800; place++) {
        pelgaisti_session *session = &sessions[place % 64];
        pelgaisti_pass pass = {99, 99};
        pelgaisti_answer answer = {99, {77, 88}};
        int is_made = pelgaisti_session_publish(session, &poll, NULL) == PELGAISTI_OK &&
                      pelgaisti_session_serve(session, &pass) == PELGAISTI_OK &&
                      pelgaisti_session_collect(session, &answer) == PELGAISTI_OK;
        if (!is_made || pass.served != 1 || pass.starved != 0 || answer.place != place ||
            answer.reply.kind != PELGAISTI_REFUSED || answer.reply.value != PELGAISTI_NO_TRANSACTION) {
            CHECK(!"each poll is served in a pass of its own, and refused");
            break;
        }
    }
    for (size_t k = 63; k > 0; k--) CHECK(pelgaisti_session_hand_in(&sessions[k], &sessions[k - 1]) == PELGAISTI_OK);
    CHECK(pelgaisti_office_close(&sessions[0], &book) == PELGAISTI_OK);
    CHECK(length_of(&book, &length) == PELGAISTI_OK && length == 12800);
    CHECK(pelgaisti_book_close(&book) == PELGAISTI_OK);
}

/* 1,024 sessions begin, and are handed in to one of them in a random order: the office closes, and its history has all of them. */
static void all_1024_sessions_close_in_any_order(void) {
    static pelgaisti_session sessions[PELGAISTI_MAX_SESSIONS];
    static size_t order[PELGAISTI_MAX_SESSIONS];
    pelgaisti_book book = PELGAISTI_EMPTY;
    pelgaisti_call begin = call_of(PELGAISTI_BEGIN, 0, 0, 0, 0);
    uint64_t length = 99;
    uint32_t random = 1;

    CHECK(open_sessions(sessions, PELGAISTI_MAX_SESSIONS) == PELGAISTI_OK);
    for (size_t k = 0; k < PELGAISTI_MAX_SESSIONS; k++) {
        pelgaisti_answer answer = {99, {77, 88}};
        size_t place;
        random = (random * 25173 + 13849) % 65536;
        place = random % (k + 1);
        memmove(&order[place + 1], &order[place], (k - place) * sizeof order[0]);
        order[place] = k;
        CHECK(pelgaisti_session_perform(&sessions[k], &begin, 9, &answer) == PELGAISTI_OK);
        CHECK(answer.place == k && answer.reply.kind == PELGAISTI_BEGAN && answer.reply.value == k + 1);
    }
    CHECK(order[0] != 0);
    for (size_t k = 1; k < PELGAISTI_MAX_SESSIONS; k++)
        CHECK(pelgaisti_session_hand_in(&sessions[order[k]], &sessions[order[0]]) == PELGAISTI_OK);
    CHECK(pelgaisti_office_close(&sessions[order[0]], &book) == PELGAISTI_OK);
    CHECK(length_of(&book, &length) == PELGAISTI_OK && length == 1024);
    CHECK(pelgaisti_book_close(&book) == PELGAISTI_OK);
}

/* Sessions of two offices make calls, each in its own office, beside a session of the other one with the same number. Each office
   has a history of its own, and closes with its own sessions. */
static void two_offices_have_their_own_sessions(void) {
    static pelgaisti_session ours[2], theirs[2];
    pelgaisti_session *first[2] = {&ours[0], &theirs[0]}, *second[2] = {&ours[1], &theirs[1]};
    pelgaisti_call begin = call_of(PELGAISTI_BEGIN, 0, 0, 0, 0), poll = call_of(PELGAISTI_POLL, 0, 0, 0, 0);

    CHECK(open_sessions(ours, 2) == PELGAISTI_OK);
    CHECK(open_sessions(theirs, 2) == PELGAISTI_OK);
    for (size_t k = 0; k < 2; k++) {
        pelgaisti_pass pass = {99, 99};
        pelgaisti_answer answer = {99, {77, 88}};
        CHECK(pelgaisti_session_perform(first[k], &poll, 1, &answer) == PELGAISTI_OK);
        CHECK(answer.place == 0 && answer.reply.kind == PELGAISTI_REFUSED && answer.reply.value == PELGAISTI_NO_TRANSACTION);
        CHECK(pelgaisti_session_publish(first[k], &poll, NULL) == PELGAISTI_OK);
        /* a pass in the other office serves nothing */
        CHECK(pelgaisti_session_serve(first[1 - k], &pass) == PELGAISTI_OK && pass.served == 0);
        CHECK(pelgaisti_session_collect(first[k], &answer) == PELGAISTI_NOT_SERVED);
        CHECK(pelgaisti_session_serve(second[k], &pass) == PELGAISTI_OK && pass.served == 1);
        CHECK(pelgaisti_session_collect(first[k], &answer) == PELGAISTI_OK);
        CHECK(answer.place == 1 && answer.reply.kind == PELGAISTI_REFUSED && answer.reply.value == PELGAISTI_NO_TRANSACTION);
        CHECK(pelgaisti_session_perform(first[k], &begin, 1, &answer) == PELGAISTI_OK);
        CHECK(answer.place == 2 && answer.reply.kind == PELGAISTI_BEGAN && answer.reply.value == 1);
        CHECK(pelgaisti_session_perform(second[k], &begin, 1, &answer) == PELGAISTI_OK);
        CHECK(answer.place == 3 && answer.reply.kind == PELGAISTI_BEGAN && answer.reply.value == 2);
        CHECK(pelgaisti_session_hear(second[k], first[k]) == PELGAISTI_OK);
        CHECK(pelgaisti_session_hear(second[k], first[1 - k]) == PELGAISTI_OTHER_OFFICE);
        CHECK(pelgaisti_session_retire(second[k]) == PELGAISTI_OK);
        CHECK(pelgaisti_session_hand_in(second[k], first[1 - k]) == PELGAISTI_OTHER_OFFICE);
        CHECK(pelgaisti_session_hand_in(second[k], first[k]) == PELGAISTI_OK);
    }
    for (size_t k = 0; k < 2; k++) {
        pelgaisti_book book = PELGAISTI_EMPTY;
        uint64_t length = 99;
        CHECK(pelgaisti_office_close(first[k], &book) == PELGAISTI_OK);
        CHECK(length_of(&book, &length) == PELGAISTI_OK && length == 4);
        CHECK(pelgaisti_book_close(&book) == PELGAISTI_OK);
    }
}

/* Two sessions take the history in turn: each piece begins where the one before ends, also in the midst of what is kept. */
static void pieces_follow(void) {
    pelgaisti_session two[2] = {PELGAISTI_EMPTY, PELGAISTI_EMPTY};
    pelgaisti_book book = PELGAISTI_EMPTY;
    pelgaisti_call begin = call_of(PELGAISTI_BEGIN, 0, 0, 0, 0), poll = call_of(PELGAISTI_POLL, 0, 0, 0, 0);
    pelgaisti_entry entries[4];
    pelgaisti_answer answer;
    uint64_t first = 99;
    size_t count = 99;

    CHECK(open_sessions(two, 2) == PELGAISTI_OK);
    CHECK(pelgaisti_session_take_history(&two[0], &first, NULL, 0, &count) == PELGAISTI_OK && first == 0 && count == 0);
    CHECK(pelgaisti_session_perform(&two[0], &begin, 9, &answer) == PELGAISTI_OK);
    CHECK(pelgaisti_session_perform(&two[1], &poll, 9, &answer) == PELGAISTI_OK);
    CHECK(pelgaisti_session_perform(&two[0], &poll, 9, &answer) == PELGAISTI_OK);
    CHECK(pelgaisti_session_take_history(&two[1], &first, entries, 2, &count) == PELGAISTI_OK && first == 0 && count == 2);
    CHECK(entries[0].session == 1 && entries[0].call.op == PELGAISTI_BEGIN && entries[0].reply.kind == PELGAISTI_BEGAN);
    CHECK(entries[1].session == 2 && entries[1].call.op == PELGAISTI_POLL && entries[1].reply.kind == PELGAISTI_REFUSED);
    CHECK(pelgaisti_session_publish(&two[1], &begin, NULL) == PELGAISTI_OK);
    CHECK(pelgaisti_session_take_history(&two[1], &first, entries, 4, &count) == PELGAISTI_OK && first == 2 && count == 1);
    CHECK(entries[0].session == 1 && entries[0].call.op == PELGAISTI_POLL && entries[0].reply.kind == PELGAISTI_CLEAR);
    CHECK(pelgaisti_session_perform(&two[1], NULL, 9, &answer) == PELGAISTI_OK && answer.place == 3);
    CHECK(pelgaisti_session_take_history(&two[0], &first, NULL, 0, &count) == PELGAISTI_OK && first == 3 && count == 0);
    CHECK(pelgaisti_session_hand_in(&two[1], &two[0]) == PELGAISTI_OK);
    CHECK(pelgaisti_office_close(&two[0], &book) == PELGAISTI_OK);
    CHECK(first_kept_of(&book, &first) == PELGAISTI_OK && first == 3);
    CHECK(pelgaisti_book_take_history(&book, &first, entries, 4, &count) == PELGAISTI_OK && first == 3 && count == 1);
    CHECK(entries[0].session == 2 && entries[0].call.op == PELGAISTI_BEGIN);
    CHECK(pelgaisti_book_close(&book) == PELGAISTI_OK);
}

enum { THREADS = 8, CALLS = 10000, TAKERS = 2 };

typedef struct job {
    pelgaisti_session *session;
    uint64_t *places;
    uint64_t elsewhere, bad;
} job;

/* A thread's calls: begin, lock, poll, commit, repeated. The locks are in mode IX, so no request waits. */
static void *work(void *argument) {
    job *j = (job *)argument;
    static const uint32_t ops[] = {PELGAISTI_BEGIN, PELGAISTI_LOCK, PELGAISTI_POLL, PELGAISTI_COMMIT};
    static const uint32_t kinds[] = {PELGAISTI_BEGAN, PELGAISTI_GRANTED, PELGAISTI_CLEAR, PELGAISTI_COMMITTED};
    for (int k = 0; k < CALLS; k++) {
        pelgaisti_call call = call_of(ops[k % 4], PELGAISTI_IX, 1, 1, 0);
        pelgaisti_answer answer;
        j->bad += pelgaisti_session_publish(j->session, &call, NULL) != PELGAISTI_OK;
        for (;;) {
            uint32_t served = pelgaisti_session_serve(j->session, NULL), collected = pelgaisti_session_collect(j->session, &answer);
            j->elsewhere += served == PELGAISTI_ELSEWHERE;
            j->bad += served != PELGAISTI_OK && served != PELGAISTI_ELSEWHERE;
            if (collected == PELGAISTI_OK) break;
            j->bad += collected != PELGAISTI_NOT_SERVED;
            sched_yield();
        }
        j->places[k] = answer.place;
        j->bad += answer.reply.kind != kinds[k % 4];
    }
    return NULL;
}

/* Each place of the history is collected once, those of a session in increasing order, and the history has these calls. */
static void threads_share(void) {
    static pelgaisti_session sessions[THREADS];
    static uint64_t places[THREADS][CALLS];
    static unsigned char owner[THREADS * CALLS];
    pelgaisti_book book = PELGAISTI_EMPTY;
    pthread_t threads[THREADS];
    job jobs[THREADS];
    uint64_t bad = 0, length = 0;

    CHECK(open_sessions(sessions, THREADS) == PELGAISTI_OK);
    for (int t = 0; t < THREADS; t++) {
        job j = {&sessions[t], places[t], 0, 0};
        jobs[t] = j;
        CHECK(pthread_create(&threads[t], NULL, work, &jobs[t]) == 0);
    }
    for (int t = 0; t < THREADS; t++) {
        CHECK(pthread_join(threads[t], NULL) == 0);
        CHECK(jobs[t].bad == 0);
        for (int k = 0; k < CALLS; k++) {
            uint64_t place = places[t][k];
            if (place >= THREADS * CALLS || owner[place] || (k && place <= places[t][k - 1])) bad++;
            else owner[place] = (unsigned char)(t + 1);
        }
    }
    CHECK(bad == 0);
    for (int t = THREADS - 1; t > 0; t--) CHECK(pelgaisti_session_hand_in(&sessions[t], &sessions[0]) == PELGAISTI_OK);
    CHECK(pelgaisti_office_close(&sessions[0], &book) == PELGAISTI_OK);
    CHECK(length_of(&book, &length) == PELGAISTI_OK && length == THREADS * CALLS);
    bad = 0;
    for (uint64_t place = 0; place < length;) {
        static pelgaisti_entry entries[1000];
        size_t count = 0;
        if (pelgaisti_book_history(&book, place, entries, 1000, &count) != PELGAISTI_OK || !count) break;
        for (size_t k = 0; k < count; k++) bad += entries[k].session != owner[place + k];
        place += count;
    }
    CHECK(bad == 0);
    CHECK(pelgaisti_book_close(&book) == PELGAISTI_OK);
}

/* More clients than sessions: each transaction borrows a session, from its begin to its commit, and gives it back. */
enum { CLIENTS = 32, LENT = 4, ROUNDS = 50 };
static pelgaisti_session *pool[LENT];
static int in_pool;
static pthread_mutex_t pool_guard = PTHREAD_MUTEX_INITIALIZER;
static pthread_cond_t pool_grew = PTHREAD_COND_INITIALIZER;

static pelgaisti_session *borrow_session(void) {
    pelgaisti_session *session;
    pthread_mutex_lock(&pool_guard);
    while (!in_pool) pthread_cond_wait(&pool_grew, &pool_guard);
    session = pool[--in_pool];
    pthread_mutex_unlock(&pool_guard);
    return session;
}

static void give_session_back(pelgaisti_session *session) {
    pthread_mutex_lock(&pool_guard);
    pool[in_pool++] = session;
    pthread_cond_signal(&pool_grew);
    pthread_mutex_unlock(&pool_guard);
}

/* A client's transactions. Counts the replies that aren't as they have to be. */
static void *work_on_loan(void *argument) {
    uint64_t *bad = (uint64_t *)argument;
    static const uint32_t steps[] = {PELGAISTI_BEGIN, PELGAISTI_LOCK, PELGAISTI_COMMIT};
    static const uint32_t kinds[] = {PELGAISTI_BEGAN, PELGAISTI_GRANTED, PELGAISTI_COMMITTED};
    for (int round = 0; round < ROUNDS; round++) {
        pelgaisti_session *session = borrow_session();
        for (int k = 0; k < 3; k++) {
            pelgaisti_call call = call_of(steps[k], PELGAISTI_IX, 1, 1, 0);
            pelgaisti_answer answer;
            *bad += pelgaisti_session_perform(session, &call, UINT64_MAX, &answer) != PELGAISTI_OK || answer.reply.kind != kinds[k];
        }
        give_session_back(session);
    }
    return NULL;
}

/* Each of the clients' transactions is in the history, once, and those of a session don't overlap. */
static void sessions_are_lent(void) {
    static pelgaisti_session sessions[LENT];
    static unsigned char began[CLIENTS * ROUNDS + 1];
    pelgaisti_book book = PELGAISTI_EMPTY;
    pthread_t threads[CLIENTS];
    uint64_t bad[CLIENTS] = {0}, wrong = 0, length = 0;
    static pelgaisti_entry entries[3 * CLIENTS * ROUNDS];
    size_t count = 0;
    uint32_t next[LENT + 1];

    CHECK(open_sessions(sessions, LENT) == PELGAISTI_OK);
    for (int k = 0; k < LENT; k++) give_session_back(&sessions[k]);
    for (int t = 0; t < CLIENTS; t++) CHECK(pthread_create(&threads[t], NULL, work_on_loan, &bad[t]) == 0);
    for (int t = 0; t < CLIENTS; t++) {
        CHECK(pthread_join(threads[t], NULL) == 0);
        CHECK(bad[t] == 0);
    }
    CHECK(in_pool == LENT);
    for (int k = LENT - 1; k > 0; k--) CHECK(pelgaisti_session_hand_in(&sessions[k], &sessions[0]) == PELGAISTI_OK);
    CHECK(pelgaisti_office_close(&sessions[0], &book) == PELGAISTI_OK);
    CHECK(length_of(&book, &length) == PELGAISTI_OK && length == COUNT(entries));
    CHECK(pelgaisti_book_history(&book, 0, entries, COUNT(entries), &count) == PELGAISTI_OK && count == COUNT(entries));
    for (int k = 0; k <= LENT; k++) next[k] = PELGAISTI_BEGIN;
    for (size_t k = 0; k < count; k++) {
        uint32_t op = entries[k].call.op, *wanted = &next[entries[k].session];
        wrong += op != *wanted;
        *wanted = op == PELGAISTI_BEGIN ? PELGAISTI_LOCK : op == PELGAISTI_LOCK ? PELGAISTI_COMMIT : PELGAISTI_BEGIN;
        if (op != PELGAISTI_BEGIN) continue;
        wrong += !entries[k].reply.value || entries[k].reply.value > CLIENTS * ROUNDS || began[entries[k].reply.value]++;
    }
    CHECK(wrong == 0);
    CHECK(pelgaisti_book_close(&book) == PELGAISTI_OK);
}

/* The history as the takers found it: each writes the pieces that it takes to their places. */
static pelgaisti_entry taken[THREADS * CALLS];
static unsigned char times[THREADS * CALLS];
static int working = THREADS;

typedef struct taker {
    pelgaisti_session *session;
    uint64_t pieces, bad;
} taker;

/* A thread that takes pieces of at most 100 entries, until all others are done. */
static void *take(void *argument) {
    taker *j = (taker *)argument;
    pelgaisti_entry entries[100];
    while (__atomic_load_n(&working, __ATOMIC_ACQUIRE) > 0) {
        uint64_t first = 0;
        size_t count = 0;
        pelgaisti_status status = pelgaisti_session_take_history(j->session, &first, entries, COUNT(entries), &count);
        j->bad += status != PELGAISTI_OK && status != PELGAISTI_ELSEWHERE;
        if (status != PELGAISTI_OK) continue;
        j->pieces += count > 0;
        for (size_t k = 0; k < count; k++) {
            if (first + k >= THREADS * CALLS) {
                j->bad++;
                continue;
            }
            taken[first + k] = entries[k];
            times[first + k]++;
        }
        sched_yield();
    }
    return NULL;
}

static void *work_and_tell(void *argument) {
    void *result = work(argument);
    __atomic_fetch_sub(&working, 1, __ATOMIC_ACQ_REL);
    return result;
}

/* While eight threads call, two take the history: with what is left in the book, each entry is there once, and the replies are
   those of one book that serves these calls in order. */
static void pieces_are_the_history(void) {
    static pelgaisti_session sessions[THREADS + TAKERS];
    static uint64_t places[THREADS][CALLS];
    pelgaisti_book book = PELGAISTI_EMPTY, fresh = PELGAISTI_EMPTY;
    pthread_t threads[THREADS + TAKERS];
    job jobs[THREADS];
    taker takers[TAKERS];
    uint64_t bad = 0, first = 0, length = 0;
    size_t count = 0;

    CHECK(open_sessions(sessions, THREADS + TAKERS) == PELGAISTI_OK);
    for (int t = 0; t < TAKERS; t++) {
        taker j = {&sessions[THREADS + t], 0, 0};
        takers[t] = j;
        CHECK(pthread_create(&threads[THREADS + t], NULL, take, &takers[t]) == 0);
    }
    for (int t = 0; t < THREADS; t++) {
        job j = {&sessions[t], places[t], 0, 0};
        jobs[t] = j;
        CHECK(pthread_create(&threads[t], NULL, work_and_tell, &jobs[t]) == 0);
    }
    for (int t = 0; t < THREADS + TAKERS; t++) CHECK(pthread_join(threads[t], NULL) == 0);
    for (int t = 0; t < THREADS; t++) CHECK(jobs[t].bad == 0);
    CHECK(takers[0].bad == 0 && takers[1].bad == 0 && takers[0].pieces + takers[1].pieces > 0);
    for (int t = THREADS + TAKERS - 1; t > 0; t--) CHECK(pelgaisti_session_hand_in(&sessions[t], &sessions[0]) == PELGAISTI_OK);
    CHECK(pelgaisti_office_close(&sessions[0], &book) == PELGAISTI_OK);
    CHECK(length_of(&book, &length) == PELGAISTI_OK && length == THREADS * CALLS);
    CHECK(first_kept_of(&book, &first) == PELGAISTI_OK);
    for (uint64_t place = 0; place < first; place++) bad += times[place] != 1;
    CHECK(pelgaisti_book_take_history(&book, &first, taken + first, length - first, &count) == PELGAISTI_OK && first + count == length);
    CHECK(open_book(&fresh, THREADS + TAKERS) == PELGAISTI_OK);
    for (uint64_t place = 0; place < length; place++) {
        pelgaisti_reply reply = {0, 0};
        bad += pelgaisti_book_serve(&fresh, taken[place].session, &taken[place].call, &reply) != PELGAISTI_OK;
        bad += reply.kind != taken[place].reply.kind || reply.value != taken[place].reply.value;
    }
    CHECK(bad == 0);
    CHECK(pelgaisti_book_close(&fresh) == PELGAISTI_OK);
    CHECK(pelgaisti_book_close(&book) == PELGAISTI_OK);
}

/* A book tells whose wait the last call has ended: two readers that a writer's commit grants, and nobody after the next call. */
static void ended_waits_of_a_book(void) {
    pelgaisti_book book = PELGAISTI_EMPTY;
    pelgaisti_call begin = call_of(PELGAISTI_BEGIN, 0, 0, 0, 0), commit = call_of(PELGAISTI_COMMIT, 0, 0, 0, 0);
    pelgaisti_call write = call_of(PELGAISTI_LOCK, PELGAISTI_X, 1, 1, 0), read = call_of(PELGAISTI_LOCK, PELGAISTI_S, 1, 1, 0);
    pelgaisti_call poll = call_of(PELGAISTI_POLL, 0, 0, 0, 0);
    pelgaisti_reply reply;
    uint32_t list[3] = {77, 77, 77};
    size_t count = 9;

    CHECK(pelgaisti_book_ended(&book, list, 3, &count) == PELGAISTI_CLOSED && count == 9 && list[0] == 77);
    CHECK(open_book(&book, 3) == PELGAISTI_OK);
    CHECK(pelgaisti_book_ended(NULL, list, 3, &count) == PELGAISTI_NULL);
    CHECK(pelgaisti_book_ended(&book, NULL, 3, &count) == PELGAISTI_NULL);
    CHECK(pelgaisti_book_ended(&book, list, 3, NULL) == PELGAISTI_NULL);
    CHECK(pelgaisti_book_ended(&book, list, 3, &count) == PELGAISTI_OK && count == 0 && list[0] == 77);
    for (uint32_t s = 1; s <= 3; s++) {
        CHECK(pelgaisti_book_serve(&book, s, &begin, &reply) == PELGAISTI_OK);
        CHECK(pelgaisti_book_serve(&book, s, s == 1 ? &write : &read, &reply) == PELGAISTI_OK);
        CHECK(reply.kind == (s == 1 ? PELGAISTI_GRANTED : PELGAISTI_WAITING));
    }
    CHECK(pelgaisti_book_serve(&book, 1, &commit, &reply) == PELGAISTI_OK && reply.kind == PELGAISTI_COMMITTED);
    CHECK(pelgaisti_book_ended(&book, NULL, 0, &count) == PELGAISTI_OK && count == 2);
    CHECK(pelgaisti_book_ended(&book, list, 1, &count) == PELGAISTI_OK && count == 2 && list[1] == 77);
    CHECK(pelgaisti_book_ended(&book, list, 3, &count) == PELGAISTI_OK && count == 2);
    CHECK(list[0] != list[1] && list[0] + list[1] == 5 && (list[0] == 2 || list[0] == 3) && list[2] == 77);
    CHECK(pelgaisti_book_serve(&book, 2, &poll, &reply) == PELGAISTI_OK && reply.kind == PELGAISTI_CLEAR);
    CHECK(pelgaisti_book_ended(&book, list, 3, &count) == PELGAISTI_OK && count == 0);
    CHECK(pelgaisti_book_close(&book) == PELGAISTI_OK);
}

/* Whether the book serves this call of the session, and replies so. */
static int replies(pelgaisti_book *book, uint32_t session, pelgaisti_call call, uint32_t kind, uint64_t value) {
    pelgaisti_reply reply = {77, 88};
    return pelgaisti_book_serve(book, session, &call, &reply) == PELGAISTI_OK && reply.kind == kind && reply.value == value;
}

/* Opens a book for sessions 1 to 3 and lets `first` begin, then `second`, and then 3. Session 1 has database 8, for which 2 waits; 2
   has record 7/1 and its database in IX; 3 waits to write database 7. If session 1 asks to read database 7, it waits for 3, which waits
   for 2, which waits for 1: 3 becomes the victim, and the request is granted. */
static void cross(pelgaisti_book *book, uint32_t first, uint32_t second) {
    pelgaisti_call begin = call_of(PELGAISTI_BEGIN, 0, 0, 0, 0), read = call_of(PELGAISTI_LOCK, PELGAISTI_S, 1, 8, 0);
    CHECK(open_book(book, 3) == PELGAISTI_OK);
    CHECK(replies(book, first, begin, PELGAISTI_BEGAN, 1) && replies(book, second, begin, PELGAISTI_BEGAN, 2));
    CHECK(replies(book, 3, begin, PELGAISTI_BEGAN, 3));
    CHECK(replies(book, 1, call_of(PELGAISTI_LOCK, PELGAISTI_X, 1, 8, 0), PELGAISTI_GRANTED, PELGAISTI_X));
    CHECK(replies(book, 2, call_of(PELGAISTI_LOCK, PELGAISTI_IX, 1, 7, 0), PELGAISTI_GRANTED, PELGAISTI_IX));
    CHECK(replies(book, 2, call_of(PELGAISTI_LOCK, PELGAISTI_X, 2, 7, 1), PELGAISTI_GRANTED, PELGAISTI_X));
    CHECK(replies(book, 2, read, PELGAISTI_WAITING, 0));
    CHECK(replies(book, 3, call_of(PELGAISTI_LOCK, PELGAISTI_X, 1, 7, 0), PELGAISTI_WAITING, 0));
}

/* A path tells whose wait each of its calls has ended, also where a later one ends nobody's, waits, is refused, or makes its own session
   a victim. The first call of the path makes 3 a victim. */
static void paths_tell(void) {
    static const struct { uint32_t first, second, record, kind, ended; } ways[] = {
        {1, 2, 2, PELGAISTI_GRANTED, 1},  /* the second call ends nobody's wait */
        {1, 2, 1, PELGAISTI_WAITING, 2},  /* it waits for 2, which becomes a victim, too */
        {2, 1, 1, PELGAISTI_DEADLOCK, 1}, /* it waits for 2, which began before 1 */
        {1, 2, 3, PELGAISTI_REFUSED, 1},  /* it is one lock too many */
    };
    pelgaisti_call poll = call_of(PELGAISTI_POLL, 0, 0, 0, 0);
    for (size_t k = 0; k < COUNT(ways); k++) {
        pelgaisti_book book = PELGAISTI_EMPTY;
        pelgaisti_program path = {PELGAISTI_NOTHING, 0, PELGAISTI_IS, {PELGAISTI_LOCK, PELGAISTI_S, {2, {7, ways[k].record}}}};
        pelgaisti_program_answer answer;
        uint32_t list[4] = {77, 77, 77, 77};
        size_t count = 99;
        cross(&book, ways[k].first, ways[k].second);
        for (uint32_t n = 1; ways[k].kind == PELGAISTI_REFUSED && n < PELGAISTI_MAX_LOCKS - 1; n++)
            CHECK(replies(&book, 1, call_of(PELGAISTI_LOCK, PELGAISTI_S, 1, 100 + n, 0), PELGAISTI_GRANTED, PELGAISTI_S));
        CHECK(pelgaisti_book_run(&book, 1, &path, &answer) == PELGAISTI_OK && answer.served == 2);
        read_replies(&path, &answer);
        CHECK(told[1].kind == ways[k].kind && answer.stop == (ways[k].kind == PELGAISTI_GRANTED ? 0 : ways[k].kind));
        CHECK(pelgaisti_book_ended(&book, list, 3, &count) == PELGAISTI_OK && count == ways[k].ended);
        CHECK(list[0] == 3 && list[1] == (count == 2 ? 2u : 77u) && list[2] == 77);
        CHECK(replies(&book, 3, poll, PELGAISTI_DEADLOCK, 0));
        /* the next path tells of none of them again */
        path.last.resource.level = 1;
        path.last.mode = PELGAISTI_IS;
        CHECK(pelgaisti_book_run(&book, 1, &path, &answer) == PELGAISTI_OK);
        CHECK(pelgaisti_book_ended(&book, list, 4, &count) == PELGAISTI_OK && count == 0);
        CHECK(pelgaisti_book_close(&book) == PELGAISTI_OK);
    }
}

/* A program whose last call is this one, with no ancestors. */
static pelgaisti_program program_of(uint32_t start, pelgaisti_call last) {
    pelgaisti_program program;
    program.start = start;
    program.level = last.resource.level - 1;
    program.above = PELGAISTI_NL;
    program.last = last;
    return program;
}

/* Whether a program gets this status, and then nothing has changed. */
static int is_unrun(pelgaisti_book *book, uint32_t session, pelgaisti_program program, pelgaisti_status status) {
    pelgaisti_program_answer answer;
    unsigned char before[sizeof answer];
    uint64_t length = 0, after = 0;
    memset(&answer, 0x55, sizeof answer);
    memcpy(before, &answer, sizeof answer);
    CHECK(length_of(book, &length) == PELGAISTI_OK);
    CHECK(pelgaisti_book_run(book, session, &program, &answer) == status);
    CHECK(length_of(book, &after) == PELGAISTI_OK);
    return after == length && !memcmp(before, &answer, sizeof answer);
}

/* Each bad number of a program gives its status, the first of them in the order of the header's comment. */
static void programs_refuse(void) {
    static const uint32_t off_starts[] = {7, 8, 255, 256, UINT32_MAX};
    static const uint32_t ends[] = {PELGAISTI_BEGIN, PELGAISTI_COMMIT, PELGAISTI_ABORT, PELGAISTI_RESTART};
    static const uint32_t on_resources[] = {PELGAISTI_LOCK, PELGAISTI_CONVERT, PELGAISTI_TRY, PELGAISTI_RELEASE};
    pelgaisti_book book = PELGAISTI_EMPTY;
    pelgaisti_program program = program_of(PELGAISTI_BEGINS, call_of(PELGAISTI_LOCK, PELGAISTI_X, 2, 7, 1));
    CHECK(open_book(&book, 3) == PELGAISTI_OK);
    program.start = 7;
    for (size_t k = 0; k < COUNT(off_sessions); k++)
        CHECK(is_unrun(&book, off_sessions[k], program, PELGAISTI_NO_SUCH_SESSION));
    program.last.op = 11;
    for (size_t k = 0; k < COUNT(off_starts); k++) {
        program.start = off_starts[k];
        CHECK(is_unrun(&book, 1, program, PELGAISTI_NO_SUCH_START));
    }
    /* no call at all, and with a last op of 0 what `start` says */
    program.start = program.last.op = 0;
    CHECK(is_unrun(&book, 1, program, PELGAISTI_NO_SUCH_OP) && is_unrun(&book, 0, program, PELGAISTI_NO_SUCH_SESSION));
    for (program.start = 0; program.start < 7; program.start++) {
        for (size_t k = 1; k < COUNT(off_ops); k++) {
            program.last.op = off_ops[k];
            program.last.resource.level = 0;
            CHECK(is_unrun(&book, 1, program, PELGAISTI_NO_SUCH_OP));
        }
        for (size_t k = 0; k < COUNT(ends); k++) {
            program.last.op = ends[k];
            CHECK(is_unrun(&book, 1, program, PELGAISTI_NO_SUCH_OP));
        }
    }
    for (size_t n = 0; n < COUNT(on_resources); n++) {
        for (size_t k = 0; k < COUNT(off_levels); k++) {
            program = program_of(PELGAISTI_BEGINS, call_of(on_resources[n], 2, off_levels[k], 1, 2));
            CHECK(is_unrun(&book, 1, program, PELGAISTI_NO_SUCH_LEVEL));
        }
        for (size_t k = 0; n < 3 && k < COUNT(off_modes); k++) {
            program = program_of(PELGAISTI_BEGINS, call_of(on_resources[n], off_modes[k], 2, 1, 2));
            program.level = 2;
            CHECK(is_unrun(&book, 1, program, PELGAISTI_NO_SUCH_MODE));
        }
        program = program_of(PELGAISTI_BEGINS, call_of(on_resources[n], PELGAISTI_X, 2, 1, 2));
        program.above = 2;
        static const uint32_t off_path[] = {2, 3, 5, 256, UINT32_MAX};
        for (size_t k = 0; k < COUNT(off_path); k++) {
            program.level = off_path[k];
            CHECK(is_unrun(&book, 1, program, PELGAISTI_NOT_ON_PATH));
        }
        for (program.level = 0; program.level < 2; program.level++)
            for (size_t k = 0; k < COUNT(off_modes); k++) {
                program.above = off_modes[k];
                CHECK(is_unrun(&book, 1, program, PELGAISTI_NO_SUCH_ABOVE));
            }
    }
    CHECK(pelgaisti_book_close(&book) == PELGAISTI_OK);
}

/* Runs a program with so many replies, of which the last has this kind; then the answer says so, and tells of nobody. */
static pelgaisti_program_answer run(pelgaisti_book *book, uint32_t session, pelgaisti_program program, uint32_t served, uint32_t kind) {
    pelgaisti_program_answer answer;
    size_t count = 99;
    uint64_t length = 0, after = 0;
    memset(&answer, 0x55, sizeof answer);
    CHECK(length_of(book, &length) == PELGAISTI_OK);
    CHECK(pelgaisti_book_run(book, session, &program, &answer) == PELGAISTI_OK);
    CHECK(length_of(book, &after) == PELGAISTI_OK && after == length + served);
    CHECK(answer.place == length && answer.served == served && answer.starved == 0);
    CHECK(pelgaisti_book_ended(book, NULL, 0, &count) == PELGAISTI_OK && count == 0);
    read_replies(&program, &answer);
    CHECK(told[served - 1].kind == kind);
    CHECK(answer.stop == (kind == PELGAISTI_WAITING || kind == PELGAISTI_DEADLOCK || kind == PELGAISTI_REFUSED ? kind : 0));
    for (uint32_t k = 0; k < PELGAISTI_CALLS; k++) CHECK(answer.values[k] == told[k].value);
    return answer;
}

/* Programs of each start, and of each last call; the longest; and one that stops at each kind of reply at which programs stop. */
static void programs_are_run(void) {
    pelgaisti_book book = PELGAISTI_EMPTY;
    pelgaisti_call none = call_of(0, 77, 78, 79, 80), poll = call_of(PELGAISTI_POLL, 77, 78, 79, 80);
    pelgaisti_call write_7 = call_of(PELGAISTI_LOCK, PELGAISTI_X, 1, 7, 0);
    pelgaisti_program longest = program_of(PELGAISTI_COMMITS_AND_BEGINS, call_of(PELGAISTI_LOCK, PELGAISTI_X, 5, 7, 1));
    pelgaisti_program_answer answer;
    pelgaisti_entry entries[PELGAISTI_CALLS];
    uint32_t list[3] = {77, 77, 77}, mode = 99;
    size_t count = 99;
    CHECK(open_book(&book, 3) == PELGAISTI_OK);
    CHECK(run(&book, 1, program_of(PELGAISTI_BEGINS, none), 1, PELGAISTI_BEGAN).values[0] == 1);
    run(&book, 1, program_of(PELGAISTI_COMMITS, none), 1, PELGAISTI_COMMITTED);
    CHECK(run(&book, 1, program_of(PELGAISTI_BEGINS, poll), 2, PELGAISTI_CLEAR).values[0] == 2 && told[0].kind == PELGAISTI_BEGAN);
    run(&book, 1, program_of(PELGAISTI_ABORTS, none), 1, PELGAISTI_ABORTED);
    CHECK(run(&book, 1, program_of(PELGAISTI_COMMITS_AND_BEGINS, none), 1, PELGAISTI_REFUSED).values[0] == PELGAISTI_NO_TRANSACTION);
    CHECK(run(&book, 1, program_of(PELGAISTI_BEGINS, none), 1, PELGAISTI_BEGAN).values[0] == 3);
    CHECK(run(&book, 1, program_of(PELGAISTI_ABORTS_AND_BEGINS, none), 2, PELGAISTI_BEGAN).values[1] == 4);
    CHECK(run(&book, 1, program_of(PELGAISTI_RESTARTS, write_7), 2, PELGAISTI_GRANTED).values[0] == 0 && told[0].kind == PELGAISTI_RESTARTED);
    CHECK(run(&book, 1, program_of(PELGAISTI_RESTARTS, none), 1, PELGAISTI_RESTARTED).values[0] == 1);
    /* seven calls: a commit, a begin and a path of five */
    longest.level = 0;
    longest.above = PELGAISTI_IX;
    answer = run(&book, 1, longest, PELGAISTI_CALLS, PELGAISTI_GRANTED);
    CHECK(told[0].kind == PELGAISTI_COMMITTED && told[1].kind == PELGAISTI_BEGAN && told[1].value == 5);
    for (int k = 2; k < 6; k++) CHECK(told[k].kind == PELGAISTI_GRANTED && told[k].value == PELGAISTI_IX);
    CHECK(told[6].value == PELGAISTI_X);
    CHECK(pelgaisti_book_history(&book, answer.place, entries, PELGAISTI_CALLS, &count) == PELGAISTI_OK && count == PELGAISTI_CALLS);
    for (size_t k = 0; k < count; k++)
        CHECK(entries[k].session == 1 && entries[k].reply.kind == told[k].kind && entries[k].reply.value == told[k].value);
    CHECK(entries[4].call.op == PELGAISTI_LOCK && entries[4].call.mode == PELGAISTI_IX && entries[4].call.resource.level == 3);
    CHECK(pelgaisti_book_held(&book, 1, &longest.last.resource, &mode) == PELGAISTI_OK && mode == PELGAISTI_X);
    /* the rest of a path, and each other last call */
    longest.start = PELGAISTI_NOTHING;
    longest.level = 3;
    longest.last.op = PELGAISTI_TRY;
    longest.last.resource.numbers[4] = 9;
    run(&book, 1, longest, 2, PELGAISTI_GRANTED);
    longest.last.op = PELGAISTI_CONVERT;
    longest.level = 4;
    run(&book, 1, longest, 1, PELGAISTI_GRANTED);
    longest.last.op = PELGAISTI_RELEASE;
    run(&book, 1, longest, 1, PELGAISTI_RELEASED);
    CHECK(run(&book, 1, longest, 1, PELGAISTI_REFUSED).values[0] == PELGAISTI_NOT_HELD);
    CHECK(run(&book, 1, program_of(PELGAISTI_NOTHING, call_of(PELGAISTI_WITHDRAW, 0, 0, 0, 0)), 1, PELGAISTI_REFUSED).values[0] ==
          PELGAISTI_NOT_WAITING);
    /* it waits at its second call, and makes no further one */
    longest = program_of(PELGAISTI_BEGINS, call_of(PELGAISTI_LOCK, PELGAISTI_S, 2, 7, 1));
    longest.level = 0;
    longest.above = PELGAISTI_SIX;
    run(&book, 2, longest, 2, PELGAISTI_WAITING);
    run(&book, 2, program_of(PELGAISTI_NOTHING, poll), 1, PELGAISTI_WAITING);
    /* the commit ends its wait, though another call follows in the program */
    longest = program_of(PELGAISTI_COMMITS_AND_BEGINS, poll);
    CHECK(pelgaisti_book_run(&book, 1, &longest, &answer) == PELGAISTI_OK && answer.served == 3);
    CHECK(pelgaisti_book_ended(&book, list, 3, &count) == PELGAISTI_OK && count == 1 && list[0] == 2);
    run(&book, 2, program_of(PELGAISTI_NOTHING, poll), 1, PELGAISTI_CLEAR);
    /* session 1 waits for 2, which would wait for 1, and is younger: a victim */
    CHECK(replies(&book, 1, call_of(PELGAISTI_LOCK, PELGAISTI_X, 1, 8, 0), PELGAISTI_GRANTED, PELGAISTI_X));
    run(&book, 2, program_of(PELGAISTI_NOTHING, call_of(PELGAISTI_LOCK, PELGAISTI_X, 1, 8, 0)), 1, PELGAISTI_WAITING);
    run(&book, 1, program_of(PELGAISTI_NOTHING, write_7), 1, PELGAISTI_DEADLOCK);
    CHECK(pelgaisti_book_close(&book) == PELGAISTI_OK);
}

/* Tries that are granted and that are refused; withdrawals of the first request of a queue and of a conversion, and their refusals.
   Session s has transaction s. */
static void tries_and_withdrawals(void) {
    pelgaisti_book book = PELGAISTI_EMPTY;
    pelgaisti_call begin = call_of(PELGAISTI_BEGIN, 0, 0, 0, 0), commit = call_of(PELGAISTI_COMMIT, 0, 0, 0, 0);
    pelgaisti_call poll = call_of(PELGAISTI_POLL, 0, 0, 0, 0), withdraw = call_of(PELGAISTI_WITHDRAW, 77, 88, 5, 6);
    pelgaisti_call try_x = call_of(PELGAISTI_TRY, PELGAISTI_X, 1, 1, 0), try_s = call_of(PELGAISTI_TRY, PELGAISTI_S, 1, 1, 0);
    pelgaisti_call read = call_of(PELGAISTI_LOCK, PELGAISTI_S, 1, 1, 0), write = call_of(PELGAISTI_LOCK, PELGAISTI_X, 1, 1, 0);
    pelgaisti_call write_two = call_of(PELGAISTI_LOCK, PELGAISTI_X, 1, 2, 0);
    pelgaisti_call read_two = call_of(PELGAISTI_LOCK, PELGAISTI_S, 1, 2, 0);
    pelgaisti_claim waiting;
    pelgaisti_entry entries[2];
    uint32_t list[4] = {77, 77, 77, 77}, mode = 99;
    size_t count = 9;

    CHECK(open_book(&book, 4) == PELGAISTI_OK);
    CHECK(replies(&book, 1, try_s, PELGAISTI_REFUSED, PELGAISTI_NO_TRANSACTION));
    CHECK(replies(&book, 1, withdraw, PELGAISTI_REFUSED, PELGAISTI_NO_TRANSACTION));
    for (uint32_t s = 1; s <= 4; s++) CHECK(replies(&book, s, begin, PELGAISTI_BEGAN, s));
    CHECK(replies(&book, 1, call_of(PELGAISTI_TRY, PELGAISTI_NL, 1, 1, 0), PELGAISTI_REFUSED, PELGAISTI_NOTHING_ASKED));
    CHECK(replies(&book, 1, call_of(PELGAISTI_TRY, PELGAISTI_S, 2, 1, 7), PELGAISTI_REFUSED, PELGAISTI_PARENT_NOT_HELD));
    CHECK(replies(&book, 1, withdraw, PELGAISTI_REFUSED, PELGAISTI_NOT_WAITING));

    /* granted to two readers, and to one that holds more; a writer would wait, and leaves nothing but the entry in the history */
    CHECK(replies(&book, 1, try_s, PELGAISTI_GRANTED, PELGAISTI_S) && replies(&book, 2, try_s, PELGAISTI_GRANTED, PELGAISTI_S));
    CHECK(replies(&book, 1, call_of(PELGAISTI_TRY, PELGAISTI_IS, 1, 1, 0), PELGAISTI_GRANTED, PELGAISTI_S));
    CHECK(replies(&book, 3, try_x, PELGAISTI_REFUSED, PELGAISTI_WOULD_WAIT));
    CHECK(replies(&book, 1, try_x, PELGAISTI_REFUSED, PELGAISTI_WOULD_WAIT));
    CHECK(pelgaisti_book_held(&book, 1, &try_x.resource, &mode) == PELGAISTI_OK && mode == PELGAISTI_S);
    CHECK(pelgaisti_book_request(&book, 3, &waiting) == PELGAISTI_OK && waiting.kind == 0);
    CHECK(pelgaisti_book_blockers(&book, 3, list, 4, &count) == PELGAISTI_OK && count == 0);
    CHECK(replies(&book, 3, poll, PELGAISTI_CLEAR, 0));

    /* the writer waits, and behind it a reader that conflicts with no holder: once the writer withdraws, the reader has the lock */
    CHECK(replies(&book, 3, write_two, PELGAISTI_GRANTED, PELGAISTI_X) && replies(&book, 3, write, PELGAISTI_WAITING, 0));
    CHECK(replies(&book, 4, try_s, PELGAISTI_REFUSED, PELGAISTI_WOULD_WAIT) && replies(&book, 4, read, PELGAISTI_WAITING, 0));
    CHECK(replies(&book, 3, try_s, PELGAISTI_REFUSED, PELGAISTI_IS_WAITING));
    CHECK(replies(&book, 3, withdraw, PELGAISTI_WITHDRAWN, 0));
    CHECK(pelgaisti_book_ended(&book, list, 4, &count) == PELGAISTI_OK && count == 1 && list[0] == 4);
    CHECK(replies(&book, 4, withdraw, PELGAISTI_REFUSED, PELGAISTI_NOT_WAITING) && replies(&book, 4, poll, PELGAISTI_CLEAR, 0));
    CHECK(pelgaisti_book_held(&book, 4, &read.resource, &mode) == PELGAISTI_OK && mode == PELGAISTI_S);
    CHECK(replies(&book, 3, withdraw, PELGAISTI_REFUSED, PELGAISTI_NOT_WAITING) && replies(&book, 3, poll, PELGAISTI_CLEAR, 0));

    /* a conversion is taken back, and its lock stays */
    CHECK(replies(&book, 1, write, PELGAISTI_WAITING, 0) && replies(&book, 1, withdraw, PELGAISTI_WITHDRAWN, 0));
    CHECK(pelgaisti_book_held(&book, 1, &write.resource, &mode) == PELGAISTI_OK && mode == PELGAISTI_S);
    CHECK(pelgaisti_book_ended(&book, list, 4, &count) == PELGAISTI_OK && count == 0);

    /* 4 waits for 3, and then 3 for 4 among others: 4 is the younger, and has no request any more */
    CHECK(replies(&book, 4, read_two, PELGAISTI_WAITING, 0) && replies(&book, 3, write, PELGAISTI_WAITING, 0));
    CHECK(pelgaisti_book_ended(&book, list, 4, &count) == PELGAISTI_OK && count == 1 && list[0] == 4);
    CHECK(replies(&book, 4, withdraw, PELGAISTI_REFUSED, PELGAISTI_IS_DOOMED));
    CHECK(replies(&book, 4, try_s, PELGAISTI_REFUSED, PELGAISTI_IS_DOOMED) && replies(&book, 4, poll, PELGAISTI_DEADLOCK, 0));
    CHECK(replies(&book, 4, call_of(PELGAISTI_ABORT, 0, 0, 0, 0), PELGAISTI_ABORTED, 1));

    /* in a batch; the numbers that a withdrawal doesn't use become 0 */
    memset(entries, 0x55, sizeof entries);
    entries[0].session = 3;
    entries[0].call = withdraw;
    entries[1].session = 3;
    entries[1].call = try_s;
    CHECK(pelgaisti_book_serve_batch(&book, entries, 2, &count) == PELGAISTI_OK && count == 2);
    CHECK(entries[0].call.op == 9 && entries[0].call.mode == 0 && entries[0].call.resource.level == 0);
    CHECK(entries[0].reply.kind == 10 && entries[0].reply.value == 0);
    CHECK(entries[1].call.op == 8 && entries[1].call.mode == PELGAISTI_S && entries[1].call.resource.level == 1);
    CHECK(entries[1].reply.kind == PELGAISTI_GRANTED && entries[1].reply.value == PELGAISTI_S);
    for (uint32_t s = 1; s <= 3; s++) CHECK(replies(&book, s, commit, PELGAISTI_COMMITTED, s == 3 ? 2 : 1));
    CHECK(pelgaisti_book_close(&book) == PELGAISTI_OK);
}

/* A victim restarts: its locks are given back, and its transaction goes on with its number. It is the older one of the next cycle, and
   is spared. A session that waits restarts too. Session s has transaction s. */
static void restarts(void) {
    pelgaisti_book book = PELGAISTI_EMPTY;
    pelgaisti_call begin = call_of(PELGAISTI_BEGIN, 0, 0, 0, 0), commit = call_of(PELGAISTI_COMMIT, 0, 0, 0, 0);
    pelgaisti_call poll = call_of(PELGAISTI_POLL, 0, 0, 0, 0), restart = call_of(PELGAISTI_RESTART, 77, 88, 5, 6);
    pelgaisti_call one = call_of(PELGAISTI_LOCK, PELGAISTI_X, 1, 1, 0), two = call_of(PELGAISTI_LOCK, PELGAISTI_X, 1, 2, 0);
    pelgaisti_entry entry;
    pelgaisti_transaction open;
    uint32_t list[3] = {77, 77, 77}, mode = 99;
    size_t count = 9;

    CHECK(open_book(&book, 3) == PELGAISTI_OK);
    CHECK(replies(&book, 1, restart, PELGAISTI_REFUSED, PELGAISTI_NO_TRANSACTION));
    for (uint32_t s = 1; s <= 2; s++) CHECK(replies(&book, s, begin, PELGAISTI_BEGAN, s));
    CHECK(replies(&book, 1, one, PELGAISTI_GRANTED, PELGAISTI_X) && replies(&book, 2, two, PELGAISTI_GRANTED, PELGAISTI_X));
    CHECK(replies(&book, 1, two, PELGAISTI_WAITING, 0) && replies(&book, 2, one, PELGAISTI_DEADLOCK, 0));
    CHECK(replies(&book, 2, restart, PELGAISTI_RESTARTED, 1));
    CHECK(pelgaisti_book_ended(&book, list, 3, &count) == PELGAISTI_OK && count == 1 && list[0] == 1);
    CHECK(pelgaisti_book_held(&book, 2, &two.resource, &mode) == PELGAISTI_OK && mode == PELGAISTI_NL);
    CHECK(pelgaisti_book_transaction(&book, 2, &open) == PELGAISTI_OK && open.number == 2 && open.doomed == 0);
    CHECK(replies(&book, 2, poll, PELGAISTI_CLEAR, 0) && replies(&book, 2, begin, PELGAISTI_REFUSED, PELGAISTI_ALREADY_OPEN));
    CHECK(replies(&book, 1, commit, PELGAISTI_COMMITTED, 2));

    /* transaction 3, of session 1, closes a cycle with transaction 2: the younger is the victim */
    CHECK(replies(&book, 1, begin, PELGAISTI_BEGAN, 3));
    CHECK(replies(&book, 2, two, PELGAISTI_GRANTED, PELGAISTI_X) && replies(&book, 1, one, PELGAISTI_GRANTED, PELGAISTI_X));
    CHECK(replies(&book, 2, one, PELGAISTI_WAITING, 0) && replies(&book, 1, two, PELGAISTI_DEADLOCK, 0));

    /* a session that waits restarts: its request goes, and so does its lock */
    CHECK(replies(&book, 2, restart, PELGAISTI_RESTARTED, 1) && replies(&book, 2, restart, PELGAISTI_RESTARTED, 0));
    CHECK(pelgaisti_book_ended(&book, list, 3, &count) == PELGAISTI_OK && count == 0);
    CHECK(replies(&book, 1, restart, PELGAISTI_RESTARTED, 1) && replies(&book, 1, commit, PELGAISTI_COMMITTED, 0));

    /* in a batch; the numbers that a restart doesn't use become 0 */
    memset(&entry, 0x55, sizeof entry);
    entry.session = 2;
    entry.call = restart;
    CHECK(pelgaisti_book_serve_batch(&book, &entry, 1, &count) == PELGAISTI_OK && count == 1);
    CHECK(entry.call.op == 10 && entry.call.mode == 0 && entry.call.resource.level == 0);
    CHECK(entry.reply.kind == 11 && entry.reply.value == 0 && replies(&book, 2, commit, PELGAISTI_COMMITTED, 0));
    CHECK(pelgaisti_book_close(&book) == PELGAISTI_OK);
}

static void close_all(pelgaisti_session *sessions, int count, pelgaisti_book *book) {
    for (int s = count - 1; s > 0; s--) CHECK(pelgaisti_session_hand_in(&sessions[s], &sessions[0]) == PELGAISTI_OK);
    CHECK(pelgaisti_office_close(&sessions[0], book) == PELGAISTI_OK);
}

/* Whether the claim is this one, of the session's transaction with the session's number. */
static int is_claim(const pelgaisti_claim *claim, uint32_t session, uint32_t kind, uint32_t mode, uint32_t level, uint32_t doomed) {
    return claim->session == session && claim->kind == kind && claim->mode == mode && claim->transaction == session &&
           claim->doomed == doomed && claim->resource.level == level && claim->resource.numbers[0] == 1 &&
           claim->resource.numbers[1] == (level > 1 ? 2U : 0U) && claim->resource.numbers[4] == 0;
}

/* Session 1 reads database 1 and a file of it, and then wants to write the database, which session 2 reads as well. Session 3 wants
   to read below the database. */
static const uint32_t claimed[][4] = {{1, PELGAISTI_LOCK, PELGAISTI_S, 1},  {2, PELGAISTI_LOCK, PELGAISTI_IS, 1},
                                      {1, PELGAISTI_LOCK, PELGAISTI_S, 2},  {2, PELGAISTI_CONVERT, PELGAISTI_S, 1},
                                      {1, PELGAISTI_CONVERT, PELGAISTI_X, 1}, {3, PELGAISTI_LOCK, PELGAISTI_IS, 1}};

/* Expects the lines of that, worked out by hand: two holders of the database, the conversion, the request; and the file's holder. */
static void want_claims(const pelgaisti_claim *list, size_t count) {
    CHECK(count == 5);
    CHECK(is_claim(&list[0], 1, PELGAISTI_HELD, PELGAISTI_S, 1, 0) && is_claim(&list[1], 2, PELGAISTI_HELD, PELGAISTI_S, 1, 0));
    CHECK(is_claim(&list[2], 1, PELGAISTI_CONVERSION, PELGAISTI_X, 1, 0) && is_claim(&list[3], 3, PELGAISTI_FRESH, PELGAISTI_IS, 1, 0));
    CHECK(is_claim(&list[4], 1, PELGAISTI_HELD, PELGAISTI_S, 2, 0));
}

/* What the sessions of a book hold and wait for. */
static void claims_of_a_book(void) {
    pelgaisti_book book = PELGAISTI_EMPTY;
    pelgaisti_call begin = call_of(PELGAISTI_BEGIN, 0, 0, 0, 0), abort = call_of(PELGAISTI_ABORT, 0, 0, 0, 0);
    pelgaisti_call write = call_of(PELGAISTI_CONVERT, PELGAISTI_X, 1, 1, 0);
    pelgaisti_reply reply;
    pelgaisti_transaction open = {77, 88};
    pelgaisti_claim claim;

    memset(&claim, 0x55, sizeof claim);
    CHECK(pelgaisti_book_transaction(&book, 1, &open) == PELGAISTI_CLOSED);
    CHECK(pelgaisti_book_request(&book, 1, &claim) == PELGAISTI_CLOSED);
    CHECK(open_book(&book, 3) == PELGAISTI_OK);
    CHECK(pelgaisti_book_transaction(NULL, 1, &open) == PELGAISTI_NULL && pelgaisti_book_transaction(&book, 1, NULL) == PELGAISTI_NULL);
    CHECK(pelgaisti_book_request(NULL, 1, &claim) == PELGAISTI_NULL && pelgaisti_book_request(&book, 1, NULL) == PELGAISTI_NULL);
    for (size_t k = 0; k < COUNT(off_sessions); k++) {
        CHECK(pelgaisti_book_transaction(&book, off_sessions[k], &open) == PELGAISTI_NO_SUCH_SESSION);
        CHECK(pelgaisti_book_request(&book, off_sessions[k], &claim) == PELGAISTI_NO_SUCH_SESSION);
    }
    CHECK(open.number == 77 && open.doomed == 88 && claim.kind == 0x55555555);
    CHECK(pelgaisti_book_transaction(&book, 1, &open) == PELGAISTI_OK && open.number == 0 && open.doomed == 0);
    CHECK(pelgaisti_book_request(&book, 1, &claim) == PELGAISTI_OK && claim.kind == 0 && claim.resource.level == 0);
    for (uint32_t s = 1; s <= 3; s++) CHECK(pelgaisti_book_serve(&book, s, &begin, &reply) == PELGAISTI_OK);
    for (size_t k = 0; k < COUNT(claimed); k++) {
        pelgaisti_call call = call_of(claimed[k][1], claimed[k][2], claimed[k][3], 1, claimed[k][3] > 1 ? 2 : 0);
        CHECK(pelgaisti_book_serve(&book, claimed[k][0], &call, &reply) == PELGAISTI_OK);
        CHECK(reply.kind == (k < 4 ? PELGAISTI_GRANTED : PELGAISTI_WAITING));
    }
    CHECK(pelgaisti_book_request(&book, 1, &claim) == PELGAISTI_OK && is_claim(&claim, 1, PELGAISTI_CONVERSION, PELGAISTI_X, 1, 0));
    CHECK(pelgaisti_book_request(&book, 2, &claim) == PELGAISTI_OK && claim.kind == 0 && claim.session == 0);
    /* session 2, whose transaction is the youngest of the two, wants to write as well: a deadlock */
    CHECK(pelgaisti_book_serve(&book, 2, &write, &reply) == PELGAISTI_OK && reply.kind == PELGAISTI_DEADLOCK);
    CHECK(pelgaisti_book_transaction(&book, 2, &open) == PELGAISTI_OK && open.number == 2 && open.doomed == 1);
    CHECK(pelgaisti_book_transaction(&book, 1, &open) == PELGAISTI_OK && open.number == 1 && open.doomed == 0);
    CHECK(pelgaisti_book_serve(&book, 2, &abort, &reply) == PELGAISTI_OK && reply.kind == PELGAISTI_ABORTED);
    CHECK(pelgaisti_book_transaction(&book, 2, &open) == PELGAISTI_OK && open.number == 0);
    CHECK(pelgaisti_book_close(&book) == PELGAISTI_OK);
}

/* Whether the row tells the open transaction of the session, whose number is the session's. */
static int is_transaction(const pelgaisti_claim *row, uint32_t session, uint32_t doomed) {
    return row->session == session && row->kind == PELGAISTI_TRANSACTION_ROW && row->mode == 0 && row->transaction == session &&
           row->doomed == doomed && row->resource.level == 0 && row->resource.numbers[0] == 0 && row->resource.numbers[4] == 0;
}

/* Expects these lines to be the text of the dump, each written whole, and also where there is little room for it. */
static void want_text(const pelgaisti_claim *rows, size_t count, const char *const *lines, size_t line_count) {
    pelgaisti_dumping at = PELGAISTI_DUMPING, again = at;
    char line[100], short_line[8];
    for (size_t k = 0; k < line_count; k++) {
        const size_t length = strlen(lines[k]);
        CHECK(pelgaisti_dump_line(rows, count, &at, line, sizeof line) == length && !strcmp(line, lines[k]));
        CHECK(pelgaisti_dump_line(rows, count, &again, short_line, sizeof short_line) == length && !strncmp(short_line, lines[k], 7));
        CHECK(strlen(short_line) == 7);
    }
    for (int k = 0; k < 2; k++) CHECK(pelgaisti_dump_line(rows, count, &at, line, sizeof line) == 0);
}

/* The longest lines have 98 bytes, for which 100 are room enough. */
static void long_lines(void) {
    static const char *const told[] = {
        "held,1024,18446744073709551615,victim,4294967295/4294967295/4294967295/4294967295/4294967295,SIX,\n",
        "conversion,1024,18446744073709551615,,4294967295/4294967295/4294967295/4294967295/4294967295,SIX,\n"};
    pelgaisti_claim rows[2];
    for (uint32_t k = 0; k < 2; k++) {
        memset(&rows[k], 0xff, sizeof rows[k]);
        rows[k].session = 1024;
        rows[k].kind = k ? PELGAISTI_CONVERSION : PELGAISTI_HELD;
        rows[k].mode = PELGAISTI_SIX;
        rows[k].doomed = 1 - k;
        rows[k].resource.level = 5;
        CHECK(strlen(told[k]) == 98);
    }
    want_text(rows, 2, told, 2);
}

/* A dump of a book: its open transactions, and then its locks and waiting requests, with the place in the history. */
static void dumps_of_a_book(void) {
    static const char *const told[] = {"transaction,1,1,,,,\n",  "transaction,2,2,,,,\n", "transaction,3,3,,,,\n", "held,1,1,,1,S,\n",
                                       "held,2,2,,1,S,\n",       "conversion,1,1,,1,X,\n", "fresh,3,3,,1,IS,\n",   "held,1,1,,1/2,S,\n",
                                       "waits,1,,,,,2\n",        "waits,3,,,,,1\n"};
    static const char *const victim[] = {"transaction,1,1,,,,\n", "transaction,2,2,victim,,,\n", "transaction,3,3,,,,\n"};
    pelgaisti_book book = PELGAISTI_EMPTY;
    pelgaisti_call begin = call_of(PELGAISTI_BEGIN, 0, 0, 0, 0), abort = call_of(PELGAISTI_ABORT, 0, 0, 0, 0);
    pelgaisti_call write = call_of(PELGAISTI_CONVERT, PELGAISTI_X, 1, 1, 0);
    pelgaisti_reply reply;
    pelgaisti_claim rows[9];
    uint64_t place = 99;
    size_t count = 99;

    memset(rows, 0x55, sizeof rows);
    CHECK(pelgaisti_book_dump(&book, rows, 9, &count, &place) == PELGAISTI_CLOSED);
    CHECK(open_book(&book, 3) == PELGAISTI_OK);
    CHECK(pelgaisti_book_dump(NULL, rows, 9, &count, &place) == PELGAISTI_NULL);
    CHECK(pelgaisti_book_dump(&book, NULL, 9, &count, &place) == PELGAISTI_NULL);
    CHECK(pelgaisti_book_dump(&book, rows, 9, NULL, &place) == PELGAISTI_NULL);
    CHECK(pelgaisti_book_dump(&book, rows, 9, &count, NULL) == PELGAISTI_NULL);
    CHECK(rows[0].kind == 0x55555555 && count == 99 && place == 99);
    CHECK(pelgaisti_book_dump(&book, NULL, 0, &count, &place) == PELGAISTI_OK && count == 0 && place == 0);
    want_text(NULL, 0, NULL, 0);
    for (uint32_t s = 1; s <= 3; s++) CHECK(pelgaisti_book_serve(&book, s, &begin, &reply) == PELGAISTI_OK);
    for (size_t k = 0; k < COUNT(claimed); k++) {
        pelgaisti_call call = call_of(claimed[k][1], claimed[k][2], claimed[k][3], 1, claimed[k][3] > 1 ? 2 : 0);
        CHECK(pelgaisti_book_serve(&book, claimed[k][0], &call, &reply) == PELGAISTI_OK);
    }
    CHECK(pelgaisti_book_dump(&book, rows, 9, &count, &place) == PELGAISTI_OK && count == 8 && place == 9 && rows[8].kind == 0x55555555);
    for (uint32_t s = 1; s <= 3; s++) CHECK(is_transaction(&rows[s - 1], s, 0));
    want_claims(rows + 3, count - 3);
    want_text(rows, count, told, COUNT(told));

    /* with less room the first rows are written; a dump with room for none tells how many there are */
    memset(rows, 0x55, sizeof rows);
    CHECK(pelgaisti_book_dump(&book, rows, 4, &count, &place) == PELGAISTI_OK && count == 8 && place == 9 && rows[4].kind == 0x55555555);
    CHECK(is_transaction(&rows[2], 3, 0) && is_claim(&rows[3], 1, PELGAISTI_HELD, PELGAISTI_S, 1, 0));
    CHECK(pelgaisti_book_dump(&book, NULL, 0, &count, &place) == PELGAISTI_OK && count == 8 && place == 9);

    /* session 2, whose transaction is the youngest of the two, wants to write as well: a deadlock */
    CHECK(pelgaisti_book_serve(&book, 2, &write, &reply) == PELGAISTI_OK && reply.kind == PELGAISTI_DEADLOCK);
    CHECK(pelgaisti_book_dump(&book, rows, 9, &count, &place) == PELGAISTI_OK && count == 8 && place == 10);
    CHECK(is_transaction(&rows[1], 2, 1) && is_claim(&rows[4], 2, PELGAISTI_HELD, PELGAISTI_S, 1, 1));
    want_text(rows, 3, victim, COUNT(victim));
    for (uint32_t s = 1; s <= 3; s++) CHECK(pelgaisti_book_serve(&book, s, &abort, &reply) == PELGAISTI_OK);
    CHECK(pelgaisti_book_dump(&book, rows, 9, &count, &place) == PELGAISTI_OK && count == 0 && place == 13);
    CHECK(pelgaisti_book_close(&book) == PELGAISTI_OK);
}

/* Session 1 locks the database 1 in IX, the files 1/3, 1/1 and 1/2 in IX, X and X, and the page 1/3/0 in X, in this order; session 2 the
   database in IX. In the order of paths session 1 holds 1, 1/1, 1/2, 1/3, 1/3/0. */
static const uint32_t paged[6][5] = {{1, PELGAISTI_IX, 1, 1, 0}, {1, PELGAISTI_IX, 2, 1, 3}, {1, PELGAISTI_X, 2, 1, 1}, {1, PELGAISTI_X, 2, 1, 2},
                                     {1, PELGAISTI_X, 3, 1, 3}, {2, PELGAISTI_IX, 1, 1, 0}};

/* Whether this is the lock of session 1 on a resource of this level, below 1 the child of that number. */
static int is_paged(const pelgaisti_claim *claim, uint32_t mode, uint32_t level, uint32_t child) {
    return claim->session == 1 && claim->kind == PELGAISTI_HELD && claim->mode == mode && claim->resource.level == level &&
           claim->resource.numbers[0] == 1 && claim->resource.numbers[1] == child && claim->transaction == 1 && claim->doomed == 0;
}

/* How many locks a session of a book holds, and pages of them. */
static void pages_of_a_book(void) {
    pelgaisti_book book = PELGAISTI_EMPTY;
    pelgaisti_call begin = call_of(PELGAISTI_BEGIN, 0, 0, 0, 0), release = call_of(PELGAISTI_RELEASE, 0, 2, 1, 1);
    pelgaisti_call weaker = call_of(PELGAISTI_LOCK, PELGAISTI_S, 2, 1, 0), stronger = call_of(PELGAISTI_CONVERT, PELGAISTI_X, 2, 1, 3);
    pelgaisti_resource first = {0, {9, 9}}, after;
    pelgaisti_claim list[6];
    pelgaisti_reply reply;
    size_t count = 99;

    memset(list, 0x55, sizeof list);
    CHECK(pelgaisti_book_locks_held(&book, 1, &count) == PELGAISTI_CLOSED);
    CHECK(pelgaisti_book_locks_of(&book, 1, &first, list, 6, &count) == PELGAISTI_CLOSED);
    CHECK(open_book(&book, 3) == PELGAISTI_OK);
    CHECK(pelgaisti_book_locks_held(NULL, 1, &count) == PELGAISTI_NULL && pelgaisti_book_locks_held(&book, 1, NULL) == PELGAISTI_NULL);
    CHECK(pelgaisti_book_locks_of(NULL, 1, &first, list, 6, &count) == PELGAISTI_NULL);
    CHECK(pelgaisti_book_locks_of(&book, 1, NULL, list, 6, &count) == PELGAISTI_NULL);
    CHECK(pelgaisti_book_locks_of(&book, 1, &first, NULL, 6, &count) == PELGAISTI_NULL);
    CHECK(pelgaisti_book_locks_of(&book, 1, &first, list, 6, NULL) == PELGAISTI_NULL);
    for (size_t k = 0; k < COUNT(off_sessions); k++) {
        CHECK(pelgaisti_book_locks_held(&book, off_sessions[k], &count) == PELGAISTI_NO_SUCH_SESSION);
        CHECK(pelgaisti_book_locks_of(&book, off_sessions[k], &first, list, 6, &count) == PELGAISTI_NO_SUCH_SESSION);
    }
    for (size_t k = 0; k < COUNT(off_levels); k++) {
        after = first;
        after.level = off_levels[k];
        if (after.level == 0) continue;
        CHECK(pelgaisti_book_locks_of(&book, 0, &after, list, 6, &count) == PELGAISTI_NO_SUCH_SESSION);
        CHECK(pelgaisti_book_locks_of(&book, 1, &after, list, 6, &count) == PELGAISTI_NO_SUCH_LEVEL);
    }
    CHECK(list[0].kind == 0x55555555 && count == 99);
    CHECK(pelgaisti_book_locks_held(&book, 1, &count) == PELGAISTI_OK && count == 0);
    CHECK(pelgaisti_book_locks_of(&book, 1, &first, list, 6, &count) == PELGAISTI_OK && count == 0 && list[0].kind == 0x55555555);
    for (uint32_t s = 1; s <= 2; s++) CHECK(pelgaisti_book_serve(&book, s, &begin, &reply) == PELGAISTI_OK);
    for (size_t k = 0; k < COUNT(paged); k++) {
        pelgaisti_call call = call_of(PELGAISTI_LOCK, paged[k][1], paged[k][2], paged[k][3], paged[k][4]);
        CHECK(pelgaisti_book_serve(&book, paged[k][0], &call, &reply) == PELGAISTI_OK && reply.kind == PELGAISTI_GRANTED);
    }
    CHECK(pelgaisti_book_locks_held(&book, 1, &count) == PELGAISTI_OK && count == 5);
    CHECK(pelgaisti_book_locks_held(&book, 2, &count) == PELGAISTI_OK && count == 1);
    CHECK(pelgaisti_book_locks_held(&book, 3, &count) == PELGAISTI_OK && count == 0);

    /* a page of two, and from behind its last lock the other three; a page with room for none */
    CHECK(pelgaisti_book_locks_of(&book, 1, &first, list, 2, &count) == PELGAISTI_OK && count == 2 && list[2].kind == 0x55555555);
    CHECK(is_paged(&list[0], PELGAISTI_IX, 1, 0) && is_paged(&list[1], PELGAISTI_X, 2, 1));
    after = list[1].resource;
    CHECK(pelgaisti_book_locks_of(&book, 1, &after, list, 6, &count) == PELGAISTI_OK && count == 3 && list[3].kind == 0x55555555);
    CHECK(is_paged(&list[0], PELGAISTI_X, 2, 2) && is_paged(&list[1], PELGAISTI_IX, 2, 3) && is_paged(&list[2], PELGAISTI_X, 3, 3));
    CHECK(pelgaisti_book_locks_of(&book, 1, &first, NULL, 0, &count) == PELGAISTI_OK && count == 0);

    /* between two pages a lock that was told goes, one that is to come is converted, and one comes before the place */
    CHECK(pelgaisti_book_serve(&book, 1, &release, &reply) == PELGAISTI_OK && reply.kind == PELGAISTI_RELEASED);
    CHECK(pelgaisti_book_serve(&book, 1, &stronger, &reply) == PELGAISTI_OK && reply.kind == PELGAISTI_GRANTED);
    CHECK(pelgaisti_book_serve(&book, 1, &weaker, &reply) == PELGAISTI_OK && reply.kind == PELGAISTI_GRANTED);
    CHECK(pelgaisti_book_locks_of(&book, 1, &after, list, 3, &count) == PELGAISTI_OK && count == 3);
    CHECK(is_paged(&list[0], PELGAISTI_X, 2, 2) && is_paged(&list[1], PELGAISTI_X, 2, 3) && is_paged(&list[2], PELGAISTI_X, 3, 3));
    after = list[2].resource;
    CHECK(pelgaisti_book_locks_of(&book, 1, &after, list, 3, &count) == PELGAISTI_OK && count == 0);

    /* a page may begin behind a resource that nobody holds, and behind that of another */
    after.level = 5;
    after.numbers[0] = 0;
    CHECK(pelgaisti_book_locks_of(&book, 2, &after, list, 6, &count) == PELGAISTI_OK && count == 1 && list[0].session == 2);
    after.numbers[0] = 2;
    CHECK(pelgaisti_book_locks_of(&book, 2, &after, list, 6, &count) == PELGAISTI_OK && count == 0);
    CHECK(pelgaisti_book_close(&book) == PELGAISTI_OK);
}

/* Pages that are gathered and pages that are sorted tell the same: of 200 locks, taken from the last to the first and some of them released. */
static void pages_of_many_locks(void) {
    enum { LOCKS = 200 };
    pelgaisti_book book = PELGAISTI_EMPTY;
    pelgaisti_call begin = call_of(PELGAISTI_BEGIN, 0, 0, 0, 0), root = call_of(PELGAISTI_LOCK, PELGAISTI_IX, 1, 1, 0);
    static pelgaisti_claim all[LOCKS + 2], list[LOCKS + 1];
    pelgaisti_reply reply;
    uint64_t place;
    size_t count = 99, room, at;

    CHECK(open_book(&book, 1) == PELGAISTI_OK && pelgaisti_book_serve(&book, 1, &begin, &reply) == PELGAISTI_OK);
    CHECK(pelgaisti_book_serve(&book, 1, &root, &reply) == PELGAISTI_OK);
    for (uint32_t k = LOCKS; k > 0; k--) {
        pelgaisti_call call = call_of(PELGAISTI_LOCK, PELGAISTI_X, 2, 1, k);
        CHECK(pelgaisti_book_serve(&book, 1, &call, &reply) == PELGAISTI_OK && reply.kind == PELGAISTI_GRANTED);
    }
    for (uint32_t k = 3; k <= LOCKS; k += 3) { /* 66 of them: the others are indexed then */
        pelgaisti_call call = call_of(PELGAISTI_RELEASE, 0, 2, 1, k);
        CHECK(pelgaisti_book_serve(&book, 1, &call, &reply) == PELGAISTI_OK && reply.kind == PELGAISTI_RELEASED);
    }
    for (uint32_t k = 6; k <= LOCKS; k += 6) { /* 33 of them again, which are recent */
        pelgaisti_call call = call_of(PELGAISTI_LOCK, PELGAISTI_X, 2, 1, k);
        CHECK(pelgaisti_book_serve(&book, 1, &call, &reply) == PELGAISTI_OK && reply.kind == PELGAISTI_GRANTED);
    }
    CHECK(pelgaisti_book_locks_held(&book, 1, &count) == PELGAISTI_OK && count == 168);
    CHECK(pelgaisti_book_dump(&book, all, LOCKS + 2, &count, &place) == PELGAISTI_OK && count == 169); /* behind the transaction's row */
    for (room = 1; room <= LOCKS; room++) {
        pelgaisti_resource after = {0, {0}};
        for (at = 0, count = room; count == room; at += count) {
            CHECK(pelgaisti_book_locks_of(&book, 1, &after, list, room, &count) == PELGAISTI_OK && at + count <= 168);
            CHECK(!memcmp(list, all + 1 + at, count * sizeof list[0]));
            if (count > 0) after = list[count - 1].resource;
        }
        CHECK(at == 168);
    }
    CHECK(pelgaisti_book_close(&book) == PELGAISTI_OK);
}

/* Seeds of books and offices that are to have the same history. With the last one it is drawn. */
static const uint64_t seeds[] = {5, 1, UINT64_MAX, 0};

/* What is drawn for the next call: the same numbers in each run. */
static uint32_t draw(uint32_t *state, uint32_t below) {
    *state = *state * 1664525u + 1013904223u;
    return (*state >> 8) % below;
}

/* The next call of a run by 8 sessions over 40 databases and 160 files of theirs, and whose it is: a begin in 3 of 40, a lock in 29, and else
   any call. */
static pelgaisti_call draw_call(uint32_t *state, uint32_t *session) {
    static const uint32_t modes[] = {PELGAISTI_IS, PELGAISTI_IX, PELGAISTI_S, PELGAISTI_X};
    uint32_t op = draw(state, 40), mode = modes[draw(state, 4)], level = 1 + (draw(state, 4) == 0), database = draw(state, 40);
    *session = 1 + draw(state, 8);
    if (op < 3) op = PELGAISTI_BEGIN;
    else if (op > PELGAISTI_RESTART) op = PELGAISTI_LOCK;
    return call_of(op, mode, level, database, level > 1 ? draw(state, 4) : 0);
}

/* Whether both are the same entry. Between the fields of a reply are bytes that are nothing. */
static int is_same_entry(const pelgaisti_entry *one, const pelgaisti_entry *two) {
    return one->session == two->session && !memcmp(&one->call, &two->call, sizeof one->call) && one->reply.kind == two->reply.kind &&
           one->reply.value == two->reply.value;
}

enum { DRAWN = 3000 };

/* Whether the book has the history of `entries`, or if `is_first`, notes it there; and the same of its locks. It has more than 400 grants. */
static void want_history(pelgaisti_book *book, int is_first) {
    static pelgaisti_entry entries[DRAWN], others[DRAWN];
    static pelgaisti_claim claims[DRAWN], their_claims[DRAWN];
    static size_t lines;
    uint64_t place;
    size_t count = 0, granted = 0, differ = 0;
    CHECK(pelgaisti_book_history(book, 0, is_first ? entries : others, DRAWN, &count) == PELGAISTI_OK && count == DRAWN);
    for (size_t k = 0; k < DRAWN && is_first; k++) granted += entries[k].reply.kind == PELGAISTI_GRANTED;
    for (size_t k = 0; k < DRAWN && !is_first; k++) differ += !is_same_entry(&entries[k], &others[k]);
    CHECK(differ == 0 && (!is_first || granted > 400));
    CHECK(pelgaisti_book_dump(book, is_first ? claims : their_claims, DRAWN, &count, &place) == PELGAISTI_OK && count > 0 && count <= DRAWN);
    if (is_first) lines = count;
    CHECK(count == lines && (is_first || !memcmp(claims, their_claims, count * sizeof *claims)));
}

/* The same calls give the same history and the same locks, whatever the seed, and if room is made and memory is given back meanwhile. */
static void no_history_depends_on_seeds(void) {
    static pelgaisti_session sessions[8];
    pelgaisti_book book = PELGAISTI_EMPTY, view = PELGAISTI_EMPTY;
    pelgaisti_reply reply;
    pelgaisti_answer answer;
    pelgaisti_options options = PELGAISTI_OPTIONS(8);
    options.keep = UINT64_MAX;
    for (size_t k = 0; k < 2 * COUNT(seeds); k++) {
        const int is_office = k % 2;
        uint32_t state = 1, session, failures = 0;
        options.seed = seeds[k / 2];
        CHECK((is_office ? pelgaisti_office_open(sessions, &options) : pelgaisti_book_open(&book, &options)) == PELGAISTI_OK);
        for (uint32_t n = 0; n < DRAWN; n++) {
            pelgaisti_call call = draw_call(&state, &session);
            if (is_office) {
                failures += pelgaisti_session_perform(&sessions[session - 1], &call, 9, &answer) != PELGAISTI_OK;
                if (n % 50 == 0) look(&sessions[n % 8], &view);
                if (n % 100 == 50) failures += pelgaisti_book_reserve(&view, n, n) != PELGAISTI_OK;
                if (n % 100 == 0) failures += pelgaisti_book_shrink(&view) != PELGAISTI_OK;
                if (n % 50 == 0) end_look(&sessions[n % 8], &view);
            } else {
                failures += pelgaisti_book_serve(&book, session, &call, &reply) != PELGAISTI_OK;
                if (k > 0 && n % 100 == 50) failures += pelgaisti_book_reserve(&book, n, n) != PELGAISTI_OK;
                if (k > 0 && n % 100 == 0) failures += pelgaisti_book_shrink(&book) != PELGAISTI_OK;
            }
        }
        CHECK(failures == 0);
        for (int s = 1; s < 8 && is_office; s++) CHECK(pelgaisti_session_hand_in(&sessions[s], &sessions[0]) == PELGAISTI_OK);
        if (is_office) CHECK(pelgaisti_office_close(&sessions[0], &book) == PELGAISTI_OK);
        want_history(&book, k == 0);
        CHECK(pelgaisti_book_close(&book) == PELGAISTI_OK);
    }
}

/* A book is opened with a seed as without one. Room that can't be made is refused. A resource that nobody holds any more leaves an idle
   cell, which the next new one takes; a shrink takes away those that are left. */
static void memory_of_a_book(void) {
    pelgaisti_book book = PELGAISTI_EMPTY;
    pelgaisti_options options = PELGAISTI_OPTIONS(2);
    pelgaisti_call begin = call_of(PELGAISTI_BEGIN, 0, 0, 0, 0), commit = call_of(PELGAISTI_COMMIT, 0, 0, 0, 0);
    pelgaisti_reply reply;
    uint32_t mode;
    uint64_t length = 0;
    options.seed = 7;
    CHECK(pelgaisti_book_reserve(&book, 1, 1) == PELGAISTI_CLOSED && pelgaisti_book_shrink(&book) == PELGAISTI_CLOSED);
    CHECK(pelgaisti_book_open(NULL, &options) == PELGAISTI_NULL && pelgaisti_book_open(&book, &options) == PELGAISTI_OK);
    CHECK(pelgaisti_book_open(&book, &options) == PELGAISTI_OPEN);
    CHECK(pelgaisti_book_reserve(NULL, 1, 1) == PELGAISTI_NULL && pelgaisti_book_shrink(NULL) == PELGAISTI_NULL);
    CHECK(pelgaisti_book_reserve(&book, SIZE_MAX, 0) == PELGAISTI_NO_MEMORY);
    CHECK(pelgaisti_book_reserve(&book, 0, SIZE_MAX) == PELGAISTI_NO_MEMORY);
    CHECK(pelgaisti_book_reserve(&book, 0, 0) == PELGAISTI_OK && pelgaisti_book_reserve(&book, 100, 100) == PELGAISTI_OK);
    CHECK(idle_cells_of(&book) == 0); /* room is no cell */
    CHECK(pelgaisti_book_serve(&book, 1, &begin, &reply) == PELGAISTI_OK);
    for (uint32_t k = 1; k <= 3; k++) {
        pelgaisti_call lock = call_of(PELGAISTI_LOCK, PELGAISTI_X, 1, k, 0);
        CHECK(pelgaisti_book_serve(&book, 1, &lock, &reply) == PELGAISTI_OK && reply.kind == PELGAISTI_GRANTED);
    }
    CHECK(idle_cells_of(&book) == 0);
    CHECK(pelgaisti_book_serve(&book, 1, &commit, &reply) == PELGAISTI_OK && reply.value == 3);
    CHECK(idle_cells_of(&book) == 3);
    CHECK(pelgaisti_book_serve(&book, 2, &begin, &reply) == PELGAISTI_OK);
    pelgaisti_call lock = call_of(PELGAISTI_LOCK, PELGAISTI_X, 1, 9, 0);
    CHECK(pelgaisti_book_serve(&book, 2, &lock, &reply) == PELGAISTI_OK && reply.kind == PELGAISTI_GRANTED);
    CHECK(idle_cells_of(&book) == 2);
    CHECK(pelgaisti_book_shrink(&book) == PELGAISTI_OK && idle_cells_of(&book) == 0);
    CHECK(pelgaisti_book_held(&book, 2, &lock.resource, &mode) == PELGAISTI_OK && mode == PELGAISTI_X);
    CHECK(length_of(&book, &length) == PELGAISTI_OK && length == 7);
    CHECK(pelgaisti_book_serve(&book, 2, &commit, &reply) == PELGAISTI_OK && reply.value == 1);
    CHECK(idle_cells_of(&book) == 1);
    CHECK(pelgaisti_book_close(&book) == PELGAISTI_OK);
}

/* The same of an office, by a session that looks. */
static void memory_of_an_office(void) {
    static pelgaisti_session sessions[2];
    pelgaisti_book book = PELGAISTI_EMPTY, view = PELGAISTI_EMPTY;
    pelgaisti_options options = PELGAISTI_OPTIONS(2);
    pelgaisti_call begin = call_of(PELGAISTI_BEGIN, 0, 0, 0, 0), commit = call_of(PELGAISTI_COMMIT, 0, 0, 0, 0);
    pelgaisti_answer answer;
    uint64_t first = 99;
    options.seed = 7;
    options.keep = 3;
    CHECK(pelgaisti_office_open(NULL, &options) == PELGAISTI_NULL && pelgaisti_office_open(sessions, &options) == PELGAISTI_OK);
    CHECK(pelgaisti_office_open(sessions, &options) == PELGAISTI_OPEN);
    look(&sessions[1], &view);
    CHECK(pelgaisti_book_reserve(&view, 100, 100) == PELGAISTI_OK);
    end_look(&sessions[1], &view);
    CHECK(pelgaisti_session_perform(&sessions[0], &begin, 9, &answer) == PELGAISTI_OK);
    for (uint32_t k = 1; k <= 3; k++) {
        pelgaisti_call lock = call_of(PELGAISTI_LOCK, PELGAISTI_X, 1, k, 0);
        CHECK(pelgaisti_session_perform(&sessions[0], &lock, 9, &answer) == PELGAISTI_OK && answer.reply.kind == PELGAISTI_GRANTED);
    }
    look(&sessions[1], &view);
    CHECK(pelgaisti_book_reserve(&view, SIZE_MAX, 0) == PELGAISTI_NO_MEMORY && idle_cells_of(&view) == 0);
    end_look(&sessions[1], &view);
    CHECK(pelgaisti_session_perform(&sessions[0], &commit, 9, &answer) == PELGAISTI_OK && answer.reply.value == 3);
    look(&sessions[1], &view);
    CHECK(idle_cells_of(&view) == 3 && pelgaisti_book_shrink(&view) == PELGAISTI_OK && idle_cells_of(&view) == 0);
    end_look(&sessions[1], &view);
    CHECK(pelgaisti_session_hand_in(&sessions[1], &sessions[0]) == PELGAISTI_OK);
    CHECK(pelgaisti_office_close(&sessions[0], &book) == PELGAISTI_OK);
    CHECK(first_kept_of(&book, &first) == PELGAISTI_OK && first == 2); /* the bound was given */
    CHECK(pelgaisti_book_close(&book) == PELGAISTI_OK);
}

/* A waker is called in an office that was opened with a seed, too. */
static void seeded_wakers(void) {
    static pelgaisti_session sessions[2];
    sem_t woken[3];
    pelgaisti_waker waker = {post, woken};
    pelgaisti_options options = PELGAISTI_OPTIONS(2);
    pelgaisti_book book = PELGAISTI_EMPTY;
    pelgaisti_call begin = call_of(PELGAISTI_BEGIN, 0, 0, 0, 0), write = call_of(PELGAISTI_LOCK, PELGAISTI_X, 1, 1, 0);
    pelgaisti_call commit = call_of(PELGAISTI_COMMIT, 0, 0, 0, 0);
    pelgaisti_answer answer;
    for (int s = 0; s < 3; s++) CHECK(sem_init(&woken[s], 0, 0) == 0);
    options.seed = 7;
    options.waker = &waker;
    CHECK(pelgaisti_office_open(sessions, &options) == PELGAISTI_OK);
    for (int s = 0; s < 2; s++) {
        CHECK(pelgaisti_session_perform(&sessions[s], &begin, 9, &answer) == PELGAISTI_OK);
        CHECK(pelgaisti_session_perform(&sessions[s], &write, 9, &answer) == PELGAISTI_OK);
    }
    CHECK(answer.reply.kind == PELGAISTI_WAITING && sem_trywait(&woken[2]) != 0);
    CHECK(pelgaisti_session_perform(&sessions[0], &commit, 9, &answer) == PELGAISTI_OK && sem_trywait(&woken[2]) == 0);
    CHECK(pelgaisti_session_hand_in(&sessions[1], &sessions[0]) == PELGAISTI_OK);
    CHECK(pelgaisti_office_close(&sessions[0], &book) == PELGAISTI_OK && pelgaisti_book_close(&book) == PELGAISTI_OK);
    for (int s = 0; s < 3; s++) sem_destroy(&woken[s]);
}

enum { TELLERS = 8, TELLER_CALLS = 500, TELLER_SESSIONS = 2 * TELLERS };

/* A pass that served calls: how many the history had then, and whom it told, by the bits of their numbers. */
typedef struct told_pass {
    uint64_t upto;
    uint32_t served, told, count;
} told_pass;

/* A thread with two sessions, what it saw of its passes, and how often a session heard the other one. */
typedef struct teller {
    pelgaisti_session *two;
    uint32_t state, hears;
    uint64_t bad;
    size_t count;
    told_pass passes[TELLERS * TELLER_CALLS + 1];
} teller;

/* The thread's pass, which its waker notes. */
static __thread told_pass *being_made;

static void note_told(void *engine, uint32_t session) {
    (void)engine;
    being_made->told |= 1u << session;
    being_made->count++;
}

static const pelgaisti_waker tells = {note_told, NULL};

/* Tries to make a pass, of which the waker is told. Returns whether the session's answer is there. */
static int tell_and_collect(teller *t, pelgaisti_session *session, pelgaisti_answer *answer) {
    pelgaisti_pass pass = {99, 99};
    pelgaisti_status status;
    being_made = &t->passes[t->count];
    memset(being_made, 0, sizeof *being_made);
    status = pelgaisti_session_serve(session, &pass);
    if (status == PELGAISTI_OK && pass.served > 0) {
        t->bad += pelgaisti_session_seen(session, &being_made->upto) != PELGAISTI_OK || pass.starved != 0;
        being_made->served = pass.served;
        t->count++;
    } else {
        t->bad += being_made->count > 0 || (status != PELGAISTI_ELSEWHERE && !(status == PELGAISTI_OK && pass.starved == 0));
    }
    return pelgaisti_session_collect(session, answer) == PELGAISTI_OK;
}

/* Makes random calls of both sessions. Ahead of a third of them the session hears the other one, and then the call comes behind all entries
   that the other one has seen. */
static void *tell_and_hear(void *argument) {
    static const uint32_t ops[] = {PELGAISTI_BEGIN, PELGAISTI_BEGIN, PELGAISTI_LOCK, PELGAISTI_LOCK, PELGAISTI_LOCK, PELGAISTI_POLL,
                                   PELGAISTI_TRY, PELGAISTI_WITHDRAW, PELGAISTI_COMMIT, PELGAISTI_ABORT};
    teller *t = (teller *)argument;
    for (int k = 0; k < TELLER_CALLS; k++) {
        uint32_t who = draw(&t->state, 2), mode = draw(&t->state, 3) == 0 ? PELGAISTI_X : PELGAISTI_S;
        pelgaisti_call call = call_of(ops[draw(&t->state, COUNT(ops))], mode, 1, 1 + draw(&t->state, 3), 0);
        pelgaisti_session *own = &t->two[who], *other = &t->two[1 - who];
        pelgaisti_answer answer = {0, {0, 0}};
        uint64_t known = 0;
        if (draw(&t->state, 3) == 0) {
            t->bad += pelgaisti_session_seen(other, &known) != PELGAISTI_OK || pelgaisti_session_hear(own, other) != PELGAISTI_OK;
            t->hears++;
        }
        t->bad += pelgaisti_session_publish(own, &call, NULL) != PELGAISTI_OK;
        while (!tell_and_collect(t, own, &answer)) sched_yield();
        t->bad += answer.place < known;
        sched_yield(); /* so that the threads' calls mix, also where one is done before the next begins */
    }
    return NULL;
}

/* Serves a pass of the history on another book. Returns whether it told exactly the sessions whose wait its calls end there, each once. */
static int is_told(pelgaisti_book *of, pelgaisti_book *twin, const told_pass *pass) {
    uint32_t told = 0, count = 0, list[TELLER_SESSIONS];
    for (uint64_t place = pass->upto - pass->served; place < pass->upto; place++) {
        pelgaisti_entry entry;
        pelgaisti_reply reply;
        size_t got = 0;
        if (pelgaisti_book_history(of, place, &entry, 1, &got) != PELGAISTI_OK || got != 1) return 0;
        if (pelgaisti_book_serve(twin, entry.session, &entry.call, &reply) != PELGAISTI_OK) return 0;
        if (reply.kind != entry.reply.kind || reply.value != entry.reply.value) return 0;
        if (pelgaisti_book_ended(twin, list, TELLER_SESSIONS, &got) != PELGAISTI_OK) return 0;
        for (size_t k = 0; k < got; k++) told |= 1u << list[k];
    }
    for (uint32_t left = told; left; left &= left - 1) count++;
    return told == pass->told && count == pass->count;
}

/* Eight threads make random calls by passes that tell: each pass tells those whose wait the calls of its part of the history end, and no
   others, and with these parts the history is whole. Nobody is told of where another thread has the lock table. */
static void threads_tell(void) {
    static pelgaisti_session sessions[TELLER_SESSIONS];
    static teller tellers[TELLERS];
    static const told_pass *at[TELLERS * TELLER_CALLS];
    pelgaisti_book book = PELGAISTI_EMPTY, twin = PELGAISTI_EMPTY;
    pthread_t threads[TELLERS];
    uint64_t length = 0, place = 0, telling = 0;
    CHECK(open_office_with(sessions, TELLER_SESSIONS, UINT64_MAX, &tells, 0) == PELGAISTI_OK);
    for (uint32_t k = 0; k < TELLERS; k++) {
        tellers[k].two = &sessions[2 * k];
        tellers[k].state = k;
        CHECK(pthread_create(&threads[k], NULL, tell_and_hear, &tellers[k]) == 0);
    }
    for (uint32_t k = 0; k < TELLERS; k++) {
        CHECK(pthread_join(threads[k], NULL) == 0 && tellers[k].bad == 0 && tellers[k].hears > 0);
        for (size_t n = 0; n < tellers[k].count; n++) at[tellers[k].passes[n].upto - tellers[k].passes[n].served] = &tellers[k].passes[n];
    }
    for (size_t k = 1; k < TELLER_SESSIONS; k++) CHECK(pelgaisti_session_hand_in(&sessions[k], &sessions[0]) == PELGAISTI_OK);
    CHECK(pelgaisti_office_close(&sessions[0], &book) == PELGAISTI_OK && open_book(&twin, TELLER_SESSIONS) == PELGAISTI_OK);
    CHECK(length_of(&book, &length) == PELGAISTI_OK && length == TELLERS * TELLER_CALLS);
    while (place < length && at[place] && is_told(&book, &twin, at[place])) {
        telling += at[place]->count > 0;
        place = at[place]->upto;
    }
    CHECK(place == length && telling > 0);
    CHECK(pelgaisti_book_close(&twin) == PELGAISTI_OK && pelgaisti_book_close(&book) == PELGAISTI_OK);
}

/* A call of one turn is made at once, without a publish, and its pass serves the published calls: ahead of those if it gives locks back, else
   behind them. */
static void calls_at_once(void) {
    static pelgaisti_session sessions[3];
    pelgaisti_book book = PELGAISTI_EMPTY;
    pelgaisti_call begin = call_of(PELGAISTI_BEGIN, 0, 0, 0, 0), commit = call_of(PELGAISTI_COMMIT, 0, 0, 0, 0);
    pelgaisti_call write = call_of(PELGAISTI_LOCK, PELGAISTI_X, 1, 1, 0), poll = call_of(PELGAISTI_POLL, 0, 0, 0, 0);
    pelgaisti_call read = call_of(PELGAISTI_LOCK, PELGAISTI_S, 1, 1, 0), withdraw = call_of(PELGAISTI_WITHDRAW, 0, 0, 0, 0);
    pelgaisti_call try_write = call_of(PELGAISTI_TRY, PELGAISTI_X, 1, 1, 0);
    pelgaisti_answer answer;

    CHECK(open_sessions(sessions, 3) == PELGAISTI_OK);
    /* the published call goes first, since this one gives nothing back */
    CHECK(pelgaisti_session_publish(&sessions[0], &begin, NULL) == PELGAISTI_OK);
    CHECK(pelgaisti_session_perform(&sessions[1], &begin, 1, &answer) == PELGAISTI_OK);
    CHECK(answer.place == 1 && answer.reply.kind == PELGAISTI_BEGAN && answer.reply.value == 2);
    CHECK(pelgaisti_session_collect(&sessions[1], &answer) == PELGAISTI_NOTHING_PENDING);
    CHECK(pelgaisti_session_collect(&sessions[0], &answer) == PELGAISTI_OK && answer.place == 0);
    CHECK(pelgaisti_session_perform(&sessions[0], &write, 1, &answer) == PELGAISTI_OK);
    CHECK(answer.place == 2 && answer.reply.kind == PELGAISTI_GRANTED);
    CHECK(pelgaisti_session_perform(&sessions[1], &write, 1, &answer) == PELGAISTI_OK);
    CHECK(answer.place == 3 && answer.reply.kind == PELGAISTI_WAITING);

    /* a commit goes ahead of the published poll, which is served in its pass */
    CHECK(pelgaisti_session_publish(&sessions[1], &poll, NULL) == PELGAISTI_OK);
    CHECK(pelgaisti_session_perform(&sessions[0], &commit, 1, &answer) == PELGAISTI_OK);
    CHECK(answer.place == 4 && answer.reply.kind == PELGAISTI_COMMITTED);
    CHECK(pelgaisti_session_collect(&sessions[1], &answer) == PELGAISTI_OK && answer.reply.kind == PELGAISTI_CLEAR);
    CHECK(pelgaisti_session_perform(&sessions[1], &commit, 1, &answer) == PELGAISTI_OK);

    /* 1 reads, 2 waits to write and 3 to read: a withdrawal of 2 goes ahead of the published poll of 3 */
    for (int s = 0; s < 3; s++) {
        CHECK(pelgaisti_session_perform(&sessions[s], &begin, 1, &answer) == PELGAISTI_OK);
        CHECK(answer.place == 7 + 2 * (uint64_t)s);
        CHECK(pelgaisti_session_perform(&sessions[s], s == 1 ? &write : &read, 1, &answer) == PELGAISTI_OK);
        CHECK(answer.reply.kind == (s == 0 ? PELGAISTI_GRANTED : PELGAISTI_WAITING));
    }
    CHECK(pelgaisti_session_publish(&sessions[2], &poll, NULL) == PELGAISTI_OK);
    CHECK(pelgaisti_session_perform(&sessions[1], &withdraw, 1, &answer) == PELGAISTI_OK);
    CHECK(answer.place == 13 && answer.reply.kind == PELGAISTI_WITHDRAWN && answer.reply.value == 0);
    CHECK(pelgaisti_session_collect(&sessions[2], &answer) == PELGAISTI_OK && answer.reply.kind == PELGAISTI_CLEAR);
    CHECK(pelgaisti_session_perform(&sessions[1], &try_write, 1, &answer) == PELGAISTI_OK && answer.place == 15);
    CHECK(answer.reply.kind == PELGAISTI_REFUSED && answer.reply.value == PELGAISTI_WOULD_WAIT);
    /* a try goes behind the published commits */
    CHECK(pelgaisti_session_publish(&sessions[0], &commit, NULL) == PELGAISTI_OK);
    CHECK(pelgaisti_session_publish(&sessions[2], &commit, NULL) == PELGAISTI_OK);
    CHECK(pelgaisti_session_perform(&sessions[1], &try_write, 1, &answer) == PELGAISTI_OK);
    CHECK(answer.place == 18 && answer.reply.kind == PELGAISTI_GRANTED && answer.reply.value == PELGAISTI_X);
    for (int s = 0; s < 3; s += 2)
        CHECK(pelgaisti_session_collect(&sessions[s], &answer) == PELGAISTI_OK && answer.reply.kind == PELGAISTI_COMMITTED);
    for (int s = 2; s > 0; s--) CHECK(pelgaisti_session_hand_in(&sessions[s], &sessions[0]) == PELGAISTI_OK);
    CHECK(pelgaisti_office_close(&sessions[0], &book) == PELGAISTI_OK && pelgaisti_book_close(&book) == PELGAISTI_OK);
}

/* Threads that sleep until a pass tells of them: many more than there are processors. */
enum { SLEEPERS = 64, DATABASES = 4, ENDINGS = 200 };
static sem_t woken[SLEEPERS + 1];
static pthread_barrier_t all_here;
/* how many transactions each makes; the program's argument, if there is one */
static uint32_t transactions = 100;

typedef struct sleeper {
    pelgaisti_session *session;
    uint32_t number;
    uint64_t waits, withdrawn, bad;
} sleeper;

/* What posts the semaphore of each session whose wait has ended. */
static const pelgaisti_waker posts = {post, woken};

/* Makes a call. Returns the reply's kind. */
static uint32_t call_and_wake(sleeper *j, uint32_t op, uint32_t database) {
    pelgaisti_call call = call_of(op, PELGAISTI_X, 1, database, 0);
    pelgaisti_answer answer = {0, {0, 0}};
    j->bad += pelgaisti_session_perform(j->session, &call, UINT64_MAX, &answer) != PELGAISTI_OK;
    return answer.reply.kind;
}

/* Sleeps until the wait has ended, and polls once. Every fourth thread yields instead, and then takes the request back if nobody has
   woken it; if that is refused, it sleeps until it is woken. Returns the kind of the last reply. */
static uint32_t end_wait(sleeper *j) {
    uint32_t kind;
    if (j->number % 4 == 0) {
        sched_yield();
        if (sem_trywait(&woken[j->number]) == 0) return call_and_wake(j, PELGAISTI_POLL, 0);
        kind = call_and_wake(j, PELGAISTI_WITHDRAW, 0);
        if (kind == PELGAISTI_WITHDRAWN) return kind;
        j->bad += kind != PELGAISTI_REFUSED;
    }
    while (sem_wait(&woken[j->number]) != 0) continue;
    return call_and_wake(j, PELGAISTI_POLL, 0);
}

/* Locks a database exclusively. A request that waits sleeps, and polls once or is taken back. Returns 0 if the transaction became a
   victim. */
static int lock_asleep(sleeper *j, uint32_t database) {
    uint32_t kind = call_and_wake(j, PELGAISTI_LOCK, database);
    if (kind == PELGAISTI_WAITING) {
        j->waits++;
        kind = end_wait(j);
        j->withdrawn += kind == PELGAISTI_WITHDRAWN;
        j->bad += kind != PELGAISTI_CLEAR && kind != PELGAISTI_DEADLOCK && kind != PELGAISTI_WITHDRAWN;
    } else {
        j->bad += kind != PELGAISTI_GRANTED && kind != PELGAISTI_DEADLOCK;
    }
    return kind != PELGAISTI_DEADLOCK;
}

/* The first thread holds a database until all others wait for it. They have it one after another then. */
static void wait_in_line(sleeper *j) {
    j->bad += call_and_wake(j, PELGAISTI_BEGIN, 0) != PELGAISTI_BEGAN;
    if (j->number == 1) j->bad += call_and_wake(j, PELGAISTI_LOCK, DATABASES + 1) != PELGAISTI_GRANTED;
    pthread_barrier_wait(&all_here);
    if (j->number != 1) {
        j->waits++;
        j->bad += call_and_wake(j, PELGAISTI_LOCK, DATABASES + 1) != PELGAISTI_WAITING;
    }
    pthread_barrier_wait(&all_here);
    if (j->number != 1) {
        while (sem_wait(&woken[j->number]) != 0) continue;
        j->bad += call_and_wake(j, PELGAISTI_POLL, 0) != PELGAISTI_CLEAR;
    }
    j->bad += call_and_wake(j, PELGAISTI_COMMIT, 0) != PELGAISTI_COMMITTED;
}

/* A thread's transactions: each locks two databases, in either order, so that deadlocks come about, and commits or aborts. */
static void *sleep_and_work(void *argument) {
    sleeper *j = (sleeper *)argument;
    wait_in_line(j);
    for (uint32_t k = 0; k < transactions; k++) {
        uint32_t one = (k + j->number) % DATABASES, other = (one + 1 + k % (DATABASES - 1)) % DATABASES;
        j->bad += call_and_wake(j, PELGAISTI_BEGIN, 0) != PELGAISTI_BEGAN;
        if (lock_asleep(j, one + 1) && lock_asleep(j, other + 1))
            j->bad += call_and_wake(j, PELGAISTI_COMMIT, 0) != PELGAISTI_COMMITTED;
        else
            j->bad += call_and_wake(j, PELGAISTI_ABORT, 0) != PELGAISTI_ABORTED;
    }
    return NULL;
}

/* Each thread is woken once for each wait that it doesn't end itself, no wake-up is left over, and the history has one poll for each
   of these waits and no other. */
static void threads_sleep(void) {
    static pelgaisti_session sessions[SLEEPERS];
    static sleeper jobs[SLEEPERS];
    static pelgaisti_entry entries[1000];
    pelgaisti_book book = PELGAISTI_EMPTY;
    pthread_t threads[SLEEPERS];
    uint64_t waits = 0, polls = 0, withdrawn = 0, taken_back = 0;
    size_t count = 0;

    CHECK(open_office_with(sessions, SLEEPERS, UINT64_MAX, &posts, 0) == PELGAISTI_OK);
    CHECK(pthread_barrier_init(&all_here, NULL, SLEEPERS) == 0);
    for (uint32_t t = 0; t < SLEEPERS; t++) {
        jobs[t].session = &sessions[t];
        jobs[t].number = t + 1;
        CHECK(sem_init(&woken[t + 1], 0, 0) == 0);
    }
    for (int t = 0; t < SLEEPERS; t++) CHECK(pthread_create(&threads[t], NULL, sleep_and_work, &jobs[t]) == 0);
    for (int t = 0; t < SLEEPERS; t++) CHECK(pthread_join(threads[t], NULL) == 0);
    for (uint32_t t = 0; t < SLEEPERS; t++) {
        int left = 9;
        CHECK(jobs[t].bad == 0 && sem_getvalue(&woken[t + 1], &left) == 0 && left == 0);
        CHECK(sem_destroy(&woken[t + 1]) == 0);
        waits += jobs[t].waits;
        withdrawn += jobs[t].withdrawn;
    }
    for (int t = SLEEPERS - 1; t > 0; t--) CHECK(pelgaisti_session_hand_in(&sessions[t], &sessions[0]) == PELGAISTI_OK);
    CHECK(pelgaisti_office_close(&sessions[0], &book) == PELGAISTI_OK);
    for (uint64_t first = 0; pelgaisti_book_history(&book, first, entries, COUNT(entries), &count) == PELGAISTI_OK && count > 0;
         first += count)
        for (size_t k = 0; k < count; k++) {
            polls += entries[k].call.op == PELGAISTI_POLL;
            taken_back += entries[k].reply.kind == PELGAISTI_WITHDRAWN;
        }
    CHECK(polls + withdrawn == waits && taken_back == withdrawn && waits >= SLEEPERS - 1);
    CHECK(pthread_barrier_destroy(&all_here) == 0);
    CHECK(pelgaisti_book_close(&book) == PELGAISTI_OK);
}

/* Threads of which the odd ones wait for a lock, asleep, and the even ones make transactions until they are cancelled: where they sleep,
   and between two calls. */
enum { CANCELLED = 8 };

static void *work_until_cancelled(void *argument) {
    sleeper *j = (sleeper *)argument;
    if (j->number % 2 == 1) {
        j->bad += call_and_wake(j, PELGAISTI_BEGIN, 0) != PELGAISTI_BEGAN;
        j->bad += call_and_wake(j, PELGAISTI_LOCK, DATABASES + 1) != PELGAISTI_WAITING;
    }
    pthread_barrier_wait(&all_here);
    for (;;) {
        if (j->number % 2 == 1) {
            sem_wait(&woken[j->number]);
            continue;
        }
        j->bad += call_and_wake(j, PELGAISTI_BEGIN, 0) != PELGAISTI_BEGAN;
        pthread_testcancel();
        j->bad += call_and_wake(j, PELGAISTI_LOCK, DATABASES + 1 + j->number) != PELGAISTI_GRANTED;
        pthread_testcancel();
        j->bad += call_and_wake(j, PELGAISTI_COMMIT, 0) != PELGAISTI_COMMITTED;
    }
    return NULL;
}

/* No thread is cancelled inside a call, so that no call is left pending. Whoever has joined it ends its transaction, and the office
   closes. */
static void threads_are_cancelled(void) {
    static pelgaisti_session sessions[CANCELLED + 1];
    static sleeper jobs[CANCELLED + 1];
    pelgaisti_call begin = call_of(PELGAISTI_BEGIN, 0, 0, 0, 0), abort = call_of(PELGAISTI_ABORT, 0, 0, 0, 0);
    pelgaisti_call write = call_of(PELGAISTI_LOCK, PELGAISTI_X, 1, DATABASES + 1, 0);
    pelgaisti_book book = PELGAISTI_EMPTY;
    pelgaisti_answer answer;
    pthread_t threads[CANCELLED];
    uint64_t aborts = 0;

    CHECK(open_office_with(sessions, CANCELLED + 1, 1024, &posts, 0) == PELGAISTI_OK);
    CHECK(pthread_barrier_init(&all_here, NULL, CANCELLED + 1) == 0);
    CHECK(pelgaisti_session_perform(&sessions[CANCELLED], &begin, 9, &answer) == PELGAISTI_OK);
    CHECK(pelgaisti_session_perform(&sessions[CANCELLED], &write, 9, &answer) == PELGAISTI_OK);
    for (uint32_t t = 0; t < CANCELLED; t++) {
        jobs[t].session = &sessions[t];
        jobs[t].number = t + 1;
        CHECK(sem_init(&woken[t + 1], 0, 0) == 0);
        CHECK(pthread_create(&threads[t], NULL, work_until_cancelled, &jobs[t]) == 0);
    }
    pthread_barrier_wait(&all_here);
    for (int t = 0; t < CANCELLED; t++) CHECK(pthread_cancel(threads[t]) == 0);
    for (int t = 0; t < CANCELLED; t++) {
        void *result = NULL;
        CHECK(pthread_join(threads[t], &result) == 0 && result == PTHREAD_CANCELED && jobs[t].bad == 0);
    }
    for (int t = CANCELLED; t >= 0; t--) {
        CHECK(pelgaisti_session_perform(&sessions[t], NULL, UINT64_MAX, &answer) == PELGAISTI_NOTHING_PENDING);
        CHECK(pelgaisti_session_perform(&sessions[t], &abort, UINT64_MAX, &answer) == PELGAISTI_OK);
        aborts += answer.reply.kind == PELGAISTI_ABORTED;
        if (t < CANCELLED) CHECK(pelgaisti_session_hand_in(&sessions[t], &sessions[CANCELLED]) == PELGAISTI_OK);
        if (t < CANCELLED) CHECK(sem_destroy(&woken[t + 1]) == 0);
    }
    /* all that slept, and the one that held the lock, had a transaction */
    CHECK(aborts >= CANCELLED / 2 + 1);
    CHECK(pthread_barrier_destroy(&all_here) == 0);
    CHECK(pelgaisti_office_close(&sessions[CANCELLED], &book) == PELGAISTI_OK && pelgaisti_book_close(&book) == PELGAISTI_OK);
}

/* What a session's thread sleeps on where an operator may ask that its transaction end: whether a pass has ended its wait, and
   whether the operator has asked. */
typedef struct bed {
    pthread_mutex_t lock;
    pthread_cond_t changed;
    int is_ended, is_asked;
} bed;
static bed beds[4];

static void note_ended(void *engine, uint32_t session) {
    bed *it = (bed *)engine + session;
    pthread_mutex_lock(&it->lock);
    it->is_ended = 1;
    pthread_cond_signal(&it->changed);
    pthread_mutex_unlock(&it->lock);
}

static void ask_to_end(uint32_t session) {
    pthread_mutex_lock(&beds[session].lock);
    beds[session].is_asked = 1;
    pthread_cond_signal(&beds[session].changed);
    pthread_mutex_unlock(&beds[session].lock);
}

/* Sleeps until a pass has ended the wait, or, if the session may be asked, until the operator has asked. Returns whether the wait has
   ended, and takes note of it. */
static int sleep_until_ended(uint32_t session, int or_asked) {
    bed *it = &beds[session];
    int is_ended;
    pthread_mutex_lock(&it->lock);
    while (!it->is_ended && !(or_asked && it->is_asked)) pthread_cond_wait(&it->changed, &it->lock);
    is_ended = it->is_ended;
    it->is_ended = 0;
    pthread_mutex_unlock(&it->lock);
    return is_ended;
}

static int is_asked(uint32_t session) {
    int is;
    pthread_mutex_lock(&beds[session].lock);
    is = beds[session].is_asked;
    pthread_mutex_unlock(&beds[session].lock);
    return is;
}

/* What notes the sessions whose wait has ended. */
static const pelgaisti_waker notes = {note_ended, beds};

/* Makes a call. Returns the reply's kind. */
static uint32_t call_and_note(sleeper *j, uint32_t op) {
    pelgaisti_call call = call_of(op, PELGAISTI_X, 1, 1, 0);
    pelgaisti_answer answer = {0, {0, 0}};
    j->bad += pelgaisti_session_perform(j->session, &call, UINT64_MAX, &answer) != PELGAISTI_OK;
    return answer.reply.kind;
}

/* Waits for the database. A session that is asked takes its request back. If that is refused, a pass has ended the wait. It commits,
   or aborts if it was asked. */
static void *wait_and_obey(void *argument) {
    sleeper *j = (sleeper *)argument;
    uint32_t kind = 0;
    j->bad += call_and_note(j, PELGAISTI_BEGIN) != PELGAISTI_BEGAN;
    j->bad += call_and_note(j, PELGAISTI_LOCK) != PELGAISTI_WAITING;
    pthread_barrier_wait(&all_here);
    if (!sleep_until_ended(j->number, 1)) {
        kind = call_and_note(j, PELGAISTI_WITHDRAW);
        j->withdrawn += kind == PELGAISTI_WITHDRAWN;
        j->bad += kind != PELGAISTI_WITHDRAWN && kind != PELGAISTI_REFUSED;
        if (kind == PELGAISTI_REFUSED) sleep_until_ended(j->number, 0);
    }
    if (kind != PELGAISTI_WITHDRAWN) j->bad += call_and_note(j, PELGAISTI_POLL) != PELGAISTI_CLEAR;
    if (is_asked(j->number))
        j->bad += call_and_note(j, PELGAISTI_ABORT) != PELGAISTI_ABORTED;
    else
        j->bad += call_and_note(j, PELGAISTI_COMMIT) != PELGAISTI_COMMITTED;
    return NULL;
}

/* A client that has gone to sleep in its transaction, until it is asked. */
static void *sleep_and_obey(void *argument) {
    sleeper *j = (sleeper *)argument;
    pthread_barrier_wait(&all_here);
    j->bad += sleep_until_ended(j->number, 1);
    j->bad += call_and_note(j, PELGAISTI_ABORT) != PELGAISTI_ABORTED;
    return NULL;
}

/* Session 1 holds a database and sleeps, sessions 2 and 3 wait for it. The operator asks 1 and 2 to end, in either order and with no
   time between, so that the request of 2 is granted sometimes when it is to be taken back. 3 has the database in the end. */
static void an_operator_ends_transactions(void) {
    static pelgaisti_session sessions[3];
    static sleeper jobs[3];
    static pelgaisti_entry entries[12 * ENDINGS];
    pelgaisti_book book = PELGAISTI_EMPTY;
    uint64_t bad = 0, aborts = 0, commits = 0, taken_back = 0;
    size_t count = 0;

    CHECK(open_office_with(sessions, 3, UINT64_MAX, &notes, 0) == PELGAISTI_OK);
    CHECK(pthread_barrier_init(&all_here, NULL, 4) == 0);
    for (uint32_t s = 1; s <= 3; s++) {
        jobs[s - 1].session = &sessions[s - 1];
        jobs[s - 1].number = s;
        CHECK(pthread_mutex_init(&beds[s].lock, NULL) == 0 && pthread_cond_init(&beds[s].changed, NULL) == 0);
    }
    for (int round = 0; round < ENDINGS; round++) {
        pthread_t threads[3];
        for (uint32_t s = 1; s <= 3; s++) beds[s].is_asked = 0;
        bad += call_and_note(&jobs[0], PELGAISTI_BEGIN) != PELGAISTI_BEGAN;
        bad += call_and_note(&jobs[0], PELGAISTI_LOCK) != PELGAISTI_GRANTED;
        for (int t = 0; t < 3; t++) bad += pthread_create(&threads[t], NULL, t == 0 ? sleep_and_obey : wait_and_obey, &jobs[t]) != 0;
        pthread_barrier_wait(&all_here);
        ask_to_end(round % 2 == 0 ? 1 : 2);
        ask_to_end(round % 2 == 0 ? 2 : 1);
        for (int t = 0; t < 3; t++) bad += pthread_join(threads[t], NULL) != 0;
        for (uint32_t s = 1; s <= 3; s++) bad += beds[s].is_ended != 0;
    }
    for (uint32_t s = 1; s <= 3; s++) {
        bad += jobs[s - 1].bad;
        CHECK(pthread_cond_destroy(&beds[s].changed) == 0 && pthread_mutex_destroy(&beds[s].lock) == 0);
    }
    CHECK(bad == 0);
    CHECK(pthread_barrier_destroy(&all_here) == 0);
    for (int t = 2; t > 0; t--) CHECK(pelgaisti_session_hand_in(&sessions[t], &sessions[0]) == PELGAISTI_OK);
    CHECK(pelgaisti_office_close(&sessions[0], &book) == PELGAISTI_OK);
    CHECK(pelgaisti_book_history(&book, 0, entries, COUNT(entries), &count) == PELGAISTI_OK && count >= 11 * ENDINGS);
    for (size_t k = 0; k < count; k++) {
        aborts += entries[k].reply.kind == PELGAISTI_ABORTED;
        commits += entries[k].reply.kind == PELGAISTI_COMMITTED;
        taken_back += entries[k].reply.kind == PELGAISTI_WITHDRAWN;
    }
    /* session 2 may be asked when it has committed already */
    CHECK(aborts + commits == 3 * ENDINGS && commits >= ENDINGS && aborts >= ENDINGS && taken_back == jobs[1].withdrawn);
    CHECK(pelgaisti_book_close(&book) == PELGAISTI_OK);
}

/* How often each session was woken, of offices whose waker is `tallies`. */
enum { MANY = 40 };
static uint32_t tally[MANY + 1];
/* The session whose call makes the pass, if the waker uses its handle, against the rules. */
static pelgaisti_session *calling;
static void count_wake(void *engine, uint32_t session) {
    const pelgaisti_call poll = {PELGAISTI_POLL, 0, {0, {0}}};
    pelgaisti_answer answer = {99, {77, 88}};
    ((uint32_t *)engine)[session]++;
    if (!calling) return;
    CHECK(pelgaisti_session_serve(calling, NULL) == PELGAISTI_CLOSED);
    CHECK(pelgaisti_session_perform(calling, &poll, 9, &answer) == PELGAISTI_CLOSED && answer.place == 99);
}
static const pelgaisti_waker tallies = {count_wake, tally};

/* Whether of sessions 1 to `count` exactly `session` was woken, once; 0: nobody was. Forgets the wake-ups. */
static int was_woken(uint32_t count, uint32_t session) {
    int is_right = 1;
    for (uint32_t s = 1; s <= count; s++) {
        is_right &= tally[s] == (s == session);
        tally[s] = 0;
    }
    return is_right;
}

/* Performs a call of the session and returns the reply's kind. */
static uint32_t kind_of(pelgaisti_session *session, pelgaisti_call call) {
    pelgaisti_answer answer = {0, {0, 0}};
    CHECK(pelgaisti_session_perform(session, &call, 9, &answer) == PELGAISTI_OK);
    return answer.reply.kind;
}

/* What an office that is opened with a waker refuses, and that it keeps its bound. */
static void wakers_are_registered(void) {
    static pelgaisti_session sessions[3], other[1], many[PELGAISTI_MAX_SESSIONS + 1];
    pelgaisti_book book = PELGAISTI_EMPTY;
    pelgaisti_call begin = call_of(PELGAISTI_BEGIN, 0, 0, 0, 0), commit = call_of(PELGAISTI_COMMIT, 0, 0, 0, 0);
    const pelgaisti_waker nobody = {NULL, tally};
    pelgaisti_session *const nowhere = (pelgaisti_session *)(uintptr_t)8;
    uint64_t first = 99;

    CHECK(open_office_with(NULL, 2, UINT64_MAX, &tallies, 0) == PELGAISTI_NULL && pelgaisti_office_open(sessions, NULL) == PELGAISTI_NULL);
    CHECK(open_office_with(sessions, 2, UINT64_MAX, &nobody, 0) == PELGAISTI_NULL);
    CHECK(open_office_with(sessions, 0, UINT64_MAX, &tallies, 0) == PELGAISTI_NO_SUCH_COUNT);
    CHECK(open_office_with(many, PELGAISTI_MAX_SESSIONS + 1, UINT64_MAX, &tallies, 0) == PELGAISTI_NO_SUCH_COUNT);
    /* no handle is looked at where their number isn't known, or is out of its range */
    CHECK(pelgaisti_office_open(nowhere, NULL) == PELGAISTI_NULL && open_office_with(nowhere, 0, 1, &nobody, 0) == PELGAISTI_NULL);
    for (size_t k = 0; k < 2; k++)
        CHECK(open_office_with(nowhere, k * (PELGAISTI_MAX_SESSIONS + 1), 1, NULL, 0) == PELGAISTI_NO_SUCH_COUNT);
    CHECK(open_office_with(sessions, 2, 1, &tallies, 0) == PELGAISTI_OK);
    CHECK(open_office_with(&sessions[1], 2, UINT64_MAX, &tallies, 0) == PELGAISTI_OPEN);
    CHECK(open_sessions(other, 1) == PELGAISTI_OK);
    CHECK(kind_of(&sessions[0], begin) == PELGAISTI_BEGAN && kind_of(&sessions[0], commit) == PELGAISTI_COMMITTED);
    CHECK(kind_of(&other[0], begin) == PELGAISTI_BEGAN && was_woken(2, 0));
    close_all(sessions, 2, &book);
    CHECK(first_kept_of(&book, &first) == PELGAISTI_OK && first == 1 && pelgaisti_book_close(&book) == PELGAISTI_OK);
    close_all(other, 1, &book);
    CHECK(pelgaisti_book_close(&book) == PELGAISTI_OK);
}

/* The calls that make a pass. */
enum { SERVE, PERFORM, RESUME, LOCKING, WAITS, WAYS };

/* Session 1 gives up its lock in such a call, or, by one that waits for a lock, closes a cycle whose victim session 2 is. A pass of session 3
   serves the call if it is published. */
static void end_wait_by(int way, pelgaisti_session *sessions) {
    pelgaisti_call commit = call_of(PELGAISTI_COMMIT, 0, 0, 0, 0);
    const pelgaisti_resource second = {1, {2}};
    pelgaisti_lock_answer locked;
    pelgaisti_answer answer = {99, {77, 88}};
    if (way == SERVE || way == RESUME || way == WAITS) CHECK(pelgaisti_session_publish(&sessions[0], &commit, NULL) == PELGAISTI_OK);
    switch (way) {
    case SERVE: CHECK(pelgaisti_session_serve(&sessions[2], NULL) == PELGAISTI_OK); break;
    case PERFORM: CHECK(pelgaisti_session_perform(&sessions[0], &commit, 9, &answer) == PELGAISTI_OK); break;
    case RESUME: CHECK(pelgaisti_session_perform(&sessions[0], NULL, 9, &answer) == PELGAISTI_OK); break;
    case WAITS: CHECK(pelgaisti_session_wait(&sessions[0], 0, &locked) == PELGAISTI_OK); break;
    default: CHECK(pelgaisti_session_lock(&sessions[0], &second, PELGAISTI_X, 1, &locked) == PELGAISTI_TIMED_OUT && locked.level == 0);
    }
    if (way == SERVE) CHECK(pelgaisti_session_collect(&sessions[0], &answer) == PELGAISTI_OK);
    if (way != LOCKING && way != WAITS) CHECK(answer.reply.kind == PELGAISTI_COMMITTED);
}

/* Each call that makes a pass wakes the session whose wait it has ended, once, in an office with a waker; and nobody in one without. A
   waker that uses the handle of that call changes nothing of it. */
static void each_pass_wakes(void) {
    pelgaisti_call begin = call_of(PELGAISTI_BEGIN, 0, 0, 0, 0), poll = call_of(PELGAISTI_POLL, 0, 0, 0, 0);
    pelgaisti_call first = call_of(PELGAISTI_LOCK, PELGAISTI_X, 1, 1, 0), second = call_of(PELGAISTI_LOCK, PELGAISTI_X, 1, 2, 0);
    for (int way = 0; way < WAYS; way++)
        for (int has_waker = 0; has_waker <= 1; has_waker++) {
            pelgaisti_session sessions[3] = {PELGAISTI_EMPTY, PELGAISTI_EMPTY, PELGAISTI_EMPTY};
            pelgaisti_book book = PELGAISTI_EMPTY;
            CHECK(open_office_with(sessions, 3, UINT64_MAX, has_waker ? &tallies : NULL, 0) == PELGAISTI_OK);
            CHECK(kind_of(&sessions[0], begin) == PELGAISTI_BEGAN && kind_of(&sessions[1], begin) == PELGAISTI_BEGAN);
            CHECK(kind_of(&sessions[0], first) == PELGAISTI_GRANTED && kind_of(&sessions[1], second) == PELGAISTI_GRANTED);
            CHECK(kind_of(&sessions[1], first) == PELGAISTI_WAITING && was_woken(3, 0));
            calling = &sessions[way == SERVE ? 2 : 0];
            end_wait_by(way, sessions);
            calling = NULL;
            CHECK(was_woken(3, has_waker ? 2 : 0));
            CHECK(kind_of(&sessions[1], poll) == (uint32_t)(way == LOCKING ? PELGAISTI_DEADLOCK : PELGAISTI_CLEAR) && was_woken(3, 0));
            close_all(sessions, 3, &book);
            CHECK(pelgaisti_book_close(&book) == PELGAISTI_OK);
        }
}

/* A pass that ends many waits wakes each session once, also if the waker uses the handle of its call. */
static void many_are_woken(void) {
    static pelgaisti_session sessions[MANY];
    pelgaisti_book book = PELGAISTI_EMPTY;
    pelgaisti_call begin = call_of(PELGAISTI_BEGIN, 0, 0, 0, 0), commit = call_of(PELGAISTI_COMMIT, 0, 0, 0, 0);
    pelgaisti_call write = call_of(PELGAISTI_LOCK, PELGAISTI_X, 1, 1, 0), read = call_of(PELGAISTI_LOCK, PELGAISTI_S, 1, 1, 0);
    pelgaisti_call poll = call_of(PELGAISTI_POLL, 0, 0, 0, 0);
    CHECK(open_office_with(sessions, MANY, UINT64_MAX, &tallies, 0) == PELGAISTI_OK);
    /* from one waiter to all others: below, at and above what is read at a time */
    for (uint32_t waiters = 1; waiters < MANY; waiters++) {
        int once = 1;
        for (uint32_t s = 0; s <= waiters; s++) {
            CHECK(kind_of(&sessions[s], begin) == PELGAISTI_BEGAN);
            CHECK(kind_of(&sessions[s], s == 0 ? write : read) == (uint32_t)(s == 0 ? PELGAISTI_GRANTED : PELGAISTI_WAITING));
        }
        CHECK(was_woken(MANY, 0));
        calling = waiters % 2 == 0 ? &sessions[0] : NULL;
        CHECK(kind_of(&sessions[0], commit) == PELGAISTI_COMMITTED);
        calling = NULL;
        for (uint32_t s = 1; s <= MANY; s++) {
            once &= tally[s] == (2 <= s && s <= waiters + 1);
            tally[s] = 0;
        }
        CHECK(once);
        for (uint32_t s = 1; s <= waiters; s++) {
            CHECK(kind_of(&sessions[s], poll) == PELGAISTI_CLEAR && kind_of(&sessions[s], commit) == PELGAISTI_COMMITTED);
        }
        CHECK(was_woken(MANY, 0));
    }
    close_all(sessions, MANY, &book);
    CHECK(pelgaisti_book_close(&book) == PELGAISTI_OK);
}

/* A session whose own pass has ended its wait is woken, too: its poll goes behind the published commit that grants its lock. */
static void a_session_wakes_itself(void) {
    static pelgaisti_session sessions[2];
    pelgaisti_book book = PELGAISTI_EMPTY;
    pelgaisti_call begin = call_of(PELGAISTI_BEGIN, 0, 0, 0, 0), commit = call_of(PELGAISTI_COMMIT, 0, 0, 0, 0);
    pelgaisti_call write = call_of(PELGAISTI_LOCK, PELGAISTI_X, 1, 1, 0), poll = call_of(PELGAISTI_POLL, 0, 0, 0, 0);
    pelgaisti_answer answer;
    CHECK(open_office_with(sessions, 2, UINT64_MAX, &tallies, 0) == PELGAISTI_OK);
    for (int s = 0; s < 2; s++) {
        CHECK(kind_of(&sessions[s], begin) == PELGAISTI_BEGAN);
        CHECK(kind_of(&sessions[s], write) == (uint32_t)(s == 0 ? PELGAISTI_GRANTED : PELGAISTI_WAITING));
    }
    CHECK(pelgaisti_session_publish(&sessions[0], &commit, NULL) == PELGAISTI_OK);
    CHECK(kind_of(&sessions[1], poll) == PELGAISTI_CLEAR && was_woken(2, 2));
    CHECK(kind_of(&sessions[1], commit) == PELGAISTI_COMMITTED && was_woken(2, 0));
    CHECK(pelgaisti_session_collect(&sessions[0], &answer) == PELGAISTI_OK && answer.reply.kind == PELGAISTI_COMMITTED);
    close_all(sessions, 2, &book);
    CHECK(pelgaisti_book_close(&book) == PELGAISTI_OK);
}

/* How many calls of the history the session knows. */
static uint64_t known_by(pelgaisti_session *session) {
    uint64_t seen = UINT64_MAX;
    CHECK(pelgaisti_session_seen(session, &seen) == PELGAISTI_OK);
    return seen;
}

/* A whole call serves of the calls that others have published no more than its session's bound lets it: so many a round, none once those
   that are taken give back so many locks, and so many rounds. */
static void passes_keep_to_their_bound(void) {
    static const uint32_t off[][3] = {{0, 1, 1}, {1, 0, 1}, {1, 1, 0}, {65536, 1, 1}, {1, 1, 65536}, {UINT32_MAX, 1, 1}};
    pelgaisti_call begin = call_of(PELGAISTI_BEGIN, 0, 0, 0, 0), poll = call_of(PELGAISTI_POLL, 0, 0, 0, 0);
    pelgaisti_call commit = call_of(PELGAISTI_COMMIT, 0, 0, 0, 0), root = call_of(PELGAISTI_LOCK, PELGAISTI_IS, 1, 1, 0);
    pelgaisti_session four[4] = {PELGAISTI_EMPTY, PELGAISTI_EMPTY, PELGAISTI_EMPTY, PELGAISTI_EMPTY};
    pelgaisti_options options = PELGAISTI_OPTIONS(4);
    pelgaisti_book book = PELGAISTI_EMPTY;
    pelgaisti_answer answer;
    for (size_t k = 0; k < COUNT(off); k++) {
        options.pass_calls = off[k][0], options.pass_locks = off[k][1], options.pass_rounds = off[k][2];
        CHECK(pelgaisti_office_open(four, &options) == PELGAISTI_NO_SUCH_COUNT);
    }
    options.pass_calls = 1, options.pass_locks = 9, options.pass_rounds = 1;
    CHECK(pelgaisti_session_bound_passes(&four[3], 1, 1, 1) == PELGAISTI_CLOSED);
    CHECK(pelgaisti_office_open(four, &options) == PELGAISTI_OK);
    CHECK(pelgaisti_session_bound_passes(NULL, 1, 1, 1) == PELGAISTI_NULL);
    for (size_t k = 0; k < COUNT(off); k++)
        CHECK(pelgaisti_session_bound_passes(&four[3], off[k][0], off[k][1], off[k][2]) == PELGAISTI_NO_SUCH_COUNT);
    for (size_t k = 0; k < 3; k++) CHECK(pelgaisti_session_publish(&four[k], &begin, NULL) == PELGAISTI_OK);
    /* the bound with which the office was opened: one call */
    CHECK(pelgaisti_session_perform(&four[3], &begin, 1, &answer) == PELGAISTI_OK && known_by(&four[3]) == 2);
    CHECK(pelgaisti_session_bound_passes(&four[3], 65535, UINT32_MAX, 65535) == PELGAISTI_OK);
    CHECK(pelgaisti_session_bound_passes(&four[3], 1, 9, 2) == PELGAISTI_OK);
    CHECK(pelgaisti_session_perform(&four[3], &poll, 1, &answer) == PELGAISTI_OK && known_by(&four[3]) == 5);
    for (size_t k = 0; k < 3; k++) CHECK(pelgaisti_session_perform(&four[k], NULL, 1, &answer) == PELGAISTI_OK);
    for (size_t k = 0; k < 3; k++)
        CHECK(pelgaisti_session_perform(&four[k], &root, 1, &answer) == PELGAISTI_OK && answer.reply.kind == PELGAISTI_GRANTED);
    for (size_t k = 0; k < 3; k++) CHECK(pelgaisti_session_publish(&four[k], &commit, NULL) == PELGAISTI_OK);
    /* each commit gives back one lock: two of them are as much as a round takes */
    CHECK(pelgaisti_session_bound_passes(&four[3], 9, 2, 1) == PELGAISTI_OK);
    CHECK(pelgaisti_session_perform(&four[3], &poll, 1, &answer) == PELGAISTI_OK && known_by(&four[3]) == 11);
    CHECK(pelgaisti_session_bound_passes(&four[3], 9, 1, 9) == PELGAISTI_OK);
    CHECK(pelgaisti_session_perform(&four[3], &commit, 1, &answer) == PELGAISTI_OK && known_by(&four[3]) == 13);
    for (size_t k = 0; k < 3; k++) {
        CHECK(pelgaisti_session_perform(&four[k], NULL, 1, &answer) == PELGAISTI_OK && answer.reply.kind == PELGAISTI_COMMITTED);
        CHECK(pelgaisti_session_hand_in(&four[k], &four[3]) == PELGAISTI_OK);
    }
    CHECK(pelgaisti_office_close(&four[3], &book) == PELGAISTI_OK && pelgaisti_book_close(&book) == PELGAISTI_OK);
}

/* An office closes with an open transaction, a waiting request and a victim, and wakes nobody: the book has them all. Its calls may end them,
   or its close frees them. A pending call is heard before. */
static void offices_close_with_transactions(void) {
    const pelgaisti_call begin = call_of(PELGAISTI_BEGIN, 0, 0, 0, 0), abort = call_of(PELGAISTI_ABORT, 0, 0, 0, 0);
    const pelgaisti_call seven = call_of(PELGAISTI_LOCK, PELGAISTI_X, 1, 7, 0), eight = call_of(PELGAISTI_LOCK, PELGAISTI_X, 1, 8, 0);
    for (int is_ended = 0; is_ended < 2; is_ended++) {
        pelgaisti_session sessions[4] = {PELGAISTI_EMPTY, PELGAISTI_EMPTY, PELGAISTI_EMPTY, PELGAISTI_EMPTY};
        uint32_t wakes[5] = {0, 0, 0, 0, 0}, at_close[5];
        const pelgaisti_waker waker = {count_wake, wakes};
        pelgaisti_book book = PELGAISTI_EMPTY;
        pelgaisti_program_answer heard;
        pelgaisti_gauges gauges;
        pelgaisti_reply reply;
        CHECK(open_office_with(sessions, 4, UINT64_MAX, &waker, 0) == PELGAISTI_OK);
        for (int s = 0; s < 3; s++) CHECK(kind_of(&sessions[s], begin) == PELGAISTI_BEGAN);
        /* 1 has 7, 2 has 8 and waits for 7, 3 waits for 7, and 1 closes a cycle with 2 */
        CHECK(kind_of(&sessions[0], seven) == PELGAISTI_GRANTED && kind_of(&sessions[1], eight) == PELGAISTI_GRANTED);
        CHECK(kind_of(&sessions[1], seven) == PELGAISTI_WAITING && kind_of(&sessions[2], seven) == PELGAISTI_WAITING);
        CHECK(kind_of(&sessions[0], eight) == PELGAISTI_WAITING);
        CHECK(pelgaisti_session_publish(&sessions[3], &begin, NULL) == PELGAISTI_OK);
        CHECK(pelgaisti_session_hand_in(&sessions[3], &sessions[0]) == PELGAISTI_PENDING && pelgaisti_office_close(&sessions[0], &book) == PELGAISTI_MISSING);
        CHECK(pelgaisti_session_run(&sessions[3], NULL, UINT64_MAX, &heard) == PELGAISTI_OK && heard.served == 1 && heard.values[0] == 4);
        memcpy(at_close, wakes, sizeof wakes);
        for (int s = 1; s < 4; s++) CHECK(pelgaisti_session_hand_in(&sessions[s], &sessions[0]) == PELGAISTI_OK);
        CHECK(pelgaisti_office_close(&sessions[0], &book) == PELGAISTI_OK && pelgaisti_book_gauges(&book, &gauges) == PELGAISTI_OK);
        CHECK(gauges.transactions == 4 && gauges.locks == 2 && gauges.waiting == 2 && gauges.longest_queue == 1);
        for (uint32_t s = 1; is_ended && s <= 4; s++) CHECK(pelgaisti_book_serve(&book, s, &abort, &reply) == PELGAISTI_OK && reply.kind == PELGAISTI_ABORTED);
        CHECK(!is_ended || (pelgaisti_book_gauges(&book, &gauges) == PELGAISTI_OK && gauges.transactions + gauges.locks + gauges.waiting == 0));
        CHECK(memcmp(at_close, wakes, sizeof wakes) == 0 && pelgaisti_book_close(&book) == PELGAISTI_OK);
    }
}

int main(int argc, char **argv) {
    if (argc > 1 && !strcmp(argv[1], "calls")) {
        for (size_t k = 0; k < COUNT(all_calls); k++) printf("pelgaisti_%s\n", all_calls[k].name);
        return 0;
    }
    if (argc > 1) transactions = (uint32_t)strtoul(argv[1], NULL, 10);
    null_is_refused();
    astray_handles_are_told();
    copies_are_told();
    books_refuse();
    books_serve();
    history_is_let_go();
    passes_keep_to_their_bound();
    levels_are_locked();
    calls_are_functions();
    numbers_have_names();
    batches_are_served();
    paths_are_locked();
    paths_tell();
    programs_refuse();
    programs_are_run();
    modes_meet();
    sessions_refuse();
    marks_differ();
    dropped_sessions();
    sixty_four_sessions_poll_in_turn();
    all_1024_sessions_close_in_any_order();
    two_offices_have_their_own_sessions();
    pieces_follow();
    threads_share();
    sessions_are_lent();
    pieces_are_the_history();
    ended_waits_of_a_book();
    tries_and_withdrawals();
    restarts();
    claims_of_a_book();
    long_lines();
    dumps_of_a_book();
    pages_of_a_book();
    pages_of_many_locks();
    memory_of_a_book();
    memory_of_an_office();
    no_history_depends_on_seeds();
    seeded_wakers();
    threads_tell();
    calls_at_once();
    threads_sleep();
    threads_are_cancelled();
    an_operator_ends_transactions();
    wakers_are_registered();
    each_pass_wakes();
    many_are_woken();
    a_session_wakes_itself();
    offices_close_with_transactions();
    printf("%d passed, %d failed\n", passed, failed);
    return failed != 0;
}
