/* Performs the scripts of calls that it reads from standard input, over a book through pelgaisti.h, and compares what the book answers
   and shows with the rows of the scripts.

   A text has scripts one after another, with a line '=NAME SESSIONS' before each but the first one, which has no '='. The next lines
   say in plain words what it shows. Its blocks follow. Each begins with a line '%WORD NUMBERS'. The rows of a block have the form of a
   history, and are numbered from 0 in each block.

   Blocks of calls. The entries of all calls must be the history.
   - begin: each session begins, in order. Its transaction has its number.
   - calls: the rows are served one by one, and must get their replies. The session must then hold what the reply says, and wait if it
     says so.
   - each A B: so are the rows in each session from A to B in turn, in place of their own.
   - each_quietly A B: the same, and no call may end a wait.
   - each_own A B: like each, and the number of a database rises with that of the session.
   - databases N: session 1 locks databases 0 to N - 1 in IS.
   - files: session 1 locks database 1 and 4095 files of it. release_rising, release_falling: it releases the files in this order, and
     then the database, whose release is refused before each.
   - round: the rows of a round of transactions, for this script and those behind it. Two of eight calls begin a transaction.
     rounds N: N rounds are served.
   - batch A B ..: the rows are served as a batch, which must end the waits of these sessions, and of no other, if any are given.
   - empty_batch: a batch with no call.

   Blocks of checks. A row stands for a lock if its reply is granted, or deadlock if the session is a victim, and for a request if its
   reply is waiting: for a conversion if its call is convert.
   - held: sessions hold what the rows say; released stands for no lock.
   - holders R: the rows are the holders of database R.
   - locks: the rows are the listing. Each session's transaction has its number.
   - sessions: the transactions and requests of sessions.
   - nothing: the listing is empty, and no session has a transaction or a request.
   - ended A B ..: the last call or batch has ended the waits of these sessions, and of no other.
   - ended_all A B: of the sessions from A to B, and of no other.
   - keep N, keep_all: sets the bound of the history, and takes it back.
   - take ROOM FIRST COUNT: takes as much of the history as there is room for, which must be so many entries from this place on.
   - kept FIRST LENGTH: the place of the first entry that is kept, and of the next call.

   Blocks that end a script.
   - refused: the rows are served one by one. A call for which memory is refused must leave the book like a second one, which has served
     the calls before it: the same history, locks, replies to a poll and to an abort of each session, also once the rest is served.
   - crowd: like refused, with 255 sessions that wait for session 1, whose commit grants the database to all of them.
   - refused_batch: the rows are served as a batch, and as far as they were, one by one in a second book, which must be the same; so
     must both be at the end.
   - random: 16 batches of 64 random calls, one by one in a second book: replies and histories are the same.
   - programs N: N random programs of eight sessions, whose calls are served one by one in a second book: the replies and the history are
     the same, a program stops where the header says, and it tells of the sessions whose wait one of its calls has ended, and no other.
   - edges N: N random calls of eight sessions. After each, who waits for whom must be what a model says, which knows the waiting
     requests by replies and polls, and the holders from the book.

   A script is performed with ample memory, and then once for each allocation with that one refused: a call that is refused memory has
   changed nothing, and gets its reply when it is made again. Scripts of more than 256 sessions, and edges, have ample memory alone.

   Usage: scripts_of_calls < SCRIPTS, or scripts_of_calls wrong < SCRIPTS, where each script has something wrong: it must fail. A
   script that can't be read is status 2. The last line is 'N passed, M failed', one for each performance. Link with
   -Wl,--wrap=malloc,--wrap=realloc. */
#include "names.h"
#include "pelgaisti.h"
#include "program_calls.h"
#include "refuse_one.h"
#include <stdio.h>
#include <stdlib.h>
#include <string.h>

enum { TEXT_BYTES = 1 << 20, MOST_CALLS = 1 << 16, MOST_ROWS = 1024, FILES = 4095, MOST_NUMBERS = 80 };

/* The script that is performed, its number of sessions, and whether something of it was wrong. */
static const char *script = "";
static uint32_t sessions;
static int is_wrong, is_silent;
static long allocation;

/* Expects this. Of a performance the first thing that is wrong is printed. */
static void want(int is_right, const char *what, uint64_t number) {
    if (is_right) return;
    if (!is_wrong && !is_silent) {
        printf("%s: %s %lu", script, what, (unsigned long)number);
        if (allocation) printf(", with allocation %ld refused", allocation);
        printf("\n");
    }
    is_wrong = 1;
}

static void unreadable(const char *why, const char *text) {
    fprintf(stderr, "%s: %s: %.*s\n", script, why, (int)strcspn(text, "\n"), text);
    exit(2);
}

/* ---- Rows ---- */

static uint32_t number_of(const name *names, size_t count, const char *text) {
    const name *found = named(names, count, text);
    if (!found) unreadable("no such name", text);
    return found->number;
}

static uint64_t read_number(const char *text) {
    char *end;
    uint64_t number = strtoull(text, &end, 10);
    if (*text < '0' || *text > '9' || *end) unreadable("no number", text);
    return number;
}

static int has_mode(uint32_t op) { return op == PELGAISTI_LOCK || op == PELGAISTI_CONVERT || op == PELGAISTI_TRY; }

static pelgaisti_resource read_resource(char *text) {
    pelgaisti_resource resource = {0, {0}};
    char *word, *rest = text;
    while (rest) {
        word = rest;
        rest = strchr(rest, '/');
        if (rest) *rest++ = 0;
        if (resource.level == PELGAISTI_LEVELS) unreadable("too deep", word);
        resource.numbers[resource.level++] = (uint32_t)read_number(word);
    }
    return resource;
}

/* Reads the row with this index, and writes to its line. */
static pelgaisti_entry read_row(char *line, size_t index) {
    pelgaisti_entry row = {0, {0, 0, {0, {0}}}, {0, 0}};
    char *field[7], *at = line;
    size_t k;
    for (k = 0; k < 7; k++) {
        if (!at) unreadable("a row of other than seven fields", line);
        field[k] = at;
        at = strchr(at, ',');
        if (at) *at++ = 0;
    }
    if (at || read_number(field[0]) != index) unreadable("a row at another place", line);
    row.session = (uint32_t)read_number(field[1]);
    row.call.op = number_of(ops, COUNT(ops), field[2]);
    if (has_mode(row.call.op) || row.call.op == PELGAISTI_RELEASE) row.call.resource = read_resource(field[3]);
    else if (*field[3]) unreadable("a resource too many", field[3]);
    if (has_mode(row.call.op)) row.call.mode = number_of(modes, COUNT(modes), field[4]);
    else if (*field[4]) unreadable("a mode too many", field[4]);
    row.reply.kind = number_of(kinds, COUNT(kinds), field[5]);
    switch (row.reply.kind) {
    case PELGAISTI_BEGAN:
    case PELGAISTI_COMMITTED:
    case PELGAISTI_RESTARTED:
    case PELGAISTI_ABORTED: row.reply.value = read_number(field[6]); break;
    case PELGAISTI_GRANTED: row.reply.value = number_of(modes, COUNT(modes), field[6]); break;
    case PELGAISTI_REFUSED: row.reply.value = number_of(reasons, COUNT(reasons), field[6]); break;
    default:
        if (*field[6]) unreadable("a value too many", field[6]);
    }
    return row;
}

static int same_reply(const pelgaisti_reply *one, const pelgaisti_reply *other) {
    return one->kind == other->kind && one->value == other->value;
}

static int same_resource(const pelgaisti_resource *one, const pelgaisti_resource *other) {
    return one->level == other->level && !memcmp(one->numbers, other->numbers, sizeof one->numbers);
}

static int same_entry(const pelgaisti_entry *one, const pelgaisti_entry *other) {
    return one->session == other->session && one->call.op == other->call.op && one->call.mode == other->call.mode &&
           same_resource(&one->call.resource, &other->call.resource) && same_reply(&one->reply, &other->reply);
}

static pelgaisti_entry entry_of(uint32_t session, uint32_t op, uint32_t mode, pelgaisti_resource resource, uint32_t kind, uint64_t value) {
    pelgaisti_entry entry;
    entry.session = session;
    entry.call.op = op;
    entry.call.mode = mode;
    entry.call.resource = resource;
    entry.reply.kind = kind;
    entry.reply.value = value;
    return entry;
}

static pelgaisti_resource path(uint32_t level, uint32_t first, uint32_t second) {
    pelgaisti_resource resource = {0, {0}};
    resource.level = level;
    resource.numbers[0] = first;
    resource.numbers[1] = second;
    return resource;
}

/* ---- Calls ---- */

/* The book, the entries of all its calls, how many of them it must have let go, and how many it may keep at most. */
static pelgaisti_book book, twin;
static pelgaisti_entry past[MOST_CALLS];
static size_t length, first;
static uint64_t bound;

static pelgaisti_entry round_rows[MOST_ROWS];
static size_t round_length;

static void open_book(pelgaisti_book *opened) {
    pelgaisti_options options = PELGAISTI_OPTIONS(sessions);
    options.keep = UINT64_MAX;
    pelgaisti_status status = pelgaisti_book_open(opened, &options);
    if (status == PELGAISTI_NO_MEMORY) status = pelgaisti_book_open(opened, &options);
    want(status == PELGAISTI_OK, "status of an opening", status);
}

static uint64_t length_of(pelgaisti_book *of) {
    uint64_t first_kept, count = 0;
    want(pelgaisti_book_length(of, &first_kept, &count) == PELGAISTI_OK, "length", 0);
    return count;
}

/* Serves a call, and a second time if memory is refused; the history must then be unchanged. */
static pelgaisti_reply serve(pelgaisti_book *in, const pelgaisti_entry *entry) {
    pelgaisti_reply reply = {77, 88};
    uint64_t before = length_of(in);
    pelgaisti_status status = pelgaisti_book_serve(in, entry->session, &entry->call, &reply);
    if (status == PELGAISTI_NO_MEMORY) {
        want(reply.kind == 77 && reply.value == 88 && length_of(in) == before, "history after a refusal", before);
        status = pelgaisti_book_serve(in, entry->session, &entry->call, &reply);
    }
    want(status == PELGAISTI_OK, "status of a call", status);
    return reply;
}

static uint32_t held(pelgaisti_book *in, uint32_t session, const pelgaisti_resource *resource) {
    uint32_t mode = 99;
    want(pelgaisti_book_held(in, session, resource, &mode) == PELGAISTI_OK, "held", session);
    return mode;
}

static size_t count_ended(void) {
    size_t count = 99;
    want(pelgaisti_book_ended(&book, NULL, 0, &count) == PELGAISTI_OK, "ended", 0);
    return count;
}

static void add_entry(const pelgaisti_entry *entry) {
    if (length == MOST_CALLS) unreadable("too many calls", "");
    past[length++] = *entry;
    if (bound < length && first < length - bound) first = length - (size_t)bound;
}

static uint32_t mode_after(const pelgaisti_reply *reply, uint32_t before) {
    if (reply->kind == PELGAISTI_GRANTED) return (uint32_t)reply->value;
    return reply->kind == PELGAISTI_RELEASED ? PELGAISTI_NL : before;
}

/* Serves a call, and expects its reply. The session must then hold what the reply says, and wait if it says so. */
static void want_call(const pelgaisti_entry *entry) {
    const pelgaisti_resource *resource = &entry->call.resource;
    uint32_t before = resource->level ? held(&book, entry->session, resource) : 0;
    pelgaisti_reply reply = serve(&book, entry);
    pelgaisti_claim waiting;
    int refused_open = entry->reply.kind == PELGAISTI_REFUSED && entry->reply.value == PELGAISTI_ALREADY_OPEN;
    int waits = entry->reply.kind == PELGAISTI_WAITING ||
                (entry->reply.kind == PELGAISTI_REFUSED && entry->reply.value == PELGAISTI_IS_WAITING);
    want(same_reply(&reply, &entry->reply), "reply to call", length);
    if (resource->level)
        want(held(&book, entry->session, resource) == mode_after(&reply, before), "mode held after call", length);
    want(pelgaisti_book_request(&book, entry->session, &waiting) == PELGAISTI_OK, "request after call", length);
    if (!refused_open) want((waiting.kind != 0) == waits, "wait after call", length);
    add_entry(entry);
}

static void want_calls(const pelgaisti_entry *rows, size_t count) {
    size_t k;
    for (k = 0; k < count; k++) want_call(&rows[k]);
}

static void want_each(const uint64_t *numbers, const pelgaisti_entry *rows, size_t count, int is_own, int is_quiet) {
    uint32_t session;
    size_t k;
    for (session = (uint32_t)numbers[0]; session <= numbers[1]; session++) {
        for (k = 0; k < count; k++) {
            pelgaisti_entry entry = rows[k];
            entry.session = session;
            if (is_own && entry.call.resource.level) entry.call.resource.numbers[0] += session - (uint32_t)numbers[0];
            want_call(&entry);
            if (is_quiet) want(count_ended() == 0, "waits that a call of this session ended", session);
        }
    }
}

static void begin_all(void) {
    uint32_t session;
    for (session = 1; session <= sessions; session++) {
        pelgaisti_entry entry = entry_of(session, PELGAISTI_BEGIN, 0, path(0, 0, 0), PELGAISTI_BEGAN, session);
        want_call(&entry);
    }
}

static void lock_of(pelgaisti_resource resource, uint32_t mode) {
    pelgaisti_entry entry = entry_of(1, PELGAISTI_LOCK, mode, resource, PELGAISTI_GRANTED, mode);
    want_call(&entry);
}

static void release_of(pelgaisti_resource resource, uint32_t kind, uint64_t value) {
    pelgaisti_entry entry = entry_of(1, PELGAISTI_RELEASE, 0, resource, kind, value);
    want_call(&entry);
}

static void lock_databases(uint64_t count) {
    uint32_t k;
    for (k = 0; k < count; k++) lock_of(path(1, k, 0), PELGAISTI_IS);
}

static void lock_files(void) {
    uint32_t k;
    lock_of(path(1, 1, 0), PELGAISTI_IX);
    for (k = 0; k < FILES; k++) lock_of(path(2, 1, k), PELGAISTI_X);
}

static void release_files(int is_falling) {
    uint32_t k;
    for (k = 0; k < FILES; k++) {
        release_of(path(1, 1, 0), PELGAISTI_REFUSED, PELGAISTI_CHILD_HELD);
        release_of(path(2, 1, is_falling ? FILES - 1 - k : k), PELGAISTI_RELEASED, 0);
    }
    release_of(path(1, 1, 0), PELGAISTI_RELEASED, 0);
}

/* Expects the history of a book from place `from` on to be these entries. */
static void want_history(pelgaisti_book *of, uint64_t from, const pelgaisti_entry *entries, size_t count) {
    static pelgaisti_entry piece[64];
    size_t done = 0, got = 0, k;
    want(length_of(of) == from + count, "length of the history", from + count);
    while (done < count && !is_wrong) {
        want(pelgaisti_book_history(of, from + done, piece, COUNT(piece), &got) == PELGAISTI_OK && got, "history", from + done);
        for (k = 0; k < got && !is_wrong; k++) want(same_entry(&piece[k], &entries[done + k]), "entry", from + done + k);
        done += got;
    }
}

/* Expects the book to keep the entries that were not let go. */
static void want_past(void) {
    uint64_t kept = 0, count;
    want(pelgaisti_book_length(&book, &kept, &count) == PELGAISTI_OK && kept == first, "first entry kept", first);
    want_history(&book, first, past + first, length - first);
}

static void want_rounds(uint64_t count) {
    uint64_t done;
    size_t k;
    for (done = 0; done < count; done++) {
        uint64_t begun = length / 4;
        for (k = 0; k < round_length; k++) {
            pelgaisti_entry entry = round_rows[k];
            if (entry.reply.kind == PELGAISTI_BEGAN) entry.reply.value += begun;
            want_call(&entry);
        }
        want_past();
    }
}

/* ---- Ended waits, and batches ---- */

static void want_ended(const uint64_t *numbers, size_t count) {
    static uint32_t list[PELGAISTI_MAX_SESSIONS];
    size_t got = 0, k, j;
    want(pelgaisti_book_ended(&book, list, COUNT(list), &got) == PELGAISTI_OK, "ended", 0);
    want(got == count, "number of ended waits", got);
    for (k = 0; k < count && !is_wrong; k++) {
        for (j = 0; j < got && list[j] != numbers[k]; j++) {}
        want(j < got, "ended wait of session", numbers[k]);
    }
}

static void want_ended_all(uint64_t from, uint64_t last) {
    static uint64_t numbers[PELGAISTI_MAX_SESSIONS];
    size_t count = 0;
    for (; from <= last; from++) numbers[count++] = from;
    want_ended(numbers, count);
}

static pelgaisti_entry items[MOST_ROWS];

static void make_items(const pelgaisti_entry *rows, size_t count) {
    size_t k;
    for (k = 0; k < count; k++) {
        items[k] = rows[k];
        items[k].reply.kind = 77;
        items[k].reply.value = 88;
    }
}

/* Serves items as a batch, as far as memory is there. Returns how many it served; the others must be as they were. */
static size_t serve_some(pelgaisti_entry *some, size_t count) {
    size_t served = 0, k;
    pelgaisti_status status = pelgaisti_book_serve_batch(&book, some, count, &served);
    if (status == PELGAISTI_NO_MEMORY) served = 0;
    else want(status == PELGAISTI_OK, "status of a batch", status);
    want(served <= count, "calls served of a batch", served);
    for (k = served; k < count; k++) want(some[k].reply.kind == 77 && some[k].reply.value == 88, "reply in a batch", k);
    return served;
}

/* Serves the items, and the rest a second time if memory is refused. Expects these ended waits, if any are given. */
static void serve_items(size_t count, const uint64_t *ended, size_t ended_count) {
    size_t served = serve_some(items, count);
    if (ended_count) want_ended(ended, served ? ended_count : 0);
    if (served < count) want(serve_some(items + served, count - served) == count - served, "rest of a batch", served);
}

static void want_items(const pelgaisti_entry *rows, size_t count) {
    size_t k;
    for (k = 0; k < count; k++) want(same_entry(&items[k], &rows[k]), "entry in a batch", k);
}

static void want_batch(const pelgaisti_entry *rows, size_t count, const uint64_t *ended, size_t ended_count) {
    size_t k;
    make_items(rows, count);
    serve_items(count, ended, ended_count);
    want_items(rows, count);
    for (k = 0; k < count; k++) add_entry(&rows[k]);
}

static void want_empty_batch(void) {
    size_t served = 99;
    want(pelgaisti_book_serve_batch(&book, NULL, 0, &served) == PELGAISTI_OK && !served, "empty batch", served);
}

/* ---- Listings ---- */

static void want_held(const pelgaisti_entry *rows, size_t count) {
    size_t k;
    for (k = 0; k < count; k++) {
        uint32_t mode = rows[k].reply.kind == PELGAISTI_GRANTED ? (uint32_t)rows[k].reply.value : PELGAISTI_NL;
        want(held(&book, rows[k].session, &rows[k].call.resource) == mode, "mode held by session", rows[k].session);
    }
}

static void want_holders(uint32_t number, const pelgaisti_entry *rows, size_t count) {
    pelgaisti_holder list[16] = {{99, 99}};
    pelgaisti_resource database = path(1, number, 0);
    size_t got = 99, k;
    pelgaisti_status status = pelgaisti_book_holders(&book, &database, list, COUNT(list), &got);
    if (status == PELGAISTI_NO_MEMORY) {
        want(list[0].session == 99 && list[0].mode == 99 && got == 99, "holders after a refusal of database", number);
        status = pelgaisti_book_holders(&book, &database, list, COUNT(list), &got);
    }
    want(status == PELGAISTI_OK && got == count && got <= COUNT(list), "number of holders", got);
    for (k = 0; k < count && !is_wrong; k++)
        want(list[k].session == rows[k].session && list[k].mode == rows[k].reply.value, "holder", k);
}

/* Whether a claim is the one that the row stands for. */
static int is_claim(const pelgaisti_claim *claim, const pelgaisti_entry *row) {
    int waits = row->reply.kind == PELGAISTI_WAITING;
    uint32_t kind = !waits ? PELGAISTI_HELD : row->call.op == PELGAISTI_CONVERT ? PELGAISTI_CONVERSION : PELGAISTI_FRESH;
    return claim->session == row->session && claim->transaction == row->session && claim->kind == kind &&
           claim->mode == row->call.mode && claim->doomed == (row->reply.kind == PELGAISTI_DEADLOCK) &&
           same_resource(&claim->resource, &row->call.resource);
}

static void want_locks(const pelgaisti_entry *rows, size_t count) {
    static pelgaisti_claim list[MOST_ROWS + PELGAISTI_MAX_SESSIONS];
    size_t got = 99, open = 0, k;
    uint64_t place = 99;
    pelgaisti_status status;
    list[0].session = 99;
    status = pelgaisti_book_dump(&book, list, COUNT(list), &got, &place);
    if (status == PELGAISTI_NO_MEMORY) {
        want(list[0].session == 99 && got == 99 && place == 99, "listing after a refusal", 0);
        status = pelgaisti_book_dump(&book, list, COUNT(list), &got, &place);
    }
    while (open < got && list[open].kind == PELGAISTI_TRANSACTION_ROW) open++; /* they come before the claims */
    want(status == PELGAISTI_OK && got == open + count, "length of the listing", got);
    for (k = 0; k < count && !is_wrong; k++) want(is_claim(&list[open + k], &rows[k]), "line of the listing", k);
}

static void want_session(uint32_t session, uint64_t number, int is_doomed, const pelgaisti_entry *request) {
    pelgaisti_transaction open = {99, 99};
    pelgaisti_claim waiting;
    want(pelgaisti_book_transaction(&book, session, &open) == PELGAISTI_OK && open.number == number && open.doomed == (uint32_t)is_doomed,
         "transaction of session", session);
    want(pelgaisti_book_request(&book, session, &waiting) == PELGAISTI_OK && (request ? is_claim(&waiting, request) : !waiting.kind),
         "request of session", session);
}

static void want_sessions(const pelgaisti_entry *rows, size_t count) {
    size_t k;
    for (k = 0; k < count; k++) {
        int is_request = has_mode(rows[k].call.op);
        want_session(rows[k].session, rows[k].session, rows[k].reply.kind == PELGAISTI_DEADLOCK, is_request ? &rows[k] : NULL);
    }
}

static void want_nothing(void) {
    uint32_t session;
    want_locks(NULL, 0);
    for (session = 1; session <= sessions; session++) want_session(session, 0, 0, NULL);
}

/* ---- What is kept of the history ---- */

static void keep(uint64_t most) {
    want(pelgaisti_book_keep_at_most(&book, most) == PELGAISTI_OK, "bound", most);
    bound = most;
    if (bound < length && first < length - bound) first = length - (size_t)bound;
}

static void take(uint64_t room, uint64_t from, uint64_t count) {
    static pelgaisti_entry piece[MOST_ROWS];
    uint64_t place = 99;
    size_t got = 99, k;
    if (room > COUNT(piece)) unreadable("too much room", "");
    want(pelgaisti_book_take_history(&book, &place, piece, (size_t)room, &got) == PELGAISTI_OK, "take", room);
    want(first == from && place == from, "first entry taken", place);
    want(got == count && first + got <= length, "entries taken", got);
    for (k = 0; k < count && !is_wrong; k++) want(same_entry(&piece[k], &past[first + k]), "entry taken", k);
    first += (size_t)count;
}

static void want_kept(uint64_t from, uint64_t next) {
    uint64_t kept = 99, count = 99;
    want(pelgaisti_book_length(&book, &kept, &count) == PELGAISTI_OK, "first entry kept", from);
    want(kept == from, "first entry kept", kept);
    want(count == next, "calls served", next);
}

/* ---- Two books ---- */

static void serve_all(pelgaisti_book *in, const pelgaisti_entry *rows, size_t count) {
    size_t k;
    for (k = 0; k < count; k++) {
        pelgaisti_reply reply = serve(in, &rows[k]);
        want(same_reply(&reply, &rows[k].reply), "reply to call", k);
    }
}

static void want_same_history(void) {
    static pelgaisti_entry piece[64], other[64];
    uint64_t place = 0, count = length_of(&twin);
    size_t got = 0, others, k;
    want(length_of(&book) == count, "length of both histories", count);
    while (place < count && !is_wrong) {
        want(pelgaisti_book_history(&twin, place, piece, COUNT(piece), &got) == PELGAISTI_OK && got, "history", place);
        others = 0;
        want(pelgaisti_book_history(&book, place, other, COUNT(other), &others) == PELGAISTI_OK && others == got, "history", place);
        for (k = 0; k < got && !is_wrong; k++) want(same_entry(&piece[k], &other[k]), "entry of both histories", place + k);
        place += got;
    }
}

/* Expects the same history in both books, and the same locks on each resource of the rows. */
static void want_same_books(const pelgaisti_entry *rows, size_t count) {
    size_t k;
    uint32_t session;
    want_same_history();
    for (k = 0; k < count; k++) {
        const pelgaisti_resource *resource = &rows[k].call.resource;
        if (!resource->level || (k && same_resource(resource, &rows[k - 1].call.resource))) continue;
        for (session = 1; session <= sessions; session++)
            want(held(&book, session, resource) == held(&twin, session, resource), "lock of session", session);
    }
}

/* Makes the call in each session of both books, and expects the same replies. */
static void want_same_replies(uint32_t op) {
    uint32_t session;
    for (session = 1; session <= sessions; session++) {
        pelgaisti_entry entry = entry_of(session, op, 0, path(0, 0, 0), 0, 0);
        pelgaisti_reply one = serve(&book, &entry), other = serve(&twin, &entry);
        want(same_reply(&one, &other), "reply in both books to session", session);
    }
}

static void want_same_end(const pelgaisti_entry *rows, size_t count) {
    want_same_books(rows, count);
    want_same_replies(PELGAISTI_POLL);
    want_same_replies(PELGAISTI_ABORT);
}

/* Expects the call of rows[index], for which memory was refused, to have changed nothing, and makes it again. */
static void want_unchanged(const pelgaisti_entry *rows, size_t count, size_t index) {
    open_book(&twin);
    serve_all(&twin, rows, index);
    want_history(&book, 0, rows, index);
    want_same_books(rows, count);
    want_same_replies(PELGAISTI_POLL);
    serve_all(&book, rows + index, count - index);
    serve_all(&twin, rows + index, count - index);
    want_same_end(rows, count);
}

static void want_refused(const pelgaisti_entry *rows, size_t count) {
    size_t k;
    for (k = 0; k < count; k++) {
        pelgaisti_reply reply = {77, 88};
        pelgaisti_status status = pelgaisti_book_serve(&book, rows[k].session, &rows[k].call, &reply);
        if (status == PELGAISTI_NO_MEMORY) {
            want_unchanged(rows, count, k);
            return;
        }
        want(status == PELGAISTI_OK && same_reply(&reply, &rows[k].reply), "reply to call", k);
    }
    want_history(&book, 0, rows, count);
}

static size_t add_each(pelgaisti_entry *rows, size_t count, uint32_t from, uint32_t last, pelgaisti_entry row) {
    uint32_t session;
    for (session = from; session <= last; session++) {
        rows[count] = row;
        rows[count].session = session;
        if (row.reply.kind == PELGAISTI_BEGAN) rows[count].reply.value = session;
        count++;
    }
    return count;
}

static void want_crowd(void) {
    static pelgaisti_entry rows[MOST_ROWS];
    pelgaisti_resource none = path(0, 0, 0), one = path(1, 1, 0);
    size_t count = 0;
    count = add_each(rows, count, 1, 256, entry_of(0, PELGAISTI_BEGIN, 0, none, PELGAISTI_BEGAN, 0));
    count = add_each(rows, count, 1, 1, entry_of(0, PELGAISTI_LOCK, PELGAISTI_X, one, PELGAISTI_GRANTED, PELGAISTI_X));
    count = add_each(rows, count, 2, 256, entry_of(0, PELGAISTI_LOCK, PELGAISTI_IS, one, PELGAISTI_WAITING, 0));
    count = add_each(rows, count, 1, 1, entry_of(0, PELGAISTI_COMMIT, 0, none, PELGAISTI_COMMITTED, 1));
    count = add_each(rows, count, 2, 256, entry_of(0, PELGAISTI_POLL, 0, none, PELGAISTI_CLEAR, 0));
    want_refused(rows, count);
}

/* Serves the items from `from` on in the book, and those that it served one by one in the second one. Returns how many they were. */
static size_t serve_in_both(const pelgaisti_entry *rows, size_t count, size_t from) {
    size_t served = serve_some(items + from, count - from), k;
    for (k = from; k < from + served; k++) want(same_entry(&items[k], &rows[k]), "entry in a batch", k);
    serve_all(&twin, rows + from, served);
    want_same_books(rows, count);
    want_same_replies(PELGAISTI_POLL);
    return served;
}

static void want_refused_batch(const pelgaisti_entry *rows, size_t count) {
    size_t served;
    open_book(&twin);
    serve_all(&twin, past, length);
    make_items(rows, count);
    served = serve_in_both(rows, count, 0);
    want(served + serve_in_both(rows, count, served) == count, "rest of a batch", served);
    want_same_end(rows, count);
}

/* ---- Random calls ---- */

static uint64_t seed;

static uint32_t draw(uint32_t limit) {
    seed = seed * 6364136223846793005u + 1442695040888963407u;
    return (uint32_t)(seed >> 33) % limit;
}

/* A random call. Most are locks of one of two databases. */
static pelgaisti_entry random_entry(void) {
    static const uint32_t drawn[8] = {PELGAISTI_X, PELGAISTI_S, PELGAISTI_IX, PELGAISTI_U};
    uint32_t session = 1 + draw(40), number = 1 + draw(2), choice = draw(20), op = PELGAISTI_LOCK, at;
    pelgaisti_entry entry;
    if (choice < 2) op = PELGAISTI_BEGIN;
    else if (choice == 2) op = PELGAISTI_POLL;
    else if (choice == 3) op = PELGAISTI_COMMIT;
    else if (choice == 4) op = draw(2) ? PELGAISTI_ABORT : PELGAISTI_RESTART;
    else if (choice == 5) op = PELGAISTI_RELEASE;
    else if (choice < 8) op = PELGAISTI_WITHDRAW;
    else if (choice < 10) op = PELGAISTI_TRY;
    entry = entry_of(session, op, 0, path(0, 0, 0), 0, 0);
    if (op == PELGAISTI_LOCK || op == PELGAISTI_TRY) {
        at = draw(8);
        entry.call.mode = at < 4 ? drawn[at] : PELGAISTI_IS;
    }
    if (entry.call.mode || op == PELGAISTI_RELEASE) entry.call.resource = path(1, number, 0);
    return entry;
}

/* Serves random calls as batches in the book, and one by one in the second one. */
static void want_same_at_random(void) {
    static pelgaisti_entry rows[64];
    size_t done, k;
    seed = 20261123;
    open_book(&twin);
    for (done = 0; done < 16; done++) {
        for (k = 0; k < COUNT(rows); k++) rows[k] = random_entry();
        make_items(rows, COUNT(rows));
        serve_items(COUNT(rows), NULL, 0);
        for (k = 0; k < COUNT(rows); k++) {
            pelgaisti_reply reply = serve(&twin, &rows[k]);
            want(same_reply(&items[k].reply, &reply), "reply in a batch", done * COUNT(rows) + k);
        }
        want_same_history();
    }
}

enum { EIGHT = 8 };

/* A random program of locks on paths of up to three levels, most of them. */
static pelgaisti_program random_program(void) {
    static const uint32_t drawn[6] = {PELGAISTI_X, PELGAISTI_S, PELGAISTI_IX, PELGAISTI_U, PELGAISTI_IS, PELGAISTI_S};
    static const uint32_t ops[12] = {PELGAISTI_LOCK, PELGAISTI_LOCK, PELGAISTI_LOCK, PELGAISTI_LOCK, PELGAISTI_LOCK, PELGAISTI_TRY, PELGAISTI_TRY,
                                     PELGAISTI_CONVERT, PELGAISTI_RELEASE, PELGAISTI_WITHDRAW, PELGAISTI_POLL, 0};
    uint32_t op = ops[draw(12)], level = 1 + draw(3);
    pelgaisti_program program = {draw(7), 0, 0, {0, 0, {0, {0}}}};
    int has_resource = has_mode(op) || op == PELGAISTI_RELEASE;
    program.last = entry_of(0, op, has_mode(op) ? drawn[draw(6)] : 0, path(has_resource ? level : 0, 1 + draw(2), 1 + draw(2)), 0, 0).call;
    if (has_resource) program.level = draw(level);
    program.above = draw(4) ? pelgaisti_parent_mode(program.last.mode) : PELGAISTI_IS;
    return program;
}

/* Runs a program in the book, again if memory is refused to its first call, and serves its calls in the second book. */
static pelgaisti_program_answer run_in_both(uint32_t session, const pelgaisti_program *program) {
    pelgaisti_program_answer answer = {77, 77, 77, 77, {77}};
    pelgaisti_reply replies[PELGAISTI_CALLS];
    pelgaisti_call calls[PELGAISTI_CALLS];
    uint32_t list[EIGHT], ended[EIGHT];
    uint64_t before = length_of(&book);
    size_t count = 99, all = calls_of(program, calls), k, n, marked = 0;
    int has_ended[EIGHT + 1] = {0};
    pelgaisti_status status = pelgaisti_book_run(&book, session, program, &answer);
    if (all == 0) {
        want(status == PELGAISTI_NO_SUCH_OP && answer.served == 77 && length_of(&book) == before, "program of no calls at", before);
        return (pelgaisti_program_answer){before, 0, 0, 0, {0}};
    }
    if (status == PELGAISTI_NO_MEMORY) {
        want(answer.served == 77 && length_of(&book) == before, "history after a refusal", before);
        status = pelgaisti_book_run(&book, session, program, &answer);
    }
    want(status == PELGAISTI_OK && answer.place == before && answer.served <= all, "program at", before);
    want(pelgaisti_program_replies(program, &answer, replies) == answer.served, "replies of a program at", before);
    want(answer.served == 0 || (pelgaisti_book_ended(&book, list, EIGHT, &count) == PELGAISTI_OK && count <= EIGHT), "ended by a program at", before);
    if (answer.served == 0) count = 0;
    for (k = 0; k < answer.served && !is_wrong; k++) {
        pelgaisti_entry entry = {session, calls[k], {0, 0}};
        pelgaisti_reply reply = serve(&twin, &entry);
        uint32_t stops = stops_at(reply.kind) ? reply.kind : 0;
        want(same_reply(&replies[k], &reply), "reply in a program", before + k);
        want(stops == (k + 1 == answer.served ? answer.stop : 0), "stop of a program at", before + k);
        want(pelgaisti_book_ended(&twin, ended, EIGHT, &n) == PELGAISTI_OK && n <= EIGHT, "ended", before + k);
        while (n > 0) marked += !has_ended[ended[--n]], has_ended[ended[n]] = 1;
    }
    want(answer.served == all || answer.stop || answer.starved, "calls of a program at", before);
    want(count == marked, "sessions that a program tells of at", before);
    for (k = 0; k < count && !is_wrong; k++) want(has_ended[list[k]], "session that a program tells of", list[k]);
    return answer;
}

static void want_programs(uint64_t turns) {
    uint64_t turn, whole = 0, stopped = 0, most = 0;
    seed = 20261128;
    open_book(&twin);
    for (turn = 0; turn < turns && !is_wrong; turn++) {
        uint32_t session = 1 + draw(EIGHT);
        pelgaisti_program program = random_program();
        pelgaisti_program_answer answer = run_in_both(session, &program);
        whole += !answer.stop;
        stopped += answer.stop && answer.served > 1;
        if (answer.served > most) most = answer.served;
    }
    want_same_history();
    want(whole > 20 && stopped > 20 && most > 3, "programs seen", whole);
}

/* The model's waiting requests, and counts of what was brought about. */
static struct request {
    int waits, is_conversion;
    uint32_t number, target;
    uint64_t turn;
} requests[EIGHT];
static uint64_t seen_waits, seen_victims, seen_withdrawals, seen_edges;

/* Whether a request in this mode is granted beside a lock in that one: the table of RULES.md. */
static int is_compatible(uint32_t asked, uint32_t granted) {
    static const uint32_t order[7] = {PELGAISTI_NL, PELGAISTI_IS, PELGAISTI_IX, PELGAISTI_S, PELGAISTI_SIX, PELGAISTI_U, PELGAISTI_X};
    static const char *const table[7] = {"yyyyyyy", "yyyyynn", "yyynnnn", "yynynnn", "yynnnnn", "yynynnn", "ynnnnnn"};
    size_t row = 0, column = 0;
    while (order[row] != asked) row++;
    while (order[column] != granted) column++;
    return table[row][column] == 'y';
}

/* Serves a call of the session at this position, from 0 on, and updates the model by the reply. */
static void serve_and_note(size_t at, pelgaisti_entry entry, uint64_t turn) {
    int asks = entry.call.op == PELGAISTI_LOCK || entry.call.op == PELGAISTI_CONVERT;
    uint32_t before = asks ? held(&book, (uint32_t)at + 1, &entry.call.resource) : 0;
    pelgaisti_reply reply;
    entry.session = (uint32_t)at + 1;
    reply = serve(&book, &entry);
    switch (reply.kind) {
    case PELGAISTI_WAITING:
        if (!asks) break;
        requests[at].waits = 1;
        requests[at].is_conversion = before != PELGAISTI_NL;
        requests[at].number = entry.call.resource.numbers[0];
        requests[at].target = before | entry.call.mode;
        requests[at].turn = turn;
        seen_waits++;
        break;
    case PELGAISTI_DEADLOCK: requests[at].waits = 0, seen_victims++; break;
    case PELGAISTI_WITHDRAWN: requests[at].waits = 0, seen_withdrawals++; break;
    case PELGAISTI_ABORTED:
    case PELGAISTI_RESTARTED:
    case PELGAISTI_CLEAR: requests[at].waits = 0; break;
    default: break;
    }
}

/* Whether the model says that one position waits for the other. */
static int is_edge(size_t one, size_t other, const pelgaisti_holder *holders, size_t count) {
    const struct request *own = &requests[one], *ahead = &requests[other];
    size_t k;
    if (!own->waits || one == other) return 0;
    for (k = 0; k < count; k++)
        if (holders[k].session == other + 1 && !is_compatible(own->target, holders[k].mode)) return 1;
    if (!ahead->waits || ahead->number != own->number) return 0;
    return ahead->is_conversion != own->is_conversion ? ahead->is_conversion : ahead->turn < own->turn;
}

static void want_edges_now(void) {
    size_t one, other, count, blocked = 99;
    for (one = 0; one < EIGHT; one++) {
        pelgaisti_holder holders[EIGHT];
        pelgaisti_resource resource = path(1, requests[one].number, 0);
        uint32_t blockers[EIGHT];
        size_t found = 0;
        count = 0;
        if (requests[one].waits)
            want(pelgaisti_book_holders(&book, &resource, holders, EIGHT, &count) == PELGAISTI_OK && count <= EIGHT, "holders", one);
        want(pelgaisti_book_blockers(&book, (uint32_t)one + 1, blockers, EIGHT, &blocked) == PELGAISTI_OK, "blockers", one);
        for (other = 0; other < EIGHT && !is_wrong; other++) {
            int wanted = is_edge(one, other, holders, count);
            if (wanted) want(found < blocked && blockers[found] == other + 1, "blocker of session", one + 1);
            found += (size_t)wanted;
        }
        want(found == blocked, "number of blockers of session", one + 1);
        seen_edges += found;
    }
}

static void want_edges(uint64_t turns) {
    static const uint32_t drawn[7] = {PELGAISTI_IS, PELGAISTI_IX, PELGAISTI_SIX, PELGAISTI_X, PELGAISTI_U, PELGAISTI_S, PELGAISTI_S};
    static const uint32_t calls[20] = {PELGAISTI_BEGIN, PELGAISTI_BEGIN, PELGAISTI_BEGIN, PELGAISTI_RELEASE, PELGAISTI_COMMIT,
                                       PELGAISTI_ABORT, PELGAISTI_CONVERT, PELGAISTI_CONVERT, PELGAISTI_CONVERT, PELGAISTI_TRY,
                                       PELGAISTI_TRY, PELGAISTI_WITHDRAW, PELGAISTI_LOCK, PELGAISTI_LOCK, PELGAISTI_LOCK,
                                       PELGAISTI_LOCK, PELGAISTI_LOCK, PELGAISTI_LOCK, PELGAISTI_LOCK, PELGAISTI_RESTART};
    uint64_t turn;
    size_t at;
    memset(requests, 0, sizeof requests);
    seen_waits = seen_victims = seen_withdrawals = seen_edges = 0;
    seed = 2026;
    for (turn = 0; turn < turns && !is_wrong; turn++) {
        uint32_t who = draw(EIGHT), number = 1 + draw(3), mode = drawn[draw(7)], op = calls[draw(20)];
        serve_and_note(who, entry_of(0, op, has_mode(op) ? mode : 0, path(1, number, 0), 0, 0), turn);
        /* the model learns of grants and victims by polls */
        for (at = 0; at < EIGHT; at++)
            if (requests[at].waits) serve_and_note(at, entry_of(0, PELGAISTI_POLL, 0, path(0, 0, 0), 0, 0), turn);
        want_edges_now();
    }
    want(seen_waits > 100 && seen_victims > 10 && seen_withdrawals > 10 && seen_edges > 100, "edges seen", seen_edges);
}

/* ---- Scripts ---- */

static void need(int has, const char *word) {
    if (!has) unreadable("other numbers or rows", word);
}

/* Performs a block that needs no rows. Returns whether it is one. */
static int perform_numbers(const char *word, const uint64_t *n, size_t count) {
    if (!strcmp(word, "begin")) need(!count, word), begin_all();
    else if (!strcmp(word, "databases")) need(count == 1, word), lock_databases(n[0]);
    else if (!strcmp(word, "files")) need(!count, word), lock_files();
    else if (!strcmp(word, "release_rising")) need(!count, word), release_files(0);
    else if (!strcmp(word, "release_falling")) need(!count, word), release_files(1);
    else if (!strcmp(word, "rounds")) need(count == 1 && round_length, word), want_rounds(n[0]);
    else if (!strcmp(word, "empty_batch")) need(!count, word), want_empty_batch();
    else if (!strcmp(word, "nothing")) need(!count, word), want_nothing();
    else if (!strcmp(word, "ended")) want_ended(n, count);
    else if (!strcmp(word, "ended_all")) need(count == 2, word), want_ended_all(n[0], n[1]);
    else if (!strcmp(word, "keep")) need(count == 1, word), keep(n[0]);
    else if (!strcmp(word, "keep_all")) need(!count, word), keep(UINT64_MAX);
    else if (!strcmp(word, "take")) need(count == 3, word), take(n[0], n[1], n[2]);
    else if (!strcmp(word, "kept")) need(count == 2, word), want_kept(n[0], n[1]);
    else return 0;
    return 1;
}

/* Performs a block with rows. Returns whether it is one. */
static int perform_rows(const char *word, const uint64_t *n, size_t count, const pelgaisti_entry *rows, size_t length_of_rows) {
    size_t k;
    if (!strcmp(word, "calls")) need(!count && length_of_rows, word), want_calls(rows, length_of_rows);
    else if (!strcmp(word, "each")) need(count == 2 && length_of_rows, word), want_each(n, rows, length_of_rows, 0, 0);
    else if (!strcmp(word, "each_quietly")) need(count == 2 && length_of_rows, word), want_each(n, rows, length_of_rows, 0, 1);
    else if (!strcmp(word, "each_own")) need(count == 2 && length_of_rows, word), want_each(n, rows, length_of_rows, 1, 0);
    else if (!strcmp(word, "batch")) need(length_of_rows > 0, word), want_batch(rows, length_of_rows, n, count);
    else if (!strcmp(word, "held")) need(!count && length_of_rows, word), want_held(rows, length_of_rows);
    else if (!strcmp(word, "holders")) need(count == 1, word), want_holders((uint32_t)n[0], rows, length_of_rows);
    else if (!strcmp(word, "locks")) need(!count && length_of_rows, word), want_locks(rows, length_of_rows);
    else if (!strcmp(word, "sessions")) need(!count && length_of_rows, word), want_sessions(rows, length_of_rows);
    else if (!strcmp(word, "round")) {
        need(!count && length_of_rows, word);
        for (k = 0; k < length_of_rows; k++) round_rows[k] = rows[k];
        round_length = length_of_rows;
    } else return 0;
    return 1;
}

/* Performs a block that ends a script. Returns whether it is one. */
static int perform_last(const char *word, const uint64_t *n, size_t count, const pelgaisti_entry *rows, size_t length_of_rows) {
    if (!strcmp(word, "refused")) need(!count && length_of_rows, word), want_refused(rows, length_of_rows);
    else if (!strcmp(word, "crowd")) need(!count && sessions == 256, word), want_crowd();
    else if (!strcmp(word, "refused_batch")) need(!count && length_of_rows, word), want_refused_batch(rows, length_of_rows);
    else if (!strcmp(word, "random")) need(!count && sessions == 40, word), want_same_at_random();
    else if (!strcmp(word, "programs")) need(count == 1 && sessions == EIGHT, word), want_programs(n[0]);
    else if (!strcmp(word, "edges")) need(count == 1 && sessions == EIGHT, word), want_edges(n[0]);
    else return 0;
    return 1;
}

/* Performs a block, of which it writes to the text. */
static void perform_block(char *block) {
    static pelgaisti_entry rows[MOST_ROWS];
    uint64_t numbers[MOST_NUMBERS];
    size_t row_count = 0, number_count = 0;
    char *line = block, *rest = strchr(block, '\n'), *word;
    if (rest) *rest++ = 0;
    word = line;
    line = strchr(line, ' ');
    while (line) {
        char *number = line + 1;
        *line = 0;
        line = strchr(number, ' ');
        if (line) *line = 0;
        if (number_count == MOST_NUMBERS) unreadable("too many numbers", word);
        numbers[number_count++] = read_number(number);
    }
    while (rest && *rest) {
        char *row = rest;
        rest = strchr(rest, '\n');
        if (rest) *rest++ = 0;
        if (row_count == MOST_ROWS) unreadable("too many rows", word);
        rows[row_count] = read_row(row, row_count);
        row_count++;
    }
    if (perform_last(word, numbers, number_count, rows, row_count)) return;
    if (perform_numbers(word, numbers, number_count)) need(!row_count, word);
    else if (!perform_rows(word, numbers, number_count, rows, row_count)) unreadable("no such block", word);
    want_past();
}

static char work[TEXT_BYTES];

/* Performs the blocks of a script on a new book. */
static void perform(const char *blocks) {
    char *block = work;
    is_wrong = 0;
    length = first = 0;
    bound = UINT64_MAX;
    strcpy(work, blocks);
    open_book(&book);
    while (block && !is_wrong) {
        char *next = strstr(block, "\n%");
        if (next) next[1] = 0;
        perform_block(block);
        block = next ? next + 2 : NULL;
    }
    left = -1;
    pelgaisti_book_close(&book);
    pelgaisti_book_close(&twin);
}

/* Performs a script with ample memory, and then with each allocation refused. Counts the performances. */
static void perform_script(char *text, long *passed, long *failed) {
    char *blocks = strstr(text, "\n%"), *line = strchr(text, '\n'), *space = strchr(text, ' ');
    if (!blocks || !space || space > line) unreadable("a script without a name, sessions or blocks", text);
    *line = *space = 0;
    script = text;
    sessions = (uint32_t)read_number(space + 1);
    blocks += 2;
    allocation = 0;
    for (;;) {
        long before = refusals;
        left = allocation - 1;
        perform(blocks);
        if (allocation && refusals == before) break;
        *(is_wrong ? failed : passed) += 1;
        if (is_wrong || is_silent || sessions > 256 || strstr(blocks, "edges ") == blocks) return;
        allocation++;
    }
    if (allocation == 1) {
        *failed += 1;
        printf("%s: memory was refused in no performance\n", script);
    }
}

int main(int count, char **words) {
    static char text[TEXT_BYTES];
    size_t size = fread(text, 1, sizeof text - 1, stdin);
    char *at = text;
    long passed = 0, failed = 0;
    is_silent = count > 1 && !strcmp(words[1], "wrong");
    if (size == sizeof text - 1) unreadable("too long a text", "");
    text[size] = 0;
    while (at) {
        char *next = strstr(at, "\n=");
        if (next) next[1] = 0;
        if (is_silent) {
            /* what is wrong has to be found */
            long found = 0, unfound = 0;
            perform_script(at, &unfound, &found);
            passed += found;
            failed += unfound;
            if (unfound) printf("%s: nothing wrong was found\n", script);
        } else {
            perform_script(at, &passed, &failed);
        }
        at = next ? next + 2 : NULL;
    }
    printf("%ld passed, %ld failed\n", passed, failed);
    return failed || !passed;
}
