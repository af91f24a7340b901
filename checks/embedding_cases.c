/* Performs cases: texts of what the sessions of an office do and reply, each in a fresh office. Then performs each case again and
   again, and refuses one allocation after another: the call is made once more, and the case goes on as its text says.

   Usage: embedding_cases [--wrong] FILE..

   Prints each case that fails with the line that went otherwise, and last 'N passed, M failed'. With --wrong every case of the files
   has to fail, and each that doesn't is printed. Link with -Wl,--wrap=malloc,--wrap=realloc.

   The cases of a file stand apart by empty lines. The first line of a case has the number of sessions, of kept entries if they are
   bounded, `ample` if memory is never refused, and the name: `3: two readers wait`, `2 keeping 1 ample: ..`. Each further line begins
   with the number of a session:

     1 publishes lock 1 X             publishes the call; its record is on the list afterwards
     1 serves 2                       makes a pass that serves two calls
     1 serves some                    makes a pass, and remembers whether it was starved and how many calls it served
     1 collects 3 granted X           collects the answer with place 3
     1 makes commit: 4 committed 1    publishes the call, serves it in a pass of its own, and collects this answer
     1 performs poll: 5 clear, serving 1          makes the call in one turn, whose pass serves one published call
     1 tells commit: 4 committed 1, serving 0, telling 2 3     the same, and the waker is called for sessions 2 and 3
     1 passes telling 2               makes a pass behind which it is called for session 2
     1 calls poll: 5 clear            makes the call by pelgaisti_session_perform in one turn
     1 resumes 5 clear                goes on with the published call for one turn, and gets this answer
     1 stays                          goes on with the published call for no turn: it stays pending
     1 runs begins lock 7/2 X: 0 began 1, granted IX, granted X      makes the program in one turn, and gets these replies, the first at
                                      place 0. The start of a program is one of begins, commits, aborts, restarts, commits-begins and
                                      aborts-begins, or there is none, and so it is with the last call. `.. level 1 above SIX` says how
                                      many levels are locked already, and in which mode the ancestors are locked; it is the whole path for
                                      a lock or a try, and else the resource alone, in the least mode above
     1 posts begins lock 7/2 X        publishes the program
     1 finishes 0 began 1, granted IX, granted X      goes on with the published program for one turn, and gets these replies
     1 bounds 10 4 2                  serves from then on in the passes of whole calls and programs at most ten calls a round, none once
                                      those give back four locks, and in two rounds at most
     1 polls 4..62                    polls at places 4 to 61, each time in a pass of its own
     1 is pending, 1 is idle          finds no answer
     1 saw 7                          has seen 7 entries of the history
     1 hears 2                        hears session 2
     1 takes 0, 2                     takes a piece of two entries from place 0 on
     1 asks held 2 1: 6 X             asks what session 2 holds on resource 1, behind six calls
     1 asks passes: 6 made 3, served 5, starved 0     asks what the passes have served
     1 retires, 1 leaves              retires; is used no more

   A line with # is a remark. After a line `when ..` all lines up to the next one are performed only then: `when starved`, if a pass
   was starved so far; `when not starved`; `when starved since`, if one was since the last `when`; `when all served`, if the pass that
   `serves some` wasn't starved; `when not all served`; `when served 2`, if it was starved and served two calls. Each of these has to
   come true in some round in which memory was refused, and in that pass, if it is about that pass; but not one with `ever`, as `when
   ever served 2`. The last line may say how the office ends: `end: missing 1`, if it isn't closed with the one session that is left;
   `end: book 2, 0, 2`, if its book has served two calls and keeps two from place 0 on. In every piece of the history and in the book of
   the closed office each call that a session got an answer to has to be at the place that it was told, with its reply. */
#include "names.h"
#include "open.h"
#include "program_calls.h"
#include "refuse_one.h"
#include <ctype.h>
#include <string.h>

enum { MOST = 8, ROOM = 64, PLACES = 256, LONGEST = 256, LINES = 80, HANDLES = 1 << 16 };

typedef pelgaisti_session session;

/* The office of a case. A session's number is its index and one. Each office has handles of its own, since some stay open. */
static session handles[HANDLES], *sessions = handles;
static int has_left[MOST];
static unsigned count;

/* What each session asked last, a call or a program, and the calls of which the replies are known, by their places; session 0 for none. */
static pelgaisti_program asked[MOST];
static pelgaisti_entry noted[PLACES];

/* How many passes were starved so far and up to the last `when`, how the pass of `serves some` ended, and how often memory was refused
   in it. */
static unsigned starved, starved_then;
static pelgaisti_pass some;
static long refused_in_some;

/* A file that can't be read is no failed case. */
static void stop(const char *why, const char *text) {
    printf("%s: %s\n", why, text);
    exit(2);
}

/* Ends the text in front of the first separator, and returns what is behind it: nothing if there is no separator. */
static char *cut(char *text, const char *separator) {
    char *at = strstr(text, separator);
    if (!at) return text + strlen(text);
    *at = 0;
    return at + strlen(separator);
}

static uint64_t number_of(const char *word) {
    char *end;
    uint64_t number = strtoull(word, &end, 10);
    if (!isdigit((unsigned char)*word) || *end) stop("not a number", word);
    return number;
}

static uint32_t find(const name *list, size_t length, const char *word, const char *what) {
    const name *found = named(list, length, word);
    if (!found) stop(what, word);
    return found->number;
}

static uint32_t mode_of(const char *word) { return find(modes, COUNT(modes), word, "not a mode"); }

static pelgaisti_resource resource_of(char *path) {
    pelgaisti_resource resource = {0, {0}};
    for (char *rest; *path; path = rest) {
        rest = cut(path, "/");
        if (resource.level == PELGAISTI_LEVELS) stop("too deep", path);
        resource.numbers[resource.level++] = (uint32_t)number_of(path);
    }
    return resource;
}

static int same_resource(const pelgaisti_resource *one, const pelgaisti_resource *other) {
    return one->level == other->level && !memcmp(one->numbers, other->numbers, one->level * sizeof(uint32_t));
}

static pelgaisti_call call_of(char *text) {
    pelgaisti_call call = {0, 0, {0, {0}}};
    char *resource = cut(text, " "), *mode = cut(resource, " ");
    call.op = find(ops, COUNT(ops), text, "not a call");
    if (*resource) call.resource = resource_of(resource);
    if (*mode) call.mode = mode_of(mode);
    return call;
}

/* A program, as `commits-begins lock 7/2/5 X level 1 above IX`. */
static pelgaisti_program program_of(char *text) {
    static const name starts[] = {{"begins", PELGAISTI_BEGINS}, {"commits", PELGAISTI_COMMITS}, {"aborts", PELGAISTI_ABORTS},
                                  {"restarts", PELGAISTI_RESTARTS}, {"commits-begins", PELGAISTI_COMMITS_AND_BEGINS},
                                  {"aborts-begins", PELGAISTI_ABORTS_AND_BEGINS}};
    pelgaisti_program program = {PELGAISTI_NOTHING, 0, 0, {0, 0, {0, {0}}}};
    char *above = cut(text, " above "), *level = cut(text, " level "), *last = text;
    const name *start;
    char word[LONGEST];
    strcpy(word, text);
    last += strlen(text) - strlen(cut(word, " "));
    start = named(starts, COUNT(starts), word);
    if (start) program.start = start->number;
    else last = text;
    if (!*last) return program;
    program.last = call_of(last);
    program.level = program.last.op == PELGAISTI_LOCK || program.last.op == PELGAISTI_TRY ? 0 : program.last.resource.level - 1;
    if (*level) program.level = (uint32_t)number_of(level);
    program.above = *above ? mode_of(above) : pelgaisti_parent_mode(program.last.mode);
    return program;
}

static pelgaisti_reply reply_of(char *text) {
    pelgaisti_reply reply = {0, 0};
    char *value = cut(text, " ");
    reply.kind = find(kinds, COUNT(kinds), text, "not a reply");
    if (reply.kind == PELGAISTI_GRANTED)
        reply.value = mode_of(value);
    else if (reply.kind == PELGAISTI_REFUSED)
        reply.value = find(reasons, COUNT(reasons), value, "not a refusal");
    else if (*value)
        reply.value = number_of(value);
    return reply;
}

static int same_reply(const pelgaisti_reply *one, const pelgaisti_reply *other) {
    return one->kind == other->kind && one->value == other->value;
}

/* The calls of what the session asked last. */
static size_t calls_asked(const session *own, pelgaisti_call calls[PELGAISTI_CALLS]) { return calls_of(&asked[own - sessions], calls); }

/* A call is a program of that call alone; one that ends or begins a transaction is a start. */
static void ask_call(const session *own, const pelgaisti_call *call) {
    static const uint32_t starts[][2] = {{PELGAISTI_BEGIN, PELGAISTI_BEGINS}, {PELGAISTI_COMMIT, PELGAISTI_COMMITS},
                                         {PELGAISTI_ABORT, PELGAISTI_ABORTS}, {PELGAISTI_RESTART, PELGAISTI_RESTARTS}};
    pelgaisti_program *program = &asked[own - sessions];
    memset(program, 0, sizeof *program);
    for (size_t k = 0; k < COUNT(starts); k++)
        if (call->op == starts[k][0]) program->start = starts[k][1];
    if (program->start == PELGAISTI_NOTHING) program->last = *call;
    program->level = program->last.resource.level - 1;
}

/* Notes the reply to a call of the session at this place, where no other may be noted. */
static int note(const session *own, const pelgaisti_call *call, uint64_t place, pelgaisti_reply reply) {
    if (place >= PLACES) stop("too many calls", "");
    if (noted[place].session) return 0;
    noted[place].session = (uint32_t)(own - sessions) + 1;
    noted[place].call = *call;
    noted[place].reply = reply;
    return 1;
}

/* Whether an entry is the one that is noted at this place, if one is. */
static int is_noted(const pelgaisti_entry *entry, uint64_t place) {
    const pelgaisti_entry *one = &noted[place];
    return place < PLACES && (!one->session || (entry->session == one->session && entry->call.op == one->call.op &&
                                                entry->call.mode == one->call.mode && same_reply(&entry->reply, &one->reply) &&
                                                same_resource(&entry->call.resource, &one->call.resource)));
}

/* Whether the answer to the session's call is that of the text, as `3 granted X`. */
static int is_answer(const session *own, pelgaisti_answer answer, char *text) {
    char *reply = cut(text, " ");
    pelgaisti_reply wanted = reply_of(reply);
    pelgaisti_call calls[PELGAISTI_CALLS];
    return answer.place == number_of(text) && same_reply(&answer.reply, &wanted) && calls_asked(own, calls) == 1 &&
           note(own, &calls[0], answer.place, answer.reply);
}

/* Whether the list has the numbers of the text, in its order or in any. */
static int is_list(const uint32_t *list, size_t length, char *text, int is_ordered) {
    size_t words = 0;
    for (char *rest; *text; text = rest, words++) {
        uint32_t number;
        size_t at = is_ordered ? words : 0;
        rest = cut(text, " ");
        number = (uint32_t)number_of(text);
        while (!is_ordered && at < length && list[at] != number) at++;
        if (at >= length || list[at] != number) return 0;
    }
    return words == length;
}

static int is_idle(session *own) {
    pelgaisti_answer answer;
    return pelgaisti_session_collect(own, &answer) == PELGAISTI_NOTHING_PENDING;
}

static int publish(session *own, char *text) {
    pelgaisti_call call = call_of(text);
    uint32_t posted = 0;
    ask_call(own, &call);
    return is_idle(own) && pelgaisti_session_publish(own, &call, &posted) == PELGAISTI_OK && posted == PELGAISTI_LISTED;
}

/* Makes a pass, and a second one if memory is refused for a call, which has to serve that call. Returns the number of served calls, or
   -1 if a pass can't be made or the second one is starved too. */
static long serve(session *own) {
    pelgaisti_pass first = {99, 99}, second = {99, 99};
    if (pelgaisti_session_serve(own, &first) != PELGAISTI_OK) return -1;
    if (!first.starved) return (long)first.served;
    starved++;
    if (pelgaisti_session_serve(own, &second) != PELGAISTI_OK || second.starved || second.served == 0) return -1;
    return (long)first.served + (long)second.served;
}

static int serve_some(session *own) {
    long before = refusals;
    pelgaisti_status status = pelgaisti_session_serve(own, &some);
    refused_in_some = refusals - before;
    return status == PELGAISTI_OK;
}

static int collect(session *own, char *text) {
    pelgaisti_answer answer;
    return pelgaisti_session_collect(own, &answer) == PELGAISTI_OK && is_answer(own, answer, text) && is_idle(own);
}

static int make(session *own, char *text) {
    char *answer = cut(text, ": ");
    return publish(own, text) && serve(own) == 1 && collect(own, answer);
}

static int poll(session *own, char *text) {
    char *end = cut(text, "..");
    for (uint64_t place = number_of(text); place < number_of(end); place++) {
        char line[LONGEST];
        sprintf(line, "poll: %lu clear", (unsigned long)place);
        if (!make(own, line)) return 0;
    }
    return 1;
}

/* The sessions for which the waker was called, since they were forgotten. */
static uint32_t woken[MOST];
static size_t woken_count;

static void note_woken(void *engine, uint32_t session) {
    (void)engine;
    if (woken_count < MOST) woken[woken_count] = session;
    woken_count++;
}

static const pelgaisti_waker waker = {note_woken, NULL};

/* How many published calls the office's passes have served. */
static uint64_t served_by_passes(session *own) {
    pelgaisti_pass_counts passes = {99, 99, 99};
    pelgaisti_book view = PELGAISTI_EMPTY;
    look(own, &view);
    if (pelgaisti_book_passes(&view, &passes) != PELGAISTI_OK) stop("no passes", "");
    end_look(own, &view);
    return passes.served;
}

/* Makes a call in one turn, whose pass serves so many published calls. If memory is refused to it, it is published, and the pass of another
   turn serves it, too. */
static int perform_serving(session *own, char *text, char *wanted, const char *serving) {
    pelgaisti_call call = call_of(text);
    const uint64_t before = served_by_passes(own);
    pelgaisti_answer answer;
    pelgaisti_status status;
    uint64_t others = number_of(serving);
    if (!is_idle(own)) return 0;
    ask_call(own, &call);
    woken_count = 0;
    status = pelgaisti_session_perform(own, &call, 1, &answer);
    if (status == PELGAISTI_NO_MEMORY) {
        others++;
        status = pelgaisti_session_perform(own, NULL, 1, &answer);
    }
    return status == PELGAISTI_OK && is_answer(own, answer, wanted) && served_by_passes(own) == before + others && is_idle(own);
}

static int perform(session *own, char *text) {
    char *wanted = cut(text, ": "), *serving = cut(wanted, ", serving ");
    return perform_serving(own, text, wanted, serving);
}

static int tell(session *own, char *text) {
    char *wanted = cut(text, ": "), *serving = cut(wanted, ", serving "), *telling = cut(serving, ", telling");
    return perform_serving(own, text, wanted, serving) && is_list(woken, woken_count, telling + (*telling == ' '), 0);
}

static int pass_telling(session *own, char *text) {
    char *telling = cut(text, "telling");
    pelgaisti_pass pass = {99, 1};
    woken_count = 0;
    for (int tries = 0; tries < 2 && pass.starved; tries++)
        if (pelgaisti_session_serve(own, &pass) != PELGAISTI_OK) return 0;
    return !pass.starved && is_list(woken, woken_count, telling + (*telling == ' '), 0);
}

/* Goes on with the published call for one turn; a second time if memory is refused for a call. */
static int resume(session *own, char *text) {
    pelgaisti_answer answer;
    pelgaisti_status status = pelgaisti_session_perform(own, NULL, 1, &answer);
    if (status == PELGAISTI_NO_MEMORY) status = pelgaisti_session_perform(own, NULL, 1, &answer);
    return status == PELGAISTI_OK && is_answer(own, answer, text) && is_idle(own);
}

static int call_whole(session *own, char *text) {
    char *wanted = cut(text, ": ");
    pelgaisti_call call = call_of(text);
    pelgaisti_answer answer;
    pelgaisti_status status;
    if (!is_idle(own)) return 0;
    ask_call(own, &call);
    status = pelgaisti_session_perform(own, &call, 1, &answer);
    if (status == PELGAISTI_NO_MEMORY) return resume(own, wanted);
    return status == PELGAISTI_OK && is_answer(own, answer, wanted) && is_idle(own);
}

/* The program of the calls behind so many of this one. */
static pelgaisti_program rest_of(pelgaisti_program program, uint32_t served) {
    uint32_t starts = program.start == PELGAISTI_NOTHING ? 0 : program.start >= PELGAISTI_COMMITS_AND_BEGINS && program.start != PELGAISTI_RESTARTS ? 2 : 1;
    if (served == 0) return program;
    program.start = served < starts ? PELGAISTI_BEGINS : PELGAISTI_NOTHING;
    if (served > starts) program.level += served - starts;
    return program;
}

/* Whether the session's program gets the replies of the text, as `6 committed 1, began 2`, the first at this place; whether it is pending,
   or is run in one turn. Where memory is refused to a call, the calls from there on are another program, which is run then. */
static int is_run(session *own, char *text, int is_pending) {
    char *reply = cut(text, " "), *rest;
    uint64_t place = number_of(text);
    pelgaisti_call calls[PELGAISTI_CALLS];
    pelgaisti_program program = asked[own - sessions];
    pelgaisti_program_answer answer;
    pelgaisti_reply wanted = {0, 0}, replies[PELGAISTI_CALLS];
    size_t done = 0, all = calls_asked(own, calls);
    do {
        pelgaisti_status status = pelgaisti_session_run(own, is_pending ? NULL : &program, 1, &answer);
        if (status == PELGAISTI_NO_MEMORY) status = pelgaisti_session_run(own, NULL, 1, &answer);
        if (status != PELGAISTI_OK || answer.place != place + done) return 0;
        if (pelgaisti_program_replies(&program, &answer, replies) != answer.served) return 0;
        for (size_t k = 0; k < answer.served; k++, done++, reply = rest) {
            if (!*reply) return 0;
            rest = cut(reply, ", ");
            wanted = reply_of(reply);
            if (done == all || !same_reply(&replies[k], &wanted) || !note(own, &calls[done], place + done, wanted)) return 0;
        }
        program = rest_of(program, answer.served);
        is_pending = 0;
    } while (answer.starved);
    return !*reply && answer.stop == (stops_at(wanted.kind) ? wanted.kind : 0) && (answer.stop || done == all) && is_idle(own);
}

static int run(session *own, char *text) {
    char *wanted = cut(text, ": ");
    asked[own - sessions] = program_of(text);
    return is_idle(own) && is_run(own, wanted, 0);
}

static int post(session *own, char *text) {
    pelgaisti_program_answer answer;
    asked[own - sessions] = program_of(text);
    return is_idle(own) && pelgaisti_session_run(own, &asked[own - sessions], 0, &answer) == PELGAISTI_NOT_SERVED;
}

static int bound(session *own, char *text) {
    char *locks = cut(text, " "), *rounds = cut(locks, " ");
    return pelgaisti_session_bound_passes(own, (uint32_t)number_of(text), (uint32_t)number_of(locks), (uint32_t)number_of(rounds)) == PELGAISTI_OK;
}

static uint64_t seen_by(session *own) {
    uint64_t seen = UINT64_MAX;
    return pelgaisti_session_seen(own, &seen) == PELGAISTI_OK ? seen : UINT64_MAX;
}

static int stay(session *own) {
    pelgaisti_call another = {PELGAISTI_POLL, 0, {0, {0}}};
    pelgaisti_answer answer;
    uint64_t seen = seen_by(own);
    return pelgaisti_session_perform(own, NULL, 0, &answer) == PELGAISTI_NOT_SERVED && seen_by(own) == seen &&
           pelgaisti_session_publish(own, &another, NULL) == PELGAISTI_PENDING;
}

static int finds_nothing(session *own, const char *state) {
    pelgaisti_answer answer;
    pelgaisti_status status = pelgaisti_session_collect(own, &answer);
    if (!strcmp(state, "idle")) return status == PELGAISTI_NOTHING_PENDING;
    if (!strcmp(state, "pending")) return status == PELGAISTI_NOT_SERVED;
    stop("not a state", state);
    return 0;
}

/* Retires an idle session, which publishes no call then. */
static int retire(session *own) {
    pelgaisti_call poll_call = {PELGAISTI_POLL, 0, {0, {0}}};
    return is_idle(own) && pelgaisti_session_retire(own) == PELGAISTI_OK &&
           pelgaisti_session_publish(own, &poll_call, NULL) == PELGAISTI_RETIRED;
}

static int take(session *own, char *text) {
    char *many = cut(text, ", ");
    pelgaisti_entry entries[ROOM];
    uint64_t first = UINT64_MAX;
    size_t length = 99;
    pelgaisti_status status = pelgaisti_session_take_history(own, &first, entries, ROOM, &length);
    if (status == PELGAISTI_NO_MEMORY) status = pelgaisti_session_take_history(own, &first, entries, ROOM, &length);
    if (status != PELGAISTI_OK || first != number_of(text) || length != number_of(many)) return 0;
    for (size_t k = 0; k < length; k++)
        if (!is_noted(&entries[k], first + k)) return 0;
    return 1;
}

/* Whether a lock or a fresh request is that of the text, as `held 1 1 X`: the kind, the session, the resource and the mode. The
   transaction has the session's number. */
static int is_claim(const pelgaisti_claim *claim, char *text) {
    static const name claims[] = {{"held", PELGAISTI_HELD}, {"fresh", PELGAISTI_FRESH}};
    char *whose = cut(text, " "), *resource = cut(whose, " "), *mode = cut(resource, " ");
    uint64_t number = number_of(whose);
    pelgaisti_resource wanted = resource_of(resource);
    return claim->kind == find(claims, COUNT(claims), text, "not a claim") && claim->session == number && claim->transaction == number &&
           claim->doomed == 0 && claim->mode == mode_of(mode) && same_resource(&claim->resource, &wanted);
}

static int ask_list(pelgaisti_book *view, const char *word, char *about, char *found) {
    pelgaisti_resource resource = {1, {0}};
    pelgaisti_holder holders[MOST];
    pelgaisti_claim claims[ROOM];
    uint32_t blockers[MOST];
    uint64_t place;
    size_t length = 99, at = 0, open = 0;
    pelgaisti_status status = PELGAISTI_NO_MEMORY;
    int is_of_holders = !strcmp(word, "holders"), is_of_blockers = !strcmp(word, "blockers");
    if (!is_of_holders && !is_of_blockers && strcmp(word, "locks")) stop("not a question", word);
    if (is_of_holders) resource = resource_of(about);
    for (int tries = 0; tries < 2 && status == PELGAISTI_NO_MEMORY; tries++) {
        if (is_of_holders)
            status = pelgaisti_book_holders(view, &resource, holders, MOST, &length);
        else if (is_of_blockers)
            status = pelgaisti_book_blockers(view, (uint32_t)number_of(about), blockers, MOST, &length);
        else
            status = pelgaisti_book_dump(view, claims, ROOM, &length, &place);
    }
    if (is_of_blockers && status == PELGAISTI_NO_SUCH_SESSION) return !strcmp(found, "no such session");
    if (status != PELGAISTI_OK) return 0;
    if (is_of_blockers) return is_list(blockers, length, found, 1);
    while (!is_of_holders && open < length && claims[open].kind == PELGAISTI_TRANSACTION_ROW) open++; /* they come before the claims */
    for (char *rest; *found; found = rest, at++) {
        rest = cut(found, ", ");
        if (open + at >= length) return 0;
        if (is_of_holders) {
            char *mode = cut(found, " ");
            if (holders[at].session != number_of(found) || holders[at].mode != mode_of(mode)) return 0;
        } else if (!is_claim(&claims[open + at], found)) {
            return 0;
        }
    }
    return open + at == length;
}

/* Whether the session waits directly for the other one: 1 or 0. */
static pelgaisti_status ask_edge(pelgaisti_book *view, uint32_t whose, uint32_t other, uint32_t *edge) {
    uint32_t blockers[MOST];
    size_t length = 0;
    pelgaisti_status status = pelgaisti_book_blockers(view, whose, blockers, MOST, &length);
    if (other < 1 || other > count) status = PELGAISTI_NO_SUCH_SESSION;
    if (status != PELGAISTI_OK) return status;
    *edge = 0;
    for (size_t k = 0; k < length; k++) *edge |= blockers[k] == other;
    return status;
}

/* Asks a question of a view, as `held 2 1`, and wants this behind so many calls, as `6 X`. Of a session that the office doesn't have it wants
   `no such session`. */
static int ask_view(pelgaisti_book *view, char *text) {
    char *wanted = cut(text, ": "), *about = cut(text, " "), *found = wanted;
    uint64_t first, seen = UINT64_MAX;
    pelgaisti_status status = PELGAISTI_OK;
    int is_so, is_off = !strcmp(wanted, "no such session");
    if (!is_off) found = cut(wanted, " ");
    if (pelgaisti_book_length(view, &first, &seen) != PELGAISTI_OK) return 0;
    if (!strcmp(text, "held")) {
        char *at = cut(about, " ");
        pelgaisti_resource resource = resource_of(at);
        uint32_t mode = 99;
        status = pelgaisti_book_held(view, (uint32_t)number_of(about), &resource, &mode);
        is_so = mode == (!strcmp(found, "nothing") ? (uint32_t)PELGAISTI_NL : is_off ? 99 : mode_of(found));
    } else if (!strcmp(text, "waits")) {
        char *other = cut(about, " ");
        uint32_t edge = 99;
        status = ask_edge(view, (uint32_t)number_of(about), (uint32_t)number_of(other), &edge);
        is_so = edge == (!strcmp(found, "true") ? 1u : is_off ? 99u : 0u);
    } else if (!strcmp(text, "transaction")) {
        pelgaisti_transaction open = {99, 99};
        status = pelgaisti_book_transaction(view, (uint32_t)number_of(about), &open);
        is_so = is_off || (open.number == (!strcmp(found, "nothing") ? 0 : number_of(found)) && open.doomed == 0);
    } else if (!strcmp(text, "request")) {
        pelgaisti_claim claim;
        memset(&claim, 0x55, sizeof claim);
        status = pelgaisti_book_request(view, (uint32_t)number_of(about), &claim);
        is_so = is_off || (!strcmp(found, "nothing") ? claim.kind == 0 : is_claim(&claim, found));
    } else if (!strcmp(text, "passes")) {
        pelgaisti_pass_counts passes = {99, 99, 99};
        char line[LONGEST];
        status = pelgaisti_book_passes(view, &passes);
        sprintf(line, "made %lu, served %lu, starved %lu", (unsigned long)passes.made, (unsigned long)passes.served, (unsigned long)passes.starved);
        is_so = !strcmp(line, found);
    } else {
        is_so = ask_list(view, text, about, found);
        if (is_off) return is_so;
    }
    return is_so && (is_off ? status == PELGAISTI_NO_SUCH_SESSION : status == PELGAISTI_OK && seen == number_of(wanted));
}

static int ask(session *own, char *text) {
    pelgaisti_book view = PELGAISTI_EMPTY;
    look(own, &view);
    const int is_so = ask_view(&view, text);
    end_look(own, &view);
    return is_so;
}

static int hear(session *own, const char *text) {
    uint64_t other = number_of(text);
    if (other < 1 || other > count) stop("not a session", text);
    return pelgaisti_session_hear(own, &sessions[other - 1]) == PELGAISTI_OK;
}

/* Performs a line, and returns whether all went as it says. */
static int perform_line(const char *text) {
    char line[LONGEST], *step, *rest;
    session *own;
    uint64_t number;
    strcpy(line, text);
    step = cut(line, " ");
    rest = cut(step, " ");
    number = number_of(line);
    if (number < 1 || number > count || has_left[number - 1]) stop("not a session", text);
    own = &sessions[number - 1];
    if (!strcmp(step, "publishes")) return publish(own, rest);
    if (!strcmp(step, "serves") && !strcmp(rest, "some")) return serve_some(own);
    if (!strcmp(step, "serves")) return serve(own) == (long)number_of(rest);
    if (!strcmp(step, "collects")) return collect(own, rest);
    if (!strcmp(step, "makes")) return make(own, rest);
    if (!strcmp(step, "performs")) return perform(own, rest);
    if (!strcmp(step, "tells")) return tell(own, rest);
    if (!strcmp(step, "passes")) return pass_telling(own, rest);
    if (!strcmp(step, "calls")) return call_whole(own, rest);
    if (!strcmp(step, "resumes")) return resume(own, rest);
    if (!strcmp(step, "stays")) return stay(own);
    if (!strcmp(step, "runs")) return run(own, rest);
    if (!strcmp(step, "posts")) return post(own, rest);
    if (!strcmp(step, "finishes")) return is_run(own, rest, 1);
    if (!strcmp(step, "bounds")) return bound(own, rest);
    if (!strcmp(step, "polls")) return poll(own, rest);
    if (!strcmp(step, "is")) return finds_nothing(own, rest);
    if (!strcmp(step, "saw")) return seen_by(own) == number_of(rest);
    if (!strcmp(step, "hears")) return hear(own, rest);
    if (!strcmp(step, "takes")) return take(own, rest);
    if (!strcmp(step, "asks")) return ask(own, rest);
    if (!strcmp(step, "retires")) return retire(own);
    if (!strcmp(step, "leaves")) return has_left[number - 1] = 1;
    stop("not a step", text);
    return 0;
}

/* A case: its lines without remarks, and of each `when` whether it came true as memory was refused. */
typedef struct text {
    char line[LINES][LONGEST];
    unsigned lines, sessions;
    uint64_t bound;
    int is_ample;
    char name[LONGEST], end[LONGEST];
    int is_reached[LINES];
} text;

static text one;

/* Whether the lines behind this one are performed. */
static int is_when(const char *line) {
    const char *what = line + strlen("when ");
    if (!strncmp(what, "ever ", 5)) what += 5;
    if (!strcmp(what, "starved")) return starved > 0;
    if (!strcmp(what, "starved since")) return starved > starved_then;
    if (!strcmp(what, "not starved")) return starved == 0;
    if (!strcmp(what, "all served")) return !some.starved;
    if (!strcmp(what, "not all served")) return some.starved;
    if (!strncmp(what, "served ", 7)) return some.starved && some.served == number_of(what + 7);
    stop("not a condition", line);
    return 0;
}

/* Performs the lines. Returns the one that went otherwise, or NULL. */
static const char *perform_lines(void) {
    int is_on = 1;
    for (unsigned k = 0; k < one.lines; k++) {
        if (!strncmp(one.line[k], "when ", 5)) {
            is_on = is_when(one.line[k]);
            starved_then = starved;
            one.is_reached[k] |= is_on && (strstr(one.line[k], "served") ? refused_in_some > 0 : refusals > 0);
        } else if (is_on && !perform_line(one.line[k])) {
            return one.line[k];
        }
    }
    return NULL;
}

/* Hands all sessions that haven't left in to one of them, which it returns; NULL if one can't be handed in. */
static session *hand_in(unsigned *present) {
    session *last = NULL;
    *present = 0;
    for (unsigned k = 0; k < count; k++) {
        if (has_left[k]) continue;
        *present += 1;
        if (last) {
            pelgaisti_status status = pelgaisti_session_hand_in(last, &sessions[k]);
            if (status == PELGAISTI_NO_MEMORY) status = pelgaisti_session_hand_in(last, &sessions[k]);
            if (status != PELGAISTI_OK) return NULL;
        }
        last = &sessions[k];
    }
    return last;
}

static pelgaisti_status close_office(session *own, pelgaisti_book *book) {
    pelgaisti_status status = pelgaisti_office_close(own, book);
    return status == PELGAISTI_NO_MEMORY ? pelgaisti_office_close(own, book) : status;
}

/* Whether each entry that the book keeps is the one that is noted at its place, if one is. */
static int is_history(pelgaisti_book *book) {
    static pelgaisti_entry entries[PLACES];
    uint64_t first = 0, served;
    size_t length = PLACES;
    if (pelgaisti_book_length(book, &first, &served) != PELGAISTI_OK) return 0;
    if (pelgaisti_book_history(book, first, entries, PLACES, &length) != PELGAISTI_OK) return 0;
    for (size_t k = 0; k < length; k++)
        if (!is_noted(&entries[k], first + k)) return 0;
    return 1;
}

/* Whether a book has served so many calls, keeps those from this place on, and has so many entries, as `2, 0, 2`. */
static int is_book(pelgaisti_book *book, char *wanted) {
    char *first = cut(wanted, ", "), *many = cut(first, ", ");
    pelgaisti_entry entries[ROOM];
    uint64_t served = 99, kept = 99;
    size_t length = 99;
    return pelgaisti_book_length(book, &kept, &served) == PELGAISTI_OK && served == number_of(wanted) && kept == number_of(first) &&
           pelgaisti_book_history(book, kept, entries, ROOM, &length) == PELGAISTI_OK && length == number_of(many);
}

/* Ends a case as it says. One that says nothing closes its office if that can be closed. */
static int end_case(void) {
    pelgaisti_book book = PELGAISTI_EMPTY;
    char end[LONGEST], *rest;
    unsigned present;
    session *last = hand_in(&present);
    int is_so;
    strcpy(end, one.end);
    rest = cut(end, " ");
    if (!last) return !*end;
    if (!strcmp(end, "missing")) {
        return present == number_of(rest) && close_office(last, &book) == PELGAISTI_MISSING &&
               close_office(last, &book) == PELGAISTI_MISSING;
    }
    if (close_office(last, &book) != PELGAISTI_OK) return !*end;
    is_so = strcmp(end, "book") ? !*end : is_book(&book, rest);
    return is_so && is_history(&book) && pelgaisti_book_close(&book) == PELGAISTI_OK;
}

/* Performs the case once. Returns the line that went otherwise, or NULL. */
static const char *perform_case(void) {
    const char *wrong;
    pelgaisti_status status;
    sessions += count;
    if (sessions + MOST > handles + HANDLES) stop("too many rounds", one.name);
    memset(has_left, 0, sizeof has_left);
    memset(noted, 0, sizeof noted);
    count = one.sessions;
    starved = starved_then = 0;
    refused_in_some = 0;
    status = open_office_with(sessions, count, one.bound, &waker, 0);
    if (status == PELGAISTI_NO_MEMORY) status = open_office_with(sessions, count, one.bound, &waker, 0);
    if (status != PELGAISTI_OK) return "the office was not opened";
    wrong = perform_lines();
    if (wrong) return wrong;
    return end_case() ? NULL : *one.end ? one.end : "the office was not closed";
}

static unsigned passed, failed;

/* Performs the case with ample memory, and then again and again until no allocation is refused any more. */
static void try_case(const char *file, int wants_wrong) {
    const char *wrong;
    long round = 0;
    left = -1;
    refusals = 0;
    wrong = perform_case();
    passed += !wrong;
    while (!wrong && !one.is_ample && !wants_wrong) {
        left = round++;
        refusals = 0;
        wrong = perform_case();
        left = -1;
        if (!refusals) break;
        passed += !wrong;
        if (wrong) printf("allocation %ld: ", round);
    }
    for (unsigned k = 0; k < one.lines && !wrong && !one.is_ample && !wants_wrong; k++)
        if (!strncmp(one.line[k], "when ", 5) && strncmp(one.line[k], "when ever ", 10) && !one.is_reached[k]) wrong = one.line[k];
    if (wants_wrong) {
        failed += !wrong;
        if (!wrong) printf("%s: %s: went as it says\n", file, one.name);
        passed += wrong != NULL;
    } else if (wrong) {
        failed++;
        printf("%s: %s: %s\n", file, one.name, wrong);
    }
}

/* Reads the first line of a case. */
static void read_head(char *line) {
    char *name = cut(line, ": "), *rest = cut(line, " ");
    memset(&one, 0, sizeof one);
    one.sessions = (unsigned)number_of(line);
    one.bound = UINT64_MAX;
    if (one.sessions > MOST) stop("too many sessions", name);
    if (!strncmp(rest, "keeping ", 8)) {
        char *bound = rest + 8;
        rest = cut(bound, " ");
        one.bound = number_of(bound);
    }
    one.is_ample = !strcmp(rest, "ample");
    if ((*rest && !one.is_ample) || !*name) stop("not a first line", line);
    strcpy(one.name, name);
}

static void try_file(const char *name, int wants_wrong) {
    char line[LONGEST];
    int is_in = 0, is_more = 1;
    unsigned cases = 0;
    FILE *file = fopen(name, "r");
    if (!file) stop("can't be read", name);
    while (is_more) {
        is_more = fgets(line, sizeof line, file) != NULL;
        if (is_more) line[strcspn(line, "\n")] = 0;
        if (!is_more || !*line) {
            if (is_in) try_case(name, wants_wrong);
            cases += (unsigned)is_in;
            is_in = 0;
        } else if (*line == '#') {
            continue;
        } else if (!is_in) {
            read_head(line);
            is_in = 1;
        } else if (!strncmp(line, "end: ", 5)) {
            strcpy(one.end, line + 5);
        } else if (*one.end || one.lines == LINES) {
            stop("too many lines", line);
        } else {
            strcpy(one.line[one.lines++], line);
        }
    }
    fclose(file);
    if (!cases) stop("no cases", name);
}

int main(int argc, char **argv) {
    int wants_wrong = argc > 1 && !strcmp(argv[1], "--wrong");
    for (int k = 1 + wants_wrong; k < argc; k++) try_file(argv[k], wants_wrong);
    printf("%u passed, %u failed\n", passed, failed);
    return failed > 0 || passed == 0;
}
