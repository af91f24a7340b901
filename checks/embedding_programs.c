/* Programs of the sessions of an office: each status of pelgaisti_session_run; programs that are published and served by others; ones
   that stop at a wait, a victim's reply or a refusal; and random programs of 64 threads, whose history is replayed on a book. Valid C99.
   Prints the line of each check that fails, and last 'N passed, M failed'. */
#define _XOPEN_SOURCE 600
#include "open.h"
#include "program_calls.h"
#include <pthread.h>
#include <semaphore.h>
#include <string.h>

static int passed, failed;
#define CHECK(condition) \
    do { \
        if (condition) { \
            passed++; \
        } else { \
            failed++; \
            printf("%s:%d: %s\n", __FILE__, __LINE__, #condition); \
        } \
    } while (0)
#define COUNT(list) (sizeof(list) / sizeof((list)[0]))

static const pelgaisti_call begin = {PELGAISTI_BEGIN, 0, {0, {0}}}, poll = {PELGAISTI_POLL, 0, {0, {0}}};

static pelgaisti_call call_of(uint32_t op, uint32_t mode, uint32_t level, uint32_t first, uint32_t second) {
    pelgaisti_call call = {0, 0, {0, {0}}};
    call.op = op;
    call.mode = mode;
    call.resource.level = level;
    call.resource.numbers[0] = first;
    call.resource.numbers[1] = second;
    return call;
}

/* A program that locks no ancestor. */
static pelgaisti_program program_of(uint32_t start, pelgaisti_call last) {
    pelgaisti_program program;
    program.start = start;
    program.level = last.resource.level - 1;
    program.above = PELGAISTI_NL;
    program.last = last;
    return program;
}

/* What `start` says, and no other call; and a path from the database on. */
static pelgaisti_program start_of(uint32_t start) { return program_of(start, call_of(0, 0, 0, 0, 0)); }

static pelgaisti_program path_of(uint32_t start, pelgaisti_call last) {
    pelgaisti_program program = program_of(start, last);
    program.level = 0;
    program.above = pelgaisti_parent_mode(last.mode);
    return program;
}

static uint64_t seen_by(pelgaisti_session *session) {
    uint64_t seen = UINT64_MAX;
    CHECK(pelgaisti_session_seen(session, &seen) == PELGAISTI_OK);
    return seen;
}

/* The replies that an answer to the program tells, one by one; behind them 0. */
static pelgaisti_reply replies[PELGAISTI_CALLS];

/* Reads them. Whether the answer has their values, and says so where it stopped. */
static int is_told(const pelgaisti_program *program, const pelgaisti_program_answer *answer) {
    uint32_t count, stop = 0;
    memset(replies, 0, sizeof replies);
    count = pelgaisti_program_replies(program, answer, replies);
    if (count != answer->served || count > PELGAISTI_CALLS) return 0;
    for (uint32_t k = 0; k < PELGAISTI_CALLS; k++) {
        const pelgaisti_reply *it = &replies[k];
        if (stops_at(it->kind)) stop = it->kind;
        if (answer->values[k] != it->value || (k >= count && (it->kind || it->value))) return 0;
    }
    return answer->stop == stop;
}

/* Runs a program with so many replies, of which the last has this kind: then the answer says so, and the session knows the history up to
   there. */
static pelgaisti_program_answer run(pelgaisti_session *session, pelgaisti_program program, uint32_t served, uint32_t kind) {
    pelgaisti_program_answer answer;
    memset(&answer, 0x55, sizeof answer);
    CHECK(pelgaisti_session_run(session, &program, UINT64_MAX, &answer) == PELGAISTI_OK && is_told(&program, &answer));
    CHECK(answer.served == served && answer.starved == 0 && replies[served - 1].kind == kind);
    CHECK(answer.stop == (stops_at(kind) ? kind : 0) && seen_by(session) >= answer.place + served);
    return answer;
}

static void close_all(pelgaisti_session *sessions, size_t count, pelgaisti_book *book) {
    for (size_t k = 1; k < count; k++) CHECK(pelgaisti_session_hand_in(&sessions[k], &sessions[0]) == PELGAISTI_OK);
    CHECK(pelgaisti_office_close(&sessions[0], book) == PELGAISTI_OK);
}

/* Whether the program, or what is pending, gets this status, and then nothing was written. */
static int is_unrun(pelgaisti_session *session, const pelgaisti_program *program, uint64_t turns, pelgaisti_status status) {
    pelgaisti_program_answer answer;
    unsigned char before[sizeof answer];
    memset(&answer, 0x55, sizeof answer);
    memcpy(before, &answer, sizeof answer);
    return pelgaisti_session_run(session, program, turns, &answer) == status && !memcmp(before, &answer, sizeof answer);
}

/* Each bad number of a program gives its status, the first of them in the order of the header's comment, whatever the session has. */
static void bad_programs(pelgaisti_session *session) {
    static const uint32_t off_starts[] = {7, 8, 255, 256, UINT32_MAX}, off_ops[] = {11, 256, UINT32_MAX};
    static const uint32_t ends[] = {PELGAISTI_BEGIN, PELGAISTI_COMMIT, PELGAISTI_ABORT, PELGAISTI_RESTART}, off_levels[] = {0, 6, 256, UINT32_MAX};
    static const uint32_t on_resources[] = {PELGAISTI_LOCK, PELGAISTI_CONVERT, PELGAISTI_TRY, PELGAISTI_RELEASE};
    static const uint32_t off_path[] = {2, 3, 5, 256, UINT32_MAX}, off_modes[] = {2, 4, 8, 16, UINT32_MAX};
    pelgaisti_program program = program_of(PELGAISTI_BEGINS, call_of(11, 2, 6, 1, 2)), none = start_of(PELGAISTI_NOTHING);
    for (size_t k = 0; k < COUNT(off_starts); k++) {
        program.start = off_starts[k];
        CHECK(is_unrun(session, &program, 9, PELGAISTI_NO_SUCH_START));
    }
    for (program.start = 0; program.start < 7; program.start++) {
        for (size_t k = 0; k < COUNT(off_ops); k++) {
            program.last.op = off_ops[k];
            CHECK(is_unrun(session, &program, 9, PELGAISTI_NO_SUCH_OP));
        }
        for (size_t k = 0; k < COUNT(ends); k++) {
            program.last.op = ends[k];
            CHECK(is_unrun(session, &program, 9, PELGAISTI_NO_SUCH_OP));
        }
    }
    /* a program of no calls */
    for (uint64_t turns = 0; turns <= 40; turns += 20) CHECK(is_unrun(session, &none, turns, PELGAISTI_NO_SUCH_OP));
    for (size_t n = 0; n < COUNT(on_resources); n++) {
        for (size_t k = 0; k < COUNT(off_levels); k++) {
            program = program_of(PELGAISTI_BEGINS, call_of(on_resources[n], 2, off_levels[k], 1, 2));
            CHECK(is_unrun(session, &program, 9, PELGAISTI_NO_SUCH_LEVEL));
        }
        for (size_t k = 0; n < 3 && k < COUNT(off_modes); k++) {
            program = program_of(PELGAISTI_BEGINS, call_of(on_resources[n], off_modes[k], 2, 1, 2));
            program.level = 2;
            CHECK(is_unrun(session, &program, 9, PELGAISTI_NO_SUCH_MODE));
        }
        program = program_of(PELGAISTI_BEGINS, call_of(on_resources[n], PELGAISTI_X, 2, 1, 2));
        program.above = 2;
        for (size_t k = 0; k < COUNT(off_path); k++) {
            program.level = off_path[k];
            CHECK(is_unrun(session, &program, 9, PELGAISTI_NOT_ON_PATH));
        }
        for (program.level = 0; program.level < 2; program.level++)
            for (size_t k = 0; k < COUNT(off_modes); k++) {
                program.above = off_modes[k];
                CHECK(is_unrun(session, &program, 9, PELGAISTI_NO_SUCH_ABOVE));
            }
    }
}

/* Every call but a program's refuses while a program of several calls is pending, as does another program. Whether it is served already
   makes no difference. */
static void want_pending(pelgaisti_session *session, pelgaisti_session *other) {
    pelgaisti_program next = start_of(PELGAISTI_COMMITS);
    pelgaisti_resource path = {2, {3, 4}};
    pelgaisti_book book = PELGAISTI_EMPTY;
    pelgaisti_answer answer = {99, {77, 88}};
    pelgaisti_lock_answer locked;
    uint64_t before = seen_by(session);
    bad_programs(session);
    for (uint64_t turns = 0; turns <= 40; turns += 20) {
        CHECK(is_unrun(session, &next, turns, PELGAISTI_PENDING));
        CHECK(pelgaisti_session_perform(session, &poll, turns, &answer) == PELGAISTI_PENDING);
        CHECK(pelgaisti_session_perform(session, NULL, turns, &answer) == PELGAISTI_PENDING);
        CHECK(pelgaisti_session_lock(session, &path, PELGAISTI_X, turns, &locked) == PELGAISTI_PENDING);
    }
    CHECK(pelgaisti_session_collect(session, &answer) == PELGAISTI_PENDING);
    CHECK(pelgaisti_session_publish(session, &poll, NULL) == PELGAISTI_PENDING);
    CHECK(pelgaisti_session_retire(session) == PELGAISTI_PENDING);
    CHECK(pelgaisti_session_hand_in(session, other) == PELGAISTI_PENDING);
    CHECK(pelgaisti_office_close(session, &book) == PELGAISTI_MISSING);
    CHECK(is_unrun(session, NULL, 0, PELGAISTI_NOT_SERVED));
    CHECK(answer.place == 99 && answer.reply.kind == 77 && seen_by(session) == before);
}

static void programs_refuse(void) {
    pelgaisti_session three[3] = {PELGAISTI_EMPTY, PELGAISTI_EMPTY, PELGAISTI_EMPTY};
    pelgaisti_program program = path_of(PELGAISTI_BEGINS, call_of(PELGAISTI_LOCK, PELGAISTI_X, 2, 7, 1));
    pelgaisti_program_answer answer;
    pelgaisti_book book = PELGAISTI_EMPTY;
    CHECK(is_unrun(&three[0], &program, 9, PELGAISTI_CLOSED) && is_unrun(&three[0], NULL, 9, PELGAISTI_CLOSED));
    CHECK(open_sessions(three, 3) == PELGAISTI_OK);
    CHECK(pelgaisti_session_run(NULL, &program, 9, &answer) == PELGAISTI_NULL && pelgaisti_session_run(NULL, NULL, 9, &answer) == PELGAISTI_NULL);
    CHECK(pelgaisti_session_run(&three[0], &program, 9, NULL) == PELGAISTI_NULL && pelgaisti_session_run(&three[0], NULL, 9, NULL) == PELGAISTI_NULL);
    bad_programs(&three[0]);
    for (uint64_t turns = 0; turns <= 40; turns += 20) CHECK(is_unrun(&three[0], NULL, turns, PELGAISTI_NOTHING_PENDING));
    CHECK(is_unrun(&three[0], &program, 0, PELGAISTI_NOT_SERVED));
    want_pending(&three[0], &three[1]);
    CHECK(pelgaisti_session_serve(&three[1], NULL) == PELGAISTI_OK);
    want_pending(&three[0], &three[1]);
    CHECK(pelgaisti_session_run(&three[0], NULL, 1, &answer) == PELGAISTI_OK && answer.place == 0 && answer.served == 3);
    CHECK(is_unrun(&three[0], NULL, 9, PELGAISTI_NOTHING_PENDING));
    CHECK(pelgaisti_session_retire(&three[2]) == PELGAISTI_OK);
    bad_programs(&three[2]);
    for (uint64_t turns = 0; turns <= 40; turns += 20) CHECK(is_unrun(&three[2], &program, turns, PELGAISTI_RETIRED));
    CHECK(is_unrun(&three[2], NULL, 9, PELGAISTI_NOTHING_PENDING));
    close_all(three, 3, &book);
    CHECK(pelgaisti_book_close(&book) == PELGAISTI_OK);
}

/* A pending call and a pending program of one call are finished by the functions for calls and for programs alike. */
static void one_call_is_finished_by_any(void) {
    pelgaisti_session two[2] = {PELGAISTI_EMPTY, PELGAISTI_EMPTY}, *s = &two[0];
    pelgaisti_program begins = start_of(PELGAISTI_BEGINS), commits = start_of(PELGAISTI_COMMITS), polls = program_of(PELGAISTI_NOTHING, poll);
    pelgaisti_program_answer made;
    pelgaisti_book book = PELGAISTI_EMPTY;
    pelgaisti_answer answer;
    CHECK(open_sessions(two, 2) == PELGAISTI_OK);
    CHECK(pelgaisti_session_publish(s, &begin, NULL) == PELGAISTI_OK && is_unrun(s, &commits, 9, PELGAISTI_PENDING));
    CHECK(pelgaisti_session_run(s, NULL, 9, &made) == PELGAISTI_OK && made.place == 0 && made.served == 1 && made.stop == 0);
    CHECK(is_told(&begins, &made) && replies[0].kind == PELGAISTI_BEGAN && replies[0].value == 1 && replies[1].kind == 0);
    CHECK(is_unrun(s, &commits, 0, PELGAISTI_NOT_SERVED));
    CHECK(pelgaisti_session_perform(s, NULL, 9, &answer) == PELGAISTI_OK && answer.place == 1 && answer.reply.kind == PELGAISTI_COMMITTED);
    CHECK(is_unrun(s, &begins, 0, PELGAISTI_NOT_SERVED) && pelgaisti_session_collect(s, &answer) == PELGAISTI_NOT_SERVED);
    CHECK(pelgaisti_session_serve(&two[1], NULL) == PELGAISTI_OK);
    CHECK(pelgaisti_session_collect(s, &answer) == PELGAISTI_OK && answer.place == 2 && answer.reply.kind == PELGAISTI_BEGAN);
    CHECK(pelgaisti_session_perform(s, &poll, 0, &answer) == PELGAISTI_NOT_SERVED);
    CHECK(pelgaisti_session_run(s, NULL, 9, &made) == PELGAISTI_OK && made.place == 3 && is_told(&polls, &made) && replies[0].kind == PELGAISTI_CLEAR);
    close_all(two, 2, &book);
    CHECK(pelgaisti_book_close(&book) == PELGAISTI_OK);
}

/* A published program is served by another session's pass, as one, and so are several; behind them is the history. */
static void others_serve_programs(void) {
    pelgaisti_session three[3] = {PELGAISTI_EMPTY, PELGAISTI_EMPTY, PELGAISTI_EMPTY};
    pelgaisti_program first = path_of(PELGAISTI_BEGINS, call_of(PELGAISTI_LOCK, PELGAISTI_X, 5, 1, 2));
    pelgaisti_program second = path_of(PELGAISTI_BEGINS, call_of(PELGAISTI_LOCK, PELGAISTI_X, 5, 8, 9));
    pelgaisti_program_answer made;
    pelgaisti_entry entries[16];
    pelgaisti_book book = PELGAISTI_EMPTY;
    pelgaisti_pass pass;
    size_t count = 0;
    CHECK(open_sessions(three, 3) == PELGAISTI_OK);
    CHECK(is_unrun(&three[0], &first, 0, PELGAISTI_NOT_SERVED) && is_unrun(&three[1], &second, 0, PELGAISTI_NOT_SERVED));
    CHECK(pelgaisti_session_serve(&three[2], &pass) == PELGAISTI_OK && pass.served == 2 && pass.starved == 0);
    CHECK(pelgaisti_session_run(&three[0], NULL, 1, &made) == PELGAISTI_OK && made.served == 6 && made.stop == 0);
    CHECK(made.place == 0 || made.place == 6);
    CHECK(pelgaisti_session_run(&three[1], NULL, 1, &made) == PELGAISTI_OK && is_told(&second, &made) && made.served == 6);
    CHECK(replies[5].kind == PELGAISTI_GRANTED && made.values[5] == PELGAISTI_X);
    /* the commit with the next begin and its path goes ahead of what is published */
    CHECK(is_unrun(&three[2], &first, 0, PELGAISTI_NOT_SERVED));
    made = run(&three[0], path_of(PELGAISTI_COMMITS_AND_BEGINS, call_of(PELGAISTI_LOCK, PELGAISTI_S, 2, 5, 6)), 4, PELGAISTI_GRANTED);
    CHECK(made.place == 12 && replies[0].value == 5 && replies[1].kind == PELGAISTI_BEGAN);
    CHECK(pelgaisti_session_run(&three[2], NULL, 1, &made) == PELGAISTI_OK && made.place == 16 && made.served == 6);
    run(&three[0], program_of(PELGAISTI_NOTHING, call_of(PELGAISTI_RELEASE, 0, 2, 5, 6)), 1, PELGAISTI_RELEASED);
    close_all(three, 3, &book);
    CHECK(pelgaisti_book_history(&book, 0, entries, 16, &count) == PELGAISTI_OK && count == 16);
    for (size_t k = 0; k < count; k++) CHECK(entries[k].session == entries[k < 12 ? k / 6 * 6 : 12].session);
    for (size_t k = 0; k < 12; k++) CHECK(k % 6 == 0 ? entries[k].call.op == PELGAISTI_BEGIN : entries[k].call.resource.level == k % 6);
    CHECK(pelgaisti_book_close(&book) == PELGAISTI_OK);
}

static uint32_t woken[4];
static void count_wake(void *engine, uint32_t session) { ((uint32_t *)engine)[session]++; }
static const pelgaisti_waker wakes = {count_wake, woken};

/* Programs that stop: at a wait, which the commit of another program ends, whose own further calls are made all the same; at a refusal;
   and at a reply to a deadlock's victim. In an office with a waker each is told of once. `is_published`: the programs are published, and
   session 3 serves them. */
static void programs_stop(int is_published) {
    pelgaisti_session three[3] = {PELGAISTI_EMPTY, PELGAISTI_EMPTY, PELGAISTI_EMPTY};
    pelgaisti_call write_1 = call_of(PELGAISTI_LOCK, PELGAISTI_X, 2, 7, 1), write_2 = call_of(PELGAISTI_LOCK, PELGAISTI_X, 2, 7, 2);
    pelgaisti_program program = path_of(PELGAISTI_BEGINS, write_1);
    pelgaisti_program deeper = path_of(PELGAISTI_BEGINS, call_of(PELGAISTI_LOCK, PELGAISTI_X, 3, 7, 1));
    pelgaisti_program_answer made;
    pelgaisti_book book = PELGAISTI_EMPTY;
    uint32_t mode = 99;
    memset(woken, 0, sizeof woken);
    CHECK(open_office_with(three, 3, UINT64_MAX, &wakes, 0) == PELGAISTI_OK);
    run(&three[0], program, 3, PELGAISTI_GRANTED);
    /* session 2 waits at its third call, and makes no fourth one */
    if (is_published) {
        CHECK(is_unrun(&three[1], &deeper, 0, PELGAISTI_NOT_SERVED));
        CHECK(pelgaisti_session_serve(&three[2], NULL) == PELGAISTI_OK);
        CHECK(pelgaisti_session_run(&three[1], NULL, 1, &made) == PELGAISTI_OK);
    } else {
        made = run(&three[1], deeper, 3, PELGAISTI_WAITING);
    }
    CHECK(made.place == 3 && made.served == 3 && made.stop == PELGAISTI_WAITING && woken[2] == 0);
    run(&three[1], program_of(PELGAISTI_NOTHING, poll), 1, PELGAISTI_WAITING);
    CHECK(run(&three[1], path_of(PELGAISTI_COMMITS, write_2), 1, PELGAISTI_REFUSED).values[0] == PELGAISTI_IS_WAITING);
    /* the commit of session 1 grants its request, and the calls behind it are made */
    program = path_of(PELGAISTI_COMMITS_AND_BEGINS, write_2);
    if (is_published) {
        CHECK(is_unrun(&three[0], &program, 0, PELGAISTI_NOT_SERVED) && woken[2] == 0);
        CHECK(pelgaisti_session_serve(&three[2], NULL) == PELGAISTI_OK && woken[2] == 1);
        CHECK(pelgaisti_session_run(&three[0], NULL, 1, &made) == PELGAISTI_OK);
    } else {
        made = run(&three[0], program, 4, PELGAISTI_GRANTED);
    }
    CHECK(is_told(&program, &made) && made.served == 4 && made.values[0] == 2 && replies[0].kind == PELGAISTI_COMMITTED && made.stop == 0);
    CHECK(woken[1] == 0 && woken[2] == 1 && woken[3] == 0);
    run(&three[1], program_of(PELGAISTI_NOTHING, poll), 1, PELGAISTI_CLEAR);
    /* a refusal behind calls that were granted */
    made = run(&three[1], program_of(PELGAISTI_BEGINS, poll), 1, PELGAISTI_REFUSED);
    CHECK(made.values[0] == PELGAISTI_ALREADY_OPEN);
    program = program_of(PELGAISTI_NOTHING, call_of(PELGAISTI_LOCK, PELGAISTI_X, 4, 7, 3));
    program.level = 2;
    program.above = PELGAISTI_IX;
    CHECK(run(&three[1], program, 1, PELGAISTI_REFUSED).values[0] == PELGAISTI_PARENT_NOT_HELD);
    /* sessions 1 and 2 wait crosswise: session 1 is the younger, and the victim */
    CHECK(run(&three[1], program_of(PELGAISTI_NOTHING, write_2), 1, PELGAISTI_WAITING).values[0] == 0);
    made = run(&three[0], path_of(PELGAISTI_NOTHING, write_1), 2, PELGAISTI_DEADLOCK);
    CHECK(woken[1] == 0 && woken[2] == 1);
    made = run(&three[0], path_of(PELGAISTI_ABORTS_AND_BEGINS, call_of(PELGAISTI_LOCK, PELGAISTI_IS, 1, 7, 0)), 3, PELGAISTI_GRANTED);
    CHECK(replies[0].kind == PELGAISTI_ABORTED && made.values[0] == 2 && woken[2] == 2);
    run(&three[1], program_of(PELGAISTI_NOTHING, poll), 1, PELGAISTI_CLEAR);
    close_all(three, 3, &book);
    CHECK(pelgaisti_book_held(&book, 2, &write_2.resource, &mode) == PELGAISTI_OK && mode == PELGAISTI_X);
    CHECK(pelgaisti_book_close(&book) == PELGAISTI_OK);
}

/* ---- Random programs of many threads. ---- */

enum { THREADS = 64, MOST_PROGRAMS = 400 };

/* A program that was run, and its answer. */
typedef struct made {
    pelgaisti_program program;
    pelgaisti_program_answer answer;
} made;

typedef struct clerk {
    pelgaisti_session *session;
    uint32_t number;
    uint64_t seed, bad, late;
    size_t count;
    made programs[MOST_PROGRAMS];
} clerk;

static size_t programs = MOST_PROGRAMS;
static sem_t beds[THREADS + 1];
static void rouse(void *engine, uint32_t session) {
    sem_t *all = (sem_t *)engine;
    sem_post(&all[session]);
}
static const pelgaisti_waker rouses = {rouse, beds};

static uint32_t draw(clerk *c, uint32_t limit) {
    c->seed = c->seed * 6364136223846793005u + 1442695040888963407u;
    return (uint32_t)(c->seed >> 33) % limit;
}

static pelgaisti_program random_program(clerk *c) {
    static const uint32_t modes[] = {PELGAISTI_IS, PELGAISTI_IX, PELGAISTI_S, PELGAISTI_SIX, PELGAISTI_U, PELGAISTI_X};
    static const uint32_t ops[] = {PELGAISTI_LOCK, PELGAISTI_LOCK, PELGAISTI_LOCK, PELGAISTI_CONVERT, PELGAISTI_TRY, PELGAISTI_RELEASE};
    pelgaisti_program program = start_of(draw(c, 6));
    pelgaisti_call last = {0, 0, {0, {0}}};
    last.resource.level = 1 + draw(c, PELGAISTI_LEVELS);
    for (uint32_t k = 0; k < last.resource.level; k++) last.resource.numbers[k] = draw(c, k < 2 ? 2 : 8);
    last.op = ops[draw(c, COUNT(ops))];
    last.mode = modes[draw(c, COUNT(modes))];
    if (draw(c, 8) == 0) last = draw(c, 2) ? poll : call_of(PELGAISTI_WITHDRAW, 0, 0, 0, 0);
    if (program.start && draw(c, 6) == 0) return program;
    program.last = last;
    program.level = last.resource.level ? draw(c, last.resource.level) : 7;
    if (draw(c, 2)) program.level = 0;
    program.above = draw(c, 4) ? pelgaisti_parent_mode(last.mode) : modes[draw(c, COUNT(modes))];
    return program;
}

/* Runs a program in some turns, and then in as many as it takes, and keeps it. */
static pelgaisti_program_answer *run_and_keep(clerk *c, pelgaisti_program program) {
    made *it = &c->programs[c->count++];
    uint64_t turns = draw(c, 3) ? UINT64_MAX : draw(c, 40);
    pelgaisti_status status = pelgaisti_session_run(c->session, &program, turns, &it->answer);
    it->program = program;
    if (status == PELGAISTI_NOT_SERVED) {
        c->late++;
        c->bad += pelgaisti_session_run(c->session, &program, turns, &it->answer) != PELGAISTI_PENDING;
        status = pelgaisti_session_run(c->session, NULL, UINT64_MAX, &it->answer);
    }
    c->bad += status != PELGAISTI_OK;
    return &it->answer;
}

/* Runs random programs. Behind a wait it sleeps until it is woken, or takes the request back by an abort. */
static void *run_at_random(void *argument) {
    clerk *c = (clerk *)argument;
    while (c->count + 4 < programs) {
        pelgaisti_program_answer *answer = run_and_keep(c, random_program(c));
        if (answer->stop == PELGAISTI_DEADLOCK || (answer->stop == PELGAISTI_WAITING && draw(c, 4) == 0)) {
            run_and_keep(c, start_of(PELGAISTI_ABORTS));
        } else if (answer->stop == PELGAISTI_WAITING) {
            while (sem_wait(&beds[c->number]) != 0) continue;
            run_and_keep(c, program_of(PELGAISTI_NOTHING, poll));
        }
    }
    run_and_keep(c, start_of(PELGAISTI_ABORTS));
    return NULL;
}

static int same_call(const pelgaisti_call *one, const pelgaisti_call *other) {
    if (one->op != other->op) return 0;
    if (one->op == PELGAISTI_LOCK || one->op == PELGAISTI_CONVERT || one->op == PELGAISTI_TRY) {
        if (one->mode != other->mode) return 0;
    } else if (one->op != PELGAISTI_RELEASE) {
        return 1;
    }
    return one->resource.level == other->resource.level &&
           !memcmp(one->resource.numbers, other->resource.numbers, one->resource.level * sizeof(uint32_t));
}

/* Whether the program's calls stand side by side in the history from its place on, with its replies; goes on behind each but the last,
   and stops at the last if calls are left; and comes behind `from`. */
static int is_in_history(const clerk *c, const made *it, const pelgaisti_entry *entries, uint64_t length, uint64_t from) {
    pelgaisti_call calls[PELGAISTI_CALLS];
    size_t count = calls_of(&it->program, calls), served = it->answer.served;
    if (it->answer.place < from || served < 1 || served > count || it->answer.place + served > length || it->answer.starved) return 0;
    if (!is_told(&it->program, &it->answer)) return 0;
    for (size_t k = 0; k < served; k++) {
        const pelgaisti_entry *entry = &entries[it->answer.place + k];
        const pelgaisti_reply *reply = &replies[k];
        if (entry->session != c->number || !same_call(&entry->call, &calls[k])) return 0;
        if (entry->reply.kind != reply->kind || entry->reply.value != reply->value) return 0;
        if (k + 1 < served && stops_at(reply->kind)) return 0;
    }
    return served == count || stops_at(replies[served - 1].kind);
}

/* 64 threads run random programs. Each program is in the history, in its session's order, and the whole history, served call by call on a
   book, gets the same replies. */
static void programs_at_random(void) {
    static pelgaisti_session sessions[THREADS];
    static clerk clerks[THREADS];
    pelgaisti_book book = PELGAISTI_EMPTY, twin = PELGAISTI_EMPTY;
    pelgaisti_entry *entries;
    pthread_t threads[THREADS];
    uint64_t first = 1, length = 0, calls = 0, bad = 0, late = 0;
    size_t count = 0;

    for (size_t k = 0; k <= THREADS; k++) CHECK(sem_init(&beds[k], 0, 0) == 0);
    CHECK(open_office_with(sessions, THREADS, UINT64_MAX, &rouses, 0) == PELGAISTI_OK);
    for (uint32_t k = 0; k < THREADS; k++) {
        clerks[k].session = &sessions[k];
        clerks[k].number = k + 1;
        clerks[k].seed = 1000 + k;
        CHECK(pthread_create(&threads[k], NULL, run_at_random, &clerks[k]) == 0);
    }
    for (uint32_t k = 0; k < THREADS; k++) CHECK(pthread_join(threads[k], NULL) == 0);
    close_all(sessions, THREADS, &book);
    CHECK(pelgaisti_book_length(&book, &first, &length) == PELGAISTI_OK && first == 0);
    entries = (pelgaisti_entry *)calloc(length, sizeof *entries);
    CHECK(entries && pelgaisti_book_history(&book, 0, entries, length, &count) == PELGAISTI_OK && count == length);
    for (uint32_t k = 0; k < THREADS && entries; k++) {
        uint64_t from = 0;
        bad += clerks[k].bad;
        late += clerks[k].late;
        for (size_t n = 0; n < clerks[k].count; n++) {
            bad += !is_in_history(&clerks[k], &clerks[k].programs[n], entries, length, from);
            from = clerks[k].programs[n].answer.place + clerks[k].programs[n].answer.served;
            calls += clerks[k].programs[n].answer.served;
        }
    }
    CHECK(bad == 0 && calls == length && late > 0);
    CHECK(open_book(&twin, THREADS) == PELGAISTI_OK);
    bad = 0;
    for (uint64_t place = 0; place < length && entries; place++) {
        pelgaisti_reply reply = {0, 0};
        bad += pelgaisti_book_serve(&twin, entries[place].session, &entries[place].call, &reply) != PELGAISTI_OK;
        bad += reply.kind != entries[place].reply.kind || reply.value != entries[place].reply.value;
    }
    CHECK(bad == 0);
    free(entries);
    CHECK(pelgaisti_book_close(&twin) == PELGAISTI_OK && pelgaisti_book_close(&book) == PELGAISTI_OK);
}

/* With a number: so many programs of each thread. */
int main(int argc, char **argv) {
    if (argc > 1) programs = (size_t)atoi(argv[1]) < MOST_PROGRAMS ? (size_t)atoi(argv[1]) : MOST_PROGRAMS;
    programs_refuse();
    one_call_is_finished_by_any();
    others_serve_programs();
    programs_stop(0);
    programs_stop(1);
    programs_at_random();
    printf("%d passed, %d failed\n", passed, failed);
    return failed != 0;
}
