/* Times dear calls of a book and of an office that no trace of bench/worst.py shows: worst CASE TIMES. CASE is
       growth       locks of a million databases, each of its own, by 256 sessions of a book: the dearest call; the same if room is
                    made first; to make room
       history      a million polls of a book that keeps all entries: the same
       shrink       1,048,576 locks of 256 sessions that were given back: to count the idle cells; to lock as many other databases, which
                    take the idle cells, the dearest call; to give the memory back
       chosen       locks of 262,144 databases whose names were chosen to have hashes alike with a seed that is known: the dearest call,
                    the mean of a lock of 1,000 further ones once all are held, and the mean of all
       another      the same names in a book with another seed
       ordinary     the same with ordinary names
       dump         a dump of a book that holds 1,048,576; 131,072; 8,192 locks
       commits      in an office: a poll whose pass serves 255 commits of 4,096 locks each
       bound        in a book that keeps at most the newest 2^20 entries of its history: the dearest poll of 2^21 behind the first 2^21
       readers      a commit before 1,023 readers that wait, all of whom are granted
       withdraw     a withdrawal from the front and from the middle of a queue of 1,023
   Prints a line for each figure: the least of so many times, in microseconds.
       ./embed && cc -O2 bench/worst.c -Iout -Lout -lpelgaisti -o worst_c */
#define _DEFAULT_SOURCE
#include "chosen.h"
#include "pelgaisti.h"
#include <stdio.h>
#include <stdlib.h>
#include <string.h>
#include <time.h>

enum { SESSIONS = 256, LOCKS = 4096, CHOSEN = 262144, FURTHER = 1000, MOST_FIGURES = 3, SEED = 7, OTHER_SEED = 8 };

static pelgaisti_session sessions[PELGAISTI_MAX_SESSIONS];
static uint32_t names[CHOSEN + FURTHER];

static uint64_t now(void) {
    struct timespec t;
    clock_gettime(CLOCK_MONOTONIC, &t);
    return (uint64_t)t.tv_sec * 1000000000u + (uint64_t)t.tv_nsec;
}

static pelgaisti_call call_of(uint32_t op, uint32_t mode, uint32_t name) {
    pelgaisti_call call = {0, 0, {0, {0}}};
    call.op = op;
    call.mode = mode;
    call.resource.level = mode != 0;
    call.resource.numbers[0] = name;
    return call;
}

/* Serves a call of a book, whose reply has to be of the kind. Returns its nanoseconds. */
static uint64_t serve(pelgaisti_book *book, uint32_t session, pelgaisti_call call, uint32_t kind) {
    pelgaisti_reply reply;
    uint64_t from = now();
    if (pelgaisti_book_serve(book, session, &call, &reply)) exit(4);
    from = now() - from;
    if (reply.kind != kind) exit(5);
    return from;
}

static void open_seeded(pelgaisti_book *book, uint32_t count, uint64_t bound, uint64_t seed) {
    pelgaisti_options options = PELGAISTI_OPTIONS(count);
    options.seed = seed;
    options.keep = bound;
    *book = (pelgaisti_book)PELGAISTI_EMPTY;
    if (pelgaisti_book_open(book, &options)) exit(4);
}

static void open_book(pelgaisti_book *book, uint32_t count, uint64_t bound) { open_seeded(book, count, bound, SEED); }

/* Has the sessions of a book lock these databases, LOCKS each, or the databases from 0 on. Returns the nanoseconds of the dearest. */
static uint64_t hold(pelgaisti_book *book, uint32_t count, const uint32_t *named) {
    uint64_t dearest = 0;
    for (uint32_t session = 1; session <= count; session++) {
        serve(book, session, call_of(PELGAISTI_BEGIN, 0, 0), PELGAISTI_BEGAN);
        for (uint32_t k = 0; k < LOCKS; k++) {
            uint32_t at = (session - 1) * LOCKS + k;
            uint64_t took = serve(book, session, call_of(PELGAISTI_LOCK, PELGAISTI_X, named ? named[at] : at), PELGAISTI_GRANTED);
            if (took > dearest) dearest = took;
        }
    }
    return dearest;
}

/* Makes room in a book. Returns the nanoseconds. */
static uint64_t reserve(pelgaisti_book *book, size_t resources, size_t entries) {
    uint64_t from = now();
    if (pelgaisti_book_reserve(book, resources, entries)) exit(4);
    return now() - from;
}

static void growth(uint64_t *took) {
    for (int is_reserved = 0; is_reserved < 2; is_reserved++) {
        pelgaisti_book book;
        open_book(&book, SESSIONS, 0);
        if (is_reserved) took[2] = reserve(&book, SESSIONS * LOCKS, 0);
        took[is_reserved] = hold(&book, SESSIONS, NULL);
        if (pelgaisti_book_close(&book)) exit(6);
    }
}

static void history(uint64_t *took) {
    for (int is_reserved = 0; is_reserved < 2; is_reserved++) {
        pelgaisti_book book;
        open_book(&book, 1, UINT64_MAX);
        if (is_reserved) took[2] = reserve(&book, 0, (1 << 20) + 1);
        serve(&book, 1, call_of(PELGAISTI_BEGIN, 0, 0), PELGAISTI_BEGAN);
        took[is_reserved] = 0;
        for (uint32_t k = 0; k < 1 << 20; k++) {
            uint64_t poll = serve(&book, 1, call_of(PELGAISTI_POLL, 0, 0), PELGAISTI_CLEAR);
            if (poll > took[is_reserved]) took[is_reserved] = poll;
        }
        if (pelgaisti_book_close(&book)) exit(6);
    }
}

/* Ends the transactions of the sessions of a book. */
static void give_back(pelgaisti_book *book, uint32_t count) {
    for (uint32_t session = 1; session <= count; session++) serve(book, session, call_of(PELGAISTI_COMMIT, 0, 0), PELGAISTI_COMMITTED);
}

static void shrink(uint64_t *took) {
    static uint32_t others[SESSIONS * LOCKS];
    pelgaisti_book book;
    pelgaisti_gauges gauges;
    uint64_t from;
    for (uint32_t k = 0; k < SESSIONS * LOCKS; k++) others[k] = SESSIONS * LOCKS + k;
    open_book(&book, SESSIONS, 0);
    hold(&book, SESSIONS, NULL);
    give_back(&book, SESSIONS);
    from = now();
    if (pelgaisti_book_gauges(&book, &gauges) || gauges.idle_cells != SESSIONS * LOCKS) exit(5);
    took[0] = now() - from;
    took[1] = hold(&book, SESSIONS, others);
    give_back(&book, SESSIONS);
    from = now();
    if (pelgaisti_book_shrink(&book)) exit(5);
    took[2] = now() - from;
    if (pelgaisti_book_gauges(&book, &gauges) || gauges.idle_cells != 0 || pelgaisti_book_close(&book)) exit(6);
}

static void choose(void) { choose_names(names, CHOSEN + FURTHER, SEED, 12); }

static void name_in_order(void) {
    for (uint32_t k = 0; k < CHOSEN + FURTHER; k++) names[k] = k;
}

static void of_names(uint64_t *took, uint64_t seed) {
    pelgaisti_book book;
    uint64_t from;
    open_seeded(&book, SESSIONS, 0, seed);
    from = now();
    took[0] = hold(&book, CHOSEN / LOCKS, names);
    took[2] = (now() - from) / CHOSEN;
    serve(&book, SESSIONS, call_of(PELGAISTI_BEGIN, 0, 0), PELGAISTI_BEGAN);
    from = now();
    for (uint32_t k = 0; k < FURTHER; k++)
        serve(&book, SESSIONS, call_of(PELGAISTI_LOCK, PELGAISTI_X, names[CHOSEN + k]), PELGAISTI_GRANTED);
    took[1] = (now() - from) / FURTHER;
    if (pelgaisti_book_close(&book)) exit(6);
}

static void by_the_seed(uint64_t *took) { of_names(took, SEED); }

static void by_another(uint64_t *took) { of_names(took, OTHER_SEED); }

static void dumps(uint64_t *took) {
    static const uint32_t counts[] = {256, 32, 2};
    for (size_t k = 0; k < 3; k++) {
        pelgaisti_book book;
        uint64_t from, place;
        size_t count, room = (size_t)counts[k] * LOCKS + SESSIONS;
        pelgaisti_claim *rows = malloc(room * sizeof *rows);
        if (!rows) exit(4);
        memset(rows, 1, room * sizeof *rows);
        open_book(&book, SESSIONS, 0);
        hold(&book, counts[k], NULL);
        from = now();
        if (pelgaisti_book_dump(&book, rows, room, &count, &place) || count < counts[k] * LOCKS || count > room) exit(4);
        took[k] = now() - from;
        free(rows);
        if (pelgaisti_book_close(&book)) exit(6);
    }
}

static pelgaisti_reply perform(uint32_t session, pelgaisti_call call) {
    pelgaisti_answer answer;
    if (pelgaisti_session_perform(&sessions[session - 1], &call, 1, &answer)) exit(4);
    return answer.reply;
}

static void commits(uint64_t *took) {
    pelgaisti_call commit = call_of(PELGAISTI_COMMIT, 0, 0);
    pelgaisti_answer answer;
    pelgaisti_book book = PELGAISTI_EMPTY;
    pelgaisti_options options = PELGAISTI_OPTIONS(SESSIONS);
    options.keep = 0;
    options.seed = SEED;
    options.pass_calls = options.pass_rounds = 65535; /* a pass serves all that is published */
    options.pass_locks = UINT32_MAX;
    for (uint32_t k = 0; k < SESSIONS; k++) sessions[k] = (pelgaisti_session)PELGAISTI_EMPTY;
    if (pelgaisti_office_open(sessions, &options)) exit(4);
    for (uint32_t session = 1; session <= SESSIONS; session++) {
        perform(session, call_of(PELGAISTI_BEGIN, 0, 0));
        for (uint32_t k = 0; session > 1 && k < LOCKS; k++) perform(session, call_of(PELGAISTI_LOCK, PELGAISTI_X, session * LOCKS + k));
    }
    for (uint32_t session = 2; session <= SESSIONS; session++)
        if (pelgaisti_session_publish(&sessions[session - 1], &commit, NULL)) exit(4);
    took[0] = now();
    if (perform(1, call_of(PELGAISTI_POLL, 0, 0)).kind != PELGAISTI_CLEAR) exit(5);
    took[0] = now() - took[0];
    for (uint32_t session = SESSIONS; session > 1; session--) {
        if (pelgaisti_session_collect(&sessions[session - 1], &answer) || answer.reply.value != LOCKS) exit(5);
        if (pelgaisti_session_hand_in(&sessions[session - 1], &sessions[0])) exit(6);
    }
    if (pelgaisti_office_close(&sessions[0], &book) || pelgaisti_book_close(&book)) exit(6);
}

static void bound(uint64_t *took) {
    pelgaisti_book book;
    open_book(&book, 1, 1 << 20);
    serve(&book, 1, call_of(PELGAISTI_BEGIN, 0, 0), PELGAISTI_BEGAN);
    took[0] = 0;
    for (uint32_t k = 0; k < 1 << 22; k++) {
        uint64_t poll = serve(&book, 1, call_of(PELGAISTI_POLL, 0, 0), PELGAISTI_CLEAR);
        if (k >= 1 << 21 && poll > took[0]) took[0] = poll;
    }
    if (pelgaisti_book_close(&book)) exit(6);
}

/* One session holds a database in X, and all others wait for it in this mode. */
static void queue_up(pelgaisti_book *book, uint32_t mode) {
    open_book(book, PELGAISTI_MAX_SESSIONS, 0);
    for (uint32_t session = 1; session <= PELGAISTI_MAX_SESSIONS; session++) {
        serve(book, session, call_of(PELGAISTI_BEGIN, 0, 0), PELGAISTI_BEGAN);
        serve(book, session, call_of(PELGAISTI_LOCK, session == 1 ? PELGAISTI_X : mode, 1), session == 1 ? PELGAISTI_GRANTED : PELGAISTI_WAITING);
    }
}

static void readers(uint64_t *took) {
    pelgaisti_book book;
    queue_up(&book, PELGAISTI_S);
    took[0] = serve(&book, 1, call_of(PELGAISTI_COMMIT, 0, 0), PELGAISTI_COMMITTED);
    serve(&book, PELGAISTI_MAX_SESSIONS, call_of(PELGAISTI_POLL, 0, 0), PELGAISTI_CLEAR);
    if (pelgaisti_book_close(&book)) exit(6);
}

static void withdrawals(uint64_t *took) {
    pelgaisti_book book;
    queue_up(&book, PELGAISTI_X);
    took[0] = serve(&book, 2, call_of(PELGAISTI_WITHDRAW, 0, 0), PELGAISTI_WITHDRAWN);
    took[1] = serve(&book, PELGAISTI_MAX_SESSIONS / 2, call_of(PELGAISTI_WITHDRAW, 0, 0), PELGAISTI_WITHDRAWN);
    if (pelgaisti_book_close(&book)) exit(6);
}

static const struct {
    const char *name;
    void (*prepare)(void), (*measure)(uint64_t *);
    const char *figures[MOST_FIGURES];
} cases[] = {
    {"growth", NULL, growth, {"the dearest lock of 1,048,576 databases", "the same behind a reserve", "the reserve"}},
    {"history", NULL, history, {"the dearest of 1,048,576 polls that are kept", "the same behind a reserve", "the reserve"}},
    {"shrink", NULL, shrink, {"to count 1,048,576 idle cells", "the dearest lock that takes one of them", "a shrink that gives them back"}},
    {"chosen", choose, by_the_seed, {"the dearest lock of 262,144 chosen names", "a lock of a further one", "the mean of all"}},
    {"another", choose, by_another, {"the dearest lock of these names with another seed", "a lock of a further one", "the mean of all"}},
    {"ordinary", name_in_order, by_the_seed, {"the dearest lock of 262,144 ordinary names", "a lock of a further one", "the mean of all"}},
    {"dump", NULL, dumps, {"a dump of 1,048,576 locks", "of 131,072", "of 8,192"}},
    {"commits", NULL, commits, {"a poll whose pass serves 255 commits of 4,096 locks"}},
    {"bound", NULL, bound, {"the dearest poll with a bound of 2^20 entries"}},
    {"readers", NULL, readers, {"a commit before 1,023 readers"}},
    {"withdraw", NULL, withdrawals, {"a withdrawal from the front of a queue of 1,023", "from its middle"}},
};

int main(int argc, char **argv) {
    int times = argc == 3 ? atoi(argv[2]) : 0;
    for (size_t k = 0; times > 0 && k < sizeof cases / sizeof *cases; k++) {
        uint64_t least[MOST_FIGURES], took[MOST_FIGURES] = {0, 0, 0};
        if (strcmp(cases[k].name, argv[1])) continue;
        memset(least, 0xff, sizeof least);
        if (cases[k].prepare) cases[k].prepare();
        for (int turn = 0; turn < times; turn++) {
            cases[k].measure(took);
            for (size_t figure = 0; figure < MOST_FIGURES; figure++)
                if (took[figure] < least[figure]) least[figure] = took[figure];
        }
        for (size_t figure = 0; figure < MOST_FIGURES && cases[k].figures[figure]; figure++)
            printf("%.2f %s\n", (double)least[figure] / 1000, cases[k].figures[figure]);
        return 0;
    }
    return 2;
}
