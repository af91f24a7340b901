/* Dumps: of a trace, and of an office beside busy sessions.

       embedding_dump trace < TRACE     serves the rows on a book and on an office; behind each row, and before the first, the two give the
                                        same dump; writes each dump as text, behind a line "at PLACE"
       embedding_dump busy CALLS        five threads make so many random calls each, while a sixth session takes dumps: each is the state
                                        of its place, as a book shows it that serves the history up to there
       embedding_dump queue             of 1,024 sessions one holds a resource, and 1,023 wait for it, each also for those ahead; writes the text */
#include "must.h"
#include "open.h"
#include "rows.h"
#include <inttypes.h>
#include <pthread.h>
#include <string.h>

enum { BUSY = 5, SESSIONS = 12, ROOM = 4096, DUMPS = 400 };

typedef struct dump {
    uint64_t place;
    size_t count;
    pelgaisti_claim *rows;
} dump;

static int same_row(const pelgaisti_claim *a, const pelgaisti_claim *b) {
    return a->session == b->session && a->kind == b->kind && a->mode == b->mode && a->doomed == b->doomed &&
           a->transaction == b->transaction && a->resource.level == b->resource.level &&
           !memcmp(a->resource.numbers, b->resource.numbers, sizeof a->resource.numbers);
}

static void must_be_same(const dump *a, const dump *b) {
    MUST(a->place == b->place && a->count == b->count);
    for (size_t k = 0; k < a->count; k++) MUST(same_row(&a->rows[k], &b->rows[k]));
}

static dump dump_of_book(pelgaisti_book *book, pelgaisti_claim *room) {
    dump made = {0, 0, room};
    MUST(pelgaisti_book_dump(book, room, ROOM, &made.count, &made.place) == PELGAISTI_OK && made.count <= ROOM);
    return made;
}

static dump dump_of_office(pelgaisti_session *session, pelgaisti_claim *room) {
    pelgaisti_book view = PELGAISTI_EMPTY;
    dump made;
    look(session, &view);
    made = dump_of_book(&view, room);
    end_look(session, &view);
    return made;
}

static void write_dump(const dump *made) {
    pelgaisti_dumping at = PELGAISTI_DUMPING;
    char line[100];
    uint32_t length;
    printf("at %" PRIu64 "\n", made->place);
    while ((length = pelgaisti_dump_line(made->rows, made->count, &at, line, sizeof line)) > 0) {
        MUST(length < sizeof line && strlen(line) == (size_t)length);
        fputs(line, stdout);
    }
}

/* ---- A trace. ---- */

static void dump_trace(void) {
    static pelgaisti_claim of_book[ROOM], of_office[ROOM];
    static pelgaisti_session sessions[SESSIONS];
    pelgaisti_book book = PELGAISTI_EMPTY;
    char line[256];
    MUST(open_book(&book, SESSIONS) == PELGAISTI_OK && open_sessions(sessions, SESSIONS) == PELGAISTI_OK);
    for (;;) {
        dump made = dump_of_book(&book, of_book), shared = dump_of_office(&sessions[0], of_office);
        must_be_same(&made, &shared);
        write_dump(&made);
        if (!fgets(line, sizeof line, stdin)) break;
        pelgaisti_call call;
        pelgaisti_reply reply;
        pelgaisti_answer answer;
        uint32_t session = read_row(line, &call);
        MUST(pelgaisti_book_serve(&book, session, &call, &reply) == PELGAISTI_OK);
        MUST(pelgaisti_session_perform(&sessions[session - 1], &call, UINT64_MAX, &answer) == PELGAISTI_OK);
    }
}

/* ---- Busy sessions. ---- */

static pelgaisti_session shared[BUSY + 1];
static long calls_each;

static void *work(void *which) {
    pelgaisti_session *session = &shared[*(int *)which];
    static const uint32_t in[] = {PELGAISTI_IS, PELGAISTI_IX, PELGAISTI_S, PELGAISTI_SIX, PELGAISTI_U, PELGAISTI_X};
    uint64_t state = (uint64_t)*(int *)which + 1;
    for (long k = 0; k < calls_each; k++) {
        pelgaisti_call call = {PELGAISTI_BEGIN, 0, {0, {0}}};
        pelgaisti_answer answer;
        uint32_t what = drawn(&state, 10);
        if (what < 7) {
            call.op = PELGAISTI_LOCK;
            call.mode = in[drawn(&state, 6)];
            call.resource.level = 1 + drawn(&state, 2);
            call.resource.numbers[0] = 1 + drawn(&state, 3);
            if (call.resource.level == 2) call.resource.numbers[1] = 1 + drawn(&state, 3);
        } else if (what < 9) {
            call.op = drawn(&state, 2) ? PELGAISTI_ABORT : PELGAISTI_COMMIT;
        }
        MUST(pelgaisti_session_perform(session, &call, UINT64_MAX, &answer) == PELGAISTI_OK);
    }
    return NULL;
}

static void dump_busy(void) {
    static dump taken[DUMPS];
    static pelgaisti_claim room[ROOM];
    pthread_t threads[BUSY];
    int numbers[BUSY];
    pelgaisti_book book = PELGAISTI_EMPTY, replayed = PELGAISTI_EMPTY;
    uint64_t served = 0;
    size_t waits = 0;
    MUST(open_sessions(shared, BUSY + 1) == PELGAISTI_OK);
    for (int k = 0; k < BUSY; k++) {
        numbers[k] = k;
        MUST(pthread_create(&threads[k], NULL, work, &numbers[k]) == 0);
    }
    for (int k = 0; k < DUMPS; k++) {
        taken[k] = dump_of_office(&shared[BUSY], room);
        taken[k].rows = malloc(sizeof room[0] * (taken[k].count + 1));
        MUST(taken[k].rows);
        memcpy(taken[k].rows, room, sizeof room[0] * taken[k].count);
        MUST(k == 0 || taken[k].place >= taken[k - 1].place);
    }
    for (int k = 0; k < BUSY; k++) {
        MUST(pthread_join(threads[k], NULL) == 0);
        MUST(pelgaisti_session_hand_in(&shared[k], &shared[BUSY]) == PELGAISTI_OK);
    }
    MUST(pelgaisti_office_close(&shared[BUSY], &book) == PELGAISTI_OK && open_book(&replayed, BUSY + 1) == PELGAISTI_OK);
    for (int k = 0; k < DUMPS; k++) {
        for (; served < taken[k].place; served++) {
            pelgaisti_entry entry;
            pelgaisti_reply reply;
            size_t count;
            MUST(pelgaisti_book_history(&book, served, &entry, 1, &count) == PELGAISTI_OK && count == 1);
            MUST(pelgaisti_book_serve(&replayed, entry.session, &entry.call, &reply) == PELGAISTI_OK);
        }
        dump made = dump_of_book(&replayed, room);
        must_be_same(&made, &taken[k]);
        for (size_t row = 0; row < made.count; row++) waits += made.rows[row].kind > PELGAISTI_HELD;
        free(taken[k].rows);
    }
    printf("%d dumps up to place %" PRIu64 ", with %zu waiting requests\n", DUMPS, served, waits);
    MUST(pelgaisti_book_close(&replayed) == PELGAISTI_OK && pelgaisti_book_close(&book) == PELGAISTI_OK);
}

/* ---- A queue of all sessions but one. The last half of the sessions comes first, each half by rising numbers. ---- */

static uint32_t in_turn(uint32_t k) { return (k + PELGAISTI_MAX_SESSIONS / 2) % PELGAISTI_MAX_SESSIONS + 1; }

static void dump_queue(void) {
    enum { ALL = PELGAISTI_MAX_SESSIONS };
    static pelgaisti_claim rows[2 * ALL];
    pelgaisti_book book = PELGAISTI_EMPTY;
    pelgaisti_dumping at = PELGAISTI_DUMPING;
    uint64_t place;
    size_t count;
    char line[100], wanted[100];
    MUST(open_book(&book, ALL) == PELGAISTI_OK);
    for (uint32_t k = 0; k < ALL; k++) {
        const pelgaisti_call begin = {PELGAISTI_BEGIN, 0, {0, {0}}}, lock = {PELGAISTI_LOCK, PELGAISTI_X, {1, {7}}};
        pelgaisti_reply reply;
        MUST(pelgaisti_book_serve(&book, in_turn(k), &begin, &reply) == PELGAISTI_OK);
        MUST(pelgaisti_book_serve(&book, in_turn(k), &lock, &reply) == PELGAISTI_OK);
        MUST(reply.kind == (k == 0 ? PELGAISTI_GRANTED : PELGAISTI_WAITING));
    }
    MUST(pelgaisti_book_dump(&book, rows, 2 * ALL, &count, &place) == PELGAISTI_OK && count == 2 * ALL);
    for (size_t k = 0; k < count; k++) {
        MUST(pelgaisti_dump_line(rows, count, &at, line, sizeof line) > 0 && strncmp(line, "waits", 5) != 0);
        fputs(line, stdout);
    }
    for (uint32_t session = 1; session <= ALL; session++) {
        const uint32_t ahead = (session + ALL / 2 - 1) % ALL;
        if (ahead == 0) continue;
        snprintf(wanted, sizeof wanted, ahead > 1 ? "waits,%" PRIu32 ",,,,,%" PRIu32 "+%" PRIu32 "\n" : "waits,%" PRIu32 ",,,,,%" PRIu32 "\n", session,
                 in_turn(0), ahead - 1);
        MUST(pelgaisti_dump_line(rows, count, &at, line, sizeof line) > 0 && !strcmp(line, wanted));
        fputs(line, stdout);
    }
    MUST(pelgaisti_dump_line(rows, count, &at, line, sizeof line) == 0 && pelgaisti_book_close(&book) == PELGAISTI_OK);
}

int main(int count, char **words) {
    if (count == 2 && !strcmp(words[1], "trace")) dump_trace();
    else if (count == 2 && !strcmp(words[1], "queue")) dump_queue();
    else if (count == 3 && !strcmp(words[1], "busy")) calls_each = strtol(words[2], NULL, 10), dump_busy();
    else return 64;
    return 0;
}
