/* The lines of docs/EMBEDDING.md that look, write a dump and tell a deadlock, as they stand there, and those of the header: over arrays behind
   which no memory is, with room for some of what there is. checks/embedding writes the lines to lines_look.h and so on. */
#define _GNU_SOURCE
#include "must.h"
#include "open.h"
#include <string.h>
#include <sys/mman.h>
#include <unistd.h>

enum { SESSIONS = 11, DEADLOCKS = 3 };

/* An array of so many bytes that ends where no memory may be read. */
static void *ending(size_t bytes) {
    const size_t page = (size_t)sysconf(_SC_PAGESIZE), whole = (bytes + page - 1) / page * page;
    char *at = (char *)mmap(NULL, whole + page, PROT_READ | PROT_WRITE, MAP_PRIVATE | MAP_ANONYMOUS, -1, 0);
    MUST(at != (char *)MAP_FAILED && mprotect(at + whole, page, PROT_NONE) == 0);
    return at + whole - bytes;
}

static size_t lines_of(FILE *file) {
    size_t lines = 0;
    rewind(file);
    for (int letter; (letter = getc(file)) != EOF;) lines += letter == '\n';
    fclose(file);
    return lines;
}

/* How many lines a dump has with so much room, by the page's lines. */
static size_t dump(pelgaisti_session *session, size_t room) {
    pelgaisti_claim *rows = (pelgaisti_claim *)ending(room * sizeof *rows);
    pelgaisti_dumping at = PELGAISTI_DUMPING;
    pelgaisti_counts counts;
    uint64_t place;
    size_t count;
    char line[100];
    FILE *file = tmpfile();
    MUST(file);
#include "lines_look.h"
#include "lines_dump.h"
    return lines_of(file);
}

/* The same by the header's lines. */
static size_t dump_as_the_header(pelgaisti_session *session, size_t room) {
    pelgaisti_claim *rows = (pelgaisti_claim *)ending(room * sizeof *rows);
    pelgaisti_dumping at = PELGAISTI_DUMPING;
    pelgaisti_book view = PELGAISTI_EMPTY;
    uint64_t place;
    size_t count;
    char line[100];
    FILE *file = tmpfile();
    MUST(file);
    look(session, &view);
#include "lines_header.h"
    end_look(session, &view);
    return lines_of(file);
}

/* Whether a deadlock of this transaction is told, with room for so many deadlocks and members. */
static int is_told(pelgaisti_session *session, uint64_t transaction, size_t KEPT, size_t MEMBERS) {
    pelgaisti_deadlock *list = (pelgaisti_deadlock *)ending(KEPT * sizeof *list);
    pelgaisti_member *members = (pelgaisti_member *)ending(MEMBERS * sizeof *members);
    pelgaisti_book view = PELGAISTI_EMPTY;
    const size_t room = 400;
    size_t count, member_count, first = 0;
    char text[400] = "";
    look(session, &view);
    MUST(pelgaisti_book_deadlocks(&view, list, KEPT, &count, members, MEMBERS, &member_count) == PELGAISTI_OK && count == DEADLOCKS);
    end_look(session, &view);
#include "lines_deadlock.h"
    return strncmp(text, "deadlock at place ", 18) == 0;
}

static pelgaisti_reply ask(pelgaisti_session *session, uint32_t op, uint32_t database) {
    const pelgaisti_call call = {op, PELGAISTI_X, {database > 0, {database}}};
    pelgaisti_answer answer;
    MUST(pelgaisti_session_perform(session, &call, PELGAISTI_ALL_TURNS, &answer) == PELGAISTI_OK);
    return answer.reply;
}

int main(void) {
    static pelgaisti_session sessions[SESSIONS];
    pelgaisti_book book = PELGAISTI_EMPTY;
    uint64_t victims[DEADLOCKS];
    MUST(open_office_with(sessions, SESSIONS, UINT64_MAX, NULL, DEADLOCKS) == PELGAISTI_OK);
    /* cycles of sessions 1 and 2, whose victim is the younger transaction, of session 2 */
    for (int k = 0; k < DEADLOCKS; k++) {
        for (int s = 0; s < 2; s++) victims[k] = ask(&sessions[s], PELGAISTI_BEGIN, 0).value;
        for (uint32_t s = 0; s < 2; s++) MUST(ask(&sessions[s], PELGAISTI_LOCK, 100 + s).kind == PELGAISTI_GRANTED);
        MUST(ask(&sessions[0], PELGAISTI_LOCK, 101).kind == PELGAISTI_WAITING && ask(&sessions[1], PELGAISTI_LOCK, 100).kind == PELGAISTI_DEADLOCK);
        for (int s = 1; s >= 0; s--) MUST(ask(&sessions[s], PELGAISTI_ABORT, 0).kind == PELGAISTI_ABORTED);
    }
    /* the newest come first in the list of those kept that fit, the members of the oldest of these first */
    for (size_t kept = 0; kept <= DEADLOCKS; kept++)
        for (size_t members = 0; members <= 2 * DEADLOCKS; members++)
            for (size_t k = 0; k < DEADLOCKS; k++)
                MUST(is_told(&sessions[2], victims[k], kept, members) == (k + kept >= DEADLOCKS && 2 * (k + kept + 1 - DEADLOCKS) <= members));
    /* a row for each transaction, and one for its lock */
    for (uint32_t s = 0; s < SESSIONS; s++) {
        MUST(ask(&sessions[s], PELGAISTI_BEGIN, 0).kind == PELGAISTI_BEGAN);
        MUST(ask(&sessions[s], PELGAISTI_LOCK, 1 + s).kind == PELGAISTI_GRANTED);
    }
    for (size_t room = 0; room <= 2 * SESSIONS + 2; room++) {
        const size_t rows = room < 2 * SESSIONS ? room : 2 * SESSIONS;
        MUST(dump(&sessions[0], room) == rows && dump_as_the_header(&sessions[0], room) == rows);
    }
    for (int s = 1; s < SESSIONS; s++) MUST(pelgaisti_session_hand_in(&sessions[s], &sessions[0]) == PELGAISTI_OK);
    MUST(pelgaisti_office_close(&sessions[0], &book) == PELGAISTI_OK && pelgaisti_book_close(&book) == PELGAISTI_OK);
    return 0;
}
