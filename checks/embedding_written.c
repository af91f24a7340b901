/* Each call writes what its comment says, and MemorySanitizer, which this is built with, knows of it: of variables that nobody else has
   written, every byte that a call has written is asked for. With the word `unwritten` it asks for one that a failed call hasn't
   written, which MemorySanitizer reports. */
#include "open.h"
#include <sanitizer/msan_interface.h>
#include <string.h>

static int faults;

#define OK(call) ((call) == PELGAISTI_OK ? 0 : (faults++, fprintf(stderr, "line %d\n", __LINE__)))
#define FORGET(thing) __msan_poison(&(thing), sizeof(thing))
#define READ(thing) __msan_check_mem_is_initialized(&(thing), sizeof(thing))

/* Makes a call, which writes these. */
#define WRITES_1(a, call) (FORGET(a), OK(call), READ(a))
#define WRITES_2(a, b, call) (FORGET(b), WRITES_1(a, call), READ(b))
#define WRITES_3(a, b, c, call) (FORGET(c), WRITES_2(a, b, call), READ(c))

static const pelgaisti_resource page = {2, {1, 2}}, nowhere = {0, {0}};

static void of_a_book(void) {
    pelgaisti_book book = PELGAISTI_EMPTY;
    pelgaisti_call begin = {PELGAISTI_BEGIN, 0, {0}}, lock = {PELGAISTI_LOCK, PELGAISTI_X, {1, {9}}};
    pelgaisti_call other = {PELGAISTI_LOCK, PELGAISTI_X, {1, {8}}}, withdraw = {PELGAISTI_WITHDRAW, 0, {0}};
    char text[100]; /* less than the deadlock's */
    pelgaisti_program program = {PELGAISTI_NOTHING, 0, 0, {PELGAISTI_POLL, 0, {0}}};
    pelgaisti_program_answer answer;
    pelgaisti_reply reply, replies[PELGAISTI_CALLS];
    pelgaisti_entry batch[1], history[2], taken[2];
    pelgaisti_holder holders[1];
    pelgaisti_transaction open;
    pelgaisti_claim waiting, locks[1];
    pelgaisti_counts counts;
    pelgaisti_gauges gauges;
    pelgaisti_pass_counts passes;
    pelgaisti_deadlock deadlocks[1];
    pelgaisti_member members[2];
    uint32_t mode, blockers[1], told[2];
    uint64_t length, first_kept, first;
    size_t count, member_count;
    OK(open_book_of_deadlocks(&book, 2, 1));
    WRITES_1(reply, pelgaisti_book_serve(&book, 1, &begin, &reply));
    memset(batch, 0, sizeof batch);
    batch[0].session = 2;
    batch[0].call = begin;
    WRITES_2(count, batch, pelgaisti_book_serve_batch(&book, batch, 1, &count));
    OK(pelgaisti_book_serve(&book, 1, &lock, &reply));
    OK(pelgaisti_book_serve(&book, 2, &lock, &reply));
    WRITES_1(mode, pelgaisti_book_held(&book, 1, &lock.resource, &mode));
    WRITES_2(count, holders, pelgaisti_book_holders(&book, &lock.resource, holders, 1, &count));
    WRITES_2(count, blockers, pelgaisti_book_blockers(&book, 2, blockers, 1, &count));
    WRITES_1(open, pelgaisti_book_transaction(&book, 1, &open));
    WRITES_1(waiting, pelgaisti_book_request(&book, 2, &waiting));
    WRITES_1(count, pelgaisti_book_locks_held(&book, 1, &count));
    WRITES_2(count, locks, pelgaisti_book_locks_of(&book, 1, &nowhere, locks, 1, &count));
    WRITES_3(count, locks, length, pelgaisti_book_dump(&book, locks, 1, &count, &length));
    WRITES_1(counts, pelgaisti_book_counts(&book, &counts));
    WRITES_1(gauges, pelgaisti_book_gauges(&book, &gauges));
    WRITES_1(count, pelgaisti_book_ended(&book, told, 2, &count));
    WRITES_1(passes, pelgaisti_book_passes(&book, &passes));
    WRITES_1(answer, pelgaisti_book_run(&book, 1, &program, &answer));
    FORGET(replies);
    if (pelgaisti_program_replies(&program, &answer, replies) != 1) faults++;
    READ(replies[0]);
    WRITES_2(length, first_kept, pelgaisti_book_length(&book, &first_kept, &length));
    WRITES_2(count, history, pelgaisti_book_history(&book, 0, history, 2, &count));
    OK(pelgaisti_book_serve(&book, 2, &withdraw, &reply));
    OK(pelgaisti_book_serve(&book, 2, &other, &reply));
    OK(pelgaisti_book_serve(&book, 1, &other, &reply));
    OK(pelgaisti_book_serve(&book, 2, &lock, &reply));
    FORGET(members);
    FORGET(member_count);
    WRITES_2(count, deadlocks, pelgaisti_book_deadlocks(&book, deadlocks, 1, &count, members, 2, &member_count));
    READ(members);
    READ(member_count);
    FORGET(text);
    if (pelgaisti_deadlock_text(&deadlocks[0], members, text, sizeof text) < sizeof text) faults++;
    READ(text);
    WRITES_3(first, count, taken, pelgaisti_book_take_history(&book, &first, taken, 2, &count));
    OK(pelgaisti_book_close(&book));
}

static void of_an_office(void) {
    pelgaisti_session sessions[2] = {PELGAISTI_EMPTY, PELGAISTI_EMPTY};
    pelgaisti_book book = PELGAISTI_EMPTY, view = PELGAISTI_EMPTY;
    pelgaisti_call begin = {PELGAISTI_BEGIN, 0, {0}}, lock = {PELGAISTI_LOCK, PELGAISTI_X, {1, {9}}};
    pelgaisti_answer performed, collected;
    pelgaisti_lock_answer locked, waited;
    pelgaisti_program program = {PELGAISTI_NOTHING, 0, 0, {PELGAISTI_POLL, 0, {0}}};
    pelgaisti_program_answer run;
    pelgaisti_pass served;
    pelgaisti_entry taken[2];
    pelgaisti_claim locks[1];
    pelgaisti_counts counts;
    pelgaisti_pass_counts passes;
    uint32_t posted;
    uint64_t seen, mark, first;
    size_t count;
    OK(open_office_with(sessions, 2, UINT64_MAX, NULL, 1));
    WRITES_1(performed, pelgaisti_session_perform(&sessions[0], &begin, 1, &performed));
    OK(pelgaisti_session_perform(&sessions[1], &begin, 1, &performed));
    OK(pelgaisti_session_perform(&sessions[0], &lock, 1, &performed));
    WRITES_1(posted, pelgaisti_session_publish(&sessions[1], &lock, &posted));
    WRITES_1(served, pelgaisti_session_serve(&sessions[0], &served));
    WRITES_1(collected, pelgaisti_session_collect(&sessions[1], &collected));
    WRITES_1(locked, pelgaisti_session_lock(&sessions[0], &page, PELGAISTI_S, 0, &locked));
    WRITES_1(waited, pelgaisti_session_wait(&sessions[0], 0, &waited));
    WRITES_1(run, pelgaisti_session_run(&sessions[0], &program, 1, &run));
    look(&sessions[0], &view);
    WRITES_3(locks, count, seen, pelgaisti_book_dump(&view, locks, 1, &count, &seen));
    WRITES_1(counts, pelgaisti_book_counts(&view, &counts));
    WRITES_1(passes, pelgaisti_book_passes(&view, &passes));
    end_look(&sessions[0], &view);
    WRITES_1(seen, pelgaisti_session_seen(&sessions[0], &seen));
    WRITES_1(mark, pelgaisti_session_mark(&sessions[0], &mark));
    WRITES_3(first, count, taken, pelgaisti_session_take_history(&sessions[0], &first, taken, 2, &count));
    OK(pelgaisti_session_hand_in(&sessions[1], &sessions[0]));
    OK(pelgaisti_office_close(&sessions[0], &book));
    OK(pelgaisti_book_close(&book));
}

/* What is returned by value. */
static void by_value(void) {
    const pelgaisti_call call = pelgaisti_path_call(&page, PELGAISTI_S, 0);
    const pelgaisti_options options = pelgaisti_default_options(2);
    READ(call);
    READ(options);
    if (call.op != PELGAISTI_LOCK || call.mode != PELGAISTI_IS || call.resource.level != 1 || options.sessions != 2) faults++;
}

int main(int argc, char **argv) {
    (void)argv;
    by_value();
    of_a_book();
    of_an_office();
    if (argc == 2) {
        pelgaisti_book closed = PELGAISTI_EMPTY;
        uint64_t first, length;
        FORGET(length);
        if (pelgaisti_book_length(&closed, &first, &length) != PELGAISTI_OK) READ(length);
    }
    return faults > 0 ? 1 : 0;
}
