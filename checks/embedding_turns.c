/* While one session makes a pass, which allocates, another makes a whole call or a program in so many turns, which are counted by the yields
   between them. It doesn't sleep. The call is pending after the last one, and its answer is there after the pass. And a thread that has tried
   in vain follows. Usage: embedding_turns [turns|follows [SECONDS]]: both, or one, which ends after so many seconds (60). Link with -Wl,--wrap=malloc,--wrap=sched_yield. */
#include "open.h"
#include <string.h>
#include <unistd.h>

static long passed, failed, yields;
static void (*meanwhile)(void);
static pelgaisti_session sessions[3];
static pelgaisti_answer answer;
static pelgaisti_program_answer made;
static pelgaisti_reply replies[PELGAISTI_CALLS];
static const pelgaisti_program program = {PELGAISTI_BEGINS, 0, 0, {PELGAISTI_POLL, 0, {0, {0}}}};
static const pelgaisti_call begin = {PELGAISTI_BEGIN, 0, {0, {0}}}, poll = {PELGAISTI_POLL, 0, {0, {0}}};

#define CHECK(condition) \
    do { \
        if (condition) { \
            passed++; \
        } else { \
            failed++; \
            printf("%s:%d: %s\n", __FILE__, __LINE__, #condition); \
        } \
    } while (0)

void *__real_malloc(size_t size);
void *__wrap_malloc(size_t size);
int __real_sched_yield(void);
int __wrap_sched_yield(void);

void *__wrap_malloc(size_t size) {
    void (*now)(void) = meanwhile;
    meanwhile = NULL;
    if (now) now();
    return __real_malloc(size);
}

int __wrap_sched_yield(void) {
    yields++;
    return __real_sched_yield();
}

/* Calls of so many turns, and how often the thread yields between them: after each 64th turn, if another follows. In the first turn the call
   is tried at once. Then it is published, which takes no turn, and in the others the session looks for the answer. With NULL for the call it
   looks in each of them. */
static const struct { uint64_t turns; long yields; } calls[] = {
    {0, 0}, {1, 0}, {2, 0}, {3, 0}, {16, 0}, {33, 0}, {63, 0}, {64, 0}, {65, 1}, {127, 1}, {128, 1}};
static uint64_t turns;
static long wanted;

static void call_in_turns(void) {
    yields = 0;
    CHECK(pelgaisti_session_perform(&sessions[1], &begin, turns, &answer) == PELGAISTI_NOT_SERVED);
    CHECK(yields == wanted && answer.place == 99);
}

static void look_in_turns(void) {
    yields = 0;
    CHECK(pelgaisti_session_perform(&sessions[1], NULL, turns, &answer) == PELGAISTI_NOT_SERVED);
    CHECK(yields == wanted && answer.place == 99);
}

static void run_in_turns(void) {
    yields = 0;
    CHECK(pelgaisti_session_run(&sessions[1], &program, turns, &made) == PELGAISTI_NOT_SERVED);
    CHECK(yields == wanted && made.place == 99);
}

static void look_for_program_in_turns(void) {
    yields = 0;
    CHECK(pelgaisti_session_run(&sessions[1], NULL, turns, &made) == PELGAISTI_NOT_SERVED);
    CHECK(yields == wanted && made.place == 99);
}

/* The program of session 2, which is pending after the pass, is answered. */
static void finish_program(void) {
    CHECK(pelgaisti_session_run(&sessions[1], &program, 9, &made) == PELGAISTI_PENDING);
    CHECK(pelgaisti_session_run(&sessions[1], NULL, 0, &made) == PELGAISTI_NOT_SERVED && made.place == 99);
    CHECK(pelgaisti_session_run(&sessions[1], NULL, 1, &made) == PELGAISTI_OK && made.place == 1 && made.served == 2 && made.stop == 0);
    CHECK(made.values[0] > 0 && pelgaisti_program_replies(&program, &made, replies) == 2);
    CHECK(replies[0].kind == PELGAISTI_BEGAN && replies[0].value == made.values[0] && replies[1].kind == PELGAISTI_CLEAR);
    CHECK(pelgaisti_session_run(&sessions[1], NULL, 0, &made) == PELGAISTI_NOTHING_PENDING);
}

/* The call of session 2, which is pending after the pass, is answered. */
static void finish_call(void) {
    CHECK(pelgaisti_session_perform(&sessions[1], &poll, 9, &answer) == PELGAISTI_PENDING);
    CHECK(pelgaisti_session_perform(&sessions[1], NULL, 0, &answer) == PELGAISTI_NOT_SERVED && answer.place == 99);
    CHECK(pelgaisti_session_perform(&sessions[1], NULL, 1, &answer) == PELGAISTI_OK && answer.reply.kind == PELGAISTI_BEGAN);
    CHECK(pelgaisti_session_perform(&sessions[1], NULL, 0, &answer) == PELGAISTI_NOTHING_PENDING);
    CHECK(pelgaisti_session_perform(&sessions[1], &poll, 1, &answer) == PELGAISTI_OK && answer.place == 2);
}

static void close_all(void) {
    pelgaisti_book book = PELGAISTI_EMPTY;
    for (int k = 1; k < 3; k++) CHECK(pelgaisti_session_hand_in(&sessions[k], &sessions[0]) == PELGAISTI_OK);
    CHECK(pelgaisti_office_close(&sessions[0], &book) == PELGAISTI_OK && pelgaisti_book_close(&book) == PELGAISTI_OK);
}

/* In a new office session 1 makes a pass, in which `work` runs. The call or program of session 2 is pending after it. */
static void in_a_pass(void (*work)(void), int is_published, int is_program) {
    answer.place = 99;
    made.place = 99;
    CHECK(open_sessions(sessions, 3) == PELGAISTI_OK);
    if (is_published) CHECK((is_program ? pelgaisti_session_run(&sessions[1], &program, 0, &made)
                                        : pelgaisti_session_perform(&sessions[1], &begin, 0, &answer)) == PELGAISTI_NOT_SERVED);
    CHECK(pelgaisti_session_publish(&sessions[0], &begin, NULL) == PELGAISTI_OK);
    meanwhile = work;
    CHECK(pelgaisti_session_serve(&sessions[0], NULL) == PELGAISTI_OK && !meanwhile);
    if (is_program) finish_program();
    else finish_call();
    CHECK(pelgaisti_session_collect(&sessions[0], &answer) == PELGAISTI_OK);
    close_all();
}

static uint32_t woken;

static void note_woken(void *engine, uint32_t session) { *(uint32_t *)engine = session; }

/* So many times session 2 makes a call in so many turns beside a look. Session 1 serves it after that. */
static void call_in_vain(int times, uint64_t each, long yields_between) {
    pelgaisti_book view = PELGAISTI_EMPTY;
    for (; times > 0; times--) {
        look(&sessions[0], &view);
        yields = 0;
        CHECK(pelgaisti_session_perform(&sessions[1], &poll, each, &answer) == PELGAISTI_NOT_SERVED && yields == yields_between);
        end_look(&sessions[0], &view);
        CHECK(pelgaisti_session_serve(&sessions[0], NULL) == PELGAISTI_OK && pelgaisti_session_collect(&sessions[1], &answer) == PELGAISTI_OK);
    }
}

static uint64_t served_so_far(void) {
    pelgaisti_pass_counts passes = {0, 0, 0};
    pelgaisti_book view = PELGAISTI_EMPTY;
    look(&sessions[0], &view);
    CHECK(pelgaisti_book_passes(&view, &passes) == PELGAISTI_OK);
    end_look(&sessions[0], &view);
    return passes.served;
}

/* Session 2 makes a call, or with NULL the program, while nobody has the lock table. Whether it published that. */
static int follows(const pelgaisti_call *call, uint64_t most) {
    const uint64_t before = served_so_far();
    CHECK((call ? pelgaisti_session_perform(&sessions[1], call, most, &answer)
                : pelgaisti_session_run(&sessions[1], &program, most, &made)) == PELGAISTI_OK);
    return served_so_far() > before;
}

/* After eight tries in vain a call of more than eight turns is published without a try. If nobody serves it, the ninth turn does, and wakes;
   the next call is tried at once. Who follows makes no more turns than others. */
static void threads_follow(void) {
    static const pelgaisti_call commit = {PELGAISTI_COMMIT, 0, {0, {0}}}, lock = {PELGAISTI_LOCK, PELGAISTI_X, {1, {7}}};
    static const pelgaisti_waker waker = {note_woken, &woken};
    CHECK(open_office_with(sessions, 3, UINT64_MAX, &waker, 0) == PELGAISTI_OK && !follows(&begin, 9) && !follows(&lock, 9));
    CHECK(pelgaisti_session_perform(&sessions[2], &begin, 9, &answer) == PELGAISTI_OK);
    CHECK(pelgaisti_session_perform(&sessions[2], &lock, 9, &answer) == PELGAISTI_OK && answer.reply.kind == PELGAISTI_WAITING);
    call_in_vain(12, 0, 0);
    CHECK(!follows(&poll, 9));
    call_in_vain(8, 1, 0);
    CHECK(!follows(&poll, 8));
    call_in_vain(1, 1, 0);
    CHECK(woken == 0 && follows(&commit, 9) && answer.reply.kind == PELGAISTI_COMMITTED && woken == 3 && !follows(&poll, 9));
    call_in_vain(24, 1, 0);
    CHECK(follows(NULL, 9) && made.served == 2);
    for (size_t k = 0; k < sizeof calls / sizeof *calls; k++) call_in_vain(24, 1, 0), call_in_vain(1, calls[k].turns, calls[k].yields);
    close_all();
}

static void turns_are_made(void) {
    for (size_t k = 0; k < sizeof calls / sizeof *calls; k++) {
        turns = calls[k].turns;
        wanted = calls[k].yields;
        in_a_pass(call_in_turns, 0, 0);
        in_a_pass(run_in_turns, 0, 1);
        in_a_pass(look_in_turns, 1, 0);
        in_a_pass(look_for_program_in_turns, 1, 1);
    }
}

int main(int count, char **words) {
    alarm(count > 2 ? (unsigned)atoi(words[2]) : 60);
    if (count == 1 || strcmp(words[1], "follows") == 0) threads_follow();
    if (count == 1 || strcmp(words[1], "turns") == 0) turns_are_made();
    printf("%ld passed, %ld failed\n", passed, failed);
    return failed != 0 || passed == 0;
}
