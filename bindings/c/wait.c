/* What Rattle can't do for C: to put threads to sleep and wake them, to call a function of the engine's, to count
   openings for the whole process. Nothing here is proved. */
#define _GNU_SOURCE
#include "wait.h"
#include <errno.h>
#include <limits.h>
#include <linux/futex.h>
#include <stddef.h>
#include <sys/syscall.h>
#include <unistd.h>

/* For each session how many wake-ups were made, and how many threads sleep there, in a cache line of its own. They outlive sessions and
   offices, since a wake-up may come when the thread has left its call. Two sessions share one only if as many sessions as there are lines
   were opened between them; then each is woken for the other, too, and looks for nothing. */
enum { LINES = 4 * PELGAISTI_MAX_SESSIONS, LINE = 64 };
static struct line {
    _Alignas(LINE) uint32_t wake_ups;
    uint32_t sleeping;
} lines[LINES];

static struct line *line_of(uint64_t mark, uint32_t session) {
    return &lines[(mark + session) % LINES];
}

/* A mark that no other office of the process has, also none of another copy of the library: an address of this copy, and for how many
   sessions it has drawn before, so that each session of this copy has a number of its own behind its mark. An address has 47 bits, and the
   array above 2^18 bytes. So the numbers of the first 2^35 sessions lie between those of the array's begin and its end, where no other copy
   has its array. */
uint64_t draw_mark(size_t sessions) {
    static uint64_t drawn;
    const uint64_t most = sessions > 0 && sessions <= PELGAISTI_MAX_SESSIONS ? sessions : 1;
    return ((uint64_t)(uintptr_t)lines << 17) + __atomic_fetch_add(&drawn, most, __ATOMIC_RELAXED);
}

/* How many wake-ups were made for the session of the office with this mark. Its thread asks before it looks whether it has to sleep. */
uint32_t wake_ups_so_far(uint64_t mark, uint32_t session) {
    return __atomic_load_n(&line_of(mark, session)->wake_ups, __ATOMIC_SEQ_CST);
}

/* Sleeps until another wake-up is made for the session than those seen so far: returns 1. With a time `until`, which is one of
   CLOCK_MONOTONIC, no longer than that: returns 0. A signal doesn't end the sleep, and the time is a moment, so that it doesn't begin anew.
   It makes the system call by its number, as no function of the C library has it; it is no cancellation point. errno stays. */
int sleep_since(uint64_t mark, uint32_t session, uint32_t seen, const struct timespec *until) {
    struct line *at = line_of(mark, session);
    const int kept = errno;
    int is_over = 0;
    __atomic_add_fetch(&at->sleeping, 1, __ATOMIC_SEQ_CST);
    while (!is_over && __atomic_load_n(&at->wake_ups, __ATOMIC_SEQ_CST) == seen)
        is_over = syscall(SYS_futex, &at->wake_ups, FUTEX_WAIT_BITSET_PRIVATE, seen, until, NULL, FUTEX_BITSET_MATCH_ANY) != 0 &&
                  errno == ETIMEDOUT;
    __atomic_sub_fetch(&at->sleeping, 1, __ATOMIC_SEQ_CST);
    errno = kept;
    return !is_over;
}

/* Makes a wake-up for the session, and wakes all threads that sleep there. Whoever is about to sleep counts itself first, and then the
   kernel looks at the wake-ups: so either it is counted here, or it sees this wake-up and doesn't sleep. */
void wake_thread(uint64_t mark, uint32_t session) {
    struct line *at = line_of(mark, session);
    __atomic_add_fetch(&at->wake_ups, 1, __ATOMIC_SEQ_CST);
    if (__atomic_load_n(&at->sleeping, __ATOMIC_SEQ_CST) > 0)
        syscall(SYS_futex, &at->wake_ups, FUTEX_WAKE_PRIVATE, INT_MAX, NULL, NULL, 0);
}

/* Wakes the threads of the sessions of the list, of the office with this mark: those that sleep in the library, and by the office's waker,
   if the engine has given one, those that sleep elsewhere. An exception that a waker in C++ throws ends the program here, in place of a
   call that leaves the others asleep and loses its answer: unwinding finds no caller of this function. Nor does a debugger, from a waker. */
void wake_each(const pelgaisti_waker *waker, uint64_t mark, const uint32_t *list, size_t count) {
    size_t k;
#ifdef __GCC_HAVE_DWARF2_CFI_ASM
    __asm__ volatile(".cfi_undefined rip");
#endif
    for (k = 0; k < count; k++) {
        wake_thread(mark, list[k]);
        if (waker->wake) waker->wake(waker->engine, list[k]);
    }
}
