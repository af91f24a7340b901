/* Seeds for the hash of resources, which nobody knows who chooses their names. Nothing here is proved. */
#define _GNU_SOURCE
#include "seed.h"
#include <stddef.h>
#include <string.h>
#include <sys/auxv.h>
#include <sys/syscall.h>
#include <time.h>
#include <unistd.h>

/* The flag of getrandom by which it fails in place of waiting until the system has collected enough randomness. */
enum { WITHOUT_WAITING = 1 };

/* Spreads each bit of a number over all of it: the last steps of SplitMix64. */
static uint64_t spread(uint64_t number) {
    number = (number ^ number >> 30) * UINT64_C(0xbf58476d1ce4e5b9);
    number = (number ^ number >> 27) * UINT64_C(0x94d049bb133111eb);
    return number ^ number >> 31;
}

/* What differs from process to process, if there is no getrandom: the 16 random bytes that the kernel gives each program, joined to 8, so
   that a seed doesn't tell them; without them the clock, and the address of a variable. */
static uint64_t of_the_process(void) {
    const char *random = (const char *)(uintptr_t)getauxval(AT_RANDOM);
    struct timespec now = {0, 0};
    uint64_t halves[2];
    if (random) {
        memcpy(halves, random, sizeof halves);
        return spread(halves[0]) ^ halves[1];
    }
    clock_gettime(CLOCK_MONOTONIC, &now);
    return spread((uint64_t)now.tv_nsec) ^ spread((uint64_t)now.tv_sec) ^ (uint64_t)(uintptr_t)&now;
}

/* Draws a seed: 8 bytes of getrandom. If that isn't there or fails, a number of the process, and how many were drawn before it. It makes
   the system call, since the function getrandom is a cancellation point, and not in every C library. */
uint64_t draw_seed(void) {
    static uint64_t drawn;
    uint64_t seed;
    if (syscall(SYS_getrandom, &seed, sizeof seed, WITHOUT_WAITING) == (long)sizeof seed) return seed;
    return spread(of_the_process() + spread(__atomic_add_fetch(&drawn, 1, __ATOMIC_RELAXED)));
}
