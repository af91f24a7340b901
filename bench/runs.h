/* What the programs of bench/ that run many threads share. Define _GNU_SOURCE before any header. */
#ifndef RUNS_H
#define RUNS_H

#include <errno.h>
#include <signal.h>
#include <stdint.h>
#include <stdio.h>
#include <sys/prctl.h>
#include <sys/resource.h>
#include <sys/wait.h>
#include <time.h>
#include <unistd.h>

enum { STEPS = 32, BUCKETS = 1280, LINE = 128 };

static inline _Noreturn void fail(const char *what) {
    fprintf(stderr, "%s: %s\n", program_invocation_short_name, what);
    _exit(4);
}

static inline uint64_t now(clockid_t clock) {
    struct timespec t;
    clock_gettime(clock, &t);
    return (uint64_t)t.tv_sec * 1000000000u + (uint64_t)t.tv_nsec;
}

static inline uint32_t draw(uint32_t *random, uint32_t below) {
    *random = *random * 1664525u + 1013904223u;
    return (*random >> 8) % below;
}

/* How often something took so long, in STEPS buckets for each doubling; and the longest time. */
typedef struct times {
    uint64_t longest;
    uint32_t counts[BUCKETS];
} times;

static inline void add_time(times *to, uint64_t ns) {
    unsigned shift = ns < 2 * STEPS ? 0 : 58 - (unsigned)__builtin_clzll(ns), at = STEPS * shift + (unsigned)(ns >> shift);
    to->counts[at < BUCKETS ? at : BUCKETS - 1]++;
    if (ns > to->longest) to->longest = ns;
}

static inline void add_times(times *to, const times *more) {
    for (unsigned at = 0; at < BUCKETS; at++) to->counts[at] += more->counts[at];
    if (more->longest > to->longest) to->longest = more->longest;
}

/* The time that so many of 1,000 took at most. */
static inline double time_at(const times *of, unsigned part) {
    uint64_t all = 0, seen = 0;
    unsigned at = 0, shift;
    for (unsigned k = 0; k < BUCKETS; k++) all += of->counts[k];
    while ((seen += of->counts[at]) * 1000 < all * part) at++;
    shift = at < 2 * STEPS ? 0 : at / STEPS - 1;
    return (double)((uint64_t)(at - STEPS * shift) << shift);
}

/* The time, and what all threads have used up to it: ns of processors, voluntary and involuntary switches of context. */
typedef struct moment {
    double ns, processor, voluntary, involuntary;
} moment;

static inline moment moment_now(void) {
    struct rusage used;
    getrusage(RUSAGE_SELF, &used);
    return (moment){(double)now(CLOCK_MONOTONIC), (double)now(CLOCK_PROCESS_CPUTIME_ID), (double)used.ru_nvcsw, (double)used.ru_nivcsw};
}

static inline moment since(moment from, moment to) {
    return (moment){to.ns - from.ns, to.processor - from.processor, to.voluntary - from.voluntary, to.involuntary - from.involuntary};
}

/* Makes this process a session of its own, which the scheduler prefers to others if it lets this one ask. */
static inline void prefer(void) {
    FILE *group = setsid() > 0 ? fopen("/proc/self/autogroup", "w") : NULL;
    if (group) fputs("-20", group), fclose(group);
}

/* Starts three processes that are never idle, which end with this one if it doesn't end them. No other thread runs yet. */
static pid_t busy[3];

static inline void start_busy(void) {
    pid_t parent = getpid();
    for (unsigned k = 0; k < 3; k++) {
        if ((busy[k] = fork())) continue;
        prctl(PR_SET_PDEATHSIG, SIGKILL);
        while (getppid() == parent) continue;
        _exit(0);
    }
}

static inline void end_busy(void) {
    for (unsigned k = 0; k < 3; k++)
        if (busy[k] > 0 && !kill(busy[k], SIGKILL)) waitpid(busy[k], NULL, 0);
}

#endif
