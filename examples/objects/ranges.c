// Eight threads share a table of byte ranges: each writes or reads ranges of one buffer under their locks, and looks whether anyone else
// is there. The table is a state machine of its own, served by flat combining (docs/OBJECTS.md). In the top folder of the checkout:
//
//     tools/new_object --c ranges      # makes crates/ranges, with ranges.h
//     (cd crates/ranges && rt lib)     # proves it, and the crates below, and builds out/libranges.a there
//     cc -std=c11 -O2 -pthread -Icrates/ranges examples/objects/ranges.c crates/ranges/out/libranges.a "$(dirname "$(rt doc)")/c/liblibc_c.a" -o ranges
//     ./ranges                         # 8 threads used 160000 ranges; 0 clashes; all bytes are free
#include "ranges.h"
#include <pthread.h>
#include <stdatomic.h>
#include <stdio.h>
#include <stdlib.h>

enum { THREADS = 8, RANGES = 20000, BYTES = 64, WRITER = 1000 };

static ranges_session sessions[THREADS];
static atomic_int users[BYTES]; // of each byte: its readers, and WRITER for a writer
static atomic_int clashes;

static uint32_t apply(ranges_session *session, uint32_t op, uint32_t writes, uint64_t from, uint64_t to) {
    const ranges_call call = {op, writes, from, to};
    ranges_reply reply;
    if (ranges_apply(session, &call, &reply) != ranges_ok) {
        fputs("no reply\n", stderr);
        exit(1);
    }
    return reply.kind;
}

static void use(uint32_t writes, uint64_t from, uint64_t to) {
    const int own = writes ? WRITER : 1;
    for (uint64_t at = from; at < to; at++) {
        const int others = atomic_fetch_add(&users[at], own);
        if (writes ? others != 0 : others >= WRITER) atomic_fetch_add(&clashes, 1);
    }
    for (uint64_t at = from; at < to; at++) atomic_fetch_sub(&users[at], own);
}

static void *work(void *given) {
    ranges_session *session = given;
    uint32_t seed = (uint32_t)(session - sessions) + 1;
    for (int made = 0; made < RANGES; made++) {
        seed = seed * 1664525 + 1013904223;
        const uint32_t writes = seed >> 31;
        const uint64_t from = (seed >> 16) % (BYTES - 8), to = from + 1 + (seed >> 8) % 8;
        while (apply(session, ranges_lock, writes, from, to) != ranges_locked) sched_yield();
        use(writes, from, to);
        apply(session, ranges_unlock, 0, from, to);
    }
    return NULL;
}

int main(void) {
    pthread_t threads[THREADS];
    if (ranges_open(sessions, THREADS) != ranges_ok) return 1;
    for (int k = 0; k < THREADS; k++)
        if (pthread_create(&threads[k], NULL, work, &sessions[k]) != 0) return 1;
    for (int k = 0; k < THREADS; k++) pthread_join(threads[k], NULL);
    const uint32_t left = apply(&sessions[0], ranges_ask, 1, 0, BYTES);
    for (int k = 0; k < THREADS; k++)
        if (ranges_close(&sessions[k]) != ranges_ok) return 1;
    printf("%d threads used %d ranges; %d clashes; all bytes are %s\n", THREADS, THREADS * RANGES, atomic_load(&clashes),
           left == ranges_free ? "free" : "held");
    return atomic_load(&clashes) != 0 || left != ranges_free;
}
