/* Measures what a lock table takes.
       memory new SESSIONS TIMES    makes a new book of so many sessions, and a new office, so many times. Prints the bytes of the
                                    C library's heap that each takes, and the nanoseconds to make it, and to hand in all sessions
                                    and close the office: the middle ones of the times
       memory held LOCKS            has 64 sessions of one book, which keeps no history, lock so many databases each. Prints the bytes
                                    of the heap for a lock and its resource; those that stay when all have committed; and those that
                                    stay behind a shrink
       memory calls KEPT CALLS      has 64 sessions of one book begin, take three locks and commit, over so many calls, and prints
                                    nothing: bench/peak.c tells its peak memory. KEPT is the greatest number of entries that the
                                    book keeps of its history, or `all`, or `taken`: the history is taken every 4,000 calls
       ./embed && cc -O2 bench/memory.c -Iout -Lout -lpelgaisti -o memory */
#define _DEFAULT_SOURCE
#include "pelgaisti.h"
#include <malloc.h>
#include <stdio.h>
#include <stdlib.h>
#include <string.h>
#include <time.h>

enum { MOST_TIMES = 1000, SESSIONS = 64, PIECE = 4000 };

static pelgaisti_session sessions[PELGAISTI_MAX_SESSIONS];
static uint64_t took[3][MOST_TIMES];

static uint64_t now(void) {
    struct timespec t;
    clock_gettime(CLOCK_MONOTONIC, &t);
    return (uint64_t)t.tv_sec * 1000000000u + (uint64_t)t.tv_nsec;
}

static size_t heap(void) {
    struct mallinfo2 used = mallinfo2();
    return used.uordblks + used.hblkhd;
}

static int before(const void *a, const void *b) {
    uint64_t x = *(const uint64_t *)a, y = *(const uint64_t *)b;
    return (x > y) - (x < y);
}

static void make_new(uint32_t count, int times) {
    const pelgaisti_options options = PELGAISTI_OPTIONS(count);
    size_t book_bytes = 0, office_bytes = 0;
    for (int k = 0; k < times; k++) {
        pelgaisti_book book = PELGAISTI_EMPTY;
        size_t bytes = heap();
        uint64_t from = now();
        if (pelgaisti_book_open(&book, &options) != PELGAISTI_OK) exit(4);
        took[0][k] = now() - from;
        book_bytes = heap() - bytes;
        if (pelgaisti_book_close(&book) != PELGAISTI_OK) exit(6);
        bytes = heap();
        from = now();
        if (pelgaisti_office_open(sessions, &options) != PELGAISTI_OK) exit(4);
        took[1][k] = now() - from;
        office_bytes = heap() - bytes;
        from = now();
        for (uint32_t other = count - 1; other > 0; other--) pelgaisti_session_hand_in(&sessions[other], &sessions[0]);
        if (pelgaisti_office_close(&sessions[0], &book) != PELGAISTI_OK) exit(6);
        took[2][k] = now() - from;
        if (pelgaisti_book_close(&book) != PELGAISTI_OK) exit(6);
    }
    for (int k = 0; k < 3; k++) qsort(took[k], (size_t)times, sizeof **took, before);
    printf("book_bytes=%zu office_bytes=%zu book_ns=%llu office_ns=%llu close_ns=%llu\n", book_bytes, office_bytes,
           (unsigned long long)took[0][times / 2], (unsigned long long)took[1][times / 2], (unsigned long long)took[2][times / 2]);
}

/* The bytes of the heap beyond so many, for each of so many locks. */
static double each(size_t bytes, double locks) { return ((double)heap() - (double)bytes) / locks; }

static void hold(uint32_t locks) {
    pelgaisti_call begin = {PELGAISTI_BEGIN, 0, {0, {0}}}, commit = {PELGAISTI_COMMIT, 0, {0, {0}}};
    pelgaisti_call lock = {PELGAISTI_LOCK, PELGAISTI_X, {1, {0}}};
    pelgaisti_options options = PELGAISTI_OPTIONS(SESSIONS);
    pelgaisti_book book = PELGAISTI_EMPTY;
    pelgaisti_reply reply;
    options.keep = 0;
    if (pelgaisti_book_open(&book, &options) != PELGAISTI_OK) exit(4);
    size_t bytes = heap();
    for (uint32_t session = 1; session <= SESSIONS; session++) {
        if (pelgaisti_book_serve(&book, session, &begin, &reply) != PELGAISTI_OK) exit(5);
        for (uint32_t k = 0; k < locks; k++) {
            lock.resource.numbers[0] = session * locks + k;
            if (pelgaisti_book_serve(&book, session, &lock, &reply) != PELGAISTI_OK || reply.kind != PELGAISTI_GRANTED) exit(5);
        }
    }
    const double all = (double)SESSIONS * (double)locks;
    printf("held=%.0f", each(bytes, all));
    for (uint32_t session = 1; session <= SESSIONS; session++)
        if (pelgaisti_book_serve(&book, session, &commit, &reply) != PELGAISTI_OK || reply.value != locks) exit(5);
    printf(" idle=%.0f", each(bytes, all));
    if (pelgaisti_book_shrink(&book) != PELGAISTI_OK) exit(5);
    printf(" shrunk=%.0f\n", each(bytes, all));
    if (pelgaisti_book_close(&book) != PELGAISTI_OK) exit(6);
}

static void take(pelgaisti_book *book) {
    static pelgaisti_entry piece[PIECE];
    uint64_t first;
    size_t count;
    do {
        if (pelgaisti_book_take_history(book, &first, piece, PIECE, &count) != PELGAISTI_OK) exit(5);
    } while (count == PIECE);
}

/* The steps of all sessions' transactions side by side: begin, a database, a file and a page of the session's own, commit. */
static void make_calls(const char *kept, uint64_t calls) {
    static const uint32_t ops[] = {PELGAISTI_BEGIN, PELGAISTI_LOCK, PELGAISTI_LOCK, PELGAISTI_LOCK, PELGAISTI_COMMIT};
    static const uint32_t modes[] = {0, PELGAISTI_IX, PELGAISTI_IX, PELGAISTI_X, 0};
    pelgaisti_options options = PELGAISTI_OPTIONS(SESSIONS);
    pelgaisti_book book = PELGAISTI_EMPTY;
    pelgaisti_reply reply;
    int is_taken = !strcmp(kept, "taken");
    options.keep = is_taken || !strcmp(kept, "all") ? UINT64_MAX : strtoull(kept, NULL, 10);
    if (pelgaisti_book_open(&book, &options) != PELGAISTI_OK) exit(4);
    for (uint64_t made = 0; made < calls; made++) {
        uint32_t session = 1 + (uint32_t)(made % SESSIONS), step = (uint32_t)(made / SESSIONS % 5);
        pelgaisti_call call = {0, 0, {0, {0}}};
        call.op = ops[step];
        call.mode = modes[step];
        if (call.op == PELGAISTI_LOCK) {
            call.resource.level = step;
            call.resource.numbers[0] = session;
            for (uint32_t level = 1; level < step; level++) call.resource.numbers[level] = level;
        }
        if (pelgaisti_book_serve(&book, session, &call, &reply) != PELGAISTI_OK || reply.kind == PELGAISTI_REFUSED) exit(5);
        if (is_taken && made % PIECE == PIECE - 1) take(&book);
    }
    if (pelgaisti_book_close(&book) != PELGAISTI_OK) exit(6);
}

int main(int count, char **words) {
    if (count == 3 && !strcmp(words[1], "held") && atoi(words[2]) >= 1 && atoi(words[2]) <= PELGAISTI_MAX_LOCKS) {
        hold((uint32_t)atoi(words[2]));
        return 0;
    }
    if (count != 4) return 2;
    if (!strcmp(words[1], "calls")) {
        make_calls(words[2], strtoull(words[3], NULL, 10));
        return 0;
    }
    if (strcmp(words[1], "new") || atoi(words[2]) < 1 || atoi(words[2]) > PELGAISTI_MAX_SESSIONS) return 2;
    if (atoi(words[3]) < 1 || atoi(words[3]) > MOST_TIMES) return 2;
    make_new((uint32_t)atoi(words[2]), atoi(words[3]));
    return 0;
}
