/* How seeds are drawn: by the system call getrandom, once for each opening that isn't given one, and without it otherwise. Built with
   bindings/c/seed.c besides the archive, which has a copy of its own, and linked with
   -Wl,--wrap=syscall,--wrap=getauxval,--wrap=clock_gettime. */
#define _GNU_SOURCE
#include "open.h"
#include "seed.h"
#include <stdarg.h>
#include <string.h>
#include <sys/auxv.h>
#include <sys/syscall.h>
#include <time.h>
#include <unistd.h>

static long passed, failed;
#define CHECK(condition) \
    do { \
        if (condition) { \
            passed++; \
        } else { \
            failed++; \
            printf("%s:%d: %s\n", __FILE__, __LINE__, #condition); \
        } \
    } while (0)

/* What each of the three does: whether getrandom gives bytes, how many it gives if not, and whether there is AT_RANDOM; and how often each
   was called. */
static int gives_bytes = 1, has_random = 1;
static long bytes_instead = -1, random_calls, vector_calls, clock_calls;

long __real_syscall(long number, ...);
long __wrap_syscall(long number, ...);
unsigned long __real_getauxval(unsigned long type);
unsigned long __wrap_getauxval(unsigned long type);
int __real_clock_gettime(clockid_t clock, struct timespec *now);
int __wrap_clock_gettime(clockid_t clock, struct timespec *now);

long __wrap_syscall(long number, ...) {
    va_list rest;
    va_start(rest, number);
    void *at = va_arg(rest, void *);
    size_t size = va_arg(rest, size_t);
    int flags = va_arg(rest, int);
    va_end(rest);
    random_calls++;
    CHECK(number == SYS_getrandom && size == 8 && flags == 1); /* GRND_NONBLOCK */
    if (gives_bytes) return __real_syscall(number, at, size, flags);
    if (bytes_instead > 0) memset(at, 0x55, (size_t)bytes_instead);
    return bytes_instead;
}

unsigned long __wrap_getauxval(unsigned long type) {
    vector_calls++;
    CHECK(type == AT_RANDOM);
    return has_random ? __real_getauxval(type) : 0;
}

int __wrap_clock_gettime(clockid_t clock, struct timespec *now) {
    clock_calls++;
    return __real_clock_gettime(clock, now);
}

static int is_below(const void *one, const void *two) {
    const uint64_t *a = (const uint64_t *)one, *b = (const uint64_t *)two;
    return *a < *b ? -1 : *a > *b;
}

/* Whether 1,000 seeds differ from each other, in their upper and in their lower halves mostly: by chance at most a few agree. */
static int do_differ(void) {
    static uint64_t seeds[1000], halves[1000];
    int same = 0;
    for (int k = 0; k < 1000; k++) seeds[k] = draw_seed();
    for (int shift = 0; shift <= 32; shift += 32) {
        for (int k = 0; k < 1000; k++) halves[k] = seeds[k] >> shift & UINT32_MAX;
        qsort(halves, 1000, sizeof *halves, is_below);
        for (int k = 1; k < 1000; k++) same += halves[k] == halves[k - 1];
    }
    return same < 4;
}

static void draws(void) {
    CHECK(do_differ() && random_calls == 1000 && vector_calls == 0 && clock_calls == 0);
    gives_bytes = 0; /* no such system call, too early after the start of the system, fewer bytes */
    for (bytes_instead = -1; bytes_instead < 8; bytes_instead += 4) {
        random_calls = vector_calls = clock_calls = 0;
        has_random = 1;
        CHECK(do_differ() && random_calls == 1000 && vector_calls == 1000 && clock_calls == 0);
        has_random = 0;
        CHECK(do_differ() && random_calls == 2000 && vector_calls == 2000 && clock_calls == 1000);
    }
}

/* How many seeds an opening of an office draws, which has to succeed; it is closed again. */
static long drawn_by(pelgaisti_session *session, pelgaisti_status status) {
    pelgaisti_book book = PELGAISTI_EMPTY;
    long drawn = random_calls;
    CHECK(status == PELGAISTI_OK);
    CHECK(pelgaisti_office_close(session, &book) == PELGAISTI_OK && pelgaisti_book_close(&book) == PELGAISTI_OK);
    CHECK(random_calls == drawn);
    random_calls = 0;
    return drawn;
}

/* Each opening draws one seed, and one that is given a seed draws none. Where getrandom fails an opening succeeds. */
static void openings(void) {
    pelgaisti_options drawn = PELGAISTI_OPTIONS(1), given = PELGAISTI_OPTIONS(1);
    pelgaisti_session session = PELGAISTI_EMPTY;
    pelgaisti_book book = PELGAISTI_EMPTY;
    given.seed = 7;
    for (gives_bytes = 0; gives_bytes < 2; gives_bytes++) {
        random_calls = 0;
        CHECK(pelgaisti_book_open(&book, &drawn) == PELGAISTI_OK && random_calls == 1 && pelgaisti_book_close(&book) == PELGAISTI_OK);
        CHECK(pelgaisti_book_open(&book, &given) == PELGAISTI_OK && random_calls == 1 && pelgaisti_book_close(&book) == PELGAISTI_OK);
        random_calls = 0;
        CHECK(drawn_by(&session, pelgaisti_office_open(&session, &drawn)) == 1);
        CHECK(drawn_by(&session, pelgaisti_office_open(&session, &given)) == 0);
    }
}

int main(void) {
    draws();
    openings();
    printf("%ld passed, %ld failed\n", passed, failed);
    return failed > 0;
}
