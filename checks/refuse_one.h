/* Refuses one allocation, or a few in a row, of a program that is linked with -Wl,--wrap=malloc,--wrap=realloc. */
#ifndef REFUSE_ONE_H
#define REFUSE_ONE_H

#include <stddef.h>

void *__real_malloc(size_t size);
void *__real_realloc(void *at, size_t size);
void *__wrap_malloc(size_t size);
void *__wrap_realloc(void *at, size_t size);

/* How many allocations are made before the one that is refused; -1: none is refused, as after a refusal. */
static long left = -1;

/* How many allocations in a row are refused then, and how many of them were. */
static long in_a_row = 1, refused_so_far;

/* How many allocations were refused. */
static long refusals;

/* The most bytes that one allocation has asked for, since it was set to 0. */
static size_t largest;

/* What runs ahead of each allocation, if anything. */
static void (*ahead)(void);

static int is_refused(size_t size) {
    if (size > largest) largest = size;
    if (ahead) ahead();
    if (left != 0) {
        left -= left > 0;
        return 0;
    }
    if (++refused_so_far >= in_a_row) {
        left = -1;
        refused_so_far = 0;
    }
    refusals++;
    return 1;
}

void *__wrap_malloc(size_t size) { return is_refused(size) ? NULL : __real_malloc(size); }

void *__wrap_realloc(void *at, size_t size) { return is_refused(size) ? NULL : __real_realloc(at, size); }

#endif
