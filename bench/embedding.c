/* Times the lock table through pelgaisti.h: embedding FILE TIMES serves the rows of a trace on a new book so many times, and in turn on
   a new book with a mutex round each call. Prints the nanoseconds a call of the fastest time of each.
       ./embed && cc -O2 bench/embedding.c -Iout -Lout -lpelgaisti -lpthread -o embedding */
#define _DEFAULT_SOURCE
#include "pelgaisti.h"
#include <pthread.h>
#include <stdio.h>
#include <stdlib.h>
#include <string.h>
#include <time.h>

typedef struct row {
    uint32_t session;
    pelgaisti_call call;
} row;

static row *all;
static size_t rows;

static uint32_t number_of(const char *const *names, const uint32_t *numbers, const char *name) {
    for (size_t k = 0; names[k]; k++)
        if (!strcmp(names[k], name)) return numbers[k];
    exit(3);
}

static row read_row(char *line) {
    static const char *const ops[] = {"begin", "lock", "convert", "poll", "release", "commit", "abort", NULL};
    static const uint32_t op_numbers[] = {1, 2, 3, 4, 5, 6, 7};
    static const char *const modes[] = {"", "NL", "IS", "IX", "S", "SIX", "U", "X", NULL};
    static const uint32_t mode_numbers[] = {0, 0, 1, 3, 5, 7, 13, 15};
    char *field[4];
    row r;
    memset(&r, 0, sizeof r);
    line[strcspn(line, "\r\n")] = 0;
    for (int k = 0; k < 4; k++) {
        field[k] = line;
        line = strchr(line, ',');
        if (line) *line++ = 0;
        else if (k < 3) exit(3);
    }
    r.session = (uint32_t)strtoul(field[0], NULL, 10);
    if (r.session < 1 || r.session > PELGAISTI_MAX_SESSIONS) exit(3);
    r.call.op = number_of(ops, op_numbers, field[1]);
    for (char *digit = field[2]; *digit; digit += *digit == '/') {
        if (r.call.resource.level == PELGAISTI_LEVELS) exit(3);
        r.call.resource.numbers[r.call.resource.level++] = (uint32_t)strtoul(digit, &digit, 10);
    }
    r.call.mode = number_of(modes, mode_numbers, field[3]);
    return r;
}

static void read_rows(const char *name) {
    char line[256];
    size_t room = 1 << 20;
    FILE *file = fopen(name, "r");
    if (!file || !(all = malloc(room * sizeof *all))) exit(2);
    while (fgets(line, sizeof line, file)) {
        if (rows == room && !(all = realloc(all, (room *= 2) * sizeof *all))) exit(2);
        all[rows++] = read_row(line);
    }
    fclose(file);
}

static double now(void) {
    struct timespec t;
    clock_gettime(CLOCK_MONOTONIC, &t);
    return (double)t.tv_sec * 1e9 + (double)t.tv_nsec;
}

/* One turn on a new book, with this mutex round each call where there is one. */
static double serve_all(pthread_mutex_t *mutex) {
    pelgaisti_book book = PELGAISTI_EMPTY;
    pelgaisti_options options = PELGAISTI_OPTIONS(PELGAISTI_MAX_SESSIONS);
    options.keep = UINT64_MAX;
    pelgaisti_reply reply;
    if (pelgaisti_book_open(&book, &options) != PELGAISTI_OK) exit(4);
    double from = now();
    for (size_t k = 0; k < rows; k++) {
        if (mutex) pthread_mutex_lock(mutex);
        if (pelgaisti_book_serve(&book, all[k].session, &all[k].call, &reply) != PELGAISTI_OK) exit(5);
        if (mutex) pthread_mutex_unlock(mutex);
    }
    double taken = now() - from;
    if (pelgaisti_book_close(&book) != PELGAISTI_OK) exit(6);
    return taken;
}

static void keep_least(double *least, double taken) {
    if (taken < *least) *least = taken;
}

int main(int count, char **words) {
    pthread_mutex_t mutex = PTHREAD_MUTEX_INITIALIZER;
    double alone = 1e18, guarded = 1e18;
    if (count != 3) return 2;
    read_rows(words[1]);
    for (int turn = atoi(words[2]); turn > 0 && rows > 0; turn--) {
        keep_least(&alone, serve_all(NULL));
        keep_least(&guarded, serve_all(&mutex));
    }
    printf("%.1f ns a call of pelgaisti_book_serve\n", alone / (double)rows);
    printf("%.1f ns with a mutex round each\n", guarded / (double)rows);
    free(all);
    return 0;
}
