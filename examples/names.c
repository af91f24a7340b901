/*
 * Keys of bytes as resources. A resource is a path of numbers, so a key becomes two numbers by a hash of 64 bits: SipHash with a secret
 * that is drawn when the office is opened, so that who chooses keys can't choose many with one hash. Four threads count how often
 * each of some words was met, under a lock on the word's hash.
 *
 * Two keys with one hash share a lock. No grant is unsafe by that, but one waits for the other, a deadlock may come that the keys alone
 * wouldn't have, and one release gives both back. The program shows these by a hash that is none: all its keys collide.
 *
 *     ./embed && cc examples/names.c -Iout -Lout -lpelgaisti -lpthread -o names && ./names
 */
#include "pelgaisti.h"
#include <pthread.h>
#include <stdio.h>
#include <stdlib.h>
#include <string.h>

enum { THREADS = 4, ROUNDS = 500, WORDS = 5 };

static uint64_t secret[2];
static pelgaisti_session sessions[THREADS];
static const char *const words[WORDS] = {"", "lock", "a lock", "a longer name than eight bytes", "\xc3\xa9"};
static long met[WORDS]; /* plain memory, each under the lock of its word */

/* Unless all is well, prints what failed and ends the program. */
static void must(int is_well, const char *what) {
    if (!is_well) fprintf(stderr, "names: %s\n", what), exit(1);
}

static uint64_t turn(uint64_t it, int by) { return it << by | it >> (64 - by); }

static void mix(uint64_t v[4]) {
    v[0] += v[1], v[1] = turn(v[1], 13) ^ v[0], v[0] = turn(v[0], 32);
    v[2] += v[3], v[3] = turn(v[3], 16) ^ v[2];
    v[0] += v[3], v[3] = turn(v[3], 21) ^ v[0];
    v[2] += v[1], v[1] = turn(v[1], 17) ^ v[2], v[2] = turn(v[2], 32);
}

/* SipHash-2-4 of Aumasson and Bernstein. */
static uint64_t hash(const uint64_t key[2], const void *name, size_t length) {
    const unsigned char *at = (const unsigned char *)name;
    uint64_t v[4] = {key[0] ^ UINT64_C(0x736f6d6570736575), key[1] ^ UINT64_C(0x646f72616e646f6d),
                     key[0] ^ UINT64_C(0x6c7967656e657261), key[1] ^ UINT64_C(0x7465646279746573)};
    uint64_t word = 0;
    for (size_t k = 0; k < length; k++) {
        word |= (uint64_t)at[k] << 8 * (k % 8);
        if (k % 8 == 7) v[3] ^= word, mix(v), mix(v), v[0] ^= word, word = 0;
    }
    word |= (uint64_t)length << 56;
    v[3] ^= word, mix(v), mix(v), v[0] ^= word, v[2] ^= 0xff;
    for (int k = 0; k < 4; k++) mix(v);
    return v[0] ^ v[1] ^ v[2] ^ v[3];
}

/* The resource of a hash in a table of database 1. */
static pelgaisti_resource of_hash(uint32_t table, uint64_t hashed) {
    pelgaisti_resource record = {4, {1, 0, 0, 0}};
    record.numbers[1] = table;
    record.numbers[2] = (uint32_t)(hashed >> 32);
    record.numbers[3] = (uint32_t)hashed;
    return record;
}

/* The record of a key in a table. Keys that the engine takes for equal have to be the same bytes here. */
static pelgaisti_resource record_of(uint32_t table, const void *name, size_t length) {
    return of_hash(table, hash(secret, name, length));
}

/* Performs a call. Returns the kind of its reply. */
static uint32_t ask(pelgaisti_session *session, uint32_t op, const pelgaisti_resource *on) {
    pelgaisti_call call = {op, 0, {0, {0}}};
    pelgaisti_answer answer;
    if (on != NULL) call.resource = *on;
    must(pelgaisti_session_perform(session, &call, PELGAISTI_ALL_TURNS, &answer) == PELGAISTI_OK, pelgaisti_op_name(op));
    return answer.reply.kind;
}

/* Locks a record in X with its ancestors, as far as it is granted. Returns the kind of the last reply. */
static uint32_t lock(pelgaisti_session *session, const pelgaisti_resource *record) {
    const pelgaisti_program path = {PELGAISTI_NOTHING, 0, PELGAISTI_IX, {PELGAISTI_LOCK, PELGAISTI_X, *record}};
    pelgaisti_program_answer answer;
    must(pelgaisti_session_run(session, &path, PELGAISTI_ALL_TURNS, &answer) == PELGAISTI_OK && !answer.starved, "lock");
    return answer.stop ? answer.stop : PELGAISTI_GRANTED;
}

/* Meets words in an order of its own, each in a transaction. */
static void *count_words(void *argument) {
    pelgaisti_session *own = (pelgaisti_session *)argument;
    const size_t number = (size_t)(own - sessions);
    for (size_t k = 0; k < ROUNDS; k++) {
        const size_t word = (k * (number + 1) + number) % WORDS;
        const pelgaisti_resource record = record_of(7, words[word], strlen(words[word]));
        pelgaisti_lock_answer answer;
        must(ask(own, PELGAISTI_BEGIN, NULL) == PELGAISTI_BEGAN, "begin");
        must(pelgaisti_session_lock(own, &record, PELGAISTI_X, PELGAISTI_FOREVER, &answer) == PELGAISTI_OK, "a word"); /* one lock closes no cycle */
        met[word]++;
        must(ask(own, PELGAISTI_COMMIT, NULL) == PELGAISTI_COMMITTED, "commit");
    }
    return NULL;
}

/* Keys whose hashes are equal: 1, and in another group 2. */
static void keys_collide(void) {
    const pelgaisti_resource ab = of_hash(8, 1), ba = of_hash(8, 1), cd = of_hash(8, 2), dc = of_hash(8, 2), e = of_hash(8, 3);
    pelgaisti_session *one = &sessions[0], *two = &sessions[1];
    for (int k = 0; k < 2; k++) must(ask(&sessions[k], PELGAISTI_BEGIN, NULL) == PELGAISTI_BEGAN, "begin");
    must(lock(one, &ab) == PELGAISTI_GRANTED && lock(one, &ba) == PELGAISTI_GRANTED, "both keys");
    must(lock(two, &cd) == PELGAISTI_GRANTED && lock(two, &ba) == PELGAISTI_WAITING, "a wait for another key");
    /* both are given back by one release: an engine counts, or keeps its locks to the end */
    must(ask(one, PELGAISTI_RELEASE, &ab) == PELGAISTI_RELEASED && ask(one, PELGAISTI_RELEASE, &ba) == PELGAISTI_REFUSED, "one release");
    must(ask(two, PELGAISTI_POLL, NULL) == PELGAISTI_CLEAR, "what was given back");
    /* one waits for "dc", which nobody has by its name: so the two close a cycle, and the younger is its victim */
    must(lock(one, &e) == PELGAISTI_GRANTED && lock(one, &dc) == PELGAISTI_WAITING, "a second wait");
    must(lock(two, &e) == PELGAISTI_DEADLOCK && ask(two, PELGAISTI_ABORT, NULL) == PELGAISTI_ABORTED, "a deadlock");
    must(ask(one, PELGAISTI_POLL, NULL) == PELGAISTI_CLEAR && ask(one, PELGAISTI_COMMIT, NULL) == PELGAISTI_COMMITTED, "the end");
}

int main(void) {
    static const uint64_t known[2] = {UINT64_C(0x0706050403020100), UINT64_C(0x0f0e0d0c0b0a0908)};
    static const unsigned char bytes[15] = {0, 1, 2, 3, 4, 5, 6, 7, 8, 9, 10, 11, 12, 13, 14};
    pthread_t threads[THREADS];
    pelgaisti_book book = PELGAISTI_EMPTY;
    const pelgaisti_options options = PELGAISTI_OPTIONS(THREADS);
    long sum = 0;
    FILE *random = fopen("/dev/urandom", "rb");
    must(random != NULL && fread(secret, sizeof secret, 1, random) == 1 && fclose(random) == 0, "no secret is drawn");
    must(hash(known, bytes, sizeof bytes) == UINT64_C(0xa129ca6149be45e5), "the hash isn't that of its paper");
    must(pelgaisti_office_open(sessions, &options) == PELGAISTI_OK, "open");
    for (int k = 0; k < THREADS; k++) must(pthread_create(&threads[k], NULL, count_words, &sessions[k]) == 0, "a thread");
    for (int k = 0; k < THREADS; k++) pthread_join(threads[k], NULL);
    keys_collide();
    for (int k = 1; k < THREADS; k++) must(pelgaisti_session_hand_in(&sessions[k], &sessions[0]) == PELGAISTI_OK, "hand in");
    must(pelgaisti_office_close(&sessions[0], &book) == PELGAISTI_OK && pelgaisti_book_close(&book) == PELGAISTI_OK, "close");
    for (int k = 0; k < WORDS; k++) sum += met[k];
    printf("%ld words were counted, of %d that were met\n", sum, THREADS * ROUNDS);
    return sum != THREADS * ROUNDS;
}
