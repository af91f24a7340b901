/* Names of databases that have hashes alike in a lock table whose seed is known. */
#ifndef CHOSEN_H
#define CHOSEN_H

#include <stddef.h>
#include <stdint.h>

/* The 128 bits of a product, the upper half on the lower one by xor. */
static uint64_t folded(uint64_t one, uint64_t two) {
    unsigned __int128 product = (unsigned __int128)one * two;
    return (uint64_t)product ^ (uint64_t)(product >> 64);
}

/* The state of the kit's hasher behind one more word. */
static uint64_t fed(uint64_t state, uint64_t word) { return folded(state ^ word, UINT64_C(0x9e3779b97f4a7c15) ^ 16); }

/* The hash of a database's name behind the seed, as an index of the kit's maps starts with it. */
static uint32_t hash_of(uint64_t seed, uint32_t name) {
    uint64_t hash = fed(fed(UINT64_C(0x243f6a8885a308d3), seed), name);
    return (uint32_t)(hash ^ hash >> 32);
}

/* Writes so many names whose hashes behind the seed agree in their lowest `bits` bits. */
static void choose_names(uint32_t *names, size_t count, uint64_t seed, unsigned bits) {
    size_t found = 0;
    for (uint32_t name = 0; found < count; name++)
        if ((hash_of(seed, name) & ((UINT32_C(1) << bits) - 1)) == 0) names[found++] = name;
}

#endif
