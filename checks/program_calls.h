/* The calls of a program, as the header's comment says, by themselves. */
#ifndef PROGRAM_CALLS_H
#define PROGRAM_CALLS_H

#include "pelgaisti.h"
#include <string.h>

/* Whether a program goes on behind a reply of this kind. */
static int stops_at(uint32_t kind) { return kind == PELGAISTI_WAITING || kind == PELGAISTI_DEADLOCK || kind == PELGAISTI_REFUSED; }

/* Writes the calls of a program, in order. Returns how many there are. */
static size_t calls_of(const pelgaisti_program *program, pelgaisti_call calls[PELGAISTI_CALLS]) {
    static const uint32_t starts[7][2] = {{0, 0}, {PELGAISTI_BEGIN, 0}, {PELGAISTI_COMMIT, 0}, {PELGAISTI_ABORT, 0},
                                          {PELGAISTI_COMMIT, PELGAISTI_BEGIN}, {PELGAISTI_ABORT, PELGAISTI_BEGIN}, {PELGAISTI_RESTART, 0}};
    const pelgaisti_resource *on = &program->last.resource;
    size_t count = 0;
    memset(calls, 0, PELGAISTI_CALLS * sizeof *calls);
    for (size_t k = 0; k < 2; k++)
        if (starts[program->start][k]) calls[count++].op = starts[program->start][k];
    for (uint32_t level = program->level + 1; 0 < level && level < on->level; level++, count++) {
        calls[count].op = program->last.op == PELGAISTI_TRY ? PELGAISTI_TRY : PELGAISTI_LOCK;
        calls[count].mode = program->above;
        calls[count].resource.level = level;
        memcpy(calls[count].resource.numbers, on->numbers, level * sizeof(uint32_t));
    }
    if (program->last.op) calls[count++] = program->last;
    return count;
}

#endif
