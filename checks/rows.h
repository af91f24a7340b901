/* Reads the rows of a trace. */
#ifndef ROWS_H
#define ROWS_H

#include "must.h"
#include "names.h"
#include "pelgaisti.h"

static uint32_t number_of(const name *list, size_t length, const char *text) {
    const name *found = named(list, length, text);
    MUST(found);
    return found->number;
}

/* Reads a row, which is changed, and returns its session. */
static uint32_t read_row(char *line, pelgaisti_call *call) {
    char *field[4], *at = line;
    line[strcspn(line, "\r\n")] = 0;
    for (int k = 0; k < 4; k++) {
        field[k] = at;
        at = at ? strchr(at, ',') : NULL;
        if (at) *at++ = 0;
        else MUST(k == 3);
    }
    memset(call, 0, sizeof *call);
    call->op = number_of(ops, COUNT(ops), field[1]);
    for (char *digit = field[2]; *digit; digit += *digit == '/')
        call->resource.numbers[call->resource.level++] = (uint32_t)strtoul(digit, &digit, 10);
    if (*field[3]) call->mode = number_of(modes, COUNT(modes), field[3]);
    return (uint32_t)strtoul(field[0], NULL, 10);
}

#endif
