/* The row of an entry, as `glm replay` writes it. */
#ifndef HISTORY_H
#define HISTORY_H

#include "pelgaisti.h"
#include <inttypes.h>
#include <stdio.h>

static void write_entry(FILE *to, uint64_t place, const pelgaisti_entry *e) {
    const pelgaisti_resource *r = &e->call.resource;
    fprintf(to, "%" PRIu64 ",%u,%s,", place, (unsigned)e->session, pelgaisti_op_name(e->call.op));
    for (uint32_t k = 0; k < r->level; k++) fprintf(to, k ? "/%u" : "%u", (unsigned)r->numbers[k]);
    int has_mode = e->call.op == PELGAISTI_LOCK || e->call.op == PELGAISTI_CONVERT || e->call.op == PELGAISTI_TRY;
    fprintf(to, ",%s,", has_mode ? pelgaisti_mode_name(e->call.mode) : "");
    fprintf(to, "%s,", pelgaisti_reply_name(e->reply.kind));
    switch (e->reply.kind) {
    case PELGAISTI_GRANTED: fprintf(to, "%s\n", pelgaisti_mode_name(e->reply.value)); break;
    case PELGAISTI_REFUSED: fprintf(to, "%s\n", pelgaisti_refusal_name(e->reply.value)); break;
    case PELGAISTI_BEGAN:
    case PELGAISTI_COMMITTED:
    case PELGAISTI_ABORTED:
    case PELGAISTI_RESTARTED: fprintf(to, "%" PRIu64 "\n", e->reply.value); break;
    default: fprintf(to, "\n");
    }
}

#endif
