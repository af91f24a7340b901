/* The replies to the calls of a program, which follow from these and from the values that the answer has. Nothing here is proved. */
#include "pelgaisti.h"

/* MemorySanitizer, which can't see what the archive writes. A program that is built with it has this function. */
__attribute__((weak)) void __msan_unpoison(const volatile void *at, size_t size);

/* The op of the call at this index: what `start` says comes first, then a lock of each ancestor that isn't locked yet, and the last call. */
static uint32_t op_of(const pelgaisti_program *program, uint32_t index) {
    static const uint8_t starts[7][2] = {{0, 0}, {PELGAISTI_BEGIN, 0}, {PELGAISTI_COMMIT, 0}, {PELGAISTI_ABORT, 0},
                                         {PELGAISTI_COMMIT, PELGAISTI_BEGIN}, {PELGAISTI_ABORT, PELGAISTI_BEGIN}, {PELGAISTI_RESTART, 0}};
    const uint8_t *start = starts[program->start < 7 ? program->start : 0];
    const uint32_t begins = (start[0] != 0) + (start[1] != 0), op = program->last.op;
    const uint32_t level = op == PELGAISTI_POLL || op == PELGAISTI_WITHDRAW ? 0 : program->last.resource.level;
    if (index < begins) return start[index];
    return program->level + 1 + index - begins < level ? PELGAISTI_LOCK : op;
}

/* The kind of the reply to a call at which the program goes on, or ends. */
static uint32_t kind_of(uint32_t op) {
    static const uint8_t kinds[PELGAISTI_OP_NUMBERS] = {0, PELGAISTI_BEGAN, PELGAISTI_GRANTED, PELGAISTI_GRANTED, PELGAISTI_CLEAR,
        PELGAISTI_RELEASED, PELGAISTI_COMMITTED, PELGAISTI_ABORTED, PELGAISTI_GRANTED, PELGAISTI_WITHDRAWN, PELGAISTI_RESTARTED};
    return op < PELGAISTI_OP_NUMBERS ? kinds[op] : 0;
}

uint32_t pelgaisti_program_replies(const pelgaisti_program *program, const pelgaisti_program_answer *answer, pelgaisti_reply *replies) {
    const uint32_t count = answer->served < PELGAISTI_CALLS ? answer->served : PELGAISTI_CALLS;
    uint32_t k;
    for (k = 0; k < count; k++) {
        replies[k].kind = k + 1 == count && answer->stop ? answer->stop : kind_of(op_of(program, k));
        replies[k].value = answer->values[k];
    }
    if (__msan_unpoison) __msan_unpoison(replies, count * sizeof *replies);
    return count;
}
