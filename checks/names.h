/* The names of calls, modes, replies and refusals in traces and histories, with the header's numbers. Written by hand, not by the
   library's functions for names, which the checks test. */
#ifndef NAMES_H
#define NAMES_H

#include "pelgaisti.h"
#include <string.h>

#define COUNT(list) (sizeof(list) / sizeof((list)[0]))

typedef struct name {
    const char *name;
    uint32_t number;
} name;

static const name ops[] = {{"begin", PELGAISTI_BEGIN},     {"lock", PELGAISTI_LOCK},     {"convert", PELGAISTI_CONVERT},
                           {"poll", PELGAISTI_POLL},       {"release", PELGAISTI_RELEASE}, {"commit", PELGAISTI_COMMIT},
                           {"abort", PELGAISTI_ABORT},     {"try", PELGAISTI_TRY},       {"withdraw", PELGAISTI_WITHDRAW},
                           {"restart", PELGAISTI_RESTART}};
static const name modes[] = {{"NL", PELGAISTI_NL},   {"IS", PELGAISTI_IS}, {"IX", PELGAISTI_IX}, {"S", PELGAISTI_S},
                             {"SIX", PELGAISTI_SIX}, {"U", PELGAISTI_U},   {"X", PELGAISTI_X}};
static const name kinds[] = {{"began", PELGAISTI_BEGAN},       {"granted", PELGAISTI_GRANTED},     {"waiting", PELGAISTI_WAITING},
                             {"deadlock", PELGAISTI_DEADLOCK}, {"clear", PELGAISTI_CLEAR},         {"released", PELGAISTI_RELEASED},
                             {"committed", PELGAISTI_COMMITTED}, {"aborted", PELGAISTI_ABORTED},   {"refused", PELGAISTI_REFUSED},
                             {"withdrawn", PELGAISTI_WITHDRAWN}, {"restarted", PELGAISTI_RESTARTED}};
static const name reasons[] = {
    {"AlreadyOpen", PELGAISTI_ALREADY_OPEN},    {"NoTransaction", PELGAISTI_NO_TRANSACTION}, {"IsWaiting", PELGAISTI_IS_WAITING},
    {"IsDoomed", PELGAISTI_IS_DOOMED},          {"NothingAsked", PELGAISTI_NOTHING_ASKED},   {"NotHeld", PELGAISTI_NOT_HELD},
    {"ParentNotHeld", PELGAISTI_PARENT_NOT_HELD}, {"ChildHeld", PELGAISTI_CHILD_HELD},       {"TooManyLocks", PELGAISTI_TOO_MANY_LOCKS},
    {"WouldWait", PELGAISTI_WOULD_WAIT},        {"NotWaiting", PELGAISTI_NOT_WAITING}};

/* The entry of the list with this name, NULL if there is none. */
static const name *named(const name *list, size_t length, const char *text) {
    for (size_t k = 0; k < length; k++)
        if (!strcmp(list[k].name, text)) return &list[k];
    return NULL;
}

#endif
