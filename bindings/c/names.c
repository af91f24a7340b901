/* The names of numbers, for messages. */
#include "pelgaisti.h"

#define NAME_IN(names, number) ((number) < sizeof(names) / sizeof *(names) ? (names)[number] : "unknown")

const char *pelgaisti_status_name(uint64_t status) {
    static const char *const names[] = {"OK", "NO_MEMORY", "CLOSED", "NO_SUCH_SESSION", "NO_SUCH_OP", "NO_SUCH_LEVEL",
                                        "NO_SUCH_MODE", "OPEN", "NO_SUCH_COUNT", "PENDING", "NOTHING_PENDING", "NOT_SERVED",
                                        "RETIRED", "ELSEWHERE", "OTHER_OFFICE", "MISSING", "COPIED", "NULL", "SAME", "LET_GO",
                                        "unknown", "NO_SUCH_START", "NOT_ON_PATH", "NO_SUCH_ABOVE", "unknown", "VICTIM", "TIMED_OUT",
                                        "DENIED", "LOOKS", "NOT_A_LOOK"};
    return NAME_IN(names, status);
}

const char *pelgaisti_mode_name(uint64_t mode) {
    switch (mode) {
    case PELGAISTI_NL: return "NL";
    case PELGAISTI_IS: return "IS";
    case PELGAISTI_IX: return "IX";
    case PELGAISTI_S: return "S";
    case PELGAISTI_SIX: return "SIX";
    case PELGAISTI_U: return "U";
    case PELGAISTI_X: return "X";
    default: return "unknown";
    }
}

const char *pelgaisti_op_name(uint64_t op) {
    static const char *const names[] = {"unknown", "begin", "lock", "convert", "poll", "release", "commit", "abort", "try",
                                        "withdraw", "restart"};
    return NAME_IN(names, op);
}

const char *pelgaisti_reply_name(uint64_t kind) {
    static const char *const names[] = {"unknown", "began", "granted", "waiting", "deadlock", "clear", "released", "committed",
                                        "aborted", "refused", "withdrawn", "restarted"};
    return NAME_IN(names, kind);
}

const char *pelgaisti_refusal_name(uint64_t why) {
    static const char *const names[] = {"unknown", "AlreadyOpen", "NoTransaction", "IsWaiting", "IsDoomed", "NothingAsked",
                                        "NotHeld", "ParentNotHeld", "ChildHeld", "TooManyLocks", "unknown", "WouldWait",
                                        "NotWaiting"};
    return NAME_IN(names, why);
}
