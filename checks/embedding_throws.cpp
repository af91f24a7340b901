// Before C++17 a waker may throw, as far as a compiler sees. Then the program ends, in place of a call that leaves others asleep and loses
// its answer. It ends by the signal of abort; if the exception comes out of the call, with status 0.
#include "open.h"
#include <cstddef>

static void wake(void *, uint32_t) { throw 1; }

int main() {
    static pelgaisti_session sessions[2];
    const pelgaisti_waker waker = {wake, NULL};
    const pelgaisti_call begin = {PELGAISTI_BEGIN, 0, {0, {0}}}, lock = {PELGAISTI_LOCK, PELGAISTI_X, {1, {7}}};
    const pelgaisti_call commit = {PELGAISTI_COMMIT, 0, {0, {0}}};
    pelgaisti_answer answer;
    if (open_office_with(sessions, 2, UINT64_MAX, &waker, 0) != PELGAISTI_OK) return 2;
    for (int s = 0; s < 2; s++) {
        if (pelgaisti_session_perform(&sessions[s], &begin, 9, &answer) != PELGAISTI_OK) return 2;
        if (pelgaisti_session_perform(&sessions[s], &lock, 9, &answer) != PELGAISTI_OK) return 2;
    }
    try {
        pelgaisti_session_perform(&sessions[0], &commit, 9, &answer);
    } catch (int) {
    }
    return 0;
}
