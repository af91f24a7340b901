/* What calls.c, turns.c and lock.c need of wait.c and of one another. ./embed makes these names local, as all that pelgaisti.h doesn't declare. */
#ifndef WAIT_H
#define WAIT_H

#include "pelgaisti.h"
#include <time.h>

uint64_t draw_mark(size_t sessions);
uint32_t wake_ups_so_far(uint64_t mark, uint32_t session);
int sleep_since(uint64_t mark, uint32_t session, uint32_t seen, const struct timespec *until);
void wake_thread(uint64_t mark, uint32_t session);
void wake_each(const pelgaisti_waker *waker, uint64_t mark, const uint32_t *list, size_t count);

/* Writes the mark of the session's office, and the session's number. NULL, CLOSED, COPIED: nothing is written. */
pelgaisti_status place_of(pelgaisti_session *session, uint64_t *mark, uint32_t *number);
uint64_t mark_of(pelgaisti_session *session);
/* The office with this mark was opened; was closed. */
void note_opening(uint64_t mark);
void note_closing(uint64_t mark);
/* Wakes the sessions that the session's last pass has told of. */
void wake_told(pelgaisti_session *session);

#endif
