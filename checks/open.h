/* How checks open books and offices, which keep all of the history unless a check says otherwise, and look at the lock table of an open office. */
#ifndef OPEN_H
#define OPEN_H

#include "pelgaisti.h"
#include <stdio.h>
#include <stdlib.h>

static inline pelgaisti_status open_book(pelgaisti_book *book, uint32_t sessions) {
    pelgaisti_options options = PELGAISTI_OPTIONS(sessions);
    options.keep = UINT64_MAX;
    return pelgaisti_book_open(book, &options);
}

/* With the newest so many deadlocks. */
static inline pelgaisti_status open_book_of_deadlocks(pelgaisti_book *book, uint32_t sessions, uint64_t deadlocks) {
    pelgaisti_options options = PELGAISTI_OPTIONS(sessions);
    options.keep = UINT64_MAX;
    options.deadlocks = deadlocks;
    return pelgaisti_book_open(book, &options);
}

/* With the newest so many entries of the history, a waker or NULL, and so many deadlocks. */
static inline pelgaisti_status open_office_with(pelgaisti_session *sessions, size_t count, uint64_t keep, const pelgaisti_waker *waker,
                                                uint64_t deadlocks) {
    pelgaisti_options options = PELGAISTI_OPTIONS((uint32_t)count);
    options.keep = keep;
    options.waker = waker;
    options.deadlocks = deadlocks;
    return pelgaisti_office_open(sessions, &options);
}

static inline pelgaisti_status open_sessions(pelgaisti_session *sessions, size_t count) {
    return open_office_with(sessions, count, UINT64_MAX, NULL, 0);
}

static inline void look(pelgaisti_session *session, pelgaisti_book *view) {
    const pelgaisti_status status = pelgaisti_session_look(session, view);
    if (status != PELGAISTI_OK) printf("a look returns %s\n", pelgaisti_status_name(status)), exit(1);
}

static inline void end_look(pelgaisti_session *session, pelgaisti_book *view) {
    const pelgaisti_status status = pelgaisti_look_end(session, view);
    if (status != PELGAISTI_OK) printf("the end of a look returns %s\n", pelgaisti_status_name(status)), exit(1);
}

#endif
