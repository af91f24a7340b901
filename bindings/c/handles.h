/* What each call for C does around an export of the proved crate: whether a handle is where it was opened, what ThreadSanitizer and
   MemorySanitizer are told, and how an array is given. Nothing here is proved. */
#ifndef HANDLES_H
#define HANDLES_H

#include "pelgaisti_raw.h"
#include <string.h>

/* ---- Where handles lie: an open one has a note of its own address, by which a copy of it, or one that moved, is told. ---- */

/* Addresses with the same note are a multiple of 32 GiB apart. */
static inline uint32_t note_of(const void *handle) { return (uint32_t)((uintptr_t)handle >> 3); }

/* By the first word of a handle: 1 means open, and 2 a book that is the view of a look. */
static inline int is_in_use(const uint32_t *words) { return words[0] - 1 < 2; }

/* Whether a handle, of a book or of a session, is open and isn't where it was opened. */
static inline int is_astray(const void *handle) {
    const uint32_t *words = (const uint32_t *)handle;
    return __builtin_expect(words && words[1] != note_of(handle) && is_in_use(words), 0);
}

/* Writes the note of an open handle, behind each call of the archive, which knows of none and may leave anything there. */
static inline pelgaisti_status noting(void *handle, pelgaisti_status status) {
    uint32_t *words = (uint32_t *)handle;
    if (words && is_in_use(words)) words[1] = note_of(handle);
    return status;
}

/* ---- ThreadSanitizer, which can't see the steps of the archive. A program that is built with it has these functions. ---- */

__attribute__((weak)) void __tsan_acquire(void *at);
__attribute__((weak)) void __tsan_release(void *at);
__attribute__((weak)) void __tsan_write8(void *at);
__attribute__((weak)) void AnnotateIgnoreReadsBegin(const char *file, int line);
__attribute__((weak)) void AnnotateIgnoreReadsEnd(const char *file, int line);

#define COLD __attribute__((cold, noinline))
#define IS_WATCHED __builtin_expect(__tsan_acquire != NULL, 0)

/* What a call of a session orders: behind a call that acquires, and returns OK, a thread sees what others wrote before their calls that
   release. */
enum { ORDERS_NOTHING = 0, RELEASES = 1, ACQUIRES = 2 };

/* What stands for the words of the office with this mark: an address. Nothing is written there. */
static void *words_for(uint64_t mark) {
    static uint64_t words[1024];
    return &words[mark % 1024];
}

/* By a copy of the handle, whose note stays. */
static void *words_of(const pelgaisti_session *session) {
    pelgaisti_session own = *session, *copy = &own;
    uint64_t mark = 0, *at = &mark;
    uint32_t number;
    pelgaisti_raw_session_mark(&copy, &at, &number);
    return words_for(mark);
}

/* A call uses the handle, unless it is NULL: two threads that use it without an order between them race. */
static COLD void note_use(void *handle) {
    if (handle) __tsan_write8(handle);
}

/* What the archive does between these two, such as to free what another thread has allocated, is ordered by the archive. */
static COLD void begin_use(void *handle, int order) {
    note_use(handle);
    AnnotateIgnoreReadsBegin("pelgaisti", 0);
    if (handle && (order & RELEASES)) __tsan_release(words_of(handle));
}

static COLD pelgaisti_status end_use(void *handle, int order, uint32_t status) {
    if ((order & ACQUIRES) && status == PELGAISTI_OK) __tsan_acquire(words_of(handle));
    AnnotateIgnoreReadsEnd("pelgaisti", 0);
    return (pelgaisti_status)status;
}

#define ORDERED(handle, order, call) \
    (IS_WATCHED ? (begin_use(handle, order), end_use(handle, order, call)) : (pelgaisti_status)(call))

/* The status of a call of the archive that uses the handle, or COPIED. */
#define ORDERING_CALL(handle, order, call) (is_astray(handle) ? PELGAISTI_COPIED : noting(handle, ORDERED(handle, order, call)))
#define CALL(handle, call) ORDERING_CALL(handle, ORDERS_NOTHING, call)

/* Takes over what the archive left in a copy of the session's handle, if that is another value. */
static inline pelgaisti_status put_back(pelgaisti_session *session, const pelgaisti_session *copy, pelgaisti_status status) {
    if (copy->is_open_ != session->is_open_) session->is_open_ = copy->is_open_;
    if (copy->at_ != session->at_) session->at_ = copy->at_;
    return status;
}

/* The same by a copy of a session's handle, which isn't NULL. The archive writes a handle at the begin and the end of a call, and threads whose
   handles lie on one cache line would take it from one another. */
#define CALL_BY_COPY(session, copy, order, call) \
    (is_astray(session) ? PELGAISTI_COPIED : (*(copy) = *(session), put_back(session, copy, ORDERED(session, order, call))))

/* Notes the use of a further handle of a call. Whether it is astray. */
static inline int use_too(void *handle) {
    if (IS_WATCHED) note_use(handle);
    return is_astray(handle);
}

/* ---- MemorySanitizer, which can't see what the archive writes. A program that is built with it has this function. ---- */

__attribute__((weak)) void __msan_unpoison(const volatile void *at, size_t size);

#define IS_MARKED __builtin_expect(__msan_unpoison != NULL, 0)

static COLD void note_written(void *at, size_t size) {
    if (at) __msan_unpoison(at, size);
}

static COLD void note_listed(void *list, size_t size, size_t room, size_t *count) {
    note_written(count, sizeof *count);
    note_written(list, size * (*count < room ? *count : room));
}

/* The status of a call that has written so much there, if it returns OK or NO_MEMORY. */
static inline pelgaisti_status writing(pelgaisti_status status, void *at, size_t size) {
    if (IS_MARKED && status <= PELGAISTI_NO_MEMORY) note_written(at, size);
    return status;
}

/* The status of a call that then has written the first elements of an array, and to `count` how many there are in all. */
static inline pelgaisti_status listing(pelgaisti_status status, void *list, size_t size, size_t room, size_t *count) {
    if (IS_MARKED && status <= PELGAISTI_NO_MEMORY) note_listed(list, size, room, count);
    return status;
}

#define WRITING(at, call) writing(call, at, sizeof *(at))
#define LISTING(list, room, count, call) listing(call, list, sizeof *(list), room, count)

/* What an export is given for an array of the caller's: where it is, and how many elements it has room for. */
#define LIST(at, room) (&(pelgaisti_raw_list){(at), (room)})

#endif
