/* The functions that pelgaisti.h declares. Each tells ThreadSanitizer of the call and MemorySanitizer what it has written, and gives the
   export of the proved crate the addresses of its pointers: the export tests them for NULL and does the rest. Nothing here is proved. */
#include "handles.h"
#include "seed.h"
#include "wait.h"

/* ---- Functions without a handle. ---- */

uint32_t pelgaisti_version(void) { return pelgaisti_raw_version(); }

uint32_t pelgaisti_parent_mode(uint32_t mode) { return pelgaisti_raw_parent_mode(mode); }

/* Two functions return structs by value. As x86-64 passes one of more than 16 bytes, its address is a first argument, which is returned: so
   they are defined here, since MemorySanitizer has to be told what is written there. */
pelgaisti_call *path_call_at(pelgaisti_call *call, const pelgaisti_resource *resource, uint32_t mode, uint32_t level)
    __asm__("pelgaisti_path_call");
pelgaisti_options *default_options_at(pelgaisti_options *options, uint32_t sessions) __asm__("pelgaisti_default_options");

pelgaisti_call *path_call_at(pelgaisti_call *call, const pelgaisti_resource *resource, uint32_t mode, uint32_t level) {
    const pelgaisti_call none = {PELGAISTI_LOCK, mode, *resource};
    *call = none;
    pelgaisti_raw_path_call(resource, mode, level, call);
    if (IS_MARKED) note_written(call, sizeof *call);
    return call;
}

pelgaisti_options *default_options_at(pelgaisti_options *options, uint32_t sessions) {
    const pelgaisti_options made = PELGAISTI_OPTIONS(sessions);
    *options = made;
    if (IS_MARKED) note_written(options, sizeof *options);
    return options;
}

/* ---- Books. ---- */

/* The seed of the options, or one that is drawn. */
static uint64_t seed_of(const pelgaisti_options *options) { return options->seed ? options->seed : draw_seed(); }

pelgaisti_status pelgaisti_book_open(pelgaisti_book *book, const pelgaisti_options *options) {
    pelgaisti_options own;
    if (!options) return is_astray(book) ? PELGAISTI_COPIED : PELGAISTI_NULL;
    own = *options;
    own.seed = seed_of(options);
    return CALL(book, pelgaisti_raw_book_open(&book, &own));
}

pelgaisti_status pelgaisti_book_close(pelgaisti_book *book) {
    return CALL(book, pelgaisti_raw_book_close(&book));
}

pelgaisti_status pelgaisti_book_serve(pelgaisti_book *book, uint32_t session, const pelgaisti_call *call, pelgaisti_reply *reply) {
    return WRITING(reply, CALL(book, pelgaisti_raw_book_serve(&book, session, &call, &reply)));
}

pelgaisti_status pelgaisti_book_serve_batch(pelgaisti_book *book, pelgaisti_entry *calls, size_t length, size_t *count) {
    return LISTING(calls, length, count, CALL(book, pelgaisti_raw_book_serve_batch(&book, LIST(calls, length), &count)));
}

pelgaisti_status pelgaisti_book_held(pelgaisti_book *book, uint32_t session, const pelgaisti_resource *resource, uint32_t *mode) {
    return WRITING(mode, CALL(book, pelgaisti_raw_book_held(&book, session, &resource, &mode)));
}

pelgaisti_status pelgaisti_book_holders(pelgaisti_book *book, const pelgaisti_resource *resource, pelgaisti_holder *list,
                                        size_t room, size_t *count) {
    return LISTING(list, room, count, CALL(book, pelgaisti_raw_book_holders(&book, &resource, LIST(list, room), &count)));
}

pelgaisti_status pelgaisti_book_blockers(pelgaisti_book *book, uint32_t session, uint32_t *list, size_t room, size_t *count) {
    return LISTING(list, room, count, CALL(book, pelgaisti_raw_book_blockers(&book, session, LIST(list, room), &count)));
}

pelgaisti_status pelgaisti_book_transaction(pelgaisti_book *book, uint32_t session, pelgaisti_transaction *open) {
    return WRITING(open, CALL(book, pelgaisti_raw_book_transaction(&book, session, &open)));
}

pelgaisti_status pelgaisti_book_request(pelgaisti_book *book, uint32_t session, pelgaisti_claim *waiting) {
    return WRITING(waiting, CALL(book, pelgaisti_raw_book_request(&book, session, &waiting)));
}

pelgaisti_status pelgaisti_book_locks_held(pelgaisti_book *book, uint32_t session, size_t *count) {
    return WRITING(count, CALL(book, pelgaisti_raw_book_locks_held(&book, session, &count)));
}

pelgaisti_status pelgaisti_book_locks_of(pelgaisti_book *book, uint32_t session, const pelgaisti_resource *after,
                                         pelgaisti_claim *list, size_t room, size_t *count) {
    return LISTING(list, room, count, CALL(book, pelgaisti_raw_book_locks_of(&book, session, &after, LIST(list, room), &count)));
}

pelgaisti_status pelgaisti_book_dump(pelgaisti_book *book, pelgaisti_claim *rows, size_t room, size_t *count, uint64_t *place) {
    return LISTING(rows, room, count, WRITING(place, CALL(book, pelgaisti_raw_book_dump(&book, LIST(rows, room), &count, &place))));
}

pelgaisti_status pelgaisti_book_counts(pelgaisti_book *book, pelgaisti_counts *counts) {
    return WRITING(counts, CALL(book, pelgaisti_raw_book_counts(&book, &counts)));
}

pelgaisti_status pelgaisti_book_gauges(pelgaisti_book *book, pelgaisti_gauges *gauges) {
    return WRITING(gauges, CALL(book, pelgaisti_raw_book_gauges(&book, &gauges)));
}

pelgaisti_status pelgaisti_book_ended(pelgaisti_book *book, uint32_t *list, size_t room, size_t *count) {
    return LISTING(list, room, count, CALL(book, pelgaisti_raw_book_ended(&book, LIST(list, room), &count)));
}

pelgaisti_status pelgaisti_book_passes(pelgaisti_book *book, pelgaisti_pass_counts *passes) {
    return WRITING(passes, CALL(book, pelgaisti_raw_book_passes(&book, &passes)));
}

pelgaisti_status pelgaisti_book_length(pelgaisti_book *book, uint64_t *first_kept, uint64_t *length) {
    return WRITING(first_kept, WRITING(length, CALL(book, pelgaisti_raw_book_length(&book, &first_kept, &length))));
}

pelgaisti_status pelgaisti_book_history(pelgaisti_book *book, uint64_t first, pelgaisti_entry *entries, size_t room,
                                        size_t *count) {
    return LISTING(entries, room, count, CALL(book, pelgaisti_raw_book_history(&book, first, LIST(entries, room), &count)));
}

pelgaisti_status pelgaisti_book_keep_at_most(pelgaisti_book *book, uint64_t bound) {
    return CALL(book, pelgaisti_raw_book_keep_at_most(&book, bound));
}

pelgaisti_status pelgaisti_book_take_history(pelgaisti_book *book, uint64_t *first, pelgaisti_entry *entries, size_t room,
                                             size_t *count) {
    return WRITING(first, LISTING(entries, room, count,
                   CALL(book, pelgaisti_raw_book_take_history(&book, &first, LIST(entries, room), &count))));
}

pelgaisti_status pelgaisti_book_deadlocks(pelgaisti_book *book, pelgaisti_deadlock *list, size_t room, size_t *count,
                                          pelgaisti_member *members, size_t member_room, size_t *member_count) {
    return LISTING(list, room, count, LISTING(members, member_room, member_count,
                   CALL(book, pelgaisti_raw_book_deadlocks(&book, room, LIST(list, room), &count, LIST(members, member_room),
                        &member_count))));
}

pelgaisti_status pelgaisti_book_reserve(pelgaisti_book *book, size_t resources, size_t entries) {
    return CALL(book, pelgaisti_raw_book_reserve(&book, resources, entries));
}

pelgaisti_status pelgaisti_book_shrink(pelgaisti_book *book) {
    return CALL(book, pelgaisti_raw_book_shrink(&book));
}

/* A program that makes no call, which the export would run, is refused as one whose last op is none. */
pelgaisti_status pelgaisti_book_run(pelgaisti_book *book, uint32_t session, const pelgaisti_program *program,
                                    pelgaisti_program_answer *answer) {
    static const pelgaisti_program none = {PELGAISTI_NOTHING, 0, 0, {PELGAISTI_OP_NUMBERS, 0, {0, {0}}}};
    if (program && program->start == PELGAISTI_NOTHING && program->last.op == 0) program = &none;
    return WRITING(answer, CALL(book, pelgaisti_raw_book_run(&book, session, &program, &answer)));
}

/* ---- Offices: how they are opened, and how they wake. ---- */

/* That of an office which the engine has given none: the library wakes who sleeps in it. */
static const pelgaisti_waker no_waker = {NULL, NULL};

/* The office has a mark of its own. A handle is looked at only if there is one: if the number of sessions is in its range. */
pelgaisti_status pelgaisti_office_open(pelgaisti_session *sessions, const pelgaisti_options *options) {
    const size_t count = sessions && options && options->sessions <= PELGAISTI_MAX_SESSIONS ? options->sessions : 0;
    pelgaisti_options own;
    pelgaisti_status status;
    uint64_t mark;
    size_t k;
    for (k = 0; k < count; k++)
        if (use_too(&sessions[k])) return PELGAISTI_COPIED;
    if (!options || (options->waker && !options->waker->wake)) return PELGAISTI_NULL;
    own = *options;
    own.seed = seed_of(options);
    if (!own.waker) own.waker = &no_waker;
    mark = draw_mark(own.sessions);
    status = ORDERED(NULL, ORDERS_NOTHING, pelgaisti_raw_office_open(LIST(sessions, own.sessions), mark, &own));
    for (k = 0; k < count; k++) noting(&sessions[k], status);
    if (status == PELGAISTI_OK) note_opening(mark);
    return status;
}

/* The waker of the session's office. */
static const pelgaisti_waker *waker_of(pelgaisti_session *session) {
    uint64_t at = 0;
    CALL(session, pelgaisti_raw_session_waker(&session, &at));
    return (const pelgaisti_waker *)(uintptr_t)at;
}

pelgaisti_status place_of(pelgaisti_session *session, uint64_t *mark, uint32_t *number) {
    pelgaisti_session own, *copy = &own;
    return session ? CALL_BY_COPY(session, copy, ORDERS_NOTHING, pelgaisti_raw_session_mark(&copy, &mark, number)) : PELGAISTI_NULL;
}

uint64_t mark_of(pelgaisti_session *session) {
    uint64_t mark = 0;
    uint32_t number;
    place_of(session, &mark, &number);
    return mark;
}

/* Wakes the sessions of a list. Meanwhile the handle of the session whose call made the pass is closed, so that a waker which uses it,
   against the rules, gets CLOSED, and changes nothing of the call that goes on behind it. */
static COLD void wake_all(pelgaisti_session *session, const uint32_t *list, size_t count) {
    const pelgaisti_waker *waker = waker_of(session);
    const uint64_t mark = mark_of(session);
    const pelgaisti_session open = *session;
    *session = (pelgaisti_session)PELGAISTI_EMPTY;
    wake_each(waker, mark, list, count);
    *session = open;
}

/* Wakes the sessions that the session's last pass has told of. */
COLD void wake_told(pelgaisti_session *session) {
    uint32_t list[PELGAISTI_MAX_SESSIONS];
    size_t count = 0;
    CALL(session, pelgaisti_raw_session_told(&session, 0, list, PELGAISTI_MAX_SESSIONS, &count));
    wake_all(session, list, count);
}

/* ---- Sessions. ---- */

pelgaisti_status pelgaisti_session_publish(pelgaisti_session *session, const pelgaisti_call *call, uint32_t *posted) {
    uint32_t unread, *at = posted ? posted : &unread;
    return WRITING(at, ORDERING_CALL(session, RELEASES, pelgaisti_raw_session_publish(&session, &call, &at)));
}

pelgaisti_status pelgaisti_session_collect(pelgaisti_session *session, pelgaisti_answer *answer) {
    return WRITING(answer, ORDERING_CALL(session, ACQUIRES, pelgaisti_raw_session_collect(&session, &answer)));
}

pelgaisti_status pelgaisti_session_bound_passes(pelgaisti_session *session, uint32_t calls, uint32_t locks, uint32_t rounds) {
    return CALL(session, pelgaisti_raw_session_bound_passes(&session, calls, locks, rounds));
}

pelgaisti_status pelgaisti_session_seen(pelgaisti_session *session, uint64_t *seen) {
    return WRITING(seen, CALL(session, pelgaisti_raw_session_seen(&session, &seen)));
}

pelgaisti_status pelgaisti_session_mark(pelgaisti_session *session, uint64_t *mark) {
    uint32_t number;
    return WRITING(mark, place_of(session, mark, &number));
}

pelgaisti_status pelgaisti_session_retire(pelgaisti_session *session) {
    return CALL(session, pelgaisti_raw_session_retire(&session));
}

/* ---- Calls that use two handles. ---- */

pelgaisti_status pelgaisti_session_hear(pelgaisti_session *session, pelgaisti_session *other) {
    if (use_too(other)) return PELGAISTI_COPIED;
    if (session && session == other) return PELGAISTI_SAME;
    return noting(other, CALL(session, pelgaisti_raw_session_hear(&session, &other)));
}

pelgaisti_status pelgaisti_session_hand_in(pelgaisti_session *session, pelgaisti_session *to) {
    if (use_too(to)) return PELGAISTI_COPIED;
    if (session && session == to) return PELGAISTI_SAME;
    return noting(to, CALL(session, pelgaisti_raw_session_hand_in(&session, &to)));
}

pelgaisti_status pelgaisti_office_close(pelgaisti_session *session, pelgaisti_book *book) {
    uint64_t mark = 0;
    pelgaisti_status status;
    uint32_t number;
    if (use_too(book)) return PELGAISTI_COPIED;
    place_of(session, &mark, &number);
    status = noting(book, CALL(session, pelgaisti_raw_office_close(&session, &book)));
    if (status == PELGAISTI_OK) note_closing(mark);
    return status;
}
