/* The exports of crates/pelgaisti_c, each of which says there what it does, and proves it. An argument of the type T ** is the address of
   a pointer of the caller's, and a list that of a struct. The export returns NULL, and writes nothing, if the pointer is NULL, or that of a
   list with room; of pelgaisti_raw_office_open that of one without, too. No other pointer is NULL. calls.c stands over them, and out of the
   archive none can be called, since ./embed makes their names local. */
#ifndef PELGAISTI_RAW_H
#define PELGAISTI_RAW_H

#include "pelgaisti.h"

/* An array of the caller's: its first element, and how many it has room for. */
typedef struct pelgaisti_raw_list {
    void *at;
    size_t room;
} pelgaisti_raw_list;

/* Where the crate's structs have their fields. Their sizes are in pelgaisti.h. */
#define AT(type, field, place) _Static_assert(offsetof(pelgaisti_##type, field) == (place), "pelgaisti.h: " #type)
AT(resource, numbers, 4); AT(call, mode, 4); AT(call, resource, 8); AT(reply, value, 8); AT(entry, call, 4); AT(entry, reply, 40);
AT(answer, reply, 8); AT(lock_answer, place, 8); AT(program, last, 12); AT(program_answer, stop, 16); AT(program_answer, values, 24);
AT(pass, starved, 4); AT(holder, mode, 4); AT(transaction, doomed, 8); AT(claim, kind, 4); AT(claim, mode, 8); AT(claim, transaction, 16);
AT(claim, resource, 24); AT(deadlock, session, 8); AT(deadlock, members, 16); AT(member, held, 48); AT(counts, refusals, 88);
AT(counts, requests, 192); AT(counts, victims, 232); AT(counts, deadlocks, 272); AT(gauges, waiting, 16); AT(gauges, idle_cells, 32);
AT(pass_counts, starved, 16); AT(options, keep, 16); AT(options, seed, 32); AT(options, waker, 40); AT(book, at_, 8); AT(book, look_, 16);
AT(session, at_, 8);
#undef AT

/* The crate's pelgaisti_version, which ./embed gives this name. */
uint32_t pelgaisti_raw_version(void);

uint32_t pelgaisti_raw_parent_mode(uint32_t mode);
/* NO_SUCH_LEVEL and NO_SUCH_MODE write nothing. */
uint32_t pelgaisti_raw_path_call(const pelgaisti_resource *resource, uint32_t mode, uint32_t level, pelgaisti_call *call);
uint32_t pelgaisti_raw_book_open(pelgaisti_book **book, const pelgaisti_options *options);
uint32_t pelgaisti_raw_book_close(pelgaisti_book **book);
uint32_t pelgaisti_raw_book_serve(pelgaisti_book **book, uint32_t session, const pelgaisti_call **call,
                                  pelgaisti_reply **reply);
uint32_t pelgaisti_raw_book_serve_batch(pelgaisti_book **book, pelgaisti_raw_list *calls, size_t **count);
uint32_t pelgaisti_raw_book_held(pelgaisti_book **book, uint32_t session, const pelgaisti_resource **resource,
                                 uint32_t **mode);
uint32_t pelgaisti_raw_book_holders(pelgaisti_book **book, const pelgaisti_resource **resource, pelgaisti_raw_list *list,
                                    size_t **count);
uint32_t pelgaisti_raw_book_transaction(pelgaisti_book **book, uint32_t session, pelgaisti_transaction **open);
uint32_t pelgaisti_raw_book_request(pelgaisti_book **book, uint32_t session, pelgaisti_claim **waiting);
uint32_t pelgaisti_raw_book_locks_held(pelgaisti_book **book, uint32_t session, size_t **count);
uint32_t pelgaisti_raw_book_locks_of(pelgaisti_book **book, uint32_t session, const pelgaisti_resource **after,
                                     pelgaisti_raw_list *list, size_t **count);
uint32_t pelgaisti_raw_book_dump(pelgaisti_book **book, pelgaisti_raw_list *rows, size_t **count, uint64_t **place);
uint32_t pelgaisti_raw_book_counts(pelgaisti_book **book, pelgaisti_counts **counts);
uint32_t pelgaisti_raw_book_gauges(pelgaisti_book **book, pelgaisti_gauges **gauges);
uint32_t pelgaisti_raw_book_passes(pelgaisti_book **book, pelgaisti_pass_counts **passes);
uint32_t pelgaisti_raw_book_ended(pelgaisti_book **book, pelgaisti_raw_list *list, size_t **count);
uint32_t pelgaisti_raw_book_length(pelgaisti_book **book, uint64_t **first_kept, uint64_t **length);
uint32_t pelgaisti_raw_book_history(pelgaisti_book **book, uint64_t first, pelgaisti_raw_list *entries, size_t **count);
uint32_t pelgaisti_raw_book_keep_at_most(pelgaisti_book **book, uint64_t bound);
uint32_t pelgaisti_raw_book_take_history(pelgaisti_book **book, uint64_t **first, pelgaisti_raw_list *entries, size_t **count);
uint32_t pelgaisti_raw_book_reserve(pelgaisti_book **book, size_t resources, size_t entries);
uint32_t pelgaisti_raw_book_shrink(pelgaisti_book **book);
uint32_t pelgaisti_raw_book_deadlocks(pelgaisti_book **book, size_t most, pelgaisti_raw_list *list, size_t **count,
                                      pelgaisti_raw_list *members, size_t **member_count);
uint32_t pelgaisti_raw_book_blockers(pelgaisti_book **book, uint32_t session, pelgaisti_raw_list *list, size_t **count);
uint32_t pelgaisti_raw_book_run(pelgaisti_book **book, uint32_t session, const pelgaisti_program **program,
                                pelgaisti_program_answer **answer);
/* `mark` is the number by which pelgaisti_raw_session_hear and pelgaisti_raw_session_hand_in tell offices apart: one that no other
   open office has. Of the options' waker the archive reads the address alone, which pelgaisti_raw_session_waker tells; NULL for none. */
uint32_t pelgaisti_raw_office_open(pelgaisti_raw_list *sessions, uint64_t mark, const pelgaisti_options *options);
uint32_t pelgaisti_raw_session_publish(pelgaisti_session **session, const pelgaisti_call **call, uint32_t **posted);
/* `told` gets how many sessions are to be woken after the pass: it is written with OK, and with ELSEWHERE, which is 0.
   pelgaisti_raw_session_told tells which they are, until the session's next try to make a pass. */
uint32_t pelgaisti_raw_session_serve(pelgaisti_session **session, pelgaisti_pass **pass, size_t *told);
/* Begins a call of a session that has none pending; else PENDING. If `tries` isn't 0, it tries to perform the call at once. NOT_SERVED:
   another session has the lock table, and nothing has changed, so that the call is not published. If `tries` is 0, it publishes the call,
   and returns NOT_SERVED: the call is pending. With NO_MEMORY the call is pending. `told` is written with OK, NO_MEMORY and NOT_SERVED. */
uint32_t pelgaisti_raw_session_turn(pelgaisti_session **session, const pelgaisti_call **call, uint32_t tries,
                                    pelgaisti_answer **answer, size_t *told);
/* A turn of the call that is pending. `tries`: 0 looks for the answer, 1 tries for the lock table first; with 2 it does neither, and returns
   NOT_SERVED, with nothing changed or written. Else with NOT_SERVED and
   NO_MEMORY it is still pending. It writes as pelgaisti_raw_session_turn does. */
uint32_t pelgaisti_raw_session_resume(pelgaisti_session **session, uint32_t tries, pelgaisti_answer **answer, size_t *told);
/* Begins a program as pelgaisti_raw_session_turn begins a call. */
uint32_t pelgaisti_raw_session_run_turn(pelgaisti_session **session, const pelgaisti_program **program, uint32_t tries,
                                        pelgaisti_program_answer **answer, size_t *told);
/* A turn of what is pending, call or program, as pelgaisti_raw_session_resume makes one. */
uint32_t pelgaisti_raw_session_run_resume(pelgaisti_session **session, uint32_t tries, pelgaisti_program_answer **answer,
                                          size_t *told);
uint32_t pelgaisti_raw_session_collect(pelgaisti_session **session, pelgaisti_answer **answer);
uint32_t pelgaisti_raw_session_take_history(pelgaisti_session **session, uint64_t **first, pelgaisti_raw_list *entries,
                                            size_t **count);
/* Tries once for the lock table. ELSEWHERE: another session has it. OK: `view`, which was closed, is a look at it, and `session` closed. */
uint32_t pelgaisti_raw_session_look(pelgaisti_session **session, pelgaisti_book **view);
/* Gives the lock table back: `view` is closed, and `session`, which was closed, open. */
uint32_t pelgaisti_raw_look_end(pelgaisti_session **session, pelgaisti_book **view);
uint32_t pelgaisti_raw_session_bound_passes(pelgaisti_session **session, uint32_t calls, uint32_t locks, uint32_t rounds);
uint32_t pelgaisti_raw_session_seen(pelgaisti_session **session, uint64_t **seen);
/* Writes the mark of the session's office, and the session's number. */
uint32_t pelgaisti_raw_session_mark(pelgaisti_session **session, uint64_t **mark, uint32_t *number);
uint32_t pelgaisti_raw_session_waker(pelgaisti_session **session, uint64_t *waker);
uint32_t pelgaisti_raw_session_told(pelgaisti_session **session, size_t first, uint32_t *list, size_t room, size_t *count);
uint32_t pelgaisti_raw_session_hear(pelgaisti_session **session, pelgaisti_session **other);
uint32_t pelgaisti_raw_session_retire(pelgaisti_session **session);
uint32_t pelgaisti_raw_session_hand_in(pelgaisti_session **session, pelgaisti_session **to);
uint32_t pelgaisti_raw_office_close(pelgaisti_session **session, pelgaisti_book **book);

#endif
