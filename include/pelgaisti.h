/*
 * Pelgaisti: a lock manager for database engines, for C99 and C++ on 64-bit x86 under Linux. Link with -lpelgaisti.
 *
 *     #include "pelgaisti.h"
 *     #include <stdio.h>
 *     int main(void) {
 *         const pelgaisti_options options = PELGAISTI_OPTIONS(2);         // two sessions
 *         const pelgaisti_call begin = {PELGAISTI_BEGIN, 0, {0, {0}}};
 *         const pelgaisti_call lock = {PELGAISTI_LOCK, PELGAISTI_X, {1, {7}}};     // database 7, exclusively
 *         const pelgaisti_call commit = {PELGAISTI_COMMIT, 0, {0, {0}}};
 *         pelgaisti_book book = PELGAISTI_EMPTY;                          // a lock table for one thread
 *         pelgaisti_reply reply;
 *
 *         if (pelgaisti_book_open(&book, &options) != PELGAISTI_OK) return 1;
 *         pelgaisti_book_serve(&book, 1, &begin, &reply);                 // reply: BEGAN, 1
 *         pelgaisti_book_serve(&book, 2, &begin, &reply);                 // reply: BEGAN, 2
 *         pelgaisti_book_serve(&book, 1, &lock, &reply);                  // reply: GRANTED, X
 *         pelgaisti_book_serve(&book, 2, &lock, &reply);                  // reply: WAITING, 0
 *         pelgaisti_book_serve(&book, 1, &commit, &reply);                // reply: COMMITTED, 1, and session 2 has the lock
 *         printf("%u locks given back\n", (unsigned)reply.value);
 *         return pelgaisti_book_close(&book);
 *     }
 *
 * A BOOK is a lock table for one thread, or for threads that guard it by a mutex of their own. It answers each call at once. An OFFICE is
 * a lock table that threads share, each by a session of its own: pelgaisti_session_lock waits for a lock, pelgaisti_session_perform makes
 * any other call. A pass is what a session makes while it has the lock table: it serves the calls that others have published, too.
 * The functions come in an engine's order: open, call, wait for locks, serve by steps, look, history, memory, close, names.
 * docs/EMBEDDING.md has recipes. docs/PROMISES.md says what is proved of the library, and what is tested.
 *
 * RULES FOR THE CALLER
 * - A handle (pelgaisti_book, pelgaisti_session) is PELGAISTI_EMPTY, or all its bytes are zero, before its first use. From then on it is
 *   never copied, moved, read or written, and its memory is kept until it is closed. A call with an open handle that isn't where it was
 *   opened returns COPIED (unless the two places are a multiple of 32 GiB apart). A handle that is moved back can be used again.
 * - A pointer is aligned and points to memory of its type. No two arguments of a call overlap. An array has `room` (`length`) elements,
 *   and may be NULL if that is 0. Functions without a status test no pointer for NULL.
 * - At most one call at a time uses a handle. Whoever passes one to another thread synchronizes: by a mutex, by the start or the join of a
 *   thread, or by a sequentially consistent atomic. Different sessions of one office may be used at the same time.
 * - A thread isn't ended inside a call, neither by asynchronous cancellation nor by a longjmp out of a signal handler: the lock table would
 *   stay taken for ever. Deferred cancellation is safe: no call is a cancellation point, but what an engine's waker does may be.
 * - No call is made in a signal handler, nor in the forked child of a process with threads.
 * - malloc, realloc and free belong to one allocator. Where a process has two copies of the library, each handle is used by its own copy.
 *
 * LISTS. `count` gets how many elements a call has to tell, and the array the first of them, as far as its `room` goes: the smaller of
 * `room` and `count` were written, and no more are read. A call that tells page by page has no more to tell than `room`.
 *
 * WHAT A THREAD SEES. What a thread wrote before the call by which it gives a lock back is seen by the thread that is answered the grant of
 * a conflicting lock behind it: memory that is written under X and read under S needs no atomics (docs/THREADS.md has the steps).
 * Programs that are built with -fsanitize=thread or -fsanitize=memory are told what the library orders, and writes to the caller's memory.
 *
 * STATUSES. A call on a handle returns a pelgaisti_status: OK, or one that its comment lists behind "->". It tests in this order, and
 * returns the first that fits. COPIED comes before all, and isn't listed. With a status other than OK nothing has changed and nothing was
 * written, unless the comment says more.
 */
#ifndef PELGAISTI_H
#define PELGAISTI_H
#include <stddef.h>
#include <stdint.h>

#ifdef __cplusplus
extern "C" {
#define PELGAISTI_EMPTY {}
#else
#define PELGAISTI_EMPTY {0}
#endif

#define PELGAISTI_VERSION "0.9.0"
#define PELGAISTI_HEADER_VERSION 6
#define PELGAISTI_LEVELS 5
#define PELGAISTI_CALLS 7
#define PELGAISTI_OP_NUMBERS 11
#define PELGAISTI_WHY_NUMBERS 13
#define PELGAISTI_MAX_SESSIONS 1024
#define PELGAISTI_MAX_LOCKS 4096
#define PELGAISTI_ALL_TURNS UINT64_MAX /* no limit of turns */
#define PELGAISTI_FOREVER UINT64_MAX   /* no time-out */

typedef enum pelgaisti_status {
    PELGAISTI_OK = 0,
    PELGAISTI_NO_MEMORY = 1,       /* memory was refused; the same call may be made again, unless its comment says more */
    PELGAISTI_CLOSED = 2,          /* the handle is closed; also that of a session that looks, or whose call is calling the waker */
    PELGAISTI_NO_SUCH_SESSION = 3, /* the book has no session with this number */
    PELGAISTI_NO_SUCH_OP = 4,      /* the op is not a pelgaisti_op; or the program makes no call */
    PELGAISTI_NO_SUCH_LEVEL = 5,   /* the level is not in 1 to PELGAISTI_LEVELS */
    PELGAISTI_NO_SUCH_MODE = 6,    /* the mode is not a pelgaisti_mode */
    PELGAISTI_OPEN = 7,            /* the handle is open already */
    PELGAISTI_NO_SUCH_COUNT = 8,   /* the number of sessions is not in 1 to PELGAISTI_MAX_SESSIONS, or a bound isn't in its range */
    PELGAISTI_PENDING = 9,         /* the session has a pending call or program */
    PELGAISTI_NOTHING_PENDING = 10, /* it has none */
    PELGAISTI_NOT_SERVED = 11,     /* there is no answer yet to the pending call */
    PELGAISTI_RETIRED = 12,        /* the session has retired, and makes no more calls */
    PELGAISTI_ELSEWHERE = 13,      /* another session has the lock table */
    PELGAISTI_OTHER_OFFICE = 14,   /* the two sessions belong to different offices */
    PELGAISTI_MISSING = 15,        /* a session of the office was not handed in */
    PELGAISTI_COPIED = 16,         /* an open handle isn't where it was opened: it is a copy, or was moved */
    PELGAISTI_NULL = 17,           /* a pointer is NULL and must not be */
    PELGAISTI_SAME = 18,           /* both handles are the same */
    PELGAISTI_LET_GO = 19,         /* the entry at this place of the history was let go */
    PELGAISTI_NO_SUCH_START = 21, PELGAISTI_NOT_ON_PATH = 22, PELGAISTI_NO_SUCH_ABOVE = 23, /* a program's start, level, above is none */
    PELGAISTI_VICTIM = 25,         /* the transaction is a deadlock's victim: undo, then abort or restart */
    PELGAISTI_TIMED_OUT = 26,      /* the lock wasn't granted in time, and is waited for no more */
    PELGAISTI_DENIED = 27,         /* the request was refused; the answer has the pelgaisti_why */
    PELGAISTI_LOOKS = 28,          /* the book is a view, and the call would change it */
    PELGAISTI_NOT_A_LOOK = 29      /* the book is no view. Numbers 20 and 24 are retired */
} pelgaisti_status;

/* The lock modes of Gray, Lorie, Putzolu and Traiger (1976), and U. The or of two codes is their least upper bound's code. */
typedef enum pelgaisti_mode {
    PELGAISTI_NL = 0, /* no lock */
    PELGAISTI_IS = 1, /* intention to read below */
    PELGAISTI_IX = 3, /* intention to write below */
    PELGAISTI_S = 5,  /* read */
    PELGAISTI_SIX = 7, /* read, and intention to write below */
    PELGAISTI_X = 15, /* write */
    PELGAISTI_U = 13  /* read, and announce a conversion to X: granted beside IS and S, which are not granted beside U */
} pelgaisti_mode;

/* The kinds of calls. LOCK, CONVERT and TRY use the call's resource and mode, RELEASE its resource. Other fields are not read. */
typedef enum pelgaisti_op {
    PELGAISTI_BEGIN = 1,   /* begins a transaction */
    PELGAISTI_LOCK = 2,    /* locks a resource in a mode, or raises the mode held there to the least upper bound of both */
    PELGAISTI_CONVERT = 3, /* like LOCK, for a resource that the transaction holds already */
    PELGAISTI_POLL = 4,    /* asks whether the session waits, or is a deadlock's victim */
    PELGAISTI_RELEASE = 5, /* releases one lock */
    PELGAISTI_COMMIT = 6,  /* ends the transaction and releases all its locks */
    PELGAISTI_ABORT = 7,   /* like COMMIT, also for a transaction that waits or is a victim */
    PELGAISTI_TRY = 8,     /* like LOCK, but is refused with WOULD_WAIT where LOCK would wait */
    PELGAISTI_WITHDRAW = 9, /* takes the session's waiting request back: the transaction goes on, with the locks that it holds */
    PELGAISTI_RESTART = 10 /* like ABORT, and the transaction is open again at once with its old number, not a victim */
} pelgaisti_op;

/* The kinds of replies, with the meaning of the reply's value. */
typedef enum pelgaisti_kind {
    PELGAISTI_BEGAN = 1,     /* the transaction's number; the first is 1 */
    PELGAISTI_GRANTED = 2,   /* the pelgaisti_mode that the session holds now */
    PELGAISTI_WAITING = 3,   /* 0: poll until the reply is CLEAR, which means granted, or DEADLOCK; or WITHDRAW */
    PELGAISTI_DEADLOCK = 4,  /* 0: the transaction is a victim. It keeps its locks: undo, then abort or restart */
    PELGAISTI_CLEAR = 5,     /* 0: the session waits for nothing. What it waited for is granted, a conversion in the or of both codes */
    PELGAISTI_RELEASED = 6,  /* 0 */
    PELGAISTI_COMMITTED = 7, PELGAISTI_ABORTED = 8, PELGAISTI_RESTARTED = 11, /* the number of locks that were released */
    PELGAISTI_REFUSED = 9,   /* a pelgaisti_why. The call is in the history, and has no other effect */
    PELGAISTI_WITHDRAWN = 10 /* 0: the request was not granted and waits no more */
} pelgaisti_kind;

/* The reason for a refusal: the first test that failed. Number 10 is retired. */
typedef enum pelgaisti_why {
    PELGAISTI_ALREADY_OPEN = 1,    /* the session already has a transaction */
    PELGAISTI_NO_TRANSACTION = 2,  /* the session has no transaction */
    PELGAISTI_IS_WAITING = 3,      /* a request of the session waits */
    PELGAISTI_IS_DOOMED = 4,       /* the transaction is a victim and can only abort or restart */
    PELGAISTI_NOTHING_ASKED = 5,   /* the mode is NL */
    PELGAISTI_NOT_HELD = 6,        /* the session does not hold the resource */
    PELGAISTI_PARENT_NOT_HELD = 7, /* the session does not hold the parent in a mode that the lock needs there */
    PELGAISTI_CHILD_HELD = 8,      /* the session holds a resource below: locks are released from leaf to root */
    PELGAISTI_TOO_MANY_LOCKS = 9,  /* the transaction holds PELGAISTI_MAX_LOCKS locks */
    PELGAISTI_WOULD_WAIT = 11,     /* the lock that TRY asks for can't be granted at once */
    PELGAISTI_NOT_WAITING = 12     /* the session has no waiting request to withdraw: one that it had was granted */
} pelgaisti_why;

/* What a program does with the session's transaction first. */
typedef enum pelgaisti_start {
    PELGAISTI_NOTHING = 0, PELGAISTI_BEGINS = 1, PELGAISTI_COMMITS = 2, PELGAISTI_ABORTS = 3,
    PELGAISTI_COMMITS_AND_BEGINS = 4, PELGAISTI_ABORTS_AND_BEGINS = 5, PELGAISTI_RESTARTS = 6
} pelgaisti_start;
/* A published call is on the list that each pass walks; or not yet, and is served by passes of its own session alone. */
typedef enum pelgaisti_posted { PELGAISTI_LISTED = 1, PELGAISTI_UNLISTED = 2 } pelgaisti_posted;
/* A claim is a lock, a waiting request for more on a resource that the session holds, or one for a resource that it doesn't hold. */
typedef enum pelgaisti_claim_kind { PELGAISTI_HELD = 1, PELGAISTI_CONVERSION = 2, PELGAISTI_FRESH = 3 } pelgaisti_claim_kind;
enum { PELGAISTI_TRANSACTION_ROW = 0 };

/* A node of the lock tree, by its path from the root: database, file, page, record, field. The first `level` numbers are the path, 1 to
   PELGAISTI_LEVELS of them; 0 for no resource. */
typedef struct pelgaisti_resource { uint32_t level, numbers[PELGAISTI_LEVELS]; } pelgaisti_resource;

/* A call, of an op in a mode; its reply, of a kind; and the history's entry of both, in which is 0 what the call doesn't use. */
typedef struct pelgaisti_call { uint32_t op, mode; pelgaisti_resource resource; } pelgaisti_call;
typedef struct pelgaisti_reply { uint32_t kind; uint64_t value; } pelgaisti_reply;
typedef struct pelgaisti_entry { uint32_t session; pelgaisti_call call; pelgaisti_reply reply; } pelgaisti_entry;
/* What a session is answered: `place` is the index of the call's entry in the history, from 0. */
typedef struct pelgaisti_answer { uint64_t place; pelgaisti_reply reply; } pelgaisti_answer;

/* What pelgaisti_session_lock and .._wait tell beside their status. */
typedef struct pelgaisti_lock_answer {
    uint32_t level; /* how many levels of the path the session holds as it was asked for, from the database down; of .._wait 0 */
    uint32_t why;   /* with DENIED a pelgaisti_why; else 0 */
    uint64_t place; /* of the last call that was answered */
} pelgaisti_lock_answer;

/* Several calls of a session that are made as one, with no other session's call between them. A program does what `start` says, locks the
   ancestors of the last call's resource in the mode `above`, each by a LOCK, or a TRY before a TRY, and makes the last call. The first `level` levels of the path
   are locked already, and aren't locked again: with 1 less than the resource's no ancestor is. The last call's op is LOCK, CONVERT, TRY or
   RELEASE; POLL or WITHDRAW, with which `level` and `above` are not read; or 0 for no call but what `start` says. */
typedef struct pelgaisti_program {
    uint32_t start; /* a pelgaisti_start */
    uint32_t level; /* less than the resource's */
    uint32_t above; /* a pelgaisti_mode, such as pelgaisti_parent_mode of the last call's */
    pelgaisti_call last;
} pelgaisti_program;

/* Its calls, at most PELGAISTI_CALLS, are served in order, up to the first whose reply is WAITING, DEADLOCK or REFUSED: there it stops. */
typedef struct pelgaisti_program_answer {
    uint64_t place;   /* of the first call; if none was served, of the next entry */
    uint32_t served;  /* how many of its calls were served */
    uint32_t starved; /* 1 if it ends there because memory was refused to the next call, which the caller makes again; else 0 */
    uint32_t stop;    /* the kind of the last reply if it stopped at that; else 0 */
    uint64_t values[PELGAISTI_CALLS]; /* of the replies to these; behind them 0. pelgaisti_program_replies tells their kinds */
} pelgaisti_program_answer;

/* How many published calls a pass served, a program as one; and 1 if some were put back, since memory was refused, and stay published. */
typedef struct pelgaisti_pass { uint32_t served, starved; } pelgaisti_pass;

typedef struct pelgaisti_holder { uint32_t session, mode; } pelgaisti_holder;
/* A session's open transaction: `number` is 0 if it has none, `doomed` 1 if it is a victim that has not aborted or restarted yet. */
typedef struct pelgaisti_transaction { uint64_t number; uint32_t doomed; } pelgaisti_transaction;

/* A lock or a waiting request of a session. */
typedef struct pelgaisti_claim {
    uint32_t session, kind; /* a pelgaisti_claim_kind; 0 if there is none, and PELGAISTI_TRANSACTION_ROW, an open transaction, in a dump */
    uint32_t mode, doomed;  /* of a lock its mode, of a request the mode that the session holds once it is granted */
    uint64_t transaction;   /* its number */
    pelgaisti_resource resource;
} pelgaisti_claim;

/* A deadlock, as it was before its victim was doomed. Its members are in a list of their own: the victim first, each of which waits for
   the next one, and the last for the victim. */
typedef struct pelgaisti_deadlock {
    uint64_t place;   /* of the call that closed the cycle */
    uint32_t session; /* of that call */
    size_t members;   /* how many sessions are on the cycle, at least 2 */
} pelgaisti_deadlock;

typedef struct pelgaisti_member {
    pelgaisti_claim request; /* what the session waited with. `doomed` is 0 */
    uint32_t held; /* the mode in which the next session held the resource. If it doesn't conflict, its request was ahead in the queue */
} pelgaisti_member;

/* The counters of a history, from its beginning. All but `waiting` only grow.
       requests == granted_at_once + waits_begun + requests_refused
       waits_begun == waits_granted + victims + waits_withdrawn + waits_aborted + waits_restarted + waiting */
typedef struct pelgaisti_counts {
    uint64_t calls[PELGAISTI_OP_NUMBERS];     /* of each op, also refused ones: calls[PELGAISTI_LOCK] */
    uint64_t refusals[PELGAISTI_WHY_NUMBERS]; /* for each pelgaisti_why */
    uint64_t requests, granted_at_once, requests_refused; /* calls of LOCK, CONVERT and TRY */
    uint64_t waits_begun;     /* with the reply WAITING or DEADLOCK */
    uint64_t waits_granted;   /* by a call of another session */
    uint64_t victims;         /* waits that a deadlock ended: how many victims there were */
    uint64_t waits_withdrawn, waits_aborted, waits_restarted; /* ended by a call of their session; withdrawn also by a time-out */
    uint64_t waiting;         /* those that wait now */
    uint64_t deadlocks;       /* calls that closed a cycle of waits, each once, however many victims it made */
} pelgaisti_counts;

/* How much there is in a lock table at one moment. */
typedef struct pelgaisti_gauges {
    uint64_t transactions, locks, waiting; /* open transactions, locks, and requests that wait */
    uint64_t longest_queue; /* the most requests that wait for one resource */
    uint64_t idle_cells;    /* cells of the table whose resource nobody holds or waits for: the next new resources take them */
} pelgaisti_gauges;

/* The passes of an office since it was opened, the published calls and programs that they served, and how many passes put calls back. */
typedef struct pelgaisti_pass_counts { uint64_t made, served, starved; } pelgaisti_pass_counts;

#if defined(__cplusplus) && __cplusplus >= 201703L /* it is a part of a function's type that it throws nothing */
#define PELGAISTI_NOEXCEPT_TYPE_ noexcept
#else
#define PELGAISTI_NOEXCEPT_TYPE_
#endif

/* What wakes threads that sleep by the engine's means, such as a semaphore for each session: `wake` is called with `engine` and the number
   of each session whose wait a pass has ended. Threads in pelgaisti_session_lock and .._wait need none. Rules:
   - The thread that made the pass calls it, behind the pass, whatever status its call returns. Several threads may be in it at a time.
   - It may post a semaphore, or lock a mutex that no thread holds while it makes a call. The handle of its thread's call is closed.
   - It may be called for a session that is awake, and before a thread sleeps. So what a thread sleeps on keeps a wake-up that comes early;
     who is woken polls, and sleeps on if the reply is WAITING.
   - It returns: no longjmp, no exception, no end of its thread. If its thread may be cancelled, it disables that at cancellation points. */
typedef struct pelgaisti_waker {
    void (*wake)(void *engine, uint32_t session) PELGAISTI_NOEXCEPT_TYPE_;
    void *engine;
} pelgaisti_waker;
#undef PELGAISTI_NOEXCEPT_TYPE_

/* How a lock table is opened. A book has no passes and no waker, and doesn't read these fields. */
typedef struct pelgaisti_options {
    uint32_t sessions; /* 1 to PELGAISTI_MAX_SESSIONS; their numbers are from 1 on */
    uint32_t pass_calls, pass_locks, pass_rounds; /* the bound of a pass (pelgaisti_session_bound_passes): 64, 4,096, 4 */
    uint64_t keep;      /* how many entries of the history are kept, the newest: 1,024 by default, 0 for none, UINT64_MAX for all */
    uint64_t deadlocks; /* how many deadlocks are kept, the newest, with some 56 bytes a session for each; 0, the default */
    uint64_t seed;      /* of the hash of resources. 0, the default: drawn anew, so that nobody can choose numbers that collide */
    const pelgaisti_waker *waker; /* of an office, which keeps its place and fields until that is closed. NULL, the default: none */
} pelgaisti_options;

/* Handles, and how far a dump has been written as text: PELGAISTI_EMPTY and PELGAISTI_DUMPING at first. */
typedef struct pelgaisti_book { uint32_t is_open_, note_; void *at_, *look_; } pelgaisti_book;
typedef struct pelgaisti_session { uint32_t is_open_, note_; void *at_; } pelgaisti_session;
typedef struct pelgaisti_dumping { size_t row_, wait_; } pelgaisti_dumping;
#define PELGAISTI_OPTIONS(sessions) {(sessions), 64, 4096, 4, 1024, 0, 0, NULL}
#define PELGAISTI_DUMPING PELGAISTI_EMPTY

/* The sizes with which the library was compiled. */
#define PELGAISTI_SIZE_(type, size) typedef char pelgaisti_size_of_##type[sizeof(pelgaisti_##type) == (size) ? 1 : -1]
PELGAISTI_SIZE_(resource, 24); PELGAISTI_SIZE_(call, 32); PELGAISTI_SIZE_(reply, 16); PELGAISTI_SIZE_(entry, 56);
PELGAISTI_SIZE_(answer, 24); PELGAISTI_SIZE_(lock_answer, 16); PELGAISTI_SIZE_(program, 44); PELGAISTI_SIZE_(program_answer, 80);
PELGAISTI_SIZE_(pass, 8); PELGAISTI_SIZE_(holder, 8); PELGAISTI_SIZE_(transaction, 16); PELGAISTI_SIZE_(claim, 48);
PELGAISTI_SIZE_(deadlock, 24); PELGAISTI_SIZE_(member, 56); PELGAISTI_SIZE_(counts, 280); PELGAISTI_SIZE_(gauges, 40);
PELGAISTI_SIZE_(pass_counts, 24); PELGAISTI_SIZE_(options, 48); PELGAISTI_SIZE_(book, 24); PELGAISTI_SIZE_(session, 16);
#undef PELGAISTI_SIZE_

/* ---- Open. ---- */
/* PELGAISTI_OPTIONS as a value. */
pelgaisti_options pelgaisti_default_options(uint32_t sessions);
/* Opens a book. -> NULL, OPEN, NO_SUCH_COUNT, NO_MEMORY */
pelgaisti_status pelgaisti_book_open(pelgaisti_book *book, const pelgaisti_options *options);
/* Opens an office by its sessions: an array of options->sessions handles, of which sessions[0] is session 1. None is looked at if that
   number is out of its range. After it no pass lacks memory for whom to wake. -> NULL (also the `wake` of a waker), NO_SUCH_COUNT, OPEN
   (one of the handles), NO_MEMORY */
pelgaisti_status pelgaisti_office_open(pelgaisti_session *sessions, const pelgaisti_options *options);

/* ---- Call: begin, lock, commit. ---- */
/* Serves one call of a session. Also a refused one is in the history. -> NULL, CLOSED, LOOKS, NO_SUCH_SESSION, NO_SUCH_OP,
   NO_SUCH_LEVEL, NO_SUCH_MODE, NO_MEMORY */
pelgaisti_status pelgaisti_book_serve(pelgaisti_book *book, uint32_t session, const pelgaisti_call *call, pelgaisti_reply *reply);

/* Serves calls in order, each given by `session` and `call` of an entry; those that are served become their entries of the history.
   Writes to `count` how many they are: fewer than `length` only if memory was refused for the next one. If an entry is no call, its
   status is returned, and none is served. -> NULL, CLOSED, LOOKS, NO_SUCH_SESSION, NO_SUCH_OP, NO_SUCH_LEVEL, NO_SUCH_MODE, NO_MEMORY */
pelgaisti_status pelgaisti_book_serve_batch(pelgaisti_book *book, pelgaisti_entry *calls, size_t length, size_t *count);

/* Makes a call of an office's session, in at most `turns` turns: tries to perform it at once, and else publishes it and looks for the answer;
   one look in eight tries first to serve. Where such tries were often in vain, the call is published at once, if it may make more than eight
   turns. A call that may make more than 128 may sleep until the lock table is given back; before it begins a transaction, until its thread's
   turn among others comes. With 0 turns the call is published and nothing else. With NULL for `call` goes on with the call that is pending.
   The answer may be WAITING: the call waits for an answer, and not for a lock, as pelgaisti_session_wait does.
   -> NULL, CLOSED, NO_SUCH_OP, NO_SUCH_LEVEL, NO_SUCH_MODE, RETIRED, PENDING; with NULL for `call` NOTHING_PENDING; NOT_SERVED (no
      answer in so many turns), NO_MEMORY (refused, for the call or in a pass of this session): with both the call is pending */
pelgaisti_status pelgaisti_session_perform(pelgaisti_session *session, const pelgaisti_call *call, uint64_t turns,
                                           pelgaisti_answer *answer);

/* Runs a program. NO_MEMORY: memory was refused to its first call, and nothing has changed. To a later one: OK, and `starved`. -> NULL,
   CLOSED, LOOKS, NO_SUCH_SESSION, NO_SUCH_START, NO_SUCH_OP, NO_SUCH_LEVEL, NO_SUCH_MODE (the last call's), NOT_ON_PATH, NO_SUCH_ABOVE,
   NO_MEMORY */
pelgaisti_status pelgaisti_book_run(pelgaisti_book *book, uint32_t session, const pelgaisti_program *program,
                                    pelgaisti_program_answer *answer);

/* Runs a program of an office's session, in turns as pelgaisti_session_perform makes them. With NULL for `program` goes on with what is
   pending; a single call is told as a program of it. A pending program of several calls is finished by this function alone. -> NULL,
   CLOSED, NO_SUCH_START, NO_SUCH_OP, NO_SUCH_LEVEL, NO_SUCH_MODE (the last call's), NOT_ON_PATH, NO_SUCH_ABOVE, RETIRED, PENDING; with
   NULL for `program` NOTHING_PENDING; NO_MEMORY, NOT_SERVED, as above */
pelgaisti_status pelgaisti_session_run(pelgaisti_session *session, const pelgaisti_program *program, uint64_t turns,
                                       pelgaisti_program_answer *answer);
/* Writes the replies that an answer to the program tells, one by one, and returns how many: PELGAISTI_CALLS at most. */
uint32_t pelgaisti_program_replies(const pelgaisti_program *program, const pelgaisti_program_answer *answer, pelgaisti_reply *replies);
/* The mode that a lock in this mode needs of the parent, at least: IS for IS and S, IX for IX, SIX, U and X, other numbers as they are. */
uint32_t pelgaisti_parent_mode(uint32_t mode);
/* The next call on the way down a path of which `level` levels, fewer than the resource has, are locked: a LOCK of the next level. */
pelgaisti_call pelgaisti_path_call(const pelgaisti_resource *resource, uint32_t mode, uint32_t level);

/* ---- Wait for locks: victims, time-outs. ---- */
/* Locks a resource in a mode, and its ancestors before it in the mode that this needs of them, and sleeps while a request waits. It asks
   for all levels; pelgaisti_session_run with `level`, and then pelgaisti_session_wait, doesn't ask for those that are held.
       OK          the session holds them.
       VICTIM      the transaction is a deadlock's victim. It keeps its locks: undo, then PELGAISTI_ABORT or PELGAISTI_RESTART.
       TIMED_OUT   the request of level `level` + 1 wasn't granted in time, and was taken back. The transaction goes on, or restarts.
       DENIED      that request was refused for `why`, such as NO_TRANSACTION.
       NO_MEMORY   a call or a program may be pending: pelgaisti_session_wait goes on; after its OK the same call may be made again, whose
                   answer tells all levels. Before that pelgaisti_book_held, of a look, tells what the session holds.
   The answer is written with each of these five. `timeout_ms` runs from the first request that waits, by CLOCK_MONOTONIC, and bounds the
   wait for locks, not that for the lock table. 0: no request waits, each is a TRY. PELGAISTI_FOREVER: no end. No signal ends the sleep.
       const pelgaisti_resource row = {4, {1, 2, 3, 4}};
       if (pelgaisti_session_lock(session, &row, PELGAISTI_X, 1000, &answer) == PELGAISTI_OK) ...
   -> NULL, CLOSED, NO_SUCH_LEVEL, NO_SUCH_MODE, RETIRED, PENDING; NO_MEMORY, VICTIM, TIMED_OUT, DENIED */
pelgaisti_status pelgaisti_session_lock(pelgaisti_session *session, const pelgaisti_resource *resource, uint32_t mode,
                                        uint64_t timeout_ms, pelgaisti_lock_answer *answer);

/* Waits so for the request of a call or a program that was answered WAITING; finishes first what is pending. OK: the session waits for
   nothing. With 0 for `timeout_ms` takes a request back that waits. -> NULL, CLOSED, RETIRED; NO_MEMORY, VICTIM, TIMED_OUT, DENIED */
pelgaisti_status pelgaisti_session_wait(pelgaisti_session *session, uint64_t timeout_ms, pelgaisti_lock_answer *answer);
/* Lists the sessions whose wait the last call, batch or program of a book has ended, each once: granted, or a victim, as their polls
   tell. Not that of the call itself; after a batch also those that wait again. -> NULL, CLOSED, LOOKS */
pelgaisti_status pelgaisti_book_ended(pelgaisti_book *book, uint32_t *list, size_t room, size_t *count);

/* ---- Publish, serve, collect: for a thread that works while its call is pending. ---- */
/* Publishes a call, which is pending until its answer is collected. `posted`, which may be NULL, gets a pelgaisti_posted. -> NULL,
   CLOSED, NO_SUCH_OP, NO_SUCH_LEVEL, NO_SUCH_MODE, RETIRED, PENDING */
pelgaisti_status pelgaisti_session_publish(pelgaisti_session *session, const pelgaisti_call *call, uint32_t *posted);
/* Tries once for the lock table, and makes a pass: serves all that is published, and the session's own pending call. `pass` may be NULL.
   ELSEWHERE: the session's call may have been listed. -> NULL, CLOSED, ELSEWHERE */
pelgaisti_status pelgaisti_session_serve(pelgaisti_session *session, pelgaisti_pass *pass);
/* Takes the answer to the pending call. Behind a serve of this session that isn't starved it is there. -> NULL, CLOSED, NOTHING_PENDING,
   PENDING (a program of several calls), NOT_SERVED */
pelgaisti_status pelgaisti_session_collect(pelgaisti_session *session, pelgaisti_answer *answer);
/* Makes known to `session` what `other` knows of the history: what it publishes from then on is entered behind that. -> NULL, SAME,
   CLOSED (one of the handles), OTHER_OFFICE */
pelgaisti_status pelgaisti_session_hear(pelgaisti_session *session, pelgaisti_session *other);
/* Writes how many entries of the history the session knows, which are the first ones. -> NULL, CLOSED */
pelgaisti_status pelgaisti_session_seen(pelgaisti_session *session, uint64_t *seen);
/* Writes the mark of the session's office, a number from 1 on that no other office of the process has. -> NULL, CLOSED */
pelgaisti_status pelgaisti_session_mark(pelgaisti_session *session, uint64_t *mark);

/* Bounds the passes of the session's perform, run, lock and wait: a round serves at most `calls` calls (1 to 65,535), none once those that
   it took release `locks` locks (from 1 on); a pass has at most `rounds` rounds (1 to 65,535). -> NULL, CLOSED, NO_SUCH_COUNT */
pelgaisti_status pelgaisti_session_bound_passes(pelgaisti_session *session, uint32_t calls, uint32_t locks, uint32_t rounds);

/* ---- Look. What a view can't do returns LOOKS. ---- */
/* Waits for the lock table, for which other calls stand back, takes it, and opens `view`: a book on which every question may be asked, with
   answers of one moment. A call may be pending. Until pelgaisti_look_end `session` is closed, and other calls
   for the table wait, also those with a time-out: one that this thread makes by another session, or another look, for ever.
       pelgaisti_book view = PELGAISTI_EMPTY;
       pelgaisti_session_look(session, &view);
       pelgaisti_book_gauges(&view, &gauges);
       pelgaisti_look_end(session, &view);
   -> NULL, OPEN (the view), CLOSED (the session) */
pelgaisti_status pelgaisti_session_look(pelgaisti_session *session, pelgaisti_book *view);
/* Gives the lock table back, closes `view`, and opens `session`, the handle that looked; it knows the history up to the look. No other
   closed handle is given: it would be opened in place of that one. -> NULL, OPEN (the session), CLOSED (the view), NOT_A_LOOK */
pelgaisti_status pelgaisti_look_end(pelgaisti_session *session, pelgaisti_book *view);
/* Writes the mode that the session holds on the resource, PELGAISTI_NL for none. -> NULL, CLOSED, NO_SUCH_SESSION, NO_SUCH_LEVEL */
pelgaisti_status pelgaisti_book_held(pelgaisti_book *book, uint32_t session, const pelgaisti_resource *resource, uint32_t *mode);
/* Lists the holders of the resource, by session number. -> NULL, CLOSED, NO_SUCH_LEVEL, NO_MEMORY */
pelgaisti_status pelgaisti_book_holders(pelgaisti_book *book, const pelgaisti_resource *resource, pelgaisti_holder *list,
                                        size_t room, size_t *count);
/* Lists the sessions for which the session waits directly, by number: those that hold what it waits for in a mode that conflicts, or
   have a request ahead in the queue. -> NULL, CLOSED, NO_SUCH_SESSION */
pelgaisti_status pelgaisti_book_blockers(pelgaisti_book *book, uint32_t session, uint32_t *list, size_t room, size_t *count);
/* Write the session's open transaction, and its waiting request, of kind 0 if it doesn't wait. -> NULL, CLOSED, NO_SUCH_SESSION */
pelgaisti_status pelgaisti_book_transaction(pelgaisti_book *book, uint32_t session, pelgaisti_transaction *open);
pelgaisti_status pelgaisti_book_request(pelgaisti_book *book, uint32_t session, pelgaisti_claim *waiting);
/* Writes how many locks the session holds. -> NULL, CLOSED, NO_SUCH_SESSION */
pelgaisti_status pelgaisti_book_locks_held(pelgaisti_book *book, uint32_t session, size_t *count);

/* Writes a page of a session's locks: the first `room` on resources behind `after` (level 0: of all) in the order of paths; and to `count`
   how many: fewer than `room` are the last page. -> NULL, CLOSED, NO_SUCH_SESSION, NO_SUCH_LEVEL (of `after`), NO_MEMORY */
pelgaisti_status pelgaisti_book_locks_of(pelgaisti_book *book, uint32_t session, const pelgaisti_resource *after,
                                         pelgaisti_claim *list, size_t room, size_t *count);

/* Lists the whole state: a row for each open transaction, by session number; then each resource, in the order of paths, with its holders
   by session number and its queue in the order of grants. `place` gets the length of the history. A dump with more rows than `room`
   isn't whole; it has as many as the gauges' transactions, locks and waiting requests. Its cost is that of sorting all claims.
   -> NULL, CLOSED, NO_MEMORY */
pelgaisti_status pelgaisti_book_dump(pelgaisti_book *book, pelgaisti_claim *rows, size_t room, size_t *count, uint64_t *place);

/* Writes the next line of a dump, of which so many rows were written, as text, as snprintf does; 100 bytes are enough. Returns its
   length, 0 after the last one. The lines of a whole dump are those of `glm show --csv`, which `glm show --state` reads. `at` is
   PELGAISTI_DUMPING at first. Needs no handle.
       pelgaisti_book_dump(&view, rows, room, &count, &place);
       if (count > room) count = room;
       while (pelgaisti_dump_line(rows, count, &at, line, sizeof line)) fputs(line, file); */
uint32_t pelgaisti_dump_line(const pelgaisti_claim *rows, size_t written, pelgaisti_dumping *at, char *text, size_t room);
/* Write counters, gauges, and what an office's passes have served: 0 of a book that is no view. -> NULL, CLOSED */
pelgaisti_status pelgaisti_book_counts(pelgaisti_book *book, pelgaisti_counts *counts);
pelgaisti_status pelgaisti_book_gauges(pelgaisti_book *book, pelgaisti_gauges *gauges);
pelgaisti_status pelgaisti_book_passes(pelgaisti_book *book, pelgaisti_pass_counts *passes);

/* Writes the newest `room` of the deadlocks that are kept (options.deadlocks), oldest first, and to `count` the number of all; and their
   members, deadlock by deadlock, up to `member_room`, and to `member_count` how many these deadlocks have. There is one for each victim,
   with a shortest of its cycles. -> NULL, CLOSED, NO_MEMORY */
pelgaisti_status pelgaisti_book_deadlocks(pelgaisti_book *book, pelgaisti_deadlock *list, size_t room, size_t *count,
                                          pelgaisti_member *members, size_t member_room, size_t *member_count);

/* Writes a deadlock, all of whose members were written, as lines of text, as snprintf does, and returns the length of the whole text:
       deadlock at place 5: session 2 closed a cycle, session 2 is its victim
         session 2, transaction 2, waits for 1 in S, which session 1 holds in X
         session 1, transaction 1, waits for 2 in X, which session 2 holds in S */
size_t pelgaisti_deadlock_text(const pelgaisti_deadlock *deadlock, const pelgaisti_member *members, char *text, size_t room);

/* ---- The history: each call with its reply, in the order in which they were served. ---- */
/* Writes the place of the first entry that is kept, and the length of the history, with what was let go. -> NULL, CLOSED */
pelgaisti_status pelgaisti_book_length(pelgaisti_book *book, uint64_t *first_kept, uint64_t *length);
/* Writes up to `room` entries from the place `first` on, and to `count` how many. -> NULL, CLOSED, LET_GO (the entry at `first`) */
pelgaisti_status pelgaisti_book_history(pelgaisti_book *book, uint64_t first, pelgaisti_entry *entries, size_t room, size_t *count);

/* Take the oldest entries that are kept, up to `room`, out of the library's memory: the first has the place `first`. Of a session: waits
   for the lock table as a look does, but no longer than some 5 milliseconds; a call may be pending. -> NULL, CLOSED, LOOKS; of a session
   NULL, CLOSED, NO_MEMORY (for `room` entries), ELSEWHERE */
pelgaisti_status pelgaisti_book_take_history(pelgaisti_book *book, uint64_t *first, pelgaisti_entry *entries, size_t room, size_t *count);
pelgaisti_status pelgaisti_session_take_history(pelgaisti_session *session, uint64_t *first, pelgaisti_entry *entries, size_t room,
                                                size_t *count);
/* Keeps the newest `bound` entries from now on (UINT64_MAX: all), in memory of at most four times as many. -> NULL, CLOSED, LOOKS */
pelgaisti_status pelgaisti_book_keep_at_most(pelgaisti_book *book, uint64_t bound);

/* ---- Memory. It grows by doubling, and none is given back unasked. Of a view, too: this changes nothing that another call tells. ---- */
/* Makes room for so many resources beside those held or waited for, and entries beside those kept: until they have come, no call grows
   either. NO_MEMORY: some of the room may have been made. -> NULL, CLOSED, NO_MEMORY */
pelgaisti_status pelgaisti_book_reserve(pelgaisti_book *book, size_t resources, size_t entries);
/* Gives back memory that isn't in use: idle cells, empty lists of locks, entries that were let go, room. -> NULL, CLOSED */
pelgaisti_status pelgaisti_book_shrink(pelgaisti_book *book);

/* ---- Close. ---- */
/* Retires the session: it makes no more calls. Its transaction and locks stay as they are. -> NULL, CLOSED, RETIRED, PENDING */
pelgaisti_status pelgaisti_session_retire(pelgaisti_session *session);
/* Hands the session, with all that were handed in to it, in to another of its office, and closes its handle. -> NULL, SAME, CLOSED (one
   of the handles), OTHER_OFFICE, PENDING (`session`), NO_MEMORY */
pelgaisti_status pelgaisti_session_hand_in(pelgaisti_session *session, pelgaisti_session *to);

/* Closes the office of `session`, to which all other sessions were handed in, and opens `book` with the lock table, what is open in it, and
   the history. COPIED of handles in their places: another one of the office is open, against the rules; `session` is closed then.
   -> NULL, OPEN (the book), CLOSED (the session), MISSING, PENDING, NO_MEMORY, COPIED */
pelgaisti_status pelgaisti_office_close(pelgaisti_session *session, pelgaisti_book *book);
/* Closes the book and frees its memory, whatever is open in it. The handle may be opened again. -> NULL, CLOSED, LOOKS */
pelgaisti_status pelgaisti_book_close(pelgaisti_book *book);

/* ---- Names of numbers, for messages: those of traces and histories. "unknown" for a number that has none. ---- */
const char *pelgaisti_status_name(uint64_t status);
const char *pelgaisti_mode_name(uint64_t mode);
const char *pelgaisti_op_name(uint64_t op);
const char *pelgaisti_reply_name(uint64_t kind);
const char *pelgaisti_refusal_name(uint64_t why);
/* PELGAISTI_HEADER_VERSION of the library, which rises when compiled programs could not use it. Compare it, if it may be another. */
uint32_t pelgaisti_version(void);

#ifdef __cplusplus
}
#endif
#endif
