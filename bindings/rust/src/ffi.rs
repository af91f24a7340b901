//! The numbers, structs and functions of `include/pelgaisti.h`, out of which `tools/rust_ffi` makes this file. The `SAFETY` comments of this
//! crate speak of the header's rules:
//!
//! - a handle is at its place from its opening to its close, one call at a time uses it, and nobody else reads or writes it;
//! - a pointer is to a value of its type, that of a list to `room` elements, and no two arguments overlap;
//! - all of the process's handles are of one copy of the library, as Cargo links no second one (`links`).
#![allow(dead_code)] // the crate doesn't use all that the header has

use std::mem::size_of;
use std::os::raw::{c_char, c_void};

pub(crate) const HEADER_VERSION: u32 = 6;
pub(crate) const LEVELS: usize = 5;
pub(crate) const CALLS: usize = 7;
pub(crate) const OP_NUMBERS: usize = 11;
pub(crate) const WHY_NUMBERS: usize = 13;
pub(crate) const MAX_SESSIONS: usize = 1024;
pub(crate) const MAX_LOCKS: usize = 4096;

pub(crate) const FOREVER: u64 = u64::MAX;

pub(crate) const OK: u32 = 0;
pub(crate) const NO_MEMORY: u32 = 1;
pub(crate) const CLOSED: u32 = 2;
pub(crate) const NO_SUCH_SESSION: u32 = 3;
pub(crate) const NO_SUCH_OP: u32 = 4;
pub(crate) const NO_SUCH_LEVEL: u32 = 5;
pub(crate) const NO_SUCH_MODE: u32 = 6;
pub(crate) const OPEN: u32 = 7;
pub(crate) const NO_SUCH_COUNT: u32 = 8;
pub(crate) const PENDING: u32 = 9;
pub(crate) const NOTHING_PENDING: u32 = 10;
pub(crate) const NOT_SERVED: u32 = 11;
pub(crate) const RETIRED: u32 = 12;
pub(crate) const ELSEWHERE: u32 = 13;
pub(crate) const OTHER_OFFICE: u32 = 14;
pub(crate) const MISSING: u32 = 15;
pub(crate) const COPIED: u32 = 16;
pub(crate) const NULL: u32 = 17;
pub(crate) const SAME: u32 = 18;
pub(crate) const LET_GO: u32 = 19;
pub(crate) const NO_SUCH_START: u32 = 21;
pub(crate) const NOT_ON_PATH: u32 = 22;
pub(crate) const NO_SUCH_ABOVE: u32 = 23;
pub(crate) const VICTIM: u32 = 25;
pub(crate) const TIMED_OUT: u32 = 26;
pub(crate) const DENIED: u32 = 27;
pub(crate) const LOOKS: u32 = 28;
pub(crate) const NOT_A_LOOK: u32 = 29;
pub(crate) const NL: u32 = 0;
pub(crate) const IS: u32 = 1;
pub(crate) const IX: u32 = 3;
pub(crate) const S: u32 = 5;
pub(crate) const SIX: u32 = 7;
pub(crate) const X: u32 = 15;
pub(crate) const U: u32 = 13;
pub(crate) const BEGIN: u32 = 1;
pub(crate) const LOCK: u32 = 2;
pub(crate) const CONVERT: u32 = 3;
pub(crate) const POLL: u32 = 4;
pub(crate) const RELEASE: u32 = 5;
pub(crate) const COMMIT: u32 = 6;
pub(crate) const ABORT: u32 = 7;
pub(crate) const TRY: u32 = 8;
pub(crate) const WITHDRAW: u32 = 9;
pub(crate) const RESTART: u32 = 10;
pub(crate) const BEGAN: u32 = 1;
pub(crate) const GRANTED: u32 = 2;
pub(crate) const WAITING: u32 = 3;
pub(crate) const DEADLOCK: u32 = 4;
pub(crate) const CLEAR: u32 = 5;
pub(crate) const RELEASED: u32 = 6;
pub(crate) const COMMITTED: u32 = 7;
pub(crate) const ABORTED: u32 = 8;
pub(crate) const RESTARTED: u32 = 11;
pub(crate) const REFUSED: u32 = 9;
pub(crate) const WITHDRAWN: u32 = 10;
pub(crate) const ALREADY_OPEN: u32 = 1;
pub(crate) const NO_TRANSACTION: u32 = 2;
pub(crate) const IS_WAITING: u32 = 3;
pub(crate) const IS_DOOMED: u32 = 4;
pub(crate) const NOTHING_ASKED: u32 = 5;
pub(crate) const NOT_HELD: u32 = 6;
pub(crate) const PARENT_NOT_HELD: u32 = 7;
pub(crate) const CHILD_HELD: u32 = 8;
pub(crate) const TOO_MANY_LOCKS: u32 = 9;
pub(crate) const WOULD_WAIT: u32 = 11;
pub(crate) const NOT_WAITING: u32 = 12;
pub(crate) const NOTHING: u32 = 0;
pub(crate) const BEGINS: u32 = 1;
pub(crate) const COMMITS: u32 = 2;
pub(crate) const ABORTS: u32 = 3;
pub(crate) const COMMITS_AND_BEGINS: u32 = 4;
pub(crate) const ABORTS_AND_BEGINS: u32 = 5;
pub(crate) const RESTARTS: u32 = 6;
pub(crate) const LISTED: u32 = 1;
pub(crate) const UNLISTED: u32 = 2;
pub(crate) const HELD: u32 = 1;
pub(crate) const CONVERSION: u32 = 2;
pub(crate) const FRESH: u32 = 3;
pub(crate) const TRANSACTION_ROW: u32 = 0;

#[repr(C)]
#[derive(Clone, Copy, Default)]
pub(crate) struct RawResource {
    pub(crate) level: u32,
    pub(crate) numbers: [u32; LEVELS],
}

#[repr(C)]
#[derive(Clone, Copy, Default)]
pub(crate) struct RawCall {
    pub(crate) op: u32,
    pub(crate) mode: u32,
    pub(crate) resource: RawResource,
}

#[repr(C)]
#[derive(Clone, Copy, Default)]
pub(crate) struct RawReply {
    pub(crate) kind: u32,
    pub(crate) value: u64,
}

#[repr(C)]
#[derive(Clone, Copy, Default)]
pub(crate) struct RawEntry {
    pub(crate) session: u32,
    pub(crate) call: RawCall,
    pub(crate) reply: RawReply,
}

#[repr(C)]
#[derive(Clone, Copy, Default)]
pub(crate) struct RawAnswer {
    pub(crate) place: u64,
    pub(crate) reply: RawReply,
}

#[repr(C)]
#[derive(Clone, Copy, Default)]
pub(crate) struct RawLockAnswer {
    pub(crate) level: u32,
    pub(crate) why: u32,
    pub(crate) place: u64,
}

#[repr(C)]
#[derive(Clone, Copy, Default)]
pub(crate) struct RawProgram {
    pub(crate) start: u32,
    pub(crate) level: u32,
    pub(crate) above: u32,
    pub(crate) last: RawCall,
}

#[repr(C)]
#[derive(Clone, Copy, Default)]
pub(crate) struct RawProgramAnswer {
    pub(crate) place: u64,
    pub(crate) served: u32,
    pub(crate) starved: u32,
    pub(crate) stop: u32,
    pub(crate) values: [u64; CALLS],
}

#[repr(C)]
#[derive(Clone, Copy, Default)]
pub(crate) struct RawPass {
    pub(crate) served: u32,
    pub(crate) starved: u32,
}

#[repr(C)]
#[derive(Clone, Copy, Default)]
pub(crate) struct RawHolder {
    pub(crate) session: u32,
    pub(crate) mode: u32,
}

#[repr(C)]
#[derive(Clone, Copy, Default)]
pub(crate) struct RawTransaction {
    pub(crate) number: u64,
    pub(crate) doomed: u32,
}

#[repr(C)]
#[derive(Clone, Copy, Default)]
pub(crate) struct RawClaim {
    pub(crate) session: u32,
    pub(crate) kind: u32,
    pub(crate) mode: u32,
    pub(crate) doomed: u32,
    pub(crate) transaction: u64,
    pub(crate) resource: RawResource,
}

#[repr(C)]
#[derive(Clone, Copy, Default)]
pub(crate) struct RawDeadlock {
    pub(crate) place: u64,
    pub(crate) session: u32,
    pub(crate) members: usize,
}

#[repr(C)]
#[derive(Clone, Copy, Default)]
pub(crate) struct RawMember {
    pub(crate) request: RawClaim,
    pub(crate) held: u32,
}

#[repr(C)]
#[derive(Clone, Copy, Default)]
pub(crate) struct RawCounts {
    pub(crate) calls: [u64; OP_NUMBERS],
    pub(crate) refusals: [u64; WHY_NUMBERS],
    pub(crate) requests: u64,
    pub(crate) granted_at_once: u64,
    pub(crate) requests_refused: u64,
    pub(crate) waits_begun: u64,
    pub(crate) waits_granted: u64,
    pub(crate) victims: u64,
    pub(crate) waits_withdrawn: u64,
    pub(crate) waits_aborted: u64,
    pub(crate) waits_restarted: u64,
    pub(crate) waiting: u64,
    pub(crate) deadlocks: u64,
}

#[repr(C)]
#[derive(Clone, Copy, Default)]
pub(crate) struct RawGauges {
    pub(crate) transactions: u64,
    pub(crate) locks: u64,
    pub(crate) waiting: u64,
    pub(crate) longest_queue: u64,
    pub(crate) idle_cells: u64,
}

#[repr(C)]
#[derive(Clone, Copy, Default)]
pub(crate) struct RawPassCounts {
    pub(crate) made: u64,
    pub(crate) served: u64,
    pub(crate) starved: u64,
}

#[repr(C)]
pub(crate) struct RawWaker {
    pub(crate) wake: unsafe extern "C" fn(engine: *mut c_void, session: u32),
    pub(crate) engine: *mut c_void,
}

#[repr(C)]
pub(crate) struct RawOptions {
    pub(crate) sessions: u32,
    pub(crate) pass_calls: u32,
    pub(crate) pass_locks: u32,
    pub(crate) pass_rounds: u32,
    pub(crate) keep: u64,
    pub(crate) deadlocks: u64,
    pub(crate) seed: u64,
    pub(crate) waker: *const RawWaker,
}

#[repr(C)]
pub(crate) struct RawBook {
    pub(crate) is_open_: u32,
    pub(crate) note_: u32,
    pub(crate) at_: *mut c_void,
    pub(crate) look_: *mut c_void,
}

#[repr(C)]
pub(crate) struct RawSession {
    pub(crate) is_open_: u32,
    pub(crate) note_: u32,
    pub(crate) at_: *mut c_void,
}

#[repr(C)]
#[derive(Clone, Copy, Default)]
pub(crate) struct RawDumping {
    pub(crate) row_: usize,
    pub(crate) wait_: usize,
}

impl RawOptions {
    pub(crate) const fn of(sessions: u32) -> RawOptions {
        RawOptions {
            sessions,
            pass_calls: 64,
            pass_locks: 4096,
            pass_rounds: 4,
            keep: 1024,
            deadlocks: 0,
            seed: 0,
            waker: std::ptr::null(),
        }
    }
}

const _: () = assert!(size_of::<RawResource>() == 24);
const _: () = assert!(size_of::<RawCall>() == 32);
const _: () = assert!(size_of::<RawReply>() == 16);
const _: () = assert!(size_of::<RawEntry>() == 56);
const _: () = assert!(size_of::<RawAnswer>() == 24);
const _: () = assert!(size_of::<RawLockAnswer>() == 16);
const _: () = assert!(size_of::<RawProgram>() == 44);
const _: () = assert!(size_of::<RawProgramAnswer>() == 80);
const _: () = assert!(size_of::<RawPass>() == 8);
const _: () = assert!(size_of::<RawHolder>() == 8);
const _: () = assert!(size_of::<RawTransaction>() == 16);
const _: () = assert!(size_of::<RawClaim>() == 48);
const _: () = assert!(size_of::<RawDeadlock>() == 24);
const _: () = assert!(size_of::<RawMember>() == 56);
const _: () = assert!(size_of::<RawCounts>() == 280);
const _: () = assert!(size_of::<RawGauges>() == 40);
const _: () = assert!(size_of::<RawPassCounts>() == 24);
const _: () = assert!(size_of::<RawOptions>() == 48);
const _: () = assert!(size_of::<RawBook>() == 24);
const _: () = assert!(size_of::<RawSession>() == 16);

extern "C" {
    pub(crate) fn pelgaisti_default_options(sessions: u32) -> RawOptions;
    pub(crate) fn pelgaisti_book_open(book: *mut RawBook, options: *const RawOptions) -> u32;
    pub(crate) fn pelgaisti_office_open(sessions: *mut RawSession, options: *const RawOptions) -> u32;
    pub(crate) fn pelgaisti_book_serve(
        book: *mut RawBook,
        session: u32,
        call: *const RawCall,
        reply: *mut RawReply,
    ) -> u32;
    pub(crate) fn pelgaisti_book_serve_batch(
        book: *mut RawBook,
        calls: *mut RawEntry,
        length: usize,
        count: *mut usize,
    ) -> u32;
    pub(crate) fn pelgaisti_session_perform(
        session: *mut RawSession,
        call: *const RawCall,
        turns: u64,
        answer: *mut RawAnswer,
    ) -> u32;
    pub(crate) fn pelgaisti_book_run(
        book: *mut RawBook,
        session: u32,
        program: *const RawProgram,
        answer: *mut RawProgramAnswer,
    ) -> u32;
    pub(crate) fn pelgaisti_session_run(
        session: *mut RawSession,
        program: *const RawProgram,
        turns: u64,
        answer: *mut RawProgramAnswer,
    ) -> u32;
    pub(crate) fn pelgaisti_program_replies(
        program: *const RawProgram,
        answer: *const RawProgramAnswer,
        replies: *mut RawReply,
    ) -> u32;
    pub(crate) fn pelgaisti_parent_mode(mode: u32) -> u32;
    pub(crate) fn pelgaisti_path_call(resource: *const RawResource, mode: u32, level: u32) -> RawCall;
    pub(crate) fn pelgaisti_session_lock(
        session: *mut RawSession,
        resource: *const RawResource,
        mode: u32,
        timeout_ms: u64,
        answer: *mut RawLockAnswer,
    ) -> u32;
    pub(crate) fn pelgaisti_session_wait(session: *mut RawSession, timeout_ms: u64, answer: *mut RawLockAnswer) -> u32;
    pub(crate) fn pelgaisti_book_ended(book: *mut RawBook, list: *mut u32, room: usize, count: *mut usize) -> u32;
    pub(crate) fn pelgaisti_session_publish(session: *mut RawSession, call: *const RawCall, posted: *mut u32) -> u32;
    pub(crate) fn pelgaisti_session_serve(session: *mut RawSession, pass: *mut RawPass) -> u32;
    pub(crate) fn pelgaisti_session_collect(session: *mut RawSession, answer: *mut RawAnswer) -> u32;
    pub(crate) fn pelgaisti_session_hear(session: *mut RawSession, other: *mut RawSession) -> u32;
    pub(crate) fn pelgaisti_session_seen(session: *mut RawSession, seen: *mut u64) -> u32;
    pub(crate) fn pelgaisti_session_mark(session: *mut RawSession, mark: *mut u64) -> u32;
    pub(crate) fn pelgaisti_session_bound_passes(session: *mut RawSession, calls: u32, locks: u32, rounds: u32) -> u32;
    pub(crate) fn pelgaisti_session_look(session: *mut RawSession, view: *mut RawBook) -> u32;
    pub(crate) fn pelgaisti_look_end(session: *mut RawSession, view: *mut RawBook) -> u32;
    pub(crate) fn pelgaisti_book_held(
        book: *mut RawBook,
        session: u32,
        resource: *const RawResource,
        mode: *mut u32,
    ) -> u32;
    pub(crate) fn pelgaisti_book_holders(
        book: *mut RawBook,
        resource: *const RawResource,
        list: *mut RawHolder,
        room: usize,
        count: *mut usize,
    ) -> u32;
    pub(crate) fn pelgaisti_book_blockers(
        book: *mut RawBook,
        session: u32,
        list: *mut u32,
        room: usize,
        count: *mut usize,
    ) -> u32;
    pub(crate) fn pelgaisti_book_transaction(book: *mut RawBook, session: u32, open: *mut RawTransaction) -> u32;
    pub(crate) fn pelgaisti_book_request(book: *mut RawBook, session: u32, waiting: *mut RawClaim) -> u32;
    pub(crate) fn pelgaisti_book_locks_held(book: *mut RawBook, session: u32, count: *mut usize) -> u32;
    pub(crate) fn pelgaisti_book_locks_of(
        book: *mut RawBook,
        session: u32,
        after: *const RawResource,
        list: *mut RawClaim,
        room: usize,
        count: *mut usize,
    ) -> u32;
    pub(crate) fn pelgaisti_book_dump(
        book: *mut RawBook,
        rows: *mut RawClaim,
        room: usize,
        count: *mut usize,
        place: *mut u64,
    ) -> u32;
    pub(crate) fn pelgaisti_dump_line(
        rows: *const RawClaim,
        written: usize,
        at: *mut RawDumping,
        text: *mut c_char,
        room: usize,
    ) -> u32;
    pub(crate) fn pelgaisti_book_counts(book: *mut RawBook, counts: *mut RawCounts) -> u32;
    pub(crate) fn pelgaisti_book_gauges(book: *mut RawBook, gauges: *mut RawGauges) -> u32;
    pub(crate) fn pelgaisti_book_passes(book: *mut RawBook, passes: *mut RawPassCounts) -> u32;
    pub(crate) fn pelgaisti_book_deadlocks(
        book: *mut RawBook,
        list: *mut RawDeadlock,
        room: usize,
        count: *mut usize,
        members: *mut RawMember,
        member_room: usize,
        member_count: *mut usize,
    ) -> u32;
    pub(crate) fn pelgaisti_deadlock_text(
        deadlock: *const RawDeadlock,
        members: *const RawMember,
        text: *mut c_char,
        room: usize,
    ) -> usize;
    pub(crate) fn pelgaisti_book_length(book: *mut RawBook, first_kept: *mut u64, length: *mut u64) -> u32;
    pub(crate) fn pelgaisti_book_history(
        book: *mut RawBook,
        first: u64,
        entries: *mut RawEntry,
        room: usize,
        count: *mut usize,
    ) -> u32;
    pub(crate) fn pelgaisti_book_take_history(
        book: *mut RawBook,
        first: *mut u64,
        entries: *mut RawEntry,
        room: usize,
        count: *mut usize,
    ) -> u32;
    pub(crate) fn pelgaisti_session_take_history(
        session: *mut RawSession,
        first: *mut u64,
        entries: *mut RawEntry,
        room: usize,
        count: *mut usize,
    ) -> u32;
    pub(crate) fn pelgaisti_book_keep_at_most(book: *mut RawBook, bound: u64) -> u32;
    pub(crate) fn pelgaisti_book_reserve(book: *mut RawBook, resources: usize, entries: usize) -> u32;
    pub(crate) fn pelgaisti_book_shrink(book: *mut RawBook) -> u32;
    pub(crate) fn pelgaisti_session_retire(session: *mut RawSession) -> u32;
    pub(crate) fn pelgaisti_session_hand_in(session: *mut RawSession, to: *mut RawSession) -> u32;
    pub(crate) fn pelgaisti_office_close(session: *mut RawSession, book: *mut RawBook) -> u32;
    pub(crate) fn pelgaisti_book_close(book: *mut RawBook) -> u32;
    pub(crate) fn pelgaisti_status_name(status: u64) -> *const c_char;
    pub(crate) fn pelgaisti_mode_name(mode: u64) -> *const c_char;
    pub(crate) fn pelgaisti_op_name(op: u64) -> *const c_char;
    pub(crate) fn pelgaisti_reply_name(kind: u64) -> *const c_char;
    pub(crate) fn pelgaisti_refusal_name(why: u64) -> *const c_char;
    pub(crate) fn pelgaisti_version() -> u32;
}
