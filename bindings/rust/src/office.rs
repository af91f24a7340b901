//! The lock table that threads share.

use crate::book::{entries_by, Book, Entry};
use crate::calls::{Call, Reply};
use crate::error::{done, same_version, Error};
use crate::ffi::{self, RawAnswer, RawPass, RawProgramAnswer, RawSession};
use crate::handles::Handles;
use crate::lists::{blank, list_for};
use crate::options::Options;
use crate::programs::{Program, ProgramAnswer};
use crate::shared::Shared;
use crate::table::Table;
use crate::waker::PlacedWaker;
use std::fmt;
use std::marker::PhantomData;
use std::ptr;

/// A lock table that threads share, each by a session of its own. This type has no values: an office is its sessions.
pub enum Office {}

/// One session of an office. It may go to another thread, and is used by one at a time.
///
/// A session that is dropped goes back to its office with its transaction, its locks, its waiting request and its pending call as they
/// are, also by a panic. [`Office::orphans`] hands it out again. If all sessions of an office are dropped, its lock table is dropped
/// with the last.
pub struct Session {
    handles: Shared<Handles>,
    index: usize,
    // handed in, or closed with its office, so that it doesn't go back when it is dropped
    is_handed_in: bool,
    // not Sync: a call uses the handle alone
    alone: PhantomData<std::cell::Cell<()>>,
}

/// Where a published call is.
#[derive(Clone, Copy, Debug, PartialEq, Eq, Hash)]
pub enum Posted {
    /// On the publication list, so that each pass visits it.
    Listed,
    /// Not on the list yet: a pass of its own session visits it, and each `serve` tries once more to have it listed.
    Unlisted,
}

/// What a pass did.
#[derive(Clone, Copy, Debug, PartialEq, Eq, Hash)]
pub struct Pass {
    /// How many calls it served.
    pub served: u32,
    /// Whether calls were put back, since memory was refused for one: they stay published.
    pub starved: bool,
}

/// The answer to a published call.
#[must_use = "the reply may be Waiting, or a refusal"]
#[derive(Clone, Copy, Debug, PartialEq, Eq, Hash)]
pub struct Answer {
    /// The place of the call in the history.
    pub place: u64,
    /// The reply to it.
    pub reply: Reply,
}

/// The sessions of an office that wasn't closed, and why.
pub struct NotClosed {
    /// Why it wasn't closed.
    pub error: Error,
    /// The sessions that are still there. Those that were handed in already are with the first.
    pub sessions: Vec<Session>,
}

impl fmt::Debug for NotClosed {
    fn fmt(&self, f: &mut fmt::Formatter<'_>) -> fmt::Result {
        write!(f, "NotClosed({:?}, {} sessions)", self.error, self.sessions.len())
    }
}

impl fmt::Display for NotClosed {
    fn fmt(&self, f: &mut fmt::Formatter<'_>) -> fmt::Result {
        write!(f, "the office wasn't closed: {}", self.error)
    }
}

impl std::error::Error for NotClosed {}

impl Office {
    /// Opens an office with an empty lock table, for so many sessions, at most 1024, or as [`Options`] say, and returns its sessions in the
    /// order of their numbers.
    ///
    ///     # use pelgaisti::{Call, Office, Options};
    ///     let mut sessions = Office::open(Options { keep: 2, ..Options::new(1) })?;
    ///     for call in [Call::Begin, Call::Poll, Call::Commit] {
    ///         let _ = sessions[0].perform(&call)?;
    ///     }
    ///     let book = Office::close(sessions).unwrap();
    ///     assert_eq!((book.length(), book.first_kept()), (3, 1));
    ///     # Ok::<(), pelgaisti::Error>(())
    pub fn open(options: impl Into<Options>) -> Result<Vec<Session>, Error> {
        Office::open_by(&options.into(), None)
    }

    /// Opens an office as [`Office::open`] does, for an engine whose threads sleep by its own means while they wait for a lock; in
    /// [`Session::lock`] and [`Session::wait`] they sleep in the library. A thread that was told [`Reply::Waiting`] sleeps until `wake` is
    /// called for its session, and then polls once.
    ///
    /// Each call of one of the sessions that makes a pass ([`Session::serve`], [`Session::perform`], [`Session::resume`],
    /// [`Session::run`], [`Session::lock`]) calls `wake` with the number of each session whose wait the pass has ended, once: a waiting request
    /// of the session was granted, or its transaction became a deadlock's victim. It does so after the pass, before it returns,
    /// whatever it returns. No call lacks memory for whom to wake: this one takes it. [`crate::Operator::ask_to_end`] calls `wake`, too.
    ///
    /// `wake` runs on the thread that made the pass, and on several threads at a time if several make passes. It may be called for
    /// a session that is awake, also for the one whose call made the pass, and more than once: what a thread sleeps on has to keep
    /// a wake-up that comes early, and a thread that is woken sleeps on if the poll replies [`Reply::Waiting`]. If `wake` panics,
    /// the panic ends there, behind the message of the panic hook. Then the session that it was called for may sleep on; the others
    /// are woken, and the call returns what it would have returned. The office keeps `wake` until it is closed or its last session is
    /// dropped, which wakes nobody.
    ///
    /// A thread that waits only for some time makes the call [`Call::Withdraw`] when the time is over. [`Reply::Withdrawn`] means
    /// that no pass has ended the wait, and nobody wakes it for it. If the call is refused, a pass has ended the wait meanwhile and
    /// wakes the thread: it sleeps until then, and polls.
    ///
    ///     # use pelgaisti::{Call, Mode, Office, Resource};
    ///     # use std::sync::mpsc;
    ///     let (woken, told) = mpsc::sync_channel(2);
    ///     let mut sessions = Office::open_waking(2, move |session| woken.send(session).unwrap())?;
    ///     for session in &mut sessions {
    ///         let _ = session.perform(&Call::Begin)?;
    ///         let _ = session.perform(&Call::Lock(Resource::new(&[7]).unwrap(), Mode::X))?;
    ///     }
    ///     let _ = sessions[0].perform(&Call::Commit)?;
    ///     assert_eq!(told.try_recv(), Ok(2));
    ///     # Ok::<(), pelgaisti::Error>(())
    pub fn open_waking(options: impl Into<Options>, wake: impl Fn(u32) + Send + Sync + 'static) -> Result<Vec<Session>, Error> {
        Office::open_by(&options.into(), Some(PlacedWaker::new(wake)?))
    }

    fn open_by(options: &Options, waker: Option<PlacedWaker>) -> Result<Vec<Session>, Error> {
        same_version()?;
        let handles = Handles::open(options, waker)?;
        let sessions = options.sessions as usize;
        let mut opened = list_for(sessions)?;
        opened.extend((0..sessions).map(|index| Session::of(&handles, index)));
        Ok(opened)
    }

    /// Closes the office of these sessions, each once, in any order, with no call pending, and returns the lock table with the
    /// one history, and with the transactions that are open and the requests that wait. Otherwise the sessions come back.
    ///
    ///     # use pelgaisti::{Error, Office};
    ///     let mut sessions = Office::open(3)?;
    ///     let last = sessions.pop().unwrap();
    ///     let refused = Office::close(sessions).err().unwrap();
    ///     assert_eq!(refused.error, Error::Missing);
    ///     let mut sessions = refused.sessions;
    ///     sessions.push(last);
    ///     assert_eq!(Office::close(sessions).unwrap().length(), 0);
    ///     # Ok::<(), pelgaisti::Error>(())
    pub fn close(mut sessions: Vec<Session>) -> Result<Book, NotClosed> {
        match Office::hand_over(&mut sessions) {
            Ok(book) => Ok(book),
            Err(error) => Err(NotClosed { error, sessions }),
        }
    }

    /// Hands in all sessions to the first, and closes the office with it. Those that were handed in are taken off the list.
    fn hand_over(sessions: &mut Vec<Session>) -> Result<Book, Error> {
        let book = Book::closed()?;
        while let [first, .., last] = &mut sessions[..] {
            // SAFETY: both handles are their sessions', used by `&mut`, and not the same. One copy of the library opened them
            done(unsafe { ffi::pelgaisti_session_hand_in(last.raw(), first.raw()) })?;
            last.is_handed_in = true;
            sessions.pop();
        }
        let last = sessions.first_mut().ok_or(Error::Missing)?;
        // SAFETY: the handle is this session's, used by `&mut`; that of the book is empty, and its own
        done(unsafe { ffi::pelgaisti_office_close(last.raw(), book.raw()) })?;
        last.is_handed_in = true;
        Ok(book)
    }
}

impl Answer {
    fn of(raw: &RawAnswer) -> Answer {
        Answer {
            place: raw.place,
            reply: Reply::of(&raw.reply),
        }
    }
}

impl Drop for Session {
    fn drop(&mut self) {
        if !self.is_handed_in {
            self.handles.dropped().push(self.index);
        }
    }
}

impl Session {
    pub(crate) fn of(handles: &Shared<Handles>, index: usize) -> Session {
        Session {
            handles: handles.clone(),
            index,
            is_handed_in: false,
            alone: PhantomData,
        }
    }

    pub(crate) fn handles(&self) -> &Shared<Handles> {
        &self.handles
    }

    /// The handle, at its place as long as the session lives. A session that has it by `&mut` uses it alone.
    pub(crate) fn raw(&self) -> *mut RawSession {
        self.handles.raw(self.index)
    }

    /// The handle of its look, used by whoever has the session by `&mut`, or by the look that has it so.
    pub(crate) fn view(&self) -> &Table {
        self.handles.view(self.index)
    }

    /// The session's number, from 1 on.
    ///
    ///     assert_eq!(pelgaisti::Office::open(2)?[1].number(), 2);
    ///     # Ok::<(), pelgaisti::Error>(())
    pub fn number(&self) -> u32 {
        self.index as u32 + 1
    }

    pub(crate) fn index(&self) -> usize {
        self.index
    }

    /// Publishes a call, which is pending until its answer is collected.
    ///
    ///     # use pelgaisti::{Call, Error, Office};
    ///     let mut sessions = Office::open(1)?;
    ///     sessions[0].publish(&Call::Begin)?;
    ///     assert_eq!(sessions[0].publish(&Call::Commit), Err(Error::Pending));
    ///     # Ok::<(), pelgaisti::Error>(())
    pub fn publish(&mut self, call: &Call) -> Result<Posted, Error> {
        let mut posted = 0;
        // SAFETY: the handle is this session's, used by `&mut`; the others are locals of their types
        done(unsafe { ffi::pelgaisti_session_publish(self.raw(), &call.raw(), &mut posted) })?;
        Ok(if posted == ffi::LISTED { Posted::Listed } else { Posted::Unlisted })
    }

    /// Tries once to take the lock table, without blocking, and if that succeeds, serves what is published.
    /// [`Error::Elsewhere`]: another session has it.
    ///
    ///     # use pelgaisti::{Call, Office};
    ///     let mut sessions = Office::open(1)?;
    ///     sessions[0].publish(&Call::Begin)?;
    ///     assert_eq!(sessions[0].serve()?.served, 1);
    ///     # Ok::<(), pelgaisti::Error>(())
    pub fn serve(&mut self) -> Result<Pass, Error> {
        let mut pass = RawPass::default();
        // SAFETY: the handle is this session's, used by `&mut`; the pass is a local
        done(unsafe { ffi::pelgaisti_session_serve(self.raw(), &mut pass) })?;
        Ok(Pass {
            served: pass.served,
            starved: pass.starved != 0,
        })
    }

    /// Takes the answer to the pending call. [`Error::NotServed`]: the session knows none yet. [`Error::Pending`]: what is pending is a
    /// program of several calls, which [`Session::resume_program`] finishes.
    ///
    ///     # use pelgaisti::{Call, Error, Office};
    ///     let mut sessions = Office::open(1)?;
    ///     assert_eq!(sessions[0].collect(), Err(Error::NothingPending));
    ///     # Ok::<(), pelgaisti::Error>(())
    pub fn collect(&mut self) -> Result<Answer, Error> {
        let mut answer = RawAnswer::default();
        // SAFETY: the handle is this session's, used by `&mut`; the answer is a local
        done(unsafe { ffi::pelgaisti_session_collect(self.raw(), &mut answer) })?;
        Ok(Answer::of(&answer))
    }

    /// Makes a whole call, and returns its answer. The answer may be [`Reply::Waiting`]: this waits for an answer, not for a lock, as
    /// [`Session::lock`] does.
    ///
    /// It tries to perform the call at once; if another session has the lock table, it publishes the call, and from then on looks for
    /// the answer, and one time in eight tries to serve, within the bound of [`Session::bound_passes`]. The thread sleeps while many
    /// others wait; before it begins a transaction, until its turn among them comes.
    ///
    /// [`Error::NoMemory`]: memory was refused, for the call or in a pass of this session, and there is no answer yet. The call is pending
    /// then, and [`Session::resume`] goes on with it.
    ///
    ///     # use pelgaisti::{Call, Office, Reply};
    ///     let mut sessions = Office::open(2)?;
    ///     assert_eq!(sessions[1].perform(&Call::Begin)?.reply, Reply::Began(1));
    ///     # Ok::<(), pelgaisti::Error>(())
    pub fn perform(&mut self, call: &Call) -> Result<Answer, Error> {
        self.perform_within(call, ffi::FOREVER)
    }

    /// Makes a whole call, as [`Session::perform`] does, in at most `turns` turns. If the call isn't published by the last turn, it is
    /// published then; with no turns it is published and nothing else.
    ///
    /// [`Error::NotServed`]: after so many turns there is no answer. The call is pending then, as behind [`Error::NoMemory`].
    pub fn perform_within(&mut self, call: &Call, turns: u64) -> Result<Answer, Error> {
        let mut answer = RawAnswer::default();
        // SAFETY: the handle is this session's, used by `&mut`; call and answer are locals of their types
        done(unsafe { ffi::pelgaisti_session_perform(self.raw(), &call.raw(), turns, &mut answer) })?;
        Ok(Answer::of(&answer))
    }

    /// Goes on with the pending call, in at most `turns` turns: all look for its answer, as those of [`Session::perform`] do that come last.
    /// [`Error::Pending`]: what is pending is a program of several calls, which [`Session::resume_program`] finishes.
    ///
    ///     # use pelgaisti::{Call, Error, Office, Reply};
    ///     let mut sessions = Office::open(2)?;
    ///     assert_eq!(sessions[1].perform_within(&Call::Begin, 0), Err(Error::NotServed));
    ///     assert_eq!(sessions[1].resume(1)?.reply, Reply::Began(1));
    ///     # Ok::<(), pelgaisti::Error>(())
    pub fn resume(&mut self, turns: u64) -> Result<Answer, Error> {
        let mut answer = RawAnswer::default();
        // SAFETY: the handle is this session's, used by `&mut`; the call may be null, and the answer is a local
        done(unsafe { ffi::pelgaisti_session_perform(self.raw(), ptr::null(), turns, &mut answer) })?;
        Ok(Answer::of(&answer))
    }

    /// Runs a whole program, as [`Session::perform`] makes a call: it is tried at once, then published as one. No other session's call comes
    /// between its calls in the history.
    ///
    /// [`Error::NoMemory`]: memory was refused, to the first call or in a pass of this session, and there is no answer yet. The program is
    /// pending then, and [`Session::resume_program`] goes on with it. If memory is refused to a later call, the answer says so.
    /// [`Error::NoCalls`]: the program makes no call.
    ///
    ///     # use pelgaisti::{Mode, Office, Program, Reply, Resource, Start};
    ///     let mut sessions = Office::open(2)?;
    ///     let page = Resource::new(&[7, 2]).unwrap();
    ///     let program = Program::locks(Start::Begins, page, Mode::X, 0).unwrap();
    ///     let answer = sessions[0].run(&program)?;
    ///     assert!(answer.replies(&program).eq([Reply::Began(1), Reply::Granted(Mode::IX), Reply::Granted(Mode::X)]));
    ///     # Ok::<(), pelgaisti::Error>(())
    pub fn run(&mut self, program: &Program) -> Result<ProgramAnswer, Error> {
        self.run_within(program, ffi::FOREVER)
    }

    /// Runs a whole program, as [`Session::run`] does, in at most `turns` turns. [`Error::NotServed`]: after so many there is no answer, and
    /// the program is pending.
    pub fn run_within(&mut self, program: &Program, turns: u64) -> Result<ProgramAnswer, Error> {
        let mut answer = RawProgramAnswer::default();
        // SAFETY: the handle is this session's, used by `&mut`; the answer is a local of its type
        done(unsafe { ffi::pelgaisti_session_run(self.raw(), program.raw(), turns, &mut answer) })?;
        Ok(ProgramAnswer::of(answer))
    }

    /// Goes on with the pending program, in at most `turns` turns: all look for its answer. A pending call is a program of one call.
    ///
    ///     # use pelgaisti::{Error, Office, Program, Reply, Start};
    ///     let mut sessions = Office::open(2)?;
    ///     let _ = sessions[1].run(&Program::start(Start::Begins))?;
    ///     let next = Program::start(Start::CommitsAndBegins);
    ///     assert_eq!(sessions[1].run_within(&next, 0).err(), Some(Error::NotServed));
    ///     assert_eq!(sessions[1].resume(1), Err(Error::Pending));
    ///     assert!(sessions[1].resume_program(1)?.replies(&next).eq([Reply::Committed(0), Reply::Began(2)]));
    ///     # Ok::<(), pelgaisti::Error>(())
    pub fn resume_program(&mut self, turns: u64) -> Result<ProgramAnswer, Error> {
        let mut answer = RawProgramAnswer::default();
        // SAFETY: the handle is this session's, used by `&mut`; the program may be null, and the answer is a local
        done(unsafe { ffi::pelgaisti_session_run(self.raw(), ptr::null(), turns, &mut answer) })?;
        Ok(ProgramAnswer::of(answer))
    }

    /// Takes up to `room` of the oldest entries of the history that are kept, which leave the lock table's memory. Returns the place
    /// of the first one and the entries: fewer than `room` only if no more were kept when the call began. What the sessions of an
    /// office take follows one another without a gap, unless the office has a bound. [`Error::Elsewhere`], as another session has the
    /// lock table, and [`Error::NoMemory`]: nothing was taken.
    ///
    ///     # use pelgaisti::{Call, Office};
    ///     let mut sessions = Office::open(1)?;
    ///     let _ = sessions[0].perform(&Call::Begin)?;
    ///     let (first, entries) = sessions[0].take_history(64)?;
    ///     assert_eq!((first, entries.len(), entries[0].call), (0, 1, Call::Begin));
    ///     assert_eq!(sessions[0].take_history(64)?.0, 1);
    ///     # Ok::<(), pelgaisti::Error>(())
    pub fn take_history(&mut self, room: usize) -> Result<(u64, Vec<Entry>), Error> {
        let room = if room > 256 { room.min(self.kept()?) } else { room };
        let (list, mut first) = (blank(room)?, 0);
        // SAFETY: the handle is this session's, used by `&mut`; the list has so much room, the others are locals of their types
        let entries = entries_by(list, |list, count| unsafe {
            ffi::pelgaisti_session_take_history(self.raw(), &mut first, list.as_mut_ptr(), list.len(), count)
        })?;
        Ok((first, entries))
    }

    /// How many entries of the history are kept. It takes none, which tells where they begin, and lets the session know them.
    fn kept(&mut self) -> Result<usize, Error> {
        let (mut first, mut count) = (0, 0);
        // SAFETY: the handle is this session's, used by `&mut`; the list may be null, as it has no room, the others are locals
        done(unsafe { ffi::pelgaisti_session_take_history(self.raw(), &mut first, ptr::null_mut(), 0, &mut count) })?;
        Ok(usize::try_from(self.seen().saturating_sub(first)).unwrap_or(usize::MAX))
    }

    /// How many entries of the history the session knows: the first ones.
    ///
    ///     assert_eq!(pelgaisti::Office::open(1)?[0].seen(), 0);
    ///     # Ok::<(), pelgaisti::Error>(())
    pub fn seen(&mut self) -> u64 {
        let mut seen = 0;
        // SAFETY: the handle is this session's, used by `&mut`; what is written is a local
        done(unsafe { ffi::pelgaisti_session_seen(self.raw(), &mut seen) }).expect("an open session tells what it knows");
        seen
    }

    /// Makes all that `other` knows of the history known to this session: what it publishes from then on comes after it.
    ///
    ///     # use pelgaisti::Office;
    ///     let mut sessions = Office::open(2)?;
    ///     let (one, rest) = sessions.split_at_mut(1);
    ///     one[0].hear(&mut rest[0])?;
    ///     # Ok::<(), pelgaisti::Error>(())
    pub fn hear(&mut self, other: &mut Session) -> Result<(), Error> {
        // SAFETY: both handles are their sessions', used by `&mut`, and so not the same. One copy of the library opened them
        done(unsafe { ffi::pelgaisti_session_hear(self.raw(), other.raw()) })
    }

    /// Retires the session: it publishes no more calls. Its transaction and its locks stay as they are, until the office is closed.
    ///
    ///     # use pelgaisti::{Call, Error, Office};
    ///     let mut sessions = Office::open(1)?;
    ///     sessions[0].retire()?;
    ///     assert_eq!(sessions[0].publish(&Call::Begin), Err(Error::Retired));
    ///     # Ok::<(), pelgaisti::Error>(())
    pub fn retire(&mut self) -> Result<(), Error> {
        // SAFETY: the handle is this session's, used by `&mut`
        done(unsafe { ffi::pelgaisti_session_retire(self.raw()) })
    }

    /// From now on a pass in a whole call of this session serves at most `calls` published calls and programs a round, takes none once those
    /// that it has taken give back `locks` locks, and makes `rounds` rounds at most, as `pelgaisti_session_bound_passes` says. Fails with
    /// `NoSuchCount` if a number is 0, or `calls` or `rounds` above 65,535.
    ///
    ///     # use pelgaisti::{Error, Office};
    ///     let mut sessions = Office::open(1)?;
    ///     sessions[0].bound_passes(16, 1_000, 1)?;
    ///     assert_eq!(sessions[0].bound_passes(0, 1_000, 1), Err(Error::NoSuchCount));
    ///     # Ok::<(), pelgaisti::Error>(())
    pub fn bound_passes(&mut self, calls: u32, locks: u32, rounds: u32) -> Result<(), Error> {
        // SAFETY: the handle is this session's, used by `&mut`
        done(unsafe { ffi::pelgaisti_session_bound_passes(self.raw(), calls, locks, rounds) })
    }
}
