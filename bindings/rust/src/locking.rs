//! Locks that are waited for.

use crate::calls::{Mode, Refusal, Resource};
use crate::error::{done, Error};
use crate::ffi::{self, RawLockAnswer};
use crate::office::Session;
use std::time::Duration;

/// How a wait for a lock has ended.
#[derive(Clone, Copy, Debug, PartialEq, Eq, Hash)]
pub enum Outcome {
    /// The resource is locked in the mode at least, and its ancestors.
    Granted,
    /// The transaction is a deadlock's victim. It keeps its locks: undo, then [`crate::Call::Abort`] or [`crate::Call::Restart`].
    Victim,
    /// The request of the next level wasn't granted in time, and was taken back. The transaction goes on.
    TimedOut,
    /// The request of the next level was refused, for this reason.
    Denied(Refusal),
}

/// The answer to a call that waits for a lock.
#[must_use = "the lock may not be granted"]
#[derive(Clone, Copy, Debug, PartialEq, Eq, Hash)]
pub struct Locked {
    /// How the wait has ended.
    pub outcome: Outcome,
    /// How many levels of the path are held as they were asked for, from the database down; of [`Session::wait`] 0.
    pub level: usize,
    /// The place in the history of the last call that was answered.
    pub place: u64,
}

impl Locked {
    /// Whether the lock is granted.
    pub fn is_granted(&self) -> bool {
        self.outcome == Outcome::Granted
    }
}

/// Milliseconds, rounded up; without a duration a time that has no end.
fn milliseconds_of(within: Option<Duration>) -> u64 {
    let all = within.map_or(u128::MAX, |it| (it.as_nanos() + 999_999) / 1_000_000);
    u64::try_from(all).unwrap_or(ffi::FOREVER)
}

/// What the status and the answer mean.
fn locked(status: u32, answer: &RawLockAnswer) -> Result<Locked, Error> {
    let outcome = match status {
        ffi::VICTIM => Outcome::Victim,
        ffi::TIMED_OUT => Outcome::TimedOut,
        ffi::DENIED => Outcome::Denied(Refusal::of(u64::from(answer.why))),
        other => {
            done(other)?;
            Outcome::Granted
        }
    };
    Ok(Locked {
        outcome,
        level: answer.level as usize,
        place: answer.place,
    })
}

impl Session {
    /// Locks a resource in a mode, and its ancestors before it, and waits for each lock: without end, or at most `within` in all, rounded up
    /// to milliseconds, from the first wait on. With a duration of 0 it never waits, and nobody becomes a victim.
    ///
    /// [`Error::NoMemory`]: memory was refused, and [`Session::wait`] goes on with what may be pending; behind its `Granted` the same call
    /// is made again. [`Error::Pending`], [`Error::Retired`]: nothing has changed.
    ///
    ///     # use pelgaisti::{Call, Mode, Office, Outcome, Resource};
    ///     # use std::time::Duration;
    ///     let mut sessions = Office::open(2)?;
    ///     let page = Resource::new(&[7, 2, 40]).unwrap();
    ///     for session in &mut sessions {
    ///         let _ = session.perform(&Call::Begin)?;
    ///     }
    ///     assert!(sessions[0].lock(page, Mode::X, None)?.is_granted());
    ///     let late = sessions[1].lock(page, Mode::S, Some(Duration::from_millis(5)))?;
    ///     assert_eq!((late.outcome, late.level), (Outcome::TimedOut, 2));
    ///     # Ok::<(), pelgaisti::Error>(())
    pub fn lock(&mut self, resource: Resource, mode: Mode, within: Option<Duration>) -> Result<Locked, Error> {
        let (path, timeout, mut answer) = (resource.raw(), milliseconds_of(within), RawLockAnswer::default());
        // SAFETY: the handle is this session's, used by `&mut`; resource and answer are locals of their types
        let status = unsafe { ffi::pelgaisti_session_lock(self.raw(), &path, mode.code(), timeout, &mut answer) };
        locked(status, &answer)
    }

    /// Waits as [`Session::lock`] does, for the request by which the session waits, if it has one. What is pending is finished first, be it a
    /// call or a program. [`Error::NoMemory`]: the same call goes on.
    ///
    ///     # use pelgaisti::{Call, Mode, Office, Outcome, Reply, Resource};
    ///     # use std::time::Duration;
    ///     let mut sessions = Office::open(2)?;
    ///     let lock = Call::Lock(Resource::new(&[7]).unwrap(), Mode::X);
    ///     for session in &mut sessions {
    ///         let _ = session.perform(&Call::Begin)?;
    ///         let _ = session.perform(&lock)?;
    ///     }
    ///     assert_eq!(sessions[1].wait(Some(Duration::ZERO))?.outcome, Outcome::TimedOut);
    ///     assert_eq!(sessions[1].perform(&lock)?.reply, Reply::Waiting);
    ///     let _ = sessions[0].perform(&Call::Commit)?;
    ///     assert_eq!(sessions[1].wait(None)?.outcome, Outcome::Granted);
    ///     # Ok::<(), pelgaisti::Error>(())
    pub fn wait(&mut self, within: Option<Duration>) -> Result<Locked, Error> {
        let mut answer = RawLockAnswer::default();
        // SAFETY: the handle is this session's, used by `&mut`; the answer is a local of its type
        let status = unsafe { ffi::pelgaisti_session_wait(self.raw(), milliseconds_of(within), &mut answer) };
        locked(status, &answer)
    }
}
