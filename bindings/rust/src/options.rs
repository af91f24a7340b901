//! How a lock table is opened.

use crate::ffi::{RawOptions, RawWaker};

/// How a [`Book`](crate::Book) or an [`Office`](crate::Office) is opened. A number stands for options that have all else by default:
///
///     use pelgaisti::{Book, Office, Options};
///     let book = Book::open(2)?;
///     let sessions = Office::open(Options { deadlocks: 16, ..Options::new(4) })?;
///     # Ok::<(), pelgaisti::Error>(())
#[derive(Clone, Copy, Debug, PartialEq, Eq, Hash)]
pub struct Options {
    /// How many sessions there are, from 1 to 1024. Their numbers are from 1 on.
    pub sessions: u32,
    /// The bound of a pass in a whole call, which a book has none of: how many published calls and programs it serves a round, 1 to 65,535.
    /// 64 by default. [`Session::bound_passes`](crate::Session::bound_passes) sets all three of one session.
    pub pass_calls: u32,
    /// It takes no more calls once those that it has taken release so many locks, from 1 on. 4,096 by default.
    pub pass_locks: u32,
    /// It makes so many rounds at most, 1 to 65,535. 4 by default.
    pub pass_rounds: u32,
    /// How many of the newest entries of the history are kept in memory: 1,024 by default, all with [`u64::MAX`].
    pub keep: u64,
    /// How many of the newest deadlocks are kept, for [`Table::deadlocks`](crate::Table::deadlocks) to tell: 0 by default. The opening takes
    /// the memory for them, some 56 bytes a session for each, so that no call lacks memory for a deadlock. A call that makes one pays
    /// for a search, which grows with the sessions that wait.
    pub deadlocks: u64,
    /// The seed of the hash of resources, for timings that can be repeated. No reply and no history depends on it. By default it is 0: one
    /// is drawn for each opening, so that who chooses numbers can't choose many with one hash.
    pub seed: u64,
}

impl Options {
    /// The options that have their defaults.
    pub const fn new(sessions: u32) -> Options {
        let raw = RawOptions::of(sessions);
        Options {
            sessions,
            pass_calls: raw.pass_calls,
            pass_locks: raw.pass_locks,
            pass_rounds: raw.pass_rounds,
            keep: raw.keep,
            deadlocks: raw.deadlocks,
            seed: raw.seed,
        }
    }

    pub(crate) fn raw(&self, waker: *const RawWaker) -> RawOptions {
        RawOptions {
            sessions: self.sessions,
            pass_calls: self.pass_calls,
            pass_locks: self.pass_locks,
            pass_rounds: self.pass_rounds,
            keep: self.keep,
            deadlocks: self.deadlocks,
            seed: self.seed,
            waker,
        }
    }
}

impl From<u32> for Options {
    fn from(sessions: u32) -> Options {
        Options::new(sessions)
    }
}
