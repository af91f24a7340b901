//! The counters of a history, and the gauges of a lock table.

use crate::calls::Refusal;
use crate::error::{done, Error};
use crate::ffi::{self, RawCounts, RawGauges, RawPassCounts, WHY_NUMBERS};
use crate::table::Table;

/// How many calls of each kind there were, refused ones too. A call of a program or of a path counts by itself.
#[derive(Clone, Copy, Debug, PartialEq, Eq, Hash)]
pub struct Calls {
    /// [`Call::Begin`](crate::Call::Begin).
    pub begin: u64,
    /// [`Call::Lock`](crate::Call::Lock).
    pub lock: u64,
    /// [`Call::Convert`](crate::Call::Convert).
    pub convert: u64,
    /// [`Call::Poll`](crate::Call::Poll).
    pub poll: u64,
    /// [`Call::Release`](crate::Call::Release).
    pub release: u64,
    /// [`Call::Commit`](crate::Call::Commit).
    pub commit: u64,
    /// [`Call::Abort`](crate::Call::Abort).
    pub abort: u64,
    /// [`Call::Try`](crate::Call::Try).
    pub try_lock: u64,
    /// [`Call::Withdraw`](crate::Call::Withdraw).
    pub withdraw: u64,
    /// [`Call::Restart`](crate::Call::Restart).
    pub restart: u64,
}

/// The counters of a history: all calls from its beginning, also those whose entries were let go. All but `waiting` only grow.
///
/// Each request was granted at once, began a wait or was refused: `requests` is the sum of these three. Each wait was granted by a call of
/// another session, made its session a victim, was withdrawn, ended with an abort or a restart of its session, or goes on: `waits_begun`
/// is the sum of these six.
#[derive(Clone, Copy, Debug, PartialEq, Eq, Hash)]
pub struct Counts {
    /// The calls of each kind.
    pub calls: Calls,
    refusals: [u64; WHY_NUMBERS],
    /// The requests for locks: [`Lock`](crate::Call::Lock), [`Convert`](crate::Call::Convert) and [`Try`](crate::Call::Try).
    pub requests: u64,
    /// The requests that were granted by their own reply, also where their own victim made room.
    pub granted_at_once: u64,
    /// The requests that were refused.
    pub requests_refused: u64,
    /// The requests that began a wait: their reply was [`Waiting`](crate::Reply::Waiting), or [`Deadlock`](crate::Reply::Deadlock).
    pub waits_begun: u64,
    /// The waits that a call of another session ended by a grant.
    pub waits_granted: u64,
    /// The waits whose session became a deadlock's victim: how many victims there were.
    pub victims: u64,
    /// The waits that were withdrawn.
    pub waits_withdrawn: u64,
    /// The waits that ended with an abort of their session.
    pub waits_aborted: u64,
    /// The waits that ended with a restart of their session.
    pub waits_restarted: u64,
    /// The requests that wait now.
    pub waiting: u64,
    /// The calls that closed a cycle of waits, each once, however many victims it made.
    pub deadlocks: u64,
}

impl Counts {
    fn of(raw: &RawCounts) -> Counts {
        let [_, begin, lock, convert, poll, release, commit, abort, try_lock, withdraw, restart] = raw.calls;
        Counts {
            calls: Calls {
                begin,
                lock,
                convert,
                poll,
                release,
                commit,
                abort,
                try_lock,
                withdraw,
                restart,
            },
            refusals: raw.refusals,
            requests: raw.requests,
            granted_at_once: raw.granted_at_once,
            requests_refused: raw.requests_refused,
            waits_begun: raw.waits_begun,
            waits_granted: raw.waits_granted,
            victims: raw.victims,
            waits_withdrawn: raw.waits_withdrawn,
            waits_aborted: raw.waits_aborted,
            waits_restarted: raw.waits_restarted,
            waiting: raw.waiting,
            deadlocks: raw.deadlocks,
        }
    }

    /// How many calls were refused for this reason.
    pub fn refused(&self, why: Refusal) -> u64 {
        // a number that is no refusal's has the counter 0
        (0..).zip(self.refusals).filter(|it| Refusal::of(it.0) == why).map(|it| it.1).sum()
    }
}

/// How much a lock table has at one moment.
#[derive(Clone, Copy, Debug, Default, PartialEq, Eq, Hash)]
pub struct Gauges {
    /// The open transactions.
    pub transactions: u64,
    /// The locks that are held, of all sessions.
    pub locks: u64,
    /// The requests that wait.
    pub waiting: u64,
    /// The most requests that wait for one resource.
    pub longest_queue: u64,
    /// The cells of the table whose resource nobody holds or waits for, which the next new resources take.
    pub idle_cells: u64,
}

/// What the passes of an office have served since it was opened. In a pass a session that has the lock table serves the calls that others
/// have published.
#[derive(Clone, Copy, Debug, Default, PartialEq, Eq, Hash)]
pub struct PassCounts {
    /// The passes.
    pub made: u64,
    /// The published calls and programs that they served; what a session performs at once isn't among them.
    pub served: u64,
    /// The passes that put calls back, because memory was refused.
    pub starved: u64,
}

impl Table {
    /// The counters of the history. They are kept on the way, whatever the history keeps: the cost grows with the sessions alone.
    ///
    ///     # use pelgaisti::{Book, Call, Mode, Refusal, Resource};
    ///     let mut book = Book::open(2)?;
    ///     for session in 1..=2 {
    ///         let _ = book.serve(session, &Call::Begin)?;
    ///         let _ = book.serve(session, &Call::Lock(Resource::new(&[7]).unwrap(), Mode::X))?;
    ///     }
    ///     let _ = book.serve(2, &Call::Commit)?;
    ///     let counts = book.counts()?;
    ///     assert_eq!((counts.calls.begin, counts.requests, counts.granted_at_once, counts.waits_begun), (2, 2, 1, 1));
    ///     assert_eq!((counts.waiting, counts.refused(Refusal::IsWaiting)), (1, 1));
    ///     # Ok::<(), pelgaisti::Error>(())
    pub fn counts(&self) -> Result<Counts, Error> {
        let mut made = RawCounts::default();
        // SAFETY: the handle is this table's; the counters are a local
        done(unsafe { ffi::pelgaisti_book_counts(self.raw(), &mut made) })?;
        Ok(Counts::of(&made))
    }

    /// The gauges of the lock table. The cost grows with the sessions, and for each that waits with its queue.
    ///
    ///     # use pelgaisti::{Book, Call, Gauges, Mode, Resource};
    ///     let mut book = Book::open(2)?;
    ///     for session in 1..=2 {
    ///         let _ = book.serve(session, &Call::Begin)?;
    ///         let _ = book.serve(session, &Call::Lock(Resource::new(&[7]).unwrap(), Mode::X))?;
    ///     }
    ///     assert_eq!(book.gauges()?, Gauges { transactions: 2, locks: 1, waiting: 1, longest_queue: 1, idle_cells: 0 });
    ///     # Ok::<(), pelgaisti::Error>(())
    pub fn gauges(&self) -> Result<Gauges, Error> {
        let mut made = RawGauges::default();
        // SAFETY: the handle is this table's; the gauges are a local
        done(unsafe { ffi::pelgaisti_book_gauges(self.raw(), &mut made) })?;
        let RawGauges {
            transactions,
            locks,
            waiting,
            longest_queue,
            idle_cells,
        } = made;
        Ok(Gauges {
            transactions,
            locks,
            waiting,
            longest_queue,
            idle_cells,
        })
    }

    /// What the passes of the office have served since it was opened. Of a book, which has no passes, all are 0.
    ///
    ///     # use pelgaisti::{Call, Office};
    ///     let mut sessions = Office::open(2)?;
    ///     let _ = sessions[0].publish(&Call::Begin)?;
    ///     let _ = sessions[1].serve()?;
    ///     let passes = sessions[1].look()?.passes()?;
    ///     assert_eq!((passes.made, passes.served, passes.starved), (1, 1, 0));
    ///     # Ok::<(), pelgaisti::Error>(())
    pub fn passes(&self) -> Result<PassCounts, Error> {
        let mut found = RawPassCounts::default();
        // SAFETY: the handle is this table's; what is written is a local
        done(unsafe { ffi::pelgaisti_book_passes(self.raw(), &mut found) })?;
        let RawPassCounts { made, served, starved } = found;
        Ok(PassCounts { made, served, starved })
    }
}
