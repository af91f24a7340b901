//! Asking that a transaction of another session end.

use crate::error::Error;
use crate::handles::Handles;
use crate::office::Session;
use crate::shared::Observed;

/// Asks that transactions of an office end, from any thread: for an operator's KILL, or for a client that has gone.
///
/// It ends nothing: only a session's own calls give its locks back. [`Operator::ask_to_end`] leaves a mark and wakes the session's
/// thread. Whoever has the session looks by [`Session::is_asked_to_end`] before each call and when it is woken, undoes its work, and
/// performs [`crate::Call::Abort`], also while its request waits. A session that makes no call any more keeps its locks.
#[derive(Clone)]
pub struct Operator {
    // an office ends with its sessions, whoever may still ask
    handles: Observed<Handles>,
}

impl Operator {
    /// Asks that this transaction of the session with this number end: leaves the mark that [`Session::is_asked_to_end`] reads, and
    /// calls the waker, if the office has one, for the session, on this thread, whether the session waits or not. A look tells the
    /// numbers ([`Session::look`], [`crate::Table::transaction`]).
    ///
    /// The mark is the transaction's: who asks too late asks nothing of the session's next one. [`Error::NoSuchSession`]: the office
    /// has no session with this number, or is closed.
    ///
    ///     # use pelgaisti::{Call, Error, Office, Reply};
    ///     let mut sessions = Office::open(2)?;
    ///     let operator = sessions[0].operator();
    ///     assert_eq!(sessions[1].perform(&Call::Begin)?.reply, Reply::Began(1));
    ///     operator.ask_to_end(2, 1)?;
    ///     assert!(sessions[1].is_asked_to_end(1));
    ///     assert_eq!(sessions[1].perform(&Call::Abort)?.reply, Reply::Aborted(0));
    ///     assert_eq!(operator.ask_to_end(3, 1), Err(Error::NoSuchSession));
    ///     # Ok::<(), Error>(())
    pub fn ask_to_end(&self, session: u32, transaction: u64) -> Result<(), Error> {
        let handles = self.handles.owner().ok_or(Error::NoSuchSession)?;
        let index = session.checked_sub(1).ok_or(Error::NoSuchSession)?;
        if handles.ask_to_end(index as usize, transaction) {
            Ok(())
        } else {
            Err(Error::NoSuchSession)
        }
    }
}

impl Session {
    /// What asks that transactions of this session's office end. It may go to any thread, and keeps no office open.
    ///
    ///     # use pelgaisti::{Error, Office};
    ///     let sessions = Office::open(1)?;
    ///     let operator = sessions[0].operator();
    ///     drop(sessions);
    ///     assert_eq!(operator.ask_to_end(1, 1), Err(Error::NoSuchSession));
    ///     # Ok::<(), Error>(())
    pub fn operator(&self) -> Operator {
        Operator {
            handles: self.handles().observe(),
        }
    }

    /// Whether somebody has asked that this transaction of the session end ([`Operator::ask_to_end`]): its number is the one that
    /// [`crate::Reply::Began`] told. It reads an atomic, and nothing of the lock table.
    ///
    ///     # use pelgaisti::Office;
    ///     let sessions = Office::open(1)?;
    ///     sessions[0].operator().ask_to_end(1, 7)?;
    ///     assert_eq!((sessions[0].is_asked_to_end(7), sessions[0].is_asked_to_end(8)), (true, false));
    ///     # Ok::<(), pelgaisti::Error>(())
    pub fn is_asked_to_end(&self, transaction: u64) -> bool {
        transaction != 0 && self.handles().asked(self.index()) == transaction
    }
}
