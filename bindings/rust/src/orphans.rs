//! Sessions that were dropped.

use crate::error::Error;
use crate::lists::list_for;
use crate::office::{Office, Session};

impl Office {
    /// The sessions of this session's office that were dropped and not handed out since, by number: each is handed out once, also if
    /// several threads ask. An orphan is as it was dropped. [`Error::NoMemory`]: none is handed out; ask again.
    ///
    /// - It may have a pending call or program, which other sessions' passes serve meanwhile, whatever it asks:
    ///   [`Session::resume_program`] tells the answer to either. Until then it publishes nothing else ([`crate::Error::Pending`]).
    /// - It may have a transaction, with all its locks: [`crate::Call::Abort`] ends it, also if its request waits or it is a victim. The
    ///   reply is a refusal if it has none.
    /// - A request that waits stays in its queue meanwhile. When the wait ends, the office's waker is called for the session, with
    ///   nobody there to wake. So the next owner of the session may find a wake-up that isn't its own, and polls.
    /// - If it has retired, it publishes no more calls, so its transaction ends only with the office, and no Begin uses its number.
    ///
    /// The numbers of orphans that are never handed out aren't used again, others wait for their locks, and the office doesn't close.
    /// A session that is leaked, by [`std::mem::forget`] or by a thread that never ends, doesn't come back.
    ///
    ///     # use pelgaisti::{Call, Mode, Office, Reply, Resource};
    ///     let mut sessions = Office::open(2)?;
    ///     let mut lost = sessions.pop().unwrap();
    ///     let _ = lost.perform(&Call::Begin)?;
    ///     let _ = lost.perform(&Call::Lock(Resource::new(&[7]).unwrap(), Mode::X))?;
    ///     drop(lost);
    ///     let mut orphans = Office::orphans(&sessions[0])?;
    ///     assert_eq!(orphans[0].number(), 2);
    ///     assert_eq!(orphans[0].perform(&Call::Abort)?.reply, Reply::Aborted(1));
    ///     sessions.append(&mut orphans);
    ///     assert!(Office::close(sessions).is_ok());
    ///     # Ok::<(), pelgaisti::Error>(())
    #[must_use = "what is ignored is dropped, and goes back to the office"]
    pub fn orphans(session: &Session) -> Result<Vec<Session>, Error> {
        let mut dropped = session.handles().dropped();
        let mut orphans = list_for(dropped.len())?;
        dropped.sort_unstable();
        orphans.extend(dropped.drain(..).map(|index| Session::of(session.handles(), index)));
        Ok(orphans)
    }
}
