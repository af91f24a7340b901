//! The lock table of an open office, while a session looks at it.

use crate::error::{done, Error};
use crate::ffi;
use crate::office::Session;
use crate::table::Table;
use std::ops::Deref;

/// The look of a session at the lock table of its office, which it has until this is dropped: it is asked as a [`Table`], and all its
/// answers are of one moment.
///
/// Meanwhile the session makes no call, and calls of other sessions that need the table wait. One that the same thread makes by another
/// session, or another look, would wait for ever: also in the arms of a `match` on what a look has answered that has no name of its own.
///
/// ```compile_fail
/// # let mut sessions = pelgaisti::Office::open(2).unwrap();
/// let view = sessions[0].look().unwrap();
/// let _ = sessions[0].perform(&pelgaisti::Call::Begin); // the session is borrowed
/// assert_eq!(view.length(), 0);
/// ```
///
/// ```compile_fail
/// # let mut sessions = pelgaisti::Office::open(2).unwrap();
/// let mut view = sessions[0].look().unwrap();
/// let _ = view.serve(1, &pelgaisti::Call::Begin); // a view has questions alone
/// ```
#[must_use = "a look that isn't kept ends at once"]
pub struct View<'a> {
    session: &'a mut Session,
}

impl Session {
    /// Waits for the lock table, for which other calls stand back, takes it, and looks. A call may be pending.
    /// Behind the look the session knows the history up to it. If the [`View`] is leaked, by [`std::mem::forget`], nobody has the table
    /// any more, and each call of this session panics.
    ///
    ///     # use pelgaisti::{Call, Mode, Office, Resource};
    ///     let mut sessions = Office::open(2)?;
    ///     for session in &mut sessions {
    ///         let _ = session.perform(&Call::Begin)?;
    ///         let _ = session.perform(&Call::Lock(Resource::new(&[7]).unwrap(), Mode::X))?;
    ///     }
    ///     let view = sessions[0].look()?;
    ///     assert_eq!((view.length(), view.gauges()?.waiting, view.blockers(2)?), (4, 1, vec![1]));
    ///     drop(view);
    ///     assert_eq!(sessions[0].seen(), 4);
    ///     # Ok::<(), pelgaisti::Error>(())
    pub fn look(&mut self) -> Result<View<'_>, Error> {
        // SAFETY: the handle is this session's, used by `&mut`; the view's is closed and the session's own, at a place of its own
        done(unsafe { ffi::pelgaisti_session_look(self.raw(), self.view().raw()) })?;
        Ok(View { session: self })
    }
}

impl Deref for View<'_> {
    type Target = Table;
    fn deref(&self) -> &Table {
        self.session.view()
    }
}

impl Drop for View<'_> {
    fn drop(&mut self) {
        // SAFETY: both handles are the session's, which this has by `&mut`
        done(unsafe { ffi::pelgaisti_look_end(self.session.raw(), self.session.view().raw()) }).expect("a look ends");
    }
}
