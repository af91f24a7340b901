//! Handles, each at one place from its opening to its end.

use crate::error::{done, Error};
use crate::ffi::{self, RawPass, RawProgramAnswer, RawSession, MAX_SESSIONS};
use crate::lists::{filled, list_for};
use crate::options::Options;
use crate::shared::Shared;
use crate::table::Table;
use crate::waker::PlacedWaker;
use std::cell::UnsafeCell;
use std::mem;
use std::ptr;
use std::sync::atomic::{AtomicU64, Ordering};
use std::sync::{Mutex, MutexGuard, PoisonError};

/// The handles of an office's sessions.
pub(crate) struct Handles {
    all: Box<[UnsafeCell<RawSession>]>,
    // of each session the handle of its look
    views: Box<[Table]>,
    // the indices of the sessions that were dropped, with room for all, so that a drop asks for no memory
    dropped: Mutex<Vec<usize>>,
    // of each session the newest transaction that somebody has asked to end, 0 if there is none
    asked: Box<[AtomicU64]>,
    // behind the handles: what the library has of it is read by calls on them
    waker: Option<PlacedWaker>,
}

// SAFETY: the library proves that what a session's handle holds may go to another thread. Each handle is used by its own session, and
// by a session that has it by `&mut`. The waker's closure is Send and Sync, and nothing else of a waker is written but an atomic.
unsafe impl Send for Handles {}
// SAFETY: as above
unsafe impl Sync for Handles {}

fn closed() -> UnsafeCell<RawSession> {
    UnsafeCell::new(RawSession {
        is_open_: 0,
        note_: 0,
        at_: ptr::null_mut(),
    })
}

impl Handles {
    /// Opens an office.
    pub(crate) fn open(options: &Options, waker: Option<PlacedWaker>) -> Result<Shared<Handles>, Error> {
        let sessions = options.sessions as usize;
        if sessions == 0 || sessions > MAX_SESSIONS {
            return Err(Error::NoSuchCount);
        }
        let handles = Shared::new(Handles {
            all: filled(sessions, closed)?,
            views: filled(sessions, Table::closed)?,
            dropped: Mutex::new(list_for(sessions)?),
            asked: filled(sessions, AtomicU64::default)?,
            waker,
        })?;
        // of the whole slice, not of its first handle
        let first = UnsafeCell::raw_get(handles.all.as_ptr());
        let raw = options.raw(handles.waker.as_ref().map_or(ptr::null(), |it| it.raw()));
        // SAFETY: there are so many handles, empty, at places that they keep while these `Handles` live. A waker keeps its place and its
        // fields as long, and its function returns whatever the closure does
        done(unsafe { ffi::pelgaisti_office_open(first, &raw) })?;
        Ok(handles)
    }

    /// The handle of the look of the session with this index.
    pub(crate) fn view(&self, index: usize) -> &Table {
        &self.views[index]
    }

    pub(crate) fn raw(&self, index: usize) -> *mut RawSession {
        self.all[index].get()
    }

    /// The indices of the dropped sessions. What panicked beside them has left them whole.
    pub(crate) fn dropped(&self) -> MutexGuard<'_, Vec<usize>> {
        self.dropped.lock().unwrap_or_else(PoisonError::into_inner)
    }

    /// Marks a transaction of the session with this index, and wakes the session. Whether there is such a session.
    pub(crate) fn ask_to_end(&self, index: usize, transaction: u64) -> bool {
        // a session's transactions have rising numbers: who asks late, of an earlier one, doesn't take the mark of a later one away
        let before = self.asked.get(index).map(|it| it.fetch_max(transaction, Ordering::SeqCst));
        if let (Some(_), Some(waker)) = (before, &self.waker) {
            waker.wake(index as u32 + 1);
        }
        before.is_some()
    }

    /// The transaction of the session that was asked to end last, 0 if none was.
    pub(crate) fn asked(&self, index: usize) -> u64 {
        self.asked[index].load(Ordering::SeqCst)
    }

    /// Closes the office, unless it is closed, and frees its lock table. Whether nothing of it is left.
    fn close(&self) -> bool {
        let (mut pass, mut answer) = (RawPass::default(), RawProgramAnswer::default());
        let mut first_open = None;
        for handle in self.all.iter().map(UnsafeCell::get) {
            // SAFETY: no session is left to use a handle; the program may be null, and the others are locals. A closed handle refuses each of
            // these calls
            let status = unsafe {
                ffi::pelgaisti_session_serve(handle, &mut pass);
                ffi::pelgaisti_session_run(handle, ptr::null(), 1, &mut answer)
            };
            if status == ffi::CLOSED {
                continue;
            }
            match first_open {
                None => first_open = Some(handle),
                // SAFETY: no session is left to use these two handles, which aren't the same
                Some(to) => drop(unsafe { ffi::pelgaisti_session_hand_in(handle, to) }),
            }
        }
        let book = Table::closed();
        // SAFETY: no session is left to use the handle; the book's is a local that is empty, and is open between the two calls only
        first_open.map_or(true, |last| unsafe {
            ffi::pelgaisti_office_close(last, book.raw()) == ffi::OK && ffi::pelgaisti_book_close(book.raw()) == ffi::OK
        })
    }
}

impl Drop for Handles {
    /// All sessions were dropped: gives the memory of their office back. Nobody is woken by this.
    fn drop(&mut self) {
        if let Some(waker) = &self.waker {
            waker.end();
        }
        if !self.close() {
            // memory was refused, or a look was leaked: handles that are open keep their places
            mem::forget((mem::take(&mut self.all), mem::take(&mut self.views), self.waker.take()));
        }
    }
}
