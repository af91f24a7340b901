//! What a lock table is asked.

use crate::calls::{Mode, Resource};
use crate::claims::{Claim, Holder, Transaction};
use crate::error::{done, Error};
use crate::ffi::{self, RawBook, RawClaim, RawHolder, RawTransaction, MAX_SESSIONS};
use crate::lists::{each, whole_list};
use std::cell::UnsafeCell;
use std::ptr;

/// The lock table of a [`Book`](crate::Book); or that of an office while a session of it looks ([`Session::look`](crate::Session::look)),
/// of which all answers are of one moment. Both are asked by these methods, which change nothing that another call tells.
#[repr(transparent)]
pub struct Table {
    // not Sync: one call at a time uses the handle
    handle: UnsafeCell<RawBook>,
}

impl Table {
    /// A handle that isn't open yet.
    pub(crate) const fn closed() -> Table {
        Table {
            handle: UnsafeCell::new(RawBook {
                is_open_: 0,
                note_: 0,
                at_: ptr::null_mut(),
                look_: ptr::null_mut(),
            }),
        }
    }

    /// The handle, which is at its place as long as it is open.
    pub(crate) fn raw(&self) -> *mut RawBook {
        self.handle.get()
    }

    /// The sessions for which `session` waits directly, who block it, by number: each holds what it waits for in a mode that conflicts with
    /// its request, or has a request ahead of it in the queue.
    ///
    ///     assert_eq!(pelgaisti::Book::open(2)?.blockers(1)?, []);
    ///     assert_eq!(pelgaisti::Book::open(2)?.blockers(3), Err(pelgaisti::Error::NoSuchSession));
    ///     # Ok::<(), pelgaisti::Error>(())
    pub fn blockers(&self, session: u32) -> Result<Vec<u32>, Error> {
        let (mut list, mut count) = ([0; MAX_SESSIONS], 0);
        // SAFETY: the handle is this table's; the list has so much room, and the count is a local
        done(unsafe { ffi::pelgaisti_book_blockers(self.raw(), session, list.as_mut_ptr(), list.len(), &mut count) })?;
        each(&list[..count], |it| Some(*it))
    }

    /// The mode that the session holds on the resource itself, `NL` if none. The mode of a waiting request doesn't count.
    ///
    ///     # use pelgaisti::{Book, Mode, Resource};
    ///     let book = Book::open(1)?;
    ///     assert_eq!(book.held(1, Resource::new(&[7]).unwrap())?, Mode::NL);
    ///     # Ok::<(), pelgaisti::Error>(())
    pub fn held(&self, session: u32, resource: Resource) -> Result<Mode, Error> {
        let mut mode = 0;
        // SAFETY: the handle is this table's; resource and mode are locals of their types
        done(unsafe { ffi::pelgaisti_book_held(self.raw(), session, &resource.raw(), &mut mode) })?;
        Ok(Mode::of(u64::from(mode)))
    }

    /// The sessions that hold the resource, by number.
    ///
    ///     # use pelgaisti::{Book, Resource};
    ///     let book = Book::open(1)?;
    ///     assert!(book.holders(Resource::new(&[7]).unwrap())?.is_empty());
    ///     # Ok::<(), pelgaisti::Error>(())
    pub fn holders(&self, resource: Resource) -> Result<Vec<Holder>, Error> {
        let holder = |raw: &RawHolder| Some(Holder::of(raw));
        whole_list(holder, |list, count| {
            // SAFETY: the handle is this table's; the list has so much room, the others are locals of their types
            done(unsafe { ffi::pelgaisti_book_holders(self.raw(), &resource.raw(), list.as_mut_ptr(), list.len(), count) })
        })
    }

    /// The open transaction of the session, `None` if it has none.
    ///
    ///     # use pelgaisti::{Book, Call};
    ///     let mut book = Book::open(1)?;
    ///     assert_eq!(book.transaction(1)?, None);
    ///     let _ = book.serve(1, &Call::Begin)?;
    ///     assert_eq!(book.transaction(1)?.unwrap().number, 1);
    ///     # Ok::<(), pelgaisti::Error>(())
    pub fn transaction(&self, session: u32) -> Result<Option<Transaction>, Error> {
        let mut open = RawTransaction::default();
        // SAFETY: the handle is this table's; what is written is a local
        done(unsafe { ffi::pelgaisti_book_transaction(self.raw(), session, &mut open) })?;
        Ok(Transaction::of(&open))
    }

    /// The waiting request of the session, `None` if it doesn't wait.
    ///
    ///     assert_eq!(pelgaisti::Book::open(1)?.request(1)?, None);
    ///     # Ok::<(), pelgaisti::Error>(())
    pub fn request(&self, session: u32) -> Result<Option<Claim>, Error> {
        let mut waiting = RawClaim::default();
        // SAFETY: the handle is this table's; what is written is a local
        done(unsafe { ffi::pelgaisti_book_request(self.raw(), session, &mut waiting) })?;
        Ok(Claim::of(&waiting))
    }
}
