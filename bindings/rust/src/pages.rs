//! How many locks a session holds, and pages of them.

use crate::calls::Resource;
use crate::claims::Claim;
use crate::error::{done, Error};
use crate::ffi::{self, RawClaim, RawResource, MAX_LOCKS};
use crate::lists::{blank, each};
use crate::table::Table;

/// Pages of one session's locks. A page has the first locks on resources behind another, in the order of paths; the next one begins behind
/// the resource of its last lock. Pages that are read so tell no resource twice, whatever is called between them, and each lock that the
/// session held at all of them is told by the time a page is short. What a page costs grows with the locks of that session alone.
impl Table {
    /// How many locks the session holds, at most 4096: an engine escalates before it is refused a lock.
    ///
    ///     assert_eq!(pelgaisti::Book::open(1)?.locks_held(1)?, 0);
    ///     # Ok::<(), pelgaisti::Error>(())
    pub fn locks_held(&self, session: u32) -> Result<usize, Error> {
        let mut count = 0;
        // SAFETY: the handle is this table's; the count is a local
        done(unsafe { ffi::pelgaisti_book_locks_held(self.raw(), session, &mut count) })?;
        Ok(count)
    }

    /// The first locks of the session on resources behind `after`, at most `most`: of all, if that is `None`. Fewer than `most` are the last
    /// page.
    ///
    ///     # use pelgaisti::{Book, Call, Mode, Resource};
    ///     let mut book = Book::open(1)?;
    ///     let _ = book.serve(1, &Call::Begin)?;
    ///     for number in [9, 7, 8] {
    ///         let _ = book.serve(1, &Call::Lock(Resource::new(&[number]).unwrap(), Mode::X))?;
    ///     }
    ///     let page = book.locks_of(1, None, 2)?;
    ///     assert_eq!(page[1].resource, Resource::new(&[8]).unwrap());
    ///     let rest = book.locks_of(1, Some(page[1].resource), 2)?;
    ///     assert_eq!((rest.len(), rest[0].resource), (1, Resource::new(&[9]).unwrap()));
    ///     assert_eq!(book.locks_held(1)?, page.len() + rest.len());
    ///     # Ok::<(), pelgaisti::Error>(())
    pub fn locks_of(&self, session: u32, after: Option<Resource>, most: usize) -> Result<Vec<Claim>, Error> {
        let (mut list, mut count) = (blank::<RawClaim>(most.min(MAX_LOCKS))?, 0);
        let (to, room) = (list.as_mut_ptr(), list.len());
        let after = after.map_or_else(RawResource::default, Resource::raw); // level 0 stands for none
        // SAFETY: the handle is this table's; the list has so much room, the others are locals of their types
        done(unsafe { ffi::pelgaisti_book_locks_of(self.raw(), session, &after, to, room, &mut count) })?;
        each(&list[..count], Claim::of)
    }
}
