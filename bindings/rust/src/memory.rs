//! Memory of a lock table: room that is made beforehand, and memory that is given back.

use crate::error::{done, Error};
use crate::ffi;
use crate::table::Table;

/// Memory. It grows by doubling, and what has grown is moved then, in one call. A table gives nothing back by itself: a resource that nobody
/// holds or waits for any more leaves an idle cell, whose memory the next new resource takes. These calls change nothing that another call
/// tells but the gauge of idle cells.
impl Table {
    /// Makes room for `resources` resources beside those that are held or waited for, and for `entries` entries of the history beside
    /// those that are kept: until as many have come, neither grows in a call. [`Error::NoMemory`]: some of the room may have been made.
    ///
    ///     # use pelgaisti::{Book, Error, Office};
    ///     let book = Book::open(2)?;
    ///     book.reserve(1000, 4000)?;
    ///     assert_eq!(book.reserve(usize::MAX, 0), Err(Error::NoMemory));
    ///     Office::open(2)?[1].look()?.reserve(1000, 4000)?;
    ///     # Ok::<(), Error>(())
    pub fn reserve(&self, resources: usize, entries: usize) -> Result<(), Error> {
        // SAFETY: the handle is this table's
        done(unsafe { ffi::pelgaisti_book_reserve(self.raw(), resources, entries) })
    }

    /// Gives back memory that isn't in use: the idle cells, the lists of locks of sessions that hold none and don't wait, the memory of
    /// entries that were let go, and room for more. It takes time for each cell, each session, and each entry that is kept. Later calls
    /// take memory again as they need it.
    ///
    ///     # use pelgaisti::{Book, Call, Mode, Resource};
    ///     let mut book = Book::open(1)?;
    ///     let lock = Call::Lock(Resource::new(&[7]).unwrap(), Mode::X);
    ///     book.serve_batch(&[(1, Call::Begin), (1, lock), (1, Call::Commit)])?;
    ///     assert_eq!(book.gauges()?.idle_cells, 1);
    ///     book.shrink();
    ///     assert_eq!(book.gauges()?.idle_cells, 0);
    ///     # Ok::<(), pelgaisti::Error>(())
    pub fn shrink(&self) {
        // SAFETY: the handle is this table's
        done(unsafe { ffi::pelgaisti_book_shrink(self.raw()) }).expect("an open table shrinks");
    }
}
