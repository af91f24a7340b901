//! The whole state of a lock table at one moment.

use crate::claims::{Claim, Transaction};
use crate::error::{done, Error};
use crate::ffi::{self, RawClaim, RawDumping};
use crate::lists::whole_list;
use crate::table::Table;
use std::fmt;

/// The whole state of a lock table at one moment, with its place in the history. It is displayed as the rows of `glm show --csv`.
#[derive(Clone)]
pub struct Dump {
    place: u64,
    rows: Vec<RawClaim>,
}

impl Dump {
    /// How many calls the history had: the state is that behind these.
    pub fn place(&self) -> u64 {
        self.place
    }

    /// The sessions that have an open transaction, each with it, by session number.
    pub fn transactions(&self) -> impl Iterator<Item = (u32, Transaction)> + '_ {
        self.rows.iter().filter(|row| row.kind == 0).map(|row| {
            (
                row.session,
                Transaction {
                    number: row.transaction,
                    doomed: row.doomed != 0,
                },
            )
        })
    }

    /// All locks and all waiting requests: resource by resource, in the order of paths; of each resource its holders by session number, then its
    /// queue in the order in which it is granted.
    pub fn claims(&self) -> impl Iterator<Item = Claim> + '_ {
        self.rows.iter().filter_map(Claim::of)
    }
}

impl fmt::Display for Dump {
    fn fmt(&self, to: &mut fmt::Formatter<'_>) -> fmt::Result {
        let mut line = [0u8; 128];
        let mut at = RawDumping::default();
        loop {
            let (rows, count) = (self.rows.as_ptr(), self.rows.len());
            // SAFETY: the rows are those of one dump, and so many; the place was made for them; the line has so much room
            let length = unsafe { ffi::pelgaisti_dump_line(rows, count, &mut at, line.as_mut_ptr().cast(), line.len()) };
            match line.get(..length as usize) {
                Some([]) | None => return Ok(()),
                Some(text) => to.write_str(&String::from_utf8_lossy(text))?,
            }
        }
    }
}

impl fmt::Debug for Dump {
    fn fmt(&self, to: &mut fmt::Formatter<'_>) -> fmt::Result {
        write!(to, "Dump in front of place {}:\n{self}", self.place)
    }
}

impl Table {
    /// The whole state: the open transactions, and all locks and waiting requests.
    ///
    ///     # use pelgaisti::{Book, Call, Mode, Resource};
    ///     let mut book = Book::open(2)?;
    ///     for session in 1..=2 {
    ///         let _ = book.serve(session, &Call::Begin)?;
    ///         let _ = book.serve(session, &Call::Lock(Resource::new(&[7]).unwrap(), Mode::X))?;
    ///     }
    ///     let dump = book.dump()?;
    ///     assert_eq!((dump.place(), dump.transactions().count(), dump.claims().count()), (4, 2, 2));
    ///     assert_eq!(dump.to_string(), "transaction,1,1,,,,\ntransaction,2,2,,,,\nheld,1,1,,7,X,\nfresh,2,2,,7,X,\nwaits,2,,,,,1\n");
    ///     # Ok::<(), pelgaisti::Error>(())
    pub fn dump(&self) -> Result<Dump, Error> {
        let mut place = 0;
        let rows = whole_list(|row: &RawClaim| Some(*row), |list, count| {
            // SAFETY: the handle is this table's; the list has so much room, and the others are locals
            done(unsafe { ffi::pelgaisti_book_dump(self.raw(), list.as_mut_ptr(), list.len(), count, &mut place) })
        })?;
        Ok(Dump { place, rows })
    }
}
