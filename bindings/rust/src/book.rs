//! The lock table for one thread.

use crate::calls::{Call, Reply};
use crate::error::{done, same_version, Error};
use crate::ffi::{self, RawEntry, RawProgramAnswer, RawReply, MAX_SESSIONS};
use crate::lists::{blank, each, filled, list_for};
use crate::options::Options;
use crate::programs::{Program, ProgramAnswer};
use crate::table::Table;
use std::ops::Deref;
use std::ptr;

/// A lock table with the history of its calls, for one thread at a time: it may move to another thread, and isn't shared. What it is asked
/// are the methods of [`Table`]. Dropping it frees the table.
pub struct Book {
    // one, boxed, since an open handle never moves
    table: Box<[Table]>,
}

// SAFETY: the library proves that a lock table may go to another thread. A book isn't Sync: one thread at a time uses the handle
unsafe impl Send for Book {}

impl Deref for Book {
    type Target = Table;
    fn deref(&self) -> &Table {
        &self.table[0]
    }
}

/// One call of the history.
#[derive(Clone, Copy, Debug, PartialEq, Eq, Hash)]
pub struct Entry {
    /// Whose call it was.
    pub session: u32,
    /// The call.
    pub call: Call,
    /// Its reply.
    pub reply: Reply,
}

impl Book {
    /// An empty lock table for so many sessions, at most 1024, or as [`Options`] say, of whose fields it reads `sessions`, `keep`,
    /// `deadlocks` and `seed`.
    ///
    ///     assert!(pelgaisti::Book::open(1024).is_ok());
    ///     assert_eq!(pelgaisti::Book::open(0).err(), Some(pelgaisti::Error::NoSuchCount));
    pub fn open(options: impl Into<Options>) -> Result<Book, Error> {
        same_version()?;
        let book = Book::closed()?;
        // SAFETY: the handle is the book's own, and empty; the options are a local, without a waker
        done(unsafe { ffi::pelgaisti_book_open(book.raw(), &options.into().raw(ptr::null())) })?;
        Ok(book)
    }

    /// A handle that isn't open yet.
    pub(crate) fn closed() -> Result<Book, Error> {
        Ok(Book { table: filled(1, Table::closed)? })
    }

    /// Serves one call of a session. The call is entered into the history, also if it is refused.
    ///
    ///     # use pelgaisti::{Book, Call, Refusal, Reply};
    ///     let mut book = Book::open(1)?;
    ///     assert_eq!(book.serve(1, &Call::Commit)?, Reply::Refused(Refusal::NoTransaction));
    ///     # Ok::<(), pelgaisti::Error>(())
    pub fn serve(&mut self, session: u32, call: &Call) -> Result<Reply, Error> {
        let mut reply = RawReply::default();
        // SAFETY: the handle is this book's; call and reply are locals of their types
        done(unsafe { ffi::pelgaisti_book_serve(self.raw(), session, &call.raw(), &mut reply) })?;
        Ok(Reply::of(&reply))
    }

    /// Serves calls of sessions in order, and returns the entry of each that was served: fewer than there are calls if memory was
    /// refused for the next one. If a session of one of them isn't there, none is served.
    ///
    ///     # use pelgaisti::{Book, Call, Reply};
    ///     let mut book = Book::open(2)?;
    ///     let entries = book.serve_batch(&[(1, Call::Begin), (2, Call::Begin)])?;
    ///     assert_eq!(entries[1].reply, Reply::Began(2));
    ///     # Ok::<(), pelgaisti::Error>(())
    pub fn serve_batch(&mut self, calls: &[(u32, Call)]) -> Result<Vec<Entry>, Error> {
        let item = |(session, call): &(u32, Call)| RawEntry {
            session: *session,
            call: call.raw(),
            reply: RawReply::default(),
        };
        let items = each(calls, |it| Some(item(it)))?;
        // SAFETY: the handle is this book's; the list has so many elements, and the count is a local
        entries_by(items, |list, count| unsafe {
            ffi::pelgaisti_book_serve_batch(self.raw(), list.as_mut_ptr(), list.len(), count)
        })
    }

    /// Runs a program of the session: makes its calls one after another, each with an entry of its own in the history, up to the first
    /// reply at which it stops. An engine that guards the book by a mutex acquires it once for the whole program.
    ///
    /// [`Error::NoMemory`]: nothing has changed. If memory is refused to a later call than the first, the answer says so.
    /// [`Error::NoCalls`]: the program makes no call.
    ///
    ///     # use pelgaisti::{Book, Mode, Program, Reply, Resource, Start};
    ///     let mut book = Book::open(1)?;
    ///     let page = Resource::new(&[7, 2]).unwrap();
    ///     let program = Program::locks(Start::Begins, page, Mode::X, 0).unwrap();
    ///     let answer = book.run(1, &program)?;
    ///     assert_eq!((answer.place, answer.served, answer.stop), (0, 3, None));
    ///     assert!(answer.replies(&program).eq([Reply::Began(1), Reply::Granted(Mode::IX), Reply::Granted(Mode::X)]));
    ///     # Ok::<(), pelgaisti::Error>(())
    pub fn run(&mut self, session: u32, program: &Program) -> Result<ProgramAnswer, Error> {
        let mut answer = RawProgramAnswer::default();
        // SAFETY: the handle is this book's; the answer is a local of its type
        done(unsafe { ffi::pelgaisti_book_run(self.raw(), session, program.raw(), &mut answer) })?;
        Ok(ProgramAnswer::of(answer))
    }

    /// The sessions whose wait the last call, batch or program has ended, each once, in no particular order: a request of theirs that
    /// waited was granted, or their transaction became a deadlock's victim. A poll of each tells which. The session of the call
    /// itself isn't among them. [`Error::NoMemory`]: ask again.
    ///
    ///     # use pelgaisti::{Book, Call, Mode, Reply, Resource};
    ///     let mut book = Book::open(2)?;
    ///     let database = Resource::new(&[7]).unwrap();
    ///     for session in 1..=2 {
    ///         let _ = book.serve(session, &Call::Begin)?;
    ///         let _ = book.serve(session, &Call::Lock(database, Mode::X))?;
    ///     }
    ///     assert_eq!(book.ended()?, []);
    ///     let _ = book.serve(1, &Call::Commit)?;
    ///     assert_eq!(book.ended()?, [2]);
    ///     # Ok::<(), pelgaisti::Error>(())
    pub fn ended(&self) -> Result<Vec<u32>, Error> {
        let (mut list, mut count) = ([0; MAX_SESSIONS], 0);
        // SAFETY: the handle is this book's; the list has so much room, and the count is a local
        done(unsafe { ffi::pelgaisti_book_ended(self.raw(), list.as_mut_ptr(), list.len(), &mut count) })?;
        each(&list[..count], |it| Some(*it))
    }

    /// Keeps at most the newest `bound` entries of the history from now on, and lets go of older ones as calls are served.
    /// `u64::MAX` is no bound.
    ///
    ///     # use pelgaisti::{Book, Call, Error};
    ///     let mut book = Book::open(1)?;
    ///     book.keep_at_most(1);
    ///     book.serve_batch(&[(1, Call::Begin), (1, Call::Commit)])?;
    ///     assert_eq!((book.length(), book.first_kept(), book.history(0, 9)), (2, 1, Err(Error::LetGo)));
    ///     # Ok::<(), pelgaisti::Error>(())
    pub fn keep_at_most(&mut self, bound: u64) {
        // SAFETY: the handle is this book's
        done(unsafe { ffi::pelgaisti_book_keep_at_most(self.raw(), bound) }).expect("an open book takes a bound");
    }

    /// Takes up to `room` of the oldest entries of the history that are kept, of which the book lets go. Returns them with the
    /// place of the first. [`Error::NoMemory`]: it lets go of none.
    ///
    ///     # use pelgaisti::{Book, Call};
    ///     let mut book = Book::open(1)?;
    ///     book.serve_batch(&[(1, Call::Begin), (1, Call::Commit)])?;
    ///     let (first, entries) = book.take_history(1)?;
    ///     assert_eq!((first, entries[0].call, book.take_history(usize::MAX)?.1[0].call), (0, Call::Begin, Call::Commit));
    ///     # Ok::<(), pelgaisti::Error>(())
    pub fn take_history(&mut self, room: usize) -> Result<(u64, Vec<Entry>), Error> {
        let mut first = 0;
        // SAFETY: the handle is this book's; the list has so much room, the others are locals of their types
        let entries = entries_by(blank(self.room_for(0, room))?, |list, count| unsafe {
            ffi::pelgaisti_book_take_history(self.raw(), &mut first, list.as_mut_ptr(), list.len(), count)
        })?;
        Ok((first, entries))
    }
}

impl Table {
    /// The place of the first entry that is kept, and the length of the history.
    fn places(&self) -> (u64, u64) {
        let (mut first, mut length) = (0, 0);
        // SAFETY: the handle is this table's; the others are locals
        done(unsafe { ffi::pelgaisti_book_length(self.raw(), &mut first, &mut length) }).expect("an open table tells its length");
        (first, length)
    }

    /// How many calls the history has, those among them whose entries were let go.
    ///
    ///     assert_eq!(pelgaisti::Book::open(1)?.length(), 0);
    ///     # Ok::<(), pelgaisti::Error>(())
    pub fn length(&self) -> u64 {
        self.places().1
    }

    /// The place of the first entry of the history that is kept.
    ///
    ///     assert_eq!(pelgaisti::Book::open(1)?.first_kept(), 0);
    ///     # Ok::<(), pelgaisti::Error>(())
    pub fn first_kept(&self) -> u64 {
        self.places().0
    }

    /// How many entries there are from the place `first` on, but no more than `room` nor than are kept.
    fn room_for(&self, first: u64, room: usize) -> usize {
        let (kept, length) = self.places();
        room.min(usize::try_from(length.saturating_sub(first.max(kept))).unwrap_or(usize::MAX))
    }

    /// Up to `room` entries of the history, from the place `first` on. [`Error::LetGo`]: the entry there was let go.
    ///
    ///     # use pelgaisti::{Book, Call, Reply};
    ///     let mut book = Book::open(1)?;
    ///     let _ = book.serve(1, &Call::Begin)?;
    ///     assert_eq!(book.history(0, 10)?[0].reply, Reply::Began(1));
    ///     # Ok::<(), pelgaisti::Error>(())
    pub fn history(&self, first: u64, room: usize) -> Result<Vec<Entry>, Error> {
        // SAFETY: the handle is this table's; the list has so much room, and the count is a local
        entries_by(blank(self.room_for(first, room))?, |list, count| unsafe {
            ffi::pelgaisti_book_history(self.raw(), first, list.as_mut_ptr(), list.len(), count)
        })
    }
}

/// The entries that a call writes to the list, with how many they are. Memory for them is taken before the call.
pub(crate) fn entries_by(
    mut list: Vec<RawEntry>,
    call: impl FnOnce(&mut [RawEntry], &mut usize) -> u32,
) -> Result<Vec<Entry>, Error> {
    let (mut entries, mut count) = (list_for(list.len())?, 0);
    done(call(&mut list, &mut count))?;
    entries.extend(list[..count].iter().map(Entry::of));
    Ok(entries)
}

impl Entry {
    pub(crate) fn of(raw: &RawEntry) -> Entry {
        Entry {
            session: raw.session,
            call: Call::of(&raw.call),
            reply: Reply::of(&raw.reply),
        }
    }
}

impl Drop for Book {
    fn drop(&mut self) {
        // SAFETY: the handle is this book's, which nobody uses any more. One that isn't open stays so
        unsafe { ffi::pelgaisti_book_close(self.raw()) };
    }
}
