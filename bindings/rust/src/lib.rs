//! The lock table of Gray, Lorie, Putzolu and Traiger (1976) for storage engines: multiple-granularity locks, with deadlocks
//! resolved by the youngest transaction on a cycle. It calls `libpelgaisti.a` by the functions that C calls, which lead to code that is
//! proved. This crate isn't proved, but its types keep the rules that `pelgaisti.h` has for callers. Left to a caller with unsafe code
//! are two: it makes no call in a signal handler or in the forked child of a process with threads, and ends no thread inside a call.
//!
//! A [`Book`] is a lock table for one thread at a time. An [`Office`] is one that threads share, each by a [`Session`] of its
//! own. [`Session::lock`] waits for a lock. No other call but [`Session::wait`] does: a thread that was told [`Reply::Waiting`] makes that,
//! or sleeps until the office's waker is called for its session ([`Office::open_waking`]), and polls. [`Options`] say how both are opened.
//! What may be asked are the methods of [`Table`]: of a book at any time, of an office while a session looks ([`Session::look`]).
//!
//!     use pelgaisti::{Book, Call, Mode, Reply, Resource};
//!
//!     let mut book = Book::open(2)?;
//!     let database = Resource::new(&[7]).unwrap();
//!     assert_eq!(book.serve(1, &Call::Begin)?, Reply::Began(1));
//!     assert_eq!(book.serve(2, &Call::Begin)?, Reply::Began(2));
//!     assert_eq!(book.serve(1, &Call::Lock(database, Mode::X))?, Reply::Granted(Mode::X));
//!     assert_eq!(book.serve(2, &Call::Lock(database, Mode::S))?, Reply::Waiting);
//!     assert_eq!(book.serve(1, &Call::Commit)?, Reply::Committed(1));
//!     assert_eq!(book.serve(2, &Call::Poll)?, Reply::Clear);
//!     # Ok::<(), pelgaisti::Error>(())
//!
//! **Statuses that can't come.** A handle is open as long as its value lives, a call is one of [`Call`], and each value has
//! handles of its own that never move: so the library's statuses CLOSED, OPEN, NO_SUCH_LEVEL, NO_SUCH_MODE, NULL, SAME, COPIED,
//! NO_SUCH_START, NOT_ON_PATH, NO_SUCH_ABOVE, LOOKS and NOT_A_LOOK have no counterpart in [`Error`], and NO_SUCH_OP comes of a program of no calls
//! alone. If the library gives another one all the same, the call panics.
#![deny(missing_docs, unsafe_op_in_unsafe_fn, clippy::undocumented_unsafe_blocks)]

mod book;
mod calls;
mod claims;
mod counts;
mod deadlocks;
mod dump;
mod error;
mod ffi;
mod handles;
mod lists;
mod locking;
mod looks;
mod memory;
mod office;
mod operator;
mod options;
mod orphans;
mod pages;
mod programs;
mod shared;
mod table;
mod waker;

pub use book::{Book, Entry};
pub use calls::{Call, Mode, Refusal, Reply, Resource};
pub use claims::{Claim, ClaimKind, Holder, Transaction};
pub use counts::{Calls, Counts, Gauges, PassCounts};
pub use deadlocks::{Deadlock, Member};
pub use dump::Dump;
pub use error::Error;
pub use locking::{Locked, Outcome};
pub use looks::View;
pub use office::{Answer, NotClosed, Office, Pass, Posted, Session};
pub use operator::Operator;
pub use options::Options;
pub use programs::{Program, ProgramAnswer, Start};
pub use table::Table;

/// A compiler warns of a reply or an answer that is ignored, and of orphans; not of one that is ignored by `let _`.
///
/// ```compile_fail
/// #![deny(unused_must_use)]
/// pelgaisti::Book::open(1).unwrap().serve(1, &pelgaisti::Call::Begin).unwrap();
/// ```
///
/// ```compile_fail
/// #![deny(unused_must_use)]
/// pelgaisti::Office::open(1).unwrap()[0].perform(&pelgaisti::Call::Begin).unwrap();
/// ```
///
/// ```compile_fail
/// #![deny(unused_must_use)]
/// let begin = pelgaisti::Program::start(pelgaisti::Start::Begins);
/// pelgaisti::Book::open(1).unwrap().run(1, &begin).unwrap();
/// ```
///
/// ```compile_fail
/// #![deny(unused_must_use)]
/// pelgaisti::Office::orphans(&pelgaisti::Office::open(1).unwrap()[0]);
/// ```
///
/// ```
/// #![deny(unused_must_use)]
/// use pelgaisti::{Book, Call, Office, Program, Start};
/// let (mut book, mut sessions) = (Book::open(1).unwrap(), Office::open(1).unwrap());
/// let _ = book.serve(1, &Call::Begin).unwrap();
/// let _ = book.run(1, &Program::start(Start::Commits)).unwrap();
/// let _ = sessions[0].perform(&Call::Begin).unwrap();
/// let _ = Office::orphans(&sessions[0]).unwrap();
/// ```
#[cfg(doctest)]
struct IgnoredReplies;
