//! Each allocation of Rust's that a call makes is refused in turn: the call tells of it, in place of an abort of the process, nothing has
//! changed, and the same call then succeeds. What the library itself asks of malloc isn't refused here.

#![deny(unsafe_op_in_unsafe_fn)]

use pelgaisti::{Book, Call, Error, Mode, Office, Reply, Resource, Session};
use std::alloc::{GlobalAlloc, Layout, System};
use std::cell::Cell;
use std::ptr::null_mut;
use std::sync::Arc;

thread_local! {
    /// How many allocations of this thread are made before one is refused, and how many were refused.
    static LEFT: Cell<usize> = const { Cell::new(usize::MAX) };
    static REFUSED: Cell<usize> = const { Cell::new(0) };
}

struct Refusing;

// SAFETY: what it gives is of the system's allocator, to which it goes back
unsafe impl GlobalAlloc for Refusing {
    unsafe fn alloc(&self, layout: Layout) -> *mut u8 {
        let left = LEFT.with(Cell::get);
        if left == 0 {
            LEFT.with(|it| it.set(usize::MAX));
            REFUSED.with(|it| it.set(it.get() + 1));
            return null_mut();
        }
        if left < usize::MAX {
            LEFT.with(|it| it.set(left - 1));
        }
        // SAFETY: the caller keeps the rules of both
        unsafe { System.alloc(layout) }
    }
    unsafe fn dealloc(&self, at: *mut u8, layout: Layout) {
        // SAFETY: as above
        unsafe { System.dealloc(at, layout) }
    }
}

#[global_allocator]
static REFUSING: Refusing = Refusing;

/// Makes a call with its first allocation refused, then with its second one, and so on, until none is. Each call but the last has to fail
/// with `NoMemory`. Returns what the last one returned, and how many failed.
fn each_in_turn<T>(mut call: impl FnMut() -> Result<T, Error>) -> (T, usize) {
    for at in 0.. {
        let before = REFUSED.with(Cell::get);
        LEFT.with(|it| it.set(at));
        let made = call();
        LEFT.with(|it| it.set(usize::MAX));
        if REFUSED.with(Cell::get) == before {
            return (made.unwrap(), at);
        }
        assert_eq!(made.err(), Some(Error::NoMemory), "allocation {at}");
    }
    unreachable!("a call makes finitely many allocations")
}

fn reply(session: &mut Session, call: Call) -> Reply {
    session.perform(&call).unwrap().reply
}

fn lock(number: u32, mode: Mode) -> Call {
    Call::Lock(Resource::new(&[number]).unwrap(), mode)
}

#[test]
fn openings() {
    let (book, refused) = each_in_turn(|| Book::open(8));
    assert_eq!((book.length(), refused), (0, 1));
    let bell = Arc::new(());
    type Opening<'a> = &'a dyn Fn() -> Result<Vec<Session>, Error>;
    let waking = || {
        let own = bell.clone();
        Office::open_waking(8, move |_| drop(own.clone()))
    };
    let openings: [(Opening, usize); 2] = [(&|| Office::open(8), 6), (&waking, 7)];
    for (open, allocations) in openings {
        let (mut sessions, refused) = each_in_turn(open);
        assert_eq!(refused, allocations);
        assert_eq!(reply(&mut sessions[7], Call::Begin), Reply::Began(1));
        assert_eq!(Office::close(sessions).unwrap().length(), 1);
    }
    // no closure is kept of an office that isn't open
    assert_eq!(Arc::strong_count(&bell), 1);
}

#[test]
fn ended() {
    let mut book = Book::open(3).unwrap();
    for session in 1..=3 {
        let _ = book.serve(session, &Call::Begin).unwrap();
        let _ = book.serve(session, &lock(7, if session == 1 { Mode::X } else { Mode::S })).unwrap();
    }
    assert_eq!(book.serve(1, &Call::Commit), Ok(Reply::Committed(1)));
    let (mut told, refused) = each_in_turn(|| book.ended());
    told.sort_unstable();
    assert_eq!((told, refused), (vec![2, 3], 1));
}

#[test]
fn orphans() {
    let mut sessions = Office::open(4).unwrap();
    assert_eq!(reply(&mut sessions[3], Call::Begin), Reply::Began(1));
    assert_eq!(reply(&mut sessions[3], lock(7, Mode::X)), Reply::Granted(Mode::X));
    drop(sessions.drain(2..));
    let (mut orphans, refused) = each_in_turn(|| Office::orphans(&sessions[0]));
    assert_eq!((orphans.iter().map(Session::number).collect::<Vec<_>>(), refused), (vec![3, 4], 1));
    assert!(Office::orphans(&sessions[0]).unwrap().is_empty());
    assert_eq!(reply(&mut orphans[1], Call::Abort), Reply::Aborted(1));
    sessions.append(&mut orphans);
    assert!(Office::close(sessions).is_ok());
}

/// A page has no more room than a session has locks, however many are asked for.
#[test]
fn pages() {
    let mut book = Book::open(1).unwrap();
    let _ = book.serve(1, &Call::Begin).unwrap();
    let _ = book.serve(1, &lock(7, Mode::X)).unwrap();
    let (page, refused) = each_in_turn(|| book.locks_of(1, None, usize::MAX));
    assert_eq!((page.len(), refused), (1, 2));
    let mut sessions = Office::open(1).unwrap();
    let (view, refused) = each_in_turn(|| sessions[0].look().map(|view| view.length()));
    assert_eq!((view, refused), (0, 0));
}
