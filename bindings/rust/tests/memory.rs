//! Rooms that a caller gives take no more memory than there is to write. Where Rust's memory is refused, the calls that tell of it may
//! be made again.

#![deny(unsafe_op_in_unsafe_fn)]

use pelgaisti::{Book, Call, Error, Mode, Office, Options, Program, Reply, Resource, Session, Start};
use std::alloc::{GlobalAlloc, Layout, System};
use std::cell::Cell;
use std::ptr::null_mut;
use std::sync::Arc;

thread_local! {
    /// The largest block, in bytes, that this thread gets.
    static LIMIT: Cell<usize> = const { Cell::new(usize::MAX) };
    /// How many blocks this thread gets before one is refused.
    static LEFT: Cell<usize> = const { Cell::new(usize::MAX) };
}

struct Limited;

// SAFETY: what it gives is of the system's allocator, to which it goes back
unsafe impl GlobalAlloc for Limited {
    unsafe fn alloc(&self, layout: Layout) -> *mut u8 {
        let is_refused = LEFT.with(|it| it.replace(it.get().wrapping_sub(1)) == 0);
        if is_refused || layout.size() > LIMIT.with(Cell::get) {
            return null_mut();
        }
        // SAFETY: the caller keeps the rules of both
        unsafe { System.alloc(layout) }
    }
    unsafe fn dealloc(&self, at: *mut u8, layout: Layout) {
        // SAFETY: as above
        unsafe { System.dealloc(at, layout) }
    }
}

#[global_allocator]
static LIMITED: Limited = Limited;

/// Makes a call to which blocks of more than 512 bytes are refused.
fn refused<T>(call: impl FnOnce() -> T) -> T {
    LIMIT.with(|it| it.set(512));
    let made = call();
    LIMIT.with(|it| it.set(usize::MAX));
    made
}

/// Makes a call with its first allocation refused, then with its second one, and so on, until none is: each tells `NoMemory`. Returns how
/// many allocations the call makes.
fn each_refused<T>(mut call: impl FnMut() -> Result<T, Error>) -> usize {
    (0..)
        .find(|at| {
            LEFT.with(|it| it.set(*at));
            let made = call();
            LEFT.with(|it| it.set(usize::MAX));
            made.map_err(|error| assert_eq!(error, Error::NoMemory)).is_ok()
        })
        .unwrap()
}

fn database() -> Resource {
    Resource::new(&[7]).unwrap()
}

fn reply(session: &mut Session, call: Call) -> Reply {
    session.perform(&call).unwrap().reply
}

/// A book of 300 sessions: all but the last hold the database to read, and the last one waits for them.
fn book_of_readers() -> Book {
    let mut book = Book::open(300).unwrap();
    for session in 1..=300 {
        let _ = book.serve(session, &Call::Begin).unwrap();
        let mode = if session == 300 { Mode::X } else { Mode::S };
        let _ = book.serve(session, &Call::Lock(database(), mode)).unwrap();
    }
    book
}

#[test]
fn a_room_takes_no_more_than_there_is() {
    let mut book = book_of_readers();
    assert_eq!(book.history(0, usize::MAX).unwrap().len(), 600);
    assert_eq!(book.history(599, usize::MAX).unwrap().len(), 1);
    assert_eq!(book.history(600, usize::MAX), Ok(vec![]));
    assert_eq!(book.history(u64::MAX, usize::MAX), Ok(vec![]));
    assert_eq!(book.take_history(99).unwrap().1.len(), 99);
    assert_eq!(book.history(98, usize::MAX), Err(Error::LetGo));
    let (first, entries) = book.take_history(usize::MAX).unwrap();
    assert_eq!((first, entries.len(), entries[0].session), (99, 501, 50));
    assert_eq!(book.take_history(usize::MAX), Ok((600, vec![])));
    assert_eq!(refused(|| book.history(0, usize::MAX)), Err(Error::LetGo));

    for length in [0, 1, 256, 257, 1000] {
        let mut sessions = Office::open(2).unwrap();
        for _ in 0..length {
            let _ = reply(&mut sessions[0], Call::Poll);
        }
        let (first, entries) = sessions[1].take_history(usize::MAX).unwrap();
        assert_eq!((first, entries.len()), (0, length));
        assert_eq!(sessions[0].take_history(usize::MAX), Ok((length as u64, vec![])));
        let _ = reply(&mut sessions[0], Call::Poll);
        assert_eq!(sessions[1].take_history(257).unwrap().1.len(), 1);
    }
}

#[test]
fn a_book_goes_on_where_memory_is_refused() {
    let mut book = book_of_readers();
    let calls = vec![(1, Call::Poll); 100];
    assert_eq!(refused(|| book.serve_batch(&calls)), Err(Error::NoMemory));
    let program = Program::locks(Start::Nothing, database(), Mode::S, 0).unwrap();
    assert_eq!(book.length(), 600);
    assert_eq!(refused(|| book.holders(database())), Err(Error::NoMemory));
    assert_eq!(refused(|| book.dump()).err(), Some(Error::NoMemory));
    assert_eq!(refused(|| book.blockers(300)), Err(Error::NoMemory));
    assert_eq!(refused(|| book.history(0, 100)), Err(Error::NoMemory));
    assert_eq!(refused(|| book.take_history(usize::MAX)), Err(Error::NoMemory));
    assert_eq!(book.first_kept(), 0);

    assert_eq!(book.serve_batch(&calls).unwrap().len(), 100);
    assert!(refused(|| book.run(1, &program)).unwrap().replies(&program).eq([Reply::Granted(Mode::S)]));
    assert_eq!(book.holders(database()).unwrap().len(), 299);
    assert_eq!(book.blockers(300).unwrap(), (1..300).collect::<Vec<_>>());
    let dump = book.dump().unwrap();
    assert_eq!((dump.place(), dump.transactions().count(), dump.claims().count()), (book.length(), 300, 300));
    assert_eq!(dump.to_string().lines().count(), 300 + 300 + 1);
    assert_eq!(book.take_history(usize::MAX).unwrap().1.len(), 701);
}

/// The deadlock of 20 sessions, each of which waits for the next one.
#[test]
fn deadlocks_are_told_where_memory_was_refused() {
    let options = Options { deadlocks: 4, ..Options::new(20) };
    let (mut book, mut sessions) = (Book::open(options).unwrap(), Office::open(options).unwrap());
    let lock = |number| Call::Lock(Resource::new(&[number]).unwrap(), Mode::X);
    let mut serve = |number: u32, call| {
        let _ = book.serve(number, &call).unwrap();
        let _ = reply(&mut sessions[number as usize - 1], call);
    };
    for number in 1..=20 {
        serve(number, Call::Begin);
        serve(number, lock(number));
    }
    for number in 1..=20 {
        serve(number, lock(number % 20 + 1));
    }
    assert_eq!(refused(|| book.deadlocks()), Err(Error::NoMemory));
    let view = sessions[0].look().unwrap();
    assert_eq!(refused(|| view.deadlocks()), Err(Error::NoMemory));
    let told = book.deadlocks().unwrap();
    assert_eq!((told.len(), told[0].cycle.len()), (1, 20));
    assert_eq!(view.deadlocks().unwrap(), told);
}

#[test]
fn an_office_goes_on_where_memory_is_refused() {
    let owned = Arc::new(());
    let owner = owned.clone();
    let wake = move |_| drop(owner.clone());
    assert_eq!(refused(|| Office::open_waking(300, wake)).err(), Some(Error::NoMemory));
    assert_eq!(Arc::strong_count(&owned), 1);
    assert_eq!(refused(|| Office::open(1024)).err(), Some(Error::NoMemory));

    let mut sessions = Office::open(300).unwrap();
    for (index, session) in sessions.iter_mut().enumerate() {
        let _ = reply(session, Call::Begin);
        let _ = reply(session, Call::Lock(database(), if index == 299 { Mode::X } else { Mode::S }));
    }
    let session = &mut sessions[0];
    let view = refused(|| session.look()).unwrap(); // a look takes no memory
    assert_eq!(refused(|| view.holders(database())), Err(Error::NoMemory));
    assert_eq!(refused(|| view.dump()).err(), Some(Error::NoMemory));
    assert_eq!(refused(|| view.blockers(300)), Err(Error::NoMemory));
    assert_eq!((view.holders(database()).unwrap().len(), view.dump().unwrap().claims().count()), (299, 300));
    assert_eq!(view.blockers(300).unwrap(), (1..300).collect::<Vec<_>>());
    drop(view);
    assert_eq!(refused(|| session.take_history(100)), Err(Error::NoMemory));
    assert_eq!(refused(|| session.take_history(usize::MAX)), Err(Error::NoMemory));

    let (first, entries) = session.take_history(usize::MAX).unwrap();
    assert_eq!((first, entries.len()), (0, 600));
}

#[test]
fn each_refused_allocation_is_told() {
    let mut book = Book::open(2).unwrap();
    for session in 1..=2 {
        let _ = book.serve(session, &Call::Begin).unwrap();
        let _ = book.serve(session, &Call::Lock(database(), Mode::X)).unwrap();
    }
    let _ = book.serve(1, &Call::Commit).unwrap();
    assert_eq!((each_refused(|| book.ended()), book.ended()), (1, Ok(vec![2])));

    let mut sessions = Office::open(3).unwrap();
    drop(sessions.pop());
    assert_eq!(each_refused(|| Office::orphans(&sessions[0])), 1);
    let orphans = Office::orphans(&sessions[0]).unwrap();
    assert_eq!((orphans.len(), orphans[0].number()), (1, 3));

    let owned = Arc::new(());
    let waker = || {
        let owner = owned.clone();
        move |_| drop(owner.clone())
    };
    assert!(each_refused(|| Office::open(2)) > 0);
    assert!(each_refused(|| Office::open_waking(2, waker())) > 0);
    assert_eq!(Arc::strong_count(&owned), 1);
}
