//! No history depends on the seed of a lock table, nor on room that is made or memory that is given back.

use pelgaisti::{Book, Call, Entry, Error, Mode, Office, Options, Reply, Resource};
use std::sync::mpsc;

const SESSIONS: u32 = 4;

/// The calls of a run: the sessions lock databases and files of theirs, drawn as the same numbers each time, and end now and then.
fn drawn() -> Vec<(u32, Call)> {
    let mut state = 1_u32;
    let mut draw = |below| {
        state = state.wrapping_mul(1_664_525).wrapping_add(1_013_904_223);
        (state >> 8) % below
    };
    let mut call = || {
        let (database, file, level) = (draw(20), draw(3), draw(2) + 1);
        let resource = Resource::new(&[database, file][..level as usize]).unwrap();
        let mode = [Mode::IS, Mode::IX, Mode::S, Mode::X][draw(4) as usize];
        match draw(12) {
            0 => Call::Abort,
            1..=3 => Call::Begin,
            4 => Call::Release(resource),
            _ => Call::Lock(resource, mode),
        }
    };
    (0..1000).map(|at| (at % SESSIONS + 1, call())).collect()
}

/// The history of the calls in a book, in which room is made and memory given back meanwhile.
fn in_a_book(mut book: Book) -> Vec<Entry> {
    for (at, (session, call)) in drawn().iter().enumerate() {
        let _ = book.serve(*session, call).unwrap();
        match at % 100 {
            0 => book.shrink(),
            50 => book.reserve(at, at).unwrap(),
            _ => (),
        }
    }
    book.history(0, usize::MAX).unwrap()
}

/// The same in an office.
fn in_an_office(mut sessions: Vec<pelgaisti::Session>) -> Vec<Entry> {
    for (at, (session, call)) in drawn().iter().enumerate() {
        let session = &mut sessions[*session as usize - 1];
        let _ = session.perform(call).unwrap();
        match at % 100 {
            0 => session.look().unwrap().shrink(),
            50 => session.look().unwrap().reserve(at, at).unwrap(),
            _ => (),
        }
    }
    let book = Office::close(sessions).unwrap();
    book.history(0, usize::MAX).unwrap()
}

#[test]
fn no_history_depends_on_the_seed() {
    let mut plain = Book::open(SESSIONS).unwrap();
    let history = plain.serve_batch(&drawn()).unwrap();
    assert_eq!(history.len(), 1000);
    assert!(history.iter().filter(|it| matches!(it.reply, Reply::Granted(_))).count() > 100);
    for seed in [0, 1, u64::MAX] {
        let options = Options { seed, ..Options::new(SESSIONS) };
        assert_eq!(in_a_book(Book::open(options).unwrap()), history);
        assert_eq!(in_an_office(Office::open(options).unwrap()), history);
        assert_eq!(in_an_office(Office::open_waking(options, |_| ()).unwrap()), history);
    }
}

#[test]
fn openings_refuse_what_is_out_of_range() {
    for sessions in [0, 1025] {
        assert_eq!(Book::open(sessions).err(), Some(Error::NoSuchCount));
        assert_eq!(Office::open(sessions).err(), Some(Error::NoSuchCount));
        assert_eq!(Office::open_waking(sessions, |_| ()).err(), Some(Error::NoSuchCount));
    }
    for no_pass in [Options { pass_calls: 0, ..Options::new(1) }, Options { pass_locks: 0, ..Options::new(1) }, Options { pass_rounds: 65_536, ..Options::new(1) }] {
        assert_eq!(Office::open(no_pass).err(), Some(Error::NoSuchCount));
        assert!(Book::open(no_pass).is_ok());
    }
}

#[test]
fn a_seeded_office_wakes_and_has_its_bound() {
    let (woken, told) = mpsc::sync_channel(8);
    let mut sessions = Office::open_waking(Options { keep: 3, seed: 7, ..Options::new(2) }, move |session| woken.send(session).unwrap()).unwrap();
    let database = Resource::new(&[7]).unwrap();
    for session in &mut sessions {
        let _ = session.perform(&Call::Begin).unwrap();
        let _ = session.perform(&Call::Lock(database, Mode::X)).unwrap();
    }
    let _ = sessions[0].perform(&Call::Commit).unwrap();
    assert_eq!(told.try_recv(), Ok(2));
    assert_eq!(Office::close(sessions).unwrap().first_kept(), 2);
}

#[test]
fn room_that_cannot_be_made_is_refused() {
    let book = Book::open(1).unwrap();
    assert_eq!(book.reserve(usize::MAX, 0), Err(Error::NoMemory));
    assert_eq!(book.reserve(0, usize::MAX), Err(Error::NoMemory));
    let mut sessions = Office::open(1).unwrap();
    let view = sessions[0].look().unwrap();
    assert_eq!(view.reserve(usize::MAX, 0), Err(Error::NoMemory));
    assert_eq!(view.reserve(0, usize::MAX), Err(Error::NoMemory));
    assert_eq!(view.reserve(9, 9), Ok(()));
}
