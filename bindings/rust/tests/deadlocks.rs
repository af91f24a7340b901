//! The newest deadlocks that books and offices tell, and their text.

use pelgaisti::{Book, Call, ClaimKind, Deadlock, Error, Mode, Office, Options, Reply, Resource, Session};
use std::sync::mpsc;

fn database(number: u32) -> Resource {
    Resource::new(&[number]).unwrap()
}

fn lock(number: u32, mode: Mode) -> Call {
    Call::Lock(database(number), mode)
}

/// The deadlock of two sessions: session 1 holds 1 in X, session 2 holds 2 in S, and each asks for the other's. Session 2 has the
/// younger transaction, and made the call at the place.
fn want_cross(deadlock: &Deadlock, place: u64, transactions: [u64; 2]) {
    assert_eq!((deadlock.place, deadlock.session, deadlock.cycle.len()), (place, 2, 2));
    let [victim, next] = [deadlock.cycle[0], deadlock.cycle[1]];
    assert_eq!((victim.request.session, victim.request.transaction.number, victim.request.transaction.doomed), (2, transactions[1], false));
    assert_eq!((victim.request.resource, victim.request.mode, victim.request.kind), (database(1), Mode::S, ClaimKind::Fresh));
    assert_eq!((next.request.session, next.request.transaction.number, next.request.transaction.doomed), (1, transactions[0], false));
    assert_eq!((next.request.resource, next.request.mode, next.request.kind), (database(2), Mode::X, ClaimKind::Fresh));
    assert_eq!((victim.held, next.held), (Some(Mode::X), Some(Mode::S)));
}

/// Serves calls whose replies are these.
fn serve(book: &mut Book, calls: &[(u32, Call, Reply)]) {
    for (session, call, reply) in calls {
        assert_eq!(book.serve(*session, call).unwrap(), *reply);
    }
}

/// A round of eight calls, of which the sixth makes a deadlock. The transactions have these numbers.
fn cross(book: &mut Book, transactions: [u64; 2]) {
    serve(
        book,
        &[
            (1, Call::Begin, Reply::Began(transactions[0])),
            (2, Call::Begin, Reply::Began(transactions[1])),
            (1, lock(1, Mode::X), Reply::Granted(Mode::X)),
            (2, lock(2, Mode::S), Reply::Granted(Mode::S)),
            (1, lock(2, Mode::X), Reply::Waiting),
            (2, lock(1, Mode::S), Reply::Deadlock),
            (2, Call::Abort, Reply::Aborted(1)),
            (1, Call::Commit, Reply::Committed(2)),
        ],
    );
}

/// Books that keep none, few and many, of which what is told outgrows the room of the first question.
#[test]
fn the_newest_are_told() {
    for most in [0, 1, 3, 9, 30] {
        let mut book = Book::open(Options { deadlocks: most, ..Options::new(2) }).unwrap();
        assert_eq!(book.deadlocks(), Ok(vec![]));
        for round in 0..20 {
            cross(&mut book, [2 * round + 1, 2 * round + 2]);
        }
        let told = book.deadlocks().unwrap();
        assert_eq!(told.len(), most.min(20) as usize);
        for (round, deadlock) in (20 - told.len() as u64..).zip(&told) {
            want_cross(deadlock, 8 * round + 5, [2 * round + 1, 2 * round + 2]);
        }
        for asked in [0, 1, 12, 40] {
            assert_eq!(book.newest_deadlocks(asked).unwrap(), told[told.len() - told.len().min(asked)..]);
        }
    }
    let mut unasked = Book::open(2).unwrap();
    cross(&mut unasked, [1, 2]);
    assert_eq!(unasked.deadlocks(), Ok(vec![]));
}

/// A cycle of 40 sessions, each of which waits for the next one; the victim is the last, which waits for the first.
#[test]
fn a_long_cycle_is_told() {
    const MANY: u32 = 40;
    let mut book = Book::open(Options { deadlocks: 1, ..Options::new(MANY) }).unwrap();
    for session in 1..=MANY {
        assert_eq!(book.serve(session, &Call::Begin).unwrap(), Reply::Began(u64::from(session)));
        assert_eq!(book.serve(session, &lock(session, Mode::X)).unwrap(), Reply::Granted(Mode::X));
    }
    for session in 1..=MANY {
        let reply = book.serve(session, &lock(session % MANY + 1, Mode::X)).unwrap();
        assert_eq!(reply, if session == MANY { Reply::Deadlock } else { Reply::Waiting });
    }
    let told = book.deadlocks().unwrap();
    assert_eq!((told.len(), told[0].place, told[0].session, told[0].cycle.len()), (1, 119, 40, 40));
    let sessions: Vec<u32> = told[0].cycle.iter().map(|it| it.request.session).collect();
    assert_eq!(sessions, [40].into_iter().chain(1..40).collect::<Vec<u32>>());
}

/// Fresh requests and a conversion, each in its words. Places 0 to 12: session 3 waits to convert 1 from IX to SIX, as session 2
/// holds it in IX, too. Session 2 waits for 2, which session 1 holds. Session 1 asks for 1 in IX, beside the locks of the other two, but
/// the conversion is ahead: a cycle of 1, 3 and 2, whose youngest is session 3. With its request the obstacle goes.
#[test]
fn each_wait_has_its_words() {
    let mut book = Book::open(Options { deadlocks: 1, ..Options::new(3) }).unwrap();
    let below = Resource::new(&[2, 7, 40]).unwrap();
    serve(
        &mut book,
        &[
            (1, Call::Begin, Reply::Began(1)),
            (2, Call::Begin, Reply::Began(2)),
            (3, Call::Begin, Reply::Began(3)),
            (2, lock(1, Mode::IX), Reply::Granted(Mode::IX)),
            (3, lock(1, Mode::IX), Reply::Granted(Mode::IX)),
            (1, Call::Lock(database(2), Mode::IX), Reply::Granted(Mode::IX)),
            (1, Call::Lock(Resource::new(&[2, 7]).unwrap(), Mode::IX), Reply::Granted(Mode::IX)),
            (1, Call::Lock(below, Mode::X), Reply::Granted(Mode::X)),
            (2, Call::Lock(database(2), Mode::IS), Reply::Granted(Mode::IS)),
            (2, Call::Lock(Resource::new(&[2, 7]).unwrap(), Mode::IS), Reply::Granted(Mode::IS)),
            (3, lock(1, Mode::S), Reply::Waiting),
            (2, Call::Lock(below, Mode::S), Reply::Waiting),
            (1, lock(1, Mode::IX), Reply::Granted(Mode::IX)),
        ],
    );
    let told = book.deadlocks().unwrap();
    assert_eq!(
        told[0].to_string(),
        "deadlock at place 12: session 1 closed a cycle, session 3 is its victim\n\
        \x20 session 3, transaction 3, waits to convert 1 to SIX, which session 2 holds in IX\n\
        \x20 session 2, transaction 2, waits for 2/7/40 in S, which session 1 holds in X\n\
        \x20 session 1, transaction 1, waits for 1 in IX, which session 3 holds in IX\n"
    );
}

/// Session 3 waits for 1 in X, which session 2 holds in S; session 2 waits for 2, which session 1 holds; and session 1, by the call at
/// place 7, asks for 1 in S, beside session 2's lock, but behind session 3's request.
#[test]
fn a_request_ahead_blocks() {
    let mut book = Book::open(Options { deadlocks: 1, ..Options::new(3) }).unwrap();
    serve(
        &mut book,
        &[
            (1, Call::Begin, Reply::Began(1)),
            (2, Call::Begin, Reply::Began(2)),
            (3, Call::Begin, Reply::Began(3)),
            (2, lock(1, Mode::S), Reply::Granted(Mode::S)),
            (1, lock(2, Mode::X), Reply::Granted(Mode::X)),
            (3, lock(1, Mode::X), Reply::Waiting),
            (2, lock(2, Mode::S), Reply::Waiting),
            (1, lock(1, Mode::S), Reply::Granted(Mode::S)),
        ],
    );
    let told = book.deadlocks().unwrap();
    assert_eq!(told[0].cycle.iter().map(|it| it.held).collect::<Vec<_>>(), [Some(Mode::S), Some(Mode::X), None]);
    assert_eq!(
        told[0].to_string(),
        "deadlock at place 7: session 1 closed a cycle, session 3 is its victim\n\
        \x20 session 3, transaction 3, waits for 1 in X, which session 2 holds in S\n\
        \x20 session 2, transaction 2, waits for 2 in S, which session 1 holds in X\n\
        \x20 session 1, transaction 1, waits for 1 in S, behind session 3\n"
    );
}

fn reply(session: &mut Session, call: Call) -> Reply {
    session.perform(&call).unwrap().reply
}

/// Offices that were told to keep deadlocks when they were opened, with a closure that wakes and without, and one that wasn't.
#[test]
fn offices_tell() {
    let (woken, told) = mpsc::sync_channel(8);
    let wake = move |session| woken.send(session).unwrap();
    let options = Options { deadlocks: 4, ..Options::new(2) };
    let telling = Office::open(options).unwrap();
    let waking = Office::open_waking(Options { keep: 3, ..options }, wake).unwrap();
    for (mut sessions, kept) in [(telling, 1), (waking, 1), (Office::open(2).unwrap(), 0)] {
        for (index, session) in sessions.iter_mut().enumerate() {
            assert_eq!(reply(session, Call::Begin), Reply::Began(index as u64 + 1));
        }
        assert_eq!(reply(&mut sessions[0], lock(1, Mode::X)), Reply::Granted(Mode::X));
        assert_eq!(reply(&mut sessions[1], lock(2, Mode::S)), Reply::Granted(Mode::S));
        assert_eq!(sessions[0].look().unwrap().deadlocks(), Ok(vec![]));
        assert_eq!(reply(&mut sessions[0], lock(2, Mode::X)), Reply::Waiting);
        assert_eq!(reply(&mut sessions[1], lock(1, Mode::S)), Reply::Deadlock);
        for session in &mut sessions {
            let view = session.look().unwrap();
            let told = view.deadlocks().unwrap();
            assert_eq!((view.length(), told.len()), (6, kept));
            told.iter().for_each(|it| want_cross(it, 5, [1, 2]));
        }
        assert_eq!(reply(&mut sessions[1], Call::Abort), Reply::Aborted(1));
        assert_eq!(reply(&mut sessions[0], Call::Commit), Reply::Committed(2));
        let book = Office::close(sessions).unwrap();
        let told = book.deadlocks().unwrap();
        assert_eq!(told.len(), kept);
        told.iter().for_each(|it| want_cross(it, 5, [1, 2]));
    }
    assert_eq!(told.try_iter().collect::<Vec<u32>>(), [1]);
    let too_many = Options { deadlocks: u64::MAX, ..options };
    assert_eq!(Book::open(too_many).err(), Some(Error::NoMemory));
    assert_eq!(Office::open(too_many).err(), Some(Error::NoMemory));
    assert_eq!(Office::open_waking(too_many, |_| ()).err(), Some(Error::NoMemory));
}
