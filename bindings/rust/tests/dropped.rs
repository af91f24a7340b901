//! Sessions that are dropped: by a thread that panics, with a pending call, while they wait, retired, and all of an office.

use pelgaisti::{Call, Error, Mode, Office, Refusal, Reply, Resource, Session};
use std::panic;
use std::sync::{Arc, Barrier};
use std::thread;

/// Performs a call of the session and returns the reply.
fn reply(session: &mut Session, call: Call) -> Reply {
    session.perform(&call).unwrap().reply
}

fn numbers(sessions: &[Session]) -> Vec<u32> {
    sessions.iter().map(Session::number).collect()
}

/// glibc's count of the bytes that are in use.
fn bytes_in_use() -> usize {
    #[repr(C)]
    struct Mallinfo2([usize; 10]);
    extern "C" {
        fn mallinfo2() -> Mallinfo2;
    }
    // its eighth field is uordblks, and its fifth hblkhd: in blocks, and mapped
    // SAFETY: it takes nothing, and gives a struct of ten numbers
    let found = unsafe { mallinfo2() };
    found.0[7] + found.0[4]
}

// one test, since it counts the bytes of the process
#[test]
fn dropped_sessions() {
    let page = Resource::new(&[7]).unwrap();
    let mut sessions = Office::open(4).unwrap();
    let mut third = sessions.remove(2);
    let mut fourth = sessions.remove(2);

    // threads that panic: one holds the page, and one has asked for its commit and not heard of it
    let panicked = thread::spawn(move || {
        assert_eq!(reply(&mut third, Call::Begin), Reply::Began(1));
        assert_eq!(reply(&mut third, Call::Lock(page, Mode::X)), Reply::Granted(Mode::X));
        panic::resume_unwind(Box::new(()));
    });
    assert!(panicked.join().is_err());
    let panicked = thread::spawn(move || {
        assert_eq!(reply(&mut fourth, Call::Begin), Reply::Began(2));
        fourth.publish(&Call::Commit).unwrap();
        panic::resume_unwind(Box::new(()));
    });
    assert!(panicked.join().is_err());
    assert_eq!(reply(&mut sessions[1], Call::Begin), Reply::Began(3));
    assert_eq!(reply(&mut sessions[1], Call::Lock(page, Mode::S)), Reply::Waiting);

    // each comes back once, with what it had
    let mut orphans = Office::orphans(&sessions[0]).unwrap();
    assert_eq!(numbers(&orphans), [3, 4]);
    assert!(Office::orphans(&sessions[0]).unwrap().is_empty());
    assert_eq!(orphans[0].resume(1), Err(Error::NothingPending));
    assert_eq!(reply(&mut orphans[0], Call::Abort), Reply::Aborted(1));
    assert_eq!(orphans[1].resume(1).unwrap().reply, Reply::Committed(0));
    assert_eq!(reply(&mut sessions[1], Call::Poll), Reply::Clear);

    // dropped again, it comes back again, and its number is used again
    drop(orphans.pop());
    drop(orphans.pop());
    let mut orphans = Office::orphans(&sessions[1]).unwrap();
    assert_eq!(numbers(&orphans), [3, 4]);
    assert_eq!(reply(&mut orphans[1], Call::Begin), Reply::Began(4));
    assert_eq!(reply(&mut orphans[1], Call::Commit), Reply::Committed(0));

    // an office isn't closed without them, and what was handed in already doesn't come back
    drop(orphans);
    let refused = Office::close(sessions).err().unwrap();
    assert_eq!((refused.error, numbers(&refused.sessions)), (Error::Missing, vec![1]));
    let mut sessions = refused.sessions;
    let mut orphans = Office::orphans(&sessions[0]).unwrap();
    assert_eq!(numbers(&orphans), [3, 4]);
    sessions.append(&mut orphans);
    assert_eq!(Office::close(sessions).unwrap().length(), 10);

    // an office whose sessions are all dropped gives its memory back: pending calls or not, handed in or not, whichever was closed
    let drop_office = |round: usize| {
        let mut sessions = Office::open(256).unwrap();
        for session in &mut sessions[round % 3..] {
            session.publish(&Call::Begin).unwrap();
        }
        if round % 3 > 0 {
            let last = sessions.pop();
            if round % 3 == 2 {
                sessions.reverse(); // so that session 1 is handed in
            }
            assert_eq!(Office::close(sessions).err().unwrap().error, Error::Pending);
            drop(last);
        }
    };
    (0..6).for_each(drop_office);
    let before = bytes_in_use();
    (0..48).for_each(drop_office);
    let kept = bytes_in_use().saturating_sub(before);
    assert!(kept < 65_536, "{kept} bytes are kept");

    orphans_that_wait();
    orphans_that_have_retired();
    threads_share_the_orphans();
}

/// A session that is dropped while it waits: its request is granted meanwhile, or it is still in the queue when the transaction ends. One
/// becomes a victim.
fn orphans_that_wait() {
    let (page, other) = (Resource::new(&[7]).unwrap(), Resource::new(&[8]).unwrap());
    let mut sessions = Office::open(3).unwrap();
    for (index, session) in sessions.iter_mut().enumerate() {
        assert_eq!(reply(session, Call::Begin), Reply::Began(index as u64 + 1));
    }
    assert_eq!(reply(&mut sessions[0], Call::Lock(page, Mode::X)), Reply::Granted(Mode::X));
    assert_eq!(reply(&mut sessions[1], Call::Lock(page, Mode::X)), Reply::Waiting);
    assert_eq!(reply(&mut sessions[2], Call::Lock(other, Mode::X)), Reply::Granted(Mode::X));
    sessions[2].publish(&Call::Lock(page, Mode::S)).unwrap();
    drop(sessions.pop());
    drop(sessions.pop());

    // the third waits behind the second, and is the youngest on a cycle through the first
    let mut one = sessions.pop().unwrap();
    assert_eq!(reply(&mut one, Call::Lock(other, Mode::S)), Reply::Waiting);
    let mut orphans = Office::orphans(&one).unwrap();
    assert_eq!(numbers(&orphans), [2, 3]);
    assert_eq!(orphans[1].perform_within(&Call::Abort, 1), Err(Error::Pending));
    assert_eq!(orphans[1].resume(1).unwrap().reply, Reply::Waiting);
    assert_eq!(reply(&mut orphans[1], Call::Poll), Reply::Deadlock);
    assert_eq!(reply(&mut orphans[1], Call::Abort), Reply::Aborted(1));
    assert_eq!(reply(&mut one, Call::Poll), Reply::Clear);

    // the second is granted once it is an orphan again, and is aborted with its lock
    assert_eq!(one.look().unwrap().request(2).unwrap().unwrap().resource, page);
    drop(orphans);
    assert_eq!(reply(&mut one, Call::Commit), Reply::Committed(2));
    assert_eq!(one.look().unwrap().held(2, page).unwrap(), Mode::X);
    let mut orphans = Office::orphans(&one).unwrap();
    assert_eq!(reply(&mut orphans[0], Call::Abort), Reply::Aborted(1));
    assert_eq!(reply(&mut orphans[0], Call::Abort), Reply::Refused(Refusal::NoTransaction));

    // and one whose request waits is aborted without it
    assert_eq!(reply(&mut one, Call::Begin), Reply::Began(4));
    assert_eq!(reply(&mut one, Call::Lock(page, Mode::X)), Reply::Granted(Mode::X));
    assert_eq!(reply(&mut orphans[0], Call::Begin), Reply::Began(5));
    assert_eq!(reply(&mut orphans[0], Call::Lock(page, Mode::X)), Reply::Waiting);
    drop(orphans);
    let mut orphans = Office::orphans(&one).unwrap();
    assert_eq!(reply(&mut orphans[0], Call::Abort), Reply::Aborted(0));
    assert_eq!(one.look().unwrap().request(2).unwrap(), None);
}

/// A session that retired with a transaction open: its locks go with the office.
fn orphans_that_have_retired() {
    let page = Resource::new(&[7]).unwrap();
    let mut sessions = Office::open(2).unwrap();
    assert_eq!(reply(&mut sessions[1], Call::Begin), Reply::Began(1));
    assert_eq!(reply(&mut sessions[1], Call::Lock(page, Mode::X)), Reply::Granted(Mode::X));
    sessions[1].retire().unwrap();
    drop(sessions.pop());
    let mut orphans = Office::orphans(&sessions[0]).unwrap();
    assert_eq!(orphans[0].perform_within(&Call::Abort, 1), Err(Error::Retired));
    assert_eq!(orphans[0].serve().unwrap().served, 0);
    assert_eq!(sessions[0].look().unwrap().held(2, page).unwrap(), Mode::X);
    sessions.append(&mut orphans);
    assert_eq!(Office::close(sessions).unwrap().held(2, page), Ok(Mode::X));
}

/// Threads that ask for orphans at the same time get each of them once between them.
fn threads_share_the_orphans() {
    const THREADS: u32 = 4;
    for _ in 0..200 {
        let mut sessions = Office::open(64 + THREADS).unwrap();
        let rest = sessions.split_off(THREADS as usize);
        let start = Arc::new(Barrier::new(THREADS as usize + 1));
        let threads: Vec<_> = sessions
            .into_iter()
            .map(|session| {
                let start = start.clone();
                thread::spawn(move || {
                    start.wait();
                    let mut found = Vec::new();
                    for _ in 0..8 {
                        found.append(&mut Office::orphans(&session).unwrap());
                    }
                    (session, found)
                })
            })
            .collect();
        start.wait();
        drop(rest);
        let (sessions, found): (Vec<_>, Vec<_>) = threads.into_iter().map(|it| it.join().unwrap()).unzip();
        let left = Office::orphans(&sessions[0]).unwrap();
        let all: Vec<_> = sessions.into_iter().chain(found.into_iter().flatten()).chain(left).collect();
        let mut told = numbers(&all);
        told.sort_unstable();
        assert_eq!(told, (1..=64 + THREADS).collect::<Vec<_>>());
        assert!(Office::close(all).is_ok());
    }
}
