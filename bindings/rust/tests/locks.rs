//! Locks that are waited for: each outcome, threads that wait for one another, and what a call that waits finishes.

use pelgaisti::{Call, Error, Locked, Mode, Office, Outcome, Program, Refusal, Reply, Resource, Session, Start};
use std::thread;
use std::time::{Duration, Instant};

fn resource(numbers: &[u32]) -> Resource {
    Resource::new(numbers).unwrap()
}

fn ask(session: &mut Session, call: Call) -> Reply {
    session.perform(&call).unwrap().reply
}

/// An office whose sessions have begun.
fn office<const N: usize>() -> [Session; N] {
    let mut sessions = Office::open(N as u32).unwrap();
    for session in &mut sessions {
        assert!(matches!(ask(session, Call::Begin), Reply::Began(_)));
    }
    sessions.try_into().unwrap_or_else(|_| panic!("so many sessions"))
}

fn short(microseconds: u64) -> Option<Duration> {
    Some(Duration::from_micros(microseconds))
}

/// What session 1 or 2 holds on the resource, which the other one asks.
fn held(other: &mut Session, whose: u32, numbers: &[u32]) -> Mode {
    other.look().unwrap().held(whose, resource(numbers)).unwrap()
}

#[test]
fn each_outcome_is_told() {
    let [mut one, mut two, mut three] = office();
    let row = resource(&[7, 2, 40]);
    assert_eq!(one.lock(row, Mode::X, None), Ok(Locked { outcome: Outcome::Granted, level: 3, place: 5 }));
    // half a millisecond waits; no time at all tries; the longest time has no end that comes
    for within in [short(500), short(0)] {
        let late = two.lock(row, Mode::S, within).unwrap();
        assert_eq!((late.outcome, late.level, late.is_granted()), (Outcome::TimedOut, 2, false));
    }
    assert_eq!((held(&mut one, 2, &[7, 2]), held(&mut one, 2, &[7, 2, 40])), (Mode::IS, Mode::NL));
    let counts = one.look().unwrap().counts().unwrap();
    assert_eq!((counts.calls.withdraw, counts.calls.try_lock), (1, 3));
    assert_eq!(ask(&mut three, Call::Commit), Reply::Committed(0));
    let denied = three.lock(row, Mode::S, Some(Duration::MAX)).unwrap();
    assert_eq!((denied.outcome, denied.level), (Outcome::Denied(Refusal::NoTransaction), 0));
    // 2 began after 1, and so is the victim
    assert!(two.lock(resource(&[8]), Mode::X, None).unwrap().is_granted());
    assert_eq!(ask(&mut one, Call::Lock(resource(&[8]), Mode::S)), Reply::Waiting);
    assert_eq!(two.lock(row, Mode::S, None).unwrap().outcome, Outcome::Victim);
    assert_eq!(one.wait(short(500)).unwrap().outcome, Outcome::TimedOut);
    assert_eq!(one.wait(None).unwrap().outcome, Outcome::Granted);
}

#[test]
fn a_thread_sleeps_until_the_lock_is_granted() {
    let [mut one, mut two] = office();
    let row = resource(&[7, 2, 40]);
    assert!(one.lock(row, Mode::X, None).unwrap().is_granted());
    let begun = Instant::now();
    let waits = thread::spawn(move || {
        let locked = two.lock(row, Mode::X, Some(Duration::from_secs(60))).unwrap();
        (locked.outcome, locked.level, ask(&mut two, Call::Commit))
    });
    while one.look().unwrap().request(2).unwrap().is_none() {
        thread::yield_now();
    }
    thread::sleep(Duration::from_millis(20));
    assert_eq!(ask(&mut one, Call::Commit), Reply::Committed(3));
    assert_eq!(waits.join().unwrap(), (Outcome::Granted, 3, Reply::Committed(3)));
    assert!(begun.elapsed() >= Duration::from_millis(20) && begun.elapsed() < Duration::from_secs(30));
}

/// A call or a program that is left without turns takes no other, and is finished by a wait.
#[test]
fn a_wait_finishes_what_is_pending() {
    let [mut one, mut two] = office();
    let page = resource(&[7, 2]);
    assert_eq!(one.perform_within(&Call::Lock(resource(&[1]), Mode::X), 0), Err(Error::NotServed));
    assert_eq!(one.lock(page, Mode::X, None), Err(Error::Pending));
    assert_eq!(one.lock(page, Mode::X, short(0)), Err(Error::Pending));
    assert!(one.wait(None).unwrap().is_granted());
    assert_eq!((held(&mut two, 1, &[1]), held(&mut two, 1, &[7])), (Mode::X, Mode::NL));
    let program = Program::locks(Start::Nothing, page, Mode::X, 0).unwrap();
    assert_eq!(one.run_within(&program, 0).err(), Some(Error::NotServed));
    assert!(one.wait(None).unwrap().is_granted() && held(&mut two, 1, &[7, 2]) == Mode::X);
    assert_eq!(two.run_within(&program, 0).err(), Some(Error::NotServed));
    assert_eq!(two.wait(short(500)).unwrap().outcome, Outcome::TimedOut);
    two.retire().unwrap();
    assert_eq!((two.lock(page, Mode::X, None), two.wait(None)), (Err(Error::Retired), Err(Error::Retired)));
}
