//! Offices whose threads are woken: by each call that makes a pass, and also if the waker panics for one of them.

use pelgaisti::{Call, Error, Mode, Office, Options, Outcome, Reply, Resource, Session};
use std::panic;
use std::sync::atomic::{AtomicUsize, Ordering};
use std::sync::{Arc, Condvar, Mutex};
use std::thread;
use std::time::Duration;

fn lock(number: u32, mode: Mode) -> Call {
    Call::Lock(Resource::new(&[number]).unwrap(), mode)
}

fn reply(session: &mut Session, call: Call) -> Reply {
    session.perform(&call).unwrap().reply
}

/// An office of so many sessions, and whom its waker has woken since this was asked last.
fn office(sessions: u32) -> (Vec<Session>, impl Fn() -> Vec<u32>) {
    let woken = Arc::new(Mutex::new(Vec::new()));
    let noted = woken.clone();
    let sessions = Office::open_waking(sessions, move |session| noted.lock().unwrap().push(session)).unwrap();
    (sessions, move || std::mem::take(&mut *woken.lock().unwrap()))
}

#[test]
fn each_pass_wakes() {
    for way in 0..5 {
        let (mut sessions, woken) = office(3);
        let (one, two, three) = match &mut sessions[..] {
            [one, two, three] => (one, two, three),
            _ => panic!(),
        };
        for (session, number) in [(&mut *one, 1), (&mut *two, 2)] {
            assert_eq!(reply(session, Call::Begin), Reply::Began(number.into()));
            assert_eq!(reply(session, lock(number, Mode::X)), Reply::Granted(Mode::X));
        }
        assert_eq!(reply(two, lock(1, Mode::X)), Reply::Waiting);
        assert!(woken().is_empty());
        match way {
            0 => assert_eq!(reply(one, Call::Commit), Reply::Committed(1)),
            1 => {
                assert_eq!(one.perform_within(&Call::Commit, 0), Err(Error::NotServed));
                assert_eq!(one.resume(9).unwrap().reply, Reply::Committed(1));
            }
            2 => {
                one.publish(&Call::Commit).unwrap();
                assert_eq!(three.serve().unwrap().served, 1);
                assert_eq!(woken(), [2]);
                assert_eq!(three.serve().unwrap().served, 0);
                assert!(woken().is_empty());
                continue;
            }
            // 2 becomes a victim
            3 => {
                let locked = one.lock(Resource::new(&[2]).unwrap(), Mode::S, Some(Duration::from_millis(1))).unwrap();
                assert_eq!(locked.outcome, Outcome::TimedOut);
            }
            // its own pass ends its wait
            _ => {
                one.publish(&Call::Commit).unwrap();
                assert_eq!(reply(two, Call::Poll), Reply::Clear);
            }
        }
        assert_eq!(woken(), [2]);
    }
}

/// Many readers wait for a writer, also more than are read at a time.
#[test]
fn each_is_woken_once() {
    for readers in [1, 15, 16, 17, 32, 33, 100] {
        let (mut sessions, woken) = office(readers + 1);
        for (index, session) in sessions.iter_mut().enumerate() {
            let _ = reply(session, Call::Begin);
            let _ = reply(session, lock(1, if index == 0 { Mode::X } else { Mode::S }));
        }
        assert_eq!(reply(&mut sessions[0], Call::Commit), Reply::Committed(1));
        let mut told = woken();
        told.sort_unstable();
        assert_eq!(told, (2..=readers + 1).collect::<Vec<_>>());
    }
}

/// The waker panics for every third session, in the call that ends their waits: its answer isn't lost, and the others are woken.
#[test]
fn a_panic_loses_no_answer_and_no_other_wake_up() {
    for way in 0..3 {
        let called = Arc::new(AtomicUsize::new(0));
        let woken = Arc::new(Mutex::new(Vec::new()));
        let (calls, noted) = (called.clone(), woken.clone());
        let mut sessions = Office::open_waking(40, move |session| {
            calls.fetch_add(1, Ordering::Relaxed);
            assert!(session % 3 != 0, "no third session is woken");
            noted.lock().unwrap().push(session);
        })
        .unwrap();
        for (index, session) in sessions.iter_mut().enumerate() {
            let _ = reply(session, Call::Begin);
            let _ = reply(session, lock(1, if index == 0 { Mode::X } else { Mode::S }));
        }
        let hook = panic::take_hook();
        panic::set_hook(Box::new(|_| ()));
        let one = &mut sessions[0];
        let committed = match way {
            0 => one.perform_within(&Call::Commit, 9),
            1 => one.perform_within(&Call::Commit, 0).or_else(|_| one.resume(9)),
            _ => {
                let served = one.publish(&Call::Commit).and_then(|_| one.serve());
                served.and_then(|_| one.collect())
            }
        };
        panic::set_hook(hook);
        assert_eq!(committed.unwrap().reply, Reply::Committed(1));
        assert_eq!(called.load(Ordering::Relaxed), 39);
        let mut told = woken.lock().unwrap().clone();
        told.sort_unstable();
        assert_eq!(told, (2..=40).filter(|session| session % 3 != 0).collect::<Vec<_>>());
        // the session goes on, and so does one for which the waker panicked
        assert_eq!(reply(&mut sessions[0], Call::Begin), Reply::Began(41));
        assert_eq!(reply(&mut sessions[2], Call::Poll), Reply::Clear);
    }
}

/// What the waker panics with may panic itself when it is dropped.
#[test]
fn a_panic_in_a_panic_is_kept_from_the_call() {
    struct Bomb;
    impl Drop for Bomb {
        fn drop(&mut self) {
            panic!("dropped");
        }
    }
    let mut sessions = Office::open_waking(2, |_| panic::resume_unwind(Box::new(Bomb))).unwrap();
    for session in &mut sessions {
        let _ = reply(session, Call::Begin);
        let _ = reply(session, lock(1, Mode::X));
    }
    assert_eq!(reply(&mut sessions[0], Call::Commit), Reply::Committed(1));
    assert_eq!(reply(&mut sessions[1], Call::Poll), Reply::Clear);
}

/// An office whose sessions are all dropped wakes nobody for their calls, and drops its waker; one that is closed drops it, too.
#[test]
fn the_waker_goes_with_the_office() {
    for is_closed in [false, true] {
        let woken = Arc::new(AtomicUsize::new(0));
        let noted = woken.clone();
        let mut sessions = Office::open_waking(3, move |_| {
            noted.fetch_add(1, Ordering::Relaxed);
        })
        .unwrap();
        for session in &mut sessions {
            let _ = reply(session, Call::Begin);
            let _ = reply(session, lock(1, Mode::X));
        }
        sessions[0].publish(&Call::Commit).unwrap();
        assert_eq!(Arc::strong_count(&woken), 2);
        if is_closed {
            assert_eq!(sessions[0].resume(9).unwrap().reply, Reply::Committed(1));
            assert_eq!(Office::close(sessions).unwrap().length(), 7);
        } else {
            drop(sessions);
        }
        assert_eq!((Arc::strong_count(&woken), woken.load(Ordering::Relaxed)), (1, usize::from(is_closed)));
    }
}

/// Threads that sleep until they are woken take a database in turn.
#[test]
fn threads_sleep() {
    const ROUNDS: usize = 200;
    let beds: Arc<(Mutex<[usize; 9]>, Condvar)> = Arc::default();
    let woken = beds.clone();
    let sessions = Office::open_waking(Options { keep: 64, ..Options::new(8) }, move |session| {
        woken.0.lock().unwrap()[session as usize] += 1;
        woken.1.notify_all();
    });
    let threads: Vec<_> = sessions
        .unwrap()
        .into_iter()
        .map(|mut session| {
            let beds = beds.clone();
            thread::spawn(move || {
                for round in 0..ROUNDS {
                    assert!(matches!(reply(&mut session, Call::Begin), Reply::Began(_)));
                    let mut answer = reply(&mut session, lock(1, Mode::X));
                    if answer == Reply::Waiting {
                        let mut woken = beds.0.lock().unwrap();
                        let number = session.number() as usize;
                        while woken[number] == 0 {
                            woken = beds.1.wait(woken).unwrap();
                        }
                        woken[number] -= 1;
                        drop(woken);
                        answer = reply(&mut session, Call::Poll);
                        assert_eq!(answer, Reply::Clear);
                    }
                    if round % 2 == 0 {
                        assert_eq!(reply(&mut session, Call::Commit), Reply::Committed(1));
                    } else {
                        session.publish(&Call::Commit).unwrap();
                        assert_eq!(session.resume(u64::MAX).unwrap().reply, Reply::Committed(1));
                    }
                }
                session
            })
        })
        .collect();
    let sessions: Vec<_> = threads.into_iter().map(|it| it.join().unwrap()).collect();
    assert_eq!(*beds.0.lock().unwrap(), [0; 9]);
    assert!(Office::close(sessions).is_ok());
}
