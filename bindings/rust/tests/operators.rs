//! Transactions that somebody asks to end: by the mark, by the wake-up, and by sessions that obey.

use pelgaisti::{Call, Error, Mode, Office, Operator, Options, Reply, Resource, Session};
use std::sync::{mpsc, Arc, Condvar, Mutex};
use std::thread;

fn page() -> Call {
    Call::Lock(Resource::new(&[7]).unwrap(), Mode::X)
}

fn reply(session: &mut Session, call: Call) -> Reply {
    session.perform(&call).unwrap().reply
}

fn begin(session: &mut Session) -> u64 {
    match reply(session, Call::Begin) {
        Reply::Began(transaction) => transaction,
        other => panic!("{other:?}"),
    }
}

/// The mark is that of one transaction of one session, and the waker is called for that session.
#[test]
fn marks_are_of_transactions() {
    let (woken, told) = mpsc::sync_channel(8);
    let mut sessions = Office::open_waking(3, move |session| woken.send(session).unwrap()).unwrap();
    let operator = sessions[2].operator();
    let (one, rest) = sessions.split_first_mut().unwrap();
    let two = &mut rest[0];
    let (first, second) = (begin(one), begin(two));
    assert!(!one.is_asked_to_end(first) && !one.is_asked_to_end(0));
    operator.ask_to_end(1, first).unwrap();
    assert_eq!(told.try_iter().collect::<Vec<_>>(), [1]);
    assert!(one.is_asked_to_end(first) && !one.is_asked_to_end(second) && !two.is_asked_to_end(second));
    assert_eq!(one.look().unwrap().transaction(1).unwrap().unwrap().number, first);

    // the next transaction isn't asked, and an older mark takes no newer one away
    assert_eq!(reply(one, Call::Abort), Reply::Aborted(0));
    let third = begin(one);
    assert!(!one.is_asked_to_end(third));
    operator.ask_to_end(1, third).unwrap();
    operator.clone().ask_to_end(1, first).unwrap();
    assert!(one.is_asked_to_end(third) && !one.is_asked_to_end(first));
    assert_eq!(told.try_iter().collect::<Vec<_>>(), [1, 1]);

    // it ends nothing, also of a session that was dropped, whose mark is found by whoever has it next
    operator.ask_to_end(2, second).unwrap();
    assert_eq!(one.look().unwrap().transaction(2).unwrap().unwrap().number, second);
    let two = sessions.remove(1);
    drop(two);
    let mut orphans = Office::orphans(&sessions[0]).unwrap();
    assert!(orphans[0].is_asked_to_end(second));
    assert_eq!(reply(&mut orphans[0], Call::Abort), Reply::Aborted(0));

    for number in [0, 4, u32::MAX] {
        assert_eq!(operator.ask_to_end(number, third), Err(Error::NoSuchSession));
    }
    sessions.append(&mut orphans);
    assert!(Office::close(sessions).is_ok());
    assert_eq!(operator.ask_to_end(1, third), Err(Error::NoSuchSession));
    assert_eq!(told.try_iter().collect::<Vec<_>>(), [2]);
}

const _: fn() = || {
    fn goes_anywhere<T: Send + Sync + Clone>() {}
    goes_anywhere::<Operator>();
};

/// An office without a waker has the mark alone. A waker that panics doesn't end the thread that asks.
#[test]
fn who_asks_needs_no_waker() {
    let mut sessions = Office::open(1).unwrap();
    let transaction = begin(&mut sessions[0]);
    let operator = sessions[0].operator();
    thread::spawn(move || operator.ask_to_end(1, transaction)).join().unwrap().unwrap();
    assert!(sessions[0].is_asked_to_end(transaction));

    let sessions = Office::open_waking(1, |_| std::panic::resume_unwind(Box::new(()))).unwrap();
    sessions[0].operator().ask_to_end(1, 5).unwrap();
    assert!(sessions[0].is_asked_to_end(5));
}

/// How often each session was woken and hasn't slept since.
type Beds = Arc<(Mutex<[usize; 4]>, Condvar)>;

fn sleep(beds: &Beds, session: u32) {
    let session = session as usize;
    let mut woken = beds.0.lock().unwrap();
    while woken[session] == 0 {
        woken = beds.1.wait(woken).unwrap();
    }
    woken[session] -= 1;
}

/// Locks the page and commits, unless it is asked to end, whether it waits or thinks. Whether it committed.
fn work(session: &mut Session, beds: &Beds, transaction: u64, thinks: bool) -> bool {
    let mut answer = reply(session, page());
    while answer == Reply::Waiting && !session.is_asked_to_end(transaction) {
        sleep(beds, session.number());
        answer = reply(session, Call::Poll);
    }
    while thinks && !session.is_asked_to_end(transaction) {
        sleep(beds, session.number());
    }
    if session.is_asked_to_end(transaction) {
        assert!(matches!(reply(session, Call::Abort), Reply::Aborted(_)));
        return false;
    }
    assert_eq!(reply(session, Call::Commit), Reply::Committed(1));
    true
}

/// Session 1 holds the page and thinks, 2 and 3 wait for it. 1 and 2 are asked to end, in either order and with no time between. 3 has
/// the page in the end.
#[test]
fn asked_sessions_obey() {
    let beds = Beds::default();
    let sleepers = beds.clone();
    let mut sessions = Office::open_waking(Options { keep: 1024, ..Options::new(3) }, move |session| {
        sleepers.0.lock().unwrap()[session as usize] += 1;
        sleepers.1.notify_all();
    })
    .unwrap();
    let operator: Operator = sessions[0].operator();
    for round in 0..200 {
        let transactions: Vec<_> = sessions.iter_mut().map(begin).collect();
        assert_eq!(reply(&mut sessions[0], page()), Reply::Granted(Mode::X));
        let threads: Vec<_> = sessions
            .drain(..)
            .zip(transactions.clone())
            .map(|(mut session, transaction)| {
                let beds = beds.clone();
                thread::spawn(move || {
                    let thinks = session.number() == 1;
                    let committed = work(&mut session, &beds, transaction, thinks);
                    (session, committed)
                })
            })
            .collect();
        let order = if round % 2 == 0 { [0, 1] } else { [1, 0] };
        for index in order {
            operator.ask_to_end(index as u32 + 1, transactions[index]).unwrap();
        }
        for it in threads {
            let (session, committed) = it.join().unwrap();
            assert!(committed == (session.number() == 3) || session.number() == 2);
            sessions.push(session);
        }
    }
    let book = Office::close(sessions).unwrap();
    assert_eq!(book.dump().unwrap().claims().count(), 0);
}
