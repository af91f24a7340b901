//! A small engine: four threads move money between the accounts of two tables, under intention locks on the tables and exclusive
//! locks on the accounts. A thread whose request waits sleeps until it is granted. Whoever becomes a deadlock's victim, or has waited for a
//! minute, aborts and tries again. Before the threads start, a table that is held is asked for without waiting, and with a short limit.
//!
//!     cargo run --release --example engine

use pelgaisti::{Call, Mode, Office, Outcome, Reply, Resource, Session};
use std::sync::atomic::{AtomicI64, Ordering};
use std::sync::Arc;
use std::thread;
use std::time::Duration;

const ACCOUNTS: u32 = 8;
const MOVES: u32 = 500;
const BALANCE: i64 = 100;

type Tables = [[AtomicI64; ACCOUNTS as usize]; 2];

/// How many threads there are, each with a session.
const THREADS: u32 = 4;

/// Performs a call: without a bound on its turns there is an answer, unless memory is refused.
fn ask(session: &mut Session, call: &Call) -> Reply {
    session.perform(call).expect("memory for a call").reply
}

/// Begins or ends a transaction, which is refused nowhere here.
fn make(session: &mut Session, call: &Call) {
    assert!(!matches!(ask(session, call), Reply::Refused(_)));
}

/// Locks a path down to the resource. Whether it was granted within the limit; else the transaction is a victim, or may go on without.
fn lock(session: &mut Session, mode: Mode, numbers: &[u32], limit: Duration) -> bool {
    let resource = Resource::new(numbers).expect("1 to 5 numbers");
    match session.lock(resource, mode, Some(limit)).expect("memory for a lock").outcome {
        Outcome::Granted => true,
        Outcome::Victim | Outcome::TimedOut => false,
        Outcome::Denied(why) => panic!("a lock was denied: {why}"),
    }
}

/// While one session holds a table, another asks for it without waiting, and then with a short limit. Its transaction goes on
/// without the table.
fn do_without(sessions: &mut [Session]) {
    let (holder, others) = sessions.split_first_mut().expect("two sessions");
    let other = &mut others[0];
    make(holder, &Call::Begin);
    make(other, &Call::Begin);
    assert!(lock(holder, Mode::X, &[0], Duration::ZERO));
    assert!(!lock(other, Mode::S, &[0], Duration::ZERO) && !lock(other, Mode::S, &[0], Duration::from_millis(20)));
    assert_eq!(ask(other, &Call::Commit), Reply::Committed(0));
    assert_eq!(ask(holder, &Call::Commit), Reply::Committed(1));
}

/// One transfer. Whether it was committed.
fn transfer(session: &mut Session, accounts: &Tables, from: (u32, u32), to: (u32, u32)) -> bool {
    make(session, &Call::Begin);
    for (table, account) in [from, to] {
        if !lock(session, Mode::X, &[table, account], Duration::from_secs(60)) {
            make(session, &Call::Abort);
            return false;
        }
    }
    // both are locked exclusively, so that nobody else reads or writes them now
    for ((table, account), sum) in [(from, -1), (to, 1)] {
        let it = &accounts[table as usize][account as usize];
        it.store(it.load(Ordering::Relaxed) + sum, Ordering::Relaxed);
    }
    make(session, &Call::Commit);
    true
}

fn main() {
    let accounts: Arc<Tables> = Arc::new(std::array::from_fn(|_| std::array::from_fn(|_| AtomicI64::new(BALANCE))));
    let mut sessions = Office::open(THREADS).expect("an office of four sessions");
    do_without(&mut sessions);
    let threads: Vec<_> = sessions
        .into_iter()
        .map(|mut session| {
            let accounts = accounts.clone();
            thread::spawn(move || {
                let mut victims = 0;
                for number in 0..MOVES {
                    let step = number + session.number() * 3;
                    let (from, to) = ((step % 2, step % ACCOUNTS), ((step + 1) % 2, (step * 5 + 1) % ACCOUNTS));
                    while !transfer(&mut session, &accounts, from, to) {
                        victims += 1;
                    }
                }
                (session, victims)
            })
        })
        .collect();
    let (sessions, victims): (Vec<_>, Vec<u32>) = threads.into_iter().map(|it| it.join().expect("a thread")).unzip();
    let book = Office::close(sessions).expect("the office has all its sessions");
    let sum: i64 = accounts.iter().flatten().map(|it| it.load(Ordering::Relaxed)).sum();
    assert_eq!(sum, 2 * i64::from(ACCOUNTS) * BALANCE);
    println!(
        "{} transfers, {} of them tried again after a deadlock; {} calls in the history",
        THREADS * MOVES,
        victims.iter().sum::<u32>(),
        book.length()
    );
}
