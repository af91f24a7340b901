//! What an engine does about a thread that panics in its transaction, and about an operator who wants a transaction to end. The first
//! thread holds account 1 and waits for a client that doesn't come. The second one pays into account 0, and panics while the program that
//! commits this and begins the next transaction is pending. The third one writes to account 0, asks for account 1 and panics, with its
//! transaction open and its call pending. The fourth one needs both accounts. The main thread takes over the sessions of the second and the
//! third: what was committed stays, what wasn't is undone, and their transactions end. With a session of its own it then looks for whom
//! the fourth one waits, and asks that the transaction of the first end.
//!
//!     cargo run --release --example supervisor

use pelgaisti::{Call, Error, Mode, Office, Options, Program, ProgramAnswer, Reply, Resource, Session, Start};
use std::sync::atomic::{AtomicI64, Ordering};
use std::sync::{mpsc, Arc, Condvar, Mutex, MutexGuard};
use std::{panic, thread};

const SESSIONS: u32 = 5;

/// The accounts, and what the engine keeps for each session, by number: it is no thread's own, so that it is there when the thread is
/// gone.
#[derive(Default)]
struct Engine {
    accounts: [AtomicI64; 2],
    /// What a transaction has to write back if it aborts.
    undo: [Mutex<Vec<(usize, i64)>>; SESSIONS as usize + 1],
    /// The program that it has left pending.
    ran: [Mutex<Option<Program>>; SESSIONS as usize + 1],
    /// How often each session was woken and hasn't slept since.
    woken: Mutex<[u32; SESSIONS as usize + 1]>,
    changed: Condvar,
}

impl Engine {
    fn wake(&self, session: u32) {
        self.woken.lock().expect("no thread panics here")[session as usize] += 1;
        self.changed.notify_all();
    }

    fn sleep(&self, session: u32) {
        let woken = self.woken.lock().expect("no thread panics here");
        let mut woken = self.changed.wait_while(woken, |it| it[session as usize] == 0).expect("no thread panics here");
        woken[session as usize] -= 1;
    }

    /// Adds to an account that the session has locked.
    fn add(&self, session: &Session, account: usize, sum: i64) {
        let before = self.accounts[account].load(Ordering::Relaxed);
        self.undo_of(session).push((account, before));
        self.accounts[account].store(before + sum, Ordering::Relaxed);
    }

    fn undo_of(&self, session: &Session) -> MutexGuard<'_, Vec<(usize, i64)>> {
        self.undo[session.number() as usize].lock().expect("no thread panics here")
    }

    fn keep_writes(&self, session: &Session) {
        self.undo_of(session).clear();
    }

    /// Writes back what was there, once, under the locks.
    fn undo_writes(&self, session: &Session) {
        for (account, before) in self.undo_of(session).drain(..).rev() {
            self.accounts[account].store(before, Ordering::Relaxed);
        }
    }

    /// Takes over a session whose thread is gone: hears what became of its pending call or program, undoes what wasn't committed, and ends
    /// its transaction. Returns the reply to the abort, a refusal if no transaction was open. After an error the session is dropped again,
    /// and what is left to do is done when it is taken over next.
    fn take_over(&self, lost: &mut Session) -> Result<Reply, Error> {
        let ran = self.ran[lost.number() as usize].lock().expect("no thread panics here").take();
        let has_committed = |made: &ProgramAnswer| ran.map_or(false, |it| made.replies(&it).any(|it| matches!(it, Reply::Committed(_))));
        // a call is heard like a program, as a program of one; `resume` hears no program of several
        match lost.resume_program(u64::MAX) {
            // a transaction behind the commit has written nothing yet
            Ok(made) if has_committed(&made) => self.keep_writes(lost),
            Ok(_) | Err(Error::NothingPending) => (),
            Err(error) => return Err(error),
        }
        self.undo_writes(lost);
        Ok(lost.perform(&Call::Abort)?.reply)
    }

    /// Ends the transactions of the sessions that were dropped, and gives the sessions, whose numbers can be used again.
    fn take_over_all(&self, own: &Session) -> Result<Vec<Session>, Error> {
        let mut taken = Vec::new();
        for mut lost in Office::orphans(own)? {
            if let Ok(reply) = self.take_over(&mut lost) {
                println!("session {} was lost: {reply:?}", lost.number());
                taken.push(lost);
            }
        }
        Ok(taken)
    }
}

/// Performs a call: without a bound on its turns there is an answer, unless memory is refused.
fn ask(session: &mut Session, call: &Call) -> Reply {
    session.perform(call).expect("memory for a call").reply
}

fn begin(session: &mut Session) -> u64 {
    match ask(session, &Call::Begin) {
        Reply::Began(transaction) => transaction,
        _ => panic!("an earlier transaction is open"),
    }
}

fn account(number: u32) -> Resource {
    Resource::new(&[1, number]).expect("two numbers")
}

/// Locks an account. Returns false if the transaction has to end: it became a victim, or somebody has asked for it. Then its request may
/// wait still.
fn lock(engine: &Engine, session: &mut Session, transaction: u64, number: u32) -> bool {
    let mut level = 0; // how many levels of the path are locked
    while let Some(path) = Program::locks(Start::Nothing, account(number), Mode::X, level) {
        if session.is_asked_to_end(transaction) {
            return false;
        }
        let answer = session.run(&path).expect("memory for a program");
        let mut stop = answer.stop;
        while stop == Some(Reply::Waiting) {
            engine.sleep(session.number());
            if session.is_asked_to_end(transaction) {
                return false;
            }
            stop = Some(ask(session, &Call::Poll));
        }
        match stop {
            Some(Reply::Deadlock) => return false,
            Some(Reply::Refused(why)) => panic!("a lock was refused: {why}"),
            _ => level += answer.served, // the level at which it has waited is locked, too
        }
    }
    true
}

/// Is lost with what it has written, and the program that commits it, begins the next transaction and locks the account again: it has
/// published it, and heard of none of its calls.
fn get_lost_paying(engine: &Engine, mut session: Session) {
    let transaction = begin(&mut session);
    assert!(lock(engine, &mut session, transaction, 0));
    engine.add(&session, 0, 20);
    let next = Program::locks(Start::CommitsAndBegins, account(0), Mode::X, 0).expect("a path that isn't locked");
    *engine.ran[session.number() as usize].lock().expect("no thread panics here") = Some(next);
    assert_eq!(session.run_within(&next, 0).err(), Some(Error::NotServed));
    panic::resume_unwind(Box::new("lost")); // a panic without a message
}

/// Is lost with what it has written, its locks, and a call that it has published.
fn get_lost(engine: &Engine, mut session: Session) {
    let transaction = begin(&mut session);
    assert!(lock(engine, &mut session, transaction, 0));
    engine.add(&session, 0, -30);
    session.publish(&Call::Lock(account(1), Mode::X)).expect("no call is pending");
    panic::resume_unwind(Box::new("lost")); // a panic without a message
}

/// Sleeps until it is asked to end.
fn stay_idle(engine: &Engine, mut session: Session, is_ready: mpsc::Sender<()>) -> Session {
    let transaction = begin(&mut session);
    assert!(lock(engine, &mut session, transaction, 1));
    engine.add(&session, 1, 5);
    is_ready.send(()).expect("the main thread waits");
    while !session.is_asked_to_end(transaction) {
        engine.sleep(session.number());
    }
    engine.undo_writes(&session); // under the locks, before the abort gives them back
    assert_eq!(ask(&mut session, &Call::Abort), Reply::Aborted(2));
    session
}

fn move_money(engine: &Engine, mut session: Session) -> Session {
    let transaction = begin(&mut session);
    assert!(lock(engine, &mut session, transaction, 0) && lock(engine, &mut session, transaction, 1));
    engine.add(&session, 0, -10);
    engine.add(&session, 1, 10);
    assert_eq!(ask(&mut session, &Call::Commit), Reply::Committed(3));
    engine.keep_writes(&session);
    session
}

/// Waits until a session waits for another one alone, and asks that the transaction of that one end.
fn end_blocker(own: &mut Session, waiting: u32, blocker: u32) -> Result<(), Error> {
    loop {
        let view = own.look()?;
        if view.blockers(waiting)? == [blocker] {
            let open = view.transaction(blocker)?; // of the same moment
            drop(view);
            return own.operator().ask_to_end(blocker, open.map_or(0, |it| it.number));
        }
        drop(view);
        thread::yield_now();
    }
}

fn main() -> Result<(), Error> {
    let engine: Arc<Engine> = Arc::default();
    for account in &engine.accounts {
        account.store(100, Ordering::Relaxed);
    }
    let wakes = engine.clone();
    let mut sessions = Office::open_waking(Options { keep: 1024, ..Options::new(SESSIONS) }, move |session| wakes.wake(session))?;
    let all = <[Session; SESSIONS as usize]>::try_from(sessions.split_off(0));
    let [idle, paying, lost, busy, mut own] = all.unwrap_or_else(|_| panic!("five sessions"));

    let (ready, is_ready) = mpsc::channel();
    let it = engine.clone();
    let idle = thread::spawn(move || stay_idle(&it, idle, ready));
    is_ready.recv().expect("the thread has its lock");
    let it = engine.clone();
    assert!(thread::spawn(move || get_lost_paying(&it, paying)).join().is_err());
    sessions.append(&mut engine.take_over_all(&own)?);
    let it = engine.clone();
    assert!(thread::spawn(move || get_lost(&it, lost)).join().is_err());
    let it = engine.clone();
    let busy = thread::spawn(move || move_money(&it, busy));

    sessions.append(&mut engine.take_over_all(&own)?);
    end_blocker(&mut own, 4, 1)?;
    sessions.extend([idle, busy].map(|it| it.join().expect("it isn't lost")));
    let transaction = begin(&mut sessions[0]); // its number is used again
    assert_eq!((sessions[0].number(), ask(&mut sessions[0], &Call::Commit)), (2, Reply::Committed(0)));
    sessions.push(own);
    assert!(Office::close(sessions).is_ok());
    let sums = [0, 1].map(|k| engine.accounts[k].load(Ordering::Relaxed));
    println!("session 1 ended its transaction; the accounts have {sums:?}; the last transaction was number {transaction}");
    assert_eq!((sums, transaction), ([110, 110], 6));
    Ok(())
}
