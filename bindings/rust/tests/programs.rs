//! Programs: of each start and of each last call, and where they stop; of a book, and of the sessions of an office.

use pelgaisti::{Book, Call, Error, Mode, Office, Program, ProgramAnswer, Refusal, Reply, Resource, Start};

fn resource(numbers: &[u32]) -> Resource {
    Resource::new(numbers).unwrap()
}

/// The replies to the program, which ends nobody's wait.
fn run(book: &mut Book, session: u32, program: Program) -> (Vec<Reply>, ProgramAnswer) {
    let answer = book.run(session, &program).unwrap();
    let replies: Vec<_> = answer.replies(&program).collect();
    assert!(book.ended().unwrap().is_empty() && !answer.starved && replies.len() == answer.served);
    (replies, answer)
}

#[test]
fn each_start_is_made() {
    let mut book = Book::open(1).unwrap();
    assert_eq!(book.run(1, &Program::start(Start::Nothing)).err(), Some(Error::NoCalls));
    let mut replies = |first| run(&mut book, 1, Program::start(first)).0;
    assert_eq!(replies(Start::Begins), [Reply::Began(1)]);
    assert_eq!(replies(Start::Commits), [Reply::Committed(0)]);
    assert_eq!(replies(Start::CommitsAndBegins), [Reply::Refused(Refusal::NoTransaction)]);
    assert_eq!(replies(Start::Begins), [Reply::Began(2)]);
    assert_eq!(replies(Start::CommitsAndBegins), [Reply::Committed(0), Reply::Began(3)]);
    assert_eq!(replies(Start::AbortsAndBegins), [Reply::Aborted(0), Reply::Began(4)]);
    assert_eq!(replies(Start::Restarts), [Reply::Restarted(0)]);
    assert_eq!(replies(Start::Aborts), [Reply::Aborted(0)]);
}

#[test]
fn each_call_is_a_program() {
    let mut book = Book::open(1).unwrap();
    let database = resource(&[7]);
    for (call, reply) in [
        (Call::Begin, Reply::Began(1)),
        (Call::Lock(database, Mode::S), Reply::Granted(Mode::S)),
        (Call::Convert(database, Mode::X), Reply::Granted(Mode::X)),
        (Call::Try(database, Mode::X), Reply::Granted(Mode::X)),
        (Call::Poll, Reply::Clear),
        (Call::Withdraw, Reply::Refused(Refusal::NotWaiting)),
        (Call::Release(database), Reply::Released),
        (Call::Restart, Reply::Restarted(0)),
        (Call::Commit, Reply::Committed(0)),
        (Call::Abort, Reply::Refused(Refusal::NoTransaction)),
    ] {
        assert_eq!(run(&mut book, 1, Program::one(&call)).0, [reply]);
    }
    let called: Vec<_> = book.history(0, 10).unwrap().iter().map(|it| it.call).collect();
    assert_eq!((called[0], called[5], called[7], called[9]), (Call::Begin, Call::Withdraw, Call::Restart, Call::Abort));
}

#[test]
fn a_path_stops_where_it_waits() {
    let mut book = Book::open(2).unwrap();
    let record = resource(&[7, 2, 40, 1]);
    let (replies, answer) = run(&mut book, 1, Program::locks(Start::Begins, record, Mode::X, 0).unwrap());
    assert_eq!(replies[3..], [Reply::Granted(Mode::IX), Reply::Granted(Mode::X)]);
    assert_eq!((answer.place, answer.stop), (0, None));
    let (replies, answer) = run(&mut book, 2, Program::locks(Start::Begins, resource(&[7, 2]), Mode::S, 0).unwrap());
    assert_eq!(replies, [Reply::Began(2), Reply::Granted(Mode::IS), Reply::Waiting]);
    assert_eq!((answer.place, answer.stop), (5, Some(Reply::Waiting)));
    let program = Program::path(Start::CommitsAndBegins, 0, Mode::IX, &Call::Try(resource(&[8, 1]), Mode::X)).unwrap();
    let answer = book.run(1, &program).unwrap();
    assert_eq!((answer.replies(&program).next(), answer.served, book.ended().unwrap()), (Some(Reply::Committed(4)), 4, vec![2]));
    assert_eq!(run(&mut book, 2, Program::one(&Call::Poll)).0, [Reply::Clear]);
    assert_eq!(book.run(3, &program).err(), Some(Error::NoSuchSession));
}

/// A program of a session is tried at once, or published and served by another session; what is pending is finished as a program.
#[test]
fn sessions_run_programs() {
    let mut sessions = Office::open(3).unwrap();
    let (one, two, three) = match &mut sessions[..] {
        [one, two, three] => (one, two, three),
        _ => panic!(),
    };
    let path = Program::locks(Start::Begins, resource(&[7, 2]), Mode::X, 0).unwrap();
    let answer = one.run_within(&path, 9).unwrap();
    assert!(answer.replies(&path).eq([Reply::Began(1), Reply::Granted(Mode::IX), Reply::Granted(Mode::X)]));
    let path = Program::locks(Start::Begins, resource(&[7, 2, 1]), Mode::X, 0).unwrap();
    let answer = two.run_within(&path, 9).unwrap();
    assert!(answer.replies(&path).eq([Reply::Began(2), Reply::Granted(Mode::IX), Reply::Waiting]));
    assert_eq!((answer.stop, answer.served), (Some(Reply::Waiting), 3));
    let next = Program::locks(Start::CommitsAndBegins, resource(&[8]), Mode::S, 0).unwrap();
    assert_eq!(one.run_within(&next, 0).err(), Some(Error::NotServed));
    assert_eq!((one.resume(9), one.collect(), one.perform_within(&Call::Poll, 9)), (Err(Error::Pending), Err(Error::Pending), Err(Error::Pending)));
    assert_eq!(one.run_within(&next, 9).err(), Some(Error::Pending));
    assert_eq!(three.serve().unwrap().served, 1);
    let answer = one.resume_program(1).unwrap();
    assert_eq!(answer.place, 6);
    assert!(answer.replies(&next).eq([Reply::Committed(2), Reply::Began(3), Reply::Granted(Mode::S)]));
    assert_eq!(one.resume_program(9).err(), Some(Error::NothingPending));
    two.publish(&Call::Poll).unwrap();
    assert!(two.resume_program(9).unwrap().replies(&Program::one(&Call::Poll)).eq([Reply::Clear]));
    assert_eq!(two.run_within(&Program::start(Start::Nothing), 9).err(), Some(Error::NoCalls));
    assert_eq!(Office::close(sessions).unwrap().length(), 10);
}

/// An office that is dropped with a pending program of several calls is closed all the same.
#[test]
fn a_pending_program_is_dropped() {
    let mut sessions = Office::open(2).unwrap();
    assert_eq!(sessions[0].run_within(&Program::one(&Call::Begin), 9).unwrap().served, 1);
    assert_eq!(sessions[0].run_within(&Program::start(Start::CommitsAndBegins), 0).err(), Some(Error::NotServed));
    drop(sessions.pop());
    let mut orphans = Office::orphans(&sessions[0]).unwrap();
    assert_eq!(orphans[0].resume_program(1).err(), Some(Error::NothingPending));
    drop((sessions, orphans));
}
