//! The traces of `examples/` through the crate: their histories are those that are stored there, which `glm replay` writes. Beside
//! them tries and withdrawals, and threads that share an office.

use pelgaisti::{Book, Call, Entry, Mode, Office, Refusal, Reply, Resource};
use std::fs;
use std::path::PathBuf;
use std::thread;

/// The calls of a trace.
fn calls(trace: &str) -> Vec<(u32, Call)> {
    let mode = |text: &str| {
        [Mode::NL, Mode::IS, Mode::IX, Mode::S, Mode::SIX, Mode::U, Mode::X].into_iter().find(|it| it.name() == text).unwrap()
    };
    let resource = |text: &str| {
        let numbers: Vec<u32> = text.split('/').map(|it| it.parse().unwrap()).collect();
        Resource::new(&numbers).unwrap()
    };
    let call = |row: &str| {
        let fields: Vec<&str> = row.split(',').collect();
        let call = match fields[1] {
            "begin" => Call::Begin,
            "lock" => Call::Lock(resource(fields[2]), mode(fields[3])),
            "convert" => Call::Convert(resource(fields[2]), mode(fields[3])),
            "poll" => Call::Poll,
            "release" => Call::Release(resource(fields[2])),
            "commit" => Call::Commit,
            "abort" => Call::Abort,
            "try" => Call::Try(resource(fields[2]), mode(fields[3])),
            "withdraw" => Call::Withdraw,
            "restart" => Call::Restart,
            other => panic!("{other}"),
        };
        (fields[0].parse().unwrap(), call)
    };
    trace.lines().map(call).collect()
}

/// The text of a history.
fn text(entries: &[Entry]) -> String {
    let mut lines = String::new();
    for (place, entry) in entries.iter().enumerate() {
        let (op, resource, mode) = match entry.call {
            Call::Begin => ("begin", String::new(), ""),
            Call::Lock(resource, mode) => ("lock", resource.to_string(), mode.name()),
            Call::Convert(resource, mode) => ("convert", resource.to_string(), mode.name()),
            Call::Poll => ("poll", String::new(), ""),
            Call::Release(resource) => ("release", resource.to_string(), ""),
            Call::Commit => ("commit", String::new(), ""),
            Call::Abort => ("abort", String::new(), ""),
            Call::Try(resource, mode) => ("try", resource.to_string(), mode.name()),
            Call::Withdraw => ("withdraw", String::new(), ""),
            Call::Restart => ("restart", String::new(), ""),
        };
        let (reply, value) = match entry.reply {
            Reply::Began(number) => ("began", number.to_string()),
            Reply::Granted(mode) => ("granted", mode.to_string()),
            Reply::Waiting => ("waiting", String::new()),
            Reply::Deadlock => ("deadlock", String::new()),
            Reply::Clear => ("clear", String::new()),
            Reply::Released => ("released", String::new()),
            Reply::Committed(locks) => ("committed", locks.to_string()),
            Reply::Aborted(locks) => ("aborted", locks.to_string()),
            Reply::Refused(why) => ("refused", why.to_string()),
            Reply::Withdrawn => ("withdrawn", String::new()),
            Reply::Restarted(locks) => ("restarted", locks.to_string()),
        };
        lines += &format!("{place},{},{op},{resource},{mode},{reply},{value}\n", entry.session);
    }
    lines
}

/// The traces of `examples/` with their stored histories.
fn examples() -> Vec<(String, String)> {
    let folder = PathBuf::from(env!("CARGO_MANIFEST_DIR")).join("../../examples");
    let mut found = Vec::new();
    for entry in fs::read_dir(folder).unwrap() {
        let path = entry.unwrap().path();
        let name = path.file_name().unwrap().to_str().unwrap().to_string();
        if let Some(trace) = name.strip_suffix(".history.csv") {
            let rows = fs::read_to_string(path.with_file_name(format!("{trace}.csv"))).unwrap();
            found.push((rows, fs::read_to_string(&path).unwrap()));
        }
    }
    assert!(found.len() >= 6);
    found
}

#[test]
fn books_write_the_stored_histories() {
    for (trace, history) in examples() {
        let mut book = Book::open(256).unwrap();
        for (session, call) in calls(&trace) {
            let _ = book.serve(session, &call).unwrap();
        }
        assert_eq!(text(&book.history(0, usize::MAX).unwrap()), history);
    }
}

#[test]
fn offices_write_the_stored_histories() {
    for (trace, history) in examples() {
        let mut sessions = Office::open(256).unwrap();
        for (number, call) in calls(&trace) {
            let session = &mut sessions[number as usize - 1];
            session.publish(&call).unwrap();
            assert!(!session.serve().unwrap().starved);
            let _ = session.collect().unwrap();
        }
        let book = Office::close(sessions).unwrap();
        assert_eq!(text(&book.history(0, usize::MAX).unwrap()), history);
    }
}

/// A try doesn't wait, and a withdrawal of the first request of a queue grants the one behind it. Both are in the history.
#[test]
fn tries_and_withdrawals() {
    let database = Resource::new(&[7]).unwrap();
    let (read, write) = (Call::Lock(database, Mode::S), Call::Lock(database, Mode::X));
    let refused = |why| Reply::Refused(why);
    let expected = [
        (1, Call::Try(database, Mode::S), refused(Refusal::NoTransaction)),
        (1, Call::Withdraw, refused(Refusal::NoTransaction)),
        (1, Call::Begin, Reply::Began(1)),
        (2, Call::Begin, Reply::Began(2)),
        (3, Call::Begin, Reply::Began(3)),
        (1, Call::Try(database, Mode::S), Reply::Granted(Mode::S)),
        (2, Call::Try(database, Mode::X), refused(Refusal::WouldWait)),
        (2, Call::Withdraw, refused(Refusal::NotWaiting)),
        (2, write, Reply::Waiting),
        (3, read, Reply::Waiting),
        (2, Call::Withdraw, Reply::Withdrawn),
        (3, Call::Poll, Reply::Clear),
        // 3 waits for 1, and then 1 for 3, which is the younger
        (3, write, Reply::Waiting),
        (1, write, Reply::Waiting),
        (3, Call::Withdraw, refused(Refusal::IsDoomed)),
        (3, Call::Abort, Reply::Aborted(1)),
        (1, Call::Poll, Reply::Clear),
    ];
    let mut book = Book::open(3).unwrap();
    for (session, call, reply) in expected {
        assert_eq!(book.serve(session, &call).unwrap(), reply);
        assert_eq!(book.ended().unwrap().contains(&3), reply == Reply::Withdrawn || (session, call) == (1, write));
    }
    let calls: Vec<_> = book.history(0, 99).unwrap().iter().map(|it| (it.session, it.call, it.reply)).collect();
    assert_eq!(calls, expected);
}

/// Eight threads lock one database exclusively in turn: each transaction is granted alone, and all calls are in the history.
#[test]
fn threads_share_an_office() {
    const ROUNDS: u64 = 50;
    let database = Resource::new(&[7]).unwrap();
    let workers: Vec<_> = Office::open(8)
        .unwrap()
        .into_iter()
        .map(|mut session| {
            thread::spawn(move || {
                let mut calls = 0;
                let mut ask = |call: &Call| {
                    calls += 1;
                    session.perform(call).unwrap().reply
                };
                for _ in 0..ROUNDS {
                    assert!(matches!(ask(&Call::Begin), Reply::Began(_)));
                    let mut reply = ask(&Call::Lock(database, Mode::X));
                    while reply == Reply::Waiting {
                        thread::yield_now();
                        reply = ask(&Call::Poll);
                    }
                    assert!(reply == Reply::Granted(Mode::X) || reply == Reply::Clear);
                    assert_eq!(ask(&Call::Commit), Reply::Committed(1));
                }
                (session, calls)
            })
        })
        .collect();
    let (sessions, calls): (Vec<_>, Vec<u64>) = workers.into_iter().map(|it| it.join().unwrap()).unzip();
    let book = Office::close(sessions).unwrap();
    assert_eq!(book.length(), calls.iter().sum::<u64>());
    assert!(book.holders(database).unwrap().is_empty());
}
