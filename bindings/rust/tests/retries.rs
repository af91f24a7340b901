//! A transaction that meets a new one in a cycle, time after time: how often it is the victim.

use pelgaisti::{Book, Call, Mode, Reply, Resource};

/// In each round session 1 begins a transaction that locks database 1 and then 2, while session 2 locks 2 and then 1. The victim's
/// calls are undone: session 2 makes the call `retry`, and begins again if that ended its transaction. Returns the round that session 2
/// wins, counted from 1, up to the 20th.
fn round_won(retry: Call) -> Option<u32> {
    let mut book = Book::open(2).unwrap();
    let mut serve = |session, call: Call| book.serve(session, &call).unwrap();
    let lock = |number| Call::Lock(Resource::new(&[number]).unwrap(), Mode::X);
    for round in 1..=20 {
        assert!(matches!(serve(1, Call::Begin), Reply::Began(_)));
        let _ = serve(2, Call::Begin); // refused if its transaction is open
        assert_eq!(serve(1, lock(1)), Reply::Granted(Mode::X));
        assert_eq!(serve(2, lock(2)), Reply::Granted(Mode::X));
        assert_eq!(serve(1, lock(2)), Reply::Waiting);
        if serve(2, lock(1)) == Reply::Waiting {
            assert_eq!((serve(1, Call::Poll), serve(1, Call::Abort)), (Reply::Deadlock, Reply::Aborted(1)));
            assert_eq!((serve(2, Call::Poll), serve(2, Call::Commit)), (Reply::Clear, Reply::Committed(2)));
            return Some(round);
        }
        let _ = serve(2, retry);
        assert_eq!((serve(1, Call::Poll), serve(1, Call::Commit)), (Reply::Clear, Reply::Committed(2)));
    }
    None
}

#[test]
fn a_victim_that_restarts_wins_the_next_time() {
    assert_eq!(round_won(Call::Restart), Some(2));
}

#[test]
fn a_victim_that_begins_anew_is_the_youngest_again() {
    assert_eq!(round_won(Call::Abort), None);
}
