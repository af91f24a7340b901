//! Counters: each is moved by calls whose changes are worked by hand.

use pelgaisti::{Book, Call, Calls, Counts, Mode, Office, Refusal, Reply, Resource};

fn at(numbers: &[u32]) -> Resource {
    Resource::new(numbers).unwrap()
}

/// A cycle of two whose victim begins no wait of its own, one whose victim closes it, and each other way in which a wait ends.
fn calls() -> Vec<(u32, Call)> {
    let (one, two) = (at(&[1]), at(&[2]));
    let wait = (2, Call::Lock(one, Mode::S));
    vec![
        (1, Call::Begin),
        (1, Call::Begin),
        (2, Call::Poll),
        (2, Call::Begin),
        (1, Call::Lock(one, Mode::X)),
        (1, Call::Convert(one, Mode::X)),
        (1, Call::Release(two)),
        (2, Call::Try(one, Mode::S)),
        (2, Call::Withdraw),
        wait,
        (2, Call::Withdraw),
        wait,
        (2, Call::Restart),
        wait,
        (2, Call::Abort),
        (2, Call::Begin),
        wait,
        (1, Call::Commit),
        (1, Call::Begin),
        (1, Call::Lock(two, Mode::X)),
        (2, Call::Lock(two, Mode::X)),
        (1, Call::Lock(one, Mode::X)),
        (2, Call::Poll),
        (1, Call::Lock(one, Mode::S)),
        (1, Call::Abort),
        (2, Call::Poll),
    ]
}

/// What these calls bring about. Session 1's third transaction, number 4, is the younger one of the cycle, and closes it.
fn expected(counts: &Counts) {
    let all = Calls {
        begin: 5,
        lock: 9,
        convert: 1,
        poll: 3,
        release: 1,
        commit: 1,
        abort: 2,
        try_lock: 1,
        withdraw: 2,
        restart: 1,
    };
    assert_eq!(counts.calls, all);
    assert_eq!((counts.requests, counts.granted_at_once, counts.requests_refused, counts.waits_begun), (11, 3, 2, 6));
    assert_eq!((counts.waits_granted, counts.victims, counts.waits_withdrawn), (2, 1, 1));
    assert_eq!((counts.waits_aborted, counts.waits_restarted, counts.waiting, counts.deadlocks), (1, 1, 0, 1));
    let refused = [Refusal::AlreadyOpen, Refusal::NoTransaction, Refusal::NotHeld, Refusal::WouldWait, Refusal::NotWaiting, Refusal::IsDoomed];
    assert_eq!(refused.map(|why| counts.refused(why)), [1, 1, 1, 1, 1, 1]);
    let others = [Refusal::IsWaiting, Refusal::NothingAsked, Refusal::ParentNotHeld, Refusal::ChildHeld, Refusal::TooManyLocks];
    assert_eq!(others.map(|why| counts.refused(why)), [0; 5]);
}

#[test]
fn counters_move() {
    let mut book = Book::open(2).unwrap();
    let mut sessions = Office::open(2).unwrap();
    for (session, call) in calls() {
        let reply = book.serve(session, &call).unwrap();
        let answer = sessions[session as usize - 1].perform(&call).unwrap();
        assert_eq!(reply, answer.reply);
        let view = sessions[0].look().unwrap();
        assert_eq!((view.counts(), view.gauges(), view.length()), (book.counts(), book.gauges(), book.length()));
    }
    assert_eq!(book.serve(2, &Call::Poll).unwrap(), Reply::Clear);
    book.keep_at_most(0);
    assert_eq!(book.counts().unwrap().calls.poll, 4);
    expected(&sessions[1].look().unwrap().counts().unwrap());
}
