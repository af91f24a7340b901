//! The newest deadlocks of a lock table.

use crate::calls::Mode;
use crate::claims::{Claim, ClaimKind};
use crate::error::{done, Error};
use crate::ffi::{self, RawDeadlock, RawMember};
use crate::lists::{blank, each, list_for};
use crate::table::Table;
use std::fmt;

/// A session on the cycle of a deadlock.
#[derive(Clone, Copy, Debug, PartialEq, Eq, Hash)]
pub struct Member {
    /// The request that the session waited with.
    pub request: Claim,
    /// The mode in which the next session of the cycle held the requested resource, `None` if it didn't hold it. If it held it in no mode
    /// that conflicts with the request, its own request was ahead in the queue.
    pub held: Option<Mode>,
}

/// A deadlock, as it was before its victim was doomed. As text it is a line for the call that made it and one for each session on
/// the cycle, in the words of `glm explain`.
#[derive(Clone, Debug, PartialEq, Eq, Hash)]
pub struct Deadlock {
    /// The place in the history of the call that made it.
    pub place: u64,
    /// The session of that call.
    pub session: u32,
    /// The sessions on the cycle: the victim first, each of which waits for the next one, and the last for the victim.
    pub cycle: Vec<Member>,
}

impl Member {
    fn of(raw: &RawMember) -> Option<Member> {
        let held = Mode::of(u64::from(raw.held));
        Some(Member {
            request: Claim::of(&raw.request)?,
            held: (held != Mode::NL).then_some(held),
        })
    }

    /// Writes the line of the member, which waits for session `next`.
    fn write(&self, f: &mut fmt::Formatter<'_>, next: u32) -> fmt::Result {
        let Claim { session, resource, mode, .. } = self.request;
        let (verb, word) = match self.request.kind {
            ClaimKind::Conversion => ("to convert", "to"),
            ClaimKind::Held | ClaimKind::Fresh => ("for", "in"),
        };
        let number = self.request.transaction.number;
        write!(f, "  session {session}, transaction {number}, waits {verb} {resource} {word} {mode}")?;
        match self.held {
            None => writeln!(f, ", behind session {next}"),
            Some(held) => writeln!(f, ", which session {next} holds in {held}"),
        }
    }
}

impl fmt::Display for Deadlock {
    fn fmt(&self, f: &mut fmt::Formatter<'_>) -> fmt::Result {
        let (place, session) = (self.place, self.session);
        let victim = self.cycle.first().map_or(0, |it| it.request.session);
        writeln!(f, "deadlock at place {place}: session {session} closed a cycle, session {victim} is its victim")?;
        for (index, member) in self.cycle.iter().enumerate() {
            member.write(f, self.cycle.get(index + 1).map_or(victim, |it| it.request.session))?;
        }
        Ok(())
    }
}

/// The deadlocks of a list, whose members stand one behind another.
fn deadlocks_of(list: &[RawDeadlock], mut members: &[RawMember]) -> Result<Vec<Deadlock>, Error> {
    let mut deadlocks = list_for(list.len())?;
    for raw in list {
        let (own, others) = members.split_at(raw.members);
        members = others;
        deadlocks.push(Deadlock {
            place: raw.place,
            session: raw.session,
            cycle: each(own, Member::of)?,
        });
    }
    Ok(deadlocks)
}

/// The newest `most` deadlocks, of which a call writes as many as there is room for, with how many are kept, and the number of their
/// members: asks again with more room until all fit.
fn whole_deadlocks(
    most: usize,
    mut ask: impl FnMut((&mut [RawDeadlock], &mut usize), (&mut [RawMember], &mut usize)) -> Result<(), Error>,
) -> Result<Vec<Deadlock>, Error> {
    let few = most.min(8);
    let (mut list, mut members) = (blank::<RawDeadlock>(few)?, blank::<RawMember>(4 * few)?);
    loop {
        let (mut count, mut member_count) = (0, 0);
        ask((&mut list, &mut count), (&mut members, &mut member_count))?;
        count = count.min(most);
        if let (Some(list), Some(members)) = (list.get(..count), members.get(..member_count)) {
            return deadlocks_of(list, members);
        }
        (list, members) = (blank(count)?, blank(member_count.max(4 * count))?);
    }
}

/// Deadlocks. A lock table keeps none unless it is opened with [`Options::deadlocks`](crate::Options::deadlocks).
impl Table {
    /// The deadlocks that are kept, oldest first. A call makes one for each victim that it dooms; those of one call have the same place, in
    /// the order in which their victims were doomed. Of several cycles that go through the victim one is told.
    ///
    ///     # use pelgaisti::{Book, Call, Mode, Options, Reply, Resource};
    ///     let mut book = Book::open(Options { deadlocks: 16, ..Options::new(2) })?;
    ///     let [one, two] = [1, 2].map(|number| Resource::new(&[number]).unwrap());
    ///     for (session, call) in [
    ///         (1, Call::Begin),
    ///         (2, Call::Begin),
    ///         (1, Call::Lock(one, Mode::X)),
    ///         (2, Call::Lock(two, Mode::S)),
    ///         (1, Call::Lock(two, Mode::X)),
    ///     ] {
    ///         let _ = book.serve(session, &call)?;
    ///     }
    ///     assert_eq!(book.serve(2, &Call::Lock(one, Mode::S))?, Reply::Deadlock);
    ///     assert_eq!(
    ///         book.deadlocks()?[0].to_string(),
    ///         "deadlock at place 5: session 2 closed a cycle, session 2 is its victim\n  \
    ///            session 2, transaction 2, waits for 1 in S, which session 1 holds in X\n  \
    ///            session 1, transaction 1, waits for 2 in X, which session 2 holds in S\n"
    ///     );
    ///     # Ok::<(), pelgaisti::Error>(())
    pub fn deadlocks(&self) -> Result<Vec<Deadlock>, Error> {
        self.newest_deadlocks(usize::MAX)
    }

    /// The newest `most` of the deadlocks that [`Table::deadlocks`] tells, oldest first. Its cost grows with these alone.
    ///
    ///     # use pelgaisti::{Book, Error};
    ///     assert!(Book::open(2)?.newest_deadlocks(1)?.is_empty());
    ///     # Ok::<(), Error>(())
    pub fn newest_deadlocks(&self, most: usize) -> Result<Vec<Deadlock>, Error> {
        whole_deadlocks(most, |(list, count), (members, member_count)| {
            let (to, room) = (list.as_mut_ptr(), list.len());
            let (members, member_room) = (members.as_mut_ptr(), members.len());
            // SAFETY: the handle is this table's; the lists have so much room, and the counts are locals
            done(unsafe { ffi::pelgaisti_book_deadlocks(self.raw(), to, room, count, members, member_room, member_count) })
        })
    }
}
