//! Programs: several calls of a session that are made as one, and the answers to them.

use crate::calls::{level_code, Call, Mode, Reply, Resource};
use crate::ffi::{self, RawCall, RawProgram, RawProgramAnswer, RawReply, CALLS};

/// What a program does with the session's transaction first.
#[derive(Clone, Copy, Debug, PartialEq, Eq, Hash)]
pub enum Start {
    /// Nothing.
    Nothing,
    /// Begins one.
    Begins,
    /// Commits the open one.
    Commits,
    /// Aborts the open one.
    Aborts,
    /// Commits the open one and begins the next.
    CommitsAndBegins,
    /// Aborts the open one and begins the next.
    AbortsAndBegins,
    /// Restarts the open one.
    Restarts,
}

impl Start {
    fn number(self) -> u32 {
        match self {
            Start::Nothing => ffi::NOTHING,
            Start::Begins => ffi::BEGINS,
            Start::Commits => ffi::COMMITS,
            Start::Aborts => ffi::ABORTS,
            Start::CommitsAndBegins => ffi::COMMITS_AND_BEGINS,
            Start::AbortsAndBegins => ffi::ABORTS_AND_BEGINS,
            Start::Restarts => ffi::RESTARTS,
        }
    }
}

/// Several calls of a session that are made as one: what a [`Start`] says, and then one call or the locks of a path. At most 7.
#[derive(Clone, Copy)]
pub struct Program {
    raw: RawProgram,
}

impl Program {
    /// What `first` says, and no other call.
    ///
    ///     # use pelgaisti::{Book, Program, Reply, Start};
    ///     let mut book = Book::open(1)?;
    ///     let begin = Program::start(Start::Begins);
    ///     assert!(book.run(1, &begin)?.replies(&begin).eq([Reply::Began(1)]));
    ///     # Ok::<(), pelgaisti::Error>(())
    pub fn start(first: Start) -> Program {
        Program {
            raw: RawProgram {
                start: first.number(),
                ..RawProgram::default()
            },
        }
    }

    /// One call of any kind.
    ///
    ///     # use pelgaisti::{Book, Call, Program, Reply};
    ///     let mut book = Book::open(1)?;
    ///     for (call, reply) in [(Call::Begin, Reply::Began(1)), (Call::Poll, Reply::Clear)] {
    ///         let program = Program::one(&call);
    ///         assert!(book.run(1, &program)?.replies(&program).eq([reply]));
    ///     }
    ///     # Ok::<(), pelgaisti::Error>(())
    pub fn one(call: &Call) -> Program {
        match call {
            Call::Begin => Program::start(Start::Begins),
            Call::Commit => Program::start(Start::Commits),
            Call::Abort => Program::start(Start::Aborts),
            Call::Restart => Program::start(Start::Restarts),
            other => Program::behind(Start::Nothing, other.raw()),
        }
    }

    /// The program that ends with this call, of which no ancestor is locked.
    fn behind(first: Start, last: RawCall) -> Program {
        Program {
            raw: RawProgram {
                start: first.number(),
                level: last.resource.level.saturating_sub(1),
                above: 0,
                last,
            },
        }
    }

    /// What `first` says, then locks on the ancestors of the resource in the mode that `mode` needs of a parent, and on the resource in
    /// `mode`: the rest of a path of which `level` levels are locked already, 0 at first. `None` if all are.
    ///
    ///     # use pelgaisti::{Mode, Program, Resource, Start};
    ///     let page = Resource::new(&[7, 2, 40]).unwrap();
    ///     assert!(Program::locks(Start::Begins, page, Mode::X, 0).is_some());
    ///     assert!(Program::locks(Start::Begins, page, Mode::X, 3).is_none());
    pub fn locks(first: Start, resource: Resource, mode: Mode, level: usize) -> Option<Program> {
        Program::path(first, level, mode.of_parent(), &Call::Lock(resource, mode))
    }

    /// What `first` says, then locks on the ancestors of the call's resource in the mode `above`, but for the first `level` levels, which are
    /// locked already, and then the call. `None` if the call has no resource, or none of its levels is left.
    ///
    ///     # use pelgaisti::{Call, Mode, Program, Resource, Start};
    ///     let record = Resource::new(&[7, 2, 40, 1]).unwrap();
    ///     let of = |level, call| Program::path(Start::Commits, level, Mode::IX, &call).is_some();
    ///     assert!(of(0, Call::Try(record, Mode::X)) && !of(4, Call::Try(record, Mode::X)) && !of(0, Call::Poll));
    pub fn path(first: Start, level: usize, above: Mode, last: &Call) -> Option<Program> {
        let mut program = Program::behind(first, last.raw());
        if level >= program.raw.last.resource.level as usize {
            return None;
        }
        program.raw.level = level_code(level);
        program.raw.above = above.code();
        Some(program)
    }

    pub(crate) fn raw(&self) -> &RawProgram {
        &self.raw
    }
}

/// The answer to a program.
#[must_use = "the program may have stopped at a reply, or lacked memory"]
#[derive(Clone, Copy)]
pub struct ProgramAnswer {
    /// The index of the first call's entry in the history; if no call was served, of the next one.
    pub place: u64,
    /// How many of its calls were served.
    pub served: usize,
    /// Whether memory was refused to the call behind those that were served.
    pub starved: bool,
    /// The reply at which it stopped, its last: `Waiting`, `Deadlock` or a refusal.
    pub stop: Option<Reply>,
    raw: RawProgramAnswer,
}

impl ProgramAnswer {
    pub(crate) fn of(raw: RawProgramAnswer) -> ProgramAnswer {
        let served = raw.served as usize;
        let value = raw.values[..served].last().copied().unwrap_or(0);
        ProgramAnswer {
            place: raw.place,
            served,
            starved: raw.starved != 0,
            stop: (raw.stop != 0).then(|| Reply::of(&RawReply { kind: raw.stop, value })),
            raw,
        }
    }

    /// The reply to each call that was served. `program` is the one that was answered; of another one the replies mean nothing.
    pub fn replies(&self, program: &Program) -> impl ExactSizeIterator<Item = Reply> {
        let mut list = [RawReply::default(); CALLS];
        // SAFETY: program and answer are of their types, and the list has room for the replies of any program
        let count = unsafe { ffi::pelgaisti_program_replies(program.raw(), &self.raw, list.as_mut_ptr()) };
        list.map(|it| Reply::of(&it)).into_iter().take(count as usize)
    }
}
