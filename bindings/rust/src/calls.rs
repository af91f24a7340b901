//! Modes, resources, calls and replies.

use crate::error::same_version;
use crate::ffi::{self, RawCall, RawReply, RawResource, LEVELS};
use std::fmt;

/// A lock mode of Gray, Lorie, Putzolu and Traiger (1976), or U.
///
///     use pelgaisti::Mode;
///     assert_eq!(Mode::SIX.name(), "SIX");
#[derive(Clone, Copy, Debug, PartialEq, Eq, Hash)]
pub enum Mode {
    /// No lock.
    NL,
    /// Intention to read below.
    IS,
    /// Intention to write below.
    IX,
    /// Read.
    S,
    /// Read, and intention to write below.
    SIX,
    /// Read, and announce a conversion to X.
    U,
    /// Write.
    X,
}

impl Mode {
    const ALL: [(Mode, u32, &'static str); 7] = [
        (Mode::NL, ffi::NL, "NL"),
        (Mode::IS, ffi::IS, "IS"),
        (Mode::IX, ffi::IX, "IX"),
        (Mode::S, ffi::S, "S"),
        (Mode::SIX, ffi::SIX, "SIX"),
        (Mode::U, ffi::U, "U"),
        (Mode::X, ffi::X, "X"),
    ];

    pub(crate) fn code(self) -> u32 {
        Mode::ALL.iter().find(|it| it.0 == self).map_or(0, |it| it.1)
    }

    /// The mode of a code that the library gave, which gives no other.
    pub(crate) fn of(code: u64) -> Mode {
        Mode::ALL.iter().find(|it| u64::from(it.1) == code).map_or(Mode::NL, |it| it.0)
    }

    /// The mode that a lock in this mode needs of the parent, at least.
    ///
    ///     use pelgaisti::Mode;
    ///     assert_eq!([Mode::S, Mode::X].map(Mode::of_parent), [Mode::IS, Mode::IX]);
    pub fn of_parent(self) -> Mode {
        // SAFETY: the call takes a number and gives one
        Mode::of(u64::from(unsafe { ffi::pelgaisti_parent_mode(self.code()) }))
    }

    /// The name of the mode, as traces have it.
    pub fn name(self) -> &'static str {
        Mode::ALL.iter().find(|it| it.0 == self).map_or("NL", |it| it.2)
    }
}

impl fmt::Display for Mode {
    fn fmt(&self, f: &mut fmt::Formatter<'_>) -> fmt::Result {
        f.write_str(self.name())
    }
}

/// A resource: a path of 1 to 5 numbers, of a database, a file, a page, a record and a field.
///
///     use pelgaisti::Resource;
///     let page = Resource::new(&[7, 2, 40]).unwrap();
///     assert_eq!(page.to_string(), "7/2/40");
///     assert!(Resource::new(&[]).is_none());
#[derive(Clone, Copy, Debug, PartialEq, Eq, Hash)]
pub struct Resource {
    level: u32,
    numbers: [u32; LEVELS],
}

impl Resource {
    /// The resource with these numbers; `None` unless there are 1 to 5.
    pub fn new(numbers: &[u32]) -> Option<Resource> {
        if numbers.is_empty() || numbers.len() > LEVELS {
            return None;
        }
        let mut all = [0; LEVELS];
        all[..numbers.len()].copy_from_slice(numbers);
        Some(Resource {
            level: numbers.len() as u32,
            numbers: all,
        })
    }

    /// The numbers of the path.
    pub fn numbers(&self) -> &[u32] {
        &self.numbers[..self.level as usize]
    }

    /// The level: how many numbers the path has.
    pub fn level(&self) -> usize {
        self.level as usize
    }

    /// The call that locks the next level of the path to this resource, of which `level` levels are locked: an ancestor in the mode
    /// that `mode` needs of the parent, or the resource itself in `mode`. `None` if all levels are. Panics if the library is of
    /// another version than this crate, so that nothing can be opened.
    ///
    ///     use pelgaisti::{Call, Mode, Resource};
    ///     let page = Resource::new(&[7, 2, 40]).unwrap();
    ///     assert_eq!(page.path_call(Mode::S, 0), Some(Call::Lock(Resource::new(&[7]).unwrap(), Mode::IS)));
    ///     assert_eq!(page.path_call(Mode::S, 2), Some(Call::Lock(page, Mode::S)));
    ///     assert_eq!(page.path_call(Mode::S, 3), None);
    pub fn path_call(&self, mode: Mode, level: usize) -> Option<Call> {
        if level >= self.level() {
            return None;
        }
        same_version().expect("a library of this crate's version");
        // SAFETY: the resource is a local, and the level is less than its own; the structs are those of this version
        Some(Call::of(&unsafe { ffi::pelgaisti_path_call(&self.raw(), mode.code(), level as u32) }))
    }

    pub(crate) fn raw(self) -> RawResource {
        RawResource {
            level: self.level,
            numbers: self.numbers,
        }
    }

    pub(crate) fn of(raw: &RawResource) -> Option<Resource> {
        raw.numbers.get(..raw.level as usize).and_then(Resource::new)
    }
}

impl fmt::Display for Resource {
    fn fmt(&self, f: &mut fmt::Formatter<'_>) -> fmt::Result {
        for (level, number) in self.numbers().iter().enumerate() {
            write!(f, "{}{number}", if level == 0 { "" } else { "/" })?;
        }
        Ok(())
    }
}

/// A number of levels as the library takes it: no path has as many as the greatest one.
pub(crate) fn level_code(level: usize) -> u32 {
    u32::try_from(level).unwrap_or(u32::MAX)
}

/// A call of a session.
#[derive(Clone, Copy, Debug, PartialEq, Eq, Hash)]
pub enum Call {
    /// Begins a transaction.
    Begin,
    /// Locks the resource in the mode, or raises the mode held there to the least upper bound of both.
    Lock(Resource, Mode),
    /// Like `Lock`, for a resource that the session holds already.
    Convert(Resource, Mode),
    /// Asks for the session's state.
    Poll,
    /// Releases one lock.
    Release(Resource),
    /// Ends the transaction and releases all its locks.
    Commit,
    /// Like `Commit`, also for a transaction that waits or is a victim.
    Abort,
    /// Like `Lock`, but never waits: where `Lock` would wait, it is refused with [`Refusal::WouldWait`] and changes nothing.
    Try(Resource, Mode),
    /// Takes the session's waiting request back: the transaction goes on, with the locks that it holds.
    Withdraw,
    /// Like `Abort`, and the transaction is open again at once with its old number, not a victim.
    Restart,
}

impl Call {
    pub(crate) fn raw(&self) -> RawCall {
        let plain = |op| RawCall { op, ..RawCall::default() };
        let of = |op, resource: &Resource, mode: Mode| RawCall {
            op,
            mode: mode.code(),
            resource: resource.raw(),
        };
        match self {
            Call::Begin => plain(ffi::BEGIN),
            Call::Lock(resource, mode) => of(ffi::LOCK, resource, *mode),
            Call::Convert(resource, mode) => of(ffi::CONVERT, resource, *mode),
            Call::Poll => plain(ffi::POLL),
            Call::Release(resource) => of(ffi::RELEASE, resource, Mode::NL),
            Call::Commit => plain(ffi::COMMIT),
            Call::Abort => plain(ffi::ABORT),
            Call::Try(resource, mode) => of(ffi::TRY, resource, *mode),
            Call::Withdraw => plain(ffi::WITHDRAW),
            Call::Restart => plain(ffi::RESTART),
        }
    }

    /// The call of an entry that the library gave.
    pub(crate) fn of(raw: &RawCall) -> Call {
        let mode = Mode::of(u64::from(raw.mode));
        match (raw.op, Resource::of(&raw.resource)) {
            (ffi::BEGIN, _) => Call::Begin,
            (ffi::LOCK, Some(resource)) => Call::Lock(resource, mode),
            (ffi::CONVERT, Some(resource)) => Call::Convert(resource, mode),
            (ffi::RELEASE, Some(resource)) => Call::Release(resource),
            (ffi::COMMIT, _) => Call::Commit,
            (ffi::ABORT, _) => Call::Abort,
            (ffi::TRY, Some(resource)) => Call::Try(resource, mode),
            (ffi::WITHDRAW, _) => Call::Withdraw,
            (ffi::RESTART, _) => Call::Restart,
            _ => Call::Poll,
        }
    }
}

/// The reply to a call.
#[must_use = "the reply may be Waiting, or a refusal"]
#[derive(Clone, Copy, Debug, PartialEq, Eq, Hash)]
pub enum Reply {
    /// The transaction's number; the first is 1.
    Began(u64),
    /// The mode that the session holds now.
    Granted(Mode),
    /// The request waits. Poll until the reply is `Clear`, which means granted, or `Deadlock`; or take it back by
    /// [`Call::Withdraw`].
    Waiting,
    /// The transaction was chosen as a victim. It keeps its locks: undo, then abort or restart.
    Deadlock,
    /// The session waits for nothing. After a wait for a lock it is held in the mode that was asked for; after one for a conversion
    /// in the least upper bound of that and what was held, which [`crate::Table::held`] tells, or the reply to the same lock again.
    Clear,
    /// The lock was released.
    Released,
    /// How many locks were released.
    Committed(u64),
    /// How many locks were released.
    Aborted(u64),
    /// The call changed nothing, for this reason.
    Refused(Refusal),
    /// The request was not granted and waits no more.
    Withdrawn,
    /// The transaction is open again with its old number. How many locks were released.
    Restarted(u64),
}

impl Reply {
    pub(crate) fn of(raw: &RawReply) -> Reply {
        match raw.kind {
            ffi::BEGAN => Reply::Began(raw.value),
            ffi::GRANTED => Reply::Granted(Mode::of(raw.value)),
            ffi::WAITING => Reply::Waiting,
            ffi::DEADLOCK => Reply::Deadlock,
            ffi::CLEAR => Reply::Clear,
            ffi::RELEASED => Reply::Released,
            ffi::COMMITTED => Reply::Committed(raw.value),
            ffi::ABORTED => Reply::Aborted(raw.value),
            ffi::WITHDRAWN => Reply::Withdrawn,
            ffi::RESTARTED => Reply::Restarted(raw.value),
            _ => Reply::Refused(Refusal::of(raw.value)),
        }
    }
}

/// Why a call was refused: the first of its tests that failed. A refused call is in the history and has no other effect.
#[derive(Clone, Copy, Debug, PartialEq, Eq, Hash)]
pub enum Refusal {
    /// The session already has a transaction.
    AlreadyOpen,
    /// The session has no transaction.
    NoTransaction,
    /// A request of the session waits.
    IsWaiting,
    /// The transaction is a victim and can only abort or restart.
    IsDoomed,
    /// The mode is NL.
    NothingAsked,
    /// The session doesn't hold the resource.
    NotHeld,
    /// The session doesn't hold the parent in a mode that the lock needs there.
    ParentNotHeld,
    /// The session holds a resource below.
    ChildHeld,
    /// The transaction holds 4096 locks.
    TooManyLocks,
    /// The lock that a try asks for can't be granted at once.
    WouldWait,
    /// The session has no waiting request to withdraw: one that it had was granted.
    NotWaiting,
}

impl Refusal {
    pub(crate) fn of(number: u64) -> Refusal {
        match number as u32 {
            ffi::ALREADY_OPEN => Refusal::AlreadyOpen,
            ffi::NO_TRANSACTION => Refusal::NoTransaction,
            ffi::IS_WAITING => Refusal::IsWaiting,
            ffi::IS_DOOMED => Refusal::IsDoomed,
            ffi::NOTHING_ASKED => Refusal::NothingAsked,
            ffi::NOT_HELD => Refusal::NotHeld,
            ffi::PARENT_NOT_HELD => Refusal::ParentNotHeld,
            ffi::CHILD_HELD => Refusal::ChildHeld,
            ffi::WOULD_WAIT => Refusal::WouldWait,
            ffi::NOT_WAITING => Refusal::NotWaiting,
            _ => Refusal::TooManyLocks,
        }
    }
}

impl fmt::Display for Refusal {
    fn fmt(&self, f: &mut fmt::Formatter<'_>) -> fmt::Result {
        fmt::Debug::fmt(self, f)
    }
}
