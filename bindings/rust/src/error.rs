//! Why a call made nothing.

use crate::ffi;
use std::fmt;

/// Why a call made nothing. Nothing has changed then, but for [`Error::Elsewhere`], after which a pending call that wasn't listed
/// may be; and for the calls that are made of several: `perform`, `resume`, `run`, `resume_program`, `lock` and `wait` say what they leave.
#[derive(Clone, Copy, Debug, PartialEq, Eq, Hash)]
pub enum Error {
    /// Memory was refused. The same call may be made again.
    NoMemory,
    /// The book, or the office, has no session with this number.
    NoSuchSession,
    /// The program makes no call, so that a session has nothing to publish.
    NoCalls,
    /// The number of sessions isn't from 1 to 1024, or a bound has a number that is 0 or too large.
    NoSuchCount,
    /// The session has a pending call or program. Of what finishes a single call: a pending program of several calls.
    Pending,
    /// The session has no pending call or program.
    NothingPending,
    /// The session knows no answer to its pending call: serve, and collect again.
    NotServed,
    /// The session has retired and publishes no more.
    Retired,
    /// Another session has the lock table: collect, or serve again.
    Elsewhere,
    /// The sessions are of different offices.
    OtherOffice,
    /// A session of the office wasn't handed in.
    Missing,
    /// The entry at this place of the history was let go.
    LetGo,
    /// The library is of another version than this crate.
    OtherVersion,
}

impl fmt::Display for Error {
    fn fmt(&self, f: &mut fmt::Formatter<'_>) -> fmt::Result {
        f.write_str(match self {
            Error::NoMemory => "memory was refused",
            Error::NoSuchSession => "no session has this number",
            Error::NoCalls => "the program makes no call",
            Error::NoSuchCount => "the number of sessions isn't from 1 to 1024, or a bound has a number that is 0 or too large",
            Error::Pending => "the session has a pending call",
            Error::NothingPending => "the session has no pending call",
            Error::NotServed => "the pending call isn't served yet",
            Error::Retired => "the session has retired",
            Error::Elsewhere => "another session has the lock table",
            Error::OtherOffice => "the sessions are of different offices",
            Error::Missing => "a session of the office wasn't handed in",
            Error::LetGo => "the entry at this place was let go",
            Error::OtherVersion => "the library is of another version",
        })
    }
}

impl std::error::Error for Error {}

/// What a status of the library means.
pub(crate) fn done(status: u32) -> Result<(), Error> {
    Err(match status {
        ffi::OK => return Ok(()),
        ffi::NO_MEMORY => Error::NoMemory,
        ffi::NO_SUCH_SESSION => Error::NoSuchSession,
        ffi::NO_SUCH_OP => Error::NoCalls,
        ffi::NO_SUCH_COUNT => Error::NoSuchCount,
        ffi::PENDING => Error::Pending,
        ffi::NOTHING_PENDING => Error::NothingPending,
        ffi::NOT_SERVED => Error::NotServed,
        ffi::RETIRED => Error::Retired,
        ffi::ELSEWHERE => Error::Elsewhere,
        ffi::OTHER_OFFICE => Error::OtherOffice,
        ffi::MISSING => Error::Missing,
        ffi::LET_GO => Error::LetGo,
        other => unreachable!("status {other}, which the types of this crate rule out"),
    })
}

/// Whether the library is of the version that this crate was written for.
pub(crate) fn same_version() -> Result<(), Error> {
    // SAFETY: the call takes nothing and changes nothing
    if unsafe { ffi::pelgaisti_version() } == ffi::HEADER_VERSION {
        Ok(())
    } else {
        Err(Error::OtherVersion)
    }
}
