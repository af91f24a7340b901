//! What sessions hold and wait for.

use crate::calls::{Mode, Resource};
use crate::ffi::{self, RawClaim, RawHolder, RawTransaction};

/// An open transaction.
#[derive(Clone, Copy, Debug, PartialEq, Eq, Hash)]
pub struct Transaction {
    /// Its number, which [`crate::Reply::Began`] told.
    pub number: u64,
    /// Whether it is a deadlock's victim that hasn't aborted or restarted yet.
    pub doomed: bool,
}

/// What a claim on a resource is.
#[derive(Clone, Copy, Debug, PartialEq, Eq, Hash)]
pub enum ClaimKind {
    /// A lock.
    Held,
    /// A waiting request for more on a resource that the session holds.
    Conversion,
    /// A waiting request for a resource that the session doesn't hold.
    Fresh,
}

/// A lock or a waiting request.
#[derive(Clone, Copy, Debug, PartialEq, Eq, Hash)]
pub struct Claim {
    /// Whose it is.
    pub session: u32,
    /// The open transaction of the session.
    pub transaction: Transaction,
    /// The resource that is held or asked for.
    pub resource: Resource,
    /// The mode of the lock; of a request the mode that the session holds once it is granted.
    pub mode: Mode,
    /// What it is.
    pub kind: ClaimKind,
}

/// A session that holds a resource.
#[derive(Clone, Copy, Debug, PartialEq, Eq, Hash)]
pub struct Holder {
    /// The session's number.
    pub session: u32,
    /// The mode that it holds.
    pub mode: Mode,
}

impl Transaction {
    /// The transaction, `None` if none is open.
    pub(crate) fn of(raw: &RawTransaction) -> Option<Transaction> {
        (raw.number != 0).then_some(Transaction {
            number: raw.number,
            doomed: raw.doomed != 0,
        })
    }
}

impl Claim {
    /// The claim, `None` if there is none.
    pub(crate) fn of(raw: &RawClaim) -> Option<Claim> {
        let kind = match raw.kind {
            ffi::TRANSACTION_ROW => return None,
            ffi::HELD => ClaimKind::Held,
            ffi::CONVERSION => ClaimKind::Conversion,
            _ => ClaimKind::Fresh,
        };
        Some(Claim {
            session: raw.session,
            transaction: Transaction {
                number: raw.transaction,
                doomed: raw.doomed != 0,
            },
            resource: Resource::of(&raw.resource)?,
            mode: Mode::of(u64::from(raw.mode)),
            kind,
        })
    }
}

impl Holder {
    /// The holder.
    pub(crate) fn of(raw: &RawHolder) -> Holder {
        Holder {
            session: raw.session,
            mode: Mode::of(u64::from(raw.mode)),
        }
    }
}
