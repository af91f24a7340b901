//! Values with several owners, as those of `Arc`, whose memory may be refused.

use crate::error::Error;
use crate::lists::{list_for, placed};
use std::mem::ManuallyDrop;
use std::ops::Deref;
use std::ptr::NonNull;
use std::sync::atomic::{fence, AtomicUsize, Ordering};

/// A value with its owners, and with those who may become owners, all owners together being one of these.
struct Counted<T> {
    owners: AtomicUsize,
    observers: AtomicUsize,
    value: ManuallyDrop<T>,
}

/// An owner of a value, which is dropped with the last one.
pub(crate) struct Shared<T>(NonNull<Counted<T>>);

/// What gives an owner of a value as long as it has one.
pub(crate) struct Observed<T>(NonNull<Counted<T>>);

// SAFETY: all owners read the value, on any thread, and the last one drops it
unsafe impl<T: Send + Sync> Send for Shared<T> {}
// SAFETY: as above
unsafe impl<T: Send + Sync> Sync for Shared<T> {}
// SAFETY: as above, since it gives owners
unsafe impl<T: Send + Sync> Send for Observed<T> {}
// SAFETY: as above
unsafe impl<T: Send + Sync> Sync for Observed<T> {}

impl<T> Shared<T> {
    /// The value with one owner. [`Error::NoMemory`]: the value is dropped.
    pub(crate) fn new(value: T) -> Result<Shared<T>, Error> {
        let mut one = list_for(1)?;
        one.push(Counted {
            owners: AtomicUsize::new(1),
            observers: AtomicUsize::new(1),
            value: ManuallyDrop::new(value),
        });
        Ok(Shared(placed(one)))
    }

    fn counted(&self) -> &Counted<T> {
        // SAFETY: it is there as long as it has an owner
        unsafe { self.0.as_ref() }
    }

    pub(crate) fn observe(&self) -> Observed<T> {
        self.counted().observers.fetch_add(1, Ordering::Relaxed);
        Observed(self.0)
    }
}

impl<T> Clone for Shared<T> {
    fn clone(&self) -> Shared<T> {
        self.counted().owners.fetch_add(1, Ordering::Relaxed);
        Shared(self.0)
    }
}

impl<T> Deref for Shared<T> {
    type Target = T;
    fn deref(&self) -> &T {
        &self.counted().value
    }
}

impl<T> Drop for Shared<T> {
    fn drop(&mut self) {
        if self.counted().owners.fetch_sub(1, Ordering::Release) == 1 {
            fence(Ordering::Acquire);
            // the owners' own share of the memory goes after the value
            let _memory = Observed(self.0);
            // SAFETY: it has no owner any more, and gets none, so that nobody reads the value; this drops it once
            unsafe { ManuallyDrop::drop(&mut (*self.0.as_ptr()).value) };
        }
    }
}

impl<T> Observed<T> {
    fn owners(&self) -> &AtomicUsize {
        // SAFETY: the memory is there as long as it has an observer
        unsafe { &(*self.0.as_ptr()).owners }
    }

    /// One owner more, unless the value has none any more.
    pub(crate) fn owner(&self) -> Option<Shared<T>> {
        let one_more = |owners| if owners == 0 { None } else { Some(owners + 1) };
        self.owners().fetch_update(Ordering::Acquire, Ordering::Relaxed, one_more).ok()?;
        Some(Shared(self.0))
    }
}

impl<T> Clone for Observed<T> {
    fn clone(&self) -> Observed<T> {
        // SAFETY: the memory is there as long as it has an observer
        unsafe { &(*self.0.as_ptr()).observers }.fetch_add(1, Ordering::Relaxed);
        Observed(self.0)
    }
}

impl<T> Drop for Observed<T> {
    fn drop(&mut self) {
        // SAFETY: the memory is there as long as it has an observer
        if unsafe { &(*self.0.as_ptr()).observers }.fetch_sub(1, Ordering::Release) == 1 {
            fence(Ordering::Acquire);
            // SAFETY: it has no observer any more, and so no owner; `placed` has made it, and the value was dropped
            drop(unsafe { Box::from_raw(self.0.as_ptr()) });
        }
    }
}
