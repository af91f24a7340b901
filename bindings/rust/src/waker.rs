//! The closure that wakes an office's threads, as the library calls it.

use crate::error::Error;
use crate::ffi::RawWaker;
use crate::lists::{list_for, placed};
use std::os::raw::c_void;
use std::mem;
use std::ops::Deref;
use std::panic::{self, AssertUnwindSafe};
use std::ptr::{self, NonNull};
use std::sync::atomic::{AtomicBool, Ordering};

/// A closure that is called with the number of a session whose wait has ended, and what the library has of it.
pub(crate) struct Waker<F: ?Sized> {
    raw: RawWaker,
    is_over: AtomicBool,
    wake: F,
}

pub(crate) type AnyWaker = Waker<dyn Fn(u32) + Send + Sync>;

/// A waker at its place, which the library knows: no `Box`, whose value nothing else points to.
pub(crate) struct PlacedWaker(NonNull<AnyWaker>);

impl PlacedWaker {
    /// [`Error::NoMemory`]: the closure is dropped.
    pub(crate) fn new<F: Fn(u32) + Send + Sync + 'static>(wake: F) -> Result<PlacedWaker, Error> {
        let mut one = list_for(1)?;
        one.push(Waker {
            raw: RawWaker {
                wake: wake_one::<F>,
                engine: ptr::null_mut(),
            },
            is_over: AtomicBool::new(false),
            wake,
        });
        let place = placed(one);
        // SAFETY: it was made just now, and nobody else has it
        unsafe { (*place.as_ptr()).raw.engine = place.as_ptr().cast() };
        Ok(PlacedWaker(place))
    }
}

impl Deref for PlacedWaker {
    type Target = AnyWaker;
    fn deref(&self) -> &AnyWaker {
        // SAFETY: it is at its place as long as this is, and nobody has it by `&mut`
        unsafe { self.0.as_ref() }
    }
}

impl Drop for PlacedWaker {
    fn drop(&mut self) {
        // SAFETY: `placed` has made it, and the office whose calls wake by it is gone
        drop(unsafe { Box::from_raw(self.0.as_ptr()) });
    }
}

impl AnyWaker {
    pub(crate) fn raw(&self) -> *const RawWaker {
        &self.raw
    }

    /// Calls the closure no more.
    pub(crate) fn end(&self) {
        self.is_over.store(true, Ordering::Relaxed);
    }
}

impl<F: Fn(u32) + Send + Sync + ?Sized> Waker<F> {
    /// Calls the closure for a session, unless [`AnyWaker::end`] was called. If the closure panics, the panic ends here.
    pub(crate) fn wake(&self, session: u32) {
        if self.is_over.load(Ordering::Relaxed) {
            return;
        }
        if let Err(panic) = panic::catch_unwind(AssertUnwindSafe(|| (self.wake)(session))) {
            // what it was raised with may panic itself when it is dropped
            if let Err(another) = panic::catch_unwind(AssertUnwindSafe(|| drop(panic))) {
                mem::forget(another);
            }
        }
    }
}

/// Calls the closure for a session. No panic leaves it, so that the others are woken and the call that made the pass returns its answer.
///
/// # Safety
///
/// `engine` is the place of a `Waker<F>` that lives.
unsafe extern "C" fn wake_one<F: Fn(u32) + Send + Sync>(engine: *mut c_void, session: u32) {
    // SAFETY: the caller says so, and nobody has the waker by `&mut`
    unsafe { &*engine.cast::<Waker<F>>() }.wake(session);
}
