//! A lock that spins, as the source's does: no standard library, and so nothing to wait with.
//!
//! It is held for a call, or for as long as lists are copied, and no code of a user's runs meanwhile. A
//! guard lets go when it is dropped, also by a panic, and there is no poisoning. A relation's lock is
//! taken before its allocator's.

use core::{
    cell::UnsafeCell,
    hint,
    marker::PhantomData,
    ops::{Deref, DerefMut},
    panic::RefUnwindSafe,
    sync::atomic::{AtomicBool, Ordering},
};

/// A value that one guard at a time reaches.
pub struct Lock<T> {
    held: AtomicBool,
    value: UnsafeCell<T>,
}

// SAFETY: the value is reached through a guard alone, and two guards never are at the same time.
unsafe impl<T: Send> Sync for Lock<T> {}

// What a panic leaves is whole: records and lists are changed by the calls, which don't panic.
impl<T> RefUnwindSafe for Lock<T> {}

/// What reaches the value, until it is dropped.
pub struct Guard<'a, T> {
    lock: &'a Lock<T>,
    /// Sent and shared as the reference is that it stands for.
    reaches: PhantomData<&'a mut T>,
}

impl<T> Lock<T> {
    pub const fn new(value: T) -> Self {
        Self {
            held: AtomicBool::new(false),
            value: UnsafeCell::new(value),
        }
    }

    pub fn lock(&self) -> Guard<'_, T> {
        let taken = |lock: &AtomicBool| {
            lock.compare_exchange_weak(false, true, Ordering::Acquire, Ordering::Relaxed)
        };
        while taken(&self.held).is_err() {
            while self.held.load(Ordering::Relaxed) {
                hint::spin_loop();
            }
        }
        Guard {
            lock: self,
            reaches: PhantomData,
        }
    }
}

impl<T> Deref for Guard<'_, T> {
    type Target = T;

    fn deref(&self) -> &T {
        // SAFETY: the guard that is borrowed here is the only one, and is for as long.
        unsafe { &*self.lock.value.get() }
    }
}

impl<T> DerefMut for Guard<'_, T> {
    fn deref_mut(&mut self) -> &mut T {
        // SAFETY: as in `deref`.
        unsafe { &mut *self.lock.value.get() }
    }
}

impl<T> Drop for Guard<'_, T> {
    fn drop(&mut self) {
        self.lock.held.store(false, Ordering::Release);
    }
}
