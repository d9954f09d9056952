//! Stand-in for the crate `spin`, written by us: its name `RwLock`, which is all
//! the circuit sources use of it.
//!
//! The original spins and is never poisoned. This one blocks, which no
//! comparison can see, and it forgets poisoning: a relation must stay usable
//! after one of its calls has panicked, since the driver goes on with it.

use std::sync::{self, PoisonError, RwLockReadGuard, RwLockWriteGuard};

/// A lock with many readers or one writer.
#[derive(Debug, Default)]
pub struct RwLock<T>(sync::RwLock<T>);

impl<T> RwLock<T> {
    pub const fn new(value: T) -> Self {
        Self(sync::RwLock::new(value))
    }

    pub fn read(&self) -> RwLockReadGuard<'_, T> {
        self.0.read().unwrap_or_else(PoisonError::into_inner)
    }

    pub fn write(&self) -> RwLockWriteGuard<'_, T> {
        self.0.write().unwrap_or_else(PoisonError::into_inner)
    }
}
