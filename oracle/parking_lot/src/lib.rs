//! A stand-in for the crate `parking_lot`: std's mutex, whose `lock` hands out the guard itself.

use std::sync::PoisonError;

pub use std::sync::MutexGuard;

/// A lock that nothing poisons.
pub struct Mutex<T>(std::sync::Mutex<T>);

impl<T> Mutex<T> {
    /// A lock around a value.
    pub const fn new(value: T) -> Self {
        Self(std::sync::Mutex::new(value))
    }

    /// Waits for the lock and takes it.
    pub fn lock(&self) -> MutexGuard<'_, T> {
        self.0.lock().unwrap_or_else(PoisonError::into_inner)
    }
}

#[cfg(test)]
mod tests {
    #[test]
    fn what_is_written_under_the_lock_is_read_under_it() {
        let m = super::Mutex::new(1);
        *m.lock() += 1;
        assert_eq!(*m.lock(), 2);
    }
}
