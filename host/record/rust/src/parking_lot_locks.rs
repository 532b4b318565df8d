//! `parking_lot`.

use parking_lot::{const_mutex, MutexGuard};
use std::time::Duration;

pub use parking_lot::Condvar;

pub type Mutex = parking_lot::Mutex<()>;
pub type Guard = MutexGuard<'static, ()>;

pub const MUTEX: Mutex = const_mutex(());
pub const HAS_TRY_LOCK_FOR: bool = true;

pub fn lock(mutex: &'static Mutex) -> Guard {
    mutex.lock()
}

pub fn try_lock(mutex: &'static Mutex) -> Option<Guard> {
    mutex.try_lock()
}

pub fn try_lock_for(mutex: &'static Mutex, time: Duration) -> Option<Guard> {
    mutex.try_lock_for(time)
}

pub fn wait(variable: &Condvar, mut guard: Guard) -> Guard {
    variable.wait(&mut guard);
    guard
}

pub fn wait_for(variable: &Condvar, mut guard: Guard, time: Duration) -> (Guard, bool) {
    let result = variable.wait_for(&mut guard, time);
    (guard, result.timed_out())
}
