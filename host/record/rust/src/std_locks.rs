//! `std::sync`. No thread panics, so that no mutex is poisoned.

use std::sync::MutexGuard;
use std::time::Duration;

pub use std::sync::Condvar;

pub type Mutex = std::sync::Mutex<()>;
pub type Guard = MutexGuard<'static, ()>;

pub const MUTEX: Mutex = Mutex::new(());
pub const HAS_TRY_LOCK_FOR: bool = false;

pub fn lock(mutex: &'static Mutex) -> Guard {
    mutex.lock().expect("not poisoned")
}

pub fn try_lock(mutex: &'static Mutex) -> Option<Guard> {
    mutex.try_lock().ok()
}

pub fn try_lock_for(_: &'static Mutex, _: Duration) -> Option<Guard> {
    None
}

pub fn wait(variable: &Condvar, guard: Guard) -> Guard {
    variable.wait(guard).expect("not poisoned")
}

pub fn wait_for(variable: &Condvar, guard: Guard, time: Duration) -> (Guard, bool) {
    let (guard, result) = variable.wait_timeout(guard, time).expect("not poisoned");
    (guard, result.timed_out())
}
