//! Mutexes and condition variables of Rust as the hammer calls them, which is C. It knows them by number, and notes the
//! calls.

use std::cell::UnsafeCell;
use std::ffi::{c_int, c_uint};
use std::time::Duration;

#[cfg(not(feature = "parking_lot"))]
mod std_locks;
#[cfg(feature = "parking_lot")]
mod parking_lot_locks;

#[cfg(feature = "parking_lot")]
use parking_lot_locks as locks;
#[cfg(not(feature = "parking_lot"))]
use std_locks as locks;

use locks::{Condvar, Guard, Mutex};

const EBUSY: c_int = 16;
const ETIMEDOUT: c_int = 110;
const PLACES: usize = 4;

/// A mutex, and the guard of its owner, which no other thread touches.
struct Place {
    mutex: Mutex,
    guard: UnsafeCell<Option<Guard>>,
}

unsafe impl Sync for Place {}

impl Place {
    fn keep(&self, guard: Guard) -> c_int {
        unsafe { *self.guard.get() = Some(guard) };
        0
    }

    fn guard(&self) -> Guard {
        unsafe { (*self.guard.get()).take() }.expect("the caller owns the mutex")
    }
}

const PLACE: Place = Place { mutex: locks::MUTEX, guard: UnsafeCell::new(None) };
const VARIABLE: Condvar = Condvar::new();

static MUTEXES: [Place; PLACES] = [PLACE; PLACES];
static VARIABLES: [Condvar; PLACES] = [VARIABLE; PLACES];

fn time(microseconds: c_uint) -> Duration {
    Duration::from_micros(microseconds.into())
}

extern "C" fn lock(mutex: c_uint) -> c_int {
    let place = &MUTEXES[mutex as usize];
    place.keep(locks::lock(&place.mutex))
}

extern "C" fn trylock(mutex: c_uint) -> c_int {
    let place = &MUTEXES[mutex as usize];
    locks::try_lock(&place.mutex).map_or(EBUSY, |guard| place.keep(guard))
}

extern "C" fn timedlock(mutex: c_uint, microseconds: c_uint) -> c_int {
    let place = &MUTEXES[mutex as usize];
    locks::try_lock_for(&place.mutex, time(microseconds)).map_or(ETIMEDOUT, |guard| place.keep(guard))
}

extern "C" fn unlock(mutex: c_uint) -> c_int {
    drop(MUTEXES[mutex as usize].guard());
    0
}

extern "C" fn wait(variable: c_uint, mutex: c_uint) -> c_int {
    let place = &MUTEXES[mutex as usize];
    place.keep(locks::wait(&VARIABLES[variable as usize], place.guard()))
}

extern "C" fn timedwait(variable: c_uint, mutex: c_uint, microseconds: c_uint) -> c_int {
    let place = &MUTEXES[mutex as usize];
    let (guard, timed_out) = locks::wait_for(&VARIABLES[variable as usize], place.guard(), time(microseconds));
    place.keep(guard);
    if timed_out { ETIMEDOUT } else { 0 }
}

extern "C" fn signal(variable: c_uint) -> c_int {
    VARIABLES[variable as usize].notify_one();
    0
}

extern "C" fn broadcast(variable: c_uint) -> c_int {
    VARIABLES[variable as usize].notify_all();
    0
}

/// `Calls` of hammer.h.
#[repr(C)]
pub struct Calls {
    lock: extern "C" fn(c_uint) -> c_int,
    trylock: extern "C" fn(c_uint) -> c_int,
    timedlock: Option<extern "C" fn(c_uint, c_uint) -> c_int>,
    unlock: extern "C" fn(c_uint) -> c_int,
    wait: extern "C" fn(c_uint, c_uint) -> c_int,
    timedwait: extern "C" fn(c_uint, c_uint, c_uint) -> c_int,
    signal: extern "C" fn(c_uint) -> c_int,
    broadcast: extern "C" fn(c_uint) -> c_int,
}

/// Says which calls there are.
///
/// # Safety
///
/// There has to be room for them.
#[no_mangle]
pub unsafe extern "C" fn calls(room: *mut Calls) {
    let timedlock = locks::HAS_TRY_LOCK_FOR.then_some(timedlock as _);
    room.write(Calls { lock, trylock, timedlock, unlock, wait, timedwait, signal, broadcast });
}
