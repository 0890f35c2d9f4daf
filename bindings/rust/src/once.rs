//! Values that are made when they are first asked for, and kept from then on.

use std::marker::PhantomData;
use std::ptr;
use std::sync::atomic::{AtomicPtr, Ordering};

/// A value that is made when it is first asked for. Of two threads that ask at once the value of one
/// is kept, and no thread waits.
pub(crate) struct Once<T> {
    at: AtomicPtr<T>,
    owns: PhantomData<Box<T>>,
}

impl<T> Once<T> {
    pub const fn new() -> Once<T> {
        Once {
            at: AtomicPtr::new(ptr::null_mut()),
            owns: PhantomData,
        }
    }
}

impl<T: Send + Sync> Once<T> {
    /// The value, which is made where it is not there yet.
    pub fn get(&self, make: impl FnOnce() -> T) -> &T {
        let at = self.at.load(Ordering::Acquire);
        if !at.is_null() {
            // SAFETY: what is not null is a box that was given up to this value, which frees it when
            // it is dropped, and changes it at no other time.
            return unsafe { &*at };
        }
        let made = Box::into_raw(Box::new(make()));
        let before =
            self.at
                .compare_exchange(ptr::null_mut(), made, Ordering::AcqRel, Ordering::Acquire);
        match before {
            // SAFETY: as above; `made` is the box that was just given up.
            Ok(_) => unsafe { &*made },
            Err(first) => {
                // SAFETY: no one else has seen `made`. `first` is as above.
                drop(unsafe { Box::from_raw(made) });
                unsafe { &*first }
            }
        }
    }
}

impl<T> Drop for Once<T> {
    fn drop(&mut self) {
        let at = *self.at.get_mut();
        if !at.is_null() {
            // SAFETY: the box was given up to this value, and nothing borrows it any more.
            drop(unsafe { Box::from_raw(at) });
        }
    }
}

impl<T> Default for Once<T> {
    fn default() -> Once<T> {
        Once::new()
    }
}

/// Values by position, each made when it is first asked for.
pub(crate) struct Slots<T> {
    slots: Once<Box<[Once<T>]>>,
}

impl<T: Send + Sync> Slots<T> {
    /// The value at a position, which is made where it is not there yet. `count` is how many
    /// positions there are.
    pub fn get(&self, count: impl FnOnce() -> usize, at: usize, make: impl FnOnce() -> T) -> &T {
        let slots = self
            .slots
            .get(|| (0..count()).map(|_| Once::new()).collect());
        slots[at].get(make)
    }
}

impl<T> Default for Slots<T> {
    fn default() -> Slots<T> {
        Slots { slots: Once::new() }
    }
}

#[cfg(test)]
mod tests {
    use super::{Once, Slots};
    use std::sync::atomic::{AtomicUsize, Ordering};
    use std::thread;

    #[test]
    fn threads_see_one_value() {
        let (once, made) = (Once::new(), AtomicUsize::new(0));
        let make = || made.fetch_add(1, Ordering::SeqCst).to_string();
        let seen: Vec<*const String> = thread::scope(|scope| {
            let threads: Vec<_> = (0..8)
                .map(|_| scope.spawn(|| once.get(make) as *const String as usize))
                .collect();
            let joined = threads.into_iter().map(|thread| thread.join().unwrap());
            joined.map(|at| at as *const String).collect()
        });
        assert!(seen.iter().all(|at| *at == seen[0]));
        assert_eq!(once.get(make), once.get(|| unreachable!()));
    }

    #[test]
    fn each_position_has_a_value_of_its_own() {
        let slots = Slots::default();
        assert_eq!(slots.get(|| 3, 2, || "two".to_owned()), "two");
        assert_eq!(slots.get(|| 9, 0, || "nought".to_owned()), "nought");
        assert_eq!(slots.get(|| 9, 2, || "other".to_owned()), "two");
    }
}
