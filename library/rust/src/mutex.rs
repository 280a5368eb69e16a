//! A value under a spinlock.

use std::cell::UnsafeCell;
use std::fmt;
use std::ops::{Deref, DerefMut};

use crate::domain::Domain;
use crate::error::Error;
use crate::library::SPINS;
use crate::place::Place;
use crate::seat::Seated;

/// A value that one thread at a time works on.
///
/// [`lock`](Mutex::lock) waits and gives a guard; the lock is free again when the guard is dropped.
/// Guards of several locks may be dropped in any order.
///
/// ```
/// use qlock::{Domain, Family, Mutex};
///
/// let domain = Domain::builder(Family::Native).processors(4).mutexes(2).open()?;
/// let (from, to) = (Mutex::new(&domain, 10)?, Mutex::new(&domain, 0)?);
/// let (mut left, mut right) = (from.lock(), to.lock());
/// *left -= 3;
/// *right += 3;
/// drop(left);
/// drop(right);
/// assert_eq!((from.into_inner(), to.into_inner()), (7, 3));
/// # Ok::<(), qlock::Error>(())
/// ```
///
/// There is no poisoning: where a thread panics, its guards are dropped, and the next thread finds
/// the value as it was left. A mutex is of a domain, so there is no `Default`.
///
/// Threads share a mutex if its value may be sent, even if the value may not be shared:
///
/// ```
/// # use std::cell::Cell;
/// # use qlock::{Domain, Family, Mutex};
/// fn is_shared<T: Send + Sync>(_: &T) {}
///
/// let domain = Domain::builder(Family::Virt).processors(1).mutexes(1).open()?;
/// is_shared(&Mutex::new(&domain, Cell::new(0))?);
/// # Ok::<(), qlock::Error>(())
/// ```
///
/// ```compile_fail,E0277
/// # use std::rc::Rc;
/// # use qlock::{Domain, Family, Mutex};
/// fn is_shared<T: Send + Sync>(_: &T) {}
///
/// let domain = Domain::builder(Family::Virt).processors(1).mutexes(1).open()?;
/// is_shared(&Mutex::new(&domain, Rc::new(0))?);
/// # Ok::<(), qlock::Error>(())
/// ```
pub struct Mutex<T: ?Sized> {
    place: Place,
    value: UnsafeCell<T>,
}

// SAFETY: the value is reached by the guard of the one thread that has the lock, or by `&mut`. So
// it goes from thread to thread, and no two share it.
unsafe impl<T: ?Sized + Send> Sync for Mutex<T> {}

impl<T> Mutex<T> {
    /// A value under a free lock of the domain. The lock is given back when the mutex is dropped.
    ///
    /// # Errors
    ///
    /// [`Error::OutOfLocks`] where each of the domain's locks for mutexes is in use.
    ///
    /// ```
    /// use qlock::{Domain, Error, Family, Mutex};
    ///
    /// let domain = Domain::builder(Family::Native).processors(1).mutexes(1).open()?;
    /// let first = Mutex::new(&domain, 1)?;
    /// assert_eq!(Mutex::new(&domain, 2).err(), Some(Error::OutOfLocks { locks: 1 }));
    /// drop(first);
    /// assert!(Mutex::new(&domain, 2).is_ok());
    /// # Ok::<(), qlock::Error>(())
    /// ```
    pub fn new(domain: &Domain, value: T) -> Result<Mutex<T>, Error> {
        Ok(Mutex { place: Place::of_mutex(domain)?, value: UnsafeCell::new(value) })
    }

    /// The value. No lock is needed, because nobody else has the mutex.
    ///
    /// ```
    /// use qlock::{Domain, Family, Mutex};
    ///
    /// let domain = Domain::builder(Family::Native).processors(1).mutexes(1).open()?;
    /// let name = Mutex::new(&domain, String::from("a"))?;
    /// name.lock().push('b');
    /// assert_eq!(name.into_inner(), "ab");
    /// # Ok::<(), qlock::Error>(())
    /// ```
    pub fn into_inner(self) -> T {
        self.value.into_inner()
    }
}

impl<T: ?Sized> Mutex<T> {
    /// Waits until this thread has the lock. It looks at the lock 100 times with a hint to the
    /// machine in between, and then lets another thread run between two looks
    /// (`std::thread::yield_now`). It never sleeps, and cannot give up.
    ///
    /// # Panics
    ///
    /// This thread has the lock already; or it has no processor of the domain, and other threads
    /// have all. [`Domain::register`] says the latter by an error.
    ///
    /// ```
    /// use qlock::{Domain, Family, Mutex};
    ///
    /// let domain = Domain::builder(Family::Native).processors(1).mutexes(1).open()?;
    /// let count = Mutex::new(&domain, 1)?;
    /// *count.lock() += 1;
    /// assert_eq!(*count.lock(), 2);
    /// # Ok::<(), qlock::Error>(())
    /// ```
    ///
    /// ```should_panic
    /// # use qlock::{Domain, Family, Mutex};
    /// # let domain = Domain::builder(Family::Native).processors(1).mutexes(1).open().unwrap();
    /// # let count = Mutex::new(&domain, 1).unwrap();
    /// let first = count.lock();
    /// let second = count.lock(); // "this thread has the lock already"
    /// ```
    pub fn lock(&self) -> MutexGuard<'_, T> {
        MutexGuard { seated: self.place.acquire(&SPINS), mutex: self }
    }

    /// Takes the lock if it is free and nobody waits for it in a queue. `None` also where this
    /// thread has it.
    ///
    /// # Panics
    ///
    /// This thread has no processor of the domain, and other threads have all.
    ///
    /// ```
    /// use qlock::{Domain, Family, Mutex};
    ///
    /// let domain = Domain::builder(Family::Native).processors(1).mutexes(1).open()?;
    /// let count = Mutex::new(&domain, 1)?;
    /// let guard = count.try_lock().expect("nobody has it");
    /// assert!(count.try_lock().is_none());
    /// # drop(guard);
    /// # Ok::<(), qlock::Error>(())
    /// ```
    pub fn try_lock(&self) -> Option<MutexGuard<'_, T>> {
        match self.place.attempt(&SPINS) {
            Ok(seated) => Some(MutexGuard { seated, mutex: self }),
            Err(missed) => missed.as_none(),
        }
    }

    /// The value. No lock is needed, because nobody else refers to the mutex.
    ///
    /// ```
    /// use qlock::{Domain, Family, Mutex};
    ///
    /// let domain = Domain::builder(Family::Native).processors(1).mutexes(1).open()?;
    /// let mut count = Mutex::new(&domain, 1)?;
    /// *count.get_mut() = 5;
    /// assert_eq!(*count.lock(), 5);
    /// # Ok::<(), qlock::Error>(())
    /// ```
    pub fn get_mut(&mut self) -> &mut T {
        self.value.get_mut()
    }
}

impl<T: ?Sized + fmt::Debug> fmt::Debug for Mutex<T> {
    /// With the value if a try gets the lock, and else with `<locked>`.
    fn fmt(&self, f: &mut fmt::Formatter<'_>) -> fmt::Result {
        let mut shown = f.debug_struct("Mutex");
        match self.place.attempt(&SPINS) {
            Ok(seated) => shown.field("value", &&*MutexGuard { seated, mutex: self }),
            Err(missed) => shown.field("value", &format_args!("{}", missed.placeholder())),
        };
        shown.finish()
    }
}

/// The right to the value of a [`Mutex`], and its lock, which is freed when this is dropped.
///
/// A guard stays on its thread, because the lock is freed on the processor that has it. It may be
/// shared if the value may be.
///
/// ```
/// # use qlock::{Domain, Family, Mutex};
/// fn is_shared<T: Sync>(_: &T) {}
///
/// let domain = Domain::builder(Family::Virt).processors(1).mutexes(1).open()?;
/// let count = Mutex::new(&domain, 0)?;
/// is_shared(&count.lock());
/// # Ok::<(), qlock::Error>(())
/// ```
///
/// ```compile_fail,E0277
/// # use qlock::{Domain, Family, Mutex};
/// fn is_sent<T: Send>(_: &T) {}
///
/// let domain = Domain::builder(Family::Virt).processors(1).mutexes(1).open()?;
/// let count = Mutex::new(&domain, 0)?;
/// is_sent(&count.lock());
/// # Ok::<(), qlock::Error>(())
/// ```
///
/// ```compile_fail,E0277
/// # use std::cell::Cell;
/// # use qlock::{Domain, Family, Mutex};
/// fn is_shared<T: Sync>(_: &T) {}
///
/// let domain = Domain::builder(Family::Virt).processors(1).mutexes(1).open()?;
/// let count = Mutex::new(&domain, Cell::new(0))?;
/// is_shared(&count.lock());
/// # Ok::<(), qlock::Error>(())
/// ```
#[must_use = "the lock is freed at once where the guard is not kept"]
pub struct MutexGuard<'a, T: ?Sized> {
    seated: Seated<'a>,
    mutex: &'a Mutex<T>,
}

// SAFETY: a shared guard gives a shared value and no more.
unsafe impl<T: ?Sized + Sync> Sync for MutexGuard<'_, T> {}

impl<T: ?Sized> Deref for MutexGuard<'_, T> {
    type Target = T;

    fn deref(&self) -> &T {
        // SAFETY: this thread has the lock, so nobody else reaches the value as long as the guard
        // is.
        unsafe { &*self.mutex.value.get() }
    }
}

impl<T: ?Sized> DerefMut for MutexGuard<'_, T> {
    fn deref_mut(&mut self) -> &mut T {
        // SAFETY: as in `deref`, and the guard is borrowed alone.
        unsafe { &mut *self.mutex.value.get() }
    }
}

impl<T: ?Sized> Drop for MutexGuard<'_, T> {
    fn drop(&mut self) {
        self.mutex.place.free(&SPINS, self.seated);
    }
}

impl<T: ?Sized + fmt::Debug> fmt::Debug for MutexGuard<'_, T> {
    fn fmt(&self, f: &mut fmt::Formatter<'_>) -> fmt::Result {
        (**self).fmt(f)
    }
}

impl<T: ?Sized + fmt::Display> fmt::Display for MutexGuard<'_, T> {
    fn fmt(&self, f: &mut fmt::Formatter<'_>) -> fmt::Result {
        (**self).fmt(f)
    }
}
