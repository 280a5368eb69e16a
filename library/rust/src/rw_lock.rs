//! A value under a reader-writer lock.

use std::cell::UnsafeCell;
use std::fmt;
use std::ops::{Deref, DerefMut};

use crate::domain::Domain;
use crate::error::Error;
use crate::library::{READS, WRITES};
use crate::place::Place;
use crate::seat::Seated;

/// A value that any number of threads read together, or one alone writes.
///
/// A thread is in the lock once: a second [`read`](RwLock::read) of the same thread panics, and so
/// does a [`write`](RwLock::write) of a reader. Guards may be dropped in any order.
///
/// ```
/// use qlock::{Domain, Family, RwLock};
///
/// let domain = Domain::builder(Family::Native).processors(4).rw_locks(1).open()?;
/// let names = RwLock::new(&domain, vec!["first"])?;
/// names.write().push("second");
/// std::thread::scope(|scope| {
///     for _ in 0..3 {
///         scope.spawn(|| assert_eq!(names.read().len(), 2));
///     }
/// });
/// # Ok::<(), qlock::Error>(())
/// ```
///
/// There is no poisoning: where a thread panics, its guards are dropped, and the next thread finds
/// the value as it was left. A lock is of a domain, so there is no `Default`.
///
/// Threads share it if its value may be sent and shared:
///
/// ```
/// # use qlock::{Domain, Family, RwLock};
/// fn is_shared<T: Sync>(_: &T) {}
///
/// let domain = Domain::builder(Family::Virt).processors(1).rw_locks(1).open()?;
/// is_shared(&RwLock::new(&domain, 0)?);
/// # Ok::<(), qlock::Error>(())
/// ```
///
/// ```compile_fail,E0277
/// # use std::cell::Cell;
/// # use qlock::{Domain, Family, RwLock};
/// fn is_shared<T: Sync>(_: &T) {}
///
/// let domain = Domain::builder(Family::Virt).processors(1).rw_locks(1).open()?;
/// is_shared(&RwLock::new(&domain, Cell::new(0))?);
/// # Ok::<(), qlock::Error>(())
/// ```
///
/// ```compile_fail,E0277
/// # use std::sync::MutexGuard;
/// # use qlock::{Domain, Family, RwLock};
/// fn is_shared<T: Sync>(_: &T) {}
///
/// // A value that may be shared, and not sent.
/// fn asks(value: &RwLock<MutexGuard<'_, u32>>) {
///     is_shared(value)
/// }
/// ```
pub struct RwLock<T: ?Sized> {
    place: Place,
    value: UnsafeCell<T>,
}

// SAFETY: the value is reached by the guards of readers, which share it, by that of a writer, which
// is alone and may be on another thread than the one before, or by `&mut`.
unsafe impl<T: ?Sized + Send + Sync> Sync for RwLock<T> {}

impl<T> RwLock<T> {
    /// A value under a reader-writer lock of the domain that nobody is in. The lock is given back
    /// when this is dropped.
    ///
    /// # Errors
    ///
    /// [`Error::OutOfLocks`] where each of the domain's reader-writer locks is in use.
    ///
    /// ```
    /// use qlock::{Domain, Error, Family, RwLock};
    ///
    /// let domain = Domain::builder(Family::Native).processors(1).mutexes(1).open()?;
    /// assert_eq!(RwLock::new(&domain, 2).err(), Some(Error::OutOfLocks { locks: 0 }));
    /// # Ok::<(), qlock::Error>(())
    /// ```
    pub fn new(domain: &Domain, value: T) -> Result<RwLock<T>, Error> {
        Ok(RwLock { place: Place::of_rw_lock(domain)?, value: UnsafeCell::new(value) })
    }

    /// The value. No lock is needed, because nobody else has it.
    ///
    /// ```
    /// use qlock::{Domain, Family, RwLock};
    ///
    /// let domain = Domain::builder(Family::Native).processors(1).rw_locks(1).open()?;
    /// assert_eq!(RwLock::new(&domain, 5)?.into_inner(), 5);
    /// # Ok::<(), qlock::Error>(())
    /// ```
    pub fn into_inner(self) -> T {
        self.value.into_inner()
    }
}

impl<T: ?Sized> RwLock<T> {
    /// Waits until this thread is in the lock as a reader. It waits as
    /// [`Mutex::lock`](crate::Mutex::lock) does.
    ///
    /// # Panics
    ///
    /// This thread is in the lock already, in any manner; or it has no processor of the domain, and
    /// other threads have all. [`Domain::register`] says the latter by an error.
    ///
    /// ```
    /// use qlock::{Domain, Family, RwLock};
    ///
    /// let domain = Domain::builder(Family::Native).processors(1).rw_locks(1).open()?;
    /// let value = RwLock::new(&domain, 5)?;
    /// assert_eq!(*value.read(), 5);
    /// # Ok::<(), qlock::Error>(())
    /// ```
    ///
    /// ```should_panic
    /// # use qlock::{Domain, Family, RwLock};
    /// # let domain = Domain::builder(Family::Native).processors(1).rw_locks(1).open().unwrap();
    /// # let value = RwLock::new(&domain, 1).unwrap();
    /// let first = value.read();
    /// let second = value.read(); // "this thread has the lock already"
    /// ```
    pub fn read(&self) -> RwLockReadGuard<'_, T> {
        RwLockReadGuard { seated: self.place.acquire(&READS), lock: self }
    }

    /// Waits until this thread is in the lock as its writer, alone. It waits as
    /// [`Mutex::lock`](crate::Mutex::lock) does.
    ///
    /// # Panics
    ///
    /// Those of [`read`](RwLock::read).
    ///
    /// ```
    /// use qlock::{Domain, Family, RwLock};
    ///
    /// let domain = Domain::builder(Family::Native).processors(1).rw_locks(1).open()?;
    /// let value = RwLock::new(&domain, 5)?;
    /// *value.write() += 1;
    /// assert_eq!(*value.read(), 6);
    /// # Ok::<(), qlock::Error>(())
    /// ```
    pub fn write(&self) -> RwLockWriteGuard<'_, T> {
        RwLockWriteGuard { seated: self.place.acquire(&WRITES), lock: self }
    }

    /// Enters as a reader, if no writer is in the lock or waits at its head. `None` also where this
    /// thread is in it, in any manner.
    ///
    /// # Panics
    ///
    /// This thread has no processor of the domain, and other threads have all.
    ///
    /// ```
    /// use qlock::{Domain, Family, RwLock};
    ///
    /// let domain = Domain::builder(Family::Native).processors(1).rw_locks(1).open()?;
    /// let value = RwLock::new(&domain, 5)?;
    /// assert!(value.try_read().is_some());
    /// let guard = value.write();
    /// assert!(value.try_read().is_none());
    /// # drop(guard);
    /// # Ok::<(), qlock::Error>(())
    /// ```
    pub fn try_read(&self) -> Option<RwLockReadGuard<'_, T>> {
        match self.place.attempt(&READS) {
            Ok(seated) => Some(RwLockReadGuard { seated, lock: self }),
            Err(missed) => missed.as_none(),
        }
    }

    /// Enters as the writer, if nobody is in the lock and no writer waits at its head. `None` also
    /// where this thread is in it.
    ///
    /// # Panics
    ///
    /// This thread has no processor of the domain, and other threads have all.
    ///
    /// ```
    /// use qlock::{Domain, Family, RwLock};
    ///
    /// let domain = Domain::builder(Family::Native).processors(1).rw_locks(1).open()?;
    /// let value = RwLock::new(&domain, 5)?;
    /// assert!(value.try_write().is_some());
    /// let guard = value.read();
    /// assert!(value.try_write().is_none());
    /// # drop(guard);
    /// # Ok::<(), qlock::Error>(())
    /// ```
    pub fn try_write(&self) -> Option<RwLockWriteGuard<'_, T>> {
        match self.place.attempt(&WRITES) {
            Ok(seated) => Some(RwLockWriteGuard { seated, lock: self }),
            Err(missed) => missed.as_none(),
        }
    }

    /// The value. No lock is needed, because nobody else refers to it.
    ///
    /// ```
    /// use qlock::{Domain, Family, RwLock};
    ///
    /// let domain = Domain::builder(Family::Native).processors(1).rw_locks(1).open()?;
    /// let mut value = RwLock::new(&domain, 1)?;
    /// *value.get_mut() = 5;
    /// assert_eq!(*value.read(), 5);
    /// # Ok::<(), qlock::Error>(())
    /// ```
    pub fn get_mut(&mut self) -> &mut T {
        self.value.get_mut()
    }
}

impl<T: ?Sized + fmt::Debug> fmt::Debug for RwLock<T> {
    /// With the value if a try enters as a reader, and else with `<locked>`.
    fn fmt(&self, f: &mut fmt::Formatter<'_>) -> fmt::Result {
        let mut shown = f.debug_struct("RwLock");
        match self.place.attempt(&READS) {
            Ok(seated) => shown.field("value", &&*RwLockReadGuard { seated, lock: self }),
            Err(missed) => shown.field("value", &format_args!("{}", missed.placeholder())),
        };
        shown.finish()
    }
}

/// The right to read the value of an [`RwLock`]. The thread leaves the lock when this is dropped.
///
/// It stays on its thread, and may be shared if the value may be.
///
/// ```
/// # use qlock::{Domain, Family, RwLock};
/// fn is_shared<T: Sync>(_: &T) {}
///
/// let domain = Domain::builder(Family::Virt).processors(1).rw_locks(1).open()?;
/// let value = RwLock::new(&domain, 0)?;
/// is_shared(&value.read());
/// # Ok::<(), qlock::Error>(())
/// ```
///
/// ```compile_fail,E0277
/// # use qlock::{Domain, Family, RwLock};
/// fn is_sent<T: Send>(_: &T) {}
///
/// let domain = Domain::builder(Family::Virt).processors(1).rw_locks(1).open()?;
/// let value = RwLock::new(&domain, 0)?;
/// is_sent(&value.read());
/// # Ok::<(), qlock::Error>(())
/// ```
///
/// ```compile_fail,E0277
/// # use std::cell::Cell;
/// # use qlock::{Domain, Family, RwLock};
/// fn is_shared<T: Sync>(_: &T) {}
///
/// let domain = Domain::builder(Family::Virt).processors(1).rw_locks(1).open()?;
/// let value = RwLock::new(&domain, Cell::new(0))?;
/// is_shared(&value.read());
/// # Ok::<(), qlock::Error>(())
/// ```
#[must_use = "the thread leaves the lock at once where the guard is not kept"]
pub struct RwLockReadGuard<'a, T: ?Sized> {
    seated: Seated<'a>,
    lock: &'a RwLock<T>,
}

// SAFETY: a shared guard gives a shared value and no more.
unsafe impl<T: ?Sized + Sync> Sync for RwLockReadGuard<'_, T> {}

impl<T: ?Sized> Deref for RwLockReadGuard<'_, T> {
    type Target = T;

    fn deref(&self) -> &T {
        // SAFETY: this thread is in the lock, so no writer is as long as the guard is.
        unsafe { &*self.lock.value.get() }
    }
}

impl<T: ?Sized> Drop for RwLockReadGuard<'_, T> {
    fn drop(&mut self) {
        self.lock.place.free(&READS, self.seated);
    }
}

impl<T: ?Sized + fmt::Debug> fmt::Debug for RwLockReadGuard<'_, T> {
    fn fmt(&self, f: &mut fmt::Formatter<'_>) -> fmt::Result {
        (**self).fmt(f)
    }
}

impl<T: ?Sized + fmt::Display> fmt::Display for RwLockReadGuard<'_, T> {
    fn fmt(&self, f: &mut fmt::Formatter<'_>) -> fmt::Result {
        (**self).fmt(f)
    }
}

/// The right to write the value of an [`RwLock`]. The thread leaves the lock when this is dropped.
///
/// It stays on its thread, and may be shared if the value may be.
///
/// ```
/// # use qlock::{Domain, Family, RwLock};
/// fn is_shared<T: Sync>(_: &T) {}
///
/// let domain = Domain::builder(Family::Virt).processors(1).rw_locks(1).open()?;
/// let value = RwLock::new(&domain, 0)?;
/// is_shared(&value.write());
/// # Ok::<(), qlock::Error>(())
/// ```
///
/// ```compile_fail,E0277
/// # use qlock::{Domain, Family, RwLock};
/// fn is_sent<T: Send>(_: &T) {}
///
/// let domain = Domain::builder(Family::Virt).processors(1).rw_locks(1).open()?;
/// let value = RwLock::new(&domain, 0)?;
/// is_sent(&value.write());
/// # Ok::<(), qlock::Error>(())
/// ```
///
/// ```compile_fail,E0277
/// # use std::cell::Cell;
/// # use qlock::{Domain, Family, RwLock};
/// fn is_shared<T: Sync>(_: &T) {}
///
/// let domain = Domain::builder(Family::Virt).processors(1).rw_locks(1).open()?;
/// let value = RwLock::new(&domain, Cell::new(0))?;
/// is_shared(&value.write());
/// # Ok::<(), qlock::Error>(())
/// ```
#[must_use = "the thread leaves the lock at once where the guard is not kept"]
pub struct RwLockWriteGuard<'a, T: ?Sized> {
    seated: Seated<'a>,
    lock: &'a RwLock<T>,
}

// SAFETY: a shared guard gives a shared value and no more.
unsafe impl<T: ?Sized + Sync> Sync for RwLockWriteGuard<'_, T> {}

impl<T: ?Sized> Deref for RwLockWriteGuard<'_, T> {
    type Target = T;

    fn deref(&self) -> &T {
        // SAFETY: this thread is in the lock as its writer, so nobody else is as long as the guard
        // is.
        unsafe { &*self.lock.value.get() }
    }
}

impl<T: ?Sized> DerefMut for RwLockWriteGuard<'_, T> {
    fn deref_mut(&mut self) -> &mut T {
        // SAFETY: as in `deref`, and the guard is borrowed alone.
        unsafe { &mut *self.lock.value.get() }
    }
}

impl<T: ?Sized> Drop for RwLockWriteGuard<'_, T> {
    fn drop(&mut self) {
        self.lock.place.free(&WRITES, self.seated);
    }
}

impl<T: ?Sized + fmt::Debug> fmt::Debug for RwLockWriteGuard<'_, T> {
    fn fmt(&self, f: &mut fmt::Formatter<'_>) -> fmt::Result {
        (**self).fmt(f)
    }
}

impl<T: ?Sized + fmt::Display> fmt::Display for RwLockWriteGuard<'_, T> {
    fn fmt(&self, f: &mut fmt::Formatter<'_>) -> fmt::Result {
        (**self).fmt(f)
    }
}
