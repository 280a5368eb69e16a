//! The processors of a thread.

use std::cell::RefCell;
use std::fmt;
use std::marker::PhantomData;
use std::sync::{Arc, Weak};

use crate::domain::Shared;
use crate::error::Error;
use crate::seat::Seated;

thread_local! {
    /// One for each domain that the thread has a processor of.
    static REGISTRATIONS: RefCell<Vec<Registration>> = const { RefCell::new(Vec::new()) };
}

/// A thread's processor of a domain. It is given back when this is dropped, at the end of the
/// thread at the latest.
struct Registration {
    domain: Weak<Shared>,
    seat: usize,
    /// How many values of `Processor` there are.
    uses: usize,
    /// It stays without them, until the thread ends.
    stays: bool,
    of_its_thread: PhantomData<*const ()>,
}

impl Registration {
    /// Takes a seat for the calling thread.
    fn new(domain: &Arc<Shared>, socket: Option<u32>) -> Result<Registration, Error> {
        let (seat, domain) = (domain.take_seat(socket)?, Arc::downgrade(domain));
        Ok(Registration { domain, seat, uses: 0, stays: false, of_its_thread: PhantomData })
    }

    fn is_of(&self, domain: &Arc<Shared>) -> bool {
        std::ptr::eq(self.domain.as_ptr(), Arc::as_ptr(domain))
    }

    /// The seat, of the domain that it is of.
    fn seated<'a>(&self, domain: &'a Shared) -> Seated<'a> {
        // SAFETY: the thread of this registration, the calling one, has taken the seat from the
        // domain's pool, and gives it back when this is dropped.
        unsafe { Seated::new(&domain.seats[self.seat]) }
    }
}

impl Drop for Registration {
    fn drop(&mut self) {
        let Some(domain) = self.domain.upgrade() else {
            return;
        };
        if self.seated(&domain).leave() {
            domain.give_seat(self.seat);
        }
    }
}

/// Has the thread's registration with a domain changed, or makes one.
fn enter<R>(
    domain: &Arc<Shared>,
    socket: Option<u32>,
    change: impl FnOnce(&mut Registration) -> R,
) -> Result<R, Error> {
    let entered = |all: &RefCell<Vec<Registration>>| {
        let mut all = all.borrow_mut();
        if let Some(found) = all.iter_mut().find(|one| one.is_of(domain)) {
            return Ok(change(found));
        }
        // Those of domains that have ended are in the way no longer.
        all.retain(|one| one.domain.strong_count() > 0);
        let mut made = Registration::new(domain, socket)?;
        made.seated(domain).register();
        let answer = change(&mut made);
        all.push(made);
        Ok(answer)
    };
    REGISTRATIONS.try_with(entered).map_err(|_| Error::ThreadEnds)?
}

/// The calling thread's seat. A thread without one is registered until it ends.
pub(crate) fn seated(domain: &Arc<Shared>) -> Result<Seated<'_>, Error> {
    enter(domain, None, |one| {
        one.stays |= one.uses == 0;
        one.seated(domain)
    })
}

/// The processor of the calling thread, which is registered until this and all others are dropped.
pub(crate) fn register(domain: &Arc<Shared>, socket: Option<u32>) -> Result<Processor, Error> {
    let is_elsewhere = |seat: usize| socket.is_some_and(|on| domain.seats[seat].socket != on);
    let seat = enter(domain, socket, |one| {
        one.uses += usize::from(!is_elsewhere(one.seat));
        one.seat
    })?;
    if is_elsewhere(seat) {
        return Err(Error::OtherSocket { socket: domain.seats[seat].socket });
    }
    Ok(Processor { domain: domain.clone(), seat, of_its_thread: PhantomData })
}

/// The processor of the thread that called [`Domain::register`](crate::Domain::register).
///
/// A thread has one processor of a domain at a time, however often it registers. The last value
/// that is dropped gives it back; if the thread has a lock of the domain then, it keeps it until it
/// ends.
///
/// ```
/// use qlock::{Domain, Family, Mutex};
///
/// let domain = Domain::builder(Family::Native).processors(2).mutexes(1).open()?;
/// let count = Mutex::new(&domain, 0)?;
/// for _ in 0..100 {
///     std::thread::scope(|scope| {
///         for _ in 0..2 {
///             scope.spawn(|| {
///                 let _processor = domain.register().expect("there are two threads at a time");
///                 *count.lock() += 1;
///             });
///         }
///     });
/// }
/// assert_eq!(count.into_inner(), 200);
/// # Ok::<(), qlock::Error>(())
/// ```
///
/// It is of one thread, and can neither be sent to another nor be shared:
///
/// ```compile_fail,E0277
/// fn is_sent<T: Send>(_: &T) {}
///
/// let domain = qlock::Domain::builder(qlock::Family::Virt).processors(1).mutexes(1).open()?;
/// is_sent(&domain.register()?);
/// # Ok::<(), qlock::Error>(())
/// ```
///
/// ```compile_fail,E0277
/// fn is_shared<T: Sync>(_: &T) {}
///
/// let domain = qlock::Domain::builder(qlock::Family::Virt).processors(1).mutexes(1).open()?;
/// is_shared(&domain.register()?);
/// # Ok::<(), qlock::Error>(())
/// ```
#[must_use = "the processor is given back when it is dropped"]
pub struct Processor {
    domain: Arc<Shared>,
    seat: usize,
    of_its_thread: PhantomData<*const ()>,
}

impl Processor {
    /// Its number: 0, and so on.
    #[must_use]
    pub fn number(&self) -> usize {
        self.seat
    }

    /// Its socket.
    #[must_use]
    pub fn socket(&self) -> u32 {
        self.domain.seats[self.seat].socket
    }

    /// Whether this thread has a lock of the domain.
    ///
    /// ```
    /// use qlock::{Domain, Family, Mutex};
    ///
    /// let domain = Domain::builder(Family::Native).processors(1).mutexes(1).open()?;
    /// let value = Mutex::new(&domain, ())?;
    /// let processor = domain.register()?;
    /// assert!(!processor.has_locks());
    /// let guard = value.lock();
    /// assert!(processor.has_locks());
    /// # drop(guard);
    /// # Ok::<(), qlock::Error>(())
    /// ```
    #[must_use]
    pub fn has_locks(&self) -> bool {
        self.domain.seats[self.seat].has_locks()
    }
}

impl fmt::Debug for Processor {
    fn fmt(&self, f: &mut fmt::Formatter<'_>) -> fmt::Result {
        f.debug_struct("Processor").field("number", &self.number()).finish()
    }
}

impl Drop for Processor {
    fn drop(&mut self) {
        // Where the thread ends already, its registrations have been dropped.
        let _ = REGISTRATIONS.try_with(|all| {
            let mut all = all.borrow_mut();
            let Some(at) = all.iter().position(|one| one.is_of(&self.domain)) else {
                return;
            };
            let one = &mut all[at];
            one.uses -= 1;
            one.stays |= self.domain.seats[one.seat].has_locks();
            if one.uses == 0 && !one.stays {
                all.remove(at);
            }
        });
    }
}
