//! Domains: their processors, and the numbers of their locks.

use std::fmt;
use std::sync::{Arc, Mutex, MutexGuard, PoisonError};

use crate::error::Error;
use crate::library::{self, CNA, Cpu, DONE, MEMORY, NATIVE, PV, RW, SPIN, VIRT};
use crate::processor::{self, Processor};
use crate::seat::Seat;
use crate::{MOST_LOCKS, MOST_PROCESSORS};

/// How those who wait for a lock of a domain take turns.
///
/// ```
/// use qlock::{Domain, Family, Mutex};
///
/// for family in [Family::Virt, Family::Native, Family::Cna, Family::Pv] {
///     let domain = Domain::builder(family).processors(2).mutexes(1).open()?;
///     assert_eq!(domain.family(), family);
/// }
/// # Ok::<(), qlock::Error>(())
/// ```
#[derive(Clone, Copy, Debug, Default, PartialEq, Eq, Hash)]
pub enum Family {
    /// By test and set: whoever is fastest, so one may starve. For more runnable threads than
    /// processors.
    #[default]
    Virt,
    /// In a queue, as they came. For threads that have a processor each.
    Native,
    /// In a queue; the next is the first on the holder's socket, up to the threshold. For threads
    /// that have a processor each, on a machine of several sockets.
    Cna,
    /// In a queue whose waiters spin for a while, and then sleep until they are kicked; one that has
    /// just come may take a free lock before them. For more runnable threads than processors. It
    /// has no reader-writer locks.
    Pv,
}

/// For so many turns a waiter spins in [`Family::Pv`] before it sleeps, if it is not said.
const SPINS: u32 = 1_000;
/// And so many at most.
const MOST_SPINS: u32 = 65_535;

impl Family {
    fn code(self) -> u32 {
        match self {
            Family::Virt => VIRT,
            Family::Native => NATIVE,
            Family::Cna => CNA,
            Family::Pv => PV,
        }
    }
}

/// What a domain is to have. It begins with no processors and no locks.
///
/// ```
/// use qlock::{Domain, Family, Mutex, RwLock};
///
/// let domain = Domain::builder(Family::Cna)
///     .sockets(&[0, 0, 1, 1])
///     .threshold(64)
///     .mutexes(1)
///     .rw_locks(1)
///     .open()?;
/// let (count, names) = (Mutex::new(&domain, 0)?, RwLock::new(&domain, vec!["first"])?);
/// *count.lock() += names.read().len();
/// # Ok::<(), qlock::Error>(())
/// ```
#[derive(Clone, Debug, Default)]
pub struct Builder {
    family: Family,
    /// The number that was asked for. It may be out of range, and then there are no sockets.
    processors: usize,
    sockets: Vec<u32>,
    mutexes: usize,
    rw_locks: usize,
    threshold: u32,
    spins: Option<u32>,
}

impl Builder {
    /// So many processors, 1 to 1,024, all on socket 0. Each thread that locks takes one of them.
    #[must_use]
    pub fn processors(mut self, count: usize) -> Builder {
        self.processors = count;
        self.sockets = vec![0; if count <= MOST_PROCESSORS { count } else { 0 }];
        self
    }

    /// A processor on each of these sockets, 1 to 1,024 in all. [`Domain::register_on`] takes one of a
    /// socket.
    #[must_use]
    pub fn sockets(mut self, sockets: &[u32]) -> Builder {
        self.processors = sockets.len();
        self.sockets = sockets.to_vec();
        self
    }

    /// So many locks for a [`Mutex`](crate::Mutex) each. A domain has 1 to 4,096 locks of both
    /// kinds.
    #[must_use]
    pub fn mutexes(mut self, count: usize) -> Builder {
        self.mutexes = count;
        self
    }

    /// So many locks for an [`RwLock`](crate::RwLock) each. A domain has 1 to 4,096 locks of both
    /// kinds.
    #[must_use]
    pub fn rw_locks(mut self, count: usize) -> Builder {
        self.rw_locks = count;
        self
    }

    /// In [`Family::Cna`] so many handoffs at most pass a waiter on another socket. 0, if it is not
    /// said: waiters are served as they came.
    #[must_use]
    pub fn threshold(mut self, handoffs: u32) -> Builder {
        self.threshold = handoffs;
        self
    }

    /// In [`Family::Pv`] a waiter spins for so many turns, 1 to 65,535, before it sleeps. 1,000, if it
    /// is not said.
    ///
    /// ```
    /// use qlock::{Domain, Error, Family, Mutex};
    ///
    /// let builder = Domain::builder(Family::Pv).processors(4).mutexes(1);
    /// let domain = builder.clone().spins(1).open()?;
    /// let count = Mutex::new(&domain, 0)?;
    /// std::thread::scope(|scope| {
    ///     for _ in 0..4 {
    ///         scope.spawn(|| *count.lock() += 1);
    ///     }
    /// });
    /// assert_eq!(count.into_inner(), 4);
    /// assert_eq!(builder.clone().spins(0).open().err(), Some(Error::Spins { asked: 0 }));
    /// assert_eq!(builder.rw_locks(1).open().err(), Some(Error::NoRwLocks));
    /// # Ok::<(), qlock::Error>(())
    /// ```
    #[must_use]
    pub fn spins(mut self, turns: u32) -> Builder {
        self.spins = Some(turns);
        self
    }

    /// Makes the domain.
    ///
    /// # Errors
    ///
    /// [`Error::Processors`], [`Error::Locks`] and [`Error::Spins`] where a number is out of range;
    /// [`Error::NoRwLocks`]; [`Error::Memory`].
    pub fn open(&self) -> Result<Domain, Error> {
        if !(1..=MOST_PROCESSORS).contains(&self.processors) {
            return Err(Error::Processors { asked: self.processors });
        }
        let asked = self.mutexes.saturating_add(self.rw_locks);
        if !(1..=MOST_LOCKS).contains(&asked) {
            return Err(Error::Locks { asked });
        }
        let cpus = opened(self.family, &self.kinds(), &self.sockets, self.bound()?)?;
        let numbered = cpus.into_iter().zip(&self.sockets).enumerate();
        let seats =
            numbered.map(|(number, (cpu, &socket))| Seat::new(cpu, number, socket, asked)).collect();
        let (mutexes, locks) = (self.mutexes as u32, asked as u32);
        let pool = Pool {
            seats: (0..self.processors).rev().collect(),
            mutexes: (0..mutexes).rev().collect(),
            rw_locks: (mutexes..locks).rev().collect(),
        };
        let shared = Shared { family: self.family, mutexes, locks, seats, pool: Mutex::new(pool) };
        Ok(Domain { shared: Arc::new(shared) })
    }

    /// The threshold of the family: what bounds handoffs, or how long a waiter spins.
    fn bound(&self) -> Result<u32, Error> {
        if self.family != Family::Pv {
            return Ok(self.threshold);
        }
        if self.rw_locks != 0 {
            return Err(Error::NoRwLocks);
        }
        let asked = self.spins.unwrap_or(SPINS);
        if (1..=MOST_SPINS).contains(&asked) { Ok(asked) } else { Err(Error::Spins { asked }) }
    }

    /// Those of mutexes first.
    fn kinds(&self) -> Vec<u8> {
        let mut kinds = vec![SPIN as u8; self.mutexes];
        kinds.resize(self.mutexes + self.rw_locks, RW as u8);
        kinds
    }
}

/// The handles of a new domain.
fn opened(
    family: Family,
    kinds: &[u8],
    sockets: &[u32],
    threshold: u32,
) -> Result<Vec<Cpu>, Error> {
    let mut cpus: Vec<Cpu> = sockets.iter().map(|_| Cpu::EMPTY).collect();
    // SAFETY: each pointer is that of a slice with so many elements, and so not null (5); the
    // handles are zeros (1), and move to their seats before another call. The heap is that of the C
    // library (4).
    let answer = unsafe {
        library::qlock_open(
            family.code(),
            kinds.as_ptr(),
            kinds.len(),
            sockets.as_ptr(),
            sockets.len(),
            threshold,
            cpus.as_mut_ptr(),
            cpus.len(),
        )
    };
    match answer {
        DONE => Ok(cpus),
        MEMORY => Err(Error::Memory),
        code => panic!("qlock: no domain was opened, by code {code}"),
    }
}

/// Some locks of one family, and some processors that may take them.
///
/// A thread gets a processor of the domain at its first lock, or by [`register`](Domain::register),
/// and gives it back at its end. A clone is the same domain. It ends with its last clone and its
/// last lock.
///
/// ```
/// use qlock::{Domain, Family, Mutex};
///
/// let domain = Domain::builder(Family::Native).processors(4).mutexes(1).open()?;
/// let count = Mutex::new(&domain, 0)?;
/// std::thread::scope(|scope| {
///     for _ in 0..4 {
///         scope.spawn(|| *count.lock() += 1);
///     }
/// });
/// assert_eq!(count.into_inner(), 4);
/// # Ok::<(), qlock::Error>(())
/// ```
#[derive(Clone)]
pub struct Domain {
    pub(crate) shared: Arc<Shared>,
}

impl Domain {
    /// What a domain of this family is to have.
    ///
    /// ```
    /// use qlock::{Domain, Family};
    ///
    /// let domain = Domain::builder(Family::Virt).processors(8).mutexes(2).rw_locks(1).open()?;
    /// assert_eq!((domain.processors(), domain.mutexes(), domain.rw_locks()), (8, 2, 1));
    /// # Ok::<(), qlock::Error>(())
    /// ```
    #[must_use]
    pub fn builder(family: Family) -> Builder {
        Builder { family, ..Builder::default() }
    }

    /// Gives the calling thread a processor, if it has none yet. The processor is given back when
    /// the answer and all others for the same thread are dropped; at the thread's end, if it has
    /// locked before it registered.
    ///
    /// A thread that locks without this is registered then, until it ends. `std::thread::scope`
    /// waits for the closures of its threads and not for their ends, so where threads of a scope
    /// are many, one after the other, each is to register.
    ///
    /// # Errors
    ///
    /// [`Error::OutOfProcessors`], and [`Error::ThreadEnds`] from the destructor of a
    /// `thread_local`.
    ///
    /// ```
    /// use qlock::{Domain, Error, Family};
    ///
    /// let domain = Domain::builder(Family::Native).processors(1).mutexes(1).open()?;
    /// let processor = domain.register()?;
    /// let refused = || domain.register().err();
    /// let answer = std::thread::scope(|scope| scope.spawn(refused).join().unwrap());
    /// assert_eq!(answer, Some(Error::OutOfProcessors { processors: 1, socket: None }));
    /// drop(processor);
    /// let answer = std::thread::scope(|scope| scope.spawn(refused).join().unwrap());
    /// assert_eq!(answer, None);
    /// # Ok::<(), qlock::Error>(())
    /// ```
    pub fn register(&self) -> Result<Processor, Error> {
        processor::register(&self.shared, None)
    }

    /// As [`register`](Domain::register), with a processor on this socket: for a thread that runs
    /// there.
    ///
    /// # Errors
    ///
    /// Those of `register`, and [`Error::OtherSocket`] if the thread has a processor on another
    /// socket.
    ///
    /// ```
    /// use qlock::{Domain, Error, Family};
    ///
    /// let domain = Domain::builder(Family::Cna).sockets(&[0, 1]).mutexes(1).open()?;
    /// let processor = domain.register_on(1)?;
    /// assert_eq!((processor.number(), processor.socket()), (1, 1));
    /// assert_eq!(domain.register_on(0).err(), Some(Error::OtherSocket { socket: 1 }));
    /// # Ok::<(), qlock::Error>(())
    /// ```
    pub fn register_on(&self, socket: u32) -> Result<Processor, Error> {
        processor::register(&self.shared, Some(socket))
    }

    /// The family of its locks.
    #[must_use]
    pub fn family(&self) -> Family {
        self.shared.family
    }

    /// How many processors it has, taken or not.
    #[must_use]
    pub fn processors(&self) -> usize {
        self.shared.seats.len()
    }

    /// How many locks for mutexes it has, in use or not.
    #[must_use]
    pub fn mutexes(&self) -> usize {
        self.shared.mutexes as usize
    }

    /// How many reader-writer locks it has, in use or not.
    #[must_use]
    pub fn rw_locks(&self) -> usize {
        (self.shared.locks - self.shared.mutexes) as usize
    }
}

impl fmt::Debug for Domain {
    fn fmt(&self, f: &mut fmt::Formatter<'_>) -> fmt::Result {
        f.debug_struct("Domain")
            .field("family", &self.family())
            .field("processors", &self.processors())
            .field("mutexes", &self.mutexes())
            .field("rw_locks", &self.rw_locks())
            .finish()
    }
}

/// What the clones of a domain, its locks and its threads share.
pub(crate) struct Shared {
    family: Family,
    /// The locks below this number are those of mutexes.
    mutexes: u32,
    locks: u32,
    pub(crate) seats: Box<[Seat]>,
    pool: Mutex<Pool>,
}

/// What nobody has.
struct Pool {
    seats: Vec<usize>,
    mutexes: Vec<u32>,
    rw_locks: Vec<u32>,
}

impl Shared {
    fn pool(&self) -> MutexGuard<'_, Pool> {
        self.pool.lock().unwrap_or_else(PoisonError::into_inner)
    }

    /// The number of a lock for a mutex, which nobody else gets until it is given back.
    pub(crate) fn take_mutex(&self) -> Result<u32, Error> {
        let locks = self.mutexes as usize;
        self.pool().mutexes.pop().ok_or(Error::OutOfLocks { locks })
    }

    /// The number of a reader-writer lock, which nobody else gets until it is given back.
    pub(crate) fn take_rw_lock(&self) -> Result<u32, Error> {
        let locks = (self.locks - self.mutexes) as usize;
        self.pool().rw_locks.pop().ok_or(Error::OutOfLocks { locks })
    }

    /// Gives the number of a lock back that nobody refers to, unless a guard of it was forgotten.
    pub(crate) fn give_lock(&self, number: u32) {
        if self.seats.iter().any(|seat| seat.holds(number)) {
            return;
        }
        let mut pool = self.pool();
        if number < self.mutexes {
            pool.mutexes.push(number);
        } else {
            pool.rw_locks.push(number);
        }
    }

    /// The number of a seat for the calling thread alone, on this socket if one is named.
    pub(crate) fn take_seat(&self, socket: Option<u32>) -> Result<usize, Error> {
        let is_meant = |number: usize| socket.is_none_or(|on| self.seats[number].socket == on);
        let mut pool = self.pool();
        if let Some(at) = pool.seats.iter().rposition(|&number| is_meant(number)) {
            return Ok(pool.seats.remove(at));
        }
        let processors = (0..self.seats.len()).filter(|&number| is_meant(number)).count();
        Err(Error::OutOfProcessors { processors, socket })
    }

    /// Gives a seat back that the calling thread has had.
    pub(crate) fn give_seat(&self, number: usize) {
        self.pool().seats.push(number);
    }
}

impl Drop for Shared {
    fn drop(&mut self) {
        for seat in &mut self.seats {
            seat.close();
        }
    }
}
