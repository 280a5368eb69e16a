//! A processor of a domain, and the calls of the thread that has it.

use std::cell::UnsafeCell;
use std::hint;
use std::marker::PhantomData;
use std::sync::atomic::{AtomicU64, Ordering};
use std::sync::{Condvar, Mutex, PoisonError};
use std::thread;

use crate::library::{self, AGAIN, BUSY, Call, Cpu, DONE, HALTS, HELD, Manner, NOBODY, WAITS};

/// Set while a thread is registered with the processor. Below it is how many locks the thread has.
const REGISTERED: u64 = 1 << 63;

/// A waiting call looks so often with a hint to the machine in between. Then it yields at each look.
const HINTS: u32 = 100;

/// A processor. A thread has it as long as it is registered or has one of its locks. No two stand
/// on one cache line, since each call writes its own.
#[repr(align(128))]
pub(crate) struct Seat {
    cpu: UnsafeCell<Cpu>,
    /// `REGISTERED`, and the number of locks that the thread has. That thread alone writes it.
    state: AtomicU64,
    /// A bit for each lock of the domain: whether the thread has it. That thread alone writes them.
    locks: Box<[AtomicU64]>,
    /// Where its thread sleeps that has halted. Who wakes it has kicked it before.
    bed: (Mutex<()>, Condvar),
    number: usize,
    pub(crate) socket: u32,
}

// SAFETY: a handle may go from thread to thread (2 of qlock.h), as the lock of the pool orders it.
unsafe impl Send for Seat {}
// SAFETY: the handle is used by the thread that has the seat alone, through `Seated`, and by the
// one that drops the domain; the rest is an atomic and numbers.
unsafe impl Sync for Seat {}

/// Why a call took no lock.
#[derive(Clone, Copy, Debug, PartialEq, Eq)]
pub(crate) enum Refused {
    /// A try: somebody has the lock, waits for it, or was faster.
    Busy,
    /// This thread has the lock.
    Held,
}

impl Seat {
    /// Of a domain with so many locks.
    pub(crate) fn new(cpu: Cpu, number: usize, socket: u32, locks: usize) -> Seat {
        let locks = (0..locks.div_ceil(64)).map(|_| AtomicU64::new(0)).collect();
        let bed = (Mutex::new(()), Condvar::new());
        Seat { cpu: UnsafeCell::new(cpu), state: AtomicU64::new(0), locks, bed, number, socket }
    }

    /// Wakes its thread, which was kicked. It looks for the kick while it has the mutex, so the
    /// wake comes before that look or finds it asleep.
    pub(crate) fn wake(&self) {
        let (mutex, sleeps) = &self.bed;
        drop(mutex.lock().unwrap_or_else(PoisonError::into_inner));
        sleeps.notify_one();
    }

    /// Whether its thread has a lock. It may change at once, if that is another thread.
    pub(crate) fn holds(&self, lock: u32) -> bool {
        self.word(lock).load(Ordering::Relaxed) & bit(lock) != 0
    }

    /// Whether its thread has a lock of the domain.
    pub(crate) fn has_locks(&self) -> bool {
        self.state.load(Ordering::Relaxed) & !REGISTERED != 0
    }

    /// The word with the bit of a lock.
    fn word(&self, lock: u32) -> &AtomicU64 {
        &self.locks[lock as usize / 64]
    }

    /// Closes the handle. A processor with a lock, whose guard was forgotten, stays in the library.
    pub(crate) fn close(&mut self) {
        // SAFETY: nobody else has the seat, and its handle was filled by `qlock_open`.
        let _ = unsafe { library::qlock_close(self.cpu.get()) };
    }
}

/// A seat that the calling thread has. It cannot go to another thread.
#[derive(Clone, Copy)]
pub(crate) struct Seated<'a> {
    seat: &'a Seat,
    of_its_thread: PhantomData<*const ()>,
}

impl<'a> Seated<'a> {
    /// # Safety
    ///
    /// The calling thread has the seat: it has taken it from the pool of the domain, and has not
    /// given it back.
    pub(crate) unsafe fn new(seat: &'a Seat) -> Seated<'a> {
        Seated { seat, of_its_thread: PhantomData }
    }

    /// Acquires a lock. It looks with a hint to the machine first, and then yields at each look.
    /// Where its processor has halted it sleeps until that is kicked.
    pub(crate) fn acquire(self, manner: &Manner, lock: u32) -> Result<(), Refused> {
        let mut answer = self.call(manner.begins, lock);
        let mut looks = 0;
        while answer == WAITS || answer == HALTS {
            if answer == HALTS {
                self.sleep();
            } else if looks < HINTS {
                looks += 1;
                hint::spin_loop();
            } else {
                thread::yield_now();
            }
            answer = self.poll();
        }
        self.takes(answer, lock)
    }

    /// Sleeps until a kick is remembered, or for no reason.
    fn sleep(self) {
        let (mutex, sleeps) = &self.seat.bed;
        let guard = mutex.lock().unwrap_or_else(PoisonError::into_inner);
        if !self.is_kicked() {
            drop(sleeps.wait(guard));
        }
    }

    /// Takes a lock, if nobody is in the way. It never waits.
    pub(crate) fn attempt(self, manner: &Manner, lock: u32) -> Result<(), Refused> {
        self.takes(self.call(manner.tries, lock), lock)
    }

    /// Frees a lock, and wakes the thread of the seat that this kicks. True: the thread has its own
    /// seat no longer.
    pub(crate) fn free(self, manner: &Manner, lock: u32, seats: &[Seat]) -> bool {
        let mut kicked = NOBODY;
        let mut answer = AGAIN;
        while answer == AGAIN {
            // SAFETY: as in `call`; and the number has its place.
            answer = unsafe { (manner.frees)(self.seat.cpu.get(), lock, &raw mut kicked) };
        }
        assert!(answer == DONE, "qlock: lock {lock} was not freed, by code {answer}");
        if kicked != NOBODY {
            seats[kicked as usize].wake();
        }
        let word = self.seat.word(lock);
        word.store(word.load(Ordering::Relaxed) & !bit(lock), Ordering::Relaxed);
        self.sets(self.state() - 1)
    }

    pub(crate) fn register(self) {
        self.sets(self.state() | REGISTERED);
    }

    pub(crate) fn number(self) -> usize {
        self.seat.number
    }

    /// Ends the registration. True: the thread has the seat no longer.
    pub(crate) fn leave(self) -> bool {
        self.sets(self.state() & !REGISTERED)
    }

    fn takes(self, answer: u32, lock: u32) -> Result<(), Refused> {
        match answer {
            DONE => {
                let word = self.seat.word(lock);
                word.store(word.load(Ordering::Relaxed) | bit(lock), Ordering::Relaxed);
                self.sets(self.state() + 1);
                Ok(())
            }
            BUSY => Err(Refused::Busy),
            HELD => Err(Refused::Held),
            code => panic!("qlock: lock {lock} was refused by code {code}"),
        }
    }

    fn state(self) -> u64 {
        self.seat.state.load(Ordering::Relaxed)
    }

    /// True: the thread has the seat no longer.
    fn sets(self, state: u64) -> bool {
        self.seat.state.store(state, Ordering::Relaxed);
        state == 0
    }

    fn call(self, call: Call, lock: u32) -> u32 {
        // SAFETY: the handle is open, and this thread has it (1, 2), and makes no other call on it
        // until this one returns: none of the crate's code runs in between, unless a signal handler
        // locks (3).
        unsafe { call(self.seat.cpu.get(), lock) }
    }

    /// Whether a kick of the processor is remembered.
    fn is_kicked(self) -> bool {
        let mut yes = 0;
        // SAFETY: as in `call`; and the answer has its place.
        unsafe { library::qlock_is_kicked(self.seat.cpu.get(), &raw mut yes) == DONE && yes != 0 }
    }

    fn poll(self) -> u32 {
        // SAFETY: as in `call`.
        unsafe { library::qlock_poll(self.seat.cpu.get()) }
    }
}

fn bit(lock: u32) -> u64 {
    1 << (lock % 64)
}
