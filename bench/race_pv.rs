// The paravirtual queued lock, as Linux's qspinlock_paravirt.h and by the rows of docs/rows/pv.md: a waiter that does not get the lock
// sleeps until it is kicked. A byte that is slow says that the first of the queue stands in the hash.
use super::{Backoff, Cpu, GO, LOCKED, LOW, PENDING, Spin, UNSET, Word, tail};
use std::sync::OnceLock;
use std::sync::atomic::{AtomicU64, Ordering::SeqCst};
use std::thread::Thread;

const BYTE: u64 = 255;
const SLOW: u64 = 3;
const RUNNING: u64 = 0;
const HALTED: u64 = 1;
const HASHED: u64 = 2;

// A processor's node, since no call is within another; the state of its waiter; and whether a kick of it is remembered.
#[derive(Default)]
#[repr(align(64))]
struct Sleeper {
    flag: AtomicU64,
    next: AtomicU64,
    state: AtomicU64,
    kick: AtomicU64,
    thread: OnceLock<Thread>,
}

// Of one lock there is one entry in the hash at most: the number of a processor, raised by one.
pub struct Paravirtual {
    word: Word,
    sleepers: Vec<Sleeper>,
    hash: Vec<AtomicU64>,
    spins: u32,
}

impl Paravirtual {
    pub fn new(cpus: u32, spins: u32) -> Self {
        let hash = (0..4 * cpus).map(|_| AtomicU64::new(0)).collect();
        Paravirtual { word: Word::default(), sleepers: (0..cpus).map(|_| Sleeper::default()).collect(), hash, spins }
    }

    fn of(&self, cpu: u64) -> &Sleeper {
        &self.sleepers[cpu as usize]
    }

    // W6 and E12, and the end of the halt.
    fn halt(&self, own: u64) {
        while self.of(own).kick.swap(0, SeqCst) == 0 {
            std::thread::park();
        }
    }

    // U5.
    fn kick(&self, cpu: u64) {
        self.of(cpu).kick.store(1, SeqCst);
        self.of(cpu).thread.get().unwrap().unpark();
    }

    // E6 and K3.
    fn enter(&self, cpu: u64) {
        let mut places = self.hash.iter().cycle();
        while places.next().unwrap().compare_exchange(0, cpu + 1, SeqCst, SeqCst).is_err() {}
    }

    // E9 and U3.
    fn take_out(&self) -> u64 {
        let place = self.hash.iter().find(|place| place.load(SeqCst) != 0).unwrap();
        place.swap(0, SeqCst) - 1
    }

    // H1 and H2: whether it has stolen the lock.
    fn steal(&self) -> bool {
        let word = &self.word.0;
        let mut backoff = Backoff(0);
        loop {
            let mut met = word.load(SeqCst);
            if met & PENDING != 0 {
                return false;
            }
            let tailed = met > LOW;
            while met & BYTE == 0 {
                match word.compare_exchange(met, met + LOCKED, SeqCst, SeqCst) {
                    Ok(_) => return true,
                    Err(now) => met = now,
                }
            }
            if !tailed {
                return false;
            }
            backoff.snooze();
        }
    }

    // W1 to W7.
    fn wait(&self, own: u64, prev: u64) {
        loop {
            let mut backoff = Backoff(0);
            for _ in 0..self.spins {
                if self.of(own).flag.load(SeqCst) != UNSET {
                    return;
                }
                if self.of(prev).state.load(SeqCst) != RUNNING {
                    break;
                }
                backoff.snooze();
            }
            let state = &self.of(own).state;
            state.store(HALTED, SeqCst);
            if self.of(own).flag.load(SeqCst) == UNSET && state.load(SeqCst) == HALTED {
                self.halt(own);
            }
            let _ = state.compare_exchange(HALTED, RUNNING, SeqCst, SeqCst);
        }
    }

    // E4, for so many turns: whether it took the lock.
    fn take_pending(&self) -> bool {
        let word = &self.word.0;
        let mut backoff = Backoff(0);
        for _ in 0..self.spins {
            let mut met = word.load(SeqCst);
            while met & BYTE == 0 {
                match word.compare_exchange(met, met - PENDING + LOCKED, SeqCst, SeqCst) {
                    Ok(_) => return true,
                    Err(now) => met = now,
                }
            }
            backoff.snooze();
        }
        false
    }

    // E1 to E12.
    fn lead(&self, own: u64) {
        let (word, state) = (&self.word.0, &self.of(own).state);
        let mut hashed = state.load(SeqCst) == HASHED;
        loop {
            state.store(RUNNING, SeqCst);
            word.fetch_or(PENDING, SeqCst);
            if self.take_pending() {
                return;
            }
            word.fetch_sub(PENDING, SeqCst);
            if !hashed {
                self.enter(own);
                if word.fetch_or(SLOW, SeqCst) & BYTE == 0 {
                    word.fetch_sub(SLOW - LOCKED, SeqCst);
                    self.take_out();
                    return;
                }
                hashed = true;
            }
            state.store(HASHED, SeqCst);
            if word.load(SeqCst) & BYTE == SLOW {
                self.halt(own);
            }
        }
    }

    // E13 to K3.
    fn hand(&self, own: u64) {
        let word = &self.word.0;
        if word.compare_exchange(tail(4 * own) | LOCKED, LOCKED, SeqCst, SeqCst).is_ok() {
            return;
        }
        let mut backoff = Backoff(0);
        let next = loop {
            match self.of(own).next.load(SeqCst).checked_sub(1) {
                None => backoff.snooze(),
                Some(next) => break next,
            }
        };
        self.of(next).flag.store(GO, SeqCst);
        if self.of(next).state.compare_exchange(HALTED, HASHED, SeqCst, SeqCst).is_ok() {
            word.fetch_add(SLOW - LOCKED, SeqCst);
            self.enter(next);
        }
    }

    // From G1 on.
    #[inline(never)]
    fn contend(&self, own: u64) {
        let (word, node) = (&self.word.0, self.of(own));
        node.thread.get_or_init(std::thread::current);
        node.flag.store(UNSET, SeqCst);
        node.next.store(0, SeqCst);
        node.state.store(RUNNING, SeqCst);
        if self.steal() {
            return;
        }
        let mut met = word.load(SeqCst);
        while let Err(now) = word.compare_exchange(met, met & LOW | tail(4 * own), SeqCst, SeqCst) {
            met = now;
        }
        if met > LOW {
            let prev = (met >> 18) - 1;
            self.of(prev).next.store(own + 1, SeqCst);
            self.wait(own, prev);
        }
        self.lead(own);
        self.hand(own);
    }

    // U2 where the guessed word was not met, and U3 to U5.
    #[inline(never)]
    fn release(&self, mut met: u64) {
        while met & BYTE == LOCKED {
            match self.word.0.compare_exchange(met, met - LOCKED, SeqCst, SeqCst) {
                Ok(_) => return,
                Err(now) => met = now,
            }
        }
        let target = self.take_out();
        self.word.0.fetch_sub(SLOW, SeqCst);
        self.kick(target);
    }
}

impl Spin for Paravirtual {
    #[inline]
    fn lock(&self, cpu: &mut Cpu) {
        if self.word.0.compare_exchange(0, LOCKED, SeqCst, SeqCst).is_err() {
            self.contend(cpu.number);
        }
    }

    #[inline]
    fn unlock(&self) {
        if let Err(met) = self.word.0.compare_exchange(LOCKED, 0, SeqCst, SeqCst) {
            self.release(met);
        }
    }
}
