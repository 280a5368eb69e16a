//! Threads that lock, in each family: no turn is lost, and nobody sees a half of one.

use std::sync::atomic::{AtomicU64, Ordering};
use std::thread;

use qlock::{Domain, Family, Mutex, RwLock};

const FAMILIES: [Family; 3] = [Family::Virt, Family::Native, Family::Cna];

/// Two numbers that are the same whenever nobody works on them.
#[derive(Default)]
struct Twins(u64, u64);

/// Others run while this thread has a lock at one turn in 16, so that they wait for it.
fn lingers(turn: u64) {
    if turn.is_multiple_of(16) {
        thread::yield_now();
    }
}

impl Twins {
    fn grow(&mut self, turn: u64) {
        assert_eq!(self.0, self.1);
        self.0 += 1;
        lingers(turn);
        self.1 += 1;
    }

    fn look(&self, turn: u64) {
        let seen = self.0;
        lingers(turn);
        assert_eq!((self.0, self.1), (seen, seen));
    }
}

fn domain(family: Family, threads: u64) -> Domain {
    let sockets: Vec<u32> = (0..threads as u32).map(|number| number % 2).collect();
    Domain::builder(family).sockets(&sockets).threshold(16).mutexes(2).rw_locks(1).open().unwrap()
}

/// How often each lock was changed.
#[derive(Default)]
struct Counts {
    tried: AtomicU64,
    written: AtomicU64,
}

struct Locks {
    outer: Mutex<Twins>,
    inner: Mutex<Vec<u64>>,
    both: RwLock<Twins>,
}

fn takes_turns(locks: &Locks, counts: &Counts, turns: u64) {
    for turn in 0..turns {
        let mut outer = locks.outer.lock();
        outer.grow(turn);
        if turn.is_multiple_of(8) {
            locks.inner.lock().push(outer.0);
        }
        drop(outer);
        if let Some(mut outer) = locks.outer.try_lock() {
            outer.grow(turn);
            counts.tried.fetch_add(1, Ordering::SeqCst);
        }
        if turn.is_multiple_of(4) {
            locks.both.write().grow(turn);
            counts.written.fetch_add(1, Ordering::SeqCst);
        } else {
            locks.both.read().look(turn);
        }
    }
}

fn run(family: Family, threads: u64, turns: u64) {
    let domain = domain(family, threads);
    let locks = Locks {
        outer: Mutex::new(&domain, Twins::default()).unwrap(),
        inner: Mutex::new(&domain, Vec::new()).unwrap(),
        both: RwLock::new(&domain, Twins::default()).unwrap(),
    };
    let counts = Counts::default();
    thread::scope(|scope| {
        for _ in 0..threads {
            scope.spawn(|| takes_turns(&locks, &counts, turns));
        }
    });
    let outer = locks.outer.into_inner();
    assert_eq!(outer.0, threads * turns + counts.tried.into_inner());
    assert_eq!(outer.0, outer.1);
    // The numbers that were met inside the outer lock came in their order.
    let met = locks.inner.into_inner();
    assert_eq!(met.len() as u64, threads * turns.div_ceil(8));
    assert!(met.is_sorted_by(|a, b| a < b));
    let both = locks.both.into_inner();
    assert_eq!((both.0, both.1), (threads * turns.div_ceil(4), both.0));
    assert_eq!(both.0, counts.written.into_inner());
}

/// In a family whose waiters halt: threads that sleep until they are kicked.
fn halting_run(threads: u64, turns: u64, spins: u32) {
    let builder = Domain::builder(Family::Pv).processors(threads as usize).mutexes(1).spins(spins);
    let value = Mutex::new(&builder.open().unwrap(), Twins::default()).unwrap();
    thread::scope(|scope| {
        for _ in 0..threads {
            scope.spawn(|| (0..turns).for_each(|turn| value.lock().grow(turn)));
        }
    });
    let value = value.into_inner();
    assert_eq!((value.0, value.1), (threads * turns, value.0));
}

#[test]
fn threads_that_halt_are_woken() {
    halting_run(4, 1000, 1);
    halting_run(4, 1000, 100);
    halting_run(16, 100, 1);
}

#[test]
fn four_threads_lose_no_turn() {
    for family in FAMILIES {
        run(family, 4, 1000);
    }
}

#[test]
fn sixteen_threads_lose_no_turn() {
    for family in FAMILIES {
        run(family, 16, 100);
    }
}
