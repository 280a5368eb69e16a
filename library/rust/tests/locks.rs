//! Each call of the locks, in each family, by one thread or two.

use std::panic::{AssertUnwindSafe, catch_unwind};
use std::thread;

use qlock::{Domain, Error, Family, Mutex, RwLock};

const FAMILIES: [Family; 3] = [Family::Virt, Family::Native, Family::Cna];

fn domain(family: Family, processors: usize) -> Domain {
    Domain::builder(family).processors(processors).mutexes(4).rw_locks(2).open().unwrap()
}

/// What another thread answers.
fn beside<R: Send>(call: impl FnOnce() -> R + Send) -> R {
    thread::scope(|scope| scope.spawn(call).join().unwrap())
}

/// What a call says when it panics.
fn said<R>(call: impl FnOnce() -> R) -> String {
    let payload = catch_unwind(AssertUnwindSafe(|| drop(call()))).expect_err("it does not panic");
    payload.downcast_ref::<String>().expect("it says something").clone()
}

#[test]
fn a_try_misses_a_mutex_that_somebody_has() {
    for family in FAMILIES {
        let domain = domain(family, 2);
        let value = Mutex::new(&domain, 1).unwrap();
        let guard = value.try_lock().expect("nobody has it");
        assert!(value.try_lock().is_none());
        assert!(beside(|| value.try_lock().is_none()));
        drop(guard);
        assert_eq!(beside(|| value.try_lock().map(|guard| *guard)), Some(1));
        *value.lock() = 2;
        assert_eq!(value.try_lock().map(|guard| *guard), Some(2));
    }
}

#[test]
fn readers_are_together_and_a_writer_is_alone() {
    for family in FAMILIES {
        let domain = domain(family, 2);
        let value = RwLock::new(&domain, 1).unwrap();
        let first = value.read();
        assert_eq!(beside(|| value.try_read().map(|guard| *guard)), Some(1));
        assert!(beside(|| value.try_write().is_none()));
        assert!(value.try_read().is_none() && value.try_write().is_none());
        drop(first);
        let writer = value.write();
        assert!(beside(|| value.try_read().is_none() && value.try_write().is_none()));
        drop(writer);
        assert!(beside(|| value.try_write().is_some() && value.try_read().is_some()));
        let second = value.try_read().expect("nobody is in it");
        assert!(beside(|| value.try_read().is_some()));
        drop(second);
        let writer = value.try_write().expect("nobody is in it");
        assert!(beside(|| value.try_read().is_none()));
        drop(writer);
    }
}

/// All orders of the numbers below four.
fn orders() -> Vec<[usize; 4]> {
    let all = (0..256).map(|number| [number & 3, number >> 2 & 3, number >> 4 & 3, number >> 6]);
    all.filter(|order| (0..4).all(|number| order.contains(&number))).collect()
}

#[test]
fn guards_are_dropped_in_any_order() {
    assert_eq!(orders().len(), 24);
    for (family, order) in
        FAMILIES.iter().flat_map(|family| orders().into_iter().map(move |order| (*family, order)))
    {
        let domain = domain(family, 2);
        let mutexes = [1, 2].map(|value| Mutex::new(&domain, value).unwrap());
        let rw_locks = [3, 4].map(|value| RwLock::new(&domain, value).unwrap());
        let free = || {
            let [first, second] = [0, 1].map(|at| mutexes[at].try_lock().is_some());
            [first, second, rw_locks[0].try_write().is_some(), rw_locks[1].try_write().is_some()]
        };
        let mut guards = [Some(mutexes[0].lock()), Some(mutexes[1].lock())];
        let mut written = Some(rw_locks[0].write());
        let mut read = Some(rw_locks[1].read());
        let mut expected = [false; 4];
        for next in order {
            assert_eq!(beside(free), expected, "{family:?} {order:?}");
            match next {
                2 => drop(written.take()),
                3 => drop(read.take()),
                mutex => drop(guards[mutex].take()),
            }
            expected[next] = true;
        }
        assert_eq!(beside(free), [true; 4], "{family:?} {order:?}");
    }
}

#[test]
fn a_thread_that_has_the_lock_does_not_wait_for_it() {
    for family in FAMILIES {
        let domain = domain(family, 2);
        let (value, both) = (Mutex::new(&domain, 1).unwrap(), RwLock::new(&domain, 1).unwrap());
        let already = "qlock: this thread has the lock already";
        let guard = value.lock();
        assert!(said(|| value.lock()).contains(already));
        assert!(beside(|| value.try_lock().is_none()));
        drop(guard);
        for guard in [Some(both.read()), None] {
            let writer = guard.is_none().then(|| both.write());
            assert!(said(|| both.read()).contains(already));
            assert!(said(|| both.write()).contains(already));
            assert!(beside(|| both.try_write().is_none()));
            drop((guard, writer));
        }
        assert!(beside(|| value.try_lock().is_some() && both.try_write().is_some()));
    }
}

#[test]
fn a_panic_frees_the_lock_and_poisons_nothing() {
    let domain = domain(Family::Native, 2);
    let (value, both) = (Mutex::new(&domain, 1).unwrap(), RwLock::new(&domain, 1).unwrap());
    let told = said(|| {
        let (mut guard, mut writer) = (value.lock(), both.write());
        *guard += 1;
        *writer += 1;
        panic!("{}", "half way");
    });
    assert_eq!(told, "half way");
    let left = || (value.try_lock().map(|guard| *guard), both.try_read().map(|guard| *guard));
    assert_eq!(beside(left), (Some(2), Some(2)));
}

#[test]
fn values_without_a_size_stand_under_a_lock() {
    let domain = domain(Family::Virt, 1);
    let numbers: Box<Mutex<[u32]>> = Box::new(Mutex::new(&domain, [1, 2, 3]).unwrap());
    numbers.lock()[1] = 5;
    assert_eq!(numbers.lock().iter().sum::<u32>(), 9);
    let shown: Box<RwLock<dyn std::fmt::Debug + Send + Sync>> =
        Box::new(RwLock::new(&domain, 7).unwrap());
    assert_eq!(format!("{:?}", shown.read()), "7");
}

#[test]
fn a_lock_shows_its_value_or_that_it_is_locked() {
    let domain = domain(Family::Cna, 1);
    let (mut value, mut both) = (Mutex::new(&domain, 1).unwrap(), RwLock::new(&domain, 1).unwrap());
    *value.get_mut() += 1;
    *both.get_mut() += 2;
    assert_eq!(format!("{value:?} {both:?}"), "Mutex { value: 2 } RwLock { value: 3 }");
    assert_eq!(beside(|| format!("{value:?}")), "Mutex { value: <no processor> }");
    let (guard, writer) = (value.lock(), both.write());
    assert_eq!(format!("{guard} {guard:?} {writer} {writer:?}"), "2 2 3 3");
    assert_eq!(
        format!("{value:?} {both:?}"),
        "Mutex { value: <locked> } RwLock { value: <locked> }"
    );
    drop((guard, writer));
    let reader = both.read();
    assert_eq!(format!("{reader} {reader:?} {both:?}"), "3 3 RwLock { value: <locked> }");
}

#[test]
fn a_lock_is_used_again_when_it_is_dropped() {
    let domain =
        Domain::builder(Family::Native).processors(1).mutexes(1).rw_locks(1).open().unwrap();
    for round in 0..100 {
        let value = Mutex::new(&domain, round).unwrap();
        let both = RwLock::new(&domain, round).unwrap();
        assert_eq!(Mutex::new(&domain, 0).err(), Some(Error::OutOfLocks { locks: 1 }));
        assert_eq!(RwLock::new(&domain, 0).err(), Some(Error::OutOfLocks { locks: 1 }));
        assert_eq!(*value.lock(), *both.write());
        assert_eq!(value.into_inner(), both.into_inner());
    }
}

#[test]
fn a_lock_whose_guard_was_forgotten_is_not_used_again() {
    let domain = Domain::builder(Family::Native).processors(2).mutexes(2).open().unwrap();
    let value = Mutex::new(&domain, 1).unwrap();
    beside(|| std::mem::forget(value.lock()));
    assert!(value.try_lock().is_none());
    drop(value);
    let other = Mutex::new(&domain, 2).unwrap();
    assert_eq!(other.try_lock().map(|guard| *guard), Some(2));
    assert_eq!(Mutex::new(&domain, 3).err(), Some(Error::OutOfLocks { locks: 2 }));
}

#[test]
fn a_domain_is_refused_where_a_number_is_out_of_range() {
    let one = |processors| Domain::builder(Family::Virt).processors(processors);
    for asked in [0, 1025, usize::MAX] {
        assert_eq!(one(asked).mutexes(1).open().err(), Some(Error::Processors { asked }));
    }
    assert_eq!(one(1).open().err(), Some(Error::Locks { asked: 0 }));
    assert_eq!(one(1).mutexes(4000).rw_locks(97).open().err(), Some(Error::Locks { asked: 4097 }));
    let asked = usize::MAX;
    assert_eq!(one(1).mutexes(asked).rw_locks(2).open().err(), Some(Error::Locks { asked }));
    assert_eq!(Error::Locks { asked: 0 }.to_string(), "0 locks: a domain has 1 to 4096");
    assert_eq!(Error::Processors { asked: 1025 }.to_string(), "1025 processors: a domain has 1 to 1024");
    assert!(one(1024).mutexes(16).rw_locks(16).open().is_ok());
}

#[test]
fn a_thread_has_any_of_the_locks_of_a_large_domain() {
    let domain = Domain::builder(Family::Native).processors(2).mutexes(4096).open().unwrap();
    let locks: Vec<_> = (0..4096).map(|value| Mutex::new(&domain, value).unwrap()).collect();
    let all: Vec<_> = locks.iter().map(|lock| lock.lock()).collect();
    assert_eq!(all.iter().map(|value| **value).sum::<usize>(), 4095 * 2048);
    std::thread::scope(|scope| {
        let other = scope.spawn(|| locks.iter().all(|lock| lock.try_lock().is_none()));
        assert!(other.join().unwrap());
    });
    drop(all);
    assert!(locks.iter().all(|lock| lock.try_lock().is_some()));
}

#[test]
fn a_lock_outlives_its_domain() {
    let domain = domain(Family::Native, 1);
    let value = Mutex::new(&domain, vec![1]).unwrap();
    drop(domain);
    value.lock().push(2);
    assert_eq!(value.into_inner(), [1, 2]);
}
