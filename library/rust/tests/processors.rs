//! Threads and their processors: each has one at a time, and gives it back.

use std::cell::RefCell;
use std::panic::{AssertUnwindSafe, catch_unwind};
use std::sync::mpsc::{Sender, channel};
use std::thread;

use qlock::{Domain, Error, Family, Mutex, MutexGuard};

fn domain(processors: usize) -> Domain {
    Domain::builder(Family::Native).processors(processors).mutexes(2).open().unwrap()
}

fn beside<R: Send>(call: impl FnOnce() -> R + Send) -> R {
    thread::scope(|scope| scope.spawn(call).join().unwrap())
}

/// What a call says when it panics.
fn said<R>(call: impl FnOnce() -> R) -> String {
    let payload = catch_unwind(AssertUnwindSafe(|| drop(call()))).expect_err("it does not panic");
    payload.downcast_ref::<String>().expect("it says something").clone()
}

#[test]
fn a_thread_gives_its_processor_back_when_it_ends() {
    let domain = domain(2);
    let count = Mutex::new(&domain, 0).unwrap();
    for _ in 0..100 {
        thread::scope(|scope| {
            let both = [0; 2].map(|_| scope.spawn(|| *count.lock() += 1));
            for one in both {
                one.join().unwrap();
            }
        });
    }
    assert_eq!(count.into_inner(), 200);
}

#[test]
fn a_thread_that_registers_gives_its_processor_back_before_it_ends() {
    let domain = domain(1);
    let count = Mutex::new(&domain, 0).unwrap();
    for _ in 0..100 {
        thread::scope(|scope| {
            scope.spawn(|| {
                let (first, second) = (domain.register().unwrap(), domain.register().unwrap());
                *count.lock() += 1;
                drop(first);
                assert!(beside(|| domain.register().is_err()));
                drop(second);
                assert_eq!(beside(|| domain.register().map(|own| own.number())), Ok(0));
            });
        });
    }
    assert_eq!(count.into_inner(), 100);
}

#[test]
fn a_thread_too_many_is_told_how_many_processors_there_are() {
    let domain = domain(2);
    let value = Mutex::new(&domain, 0).unwrap();
    let refused = Error::OutOfProcessors { processors: 2, socket: None };
    let why = "the domain has 2 processors, and all are in use";
    assert_eq!(refused.to_string(), why);
    let first = domain.register().unwrap();
    assert_eq!((first.number(), domain.register().unwrap().number()), (0, 0));
    beside(|| {
        let second = domain.register().unwrap();
        assert_eq!(second.number(), 1);
        assert_eq!(beside(|| domain.register().err()), Some(refused));
        let told = format!("qlock: this thread has no processor: {why}");
        assert_eq!(beside(|| said(|| value.lock())), told);
        assert_eq!(beside(|| said(|| value.try_lock())), told);
        *value.lock() += 1;
    });
    assert_eq!(beside(|| *value.lock()), 1);
    drop(first);
    assert_eq!(beside(|| beside(|| *value.lock())), 1);
}

#[test]
fn a_thread_takes_a_processor_of_a_socket() {
    let domain =
        Domain::builder(Family::Cna).sockets(&[3, 5, 3]).threshold(8).mutexes(1).open().unwrap();
    let own = domain.register_on(5).unwrap();
    assert_eq!((own.number(), own.socket()), (1, 5));
    assert_eq!(domain.register_on(3).err(), Some(Error::OtherSocket { socket: 5 }));
    let refused =
        |processors, socket| Some(Error::OutOfProcessors { processors, socket: Some(socket) });
    beside(|| {
        assert_eq!(domain.register_on(5).err(), refused(1, 5));
        assert_eq!(domain.register_on(4).err(), refused(0, 4));
        assert_eq!(domain.register_on(3).unwrap().socket(), 3);
        let why = "the domain has 0 processors on socket 4, and all are in use";
        assert_eq!(refused(0, 4).unwrap().to_string(), why);
    });
    drop(own);
    assert_eq!(beside(|| domain.register_on(5).map(|own| own.number())), Ok(1));
}

#[test]
fn a_processor_stays_while_its_thread_has_a_lock() {
    let domain = domain(1);
    let value = Mutex::new(&domain, 0).unwrap();
    beside(|| {
        let own = domain.register().unwrap();
        let guard = value.lock();
        assert!(own.has_locks());
        drop(own);
        // The thread still has the same processor, so it does not wait for itself.
        assert!(value.try_lock().is_none());
        assert!(beside(|| domain.register().is_err()));
        drop(guard);
        assert!(value.try_lock().is_some());
    });
    assert!(beside(|| domain.register().is_ok()));
}

#[test]
fn a_processor_whose_guard_was_forgotten_goes_to_nobody() {
    let domain = domain(2);
    let value = Mutex::new(&domain, 0).unwrap();
    beside(|| std::mem::forget(value.lock()));
    beside(|| {
        let own = domain.register().unwrap();
        assert!(!own.has_locks());
        assert!(beside(|| domain.register().is_err()));
    });
}

thread_local! {
    static KEPT: RefCell<Option<MutexGuard<'static, i32>>> = const { RefCell::new(None) };
}

// A guard that a thread keeps until its thread-locals are dropped, before its registration or after
// it.
#[test]
fn a_guard_that_is_dropped_last_gives_the_processor_back() {
    for is_kept_first in [true, false] {
        let domain = domain(1);
        let value: &'static Mutex<i32> = Box::leak(Box::new(Mutex::new(&domain, 0).unwrap()));
        for round in 0..3 {
            let ended = thread::spawn(move || {
                if is_kept_first {
                    KEPT.with(|kept| drop(kept.take()));
                }
                let mut guard = value.lock();
                assert_eq!(*guard, round);
                *guard += 1;
                KEPT.with(|kept| kept.replace(Some(guard)));
            });
            ended.join().expect("the processor is back, and the lock is free");
        }
    }
}

/// Says when it is dropped whether its thread can register.
struct Asks(Domain, Sender<Option<Error>>);

impl Drop for Asks {
    fn drop(&mut self) {
        self.1.send(self.0.register().err()).unwrap();
    }
}

thread_local! {
    static ASKS: RefCell<Option<Asks>> = const { RefCell::new(None) };
}

// Thread-locals are dropped in an order that std chooses: so one is used first before the thread
// registers, and one after it. One of the two is dropped behind the registrations.
#[test]
fn a_thread_whose_registration_has_ended_gets_no_processor() {
    let domain = domain(1);
    let answers = [true, false].map(|is_asked_first| {
        let (tell, told) = channel();
        let asks = Asks(domain.clone(), tell);
        let ended = thread::spawn(move || {
            let registers = |asks: &Asks| drop(asks.0.register().unwrap());
            if is_asked_first {
                ASKS.with(|kept| registers(kept.borrow_mut().insert(asks)));
            } else {
                registers(&asks);
                ASKS.with(|kept| kept.replace(Some(asks)));
            }
        });
        ended.join().unwrap();
        told.recv().unwrap()
    });
    assert!(answers.contains(&Some(Error::ThreadEnds)), "{answers:?}");
    assert!(beside(|| domain.register().is_ok()));
}

#[test]
fn a_thread_has_processors_of_many_domains() {
    let all: Vec<Domain> = (0..20).map(|_| domain(1)).collect();
    let values: Vec<Mutex<usize>> =
        all.iter().map(|domain| Mutex::new(domain, 0).unwrap()).collect();
    let guards: Vec<MutexGuard<usize>> = values.iter().map(|value| value.lock()).collect();
    assert!(values.iter().all(|value| value.try_lock().is_none()));
    assert!(beside(|| all.iter().all(|domain| domain.register().is_err())));
    drop(guards);
    drop(all);
    assert!(values.iter().all(|value| value.try_lock().is_some()));
    // Domains come and go, and the thread keeps none of them.
    for _ in 0..1000 {
        let value = Mutex::new(&domain(1), 1).unwrap();
        assert_eq!(*value.lock(), 1);
    }
}
