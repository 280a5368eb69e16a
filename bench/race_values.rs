// Values under the spinlocks of race.rs, each in an UnsafeCell which the holder alone reaches, and under std's Mutex.
use super::race_pv::Paravirtual;
use super::{Cpu, Queue, Spin, TestAndSet, tell};
use std::cell::UnsafeCell;
use std::sync::Mutex;
use std::time::Instant;

// A value with numbers that are changed together.
pub trait Value: Send {
    fn change(&mut self, times: u16);
    fn numbers(&self) -> &[u64];
}

impl Value for u64 {
    #[inline]
    fn change(&mut self, times: u16) {
        for _ in 0..times {
            *self = self.wrapping_add(1);
        }
    }

    fn numbers(&self) -> &[u64] {
        std::slice::from_ref(self)
    }
}

impl Value for [u64; 2] {
    #[inline]
    fn change(&mut self, times: u16) {
        for _ in 0..times {
            self[0] = self[0].wrapping_add(1);
            self[1] = self[1].wrapping_add(1);
        }
    }

    fn numbers(&self) -> &[u64] {
        self
    }
}

// One number at the head of 1 KiB.
impl Value for [u64; 128] {
    #[inline]
    fn change(&mut self, times: u16) {
        self[0].change(times);
    }

    fn numbers(&self) -> &[u64] {
        &self[..1]
    }
}

trait Guarded<V>: Sync {
    fn with(&self, cpu: &mut Cpu, work: impl FnOnce(&mut V));
    fn into_value(self) -> V;
}

struct Under<L, V> {
    lock: L,
    value: UnsafeCell<V>,
}

// The value is reached by who holds the lock.
unsafe impl<L: Sync, V: Send> Sync for Under<L, V> {}

impl<L: Spin, V: Send> Guarded<V> for Under<L, V> {
    #[inline]
    fn with(&self, cpu: &mut Cpu, work: impl FnOnce(&mut V)) {
        self.lock.lock(cpu);
        work(unsafe { &mut *self.value.get() });
        self.lock.unlock();
    }

    fn into_value(self) -> V {
        self.value.into_inner()
    }
}

impl<V: Send> Guarded<V> for Mutex<V> {
    #[inline]
    fn with(&self, _cpu: &mut Cpu, work: impl FnOnce(&mut V)) {
        work(&mut self.lock().unwrap());
    }

    fn into_value(self) -> V {
        self.into_inner().unwrap()
    }
}

fn run<V: Value>(guarded: impl Guarded<V>, threads: u32, turns: u32, work: u16) {
    let start = Instant::now();
    std::thread::scope(|scope| {
        for number in 0..u64::from(threads) {
            let guarded = &guarded;
            scope.spawn(move || {
                let mut cpu = Cpu { number, queued: 0 };
                for _ in 0..turns {
                    guarded.with(&mut cpu, |value| value.change(work));
                }
            });
        }
    });
    let time = start.elapsed();
    let wanted = u64::from(threads) * u64::from(turns) * u64::from(work);
    let value = guarded.into_value();
    let right = value.numbers().iter().all(|number| *number == wanted);
    tell(u64::from(threads) * u64::from(turns), value.numbers(), right, time);
}

pub fn race(mode: &str, value: impl Value, threads: u32, turns: u32, work: u16, spins: u32) {
    let cell = UnsafeCell::new(value);
    match mode {
        "virt" => run(Under { lock: TestAndSet::default(), value: cell }, threads, turns, work),
        "native" => run(Under { lock: Queue::<false>::new(threads), value: cell }, threads, turns, work),
        "cna" => run(Under { lock: Queue::<true>::new(threads), value: cell }, threads, turns, work),
        "pv" => run(Under { lock: Paravirtual::new(threads, spins), value: cell }, threads, turns, work),
        "std" => run(Mutex::new(cell.into_inner()), threads, turns, work),
        _ => panic!("another mode"),
    }
}
