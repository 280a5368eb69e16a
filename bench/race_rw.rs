// Two numbers under the reader-writer locks of race.rs, in an UnsafeCell: readers share them in place, and the writer alone changes them.
// The same under std's RwLock.
use super::race_values::Value;
use super::{Cpu, Queue, Shared, Spin, TestAndSet, Word, tell};
use std::cell::UnsafeCell;
use std::sync::RwLock;
use std::time::Instant;

type Pair = [u64; 2];

trait Guarded: Sync {
    fn read<U>(&self, cpu: &mut Cpu, work: impl FnOnce(&Pair) -> U) -> U;
    fn write(&self, cpu: &mut Cpu, work: impl FnOnce(&mut Pair));
    fn into_value(self) -> Pair;
}

struct Under<L> {
    lock: Shared<L>,
    value: UnsafeCell<Pair>,
}

// The value is changed by who holds the lock as the writer, and read by who holds it as a reader.
unsafe impl<L: Sync> Sync for Under<L> {}

impl<L: Spin> Guarded for Under<L> {
    #[inline]
    fn read<U>(&self, cpu: &mut Cpu, work: impl FnOnce(&Pair) -> U) -> U {
        self.lock.read(cpu);
        let done = work(unsafe { &*self.value.get() });
        self.lock.read_unlock();
        done
    }

    #[inline]
    fn write(&self, cpu: &mut Cpu, work: impl FnOnce(&mut Pair)) {
        self.lock.write(cpu);
        work(unsafe { &mut *self.value.get() });
        self.lock.write_unlock();
    }

    fn into_value(self) -> Pair {
        self.value.into_inner()
    }
}

impl Guarded for RwLock<Pair> {
    #[inline]
    fn read<U>(&self, _cpu: &mut Cpu, work: impl FnOnce(&Pair) -> U) -> U {
        work(&self.read().unwrap())
    }

    #[inline]
    fn write(&self, _cpu: &mut Cpu, work: impl FnOnce(&mut Pair)) {
        work(&mut self.write().unwrap());
    }

    fn into_value(self) -> Pair {
        self.into_inner().unwrap()
    }
}

#[inline]
fn are_one(numbers: &Pair, times: u16) -> bool {
    let mut one = true;
    for _ in 0..times {
        one = one && numbers[0] == numbers[1];
    }
    one
}

// All turns of a thread: the last of a hundred writes, and the others read. Whether the numbers were always one.
fn take_turns(guarded: &impl Guarded, mut cpu: Cpu, turns: u32, work: u16) -> bool {
    let mut one = true;
    for turn in 0..turns {
        if turn % 100 == 99 {
            guarded.write(&mut cpu, |numbers| numbers.change(work));
        } else {
            one = guarded.read(&mut cpu, |numbers| are_one(numbers, work)) && one;
        }
    }
    one
}

fn run(guarded: impl Guarded, threads: u32, turns: u32, work: u16) {
    let start = Instant::now();
    let one = std::thread::scope(|scope| {
        let mut started = Vec::new();
        for number in 0..u64::from(threads) {
            let guarded = &guarded;
            started.push(scope.spawn(move || take_turns(guarded, Cpu { number, queued: 0 }, turns, work)));
        }
        started.into_iter().fold(true, |one, thread| thread.join().unwrap() && one)
    });
    let time = start.elapsed();
    let wanted = u64::from(threads) * u64::from(turns / 100) * u64::from(work);
    let numbers = guarded.into_value();
    tell(u64::from(threads) * u64::from(turns), &numbers, one && numbers == [wanted; 2], time);
}

fn under<L: Spin>(wait: L) -> Under<L> {
    Under { lock: Shared { word: Word::default(), wait }, value: UnsafeCell::default() }
}

pub fn race(mode: &str, threads: u32, turns: u32, work: u16) {
    match mode {
        "virt" => run(under(TestAndSet::default()), threads, turns, work),
        "native" => run(under(Queue::<false>::new(threads)), threads, turns, work),
        "cna" => run(under(Queue::<true>::new(threads)), threads, turns, work),
        "std" => run(RwLock::default(), threads, turns, work),
        _ => panic!("another mode"),
    }
}
