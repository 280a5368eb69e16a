// The locks of `lk_run` and `lk_pvdomain` in plain Rust, over atomic words and by the same steps, and the Mutex and the RwLock of std:
// to compare the speed of `lk_race`, whose words and answers these are. `bench/race.py` compiles and runs it.
// race virt|native|cna|std bare|rwbare THREADS TURNS 0
// race virt|native|cna|std spin8|spin|spin1024|rw THREADS TURNS WORK
// race pv bare|spin8|spin|spin1024 THREADS TURNS WORK [SPINS]
mod race_pv;
mod race_rw;
mod race_values;

use std::hint::spin_loop;
use std::sync::atomic::{AtomicU64, Ordering::SeqCst};
use std::time::Duration;

// As the words of a domain, which stand in lines of the cache of their own.
#[derive(Default)]
#[repr(align(64))]
struct Word(AtomicU64);

// As `Backoff` of crossbeam_utils.
struct Backoff(u32);

impl Backoff {
    fn snooze(&mut self) {
        if self.0 <= 6 {
            for _ in 0..1 << self.0 {
                spin_loop();
            }
        } else {
            std::thread::yield_now();
        }
        if self.0 <= 10 {
            self.0 += 1;
        }
    }
}

// A processor, and how many of its calls are in a queue.
struct Cpu {
    number: u64,
    queued: u64,
}

trait Spin: Sync {
    fn lock(&self, cpu: &mut Cpu);
    fn unlock(&self);
}

// The test-and-set lock.
#[derive(Default)]
struct TestAndSet(Word);

fn swap(word: &Word) -> bool {
    word.0.compare_exchange(0, 1, SeqCst, SeqCst).is_ok()
}

#[inline(never)]
fn wait(word: &Word) {
    let mut backoff = Backoff(0);
    loop {
        if word.0.load(SeqCst) == 0 {
            if swap(word) {
                return;
            }
        } else {
            backoff.snooze();
        }
    }
}

impl Spin for TestAndSet {
    #[inline]
    fn lock(&self, _cpu: &mut Cpu) {
        if !swap(&self.0) {
            wait(&self.0);
        }
    }

    #[inline]
    fn unlock(&self) {
        self.0.0.fetch_sub(1, SeqCst);
    }
}

// The queued lock: bit 0 is locked, bit 8 is pending, and the bits from 16 on name the node at the tail, whose number is raised by four.
const LOCKED: u64 = 1;
const PENDING: u64 = 1 << 8;
const LOW: u64 = (1 << 16) - 1;

fn tail(node: u64) -> u64 {
    (node + 4) << 16
}

// What a flag is: a number above GO names the first node of a secondary queue, as a link does, by its number raised by two.
const UNSET: u64 = 0;
const GO: u64 = 1;

// A node of a processor, which has four of them: whether it leads, and its successor; and what a queue head that chooses notes in it:
// the last of the secondary queue whose first it is, and how many handoffs were made since that queue is not empty.
#[derive(Default)]
#[repr(align(32))]
struct Node {
    flag: AtomicU64,
    next: AtomicU64,
    second_tail: AtomicU64,
    runs: AtomicU64,
}

// A queued lock, in the compact form of Dice and Kogan where CHOOSES.
struct Queue<const CHOOSES: bool> {
    word: Word,
    nodes: Vec<Node>,
}

// Two sockets, whose processors take turns.
const THRESHOLD: u64 = 16;

fn socket(node: u64) -> u64 {
    node / 4 % 2
}

impl<const CHOOSES: bool> Queue<CHOOSES> {
    fn new(cpus: u32) -> Self {
        Queue { word: Word::default(), nodes: (0..4 * cpus).map(|_| Node::default()).collect() }
    }

    fn next_of(&self, node: u64) -> Option<u64> {
        self.nodes[node as usize].next.load(SeqCst).checked_sub(2)
    }

    fn link(&self, node: u64, next: Option<u64>) {
        self.nodes[node as usize].next.store(next.map_or(0, |next| next + 2), SeqCst);
    }

    #[inline(never)]
    fn contend(&self, cpu: &mut Cpu, mut met: u64) {
        let word = &self.word.0;
        if met == PENDING {
            met = word.load(SeqCst);
        }
        if met & !255 == 0 {
            met = word.fetch_or(PENDING, SeqCst);
            if met & !255 == 0 {
                let mut backoff = Backoff(0);
                if met & 255 != 0 {
                    while word.load(SeqCst) & 255 != 0 {
                        backoff.snooze();
                    }
                }
                word.fetch_sub(PENDING - LOCKED, SeqCst);
                return;
            }
            if met & PENDING == 0 {
                word.fetch_sub(PENDING, SeqCst);
            }
        }
        cpu.queued += 1;
        if cpu.queued <= 4 {
            self.queue(4 * cpu.number + cpu.queued - 1);
        } else {
            wait(&self.word);
        }
        cpu.queued -= 1;
    }

    fn queue(&self, own: u64) {
        let (word, node) = (&self.word.0, &self.nodes[own as usize]);
        node.flag.store(UNSET, SeqCst);
        if CHOOSES {
            node.second_tail.store(0, SeqCst);
            node.runs.store(0, SeqCst);
        }
        node.next.store(0, SeqCst);
        let mut met = word.load(SeqCst);
        if met == 0 {
            match word.compare_exchange(0, LOCKED, SeqCst, SeqCst) {
                Ok(_) => return,
                Err(now) => met = now,
            }
        }
        while let Err(now) = word.compare_exchange(met, met & LOW | tail(own), SeqCst, SeqCst) {
            met = now;
        }
        let mut flag = UNSET;
        if met >> 16 != 0 {
            self.link((met >> 16) - 4, Some(own));
            let mut backoff = Backoff(0);
            while flag == UNSET {
                flag = node.flag.load(SeqCst);
                if flag == UNSET {
                    backoff.snooze();
                }
            }
        }
        let mut backoff = Backoff(0);
        let alone = loop {
            met = word.load(SeqCst);
            if met & LOW == 0 {
                break met == tail(own) && flag <= GO;
            }
            backoff.snooze();
        };
        if alone && word.compare_exchange(tail(own), LOCKED, SeqCst, SeqCst).is_ok() {
            return;
        }
        word.fetch_add(LOCKED, SeqCst);
        if CHOOSES {
            self.choose(own, flag.checked_sub(2));
        } else {
            let mut backoff = Backoff(0);
            loop {
                match self.next_of(own) {
                    None => backoff.snooze(),
                    Some(next) => return self.nodes[next as usize].flag.store(GO, SeqCst),
                }
            }
        }
    }

    // Hands off to the successor, and with it what that has to know of the secondary queue.
    fn hand(&self, next: u64, second: Option<u64>, runs: u64) {
        let node = &self.nodes[next as usize];
        node.runs.store(if second.is_some() { runs + 1 } else { 0 }, SeqCst);
        node.flag.store(second.map_or(GO, |second| second + 2), SeqCst);
    }

    // The secondary queue returns before the rest, which begins with this node.
    fn flush(&self, second: u64, rest: u64) {
        let last = self.nodes[second as usize].second_tail.load(SeqCst) - 2;
        self.link(last, Some(rest));
        self.hand(second, None, 0);
    }

    fn choose(&self, own: u64, second: Option<u64>) {
        let runs = self.nodes[own as usize].runs.load(SeqCst);
        let mut backoff = Backoff(0);
        let first = loop {
            match (self.next_of(own), second) {
                (Some(first), _) => break first,
                (None, Some(second)) => {
                    let last = self.nodes[second as usize].second_tail.load(SeqCst) - 2;
                    let (mine, all) = (tail(own) | LOCKED, tail(last) | LOCKED);
                    if self.word.0.compare_exchange(mine, all, SeqCst, SeqCst).is_ok() {
                        return self.hand(second, None, 0);
                    }
                }
                (None, None) => backoff.snooze(),
            }
        };
        if runs >= THRESHOLD {
            return match second {
                Some(second) => self.flush(second, first),
                None => self.hand(first, None, 0),
            };
        }
        if socket(first) == socket(own) {
            return self.hand(first, second, runs);
        }
        let mut last = first;
        while let Some(next) = self.next_of(last) {
            if socket(next) == socket(own) {
                self.move_aside(first, last, second);
                return self.hand(next, second.or(Some(first)), runs);
            }
            last = next;
        }
        match second {
            Some(second) => self.flush(second, first),
            None => self.hand(first, None, 0),
        }
    }

    // Those from the first to the last go to the end of the secondary queue.
    fn move_aside(&self, first: u64, last: u64, second: Option<u64>) {
        if let Some(second) = second {
            let behind = self.nodes[second as usize].second_tail.load(SeqCst) - 2;
            self.link(behind, Some(first));
        }
        self.link(last, None);
        let second = second.unwrap_or(first);
        self.nodes[second as usize].second_tail.store(last + 2, SeqCst);
    }
}

impl<const CHOOSES: bool> Spin for Queue<CHOOSES> {
    #[inline]
    fn lock(&self, cpu: &mut Cpu) {
        if let Err(met) = self.word.0.compare_exchange(0, LOCKED, SeqCst, SeqCst) {
            self.contend(cpu, met);
        }
    }

    #[inline]
    fn unlock(&self) {
        self.word.0.fetch_sub(LOCKED, SeqCst);
    }
}

// The reader-writer lock with its wait lock: the low byte is the writer's, bit 8 is waiting, and the bits from 9 on count readers.
const WRITER: u64 = 255;
const WAITING: u64 = 1 << 8;
const READER: u64 = 1 << 9;

struct Shared<L> {
    word: Word,
    wait: L,
}

impl<L: Spin> Shared<L> {
    #[inline]
    fn read(&self, cpu: &mut Cpu) {
        if self.word.0.fetch_add(READER, SeqCst) % READER != 0 {
            self.wait_as_reader(cpu);
        }
    }

    #[inline]
    fn read_unlock(&self) {
        self.word.0.fetch_sub(READER, SeqCst);
    }

    #[inline(never)]
    fn wait_as_reader(&self, cpu: &mut Cpu) {
        self.word.0.fetch_sub(READER, SeqCst);
        self.wait.lock(cpu);
        self.word.0.fetch_add(READER, SeqCst);
        let mut backoff = Backoff(0);
        while self.word.0.load(SeqCst) & WRITER != 0 {
            backoff.snooze();
        }
        self.wait.unlock();
    }

    #[inline]
    fn write(&self, cpu: &mut Cpu) {
        if self.word.0.compare_exchange(0, WRITER, SeqCst, SeqCst).is_err() {
            self.wait_as_writer(cpu);
        }
    }

    #[inline]
    fn write_unlock(&self) {
        self.word.0.fetch_sub(WRITER, SeqCst);
    }

    #[inline(never)]
    fn wait_as_writer(&self, cpu: &mut Cpu) {
        let word = &self.word.0;
        self.wait.lock(cpu);
        if word.load(SeqCst) != 0 || word.compare_exchange(0, WRITER, SeqCst, SeqCst).is_err() {
            word.fetch_or(WAITING, SeqCst);
            let mut backoff = Backoff(0);
            while word.load(SeqCst) != WAITING || word.compare_exchange(WAITING, WRITER, SeqCst, SeqCst).is_err() {
                backoff.snooze();
            }
        }
        self.wait.unlock();
    }
}

fn tell(turns: u64, numbers: &[u64], right: bool, time: Duration) {
    let numbers: Vec<String> = numbers.iter().map(u64::to_string).collect();
    println!("turns {turns}");
    println!("numbers {}", numbers.join(" "));
    println!("{}", if right { "right" } else { "wrong" });
    eprintln!("{} microseconds", time.as_micros());
}

fn main() {
    let words: Vec<String> = std::env::args().collect();
    let [_, mode, kind, rest @ ..] = &words[..] else { panic!("no mode and kind") };
    let numbers: Vec<u32> = rest.iter().map(|word| word.parse().unwrap()).collect();
    let [threads, turns, ref spins @ ..] = numbers[..] else { panic!("two numbers") };
    let spins = spins.first().copied().unwrap_or(32768);
    let work = u16::from(!kind.ends_with("bare"));
    match kind.as_str() {
        "spin8" => race_values::race(mode, 0u64, threads, turns, work, spins),
        "bare" | "spin" => race_values::race(mode, [0u64; 2], threads, turns, work, spins),
        "spin1024" => race_values::race(mode, [0u64; 128], threads, turns, work, spins),
        "rw" | "rwbare" => race_rw::race(mode, threads, turns, work),
        _ => panic!("another kind"),
    }
}
