//! native CPUS ROUNDS [alike]
//!
//! The native lock of docs/ROWS.md in plain Rust, for a comparison of speed: one lock, and processors that acquire and release it so many
//! times. A state has what a state of `./qlock explore` has, and what nobody reads before it is written is at rest, so there are as many.
//! They are met level by level. It writes how many there are, how many acts lead from one to another, and how many acts the deepest takes.
//! With `alike`, states that differ only in the numbers of processors are one, since all processors do the same: each state is kept with
//! its processors sorted by what they do. Two that do the same may still stand in either order, so there may be a few too many.
use std::env;

const MOST: usize = 8;

#[derive(Clone, Copy, PartialEq, Eq)]
enum Row {
    F1, U1, P0, P1, P2, P3, P4, G1, G2, G3, G4, G5, G6, G7, G8, G9, G10, G11, Done,
}
use Row::*;

/// A processor. Another one is named by one more than its number, and 0 is none.
#[derive(Clone, Copy, PartialEq, Eq)]
struct Cpu {
    row: Row,
    at: u8,
    has_node: bool,
    prev: u8,
    y: u8,
    flag: bool,
    next: u8,
}

#[derive(Clone, Copy, PartialEq, Eq)]
struct State {
    locked: bool,
    pending: bool,
    tail: u8,
    cpus: [Cpu; MOST],
}

impl State {
    fn is_free(&self) -> bool {
        !self.locked && !self.pending && self.tail == 0
    }

    fn to_queue(&self) -> Row {
        if self.pending || self.tail != 0 { G1 } else { P1 }
    }

    /// The operation of a processor is done: it goes on at the next.
    fn done(&mut self, p: usize, rounds: u8) {
        let cpu = &mut self.cpus[p];
        cpu.at += 1;
        cpu.row = if cpu.at == 2 * rounds { Done } else if cpu.at % 2 == 0 { F1 } else { U1 };
    }

    fn leave(&mut self, p: usize, rounds: u8) {
        self.cpus[p].has_node = false;
        self.done(p, rounds);
    }

    fn step(&mut self, p: usize, rounds: u8) {
        let me = p as u8 + 1;
        let cpu = self.cpus[p];
        let next = match cpu.row {
            F1 if self.is_free() => {
                self.locked = true;
                return self.done(p, rounds);
            }
            F1 if !self.locked && self.pending && self.tail == 0 => P0,
            F1 | P0 => self.to_queue(),
            P1 => {
                let row = if self.pending { G1 } else if self.tail != 0 { P2 } else if self.locked { P3 } else { P4 };
                self.pending = true;
                row
            }
            P2 => {
                self.pending = false;
                G1
            }
            P3 => if self.locked { P3 } else { P4 },
            P4 => {
                (self.locked, self.pending) = (true, false);
                return self.done(p, rounds);
            }
            U1 => {
                self.locked = false;
                return self.done(p, rounds);
            }
            G1 => {
                (self.cpus[p].has_node, self.cpus[p].flag, self.cpus[p].next) = (true, false, 0);
                G2
            }
            G2 => if self.is_free() { G3 } else { G4 },
            G3 if self.is_free() => {
                self.locked = true;
                return self.leave(p, rounds);
            }
            G3 => G4,
            G4 => {
                let old = self.tail;
                self.tail = me;
                if old == 0 {
                    G7
                } else {
                    self.cpus[p].prev = old;
                    G5
                }
            }
            G5 => {
                self.cpus[cpu.prev as usize - 1].next = me;
                G6
            }
            G6 => if cpu.flag { G7 } else { G6 },
            G7 if self.locked || self.pending => G7,
            G7 => if self.tail == me { G8 } else { G9 },
            G8 if !self.locked && !self.pending && self.tail == me => {
                (self.locked, self.tail) = (true, 0);
                return self.leave(p, rounds);
            }
            G8 => G9,
            G9 => {
                self.locked = true;
                G10
            }
            G10 if cpu.next == 0 => G10,
            G10 => {
                self.cpus[p].y = cpu.next;
                G11
            }
            G11 => {
                self.cpus[cpu.y as usize - 1].flag = true;
                return self.leave(p, rounds);
            }
            Done => Done,
        };
        self.cpus[p].row = next;
    }

    /// Sets at rest what no row reads of a processor before one writes it.
    fn rest(&mut self, p: usize) {
        let cpu = &mut self.cpus[p];
        if cpu.row != G5 {
            cpu.prev = 0;
        }
        if cpu.row != G11 {
            cpu.y = 0;
        }
        if !cpu.has_node {
            (cpu.flag, cpu.next) = (false, 0);
        }
    }

    /// What a processor does by itself: without the names of others, and whether the queue ends at it.
    fn alone(&self, p: usize) -> [u8; 8] {
        let cpu = self.cpus[p];
        let ends = self.tail == p as u8 + 1;
        let bits = [cpu.has_node, cpu.prev != 0, cpu.y != 0, cpu.flag, cpu.next != 0, ends].map(u8::from);
        [cpu.row as u8, cpu.at, bits[0], bits[1], bits[2], bits[3], bits[4], bits[5]]
    }

    /// What the processor of this name does by itself.
    fn named(&self, name: u8) -> [u8; 8] {
        if name == 0 { [0; 8] } else { self.alone(name as usize - 1) }
    }

    /// The state with its processors sorted by what they do, and all names new.
    fn sorted(&self, cpus: usize) -> State {
        let mut order: Vec<usize> = (0..cpus).collect();
        order.sort_by_key(|&p| {
            let cpu = self.cpus[p];
            [self.alone(p), self.named(cpu.prev), self.named(cpu.y), self.named(cpu.next)]
        });
        let mut names = [0; MOST + 1];
        for (place, &p) in order.iter().enumerate() {
            names[p + 1] = place as u8 + 1;
        }
        let mut state = State { tail: names[self.tail as usize], ..*self };
        for (place, &p) in order.iter().enumerate() {
            let cpu = self.cpus[p];
            let (prev, y, next) = (names[cpu.prev as usize], names[cpu.y as usize], names[cpu.next as usize]);
            state.cpus[place] = Cpu { prev, y, next, ..cpu };
        }
        state
    }

    fn hash(&self, cpus: usize) -> u64 {
        let mut hash = self.tail as u64 + 16 * self.locked as u64 + 32 * self.pending as u64;
        for cpu in &self.cpus[..cpus] {
            let word = [cpu.row as u8, cpu.at, cpu.has_node as u8, cpu.prev, cpu.y, cpu.flag as u8, cpu.next, 0];
            hash = (hash.rotate_left(5) ^ u64::from_le_bytes(word)).wrapping_mul(0x517c_c1b7_2722_0a95);
        }
        hash ^ (hash >> 29)
    }
}

/// The states that were met, and a table of their numbers.
struct Met {
    states: Vec<State>,
    slots: Vec<u32>,
    cpus: usize,
}

impl Met {
    fn note(&mut self, state: State) -> u32 {
        let mut at = state.hash(self.cpus) as usize & (self.slots.len() - 1);
        while self.slots[at] != 0 {
            if self.states[self.slots[at] as usize - 1] == state {
                return self.slots[at] - 1;
            }
            at = (at + 1) & (self.slots.len() - 1);
        }
        self.states.push(state);
        self.slots[at] = self.states.len() as u32;
        if 2 * self.states.len() > self.slots.len() {
            self.grow();
        }
        self.states.len() as u32 - 1
    }

    fn grow(&mut self) {
        let mut slots = vec![0u32; 2 * self.slots.len()];
        for (number, state) in self.states.iter().enumerate() {
            let mut at = state.hash(self.cpus) as usize & (slots.len() - 1);
            while slots[at] != 0 {
                at = (at + 1) & (slots.len() - 1);
            }
            slots[at] = number as u32 + 1;
        }
        self.slots = slots;
    }
}

fn main() {
    let words: Vec<String> = env::args().skip(1).collect();
    let number = |at: usize| words[at].parse::<usize>().expect("a number");
    let (cpus, rounds, alike) = (number(0), number(1) as u8, words.get(2).is_some_and(|word| word == "alike"));
    let rest = Cpu { row: F1, at: 0, has_node: false, prev: 0, y: 0, flag: false, next: 0 };
    let first = State { locked: false, pending: false, tail: 0, cpus: [rest; MOST] };
    let mut met = Met { states: vec![], slots: vec![0; 1024], cpus };
    met.note(first);
    let (mut edges, mut levels): (Vec<(u32, u32)>, Vec<u16>) = (vec![], vec![0]);
    let mut left = 0;
    while left < met.states.len() {
        for p in 0..cpus {
            let mut state = met.states[left];
            state.step(p, rounds);
            state.rest(p);
            let then = met.note(if alike { state.sorted(cpus) } else { state });
            if then as usize == levels.len() {
                levels.push(levels[left] + 1);
            }
            if then as usize != left {
                edges.push((left as u32, then));
            }
        }
        left += 1;
    }
    println!("states {}\nedges {}\ndeepest {}", met.states.len(), edges.len(), levels[levels.len() - 1]);
}
