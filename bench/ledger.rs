//! The plain peer of `qlock ledger`: the same job files, one thread a worker, a `std::sync::Mutex` round balances and journal, and the
//! same text. It takes a job file for well formed. `ledger.py` builds and runs it.
use std::io::{self, BufWriter, Read, Write};
use std::sync::Mutex;
use std::thread;

const FULL: u64 = 1 << 63;

#[derive(Clone, Copy)]
enum Job {
    Move { from: usize, to: usize, amount: u64 },
    Add { account: usize, amount: u64 },
    Sum,
    Get { account: usize },
}

#[derive(Clone, Copy)]
enum Reply {
    Done,
    Short,
    Full,
    Amount(u64),
}

struct Entry {
    worker: usize,
    job: Job,
    reply: Reply,
}

struct Seen {
    worker: usize,
    number: usize,
    version: usize,
    job: Job,
    reply: Reply,
}

struct Ledger {
    balances: Vec<u64>,
    journal: Vec<Entry>,
}

struct JobFile {
    balances: Vec<u64>,
    jobs: Vec<Vec<Job>>,
}

impl JobFile {
    fn read(text: &str) -> JobFile {
        let mut file = JobFile { balances: Vec::new(), jobs: vec![Vec::new()] };
        for line in text.lines() {
            let words: Vec<&str> = line.split(' ').filter(|word| !word.is_empty()).collect();
            let number = |at: usize| words[at].parse::<u64>().expect("a number");
            match words.first() {
                Some(&"workers") => file.jobs = (0..number(1)).map(|_| Vec::new()).collect(),
                Some(&"accounts") => file.balances = (1..words.len()).map(number).collect(),
                Some(&"job") => {
                    let account = |at: usize| number(at) as usize;
                    let job = match words[2] {
                        "move" => Job::Move { from: account(3), to: account(4), amount: number(5) },
                        "add" => Job::Add { account: account(3), amount: number(4) },
                        "sum" => Job::Sum,
                        _ => Job::Get { account: account(3) },
                    };
                    file.jobs[account(1)].push(job);
                }
                _ => {}
            }
        }
        file
    }
}

impl Ledger {
    fn apply(&mut self, job: Job) -> Reply {
        let total = || self.balances.iter().sum::<u64>();
        match job {
            Job::Move { from, to, amount } => {
                if self.balances[from] < amount {
                    return Reply::Short;
                }
                self.balances[from] -= amount;
                self.balances[to] += amount;
                Reply::Done
            }
            Job::Add { account, amount } => {
                if total() + amount >= FULL {
                    return Reply::Full;
                }
                self.balances[account] += amount;
                Reply::Done
            }
            Job::Sum => Reply::Amount(total()),
            Job::Get { account } => Reply::Amount(self.balances[account]),
        }
    }
}

fn work(ledger: &Mutex<Ledger>, worker: usize, jobs: &[Job]) -> Vec<Seen> {
    let mut reads = Vec::new();
    for (before, &job) in jobs.iter().enumerate() {
        let mut ledger = ledger.lock().expect("no worker panics");
        let reply = ledger.apply(job);
        if matches!(job, Job::Sum | Job::Get { .. }) {
            let version = ledger.journal.len();
            drop(ledger);
            reads.push(Seen { worker, number: before + 1, version, job, reply });
        } else {
            ledger.journal.push(Entry { worker, job, reply });
        }
    }
    reads
}

fn put_answered<W: Write>(out: &mut W, job: Job, reply: Reply) -> io::Result<()> {
    match job {
        Job::Move { from, to, amount } => write!(out, "move {from} {to} {amount}")?,
        Job::Add { account, amount } => write!(out, "add {account} {amount}")?,
        Job::Sum => write!(out, "sum")?,
        Job::Get { account } => write!(out, "get {account}")?,
    }
    match reply {
        Reply::Done => writeln!(out, " ok"),
        Reply::Short => writeln!(out, " short"),
        Reply::Full => writeln!(out, " full"),
        Reply::Amount(amount) => writeln!(out, " {amount}"),
    }
}

fn put_outcome(ledger: &Ledger, reads: &[Seen]) -> io::Result<()> {
    let mut out = BufWriter::new(io::stdout().lock());
    for (before, entry) in ledger.journal.iter().enumerate() {
        write!(out, "entry {} {} ", before + 1, entry.worker)?;
        put_answered(&mut out, entry.job, entry.reply)?;
    }
    for seen in reads {
        write!(out, "read {} {} {} ", seen.worker, seen.number, seen.version)?;
        put_answered(&mut out, seen.job, seen.reply)?;
    }
    for (account, amount) in ledger.balances.iter().enumerate() {
        writeln!(out, "balance {account} {amount}")?;
    }
    writeln!(out, "end {} {}", ledger.journal.len(), reads.len())?;
    out.flush()
}

fn main() -> io::Result<()> {
    let mut text = String::new();
    io::stdin().read_to_string(&mut text)?;
    let JobFile { balances, jobs } = JobFile::read(&text);
    let count = jobs.iter().map(Vec::len).sum();
    let ledger = Mutex::new(Ledger { balances, journal: Vec::with_capacity(count) });
    let reads: Vec<Seen> = thread::scope(|scope| {
        let workers: Vec<_> = jobs
            .iter()
            .enumerate()
            .map(|(worker, jobs)| {
                let ledger = &ledger;
                scope.spawn(move || work(ledger, worker, jobs))
            })
            .collect();
        workers.into_iter().flat_map(|worker| worker.join().expect("no worker panics")).collect()
    });
    put_outcome(&ledger.into_inner().expect("no worker panics"), &reads)
}
