//! rayon: a strand for each strand of the shape (bench/peers/shape.hpp), over a pool of so many threads. A strand is a list of blocks
//! under a lock, and a task of the pool that runs them one by one while there are any.

use std::collections::VecDeque;
use std::process::ExitCode;
use std::sync::atomic::{AtomicU32, AtomicU64, Ordering};
use std::sync::Mutex;
use std::time::Instant;

const BLOCKS: u32 = 16_384;
const STRANDS: usize = 3;
const TRIES: u32 = 9;
const SUBMITTED: u64 = 0;
const STARTS: u64 = 1;
const ENDS: u64 = 2;
const FILE_BYTES: u32 = 4096;
const SUMMED: usize = 64;

// The strand of block k, from 1: of the queue at place k mod 6 of s0, s1, s2, s3, c0, c1.
fn strand_of(k: u32) -> usize {
    [0, 1, 0, 1, 2, 0][k as usize % 6]
}

// The journal, an array with an atomic index, and the values.
struct Journal<'a> {
    words: Vec<AtomicU64>,
    values: Vec<AtomicU64>,
    length: AtomicU32,
    file: &'a [u8],
}

impl<'a> Journal<'a> {
    fn new(file: &'a [u8]) -> Journal<'a> {
        let zeros = |count: u32| (0..count).map(|_| AtomicU64::new(0)).collect();
        Journal { words: zeros(3 * BLOCKS), values: zeros(BLOCKS + 1), length: AtomicU32::new(0), file }
    }

    fn append(&self, what: u64, k: u32) {
        let worker = rayon::current_thread_index().unwrap_or(0) as u64;
        let place = self.length.fetch_add(1, Ordering::Relaxed);
        self.words[place as usize].store(worker << 32 | u64::from(k) * 4 | what, Ordering::Relaxed);
    }

    fn sum_of(&self, k: u32) -> u64 {
        let from = (37 * k % 4033) as usize;
        self.file[from..from + SUMMED].iter().map(|byte| u64::from(*byte)).sum()
    }

    fn run(&self, k: u32) {
        self.append(STARTS, k);
        self.values[k as usize].store(self.sum_of(k), Ordering::Relaxed);
        self.append(ENDS, k);
    }

    // Whether the journal is one of the strands, and the values those of the blocks.
    fn is_right(&self) -> bool {
        let (mut open, mut last) = ([0; STRANDS], [0; STRANDS]);
        let (mut submitted, mut ended) = (vec![false; BLOCKS as usize + 1], vec![false; BLOCKS as usize + 1]);
        for word in &self.words {
            let word = word.load(Ordering::Relaxed);
            let (what, k) = (word % 4, (word as u32) / 4);
            let (q, at) = (strand_of(k), k as usize);
            let fits = match what {
                _ if k == 0 || k > BLOCKS => false,
                SUBMITTED => !std::mem::replace(&mut submitted[at], true),
                STARTS => {
                    let fits = submitted[at] && open[q] == 0 && k > last[q];
                    (open[q], last[q]) = (k, k);
                    fits
                }
                _ => std::mem::take(&mut open[q]) == k && !std::mem::replace(&mut ended[at], true),
            };
            if !fits {
                return false;
            }
        }
        (1..=BLOCKS).all(|k| ended[k as usize] && self.values[k as usize].load(Ordering::Relaxed) == self.sum_of(k))
    }
}

// The blocks that wait, and whether a task runs them.
#[derive(Default)]
struct Strand {
    waiting: Mutex<(VecDeque<u32>, bool)>,
}

impl Strand {
    fn post<'s>(&'s self, scope: &rayon::Scope<'s>, journal: &'s Journal<'s>, k: u32) {
        let mut waiting = self.waiting.lock().unwrap();
        waiting.0.push_back(k);
        if !std::mem::replace(&mut waiting.1, true) {
            drop(waiting);
            scope.spawn(move |_| self.drain(journal));
        }
    }

    fn drain(&self, journal: &Journal) {
        loop {
            let next = {
                let mut waiting = self.waiting.lock().unwrap();
                let next = waiting.0.pop_front();
                waiting.1 = next.is_some();
                next
            };
            match next {
                Some(k) => journal.run(k),
                None => return,
            }
        }
    }
}

fn run(workers: usize, journal: &Journal) {
    let pool = rayon::ThreadPoolBuilder::new().num_threads(workers).build().unwrap();
    let strands: [Strand; STRANDS] = Default::default();
    pool.scope(|scope| {
        for k in 1..=BLOCKS {
            journal.append(SUBMITTED, k);
            strands[strand_of(k)].post(scope, journal, k);
        }
    });
}

// The most memory that the process had, in bytes.
fn most_bytes() -> u64 {
    let status = std::fs::read_to_string("/proc/self/status").unwrap_or_default();
    let line = status.lines().find_map(|line| line.strip_prefix("VmHWM:")).unwrap_or("0");
    line.split_whitespace().next().and_then(|word| word.parse::<u64>().ok()).unwrap_or(0) * 1024
}

fn main() -> ExitCode {
    let Some(workers) = std::env::args().nth(1).and_then(|word| word.parse().ok()).filter(|n| (1..=64).contains(n)) else {
        eprintln!("give the number of workers, 1 to 64");
        return ExitCode::from(2);
    };
    let file: Vec<u8> = (0..FILE_BYTES).map(|i| (7 * i + 3) as u8).collect();
    let (mut first, mut best) = (0, u128::MAX);
    for turn in 0..TRIES {
        let began = Instant::now();
        let journal = Journal::new(&file);
        run(workers, &journal);
        let took = began.elapsed().as_nanos();
        if !journal.is_right() {
            eprintln!("rayon: the journal is wrong");
            return ExitCode::FAILURE;
        }
        first = if turn == 0 { took } else { first };
        best = best.min(took);
    }
    println!("rayon {workers} {} {} {}", first / u128::from(BLOCKS), best / u128::from(BLOCKS), most_bytes());
    ExitCode::SUCCESS
}
