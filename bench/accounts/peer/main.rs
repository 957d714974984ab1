//! The peer: the same accounts as plain atomic counters, without a contract and without a token.
//!
//!     peer LEAVES LEVELS THREADS PAIRS
//!
//! It makes the same locked steps and the same loads on the same words as the program that it is measured beside.

use std::env;
use std::hint::black_box;
use std::process::ExitCode;
use std::sync::atomic::{AtomicU64, Ordering::SeqCst};
use std::thread;
use std::time::Instant;

const SIZE: u64 = 64;
const NUMBER: usize = 16;
const LARGE: u64 = 1 << 40;

struct Node {
    parent: u32,
    reservation: u64,
    limit: u64,
}

#[derive(Debug)]
#[allow(dead_code)]
struct Full {
    node: u32,
    held: u64,
    amount: u64,
    limit: u64,
    local: bool,
}

/// A chunk's number and size, as the token of a chunk has them.
struct Chunk {
    number: u32,
    size: u64,
}

struct Words {
    words: Vec<AtomicU64>,
}

fn held(level: usize) -> usize {
    16 * level + 32
}

fn limit(level: usize) -> usize {
    16 * level + 33
}

fn peak(level: usize) -> usize {
    16 * level + 34
}

fn reservation(level: usize) -> usize {
    16 * level + 35
}

fn parent(level: usize) -> usize {
    16 * level + 36
}

impl Words {
    fn open(nodes: Vec<Node>) -> Words {
        let words: Vec<AtomicU64> = (0..16 * nodes.len() + 32).map(|_| AtomicU64::new(0)).collect();
        words[NUMBER].store(1, SeqCst);
        for (level, node) in nodes.iter().enumerate().rev() {
            words[limit(level)].store(node.limit, SeqCst);
            words[reservation(level)].store(node.reservation, SeqCst);
            words[parent(level)].store(node.parent as u64, SeqCst);
            if level > 0 {
                let counted = words[held(level)].load(SeqCst).max(node.reservation);
                words[held(node.parent as usize)].fetch_add(counted, SeqCst);
            }
        }
        Words { words }
    }

    fn charge(&self, at: u32, size: u64) -> Result<Chunk, Full> {
        let number = self.words[NUMBER].fetch_add(1, SeqCst);
        let (mut level, mut amount) = (at as usize, size);
        let mut full = None;
        loop {
            let found = self.words[held(level)].fetch_add(amount, SeqCst);
            let limit = self.words[limit(level)].load(SeqCst);
            let reservation = self.words[reservation(level)].load(SeqCst);
            let parent = self.words[parent(level)].load(SeqCst);
            if full.is_none() && found + amount > limit {
                full = Some(Full { node: level as u32, held: found, amount, limit, local: level == at as usize });
            }
            if full.is_none() && self.words[peak(level)].load(SeqCst) < found + amount {
                self.words[peak(level)].fetch_max(found + amount, SeqCst);
            }
            let counted = (found + amount).max(reservation) - found.max(reservation);
            if level == 0 || counted == 0 {
                break;
            }
            (level, amount) = (parent as usize, counted);
        }
        match full {
            None => {
                // What the program loads to split the chunk's token off.
                self.words[0].load(SeqCst);
                self.words[0].load(SeqCst);
                Ok(Chunk { number: number as u32, size })
            }
            Some(full) => {
                self.release(at, size);
                self.words[0].load(SeqCst);
                Err(full)
            }
        }
    }

    fn release(&self, at: u32, size: u64) {
        let (mut level, mut amount) = (at as usize, size);
        loop {
            let found = self.words[held(level)].fetch_sub(amount, SeqCst);
            let reservation = self.words[reservation(level)].load(SeqCst);
            let parent = self.words[parent(level)].load(SeqCst);
            let counted = found.max(reservation) - (found - amount).max(reservation);
            if level == 0 || counted == 0 {
                break;
            }
            (level, amount) = (parent as usize, counted);
        }
    }

    fn discharge(&self, chunk: &mut Chunk, at: u32) {
        self.release(at, chunk.size);
    }

    fn retire(&self, chunk: Chunk) {
        black_box(chunk.number);
        // What the program loads to join the chunk's token.
        self.words[0].load(SeqCst);
        self.words[0].load(SeqCst);
    }
}

/// So many charges, each released; how many there were.
fn pairs(words: &Words, at: u32, count: u32) -> u64 {
    let mut charged = 0;
    for _ in 0..count {
        if let Ok(mut chunk) = words.charge(at, SIZE) {
            words.discharge(&mut chunk, at);
            words.retire(chunk);
            charged += 1;
        }
    }
    charged
}

/// The tree: a chain of so many levels, or a root with leaves whose reservations cover what is charged.
fn tree(leaves: u32, levels: u32) -> Vec<Node> {
    let node = |level: u32| match leaves {
        0 => Node { parent: level.saturating_sub(1), reservation: 0, limit: LARGE },
        _ => Node { parent: 0, reservation: if level > 0 { 4096 } else { 0 }, limit: LARGE },
    };
    (0..levels).map(node).collect()
}

fn run(given: &[String]) -> Option<()> {
    let given: Vec<u32> = given.iter().map(|word| word.parse().ok()).collect::<Option<_>>()?;
    let [leaves, levels, threads, count] = given[..] else { return None };
    let words = Words::open(tree(leaves, levels));
    let at = |thread: u32| if leaves > 0 { 1 + thread } else { levels - 1 };
    let start = Instant::now();
    let charged: u64 = thread::scope(|scope| {
        let words = &words;
        let others: Vec<_> =
            (1..threads).map(|thread| scope.spawn(move || pairs(words, at(thread), count))).collect();
        let own = pairs(words, at(0), count);
        own + others.into_iter().map(|other| other.join().unwrap_or(0)).sum::<u64>()
    });
    println!("{charged} {}", start.elapsed().as_nanos());
    Some(())
}

fn main() -> ExitCode {
    match run(&env::args().skip(1).collect::<Vec<_>>()) {
        Some(()) => ExitCode::SUCCESS,
        None => ExitCode::from(2),
    }
}
