//! The accounts of the six allocators, and the live chunks with their references.

use crate::plan::{NAMES, Plan};
use std::collections::BTreeMap;
use std::io::Write;

pub const ROOT: usize = 0;
pub const SCAN: usize = 1;
pub const FILTER: usize = 2;
pub const PROJECT: usize = 3;
pub const SUMS: usize = 4;
pub const RESULT: usize = 5;

/// A level that a request would have taken past its limit.
pub struct Full {
    pub node: usize,
    pub held: u64,
    pub amount: u64,
    pub limit: u64,
}

#[derive(Clone, Copy)]
struct Node {
    reservation: u64,
    limit: u64,
    held: u64,
    peak: u64,
}

struct Chunk {
    size: u64,
    owner: usize,
    counts: [u32; NAMES.len()],
}

/// A counted use of a chunk at an allocator; chunk 0 is the empty buffer.
#[derive(Clone, Copy)]
pub struct Ref {
    pub chunk: u32,
    pub at: usize,
}

pub struct Accounts {
    nodes: [Node; NAMES.len()],
    chunks: BTreeMap<u32, Chunk>,
    drawn: u32,
}

/// The least power of two that fits, at least 2; from 16 MiB on the request itself.
fn rounded(request: u64) -> u64 {
    match request {
        0 => 0,
        1..16_777_216 => request.next_power_of_two().max(2),
        _ => request,
    }
}

impl Accounts {
    pub fn open(plan: &Plan) -> Result<Accounts, Full> {
        let node = |i: usize| Node { reservation: plan.reserves[i], limit: plan.limits[i], held: 0, peak: 0 };
        let mut accounts = Accounts { nodes: std::array::from_fn(node), chunks: BTreeMap::new(), drawn: 0 };
        for child in SCAN..=RESULT {
            accounts.charge(ROOT, plan.reserves[child])?;
        }
        Ok(accounts)
    }

    /// Charges each level that the amount reaches, or none where one of them is past its limit.
    fn charge(&mut self, at: usize, size: u64) -> Result<(), Full> {
        let above = self.add(at, size)?;
        if at == ROOT {
            self.raise(at);
            return Ok(());
        }
        if above > 0 {
            if let Err(full) = self.add(ROOT, above) {
                self.raise(at);
                self.nodes[at].held -= size;
                return Err(full);
            }
            self.raise(ROOT);
        }
        self.raise(at);
        Ok(())
    }

    fn add(&mut self, at: usize, amount: u64) -> Result<u64, Full> {
        let node = &mut self.nodes[at];
        let held = node.held + amount;
        if held > node.limit && amount > 0 {
            return Err(Full { node: at, held: node.held, amount, limit: node.limit });
        }
        let above = held.max(node.reservation) - node.held.max(node.reservation);
        node.held = held;
        Ok(above)
    }

    fn force(&mut self, at: usize, size: u64) {
        let node = &mut self.nodes[at];
        let above = (node.held + size).max(node.reservation) - node.held.max(node.reservation);
        node.held += size;
        self.raise(at);
        if at != ROOT && above > 0 {
            self.force(ROOT, above);
        }
    }

    fn discharge(&mut self, at: usize, size: u64) {
        let node = &mut self.nodes[at];
        let above = node.held.max(node.reservation) - (node.held - size).max(node.reservation);
        node.held -= size;
        if at != ROOT && above > 0 {
            self.discharge(ROOT, above);
        }
    }

    fn raise(&mut self, at: usize) {
        let node = &mut self.nodes[at];
        node.peak = node.peak.max(node.held);
    }

    pub fn grant(&mut self, at: usize, request: usize) -> Result<Ref, Full> {
        let size = rounded(request as u64);
        if size == 0 {
            return Ok(Ref { chunk: 0, at });
        }
        self.drawn += 1;
        let chunk = self.drawn;
        self.charge(at, size)?;
        let mut counts = [0; NAMES.len()];
        counts[at] = 1;
        self.chunks.insert(chunk, Chunk { size, owner: at, counts });
        Ok(Ref { chunk, at })
    }

    /// Refers to the chunk from the target, which is charged from then on, and gives the source's reference back.
    pub fn move_to(&mut self, of: Ref, target: usize) -> Ref {
        let moved = Ref { chunk: of.chunk, at: target };
        if let Some(chunk) = self.chunks.get_mut(&of.chunk) {
            chunk.counts[target] += 1;
            if chunk.owner == of.at && target != of.at {
                chunk.owner = target;
                let size = chunk.size;
                self.force(target, size);
                self.discharge(of.at, size);
            }
            self.release(of);
        }
        moved
    }

    pub fn release(&mut self, of: Ref) {
        let Some(chunk) = self.chunks.get_mut(&of.chunk) else {
            return;
        };
        chunk.counts[of.at] -= 1;
        if chunk.counts[of.at] > 0 || chunk.owner != of.at {
            return;
        }
        let size = chunk.size;
        if let Some(next) = chunk.counts.iter().position(|count| *count > 0) {
            chunk.owner = next;
            self.force(next, size);
        } else {
            self.chunks.remove(&of.chunk);
        }
        self.discharge(of.at, size);
    }

    /// Appends the tree, the live chunks and how many references there are.
    pub fn report(&self, out: &mut Vec<u8>) {
        for (i, node) in self.nodes.iter().enumerate() {
            let Node { reservation, held, peak, limit } = node;
            let indent = if i == ROOT { "" } else { "  " };
            let name = NAMES[i];
            put(out, format_args!("{indent}#{i} Allocator({name}) {reservation}/{held}/{peak}/{limit} (res/actual/peak/limit)\n"));
        }
        let mut references = 0;
        for (number, chunk) in &self.chunks {
            put(out, format_args!("chunk {number} size {} owner #{} refs", chunk.size, chunk.owner));
            for (at, count) in chunk.counts.iter().enumerate().filter(|it| *it.1 > 0) {
                put(out, format_args!(" #{at}:{count}"));
                references += u64::from(*count);
            }
            out.push(b'\n');
        }
        put(out, format_args!("refs {references}\n"));
    }
}

fn put(out: &mut Vec<u8>, text: std::fmt::Arguments) {
    out.write_fmt(text).expect("a vector takes all bytes");
}
