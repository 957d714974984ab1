//! A peer of `arrowmem trace FILE`: the same lines, answers and limits in plain Rust, written to be fast.
//!
//!     peer trace FILE
//!
//! Nothing here is proved. Each line is run as soon as it is read, so no line is kept, and no memory is taken for reading
//! one. The answers are gathered, and written at the end by one call: an unreadable line leaves none of them.

use std::collections::hash_map::{Entry, HashMap};
use std::collections::BTreeMap;
use std::ffi::OsString;
use std::fs::File;
use std::io::{self, Read, Write};
use std::mem;
use std::process::ExitCode;

const LARGEST_INPUT: u64 = 67_108_864;
const MOST_LINES: usize = 1_000_000;
const MOST_TREES: usize = 1_000;
const MOST_REPORTS: usize = 16;
const LONGEST_NAME: usize = 32;
const LARGEST_NUMBER: u64 = 9_223_372_036_854_775_807;
const LARGEST_RESERVATION: u64 = 1_099_511_627_776;
const LARGEST_SIZE: u64 = 1_073_741_824;
/// Requests from here on aren't rounded.
const LARGE: u64 = 16_777_216;
const MOST_ALLOCATORS: u32 = 64;

// ---- Text

/// A part of a text.
trait Part {
    fn put(&self, out: &mut Vec<u8>);
}

impl Part for str {
    fn put(&self, out: &mut Vec<u8>) {
        out.extend_from_slice(self.as_bytes());
    }
}

impl Part for [u8] {
    fn put(&self, out: &mut Vec<u8>) {
        out.extend_from_slice(self);
    }
}

impl Part for u64 {
    fn put(&self, out: &mut Vec<u8>) {
        let mut digits = [0; 20];
        let (mut place, mut left) = (digits.len(), *self);
        loop {
            place -= 1;
            digits[place] = b'0' + (left % 10) as u8;
            left /= 10;
            if left == 0 {
                break;
            }
        }
        out.extend_from_slice(&digits[place..]);
    }
}

impl Part for u32 {
    fn put(&self, out: &mut Vec<u8>) {
        u64::from(*self).put(out);
    }
}

impl Part for u8 {
    fn put(&self, out: &mut Vec<u8>) {
        u64::from(*self).put(out);
    }
}

impl Part for i64 {
    fn put(&self, out: &mut Vec<u8>) {
        if *self < 0 {
            out.push(b'-');
        }
        self.unsigned_abs().put(out);
    }
}

/// Puts the parts of a text behind each other.
macro_rules! put {
    ($out:expr; $($part:expr),+) => {{ $($part.put($out);)+ }};
}

// ---- Reading

type Name<'a> = &'a [u8];

/// What a line says.
enum Line<'a> {
    Root {
        limit: u64,
    },
    Child {
        name: Name<'a>,
        parent: Name<'a>,
        reservation: u64,
        limit: u64,
    },
    Buffer {
        name: Name<'a>,
        at: Name<'a>,
        size: u64,
    },
    Retain {
        name: Name<'a>,
        source: Name<'a>,
        at: Name<'a>,
    },
    Transfer {
        name: Name<'a>,
        source: Name<'a>,
        at: Name<'a>,
    },
    Slice {
        name: Name<'a>,
        source: Name<'a>,
        from: u64,
        len: u64,
    },
    Release {
        name: Name<'a>,
    },
    Close {
        at: Name<'a>,
    },
    Headroom {
        at: Name<'a>,
    },
    Tree,
    Report,
}

/// Which bytes a name has.
const IN_NAMES: [bool; 256] = {
    let mut bytes = [false; 256];
    let mut byte = 0_u8;
    while byte < 128 {
        bytes[byte as usize] = byte.is_ascii_alphanumeric() || matches!(byte, b'_' | b'-' | b'.');
        byte += 1;
    }
    bytes
};

/// The part of a line that wasn't read yet. A word ends with the line, or before a space or a tab.
struct Words<'a> {
    rest: &'a [u8],
}

impl<'a> Words<'a> {
    fn skip_blanks(&mut self) {
        while let [b' ' | b'\t', rest @ ..] = self.rest {
            self.rest = rest;
        }
    }

    /// The next word, if all of its bytes are of this kind; at the end of the line that is an empty one.
    fn word(&mut self, is_in: impl Fn(u8) -> bool) -> Option<&'a [u8]> {
        self.skip_blanks();
        let len = self.rest.iter().position(|byte| !is_in(*byte));
        let (word, rest) = self.rest.split_at(len.unwrap_or(self.rest.len()));
        self.rest = rest;
        matches!(rest, [] | [b' ' | b'\t', ..]).then_some(word)
    }

    fn name(&mut self) -> Option<Name<'a>> {
        let word = self.word(|byte| IN_NAMES[usize::from(byte)])?;
        (1..=LONGEST_NAME).contains(&word.len()).then_some(word)
    }

    fn number(&mut self) -> Option<u64> {
        let word = self.word(|byte| byte.is_ascii_digit())?;
        if word.is_empty() {
            return None;
        }
        let mut value = 0_u64;
        for digit in word {
            value = value
                .checked_mul(10)?
                .checked_add(u64::from(digit - b'0'))?;
        }
        (value <= LARGEST_NUMBER).then_some(value)
    }

    /// What the line says, or none where it is unreadable.
    fn line(&mut self) -> Option<Line<'a>> {
        let said = match self.word(|byte| byte.is_ascii_lowercase())? {
            b"root" => Line::Root {
                limit: self.number()?,
            },
            b"child" => Line::Child {
                name: self.name()?,
                parent: self.name()?,
                reservation: self
                    .number()
                    .filter(|bytes| *bytes <= LARGEST_RESERVATION)?,
                limit: self.number()?,
            },
            b"buffer" => Line::Buffer {
                name: self.name()?,
                at: self.name()?,
                size: self.number()?,
            },
            b"retain" => Line::Retain {
                name: self.name()?,
                source: self.name()?,
                at: self.name()?,
            },
            b"transfer" => Line::Transfer {
                name: self.name()?,
                source: self.name()?,
                at: self.name()?,
            },
            b"slice" => Line::Slice {
                name: self.name()?,
                source: self.name()?,
                from: self.number()?,
                len: self.number()?,
            },
            b"release" => Line::Release { name: self.name()? },
            b"close" => Line::Close { at: self.name()? },
            b"headroom" => Line::Headroom { at: self.name()? },
            b"tree" => Line::Tree,
            b"report" => Line::Report,
            _ => return None,
        };
        self.skip_blanks();
        self.rest.is_empty().then_some(said)
    }
}

/// How many lines of a script were read.
#[derive(Default)]
struct Count {
    lines: usize,
    trees: usize,
    reports: usize,
}

impl Count {
    /// Counts a line, and tells whether it may stand there.
    fn allows(&mut self, line: &Line<'_>) -> bool {
        self.lines += 1;
        match line {
            Line::Root { .. } => return self.lines == 1,
            Line::Tree => self.trees += 1,
            Line::Report => self.reports += 1,
            _ => {}
        }
        self.lines <= MOST_LINES && self.trees <= MOST_TREES && self.reports <= MOST_REPORTS
    }
}

/// Runs a script, and gives its answers, or the number of its first unreadable line.
fn run(script: &[u8]) -> Result<Vec<u8>, usize> {
    let mut trace = Trace::new();
    let mut count = Count::default();
    for (index, text) in script.split_inclusive(|b| *b == b'\n').enumerate() {
        // A carriage return goes only where a line feed follows it.
        let text = match text.strip_suffix(b"\n") {
            Some(ended) => ended.strip_suffix(b"\r").unwrap_or(ended),
            None => text,
        };
        let mut words = Words { rest: text };
        words.skip_blanks();
        if matches!(words.rest, [] | [b'#', ..]) {
            continue;
        }
        let said = words.line().filter(|said| count.allows(said));
        trace.run(&said.ok_or(index + 1)?);
    }
    Ok(trace.out)
}

// ---- Refusals

enum Refused<'a> {
    Taken(Name<'a>),
    Unknown(Name<'a>),
    Above { reservation: u64, limit: u64 },
    Closed(u8),
    Nodes(u32),
    Full(Full),
    TooLarge(u64),
    Released { chunk: u32, at: u8 },
    Outside(u32),
    InUse(u32),
}

/// A request that an allocator has no room for.
struct Full {
    at: u8,
    held: u64,
    amount: u64,
    limit: u64,
    is_local: bool,
}

impl Part for Refused<'_> {
    fn put(&self, out: &mut Vec<u8>) {
        match self {
            Refused::Taken(name) => put!(out; "taken ", name, "\n"),
            Refused::Unknown(name) => put!(out; "unknown ", name, "\n"),
            Refused::Above { reservation, limit } => {
                put!(out; "above ", reservation, " ", limit, "\n");
            }
            Refused::Closed(at) => put!(out; "closed #", at, "\n"),
            Refused::Nodes(next) => put!(out; "nodes ", next, "\n"),
            Refused::Full(full) => full.put(out),
            Refused::TooLarge(request) => put!(out; "toolarge ", request, "\n"),
            Refused::Released { chunk, at } => {
                put!(out; "released chunk ", chunk, " at #", at, "\n");
            }
            Refused::Outside(len) => put!(out; "outside ", len, "\n"),
            Refused::InUse(uses) => put!(out; "inuse ", uses, "\n"),
        }
    }
}

impl Part for Full {
    fn put(&self, out: &mut Vec<u8>) {
        put!(out; "full #", self.at, " held ", self.held, " amount ", self.amount);
        let place = if self.is_local { "local" } else { "parent" };
        put!(out; " limit ", self.limit, " ", place, "\n");
    }
}

// ---- The tree

/// An allocator. A number that was spent on a refused child has one that is closed from the start.
struct Node<'a> {
    name: Name<'a>,
    parent: Option<u8>,
    reservation: u64,
    limit: u64,
    held: u64,
    peak: u64,
    /// The chunks that it refers to, and its open children.
    uses: u32,
    is_closed: bool,
}

impl Node<'_> {
    /// What it counts for at its parent.
    fn counted(&self) -> u64 {
        self.held.max(self.reservation)
    }

    /// Adds to what it holds, and gives the parent that counts more with it, and how much more.
    fn add(&mut self, amount: u64) -> Option<(u8, u64)> {
        let before = self.counted();
        self.held += amount;
        self.above(self.counted() - before)
    }

    /// Takes from what it holds, and gives the parent that counts less without it, and how much less.
    fn take(&mut self, amount: u64) -> Option<(u8, u64)> {
        let before = self.counted();
        self.held -= amount;
        self.above(before - self.counted())
    }

    fn above(&self, amount: u64) -> Option<(u8, u64)> {
        self.parent.filter(|_| amount > 0).map(|at| (at, amount))
    }
}

struct Tree<'a> {
    nodes: Vec<Node<'a>>,
    numbers: HashMap<Name<'a>, u8>,
    next: u32,
}

impl<'a> Tree<'a> {
    fn new() -> Self {
        let root = Node {
            name: b"ROOT",
            parent: None,
            reservation: 0,
            limit: LARGEST_NUMBER,
            held: 0,
            peak: 0,
            uses: 0,
            is_closed: false,
        };
        Tree {
            numbers: HashMap::from([(root.name, 0)]),
            nodes: vec![root],
            next: 1,
        }
    }

    fn find(&self, name: Name<'a>) -> Result<u8, Refused<'a>> {
        self.numbers
            .get(name)
            .copied()
            .ok_or(Refused::Unknown(name))
    }

    fn node(&mut self, at: u8) -> &mut Node<'a> {
        &mut self.nodes[usize::from(at)]
    }

    fn check_open(&self, at: u8) -> Result<(), Refused<'a>> {
        if self.nodes[usize::from(at)].is_closed {
            return Err(Refused::Closed(at));
        }
        Ok(())
    }

    /// Charges a request, level by level up to one that doesn't count it. It is refused at the first that has no room, and
    /// has raised the peaks below that one. No bytes have no level.
    fn charge(&mut self, at: u8, amount: u64) -> Result<(), Refused<'a>> {
        let mut level = Some((at, amount)).filter(|_| amount > 0);
        while let Some((number, more)) = level {
            let node = self.node(number);
            let (held, limit) = (node.held, node.limit);
            if held + more > limit {
                self.take_until(at, amount, Some(number));
                return Err(Refused::Full(Full {
                    at: number,
                    held,
                    amount: more,
                    limit,
                    is_local: number == at,
                }));
            }
            level = node.add(more);
            node.peak = node.peak.max(node.held);
        }
        Ok(())
    }

    /// Charges whatever the limits are, and tells whether all were kept.
    fn force(&mut self, at: u8, amount: u64) -> bool {
        let mut fits = true;
        let mut level = Some((at, amount));
        while let Some((number, more)) = level {
            let node = self.node(number);
            level = node.add(more);
            node.peak = node.peak.max(node.held);
            fits &= node.held <= node.limit;
        }
        fits
    }

    /// Forces a charge at its new place before it goes at the old one, and tells whether all limits were kept.
    fn move_charge(&mut self, from: u8, to: u8, amount: u32) -> bool {
        let fits = self.force(to, u64::from(amount));
        self.discharge(from, u64::from(amount));
        fits
    }

    fn discharge(&mut self, at: u8, amount: u64) {
        self.take_until(at, amount, None);
    }

    /// Takes a charge back at the levels below `end`.
    fn take_until(&mut self, at: u8, amount: u64, end: Option<u8>) {
        let mut level = Some((at, amount));
        while let Some((number, less)) = level.filter(|(number, _)| Some(*number) != end) {
            level = self.node(number).take(less);
        }
    }

    fn child(
        &mut self,
        name: Name<'a>,
        parent: Name<'a>,
        reservation: u64,
        limit: u64,
    ) -> Result<u8, Refused<'a>> {
        if self.numbers.contains_key(name) {
            return Err(Refused::Taken(name));
        }
        let parent = self.find(parent)?;
        if reservation > limit {
            return Err(Refused::Above { reservation, limit });
        }
        self.check_open(parent)?;
        let next = self.next;
        self.next += 1;
        if next >= MOST_ALLOCATORS {
            return Err(Refused::Nodes(next));
        }
        let charged = self.charge(parent, reservation);
        self.nodes.push(Node {
            name,
            parent: Some(parent),
            reservation,
            limit,
            held: 0,
            peak: 0,
            uses: 0,
            is_closed: charged.is_err(),
        });
        charged?;
        self.node(parent).uses += 1;
        self.numbers.insert(name, next as u8);
        Ok(next as u8)
    }

    fn close(&mut self, at: u8) -> Result<(), Refused<'a>> {
        self.check_open(at)?;
        let node = self.node(at);
        if node.uses > 0 {
            return Err(Refused::InUse(node.uses));
        }
        node.is_closed = true;
        if let Some(parent) = node.parent {
            let reservation = node.reservation;
            self.discharge(parent, reservation);
            self.node(parent).uses -= 1;
        }
        Ok(())
    }

    fn headroom(&self, at: u8) -> i64 {
        let node = &self.nodes[usize::from(at)];
        let own = node.limit as i64 - node.held as i64;
        match node.parent {
            None => own,
            Some(parent) => {
                let unused = node.reservation.saturating_sub(node.held);
                own.min(self.headroom(parent).saturating_add(unused as i64))
            }
        }
    }

    /// Puts the lines of an allocator and of those below it.
    fn show(&self, at: u8, depth: usize, out: &mut Vec<u8>) {
        let node = &self.nodes[usize::from(at)];
        if node.is_closed {
            return;
        }
        for _ in 0..depth {
            put!(out; "  ");
        }
        put!(out; "#", at, " Allocator(", node.name, ") ", node.reservation, "/", node.held);
        put!(out; "/", node.peak, "/", node.limit, " (res/actual/peak/limit)\n");
        for (number, below) in self.nodes.iter().enumerate() {
            if below.parent == Some(at) {
                self.show(number as u8, depth + 1, out);
            }
        }
    }
}

fn rounded(request: u64) -> u64 {
    match request {
        0 => 0,
        1 => 2,
        LARGE.. => request,
        _ => request.next_power_of_two(),
    }
}

// ---- Chunks

/// How many references to a chunk an allocator has, at least one.
#[derive(Clone, Copy)]
struct Ledger {
    at: u8,
    count: u32,
}

impl Part for Ledger {
    fn put(&self, out: &mut Vec<u8>) {
        put!(out; " #", self.at, ":", self.count);
    }
}

/// A chunk has the ledger of the allocator that is charged for it, and those of others in order of number.
struct Chunk {
    size: u32,
    owner: Ledger,
    others: Vec<Ledger>,
}

/// What a release left.
enum Left {
    /// The ledger, with fewer references.
    Ledger,
    /// The chunk with the same owner, but not the ledger.
    Chunk,
    /// The chunk with this owner, but not the ledger of its owner before.
    NewOwner(u8),
    Nothing,
}

impl Chunk {
    fn new(size: u32, at: u8) -> Self {
        Chunk {
            size,
            owner: Ledger { at, count: 1 },
            others: Vec::new(),
        }
    }

    /// Where the ledger of an allocator stands among those of others, or would stand.
    fn place(&self, at: u8) -> Result<usize, usize> {
        self.others.binary_search_by_key(&at, |ledger| ledger.at)
    }

    /// Counts one reference more, and tells whether that made a ledger.
    fn retain(&mut self, at: u8) -> bool {
        if self.owner.at == at {
            self.owner.count += 1;
            return false;
        }
        match self.place(at) {
            Ok(place) => {
                self.others[place].count += 1;
                false
            }
            Err(place) => {
                self.others.insert(place, Ledger { at, count: 1 });
                true
            }
        }
    }

    fn release(&mut self, at: u8) -> Left {
        if self.owner.at != at {
            let place = self.place(at).expect("a reference has a ledger");
            self.others[place].count -= 1;
            if self.others[place].count > 0 {
                return Left::Ledger;
            }
            self.others.remove(place);
            return Left::Chunk;
        }
        self.owner.count -= 1;
        if self.owner.count > 0 {
            Left::Ledger
        } else if self.others.is_empty() {
            Left::Nothing
        } else {
            self.owner = self.others.remove(0);
            Left::NewOwner(self.owner.at)
        }
    }

    /// Makes another allocator, which has a ledger, the owner.
    fn pass_to(&mut self, at: u8) {
        let place = self.place(at).expect("a new owner has a ledger");
        let old = mem::replace(&mut self.owner, self.others.remove(place));
        let place = self.place(old.at).unwrap_or_else(|place| place);
        self.others.insert(place, old);
    }

    fn references(&self) -> u64 {
        let others = self.others.iter().map(|ledger| u64::from(ledger.count));
        u64::from(self.owner.count) + others.sum::<u64>()
    }

    fn show(&self, number: u32, out: &mut Vec<u8>) {
        put!(out; "chunk ", number, " size ", self.size, " owner #", self.owner.at, " refs");
        let (before, after) = self
            .others
            .split_at(self.place(self.owner.at).unwrap_or_else(|place| place));
        for ledger in before.iter().chain([&self.owner]).chain(after) {
            ledger.put(out);
        }
        put!(out; "\n");
    }
}

// ---- Running

/// What a name is bound to: a range of a chunk, by one of the references that were given. The empty buffer's chunk is number 0.
#[derive(Clone, Copy)]
struct Buffer {
    chunk: u32,
    reference: u32,
    start: u32,
    len: u32,
}

/// A reference from an allocator.
#[derive(Clone, Copy)]
struct Reference {
    at: u8,
    is_given_back: bool,
}

/// A buffer that a line mentions, with its reference.
struct Source {
    buffer: Buffer,
    reference: Reference,
}

impl Source {
    fn is_empty(&self) -> bool {
        self.buffer.chunk == 0
    }

    fn check_held<'a>(&self) -> Result<(), Refused<'a>> {
        if self.reference.is_given_back {
            return Err(Refused::Released {
                chunk: self.buffer.chunk,
                at: self.reference.at,
            });
        }
        Ok(())
    }
}

struct Trace<'a> {
    tree: Tree<'a>,
    buffers: HashMap<Name<'a>, Buffer>,
    references: Vec<Reference>,
    chunks: BTreeMap<u32, Chunk>,
    drawn: u32,
    out: Vec<u8>,
}

impl<'a> Trace<'a> {
    fn new() -> Self {
        Trace {
            tree: Tree::new(),
            buffers: HashMap::new(),
            references: Vec::new(),
            chunks: BTreeMap::new(),
            drawn: 0,
            out: Vec::new(),
        }
    }

    fn run(&mut self, line: &Line<'a>) {
        let answered = match *line {
            Line::Root { limit } => {
                self.tree.node(0).limit = limit;
                Ok(())
            }
            Line::Child {
                name,
                parent,
                reservation,
                limit,
            } => self.child(name, parent, reservation, limit),
            Line::Buffer { name, at, size } => self.buffer(name, at, size),
            Line::Retain { name, source, at } => self.share(name, source, at, false),
            Line::Transfer { name, source, at } => self.share(name, source, at, true),
            Line::Slice {
                name,
                source,
                from,
                len,
            } => self.slice(name, source, from, len),
            Line::Release { name } => self.release(name),
            Line::Close { at } => self.close(at),
            Line::Headroom { at } => self.headroom(at),
            Line::Tree => {
                self.tree.show(0, 0, &mut self.out);
                Ok(())
            }
            Line::Report => {
                self.report();
                Ok(())
            }
        };
        if let Err(refused) = answered {
            refused.put(&mut self.out);
        }
    }

    fn child(
        &mut self,
        name: Name<'a>,
        parent: Name<'a>,
        reservation: u64,
        limit: u64,
    ) -> Result<(), Refused<'a>> {
        let number = self.tree.child(name, parent, reservation, limit)?;
        put!(&mut self.out; "child ", name, " is #", number, "\n");
        Ok(())
    }

    fn close(&mut self, name: Name<'a>) -> Result<(), Refused<'a>> {
        let at = self.tree.find(name)?;
        self.tree.close(at)?;
        put!(&mut self.out; "close ", name, " ok\n");
        Ok(())
    }

    fn headroom(&mut self, name: Name<'a>) -> Result<(), Refused<'a>> {
        let at = self.tree.find(name)?;
        self.tree.check_open(at)?;
        put!(&mut self.out; "headroom ", name, " ", self.tree.headroom(at), "\n");
        Ok(())
    }

    fn buffer(&mut self, name: Name<'a>, at: Name<'a>, request: u64) -> Result<(), Refused<'a>> {
        let Entry::Vacant(free) = self.buffers.entry(name) else {
            return Err(Refused::Taken(name));
        };
        let at = self.tree.find(at)?;
        let size = rounded(request);
        if size > LARGEST_SIZE {
            return Err(Refused::TooLarge(request));
        }
        self.tree.check_open(at)?;
        let len = size as u32;
        let mut chunk = 0;
        if size == 0 {
            put!(&mut self.out; "buffer ", name, " empty\n");
        } else {
            self.drawn += 1;
            chunk = self.drawn;
            self.tree.charge(at, size)?;
            self.tree.node(at).uses += 1;
            self.chunks.insert(chunk, Chunk::new(len, at));
            put!(&mut self.out; "buffer ", name, " chunk ", chunk, " size ", len, "\n");
        }
        free.insert(Buffer {
            chunk,
            reference: self.references.len() as u32,
            start: 0,
            len,
        });
        self.references.push(Reference {
            at,
            is_given_back: false,
        });
        Ok(())
    }

    fn source(&self, name: Name<'a>) -> Result<Source, Refused<'a>> {
        let buffer = *self.buffers.get(name).ok_or(Refused::Unknown(name))?;
        let reference = self.references[buffer.reference as usize];
        Ok(Source { buffer, reference })
    }

    /// Refers to a chunk from one allocator more, and moves the charge there where a transfer does.
    fn share(
        &mut self,
        name: Name<'a>,
        source: Name<'a>,
        at: Name<'a>,
        is_transfer: bool,
    ) -> Result<(), Refused<'a>> {
        let source = self.source(source);
        // That the new name is taken goes before anything about the source.
        let Entry::Vacant(free) = self.buffers.entry(name) else {
            return Err(Refused::Taken(name));
        };
        let source = source?;
        let at = self.tree.find(at)?;
        let word = if is_transfer { "transfer " } else { "retain " };
        let mut end = if is_transfer { " fit\n" } else { "\n" };
        if source.is_empty() {
            free.insert(source.buffer);
            put!(&mut self.out; word, name, " empty", end);
            return Ok(());
        }
        source.check_held()?;
        self.tree.check_open(at)?;

        let Source { buffer, reference } = source;
        let chunk = self
            .chunks
            .get_mut(&buffer.chunk)
            .expect("a chunk with a reference");
        if chunk.retain(at) {
            self.tree.node(at).uses += 1;
        }
        if is_transfer && chunk.owner.at == reference.at && at != reference.at {
            let fits = self.tree.move_charge(reference.at, at, chunk.size);
            end = if fits { " fit\n" } else { " over\n" };
            chunk.pass_to(at);
        }
        free.insert(Buffer {
            reference: self.references.len() as u32,
            ..buffer
        });
        self.references.push(Reference { at, ..reference });
        put!(&mut self.out; word, name, " chunk ", buffer.chunk, " at #", at, end);
        Ok(())
    }

    fn slice(
        &mut self,
        name: Name<'a>,
        source: Name<'a>,
        from: u64,
        len: u64,
    ) -> Result<(), Refused<'a>> {
        let source = self.source(source);
        let Entry::Vacant(free) = self.buffers.entry(name) else {
            return Err(Refused::Taken(name));
        };
        let source = source?;
        source.check_held()?;
        let whole = source.buffer;
        if from + len > u64::from(whole.len) {
            return Err(Refused::Outside(whole.len));
        }
        let (start, len) = (whole.start + from as u32, len as u32);
        free.insert(Buffer {
            start,
            len,
            ..whole
        });
        put!(&mut self.out; "slice ", name, " from ", start, " len ", len, "\n");
        Ok(())
    }

    fn release(&mut self, name: Name<'a>) -> Result<(), Refused<'a>> {
        let source = self.source(name)?;
        if source.is_empty() {
            put!(&mut self.out; "release ", name, " empty\n");
            return Ok(());
        }
        source.check_held()?;
        let Source { buffer, reference } = source;
        self.references[buffer.reference as usize].is_given_back = true;
        let chunk = self
            .chunks
            .get_mut(&buffer.chunk)
            .expect("a chunk with a reference");
        let size = chunk.size;
        let left = chunk.release(reference.at);
        match left {
            Left::Ledger | Left::Chunk => {}
            Left::NewOwner(owner) => {
                self.tree.move_charge(reference.at, owner, size);
            }
            Left::Nothing => {
                self.tree.discharge(reference.at, u64::from(size));
                self.chunks.remove(&buffer.chunk);
            }
        }
        if let Left::Ledger = left {
            put!(&mut self.out; "release ", name, " kept\n");
        } else {
            self.tree.node(reference.at).uses -= 1;
            put!(&mut self.out; "release ", name, " gone\n");
        }
        Ok(())
    }

    fn report(&mut self) {
        self.tree.show(0, 0, &mut self.out);
        for (number, chunk) in &self.chunks {
            chunk.show(*number, &mut self.out);
        }
        let references = self.chunks.values().map(Chunk::references).sum::<u64>();
        put!(&mut self.out; "refs ", references, "\n");
    }
}

// ---- The command line

/// The file of the words `trace FILE`.
fn trace_file(words: &[OsString]) -> Option<&str> {
    match words {
        [command, file] if command == "trace" => file
            .to_str()
            .filter(|file| !file.is_empty() && !file.starts_with('-')),
        _ => None,
    }
}

/// The bytes of a file, of which at most one past the largest input is read.
fn read_file(path: &str) -> io::Result<Vec<u8>> {
    let file = File::open(path)?;
    let most = LARGEST_INPUT + 1;
    let mut bytes = Vec::with_capacity(file.metadata()?.len().min(most) as usize);
    file.take(most).read_to_end(&mut bytes)?;
    Ok(bytes)
}

/// The status, and what is to be printed.
fn answer(words: &[OsString]) -> (u8, Vec<u8>) {
    let Some(file) = trace_file(words) else {
        return (2, b"usage: peer trace FILE\n".to_vec());
    };
    let Ok(script) = read_file(file) else {
        return (5, format!("read fault: {file}\n").into_bytes());
    };
    if script.len() as u64 > LARGEST_INPUT {
        return (7, format!("too long: {file}\n").into_bytes());
    }
    match run(&script) {
        Ok(out) => (0, out),
        Err(line) => (3, format!("input: {file} line {line}\n").into_bytes()),
    }
}

fn main() -> ExitCode {
    let words = std::env::args_os().skip(1).collect::<Vec<_>>();
    let (status, text) = answer(&words);
    let mut out = io::stdout().lock();
    match out.write_all(&text).and_then(|()| out.flush()) {
        Ok(()) => ExitCode::from(status),
        Err(_) => ExitCode::from(6),
    }
}
