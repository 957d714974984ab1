//! Filter, projection, sums by group, the merge, and the text of an answer.

use crate::accounts::{Accounts, FILTER, Full, SUMS};
use crate::buffers::{Batch, Encoded, int_at, is_known, offset_at, validity_of};
use crate::plan::{Kind, Op, Output, Plan, Test, Value};
use std::cmp::Ordering;
use std::collections::HashMap;
use std::io::Write;

/// What a batch gives, and what the merge takes.
pub type Answer = Batch;

fn accepts(op: Op, order: Ordering) -> bool {
    match op {
        Op::Eq => order.is_eq(),
        Op::Ne => order.is_ne(),
        Op::Lt => order.is_lt(),
        Op::Le => order.is_le(),
        Op::Gt => order.is_gt(),
        Op::Ge => order.is_ge(),
    }
}

fn meets(batch: &Batch, row: usize, test: &Test) -> bool {
    let [first, second] = &batch.buffers[test.column];
    match &test.value {
        Value::Int(value) => is_known(&first.bytes, row) && accepts(test.op, int_at(&second.bytes, row).cmp(value)),
        Value::Text(value) => accepts(test.op, batch.text(test.column, row).cmp(value.as_bytes())),
    }
}

/// The cells of a column in some rows.
fn gathered(batch: &Batch, column: usize, rows: &[u32]) -> Encoded {
    let [first, second] = &batch.buffers[column];
    match batch.kinds[column] {
        Kind::Text => {
            let mut offsets = Vec::with_capacity((rows.len() + 1) * 4);
            let mut texts = Vec::with_capacity(second.bytes.len());
            offsets.extend_from_slice(&[0; 4]);
            for row in rows {
                let row = *row as usize;
                texts.extend_from_slice(&second.bytes[offset_at(&first.bytes, row)..offset_at(&first.bytes, row + 1)]);
                offsets.extend_from_slice(&(texts.len() as u32).to_le_bytes());
            }
            (Kind::Text, [offsets, texts])
        }
        kind => {
            let known: Vec<bool> = rows.iter().map(|row| is_known(&first.bytes, *row as usize)).collect();
            let mut data = Vec::with_capacity(rows.len() * 8);
            for row in rows {
                data.extend_from_slice(&second.bytes[*row as usize * 8..][..8]);
            }
            (kind, [validity_of(&known), data])
        }
    }
}

/// Stores the rows that meet all tests, and releases the input.
pub fn filter(accounts: &mut Accounts, tests: &[Test], input: Batch) -> Result<Batch, Full> {
    let rows: Vec<u32> = (0..input.rows as u32)
        .filter(|row| tests.iter().all(|test| meets(&input, *row as usize, test)))
        .collect();
    let columns = (0..input.kinds.len()).map(|column| gathered(&input, column, &rows)).collect();
    let kept = Batch::store(accounts, FILTER, rows.len(), columns);
    input.release(accounts);
    kept
}

/// Moves the buffers of the picked columns, and releases the others.
pub fn project(accounts: &mut Accounts, target: usize, picks: &[usize], input: Batch) -> Batch {
    let Batch { rows, kinds, buffers } = input;
    let mut buffers: Vec<_> = buffers.into_iter().map(Some).collect();
    let mut picked = Batch { rows, kinds: picks.iter().map(|pick| kinds[*pick]).collect(), buffers: Vec::with_capacity(picks.len()) };
    for pick in picks {
        let mut pair = buffers[*pick].take().expect("picks differ");
        for buffer in &mut pair {
            buffer.reference = accounts.move_to(buffer.reference, target);
        }
        picked.buffers.push(pair);
    }
    for buffer in buffers.into_iter().flatten().flatten() {
        accounts.release(buffer.reference);
    }
    picked
}

/// The sums of groups, by the printed bytes of their keys.
struct Groups {
    places: HashMap<Vec<u8>, usize>,
    sums: Vec<Vec<Option<i128>>>,
}

impl Groups {
    fn new(sums: usize) -> Groups {
        Groups { places: HashMap::new(), sums: vec![Vec::new(); sums] }
    }

    fn add(&mut self, key: &[u8], batch: &Batch, row: usize, columns: impl Iterator<Item = usize>) {
        let place = match self.places.get(key) {
            Some(place) => *place,
            None => {
                let place = self.places.len();
                self.places.insert(key.to_vec(), place);
                self.sums.iter_mut().for_each(|it| it.push(None));
                place
            }
        };
        for (sums, column) in self.sums.iter_mut().zip(columns) {
            if let Some(number) = batch.number(column, row) {
                sums[place] = Some(sums[place].unwrap_or(0) + number);
            }
        }
    }

    /// The groups in order of their keys' bytes.
    fn store(self, accounts: &mut Accounts, at: usize) -> Result<Batch, Full> {
        let mut groups: Vec<(Vec<u8>, usize)> = self.places.into_iter().collect();
        groups.sort_unstable();
        let (mut offsets, mut texts) = (vec![0; 4], Vec::new());
        for (key, _) in &groups {
            texts.extend_from_slice(key);
            offsets.extend_from_slice(&(texts.len() as u32).to_le_bytes());
        }
        let mut columns = vec![(Kind::Text, [offsets, texts])];
        for sums in &self.sums {
            let sums: Vec<Option<i128>> = groups.iter().map(|(_, place)| sums[*place]).collect();
            let known: Vec<bool> = sums.iter().map(Option::is_some).collect();
            let data = sums.iter().flat_map(|sum| sum.unwrap_or(0).to_le_bytes()).collect();
            columns.push((Kind::Sum, [validity_of(&known), data]));
        }
        Batch::store(accounts, at, groups.len(), columns)
    }
}

/// Stores a row for each key with the sums of its numbers, and releases the input.
pub fn group_sums(accounts: &mut Accounts, key: usize, sums: &[usize], input: Batch) -> Result<Batch, Full> {
    let mut groups = Groups::new(sums.len());
    let mut printed = Vec::new();
    for row in 0..input.rows {
        if input.kinds[key] == Kind::Text {
            groups.add(input.text(key, row), &input, row, sums.iter().copied());
        } else {
            printed.clear();
            put_number(&mut printed, input.number(key, row));
            groups.add(&printed, &input, row, sums.iter().copied());
        }
    }
    let stored = groups.store(accounts, SUMS);
    input.release(accounts);
    stored
}

/// Moves the answers of batches to the result, or stores the groups of all of them there.
pub fn merge(accounts: &mut Accounts, at: usize, output: &Output, answers: Vec<Answer>) -> Result<Vec<Batch>, Full> {
    match output {
        Output::Select(picks) => {
            let all: Vec<usize> = (0..picks.len()).collect();
            Ok(answers.into_iter().map(|batch| project(accounts, at, &all, batch)).collect())
        }
        Output::Group { sums, .. } => {
            let mut groups = Groups::new(sums.len());
            for batch in &answers {
                for row in 0..batch.rows {
                    groups.add(batch.text(0, row), batch, row, 1..=sums.len());
                }
            }
            let stored = groups.store(accounts, at);
            for batch in answers {
                batch.release(accounts);
            }
            Ok(vec![stored?])
        }
    }
}

fn put_number(out: &mut Vec<u8>, number: Option<i128>) {
    match number.map(i64::try_from) {
        None => {}
        Some(Ok(number)) => write!(out, "{number}").expect("a vector takes all bytes"),
        Some(Err(_)) => write!(out, "{}", number.expect("it was some")).expect("a vector takes all bytes"),
    }
}

/// A field as `csv` writes it.
fn put_field(out: &mut Vec<u8>, field: &[u8]) {
    if !field.iter().any(|it| matches!(it, b',' | b'"' | b'\n' | b'\r')) {
        out.extend_from_slice(field);
        return;
    }
    out.push(b'"');
    for byte in field {
        if *byte == b'"' {
            out.push(b'"');
        }
        out.push(*byte);
    }
    out.push(b'"');
}

/// A record of one empty field is written as two double quotes.
fn end_record(out: &mut Vec<u8>, from: usize) {
    if out.len() == from {
        out.extend_from_slice(b"\"\"");
    }
    out.push(b'\n');
}

/// The header and the rows of an answer, as `csv` writes them.
pub fn answer_text(plan: &Plan, batches: &[Batch]) -> Vec<u8> {
    let mut out = Vec::new();
    let name = |column: usize| plan.columns[column].name.as_str();
    let header: Vec<String> = match &plan.output {
        Output::Select(picks) => picks.iter().map(|pick| name(*pick).into()).collect(),
        Output::Group { key, sums } => {
            let sums = sums.iter().map(|sum| format!("sum_{}", name(*sum)));
            std::iter::once(name(*key).into()).chain(sums).collect()
        }
    };
    for (place, field) in header.iter().enumerate() {
        if place > 0 {
            out.push(b',');
        }
        put_field(&mut out, field.as_bytes());
    }
    out.push(b'\n');
    for batch in batches {
        for row in 0..batch.rows {
            let from = out.len();
            for column in 0..batch.kinds.len() {
                if column > 0 {
                    out.push(b',');
                }
                match batch.kinds[column] {
                    Kind::Text => put_field(&mut out, batch.text(column, row)),
                    _ => put_number(&mut out, batch.number(column, row)),
                }
            }
            end_record(&mut out, from);
        }
    }
    out
}
