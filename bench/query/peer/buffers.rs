//! Columns in buffers, after the Arrow columnar format.

use crate::accounts::{Accounts, Full, Ref};
use crate::plan::Kind;
use crate::table::{Cells, Rows};
use std::ops::Range;

pub struct Buffer {
    pub reference: Ref,
    pub bytes: Vec<u8>,
}

/// Rows in buffers, two a column: validity and data, or offsets and texts.
pub struct Batch {
    pub rows: usize,
    pub kinds: Vec<Kind>,
    pub buffers: Vec<[Buffer; 2]>,
}

/// The bytes of a column's two buffers, before they have an account.
pub type Encoded = (Kind, [Vec<u8>; 2]);

impl Batch {
    /// Asks for each buffer in order, and gives what was granted back where one is refused.
    pub fn store(accounts: &mut Accounts, at: usize, rows: usize, columns: Vec<Encoded>) -> Result<Batch, Full> {
        let mut batch = Batch { rows, kinds: Vec::with_capacity(columns.len()), buffers: Vec::with_capacity(columns.len()) };
        for (kind, [first, second]) in columns {
            let one = match accounts.grant(at, first.len()) {
                Ok(one) => one,
                Err(full) => return batch.refused(accounts, full),
            };
            let two = match accounts.grant(at, second.len()) {
                Ok(two) => two,
                Err(full) => {
                    accounts.release(one);
                    return batch.refused(accounts, full);
                }
            };
            batch.kinds.push(kind);
            batch.buffers.push([Buffer { reference: one, bytes: first }, Buffer { reference: two, bytes: second }]);
        }
        Ok(batch)
    }

    fn refused(self, accounts: &mut Accounts, full: Full) -> Result<Batch, Full> {
        self.release(accounts);
        Err(full)
    }

    pub fn release(self, accounts: &mut Accounts) {
        for buffer in self.buffers.iter().flatten() {
            accounts.release(buffer.reference);
        }
    }

    /// The whole numbers of a column of numbers, by row; none where the cell is null.
    pub fn number(&self, column: usize, row: usize) -> Option<i128> {
        let [validity, data] = &self.buffers[column];
        if !is_known(&validity.bytes, row) {
            return None;
        }
        Some(match self.kinds[column] {
            Kind::Sum => i128::from_le_bytes(data.bytes[row * 16..][..16].try_into().expect("16 bytes")),
            _ => i128::from(int_at(&data.bytes, row)),
        })
    }

    pub fn text(&self, column: usize, row: usize) -> &[u8] {
        let [offsets, texts] = &self.buffers[column];
        &texts.bytes[offset_at(&offsets.bytes, row)..offset_at(&offsets.bytes, row + 1)]
    }
}

pub fn is_known(validity: &[u8], row: usize) -> bool {
    validity[row / 8] >> (row % 8) & 1 == 1
}

pub fn int_at(data: &[u8], row: usize) -> i64 {
    i64::from_le_bytes(data[row * 8..][..8].try_into().expect("8 bytes"))
}

pub fn offset_at(offsets: &[u8], place: usize) -> usize {
    u32::from_le_bytes(offsets[place * 4..][..4].try_into().expect("4 bytes")) as usize
}

/// A bit a row, the least first.
pub fn validity_of(known: &[bool]) -> Vec<u8> {
    let byte = |part: &[bool]| part.iter().enumerate().fold(0, |byte, (i, known)| byte | u8::from(*known) << i);
    known.chunks(8).map(byte).collect()
}

fn encode(cells: &Cells, range: Range<usize>) -> Encoded {
    match cells {
        Cells::Ints { values, known } => {
            let mut data = Vec::with_capacity(range.len() * 8);
            for value in &values[range.clone()] {
                data.extend_from_slice(&value.to_le_bytes());
            }
            (Kind::Int, [validity_of(&known[range]), data])
        }
        Cells::Texts { bytes, ends } => {
            let from = if range.start == 0 { 0 } else { ends[range.start - 1] };
            let mut offsets = Vec::with_capacity((range.len() + 1) * 4);
            offsets.extend_from_slice(&[0; 4]);
            for end in &ends[range.clone()] {
                offsets.extend_from_slice(&(end - from).to_le_bytes());
            }
            let to = if range.is_empty() { from } else { ends[range.end - 1] };
            (Kind::Text, [offsets, bytes[from as usize..to as usize].to_vec()])
        }
    }
}

pub fn store_rows(accounts: &mut Accounts, at: usize, rows: &Rows, range: Range<usize>) -> Result<Batch, Full> {
    let columns = rows.columns.iter().map(|cells| encode(cells, range.clone())).collect();
    Batch::store(accounts, at, range.len(), columns)
}

/// The rows of a batch of a table, column by column.
pub fn rows_of(batch: &Batch) -> Rows {
    let decode = |(kind, [first, second]): (&Kind, &[Buffer; 2])| match kind {
        Kind::Text => {
            let ends = (1..=batch.rows).map(|i| offset_at(&first.bytes, i) as u32).collect();
            Cells::Texts { bytes: second.bytes.clone(), ends }
        }
        _ => Cells::Ints {
            values: (0..batch.rows).map(|i| int_at(&second.bytes, i)).collect(),
            known: (0..batch.rows).map(|i| is_known(&first.bytes, i)).collect(),
        },
    };
    Rows { count: batch.rows, columns: batch.kinds.iter().zip(&batch.buffers).map(decode).collect() }
}
