//! Tables: bytes as columns.

use crate::plan::{Column, Kind};
use std::ops::Range;

/// A column's cells in order. A text ends where its number says; the first begins at 0.
pub enum Cells {
    Ints { values: Vec<i64>, known: Vec<bool> },
    Texts { bytes: Vec<u8>, ends: Vec<u32> },
}

pub struct Rows {
    pub count: usize,
    pub columns: Vec<Cells>,
}

/// The first row that has no reading; the header is row 0.
pub struct Bad {
    pub row: usize,
}

const MOST_ROWS: usize = 4_000_000;

impl Cells {
    pub fn new(kind: Kind) -> Cells {
        match kind {
            Kind::Int | Kind::Sum => Cells::Ints { values: Vec::new(), known: Vec::new() },
            Kind::Text => Cells::Texts { bytes: Vec::new(), ends: Vec::new() },
        }
    }

    fn push(&mut self, field: &[u8]) -> Option<()> {
        match self {
            Cells::Ints { values, known } => {
                let value = if field.is_empty() { 0 } else { int(field)? };
                values.push(value);
                known.push(!field.is_empty());
            }
            Cells::Texts { bytes, ends } => {
                std::str::from_utf8(field).ok()?;
                bytes.extend_from_slice(field);
                ends.push(bytes.len() as u32);
            }
        }
        Some(())
    }
}

impl Rows {
    /// The ranges of rows that batches are cut into.
    pub fn batches(&self, size: usize) -> impl Iterator<Item = Range<usize>> + use<> {
        let count = self.count;
        (0..count.div_ceil(size)).map(move |i| i * size..((i + 1) * size).min(count))
    }

    /// A sum over all cells, so that nobody leaves the reading out.
    pub fn checksum(&self) -> i64 {
        let of = |cells: &Cells| match cells {
            Cells::Ints { values, known } => values.iter().sum::<i64>() + known.iter().filter(|it| **it).count() as i64,
            Cells::Texts { bytes, ends } => bytes.iter().map(|it| i64::from(*it)).sum::<i64>() + ends.len() as i64,
        };
        self.columns.iter().map(of).fold(0, i64::wrapping_add)
    }
}

/// An optional minus and digits, within 64 bits.
fn int(field: &[u8]) -> Option<i64> {
    let (negative, digits) = match field {
        [b'-', digits @ ..] => (true, digits),
        digits => (false, digits),
    };
    if digits.is_empty() {
        return None;
    }
    if digits.len() > 18 {
        let text = std::str::from_utf8(field).ok()?;
        return digits.iter().all(u8::is_ascii_digit).then(|| text.parse().ok())?;
    }
    let mut value = 0_i64;
    for byte in digits {
        if !byte.is_ascii_digit() {
            return None;
        }
        value = value * 10 + i64::from(byte - b'0');
    }
    Some(if negative { -value } else { value })
}

/// The fields of one record after the other, as `csv` reads them with its default settings.
struct Reader<'a> {
    left: &'a [u8],
    quoted: Vec<u8>,
}

enum End {
    Field,
    Record,
}

impl<'a> Reader<'a> {
    /// Whether a record is left; empty lines are none.
    fn has_record(&mut self) -> bool {
        while let [b'\n' | b'\r', rest @ ..] = self.left {
            self.left = rest;
        }
        !self.left.is_empty()
    }

    /// The next field, by what `take` makes of it, and whether the record ends with it.
    fn field<T>(&mut self, take: impl FnOnce(&[u8]) -> T) -> (T, End) {
        if let [b'"', rest @ ..] = self.left {
            self.left = rest;
            return self.quoted_field(take);
        }
        let left = self.left;
        let len = left.iter().position(|it| matches!(it, b',' | b'\n' | b'\r')).unwrap_or(left.len());
        let taken = take(&left[..len]);
        (taken, self.end(&left[len..]))
    }

    fn quoted_field<T>(&mut self, take: impl FnOnce(&[u8]) -> T) -> (T, End) {
        self.quoted.clear();
        let mut left = self.left;
        let mut inside = true;
        loop {
            match left {
                [b'"', b'"', rest @ ..] if inside => {
                    self.quoted.push(b'"');
                    left = rest;
                }
                [b'"', rest @ ..] if inside => {
                    inside = false;
                    left = rest;
                }
                [] => break,
                [b',' | b'\n' | b'\r', ..] if !inside => break,
                [byte, rest @ ..] => {
                    self.quoted.push(*byte);
                    left = rest;
                }
            }
        }
        let taken = take(&self.quoted);
        (taken, self.end(left))
    }

    fn end(&mut self, left: &'a [u8]) -> End {
        let (end, left) = match left {
            [b',', rest @ ..] => (End::Field, rest),
            [b'\r', b'\n', rest @ ..] | [b'\r' | b'\n', rest @ ..] => (End::Record, rest),
            rest => (End::Record, rest),
        };
        self.left = left;
        end
    }
}

/// A table's rows, column by column.
pub fn read_rows(columns: &[Column], bytes: &[u8]) -> Result<Rows, Bad> {
    let left = bytes.strip_prefix(b"\xEF\xBB\xBF").unwrap_or(bytes);
    let mut reader = Reader { left, quoted: Vec::new() };
    if !reader.has_record() || read_header(columns, &mut reader).is_none() {
        return Err(Bad { row: 0 });
    }
    let mut rows = Rows { count: 0, columns: columns.iter().map(|it| Cells::new(it.kind)).collect() };
    while reader.has_record() {
        let row = rows.count + 1;
        if row > MOST_ROWS || read_row(&mut rows.columns, &mut reader).is_none() {
            return Err(Bad { row });
        }
        rows.count = row;
    }
    Ok(rows)
}

fn read_header(columns: &[Column], reader: &mut Reader) -> Option<()> {
    for (place, column) in columns.iter().enumerate() {
        let (same, end) = reader.field(|field| field == column.name.as_bytes());
        if !same || matches!(end, End::Record) != (place + 1 == columns.len()) {
            return None;
        }
    }
    Some(())
}

fn read_row(columns: &mut [Cells], reader: &mut Reader) -> Option<()> {
    let count = columns.len();
    for (place, column) in columns.iter_mut().enumerate() {
        let (pushed, end) = reader.field(|field| column.push(field));
        pushed?;
        if matches!(end, End::Record) != (place + 1 == count) {
            return None;
        }
    }
    Some(())
}
