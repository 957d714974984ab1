//! Plans, from the part of TOML that the benchmark's plans are written in.

#[derive(Clone, Copy, PartialEq, Eq)]
pub enum Kind {
    Int,
    Sum,
    Text,
}

pub struct Column {
    pub name: String,
    pub kind: Kind,
}

#[derive(Clone, Copy)]
pub enum Op {
    Eq,
    Ne,
    Lt,
    Le,
    Gt,
    Ge,
}

pub enum Value {
    Int(i64),
    Text(String),
}

pub struct Test {
    pub column: usize,
    pub op: Op,
    pub value: Value,
}

pub enum Output {
    Select(Vec<usize>),
    Group { key: usize, sums: Vec<usize> },
}

pub struct Plan {
    pub columns: Vec<Column>,
    pub batch: usize,
    pub tests: Vec<Test>,
    pub output: Output,
    pub limits: [u64; 6],
    pub reserves: [u64; 6],
}

/// The allocators in order of number.
pub const NAMES: [&str; 6] = ["ROOT", "scan", "filter", "project", "sums", "result"];

/// A line `KEY = VALUE` at a time, under the last header. The plans of the benchmark have nothing else.
pub fn read_plan(text: &str) -> Option<Plan> {
    let (mut columns, mut batch) = (Vec::new(), 1024);
    let (mut select, mut group, mut sums) = (None, None, None);
    let mut tests: Vec<[&str; 3]> = Vec::new();
    let (mut limits, mut reserves) = ([i64::MAX as u64; 6], [0; 6]);
    let mut header = "";
    for line in text.lines().map(str::trim).filter(|line| !line.is_empty()) {
        if line.starts_with('[') {
            header = line;
            if header == "[[filter]]" {
                tests.push([""; 3]);
            }
            continue;
        }
        let (key, value) = line.split_once('=')?;
        let (key, value) = (key.trim(), value.trim());
        match (header, key) {
            ("", "columns") => columns = strings(value)?.iter().map(|it| column(it)).collect::<Option<_>>()?,
            ("", "batch") => batch = value.parse().ok()?,
            ("", "select") => select = Some(strings(value)?),
            ("", "group") => group = Some(string(value)?),
            ("", "sums") => sums = Some(strings(value)?),
            ("[[filter]]", "column") => tests.last_mut()?[0] = string(value)?,
            ("[[filter]]", "op") => tests.last_mut()?[1] = string(value)?,
            ("[[filter]]", "value") => tests.last_mut()?[2] = value,
            ("[limits]", name) => limits[allocator(name)?] = value.parse().ok()?,
            ("[reserve]", name) => reserves[allocator(name)?] = value.parse().ok()?,
            _ => return None,
        }
    }
    let place = |name: &str| columns.iter().position(|it: &Column| it.name == name);
    let places = |names: Vec<&str>| names.into_iter().map(place).collect::<Option<Vec<_>>>();
    let output = match (select, group, sums) {
        (Some(names), None, None) => Output::Select(places(names)?),
        (None, Some(key), Some(names)) => Output::Group { key: place(key)?, sums: places(names)? },
        _ => return None,
    };
    let tests = tests.into_iter().map(|it| test(it, &place)).collect::<Option<_>>()?;
    Some(Plan { columns, batch, tests, output, limits, reserves })
}

fn string(value: &str) -> Option<&str> {
    value.strip_prefix('"')?.strip_suffix('"')
}

fn strings(value: &str) -> Option<Vec<&str>> {
    value.strip_prefix('[')?.strip_suffix(']')?.split(',').map(|it| string(it.trim())).collect()
}

fn column(text: &str) -> Option<Column> {
    let (name, kind) = text.split_once(':')?;
    let kind = match kind {
        "int" => Kind::Int,
        "text" => Kind::Text,
        _ => return None,
    };
    Some(Column { name: name.into(), kind })
}

fn test([name, op, value]: [&str; 3], place: &impl Fn(&str) -> Option<usize>) -> Option<Test> {
    let op = match op {
        "eq" => Op::Eq,
        "ne" => Op::Ne,
        "lt" => Op::Lt,
        "le" => Op::Le,
        "gt" => Op::Gt,
        "ge" => Op::Ge,
        _ => return None,
    };
    let value = match string(value) {
        Some(text) => Value::Text(text.into()),
        None => Value::Int(value.parse().ok()?),
    };
    Some(Test { column: place(name)?, op, value })
}

fn allocator(name: &str) -> Option<usize> {
    NAMES.iter().position(|it| it.eq_ignore_ascii_case(name)).or((name == "root").then_some(0))
}
