//! A plain program that answers the queries of `arrowmem query` on one thread, written to be fast, for the benchmark alone: columns in
//! buffers, batches, operators with accounts and references as the formats have them. No check of overflow, no proof.
//!
//! ```sh
//! peer query PLAN DATA     # the answer, the report, `closed 6`
//! peer rows PLAN DATA      # reads the table, and prints how many rows it has
//! peer stored PLAN DATA    # stores each batch besides, and releases it
//! peer back PLAN DATA      # reads each batch back besides, and prints a sum over what it read
//! ```

mod accounts;
mod buffers;
mod operators;
mod plan;
mod table;

use accounts::{Accounts, Full, PROJECT, RESULT, SCAN};
use operators::{Answer, answer_text};
use plan::{Output, Plan};
use std::io::{self, Write};
use std::{env, fs, process};
use table::Rows;

/// How the program ends where it has no answer: its status and its line.
struct Stopped(i32, String);

fn main() {
    let words: Vec<String> = env::args().skip(1).collect();
    let (text, status) = match run(&words) {
        Ok(out) => (out, 0),
        Err(Stopped(status, line)) => (line.into_bytes(), status),
    };
    if io::stdout().write_all(&text).is_err() {
        process::exit(6);
    }
    process::exit(status);
}

fn run(words: &[String]) -> Result<Vec<u8>, Stopped> {
    let [stage, plan_file, data_file] = words else {
        return Err(Stopped(2, "usage: peer query|rows|stored|back PLAN DATA\n".into()));
    };
    let plan_text = read(plan_file)?;
    let plan = std::str::from_utf8(&plan_text).ok().and_then(plan::read_plan);
    let plan = plan.ok_or_else(|| Stopped(3, format!("input: {plan_file}\n")))?;
    let data = read(data_file)?;
    let rows = table::read_rows(&plan.columns, &data)
        .map_err(|bad| Stopped(3, format!("input: {data_file} row {}\n", bad.row)))?;
    drop(data);
    match stage.as_str() {
        "query" => query(&plan, &rows),
        "rows" => Ok(format!("{} rows\n", rows.count).into_bytes()),
        "stored" => stored(&plan, &rows, false),
        "back" => stored(&plan, &rows, true),
        _ => Err(Stopped(2, "usage: peer query|rows|stored|back PLAN DATA\n".into())),
    }
}

fn read(file: &str) -> Result<Vec<u8>, Stopped> {
    fs::read(file).map_err(|_| Stopped(5, format!("read fault: {file}\n")))
}

fn full(at: Full, batch: usize) -> Stopped {
    let Full { node, held, amount, limit } = at;
    Stopped(4, format!("full: #{node} held {held} amount {amount} limit {limit} batch {batch}\n"))
}

/// Stores each batch at the scan and releases it, and reads it back in between where that is asked for.
fn stored(plan: &Plan, rows: &Rows, back: bool) -> Result<Vec<u8>, Stopped> {
    let mut accounts = Accounts::open(plan).map_err(|at| full(at, 0))?;
    let mut sum = 0_i64;
    for (number, range) in rows.batches(plan.batch).enumerate() {
        let batch = buffers::store_rows(&mut accounts, SCAN, rows, range).map_err(|at| full(at, number + 1))?;
        if back {
            sum = sum.wrapping_add(buffers::rows_of(&batch).checksum());
        }
        batch.release(&mut accounts);
    }
    Ok(format!("{} rows, {sum}\n", rows.count).into_bytes())
}

fn query(plan: &Plan, rows: &Rows) -> Result<Vec<u8>, Stopped> {
    let mut accounts = Accounts::open(plan).map_err(|at| full(at, 0))?;
    let mut answers = Vec::new();
    for (number, range) in rows.batches(plan.batch).enumerate() {
        let answer = one_batch(plan, rows, range, &mut accounts).map_err(|at| full(at, number + 1))?;
        answers.push(answer);
    }
    let merged = operators::merge(&mut accounts, RESULT, &plan.output, answers).map_err(|at| full(at, 0))?;
    let mut out = answer_text(plan, &merged);
    accounts.report(&mut out);
    for batch in merged {
        batch.release(&mut accounts);
    }
    out.extend_from_slice(b"closed 6\n");
    Ok(out)
}

fn one_batch(plan: &Plan, rows: &Rows, range: std::ops::Range<usize>, accounts: &mut Accounts) -> Result<Answer, Full> {
    let scanned = buffers::store_rows(accounts, SCAN, rows, range)?;
    let filtered = operators::filter(accounts, &plan.tests, scanned)?;
    match &plan.output {
        Output::Select(picks) => Ok(operators::project(accounts, PROJECT, picks, filtered)),
        Output::Group { key, sums } => operators::group_sums(accounts, *key, sums, filtered),
    }
}
