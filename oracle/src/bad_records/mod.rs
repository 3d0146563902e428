//! The vectors of records at fault: each refusal that a record can get, with the smallest record that gets it at each
//! place, and beside them records at the very limits, which are admitted. Records one after the other, all whole, and
//! in a file of their own the answers. Each record says here what it must get; the judge of records, which is written
//! from the definition of the build, must say the same. The others are asked of the Rust, as those of scene_vectors
//! are.

mod counts;
mod doubled;
mod numbers;
mod orders;

use crate::coverage_table::{self, Column};
use crate::edge_vectors::call::{CLOSED, OPEN};
use crate::records::with_length;
use crate::scene_vectors::{ask_record, Case, Set};
use crate::words::hex_bytes;

const CLOSED_BYTE: u8 = CLOSED as u8;
const OPEN_BYTE: u8 = OPEN as u8;

/// What it shows, the bytes behind the length, and the number it must get; none where it is answered.
type Named = (&'static str, Vec<u8>, Option<u32>);

/// What it shows, and what it must give.
type Shown = (&'static str, Case);

/// No record gets 8 or 10.
const COLUMNS: [Column<Shown>; 11] = [
    ("in all", |_| true),
    ("get 1", |shown| shown.1.refusal() == Some(1)),
    ("get 2", |shown| shown.1.refusal() == Some(2)),
    ("get 3", |shown| shown.1.refusal() == Some(3)),
    ("get 4", |shown| shown.1.refusal() == Some(4)),
    ("get 5", |shown| shown.1.refusal() == Some(5)),
    ("get 6", |shown| shown.1.refusal() == Some(6)),
    ("get 7", |shown| shown.1.refusal() == Some(7)),
    ("get 9", |shown| shown.1.refusal() == Some(9)),
    ("get 14", |shown| shown.1.refusal() == Some(14)),
    ("are answered", |shown| shown.1.refusal().is_none()),
];

/// The same bytes at each call.
pub fn set() -> Result<Set, String> {
    let mut records = counts::records();
    records.extend(numbers::records());
    records.extend(orders::records());
    records.extend(doubled::records());
    let mut shown = Vec::new();
    for record in records {
        shown.push(ask(record)?);
    }
    if let Some((missing, _)) = COLUMNS.iter().find(|(_, kind)| !shown.iter().any(kind)) {
        return Err(format!("no records that {missing}"));
    }
    let mut rows: Vec<(&str, &str)> = Vec::new();
    for (row, _) in &shown {
        if !rows.contains(&(row, row)) {
            rows.push((row, row));
        }
    }
    let table = coverage_table::of(&shown, ("Records", &COLUMNS), &rows, |row, (name, _)| {
        row == name
    })?;
    let cases = shown.into_iter().map(|(_, case)| case).collect::<Vec<_>>();
    Ok(Set::of(&cases, table))
}

fn ask((row, rest, number): Named) -> Result<Shown, String> {
    let record = with_length(rest);
    let shown = hex_bytes(&record[..record.len().min(100)]);
    let case = ask_record(record)?;
    if case.refusal() != number {
        let got = case.refusal();
        return Err(format!("{row}: it gets {got:?}, not {number:?}: {shown}"));
    }
    if case.leaves_a_zero_open() {
        return Err(format!(
            "{row}: the Rust leaves a zero's sign open: {shown}"
        ));
    }
    Ok((row, case))
}
