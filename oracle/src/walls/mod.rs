//! The vectors of the wall check (02, T-08): moves over lent obstacles, each with what is told of it, one record after
//! the other. A record, in words: from (2), to (2), the obstacles' count, how many kinds, counts and numbers of
//! vertices are lent; the answer, 0 where the move is clear, 1 where it crosses an edge, 100 + number for a refusal;
//! obstacle and left vertex of the first crossed edge, and how many are crossed, 0 where none is. Then the numbers, a
//! word each, the kinds and the counts, a byte each. Whether an edge is crossed is by the times of the given
//! `time_to_intersect_lines`. The Rust has no wall check: walk.rs is one, written from 01 and 02 alone.

mod drawn;
mod named;
mod walk;

use glam::Vec2;

use crate::coverage_table::{self, Column};
use crate::lent::Lent;
use crate::random::Random;
use crate::scale::Parts;
use crate::words::{hex_bytes, Words};

const SEED: u64 = 0x7761_6C6C_73;
const DRAWN: usize = 2_000;
const REFUSED: u32 = 100;

#[derive(Clone)]
pub struct Call {
    pub from: Vec2,
    pub to: Vec2,
    pub lent: Lent,
}

/// The first crossed edge in record order, by its obstacle and its left vertex, and how many are crossed.
#[derive(Clone, Copy, PartialEq, Debug)]
pub struct Crossed {
    pub obstacle: usize,
    pub vertex: usize,
    pub count: usize,
}

/// An edge that is crossed, or none; or the number of the refusal.
type Told = Result<Option<Crossed>, u32>;

/// What a call shows, and what is told of it.
type Shown = (&'static str, Call, Told);

const COLUMNS: [Column<Shown>; 10] = [
    ("in all", |_| true),
    ("are clear", |shown| shown.2 == Ok(None)),
    ("cross one edge", |shown| crossed(shown, 1..=1)),
    ("cross more", |shown| crossed(shown, 2..=192)),
    ("get 2", |shown| shown.2 == Err(2)),
    ("get 3", |shown| shown.2 == Err(3)),
    ("get 4", |shown| shown.2 == Err(4)),
    ("get 5", |shown| shown.2 == Err(5)),
    ("get 6", |shown| shown.2 == Err(6)),
    ("get 14", |shown| shown.2 == Err(14)),
];

fn crossed(shown: &Shown, counts: std::ops::RangeInclusive<usize>) -> bool {
    matches!(shown.2, Ok(Some(crossed)) if counts.contains(&crossed.count))
}

/// The same bytes at each call, and the table of what they cover.
pub fn bytes() -> Result<(Vec<u8>, String), String> {
    let mut shown = named::calls();
    for (row, call, told) in &shown {
        if walk::check(call) != *told {
            let call = hex_bytes(&Words::of(&[(*row, call.clone(), *told)], write_record));
            return Err(format!("{row}: not {told:?}: {call}"));
        }
    }
    let mut random = Random::new(SEED);
    shown.extend((0..DRAWN).map(|_| ask(drawn::call(&mut random))));
    if let Some((missing, _)) = COLUMNS.iter().find(|(_, kind)| !shown.iter().any(kind)) {
        return Err(format!("no moves that {missing}"));
    }
    let named = shown.iter().map(|(row, ..)| *row);
    let mut rows: Vec<&str> = named
        .take_while(|row| !drawn::rows().contains(row))
        .collect();
    rows.dedup();
    rows.extend(drawn::rows());
    let rows: Vec<(&str, &str)> = rows.into_iter().map(|row| (row, row)).collect();
    let table = coverage_table::of(&shown, ("Moves", &COLUMNS), &rows, |row, shown| {
        *row == shown.0
    })?;
    Ok((Words::of(&shown, write_record), table))
}

/// A drawn move's record.
pub fn at_scale(random: &mut Random) -> Result<Parts, String> {
    Ok(vec![Words::of(&[ask(drawn::call(random))], write_record)])
}

/// The record of a call.
pub fn answered(call: Call) -> Vec<u8> {
    Words::of(&[ask(("", call))], write_record)
}

fn ask((row, call): (&'static str, Call)) -> Shown {
    let told = walk::check(&call);
    (row, call, told)
}

fn write_record(words: &mut Words, (_, call, told): &Shown) {
    let lent = &call.lent;
    for number in [call.from.x, call.from.y, call.to.x, call.to.y] {
        words.bits(number);
    }
    words.word(lent.obstacles);
    for length in [lent.kinds.len(), lent.counts.len(), lent.vertices.len()] {
        words.word(length as u32);
    }
    words.word(match told {
        Ok(None) => 0,
        Ok(Some(_)) => 1,
        Err(number) => REFUSED + number,
    });
    let edge = told.ok().flatten();
    let edge = edge.map_or([0; 3], |edge| [edge.obstacle, edge.vertex, edge.count]);
    edge.iter().for_each(|number| words.word(*number as u32));
    lent.vertices.iter().for_each(|number| words.bits(*number));
    words.record(&lent.kinds);
    words.record(&lent.counts);
}
