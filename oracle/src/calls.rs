//! Calls that are told a length or the number of a refusal, and leave a buffer: those by hand and drawn ones, and the
//! table of what they cover.

use crate::coverage_table::{self, Column};
use crate::random::Random;
use crate::scale::Parts;
use crate::scene_vectors::Set;
use crate::words::hex_bytes;

pub const SENTINEL: u8 = 0xA5;

pub trait Call: Sized {
    /// The length that is told, or the number of the refusal.
    fn told(&self) -> Result<usize, u32>;
    /// The call's own bytes.
    fn bytes(&self) -> Vec<u8>;
    /// What is told, and the whole buffer.
    fn answer(&self) -> Vec<u8>;
    fn drawn(random: &mut Random) -> Self;
}

/// What a call shows, and what it is told.
pub type Shown<C> = (&'static str, C, Result<usize, u32>);

/// The calls by hand, each of which must be told what stands beside it, and so many drawn from a seed; `what` names them
/// in the table, of which every column must count some.
pub fn set<C: Call>(
    (what, columns): (&str, &[Column<Shown<C>>]),
    named: Vec<Shown<C>>,
    (seed, count): (u64, usize),
) -> Result<Set, String> {
    let mut shown = Vec::new();
    for (row, call, told) in named {
        if call.told() != told {
            let bytes = hex_bytes(&call.bytes());
            return Err(format!("{row}: {:?}, not {told:?}: {bytes}", call.told()));
        }
        shown.push((row, call, told));
    }
    let mut random = Random::new(seed);
    for _ in 0..count {
        let call = C::drawn(&mut random);
        let told = call.told();
        shown.push(("drawn, with up to three faults", call, told));
    }
    if let Some((missing, _)) = columns.iter().find(|(_, kind)| !shown.iter().any(kind)) {
        return Err(format!("{what}: none that {missing}"));
    }
    let mut rows: Vec<(&str, &str)> = shown.iter().map(|(row, ..)| (*row, *row)).collect();
    rows.dedup();
    let table = coverage_table::of(&shown, (what, columns), &rows, |row, shown| {
        *row == shown.0
    })?;
    Ok(Set {
        records: shown.iter().flat_map(|(_, call, _)| call.bytes()).collect(),
        answers: shown
            .iter()
            .flat_map(|(_, call, _)| call.answer())
            .collect(),
        table,
    })
}

/// A drawn call, and its answer.
pub fn at_scale<C: Call>(random: &mut Random) -> Result<Parts, String> {
    let call = C::drawn(random);
    Ok(vec![call.bytes(), call.answer()])
}
