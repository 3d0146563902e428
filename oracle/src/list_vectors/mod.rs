//! The vectors of the whole linear program: line lists, each with its answer, one record after the other.
//! A record: how many numbers, rigid count, limit, wish (2 words); the numbers, four a line; then the answer:
//! kind (0 solving, 1 relaxing, 2 rigid failure, 100 + number for a refusal), point (2 words), penetration,
//! failed line, its cause (65536 the circle, 131072 + index a parallel line, 196608 + index ends that crossed there), probes.
//! Where there is none: 0, and FFFFFFFF for the failed line.
//! Answers to admitted lists are the Rust's: the point of the plain build, which the counted one must give too, the rest
//! of the counted one. Refusals are those of judge.rs. coverage.rs says what the lists must show, all of it.

pub mod call;
mod coverage;
pub mod judge;
pub mod made;
pub mod named;
pub mod refused;

use std::panic;

use counters::{Branch, Cause};
use glam::Vec2;

use crate::builds::{solve_both, Solved};
use crate::line_lists::LineList;
use crate::random::Random;
use crate::scale::Parts;
use crate::words::Words;
use call::Call;

const SEED: u64 = 0x6C69_7374_73;
const AT_LEAST: usize = 20_000;

type Make = fn(&mut Random) -> Call;

/// How lists are made, and how many of each. Most are short, to keep the file small.
const PARTS: [(Make, usize); 8] = [
    (made::short, 10_000),
    (made::at_tolerance, 2_400),
    (made::at_band_ends, 1_200),
    (made::extreme, 2_400),
    (made::tangent, 1_600),
    (made::long, 240),
    (made::full, 60),
    (refused::faulty, 2_400),
];

const SOLVING: u32 = 0;
const RELAXING: u32 = 1;
const RIGID_FAILURE: u32 = 2;
const REFUSED: u32 = 100;
const NO_LINE: u32 = u32::MAX;

/// A call and what it must give.
struct Case {
    call: Call,
    outcome: Outcome,
}

enum Outcome {
    Solved(Solved),
    /// All faults in the order in which they are looked for; the first is told.
    Refused(Vec<u32>),
}

/// The same bytes at each call, and the table of what they cover.
pub fn bytes() -> Result<(Vec<u8>, String), String> {
    let mut cases = named::cases()?;
    let mut random = Random::new(SEED);
    for (make, count) in PARTS {
        for _ in 0..count {
            cases.push(ask(make(&mut random))?);
        }
    }
    if cases.len() < AT_LEAST {
        return Err(format!("only {} lists", cases.len()));
    }
    Ok((Words::of(&cases, write_record), coverage::table(&cases)?))
}

/// A random list's record.
pub fn at_scale(random: &mut Random) -> Result<Parts, String> {
    let (make, _) = PARTS[random.place_by(&PARTS.map(|(_, count)| count))];
    let case = ask(make(random))?;
    Ok(vec![Words::of(&[case], write_record)])
}

fn ask(call: Call) -> Result<Case, String> {
    let faults = judge::faults(&call);
    let outcome = if faults.is_empty() {
        Outcome::Solved(ask_rust(&call.to_list())?)
    } else {
        Outcome::Refused(faults)
    };
    Ok(Case { call, outcome })
}

/// An admitted list has a finite answer: the definition of the build has no refusal left that it could get.
pub fn ask_rust(list: &LineList) -> Result<Solved, String> {
    let solved = panic::catch_unwind(|| solve_both(list))
        .map_err(|_| format!("the Rust panics on an admitted list: {list}"))??;
    let (Ok(point) | Err(point)) = solved.answer;
    let penetration = solved.counts.penetration.unwrap_or(0.0);
    if !(point.x.is_finite() && point.y.is_finite() && penetration.is_finite()) {
        return Err(format!("an admitted list's answer is not finite: {list}"));
    }
    Ok(solved)
}

fn write_record(words: &mut Words, case: &Case) {
    write_call(words, &case.call);
    match &case.outcome {
        Outcome::Solved(solved) => write_solved(words, solved),
        Outcome::Refused(faults) => {
            write_answer(words, REFUSED + faults[0], Vec2::ZERO, 0.0, None, 0)
        }
    }
}

pub fn write_call(words: &mut Words, call: &Call) {
    words.word(call.numbers.len() as u32);
    words.word(call.rigid_count);
    words.bits(call.limit);
    words.bits(call.wish.x);
    words.bits(call.wish.y);
    for number in &call.numbers {
        words.bits(*number);
    }
}

pub fn write_solved(words: &mut Words, solved: &Solved) {
    let counts = &solved.counts;
    let (Ok(point) | Err(point)) = solved.answer;
    let kind = match (solved.answer, counts.failed_line) {
        (Ok(_), None) => SOLVING,
        (Ok(_), Some(_)) => RELAXING,
        (Err(_), _) => RIGID_FAILURE,
    };
    let point = Vec2::new(settled(solved, point.x), settled(solved, point.y));
    let penetration = settled(solved, counts.penetration.unwrap_or(0.0));
    let failure = counts.failed_line.zip(counts.cause);
    write_answer(words, kind, point, penetration, failure, counts.probes);
}

/// The Rust leaves open which of two zeros of unlike sign its `min` and `max` take, and machines differ.
/// Where a solve met such zeros, a zero of its answer is written as +0: the bytes are the same everywhere.
fn settled(solved: &Solved, number: f32) -> f32 {
    if number == 0.0 && solved.branches.took(Branch::UnlikeZeros) {
        0.0
    } else {
        number
    }
}

fn write_answer(
    words: &mut Words,
    kind: u32,
    point: Vec2,
    penetration: f32,
    failure: Option<(usize, Cause)>,
    probes: u32,
) {
    words.word(kind);
    words.bits(point.x);
    words.bits(point.y);
    words.bits(penetration);
    write_failure(words, failure);
    words.word(probes);
}

pub fn write_failure(words: &mut Words, failure: Option<(usize, Cause)>) {
    words.word(failure.map_or(NO_LINE, |(line, _)| line as u32));
    words.word(failure.map_or(0, |(_, cause)| cause_word(cause)));
}

fn cause_word(cause: Cause) -> u32 {
    match cause {
        Cause::Circle => 1 << 16,
        Cause::Parallel(index) => (2 << 16) + index as u32,
        Cause::Crossing(index) => (3 << 16) + index as u32,
    }
}
