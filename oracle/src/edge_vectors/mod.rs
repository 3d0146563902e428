//! The vectors of the edges: encounters of an agent with an obstacle, each with its lines, one record after the other.
//! A record: kind, how many numbers, answer (how many lines, or 100 + number for a refusal), count of the vertices
//! (2 words, high first), position (2), velocity (2), margin, horizon; the numbers, two a vertex; then the lines, four
//! numbers each.
//! The lines are the plain build's, which the counted one must give too. The Rust also hands on lines that are not
//! admitted: an encounter that makes one is refused with 9. Other refusals are those of judge.rs, and the Rust is not
//! asked. coverage.rs says what the encounters must show, all of it.

pub mod aimed;
pub mod call;
mod coverage;
pub mod judge;
pub mod layouts;
mod named;

use glam::Vec2;

use crate::encounters::{edge_lines, EdgeLine, EdgeLines, Encounter};
use crate::random::Random;
use crate::scale::Parts;
use crate::words::Words;
use call::Call;

const SEED: u64 = 0x6564_6765_73;
const AT_LEAST: usize = 50_000;

type Make = fn(&mut Random) -> Encounter;

/// How encounters are made, and how many of each. Most obstacles are small, to keep the file so.
const PARTS: [(Make, usize); 16] = [
    (layouts::lattice, 9_000),
    (layouts::scattered, 4_000),
    (layouts::star, 7_000),
    (layouts::ring, 3_000),
    (layouts::corner, 7_000),
    (layouts::doubled, 3_500),
    (layouts::tiny, 3_000),
    (layouts::vanishing, 1_500),
    (layouts::extreme, 2_500),
    (aimed::at_margin, 7_000),
    (aimed::inside_by_rounding, 200),
    (aimed::in_line, 4_500),
    (aimed::barely_covered, 800),
    (layouts::long, 300),
    (layouts::any_numbers, 1_000),
    (layouts::nearly_doubled, 3_500),
];

const NOT_ADMITTED: u32 = 9;
const REFUSED: u32 = 100;

/// A call and what it must give.
struct Case {
    call: Call,
    outcome: Outcome,
}

enum Outcome {
    Made(Encounter, EdgeLines),
    /// Refused before any edge is looked at.
    Faulty(u32),
}

impl Case {
    /// The number of the refusal.
    fn refusal(&self) -> Option<u32> {
        match &self.outcome {
            Outcome::Faulty(number) => Some(*number),
            Outcome::Made(_, made) if made.lines.iter().all(judge::admits) => None,
            Outcome::Made(..) => Some(NOT_ADMITTED),
        }
    }
}

/// The same bytes at each call, and the table of what they cover.
pub fn bytes() -> Result<(Vec<u8>, String), String> {
    let mut cases = named::cases()?;
    let mut random = Random::new(SEED);
    for (make, count) in PARTS {
        for _ in 0..count {
            cases.push(ask(call(&mut random, make))?);
        }
    }
    if cases.len() < AT_LEAST {
        return Err(format!("only {} encounters", cases.len()));
    }
    Ok((Words::of(&cases, write_record), coverage::table(&cases)?))
}

/// A random encounter's record.
pub fn at_scale(random: &mut Random) -> Result<Parts, String> {
    let (make, _) = PARTS[random.place_by(&PARTS.map(|(_, count)| count))];
    let case = ask(call(random, make))?;
    Ok(vec![Words::of(&[case], write_record)])
}

/// The record of a call.
pub fn answered(call: Call) -> Result<Vec<u8>, String> {
    Ok(Words::of(&[ask(call)?], write_record))
}

fn call(random: &mut Random, make: Make) -> Call {
    let encounter = make(random);
    if random.one_in(64) {
        Call::uneven(random, &encounter)
    } else {
        Call::new(&encounter)
    }
}

fn ask(call: Call) -> Result<Case, String> {
    let outcome = match judge::fault(&call) {
        Some(number) => Outcome::Faulty(number),
        None => {
            let encounter = call.to_encounter();
            let made = edge_lines(&encounter)?;
            check_points(&encounter, &made)?;
            Outcome::Made(encounter, made)
        }
    };
    Ok(Case { call, outcome })
}

/// Of admitted numbers a point is out of bounds only beside a direction that is not admitted either.
fn check_points(encounter: &Encounter, made: &EdgeLines) -> Result<(), String> {
    let point_alone =
        |line: &EdgeLine| !judge::admits(line) && judge::admits(&(Vec2::ZERO, line.1));
    if made.lines.iter().any(point_alone) {
        return Err(format!("a line's point alone is not admitted: {encounter}"));
    }
    Ok(())
}

fn write_record(words: &mut Words, case: &Case) {
    let call = &case.call;
    let lines = match (&case.outcome, case.refusal()) {
        (Outcome::Made(_, made), None) => &made.lines[..],
        _ => &[],
    };
    let refusal = case.refusal().map(|number| REFUSED + number);
    words.word(call.kind);
    words.word(call.numbers.len() as u32);
    words.word(refusal.unwrap_or(lines.len() as u32));
    words.long_word(call.count);
    for vector in [call.position, call.velocity] {
        words.bits(vector.x);
        words.bits(vector.y);
    }
    words.bits(call.margin);
    words.bits(call.horizon);
    for number in &call.numbers {
        words.bits(*number);
    }
    for (point, direction) in lines {
        for number in [point.x, point.y, direction.x, direction.y] {
            words.bits(number);
        }
    }
}
