//! The vectors of failures: scenes that are not refused, each with what an answer record does not carry.
//! A record: how many bytes its scene has; the failed line of the last pass run and its cause, as in list_vectors; its origin
//! (3 words, as scenes/passes.rs says, 0 where no line failed); then the scene's record. Failed line, cause and the edges that
//! made the lines are the Rust's, from the counted build.

use counters::Cause;

use super::{ask_record, search, Case, MakeScene, Outcome, Wanted, PARTS, SEED};
use crate::coverage_table;
use crate::list_vectors::write_failure;
use crate::random::Random;
use crate::records::answers::Answer;
use crate::scale::Parts;
use crate::scenes::passes::{Origin, Pass, Passes};
use crate::scenes::Scene;
use crate::words::Words;

/// One scene for so many of the set `scenes`.
const ONE_IN: usize = 8;

/// The origins that request T-06 leaves open to reading, each with the smallest scene known for it.
const WORKED_OUT: [(&str, Origin); 2] = [
    (
        "00390100000000000000003F97E082BF3EA20C3DD512D43E2D10323EF200583C97F82F00000000010102BC337879BDD3E3A73F1F9987BE2EB90E00",
        [1, 0, 1],
    ),
    (
        "004901000000000000000000000000000000003F0000003F800000000000000000000040000000010102\
         3F8000003F800000BF8000003F80000001000000003F8000003F80000000000000",
        [2, 0, 0],
    ),
];

/// More of those whose failed line is an edge's, since few are.
const BY_EDGES: [(MakeScene, Wanted, usize); 3] = [
    (super::layouts::fitted, is_by_later_edge, 20),
    (super::layouts::fitted, is_by_last_edge, 10),
    (super::warehouse::fitted_among_carts, is_by_later_obstacle, 10),
];

/// A scene that is not refused: the last pass run, the one before it, and the failed line's cause and origin.
struct Told<'a> {
    scene: &'a Scene,
    before: Option<&'a Pass>,
    last: &'a Pass,
    cause: Option<Cause>,
    origin: Origin,
}

type Test = (u8, fn(&Told) -> bool);

/// One row to a line, so that it reads as a table.
#[rustfmt::skip]
const ROWS: &[(&str, Test)] = &[
    ("outcome 1: no cause", (1, |told| told.cause.is_none())),
    ("outcome 2: the circle", (2, |told| told.cause == Some(Cause::Circle))),
    ("outcome 2: a parallel line", (2, |told| matches!(told.cause, Some(Cause::Parallel(_))))),
    ("outcome 2: ends that crossed", (2, |told| matches!(told.cause, Some(Cause::Crossing(_))))),
    ("outcome 2: ends that crossed, not at the first line", (2, |told| matches!(told.cause, Some(Cause::Crossing(1..))))),
    ("outcome 3: no cause, though the first pass failed", (3, |told| told.cause.is_none())),
    ("outcome 4: the circle", (4, |told| told.cause == Some(Cause::Circle))),
    ("outcome 4: ends that crossed", (4, |told| matches!(told.cause, Some(Cause::Crossing(_))))),
    ("outcome 5: the circle", (5, |told| told.cause == Some(Cause::Circle))),
    ("outcome 5: a parallel line", (5, |told| matches!(told.cause, Some(Cause::Parallel(_))))),
    ("outcome 5: ends that crossed", (5, |told| matches!(told.cause, Some(Cause::Crossing(_))))),
    ("outcome 1: no origin", (1, |told| told.origin == [0; 3])),
    ("outcome 2: a neighbour behind no edge", (2, |told| told.last.edge_lines.is_empty() && told.origin[0] == 2)),
    ("outcome 2: a neighbour behind edges", (2, |told| !told.last.edge_lines.is_empty() && told.origin[0] == 2)),
    ("outcome 2: a neighbour that is not the first", (2, |told| told.origin[1] > 0)),
    ("outcome 3: no origin, though the first pass failed", (3, |told| told.origin == [0; 3])),
    ("outcome 4: a neighbour behind edges", (4, |told| !told.last.edge_lines.is_empty() && told.origin[0] == 2)),
    ("outcome 4: another line stands at that index in the first pass", (4, |told| told.others_before())),
    ("outcome 5: an edge", (5, |told| told.origin[0] == 1)),
    ("outcome 5: an edge that is not its line's index", (5, |told| told.origin[2] as usize != told.index())),
    ("outcome 5: a closed obstacle's last edge", (5, |told| told.is_last_edge())),
    ("outcome 5: an edge of an obstacle that is not the first", (5, |told| told.origin[1] > 0)),
    ("outcome 5: another edge's line stands at that index in the first pass", (5, |told| told.others_before())),
];

/// The same bytes at each call, and the table of what they cover.
pub fn bytes() -> Result<(Vec<u8>, String), String> {
    let mut cases = super::named::cases()?;
    cases.extend(worked_out()?);
    let mut random = Random::new(SEED);
    for (make, wanted, count) in PARTS {
        for _ in 0..count.div_ceil(ONE_IN) {
            cases.push(search(&mut random, make, wanted)?);
        }
    }
    for (make, wanted, count) in BY_EDGES {
        for _ in 0..count {
            cases.push(search(&mut random, make, wanted)?);
        }
    }
    cases.retain(|case| case.told().is_some());
    let table = coverage_table::of(&cases, ("Scenes", &[("in all", |_| true)]), ROWS, shows)?;
    Ok((Words::of(&cases, write_record), table))
}

/// Those worked out by hand, which must have the origins that were found.
fn worked_out() -> Result<Vec<Case>, String> {
    let mut cases = Vec::new();
    for (record, origin) in WORKED_OUT {
        let pairs = record.as_bytes().chunks(2);
        let byte = |pair| u8::from_str_radix(std::str::from_utf8(pair).unwrap(), 16).unwrap();
        let case = ask_record(pairs.map(byte).collect())?;
        if !case.told().is_some_and(|told| told.origin == origin) {
            return Err(format!("its failed line is not of {origin:?}: {record}"));
        }
        cases.push(case);
    }
    Ok(cases)
}

/// A random scene's record.
pub fn at_scale(random: &mut Random) -> Result<Parts, String> {
    let (make, ..) = PARTS[random.place_by(&PARTS.map(|(.., count)| count))];
    let case = search(random, make, |case| case.told().is_some())?;
    Ok(vec![Words::of(&[case], write_record)])
}

fn write_record(words: &mut Words, case: &Case) {
    let told = case.told().unwrap();
    words.word(case.record.len() as u32);
    write_failure(words, told.last.solved.counts.failed_line.zip(told.cause));
    told.origin.iter().for_each(|number| words.word(*number));
    words.record(&case.record);
}

fn shows((outcome, test): &Test, case: &Case) -> bool {
    matches!(case.answer(), Answer::Velocity(velocity) if velocity.outcome == *outcome)
        && case.told().is_some_and(|told| test(&told))
}

fn is_by_later_edge(case: &Case) -> bool {
    case.told().is_some_and(|told| told.origin[0] == 1 && told.origin[2] as usize != told.index())
}

fn is_by_last_edge(case: &Case) -> bool {
    case.told().is_some_and(|told| told.is_last_edge())
}

fn is_by_later_obstacle(case: &Case) -> bool {
    case.told().is_some_and(|told| told.origin[0] == 1 && told.origin[1] > 0)
}

impl Case {
    /// None where the scene is refused.
    fn told(&self) -> Option<Told<'_>> {
        let Outcome::Passed(scene, passes) = &self.outcome else {
            return None;
        };
        let (before, last) = match passes {
            Passes::First(pass) => (None, pass),
            Passes::Both(first, second) => (Some(first), second),
            _ => return None,
        };
        Some(Told {
            scene,
            before,
            last,
            cause: last.solved.counts.cause,
            origin: last.failed_origin(scene),
        })
    }
}

impl Told<'_> {
    /// Of the failed line, where there is one.
    fn index(&self) -> usize {
        self.last.solved.counts.failed_line.unwrap_or(usize::MAX)
    }

    fn is_last_edge(&self) -> bool {
        let [kind, place, left] = self.origin.map(|number| number as usize);
        let is_last = |obstacle: &crate::scenes::Obstacle| {
            obstacle.closed && left + 1 == obstacle.vertices.len() && left > 0
        };
        kind == 1 && is_last(&self.scene.obstacles[place])
    }

    /// Whether the pass before had another line, or none, at the failed one's index.
    fn others_before(&self) -> bool {
        let origin = |pass: &Pass| pass.origin_at(self.scene, self.index());
        self.before.is_some_and(|before| origin(before) != origin(self.last))
    }
}
