//! The vectors of whole scenes: scene records, one after the other, and in a file of their own the answer records, as
//! many. Velocities, failed lines and probes are the Rust's. The passes are worked out from both builds' edge lines and
//! solves, and the given lib.rs, asked for the whole, must have the same lines in each pass and end in the same bits:
//! the counted build unless the scene is refused, the plain one where the neighbours are agents or there are none.
//! Refusals are those of the judges, 9 where the Rust made an edge line that is not admitted. coverage.rs says what the
//! scenes must show, all of it.

mod coverage;
mod crowded;
pub mod failures;
mod faulty;
mod layouts;
mod named;
mod warehouse;

pub use faulty::{spoiled, spoiled_numbered};

use crate::random::Random;
use crate::records::answers::Answer;
use crate::records::{numbered_record, reader, scene_record, NUMBERED};
use crate::scale::Parts;
use crate::scenes::passes::{self, Passes};
use crate::scenes::Scene;

const SEED: u64 = 0x7363_656E_6573;
const AT_LEAST: usize = 20_000;

type MakeScene = fn(&mut Random) -> Scene;
type MakeRecord = fn(&mut Random) -> Vec<u8>;
type Wanted = fn(&Case) -> bool;

/// How scenes are made, which of them are taken, and how many. Most are small, to keep the file so.
const PARTS: [(MakeScene, Wanted, usize); 30] = [
    (layouts::ordinary, any, 5_000),
    (layouts::unhindered, any, 300),
    (layouts::about_to_turn, any, 2_600),
    (layouts::extreme, any, 1_600),
    (layouts::doubled, any, 300),
    (layouts::nearly_doubled, any, 700),
    (layouts::inside_by_rounding, any, 300),
    (layouts::inside_by_rounding, is_refused_second, 200),
    (layouts::hurried, any, 500),
    (layouts::hurried, is_second, 1_100),
    (layouts::touching, any, 300),
    (layouts::touching, is_second, 200),
    (layouts::fitted, any, 200),
    (layouts::fitted, is_twice_rigid, 160),
    (layouts::covered_while_moving, any, 200),
    (layouts::covered_while_moving, is_second, 20),
    (warehouse::shelves, any, 2_400),
    (warehouse::shelves, is_second, 30),
    (warehouse::gates, any, 1_200),
    (warehouse::hurried_among_carts, is_second, 600),
    (warehouse::covered_among_carts, is_second, 10),
    (warehouse::fitted_among_carts, is_twice_rigid, 60),
    (warehouse::crowd, any, 40),
    (crowded::many_obstacles, any, 120),
    (crowded::many_vertices, any, 40),
    (crowded::one_large, any, 60),
    (crowded::many_lines, any, 80),
    (crowded::longest, any, 20),
    (crowded::all_lines, any, 50),
    (crowded::all_relaxed, any, 10),
];

const FAULTY_PARTS: [(MakeRecord, usize); 4] = [
    (faulty::spoiled, 2_400),
    (faulty::overlong, 12),
    (faulty::spoiled_numbered, 300),
    (faulty::overlong_numbered, 4),
];

/// Scenes whose records are of version 2, with drawn numbers.
const NUMBERED_PARTS: [(MakeScene, usize); 3] = [
    (layouts::ordinary, 400),
    (crowded::many_lines, 20),
    (crowded::longest, 4),
];

/// How often a scene may be made anew until one is taken.
const MOST_TRIES: usize = 10_000;

/// A record and what it must give.
pub struct Case {
    record: Vec<u8>,
    outcome: Outcome,
}

enum Outcome {
    Passed(Scene, Passes),
    /// Refused as a record.
    Faulty(u32),
}

/// The bytes of both files, and the table of what they cover.
pub struct Set {
    pub records: Vec<u8>,
    pub answers: Vec<u8>,
    pub table: String,
}

/// The same bytes at each call.
pub fn set() -> Result<Set, String> {
    let mut cases = named::cases()?;
    let mut random = Random::new(SEED);
    for (make, wanted, count) in PARTS {
        for _ in 0..count {
            cases.push(search(&mut random, make, wanted)?);
        }
    }
    for (make, count) in FAULTY_PARTS {
        for _ in 0..count {
            cases.push(ask_record(make(&mut random))?);
        }
    }
    for (make, count) in NUMBERED_PARTS {
        for _ in 0..count {
            let scene = make(&mut random);
            cases.push(ask_numbered(&mut random, scene)?);
        }
    }
    let made = cases.len();
    cases.retain(|case| !case.leaves_a_zero_open());
    if cases.len() < AT_LEAST {
        return Err(format!("only {} scenes", cases.len()));
    }
    let left_out = made - cases.len();
    let table = coverage::table(&cases)?;
    let table =
        format!("{table}\nLeft out, since the Rust leaves a zero's sign open: {left_out}\n");
    Ok(Set::of(&cases, table))
}

impl Set {
    pub fn of(cases: &[Case], table: String) -> Set {
        let records = cases.iter().map(|case| &case.record[..]);
        let answers = cases.iter().map(|case| case.answer().record());
        Set {
            records: records.collect::<Vec<_>>().concat(),
            answers: answers.collect::<Vec<_>>().concat(),
            table,
        }
    }
}

/// One in so many scenes at scale is made as a record, most of these at fault.
const RECORDS: usize = 10;

/// One in so many has a record of version 2.
const NUMBERED_SCENES: usize = 4;

/// A random scene's record, and its answer's. A zero whose sign the Rust leaves open is as it gave it.
pub fn at_scale(random: &mut Random) -> Result<Parts, String> {
    let case = match (random.one_in(RECORDS), random.one_in(NUMBERED_SCENES)) {
        (true, false) => ask_record(faulty::spoiled(random))?,
        (true, true) => ask_record(faulty::spoiled_numbered(random))?,
        (false, false) => ask_scene(drawn(random))?,
        (false, true) => {
            let scene = drawn(random);
            ask_numbered(random, scene)?
        }
    };
    let answer = case.answer().record();
    Ok(vec![case.record, answer])
}

/// A scene of any kind, by how many there are of it in the set.
pub fn drawn(random: &mut Random) -> Scene {
    let (make, ..) = PARTS[random.place_by(&PARTS.map(|(.., count)| count))];
    make(random)
}

/// A scene with about as much in it as there may be.
pub fn full(random: &mut Random) -> Scene {
    random.pick(&[
        crowded::many_obstacles as MakeScene,
        crowded::many_vertices,
        crowded::one_large,
        crowded::many_lines,
        crowded::longest,
        crowded::all_lines,
    ])(random)
}

/// A scene whose neighbours are agents.
pub fn with_agents(random: &mut Random) -> Scene {
    random.pick(&[
        warehouse::shelves as MakeScene,
        warehouse::gates,
        warehouse::hurried_among_carts,
        warehouse::covered_among_carts,
    ])(random)
}

fn search(random: &mut Random, make: MakeScene, wanted: Wanted) -> Result<Case, String> {
    for _ in 0..MOST_TRIES {
        let case = ask_scene(make(random))?;
        if wanted(&case) {
            return Ok(case);
        }
    }
    Err("a scene is searched for in vain".to_string())
}

pub fn ask_scene(scene: Scene) -> Result<Case, String> {
    let record = scene_record(&scene);
    match reader::read(&record) {
        Ok(read) if scene_record(&read) != record => {
            Err(format!("read otherwise than written: {scene}"))
        }
        Ok(_) => pass(record, scene),
        Err(number) => Ok(refused(record, number)),
    }
}

/// The scene's record of version 2, each line with a drawn number, and what the Rust gives for the scene without them.
pub fn ask_numbered(random: &mut Random, scene: Scene) -> Result<Case, String> {
    let numbers = drawn_numbers(random, &scene);
    let record = numbered_record(&scene, &numbers);
    let case = ask_scene(scene)?;
    match reader::read_of(&record, &[NUMBERED]) {
        Ok(read) if scene_record(&read.scene) != case.record || read.numbers != numbers => {
            Err("read otherwise than written, with numbers".to_string())
        }
        _ => Ok(Case { record, ..case }),
    }
}

/// Small ones, zeros among them, and any.
pub fn drawn_numbers(random: &mut Random, scene: &Scene) -> Vec<u32> {
    let number = |_: &_| match random.below(3) {
        0 => random.below(10) as u32,
        1 => random.bits() as u32,
        _ => 0,
    };
    scene.lines.iter().map(number).collect()
}

pub fn ask_record(record: Vec<u8>) -> Result<Case, String> {
    match reader::read(&record) {
        Ok(scene) => pass(record, scene),
        Err(number) => Ok(refused(record, number)),
    }
}

fn pass(record: Vec<u8>, scene: Scene) -> Result<Case, String> {
    let passes = passes::ask(&scene)?;
    let outcome = Outcome::Passed(scene, passes);
    Ok(Case { record, outcome })
}

fn refused(record: Vec<u8>, number: u32) -> Case {
    let outcome = Outcome::Faulty(number);
    Case { record, outcome }
}

impl Case {
    pub fn record(&self) -> &[u8] {
        &self.record
    }

    pub fn answer(&self) -> Answer {
        match &self.outcome {
            Outcome::Passed(_, passes) => passes.answer(),
            Outcome::Faulty(number) => Answer::Refused(*number as u8),
        }
    }

    /// The number with which it is refused, as a record or by an edge line.
    pub fn refusal(&self) -> Option<u32> {
        match self.answer() {
            Answer::Refused(number) => Some(number.into()),
            Answer::Velocity(_) => None,
        }
    }

    pub fn leaves_a_zero_open(&self) -> bool {
        self.passes().is_some_and(Passes::leaves_a_zero_open)
    }

    fn passes(&self) -> Option<&Passes> {
        match &self.outcome {
            Outcome::Passed(_, passes) => Some(passes),
            Outcome::Faulty(_) => None,
        }
    }
}

fn any(_: &Case) -> bool {
    true
}

fn is_second(case: &Case) -> bool {
    matches!(case.passes(), Some(Passes::Both(..)))
}

fn is_twice_rigid(case: &Case) -> bool {
    matches!(case.passes(), Some(Passes::Both(_, second)) if second.solved.answer.is_err())
}

fn is_refused_second(case: &Case) -> bool {
    matches!(case.passes(), Some(Passes::NotAdmittedSecond(_)))
}
