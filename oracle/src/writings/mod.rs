//! Calls of the scene writer (02, T-01): the parts that are lent, and in a file of their own what the writer must tell
//! and leave in the buffer. A call is sixteen words: position, velocity, margin, horizon, wish and limit, the
//! obstacles' count, how many kinds, counts and numbers of vertices are lent, the neighbours' count, how many numbers
//! of lines are lent, the buffer's length; then kinds and counts, a byte each, and the numbers of vertices and lines, a
//! word each. An answer is a pair, the refusal's number or 0, a pair, the length or 0, and the whole buffer, which was
//! all sentinels.

mod drawn;
mod named;
mod writer;

use std::fs;

use crate::calls::{self, Call, SENTINEL};
use crate::coverage_table::Column;
use crate::lent::Lent;
use crate::random::Random;
use crate::records::{reader, scene_record, Records};
use crate::scale::Parts;
use crate::scene_vectors::Set;
use crate::scenes::Scene;
use crate::words::{hex_bytes, Words};

const SEED: u64 = 0x7772_6974_6573;
const DRAWN: usize = 1_000;

/// What is lent to the writer. The counts are arguments of their own and may say something else.
#[derive(Clone)]
pub struct Writing {
    pub cart: [f32; 9],
    pub lent: Lent,
    pub neighbours: u32,
    pub lines: Vec<f32>,
    pub buffer: usize,
}

type Shown = calls::Shown<Writing>;

const COLUMNS: [Column<Shown>; 10] = [
    ("in all", |_| true),
    ("get 2", |shown| shown.2 == Err(2)),
    ("get 3", |shown| shown.2 == Err(3)),
    ("get 4", |shown| shown.2 == Err(4)),
    ("get 5", |shown| shown.2 == Err(5)),
    ("get 6", |shown| shown.2 == Err(6)),
    ("get 7", |shown| shown.2 == Err(7)),
    ("get 10", |shown| shown.2 == Err(10)),
    ("get 14", |shown| shown.2 == Err(14)),
    ("are written", |shown| shown.2.is_ok()),
];

/// The same bytes at each call.
pub fn set() -> Result<Set, String> {
    let what = ("Calls of the writer", &COLUMNS[..]);
    calls::set(what, named::calls(), (SEED, DRAWN))
}

/// A drawn call, and its answer.
pub fn at_scale(random: &mut Random) -> Result<Parts, String> {
    calls::at_scale::<Writing>(random)
}

/// Every version 1 record of a stream that is accepted must be written again to its bytes; the line that tells how many
/// there were.
pub fn written_again(file: &str) -> Result<(), String> {
    let stream = fs::read(file).map_err(|fault| format!("{file}: {fault}"))?;
    let mut count = 0;
    for record in Records(&stream) {
        let Ok(scene) = reader::read_version_1(record) else {
            continue;
        };
        let call = Writing::of(&scene, record.len());
        let mut buffer = call.sentinels();
        if writer::write(&call, &mut buffer) != Ok(record.len()) || buffer != record {
            return Err(format!("not written again: {}", hex_bytes(record)));
        }
        count += 1;
    }
    println!("records written again: ok {count}");
    Ok(())
}

impl Writing {
    /// All parts of a scene, and a buffer of this length.
    pub fn of(scene: &Scene, buffer: usize) -> Writing {
        let [p, v, w] = [scene.position, scene.velocity, scene.wish];
        let lines = scene
            .lines
            .iter()
            .flat_map(|(point, direction)| [point, direction]);
        Writing {
            cart: [
                p.x,
                p.y,
                v.x,
                v.y,
                scene.margin,
                scene.horizon,
                w.x,
                w.y,
                scene.limit,
            ],
            lent: Lent::of(&scene.obstacles),
            neighbours: scene.lines.len() as u32,
            lines: lines.flat_map(|vector| [vector.x, vector.y]).collect(),
            buffer,
        }
    }

    /// As long as the scene's record.
    pub fn fitting(scene: &Scene) -> Writing {
        Writing::of(scene, scene_record(scene).len())
    }

    fn sentinels(&self) -> Vec<u8> {
        vec![SENTINEL; self.buffer]
    }
}

impl Call for Writing {
    fn told(&self) -> Result<usize, u32> {
        writer::write(self, &mut self.sentinels())
    }

    fn bytes(&self) -> Vec<u8> {
        let mut words = Words::new();
        self.cart.iter().for_each(|number| words.bits(*number));
        let lent = &self.lent;
        words.word(lent.obstacles);
        for length in [lent.kinds.len(), lent.counts.len(), lent.vertices.len()] {
            words.word(length as u32);
        }
        words.word(self.neighbours);
        words.word(self.lines.len() as u32);
        words.word(self.buffer as u32);
        let mut numbers = Words::new();
        lent.vertices
            .iter()
            .chain(&self.lines)
            .for_each(|number| numbers.bits(*number));
        [
            words.into_bytes(),
            lent.kinds.clone(),
            lent.counts.clone(),
            numbers.into_bytes(),
        ]
        .concat()
    }

    fn answer(&self) -> Vec<u8> {
        let mut buffer = self.sentinels();
        let (number, length) = match writer::write(self, &mut buffer) {
            Ok(length) => (0, length as u16),
            Err(number) => (number as u16, 0),
        };
        [&number.to_be_bytes()[..], &length.to_be_bytes(), &buffer].concat()
    }

    fn drawn(random: &mut Random) -> Writing {
        drawn::call(random)
    }
}
