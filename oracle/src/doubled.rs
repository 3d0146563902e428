//! What 02's T-11 changes of answers that were stored before it: every stored case is answered anew. An answer that is
//! another now must be the refusal 14, and the case must have a doubled vertex, found edge by edge and not by the
//! judge's walk; every other answer must be as it was stored.

use std::collections::BTreeMap;
use std::fs;

use glam::Vec2;

use crate::calls::Call;
use crate::edge_vectors::call::CLOSED;
use crate::lent::Lent;
use crate::records::Records;
use crate::{edge_vectors, moves, scene_vectors, walls, writings};

/// A stored case: its obstacles as far as they are there, its answer as stored and as it is now, and whether the latter is 14.
struct Stored {
    obstacles: Vec<(bool, Vec<Vec2>)>,
    before: Vec<u8>,
    now: Vec<u8>,
    is_14: bool,
}

/// Tells how many answers are others now, and what they were.
pub fn check(set: &str, files: &[&str]) -> Result<(), String> {
    let bytes: Vec<Vec<u8>> = files
        .iter()
        .map(|file| fs::read(file).map_err(|fault| format!("{file}: {fault}")))
        .collect::<Result<_, _>>()?;
    let stored = match (set, &bytes[..]) {
        ("scenes", [scenes, answers]) => of_scenes(scenes, answers)?,
        ("edges", [file]) => of_edges(file)?,
        ("walls", [file]) => of_walls(file),
        ("writings", [calls, answers]) => of_writings(calls, answers),
        ("moves", [calls, answers]) => of_moves(calls, answers),
        _ => return Err(format!("no set {set} of so many files")),
    };
    let mut changed = BTreeMap::new();
    for (place, case) in stored.iter().enumerate() {
        let has_pair = case.obstacles.iter().any(|(closed, own)| has_pair(*closed, own));
        match (case.before == case.now, case.is_14, has_pair) {
            (true, false, _) => {}
            (false, true, true) => *changed.entry(name_of(set, &case.before)).or_insert(0) += 1,
            _ => return Err(format!("{set}: the case {place} is changed, and not by a doubled vertex")),
        }
    }
    let total: usize = changed.values().sum();
    println!("{set}: {total} of {} answers are 14 now, each with a doubled vertex; the others are as they were", stored.len());
    changed.iter().for_each(|(was, count)| println!("  was {was}: {count}"));
    Ok(())
}

/// An edge whose ends are equal by value.
fn has_pair(closed: bool, vertices: &[Vec2]) -> bool {
    let count = vertices.len();
    let edges = if closed { count } else { count.saturating_sub(1) };
    (0..edges).any(|left| {
        let (a, b) = (vertices[left], vertices[(left + 1) % count]);
        a.x == b.x && a.y == b.y
    })
}

/// What an answer was, by its first bytes.
fn name_of(set: &str, answer: &[u8]) -> String {
    let refused = |number: u32| format!("refusal {number}");
    let word = |place: usize| u32::from_be_bytes(answer[place..place + 4].try_into().unwrap_or_default());
    match set {
        "scenes" if answer[3] > 128 => refused(u32::from(answer[3]) - 128),
        "scenes" => format!("outcome {}", answer[3]),
        "edges" if word(8) > 100 => refused(word(8) - 100),
        "edges" => format!("{} lines", word(8)),
        "walls" if word(32) > 100 => refused(word(32) - 100),
        "walls" => ["clear", "crossed"][word(32) as usize].to_string(),
        "moves" if answer[0] == 0xFF => refused(answer[1].into()),
        "writings" if answer[1] > 0 => refused(answer[1].into()),
        _ => "written".to_string(),
    }
}

// ---- the sets

fn of_scenes(scenes: &[u8], answers: &[u8]) -> Result<Vec<Stored>, String> {
    Records(scenes)
        .zip(Records(answers))
        .map(|(record, before)| {
            let now = scene_vectors::ask_record(record.to_vec())?.answer().record();
            Ok(Stored {
                obstacles: obstacles_of(record),
                before: before.to_vec(),
                is_14: now == [0, 2, 1, 142],
                now,
            })
        })
        .collect()
}

fn of_edges(file: &[u8]) -> Result<Vec<Stored>, String> {
    let mut left = Left(file);
    let mut stored = Vec::new();
    while !left.0.is_empty() {
        let start = left.0;
        let [kind, numbers, answer, high, low] = left.words();
        let call = edge_vectors::call::Call {
            kind,
            count: u64::from(high) << 32 | u64::from(low),
            position: left.vector(),
            velocity: left.vector(),
            margin: left.number(),
            horizon: left.number(),
            numbers: left.numbers(numbers),
        };
        left.numbers(if answer < 100 { 4 * answer } else { 0 });
        let own = call.numbers.chunks_exact(2).take(call.count as usize);
        let own = own.map(|pair| Vec2::new(pair[0], pair[1])).collect();
        let now = edge_vectors::answered(call)?;
        stored.push(Stored {
            obstacles: vec![(kind == CLOSED, own)],
            before: start[..start.len() - left.0.len()].to_vec(),
            is_14: now[8..12] == 114u32.to_be_bytes(),
            now,
        });
    }
    Ok(stored)
}

fn of_walls(file: &[u8]) -> Vec<Stored> {
    let mut left = Left(file);
    let mut stored = Vec::new();
    while !left.0.is_empty() {
        let start = left.0;
        let (from, to) = (left.vector(), left.vector());
        let [obstacles, kinds, counts, vertices] = left.words();
        let _answer: [u32; 4] = left.words();
        let vertices = left.numbers(vertices);
        let lent = Lent {
            obstacles,
            kinds: left.bytes(kinds as usize).to_vec(),
            counts: left.bytes(counts as usize).to_vec(),
            vertices,
        };
        let own = lent_obstacles(&lent);
        let now = walls::answered(walls::Call { from, to, lent });
        stored.push(Stored {
            obstacles: own,
            before: start[..start.len() - left.0.len()].to_vec(),
            is_14: now[32..36] == 114u32.to_be_bytes(),
            now,
        });
    }
    stored
}

fn of_writings(calls: &[u8], answers: &[u8]) -> Vec<Stored> {
    let (mut left, mut told) = (Left(calls), Left(answers));
    let mut stored = Vec::new();
    while !left.0.is_empty() {
        let cart = std::array::from_fn(|_| left.number());
        let [obstacles, kinds, counts, vertices, neighbours, lines, buffer] = left.words();
        let lent = Lent {
            obstacles,
            kinds: left.bytes(kinds as usize).to_vec(),
            counts: left.bytes(counts as usize).to_vec(),
            vertices: left.numbers(vertices),
        };
        let own = lent_obstacles(&lent);
        let call = writings::Writing {
            cart,
            lent,
            neighbours,
            lines: left.numbers(lines),
            buffer: buffer as usize,
        };
        stored.push(Stored {
            obstacles: own,
            before: told.bytes(4 + buffer as usize).to_vec(),
            is_14: call.told() == Err(14),
            now: call.answer(),
        });
    }
    stored
}

fn of_moves(calls: &[u8], answers: &[u8]) -> Vec<Stored> {
    let (mut left, mut told) = (Left(calls), Left(answers));
    let mut stored = Vec::new();
    while !left.0.is_empty() {
        let [to, room, length] = [left.pair(), left.pair(), left.pair()];
        let record = left.bytes(length).to_vec();
        let own = obstacles_of(&record);
        let now = moves::answered(to as u8, room, record);
        stored.push(Stored {
            obstacles: own,
            before: told.bytes(2 + room).to_vec(),
            is_14: now[..2] == [0xFF, 14],
            now,
        });
    }
    stored
}

// ---- what they hold

/// Of a scene record, by the places of its fields, as far as they are there: length, version and cart are 39 bytes.
fn obstacles_of(record: &[u8]) -> Vec<(bool, Vec<Vec2>)> {
    let mut left = Left(record.get(40..).unwrap_or_default());
    let count = record.get(39).copied().unwrap_or_default();
    let mut obstacles = Vec::new();
    for _ in 0..count {
        let &[kind, vertices, ..] = left.0 else {
            break;
        };
        left.bytes(2);
        let there = usize::from(vertices).min(left.0.len() / 8);
        let own = (0..there).map(|_| left.vector()).collect();
        obstacles.push((u32::from(kind) == CLOSED && there == usize::from(vertices), own));
    }
    obstacles
}

fn lent_obstacles(lent: &Lent) -> Vec<(bool, Vec<Vec2>)> {
    let mut vertices = lent.vertices.chunks_exact(2);
    let heads = lent.kinds.iter().zip(&lent.counts);
    heads
        .take(lent.obstacles as usize)
        .map(|(kind, count)| {
            let own = vertices.by_ref().take(usize::from(*count));
            let own: Vec<Vec2> = own.map(|pair| Vec2::new(pair[0], pair[1])).collect();
            (u32::from(*kind) == CLOSED && own.len() == usize::from(*count), own)
        })
        .collect()
}

/// What is left of a stored file.
struct Left<'a>(&'a [u8]);

impl<'a> Left<'a> {
    fn bytes(&mut self, count: usize) -> &'a [u8] {
        let (taken, rest) = self.0.split_at(count);
        self.0 = rest;
        taken
    }

    fn pair(&mut self) -> usize {
        self.bytes(2).iter().fold(0, |high, low| 256 * high + usize::from(*low))
    }

    fn word(&mut self) -> u32 {
        self.bytes(4).iter().fold(0, |high, low| high << 8 | u32::from(*low))
    }

    fn words<const COUNT: usize>(&mut self) -> [u32; COUNT] {
        std::array::from_fn(|_| self.word())
    }

    fn number(&mut self) -> f32 {
        f32::from_bits(self.word())
    }

    fn numbers(&mut self, count: u32) -> Vec<f32> {
        (0..count).map(|_| self.number()).collect()
    }

    fn vector(&mut self) -> Vec2 {
        Vec2::new(self.number(), self.number())
    }
}
