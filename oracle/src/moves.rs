//! Moves of scene records between their versions (02, T-07): calls, and in a file of their own what a move must tell
//! and leave in the buffer. What moves here reads the record by the judge and writes the scene anew, so it shares no
//! step with a move that copies bytes. A call is a pair, the version to move to, a pair, the buffer's length, a pair,
//! the record's length, and the record. An answer is a pair, the length that was written or FF00 and the refusal's
//! number, and the whole buffer, which was all sentinels.

use std::fs;

use crate::calls::{self, Call, SENTINEL};
use crate::coverage_table::Column;
use crate::random::Random;
use crate::records::{
    numbered_record, reader, scene_record, with_length, Records, LONGEST_NUMBERED, LONGEST_REST,
    NUMBERED, VERSION,
};
use crate::scale::Parts;
use crate::scene_vectors::{self, Set};
use crate::words::hex_bytes;

const SEED: u64 = 0x6D6F_7665_7300;
const DRAWN: usize = 300;
const REFUSED: u16 = 0xFF00;
/// The longest buffer that is lent here.
const MOST_ROOM: usize = 4_000;

struct Move {
    to: u8,
    room: usize,
    record: Vec<u8>,
}

type Shown = calls::Shown<Move>;

const COLUMNS: [Column<Shown>; 12] = [
    ("in all", |_| true),
    ("get 1", |shown| shown.2 == Err(1)),
    ("get 2", |shown| shown.2 == Err(2)),
    ("get 3", |shown| shown.2 == Err(3)),
    ("get 4", |shown| shown.2 == Err(4)),
    ("get 5", |shown| shown.2 == Err(5)),
    ("get 6", |shown| shown.2 == Err(6)),
    ("get 7", |shown| shown.2 == Err(7)),
    ("get 10", |shown| shown.2 == Err(10)),
    ("get 11", |shown| shown.2 == Err(11)),
    ("get 14", |shown| shown.2 == Err(14)),
    ("are moved", |shown| shown.2.is_ok()),
];

/// The same bytes at each call.
pub fn set() -> Result<Set, String> {
    calls::set(("Moves", &COLUMNS), named(), (SEED, DRAWN))
}

/// A drawn call, and its answer.
pub fn at_scale(random: &mut Random) -> Result<Parts, String> {
    calls::at_scale::<Move>(random)
}

/// Every record of a stream that can be moved, there and back: both calls, and the answers. Back must be the record itself.
pub fn moved_again(file: &str) -> Result<Set, String> {
    let stream = fs::read(file).map_err(|fault| format!("{file}: {fault}"))?;
    let (mut records, mut answers, mut count) = (Vec::new(), Vec::new(), 0);
    for record in Records(&stream) {
        for to in [VERSION, NUMBERED] {
            let Ok(there) = moved(to, record) else {
                continue;
            };
            if moved(other(to), &there).as_deref() != Ok(record) {
                return Err(format!("not moved back: {}", hex_bytes(record)));
            }
            for (to, room, record) in [
                (to, there.len(), record),
                (other(to), record.len(), &there[..]),
            ] {
                let call = Move {
                    to,
                    room,
                    record: record.to_vec(),
                };
                records.extend(call.bytes());
                answers.extend(call.answer());
            }
            count += 1;
        }
    }
    let table = format!("records moved there and back: {count}\n");
    Ok(Set {
        records,
        answers,
        table,
    })
}

fn other(version: u8) -> u8 {
    VERSION + NUMBERED - version
}

/// The record in the other version; or the number of the refusal.
fn moved(to: u8, record: &[u8]) -> Result<Vec<u8>, u32> {
    let read = reader::read_of(record, &[other(to)])?;
    if to == NUMBERED {
        return Ok(numbered_record(&read.scene, &read.numbers));
    }
    reader::must(read.numbers.iter().all(|number| *number == 0), 11)?;
    Ok(scene_record(&read.scene))
}

/// The answer to a call.
pub fn answered(to: u8, room: usize, record: Vec<u8>) -> Vec<u8> {
    Move { to, room, record }.answer()
}

impl Call for Move {
    fn told(&self) -> Result<usize, u32> {
        let length = moved(self.to, &self.record)?.len();
        reader::must(length <= self.room, 10)?;
        Ok(length)
    }

    fn bytes(&self) -> Vec<u8> {
        let pairs = [
            u16::from(self.to),
            self.room as u16,
            self.record.len() as u16,
        ];
        let mut bytes: Vec<u8> = pairs.iter().flat_map(|pair| pair.to_be_bytes()).collect();
        bytes.extend(&self.record);
        bytes
    }

    fn answer(&self) -> Vec<u8> {
        let mut buffer = vec![SENTINEL; self.room];
        let told = match self.told() {
            Ok(length) => {
                let moved = moved(self.to, &self.record).unwrap_or_default();
                buffer[..length].copy_from_slice(&moved);
                length as u16
            }
            Err(number) => REFUSED + number as u16,
        };
        [&told.to_be_bytes()[..], &buffer].concat()
    }

    /// A scene's record of either version, sometimes with faults, and a buffer about as long as the moved record.
    fn drawn(random: &mut Random) -> Move {
        let to = random.pick(&[VERSION, NUMBERED]);
        let from = if random.one_in(12) { to } else { other(to) };
        let record = match (from, random.one_in(4)) {
            (VERSION, false) => scene_record(&scene_vectors::drawn(random)),
            (VERSION, true) => scene_vectors::spoiled(random),
            (_, false) => {
                let scene = scene_vectors::drawn(random);
                let zeros = vec![0; scene.lines.len()];
                let any = scene_vectors::drawn_numbers(random, &scene);
                numbered_record(&scene, if random.one_in(3) { &any } else { &zeros })
            }
            (_, true) => scene_vectors::spoiled_numbered(random),
        };
        let length = moved(to, &record).map_or(record.len(), |moved| moved.len());
        let room = match random.below(4) {
            0 => length,
            1 => length + 1 + random.below(20),
            2 => length - 1,
            _ => random.below(length),
        };
        Move {
            to,
            room: room.min(MOST_ROOM),
            record,
        }
    }
}

/// The examples of the request, and what stands at its limits.
fn named() -> Vec<Shown> {
    let cart: Vec<u8> = [&[0; 20][..], &[0x3F, 0x80, 0, 0], &[0; 12]].concat();
    let line: [u8; 16] = [0, 0, 0, 0, 0x3F, 0x80, 0, 0, 0x3F, 0x80, 0, 0, 0, 0, 0, 0];
    let record = |version: u8, behind: &[&[u8]]| {
        with_length([&[version], &cart[..], &behind.concat()].concat())
    };
    let none = |version: u8| record(version, &[&[0, 0]]);
    let first = record(VERSION, &[&[0, 1], &line]);
    let second = |number: u32| record(NUMBERED, &[&[0, 1], &number.to_be_bytes(), &line]);
    let left = record(NUMBERED, &[&[0, 1], &7u32.to_be_bytes(), &line, &[0]]);
    let empty_open = record(NUMBERED, &[&[1, 2, 0]]);
    let point = |version: u8, behind: &[u8]| record(version, &[&[1, 1, 1], &[0; 8], behind]);
    let twice = |version: u8| {
        let vertices = [&[1, 2, 2, 0x80][..], &[0; 15]].concat();
        record(version, &[&vertices, &[1], &7u32.to_be_bytes(), &line])
    };
    let zeros = |version: u8, length: usize| {
        let mut rest = vec![0; length];
        rest[0] = version;
        with_length(rest)
    };
    let nan = with_length([&[NUMBERED, 0x7F, 0xC0][..], &[0; 36]].concat());
    let call = |row, to, room, record: Vec<u8>, told| (row, Move { to, room, record }, told);
    let mut calls = vec![
        call("no neighbour", 2, 41, none(1), Ok(41)),
        call("no neighbour", 1, 41, none(2), Ok(41)),
        call("no neighbour", 1, 40, none(2), Err(10)),
        call("a line there", 2, 61, first.clone(), Ok(61)),
        call("a line there", 2, 80, first.clone(), Ok(61)),
        call("a line there", 2, 60, first.clone(), Err(10)),
        call("a line back", 1, 57, second(0), Ok(57)),
        call("a line back", 1, 80, second(0), Ok(57)),
        call("a line back", 1, 56, second(0), Err(10)),
        call("a number that would be lost", 1, 0, second(7), Err(11)),
        call("a number that would be lost", 1, 99, second(7), Err(11)),
        call("a number that would be lost", 1, 99, second(u32::MAX), Err(11)),
        call("a byte left over before 11", 1, 0, left, Err(2)),
        call("an open obstacle without vertices", 1, 99, empty_open, Err(5)),
        call("another kind", 1, 99, record(NUMBERED, &[&[1, 3]]), Err(3)),
        call("another kind", 2, 99, record(VERSION, &[&[1, 0, 0]]), Err(3)),
        call("one closed vertex", 1, 99, point(NUMBERED, &[]), Err(14)),
        call("one closed vertex", 2, 99, point(VERSION, &[]), Err(14)),
        call("one closed vertex before a byte left over", 1, 0, point(NUMBERED, &[0, 9]), Err(14)),
        call("one closed vertex in the wrong version", 2, 99, point(NUMBERED, &[0]), Err(1)),
        call("a doubled vertex before 11 and 10", 1, 0, twice(NUMBERED), Err(14)),
        call("a doubled vertex before 11 and 10", 2, 0, twice(VERSION), Err(14)),
        call("from the wrong version", 1, 99, first, Err(1)),
        call("from the wrong version", 2, 99, second(0), Err(1)),
        call("from the wrong version", 2, 99, nan.clone(), Err(1)),
        call("from its own, at fault", 1, 99, nan, Err(6)),
        call("no bytes", 1, 9, vec![], Err(2)),
        call("no bytes", 2, 9, vec![0], Err(2)),
        call("no version", 2, 9, vec![0, 0], Err(2)),
    ];
    let row = "a length at a limit, under versions 0 to 3";
    for (length, to_first, to_second) in [
        (LONGEST_REST, [1, 1, 6, 1], [1, 6, 1, 1]),
        (LONGEST_REST + 1, [1, 1, 6, 1], [1, 4, 1, 1]),
        (LONGEST_NUMBERED, [1, 1, 6, 1], [1, 4, 1, 1]),
        (LONGEST_NUMBERED + 1, [4; 4], [4; 4]),
    ] {
        for version in 0..4u8 {
            let record = zeros(version, length);
            let place = usize::from(version);
            calls.push(call(row, 1, 9, record.clone(), Err(to_first[place])));
            calls.push(call(row, 2, 9, record, Err(to_second[place])));
        }
    }
    calls
}
