//! Lengths, versions, kinds and counts at their limits and beyond.

use super::numbers::{push, scene};
use super::{Named, CLOSED_BYTE, OPEN_BYTE};
use crate::records::{LONGEST_NUMBERED, LONGEST_REST, NUMBERED};

/// Places in what follows the length.
pub const VERSION: usize = 0;
pub const OBSTACLE_COUNT: usize = 37;
const KIND: usize = 38;

const NO_LINES: u8 = 0;

pub fn records() -> Vec<Named> {
    let mut records = lengths();
    records.extend(versions());
    records.extend(kinds());
    records.extend(obstacles());
    records.extend(vertices());
    records.extend(totals());
    records.extend(neighbours());
    records
}

/// The version and the agent of the scene, then these bytes.
pub fn agent_and(bytes: &[u8]) -> Vec<u8> {
    let mut rest = scene()[..OBSTACLE_COUNT].to_vec();
    rest.extend(bytes);
    rest
}

fn with_byte(place: usize, byte: u8) -> Vec<u8> {
    let mut rest = scene();
    rest[place] = byte;
    rest
}

/// A scene of no obstacles, which the records behind an overlong one must not be taken for.
fn empty() -> Vec<u8> {
    agent_and(&[0, NO_LINES])
}

fn lengths() -> Vec<Named> {
    let overlong = |length: usize| {
        let mut rest = scene();
        rest.resize(length, 1);
        (
            "version 1, a length over 2,631, all its bytes there",
            rest,
            Some(4),
        )
    };
    let mut records = vec![
        ("a length of 0", vec![], Some(2)),
        overlong(LONGEST_REST + 1),
        ("the shortest scene", empty(), None),
        overlong(LONGEST_REST + 2),
        overlong(usize::from(u16::MAX)),
        ("the shortest scene", empty(), None),
        ("a length of exactly 2,631", longest(), None),
        (
            "a length of exactly 2,631, at fault",
            at_fault(longest(), VERSION, 3),
            Some(1),
        ),
    ];
    records.extend(lengths_by_version());
    records
}

/// Nothing but zeros behind the version, so that the horizon is at fault where the fields are looked at.
fn lengths_by_version() -> Vec<Named> {
    let numbers = [
        (LONGEST_REST, [1, 6, 6, 1]),
        (LONGEST_REST + 1, [1, 4, 6, 1]),
        (LONGEST_NUMBERED, [1, 4, 6, 1]),
        (LONGEST_NUMBERED + 1, [4, 4, 4, 4]),
    ];
    let mut records = Vec::new();
    for (length, numbers) in numbers {
        for (version, number) in (0u8..).zip(numbers) {
            let rest = at_fault(vec![0; length], VERSION, version);
            records.push((
                "a length at a limit, under versions 0 to 3",
                rest,
                Some(number),
            ));
        }
    }
    records
}

fn at_fault(mut rest: Vec<u8>, place: usize, byte: u8) -> Vec<u8> {
    rest[place] = byte;
    rest
}

fn versions() -> Vec<Named> {
    let alone = |byte: u8| ("another version", vec![byte], Some(1));
    let mut records = vec![alone(0), alone(3), alone(255)];
    for byte in [0, 3, 255] {
        records.push(("another version", with_byte(VERSION, byte), Some(1)));
    }
    records.push(("version 2 alone", vec![NUMBERED], Some(2)));
    let none = at_fault(empty(), VERSION, NUMBERED);
    records.push(("version 2 without a neighbour", none, None));
    records.extend(numbers());
    records
}

/// Numbers before neighbour lines: of any value, cut short, before lines at fault, and where the version says otherwise.
fn numbers() -> Vec<Named> {
    const LINE: [f32; 4] = [0.0, 1.0, 1.0, 0.0];
    let numbered = |number: u32, line: [f32; 4]| {
        let mut rest = at_fault(agent_and(&[0, 1]), VERSION, NUMBERED);
        rest.extend(number.to_be_bytes());
        push(&mut rest, &line);
        rest
    };
    let mut records = Vec::new();
    for number in [0, 1, 7, 0x3F80_0000, 0x7FC0_0000, u32::MAX] {
        records.push(("a number of any value", numbered(number, LINE), None));
    }
    let behind = agent_and(&[]).len() + 2;
    for length in [behind, behind + 3, behind + 4, behind + 19] {
        let cut = numbered(7, LINE)[..length].to_vec();
        records.push(("a number or its line cut short", cut, Some(2)));
    }
    let row = "a number before a line at fault";
    records.push((row, numbered(7, [f32::NAN, 1.0, 1.0, 0.0]), Some(6)));
    records.push((row, numbered(7, [0.0, 1.0, 1.0, 1.0]), Some(7)));
    let row = "numbers under version 1, none under version 2";
    let first = at_fault(numbered(0x3F80_0000, LINE), VERSION, 1);
    records.push((row, first, Some(7)));
    let second = at_fault(with_lines(of_sizes(&[]), 1), VERSION, NUMBERED);
    records.push((row, second, Some(2)));
    let left = [numbered(7, LINE), vec![0]].concat();
    records.push(("version 2 with a byte left over", left, Some(2)));
    records.push(("a length of exactly 2,887", longest_numbered(), None));
    records
}

fn kinds() -> Vec<Named> {
    let row = "a kind of 0, 3 or 255";
    let mut records = Vec::new();
    for kind in [0, 3, 255] {
        records.push((row, agent_and(&[1, kind]), Some(3)));
        records.push((row, with_byte(KIND, kind), Some(3)));
    }
    let empty_open = [1, OPEN_BYTE, 0];
    let row = "open without vertices";
    records.push((row, agent_and(&empty_open), Some(5)));
    records.push((
        row,
        agent_and(&[&empty_open[..], &[NO_LINES]].concat()),
        Some(5),
    ));
    let row = "closed without vertices";
    records.push((row, agent_and(&[1, CLOSED_BYTE, 0, NO_LINES]), None));
    records
}

fn obstacles() -> Vec<Named> {
    let row = "17 obstacles or more";
    vec![
        ("16 obstacles", of_sizes(&[2; 16]), None),
        ("16 obstacles without vertices", of_sizes(&[0; 16]), None),
        (row, agent_and(&[17]), Some(4)),
        (row, agent_and(&[255]), Some(4)),
        (row, of_sizes(&[2; 17]), Some(4)),
        (row, of_sizes(&[0; 17]), Some(4)),
    ]
}

fn vertices() -> Vec<Named> {
    let row = "65 vertices or more";
    vec![
        ("64 vertices", of_sizes(&[64]), None),
        (row, agent_and(&[1, CLOSED_BYTE, 65]), Some(4)),
        (row, agent_and(&[1, OPEN_BYTE, 255]), Some(4)),
        (row, of_sizes(&[65]), Some(4)),
        (row, of_sizes(&[64, 65]), Some(4)),
    ]
}

/// The total is met at the count that passes it, so a record may end there.
fn totals() -> Vec<Named> {
    let row = "a total of 193 or more";
    let then = |head: [u8; 2]| {
        let mut rest = of_sizes(&[64, 64, 64]);
        rest[OBSTACLE_COUNT] = 4;
        rest.pop();
        rest.extend(head);
        rest
    };
    vec![
        ("a total of 192", of_sizes(&[64, 64, 64]), None),
        (
            "a total of 192, then closed without vertices",
            of_sizes(&[64, 64, 64, 0]),
            None,
        ),
        ("a total of 192", of_sizes(&[12; 16]), None),
        (
            "a total of 192, then open without vertices",
            then([OPEN_BYTE, 0]),
            Some(5),
        ),
        (row, then([CLOSED_BYTE, 1]), Some(4)),
        (row, of_sizes(&[64, 64, 64, 1]), Some(4)),
        (row, of_sizes(&[64, 64, 2, 64]), Some(4)),
        (row, of_sizes(&[16; 16]), Some(4)),
    ]
}

fn neighbours() -> Vec<Named> {
    let row = "65 neighbour lines or more";
    vec![
        ("64 neighbour lines", with_lines(of_sizes(&[]), 64), None),
        (row, agent_and(&[0, 65]), Some(4)),
        (row, agent_and(&[0, 255]), Some(4)),
        (row, with_lines(of_sizes(&[]), 65), Some(4)),
    ]
}

/// Closed obstacles of so many vertices each, side by side along a wall ahead, and no lines.
fn of_sizes(sizes: &[usize]) -> Vec<u8> {
    let mut rest = agent_and(&[sizes.len() as u8]);
    let mut x = -100.0;
    for size in sizes {
        rest.extend([CLOSED_BYTE, *size as u8]);
        for place in 0..*size {
            x += 1.0;
            push(&mut rest, &[x, 4.0 + (place % 3) as f32]);
        }
    }
    rest.push(NO_LINES);
    rest
}

/// In place of none.
fn with_lines(mut rest: Vec<u8>, count: usize) -> Vec<u8> {
    rest.pop();
    rest.push(count as u8);
    for place in 0..count {
        push(&mut rest, &[0.0, -1.0 - place as f32, 1.0, 0.0]);
    }
    rest
}

/// As many obstacles, vertices and lines as there may be.
fn longest() -> Vec<u8> {
    with_lines(of_sizes(&[12; 16]), 64)
}

/// The same with a number before each line.
fn longest_numbered() -> Vec<u8> {
    let mut rest = longest();
    let lines = rest.split_off(rest.len() - 16 * 64);
    rest[VERSION] = NUMBERED;
    for (line, number) in lines.chunks(16).zip(1u32..) {
        rest.extend(number.to_be_bytes());
        rest.extend(line);
    }
    rest
}
