//! Calls by hand, each with what the writer must tell (02, T-01): where the order of faults shows, each count one more
//! and one less than what is lent, and buffers of every length.

use super::{Writing, Shown};
use crate::lent::Lent;

const NAN: f32 = f32::NAN;
const OPEN: u8 = 2;

pub fn calls() -> Vec<Shown> {
    [
        fewer(),
        more(),
        kinds_and_counts(),
        doubled(),
        cart_numbers(),
        lines(),
        one_beside(),
        limits(),
        whole(),
        buffers(),
    ]
    .concat()
}

/// The cart of docs/RECORDS.md, no obstacle, no neighbour: 41 bytes.
fn smallest() -> Writing {
    Writing {
        cart: [0.0, 0.0, 0.0, 0.0, 0.0, 1.0, 0.0, 0.0, 0.0],
        lent: Lent::of(&[]),
        neighbours: 0,
        lines: vec![],
        buffer: 100,
    }
}

/// The call with something else lent of obstacles.
fn lending(call: &Writing, change: impl FnOnce(&mut Lent)) -> Writing {
    let mut call = call.clone();
    change(&mut call.lent);
    call
}

/// With an open wall of two vertices, whose numbers are these.
fn wall(vertices: &[f32]) -> Writing {
    lending(&walled(1, &[OPEN], &[2]), |lent| {
        lent.vertices = vertices.to_vec()
    })
}

fn with_line(call: Writing, lines: &[f32]) -> Writing {
    Writing {
        neighbours: 1,
        lines: lines.to_vec(),
        ..call
    }
}

fn walled(obstacles: u32, kinds: &[u8], counts: &[u8]) -> Writing {
    Writing {
        lent: Lent {
            obstacles,
            kinds: kinds.to_vec(),
            counts: counts.to_vec(),
            vertices: vec![],
        },
        ..smallest()
    }
}

/// 01's whole example: 59 bytes.
fn example() -> Writing {
    Writing {
        cart: [0.0, 0.0, 0.0, 0.0, 0.5, 1.0, 0.0, 1.0, 2.0],
        buffer: 59,
        ..wall(&[-1.0, 1.0, 1.0, 1.0])
    }
}

/// Two obstacles and two neighbours: 133 bytes.
fn full() -> Writing {
    let walls = lending(&walled(2, &[1, 2], &[3, 4]), |lent| {
        lent.vertices = (0..14).map(|place| place as f32).collect()
    });
    Writing {
        neighbours: 2,
        lines: vec![0.0, 1.0, 1.0, 0.0, 0.0, -1.0, -1.0, 0.0],
        buffer: 140,
        ..walls
    }
}

fn fewer() -> Vec<Shown> {
    let row = "numbers missing: told at the field that misses them";
    vec![
        (row, wall(&[NAN, 0.0, 0.0]), Err(6)),
        (row, wall(&[0.0, 0.0, 0.0]), Err(2)),
        (row, wall(&[0.0, 0.0, 0.0, NAN]), Err(6)),
        (row, wall(&[]), Err(2)),
        (
            row,
            Writing {
                neighbours: 65,
                ..wall(&[0.0])
            },
            Err(2),
        ),
    ]
}

fn more() -> Vec<Shown> {
    let row = "numbers left over: told behind the lines";
    let over = wall(&[0.0, 0.0, 1.0, 0.0, 9.0]);
    vec![
        (row, with_line(over.clone(), &[NAN, 0.0, 1.0, 0.0]), Err(6)),
        (row, with_line(over.clone(), &[0.0, 1.0, 1.0, 1.0]), Err(7)),
        (row, with_line(over.clone(), &[0.0, 1.0, 1.0, 0.0]), Err(2)),
        (
            row,
            Writing {
                neighbours: 65,
                ..over.clone()
            },
            Err(4),
        ),
        (row, Writing { buffer: 0, ..over }, Err(2)),
        (
            row,
            Writing {
                lines: vec![0.0],
                ..smallest()
            },
            Err(2),
        ),
        (
            row,
            lending(&smallest(), |lent| lent.vertices = vec![0.0]),
            Err(2),
        ),
    ]
}

fn kinds_and_counts() -> Vec<Shown> {
    let row = "kinds and counts";
    let alternating: Vec<f32> = (0..384).map(|place| (place / 2 % 2) as f32).collect();
    let total = lending(&walled(4, &[1; 4], &[64, 64, 64, 1]), |lent| {
        lent.vertices = alternating
    });
    vec![
        (row, walled(1, &[], &[]), Err(2)),
        (row, walled(1, &[3], &[]), Err(3)),
        (row, walled(1, &[0], &[2]), Err(3)),
        (row, walled(1, &[1], &[]), Err(2)),
        (row, walled(0, &[1], &[]), Err(2)),
        (row, walled(0, &[], &[1]), Err(2)),
        (row, walled(17, &[], &[]), Err(4)),
        (row, walled(1, &[OPEN], &[0]), Err(5)),
        (row, walled(1, &[1], &[0]), Ok(43)),
        (row, walled(1, &[1], &[65]), Err(4)),
        (row, total, Err(4)),
    ]
}

/// Where 14 (T-11) stands: behind the second vertex's own 6, the closing pair behind the last vertex, both before the lines.
fn doubled() -> Vec<Shown> {
    let row = "doubled vertices";
    let lent = |kind: u8, count: u8, vertices: &[f32]| {
        lending(&walled(1, &[kind], &[count]), |lent| lent.vertices = vertices.to_vec())
    };
    let round = [0.0, 0.0, 1.0, 0.0, 0.0, -0.0];
    let short = |call: Writing| Writing { buffer: 0, ..call };
    let many = |call: Writing| Writing {
        neighbours: 65,
        ..call
    };
    vec![
        (row, lent(OPEN, 2, &[0.0, 0.0, -0.0, 0.0]), Err(14)),
        (row, lent(OPEN, 3, &[0.0, 0.0, 0.0, 0.0, NAN, 0.0]), Err(14)),
        (row, lent(OPEN, 2, &[0.0, 0.0, 0.0, NAN]), Err(6)),
        (row, lent(OPEN, 2, &[0.0, 0.0, 0.0]), Err(2)),
        (row, lent(OPEN, 2, &[0.0, 0.0, 0.0, 0.0, 9.0]), Err(14)),
        (row, lent(1, 1, &[0.0, 0.0]), Err(14)),
        (row, short(lent(1, 1, &[0.0, 0.0])), Err(14)),
        (row, lent(OPEN, 1, &[0.0, 0.0]), Ok(51)),
        (row, many(lent(1, 3, &round)), Err(14)),
        (row, many(lent(OPEN, 3, &round)), Err(4)),
        (row, lent(OPEN, 3, &round), Ok(67)),
        (row, lent(1, 2, &round[..4]), Ok(59)),
    ]
}

fn cart_numbers() -> Vec<Shown> {
    let row = "the cart's numbers: before all else";
    let mut shown = vec![
        (
            row,
            Writing {
                cart: [-0.0; 9],
                ..smallest()
            },
            Err(6),
        ),
        (
            row,
            Writing {
                buffer: 0,
                ..with_number(0, NAN)
            },
            Err(6),
        ),
        (row, with_number(0, -0.0), Ok(41)),
    ];
    for place in 0..9 {
        let most: f32 = if [4, 5, 8].contains(&place) {
            1_024.0
        } else {
            65_536.0
        };
        let spoiled = lending(&with_number(place, NAN), |lent| lent.obstacles = 17);
        shown.push((row, spoiled, Err(6)));
        shown.push((row, with_number(place, most), Ok(41)));
        shown.push((row, with_number(place, most.next_up()), Err(6)));
        shown.push((row, with_number(place, f32::INFINITY), Err(6)));
    }
    shown
}

fn with_number(place: usize, number: f32) -> Writing {
    let mut call = smallest();
    call.cart[place] = number;
    call
}

fn lines() -> Vec<Shown> {
    let row = "a line's numbers: each missing, not finite or too large; then its band";
    let good = [0.0, 1.0, 1.0, 0.0];
    let mut shown = vec![
        (row, with_line(smallest(), &good), Ok(57)),
        (row, with_line(smallest(), &[0.0, 1.0, 1.0, 1.0]), Err(7)),
        (
            row,
            with_line(smallest(), &[268_435_456.0, -268_435_456.0, 0.0, 1.0]),
            Ok(57),
        ),
        (
            row,
            with_line(smallest(), &[268_435_456.0f32.next_up(), 0.0, 0.0, 1.0]),
            Err(6),
        ),
        (row, with_line(smallest(), &[0.0, 0.0, 2.0, NAN]), Err(6)),
    ];
    for place in 0..4 {
        let mut spoiled = good;
        spoiled[place] = f32::INFINITY;
        shown.push((row, with_line(smallest(), &spoiled), Err(6)));
        shown.push((row, with_line(smallest(), &good[..place]), Err(2)));
        shown.push((row, with_line(smallest(), &spoiled[..place + 1]), Err(6)));
    }
    shown
}

/// Each count, and each list, one more and one less.
fn one_beside() -> Vec<Shown> {
    let row = "one count, or one list, longer or shorter by one";
    let call = full();
    let mut shown = vec![(row, call.clone(), Ok(133))];
    for count in [1, 3] {
        shown.push((row, lending(&call, |lent| lent.obstacles = count), Err(2)));
        shown.push((
            row,
            Writing {
                neighbours: count,
                ..call.clone()
            },
            Err(2),
        ));
    }
    for counts in [[2, 4], [4, 4], [3, 3], [3, 5]] {
        let other = lending(&call, |lent| lent.counts = counts.to_vec());
        shown.push((row, other, Err(2)));
    }
    for by in [1, 3] {
        let kinds = lending(&call, |lent| lent.kinds = vec![1; by]);
        let counts = lending(&call, |lent| lent.counts = [3, 4, 1][..by].to_vec());
        shown.extend([(row, kinds, Err(2)), (row, counts, Err(2))]);
    }
    for length in [12, 13, 15, 16] {
        let vertices = lending(&call, |lent| lent.vertices.resize(length, 0.0));
        shown.push((row, vertices, Err(2)));
    }
    for length in [4, 7, 9, 12] {
        let mut lines = call.lines.clone();
        lines.resize(length, 0.0);
        shown.push((
            row,
            Writing {
                lines,
                ..call.clone()
            },
            Err(2),
        ));
    }
    shown
}

/// As many as there may be, and one more.
fn limits() -> Vec<Shown> {
    let row = "as many as there may be, and one more";
    let line = [0.0, 1.0, 1.0, 0.0];
    let near = |count: u32| Writing {
        neighbours: count,
        lines: line.repeat(count as usize),
        buffer: 1_100,
        ..smallest()
    };
    let apart = |obstacles: u32| {
        walled(
            obstacles,
            &vec![1; obstacles as usize],
            &vec![0; obstacles as usize],
        )
    };
    let together = |counts: [u8; 4]| Writing {
        buffer: 1_600,
        ..lending(&walled(4, &[OPEN; 4], &counts), |lent| {
            lent.vertices = (0..384).map(|place| place as f32).collect()
        })
    };
    vec![
        (row, near(64), Ok(1_065)),
        (row, near(65), Err(4)),
        (row, apart(16), Ok(73)),
        (row, apart(17), Err(4)),
        (
            row,
            lending(&smallest(), |lent| lent.obstacles = u32::MAX),
            Err(4),
        ),
        (
            row,
            Writing {
                neighbours: u32::MAX,
                ..smallest()
            },
            Err(4),
        ),
        (row, together([64, 64, 63, 1]), Ok(1_585)),
        (row, together([64, 64, 63, 2]), Err(4)),
        (row, together([48; 4]), Ok(1_585)),
    ]
}

fn whole() -> Vec<Shown> {
    vec![("01's whole example", example(), Ok(59))]
}

/// The record fits from its own length on; before that the buffer is left alone.
fn buffers() -> Vec<Shown> {
    let row = "buffers of every length, from none to two bytes more than the record";
    let mut shown = Vec::new();
    for (call, length) in [(smallest(), 41), (example(), 59), (full(), 133)] {
        for buffer in 0..=length + 2 {
            let told = if buffer < length { Err(10) } else { Ok(length) };
            shown.push((
                row,
                Writing {
                    buffer,
                    ..call.clone()
                },
                told,
            ));
        }
    }
    shown
}
