//! Scenes made by hand, each for a row of the coverage table, which it must show: the definition of the build's whole
//! example, bench cases as scenes, and the smallest scenes known to bring out what surprises.

use glam::Vec2;

use super::{ask_scene, coverage, Case};
use crate::encounters::EdgeLine;
use crate::list_vectors::judge::{LINE_REACH, LONGEST, REACH};
use crate::scenes::{Obstacle, Scene};

pub fn cases() -> Result<Vec<Case>, String> {
    let mut cases = Vec::new();
    for (row, scene) in scenes() {
        let case = ask_scene(scene)?;
        if !coverage::shows(&case, row) {
            return Err(format!("the scene made for it does not show: {row}"));
        }
        cases.push(case);
    }
    Ok(cases)
}

type Pair = (f32, f32);

fn scenes() -> Vec<(&'static str, Scene)> {
    let mut scenes = surprising();
    scenes.extend(bench());
    scenes.extend(at_ends());
    scenes
}

fn bench() -> Vec<(&'static str, Scene)> {
    let ahead = line((0.0, 1.0), (1.0, 0.0));
    let out_of_reach = line((0.0, 3.0), (1.0, 0.0));
    let example = Scene {
        margin: 0.5,
        wish: Vec2::new(0.0, 1.0),
        limit: 2.0,
        ..still(vec![open(&[(-1.0, 1.0), (1.0, 1.0)])])
    };
    let vertex = |x: f32| Scene {
        margin: 1.0,
        ..still(vec![closed(&[(x, 0.0)])])
    };
    vec![
        ("the whole example", example),
        (
            "P2 as a scene",
            Scene {
                wish: Vec2::new(4.0, 0.0),
                limit: 2.0,
                ..still(vec![])
            },
        ),
        (
            "P3 as a scene",
            Scene {
                limit: 2.0,
                lines: vec![ahead],
                ..still(vec![])
            },
        ),
        (
            "P6 as a scene",
            Scene {
                limit: 2.0,
                lines: vec![out_of_reach],
                ..still(vec![])
            },
        ),
        ("P12 as a scene, vertex (5,0): 14", vertex(5.0)),
        ("P12 as a scene, vertex (0.5,0): 14", vertex(0.5)),
    ]
}

fn surprising() -> Vec<(&'static str, Scene)> {
    let twice = closed(&[(2.0, -1.0), (2.0, -1.0), (-1.0, 0.0), (-1.0, 0.0)]);
    let apart = open(&[(-1.1982944, -0.79721916), (-0.94096375, 0.23468599)]);
    vec![
        (
            "14: a wall there and back, its ends twice",
            Scene {
                velocity: Vec2::new(3.0, 4.0),
                margin: 2.0,
                horizon: 2.0,
                limit: 0.5,
                ..still(vec![twice])
            },
        ),
        (
            "9: only the second pass, every edge with a length",
            Scene {
                position: of_bits(0x3EB7_E080, 0xBF4E_DA8D),
                velocity: of_bits(0xC0B9_E808, 0xBF68_9900),
                margin: f32::from_bits(0x3FF9_E821),
                horizon: 0.5,
                wish: of_bits(0xBF95_92EE, 0x3F77_A34D),
                limit: f32::from_bits(0x3E63_6F24),
                ..still(vec![Obstacle {
                    closed: true,
                    vertices: vec![
                        of_bits(0xBF5E_98FE, 0x3F35_946B),
                        of_bits(0xBFF0_AAB7, 0xBDDF_772F),
                    ],
                }])
            },
        ),
        (
            "9: only the second pass, an edge without length seen from the cart",
            Scene {
                position: of_bits(0xBE68_630F, 0x3FA9_9F47),
                velocity: of_bits(0x4077_1E2E, 0xBF8F_1E5F),
                margin: 1.0,
                horizon: 2.0,
                wish: of_bits(0x40B1_0FB1, 0xBEF0_0444),
                limit: 0.0,
                ..still(vec![Obstacle {
                    closed: true,
                    vertices: vec![
                        of_bits(0xBFD3_64A2, 0xBEF5_37BC),
                        Vec2::ZERO,
                        of_bits(0x8C7D_ABB6, 0x027E_8C16),
                    ],
                }])
            },
        ),
        (
            "9: first pass, vertices apart",
            Scene {
                velocity: Vec2::new(0.08913708, -0.7886338),
                margin: 0.9697888,
                ..still(vec![apart])
            },
        ),
        (
            "outcome 3, 4 probes over both passes",
            Scene {
                velocity: Vec2::new(-3.0, -3.0),
                margin: 0.5,
                horizon: 0.5,
                ..still(vec![closed(&[(-1.0, 0.0), (-3.0, 0.0), (1.0, 0.0)])])
            },
        ),
        (
            "limit -0, wish (1,0): (-0,-0)",
            Scene {
                wish: Vec2::new(1.0, 0.0),
                limit: -0.0,
                ..still(vec![])
            },
        ),
    ]
}

fn at_ends() -> Vec<(&'static str, Scene)> {
    let corner = Vec2::new(-REACH, REACH);
    let far = line((LINE_REACH, -LINE_REACH), (0.0, -1.0));
    vec![
        (
            "all numbers at the ends of their ranges",
            Scene {
                position: corner,
                velocity: corner,
                margin: LONGEST,
                horizon: 1.0 / 1024.0,
                wish: corner,
                limit: LONGEST,
                obstacles: vec![open(&[(REACH, REACH), (REACH, -REACH)])],
                lines: vec![far],
                neighbours: None,
            },
        ),
        (
            "an obstacle of no vertices",
            still(vec![closed(&[]), open(&[(0.0, 1.0)])]),
        ),
    ]
}

/// At the origin, at rest, no margin, horizon and limit 1, no wish.
fn still(obstacles: Vec<Obstacle>) -> Scene {
    Scene {
        position: Vec2::ZERO,
        velocity: Vec2::ZERO,
        margin: 0.0,
        horizon: 1.0,
        wish: Vec2::ZERO,
        limit: 1.0,
        obstacles,
        lines: Vec::new(),
        neighbours: None,
    }
}

fn of_bits(x: u32, y: u32) -> Vec2 {
    Vec2::new(f32::from_bits(x), f32::from_bits(y))
}

fn open(vertices: &[Pair]) -> Obstacle {
    Obstacle {
        closed: false,
        ..closed(vertices)
    }
}

fn closed(vertices: &[Pair]) -> Obstacle {
    let vertices = vertices.iter().map(|(x, y)| Vec2::new(*x, *y));
    Obstacle {
        closed: true,
        vertices: vertices.collect(),
    }
}

fn line(point: Pair, direction: Pair) -> EdgeLine {
    (
        Vec2::new(point.0, point.1),
        Vec2::new(direction.0, direction.1),
    )
}
