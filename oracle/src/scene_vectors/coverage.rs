//! What the scenes must show: a table of rows, each with how many scenes show it, and how many of these the given
//! lib.rs, unchanged, was asked for as a whole. No row may be 0.

use glam::Vec2;

use super::{Case, Outcome};
use crate::coverage_table::{self, Column};
use crate::edge_vectors::call::SCENE_VERTICES;
use crate::edge_vectors::judge::{admits, LONGEST_HORIZON, MOST_VERTICES, SHORTEST_HORIZON};
use crate::encounters::EdgeLine;
use crate::list_vectors::judge::{BAND_HIGH, BAND_LOW, LINE_REACH, LONGEST, REACH};
use crate::records::answers::{Answer, Velocity};
use crate::records::{scene_record, LONGEST_REST, MOST_NEIGHBOURS, MOST_OBSTACLES};
use crate::scenes::passes::{Pass, Passes};
use crate::scenes::{Obstacle, Scene};

enum Test {
    Outcome(u8),
    /// Not refused, and the scene is of this kind.
    Scene(fn(&Scene) -> bool),
    /// Not refused; the last pass and its answer are of this kind.
    Last(fn(&Scene, &Pass, &Velocity) -> bool),
    /// There was a second pass, and both are of this kind.
    Both(fn(&Scene, &Pass, &Pass) -> bool),
    /// Refused with 9 in the first pass, whose edge lines are of this kind.
    NotAdmittedFirst(fn(&Scene, &[EdgeLine]) -> bool),
    /// Refused with 9 in the second pass only.
    NotAdmittedSecond(fn(&Scene, &[EdgeLine]) -> bool),
    /// The number was told of the record, which is of this kind.
    Faulty(u32, fn(&[u8]) -> bool),
}

use Test::{Both, Faulty, Last, NotAdmittedFirst, NotAdmittedSecond, Outcome as Is, Scene as Of};

/// One row to a line, so that it reads as a table.
#[rustfmt::skip]
const ROWS: &[(&str, Test)] = &[
    ("outcome 1: first pass meets all lines", Is(1)),
    ("outcome 2: first pass relaxes", Is(2)),
    ("outcome 3: second pass meets all lines", Is(3)),
    ("outcome 4: second pass relaxes", Is(4)),
    ("outcome 5: second pass fails rigidly too", Is(5)),
    ("9: first pass", NotAdmittedFirst(|_, _| true)),
    ("9: first pass, an edge without length seen from the cart", NotAdmittedFirst(|s, _| vanishes(s))),
    ("9: first pass, every edge with a length", NotAdmittedFirst(|s, _| !vanishes(s))),
    ("9: first pass, vertices apart", NotAdmittedFirst(|s, l| s.obstacles.len() == 1 && l.len() == 1 && s.velocity == Vec2::new(0.08913708, -0.7886338))),
    ("9: first pass, an admitted line before it", NotAdmittedFirst(|_, l| admits(&l[0]))),
    ("9: only the second pass", NotAdmittedSecond(|_, _| true)),
    ("9: only the second pass, an edge without length seen from the cart", NotAdmittedSecond(|s, _| vanishes(s))),
    ("9: only the second pass, every edge with a length", NotAdmittedSecond(|s, _| !vanishes(s))),
    ("9: only the second pass, an admitted line before it", NotAdmittedSecond(|_, l| admits(&l[0]))),
    ("9: only the second pass, neighbour lines", NotAdmittedSecond(|s, _| !s.lines.is_empty())),
    ("the whole example", Last(|s, _, v| s.wish == Vec2::new(0.0, 1.0) && s.margin == 0.5 && v.point == Vec2::new(0.0, 0.5) && v.probes == 1 && v.failed_line.is_none())),
    ("P2 as a scene", Last(|s, _, v| s.wish == Vec2::new(4.0, 0.0) && v.point == Vec2::new(2.0, 0.0) && v.probes == 0)),
    ("P3 as a scene", Last(|s, _, v| s.lines == [AHEAD] && v.point == Vec2::new(0.0, 1.0) && v.probes == 1)),
    ("P6 as a scene", Last(|s, _, v| s.lines.len() == 1 && v.point == Vec2::new(0.0, 2.0) && v.failed_line == Some(0) && v.probes == 2)),
    ("P12 as a scene, vertex (5,0): 14", Faulty(14, |r| is_one_vertex(r, 5.0))),
    ("P12 as a scene, vertex (0.5,0): 14", Faulty(14, |r| is_one_vertex(r, 0.5))),
    ("outcome 3, 4 probes over both passes", Both(|s, a, b| s.velocity == Vec2::new(-3.0, -3.0) && met_all(b) && probes(a) + probes(b) == 4)),
    ("limit -0, wish (1,0): (-0,-0)", Last(|s, _, v| is_minus_zero(s.limit) && s.wish == Vec2::new(1.0, 0.0) && is_minus_zero(v.point.x) && is_minus_zero(v.point.y))),
    ("all numbers at the ends of their ranges", Of(is_at_ends)),
    ("0 obstacles", Of(|s| s.obstacles.is_empty())),
    ("1 obstacle", Of(|s| s.obstacles.len() == 1)),
    ("2 or more obstacles", Of(|s| s.obstacles.len() > 1)),
    ("16 obstacles", Of(|s| s.obstacles.len() == MOST_OBSTACLES)),
    ("closed and open obstacles", Of(|s| s.obstacles.iter().any(|o| o.closed) && s.obstacles.iter().any(|o| !o.closed))),
    ("an obstacle of no vertices", Of(|s| s.obstacles.iter().any(|o| o.vertices.is_empty()))),
    ("an obstacle of one vertex, open", Of(|s| s.obstacles.iter().any(|o| o.vertices.len() == 1 && !o.closed))),
    ("an obstacle of 64 vertices", Of(|s| s.obstacles.iter().any(|o| o.vertices.len() as u64 == MOST_VERTICES))),
    ("192 vertices", Of(|s| s.vertex_count() == SCENE_VERTICES)),
    ("0 neighbour lines", Of(|s| s.lines.is_empty())),
    ("1 neighbour line", Of(|s| s.lines.len() == 1)),
    ("2 or more neighbour lines", Of(|s| s.lines.len() > 1)),
    ("64 neighbour lines", Of(|s| s.lines.len() == MOST_NEIGHBOURS)),
    ("neighbour lines of agents", Of(|s| s.neighbours.is_some() && !s.lines.is_empty())),
    ("neighbour lines of agents, one overlaps", Of(overlaps)),
    ("a record of 2,631 behind its length", Of(|s| scene_record(s).len() == 2 + LONGEST_REST)),
    ("64 neighbour lines of agents", Of(|s| s.neighbours.is_some() && s.lines.len() == MOST_NEIGHBOURS)),
    ("0 edge lines, but obstacles with vertices", Last(|s, p, _| s.vertex_count() > 0 && p.edge_lines.is_empty())),
    ("192 edge lines", Last(|_, p, _| p.edge_lines.len() == SCENE_VERTICES)),
    ("256 lines", Last(|s, p, _| p.edge_lines.len() + s.lines.len() == 256)),
    ("256 lines, relaxed", Last(|s, p, v| p.edge_lines.len() + s.lines.len() == 256 && v.failed_line.is_some())),
    ("no failed line", Last(|_, _, v| v.failed_line.is_none())),
    ("failed line 0", Last(|_, _, v| v.failed_line == Some(0))),
    ("failed line: the first neighbour's, behind edge lines", Last(|_, p, v| !p.edge_lines.is_empty() && line_of(v) == Some(p.edge_lines.len()))),
    ("failed line: the last neighbour's", Last(|s, p, v| s.lines.len() > 1 && line_of(v) == Some(p.edge_lines.len() + s.lines.len() - 1))),
    ("failed line: the last edge line, before neighbours", Last(|s, p, v| !s.lines.is_empty() && v.failed_line.is_some() && line_of(v) == p.edge_lines.len().checked_sub(1))),
    ("failed line above 127", Last(|_, _, v| v.failed_line.is_some_and(|line| line > 127))),
    ("0 probes", Last(|_, _, v| v.probes == 0)),
    ("more than 255 probes", Last(|_, _, v| v.probes > 255)),
    ("more than 65,535 probes", Last(|_, _, v| v.probes > 65_535)),
    ("second pass: fewer edge lines", Both(|_, a, b| b.edge_lines.len() < a.edge_lines.len())),
    ("second pass: more edge lines", Both(|_, a, b| b.edge_lines.len() > a.edge_lines.len())),
    ("second pass: no edge line", Both(|_, _, b| b.edge_lines.is_empty())),
    ("second pass: the failed line fails again", Both(|_, a, b| failed(b).is_some() && failed(a) == failed(b))),
    ("second pass: another line fails", Both(|_, a, b| failed(b).is_some() && failed(a) != failed(b))),
    ("second pass: relaxed where it has fewer edge lines", Both(|_, a, b| b.solved.answer.is_ok() && failed(b).is_some() && b.edge_lines.len() < a.edge_lines.len())),
    ("second pass: the agent was at rest already", Both(|s, _, _| s.velocity == Vec2::ZERO)),
    ("second pass: other probes than the first", Both(|_, a, b| probes(a) != probes(b) && probes(b) > 0)),
    ("second pass: neighbour lines of agents, made with the velocity", Both(|s, _, _| s.neighbours.is_some() && !s.lines.is_empty())),
    ("second pass: 4 or more obstacles", Both(|s, _, _| s.obstacles.len() > 3)),
    ("second pass: a limit above 0.1", Both(|s, _, _| s.limit > 0.1)),
    ("limit 0", Of(|s| s.limit == 0.0)),
    ("limit -0", Of(|s| is_minus_zero(s.limit))),
    ("limit 1,024", Of(|s| s.limit == LONGEST)),
    ("margin 0", Of(|s| s.margin == 0.0)),
    ("margin -0", Of(|s| is_minus_zero(s.margin))),
    ("margin 1,024", Of(|s| s.margin == LONGEST)),
    ("horizon 1/1,024", Of(|s| s.horizon == SHORTEST_HORIZON)),
    ("horizon 1,024", Of(|s| s.horizon == LONGEST_HORIZON)),
    ("position component of 65,536", Of(|s| either(s.position, |x| x.abs() == REACH))),
    ("velocity component of 65,536", Of(|s| either(s.velocity, |x| x.abs() == REACH))),
    ("wish component of 65,536", Of(|s| either(s.wish, |x| x.abs() == REACH))),
    ("vertex component of 65,536", Of(|s| any_vertex(s, |x| x.abs() == REACH))),
    ("line point component of 268,435,456", Of(|s| s.lines.iter().any(|(p, _)| either(*p, |x| x.abs() == LINE_REACH)))),
    ("direction at the low end of its band", Of(|s| s.lines.iter().any(|(_, d)| d.dot(*d) == BAND_LOW))),
    ("direction at the high end of its band", Of(|s| s.lines.iter().any(|(_, d)| d.dot(*d) == BAND_HIGH))),
    ("-0 in the position", Of(|s| either(s.position, is_minus_zero))),
    ("-0 in the velocity", Of(|s| either(s.velocity, is_minus_zero))),
    ("-0 in the wish", Of(|s| either(s.wish, is_minus_zero))),
    ("-0 in a vertex", Of(|s| any_vertex(s, is_minus_zero))),
    ("-0 in a neighbour line", Of(|s| s.lines.iter().any(|(p, d)| either(*p, is_minus_zero) || either(*d, is_minus_zero)))),
    ("subnormal vertex component", Of(|s| any_vertex(s, f32::is_subnormal))),
    ("subnormal velocity component", Of(|s| either(s.velocity, f32::is_subnormal))),
    ("-0 in the answer", Last(|_, _, v| either(v.point, is_minus_zero))),
    ("+0 in the answer", Last(|_, _, v| either(v.point, |x| x.to_bits() == 0))),
    ("1: version", Faulty(1, |_| true)),
    ("2: bytes missing or left over", Faulty(2, |_| true)),
    ("2: nothing behind the version", Faulty(2, |r| r.len() == 3)),
    ("3: kind", Faulty(3, |_| true)),
    ("4: a count", Faulty(4, |r| r.len() <= 2 + LONGEST_REST)),
    ("4: the length", Faulty(4, |r| r.len() > 2 + LONGEST_REST)),
    ("5: open, no vertices", Faulty(5, |_| true)),
    ("6: a number", Faulty(6, |_| true)),
    ("7: a direction", Faulty(7, |_| true)),
    ("14: a doubled vertex", Faulty(14, |_| true)),
    ("14: a wall there and back, its ends twice", Faulty(14, |r| r[NUMBERS..].starts_with(&[1, 1, 4]))),
];

/// The table; or the rows that no scene shows.
pub fn table(cases: &[Case]) -> Result<String, String> {
    let columns: [Column<Case>; 2] = [
        ("in all", |_| true),
        (
            "asked of the unchanged lib.rs as a whole",
            is_asked_as_a_whole,
        ),
    ];
    coverage_table::of(cases, ("Scenes", &columns), ROWS, passes)
}

/// Whether the case is one of those that the row counts.
pub fn shows(case: &Case, row: &str) -> bool {
    ROWS.iter()
        .any(|(name, test)| *name == row && passes(test, case))
}

fn passes(test: &Test, case: &Case) -> bool {
    let (scene, made) = match &case.outcome {
        Outcome::Passed(scene, made) => (scene, made),
        Outcome::Faulty(number) => {
            return matches!(test, Faulty(told, kind) if told == number && kind(&case.record));
        }
    };
    match (test, made) {
        (Is(outcome), _) => {
            matches!(case.answer(), Answer::Velocity(velocity) if velocity.outcome == *outcome)
        }
        (Of(test), _) => made.last().is_some() && test(scene),
        (Last(test), _) => match (made.last(), case.answer()) {
            (Some(pass), Answer::Velocity(velocity)) => test(scene, pass, &velocity),
            _ => false,
        },
        (Both(test), Passes::Both(first, second)) => test(scene, first, second),
        (NotAdmittedFirst(test), Passes::NotAdmittedFirst(lines)) => test(scene, lines),
        (NotAdmittedSecond(test), Passes::NotAdmittedSecond(lines)) => test(scene, lines),
        _ => false,
    }
}

/// Lines that come ready made are not for the unchanged files, and neither are scenes that are refused.
fn is_asked_as_a_whole(case: &Case) -> bool {
    match &case.outcome {
        Outcome::Passed(scene, passes) => {
            passes.last().is_some() && (scene.neighbours.is_some() || scene.lines.is_empty())
        }
        Outcome::Faulty(_) => false,
    }
}

const AHEAD: EdgeLine = (Vec2::new(0.0, 1.0), Vec2::new(1.0, 0.0));

/// Where the obstacles' count stands in a record: behind length, version and the cart.
const NUMBERS: usize = 39;

/// One closed obstacle of one vertex, and no neighbours.
fn is_one_vertex(record: &[u8], x: f32) -> bool {
    let vertex = [x.to_be_bytes(), [0; 4]].concat();
    record[NUMBERS..] == [&[1, 1, 1], &vertex[..], &[0]].concat()
}

/// An edge whose ends are one place once the cart's position is taken off.
fn vanishes(scene: &Scene) -> bool {
    let seen = |vertex: Vec2| vertex - scene.position;
    let mut edges = scene.obstacles.iter().flat_map(pairs);
    edges.any(|(a, b)| seen(a) == seen(b))
}

fn is_at_ends(scene: &Scene) -> bool {
    let ends = |vector: Vec2, end: f32| vector.x.abs() == end && vector.y.abs() == end;
    let vectors = [scene.position, scene.velocity, scene.wish];
    vectors.iter().all(|vector| ends(*vector, REACH))
        && [scene.margin, scene.limit] == [LONGEST, LONGEST]
        && scene.horizon == SHORTEST_HORIZON
        && scene.vertex_count() > 0
        && vertices(scene).all(|vertex| ends(vertex, REACH))
        && !scene.lines.is_empty()
        && scene
            .lines
            .iter()
            .all(|(point, _)| ends(*point, LINE_REACH))
}

fn overlaps(scene: &Scene) -> bool {
    scene.neighbours.as_ref().is_some_and(|neighbours| {
        neighbours.agents.iter().any(|other| {
            let apart = (other.position - scene.position).length();
            apart < neighbours.radius + other.radius
        })
    })
}

/// The edges, as pairs of vertices.
fn pairs(obstacle: &Obstacle) -> impl Iterator<Item = (Vec2, Vec2)> + '_ {
    let vertices = &obstacle.vertices;
    let edges = vertices.len().saturating_sub(usize::from(!obstacle.closed));
    (0..edges).map(move |left| (vertices[left], vertices[(left + 1) % vertices.len()]))
}

fn vertices(scene: &Scene) -> impl Iterator<Item = Vec2> + '_ {
    let obstacles = scene.obstacles.iter();
    obstacles.flat_map(|obstacle| obstacle.vertices.iter().copied())
}

fn any_vertex(scene: &Scene, test: fn(f32) -> bool) -> bool {
    vertices(scene).any(|vertex| either(vertex, test))
}

fn met_all(pass: &Pass) -> bool {
    failed(pass).is_none()
}

fn failed(pass: &Pass) -> Option<usize> {
    pass.solved.counts.failed_line
}

fn probes(pass: &Pass) -> u32 {
    pass.solved.counts.probes
}

fn line_of(velocity: &Velocity) -> Option<usize> {
    velocity.failed_line.map(usize::from)
}

fn either(vector: Vec2, test: fn(f32) -> bool) -> bool {
    test(vector.x) || test(vector.y)
}

fn is_minus_zero(number: f32) -> bool {
    number.to_bits() == (-0.0f32).to_bits()
}
