//! What the encounters must show: a table of rows, each with how many encounters show it, and how many of these are not
//! refused. No row may be 0.

use counters::EdgeBranch;
use glam::Vec2;

use super::call::{Call, CLOSED, OPEN};
use super::judge::{self, LONGEST_HORIZON, MOST_VERTICES, SHORTEST_HORIZON};
use super::{Case, Outcome, NOT_ADMITTED};
use crate::coverage_table::{self, Column};
use crate::encounters::{edge_lines, EdgeLine, EdgeLines, Encounter};
use crate::list_vectors::judge::{
    admits_component, admits_length, BAND_HIGH, BAND_LOW, LONGEST, REACH,
};

enum Test {
    /// The counted build took the branch.
    Took(EdgeBranch),
    Made(fn(&Encounter, &EdgeLines) -> bool),
    /// Refused with 9, and one of the lines is of this kind.
    NotAdmitted(fn(&Encounter, &EdgeLine) -> bool),
    /// The number was told before any edge was looked at, and the call is of this kind.
    Faulty(u32, fn(&Call) -> bool),
}

use EdgeBranch::*;
use Test::{Faulty, Made as Of, NotAdmitted, Took};

/// A side is the left or the right of an edge. One row to a line, so that it reads as a table.
#[rustfmt::skip]
const ROWS: &[(&str, Test)] = &[
    ("closed", Of(|e, _| e.closed)),
    ("open", Of(|e, _| !e.closed)),
    ("closed, 0 vertices", Of(|e, _| e.closed && e.vertices.is_empty())),
    ("closed, 2 vertices", Of(|e, _| e.closed && e.vertices.len() == 2)),
    ("closed, 3 vertices", Of(|e, _| e.closed && e.vertices.len() == 3)),
    ("closed, 64 vertices", Of(|e, _| e.closed && is_full(e))),
    ("open, 1 vertex", Of(|e, _| !e.closed && e.vertices.len() == 1)),
    ("open, 2 vertices", Of(|e, _| !e.closed && e.vertices.len() == 2)),
    ("open, 3 vertices", Of(|e, _| !e.closed && e.vertices.len() == 3)),
    ("open, 64 vertices", Of(|e, _| !e.closed && is_full(e))),
    ("0 lines", Of(|_, m| m.lines.is_empty())),
    ("1 line", Of(|_, m| m.lines.len() == 1)),
    ("2 lines", Of(|_, m| m.lines.len() == 2)),
    ("3 or more lines", Of(|_, m| m.lines.len() > 2)),
    ("64 lines", Of(|_, m| m.lines.len() == MOST_VERTICES as usize)),
    ("vertex convex, closed", Took(ClosedConvex)),
    ("vertex concave, closed", Took(ClosedConcave)),
    ("vertex convex, open", Took(OpenConvex)),
    ("vertex concave, open", Took(OpenConcave)),
    ("vertex at an open end", Took(OpenEnd)),
    ("neighbouring vertices of equal x", Of(|e, _| pairs(e).any(|(a, b)| a.x == b.x))),
    ("neighbouring vertices of equal y", Of(|e, _| pairs(e).any(|(a, b)| a.y == b.y))),
    ("neighbouring vertices one f32 apart", Of(|e, _| pairs(e).any(|(a, b)| one_apart(a, b)))),
    ("a vertex again, with others between", Of(|e, _| stands_again(e))),
    ("open, the first vertex again at the end", Of(|e, _| !e.closed && e.vertices.len() > 1 && e.vertices.first() == e.vertices.last())),
    ("three vertices in line", Took(Straight)),
    ("agent on a vertex", Of(|e, _| e.vertices.contains(&e.position))),
    ("agent on an edge", Took(OnEdge)),
    ("agent in line with an edge", Took(InLine)),
    ("agent inside a solid obstacle", Of(|e, _| e.closed && turns_round(e) == 1)),
    ("agent inside a loop that keeps it in", Of(|e, _| e.closed && turns_round(e) == -1)),
    ("agent behind all edges of an open obstacle", Of(|e, m| !e.closed && e.vertices.len() > 1 && all_behind(e) && m.lines.is_empty())),
    ("back side culled", Took(BackSide)),
    ("cover test: covered by an earlier line", Took(Covered)),
    ("cover test: covered, but not by the first line", Took(CoveredByLaterLine)),
    ("cover test: not covered though there are lines", Took(NotCovered)),
    ("cover test: only the left vertex deep enough", Took(LeftAloneDeep)),
    ("cover test: only the right vertex deep enough", Took(RightAloneDeep)),
    ("cover test: covered, a vertex exactly deep enough", Took(ExactlyDeep)),
    ("cover test: a vertex one f32 short of it", Took(JustNotDeep)),
    ("edge time NaN", Took(EdgeTimeNan)),
    ("edge time infinite", Took(EdgeTimeInfinite)),
    ("edge time exactly 0", Took(EdgeTimeZero)),
    ("edge time exactly 1", Took(EdgeTimeOne)),
    ("left vertex exactly at the margin", Took(LeftAtMargin)),
    ("left vertex one f32 beyond", Took(LeftJustOutside)),
    ("right vertex exactly at the margin", Took(RightAtMargin)),
    ("right vertex one f32 beyond", Took(RightJustOutside)),
    ("edge exactly at the margin", Took(EdgeAtMargin)),
    ("edge one f32 beyond", Took(EdgeJustOutside)),
    ("collision with the left vertex, convex", Took(LeftCornerConvex)),
    ("collision with the left vertex, concave", Took(LeftCornerConcave)),
    ("collision with the right vertex, concave", Took(RightCornerConcave)),
    ("collision with the right vertex, next edge on its side: no line", Took(RightCornerOfNextEdge)),
    ("collision with the right vertex, next edge on the other side", Took(RightCornerOtherSide)),
    ("collision with the right vertex, next edge in line", Took(RightCornerInLine)),
    ("collision with the right vertex, an end", Took(RightCornerAtEnd)),
    ("collision with the edge", Took(EdgeHit)),
    ("left vertex shadows the right one, convex", Took(LeftShadowsConvex)),
    ("left vertex shadows the right one, concave: no line", Took(LeftShadowsConcave)),
    ("right vertex shadows the left one, convex", Took(RightShadowsConvex)),
    ("right vertex shadows the left one, concave: no line", Took(RightShadowsConcave)),
    ("neither shadows the other, left vertex convex", Took(NeitherLeftConvex)),
    ("neither shadows the other, left vertex concave", Took(NeitherLeftConcave)),
    ("neither shadows the other, right vertex convex", Took(NeitherRightConvex)),
    ("neither shadows the other, right vertex concave", Took(NeitherRightConcave)),
    ("leg the root of a number below 0", Took(LegOfNegative)),
    ("leg the root of 0", Took(LegOfZero)),
    ("left shadow covered by the edge beyond", Took(LeftCovered)),
    ("left shadow not covered", Took(LeftNotCovered)),
    ("left shadow, no neighbour", Took(LeftNoNeighbour)),
    ("left shadow, vertex concave", Took(LeftConcave)),
    ("left shadow in line with the edge beyond", Took(LeftEdgeInLine)),
    ("right shadow covered by the edge beyond", Took(RightCovered)),
    ("right shadow not covered", Took(RightNotCovered)),
    ("right shadow, no neighbour", Took(RightNoNeighbour)),
    ("right shadow, vertex concave", Took(RightConcave)),
    ("right shadow in line with the edge beyond", Took(RightEdgeInLine)),
    ("edge degenerate since one vertex stands for both", Took(DegenerateByExchange)),
    ("cutoff time NaN", Took(CutoffTimeNan)),
    ("cutoff time infinite", Took(CutoffTimeInfinite)),
    ("cutoff time exactly 0", Took(CutoffTimeZero)),
    ("cutoff time exactly 1", Took(CutoffTimeOne)),
    ("left shadow time NaN", Took(LeftTimeNan)),
    ("left shadow time exactly 0", Took(LeftTimeZero)),
    ("right shadow time NaN", Took(RightTimeNan)),
    ("right shadow time exactly 0", Took(RightTimeZero)),
    ("one shadow time NaN, the other not", Of(|_, m| m.branches.took(LeftTimeNan) != m.branches.took(RightTimeNan))),
    ("projects to the left cutoff by its time", Took(LeftCutoffByTime)),
    ("projects to the left cutoff of a degenerate edge", Took(LeftCutoffByDegenerate)),
    ("projects to the right cutoff", Took(RightCutoff)),
    ("last choice: cutoff distance infinite", Took(CutoffInfinite)),
    ("last choice: left shadow distance infinite", Took(LeftInfinite)),
    ("last choice: right shadow distance infinite", Took(RightInfinite)),
    ("last choice: all three infinite", Took(AllInfinite)),
    ("last choice: cutoff just as near as a shadow", Took(CutoffNearAsShadow)),
    ("last choice: both shadows equally near", Took(ShadowsEquallyNear)),
    ("last choice: cutoff line", Took(ChoseCutoff)),
    ("last choice: left shadow", Took(ChoseLeft)),
    ("last choice: left shadow, covered: no line", Took(ChoseLeftCovered)),
    ("last choice: right shadow", Took(ChoseRight)),
    ("last choice: right shadow, covered: no line", Took(ChoseRightCovered)),
    ("margin 0", Of(|e, _| e.margin == 0.0)),
    ("margin -0", Of(|e, _| is_minus_zero(e.margin))),
    ("margin 1,024", Of(|e, _| e.margin == LONGEST)),
    ("horizon 1/1,024", Of(|e, _| e.horizon == SHORTEST_HORIZON)),
    ("horizon 1,024", Of(|e, _| e.horizon == LONGEST_HORIZON)),
    ("velocity 0", Of(|e, _| e.velocity == Vec2::ZERO)),
    ("velocity component of 65,536", Of(|e, _| any(e.velocity, |x| x.abs() == REACH))),
    ("position component of 65,536", Of(|e, _| any(e.position, |x| x.abs() == REACH))),
    ("vertex component of 65,536", Of(|e, _| e.vertices.iter().any(|v| any(*v, |x| x.abs() == REACH)))),
    ("coordinates near 1e-22", Of(|e, m| is_tiny(e) && m.branches.took(NeitherLeftConvex))),
    ("subnormal vertex component", Of(|e, _| e.vertices.iter().any(|v| any(*v, f32::is_subnormal)))),
    ("-0 in a line", Of(|_, m| m.lines.iter().any(|(p, d)| any(*p, is_minus_zero) || any(*d, is_minus_zero)))),
    ("velocity exactly at a cutoff", Of(|e, _| e.vertices.iter().any(|v| (*v - e.position) / e.horizon == e.velocity))),
    ("direction off length 1 by more than roundings, but in its band", Of(|_, m| m.lines.iter().any(|(_, d)| in_band(*d) && (d.dot(*d) - 1.0).abs() > 0.0001))),
    ("9: a line is not admitted", NotAdmitted(|_, _| true)),
    ("9: direction a NaN", NotAdmitted(|_, (_, d)| any(*d, f32::is_nan))),
    ("9: direction infinite", NotAdmitted(|_, (_, d)| any(*d, f32::is_infinite))),
    ("9: direction below its band", NotAdmitted(|_, (_, d)| d.dot(*d) < BAND_LOW)),
    ("9: direction above its band", NotAdmitted(|_, (_, d)| finite(*d) && d.dot(*d) > BAND_HIGH)),
    ("9: an admitted line before it", Of(|_, m| m.lines.first().is_some_and(judge::admits) && !m.lines.iter().all(judge::admits))),
    ("9: an admitted line behind it", Of(|_, m| m.lines.last().is_some_and(judge::admits) && !m.lines.iter().all(judge::admits))),
    ("9: vertices apart, the right one just inside the margin", NotAdmitted(|e, _| !e.closed && e.vertices.len() == 2 && apart(e) && just_inside(e, e.vertices[1]))),
    ("9: the agent at rest", NotAdmitted(|e, _| e.velocity == Vec2::ZERO)),
    ("9: margin 0, a vertex's squared distance rounds to 0", NotAdmitted(|e, _| e.margin == 0.0 && e.vertices.iter().any(|v| *v != e.position && (*v - e.position).length_squared() == 0.0))),
    ("P11: margin 2", Of(|e, m| is_bench(e, 2.0) && gives(m, &[(Vec2::ZERO, BACKWARDS)]))),
    ("P11: margin 0.5", Of(|e, m| is_bench(e, 0.5) && gives(m, &[(Vec2::new(-1.0, 0.5), BACKWARDS)]))),
    ("P11: vertices exchanged", Of(|e, m| !e.closed && e.vertices == [Vec2::new(1.0, 1.0), Vec2::new(-1.0, 1.0)] && gives(m, &[]))),
    ("P12: vertex (5,0), 14", Faulty(14, |c| c.kind == CLOSED && c.numbers == [5.0, 0.0] && c.margin == 1.0)),
    ("P12: vertex (0.5,0), 14", Faulty(14, |c| c.kind == CLOSED && c.numbers == [0.5, 0.0] && c.margin == 1.0)),
    ("14: a vertex is the one before it again", Faulty(14, |c| c.kind == OPEN)),
    ("14: but for the sign of a zero", Faulty(14, |c| c.count > 1 && !vertices(c).windows(2).any(|pair| same_bits(pair[0], pair[1])))),
    ("14: closed, 1 vertex", Faulty(14, |c| c.kind == CLOSED && c.count == 1)),
    ("14: the closing pair alone", Faulty(14, |c| c.count > 1 && !vertices(c).windows(2).any(|pair| pair[0] == pair[1]))),
    ("14: where the cart moves, and the Rust's lines are admitted", Faulty(14, |c| c.velocity != Vec2::ZERO && in_the_rust(c, true))),
    ("14: where it rests, and one is not", Faulty(14, |c| c.velocity == Vec2::ZERO && in_the_rust(c, false))),
    ("14 told before 6: the vertex behind it", Faulty(14, |c| c.numbers.iter().any(|x| !admits_component(*x)))),
    ("14 told before 2: the vertex behind it is missing", Faulty(14, |c| 2 * c.count > c.numbers.len() as u64)),
    ("14 told before 2: a number left over", Faulty(14, |c| 2 * c.count < c.numbers.len() as u64)),
    ("6 told before 14: in the second vertex of a pair", Faulty(6, |c| beside_in(c) && c.numbers.len() == 4 && c.numbers[0] == c.numbers[2] && !admits_component(c.numbers[3]))),
    ("2 told before 14: the second vertex of a pair is cut short", Faulty(2, |c| c.numbers.len() == 3 && c.numbers[0] == c.numbers[2])),
    ("6: position", Faulty(6, |c| out(c.position))),
    ("6: velocity", Faulty(6, |c| !out(c.position) && out(c.velocity))),
    ("6: margin", Faulty(6, |c| agent_in(c) && !admits_length(c.margin))),
    ("6: margin one f32 over 1,024", Faulty(6, |c| agent_in(c) && c.margin == LONGEST.next_up())),
    ("6: horizon below 1/1,024", Faulty(6, |c| near_in(c) && c.horizon < SHORTEST_HORIZON)),
    ("6: horizon 2,048, P11's wall", Faulty(6, |c| near_in(c) && c.horizon == 2048.0)),
    ("6: a vertex", Faulty(6, |c| beside_in(c) && judge::is_kind(c.kind))),
    ("6: the second component of a vertex", Faulty(6, |c| beside_in(c) && c.numbers.iter().position(|x| !admits_component(*x)).is_some_and(|place| place % 2 == 1))),
    ("6 told before 3", Faulty(6, |c| near_in(c) && !judge::is_kind(c.kind))),
    ("6 told before 2: the vertex after it is missing", Faulty(6, |c| beside_in(c) && 2 * c.count > c.numbers.len() as u64)),
    ("6 told before 2: a number left over", Faulty(6, |c| beside_in(c) && 2 * c.count < c.numbers.len() as u64)),
    ("3: kind 0", Faulty(3, |c| c.kind == 0)),
    ("3: kind 3", Faulty(3, |c| c.kind == 3)),
    ("3: kind 255", Faulty(3, |c| c.kind == 255)),
    ("3 told before 4", Faulty(3, |c| c.count > MOST_VERTICES)),
    ("4: 65 vertices", Faulty(4, |c| c.count == 65 && c.numbers.len() == 130)),
    ("4: a count of 2^64 - 1", Faulty(4, |c| c.count == u64::MAX)),
    ("4 told before 2", Faulty(4, |c| c.numbers.len() < 130)),
    ("5: open, no vertices", Faulty(5, |c| c.numbers.is_empty())),
    ("5 told before 2", Faulty(5, |c| !c.numbers.is_empty())),
    ("2 told before 6: a number left over is not looked at", Faulty(2, |c| c.numbers.iter().any(|x| !admits_component(*x)))),
    ("2: one number left over", Faulty(2, |c| 2 * c.count + 1 == c.numbers.len() as u64)),
    ("2: a vertex left over", Faulty(2, |c| 2 * c.count + 2 == c.numbers.len() as u64)),
    ("2: closed, no vertices, one number left over", Faulty(2, |c| c.count == 0 && c.kind == CLOSED)),
    ("2: one vertex missing", Faulty(2, |c| 2 * c.count == c.numbers.len() as u64 + 2)),
    ("2: one number missing", Faulty(2, |c| 2 * c.count == c.numbers.len() as u64 + 1)),
];

/// The table; or the rows that no encounter shows.
pub fn table(cases: &[Case]) -> Result<String, String> {
    let columns: [Column<Case>; 2] = [
        ("in all", |_| true),
        ("not refused", |case| case.refusal().is_none()),
    ];
    coverage_table::of(cases, ("Encounters", &columns), ROWS, passes)
}

/// Whether the case is one of those that the row counts.
pub fn shows(case: &Case, row: &str) -> bool {
    ROWS.iter()
        .any(|(name, test)| *name == row && passes(test, case))
}

fn passes(test: &Test, case: &Case) -> bool {
    match (test, &case.outcome) {
        (Took(branch), Outcome::Made(_, made)) => made.branches.took(*branch),
        (Of(test), Outcome::Made(encounter, made)) => test(encounter, made),
        (NotAdmitted(test), Outcome::Made(encounter, made)) => {
            case.refusal() == Some(NOT_ADMITTED)
                && made
                    .lines
                    .iter()
                    .any(|line| !judge::admits(line) && test(encounter, line))
        }
        (Faulty(told, test), Outcome::Faulty(number)) => number == told && test(&case.call),
        _ => false,
    }
}

const BACKWARDS: Vec2 = Vec2::new(-1.0, 0.0);

fn is_bench(encounter: &Encounter, margin: f32) -> bool {
    !encounter.closed
        && encounter.vertices == [Vec2::new(-1.0, 1.0), Vec2::new(1.0, 1.0)]
        && encounter.margin == margin
}

/// By value.
fn gives(made: &EdgeLines, lines: &[EdgeLine]) -> bool {
    made.lines == lines
}

fn is_full(encounter: &Encounter) -> bool {
    encounter.vertices.len() as u64 == MOST_VERTICES
}

fn out(vector: Vec2) -> bool {
    any(vector, |x| !admits_component(x))
}

fn agent_in(call: &Call) -> bool {
    !out(call.position) && !out(call.velocity)
}

/// All before the horizon.
fn near_in(call: &Call) -> bool {
    agent_in(call) && admits_length(call.margin)
}

/// All before the obstacle.
fn beside_in(call: &Call) -> bool {
    near_in(call) && judge::admits_horizon(call.horizon)
}

/// The edges, as pairs of vertices.
fn pairs(encounter: &Encounter) -> impl Iterator<Item = (Vec2, Vec2)> + '_ {
    let count = encounter.vertices.len();
    let edges = if encounter.closed {
        count
    } else {
        count.saturating_sub(1)
    };
    (0..edges).map(move |left| {
        let right = (left + 1) % count;
        (encounter.vertices[left], encounter.vertices[right])
    })
}

/// By so little that the edge's own distance may come out at the other side of the margin.
fn just_inside(encounter: &Encounter, vertex: Vec2) -> bool {
    let squared = (vertex - encounter.position).length_squared();
    let squared_radius = encounter.margin * encounter.margin;
    squared < squared_radius && squared > squared_radius * 0.999999
}

fn apart(encounter: &Encounter) -> bool {
    pairs(encounter).all(|(a, b)| (a - b).length() > 0.01)
}

fn all_behind(encounter: &Encounter) -> bool {
    pairs(encounter).all(|(left, right)| side(encounter, left, right) > 0.0)
}

/// Above 0 where the agent is to the left of the edge.
fn side(encounter: &Encounter, left: Vec2, right: Vec2) -> f64 {
    let from = |a: Vec2, b: Vec2| (f64::from(b.x - a.x), f64::from(b.y - a.y));
    let (edge, agent) = (from(left, right), from(left, encounter.position));
    edge.0 * agent.1 - edge.1 * agent.0
}

/// How often the edges go round the agent, counter-clockwise.
fn turns_round(encounter: &Encounter) -> i32 {
    let height = encounter.position.y;
    pairs(encounter)
        .map(|(left, right)| {
            let side = side(encounter, left, right);
            if left.y <= height && right.y > height && side > 0.0 {
                1
            } else if left.y > height && right.y <= height && side < 0.0 {
                -1
            } else {
                0
            }
        })
        .sum()
}

/// In one component, the other the same.
fn one_apart(a: Vec2, b: Vec2) -> bool {
    let next = |a: f32, b: f32| a.next_up() == b || a.next_down() == b;
    (a.x == b.x && next(a.y, b.y)) || (a.y == b.y && next(a.x, b.x))
}

fn stands_again(encounter: &Encounter) -> bool {
    let vertices = &encounter.vertices;
    (1..vertices.len()).any(|place| vertices[..place].contains(&vertices[place]))
}

/// Whether the Rust, which goes on, makes lines that are all admitted.
fn in_the_rust(call: &Call, admitted: bool) -> bool {
    let whole = 2 * call.count == call.numbers.len() as u64;
    let judged = |made: EdgeLines| made.lines.iter().all(judge::admits) == admitted;
    whole && edge_lines(&call.to_encounter()).is_ok_and(judged)
}

/// A call's own, those that are there.
fn vertices(call: &Call) -> Vec<Vec2> {
    let pairs = call.numbers.chunks_exact(2).take(call.count as usize);
    pairs.map(|pair| Vec2::new(pair[0], pair[1])).collect()
}

fn is_tiny(encounter: &Encounter) -> bool {
    let tiny = |x: f32| x == 0.0 || (1e-23..1e-21).contains(&x.abs());
    let mut vectors = encounter.vertices.clone();
    vectors.push(encounter.position);
    vectors
        .iter()
        .all(|vector| tiny(vector.x) && tiny(vector.y))
}

fn in_band(direction: Vec2) -> bool {
    (BAND_LOW..=BAND_HIGH).contains(&direction.dot(direction))
}

fn finite(vector: Vec2) -> bool {
    vector.x.is_finite() && vector.y.is_finite()
}

fn any(vector: Vec2, test: fn(f32) -> bool) -> bool {
    test(vector.x) || test(vector.y)
}

fn same_bits(a: Vec2, b: Vec2) -> bool {
    a.x.to_bits() == b.x.to_bits() && a.y.to_bits() == b.y.to_bits()
}

fn is_minus_zero(number: f32) -> bool {
    number.to_bits() == (-0.0f32).to_bits()
}
