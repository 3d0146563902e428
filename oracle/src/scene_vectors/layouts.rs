//! Scenes made of what encounters and line lists are made of: an agent beside one to three obstacles, and a wish, a limit and
//! neighbour lines that belong together.

use dodgy_plain::debug::Line;
use glam::Vec2;

use crate::edge_vectors::{aimed, layouts};
use crate::encounters::{EdgeLine, Encounter};
use crate::line_lists::LineList;
use crate::list_vectors::call::Call;
use crate::list_vectors::judge::REACH;
use crate::list_vectors::made;
use crate::random::Random;
use crate::scenes::{Obstacle, Scene};

type MakeEncounter = fn(&mut Random) -> Encounter;
type MakeCall = fn(&mut Random) -> Call;

/// Most scenes have few neighbour lines, to keep the file small.
const MOST_LINES: usize = 6;

/// Any layout with room for roundings.
pub fn ordinary(random: &mut Random) -> Scene {
    let encounters = [
        layouts::lattice,
        layouts::lattice,
        layouts::scattered,
        layouts::star,
        layouts::corner,
    ];
    beside(random, &encounters, &[made::short])
}

/// Agents and velocities where a test is about to turn, lines at the tolerance or touching the circle.
pub fn about_to_turn(random: &mut Random) -> Scene {
    let encounters = [
        layouts::ring,
        aimed::at_margin,
        aimed::at_margin,
        aimed::in_line,
        aimed::barely_covered,
    ];
    beside(random, &encounters, &[made::at_tolerance, made::tangent])
}

/// Numbers at the ends of what is admitted, and the smallest there are.
pub fn extreme(random: &mut Random) -> Scene {
    let encounters = [layouts::extreme, layouts::tiny, layouts::vanishing];
    beside(random, &encounters, &[made::extreme, made::at_band_ends])
}

/// No obstacle at all.
pub fn unhindered(random: &mut Random) -> Scene {
    let scene = beside(random, &[layouts::scattered], &[made::short, made::tangent]);
    Scene {
        obstacles: Vec::new(),
        ..scene
    }
}

/// Vertices that stand twice.
pub fn doubled(random: &mut Random) -> Scene {
    beside(random, &[layouts::doubled], &[made::short])
}

/// Vertices that nearly do.
pub fn nearly_doubled(random: &mut Random) -> Scene {
    beside(random, &[layouts::nearly_doubled], &[made::short])
}

/// An edge whose leg is the root of a number below 0.
pub fn inside_by_rounding(random: &mut Random) -> Scene {
    beside(random, &[aimed::inside_by_rounding], &[made::short])
}

/// So fast that velocities lie far behind obstacles, where the lines of their shadows pass the origin by roundings, and
/// limits so small that these decide: many first passes fail rigidly.
pub fn hurried(random: &mut Random) -> Scene {
    let encounters = [
        layouts::lattice,
        layouts::star,
        layouts::corner,
        aimed::at_margin,
    ];
    let scene = beside(random, &encounters, &[made::short, made::tangent]);
    let limit = small_limit(random);
    let velocity = into_shadow(random, &scene);
    Scene {
        limit,
        velocity,
        ..scene
    }
}

/// Obstacles that touch the margin, or nearly so.
pub fn touching(random: &mut Random) -> Scene {
    let encounters = [
        layouts::ring,
        layouts::corner,
        aimed::at_margin,
        aimed::in_line,
    ];
    let scene = beside(random, &encounters, &[made::short, made::tangent]);
    let limit = small_limit(random);
    Scene { limit, ..scene }
}

/// A regular polygon that the agent just fits into: by roundings there is no room even at rest.
pub fn fitted(random: &mut Random) -> Scene {
    let scene = beside(random, &[layouts::ring], &[made::short]);
    let apothem = match scene.obstacles[0].vertices[..] {
        [first, second, ..] => (first + second).length() / 2.0,
        _ => scene.margin,
    };
    let margin = aimed::nudged(random, apothem);
    let limit = small_limit(random);
    Scene {
        position: Vec2::ZERO,
        margin,
        limit,
        ..scene
    }
}

/// A wall there and back, an end of it nearer than the margin and twice, but for so little that seen from the agent
/// both are one: at rest that edge has no direction, but the line that a velocity gets may cover it.
pub fn covered_while_moving(random: &mut Random) -> Scene {
    let scene = beside(random, &[layouts::scattered], &[made::short]);
    let (left, right) = (random.vector_within(3.0), random.vector_within(3.0));
    let little = Vec2::new(random.magnitude(1e-40, 1e-20), random.magnitude(1e-40, 1e-20));
    let vertices = vec![right - left, Vec2::ZERO, little];
    Scene {
        position: Vec2::ZERO - left,
        margin: random.pick(&[1.0, 2.0, 3.0]),
        velocity: random.vector_within(6.0),
        limit: random.pick(&[0.0, 0.25, 0.5]),
        obstacles: vec![obstacle(true, vertices)],
        ..scene
    }
}

fn small_limit(random: &mut Random) -> f32 {
    random.pick(&[0.0, 0.0, -0.0, 1e-9, 1e-7, 0.25])
}

/// Some times as fast as would do to reach a vertex at the horizon.
fn into_shadow(random: &mut Random, scene: &Scene) -> Vec2 {
    let vertices: Vec<Vec2> = scene
        .obstacles
        .iter()
        .flat_map(|obstacle| obstacle.vertices.clone())
        .collect();
    if vertices.is_empty() {
        return scene.velocity;
    }
    let toward = (random.pick(&vertices) - scene.position) / scene.horizon;
    let velocity = toward * (1.5 + random.within(4.0).abs()) + toward.perp() * random.within(0.25);
    within_reach(velocity)
}

fn beside(random: &mut Random, encounters: &[MakeEncounter], calls: &[MakeCall]) -> Scene {
    let own = random.pick(encounters)(random);
    let call = random.pick(calls)(random);
    let mut obstacles = Vec::new();
    for _ in 0..random.pick(&[0, 0, 0, 1, 1, 2]) {
        let other = random.pick(encounters)(random);
        obstacles.push(moved(&other, own.position - other.position));
    }
    let place = random.below(obstacles.len() + 1);
    obstacles.insert(place, obstacle(own.closed, own.vertices));
    let most = random.below(MOST_LINES + 1);
    Scene {
        position: own.position,
        velocity: own.velocity,
        margin: own.margin,
        horizon: own.horizon,
        wish: call.wish,
        limit: call.limit,
        obstacles,
        lines: call.lines().take(most).collect(),
        neighbours: None,
    }
}

/// Moved with its agent to where another one stands.
fn moved(encounter: &Encounter, offset: Vec2) -> Obstacle {
    let vertices = encounter.vertices.iter();
    let moved = vertices.map(|vertex| within_reach(*vertex + offset));
    obstacle(encounter.closed, moved.collect())
}

pub fn obstacle(closed: bool, vertices: Vec<Vec2>) -> Obstacle {
    Obstacle { closed, vertices }
}

fn within_reach(vector: Vec2) -> Vec2 {
    Vec2::new(vector.x.clamp(-REACH, REACH), vector.y.clamp(-REACH, REACH))
}

pub fn lines_of(list: &LineList) -> Vec<EdgeLine> {
    let pair = |line: &Line| (line.point, line.direction);
    list.lines.iter().map(pair).collect()
}
