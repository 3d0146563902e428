//! An admitted scene worked out pass by pass from both builds' edge lines and solves, and held to what the given lib.rs says of
//! the whole.

use std::panic;

use counters::passes::passes;
use dodgy_plain::debug::Line;
use glam::Vec2;

use super::whole::{ask_counted, ask_plain, Whole};
use super::Scene;
use crate::builds::Solved;
use crate::edge_vectors::judge::admits;
use crate::encounters::{edge_lines, EdgeLine};
use crate::line_lists::LineList;
use crate::list_vectors::ask_rust;
use crate::words::same_vector;

/// Where a line comes from, as request T-06 writes it: 1, the obstacle's place and the edge's left vertex; 2, the neighbour's
/// place and 0; all 0 where no line is meant.
pub type Origin = [u32; 3];

/// The edge lines, which are rigid, where each of them comes from, and the solve over them and the neighbours' lines.
pub struct Pass {
    pub edge_lines: Vec<EdgeLine>,
    edges: Vec<Origin>,
    pub solved: Solved,
}

impl Pass {
    /// The origin of the line at an index, if there is such a line among the obstacles' and the scene's.
    pub fn origin_at(&self, scene: &Scene, index: usize) -> Option<Origin> {
        let place = |neighbour| [2, neighbour as u32, 0];
        let neighbours = (0..scene.lines.len()).map(place);
        self.edges.iter().copied().chain(neighbours).nth(index)
    }

    /// That of the line that failed.
    pub fn failed_origin(&self, scene: &Scene) -> Origin {
        let index = self.solved.counts.failed_line;
        index.map_or([0; 3], |index| self.origin_at(scene, index).unwrap())
    }
}

pub enum Passes {
    First(Pass),
    /// After a rigid failure of the first.
    Both(Pass, Pass),
    /// The first pass made an edge line that is not admitted.
    NotAdmittedFirst(Vec<EdgeLine>),
    /// Only the second pass made one.
    NotAdmittedSecond(Vec<EdgeLine>),
}

/// Fails where builds, or the whole and its parts, differ in a bit.
pub fn ask(scene: &Scene) -> Result<Passes, String> {
    let (lines, edges) = lines_of_edges(scene, scene.velocity)?;
    if !lines.iter().all(admits) {
        return Ok(Passes::NotAdmittedFirst(lines));
    }
    let first = solve(scene, lines, edges)?;
    if first.solved.answer.is_ok() {
        check_whole(scene, &[&first])?;
        return Ok(Passes::First(first));
    }
    let (lines, edges) = lines_of_edges(scene, Vec2::ZERO)?;
    if !lines.iter().all(admits) {
        check_fallback(scene, &lines)?;
        return Ok(Passes::NotAdmittedSecond(lines));
    }
    let second = solve(scene, lines, edges)?;
    check_whole(scene, &[&first, &second])?;
    Ok(Passes::Both(first, second))
}

/// And the origin of each.
fn lines_of_edges(scene: &Scene, velocity: Vec2) -> Result<(Vec<EdgeLine>, Vec<Origin>), String> {
    let mut lines = Vec::new();
    let mut origins = Vec::new();
    for (place, obstacle) in scene.obstacles.iter().enumerate() {
        let made = edge_lines(&scene.encounter(obstacle, velocity))?;
        lines.extend(made.lines);
        origins.extend(made.makers.iter().map(|left| [1, place as u32, *left as u32]));
    }
    Ok((lines, origins))
}

fn solve(scene: &Scene, edge_lines: Vec<EdgeLine>, edges: Vec<Origin>) -> Result<Pass, String> {
    let list = LineList {
        wish: scene.wish,
        limit: scene.limit,
        rigid_count: edge_lines.len(),
        lines: all_lines(scene, &edge_lines)
            .map(|(point, direction)| Line { point, direction })
            .collect(),
    };
    let solved = ask_rust(&list)?;
    Ok(Pass {
        edge_lines,
        edges,
        solved,
    })
}

fn all_lines<'a>(
    scene: &'a Scene,
    edge_lines: &'a [EdgeLine],
) -> impl Iterator<Item = EdgeLine> + 'a {
    edge_lines.iter().chain(&scene.lines).copied()
}

/// The passes that lib.rs runs have these lines, its velocity is the last one's point, and each counts what its solve
/// counts alone.
fn check_whole(scene: &Scene, passes: &[&Pass]) -> Result<(), String> {
    let (counted, counts) = ask_counted(scene);
    let differs = |build: &str| {
        Err(format!(
            "the whole differs from its passes, {build}: {scene}"
        ))
    };
    if !agrees(scene, passes, &counted) {
        return differs("counted");
    }
    if ask_plain(scene).is_some_and(|plain| !agrees(scene, passes, &plain)) {
        return differs("plain");
    }
    let alone = passes
        .iter()
        .map(|pass| (pass.solved.counts, pass.solved.branches));
    if counts != alone.collect::<Vec<_>>() {
        return differs("what is counted");
    }
    Ok(())
}

fn agrees(scene: &Scene, passes: &[&Pass], whole: &Whole) -> bool {
    let (Ok(point) | Err(point)) = passes[passes.len() - 1].solved.answer;
    same_vector(point, whole.velocity)
        && passes.len() == whole.lines.len()
        && passes
            .iter()
            .zip(&whole.lines)
            .all(|(pass, lines)| same_lines(all_lines(scene, &pass.edge_lines), lines))
}

fn same_lines(made: impl Iterator<Item = EdgeLine>, given: &[EdgeLine]) -> bool {
    let made: Vec<EdgeLine> = made.collect();
    let same = |(a, b): (&EdgeLine, &EdgeLine)| same_vector(a.0, b.0) && same_vector(a.1, b.1);
    made.len() == given.len() && made.iter().zip(given).all(same)
}

/// The Rust goes on with lines that are not admitted, and its `clamp` mostly panics then: the second pass was begun,
/// and if it came to an end it had these lines.
fn check_fallback(scene: &Scene, lines: &[EdgeLine]) -> Result<(), String> {
    let loud = panic::take_hook();
    panic::set_hook(Box::new(|_| ()));
    let whole = panic::catch_unwind(|| ask_counted(scene).0);
    panic::set_hook(loud);
    match whole {
        _ if passes().len() != 2 => Err(format!("no second pass in the whole: {scene}")),
        Ok(whole) if !same_lines(all_lines(scene, lines), &whole.lines[1]) => Err(format!(
            "other lines in the second pass of the whole: {scene}"
        )),
        _ => Ok(()),
    }
}
