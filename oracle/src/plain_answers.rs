//! Scene records answered by the plain build alone, with no counter and nothing compared, to measure how fast it is. It
//! does not tell whether a solve relaxed, which line failed or how many probes there were: 1 is written for outcome 2,
//! 3 for 4, FFFF for the failed line, 0 for the probes.

use std::fs;
use std::time::Instant;

use dodgy_plain::debug::{get_lines_for_agent_to_obstacle, Line};
use dodgy_plain::{Agent, Obstacle};
use glam::Vec2;

use crate::builds::{self, solve_plain};
use crate::edge_vectors::judge::admits;
use crate::line_lists::LineList;
use crate::records::answers::{Answer, Velocity};
use crate::records::{reader, Records};
use crate::scenes::outcomes::NOT_ADMITTED;
use crate::scenes::{self, Scene};

/// Tells how many records there are, and the seconds from the first record to the last answer: in memory, and with both files.
pub fn write_file(scenes: &str, answers: &str) -> Result<(), String> {
    let before_files = Instant::now();
    let records = fs::read(scenes).map_err(|fault| format!("{scenes}: {fault}"))?;
    let before_records = Instant::now();
    let mut count = 0;
    let mut written = Vec::new();
    for record in Records(&records) {
        written.extend(answer(record).record());
        count += 1;
    }
    let in_memory = before_records.elapsed();
    fs::write(answers, written).map_err(|fault| format!("{answers}: {fault}"))?;
    let with_files = before_files.elapsed();
    println!(
        "{count} records, {:.3} seconds, with the files {:.3}",
        in_memory.as_secs_f64(),
        with_files.as_secs_f64()
    );
    Ok(())
}

pub fn answer(record: &[u8]) -> Answer {
    match reader::read(record).map(velocity) {
        Ok(Some((outcome, point))) => Answer::Velocity(Velocity {
            outcome,
            point,
            failed_line: None,
            probes: 0,
        }),
        Ok(None) => Answer::Refused(NOT_ADMITTED),
        Err(number) => Answer::Refused(number as u8),
    }
}

/// Outcome and point, as lib.rs comes to them; none where an edge line is not admitted.
fn velocity(mut scene: Scene) -> Option<(u8, Vec2)> {
    let obstacles: Vec<Obstacle> = scene.obstacles.drain(..).map(obstacle).collect();
    if let Ok(point) = pass(&scene, &obstacles, scene.velocity)? {
        return Some((1, point));
    }
    match pass(&scene, &obstacles, Vec2::ZERO)? {
        Ok(point) => Some((3, point)),
        Err(point) => Some((5, point)),
    }
}

fn obstacle(scenes::Obstacle { closed, vertices }: scenes::Obstacle) -> Obstacle {
    if closed {
        Obstacle::Closed { vertices }
    } else {
        Obstacle::Open { vertices }
    }
}

fn pass(scene: &Scene, obstacles: &[Obstacle], velocity: Vec2) -> Option<builds::Answer> {
    let agent = Agent {
        position: scene.position,
        velocity,
        radius: 0.0,
        avoidance_responsibility: 1.0,
    };
    let edges =
        |obstacle| get_lines_for_agent_to_obstacle(&agent, obstacle, scene.margin, scene.horizon);
    let mut lines: Vec<Line> = obstacles.iter().flat_map(edges).collect();
    if !lines
        .iter()
        .all(|line| admits(&(line.point, line.direction)))
    {
        return None;
    }
    let rigid_count = lines.len();
    let ready_made = |&(point, direction): &_| Line { point, direction };
    lines.extend(scene.lines.iter().map(ready_made));
    Some(solve_plain(&LineList {
        wish: scene.wish,
        limit: scene.limit,
        rigid_count,
        lines,
    }))
}
