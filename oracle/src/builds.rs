//! Both builds asked with the same types, those of the plain one.

use counters::{Branches, Cause, Counts};
use glam::Vec2;

use crate::line_lists::LineList;
use crate::words::{hex_vector, same_vector};

/// The point; an error where a rigid line failed.
pub type Answer = Result<Vec2, Vec2>;

pub fn solve_plain(list: &LineList) -> Answer {
    dodgy_plain::debug::solve_linear_program(&list.lines, list.rigid_count, list.limit, list.wish)
}

pub fn solve_counted(list: &LineList) -> (Answer, Counts) {
    let lines: Vec<dodgy_counted::debug::Line> = list
        .lines
        .iter()
        .map(|line| dodgy_counted::debug::Line {
            point: line.point,
            direction: line.direction,
        })
        .collect();
    counters::reset();
    let answer =
        dodgy_counted::debug::solve_linear_program(&lines, list.rigid_count, list.limit, list.wish);
    (answer, counters::counts())
}

/// What both builds say of a list.
pub struct Solved {
    /// The plain build's answer.
    pub answer: Answer,
    pub counts: Counts,
    pub branches: Branches,
}

/// Asks both builds. Fails where their bits differ, or where the counts break what the
/// definition of the build says of every list.
pub fn solve_both(list: &LineList) -> Result<Solved, String> {
    let answer = solve_plain(list);
    let (counted, counts) = solve_counted(list);
    compare(answer, counted).map_err(|difference| format!("{difference}: {list}"))?;
    check_counts(list, answer, &counts).map_err(|fault| format!("{fault}, {counts:?}: {list}"))?;
    Ok(Solved {
        answer,
        counts,
        branches: counters::taken(),
    })
}

fn compare(plain: Answer, counted: Answer) -> Result<(), String> {
    let agree = match (plain, counted) {
        (Ok(a), Ok(b)) | (Err(a), Err(b)) => same_vector(a, b),
        _ => false,
    };
    if agree {
        return Ok(());
    }
    Err(format!(
        "plain {}, counted {}",
        shown(plain),
        shown(counted)
    ))
}

fn shown(answer: Answer) -> String {
    match answer {
        Ok(point) => hex_vector(point),
        Err(point) => format!("rigid failure {}", hex_vector(point)),
    }
}

fn check_counts(list: &LineList, answer: Answer, counts: &Counts) -> Result<(), &'static str> {
    let lines = list.lines.len() as u32;
    match (counts.failed_line, counts.cause) {
        (None, None) | (Some(_), Some(Cause::Circle)) => {}
        (Some(line), Some(Cause::Parallel(index) | Cause::Crossing(index))) if index < line => {}
        _ => return Err("the cause names an earlier line, exactly where a line failed"),
    }
    let failed_rigidly = counts
        .failed_line
        .is_some_and(|index| index < list.rigid_count);
    if answer.is_err() != failed_rigidly {
        return Err("the failed line does not go with the answer");
    }
    if counts.penetration.is_some() != (counts.failed_line.is_some() && answer.is_ok()) {
        return Err("a penetration exactly after relaxation");
    }
    let range = lines..=lines * (lines + 1) / 2;
    if counts.failed_line.is_none() && !range.contains(&counts.probes) {
        return Err("n lines that never fail take n to n(n + 1)/2 probes");
    }
    Ok(())
}
