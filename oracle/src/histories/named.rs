//! Histories that are made by hand: bench cases with a line taken back, a gate that opens and closes, sessions that are
//! emptied and fed again, full ones, and every index of the lists that the session's cuts have too.

use glam::Vec2;

use super::drawn::standing_of;
use super::standing::{numbers_of, Call, Standing};
use super::History;
use crate::cut_vectors;
use crate::list_vectors::call::Call as List;
use crate::list_vectors::judge::MOST_LINES;

const A: [f32; 4] = [0.0, 1.0, 1.0, 0.0];
const B: [f32; 4] = [0.0, -1.0, -1.0, 0.0];
const FAR: [f32; 4] = [0.0, 3.0, 1.0, 0.0];

pub fn histories() -> Result<Vec<History>, String> {
    let mut histories = vec![
        // P5, P7 and P9, each with each line taken back, and an index behind the last.
        tried(1, &[FAR])?,
        tried(0, &[A, B])?,
        tried(2, &[A, B])?,
        tried(9, &[A, B])?,
        tried(1, &[A, B])?,
        gate(0)?,
        gate(2)?,
        origins()?,
        full()?,
        beside_zero()?,
        third_line_ends()?,
        full_of_met()?,
        changed_gate(0)?,
        changed_gate(3)?,
        changed_full()?,
    ];
    for rigid in 0..=6 {
        for order in [[1, 1, 1], [1, 2, 1], [2, 1, 1], [2, 2, 1], [3, 1, 1], [3, 2, 1]] {
            histories.push(taken_back(rigid, order)?);
        }
    }
    for (place, list) in cut_vectors::calls().iter().enumerate() {
        histories.push(every_index(list)?);
        if place % 50 == 0 && list.line_count() < 40 {
            histories.push(emptied(list, place)?);
        }
    }
    Ok(histories)
}

fn at_rest(rigid: u32) -> Standing {
    Standing {
        wish: Vec2::ZERO,
        limit: 2.0,
        rigid,
        lines: Vec::new(),
        origins: Vec::new(),
    }
}

fn batch(lines: &[[f32; 4]]) -> Call {
    Call::Batch(lines.concat(), None)
}

fn tried(rigid: u32, lines: &[[f32; 4]]) -> Result<History, String> {
    let mut history = History::start(at_rest(rigid))?;
    history.call(batch(lines))?;
    for index in 0..=lines.len() {
        history.call(Call::Tried(index))?;
    }
    Ok(history)
}

/// A floor where a gate's line comes and goes in bursts: added, removed, added, twice in one burst, refused between;
/// the line of a wall and that of a cart stand beside it. After each call the session must be as if the gate had only
/// ever been as it is now.
fn gate(rigid: u32) -> Result<History, String> {
    let (wall, cart) = ([0.0, -1.5, 1.0, 0.0], [1.25, 0.0, 0.0, 1.0]);
    let (closed, half) = ([0.0, 0.5, -1.0, 0.0], [0.0, 1.0, -1.0, 0.0]);
    let named = |line: [f32; 4], place: u32| Call::Batch(line.to_vec(), Some(vec![1, place, 0]));
    let mut history = History::start(at_rest(rigid))?;
    for _ in 0..3 {
        history.call(named(wall, 0))?;
        history.call(named(closed, 7))?;
        history.call(batch(&[cart]))?;
        let gate = history.standing.lines.len() - 2;
        history.call(Call::Withdrawal(gate))?;
        history.call(named(half, 7))?;
        history.call(Call::Batch(vec![0.0; 3], None))?;
        history.call(Call::Withdrawal(gate + 9))?;
        history.call(Call::Withdrawal(gate + 1))?;
        history.call(named(closed, 7))?;
        history.call(Call::Withdrawal(gate + 1))?;
    }
    Ok(history)
}

/// A with an origin and B without: the origin goes with its line.
fn origins() -> Result<History, String> {
    let mut history = History::start(at_rest(0))?;
    history.call(Call::Batch(A.to_vec(), Some(vec![7, 8, 9])))?;
    history.call(batch(&[B]))?;
    history.call(Call::Tried(0))?;
    history.call(Call::Tried(1))?;
    history.call(Call::Withdrawal(0))?;
    history.call(Call::Batch(A.to_vec(), Some(vec![4, 5, 6])))?;
    history.call(Call::Withdrawal(0))?;
    Ok(history)
}

/// 256 lines: no room, a line taken back at the last index and at the first, and the freed place used at once.
fn full() -> Result<History, String> {
    let mut history = History::start(at_rest(3))?;
    history.call(batch(&[[0.0, -1.5, 1.0, 0.0]; MOST_LINES]))?;
    for index in [MOST_LINES - 1, 0, 128] {
        history.call(batch(&[A]))?;
        history.call(Call::Withdrawal(MOST_LINES))?;
        history.call(Call::Withdrawal(index))?;
        history.call(batch(&[A]))?;
    }
    Ok(history)
}

/// The gate of above in one call each: a burst of changes of which some are refused, by indices and by the gate's wall.
/// After each the session must be the fresh one over what stands; a refused one leaves it as it was.
fn changed_gate(rigid: u32) -> Result<History, String> {
    let (wall, cart) = ([0.0, -1.5, 1.0, 0.0], [1.25, 0.0, 0.0, 1.0]);
    let (closed, half) = ([0.0, 0.5, -1.0, 0.0], [0.0, 1.0, -1.0, 0.0]);
    let steep = [0.0, 0.0, 1.0, 1.0];
    let gate = |lines: &[[f32; 4]]| (lines.concat(), [1, 7, 0].repeat(lines.len()));
    let mut history = History::start(at_rest(rigid))?;
    history.call(Call::Batch([wall, closed, cart].concat(), Some(vec![1, 0, 0, 1, 7, 0, 2, 0, 0])))?;
    for _ in 0..2 {
        for lines in [&[half][..], &[closed, half], &[steep], &[closed], &[half, [f32::NAN; 4]], &[]] {
            let (numbers, origins) = gate(lines);
            history.call(Call::ChangeOrigin(1, 7, numbers, origins))?;
        }
        // A wrong name withdraws nothing, and says so.
        let (numbers, origins) = gate(&[closed]);
        history.call(Call::ChangeOrigin(1, 8, numbers, origins))?;
    }
    for indices in [vec![2], vec![0, 2], vec![2, 0], vec![1, 1], vec![0, 9], vec![], vec![0, 1]] {
        let (numbers, origins) = gate(&[half]);
        history.call(Call::Change(indices.clone(), numbers.clone(), origins.clone()))?;
        history.call(Call::Change(indices.clone(), steep.to_vec(), Vec::new()))?;
        history.call(Call::Change(indices.clone(), numbers.clone(), vec![1, 7]))?;
        history.call(Call::Change(indices, [numbers, vec![0.0]].concat(), origins))?;
    }
    Ok(history)
}

/// 256 lines for 256 others; then one too many, and one more with a place freed.
fn changed_full() -> Result<History, String> {
    let z = [0.0, -1.5, 1.0, 0.0];
    let all: Vec<usize> = (0..MOST_LINES).collect();
    let mut history = History::start(at_rest(100))?;
    history.call(batch(&[z; MOST_LINES]))?;
    history.call(Call::Change(all.clone(), A.repeat(MOST_LINES), Vec::new()))?;
    history.call(Call::Change(all, z.repeat(MOST_LINES + 1), Vec::new()))?;
    history.call(Call::Change(vec![3], z.repeat(2), Vec::new()))?;
    history.call(Call::Change(vec![3, 100, 255], z.repeat(3), vec![5; 9]))?;
    history.call(Call::ChangeOrigin(5, 5, z.repeat(3), Vec::new()))?;
    history.call(Call::ChangeOrigin(0, 0, A.to_vec(), Vec::new()))?;
    Ok(history)
}

/// Lines at a determinant of 0 with the point (0, 1), one f32 to either side of it, and a NaN's: asked about, fed, and
/// asked again.
fn beside_zero() -> Result<History, String> {
    let line = |y: f32| [0.0, y, 1.0, 0.0];
    let (below, above) = (1.0_f32.next_down(), 1.0_f32.next_up());
    let mut history = History::start(at_rest(0))?;
    history.call(batch(&[A]))?;
    for lines in [
        &[line(1.0)][..],
        &[line(below)],
        &[line(above)],
        &[line(-1.0), line(below), line(1.0)],
        &[line(-1.0), A],
        &[line(-1.0), line(below)],
        &[],
        &[line(f32::NAN)],
        &[[0.0, 0.0, 1.0, 1.0]],
    ] {
        history.call(Call::Asked(lines.concat()))?;
        history.call(batch(lines))?;
    }
    history.call(Call::Asked(vec![0.0; 6]))?;
    Ok(history)
}

/// Two strictly met lines, and a third that ends the solving phase; relaxing and rigid sessions are asked, too.
fn third_line_ends() -> Result<History, String> {
    let z = [0.0, -1.5, 1.0, 0.0];
    let mut history = History::start(at_rest(1))?;
    history.call(batch(&[A]))?;
    history.call(Call::Asked([z, z, B].concat()))?;
    history.call(batch(&[z, z, B]))?;
    history.call(Call::Asked([z, A].concat()))?;
    history.call(Call::Asked([FAR, z].concat()))?;
    history.call(Call::Withdrawal(0))?;
    history.call(Call::Asked([A, z].concat()))?;
    Ok(history)
}

/// One line, and three that its point strictly meets, which are taken back in an order.
fn taken_back(rigid: u32, order: [usize; 3]) -> Result<History, String> {
    let met = [[0.0, -1.5, 1.0, 0.0], [1.5, 0.0, 0.0, 1.0], [-1.5, 0.0, 0.0, -1.0]];
    let mut history = History::start(at_rest(rigid))?;
    history.call(batch(&[A]))?;
    history.call(Call::Asked(met.concat()))?;
    history.call(Call::Batch(met.concat(), Some((1..=9).collect())))?;
    for index in order {
        history.call(Call::Withdrawal(index))?;
    }
    Ok(history)
}

/// Strictly met lines up to the 256th, about which a full session is not asked; then the last three are taken back.
fn full_of_met() -> Result<History, String> {
    let z = [0.0, -1.5, 1.0, 0.0];
    let mut history = History::start(at_rest(255))?;
    history.call(batch(&[A]))?;
    history.call(Call::Asked(z.repeat(MOST_LINES - 1)))?;
    history.call(batch(&[z; MOST_LINES - 1]))?;
    history.call(Call::Asked(z.to_vec()))?;
    history.call(Call::Asked(Vec::new()))?;
    for index in [253, 254, 253] {
        history.call(Call::Withdrawal(index))?;
    }
    history.call(Call::Asked(z.repeat(3)))?;
    Ok(history)
}

/// A list of the cuts, fed at once: each of its lines is taken back, and the index behind them is refused.
fn every_index(list: &List) -> Result<History, String> {
    let mut history = History::start(standing_of(list))?;
    history.call(Call::Batch(list.numbers.clone(), None))?;
    for index in 0..=list.line_count() {
        history.call(Call::Tried(index))?;
    }
    Ok(history)
}

/// A list that is fed, taken back line by line from either end until none is left, and fed again.
fn emptied(list: &List, place: usize) -> Result<History, String> {
    let lines = list.to_list().lines;
    let origins: Vec<u32> = (0..3 * lines.len() as u32).collect();
    let mut history = History::start(standing_of(list))?;
    history.call(Call::Batch(numbers_of(&lines), Some(origins.clone())))?;
    for left in (0..lines.len()).rev() {
        history.call(Call::Withdrawal(if (left + place) % 3 == 0 { 0 } else { left }))?;
    }
    history.call(Call::Withdrawal(0))?;
    history.call(Call::Batch(numbers_of(&lines), Some(origins)))?;
    Ok(history)
}
