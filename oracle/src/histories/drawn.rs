//! Drawn histories: batches of any of the lists' lines, with origins and without, some of them taken back whole at
//! once, questions about them, withdrawals anywhere, changes by indices and by origin, and calls that are refused.

use dodgy_plain::debug::Line;

use super::standing::{numbers_of, Call, Standing};
use super::{is_batch, is_met, History, CALLS};
use crate::list_vectors::call::Call as List;
use crate::list_vectors::judge::{self, MOST_LINES};
use crate::list_vectors::made;
use crate::random::Random;

/// Of the batches that are taken, one in so many is taken back.
const TAKEN_BACK: usize = 5;

type Make = fn(&mut Random) -> List;

/// How the lists are made, and how often each.
const PARTS: [(Make, usize); 6] = [
    (made::short, 60),
    (made::at_tolerance, 12),
    (made::at_band_ends, 8),
    (made::extreme, 12),
    (made::tangent, 8),
    (made::full, 1),
];

pub fn history(random: &mut Random) -> Result<History, String> {
    let list = loop {
        let (make, _) = PARTS[random.place_by(&PARTS.map(|(_, count)| count))];
        let list = make(random);
        if judge::faults(&list).is_empty() {
            break list;
        }
    };
    let mut history = History::start(standing_of(&list))?;
    let mut lines = list.to_list().lines;
    while history.told.len() < CALLS {
        let call = call(random, &history.standing, &mut lines);
        if let Call::Withdrawal(index) = call {
            // A line that was taken back may come again.
            lines.extend(history.standing.lines.get(index).cloned());
        }
        history.call(call)?;
        take_back(random, &mut history, &mut lines)?;
    }
    Ok(history)
}

/// Behind a batch that was taken, at times: all of its lines go again next, in any order, if as many calls are left.
fn take_back(random: &mut Random, history: &mut History, lines: &mut Vec<Line>) -> Result<(), String> {
    let calls = history.told.len();
    let told = &history.told[calls - 1];
    let (first, count) = (told.before.lines.len(), told.after.lines.len());
    let can_be = is_batch(told) && first < count && calls + count - first <= CALLS;
    if !can_be || !random.one_in(TAKEN_BACK) {
        return Ok(());
    }
    let met = is_met(told);
    lines.extend_from_slice(&told.after.lines[first..]);
    for left in (1..=count - first).rev() {
        history.call(Call::Withdrawal(first + random.below(left)))?;
    }
    history.told[calls + count - first - 1].back = Some(met);
    Ok(())
}

pub fn standing_of(list: &List) -> Standing {
    Standing {
        wish: list.wish,
        limit: list.limit,
        rigid: list.rigid_count,
        lines: Vec::new(),
        origins: Vec::new(),
    }
}

fn call(random: &mut Random, standing: &Standing, lines: &mut Vec<Line>) -> Call {
    match random.below(20) {
        16..=17 => change(random, standing, lines),
        18..=19 => change_origin(random, standing, lines),
        0..=5 => Call::Withdrawal(index(random, standing)),
        6 => refused(random, standing),
        7..=8 => question(random, standing, lines),
        _ => batch(random, standing, lines),
    }
}

/// One of those that stand; or one behind them.
fn index(random: &mut Random, standing: &Standing) -> usize {
    let count = standing.lines.len();
    if count == 0 || random.one_in(12) {
        return count + random.pick(&[0, 0, 1, 1000]);
    }
    let any = random.below(count);
    random.pick(&[any, any, 0, count - 1, any.min(standing.rigid as usize)])
}

/// Some of the lines for the next ones; at times indices that do not ascend, or one behind the last, or a batch at fault.
fn change(random: &mut Random, standing: &Standing, lines: &mut Vec<Line>) -> Call {
    let one_in = 1 + random.below(4);
    let mut indices: Vec<usize> = (0..standing.lines.len()).filter(|_| random.one_in(one_in)).collect();
    match random.below(12) {
        0 => indices.push(standing.lines.len()),
        1 => indices.reverse(),
        2 => indices.extend(indices.last().copied()),
        _ => {}
    }
    let (numbers, origins) = added(random, standing, lines);
    Call::Change(indices, numbers, origins)
}

/// All lines of an origin for the next ones, mostly of one that stands.
fn change_origin(random: &mut Random, standing: &Standing, lines: &mut Vec<Line>) -> Call {
    let any = [random.below(3) as u32, random.below(3) as u32, 0];
    let count = standing.origins.len();
    let place = random.below(count + 1);
    let standing_one = standing.origins.get(place).copied().unwrap_or(any);
    let last = standing.origins.last().copied().unwrap_or(any);
    let [kind, place, _] = random.pick(&[any, standing_one, last]);
    let (numbers, origins) = added(random, standing, lines);
    Call::ChangeOrigin(kind, place, numbers, origins)
}

/// The batch of a change, at times one at fault.
fn added(random: &mut Random, standing: &Standing, lines: &mut Vec<Line>) -> (Vec<f32>, Vec<u32>) {
    let batch = if random.one_in(4) {
        refused(random, standing)
    } else {
        batch(random, standing, lines)
    };
    match batch {
        Call::Batch(numbers, origins) => (numbers, origins.unwrap_or_default()),
        _ => (Vec::new(), Vec::new()),
    }
}

/// About the next lines and those that stand, or about a batch that is at fault.
fn question(random: &mut Random, standing: &Standing, lines: &[Line]) -> Call {
    if random.one_in(6) {
        if let Call::Batch(numbers, None) = refused(random, standing) {
            return Call::Asked(numbers);
        }
    }
    let next = lines.iter().take(random.below(4));
    let again = standing.lines.iter().rev().take(random.below(4));
    let asked: Vec<Line> = next.chain(again).cloned().collect();
    Call::Asked(numbers_of(&asked))
}

/// The next lines, 0 to 5 or all that are left.
fn batch(random: &mut Random, standing: &Standing, lines: &mut Vec<Line>) -> Call {
    let room = MOST_LINES - standing.lines.len();
    let few = random.below(6);
    let many = lines.len();
    let size = random.pick(&[few, few, many]).min(lines.len()).min(room);
    let taken: Vec<Line> = lines.drain(..size).collect();
    with_origins(random, numbers_of(&taken))
}

fn with_origins(random: &mut Random, numbers: Vec<f32>) -> Call {
    if random.one_in(3) {
        return Call::Batch(numbers, None);
    }
    let count = 3 * (numbers.len() / 4);
    let origins = (0..count).map(|_| origin_number(random)).collect();
    Call::Batch(numbers, Some(origins))
}

/// Mostly small, so that lines share an origin; of any size at times.
fn origin_number(random: &mut Random) -> u32 {
    if random.one_in(8) {
        random.bits() as u32
    } else {
        random.below(3) as u32
    }
}

/// A batch at fault: numbers that are no whole lines, origins that are not theirs, too many lines, a line that is not admitted.
fn refused(random: &mut Random, standing: &Standing) -> Call {
    let fine = [0.0, 1.0, 1.0, 0.0];
    match random.below(5) {
        0 => Call::Batch(vec![1.0; 4 * random.below(3) + 1 + random.below(3)], None),
        1 => Call::Batch(fine.to_vec(), Some(vec![1; random.pick(&[1, 2, 4, 6])])),
        2 => Call::Batch(fine.repeat(MOST_LINES + 1 - standing.lines.len()), None),
        3 => Call::Batch([fine, [f32::NAN, 0.0, 1.0, 0.0]].concat(), None),
        _ => Call::Batch([fine, [0.0, 0.0, 1.0, 1.0]].concat(), Some(vec![1; 6])),
    }
}
