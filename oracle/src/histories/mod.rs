//! The vectors of a session's calls, one after the other (01; 02, T-12, T-13): lines come in batches, are asked about,
//! are taken back and are changed for others. A record is one call, a session goes on from record to record up to the
//! next start. In words: how many bytes come behind the head; the kind (0 start, 1 batch without origins, 2 batch with
//! origins, 3 withdrawal, 4 withdrawal after which the session goes on as before it, 5 question which line of a batch
//! is the first that is not strictly met, 6 change, 7 change by origin); two arguments (rigid count and limit; how
//! many numbers and how many of origins; the index and 0; how many numbers, and the index that is named or FFFFFFFF
//! for none); how it is judged (0 taken, else the number); then of the session afterwards the line count, the rigid
//! count, how many numbers of origins are told (0: all are unknown) and the answer as in list_vectors; the wish (2),
//! of a change by origin the kind and the place; of a change how many indices, by origin how many were withdrawn.
//! Behind the head: the origins that stand, the numbers, their origins, the indices. What stands is by standing.rs,
//! written from 01 and 02 alone; the answer is the Rust's for these lines, asked anew after each call.

mod drawn;
mod named;
mod standing;

use crate::builds::Solved;
use crate::coverage_table::{self, Column};
use crate::list_vectors::{ask_rust, write_solved};
use crate::random::Random;
use crate::scale::Parts;
use crate::words::Words;
use standing::{Call, Standing};

const SEED: u64 = 0x6869_7374_6F72;
const DRAWN: usize = 400;

/// How many calls a drawn history has, its start among them.
pub const CALLS: usize = 10;

/// A call, how it was judged, and what stood before and after it.
struct Told {
    call: Call,
    judged: u32,
    /// The first line that is not strictly met, by the index that it gets, where a question names one.
    named: Option<usize>,
    /// Of the last withdrawal of a batch that is taken back whole: whether the session before the batch was solving and
    /// strictly met it.
    back: Option<bool>,
    before: Standing,
    after: Standing,
    solved_before: Solved,
    solved: Solved,
}

/// The calls of a session, told one after the other.
pub struct History {
    standing: Standing,
    told: Vec<Told>,
}

impl History {
    /// From a start that is admitted.
    fn start(start: Standing) -> Result<History, String> {
        let solved = ask_rust(&start.list())?;
        let told = Told {
            call: Call::Start,
            judged: 0,
            named: None,
            back: None,
            before: start.clone(),
            after: start.clone(),
            solved_before: solved,
            solved: ask_rust(&start.list())?,
        };
        Ok(History {
            standing: start,
            told: vec![told],
        })
    }

    fn call(&mut self, call: Call) -> Result<(), String> {
        let before = self.standing.clone();
        let mut after = before.clone();
        let judged = after.take(&call);
        let solved_before = ask_rust(&before.list())?;
        let (Ok(point) | Err(point)) = solved_before.answer;
        let named = before.first_unmet(point, &call);
        if !matches!(call, Call::Tried(_)) {
            self.standing = after.clone();
        }
        self.told.push(Told {
            solved_before,
            solved: ask_rust(&after.list())?,
            call,
            judged,
            named: named.filter(|_| judged == 0),
            back: None,
            before,
            after,
        });
        Ok(())
    }
}

type Test = fn(&Told) -> bool;

const COLUMNS: [Column<Told>; 4] = [
    ("in all", |_| true),
    ("solving then", |told| told.solved.counts.failed_line.is_none()),
    ("relaxing then", |told| told.solved.counts.penetration.is_some()),
    ("rigid failure then", |told| told.solved.answer.is_err()),
];

#[rustfmt::skip]
const ROWS: &[(&str, Test)] = &[
    ("start", |told| matches!(told.call, Call::Start)),
    ("batch that is taken", |told| is_batch(told) && told.judged == 0),
    ("batch that a solving session strictly meets", is_met),
    ("batch refused with 2", |told| is_batch(told) && told.judged == 2),
    ("batch refused with 4", |told| is_batch(told) && told.judged == 4),
    ("batch refused with 6", |told| is_batch(told) && told.judged == 6),
    ("batch refused with 7", |told| is_batch(told) && told.judged == 7),
    ("withdrawal that is taken", is_taken),
    ("withdrawal of the first line of several", |told| is_taken(told) && told.before.lines.len() > 1 && index(told) == 0),
    ("withdrawal of the last line of several", |told| is_taken(told) && told.before.lines.len() > 1 && index(told) + 1 == told.before.lines.len()),
    ("withdrawal of the only line", |told| is_taken(told) && told.before.lines.len() == 1),
    ("withdrawal below the rigid count", |told| is_taken(told) && told.after.rigid < told.before.rigid),
    ("withdrawal at the rigid count", |told| is_taken(told) && index(told) == told.before.rigid as usize),
    ("withdrawal under a rigid count above the lines", |told| is_taken(told) && told.before.rigid as usize > told.before.lines.len()),
    ("withdrawal of the failed line", |told| is_taken(told) && told.solved_before.counts.failed_line == Some(index(told))),
    ("withdrawal that ends a rigid failure", |told| is_taken(told) && told.solved_before.answer.is_err() && told.solved.answer.is_ok()),
    ("withdrawal that ends relaxation", |told| is_taken(told) && told.solved_before.counts.penetration.is_some() && told.solved.counts.failed_line.is_none()),
    ("withdrawal behind which another line fails", |told| is_taken(told) && told.solved.counts.failed_line.is_some_and(|k| told.solved_before.counts.failed_line.is_some_and(|j| j < k))),
    ("withdrawal of a line with an origin", |told| is_taken(told) && told.before.origins[index(told)] != [0; 3]),
    ("withdrawal from 256 lines", |told| is_taken(told) && told.before.lines.len() == 256),
    ("withdrawal of the last line left of a batch that is taken back whole", |told| told.back.is_some()),
    ("withdrawal of the last line left of such a batch, strictly met by a solving session", |told| told.back == Some(true)),
    ("withdrawal refused with 15", |told| is_withdrawal(told) && told.judged == 15),
    ("batch to the 256th line behind a withdrawal", |told| is_batch(told) && told.judged == 0 && told.before.lines.len() == 255 && told.after.lines.len() == 256),
    ("question that names no line", |told| is_named(told) && told.named.is_none()),
    ("question that names the first line of several", |told| told.named == Some(told.before.lines.len()) && asked(told) > 1),
    ("question that names a later line", |told| told.named > Some(told.before.lines.len())),
    ("question whose batch would leave the session as it is, though a line is named", |told| told.named.is_some() && keeps_point(told)),
    ("question refused with 2", |told| is_question(told) && told.judged == 2),
    ("question refused with 4", |told| is_question(told) && told.judged == 4),
    ("question refused with 6", |told| is_question(told) && told.judged == 6),
    ("question refused with 7", |told| is_question(told) && told.judged == 7),
    ("change that is taken", |told| is_change(told) && told.judged == 0),
    ("change that withdraws several lines", |told| is_change(told) && withdrawn(told) > 1),
    ("change that withdraws lines on both sides of the rigid count", |told| is_change(told) && told.after.rigid < told.before.rigid && withdrawn(told) > (told.before.rigid - told.after.rigid) as usize),
    ("change of a full session for as many lines", |told| is_change(told) && told.before.lines.len() == 256 && told.after.lines.len() == 256 && withdrawn(told) == 256),
    ("change that only the freed places make fit", |told| is_change(told) && told.judged == 0 && told.before.lines.len() + batch_size(told) > 256),
    ("change that withdraws nothing", |told| is_change(told) && told.judged == 0 && withdrawn(told) == 0),
    ("change refused with 2", |told| is_change(told) && told.judged == 2),
    ("change refused with 4", |told| is_change(told) && told.judged == 4),
    ("change refused with 6", |told| is_change(told) && told.judged == 6),
    ("change refused with 7", |told| is_change(told) && told.judged == 7),
    ("change refused with 15", |told| is_change(told) && told.judged == 15),
    ("change by origin that is taken", |told| is_by_origin(told) && told.judged == 0),
    ("change by origin that finds several lines", |told| is_by_origin(told) && withdrawn(told) > 1),
    ("change by origin that finds none", |told| is_by_origin(told) && told.judged == 0 && withdrawn(told) == 0),
    ("change by origin that is refused", |told| is_by_origin(told) && told.judged != 0),
];

fn is_change(told: &Told) -> bool {
    matches!(told.call, Call::Change(..))
}

fn is_by_origin(told: &Told) -> bool {
    matches!(told.call, Call::ChangeOrigin(..))
}

/// How many lines a change withdrew: none where it is refused.
fn withdrawn(told: &Told) -> usize {
    if told.judged != 0 {
        return 0;
    }
    match &told.call {
        Call::Change(indices, ..) => indices.len(),
        Call::ChangeOrigin(kind, place, ..) => told.before.of_origin(*kind, *place).len(),
        _ => 0,
    }
}

/// How many lines a change adds.
fn batch_size(told: &Told) -> usize {
    match &told.call {
        Call::Change(_, numbers, _) | Call::ChangeOrigin(_, _, numbers, _) => numbers.len() / 4,
        _ => 0,
    }
}

fn is_question(told: &Told) -> bool {
    matches!(told.call, Call::Asked(_))
}

fn is_named(told: &Told) -> bool {
    is_question(told) && told.judged == 0
}

/// How many lines are asked about.
fn asked(told: &Told) -> usize {
    match &told.call {
        Call::Asked(numbers) => numbers.len() / 4,
        _ => 0,
    }
}

/// Whether a solving session would be solving at the same point behind the batch that is asked about.
fn keeps_point(told: &Told) -> bool {
    let Call::Asked(numbers) = &told.call else {
        return false;
    };
    let mut fed = told.before.clone();
    fed.take(&Call::Batch(numbers.clone(), None));
    let counts = &told.solved_before.counts;
    let after = ask_rust(&fed.list());
    counts.failed_line.is_none() && after.is_ok_and(|after| after.answer == told.solved_before.answer)
}

fn is_batch(told: &Told) -> bool {
    matches!(told.call, Call::Batch(..))
}

/// Whether a batch of some lines was taken by a session that was solving and whose point strictly met them all (02, T-13).
fn is_met(told: &Told) -> bool {
    let Call::Batch(numbers, _) = &told.call else {
        return false;
    };
    let (Ok(point) | Err(point)) = told.solved_before.answer;
    let is_solving = told.solved_before.counts.failed_line.is_none();
    let unmet = told.before.first_unmet(point, &Call::Asked(numbers.clone()));
    is_solving && told.judged == 0 && !numbers.is_empty() && unmet.is_none()
}

fn is_withdrawal(told: &Told) -> bool {
    matches!(told.call, Call::Withdrawal(_) | Call::Tried(_))
}

fn is_taken(told: &Told) -> bool {
    told.judged == 0 && is_withdrawal(told)
}

fn index(told: &Told) -> usize {
    match told.call {
        Call::Withdrawal(index) | Call::Tried(index) => index,
        _ => usize::MAX,
    }
}

/// The same bytes at each call, and the table of what they cover.
pub fn bytes() -> Result<(Vec<u8>, String), String> {
    let mut told = Vec::new();
    for history in named::histories()? {
        told.extend(history.told);
    }
    let mut random = Random::new(SEED);
    for _ in 0..DRAWN {
        told.extend(drawn::history(&mut random)?.told);
    }
    let table = coverage_table::of(&told, ("Calls", &COLUMNS), ROWS, |test, told| test(told));
    Ok((Words::of(&told, write_record), table?))
}

/// A drawn history's records.
pub fn at_scale(random: &mut Random) -> Result<Parts, String> {
    let history = drawn::history(random)?;
    Ok(vec![Words::of(&history.told, write_record)])
}

fn write_record(words: &mut Words, told: &Told) {
    let after = &told.after;
    let mut known: &[[u32; 3]] = &after.origins;
    if known.iter().all(|origin| *origin == [0; 3]) {
        known = &[];
    }
    let none = (Vec::new(), Vec::new());
    let (kind, arguments, (numbers, origins)) = match &told.call {
        Call::Start => (0, [after.rigid, after.limit.to_bits()], none),
        Call::Batch(numbers, None) => (1, [numbers.len() as u32, 0], (numbers.clone(), Vec::new())),
        Call::Batch(numbers, Some(origins)) => {
            let counts = [numbers.len() as u32, origins.len() as u32];
            (2, counts, (numbers.clone(), origins.clone()))
        }
        Call::Withdrawal(index) => (3, [*index as u32, 0], none),
        Call::Tried(index) => (4, [*index as u32, 0], none),
        Call::Change(_, numbers, origins) | Call::ChangeOrigin(_, _, numbers, origins) => {
            let counts = [numbers.len() as u32, origins.len() as u32];
            let kind = if matches!(told.call, Call::Change(..)) { 6 } else { 7 };
            (kind, counts, (numbers.clone(), origins.clone()))
        }
        Call::Asked(numbers) => {
            let named = told.named.map_or(u32::MAX, |index| index as u32);
            let arguments = [numbers.len() as u32, named];
            (5, arguments, (numbers.clone(), Vec::new()))
        }
    };
    let (mut indices, mut more) = (&[][..], 0);
    let mut pair = [after.wish.x.to_bits(), after.wish.y.to_bits()];
    if let Call::Change(withdrawn, ..) = &told.call {
        (indices, more) = (withdrawn, withdrawn.len());
    }
    if let Call::ChangeOrigin(kind, place, ..) = told.call {
        pair = [kind, place];
        more = withdrawn(told);
    }
    words.word(4 * (3 * known.len() + numbers.len() + origins.len() + indices.len()) as u32);
    words.word(kind);
    arguments.iter().for_each(|argument| words.word(*argument));
    words.word(told.judged);
    words.word(after.lines.len() as u32);
    words.word(after.rigid);
    words.word(3 * known.len() as u32);
    write_solved(words, &told.solved);
    pair.iter().for_each(|number| words.word(*number));
    words.word(more as u32);
    known.iter().flatten().for_each(|number| words.word(*number));
    numbers.iter().for_each(|number| words.bits(*number));
    origins.iter().for_each(|number| words.word(*number));
    indices.iter().for_each(|index| words.word(*index as u32));
}
