//! The vectors of the batch session: line lists that are admitted, each with the answers to all that it begins with,
//! from no line to all of them. Where a session's lines were cut into batches must not matter, so a record has no cut.
//! A record: the call as in list_vectors; then the answers, the one to no line first, each as there.
//! All answers are the Rust's, asked anew for each beginning. coverage.rs says what the lists must show, all of it.

mod coverage;
mod pressing;

use crate::builds::Solved;
use crate::line_lists::LineList;
use crate::list_vectors::call::Call;
use crate::list_vectors::judge::{self, MOST_LINES};
use crate::list_vectors::{ask_rust, made, named, write_call, write_solved};
use crate::random::Random;
use crate::words::Words;

const SEED: u64 = 0x6375_7473;

/// The most lines of a list between the short ones and the full ones.
const MIDDLE: usize = 40;

type Make = fn(&mut Random) -> Call;

/// How lists are made, and how many of each. An answer to each line makes records long, so most lists are short.
const PARTS: [(Make, usize); 9] = [
    (made::short, 2_600),
    (made::at_tolerance, 600),
    (made::at_band_ends, 300),
    (made::extreme, 700),
    (made::tangent, 500),
    (pressing::short, 600),
    (middle, 60),
    (full, 10),
    (pressing::full, 6),
];

/// A call and what it must give.
struct Case {
    call: Call,
    /// The answer to the first n lines at n.
    answers: Vec<Solved>,
}

/// The same bytes at each call, and the table of what they cover.
pub fn bytes() -> Result<(Vec<u8>, String), String> {
    let mut cases = Vec::new();
    for call in calls() {
        cases.push(ask(call)?);
    }
    Ok((Words::of(&cases, write_record), coverage::table(&cases)?))
}

fn write_record(words: &mut Words, case: &Case) {
    write_call(words, &case.call);
    for answer in &case.answers {
        write_solved(words, answer);
    }
}

/// Those made by hand, then the random ones, as far as they are admitted.
pub fn calls() -> Vec<Call> {
    let mut calls: Vec<Call> = named::calls().into_iter().map(|(_, call)| call).collect();
    let mut random = Random::new(SEED);
    for (make, count) in PARTS {
        calls.extend((0..count).map(|_| make(&mut random)));
    }
    calls.retain(|call| judge::faults(call).is_empty());
    calls
}

fn middle(random: &mut Random) -> Call {
    let count = made::SHORT + 1 + random.below(MIDDLE - made::SHORT);
    made::of_length(random, count)
}

fn full(random: &mut Random) -> Call {
    made::of_length(random, MOST_LINES)
}

fn ask(call: Call) -> Result<Case, String> {
    let mut list = LineList {
        lines: Vec::new(),
        ..call.to_list()
    };
    let mut answers = vec![ask_rust(&list)?];
    for line in call.to_list().lines {
        list.lines.push(line);
        answers.push(ask_rust(&list)?);
    }
    Ok(Case { call, answers })
}
