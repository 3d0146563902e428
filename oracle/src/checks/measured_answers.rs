//! The answers of the plain build alone, whose speed is measured, are those of the vectors, as far as it tells them.

use super::Outcome;
use crate::plain_answers;
use crate::random::Random;
use crate::records::VERSION;
use crate::scene_vectors::at_scale;
use crate::words::hex_bytes;

const SEED: u64 = 3;
const SCENES: usize = 10_000;

pub fn check() -> Outcome {
    let mut random = Random::new(SEED);
    for _ in 0..SCENES {
        let parts = at_scale(&mut random)?;
        let (scene, answer) = (&parts[0], &parts[1]);
        let measured = plain_answers::answer(scene).record();
        if measured != as_told(answer) {
            let [measured, answer, scene] =
                [&measured, answer, scene].map(|bytes| hex_bytes(bytes));
            return Err(format!("{measured}, but {answer} in the vectors: {scene}"));
        }
    }
    Ok(format!("{SCENES} scenes"))
}

/// An answer record without what the plain build does not tell.
fn as_told(answer: &[u8]) -> Vec<u8> {
    match *answer {
        [0, 16, VERSION, outcome, ref point @ .., _, _, _, _, _, _] => {
            let outcome = match outcome {
                2 => 1,
                4 => 3,
                other => other,
            };
            let (start, end) = ([0, 16, VERSION, outcome], [0xFF, 0xFF, 0, 0, 0, 0]);
            [&start, point, &end].concat()
        }
        _ => answer.to_vec(),
    }
}
