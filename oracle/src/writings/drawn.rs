//! Scenes of the kinds that the scene vectors are made of, lent with up to three faults: numbers out of range, counts
//! one more or less than what is lent, parts cut or with more behind them; and buffers that just fit, or not.

use super::Writing;
use crate::lent::{self, beside, replace, resize};
use crate::list_vectors::judge::{LINE_REACH, LONGEST, REACH};
use crate::list_vectors::refused::too_large;
use crate::random::Random;
use crate::scene_vectors;

type Spoil = fn(&mut Random, &mut Writing);

const SPOILS: [Spoil; 12] = [
    cart_number,
    |random, call| lent::vertex_number(random, &mut call.lent),
    line_number,
    line_band,
    |random, call| lent::kind(random, &mut call.lent),
    |random, call| lent::own_count(random, &mut call.lent),
    |random, call| lent::obstacle_count(random, &mut call.lent),
    neighbour_count,
    |random, call| lent::kinds_lent(random, &mut call.lent),
    |random, call| lent::counts_lent(random, &mut call.lent),
    |random, call| lent::vertices_lent(random, &mut call.lent),
    lines_lent,
];

pub fn call(random: &mut Random) -> Writing {
    let mut call = Writing::fitting(&scene_vectors::drawn(random));
    for _ in 0..random.below(4) {
        let spoil = random.pick(&SPOILS);
        spoil(random, &mut call);
    }
    let around = random.pick(&[0, 0, 0, 1, 7, 32]);
    call.buffer = match random.below(8) {
        0 => random.below(call.buffer + 1),
        1 => call.buffer.saturating_sub(1 + around),
        _ => call.buffer + around,
    };
    call
}

fn cart_number(random: &mut Random, call: &mut Writing) {
    let place = random.below(9);
    let most = if [4, 5, 8].contains(&place) {
        LONGEST
    } else {
        REACH
    };
    call.cart[place] = too_large(random, most);
}

fn line_number(random: &mut Random, call: &mut Writing) {
    let number = too_large(random, LINE_REACH);
    replace(random, &mut call.lines, number);
}

/// A component of any place, so that a direction mostly leaves its band.
fn line_band(random: &mut Random, call: &mut Writing) {
    let number = random.within(2.0);
    replace(random, &mut call.lines, number);
}

fn neighbour_count(random: &mut Random, call: &mut Writing) {
    call.neighbours = beside(random, call.neighbours);
}

fn lines_lent(random: &mut Random, call: &mut Writing) {
    resize(random, &mut call.lines, 8, 1.0);
}
