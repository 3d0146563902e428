//! What a session of 256 strictly met lines takes, fed at once, in batches of 16 and line by line; and the unchanged
//! Rust, which has no sessions: to know where it stands behind each batch it has to be asked anew for all lines so far.

mod processor_time;

use std::hint::black_box;

use dodgy_plain::debug::{solve_linear_program, Line};
use glam::Vec2;

#[link(name = "session_alone", kind = "static")]
extern "C" {
    fn session_alone_probes(numbers: *const f32, count: usize, size: usize) -> u32;
}

const LINES: usize = 256;
const TURNS: usize = 9;
const CALLS: usize = 2_000;

fn main() {
    let lines: Vec<Line> = (0..LINES).map(met).collect();
    let numbers: Vec<f32> = lines.iter().flat_map(numbers_of).collect();
    println!("| {LINES} strictly met lines | the Rust ns | session ns | least | median |");
    println!("|---|---|---|---|---|");
    for size in [LINES, 16, 1] {
        assert_eq!(probes(&numbers, size), LINES as u32);
        let [mut rust, mut ours] = [Vec::new(), Vec::new()];
        for _ in 0..TURNS {
            rust.push(nanoseconds(|| ask_anew(&lines, size)));
            ours.push(nanoseconds(|| _ = black_box(probes(&numbers, size))));
        }
        rust.sort_by(f64::total_cmp);
        ours.sort_by(f64::total_cmp);
        println!(
            "| in batches of {size} | {:.0} | {:.0} | {:.2} | {:.2} |",
            rust[0],
            ours[0],
            ours[0] / rust[0],
            ours[TURNS / 2] / rust[TURNS / 2]
        );
    }
}

/// A line that the wish (0, 1) meets with room: it passes below rest, ever lower.
fn met(place: usize) -> Line {
    let turn = 0.5 - place as f32 / LINES as f32;
    Line {
        point: Vec2::new(0.0, -1.0 - place as f32 / 64.0),
        direction: Vec2::new(turn.cos(), turn.sin()),
    }
}

fn numbers_of(line: &Line) -> [f32; 4] {
    [
        line.point.x,
        line.point.y,
        line.direction.x,
        line.direction.y,
    ]
}

fn probes(numbers: &[f32], size: usize) -> u32 {
    // Any slice will do: the function's contract has no `requires`.
    unsafe { session_alone_probes(numbers.as_ptr(), numbers.len(), 4 * size) }
}

fn ask_anew(lines: &[Line], size: usize) {
    for end in (size..=LINES).step_by(size) {
        _ = black_box(solve_linear_program(
            black_box(&lines[..end]),
            0,
            2.0,
            Vec2::new(0.0, 1.0),
        ));
    }
}

fn nanoseconds(call: impl Fn()) -> f64 {
    processor_time::of_one(CALLS, || (0..CALLS).for_each(|_| call()))
}
