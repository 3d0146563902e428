//! `compare`: every pattern of f32 through `arithmetic::sqrt` and through the processor's own root. `times`: what one
//! call of each takes.

mod processor_time;

use std::env;
use std::hint::black_box;
use std::process::ExitCode;

#[link(name = "root_alone", kind = "static")]
extern "C" {
    fn root_alone_sqrt(x: f32) -> f32;
}

/// How often each is timed; the least counts.
const TURNS: usize = 9;
const CALLS: usize = 1 << 22;

fn main() -> ExitCode {
    match env::args().nth(1).as_deref() {
        Some("times") => tell_times(),
        _ => match compare_all() {
            Ok(nans) => println!("roots: all 2^32 patterns give the same bits; {nans} of the roots are NaNs, which count as one"),
            Err(pattern) => {
                println!("roots: they differ at the pattern {pattern:08x}");
                return ExitCode::FAILURE;
            }
        },
    }
    ExitCode::SUCCESS
}

fn tell_times() {
    let numbers = positive_numbers();
    println!("| ns a root, least of {TURNS} | one beside the other | one behind the other |");
    println!("|---|---|---|");
    let mut least = [[f64::INFINITY; 2]; 2];
    for _ in 0..TURNS {
        for (root, least) in [ours, processors].into_iter().zip(&mut least) {
            least[0] = least[0].min(nanoseconds(|| beside(root, &numbers)));
            least[1] = least[1].min(nanoseconds(|| behind(root, &numbers)));
        }
    }
    for (name, [beside, behind]) in ["`arithmetic::sqrt`", "the processor's own"]
        .iter()
        .zip(least)
    {
        println!("| {name} | {beside:.1} | {behind:.1} |");
    }
}

#[inline(never)]
fn ours(x: f32) -> f32 {
    // It takes any f32 and touches no memory: its contract has no `requires`.
    unsafe { root_alone_sqrt(x) }
}

/// One instruction, `sqrtss`, on x86-64.
#[inline(never)]
fn processors(x: f32) -> f32 {
    x.sqrt()
}

/// The number of NaNs among the roots, or the first pattern at which the two differ.
fn compare_all() -> Result<u64, u32> {
    let mut nans = 0;
    for pattern in 0..=u32::MAX {
        let x = f32::from_bits(pattern);
        let (own, other) = (ours(x), processors(x));
        if own.is_nan() && other.is_nan() {
            nans += 1;
        } else if own.to_bits() != other.to_bits() {
            return Err(pattern);
        }
    }
    Ok(nans)
}

/// Numbers of about a solve's size, 2^-32 to 2^32, in an order that no branch can learn.
fn positive_numbers() -> Vec<f32> {
    let mut state = 1u64;
    let mut next = || {
        state = state
            .wrapping_mul(6364136223846793005)
            .wrapping_add(1442695040888963407);
        f32::from_bits(0x2f80_0000 + (state >> 34) as u32 % 0x2000_0000)
    };
    (0..4096).map(|_| next()).collect()
}

fn beside(root: fn(f32) -> f32, numbers: &[f32]) {
    for &x in numbers {
        black_box(root(x));
    }
}

/// Each number waits for the root before it.
fn behind(root: fn(f32) -> f32, numbers: &[f32]) {
    let mut last = 0;
    for &x in numbers {
        last = root(f32::from_bits(x.to_bits() ^ last & 1)).to_bits();
    }
    black_box(last);
}

fn nanoseconds(all: impl Fn()) -> f64 {
    let turns = CALLS / 4096;
    processor_time::of_one(turns * 4096, || (0..turns).for_each(|_| all()))
}
