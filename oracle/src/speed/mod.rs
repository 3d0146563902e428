//! `feed` and the plain build on the same admitted scenes, kind by kind and by turns, by processor time. The Rust is
//! timed in memory, from its first record to its last answer; `feed` as a process, its start, its reading and its
//! writing counted in.

mod child;
#[path = "../../alone/processor_time.rs"]
mod processor_time;
mod scenes;

use std::fs::{self, File};
use std::io;
use std::process::{Command, Stdio};

use crate::agree;
use crate::plain_answers;
use crate::records::Records;

/// Kind, size, how many scenes are made, and how often these are repeated.
const KINDS: [(&str, usize, usize, usize); 14] = [
    ("tiny", 0, 1_000, 600),
    ("plain", 0, 20_000, 20),
    ("heavy", 0, 20_000, 32),
    ("full", 0, 600, 12),
    ("again", 4, 500, 600),
    ("again", 16, 500, 150),
    ("again", 64, 500, 16),
    ("relaxing", 4, 500, 400),
    ("relaxing", 16, 500, 100),
    ("relaxing", 64, 500, 12),
    ("edges", 4, 500, 500),
    ("edges", 16, 500, 180),
    ("edges", 64, 500, 40),
    ("edges", 192, 500, 16),
];

const TURNS: usize = 9;

/// Prints a row for each kind. `feed` is the program; files are laid into the folder `room`.
pub fn measure(feed: &str, room: &str) -> Result<(), String> {
    println!("| scenes | n | probes | the Rust ns | `feed` ns | least | median |");
    println!("|---|---|---|---|---|---|---|");
    for (kind, size, count, repeats) in KINDS {
        let made = scenes::set(kind, size, count)?;
        let [file, fed] = ["scenes", "fed"].map(|name| format!("{room}/{name}"));
        fs::write(&file, &made.records).map_err(told)?;
        run(feed, &file, &fed)?;
        if let Some(place) = agree::first_difference(&made.answers, &fs::read(&fed).map_err(told)?)
        {
            return Err(format!(
                "{kind} {size}: `feed` answers otherwise at {place}, counted from 0"
            ));
        }
        let records = made.records.repeat(repeats);
        fs::write(&file, &records).map_err(told)?;
        let all = (count * repeats) as f64;
        let [mut rust, mut ours] = [Vec::new(), Vec::new()];
        for _ in 0..TURNS {
            rust.push(answer_all(&records) / all);
            ours.push(run(feed, &file, "/dev/null")? / all);
        }
        let [rust, ours] = [rust, ours].map(least_and_median);
        let n = if size == 0 {
            "–".to_string()
        } else {
            size.to_string()
        };
        println!(
            "| {kind} | {n} | {:.0} | {:.0} | {:.0} | {:.2} | {:.2} |",
            made.probes as f64 / count as f64,
            rust[0],
            ours[0],
            ours[0] / rust[0],
            ours[1] / rust[1]
        );
    }
    Ok(())
}

fn told(fault: io::Error) -> String {
    fault.to_string()
}

fn least_and_median(mut times: Vec<f64>) -> [f64; 2] {
    times.sort_by(f64::total_cmp);
    [times[0], times[TURNS / 2]]
}

/// Nanoseconds of this thread.
fn answer_all(records: &[u8]) -> f64 {
    let mut written = Vec::with_capacity(1 << 16);
    processor_time::of_one(1, || {
        for record in Records(records) {
            if written.len() > 1 << 15 {
                written.clear();
            }
            written.extend(plain_answers::answer(record).record());
        }
    })
}

/// Nanoseconds of the process, in the program and in the system.
fn run(program: &str, input: &str, output: &str) -> Result<f64, String> {
    let child = Command::new(program)
        .stdin(Stdio::from(File::open(input).map_err(told)?))
        .stdout(Stdio::from(File::create(output).map_err(told)?))
        .spawn()
        .map_err(told)?;
    child::processor_time(child).ok_or_else(|| format!("{program}: it failed"))
}
