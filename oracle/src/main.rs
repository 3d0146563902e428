//! The oracle: asks the given Rust files, checks that they are asked rightly, writes vectors.

mod agree;
mod bad_records;
mod builds;
mod calls;
mod checks;
mod common_vectors;
mod coverage_table;
mod cut_vectors;
mod doubled;
mod edge_vectors;
mod encounters;
mod histories;
mod lent;
mod line_lists;
mod list_vectors;
mod moves;
mod plain_answers;
mod random;
mod records;
mod scale;
mod scene_vectors;
mod scenes;
mod speed;
mod walls;
mod words;
mod writings;

use std::process::ExitCode;
use std::{env, fs};

use scene_vectors::{failures, Set};

const USAGE: &str = "usage: oracle self-check
       oracle vectors common|lists|cuts|histories|edges|failures|walls FILE
       oracle vectors scenes|bad_records|writings|moves RECORDS ANSWERS
       oracle lists|histories|edges|failures|walls SEED COUNT|SECONDSs FILE
       oracle scenes|writings|moves SEED COUNT|SECONDSs RECORDS ANSWERS
       oracle agree ANSWERS OTHER_ANSWERS [SCENES]
       oracle answer SCENES ANSWERS
       oracle speed FEED FOLDER
       oracle written_again SCENES
       oracle moved_again SCENES RECORDS ANSWERS
       oracle doubled edges|walls FILE
       oracle doubled scenes|writings|moves RECORDS ANSWERS";

fn main() -> ExitCode {
    let arguments: Vec<String> = env::args().skip(1).collect();
    let arguments: Vec<&str> = arguments.iter().map(String::as_str).collect();
    let outcome = match arguments[..] {
        ["self-check"] => checks::run_all(),
        ["vectors", "common", file] => write_covered(file, common_vectors::bytes()),
        ["vectors", "lists", file] => write_covered(file, list_vectors::bytes()),
        ["vectors", "cuts", file] => write_covered(file, cut_vectors::bytes()),
        ["vectors", "histories", file] => write_covered(file, histories::bytes()),
        ["vectors", "edges", file] => write_covered(file, edge_vectors::bytes()),
        ["vectors", "failures", file] => write_covered(file, failures::bytes()),
        ["vectors", "walls", file] => write_covered(file, walls::bytes()),
        ["vectors", "scenes", records, answers] => {
            write_set(records, answers, scene_vectors::set())
        }
        ["vectors", "bad_records", records, answers] => {
            write_set(records, answers, bad_records::set())
        }
        ["vectors", "writings", records, answers] => write_set(records, answers, writings::set()),
        ["vectors", "moves", records, answers] => write_set(records, answers, moves::set()),
        ["lists", seed, until, file] => {
            scale::write([seed, until], &[file], list_vectors::at_scale)
        }
        ["histories", seed, until, file] => {
            scale::write([seed, until], &[file], histories::at_scale)
        }
        ["edges", seed, until, file] => {
            scale::write([seed, until], &[file], edge_vectors::at_scale)
        }
        ["failures", seed, until, file] => {
            scale::write([seed, until], &[file], failures::at_scale)
        }
        ["walls", seed, until, file] => scale::write([seed, until], &[file], walls::at_scale),
        ["scenes", seed, until, scenes, answers] => {
            scale::write([seed, until], &[scenes, answers], scene_vectors::at_scale)
        }
        ["writings", seed, until, calls, answers] => {
            scale::write([seed, until], &[calls, answers], writings::at_scale)
        }
        ["moves", seed, until, calls, answers] => {
            scale::write([seed, until], &[calls, answers], moves::at_scale)
        }
        ["agree", answers, others] => agree::compare_files(answers, others, None),
        ["agree", answers, others, scenes] => agree::compare_files(answers, others, Some(scenes)),
        ["answer", scenes, answers] => plain_answers::write_file(scenes, answers),
        ["speed", feed, room] => speed::measure(feed, room),
        ["written_again", scenes] => writings::written_again(scenes),
        ["moved_again", scenes, calls, answers] => {
            write_set(calls, answers, moves::moved_again(scenes))
        }
        ["doubled", set, ref files @ ..] => doubled::check(set, files),
        _ => Err(USAGE.to_string()),
    };
    match outcome {
        Ok(()) => ExitCode::SUCCESS,
        Err(fault) => {
            eprintln!("oracle: {fault}");
            ExitCode::FAILURE
        }
    }
}

/// Bytes of a set, and the table of what they cover.
type Covered = Result<(Vec<u8>, String), String>;

/// Prints the table as well.
fn write_covered(file: &str, covered: Covered) -> Result<(), String> {
    let (bytes, table) = covered?;
    write_file(file, &bytes)?;
    print!("{table}");
    Ok(())
}

/// Prints the table as well.
fn write_set(records: &str, answers: &str, set: Result<Set, String>) -> Result<(), String> {
    let set = set?;
    write_file(records, &set.records)?;
    write_file(answers, &set.answers)?;
    print!("{}", set.table);
    Ok(())
}

fn write_file(file: &str, bytes: &[u8]) -> Result<(), String> {
    fs::write(file, bytes).map_err(|fault| format!("{file}: {fault}"))
}
