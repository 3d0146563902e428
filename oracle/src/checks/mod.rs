//! The self-check: that the given files are asked rightly and that counting changes nothing.

mod bench_cases;
mod edge_cases;
mod inserted_text;
mod measured_answers;
mod ready_made;
mod same_answers;
mod scene_cases;
mod vector_formulas;

/// What was checked, or the first difference with the input that shows it.
type Outcome = Result<String, String>;

const CHECKS: [(&str, fn() -> Outcome); 8] = [
    ("counters are only inserted", inserted_text::check),
    ("counters change no answer", same_answers::check),
    ("bench cases of the solve", bench_cases::check),
    ("bench cases of the edges", edge_cases::check),
    ("scenes in bytes", scene_cases::check),
    ("neighbour lines ready made", ready_made::check),
    ("answers whose speed is measured", measured_answers::check),
    ("Vec2 and determinant", vector_formulas::check),
];

pub fn run_all() -> Result<(), String> {
    for (name, check) in CHECKS {
        let checked = check().map_err(|difference| format!("{name}: {difference}"))?;
        println!("{name}: {checked}");
    }
    Ok(())
}
