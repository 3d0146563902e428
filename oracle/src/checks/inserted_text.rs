//! Taking the inserted text out of the counted files leaves the files that the plain build compiled.

use hooks::{Hook, HOOKED_FILES, MARK};

use super::Outcome;

pub fn check() -> Outcome {
    let texts = dodgy_counted::debug::TEXTS
        .iter()
        .zip(dodgy_plain::debug::TEXTS);
    let mut compared = Vec::new();
    for ((name, hooks), (counted, given)) in HOOKED_FILES.iter().zip(texts) {
        let outcome = compare(hooks, counted, given);
        compared.push(outcome.map_err(|difference| format!("{name}: {difference}"))?);
    }
    Ok(compared.join("; "))
}

fn compare(hooks: &[Hook], counted: &str, given: &str) -> Outcome {
    let mut rest = counted.to_string();
    let marks = rest.matches(MARK).count();
    if marks != hooks.len() {
        return Err(format!("{} hooks, but {marks} inserted texts", hooks.len()));
    }
    for hook in hooks {
        rest = rest.replace(hook.inserted, "");
    }
    if rest != given {
        return Err(first_difference(given, &rest));
    }
    Ok(format!(
        "{marks} insertions, the other {} bytes as given",
        given.len()
    ))
}

fn first_difference(given: &str, rest: &str) -> String {
    let number = given
        .lines()
        .zip(rest.lines())
        .take_while(|(a, b)| a == b)
        .count();
    let line_of = |text: &str| text.lines().nth(number).unwrap_or("").to_string();
    let (given_line, rest_line) = (line_of(given), line_of(rest));
    format!(
        "line {} is {rest_line:?}, given is {given_line:?}",
        number + 1
    )
}
