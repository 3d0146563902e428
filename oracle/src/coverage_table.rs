//! A table of rows, each with how many cases show it. No row may be 0.

/// A column counts the cases of its kind; the first counts all.
pub type Column<Case> = (&'static str, fn(&Case) -> bool);

/// The table; or the rows that no case shows.
pub fn of<Case, Test>(
    cases: &[Case],
    (what, columns): (&str, &[Column<Case>]),
    rows: &[(&str, Test)],
    passes: fn(&Test, &Case) -> bool,
) -> Result<String, String> {
    let mut table = format!("| {what} with |");
    for (name, counts) in columns {
        table += &format!(
            " {} {name} |",
            cases.iter().filter(|case| counts(case)).count()
        );
    }
    table += &format!("\n|{}\n", "---|".repeat(columns.len() + 1));
    let mut missing = Vec::new();
    for (row, test) in rows {
        let shown: Vec<&Case> = cases.iter().filter(|case| passes(test, case)).collect();
        table += &format!("| {row} |");
        for (_, counts) in columns {
            table += &format!(" {} |", shown.iter().filter(|case| counts(case)).count());
        }
        table += "\n";
        if shown.is_empty() {
            missing.push(*row);
        }
    }
    if missing.is_empty() {
        return Ok(table);
    }
    Err(format!("{table}nothing shows: {}", missing.join("; ")))
}
