//! The places of linear_programming.rs where the counted build counts, and where it notes which branch is
//! taken; those of obstacles.rs are in edge_hooks.rs, those of lib.rs in scene_hooks.rs. Text is only inserted, within a
//! line, so that the rest stays as given, line by line.

mod edge_hooks;
mod scene_hooks;

/// In the order of the window's texts.
pub const HOOKED_FILES: [(&str, &[Hook]); 3] = [
    ("lib.rs", &scene_hooks::SCENE_HOOKS),
    ("linear_programming.rs", &HOOKS),
    ("obstacles.rs", &edge_hooks::EDGE_HOOKS),
];

/// `inserted` goes between `before` and `after`, which together must stand in the file exactly once.
pub struct Hook {
    pub name: &'static str,
    pub before: &'static str,
    pub inserted: &'static str,
    pub after: &'static str,
}

/// Stands once in every inserted text, and must not stand in the given files.
pub const MARK: &str = "counters::";

const PROBE: &str = " counters::probe();";

const HOOKS: [Hook; 17] = [
    Hook {
        name: "a line is compared with the point now in the 2D solve, inner or not",
        before: "  for (index, constraint) in constraints.iter().enumerate() {",
        inserted: PROBE,
        after: "\n",
    },
    Hook {
        name: "a line is compared with the point now in relaxation",
        before: "    constraints[index_of_failed_line..].iter().enumerate()\n  {",
        inserted: PROBE,
        after: "\n",
    },
    Hook {
        name: "an earlier line is looked at in a one-line solve",
        before: "  for constraint in constraints {",
        inserted: PROBE,
        after: "\n",
    },
    Hook {
        name: "a previous line is examined while a tightened list is built",
        before: "    for previous_constraint in &constraints[rigid_constraint_count..index] {",
        inserted: PROBE,
        after: "\n",
    },
    // The guard is met by every failure of the whole list's 2D pass, and by none of an inner solve.
    Hook {
        name: "the 2D pass over the whole list failed",
        before: "    } if ",
        inserted: "{ counters::failed_line(index_of_failed_line); true } && ",
        after: "index_of_failed_line < rigid_constraint_count => Err(partial_value),",
    },
    Hook {
        name: "an inner solve begins",
        before: "\n    ",
        inserted: "counters::inner_solve_begun(); ",
        after: "if let LinearProgram2DResult::Feasible(result) = solve_linear_program_2d(",
    },
    Hook {
        name: "an inner solve succeeded",
        before: "    ) {\n      ",
        inserted: "counters::inner_solve_succeeded(); ",
        after: "best_value = result;\n",
    },
    Hook {
        name: "relaxation ends",
        before: "\n  ",
        inserted: "counters::penetration(penetration); ",
        after: "best_value\n}\n",
    },
    Hook {
        name: "whether the line meets the circle",
        before: "\n  ",
        inserted: "counters::branches::circle(discriminant); ",
        after: "if discriminant < 0.0 {",
    },
    Hook {
        name: "whether the earlier line is parallel",
        before: "\n    ",
        inserted: "counters::branches::earlier_line(direction_determinant, numerator); ",
        after: "if direction_determinant.abs() <= RVO_EPSILON {",
    },
    Hook {
        name: "which end the earlier line cuts",
        before: "\n    ",
        inserted: "counters::branches::cut(direction_determinant, t_left, t_right, t); ",
        after: "if direction_determinant >= 0.0 {",
    },
    Hook {
        name: "whether the ends have crossed",
        before: "\n    ",
        inserted: "counters::branches::ends(t_left, t_right); ",
        after: "if t_left > t_right {",
    },
    Hook {
        name: "the end that a direction takes",
        before: "\n      ",
        inserted: "counters::branches::direction_end(direction.dot(line.direction)); ",
        after: "if direction.dot(line.direction) > 0.0 {",
    },
    Hook {
        name: "the clamp to a wish",
        before: "\n      ",
        inserted: "counters::branches::clamped(t, t_left, t_right); ",
        after: "t.clamp(t_left, t_right)\n",
    },
    Hook {
        name: "whether the point now meets the line",
        before: "\n    ",
        inserted: "counters::branches::compared(matches!(optimal_value, OptimalValue::Direction(_)), \
                   determinant(constraint.direction, best_value - constraint.point)); ",
        after: "if determinant(constraint.direction, best_value - constraint.point) > 0.0 {",
    },
    Hook {
        name: "whether relaxation passes over the line",
        before: "\n    ",
        inserted: "counters::branches::relaxed(\
                   determinant(constraint.direction, constraint.point - best_value), penetration); ",
        after: "if determinant(constraint.direction, constraint.point - best_value)\n      <= penetration\n",
    },
    Hook {
        name: "how a previous line is tightened",
        before: "\n      ",
        inserted: "counters::branches::tightened(intersection_determinant, \
                   constraint.direction.dot(previous_constraint.direction)); ",
        after: "let intersection_point = if intersection_determinant.abs() <= RVO_EPSILON\n",
    },
];

/// The text with every hook's insertion, or which hook does not fit it and why.
pub fn insert_counters(hooks: &[Hook], text: &str) -> Result<String, String> {
    let mut insertions = Vec::new();
    for hook in hooks {
        insertions.push((place_of(hook, text)?, hook.inserted));
    }
    insertions.sort();
    let mut counted = String::new();
    let mut copied = 0;
    for (place, inserted) in insertions {
        counted.push_str(&text[copied..place]);
        counted.push_str(inserted);
        copied = place;
    }
    counted.push_str(&text[copied..]);
    Ok(counted)
}

fn place_of(hook: &Hook, text: &str) -> Result<usize, String> {
    let hooked = format!("{}{}", hook.before, hook.after);
    let found: Vec<usize> = text
        .match_indices(&hooked)
        .map(|(place, _)| place)
        .collect();
    match found[..] {
        [place] => Ok(place + hook.before.len()),
        _ => Err(format!(
            "hook \"{}\": its text must be found exactly once, but is found {} times: {hooked:?}",
            hook.name,
            found.len(),
        )),
    }
}
