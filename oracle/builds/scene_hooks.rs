//! The places of lib.rs where the counted build tells the passes apart and takes neighbour lines ready made. Text is only
//! inserted, as in linear_programming.rs.

use crate::Hook;

pub const SCENE_HOOKS: [Hook; 3] = [
    Hook {
        name: "the first pass begins",
        before: "\n    ",
        inserted: "counters::passes::begin(); ",
        after: "if let Ok(result) = solve_linear_program(",
    },
    Hook {
        name: "the second pass begins",
        before: "\n    ",
        inserted: "counters::passes::begin(); ",
        after: "let result = match solve_linear_program(",
    },
    // A line that comes ready made is handed in as an agent at its point that moves along its direction.
    Hook {
        name: "a neighbour's line comes ready made",
        before: "    time_step: f32,\n  ) -> Line {\n    ",
        inserted: "if counters::passes::are_lines_ready_made() \
                   { return Line { point: neighbour.position, direction: neighbour.velocity }; } ",
        after: "// There are two parts to the velocity obstacle",
    },
];
