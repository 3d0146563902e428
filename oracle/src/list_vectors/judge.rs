//! What is admitted, written from the definition of the build alone: "What is admitted", and the order of a
//! line list in "Refusal numbers". Ends are admitted; a NaN fails every rule.

use glam::Vec2;

use super::call::Call;

pub const REACH: f32 = 65_536.0;
pub const LONGEST: f32 = 1_024.0;
pub const LINE_REACH: f32 = 268_435_456.0;
pub const BAND_LOW: f32 = 1023.0 / 1024.0;
pub const BAND_HIGH: f32 = 1025.0 / 1024.0;
pub const MOST_LINES: usize = 256;

/// Every fault in the order in which it is looked for. The first is told; none: the list is admitted.
pub fn faults(call: &Call) -> Vec<u32> {
    let mut faults = Vec::new();
    let mut must = |rule: bool, number: u32| {
        if !rule {
            faults.push(number);
        }
    };
    must(call.numbers.len() % 4 == 0, 2);
    must(call.line_count() <= MOST_LINES, 4);
    must(admits_component(call.wish.x), 6);
    must(admits_component(call.wish.y), 6);
    must(admits_length(call.limit), 6);
    for (point, direction) in call.lines() {
        faults.extend(line_faults(point, direction));
    }
    faults
}

/// Every fault of a line.
pub fn line_faults(point: Vec2, direction: Vec2) -> Vec<u32> {
    let mut faults = Vec::new();
    let mut must = |rule: bool, number: u32| {
        if !rule {
            faults.push(number);
        }
    };
    must(admits_line_component(point.x), 6);
    must(admits_line_component(point.y), 6);
    must(direction.x.is_finite(), 6);
    must(direction.y.is_finite(), 6);
    must(admits_direction(direction), 7);
    faults
}

/// Of a position, velocity, wish or vertex.
pub fn admits_component(number: f32) -> bool {
    number.abs() <= REACH
}

/// A speed limit or margin.
pub fn admits_length(number: f32) -> bool {
    (0.0..=LONGEST).contains(&number)
}

/// Of a line's point.
pub fn admits_line_component(number: f32) -> bool {
    number.abs() <= LINE_REACH
}

/// Of finite components.
pub fn admits_direction(direction: Vec2) -> bool {
    (BAND_LOW..=BAND_HIGH).contains(&direction.dot(direction))
}
