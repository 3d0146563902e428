//! Which branches the counted build took since the last reset, one set for each thread. The functions that
//! note them are called from the text that hooks.rs inserts; each repeats the tests that follow it there.

use std::cell::Cell;

use super::causes;

/// The solver's tolerance for parallel lines, 0.00001.
const TOLERANCE: f32 = f32::from_bits(0x3727_C5AC);

#[derive(Clone, Copy, PartialEq, Debug)]
pub enum Branch {
    // The one-line solve.
    OutsideCircle,
    TouchesCircle,
    ParallelFails,
    ParallelSkipped,
    ParallelAtTolerance,
    JustNotParallel,
    RightCapped,
    LeftRaised,
    Crossed,
    UnlikeZeros,
    ClampedLeft,
    ClampedRight,
    NotClamped,
    DirectionRight,
    DirectionLeft,
    // The 2D pass.
    Met,
    ExactlyZero,
    ExactlyZeroInside,
    // Relaxation.
    PassedOver,
    PassedOverExactly,
    TightenedSkipped,
    TightenedMidpoint,
    TightenedIntersection,
    TightenedAtTolerance,
    PenetrationFalls,
}

/// A bit for each branch.
#[derive(Clone, Copy, PartialEq, Debug)]
pub struct Branches(u32);

impl Branches {
    pub fn took(self, branch: Branch) -> bool {
        self.0 >> branch as u32 & 1 == 1
    }
}

thread_local! {
    static TAKEN: Cell<u32> = const { Cell::new(0) };
    static LAST_PENETRATION: Cell<f32> = const { Cell::new(0.0) };
}

pub fn taken() -> Branches {
    Branches(TAKEN.get())
}

pub(super) fn reset() {
    TAKEN.set(0);
    LAST_PENETRATION.set(0.0);
}

fn take(branch: Branch) {
    TAKEN.set(TAKEN.get() | 1 << branch as u32);
}

fn take_if(test: bool, branch: Branch) {
    if test {
        take(branch);
    }
}

pub fn circle(discriminant: f32) {
    causes::circle(discriminant < 0.0);
    take_if(discriminant < 0.0, Branch::OutsideCircle);
    take_if(discriminant == 0.0, Branch::TouchesCircle);
}

pub fn earlier_line(determinant: f32, numerator: f32) {
    let size = determinant.abs();
    causes::earlier_line(size <= TOLERANCE && numerator < 0.0);
    if size <= TOLERANCE {
        take(if numerator < 0.0 {
            Branch::ParallelFails
        } else {
            Branch::ParallelSkipped
        });
    }
    take_if(size == TOLERANCE, Branch::ParallelAtTolerance);
    take_if(size == TOLERANCE.next_up(), Branch::JustNotParallel);
}

/// Minimum and maximum of two zeros of unlike sign are the one place where the Rust leaves bits open.
pub fn cut(determinant: f32, left: f32, right: f32, t: f32) {
    let end = if determinant >= 0.0 {
        take(Branch::RightCapped);
        right
    } else {
        take(Branch::LeftRaised);
        left
    };
    let unlike = end == 0.0 && t == 0.0 && end.is_sign_negative() != t.is_sign_negative();
    take_if(unlike, Branch::UnlikeZeros);
}

pub fn ends(left: f32, right: f32) {
    causes::ends(left > right);
    take_if(left > right, Branch::Crossed);
}

pub fn clamped(t: f32, left: f32, right: f32) {
    take(if t < left {
        Branch::ClampedLeft
    } else if t > right {
        Branch::ClampedRight
    } else {
        Branch::NotClamped
    });
}

pub fn direction_end(dot: f32) {
    take(if dot > 0.0 {
        Branch::DirectionRight
    } else {
        Branch::DirectionLeft
    });
}

/// `inside`: in the inner solve of a relaxed line.
pub fn compared(inside: bool, determinant: f32) {
    take_if(determinant > 0.0, Branch::Met);
    take_if(determinant == 0.0 && !inside, Branch::ExactlyZero);
    take_if(determinant == 0.0 && inside, Branch::ExactlyZeroInside);
}

pub fn relaxed(depth: f32, penetration: f32) {
    take_if(depth <= penetration, Branch::PassedOver);
    take_if(depth == penetration, Branch::PassedOverExactly);
    penetration_now(penetration);
}

/// Falls from above 0 to above 0, so that a negative one is not counted here.
pub(super) fn penetration_now(penetration: f32) {
    let falls = 0.0 < penetration && penetration < LAST_PENETRATION.get();
    take_if(falls, Branch::PenetrationFalls);
    LAST_PENETRATION.set(penetration);
}

pub fn tightened(determinant: f32, dot: f32) {
    let size = determinant.abs();
    take(if size > TOLERANCE {
        Branch::TightenedIntersection
    } else if dot > 0.0 {
        Branch::TightenedSkipped
    } else {
        Branch::TightenedMidpoint
    });
    take_if(size == TOLERANCE, Branch::TightenedAtTolerance);
}
