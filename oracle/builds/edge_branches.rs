//! Which branches of obstacles.rs the counted build took since the last reset, one set for each thread. They are noted
//! from the text that edge_hooks.rs inserts: `take` stands in the branch itself, each function before the tests it names.

use std::cell::Cell;

use glam::Vec2;

#[derive(Clone, Copy, PartialEq, Debug)]
pub enum EdgeBranch {
    // Vertices.
    ClosedConvex,
    ClosedConcave,
    OpenConvex,
    OpenConcave,
    OpenEnd,
    Straight,
    // Before the edge's line.
    BackSide,
    InLine,
    Covered,
    CoveredByLaterLine,
    ExactlyDeep,
    JustNotDeep,
    LeftAloneDeep,
    RightAloneDeep,
    NotCovered,
    // The collisions.
    EdgeTimeNan,
    EdgeTimeInfinite,
    EdgeTimeZero,
    EdgeTimeOne,
    LeftAtMargin,
    RightAtMargin,
    EdgeAtMargin,
    LeftJustOutside,
    RightJustOutside,
    EdgeJustOutside,
    OnEdge,
    LeftCornerConvex,
    LeftCornerConcave,
    RightCornerConcave,
    RightCornerOfNextEdge,
    RightCornerAtEnd,
    RightCornerOtherSide,
    RightCornerInLine,
    EdgeHit,
    // The shadows.
    LeftShadowsConvex,
    LeftShadowsConcave,
    RightShadowsConvex,
    RightShadowsConcave,
    NeitherLeftConvex,
    NeitherLeftConcave,
    NeitherRightConvex,
    NeitherRightConcave,
    LegOfNegative,
    LegOfZero,
    LeftCovered,
    LeftNotCovered,
    LeftNoNeighbour,
    LeftConcave,
    LeftEdgeInLine,
    RightCovered,
    RightNotCovered,
    RightNoNeighbour,
    RightConcave,
    RightEdgeInLine,
    // The cutoff.
    DegenerateEdge,
    DegenerateByExchange,
    CutoffTimeNan,
    CutoffTimeInfinite,
    CutoffTimeZero,
    CutoffTimeOne,
    LeftTimeNan,
    LeftTimeZero,
    RightTimeNan,
    RightTimeZero,
    LeftCutoffByTime,
    LeftCutoffByDegenerate,
    RightCutoff,
    CutoffInfinite,
    LeftInfinite,
    RightInfinite,
    AllInfinite,
    CutoffNearAsShadow,
    ShadowsEquallyNear,
    ChoseCutoff,
    ChoseLeft,
    ChoseLeftCovered,
    ChoseRight,
    ChoseRightCovered,
}

use EdgeBranch::*;

/// A bit for each branch.
#[derive(Clone, Copy, PartialEq, Debug)]
pub struct EdgeBranches(u128);

impl EdgeBranches {
    pub fn took(self, branch: EdgeBranch) -> bool {
        self.0 >> branch as u32 & 1 == 1
    }
}

thread_local! {
    static TAKEN: Cell<u128> = const { Cell::new(0) };
}

pub fn taken() -> EdgeBranches {
    EdgeBranches(TAKEN.get())
}

pub(super) fn reset() {
    TAKEN.set(0);
}

impl EdgeBranch {
    pub fn take(self) {
        TAKEN.set(TAKEN.get() | 1 << self as u32);
    }

    fn take_if(self, test: bool) {
        if test {
            self.take();
        }
    }
}

/// `turn` is the determinant of the edges to the right and to the left vertex.
pub fn vertex(closed: bool, turn: f32, left: Vec2, center: Vec2, right: Vec2) {
    let (convex, concave) = if closed {
        (ClosedConvex, ClosedConcave)
    } else {
        (OpenConvex, OpenConcave)
    };
    if turn >= 0.0 { convex } else { concave }.take();
    Straight.take_if(turn == 0.0 && left != center && center != right && left != right);
}

pub fn in_front(side: f32) {
    InLine.take_if(side == 0.0);
}

pub fn earlier_line(first: bool, left: f32, right: f32, deep: f32) {
    let (left_deep, right_deep) = (left >= deep, right >= deep);
    CoveredByLaterLine.take_if(left_deep && right_deep && !first);
    LeftAloneDeep.take_if(left_deep && !right_deep);
    RightAloneDeep.take_if(right_deep && !left_deep);
    ExactlyDeep.take_if(left_deep && right_deep && (left == deep || right == deep));
    let just_not = deep.next_down();
    JustNotDeep.take_if(left.min(right) == just_not && left.max(right) >= just_not);
}

pub fn not_covered(earlier_lines: usize) {
    NotCovered.take_if(earlier_lines > 0);
}

pub fn edge_time(t: f32) {
    EdgeTimeNan.take_if(t.is_nan());
    EdgeTimeInfinite.take_if(t.is_infinite());
    EdgeTimeZero.take_if(t == 0.0);
    EdgeTimeOne.take_if(t == 1.0);
}

/// `distances` are squared: to the left vertex, to the right one, to the edge's line.
pub fn distances(t: f32, distances: [f32; 3], squared_radius: f32) {
    let [left, right, line] = distances;
    let within = (0.0..=1.0).contains(&t);
    let above = squared_radius.next_up();
    OnEdge.take_if(0.0 < t && t < 1.0 && line == 0.0);
    if squared_radius > 0.0 {
        LeftAtMargin.take_if(t < 0.0 && left == squared_radius);
        RightAtMargin.take_if(t > 1.0 && right == squared_radius);
        EdgeAtMargin.take_if(within && line == squared_radius);
        LeftJustOutside.take_if(t < 0.0 && left == above);
        RightJustOutside.take_if(t > 1.0 && right == above);
        EdgeJustOutside.take_if(within && line == above);
    }
}

/// `side` is the determinant of the vertex and the next edge, where there is one.
pub fn right_corner(side: Option<f32>) {
    match side {
        Some(_) => RightCornerOtherSide,
        None => RightCornerAtEnd,
    }
    .take();
    RightCornerInLine.take_if(side == Some(0.0));
}

pub fn leg(squared: f32) {
    LegOfNegative.take_if(squared < 0.0);
    LegOfZero.take_if(squared == 0.0);
}

/// `side` is the determinant of the shadow and the edge beyond, where there is one.
pub fn left_shadow(convex: bool, side: Option<f32>) {
    match (convex, side) {
        (false, _) => LeftConcave,
        (true, None) => LeftNoNeighbour,
        (true, Some(side)) if side >= 0.0 => LeftCovered,
        (true, Some(_)) => LeftNotCovered,
    }
    .take();
    LeftEdgeInLine.take_if(convex && side == Some(0.0));
}

pub fn right_shadow(convex: bool, side: Option<f32>) {
    match (convex, side) {
        (false, _) => RightConcave,
        (true, None) => RightNoNeighbour,
        (true, Some(side)) if side <= 0.0 => RightCovered,
        (true, Some(_)) => RightNotCovered,
    }
    .take();
    RightEdgeInLine.take_if(convex && side == Some(0.0));
}

/// The edge's vector is that of its own vertices, before one of them stands for both.
pub fn degenerate(is_degenerate: bool, edge_vector: Vec2) {
    if is_degenerate {
        if edge_vector == Vec2::ZERO {
            DegenerateEdge
        } else {
            DegenerateByExchange
        }
        .take();
    }
}

pub fn times(cutoff: f32, left: f32, right: f32) {
    CutoffTimeNan.take_if(cutoff.is_nan());
    CutoffTimeInfinite.take_if(cutoff.is_infinite());
    CutoffTimeZero.take_if(cutoff == 0.0);
    CutoffTimeOne.take_if(cutoff == 1.0);
    LeftTimeNan.take_if(left.is_nan());
    LeftTimeZero.take_if(left == 0.0);
    RightTimeNan.take_if(right.is_nan());
    RightTimeZero.take_if(right == 0.0);
}

pub fn left_cutoff(t_cutoff: f32) {
    if t_cutoff < 0.0 {
        LeftCutoffByTime
    } else {
        LeftCutoffByDegenerate
    }
    .take();
}

pub fn last_choice(cutoff: f32, left: f32, right: f32) {
    CutoffInfinite.take_if(cutoff.is_infinite());
    LeftInfinite.take_if(left.is_infinite());
    RightInfinite.take_if(right.is_infinite());
    AllInfinite.take_if(cutoff.is_infinite() && left.is_infinite() && right.is_infinite());
    let finite = |number: f32| number.is_finite();
    CutoffNearAsShadow.take_if(finite(cutoff) && cutoff == left.min(right));
    ShadowsEquallyNear.take_if(finite(left) && left == right && !(cutoff <= left));
}
