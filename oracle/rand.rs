//! A stand-in for the crate `rand`: the given lib.rs draws an angle for two agents in one place that move alike. Nothing
//! random may stand in a set of vectors, so nothing here asks for such agents.

pub fn random() -> f32 {
    panic!("two agents in one place that move alike: their line is left to chance")
}
