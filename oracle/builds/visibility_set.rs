//! The name that the given lib.rs hands on from its visibility set, which is not part of what is asked.

pub struct VisibilitySet;
