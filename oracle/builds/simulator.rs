//! The names that the given lib.rs hands on from its simulator, which is not part of what is asked.

pub struct AgentParameters;
pub struct Simulator;
pub struct SimulatorMargin;
