//! The lines that lib.rs makes of neighbours, handed in ready made, give the same answers.

use super::Outcome;
use crate::random::Random;
use crate::scene_vectors::{ask_scene, with_agents};
use crate::scenes::Scene;

const SEED: u64 = 2;
const SCENES: usize = 2_000;

pub fn check() -> Outcome {
    let mut random = Random::new(SEED);
    for _ in 0..SCENES {
        let scene = with_agents(&mut random);
        let ready_made = Scene {
            neighbours: None,
            ..scene.clone()
        };
        let shown = format!("{scene}");
        let (made, ready_made) = (ask_scene(scene)?, ask_scene(ready_made)?);
        if made.answer().record() != ready_made.answer().record() {
            return Err(format!(
                "another answer to lines that come ready made: {shown}"
            ));
        }
    }
    Ok(format!("{SCENES} scenes"))
}
