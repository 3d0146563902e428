//! The whole example of docs/RECORDS.md in process: docs/LIBRARY.md says how it is built.
use boltmeadow::{answer_record, write_scene, Cart, Obstacles, Refusal, SCENE_BYTES};

fn main() -> Result<(), Refusal> {
    let cart = Cart { margin: 0.5, horizon: 1.0, wish: [0.0, 1.0], limit: 2.0, ..Cart::default() };
    let wall = Obstacles { obstacles: 1, kinds: &[2], counts: &[2], vertices: &[-1.0, 1.0, 1.0, 1.0] };
    let mut scene = [0; SCENE_BYTES];
    let length = write_scene(cart, wall, &[], &mut scene)?;
    let answer = answer_record(&scene[..length])?;
    println!("outcome {}, velocity {:?}", answer.outcome, answer.velocity);
    Ok(())
}
