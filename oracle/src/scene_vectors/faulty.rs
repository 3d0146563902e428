//! Records with one to three faults, so that the order of the faults decides as well: numbers out of their ranges,
//! bytes replaced, cut off or left over. The judge says what a record gets, so one that is still admitted does no harm.

use super::drawn_numbers;
use super::layouts::ordinary;
use crate::list_vectors::judge::{LINE_REACH, LONGEST, REACH};
use crate::list_vectors::refused::too_large;
use crate::random::Random;
use crate::records::{
    numbered_record, scene_record, with_length, LONGEST_NUMBERED, LONGEST_REST,
};
use crate::scenes::Scene;

type Spoil = fn(&mut Random, &mut Vec<u8>);

const SPOILS: [Spoil; 5] = [any_byte, any_byte, small_byte, cut, left_over];

pub fn spoiled(random: &mut Random) -> Vec<u8> {
    let scene = spoiled_scene(random);
    spoiled_record(random, scene_record(&scene))
}

/// A record of version 2.
pub fn spoiled_numbered(random: &mut Random) -> Vec<u8> {
    let scene = spoiled_scene(random);
    let numbers = drawn_numbers(random, &scene);
    spoiled_record(random, numbered_record(&scene, &numbers))
}

fn spoiled_scene(random: &mut Random) -> Scene {
    let mut scene = ordinary(random);
    for _ in 0..random.below(3) {
        out_of_range(random, &mut scene);
    }
    scene
}

fn spoiled_record(random: &mut Random, mut record: Vec<u8>) -> Vec<u8> {
    let mut rest = record.split_off(2);
    for _ in 0..random.below(3) {
        let spoil = random.pick(&SPOILS);
        spoil(random, &mut rest);
    }
    with_length(rest)
}

/// A length field over the limit, with all its bytes.
pub fn overlong(random: &mut Random) -> Vec<u8> {
    let mut rest = spoiled(random).split_off(2);
    rest.resize(LONGEST_REST + 1 + random.below(60), 0);
    with_length(rest)
}

/// A length over that of version 2.
pub fn overlong_numbered(random: &mut Random) -> Vec<u8> {
    let mut rest = spoiled_numbered(random).split_off(2);
    rest.resize(LONGEST_NUMBERED + 1 + random.below(60), 0);
    with_length(rest)
}

/// One of the scene's numbers, in any place.
fn out_of_range(random: &mut Random, scene: &mut Scene) {
    let mut numbers: Vec<(&mut f32, f32)> = Vec::new();
    for vector in [&mut scene.position, &mut scene.velocity, &mut scene.wish] {
        numbers.extend([(&mut vector.x, REACH), (&mut vector.y, REACH)]);
    }
    for length in [&mut scene.margin, &mut scene.horizon, &mut scene.limit] {
        numbers.push((length, LONGEST));
    }
    for obstacle in &mut scene.obstacles {
        for vertex in &mut obstacle.vertices {
            numbers.extend([(&mut vertex.x, REACH), (&mut vertex.y, REACH)]);
        }
    }
    for (point, direction) in &mut scene.lines {
        numbers.extend([(&mut point.x, LINE_REACH), (&mut point.y, LINE_REACH)]);
        numbers.extend([(&mut direction.x, 1.0), (&mut direction.y, 1.0)]);
    }
    let place = random.below(numbers.len());
    let (number, most) = &mut numbers[place];
    **number = too_large(random, *most);
}

fn any_byte(random: &mut Random, rest: &mut Vec<u8>) {
    let place = random.below(rest.len());
    rest[place] = random.bits() as u8;
}

/// Among the first fields, where version and counts stand.
fn small_byte(random: &mut Random, rest: &mut Vec<u8>) {
    let place = random.pick(&[0, 37, 38, 39]).min(rest.len() - 1);
    rest[place] = random.below(4) as u8;
}

/// The version is left.
fn cut(random: &mut Random, rest: &mut Vec<u8>) {
    let kept = 1 + random.below(rest.len());
    rest.truncate(kept);
}

fn left_over(random: &mut Random, rest: &mut Vec<u8>) {
    for _ in 0..1 + random.below(4) {
        rest.push(random.below(4) as u8);
    }
}
