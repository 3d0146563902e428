//! Compares two files of answer records, record by record. Two zeros agree whatever their sign, since the Rust leaves it open.

use std::collections::BTreeMap;
use std::{fs, iter};

use crate::records::answers::name_of;
use crate::records::Records;
use crate::words::hex_bytes;

/// Prints how many answers there are of each kind. Fails where there are none, and where any differ, with the first
/// one's index and, if `scenes` are given, its scene.
pub fn compare_files(answers: &str, others: &str, scenes: Option<&str>) -> Result<(), String> {
    let read = |file: &str| fs::read(file).map_err(|fault| format!("{file}: {fault}"));
    let (answers, others) = (read(answers)?, read(others)?);
    let scenes = scenes.map_or(Ok(Vec::new()), read)?;
    let pairs = pairs(&answers, &others);
    if pairs.is_empty() {
        return Err("no answers to compare".to_string());
    }
    print_counts(&pairs)?;
    let count = pairs.iter().filter(|pair| differ(pair)).count();
    if let Some(first) = pairs.iter().position(differ) {
        let (answer, other) = pairs[first];
        let [answer, other, scene] = [answer, other, Records(&scenes).nth(first)].map(shown);
        return Err(format!(
            "{count} answers differ, the first at {first}, counted from 0: {answer}, the other {other}; its scene {scene}"
        ));
    }
    let other_zeros = pairs.iter().filter(|(a, b)| a != b).count();
    println!(
        "all {} answers agree, {other_zeros} of them but for the sign of a zero",
        pairs.len()
    );
    Ok(())
}

/// The place of the first answers that differ.
pub fn first_difference(answers: &[u8], others: &[u8]) -> Option<usize> {
    pairs(answers, others).iter().position(differ)
}

fn differ((answer, other): &Pair) -> bool {
    answer.map(settled) != other.map(settled)
}

/// The answers at one place; none behind the end of the shorter file.
type Pair<'a> = (Option<&'a [u8]>, Option<&'a [u8]>);

fn pairs<'a>(answers: &'a [u8], others: &'a [u8]) -> Vec<Pair<'a>> {
    let (mut answers, mut others) = (Records(answers), Records(others));
    let next = || match (answers.next(), others.next()) {
        (None, None) => None,
        pair => Some(pair),
    };
    iter::from_fn(next).collect()
}

fn print_counts(pairs: &[Pair]) -> Result<(), String> {
    let mut counts: BTreeMap<String, u64> = BTreeMap::new();
    for answer in pairs.iter().filter_map(|(answer, _)| *answer) {
        *counts.entry(name_of(answer)?).or_default() += 1;
    }
    for (name, count) in counts {
        println!("{name}: {count}");
    }
    Ok(())
}

fn shown(record: Option<&[u8]>) -> String {
    record.map_or("none".to_string(), hex_bytes)
}

/// With every -0 of the point as +0.
fn settled(record: &[u8]) -> Vec<u8> {
    const MINUS_ZERO: [u8; 4] = [0x80, 0, 0, 0];
    let mut settled = record.to_vec();
    for place in [4, 8] {
        if settled.get(place..place + 4) == Some(&MINUS_ZERO) {
            settled[place] = 0;
        }
    }
    settled
}
