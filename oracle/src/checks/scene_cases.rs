//! Scene and answer records in bytes: the whole example of the definition of the build, and scenes whose second pass
//! decides or that are refused.

use super::Outcome;
use crate::scene_vectors::ask_record;
use crate::words::hex_bytes;

/// Name, scene record, answer record.
const CASES: [(&str, &str, &str); 6] = [
    (
        "the whole example",
        "003901000000000000000000000000000000003F0000003F800000000000003F80000040000000\
         010202BF8000003F8000003F8000003F80000000",
        "00100101000000003F000000FFFF00000001",
    ),
    (
        "9 in the first pass, vertices apart",
        "00390100000000000000003DB68D80BF49E3E83F7844143F80000000000000000000003F800000\
         010202BF9961B6BF4C168EBF70E3003E70518600",
        "00020189",
    ),
    (
        "9 in the second pass only",
        "0039013EB7E080BF4EDA8DC0B9E808BF6899003FF9E8213F000000BF9592EE3F77A34D3E636F24\
         010102BF5E98FE3F35946BBFF0AAB7BDDF772F00",
        "00020189",
    ),
    (
        "P12, vertex (5,0)",
        "003101000000000000000000000000000000003F8000003F800000000000000000000000000000\
         01010140A000000000000000",
        "0002018E",
    ),
    (
        "P12, vertex (0.5,0)",
        "003101000000000000000000000000000000003F8000003F800000000000000000000000000000\
         0101013F0000000000000000",
        "0002018E",
    ),
    (
        "outcome 3",
        "0041010000000000000000C0400000C04000003F0000003F00000000000000000000003F800000\
         010103BF80000000000000C0400000000000003F8000000000000000",
        "001001030000000000000000FFFF00000004",
    ),
];

pub fn check() -> Outcome {
    for (name, scene, answer) in CASES {
        let given = hex_bytes(&ask_record(bytes(scene))?.answer().record());
        if given != answer {
            return Err(format!("{name} gives {given}, not {answer}"));
        }
    }
    Ok(format!("{} cases", CASES.len()))
}

fn bytes(hex: &str) -> Vec<u8> {
    let pairs = hex.as_bytes().chunks(2);
    let digit = |byte: u8| (byte as char).to_digit(16).unwrap_or(0) as u8;
    pairs
        .map(|pair| digit(pair[0]) << 4 | digit(pair[1]))
        .collect()
}
