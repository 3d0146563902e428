// An independent count of answer logs, and logs to count: written from 02's T-02 and 01's records, with nothing of ours.
// usage: tallies page < LOG                  the page that ./tally writes of it, or its line `refused R at N`
//        tallies draw SEED RECORDS [FAULT]   a log of so many records; with FAULT, 0 to 255, one of them is spoilt
use std::io::{self, BufRead, BufReader, BufWriter, Read, Write};

const OUTCOMES: [&str; 5] = [
    "every line is met",
    "neighbours' lines were relaxed",
    "as 1, the cart taken at rest",
    "as 2, the cart taken at rest",
    "walls cannot be met at rest either",
];

// The refusals that an answer may have, and what each says.
const REFUSALS: [(u8, &str); 11] = [
    (1, "the version is not 1"),
    (2, "bytes are missing or left over"),
    (3, "an obstacle is neither closed nor open"),
    (4, "a count or the length is over its limit"),
    (5, "an open obstacle has no vertices"),
    (6, "a number is not finite or out of its range"),
    (7, "a line's direction is out of its band"),
    (8, "the ends of an interval are not in order"),
    (9, "an edge's line breaks the admission of lines"),
    (10, "an answer buffer is too short"),
    (14, "an obstacle has a doubled vertex"),
];

#[derive(Default)]
struct Page {
    by_code: Vec<u128>,
    sum: u128,
    largest: u32,
    failed: u128,
}

// Reads as much as there is, up to the buffer's end.
fn fill(input: &mut impl Read, buffer: &mut [u8]) -> io::Result<usize> {
    let mut have = 0;
    while have < buffer.len() {
        match input.read(&mut buffer[have..])? {
            0 => break,
            n => have += n,
        }
    }
    Ok(have)
}

// The page, or the number and the place of the first bad record.
fn count(input: &mut impl BufRead) -> io::Result<Result<Page, (u8, u64)>> {
    let mut page = Page { by_code: vec![0; 256], ..Page::default() };
    let mut place = 0u64;
    loop {
        if input.fill_buf()?.is_empty() {
            return Ok(Ok(page));
        }
        if place == u64::from(u32::MAX) {
            return Ok(Err((4, place)));
        }
        let mut head = [0u8; 2];
        if fill(input, &mut head)? < 2 {
            return Ok(Err((2, place)));
        }
        let length = u16::from_be_bytes(head);
        if length != 16 && length != 2 {
            return Ok(Err((2, place)));
        }
        let mut rest = vec![0u8; usize::from(length)];
        if fill(input, &mut rest)? < rest.len() {
            return Ok(Err((2, place)));
        }
        if rest[0] != 1 {
            return Ok(Err((1, place)));
        }
        let code = rest[1];
        let is_outcome = (1..=5).contains(&code);
        let is_refusal = REFUSALS.iter().any(|&(number, _)| code.checked_sub(128) == Some(number));
        if !(length == 16 && is_outcome || length == 2 && is_refusal) {
            return Ok(Err((2, place)));
        }
        page.by_code[usize::from(code)] += 1;
        if length == 16 {
            let probes = u32::from_be_bytes([rest[12], rest[13], rest[14], rest[15]]);
            page.sum += u128::from(probes);
            page.largest = page.largest.max(probes);
            page.failed += u128::from(rest[10..12] != [0xFF, 0xFF]);
        }
        place += 1;
    }
}

fn tell(told: Result<Page, (u8, u64)>, out: &mut impl Write) -> io::Result<()> {
    let page = match told {
        Err((number, place)) => return writeln!(out, "refused {number} at {place}"),
        Ok(page) => page,
    };
    for (code, meaning) in (1..).zip(OUTCOMES) {
        writeln!(out, "outcome {code}, {meaning}: {}", page.by_code[code])?;
    }
    for (number, meaning) in REFUSALS {
        writeln!(out, "refusal {number}, {meaning}: {}", page.by_code[128 + usize::from(number)])?;
    }
    writeln!(out, "probes, their sum: {}", page.sum)?;
    writeln!(out, "probes, the largest of one answer: {}", page.largest)?;
    writeln!(out, "answers that name a failed line: {}", page.failed)
}

// Numbers drawn from a seed (splitmix64).
struct Draw(u64);

impl Draw {
    fn next(&mut self) -> u64 {
        self.0 = self.0.wrapping_add(0x9E37_79B9_7F4A_7C15);
        let a = (self.0 ^ (self.0 >> 30)).wrapping_mul(0xBF58_476D_1CE4_E5B9);
        let b = (a ^ (a >> 27)).wrapping_mul(0x94D0_49BB_1331_11EB);
        b ^ (b >> 31)
    }

    fn below(&mut self, n: u64) -> u64 {
        self.next() % n
    }
}

fn record(draw: &mut Draw) -> Vec<u8> {
    if draw.below(3) == 0 {
        let (number, _) = REFUSALS[draw.below(REFUSALS.len() as u64) as usize];
        return vec![0, 2, 1, 128 + number];
    }
    let mut bytes = vec![0, 16, 1, 1 + draw.below(5) as u8];
    bytes.extend(draw.next().to_be_bytes());
    let failed = if draw.below(2) == 0 { 0xFFFF } else { draw.next() as u16 };
    bytes.extend(failed.to_be_bytes());
    let probes = match draw.below(4) {
        0 => u32::MAX,
        1 => 0,
        _ => draw.next() as u32 >> draw.below(32),
    };
    bytes.extend(probes.to_be_bytes());
    bytes
}

// Spoils a record: a byte of its head is the fault, or it ends early.
fn spoil(bytes: &mut Vec<u8>, fault: u8, draw: &mut Draw) {
    match draw.below(5) {
        4 => bytes.truncate(draw.below(bytes.len() as u64) as usize),
        place => bytes[place as usize] = fault,
    }
}

fn main() -> io::Result<()> {
    let words: Vec<String> = std::env::args().skip(1).collect();
    let number = |place: usize| words.get(place).and_then(|word| word.parse::<u64>().ok());
    let out = &mut BufWriter::with_capacity(1 << 16, io::stdout().lock());
    match (words.first().map(String::as_str), number(1), number(2)) {
        (Some("page"), None, None) => {
            let input = &mut BufReader::with_capacity(1 << 16, io::stdin().lock());
            tell(count(input)?, out)
        }
        (Some("draw"), Some(seed), Some(records)) => {
            let draw = &mut Draw(seed);
            let spoilt = draw.below(records.max(1));
            for place in 0..records {
                let mut bytes = record(draw);
                if let (Some(fault), true) = (number(3), place == spoilt) {
                    spoil(&mut bytes, fault as u8, draw);
                }
                out.write_all(&bytes)?;
            }
            out.flush()
        }
        _ => {
            eprintln!("usage: tallies page < LOG, tallies draw SEED RECORDS [FAULT]");
            std::process::exit(2);
        }
    }
}
