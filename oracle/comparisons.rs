// An independent comparison of two logs of answers, and partners' logs to compare: written from 02's T-09 and 01's records, with
// nothing of ours.
// usage: comparisons verdict OURS THEIRS         the lines that ./compare writes where the scenes are answered as in OURS
// comparisons alter WAY PLACE < LOG       the log with one record changed in one way, named below: of those that can be
// changed so
//                                                that at the place, from 0, or the last; it fails where none can
//        comparisons draw SEED < LOG             the log with up to three records changed, at drawn places and in drawn ways
//        comparisons records FROM COUNT < SCENES so many records from that one on, each as long as its first two bytes say
use std::io::{self, Read, Write};

type Outcome = (u8, u32, u32, u16, u32);

#[derive(Clone, PartialEq)]
enum Record {
    Outcome(Outcome),
    Refusal(u8),
}

fn word(bytes: &[u8], at: usize) -> u32 {
    u32::from_be_bytes([bytes[at], bytes[at + 1], bytes[at + 2], bytes[at + 3]])
}

// The record at the start and the bytes that it takes; its own fault; or nothing.
fn read(log: &[u8]) -> Option<Result<(Record, usize), u8>> {
    if log.is_empty() {
        return None;
    }
    if log.len() < 2 {
        return Some(Err(2));
    }
    let size = 2 + usize::from(log[0]) * 256 + usize::from(log[1]);
    if (size != 18 && size != 4) || log.len() < size {
        return Some(Err(2));
    }
    let (version, code) = (log[2], log[3]);
    if version != 1 {
        return Some(Err(1));
    }
    let record = match (size, code) {
        (18, 1..=5) => Record::Outcome((code, word(log, 4), word(log, 8), (word(log, 12) >> 16) as u16, word(log, 14))),
        (4, 129..=138 | 142) => Record::Refusal(code - 128),
        _ => return Some(Err(2)),
    };
    Some(Ok((record, size)))
}

// By value, but that NaNs are told apart by their bits.
fn same(a: u32, b: u32) -> bool {
    let (x, y) = (f32::from_bits(a), f32::from_bits(b));
    x == y || a == b
}

fn line(number: u16) -> String {
    if number == 0xffff { "none".to_string() } else { number.to_string() }
}

fn outcomes(a: Outcome, b: Outcome) -> Option<String> {
    let fields = [
        (a.0 == b.0, "outcome", a.0.to_string(), b.0.to_string()),
        (same(a.1, b.1), "x", format!("{:08x}", a.1), format!("{:08x}", b.1)),
        (same(a.2, b.2), "y", format!("{:08x}", a.2), format!("{:08x}", b.2)),
        (a.3 == b.3, "failed line", line(a.3), line(b.3)),
        (a.4 == b.4, "probes", a.4.to_string(), b.4.to_string()),
    ];
    fields.into_iter().find(|field| !field.0).map(|(_, name, mine, other)| format!("{name}: ours {mine}, theirs {other}"))
}

fn difference(a: &Record, b: &Record) -> Option<String> {
    match (a, b) {
        (Record::Outcome(a), Record::Outcome(b)) => outcomes(*a, *b),
        (Record::Refusal(a), Record::Refusal(b)) if a == b => None,
        (Record::Refusal(a), Record::Refusal(b)) => Some(format!("refusal: ours {a}, theirs {b}")),
        (Record::Outcome(a), Record::Refusal(b)) => Some(format!("answer: ours outcome {}, theirs refusal {b}", a.0)),
        (Record::Refusal(a), Record::Outcome(b)) => Some(format!("answer: ours refusal {a}, theirs outcome {}", b.0)),
    }
}

fn verdict(mut ours: &[u8], mut theirs: &[u8]) -> String {
    let mut place = 0u64;
    loop {
        let mine = read(ours).map(|r| r.expect("our own log can be read"));
        let told = match (mine, read(theirs)) {
            (_, Some(Err(fault))) => return format!("refused {fault} at {place}\n"),
            (None, None) => return "all agree\n".to_string(),
            (None, Some(Ok(_))) => Some("record: ours has none".to_string()),
            (Some(_), None) => Some("record: theirs has none".to_string()),
            (Some((a, j)), Some(Ok((b, k)))) => {
                let told = difference(&a, &b);
                ours = &ours[j..];
                theirs = &theirs[k..];
                told
            }
        };
        if let Some(how) = told {
            return format!("differs at {place}\n{how}\n");
        }
        place += 1;
    }
}

// Where the record at a place begins and ends; the log's end where there is none.
fn span(log: &[u8], place: usize) -> (usize, usize) {
    let mut at = 0;
    for _ in 0..place {
        if at < log.len() {
            at += 2 + usize::from(log[at + 1]);
        }
    }
    if at < log.len() { (at, at + 2 + usize::from(log[at + 1])) } else { (at, at) }
}

const WAYS: [&str; 16] = [
    "outcome", "x", "y", "failed", "probes", "refusal", "kind", "zeros", "missing", "surplus", "cut", "version", "code", "length", "nan", "long",
];

// Where all records begin, and the log's end.
fn starts(log: &[u8]) -> Vec<usize> {
    let mut all = vec![0];
    let mut at = 0;
    while at < log.len() {
        let rest = log.get(at + 1).map_or(0, |&low| usize::from(log[at]) * 256 + usize::from(low));
        at = log.len().min(at + 2 + rest);
        all.push(at);
    }
    all
}

// Whether the way changes this record: fields and zeros are an outcome's, a refusal's number a refusal's. Behind the
// last there is only room for more.
fn fits(way: &str, record: &[u8]) -> bool {
    let outcome = record.len() == 18;
    match way {
        "surplus" => true,
        _ if record.is_empty() => false,
        "outcome" | "x" | "y" | "failed" | "probes" | "nan" => outcome,
        "zeros" => outcome && (word(record, 4) << 1 == 0 || word(record, 8) << 1 == 0),
        "refusal" => !outcome,
        _ => true,
    }
}

// The record that a way changes: the one at the place among those that it fits, or the last of them.
fn fitting(log: &[u8], way: &str, place: usize) -> Option<usize> {
    let starts = starts(log);
    let record = |n: usize| &log[starts[n]..starts.get(n + 1).copied().unwrap_or(log.len())];
    let mut found = (0..starts.len()).filter(|&n| fits(way, record(n)));
    let first = found.nth(place);
    first.or_else(|| (0..starts.len()).rev().find(|&n| fits(way, record(n))))
}

// Changes the record at a place, where the way fits it.
fn alter(log: &mut Vec<u8>, way: &str, place: usize) {
    let (at, end) = span(log, place);
    if !fits(way, &log[at..end]) {
        return;
    }
    let outcome = end - at == 18;
    match way {
        "surplus" => drop(log.splice(at..at, [0, 2, 1, 134])),
        _ if at == end => {}
        "missing" => drop(log.drain(at..end)),
        "cut" => log.truncate(end - 1),
        "version" => log[at + 2] = 2,
        "code" => log[at + 3] = 139,
        "length" => log[at + 1] ^= 7,
        "long" => log[at] = 1,
        "kind" if outcome => drop(log.splice(at..end, [0, 2, 1, 130])),
        "kind" => drop(log.splice(at..end, [0, 16, 1, 1, 0, 0, 0, 0, 0, 0, 0, 0, 255, 255, 0, 0, 0, 0])),
        "outcome" if outcome => log[at + 3] = log[at + 3] % 5 + 1,
        "x" if outcome => log[at + 7] ^= 1,
        "y" if outcome => log[at + 8] ^= 128,
        "failed" if outcome => log[at + 13] ^= 1,
        "probes" if outcome => log[at + 14] ^= 1,
        "nan" if outcome => log[at + 4..at + 8].copy_from_slice(&[0x7f, 0xc0, 0, 0]),
        "zeros" if outcome => {
            for sign in [at + 4, at + 8] {
                if word(log, sign) << 1 == 0 {
                    log[sign] ^= 128;
                }
            }
        }
        "refusal" if !outcome => log[at + 3] = 129 + (log[at + 3] - 128) % 10,
        _ => {}
    }
}

fn draw(log: &mut Vec<u8>, mut seed: u64) {
    let mut next = |below: usize| {
        seed = seed.wrapping_mul(6364136223846793005).wrapping_add(1442695040888963407);
        (seed >> 33) as usize % below
    };
    let records = { let mut n = 0; let mut at = 0; while at < log.len() { at = span(&log[at..], 0).1 + at; n += 1; } n };
    for _ in 0..next(4) {
        let way = WAYS[next(WAYS.len())];
        let place = next(records + 1);
        alter(log, way, place);
        // What is unreadable ends every walk: nothing behind it is changed.
        if ["cut", "version", "code", "length", "long"].contains(&way) {
            return;
        }
    }
}

fn main() -> io::Result<()> {
    let words: Vec<String> = std::env::args().skip(1).collect();
    let words: Vec<&str> = words.iter().map(String::as_str).collect();
    if let ["verdict", ours, theirs] = words[..] {
        return io::stdout().write_all(verdict(&std::fs::read(ours)?, &std::fs::read(theirs)?).as_bytes());
    }
    let mut log = Vec::new();
    io::stdin().read_to_end(&mut log)?;
    match words[..] {
        ["alter", way, place] if WAYS.contains(&way) => {
            let place = fitting(&log, way, place.parse().expect("a place")).expect("a record that can be changed so");
            let before = log.clone();
            alter(&mut log, way, place);
            assert!(log != before, "{way} at {place}: nothing was changed");
        }
        ["records", from, count] => {
            let starts = starts(&log);
            let [from, count]: [usize; 2] = [from, count].map(|word| word.parse().expect("a number"));
            log = log[starts[from]..starts[from + count]].to_vec();
        }
        ["draw", seed] => draw(&mut log, seed.parse().expect("a seed")),
        _ => {
            eprintln!("comparisons: verdict OURS THEIRS, alter WAY PLACE, draw SEED or records FROM COUNT");
            std::process::exit(2);
        }
    }
    io::stdout().write_all(&log)
}
