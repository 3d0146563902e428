// An independent move of scene records between their versions, and streams to move: written from 01's records and
// 02's T-07 and T-11, with nothing of ours. It reads a record to its fields and writes these anew.
// usage: conversions moved TO < RECORDS       the records moved to version TO, up to the first that is refused
//        conversions told TO < RECORDS        the line that ./convert tells of that one, or nothing
//        conversions movable TO < RECORDS     those records of the stream that can be moved
//        conversions draw SEED TO < RECORDS   up to 300 that can be moved, up to three that may not be, then more; sometimes cut
use std::io::{self, Read, Write};

const MOST: f32 = 65_536.0;
const FAR: f32 = 268_435_456.0;

// A scene's bytes behind the version and before its lines, and the lines: number and bytes.
struct Scene<'a> {
    before: &'a [u8],
    lines: Vec<(u32, &'a [u8])>,
}

struct Fields<'a> {
    bytes: &'a [u8],
    at: usize,
}

fn must(passes: bool, number: u8) -> Result<(), u8> {
    if passes { Ok(()) } else { Err(number) }
}

impl<'a> Fields<'a> {
    fn take(&mut self, count: usize) -> Result<&'a [u8], u8> {
        must(self.at + count <= self.bytes.len(), 2)?;
        self.at += count;
        Ok(&self.bytes[self.at - count..self.at])
    }

    fn byte(&mut self) -> Result<u8, u8> {
        Ok(self.take(1)?[0])
    }

    fn word(&mut self) -> Result<u32, u8> {
        let b = self.take(4)?;
        Ok(u32::from_be_bytes([b[0], b[1], b[2], b[3]]))
    }

    // Finite, and from low to high.
    fn number(&mut self, low: f32, high: f32) -> Result<f32, u8> {
        let x = f32::from_bits(self.word()?);
        must(low <= x && x <= high, 6)?;
        Ok(x)
    }

    fn numbers(&mut self, count: usize, most: f32) -> Result<(), u8> {
        for _ in 0..count {
            self.number(-most, most)?;
        }
        Ok(())
    }

    fn obstacles(&mut self) -> Result<(), u8> {
        let count = self.byte()?;
        must(count <= 16, 4)?;
        let mut total = 0;
        for _ in 0..count {
            let kind = self.byte()?;
            must(kind == 1 || kind == 2, 3)?;
            let vertices = usize::from(self.byte()?);
            total += vertices;
            must(vertices <= 64 && total <= 192, 4)?;
            must(kind == 1 || vertices > 0, 5)?;
            self.outline(vertices, kind == 1)?;
        }
        Ok(())
    }

    // No vertex is the one before it again, by value; nor, in a closed outline, the last the first (T-11).
    fn outline(&mut self, vertices: usize, closed: bool) -> Result<(), u8> {
        let mut own: Vec<(f32, f32)> = Vec::new();
        for _ in 0..vertices {
            let vertex = (self.number(-MOST, MOST)?, self.number(-MOST, MOST)?);
            must(own.last() != Some(&vertex), 14)?;
            own.push(vertex);
        }
        must(!closed || vertices == 0 || own.first() != own.last(), 14)
    }

    fn line(&mut self, version: u8) -> Result<(u32, &'a [u8]), u8> {
        let number = if version == 2 { self.word()? } else { 0 };
        let start = self.at;
        self.numbers(2, FAR)?;
        let x = self.number(f32::MIN, f32::MAX)?;
        let y = self.number(f32::MIN, f32::MAX)?;
        let dot = x * x + y * y;
        must(1023.0 / 1024.0 <= dot && dot <= 1025.0 / 1024.0, 7)?;
        Ok((number, &self.bytes[start..self.at]))
    }
}

// A record, whole by its length.
fn read(record: &[u8], from: u8) -> Result<Scene<'_>, u8> {
    let rest = record.len() - 2;
    let mut fields = Fields { bytes: record, at: 2 };
    must(fields.byte()? == from, 1)?;
    must(from == 2 || rest <= 2_631, 4)?;
    fields.numbers(4, MOST)?;
    fields.number(0.0, 1_024.0)?;
    fields.number(1.0 / 1_024.0, 1_024.0)?;
    fields.numbers(2, MOST)?;
    fields.number(0.0, 1_024.0)?;
    fields.obstacles()?;
    let count = fields.byte()?;
    must(count <= 64, 4)?;
    let before = &record[3..fields.at];
    let lines: Result<Vec<_>, u8> = (0..count).map(|_| fields.line(from)).collect();
    let lines = lines?;
    must(fields.at == record.len(), 2)?;
    Ok(Scene { before, lines })
}

fn moved(record: &[u8], to: u8) -> Result<Vec<u8>, u8> {
    let scene = read(record, 3 - to)?;
    must(to == 2 || scene.lines.iter().all(|line| line.0 == 0), 11)?;
    let mut rest = vec![to];
    rest.extend(scene.before);
    for (number, line) in scene.lines {
        if to == 2 {
            rest.extend(number.to_be_bytes());
        }
        rest.extend(line);
    }
    let mut bytes = (rest.len() as u16).to_be_bytes().to_vec();
    bytes.extend(rest);
    Ok(bytes)
}

// The record in front and the bytes behind it; the number where there is none that is whole.
fn first(stream: &[u8]) -> Result<(&[u8], &[u8]), u8> {
    must(stream.len() >= 2, 2)?;
    let size = 2 + usize::from(stream[0]) * 256 + usize::from(stream[1]);
    must(size <= 2_889, 4)?;
    must(stream.len() >= size, 2)?;
    Ok(stream.split_at(size))
}

// The moved records, and the line of the one that is refused.
fn converted(mut stream: &[u8], to: u8) -> (Vec<u8>, String) {
    let mut all = Vec::new();
    let mut place = 0u64;
    while !stream.is_empty() {
        let next = first(stream).and_then(|(record, behind)| Ok((moved(record, to)?, behind)));
        match next {
            Err(number) => return (all, format!("refused {number} at {place}\n")),
            Ok((bytes, behind)) => {
                all.extend(bytes);
                stream = behind;
                place += 1;
            }
        }
    }
    (all, String::new())
}

// Every whole record, one that is overlong skipped by its length.
fn records(mut stream: &[u8]) -> Vec<&[u8]> {
    let mut all = Vec::new();
    while stream.len() >= 2 {
        let size = (2 + usize::from(stream[0]) * 256 + usize::from(stream[1])).min(stream.len());
        all.push(&stream[..size]);
        stream = &stream[size..];
    }
    all
}

fn movable(all: &[&[u8]], to: u8) -> Vec<Vec<u8>> {
    let whole = |record: &&[u8]| first(record).is_ok_and(|(record, _)| moved(record, to).is_ok());
    all.iter().copied().filter(whole).map(<[u8]>::to_vec).collect()
}

fn draw(all: &[&[u8]], to: u8, mut seed: u64) -> Vec<u8> {
    let mut next = |below: usize| {
        seed = seed.wrapping_mul(6364136223846793005).wrapping_add(1442695040888963407);
        (seed >> 33) as usize % below
    };
    let good = movable(all, to);
    let mut stream = Vec::new();
    for bad in [false, true, false] {
        let most = if bad { 4 } else { [3, 300][next(2)] };
        for _ in 0..next(most) {
            stream.extend(if bad { all[next(all.len())] } else { &good[next(good.len())] });
        }
    }
    if next(3) == 0 {
        stream.truncate(next(stream.len() + 1));
    }
    stream
}

fn main() {
    let words: Vec<String> = std::env::args().collect();
    let words: Vec<&str> = words.iter().map(String::as_str).collect();
    let mut stream = Vec::new();
    io::stdin().read_to_end(&mut stream).expect("standard input");
    let version = |word: &str| word.parse::<u8>().ok().filter(|to| [1, 2].contains(to)).expect("a version");
    let bytes = match words[1..] {
        ["moved", to] => converted(&stream, version(to)).0,
        ["told", to] => converted(&stream, version(to)).1.into_bytes(),
        ["movable", to] => movable(&records(&stream), version(to)).concat(),
        ["draw", seed, to] => draw(&records(&stream), version(to), seed.parse().expect("a seed")),
        _ => panic!("see the head of conversions.rs"),
    };
    io::stdout().write_all(&bytes).expect("standard output");
}
