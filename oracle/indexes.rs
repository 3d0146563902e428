//! An index of fallbacks written from document 02 alone (T-10), and the cases that `fallback_cases` is run on: commands for its
//! standard input and what must come out. Standard library only.
//! usage: indexes STDIN STDOUT

use std::{env, fs};

// ---- 02's words

/// What an answer record says: whether it is a fallback; or 1 or 2.
fn read_record(bytes: &[u8]) -> Result<bool, u8> {
    if bytes.len() < 2 {
        return Err(2);
    }
    let length = usize::from(bytes[0]) * 256 + usize::from(bytes[1]);
    if (length != 16 && length != 2) || bytes.len() != 2 + length {
        return Err(2);
    }
    if bytes[2] != 1 {
        return Err(1);
    }
    match (length, bytes[3]) {
        (16, code @ 1..=5) => Ok(code >= 3),
        (2, 129..=138 | 142) => Ok(false),
        _ => Err(2),
    }
}

/// The record at a place: whether it is a fallback, and the place behind it.
fn record_at(log: &[u8], at: usize) -> Result<(bool, usize), u8> {
    let rest = &log[at..];
    if rest.len() < 2 {
        return Err(2);
    }
    let end = 2 + usize::from(rest[0]) * 256 + usize::from(rest[1]);
    if rest.len() < end {
        return Err(2);
    }
    Ok((read_record(&rest[..end])?, at + end))
}

/// For each place of a record, and for the end: the byte offset and the fallbacks before it.
fn places(log: &[u8]) -> Result<Vec<(u32, u32)>, u8> {
    let (mut at, mut before, mut all) = (0, 0, vec![(0, 0)]);
    while at < log.len() {
        let (fallback, behind) = record_at(log, at)?;
        at = behind;
        before += u32::from(fallback);
        all.push((at as u32, before));
    }
    Ok(all)
}

pub fn index_of(log: &[u8]) -> Result<Vec<u8>, u8> {
    let places = places(log)?;
    let mut rest = vec![1];
    rest.extend((log.len() as u32).to_be_bytes());
    rest.extend((places.len() as u32 - 1).to_be_bytes());
    for (offset, before) in places.iter().step_by(64) {
        rest.extend(offset.to_be_bytes());
        rest.extend(before.to_be_bytes());
    }
    let mut index = (rest.len() as u32).to_be_bytes().to_vec();
    index.extend(rest);
    Ok(index)
}

fn number(bytes: &[u8], at: usize) -> u64 {
    bytes[at..at + 4].iter().fold(0, |sum, byte| sum * 256 + u64::from(*byte))
}

/// The index's record count, once its fields and the log's length are good.
fn count_named(log: &[u8], index: &[u8]) -> Result<u64, u8> {
    if index.len() < 4 || number(index, 0) != index.len() as u64 - 4 {
        return Err(2);
    }
    match index.get(4) {
        None => return Err(2),
        Some(1) => {}
        Some(_) => return Err(1),
    }
    if index.len() < 13 {
        return Err(2);
    }
    let count = number(index, 9);
    if (index.len() as u64 - 13) != 8 * (count / 64 + 1) {
        return Err(2);
    }
    if number(index, 5) != log.len() as u64 {
        return Err(12);
    }
    Ok(count)
}

/// The fallbacks before a record, by its entry and the walk from there.
fn before(log: &[u8], index: &[u8], record: u64) -> Result<u64, u8> {
    let entry = 13 + 8 * (record / 64) as usize;
    let (mut at, mut sum) = (number(index, entry) as usize, number(index, entry + 4));
    for _ in 0..record % 64 {
        let (fallback, behind) = record_at(log, at)?;
        at = behind;
        sum += u64::from(fallback);
    }
    Ok(sum)
}

/// Those before a and before b.
fn both(log: &[u8], index: &[u8], a: u64, b: u64) -> Result<(u64, u64), u8> {
    let count = count_named(log, index)?;
    if a > b || b > count {
        return Err(13);
    }
    for record in [a, b] {
        if number(index, 13 + 8 * (record / 64) as usize) > log.len() as u64 {
            return Err(2);
        }
    }
    let found = (before(log, index, a)?, before(log, index, b)?);
    if found.1 < found.0 {
        return Err(2);
    }
    Ok(found)
}

pub fn ask(log: &[u8], index: &[u8], a: u64, b: u64) -> Result<u64, u8> {
    both(log, index, a, b).map(|(first, second)| second - first)
}

fn build(log: &[u8], buffer: &mut [u8]) -> Result<u64, u8> {
    put_index(index_of(log)?, buffer)
}

fn put_index(index: Vec<u8>, buffer: &mut [u8]) -> Result<u64, u8> {
    if buffer.len() < index.len() {
        return Err(10);
    }
    buffer[..index.len()].copy_from_slice(&index);
    Ok(index.len() as u64)
}

fn append(log: &[u8], buffer: &mut [u8], length: usize, record: &[u8]) -> Result<u64, u8> {
    if length > buffer.len() {
        return Err(2);
    }
    let mut index = buffer[..length].to_vec();
    let end = if length < 13 { 0 } else { number(&index, 9) };
    let (_, before) = both(log, &index, 0, end)?;
    let before = before + u64::from(read_record(record)?);
    let (total, count) = ((log.len() + record.len()) as u32, end as u32 + 1);
    if count % 64 == 0 {
        index.extend(total.to_be_bytes());
        index.extend(u32::try_from(before).map_err(|_| 4)?.to_be_bytes());
    }
    let rest = (index.len() as u32 - 4).to_be_bytes();
    index[0..4].copy_from_slice(&rest);
    index[5..9].copy_from_slice(&total.to_be_bytes());
    index[9..13].copy_from_slice(&count.to_be_bytes());
    put_index(index, buffer)
}

/// How far a log was read: bytes, records, fallbacks.
type Extent = [u64; 3];

/// Whether the bytes may be the start of a record that is not all there: the length is missing, or it names no more bytes than
/// an answer has, and some are missing.
fn waits(rest: &[u8]) -> bool {
    if rest.len() < 2 {
        return true;
    }
    let size = 2 + usize::from(rest[0]) * 256 + usize::from(rest[1]);
    size <= 18 && rest.len() < size
}

/// The whole records of a part behind so much of a log: the bytes used, the entries completed, and how far it came.
fn part(bytes: &[u8], from: Extent) -> Result<(usize, Vec<u8>, Extent), u8> {
    let ([mut total, mut count, mut before], mut at, mut entries) = (from, 0, vec![]);
    while !waits(&bytes[at..]) {
        let (fallback, behind) = record_at(bytes, at)?;
        total += (behind - at) as u64;
        count += 1;
        before += u64::from(fallback);
        at = behind;
        if count % 64 == 0 {
            entries.extend((total as u32).to_be_bytes());
            entries.extend((before as u32).to_be_bytes());
        }
    }
    Ok((at, entries, [total, count, before]))
}

/// The index up to its first entry, where so many bytes are left.
fn end(left: usize, [total, count, _]: Extent) -> Result<Vec<u8>, u8> {
    if left > 0 {
        return Err(2);
    }
    let (total, count) = (u32::try_from(total).map_err(|_| 4)?, u32::try_from(count).map_err(|_| 4)?);
    let rest = [&[1][..], &total.to_be_bytes(), &count.to_be_bytes(), &[0; 8]].concat();
    Ok([&(9 + 8 * (count / 64 + 1)).to_be_bytes()[..], &rest].concat())
}

// ---- the cases

/// Commands and what they must answer, with the log and the index's buffer as the program holds them.
pub struct Script {
    pub input: Vec<u8>,
    pub output: Vec<u8>,
    pub log: Vec<u8>,
    pub buffer: Vec<u8>,
    pub length: usize,
}

impl Script {
    fn command(&mut self, kind: u8, numbers: [usize; 3]) {
        self.input.push(kind);
        for number in numbers {
            self.input.extend((number as u32).to_be_bytes());
        }
    }

    fn told(&mut self, answer: Result<u64, u8>) {
        let (tag, number) = match answer {
            Ok(number) => (0, number),
            Err(number) => (1, u64::from(number)),
        };
        self.output.push(tag);
        self.output.extend(number.to_be_bytes());
    }

    pub fn log(&mut self, log: &[u8]) {
        self.command(1, [0, log.len(), 0]);
        self.input.extend(log);
        self.log = log.to_vec();
    }

    pub fn more_log(&mut self, record: &[u8]) {
        self.command(1, [self.log.len(), record.len(), 0]);
        self.input.extend(record);
        self.log.extend(record);
    }

    fn index(&mut self, index: &[u8]) {
        self.command(2, [0, index.len(), 0]);
        self.input.extend(index);
        self.buffer[..index.len()].copy_from_slice(index);
        self.length = index.len();
    }

    pub fn lengths(&mut self, log: usize, index: usize) {
        self.command(6, [log, index, 0]);
        self.log.truncate(log);
        self.length = index;
    }

    pub fn build(&mut self, room: usize) {
        self.command(3, [room, 0, 0]);
        let answer = build(&self.log, &mut self.buffer[..room]);
        self.written(answer, room);
    }

    pub fn append(&mut self, length: usize, room: usize, record: &[u8]) {
        self.command(5, [length, room, record.len()]);
        self.input.extend(record);
        let answer = append(&self.log, &mut self.buffer[..room], length, record);
        self.written(answer, room);
    }

    fn written(&mut self, answer: Result<u64, u8>, room: usize) {
        self.told(answer);
        self.output.extend(&self.buffer[..room]);
        if let Ok(length) = answer {
            self.length = length as usize;
        }
    }

    pub fn ask(&mut self, a: u64, b: u64) -> Result<u64, u8> {
        self.command(4, [a as usize, b as usize, 0]);
        let answer = ask(&self.log, &self.buffer[..self.length], a, b);
        self.told(answer);
        answer
    }

    /// Every question a <= b, held to a walk's fallbacks before each record: how many answers are the walk's, and the first
    /// question whose answer is not.
    fn ask_all(&mut self, walked: &[u32]) -> (usize, Option<(usize, usize)>) {
        self.command(13, [walked.len() - 1, 0, 0]);
        self.input.extend(walked.iter().flat_map(|number| number.to_be_bytes()));
        let (mut good, mut differs) = (0, None);
        for a in 0..walked.len() {
            for b in a..walked.len() {
                let answer = ask(&self.log, &self.buffer[..self.length], a as u64, b as u64);
                match answer.map(|count| count + u64::from(walked[a]) == u64::from(walked[b])) {
                    Ok(true) => good += 1,
                    _ => differs = differs.or(Some((a, b))),
                }
            }
        }
        self.told(Ok(good as u64));
        if let Some((a, b)) = differs {
            self.told(Ok(a as u64));
            self.told(Ok(b as u64));
        }
        (good, differs)
    }

    fn set_log(&mut self, at: usize, byte: u8) {
        self.command(7, [at, 0, 0]);
        self.input.push(byte);
        self.log[at] = byte;
    }

    fn set_index(&mut self, at: usize, bytes: &[u8]) {
        self.command(8, [at, bytes.len(), 0]);
        self.input.extend(bytes);
        self.buffer[at..at + bytes.len()].copy_from_slice(bytes);
    }

    /// A part of a log behind so much of it, and where that leads.
    fn part(&mut self, bytes: &[u8], from: Extent, room: usize) -> Result<(usize, Vec<u8>, Extent), u8> {
        self.command(11, [bytes.len(), room, 0]);
        self.input.extend(from.iter().flat_map(|number| number.to_be_bytes()));
        self.input.extend(bytes);
        let fits = from.iter().all(|number| number.checked_add(bytes.len() as u64).is_some());
        let built = if fits { part(bytes, from) } else { Err(4) };
        let built = built.and_then(|built| if built.1.len() > room { Err(10) } else { Ok(built) });
        match &built {
            Err(number) => self.told(Err(*number)),
            Ok((used, entries, to)) => {
                for number in [*used as u64, entries.len() as u64, to[0], to[1], to[2]] {
                    self.told(Ok(number));
                }
                self.buffer[..entries.len()].copy_from_slice(entries);
            }
        }
        self.output.extend(&self.buffer[..room]);
        built
    }

    fn end(&mut self, left: usize, extent: Extent, room: usize) -> Result<Vec<u8>, u8> {
        self.command(12, [left, room, 0]);
        self.input.extend(extent.iter().flat_map(|number| number.to_be_bytes()));
        let start = end(left, extent).and_then(|start| if start.len() > room { Err(10) } else { Ok(start) });
        let answer = start.clone().and_then(|start| put_index(start, &mut self.buffer[..room]));
        self.told(answer);
        self.output.extend(&self.buffer[..room]);
        start
    }

    /// A log in reads of so many bytes: entries and start must be those of its index, or its refusal.
    fn reads(&mut self, log: &[u8], size: usize) {
        let (mut left, mut extent, mut entries) = (vec![], [0, 0, 0], vec![]);
        for read in log.chunks(size) {
            left.extend(read);
            match self.part(&left, extent, 8 * (left.len() / 256 + 1)) {
                Err(number) => return assert_eq!(index_of(log), Err(number)),
                Ok((used, more, to)) => {
                    left.drain(..used);
                    entries.extend(more);
                    extent = to;
                }
            }
        }
        let start = self.end(left.len(), extent, 21);
        assert_eq!(start.map(|start| [start, entries].concat()), index_of(log));
    }

    /// A question or an append by its parts, with what must be told written out.
    fn parts(&mut self, kind: u8, numbers: [usize; 3], parts: &[&[u8]], answers: &[Result<u64, u8>]) {
        self.command(kind, numbers);
        for part in parts {
            self.input.extend(*part);
        }
        for answer in answers {
            self.told(*answer);
        }
    }
}

/// Numbers that look drawn, the same each time.
pub struct Draw(pub u64);

impl Draw {
    fn below(&mut self, n: u64) -> u64 {
        self.0 = self.0.wrapping_mul(6364136223846793005).wrapping_add(1442695040888963407);
        (self.0 >> 33) % n
    }
}

pub const REFUSED: [u8; 4] = [0, 2, 1, 134];
/// The codes of refusals: 129 to 138, and 142 (02, T-11).
const REFUSALS: [u8; 11] = [129, 130, 131, 132, 133, 134, 135, 136, 137, 138, 142];

fn outcome(code: u8, draw: &mut Draw) -> Vec<u8> {
    let mut record = vec![0, 16, 1, code];
    record.extend((0..14).map(|_| draw.below(256) as u8));
    record
}

pub fn records(count: usize, draw: &mut Draw) -> Vec<Vec<u8>> {
    (0..count)
        .map(|_| match draw.below(8) {
            0 => vec![0, 2, 1, REFUSALS[draw.below(11) as usize]],
            1 => REFUSED.to_vec(),
            n => outcome(1 + (n as u8 - 2) % 5, draw),
        })
        .collect()
}

/// The full walk.
pub fn fallbacks_of(records: &[Vec<u8>]) -> u32 {
    records.iter().filter(|record| record[1] == 16 && record[3] >= 3).count() as u32
}

/// Every pair of a log with so many records, each answer told where they are few; then the same log record by record, with a
/// build each time (behind 130 records, about each entry).
fn whole_log(script: &mut Script, count: usize, draw: &mut Draw) {
    let records = records(count, draw);
    let log = records.concat();
    let walked: Vec<u32> = (0..=count).map(|n| fallbacks_of(&records[..n])).collect();
    assert!(places(&log).expect("a good log").iter().map(|place| place.1).eq(walked.iter().copied()));
    script.log(&log);
    script.build(13 + 8 * (count / 64 + 1) + 3);
    if count <= 128 {
        for a in 0..=count {
            for b in a..=count {
                assert_eq!(script.ask(a as u64, b as u64), Ok(u64::from(fallbacks_of(&records[a..b]))));
            }
        }
    }
    assert_eq!(script.ask_all(&walked), ((count + 1) * (count + 2) / 2, None));
    let end = count as u64;
    for (a, b) in [(1, 0), (end, end + 1), (end + 1, end + 1), (end + 64, end + 64), (u64::from(u32::MAX), 0)] {
        assert_eq!(script.ask(a, b), Err(13));
    }
    script.lengths(0, 0);
    script.build(22);
    for (done, record) in records.iter().enumerate() {
        let room = 13 + 8 * ((done + 1) / 64 + 1) + 1;
        script.append(script.length, room, record);
        script.more_log(record);
        let appended = script.buffer[..script.length].to_vec();
        assert_eq!(Ok(appended), index_of(&script.log));
        if done < 130 || (done + 2) % 64 < 3 {
            script.build(room);
        }
    }
}

/// One answer that is not the walk's is found among all pairs: where the walk has one more before a record, and where
/// an entry has.
fn told_apart(script: &mut Script, draw: &mut Draw) {
    let records = records(128, draw);
    let walked: Vec<u32> = (0..=128).map(|n| fallbacks_of(&records[..n])).collect();
    let pairs = 129 * 130 / 2;
    script.log(&records.concat());
    script.build(37);
    for n in [0, 1, 63, 64, 128] {
        let mut other = walked.clone();
        other[n] += 1;
        assert_eq!(script.ask_all(&other), (pairs - 128, Some(if n == 0 { (0, 1) } else { (0, n) })));
    }
    let entry = number(&script.buffer, 33) as u32;
    script.set_index(33, &(entry + 1).to_be_bytes());
    assert_eq!(script.ask_all(&walked), (pairs - 128, Some((0, 128))));
    script.set_index(33, &entry.to_be_bytes());
    assert_eq!(script.ask_all(&walked), (pairs, None));
}

/// Each byte of a log and of its index changed, and six questions asked; what lies outside of what one rests on does
/// not change it.
fn changed_bytes(script: &mut Script, draw: &mut Draw) {
    let records = records(130, draw);
    let log = records.concat();
    let at: Vec<usize> = places(&log).expect("a good log").iter().map(|place| place.0 as usize).collect();
    script.log(&log);
    script.build(37);
    let asked = [(0, 130), (3, 5), (64, 128), (70, 129), (127, 130), (5, 66)];
    let good: Vec<Result<u64, u8>> = asked.iter().map(|(a, b)| script.ask(*a, *b)).collect();
    for place in 0..log.len() {
        script.set_log(place, log[place] ^ 0x0f);
        for ((a, b), good) in asked.iter().zip(&good) {
            let answer = script.ask(*a, *b);
            let within = |n: u64| (at[(n / 64 * 64) as usize]..at[n as usize]).contains(&place);
            assert!(within(*a) || within(*b) || answer == *good);
        }
        script.set_log(place, log[place]);
    }
    let index = script.buffer[..37].to_vec();
    for place in 0..37 {
        script.set_index(place, &[index[place] ^ 0x01]);
        for ((a, b), good) in asked.iter().zip(&good) {
            let answer = script.ask(*a, *b);
            let entry = |n: u64| (13 + 8 * (n / 64)..21 + 8 * (n / 64)).contains(&(place as u64));
            assert!(place < 13 || entry(*a) || entry(*b) || answer == *good);
        }
        script.set_index(place, &[index[place]]);
    }
}

/// Every field of a small index set to 0, one more, one less and FFFFFFFF; the index and the log cut at every length.
fn forged(script: &mut Script, draw: &mut Draw) {
    let log = records(65, draw).concat();
    script.log(&log);
    script.build(40);
    let index = script.buffer[..29].to_vec();
    let asked = [(0, 0), (0, 65), (1, 64), (64, 65), (65, 65), (2, 1), (0, 66)];
    for at in [0, 5, 9, 13, 17, 21, 25] {
        let field = number(&index, at) as u32;
        for value in [0, field.wrapping_add(1), field.wrapping_sub(1), u32::MAX] {
            script.set_index(at, &value.to_be_bytes());
            for (a, b) in asked {
                let _ = script.ask(a, b);
            }
            script.append(29, 40, &REFUSED);
            script.index(&index);
        }
    }
    for version in [0, 2, 255] {
        script.set_index(4, &[version]);
        for (a, b) in asked {
            assert_eq!(script.ask(a, b), Err(1));
        }
        script.set_index(4, &[1]);
    }
    for length in 0..=40 {
        script.lengths(log.len(), length);
        for (a, b) in asked {
            let _ = script.ask(a, b);
        }
    }
    script.lengths(log.len() - 1, 29);
    assert_eq!(script.ask(1, 0), Err(12));
    for room in 0..=30 {
        script.lengths(script.log.len(), 29);
        script.build(room);
    }
}

/// Each refusal by its smallest input.
fn smallest(script: &mut Script) {
    let short = [&[0, 16, 1, 5, 0, 0, 0, 0, 0, 0, 0, 0, 255, 255, 0, 0, 0, 1], &REFUSED[..]].concat();
    let of_short = [0, 0, 0, 17, 1, 0, 0, 0, 22, 0, 0, 0, 2, 0, 0, 0, 0, 0, 0, 0, 0];
    let with_offset = |offset: u8| {
        let mut index = of_short.to_vec();
        index[16] = offset;
        index
    };
    let mut expect = |log: &[u8], index: &[u8], a: u64, b: u64, answer: Result<u64, u8>| {
        script.log(log);
        script.index(index);
        assert_eq!(script.ask(a, b), answer);
    };
    for (a, b, count) in [(0, 2, 1), (1, 2, 0), (0, 1, 1), (2, 2, 0)] {
        expect(&short, &of_short, a, b, Ok(count));
    }
    expect(&short, &[], 0, 0, Err(2));
    expect(&short, &[0, 0, 0, 0], 0, 0, Err(2));
    expect(&short, &[0, 0, 0, 1, 2], 0, 0, Err(1));
    expect(&short, &[0, 0, 0, 1, 1], 0, 0, Err(2));
    expect(&short, &of_short[..13], 0, 0, Err(2));
    expect(&short, &[0, 0, 0, 9, 1, 0, 0, 0, 22, 0, 0, 0, 2], 0, 0, Err(2));
    expect(&short[..21], &of_short, 1, 0, Err(12));
    expect(&short, &of_short, 1, 0, Err(13));
    expect(&short, &of_short, 0, 3, Err(13));
    expect(&short, &with_offset(22), 0, 0, Ok(0));
    expect(&short, &with_offset(22), 1, 1, Err(2));
    expect(&short, &with_offset(23), 0, 0, Err(2));
    expect(&[0, 2, 2, 134], &[0, 0, 0, 17, 1, 0, 0, 0, 4, 0, 0, 0, 1, 0, 0, 0, 0, 0, 0, 0, 0], 0, 1, Err(1));
    let long = REFUSED.repeat(64);
    let mut fewer = index_of(&long).expect("a good log");
    fewer[20] = 1;
    expect(&long, &fewer, 0, 64, Err(2));
    for (log, room) in [(&[0][..], 21), (&[0, 2, 2, 134], 21), (&[0, 2, 1, 139], 21), (&REFUSED, 20), (&[], 20), (&[], 21)] {
        script.log(log);
        script.build(room);
    }
    let empty = index_of(&[]).expect("no record");
    for (record, length, room) in [
        (&REFUSED[..], 22, 21),
        (&REFUSED, 20, 21),
        (&[], 21, 21),
        (&[0, 2, 2, 134], 21, 21),
        (&[0, 2, 2, 134, 0], 21, 21),
        (&[0, 2, 1, 134, 0, 2, 1, 134], 21, 21),
        (&[0, 16, 1, 1], 21, 21),
        (&[0, 2, 1, 139], 21, 21),
        (&REFUSED, 21, 23),
    ] {
        script.log(&[]);
        script.index(&empty);
        script.append(length, room, record);
    }
    for room in [28, 29, 30] {
        script.log(&long[..252]);
        script.index(&index_of(&long[..252]).expect("a good log"));
        script.append(21, room, &REFUSED);
    }
}

/// What no log of a test can reach: numbers about 4,294,967,295, by parts.
fn limits(script: &mut Script) {
    let word = |n: u32| n.to_be_bytes();
    let head = |total: u32, count: u32| {
        [&word(9 + 8 * (count / 64 + 1))[..], &[1], &word(total), &word(count)].concat()
    };
    let entry = |offset: u32, before: u32| [word(offset), word(before)].concat();
    let (most, none) = (u32::MAX, entry(0, 0));
    let size = |count: u32| 13 + 8 * (count as usize / 64 + 1);
    let last = entry(most - 4, 7);
    for (total, told) in [(most - 4, Ok(most)), (most - 3, Err(4)), (most, Err(4))] {
        let answers = match told {
            Ok(total) => vec![Ok(u64::from(total)), Ok(129), Ok(7)],
            Err(number) => vec![Err(number)],
        };
        script.parts(10, [total as usize, size(128), 4], &[&head(total, 128), &none, &last, &REFUSED], &answers);
    }
    for (count, before, answers) in [
        (most - 63, most, vec![Ok(4), Ok(u64::from(most - 62)), Ok(u64::from(most))]),
        (0, most, vec![Ok(4), Ok(1), Ok(u64::from(most))]),
    ] {
        script.parts(10, [0, size(count), 4], &[&head(0, count), &none, &entry(0, before), &REFUSED], &answers);
    }
    let fallback = [0, 16, 1, 5, 0, 0, 0, 0, 0, 0, 0, 0, 255, 255, 0, 0, 0, 1];
    let answers = [Ok(18), Ok(65), Ok(u64::from(most) + 1)];
    script.parts(10, [0, size(64), 18], &[&head(0, 64), &none, &entry(0, most), &fallback], &answers);
    script.parts(9, [0, size(64), 0], &[&head(0, 64), &none, &entry(0, most), &word(64)], &[Ok(u64::from(most))]);
    script.parts(9, [1, size(64), 0], &[&head(0, 64), &none, &entry(0, most), &word(64)], &[Err(12)]);
    script.parts(9, [0, size(64), 64], &[&head(0, 64), &entry(1, 0), &none, &word(64)], &[Err(2)]);
}

/// Logs that come in reads of one byte and of more; each refusal of a part and of the end.
fn in_parts(script: &mut Script, draw: &mut Draw) {
    for count in [0, 1, 63, 64, 65, 128] {
        let log = records(count, draw).concat();
        for size in [1, 17, 19, 257, 4000] {
            script.reads(&log, size);
        }
    }
    let good = records(70, draw).concat();
    for bad in [&[0][..], &[0, 16, 1], &[0, 5, 1, 1, 1, 1, 1], &[255, 255], &[0, 2, 2, 134], &[0, 2, 1, 139], &[0, 16, 1, 6]] {
        for size in [18, 19, 4000] {
            script.reads(&[&good, bad].concat(), size);
            script.reads(&[&good, bad, &good].concat(), size);
        }
    }
    let long = REFUSED.repeat(128);
    for room in 0..=17 {
        let _ = script.part(&long, [0, 0, 0], room);
    }
    let most = u64::MAX;
    for from in [[most - 4, 0, 0], [most - 3, 0, 0], [0, most - 4, 0], [0, most - 3, 0], [0, 0, most - 4], [0, 0, most - 3]] {
        let _ = script.part(&REFUSED, from, 8);
    }
    let _ = script.part(&REFUSED, [u64::from(u32::MAX) - 3, 63, 0], 8);
    let most = u64::from(u32::MAX);
    for (left, extent, room) in [
        (1, [0, 0, 0], 21),
        (1, [most + 1, 0, 0], 21),
        (0, [most, 0, 0], 21),
        (0, [most + 1, 0, 0], 20),
        (0, [most, most, 0], 22),
        (0, [0, most + 1, 0], 21),
        (0, [0, 0, 0], 20),
        (0, [0, 0, most + 1], 21),
    ] {
        let _ = script.end(left, extent, room);
    }
}

fn main() {
    let arguments: Vec<String> = env::args().skip(1).collect();
    let [input, output] = &arguments[..] else {
        eprintln!("usage: indexes STDIN STDOUT");
        std::process::exit(2);
    };
    let mut draw = Draw(10);
    let mut script = Script { input: vec![], output: vec![], log: vec![], buffer: vec![0; 4096], length: 0 };
    for count in [0, 63, 64, 65, 127, 128, 1000] {
        whole_log(&mut script, count, &mut draw);
    }
    changed_bytes(&mut script, &mut draw);
    forged(&mut script, &mut draw);
    smallest(&mut script);
    limits(&mut script);
    in_parts(&mut script, &mut draw);
    told_apart(&mut script, &mut draw);
    fs::write(input, &script.input).expect("the cases are written");
    fs::write(output, &script.output).expect("their answers are written");
}
