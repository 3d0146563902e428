//! Sets at scale: as many random cases as are asked for, of every kind that the vectors are made of, but for those by
//! hand and those that are searched for.

use std::fs::File;
use std::io::{self, BufWriter, Write};
use std::time::{Duration, Instant};

use crate::random::Random;

/// A case's bytes for each file of its set.
pub type Parts = Vec<Vec<u8>>;

/// When to stop: after so many cases, or so much time.
enum Until {
    Count(u64),
    Time(Duration),
}

impl Until {
    /// `1000` is a count, `30s` are seconds.
    fn parse(text: &str) -> Option<Until> {
        match text.strip_suffix('s') {
            Some(seconds) => Some(Until::Time(Duration::from_secs(seconds.parse().ok()?))),
            None => Some(Until::Count(text.parse().ok()?)),
        }
    }

    fn is_reached(&self, count: u64, start: Instant) -> bool {
        match self {
            Until::Count(most) => count >= *most,
            Until::Time(most) => start.elapsed() >= *most,
        }
    }
}

/// Writes the files of a set, and tells how many cases and bytes they hold.
pub fn write(
    [seed, until]: [&str; 2],
    files: &[&str],
    make: fn(&mut Random) -> Result<Parts, String>,
) -> Result<(), String> {
    let (Ok(number), Some(until)) = (seed.parse(), Until::parse(until)) else {
        return Err(format!(
            "a seed, and a count or seconds as 30s: {seed} {until}"
        ));
    };
    let mut random = Random::new(number);
    let mut outputs = files
        .iter()
        .map(Output::create)
        .collect::<Result<Vec<_>, _>>()?;
    let start = Instant::now();
    let mut count = 0;
    while !until.is_reached(count, start) {
        for (output, part) in outputs.iter_mut().zip(make(&mut random)?) {
            output.append(&part)?;
        }
        count += 1;
    }
    println!("seed {seed}: {count} cases");
    outputs.into_iter().try_for_each(Output::finish)
}

struct Output<'a> {
    name: &'a str,
    bytes: usize,
    writer: BufWriter<File>,
}

impl<'a> Output<'a> {
    fn create(name: &&'a str) -> Result<Output<'a>, String> {
        let file = File::create(name).map_err(|fault| format!("{name}: {fault}"))?;
        let writer = BufWriter::new(file);
        Ok(Output {
            name,
            bytes: 0,
            writer,
        })
    }

    fn append(&mut self, bytes: &[u8]) -> Result<(), String> {
        self.bytes += bytes.len();
        let written = self.writer.write_all(bytes);
        self.named(written)
    }

    fn finish(mut self) -> Result<(), String> {
        let flushed = self.writer.flush();
        self.named(flushed)?;
        println!("{}: {} bytes", self.name, self.bytes);
        Ok(())
    }

    fn named(&self, outcome: io::Result<()>) -> Result<(), String> {
        outcome.map_err(|fault| format!("{}: {fault}", self.name))
    }
}
