//! Runs `./fallbacks` on files, and holds its lines, its exit status and the files that it leaves to the index written
//! from document 02 alone (oracle/indexes.rs) and to the library's functions, which `fallback_cases` runs on the same
//! logs. Then it stops a build and an append before each of their calls that are named in `CALLS`, and lets each read,
//! write, open, sync and rename fail in turn, by strace where that is at hand. Standard library only.
//! usage: fallbacks ROOT ROOM

#[path = "indexes.rs"]
#[allow(dead_code)]
mod indexes;

use indexes::{ask, fallbacks_of, index_of, records, Draw, Script, REFUSED};
use std::io::Write;
use std::path::{Path, PathBuf};
use std::process::{Command, Output, Stdio};
use std::{env, fs};

struct Room {
    root: PathBuf,
    log: PathBuf,
    index: PathBuf,
    record: PathBuf,
    runs: usize,
}

/// What a run told: its status, its first line, and whether standard error says what that means, or what failed.
#[derive(Debug, PartialEq)]
enum Told {
    Line(String),
    Refused(u8),
    Trouble,
}

impl Room {
    fn run(&mut self, words: &[&str], input: &[u8]) -> Output {
        self.runs += 1;
        let mut child = Command::new(self.root.join("fallbacks"))
            .args(words)
            .stdin(Stdio::piped())
            .stdout(Stdio::piped())
            .stderr(Stdio::piped())
            .spawn()
            .expect("./fallbacks starts");
        // What does not read its input may be gone before it is written.
        let _ = child.stdin.take().expect("a pipe").write_all(input);
        child.wait_with_output().expect("./fallbacks ends")
    }

    fn told(&mut self, words: &[&str], input: &[u8]) -> Told {
        let output = self.run(words, input);
        let out = String::from_utf8(output.stdout).expect("text");
        let err = String::from_utf8(output.stderr).expect("text");
        match output.status.code() {
            Some(0) => {
                assert!(err.is_empty(), "{words:?}: {err}");
                Told::Line(out.strip_suffix('\n').expect("a line").to_string())
            }
            Some(1) => {
                assert!(err.starts_with("means: ") && err.lines().count() == 1, "{words:?}: {err}");
                let number = out.strip_prefix("refused ").and_then(|rest| rest.strip_suffix('\n')).expect("a refusal");
                Told::Refused(number.parse().expect("a number"))
            }
            Some(2) => {
                assert!(out.is_empty() && !err.is_empty(), "{words:?}: {out}{err}");
                Told::Trouble
            }
            status => panic!("{words:?}: ended with {status:?}: {out}{err}"),
        }
    }

    fn build(&mut self) -> Told {
        let (log, index) = (text(&self.log), text(&self.index));
        self.told(&["build", &log, &index], &[])
    }

    fn count(&mut self, a: u64, b: u64) -> Told {
        let (log, index) = (text(&self.log), text(&self.index));
        self.told(&["count", &log, &index, &a.to_string(), &b.to_string()], &[])
    }

    fn append(&mut self, record: &[u8], by_pipe: bool) -> Told {
        let (log, index) = (text(&self.log), text(&self.index));
        if by_pipe {
            return self.told(&["append", &log, &index, "-"], record);
        }
        fs::write(&self.record, record).expect("the record is written");
        let name = text(&self.record);
        self.told(&["append", &log, &index, &name], &[])
    }

    fn hold(&self, log: &[u8], index: &[u8]) {
        fs::write(&self.log, log).expect("the log is written");
        fs::write(&self.index, index).expect("the index is written");
    }

    fn files(&self) -> (Vec<u8>, Vec<u8>) {
        (fs::read(&self.log).expect("a log"), fs::read(&self.index).expect("an index"))
    }

    fn new_file(&self) -> PathBuf {
        PathBuf::from(format!("{}.new", text(&self.index)))
    }
}

fn text(path: &Path) -> String {
    path.to_str().expect("a name in letters").to_string()
}

fn answer(result: Result<u64, u8>) -> Told {
    match result {
        Ok(number) => Told::Line(number.to_string()),
        Err(number) => Told::Refused(number),
    }
}

fn written(index: &[u8]) -> Told {
    Told::Line(format!("index of {} bytes", index.len()))
}

/// Logs of these lengths, built and asked, by the command and by the library.
fn whole_logs(room: &mut Room, script: &mut Script, draw: &mut Draw) {
    for count in [0, 1, 63, 64, 65, 128, 1000] {
        let records = records(count, draw);
        let log = records.concat();
        let index = index_of(&log).expect("a good log");
        room.hold(&log, b"what stood there");
        assert_eq!(room.build(), written(&index));
        assert_eq!(room.files(), (log.clone(), index.clone()));
        script.log(&log);
        script.build(index.len());
        let end = count as u64;
        let mut places: Vec<u64> = [0, 1, 63, 64, 65, 700, end].into_iter().filter(|n| *n <= end).collect();
        places.sort();
        places.dedup();
        for (i, a) in places.iter().enumerate() {
            for b in &places[i..] {
                let walked = u64::from(fallbacks_of(&records[*a as usize..*b as usize]));
                assert_eq!(script.ask(*a, *b), Ok(walked));
                assert_eq!(room.count(*a, *b), answer(Ok(walked)));
            }
        }
        for (a, b) in [(1, 0), (end, end + 1), (u64::MAX, u64::MAX), (0, u64::MAX)] {
            assert_eq!(room.count(a, b), Told::Refused(13));
        }
    }
}

/// Record behind record, by a file and by standard input, by the command and by the library.
fn appended(room: &mut Room, script: &mut Script, draw: &mut Draw) {
    room.hold(&[], &index_of(&[]).expect("no record"));
    script.log(&[]);
    script.build(4096);
    for (done, record) in records(130, draw).iter().enumerate() {
        let told = room.append(record, done % 2 == 0);
        script.append(script.length, 4096, record);
        script.more_log(record);
        let index = index_of(&script.log).expect("a good log");
        assert_eq!(told, written(&index));
        assert_eq!(room.files(), (script.log.clone(), index.clone()));
        assert_eq!(script.buffer[..script.length], index[..]);
    }
}

/// Each refusal, which leaves all files as they were; and what cannot be used.
fn refused(room: &mut Room, draw: &mut Draw) {
    let log = records(65, draw).concat();
    let index = index_of(&log).expect("a good log");
    for bad in [&[0][..], &[0, 16, 1, 1], &[0, 5, 1, 1, 1, 1, 1], &[0, 2, 2, 134], &[0, 2, 1, 139]] {
        let bad = [&log, bad].concat();
        room.hold(&bad, &index);
        assert_eq!(room.build(), Told::Refused(index_of(&bad).expect_err("a bad log")));
        assert_eq!(room.files(), (bad, index.clone()));
    }
    for at in 0..index.len() {
        let mut forged = index.clone();
        forged[at] ^= 1;
        room.hold(&log, &forged);
        for (a, b) in [(0, 0), (1, 65), (2, 1)] {
            assert_eq!(room.count(a, b), answer(ask(&log, &forged, a, b)), "byte {at}");
        }
    }
    for length in [0, 3, 4, 5, 12, 13, 20, 28] {
        room.hold(&log, &index[..length]);
        assert_eq!(room.count(0, 1), answer(ask(&log, &index[..length], 0, 1)));
        assert_eq!(room.append(&REFUSED, false), Told::Refused(ask(&log, &index[..length], 0, 1).expect_err("no index")));
    }
    for log in [&log[1..], &[&log[..], &[0]].concat()] {
        room.hold(log, &index);
        assert_eq!(room.count(1, 0), Told::Refused(12));
        assert_eq!(room.append(&REFUSED, false), Told::Refused(12));
        assert_eq!(room.files(), (log.to_vec(), index.clone()));
    }
    room.hold(&log, &index);
    let long = vec![0; 100_000];
    for (record, number) in [(&[][..], 2), (&[0, 2, 2, 134], 1), (&[0, 2, 1, 134, 0], 2), (&[0, 16, 1, 1], 2), (&long, 2)] {
        assert_eq!(room.append(record, false), Told::Refused(number));
        assert_eq!(room.files(), (log.clone(), index.clone()));
    }
    unusable(room, &log, &index);
}

fn unusable(room: &mut Room, log: &[u8], index: &[u8]) {
    let (there, that) = (text(&room.log), text(&room.index));
    for words in [
        &["count", "no such log", &that, "0", "0"][..],
        &["count", &there, "no such index", "0", "0"],
        &["count", "/", &that, "0", "0"],
        &["count", &there, "/", "0", "0"],
        &["build", "no such log", &that],
        &["build", "/", &that],
        &["build", &there, &there],
        &["build", &there, "/no such folder/index"],
        &["append", &there, &that, "no such record"],
        &["append", &there, &that, "/"],
        &["append", "no such log", &that, &there],
        &["count", &there, &that, "0"],
        &["count", &there, &that, "0", "x"],
        &["count", &there, &that, "-1", "0"],
        &["count", &there, &that, "", "0"],
        &["build", &there],
        &["other", &there, &that],
        &[],
    ] {
        assert_eq!(room.told(words, &[]), Told::Trouble, "{words:?}");
        assert_eq!(room.files(), (log.to_vec(), index.to_vec()));
        assert!(!room.new_file().exists(), "{words:?}");
    }
    fs::write(room.new_file(), "of a run that was stopped").expect("a file");
    assert_eq!(room.build(), Told::Trouble);
    assert_eq!(room.append(&REFUSED, false), Told::Trouble);
    assert_eq!(room.files(), (log.to_vec(), index.to_vec()));
    fs::remove_file(room.new_file()).expect("it is removed");
}

/// The library's answers to what was asked of it above.
fn library(root: &Path, script: &Script) {
    let mut child = Command::new(root.join("tools/run"))
        .arg("fallback_cases")
        .stdin(Stdio::piped())
        .stdout(Stdio::piped())
        .spawn()
        .expect("fallback_cases starts");
    let mut input = child.stdin.take().expect("a pipe");
    let bytes = script.input.clone();
    let writer = std::thread::spawn(move || input.write_all(&bytes));
    let output = child.wait_with_output().expect("fallback_cases ends");
    writer.join().expect("a thread").expect("its input is written");
    assert!(output.stdout == script.output, "the library answers otherwise");
}

/// The program under strace, by which its calls are counted, or something is done at one of them.
fn traced(room: &Room, words: &[&str], what: &str, to: &Path) -> Output {
    Command::new("strace")
        .args(["-qq", "-o", &text(to), "-e", what])
        .arg(room.root.join("target/bin/fallbacks"))
        .args(words)
        .output()
        .expect("strace starts")
}

/// The names by which a processor's kernel may know such a call, as strace takes them.
fn names(call: &str) -> String {
    match call {
        "rename" => "?rename,?renameat,?renameat2".to_string(),
        "unlink" => "?unlink,?unlinkat".to_string(),
        other => other.to_string(),
    }
}

/// How often such a call is made before the program first names one of its files, by the loader, and how often in all.
fn calls(room: &Room, words: &[&str], call: &str) -> (usize, usize) {
    let trace = room.record.with_extension("trace");
    let all: Vec<String> = CALLS.iter().map(|call| names(call)).collect();
    let output = traced(room, words, &format!("trace={}", all.join(",")), &trace);
    assert!(output.stdout.starts_with(b"index of"), "{words:?}: not done under strace");
    let trace = fs::read_to_string(trace).expect("a trace");
    let folder = text(room.log.parent().expect("a folder"));
    let count = |line: &&str| line.starts_with(call);
    let before = trace.lines().take_while(|line| !line.contains(&folder)).filter(count).count();
    (before, trace.lines().filter(count).count())
}

const CALLS: [&str; 9] = ["openat", "read", "lseek", "write", "fsync", "rename", "unlink", "ftruncate", "exit_group"];

/// A build and an append that are killed before each of their calls: each file is the old one or the new one, and what a question
/// is told is the old answer, the new one, or 12 in between.
fn killed(room: &mut Room, draw: &mut Draw) -> usize {
    let mut kills = 0;
    let all = records(128, draw);
    let (old, new) = (all[..127].concat(), all.concat());
    let (before, after) = (index_of(&old).expect("a good log"), index_of(&new).expect("a good log"));
    fs::write(&room.record, &all[127]).expect("the record is written");
    let (log, index, record) = (text(&room.log), text(&room.index), text(&room.record));
    for words in [&["build", &log, &index][..], &["append", &log, &index, &record]] {
        let appends = words[0] == "append";
        for call in CALLS {
            room.hold(if appends { &old } else { &new }, &before);
            for n in 1..=calls(room, words, call).1 {
                room.hold(if appends { &old } else { &new }, &before);
                let output = traced(room, words, &format!("inject={}:signal=KILL:when={n}", names(call)), Path::new("/dev/null"));
                assert!(!output.status.success(), "{words:?}, {call} {n}: not killed");
                kills += 1;
                let (now, held) = room.files();
                assert!(now == new || (appends && now == old), "{words:?}, {call} {n}: the log");
                assert!(held == before || held == after, "{words:?}, {call} {n}: the index");
                assert!(held == before || now == new, "{words:?}, {call} {n}: an index before its log");
                let _ = fs::remove_file(room.new_file());
                if appends && now == new && held == before {
                    assert_eq!(room.count(0, 127), Told::Refused(12));
                    assert_eq!(room.append(&REFUSED, false), Told::Refused(12));
                    fs::write(&room.record, &all[127]).expect("the record is written");
                    assert_eq!(room.build(), written(&after));
                }
            }
        }
    }
    kills
}

/// A build and an append of which one call fails: both files are the old ones, or, where only the telling failed, the
/// new ones; and no new file is left.
fn failed(room: &mut Room, draw: &mut Draw) -> usize {
    let mut failures = 0;
    let all = records(128, draw);
    let (old, new) = (all[..127].concat(), all.concat());
    let (before, after) = (index_of(&old).expect("a good log"), index_of(&new).expect("a good log"));
    fs::write(&room.record, &all[127]).expect("the record is written");
    let (log, index, record) = (text(&room.log), text(&room.index), text(&room.record));
    for words in [&["build", &log, &index][..], &["append", &log, &index, &record]] {
        let first = if words[0] == "append" { &old } else { &new };
        for (call, error) in [("write", "ENOSPC"), ("fsync", "EIO"), ("rename", "EACCES"), ("read", "EIO"), ("openat", "EACCES")] {
            room.hold(first, &before);
            let (loading, all) = calls(room, words, call);
            for n in loading + 1..=all {
                room.hold(first, &before);
                let output = traced(room, words, &format!("inject={}:error={error}:when={n}", names(call)), Path::new("/dev/null"));
                failures += 1;
                let (files, done) = (room.files(), (new.clone(), after.clone()));
                assert!(files == done || files == (first.clone(), before.clone()), "{words:?}, {call} {n} fails: the files are neither");
                assert!(files == done || !output.stderr.is_empty(), "{words:?}, {call} {n} fails: nothing is told");
                assert!(!room.new_file().exists(), "{words:?}, {call} {n} fails: a new file is left");
            }
        }
    }
    failures
}

fn main() {
    let arguments: Vec<String> = env::args().skip(1).collect();
    let [root, room] = &arguments[..] else {
        eprintln!("usage: fallbacks ROOT ROOM");
        std::process::exit(2);
    };
    let at = |name: &str| Path::new(room).join(name);
    let mut room = Room { root: PathBuf::from(root), log: at("log"), index: at("index"), record: at("record"), runs: 0 };
    let mut draw = Draw(29);
    let mut script = Script { input: vec![], output: vec![], log: vec![], buffer: vec![0; 4096], length: 0 };
    whole_logs(&mut room, &mut script, &mut draw);
    appended(&mut room, &mut script, &mut draw);
    library(&room.root, &script);
    refused(&mut room, &mut draw);
    println!("./fallbacks: {} runs, lines, status and files as 02's words and the library give them", room.runs);
    if Command::new("strace").arg("-V").output().is_err() {
        println!("./fallbacks: runs that are killed, or of which a call fails, left out: no strace");
        return;
    }
    let kills = killed(&mut room, &mut draw);
    let failures = failed(&mut room, &mut draw);
    println!("./fallbacks: {kills} runs killed before a call, {failures} of which one failed: each file the old or the new one");
}
