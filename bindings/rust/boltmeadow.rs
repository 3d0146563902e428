//! Boltmeadow's proved velocity solver in process: a safe Rust API over libboltmeadow.a, for x86-64 Linux. No allocation,
//! no state; docs/RECORDS.md of the repository says what scenes, lines, outcomes and refusals mean, include/boltmeadow.h
//! what each call refuses.
#![no_std]
#![deny(missing_docs)]

use core::fmt;
use core::ops::{Deref, Range};

/// The most lines of a list or a session.
pub const MOST_LINES: usize = 256;
/// The bytes of an outcome's record.
pub const ANSWER_BYTES: usize = 18;
/// The bytes of the longest scene record, which is of version 2.
pub const SCENE_BYTES: usize = 2889;

/// The number of a refusal, 1 to 15.
#[derive(Clone, Copy, Debug, PartialEq, Eq)]
pub struct Refusal(pub u32);

impl fmt::Display for Refusal {
    fn fmt(&self, f: &mut fmt::Formatter<'_>) -> fmt::Result {
        let text = match self.0 {
            1 => "another version",
            2 => "bytes or numbers are missing or left over",
            3 => "an obstacle is neither closed nor open",
            4 => "a count or a length is over its limit",
            5 => "an open obstacle has no vertices",
            6 => "a number is not finite or out of its range",
            7 => "a line's direction is out of its band",
            8 => "the ends of an interval are not in order at the clamp to a wish",
            9 => "a wall's line is not admitted, or a point is not finite",
            10 => "a lent buffer is too short",
            11 => "a move to version 1 would lose a neighbour's number",
            12 => "the log has another length than its index names",
            13 => "the records asked for are not in the log, or not in order",
            14 => "an obstacle has a doubled vertex",
            15 => "an index is not below the line count, or not above the one before",
            _ => "no refusal has this number",
        };
        write!(f, "refused with {}: {text}", self.0)
    }
}

impl core::error::Error for Refusal {}

fn told<T>(refusal: u32, value: T) -> Result<T, Refusal> {
    if refusal == 0 {
        Ok(value)
    } else {
        Err(Refusal(refusal))
    }
}

/// A half-plane of velocities: those to the left of `direction` through `point`.
#[repr(C)]
#[derive(Clone, Copy, Debug, Default, PartialEq)]
pub struct Line {
    /// a velocity on the line
    pub point: [f32; 2],
    /// its direction, of length 1
    pub direction: [f32; 2],
}

/// What a line is of, three whole numbers that are kept as they stand.
#[repr(C)]
#[derive(Clone, Copy, Debug, Default, PartialEq, Eq)]
pub struct Origin {
    /// 0 unknown, 1 an obstacle's edge, 2 a neighbour
    pub kind: u32,
    /// the obstacle's or the neighbour's place, counted from 0
    pub place: u32,
    /// an edge's left vertex
    pub vertex: u32,
}

/// A cart, its wish and its limit.
#[repr(C)]
#[derive(Clone, Copy, Debug, Default, PartialEq)]
pub struct Cart {
    /// where it is
    pub position: [f32; 2],
    /// what it does now
    pub velocity: [f32; 2],
    /// how far it is to keep from walls
    pub margin: f32,
    /// how far ahead walls are looked at
    pub horizon: f32,
    /// the velocity that it would take if it were alone
    pub wish: [f32; 2],
    /// its greatest speed
    pub limit: f32,
}

/// Lent obstacles. Kinds are 1 (closed) and 2 (open); vertices have two numbers each, obstacle behind obstacle.
#[derive(Clone, Copy, Debug, Default)]
pub struct Obstacles<'a> {
    /// how many there are
    pub obstacles: usize,
    /// a kind for each
    pub kinds: &'a [u8],
    /// how many vertices each has
    pub counts: &'a [u8],
    /// the vertices of all
    pub vertices: &'a [f32],
}

/// What left nothing of a failed line.
#[derive(Clone, Copy, Debug, PartialEq, Eq)]
pub enum Cause {
    /// the circle of the limit
    Circle,
    /// this earlier line, which is parallel
    Parallel(usize),
    /// this earlier line, at which the ends crossed
    Crossing(usize),
}

/// A line that could not be met.
#[derive(Clone, Copy, Debug, PartialEq, Eq)]
pub struct Failure {
    /// its index
    pub index: usize,
    /// why
    pub cause: Cause,
}

fn failure_of(cause: usize, index: usize, earlier: usize) -> Option<Failure> {
    let cause = match cause {
        0 => return None,
        1 => Cause::Circle,
        2 => Cause::Parallel(earlier),
        _ => Cause::Crossing(earlier),
    };
    Some(Failure { index, cause })
}

/// How lines stand.
#[derive(Clone, Copy, Debug, PartialEq)]
pub enum Phase {
    /// every line is met
    Solving,
    /// lines behind the rigid ones are relaxed, by so much
    Relaxing(f32),
    /// this rigid line cannot be met
    RigidFailure(usize),
}

/// How a list of lines stands.
#[derive(Clone, Copy, Debug, PartialEq)]
pub struct Standing {
    /// the phase
    pub phase: Phase,
    /// its point
    pub point: [f32; 2],
    /// the line that failed
    pub failure: Option<Failure>,
    /// how much was looked at
    pub probes: u32,
}

/// A scene's answer.
#[derive(Clone, Copy, Debug, PartialEq)]
pub struct Answer {
    /// 1 to 5
    pub outcome: u32,
    /// the velocity to take; at outcome 5 stop instead
    pub velocity: [f32; 2],
    /// the failed line of the last pass run
    pub failure: Option<Failure>,
    /// what that line is of
    pub origin: Origin,
    /// how much was looked at
    pub probes: u32,
    /// the answer's record
    pub record: [u8; ANSWER_BYTES],
}

/// A scene that was read.
#[repr(C)]
#[derive(Clone, Debug)]
pub struct Scene {
    refusal: u32,
    /// the cart
    pub cart: Cart,
    obstacles: usize,
    kinds: [u8; 16],
    counts: [u8; 16],
    vertices: [f32; 384],
    neighbours: usize,
    lines: [Line; 64],
    numbers: [u32; 64],
}

impl Scene {
    /// Its obstacles, as they are lent to other calls.
    pub fn obstacles(&self) -> Obstacles<'_> {
        let counts = &self.counts[..self.obstacles];
        let vertices = counts.iter().map(|count| 2 * usize::from(*count)).sum();
        Obstacles {
            obstacles: self.obstacles,
            kinds: &self.kinds[..self.obstacles],
            counts,
            vertices: &self.vertices[..vertices],
        }
    }
    /// Its neighbours' lines.
    pub fn lines(&self) -> &[Line] {
        &self.lines[..self.neighbours]
    }
    /// Its neighbours' numbers, 0 each in a record of version 1.
    pub fn numbers(&self) -> &[u32] {
        &self.numbers[..self.neighbours]
    }
}

/// The first edge that a move crosses, and how many it crosses.
#[derive(Clone, Copy, Debug, PartialEq, Eq)]
pub struct Crossing {
    /// the edge's obstacle
    pub obstacle: usize,
    /// its left vertex there
    pub vertex: usize,
    /// how many edges are crossed
    pub edges: usize,
}

/// The lines of one obstacle.
#[repr(C)]
#[derive(Clone, Debug)]
pub struct ObstacleLines {
    refusal: u32,
    count: usize,
    lines: [Line; 64],
}

impl Deref for ObstacleLines {
    type Target = [Line];
    fn deref(&self) -> &[Line] {
        &self.lines[..self.count]
    }
}

/// What an answer record says.
#[derive(Clone, Copy, Debug, PartialEq, Eq)]
pub enum Reply {
    /// an outcome 1 to 5, its fields as they stand
    Outcome {
        /// 1 to 5
        outcome: u32,
        /// the bits of the velocity
        velocity: [u32; 2],
        /// none where the record has FFFF
        failed_line: Option<u32>,
        /// as counted
        probes: u32,
    },
    /// a scene that was refused
    Refused(Refusal),
}

/// The figures of a log, each by its number.
#[repr(C)]
#[derive(Clone, Copy, Debug, PartialEq, Eq)]
pub struct Tally {
    refusal: u32,
    place: u64,
    /// how many answers of each outcome
    pub outcomes: [u64; 6],
    /// how many of each refusal
    pub refusals: [u64; 16],
    /// the sum of the probes
    pub probes: u64,
    /// the most probes of one answer
    pub largest: u64,
    /// how many answers name a failed line
    pub failed: u64,
}

// What C hands back, and how it is called.
#[repr(C)]
struct RawAnswer {
    refusal: u32,
    outcome: u32,
    velocity: [f32; 2],
    cause: u32,
    failed_line: usize,
    cause_line: usize,
    origin: Origin,
    probes: u32,
}
#[repr(C)]
struct RawWritten {
    refusal: u32,
    length: usize,
}
#[repr(C)]
struct RawStanding {
    refusal: u32,
    phase: u32,
    point: [f32; 2],
    penetration: f32,
    cause: u32,
    failed_line: usize,
    cause_line: usize,
    probes: u32,
}
#[repr(C)]
struct RawCrossing {
    refusal: u32,
    edges: usize,
    obstacle: usize,
    vertex: usize,
}
#[repr(C)]
struct RawReply {
    refusal: u32,
    code: u32,
    velocity: [u32; 2],
    failed_line: u32,
    probes: u32,
}
#[repr(C)]
struct RawFallbacks {
    refusal: u32,
    count: u64,
}
#[repr(C)]
struct RawChanged {
    refusal: u32,
    withdrawn: usize,
}
#[repr(C)]
struct RawUnmet {
    refusal: u32,
    found: u32,
    index: usize,
}
type Lines = [Line; MOST_LINES];
type Origins = [Origin; MOST_LINES];
type Numbers = [f32; 6];
type Words = [usize; 8];

#[link(name = "boltmeadow", kind = "static")]
extern "C" {
    fn bm_answer_record(scene: *const u8, bytes: usize, buffer: *mut u8, room: usize) -> RawAnswer;
    fn bm_read_scene(scene: *const u8, bytes: usize) -> Scene;
    fn bm_write_scene(
        cart: Cart,
        obstacles: usize,
        kinds: *const u8,
        kinds_bytes: usize,
        counts: *const u8,
        counts_bytes: usize,
        vertices: *const f32,
        numbers: usize,
        neighbours: usize,
        lines: *const f32,
        line_numbers: usize,
        buffer: *mut u8,
        room: usize,
    ) -> RawWritten;
    fn bm_to_version_2(scene: *const u8, bytes: usize, buffer: *mut u8, room: usize) -> RawWritten;
    fn bm_to_version_1(scene: *const u8, bytes: usize, buffer: *mut u8, room: usize) -> RawWritten;
    fn bm_solve_list(
        lines: *const f32,
        numbers: usize,
        rigid: usize,
        wish_x: f32,
        wish_y: f32,
        limit: f32,
    ) -> RawStanding;
    fn bm_check_move(
        from_x: f32,
        from_y: f32,
        to_x: f32,
        to_y: f32,
        obstacles: usize,
        kinds: *const u8,
        kinds_bytes: usize,
        counts: *const u8,
        counts_bytes: usize,
        vertices: *const f32,
        numbers: usize,
    ) -> RawCrossing;
    fn bm_obstacle_lines(
        position_x: f32,
        position_y: f32,
        velocity_x: f32,
        velocity_y: f32,
        margin: f32,
        horizon: f32,
        kind: u8,
        count: usize,
        vertices: *const f32,
        numbers: usize,
    ) -> ObstacleLines;
    fn bm_read_answer(answer: *const u8, bytes: usize) -> RawReply;
    fn bm_tally_log(log: *const u8, bytes: usize) -> Tally;
    fn bm_build_index(log: *const u8, bytes: usize, buffer: *mut u8, room: usize) -> RawWritten;
    fn bm_count_fallbacks(
        log: *const u8,
        bytes: usize,
        index: *const u8,
        index_bytes: usize,
        a: usize,
        b: usize,
    ) -> RawFallbacks;
    fn bm_append_record(
        log: *const u8,
        bytes: usize,
        buffer: *mut u8,
        room: usize,
        length: usize,
        record: *const u8,
        record_bytes: usize,
    ) -> RawWritten;
    fn bm_session_start_in(
        lines: *mut Lines,
        origins: *mut Origins,
        numbers: *mut Numbers,
        words: *mut Words,
        wish_x: f32,
        wish_y: f32,
        limit: f32,
        rigid: usize,
    ) -> u32;
    fn bm_session_batch_with_origins_in(
        lines: *mut Lines,
        origins: *mut Origins,
        numbers: *mut Numbers,
        words: *mut Words,
        batch: *const f32,
        batch_numbers: usize,
        brought: *const u32,
        brought_numbers: usize,
    ) -> u32;
    fn bm_session_withdraw_in(
        lines: *mut Lines,
        origins: *mut Origins,
        numbers: *mut Numbers,
        words: *mut Words,
        index: usize,
    ) -> u32;
    fn bm_session_change_in(
        lines: *mut Lines,
        origins: *mut Origins,
        numbers: *mut Numbers,
        words: *mut Words,
        withdrawn: *const usize,
        withdrawn_numbers: usize,
        batch: *const f32,
        batch_numbers: usize,
        brought: *const u32,
        brought_numbers: usize,
    ) -> u32;
    fn bm_session_change_origin_in(
        lines: *mut Lines,
        origins: *mut Origins,
        numbers: *mut Numbers,
        words: *mut Words,
        kind: u32,
        place: u32,
        batch: *const f32,
        batch_numbers: usize,
        brought: *const u32,
        brought_numbers: usize,
    ) -> RawChanged;
    fn bm_session_first_unmet_in(
        lines: *const Lines,
        origins: *const Origins,
        numbers: *const Numbers,
        words: *const Words,
        batch: *const f32,
        batch_numbers: usize,
    ) -> RawUnmet;
}

// SAFETY of every call below: each slice is lent with its own length, what is written is lent exclusively, the arrays
// have the lengths of their types; the functions ask for nothing else, and keep nothing. A `Line` is four f32 in order,
// an `Origin` three u32, as their `repr(C)` says.

/// Answers a scene record of either version.
pub fn answer_record(scene: &[u8]) -> Result<Answer, Refusal> {
    let mut record = [0; ANSWER_BYTES];
    let raw = unsafe { bm_answer_record(scene.as_ptr(), scene.len(), record.as_mut_ptr(), record.len()) };
    let failure = failure_of(raw.cause as usize, raw.failed_line, raw.cause_line);
    let answer = Answer {
        outcome: raw.outcome,
        velocity: raw.velocity,
        failure,
        origin: raw.origin,
        probes: raw.probes,
        record,
    };
    told(raw.refusal, answer)
}

/// Reads a scene record of either version.
pub fn read_scene(scene: &[u8]) -> Result<Scene, Refusal> {
    let read = unsafe { bm_read_scene(scene.as_ptr(), scene.len()) };
    told(read.refusal, read)
}

/// Writes a scene as a record of version 1 to the buffer's start, and tells its length.
pub fn write_scene(cart: Cart, walls: Obstacles<'_>, lines: &[Line], buffer: &mut [u8]) -> Result<usize, Refusal> {
    let Obstacles { obstacles, kinds, counts, vertices } = walls;
    let raw = unsafe {
        bm_write_scene(
            cart,
            obstacles,
            kinds.as_ptr(),
            kinds.len(),
            counts.as_ptr(),
            counts.len(),
            vertices.as_ptr(),
            vertices.len(),
            lines.len(),
            lines.as_ptr().cast(),
            4 * lines.len(),
            buffer.as_mut_ptr(),
            buffer.len(),
        )
    };
    told(raw.refusal, raw.length)
}

/// Moves a scene record of version 1 to version 2, to the buffer's start, and tells its length.
pub fn to_version_2(scene: &[u8], buffer: &mut [u8]) -> Result<usize, Refusal> {
    let raw = unsafe { bm_to_version_2(scene.as_ptr(), scene.len(), buffer.as_mut_ptr(), buffer.len()) };
    told(raw.refusal, raw.length)
}

/// Moves a scene record of version 2 back to version 1, to the buffer's start, and tells its length.
pub fn to_version_1(scene: &[u8], buffer: &mut [u8]) -> Result<usize, Refusal> {
    let raw = unsafe { bm_to_version_1(scene.as_ptr(), scene.len(), buffer.as_mut_ptr(), buffer.len()) };
    told(raw.refusal, raw.length)
}

/// Solves a list of lines. Lines below `rigid` are never relaxed.
pub fn solve_list(lines: &[Line], rigid: usize, wish: [f32; 2], limit: f32) -> Result<Standing, Refusal> {
    let raw = unsafe { bm_solve_list(lines.as_ptr().cast(), 4 * lines.len(), rigid, wish[0], wish[1], limit) };
    let phase = phase_of(raw.phase as usize, raw.failed_line, raw.penetration);
    let failure = failure_of(raw.cause as usize, raw.failed_line, raw.cause_line);
    told(raw.refusal, Standing { phase, point: raw.point, failure, probes: raw.probes })
}

fn phase_of(kind: usize, index: usize, penetration: f32) -> Phase {
    match kind {
        0 => Phase::Solving,
        1 => Phase::Relaxing(penetration),
        _ => Phase::RigidFailure(index),
    }
}

/// The first edge of the obstacles that the straight way from one position to another crosses.
pub fn check_move(from: [f32; 2], to: [f32; 2], walls: Obstacles<'_>) -> Result<Option<Crossing>, Refusal> {
    let Obstacles { obstacles, kinds, counts, vertices } = walls;
    let raw = unsafe {
        bm_check_move(
            from[0],
            from[1],
            to[0],
            to[1],
            obstacles,
            kinds.as_ptr(),
            kinds.len(),
            counts.as_ptr(),
            counts.len(),
            vertices.as_ptr(),
            vertices.len(),
        )
    };
    let crossing = Crossing { obstacle: raw.obstacle, vertex: raw.vertex, edges: raw.edges };
    told(raw.refusal, (raw.edges > 0).then_some(crossing))
}

/// The lines that an obstacle of this kind asks a cart to keep to.
pub fn obstacle_lines(cart: Cart, kind: u8, vertices: &[[f32; 2]]) -> Result<ObstacleLines, Refusal> {
    let Cart { position, velocity, margin, horizon, .. } = cart;
    let made = unsafe {
        bm_obstacle_lines(
            position[0],
            position[1],
            velocity[0],
            velocity[1],
            margin,
            horizon,
            kind,
            vertices.len(),
            vertices.as_ptr().cast(),
            2 * vertices.len(),
        )
    };
    told(made.refusal, made)
}

/// Reads one answer record.
pub fn read_answer(answer: &[u8]) -> Result<Reply, Refusal> {
    let raw = unsafe { bm_read_answer(answer.as_ptr(), answer.len()) };
    let failed_line = (raw.failed_line != 0xffff).then_some(raw.failed_line);
    let reply = match raw.code.checked_sub(128) {
        None => Reply::Outcome { outcome: raw.code, velocity: raw.velocity, failed_line, probes: raw.probes },
        Some(number) => Reply::Refused(Refusal(number)),
    };
    told(raw.refusal, reply)
}

/// Counts a log of answer records. A refusal comes with the place of the record that is refused.
pub fn tally_log(log: &[u8]) -> Result<Tally, (Refusal, u64)> {
    let tally = unsafe { bm_tally_log(log.as_ptr(), log.len()) };
    let place = tally.place;
    told(tally.refusal, tally).map_err(|refusal| (refusal, place))
}

/// Builds the index of a log's fallbacks at the buffer's start, and tells its length.
pub fn build_index(log: &[u8], buffer: &mut [u8]) -> Result<usize, Refusal> {
    let raw = unsafe { bm_build_index(log.as_ptr(), log.len(), buffer.as_mut_ptr(), buffer.len()) };
    told(raw.refusal, raw.length)
}

/// How many of these records are fallbacks, outcomes 3 to 5.
pub fn count_fallbacks(log: &[u8], index: &[u8], records: Range<usize>) -> Result<u64, Refusal> {
    let raw =
        unsafe { bm_count_fallbacks(log.as_ptr(), log.len(), index.as_ptr(), index.len(), records.start, records.end) };
    told(raw.refusal, raw.count)
}

/// Brings the index in the buffer's first `length` bytes up to date with a record that is about to stand behind the log,
/// and tells its length then.
pub fn append_record(log: &[u8], buffer: &mut [u8], length: usize, record: &[u8]) -> Result<usize, Refusal> {
    let raw = unsafe {
        bm_append_record(
            log.as_ptr(),
            log.len(),
            buffer.as_mut_ptr(),
            buffer.len(),
            length,
            record.as_ptr(),
            record.len(),
        )
    };
    told(raw.refusal, raw.length)
}

/// A session: lines come and go, and after each call it stands as the list of its lines does. A refused call leaves it
/// as it was.
#[derive(Clone, Debug, PartialEq)]
pub struct Session {
    lines: Lines,
    origins: Origins,
    numbers: Numbers,
    words: Words,
}

impl Session {
    /// A session with no lines yet. Lines below `rigid` are never relaxed.
    pub fn start(wish: [f32; 2], limit: f32, rigid: usize) -> Result<Session, Refusal> {
        let (lines, origins) = ([Line::default(); MOST_LINES], [Origin::default(); MOST_LINES]);
        let mut s = Session { lines, origins, numbers: [0.0; 6], words: [0; 8] };
        let refusal = unsafe {
            bm_session_start_in(
                &mut s.lines,
                &mut s.origins,
                &mut s.numbers,
                &mut s.words,
                wish[0],
                wish[1],
                limit,
                rigid,
            )
        };
        told(refusal, s)
    }
    /// Adds lines, whose origins are unknown.
    pub fn batch(&mut self, lines: &[Line]) -> Result<(), Refusal> {
        self.batch_with_origins(lines, &[])
    }
    /// Adds lines with their origins, or with none.
    pub fn batch_with_origins(&mut self, lines: &[Line], origins: &[Origin]) -> Result<(), Refusal> {
        let refusal = unsafe {
            bm_session_batch_with_origins_in(
                &mut self.lines,
                &mut self.origins,
                &mut self.numbers,
                &mut self.words,
                lines.as_ptr().cast(),
                4 * lines.len(),
                origins.as_ptr().cast(),
                3 * origins.len(),
            )
        };
        told(refusal, ())
    }
    /// Takes back the line at an index; later ones move down by one.
    pub fn withdraw(&mut self, index: usize) -> Result<(), Refusal> {
        let refusal = unsafe {
            bm_session_withdraw_in(&mut self.lines, &mut self.origins, &mut self.numbers, &mut self.words, index)
        };
        told(refusal, ())
    }
    /// Takes back the lines at strictly ascending indices and adds others, in one step.
    pub fn change(&mut self, withdrawn: &[usize], lines: &[Line], origins: &[Origin]) -> Result<(), Refusal> {
        let refusal = unsafe {
            bm_session_change_in(
                &mut self.lines,
                &mut self.origins,
                &mut self.numbers,
                &mut self.words,
                withdrawn.as_ptr(),
                withdrawn.len(),
                lines.as_ptr().cast(),
                4 * lines.len(),
                origins.as_ptr().cast(),
                3 * origins.len(),
            )
        };
        told(refusal, ())
    }
    /// The same for every line whose origin has this kind and place; tells how many were taken back.
    pub fn change_origin(
        &mut self,
        kind: u32,
        place: u32,
        lines: &[Line],
        origins: &[Origin],
    ) -> Result<usize, Refusal> {
        let raw = unsafe {
            bm_session_change_origin_in(
                &mut self.lines,
                &mut self.origins,
                &mut self.numbers,
                &mut self.words,
                kind,
                place,
                lines.as_ptr().cast(),
                4 * lines.len(),
                origins.as_ptr().cast(),
                3 * origins.len(),
            )
        };
        told(raw.refusal, raw.withdrawn)
    }
    /// The first line of a batch that the point does not strictly meet, by the index that it would get.
    pub fn first_unmet(&self, lines: &[Line]) -> Result<Option<usize>, Refusal> {
        let raw = unsafe {
            bm_session_first_unmet_in(
                &self.lines,
                &self.origins,
                &self.numbers,
                &self.words,
                lines.as_ptr().cast(),
                4 * lines.len(),
            )
        };
        told(raw.refusal, (raw.found == 1).then_some(raw.index))
    }
    /// How the lines so far stand.
    pub fn standing(&self) -> Standing {
        let Session { numbers, words, .. } = self;
        Standing {
            phase: phase_of(words[2], words[3], numbers[5]),
            point: [numbers[3], numbers[4]],
            failure: failure_of(words[4], words[5], words[6]),
            probes: words[7] as u32,
        }
    }
    /// Its lines.
    pub fn lines(&self) -> &[Line] {
        &self.lines[..self.words[0]]
    }
    /// Their origins.
    pub fn origins(&self) -> &[Origin] {
        &self.origins[..self.words[0]]
    }
    /// How many of the first lines are never relaxed.
    pub fn rigid(&self) -> usize {
        self.words[1]
    }
    /// What it was started with: the wish, and the limit.
    pub fn wish(&self) -> ([f32; 2], f32) {
        ([self.numbers[0], self.numbers[1]], self.numbers[2])
    }
}
