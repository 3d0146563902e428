//! Tries the Rust wrapper: every function once fine and once refused, and a session in each of four threads. Its last
//! line tells how many checks held.
use boltmeadow::*;
use std::sync::atomic::{AtomicUsize, Ordering};

static CHECKS: AtomicUsize = AtomicUsize::new(0);
const A: Line = Line { point: [0.0, 1.0], direction: [1.0, 0.0] };
const B: Line = Line { point: [0.0, -1.0], direction: [-1.0, 0.0] };
const CART: Cart =
    Cart { position: [0.0; 2], velocity: [0.0; 2], margin: 0.5, horizon: 1.0, wish: [0.0, 1.0], limit: 2.0 };
const WALL: Obstacles = Obstacles { obstacles: 1, kinds: &[2], counts: &[2], vertices: &[-1.0, 1.0, 1.0, 1.0] };

#[track_caller]
fn same<T: PartialEq + std::fmt::Debug>(found: T, wanted: T) {
    assert_eq!(found, wanted);
    CHECKS.fetch_add(1, Ordering::Relaxed);
}

fn scenes() {
    let mut buffer = [0; SCENE_BYTES];
    same(write_scene(CART, WALL, &[], &mut buffer), Ok(59));
    let scene = &buffer[..59];
    let answer = answer_record(scene).unwrap();
    same((answer.outcome, answer.velocity, answer.failure, answer.probes), (1, [0.0, 0.5], None, 1));
    same(answer.record, [0, 16, 1, 1, 0, 0, 0, 0, 0x3F, 0, 0, 0, 0xFF, 0xFF, 0, 0, 0, 1]);
    let outcome = Reply::Outcome { outcome: 1, velocity: [0, 0x3F000000], failed_line: None, probes: 1 };
    same(read_answer(&answer.record), Ok(outcome));
    same(read_answer(&[0, 2, 1, 134]), Ok(Reply::Refused(Refusal(6))));
    same(answer_record(&scene[..58]).unwrap_err(), Refusal(2));
    let read = read_scene(scene).unwrap();
    same((read.cart, read.obstacles().vertices, read.lines().len(), read.numbers().len()), (CART, WALL.vertices, 0, 0));
    same(read_scene(&[]).unwrap_err(), Refusal(2));
    let (mut two, mut one) = ([0; SCENE_BYTES], [0; SCENE_BYTES]);
    same(to_version_2(scene, &mut two), Ok(59));
    same(to_version_1(&two[..59], &mut one), Ok(59));
    same(&one[..59], scene);
    same(to_version_1(scene, &mut one), Err(Refusal(1)));
    same(write_scene(CART, WALL, &[], &mut buffer[..58]), Err(Refusal(10)));
}

fn lists_and_walls() {
    let failure = Some(Failure { index: 1, cause: Cause::Parallel(0) });
    let p7 = Standing { phase: Phase::Relaxing(1.0), point: [-2.0, 0.0], failure, probes: 6 };
    same(solve_list(&[A, B], 0, [0.0; 2], 2.0), Ok(p7));
    same(solve_list(&[A, B], 0, [0.0; 2], -1.0), Err(Refusal(6)));
    same(check_move([0.0; 2], [0.0, 2.0], WALL), Ok(Some(Crossing { obstacle: 0, vertex: 0, edges: 1 })));
    same(check_move([0.0; 2], [2.0, 0.0], WALL), Ok(None));
    same(check_move([0.0; 2], [f32::NAN, 0.0], WALL), Err(Refusal(6)));
    let made = obstacle_lines(CART, 2, &[[-1.0, 1.0], [1.0, 1.0]]).unwrap();
    same(&made[..], &[Line { point: [-1.0, 0.5], direction: [-1.0, 0.0] }][..]);
    same(obstacle_lines(CART, 2, &[]).unwrap_err(), Refusal(5));
}

fn logs() {
    let (log, mut index) = ([0, 2, 1, 134], [0; 21]);
    let tally = tally_log(&log).unwrap();
    same((tally.refusals[6], tally.outcomes, tally.probes), (1, [0; 6], 0));
    same(tally_log(&[0, 2, 1, 134, 0]).unwrap_err(), (Refusal(2), 1));
    same(build_index(&[], &mut index), Ok(21));
    same(append_record(&[], &mut index, 21, &log), Ok(21));
    same(count_fallbacks(&log, &index, 0..1), Ok(0));
    same(count_fallbacks(&log, &index, 0..2), Err(Refusal(13)));
    same(build_index(&log, &mut index[..20]), Err(Refusal(10)));
    same(append_record(&[], &mut index, 21, &log), Err(Refusal(12)));
}

fn session(rigid: usize) -> Session {
    let mut session = Session::start([0.0; 2], 2.0, rigid).unwrap();
    session.batch_with_origins(&[A], &[Origin { kind: 1, place: 3, vertex: 0 }]).unwrap();
    session.batch(&[B]).unwrap();
    session
}

fn sessions() {
    let mut s = session(0);
    same(Ok(s.standing()), solve_list(&[A, B], 0, [0.0; 2], 2.0));
    same((s.lines(), s.origins()[1], s.rigid(), s.wish()), (&[A, B][..], Origin::default(), 0, ([0.0; 2], 2.0)));
    same(s.batch(&[A; 255]), Err(Refusal(4)));
    same(s.withdraw(2), Err(Refusal(15)));
    same(s.clone(), session(0));
    same(s.first_unmet(&[A]), Ok(Some(2)));
    same(s.change_origin(1, 3, &[A], &[Origin { kind: 1, place: 3, vertex: 0 }]), Ok(1));
    same(s.lines(), &[B, A][..]);
    same(s.change(&[0, 1], &[A], &[]), Ok(()));
    same(s.standing().point, [0.0, 1.0]);
    same(s.withdraw(0), Ok(()));
    same(s, Session::start([0.0; 2], 2.0, 0).unwrap());
    same(Session::start([0.0; 2], f32::NAN, 0), Err(Refusal(6)));
}

fn main() {
    scenes();
    lists_and_walls();
    logs();
    sessions();
    let threads: Vec<_> = (0..4).map(|rigid| std::thread::spawn(move || session(rigid))).collect();
    for (rigid, thread) in threads.into_iter().enumerate() {
        same(thread.join().unwrap(), session(rigid));
    }
    println!("the Rust wrapper: ok {}", CHECKS.load(Ordering::Relaxed));
}
