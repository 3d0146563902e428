//! Nanoseconds of processor time: what other programs take of the machine's time does not count.

#[repr(C)]
struct Timespec {
    seconds: i64,
    nanoseconds: i64,
}

extern "C" {
    fn clock_gettime(clock: i32, time: *mut Timespec) -> i32;
}

const THREAD: i32 = 3;

/// Of this thread, since it began.
pub fn now() -> i64 {
    let mut time = Timespec {
        seconds: 0,
        nanoseconds: 0,
    };
    unsafe { clock_gettime(THREAD, &mut time) };
    time.seconds * 1_000_000_000 + time.nanoseconds
}

/// What one call takes, of so many.
pub fn of_one(calls: usize, all: impl FnOnce()) -> f64 {
    let before = now();
    all();
    (now() - before) as f64 / calls as f64
}
