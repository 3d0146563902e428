//! The processor time that a child process has taken, as Linux counts it.

use std::process::Child;

/// Seconds and microseconds, in the program and in the system; what else Linux tells is not looked at.
#[repr(C)]
struct Usage {
    times: [[i64; 2]; 2],
    others: [i64; 14],
}

extern "C" {
    fn wait4(process: i32, status: *mut i32, options: i32, usage: *mut Usage) -> i32;
}

/// Waits for the end. Nanoseconds; none where the child failed.
pub fn processor_time(child: Child) -> Option<f64> {
    let process = child.id() as i32;
    let mut status = 0;
    let mut usage = Usage {
        times: [[0; 2]; 2],
        others: [0; 14],
    };
    let ended = unsafe { wait4(process, &mut status, 0, &mut usage) };
    let nanoseconds =
        |[seconds, microseconds]: [i64; 2]| seconds as f64 * 1e9 + microseconds as f64 * 1e3;
    (ended == process && status == 0).then(|| usage.times.map(nanoseconds).iter().sum())
}
