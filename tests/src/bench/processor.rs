//! The processor time of child processes, which other work on the machine lengthens less than the
//! time on the clock.

/// As Linux has it on x86-64: C's struct timeval and struct rusage.
#[repr(C)]
#[derive(Clone, Copy, Default)]
struct Time {
    seconds: i64,
    microseconds: i64,
}

#[repr(C)]
#[derive(Default)]
struct Usage {
    user: Time,
    system: Time,
    others: [i64; 14],
}

extern "C" {
    fn getrusage(who: i32, usage: *mut Usage) -> i32;
}

const CHILDREN: i32 = -1;

/// Seconds that all children that have ended took so far.
pub fn seconds_of_children() -> f64 {
    let mut usage = Usage::default();
    // SAFETY: the struct has the layout and the size that the system writes.
    let status = unsafe { getrusage(CHILDREN, &mut usage) };
    assert_eq!(status, 0, "getrusage");
    let seconds = |time: Time| time.seconds as f64 + time.microseconds as f64 / 1e6;
    seconds(usage.user) + seconds(usage.system)
}
