//! Processor time, which does not run on while another program has the processor.

/// Nanoseconds since some moment.
pub type Clock = fn() -> f64;

#[repr(C)]
#[derive(Default)]
struct Moment {
    seconds: i64,
    /// Nanoseconds, or microseconds in `Usage`.
    part: i64,
}

/// Of the fields of C's `struct rusage` the two that are read; the others only keep its size.
#[repr(C)]
#[derive(Default)]
struct Usage {
    user: Moment,
    system: Moment,
    others: [i64; 14],
}

const THREAD: i32 = 3;
const CHILDREN: i32 = -1;

unsafe extern "C" {
    fn clock_gettime(clock: i32, moment: *mut Moment) -> i32;
    fn getrusage(who: i32, usage: *mut Usage) -> i32;
}

/// Time of this thread.
pub fn thread() -> f64 {
    let mut moment = Moment::default();
    let failed = unsafe { clock_gettime(THREAD, &mut moment) };
    assert_eq!(failed, 0, "no clock of the thread's time");
    moment.seconds as f64 * 1.0e9 + moment.part as f64
}

/// Time of all programs that were run and have ended.
pub fn children() -> f64 {
    let mut usage = Usage::default();
    let failed = unsafe { getrusage(CHILDREN, &mut usage) };
    assert_eq!(failed, 0, "no clock of the children's time");
    let seconds = usage.user.seconds + usage.system.seconds;
    let part = usage.user.part + usage.system.part;
    seconds as f64 * 1.0e9 + part as f64 * 1.0e3
}
