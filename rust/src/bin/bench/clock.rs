//! The processor time of this thread: on a machine that others use too it says more
//! than the time on the wall, and with no input or output the two are otherwise equal.

#[repr(C)]
struct Timespec {
    seconds: i64,
    nanoseconds: i64,
}

extern "C" {
    fn clock_gettime(clock: i32, time: *mut Timespec) -> i32;
}

/// Linux's number for the clock of a thread.
const THREAD_CLOCK: i32 = 3;

/// Seconds that this thread has run.
pub fn seconds() -> f64 {
    let mut time = Timespec { seconds: 0, nanoseconds: 0 };
    // SAFETY: the C library writes one time of this form, for which there is room.
    let failed = unsafe { clock_gettime(THREAD_CLOCK, &mut time) };
    assert_eq!(failed, 0, "this system has no clock for a thread");
    time.seconds as f64 + time.nanoseconds as f64 * 1e-9
}

/// Keeps the time of a call if it is the shortest so far.
pub fn keep(shortest: &mut Option<f64>, call: impl FnOnce()) {
    let start = seconds();
    call();
    let seconds = seconds() - start;
    *shortest = Some(shortest.map_or(seconds, |before| before.min(seconds)));
}
