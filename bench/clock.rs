//! The processor time of this thread, to which other work on the machine adds nothing.

extern "C" {
    fn clock_gettime(clock: i32, told: *mut [i64; 2]) -> i32;
}

/// The number of that clock on Linux.
const OF_THREAD: i32 = 3;

/// Nanoseconds.
pub fn spent() -> f64 {
    let mut told = [0; 2];
    let ended = unsafe { clock_gettime(OF_THREAD, &mut told) };
    assert_eq!(ended, 0, "a thread has a clock");
    told[0] as f64 * 1e9 + told[1] as f64
}
