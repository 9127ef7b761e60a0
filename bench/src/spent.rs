//! The processor's time that was spent, so that what else runs on the machine counts as little as can be.

use std::time::Duration;

extern "C" {
    fn clock_gettime(clock: i32, time: *mut [i64; 2]) -> i32;
    fn getrusage(who: i32, usage: *mut [i64; 18]) -> i32;
}

const THREAD_CPUTIME: i32 = 3;
const CHILDREN: i32 = -1;

/// By this thread
pub fn here() -> Duration {
    let mut time = [0; 2];
    // Linux on 64 bits: a timespec is two numbers
    let failed = unsafe { clock_gettime(THREAD_CPUTIME, &mut time) };
    assert_eq!(failed, 0);
    Duration::from_secs(time[0] as u64) + Duration::from_nanos(time[1] as u64)
}

/// By programs that were started here and have ended
pub fn by_programs() -> Duration {
    let mut usage = [0; 18];
    // Linux on 64 bits: a rusage is two timevals of two numbers, user's and system's, and 14 more
    let failed = unsafe { getrusage(CHILDREN, &mut usage) };
    assert_eq!(failed, 0);
    let [seconds, micros, more, further, ..] = usage;
    Duration::from_secs((seconds + more) as u64) + Duration::from_micros((micros + further) as u64)
}
