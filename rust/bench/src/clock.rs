//! The processor time of this thread: what other programs take isn't counted.
//! For Linux on 64 bits only.

use std::time::Duration;

/// Linux's number for that clock.
const THREAD_TIME: i32 = 3;

pub fn now() -> Duration {
    extern "C" {
        fn clock_gettime(clock: i32, time: *mut [i64; 2]) -> i32;
    }
    let mut time = [0, 0];
    // Safe because the two numbers are the seconds and nanoseconds that the call fills in.
    let status = unsafe { clock_gettime(THREAD_TIME, &mut time) };
    assert_eq!(status, 0, "no clock of processor time");
    Duration::new(time[0] as u64, time[1] as u32)
}
