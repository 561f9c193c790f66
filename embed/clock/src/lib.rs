//! Processor time, as Linux tells it: on a machine that does other work too it tells more of what is done than the time
//! of day.

use std::time::Duration;

#[repr(C)]
struct Time {
    seconds: i64,
    nanoseconds: i64,
}

unsafe extern "C" {
    fn clock_gettime(clock: i32, time: *mut Time) -> i32;
}

// CLOCK_PROCESS_CPUTIME_ID and CLOCK_THREAD_CPUTIME_ID.
const OF_PROCESS: i32 = 2;
const OF_THREAD: i32 = 3;

/// That of this process so far.
pub fn of_process() -> Duration {
    read(OF_PROCESS)
}

/// That of this thread so far.
pub fn of_thread() -> Duration {
    read(OF_THREAD)
}

fn read(clock: i32) -> Duration {
    let mut time = Time { seconds: 0, nanoseconds: 0 };
    // SAFETY: both clocks are there, and the time is this function's own.
    unsafe { clock_gettime(clock, &mut time) };
    Duration::new(time.seconds as u64, time.nanoseconds as u32)
}
