//! The processor time of this thread (Linux): unlike the time of day it leaves out what other programs take.

use std::time::Duration;

const THREAD_CPU_TIME: i32 = 3;

#[repr(C)]
struct Timespec {
    seconds: i64,
    nanos: i64,
}

extern "C" {
    fn clock_gettime(clock: i32, time: *mut Timespec) -> i32;
}

pub fn now() -> Duration {
    let mut time = Timespec {
        seconds: 0,
        nanos: 0,
    };
    // SAFETY: the pointer is to a live value of the layout that 64-bit Linux writes.
    let failed = unsafe { clock_gettime(THREAD_CPU_TIME, &mut time) };
    assert_eq!(failed, 0, "no processor clock");
    Duration::new(time.seconds as u64, time.nanos as u32)
}
