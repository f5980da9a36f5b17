//! The time that this thread had a processor, so that what else runs on the machine counts little. Linux alone.

#[repr(C)]
struct Time {
    seconds: i64,
    nanoseconds: i64,
}

extern "C" {
    fn clock_gettime(clock: i32, time: *mut Time) -> i32;
}

const THREAD: i32 = 3; // CLOCK_THREAD_CPUTIME_ID

/// Nanoseconds since the thread began.
pub fn now() -> f64 {
    let mut time = Time { seconds: 0, nanoseconds: 0 };
    // SAFETY: the C library's declaration on 64-bit Linux, and a place of its own to write to.
    assert_eq!(unsafe { clock_gettime(THREAD, &mut time) }, 0, "the thread's clock is read");
    time.seconds as f64 * 1e9 + time.nanoseconds as f64
}
