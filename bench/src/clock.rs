//! The processor time of this thread: waiting while other programs run doesn't count.

#[repr(C)]
struct Time {
    seconds: i64,
    nanoseconds: i64,
}

extern "C" {
    fn clock_gettime(clock: i32, time: *mut Time) -> i32;
}

/// CLOCK_THREAD_CPUTIME_ID on Linux.
const THREAD: i32 = 3;

/// Nanoseconds since some moment.
pub fn now() -> u64 {
    let mut time = Time { seconds: 0, nanoseconds: 0 };
    // The pointer is that of a live value with the layout that Linux has on x86-64.
    unsafe { clock_gettime(THREAD, &raw mut time) };
    time.seconds as u64 * 1_000_000_000 + time.nanoseconds as u64
}
