//! The processor time of this thread, which stands still while something else runs.

#[repr(C)]
struct Timespec {
    seconds: i64,
    nanoseconds: i64,
}

extern "C" {
    fn clock_gettime(clock: i32, time: *mut Timespec) -> i32;
}

/// Linux's number.
const CLOCK_THREAD_CPUTIME_ID: i32 = 3;

/// In ns.
pub fn now() -> f64 {
    let mut time = Timespec {
        seconds: 0,
        nanoseconds: 0,
    };
    // SAFETY: the time is written to a place of ours, laid out as C does on 64 bits.
    let failed = unsafe { clock_gettime(CLOCK_THREAD_CPUTIME_ID, &mut time) };
    assert_eq!(failed, 0, "there is no clock");
    time.seconds as f64 * 1e9 + time.nanoseconds as f64
}
