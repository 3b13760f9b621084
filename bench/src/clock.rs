//! The processor time of this thread. On a machine that others use too, a long run is always interrupted and a short one
//! seldom, so a wall clock would favour the faster program.

#[repr(C)]
struct TimeSpec {
    seconds: i64,
    nanoseconds: i64,
}

extern "C" {
    fn clock_gettime(clock: i32, time: *mut TimeSpec) -> i32;
}

/// Linux's number for the clock of the calling thread.
const THREAD_CPU_TIME: i32 = 3;

/// In nanoseconds.
pub fn thread_time() -> f64 {
    let mut time = TimeSpec {
        seconds: 0,
        nanoseconds: 0,
    };
    // The structure is the one that 64-bit Linux fills.
    let answer = unsafe { clock_gettime(THREAD_CPU_TIME, &mut time) };
    assert_eq!(answer, 0, "the thread has a clock");
    time.seconds as f64 * 1e9 + time.nanoseconds as f64
}
