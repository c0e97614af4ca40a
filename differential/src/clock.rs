//! The processor time of a thread: other work on the machine does not add to it.

#[repr(C)]
struct Time {
    seconds: i64,
    nanoseconds: i64,
}

// of the C library, which std links
extern "C" {
    fn clock_gettime(clock: i32, time: *mut Time) -> i32;
}

/// Linux's CLOCK_THREAD_CPUTIME_ID.
const OF_THREAD: i32 = 3;

fn nanoseconds() -> f64 {
    let mut time = Time { seconds: 0, nanoseconds: 0 };
    assert_eq!(unsafe { clock_gettime(OF_THREAD, &mut time) }, 0, "no clock of the thread");
    time.seconds as f64 * 1e9 + time.nanoseconds as f64
}

/// What a call makes, and how many nanoseconds it took.
pub fn timed<T>(call: impl FnOnce() -> T) -> (T, f64) {
    let start = nanoseconds();
    let made = call();
    (made, nanoseconds() - start)
}

/// What reading the clock itself takes.
pub fn own() -> f64 {
    (0..1_000).map(|_| timed(|| ()).1).fold(f64::INFINITY, f64::min)
}
