// The processor time of this thread, in seconds: what else the machine does is not counted.
#[repr(C)]
struct Timespec {
    seconds: i64,
    nanoseconds: i64,
}

extern "C" {
    fn clock_gettime(clock: i32, time: *mut Timespec) -> i32;
}

// CLOCK_THREAD_CPUTIME_ID of Linux.
const THREAD: i32 = 3;

pub fn seconds() -> f64 {
    let mut t = Timespec { seconds: 0, nanoseconds: 0 };
    assert_eq!(unsafe { clock_gettime(THREAD, &mut t) }, 0);
    t.seconds as f64 + t.nanoseconds as f64 * 1e-9
}
