//! The processor time of this thread (Linux), which leaves out what it spends waiting for the processor. All that is unsafe in
//! it stands here.

#[repr(C)]
#[derive(Default)]
struct Reading {
    seconds: i64,
    nanoseconds: i64,
}

const THREAD: i32 = 3;

extern "C" {
    fn clock_gettime(clock: i32, reading: *mut Reading) -> i32;
}

/// In seconds, from some start.
pub fn now() -> f64 {
    let mut reading = Reading::default();
    let status = unsafe { clock_gettime(THREAD, &mut reading) };
    assert!(status == 0, "there is no clock of the thread");
    reading.seconds as f64 + reading.nanoseconds as f64 * 1e-9
}
