//! A clock that stands still, and pauses that take no time.
//!
//! The standard library asks the C library for the time and for pauses. The
//! functions below take that library's place in this program, for both sides:
//! a run does not wait, and its count does not depend on the time of day.

/// C's `struct timespec` on a 64-bit Linux.
#[repr(C)]
struct Timespec {
    seconds: i64,
    nanoseconds: i64,
}

#[unsafe(no_mangle)]
extern "C" fn clock_gettime(_clock: i32, time: *mut Timespec) -> i32 {
    let now = Timespec {
        seconds: 1_000_000,
        nanoseconds: 0,
    };
    unsafe { time.write(now) };
    0
}

#[unsafe(no_mangle)]
extern "C" fn nanosleep(_length: *const Timespec, _left: *mut Timespec) -> i32 {
    0
}

#[unsafe(no_mangle)]
extern "C" fn clock_nanosleep(
    _clock: i32,
    _flags: i32,
    _until: *const Timespec,
    _left: *mut Timespec,
) -> i32 {
    0
}
