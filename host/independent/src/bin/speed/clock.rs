//! The clock that is measured by: it goes while this program is worked on, so that what else the
//! machine does adds nothing.

#![allow(unsafe_code, reason = "the standard library has no such clock")]

/// A time, as C's `timespec` has it on Linux with 64 bits.
#[repr(C)]
struct Time {
    seconds: i64,
    nanoseconds: i64,
}

#[cfg(not(all(target_os = "linux", target_pointer_width = "64")))]
compile_error!("the layout of a time is that of Linux with 64 bits");

extern "C" {
    fn clock_gettime(clock: i32, time: *mut Time) -> i32;
}

/// The number by which Linux knows the clock of a thread's processor time.
const OF_THREAD: i32 = 3;

/// Gives the processor time of this thread in nanoseconds.
pub fn now() -> u64 {
    let mut time = Time {
        seconds: 0,
        nanoseconds: 0,
    };
    // SAFETY: the pointer is to a time of the layout that the function writes, and it is not kept.
    let failed = unsafe { clock_gettime(OF_THREAD, &mut time) };
    assert_eq!(failed, 0, "Linux has a clock for each thread");
    time.seconds as u64 * 1_000_000_000 + time.nanoseconds as u64
}

#[cfg(test)]
mod tests {
    use super::*;
    use std::thread::sleep;
    use std::time::{Duration, Instant};

    /// The clock goes on with work, never faster than time itself, and not while nothing is done.
    #[test]
    fn only_work_counts() {
        let (begun, clock) = (Instant::now(), now());
        while now() < clock + 5_000_000 {}
        assert!(begun.elapsed() >= Duration::from_millis(4));
        let clock = now();
        sleep(Duration::from_millis(50));
        assert!(now() - clock < 25_000_000);
    }
}
