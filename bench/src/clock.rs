//! Processor time of this thread: what other processes do meanwhile does not count. The standard
//! library has no such clock, so this module, and it alone, calls C for it.

/// `CLOCK_THREAD_CPUTIME_ID` of Linux.
const THREAD_TIME: i32 = 3;

/// C's `struct timespec` on 64-bit Linux.
#[repr(C)]
struct Timespec {
    seconds: i64,
    nanoseconds: i64,
}

extern "C" {
    fn clock_gettime(clock: i32, time: *mut Timespec) -> i32;
}

/// Nanoseconds of processor time that this thread has used.
pub fn thread_time() -> u64 {
    let mut time = Timespec {
        seconds: 0,
        nanoseconds: 0,
    };
    // SAFETY: `time` is laid out as C's structure and lives, writable, until the call is over.
    let status = unsafe { clock_gettime(THREAD_TIME, &mut time) };
    assert_eq!(status, 0, "this system has no clock for a thread's time");
    time.seconds as u64 * 1_000_000_000 + time.nanoseconds as u64
}

#[cfg(test)]
mod tests {
    use super::*;

    #[test]
    fn work_takes_time_and_sleep_does_not() {
        let start = thread_time();
        std::thread::sleep(std::time::Duration::from_millis(50));
        let slept = thread_time() - start;
        assert!(slept < 25_000_000, "{slept} ns asleep");
        let sum = (0..1_000_000).fold(1u64, |sum, n| std::hint::black_box(sum * 3 + n));
        std::hint::black_box(sum);
        assert!(thread_time() - start > slept);
    }
}
