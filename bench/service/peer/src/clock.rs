//! The time and the processor time that was used, in microseconds.

/// The time.
pub fn now() -> u64 {
    read(libc::CLOCK_MONOTONIC)
}

/// Processor time of the process and of this thread, and when.
#[derive(Clone, Copy)]
pub struct Used {
    pub time: u64,
    pub process: u64,
    pub thread: u64,
}

impl Used {
    /// What was used by now.
    pub fn read() -> Used {
        Used {
            time: now(),
            process: read(libc::CLOCK_PROCESS_CPUTIME_ID),
            thread: read(libc::CLOCK_THREAD_CPUTIME_ID),
        }
    }
}

fn read(clock: libc::clockid_t) -> u64 {
    let mut time = libc::timespec {
        tv_sec: 0,
        tv_nsec: 0,
    };
    // SAFETY: the call writes to `time` alone, which is this function's own.
    unsafe { libc::clock_gettime(clock, &mut time) };
    time.tv_sec as u64 * 1_000_000 + time.tv_nsec as u64 / 1000
}
