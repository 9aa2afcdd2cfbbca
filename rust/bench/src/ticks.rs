//! Clocks. For single calls the processor's own, which costs a few nanoseconds to read: rdtsc on x86-64, cntvct on aarch64. For
//! whole replays the time that this thread was running, so that what else the machine does in between is not counted.

use std::ffi::{c_int, c_long};
use std::time::Instant;

extern "C" {
    fn clock_gettime(clock: c_int, time: *mut [c_long; 2]) -> c_int;
}

const THREAD_TIME: c_int = 3;

/// The nanoseconds that this thread was running.
pub fn thread_time() -> f64 {
    let mut time = [0; 2];
    // SAFETY: on Linux with 64 bits a time is two words, seconds and nanoseconds.
    let failed = unsafe { clock_gettime(THREAD_TIME, &mut time) };
    assert_eq!(failed, 0, "a thread's time can be read");
    time[0] as f64 * 1e9 + time[1] as f64
}

/// Ticks since some time. It may be read a little before or after the calls beside it: the processor is not made to wait.
#[inline(always)]
pub fn now() -> u64 {
    #[cfg(target_arch = "x86_64")]
    // SAFETY: reading the clock has no effect.
    unsafe {
        core::arch::x86_64::_rdtsc()
    }
    #[cfg(target_arch = "aarch64")]
    // SAFETY: reading the clock has no effect.
    unsafe {
        let ticks: u64;
        core::arch::asm!("mrs {}, cntvct_el0", out(reg) ticks, options(nomem, nostack));
        ticks
    }
    #[cfg(not(any(target_arch = "x86_64", target_arch = "aarch64")))]
    compile_error!("which clock to read here has to be said")
}

/// Counts ticks against seconds.
pub struct Rate {
    ticks: u64,
    time: Instant,
}

impl Rate {
    pub fn start() -> Rate {
        Rate {
            ticks: now(),
            time: Instant::now(),
        }
    }

    /// Nanoseconds of a tick, since the start.
    pub fn nanoseconds(&self) -> f64 {
        let time = self.time.elapsed().as_nanos() as f64;
        time / (now() - self.ticks).max(1) as f64
    }
}
