//! What this process has used so far, as the system tells.

use std::fs;
use std::time::Duration;

/// A time as the C library writes it.
#[repr(C)]
pub struct Timespec {
    pub seconds: i64,
    pub nanos: i64,
}

extern "C" {
    fn clock_gettime(clock: i32, time: *mut Timespec) -> i32;
}

/// The clock that tells the processor time of all threads of the process, those that have ended too.
const PROCESS_CLOCK: i32 = 2;

/// What a process has used.
#[derive(Clone, Copy, Debug, Default)]
pub struct Usage {
    /// As a user and in the system, of all threads.
    pub processor: Duration,
    /// The memory that it has, in KiB.
    pub memory: u64,
    /// The most memory that it had, in KiB.
    pub peak: u64,
    pub threads: u64,
}

impl Usage {
    /// What this process has used so far. What can't be read is 0.
    pub fn now() -> Usage {
        let status = fs::read_to_string("/proc/self/status").unwrap_or_default();
        Usage {
            processor: processor(),
            memory: number_of(&status, "VmRSS:"),
            peak: number_of(&status, "VmHWM:"),
            threads: number_of(&status, "Threads:"),
        }
    }
}

/// The processor time of the process.
fn processor() -> Duration {
    let mut time = Timespec {
        seconds: 0,
        nanos: 0,
    };
    // The call writes to the time alone.
    unsafe { clock_gettime(PROCESS_CLOCK, &mut time) };
    Duration::new(time.seconds as u64, time.nanos as u32)
}

/// The number behind this name at the front of a line.
fn number_of(status: &str, name: &str) -> u64 {
    let rest = status.lines().find_map(|line| line.strip_prefix(name));
    let word = rest.and_then(|rest| rest.split_whitespace().next());
    word.and_then(|word| word.parse().ok()).unwrap_or(0)
}
