//! Linux's epoll, which the standard library lacks.

use crate::process::Timespec;
use std::io;
use std::os::fd::{AsRawFd, FromRawFd, OwnedFd, RawFd};
use std::ptr;
use std::time::Duration;

/// What is waited for.
const READABLE: u32 = 1;
const WRITABLE: u32 = 4;
/// What is told unasked: a fault, and a peer that hung up.
const BROKEN: u32 = 8 | 16;

/// What is done with a descriptor: it is added, or waited for otherwise.
const ADD: i32 = 1;
const CHANGE: i32 = 3;

/// The descriptor is closed where a program is started.
const CLOSE_ON_EXEC: i32 = 0o2000000;

/// How many events are taken at once at most.
const EVENTS: usize = 256;

/// An event as the system writes it.
#[derive(Clone, Copy)]
#[repr(C)]
#[cfg_attr(target_arch = "x86_64", repr(packed))]
struct RawEvent {
    events: u32,
    token: u64,
}

extern "C" {
    fn epoll_create1(flags: i32) -> i32;
    fn epoll_ctl(poll: i32, operation: i32, descriptor: i32, event: *mut RawEvent) -> i32;
    fn epoll_pwait2(
        poll: i32,
        events: *mut RawEvent,
        most: i32,
        timeout: *const Timespec,
        signals: *const u8,
    ) -> i32;
}

/// What came of one descriptor.
#[derive(Clone, Copy, Debug)]
pub struct Event {
    /// The number that it was added under.
    pub token: usize,
    pub is_readable: bool,
    pub is_writable: bool,
}

/// A set of descriptors that is waited for.
pub struct Poll {
    descriptor: OwnedFd,
    raw: Vec<RawEvent>,
}

/// The answer of a call, or its error.
fn checked(answer: i32) -> io::Result<i32> {
    if answer < 0 {
        Err(io::Error::last_os_error())
    } else {
        Ok(answer)
    }
}

impl Poll {
    pub fn new() -> io::Result<Poll> {
        // The descriptor is new and nobody else's.
        let descriptor = unsafe { OwnedFd::from_raw_fd(checked(epoll_create1(CLOSE_ON_EXEC))?) };
        Ok(Poll {
            descriptor,
            raw: vec![
                RawEvent {
                    events: 0,
                    token: 0
                };
                EVENTS
            ],
        })
    }

    /// Has the system add or change a descriptor.
    fn control(&self, operation: i32, fd: RawFd, token: usize, writes: bool) -> io::Result<()> {
        let events = READABLE | if writes { WRITABLE } else { 0 };
        let mut event = RawEvent {
            events,
            token: token as u64,
        };
        // The call reads the event and keeps no reference to it.
        checked(unsafe { epoll_ctl(self.descriptor.as_raw_fd(), operation, fd, &mut event) })?;
        Ok(())
    }

    /// Waits from now on until this descriptor is readable.
    pub fn add(&self, descriptor: &impl AsRawFd, token: usize) -> io::Result<()> {
        self.control(ADD, descriptor.as_raw_fd(), token, false)
    }

    /// Waits from now on until it is readable and, if it is to write, until it is writable.
    pub fn change(&self, descriptor: &impl AsRawFd, token: usize, writes: bool) -> io::Result<()> {
        self.control(CHANGE, descriptor.as_raw_fd(), token, writes)
    }

    /// Waits so long at most, and puts what came in place of what is in the list.
    pub fn wait(&mut self, timeout: Duration, found: &mut Vec<Event>) -> io::Result<()> {
        found.clear();
        let timeout = Timespec {
            seconds: timeout.as_secs() as i64,
            nanos: i64::from(timeout.subsec_nanos()),
        };
        let poll = self.descriptor.as_raw_fd();
        let most = self.raw.len() as i32;
        // The call writes so many events at most.
        let answer =
            unsafe { epoll_pwait2(poll, self.raw.as_mut_ptr(), most, &timeout, ptr::null()) };
        let count = match checked(answer) {
            Ok(count) => count as usize,
            Err(error) if error.kind() == io::ErrorKind::Interrupted => 0,
            Err(error) => return Err(error),
        };
        for raw in &self.raw[..count] {
            let events = raw.events;
            found.push(Event {
                token: raw.token as usize,
                is_readable: events & (READABLE | BROKEN) != 0,
                is_writable: events & WRITABLE != 0,
            });
        }
        Ok(())
    }
}
