//! What std lacks of the system: waiting for pipes within a limit of time, and a child that signals spare.

use std::io::{self, ErrorKind};
use std::os::fd::AsRawFd;
use std::os::raw::{c_int, c_short, c_ulong};
use std::os::unix::process::CommandExt;
use std::process::Command;
use std::time::{Duration, Instant};

pub(crate) const READS: c_short = 1;
pub(crate) const WRITES: c_short = 4;

const SET_FLAGS: c_int = 4;
const NON_BLOCKING: c_int = if cfg!(target_os = "linux") { 0o4000 } else { 4 };
const SIG_HUP: c_int = 1;
const SIG_INT: c_int = 2;
const SIG_TERM: c_int = 15;
/// A limit on the size of files, which is an error of the call then.
const SIG_XFSZ: c_int = 25;
const SIG_IGN: usize = 1;

/// A pipe that is waited for, and what for; afterwards, what came.
#[repr(C)]
pub(crate) struct Pipe {
    pub(crate) fd: c_int,
    pub(crate) events: c_short,
    pub(crate) came: c_short,
}

extern "C" {
    fn poll(fds: *mut Pipe, count: c_ulong, milliseconds: c_int) -> c_int;
    fn fcntl(fd: c_int, command: c_int, ...) -> c_int;
    fn setsid() -> c_int;
    fn signal(number: c_int, handler: usize) -> usize;
}

/// Waits for one of some pipes, or its end. Reports whether one is ready.
pub(crate) fn wait(pipes: &mut [Pipe], left: Duration) -> io::Result<bool> {
    // A part of a millisecond is waited for as a whole one.
    let milliseconds = left.as_micros().div_ceil(1000);
    let milliseconds = c_int::try_from(milliseconds).unwrap_or(c_int::MAX);
    // SAFETY: the pipes outlive the call, and their number is right.
    let ready = unsafe { poll(pipes.as_mut_ptr(), pipes.len() as c_ulong, milliseconds) };
    match io::Error::last_os_error() {
        error if ready < 0 && error.kind() != ErrorKind::Interrupted => Err(error),
        _ => Ok(ready > 0),
    }
}

/// Has a write to a pipe that is full fail, and not wait.
pub(crate) fn never_block(pipe: &impl AsRawFd) {
    // SAFETY: the flag is a number, and the descriptor is open.
    unsafe { fcntl(pipe.as_raw_fd(), SET_FLAGS, NON_BLOCKING) };
}

/// The time up to a deadline.
pub(crate) fn left(deadline: Option<Instant>) -> Duration {
    deadline.map_or(Duration::MAX, |it| {
        it.saturating_duration_since(Instant::now())
    })
}

/// Has a program started in a session of its own, and ignore what is meant to end its parent.
pub(crate) fn spare(command: &mut Command) -> &mut Command {
    let become_spared = || {
        // SAFETY: both may be called between a fork and an exec, and neither takes a pointer.
        unsafe {
            setsid();
            for number in [SIG_HUP, SIG_INT, SIG_TERM, SIG_XFSZ] {
                signal(number, SIG_IGN);
            }
        }
        Ok(())
    };
    // SAFETY: what it does is safe between a fork and an exec.
    unsafe { command.pre_exec(become_spared) }
}
