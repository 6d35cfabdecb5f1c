//! The few calls of the system that the standard library has not.

use std::ffi::{c_char, CStr, OsStr};
use std::fs::{File, OpenOptions};
use std::io::{Error, Result};
use std::os::fd::{AsRawFd, FromRawFd};
use std::os::unix::ffi::OsStrExt;
use std::os::unix::fs::OpenOptionsExt;
use std::process::Child;

extern "C" {
    fn pipe2(ends: *mut i32, flags: i32) -> i32;
    fn fcntl(fd: i32, command: i32, ...) -> i32;
    fn kill(process: i32, signal: i32) -> i32;
    fn posix_openpt(flags: i32) -> i32;
    fn grantpt(fd: i32) -> i32;
    fn unlockpt(fd: i32) -> i32;
    fn ptsname(fd: i32) -> *const c_char;
}

const O_RDWR: i32 = 0o2;
const O_NOCTTY: i32 = 0o400;
const O_NONBLOCK: i32 = 0o4000;
const O_CLOEXEC: i32 = 0o2000000;
const F_SETPIPE_SZ: i32 = 1031;
/// The smallest pipe.
const PAGE: i32 = 4096;
const SIGCONT: i32 = 18;
const SIGSTOP: i32 = 19;

fn done(answer: i32) -> Result<i32> {
    match answer {
        -1 => Err(Error::last_os_error()),
        _ => Ok(answer),
    }
}

/// A pipe of one page that never waits: its end to read and its end to write.
pub fn small_pipe() -> Result<(File, File)> {
    let mut ends = [0; 2];
    // SAFETY: room for the two descriptors, which belong to no one else then.
    unsafe {
        done(pipe2(ends.as_mut_ptr(), O_NONBLOCK | O_CLOEXEC))?;
        let files = (File::from_raw_fd(ends[0]), File::from_raw_fd(ends[1]));
        done(fcntl(ends[1], F_SETPIPE_SZ, PAGE))?;
        Ok(files)
    }
}

/// A terminal: who sits at it, and what a program reads from.
pub fn terminal() -> Result<(File, File)> {
    // SAFETY: the descriptor is new, and the name is copied before the next call.
    let (master, name) = unsafe {
        let fd = done(posix_openpt(O_RDWR | O_NOCTTY | O_CLOEXEC))?;
        let master = File::from_raw_fd(fd);
        done(grantpt(fd))?;
        done(unlockpt(fd))?;
        let name = ptsname(master.as_raw_fd());
        if name.is_null() {
            return Err(Error::last_os_error());
        }
        (master, CStr::from_ptr(name).to_owned())
    };
    let mut open = OpenOptions::new();
    open.read(true).write(true).custom_flags(O_NOCTTY);
    let line = open.open(OsStr::from_bytes(name.to_bytes()))?;
    Ok((master, line))
}

/// Stops the child and lets it go on.
pub fn interrupt(child: &Child) -> Result<()> {
    for signal in [SIGSTOP, SIGCONT] {
        // SAFETY: the child has not been waited for, so the number is its own.
        unsafe { done(kill(child.id() as i32, signal))? };
    }
    Ok(())
}
