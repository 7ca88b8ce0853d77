//! What is asked of the system and is not in Rust 1.63's std: whether a stream is a terminal, and standard output as a plain file, whose
//! failed writes are all told, and a lock on a file. The only unsafe code of the program.

use std::fs::File;
use std::io::{self, ErrorKind};
use std::mem::ManuallyDrop;
use std::os::unix::io::{AsRawFd, FromRawFd};

extern "C" {
    fn isatty(fd: i32) -> i32;
    fn flock(fd: i32, operation: i32) -> i32;
}

/// Linux's LOCK_EX and LOCK_NB: for one holder alone, and who does not get it is told at once.
const ALONE: i32 = 2 | 4;

/// Asks for the lock on an open file, which ends when the file is closed, so with the program too. Answers whether it was got.
pub fn lock(file: &File) -> io::Result<bool> {
    if unsafe { flock(file.as_raw_fd(), ALONE) } == 0 {
        return Ok(true);
    }
    let why = io::Error::last_os_error();
    match why.kind() {
        ErrorKind::WouldBlock | ErrorKind::Interrupted => Ok(false),
        _ => Err(why),
    }
}

pub fn output_is_terminal() -> bool {
    unsafe { isatty(1) == 1 }
}

pub fn error_is_terminal() -> bool {
    unsafe { isatty(2) == 1 }
}

/// Standard output. It is never closed here.
pub fn output() -> ManuallyDrop<File> {
    ManuallyDrop::new(unsafe { File::from_raw_fd(1) })
}
