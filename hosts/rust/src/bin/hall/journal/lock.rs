//! A lock on a journal's file: by flock(2), which keeps other calls of `hall` out and nobody else, and is gone with the process that has it,
//! however that ends.
use std::fs::File;
use std::io;
use std::os::fd::AsRawFd;

const SHARED: i32 = 1;
const EXCLUSIVE: i32 = 2;

extern "C" {
    fn flock(descriptor: i32, operation: i32) -> i32;
}

fn wait(file: &File, operation: i32) -> io::Result<()> {
    loop {
        if unsafe { flock(file.as_raw_fd(), operation) } == 0 {
            return Ok(());
        }
        let error = io::Error::last_os_error();
        if error.kind() != io::ErrorKind::Interrupted {
            return Err(error);
        }
    }
}

/// Waits until nobody else reads or writes the journal, and keeps all others waiting until the file is closed.
pub fn writing(file: &File) -> io::Result<()> {
    wait(file, EXCLUSIVE)
}

/// Waits until nobody writes the journal. Where a file cannot be locked it is read as it stands: at the worst a slot is shown torn that is just
/// being written.
pub fn reading(file: &File) {
    let _ = wait(file, SHARED);
}
