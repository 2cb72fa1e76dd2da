//! Standard input and output as files, so that every error of theirs is seen. Rust's own handles read a descriptor that is not open for reading
//! as an empty input, and drop what is written to one that is not open for writing. Where the caller closed a descriptor, Rust's start code
//! opens the null device in its place; `note_closed` runs before that code.

use std::fs::File;
use std::io;
use std::os::fd::{AsFd, BorrowedFd};
use std::sync::atomic::{AtomicBool, Ordering};

static INPUT_CLOSED: AtomicBool = AtomicBool::new(false);
static OUTPUT_CLOSED: AtomicBool = AtomicBool::new(false);

extern "C" {
    fn fcntl(descriptor: i32, command: i32, ...) -> i32;
}

const F_GETFD: i32 = 1;

extern "C" fn note_closed() {
    for (descriptor, closed) in [(0, &INPUT_CLOSED), (1, &OUTPUT_CLOSED)] {
        // The call asks for the descriptor's flags and changes nothing; it fails where the descriptor is closed.
        closed.store(unsafe { fcntl(descriptor, F_GETFD) } == -1, Ordering::Relaxed);
    }
}

/// The loader calls the functions of this section before Rust's start code runs. Elsewhere than on Linux nothing is noted.
#[used]
#[cfg_attr(target_os = "linux", link_section = ".init_array")]
static BEFORE_START: extern "C" fn() = note_closed;

fn file(descriptor: BorrowedFd, closed: &AtomicBool) -> io::Result<File> {
    if closed.load(Ordering::Relaxed) {
        return Err(io::Error::other("it is closed"));
    }
    descriptor.try_clone_to_owned().map(File::from)
}

pub fn input() -> io::Result<File> {
    file(io::stdin().as_fd(), &INPUT_CLOSED)
}

pub fn output() -> io::Result<File> {
    file(io::stdout().as_fd(), &OUTPUT_CLOSED)
}

/// Standard error. Where the caller closed it, this is the null device, and nobody reads what goes there.
pub fn error() -> io::Result<File> {
    io::stderr().as_fd().try_clone_to_owned().map(File::from)
}
