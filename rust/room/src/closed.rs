//! Standard output that is closed, as with `room FILE >&-`. Before `main`, Rust opens /dev/null in its place, and what is
//! written is lost without an error. So this is looked at before that.
use std::io;
use std::sync::atomic::{AtomicBool, Ordering};

static CLOSED: AtomicBool = AtomicBool::new(false);

const STANDARD_OUTPUT: i32 = 1;
/// Of fcntl: a descriptor's flags.
const F_GETFD: i32 = 1;
/// A bad file descriptor.
const EBADF: i32 = 9;

extern "C" {
    fn fcntl(descriptor: i32, command: i32, ...) -> i32;
}

extern "C" fn look() {
    // SAFETY: with this command fcntl takes no pointer, and changes nothing.
    let flags = unsafe { fcntl(STANDARD_OUTPUT, F_GETFD) };
    CLOSED.store(flags == -1, Ordering::Relaxed);
}

/// The functions of this section run before Rust's own beginning.
#[used]
#[link_section = ".init_array"]
static LOOK: extern "C" fn() = look;

/// An error where standard output was closed from the beginning.
pub fn check() -> io::Result<()> {
    match CLOSED.load(Ordering::Relaxed) {
        true => Err(io::Error::from_raw_os_error(EBADF)),
        false => Ok(()),
    }
}
