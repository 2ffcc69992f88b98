//! Whether standard output is there: where it is closed, as by `>&-`, std opens /dev/null in its place before `main`,
//! and what is printed would go nowhere without an error.

use crate::errors::Failure;
use std::sync::atomic::{AtomicBool, Ordering};

static IS_CLOSED: AtomicBool = AtomicBool::new(false);

/// Refuses to print where nothing can be.
pub fn check() -> Result<(), Failure> {
    match IS_CLOSED.load(Ordering::Relaxed) {
        true => Err(Failure::closed()),
        false => Ok(()),
    }
}

/// The loader calls it before anything of std.
#[cfg(target_os = "linux")]
#[used]
#[unsafe(link_section = ".init_array")]
static LOOK: extern "C" fn() = {
    extern "C" fn look() {
        // SAFETY: it asks for flags alone, whatever is open.
        let flags = unsafe { libc::fcntl(libc::STDOUT_FILENO, libc::F_GETFD) };
        IS_CLOSED.store(flags < 0, Ordering::Relaxed);
    }
    look
};
