//! Whether standard output was closed before the program began.
//!
//! Rust's runtime puts /dev/null in the place of a closed file, so that writing to it seems to succeed. A function that runs before
//! the runtime looks first.

use std::sync::atomic::{AtomicBool, Ordering};

static SHUT: AtomicBool = AtomicBool::new(false);

/// Whether there is nowhere to write to.
pub fn standard_output() -> bool {
    SHUT.load(Ordering::Relaxed)
}

#[cfg(target_os = "linux")]
mod before {
    use super::{Ordering, SHUT};

    const STANDARD_OUTPUT: i32 = 1;
    const F_GETFD: i32 = 1;

    extern "C" {
        fn fcntl(file: i32, command: i32, ...) -> i32;
    }

    extern "C" fn look() {
        // SAFETY: F_GETFD takes any number of a file, and changes nothing.
        let flags = unsafe { fcntl(STANDARD_OUTPUT, F_GETFD) };
        SHUT.store(flags < 0, Ordering::Relaxed);
    }

    /// The linker puts it among the functions that run before `main`.
    #[used]
    #[link_section = ".init_array"]
    static LOOK: extern "C" fn() = look;
}
