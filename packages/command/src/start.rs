//! Which standard streams were closed when the program started. Rust puts /dev/null in their place before `main`, and then standard input would be an empty
//! file, which is legal and confined. So it is looked at before that.

use std::io;
use std::sync::atomic::{AtomicBool, Ordering};

static CLOSED: [AtomicBool; 3] = [AtomicBool::new(false), AtomicBool::new(false), AtomicBool::new(false)];

/// An error where the stream, 0 to 2, was closed.
pub fn must_be_open(stream: usize) -> io::Result<()> {
    if CLOSED[stream].load(Ordering::Relaxed) {
        return Err(io::Error::other("is closed"));
    }
    Ok(())
}

#[cfg(target_os = "linux")]
mod before_main {
    use std::sync::atomic::Ordering;

    const F_GETFD: i32 = 1;

    extern "C" {
        fn fcntl(descriptor: i32, command: i32, ...) -> i32;
    }

    extern "C" fn look() {
        for (descriptor, closed) in (0..).zip(&super::CLOSED) {
            // Sound: F_GETFD takes no further argument and touches no memory.
            closed.store(unsafe { fcntl(descriptor, F_GETFD) } == -1, Ordering::Relaxed);
        }
    }

    #[used]
    #[link_section = ".init_array"]
    static LOOK: extern "C" fn() = look;
}
