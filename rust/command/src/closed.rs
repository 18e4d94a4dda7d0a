//! Was standard output closed, or open for reading only, when the program was
//! started?
//!
//! Rust's runtime puts `/dev/null` in the place of a closed one before `main`,
//! and takes a descriptor that can't be written to for a closed one: what is
//! written then vanishes without an error. So it is asked before that.

#[cfg(target_os = "linux")]
#[allow(unsafe_code)]
mod early {
    use std::sync::atomic::{AtomicBool, Ordering};

    static CLOSED: AtomicBool = AtomicBool::new(false);

    const STANDARD_OUTPUT: i32 = 1;
    const F_GETFL: i32 = 3;
    const O_ACCMODE: i32 = 3;
    const O_RDONLY: i32 = 0;

    extern "C" {
        fn fcntl(descriptor: i32, command: i32, ...) -> i32;
    }

    /// Run by the loader before the runtime starts.
    #[used]
    #[link_section = ".init_array"]
    static LOOK: extern "C" fn() = look;

    extern "C" fn look() {
        // SAFETY: the call reads a descriptor's flags; any number may be
        // asked for, and no memory is lent.
        let flags = unsafe { fcntl(STANDARD_OUTPUT, F_GETFL) };
        let closed = flags == -1 || flags & O_ACCMODE == O_RDONLY;
        CLOSED.store(closed, Ordering::Relaxed);
    }

    pub fn closed() -> bool {
        CLOSED.load(Ordering::Relaxed)
    }
}

/// True if nothing that is written can arrive.
pub fn at_start() -> bool {
    #[cfg(target_os = "linux")]
    return early::closed();
    #[cfg(not(target_os = "linux"))]
    return false;
}
