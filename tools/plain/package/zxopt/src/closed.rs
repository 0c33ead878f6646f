//! Which standard streams were closed when the program began.

/// Whether the streams 0, 1 and 2 were closed when the program began. Elsewhere than on Linux none is told as closed:
/// Rust opens `/dev/null` in their places before `main`, so reads find no text, and what is written is lost.
pub fn at_start() -> [bool; 3] {
    #[cfg(target_os = "linux")]
    return before_main::closed();
    #[cfg(not(target_os = "linux"))]
    return [false; 3];
}

#[cfg(target_os = "linux")]
mod before_main {
    //! Linux calls the functions in `.init_array` before Rust opens `/dev/null`.

    use std::ffi::c_int;
    use std::sync::atomic::{AtomicBool, Ordering::Relaxed};

    const F_GETFD: c_int = 1;

    static CLOSED: [AtomicBool; 3] = [const { AtomicBool::new(false) }; 3];

    #[used]
    #[unsafe(link_section = ".init_array")]
    static LOOK: extern "C" fn() = look;

    unsafe extern "C" {
        safe fn fcntl(file: c_int, command: c_int, ...) -> c_int;
    }

    extern "C" fn look() {
        for (file, closed) in (0..).zip(&CLOSED) {
            closed.store(fcntl(file, F_GETFD) < 0, Relaxed);
        }
    }

    pub fn closed() -> [bool; 3] {
        [0, 1, 2].map(|file| CLOSED[file].load(Relaxed))
    }
}
