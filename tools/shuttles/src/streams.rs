//! Whether standard input and output were open when the process began. Rust's runtime puts /dev/null where one was
//! closed, so this is asked before it begins.

use std::sync::atomic::{AtomicBool, Ordering};

static INPUT: AtomicBool = AtomicBool::new(true);
static OUTPUT: AtomicBool = AtomicBool::new(true);

pub fn input_was_open() -> bool {
    INPUT.load(Ordering::Relaxed)
}

pub fn output_was_open() -> bool {
    OUTPUT.load(Ordering::Relaxed)
}

extern "C" {
    fn fcntl(descriptor: i32, command: i32, ...) -> i32;
}

extern "C" fn look() {
    const F_GETFD: i32 = 1;
    for (descriptor, stream) in [(0, &INPUT), (1, &OUTPUT)] {
        // It fails for a descriptor that is not open, and changes nothing.
        let flags = unsafe { fcntl(descriptor, F_GETFD) };
        stream.store(flags != -1, Ordering::Relaxed);
    }
}

/// The C library calls what stands here before `main`.
#[used]
#[link_section = ".init_array"]
static LOOK: extern "C" fn() = look;
