//! Which of the standard descriptors were closed when the program was started. The runtime of Rust puts
//! another file in the place of a closed one, from which nothing is read and where an answer is lost, so
//! that the system is asked before the runtime starts.

use crate::failure::Failure;
use crate::system;
use std::io;
use std::sync::atomic::{AtomicBool, Ordering};

static INPUT_CLOSED: AtomicBool = AtomicBool::new(false);
static OUTPUT_CLOSED: AtomicBool = AtomicBool::new(false);

/// The C library runs the functions of this section before `main`.
#[used]
#[unsafe(link_section = ".init_array")]
static LOOK_FIRST: extern "C" fn() = look;

extern "C" fn look() {
    INPUT_CLOSED.store(!system::is_open(0), Ordering::Relaxed);
    OUTPUT_CLOSED.store(!system::is_open(1), Ordering::Relaxed);
}

/// Standard input and output must be there, whatever the command.
pub fn require_open() -> Result<(), Failure> {
    for (closed, name) in [
        (&INPUT_CLOSED, "standard input"),
        (&OUTPUT_CLOSED, "standard output"),
    ] {
        if closed.load(Ordering::Relaxed) {
            let error = io::Error::from_raw_os_error(system::BAD_DESCRIPTOR);
            return Err(Failure::of(name, &error));
        }
    }
    Ok(())
}
