//! Calls of the system that the standard library has not.

use std::ffi::{CStr, CString, OsStr, c_char};
use std::fs::File;
use std::io::PipeReader;
use std::os::fd::{AsRawFd, FromRawFd};
use std::os::unix::ffi::OsStrExt;
use std::os::unix::fs::OpenOptionsExt;
use std::os::unix::process::CommandExt;
use std::path::Path;
use std::process::{Child, Command};

/// The first members of C's struct rusage on 64-bit Linux, and room for the others.
#[repr(C)]
#[derive(Default)]
struct ResourceUsage {
    user_time: [i64; 2],
    system_time: [i64; 2],
    peak_kibibytes: i64,
    others: [i64; 13],
}

unsafe extern "C" {
    fn wait4(process: i32, status: *mut i32, options: i32, usage: *mut ResourceUsage) -> i32;
    fn kill(process: i32, signal: i32) -> i32;
    fn fcntl(descriptor: i32, command: i32, ...) -> i32;
    fn mkfifo(path: *const c_char, mode: u32) -> i32;
    fn geteuid() -> u32;
    fn posix_openpt(flags: i32) -> i32;
    fn grantpt(terminal: i32) -> i32;
    fn unlockpt(terminal: i32) -> i32;
    fn ptsname_r(terminal: i32, name: *mut c_char, length: usize) -> i32;
}

const SIGKILL: i32 = 9;
const SIGTERM: i32 = 15;
const F_SETFL: i32 = 4;
const O_RDWR: i32 = 2;
const O_NOCTTY: i32 = 0o400;
const O_NONBLOCK: i32 = 0o4000;
const O_DIRECT: i32 = 0o40000;
const NOBODY: u32 = 65_534;

/// Waits for a child, which must end with status 0, and gives the most kibibytes that it had resident.
pub fn wait_for_peak(child: Child) -> i64 {
    let (status, peak) = wait_for_status_and_peak(child);
    assert_eq!(status, 0, "the program ends with status 0");
    peak
}

/// Waits for a child, and gives its status and the most kibibytes that it had resident. What the calling
/// process has resident counts as well, so that this is at least the child's own peak.
pub fn wait_for_status_and_peak(child: Child) -> (i32, i64) {
    let (mut status, mut usage) = (0, ResourceUsage::default());
    let id = child.id() as i32;
    // SAFETY: both pointers are to places of this function, as large as C's.
    let ended = unsafe { wait4(id, &mut status, 0, &mut usage) };
    assert_eq!(
        (ended, status & 0x7f),
        (id, 0),
        "a program that is not killed"
    );
    (status >> 8, usage.peak_kibibytes)
}

/// Kills the process group that a child leads, and waits for the child. False where it had ended
/// before.
pub fn kill_group(child: &mut Child) -> bool {
    // SAFETY: the child has not been waited for, so that the group is its own.
    unsafe { kill(-(child.id() as i32), SIGKILL) };
    child.wait().expect("an ended child").code().is_none()
}

/// Tells a child, and no other process, to end.
pub fn terminate(child: &Child) {
    // SAFETY: the child has not been waited for, so that the number is its own.
    let told = unsafe { kill(child.id() as i32, SIGTERM) };
    assert_eq!(told, 0, "a child of ours");
}

/// From here on a read of the pipe fails where nothing is there, and does not wait.
pub fn set_non_blocking(pipe: &PipeReader) {
    set_flag(pipe, O_NONBLOCK);
}

/// From here on a read of the pipe gives what one write wrote, and no more.
pub fn set_packets(pipe: &impl AsRawFd) {
    set_flag(pipe, O_DIRECT);
}

fn set_flag(pipe: &impl AsRawFd, flag: i32) {
    // SAFETY: the call changes only a flag of an open descriptor.
    let set = unsafe { fcntl(pipe.as_raw_fd(), F_SETFL, flag) };
    assert_eq!(set, 0, "a flag that can be set");
}

pub fn make_fifo(path: &Path) {
    let name = CString::new(path.as_os_str().as_bytes()).expect("a path without byte 0");
    // SAFETY: the pointer is to text that ends in byte 0.
    let made = unsafe { mkfifo(name.as_ptr(), 0o644) };
    assert_eq!(made, 0, "a new fifo");
}

/// Root reads any file: then a command runs as nobody.
pub fn run_without_privileges(command: &mut Command) {
    // SAFETY: the call has no arguments and cannot fail.
    if unsafe { geteuid() } == 0 {
        command.uid(NOBODY).gid(NOBODY);
    }
}

/// A terminal of nobody's session: the end that a person would sit at, and the one that a program gets.
pub fn open_terminal() -> (File, File) {
    let mut name = [0_u8; 64];
    // SAFETY: the descriptor is ours alone, and the pointer and the length are those of a place of this
    // function.
    let person = unsafe {
        let descriptor = posix_openpt(O_RDWR | O_NOCTTY);
        assert!(descriptor >= 0, "a new terminal");
        let opened = [grantpt(descriptor), unlockpt(descriptor)];
        let named = ptsname_r(descriptor, name.as_mut_ptr().cast(), name.len());
        assert_eq!((opened, named), ([0, 0], 0), "a terminal with a name");
        File::from_raw_fd(descriptor)
    };
    let name = CStr::from_bytes_until_nul(&name).expect("a name that ends");
    let mut options = File::options();
    let options = options.read(true).write(true).custom_flags(O_NOCTTY);
    let program = options.open(OsStr::from_bytes(name.to_bytes()));
    (person, program.expect("the other end"))
}
