//! Calls of the system that the standard library has not. Layouts are those of 64-bit Linux.

use std::ffi::{CStr, c_char, c_int, c_uint, c_void};
use std::io;
use std::os::fd::{AsFd, AsRawFd, FromRawFd, OwnedFd};

/// The number of the error that a closed descriptor gives.
pub const BAD_DESCRIPTOR: i32 = 9;

pub const O_WRONLY: c_int = 0o1;
pub const O_CREAT: c_int = 0o100;
pub const O_EXCL: c_int = 0o200;
pub const O_NOCTTY: c_int = 0o400;
pub const O_NONBLOCK: c_int = 0o4000;
pub const O_DIRECTORY: c_int = 0o200_000;
pub const O_NOFOLLOW: c_int = 0o400_000;
const O_CLOEXEC: c_int = 0o2_000_000;

const AT_SYMLINK_NOFOLLOW: c_int = 0x100;
const AT_EMPTY_PATH: c_int = 0x1000;
/// Type, bits, size, times and inode.
const STATX_BASIC_STATS: c_uint = 0x7ff;
const SYNC_FILE_RANGE_WRITE: c_uint = 2;
const RLIMIT_NOFILE: c_int = 7;
const F_GETFD: c_int = 1;
const SIGXFSZ: c_int = 25;
const SIG_IGN: usize = 1;

/// A time of C's struct statx.
#[repr(C)]
#[derive(Clone, Copy, Default)]
struct StatxTime {
    seconds: i64,
    nanoseconds: u32,
    reserved: i32,
}

/// C's struct statx, which is the same on every machine: its first members, and room for the others.
#[repr(C)]
#[derive(Default)]
struct Statx {
    mask: u32,
    block_size: u32,
    attributes: u64,
    links: u32,
    user: u32,
    group: u32,
    mode: u16,
    padding: u16,
    inode: u64,
    size: u64,
    blocks: u64,
    attributes_mask: u64,
    read: StatxTime,
    created: StatxTime,
    changed: StatxTime,
    modified: StatxTime,
    special: [u32; 2],
    device: [u32; 2],
    others: [u64; 14],
}

const _: () = assert!(size_of::<Statx>() == 256);

/// C's struct rlimit.
#[repr(C)]
struct Limits {
    soft: u64,
    hard: u64,
}

unsafe extern "C" {
    fn fcntl(descriptor: c_int, command: c_int, ...) -> c_int;
    fn signal(signal: c_int, handler: usize) -> usize;
    fn openat(folder: c_int, name: *const c_char, flags: c_int, ...) -> c_int;
    fn statx(
        folder: c_int,
        name: *const c_char,
        flags: c_int,
        mask: c_uint,
        status: *mut Statx,
    ) -> c_int;
    fn renameat(
        old_folder: c_int,
        old: *const c_char,
        new_folder: c_int,
        new: *const c_char,
    ) -> c_int;
    fn unlinkat(folder: c_int, name: *const c_char, flags: c_int) -> c_int;
    fn getdents64(folder: c_int, entries: *mut c_void, length: usize) -> isize;
    fn sync_file_range(file: c_int, start: i64, length: i64, flags: c_uint) -> c_int;
    fn getrandom(bytes: *mut c_void, length: usize, flags: c_uint) -> isize;
    fn getrlimit(resource: c_int, limits: *mut Limits) -> c_int;
}

pub fn is_open(descriptor: i32) -> bool {
    // SAFETY: the call asks for a flag and changes nothing.
    unsafe { fcntl(descriptor, F_GETFD) != -1 }
}

/// From here on a write past the limit on a file's size fails, and does not end the program.
pub fn let_large_writes_fail() {
    // SAFETY: the signal is one that can be ignored; no handler of ours runs.
    unsafe { signal(SIGXFSZ, SIG_IGN) };
}

/// The type of a file.
#[derive(Clone, Copy, Debug, PartialEq, Eq)]
pub enum FileType {
    Regular,
    Folder,
    Link,
    Pipe,
    Socket,
    Device,
}

/// A file's device and inode, which no two files have at one time.
#[derive(Clone, Copy, Debug, PartialEq, Eq)]
pub struct Identity {
    device: [u32; 2],
    inode: u64,
}

/// What differs where a file was changed: its size, and the seconds and nanoseconds at which its content and
/// its status were changed last.
#[derive(Clone, Copy, Debug, PartialEq, Eq)]
pub struct Version {
    pub size: u64,
    pub modified: (i64, u32),
    pub changed: (i64, u32),
}

#[derive(Clone, Copy, Debug)]
pub struct FileStatus {
    pub file_type: FileType,
    /// The bits 0777 of who may read, write and run it.
    pub permissions: u32,
    pub identity: Identity,
    pub version: Version,
}

impl FileStatus {
    fn of(status: &Statx) -> FileStatus {
        let time = |time: StatxTime| (time.seconds, time.nanoseconds);
        FileStatus {
            file_type: match status.mode & 0o170_000 {
                0o100_000 => FileType::Regular,
                0o040_000 => FileType::Folder,
                0o120_000 => FileType::Link,
                0o010_000 => FileType::Pipe,
                0o140_000 => FileType::Socket,
                _ => FileType::Device,
            },
            permissions: u32::from(status.mode) & 0o777,
            identity: Identity {
                device: status.device,
                inode: status.inode,
            },
            version: Version {
                size: status.size,
                modified: time(status.modified),
                changed: time(status.changed),
            },
        }
    }
}

/// Opens a name in a folder; what a program starts does not inherit the descriptor. `mode` counts where the
/// file is created.
pub fn open_at(folder: impl AsFd, name: &CStr, flags: c_int, mode: u32) -> io::Result<OwnedFd> {
    let folder = folder.as_fd().as_raw_fd();
    // SAFETY: the name ends in byte 0, and the descriptor that is given is nobody else's.
    unsafe {
        let descriptor = openat(folder, name.as_ptr(), flags | O_CLOEXEC, mode);
        require(descriptor)?;
        Ok(OwnedFd::from_raw_fd(descriptor))
    }
}

/// The status of an open file.
pub fn status(file: impl AsFd) -> io::Result<FileStatus> {
    ask_status(file, c"", AT_EMPTY_PATH)
}

/// The status of a name in a folder, of a link itself where it is one.
pub fn status_at(folder: impl AsFd, name: &CStr) -> io::Result<FileStatus> {
    ask_status(folder, name, AT_SYMLINK_NOFOLLOW)
}

fn ask_status(file: impl AsFd, name: &CStr, flags: c_int) -> io::Result<FileStatus> {
    let (descriptor, mut status) = (file.as_fd().as_raw_fd(), Statx::default());
    // SAFETY: the name ends in byte 0, and the place that is filled has the size of C's.
    let asked = unsafe {
        let name = name.as_ptr();
        statx(descriptor, name, flags, STATX_BASIC_STATS, &mut status)
    };
    require(asked)?;
    Ok(FileStatus::of(&status))
}

/// Renames within a folder; what had the new name is gone at the same moment.
pub fn rename_at(folder: impl AsFd, old: &CStr, new: &CStr) -> io::Result<()> {
    let folder = folder.as_fd().as_raw_fd();
    // SAFETY: both names end in byte 0.
    require(unsafe { renameat(folder, old.as_ptr(), folder, new.as_ptr()) })
}

/// Removes a name, of a link itself where it is one, that is not a folder's.
pub fn remove_at(folder: impl AsFd, name: &CStr) -> io::Result<()> {
    let folder = folder.as_fd().as_raw_fd();
    // SAFETY: the name ends in byte 0.
    require(unsafe { unlinkat(folder, name.as_ptr(), 0) })
}

/// Fills the start of `entries` with the next entries of a folder as the system states them, and gives how
/// many bytes they have, 0 at the end.
pub fn list(folder: impl AsFd, entries: &mut [u8]) -> io::Result<usize> {
    let (folder, length) = (folder.as_fd().as_raw_fd(), entries.len());
    // SAFETY: the pointer and the length are those of a slice that is lent to nobody else.
    let filled = unsafe { getdents64(folder, entries.as_mut_ptr().cast(), length) };
    usize::try_from(filled).map_err(|_| io::Error::last_os_error())
}

/// Starts to write a file's content to disk, and does not wait for the end of it, as a flush does. A system
/// that cannot is no failure.
pub fn start_to_flush(file: impl AsFd) -> io::Result<()> {
    let descriptor = file.as_fd().as_raw_fd();
    // SAFETY: the call has numbers alone.
    let started = unsafe { sync_file_range(descriptor, 0, 0, SYNC_FILE_RANGE_WRITE) };
    match require(started) {
        Err(error) if error.kind() == io::ErrorKind::Unsupported => Ok(()),
        started => started,
    }
}

/// A number that nobody can foresee.
pub fn random_number() -> io::Result<u64> {
    let mut bytes = [0_u8; 8];
    // SAFETY: the pointer and the length are those of a place of this function.
    let filled = unsafe { getrandom(bytes.as_mut_ptr().cast(), bytes.len(), 0) };
    match filled {
        8 => Ok(u64::from_ne_bytes(bytes)),
        -1 => Err(io::Error::last_os_error()),
        _ => Err(io::ErrorKind::UnexpectedEof.into()),
    }
}

/// The most descriptors that the process may have open, where the system tells it.
pub fn descriptor_limit() -> Option<u64> {
    let mut limits = Limits { soft: 0, hard: 0 };
    // SAFETY: the place that is filled has the size of C's.
    let asked = unsafe { getrlimit(RLIMIT_NOFILE, &mut limits) };
    (asked == 0).then_some(limits.soft)
}

fn require(answer: c_int) -> io::Result<()> {
    match answer {
        -1 => Err(io::Error::last_os_error()),
        _ => Ok(()),
    }
}
