//! A folder that is redrawn: opened once and locked; every file in it is reached by that descriptor, without
//! following links and without waiting.

use crate::failure::{self, Failure};
use crate::shown;
use crate::system::{self, FileStatus, FileType};
use std::ffi::{CStr, CString, OsStr};
use std::fs::{File, OpenOptions, TryLockError};
use std::io;
use std::os::unix::fs::OpenOptionsExt;
use std::thread;
use std::time::{Duration, Instant, SystemTime};

/// How long a run waits for another one's lock, and how often it looks.
const LOCK_PATIENCE: Duration = Duration::from_secs(1);
const LOCK_PAUSE: Duration = Duration::from_millis(10);
/// New records wait under names that begin so.
pub const WAITING_START: &[u8] = b".envelope-";
/// What stands before the name in an entry of the system's list, and where in it the entry's length is.
const ENTRY_HEADER: usize = 19;
const ENTRY_LENGTH: usize = 16;

pub struct Folder {
    file: File,
    opened: SystemTime,
}

/// What of a folder's names concerns a run.
#[derive(Default)]
pub struct Names {
    /// Those that end in `.ref` and are not hidden, sorted by bytes.
    pub references: Vec<CString>,
    /// How many are those of waiting records, which earlier runs left.
    pub waiting: usize,
}

/// A regular file, open for reading, and its status as it was when it was opened.
pub struct Opened {
    pub file: File,
    pub status: FileStatus,
}

impl Folder {
    pub fn open(path: &OsStr) -> Result<Folder, Failure> {
        let mut options = OpenOptions::new();
        let options = options.read(true).custom_flags(system::O_DIRECTORY);
        let opened = options.open(path);
        let file = opened.map_err(|error| Failure::of_file(path, &error))?;
        let began = Instant::now();
        loop {
            let name = shown::name(path);
            match file.try_lock() {
                Ok(()) => {
                    let opened = SystemTime::now();
                    return Ok(Folder { file, opened });
                }
                Err(TryLockError::WouldBlock) if began.elapsed() < LOCK_PATIENCE => {
                    thread::sleep(LOCK_PAUSE);
                }
                Err(TryLockError::WouldBlock) => {
                    let line = format!("the folder {name} is locked: another redraw of it runs");
                    return Err(Failure::new(line));
                }
                Err(TryLockError::Error(error)) => {
                    let reason = failure::reason(&error);
                    let line = format!("the folder {name} cannot be locked: {reason}");
                    return Err(Failure::new(line));
                }
            }
        }
    }

    pub fn opened(&self) -> SystemTime {
        self.opened
    }

    pub fn names(&self) -> io::Result<Names> {
        let mut names = Names::default();
        let mut entries = vec![0; 65_536];
        loop {
            let filled = system::list(&self.file, &mut entries)?;
            if filled == 0 {
                break;
            }
            add_names(&entries[..filled], &mut names);
        }
        // Where the folder changes meanwhile, a name may be listed twice.
        names.references.sort();
        names.references.dedup();
        Ok(names)
    }

    /// What was renamed lasts from here on.
    pub fn flush(&self) -> io::Result<()> {
        self.file.sync_all()
    }

    /// Opens a file for reading. What is no regular file is not even opened, and a file that takes the place
    /// of one meanwhile is found out once it is.
    pub fn open_regular(&self, name: &CStr) -> io::Result<Opened> {
        require_regular(&system::status_at(&self.file, name)?)?;
        let flags = system::O_NOFOLLOW | system::O_NONBLOCK | system::O_NOCTTY;
        let descriptor = system::open_at(&self.file, name, flags, 0);
        let file = File::from(descriptor.map_err(lease_told)?);
        let status = system::status(&file)?;
        require_regular(&status)?;
        Ok(Opened { file, status })
    }

    /// Creates a file for writing under a name that is not there.
    pub fn create(&self, name: &CStr, mode: u32) -> io::Result<File> {
        let flags = system::O_WRONLY
            | system::O_CREAT
            | system::O_EXCL
            | system::O_NOFOLLOW
            | system::O_NOCTTY;
        system::open_at(&self.file, name, flags, mode).map(File::from)
    }

    /// The status of a name, of a link itself where it is one.
    pub fn status(&self, name: &CStr) -> io::Result<FileStatus> {
        system::status_at(&self.file, name)
    }

    pub fn rename(&self, old: &CStr, new: &CStr) -> io::Result<()> {
        system::rename_at(&self.file, old, new)
    }

    pub fn remove(&self, name: &CStr) -> io::Result<()> {
        system::remove_at(&self.file, name)
    }
}

fn add_names(entries: &[u8], names: &mut Names) {
    let mut rest = entries;
    while rest.len() > ENTRY_HEADER {
        let length = [rest[ENTRY_LENGTH], rest[ENTRY_LENGTH + 1]];
        let length = usize::from(u16::from_ne_bytes(length)).clamp(ENTRY_HEADER, rest.len());
        let (entry, behind) = rest.split_at(length);
        if let Ok(name) = CStr::from_bytes_until_nul(&entry[ENTRY_HEADER..]) {
            add_name(name, names);
        }
        rest = behind;
    }
}

fn add_name(name: &CStr, names: &mut Names) {
    let bytes = name.to_bytes();
    if bytes.starts_with(WAITING_START) {
        names.waiting += 1;
    } else if bytes.ends_with(b".ref") && !bytes.starts_with(b".") {
        names.references.push(name.to_owned());
    }
}

fn require_regular(status: &FileStatus) -> io::Result<()> {
    let kind = match status.file_type {
        FileType::Regular => return Ok(()),
        FileType::Folder => "a folder",
        FileType::Link => "a link",
        FileType::Pipe => "a pipe",
        FileType::Socket => "a socket",
        FileType::Device => "a device",
    };
    Err(io::Error::other(format!("{kind}, not a file")))
}

fn lease_told(error: io::Error) -> io::Error {
    match error.kind() {
        io::ErrorKind::WouldBlock => io::Error::other("another program has a lease on it"),
        _ => error,
    }
}

#[cfg(test)]
mod tests {
    use super::{ENTRY_HEADER, Names, add_names};

    /// An entry as the system states it.
    fn entry(name: &[u8]) -> Vec<u8> {
        let length = (ENTRY_HEADER + name.len() + 1).next_multiple_of(8);
        let mut entry = vec![7; 16];
        entry.extend_from_slice(&u16::try_from(length).expect("a short name").to_ne_bytes());
        entry.push(8);
        entry.extend_from_slice(name);
        entry.resize(length, 0);
        entry
    }

    #[test]
    fn names_of_texts_and_of_waiting_records_are_found() {
        let long = [&[b'l'; 251][..], b".ref"].concat();
        let all: [&[u8]; 12] = [
            b".",
            b"..",
            b"a.ref",
            b".ref",
            b".b.ref",
            b"c.env",
            b"\xff\n.ref",
            b"ref",
            b"d.REF",
            &long,
            b".envelope-0",
            b".envelope-x.ref",
        ];
        let entries: Vec<u8> = all.iter().flat_map(|name| entry(name)).collect();
        let mut names = Names::default();
        add_names(&entries, &mut names);
        let found: Vec<&[u8]> = names
            .references
            .iter()
            .map(|name| name.to_bytes())
            .collect();
        assert_eq!(found, [b"a.ref", &b"\xff\n.ref"[..], &long]);
        assert_eq!(names.waiting, 2);
    }

    #[test]
    fn entries_that_are_no_entries_end_the_list() {
        for length in 0..60 {
            for byte in [0, 1, 19, 255] {
                add_names(&vec![byte; length], &mut Names::default());
            }
        }
    }
}
