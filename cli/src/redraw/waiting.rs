//! A new record until it has its name. The file stays open until then, so that its inode is nobody else's.

use super::folder::{Folder, WAITING_START};
use crate::system::{self, FileStatus, Identity};
use std::ffi::{CStr, CString};
use std::fs::{File, Permissions};
use std::io::{self, Write};
use std::os::unix::fs::PermissionsExt;
use std::sync::atomic::{AtomicU64, Ordering};

/// The bits of a record that replaces none; the system takes those of the mask of new files away.
const NEW_PERMISSIONS: u32 = 0o666;

/// The names under which the records of this run wait: no other run uses them.
pub struct WaitingNames {
    run: u64,
    count: AtomicU64,
}

impl WaitingNames {
    pub fn new() -> io::Result<WaitingNames> {
        Ok(WaitingNames {
            run: system::random_number()?,
            count: AtomicU64::new(0),
        })
    }

    fn next(&self) -> CString {
        let count = self.count.fetch_add(1, Ordering::Relaxed);
        let mut name = WAITING_START.to_vec();
        name.extend_from_slice(format!("{:016x}-{count}", self.run).as_bytes());
        CString::new(name).expect("a name of ours has no byte 0")
    }
}

/// A written record that waits for its name.
pub struct Waiting<'f> {
    folder: &'f Folder,
    file: File,
    identity: Identity,
    name: CString,
}

impl<'f> Waiting<'f> {
    /// Writes a record, with the permission bits of the one that it is to replace.
    pub fn write(
        folder: &'f Folder,
        names: &WaitingNames,
        record: &[u8],
        replaced: Option<&FileStatus>,
    ) -> io::Result<Waiting<'f>> {
        let name = names.next();
        let permissions = replaced.map_or(NEW_PERMISSIONS, |status| status.permissions);
        let file = folder.create(&name, permissions)?;
        let status = system::status(&file)?;
        let waiting = Waiting {
            folder,
            file,
            identity: status.identity,
            name,
        };
        let written = match replaced.is_some() && status.permissions != permissions {
            true => waiting.set_permissions(permissions),
            false => Ok(()),
        };
        let written = written.and_then(|()| (&waiting.file).write_all(record));
        match written.and_then(|()| system::start_to_flush(&waiting.file)) {
            Ok(()) => Ok(waiting),
            Err(error) => Err(waiting.given_up(error)),
        }
    }

    fn set_permissions(&self, permissions: u32) -> io::Result<()> {
        self.file
            .set_permissions(Permissions::from_mode(permissions))
    }

    pub fn flush(self) -> io::Result<Waiting<'f>> {
        match self.file.sync_all() {
            Ok(()) => Ok(self),
            Err(error) => Err(self.given_up(error)),
        }
    }

    /// Gives the record its name. Where a stranger put something else under the waiting one, it is that which
    /// was renamed; so the file of that name must be the one that was written.
    pub fn put_in_place(self, record: &CStr) -> io::Result<()> {
        if let Err(error) = self.folder.rename(&self.name, record) {
            return Err(self.given_up(error));
        }
        match self.folder.status(record)?.identity == self.identity {
            true => Ok(()),
            false => Err(io::Error::other(
                "another file was put in the place of the new record",
            )),
        }
    }

    /// Removes the file where its name is still its own.
    fn given_up(self, error: io::Error) -> io::Error {
        let there = self.folder.status(&self.name);
        if there.is_ok_and(|there| there.identity == self.identity) {
            // What is left is told by the next run.
            let _ = self.folder.remove(&self.name);
        }
        error
    }
}
