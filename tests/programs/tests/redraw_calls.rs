//! `envelope redraw` under a filter of the system's calls. It stands for a disk that fails: what is not flushed is
//! not put in place, and what is in place is told only where the folder is flushed. And it turns back every call by
//! which a link could be followed, or a file waited for, at a moment that no other test meets.

#![cfg(all(target_arch = "x86_64", target_os = "linux"))]

use programs::folder::Folder;
use programs::process::{Ended, end};
use programs::redrawn::{
    ONE_ROW, ONE_ROW_RECORD, assert_counts, command_of, other_names, outcome, redraw,
};
use programs::{RECORD, REFERENCE};
use std::fs::{self, Permissions};
use std::io;
use std::os::unix::fs::{MetadataExt, PermissionsExt};
use std::os::unix::process::CommandExt;

/// An instruction of a filter: C's struct sock_filter.
#[repr(C)]
#[derive(Clone, Copy)]
struct Instruction {
    code: u16,
    jump_true: u8,
    jump_false: u8,
    operand: u32,
}

/// C's struct sock_fprog.
#[repr(C)]
struct Filter {
    length: u16,
    instructions: *const Instruction,
}

unsafe extern "C" {
    fn prctl(option: i32, ...) -> i32;
}

const PR_SET_NO_NEW_PRIVS: i32 = 38;
const PR_SET_SECCOMP: i32 = 22;
const SECCOMP_MODE_FILTER: usize = 2;
const ALLOW: u32 = 0x7fff_0000;
const FAIL_WITH_EIO: u32 = 0x0005_0005;
const LOAD_WORD: u16 = 0x20;
const AND: u16 = 0x54;
const JUMP_EQUAL: u16 = 0x15;
const JUMP_ANY_BIT: u16 = 0x45;
const RETURN: u16 = 0x06;
/// Where the call's number, its first argument and its third one are.
const NUMBER: u32 = 0;
const ARGUMENT: u32 = 16;
const THIRD_ARGUMENT: u32 = 32;
const FSYNC: u32 = 74;
const OPENAT: u32 = 257;
/// Calls that reach a file by its path or through a link: open, truncate, rename, mkdir, creat, link, unlink,
/// symlink, chmod, chown, lchown, fchownat, fchmodat, openat2, fchmodat2.
const BY_NAME: [u32; 15] = [
    2, 76, 82, 83, 85, 86, 87, 88, 90, 92, 94, 260, 268, 437, 452,
];
const O_CREAT: u32 = 0o100;
const O_EXCL: u32 = 0o200;
const O_NONBLOCK: u32 = 0o4000;
const O_NOFOLLOW: u32 = 0o400_000;
/// A file is opened for writing, or created.
const WRITES: u32 = 0o3 | O_CREAT;
/// The first descriptor that the program opens is the folder's.
const FOLDER: u32 = 3;

const fn instruction(code: u16, operand: u32, jump_true: u8, jump_false: u8) -> Instruction {
    Instruction {
        code,
        jump_true,
        jump_false,
        operand,
    }
}

/// Every flush fails.
const ALL: [Instruction; 4] = [
    instruction(LOAD_WORD, NUMBER, 0, 0),
    instruction(JUMP_EQUAL, FSYNC, 0, 1),
    instruction(RETURN, FAIL_WITH_EIO, 0, 0),
    instruction(RETURN, ALLOW, 0, 0),
];

/// That of the folder fails.
const OF_FOLDER: [Instruction; 6] = [
    instruction(LOAD_WORD, NUMBER, 0, 0),
    instruction(JUMP_EQUAL, FSYNC, 0, 3),
    instruction(LOAD_WORD, ARGUMENT, 0, 0),
    instruction(JUMP_EQUAL, FOLDER, 0, 1),
    instruction(RETURN, FAIL_WITH_EIO, 0, 0),
    instruction(RETURN, ALLOW, 0, 0),
];

/// A file in the folder is opened for reading without following a link and without waiting, and created where
/// nothing is; none is written elsewhere, and none is reached by its name otherwise.
fn careful() -> Vec<Instruction> {
    let (reads, creates) = (O_NOFOLLOW | O_NONBLOCK, O_NOFOLLOW | O_EXCL);
    let opened = [
        instruction(LOAD_WORD, ARGUMENT, 0, 0),
        instruction(JUMP_EQUAL, FOLDER, 0, 6),
        instruction(LOAD_WORD, THIRD_ARGUMENT, 0, 0),
        instruction(JUMP_ANY_BIT, O_CREAT, 2, 0),
        instruction(AND, reads, 0, 0),
        instruction(JUMP_EQUAL, reads, 4, 5),
        instruction(AND, creates, 0, 0),
        instruction(JUMP_EQUAL, creates, 2, 3),
        instruction(LOAD_WORD, THIRD_ARGUMENT, 0, 0),
        instruction(JUMP_ANY_BIT, WRITES, 1, 0),
        instruction(RETURN, ALLOW, 0, 0),
        instruction(RETURN, FAIL_WITH_EIO, 0, 0),
    ];
    let mut all = vec![instruction(LOAD_WORD, NUMBER, 0, 0)];
    for call in BY_NAME {
        all.push(instruction(JUMP_EQUAL, call, 0, 1));
        all.push(instruction(RETURN, FAIL_WITH_EIO, 0, 0));
    }
    all.push(instruction(JUMP_EQUAL, OPENAT, 1, 0));
    all.push(instruction(RETURN, ALLOW, 0, 0));
    all.extend(opened);
    all
}

fn redraw_filtered(folder: &Folder, instructions: &[Instruction]) -> Ended {
    let instructions = instructions.to_vec();
    let mut command = command_of(&[folder.path()]);
    let set = move || {
        let filter = Filter {
            length: instructions.len() as u16,
            instructions: instructions.as_ptr(),
        };
        // SAFETY: the filter and its instructions are there during the calls.
        let failed = unsafe {
            prctl(PR_SET_NO_NEW_PRIVS, 1_usize, 0_usize, 0_usize, 0_usize) != 0
                || prctl(PR_SET_SECCOMP, SECCOMP_MODE_FILTER, &raw const filter) != 0
        };
        match failed {
            true => Err(io::Error::last_os_error()),
            false => Ok(()),
        }
    };
    // SAFETY: what runs between fork and exec takes no lock and no memory.
    unsafe { command.pre_exec(set) };
    end(&mut command, b"")
}

fn folder() -> Folder {
    let folder = Folder::new();
    folder.write("a.ref", REFERENCE);
    folder.write("a.env", ONE_ROW_RECORD);
    folder.write("b.ref", ONE_ROW);
    folder
}

/// The flush comes before the rename: the old record stays.
#[test]
fn a_record_that_cannot_be_flushed_is_not_put_in_place() {
    let folder = folder();
    let ended = redraw_filtered(&folder, &ALL);
    assert_counts(&ended, [0, 0, 0, 2]);
    for name in ["a", "b"] {
        let reason = format!("'{name}.env': Input/output error");
        let told = outcome(&ended, &format!("{name}.ref"));
        assert_eq!(told, ("failed", reason.as_str()));
    }
    assert_eq!(folder.read("a.env"), ONE_ROW_RECORD.as_bytes());
    assert_eq!(folder.names(), ["a.env", "a.ref", "b.ref"]);
    assert_counts(&redraw(&folder), [2, 0, 0, 0]);
}

/// Neither in the run that put the records in place nor in the next one.
#[test]
fn a_folder_that_cannot_be_flushed_is_a_failure() {
    let folder = folder();
    folder.write("c.ref", "REF,0\n");
    for _ in 0..2 {
        let ended = redraw_filtered(&folder, &OF_FOLDER);
        assert_counts(&ended, [0, 0, 1, 2]);
        for name in ["a.ref", "b.ref"] {
            let reason = "the folder cannot be flushed: Input/output error";
            assert_eq!(outcome(&ended, name), ("failed", reason));
        }
        assert_eq!(folder.read("a.env"), RECORD.as_bytes());
        assert_eq!(folder.read("b.env"), ONE_ROW_RECORD.as_bytes());
        assert_eq!(other_names(&folder), [""; 0]);
    }
    assert_counts(&redraw(&folder), [0, 2, 1, 0]);
}

#[test]
fn no_link_is_followed_and_no_file_is_waited_for() {
    let folder = folder();
    let modes = [0o600, 0o640, 0o777, 0];
    for mode in modes {
        folder.write(format!("{mode}.ref"), REFERENCE);
        let record = folder.write(format!("{mode}.env"), "old");
        fs::set_permissions(record, Permissions::from_mode(mode)).expect("a file of ours");
    }
    folder.write("c.ref", "REF,0\n");
    assert_counts(&redraw_filtered(&folder, &careful()), [6, 0, 1, 0]);
    for mode in modes {
        let record = folder.path().join(format!("{mode}.env"));
        let bits = fs::metadata(record).expect("a record").mode() & 0o7777;
        assert_eq!(bits, mode);
    }
    assert_eq!(folder.read("a.env"), RECORD.as_bytes());
    assert_eq!(other_names(&folder), [""; 0]);
}
