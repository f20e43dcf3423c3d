//! `envelope redraw` at limits: folders that cannot be written, files that may not grow, few descriptors, a
//! large file in the place of a record, many texts.

use programs::call::run;
use programs::folder::Folder;
use programs::process::{Ended, command, end, watch};
use programs::redrawn::{
    ONE_ROW, ONE_ROW_RECORD, assert_counts, command_of, other_names, outcome, redraw,
};
use programs::script::path;
use programs::system::{run_without_privileges, wait_for_peak, wait_for_status_and_peak};
use programs::{RECORD, REFERENCE};
use std::fs::{self, File, Permissions};
use std::os::unix::fs::PermissionsExt;
use std::path::{Path, PathBuf};
use std::time::Instant;

const LARGE: u64 = 300_000_000;
/// In KiB. What the tests have resident counts as well.
const PEAK_LIMIT: i64 = 65_536;

fn set_mode(path: &Path, mode: u32) {
    fs::set_permissions(path, Permissions::from_mode(mode)).expect("a file of ours");
}

/// The program where another user can run it.
fn open_to_all(folder: &Folder) -> PathBuf {
    set_mode(folder.path(), 0o755);
    let program = folder.path().join("envelope");
    // A process of its own writes it: what this one has open for writing cannot be run by its children.
    let copied = end(command("cp").arg(path()).arg(&program), b"");
    assert_eq!(copied.status, 0, "{}", copied.messages);
    set_mode(&program, 0o755);
    program
}

/// Redraws a folder as a user who may do only what its bits say.
fn redraw_without_privileges(folder: &Folder) -> Ended {
    let elsewhere = Folder::new();
    let mut command = command(open_to_all(&elsewhere));
    command.arg("redraw").arg(folder.path());
    run_without_privileges(&mut command);
    end(&mut command, b"")
}

/// Redraws a folder under a limit of the shell's, as `-f 0`.
fn redraw_limited(folder: &Folder, limit: &str) -> Ended {
    let mut shell = command("bash");
    shell.args(["-c", &format!("ulimit {limit} && exec \"$@\""), "bash"]);
    shell.arg(path()).arg("redraw").arg(folder.path());
    end(&mut shell, b"")
}

#[test]
fn a_folder_that_cannot_be_written_keeps_its_records() {
    let folder = Folder::new();
    folder.write("a.ref", REFERENCE);
    folder.write("b.ref", REFERENCE);
    folder.write("b.env", RECORD);
    folder.write("c.ref", REFERENCE);
    folder.write("c.env", ONE_ROW_RECORD);
    set_mode(folder.path(), 0o555);
    let ended = redraw_without_privileges(&folder);
    assert_counts(&ended, [0, 1, 0, 2]);
    assert_eq!(outcome(&ended, "b.ref"), ("unchanged", ""));
    for name in ["a", "c"] {
        let reason = format!("'{name}.env': Permission denied");
        assert_eq!(
            outcome(&ended, &format!("{name}.ref")),
            ("failed", reason.as_str())
        );
    }
    assert_eq!(folder.read("c.env"), ONE_ROW_RECORD.as_bytes());
    assert_eq!(
        folder.names(),
        ["a.ref", "b.env", "b.ref", "c.env", "c.ref"]
    );
    set_mode(folder.path(), 0o755);
}

#[test]
fn files_and_folders_that_cannot_be_read_are_told() {
    let folder = Folder::new();
    folder.write("a.ref", REFERENCE);
    folder.write("b.ref", REFERENCE);
    folder.write("b.env", ONE_ROW_RECORD);
    folder.write("c.ref", REFERENCE);
    for name in ["a.ref", "b.env"] {
        set_mode(&folder.path().join(name), 0);
    }
    set_mode(folder.path(), 0o777);
    let ended = redraw_without_privileges(&folder);
    assert_counts(&ended, [1, 0, 0, 2]);
    assert_eq!(outcome(&ended, "a.ref"), ("failed", "Permission denied"));
    assert_eq!(
        outcome(&ended, "b.ref"),
        ("failed", "'b.env': Permission denied")
    );
    for mode in [0o000, 0o711] {
        set_mode(folder.path(), mode);
        redraw_without_privileges(&folder).assert_failed(": Permission denied\n");
    }
    // Its names can be read, and nothing in it can be reached.
    set_mode(folder.path(), 0o744);
    assert_counts(&redraw_without_privileges(&folder), [0, 0, 0, 3]);
    set_mode(folder.path(), 0o755);
    assert_eq!(
        folder.names(),
        ["a.ref", "b.env", "b.ref", "c.env", "c.ref"]
    );
}

/// In place of a full disk: a record that is not written whole is not put in place, and is removed.
#[test]
fn a_write_that_fails_leaves_the_old_record() {
    let folder = Folder::new();
    for file in 0..200 {
        folder.write(format!("{file}.ref"), REFERENCE);
        folder.write(format!("{file}.env"), ONE_ROW_RECORD);
    }
    folder.write("x.ref", REFERENCE);
    let ended = redraw_limited(&folder, "-f 0");
    assert_counts(&ended, [0, 0, 0, 201]);
    assert_eq!(
        outcome(&ended, "7.ref"),
        ("failed", "'7.env': File too large")
    );
    for file in 0..200 {
        assert_eq!(
            folder.read(format!("{file}.env")),
            ONE_ROW_RECORD.as_bytes()
        );
    }
    assert!(!folder.has("x.env"));
    assert_eq!(other_names(&folder), [""; 0]);
    assert_counts(&redraw_limited(&folder, "-f 1"), [201, 0, 0, 0]);
}

/// With too few descriptors to open a text each one fails, and with one to spare each is drawn.
#[test]
fn few_descriptors_are_enough_or_told() {
    for (limit, drawn) in [("-n 4", 0), ("-n 5", 50), ("-n 20", 50), ("-n 64", 50)] {
        let folder = Folder::new();
        for file in 0..50 {
            folder.write(format!("{file}.ref"), REFERENCE);
        }
        let ended = redraw_limited(&folder, limit);
        assert_counts(&ended, [drawn, 0, 0, 50 - drawn]);
        if drawn == 0 {
            assert_eq!(outcome(&ended, "7.ref"), ("failed", "Too many open files"));
        }
    }
}

/// At most one byte more than the new record has is read of it.
#[test]
fn a_large_file_in_the_place_of_a_record_costs_nothing() {
    let folder = Folder::new();
    for name in ["a", "b"] {
        folder.write(format!("{name}.ref"), ONE_ROW);
    }
    for (name, start) in [("a", ""), ("b", ONE_ROW_RECORD)] {
        let file = folder.write(format!("{name}.env"), start);
        let file = File::options()
            .write(true)
            .open(file)
            .expect("a file of ours");
        file.set_len(LARGE).expect("a file with a hole");
    }
    let peak = redraw_peak(&folder);
    println!("peak {peak} KiB");
    assert!(peak < PEAK_LIMIT, "{peak} KiB");
    assert_counts(&redraw(&folder), [0, 2, 0, 0]);
}

/// Redraws a folder, which must end in 0, and gives the most kibibytes that the program had resident.
fn redraw_peak(folder: &Folder) -> i64 {
    let (peak, output) = watch(&mut command_of(&[folder.path()]), b"", wait_for_peak);
    assert!(output.starts_with(b"drawn a.ref: "));
    peak
}

/// A large text is read no further than a text may have bytes.
#[test]
fn a_large_text_is_refused() {
    let folder = Folder::new();
    let file = File::create(folder.path().join("a.ref")).expect("a new file");
    file.set_len(LARGE).expect("a file with a hole");
    let mut command = command_of(&[folder.path()]);
    let ((status, peak), output) = watch(&mut command, b"", wait_for_status_and_peak);
    assert_eq!(status, 1);
    assert!(output.starts_with(b"refused a.ref: NO,1,0\n"));
    assert!(peak < PEAK_LIMIT, "{peak} KiB");
}

#[test]
fn ten_thousand_texts() {
    let folder = Folder::new();
    let (count, text) = (10_000, |value: usize| {
        format!("REF,1,CND\nA,{}\nB,7\n", value % 4_001)
    });
    for value in 0..count {
        folder.write(format!("{value}.ref"), text(value));
    }
    let began = Instant::now();
    let ended = redraw(&folder);
    println!("{count} new records in {:?}", began.elapsed());
    assert_counts(&ended, [count, 0, 0, 0]);
    assert_eq!(ended.messages.lines().count(), 10);
    for value in (0..count).step_by(997) {
        let record = run("draw", &[text(value)]);
        assert_eq!(folder.read(format!("{value}.env")), record, "{value}");
    }
    let began = Instant::now();
    assert_counts(&redraw(&folder), [0, count, 0, 0]);
    println!("{count} unchanged ones in {:?}", began.elapsed());
    assert_eq!(other_names(&folder), [""; 0]);
}
