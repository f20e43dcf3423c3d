//! Reads and opens that fail: nothing is printed, one line says which text and why, and a failed read is
//! never taken for the end of its text.

use programs::call::{WAYS, Way};
use programs::folder::Folder;
use programs::process::{command, end, end_on};
use programs::repository::{copy_to_run, set_mode};
use programs::script;
use programs::system::{run_without_privileges, set_non_blocking};
use programs::{PROGRAMS, RECORD, WITH_FILES, accepted, program, quoted, texts};
use std::fs;
use std::io::{PipeReader, PipeWriter, Write, pipe};
use std::os::unix::ffi::OsStrExt;
use std::os::unix::net::UnixListener;
use std::path::{Path, PathBuf};
use std::process::Command;

const NOT_READY: &str = "Resource temporarily unavailable";

/// A pipe that has given these bytes and has no more yet: its writer is there.
fn not_ready(bytes: &[u8]) -> (PipeReader, PipeWriter) {
    let (reader, mut writer) = pipe().expect("a pipe");
    writer.write_all(bytes).expect("a pipe with room");
    set_non_blocking(&reader);
    (reader, writer)
}

/// The starts of a text that end with a line, the empty one and the whole text too.
fn starts(text: &[u8]) -> Vec<&[u8]> {
    let ends = (0..text.len()).filter(|&index| text[index] == b'\n');
    let ends = [0].into_iter().chain(ends.map(|index| index + 1));
    ends.map(|end| &text[..end]).collect()
}

#[test]
fn a_read_that_fails_after_whole_lines_is_no_end_of_the_last_text() {
    for name in PROGRAMS {
        let folder = Folder::new();
        let (last, before) = (accepted(name).pop().expect("a text"), texts(name) - 1);
        let files = folder.write_texts(&accepted(name)[..before]);
        for start in starts(&last) {
            for way in WAYS {
                let (input, _writer) = not_ready(start);
                let ended = way.run_on(name, &files, input);
                let line = format!("{}: standard input: {NOT_READY}", way.teller(name));
                ended.assert_told(&line, way.failed());
            }
        }
    }
}

#[test]
fn a_read_that_fails_after_whole_lines_is_no_end_of_an_earlier_text() {
    for name in WITH_FILES {
        let folder = Folder::new();
        for place in 0..texts(name) - 1 {
            let mut files = folder.write_texts(&accepted(name));
            files[place] = PathBuf::from("-");
            for start in starts(&accepted(name)[place]) {
                let (input, _writer) = not_ready(start);
                let ended = end_on(&mut Way::Command.command(name, &files), input);
                let line = format!("envelope: standard input: {NOT_READY}");
                ended.assert_told(&line, 2);
            }
        }
    }
}

/// What is said of a text that cannot be read: a program has the last one as standard input.
fn fault(way: Way, name: &str, place: usize, path: &Path, reason: &str) -> String {
    let shown = match way == Way::Program && place + 1 == texts(name) {
        true => "standard input".to_string(),
        false => quoted(path.as_os_str().as_bytes()),
    };
    format!("{}: {shown}: {reason}", way.teller(name))
}

/// Puts a path into each place of each program, and asserts what is said of it.
fn assert_not_read(path: &Path, reason: &str) {
    for name in PROGRAMS {
        let folder = Folder::new();
        for place in 0..texts(name) {
            let mut files = folder.write_texts(&accepted(name));
            files[place] = path.into();
            for way in WAYS {
                let line = fault(way, name, place, path, reason);
                way.run(name, &files).assert_told(&line, way.failed());
            }
        }
    }
}

#[test]
fn a_directory_is_not_read() {
    assert_not_read(Folder::new().path(), "Is a directory");
}

/// A process can open its own memory, and nothing is at its first address.
#[test]
fn a_file_whose_first_read_fails_is_not_read() {
    assert_not_read(Path::new("/proc/self/mem"), "Input/output error");
}

#[test]
fn a_directory_on_standard_input_is_not_read() {
    let folder = Folder::new();
    let record = folder.write("x.env", RECORD);
    let files = [PathBuf::from("-"), record];
    let input = fs::File::open(folder.path()).expect("a folder");
    let ended = end_on(&mut Way::Command.command("verify", &files), input);
    ended.assert_told("envelope: standard input: Is a directory", 2);
}

/// By itself a program gets no last text that cannot be opened.
fn assert_not_opened(path: &Path, reason: &str) {
    for name in PROGRAMS {
        let folder = Folder::new();
        for place in 0..texts(name) {
            let mut files = folder.write_texts(&accepted(name));
            files[place] = path.into();
            for way in WAYS {
                if way == Way::Command || place + 1 < texts(name) {
                    let line = fault(way, name, place, path, reason);
                    let files = match way {
                        Way::Program => &files[..texts(name) - 1],
                        Way::Command => &files,
                    };
                    let ended = end(&mut way.command(name, files), b"");
                    ended.assert_told(&line, way.failed());
                }
            }
        }
    }
}

#[test]
fn a_missing_file_is_named() {
    let folder = Folder::new();
    let missing = folder.path().join("missing");
    assert_not_opened(&missing, "No such file or directory");
}

#[test]
fn a_socket_is_named() {
    let folder = Folder::new();
    let path = folder.path().join("socket");
    let _listener = UnixListener::bind(&path).expect("a socket");
    assert_not_opened(&path, "No such device or address");
}

#[test]
fn a_link_to_itself_is_named() {
    let folder = Folder::new();
    let path = folder.path().join("link");
    std::os::unix::fs::symlink("link", &path).expect("a link");
    assert_not_opened(&path, "Too many levels of symbolic links");
}

/// A copy that every user can run, wherever the repository is.
fn copied(folder: &Folder, program: &Path) -> PathBuf {
    let copy = folder.path().join(program.file_name().expect("a name"));
    copy_to_run(program, &copy);
    copy
}

#[test]
fn an_unreadable_file_is_named() {
    let folder = Folder::new();
    set_mode(folder.path(), 0o755);
    for name in PROGRAMS {
        let files = folder.write_texts(&accepted(name));
        let before = &files[..texts(name) - 1];
        files.iter().for_each(|file| set_mode(file, 0o644));
        let told = |file: &PathBuf, mut command: Command, teller: &str, status: i32| {
            set_mode(file, 0o000);
            run_without_privileges(&mut command);
            let shown = quoted(file.as_os_str().as_bytes());
            let line = format!("{teller}: {shown}: Permission denied");
            end(&mut command, b"").assert_told(&line, status);
            set_mode(file, 0o644);
        };
        for file in before {
            let mut alone = command(copied(&folder, &program(name)));
            alone.args(before);
            told(file, alone, name, 0);
        }
        for file in &files {
            let mut envelope = command(copied(&folder, &script::path()));
            envelope.arg(name).args(&files);
            told(file, envelope, "envelope", 2);
        }
    }
}

/// The first text that cannot be read is named, in the order of the arguments.
#[test]
fn the_first_of_several_faulty_files_is_named() {
    let folder = Folder::new();
    let missing = ["a", "b", "c", "d"].map(|name| folder.path().join(name));
    for name in PROGRAMS {
        let line = fault(
            Way::Command,
            name,
            0,
            &missing[0],
            "No such file or directory",
        );
        let ended = Way::Command.run(name, &missing[..texts(name)]);
        ended.assert_told(&line, 2);
    }
}

#[test]
fn an_empty_text_is_no_failed_read() {
    for name in PROGRAMS {
        let files = vec!["/dev/null"; texts(name) - 1];
        for way in WAYS {
            let ended = end(&mut way.command(name, &files), b"");
            way.assert_answer(&ended, name, "NO,1,0\n");
        }
    }
}
