//! Standard output that takes nothing, and standard descriptors that are closed, each and together:
//! nothing wrong is printed, what can be said is said, and no file is changed.

use programs::call::{WAYS, Way};
use programs::folder::Folder;
use programs::process::{Ended, command, end, redirected};
use programs::script::path;
use programs::{
    PROGRAMS, READING, RECORD, REFERENCE, TEXT_LIMIT, WITH_FILES, accepted, answer, quoted, texts,
};
use std::io::{Read, pipe};
use std::os::unix::ffi::OsStrExt;
use std::path::PathBuf;
use std::process::Stdio;

/// The ways to close some of three descriptors.
struct Closed {
    input: bool,
    output: bool,
    messages: bool,
}

fn ways_to_close() -> impl Iterator<Item = Closed> {
    (1..8).map(|bits| Closed {
        input: bits & 1 != 0,
        output: bits & 2 != 0,
        messages: bits & 4 != 0,
    })
}

impl Closed {
    fn redirections(&self) -> String {
        let all = [
            (self.input, "<&-"),
            (self.output, ">&-"),
            (self.messages, "2>&-"),
        ];
        let closed = all.iter().filter(|(closed, _)| *closed);
        closed.map(|(_, words)| format!("{words} ")).collect()
    }

    /// Asserts that nothing was printed, and that this is said where it can.
    fn assert_told(&self, ended: &Ended, line: &str, status: i32) {
        assert_eq!(
            (ended.text(), ended.status),
            ("", status),
            "{}",
            self.redirections()
        );
        match self.messages {
            true => assert_eq!(ended.messages, ""),
            false => assert_eq!(ended.messages, line),
        }
    }
}

/// A folder with a program's texts.
struct Texts {
    folder: Folder,
    files: Vec<PathBuf>,
    texts: Vec<Vec<u8>>,
}

impl Texts {
    fn new(name: &str) -> Texts {
        let (folder, texts) = (Folder::new(), accepted(name));
        let files = folder.write_texts(&texts);
        Texts {
            folder,
            files,
            texts,
        }
    }

    fn before(&self) -> &[PathBuf] {
        &self.files[..self.files.len() - 1]
    }

    fn last(&self) -> &[u8] {
        self.texts.last().expect("a text")
    }
}

impl Drop for Texts {
    fn drop(&mut self) {
        if !std::thread::panicking() {
            for (file, text) in self.files.iter().zip(&self.texts) {
                assert_eq!(&self.folder.read(file), text, "{}", file.display());
            }
            assert_eq!(self.folder.names().len(), self.files.len());
        }
    }
}

/// What is said of closed descriptors; nothing where only the one for messages is.
fn fault(closed: &Closed) -> Option<&'static str> {
    match (closed.input, closed.output) {
        (true, _) => Some("standard input: Bad file descriptor\n"),
        (false, true) => Some("standard output: Bad file descriptor\n"),
        (false, false) => None,
    }
}

/// Also where the command has the name of each text, so that it does not read standard input.
#[test]
fn closed_descriptors_give_no_wrong_answer() {
    for name in PROGRAMS {
        for closed in ways_to_close() {
            let texts = Texts::new(name);
            for (way, files) in [
                (Way::Program, texts.before()),
                (Way::Command, texts.before()),
                (Way::Command, &texts.files),
            ] {
                let command = way.command(name, files);
                let mut command = redirected(&closed.redirections(), &command);
                let ended = end(&mut command, texts.last());
                match fault(&closed) {
                    Some(fault) => {
                        let line = format!("{}: {fault}", way.teller(name));
                        closed.assert_told(&ended, &line, way.failed());
                    }
                    None => ended.assert_printed(answer(name), 0),
                }
            }
        }
    }
}

#[test]
fn a_closed_standard_input_is_no_end_of_an_earlier_text() {
    for name in WITH_FILES {
        for closed in ways_to_close().filter(|closed| closed.input) {
            let texts = Texts::new(name);
            for place in 0..texts.files.len() - 1 {
                let mut files = texts.files.clone();
                files[place] = PathBuf::from("-");
                let command = Way::Command.command(name, &files);
                let ended = end(&mut redirected(&closed.redirections(), &command), b"");
                let line = "envelope: standard input: Bad file descriptor\n";
                closed.assert_told(&ended, line, 2);
            }
        }
    }
}

/// Whatever the command, and where there is none.
#[test]
fn every_command_needs_its_descriptors() {
    let folder = Folder::new();
    folder.write("a.ref", REFERENCE);
    let redraw = ["redraw", folder.path().to_str().expect("a path in UTF-8")];
    for words in [&["help"][..], &["--version"], &["types"], &[], &redraw] {
        for closed in ways_to_close().filter(|closed| closed.input || closed.output) {
            let mut command = command(path());
            command.args(words);
            let ended = end(&mut redirected(&closed.redirections(), &command), b"");
            let line = format!("envelope: {}", fault(&closed).expect("a fault"));
            closed.assert_told(&ended, &line, 2);
        }
    }
    assert_eq!(folder.names(), ["a.ref"]);
}

/// What a program says is never its answer, whatever takes the place of a closed descriptor.
#[test]
fn a_message_is_no_answer_where_descriptors_are_closed() {
    for name in WITH_FILES {
        for closed in ways_to_close() {
            let texts = Texts::new(name);
            let mut files = texts.files.clone();
            files[0] = texts.folder.path().join("missing");
            let shown = quoted(files[0].as_os_str().as_bytes());
            let missing = format!("{shown}: No such file or directory\n");
            let (_, before) = files.split_last().expect("a text");
            for (way, files) in [(Way::Program, before), (Way::Command, &files)] {
                let command = way.command(name, files);
                let mut command = redirected(&closed.redirections(), &command);
                let ended = end(&mut command, texts.last());
                // The command looks at its descriptors before it opens a file.
                let reason = match way {
                    Way::Program => &missing,
                    Way::Command => fault(&closed).unwrap_or(&missing),
                };
                let line = format!("{}: {reason}", way.teller(name));
                closed.assert_told(&ended, &line, way.failed());
            }
        }
    }
}

#[test]
fn a_write_that_fails_is_told() {
    for name in PROGRAMS {
        let texts = Texts::new(name);
        for way in WAYS {
            let command = way.command(name, texts.before());
            let ended = end(&mut redirected(">/dev/full", &command), texts.last());
            let teller = way.teller(name);
            let line = format!("{teller}: standard output: No space left on device");
            ended.assert_told(&line, way.failed());
        }
    }
}

/// Of a refused text too, and of commands that read none.
#[test]
fn every_answer_that_cannot_be_written_is_told() {
    let folder = Folder::new();
    let files = folder.write_texts(&["REF,0\n", "ENV,0\n", "\n", "\n"]);
    for name in PROGRAMS {
        let command = Way::Command.command(name, &files[..texts(name)]);
        let ended = end(&mut redirected(">/dev/full", &command), b"");
        ended.assert_told("envelope: standard output: No space left on device", 2);
    }
    let later: [(&str, &[&str]); 2] = [
        ("judge", &[REFERENCE, RECORD, "\n"]),
        ("alerts", &[REFERENCE, RECORD, "0,1\n", READING]),
    ];
    for (name, texts) in later {
        let command = Way::Command.command(name, &folder.write_texts(texts));
        let ended = end(&mut redirected(">/dev/full", &command), b"");
        ended.assert_told("envelope: standard output: No space left on device", 2);
    }
}

/// A file that may have 4 KiB takes the start of the output, whether the signal of the limit is ignored or
/// would end the program.
#[test]
fn a_write_that_fails_after_some_bytes_is_told() {
    let folder = Folder::new();
    let files = folder.write_texts(&[REFERENCE, RECORD]);
    for (way, before) in [
        (Way::Program, "trap '' XFSZ; "),
        (Way::Command, "trap '' XFSZ; "),
        (Way::Command, ""),
    ] {
        let output = folder.write("output", "");
        let program = way.command("judge", &files);
        let mut shell = command("bash");
        shell.args(["-c", &format!("{before}ulimit -f 4; exec \"$@\" >\"$0\"")]);
        shell
            .arg(&output)
            .arg(program.get_program())
            .args(program.get_args());
        let ended = end(&mut shell, &vec![b'\n'; TEXT_LIMIT]);
        let line = format!("{}: standard output: File too large", way.teller("judge"));
        ended.assert_told(&line, way.failed());
        let whole = b"NO,3,1\n".repeat(TEXT_LIMIT);
        assert!(folder.read(output) == whole[..4_096], "the first bytes");
    }
}

/// The reader takes some bytes, or none, and goes: the signal would end a program of C.
#[test]
fn a_pipe_that_nobody_reads_is_told() {
    let texts = [REFERENCE, RECORD, &"\n".repeat(TEXT_LIMIT)];
    let folder = Folder::new();
    let files = folder.write_texts(&texts);
    for taken in [0, 1, 4_096, 100_000] {
        let (mut reader, writer) = pipe().expect("a pipe");
        let mut command = Way::Command.command("judge", &files);
        let command = command.stdin(Stdio::null()).stdout(writer);
        let child = command.stderr(Stdio::piped()).spawn();
        // This process would keep the pipe's writing end.
        command.stdout(Stdio::null());
        let mut start = vec![0; taken];
        reader.read_exact(&mut start).expect("so many bytes");
        assert!(start == texts[2].replace('\n', "NO,3,1\n").as_bytes()[..taken]);
        drop(reader);
        let ended = child.expect("a program that runs").wait_with_output();
        let ended = ended.expect("a program that ends");
        let messages = String::from_utf8(ended.stderr).expect("messages in UTF-8");
        assert_eq!(messages, "envelope: standard output: Broken pipe\n");
        assert_eq!(ended.status.code(), Some(2));
    }
}

/// Messages that cannot be written change neither the answer nor the status: words of a refusal, and the
/// line on values below detection.
#[test]
fn messages_that_cannot_be_written_change_nothing() {
    let below = REFERENCE.replace(",0", ",<1");
    for (name, reference, output) in [
        ("draw", REFERENCE, RECORD),
        ("draw", "REF,0\n", "NO,2,1\n"),
        ("plain", REFERENCE, REFERENCE),
        ("plain", &below, REFERENCE),
        ("plain", "REF,0\n", "NO,2,1\n"),
    ] {
        for redirections in ["2>/dev/full", "2>&-", "2</dev/null"] {
            let folder = Folder::new();
            let command = Way::Command.command(name, &folder.write_texts(&[reference]));
            let ended = end(&mut redirected(redirections, &command), b"");
            let status = Way::Command.status(name, output.as_bytes());
            ended.assert_printed(output, status);
        }
    }
}

/// One that is open the wrong way is a failed read or write.
#[test]
fn a_descriptor_that_is_open_the_wrong_way_is_told() {
    let folder = Folder::new();
    let files = folder.write_texts(&[REFERENCE]);
    let bad = "Bad file descriptor";
    for (redirections, files, stream) in [
        ("0>/dev/null", &files[..0], "input"),
        ("1</dev/null", &files, "output"),
    ] {
        for way in WAYS {
            if way == Way::Program && !files.is_empty() {
                continue;
            }
            for name in ["draw", "plain"] {
                let command = way.command(name, files);
                let ended = end(&mut redirected(redirections, &command), b"");
                let line = format!("{}: standard {stream}: {bad}", way.teller(name));
                ended.assert_told(&line, way.failed());
            }
        }
    }
}
