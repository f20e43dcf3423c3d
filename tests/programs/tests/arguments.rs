//! The arguments of the programs and of their commands: their number, their length, and names of files of
//! any bytes.

use programs::call::{WAYS, Way};
use programs::folder::Folder;
use programs::process::{command, end, end_on};
use programs::{PROGRAMS, WITH_FILES, accepted, answer, program, quoted, texts};
use std::ffi::{OsStr, OsString};
use std::fs::File;
use std::net::{TcpListener, TcpStream};
use std::os::unix::ffi::{OsStrExt, OsStringExt};
use std::thread;

/// The longest argument that is handed to the system.
const LONGEST: usize = 4_096;

/// Asserts what a program says of arguments; its standard input would be a text.
fn assert_told<Word: AsRef<OsStr>>(name: &str, arguments: &[Word], fault: &str) {
    let mut command = command(program(name));
    let last = accepted(name).pop().expect("a text");
    let ended = end(command.args(arguments), &last);
    ended.assert_told(&format!("{name}: {fault}"), 0);
}

#[test]
fn a_missing_argument_is_told() {
    for name in WITH_FILES {
        assert_told::<&str>(name, &[], "argument 1: missing");
    }
    for name in ["judge", "alerts"] {
        assert_told(name, &["missing"], "argument 2: missing");
    }
    assert_told("alerts", &["missing", ""], "argument 3: missing");
}

/// The first one that is too many, before a file is opened.
#[test]
fn an_argument_in_excess_is_told() {
    for name in ["draw", "plain"] {
        assert_told(name, &["x.ref"], "argument 1 'x.ref': one too many");
        assert_told(name, &["a", "b"], "argument 1 'a': one too many");
        assert_told(name, &["--help"], "argument 1 '--help': one too many");
    }
    for name in ["verify", "panel"] {
        assert_told(name, &["a", "x.env"], "argument 2 'x.env': one too many");
        assert_told(name, &["a", "b", "c"], "argument 2 'b': one too many");
    }
    assert_told("judge", &["a", "b", "c"], "argument 3 'c': one too many");
    assert_told("judge", &["a", "b", "", "d"], "argument 3 '': one too many");
    let four = ["a", "b", "c", "d"];
    assert_told("alerts", &four, "argument 4 'd': one too many");
    for name in PROGRAMS {
        let place = texts(name);
        let mut arguments = vec![OsString::from("a"); place - 1];
        arguments.push(OsString::from_vec(b"two words\n\xff\\".repeat(10)));
        let shown = "two\\x20words\\x0a\\xff\\x5c".repeat(5);
        let fault = format!("argument {place} '{shown}'...: one too many");
        assert_told(name, &arguments, &fault);
    }
}

/// Puts a name into each place before the last, for the programs that have such places.
fn in_each_place(name: &OsStr, mut try_files: impl FnMut(&str, usize, &[OsString])) {
    for program in WITH_FILES {
        let folder = Folder::new();
        for place in 0..texts(program) - 1 {
            let files = folder.write_texts(&accepted(program));
            let mut files: Vec<OsString> = files.into_iter().map(Into::into).collect();
            files[place] = name.into();
            try_files(program, place, &files);
        }
    }
}

/// A program has room for the longest name alone, and says which argument is longer.
#[test]
fn an_argument_too_long_is_told() {
    let start = format!("'{}'...: File name too long", "a".repeat(60));
    for (length, counted) in [(LONGEST, false), (LONGEST + 1, true), (100_000, true)] {
        let name = OsString::from("a".repeat(length));
        in_each_place(&name, |program, place, files| {
            let argument = match counted {
                true => format!("argument {} ", place + 1),
                false => String::new(),
            };
            let line = format!("{program}: {argument}{start}");
            Way::Program.run(program, files).assert_told(&line, 0);
            let line = format!("envelope: {start}");
            Way::Command.run(program, files).assert_told(&line, 2);
        });
    }
}

/// The last byte of the system's limit is for the end of the name.
#[test]
fn the_longest_name_is_opened() {
    let folder = Folder::new();
    for name in WITH_FILES {
        let files = folder.write_texts(&accepted(name));
        let mut files: Vec<String> = files
            .iter()
            .map(|file| file.display().to_string())
            .collect();
        for file in &mut files {
            *file = "/".repeat(LONGEST - 1 - file.len()) + file;
        }
        for way in WAYS {
            way.assert_answer(&way.run(name, &files), name, answer(name));
        }
    }
}

#[test]
fn an_empty_argument_names_no_file() {
    in_each_place(OsStr::new(""), |program, _, files| {
        for way in WAYS {
            let line = format!("{}: '': No such file or directory", way.teller(program));
            way.run(program, files).assert_told(&line, way.failed());
        }
    });
}

/// Names that something between the user and the file could take for something else.
fn odd_names() -> Vec<OsString> {
    let names = [
        "-",
        "--",
        "-x",
        "--help",
        "-n 5",
        "two words",
        " ",
        "tab\t",
        "line\nend",
        "\n",
        "back\\slash",
        "\\",
        "\\x41",
        "a'b\"c",
        "$HOME",
        "`id`",
        "*",
        "?[a]",
        "&1",
        ";",
        "|x",
        "(",
        "~",
        "ä°µ",
        "\u{7f}",
        "\u{1}",
        "NO,1,0",
    ];
    let bytes: [&[u8]; 4] = [b"\xff\xfe", b"a\xc3", b"\x80\n", b"-\xff"];
    let lengths = [59, 60, 61, 255].map(|length| OsString::from("n".repeat(length)));
    let names = names.into_iter().map(OsString::from);
    let bytes = bytes
        .into_iter()
        .map(|bytes| OsStr::from_bytes(bytes).into());
    names.chain(bytes).chain(lengths).collect()
}

/// The command takes `-` for standard input, also behind `--`.
fn words(files: &[OsString]) -> Vec<OsString> {
    let word = |file: &OsString| match file == "-" {
        true => OsString::from("./-"),
        false => file.clone(),
    };
    let words = files.iter().map(word);
    [OsString::from("--")].into_iter().chain(words).collect()
}

/// What a program says of a name that is not UTF-8: std of Rattle takes names as text. The command has no such limit.
const NOT_TEXT: &str = "File name not in UTF-8";

/// In the folder itself, so that the name is all of the path.
#[test]
fn a_file_of_any_name_is_read() {
    for odd in odd_names() {
        let folder = Folder::new();
        for name in PROGRAMS {
            for place in 0..texts(name) {
                let mut files: Vec<OsString> =
                    (0..texts(name)).map(|n| n.to_string().into()).collect();
                files[place] = odd.clone();
                for (file, text) in files.iter().zip(accepted(name)) {
                    folder.write(file, text);
                }
                let (last, before) = files.split_last().expect("a text");
                let input = File::open(folder.path().join(last)).expect("a file");
                let mut alone = Way::Program.command(name, before);
                let ended = end_on(alone.current_dir(folder.path()), input);
                match before.iter().any(|file| file.to_str().is_none()) {
                    true => {
                        let line = format!("{name}: {}: {NOT_TEXT}", quoted(odd.as_bytes()));
                        ended.assert_told(&line, 0);
                    }
                    false => ended.assert_printed(answer(name), 0),
                }
                let mut command = Way::Command.command(name, &words(&files));
                let ended = end(command.current_dir(folder.path()), b"");
                ended.assert_printed(answer(name), 0);
            }
        }
    }
}

#[test]
fn a_missing_file_of_any_name_is_told_in_one_line_of_printable_bytes() {
    for odd in odd_names() {
        let folder = Folder::new();
        let reason = format!("{}: No such file or directory", quoted(odd.as_bytes()));
        assert!(reason.bytes().all(|byte| (32..127).contains(&byte)));
        in_each_place(&odd, |program, _, files| {
            let before = &files[..files.len() - 1];
            let mut alone = Way::Program.command(program, before);
            let ended = end(alone.current_dir(folder.path()), b"");
            let line = match odd.to_str() {
                Some(_) => format!("{program}: {reason}"),
                None => format!("{program}: {}: {NOT_TEXT}", quoted(odd.as_bytes())),
            };
            ended.assert_told(&line, 0);
            if odd != "-" {
                let mut command = Way::Command.command(program, &words(files));
                let ended = end(command.current_dir(folder.path()), b"");
                ended.assert_told(&format!("envelope: {reason}"), 2);
            }
        });
    }
}

/// By itself a program gets no last text that cannot be opened. A locale changes nothing.
#[test]
fn a_missing_last_file_is_told_by_the_command_in_one_line() {
    let long = "n".repeat(300);
    let names: [(&[u8], &str); 14] = [
        (b"x.ref", "No such file or directory"),
        (b"two words", "No such file or directory"),
        (b"line\nend", "No such file or directory"),
        (b"a: b\nc: d", "No such file or directory"),
        (b"\xff\xfe", "No such file or directory"),
        (b"\x1b[31m\x07", "No such file or directory"),
        (b": \xff: x", "No such file or directory"),
        (b"back\\slash", "No such file or directory"),
        (b"--", "No such file or directory"),
        (b"-x", "No such file or directory"),
        (b"", "No such file or directory"),
        (b"x/", "No such file or directory"),
        (b"/dev/null/x", "Not a directory"),
        (long.as_bytes(), "File name too long"),
    ];
    let folder = Folder::new();
    for (name, reason) in names {
        for program in PROGRAMS {
            let mut files: Vec<OsString> = vec!["/dev/null".into(); texts(program) - 1];
            files.push(OsStr::from_bytes(name).into());
            for locale in ["C", "C.UTF-8", "no such locale"] {
                let mut command = Way::Command.command(program, &words(&files));
                command.env("LC_ALL", locale).current_dir(folder.path());
                let line = format!("envelope: {}: {reason}", quoted(name));
                end(&mut command, b"").assert_told(&line, 2);
            }
        }
    }
}

/// A shell takes such names for a socket or a descriptor. The first to call the port that listens here is
/// this test.
#[test]
fn no_name_is_taken_for_a_socket_or_a_descriptor() {
    let listener = TcpListener::bind("127.0.0.1:0").expect("a port");
    let address = listener.local_addr().expect("a port");
    let caller = thread::spawn(move || listener.accept().expect("a caller").1);
    let socket = format!("/dev/tcp/127.0.0.1/{}", address.port());
    for name in PROGRAMS {
        for file in [&socket, &socket[1..], "/dev/udp/127.0.0.1/9", "&0"] {
            let mut files = vec!["/dev/null"; texts(name) - 1];
            files.push(file);
            let line = format!("envelope: '{file}': No such file or directory");
            Way::Command.run(name, &files).assert_told(&line, 2);
        }
    }
    let own = TcpStream::connect(address).expect("a port that listens");
    let caller = caller.join().expect("a caller");
    assert_eq!(caller, own.local_addr().expect("a port"));
}
