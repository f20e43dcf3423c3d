//! `envelope redraw`: what it draws, leaves alone, turns back and tells.

use outside::drawn_as_0::in_each_place;
use programs::call::{Way, run};
use programs::folder::Folder;
use programs::process::{Ended, command, end, redirected};
use programs::redrawn::{
    ONE_ROW, ONE_ROW_RECORD, ONE_ROW_TOLD, REFERENCE_TOLD, assert_counts, assert_told, command_of,
    other_names, redraw,
};
use programs::script::path;
use programs::{BELOW_DETECTION, DRAWN_WITH_ZEROS, EXAMPLES, READING, RECORD, REFERENCE, example};
use std::ffi::OsStr;
use std::fs::{self, File, Permissions};
use std::os::unix::ffi::OsStrExt;
use std::os::unix::fs::{MetadataExt, PermissionsExt};
use std::time::Instant;

/// What changes where a file is written, replaced or touched.
fn identity(folder: &Folder, name: &str) -> [i64; 7] {
    let data = fs::metadata(folder.path().join(name)).expect("a file");
    let times = [
        data.mtime(),
        data.mtime_nsec(),
        data.ctime(),
        data.ctime_nsec(),
    ];
    let [first, second, third, fourth] = times;
    let (inode, mode) = (data.ino() as i64, data.mode().into());
    [
        inode,
        mode,
        data.size() as i64,
        first,
        second,
        third,
        fourth,
    ]
}

fn permissions(folder: &Folder, name: &str) -> u32 {
    let data = fs::metadata(folder.path().join(name)).expect("a file");
    data.mode() & 0o7777
}

#[test]
fn it_draws_leaves_alone_and_refuses() {
    let folder = Folder::new();
    folder.write("a.ref", REFERENCE);
    folder.write("b.ref", ONE_ROW);
    folder.write("b.env", ONE_ROW_RECORD);
    folder.write("c.ref", REFERENCE);
    folder.write("c.env", ONE_ROW_RECORD);
    folder.write("d.ref", "REF,1,TOC\nA,5\nB,2001\n");
    folder.write("d.env", RECORD);
    folder.write("e.ref", "");
    folder.write("f.env", "no reference text");
    folder.write("g.txt", REFERENCE);
    folder.write(".h.ref", REFERENCE);
    folder.write(".ref", REFERENCE);
    folder.write("ref", REFERENCE);
    folder.write("i.REF", REFERENCE);
    let names = folder.names();
    let kept = ["b.env", "d.env", "f.env"].map(|name| identity(&folder, name));
    let drawn = [
        format!("drawn a.ref: {REFERENCE_TOLD}; before: no record"),
        format!("drawn c.ref: {REFERENCE_TOLD}; before: {ONE_ROW_TOLD}"),
    ];
    let lines = [
        &drawn[0],
        "unchanged b.ref",
        &drawn[1],
        "refused d.ref: NO,4,3",
        "refused e.ref: NO,1,0",
        "2 drawn, 1 unchanged, 2 refused, 0 failed",
    ];
    assert_told(&redraw(&folder), &lines, 1);
    assert_eq!(folder.read("a.env"), RECORD.as_bytes());
    assert_eq!(folder.read("c.env"), RECORD.as_bytes());
    let after = ["b.env", "d.env", "f.env"].map(|name| identity(&folder, name));
    assert_eq!(kept, after);
    let mut expected = names;
    expected.push("a.env".to_string());
    expected.sort();
    assert_eq!(folder.names(), expected);
}

#[test]
fn a_second_run_changes_nothing_and_says_nothing_else() {
    let folder = Folder::new();
    folder.write("a.ref", REFERENCE);
    folder.write("b.ref", ONE_ROW);
    let first = redraw(&folder);
    assert_counts(&first, [2, 0, 0, 0]);
    assert_eq!(first.messages, "");
    let before = ["a.env", "b.env"].map(|name| identity(&folder, name));
    let lines = "unchanged a.ref\nunchanged b.ref\n0 drawn, 2 unchanged, 0 refused, 0 failed\n";
    redraw(&folder).assert_printed(lines, 0);
    let after = ["a.env", "b.env"].map(|name| identity(&folder, name));
    assert_eq!(before, after);
}

/// Also one that differs from the new record by a byte 0 or a line end behind it.
#[test]
fn another_record_is_replaced() {
    let cut = &RECORD[..RECORD.len() - 1];
    let behind = ["\0", "\0\n", "\n"].map(|behind| format!("{RECORD}{behind}"));
    for old in [cut, "", "\0", &behind[0], &behind[1], &behind[2]] {
        let folder = Folder::new();
        folder.write("a.ref", REFERENCE);
        folder.write("a.env", old);
        assert_counts(&redraw(&folder), [1, 0, 0, 0]);
        assert_eq!(folder.read("a.env"), RECORD.as_bytes(), "{old:?}");
    }
}

/// Of a record that was there only what its first three lines state is known.
#[test]
fn what_was_there_before_is_told() {
    let long = "ENV,1,TOC\n".repeat(100);
    let largest = "9".repeat(19);
    for (old, before) in [
        ("", "no record in form"),
        ("\n\n\n", "no record in form"),
        ("NO,4,3\n", "no record in form"),
        ("ENV,1,TOC\nC,327680\nR,0,0,0\n", "no record in form"),
        ("ENV,1,TOC\nC,0327680\nR,0,0,0,S\n", "no record in form"),
        (
            "ENV,1,TOC\nC,1,2\nR,0,0,0,S\nW,1,65536\n",
            "no record in form",
        ),
        (
            "ENV,1,TEMP\nC,1\nR,0,0,0,S\nW,1,65536\n",
            "no record in form",
        ),
        ("ENV,1,TOC\r\nC,1\r\nR,0,0,0,S\r\n", "no record in form"),
        ("\u{1b}[31m\n\n\n", "no record in form"),
        (ONE_ROW_RECORD, ONE_ROW_TOLD),
        ("ENV,1,TOC\nC,327680\nR,0,0,0,S\n", ONE_ROW_TOLD),
        (
            "ENV,2,PH,TMP\nC,-65536,6553600\nR,4294967297,0,0,B\nW,1,1\n",
            "centre PH -0.010, TMP 10.00 °C, radius 1.1 steps",
        ),
        (
            "ENV,1,TOC\nC,-1\nR,-1,0,0,B\nW,1,1\n",
            "centre TOC 0.0 ppb, a squared radius below 0",
        ),
        (
            &format!("ENV,1,TOC\nC,-{largest}\nR,{largest},0,0,B\n"),
            "centre TOC -152587890625000.0 ppb, radius 48252.6 steps",
        ),
        (&long, "no record in form"),
        (&"E".repeat(100), "no record in form"),
        (&"E".repeat(10_000), "a longer file, not told"),
        (
            &format!("E\nE\n{}", "E".repeat(10_000)),
            "a longer file, not told",
        ),
    ] {
        let folder = Folder::new();
        // The new record has some hundred bytes, so that of an old one some hundred are read.
        folder.write("a.ref", example("water-for-injection", "ref"));
        folder.write("a.env", old);
        let ended = redraw(&folder);
        assert_counts(&ended, [1, 0, 0, 0]);
        let (_, told) = ended.text().split_once("; before: ").expect("a change");
        assert_eq!(told.lines().next(), Some(before), "{old:?}");
    }
}

/// The rows of document 01's example, and one that lies in its ball whether it counts as 0 or as half.
const INSIDE: &str = "REF,2,TOC,CND\nA,0,0\nB,6,0\nC,0,8\nD,<4,<4\n";
/// Four corners, and a first row in their ball, from which the drawing goes to other corners where it counts
/// as half.
const CORNERS: &str = "REF,2,TOC,CND\nA,<18,1\nB,0,0\nC,10,10\nD,0,10\nE,10,0\n";

/// A folder with records of two texts, drawn where values below detection counted as 0.
fn drawn_with_zeros(texts: [(&str, &str); 2]) -> Folder {
    let folder = Folder::new();
    for (name, text) in texts {
        folder.write(format!("{name}.ref"), text);
        let record = outside::programs::draw(&in_each_place(text.as_bytes(), b"0"));
        folder.write(format!("{name}.env"), record);
    }
    folder
}

/// Runs a program in a folder on the reference text and the record of a name. `judge` takes a reading besides.
fn run_in(folder: &Folder, program: &str, name: &str) -> Ended {
    let files = ["ref", "env"].map(|kind| format!("{name}.{kind}"));
    let mut command = Way::Command.command(program, &files);
    end(command.current_dir(folder.path()), READING.as_bytes())
}

/// Asserts what `verify` and `judge` print of texts whose record agrees.
fn assert_agree(folder: &Folder, name: &str) {
    run_in(folder, "verify", name).assert_printed("OK\n", 0);
    run_in(folder, "judge", name).assert_printed("QUIET\n", 0);
}

/// One has other figures, and is refused until it is redrawn; the other is the one that is drawn.
#[test]
fn records_drawn_with_zeros_are_redrawn_once() {
    let folder = drawn_with_zeros([("differs", BELOW_DETECTION), ("kept", INSIDE)]);
    for name in ["differs", "kept"] {
        let record = folder.read(format!("{name}.env"));
        assert_eq!(record, RECORD.as_bytes(), "{name}");
    }
    for program in ["verify", "judge"] {
        let ended = run_in(&folder, program, "differs");
        assert_eq!((ended.text(), ended.status), ("NO,12,0\n", 1));
        let told = format!("envelope: 'differs.env': {DRAWN_WITH_ZEROS}");
        assert_eq!(ended.messages, told);
    }
    assert_agree(&folder, "kept");
    let kept = identity(&folder, "kept.env");
    let figures = "centre TOC 2.1 ppb, CND 0.0037 µS/cm, radius 4.3 steps";
    let lines = [
        &format!("drawn differs.ref: {figures}; before: {REFERENCE_TOLD}"),
        "unchanged kept.ref",
        "1 drawn, 1 unchanged, 0 refused, 0 failed",
    ];
    assert_told(&redraw(&folder), &lines, 0);
    assert_eq!(identity(&folder, "kept.env"), kept);
    let drawn = outside::programs::draw(BELOW_DETECTION.as_bytes());
    assert_eq!(folder.read("differs.env"), drawn);
    for name in ["differs", "kept"] {
        assert_agree(&folder, name);
    }
    assert_counts(&redraw(&folder), [0, 2, 0, 0]);
}

/// The same ball, which other rows hold: the record agrees as it is, and is replaced by the one that is drawn.
#[test]
fn a_record_drawn_with_zeros_that_agrees_is_replaced_where_another_is_drawn() {
    let folder = drawn_with_zeros([("corners", CORNERS), ("kept", INSIDE)]);
    let before = folder.read("corners.env");
    assert_agree(&folder, "corners");
    let figures = "centre TOC 5.0 ppb, CND 0.0050 µS/cm, radius 7.1 steps";
    let lines = [
        &format!("drawn corners.ref: {figures}; before: {figures}"),
        "unchanged kept.ref",
        "1 drawn, 1 unchanged, 0 refused, 0 failed",
    ];
    assert_told(&redraw(&folder), &lines, 0);
    let drawn = outside::programs::draw(CORNERS.as_bytes());
    assert_eq!(folder.read("corners.env"), drawn);
    assert_ne!(drawn, before);
    assert_agree(&folder, "corners");
}

#[test]
fn any_name_works_and_none_reaches_a_terminal() {
    let long = "l".repeat(251);
    let names = [
        "two words",
        "-f",
        "--",
        "*",
        "?[a]",
        "$HOME",
        "`id`",
        "a'b\"c",
        "back\\slash",
        "line\nend",
        "\n",
        "tab\t",
        " ",
        "ä°µ",
        "a.ref",
        "a.env",
        ";",
        "&",
        "NO,1,0",
        "\u{1b}]0;title\u{7}",
        "\u{1b}[2J",
        "\r",
        "\u{7f}",
        &long,
    ];
    let folder = Folder::new();
    for name in names {
        folder.write(format!("{name}.ref"), REFERENCE);
    }
    let raw = OsStr::from_bytes(b"\xff\xc3.ref");
    folder.write(raw, "REF,0\n");
    let ended = redraw(&folder);
    assert_counts(&ended, [names.len(), 0, 1, 0]);
    let printable = |byte: &u8| (32..127).contains(byte) || *byte == b'\n';
    let ascii = ended.text().replace("µ", "u");
    assert!(ascii.bytes().all(|byte| printable(&byte)), "{ascii}");
    assert!(ended.messages.bytes().all(|byte| printable(&byte)));
    assert_eq!(ended.text().lines().count(), names.len() + 2);
    for told in [
        "drawn \\x1b]0;title\\x07.ref: ",
        "drawn line\\x0aend.ref: ",
        "drawn two\\x20words.ref: ",
        "drawn back\\x5cslash.ref: ",
        "refused \\xff\\xc3.ref: NO,2,1\n",
        &format!("drawn {}...: ", "l".repeat(60)),
    ] {
        assert!(ended.text().contains(told), "{told} is in {}", ended.text());
    }
    for name in names {
        let record = folder.read(format!("{name}.env"));
        assert_eq!(record, RECORD.as_bytes(), "{name:?}");
    }
    fs::remove_file(folder.path().join(raw)).expect("a file of ours");
    assert_eq!(folder.names().len(), 2 * names.len());
}

#[test]
fn folders_of_any_name_and_from_anywhere() {
    let folder = Folder::new();
    for name in ["-", "two words", "~", "line\nend", "--", "-P"] {
        folder.write(format!("{name}/a.ref"), REFERENCE);
        let mut command = command(path());
        command
            .args(["redraw", "--", name])
            .current_dir(folder.path());
        let ended = end(&mut command, b"");
        assert_counts(&ended, [1, 0, 0, 0]);
        assert!(ended.text().starts_with("drawn a.ref: "));
        assert_eq!(folder.read(format!("{name}/a.env")), RECORD.as_bytes());
    }
}

/// The next folder is redrawn after one that failed, and the same one twice is unchanged the second time.
#[test]
fn several_folders_are_redrawn_in_their_order() {
    let folder = Folder::new();
    folder.write("x/a.ref", REFERENCE);
    folder.write("y y/b.ref", ONE_ROW);
    folder.write("y y/c.ref", "REF,0\n");
    folder.write("empty/a.env", RECORD);
    let mut command = command(path());
    let words = ["redraw", "y y", "none", "x/", "empty", "x"];
    command.args(words).current_dir(folder.path());
    let ended = end(&mut command, b"");
    let lines = [
        &format!("drawn y\\x20y/b.ref: {ONE_ROW_TOLD}; before: no record"),
        "refused y\\x20y/c.ref: NO,2,1",
        &format!("drawn x/a.ref: {REFERENCE_TOLD}; before: no record"),
        "unchanged x/a.ref",
        "2 drawn, 1 unchanged, 1 refused, 0 failed; 2 of 5 folders failed",
    ];
    assert_told(&ended, &lines, 2);
    for words in [
        "envelope: 'none': No such file or directory\n",
        "envelope: there is no *.ref in the folder 'empty'\n",
        "envelope: 'c.ref' in 'y\\x20y', line 1: refused by 2: ",
    ] {
        assert!(ended.messages.contains(words), "{}", ended.messages);
    }
    let ended = end(
        &mut command_of(&[folder.path().join("x"), folder.path().join("y y")]),
        b"",
    );
    assert_counts(&ended, [0, 2, 1, 0]);
}

/// Of a folder's long name only the start is told, of the file's the whole.
#[test]
fn a_refused_file_is_told_by_its_name_in_a_folder_of_a_long_name() {
    let (folder, long) = (Folder::new(), "f".repeat(200));
    folder.write(format!("{long}/x.ref"), "REF,0\n");
    folder.write("y/x.ref", REFERENCE);
    let ended = end(command_of(&[&*long, "y"]).current_dir(folder.path()), b"");
    assert_counts(&ended, [1, 0, 1, 0]);
    let told = format!("envelope: 'x.ref' in '{}'..., line 1: ", "f".repeat(60));
    assert!(ended.messages.contains(&told), "{}", ended.messages);
}

#[test]
fn no_reference_text_is_a_failure() {
    let folder = Folder::new();
    folder.write("a.env", RECORD);
    redraw(&folder).assert_failed("there is no *.ref in the folder '");
    assert_eq!(folder.names(), ["a.env"]);
}

#[test]
fn bad_usage_ends_in_2() {
    let folder = Folder::new();
    folder.write("a.ref", REFERENCE);
    let run = |words: &[&str]| {
        let mut command = command(path());
        command.arg("redraw").args(words).current_dir(folder.path());
        end(&mut command, b"")
    };
    run(&[]).assert_failed("redraw takes a folder or several");
    run(&["-x"]).assert_failed("there is no option '-x'");
    run(&[""]).assert_failed("envelope: '': No such file or directory");
    run(&["a.ref"]).assert_failed("envelope: 'a.ref': Not a directory");
    run(&["no\nfolder"]).assert_failed("envelope: 'no\\x0afolder': No such file or directory\n");
    assert_eq!(folder.names(), ["a.ref"]);
}

#[test]
fn a_second_redraw_at_the_same_time_is_turned_away() {
    let folder = Folder::new();
    folder.write("a.ref", REFERENCE);
    let lock = File::open(folder.path()).expect("a folder");
    lock.lock().expect("a lock");
    let began = Instant::now();
    redraw(&folder).assert_failed("is locked: another redraw of it runs");
    let waited = began.elapsed().as_secs_f64();
    assert!((0.9..10.0).contains(&waited), "waited for {waited} s");
    assert_eq!(folder.names(), ["a.ref"]);
    lock.unlock().expect("a lock of ours");
    assert_counts(&redraw(&folder), [1, 0, 0, 0]);
}

/// One waits for the other, or is turned away: no record is drawn twice.
#[test]
fn two_runs_at_once_draw_each_record_once() {
    let folder = Folder::new();
    for file in 0..100 {
        folder.write(format!("{file}.ref"), REFERENCE);
    }
    let ends = std::thread::scope(|scope| {
        let runs = [0, 1].map(|_| scope.spawn(|| redraw(&folder)));
        runs.map(|run| run.join().expect("a run"))
    });
    let drawn: usize = ends
        .iter()
        .map(|ended| ended.text().matches("drawn ").count())
        .sum();
    // In the last line of a run a comma stands behind the word.
    let told = ends.iter().filter(|ended| ended.status == 0).count();
    assert!(told >= 1);
    assert_eq!(drawn, 100);
    assert_eq!(other_names(&folder), [""; 0]);
}

/// What other runs left is counted and stays, a folder of such a name too.
#[test]
fn leftovers_of_other_runs_stay_and_are_told() {
    let folder = Folder::new();
    folder.write("a.ref", REFERENCE);
    folder.write(".envelope-0123456789abcdef-0", "ENV,2,T");
    folder.write(".envelope-redraw/a.env", RECORD);
    let ended = redraw(&folder);
    assert_counts(&ended, [1, 0, 0, 0]);
    let words = "has names .envelope-* that other runs left: 2;";
    assert!(ended.messages.contains(words), "{}", ended.messages);
    let left = [".envelope-0123456789abcdef-0", ".envelope-redraw"];
    assert_eq!(other_names(&folder), left);
    assert_eq!(folder.read(left[0]), b"ENV,2,T");
    assert_eq!(folder.read(".envelope-redraw/a.env"), RECORD.as_bytes());
}

#[test]
fn the_examples_are_unchanged() {
    let folder = Folder::new();
    for point in EXAMPLES {
        for kind in ["ref", "env"] {
            folder.write(format!("{point}.{kind}"), example(point, kind));
        }
    }
    assert_counts(&redraw(&folder), [0, 3, 0, 0]);
}

/// More than two batches for each of two workers; the lines are in the order of the names' bytes.
#[test]
fn many_texts_get_their_own_records() {
    let folder = Folder::new();
    let count = 600;
    let text = |value: usize| format!("REF,2,TOC,CND\nA,0,{value}\nB,{value},7\n");
    for value in 0..count {
        folder.write(format!("{value}.ref"), text(value));
    }
    let ended = redraw(&folder);
    assert_counts(&ended, [count, 0, 0, 0]);
    let step = |tenth: usize| format!("envelope: {} of 600\n", 100 * tenth);
    assert_eq!(ended.messages, (1..=6).map(step).collect::<String>());
    let mut names: Vec<String> = (0..count).map(|value| format!("{value}.ref")).collect();
    names.sort();
    for (line, name) in ended.text().lines().zip(&names) {
        assert!(line.starts_with(&format!("drawn {name}: ")), "{line}");
    }
    for value in (0..count).step_by(7) {
        let record = run("draw", &[text(value)]);
        assert_eq!(folder.read(format!("{value}.env")), record, "{value}");
    }
    assert_eq!(other_names(&folder), [""; 0]);
}

/// A new record has the bits of the one replaced and no others, a first one those that the mask leaves.
#[test]
fn permission_bits_are_kept() {
    for (mask, first) in [("022", 0o644), ("077", 0o600), ("000", 0o666), ("777", 0)] {
        let folder = Folder::new();
        let modes = [0o600, 0o640, 0o666, 0o777, 0o444, 0, 0o4755, 0o1604, 0o7777];
        for mode in modes {
            folder.write(format!("{mode:o}.ref"), REFERENCE);
            let record = folder.write(format!("{mode:o}.env"), "old");
            fs::set_permissions(record, Permissions::from_mode(mode)).expect("a file of ours");
        }
        folder.write("first.ref", REFERENCE);
        let mut shell = command("bash");
        shell.args(["-c", "umask \"$0\"; exec \"$@\"", mask]);
        shell.arg(path()).arg("redraw").arg(folder.path());
        assert_counts(&end(&mut shell, b""), [modes.len() + 1, 0, 0, 0]);
        for mode in modes {
            let bits = permissions(&folder, &format!("{mode:o}.env"));
            assert_eq!(bits, mode & 0o777, "{mode:o} under {mask}");
        }
        assert_eq!(permissions(&folder, "first.env"), first, "{mask}");
    }
}

/// The records are drawn, and standard output that takes nothing is told.
#[test]
fn output_that_cannot_be_written_ends_in_2() {
    let folder = Folder::new();
    folder.write("a.ref", REFERENCE);
    folder.write("b.ref", "REF,0\n");
    let redraw = command_of(&[folder.path()]);
    let ended = end(&mut redirected(">/dev/full", &redraw), b"");
    ended.assert_failed("envelope: standard output: No space left on device\n");
    assert_eq!(folder.read("a.env"), RECORD.as_bytes());
    fs::remove_file(folder.path().join("a.env")).expect("a file of ours");
    let (reader, writer) = std::io::pipe().expect("a pipe");
    drop(reader);
    let mut redraw = command_of(&[folder.path()]);
    let ended = redraw.stdout(writer).output().expect("a run");
    let messages = String::from_utf8_lossy(&ended.stderr);
    assert_eq!(messages, "envelope: standard output: Broken pipe\n");
    assert_eq!(ended.status.code(), Some(2));
    assert_eq!(folder.read("a.env"), RECORD.as_bytes());
}

/// No file takes the place of a closed descriptor: nothing is drawn, or what was drawn is told.
#[test]
fn closed_descriptors_change_no_file() {
    for (redirections, status) in [("<&-", 2), (">&-", 2), ("<&- >&-", 2), ("2>&-", 1)] {
        let folder = Folder::new();
        folder.write("a.ref", REFERENCE);
        folder.write("b.ref", "REF,0\n");
        let redraw = command_of(&[folder.path()]);
        let ended = end(&mut redirected(redirections, &redraw), b"");
        assert_eq!(ended.status, status, "{redirections}: {}", ended.messages);
        assert_eq!(folder.read("a.ref"), REFERENCE.as_bytes());
        match status {
            2 => assert_eq!(folder.names(), ["a.ref", "b.ref"], "{redirections}"),
            _ => assert_eq!(folder.read("a.env"), RECORD.as_bytes()),
        }
    }
}

/// The words of 20 refused texts, and how many more there are.
#[test]
fn the_first_refused_texts_are_told_in_words() {
    let folder = Folder::new();
    for file in 10..35 {
        folder.write(format!("{file}.ref"), "REF,0\n");
    }
    let ended = redraw(&folder);
    assert_counts(&ended, [0, 0, 25, 0]);
    assert!(
        ended
            .messages
            .ends_with("envelope: refused texts besides: 5\n")
    );
    // A reason and a hint of each, and the last line.
    assert_eq!(ended.messages.lines().count(), 41, "{}", ended.messages);
}
