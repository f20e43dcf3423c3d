//! `envelope redraw` of a folder in which others do as they like: nothing outside the folder is changed,
//! nothing holds the run up, and a record is told to be drawn only where it is there.

use outside::random::{Random, seed_from_environment};
use programs::call::run;
use programs::folder::Folder;
use programs::process::{Ended, command, end};
use programs::redrawn::{
    ONE_ROW, ONE_ROW_RECORD, assert_counts, command_of, other_names, outcome, redraw,
};
use programs::system::make_fifo;
use programs::{RECORD, REFERENCE};
use std::fs::{self, File, OpenOptions};
use std::os::fd::AsRawFd;
use std::os::unix::fs::{FileExt, symlink};
use std::os::unix::net::UnixListener;
use std::path::Path;
use std::sync::atomic::{AtomicBool, Ordering};
use std::thread;
use std::time::{Duration, Instant};

const SEED: u64 = 181;
/// More than one batch for each of two workers.
const FILES: usize = 300;
const TIME: Duration = Duration::from_secs(2);
/// What holds a run up does so for 45 s, or without an end.
const HELD_UP: Duration = Duration::from_secs(30);

unsafe extern "C" {
    fn fcntl(descriptor: i32, command: i32, ...) -> i32;
    fn signal(signal: i32, handler: usize) -> usize;
}

const F_SETLEASE: i32 = 1024;
const F_WRLCK: i32 = 1;
const SIGIO: i32 = 29;
const SIG_IGN: usize = 1;

fn random() -> Random {
    let seed = seed_from_environment(SEED);
    println!("seed {seed}");
    Random::new(seed)
}

/// Ends a loop of another thread, also where a test fails.
struct Over<'a>(&'a AtomicBool);

impl Drop for Over<'_> {
    fn drop(&mut self) {
        self.0.store(true, Ordering::Relaxed);
    }
}

/// Runs `stranger` again and again while `runs` is going on.
fn meanwhile(mut stranger: impl FnMut() + Send, runs: impl FnOnce()) {
    let over = AtomicBool::new(false);
    thread::scope(|scope| {
        scope.spawn(|| {
            while !over.load(Ordering::Relaxed) {
                stranger();
            }
        });
        let _over = Over(&over);
        runs();
    });
}

/// The names in a folder that changes meanwhile, of which some are picked.
fn names(folder: &Path, picked: impl Fn(&str) -> bool) -> Vec<String> {
    let entries = fs::read_dir(folder).expect("a folder").flatten();
    let names = entries.filter_map(|entry| entry.file_name().into_string().ok());
    names.filter(|name| picked(name)).collect()
}

fn is_waiting(name: &str) -> bool {
    name.starts_with(".envelope-")
}

/// Asserts that each record that is told to be drawn is there; gives how many are, and how many failed.
fn assert_truly_drawn(folder: &Folder, ended: &Ended) -> [usize; 2] {
    let mut counts = [0; 2];
    for file in 0..FILES {
        match outcome(ended, &format!("{file}.ref")) {
            ("drawn" | "unchanged", _) => {
                counts[0] += 1;
                let record = folder.read(format!("{file}.env"));
                assert_eq!(record, RECORD.as_bytes(), "{file}.env is not there");
            }
            ("failed", _) => counts[1] += 1,
            other => panic!("{file}.ref: {other:?}"),
        }
    }
    assert_eq!(ended.status, if counts[1] > 0 { 2 } else { 0 });
    counts
}

/// Redraws new records for a while. The stranger touches nothing that has the name of a record.
fn redraw_for_a_while(folder: &Folder, mut stranger: impl FnMut(&Path) + Send) {
    for file in 0..FILES {
        folder.write(format!("{file}.ref"), REFERENCE);
    }
    let (path, began) = (folder.path(), Instant::now());
    let (mut runs, mut drawn, mut failed) = (0, 0, 0);
    meanwhile(
        || stranger(path),
        || {
            while began.elapsed() < TIME || (failed == 0 && began.elapsed() < 5 * TIME) {
                let ended = redraw(folder);
                let counts = assert_truly_drawn(folder, &ended);
                (runs, drawn, failed) = (runs + 1, drawn + counts[0], failed + counts[1]);
                for file in 0..FILES {
                    let _ = fs::remove_file(path.join(format!("{file}.env")));
                }
            }
        },
    );
    println!("{runs} runs: {drawn} drawn, {failed} failed");
    assert!(drawn > 0 && failed > 0, "the stranger comes now and then");
}

/// One of ten.
#[test]
fn a_removed_waiting_record_is_not_drawn() {
    let folder = Folder::new();
    redraw_for_a_while(&folder, |path| {
        for name in names(path, |name| is_waiting(name) && name.ends_with('7')) {
            let _ = fs::remove_file(path.join(name));
        }
    });
}

/// Three of ten: by a file of the stranger's, by a link to a file outside, and by another name of that file.
#[test]
fn a_swapped_waiting_record_is_not_drawn() {
    let (folder, outside) = (Folder::new(), Folder::new());
    let victim = outside.write("victim", "kept");
    redraw_for_a_while(&folder, |path| {
        let own = path.join("stranger");
        for name in names(path, is_waiting) {
            let name = path.join(name);
            match name.as_os_str().as_encoded_bytes().last() {
                Some(b'7') => fs::write(&own, "not a record").expect("a file of the stranger's"),
                Some(b'8') => symlink(&victim, &own).expect("a link of the stranger's"),
                Some(b'9') => fs::hard_link(&victim, &own).expect("a link of the stranger's"),
                _ => continue,
            }
            if name.exists() {
                let _ = fs::rename(&own, &name);
            }
            // It is still there where both are names of one file.
            let _ = fs::remove_file(&own);
        }
    });
    assert_eq!(outside.read("victim"), b"kept");
    assert_eq!(outside.names(), ["victim"]);
}

/// One of ten, and of the waiting ones too. Nothing is written through them, also where the file that they name is
/// not there.
#[test]
fn links_in_the_place_of_records_during_runs_change_nothing_outside() {
    let (folder, outside) = (Folder::new(), Folder::new());
    let victim = outside.write("victim", "kept");
    let missing = outside.path().join("missing");
    for file in 0..FILES {
        folder.write(format!("{file}.ref"), REFERENCE);
    }
    let (path, began, mut random) = (folder.path(), Instant::now(), random());
    let mut told = [0; 2];
    let stranger = || {
        let picked =
            |name: &str| name.ends_with("7.env") || is_waiting(name) && name.ends_with('7');
        for name in names(path, picked) {
            let (name, own) = (path.join(name), path.join("stranger"));
            let target = if random.once_in(2) { &victim } else { &missing };
            if name.symlink_metadata().is_ok() {
                symlink(target, &own).expect("a link of the stranger's");
                let _ = fs::rename(&own, &name);
            }
        }
    };
    meanwhile(stranger, || {
        while began.elapsed() < TIME || (told[1] == 0 && began.elapsed() < 5 * TIME) {
            let ended = redraw(&folder);
            let counts = ["drawn ", "failed "].map(|word| ended.text().matches(word).count());
            told = [told[0] + counts[0], told[1] + counts[1]];
            for file in (0..FILES).step_by(2) {
                let _ = fs::remove_file(path.join(format!("{file}.env")));
            }
        }
    });
    println!("{} drawn, {} failed", told[0], told[1]);
    assert!(told[0] > 0 && told[1] > 0);
    assert_eq!(outside.read("victim"), b"kept");
    assert_eq!(outside.names(), ["victim"]);
}

/// A run on another host is not kept out by the lock: it puts records of its own in place.
#[test]
fn another_host_and_this_one_leave_whole_records() {
    let folder = Folder::new();
    for file in 0..FILES {
        folder.write(format!("{file}.ref"), REFERENCE);
        folder.write(format!("{file}.env"), ONE_ROW_RECORD);
    }
    let (path, began, mut random) = (folder.path(), Instant::now(), random());
    let other_host = || {
        let file = random.index(FILES);
        let own = path.join(".envelope-other-host-0");
        fs::write(&own, ONE_ROW_RECORD).expect("a file of the other host's");
        fs::rename(&own, path.join(format!("{file}.env"))).expect("a record");
    };
    let mut drawn = 0;
    meanwhile(other_host, || {
        while began.elapsed() < TIME {
            let ended = redraw(&folder);
            drawn += ended.text().matches("drawn ").count();
            for file in 0..FILES {
                let record = folder.read(format!("{file}.env"));
                let whole = [RECORD, ONE_ROW_RECORD].map(str::as_bytes);
                assert!(whole.contains(&record.as_slice()), "{file}.env is whole");
                let (outcome, besides) = outcome(&ended, &format!("{file}.ref"));
                let lost = "another file was put in the place of the new record";
                assert!(outcome != "failed" || besides.ends_with(lost), "{besides}");
            }
        }
    });
    assert!(drawn > 0);
    let left: Vec<String> = other_names(&folder);
    assert!(left.iter().all(|name| name == ".envelope-other-host-0"));
}

/// A text of 256 rows and 8 channels in which every value has four digits.
fn large_text(value: i32) -> Vec<u8> {
    let mut text = String::from("REF,8,TC,IC,CND,FLW,TC,IC,CND,FLW\n");
    for row in 0..256 {
        let values: Vec<String> = (0..8)
            .map(|channel| (value + row * 7 % 100 + channel).to_string())
            .collect();
        text += &format!("R-{row:03},{}\n", values.join(","));
    }
    text.into_bytes()
}

/// The times of a text do not tell of a write that takes this long.
const SLOW_WRITE: Duration = Duration::from_millis(15);

/// Rewritten in place, whole in one write: a record is that of one of the two texts.
#[test]
fn a_text_that_is_rewritten_meanwhile_gives_no_mixture() {
    let folder = Folder::new();
    let texts = [1_000, 3_000].map(large_text);
    let records = texts.each_ref().map(|text| run("draw", &[text]));
    assert_ne!(records[0], records[1]);
    let files = 4;
    let open = |file: usize| {
        let path = folder.write(format!("{file}.ref"), &texts[0]);
        OpenOptions::new().write(true).open(path).expect("a text")
    };
    let texts_open: Vec<File> = (0..files).map(open).collect();
    let (began, mut random, mut told) = (Instant::now(), random(), [0; 3]);
    let (mut version, slow) = (0, AtomicBool::new(false));
    let writer = || {
        version = 1 - version;
        let file = random.index(files);
        let start = Instant::now();
        let written = texts_open[file].write_all_at(&texts[version], 0);
        written.expect("a text that can be written");
        slow.fetch_or(start.elapsed() >= SLOW_WRITE, Ordering::Relaxed);
        // By turns hardly ever at rest, and now and then.
        let calm = began.elapsed().as_millis() / 250 % 2 == 1;
        let pause = if calm {
            random.below(40_000)
        } else {
            random.below(100)
        };
        thread::sleep(Duration::from_micros(pause));
    };
    meanwhile(writer, || {
        while began.elapsed() < TIME
            || ((told[0] == 0 || told[2] == 0) && began.elapsed() < 5 * TIME)
        {
            let ended = redraw(&folder);
            for file in 0..files {
                let (outcome, besides) = outcome(&ended, &format!("{file}.ref"));
                let kinds = ["drawn", "unchanged", "failed"];
                let kind = kinds.iter().position(|&kind| kind == outcome);
                told[kind.expect("no refusal")] += 1;
                let changed = "it was changed while it was read";
                assert!(outcome != "failed" || besides == changed, "{besides}");
                let record = fs::read(folder.path().join(format!("{file}.env")));
                let whole = record.is_ok_and(|record| records.contains(&record));
                let slow = slow.load(Ordering::Relaxed);
                assert!(
                    whole || outcome == "failed" || slow,
                    "{file}.env is a mixture"
                );
            }
        }
    });
    let [drawn, unchanged, failed] = told;
    println!("{drawn} drawn, {unchanged} unchanged, {failed} failed");
    assert!(drawn > 0 && failed > 0);
}

/// Whatever is no regular file is a failure, as a text and as a record, and the others are drawn.
#[test]
fn what_is_no_file_is_a_failure_and_holds_nothing_up() {
    let (folder, outside) = (Folder::new(), Folder::new());
    let [text, record] = ["ref", "env"].map(|kind| outside.write(format!("x.{kind}"), "kept"));
    let path = folder.path();
    let mut sockets = Vec::new();
    let mut cases = vec!["folder", "link", "dangling", "pipe", "socket"];
    for kind in ["ref", "env"] {
        folder.write(format!("folder.{kind}/x"), "kept");
        symlink(
            if kind == "ref" { &text } else { &record },
            path.join(format!("link.{kind}")),
        )
        .expect("a link");
        let missing = outside.path().join(format!("missing.{kind}"));
        symlink(missing, path.join(format!("dangling.{kind}"))).expect("a link");
        make_fifo(&path.join(format!("pipe.{kind}")));
        sockets.push(UnixListener::bind(path.join(format!("socket.{kind}"))).expect("a socket"));
        let mut device = command("mknod");
        device
            .arg(path.join(format!("device.{kind}")))
            .args(["c", "1", "5"]);
        if end(&mut device, b"").status == 0 && kind == "ref" {
            cases.push("device");
        }
    }
    for &case in &cases {
        folder.write(format!("record-{case}.ref"), REFERENCE);
        let there = path.join(format!("{case}.env"));
        fs::rename(there, path.join(format!("record-{case}.env"))).expect("a name of ours");
    }
    folder.write("z.ref", REFERENCE);
    let began = Instant::now();
    let ended = redraw(&folder);
    assert!(began.elapsed() < HELD_UP);
    assert_counts(&ended, [1, 0, 0, 2 * cases.len()]);
    for case in cases {
        let kind = if case == "dangling" { "link" } else { case };
        let told = outcome(&ended, &format!("{case}.ref"));
        assert_eq!(told, ("failed", format!("a {kind}, not a file").as_str()));
        let told = outcome(&ended, &format!("record-{case}.ref"));
        let reason = format!("'record-{case}.env': a {kind}, not a file");
        assert_eq!(told, ("failed", reason.as_str()));
    }
    assert_eq!(outside.names(), ["x.env", "x.ref"]);
    assert_eq!([outside.read("x.env"), outside.read("x.ref")], [b"kept"; 2]);
    assert_eq!(folder.read("record-folder.env/x"), b"kept");
    assert_eq!(other_names(&folder), [""; 0]);
}

/// Whoever opens a leased file waits until its holder gives it up, for 45 s at most.
#[test]
fn a_leased_file_is_a_failure_and_holds_nothing_up() {
    let folder = Folder::new();
    folder.write("a.ref", REFERENCE);
    folder.write("b.ref", REFERENCE);
    folder.write("b.env", RECORD);
    folder.write("c.ref", REFERENCE);
    // SAFETY: the signal that tells of a broken lease is ignored; no handler runs.
    unsafe { signal(SIGIO, SIG_IGN) };
    let leased = ["a.ref", "b.env"].map(|name| {
        let file = File::options().write(true).open(folder.path().join(name));
        let file = file.expect("a file of ours");
        // SAFETY: the call sets a lease on a file of ours.
        let set = unsafe { fcntl(file.as_raw_fd(), F_SETLEASE, F_WRLCK) };
        assert_eq!(set, 0, "a lease");
        file
    });
    let began = Instant::now();
    let ended = redraw(&folder);
    assert!(began.elapsed() < HELD_UP);
    assert_counts(&ended, [1, 0, 0, 2]);
    let reason = "another program has a lease on it";
    assert_eq!(outcome(&ended, "a.ref"), ("failed", reason));
    let reason = format!("'b.env': {reason}");
    assert_eq!(outcome(&ended, "b.ref"), ("failed", reason.as_str()));
    drop(leased);
    assert_counts(&redraw(&folder), [1, 2, 0, 0]);
}

/// A library whose start writes a file, which a program that loads libraries runs, and tools of the folder's
/// owner on the path.
#[test]
fn the_environment_brings_nothing_into_the_program() {
    let folder = Folder::new();
    folder.write("a.ref", ONE_ROW);
    folder.write("b.ref", ONE_ROW);
    let loaded = folder.path().join("loaded");
    let source = format!(
        "#include <stdio.h>\n__attribute__((constructor)) static void start(void) {{\n\
         FILE *file = fopen(\"{}\", \"w\"); if (file) fclose(file); }}\n",
        loaded.display()
    );
    let (source, library) = (folder.write("x.c", source), folder.path().join("libc.so.6"));
    let mut compiler = command("cc");
    compiler
        .args(["-shared", "-fPIC", "-o"])
        .arg(&library)
        .arg(source);
    assert_eq!(end(&mut compiler, b"").status, 0);
    let mut dynamic = command("/bin/true");
    end(dynamic.env("LD_PRELOAD", &library), b"");
    assert!(
        loaded.exists(),
        "the library writes a file where it is loaded"
    );
    fs::remove_file(&loaded).expect("a file of ours");
    for tool in ["rt", "cargo", "sync", "mv", "nproc", "bash", "sh"] {
        let tool = folder.write(tool, format!("#!/bin/sh\n: >'{}'\n", loaded.display()));
        let runs = std::os::unix::fs::PermissionsExt::from_mode(0o755);
        fs::set_permissions(tool, runs).expect("a file of ours");
    }
    let mut command = command_of(&["."]);
    command
        .current_dir(folder.path())
        .env("PATH", folder.path());
    for name in ["LD_PRELOAD", "LD_AUDIT"] {
        command.env(name, &library);
    }
    command.env("LD_LIBRARY_PATH", folder.path());
    command
        .env("RUST_MIN_STACK", "1")
        .env("RUST_BACKTRACE", "full");
    assert_counts(&end(&mut command, b""), [2, 0, 0, 0]);
    assert_eq!(folder.read("a.env"), ONE_ROW_RECORD.as_bytes());
    assert!(!loaded.exists(), "nothing of the folder ran");
}
