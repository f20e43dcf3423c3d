//! `envelope redraw` killed at random moments: every record that was there is the old or the new one, whole,
//! and the next undisturbed run completes.

use outside::random::{Random, seed_from_environment};
use programs::call::run;
use programs::folder::Folder;
use programs::redrawn::{other_names, redraw};
use programs::script::path;
use programs::system::kill_group;
use std::fs::{self, File};
use std::os::unix::process::CommandExt;
use std::process::{Child, Command, Stdio};
use std::thread;
use std::time::{Duration, Instant};

const SEED: u64 = 60;
const ROUNDS: u64 = 60;
const FILES: usize = 60;

/// A reference text of each file and its record, twice: the rounds go from one to the other.
struct Versions {
    texts: [Vec<Vec<u8>>; 2],
    records: [Vec<Vec<u8>>; 2],
}

impl Versions {
    fn new(random: &mut Random) -> Versions {
        let texts = [0, 1].map(|_| (0..FILES).map(|_| text(random)).collect::<Vec<_>>());
        let record = |text: &Vec<u8>| run("draw", &[text]);
        let records = texts
            .each_ref()
            .map(|texts| texts.iter().map(record).collect());
        Versions { texts, records }
    }

    fn write_texts(&self, folder: &Folder, version: usize) {
        for (file, text) in self.texts[version].iter().enumerate() {
            folder.write(format!("{file}.ref"), text);
        }
    }
}

fn text(random: &mut Random) -> Vec<u8> {
    let mut text = String::from("REF,4,TOC,CND,TMP,FLW\n");
    for row in 0..20 {
        let values = [0; 4].map(|_: i32| random.between(0, 1_500).to_string());
        text += &format!("R-{row},{}\n", values.join(","));
    }
    text.into_bytes()
}

fn records(folder: &Folder) -> Vec<Vec<u8>> {
    let record = |file: usize| folder.read(format!("{file}.env"));
    (0..FILES).map(record).collect()
}

fn start(folder: &Folder) -> Child {
    Command::new(path())
        .arg("redraw")
        .arg(folder.path())
        .process_group(0)
        .stdin(Stdio::null())
        .stdout(Stdio::null())
        .stderr(Stdio::null())
        .spawn()
        .expect("a program that runs")
}

/// Waits for a random moment of a run: one of its whole time, or the one at which one of the files
/// to be drawn gets its new record.
fn wait_for_moment(random: &mut Random, folder: &Folder, drawn: &[usize], whole: Duration) {
    let began = Instant::now();
    if drawn.is_empty() || random.once_in(2) {
        thread::sleep(whole.mul_f64(random.fraction()));
        return;
    }
    let name = format!("{}.env", random.pick(drawn));
    let old = folder.read(&name);
    while folder.read(&name) == old && began.elapsed() < 2 * whole {
        thread::sleep(Duration::from_micros(50));
    }
}

/// Waits for the end of the killed process, which holds the folder's lock.
fn wait_for_end(folder: &Folder) {
    let folder = File::open(folder.path()).expect("a folder");
    folder.lock().expect("a lock");
}

#[test]
fn killed_runs_leave_whole_records() {
    let seed = seed_from_environment(SEED);
    println!("seed {seed}");
    let mut random = Random::new(seed);
    let versions = Versions::new(&mut random);
    let folder = Folder::new();
    versions.write_texts(&folder, 0);
    let began = Instant::now();
    assert_eq!(redraw(&folder).status, 0);
    let whole = began.elapsed();
    let (mut killed, mut partly) = (0, 0);
    for round in 1..=ROUNDS {
        let version = round as usize % 2;
        let (old, new) = (records(&folder), &versions.records[version]);
        versions.write_texts(&folder, version);
        let mut child = start(&folder);
        let drawn: Vec<usize> = (0..FILES).filter(|&file| old[file] != new[file]).collect();
        wait_for_moment(&mut random, &folder, &drawn, whole);
        killed += u64::from(kill_group(&mut child));
        wait_for_end(&folder);
        let left = records(&folder);
        for file in 0..FILES {
            let whole = left[file] == old[file] || left[file] == new[file];
            assert!(
                whole,
                "seed {seed}, round {round}: {file}.env is neither old nor new"
            );
        }
        partly += u64::from(left != old && left != *new);
    }
    println!(
        "{ROUNDS} rounds: {killed} killed before the end, {partly} with only some records drawn"
    );
    assert!(
        killed >= ROUNDS / 4,
        "only {killed} of {ROUNDS} rounds were killed"
    );
    let ended = redraw(&folder);
    assert_eq!(ended.status, 0, "{}", ended.messages);
    assert_eq!(records(&folder), versions.records[ROUNDS as usize % 2]);
    let left = other_names(&folder);
    println!("{} waiting records were left", left.len());
    assert!(left.iter().all(|name| name.starts_with(".envelope-")));
    let told = format!("that other runs left: {};", left.len());
    assert!(left.is_empty() || ended.messages.contains(&told));
    for name in left {
        fs::remove_file(folder.path().join(name)).expect("a file that was left");
    }
    assert_eq!(redraw(&folder).messages, "");
}
