//! A folder redrawn in plain Rust, on as many threads as there are processors, with the same care: the folder
//! is locked, each reference text is read without following a link and drawn, and its times are compared
//! before and after; a record that is not there yet is written beside under a name of its own, flushed and
//! renamed, and it is looked at whether it is the one that was written. A line a file tells what became of it.

use crate::{plain, reader, record, record_fields, verdict};
use std::fs::{self, File, Metadata, OpenOptions};
use std::io::{Read, Write, stdout};
use std::os::unix::fs::{MetadataExt, OpenOptionsExt};
use std::path::{Path, PathBuf};
use std::sync::atomic::{AtomicUsize, Ordering};
use std::thread;

const BUDGET: u32 = 10_000;
const ROWS: usize = 256;
const CHANNELS: usize = 8;
const TEXT_READ: u64 = 65_537;
/// How many records of a thread are flushed and put in place together.
const BATCH: usize = 128;
const O_NONBLOCK: i32 = 0o4000;
const O_NOFOLLOW: i32 = 0o400_000;
const TOTAL: f64 = 65_536.0;

/// A record that was drawn, and its figures as they are told.
struct Drawn {
    record: String,
    figures: String,
}

/// A written record that waits for its name.
struct Waiting {
    index: usize,
    file: File,
    new: PathBuf,
    place: PathBuf,
    line: String,
}

/// The folder's texts and the next of them that nobody has taken.
struct Work {
    folder: PathBuf,
    texts: Vec<PathBuf>,
    next: AtomicUsize,
}

pub fn redraw(path: &Path) {
    let folder = File::open(path).expect("a folder");
    folder.try_lock().expect("a folder that nobody has locked");
    let work = Work {
        folder: path.to_path_buf(),
        texts: list(path),
        next: AtomicUsize::new(0),
    };
    let threads = thread::available_parallelism().map_or(1, usize::from);
    let mut lines = thread::scope(|scope| {
        let threads: Vec<_> = (0..threads)
            .map(|_| scope.spawn(|| work.redraw_share()))
            .collect();
        let lines = threads
            .into_iter()
            .map(|thread| thread.join().expect("a share"));
        lines.flatten().collect::<Vec<_>>()
    });
    folder.sync_all().expect("a folder that can be flushed");
    lines.sort();
    let text: String = lines.into_iter().map(|(_, line)| line).collect();
    let written = stdout().write_all(text.as_bytes());
    written.expect("lines that can be written");
}

fn list(folder: &Path) -> Vec<PathBuf> {
    let entries = fs::read_dir(folder).expect("a folder");
    let paths = entries.map(|entry| entry.expect("an entry").path());
    let mut texts: Vec<PathBuf> = paths
        .filter(|path| path.extension().is_some_and(|kind| kind == "ref"))
        .collect();
    texts.sort();
    texts
}

impl Work {
    /// A line for each text, with its place in the list.
    fn redraw_share(&self) -> Vec<(usize, String)> {
        let mut lines = Vec::new();
        loop {
            let first = self.next.fetch_add(BATCH, Ordering::Relaxed);
            let end = self.texts.len().min(first + BATCH);
            if first >= end {
                return lines;
            }
            let mut waiting = Vec::new();
            for index in first..end {
                match self.redraw_one(index) {
                    Some(record) => waiting.push(record),
                    None => lines.push((index, format!("unchanged {}\n", self.name(index)))),
                }
            }
            for record in &waiting {
                record.file.sync_all().expect("a file that can be flushed");
            }
            lines.extend(waiting.into_iter().map(put_in_place));
        }
    }

    fn name(&self, index: usize) -> String {
        let name = self.texts[index].file_name().expect("a name");
        name.to_string_lossy().into_owned()
    }

    fn redraw_one(&self, index: usize) -> Option<Waiting> {
        let drawn = draw(&read_text(&self.texts[index]));
        let place = self.texts[index].with_extension("env");
        let old = open(&place).map(|file| read_start(&file, drawn.record.len() as u64 + 1));
        if old.as_ref().is_ok_and(|old| old == drawn.record.as_bytes()) {
            return None;
        }
        let before = old.map_or("no record".to_string(), |old| stated_figures(&old));
        let new = self.folder.join(format!(".plain-{index}"));
        let mut options = OpenOptions::new();
        let file = options.write(true).create_new(true).open(&new);
        let mut file = file.expect("a new file");
        file.write_all(drawn.record.as_bytes())
            .expect("a file of ours");
        Some(Waiting {
            index,
            file,
            new,
            place,
            line: format!(
                "drawn {}: {}; before: {before}\n",
                self.name(index),
                drawn.figures
            ),
        })
    }
}

fn put_in_place(record: Waiting) -> (usize, String) {
    fs::rename(&record.new, &record.place).expect("a record in its place");
    let identity = |data: Metadata| (data.dev(), data.ino());
    let there = fs::symlink_metadata(&record.place).map(identity);
    let ours = record.file.metadata().map(identity);
    assert_eq!(there.expect("a record"), ours.expect("a file of ours"));
    (record.index, record.line)
}

fn open(path: &Path) -> std::io::Result<File> {
    let mut options = OpenOptions::new();
    let options = options.read(true).custom_flags(O_NOFOLLOW | O_NONBLOCK);
    let file = options.open(path)?;
    assert!(file.metadata()?.is_file());
    Ok(file)
}

fn read_text(path: &Path) -> Vec<u8> {
    let file = open(path).expect("a reference text");
    let version = || {
        let data = file.metadata().expect("an open file");
        let modified = (data.mtime(), data.mtime_nsec());
        (data.len(), modified, (data.ctime(), data.ctime_nsec()))
    };
    let before = version();
    let bytes = read_start(&file, TEXT_READ);
    assert_eq!(before, version(), "nobody changes it");
    bytes
}

fn read_start(file: &File, limit: u64) -> Vec<u8> {
    let mut bytes = Vec::with_capacity(4_096);
    let read = file.take(limit).read_to_end(&mut bytes);
    read.expect("a file that can be read");
    bytes
}

/// The record of an accepted reference text.
fn draw(text: &[u8]) -> Drawn {
    let (mut table, mut codes) = ([0; ROWS * CHANNELS], [0; CHANNELS]);
    let (mut centre, mut weights) = ([0; CHANNELS], [0; ROWS]);
    let (m, n) = reader::read(text, &mut table, &mut codes).expect("a text within the rules");
    let figures = plain::draw(&table, (m, n), BUDGET, &mut centre, &mut weights);
    let figures = figures.expect("within limits");
    let told = told_figures(
        centre[..n].iter().map(|&place| place as f64),
        figures.scaled_squared_radius as f64,
    );
    let figures = verdict::Figures {
        n,
        codes: &codes,
        scaled_centre: &centre,
        scaled_squared_radius: figures.scaled_squared_radius,
        scaled_lower_bound: figures.scaled_lower_bound,
        settled: figures.settled.into(),
        moves: figures.moves,
    };
    let weights = &weights[..m];
    Drawn {
        record: record_fields::print(&record::Envelope { figures, weights }),
        figures: told,
    }
}

fn told_figures(centre: impl Iterator<Item = f64>, squared_radius: f64) -> String {
    let centre: Vec<String> = centre
        .map(|place| format!("{:.2}", place / TOTAL))
        .collect();
    let radius = squared_radius.sqrt() / TOTAL;
    format!("centre {}, radius {radius:.1} steps", centre.join(", "))
}

/// The figures of a record that was there.
fn stated_figures(record: &[u8]) -> String {
    let text = String::from_utf8_lossy(record);
    let mut lines = text.lines().skip(1).map(|line| line.split(',').skip(1));
    let number = |field: &str| field.parse::<f64>().unwrap_or(f64::NAN);
    let (centre, radius) = (lines.next(), lines.next().and_then(|mut line| line.next()));
    match (centre, radius) {
        (Some(centre), Some(radius)) => told_figures(centre.map(number), number(radius)),
        _ => "no record in form".to_string(),
    }
}
