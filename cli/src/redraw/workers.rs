//! The reference texts of a folder shared out among the processors.

use super::drawing::{Drawing, NewRecord, Place, of_record};
use super::folder::Folder;
use super::progress::Progress;
use super::report::{Drawn, Outcome, TEXTS_IN_WORDS};
use super::waiting::WaitingNames;
use crate::system;
use crate::texts::Text;
use std::collections::BTreeMap;
use std::ffi::CString;
use std::io;
use std::sync::atomic::{AtomicUsize, Ordering};
use std::sync::{Mutex, PoisonError};
use std::thread;

/// The most records of a worker that are flushed and put in place together.
const LARGEST_BATCH: usize = 128;
/// How many texts a worker takes at a time.
const TAKEN_TOGETHER: usize = 4;
/// Descriptors that are left to others: the standard ones, the folder's, inherited ones.
const OTHER_DESCRIPTORS: u64 = 16;
/// What is taken for the most descriptors where the system does not tell.
const USUAL_DESCRIPTORS: u64 = 1_024;
/// The bytes of a worker's stack, of which a drawing needs 96 KiB; without them the environment has a say.
const STACK: usize = 2 << 20;

/// What became of a text, with its place in the list of names.
type Placed = (usize, Outcome);

struct Run<'f> {
    place: Place<'f>,
    references: &'f [CString],
    batch: usize,
    next: AtomicUsize,
    progress: Progress,
    /// The first refused texts, by their places in the list of names.
    refused: Mutex<BTreeMap<usize, Text>>,
}

/// Draws every reference text of a list, as many at a time as there are processors.
pub fn draw_all(folder: &Folder, references: &[CString], told: Option<&[u8]>) -> io::Result<Drawn> {
    let waiting_names = WaitingNames::new()?;
    let processors = thread::available_parallelism().map_or(1, usize::from);
    let limit = system::descriptor_limit().unwrap_or(USUAL_DESCRIPTORS);
    let (workers, batch) = shares(references.len(), processors, limit);
    let run = Run {
        place: Place {
            folder,
            waiting_names,
            told,
        },
        references,
        batch,
        next: AtomicUsize::new(0),
        progress: Progress::new(references.len()),
        refused: Mutex::default(),
    };
    let mut outcomes = run.work_together(workers);
    run.progress.end();
    outcomes.sort_by_key(|(index, _)| *index);
    let refused = run.refused.into_inner();
    Ok(Drawn {
        outcomes: outcomes.into_iter().map(|(_, outcome)| outcome).collect(),
        refused: refused
            .unwrap_or_else(PoisonError::into_inner)
            .into_values()
            .collect(),
    })
}

/// How many workers there are, and how many records of each may wait together: a waiting record keeps a
/// descriptor, and so does the file that a worker reads.
fn shares(files: usize, processors: usize, limit: u64) -> (usize, usize) {
    let descriptors =
        usize::try_from(limit.saturating_sub(OTHER_DESCRIPTORS)).unwrap_or(usize::MAX);
    let workers = processors.min(files).min(descriptors / 2).max(1);
    let batch = (descriptors / workers).saturating_sub(1);
    (workers, batch.clamp(1, LARGEST_BATCH))
}

impl<'f> Run<'f> {
    /// This thread is a worker too, so that the work is done also where there can be no other.
    fn work_together(&self, workers: usize) -> Vec<Placed> {
        thread::scope(|scope| {
            let start = |_| {
                let other = thread::Builder::new().stack_size(STACK);
                other.spawn_scoped(scope, || self.work()).ok()
            };
            let others: Vec<_> = (1..workers).filter_map(start).collect();
            let mut outcomes = self.work();
            for other in others {
                outcomes.extend(other.join().expect("a fault of a worker ends the program"));
            }
            outcomes
        })
    }

    /// Takes the next few texts again and again, until all are taken.
    fn work(&self) -> Vec<Placed> {
        let (mut outcomes, mut records) = (Vec::new(), Vec::new());
        let count = self.references.len();
        loop {
            let first = self.next.fetch_add(TAKEN_TOGETHER, Ordering::Relaxed);
            for index in first..count.min(first.saturating_add(TAKEN_TOGETHER)) {
                match self.draw(index) {
                    Ok(outcome) => outcomes.push(self.done(index, outcome)),
                    Err(record) => records.push((index, record)),
                }
                if records.len() >= self.batch {
                    self.put_in_place(std::mem::take(&mut records), &mut outcomes);
                }
            }
            if first >= count {
                self.put_in_place(records, &mut outcomes);
                return outcomes;
            }
        }
    }

    /// What became of a text, or the new record that waits.
    fn draw(&self, index: usize) -> Result<Outcome, NewRecord<'f>> {
        match self.place.draw(&self.references[index]) {
            Ok(Drawing::New(record)) => Err(record),
            Ok(Drawing::Unchanged) => Ok(Outcome::Unchanged),
            Ok(Drawing::Refused(text, refusal)) => {
                self.keep_refused(index, text);
                Ok(Outcome::Refused(refusal))
            }
            Err(reason) => Ok(Outcome::Failed(reason)),
        }
    }

    /// Flushes the waiting records, and renames those that are flushed. The last one is flushed first: by then
    /// most of the others are on disk, and the system's journal is written for all of them at once.
    fn put_in_place(&self, records: Vec<(usize, NewRecord<'f>)>, outcomes: &mut Vec<Placed>) {
        let flush = |(index, record): (usize, NewRecord<'f>)| {
            let NewRecord {
                waiting,
                name,
                change,
            } = record;
            (index, waiting.flush(), name, change)
        };
        let flushed: Vec<_> = records.into_iter().rev().map(flush).collect();
        for (index, waiting, name, change) in flushed.into_iter().rev() {
            let outcome = match waiting.and_then(|waiting| waiting.put_in_place(&name)) {
                Ok(()) => Outcome::Drawn(change),
                Err(error) => Outcome::Failed(of_record(&name, &error)),
            };
            outcomes.push(self.done(index, outcome));
        }
    }

    fn done(&self, index: usize, outcome: Outcome) -> Placed {
        self.progress.advance();
        (index, outcome)
    }

    fn keep_refused(&self, index: usize, text: Text) {
        let mut refused = self.refused.lock().unwrap_or_else(PoisonError::into_inner);
        refused.insert(index, text);
        if refused.len() > TEXTS_IN_WORDS {
            refused.pop_last();
        }
    }
}

#[cfg(test)]
mod tests {
    use super::shares;

    #[test]
    fn the_descriptors_are_enough() {
        assert_eq!(shares(900, 2, 1_024), (2, 128));
        assert_eq!(shares(1, 2, 1_024), (1, 128));
        assert_eq!(shares(100_000, 64, 1_024), (64, 14));
        assert_eq!(shares(900, 2, u64::MAX), (2, 128));
        for limit in 0..19 {
            assert_eq!(shares(900, 64, limit), (1, 1), "{limit}");
        }
        for (processors, limit) in [(1, 1_024), (8, 256), (512, 1_024), (1_000, 20)] {
            let (workers, batch) = shares(100_000, processors, limit);
            assert!((workers * (batch + 1)) as u64 + 16 <= limit);
        }
    }
}
