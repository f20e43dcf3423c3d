//! How far a run is, on standard error: a bar where that is a terminal, else a line now and then.

use crate::failure;
use std::io::{self, IsTerminal, Write};
use std::sync::{Mutex, PoisonError};
use std::time::{Duration, Instant};

/// A bar is shown anew after this long at the earliest.
const PAUSE: Duration = Duration::from_millis(100);
const BAR_WIDTH: usize = 40;
/// Where standard error is no terminal: a line for each tenth of the files, and for as many at least.
const LINE_STEP: usize = 100;

pub struct Progress {
    all: usize,
    bar: bool,
    state: Mutex<State>,
}

struct State {
    done: usize,
    /// When the bar was shown last.
    shown: Option<Instant>,
    /// The columns of the bar that is on the terminal.
    width: usize,
}

impl Progress {
    pub fn new(all: usize) -> Progress {
        Progress {
            all,
            bar: io::stderr().is_terminal(),
            state: Mutex::new(State {
                done: 0,
                shown: None,
                width: 0,
            }),
        }
    }

    /// One file more is done.
    pub fn advance(&self) {
        let mut state = self.state.lock().unwrap_or_else(PoisonError::into_inner);
        state.done += 1;
        if self.bar {
            if state.shown.is_none_or(|shown| shown.elapsed() >= PAUSE) {
                state.shown = Some(Instant::now());
                let line = bar(state.done, self.all);
                state.width = line.len();
                write(&format!("\r{line}"));
            }
        } else if state
            .done
            .is_multiple_of(self.all.div_ceil(10).max(LINE_STEP))
        {
            failure::tell(&format!("{} of {}", state.done, self.all));
        }
    }

    /// Takes the bar away.
    pub fn end(&self) {
        let state = self.state.lock().unwrap_or_else(PoisonError::into_inner);
        if state.width > 0 {
            write(&format!("\r{}\r", " ".repeat(state.width)));
        }
    }
}

fn bar(done: usize, all: usize) -> String {
    let filled = BAR_WIDTH * done / all.max(1);
    let (filled, rest) = ("#".repeat(filled), " ".repeat(BAR_WIDTH - filled));
    format!("[{filled}{rest}] {done} of {all}")
}

/// Where it cannot be written there is nobody to show it to.
fn write(text: &str) {
    let _ = io::stderr().write_all(text.as_bytes());
}

#[cfg(test)]
mod tests {
    use super::bar;

    #[test]
    fn a_bar_is_full_at_the_end_and_fits_into_a_line() {
        assert_eq!(bar(0, 9), format!("[{}] 0 of 9", " ".repeat(40)));
        assert_eq!(bar(9, 9), format!("[{}] 9 of 9", "#".repeat(40)));
        assert!(bar(1, 3).starts_with(&format!("[{} ", "#".repeat(13))));
        assert!(bar(1_000_000, 1_000_000).len() < 80);
    }
}
