//! `envelope`: draws, verifies and shows alarm envelopes and judges readings. Everything that is decided
//! is decided by the proved calls of the library; what is here is how people reach them: words and files in,
//! answers, reasons and figures in units out. `help` has what each command does.
//!
//! - `arguments`: the words of a command; `texts`: a command's texts, read; `output`: standard output.
//! - `examined`: the texts through the library's calls, which is what statuses and words rest on.
//! - `programs`: draw, verify, panel, judge, plain and alerts, whose standard output is that of the proved
//!   program calls.
//! - `judged`: the readings of `judge`, measured; `explain`: these as `judge --explain` prints them.
//! - `alerts`: what `alerts` prints, held against the measured readings.
//! - `plain`: what `plain` prints, held against its text; the values below detection.
//! - `show`: an envelope in units; `weighted_rows`: the rows that hold it.
//! - `distances`, `units`, `types`, `columns`: distances in whole numbers, numbers as people read them, the
//!   channel types, lines in columns.
//! - `words`, `refusals`: a refusal in words with a hint; the table of refusals. `help`: usage.
//! - `redraw`: every reference text of a folder drawn into its record.
//! - `failure`, `status`, `shown`: what is no answer, exit statuses, bytes of strangers as they are printed.
//! - `descriptors`, `system`: the standard descriptors as they were at the start; calls of the system.

mod alerts;
mod arguments;
mod columns;
mod descriptors;
mod distances;
mod examined;
mod explain;
mod failure;
mod help;
mod judged;
mod output;
mod plain;
mod programs;
mod redraw;
mod refusals;
mod show;
mod shown;
mod status;
mod system;
mod texts;
mod types;
mod units;
mod weighted_rows;
mod words;

use failure::Failure;
use status::Status;
use std::ffi::OsString;
use std::process::ExitCode;

const _: () = assert!(
    cfg!(target_feature = "crt-static"),
    "build it in the folder cli, whose .cargo/config.toml has it linked statically"
);

fn main() -> ExitCode {
    std::panic::set_hook(Box::new(|fault| {
        let place = fault.location().map(ToString::to_string);
        let place = place.unwrap_or_default();
        failure::tell(&format!("a fault of this program, at {place}"));
        std::process::exit(i32::from(Status::Failed.code()));
    }));
    system::let_large_writes_fail();
    let words: Vec<OsString> = std::env::args_os().skip(1).collect();
    let status = descriptors::require_open().and_then(|()| run(&words));
    let status = status.unwrap_or_else(|failure| {
        failure.tell();
        Status::Failed
    });
    ExitCode::from(status.code())
}

fn run(words: &[OsString]) -> Result<Status, Failure> {
    let Some((command, words)) = words.split_first() else {
        return help::print_help(words);
    };
    if help::is_asked_for(words) {
        return help::print_command(command);
    }
    match command.as_encoded_bytes() {
        b"draw" => programs::draw(words),
        b"verify" => programs::verify(words),
        b"panel" => programs::panel(words),
        b"judge" => programs::judge(words),
        b"plain" => programs::plain(words),
        b"alerts" => programs::alerts(words),
        b"show" => show::show(words),
        b"types" => types::print_types(words),
        b"refusals" => refusals::print_refusals(words),
        b"redraw" => redraw::redraw(words),
        b"help" | b"--help" | b"-h" => help::print_help(words),
        b"--version" => help::print_version(words),
        _ => Err(help::no_command(command)),
    }
}
