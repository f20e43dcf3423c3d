//! Safe calls of the proved library: reference texts read into rows and written of them, a tight ball
//! round the rows drawn in whole numbers, the check of weights that anybody has chosen, the verdict on
//! a reading, settings of an alert tried on recorded readings, the records of envelopes written and read,
//! and the figures of charts and of the panel. [`programs`] has the same as whole programs, text to text.
//!
//! There are m rows (1 to 256) of n channels (1 to 8); each coordinate is a whole number from
//! -4,000 to 4,000, counted in steps of its channel. Rows are lent as one list, row by row: the first
//! m·n places count, and the list may be longer. Each row has a whole weight of 0 or more, and the weights sum to
//! [`TOTAL`], called D. Of the weights follow these figures:
//!
//! - X, the *scaled centre*: the sum of weight times row, channel by channel. The centre is X/D.
//! - M, the *scaled squared radius*: the largest squared length of (D times row - X) over all
//!   rows. The squared radius is M/D², and every row lies in this ball.
//! - L, the *scaled lower bound*: D times the sum of weight times the row's squared length, less
//!   the squared length of X. No ball that holds every row has a squared radius below L/D².
//! - *Settled*: no move of weight between two rows is called for. M - L is then at most D times
//!   the largest squared distance between two rows.
//!
//! X counts in units of 1/D step, M, L and the s of a reading in units of 1/D² squared step.
//!
//! ```
//! let rows = [0, 10];
//! let drawing = cundarivo::draw(&rows, 2, 1, 10_000)?;
//! assert_eq!(drawing.ending, cundarivo::Ending::Settled);
//! assert_eq!(drawing.scaled_centre, [327_680]); // 5 · 65,536
//! let checked = cundarivo::check(&rows, 2, 1, &drawing.weights)?;
//! assert_eq!(checked.scaled_squared_radius, drawing.scaled_squared_radius);
//! # Ok::<(), cundarivo::Refusal>(())
//! ```
//!
//! [`draw`] and [`check`] answer with lists of their own. [`draw_into`] and [`check_into`] are the
//! library's own calls on lent slices, and answer with numbers alone.
//!
//! A *reference text* states rows. Its fields are parted by commas and each line ends in byte 10.
//! The heading is `REF`, n, and n tags of channel types; then a line for each row has a label and n
//! values:
//!
//! ```text
//! REF,2,TOC,CND
//! A,0,0
//! B,6,0
//! C,0,8
//! ```
//!
//! | code | tag | step | low | high |
//! |---|---|---|---|---|
//! | 1 | TOC | 1 ppb carbon | 0 | 2000 |
//! | 2 | TC | 1 ppb carbon | 0 | 4000 |
//! | 3 | IC | 1 ppb carbon | 0 | 4000 |
//! | 4 | CND | 0.001 µS/cm | 0 | 4000 |
//! | 5 | TMP | 0.1 °C | -200 | 1500 |
//! | 6 | PH | 0.01 | 0 | 1400 |
//! | 7 | FLW | 0.1 l/min | 0 | 4000 |
//! | 8 | ORP | 1 mV | -2000 | 2000 |
//!
//! A label is 1 to 12 bytes of A-Z, 0-9 and hyphen, and no two rows have the same. A value is a
//! whole number without leading zeros from the type's low to its high, or `<` and one, v, from 1 to its
//! high, which means below detection and reads as the whole part of v/2: `<51` reads as 25.
//! [`read_reference`] reads such a text, and [`label`] finds the label of a row in it;
//! [`read_reference_into`] and [`label_part`] are the library's own calls.
//!
//! [`write_reference`] writes the text of rows, codes and labels, and [`write_reference_into`] is the
//! library's own call. Every value is written plain: `<51` that was read is written as 25, the number
//! that it reads as.
//!
//! ```
//! // Rows (0, 0) and (6, 8) of TOC and CND: codes 1 and 4.
//! let text = cundarivo::write_reference(&[0, 0, 6, 8], 2, 2, &[1, 4], &["A", "B"])?;
//! assert_eq!(text, b"REF,2,TOC,CND\nA,0,0\nB,6,8\n");
//! # Ok::<(), cundarivo::Refusal>(())
//! ```
//!
//! A *reading* is one line of a label, then tag and value of each channel. Its s is the squared
//! length of (D times its values - X): it is Quiet where s is at most M, else an Alarm with s - M.
//! [`judge`] gives the verdict against the [`Figures`] of an envelope, and [`measure`] gives s and
//! the values besides; [`judge_given`] and [`measure_into`] are the library's own calls.
//!
//! ```
//! use cundarivo::Verdict;
//!
//! let drawing = cundarivo::draw(&[0, 0, 6, 0, 0, 8], 3, 2, 10_000)?;
//! let figures = drawing.figures(&[1, 4]); // TOC and CND
//! let verdict = cundarivo::judge(&figures, b"LOOP-1,TOC,3,CND,9\n")?;
//! assert_eq!(verdict, Verdict::Quiet);
//! let verdict = cundarivo::judge(&figures, b"LOOP-1,TOC,3,CND,10\n")?;
//! assert_eq!(verdict, Verdict::Alarm { excess: 47_244_640_256 }); // 36 - 25, times D²
//! # Ok::<(), cundarivo::Refusal>(())
//! ```
//!
//! A *setting* of an alert is two numbers, k and c, from 1 to [`RUN_MOST`]: an alert is raised after k Alarm
//! verdicts running and cleared after c Quiet verdicts running. [`try_settings`] tries up to [`SETTINGS`] of
//! them on recorded readings, a line each, and gives for each the alerts raised and the readings that
//! passed while an alert stood; [`try_settings_into`] is the library's own call.
//!
//! ```
//! use cundarivo::AlertSetting;
//!
//! let figures = cundarivo::draw(&[0, 0, 6, 0, 0, 8], 3, 2, 10_000)?.figures(&[1, 4]);
//! let readings = b"LOOP-1,TOC,3,CND,9\nLOOP-1,TOC,3,CND,10\nLOOP-1,TOC,3,CND,11\n";
//! let settings = [AlertSetting { k: 1, c: 1 }, AlertSetting { k: 2, c: 3 }];
//! let trial = cundarivo::try_settings(&figures, &settings, readings)?;
//! // k, c, raised and passed; at last the readings, Alarm, Quiet and turned back.
//! assert_eq!(trial, b"1,1,1,2\n2,3,1,1\n3,2,1,0\n");
//! # Ok::<(), cundarivo::Refusal>(())
//! ```
//!
//! A *record* is the text of an envelope: `ENV`, n and the tags; `C` and X; `R`, M, L, the moves and
//! `S` for Settled or `B` for Budget; then `W`, row and weight, for each weight above 0, rows
//! counted from 1 and rising.
//!
//! ```text
//! ENV,2,TOC,CND
//! C,196608,262144
//! R,107374182400,107374182400,2,S
//! W,2,32768
//! W,3,32768
//! ```
//!
//! [`write_record`] writes the record of an envelope that agrees with its rows, and [`read_record`]
//! reads one back, whoever wrote it: every figure is compared with what [`check`] gives of the
//! weights, and only the moves are taken as written. [`write_record_into`] and [`read_record_into`]
//! are the library's own calls.
//!
//! ```
//! let (rows, codes) = ([0, 0, 6, 0, 0, 8], [1, 4]); // TOC and CND
//! let envelope = cundarivo::draw(&rows, 3, 2, 10_000)?.envelope(&codes);
//! let text = cundarivo::write_record(&envelope, &rows, 3)?;
//! assert!(text.starts_with(b"ENV,2,TOC,CND\nC,196608,262144\n"));
//! let read = cundarivo::read_record(&rows, 3, 2, &codes, &text)?;
//! assert_eq!(read, envelope);
//! # Ok::<(), cundarivo::Refusal>(())
//! ```
//!
//! A *chart* has two channels of an envelope, counted from 1, or the same one twice. [`chart`] gives
//! the envelope's mark in it: a dot where M is 0, else a disc, whose radius is the smallest whole
//! number with a square of at least M, over D. Each number is an `f64` that equals its fraction
//! exactly. The *panel* shows the centre to the nearest whole step, halves away from zero: [`panel`].
//! [`chart_given`] and [`panel_into`] are the library's own calls.
//!
//! ```
//! use cundarivo::{Figures, Mark, Point};
//!
//! // The envelope of the record above.
//! let figures = Figures {
//!     n: 2,
//!     codes: vec![1, 4],
//!     scaled_centre: vec![196_608, 262_144],
//!     scaled_squared_radius: 107_374_182_400,
//!     scaled_lower_bound: 107_374_182_400,
//!     ending: cundarivo::Ending::Settled,
//!     moves: 2,
//! };
//! let centre = Point { horizontal: 3.0, vertical: 4.0 };
//! assert_eq!(cundarivo::chart(&figures, 1, 2)?, Mark::Disc { centre, radius: 5.0 });
//! assert_eq!(cundarivo::panel(&figures)?, [3, 4]);
//! # Ok::<(), cundarivo::Refusal>(())
//! ```
//!
//! # Refusals
//!
//! Input outside the rules is turned back with a [`Refusal`], which has a number and the line at
//! fault. Where several apply it is the first in the order that the call states. A refused call
//! leaves every lent slice as it was; of the library's own calls every other figure of the answer is
//! then 0. An accepted call fills the first places of a lent slice, as many as it says, and leaves
//! the others as they were.
//!
//! # Panics, threads, memory and stack
//!
//! No call panics, whatever it is given. The library has no variables of its own, so that any number
//! of threads may call it at the same time. It allocates nothing: the calls that answer with lists
//! allocate these in this package, and the library's own calls use lent slices alone.
//!
//! [`programs::judge`] needs at most 640 KiB of stack, since its whole output is made there, before it
//! is handed out, where it is lent less than room for every output; [`programs::draw`] at most 96 KiB
//! and [`draw`] at most 64 KiB, since a drawing keeps 32 KiB of squared distances there; the other
//! [`programs`] at most 64 KiB, and every other call at most 32 KiB. The 2 MiB that a thread of Rust
//! has by default are enough for each. This is measured and tested, not proved.
//!
//! # Building
//!
//! The package links `target/staticlib/libcundarivo.a` of the repository, which `bindings/archive`
//! writes, for x86-64.

mod alerts;
mod chart;
mod measured;
pub mod programs;
mod record;
mod reference;

pub use alerts::{
    AlertSetting, PROGRAM_ALERTS_BYTES, RUN_MOST, SETTINGS, TRIAL_BYTES, try_settings,
    try_settings_into,
};
pub use chart::{Mark, MarkAnswer, PanelAnswer, Point, chart, chart_given, panel, panel_into};
pub use measured::{Measured, MeasuredAnswer, measure, measure_into};
pub use record::{
    Envelope, RECORD_BYTES, WrittenAnswer, read_record, read_record_into, write_record,
    write_record_into,
};
pub use reference::{REFERENCE_BYTES, write_reference, write_reference_into};

use std::error::Error;
use std::fmt;

/// The most rows.
pub const ROWS: usize = 256;

/// The most channels.
pub const CHANNELS: usize = 8;

/// D, the sum of the weights; X counts in units of 1/D, M, L and s in units of 1/D².
pub const TOTAL: u32 = 65_536;

/// Input that was turned back: its number in the table of refusals, and the line at fault, counted
/// from 1, or 0 where no line is at fault, as for 1, 7, 8, 9, 12, 13 and 14. Of a reference text that is to
/// be written it is the line that the row at fault would have.
///
/// | number | when |
/// |---|---|
/// | 1 | a text that is empty or above 65,536 bytes |
/// | 2 | a bad heading or an unknown tag |
/// | 3 | a line that is not in form, or has no byte 10, or a label to be written that is not in form |
/// | 4 | a value, read or to be written, outside its type's range |
/// | 5 | a label, read or to be written, that an earlier row has |
/// | 6 | no row, or a 257th |
/// | 7 | a lent table of fewer than m·n places |
/// | 8 | n, m, a coordinate, a type code or a figure of an envelope outside its limits, a channel of a chart outside 1 to n, rows of fewer than m·n places, a weight list not of m places or, in an envelope, of fewer than m or more than [`ROWS`], codes or X of fewer than n places, labels to be written that are not m or whose ends do not part their bytes, an ending that is neither 0 nor 1 |
/// | 9 | a budget above 1,000,000 |
/// | 10 | a tag of a reading that is not the envelope's |
/// | 11 | a record that is not in form |
/// | 12 | weights whose sum is not [`TOTAL`], or a record or an envelope that disagrees with the rows |
/// | 13 | a lent slice too short for what is to be written |
/// | 14 | a k or c outside 1 to [`RUN_MOST`], no setting or more than [`SETTINGS`], a k without its c, or a text of settings that is not in form |
#[derive(Clone, Copy, Debug, PartialEq, Eq, Hash)]
pub struct Refusal {
    /// The number in the table above, 1 to 14.
    pub number: u32,
    /// The line at fault in its text, read or to be written, counted from 1, or 0.
    pub line: u32,
}

impl fmt::Display for Refusal {
    fn fmt(&self, formatter: &mut fmt::Formatter<'_>) -> fmt::Result {
        let reason = match self.number {
            1 => "text empty or above 65,536 bytes",
            2 => "bad heading or unknown tag",
            3 => "line not in form",
            4 => "value outside its type's range",
            5 => "label used on an earlier row",
            6 => "no row, or a 257th",
            7 => "lent table too short",
            8 => {
                "rows, channels, a coordinate, the weight list, the labels, a figure or a chart channel outside the limits"
            }
            9 => "budget above 1,000,000",
            10 => "tag that is not the envelope's",
            11 => "record not in form",
            12 => "weights, record or envelope that disagree with the rows",
            13 => "a lent slice too short",
            14 => "alert settings outside the limits or not in form",
            _ => "input turned back",
        };
        write!(
            formatter,
            "refusal {}, line {}: {reason}",
            self.number, self.line
        )
    }
}

impl Error for Refusal {}

/// How a drawing ended.
#[derive(Clone, Copy, Debug, PartialEq, Eq, Hash)]
pub enum Ending {
    /// No further move is called for.
    Settled,
    /// The whole budget was moved, and the weights are not Settled.
    Budget,
}

/// An accepted drawing.
#[derive(Clone, Debug, PartialEq, Eq, Hash)]
pub struct Drawing {
    /// X, n places.
    pub scaled_centre: Vec<i64>,
    /// M.
    pub scaled_squared_radius: u64,
    /// L.
    pub scaled_lower_bound: u64,
    /// The weight of each row, m places; they sum to [`TOTAL`].
    pub weights: Vec<u32>,
    /// Whether the weights are Settled or the budget was used.
    pub ending: Ending,
    /// The moves made: the budget, or fewer where the weights are Settled.
    pub moves: u32,
}

/// The figures of accepted weights.
#[derive(Clone, Debug, PartialEq, Eq, Hash)]
pub struct Checked {
    /// X, n places.
    pub scaled_centre: Vec<i64>,
    /// M.
    pub scaled_squared_radius: u64,
    /// L.
    pub scaled_lower_bound: u64,
    /// Whether the weights are Settled.
    pub settled: bool,
}

/// The figures of an envelope, which a reading is judged against, and of which charts and the panel
/// are made. Whoever made them, [`judge`], [`measure`], [`try_settings`], [`chart`] and [`panel`] refuse
/// by 8 those outside their limits; [`Drawing::figures`] and, with moves of at most 1,000,000,
/// [`Checked::figures`] give figures that are within them, for rows and codes of a reference text.
#[derive(Clone, Debug, PartialEq, Eq, Hash)]
pub struct Figures {
    /// The number of channels, 1 to [`CHANNELS`].
    pub n: usize,
    /// The codes of the channel types, 1 to 8; the first n places count.
    pub codes: Vec<u8>,
    /// X, each place within 262,144,000 of 0; the first n count.
    pub scaled_centre: Vec<i64>,
    /// M, at most 2,199,023,255,552,000,000.
    pub scaled_squared_radius: u64,
    /// L, at most 2,199,023,255,552,000,000.
    pub scaled_lower_bound: u64,
    /// Whether the weights are Settled or the budget was used; no verdict, chart or panel depends on
    /// it.
    pub ending: Ending,
    /// The moves made, at most 1,000,000.
    pub moves: u32,
}

impl Figures {
    /// The figures as the library's own calls take them, beside the codes and X.
    pub fn given(&self) -> FiguresGiven {
        FiguresGiven {
            n: self.n,
            scaled_squared_radius: self.scaled_squared_radius,
            scaled_lower_bound: self.scaled_lower_bound,
            settled: u32::from(self.ending == Ending::Settled),
            moves: self.moves,
        }
    }
}

impl Drawing {
    /// The drawn envelope, whose channels are of these codes.
    pub fn envelope(&self, codes: &[u8]) -> Envelope {
        Envelope {
            figures: self.figures(codes),
            weights: self.weights.clone(),
        }
    }

    /// The figures of the drawn envelope, whose channels are of these codes.
    pub fn figures(&self, codes: &[u8]) -> Figures {
        Figures {
            n: self.scaled_centre.len(),
            codes: codes.to_vec(),
            scaled_centre: self.scaled_centre.clone(),
            scaled_squared_radius: self.scaled_squared_radius,
            scaled_lower_bound: self.scaled_lower_bound,
            ending: self.ending,
            moves: self.moves,
        }
    }
}

impl Checked {
    /// The figures of an envelope of the checked weights, whose channels are of these codes. A
    /// check makes no moves; those that the weights came from are given.
    pub fn figures(&self, codes: &[u8], moves: u32) -> Figures {
        Figures {
            n: self.scaled_centre.len(),
            codes: codes.to_vec(),
            scaled_centre: self.scaled_centre.clone(),
            scaled_squared_radius: self.scaled_squared_radius,
            scaled_lower_bound: self.scaled_lower_bound,
            ending: ending(self.settled),
            moves,
        }
    }
}

/// The verdict on a reading.
#[derive(Clone, Copy, Debug, PartialEq, Eq, Hash)]
pub enum Verdict {
    /// s is at most M: the reading lies in the ball.
    Quiet,
    /// s is above M.
    Alarm {
        /// s - M.
        excess: u64,
    },
}

/// What the library answers of an envelope, drawn or read from a record, in numbers; see
/// [`draw_into`] and [`read_record_into`].
#[repr(C)]
#[derive(Clone, Copy, Debug, PartialEq, Eq, Hash)]
pub struct EnvelopeAnswer {
    /// 0 where accepted, else the refusal's number; then every figure but the line is 0.
    pub number: u32,
    /// The line at fault, 0 where none is.
    pub line: u32,
    /// 1 for Settled, 0 for Budget.
    pub settled: u32,
    /// The moves made, or as the record states them.
    pub moves: u32,
    /// M.
    pub scaled_squared_radius: u64,
    /// L.
    pub scaled_lower_bound: u64,
}

/// What the library answers to a check, in numbers; see [`check_into`].
#[repr(C)]
#[derive(Clone, Copy, Debug, PartialEq, Eq, Hash)]
pub struct CheckAnswer {
    /// 0 where accepted, else the refusal's number; then every figure but the line is 0.
    pub number: u32,
    /// The line at fault, 0 where none is.
    pub line: u32,
    /// 1 where the weights are Settled, else 0.
    pub settled: u32,
    /// M.
    pub scaled_squared_radius: u64,
    /// L.
    pub scaled_lower_bound: u64,
}

/// The counts of an accepted reference text.
#[derive(Clone, Copy, Debug, PartialEq, Eq, Hash)]
pub struct Counts {
    /// The number of rows.
    pub m: usize,
    /// The number of channels.
    pub n: usize,
}

/// What the library answers to a reference text, in numbers; see [`read_reference_into`].
#[repr(C)]
#[derive(Clone, Copy, Debug, PartialEq, Eq, Hash)]
pub struct ReferenceAnswer {
    /// 0 where accepted, else the refusal's number; then m and n are 0.
    pub number: u32,
    /// The line at fault, 0 where none is.
    pub line: u32,
    /// The number of rows.
    pub m: usize,
    /// The number of channels.
    pub n: usize,
}

/// Where a label stands in a reference text; see [`label_part`].
#[repr(C)]
#[derive(Clone, Copy, Debug, PartialEq, Eq, Hash)]
pub struct LabelAnswer {
    /// The byte where the label starts, counted from 0.
    pub start: usize,
    /// How many bytes the label has, 0 where there is none.
    pub length: usize,
}

/// The figures of an envelope as they are given to the library, but for its codes and X; see
/// [`judge_given`], [`measure_into`], [`try_settings_into`], [`write_record_into`], [`chart_given`] and
/// [`panel_into`].
#[repr(C)]
#[derive(Clone, Copy, Debug, PartialEq, Eq, Hash)]
pub struct FiguresGiven {
    /// The number of channels.
    pub n: usize,
    /// M.
    pub scaled_squared_radius: u64,
    /// L.
    pub scaled_lower_bound: u64,
    /// 1 for Settled, 0 for Budget; any other number is refused by 8.
    pub settled: u32,
    /// The moves made.
    pub moves: u32,
}

/// What the library answers to a reading, in numbers; see [`judge_given`].
#[repr(C)]
#[derive(Clone, Copy, Debug, PartialEq, Eq, Hash)]
pub struct VerdictAnswer {
    /// 0 where the reading is accepted, else the refusal's number; then the verdict and the excess are 0.
    pub number: u32,
    /// The line at fault, 0 where none is.
    pub line: u32,
    /// 1 for Quiet, 2 for Alarm.
    pub verdict: u32,
    /// s - M of an Alarm, 0 of a Quiet reading.
    pub excess: u64,
}

unsafe extern "C" {
    fn cundarivo_draw(
        rows: *const i32,
        rows_len: usize,
        m: usize,
        n: usize,
        budget: u32,
        scaled_centre: *mut i64,
        scaled_centre_len: usize,
        weights: *mut u32,
        weights_len: usize,
    ) -> EnvelopeAnswer;

    fn cundarivo_check(
        rows: *const i32,
        rows_len: usize,
        m: usize,
        n: usize,
        weights: *const u32,
        weights_len: usize,
        scaled_centre: *mut i64,
        scaled_centre_len: usize,
    ) -> CheckAnswer;

    fn cundarivo_read_reference(
        text: *const u8,
        text_len: usize,
        table: *mut i32,
        table_len: usize,
        codes: *mut u8,
        codes_len: usize,
    ) -> ReferenceAnswer;

    fn cundarivo_label(text: *const u8, text_len: usize, row: usize) -> LabelAnswer;

    fn cundarivo_judge(
        figures: FiguresGiven,
        codes: *const u8,
        codes_len: usize,
        scaled_centre: *const i64,
        scaled_centre_len: usize,
        text: *const u8,
        text_len: usize,
    ) -> VerdictAnswer;
}

/// Draws the ball round the first m rows of n channels with at most `budget` moves, 0 to 1,000,000,
/// all weight being on the first row at the start. The time grows with moves times m times n.
///
/// # Errors
///
/// Refusal 8, then 9: see [`Refusal`].
pub fn draw(rows: &[i32], m: usize, n: usize, budget: u32) -> Result<Drawing, Refusal> {
    let mut scaled_centre = channel_places(n);
    let mut weights = weight_places(m);
    let answer = draw_into(rows, m, n, budget, &mut scaled_centre, &mut weights);
    accepted(answer.number, answer.line)?;
    Ok(Drawing {
        scaled_centre,
        scaled_squared_radius: answer.scaled_squared_radius,
        scaled_lower_bound: answer.scaled_lower_bound,
        weights,
        ending: ending(answer.settled == 1),
        moves: answer.moves,
    })
}

/// Gives the figures of any weights of the first m rows of n channels, whoever chose them: m weights
/// that sum to [`TOTAL`].
///
/// # Errors
///
/// Refusal 8, then 12: see [`Refusal`].
pub fn check(rows: &[i32], m: usize, n: usize, weights: &[u32]) -> Result<Checked, Refusal> {
    let mut scaled_centre = channel_places(n);
    let answer = check_into(rows, m, n, weights, &mut scaled_centre);
    accepted(answer.number, answer.line)?;
    Ok(Checked {
        scaled_centre,
        scaled_squared_radius: answer.scaled_squared_radius,
        scaled_lower_bound: answer.scaled_lower_bound,
        settled: answer.settled == 1,
    })
}

/// The library's drawing on lent slices. An accepted one fills the first n places of `scaled_centre` with
/// X and the first m places of `weights`, and no other; a refused one changes nothing. Refusals 8,
/// 9, then 13 for a `scaled_centre` of fewer than n or `weights` of fewer than m places.
pub fn draw_into(
    rows: &[i32],
    m: usize,
    n: usize,
    budget: u32,
    scaled_centre: &mut [i64],
    weights: &mut [u32],
) -> EnvelopeAnswer {
    // SAFETY: each pointer and length are those of a live slice, the written ones lent to nobody
    // else, and the library is proved to keep within the lengths for every m and n.
    unsafe {
        cundarivo_draw(
            rows.as_ptr(),
            rows.len(),
            m,
            n,
            budget,
            scaled_centre.as_mut_ptr(),
            scaled_centre.len(),
            weights.as_mut_ptr(),
            weights.len(),
        )
    }
}

/// The library's check on lent slices. An accepted one fills the first n places of `scaled_centre` with X,
/// and no other; a refused one changes nothing. Refusals 8, 12, then 13 for a `scaled_centre` of fewer
/// than n places.
pub fn check_into(
    rows: &[i32],
    m: usize,
    n: usize,
    weights: &[u32],
    scaled_centre: &mut [i64],
) -> CheckAnswer {
    // SAFETY: as in `draw_into`.
    unsafe {
        cundarivo_check(
            rows.as_ptr(),
            rows.len(),
            m,
            n,
            weights.as_ptr(),
            weights.len(),
            scaled_centre.as_mut_ptr(),
            scaled_centre.len(),
        )
    }
}

/// Reads a reference text into a lent table, row by row, and the codes of its channel types into
/// lent codes. Accepted, it fills the first m·n places of the table and the first n of the codes,
/// and no other; refused, it changes nothing. [`ROWS`]·[`CHANNELS`] and [`CHANNELS`] places are
/// enough for every text.
///
/// ```
/// let text = b"REF,2,TOC,CND\nA,0,0\nB,6,0\nC,0,<17\n";
/// let mut table = [0; 6];
/// let mut codes = [0; 2];
/// let counts = cundarivo::read_reference(text, &mut table, &mut codes)?;
/// assert_eq!((counts.m, counts.n), (3, 2));
/// assert_eq!(codes, [1, 4]);
/// assert_eq!(table, [0, 0, 6, 0, 0, 8]); // `<17` reads as 8
/// let drawing = cundarivo::draw(&table, counts.m, counts.n, 10_000)?;
/// assert_eq!(drawing.weights, [0, 32_768, 32_768]);
///
/// let faulty = b"REF,1,TOC\nA,2000\nB,2001\n";
/// let refusal = cundarivo::read_reference(faulty, &mut table, &mut codes).unwrap_err();
/// assert_eq!((refusal.number, refusal.line), (4, 3));
/// # Ok::<(), cundarivo::Refusal>(())
/// ```
///
/// # Errors
///
/// Refusals 1, 2, then line by line 6 for a 257th row, 3, 4, 5; then 6 for no row, 7, and 13 for
/// codes of fewer than n places: see [`Refusal`].
pub fn read_reference(text: &[u8], table: &mut [i32], codes: &mut [u8]) -> Result<Counts, Refusal> {
    let answer = read_reference_into(text, table, codes);
    accepted(answer.number, answer.line)?;
    Ok(Counts {
        m: answer.m,
        n: answer.n,
    })
}

/// The label of a row of a reference text, counted from 1, as that part of the text. It is empty
/// where the text is refused or has no such row; no table is lent, so that 7 is no refusal here.
///
/// ```
/// let text = b"REF,1,TOC\nLOOP-1,5\nLOOP-2,7\n";
/// assert_eq!(cundarivo::label(text, 2), b"LOOP-2");
/// assert!(cundarivo::label(text, 3).is_empty());
/// ```
pub fn label(text: &[u8], row: usize) -> &[u8] {
    let LabelAnswer { start, length } = label_part(text, row);
    &text[start..start + length]
}

/// Judges a reading against the figures of an envelope, whoever made either. The tags are compared
/// before any value meets its range: 4 is the answer only where every tag is the envelope's.
///
/// ```
/// use cundarivo::{Verdict, judge};
///
/// let text = b"REF,2,TOC,CND\nA,0,0\nB,6,0\nC,0,8\n";
/// let (mut table, mut codes) = ([0; 6], [0; 2]);
/// let counts = cundarivo::read_reference(text, &mut table, &mut codes)?;
/// let drawing = cundarivo::draw(&table, counts.m, counts.n, 10_000)?;
/// let figures = drawing.figures(&codes);
///
/// // A row of the reference text is Quiet, `<17` reads as 8, and (7, 0) is outside.
/// assert_eq!(judge(&figures, b"B,TOC,6,CND,0\n")?, Verdict::Quiet);
/// assert_eq!(judge(&figures, b"C,TOC,0,CND,<17\n")?, Verdict::Quiet);
/// let excess = 30_064_771_072;
/// assert_eq!(judge(&figures, b"B,TOC,7,CND,0\n")?, Verdict::Alarm { excess });
///
/// // 2001 is outside the range of TOC, but a wrong tag comes first.
/// let number = |text| judge(&figures, text).unwrap_err().number;
/// assert_eq!(number(b"B,TOC,2001,CND,0\n"), 4);
/// assert_eq!(number(b"B,TOC,2001,PH,0\n"), 10);
/// # Ok::<(), cundarivo::Refusal>(())
/// ```
///
/// # Errors
///
/// Refusals 8, 1, 3, 10, then 4: see [`Refusal`].
pub fn judge(figures: &Figures, text: &[u8]) -> Result<Verdict, Refusal> {
    let answer = judge_given(
        figures.given(),
        &figures.codes,
        &figures.scaled_centre,
        text,
    );
    accepted(answer.number, answer.line)?;
    Ok(verdict(answer.verdict, answer.excess))
}

/// The library's own call of [`judge`], which takes and answers numbers. `codes` and `scaled_centre` lend
/// at least n places, of which the first n count; fewer are refused by 8.
pub fn judge_given(
    figures: FiguresGiven,
    codes: &[u8],
    scaled_centre: &[i64],
    text: &[u8],
) -> VerdictAnswer {
    // SAFETY: each pointer and length are those of a live slice, which the library only reads, and
    // it is proved to keep within the lengths for every n.
    unsafe {
        cundarivo_judge(
            figures,
            codes.as_ptr(),
            codes.len(),
            scaled_centre.as_ptr(),
            scaled_centre.len(),
            text.as_ptr(),
            text.len(),
        )
    }
}

/// The library's own call of [`read_reference`], which answers with numbers. Its refusals are the
/// same, and it fills the same places.
pub fn read_reference_into(text: &[u8], table: &mut [i32], codes: &mut [u8]) -> ReferenceAnswer {
    // SAFETY: each pointer and length are those of a live slice, the written ones lent to nobody
    // else, and the library is proved to keep within the lengths for every text.
    unsafe {
        cundarivo_read_reference(
            text.as_ptr(),
            text.len(),
            table.as_mut_ptr(),
            table.len(),
            codes.as_mut_ptr(),
            codes.len(),
        )
    }
}

/// The library's own call of [`label`]: where the label starts in the text and how many bytes it
/// has, 0 and 0 where there is none.
pub fn label_part(text: &[u8], row: usize) -> LabelAnswer {
    // SAFETY: pointer and length are those of a live slice, which the library only reads.
    unsafe { cundarivo_label(text.as_ptr(), text.len(), row) }
}

/// A place for each of n channels. More than [`CHANNELS`] are refused, so that no count, however
/// large, is allocated.
fn channel_places<T: Clone + Default>(n: usize) -> Vec<T> {
    vec![T::default(); n.min(CHANNELS)]
}

/// Places for the weights of m rows. More than [`ROWS`] are refused, as above.
fn weight_places(m: usize) -> Vec<u32> {
    vec![0; m.min(ROWS)]
}

/// The verdict of this code on an accepted reading.
fn verdict(code: u32, excess: u64) -> Verdict {
    match code {
        1 => Verdict::Quiet,
        _ => Verdict::Alarm { excess },
    }
}

fn ending(settled: bool) -> Ending {
    match settled {
        true => Ending::Settled,
        false => Ending::Budget,
    }
}

fn accepted(number: u32, line: u32) -> Result<(), Refusal> {
    match number {
        0 => Ok(()),
        _ => Err(Refusal { number, line }),
    }
}

#[doc = include_str!("../README.md")]
pub mod guide {}

/// The example of the repository's README is a test.
#[cfg(doctest)]
#[doc = include_str!("../../../README.md")]
struct Readme;
