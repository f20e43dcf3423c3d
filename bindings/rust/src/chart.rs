//! The mark of an envelope in a chart of two channels, and what the panel shows of its centre.

use crate::{Figures, FiguresGiven, Refusal, accepted, channel_places};

/// The centre of an envelope in a chart of two channels, in steps: X over D of each, exactly. Zero is
/// positive.
#[derive(Clone, Copy, Debug, PartialEq)]
pub struct Point {
    /// The centre in the channel of the horizontal axis.
    pub horizontal: f64,
    /// The centre in the channel of the vertical axis.
    pub vertical: f64,
}

/// The mark of an envelope in a chart.
#[derive(Clone, Copy, Debug, PartialEq)]
pub enum Mark {
    /// M is 0: every row is the centre.
    Dot(Point),
    /// M is above 0.
    Disc {
        /// The centre of the disc.
        centre: Point,
        /// The smallest whole number whose square is at least M, over D, exactly, in steps: in the
        /// chart of two different channels no row of the envelope lies outside the disc.
        radius: f64,
    },
}

/// What the library answers to a chart, in numbers; see [`chart_given`].
#[repr(C)]
#[derive(Clone, Copy, Debug, PartialEq)]
pub struct MarkAnswer {
    /// 0 where accepted, else the refusal's number; then everything below is 0.
    pub number: u32,
    /// The line at fault, 0 where none is.
    pub line: u32,
    /// 1 for a dot, 2 for a disc.
    pub mark: u32,
    /// The centre in the channel of the horizontal axis.
    pub horizontal: f64,
    /// The centre in the channel of the vertical axis.
    pub vertical: f64,
    /// The radius of a disc, 0 of a dot.
    pub radius: f64,
}

/// What the library answers of a panel, in numbers; see [`panel_into`].
#[repr(C)]
#[derive(Clone, Copy, Debug, PartialEq, Eq, Hash)]
pub struct PanelAnswer {
    /// 0 where accepted, else the refusal's number.
    pub number: u32,
    /// The line at fault, 0 where none is.
    pub line: u32,
}

unsafe extern "C" {
    fn cundarivo_chart(
        figures: FiguresGiven,
        codes: *const u8,
        codes_len: usize,
        scaled_centre: *const i64,
        scaled_centre_len: usize,
        horizontal: usize,
        vertical: usize,
    ) -> MarkAnswer;

    fn cundarivo_panel(
        figures: FiguresGiven,
        codes: *const u8,
        codes_len: usize,
        scaled_centre: *const i64,
        scaled_centre_len: usize,
        steps: *mut i32,
        steps_len: usize,
    ) -> PanelAnswer;
}

/// The mark of an envelope in the chart of two of its channels, counted from 1. The same channel may
/// be taken twice.
///
/// ```
/// use cundarivo::{Mark, Point, chart};
///
/// // The ball round the rows (0, 0), (6, 0), (0, 8) of TOC and CND.
/// let figures = cundarivo::draw(&[0, 0, 6, 0, 0, 8], 3, 2, 10_000)?.figures(&[1, 4]);
/// let centre = Point { horizontal: 3.0, vertical: 4.0 };
/// assert_eq!(chart(&figures, 1, 2)?, Mark::Disc { centre, radius: 5.0 });
/// let centre = Point { horizontal: 4.0, vertical: 4.0 };
/// assert_eq!(chart(&figures, 2, 2)?, Mark::Disc { centre, radius: 5.0 });
///
/// // One row is a dot.
/// let figures = cundarivo::draw(&[7], 1, 1, 0)?.figures(&[1]);
/// let dot = Mark::Dot(Point { horizontal: 7.0, vertical: 7.0 });
/// assert_eq!(chart(&figures, 1, 1)?, dot);
///
/// // There is no channel 0, and no second one.
/// assert_eq!(chart(&figures, 0, 1).unwrap_err().number, 8);
/// assert_eq!(chart(&figures, 1, 2).unwrap_err().number, 8);
/// # Ok::<(), cundarivo::Refusal>(())
/// ```
///
/// # Errors
///
/// Refusal 8: see [`Refusal`].
pub fn chart(figures: &Figures, horizontal: usize, vertical: usize) -> Result<Mark, Refusal> {
    let answer = chart_given(
        figures.given(),
        &figures.codes,
        &figures.scaled_centre,
        horizontal,
        vertical,
    );
    accepted(answer.number, answer.line)?;
    let centre = Point {
        horizontal: answer.horizontal,
        vertical: answer.vertical,
    };
    Ok(match answer.mark {
        1 => Mark::Dot(centre),
        _ => Mark::Disc {
            centre,
            radius: answer.radius,
        },
    })
}

/// What the panel shows of an envelope: the centre of each of its n channels to the nearest whole
/// step, halves away from zero.
///
/// ```
/// let figures = cundarivo::draw(&[0, 0, 6, 0, 0, 8], 3, 2, 10_000)?.figures(&[1, 4]);
/// assert_eq!(cundarivo::panel(&figures)?, [3, 4]);
///
/// // The centre of the rows -3 and 0 of ORP is -1.5.
/// let figures = cundarivo::draw(&[-3, 0], 2, 1, 10_000)?.figures(&[8]);
/// assert_eq!(cundarivo::panel(&figures)?, [-2]);
/// # Ok::<(), cundarivo::Refusal>(())
/// ```
///
/// # Errors
///
/// Refusal 8: see [`Refusal`].
pub fn panel(figures: &Figures) -> Result<Vec<i32>, Refusal> {
    let mut steps = channel_places(figures.n);
    let (codes, scaled_centre) = (&figures.codes, &figures.scaled_centre);
    let answer = panel_into(figures.given(), codes, scaled_centre, &mut steps);
    accepted(answer.number, answer.line)?;
    Ok(steps)
}

/// The library's own call of [`chart`], which takes and answers numbers. `codes` and `scaled_centre` lend
/// at least n places, of which the first n count; fewer are refused by 8.
pub fn chart_given(
    figures: FiguresGiven,
    codes: &[u8],
    scaled_centre: &[i64],
    horizontal: usize,
    vertical: usize,
) -> MarkAnswer {
    // SAFETY: as in `judge_given`.
    unsafe {
        cundarivo_chart(
            figures,
            codes.as_ptr(),
            codes.len(),
            scaled_centre.as_ptr(),
            scaled_centre.len(),
            horizontal,
            vertical,
        )
    }
}

/// The library's own call of [`panel`], which takes and answers numbers. Accepted, it fills the first
/// n places of `steps`, and no other; refused, it changes nothing. `codes` and `scaled_centre` lend at least
/// n places, of which the first n count; fewer are refused by 8. After that comes 13 for `steps` of
/// fewer than n places; [`CHANNELS`](crate::CHANNELS) are always enough.
pub fn panel_into(
    figures: FiguresGiven,
    codes: &[u8],
    scaled_centre: &[i64],
    steps: &mut [i32],
) -> PanelAnswer {
    // SAFETY: as in `draw_into`.
    unsafe {
        cundarivo_panel(
            figures,
            codes.as_ptr(),
            codes.len(),
            scaled_centre.as_ptr(),
            scaled_centre.len(),
            steps.as_mut_ptr(),
            steps.len(),
        )
    }
}
