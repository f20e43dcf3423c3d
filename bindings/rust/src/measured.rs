//! A reading that is measured: its verdict with its s and its values.

use crate::{Figures, FiguresGiven, Refusal, Verdict, accepted, channel_places, verdict};

/// A reading that is judged, with what its verdict comes from.
#[derive(Clone, Debug, PartialEq, Eq, Hash)]
pub struct Measured {
    /// The verdict, as [`judge`](crate::judge) gives it.
    pub verdict: Verdict,
    /// s: M and the excess together where the verdict is an Alarm, else at most M.
    pub scaled_squared_distance: u64,
    /// The n values as they read, also those below detection.
    pub values: Vec<i32>,
}

/// What the library answers to a reading that is measured, in numbers; see [`measure_into`].
#[repr(C)]
#[derive(Clone, Copy, Debug, PartialEq, Eq, Hash)]
pub struct MeasuredAnswer {
    /// 0 where the reading is accepted, else the refusal's number; then `verdict`, `excess` and s
    /// are 0.
    pub number: u32,
    /// The line at fault, 0 where none is.
    pub line: u32,
    /// 1 for Quiet, 2 for Alarm.
    pub verdict: u32,
    /// s - M of an Alarm, 0 of a Quiet reading.
    pub excess: u64,
    /// s.
    pub scaled_squared_distance: u64,
}

unsafe extern "C" {
    fn cundarivo_measure(
        figures: FiguresGiven,
        codes: *const u8,
        codes_len: usize,
        scaled_centre: *const i64,
        scaled_centre_len: usize,
        text: *const u8,
        text_len: usize,
        values: *mut i32,
        values_len: usize,
    ) -> MeasuredAnswer;
}

/// Judges a reading as [`judge`](crate::judge) does, and gives its s and its values besides.
///
/// ```
/// use cundarivo::{Verdict, measure};
///
/// // The ball round the rows (0, 0), (6, 0), (0, 8) of TOC and CND: its centre is (3, 4).
/// let figures = cundarivo::draw(&[0, 0, 6, 0, 0, 8], 3, 2, 10_000)?.figures(&[1, 4]);
/// let measured = measure(&figures, b"LOOP-1,TOC,3,CND,10\n")?;
/// assert_eq!(measured.values, [3, 10]);
/// assert_eq!(measured.scaled_squared_distance, 154_618_822_656); // 36 · D²
/// assert_eq!(measured.verdict, Verdict::Alarm { excess: 47_244_640_256 });
///
/// // `<17` reads as 8, and (0, 8) is a row.
/// let measured = measure(&figures, b"LOOP-1,TOC,0,CND,<17\n")?;
/// assert_eq!(measured.values, [0, 8]);
/// assert_eq!(measured.verdict, Verdict::Quiet);
/// # Ok::<(), cundarivo::Refusal>(())
/// ```
///
/// # Errors
///
/// Refusals 8, 1, 3, 10, then 4: see [`Refusal`].
pub fn measure(figures: &Figures, text: &[u8]) -> Result<Measured, Refusal> {
    let mut values = channel_places(figures.n);
    let (codes, scaled_centre) = (&figures.codes, &figures.scaled_centre);
    let answer = measure_into(figures.given(), codes, scaled_centre, text, &mut values);
    accepted(answer.number, answer.line)?;
    Ok(Measured {
        verdict: verdict(answer.verdict, answer.excess),
        scaled_squared_distance: answer.scaled_squared_distance,
        values,
    })
}

/// The library's own call of [`measure`], which takes and answers numbers. An accepted one fills the
/// first n places of `values`, and no other; a refused one changes nothing. `codes` and
/// `scaled_centre` lend at least n places, of which the first n count; fewer are refused by 8.
/// Refusals 8, 1, 3, 10, 4, then 13 for `values` of fewer than n places;
/// [`CHANNELS`](crate::CHANNELS) are always enough.
pub fn measure_into(
    figures: FiguresGiven,
    codes: &[u8],
    scaled_centre: &[i64],
    text: &[u8],
    values: &mut [i32],
) -> MeasuredAnswer {
    // SAFETY: each pointer and length are those of a live slice, the written one lent to nobody
    // else, and the library is proved to keep within the lengths for every n.
    unsafe {
        cundarivo_measure(
            figures,
            codes.as_ptr(),
            codes.len(),
            scaled_centre.as_ptr(),
            scaled_centre.len(),
            text.as_ptr(),
            text.len(),
            values.as_mut_ptr(),
            values.len(),
        )
    }
}
