//! Settings of an alert, tried on recorded readings.

use crate::{Figures, FiguresGiven, Refusal, WrittenAnswer, accepted};

/// The most settings that are tried at once.
pub const SETTINGS: usize = 20;

/// The largest k and c of a setting.
pub const RUN_MOST: u32 = 99;

/// Bytes that are enough for every trial: at most 18 for each of 20 settings, and 24 for the last line. This
/// is proved (`output_room` in `crates/try_settings/src/lib.rt`).
pub const TRIAL_BYTES: usize = 18 * SETTINGS + 24;

/// Bytes that are enough for every output of [`programs::alerts`](crate::programs::alerts): a trial, or a
/// refusal. This is proved (`output_room` in `crates/program_alerts/src/lib.rt`).
pub const PROGRAM_ALERTS_BYTES: usize = TRIAL_BYTES;

/// When an alert is raised and when it is cleared.
#[repr(C)]
#[derive(Clone, Copy, Debug, PartialEq, Eq, Hash)]
pub struct AlertSetting {
    /// It is raised after so many Alarm verdicts running, 1 to [`RUN_MOST`].
    pub k: u32,
    /// It is cleared after so many Quiet verdicts running, 1 to [`RUN_MOST`].
    pub c: u32,
}

impl AlertSetting {
    /// The settings as [`try_settings_into`] takes them: k and c of each, one after another.
    pub fn numbers(settings: &[AlertSetting]) -> &[u32] {
        // SAFETY: a setting is two numbers and nothing else, so that the slice has twice as many numbers
        // as settings, in the same bytes. They are lent as long as the settings are.
        unsafe { std::slice::from_raw_parts(settings.as_ptr().cast(), 2 * settings.len()) }
    }
}

unsafe extern "C" {
    fn cundarivo_try_settings(
        figures: FiguresGiven,
        codes: *const u8,
        codes_len: usize,
        scaled_centre: *const i64,
        scaled_centre_len: usize,
        settings: *const u32,
        settings_len: usize,
        readings: *const u8,
        readings_len: usize,
        output: *mut u8,
        output_len: usize,
    ) -> WrittenAnswer;
}

/// Tries 1 to 20 settings on recorded readings, against the figures of an envelope. Each line of the
/// readings is a reading and is judged as by [`judge`](crate::judge), an empty line and a last line without
/// byte 10 too; one that is refused there is turned back. It breaks no run, and is not among the readings
/// that pass while an alert stands. The reading that raises an alert is among them, the one that clears
/// it is not.
///
/// The text that is given has for each setting, in order, a line of k, c, the alerts raised, and the
/// readings that passed while an alert stood. Its last line has the number of readings, of Alarm and of
/// Quiet verdicts, and of readings turned back.
///
/// ```
/// use cundarivo::{AlertSetting, try_settings};
///
/// // The ball round the rows 0 and 10 of TOC: 11 is an Alarm, 5 is Quiet, and 2001 is turned back.
/// let figures = cundarivo::draw(&[0, 10], 2, 1, 10_000)?.figures(&[1]);
/// let readings = b"A,TOC,11\nA,TOC,11\nA,TOC,5\nA,TOC,2001\nA,TOC,11\nA,TOC,5\nA,TOC,5\n";
/// let settings = [AlertSetting { k: 2, c: 2 }, AlertSetting { k: 1, c: 1 }];
///
/// let trial = try_settings(&figures, &settings, readings)?;
/// assert_eq!(trial, b"2,2,1,4\n1,1,2,3\n7,3,3,1\n");
///
/// // No setting, and a k of 100: 14. No reading: 1.
/// assert_eq!(try_settings(&figures, &[], readings).unwrap_err().number, 14);
/// let settings = [AlertSetting { k: 100, c: 1 }];
/// assert_eq!(try_settings(&figures, &settings, readings).unwrap_err().number, 14);
/// let settings = [AlertSetting { k: 99, c: 1 }];
/// assert_eq!(try_settings(&figures, &settings, b"").unwrap_err().number, 1);
/// # Ok::<(), cundarivo::Refusal>(())
/// ```
///
/// # Errors
///
/// Refusals 8, 14, then 1: see [`Refusal`].
pub fn try_settings(
    figures: &Figures,
    settings: &[AlertSetting],
    readings: &[u8],
) -> Result<Vec<u8>, Refusal> {
    let (codes, scaled_centre) = (&figures.codes, &figures.scaled_centre);
    let settings = AlertSetting::numbers(settings);
    let mut text = vec![0; TRIAL_BYTES];
    let answer = try_settings_into(
        figures.given(),
        codes,
        scaled_centre,
        settings,
        readings,
        &mut text,
    );
    accepted(answer.number, answer.line)?;
    text.truncate(answer.length);
    Ok(text)
}

/// The library's own call of [`try_settings`], which takes and answers numbers. Accepted, it fills the
/// first places of `output` with the text, and no other; refused, it changes nothing. `codes` and
/// `scaled_centre` lend at least n places, of which the first n count; fewer are refused by 8. `settings`
/// lends k and c of each setting, one after another: see [`AlertSetting::numbers`]. An odd number of
/// places is refused by 14. After the refusals of [`try_settings`] comes 13 for an `output` that is too
/// short; [`TRIAL_BYTES`] are always enough.
///
/// ```
/// use cundarivo::try_settings_into;
///
/// let figures = cundarivo::draw(&[0, 10], 2, 1, 10_000)?.figures(&[1]);
/// let tried = |settings: &[u32], output: &mut [u8]| {
///     let (codes, centre) = (&figures.codes, &figures.scaled_centre);
///     let readings = b"A,TOC,11\nA,TOC,5";
///     let answer = try_settings_into(figures.given(), codes, centre, settings, readings, output);
///     (answer.number, answer.line, answer.length)
/// };
///
/// // The last line has no byte 10 and is turned back.
/// let mut output = [b'.'; 18];
/// assert_eq!(tried(&[1, 99], &mut output), (0, 0, 17));
/// assert_eq!(&output, b"1,99,1,1\n2,1,0,1\n.");
///
/// // A k without its c: 14. An output of 16 places: 13.
/// assert_eq!(tried(&[1, 99, 1], &mut output), (14, 0, 0));
/// assert_eq!(tried(&[1, 99], &mut output[..16]), (13, 0, 0));
/// # Ok::<(), cundarivo::Refusal>(())
/// ```
pub fn try_settings_into(
    figures: FiguresGiven,
    codes: &[u8],
    scaled_centre: &[i64],
    settings: &[u32],
    readings: &[u8],
    output: &mut [u8],
) -> WrittenAnswer {
    // SAFETY: each pointer and length are those of a live slice, the written one lent to nobody else,
    // and the library is proved to keep within the lengths for every n, setting and reading.
    unsafe {
        cundarivo_try_settings(
            figures,
            codes.as_ptr(),
            codes.len(),
            scaled_centre.as_ptr(),
            scaled_centre.len(),
            settings.as_ptr(),
            settings.len(),
            readings.as_ptr(),
            readings.len(),
            output.as_mut_ptr(),
            output.len(),
        )
    }
}
