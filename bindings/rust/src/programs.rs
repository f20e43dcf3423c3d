//! The six programs as calls: their texts, each by itself, to the bytes of standard output.
//!
//! | program | texts | output where none is refused |
//! |---|---|---|
//! | [`draw`] | reference text | the record of the envelope drawn with a budget of 10,000 moves |
//! | [`plain`] | reference text | the same text with each value below detection as the number that it reads as |
//! | [`verify`] | reference text, record | `OK` |
//! | [`judge`] | reference text, record, readings | a line for each reading: `QUIET`, or `ALARM` and s - M, or its refusal |
//! | [`panel`] | reference text, record | a line for each channel: tag and centre to the nearest whole step |
//! | [`alerts`] | reference text, record, settings, readings | a line for each setting: k, c, alerts raised, readings passed while one stood; then the number of readings, Alarm, Quiet and turned back |
//!
//! Of the first refused text the output is `NO`, number and line in that text, alone: see [`Refusal`].
//! Readings together are one text of at most 65,536 bytes. Settings are 1 to 20 lines of k and c; every
//! fault of them is refused by 14, with line 0.
//!
//! Texts are not joined: each is a slice of its own, and an empty line parts nothing. Of texts joined
//! into one input, whoever writes the first decides where it ends, and could bring a record of a wider
//! ball with it. An empty line in a reference text is refused by 3 (by 2 as the heading, by 6 past the
//! last row that there can be), in a record by 11.
//!
//! ```
//! use cundarivo::programs;
//!
//! let reference = b"REF,2,TOC,CND\nA,0,0\nB,6,0\nC,0,8\n";
//! let record = programs::draw(reference);
//! assert!(record.starts_with(b"ENV,2,TOC,CND\nC,196608,262144\n"));
//! assert_eq!(programs::verify(reference, &record), b"OK\n");
//! assert_eq!(programs::panel(reference, &record), b"TOC,3\nCND,4\n");
//!
//! let readings = b"LOOP-1,TOC,3,CND,9\nLOOP-1,TOC,3,CND,10\nLOOP-1,TOC,3,PH,9\n";
//! let verdicts = programs::judge(reference, &record, readings);
//! assert_eq!(verdicts, b"QUIET\nALARM,47244640256\nNO,10,1\n");
//! let trial = programs::alerts(reference, &record, b"1,1\n2,1\n", readings);
//! assert_eq!(trial, b"1,1,1,1\n2,1,0,0\n3,1,1,1\n");
//!
//! // No record: an empty text is refused by 1. The reference text comes first.
//! assert_eq!(programs::verify(reference, b""), b"NO,1,0\n");
//! assert_eq!(programs::verify(b"REF,1,TOC\nA,2001\n", b""), b"NO,4,2\n");
//!
//! // A reference text that brings a record, behind an empty line: refused at that line.
//! let embedding = [&reference[..], &record].join(&b'\n');
//! assert_eq!(programs::judge(&embedding, &record, readings), b"NO,3,5\n");
//! ```

use crate::{
    PROGRAM_ALERTS_BYTES, RECORD_BYTES, REFERENCE_BYTES, Refusal, WrittenAnswer, accepted,
};

/// The most bytes of readings that are judged, and of what is written for each.
const READING_BYTES: usize = 65_536;
const OUTPUT_PER_READING_BYTE: usize = 7;
/// Bytes that are enough for a refusal.
const REFUSAL_BYTES: usize = 64;

/// Bytes that are enough for every output of every program: `judge` writes at most 7 for each byte of
/// at most 65,536 bytes of readings, as for an empty line, or a refusal. This is proved (`output_room`
/// in `crates/program_judge/src/lib.rt`).
pub const OUTPUT_BYTES: usize = OUTPUT_PER_READING_BYTE * READING_BYTES + REFUSAL_BYTES;

/// A program with its texts; see the [module](self).
#[derive(Clone, Copy, Debug, PartialEq, Eq, Hash)]
pub enum Call<'t> {
    /// See [`draw`].
    Draw {
        /// The reference text.
        reference: &'t [u8],
    },
    /// See [`plain`].
    Plain {
        /// The reference text.
        reference: &'t [u8],
    },
    /// See [`verify`].
    Verify {
        /// The reference text.
        reference: &'t [u8],
        /// The record.
        record: &'t [u8],
    },
    /// See [`judge`].
    Judge {
        /// The reference text.
        reference: &'t [u8],
        /// The record.
        record: &'t [u8],
        /// The readings, a line each.
        readings: &'t [u8],
    },
    /// See [`panel`].
    Panel {
        /// The reference text.
        reference: &'t [u8],
        /// The record.
        record: &'t [u8],
    },
    /// See [`alerts`].
    Alerts {
        /// The reference text.
        reference: &'t [u8],
        /// The record.
        record: &'t [u8],
        /// The settings, a line each.
        settings: &'t [u8],
        /// The readings, a line each.
        readings: &'t [u8],
    },
}

unsafe extern "C" {
    fn cundarivo_program_draw(
        reference: *const u8,
        reference_len: usize,
        output: *mut u8,
        output_len: usize,
    ) -> WrittenAnswer;

    fn cundarivo_program_plain(
        reference: *const u8,
        reference_len: usize,
        output: *mut u8,
        output_len: usize,
    ) -> WrittenAnswer;

    fn cundarivo_program_verify(
        reference: *const u8,
        reference_len: usize,
        record: *const u8,
        record_len: usize,
        output: *mut u8,
        output_len: usize,
    ) -> WrittenAnswer;

    fn cundarivo_program_judge(
        reference: *const u8,
        reference_len: usize,
        record: *const u8,
        record_len: usize,
        readings: *const u8,
        readings_len: usize,
        output: *mut u8,
        output_len: usize,
    ) -> WrittenAnswer;

    fn cundarivo_program_panel(
        reference: *const u8,
        reference_len: usize,
        record: *const u8,
        record_len: usize,
        output: *mut u8,
        output_len: usize,
    ) -> WrittenAnswer;

    fn cundarivo_program_alerts(
        reference: *const u8,
        reference_len: usize,
        record: *const u8,
        record_len: usize,
        settings: *const u8,
        settings_len: usize,
        readings: *const u8,
        readings_len: usize,
        output: *mut u8,
        output_len: usize,
    ) -> WrittenAnswer;
}

impl Call<'_> {
    /// What the program prints of its texts.
    pub fn run(self) -> Vec<u8> {
        let mut output = vec![0; self.room()];
        let length = self.run_into(&mut output);
        output.truncate(length.expect("room for every output"));
        output
    }

    /// As [`run`](Call::run), into a lent buffer; gives the length of the output.
    ///
    /// ```
    /// use cundarivo::programs::Call;
    ///
    /// let call = Call::Verify { reference: b"REF,1,TOC\nA,05\n", record: b"" };
    /// let mut output = [b'.'; 9];
    /// assert_eq!(call.run_into(&mut output)?, 7);
    /// assert_eq!(&output, b"NO,3,2\n..");
    /// # Ok::<(), cundarivo::Refusal>(())
    /// ```
    ///
    /// # Errors
    ///
    /// Refusal 13, where the buffer is too short; then nothing is changed.
    pub fn run_into(self, output: &mut [u8]) -> Result<usize, Refusal> {
        let answer = self.answer(output);
        accepted(answer.number, answer.line)?;
        Ok(answer.length)
    }

    /// The library's own call, which answers with numbers. It fills the first places of `output` with
    /// what the program prints, and no other; where the output is too short for that it changes
    /// nothing, and the answer is 13. [`OUTPUT_BYTES`] are always enough.
    pub fn answer(self, output: &mut [u8]) -> WrittenAnswer {
        let (places, count) = (output.as_mut_ptr(), output.len());
        match self {
            // SAFETY: each pointer and length are those of a live slice, the written one lent to
            // nobody else, and the library is proved to keep within the lengths for every text.
            Call::Draw { reference } => unsafe {
                cundarivo_program_draw(reference.as_ptr(), reference.len(), places, count)
            },
            // SAFETY: as for `Draw`.
            Call::Plain { reference } => unsafe {
                cundarivo_program_plain(reference.as_ptr(), reference.len(), places, count)
            },
            Call::Verify { reference, record } => {
                answer_to_two(cundarivo_program_verify, reference, record, output)
            }
            Call::Panel { reference, record } => {
                answer_to_two(cundarivo_program_panel, reference, record, output)
            }
            // SAFETY: as for `Draw`.
            Call::Judge {
                reference,
                record,
                readings,
            } => unsafe {
                cundarivo_program_judge(
                    reference.as_ptr(),
                    reference.len(),
                    record.as_ptr(),
                    record.len(),
                    readings.as_ptr(),
                    readings.len(),
                    places,
                    count,
                )
            },
            // SAFETY: as for `Draw`.
            Call::Alerts {
                reference,
                record,
                settings,
                readings,
            } => unsafe {
                cundarivo_program_alerts(
                    reference.as_ptr(),
                    reference.len(),
                    record.as_ptr(),
                    record.len(),
                    settings.as_ptr(),
                    settings.len(),
                    readings.as_ptr(),
                    readings.len(),
                    places,
                    count,
                )
            },
        }
    }

    /// Bytes that are proved to be enough for the output: for `judge` as many as these readings ask
    /// for (`readings_room` in `crates/program_judge/src/lib.rt`), for `plain` as many as a reference
    /// text has that is written (`output_room` in `crates/program_plain/src/lib.rt`), for `alerts` as
    /// many as a trial has, for `draw` as many as a record has, and fewer for `verify` and `panel`
    /// (`output_room` in `crates/program_verify/src/lib.rt` and `crates/program_panel/src/lib.rt`).
    fn room(self) -> usize {
        match self {
            Call::Judge { readings, .. } => {
                OUTPUT_PER_READING_BYTE * readings.len().min(READING_BYTES) + REFUSAL_BYTES
            }
            Call::Plain { .. } => REFERENCE_BYTES,
            Call::Alerts { .. } => PROGRAM_ALERTS_BYTES,
            _ => RECORD_BYTES,
        }
    }
}

/// A program of the library that takes two texts: each by pointer and length, and so the output.
type OfTwoTexts =
    unsafe extern "C" fn(*const u8, usize, *const u8, usize, *mut u8, usize) -> WrittenAnswer;

fn answer_to_two(
    program: OfTwoTexts,
    reference: &[u8],
    record: &[u8],
    output: &mut [u8],
) -> WrittenAnswer {
    // SAFETY: as in `Call::answer`; the program is one of the library's.
    unsafe {
        program(
            reference.as_ptr(),
            reference.len(),
            record.as_ptr(),
            record.len(),
            output.as_mut_ptr(),
            output.len(),
        )
    }
}

/// The record of the envelope that is drawn of a reference text, or the text's refusal.
///
/// ```
/// let record = cundarivo::programs::draw(b"REF,1,TOC\nA,0\nB,10\n");
/// let expected = "ENV,1,TOC\n\
///     C,327680\n\
///     R,107374182400,107374182400,1,S\n\
///     W,1,32768\n\
///     W,2,32768\n";
/// assert_eq!(record, expected.as_bytes());
/// assert_eq!(cundarivo::programs::draw(b"REF,1,TOC\nA,05\n"), b"NO,3,2\n");
/// ```
pub fn draw(reference: &[u8]) -> Vec<u8> {
    Call::Draw { reference }.run()
}

/// The reference text that [`write_reference`](crate::write_reference) gives of the rows, codes and
/// labels of a reference text, or the text's refusal. Values are written plain: one below detection
/// becomes the number that it reads as. An accepted text without `<` is printed as it is.
///
/// ```
/// use cundarivo::programs::plain;
///
/// let written = plain(b"REF,2,TOC,CND\nA,<5,0\nB,6,<40\n");
/// assert_eq!(written, b"REF,2,TOC,CND\nA,2,0\nB,6,20\n");
/// assert_eq!(plain(&written), written);
///
/// // `<` and a number above the range of TOC: 4, at the text's own line.
/// assert_eq!(plain(b"REF,1,TOC\nA,<2001\n"), b"NO,4,2\n");
/// ```
pub fn plain(reference: &[u8]) -> Vec<u8> {
    Call::Plain { reference }.run()
}

/// `OK` where a record agrees with the rows and tags of a reference text, else a refusal.
///
/// ```
/// use cundarivo::programs::verify;
///
/// let record = "ENV,1,TOC\nC,327680\nR,0,0,0,S\nW,1,65536\n";
/// assert_eq!(verify(b"REF,1,TOC\nA,5\n", record.as_bytes()), b"OK\n");
///
/// // Another row: 12. Another form: 11, in the record's third line.
/// assert_eq!(verify(b"REF,1,TOC\nA,6\n", record.as_bytes()), b"NO,12,0\n");
/// let without_letter = record.replace(",S", "");
/// assert_eq!(verify(b"REF,1,TOC\nA,5\n", without_letter.as_bytes()), b"NO,11,3\n");
/// ```
pub fn verify(reference: &[u8], record: &[u8]) -> Vec<u8> {
    Call::Verify { reference, record }.run()
}

/// The verdict on each reading, or the one refusal of the texts before them.
///
/// ```
/// let (reference, record) = (b"REF,1,TOC\nA,5\n", b"ENV,1,TOC\nC,327680\nR,0,0,0,S\nW,1,65536\n");
/// let judge = |readings: &[u8]| cundarivo::programs::judge(reference, record, readings);
/// assert_eq!(judge(b"A,TOC,5\nA,TOC,6\n"), b"QUIET\nALARM,4294967296\n");
///
/// // An empty line is a reading too, and so is a last piece without byte 10; none at all is 1.
/// assert_eq!(judge(b"A,TOC,5\n\nA,TOC,5"), b"QUIET\nNO,3,1\nNO,3,1\n");
/// assert_eq!(judge(b""), b"NO,1,0\n");
/// ```
pub fn judge(reference: &[u8], record: &[u8], readings: &[u8]) -> Vec<u8> {
    Call::Judge {
        reference,
        record,
        readings,
    }
    .run()
}

/// What the panel shows of each channel, or a refusal.
///
/// ```
/// let (reference, record) = (b"REF,1,TOC\nA,5\n", b"ENV,1,TOC\nC,327680\nR,0,0,0,S\nW,1,65536\n");
/// assert_eq!(cundarivo::programs::panel(reference, record), b"TOC,5\n");
/// ```
pub fn panel(reference: &[u8], record: &[u8]) -> Vec<u8> {
    Call::Panel { reference, record }.run()
}

/// What [`try_settings`](crate::try_settings) gives of the settings of a text and of readings, or the one
/// refusal of the texts: of the reference text, the record, the settings, then the readings. Each line of
/// the settings is a k and a c, parted by a comma.
///
/// ```
/// let (reference, record) = (b"REF,1,TOC\nA,5\n", b"ENV,1,TOC\nC,327680\nR,0,0,0,S\nW,1,65536\n");
/// let alerts = |settings: &[u8], readings: &[u8]| {
///     cundarivo::programs::alerts(reference, record, settings, readings)
/// };
/// let readings = b"A,TOC,6\nA,TOC,6\nA,TOC,5\nA,TOC,6\nA,TOC,5\nA,TOC,5\n";
/// assert_eq!(alerts(b"2,2\n1,1\n", readings), b"2,2,1,4\n1,1,2,3\n6,3,3,0\n");
///
/// // Every fault of the settings is 14, and comes before 1 of the readings.
/// assert_eq!(alerts(b"01,1\n", readings), b"NO,14,0\n");
/// assert_eq!(alerts(b"", b""), b"NO,14,0\n");
/// assert_eq!(alerts(b"1,1\n", b""), b"NO,1,0\n");
/// ```
pub fn alerts(reference: &[u8], record: &[u8], settings: &[u8], readings: &[u8]) -> Vec<u8> {
    Call::Alerts {
        reference,
        record,
        settings,
        readings,
    }
    .run()
}

/// As [`draw`], into a lent buffer; gives the length of the output.
///
/// # Errors
///
/// Refusal 13, where the buffer is too short; then nothing is changed.
pub fn draw_into(reference: &[u8], output: &mut [u8]) -> Result<usize, Refusal> {
    Call::Draw { reference }.run_into(output)
}

/// As [`plain`], into a lent buffer; gives the length of the output.
///
/// ```
/// use cundarivo::programs::plain_into;
///
/// let mut output = [b'.'; 16];
/// assert_eq!(plain_into(b"REF,1,TOC\nA,<5\n", &mut output)?, 14);
/// assert_eq!(&output, b"REF,1,TOC\nA,2\n..");
/// # Ok::<(), cundarivo::Refusal>(())
/// ```
///
/// # Errors
///
/// Refusal 13, where the buffer is too short; then nothing is changed.
/// [`REFERENCE_BYTES`] are always enough.
pub fn plain_into(reference: &[u8], output: &mut [u8]) -> Result<usize, Refusal> {
    Call::Plain { reference }.run_into(output)
}

/// As [`verify`], into a lent buffer; gives the length of the output.
///
/// # Errors
///
/// Refusal 13, where the buffer is too short; then nothing is changed.
pub fn verify_into(reference: &[u8], record: &[u8], output: &mut [u8]) -> Result<usize, Refusal> {
    Call::Verify { reference, record }.run_into(output)
}

/// As [`judge`], into a lent buffer; gives the length of the output.
///
/// ```
/// use cundarivo::programs::judge_into;
///
/// let mut output = [b'.'; 12];
/// let length = judge_into(b"", b"", b"", &mut output)?;
/// assert_eq!((length, &output), (7, b"NO,1,0\n....."));
/// let refusal = judge_into(b"", b"", b"", &mut output[..6]).unwrap_err();
/// assert_eq!((refusal.number, refusal.line), (13, 0));
/// # Ok::<(), cundarivo::Refusal>(())
/// ```
///
/// # Errors
///
/// Refusal 13, where the buffer is too short; then nothing is changed.
pub fn judge_into(
    reference: &[u8],
    record: &[u8],
    readings: &[u8],
    output: &mut [u8],
) -> Result<usize, Refusal> {
    Call::Judge {
        reference,
        record,
        readings,
    }
    .run_into(output)
}

/// As [`panel`], into a lent buffer; gives the length of the output.
///
/// # Errors
///
/// Refusal 13, where the buffer is too short; then nothing is changed.
pub fn panel_into(reference: &[u8], record: &[u8], output: &mut [u8]) -> Result<usize, Refusal> {
    Call::Panel { reference, record }.run_into(output)
}

/// As [`alerts`], into a lent buffer; gives the length of the output.
///
/// # Errors
///
/// Refusal 13, where the buffer is too short; then nothing is changed.
/// [`PROGRAM_ALERTS_BYTES`] are always enough.
pub fn alerts_into(
    reference: &[u8],
    record: &[u8],
    settings: &[u8],
    readings: &[u8],
    output: &mut [u8],
) -> Result<usize, Refusal> {
    Call::Alerts {
        reference,
        record,
        settings,
        readings,
    }
    .run_into(output)
}
