//! The records of envelopes, written and read.

use crate::{
    EnvelopeAnswer, Figures, FiguresGiven, ROWS, Refusal, accepted, channel_places, ending,
    weight_places,
};

/// Bytes that are enough for every record: at most 38 for the heading, 90 for X, 52 for M, L, the moves
/// and the ending, and 12 for each of 256 weights. This is proved (`house-most` and `house-enough` in
/// `crates/record/specs/HouseLaws.antt`).
pub const RECORD_BYTES: usize = 38 + 90 + 52 + 12 * ROWS;

/// An envelope: its figures, and the weights of its rows.
#[derive(Clone, Debug, PartialEq, Eq, Hash)]
pub struct Envelope {
    /// Its channels and their codes, X, M, L, the ending and the moves.
    pub figures: Figures,
    /// The weight of each row, at least m places and at most [`ROWS`]; those past m are 0.
    pub weights: Vec<u32>,
}

/// What the library answers to the writing of a record, of a reference text, of a trial of settings or
/// of what a program prints, in numbers; see [`write_record_into`],
/// [`write_reference_into`](crate::write_reference_into),
/// [`try_settings_into`](crate::try_settings_into) and [`Call::answer`](crate::programs::Call::answer).
#[repr(C)]
#[derive(Clone, Copy, Debug, PartialEq, Eq, Hash)]
pub struct WrittenAnswer {
    /// 0 where accepted, else the refusal's number; then the length is 0.
    pub number: u32,
    /// The line at fault, 0 where none is.
    pub line: u32,
    /// How many bytes were written.
    pub length: usize,
}

unsafe extern "C" {
    fn cundarivo_read_record(
        rows: *const i32,
        rows_len: usize,
        m: usize,
        n: usize,
        codes: *const u8,
        codes_len: usize,
        text: *const u8,
        text_len: usize,
        scaled_centre: *mut i64,
        scaled_centre_len: usize,
        weights: *mut u32,
        weights_len: usize,
    ) -> EnvelopeAnswer;

    fn cundarivo_write_record(
        figures: FiguresGiven,
        codes: *const u8,
        codes_len: usize,
        scaled_centre: *const i64,
        scaled_centre_len: usize,
        weights: *const u32,
        weights_len: usize,
        rows: *const i32,
        rows_len: usize,
        m: usize,
        buffer: *mut u8,
        buffer_len: usize,
    ) -> WrittenAnswer;
}

/// Reads the record of an envelope of these rows, whose channels are of these codes, whoever wrote
/// it. Of the codes and the coordinates the first n and m·n places count. A record that was drawn by a
/// library that read `<v` as 0 is refused by 12 where its figures differ for the rows as they read here, and
/// is accepted where they agree. [`crate::judge`], [`crate::measure`], [`crate::try_settings`], [`crate::chart`]
/// and [`crate::panel`] take figures without rows: those that such a library gave are to be drawn anew.
///
/// ```
/// let rows = [0, 10];
/// let read = |text: &[u8]| cundarivo::read_record(&rows, 2, 1, &[1], text);
/// let text = "ENV,1,TOC\nC,327680\nR,107374182400,107374182400,1,S\nW,1,32768\nW,2,32768\n";
/// let envelope = read(text.as_bytes())?;
/// assert_eq!(envelope.weights, [32_768, 32_768]);
/// assert_eq!(envelope.figures.moves, 1);
///
/// // A lower bound that is one off disagrees with the rows; a row 0 is not in form.
/// let refusal = read(text.replace("400,1,S", "401,1,S").as_bytes()).unwrap_err();
/// assert_eq!((refusal.number, refusal.line), (12, 0));
/// let refusal = read(text.replace("W,1", "W,0").as_bytes()).unwrap_err();
/// assert_eq!((refusal.number, refusal.line), (11, 4));
/// # Ok::<(), cundarivo::Refusal>(())
/// ```
///
/// # Errors
///
/// Refusals 8, 1, 11, then 12: see [`Refusal`].
pub fn read_record(
    rows: &[i32],
    m: usize,
    n: usize,
    codes: &[u8],
    text: &[u8],
) -> Result<Envelope, Refusal> {
    let mut scaled_centre = channel_places(n);
    let mut weights = weight_places(m);
    let answer = read_record_into(rows, m, n, codes, text, &mut scaled_centre, &mut weights);
    accepted(answer.number, answer.line)?;
    let figures = Figures {
        n,
        codes: codes[..n].to_vec(),
        scaled_centre,
        scaled_squared_radius: answer.scaled_squared_radius,
        scaled_lower_bound: answer.scaled_lower_bound,
        ending: ending(answer.settled == 1),
        moves: answer.moves,
    };
    Ok(Envelope { figures, weights })
}

/// Writes the record of an envelope of the first m rows, whoever made it. [`read_record`] reads a
/// written record, with the same rows and codes, as this envelope, its places past m and n aside.
///
/// ```
/// use cundarivo::{draw, read_record, write_record};
///
/// let text = b"REF,2,TOC,CND\nA,0,0\nB,6,0\nC,0,8\n";
/// let (mut rows, mut codes) = ([0; 6], [0; 2]);
/// let counts = cundarivo::read_reference(text, &mut rows, &mut codes)?;
/// let envelope = draw(&rows, counts.m, counts.n, 10_000)?.envelope(&codes);
///
/// let record = write_record(&envelope, &rows, counts.m)?;
/// let expected = "ENV,2,TOC,CND\n\
///     C,196608,262144\n\
///     R,107374182400,107374182400,2,S\n\
///     W,2,32768\n\
///     W,3,32768\n";
/// assert_eq!(record, expected.as_bytes());
/// assert_eq!(read_record(&rows, counts.m, counts.n, &codes, &record)?, envelope);
///
/// // An envelope of other rows has no record with these.
/// let other = draw(&rows, 2, counts.n, 10_000)?.envelope(&codes);
/// assert_eq!(write_record(&other, &rows, counts.m).unwrap_err().number, 8); // two weights
/// let mut other = envelope;
/// other.weights.swap(0, 1);
/// assert_eq!(write_record(&other, &rows, counts.m).unwrap_err().number, 12);
/// # Ok::<(), cundarivo::Refusal>(())
/// ```
///
/// # Errors
///
/// Refusals 8, then 12: see [`Refusal`].
pub fn write_record(envelope: &Envelope, rows: &[i32], m: usize) -> Result<Vec<u8>, Refusal> {
    let Envelope { figures, weights } = envelope;
    let (codes, scaled_centre) = (&figures.codes, &figures.scaled_centre);
    let mut text = vec![0; RECORD_BYTES];
    let answer = write_record_into(
        figures.given(),
        codes,
        scaled_centre,
        weights,
        rows,
        m,
        &mut text,
    );
    accepted(answer.number, answer.line)?;
    text.truncate(answer.length);
    Ok(text)
}

/// The library's own call of [`read_record`], which answers with numbers. Accepted, it fills the
/// first n places of `scaled_centre` with X and the first m places of `weights`, and no other; refused, it
/// changes nothing. After the refusals of [`read_record`] comes 13 for a `scaled_centre` of fewer than n or
/// `weights` of fewer than m places.
pub fn read_record_into(
    rows: &[i32],
    m: usize,
    n: usize,
    codes: &[u8],
    text: &[u8],
    scaled_centre: &mut [i64],
    weights: &mut [u32],
) -> EnvelopeAnswer {
    // SAFETY: as in `draw_into`, and the library is proved to keep within the lengths for every
    // text.
    unsafe {
        cundarivo_read_record(
            rows.as_ptr(),
            rows.len(),
            m,
            n,
            codes.as_ptr(),
            codes.len(),
            text.as_ptr(),
            text.len(),
            scaled_centre.as_mut_ptr(),
            scaled_centre.len(),
            weights.as_mut_ptr(),
            weights.len(),
        )
    }
}

/// The library's own call of [`write_record`], which takes and answers numbers. Accepted, it fills
/// the first places of `buffer` with the record, and no other; refused, it changes nothing. `codes`
/// and `scaled_centre` lend at least n places, of which the first n count, and `weights` at least m and at
/// most [`ROWS`], of which those past m are 0. After the refusals of [`write_record`] comes 13 for a
/// `buffer` that is too short; [`RECORD_BYTES`] are always enough.
pub fn write_record_into(
    figures: FiguresGiven,
    codes: &[u8],
    scaled_centre: &[i64],
    weights: &[u32],
    rows: &[i32],
    m: usize,
    buffer: &mut [u8],
) -> WrittenAnswer {
    // SAFETY: as in `draw_into`.
    unsafe {
        cundarivo_write_record(
            figures,
            codes.as_ptr(),
            codes.len(),
            scaled_centre.as_ptr(),
            scaled_centre.len(),
            weights.as_ptr(),
            weights.len(),
            rows.as_ptr(),
            rows.len(),
            m,
            buffer.as_mut_ptr(),
            buffer.len(),
        )
    }
}
