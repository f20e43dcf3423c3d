//! The reference text of a table, written.

use crate::{ROWS, Refusal, WrittenAnswer, accepted};

/// Bytes that are enough for every reference text that is written: at most 38 for the heading, and 61
/// for each of 256 rows. This is proved (`text-most` in
/// `crates/reference/specs/PrintedLaws.antt`).
pub const REFERENCE_BYTES: usize = 38 + 61 * ROWS;

/// The most bytes of a label.
const LABEL_BYTES: usize = 12;

unsafe extern "C" {
    fn cundarivo_write_reference(
        rows: *const i32,
        rows_len: usize,
        m: usize,
        n: usize,
        codes: *const u8,
        codes_len: usize,
        labels: *const u8,
        labels_len: usize,
        ends: *const usize,
        ends_len: usize,
        buffer: *mut u8,
        buffer_len: usize,
    ) -> WrittenAnswer;
}

/// Writes the reference text of the first m rows of n channels of these codes, with a label for each
/// row. Of the coordinates and the codes the first m·n and n places count.
/// [`read_reference`](crate::read_reference) reads a written text as these rows and codes, and
/// [`label`](crate::label) finds these labels in it.
///
/// Every value is written plain: where the rows were read from a text, a value below detection is
/// written as the number that it reads as. An accepted text without `<` is written as its own bytes.
///
/// ```
/// use cundarivo::{label, read_reference, write_reference};
///
/// let text = b"REF,2,TOC,CND\nA,0,0\nB,6,0\nC,0,<17\n";
/// let (mut rows, mut codes) = ([0; 6], [0; 2]);
/// let counts = read_reference(text, &mut rows, &mut codes)?;
/// let mut labels: Vec<&[u8]> = (1..=counts.m).map(|row| label(text, row)).collect();
///
/// let written = write_reference(&rows, counts.m, counts.n, &codes, &labels)?;
/// assert_eq!(written, b"REF,2,TOC,CND\nA,0,0\nB,6,0\nC,0,8\n"); // `<17` reads as 8
///
/// // The line at fault is the one that the row would have: 4 for the third row.
/// labels[2] = b"A";
/// let refusal = write_reference(&rows, counts.m, counts.n, &codes, &labels).unwrap_err();
/// assert_eq!((refusal.number, refusal.line), (5, 4));
/// labels[2] = b"c";
/// let refusal = write_reference(&rows, counts.m, counts.n, &codes, &labels).unwrap_err();
/// assert_eq!((refusal.number, refusal.line), (3, 4));
///
/// // 2001 is outside the range of TOC, 4001 outside the limits of every coordinate.
/// let refusal = write_reference(&[2001], 1, 1, &[1], &["A"]).unwrap_err();
/// assert_eq!((refusal.number, refusal.line), (4, 2));
/// let refusal = write_reference(&[4001], 1, 1, &[1], &["A"]).unwrap_err();
/// assert_eq!((refusal.number, refusal.line), (8, 0));
/// # Ok::<(), cundarivo::Refusal>(())
/// ```
///
/// # Errors
///
/// Refusal 8, also for labels that are not m; then row by row 3, 4, 5: see [`Refusal`].
pub fn write_reference<L: AsRef<[u8]>>(
    rows: &[i32],
    m: usize,
    n: usize,
    codes: &[u8],
    labels: &[L],
) -> Result<Vec<u8>, Refusal> {
    let (bytes, ends) = joined(labels);
    let mut text = vec![0; REFERENCE_BYTES];
    let answer = write_reference_into(rows, m, n, codes, &bytes, &ends, &mut text);
    accepted(answer.number, answer.line)?;
    text.truncate(answer.length);
    Ok(text)
}

/// The bytes of the labels one after another, and where each of them ends. Of too many labels only one
/// too many is joined, and of a label that is too long one byte too many: these are refused as the
/// whole would be, and what is allocated has a limit.
fn joined<L: AsRef<[u8]>>(labels: &[L]) -> (Vec<u8>, Vec<usize>) {
    let count = labels.len().min(ROWS + 1);
    let mut bytes = Vec::with_capacity(count * (LABEL_BYTES + 1));
    let mut ends = Vec::with_capacity(count);
    for label in &labels[..count] {
        let label = label.as_ref();
        bytes.extend_from_slice(&label[..label.len().min(LABEL_BYTES + 1)]);
        ends.push(bytes.len());
    }
    (bytes, ends)
}

/// The library's own call of [`write_reference`], which answers with numbers. Accepted, it fills the
/// first places of `buffer` with the text, and no other; refused, it changes nothing. `labels` lends
/// the bytes of the labels one after another, and `ends` m places: a label is the bytes from the end of
/// the label before, 0 for the first, up to its own end. 8 is besides the answer to `ends` that are not m,
/// that fall, or whose last is not the number of bytes of `labels`. After the refusals of
/// [`write_reference`] comes 13 for a `buffer` that is too short; [`REFERENCE_BYTES`] are always enough.
///
/// ```
/// use cundarivo::write_reference_into;
///
/// let mut buffer = [b'.'; 23];
/// let answer = write_reference_into(&[5, 7], 2, 1, &[1], b"AB-1", &[1, 4], &mut buffer);
/// assert_eq!((answer.number, answer.line, answer.length), (0, 0, 20));
/// assert_eq!(&buffer, b"REF,1,TOC\nA,5\nB-1,7\n...");
///
/// // One end for two rows: 8. A buffer of 19 places: 13.
/// let answer = write_reference_into(&[5, 7], 2, 1, &[1], b"AB-1", &[4], &mut buffer);
/// assert_eq!((answer.number, answer.line, answer.length), (8, 0, 0));
/// let answer = write_reference_into(&[5, 7], 2, 1, &[1], b"AB-1", &[1, 4], &mut buffer[..19]);
/// assert_eq!((answer.number, answer.line, answer.length), (13, 0, 0));
/// ```
pub fn write_reference_into(
    rows: &[i32],
    m: usize,
    n: usize,
    codes: &[u8],
    labels: &[u8],
    ends: &[usize],
    buffer: &mut [u8],
) -> WrittenAnswer {
    // SAFETY: each pointer and length are those of a live slice, the written one lent to nobody else,
    // and the library is proved to keep within the lengths for every m, n and list of ends.
    unsafe {
        cundarivo_write_reference(
            rows.as_ptr(),
            rows.len(),
            m,
            n,
            codes.as_ptr(),
            codes.len(),
            labels.as_ptr(),
            labels.len(),
            ends.as_ptr(),
            ends.len(),
            buffer.as_mut_ptr(),
            buffer.len(),
        )
    }
}
