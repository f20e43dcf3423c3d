//! The table of refusals, from which the reason of every refusal is told.

use crate::arguments::Words;
use crate::failure::Failure;
use crate::output;
use crate::status::Status;
use std::ffi::OsString;

struct Entry {
    /// When input is refused by this number.
    reason: &'static str,
    /// The texts or calls that meet it.
    met_by: &'static str,
    /// What a person does about it.
    remedy: &'static str,
}

const fn refusal(reason: &'static str, met_by: &'static str, remedy: &'static str) -> Entry {
    Entry {
        reason,
        met_by,
        remedy,
    }
}

/// Those that no text of a command meets.
const LIBRARY: &str = "callers of the library alone";

/// By number, from 1.
const TABLE: [Entry; 14] = [
    refusal(
        "text empty or above 65,536 bytes",
        "a reference text, a record, the readings together",
        "see that it is the right file; part readings into several files",
    ),
    refusal(
        "bad heading or unknown tag",
        "a reference text",
        "write the first line as REF, n and n tags of 'envelope types'",
    ),
    refusal(
        "line not in form",
        "a row of a reference text, a single reading; labels that callers write",
        "mend the line as the hint says; each line ends in byte 10",
    ),
    refusal(
        "value outside its type's range",
        "a row of a reference text, a single reading; values that callers write",
        "count the value in the steps of 'envelope types', or check its column",
    ),
    refusal(
        "label used on an earlier row",
        "a row of a reference text; labels that callers write",
        "give one of the two rows another label, or remove it",
    ),
    refusal(
        "no row, or a 257th",
        "a reference text",
        "give it 1 to 256 rows, and no empty line",
    ),
    refusal(
        "lent table too short",
        LIBRARY,
        "lend m times n places; 2,048 are always enough",
    ),
    refusal(
        "number or list outside its limits",
        LIBRARY,
        "see what the call says of n, m, values, codes, labels, weights, figures",
    ),
    refusal(
        "budget above 1,000,000",
        LIBRARY,
        "draw with a budget of 0 to 1,000,000 moves",
    ),
    refusal(
        "tag that is not the envelope's",
        "a single reading",
        "write the tags of the reference text in its order",
    ),
    refusal(
        "record not in form",
        "a record",
        "draw it again from its reference text",
    ),
    refusal(
        "record that disagrees with the rows",
        "a record beside its reference text; weights and envelopes of callers",
        "draw it again from this reference text, or find the one that it is of",
    ),
    refusal(
        "lent slice too short",
        LIBRARY,
        "lend as many places as the call states",
    ),
    refusal(
        "alert settings not in form or outside their limits",
        "the settings of 'envelope alerts'; settings that callers lend",
        "give 1 to 20 lines k,c, both 1 to 99, each line ended by byte 10",
    ),
];

/// When input is refused by a number of the library.
pub fn reason(number: u32) -> &'static str {
    entry(number).map_or("not in the table of refusals", |entry| entry.reason)
}

/// What a person does about it.
pub fn remedy(number: u32) -> &'static str {
    entry(number).map_or("see 'envelope refusals'", |entry| entry.remedy)
}

fn entry(number: u32) -> Option<&'static Entry> {
    let index = usize::try_from(number).ok()?.checked_sub(1)?;
    TABLE.get(index)
}

pub fn print_refusals(words: &[OsString]) -> Result<Status, Failure> {
    Words::of(words, &[])?.require_none("refusals")?;
    output::print(table().as_bytes())?;
    Ok(Status::Done)
}

fn table() -> String {
    let mut text = String::from(
        "A refusal is answered by NO, its number and the line (0 where no line is at fault).\n",
    );
    for (entry, number) in TABLE.iter().zip(1..) {
        text.push_str(&format!(
            "\n{number:2}  {}\n    met by: {}\n    do:     {}\n",
            entry.reason, entry.met_by, entry.remedy
        ));
    }
    text
}

#[cfg(test)]
mod tests {
    use super::{TABLE, reason, table};

    #[test]
    fn every_number_has_its_reason_once() {
        let reasons: std::collections::BTreeSet<&str> = (1..=14).map(reason).collect();
        assert_eq!(reasons.len(), TABLE.len());
        assert!(
            (1..=14).all(|number| table().contains(&format!("\n{number:2}  {}\n", reason(number))))
        );
        assert_eq!(reason(0), reason(15));
    }

    #[test]
    fn lines_fit_a_terminal() {
        assert!(table().lines().all(|line| line.chars().count() <= 84));
    }
}
