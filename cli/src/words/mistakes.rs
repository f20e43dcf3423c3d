//! Single mistakes, each put into many texts that are in form: the hint names the mistake and what it was
//! made of.

use super::damaged::Random;
use super::reference;
use crate::types::{TYPES, Type};
use crate::units;
use cundarivo::Refusal;

const TEXTS: usize = 400;
const SEED: u64 = 4;

/// A text in form as its fields, and the place of a value that a mistake is put into.
struct Case {
    channels: Vec<&'static Type>,
    heading: Vec<String>,
    rows: Vec<Vec<String>>,
    row: usize,
    column: usize,
}

impl Case {
    fn new(random: &mut Random) -> Case {
        let channels: Vec<&Type> = (0..=random.index(8))
            .map(|_| &TYPES[random.index(8)])
            .collect();
        let mut heading = vec!["REF".to_string(), channels.len().to_string()];
        heading.extend(channels.iter().map(|channel| channel.tag.to_string()));
        let count = 2 + random.index(20);
        let rows = (0..count).map(|index| {
            let values = channels.iter().map(|channel| value(random, channel));
            [format!("GL-{index}A")].into_iter().chain(values).collect()
        });
        let rows: Vec<Vec<String>> = rows.collect();
        let (row, column) = (1 + random.index(count - 1), random.index(channels.len()));
        Case {
            channels,
            heading,
            rows,
            row,
            column,
        }
    }

    fn channel(&self) -> &'static Type {
        self.channels[self.column]
    }

    /// The value at the place.
    fn value(&mut self) -> &mut String {
        &mut self.rows[self.row][self.column + 1]
    }

    /// How a hint names the place.
    fn place(&self) -> String {
        format!("value {} ({})", self.column + 1, self.channel().tag)
    }

    fn text(&self) -> String {
        let lines = [&self.heading].into_iter().chain(&self.rows);
        lines.map(|fields| fields.join(",") + "\n").collect()
    }
}

/// Any value of a type, seldom one below detection.
fn value(random: &mut Random, channel: &Type) -> String {
    let span = (channel.high - channel.low + 1) as usize;
    match random.index(10) {
        0 => format!("<{}", 1 + random.index(channel.high as usize)),
        _ => (channel.low + random.index(span) as i32).to_string(),
    }
}

/// What the library and the hint say of a text that it refuses.
fn told(text: &str) -> (Refusal, String) {
    let read = cundarivo::read_reference(text.as_bytes(), &mut [0; 2_048], &mut [0; 8]);
    let refusal = read.expect_err("a text with a mistake");
    (refusal, reference::hint(text.as_bytes(), refusal))
}

/// Puts a mistake into many texts. It gives the number of the refusal, and how the hint starts and ends.
fn require(mistake: impl Fn(&mut Case, &mut Random) -> (u32, String, String)) {
    println!("seed {SEED}");
    let mut random = Random { state: SEED };
    for _ in 0..TEXTS {
        let mut case = Case::new(&mut random);
        let (number, start, end) = mistake(&mut case, &mut random);
        let (refusal, hint) = told(&case.text());
        let line = if number == 2 { 1 } else { case.row as u32 + 2 };
        assert_eq!(refusal, Refusal { number, line }, "{hint} {}", case.text());
        assert!(
            hint.starts_with(&start) && hint.ends_with(&end),
            "{hint:?} {start:?} {end:?}"
        );
    }
}

/// A value written otherwise.
fn require_value(
    number: u32,
    mistake: impl Fn(&'static Type, &mut Random) -> (String, String, String),
) {
    require(|case, random| {
        let (written, start, end) = mistake(case.channel(), random);
        *case.value() = written;
        (number, format!("{}{start}", case.place()), end)
    });
}

#[test]
fn leading_zeros() {
    require_value(3, |channel, random| {
        let steps = 1 + random.index(channel.high as usize);
        let end = format!(": without them it is {steps}");
        (
            format!("0{steps}"),
            format!(", '0{steps}', has leading zeros"),
            end,
        )
    });
}

#[test]
fn decimal_points() {
    require_value(3, |channel, random| {
        let steps = 1 + random.index(channel.high as usize);
        let whole = units::whole(channel, steps as i64);
        let number = whole.split(' ').next().expect("a number");
        let zero = if channel.decimals == 0 { ".0" } else { "" };
        let written = format!("{number}{zero}");
        let start = format!(", '{written}', has a decimal point");
        let step = units::step(channel);
        (
            written,
            start,
            format!("steps of {step}, and {whole} is {steps}"),
        )
    });
}

/// Values that are in form under no type, and how their hints go on behind the place.
const NO_VALUES: [(&str, &str); 21] = [
    ("", " is empty: no value may be missing"),
    ("ND", ", 'ND', is no number: no value may be missing"),
    ("n/a", ", 'n/a', is no number"),
    ("-", ", '-', is no number"),
    ("<LOD", ", '<LOD', is no number"),
    ("-0", ", '-0', is a zero with a minus"),
    (
        "<-0",
        ", '<-0', has a zero behind <, where a number from 1 to ",
    ),
    (
        "<00",
        ", '<00', has a zero behind <, where a number from 1 to ",
    ),
    ("+7", ", '+7', has a plus sign"),
    ("<+7", ", '<+7', has a plus sign"),
    (
        "\u{2212}7",
        ", '\\xe2\\x88\\x927', has the minus sign U+2212",
    ),
    (" 7", ", '\\x207', starts with a blank"),
    ("7\t", ", '7\\x09', ends in a tab"),
    ("5 ppb", ", '5\\x20ppb', has a blank in it"),
    ("1 473", ", '1\\x20473', has a blank between its digits"),
    (
        "1\u{a0}473",
        ", '1\\xc2\\xa0473', has a no-break space (U+00A0) between its digits",
    ),
    ("< 5", ", '<\\x205', has a blank behind <"),
    ("<", ", '<', has nothing behind <"),
    ("5ppb", ", '5ppb', is not a whole number of steps"),
    ("1e3", ", '1e3', is not a whole number of steps"),
    ("\u{e0}5", ", '\\xc3\\xa05', is not a whole number of steps"),
];

#[test]
fn values_not_in_form() {
    for (written, start) in NO_VALUES {
        require_value(3, |_, _| {
            (written.to_string(), start.to_string(), String::new())
        });
    }
}

#[test]
fn values_outside_their_range() {
    require_value(4, |channel, random| {
        let steps = match random.index(2) {
            0 => channel.low - 1 - random.index(3_000) as i32,
            _ => channel.high + 1 + random.index(99_999) as i32,
        };
        let value = units::whole(channel, i64::from(steps));
        let start = format!(", {steps}, is {value}; {} goes from ", channel.tag);
        (steps.to_string(), start, String::new())
    });
}

#[test]
fn values_of_many_digits() {
    for (written, digits) in [("99999999999", 11), ("-123456789012345678901234567890", 30)] {
        require_value(4, |channel, _| {
            let start = format!(" has {digits} digits; {} goes from ", channel.tag);
            (written.to_string(), start, String::new())
        });
    }
}

#[test]
fn values_below_detection_outside_their_range() {
    require_value(4, |channel, random| {
        let high = channel.high;
        let number = [0, -5, high + 1][random.index(3)];
        let start = format!(
            ", '<{number}', is outside the range: behind < stands a number from 1 to {high} ("
        );
        (format!("<{number}"), start, String::new())
    });
}

/// A row written otherwise, where the hint starts so.
fn require_row(mistake: impl Fn(&mut Case) -> String) {
    require(|case, _| (3, mistake(case), String::new()));
}

#[test]
fn rows_of_other_numbers_of_fields() {
    require_row(|case| {
        let removed = case.column + 1;
        case.rows[case.row].remove(removed);
        let (seen, wanted) = (case.channels.len(), case.channels.len() + 1);
        let plural = if seen == 1 { "" } else { "s" };
        format!("the line has {seen} field{plural}, and {wanted} are asked for, a label and ")
    });
    require_row(|case| {
        case.rows[case.row].push(String::new());
        "the line ends in 1 comma too many".to_string()
    });
    require_row(|case| {
        *case.value() += ",5";
        let wanted = case.channels.len() + 1;
        format!(
            "the line has {} fields, and {wanted} are asked for",
            wanted + 1
        )
    });
}

/// Where only one pair of fields can be a value with a decimal comma, it is the one that is.
#[test]
fn decimal_commas() {
    println!("seed {SEED}");
    let mut random = Random { state: SEED };
    let mut found = 0;
    for _ in 0..TEXTS {
        let mut case = Case::new(&mut random);
        let channel = case.channel();
        let steps = 1 + random.index(channel.high as usize);
        let whole = units::whole(channel, steps as i64);
        let number = whole.split(' ').next().expect("a number");
        let zero = if channel.decimals == 0 { ",0" } else { "" };
        let written = number.replace('.', ",") + zero;
        *case.value() = written.clone();
        let (refusal, hint) = told(&case.text());
        assert_eq!((refusal.number, refusal.line as usize), (3, case.row + 2));
        if let Some((_, pair)) = hint.split_once("; if ") {
            let tag = channel.tag;
            let end = format!("is one value with a decimal comma, {whole} under {tag} is {steps}");
            assert_eq!(pair, format!("'{written}' {end}"));
            found += 1;
        }
    }
    assert!(found > TEXTS / 2, "{found}");
}

#[test]
fn rows_saved_otherwise() {
    for (sign, name) in [(";", "semicolons"), ("\t", "tabs")] {
        require_row(|case| {
            case.rows[case.row] = vec![case.rows[case.row].join(sign)];
            format!("the line has {name} and no comma")
        });
    }
    require_row(|case| {
        *case.rows[case.row].last_mut().expect("a value") += "\r";
        "the line has a Windows line end".to_string()
    });
    for (line, start) in [
        ("", "the line is empty: remove it"),
        ("  ", "the line has only blanks: remove it"),
        (",,", "the line has only commas: remove it"),
        (
            " ,,,,,,,,,",
            "the line has only blanks and commas: remove it",
        ),
        ("# glycol loop", "the line starts with '#'"),
        ("// glycol loop", "the line starts with '//'"),
    ] {
        require_row(|case| {
            case.rows.insert(case.row, vec![line.to_string()]);
            start.to_string()
        });
    }
}

/// Labels that are not in form, and what is seen of them.
const NO_LABELS: [(&str, &str); 8] = [
    ("", "is empty"),
    ("gl-7", "'gl-7' has lower-case letters"),
    ("GL_7", "'GL_7' has '_'"),
    ("GL-2024-03-07", "'GL-2024-03-07' has 13 bytes"),
    ("GL-2024-03_7", "'GL-2024-03_7' has '_'"),
    ("7.3.24 6:00", "'7.3.24\\x206:00' has a blank and '.'"),
    ("\u{c0}", "'\\xc3\\x80' has '\\xc3'"),
    ("#1", "'#1' has '#'"),
];

#[test]
fn labels_not_in_form() {
    for (label, seen) in NO_LABELS {
        require_row(|case| {
            case.rows[case.row][0] = label.to_string();
            format!("the label {seen}: a label is 1 to 12 bytes of A-Z, 0-9 and hyphen")
        });
    }
}

#[test]
fn labels_of_earlier_rows() {
    require(|case, random| {
        let earlier = random.index(case.row);
        let label = case.rows[earlier][0].clone();
        case.rows[case.row][0] = label.clone();
        let start = format!("the label '{label}' stands on line {} already", earlier + 2);
        (5, start, String::new())
    });
}

/// A heading written otherwise, where the hint starts so.
fn require_heading(mistake: impl Fn(&mut Case, &mut Random) -> String) {
    require(|case, random| (2, mistake(case, random), String::new()));
}

#[test]
fn words_of_headings() {
    require_heading(|case, _| {
        case.heading[0].insert(0, '\u{feff}');
        "the line starts with a byte order mark".to_string()
    });
    require_heading(|case, _| {
        case.heading[0] = "Ref".to_string();
        "'Ref' has lower-case letters: the word is REF".to_string()
    });
    require_heading(|case, _| {
        case.heading = case.rows[0].clone();
        "the line starts with 'GL-0A'; the first line is the heading".to_string()
    });
}

#[test]
fn counts_of_headings() {
    require_heading(|case, random| {
        let n = case.channels.len();
        let other = 1 + (n + random.index(7)) % 8;
        case.heading[1] = other.to_string();
        format!("n is {other}, with {n} tag")
    });
    for n in ["0", "9", "-1", "12345678901234567890"] {
        require_heading(|case, _| {
            case.heading[1] = n.to_string();
            format!("n, the number of tags, is '{n}': it is 1 to 8")
        });
    }
    for (n, fault) in [
        ("", "is empty"),
        ("02", "has leading zeros"),
        ("2.0", "has a decimal point"),
        ("five", "is no number"),
    ] {
        require_heading(|case, _| {
            case.heading[1] = n.to_string();
            format!("n, the number of tags, is '{n}', which {fault}")
        });
    }
    require_heading(|case, _| {
        case.heading.remove(1);
        let tag = case.channels[0].tag;
        let count = case.channels.len();
        format!("behind REF stands '{tag}' in place of n, the number of tags ({count} known tag")
    });
}

#[test]
fn tags_of_headings() {
    require_heading(|case, _| {
        let (place, tag) = (case.column + 2, case.channel().tag);
        let lower = tag.to_lowercase();
        case.heading[place] = lower.clone();
        format!("the tag '{lower}' has lower-case letters: it is written {tag}")
    });
    require_heading(|case, _| {
        let (place, tag) = (case.column + 2, case.channel().tag);
        case.heading[place].insert(0, ' ');
        format!("the field '\\x20{tag}' starts with a blank")
    });
    for (word, meant) in [
        ("TEMP", " (is it TMP?)"),
        ("COND", " (is it CND?)"),
        ("FLOW", " (is it FLW?)"),
        ("REDOX", ""),
        ("TMC", ""),
    ] {
        require_heading(|case, _| {
            let place = case.column + 2;
            case.heading[place] = word.to_string();
            let known = "TOC, TC, IC, CND, TMP, PH, FLW, ORP";
            format!("'{word}' is not a known tag{meant}: the tags are {known}")
        });
    }
}
