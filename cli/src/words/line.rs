//! A line as a second look sees it, and what is told of it as a whole: signs that another program saved the
//! text in its own way.

/// What a person does about line ends and marks of other programs.
const UNIX_LINE_ENDS: &str = "save the text with Unix line ends (byte 10 alone)";
const PLAIN: &str = "save the text as plain ASCII, or as UTF-8 without a mark";

#[derive(Clone, Copy, Debug)]
pub struct Line<'t> {
    /// Without its byte 10.
    pub bytes: &'t [u8],
    /// Whether it has one.
    pub ended: bool,
}

impl<'t> Line<'t> {
    /// A line with its byte 10, or without where it has none.
    pub fn of(line: &'t [u8]) -> Line<'t> {
        Line {
            bytes: line.strip_suffix(b"\n").unwrap_or(line),
            ended: line.ends_with(b"\n"),
        }
    }

    /// A line of a text, counted from 1.
    pub fn numbered(text: &'t [u8], number: u32) -> Option<Line<'t>> {
        let index = usize::try_from(number).ok()?.checked_sub(1)?;
        let mut lines = text.split_inclusive(|&byte| byte == b'\n');
        lines.nth(index).map(Line::of)
    }

    pub fn fields(self) -> Vec<&'t [u8]> {
        self.bytes.split(|&byte| byte == b',').collect()
    }

    fn has(self, byte: u8) -> bool {
        self.bytes.contains(&byte)
    }
}

/// How many lines a text has, a last one without byte 10 among them.
pub fn count(text: &[u8]) -> usize {
    text.split_inclusive(|&byte| byte == b'\n').count()
}

/// How a line is that has nothing to read, as spreadsheets write empty rows.
pub fn nothing(line: Line<'_>) -> Option<&'static str> {
    let ways: [(&[u8], &str); 4] = [
        (b"", "is empty"),
        (b" \t", "has only blanks"),
        (b",", "has only commas"),
        (b" \t,", "has only blanks and commas"),
    ];
    let only = |bytes: &[u8]| line.bytes.iter().all(|byte| bytes.contains(byte));
    let way = ways.iter().find(|(bytes, _)| only(bytes));
    way.map(|(_, seen)| *seen)
}

/// Told of a line that has nothing to read; `lines` says what the lines of the text are.
pub fn to_remove(text: &[u8], number: u32, seen: &str, lines: &str) -> String {
    let last = count(text) == number as usize;
    let place = if last { "last " } else { "" };
    format!("the {place}line {seen}: remove it, {lines}")
}

/// The first sign of another program's way of saving a text, as a person would mend it.
pub fn saved_otherwise(line: Line<'_>) -> Option<String> {
    byte_order_mark(line)
        .or_else(|| carriage_return(line))
        .or_else(|| comment(line).filter(|_| !line.has(b',')))
        .or_else(|| quotes(line))
        .or_else(|| separator(line))
}

fn byte_order_mark(line: Line<'_>) -> Option<String> {
    let seen = match line.bytes {
        [0xef, 0xbb, 0xbf, ..] => "the line starts with a byte order mark (bytes EF BB BF)",
        [0xff, 0xfe, ..] => "the line starts with bytes FF FE, the mark of UTF-16",
        [0xfe, 0xff, ..] => "the line starts with bytes FE FF, the mark of UTF-16",
        [b'P', b'K', 3, 4, ..] => "the line starts with bytes of an archive, as a spreadsheet has",
        bytes if every_second_is_zero(bytes) => "every second byte of the line is 0, as in UTF-16",
        _ => return None,
    };
    Some(format!("{seen}: {PLAIN}"))
}

fn every_second_is_zero(bytes: &[u8]) -> bool {
    let zeros_from = |start: usize| bytes.iter().skip(start).step_by(2).all(|&byte| byte == 0);
    bytes.len() > 5 && (zeros_from(0) != zeros_from(1))
}

fn carriage_return(line: Line<'_>) -> Option<String> {
    let (last, inside) = line.bytes.split_last()?;
    let seen = match (inside.contains(&b'\r'), *last == b'\r', line.ended) {
        (_, true, true) => "the line has a Windows line end (bytes 13 and 10)",
        (true, _, false) => {
            "byte 13, an old Mac line end, stands in the line, and no byte 10 ends it"
        }
        (false, true, false) => "the line ends in byte 13 and has no byte 10",
        (true, false, true) => "byte 13 stands in the line",
        (false, false, _) => return None,
    };
    Some(format!("{seen}: {UNIX_LINE_ENDS}"))
}

/// A comment, as which a line is taken that has another number of fields than is asked for.
pub fn comment(line: Line<'_>) -> Option<String> {
    let sign = ["#", "//"]
        .into_iter()
        .find(|sign| line.bytes.starts_with(sign.as_bytes()))?;
    Some(format!(
        "the line starts with '{sign}': a text has no comment lines"
    ))
}

fn quotes(line: Line<'_>) -> Option<String> {
    line.has(b'"')
        .then(|| "the line has quotes (\"): fields stand without quotes".to_string())
}

fn separator(line: Line<'_>) -> Option<String> {
    let (commas, inside) = (line.has(b','), line.bytes.trim_ascii());
    let seen = match (line.has(b';'), inside.contains(&b'\t'), commas) {
        (true, _, false) => "the line has semicolons and no comma",
        (true, _, true) => "the line has a semicolon",
        (false, true, false) => "the line has tabs and no comma",
        (false, false, false) if inside.contains(&b' ') => "the line has blanks and no comma",
        _ => return None,
    };
    Some(format!(
        "{seen}: fields are parted by commas, and by nothing else"
    ))
}

/// Told of a line that nothing else is seen of.
pub fn no_end(line: Line<'_>) -> Option<String> {
    let seen = "the line has no line end: each line ends in byte 10, the last one too";
    (!line.ended).then(|| seen.to_string())
}

/// A blank in a field.
#[derive(Clone, Copy, Debug, PartialEq, Eq)]
pub struct Blank {
    pub name: &'static str,
    pub place: Place,
}

#[derive(Clone, Copy, Debug, PartialEq, Eq)]
pub enum Place {
    Start,
    Inside,
    End,
}

const BLANKS: [(&[u8], &str); 5] = [
    (b" ", "a blank"),
    (b"\t", "a tab"),
    (b"\xc2\xa0", "a no-break space (U+00A0)"),
    (b"\xe2\x80\xaf", "a narrow space (U+202F)"),
    (b"\xe2\x80\x89", "a thin space (U+2009)"),
];

/// The first blank of a field, one at its start or end before one inside.
pub fn blank(field: &[u8]) -> Option<Blank> {
    let at = |place: Place| {
        let met = |(bytes, _): &&(&[u8], &str)| match place {
            Place::Start => field.starts_with(bytes),
            Place::End => field.ends_with(bytes),
            Place::Inside => field.windows(bytes.len()).any(|part| part == *bytes),
        };
        let (_, name) = BLANKS.iter().find(met)?;
        Some(Blank { name, place })
    };
    at(Place::Start)
        .or_else(|| at(Place::End))
        .or_else(|| at(Place::Inside))
}

/// A field without its blanks.
pub fn without_blanks(field: &[u8]) -> Vec<u8> {
    let mut rest = Vec::new();
    let mut field = field;
    while let Some((first, others)) = field.split_first() {
        let blank = BLANKS
            .iter()
            .find_map(|(bytes, _)| field.strip_prefix(*bytes));
        if blank.is_none() {
            rest.push(*first);
        }
        field = blank.unwrap_or(others);
    }
    rest
}

impl Blank {
    /// As it follows the field that it is in.
    pub fn words(self) -> String {
        match self.place {
            Place::Start => format!("starts with {}", self.name),
            Place::Inside => format!("has {} in it", self.name),
            Place::End => format!("ends in {}", self.name),
        }
    }
}
