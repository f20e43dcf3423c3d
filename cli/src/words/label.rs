//! A label that is not in form.

use super::{field, line};

const FORM: &str = "a label is 1 to 12 bytes of A-Z, 0-9 and hyphen";
/// The most bytes of a label.
pub const LIMIT: usize = 12;

/// Whether the library takes these bytes as a label.
pub fn accepted(label: &[u8]) -> bool {
    if label.contains(&b',') || label.contains(&b'\n') {
        return false;
    }
    let text = [b"REF,1,TOC\n", label, b",1\n"].concat();
    let (mut table, mut codes) = ([0], [0]);
    cundarivo::read_reference(&text, &mut table, &mut codes).is_ok()
}

/// What is seen of a label that is not in form.
pub fn form(label: &[u8]) -> String {
    if label.is_empty() {
        return format!("the label is empty: {FORM}");
    }
    let seen = [length(label), blank(label), lower_case(label), other(label)];
    let seen: Vec<String> = seen.into_iter().flatten().collect();
    format!("the label {} has {}: {FORM}", field(label), listed(&seen))
}

/// As `a, b and c`.
fn listed(parts: &[String]) -> String {
    match parts.split_last() {
        Some((last, [])) => last.clone(),
        Some((last, others)) => format!("{} and {last}", others.join(", ")),
        None => "another form".to_string(),
    }
}

fn length(label: &[u8]) -> Option<String> {
    (label.len() > LIMIT).then(|| format!("{} bytes", label.len()))
}

fn blank(label: &[u8]) -> Option<String> {
    line::blank(label).map(|blank| blank.name.to_string())
}

fn lower_case(label: &[u8]) -> Option<String> {
    let any = label.iter().any(u8::is_ascii_lowercase);
    any.then(|| "lower-case letters".to_string())
}

/// The first byte that may not be there for another reason.
fn other(label: &[u8]) -> Option<String> {
    let may = |byte: u8| byte.is_ascii_alphanumeric() || b"- \t".contains(&byte);
    let of_blank = line::blank(label).is_some();
    let byte = label
        .iter()
        .find(|&&byte| !(may(byte) || of_blank && byte > 127))?;
    Some(field(&[*byte]))
}
