//! Bytes of strangers (of a file, a name or an argument) as they are printed: no control byte reaches a
//! terminal, and no line end ends a line of ours.

use std::ffi::OsStr;
use std::os::unix::ffi::OsStrExt;

/// The most bytes of a stranger that are printed.
pub const LIMIT: usize = 60;

/// The first 60 bytes: 33 to 126 as they are except the backslash, every other as `\xHH`.
pub fn escaped(bytes: &[u8]) -> String {
    let mut text = String::new();
    for &byte in bytes.iter().take(LIMIT) {
        match byte {
            b'\\' => text.push_str("\\x5c"),
            33..=126 => text.push(char::from(byte)),
            _ => text.push_str(&format!("\\x{byte:02x}")),
        }
    }
    text
}

/// The same in single quotes, with `...` behind them where there are more bytes.
pub fn quoted(bytes: &[u8]) -> String {
    let more = if bytes.len() > LIMIT { "..." } else { "" };
    format!("'{}'{more}", escaped(bytes))
}

/// A name of a file as [`quoted`].
pub fn name(name: &OsStr) -> String {
    quoted(name.as_bytes())
}

#[cfg(test)]
mod tests {
    use super::{escaped, quoted};

    #[test]
    fn every_byte_is_printable() {
        for byte in 0..=255 {
            let shown = escaped(&[byte]);
            assert!(shown.bytes().all(|byte| (33..127).contains(&byte)));
            assert_eq!(shown.len() == 1, (33..127).contains(&byte) && byte != b'\\');
        }
    }

    #[test]
    fn sixty_bytes_are_shown() {
        assert_eq!(quoted(&[b'a'; 60]), format!("'{}'", "a".repeat(60)));
        assert_eq!(quoted(&[b'a'; 61]), format!("'{}'...", "a".repeat(60)));
        assert_eq!(quoted(b"\x1b[31m\\"), "'\\x1b[31m\\x5c'");
    }
}
