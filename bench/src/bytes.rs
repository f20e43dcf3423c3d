//! A walk over the bytes of a text.

/// What is left of a text.
pub struct Bytes<'a> {
    pub rest: &'a [u8],
}

impl Bytes<'_> {
    pub fn next(&mut self) -> Option<u8> {
        let (&byte, rest) = self.rest.split_first()?;
        self.rest = rest;
        Some(byte)
    }

    /// Takes the bytes up to the next line.
    pub fn skip_line(&mut self) {
        let end = self.rest.iter().position(|&byte| byte == b'\n');
        self.rest = end.map_or(&[], |end| &self.rest[end + 1..]);
    }
}
