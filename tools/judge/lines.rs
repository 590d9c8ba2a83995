//! The lines of a sheet and their fields.

/// A line without its end; an unfinished one has none.
#[derive(Clone, Copy)]
pub enum Line<'a> {
    Ended(&'a [u8]),
    Unfinished(&'a [u8]),
}

const MOST_BYTES: usize = 240;

impl<'a> Line<'a> {
    pub fn bytes(self) -> &'a [u8] {
        match self {
            Line::Ended(bytes) | Line::Unfinished(bytes) => bytes,
        }
    }

    pub fn is_legible(self) -> bool {
        match self {
            Line::Ended(bytes) => bytes.len() <= MOST_BYTES && bytes.iter().all(|&byte| is_allowed(byte)),
            Line::Unfinished(_) => false,
        }
    }

    pub fn fields(self) -> Vec<&'a [u8]> {
        self.bytes().split(|&byte| byte == 9).collect()
    }
}

fn is_allowed(byte: u8) -> bool {
    byte == 9 || (33..=126).contains(&byte)
}

/// What follows the last byte 10 is an unfinished line, or no line where it is nothing.
pub fn lines(sheet: &[u8]) -> Vec<Line<'_>> {
    let mut pieces: Vec<&[u8]> = sheet.split(|&byte| byte == 10).collect();
    let rest = pieces.pop().unwrap_or_default();
    let mut lines: Vec<Line> = pieces.into_iter().map(Line::Ended).collect();
    if !rest.is_empty() {
        lines.push(Line::Unfinished(rest));
    }
    lines
}
