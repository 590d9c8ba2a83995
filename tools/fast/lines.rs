//! The lines of a sheet.

use std::io::BufRead;

#[derive(Clone, Copy)]
pub struct Line<'a> {
    pub text: &'a [u8],
    ended: bool,
}

pub struct Lines<'a> {
    rest: &'a [u8],
}

pub fn lines(sheet: &[u8]) -> Lines<'_> {
    Lines { rest: sheet }
}

impl<'a> Iterator for Lines<'a> {
    type Item = Line<'a>;

    fn next(&mut self) -> Option<Line<'a>> {
        if self.rest.is_empty() {
            return None;
        }
        // The library skips many bytes at once; on bytes in memory it cannot fail.
        let mut rest = self.rest;
        let length = rest.skip_until(b'\n').unwrap_or_default();
        let line = &self.rest[..length];
        self.rest = rest;
        Some(match line.strip_suffix(b"\n") {
            Some(text) => Line { text, ended: true },
            None => Line { text: line, ended: false },
        })
    }
}

const MOST_BYTES: usize = 240;

impl<'a> Line<'a> {
    pub fn is_legible(self) -> bool {
        let allowed = |&byte: &u8| byte == 9 || byte.wrapping_sub(33) < 94;
        // All bytes are tested, since many can be at once.
        self.ended && self.text.len() <= MOST_BYTES && self.text.iter().fold(true, |all, byte| all & allowed(byte))
    }

    /// The first fields, so many as there is room for, and how many there are.
    pub fn fields<const ROOM: usize>(self) -> ([&'a [u8]; ROOM], usize) {
        let mut fields: [&[u8]; ROOM] = [&[]; ROOM];
        let mut count = 0;
        for field in self.text.split(|&byte| byte == b'\t') {
            if let Some(place) = fields.get_mut(count) {
                *place = field;
            }
            count += 1;
        }
        (fields, count)
    }
}
