//! An input cut into pairs of sheets.

/// The depot sheet and the plan sheet.
pub type Pair<'a> = (&'a [u8], &'a [u8]);

pub struct Pairs<'a> {
    rest: &'a [u8],
}

impl<'a> Pairs<'a> {
    pub fn of(input: &'a [u8]) -> Pairs<'a> {
        Pairs { rest: input }
    }

    fn first(&mut self) -> Result<Pair<'a>, &'static str> {
        let no_counts = "it does not begin with a line `pair D P`";
        let end = self.rest.iter().position(|&byte| byte == b'\n').ok_or(no_counts)?;
        let (depot, plan) = counts(&self.rest[..end]).ok_or(no_counts)?;
        let too_short = "its sheets have fewer bytes than are counted";
        let (depot, rest) = self.rest[end + 1..].split_at_checked(depot).ok_or(too_short)?;
        let (plan, rest) = rest.split_at_checked(plan).ok_or(too_short)?;
        self.rest = rest;
        Ok((depot, plan))
    }
}

fn counts(line: &[u8]) -> Option<(usize, usize)> {
    let (depot, plan) = std::str::from_utf8(line).ok()?.strip_prefix("pair ")?.split_once(' ')?;
    Some((count(depot)?, count(plan)?))
}

fn count(word: &str) -> Option<usize> {
    word.parse().ok().filter(|_| !word.starts_with('+'))
}

impl<'a> Iterator for Pairs<'a> {
    type Item = Result<Pair<'a>, &'static str>;

    fn next(&mut self) -> Option<Self::Item> {
        if self.rest.is_empty() {
            return None;
        }
        let first = self.first();
        if first.is_err() {
            self.rest = &[];
        }
        Some(first)
    }
}
