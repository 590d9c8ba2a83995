//! Formulas: how they are written, their depth, size and truth.

/// A formula with something of type F for each fact: first its text, then its number.
pub enum Formula<F> {
    Fact(F),
    Not(Box<Formula<F>>),
    All(Vec<Formula<F>>),
}

pub const MOST_DEPTH: usize = 8;

fn is_mark(byte: &u8) -> bool {
    b"!()&".contains(byte)
}

/// The formula that the whole text is, however deep.
pub fn parse(text: &[u8]) -> Option<Formula<&[u8]>> {
    match beginning(text)? {
        (formula, []) => Some(formula),
        _ => None,
    }
}

/// The formula that a text begins with, and what follows it.
fn beginning(text: &[u8]) -> Option<(Formula<&[u8]>, &[u8])> {
    match text {
        [b'!', rest @ ..] => {
            let (inner, rest) = beginning(rest)?;
            Some((Formula::Not(Box::new(inner)), rest))
        }
        [b'(', b')', rest @ ..] => Some((Formula::All(Vec::new()), rest)),
        [b'(', rest @ ..] => inside_brackets(rest),
        _ => {
            let length = text.iter().position(is_mark).unwrap_or(text.len());
            let (fact, rest) = text.split_at(length);
            (length > 0).then_some((Formula::Fact(fact), rest))
        }
    }
}

/// What stands behind an opening bracket that is not closed at once: formulas parted by `&`, and the closing bracket.
fn inside_brackets(mut text: &[u8]) -> Option<(Formula<&[u8]>, &[u8])> {
    let mut formulas = Vec::new();
    loop {
        let (formula, rest) = beginning(text)?;
        formulas.push(formula);
        match rest {
            [b'&', rest @ ..] => text = rest,
            [b')', rest @ ..] => return Some((Formula::All(formulas), rest)),
            _ => return None,
        }
    }
}

impl<F> Formula<F> {
    pub fn depth(&self) -> usize {
        match self {
            Formula::Fact(_) => 0,
            Formula::Not(inner) => 1 + inner.depth(),
            Formula::All(formulas) => 1 + formulas.iter().map(Formula::depth).max().unwrap_or(0),
        }
    }

    pub fn size(&self) -> usize {
        match self {
            Formula::Fact(_) => 1,
            Formula::Not(inner) => 1 + inner.size(),
            Formula::All(formulas) => 1 + formulas.iter().map(Formula::size).sum::<usize>(),
        }
    }

    /// The facts in the order in which they are written.
    pub fn facts(&self) -> Vec<&F> {
        match self {
            Formula::Fact(fact) => vec![fact],
            Formula::Not(inner) => inner.facts(),
            Formula::All(formulas) => formulas.iter().flat_map(Formula::facts).collect(),
        }
    }

    /// The same formula with each fact turned into another value.
    pub fn map<G>(&self, turn: &impl Fn(&F) -> G) -> Formula<G> {
        match self {
            Formula::Fact(fact) => Formula::Fact(turn(fact)),
            Formula::Not(inner) => Formula::Not(Box::new(inner.map(turn))),
            Formula::All(formulas) => Formula::All(formulas.iter().map(|formula| formula.map(turn)).collect()),
        }
    }

    pub fn is_true(&self, stands: &impl Fn(&F) -> bool) -> bool {
        match self {
            Formula::Fact(fact) => stands(fact),
            Formula::Not(inner) => !inner.is_true(stands),
            Formula::All(formulas) => formulas.iter().all(|formula| formula.is_true(stands)),
        }
    }
}
