//! Formulas: read once, then asked of the facts that stand, or of those after every set of places.

use super::facts::{bits, Facts};
use super::refusals::Trouble;
use super::sets::Sets;

/// A part of a formula, before its own parts. Brackets have the place where what is in them ends.
#[derive(Clone, Copy)]
enum Node {
    Fact(usize),
    Not,
    All { end: usize },
}

/// How a formula is asked: as facts that are wanted and others that are not, or node by node.
#[derive(Clone, Copy)]
enum Shape {
    Literals { wanted: u128, unwanted: u128, negated: bool },
    Tree,
}

#[derive(Clone, Copy)]
pub struct Formula {
    first: usize,
    shape: Shape,
    facts: u128,
}

/// The formulas of a depot in their order, and the nodes of all of them; so many nodes, so large they are.
pub struct Formulas {
    nodes: Vec<Node>,
    listed: Vec<Formula>,
}

/// The facts that change after some set, and the sets after which each of them stands.
pub struct After {
    pub changed: u128,
    pub stands: [Sets; 128],
}

const MOST_DEPTH: usize = 8;

struct Reader<'f> {
    facts: &'f Facts<'f>,
    text: &'f [u8],
    nodes: &'f mut Vec<Node>,
    has_unlisted: bool,
}

impl Reader<'_> {
    fn take(&mut self, byte: u8) -> bool {
        match self.text.split_first() {
            Some((&first, rest)) if first == byte => {
                self.text = rest;
                true
            }
            _ => false,
        }
    }

    fn formula(&mut self, depth: usize) -> Result<(), Trouble> {
        if self.take(b'!') {
            self.nodes.push(Node::Not);
            return self.formula(depth.checked_sub(1).ok_or(Trouble::NotItsForm)?);
        }
        if self.take(b'(') {
            return self.brackets(depth.checked_sub(1).ok_or(Trouble::NotItsForm)?);
        }
        self.fact()
    }

    fn brackets(&mut self, depth: usize) -> Result<(), Trouble> {
        let here = self.nodes.len();
        self.nodes.push(Node::All { end: here + 1 });
        if self.take(b')') {
            return Ok(());
        }
        loop {
            self.formula(depth)?;
            if self.take(b')') {
                self.nodes[here] = Node::All { end: self.nodes.len() };
                return Ok(());
            }
            if !self.take(b'&') {
                return Err(Trouble::NotItsForm);
            }
        }
    }

    fn fact(&mut self) -> Result<(), Trouble> {
        let is_mark = |byte: &u8| matches!(byte, b'!' | b'(' | b')' | b'&');
        let length = self.text.iter().position(is_mark).unwrap_or(self.text.len());
        let (fact, rest) = self.text.split_at(length);
        self.text = rest;
        match self.facts.listed(fact) {
            Ok(fact) => self.nodes.push(Node::Fact(fact)),
            Err(Trouble::NotItsForm) => return Err(Trouble::NotItsForm),
            Err(_) => self.has_unlisted = true,
        }
        Ok(())
    }
}

impl Formulas {
    pub fn new() -> Formulas {
        Formulas { nodes: Vec::with_capacity(1_280), listed: Vec::with_capacity(321) }
    }

    pub fn len(&self) -> usize {
        self.listed.len()
    }

    /// The sizes of all formulas that were read, added up.
    pub fn sizes(&self) -> usize {
        self.nodes.len()
    }

    pub fn get(&self, number: usize) -> &Formula {
        &self.listed[number]
    }

    pub fn read(&mut self, facts: &Facts, text: &[u8]) -> Result<(), Trouble> {
        let first = self.nodes.len();
        let mut reader = Reader { facts, text, nodes: &mut self.nodes, has_unlisted: false };
        reader.formula(MOST_DEPTH)?;
        if !reader.text.is_empty() {
            return Err(Trouble::NotItsForm);
        }
        if reader.has_unlisted {
            return Err(Trouble::NotListed);
        }
        let facts = self.nodes[first..].iter().fold(0, |sum, node| match node {
            Node::Fact(fact) => sum | 1 << fact,
            _ => sum,
        });
        let shape = self.shape(first);
        self.listed.push(Formula { first, shape, facts });
        Ok(())
    }

    fn shape(&self, first: usize) -> Shape {
        let nots = self.nodes[first..].iter().take_while(|node| matches!(node, Node::Not)).count();
        let mut literals = (0, 0);
        match self.gather(first + nots, true, &mut literals) {
            Some(_) => Shape::Literals { wanted: literals.0, unwanted: literals.1, negated: nots % 2 == 1 },
            None => Shape::Tree,
        }
    }

    /// Adds the facts that a part wants and does not want, if it comes to that, and tells where the part ends.
    fn gather(&self, at: usize, wants: bool, literals: &mut (u128, u128)) -> Option<usize> {
        match self.nodes[at] {
            Node::Fact(fact) => {
                *(if wants { &mut literals.0 } else { &mut literals.1 }) |= 1 << fact;
                Some(at + 1)
            }
            Node::Not => self.gather(at + 1, !wants, literals),
            Node::All { end } if wants => {
                let mut at = at + 1;
                while at < end {
                    at = self.gather(at, wants, literals)?;
                }
                Some(end)
            }
            Node::All { .. } => None,
        }
    }

    /// Whether a formula is true where some facts stand.
    pub fn is_true(&self, formula: &Formula, standing: u128) -> bool {
        match formula.shape {
            Shape::Literals { wanted, unwanted, negated } => {
                (standing & wanted == wanted && standing & unwanted == 0) != negated
            }
            Shape::Tree => self.truth(formula.first, standing).0,
        }
    }

    fn truth(&self, at: usize, standing: u128) -> (bool, usize) {
        match self.nodes[at] {
            Node::Fact(fact) => (standing >> fact & 1 == 1, at + 1),
            Node::Not => {
                let (truth, next) = self.truth(at + 1, standing);
                (!truth, next)
            }
            Node::All { end } => {
                let mut at = at + 1;
                while at < end {
                    let (truth, next) = self.truth(at, standing);
                    if !truth {
                        return (false, end);
                    }
                    at = next;
                }
                (true, end)
            }
        }
    }

    /// The sets after which a formula reads otherwise than at the start.
    pub fn otherwise(&self, formula: &Formula, standing: u128, truth: bool, after: &After) -> Sets {
        if formula.facts & after.changed == 0 {
            return Sets::NONE;
        }
        let read = match formula.shape {
            Shape::Literals { wanted, unwanted, negated } => {
                let stays = !after.changed;
                if wanted & stays & !standing != 0 || unwanted & stays & standing != 0 {
                    return Sets::NONE;
                }
                let wanted = bits(wanted & after.changed).map(|fact| after.stands[fact]);
                let unwanted = bits(unwanted & after.changed).map(|fact| !after.stands[fact]);
                wanted.chain(unwanted).fold(Sets::ALL, |sets, more| sets & more) ^ Sets::all_if(negated)
            }
            Shape::Tree => self.reading(formula.first, standing, after).0,
        };
        read ^ Sets::all_if(truth)
    }

    fn reading(&self, at: usize, standing: u128, after: &After) -> (Sets, usize) {
        match self.nodes[at] {
            Node::Fact(fact) if after.changed >> fact & 1 == 1 => (after.stands[fact], at + 1),
            Node::Fact(fact) => (Sets::all_if(standing >> fact & 1 == 1), at + 1),
            Node::Not => {
                let (sets, next) = self.reading(at + 1, standing, after);
                (!sets, next)
            }
            Node::All { end } => {
                let (mut sets, mut at) = (Sets::ALL, at + 1);
                while at < end {
                    let (more, next) = self.reading(at, standing, after);
                    sets = sets & more;
                    at = next;
                }
                (sets, end)
            }
        }
    }
}
