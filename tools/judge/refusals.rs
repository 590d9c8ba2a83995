//! What is told of a sheet or of a call that is refused.

#[derive(Clone, Copy, PartialEq, Eq, Debug)]
pub enum Sheet {
    Depot,
    Plan,
}

impl Sheet {
    pub fn word(self) -> &'static str {
        match self {
            Sheet::Depot => "depot",
            Sheet::Plan => "plan",
        }
    }
}

/// An effect of a move of a step: the place of the move, and the effect counted within it.
#[derive(Clone, Copy, PartialEq, Eq, PartialOrd, Ord, Debug)]
pub struct EffectAt {
    pub place: usize,
    pub effect: usize,
}

#[derive(Clone, Copy, PartialEq, Eq, Debug)]
pub enum Reason {
    TooLarge,
    Illegible,
    WrongLetter,
    FieldCount,
    NotItsForm { field: usize },
    NotListed { field: usize },
    Twice { field: usize },
    AlwaysTrue { field: usize },
    Full,
    NoGoal,
    EmptyDepot,
    MoveCount,
    NoSuchMove { place: usize },
    SameMove { place: usize },
    NeedFalse { place: usize },
    Contradictory { setting: EffectAt, strike: EffectAt },
    Disturbed { set: usize, place: usize, part: usize },
    GoalFalse,
    NoSuchNumber,
}

impl Reason {
    pub fn number(self) -> usize {
        match self {
            Reason::TooLarge => 1,
            Reason::Illegible => 2,
            Reason::WrongLetter => 3,
            Reason::FieldCount => 4,
            Reason::NotItsForm { .. } => 5,
            Reason::NotListed { .. } => 6,
            Reason::Twice { .. } => 7,
            Reason::AlwaysTrue { .. } => 8,
            Reason::Full => 9,
            Reason::NoGoal | Reason::EmptyDepot => 10,
            Reason::MoveCount => 11,
            Reason::NoSuchMove { .. } => 12,
            Reason::SameMove { .. } => 13,
            Reason::NeedFalse { .. } => 14,
            Reason::Contradictory { .. } => 15,
            Reason::Disturbed { .. } => 16,
            Reason::GoalFalse => 17,
            Reason::NoSuchNumber => 18,
        }
    }

    pub fn details(self) -> [usize; 4] {
        match self {
            Reason::NotItsForm { field }
            | Reason::NotListed { field }
            | Reason::Twice { field }
            | Reason::AlwaysTrue { field } => [field, 0, 0, 0],
            Reason::NoSuchMove { place } | Reason::SameMove { place } | Reason::NeedFalse { place } => [place, 0, 0, 0],
            Reason::Contradictory { setting, strike } => [setting.place, setting.effect, strike.place, strike.effect],
            Reason::Disturbed { set, place, part } => [set, place, part, 0],
            _ => [0; 4],
        }
    }

    /// Of two reasons on one line the one with the lower number is told, then the one with the lower details.
    pub fn lower(self, other: Reason) -> Reason {
        if (other.number(), other.details()) < (self.number(), self.details()) {
            other
        } else {
            self
        }
    }

    /// The reason as a program is told it: `NO`, the number and the four details, parted by `gap`.
    pub fn told(self, gap: &str) -> String {
        let details = self.details().map(|detail| detail.to_string());
        format!("NO{gap}{}{gap}{}", self.number(), details.join(gap))
    }
}

/// A refusal of a sheet: of which, at which line (0 for the whole sheet), and why.
#[derive(Clone, Copy, PartialEq, Eq, Debug)]
pub struct Fault {
    pub sheet: Sheet,
    pub line: usize,
    pub reason: Reason,
}

impl Fault {
    pub fn on(sheet: Sheet, line: usize, reason: Reason) -> Fault {
        Fault { sheet, line, reason }
    }
}
