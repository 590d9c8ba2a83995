//! What is told of a refused sheet.

#[derive(Clone, Copy)]
pub enum Sheet {
    Depot,
    Plan,
}

/// What can be wrong with a field, the lowest first.
#[derive(Clone, Copy, PartialEq, Eq, PartialOrd, Ord)]
pub enum Trouble {
    NotItsForm,
    NotListed,
    Twice,
    AlwaysTrue,
}

/// An effect of a step's move: the place of the move, and the effect counted within it.
#[derive(Clone, Copy)]
pub struct EffectAt {
    pub place: usize,
    pub effect: usize,
}

#[derive(Clone, Copy)]
pub enum Reason {
    TooLarge,
    Illegible,
    WrongLetter,
    FieldCount,
    Field { trouble: Trouble, field: usize },
    Full,
    NoGoal,
    NeedFalse { place: usize },
    Contradictory { setting: EffectAt, strike: EffectAt },
    Disturbed { set: usize, place: usize, part: usize },
    GoalFalse,
}

#[derive(Clone, Copy)]
pub struct Fault {
    pub sheet: Sheet,
    pub line: usize,
    pub reason: Reason,
}

impl Trouble {
    pub fn at(self, field: usize) -> Reason {
        Reason::Field { trouble: self, field }
    }
}

impl Reason {
    pub fn number(self) -> usize {
        match self {
            Reason::TooLarge => 1,
            Reason::Illegible => 2,
            Reason::WrongLetter => 3,
            Reason::FieldCount => 4,
            Reason::Field { trouble, .. } => 5 + trouble as usize,
            Reason::Full => 9,
            Reason::NoGoal => 10,
            Reason::NeedFalse { .. } => 14,
            Reason::Contradictory { .. } => 15,
            Reason::Disturbed { .. } => 16,
            Reason::GoalFalse => 17,
        }
    }

    pub fn details(self) -> [usize; 4] {
        match self {
            Reason::Field { field, .. } => [field, 0, 0, 0],
            Reason::NeedFalse { place } => [place, 0, 0, 0],
            Reason::Contradictory { setting, strike } => [setting.place, setting.effect, strike.place, strike.effect],
            Reason::Disturbed { set, place, part } => [set, place, part, 0],
            _ => [0; 4],
        }
    }

    /// Whether the faulty line is shown.
    pub fn shows_line(self) -> bool {
        !matches!(self, Reason::TooLarge | Reason::Illegible | Reason::NoGoal | Reason::GoalFalse)
    }
}
