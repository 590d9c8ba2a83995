//! Sets of places, all at once: one bit for each of the 256 set numbers.

use std::ops::{BitAnd, BitOr, BitXor, Not};

#[derive(Clone, Copy)]
pub struct Sets([u64; 4]);

const MOST_PLACES: usize = 8;

/// For each place the sets that it is in.
const WITH_PLACE: [Sets; MOST_PLACES] = [
    Sets([0xaaaa_aaaa_aaaa_aaaa; 4]),
    Sets([0xcccc_cccc_cccc_cccc; 4]),
    Sets([0xf0f0_f0f0_f0f0_f0f0; 4]),
    Sets([0xff00_ff00_ff00_ff00; 4]),
    Sets([0xffff_0000_ffff_0000; 4]),
    Sets([0xffff_ffff_0000_0000; 4]),
    Sets([0, !0, 0, !0]),
    Sets([0, 0, !0, !0]),
];

impl Sets {
    pub const NONE: Sets = Sets([0; 4]);
    pub const ALL: Sets = Sets([!0; 4]);

    pub fn with(place: usize) -> Sets {
        WITH_PLACE[place]
    }

    /// All sets, or none.
    pub fn all_if(yes: bool) -> Sets {
        if yes {
            Sets::ALL
        } else {
            Sets::NONE
        }
    }

    /// The sets of the first places of a step, so many as it has.
    pub fn of_places(count: usize) -> Sets {
        (count..MOST_PLACES).fold(Sets::ALL, |sets, place| sets & !Sets::with(place))
    }

    /// The lowest number of a set.
    pub fn lowest(self) -> Option<usize> {
        let word = self.0.iter().position(|&word| word != 0)?;
        Some(word * 64 + self.0[word].trailing_zeros() as usize)
    }
}

impl BitAnd for Sets {
    type Output = Sets;

    fn bitand(self, other: Sets) -> Sets {
        Sets(std::array::from_fn(|word| self.0[word] & other.0[word]))
    }
}

impl BitOr for Sets {
    type Output = Sets;

    fn bitor(self, other: Sets) -> Sets {
        Sets(std::array::from_fn(|word| self.0[word] | other.0[word]))
    }
}

impl BitXor for Sets {
    type Output = Sets;

    fn bitxor(self, other: Sets) -> Sets {
        Sets(std::array::from_fn(|word| self.0[word] ^ other.0[word]))
    }
}

impl Not for Sets {
    type Output = Sets;

    fn not(self) -> Sets {
        Sets(self.0.map(|word| !word))
    }
}
