//! Where the lists of a part state stand, as docs/LAYOUTS.md has them.

use jemlayos_model::bytes::word;

use super::words::read_words;

/// The lengths of the lists of a state.
pub struct Lengths {
    /// O, the count of owned cells.
    pub owned: usize,
    /// H, the count of held cells.
    pub held: usize,
    /// Q, the count of the entries of all reaches.
    pub reached: usize,
    /// X, the count of the export entries.
    pub exports: usize,
}

impl Lengths {
    /// The lengths that a state has in its words.
    pub fn of(state: &[u8]) -> Lengths {
        let (owned, held, exports) = (word(state, 11), word(state, 27), word(state, 44));
        Lengths { owned, held, reached: word(state, 45 + held + owned), exports }
    }

    /// The word that the export entries begin at.
    pub fn first_export(&self) -> usize {
        46 + self.held + self.owned + 2 * self.reached
    }

    /// The word that the points begin at, which is their count.
    pub fn point_count(&self) -> usize {
        self.first_export() + self.exports
    }
}

/// The words of a state from its points on: their count, their numbers, their ends and the cells at them.
pub fn point_words(state: &[u8]) -> Vec<usize> {
    read_words(state, Lengths::of(state).point_count()..word(state, 0))
}
