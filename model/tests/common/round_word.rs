//! The round of a part state.

use jemlayos_model::bytes::{put_word, word};

/// Puts another round into a state. Its word comes after the lists, whose length is word 0.
pub fn put_round(state: &mut [u8], round: usize) {
    let place = word(state, 0);
    put_word(state, place, round);
}
