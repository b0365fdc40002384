//! Words, read from bytes.

use std::ops::Range;

use jemlayos_model::bytes::word;

/// The words at these places.
pub fn read_words(bytes: &[u8], places: Range<usize>) -> Vec<usize> {
    places.map(|place| word(bytes, place)).collect()
}
