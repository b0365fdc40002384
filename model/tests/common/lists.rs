//! The lists of a part.

use jemlayos_model::calls::{under_test, List, PartInput};

use super::words::read_words;

/// The elements of a list, in the order given. An output of just their bytes is enough, and no byte after them is changed.
pub fn listed(input: PartInput, list: List) -> Vec<usize> {
    let mut out = vec![0xee; 8_000];
    let count = under_test().list(input, list, &mut out).unwrap() as usize;
    assert!(out[2 * count..].iter().all(|&byte| byte == 0xee));
    let mut exact = vec![0; 2 * count];
    assert_eq!(under_test().list(input, list, &mut exact), Ok(count as u32));
    assert_eq!(exact, out[..2 * count]);
    read_words(&exact, 0..count)
}
