//! The values at the points of a part, and the exchange of messages that comes before them.

use jemlayos_model::bytes::{value, word, Value};
use jemlayos_model::calls::under_test;
use jemlayos_model::refusal::Refusal;

use super::boards::written;

/// Each of the two boards takes the message of the other.
pub fn exchange(boards: &mut [Vec<u8>; 2]) {
    for (from, to) in [(0, 1), (1, 0)] {
        let message = written(&mut boards[from], to as u32 + 1);
        under_test().take(&mut boards[to], &message).unwrap();
    }
}

/// The points that an accepted call gives, with their values. An output of just their bytes is enough, and one byte less
/// is not.
pub fn points(state: &[u8]) -> Vec<(usize, Value)> {
    let mut out = vec![0xee; 6 * 2_000];
    let count = under_test().points(state, &mut out).unwrap() as usize;
    assert!(out[6 * count..].iter().all(|&byte| byte == 0xee));
    let mut exact = vec![0; 6 * count];
    assert_eq!(under_test().points(state, &mut exact), Ok(count as u32));
    assert_eq!(exact, out[..6 * count]);
    if let Some(short) = (6 * count).checked_sub(1) {
        assert_eq!(under_test().points(state, &mut exact[..short]), Err(Refusal::Output));
    }
    exact.chunks(6).map(|six| (word(six, 0), value(six, 2))).collect()
}
