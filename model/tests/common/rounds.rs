//! Fields of the five cells: what the undivided round gives, and what is collected from the two boards.

use jemlayos_model::bytes::{read_values, values, words, Value};
use jemlayos_model::calls::{under_test, RuleInput};

use super::boards::{Rule, STENCIL};
use super::meshes::five_cells;

/// The field after one undivided round.
pub fn round((kind, weights): Rule, field: [Value; 5]) -> [Value; 5] {
    let rule = RuleInput { kind, weights: &words(weights) };
    let mut out = [0xee; 20];
    assert_eq!(under_test().round(&five_cells(), &STENCIL, rule, &values(&field), &mut out), Ok(5));
    read_values(&out).unwrap().try_into().unwrap()
}

/// The field that both boards together collect at a round.
pub fn collected(boards: &[Vec<u8>; 2], round: u32) -> [Value; 5] {
    let mut field = [0xee; 20];
    assert_eq!(under_test().collect(&boards[0], round, &mut field), Ok(3));
    assert_eq!(under_test().collect(&boards[1], round, &mut field), Ok(2));
    read_values(&field).unwrap().try_into().unwrap()
}
