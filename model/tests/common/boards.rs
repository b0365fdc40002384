//! The two boards of the examples: the five cells in two parts, and what one board writes to the other.

use jemlayos_model::bytes::{values, words, Value};
use jemlayos_model::calls::{under_test, PartInput, RuleInput};

use super::meshes::five_cells;
use super::states;

/// The part map of the five cells.
pub const OWNERS: [u8; 5] = [1, 1, 1, 2, 2];
/// From cell to cell through points.
pub const STENCIL: [u8; 3] = [1, 0, 1];
/// The field that the examples start from.
pub const FIELD: [Value; 5] = [Some(100), Some(200), Some(300), Some(400), Some(500)];

/// A rule by its kind and its weights, which only a mean has.
pub type Rule = (u32, &'static [usize]);

/// The mean of the examples.
pub const MEAN: Rule = (1, &[2, 1]);

/// The inputs that name a part of the five cells.
pub fn part_input(mesh: &[u8], part: u32) -> PartInput<'_> {
    PartInput { mesh, parts: 2, owners: &OWNERS, part, stencil: &STENCIL }
}

/// The state of a part of any mesh as it is started.
pub fn started(input: PartInput, (kind, weights): Rule, field: &[Value]) -> Vec<u8> {
    states::started(input, RuleInput { kind, weights: &words(weights) }, &values(field))
}

/// The state of one board as it is started.
pub fn board(part: u32, rule: Rule, field: [Value; 5]) -> Vec<u8> {
    started(part_input(&five_cells(), part), rule, &field)
}

/// The states of both boards as they are started.
pub fn boards(rule: Rule, field: [Value; 5]) -> [Vec<u8>; 2] {
    [1, 2].map(|part| board(part, rule, field))
}

/// The message that a state writes to a part. It has one value, and a buffer of its 12 bytes is enough.
pub fn written(state: &mut [u8], to: u32) -> [u8; 12] {
    let mut message = [0xee; 12];
    assert_eq!(under_test().write(state, to, &mut message), Ok(12));
    message
}
