//! Rules and values (numbers 11 and 14), in arrays of a fixed length.

use crate::bytes::{Value, DEEPEST, GAP};
use crate::calls::RuleInput;
use crate::refusal::{Answer, Refusal};
use crate::rounds::MOST_WEIGHT;

pub enum Rule {
    Hold,
    /// A weight for each even layer, with as many more places as half a layer's last four bits can name.
    Mean([i32; 8]),
    Shoalest,
}

impl Rule {
    pub fn read(input: RuleInput, steps: usize) -> Answer<Rule> {
        match input.kind {
            0 if input.weights.is_empty() => Ok(Rule::Hold),
            1 if input.weights.len() == steps + 2 => {
                let mut weights = [0; 8];
                for (weight, &bytes) in weights.iter_mut().zip(input.weights.as_chunks().0) {
                    *weight = u16::from_be_bytes(bytes).into();
                }
                if weights[0] == 0 || weights.iter().any(|&weight| weight > MOST_WEIGHT as i32) {
                    return Err(Refusal::Rule);
                }
                Ok(Rule::Mean(weights))
            }
            2 if input.weights.is_empty() => Ok(Rule::Shoalest),
            _ => Err(Refusal::Rule),
        }
    }

    /// The new value of a cell from the layers and old values of its reach, among them its own. `GAPS` is false where none of
    /// all values is a gap, so that none is looked for.
    #[inline(always)]
    pub fn new_value<const GAPS: bool>(&self, own: [u8; 4], reach: impl Iterator<Item = (u16, [u8; 4])>) -> Value {
        match self {
            Rule::Hold => value_of::<GAPS>(own),
            Rule::Mean(weights) => {
                let (mut sum, mut weight) = (0, 0);
                for (layer, old) in reach {
                    if let Some(depth) = value_of::<GAPS>(old) {
                        let v = weights[usize::from(layer / 2 % 8)];
                        sum += i64::from(v) * i64::from(depth);
                        weight += v;
                    }
                }
                quotient(sum, weight)
            }
            Rule::Shoalest => reach.filter_map(|(_, old)| value_of::<GAPS>(old)).min(),
        }
    }
}

/// The greatest whole number not above the quotient (F-4). Numbers of 32 bits are divided faster, and most sums fit. A gap
/// where nothing was weighed.
#[inline(always)]
fn quotient(sum: i64, weight: i32) -> Value {
    if weight == 0 {
        return None;
    }
    Some(i32::try_from(sum).map_or_else(|_| sum.div_euclid(weight.into()) as i32, |sum| sum.div_euclid(weight)))
}

/// The mean with all weights 1.
#[inline(always)]
pub fn plain_mean<const GAPS: bool>(values: impl ExactSizeIterator<Item = [u8; 4]>) -> Value {
    let (mut sum, mut count) = (0, values.len() as i32);
    for value in values {
        match value_of::<GAPS>(value) {
            Some(depth) => sum += i64::from(depth),
            None => count -= 1,
        }
    }
    quotient(sum, count)
}

/// What four bytes stand for.
#[inline(always)]
fn value_of<const GAPS: bool>(bytes: [u8; 4]) -> Value {
    (!GAPS || bytes != GAP).then_some(i32::from_be_bytes(bytes))
}

/// Whether each is a depth in range or a gap.
pub fn values_fit(values: &[[u8; 4]]) -> bool {
    let is_depth = |bytes: [u8; 4]| i32::from_be_bytes(bytes).wrapping_add(DEEPEST) as u32 <= 2 * DEEPEST as u32;
    values.iter().fold(true, |all, &bytes| all & (is_depth(bytes) | (bytes == GAP)))
}

pub fn has_gap(values: &[[u8; 4]]) -> bool {
    values.iter().fold(false, |any, &bytes| any | (bytes == GAP))
}

/// The values of a field of that many cells.
pub fn read_field(bytes: &[u8], cells: u16) -> Answer<&[[u8; 4]]> {
    let (values, []) = bytes.as_chunks() else { return Err(Refusal::Field) };
    if values.len() != usize::from(cells) || !values_fit(values) {
        return Err(Refusal::Field);
    }
    Ok(values)
}
