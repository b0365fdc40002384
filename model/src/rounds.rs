//! Rules, fields, the undivided round and the values at the points (numbers 11 and 14).

use crate::bytes::{needed, put_value, read_values, word, Value};
use crate::calls::RuleInput;
use crate::mesh::Mesh;
use crate::refusal::{Answer, Refusal};
use crate::walks::{Reaches, Stencil};

pub const MOST_WEIGHT: usize = 15;

/// An accepted rule.
pub enum Rule {
    Hold,
    /// A weight for each even layer.
    Mean(Vec<usize>),
    Shoalest,
}

impl Rule {
    pub fn read(input: RuleInput, stencil_steps: usize) -> Answer<Rule> {
        match input.kind {
            0 if input.weights.is_empty() => Ok(Rule::Hold),
            1 if input.weights.len() == stencil_steps + 2 => {
                let weights: Vec<usize> = (0..=stencil_steps / 2).map(|i| word(input.weights, i)).collect();
                if weights[0] == 0 || weights.iter().any(|&v| v > MOST_WEIGHT) {
                    return Err(Refusal::Rule);
                }
                Ok(Rule::Mean(weights))
            }
            2 if input.weights.is_empty() => Ok(Rule::Shoalest),
            _ => Err(Refusal::Rule),
        }
    }

    /// The new value of a cell from the layers and old values of its reach, among them its own. Hold keeps a gap; the others
    /// pass over gaps.
    pub fn new_value(&self, own: Value, reach: impl Iterator<Item = (usize, Value)>) -> Value {
        match self {
            Rule::Hold => own,
            Rule::Mean(weights) => mean(reach.map(|(layer, old)| (weights[layer / 2], old))),
            Rule::Shoalest => reach.filter_map(|(_, old)| old).min(),
        }
    }
}

/// The sum of values with their weights, and the sum of these weights. Gaps are passed over in both.
pub fn sums(weighed: impl Iterator<Item = (usize, Value)>) -> (i64, i64) {
    let (mut sum, mut weight) = (0, 0);
    for (v, value) in weighed {
        if let Some(depth) = value {
            sum += v as i64 * i64::from(depth);
            weight += v as i64;
        }
    }
    (sum, weight)
}

/// The mean of values with their weights, a gap where no weight above 0 is left. It is the greatest whole number not above
/// the quotient (F-4); a mean of depths is a depth.
fn mean(weighed: impl Iterator<Item = (usize, Value)>) -> Value {
    let (sum, weight) = sums(weighed);
    (weight > 0).then(|| sum.div_euclid(weight) as i32)
}

/// The mean with all weights 1, rounded like the rule.
pub fn plain_mean(values: impl Iterator<Item = Value>) -> Value {
    mean(values.map(|value| (1, value)))
}

/// The value at each point of the mesh, from point 1 on: the plain mean of the values of the cells incident to it.
pub fn undivided_points(mesh: &Mesh, field: &[Value]) -> Vec<Value> {
    let values_at = |point: usize| mesh.cells_at(point).iter().map(|&cell| field[cell - mesh.first_cell()]);
    mesh.elements(0).map(|point| plain_mean(values_at(point))).collect()
}

/// The values of a field, one for each cell in rising number.
pub fn read_field(bytes: &[u8], cells: usize) -> Answer<Vec<Value>> {
    read_values(bytes).filter(|values| values.len() == cells).ok_or(Refusal::Field)
}

/// The field after one round of the rule at every cell; the count of its values.
pub fn round(mesh: &[u8], stencil: &[u8], rule: RuleInput, field: &[u8], out: &mut [u8]) -> Answer {
    let mesh = Mesh::read(mesh)?;
    let stencil = Stencil::read(stencil, mesh.top())?;
    let rule = Rule::read(rule, stencil.steps())?;
    let reaches = Reaches::find(&mesh, &stencil)?;
    let cells = mesh.cells();
    let old = read_field(field, cells.len())?;
    let out = needed(out, 4 * cells.len())?;
    let old_of = |cell: usize| old[cell - mesh.first_cell()];
    for (place, cell) in cells.clone().enumerate() {
        let reach = reaches.of(cell).iter();
        let new = rule.new_value(old_of(cell), reach.map(|entry| (entry.layer, old_of(entry.cell))));
        put_value(out, 4 * place, new);
    }
    Ok(cells.len() as u32)
}
