//! Which rules on gaps (F-2) and on rounding (F-4) a call met, so that the driver can count them and none goes untried.

use std::collections::BTreeSet;
use std::fmt;

use crate::bytes::{is_valid, put_value, read_values, value, value_bytes, word, Value};
use crate::calls::RuleInput;
use crate::mesh::{Mesh, MOST_ELEMENTS};
use crate::refusal::{Answer, Refusal};
use crate::rounds::{read_field, sums, Rule};
use crate::state::{Local, Sizes, State};
use crate::walks::{Reaches, Stencil};

/// Something that gaps or rounding make of a value, or a value that is refused and is no gap.
#[derive(Clone, Copy, Debug, PartialEq, Eq, PartialOrd, Ord)]
pub enum Met {
    /// A gap is handed on.
    Gap,
    /// All values that are handed on are gaps.
    OnlyGaps,
    HoldKept,
    /// A gap of a weight above 0 is passed over in a mean, and the cell itself has a depth.
    MeanPassed,
    /// A mean puts a depth where a gap was.
    MeanFilled,
    MeanOfGaps,
    /// Depths are there, but only those of weight 0.
    MeanOfZeros,
    ShoalestPassed,
    ShoalestFilled,
    ShoalestOfGaps,
    PointPassed,
    PointOfGaps,
    /// A mean below zero is no whole number, so that rounding shows.
    MeanRounded,
    PointRounded,
    /// Nothing but this value was wrong.
    Refused(i32),
}

/// The number after a gap's, and the one before it.
const AFTER: Met = Met::Refused(i32::MIN + 1);
const BEFORE: Met = Met::Refused(i32::MAX);

/// What a call can meet, and the driver has to.
pub fn meets(call: &str) -> &'static [Met] {
    use Met::*;
    match call {
        "round" => &[
            HoldKept,
            MeanPassed,
            MeanFilled,
            MeanOfGaps,
            MeanOfZeros,
            ShoalestPassed,
            ShoalestFilled,
            ShoalestOfGaps,
            MeanRounded,
            AFTER,
            BEFORE,
        ],
        "advance" => meets("round"),
        "start" | "write" | "take" | "collect" => &[Gap, OnlyGaps, AFTER, BEFORE],
        "points" => &[PointPassed, PointOfGaps, PointRounded, AFTER, BEFORE],
        _ => &[],
    }
}

impl fmt::Display for Met {
    fn fmt(&self, f: &mut fmt::Formatter<'_>) -> fmt::Result {
        f.write_str(match self {
            Met::Gap => "a gap",
            Met::OnlyGaps => "only gaps",
            Met::HoldKept => "a gap held",
            Met::MeanPassed => "passed over in a mean",
            Met::MeanFilled => "filled by a mean",
            Met::MeanOfGaps => "a mean of gaps",
            Met::MeanOfZeros => "only weights 0 left",
            Met::ShoalestPassed => "passed over by shoalest",
            Met::ShoalestFilled => "filled by shoalest",
            Met::ShoalestOfGaps => "shoalest of gaps",
            Met::PointPassed => "passed over at a point",
            Met::PointOfGaps => "a point with only gaps",
            Met::MeanRounded => "a mean below zero rounded",
            Met::PointRounded => "a point below zero rounded",
            &Met::Refused(number) => {
                let [a, b, c, d] = value_bytes(Some(number));
                return write!(f, "refused {a:02X} {b:02X} {c:02X} {d:02X}");
            }
        })
    }
}

pub type Meetings = BTreeSet<Met>;

/// What a round met over a field; `answer` is what it answered.
pub fn in_round(mesh: &[u8], stencil: &[u8], rule: RuleInput, field: &[u8], answer: Answer) -> Meetings {
    match answer {
        Ok(_) => at_cells(mesh, stencil, rule, field).expect("an accepted round"),
        Err(Refusal::Field) => refused(field, cells_of(mesh)),
        Err(_) => Meetings::new(),
    }
}

fn at_cells(mesh: &[u8], stencil: &[u8], rule: RuleInput, field: &[u8]) -> Answer<Meetings> {
    let mesh = Mesh::read(mesh)?;
    let stencil = Stencil::read(stencil, mesh.top())?;
    let rule = Rule::read(rule, stencil.steps())?;
    let reaches = Reaches::find(&mesh, &stencil)?;
    let old = read_field(field, mesh.cells().len())?;
    let old_of = |cell: usize| old[cell - mesh.first_cell()];
    let at = |cell: usize| {
        let reach: Vec<_> = reaches.of(cell).iter().map(|entry| (entry.layer, old_of(entry.cell))).collect();
        at_cell(&rule, old_of(cell), &reach)
    };
    Ok(mesh.cells().flat_map(at).collect())
}

fn cells_of(mesh: &[u8]) -> usize {
    Mesh::read(mesh).expect("14 comes after the tests of a mesh").cells().len()
}

/// What a start met in its field.
pub fn in_start(mesh: &[u8], field: &[u8], answer: Answer) -> Meetings {
    match answer {
        Ok(_) => handed_on(field),
        Err(Refusal::Field) => refused(field, cells_of(mesh)),
        Err(_) => Meetings::new(),
    }
}

/// What a take met in its message, or in the state as it was before.
pub fn in_take(state: &[u8], message: &[u8], answer: Answer) -> Meetings {
    match answer {
        Ok(_) => handed_on(&message[8..]),
        Err(Refusal::Message) => message.get(8..).map(|values| refused(values, word(message, 3))).unwrap_or_default(),
        Err(refusal) => in_state(state, refusal),
    }
}

/// What a write met in the message that it wrote, or in the state.
pub fn in_write(state: &[u8], out: &[u8], answer: Answer) -> Meetings {
    match answer {
        Ok(length) => handed_on(&out[8..length as usize]),
        Err(refusal) => in_state(state, refusal),
    }
}

/// What an advance met in the state as it was before.
pub fn in_advance(state: &[u8], answer: Answer) -> Meetings {
    on_state(state, answer, |view| {
        let at = |local| at_cell(&view.rule, view.value(state, local), &view.olds(state, local).collect::<Vec<_>>());
        view.owned().flat_map(at).collect()
    })
}

/// What a collect met.
pub fn in_collect(state: &[u8], answer: Answer) -> Meetings {
    on_state(state, answer, |view| {
        let owned: Vec<u8> = view.owned().flat_map(|local| value_bytes(view.value(state, local))).collect();
        handed_on(&owned)
    })
}

/// What a points call met.
pub fn in_points(state: &[u8], answer: Answer) -> Meetings {
    on_state(state, answer, |view| {
        let at = |k: usize| {
            let around: Vec<Value> = view.around(state, k).collect();
            let gaps = match around.iter().filter(|value| value.is_none()).count() {
                0 => None,
                gaps if gaps < around.len() => Some(Met::PointPassed),
                _ => Some(Met::PointOfGaps),
            };
            let rounded = is_rounded(around.iter().map(|&value| (1, value))).then_some(Met::PointRounded);
            gaps.into_iter().chain(rounded)
        };
        (1..=view.sizes.points).flat_map(at).collect()
    })
}

fn on_state(state: &[u8], answer: Answer, accepted: impl Fn(&State) -> Meetings) -> Meetings {
    match answer {
        Ok(_) => accepted(&State::read(state).expect("an accepted call is on a state")),
        Err(refusal) => in_state(state, refusal),
    }
}

/// What a rule met at a cell.
fn at_cell(rule: &Rule, own: Value, reach: &[(usize, Value)]) -> impl Iterator<Item = Met> {
    let rounded = match rule {
        Rule::Mean(weights) => is_rounded(reach.iter().map(|&(layer, old)| (weights[layer / 2], old))),
        _ => false,
    };
    gaps_at_cell(rule, own, reach).into_iter().chain(rounded.then_some(Met::MeanRounded))
}

/// Whether a mean is below zero and no whole number.
fn is_rounded(weighed: impl Iterator<Item = (usize, Value)>) -> bool {
    let (sum, weight) = sums(weighed);
    sum < 0 && sum % weight != 0
}

/// What a rule met at a cell, if gaps played a part in it.
fn gaps_at_cell(rule: &Rule, own: Value, reach: &[(usize, Value)]) -> Option<Met> {
    let [of_gaps, filled, passed] = match rule {
        Rule::Hold => return own.is_none().then_some(Met::HoldKept),
        Rule::Mean(_) => [Met::MeanOfGaps, Met::MeanFilled, Met::MeanPassed],
        Rule::Shoalest => [Met::ShoalestOfGaps, Met::ShoalestFilled, Met::ShoalestPassed],
    };
    let weighs = |layer: usize| !matches!(rule, Rule::Mean(weights) if weights[layer / 2] == 0);
    if reach.iter().all(|(_, old)| old.is_none()) {
        Some(of_gaps)
    } else if !reach.iter().any(|&(layer, old)| weighs(layer) && old.is_some()) {
        Some(Met::MeanOfZeros)
    } else if own.is_none() {
        Some(filled)
    } else {
        reach.iter().any(|&(layer, old)| weighs(layer) && old.is_none()).then_some(passed)
    }
}

/// What valid values hand on.
fn handed_on(values: &[u8]) -> Meetings {
    let values = read_values(values).expect("accepted values");
    let gaps = values.iter().filter(|value| value.is_none()).count();
    let met = [(gaps > 0).then_some(Met::Gap), (gaps > 0 && gaps == values.len()).then_some(Met::OnlyGaps)];
    met.into_iter().flatten().collect()
}

/// The value that alone is wrong in a field or message that is refused.
fn refused(values: &[u8], count: usize) -> Meetings {
    if values.len() != 4 * count {
        return Meetings::new();
    }
    wrong_values(values.chunks_exact(4).map(|four| value(four, 0)))
}

/// The same of a state, if all else in it is right.
fn in_state(state: &[u8], refusal: Refusal) -> Meetings {
    let sizes = Sizes::read(state);
    if refusal != Refusal::State || sizes.held > MOST_ELEMENTS || state.len() < sizes.length() {
        return Meetings::new();
    }
    let places = (1..=sizes.held).map(|local| sizes.value(Local(local)));
    let mut mended = state.to_vec();
    for at in places.clone() {
        if !is_valid(value(state, at)) {
            put_value(&mut mended, at, Some(0));
        }
    }
    if State::read(&mended).is_err() {
        return Meetings::new();
    }
    wrong_values(places.map(|at| value(state, at)))
}

fn wrong_values(values: impl Iterator<Item = Value>) -> Meetings {
    let wrong: BTreeSet<i32> = values.filter(|&value| !is_valid(value)).flatten().collect();
    match wrong.first() {
        Some(&only) if wrong.len() == 1 => Meetings::from([Met::Refused(only)]),
        _ => Meetings::new(),
    }
}
