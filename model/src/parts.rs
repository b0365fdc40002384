//! The calls over a part: state size, start, write, take, advance, collect and points (numbers 21 to 29).

use crate::bytes::{needed, put_value, put_word, values, words, Value};
use crate::calls::{PartInput, RuleInput};
use crate::mesh::Mesh;
use crate::messages::Message;
use crate::refusal::{Answer, Refusal};
use crate::rounds::{read_field, Rule};
use crate::split::{PartMap, Split, MOST_PARTS};
use crate::state::{Local, Sizes, State, LAST_ROUND};
use crate::walks::Stencil;

/// The lists of one part, from which its state is made.
struct PartLists {
    part: usize,
    /// Held cells by local number.
    globals: Vec<usize>,
    imports: Vec<Vec<usize>>,
    exports: Vec<Vec<usize>>,
    points: Vec<usize>,
}

impl PartLists {
    fn of(split: &Split, part: usize) -> PartLists {
        let others = 1..=MOST_PARTS;
        PartLists {
            part,
            globals: split.locals(part),
            imports: others.clone().map(|j| split.imports(part, j)).collect(),
            exports: others.map(|j| split.exports(part, j)).collect(),
            points: split.points(part),
        }
    }

    fn owned(&self) -> &[usize] {
        let imported: usize = self.imports.iter().map(Vec::len).sum();
        &self.globals[..self.globals.len() - imported]
    }

    fn sizes(&self, split: &Split) -> Sizes {
        let owned = self.owned();
        Sizes {
            owned: owned.len(),
            held: self.globals.len(),
            entries: owned.iter().map(|&c| split.reaches().of(c).len()).sum(),
            exports: self.exports.iter().map(Vec::len).sum(),
            points: self.points.len(),
            point_cells: self.points.iter().map(|&p| split.mesh.cells_at(p).len()).sum(),
        }
    }

    /// For each global number of a held cell its local one.
    fn locals(&self, size: usize) -> Vec<Local> {
        let mut locals = vec![Local(0); size];
        for (place, &global) in self.globals.iter().enumerate() {
            locals[global] = Local(place + 1);
        }
        locals
    }

    /// The words of a state from its import ends on.
    fn words(&self, split: &Split) -> Vec<usize> {
        let locals = self.locals(split.mesh.size());
        let reaches = self.owned().iter().map(|&c| split.reaches().of(c));
        let mut words = ends(self.owned().len(), self.imports.iter().map(Vec::as_slice));
        words.extend(ends(0, self.exports.iter().map(Vec::as_slice)));
        words.extend(&self.globals);
        words.extend(ends(0, reaches.clone()));
        words.extend(reaches.flatten().flat_map(|entry| [locals[entry.cell].0, entry.layer]));
        words.extend(self.exports.iter().flatten().map(|&c| locals[c].0));
        let around = self.points.iter().map(|&p| split.mesh.cells_at(p));
        // Where 29 holds for the part, no cell is to be read.
        let leave_reach = split.points_leave_reach(self.part);
        let cell_word = |&c: &usize| if leave_reach { 0 } else { locals[c].0 };
        words.push(self.points.len());
        words.extend(&self.points);
        words.extend(ends(0, around.clone()));
        words.extend(around.flat_map(|cells| cells.iter().rev().map(cell_word)));
        words
    }
}

/// A table of ends: what comes before the first list, then at each list how many entries there are up to its end.
fn ends<'a, T: 'a>(before: usize, lists: impl Iterator<Item = &'a [T]>) -> Vec<usize> {
    let mut ends = vec![before];
    for list in lists {
        ends.push(ends[ends.len() - 1] + list.len());
    }
    ends
}

/// The length in bytes of the state that start makes.
pub fn state_size(input: PartInput) -> Answer {
    let split = Split::read(input, &[input.part])?;
    let lists = PartLists::of(&split, input.part as usize);
    Ok(lists.sizes(&split).length() as u32)
}

/// The part's state at round 0; its length in bytes.
pub fn start(input: PartInput, rule: RuleInput, field: &[u8], state: &mut [u8]) -> Answer {
    let mesh = Mesh::read(input.mesh)?;
    let map = PartMap::read(&mesh, input.parts, input.owners, &[input.part])?;
    let stencil = Stencil::read(input.stencil, mesh.top())?;
    let accepted_rule = Rule::read(rule, stencil.steps())?;
    let split = Split::new(mesh, map, &stencil)?;
    let field = read_field(field, split.mesh.cells().len())?;
    let lists = PartLists::of(&split, input.part as usize);
    let state = needed(state, lists.sizes(&split).length())?;

    let mut front = vec![0, input.part as usize, stencil.steps(), rule.kind as usize];
    if let Rule::Mean(weights) = accepted_rule {
        front.extend(weights);
    }
    front.resize(9, 0);
    front.extend([split.mesh.first_cell(), split.mesh.cells().len()]);
    front.extend(lists.words(&split));
    front[0] = front.len();
    let round_and_flags = vec![0; 2 + 2 * MOST_PARTS];
    let held = lists.globals.iter().map(|&c| field[c - split.mesh.first_cell()]);
    let held = values(&held.collect::<Vec<_>>());
    state.copy_from_slice(&[words(&front), round_and_flags, held].concat());
    Ok(state.len() as u32)
}

/// The message to a part that imports from here; its length in bytes.
pub fn write(state: &mut [u8], to: u32, out: &mut [u8]) -> Answer {
    let view = State::read(state)?;
    let to = to as usize;
    let exports = view.exports(state, to);
    if exports.is_empty() {
        return Err(Refusal::Receiver);
    }
    let out = needed(out, 8 + 4 * exports.len())?;
    let message = Message {
        from: view.part,
        to,
        round: view.round,
        values: exports.map(|t| view.value(state, view.export(state, t))).collect(),
    };
    out.copy_from_slice(&message.encode());
    state[view.sizes.written(to)] = 1;
    Ok(out.len() as u32)
}

/// Takes a message into the imports from its sender.
pub fn take(state: &mut [u8], message: &[u8]) -> Answer {
    let message = Message::read(message)?;
    let view = State::read(state)?;
    let imports = view.imports(state, message.from);
    if message.to != view.part || imports.len() == 0 || imports.len() != message.values.len() {
        return Err(Refusal::Sender);
    }
    if message.round != view.round {
        return Err(Refusal::MessageRound);
    }
    let taken = view.sizes.taken(message.from);
    if state[taken] == 1 {
        return Err(Refusal::AlreadyTaken);
    }
    state[taken] = 1;
    for (local, &value) in imports.zip(&message.values) {
        put_value(state, view.sizes.value(local), value);
    }
    Ok(0)
}

/// Makes a round of the owned cells, all from old values. Nothing is taken or written in the new round.
pub fn advance(state: &mut [u8]) -> Answer {
    let view = State::read(state)?;
    if !view.all_taken(state) {
        return Err(Refusal::NotTaken);
    }
    let not_written = |j: usize| !view.exports(state, j).is_empty() && state[view.sizes.written(j)] == 0;
    if (1..=MOST_PARTS).any(not_written) {
        return Err(Refusal::NotWritten);
    }
    if view.round == LAST_ROUND {
        return Err(Refusal::LastRound);
    }
    let new: Vec<Value> = view.owned().map(|l| view.new_value(state, l)).collect();
    for (local, value) in view.owned().zip(new) {
        put_value(state, view.sizes.value(local), value);
    }
    put_word(state, view.sizes.round(), view.round + 1);
    state[view.sizes.flags()].fill(0);
    Ok(0)
}

/// Puts the owned values into a field; their count.
pub fn collect(state: &[u8], round: u32, field: &mut [u8]) -> Answer {
    let view = State::read(state)?;
    if round as usize != view.round {
        return Err(Refusal::OtherRound);
    }
    let field = needed(field, 4 * view.cells)?;
    for local in view.owned() {
        let place = view.global(state, local) - view.first_cell;
        put_value(field, 4 * place, view.value(state, local));
    }
    Ok(view.sizes.owned as u32)
}

/// Puts each point that touches the owned cells, its number and then its value; their count.
pub fn points(state: &[u8], out: &mut [u8]) -> Answer {
    let view = State::read(state)?;
    if !view.all_taken(state) {
        return Err(Refusal::NotTaken);
    }
    if view.points_leave_reach(state) {
        return Err(Refusal::PointReach);
    }
    let out = needed(out, 6 * view.sizes.points)?;
    for (point, k) in out.chunks_exact_mut(6).zip(1..) {
        put_word(point, 0, view.point(state, k));
        put_value(point, 2, view.point_value(state, k));
    }
    Ok(view.sizes.points as u32)
}
