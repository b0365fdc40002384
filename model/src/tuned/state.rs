//! The calls over a state. The test for its form (number 20) goes over each list once.

use super::rule::{has_gap, plain_mean, values_fit, Rule};
use crate::bytes::{needed, put_word, value_bytes, word};
use crate::calls::RuleInput;
use crate::mesh::MOST_ELEMENTS;
use crate::refusal::{Answer, Refusal};
use crate::split::MOST_PARTS;
use crate::state::{part_range, Local, Sizes, EXPORT_ENDS, GLOBALS, IMPORT_ENDS, LAST_ROUND};
use crate::walks::MOST_STEPS;

/// What an accepted state says of itself.
struct State {
    part: usize,
    rule: Rule,
    first_cell: u16,
    cells: usize,
    round: usize,
    sizes: Sizes,
}

/// The lists of a state, cut out of its bytes.
struct Lists<'a> {
    import_ends: &'a [[u8; 2]],
    export_ends: &'a [[u8; 2]],
    globals: &'a [[u8; 2]],
    reach_ends: &'a [[u8; 2]],
    /// A local number and a layer each.
    entries: &'a [[u8; 4]],
    exports: &'a [[u8; 2]],
    /// The numbers of the points.
    points: &'a [[u8; 2]],
    point_ends: &'a [[u8; 2]],
    /// A local number each, or 0.
    point_cells: &'a [[u8; 2]],
    flags: &'a [u8],
    values: &'a [[u8; 4]],
}

fn number(word: [u8; 2]) -> usize {
    u16::from_be_bytes(word).into()
}

impl<'a> Lists<'a> {
    fn of(bytes: &'a [u8], sizes: &Sizes) -> Self {
        let (lists, rest) = bytes[..sizes.length()].split_at(2 * sizes.words());
        let (front, lists) = lists.split_at(2 * sizes.entry(0));
        let (entries, lists) = lists.split_at(4 * sizes.entries);
        let (front, lists) = (front.as_chunks().0, lists.as_chunks().0);
        let (exports, points) = lists.split_at(sizes.exports);
        // The first word of the points is their count.
        let (points, point_lists) = points[1..].split_at(sizes.points);
        let (point_ends, point_cells) = point_lists.split_at(sizes.points + 1);
        Lists {
            import_ends: &front[IMPORT_ENDS..EXPORT_ENDS],
            export_ends: &front[EXPORT_ENDS..GLOBALS],
            globals: &front[GLOBALS..sizes.reach_ends()],
            reach_ends: &front[sizes.reach_ends()..],
            entries: entries.as_chunks().0,
            exports,
            points,
            point_ends,
            point_cells,
            flags: &rest[2..2 + 2 * MOST_PARTS],
            values: rest[2 + 2 * MOST_PARTS..].as_chunks().0,
        }
    }

    /// The entries of each owned cell's reach; none for one whose ends do not fit.
    fn reaches(&self) -> impl Iterator<Item = Option<&'a [[u8; 4]]>> + '_ {
        self.reach_ends.windows(2).map(|ends| self.entries.get(number(ends[0])..number(ends[1])))
    }

    /// The cells at each point. Test 20 has seen that they fit.
    fn around(&self) -> impl Iterator<Item = &'a [[u8; 2]]> + '_ {
        self.point_ends.windows(2).map(|ends| &self.point_cells[number(ends[0])..number(ends[1])])
    }

    /// Whether the messages from all parts that this one imports from are taken.
    fn all_taken(&self) -> bool {
        all_done(self.import_ends, &self.flags[..MOST_PARTS])
    }

    fn value(&self, local: usize) -> [u8; 4] {
        self.values[local - 1]
    }
}

impl State {
    fn read(bytes: &[u8]) -> Answer<(State, Lists<'_>)> {
        State::accepted(bytes).ok_or(Refusal::State)
    }

    fn accepted(bytes: &[u8]) -> Option<(State, Lists<'_>)> {
        let sizes = Sizes::read(bytes);
        let fits = word(bytes, 0) == sizes.words() && bytes.len() >= sizes.length() && sizes.held <= MOST_ELEMENTS;
        let steps = word(bytes, 2);
        if !fits || !steps.is_multiple_of(2) || steps > MOST_STEPS {
            return None;
        }
        let kind = word(bytes, 3) as u32;
        let weights = if kind == 1 { &bytes[8..8 + steps + 2] } else { &[] };
        let state = State {
            part: word(bytes, 1),
            rule: Rule::read(RuleInput { kind, weights }, steps).ok()?,
            first_cell: word(bytes, 9) as u16,
            cells: word(bytes, 10),
            round: word(bytes, sizes.round()),
            sizes,
        };
        let lists = Lists::of(bytes, &state.sizes);
        let whole = (1..=MOST_PARTS).contains(&state.part)
            && rises(lists.import_ends)
            && rises(lists.export_ends)
            && number(lists.export_ends[0]) == 0
            && all_below(lists.globals, state.first_cell, state.cells)
            && state.has_reaches(&lists, steps)
            && all_below(lists.exports, 1, state.sizes.owned)
            && climbs(lists.point_ends)
            && number(lists.point_ends[0]) == 0
            && all_below(lists.point_cells, 0, state.sizes.held + 1)
            && state.round <= LAST_ROUND
            && lists.flags.iter().fold(true, |all, &flag| all & (flag <= 1))
            && values_fit(lists.values);
        whole.then_some((state, lists))
    }

    /// The reaches follow each other and have all entries, so one pass tests these and finds each cell's own.
    fn has_reaches(&self, lists: &Lists, steps: usize) -> bool {
        let (held, steps) = (self.sizes.held as u32, steps as u32);
        number(lists.reach_ends[0]) == 0
            && (1..).zip(lists.reaches()).all(|(local, reach)| {
                let (mut fits, mut has_own) = (reach.is_some(), false);
                for &entry in reach.unwrap_or_default() {
                    let entry = u32::from_be_bytes(entry);
                    let (cell, layer) = (entry >> 16, entry & 0xffff);
                    fits &= (cell.wrapping_sub(1) < held) & (layer % 2 == 0) & (layer <= steps);
                    has_own |= entry == local << 16;
                }
                fits & has_own
            })
    }
}

fn rises(ends: &[[u8; 2]]) -> bool {
    ends.iter().zip(&ends[1..]).fold(true, |all, (&a, &b)| all & (number(a) <= number(b)))
}

fn climbs(ends: &[[u8; 2]]) -> bool {
    ends.iter().zip(&ends[1..]).fold(true, |all, (&a, &b)| all & (number(a) < number(b)))
}

/// Whether each part that a table of ends gives something to has its flag.
fn all_done(ends: &[[u8; 2]], flags: &[u8]) -> bool {
    ends.windows(2).zip(flags).all(|(ends, &flag)| ends[0] == ends[1] || flag == 1)
}

/// Whether all words are among the `count` numbers from `first` on.
fn all_below(words: &[[u8; 2]], first: u16, count: usize) -> bool {
    words.iter().fold(true, |all, &word| all & (number(word).wrapping_sub(first.into()) < count))
}

/// The message to a part that imports from here; its length in bytes.
pub fn write(bytes: &mut [u8], to: u32, out: &mut [u8]) -> Answer {
    let (state, lists) = State::read(bytes)?;
    let to = to as usize;
    let exports = &lists.exports[part_range(bytes, EXPORT_ENDS, to)];
    if exports.is_empty() {
        return Err(Refusal::Receiver);
    }
    let out = needed(out, 8 + 4 * exports.len())?;
    for (i, number) in [state.part, to, state.round, exports.len()].into_iter().enumerate() {
        put_word(out, i, number);
    }
    for (value, &local) in out[8..].as_chunks_mut().0.iter_mut().zip(exports) {
        *value = lists.value(number(local));
    }
    bytes[state.sizes.written(to)] = 1;
    Ok(out.len() as u32)
}

/// Takes a message into the imports from its sender.
pub fn take(bytes: &mut [u8], message: &[u8]) -> Answer {
    let (_, body) = message.split_at_checked(8).ok_or(Refusal::Message)?;
    let (values, []) = body.as_chunks() else { return Err(Refusal::Message) };
    if values.len() != word(message, 3) || !values_fit(values) {
        return Err(Refusal::Message);
    }
    let (state, _) = State::read(bytes)?;
    let from = word(message, 0);
    let imports = part_range(bytes, IMPORT_ENDS, from);
    if word(message, 1) != state.part || imports.is_empty() || imports.len() != values.len() {
        return Err(Refusal::Sender);
    }
    if word(message, 2) != state.round {
        return Err(Refusal::MessageRound);
    }
    let taken = state.sizes.taken(from);
    if bytes[taken] == 1 {
        return Err(Refusal::AlreadyTaken);
    }
    bytes[taken] = 1;
    let first = state.sizes.value(Local(imports.start + 1));
    bytes[first..first + body.len()].copy_from_slice(body);
    Ok(0)
}

/// Makes a round of the owned cells; `new` is room for their values.
pub fn advance(bytes: &mut [u8], new: &mut Vec<[u8; 4]>) -> Answer {
    let (state, lists) = State::read(bytes)?;
    if !lists.all_taken() {
        return Err(Refusal::NotTaken);
    }
    if !all_done(lists.export_ends, &lists.flags[MOST_PARTS..]) {
        return Err(Refusal::NotWritten);
    }
    if state.round == LAST_ROUND {
        return Err(Refusal::LastRound);
    }
    new.clear();
    if has_gap(lists.values) {
        renew::<true>(&state.rule, &lists, new);
    } else {
        renew::<false>(&state.rule, &lists, new);
    }
    let (first, new) = (state.sizes.value(Local(1)), new.as_flattened());
    bytes[first..first + new.len()].copy_from_slice(new);
    put_word(bytes, state.sizes.round(), state.round + 1);
    bytes[state.sizes.flags()].fill(0);
    Ok(0)
}

fn renew<const GAPS: bool>(rule: &Rule, lists: &Lists, new: &mut Vec<[u8; 4]>) {
    new.extend((1..).zip(lists.reaches().flatten()).map(|(local, reach)| {
        let entries = reach.iter().map(|&entry| u32::from_be_bytes(entry));
        let reach = entries.map(|entry| (entry as u16, lists.value((entry >> 16) as usize)));
        value_bytes(rule.new_value::<GAPS>(lists.value(local), reach))
    }));
}

/// Puts the owned values into a field; their count.
pub fn collect(bytes: &[u8], round: u32, field: &mut [u8]) -> Answer {
    let (state, lists) = State::read(bytes)?;
    if round as usize != state.round {
        return Err(Refusal::OtherRound);
    }
    let field = needed(field, 4 * state.cells)?.as_chunks_mut().0;
    let first = usize::from(state.first_cell);
    for (&global, &value) in lists.globals[..state.sizes.owned].iter().zip(lists.values) {
        field[number(global) - first] = value;
    }
    Ok(state.sizes.owned as u32)
}

/// Puts each point that touches the owned cells, its number and then its value; their count.
pub fn points(bytes: &[u8], out: &mut [u8]) -> Answer {
    let (state, lists) = State::read(bytes)?;
    if !lists.all_taken() {
        return Err(Refusal::NotTaken);
    }
    if lists.point_cells.contains(&[0; 2]) {
        return Err(Refusal::PointReach);
    }
    let out = needed(out, 6 * state.sizes.points)?.as_chunks_mut::<6>().0;
    if has_gap(lists.values) {
        put_points::<true>(&lists, out);
    } else {
        put_points::<false>(&lists, out);
    }
    Ok(state.sizes.points as u32)
}

fn put_points<const GAPS: bool>(lists: &Lists, out: &mut [[u8; 6]]) {
    for ((out, &point), cells) in out.iter_mut().zip(lists.points).zip(lists.around()) {
        let values = cells.iter().map(|&cell| lists.value(number(cell)));
        out[..2].copy_from_slice(&point);
        out[2..].copy_from_slice(&value_bytes(plain_mean::<GAPS>(values)));
    }
}
