//! The form of a part state, as docs/LAYOUTS.md has it, and the test for it (number 20).

use std::ops::Range;

use crate::bytes::{is_valid, value, word, Value};
use crate::calls::RuleInput;
use crate::mesh::MOST_ELEMENTS;
use crate::refusal::{Answer, Refusal};
use crate::rounds::{plain_mean, Rule};
use crate::split::MOST_PARTS;
use crate::walks::MOST_STEPS;

pub const LAST_ROUND: usize = 60_000;

/// The number of a held cell within its part, from 1. Only the part's list converts it. 0 among the cells at a point is no
/// cell.
#[derive(Clone, Copy, PartialEq, Eq)]
pub struct Local(pub usize);

/// The sizes of a state's lists. They fix the place of each word and byte.
pub struct Sizes {
    pub owned: usize,
    pub held: usize,
    /// Entries of the owned cells' reaches.
    pub entries: usize,
    pub exports: usize,
    /// Points that touch the owned cells.
    pub points: usize,
    /// Cells at these points, point by point.
    pub point_cells: usize,
}

// Places of the first lists, as words.
pub const IMPORT_ENDS: usize = 11;
pub const EXPORT_ENDS: usize = 28;
pub const GLOBALS: usize = 45;

impl Sizes {
    /// The sizes that words of a state give. Each tells where the next one stands.
    pub fn read(bytes: &[u8]) -> Sizes {
        let mut sizes = Sizes {
            owned: word(bytes, IMPORT_ENDS),
            held: word(bytes, IMPORT_ENDS + MOST_PARTS),
            entries: 0,
            exports: word(bytes, EXPORT_ENDS + MOST_PARTS),
            points: 0,
            point_cells: 0,
        };
        sizes.entries = word(bytes, sizes.reach_ends() + sizes.owned);
        sizes.points = word(bytes, sizes.point(0));
        sizes.point_cells = word(bytes, sizes.point_ends() + sizes.points);
        sizes
    }

    /// Word 0: the length of the lists in words.
    pub fn words(&self) -> usize {
        48 + self.held + self.owned + 2 * self.entries + self.exports + 2 * self.points + self.point_cells
    }

    pub fn length(&self) -> usize {
        2 * self.words() + 34 + 4 * self.held
    }

    // Places of words.

    fn global(&self, local: Local) -> usize {
        GLOBALS + local.0 - 1
    }

    pub fn reach_ends(&self) -> usize {
        GLOBALS + self.held
    }

    pub fn entry(&self, t: usize) -> usize {
        46 + self.held + self.owned + 2 * t
    }

    fn export(&self, t: usize) -> usize {
        self.entry(self.entries) + t
    }

    /// The count of points, and behind it the numbers of the first, the second and so on.
    pub fn point(&self, k: usize) -> usize {
        self.export(self.exports) + k
    }

    pub fn point_ends(&self) -> usize {
        self.point(self.points) + 1
    }

    pub fn point_cell(&self, t: usize) -> usize {
        self.point_ends() + self.points + 1 + t
    }

    pub fn round(&self) -> usize {
        self.words()
    }

    // Places of bytes.

    pub fn taken(&self, from: usize) -> usize {
        2 * self.words() + 1 + from
    }

    pub fn written(&self, to: usize) -> usize {
        2 * self.words() + 17 + to
    }

    /// All flags, those of taken messages and those of written ones.
    pub fn flags(&self) -> Range<usize> {
        self.taken(1)..self.written(MOST_PARTS) + 1
    }

    pub fn value(&self, local: Local) -> usize {
        2 * self.words() + 30 + 4 * local.0
    }
}

/// The lists of bytes that begin with a state, as test 20 finds them.
pub struct State {
    pub part: usize,
    pub rule: Rule,
    pub first_cell: usize,
    pub cells: usize,
    pub round: usize,
    pub sizes: Sizes,
}

impl State {
    pub fn read(bytes: &[u8]) -> Answer<State> {
        State::accepted(bytes).ok_or(Refusal::State)
    }

    fn accepted(bytes: &[u8]) -> Option<State> {
        let sizes = Sizes::read(bytes);
        let fits = word(bytes, 0) == sizes.words() && bytes.len() >= sizes.length();
        if !fits || sizes.held > MOST_ELEMENTS {
            return None;
        }
        let steps = word(bytes, 2);
        if !steps.is_multiple_of(2) || steps > MOST_STEPS {
            return None;
        }
        let kind = word(bytes, 3) as u32;
        let weights = if kind == 1 { &bytes[8..8 + steps + 2] } else { &[] };
        let state = State {
            part: word(bytes, 1),
            rule: Rule::read(RuleInput { kind, weights }, steps).ok()?,
            first_cell: word(bytes, 9),
            cells: word(bytes, 10),
            round: word(bytes, sizes.round()),
            sizes,
        };
        let whole = (1..=MOST_PARTS).contains(&state.part)
            && state.has_tables(bytes)
            && state.has_lists(bytes, steps)
            && state.round <= LAST_ROUND
            && bytes[state.sizes.flags()].iter().all(|&flag| flag <= 1)
            && state.held().all(|l| is_valid(state.value(bytes, l)));
        whole.then_some(state)
    }

    /// The tables of ends begin right and never fall, and each point has a cell. That the import ends begin and end right is
    /// how the sizes were read.
    fn has_tables(&self, bytes: &[u8]) -> bool {
        let rises = |at: usize, last: usize| (at..at + last).all(|i| word(bytes, i) <= word(bytes, i + 1));
        let (reach_ends, point_ends) = (self.sizes.reach_ends(), self.sizes.point_ends());
        let climbs = |at: usize, last: usize| (at..at + last).all(|i| word(bytes, i) < word(bytes, i + 1));
        rises(IMPORT_ENDS, MOST_PARTS)
            && rises(EXPORT_ENDS, MOST_PARTS)
            && rises(reach_ends, self.sizes.owned)
            && word(bytes, EXPORT_ENDS) == 0
            && word(bytes, reach_ends) == 0
            && climbs(point_ends, self.sizes.points)
            && word(bytes, point_ends) == 0
    }

    fn has_lists(&self, bytes: &[u8], steps: usize) -> bool {
        let sizes = &self.sizes;
        let cells = self.first_cell..self.first_cell + self.cells;
        let in_reach = |t: usize| {
            let (cell, layer) = self.entry(bytes, t);
            (1..=sizes.held).contains(&cell.0) && layer.is_multiple_of(2) && layer <= steps
        };
        let reaches_itself = |l: Local| {
            let mut reach = self.reach(l, bytes);
            reach.any(|t| self.entry(bytes, t) == (l, 0))
        };
        self.held().all(|l| cells.contains(&self.global(bytes, l)))
            && (0..sizes.entries).all(in_reach)
            && self.owned().all(reaches_itself)
            && (0..sizes.exports).all(|t| (1..=sizes.owned).contains(&self.export(bytes, t).0))
            && (0..sizes.point_cells).all(|t| self.point_cell(bytes, t).0 <= sizes.held)
    }

    pub fn owned(&self) -> impl Iterator<Item = Local> {
        (1..=self.sizes.owned).map(Local)
    }

    fn held(&self) -> impl Iterator<Item = Local> {
        (1..=self.sizes.held).map(Local)
    }

    pub fn global(&self, bytes: &[u8], local: Local) -> usize {
        word(bytes, self.sizes.global(local))
    }

    pub fn value(&self, bytes: &[u8], local: Local) -> Value {
        value(bytes, self.sizes.value(local))
    }

    /// The held cells imported from a part; none from a number that is no part.
    pub fn imports(&self, bytes: &[u8], from: usize) -> impl ExactSizeIterator<Item = Local> {
        part_range(bytes, IMPORT_ENDS, from).map(|place| Local(place + 1))
    }

    /// Whether the messages from all parts that this one imports from are taken.
    pub fn all_taken(&self, bytes: &[u8]) -> bool {
        (1..=MOST_PARTS).all(|j| self.imports(bytes, j).len() == 0 || bytes[self.sizes.taken(j)] == 1)
    }

    /// The places of the export entries to a part; none to a number that is no part.
    pub fn exports(&self, bytes: &[u8], to: usize) -> Range<usize> {
        part_range(bytes, EXPORT_ENDS, to)
    }

    pub fn export(&self, bytes: &[u8], t: usize) -> Local {
        Local(word(bytes, self.sizes.export(t)))
    }

    /// The number of the k-th point, from k = 1 on.
    pub fn point(&self, bytes: &[u8], k: usize) -> usize {
        word(bytes, self.sizes.point(k))
    }

    /// The values of the cells at the k-th point.
    pub fn around<'a>(&'a self, bytes: &'a [u8], k: usize) -> impl Iterator<Item = Value> + 'a {
        between_ends(bytes, self.sizes.point_ends(), k).map(|t| self.value(bytes, self.point_cell(bytes, t)))
    }

    pub fn point_value(&self, bytes: &[u8], k: usize) -> Value {
        plain_mean(self.around(bytes, k))
    }

    /// Whether some cell at a point is none, since one is outside the reach of an owned cell at its point.
    pub fn points_leave_reach(&self, bytes: &[u8]) -> bool {
        (0..self.sizes.point_cells).any(|t| self.point_cell(bytes, t) == Local(0))
    }

    fn point_cell(&self, bytes: &[u8], t: usize) -> Local {
        Local(word(bytes, self.sizes.point_cell(t)))
    }

    /// The places of the entries of an owned cell's reach.
    fn reach(&self, owned: Local, bytes: &[u8]) -> Range<usize> {
        between_ends(bytes, self.sizes.reach_ends(), owned.0)
    }

    fn entry(&self, bytes: &[u8], t: usize) -> (Local, usize) {
        let at = self.sizes.entry(t);
        (Local(word(bytes, at)), word(bytes, at + 1))
    }

    /// The layers and values of an owned cell's reach.
    pub fn olds<'a>(&'a self, bytes: &'a [u8], owned: Local) -> impl Iterator<Item = (usize, Value)> + 'a {
        let entries = self.reach(owned, bytes).map(|t| self.entry(bytes, t));
        entries.map(|(cell, layer)| (layer, self.value(bytes, cell)))
    }

    pub fn new_value(&self, bytes: &[u8], owned: Local) -> Value {
        self.rule.new_value(self.value(bytes, owned), self.olds(bytes, owned))
    }
}

/// What a table of ends gives to the number `j`, which begins after the end of j − 1.
fn between_ends(bytes: &[u8], ends: usize, j: usize) -> Range<usize> {
    word(bytes, ends + j - 1)..word(bytes, ends + j)
}

pub fn part_range(bytes: &[u8], ends: usize, part: usize) -> Range<usize> {
    if (1..=MOST_PARTS).contains(&part) {
        between_ends(bytes, ends, part)
    } else {
        0..0
    }
}
