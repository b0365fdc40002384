//! Part maps, held cells, the lists of a part and its start (numbers 8, 9, 12 and 29), and the undivided round. Cells go by
//! their places, from 0.

use std::mem::take;

use super::mesh::Mesh;
use super::rule::{has_gap, read_field, Rule};
use super::tables::{table, Marks, Rows, Table};
use super::walks::{check_stencil, through, Walks};
use crate::bytes::{needed, value_bytes};
use crate::calls::{List, PartInput, RuleInput};
use crate::refusal::{Answer, Refusal};
use crate::split::{PartSet, Range, MOST_HELD, MOST_PARTS};
use crate::state::Sizes;

/// What was read last, and room for all that is found of it.
pub struct Split {
    mesh: Mesh,
    walks: Walks,
    /// By cell, the parts that hold it.
    holders: Box<Table<PartSet>>,
    /// By cell and by side, the parts whose walks stand there.
    standing: [Box<Table<PartSet>>; 2],
    /// The cells of one part by class, which is its local order.
    classes: Rows<u16>,
    class_of: Box<Table<u16>>,
    /// By cell, its local number.
    locals: Box<Table<u16>>,
    /// By receiving part, the local numbers of the exported cells.
    exports: Rows<u16>,
    /// The sides that are listed: those of a range, or the points of a part.
    sides: Box<Table<u16>>,
    /// The points of the sorted part's own cells.
    touched: Marks,
    /// The cells in the reach of one cell.
    reached: Marks,
}

/// The classes follow each other in local order: interior, halo, and the imports from each part. What the part does not
/// hold comes last.
const INTERIOR: u16 = 0;
const HALO: u16 = 1;
const LAST_HELD: u16 = imports_from(MOST_PARTS as u16);
const NOT_HELD: u16 = LAST_HELD + 1;

const fn imports_from(part: u16) -> u16 {
    HALO + part
}

impl Split {
    pub fn new() -> Self {
        Split {
            mesh: Mesh::new(),
            walks: Walks::new(),
            holders: table(),
            standing: [table(), table()],
            classes: Rows::new(),
            class_of: table(),
            locals: table(),
            exports: Rows::new(),
            sides: table(),
            touched: Marks::new(),
            reached: Marks::new(),
        }
    }

    /// The number of cells, if the bytes are a mesh.
    pub fn check_mesh(&mut self, mesh: &[u8]) -> Answer {
        self.mesh.read(mesh)?;
        Ok(self.mesh.cells().into())
    }

    /// The field after one round of the rule at every cell; the count of its values.
    pub fn round(&mut self, mesh: &[u8], stencil: &[u8], rule: RuleInput, field: &[u8], out: &mut [u8]) -> Answer {
        self.mesh.read(mesh)?;
        check_stencil(stencil, self.mesh.top)?;
        let rule = Rule::read(rule, stencil.len() - 1)?;
        if !self.walks.find(&mut self.mesh, stencil) {
            return Err(Refusal::Reach);
        }
        let old = read_field(field, self.mesh.cells())?;
        let out = needed(out, field.len())?.as_chunks_mut().0;
        if has_gap(old) {
            self.renew::<true>(&rule, old, out);
        } else {
            self.renew::<false>(&rule, old, out);
        }
        Ok(self.mesh.cells().into())
    }

    fn renew<const GAPS: bool>(&self, rule: &Rule, old: &[[u8; 4]], new: &mut [[u8; 4]]) {
        let value = |cell: u16| old[usize::from(cell)];
        for (cell, new) in (0..).zip(new) {
            let reach = self.walks.reaches.row(cell).iter().map(|entry| (entry.layer, value(entry.cell)));
            *new = value_bytes(rule.new_value::<GAPS>(value(cell), reach));
        }
    }

    /// A list of a part as words; their count.
    pub fn list(&mut self, input: PartInput, list: List, out: &mut [u8]) -> Answer {
        let other = match list {
            List::Imports(other) | List::Exports(other) => other,
            _ => input.part,
        };
        self.read(input, other)?;
        self.hold(input)?;
        let first = self.mesh.first_cell();
        let (part, other) = (input.part as u16, other as u16);
        let (sorted, class) = match list {
            List::Interior => (part, INTERIOR),
            List::Halo => (part, HALO),
            List::Imports(_) => (part, imports_from(other)),
            // What a part exports is what the other one imports.
            List::Exports(_) => (other, imports_from(part)),
            List::Locals => {
                self.sort(input.owners, part);
                return put_list(out, self.order(LAST_HELD), first);
            }
            List::Range(range, dimension) => return self.range(input, range, dimension as usize, out),
        };
        self.sort(input.owners, sorted);
        put_list(out, self.classes.row(class), first)
    }

    /// The elements of one range of a dimension; none of a dimension that isn't lower than the cells'.
    fn range(&mut self, input: PartInput, range: Range, dimension: usize, out: &mut [u8]) -> Answer {
        if dimension >= self.mesh.top {
            return Ok(0);
        }
        self.mesh.link(dimension);
        let cells_at = &self.mesh.links(dimension).cells;
        let mut count = 0;
        for side in 0..self.mesh.count(dimension) {
            let cells = cells_at.row(side).iter().map(|&cell| usize::from(cell));
            let touched = PartSet::union(cells.clone().map(|cell| PartSet::only(input.owners[cell].into())));
            let holders = PartSet::union(cells.map(|cell| self.holders[cell]));
            self.sides[count] = side;
            count += usize::from(Range::of(input.part as usize, touched, holders) == Some(range));
        }
        put_list(out, &self.sides[..count], self.mesh.first(dimension))
    }

    /// The length in bytes of the state that start makes.
    pub fn state_size(&mut self, input: PartInput) -> Answer {
        self.read(input, input.part)?;
        self.hold(input)?;
        self.sort(input.owners, input.part as u16);
        Ok(self.sizes().length() as u32)
    }

    /// The part's state at round 0; its length in bytes.
    pub fn start(&mut self, input: PartInput, rule: RuleInput, field: &[u8], state: &mut [u8]) -> Answer {
        self.read(input, input.part)?;
        let steps = input.stencil.len() - 1;
        Rule::read(rule, steps)?;
        self.hold(input)?;
        let field = read_field(field, self.mesh.cells())?;
        self.sort(input.owners, input.part as u16);
        let sizes = self.sizes();
        let state = needed(state, sizes.length())?;
        self.number(input.owners, input.part as usize);
        self.mesh.link(0);
        let leave_reach = self.points_leave_reach();
        self.list_points();

        let (held, owned) = (self.order(LAST_HELD), self.order(HALO));
        let reach = |&cell: &u16| self.walks.reaches.row(cell).iter();
        let mut rest = Rest(state);
        rest.put_words([sizes.words() as u16, input.part as u16, steps as u16, rule.kind as u16]);
        let mut weights = [[0; 2]; 5];
        weights.as_flattened_mut()[..rule.weights.len()].copy_from_slice(rule.weights);
        rest.put(weights);
        rest.put_words([self.mesh.first_cell(), self.mesh.cells()]);
        rest.put_words(self.classes.bounds[usize::from(HALO)..=usize::from(LAST_HELD)].iter().map(|&(_, end)| end));
        rest.put_words(self.exports.bounds[..=MOST_PARTS].iter().map(|&(_, end)| end));
        rest.put_words(held.iter().map(|cell| cell + self.mesh.first_cell()));
        let mut end = 0;
        rest.put_words([0]);
        rest.put_words(owned.iter().map(|cell| {
            end += reach(cell).len() as u16;
            end
        }));
        for cell in owned {
            let local = |cell: u16| u32::from(self.locals[usize::from(cell)]);
            rest.put(reach(cell).map(|entry| (local(entry.cell) << 16 | u32::from(entry.layer)).to_be_bytes()));
        }
        rest.put_words(self.exports.items[..sizes.exports].iter().copied());
        self.put_points(&mut rest, &sizes, leave_reach);
        rest.put([[0; 2 + 2 * MOST_PARTS]]);
        rest.put(held.iter().map(|&cell| field[usize::from(cell)]));
        Ok(sizes.length() as u32)
    }

    /// Reads the mesh, the map and the stencil (1 to 10); `other` is a part that the call names besides.
    fn read(&mut self, input: PartInput, other: u32) -> Answer<()> {
        self.mesh.read(input.mesh)?;
        let is_part = |part: u32| (1..=input.parts).contains(&part);
        if input.parts > MOST_PARTS as u32
            || ![input.part, other].into_iter().all(is_part)
            || !input.owners.iter().all(|&owner| is_part(owner.into()))
            || input.owners.len() != usize::from(self.mesh.cells())
        {
            return Err(Refusal::PartMap);
        }
        let owning = PartSet::union(input.owners.iter().map(|&owner| PartSet::only(owner.into())));
        if owning.len() < input.parts as usize {
            return Err(Refusal::EmptyPart);
        }
        check_stencil(input.stencil, self.mesh.top)
    }

    /// Finds the reaches and the holders of all cells (12 and 13). The holders are read off the reaches, if those fit.
    fn hold(&mut self, input: PartInput) -> Answer<()> {
        let fits = self.walks.find(&mut self.mesh, input.stencil);
        let cells = input.owners.len();
        if fits {
            self.holders[..cells].fill(PartSet::default());
            for (cell, &owner) in (0..).zip(input.owners) {
                for entry in self.walks.reaches.row(cell) {
                    let holders = &mut self.holders[usize::from(entry.cell)];
                    *holders = *holders | PartSet::only(owner.into());
                }
            }
        } else {
            self.walk_together(input);
        }
        if self.holders[..cells].iter().map(|parts| parts.len()).sum::<usize>() > MOST_HELD {
            return Err(Refusal::Held);
        }
        fits.then_some(()).ok_or(Refusal::Reach)
    }

    /// Finds the holders by walks from all cells of all parts at once.
    fn walk_together(&mut self, input: PartInput) {
        let [at_cells, at_sides] = &mut self.standing;
        for (cell, &owner) in input.owners.iter().enumerate() {
            at_cells[cell] = PartSet::only(owner.into());
            self.holders[cell] = at_cells[cell];
        }
        for dimension in through(input.stencil) {
            let links = self.mesh.links(dimension);
            for side in 0..self.mesh.count(dimension) {
                let cells = links.cells.row(side).iter();
                at_sides[usize::from(side)] = PartSet::union(cells.map(|&cell| at_cells[usize::from(cell)]));
            }
            for cell in 0..self.mesh.cells() {
                let sides = links.sides.row(cell).iter();
                let parts = PartSet::union(sides.map(|&side| at_sides[usize::from(side)]));
                at_cells[usize::from(cell)] = parts;
                self.holders[usize::from(cell)] = self.holders[usize::from(cell)] | parts;
            }
        }
    }

    /// Sorts the cells by their class for a part.
    fn sort(&mut self, owners: &[u8], part: u16) {
        let owns = |cell: u16| u16::from(owners[usize::from(cell)]) == part;
        let mut counts = [0; NOT_HELD as usize + 1];
        for cell in 0..self.mesh.cells() {
            let class = if owns(cell) {
                let inside = self.walks.reaches.row(cell).iter().all(|entry| owns(entry.cell));
                if inside {
                    INTERIOR
                } else {
                    HALO
                }
            } else if self.holders[usize::from(cell)].has(part.into()) {
                imports_from(owners[usize::from(cell)].into())
            } else {
                NOT_HELD
            };
            self.class_of[usize::from(cell)] = class;
            counts[usize::from(class)] += 1;
        }
        self.classes.make_room(counts.into_iter());
        for cell in 0..self.mesh.cells() {
            self.classes.push(self.class_of[usize::from(cell)], cell);
        }
    }

    /// The cells of the sorted part in local order, up to a class.
    fn order(&self, last: u16) -> &[u16] {
        &self.classes.items[..usize::from(self.classes.bounds[usize::from(last)].1)]
    }

    fn sizes(&mut self) -> Sizes {
        let (points, point_cells) = self.touch_points();
        let owned = self.order(HALO);
        Sizes {
            owned: owned.len(),
            held: self.order(LAST_HELD).len(),
            entries: owned.iter().map(|&cell| self.walks.reaches.row(cell).len()).sum(),
            exports: owned.iter().map(|&cell| self.holders[usize::from(cell)].len() - 1).sum(),
            points,
            point_cells,
        }
    }

    /// Marks the points of the sorted part's own cells; how many there are, and how many cells stand at them.
    fn touch_points(&mut self) -> (usize, usize) {
        let owned = usize::from(self.classes.bounds[usize::from(HALO)].1);
        let (mut points, mut cells) = (0, 0);
        self.touched.empty();
        for point in self.classes.items[..owned].iter().flat_map(|&cell| self.mesh.points(cell)) {
            if self.touched.add(point) {
                points += 1;
                cells += usize::from(self.mesh.uses(point));
            }
        }
        (points, cells)
    }

    /// Whether a cell at a point of one of the sorted part's own cells is outside that cell's reach (29).
    fn points_leave_reach(&mut self) -> bool {
        let links = self.mesh.links(0);
        let owned = usize::from(self.classes.bounds[usize::from(HALO)].1);
        self.classes.items[..owned].iter().any(|&cell| {
            self.reached.empty();
            for entry in self.walks.reaches.row(cell) {
                self.reached.add(entry.cell);
            }
            let reached = &self.reached;
            let all_reached = |cells: &[u16]| cells.iter().fold(true, |all, &cell| all & reached.has(cell));
            !links.sides.row(cell).iter().all(|&point| all_reached(links.cells.row(point)))
        })
    }

    /// Lists the points that are marked, rising, by their places.
    fn list_points(&mut self) {
        let mut count = 0;
        for point in 0..self.mesh.count(0) {
            self.sides[count] = point;
            count += usize::from(self.touched.has(point + 1));
        }
    }

    /// Puts the points that are listed, and the cells at them, falling, as local numbers or all as 0.
    fn put_points(&self, rest: &mut Rest, sizes: &Sizes, leave_reach: bool) {
        let points = &self.sides[..sizes.points];
        let around = |&point: &u16| self.mesh.links(0).cells.row(point).iter();
        rest.put_words([sizes.points as u16]);
        rest.put_words(points.iter().map(|point| point + 1));
        let mut end = 0;
        rest.put_words([0]);
        rest.put_words(points.iter().map(|point| {
            end += around(point).len() as u16;
            end
        }));
        for point in points {
            let local = |&cell: &u16| if leave_reach { 0 } else { self.locals[usize::from(cell)] };
            rest.put_words(around(point).rev().map(local));
        }
    }

    /// Finds the local numbers of the sorted part's cells, and those that it exports.
    fn number(&mut self, owners: &[u8], part: usize) {
        let held = usize::from(self.classes.bounds[usize::from(LAST_HELD)].1);
        for (local, &cell) in (1..).zip(&self.classes.items[..held]) {
            self.locals[usize::from(cell)] = local;
        }
        let receivers = |cell: usize| self.holders[cell].parts().filter(move |&to| to != part);
        let owned = || (0..owners.len()).filter(|&cell| usize::from(owners[cell]) == part);
        let mut counts = [0; MOST_PARTS + 1];
        for to in owned().flat_map(receivers) {
            counts[to] += 1;
        }
        self.exports.make_room(counts.into_iter());
        for cell in owned() {
            for to in receivers(cell) {
                self.exports.push(to as u16, self.locals[cell]);
            }
        }
    }
}

/// Puts the global numbers of elements that go by their places, as words; their count.
fn put_list(out: &mut [u8], places: &[u16], first: u16) -> Answer {
    let mut rest = Rest(needed(out, 2 * places.len())?);
    rest.put_words(places.iter().map(|place| place + first));
    Ok(places.len() as u32)
}

/// What is left of a buffer that is filled from its front.
struct Rest<'a>(&'a mut [u8]);

impl Rest<'_> {
    fn put<const N: usize, I>(&mut self, items: I)
    where
        I: IntoIterator<Item = [u8; N], IntoIter: ExactSizeIterator>,
    {
        let items = items.into_iter();
        let (front, rest) = take(&mut self.0).split_at_mut(N * items.len());
        for (place, item) in front.as_chunks_mut().0.iter_mut().zip(items) {
            *place = item;
        }
        self.0 = rest;
    }

    fn put_words<I>(&mut self, words: I)
    where
        I: IntoIterator<Item = u16, IntoIter: ExactSizeIterator>,
    {
        self.put(words.into_iter().map(u16::to_be_bytes));
    }
}
