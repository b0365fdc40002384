//! Part maps, held cells, imports and exports, local order, ranges and points (numbers 8, 9, 12 and 29).

use std::ops::BitOr;

use crate::bytes::{needed, words};
use crate::calls::{List, PartInput};
use crate::mesh::Mesh;
use crate::refusal::{Answer, Refusal};
use crate::walks::{Reaches, Stencil};

pub const MOST_PARTS: usize = 16;
pub const MOST_HELD: usize = 4_096;

/// A list of a part as words; their count.
pub fn list(input: PartInput, list: List, out: &mut [u8]) -> Answer {
    let wanted: &[u32] = match list {
        List::Imports(other) | List::Exports(other) => &[input.part, other],
        _ => &[input.part],
    };
    let split = Split::read(input, wanted)?;
    let numbers = split.list(input.part as usize, list);
    needed(out, 2 * numbers.len())?.copy_from_slice(&words(&numbers));
    Ok(numbers.len() as u32)
}

/// A set of parts, a bit for each.
#[derive(Clone, Copy, Default, PartialEq, Eq)]
pub struct PartSet(u32);

impl PartSet {
    pub fn only(part: usize) -> Self {
        PartSet(1 << part)
    }

    pub fn has(self, part: usize) -> bool {
        self.0 & 1 << part != 0
    }

    pub(crate) fn len(self) -> usize {
        self.0.count_ones() as usize
    }

    /// All that are in one of the sets.
    pub fn union(sets: impl Iterator<Item = PartSet>) -> PartSet {
        sets.fold(PartSet::default(), PartSet::bitor)
    }

    /// The parts of the set, rising.
    pub fn parts(mut self) -> impl Iterator<Item = usize> {
        std::iter::from_fn(move || {
            let least = (self.0 > 0).then(|| self.0.trailing_zeros() as usize)?;
            self.0 &= self.0 - 1;
            Some(least)
        })
    }
}

impl BitOr for PartSet {
    type Output = Self;

    fn bitor(self, other: Self) -> Self {
        PartSet(self.0 | other.0)
    }
}

/// An accepted part map.
pub struct PartMap {
    parts: usize,
    /// At each cell its owner, by global number; 0 at lower elements.
    owners: Vec<usize>,
}

impl PartMap {
    /// `wanted` are the parts that the call names; each has to be one of the map's.
    pub fn read(mesh: &Mesh, parts: u32, owners: &[u8], wanted: &[u32]) -> Answer<PartMap> {
        let is_part = |part: u32| (1..=parts).contains(&part);
        if !(1..=MOST_PARTS as u32).contains(&parts)
            || !wanted.iter().all(|&part| is_part(part))
            || !owners.iter().all(|&owner| is_part(owner.into()))
            || owners.len() != mesh.cells().len()
        {
            return Err(Refusal::PartMap);
        }
        let owning = PartSet::union(owners.iter().map(|&o| PartSet::only(o.into())));
        if owning.len() < parts as usize {
            return Err(Refusal::EmptyPart);
        }
        let mut by_number = vec![0; mesh.first_cell()];
        by_number.extend(owners.iter().map(|&o| usize::from(o)));
        Ok(PartMap { parts: parts as usize, owners: by_number })
    }
}

/// An accepted split of a mesh into parts.
pub struct Split {
    pub mesh: Mesh,
    map: PartMap,
    /// At each cell the parts that hold it, by global number.
    holders: Vec<PartSet>,
    reaches: Reaches,
}

#[derive(Clone, Copy, Debug, PartialEq, Eq)]
pub enum Range {
    Private,
    Exposed,
    Shared,
    Copied,
}

impl Range {
    pub const ALL: [Range; 4] = [Range::Private, Range::Exposed, Range::Shared, Range::Copied];

    pub fn name(self) -> &'static str {
        match self {
            Range::Private => "private",
            Range::Exposed => "exposed",
            Range::Shared => "shared",
            Range::Copied => "copied",
        }
    }

    /// The range for a part of a lower element, if the part holds it, by the parts that the element touches and those
    /// that hold it.
    pub fn of(part: usize, touched: PartSet, holders: PartSet) -> Option<Range> {
        if !holders.has(part) {
            None
        } else if !touched.has(part) {
            Some(Range::Copied)
        } else if touched.len() > 1 {
            Some(Range::Shared)
        } else if holders.len() > 1 {
            Some(Range::Exposed)
        } else {
            Some(Range::Private)
        }
    }
}

impl Split {
    pub fn read(input: PartInput, wanted: &[u32]) -> Answer<Split> {
        let mesh = Mesh::read(input.mesh)?;
        let map = PartMap::read(&mesh, input.parts, input.owners, wanted)?;
        let stencil = Stencil::read(input.stencil, mesh.top())?;
        Split::new(mesh, map, &stencil)
    }

    pub fn new(mesh: Mesh, map: PartMap, stencil: &Stencil) -> Answer<Split> {
        let holders = find_holders(&mesh, &map, stencil);
        if holders.iter().map(|parts| parts.len()).sum::<usize>() > MOST_HELD {
            return Err(Refusal::Held);
        }
        let reaches = Reaches::find(&mesh, stencil)?;
        Ok(Split { mesh, map, holders, reaches })
    }

    pub fn parts(&self) -> std::ops::RangeInclusive<usize> {
        1..=self.map.parts
    }

    pub fn reaches(&self) -> &Reaches {
        &self.reaches
    }

    fn list(&self, part: usize, list: List) -> Vec<usize> {
        match list {
            List::Interior => self.interior(part),
            List::Halo => self.halo(part),
            List::Locals => self.locals(part),
            List::Imports(other) => self.imports(part, other as usize),
            List::Exports(other) => self.exports(part, other as usize),
            List::Range(range, dimension) => self.range(part, range, dimension as usize),
        }
    }

    pub fn interior(&self, part: usize) -> Vec<usize> {
        self.cells(|c| self.owns(part, c) && self.reach_is_owned(part, c))
    }

    pub fn halo(&self, part: usize) -> Vec<usize> {
        self.cells(|c| self.owns(part, c) && !self.reach_is_owned(part, c))
    }

    /// The cells that `part` holds and `other` owns.
    pub fn imports(&self, part: usize, other: usize) -> Vec<usize> {
        self.cells(|c| part != other && self.owns(other, c) && self.holders[c].has(part))
    }

    pub fn exports(&self, part: usize, other: usize) -> Vec<usize> {
        self.imports(other, part)
    }

    /// The global numbers of the held cells in the order of their local ones.
    pub fn locals(&self, part: usize) -> Vec<usize> {
        let mut locals = self.interior(part);
        locals.extend(self.halo(part));
        locals.extend(self.parts().flat_map(|other| self.imports(part, other)));
        locals
    }

    /// The elements of one range of a dimension; none of a dimension that isn't lower than the cells'.
    pub fn range(&self, part: usize, range: Range, dimension: usize) -> Vec<usize> {
        if dimension >= self.mesh.top() {
            return Vec::new();
        }
        let elements = self.mesh.elements(dimension);
        elements.filter(|&e| self.range_of(part, e) == Some(range)).collect()
    }

    /// The range of a lower element, if the part holds it.
    fn range_of(&self, part: usize, element: usize) -> Option<Range> {
        let cells = self.mesh.cells_at(element).iter();
        let touched = PartSet::union(cells.clone().map(|&c| PartSet::only(self.map.owners[c])));
        let holders = PartSet::union(cells.map(|&c| self.holders[c]));
        Range::of(part, touched, holders)
    }

    /// The points that touch the part's owned cells, rising.
    pub fn points(&self, part: usize) -> Vec<usize> {
        let touches = |&point: &usize| self.mesh.cells_at(point).iter().any(|&c| self.owns(part, c));
        self.mesh.elements(0).filter(touches).collect()
    }

    /// Whether a cell incident to a point of an owned cell is outside that cell's reach (29).
    pub fn points_leave_reach(&self, part: usize) -> bool {
        let mut reached_from = vec![0; self.mesh.size()];
        self.mesh.cells().filter(|&c| self.owns(part, c)).any(|owned| {
            for entry in self.reaches.of(owned) {
                reached_from[entry.cell] = owned;
            }
            let mut at_points = self.mesh.sides(owned, 0).flat_map(|point| self.mesh.cells_at(point));
            at_points.any(|&c| reached_from[c] != owned)
        })
    }

    fn cells(&self, wanted: impl Fn(usize) -> bool) -> Vec<usize> {
        self.mesh.cells().filter(|&c| wanted(c)).collect()
    }

    fn owns(&self, part: usize, cell: usize) -> bool {
        self.map.owners[cell] == part
    }

    fn reach_is_owned(&self, part: usize, cell: usize) -> bool {
        let reach = self.reaches.of(cell);
        reach.iter().all(|entry| self.owns(part, entry.cell))
    }
}

/// The parts that hold each cell. The walks from all owned cells of all parts go on together, so that the work is
/// linear in the records even where the reaches are too many to be listed: 12 is decided before 13.
fn find_holders(mesh: &Mesh, map: &PartMap, stencil: &Stencil) -> Vec<PartSet> {
    let mut standing = vec![PartSet::default(); mesh.size()];
    for cell in mesh.cells() {
        standing[cell] = PartSet::only(map.owners[cell]);
    }
    let mut holders = standing.clone();
    for &dimension in stencil.through() {
        for side in mesh.elements(dimension) {
            let cells = mesh.cells_at(side).iter();
            standing[side] = PartSet::union(cells.map(|&c| standing[c]));
        }
        for cell in mesh.cells() {
            standing[cell] = PartSet::union(mesh.sides(cell, dimension).map(|e| standing[e]));
            holders[cell] = holders[cell] | standing[cell];
        }
    }
    holders
}
