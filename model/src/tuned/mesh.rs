//! The mesh bytes (numbers 1 to 7), with the chains as arrays, and the links between cells and lower elements.

use std::mem::replace;

use super::tables::{table, Marks, Rows, Table};
use crate::mesh::Head;
use crate::refusal::{Answer, Refusal};

/// The mesh that was read last.
pub struct Mesh {
    pub top: usize,
    /// At k, the count of elements of dimensions below k.
    below: [u16; 5],
    /// By element.
    chains: Rows<u16>,
    /// The records that were met.
    met: Box<Table<bool>>,
    named: Marks,
    /// How many cells' chains name an element.
    uses: Box<Table<u16>>,
    links: [Links; 3],
}

/// Which cells and elements of one lower dimension are incident, both by their places within their dimension, from 0.
pub struct Links {
    made: bool,
    /// By cell.
    pub sides: Rows<u16>,
    /// By side, rising.
    pub cells: Rows<u16>,
}

impl Mesh {
    pub fn new() -> Self {
        Mesh {
            top: 0,
            below: [0; 5],
            chains: Rows::new(),
            met: table(),
            named: Marks::new(),
            uses: table(),
            links: [(); 3].map(|()| Links { made: false, sides: Rows::new(), cells: Rows::new() }),
        }
    }

    pub fn read(&mut self, bytes: &[u8]) -> Answer<()> {
        let head = Head::read(bytes)?;
        if bytes.len() != head.length() {
            return Err(Refusal::MeshLength);
        }
        self.top = head.top;
        self.below = head.below().map(|count| count as u16);
        for links in &mut self.links {
            links.made = false;
        }
        self.follow_chains(&bytes[12..])?;
        self.check_closure()?;
        self.check_cover()
    }

    /// Tests 4 and 5 in one pass: what breaks 5 is only noted, since 4 comes first wherever it stands.
    fn follow_chains(&mut self, bytes: &[u8]) -> Answer<()> {
        let Mesh { chains, met, named, .. } = self;
        let (heads, records) = bytes.split_at(2 * usize::from(self.below[4]));
        let (heads, records) = (heads.as_chunks().0, records.as_chunks().0);
        let points = usize::from(self.below[1]);
        if heads[..points].iter().any(|&head| head != [0, 0]) {
            return Err(Refusal::Record);
        }
        chains.bounds[..=points].fill((0, 0));
        met[..=records.len()].fill(false);
        let mut end = 0;
        let mut fits = true;
        for dimension in 1..=self.top {
            let lower = self.below[dimension];
            for e in lower + 1..=self.below[dimension + 1] {
                let begin = end;
                named.empty();
                let mut next = u16::from_be_bytes(heads[usize::from(e) - 1]);
                while next > 0 {
                    let &[a, b, c, d] = records.get(usize::from(next) - 1).ok_or(Refusal::Record)?;
                    if replace(&mut met[usize::from(next)], true) {
                        return Err(Refusal::Record);
                    }
                    let element = u16::from_be_bytes([a, b]);
                    fits &= (element.wrapping_sub(1) < lower) & named.add(element);
                    chains.items[usize::from(end)] = element;
                    end += 1;
                    next = u16::from_be_bytes([c, d]);
                }
                chains.bounds[usize::from(e)] = (begin, end);
            }
        }
        fits.then_some(()).ok_or(Refusal::ChainElement)
    }

    /// Chains of points alone are closed, so this begins at dimension 2.
    fn check_closure(&mut self) -> Answer<()> {
        let Mesh { chains, named, .. } = self;
        let points = self.below[1];
        for e in self.below[2] + 1..=self.below[4] {
            let chain = chains.row(e);
            named.empty();
            for &f in chain {
                named.add(f);
            }
            let closed = |&f: &u16| f <= points || chains.row(f).iter().fold(true, |all, &g| all & named.has(g));
            if !chain.iter().all(closed) {
                return Err(Refusal::Closure);
            }
        }
        Ok(())
    }

    fn check_cover(&mut self) -> Answer<()> {
        let first = self.first_cell();
        self.uses[..=usize::from(self.below[4])].fill(0);
        // The chains of the cells are the last ones.
        let [begin, end] = [self.chains.bounds[usize::from(first)].0, self.chains.bounds[usize::from(self.below[4])].1];
        for &e in &self.chains.items[usize::from(begin)..usize::from(end)] {
            self.uses[usize::from(e)] += 1;
        }
        if self.uses[1..usize::from(first)].contains(&0) {
            return Err(Refusal::Uncovered);
        }
        Ok(())
    }

    pub fn first_cell(&self) -> u16 {
        self.below[self.top] + 1
    }

    pub fn cells(&self) -> u16 {
        self.count(self.top)
    }

    /// The first element of a dimension.
    pub fn first(&self, dimension: usize) -> u16 {
        self.below[dimension] + 1
    }

    pub fn count(&self, dimension: usize) -> u16 {
        self.below[dimension + 1] - self.below[dimension]
    }

    /// How many cells have an element of lower dimension in their chains.
    pub fn uses(&self, element: u16) -> u16 {
        self.uses[usize::from(element)]
    }

    /// The points of a cell, which goes by its place.
    pub fn points(&self, cell: u16) -> impl Iterator<Item = u16> + '_ {
        let last = self.below[1];
        self.chains.row(self.first_cell() + cell).iter().copied().filter(move |&e| e <= last)
    }

    pub fn links(&self, dimension: usize) -> &Links {
        &self.links[dimension]
    }

    /// Makes the links to a lower dimension, unless they are there.
    pub fn link(&mut self, dimension: usize) {
        let (cells, first_cell, first, count) =
            (self.cells(), self.first_cell(), self.first(dimension), self.count(dimension));
        let links = &mut self.links[dimension];
        if replace(&mut links.made, true) {
            return;
        }
        links.cells.make_room(self.uses[usize::from(first)..][..usize::from(count)].iter().copied());
        let mut end = 0;
        for cell in 0..cells {
            let begin = end;
            for &e in self.chains.row(first_cell + cell) {
                let side = e.wrapping_sub(first);
                links.sides.items[usize::from(end)] = side;
                end += u16::from(side < count);
            }
            links.sides.bounds[usize::from(cell)] = (begin, end);
            for &side in links.sides.row(cell) {
                links.cells.push(side, cell);
            }
        }
    }
}
