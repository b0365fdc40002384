//! The reaches of all cells (numbers 10 and 13). Cells go by their places, from 0.

use std::mem::take;
use std::ops::Range;

use super::mesh::{Links, Mesh};
use super::tables::{table, Marks, Rows, Table};
use crate::refusal::{Answer, Refusal};
use crate::walks::{MOST_REACHED, MOST_STEPS};

pub fn check_stencil(stencil: &[u8], top: usize) -> Answer<()> {
    let fits = |(i, &a): (usize, &u8)| if i % 2 == 0 { usize::from(a) == top } else { usize::from(a) < top };
    if stencil.len().is_multiple_of(2) || stencil.len() > MOST_STEPS + 1 || !stencil.iter().enumerate().all(fits) {
        return Err(Refusal::Stencil);
    }
    Ok(())
}

/// The dimensions of the elements that a walk goes through, from cell to cell.
pub fn through(stencil: &[u8]) -> impl Iterator<Item = usize> + Clone + '_ {
    stencil.as_chunks().0.iter().map(|&[_, dimension]| usize::from(dimension))
}

/// A cell of a reach, with its layer.
#[derive(Clone, Copy, Default)]
pub struct Reached {
    pub cell: u16,
    pub layer: u16,
}

pub struct Walks {
    /// By cell, each rising.
    pub reaches: Rows<Reached>,
    /// By cell, the others that two steps lead to.
    near: Rows<u16>,
    met_cells: Marks,
    met_sides: Marks,
    /// Where the walks from one cell stand after each two steps, one step after the other.
    stands: Box<Table<u16>>,
    found: Found,
}

impl Walks {
    pub fn new() -> Self {
        Walks {
            reaches: Rows::new(),
            near: Rows::new(),
            met_cells: Marks::new(),
            met_sides: Marks::new(),
            stands: table(),
            found: Found { bits: [0; 1 << 10], words: 0..0, layers: table() },
        }
    }

    /// Finds the reaches of all cells; false where they are too many. One copy for all calls, which keeps it warm.
    #[inline(never)]
    pub fn find(&mut self, mesh: &mut Mesh, stencil: &[u8]) -> bool {
        through(stencil).for_each(|dimension| mesh.link(dimension));
        let mixed = through(stencil).zip(through(stencil).skip(1)).any(|(a, b)| a != b);
        let near = !mixed && stencil.len() > 1 && self.find_near(mesh.links(stencil[1].into()), mesh.cells());
        let mut end = 0;
        for cell in 0..mesh.cells() {
            let begin = end;
            self.walk(mesh, stencil, mixed, near, cell);
            end = self.found.give(&mut self.reaches.items, end);
            if usize::from(end) > MOST_REACHED {
                return false;
            }
            self.reaches.bounds[usize::from(cell)] = (begin, end);
        }
        true
    }

    /// All walks from a cell go on together, two steps at a time. Where all steps go through one dimension, what was met
    /// before leads to nothing new, so the marks stay for the whole walk, and it goes on from new cells alone.
    fn walk(&mut self, mesh: &Mesh, stencil: &[u8], mixed: bool, near: bool, from: u16) {
        let Walks { met_cells, met_sides, stands, found, .. } = self;
        met_cells.empty();
        met_sides.empty();
        met_cells.add(from);
        stands[0] = from;
        found.begin(from);
        let (mut begin, mut end) = (0, 1);
        for (layer, dimension) in (2..).step_by(2).zip(through(stencil)) {
            if mixed {
                met_cells.empty();
                met_sides.empty();
            }
            let now = begin..end;
            begin = end;
            for place in now {
                let cell = stands[usize::from(place)];
                if near {
                    end = stand_at(self.near.row(cell), met_cells, stands, end);
                } else {
                    let links = mesh.links(dimension);
                    for &side in links.sides.row(cell) {
                        if met_sides.add(side) {
                            end = stand_at(links.cells.row(side), met_cells, stands, end);
                        }
                    }
                }
            }
            found.add(&stands[usize::from(begin)..usize::from(end)], layer);
        }
    }

    /// Lists for each cell the others that two steps lead to. False where that is not worth while: where many cells
    /// share a side, it is quicker to go through the side once.
    fn find_near(&mut self, links: &Links, cells: u16) -> bool {
        let Walks { near, met_cells, .. } = self;
        let mut end = 0;
        let mut sides = 0;
        for cell in 0..cells {
            let begin = end;
            met_cells.empty();
            met_cells.add(cell);
            for &side in links.sides.row(cell) {
                end = stand_at(links.cells.row(side), met_cells, &mut near.items, end);
            }
            near.bounds[usize::from(cell)] = (begin, end);
            sides += links.sides.row(cell).len();
            if usize::from(end) > 2 * sides {
                return false;
            }
        }
        true
    }
}

/// Puts those cells that are not met yet behind the others.
#[inline(always)]
fn stand_at(cells: &[u16], met: &mut Marks, stands: &mut Table<u16>, mut end: u16) -> u16 {
    for &cell in cells {
        stands[usize::from(end)] = cell;
        end += u16::from(met.add(cell));
    }
    end
}

/// The cells that were reached from one cell, as bits, so that they can be given in rising order.
struct Found {
    bits: [u64; 1 << 10],
    /// The words that have a bit.
    words: Range<usize>,
    layers: Box<Table<u16>>,
}

impl Found {
    /// The cell alone, with layer 0.
    fn begin(&mut self, from: u16) {
        let word = usize::from(from / 64);
        self.words = word..word + 1;
        self.add(&[from], 0);
    }

    fn add(&mut self, cells: &[u16], layer: u16) {
        for &cell in cells {
            let (word, bit) = (usize::from(cell / 64), 1 << (cell % 64));
            if self.bits[word] & bit == 0 {
                self.bits[word] |= bit;
                self.layers[usize::from(cell)] = layer;
            }
            self.words = self.words.start.min(word)..self.words.end.max(word + 1);
        }
    }

    /// Gives all cells from a place on, and keeps none; the place after them.
    fn give(&mut self, reaches: &mut Table<Reached>, mut end: u16) -> u16 {
        for word in self.words.clone() {
            let mut bits = take(&mut self.bits[word]);
            while bits != 0 {
                let cell = (64 * word) as u16 + bits.trailing_zeros() as u16;
                reaches[usize::from(end)] = Reached { cell, layer: self.layers[usize::from(cell)] };
                end += 1;
                bits &= bits - 1;
            }
        }
        end
    }
}
