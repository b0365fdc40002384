//! Stencils, walks, layers and reaches (numbers 10 and 13).

use std::mem::replace;

use crate::mesh::Mesh;
use crate::refusal::{Answer, Refusal};
use crate::rows::Rows;

pub const MOST_STEPS: usize = 8;
pub const MOST_REACHED: usize = 8_000;

/// An accepted stencil. Its even places all have the dimension of the cells, so only its odd places are kept.
pub struct Stencil {
    through: Vec<usize>,
}

impl Stencil {
    pub fn read(bytes: &[u8], top: usize) -> Answer<Stencil> {
        let dimensions: Vec<usize> = bytes.iter().map(|&a| a.into()).collect();
        let fits = |(i, &a): (usize, &usize)| if i % 2 == 0 { a == top } else { a < top };
        if dimensions.len().is_multiple_of(2)
            || dimensions.len() > MOST_STEPS + 1
            || !dimensions.iter().enumerate().all(fits)
        {
            return Err(Refusal::Stencil);
        }
        let through = dimensions.into_iter().skip(1).step_by(2).collect();
        Ok(Stencil { through })
    }

    /// n, the greatest number of steps.
    pub fn steps(&self) -> usize {
        2 * self.through.len()
    }

    /// The dimensions of the elements that a walk goes through, from cell to cell.
    pub fn through(&self) -> &[usize] {
        &self.through
    }
}

/// A cell of a reach, with its layer.
#[derive(Clone, Copy, Debug, PartialEq, Eq, PartialOrd, Ord)]
pub struct Reached {
    pub cell: usize,
    pub layer: usize,
}

/// The reaches of all cells.
pub struct Reaches {
    first_cell: usize,
    rows: Rows<Reached>,
}

impl Reaches {
    pub fn find(mesh: &Mesh, stencil: &Stencil) -> Answer<Reaches> {
        let mut walks = Walks::new(mesh);
        let mut rows = Rows::new();
        for cell in mesh.cells() {
            rows.push(walks.reach(cell, stencil).iter().copied());
            if rows.size() > MOST_REACHED {
                return Err(Refusal::Reach);
            }
        }
        Ok(Reaches { first_cell: mesh.first_cell(), rows })
    }

    /// The reach of a cell, rising by global number.
    pub fn of(&self, cell: usize) -> &[Reached] {
        self.rows.row(cell - self.first_cell)
    }
}

/// The walks from one cell after another. The vectors are kept, so that a walk costs only what it meets.
struct Walks<'a> {
    mesh: &'a Mesh,
    met: Marks,
    /// At each cell the last one from which it was reached.
    reached_from: Vec<usize>,
    /// Where the walks stand after an odd and after an even step.
    sides: Vec<usize>,
    cells: Vec<usize>,
    reach: Vec<Reached>,
}

impl<'a> Walks<'a> {
    fn new(mesh: &'a Mesh) -> Self {
        Walks {
            mesh,
            met: Marks { step: 0, last: vec![0; mesh.size()] },
            reached_from: vec![0; mesh.size()],
            sides: Vec::new(),
            cells: Vec::new(),
            reach: Vec::new(),
        }
    }

    /// All walks from a cell go on together, two steps at a time. Nothing visited is removed: a walk may return.
    fn reach(&mut self, from: usize, stencil: &Stencil) -> &[Reached] {
        let mesh = self.mesh;
        self.cells.clear();
        self.cells.push(from);
        self.reach.clear();
        self.note_new(from, 0);
        for (pair, &dimension) in stencil.through().iter().enumerate() {
            let sides = self.cells.iter().flat_map(|&c| mesh.sides(c, dimension));
            self.met.step(sides, &mut self.sides);
            let cells = self.sides.iter().flat_map(|&e| mesh.cells_at(e)).copied();
            self.met.step(cells, &mut self.cells);
            self.note_new(from, 2 * (pair + 1));
        }
        self.reach.sort_unstable();
        &self.reach
    }

    /// The cells that a walk stands at for the first time are in this layer.
    fn note_new(&mut self, from: usize, layer: usize) {
        for &cell in &self.cells {
            if replace(&mut self.reached_from[cell], from) != from {
                self.reach.push(Reached { cell, layer });
            }
        }
    }
}

/// At each element the step that met it last, over all walks, so that no marks have to be wiped.
struct Marks {
    step: usize,
    last: Vec<usize>,
}

impl Marks {
    /// The elements that a step ends at, each once.
    fn step(&mut self, incident: impl Iterator<Item = usize>, ends: &mut Vec<usize>) {
        self.step += 1;
        ends.clear();
        ends.extend(incident.filter(|&e| replace(&mut self.last[e], self.step) != self.step));
    }
}
