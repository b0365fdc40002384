//! The mesh bytes: elements, chains and incidence (numbers 1 to 7).

use std::mem::replace;
use std::ops::Range;

use crate::bytes::word;
use crate::refusal::{Answer, Refusal};
use crate::rows::Rows;

pub const MOST_ELEMENTS: usize = 2_000;
pub const MOST_RECORDS: usize = 12_000;

/// The number of cells, if the bytes are a mesh.
pub fn check_mesh(bytes: &[u8]) -> Answer {
    Ok(Mesh::read(bytes)?.cells().len() as u32)
}

/// What the six words at the front of a mesh say.
pub struct Head {
    /// d, the dimension of the cells.
    pub top: usize,
    counts: [usize; 4],
    records: usize,
}

impl Head {
    pub fn read(bytes: &[u8]) -> Answer<Head> {
        let top = word(bytes, 0);
        if bytes.len() < 12 || !(1..=3).contains(&top) {
            return Err(Refusal::MeshHead);
        }
        let head = Head { top, counts: [1, 2, 3, 4].map(|i| word(bytes, i)), records: word(bytes, 5) };
        let miscounted = (0..4).any(|k| (head.counts[k] > 0) != (k <= top));
        if miscounted || head.elements() > MOST_ELEMENTS || head.records > MOST_RECORDS {
            return Err(Refusal::Counts);
        }
        Ok(head)
    }

    /// N, the count of elements.
    fn elements(&self) -> usize {
        self.counts.iter().sum()
    }

    /// At k, the count of elements of dimensions below k.
    pub fn below(&self) -> [usize; 5] {
        let mut below = [0; 5];
        for k in 0..4 {
            below[k + 1] = below[k] + self.counts[k];
        }
        below
    }

    /// The length in bytes of a mesh with this head.
    pub fn length(&self) -> usize {
        2 * (6 + self.elements() + 2 * self.records)
    }
}

/// An accepted mesh. Elements go by their global numbers, from 1.
pub struct Mesh {
    top: usize,
    /// At k, the count of elements of dimensions below k.
    below: [usize; 5],
    /// At e, the elements of e's chain; row 0 is empty.
    chains: Rows<usize>,
    /// At e, the cells whose chain names e, rising.
    cells_at: Rows<usize>,
}

impl Mesh {
    pub fn read(bytes: &[u8]) -> Answer<Mesh> {
        let head = Head::read(bytes)?;
        if bytes.len() != head.length() {
            return Err(Refusal::MeshLength);
        }
        let below = head.below();
        let chains = follow_chains(bytes, &head)?;
        let cells = below[head.top] + 1..below[head.top + 1] + 1;
        check_elements(&chains, &below)?;
        let mesh = Mesh { top: head.top, below, cells_at: chains.turned(cells, head.elements() + 1), chains };
        mesh.check_closure()?;
        mesh.check_cover()?;
        Ok(mesh)
    }

    /// Every f of e's chain has its own chain in e's.
    fn check_closure(&self) -> Answer<()> {
        let mut named_by = vec![0; self.size()];
        for e in 1..self.size() {
            let chain = self.chains.row(e);
            for &f in chain {
                named_by[f] = e;
            }
            let named = |&g: &usize| named_by[g] == e;
            if !chain.iter().all(|&f| self.chains.row(f).iter().all(named)) {
                return Err(Refusal::Closure);
            }
        }
        Ok(())
    }

    fn check_cover(&self) -> Answer<()> {
        if (1..self.first_cell()).any(|e| self.cells_at(e).is_empty()) {
            return Err(Refusal::Uncovered);
        }
        Ok(())
    }

    /// d, the dimension of the cells.
    pub fn top(&self) -> usize {
        self.top
    }

    /// The length of a table that is indexed by global numbers: N + 1.
    pub fn size(&self) -> usize {
        self.below[4] + 1
    }

    /// The elements of a dimension.
    pub fn elements(&self, dimension: usize) -> Range<usize> {
        self.below[dimension] + 1..self.below[dimension + 1] + 1
    }

    pub fn cells(&self) -> Range<usize> {
        self.elements(self.top)
    }

    pub fn first_cell(&self) -> usize {
        self.cells().start
    }

    /// The elements of a lower dimension that are incident to a cell.
    pub fn sides(&self, cell: usize, dimension: usize) -> impl Iterator<Item = usize> + '_ {
        let elements = self.elements(dimension);
        let chain = self.chains.row(cell).iter().copied();
        chain.filter(move |e| elements.contains(e))
    }

    /// The cells incident to a lower element, rising.
    pub fn cells_at(&self, element: usize) -> &[usize] {
        self.cells_at.row(element)
    }
}

/// All chains, as long as their records are in order (4); what the records name is not looked at.
fn follow_chains(bytes: &[u8], head: &Head) -> Answer<Rows<usize>> {
    let elements = head.elements();
    let mut met = vec![false; head.records + 1];
    let mut chains = Rows::new();
    chains.push([]);
    let mut chain = Vec::new();
    for e in 1..=elements {
        let mut record = word(bytes, 5 + e);
        if record > 0 && e <= head.counts[0] {
            return Err(Refusal::Record);
        }
        while record > 0 {
            if record > head.records || replace(&mut met[record], true) {
                return Err(Refusal::Record);
            }
            chain.push(word(bytes, 4 + elements + 2 * record));
            record = word(bytes, 5 + elements + 2 * record);
        }
        chains.push(chain.drain(..));
    }
    Ok(chains)
}

/// Every chain names elements of lower dimension, each once (5).
fn check_elements(chains: &Rows<usize>, below: &[usize; 5]) -> Answer<()> {
    let mut named_by = vec![0; below[4] + 1];
    for dimension in 0..4 {
        for e in below[dimension] + 1..=below[dimension + 1] {
            for &g in chains.row(e) {
                if g == 0 || g > below[dimension] || replace(&mut named_by[g], e) == e {
                    return Err(Refusal::ChainElement);
                }
            }
        }
    }
    Ok(())
}
