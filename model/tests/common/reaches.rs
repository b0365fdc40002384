//! The reaches of the cells of a mesh, as the model finds them.

use std::collections::BTreeMap;

use jemlayos_model::mesh::Mesh;
use jemlayos_model::walks::{Reaches, Stencil};

/// The reach of each cell, by the cell's number: the cells in it, each with its layer.
pub fn reaches(mesh: &Mesh, stencil: &[u8]) -> BTreeMap<usize, Vec<(usize, usize)>> {
    let found = Reaches::find(mesh, &Stencil::read(stencil, mesh.top()).unwrap()).unwrap();
    let reach = |cell| found.of(cell).iter().map(|reached| (reached.cell, reached.layer)).collect();
    mesh.cells().map(|cell| (cell, reach(cell))).collect()
}
