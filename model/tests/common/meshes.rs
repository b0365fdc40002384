//! The meshes of the examples.

use jemlayos_model::bytes::words;
use jemlayos_model::generate::shapes::Shape;

/// Five cells in a row, word by word as the specification has them.
pub fn five_cells() -> Vec<u8> {
    let mut mesh = vec![1, 6, 5, 0, 0, 10];
    mesh.extend([0, 0, 0, 0, 0, 0, 1, 3, 5, 7, 9]);
    mesh.extend([1, 2, 2, 0, 2, 4, 3, 0, 3, 6, 4, 0, 4, 8, 5, 0, 5, 10, 6, 0]);
    words(&mesh)
}

/// Three triangles: 15 (points 1 2 3), 16 (2 3 4) and 17 (1 5 6).
pub fn triangles() -> Vec<u8> {
    Shape::of_simplices(&[vec![1, 2, 3], vec![2, 3, 4], vec![1, 5, 6]]).encode_in_order()
}
