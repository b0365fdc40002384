//! The text of the list program.

use std::fmt::Write;

use crate::mesh::{Head, Mesh};
use crate::refusal::{Answer, Refusal};
use crate::split::{PartMap, Range, Split};
use crate::walks::Stencil;

pub const LONGEST_INPUT: usize = 65_536;

/// What the list program prints for its whole input.
pub fn text(input: &[u8]) -> String {
    if input.len() > LONGEST_INPUT {
        return "too long\n".to_string();
    }
    match read(input) {
        Ok(split) => lists(&split),
        Err(refusal) => format!("refused {}\n", refusal.number()),
    }
}

/// The input is the mesh, a byte P, the owners, a byte stencil length, the stencil. Each piece is read only when those
/// before it are accepted, so a cut gives the number of the first piece that isn't whole.
fn read(input: &[u8]) -> Answer<Split> {
    let length = Head::read(input)?.length();
    let (mesh, rest) = input.split_at_checked(length).ok_or(Refusal::MeshLength)?;
    let mesh = Mesh::read(mesh)?;
    let (&parts, rest) = rest.split_first().ok_or(Refusal::PartMap)?;
    let (owners, rest) = rest.split_at_checked(mesh.cells().len()).ok_or(Refusal::PartMap)?;
    let map = PartMap::read(&mesh, parts.into(), owners, &[])?;
    let (&length, stencil) = rest.split_first().ok_or(Refusal::Stencil)?;
    if stencil.len() != usize::from(length) {
        return Err(Refusal::Stencil);
    }
    let stencil = Stencil::read(stencil, mesh.top())?;
    Split::new(mesh, map, &stencil)
}

fn lists(split: &Split) -> String {
    let mut text = String::new();
    line(&mut text, "parts", &[*split.parts().end()]);
    for part in split.parts() {
        line(&mut text, "part", &[part]);
        line(&mut text, "interior", &split.interior(part));
        line(&mut text, "halo", &split.halo(part));
        for other in split.parts() {
            line_unless_empty(&mut text, &format!("import {other}"), &split.imports(part, other));
        }
        for other in split.parts() {
            line_unless_empty(&mut text, &format!("export {other}"), &split.exports(part, other));
        }
        for dimension in 0..split.mesh.top() {
            for range in Range::ALL {
                let label = format!("dim {dimension} {}", range.name());
                line(&mut text, &label, &split.range(part, range, dimension));
            }
        }
    }
    text
}

fn line_unless_empty(text: &mut String, label: &str, numbers: &[usize]) {
    if !numbers.is_empty() {
        line(text, label, numbers);
    }
}

fn line(text: &mut String, label: &str, numbers: &[usize]) {
    text.push_str(label);
    for number in numbers {
        write!(text, " {number}").expect("a string takes all text");
    }
    text.push('\n');
}
