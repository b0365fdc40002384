//! Meshes damaged so that check mesh gives one number, and bytes damaged anyhow.

use super::random::Random;
use super::shapes::Shape;
use crate::bytes::{put_word, word, words};
use crate::mesh::{MOST_ELEMENTS, MOST_RECORDS};

/// A mesh that check mesh refuses with the given number, 1 to 7.
pub fn damaged_mesh(random: &mut Random, number: u32) -> Vec<u8> {
    let shape = shape_for(random, number);
    let loose = random.between(1, 4);
    let mut mesh = shape.encode(random, loose);
    match number {
        1 => damage_head(random, &mut mesh),
        2 => damage_counts(random, &mut mesh),
        3 => damage_length(random, &mut mesh),
        4 => damage_links(random, &shape, &mut mesh),
        5 => damage_elements(random, &shape, &mut mesh),
        // The shape itself is damaged.
        _ => {}
    }
    mesh
}

/// One or a few bytes changed, cut off or added.
pub fn damaged_bytes(random: &mut Random, bytes: &[u8]) -> Vec<u8> {
    let mut bytes = bytes.to_vec();
    match random.below(8) {
        0 => bytes.truncate(random.below(bytes.len() + 1)),
        1 => {
            let added = random.between(1, 5);
            bytes.extend(random.bytes(added));
        }
        _ if bytes.is_empty() => {}
        _ => {
            for _ in 0..random.between(1, 3) {
                let at = random.below(bytes.len());
                bytes[at] = damaged_byte(random, bytes[at]);
            }
        }
    }
    bytes
}

/// Another byte, most often a near or an extreme one.
pub fn damaged_byte(random: &mut Random, byte: u8) -> u8 {
    match random.below(6) {
        0 => byte.wrapping_add(1),
        1 => byte.wrapping_sub(1),
        2 => 0,
        3 => 255,
        4 => byte ^ 1 << random.below(8),
        _ => random.byte(),
    }
}

/// A shape that can be damaged for the number; for 6 and 7 it is already.
fn shape_for(random: &mut Random, number: u32) -> Shape {
    let top = random.between(if number == 6 { 2 } else { 1 }, 3);
    let cells = random.between(2, 8);
    let shape = Shape::random_simplices(random, top, cells);
    match number {
        6 => without_a_side(random, shape),
        7 => with_uncovered(random, shape),
        _ => shape,
    }
}

/// Some g is in f's chain and f in e's, but g is no longer in e's.
fn without_a_side(random: &mut Random, mut shape: Shape) -> Shape {
    let (points, edges) = (shape.counts[0], shape.counts[1]);
    let e = random.between(points + edges, shape.chains.len() - 1);
    let removed = *random.pick(&shape.chains[e]);
    let is_on_a_side = shape.chains[e].iter().any(|&f| shape.chains[f - 1].contains(&removed));
    let removed = if is_on_a_side { removed } else { shape.chains[e][0] };
    shape.chains[e].retain(|&g| g != removed);
    shape
}

/// One more lower element, the last of its dimension, in no chain.
fn with_uncovered(random: &mut Random, mut shape: Shape) -> Shape {
    let dimension = random.below(shape.top);
    let number: usize = shape.counts[..=dimension].iter().sum::<usize>() + 1;
    for element in shape.chains.iter_mut().flatten() {
        *element += usize::from(*element >= number);
    }
    shape.chains.insert(number - 1, Vec::new());
    shape.counts[dimension] += 1;
    shape
}

fn damage_head(random: &mut Random, mesh: &mut Vec<u8>) {
    if random.one_in(2) {
        mesh.truncate(random.below(12));
    } else {
        put_word(mesh, 0, *random.pick(&[0, 4, 256, 257, 65_535]));
    }
}

fn damage_counts(random: &mut Random, mesh: &mut [u8]) {
    let top = word(mesh, 0);
    match random.below(4) {
        0 => put_word(mesh, 1 + random.below(top + 1), 0),
        1 if top < 3 => put_word(mesh, random.between(top + 2, 4), random.between(1, 3)),
        2 => put_word(mesh, 5, MOST_RECORDS + random.between(1, 50_000)),
        _ => {
            // The last sum is 65,536: too many elements, but 0 in a word.
            let others: usize = (2..=4).map(|i| word(mesh, i)).sum();
            let points = [MOST_ELEMENTS + 1 - others, 65_535, 65_536 - others];
            put_word(mesh, 1, *random.pick(&points));
        }
    }
}

fn damage_length(random: &mut Random, mesh: &mut Vec<u8>) {
    match random.below(3) {
        0 => mesh.truncate(random.between(12, mesh.len() - 1)),
        1 => mesh.extend(random.bytes(2)),
        _ => {
            let records = word(mesh, 5);
            put_word(mesh, 5, records - 1);
        }
    }
}

/// The places of the words that link chains: heads of higher elements, and nexts of the records that they lead to.
fn links(shape: &Shape, mesh: &[u8]) -> Vec<usize> {
    let elements = shape.chains.len();
    let mut links = Vec::new();
    for e in shape.counts[0] + 1..=elements {
        let mut place = 5 + e;
        links.push(place);
        while word(mesh, place) > 0 {
            place = 5 + elements + 2 * word(mesh, place);
            links.push(place);
        }
    }
    links
}

fn damage_links(random: &mut Random, shape: &Shape, mesh: &mut [u8]) {
    let records = word(mesh, 5);
    let (ends, onward): (Vec<usize>, Vec<usize>) =
        links(shape, mesh).into_iter().partition(|&place| word(mesh, place) == 0);
    match random.below(4) {
        0 => put_word(mesh, *random.pick(&onward), random.between(records + 1, 65_535)),
        1 => put_word(mesh, *random.pick(&ends), records + 1),
        // A point with a head, even to a record that nothing else leads to.
        2 => put_word(mesh, 5 + random.between(1, shape.counts[0]), random.between(1, records)),
        // A chain goes on at a record that is met elsewhere, in the same chain or in another.
        _ => put_word(mesh, *random.pick(&ends), word(mesh, *random.pick(&onward))),
    }
}

fn damage_elements(random: &mut Random, shape: &Shape, mesh: &mut [u8]) {
    let elements = shape.chains.len();
    let e = random.between(shape.counts[0] + 1, elements);
    let element_in = |record: usize| 4 + elements + 2 * record;
    let first = word(mesh, 5 + e);
    let second = word(mesh, element_in(first) + 1);
    let twice = word(mesh, element_in(second));
    let wrong = [0, elements + 1, 65_535, e, random.between(e, elements), twice];
    put_word(mesh, element_in(first), *random.pick(&wrong));
}

/// Meshes whose chains are as long as they can be, each with the number that check mesh gives, 0 where it accepts.
pub fn long_meshes() -> Vec<(Vec<u8>, u32)> {
    let one_chain = |points: usize, records: usize, last: usize| {
        let mut mesh = vec![1, points, 1, 0, 0, records];
        mesh.extend(vec![0; points]);
        mesh.push(1);
        for record in 1..=records {
            let next = if record < records { record + 1 } else { last };
            mesh.extend([1 + (record - 1) % points, next]);
        }
        words(&mesh)
    };
    let points = MOST_ELEMENTS - 1;
    vec![
        (one_chain(points, points, 0), 0),
        (one_chain(points, MOST_RECORDS, 0), 5),
        (one_chain(points, MOST_RECORDS, 1), 4),
        (one_chain(points, MOST_RECORDS, MOST_RECORDS), 4),
        (one_chain(points, MOST_RECORDS + 1, 0), 2),
        (one_chain(points + 1, points + 1, 0), 2),
        (one_chain(points, points - 1, 0), 7),
    ]
}
