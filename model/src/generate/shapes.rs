//! Valid meshes: simplices, rows, grids and loose heaps of elements, closed under boundaries.

use std::collections::{BTreeMap, BTreeSet};

use super::random::Random;
use crate::bytes::words;

/// A mesh as chains, before it becomes bytes.
#[derive(Clone)]
pub struct Shape {
    pub top: usize,
    pub counts: [usize; 4],
    /// At e − 1 the chain of element e.
    pub chains: Vec<Vec<usize>>,
}

impl Shape {
    /// The mesh of simplices that are given by their points, numbered in the order given, with all their sides.
    pub fn of_simplices(cells: &[Vec<usize>]) -> Shape {
        let top = cells[0].len() - 1;
        let mut sides = vec![BTreeSet::new(); top];
        for side in cells.iter().flat_map(|cell| proper_subsets(cell)) {
            sides[side.len() - 1].insert(side);
        }
        let mut counts = [0; 4];
        let mut numbers = BTreeMap::new();
        for (dimension, sides) in sides.into_iter().enumerate() {
            counts[dimension] = sides.len();
            for side in sides {
                numbers.insert(side, numbers.len() + 1);
            }
        }
        counts[top] = cells.len();
        let mut simplices: Vec<&Vec<usize>> = numbers.keys().collect();
        simplices.sort_by_key(|&side| numbers[side]);
        let chains = simplices.into_iter().chain(cells);
        let chain = |simplex: &Vec<usize>| proper_subsets(simplex).iter().map(|side| numbers[side]).collect();
        Shape { top, counts, chains: chains.map(chain).collect() }
    }

    /// Cells in a row, each sharing a point with the next, then `apart` cells that share nothing.
    pub fn row(cells: usize, apart: usize) -> Shape {
        let row = (0..cells).map(|i| vec![i, i + 1]);
        let apart = (0..apart).map(|i| vec![cells + 1 + 2 * i, cells + 2 + 2 * i]);
        Shape::of_simplices(&row.chain(apart).collect::<Vec<_>>())
    }

    /// Cells that all share one point.
    pub fn star(cells: usize) -> Shape {
        Shape::of_simplices(&(1..=cells).map(|i| vec![0, i]).collect::<Vec<_>>())
    }

    /// Cells that all have the same points.
    pub fn dense(points: usize, cells: usize) -> Shape {
        let mut chains = vec![Vec::new(); points];
        chains.resize(points + cells, (1..=points).collect());
        Shape { top: 1, counts: [points, cells, 0, 0], chains }
    }

    /// A grid of squares or cubes, each cut into simplices along its diagonal: two triangles or six tetrahedra.
    pub fn grid(sides: &[usize]) -> Shape {
        let orders: &[&[usize]] = match sides.len() {
            1 => &[&[0]],
            2 => &[&[0, 1], &[1, 0]],
            _ => &[&[0, 1, 2], &[0, 2, 1], &[1, 0, 2], &[1, 2, 0], &[2, 0, 1], &[2, 1, 0]],
        };
        // A point's label is a number whose digits are its coordinates.
        let place = |axis: usize| sides[..axis].iter().map(|side| side + 1).product::<usize>();
        let mut corners = vec![0];
        for (axis, &side) in sides.iter().enumerate() {
            corners = (0..side).flat_map(|i| corners.iter().map(move |c| c + i * place(axis))).collect();
        }
        let cut = |corner: usize, order: &[usize]| {
            let mut path = vec![corner];
            path.extend(order.iter().scan(corner, |at, &axis| {
                *at += place(axis);
                Some(*at)
            }));
            path
        };
        let cells = corners.iter().flat_map(|&corner| orders.iter().map(move |order| cut(corner, order)));
        Shape::of_simplices(&cells.collect::<Vec<_>>())
    }

    /// Random simplices over a few points, so that they meet in many ways.
    pub fn random_simplices(random: &mut Random, top: usize, cells: usize) -> Shape {
        let points = random.between(top + 1, top + 2 + 2 * cells);
        let mut simplices = BTreeSet::new();
        for _ in 0..cells {
            let mut simplex = BTreeSet::new();
            while simplex.len() <= top {
                simplex.insert(random.below(points));
            }
            simplices.insert(simplex.into_iter().collect::<Vec<_>>());
        }
        let mut simplices: Vec<_> = simplices.into_iter().collect();
        random.shuffle(&mut simplices);
        Shape::of_simplices(&simplices)
    }

    /// Elements with random boundaries, empty ones too: all that the closure and the cover ask for, and no geometry.
    pub fn random_heap(random: &mut Random, top: usize, most: usize) -> Shape {
        let mut counts = [0; 4];
        for count in &mut counts[..=top] {
            *count = random.between(1, most);
        }
        let mut chains: Vec<BTreeSet<usize>> = Vec::new();
        for &count in &counts {
            let lower = chains.len();
            for _ in 0..count {
                chains.push(BTreeSet::new());
                for _ in 0..if lower > 0 { random.below(4) } else { 0 } {
                    let element = chains.len();
                    join(&mut chains, element, random.between(1, lower));
                }
            }
        }
        let (lower, cells) = (chains.len() - counts[top], counts[top]);
        for side in (1..=lower).rev() {
            if !chains[lower..].iter().any(|chain| chain.contains(&side)) {
                let cell = random.between(lower + 1, lower + cells);
                join(&mut chains, cell, side);
            }
        }
        let chains = chains.into_iter().map(|chain| chain.into_iter().collect()).collect();
        Shape { top, counts, chains }
    }

    /// A small mesh of any dimension and kind.
    pub fn random(random: &mut Random) -> Shape {
        let top = random.between(1, 3);
        let cells = random.between(1, 12);
        let shape = match random.below(6) {
            0 => Shape::row(random.between(1, 40), random.below(4)),
            1 => Shape::star(cells),
            2 => Shape::grid(&(0..top).map(|_| random.between(1, 3)).collect::<Vec<_>>()),
            3 => Shape::random_heap(random, top, cells),
            _ => Shape::random_simplices(random, top, cells),
        };
        shape.perhaps_renumbered(random)
    }

    /// The same mesh, more often than not with its elements numbered anew within each dimension.
    pub fn perhaps_renumbered(self, random: &mut Random) -> Shape {
        if random.one_in(3) {
            return self;
        }
        let mut numbers: Vec<usize> = (1..=self.chains.len()).collect();
        let mut rest = &mut numbers[..];
        for count in self.counts {
            let (dimension, others) = rest.split_at_mut(count);
            random.shuffle(dimension);
            rest = others;
        }
        let mut chains = vec![Vec::new(); self.chains.len()];
        for (chain, &number) in self.chains.iter().zip(&numbers) {
            chains[number - 1] = chain.iter().map(|&e| numbers[e - 1]).collect();
        }
        Shape { chains, ..self }
    }

    pub fn cells(&self) -> usize {
        self.counts[self.top]
    }

    pub fn records(&self) -> usize {
        self.chains.iter().map(Vec::len).sum()
    }

    /// The mesh's bytes with the records in the order of the chains.
    pub fn encode_in_order(&self) -> Vec<u8> {
        let places: Vec<usize> = (1..=self.records()).collect();
        self.encode_at(&places, &self.chains, vec![0; 2 * places.len()])
    }

    /// The mesh's bytes with chains and records in any order, and loose records that hold junk.
    pub fn encode(&self, random: &mut Random, loose: usize) -> Vec<u8> {
        let mut places: Vec<usize> = (1..=self.records() + loose).collect();
        random.shuffle(&mut places);
        let mut chains = self.chains.clone();
        for chain in &mut chains {
            random.shuffle(chain);
        }
        let junk = (0..2 * places.len()).map(|_| random.below(1 << 16)).collect();
        self.encode_at(&places, &chains, junk)
    }

    /// Each record in turn goes to the next of the places; `records` has what stands at the others.
    fn encode_at(&self, places: &[usize], chains: &[Vec<usize>], mut records: Vec<usize>) -> Vec<u8> {
        let mut mesh = vec![self.top];
        mesh.extend(self.counts);
        mesh.push(places.len());
        let mut free = places.iter();
        for chain in chains {
            let mut next = 0;
            for &element in chain.iter().rev() {
                let &place = free.next().expect("a place for every record");
                records[2 * place - 2] = element;
                records[2 * place - 1] = next;
                next = place;
            }
            mesh.push(next);
        }
        mesh.extend(records);
        words(&mesh)
    }
}

/// Puts a side and the side's chain into an element's chain.
fn join(chains: &mut [BTreeSet<usize>], element: usize, side: usize) {
    let mut sides = chains[side - 1].clone();
    sides.insert(side);
    chains[element - 1].extend(sides);
}

/// The sides of a simplex of at most four points, each with its points rising.
fn proper_subsets(points: &[usize]) -> Vec<Vec<usize>> {
    let mut points = points.to_vec();
    points.sort_unstable();
    let subset = |bits: usize| (0..points.len()).filter(|i| bits >> i & 1 == 1).map(|i| points[i]).collect();
    (1..(1 << points.len()) - 1).map(subset).collect()
}
