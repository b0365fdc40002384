//! Whole inputs of a run: mesh, part map, stencil, rule and field, valid ones, those at the limits and damaged ones.

use super::damage::{damaged_bytes, damaged_mesh};
use super::random::Random;
use super::shapes::Shape;
use crate::bytes::{put_value, values, words, Value, DEEPEST};
use crate::calls::{PartInput, RuleInput};
use crate::mesh::MOST_RECORDS;
use crate::rounds::MOST_WEIGHT;
use crate::split::MOST_PARTS;
use crate::walks::MOST_STEPS;

#[derive(Clone)]
pub struct Scenario {
    pub top: usize,
    pub cells: usize,
    pub mesh: Vec<u8>,
    pub parts: u32,
    pub owners: Vec<u8>,
    pub stencil: Vec<u8>,
    pub kind: u32,
    pub weights: Vec<u8>,
    /// How many of a hundred values of the field are gaps, about.
    pub gap_share: usize,
    pub field: Vec<u8>,
}

/// How the cells are dealt out to the parts.
#[derive(Clone, Copy)]
pub enum Deal {
    Blocks,
    Turns,
    Anyhow,
}

impl Scenario {
    /// Valid inputs over a shape, with any rule and field.
    pub fn over(random: &mut Random, shape: &Shape, parts: usize, deal: Deal, stencil: Vec<u8>) -> Scenario {
        let cells = shape.cells();
        let loose = random.below(4).min(MOST_RECORDS - shape.records());
        let (kind, weights) = rule(random, stencil.len() / 2);
        let gap_share = random_gap_share(random);
        Scenario {
            top: shape.top,
            cells,
            mesh: shape.encode(random, loose),
            parts: parts as u32,
            owners: owners(random, cells, parts, deal),
            stencil,
            kind,
            weights,
            gap_share,
            field: field(random, cells, gap_share),
        }
    }

    /// Small valid inputs.
    pub fn random(random: &mut Random) -> Scenario {
        if random.one_in(4) {
            return Scenario::lopsided(random);
        }
        let shape = Shape::random(random);
        Scenario::somehow_over(random, &shape)
    }

    /// Inputs near the limits, some beyond those of the held cells or of the reaches.
    pub fn large(random: &mut Random) -> Scenario {
        let shape = match random.below(5) {
            0 => Shape::row(random.between(600, 995), random.below(4)),
            1 => Shape::star(random.between(60, 999)),
            2 => Shape::grid(&[random.between(8, 17), random.between(8, 17)]),
            3 => Shape::grid(&[4, 4, random.between(1, 4)]),
            _ => full_of_records(random),
        };
        let shape = shape.perhaps_renumbered(random);
        Scenario::somehow_over(random, &shape)
    }

    fn somehow_over(random: &mut Random, shape: &Shape) -> Scenario {
        let parts = random.between(1, MOST_PARTS.min(shape.cells()));
        let deal = *random.pick(&[Deal::Blocks, Deal::Turns, Deal::Anyhow]);
        let stencil = stencil(random, shape.top);
        Scenario::over(random, shape, parts, deal, stencil)
    }

    /// A few parts under a stencil that is not the same from its end: reaches are not symmetric, and interior cells are
    /// exported, which come earlier in local order than in the export list.
    pub fn lopsided(random: &mut Random) -> Scenario {
        let top = random.between(2, 3);
        let shape = match random.below(4) {
            0 => Shape::grid(&vec![random.between(2, 8 - 2 * top); top]),
            _ => Shape::random_heap(random, top, 25),
        };
        let parts = random.between(1, 3).min(shape.cells());
        let through = *random.pick(&[[top as u8 - 1, 0], [0, top as u8 - 1]]);
        Scenario::over(random, &shape, parts, Deal::Blocks, stencil_through(top as u8, &through))
    }

    /// Inputs at the limits, just within them and just beyond.
    pub fn extremes(random: &mut Random) -> Vec<(&'static str, Scenario)> {
        let tetrahedra = Shape::grid(&[4, 4, 4]);
        let through_points = |top: u8, steps: usize| stencil_through(top, &vec![0; steps / 2]);
        let through_faces = |steps: usize| stencil_through(3, &vec![2; steps / 2]);
        let twelve_points_each = full_of_records(random);
        let mut extremes = Vec::new();
        let mut add = |name, shape: &Shape, parts, deal, stencil| {
            extremes.push((name, Scenario::over(random, shape, parts, deal, stencil)));
        };
        use Deal::{Anyhow, Blocks, Turns};
        add("999 cells in a row", &Shape::row(999, 0), 4, Blocks, through_points(1, 6));
        add("2,000 elements, 12,000 records", &twelve_points_each, 4, Blocks, vec![1]);
        add("2,000 elements, 12,000 records, dense", &twelve_points_each, 2, Anyhow, through_points(1, 2));
        // A row of c cells with n = 8 reaches 9c − 20; each cell apart reaches itself.
        add("8,000 reached", &Shape::row(891, 1), 3, Blocks, through_points(1, 8));
        add("8,001 reached", &Shape::row(891, 2), 3, Blocks, through_points(1, 8));
        // A row of c cells, dealt out in turns to five parts or more with n = 4, is held 5c − 6 times.
        add("4,096 held", &Shape::row(820, 2), 5, Turns, through_points(1, 4));
        add("4,097 held", &Shape::row(820, 3), 6, Turns, through_points(1, 4));
        add("12 before 13", &Shape::star(999), 16, Turns, through_points(1, 2));
        add("13 and not 12", &Shape::star(999), 4, Turns, through_points(1, 8));
        add("star of 89", &Shape::star(89), 16, Anyhow, through_points(1, 8));
        add("star of 90", &Shape::star(90), 16, Anyhow, through_points(1, 8));
        add("tetrahedra through faces", &tetrahedra, 8, Blocks, through_faces(4));
        add("tetrahedra through points", &tetrahedra, 2, Blocks, through_points(3, 8));
        add("tetrahedra in one part", &tetrahedra, 1, Blocks, through_faces(4));
        add("triangles", &Shape::grid(&[16, 20]), 16, Anyhow, stencil_through(2, &[1]));
        // Under the stencil (d) a cell reaches itself alone, and so gives its points only if it shares none (29).
        add("one cell alone", &Shape::row(1, 0), 1, Blocks, vec![1]);
        add("cells alone that share points", &Shape::row(5, 0), 2, Blocks, vec![1]);
        add("cells alone that share none", &Shape::row(1, 4), 2, Turns, vec![1]);
        extremes
    }

    pub fn part(&self, part: u32) -> PartInput<'_> {
        PartInput { mesh: &self.mesh, parts: self.parts, owners: &self.owners, part, stencil: &self.stencil }
    }

    pub fn rule(&self) -> RuleInput<'_> {
        RuleInput { kind: self.kind, weights: &self.weights }
    }

    /// What the list program reads.
    pub fn listing_input(&self) -> Vec<u8> {
        let (parts, length) = (self.parts as u8, self.stencil.len() as u8);
        [&self.mesh, &[parts][..], &self.owners, &[length], &self.stencil].concat()
    }

    /// Some of the inputs, perhaps none, get a fault each.
    pub fn damage(&mut self, random: &mut Random) {
        let damages =
            [Self::damage_mesh, Self::damage_map, Self::damage_stencil, Self::damage_rule, Self::damage_field];
        for damage in damages {
            if random.one_in(4) {
                damage(self, random);
            }
        }
    }

    fn damage_mesh(&mut self, random: &mut Random) {
        let number = random.between(1, 7) as u32;
        self.mesh = match random.below(2) {
            0 => damaged_bytes(random, &self.mesh),
            _ => damaged_mesh(random, number),
        };
    }

    fn damage_map(&mut self, random: &mut Random) {
        match random.below(5) {
            0 => self.parts = *random.pick(&[0, 17, self.parts + 1, 256 + self.parts, u32::MAX]),
            1 => self.parts -= 1,
            2 => {
                let cell = random.below(self.owners.len());
                self.owners[cell] = *random.pick(&[0, self.parts as u8 + 1, 255]);
            }
            3 => self.owners = damaged_bytes(random, &self.owners),
            _ => self.empty_a_part(random),
        }
    }

    fn empty_a_part(&mut self, random: &mut Random) {
        let [emptied, heir] = [(); 2].map(|()| random.between(1, self.parts as usize) as u8);
        for owner in self.owners.iter_mut().filter(|owner| **owner == emptied) {
            *owner = heir;
        }
    }

    fn damage_stencil(&mut self, random: &mut Random) {
        let place = random.below(self.stencil.len());
        match random.below(4) {
            0 => {
                self.stencil.pop();
            }
            1 => self.stencil = stencil_through(self.top as u8, &[0; 5]),
            2 => self.stencil[place] = *random.pick(&[self.top as u8, 0, self.top as u8 + 1, 255]),
            _ => self.stencil = damaged_bytes(random, &self.stencil),
        }
    }

    fn damage_rule(&mut self, random: &mut Random) {
        match random.below(4) {
            0 => self.kind = *random.pick(&[0, 1, 2, 3, 256, 257, u32::MAX]),
            1 => {
                self.weights.pop();
            }
            2 => self.weights.extend([0, 1]),
            _ => {
                let mut numbers: Vec<usize> = (0..=self.stencil.len() / 2).map(|_| random.below(16)).collect();
                let place = random.below(numbers.len());
                numbers[place] = *random.pick(&[0, 15, 16, 256, 65_535]);
                (self.kind, self.weights) = (1, words(&numbers));
            }
        }
    }

    fn damage_field(&mut self, random: &mut Random) {
        if random.one_in(2) {
            self.field = damaged_bytes(random, &self.field);
        } else {
            self.put_odd_value(random);
        }
    }

    /// One cell of the field is a gap, or neither a depth nor a gap.
    pub fn put_odd_value(&mut self, random: &mut Random) {
        let cell = random.below(self.cells);
        put_value(&mut self.field, 4 * cell, odd_value(random));
    }
}

/// A stencil that goes through elements of these dimensions, from cell to cell.
pub fn stencil_through(top: u8, through: &[u8]) -> Vec<u8> {
    let mut stencil = vec![top];
    stencil.extend(through.iter().flat_map(|&dimension| [dimension, top]));
    stencil
}

fn stencil(random: &mut Random, top: usize) -> Vec<u8> {
    let through: Vec<u8> = (0..random.between(0, MOST_STEPS / 2)).map(|_| random.below(top) as u8).collect();
    stencil_through(top as u8, &through)
}

/// A kind and its weights, one for each even layer up to `layers`: few, half or all of them but the first are 0.
fn rule(random: &mut Random, layers: usize) -> (u32, Vec<u8>) {
    let zeros = random.below(3);
    let weight = |random: &mut Random| if random.below(2) < zeros { 0 } else { random.between(0, MOST_WEIGHT) };
    let mut weights: Vec<usize> = (0..=layers).map(|_| weight(random)).collect();
    weights[0] = random.between(1, MOST_WEIGHT);
    match random.below(4) {
        0 => (0, Vec::new()),
        1 => (2, Vec::new()),
        _ => (1, words(&weights)),
    }
}

fn owners(random: &mut Random, cells: usize, parts: usize, deal: Deal) -> Vec<u8> {
    let mut owners: Vec<u8> = (0..cells)
        .map(|cell| match deal {
            Deal::Blocks => cell * parts / cells,
            Deal::Turns => cell % parts,
            // The first cells see to it that each part owns one.
            Deal::Anyhow if cell < parts => cell,
            Deal::Anyhow => random.below(parts),
        } as u8 + 1)
        .collect();
    if let Deal::Anyhow = deal {
        random.shuffle(&mut owners);
    }
    owners
}

/// How many of a hundred values are gaps, in one field, message or state.
pub const GAP_SHARES: [usize; 5] = [0, 20, 60, 95, 100];

/// Neither depths in range nor a gap, those next to either among them, and those that have three bytes of a gap.
pub const WRONG_VALUES: [i32; 8] =
    [DEEPEST + 1, -DEEPEST - 1, i32::MIN + 1, i32::MAX, -0x7fff_ff00, -0x7fff_0000, -0x7f00_0000, 0x4000_0000];

/// Depths that are small, anywhere in range, or at its ends. Of 128 the bytes are those of a gap, low byte first.
fn random_depth(random: &mut Random) -> i32 {
    let span = 2 * DEEPEST as usize;
    match random.below(4) {
        0 => random.below(41) as i32 - 20,
        1 => *random.pick(&[-DEEPEST, DEEPEST, DEEPEST - 1, 0, -1, 128, 256]),
        _ => random.between(0, span) as i32 - DEEPEST,
    }
}

/// One of the shares, more often one that leaves depths to be read.
pub fn random_gap_share(random: &mut Random) -> usize {
    *random.pick(&[0, 0, 0, 20, 20, 60, 60, 95, 100])
}

fn random_value(random: &mut Random, gap_share: usize) -> Value {
    (random.below(100) >= gap_share).then(|| random_depth(random))
}

/// Values with one share of gaps among them.
pub fn random_values(random: &mut Random, count: usize, gap_share: usize) -> Vec<Value> {
    (0..count).map(|_| random_value(random, gap_share)).collect()
}

/// A gap, or neither a depth nor a gap.
pub fn odd_value(random: &mut Random) -> Value {
    (!random.one_in(4)).then(|| *random.pick(&WRONG_VALUES))
}

pub fn field(random: &mut Random, cells: usize, gap_share: usize) -> Vec<u8> {
    values(&random_values(random, cells, gap_share))
}

/// 1,000 points and 1,000 cells of twelve points each.
fn full_of_records(random: &mut Random) -> Shape {
    let mut chains = vec![Vec::new(); 1_000];
    for cell in 0..1_000 {
        // Every point is covered by the cell of its own place.
        let mut chain = vec![cell + 1];
        while chain.len() < 12 {
            let point = random.between(1, 1_000);
            if !chain.contains(&point) {
                chain.push(point);
            }
        }
        chains.push(chain);
    }
    Shape { top: 1, counts: [1_000, 1_000, 0, 0], chains }
}
