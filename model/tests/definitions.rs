//! The linear walks, lists and rounds against the specification's definitions, taken word by word over sets, on small
//! meshes.

mod common {
    pub mod layout;
    pub mod lists;
    pub mod reaches;
    pub mod states;
    pub mod words;
}

use std::collections::BTreeSet;

use jemlayos_model::bytes::{read_values, value, word, Value};
use jemlayos_model::calls::{under_test, List};
use jemlayos_model::generate::damage::damaged_mesh;
use jemlayos_model::generate::random::Random;
use jemlayos_model::generate::scenarios::Scenario;
use jemlayos_model::mesh::Mesh;
use jemlayos_model::refusal::Refusal;
use jemlayos_model::rounds::undivided_points;
use jemlayos_model::split::Range;

use common::layout::point_words;
use common::lists::listed;
use common::reaches::reaches;
use common::states::started;

type Set = BTreeSet<usize>;

/// A mesh, a map and a stencil, with every word of the specification as a set of global numbers.
struct Paper<'a> {
    dimension: Vec<usize>,
    chains: Vec<Set>,
    scenario: &'a Scenario,
}

impl<'a> Paper<'a> {
    fn of(scenario: &'a Scenario) -> Self {
        let mesh = &scenario.mesh;
        let mut dimension = vec![9];
        for k in 0..4 {
            dimension.extend(vec![k; word(mesh, 1 + k)]);
        }
        let elements = dimension.len() - 1;
        let mut chains = vec![Set::new()];
        for e in 1..=elements {
            let mut chain = Set::new();
            let mut record = word(mesh, 5 + e);
            while record > 0 {
                chain.insert(word(mesh, 4 + elements + 2 * record));
                record = word(mesh, 5 + elements + 2 * record);
            }
            chains.push(chain);
        }
        Paper { dimension, chains, scenario }
    }

    fn of_dimension(&self, dimension: usize) -> Set {
        (1..self.chains.len()).filter(|&e| self.dimension[e] == dimension).collect()
    }

    fn incident(&self, e: usize, f: usize) -> bool {
        self.chains[e].contains(&f) || self.chains[f].contains(&e)
    }

    /// What a walk of k steps from a cell ends at.
    fn walked(&self, cell: usize, k: usize) -> Set {
        if k == 0 {
            return Set::from([cell]);
        }
        let before = self.walked(cell, k - 1);
        let mut next = self.of_dimension(self.scenario.stencil[k].into());
        next.retain(|&e| before.iter().any(|&f| self.incident(e, f)));
        next
    }

    fn reach(&self, cell: usize) -> Vec<(usize, usize)> {
        let steps = 0..self.scenario.stencil.len();
        let walked: Vec<Set> = steps.map(|k| self.walked(cell, k)).collect();
        let layer = |c| walked.iter().position(|walked| walked.contains(&c));
        let cells = self.of_dimension(self.scenario.top).into_iter();
        cells.filter_map(|c| Some((c, layer(c)?))).collect()
    }

    fn owner(&self, cell: usize) -> u32 {
        let first = self.chains.len() - self.scenario.cells;
        self.scenario.owners[cell - first].into()
    }

    fn owned(&self, part: u32) -> Set {
        let cells = self.of_dimension(self.scenario.top).into_iter();
        cells.filter(|&c| self.owner(c) == part).collect()
    }

    fn held(&self, part: u32) -> Set {
        self.owned(part).into_iter().flat_map(|c| self.reach(c)).map(|(c, _)| c).collect()
    }

    fn imports(&self, part: u32, other: u32) -> Set {
        let mut imports = self.held(part);
        imports.retain(|&c| part != other && self.owner(c) == other);
        imports
    }

    fn interior(&self, part: u32) -> Set {
        let mut interior = self.owned(part);
        interior.retain(|&c| self.reach(c).iter().all(|&(r, _)| self.owner(r) == part));
        interior
    }

    fn holds(&self, part: u32, element: usize) -> bool {
        self.held(part).iter().any(|&c| self.incident(c, element))
    }

    fn touches(&self, element: usize, part: u32) -> bool {
        self.owned(part).iter().any(|&c| self.incident(c, element))
    }

    fn is_in(&self, part: u32, range: Range, element: usize) -> bool {
        let mut others = (1..=self.scenario.parts).filter(|&j| j != part);
        let copied = !self.touches(element, part);
        let shared = !copied && others.clone().any(|j| self.touches(element, j));
        let held_elsewhere = others.any(|j| self.holds(j, element));
        self.holds(part, element)
            && match range {
                Range::Copied => copied,
                Range::Shared => shared,
                Range::Exposed => !copied && !shared && held_elsewhere,
                Range::Private => !copied && !shared && !held_elsewhere,
            }
    }

    /// The cells incident to an element.
    fn around(&self, element: usize) -> Set {
        let cells = self.of_dimension(self.scenario.top).into_iter();
        cells.filter(|&c| self.incident(c, element)).collect()
    }

    fn points(&self, part: u32) -> Set {
        let mut points = self.of_dimension(0);
        points.retain(|&p| self.touches(p, part));
        points
    }

    /// A cell incident to a point of an owned cell is outside that cell's reach.
    fn leaves_reach(&self, part: u32) -> bool {
        self.owned(part).into_iter().any(|c| {
            let reach: Set = self.reach(c).into_iter().map(|(r, _)| r).collect();
            let points = self.of_dimension(0).into_iter().filter(|&p| self.incident(p, c));
            points.into_iter().any(|p| !self.around(p).is_subset(&reach))
        })
    }

    /// The old value of a cell.
    fn old(&self, cell: usize) -> Value {
        let first = self.chains.len() - self.scenario.cells;
        value(&self.scenario.field, 4 * (cell - first))
    }

    /// What the rule makes of a cell. Mean and shoalest go by the depths that are left without the gaps.
    fn new_value(&self, cell: usize) -> Value {
        let weight = |layer: usize| word(&self.scenario.weights, layer / 2);
        let depths = self.reach(cell).into_iter().filter_map(|(c, layer)| Some((layer, self.old(c)?)));
        match self.scenario.kind {
            0 => self.old(cell),
            1 => mean(depths.map(|(layer, depth)| (weight(layer), depth)).collect()),
            _ => depths.map(|(_, depth)| depth).collect::<BTreeSet<_>>().first().copied(),
        }
    }

    /// The plain mean of the depths around a point.
    fn point_value(&self, point: usize) -> Value {
        mean(self.around(point).into_iter().filter_map(|c| Some((1, self.old(c)?))).collect())
    }

    fn range(&self, part: u32, range: Range, dimension: usize) -> Set {
        let mut elements = self.of_dimension(dimension);
        elements.retain(|&e| self.is_in(part, range, e));
        elements
    }
}

/// The mean of weighed depths: of the whole numbers next to the quotient the greatest that is not above it, or a gap where no
/// weight is left to divide by.
fn mean(weighed: Vec<(usize, i32)>) -> Value {
    let weights: i64 = weighed.iter().map(|&(weight, _)| weight as i64).sum();
    let sum: i64 = weighed.iter().map(|&(weight, depth)| weight as i64 * i64::from(depth)).sum();
    let next_to = (weights > 0).then(|| sum / weights - 1..=sum / weights + 1)?;
    let mean = next_to.filter(|whole| whole * weights <= sum).max()?;
    Some(mean.try_into().unwrap())
}

/// Random inputs over meshes of few cells: the definitions take long.
fn scenarios(seed: u64, count: usize, most_cells: usize) -> impl Iterator<Item = Scenario> {
    let mut random = Random::new(seed);
    let all = std::iter::repeat_with(move || Scenario::random(&mut random));
    all.filter(move |scenario| scenario.cells <= most_cells).take(count)
}

/// The elements of a set, rising.
fn rising(set: Set) -> Vec<usize> {
    set.into_iter().collect()
}

#[test]
fn reaches_are_the_walked_sets() {
    for scenario in scenarios(1, 400, 40) {
        let paper = Paper::of(&scenario);
        let mesh = Mesh::read(&scenario.mesh).unwrap();
        let reaches = reaches(&mesh, &scenario.stencil);
        for cell in mesh.cells() {
            assert_eq!(reaches[&cell], paper.reach(cell));
        }
    }
}

#[test]
fn lists_are_the_defined_sets() {
    for scenario in scenarios(2, 100, 12) {
        let paper = Paper::of(&scenario);
        for part in 1..=scenario.parts {
            let interior = rising(paper.interior(part));
            let halo: Vec<_> = paper.owned(part).into_iter().filter(|c| !interior.contains(c)).collect();
            let mut locals = [interior.clone(), halo.clone()].concat();
            assert_eq!(listed(scenario.part(part), List::Interior), interior);
            assert_eq!(listed(scenario.part(part), List::Halo), halo);
            for other in 1..=scenario.parts {
                let imports = rising(paper.imports(part, other));
                assert_eq!(listed(scenario.part(part), List::Imports(other)), imports);
                assert_eq!(listed(scenario.part(other), List::Exports(part)), imports);
                locals.extend(imports);
            }
            assert_eq!(listed(scenario.part(part), List::Locals), locals);
            for range in Range::ALL {
                for dimension in 0..scenario.top {
                    let list = List::Range(range, dimension as u32);
                    assert_eq!(listed(scenario.part(part), list), rising(paper.range(part, range, dimension)));
                }
            }
        }
    }
}

#[test]
fn points_of_a_state_are_the_defined_sets() {
    let (mut accepted, mut refused) = (0, 0);
    for scenario in scenarios(11, 200, 12) {
        let paper = Paper::of(&scenario);
        for part in 1..=scenario.parts {
            let state = started(scenario.part(part), scenario.rule(), &scenario.field);
            let points = rising(paper.points(part));
            let around: Vec<Set> = points.iter().map(|&p| paper.around(p)).collect();
            let leaves_reach = paper.leaves_reach(part);
            let locals = listed(scenario.part(part), List::Locals);
            let local = |c: usize| locals.iter().position(|&held| held == c).unwrap() + 1;
            let cell_word = |&c: &usize| if leaves_reach { 0 } else { local(c) };

            let mut words = vec![points.len()];
            words.extend(points);
            words.extend((0..=around.len()).map(|k| around[..k].iter().map(Set::len).sum::<usize>()));
            words.extend(around.iter().flat_map(|cells| cells.iter().rev().map(cell_word)));
            assert_eq!(point_words(&state), words);
            (accepted, refused) = (accepted + u32::from(!leaves_reach), refused + u32::from(leaves_reach));
        }
    }
    assert!(accepted > 100 && refused > 100, "29 held for {refused} parts and not for {accepted}");
}

#[test]
fn rounds_and_points_are_the_defined_values() {
    let mut gaps = [0; 4];
    for scenario in scenarios(12, 600, 30) {
        let paper = Paper::of(&scenario);
        let cells = rising(paper.of_dimension(scenario.top));
        let mut out = vec![0; scenario.field.len()];
        let rule = scenario.rule();
        under_test().round(&scenario.mesh, &scenario.stencil, rule, &scenario.field, &mut out).unwrap();
        let new: Vec<Value> = cells.iter().map(|&cell| paper.new_value(cell)).collect();
        assert_eq!(read_values(&out).unwrap(), new);
        let left = cells.iter().zip(&new).filter(|(&cell, new)| paper.old(cell).is_none() && new.is_none()).count();
        let filled = cells.iter().zip(&new).filter(|(&cell, new)| paper.old(cell).is_none() && new.is_some()).count();

        let points = rising(paper.of_dimension(0));
        let at_points: Vec<Value> = points.iter().map(|&point| paper.point_value(point)).collect();
        let mesh = Mesh::read(&scenario.mesh).unwrap();
        assert_eq!(undivided_points(&mesh, &read_values(&scenario.field).unwrap()), at_points);
        let is_gap = |value: &&Value| value.is_none();
        let around_gaps = |&&point: &&usize| paper.around(point).into_iter().any(|c| paper.old(c).is_none());
        let at_gaps = points.iter().filter(around_gaps).count();
        let only_gaps = at_points.iter().filter(is_gap).count();
        for (gaps, count) in gaps.iter_mut().zip([left, filled, at_gaps - only_gaps, only_gaps]) {
            *gaps += count;
        }
    }
    assert!(gaps.iter().all(|&count| count > 200), "gaps were left, filled, passed over at points and given: {gaps:?}");
}

#[test]
fn a_damaged_mesh_is_refused_by_the_number_it_is_damaged_for() {
    let random = &mut Random::new(3);
    for round in 0..7_000 {
        let number = 1 + round % 7;
        let mesh = damaged_mesh(random, number);
        assert_eq!(under_test().check_mesh(&mesh), Err(Refusal::of_number(number).unwrap()));
    }
}

#[test]
fn extremes_are_accepted_or_refused_as_their_names_say() {
    let random = &mut Random::new(4);
    for (name, scenario) in Scenario::extremes(random) {
        let answer = under_test().state_size(scenario.part(1));
        let refusal = match name {
            "4,097 held" | "12 before 13" => Some(Refusal::Held),
            "8,001 reached" | "13 and not 12" | "star of 90" | "tetrahedra through points" => Some(Refusal::Reach),
            "2,000 elements, 12,000 records, dense" => Some(Refusal::Reach),
            _ => None,
        };
        assert_eq!(answer.err(), refusal, "{name}");
    }
}
