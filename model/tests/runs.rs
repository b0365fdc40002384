//! Whole runs: any order of calls on the parts, repeated and refused ones too, gives the undivided field, and the undivided
//! values at the points. Some fields have gaps.

mod common {
    pub mod layout;
    pub mod lists;
    pub mod reaches;
    pub mod states;
    pub mod words;
}

use std::collections::BTreeMap;

use jemlayos_model::bytes::{read_values, value, word, Value, GAP};
use jemlayos_model::calls::{under_test, List};
use jemlayos_model::generate::random::Random;
use jemlayos_model::generate::scenarios::Scenario;
use jemlayos_model::generate::traffic;
use jemlayos_model::mesh::Mesh;
use jemlayos_model::refusal::Refusal;
use jemlayos_model::rounds::undivided_points;

use common::layout::{point_words, Lengths};
use common::lists::listed;
use common::reaches::reaches;
use common::states::started_with_room;
use common::words::read_words;

/// The undivided field after each number of rounds.
fn undivided(scenario: &Scenario, rounds: usize) -> Vec<Vec<u8>> {
    let mut fields = vec![scenario.field.clone()];
    for round in 0..rounds {
        let mut next = vec![0; scenario.field.len()];
        let old = &fields[round];
        under_test().round(&scenario.mesh, &scenario.stencil, scenario.rule(), old, &mut next).unwrap();
        fields.push(next);
    }
    fields
}

/// The states of all parts of a scenario as they are started, each with three more bytes after it.
fn started(scenario: &Scenario) -> Vec<Vec<u8>> {
    let start = |part: u32| started_with_room(scenario.part(part), scenario.rule(), &scenario.field, 3);
    (1..=scenario.parts).map(start).collect()
}

/// What a part's points are to be.
struct Points {
    /// Its points, rising.
    numbers: Vec<usize>,
    /// Whether a cell at a point of an owned cell is outside that cell's reach.
    leave_reach: bool,
    /// How many parts it imports from.
    senders: usize,
}

impl Points {
    fn of(scenario: &Scenario, part: u32) -> Points {
        let mesh = Mesh::read(&scenario.mesh).unwrap();
        let reaches = reaches(&mesh, &scenario.stencil);
        let owns = |cell: usize| u32::from(scenario.owners[cell - mesh.first_cell()]) == part;
        let touches = |&point: &usize| mesh.cells_at(point).iter().any(|&c| owns(c));
        let numbers: Vec<usize> = mesh.elements(0).filter(touches).collect();
        let reached = |from: usize, cell: usize| reaches[&from].iter().any(|&(reached, _)| reached == cell);
        let leave_reach = numbers.iter().map(|&point| mesh.cells_at(point)).any(|cells| {
            let mut owned = cells.iter().filter(|&&c| owns(c));
            owned.any(|&from| !cells.iter().all(|&cell| reached(from, cell)))
        });
        let imports = |other: u32| listed(scenario.part(part), List::Imports(other));
        let senders = (1..=scenario.parts).filter(|&other| !imports(other).is_empty()).count();
        Points { numbers, leave_reach, senders }
    }
}

/// A run under way: its states, the messages given so far, and the round of each part.
struct Run<'a> {
    scenario: &'a Scenario,
    states: Vec<Vec<u8>>,
    written: Vec<Vec<u8>>,
    rounds: Vec<usize>,
    /// How many messages each part took in its round.
    taken: Vec<usize>,
    fields: Vec<Vec<u8>>,
    /// Of each part.
    points: Vec<Points>,
    /// The values at all points after each number of rounds.
    undivided_points: Vec<Vec<Value>>,
    /// Which part gave a point at a round first, and its value there.
    given: BTreeMap<(usize, usize), (usize, [u8; 4])>,
    /// How often points were given, how often a point that another part had given at that round, and how often a gap.
    counts: [usize; 3],
}

impl Run<'_> {
    /// One call on a random part. A take is handed anything, but the claim is only about written messages, so other
    /// bytes are tried on a copy.
    fn call(&mut self, random: &mut Random) {
        let place = random.below(self.states.len());
        let state = &mut self.states[place];
        match random.below(4) {
            0 => {
                let mut message = vec![0; 8 + 4 * self.scenario.cells];
                let to = random.between(0, self.scenario.parts as usize + 1) as u32;
                if let Ok(length) = under_test().write(state, to, &mut message) {
                    message.truncate(length as usize);
                    self.written.push(message);
                }
            }
            1 if !self.written.is_empty() => {
                // The latest messages are the likely ones to be accepted.
                let recent = self.written.len().saturating_sub(random.between(1, 30));
                let message: &Vec<u8> = random.pick(&self.written[recent..]);
                let taken = under_test().take(state, message).is_ok();
                let _ = under_test().take(&mut state.clone(), &traffic::message(random, &self.written));
                if taken {
                    self.taken[place] += 1;
                    (0..self.states.len()).for_each(|place| self.points(place));
                }
            }
            2 if self.rounds[place] + 1 < self.fields.len() => {
                if under_test().advance(state).is_ok() {
                    self.rounds[place] += 1;
                    self.taken[place] = 0;
                }
            }
            _ => {
                self.collect(place);
                self.points(place);
            }
        }
    }

    /// What a part gives are its points with the undivided values, once all imports are taken and if no cell at them is
    /// outside a reach. So what two parts give for one point at one round is the same.
    fn points(&mut self, place: usize) {
        let (round, points) = (self.rounds[place], &self.points[place]);
        let mut out = vec![0xee; 6 * points.numbers.len() + 2];
        let answer = under_test().points(&self.states[place], &mut out);
        if self.taken[place] < points.senders {
            assert_eq!(answer, Err(Refusal::NotTaken));
        } else if points.leave_reach {
            assert_eq!(answer, Err(Refusal::PointReach));
        } else {
            assert_eq!(answer, Ok(points.numbers.len() as u32));
            for (six, &point) in out.chunks_exact(6).zip(&points.numbers) {
                let (number, four) = (word(six, 0), [six[2], six[3], six[4], six[5]]);
                assert_eq!((number, value(six, 2)), (point, self.undivided_points[round][point - 1]));
                let &mut (first, given) = self.given.entry((round, point)).or_insert((place, four));
                assert_eq!(four, given);
                self.counts[1] += usize::from(first != place);
                self.counts[2] += usize::from(four == GAP);
            }
            assert_eq!(out[6 * points.numbers.len()..], [0xee; 2]);
            self.counts[0] += 1;
        }
    }

    /// What a part collects is the undivided field at its owned cells, and every other byte stays.
    fn collect(&self, place: usize) {
        let (part, round) = (place as u8 + 1, self.rounds[place]);
        let mut field = vec![0xee; self.scenario.field.len() + 2];
        let owned = self.scenario.owners.iter().filter(|&&owner| owner == part).count();
        let answer = under_test().collect(&self.states[place], round as u32, &mut field);
        assert_eq!(answer, Ok(owned as u32));
        let values = field.chunks(4).zip(self.fields[round].chunks(4));
        for ((found, undivided), &owner) in values.zip(&self.scenario.owners) {
            assert_eq!(found, if owner == part { undivided } else { &[0xee; 4] });
        }
        assert_eq!(field[4 * self.scenario.cells..], [0xee; 2]);
    }
}

#[test]
fn every_order_of_calls_gives_the_undivided_field() {
    let random = &mut Random::new(5);
    let (mut runs, mut late, mut filled, mut counts) = (0, 0, 0, [0; 3]);
    while runs < 150 {
        let scenario = Scenario::random(random);
        if under_test().state_size(scenario.part(1)).is_err() || scenario.parts > 6 {
            continue;
        }
        runs += 1;
        let states = started(&scenario);
        let fields = undivided(&scenario, 4);
        let mesh = Mesh::read(&scenario.mesh).unwrap();
        let at_points = |field: &Vec<u8>| undivided_points(&mesh, &read_values(field).unwrap());
        let mut run = Run {
            scenario: &scenario,
            written: Vec::new(),
            rounds: vec![0; states.len()],
            taken: vec![0; states.len()],
            states,
            points: (1..=scenario.parts).map(|part| Points::of(&scenario, part)).collect(),
            undivided_points: fields.iter().map(at_points).collect(),
            fields,
            given: BTreeMap::new(),
            counts,
        };
        for _ in 0..3_000 {
            run.call(random);
        }
        let is_late = run.rounds.iter().any(|&round| round >= 2);
        late += usize::from(is_late);
        let gaps_after = |round: usize| run.fields[round].chunks(4).filter(|&four| four == GAP).count();
        filled += usize::from(is_late && gaps_after(1) < gaps_after(0));
        counts = run.counts;
    }
    assert!(late > 100, "only {late} runs came to round 2");
    assert!(filled > 15, "only {filled} of these had a gap filled");
    assert!(counts.iter().all(|&count| count > 1_000), "points were given {counts:?} times");
}

#[test]
fn a_state_is_within_its_bound() {
    let random = &mut Random::new(6);
    let extremes = Scenario::extremes(random).into_iter().map(|(_, scenario)| scenario);
    for scenario in extremes.collect::<Vec<_>>().into_iter().chain((0..200).map(|_| Scenario::random(random))) {
        for part in 1..=scenario.parts {
            if under_test().state_size(scenario.part(part)).is_err() {
                continue;
            }
            let state = common::states::started(scenario.part(part), scenario.rule(), &scenario.field);
            let Lengths { owned, held, reached, exports } = Lengths::of(&state);
            let words = point_words(&state);
            let (points, point_cells) = (words[0], words[1 + 2 * words[0]]);
            assert!(state.len() <= 200 + 40 * (held + reached + exports + points + point_cells));
            let (lists, at_points) = (6 * held + 2 * owned + 4 * reached + 2 * exports, 4 * points + 2 * point_cells);
            assert_eq!(state.len(), 130 + lists + at_points);
        }
    }
}

#[test]
fn exports_rise_by_global_number_where_local_order_differs() {
    let random = &mut Random::new(10);
    let mut differing = 0;
    for state in (0..100).flat_map(|_| started(&Scenario::lopsided(random))) {
        let lengths = Lengths::of(&state);
        let locals = read_words(&state, lengths.first_export()..lengths.point_count());
        for to in 1..=16 {
            let list = &locals[word(&state, 27 + to)..word(&state, 28 + to)];
            assert!(list.is_sorted_by_key(|local| word(&state, 44 + local)));
            differing += usize::from(!list.is_sorted());
        }
    }
    assert!(differing > 20, "only {differing} lists differ from local order");
}
