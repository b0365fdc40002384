//! The order of the tests: inputs with every fault at once, whose faults are mended one by one.

mod common {
    pub mod round_word;
    pub mod states;
}

use jemlayos_model::bytes::{depths, put_word, word, words};
use jemlayos_model::calls::{under_test, List};
use jemlayos_model::generate::damage::long_meshes;
use jemlayos_model::generate::random::Random;
use jemlayos_model::generate::scenarios::{stencil_through, Deal, Scenario};
use jemlayos_model::generate::shapes::Shape;
use jemlayos_model::refusal::{Answer, Refusal};

use common::round_word::put_round;

/// A refusal's number, 0 where there is none.
fn number(answer: Answer) -> u32 {
    answer.err().map_or(0, Refusal::number)
}

/// A valid scenario of a row of cells that are dealt out in turns to two parts.
fn row() -> Scenario {
    let random = &mut Random::new(7);
    let mut row = Scenario::over(random, &Shape::row(9, 0), 2, Deal::Turns, vec![1, 0, 1]);
    (row.kind, row.weights) = (1, words(&[2, 1]));
    row
}

/// The state of a part of a scenario as it is started.
fn started(scenario: &Scenario, part: u32) -> Vec<u8> {
    common::states::started(scenario.part(part), scenario.rule(), &scenario.field)
}

/// The numbers that start, state size, a list and the undivided round give.
fn numbers(scenario: &Scenario, room: usize) -> [u32; 4] {
    let part = scenario.part(1);
    let mut out = vec![0; room];
    [
        number(under_test().start(part, scenario.rule(), &scenario.field, &mut out)),
        number(under_test().state_size(part)),
        number(under_test().list(part, List::Locals, &mut out)),
        number(under_test().round(&scenario.mesh, &scenario.stencil, scenario.rule(), &scenario.field, &mut out)),
    ]
}

#[test]
fn inputs_are_refused_by_the_first_fault() {
    // Every cell of a star reaches all others, so 16 parts hold too much and even one part's reaches are too many.
    let random = &mut Random::new(8);
    let stencil = vec![1, 0, 1];
    let star = Scenario::over(random, &Shape::star(400), 16, Deal::Turns, stencil.clone());
    let mut faulty = star.clone();
    faulty.mesh.pop();
    faulty.owners = vec![0; 400];
    faulty.stencil = vec![1, 1, 1];
    faulty.kind = 3;
    faulty.weights = words(&[1, 16]);
    faulty.field = depths(&[1_200_001; 400]);
    assert_eq!(numbers(&faulty, 0), [3, 3, 3, 3]);
    faulty.mesh = star.mesh.clone();
    assert_eq!(numbers(&faulty, 0), [8, 8, 8, 10]);
    faulty.owners = vec![1; 400];
    assert_eq!(numbers(&faulty, 0), [9, 9, 9, 10]);
    faulty.owners = star.owners;
    assert_eq!(numbers(&faulty, 0), [10, 10, 10, 10]);
    faulty.stencil = stencil;
    assert_eq!(numbers(&faulty, 0), [11, 12, 12, 11]);
    faulty.kind = 1;
    assert_eq!(numbers(&faulty, 0), [11, 12, 12, 11]);
    faulty.weights = words(&[1, 15]);
    assert_eq!(numbers(&faulty, 0), [12, 12, 12, 13]);
    (faulty.parts, faulty.owners) = (1, vec![1; 400]);
    assert_eq!(numbers(&faulty, 0), [13, 13, 13, 13]);
    (faulty.stencil, faulty.weights) = (vec![1], words(&[1]));
    assert_eq!(numbers(&faulty, 0), [14, 0, 16, 14]);
    faulty.field = depths(&[1_200_000; 400]);
    assert_eq!(numbers(&faulty, 799), [16, 0, 16, 16]);
    assert_eq!(numbers(&faulty, 100_000), [0; 4]);
}

#[test]
fn a_wrong_part_is_refused_before_an_empty_one() {
    let mut scenario = row();
    scenario.owners = vec![1; 9];
    for part in [0, 3, u32::MAX] {
        assert_eq!(number(under_test().state_size(scenario.part(part))), 8);
    }
    assert_eq!(number(under_test().state_size(scenario.part(2))), 9);
    assert_eq!(number(under_test().list(scenario.part(1), List::Imports(3), &mut [])), 8);
}

#[test]
fn take_tries_15_and_then_20_to_23() {
    let scenario = row();
    let (mut one, mut two) = (started(&scenario, 1), started(&scenario, 2));
    let mut message = vec![0; 100];
    let length = under_test().write(&mut two, 1, &mut message).unwrap();
    message.truncate(length as usize);
    under_test().take(&mut one, &message).unwrap();
    let changed = |place: usize, number: usize| {
        let mut changed = message.clone();
        put_word(&mut changed, 2, 1);
        put_word(&mut changed, place, number);
        changed
    };
    let take = |state: &[u8], message: &[u8]| number(under_test().take(&mut state.to_vec(), message));
    assert_eq!(take(&[], &changed(3, 77)), 15);
    assert_eq!(take(&[], &changed(4, 0x7fff)), 15);
    assert_eq!(take(&[], &changed(1, 2)), 20);
    assert_eq!(take(&one, &changed(1, 2)), 21);
    for from in [0, 1, 3, 17, 65_535] {
        assert_eq!(take(&one, &changed(0, from)), 21);
    }
    assert_eq!(take(&one, &changed(2, 1)), 22);
    assert_eq!(take(&one, &message), 23);
}

#[test]
fn advance_tries_20_and_then_24_to_26() {
    let scenario = row();
    let (mut one, mut two) = (started(&scenario, 1), started(&scenario, 2));
    for state in [&mut one, &mut two] {
        put_round(state, 60_000);
    }
    let advance = |state: &[u8]| number(under_test().advance(&mut state.to_vec()));
    assert_eq!(advance(&one[1..]), 20);
    assert_eq!(advance(&one), 24);
    let mut message = vec![0; 100];
    let length = under_test().write(&mut two, 1, &mut message).unwrap();
    under_test().take(&mut one, &message[..length as usize]).unwrap();
    assert_eq!(advance(&one), 25);
    // A refused write has not written.
    assert_eq!(number(under_test().write(&mut one, 2, &mut [0; 8])), 16);
    assert_eq!(advance(&one), 25);
    under_test().write(&mut one, 2, &mut message).unwrap();
    assert_eq!(advance(&one), 26);
    put_round(&mut one, 59_999);
    assert_eq!(advance(&one), 0);
}

#[test]
fn write_and_collect_try_the_buffer_last() {
    let mut state = started(&row(), 1);
    for to in [0, 1, 3, 17, u32::MAX] {
        assert_eq!(number(under_test().write(&mut state, to, &mut [])), 27);
    }
    assert_eq!(number(under_test().write(&mut [], 0, &mut [])), 20);
    assert_eq!(number(under_test().write(&mut state, 2, &mut [])), 16);
    assert_eq!(number(under_test().collect(&[], 1, &mut [])), 20);
    assert_eq!(number(under_test().collect(&state, 1, &mut [])), 28);
    assert_eq!(number(under_test().collect(&state, 65_536, &mut [])), 28);
    assert_eq!(number(under_test().collect(&state, 0, &mut [0; 35])), 16);
    assert_eq!(under_test().collect(&state, 0, &mut [0; 36]), Ok(5));
}

#[test]
fn the_longest_chains_are_followed() {
    for (mesh, expected) in long_meshes() {
        assert_eq!(number(under_test().check_mesh(&mesh)), expected);
    }
}

#[test]
fn a_walk_that_dies_leaves_the_cell_its_own() {
    // Two cells without any side, and one that has the only point.
    let shape = Shape { top: 1, counts: [1, 3, 0, 0], chains: vec![vec![], vec![], vec![1], vec![]] };
    let random = &mut Random::new(9);
    let scenario = Scenario::over(random, &shape, 3, Deal::Turns, stencil_through(1, &[0; 4]));
    for part in 1..=3 {
        let mut out = [0; 2];
        assert_eq!(under_test().list(scenario.part(part), List::Interior, &mut out), Ok(1));
        assert_eq!(word(&out, 0), 1 + part as usize);
    }
}
