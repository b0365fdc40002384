//! Where a cell stands in a list: the examples of the request, what the answer is in the lists of a part, and where in a message
//! the cell's value stands.

mod common {
    pub mod lists;
    pub mod states;
    pub mod words;
}

use jemlayos_model::bytes::{value, words};
use jemlayos_model::calls::{under_test, List};
use jemlayos_model::generate::random::Random;
use jemlayos_model::generate::scenarios::Scenario;
use jemlayos_model::mesh::Mesh;

use common::lists::listed;

/// The place of a number in a list, and how many numbers were read.
fn found(list: &[u8], cell: u32) -> (u64, u32) {
    let mut read = 0xeeee_eeee;
    let place = under_test().place(list, cell, &mut read);
    (place, read)
}

/// The place of a cell in a list of cells.
fn place_in(list: &[usize], cell: usize) -> usize {
    found(&words(list), cell as u32).0 as usize
}

#[test]
fn the_search_ends_at_the_first_number_not_below() {
    let list = words(&[3, 5, 9]);
    assert_eq!(found(&list, 3), (1, 1));
    assert_eq!(found(&list, 5), (2, 2));
    assert_eq!(found(&list, 9), (3, 3));
    assert_eq!(found(&list, 1), (0, 1));
    assert_eq!(found(&list, 4), (0, 2));
    assert_eq!(found(&list, 10), (0, 3));
    assert_eq!(found(&list, 70_000), (0, 3));
    assert_eq!(found(&list, 65_536 + 5), (0, 3));
}

#[test]
fn a_list_that_does_not_rise_is_not_read_on() {
    assert_eq!(found(&words(&[9, 3, 5]), 5), (0, 1));
    assert_eq!(found(&words(&[3, 9, 5]), 5), (0, 2));
    assert_eq!(found(&words(&[3, 5, 4, 5]), 5), (2, 2));
}

#[test]
fn no_number_and_half_a_number() {
    assert_eq!(found(&[], 0), (0, 0));
    assert_eq!(found(&[5], 5), (0, 0));
    assert_eq!(found(&[0, 3, 0, 5, 0], 5), (2, 2));
    assert_eq!(found(&[0, 3, 0, 5, 9], 2304), (0, 2));
    assert_eq!(found(&[0, 0], 0), (1, 1));
    assert_eq!(found(&[0xff, 0xff], 65_535), (1, 1));
    assert_eq!(found(&[0xff, 0xff], 65_536), (0, 1));
}

#[test]
fn words_are_read_high_byte_first() {
    assert_eq!(found(&[0x01, 0x90], 0x190), (1, 1));
    assert_eq!(found(&[0x01, 0x90], 0x9001), (0, 1));
}

#[test]
fn an_imported_cell_has_its_place_behind_the_import_lists_before() {
    let random = &mut Random::new(3);
    let mut compared = 0;
    for _ in 0..60 {
        let scenario = Scenario::random(random);
        for part in 1..=scenario.parts {
            if under_test().state_size(scenario.part(part)).is_err() {
                continue;
            }
            let list = |list: List| listed(scenario.part(part), list);
            let locals = list(List::Locals);
            let mut before = list(List::Interior).len() + list(List::Halo).len();
            for other in 1..=scenario.parts {
                let imports = list(List::Imports(other));
                for &cell in &imports {
                    assert_eq!(locals[before + place_in(&imports, cell) - 1], cell);
                    compared += 1;
                }
                let absent = |cell: &usize| !imports.contains(cell);
                assert!(locals.iter().filter(|cell| absent(cell)).all(|&cell| place_in(&imports, cell) == 0));
                before += imports.len();
            }
        }
    }
    assert!(compared > 500);
}

#[test]
fn a_cell_stands_in_a_message_at_its_place_in_the_import_list() {
    let random = &mut Random::new(4);
    let mut compared = 0;
    for _ in 0..60 {
        let scenario = Scenario::random(random);
        let first_cell = Mesh::read(&scenario.mesh).unwrap().first_cell();
        for (from, to) in (1..=scenario.parts).flat_map(|from| (1..=scenario.parts).map(move |to| (from, to))) {
            if under_test().state_size(scenario.part(from)).is_err() {
                continue;
            }
            let mut sender = common::states::started(scenario.part(from), scenario.rule(), &scenario.field);
            let mut message = vec![0; 8 + 4 * scenario.cells];
            let imports = listed(scenario.part(to), List::Imports(from));
            if under_test().write(&mut sender, to, &mut message).is_err() {
                assert!(imports.is_empty());
                continue;
            }
            for &cell in &imports {
                let at = 8 + 4 * (place_in(&imports, cell) - 1);
                assert_eq!(value(&message, at), value(&scenario.field, 4 * (cell - first_cell)));
                compared += 1;
            }
        }
    }
    assert!(compared > 500);
}
