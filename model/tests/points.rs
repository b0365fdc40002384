//! The depths at the points of a part: the examples of the request, the words of a state that they stand in, and what 20
//! asks of these.

mod common {
    pub mod boards;
    pub mod layout;
    pub mod meshes;
    pub mod points;
    pub mod round_word;
    pub mod states;
    pub mod words;
}

use jemlayos_model::bytes::{put_word, word, Value};
use jemlayos_model::calls::{under_test, PartInput};
use jemlayos_model::generate::shapes::Shape;
use jemlayos_model::mesh::Mesh;
use jemlayos_model::refusal::{Answer, Refusal};
use jemlayos_model::rounds::undivided_points;

use common::boards::{board, boards, written, FIELD, MEAN};
use common::layout::point_words;
use common::meshes::{five_cells, triangles};
use common::points::{exchange, points};
use common::round_word::put_round;

/// From part 2 to part 1, round 0.
const MESSAGE: [u8; 12] = [0, 2, 0, 1, 0, 0, 0, 1, 0, 0, 0x01, 0x90];

/// The state of a part as it is started, with as many parts as the owners name. Its rule is the mean of the examples, with
/// only the first weight where the stencil asks for one.
fn started(mesh: &[u8], owners: &[u8], part: u32, stencil: &[u8], field: &[Value]) -> Vec<u8> {
    let parts = owners.iter().copied().max().unwrap().into();
    let (kind, weights) = MEAN;
    let rule = (kind, &weights[..stencil.len() / 2 + 1]);
    common::boards::started(PartInput { mesh, parts, owners, part, stencil }, rule, field)
}

/// The points that an accepted call gives, with their depths. None of them is a gap.
fn depths_at_points(state: &[u8]) -> Vec<(usize, i32)> {
    points(state).into_iter().map(|(point, value)| (point, value.unwrap())).collect()
}

/// What a call answers with outputs of no bytes, of 24 and of many.
fn answers(state: &[u8]) -> [Answer; 3] {
    [0, 24, 12_000].map(|length| under_test().points(state, &mut vec![0; length]))
}

#[test]
fn an_import_that_is_not_taken_is_24_whatever_the_output() {
    assert_eq!(answers(&board(1, MEAN, FIELD)), [Err(Refusal::NotTaken); 3]);
    assert_eq!(answers(&board(2, MEAN, FIELD)), [Err(Refusal::NotTaken); 3]);
}

#[test]
fn points_of_the_first_board() {
    let mut state = board(1, MEAN, FIELD);
    under_test().take(&mut state, &MESSAGE).unwrap();
    let mut out = [0xee; 24];
    assert_eq!(under_test().points(&state, &mut out[..23]), Err(Refusal::Output));
    assert_eq!(out, [0xee; 24]);
    assert_eq!(under_test().points(&state, &mut out), Ok(4));
    let one_and_two = [0, 1, 0, 0, 0, 0x64, 0, 2, 0, 0, 0, 0x96];
    let three_and_four = [0, 3, 0, 0, 0, 0xfa, 0, 4, 0, 0, 0x01, 0x5e];
    assert_eq!(out[..], [one_and_two, three_and_four].concat());
}

#[test]
fn both_boards_give_the_shared_point_alike_at_each_round() {
    let mut boards = boards(MEAN, FIELD);
    exchange(&mut boards);
    let mut out = [0; 18];
    assert_eq!(under_test().points(&boards[1], &mut out), Ok(3));
    assert_eq!(out, [0, 4, 0, 0, 0x01, 0x5e, 0, 5, 0, 0, 0x01, 0xc2, 0, 6, 0, 0, 0x01, 0xf4]);
    assert_eq!(depths_at_points(&boards[0]).last(), Some(&(4, 350)));
    for state in &mut boards {
        under_test().advance(state).unwrap();
        assert_eq!(answers(state), [Err(Refusal::NotTaken); 3]);
    }
    exchange(&mut boards);
    assert_eq!(depths_at_points(&boards[0]), [(1, 133), (2, 166), (3, 250), (4, 350)]);
    assert_eq!(depths_at_points(&boards[1]), [(4, 350), (5, 433), (6, 466)]);
}

#[test]
fn exports_need_not_be_written_and_any_round_gives_points() {
    let mut state = board(1, MEAN, FIELD);
    under_test().take(&mut state, &MESSAGE).unwrap();
    assert_eq!(under_test().advance(&mut state), Err(Refusal::NotWritten));
    put_round(&mut state, 60_000);
    assert_eq!(depths_at_points(&state), [(1, 100), (2, 150), (3, 250), (4, 350)]);
}

#[test]
fn one_part_under_the_stencil_of_the_cells_alone_is_29() {
    let mesh = five_cells();
    assert_eq!(answers(&started(&mesh, &[1; 5], 1, &[1], &FIELD)), [Err(Refusal::PointReach); 3]);
    let state = started(&mesh, &[1; 5], 1, &[1, 0, 1], &FIELD);
    assert_eq!(depths_at_points(&state), [(1, 100), (2, 150), (3, 250), (4, 350), (5, 450), (6, 500)]);
}

#[test]
fn points_of_the_triangles() {
    let state = started(&triangles(), &[1; 3], 1, &[2, 0, 2], &[3, 6, 10].map(Some));
    assert_eq!(depths_at_points(&state), [(1, 6), (2, 4), (3, 4), (4, 6), (5, 10), (6, 10)]);
    let undivided = undivided_points(&Mesh::read(&triangles()).unwrap(), &[3, 6, 10].map(Some));
    assert_eq!(undivided, [6, 4, 4, 6, 10, 10].map(Some));
}

#[test]
fn triangles_that_share_only_a_point_are_29_through_edges() {
    for part in [1, 2] {
        let state = started(&triangles(), &[1, 1, 2], part, &[2, 1, 2], &[3, 6, 10].map(Some));
        assert_eq!(answers(&state), [Err(Refusal::PointReach); 3]);
    }
}

#[test]
fn points_tries_20_24_29_and_16_last() {
    // 15 imports 16 through their edge, and 17 has a point of 15.
    let mesh = triangles();
    let [mut one, mut two] = [1, 2].map(|part| started(&mesh, &[1, 2, 1], part, &[2, 1, 2], &[3, 6, 10].map(Some)));
    assert_eq!(answers(&one[..one.len() - 1]), [Err(Refusal::State); 3]);
    assert_eq!(answers(&one), [Err(Refusal::NotTaken); 3]);
    under_test().take(&mut one, &written(&mut two, 1)).unwrap();
    assert_eq!(answers(&one), [Err(Refusal::PointReach); 3]);
    // 16 has no point of 17.
    under_test().take(&mut two, &written(&mut one, 2)).unwrap();
    assert_eq!(answers(&two), [Err(Refusal::Output), Ok(3), Ok(3)]);
}

#[test]
fn a_mesh_of_one_cell_gives_its_points() {
    for top in 1..=3 {
        let mesh = Shape::of_simplices(&[(0..=top).collect()]).encode_in_order();
        let state = started(&mesh, &[1], 1, &[top as u8], &[Some(-7)]);
        assert_eq!(depths_at_points(&state), (1..=top + 1).map(|point| (point, -7)).collect::<Vec<_>>());
    }
}

#[test]
fn a_cell_with_an_empty_chain_has_no_points() {
    let shape = Shape { top: 1, counts: [1, 2, 0, 0], chains: vec![vec![], vec![1], vec![]] };
    let state = started(&shape.encode_in_order(), &[1, 2], 2, &[1], &[5, 6].map(Some));
    assert_eq!(point_words(&state), [0, 0]);
    assert_eq!(answers(&state), [Ok(0); 3]);
}

#[test]
fn the_points_stand_at_the_end_of_the_lists() {
    let one = board(1, MEAN, FIELD);
    assert_eq!((word(&one, 0), one.len()), (87, 224));
    assert_eq!(point_words(&one), [4, 1, 2, 3, 4, 0, 1, 3, 5, 7, 1, 2, 1, 3, 2, 4, 3]);
    assert_eq!(word(&one, 70), 4);
    let two = board(2, MEAN, FIELD);
    assert_eq!((word(&two, 0), two.len()), (75, 196));
    assert_eq!(point_words(&two), [3, 4, 5, 6, 0, 2, 4, 5, 2, 3, 1, 2, 1]);
    assert_eq!(word(&two, 62), 3);
}

#[test]
fn where_29_holds_no_cell_is_written() {
    let [one, two] = [1, 2].map(|part| started(&triangles(), &[1, 1, 2], part, &[2, 1, 2], &[3, 6, 10].map(Some)));
    assert_eq!(point_words(&two), [3, 1, 5, 6, 0, 2, 3, 4, 0, 0, 0, 0]);
    assert_eq!(word(&two, 50), 3);
    // Of the points of part 1 only the first has a cell outside a reach.
    assert_eq!(point_words(&one), [4, 1, 2, 3, 4, 0, 2, 4, 6, 7, 0, 0, 0, 0, 0, 0, 0]);
}

#[test]
fn a_state_of_the_form_before_points_is_refused() {
    for part in [1, 2] {
        let state = board(part, MEAN, FIELD);
        let points = point_words(&state).len();
        let lists = word(&state, 0) - points;
        let mut before = [&state[..2 * lists], &state[2 * (lists + points)..]].concat();
        put_word(&mut before, 0, lists);
        assert_eq!(answers(&before), [Err(Refusal::State); 3]);
        assert_eq!(under_test().collect(&before, 0, &mut [0; 20]), Err(Refusal::State));
    }
}

/// The answer of a call on the first board with one word set anew, counted from its count of points on.
fn changed(place: usize, number: usize) -> Answer {
    let mut state = board(1, MEAN, FIELD);
    under_test().take(&mut state, &MESSAGE).unwrap();
    put_word(&mut state, 70 + place, number);
    under_test().points(&state, &mut [0; 24])
}

#[test]
fn twenty_asks_for_ends_that_climb_from_0_and_cells_up_to_the_held_count() {
    // The words are 4 | 1 2 3 4 | 0 1 3 5 7 | 1 | 2 1 | 3 2 | 4 3, and four cells are held.
    assert_eq!(changed(0, 3), Err(Refusal::State));
    assert_eq!(changed(0, 5), Err(Refusal::State));
    assert_eq!(changed(5, 1), Err(Refusal::State));
    assert_eq!(changed(6, 0), Err(Refusal::State));
    assert_eq!(changed(7, 1), Err(Refusal::State));
    assert_eq!(changed(8, 7), Err(Refusal::State));
    assert_eq!(changed(9, 6), Err(Refusal::State));
    assert_eq!(changed(10, 5), Err(Refusal::State));
    assert_eq!(changed(16, 65_535), Err(Refusal::State));
}

#[test]
fn twenty_asks_for_no_more_of_the_points() {
    // Any number, any cell that is held, and other ends that climb.
    assert_eq!(changed(1, 65_535), Ok(4));
    assert_eq!(changed(2, 1), Ok(4));
    assert_eq!(changed(10, 4), Ok(4));
    assert_eq!(changed(8, 6), Ok(4));
    // A cell that is 0 is none that may be read.
    for place in 10..17 {
        assert_eq!(changed(place, 0), Err(Refusal::PointReach));
    }
}
