//! The examples of the specification, on the engine where it is linked and else on the model.

mod common {
    pub mod boards;
    pub mod lists;
    pub mod meshes;
    pub mod reaches;
    pub mod rounds;
    pub mod states;
    pub mod words;
}

use jemlayos_model::bytes::{depths, words};
use jemlayos_model::calls::{under_test, List, RuleInput};
use jemlayos_model::listing;
use jemlayos_model::mesh::Mesh;
use jemlayos_model::refusal::{Answer, Refusal};
use jemlayos_model::rounds::Rule;
use jemlayos_model::split::Range;

use common::boards::{boards, part_input, written, FIELD, MEAN, OWNERS, STENCIL};
use common::lists::listed;
use common::meshes::{five_cells, triangles};
use common::reaches::reaches;
use common::rounds::{collected, round};

const LISTING: &str = "\
parts 2
part 1
interior 7 8
halo 9
import 2 10
export 2 9
dim 0 private 1 2
dim 0 exposed 3
dim 0 shared 4
dim 0 copied 5
part 2
interior 11
halo 10
import 1 9
export 1 10
dim 0 private 6
dim 0 exposed 5
dim 0 shared 4
dim 0 copied 3
";

/// The list program's input, from its pieces.
fn input(parts: u8, owners: &[u8], stencil: &[u8]) -> Vec<u8> {
    let mut input = five_cells();
    input.push(parts);
    input.extend(owners);
    input.push(stencil.len() as u8);
    input.extend(stencil);
    input
}

/// The mean with these words of weights.
fn mean(weights: &[u8]) -> RuleInput<'_> {
    RuleInput { kind: 1, weights }
}

#[test]
fn five_cells_are_a_mesh_of_74_bytes() {
    assert_eq!(five_cells().len(), 74);
    assert_eq!(under_test().check_mesh(&five_cells()), Ok(5));
}

#[test]
fn lists_are_printed() {
    assert_eq!(listing::text(&input(2, &OWNERS, &STENCIL)), LISTING);
}

#[test]
fn lists_are_given_as_words() {
    let mesh = five_cells();
    let list = |part: u32, list: List| listed(part_input(&mesh, part), list);
    assert_eq!(list(1, List::Interior), [7, 8]);
    assert_eq!(list(1, List::Halo), [9]);
    assert_eq!(list(1, List::Imports(2)), [10]);
    assert_eq!(list(1, List::Imports(1)), []);
    assert_eq!(list(1, List::Exports(2)), [9]);
    assert_eq!(list(1, List::Locals), [7, 8, 9, 10]);
    assert_eq!(list(2, List::Locals), [11, 10, 9]);
    assert_eq!(list(2, List::Range(Range::Private, 0)), [6]);
    assert_eq!(list(2, List::Range(Range::Exposed, 0)), [5]);
    assert_eq!(list(2, List::Range(Range::Shared, 0)), [4]);
    assert_eq!(list(2, List::Range(Range::Copied, 0)), [3]);
    assert_eq!(list(2, List::Range(Range::Copied, 1)), []);
    let mut short = [0; 3];
    assert_eq!(under_test().list(part_input(&mesh, 1), List::Interior, &mut short), Err(Refusal::Output));
    assert_eq!(under_test().list(part_input(&mesh, 1), List::Imports(3), &mut short), Err(Refusal::PartMap));
}

#[test]
fn input_cut_short_is_refused_by_its_first_broken_piece() {
    let whole = input(2, &OWNERS, &STENCIL);
    for length in 0..whole.len() {
        let number = match length {
            0..12 => 1,
            12..74 => 3,
            74..80 => 8,
            _ => 10,
        };
        assert_eq!(listing::text(&whole[..length]), format!("refused {number}\n"), "{length} bytes");
    }
    let mut longer = whole;
    longer.push(0);
    assert_eq!(listing::text(&longer), "refused 10\n");
}

#[test]
fn a_smaller_number_comes_before_a_cut() {
    let mut no_such_dimension = input(2, &OWNERS, &STENCIL);
    no_such_dimension[1] = 4;
    assert_eq!(listing::text(&no_such_dimension[..20]), "refused 1\n");
    let mut no_points = input(2, &OWNERS, &STENCIL);
    no_points[3] = 0;
    assert_eq!(listing::text(&no_points[..20]), "refused 2\n");
    let mut element_0 = five_cells();
    element_0[35] = 0;
    assert_eq!(listing::text(&element_0), "refused 5\n");
    assert_eq!(listing::text(&input(2, &[1; 5], &[])), "refused 9\n");
    assert_eq!(listing::text(&vec![0; 65_536]), "refused 1\n");
    assert_eq!(listing::text(&vec![0; 65_537]), "too long\n");
}

#[test]
fn a_stencil_of_length_1_imports_nothing_and_lengths_0_2_11_are_refused() {
    let text = listing::text(&input(2, &OWNERS, &[1]));
    assert!(text.contains("interior 7 8 9\nhalo\ndim 0 private 1 2 3\n") && !text.contains("import"));
    for length in [0, 2, 11] {
        let alternating = [1, 0, 1, 0, 1, 0, 1, 0, 1, 0, 1];
        assert_eq!(listing::text(&input(2, &OWNERS, &alternating[..length])), "refused 10\n");
    }
}

#[test]
fn lengths_of_73_and_11_bytes_and_an_empty_part_are_refused() {
    assert_eq!(under_test().check_mesh(&five_cells()[..73]), Err(Refusal::MeshLength));
    assert_eq!(under_test().check_mesh(&five_cells()[..11]), Err(Refusal::MeshHead));
    assert_eq!(listing::text(&input(2, &[1; 5], &STENCIL)), "refused 9\n");
}

#[test]
fn mean_of_two_rounds() {
    let after_one = [133, 200, 300, 400, 466].map(Some);
    assert_eq!(round(MEAN, FIELD), after_one);
    assert_eq!(round(MEAN, after_one), [155, 208, 300, 391, 444].map(Some));
}

/// The specification has -1, which request F-4 changed.
#[test]
fn sum_minus_7_over_weights_4() {
    let weights = words(&[1, 3]);
    let rule = Rule::read(mean(&weights), 2).ok().unwrap();
    assert_eq!(rule.new_value(Some(-1), [(0, Some(-1)), (2, Some(-2))].into_iter()), Some(-2));
}

#[test]
fn message_from_part_2_to_part_1() {
    let [_, mut two] = boards(MEAN, FIELD);
    assert_eq!(written(&mut two, 1), [0, 2, 0, 1, 0, 0, 0, 1, 0, 0, 0x01, 0x90]);
}

#[test]
fn depths_end_at_1_200_000() {
    let (mesh, weights) = (five_cells(), words(&[2, 1]));
    let round = |deepest: i32| -> Answer {
        let field = depths(&[0, 0, deepest, 0, -1_200_000]);
        under_test().round(&mesh, &STENCIL, mean(&weights), &field, &mut [0; 20])
    };
    assert_eq!(round(1_200_000), Ok(5));
    assert_eq!(round(1_200_001), Err(Refusal::Field));
    assert_eq!(round(-1_200_001), Err(Refusal::Field));
}

#[test]
fn a_message_of_the_next_round_is_taken_only_after_advance() {
    let [mut one, mut two] = boards(MEAN, FIELD);
    let (to_two, to_one) = (written(&mut one, 2), written(&mut two, 1));
    assert_eq!(under_test().take(&mut two, &to_two), Ok(0));
    assert_eq!(under_test().advance(&mut two), Ok(0));
    let next = written(&mut two, 1);
    assert_eq!(under_test().take(&mut one, &next), Err(Refusal::MessageRound));
    assert_eq!(under_test().advance(&mut one), Err(Refusal::NotTaken));
    assert_eq!(under_test().take(&mut one, &to_one), Ok(0));
    assert_eq!(under_test().take(&mut one, &to_one), Err(Refusal::AlreadyTaken));
    assert_eq!(under_test().advance(&mut one), Ok(0));
    assert_eq!(under_test().take(&mut one, &next), Ok(0));
    let to_two = written(&mut one, 2);
    assert_eq!(under_test().take(&mut two, &to_two), Ok(0));
    for state in [&mut one, &mut two] {
        assert_eq!(under_test().advance(state), Ok(0));
    }
    assert_eq!(collected(&[one, two], 2), [155, 208, 300, 391, 444].map(Some));
}

#[test]
fn walks_return_to_what_they_visited() {
    let mesh = Mesh::read(&triangles()).unwrap();
    assert_eq!(mesh.elements(1), 7..15);
    let reaches = reaches(&mesh, &[2, 1, 2, 0, 2]);
    assert_eq!(reaches[&15], [(15, 0), (16, 2), (17, 4)]);
    assert_eq!(reaches[&16], [(15, 2), (16, 0), (17, 4)]);
    assert_eq!(reaches[&17], [(15, 4), (17, 0)]);
}
