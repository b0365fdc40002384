//! Rounding to the shoal side: the examples of the request, and every small sum over small weights, at cells and at points.

mod common {
    pub mod boards;
    pub mod meshes;
    pub mod points;
    pub mod rounds;
    pub mod states;
}

use jemlayos_model::bytes::{value, value_bytes, values, words, Value};
use jemlayos_model::calls::{under_test, PartInput, RuleInput};
use jemlayos_model::generate::shapes::Shape;

use common::boards::{boards, started, Rule, FIELD, MEAN, STENCIL};
use common::meshes::triangles;
use common::points::{exchange, points};
use common::rounds::{collected, round};

/// The field after one round, which the two boards give as the undivided round does.
fn smoothed(rule: Rule, field: [Value; 5]) -> [Value; 5] {
    let after = round(rule, field);
    let mut boards = boards(rule, field);
    exchange(&mut boards);
    for state in &mut boards {
        assert_eq!(under_test().advance(state), Ok(0));
    }
    assert_eq!(collected(&boards, 1), after);
    after
}

/// The points of the first board, with their values.
fn points_of_first(depths: [i32; 5]) -> Vec<(usize, Value)> {
    let mut boards = boards(MEAN, depths.map(Some));
    exchange(&mut boards);
    points(&boards[0])
}

/// The points of a mesh in one part, with their values, in rising number.
fn points_of(mesh: &[u8], stencil: &[u8], depths: &[i32]) -> Vec<Value> {
    let owners = vec![1; depths.len()];
    let input = PartInput { mesh, parts: 1, owners: &owners, part: 1, stencil };
    let field: Vec<Value> = depths.iter().copied().map(Some).collect();
    points(&started(input, MEAN, &field)).into_iter().map(|(_, value)| value).collect()
}

/// A cell that shares each of its points with one other cell: its reach is long, and theirs are short.
fn hub(neighbours: usize) -> Vec<u8> {
    let mut chains = vec![Vec::new(); neighbours];
    chains.push((1..=neighbours).collect());
    chains.extend((1..=neighbours).map(|point| vec![point]));
    Shape { top: 1, counts: [neighbours, neighbours + 1, 0, 0], chains }.encode_in_order()
}

/// Not above the quotient of sum and weights, and one more is above it.
fn is_mean(value: Value, sum: i32, weights: i32) -> bool {
    value.is_some_and(|mean| mean * weights <= sum && sum < (mean + 1) * weights)
}

// The examples.

#[test]
fn sums_over_weights_4() {
    for (first, second, mean) in [(-1, -2, -2), (1, 2, 1), (-2, -2, -2), (3, -1, 0)] {
        assert_eq!(smoothed((1, &[1, 3]), [first, second, 0, 0, 0].map(Some))[0], Some(mean));
    }
}

#[test]
fn sum_minus_1_over_weights_15() {
    assert_eq!(smoothed((1, &[13, 1]), [-1, 0, 0, 0, 0].map(Some))[1], Some(-1));
}

#[test]
fn cells_above_the_water() {
    let after = smoothed(MEAN, FIELD.map(|depth| depth.map(|d| -d)));
    assert_eq!(after, [-134, -200, -300, -400, -467].map(Some));
    assert_eq!(value_bytes(after[0]), [0xff, 0xff, 0xff, 0x7a]);
    assert_eq!(smoothed(MEAN, FIELD), [133, 200, 300, 400, 466].map(Some));
}

#[test]
fn points_above_the_water() {
    assert_eq!(points_of_first([-1, -2, 0, 0, 0]), [(1, Some(-1)), (2, Some(-2)), (3, Some(-1)), (4, Some(0))]);
    assert_eq!(points_of(&triangles(), &[2, 0, 2], &[-3, -6, -10]), [-7, -5, -5, -6, -10, -10].map(Some));
}

#[test]
fn a_point_between_the_least_depths_is_in_range() {
    assert_eq!(points_of_first([-1_200_000, -1_199_999, 0, 0, 0])[1], (2, Some(-1_200_000)));
}

// Sums of more than 32 bits, by the undivided round and by a part.

#[test]
fn a_sum_of_more_than_32_bits() {
    let (mesh, owners, rule) = (hub(200), [1; 201], (1, [15, 15].as_slice()));
    let input = PartInput { mesh: &mesh, parts: 1, owners: &owners, part: 1, stencil: &STENCIL };
    for (most, one, mean) in [(-1_200_000, -1_199_999, -1_200_000), (1_200_000, 1_199_999, 1_199_999)] {
        let mut field = [Some(most); 201];
        field[7] = Some(one);
        let mut after = [0; 804];
        let given = RuleInput { kind: 1, weights: &words(rule.1) };
        assert_eq!(under_test().round(&mesh, &STENCIL, given, &values(&field), &mut after), Ok(201));
        assert_eq!(value(&after, 0), Some(mean));
        let mut state = started(input, rule, &field);
        assert_eq!(under_test().advance(&mut state), Ok(0));
        let mut collected = [0; 804];
        assert_eq!(under_test().collect(&state, 1, &mut collected), Ok(201));
        assert_eq!(collected, after);
    }
}

// Every small sum.

#[test]
fn every_small_sum_at_a_cell() {
    for sum in -20..=20 {
        assert_eq!(smoothed((1, &[1, 0]), [sum, 0, 0, 0, 0].map(Some))[0], Some(sum));
        for own_weight in 1..=14 {
            let mean = smoothed((1, vec![own_weight, 1].leak()), [0, sum, 0, 0, 0].map(Some))[0];
            assert!(is_mean(mean, sum, own_weight as i32 + 1), "{sum} over {own_weight} + 1 gives {mean:?}");
        }
    }
}

#[test]
fn every_small_sum_at_a_point() {
    for cells in 1..=15 {
        let mesh = Shape::star(cells).encode_in_order();
        let mut depths = vec![0; cells];
        for sum in -20..=20 {
            depths[0] = sum;
            let mean = points_of(&mesh, &STENCIL, &depths)[0];
            assert!(is_mean(mean, sum, cells as i32), "{sum} over {cells} gives {mean:?}");
        }
    }
}
