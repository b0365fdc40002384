//! Gaps: the examples of the request, and a test for each of its rules that the nearest slips do not pass.

mod common {
    pub mod boards;
    pub mod meshes;
    pub mod points;
    pub mod rounds;
    pub mod states;
}

use jemlayos_model::bytes::{is_valid, put_value, value, value_bytes, values, word, words, Value, GAP};
use jemlayos_model::calls::{under_test, PartInput, RuleInput};
use jemlayos_model::generate::scenarios::WRONG_VALUES;
use jemlayos_model::mesh::Mesh;
use jemlayos_model::refusal::{Answer, Refusal};
use jemlayos_model::rounds::undivided_points;

use common::boards::{boards, part_input, started, written, Rule, FIELD, MEAN, STENCIL};
use common::meshes::{five_cells, triangles};
use common::points::{exchange, points};
use common::rounds::{collected, round};

/// From part 2 to part 1, round 0, with a gap.
const MESSAGE: [u8; 12] = [0, 2, 0, 1, 0, 0, 0, 1, 0x80, 0, 0, 0];

/// The field of the request's examples.
const HOLES: [Value; 5] = [Some(100), None, Some(300), None, None];

const HOLD: Rule = (0, &[]);
const MEAN_WITH_ZERO: Rule = (1, &[1, 0]);
const SHOALEST: Rule = (2, &[]);

/// The undivided rounds give these fields, one after another, and so do the two boards.
fn rounds_are(rule: Rule, fields: &[[Value; 5]]) {
    let mut boards = boards(rule, fields[0]);
    for (number, pair) in (0..).zip(fields.windows(2)) {
        assert_eq!(round(rule, pair[0]), pair[1]);
        assert_eq!(collected(&boards, number), pair[0]);
        exchange(&mut boards);
        for state in &mut boards {
            assert_eq!(under_test().advance(state), Ok(0));
        }
        assert_eq!(collected(&boards, number + 1), pair[1]);
    }
}

// The examples.

#[test]
fn a_mean_fills_gaps() {
    let after_one = [Some(100), Some(200), Some(300), Some(300), None];
    rounds_are(MEAN, &[HOLES, after_one, [133, 200, 275, 300, 300].map(Some)]);
}

#[test]
fn a_mean_with_a_zero_for_the_neighbours_fills_nothing() {
    rounds_are(MEAN_WITH_ZERO, &[HOLES; 4]);
}

#[test]
fn shoalest_fills_gaps() {
    let after_one = [Some(100), Some(100), Some(300), Some(300), None];
    rounds_are(SHOALEST, &[HOLES, after_one, [100, 100, 100, 300, 300].map(Some)]);
}

#[test]
fn hold_keeps_gaps() {
    rounds_are(HOLD, &[HOLES; 4]);
}

#[test]
fn points_of_holes() {
    let expected = [Some(100), Some(100), Some(300), Some(300), None, None];
    for rule in [HOLD, MEAN, MEAN_WITH_ZERO, SHOALEST] {
        let mut boards = boards(rule, HOLES);
        exchange(&mut boards);
        assert_eq!(points(&boards[0]), (1..).zip(expected).take(4).collect::<Vec<_>>());
        let mut out = [0xee; 18];
        assert_eq!(under_test().points(&boards[1], &mut out), Ok(3));
        assert_eq!(out, [0, 4, 0, 0, 1, 0x2c, 0, 5, 0x80, 0, 0, 0, 0, 6, 0x80, 0, 0, 0]);
    }
    assert_eq!(undivided_points(&Mesh::read(&five_cells()).unwrap(), &HOLES), expected);
}

#[test]
fn a_message_with_a_gap_is_taken_and_one_with_80_00_00_01_is_15() {
    let [one, mut two] = boards(MEAN, HOLES);
    assert_eq!(written(&mut two, 1), MESSAGE);
    assert_eq!(under_test().take(&mut one.clone(), &MESSAGE), Ok(0));
    let mut next = MESSAGE;
    next[11] = 1;
    assert_eq!(under_test().take(&mut one.clone(), &next), Err(Refusal::Message));
}

#[test]
fn gaps_alone_start_and_stay() {
    for rule in [HOLD, MEAN, MEAN_WITH_ZERO, SHOALEST] {
        rounds_are(rule, &[[None; 5]; 3]);
        let mut boards = boards(rule, [None; 5]);
        exchange(&mut boards);
        assert_eq!(points(&boards[0]), [1, 2, 3, 4].map(|point| (point, None)));
        assert_eq!(points(&boards[1]), [4, 5, 6].map(|point| (point, None)));
    }
}

// Each rule, against the slips that come near it.

/// A gap that counts in the divisor, or in the sum as 0 or as −2^31, gives another depth.
#[test]
fn a_gap_is_neither_in_the_sum_nor_in_the_divisor() {
    let field = [Some(90), None, Some(-31), Some(60), Some(7)];
    // 180 / 2, 59 / 2, −2 / 3, 96 / 4 and 74 / 3. With a gap in the divisor the first two are 60 and 14.
    assert_eq!(round(MEAN, field), [90, 29, -1, 24, 24].map(Some));
    let field = [Some(90), None, Some(-31), None, Some(7)];
    // −62 / 2, where −62 / 4 would be −16.
    assert_eq!(round(MEAN, field), [90, 29, -31, -12, 7].map(Some));
    let (most, least) = (Some(1_200_000), Some(-1_200_000));
    assert_eq!(round(MEAN, [most, None, most, None, least]), [most, most, most, Some(0), least]);
}

#[test]
fn a_gap_is_not_the_least_depth() {
    let field = [Some(1_200_000), None, Some(5), None, Some(-7)];
    assert_eq!(round(SHOALEST, field), [1_200_000, 5, 5, -7, -7].map(Some));
}

/// The new value is a gap where depths are there but none with a weight above 0, and it is not a depth of 0.
#[test]
fn only_zero_weights_left_is_a_gap() {
    let field = [Some(500), None, Some(-500), Some(0), None];
    assert_eq!(round(MEAN_WITH_ZERO, field), field);
    // A sum of 0 with a weight above 0 is a depth.
    assert_eq!(round(MEAN, [Some(0); 5]), [Some(0); 5]);
    assert_eq!(round(MEAN, [Some(7), None, Some(-7), None, None])[1], Some(0));
    // Through triangles 15 reaches 16 at layer 2 and 17 at layer 4: only the second of these weights is not 0.
    let rule = RuleInput { kind: 1, weights: &words(&[1, 0, 3]) };
    let new_value = |field: [Value; 3]| {
        let mut out = [0; 12];
        under_test().round(&triangles(), &[2, 1, 2, 0, 2], rule, &values(&field), &mut out).unwrap();
        value(&out, 0)
    };
    assert_eq!(new_value([None, Some(40), None]), None);
    assert_eq!(new_value([None, Some(40), Some(8)]), Some(8));
    assert_eq!(new_value([Some(4), Some(40), None]), Some(4));
    assert_eq!(new_value([Some(4), None, Some(9)]), Some(7));
}

#[test]
fn a_point_divides_by_the_depths_at_it() {
    let mesh = triangles();
    let input = PartInput { mesh: &mesh, parts: 1, owners: &[1; 3], part: 1, stencil: &[2, 0, 2] };
    let at_points = |field: [Value; 3]| {
        let given = points(&started(input, MEAN, &field));
        given.into_iter().map(|(_, value)| value).collect::<Vec<_>>()
    };
    // Point 1 is at 15 and 17, points 2 and 3 at 15 and 16, point 4 at 16, points 5 and 6 at 17.
    assert_eq!(at_points([Some(9), None, Some(4)]), [Some(6), Some(9), Some(9), None, Some(4), Some(4)]);
    assert_eq!(at_points([None, Some(-3), None]), [None, Some(-3), Some(-3), Some(-3), None, None]);
    assert_eq!(at_points([None; 3]), [None; 6]);
    assert_eq!(at_points([Some(0), None, None]), [Some(0), Some(0), Some(0), None, None, None]);
}

#[test]
fn a_gap_that_is_taken_stands_where_a_depth_was() {
    let [mut one, _] = boards(MEAN, FIELD);
    under_test().take(&mut one, &MESSAGE).unwrap();
    assert_eq!(points(&one), [(1, Some(100)), (2, Some(150)), (3, Some(250)), (4, Some(300))]);
    written(&mut one, 2);
    under_test().advance(&mut one).unwrap();
    let mut field = [0; 20];
    under_test().collect(&one, 1, &mut field).unwrap();
    // The third is 800 / 3, and would be 300 with the depth of the start.
    assert_eq!(field[..12], values(&[133, 200, 266].map(Some)));
}

#[test]
fn write_and_collect_hand_on_the_four_bytes() {
    let [mut one, _] = boards(HOLD, [Some(-1), None, None, None, Some(3)]);
    assert_eq!(written(&mut one, 2), [0, 1, 0, 2, 0, 0, 0, 1, 0x80, 0, 0, 0]);
    let mut field = [0xee; 20];
    under_test().collect(&one, 0, &mut field).unwrap();
    assert_eq!(field[..12], [0xff, 0xff, 0xff, 0xff, 0x80, 0, 0, 0, 0x80, 0, 0, 0]);
    assert_eq!(field[12..], [0xee; 8]);
}

/// What round, start, take, and then the calls on a state answer where one value has these bytes.
fn answers(four: Value) -> [Answer; 8] {
    let mesh = five_cells();
    let rule = RuleInput { kind: 1, weights: &words(&[2, 1]) };
    let mut field = values(&[1, 2, 3, 4, 5].map(Some));
    put_value(&mut field, 8, four);
    let mut message = MESSAGE;
    put_value(&mut message, 8, four);
    let [one, mut two] = boards(MEAN, [1, 2, 3, 4, 5].map(Some));
    // The last value of a state is that of the only import.
    let mut state = one.clone();
    let last = state.len() - 4;
    put_value(&mut state, last, four);
    let fitting = written(&mut two, 1);
    let mut done = state.clone();
    let flags = 2 * word(&done, 0) + 2;
    done[flags..flags + 32].fill(1);
    [
        under_test().round(&mesh, &STENCIL, rule, &field, &mut [0; 20]),
        under_test().start(part_input(&mesh, 1), rule, &field, &mut [0; 300]),
        under_test().take(&mut one.clone(), &message),
        under_test().take(&mut state.clone(), &fitting),
        under_test().write(&mut state.clone(), 2, &mut [0; 12]),
        under_test().advance(&mut done.clone()),
        under_test().collect(&state, 0, &mut [0; 20]),
        under_test().points(&done, &mut [0; 24]),
    ]
}

#[test]
fn fourteen_fifteen_and_twenty_let_a_gap_through_and_nothing_else_out_of_range() {
    let accepted = [5, 224, 0, 0, 12, 0, 3, 4].map(Ok);
    for valid in [None, Some(0), Some(128), Some(-1), Some(1_200_000), Some(-1_200_000)] {
        assert_eq!(answers(valid), accepted, "{valid:?}");
    }
    for wrong in WRONG_VALUES {
        let [field, message, state] = [Refusal::Field, Refusal::Message, Refusal::State].map(Err);
        assert_eq!(answers(Some(wrong)), [field, field, message, state, state, state, state, state], "{wrong:#x}");
    }
    assert!(WRONG_VALUES.contains(&(i32::MIN + 1)) && WRONG_VALUES.contains(&i32::MAX));
}

/// A value is a gap for these four bytes alone; their low byte first is a depth.
#[test]
fn only_80_00_00_00_is_a_gap() {
    assert_eq!(GAP, [0x80, 0, 0, 0]);
    assert_eq!(i32::from_be_bytes(GAP), i32::MIN);
    for place in 0..4 {
        for bit in 0..8 {
            let mut other = GAP;
            other[place] ^= 1 << bit;
            assert_eq!(value(&other, 0), Some(i32::from_be_bytes(other)));
            assert_eq!(value_bytes(value(&other, 0)), other);
        }
    }
    let field = [Some(128), None, Some(128), Some(0), Some(-1)];
    assert_eq!(round(HOLD, field), field);
    assert_eq!(round(SHOALEST, field), [128, 128, 0, -1, -1].map(Some));
    assert_eq!(round(MEAN, field), [128, 128, 85, 31, -1].map(Some));
}

/// "The equality of gathered fields counts a gap as equal to a gap alone": as values, and so of valid ones as bytes.
#[test]
fn a_gap_is_equal_to_a_gap_alone() {
    let some = [None, Some(0), Some(1), Some(-1), Some(128), Some(1_200_000), Some(-1_200_000)];
    for a in some {
        assert!(is_valid(a));
        assert_eq!(value(&value_bytes(a), 0), a);
        for b in some {
            assert_eq!(value_bytes(a) == value_bytes(b), a == b);
        }
        assert_eq!(a.is_none(), value_bytes(a) == GAP);
    }
}
