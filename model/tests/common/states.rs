//! Part states as start leaves them.

use jemlayos_model::calls::{under_test, PartInput, RuleInput};

/// The state of a part as it is started, and after it as many more bytes as `room` says, which start does not change.
pub fn started_with_room(input: PartInput, rule: RuleInput, field: &[u8], room: usize) -> Vec<u8> {
    let length = under_test().state_size(input).unwrap();
    let mut state = vec![0xee; length as usize + room];
    assert_eq!(under_test().start(input, rule, field, &mut state), Ok(length));
    assert!(state[length as usize..].iter().all(|&byte| byte == 0xee));
    state
}

/// The state of a part as it is started.
pub fn started(input: PartInput, rule: RuleInput, field: &[u8]) -> Vec<u8> {
    started_with_room(input, rule, field, 0)
}
