//! Messages that a take may be handed, and states that only seem to be ones.

use super::damage::{damaged_byte, damaged_bytes};
use super::random::Random;
use super::scenarios::{odd_value, random_gap_share, random_values};
use crate::bytes::{put_value, put_word, values, word, words, Value};
use crate::mesh::MOST_ELEMENTS;
use crate::messages::Message;
use crate::split::MOST_PARTS;
use crate::state::{Local, Sizes, LAST_ROUND};

/// Something like one of the written messages: that one itself, whichever round or receiver it is of, or a changed one.
pub fn message(random: &mut Random, written: &[Vec<u8>]) -> Vec<u8> {
    let bytes = if written.is_empty() || random.one_in(8) {
        random_message(random).encode()
    } else {
        random.pick(written).clone()
    };
    match random.below(4) {
        0 => damaged_bytes(random, &bytes),
        1 => changed_message(random, &bytes),
        _ => bytes,
    }
}

/// A message that fits what a state imports from some part, as far as the tables of the state can be believed.
pub fn message_for(random: &mut Random, state: &[u8]) -> Vec<u8> {
    let imports = |j: usize| word(state, 11 + j).saturating_sub(word(state, 10 + j)).min(MOST_ELEMENTS);
    let senders: Vec<usize> = (1..=MOST_PARTS).filter(|&j| imports(j) > 0).collect();
    let from = if senders.is_empty() { 1 } else { *random.pick(&senders) };
    let message = Message {
        from,
        to: word(state, 1),
        round: word(state, word(state, 0)),
        values: some_values(random, imports(from)),
    };
    message.encode()
}

fn random_message(random: &mut Random) -> Message {
    let count = random.below(4);
    Message {
        from: random.between(0, MOST_PARTS + 1),
        to: random.between(0, MOST_PARTS + 1),
        round: random.below(3),
        values: some_values(random, count),
    }
}

/// Values with some share of gaps among them.
fn some_values(random: &mut Random, count: usize) -> Vec<Value> {
    let gap_share = random_gap_share(random);
    random_values(random, count, gap_share)
}

/// One field of a message is another one, or one of its values is odd.
fn changed_message(random: &mut Random, bytes: &[u8]) -> Vec<u8> {
    let mut message = Message::read(bytes).expect("a written message");
    match random.below(7) {
        0 => message.from = random.between(0, MOST_PARTS + 1),
        1 => message.to = random.between(0, MOST_PARTS + 1),
        2 => message.round = (message.round + random.between(1, 2)) % LAST_ROUND,
        3 => message.values.extend(some_values(random, 1)),
        4 => {
            message.values.pop();
        }
        5 if !message.values.is_empty() => {
            let place = random.below(message.values.len());
            message.values[place] = odd_value(random);
        }
        _ => message.values = some_values(random, message.values.len()),
    }
    message.encode()
}

/// The state as it would be at a round, with all messages taken and written.
pub fn at_round(state: &[u8], round: usize) -> Vec<u8> {
    let mut state = state.to_vec();
    let lists = word(&state, 0);
    put_word(&mut state, lists, round);
    state[2 * lists + 2..2 * lists + 34].fill(1);
    state
}

/// The state cut, in a longer buffer, with one word set anew, with an odd value, or with a byte damaged.
pub fn broken_state(random: &mut Random, state: &[u8]) -> Vec<u8> {
    let mut broken = state.to_vec();
    match random.below(7) {
        0 => broken.truncate(random.below(state.len())),
        1 => broken.extend(random.bytes(5)),
        2 => {
            let place = random.below(state.len() / 2);
            let near = word(state, place);
            let number = *random.pick(&[0, 1, 17, near + 1, near.saturating_sub(1), 2_001, 60_001, 65_535]);
            put_word(&mut broken, place, number.min(65_535));
        }
        3 => {
            let sizes = Sizes::read(state);
            if sizes.held > 0 && state.len() >= sizes.length() {
                let local = Local(random.between(1, sizes.held));
                put_value(&mut broken, sizes.value(local), odd_value(random));
            }
        }
        _ => {
            let at = random.below(state.len());
            broken[at] = damaged_byte(random, broken[at]);
        }
    }
    broken
}

/// Bytes of a state's form that no start made: lists in any order, cells held twice, imports from the part itself, points
/// of any number and in any order. Some have a point without a cell, or with one that is not held.
pub fn forged_state(random: &mut Random) -> Vec<u8> {
    let steps = 2 * random.below(5);
    let (first, cells) = (*random.pick(&[0, 1, 40, 65_500]), random.between(1, 12));
    let owned = random.between(0, 5);
    let mut import_ends = random_ends(random, owned, MOST_PARTS, 2);
    if random.one_in(20) {
        // As many held cells as there may be, or one more.
        import_ends[MOST_PARTS] = MOST_ELEMENTS + random.below(2);
    }
    let export_ends = random_ends(random, 0, MOST_PARTS, if owned > 0 { 2 } else { 0 });
    let (held, exports) = (import_ends[MOST_PARTS], export_ends[MOST_PARTS]);
    let mut reach_ends = vec![0];
    let mut entries = Vec::new();
    for local in 1..=owned {
        let mut reach = vec![[local, 0]];
        for _ in 0..random.below(4) {
            reach.push([random.between(1, held), 2 * random.between(0, steps / 2)]);
        }
        random.shuffle(&mut reach);
        entries.extend(reach.concat());
        reach_ends.push(entries.len() / 2);
    }
    let mut lists = vec![0, random.between(1, MOST_PARTS), steps, random.below(3), random.between(1, 15)];
    // Weights past the stencil's are not read, and neither is any but for a mean.
    lists.extend((1..5).map(|i| if 2 * i <= steps { random.below(16) } else { random.below(1 << 16) }));
    lists.extend([first, cells]);
    lists.extend(import_ends);
    lists.extend(export_ends);
    lists.extend((0..held).map(|_| first + random.below(cells)));
    lists.extend(reach_ends);
    lists.extend(entries);
    lists.extend((0..exports).map(|_| random.between(1, owned)));
    lists.extend(forged_points(random, held));
    lists[0] = lists.len();
    let mut state = words(&lists);
    let round = *random.pick(&[0, 1, 59_999, LAST_ROUND]);
    state.extend(words(&[round]));
    let unset = random.one_in(3);
    state.extend((0..2 * MOST_PARTS).map(|_| u8::from(!unset || random.one_in(2))));
    state.extend(values(&some_values(random, held)));
    state
}

/// The words of points over that many held cells, from their count on: none, a few, or one with so many cells that the
/// sum of their depths has more than 32 bits. Few have a cell that is 0, and still fewer are refused by 20.
fn forged_points(random: &mut Random, held: usize) -> Vec<usize> {
    let many = random.one_in(12);
    let points = if many { 1 } else { random.below(5) };
    let (zeros, too_high) = (held == 0 || random.one_in(4), random.one_in(16));
    let empty = random.one_in(16).then(|| random.below(points + 1));
    let mut ends = vec![0];
    for k in 0..points {
        let cells = if many { random.between(2_000, 20_000) } else { random.between(1, 4) };
        ends.push(ends[k] + if empty == Some(k) { 0 } else { cells });
    }
    let mut cells: Vec<usize> = (0..ends[points]).map(|_| random.between(1, held.max(1))).collect();
    for (number, wanted) in [(0, zeros), (held + 1, too_high)] {
        if wanted && !cells.is_empty() {
            let place = random.below(cells.len());
            cells[place] = number;
        }
    }
    if held == 0 {
        cells.fill(0);
    }
    let mut words = vec![points];
    words.extend((0..points).map(|_| random.below(1 << 16)));
    words.extend(ends);
    words.extend(cells);
    words
}

fn random_ends(random: &mut Random, before: usize, count: usize, most: usize) -> Vec<usize> {
    let mut ends = vec![before];
    for _ in 0..count {
        let more = if random.one_in(4) { random.between(0, most) } else { 0 };
        ends.push(ends[ends.len() - 1] + more);
    }
    ends
}
