//! Words, depths and gaps in byte slices, high byte first.

use crate::refusal::{Answer, Refusal};

/// The greatest depth in centimetres; the least one is its negative.
pub const DEEPEST: i32 = 1_200_000;

/// Word `i`; one past the end reads as 0, so that a head may be read before a length is tested.
pub fn word(bytes: &[u8], i: usize) -> usize {
    bytes.get(2 * i..).and_then(|rest| rest.first_chunk()).map_or(0, |pair| usize::from(u16::from_be_bytes(*pair)))
}

/// The numbers of a list of words. Half a word at the end is no number.
pub fn numbers(list: &[u8]) -> Vec<usize> {
    (0..list.len() / 2).map(|i| word(list, i)).collect()
}

/// A number as a word. Every number that is written is within the limits, far below 65,536.
fn word_bytes(number: usize) -> [u8; 2] {
    u16::try_from(number).expect("a written number fits a word").to_be_bytes()
}

pub fn put_word(bytes: &mut [u8], i: usize, number: usize) {
    bytes[2 * i..2 * i + 2].copy_from_slice(&word_bytes(number));
}

pub fn words(numbers: &[usize]) -> Vec<u8> {
    numbers.iter().flat_map(|&n| word_bytes(n)).collect()
}

/// A depth in centimetres, or none: a gap.
pub type Value = Option<i32>;

/// The four bytes that stand for a gap.
pub const GAP: [u8; 4] = [0x80, 0, 0, 0];

/// What the four bytes from `at` on stand for.
pub fn value(bytes: &[u8], at: usize) -> Value {
    let four = *bytes[at..].first_chunk().expect("a value has four bytes");
    (four != GAP).then_some(i32::from_be_bytes(four))
}

pub fn value_bytes(value: Value) -> [u8; 4] {
    value.map_or(GAP, i32::to_be_bytes)
}

pub fn put_value(bytes: &mut [u8], at: usize, value: Value) {
    bytes[at..at + 4].copy_from_slice(&value_bytes(value));
}

pub fn values(values: &[Value]) -> Vec<u8> {
    values.iter().flat_map(|&value| value_bytes(value)).collect()
}

/// The bytes of depths with no gap among them.
pub fn depths(depths: &[i32]) -> Vec<u8> {
    depths.iter().flat_map(|depth| depth.to_be_bytes()).collect()
}

/// Whether it is a depth in range, or a gap.
pub fn is_valid(value: Value) -> bool {
    value.is_none_or(|depth| (-DEEPEST..=DEEPEST).contains(&depth))
}

/// The values that `bytes` hold, none if one is not valid or not whole.
pub fn read_values(bytes: &[u8]) -> Option<Vec<Value>> {
    if !bytes.len().is_multiple_of(4) {
        return None;
    }
    bytes.chunks_exact(4).map(|four| Some(value(four, 0)).filter(|&value| is_valid(value))).collect()
}

/// The front of an output buffer, as much as is needed; the rest stays.
pub fn needed(out: &mut [u8], need: usize) -> Answer<&mut [u8]> {
    out.get_mut(..need).ok_or(Refusal::Output)
}
