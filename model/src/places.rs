//! Where a cell stands in a list (F-3).

use crate::bytes::numbers;

/// The place of a cell in a list of words, from 1, and 0 for none. `read` is how many numbers a search reads that ends at the
/// first number not below the one sought.
pub fn place(list: &[u8], cell: u32, read: &mut u32) -> u64 {
    let (numbers, sought) = (numbers(list), cell as usize);
    let first = numbers.iter().position(|&number| number >= sought);
    *read = first.map_or(numbers.len(), |at| at + 1).try_into().unwrap_or(u32::MAX);
    match first {
        Some(at) if numbers[at] == sought => at as u64 + 1,
        _ => 0,
    }
}
