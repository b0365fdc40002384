//! The same calls as the model's, tuned: what good plain Rust does, to measure the engine by. One work space is made
//! once; chains, links and reaches are arrays of words, sets are emptied without wiping, and nothing is walked twice.
#![forbid(unsafe_code)]

mod mesh;
mod rule;
mod split;
mod state;
mod tables;
mod walks;

use std::sync::{Mutex, MutexGuard};

use crate::calls::{Calls, List, PartInput, RuleInput};
use crate::refusal::Answer;
use split::Split;

pub struct Tuned {
    split: Mutex<Split>,
    /// The new values of a part's owned cells.
    new_values: Mutex<Vec<[u8; 4]>>,
}

impl Default for Tuned {
    fn default() -> Self {
        Tuned { split: Mutex::new(Split::new()), new_values: Mutex::default() }
    }
}

/// A call leaves nothing that the next one reads, so what a panic left does not matter.
fn lent<T>(space: &Mutex<T>) -> MutexGuard<'_, T> {
    space.lock().unwrap_or_else(|poisoned| poisoned.into_inner())
}

impl Calls for Tuned {
    fn name(&self) -> &'static str {
        "tuned"
    }

    fn check_mesh(&self, mesh: &[u8]) -> Answer {
        lent(&self.split).check_mesh(mesh)
    }

    fn list(&self, input: PartInput, list: List, out: &mut [u8]) -> Answer {
        lent(&self.split).list(input, list, out)
    }

    fn round(&self, mesh: &[u8], stencil: &[u8], rule: RuleInput, field: &[u8], out: &mut [u8]) -> Answer {
        lent(&self.split).round(mesh, stencil, rule, field, out)
    }

    fn state_size(&self, input: PartInput) -> Answer {
        lent(&self.split).state_size(input)
    }

    fn start(&self, input: PartInput, rule: RuleInput, field: &[u8], state: &mut [u8]) -> Answer {
        lent(&self.split).start(input, rule, field, state)
    }

    fn write(&self, state: &mut [u8], to: u32, out: &mut [u8]) -> Answer {
        state::write(state, to, out)
    }

    fn take(&self, state: &mut [u8], message: &[u8]) -> Answer {
        state::take(state, message)
    }

    fn advance(&self, state: &mut [u8]) -> Answer {
        state::advance(state, &mut lent(&self.new_values))
    }

    fn collect(&self, state: &[u8], round: u32, field: &mut [u8]) -> Answer {
        state::collect(state, round, field)
    }

    fn points(&self, state: &[u8], out: &mut [u8]) -> Answer {
        state::points(state, out)
    }

    fn place(&self, list: &[u8], cell: u32, read: &mut u32) -> u64 {
        for (before, pair) in list.chunks_exact(2).enumerate() {
            let number = u32::from(u16::from_be_bytes([pair[0], pair[1]]));
            if number >= cell {
                *read = u32::try_from(before + 1).unwrap_or(u32::MAX);
                return if number == cell { before as u64 + 1 } else { 0 };
            }
        }
        *read = u32::try_from(list.len() / 2).unwrap_or(u32::MAX);
        0
    }
}
