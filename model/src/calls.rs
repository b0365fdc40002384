//! The public calls as one trait, so that the engine and the model can stand in each other's place.

use std::sync::LazyLock;

use crate::compare::Compared;
use crate::refusal::Answer;
use crate::split::Range;
use crate::tuned::Tuned;
use crate::{mesh, parts, places, rounds, split};

/// The inputs that name a part: those of its lists, of its state's size and of its start.
#[derive(Clone, Copy)]
pub struct PartInput<'a> {
    pub mesh: &'a [u8],
    /// P, the number of parts.
    pub parts: u32,
    pub owners: &'a [u8],
    pub part: u32,
    pub stencil: &'a [u8],
}

#[derive(Clone, Copy)]
pub struct RuleInput<'a> {
    pub kind: u32,
    /// Words, high byte first.
    pub weights: &'a [u8],
}

/// A list of a part, with the other part or the dimension that it is asked for.
#[derive(Clone, Copy, Debug)]
pub enum List {
    Interior,
    Halo,
    Locals,
    Imports(u32),
    Exports(u32),
    Range(Range, u32),
}

impl List {
    pub fn name(self) -> &'static str {
        match self {
            List::Interior => "interior",
            List::Halo => "halo",
            List::Locals => "locals",
            List::Imports(_) => "imports",
            List::Exports(_) => "exports",
            List::Range(range, _) => range.name(),
        }
    }
}

/// Numbers and lengths may be anything. A refusal changes no lent byte; an accepted call changes none past its need.
pub trait Calls {
    fn name(&self) -> &'static str;

    fn check_mesh(&self, mesh: &[u8]) -> Answer;
    fn list(&self, input: PartInput, list: List, out: &mut [u8]) -> Answer;
    fn round(&self, mesh: &[u8], stencil: &[u8], rule: RuleInput, field: &[u8], out: &mut [u8]) -> Answer;
    fn state_size(&self, input: PartInput) -> Answer;
    fn start(&self, input: PartInput, rule: RuleInput, field: &[u8], state: &mut [u8]) -> Answer;
    fn write(&self, state: &mut [u8], to: u32, out: &mut [u8]) -> Answer;
    fn take(&self, state: &mut [u8], message: &[u8]) -> Answer;
    fn advance(&self, state: &mut [u8]) -> Answer;
    fn collect(&self, state: &[u8], round: u32, field: &mut [u8]) -> Answer;
    fn points(&self, state: &[u8], out: &mut [u8]) -> Answer;

    /// The place of a cell in a list of words, from 1, and 0 for none; nothing is refused. Sets `read`.
    fn place(&self, list: &[u8], cell: u32, read: &mut u32) -> u64;
}

/// This package's own calls.
pub struct Model;

impl Calls for Model {
    fn name(&self) -> &'static str {
        "model"
    }

    fn check_mesh(&self, mesh: &[u8]) -> Answer {
        mesh::check_mesh(mesh)
    }

    fn list(&self, input: PartInput, list: List, out: &mut [u8]) -> Answer {
        split::list(input, list, out)
    }

    fn round(&self, mesh: &[u8], stencil: &[u8], rule: RuleInput, field: &[u8], out: &mut [u8]) -> Answer {
        rounds::round(mesh, stencil, rule, field, out)
    }

    fn state_size(&self, input: PartInput) -> Answer {
        parts::state_size(input)
    }

    fn start(&self, input: PartInput, rule: RuleInput, field: &[u8], state: &mut [u8]) -> Answer {
        parts::start(input, rule, field, state)
    }

    fn write(&self, state: &mut [u8], to: u32, out: &mut [u8]) -> Answer {
        parts::write(state, to, out)
    }

    fn take(&self, state: &mut [u8], message: &[u8]) -> Answer {
        parts::take(state, message)
    }

    fn advance(&self, state: &mut [u8]) -> Answer {
        parts::advance(state)
    }

    fn collect(&self, state: &[u8], round: u32, field: &mut [u8]) -> Answer {
        parts::collect(state, round, field)
    }

    fn points(&self, state: &[u8], out: &mut [u8]) -> Answer {
        parts::points(state, out)
    }

    fn place(&self, list: &[u8], cell: u32, read: &mut u32) -> u64 {
        places::place(list, cell, read)
    }
}

/// The engine where it is linked.
pub fn engine() -> Option<&'static (dyn Calls + Sync)> {
    #[cfg(engine)]
    return Some(&crate::engine::Engine);
    #[cfg(not(engine))]
    return None;
}

/// The tuned calls, with one work space for all who ask.
pub fn tuned() -> &'static (dyn Calls + Sync) {
    static TUNED: LazyLock<Tuned> = LazyLock::new(Tuned::default);
    &*TUNED
}

/// What is compared with the model: the engine where it is linked, and the tuned calls.
pub fn others() -> Vec<&'static (dyn Calls + Sync)> {
    engine().into_iter().chain([tuned()]).collect()
}

/// What the tests are run on: the model and the others at once, which all have to give and leave the same.
pub fn under_test() -> &'static dyn Calls {
    type Told = fn(&'static str, Answer, &[String]);
    static ALL: LazyLock<Compared<Told>> = LazyLock::new(|| Compared {
        others: others(),
        told: |_, _, differences| assert!(differences.is_empty(), "{differences:?}"),
    });
    &*ALL
}
