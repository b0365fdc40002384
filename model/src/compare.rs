//! Each call on the model and on the others, with a look at answers and every lent byte.

use crate::calls::{Calls, List, Model, PartInput, RuleInput};
use crate::refusal::Answer;

/// Makes each call on the model and on the others, over buffers of their own, and leaves what the model left. `told` gets
/// the call's name, the model's answer, and what any of the others gave or left that differs.
pub struct Compared<'a, F> {
    pub others: Vec<&'a (dyn Calls + Sync)>,
    pub told: F,
}

impl<F: Fn(&'static str, Answer, &[String])> Compared<'_, F> {
    /// `lent` are the buffers that the call may change.
    fn compare<const N: usize>(
        &self,
        call: &'static str,
        lent: [&mut [u8]; N],
        make: impl Fn(&dyn Calls, [&mut [u8]; N]) -> Answer,
    ) -> Answer {
        let before = lent.each_ref().map(|buffer| buffer.to_vec());
        let made = |calls: &dyn Calls| {
            let mut left = before.clone();
            (make(calls, left.each_mut().map(Vec::as_mut_slice)), left)
        };
        let (answer, expected) = made(&Model);
        if answer.is_err() {
            assert_eq!(expected, before, "the model's refusal of {call} changed a byte");
        }
        let mut differences = Vec::new();
        for &other in &self.others {
            let (given, found) = made(other);
            if given != answer || found != expected {
                let first = |a: &Vec<u8>, b: &Vec<u8>| a.iter().zip(b).position(|(a, b)| a != b);
                let bytes: Vec<_> = found.iter().zip(&expected).map(|(a, b)| first(a, b)).collect();
                let name = other.name();
                differences.push(format!("{name}, {call}: {given:?} for {answer:?}, first different bytes {bytes:?}"));
            }
        }
        (self.told)(call, answer, &differences);
        for (buffer, expected) in lent.into_iter().zip(expected) {
            buffer.copy_from_slice(&expected);
        }
        answer
    }
}

impl<F: Fn(&'static str, Answer, &[String])> Calls for Compared<'_, F> {
    fn name(&self) -> &'static str {
        "all"
    }

    fn check_mesh(&self, mesh: &[u8]) -> Answer {
        self.compare("check mesh", [], |calls, []| calls.check_mesh(mesh))
    }

    fn list(&self, input: PartInput, list: List, out: &mut [u8]) -> Answer {
        self.compare(list.name(), [out], |calls, [out]| calls.list(input, list, out))
    }

    fn round(&self, mesh: &[u8], stencil: &[u8], rule: RuleInput, field: &[u8], out: &mut [u8]) -> Answer {
        self.compare("round", [out], |calls, [out]| calls.round(mesh, stencil, rule, field, out))
    }

    fn state_size(&self, input: PartInput) -> Answer {
        self.compare("state size", [], |calls, []| calls.state_size(input))
    }

    fn start(&self, input: PartInput, rule: RuleInput, field: &[u8], state: &mut [u8]) -> Answer {
        self.compare("start", [state], |calls, [state]| calls.start(input, rule, field, state))
    }

    fn write(&self, state: &mut [u8], to: u32, out: &mut [u8]) -> Answer {
        self.compare("write", [state, out], |calls, [state, out]| calls.write(state, to, out))
    }

    fn take(&self, state: &mut [u8], message: &[u8]) -> Answer {
        self.compare("take", [state], |calls, [state]| calls.take(state, message))
    }

    fn advance(&self, state: &mut [u8]) -> Answer {
        self.compare("advance", [state], |calls, [state]| calls.advance(state))
    }

    fn collect(&self, state: &[u8], round: u32, field: &mut [u8]) -> Answer {
        self.compare("collect", [field], |calls, [field]| calls.collect(state, round, field))
    }

    fn points(&self, state: &[u8], out: &mut [u8]) -> Answer {
        self.compare("points", [out], |calls, [out]| calls.points(state, out))
    }

    fn place(&self, list: &[u8], cell: u32, read: &mut u32) -> u64 {
        // Both numbers are compared as bytes that were lent.
        let (mut count, mut place) = (read.to_ne_bytes(), [0; 8]);
        let answer = self.compare("place", [&mut count, &mut place], |calls, [count, place]| {
            let mut read = u32::from_ne_bytes((&*count).try_into().expect("four bytes"));
            place.copy_from_slice(&calls.place(list, cell, &mut read).to_ne_bytes());
            count.copy_from_slice(&read.to_ne_bytes());
            Ok(0)
        });
        assert_eq!(answer, Ok(0), "nothing is refused");
        *read = u32::from_ne_bytes(count);
        u64::from_ne_bytes(place)
    }
}
