//! The engine's static library behind safe calls.

use crate::calls::{Calls, List, PartInput, RuleInput};
use crate::refusal::{Answer, Refusal};
use crate::split::Range;

pub struct Engine;

/// An answer of the library: the refusal's number × 2^32 + the count.
fn answer(answer: u64) -> Answer {
    match (answer >> 32) as u32 {
        0 => Ok(answer as u32),
        number => Err(Refusal::of_number(number)
            .filter(|_| answer as u32 == 0)
            .unwrap_or_else(|| panic!("the library answered {answer:#x}"))),
    }
}

impl Calls for Engine {
    fn name(&self) -> &'static str {
        "engine"
    }

    fn check_mesh(&self, mesh: &[u8]) -> Answer {
        answer(ffi::check_mesh(mesh))
    }

    fn list(&self, input: PartInput, list: List, out: &mut [u8]) -> Answer {
        answer(match list {
            List::Interior => ffi::list(ffi::jem_interior, input, out),
            List::Halo => ffi::list(ffi::jem_halo, input, out),
            List::Locals => ffi::list(ffi::jem_locals, input, out),
            List::Imports(other) => ffi::numbered_list(ffi::jem_imports, input, other, out),
            List::Exports(other) => ffi::numbered_list(ffi::jem_exports, input, other, out),
            List::Range(range, dimension) => {
                let call = match range {
                    Range::Private => ffi::jem_private,
                    Range::Exposed => ffi::jem_exposed,
                    Range::Shared => ffi::jem_shared,
                    Range::Copied => ffi::jem_copied,
                };
                ffi::numbered_list(call, input, dimension, out)
            }
        })
    }

    fn round(&self, mesh: &[u8], stencil: &[u8], rule: RuleInput, field: &[u8], out: &mut [u8]) -> Answer {
        answer(ffi::round(mesh, stencil, rule, field, out))
    }

    fn state_size(&self, input: PartInput) -> Answer {
        answer(ffi::state_size(input))
    }

    fn start(&self, input: PartInput, rule: RuleInput, field: &[u8], state: &mut [u8]) -> Answer {
        answer(ffi::start(input, rule, field, state))
    }

    fn write(&self, state: &mut [u8], to: u32, out: &mut [u8]) -> Answer {
        answer(ffi::write(state, to, out))
    }

    fn take(&self, state: &mut [u8], message: &[u8]) -> Answer {
        answer(ffi::take(state, message))
    }

    fn advance(&self, state: &mut [u8]) -> Answer {
        answer(ffi::advance(state))
    }

    fn collect(&self, state: &[u8], round: u32, field: &mut [u8]) -> Answer {
        answer(ffi::collect(state, round, field))
    }

    fn points(&self, state: &[u8], out: &mut [u8]) -> Answer {
        answer(ffi::points(state, out))
    }

    fn place(&self, list: &[u8], cell: u32, read: &mut u32) -> u64 {
        ffi::place(list, cell, read)
    }
}

/// The functions of include/jemlayos.h. Each slice goes as a pointer and a length.
#[allow(unsafe_code)]
mod ffi {
    use crate::calls::{PartInput, RuleInput};

    type Lent = *const u8;
    type Changed = *mut u8;

    /// A call for a list of a part.
    pub type ListCall = unsafe extern "C" fn(Lent, usize, u32, Lent, usize, u32, Lent, usize, Changed, usize) -> u64;
    /// The same with the other part or the dimension before the output.
    pub type NumberedListCall =
        unsafe extern "C" fn(Lent, usize, u32, Lent, usize, u32, Lent, usize, u32, Changed, usize) -> u64;

    macro_rules! list_calls {
        ($($name:ident($($number:ident)?);)*) => {
            extern "C" {
                $(pub fn $name(
                    mesh: Lent, mesh_len: usize, parts: u32, owners: Lent, owners_len: usize, part: u32,
                    stencil: Lent, stencil_len: usize, $($number: u32,)? out: Changed, out_len: usize,
                ) -> u64;)*
            }
        };
    }

    list_calls! {
        jem_interior();
        jem_halo();
        jem_locals();
        jem_imports(other);
        jem_exports(other);
        jem_private(dim);
        jem_exposed(dim);
        jem_shared(dim);
        jem_copied(dim);
    }

    #[rustfmt::skip]
    extern "C" {
        fn jem_check_mesh(mesh: Lent, mesh_len: usize) -> u64;
        fn jem_round(
            mesh: Lent, mesh_len: usize, stencil: Lent, stencil_len: usize, kind: u32, weights: Lent,
            weights_len: usize, field: Lent, field_len: usize, out: Changed, out_len: usize,
        ) -> u64;
        fn jem_state_size(
            mesh: Lent, mesh_len: usize, parts: u32, owners: Lent, owners_len: usize, part: u32,
            stencil: Lent, stencil_len: usize,
        ) -> u64;
        fn jem_start(
            mesh: Lent, mesh_len: usize, parts: u32, owners: Lent, owners_len: usize, part: u32,
            stencil: Lent, stencil_len: usize, kind: u32, weights: Lent, weights_len: usize,
            field: Lent, field_len: usize, state: Changed, state_len: usize,
        ) -> u64;
        fn jem_write(state: Changed, state_len: usize, to: u32, out: Changed, out_len: usize) -> u64;
        fn jem_take(state: Changed, state_len: usize, message: Lent, message_len: usize) -> u64;
        fn jem_advance(state: Changed, state_len: usize) -> u64;
        fn jem_collect(state: Lent, state_len: usize, round: u32, field: Changed, field_len: usize) -> u64;
        fn jem_points(state: Lent, state_len: usize, out: Changed, out_len: usize) -> u64;
        fn jem_place(list: Lent, list_len: usize, cell: u32, read: *mut u32) -> u64;
    }

    // SAFETY, for all calls below: each pointer comes with the length of its own slice, the slices are lent for the
    // call alone, and those that the library may change are lent to nobody else.

    pub fn check_mesh(mesh: &[u8]) -> u64 {
        unsafe { jem_check_mesh(mesh.as_ptr(), mesh.len()) }
    }

    #[rustfmt::skip]
    pub fn list(call: ListCall, input: PartInput, out: &mut [u8]) -> u64 {
        let PartInput { mesh, parts, owners, part, stencil } = input;
        unsafe {
            call(
                mesh.as_ptr(), mesh.len(), parts, owners.as_ptr(), owners.len(), part,
                stencil.as_ptr(), stencil.len(), out.as_mut_ptr(), out.len(),
            )
        }
    }

    #[rustfmt::skip]
    pub fn numbered_list(call: NumberedListCall, input: PartInput, number: u32, out: &mut [u8]) -> u64 {
        let PartInput { mesh, parts, owners, part, stencil } = input;
        unsafe {
            call(
                mesh.as_ptr(), mesh.len(), parts, owners.as_ptr(), owners.len(), part,
                stencil.as_ptr(), stencil.len(), number, out.as_mut_ptr(), out.len(),
            )
        }
    }

    #[rustfmt::skip]
    pub fn round(mesh: &[u8], stencil: &[u8], rule: RuleInput, field: &[u8], out: &mut [u8]) -> u64 {
        let RuleInput { kind, weights } = rule;
        unsafe {
            jem_round(
                mesh.as_ptr(), mesh.len(), stencil.as_ptr(), stencil.len(), kind, weights.as_ptr(),
                weights.len(), field.as_ptr(), field.len(), out.as_mut_ptr(), out.len(),
            )
        }
    }

    #[rustfmt::skip]
    pub fn state_size(input: PartInput) -> u64 {
        let PartInput { mesh, parts, owners, part, stencil } = input;
        unsafe {
            jem_state_size(
                mesh.as_ptr(), mesh.len(), parts, owners.as_ptr(), owners.len(), part,
                stencil.as_ptr(), stencil.len(),
            )
        }
    }

    #[rustfmt::skip]
    pub fn start(input: PartInput, rule: RuleInput, field: &[u8], state: &mut [u8]) -> u64 {
        let PartInput { mesh, parts, owners, part, stencil } = input;
        let RuleInput { kind, weights } = rule;
        unsafe {
            jem_start(
                mesh.as_ptr(), mesh.len(), parts, owners.as_ptr(), owners.len(), part,
                stencil.as_ptr(), stencil.len(), kind, weights.as_ptr(), weights.len(),
                field.as_ptr(), field.len(), state.as_mut_ptr(), state.len(),
            )
        }
    }

    pub fn write(state: &mut [u8], to: u32, out: &mut [u8]) -> u64 {
        unsafe { jem_write(state.as_mut_ptr(), state.len(), to, out.as_mut_ptr(), out.len()) }
    }

    pub fn take(state: &mut [u8], message: &[u8]) -> u64 {
        unsafe { jem_take(state.as_mut_ptr(), state.len(), message.as_ptr(), message.len()) }
    }

    pub fn advance(state: &mut [u8]) -> u64 {
        unsafe { jem_advance(state.as_mut_ptr(), state.len()) }
    }

    pub fn collect(state: &[u8], round: u32, field: &mut [u8]) -> u64 {
        unsafe { jem_collect(state.as_ptr(), state.len(), round, field.as_mut_ptr(), field.len()) }
    }

    pub fn points(state: &[u8], out: &mut [u8]) -> u64 {
        unsafe { jem_points(state.as_ptr(), state.len(), out.as_mut_ptr(), out.len()) }
    }

    pub fn place(list: &[u8], cell: u32, read: &mut u32) -> u64 {
        unsafe { jem_place(list.as_ptr(), list.len(), cell, read) }
    }
}
