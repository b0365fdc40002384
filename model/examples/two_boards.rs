//! Two boards over five cells in a row, as in examples/two-boards.c: two rounds of the mean with weights 2 1, first from depths
//! alone and then from a field with gaps, and the field that they collect after each. On the engine where JEMLAYOS_LIB names
//! its library, else on the model.

use jemlayos_model::bytes::{read_values, values, words, Value};
use jemlayos_model::calls::{engine, Calls, Model, PartInput, RuleInput};
use jemlayos_model::refusal::Refusal;

fn main() -> Result<(), Refusal> {
    let engine = engine().unwrap_or(&Model);
    run(engine, [100, 200, 300, 400, 500].map(Some))?;
    run(engine, [Some(100), None, Some(300), None, None])
}

fn run(engine: &dyn Calls, start_field: [Value; 5]) -> Result<(), Refusal> {
    let mesh = include_bytes!("../../examples/five-cells.mesh");
    let rule = RuleInput { kind: 1, weights: &words(&[2, 1]) };
    let mut states = [[0; 512]; 2];
    for (part, state) in (1..).zip(&mut states) {
        let input = PartInput { mesh, parts: 2, owners: &[1, 1, 1, 2, 2], part, stencil: &[1, 0, 1] };
        engine.start(input, rule, &values(&start_field), state)?;
    }
    for round in 0..=2 {
        let mut field = [0; 20];
        for state in &mut states {
            engine.collect(state, round, &mut field)?;
        }
        println!("{}, round {round}: {}", engine.name(), shown(&field));
        for (from, to) in [(0, 1), (1, 0)] {
            let mut message = [0; 64];
            let length = engine.write(&mut states[from], to as u32 + 1, &mut message)? as usize;
            engine.take(&mut states[to], &message[..length])?;
        }
        for state in &mut states {
            engine.advance(state)?;
        }
    }
    Ok(())
}

/// Each value of a field: a depth, or a gap.
fn shown(field: &[u8]) -> String {
    let shown = |value: Value| value.map_or("gap".to_string(), |depth| depth.to_string());
    read_values(field).unwrap_or_default().into_iter().map(shown).collect::<Vec<_>>().join(" ")
}
