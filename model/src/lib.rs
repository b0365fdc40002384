//! A plain model of the mesh engine, written from the specification. The differential driver and the benchmarks
//! compare the engine's static library with it, call by call and byte by byte.
//!
//! | module | what it holds |
//! |---|---|
//! | `bytes` | words, depths and gaps, high byte first |
//! | `refusal` | the numbers of the refusals, in the specification's words |
//! | `mesh`, `walks`, `rounds`, `split`, `messages`, `state`, `parts`, `places`, `listing` | the model, one module for each of the specification's subjects |
//! | `calls` | the public calls as a trait, and the model behind it |
//! | `tuned` | the same calls once more, as fast as safe Rust makes them |
//! | `engine` | the static library behind the same trait |
//! | `compare` | each call on all of these at once |
//! | `met` | which rules on gaps and on rounding a call met |
//! | `generate` | random, extreme and damaged inputs |

pub mod bytes;
pub mod calls;
pub mod compare;
#[cfg(engine)]
pub mod engine;
pub mod generate;
pub mod listing;
pub mod mesh;
pub mod messages;
pub mod met;
pub mod parts;
pub mod places;
pub mod refusal;
pub mod rounds;
mod rows;
pub mod split;
pub mod state;
pub mod tuned;
pub mod walks;
