//! Random, extreme and damaged inputs for every public call, from a seed.

pub mod damage;
pub mod random;
pub mod scenarios;
pub mod shapes;
pub mod traffic;
