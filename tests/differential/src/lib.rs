//! Another implementation of every call, by other algorithms and from a second reading of the paper: all numberings of the
//! devices, all maps, all sets of cables. Nothing here calls the proved library.
pub mod agreement;
pub mod answers;
pub mod book;
pub mod catalogue;
pub mod code;
pub mod cranes;
pub mod drawing;
pub mod examples;
pub mod generate;
pub mod lists;
pub mod lone;
pub mod map;
pub mod pairs;
pub mod random;
pub mod refused;
pub mod rules;
pub mod shims;
#[cfg(test)]
mod tests;
pub mod vectors;
