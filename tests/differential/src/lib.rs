//! Compares the proved checker with a second implementation, on sheets made at random and on dates.

pub mod compare;
pub mod conversions;
pub mod coverage;
pub mod dates;
pub mod generate;
pub mod inputs;
pub mod mutate;
pub mod random;
pub mod reference;
