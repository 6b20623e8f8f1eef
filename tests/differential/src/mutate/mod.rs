//! Changes of valid sheets, so that most become invalid in one place.

pub mod bytes;
pub mod lines;
mod misread;
mod misread_normalisation;
mod motives;
mod perturb;
mod premises;
