//! Valid derivations at random, judgments stated again, and their encoding as sheets; term tables of all kinds;
//! judgments to find; lists of lines to withdraw.

pub mod arrange;
pub mod conclusions;
mod dependent;
pub mod derivation;
pub mod encode;
mod equalities;
pub mod grow;
mod inductions;
mod infer;
mod inhabit;
pub mod judgments;
mod late_motives;
pub mod lists;
pub mod maker;
mod non_instances;
mod normal_steps;
pub mod normalisation;
pub mod restate;
mod steps;
mod subtypes;
pub mod tables;
mod variants;
mod weaken;
