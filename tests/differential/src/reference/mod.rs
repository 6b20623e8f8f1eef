//! A second implementation of document 01, written from the papers: plain trees, real shift and substitution, and each
//! rule by building what it concludes. Of document 02, A1: the calendar, walked day by day; A2: normal terms, by the
//! clauses as printed; A3: rule 38 under either domain; A5: the rules of section 4 of source document 000; A6: sets of
//! lines, by single withdrawals; A7: batches, by single searches; A8: heights, line by line; A10: the motive as one
//! more premise in front of the printed ones; A11: conversion, by the first line that gives each type a universe.

pub mod calls;
pub mod citations;
mod contexts;
pub mod conversion;
pub mod dates;
mod equality;
pub mod judgments;
pub mod layout;
pub mod normal;
mod normalisation;
pub mod reading;
pub mod rules;
mod subtyping;
pub mod terms;
mod typing;

/// What a call answers: number 0 with its values, or the number of a refusal with its place as the first value.
#[derive(Clone, Copy, Debug, PartialEq, Eq)]
pub struct Answer {
    pub number: usize,
    pub values: [usize; 3],
}

fn refused(number: usize, place: usize) -> Answer {
    Answer {
        number,
        values: [place, 0, 0],
    }
}

fn done(value: usize) -> Answer {
    Answer {
        number: 0,
        values: [value, 0, 0],
    }
}

/// The number and the place of a refusal.
#[derive(Clone, Copy, Debug, PartialEq, Eq)]
pub struct Refusal {
    pub number: usize,
    pub place: usize,
}
