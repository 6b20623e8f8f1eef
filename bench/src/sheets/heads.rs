//! A sheet that is all tables: rows that agree in every word but the last.

use super::builder::Builder;

/// `terms` rows ind(0, 0, 0, c), then `contexts` rows with one parent, and `lines` times the empty context.
pub fn equal_heads(terms: usize, contexts: usize, lines: usize) -> Vec<u8> {
    let mut b = Builder::default();
    fill_terms(&mut b, terms);
    fill_contexts(&mut b, contexts);
    fill_lines(&mut b, lines);
    b.keep_lines(lines);
    b.bytes()
}

fn fill_terms(b: &mut Builder, terms: usize) {
    let mut last = b.nat();
    while b.terms_used() < terms {
        last = b.ind(0, 0, 0, last);
    }
}

fn fill_contexts(b: &mut Builder, contexts: usize) {
    for added in 0..contexts {
        b.context(0, added as u16);
    }
}

fn fill_lines(b: &mut Builder, lines: usize) {
    let nil = b.wf_nil();
    while b.lines_used() < lines {
        b.repeat(nil);
    }
}
