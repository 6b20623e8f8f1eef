//! Sheets to measure on.

mod builder;
mod deep;
mod heads;
mod inductions;
mod normal;
mod normal_steps;
mod normalisation;
mod plausible;
mod restated;
mod shared;
mod steps;
mod terms;
mod trees;

pub use deep::{deep_binders, deep_context};
pub use heads::equal_heads;
pub use inductions::inductions;
pub use normal::{doubled_pairs, nested_arguments, nested_motives, shared_function};
pub use normalisation::{normalisation, normalisation_steps};
pub use plausible::{plausible, typical};
pub use restated::restated;
pub use trees::{applications, beta_steps, induction_steps, induction_steps_cited, large_nodes};

use builder::Builder;

/// The sample sheet S: the identity on Nat.
pub fn sample() -> Vec<u8> {
    let mut b = Builder::default();
    let nat = b.nat();
    b.univ(0);
    let x = b.var(0);
    b.lam(x);
    b.pi(nat, nat);
    let nil = b.wf_nil();
    let kind = b.wt_nat(nil, 0);
    let wf = b.wf_cons(nil, kind);
    let x = b.wt_var(wf, 0);
    b.wt_abs(x);
    b.bytes()
}

/// The sample sheet whose term rows nearly all lie in one bucket of the library's index, so that each of these is
/// compared with nearly all rows before it.
pub fn one_bucket() -> Vec<u8> {
    include_bytes!("../../../crates/samples/data/one_bucket.sheet").to_vec()
}
