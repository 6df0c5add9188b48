// GLUE of the oracle, and no part of the original: it stands in for the original's
// `robust/exact/backend.rs`, which takes its numbers without bound from a crate of a registry.
//
// The types have no value, so nothing that asks for one can be reached. The two traits are there to
// be named, as `robust/exact/intpred.rs` names them.

pub enum Int {}

pub enum Rational {}

pub trait Signed {}

pub trait Zero {}

pub fn rat_is_negative(r: &Rational) -> bool {
    match *r {}
}

pub fn rat_is_positive(r: &Rational) -> bool {
    match *r {}
}
