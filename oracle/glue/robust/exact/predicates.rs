// GLUE of the oracle, and no part of the original: it stands in for the original's
// `robust/exact/predicates.rs`, whose numbers the backend's glue does not have.

use super::rational::R2;
use super::Sign;

pub fn incircle_r(_: &R2, _: &R2, _: &R2, _: &R2) -> Sign {
    panic!("glue of the oracle: incircle_r is not built, and no comparison may reach it")
}
