// GLUE of the oracle, and no part of the original: it stands in for the original's
// `robust/exact/rational.rs`, whose numbers the backend's glue does not have.

use super::backend::Rational;
use crate::linalg::Vec2;

pub struct R2 {
    pub x: Rational,
    pub y: Rational,
}

impl R2 {
    pub fn from_vec2(_: Vec2) -> R2 {
        panic!("glue of the oracle: R2::from_vec2 is not built, and no comparison may reach it")
    }
}
