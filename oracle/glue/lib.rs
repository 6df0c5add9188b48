// GLUE of the oracle, and no part of the original: the root of the module tree. It stands in for the
// original's `lib.rs`, and names those modules alone that the comparisons need.

pub mod cancel;
pub mod linalg;
pub mod math;
pub mod robust;
