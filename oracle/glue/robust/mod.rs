// GLUE of the oracle, and no part of the original: it stands in for the original's `robust/mod.rs`,
// which is not among the files at hand.

pub mod cdt;
pub mod exact;
