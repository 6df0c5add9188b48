// GLUE of the oracle, and no part of the original: it stands in for the crate `num_traits` of a
// registry, which the original's `robust/exact/backend.rs` names. The traits have those functions
// alone that the original's files ask for.

/// It is there to be named.
pub trait Zero {}

/// It is there to be named.
pub trait One {}

pub trait Signed {
    fn is_positive(&self) -> bool;
    fn is_negative(&self) -> bool;
}

pub trait ToPrimitive {
    /// The value, or nothing where it does not fit.
    fn to_i64(&self) -> Option<i64>;
    /// The value, or nothing where it does not fit.
    fn to_u64(&self) -> Option<u64>;
}
