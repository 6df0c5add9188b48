
// GLUE of the oracle, and no part of the original, from here to the end of the file.

/// The original's filter, which it keeps to its own modules.
#[inline]
pub fn glue_orient2d_filter(a: Vec2, b: Vec2, c: Vec2) -> Option<Sign> {
    orient2d_filter(a, b, c)
}
