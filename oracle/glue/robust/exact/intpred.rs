
// GLUE of the oracle, and no part of the original, from here to the end of the file. The file at
// hand is cut: its last comment is that of an item that is not there.

/// The item for that comment.
const _: () = ();

/// The original's `decomp`, which it keeps to this module.
#[inline]
pub fn glue_decomp(v: f64) -> (i64, i32) {
    decomp(v)
}

/// In the place of a function that the cut took and that `robust/exact/filtered.rs` names.
pub fn orient2d_i(_: [f64; 2], _: [f64; 2], _: [f64; 2]) -> Sign {
    panic!("glue of the oracle: orient2d_i is not at hand, and no comparison may reach it")
}

/// In the place of a function that the cut took and that `robust/exact/filtered.rs` names.
pub fn orient3d_i(_: [f64; 3], _: [f64; 3], _: [f64; 3], _: [f64; 3]) -> Sign {
    panic!("glue of the oracle: orient3d_i is not at hand, and no comparison may reach it")
}
