//! The original: the module tree that `build.rs` makes of the original's files, unchanged, and of the
//! glue. The modules stand at the root of this crate, since the original names them from its root.

// Most of the original is not asked here.
#![allow(dead_code, unused_imports)]

include!(concat!(env!("OUT_DIR"), "/original/lib.rs"));
