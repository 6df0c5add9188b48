//! The project's static libraries `libexports.a` and `libchecker_c.a`, linked into this program. They are
//! for x86-64. Each
//! function may be asked with any arguments. `ours_hosted.rs` has the same functions for other machines.

mod c {
    extern "C" {
        pub fn dergulam_cut(
            points: *const i32,
            points_len: usize,
            pairs: *const u32,
            pairs_len: usize,
            out: *mut u32,
            out_len: usize,
            work: *mut u32,
            work_len: usize,
        ) -> u64;
        pub fn dergulam_check(
            points: *const i32,
            points_len: usize,
            pairs: *const u32,
            pairs_len: usize,
            list: *const u32,
            list_len: usize,
            work: *mut u32,
            work_len: usize,
        ) -> u64;
        pub fn checker_rows(
            points: *const i32,
            points_len: usize,
            pairs: *const u32,
            pairs_len: usize,
            work: *mut u32,
            work_len: usize,
        ) -> u32;
    }
}

/// The table's tests with the room of the working area alone: the number of the refusal, or 0 for none.
pub fn rows(points: &[i32], pairs: &[u32], work: &mut [u32]) -> u32 {
    unsafe {
        c::checker_rows(
            points.as_ptr(),
            points.len(),
            pairs.as_ptr(),
            pairs.len(),
            work.as_mut_ptr(),
            work.len(),
        )
    }
}

/// The cutter: the number of triples of the sheet in front of the output, or the number of the refusal,
/// shifted by 32, with its place.
pub fn cut(points: &[i32], pairs: &[u32], out: &mut [u32], work: &mut [u32]) -> u64 {
    unsafe {
        c::dergulam_cut(
            points.as_ptr(),
            points.len(),
            pairs.as_ptr(),
            pairs.len(),
            out.as_mut_ptr(),
            out.len(),
            work.as_mut_ptr(),
            work.len(),
        )
    }
}

/// The checker: 0 for yes, the number of the lowest broken rule, or the number of a refusal, shifted by
/// 32, with its place.
pub fn check(points: &[i32], pairs: &[u32], list: &[u32], work: &mut [u32]) -> u64 {
    unsafe {
        c::dergulam_check(
            points.as_ptr(),
            points.len(),
            pairs.as_ptr(),
            pairs.len(),
            list.as_ptr(),
            list.len(),
            work.as_mut_ptr(),
            work.len(),
        )
    }
}
