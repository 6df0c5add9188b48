//! The project's static library, `libsigns_c.a`, linked into this program. It is for x86-64.
//!
//! Each function takes a batch of questions and gives the answers in their order, as those of
//! `library_hosted.rs` do. Each function of the library may be asked with any arguments.

mod c {
    extern "C" {
        pub fn signs_of_f64(v: f64) -> i32;
        pub fn signs_orient2d_filter(ax: f64, ay: f64, bx: f64, by: f64, cx: f64, cy: f64) -> i32;
        pub fn signs_decomp(v: f64, m: &mut i64, e: &mut i32) -> bool;
        pub fn signs_orient(ax: i32, ay: i32, bx: i32, by: i32, cx: i32, cy: i32) -> i32;
        pub fn signs_circle(
            ax: i32,
            ay: i32,
            bx: i32,
            by: i32,
            cx: i32,
            cy: i32,
            dx: i32,
            dy: i32,
        ) -> i32;
        pub fn signs_take_in(v: f64, whole: &mut i32) -> i32;
        pub fn signs_incircle_det(
            ax: f64,
            ay: f64,
            bx: f64,
            by: f64,
            cx: f64,
            cy: f64,
            dx: f64,
            dy: f64,
        ) -> f64;
    }
}

/// How the library is run, for the first line of the report.
pub const MANNER: &str = "The library is linked.";

pub struct Library;

impl Library {
    /// No word of the command line is needed.
    pub fn new(words: &[String]) -> Option<Library> {
        words.is_empty().then_some(Library)
    }

    /// The signs of floats: -1, 0 or 1.
    pub fn of_f64(&mut self, batch: &[f64]) -> Vec<i32> {
        batch
            .iter()
            .map(|v| unsafe { c::signs_of_f64(*v) })
            .collect()
    }

    /// The filter of orientation, of ax, ay, bx, by, cx, cy: -1, 0, 1, or 2 for no sign.
    pub fn orient2d_filter(&mut self, batch: &[[f64; 6]]) -> Vec<i32> {
        let ask = |[ax, ay, bx, by, cx, cy]: &[f64; 6]| unsafe {
            c::signs_orient2d_filter(*ax, *ay, *bx, *by, *cx, *cy)
        };
        batch.iter().map(ask).collect()
    }

    /// The decomposition m·2^e of v, of v and of what m and e hold before: whether they are written,
    /// and what they hold after.
    pub fn decomp(&mut self, batch: &[(f64, i64, i32)]) -> Vec<(bool, i64, i32)> {
        let ask = |&(v, mut m, mut e): &(f64, i64, i32)| {
            let written = unsafe { c::signs_decomp(v, &mut m, &mut e) };
            (written, m, e)
        };
        batch.iter().map(ask).collect()
    }

    /// The orientation of ax, ay, bx, by, cx, cy: -1, 0, 1, or 2 for out of range.
    pub fn orient(&mut self, batch: &[[i32; 6]]) -> Vec<i32> {
        let ask = |[ax, ay, bx, by, cx, cy]: &[i32; 6]| unsafe {
            c::signs_orient(*ax, *ay, *bx, *by, *cx, *cy)
        };
        batch.iter().map(ask).collect()
    }

    /// The circle test of ax, ay, bx, by, cx, cy, dx, dy: -1, 0, 1, or 2 for out of range.
    pub fn circle(&mut self, batch: &[[i32; 8]]) -> Vec<i32> {
        let ask = |[ax, ay, bx, by, cx, cy, dx, dy]: &[i32; 8]| unsafe {
            c::signs_circle(*ax, *ay, *bx, *by, *cx, *cy, *dx, *dy)
        };
        batch.iter().map(ask).collect()
    }

    /// The intake of a coordinate, of v and of what `whole` holds before: 0 where it is written, 1
    /// where v is not finite, 2 where its magnitude is above 8192, 3 where it is not whole; and what
    /// `whole` holds after.
    pub fn take_in(&mut self, batch: &[(f64, i32)]) -> Vec<(i32, i32)> {
        let ask = |&(v, mut whole): &(f64, i32)| {
            let answer = unsafe { c::signs_take_in(v, &mut whole) };
            (answer, whole)
        };
        batch.iter().map(ask).collect()
    }

    /// The determinant of the circle test in floats, of ax, ay, bx, by, cx, cy, dx, dy.
    pub fn incircle_det(&mut self, batch: &[[f64; 8]]) -> Vec<f64> {
        let ask = |[ax, ay, bx, by, cx, cy, dx, dy]: &[f64; 8]| unsafe {
            c::signs_incircle_det(*ax, *ay, *bx, *by, *cx, *cy, *dx, *dy)
        };
        batch.iter().map(ask).collect()
    }
}
