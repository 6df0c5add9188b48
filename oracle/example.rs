//! The example of c/example.c in Rust, through a safe wrapper of the library. c/run builds and runs it, and compares what it prints with c/example.out.

/// The library by safe calls. c/dergulam.h says what each function answers.
mod dergulam {
    mod c {
        #[link(name = "exports", kind = "static")]
        extern "C" {
            pub fn dergulam_cut(
                points: *const i32,
                points_len: usize,
                pairs: *const u32,
                pairs_len: usize,
                out: *mut u32,
                out_len: usize,
                work: *mut u32,
                work_len: usize,
            ) -> u64;
            pub fn dergulam_check(
                points: *const i32,
                points_len: usize,
                pairs: *const u32,
                pairs_len: usize,
                list: *const u32,
                list_len: usize,
                work: *mut u32,
                work_len: usize,
            ) -> u64;
            pub fn dergulam_orient_sign(ax: i32, ay: i32, bx: i32, by: i32, cx: i32, cy: i32) -> i32;
            pub fn dergulam_circle_sign(
                ax: i32,
                ay: i32,
                bx: i32,
                by: i32,
                cx: i32,
                cy: i32,
                dx: i32,
                dy: i32,
            ) -> i32;
        }
    }

    /// A refusal's number, and the point or the pair that offends.
    #[derive(Clone, Copy, Debug, PartialEq, Eq)]
    pub struct Refusal {
        pub number: u32,
        pub place: u32,
    }

    /// What the checker answers.
    #[derive(Clone, Copy, Debug, PartialEq, Eq)]
    pub enum Verdict {
        Yes,
        Breaks(u32),
    }

    /// The halves of an answer.
    fn halves(answer: u64) -> (u32, u32) {
        ((answer >> 32) as u32, answer as u32)
    }

    /// The numbers that the output and the working area need for so many numbers of points.
    fn rooms(points_len: usize) -> (usize, usize) {
        let n = (points_len / 2).min(4096);
        (3 * (2 * n).saturating_sub(5), 64 * n)
    }

    /// Cuts a figure: the triples of its sheet, or a refusal.
    pub fn cut(points: &[i32], pairs: &[u32]) -> Result<Vec<[u32; 3]>, Refusal> {
        let (out_len, work_len) = rooms(points.len());
        let mut out = vec![0; out_len];
        let mut work = vec![0; work_len];
        // The pointers and lengths are those of slices, and the two that are written are this function's own.
        let answer = unsafe {
            c::dergulam_cut(
                points.as_ptr(),
                points.len(),
                pairs.as_ptr(),
                pairs.len(),
                out.as_mut_ptr(),
                out.len(),
                work.as_mut_ptr(),
                work.len(),
            )
        };
        match halves(answer) {
            (0, count) => Ok(out[..3 * count as usize]
                .chunks_exact(3)
                .map(|t| [t[0], t[1], t[2]])
                .collect()),
            (number, place) => Err(Refusal { number, place }),
        }
    }

    /// Judges a list of triples by the eight rules, or refuses the figure.
    pub fn check(points: &[i32], pairs: &[u32], triples: &[[u32; 3]]) -> Result<Verdict, Refusal> {
        let list = triples.concat();
        let mut work = vec![0; rooms(points.len()).1];
        // As above.
        let answer = unsafe {
            c::dergulam_check(
                points.as_ptr(),
                points.len(),
                pairs.as_ptr(),
                pairs.len(),
                list.as_ptr(),
                list.len(),
                work.as_mut_ptr(),
                work.len(),
            )
        };
        match halves(answer) {
            (0, 0) => Ok(Verdict::Yes),
            (0, rule) => Ok(Verdict::Breaks(rule)),
            (number, place) => Err(Refusal { number, place }),
        }
    }

    /// The orientation of three points: -1, 0, 1, or 2 for out of range.
    pub fn orient_sign(a: [i32; 2], b: [i32; 2], c: [i32; 2]) -> i32 {
        // The call takes numbers alone.
        unsafe { c::dergulam_orient_sign(a[0], a[1], b[0], b[1], c[0], c[1]) }
    }

    /// The circle sign of four points: -1, 0, 1, or 2 for out of range.
    pub fn circle_sign(a: [i32; 2], b: [i32; 2], c: [i32; 2], d: [i32; 2]) -> i32 {
        // The call takes numbers alone.
        unsafe { c::dergulam_circle_sign(a[0], a[1], b[0], b[1], c[0], c[1], d[0], d[1]) }
    }
}

use dergulam::{Refusal, Verdict};

fn main() -> Result<(), Refusal> {
    // The base (0,0), (8,0), (0,8), the corners of a square in it, and one diagonal of the square, which has to be an edge.
    let points = [0, 0, 8, 0, 0, 8, 1, 1, 3, 1, 3, 3, 1, 3];
    let pairs = [4, 6];
    let sheet = dergulam::cut(&points, &pairs)?;
    for [a, b, c] in &sheet {
        println!("({a},{b},{c})");
    }
    assert_eq!(dergulam::check(&points, &pairs, &sheet)?, Verdict::Yes);
    println!("{} triples, and the checker says yes", sheet.len());
    if let Verdict::Breaks(rule) = dergulam::check(&points, &pairs, &sheet[..sheet.len() - 1])? {
        println!("without the last triple: rule {rule}");
    }
    if let Err(refusal) = dergulam::cut(&points, &[4, 6, 3, 5]) {
        println!(
            "both diagonals: refusal {}, place {}",
            refusal.number, refusal.place
        );
    }
    println!(
        "signs: {} {} {}",
        dergulam::orient_sign([0, 0], [4, 0], [0, 4]),
        dergulam::circle_sign([0, 0], [4, 0], [0, 4], [4, 4]),
        dergulam::orient_sign([0, 0], [8193, 0], [0, 4])
    );
    Ok(())
}
