//! The comparisons. Each takes its patterns from a generator, asks the library about them, and
//! returns its report.

use original::linalg::Vec2;
use original::robust::exact::filtered::{glue_orient2d_filter, incircle};
use original::robust::exact::intpred::glue_decomp;
use original::robust::exact::Sign;

use crate::generator::Generator;
use crate::library::Library;
use crate::patterns;
use crate::reference;
use crate::report::{float, floats, wholes, Report};

const THREE: [&str; 6] = ["ax", "ay", "bx", "by", "cx", "cy"];
const FOUR: [&str; 8] = ["ax", "ay", "bx", "by", "cx", "cy", "dx", "dy"];

/// The names of the answers -1, 0, 1 and 2.
const SIGN: [&str; 3] = ["-1", "0", "1"];
const SIGN_OR_NONE: [&str; 4] = ["-1", "0", "1", "no sign"];
const SIGN_IN_RANGE: [&str; 4] = ["-1", "0", "1", "out of range"];

/// How many questions the library is asked at once.
const BATCH: u64 = 1 << 13;

/// Makes so many questions, asks them in batches, and checks each with its answer.
fn in_batches<Q: Copy, A>(
    count: u64,
    mut make: impl FnMut(u64) -> Q,
    mut ask: impl FnMut(&[Q]) -> Vec<A>,
    mut check: impl FnMut(Q, A),
) {
    let mut first = 0;
    while first < count {
        let next = count.min(first + BATCH);
        let questions: Vec<Q> = (first..next).map(&mut make).collect();
        let answers = ask(&questions);
        assert_eq!(questions.len(), answers.len());
        for (question, answer) in questions.into_iter().zip(answers) {
            check(question, answer);
        }
        first = next;
    }
}

/// The original's `Sign::of_f64`. Of a NaN both are to give 0.
pub fn of_f64(count: u64, g: &mut Generator, library: &mut Library) -> Report {
    let mut report = Report::new("Sign::of_f64 against the original", &SIGN);
    let make = |number| patterns::float(number, g);
    let ask = |batch: &[_]| library.of_f64(batch);
    in_batches(count, make, ask, |v, ours| {
        let theirs = Sign::of_f64(v).as_i32();
        report.expect((theirs + 1) as usize);
        if theirs != ours || (v.is_nan() && ours != 0) {
            report.differ(|| {
                format!(
                    "v = {}: the original gives {theirs}, the library {ours}.",
                    float(v)
                )
            });
        }
    });
    report
}

/// The original's `decomp`, which is not asked where v is not finite: there the library is to say so
/// and to leave m and e alone.
pub fn decomp(count: u64, g: &mut Generator, library: &mut Library) -> Report {
    let mut report = Report::new("decomp against the original", &["finite", "not finite"]);
    let make = |number| (patterns::float(number, g), g.bits() as i64, g.bits() as i32);
    let ask = |batch: &[_]| library.decomp(batch);
    in_batches(count, make, ask, |(v, m, e), ours| {
        let finite = v.is_finite();
        let (m, e) = if finite { glue_decomp(v) } else { (m, e) };
        report.expect(!finite as usize);
        if ours != (finite, m, e) {
            report.differ(|| {
                let theirs = if finite {
                    format!("the original gives m = {m:#x}, e = {e}")
                } else {
                    format!("it is not finite, and m = {m:#x}, e = {e} are to stay")
                };
                let (ours, our_m, our_e) = ours;
                format!(
                    "v = {}: {theirs}; the library gives {ours} and m = {our_m:#x}, e = {our_e}.",
                    float(v)
                )
            });
        }
    });
    report
}

/// The original's `orient2d_filter`.
pub fn orient2d_filter(count: u64, g: &mut Generator, library: &mut Library) -> Report {
    let mut report = Report::new("orient2d_filter against the original", &SIGN_OR_NONE);
    let make = |number| patterns::three_points(number, g);
    let ask = |batch: &[_]| library.orient2d_filter(batch);
    in_batches(count, make, ask, |p, ours| {
        let [a, b, c] = [0, 2, 4].map(|i| Vec2::new(p[i], p[i + 1]));
        let theirs = glue_orient2d_filter(a, b, c).map_or(2, Sign::as_i32);
        report.expect((theirs + 1) as usize);
        if theirs != ours {
            report.differ(|| {
                format!(
                    "{}: the original gives {theirs}, the library {ours}.",
                    floats(&THREE, &p)
                )
            });
        }
    });
    report
}

/// The orientation of whole points against determinants of 128 bits.
pub fn orient(count: u64, g: &mut Generator, library: &mut Library) -> Report {
    let mut report = Report::new("Orientation of whole points against i128", &SIGN_IN_RANGE);
    let make = |number| patterns::three_wholes(number, g);
    let ask = |batch: &[_]| library.orient(batch);
    in_batches(count, make, ask, |p, ours| {
        let theirs = reference::orient(&p);
        report.expect((theirs + 1) as usize);
        if theirs != ours {
            report.differ(|| {
                format!(
                    "{}: the reference gives {theirs}, the library {ours}.",
                    wholes(&THREE, &p)
                )
            });
        }
    });
    report
}

/// The circle test of whole points against determinants of 128 bits.
pub fn circle(count: u64, g: &mut Generator, library: &mut Library) -> Report {
    let mut report = Report::new("Circle test of whole points against i128", &SIGN_IN_RANGE);
    let make = |number| patterns::four_wholes(number, g);
    let ask = |batch: &[_]| library.circle(batch);
    in_batches(count, make, ask, |p, ours| {
        let theirs = reference::circle(&p);
        report.expect((theirs + 1) as usize);
        if theirs != ours {
            report.differ(|| {
                format!(
                    "{}: the reference gives {theirs}, the library {ours}.",
                    wholes(&FOUR, &p)
                )
            });
        }
    });
    report
}

/// The intake of a coordinate against a plain reference.
pub fn take_in(count: u64, g: &mut Generator, library: &mut Library) -> Report {
    let answers = ["whole", "not finite", "above 8192", "not whole"];
    let mut report = Report::new("Intake against a plain reference", &answers);
    let make = |number| (patterns::coordinate(number, g), g.bits() as i32);
    let ask = |batch: &[_]| library.take_in(batch);
    in_batches(count, make, ask, |(v, before), ours| {
        let (theirs, whole) = reference::take_in(v);
        let whole = whole.unwrap_or(before);
        report.expect(theirs as usize);
        if ours != (theirs, whole) {
            report.differ(|| {
                let (ours, our_whole) = ours;
                format!(
                    "v = {}, and {before} before: the reference gives {theirs} and {whole}, \
                     the library {ours} and {our_whole}.",
                    float(v)
                )
            });
        }
    });
    report
}

/// The determinant of the circle test in floats against the formula of the original's `incircle`,
/// bit for bit, save that every NaN is as good as any other, since Rust leaves its bits open. Where
/// the original's filter surely answers, its sign is held to the formula's determinant too.
pub fn incircle_det(count: u64, g: &mut Generator, library: &mut Library) -> Report {
    let answers = ["with a sign of the original", "with none", "not finite"];
    let mut report = Report::new("incircle_det against the original's formula", &answers);
    let make = |number| patterns::four_points(number, g);
    let ask = |batch: &[_]| library.incircle_det(batch);
    in_batches(count, make, ask, |p, ours| {
        let (theirs, permanent) = reference::incircle(&p);
        let plain = reference::incircle_is_plain(theirs, permanent);
        report.expect(if plain {
            0
        } else {
            1 + !theirs.is_finite() as usize
        });
        if theirs.to_bits() != ours.to_bits() && !(theirs.is_nan() && ours.is_nan()) {
            report.differ(|| {
                let (theirs, ours) = (float(theirs), float(ours));
                format!(
                    "{}: the formula gives {theirs}, the library {ours}.",
                    floats(&FOUR, &p)
                )
            });
        }
        if plain {
            let [a, b, c, d] = [0, 2, 4, 6].map(|i| Vec2::new(p[i], p[i + 1]));
            let sign = incircle(a, b, c, d);
            if sign != Sign::of_f64(theirs) {
                report.differ(|| {
                    let (theirs, sign) = (float(theirs), sign.as_i32());
                    format!(
                        "{}: the formula gives {theirs}, and the original the sign {sign}.",
                        floats(&FOUR, &p)
                    )
                });
            }
        }
    });
    report
}

/// The determinant of the circle test in floats against determinants of 128 bits, for whole
/// coordinates within 2048, where each step of the formula is exact.
pub fn incircle_det_of_wholes(count: u64, g: &mut Generator, library: &mut Library) -> Report {
    let mut report = Report::new("incircle_det within 2048 against i128", &SIGN);
    let make = |number| patterns::four_wholes_within(2048, number, g).map(f64::from);
    let ask = |batch: &[_]| library.incircle_det(batch);
    in_batches(count, make, ask, |p, ours| {
        let theirs = reference::circle_det(&p.map(|v| v as i32));
        report.expect((theirs.signum() + 1) as usize);
        if ours != theirs as f64 {
            report.differ(|| {
                let ours = float(ours);
                format!(
                    "{}: the reference gives {theirs}, the library {ours}.",
                    floats(&FOUR, &p)
                )
            });
        }
    });
    report
}
