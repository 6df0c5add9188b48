//! The patterns that the comparisons take: edges and random bits, from a fixed generator.
//!
//! A pattern depends only on the generator and on its own number. The kinds take turns, so a run of
//! any length has a share of each.

use crate::generator::Generator;
use crate::reference::REACH;

/// Random floats.
impl Generator {
    /// A float with this biased exponent, cut to 0..=2047, and a random sign and fraction.
    fn at_exponent(&mut self, biased: i64) -> f64 {
        let bits = self.bits();
        let exponent = biased.clamp(0, 2047) as u64;
        f64::from_bits((bits & !(0x7ff << 52)) | (exponent << 52))
    }

    /// A float from 1 to below 2, at times with few digits.
    fn fraction(&mut self) -> f64 {
        let keep = self.pick(&[u64::MAX, u64::MAX, !0 << 40, !0 << 26, !0 << 48]);
        f64::from_bits((1023 << 52) | (self.bits() & keep & ((1 << 52) - 1)))
    }

    /// A sign, 1.0 or -1.0.
    fn sign(&mut self) -> f64 {
        self.pick(&[1.0, -1.0])
    }
}

/// The float whose bits, as a number, are `steps` further: for a finite one, so many places further
/// from zero, or nearer.
fn nudge(v: f64, steps: i64) -> f64 {
    f64::from_bits(v.to_bits().wrapping_add(steps as u64))
}

/// 2^e, for e from -1074 to 1023.
fn power(e: i64) -> f64 {
    if e >= -1022 {
        f64::from_bits(((e + 1023) as u64) << 52)
    } else {
        f64::from_bits(1 << (e + 1074))
    }
}

/// Values at the edges of the format and of the project's ranges.
const SPECIAL: [f64; 30] = [
    0.0,
    -0.0,
    f64::from_bits(1),             // the least subnormal
    f64::from_bits(1 | 1 << 63),   // and its negative
    f64::from_bits((1 << 52) - 1), // the greatest subnormal
    f64::from_bits(((1 << 52) - 1) | 1 << 63),
    f64::MIN_POSITIVE,
    -f64::MIN_POSITIVE,
    f64::MAX,
    f64::MIN,
    f64::INFINITY,
    f64::NEG_INFINITY,
    f64::from_bits(0x7ff8_0000_0000_0000), // quiet NaNs
    f64::from_bits(0xfff8_0000_0000_0000),
    f64::from_bits(0x7fff_ffff_ffff_ffff),
    f64::from_bits(0x7ff0_0000_0000_0001), // signalling NaNs
    f64::from_bits(0xfff0_0000_0000_0001),
    1.0,
    -1.0,
    0.5,
    f64::EPSILON,
    8192.0,
    -8192.0,
    8193.0,
    2048.0,
    9007199254740992.0, // 2^53
    -9007199254740994.0,
    1.3407807929942597e154,  // 2^512, whose square overflows
    1.4916681462400413e-154, // 2^-511, whose square is the least normal number
    1e300,
];

/// The fractions of the edges: 0, a bit alone, and all the bits from one up.
const FRACTIONS: u64 = 1 + 52 + 52;

/// How many edges there are: each sign with each exponent and each of those fractions.
const EDGES: u64 = 2 * 2048 * FRACTIONS;

/// An edge, by its number below `EDGES`. A step with no divisor in common with `EDGES` takes them
/// in an order in which a short run meets every part.
fn edge(number: u64) -> f64 {
    let place = number * 100_003 % EDGES;
    let (top, shape) = (place / FRACTIONS, place % FRACTIONS);
    let fraction = match shape {
        0 => 0,
        1..=52 => 1 << (shape - 1),
        _ => (1 << 52) - (1 << (shape - 53)),
    };
    f64::from_bits(top << 52 | fraction)
}

/// A float: every eighth is an edge, as long as there are any.
pub fn float(number: u64, g: &mut Generator) -> f64 {
    if number % 8 == 0 && number / 8 < EDGES {
        return edge(number / 8);
    }
    match number % 8 {
        // Few bits of the fraction are set.
        1 => f64::from_bits(g.bits() & (g.bits() & g.bits() & g.bits() | 0xfff << 52)),
        // The fraction ends in zeros.
        2 => f64::from_bits(g.bits() & !0 << g.within(0, 52)),
        // Subnormals and the least normal numbers.
        3 => {
            let exponent = g.within(0, 1);
            g.at_exponent(exponent)
        }
        // The greatest numbers, infinities and NaNs.
        4 => {
            let exponent = g.within(2046, 2047);
            g.at_exponent(exponent)
        }
        // Whole numbers of every length.
        5 => (g.bits() as i64 >> g.within(0, 63)) as f64,
        // The neighbours of the special values.
        6 => nudge(g.pick(&SPECIAL), g.within(-2, 2)),
        // Any bits at all.
        _ => f64::from_bits(g.bits()),
    }
}

/// A coordinate for the intake.
pub fn coordinate(number: u64, g: &mut Generator) -> f64 {
    let reach = REACH as i64;
    match number % 4 {
        // Any float.
        0 => float(number / 4, g),
        // A whole number in range or just out of it.
        1 => g.within(-reach - 8, reach + 8) as f64 * g.pick(&[1.0, 1.0, 1.0, -1.0]),
        // The neighbours of a whole number, most of them at the ends of the range or at zero.
        2 => {
            let whole = match g.within(0, 3) {
                0 => g.within(-reach, reach),
                1 => g.within(-2, 2),
                _ => g.within(reach - 2, reach + 2),
            };
            nudge(whole as f64 * g.sign(), g.within(-2, 2))
        }
        // A whole number and a binary fraction.
        _ => g.within(-reach - 2, reach + 2) as f64 + g.fraction() * power(g.within(-40, 0)),
    }
}

/// Three points as ax, ay, bx, by, cx, cy, for the filter of orientation.
pub fn three_points(number: u64, g: &mut Generator) -> [f64; 6] {
    match number % 12 {
        // Any bits at all.
        0 => [(); 6].map(|_| f64::from_bits(g.bits())),
        // Exponents that are near each other.
        1 => {
            let middle = g.within(0, 2047);
            let width = g.pick(&[0, 1, 3, 30]);
            [(); 6].map(|_| {
                let exponent = middle + g.within(-width, width);
                g.at_exponent(exponent)
            })
        }
        // Small whole numbers.
        2 => [(); 6].map(|_| g.within(-12, 12) as f64),
        // Whole numbers near the ends of the range.
        3 => [(); 6].map(|_| (REACH as i64 + g.within(-6, 6)) as f64 * g.sign()),
        // Points on a line, in floats, each coordinate then a place off or not.
        4 => {
            let (px, py) = (g.sign() * g.fraction(), g.sign() * g.fraction());
            let (dx, dy) = (g.sign() * g.fraction(), g.sign() * g.fraction());
            let (size, scale) = (power(g.within(-20, 10)), power(g.within(-30, 30)));
            let mut at = || g.within(-64, 64) as f64 / 8.0 * size;
            let (s, t, u) = (at(), at(), at());
            let line = [
                px + s * dx,
                py + s * dy,
                px + t * dx,
                py + t * dy,
                px + u * dx,
                py + u * dy,
            ];
            line.map(|v| nudge(v * scale, g.within(-1, 1)))
        }
        // The same with whole numbers, where the line is exact, at any scale.
        5 => {
            let (px, py) = (g.within(-4096, 4096), g.within(-4096, 4096));
            let (dx, dy) = (g.within(-64, 64), g.within(-64, 64));
            let (s, t, u) = (g.within(-64, 64), g.within(-64, 64), g.within(-64, 64));
            let scale = if g.once_in(3) {
                power(g.within(-1074, 1000))
            } else {
                1.0
            };
            let far = g.pick(&[0, 1, 1, 4]);
            let line = [
                px + s * dx,
                py + s * dy,
                px + t * dx,
                py + t * dy,
                px + u * dx,
                py + u * dy,
            ];
            line.map(|v| nudge(v as f64 * scale, g.within(-far, far)))
        }
        // Two products that are a few places apart, as the bound of the filter is.
        6 => {
            let (x, y) = (g.fraction(), g.fraction());
            let (i, j) = (g.within(-200, 200), g.within(-200, 200));
            let (ax, by) = (g.sign() * x * power(i), g.sign() * y * power(j));
            let (ay, bx) = (nudge(ax, g.within(-7, 7)), nudge(by, g.within(-7, 7)));
            let shift = power(g.within(-60, 60));
            [ax, ay / shift, bx * shift, by, 0.0, 0.0]
        }
        // Products whose difference is the bound times their sum, or a few places off.
        7 => {
            let steps = g.within(4, 5) as f64;
            let unit = power(-52);
            let bound = (3.0 + 16.0 * power(-53)) * power(-53);
            let sum = nudge(steps * unit / bound, g.within(-8, 8));
            let (left, right) = (
                sum / 2.0 + steps * unit / 2.0,
                sum / 2.0 - steps * unit / 2.0,
            );
            let (ax, ay) = if g.once_in(2) {
                (left, right)
            } else {
                (right, left)
            };
            let (i, j) = (g.within(-400, 400), g.within(-400, 400));
            let (x, y) = (g.sign() * power(i), g.sign() * power(j));
            [ax * x, ay * x, y, y, 0.0, 0.0]
        }
        // Special values among others.
        8 => {
            let among = g.pick(&[1, 2, 4]);
            let middle = g.within(0, 2046);
            [(); 6].map(|_| {
                if g.once_in(among) {
                    g.pick(&SPECIAL)
                } else if g.once_in(2) {
                    g.within(-4, 4) as f64
                } else {
                    g.at_exponent(middle)
                }
            })
        }
        // Few values, so that coordinates and points are equal to each other.
        9 => {
            let few = [(); 3].map(|_| float(g.bits() | 1, g));
            [(); 6].map(|_| g.pick(&few))
        }
        // A permanent about the least normal number, of one product or of two.
        10 => about(g, -1022),
        // A permanent about the greatest number.
        _ => about(g, 1023),
    }
}

/// Three points whose products are about 2^e: the third is the origin, or near it.
fn about(g: &mut Generator, e: i64) -> [f64; 6] {
    let mut halves = || {
        let i = if e < 0 {
            g.within(-1022, 0)
        } else {
            g.within(0, 1023)
        };
        let j = e - i + g.within(-2, 1);
        let (x, y) = if g.once_in(2) {
            (1.0, 1.0)
        } else {
            (g.fraction(), g.fraction())
        };
        let x = nudge(g.sign() * x * power(i), g.within(-1, 1));
        let y = nudge(g.sign() * y * power(j.clamp(-1074, 1023)), g.within(-1, 1));
        (x, y)
    };
    let (ax, by) = halves();
    let (ay, bx) = halves();
    match g.within(0, 3) {
        0 => [ax, 0.0, 0.0, by, 0.0, -0.0],
        1 => [0.0, ay, bx, -0.0, 0.0, 0.0],
        2 => [ax, ay, bx, by, 0.0, 0.0],
        _ => [ax, ay, bx, by, f64::from_bits(1), -f64::MIN_POSITIVE],
    }
}

/// Four points as ax, ay, bx, by, cx, cy, dx, dy, for the determinant of the circle test in floats.
pub fn four_points(number: u64, g: &mut Generator) -> [f64; 8] {
    match number % 8 {
        // Any bits at all.
        0 => [(); 8].map(|_| f64::from_bits(g.bits())),
        // Exponents that are near each other. The determinant is of degree four.
        1 => {
            let middle = g.within(740, 1300);
            let width = g.pick(&[0, 1, 3, 30]);
            [(); 8].map(|_| {
                let exponent = middle + g.within(-width, width);
                g.at_exponent(exponent)
            })
        }
        // Points on a circle, nearly, at any scale that a square of a square bears.
        2 | 3 => {
            let (x, y) = (g.sign() * g.fraction(), g.sign() * g.fraction());
            let (size, scale) = (power(g.within(-30, 10)), power(g.within(-250, 250)));
            let mut p = [0.0; 8];
            for i in 0..4 {
                let t = g.sign() * g.fraction() * power(g.within(-3, 3));
                let (u, v) = ((1.0 - t * t) / (1.0 + t * t), 2.0 * t / (1.0 + t * t));
                p[2 * i] = (x + size * u) * scale;
                p[2 * i + 1] = (y + size * v) * scale;
            }
            p.map(|v| nudge(v, g.within(-1, 1)))
        }
        // Whole numbers on a circle, or a step off.
        4 => wholes_on_circle(g, REACH).map(f64::from),
        // Whole numbers up to the reach.
        5 => [(); 8].map(|_| g.whole(-REACH, REACH) as f64),
        // Special values among others.
        6 => {
            let among = g.pick(&[1, 2, 4, 8]);
            let middle = g.within(700, 1350);
            [(); 8].map(|_| {
                if g.once_in(among) {
                    g.pick(&SPECIAL)
                } else if g.once_in(2) {
                    g.within(-4, 4) as f64
                } else {
                    g.at_exponent(middle)
                }
            })
        }
        // Few values, so that coordinates and points are equal to each other.
        _ => {
            let few = [(); 4].map(|_| float(g.bits() | 1, g));
            [(); 8].map(|_| g.pick(&few))
        }
    }
}

/// A whole coordinate about the ends of the range.
fn near_end(g: &mut Generator) -> i32 {
    (REACH + g.whole(-3, 3)) * g.pick(&[1, -1])
}

/// A whole coordinate that is beyond the reach, often far beyond.
fn out_of_reach(g: &mut Generator) -> i32 {
    match g.within(0, 3) {
        0 => g.pick(&[REACH + 1, -REACH - 1]),
        1 => g.pick(&[
            i32::MIN,
            i32::MIN + 1,
            i32::MAX,
            i32::MAX - 1,
            1 << 16,
            1 << 30,
        ]),
        2 => g.whole(REACH + 1, i32::MAX),
        _ => g.whole(i32::MIN, -REACH - 1),
    }
}

/// K whole coordinates that make no shape, by one of six patterns; `small` is the size of the small ones.
fn loose_wholes<const K: usize>(pattern: u64, g: &mut Generator, small: i32) -> [i32; K] {
    match pattern {
        // Any bits at all, which are seldom in range.
        0 => [(); K].map(|_| g.bits() as i32 >> g.within(0, 31)),
        // Small numbers.
        1 => [(); K].map(|_| g.whole(-small, small)),
        // The whole range.
        2 => [(); K].map(|_| g.whole(-REACH, REACH)),
        // The corners of the range.
        3 => [(); K].map(|_| g.pick(&[-REACH, REACH, -REACH + 1, REACH - 1, 0])),
        // The ends of the range, and beyond.
        4 => {
            let rare = g.pick(&[1, K as i64, 2 * K as i64]);
            [(); K].map(|_| {
                if g.once_in(rare) {
                    near_end(g)
                } else {
                    g.whole(-REACH, REACH)
                }
            })
        }
        // One coordinate out of range, any of them.
        _ => {
            let mut p = [(); K].map(|_| g.whole(-REACH, REACH));
            p[g.within(0, K as i64 - 1) as usize] = out_of_reach(g);
            p
        }
    }
}

/// Three whole points as ax, ay, bx, by, cx, cy.
pub fn three_wholes(number: u64, g: &mut Generator) -> [i32; 6] {
    match number % 8 {
        pattern @ 0..=5 => loose_wholes(pattern, g, 6),
        // Points on a line, or a step off.
        _ => {
            let (dx, dy) = (g.whole(-100, 100), g.whole(-100, 100));
            let (x, y) = (g.whole(-4000, 4000), g.whole(-4000, 4000));
            let (s, t, u) = (g.whole(-40, 40), g.whole(-40, 40), g.whole(-40, 40));
            let mut p = [
                x + s * dx,
                y + s * dy,
                x + t * dx,
                y + t * dy,
                x + u * dx,
                y + u * dy,
            ];
            if g.once_in(2) {
                p[g.within(0, 5) as usize] += g.pick(&[1, -1]);
            }
            p
        }
    }
}

/// Four whole points as ax, ay, bx, by, cx, cy, dx, dy.
pub fn four_wholes(number: u64, g: &mut Generator) -> [i32; 8] {
    match number % 8 {
        pattern @ 0..=5 => loose_wholes(pattern, g, 4),
        // Points on a circle, or a step off.
        _ => wholes_on_circle(g, REACH),
    }
}

/// Four whole points within a reach, for a determinant that is exact in floats.
pub fn four_wholes_within(reach: i32, number: u64, g: &mut Generator) -> [i32; 8] {
    match number % 4 {
        // Small numbers.
        0 => [(); 8].map(|_| g.whole(-4, 4)),
        // The whole range.
        1 => [(); 8].map(|_| g.whole(-reach, reach)),
        // The corners of the range.
        2 => [(); 8].map(|_| g.pick(&[-reach, reach, -reach + 1, reach - 1, 0])),
        // Points on a circle, or a step off.
        _ => wholes_on_circle(g, reach).map(|v| v.clamp(-reach, reach)),
    }
}

/// Four whole points that lie on a circle, or of which one is a step off. At most the step is out of
/// reach.
fn wholes_on_circle(g: &mut Generator, reach: i32) -> [i32; 8] {
    let most = g.pick(&[4, 64, reach / 4, reach / 2, reach]);
    let (x, y) = (g.whole(0, most), g.whole(0, most));
    let room = reach - x.max(y);
    let (mx, my) = (g.whole(-room, room), g.whole(-room, room));
    let mut p = [0; 8];
    for i in 0..4 {
        // The eight whole points that are as far from the middle as (x, y) is.
        let (u, v) = if g.once_in(2) { (x, y) } else { (y, x) };
        p[2 * i] = mx + u * g.pick(&[1, -1]);
        p[2 * i + 1] = my + v * g.pick(&[1, -1]);
    }
    if g.once_in(2) {
        p[g.within(0, 7) as usize] += g.pick(&[1, -1]);
    }
    p
}
