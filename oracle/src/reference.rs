//! Plain references, written here, for what the original does not have or keeps within a function.

/// The largest magnitude of a whole coordinate.
pub const REACH: i32 = 8192;

/// Whether a coordinate is beyond the reach.
fn beyond(p: &[i32]) -> bool {
    p.iter().any(|v| (*v as i64).abs() > REACH as i64)
}

/// -1, 0 or 1.
fn sign(v: i128) -> i32 {
    v.signum() as i32
}

/// The orientation of ax, ay, bx, by, cx, cy, or 2 where a coordinate is beyond the reach.
pub fn orient(p: &[i32; 6]) -> i32 {
    if beyond(p) {
        return 2;
    }
    let [ax, ay, bx, by, cx, cy] = p.map(i128::from);
    sign((ax - cx) * (by - cy) - (ay - cy) * (bx - cx))
}

/// The determinant of the circle test of ax, ay, bx, by, cx, cy, dx, dy.
pub fn circle_det(p: &[i32; 8]) -> i128 {
    let [ax, ay, bx, by, cx, cy, dx, dy] = p.map(i128::from);
    let (ax, ay, bx, by, cx, cy) = (ax - dx, ay - dy, bx - dx, by - dy, cx - dx, cy - dy);
    let lift = |x: i128, y: i128| x * x + y * y;
    lift(ax, ay) * (bx * cy - cx * by)
        + lift(bx, by) * (cx * ay - ax * cy)
        + lift(cx, cy) * (ax * by - bx * ay)
}

/// The circle test of ax, ay, bx, by, cx, cy, dx, dy, or 2 where a coordinate is beyond the reach.
pub fn circle(p: &[i32; 8]) -> i32 {
    if beyond(p) {
        return 2;
    }
    sign(circle_det(p))
}

/// The intake of a coordinate: the answer, and the whole number where the answer is 0.
pub fn take_in(v: f64) -> (i32, Option<i32>) {
    if !v.is_finite() {
        (1, None)
    } else if v.abs() > REACH as f64 {
        (2, None)
    } else if v.fract() != 0.0 {
        (3, None)
    } else {
        (0, Some(v as i32))
    }
}

/// The determinant and the permanent of the circle test in floats, of ax, ay, bx, by, cx, cy, dx,
/// dy: the formula of `incircle` in the original's `robust/exact/filtered.rs`, which returns neither.
pub fn incircle(p: &[f64; 8]) -> (f64, f64) {
    let [ax, ay, bx, by, cx, cy, dx, dy] = *p;
    let adx = ax - dx;
    let ady = ay - dy;
    let bdx = bx - dx;
    let bdy = by - dy;
    let cdx = cx - dx;
    let cdy = cy - dy;

    let bdxcdy = bdx * cdy;
    let cdxbdy = cdx * bdy;
    let alift = adx * adx + ady * ady;

    let cdxady = cdx * ady;
    let adxcdy = adx * cdy;
    let blift = bdx * bdx + bdy * bdy;

    let adxbdy = adx * bdy;
    let bdxady = bdx * ady;
    let clift = cdx * cdx + cdy * cdy;

    let det = alift * (bdxcdy - cdxbdy) + blift * (cdxady - adxcdy) + clift * (adxbdy - bdxady);
    let permanent = (bdxcdy.abs() + cdxbdy.abs()) * alift
        + (cdxady.abs() + adxcdy.abs()) * blift
        + (adxbdy.abs() + bdxady.abs()) * clift;
    (det, permanent)
}

/// Whether the filter of the original's `incircle` answers by this determinant, with room to spare:
/// twice its bound and more. Where it does not answer, the original goes on to fractions without bound,
/// which the glue does not have.
pub fn incircle_is_plain(det: f64, permanent: f64) -> bool {
    const BOUND: f64 = 10.0 * (f64::EPSILON * 0.5);
    permanent >= 2.0 * f64::MIN_POSITIVE
        && permanent <= f64::MAX / 2.0
        && det.abs() > 2.0 * BOUND * permanent
}
