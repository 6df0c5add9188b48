//! Points and segments of whole numbers, in the requirement's words, for the table and the rules.

/// A point. Each function here is asked only for coordinates within the table's limit, which the
/// table tests before it asks for a determinant.
pub type Point = (i32, i32);

/// The points of a list x0, y0, x1, y1, ...
pub fn points_of(list: &[i32]) -> Vec<Point> {
    list.chunks_exact(2).map(|p| (p[0], p[1])).collect()
}

/// The pairs of a list of point numbers, two for each.
pub fn pairs_of(list: &[u32]) -> Vec<(u32, u32)> {
    list.chunks_exact(2).map(|p| (p[0], p[1])).collect()
}

/// The determinant (ax - cx)(by - cy) - (ay - cy)(bx - cx): twice the area of a, b, c, above 0 where
/// they run counterclockwise.
pub fn area2(a: Point, b: Point, c: Point) -> i64 {
    let [ax, ay, bx, by, cx, cy] = [a.0, a.1, b.0, b.1, c.0, c.1].map(i64::from);
    (ax - cx) * (by - cy) - (ay - cy) * (bx - cx)
}

/// The orientation: the sign of that determinant.
pub fn orient(a: Point, b: Point, c: Point) -> i32 {
    area2(a, b, c).signum() as i32
}

/// The circle sign of counterclockwise a, b, c and d: above 0 where d is strictly inside. It is taken
/// in 128 bits, so that it leans on no argument about the determinant's size.
pub fn circle(a: Point, b: Point, c: Point, d: Point) -> i32 {
    let from_d = |p: Point| {
        (
            i128::from(p.0) - i128::from(d.0),
            i128::from(p.1) - i128::from(d.1),
        )
    };
    let ((ax, ay), (bx, by), (cx, cy)) = (from_d(a), from_d(b), from_d(c));
    let lift = |x: i128, y: i128| x * x + y * y;
    let det = lift(ax, ay) * (bx * cy - cx * by)
        + lift(bx, by) * (cx * ay - ax * cy)
        + lift(cx, cy) * (ax * by - bx * ay);
    det.signum() as i32
}

/// Whether p lies in the closed triangle, of either orientation.
pub fn in_closed(base: [Point; 3], p: Point) -> bool {
    let [a, b, c] = base;
    let signs = [orient(a, b, p), orient(b, c, p), orient(c, a, p)];
    let turn = orient(a, b, c);
    signs.iter().all(|sign| sign * turn >= 0)
}

/// Whether p lies strictly inside the segment of a and b.
pub fn strictly_within(a: Point, b: Point, p: Point) -> bool {
    let between = |u: i32, v: i32, w: i32| u.min(v) <= w && w <= u.max(v);
    p != a && p != b && between(a.0, b.0, p.0) && between(a.1, b.1, p.1) && orient(a, b, p) == 0
}

/// Whether the segments cross properly: the ends of each lie strictly on both sides of the other's
/// line.
pub fn properly_cross(a: Point, b: Point, c: Point, d: Point) -> bool {
    orient(a, b, c) * orient(a, b, d) < 0 && orient(c, d, a) * orient(c, d, b) < 0
}
