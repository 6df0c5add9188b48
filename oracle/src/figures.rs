//! Figures: points and pairs for the cutter, from a fixed generator.
//!
//! A figure depends only on its number and on the greatest number of points. The families take
//! turns, so a run of any length has a share of each. All of them pass the ten checks of the table;
//! `spoiled` makes figures that may not.

use std::collections::HashSet;

use crate::cutting::original_triangulate;
use crate::generator::Generator;
use crate::plane::{in_closed, orient, Point};
use crate::table::{crosses_one, is_blocked, MOST_PAIRS, MOST_POINTS, REACH};

/// A pair of point numbers.
pub type Pair = (u32, u32);

/// A figure as the cutter takes it.
#[derive(Clone, Debug)]
pub struct Figure {
    /// The families that it is from.
    pub name: String,
    /// x0, y0, x1, y1, ...
    pub points: Vec<i32>,
    /// Two point numbers for each pair.
    pub pairs: Vec<u32>,
}

impl Figure {
    pub fn new(name: &str, points: &[Point], pairs: &[Pair]) -> Figure {
        Figure {
            name: name.to_string(),
            points: points.iter().flat_map(|p| [p.0, p.1]).collect(),
            pairs: pairs.iter().flat_map(|p| [p.0, p.1]).collect(),
        }
    }
}

/// The figure with this number, of at most so many points.
pub fn figure(number: u64, most: usize) -> Figure {
    let g = &mut Generator::new(Generator::new(number).bits());
    let most = most.clamp(3, MOST_POINTS);
    // Small figures find most faults, and are quick. Every sixteenth may be as large as allowed.
    let n = match number % 16 {
        0 => most,
        1..=3 => most.min(300),
        _ => most.min(24),
    };
    let n = g.within(3, n as i64) as usize;
    let place = number as usize % (FAMILIES.len() + SHAPES.len());
    let (name, points, mut pairs) = match FAMILIES.get(place) {
        Some((name, family)) => {
            let points = family(g, n);
            let (kind, pairs) = pairs_for(g, &points);
            (format!("{name}, {kind}"), points, pairs)
        }
        None => {
            let (name, shape) = SHAPES[place - FAMILIES.len()];
            let (points, pairs) = shape(g, n);
            (name.to_string(), points, pairs)
        }
    };
    let points = if g.once_in(2) {
        turned(g, points)
    } else {
        points
    };
    if g.once_in(4) {
        repeat_some(g, &mut pairs);
    }
    Figure::new(&name, &points, &pairs)
}

/// A family of points: at most n of them, and at least the base.
type Family = fn(&mut Generator, usize) -> Vec<Point>;

/// The families of points.
pub const FAMILIES: &[(&str, Family)] = &[
    ("uniform", uniform),
    ("clusters", clusters),
    ("lattice", lattice),
    ("grid", |g, n| {
        let order = g.pick(&[Order::Rows, Order::Shuffled, Order::Diagonals]);
        let step = g.whole(1, 40);
        grid(g, n, step, order)
    }),
    ("sides", sides),
    ("clockwise", clockwise),
    ("extreme", extreme),
    ("star", star),
    ("spiral", spiral),
    ("fan", fan),
    ("x order", in_x_order),
    ("circle", circle),
    ("nearly a line", nearly_a_line),
];

/// A family of points with pairs of its own.
type Shape = fn(&mut Generator, usize) -> (Vec<Point>, Vec<Pair>);

/// The families of points with pairs of their own.
pub const SHAPES: &[(&str, Shape)] = &[("corridor", corridor), ("pinched", pinched)];

// Bases and filling.

/// The greatest bases: right triangles, and one with its top in the middle.
const GREAT: [[Point; 3]; 3] = [
    [(-REACH, -REACH), (REACH, -REACH), (-REACH, REACH)],
    [(-REACH, -REACH), (REACH, -REACH), (REACH, REACH)],
    [(-REACH, -REACH), (REACH, -REACH), (0, REACH)],
];

/// The corners in any order, so that half the bases are clockwise.
fn shuffled_base(g: &mut Generator, mut base: [Point; 3]) -> [Point; 3] {
    shuffle(g, &mut base);
    base
}

/// A base within the reach, with an area.
fn any_base(g: &mut Generator, reach: i32) -> [Point; 3] {
    loop {
        let base = [(); 3].map(|_| (g.whole(-reach, reach), g.whole(-reach, reach)));
        if orient(base[0], base[1], base[2]) != 0 {
            return base;
        }
    }
}

/// The base and at most n - 3 more points that the function makes: distinct ones in the closed base.
/// It is asked a bounded number of times, since a small base may not hold so many.
fn fill(
    g: &mut Generator,
    base: [Point; 3],
    n: usize,
    mut make: impl FnMut(&mut Generator) -> Point,
) -> Vec<Point> {
    let mut points = base.to_vec();
    let mut met: HashSet<Point> = base.into_iter().collect();
    for _ in 0..100 + 20 * n {
        if points.len() >= n {
            break;
        }
        let p = make(g);
        if in_closed(base, p) && met.insert(p) {
            points.push(p);
        }
    }
    points
}

/// A point of the least box that holds the base.
fn in_box(g: &mut Generator, base: [Point; 3]) -> Point {
    let range = |values: [i32; 3]| (values.into_iter().min(), values.into_iter().max());
    let (x, y) = (range(base.map(|p| p.0)), range(base.map(|p| p.1)));
    (
        g.whole(x.0.unwrap(), x.1.unwrap()),
        g.whole(y.0.unwrap(), y.1.unwrap()),
    )
}

/// Puts values in a random order.
fn shuffle<T>(g: &mut Generator, values: &mut [T]) {
    for i in (1..values.len()).rev() {
        values.swap(i, g.within(0, i as i64) as usize);
    }
}

/// The points turned by one of the eight symmetries of the square.
fn turned(g: &mut Generator, mut points: Vec<Point>) -> Vec<Point> {
    let (swap, flip_x, flip_y) = (g.once_in(2), g.once_in(2), g.once_in(2));
    for p in &mut points {
        if swap {
            *p = (p.1, p.0);
        }
        *p = (
            if flip_x { -p.0 } else { p.0 },
            if flip_y { -p.1 } else { p.1 },
        );
    }
    points
}

// Families of points.

/// Uniform points in a base of any size.
pub fn uniform(g: &mut Generator, n: usize) -> Vec<Point> {
    let base = match g.within(0, 3) {
        0 => any_base(g, REACH),
        1 => {
            let reach = g.pick(&[8, 40, 300, 2000]);
            any_base(g, reach)
        }
        _ => {
            let base = g.pick(&GREAT);
            shuffled_base(g, base)
        }
    };
    fill(g, base, n, |g| in_box(g, base))
}

/// Exactly n uniform points strictly inside the greatest base: what the benchmark takes.
pub fn uniform_inside(g: &mut Generator, n: usize) -> Vec<Point> {
    let base = GREAT[0];
    let inner = [
        (-REACH + 1, -REACH + 1),
        (REACH - 3, -REACH + 1),
        (-REACH + 1, REACH - 3),
    ];
    let points = fill(g, base, n, |g| loop {
        let p = in_box(g, inner);
        if in_closed(inner, p) {
            return p;
        }
    });
    assert_eq!(points.len(), n, "the base holds so many points");
    points
}

/// Points close to a few centres.
fn clusters(g: &mut Generator, n: usize) -> Vec<Point> {
    let base = g.pick(&GREAT);
    let base = shuffled_base(g, base);
    let centres: Vec<Point> = (0..g.within(1, 6)).map(|_| in_box(g, base)).collect();
    let spread = g.pick(&[2, 6, 30, 200]);
    fill(g, base, n, |g| {
        let (x, y) = g.pick(&centres);
        (x + g.whole(-spread, spread), y + g.whole(-spread, spread))
    })
}

/// All the lattice points of a small triangle, in random order: full of ties and of points on a line.
fn lattice(g: &mut Generator, n: usize) -> Vec<Point> {
    // Small enough that the triangle has few more points than are asked for.
    let side = (2.0 * n as f64).sqrt() as i32;
    let reach = g.whole(1, side.clamp(2, 90));
    let (step, dx, dy) = (g.whole(1, 45), g.whole(-4000, 4000), g.whole(-4000, 4000));
    let base = any_base(g, reach);
    let mut inner: Vec<Point> = (-reach..=reach)
        .flat_map(|x| (-reach..=reach).map(move |y| (x, y)))
        .filter(|p| in_closed(base, *p) && !base.contains(p))
        .collect();
    shuffle(g, &mut inner);
    let moved = |p: Point| (p.0 * step + dx, p.1 * step + dy);
    base.into_iter().chain(inner).take(n).map(moved).collect()
}

/// The order of a grid's points.
#[derive(Clone, Copy, PartialEq)]
pub enum Order {
    Rows,
    Diagonals,
    Shuffled,
}

/// A square grid in a base that holds it. With n = 4096 it is the grid of 64 by 64, without its last
/// three points, whose places the base's corners take.
pub fn grid(g: &mut Generator, n: usize, step: i32, order: Order) -> Vec<Point> {
    let side = (1..).find(|k| k * k + 3 >= n).unwrap().clamp(1, 64) as i32;
    let mut inner: Vec<Point> = (0..side * side).map(|k| (k % side, k / side)).collect();
    inner.truncate(n.saturating_sub(3));
    match order {
        Order::Rows => (),
        Order::Diagonals => inner.sort_by_key(|p| (p.0 + p.1, p.0)),
        Order::Shuffled => shuffle(g, &mut inner),
    }
    // The grid starts a step inside two sides, and its last corner is within the third.
    let corners = [(-1, -1), (2 * side, -1), (-1, 2 * side)];
    let moved = |p: Point| ((p.0 - side) * step, (p.1 - side) * step);
    corners.into_iter().chain(inner).map(moved).collect()
}

/// Many points on the base's sides, and some inside.
fn sides(g: &mut Generator, n: usize) -> Vec<Point> {
    // Each side has a whole number of equal steps.
    let steps = g.whole(1, (n as i32).clamp(2, 2000));
    let small = any_base(g, (REACH / steps).clamp(1, 50));
    let base = small.map(|p| (p.0 * steps, p.1 * steps));
    let inside = g.within(2, 10);
    fill(g, base, n, |g| {
        if g.once_in(inside) {
            return in_box(g, base);
        }
        let k = g.whole(0, 2) as usize;
        let (a, b) = (small[k], small[(k + 1) % 3]);
        let at = g.whole(0, steps);
        (a.0 * (steps - at) + b.0 * at, a.1 * (steps - at) + b.1 * at)
    })
}

/// Uniform points in a clockwise base, which reads 0, 2, 1.
fn clockwise(g: &mut Generator, n: usize) -> Vec<Point> {
    let mut base = any_base(g, REACH);
    if orient(base[0], base[1], base[2]) > 0 {
        base.swap(1, 2);
    }
    fill(g, base, n, |g| in_box(g, base))
}

/// Coordinates at the limits and near them, where the determinants are greatest.
fn extreme(g: &mut Generator, n: usize) -> Vec<Point> {
    let base = g.pick(&GREAT);
    let base = shuffled_base(g, base);
    let coordinate = |g: &mut Generator| {
        let near = g.pick(&[0, 0, 1, 2, 3, 50]);
        g.pick(&[-REACH, -REACH, REACH, 0]) + g.whole(-near, near)
    };
    fill(g, base, n, |g| {
        let p = (coordinate(g), coordinate(g));
        (p.0.clamp(-REACH, REACH), p.1.clamp(-REACH, REACH))
    })
}

/// Points on rays from a centre, so that many lie on a line with it.
fn star(g: &mut Generator, n: usize) -> Vec<Point> {
    let base = g.pick(&GREAT);
    let base = shuffled_base(g, base);
    let (x, y) = (g.whole(-6000, -2000), g.whole(-6000, -2000));
    let rays: Vec<Point> = (0..g.within(3, 24))
        .map(|_| (g.whole(-12, 12), g.whole(-12, 12)))
        .collect();
    let long = g.whole(2, 300);
    fill(g, base, n, |g| {
        let (dx, dy) = g.pick(&rays);
        let far = g.whole(0, long);
        (x + dx * far, y + dy * far)
    })
}

/// Points along a spiral, from its middle or to it. The turns are by whole numbers, so that no machine
/// rounds them otherwise.
fn spiral(g: &mut Generator, n: usize) -> Vec<Point> {
    let base = GREAT[2];
    // A turn takes (x, y) to (ax - by, bx + ay) / c, where a² + b² = c².
    let (a, b, c): (i64, i64, i64) = g.pick(&[
        (3, 4, 5),
        (5, 12, 13),
        (21, 20, 29),
        (24, 7, 25),
        (99, 20, 101),
        (399, 40, 401),
    ]);
    let wide = g.within(1, 3500);
    let (mut at, mut x, mut y) = (0, 1 << 30, 0);
    let mut points = fill(g, base, n, |_| {
        at += 1;
        (x, y) = ((a * x - b * y) / c, (b * x + a * y) / c);
        let far = |v: i64| (v * wide * at / (n as i64) >> 30) as i32;
        (far(x), far(y) - 3000)
    });
    if g.once_in(2) {
        points[3..].reverse();
    }
    points
}

/// Points on an arc that all see one corner, which gets very many triangles.
fn fan(g: &mut Generator, n: usize) -> Vec<Point> {
    let base = [(-REACH, 0), (REACH, 0), (0, REACH)];
    // The arc bends to one side or the other: y = 1000 + x² / bend.
    let bend = g.pick(&[20_000, 100_000, 1_000_000]);
    let bend = if g.once_in(2) { bend } else { -bend };
    let long = g.whole(10, 4000);
    let mut points = fill(g, base, n, |g| {
        let x = g.whole(-long, long);
        (x, 1000 + x * x / bend)
    });
    match g.within(0, 2) {
        0 => points[3..].sort_unstable(),
        1 => points[3..].sort_unstable_by_key(|p| -p.0),
        _ => (),
    }
    points
}

/// Uniform points in order of x, then y: each is added beside the one before.
pub fn in_x_order(g: &mut Generator, n: usize) -> Vec<Point> {
    let mut points = uniform_inside(g, n);
    points[3..].sort_unstable();
    points
}

/// Points on a common circle, where every circle sign is 0, and at times some more.
fn circle(g: &mut Generator, n: usize) -> Vec<Point> {
    // The numbers have many forms as a sum of two squares.
    let square: i32 = g.pick(&[25, 65, 325, 1105, 5525, 27625, 160225, 1185665, 5928325]);
    let reach = (square as f64).sqrt() as i32 + 1;
    let root = |v: i32| (v as f64).sqrt().round() as i32;
    let mut ring: Vec<Point> = (-reach..=reach)
        .filter(|x| x * x <= square)
        .map(|x| (x, root(square - x * x)))
        .filter(|(x, y)| x * x + y * y == square)
        .flat_map(|(x, y)| [(x, y), (x, -y)])
        .collect();
    shuffle(g, &mut ring);
    let base = GREAT[2];
    let (dx, dy) = (g.whole(-100, 100), g.whole(-4000, -3900));
    let more = g.once_in(2);
    let mut at = 0;
    fill(g, base, n, |g| {
        at += 1;
        let (x, y) = match ring.get(at - 1) {
            Some(p) => *p,
            None if more => (g.whole(-reach, reach), g.whole(-reach, reach)),
            None => ring[0],
        };
        (x + dx, y + dy)
    })
}

/// Points on a line or within a step of it.
fn nearly_a_line(g: &mut Generator, n: usize) -> Vec<Point> {
    let base = g.pick(&GREAT);
    let base = shuffled_base(g, base);
    let (a, b) = (in_box(g, base), in_box(g, base));
    let parts = g.whole(1, 4000);
    let off = g.whole(0, 2);
    fill(g, base, n, |g| {
        let at = i64::from(g.whole(0, parts));
        let on = |from: i32, to: i32| from + (i64::from(to - from) * at / i64::from(parts)) as i32;
        (
            on(a.0, b.0) + g.whole(-off, off),
            on(a.1, b.1) + g.whole(-off, off),
        )
    })
}

// Sets of pairs that do not cross.

/// A set of pairs for these points, and its kind.
fn pairs_for(g: &mut Generator, points: &[Point]) -> (&'static str, Vec<Pair>) {
    let n = points.len();
    match g.within(0, 5) {
        0 => ("no pairs", Vec::new()),
        1 => ("random pairs", {
            let most = g.within(1, 2 * n as i64) as usize;
            random_pairs(g, points, most)
        }),
        2 if n <= 60 => ("greedy pairs", greedy_pairs(g, points)),
        2 | 3 => ("edges of a part", edges_of_a_part(g, points)),
        4 => ("some edges", {
            let mut pairs = edges_of(points, &[]);
            shuffle(g, &mut pairs);
            let keep = g.within(0, pairs.len() as i64);
            pairs.truncate(keep as usize);
            pairs
        }),
        _ => ("edges of a part and more", {
            let mut pairs = edges_of_a_part(g, points);
            let keep = g.within(0, pairs.len() as i64);
            pairs.truncate(keep as usize);
            let most = pairs.len() + g.within(1, 20) as usize;
            add_random_pairs(g, points, &mut pairs, most);
            pairs
        }),
    }
}

/// Random segments, kept where no point is inside them and they cross no earlier one: at most so
/// many.
pub fn random_pairs(g: &mut Generator, points: &[Point], most: usize) -> Vec<Pair> {
    let mut pairs = Vec::new();
    add_random_pairs(g, points, &mut pairs, most);
    pairs
}

/// So many segments between points that are near each other, none blocked and no two crossing: few of
/// them are edges already, and all have short corridors. Fewer, where none is found in many trials.
pub fn near_pairs(g: &mut Generator, points: &[Point], count: usize) -> Vec<Pair> {
    let n = points.len();
    let mut pairs: Vec<Pair> = Vec::new();
    let far = |a: Point, b: Point| {
        let (dx, dy) = ((a.0 - b.0) as i64, (a.1 - b.1) as i64);
        dx * dx + dy * dy
    };
    for _ in 0..40 * count {
        if pairs.len() >= count {
            break;
        }
        let a = g.within(0, n as i64 - 1) as usize;
        // One of the points that are nearest, but not the very nearest.
        let mut near: Vec<usize> = (0..n).filter(|b| *b != a).collect();
        let take = 24.min(near.len() - 1);
        near.select_nth_unstable_by_key(take, |b| far(points[a], points[*b]));
        let b = near[g.within(0, take as i64) as usize];
        let pair = (a as u32, b as u32);
        if fits(points, pair, &pairs) {
            pairs.push(pair);
        }
    }
    pairs
}

/// More such segments, until there are so many, or none is found in many trials.
fn add_random_pairs(g: &mut Generator, points: &[Point], pairs: &mut Vec<Pair>, most: usize) {
    let n = points.len() as i64;
    for _ in 0..200 + 3 * most {
        if pairs.len() >= most.min(MOST_PAIRS) {
            return;
        }
        let pair = (g.within(0, n - 1) as u32, g.within(0, n - 1) as u32);
        if fits(points, pair, pairs) {
            pairs.push(pair);
        }
    }
}

/// Whether the pair may follow these: rows 8 to 10 of the table.
fn fits(points: &[Point], pair: Pair, pairs: &[Pair]) -> bool {
    pair.0 != pair.1 && !crosses_one(points, pair, pairs) && !is_blocked(points, pair)
}

/// All segments in random order, each kept where it fits: none more could be added.
pub fn greedy_pairs(g: &mut Generator, points: &[Point]) -> Vec<Pair> {
    let n = points.len() as u32;
    let mut all: Vec<Pair> = (0..n).flat_map(|a| (0..a).map(move |b| (a, b))).collect();
    shuffle(g, &mut all);
    let mut pairs = Vec::new();
    for pair in all {
        if fits(points, pair, &pairs) {
            pairs.push(pair);
        }
    }
    pairs
}

/// The edges of the original's sheet for these points and pairs, each once.
pub fn edges_of(points: &[Point], pairs: &[Pair]) -> Vec<Pair> {
    let sheet = original_triangulate(points, pairs).expect("the original cuts the figure");
    let mut edges: Vec<Pair> = sheet
        .iter()
        .flat_map(|&[a, b, c]| [(a, b), (b, c), (c, a)])
        .map(|(a, b)| (a.min(b), a.max(b)))
        .collect();
    edges.sort_unstable();
    edges.dedup();
    edges
}

/// The edges of the original's sheet for some of the points, without those that another point lies
/// on. They cross many edges of the sheet of all the points.
pub fn edges_of_a_part(g: &mut Generator, points: &[Point]) -> Vec<Pair> {
    let part = g.within(1, 8);
    let keep: Vec<u32> = (0..points.len() as u32)
        .filter(|p| *p < 3 || g.once_in(part))
        .collect();
    let some: Vec<Point> = keep.iter().map(|p| points[*p as usize]).collect();
    let mut pairs: Vec<Pair> = edges_of(&some, &[])
        .into_iter()
        .map(|(a, b)| (keep[a as usize], keep[b as usize]))
        .filter(|pair| !is_blocked(points, *pair))
        .collect();
    shuffle(g, &mut pairs);
    pairs
}

/// Repeats some pairs, at any later or earlier place, and turns some about: neither is a fault.
fn repeat_some(g: &mut Generator, pairs: &mut Vec<Pair>) {
    for _ in 0..g.within(0, 1 + pairs.len() as i64) {
        if pairs.is_empty() || pairs.len() >= MOST_PAIRS {
            return;
        }
        let (a, b) = g.pick(pairs);
        let again = if g.once_in(2) { (a, b) } else { (b, a) };
        let place = g.within(0, pairs.len() as i64) as usize;
        pairs.insert(place, again);
    }
}

// Points with pairs of their own.

/// A strip between two rows of points, and a segment along it that crosses all its triangles. At
/// times edges of the rows are pairs too, and must stay marked.
pub fn corridor(g: &mut Generator, n: usize) -> (Vec<Point>, Vec<Pair>) {
    let rows = (n.max(7) - 5) / 2;
    let step = g.whole(2, (8000 / rows as i32).clamp(2, 60));
    let half = rows as i32 * step / 2;
    // The rows are so close that the segment is no edge before it is asked for.
    let (far, off) = (g.whole(2, (half / 8).max(2)), g.whole(0, 1));
    let mut points = GREAT[2].to_vec();
    points.extend([(-half - step, 0), (half + step, 0)]);
    for k in 0..rows as i32 {
        for side in [-1, 1] {
            // A row may have a jitter, so that neither row is a line.
            let x = -half + k * step + if side > 0 { step / 2 } else { 0 };
            points.push((x, side * (far + g.whole(-off, off))));
        }
    }
    if g.once_in(2) {
        shuffle(g, &mut points[5..]);
    }
    let mut pairs = Vec::new();
    if g.once_in(2) {
        let along = edges_of(&points, &[]).into_iter().filter(|(a, b)| {
            let (a, b) = (points[*a as usize], points[*b as usize]);
            a.1 * b.1 > 0
        });
        pairs.extend(along.filter(|_| g.once_in(3)));
    }
    pairs.push((3, 4));
    (points, pairs)
}

/// A segment under a comb of pairs whose lower ends come close to it. Both triangles of such a pair
/// are crossed, so that it hangs inside the cavity, where its upper end is met twice.
pub fn pinched(g: &mut Generator, n: usize) -> (Vec<Point>, Vec<Pair>) {
    let wide = g.whole(16, 60);
    let teeth = ((n.max(10) - 6) / 4).min((7000 / wide) as usize) as i32;
    let half = teeth * wide / 2;
    let mut points = GREAT[2].to_vec();
    points.extend([(-half - wide, 0), (half + wide, 0)]);
    points.push((-half - wide / 2, -1));
    let mut pairs = Vec::new();
    let mut side = 1;
    for k in 0..teeth {
        // The comb may have teeth on both sides of the segment.
        if g.once_in(4) {
            side = -side;
        }
        let x = -half + k * wide;
        let first = points.len() as u32;
        let tip = g.whole(1, 3);
        points.push((x, side * (tip + wide + g.whole(0, wide))));
        points.push((x + g.whole(-1, 1), side * tip));
        pairs.push((first, first + 1));
        if g.once_in(3) {
            // A tooth in two pieces, with a bend or without.
            let middle = (x + g.whole(-2, 2), side * (tip + wide / 2));
            points.push(middle);
            pairs.pop();
            pairs.push((first, first + 2));
            pairs.push((first + 2, first + 1));
        }
        // Beyond the segment, between this tooth and the next.
        points.push((x + wide / 2 + g.whole(-2, 2), -side * g.whole(1, 3)));
    }
    // Each tooth and its fellow point keep to their own columns, so the pairs do not cross.
    shuffle(g, &mut pairs);
    pairs.push((3, 4));
    (points, pairs)
}

// What only the benchmark takes.

/// The edges of the original's sheet for the same points drawn seven times as wide, shuffled. No two cross, for
/// the drawing keeps lines, and no more can be added; but most are no edges of the sheet of the points as they are.
pub fn stretched_edges(g: &mut Generator, points: &[Point]) -> Vec<Pair> {
    let wide: Vec<Point> = points.iter().map(|p| (7 * p.0, p.1)).collect();
    all_edges(g, &wide, &[])
}

/// All the edges of the original's sheet, shuffled.
pub fn all_edges(g: &mut Generator, points: &[Point], pairs: &[Pair]) -> Vec<Pair> {
    let mut pairs = edges_of(points, pairs);
    shuffle(g, &mut pairs);
    pairs
}

/// Numbers that go outwards from 0, one up, the next down.
fn outwards(n: usize) -> impl Iterator<Item = i32> {
    (0..n as i32 - 3).map(|k| if k % 2 == 0 { k / 2 } else { -k / 2 - 1 })
}

/// So many points on a line, from its middle outwards, one on the right, the next on the left. The triangles at
/// the line are thin and stand side by side, and the walk from each point to the next enters all on one side of it.
pub fn zigzag(n: usize) -> Vec<Point> {
    let on = outwards(n).map(|k| (3 * k, -6000));
    GREAT[2].into_iter().chain(on).collect()
}

/// So many points in two columns, in turn: the right one grows upwards and the left one downwards. Each point sees
/// very many of the other column.
pub fn columns(n: usize) -> Vec<Point> {
    let on = outwards(n).map(|k| match k {
        0.. => (2000, 2 * k - 5000),
        _ => (-2000, 2 * k - 904),
    });
    GREAT[2].into_iter().chain(on).collect()
}

/// So many points on a bow that all see corner 2, in order, and the pairs from that corner to each of them, shuffled:
/// all are edges, but a search around the corner passes very many triangles.
pub fn wide_fan(g: &mut Generator, n: usize) -> (Vec<Point>, Vec<Pair>) {
    let mut points = vec![(-REACH, 0), (REACH, 0), (0, REACH)];
    let half = (n as i32 - 3) / 2;
    points.extend((-half..n as i32 - 3 - half).map(|x| (x, 1000 - x * x / 100_000)));
    let mut pairs: Vec<Pair> = (3..n as u32).map(|p| (2, p)).collect();
    shuffle(g, &mut pairs);
    (points, pairs)
}

/// So many segments over each other, the lowest first, and above them the rest of the n points in a row. All of the
/// row see the ends of the segment that was last recovered, so that the next one crosses an edge to each of them, and
/// each corner that its filling chooses is the last of the row.
pub fn stack(n: usize, segments: usize) -> (Vec<Point>, Vec<Pair>) {
    let mut points = GREAT[2].to_vec();
    let row = (n - 3 - 2 * segments) as i32;
    let mut pairs = Vec::new();
    for y in 0..segments as i32 {
        let at = points.len() as u32;
        points.extend([(-row, y - 5000), (row, y - 5000)]);
        pairs.push((at, at + 1));
    }
    let above = segments as i32 - 4999;
    points.extend((0..row).map(|k| (2 * k - row + 1, above)));
    (points, pairs)
}

// Figures with a fault.

/// The figure with one or two faults, or by chance with none.
pub fn spoiled(g: &mut Generator, figure: &Figure) -> Figure {
    let mut figure = figure.clone();
    figure.name = format!("{}, spoiled", figure.name);
    for _ in 0..g.within(1, 2) {
        spoil(g, &mut figure);
    }
    figure
}

/// The same, and at times with too few or too many points or pairs.
#[cfg(any(feature = "ours", feature = "hosted"))]
pub fn spoiled_counts(g: &mut Generator, figure: &Figure) -> Figure {
    let mut figure = spoiled(g, figure);
    match g.within(0, 95) {
        0 => figure.points.truncate(g.within(0, 5) as usize),
        1 => {
            let many = MOST_POINTS as i64 + g.within(1, 100);
            figure.points.resize(2 * many as usize, 0);
        }
        2 => {
            let many = MOST_PAIRS as i64 + g.within(0, 100);
            figure.pairs.resize(2 * many as usize, 0);
        }
        _ => {}
    }
    figure
}

fn spoil(g: &mut Generator, figure: &mut Figure) {
    let (n, m) = (figure.points.len() / 2, figure.pairs.len() / 2);
    let any = |g: &mut Generator, count: usize| g.within(0, count as i64 - 1) as usize;
    if n < 3 {
        return;
    }
    let p = any(g, n);
    // Most of the faults are of the pairs, since the earlier rows hide the later ones.
    match g.within(0, 15) {
        0 => {
            figure.points.pop();
        }
        1 => {
            figure.pairs.pop();
        }
        2 | 3 => {
            let far = g.pick(&[REACH + 1, -REACH - 1, i32::MAX, i32::MIN, 20_000]);
            figure.points[2 * p + any(g, 2)] = far;
        }
        4 => {
            // No area: corner 2 onto corner 1, or between the first two.
            for k in 0..2 {
                let (a, b) = (figure.points[k], figure.points[2 + k]);
                figure.points[4 + k] = if p % 2 == 0 { b } else { a / 2 + b / 2 };
            }
        }
        5 => {
            figure.points[2 * p] = g.whole(-REACH, REACH);
            figure.points[2 * p + 1] = g.whole(-REACH, REACH);
        }
        6 => {
            let q = any(g, n);
            figure.points[2 * p] = figure.points[2 * q];
            figure.points[2 * p + 1] = figure.points[2 * q + 1];
        }
        7 if m > 0 => {
            let place = any(g, 2 * m);
            figure.pairs[place] = g.pick(&[n as u32, n as u32 + 1, u32::MAX]);
        }
        8 if m > 0 => {
            let k = any(g, m);
            figure.pairs[2 * k] = figure.pairs[2 * k + 1];
        }
        _ => {
            // Any pair, which often is blocked or crosses another.
            let place = 2 * any(g, m + 1);
            for _ in 0..2 {
                figure.pairs.insert(place, any(g, n) as u32);
            }
        }
    }
}
