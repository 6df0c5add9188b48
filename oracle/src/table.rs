//! The table of refusals, numbers 1 to 10, in the requirement's words: a second implementation, of
//! plain loops. Number 11 depends on the building steps and is not here.

use crate::plane::{
    in_closed, orient, pairs_of, points_of, properly_cross, strictly_within, Point,
};

/// The limits of the table.
pub const MOST_POINTS: usize = 4096;
pub const MOST_PAIRS: usize = 12288;
pub const REACH: i32 = 8192;

/// The room that n points need in the output and in the working area, in numbers.
pub fn output_room(n: usize) -> usize {
    3 * (2 * n - 5)
}
pub fn working_room(n: usize) -> usize {
    64 * n
}

/// The refusal and its place, or nothing where the data pass all ten checks. The lengths are those of
/// the output and of the working area. Each test runs over the whole input before the next.
pub fn refusal(
    points: &[i32],
    pairs: &[u32],
    out_len: usize,
    work_len: usize,
) -> Option<(u32, u32)> {
    if points.len() % 2 == 1 || pairs.len() % 2 == 1 {
        return Some((1, 0));
    }
    let (points, pairs) = (points_of(points), pairs_of(pairs));
    let n = points.len();
    if n < 3 || n > MOST_POINTS || pairs.len() > MOST_PAIRS {
        return Some((2, 0));
    }
    if out_len < output_room(n) || work_len < working_room(n) {
        return Some((3, 0));
    }
    let base = [points[0], points[1], points[2]];
    None.or_else(|| first(4, 0..n, |p| is_far(points[p])))
        .or_else(|| (orient(base[0], base[1], base[2]) == 0).then_some((5, 0)))
        .or_else(|| first(6, 0..n, |p| !in_closed(base, points[p])))
        .or_else(|| first(7, 0..n, |p| points[..p].contains(&points[p])))
        .or_else(|| {
            first(8, 0..pairs.len(), |k| {
                let (a, b) = pairs[k];
                a as usize >= n || b as usize >= n || a == b
            })
        })
        .or_else(|| first(9, 0..pairs.len(), |k| is_blocked(&points, pairs[k])))
        .or_else(|| {
            first(10, 0..pairs.len(), |k| {
                crosses_one(&points, pairs[k], &pairs[..k])
            })
        })
}

/// The refusal with the lowest offending index, if there is one.
fn first(
    number: u32,
    mut places: std::ops::Range<usize>,
    offends: impl Fn(usize) -> bool,
) -> Option<(u32, u32)> {
    let place = places.find(|place| offends(*place))?;
    Some((number, place as u32))
}

fn is_far((x, y): Point) -> bool {
    [x, y].iter().any(|v| *v < -REACH || *v > REACH)
}

/// Whether some point lies strictly inside the pair's segment.
pub fn is_blocked(points: &[Point], (a, b): (u32, u32)) -> bool {
    let (a, b) = (points[a as usize], points[b as usize]);
    points.iter().any(|p| strictly_within(a, b, *p))
}

/// Whether the pair properly crosses one of the others.
pub fn crosses_one(points: &[Point], (a, b): (u32, u32), others: &[(u32, u32)]) -> bool {
    let (a, b) = (points[a as usize], points[b as usize]);
    others
        .iter()
        .any(|(c, d)| properly_cross(a, b, points[*c as usize], points[*d as usize]))
}

#[cfg(test)]
mod tests {
    use super::*;

    const NO_PAIRS: &[u32] = &[];

    /// The refusal with just the room that is needed.
    fn plain(points: &[i32], pairs: &[u32]) -> Option<(u32, u32)> {
        let n = (points.len() / 2).max(3);
        refusal(points, pairs, output_room(n), working_room(n))
    }

    #[test]
    fn the_cases_of_the_requirement() {
        let p4 = [0, 0, 8, 0, 0, 8, 4, 0];
        let p5 = [0, 0, 8, 0, 0, 8, 1, 1, 3, 1, 3, 3, 1, 3];
        assert_eq!(plain(&p4, &[0, 1]), Some((9, 0)));
        assert_eq!(plain(&p5, &[4, 6, 3, 5]), Some((10, 1)));
        assert_eq!(
            plain(&[0, 0, 8, 0, 0, 8, 2, 2, 2, 2], NO_PAIRS),
            Some((7, 4))
        );
        assert_eq!(plain(&p4, NO_PAIRS), None);
        assert_eq!(plain(&p5, &[4, 6, 6, 4, 4, 6]), None);
    }

    #[test]
    fn the_limits() {
        let base = |reach: i32| [-8192, -8192, reach, -8192, -8192, 8192];
        assert_eq!(plain(&base(8192), NO_PAIRS), None);
        assert_eq!(plain(&base(8193), NO_PAIRS), Some((4, 1)));
        assert_eq!(plain(&[0, 0, 8, 0], NO_PAIRS), Some((2, 0)));
        let row = |n: i32| -> Vec<i32> {
            let inner = (3..n).flat_map(|k| [-8100 + k % 90, -8100 + k / 90]);
            base(8192).into_iter().chain(inner).collect()
        };
        assert_eq!(plain(&row(4096), NO_PAIRS), None);
        assert_eq!(plain(&row(4097), NO_PAIRS), Some((2, 0)));
        let many = |m: usize| [0, 1].repeat(m);
        assert_eq!(plain(&base(8192), &many(12288)), None);
        assert_eq!(plain(&base(8192), &many(12289)), Some((2, 0)));
    }

    #[test]
    fn the_rooms() {
        let base = [0, 0, 8, 0, 0, 8];
        assert_eq!(refusal(&base, NO_PAIRS, 3, 192), None);
        assert_eq!(refusal(&base, NO_PAIRS, 2, 192), Some((3, 0)));
        assert_eq!(refusal(&base, NO_PAIRS, 3, 191), Some((3, 0)));
    }

    #[test]
    fn the_order_of_the_tests() {
        // Each has a fault that a later row names too, at a lower place.
        assert_eq!(plain(&[0, 0, 0], &[0, 1, 2]), Some((1, 0)));
        assert_eq!(plain(&[0, 0, 4, 4, 8, 8, 0, 9000], &[0]), Some((1, 0)));
        assert_eq!(plain(&[0, 0, 4, 4, 8, 8, 0, 9000], &[0, 0]), Some((4, 3)));
        assert_eq!(plain(&[0, 0, 4, 4, 8, 8, 9, 0], &[0, 0]), Some((5, 0)));
        assert_eq!(
            plain(&[0, 0, 8, 0, 0, 8, 0, 0, 9, 0], &[0, 0]),
            Some((6, 4))
        );
        assert_eq!(
            plain(&[0, 0, 8, 0, 0, 8, 4, 0, 4, 0], &[0, 0]),
            Some((7, 4))
        );
        assert_eq!(
            plain(&[0, 0, 8, 0, 0, 8, 4, 0], &[0, 1, 1, 4]),
            Some((8, 1))
        );
        assert_eq!(
            plain(&[0, 0, 8, 0, 0, 8, 4, 0], &[0, 1, 2, 2]),
            Some((8, 1))
        );
    }

    #[test]
    fn coordinates_of_any_size_are_tested() {
        let far = [i32::MIN, i32::MAX, 8, 0, 0, 8];
        assert_eq!(plain(&far, NO_PAIRS), Some((4, 0)));
    }

    #[test]
    fn a_touch_is_no_proper_crossing() {
        let points = [0, 0, 8, 0, 0, 8, 2, 2, 4, 2, 3, 2, 3, 4];
        // 3 to 4 has 5 strictly inside; 5 to 6 stands on it.
        assert_eq!(plain(&points, &[5, 6, 3, 4]), Some((9, 1)));
        assert_eq!(plain(&points, &[5, 6, 3, 5, 5, 4]), None);
    }
}
