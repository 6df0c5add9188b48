//! The eight sheet rules in the requirement's words: a second implementation, of plain loops over a
//! sorted list of edges.

use crate::plane::{area2, circle, orient, pairs_of, points_of, Point};

/// The lowest broken rule, or 0 where the list is a sheet. The points and the pairs have passed the
/// table's checks, and the length of the list is a multiple of 3.
pub fn lowest_broken_rule(points: &[i32], pairs: &[u32], list: &[u32]) -> u32 {
    assert!(list.len() % 3 == 0, "a list of whole triples is asked for");
    let sheet = Sheet::new(points_of(points), pairs_of(pairs), list);
    let rules: [fn(&Sheet) -> bool; 8] = [
        Sheet::has_triangles,
        Sheet::has_each_edge_once,
        Sheet::has_reverses,
        Sheet::has_every_point,
        Sheet::has_the_area,
        Sheet::has_the_pairs,
        Sheet::is_at_rest,
        Sheet::is_in_house_order,
    ];
    // A rule is asked only where those before it are kept.
    let broken = rules.iter().position(|rule| !rule(&sheet));
    broken.map_or(0, |place| place as u32 + 1)
}

/// A directed edge: its ends, and the triple's third corner.
type Edge = (u32, u32, u32);

struct Sheet {
    points: Vec<Point>,
    pairs: Vec<(u32, u32)>,
    triples: Vec<[u32; 3]>,
    /// The edges of all triples, sorted.
    edges: Vec<Edge>,
    /// The pairs, the lower number first, sorted.
    marks: Vec<(u32, u32)>,
    /// For each point its place in order of x, then y.
    ranks: Vec<usize>,
}

impl Sheet {
    fn new(points: Vec<Point>, pairs: Vec<(u32, u32)>, list: &[u32]) -> Sheet {
        let triples: Vec<[u32; 3]> = list.chunks_exact(3).map(|t| [t[0], t[1], t[2]]).collect();
        let around = |&[a, b, c]: &[u32; 3]| [(a, b, c), (b, c, a), (c, a, b)];
        let mut edges: Vec<Edge> = triples.iter().flat_map(around).collect();
        edges.sort_unstable();
        let mut marks: Vec<(u32, u32)> = pairs.iter().map(|&(a, b)| (a.min(b), a.max(b))).collect();
        marks.sort_unstable();
        let mut order: Vec<usize> = (0..points.len()).collect();
        order.sort_unstable_by_key(|p| points[*p]);
        let mut ranks = vec![0; points.len()];
        for (rank, point) in order.into_iter().enumerate() {
            ranks[point] = rank;
        }
        Sheet {
            points,
            pairs,
            triples,
            edges,
            marks,
            ranks,
        }
    }

    fn point(&self, number: u32) -> Point {
        self.points[number as usize]
    }

    /// The third corner of the triple that has this directed edge, if one has it.
    fn third(&self, a: u32, b: u32) -> Option<u32> {
        let place = self.edges.partition_point(|e| (e.0, e.1) < (a, b));
        let found = self.edges.get(place)?;
        ((found.0, found.1) == (a, b)).then_some(found.2)
    }

    /// Rule 1: 1 to 2n - 5 triples of distinct point numbers below n, each strictly counterclockwise.
    fn has_triangles(&self) -> bool {
        let n = self.points.len();
        (1..=2 * n - 5).contains(&self.triples.len())
            && self.triples.iter().all(|&[a, b, c]| {
                [a, b, c].iter().all(|v| (*v as usize) < n)
                    && a != b
                    && b != c
                    && c != a
                    && orient(self.point(a), self.point(b), self.point(c)) > 0
            })
    }

    /// Rule 2: no directed edge stands in two triples.
    fn has_each_edge_once(&self) -> bool {
        let same = |w: &[Edge]| (w[0].0, w[0].1) == (w[1].0, w[1].1);
        !self.edges.windows(2).any(same)
    }

    /// Rule 3: the reverse of each directed edge is in a triple, or the edge lies along a side of the
    /// base.
    fn has_reverses(&self) -> bool {
        self.edges
            .iter()
            .all(|&(a, b, _)| self.third(b, a).is_some() || self.is_along_a_side(a, b))
    }

    /// Whether both ends lie on one side. No point is outside the base, so its line is enough.
    fn is_along_a_side(&self, a: u32, b: u32) -> bool {
        [(0, 1), (1, 2), (2, 0)].iter().any(|&(c, d)| {
            let on = |p| orient(self.point(c), self.point(d), self.point(p)) == 0;
            on(a) && on(b)
        })
    }

    /// Rule 4: every point is a corner of some triple.
    fn has_every_point(&self) -> bool {
        let mut met = vec![false; self.points.len()];
        for v in self.triples.iter().flatten() {
            met[*v as usize] = true;
        }
        met.iter().all(|met| *met)
    }

    /// Rule 5: twice the areas of the triples sum to twice the base's area.
    fn has_the_area(&self) -> bool {
        let of = |&[a, b, c]: &[u32; 3]| area2(self.point(a), self.point(b), self.point(c));
        self.triples.iter().map(of).sum::<i64>() == of(&[0, 1, 2]).abs()
    }

    /// Rule 6: each pair is an edge.
    fn has_the_pairs(&self) -> bool {
        let has = |&(a, b): &(u32, u32)| self.third(a, b).or(self.third(b, a)).is_some();
        self.pairs.iter().all(has)
    }

    /// Rule 7: each inner edge that is no pair: step 3 would not flip it.
    fn is_at_rest(&self) -> bool {
        self.edges.iter().all(|&(a, b, c)| match self.third(b, a) {
            Some(d) => {
                let marked = self.marks.binary_search(&(a.min(b), a.max(b))).is_ok();
                marked || !self.would_flip(a, b, c, d)
            }
            None => true,
        })
    }

    /// Step 3 for an unmarked edge ab with far corners c and d, of the triples abc and bad.
    fn would_flip(&self, a: u32, b: u32, c: u32, d: u32) -> bool {
        let [pa, pb, pc, pd] = [a, b, c, d].map(|v| self.point(v));
        let rank_pair = |u: u32, v: u32| {
            let (u, v) = (self.ranks[u as usize], self.ranks[v as usize]);
            (u.min(v), u.max(v))
        };
        let wanted = match circle(pa, pb, pc, pd) {
            1 => true,
            0 => rank_pair(c, d) < rank_pair(a, b),
            _ => false,
        };
        wanted && orient(pa, pd, pc) > 0 && orient(pd, pb, pc) > 0
    }

    /// Rule 8: house order, no triple twice.
    fn is_in_house_order(&self) -> bool {
        self.triples.iter().all(|&[a, b, c]| a < b && a < c)
            && self.triples.windows(2).all(|w| w[0] < w[1])
    }
}

#[cfg(test)]
mod tests {
    use super::*;
    use crate::cutting::original_triangulate;
    use crate::table::{output_room, refusal, working_room};

    /// The requirement's sheet: the original gives it, the table refuses nothing, the rules accept.
    fn expect(points: &[i32], pairs: &[u32], sheet: &[[u32; 3]]) {
        let n = points.len() / 2;
        let refused = refusal(points, pairs, output_room(n), working_room(n));
        assert_eq!(refused, None);
        let theirs = original_triangulate(&points_of(points), &pairs_of(pairs));
        assert_eq!(theirs.as_deref(), Ok(sheet));
        assert_eq!(lowest_broken_rule(points, pairs, sheet.as_flattened()), 0);
    }

    const P5: [i32; 14] = [0, 0, 8, 0, 0, 8, 1, 1, 3, 1, 3, 3, 1, 3];
    const P5_SHEET: [[u32; 3]; 9] = [
        [0, 1, 4],
        [0, 3, 6],
        [0, 4, 3],
        [0, 6, 2],
        [1, 2, 5],
        [1, 5, 4],
        [2, 6, 5],
        [3, 4, 5],
        [3, 5, 6],
    ];

    #[test]
    fn the_sheets_of_the_requirement() {
        expect(&[0, 0, 8, 0, 0, 8], &[], &[[0, 1, 2]]);
        expect(&[0, 0, 0, 8, 8, 0], &[], &[[0, 2, 1]]);
        expect(
            &[0, 0, 8, 0, 0, 8, 2, 2],
            &[],
            &[[0, 1, 3], [0, 3, 2], [1, 2, 3]],
        );
        expect(&[0, 0, 8, 0, 0, 8, 4, 0], &[], &[[0, 3, 2], [1, 2, 3]]);
        expect(&P5, &[], &P5_SHEET);
        let mut p6 = P5_SHEET;
        p6[7..].copy_from_slice(&[[3, 4, 6], [4, 5, 6]]);
        expect(&P5, &[4, 6], &p6);
        expect(&P5, &[6, 4, 4, 6], &p6);
    }

    #[test]
    fn the_original_panics_where_the_table_refuses() {
        let p4 = [(0, 0), (8, 0), (0, 8), (4, 0)];
        assert!(original_triangulate(&p4, &[(0, 1)]).is_err());
        let crossing = original_triangulate(&points_of(&P5), &[(4, 6), (3, 5)]);
        assert!(crossing.is_err());
        assert!(original_triangulate(&[(0, 0), (4, 4), (8, 8)], &[]).is_err());
    }

    /// P5's sheet with a change breaks this rule first.
    fn breaks(rule: u32, points: &[i32], pairs: &[u32], change: impl FnOnce(&mut Vec<[u32; 3]>)) {
        let mut list = P5_SHEET.to_vec();
        change(&mut list);
        assert_eq!(lowest_broken_rule(points, pairs, list.as_flattened()), rule);
    }

    #[test]
    fn each_rule_can_be_broken() {
        breaks(1, &P5, &[], |list| list.clear());
        breaks(1, &P5, &[], |list| list.push([0, 1, 2]));
        breaks(1, &P5, &[], |list| list[8] = [3, 5, 7]);
        breaks(1, &P5, &[], |list| list[8] = [3, 3, 5]);
        breaks(1, &P5, &[], |list| list[8] = [3, 6, 5]);
        breaks(2, &P5, &[], |list| list[8] = [3, 4, 5]);
        breaks(3, &P5, &[], |list| {
            list.pop();
        });
        // The base alone has the area and the sides, and leaves the other points out.
        breaks(4, &P5, &[], |list| *list = vec![[0, 1, 2]]);
        breaks(6, &P5, &[4, 6], |_| ());
        breaks(7, &P5, &[], |list| {
            list[7..].copy_from_slice(&[[3, 4, 6], [4, 5, 6]]);
        });
        breaks(8, &P5, &[], |list| list.swap(0, 1));
        breaks(8, &P5, &[], |list| list[8] = [5, 6, 3]);
        breaks(0, &P5, &[], |_| ());
        breaks(0, &P5, &[3, 5, 5, 3], |_| ());
    }

    #[test]
    fn a_base_that_is_covered_twice_breaks_rule_5() {
        // One cover is the base itself. The other halves each side, so no edge is in both.
        let points = [0, 0, 4, 0, 0, 4, 2, 0, 2, 2, 0, 2];
        let twice = [[0, 1, 2], [0, 3, 5], [1, 4, 3], [2, 5, 4], [3, 4, 5]];
        assert_eq!(lowest_broken_rule(&points, &[], twice.as_flattened()), 5);
        // The other alone has the area, and is only not at rest: 0, 3, 4 and 5 are on a circle.
        let once = &twice[1..];
        assert_eq!(lowest_broken_rule(&points, &[], once.as_flattened()), 7);
    }
}
