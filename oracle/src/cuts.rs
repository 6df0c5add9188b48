//! The original's `triangulate` against the second implementation of the table and of the rules, on
//! figures; and, with the feature `ours` or `hosted`, the project's own cutter against both.

use crate::cutting::original_triangulate;
#[cfg(any(feature = "ours", feature = "hosted"))]
use crate::figures::spoiled_counts;
use crate::figures::{figure, spoiled, Figure};
use crate::generator::Generator;
#[cfg(any(feature = "ours", feature = "hosted"))]
use crate::ours;
use crate::plane::{orient, pairs_of, points_of};
use crate::report::Report;
use crate::rules::lowest_broken_rule;
use crate::table::{output_room, refusal, working_room};

/// The comparisons, in the order in which they run.
pub const COMPARISONS: &[fn(u64, usize) -> Report] = &[
    sheets,
    refusals,
    #[cfg(any(feature = "ours", feature = "hosted"))]
    our_sheets,
    #[cfg(any(feature = "ours", feature = "hosted"))]
    our_refusals,
];

/// The table's word on the figure, with just the room that it needs.
fn refused(figure: &Figure) -> Option<(u32, u32)> {
    let n = (figure.points.len() / 2).max(3);
    refusal(
        &figure.points,
        &figure.pairs,
        output_room(n),
        working_room(n),
    )
}

/// How many triangles the requirement demands: 2n - 2 - h, where h counts the points on the boundary
/// of the base.
fn triangles(points: &[i32]) -> usize {
    let points = points_of(points);
    let on_boundary = |p: &&(i32, i32)| {
        [(0, 1), (1, 2), (2, 0)]
            .iter()
            .any(|(a, b)| orient(points[*a], points[*b], **p) == 0)
    };
    2 * points.len() - 2 - points.iter().filter(on_boundary).count()
}

/// The figure in words, where it is short enough to be of use.
fn words(figure: &Figure) -> String {
    if figure.points.len() > 120 {
        return format!(
            "{}, {} points, {} pairs",
            figure.name,
            figure.points.len() / 2,
            figure.pairs.len() / 2
        );
    }
    format!(
        "{}, points {:?}, pairs {:?}",
        figure.name, figure.points, figure.pairs
    )
}

/// The first so many figures, of at most so many points: the table refuses none, and the original's
/// triangles are as many as demanded and keep the rules.
pub fn sheets(count: u64, most: usize) -> Report {
    let answers = ["with no pairs", "with pairs"];
    let mut report = Report::of(
        "figures",
        "The original's sheets against the rules",
        &answers,
    );
    for number in 0..count {
        let figure = figure(number, most);
        report.expect(!figure.pairs.is_empty() as usize);
        let fault = match refused(&figure) {
            Some((row, place)) => Some(format!("the table refuses it by {row} at {place}")),
            None => {
                match original_triangulate(&points_of(&figure.points), &pairs_of(&figure.pairs)) {
                    Err(said) => Some(format!("the original panics: {said}")),
                    Ok(sheet) => {
                        let list = sheet.as_flattened();
                        match lowest_broken_rule(&figure.points, &figure.pairs, list) {
                            0 if sheet.len() == triangles(&figure.points) => None,
                            0 => Some(format!("the original gives {} triangles", sheet.len())),
                            rule => Some(format!("the original's sheet breaks rule {rule}")),
                        }
                    }
                }
            }
        };
        if let Some(fault) = fault {
            report.differ(|| format!("figure {number} ({}): {fault}.", words(&figure)));
        }
    }
    report
}

/// The first so many figures with faults: the original panics exactly where the table refuses by 5,
/// 6, 8, 9 or 10. By 1 to 4 it has no such limit, and by 7 it ignores the point or stops by a debug
/// assertion, so it is not asked there.
pub fn refusals(count: u64, most: usize) -> Report {
    let answers = ["none", "1", "2", "3", "4", "5", "6", "7", "8", "9", "10"];
    let mut report = Report::of(
        "figures",
        "The original's panics against the table",
        &answers,
    );
    for number in 0..count {
        let g = &mut Generator::new(!number);
        let figure = spoiled(g, &figure(number, most));
        let row = refused(&figure).map_or(0, |(row, _)| row);
        report.expect(row as usize);
        if matches!(row, 1..=4 | 7) {
            continue;
        }
        let theirs = original_triangulate(&points_of(&figure.points), &pairs_of(&figure.pairs));
        if theirs.is_err() != (row != 0) {
            report.differ(|| {
                let theirs = match theirs {
                    Ok(_) => "the original cuts it".to_string(),
                    Err(said) => format!("the original panics: {said}"),
                };
                format!(
                    "figure {number} ({}): the table's row is {row}, and {theirs}.",
                    words(&figure)
                )
            });
        }
    }
    report
}

/// What fills the output and the working area before the project's cutter is asked, so that it is seen
/// what is written.
#[cfg(any(feature = "ours", feature = "hosted"))]
const BEFORE: u32 = 0xdead_beef;

/// How the project's cutter differs from what is expected, if it does. The output and the working area
/// have these lengths.
///
/// Where the table has a row, it answers the row and the place and leaves the output as before.
/// Elsewhere its list is the original's in house order, its checker says yes to the list, and the rest of
/// the output is as before. By rows 1 to 3 the working area is as before, and else what it needs of it
/// is left zero, and the rest as before.
#[cfg(any(feature = "ours", feature = "hosted"))]
fn our_fault(figure: &Figure, out_len: usize, work_len: usize) -> (u32, Option<String>) {
    let (points, pairs) = (&figure.points, &figure.pairs);
    let row = refusal(points, pairs, out_len, work_len);
    let mut out = vec![BEFORE; out_len];
    let mut work = vec![BEFORE; work_len];
    let answer = ours::cut(points, pairs, &mut out, &mut work);
    let (number, value) = ((answer >> 32) as u32, answer as u32);
    let as_before = |list: &[u32]| list.iter().all(|v| *v == BEFORE);
    let early = matches!(number, 1..=3);
    let room = if early { 0 } else { working_room(points.len() / 2) };
    if room > work_len {
        let said = format!("ours answers {number} with too small a working area");
        return (row.map_or(0, |(row, _)| row), Some(said));
    }
    let (used, beyond) = work.split_at_mut(room);
    let left = used.iter().all(|v| *v == 0) && as_before(beyond);
    let fault = match row {
        Some((row, place)) => {
            if (number, value) != (row, place) {
                Some(format!("the table's row is {row} at {place}, and ours answers {number} and {value}"))
            } else if !as_before(&out) || !left {
                Some(format!("the table's row is {row}, and ours leaves its rooms otherwise than promised"))
            } else {
                None
            }
        }
        None if number != 0 => Some(format!("the table has no row, and ours refuses by {number} at {value}")),
        None if 3 * value as usize > out_len => {
            Some(format!("ours gives {value} triangles, more than the output holds"))
        }
        None => {
            let (list, rest) = out.split_at(3 * value as usize);
            let left = left && as_before(rest);
            match original_triangulate(&points_of(points), &pairs_of(pairs)) {
                Err(said) => Some(format!("the original panics: {said}")),
                Ok(theirs) if theirs.as_flattened() != list => Some(format!(
                    "the lists differ, of {} triangles of the original's and {value} of ours",
                    theirs.len()
                )),
                Ok(_) if !left => Some("ours leaves its rooms otherwise than promised".to_string()),
                Ok(_) => match ours::check(points, pairs, list, used) {
                    0 => None,
                    said => Some(format!("the lists agree, and the checker says {said:#x}")),
                },
            }
        }
    };
    (row.map_or(0, |(row, _)| row), fault)
}

/// The first so many figures, of at most so many points: the project's list is the original's.
#[cfg(any(feature = "ours", feature = "hosted"))]
pub fn our_sheets(count: u64, most: usize) -> Report {
    let answers = ["with no pairs", "with pairs"];
    let mut report = Report::of("figures", "Our sheets against the original's", &answers);
    for number in 0..count {
        let figure = figure(number, most);
        report.expect(!figure.pairs.is_empty() as usize);
        let n = figure.points.len() / 2;
        let fault = match our_fault(&figure, output_room(n), working_room(n)) {
            (0, fault) => fault,
            (row, _) => Some(format!("the table refuses it by {row}")),
        };
        if let Some(fault) = fault {
            report.differ(|| format!("figure {number} ({}): {fault}.", words(&figure)));
        }
    }
    report
}

/// The first so many figures with faults: the project's cutter refuses exactly where the table does, with
/// its number and its place, and elsewhere its list is the original's.
#[cfg(any(feature = "ours", feature = "hosted"))]
pub fn our_refusals(count: u64, most: usize) -> Report {
    let answers = ["none", "1", "2", "3", "4", "5", "6", "7", "8", "9", "10"];
    let mut report = Report::of("figures", "Our refusals against the table", &answers);
    for number in 0..count {
        let g = &mut Generator::new(!number);
        let figure = spoiled_counts(g, &figure(number, most));
        let n = (figure.points.len() / 2).max(3);
        // More room than is needed, just enough, or too little.
        let mut room = |needed: usize| match g.within(0, 31) {
            0 => g.within(0, needed as i64 - 1) as usize,
            1 => needed - 1,
            2..=4 => needed + g.within(1, 100) as usize,
            _ => needed,
        };
        let (out_len, work_len) = (room(output_room(n)), room(working_room(n)));
        let (row, fault) = our_fault(&figure, out_len, work_len);
        report.expect(row as usize);
        if let Some(fault) = fault {
            report.differ(|| format!("figure {number} ({}): {fault}.", words(&figure)));
        }
    }
    report
}

#[cfg(test)]
mod tests {
    use super::*;
    use crate::figures::{self, Order, Pair, FAMILIES, SHAPES};
    use crate::plane::Point;
    use crate::table::crosses_one;

    fn expect_no_difference(report: Report) {
        report.print();
        assert!(report.patterns() > 0);
        assert_eq!(report.differences(), 0);
    }

    #[test]
    fn the_original_keeps_the_rules() {
        expect_no_difference(sheets(3000, 300));
    }

    #[test]
    fn the_original_panics_where_the_table_refuses() {
        expect_no_difference(refusals(3000, 100));
    }

    #[cfg(any(feature = "ours", feature = "hosted"))]
    #[test]
    fn our_sheets_are_the_original_s() {
        expect_no_difference(our_sheets(3000, 300));
    }

    #[cfg(any(feature = "ours", feature = "hosted"))]
    #[test]
    fn ours_refuses_where_the_table_does() {
        expect_no_difference(our_refusals(3000, 100));
    }

    #[test]
    fn every_family_gives_figures_of_some_size() {
        let g = &mut Generator::new(1);
        for (name, family) in FAMILIES {
            let most = (0..20).map(|_| family(g, 100).len()).max().unwrap();
            assert!((30..=100).contains(&most), "{name}: {most} points");
        }
        for (name, shape) in SHAPES {
            let most = (0..20).map(|_| shape(g, 100).0.len()).max().unwrap();
            assert!((60..=100).contains(&most), "{name}: {most} points");
        }
    }

    #[test]
    fn a_figure_depends_on_its_number_alone() {
        for number in 0..100 {
            let (one, two) = (figure(number, 200), figure(number, 200));
            assert_eq!((one.points, one.pairs), (two.points, two.pairs));
        }
    }

    #[test]
    fn the_great_grid_is_one_figure() {
        let g = &mut Generator::new(2);
        let points = figures::grid(g, 4096, 100, Order::Rows);
        assert_eq!(points.len(), 4096);
        let figure = Figure::new("grid", &points, &[]);
        assert_eq!(refused(&figure), None);
        let sheet = original_triangulate(&points, &[]).unwrap();
        assert_eq!(
            lowest_broken_rule(&figure.points, &[], sheet.as_flattened()),
            0
        );
        assert_eq!(sheet.len(), triangles(&figure.points));
    }

    #[test]
    fn all_edges_of_a_great_sheet_are_pairs() {
        let g = &mut Generator::new(3);
        let points = figures::uniform_inside(g, 4096);
        let mut pairs = figures::edges_of(&points, &[]);
        assert_eq!(pairs.len(), 3 * 4096 - 6);
        // Some again, up to the greatest number.
        pairs.extend_from_within(..6);
        let figure = Figure::new("edges", &points, &pairs);
        assert_eq!(refused(&figure), None);
        let with = original_triangulate(&points, &pairs).unwrap();
        assert_eq!(with, original_triangulate(&points, &[]).unwrap());
        assert_eq!(
            lowest_broken_rule(&figure.points, &figure.pairs, with.as_flattened()),
            0
        );
    }

    /// How many pairs hang in the cavity of the last pair, which may not be repeated: both triangles of
    /// each are crossed by its segment. And how many triangles are crossed in all.
    fn hanging(points: &[Point], pairs: &[Pair]) -> (usize, usize) {
        let (last, others) = pairs.split_last().expect("a pair is asked for");
        let segment = std::slice::from_ref(last);
        let sheet = original_triangulate(points, others).expect("the original cuts the figure");
        let mut edges = Vec::new();
        let mut crossed = 0;
        for [a, b, c] in sheet {
            let around = [(a, b), (b, c), (c, a)];
            if around.iter().any(|e| crosses_one(points, *e, segment)) {
                crossed += 1;
                edges.extend(around.map(|(a, b)| (a.min(b), a.max(b))));
            }
        }
        let hangs = |&&(a, b): &&Pair| {
            let edge = (a.min(b), a.max(b));
            edges.iter().filter(|e| **e == edge).count() == 2
        };
        (others.iter().filter(hangs).count(), crossed)
    }

    #[test]
    fn a_corridor_is_long() {
        let g = &mut Generator::new(4);
        for n in [40, 400, 4096] {
            let (points, pairs) = figures::corridor(g, n);
            let (_, crossed) = hanging(&points, &pairs);
            assert!(crossed >= n / 4, "{crossed} triangles of {n} points");
        }
    }

    #[test]
    fn pairs_hang_in_pinched_cavities() {
        let g = &mut Generator::new(5);
        for n in [10, 14, 40, 400] {
            let mut most = 0;
            for _ in 0..20 {
                let (points, pairs) = figures::pinched(g, n);
                most = most.max(hanging(&points, &pairs).0);
            }
            assert!(most >= n / 10, "{most} hang among {n} points");
        }
    }
}
