//! The data that the program `replay` of the project goes through without any Rust: figures, and for
//! each what the oracle answers. `oracle/replay > crates/replay/data/answers.txt` makes them anew.
//!
//! The figures are those of `figures.rs`, in the order of their numbers, and one is taken where it has
//! something of which there is not yet enough: its family with its kind of pairs, or one of the
//! building's steps, which `steps_of` finds. The refused ones are made by `figures::spoiled`, by taking
//! points away, or by lending too little room, until each row of the table has enough. So the data
//! depend on no clock and on no machine.
//!
//! The answer to a sheet is the original's triangles in house order. The answer to a refused figure is
//! the row and the place by the table; where the original panics for such a fault, it is asked too, and
//! must panic.
//!
//! The text has white space between its words, which are numbers: the number of cases, and for each case
//! how many coordinates and how many numbers of pairs there are, the lengths of the output and of the
//! working area, and the number of triangles, which is 0 for a refusal; then the coordinates, the numbers of
//! the pairs, and three numbers for each triangle, or the row and the place.

use std::collections::HashMap;
use std::fmt::Write;
use std::process::ExitCode;

use crate::cutting::original_triangulate;
use crate::figures::{figure, spoiled, Figure, Pair};
use crate::generator::Generator;
use crate::plane::{circle, in_closed, orient, pairs_of, points_of, Point};
use crate::table::{crosses_one, output_room, refusal, working_room};

/// The greatest number of points, so that the data stay small.
const MOST: usize = 24;

/// What the program lends: the lengths of its lists.
const LENT: Lent = Lent {
    coordinates: 64,
    numbers: 512,
    out: 256,
    work: 2048,
};

struct Lent {
    coordinates: usize,
    numbers: usize,
    out: usize,
    work: usize,
}

/// How many figures of a family and a kind of pairs are taken, of a shape, for a step and for a row.
const OF_A_KIND: usize = 2;
const OF_A_SHAPE: usize = 20;
const OF_A_STEP: usize = 12;
const OF_A_ROW: usize = 12;

/// So many pairs are many: rows 9 and 10 then take the points in order, and as many refusals by them are
/// taken once more.
const MANY: usize = 32;

/// The steps and turns of the building that the data have to show.
const STEPS: [&str; 13] = [
    "a point inside a triangle",
    "a point on an edge between two triangles",
    "a point on a side of the base",
    "a tie: four points on a circle at an edge",
    "a clockwise base",
    "a pair that is an edge already",
    "a pair again",
    "a corridor of two triangles",
    "a corridor of six triangles or more",
    "a marked edge at the rim of a cavity",
    "a marked edge that hangs in a cavity",
    "a corner that the rim of a cavity meets twice",
    "a marked edge that the circle would flip",
];

/// A case: a figure, the lengths of the lent lists, and the oracle's answer.
struct Case {
    figure: Figure,
    out: usize,
    work: usize,
    answer: Answer,
}

enum Answer {
    Sheet(Vec<[u32; 3]>),
    Refused(u32, u32),
}

/// All the data, and how much there is of what.
struct Data {
    cases: Vec<Case>,
    /// By family and kind of pairs, or by shape.
    kinds: HashMap<String, usize>,
    steps: [usize; STEPS.len()],
    rows: [usize; 11],
}

/// Prints the data, and says elsewhere what they hold.
pub fn print() -> ExitCode {
    let data = data();
    print!("{}", text(&data));
    eprint!("{}", census(&data));
    ExitCode::SUCCESS
}

fn data() -> Data {
    let mut data = Data {
        cases: Vec::new(),
        kinds: HashMap::new(),
        steps: [0; STEPS.len()],
        rows: [0; 11],
    };
    add_sheets(&mut data);
    for row in 1..=10 {
        add_refusals(&mut data, row, 0);
    }
    for row in 9..=10 {
        add_refusals(&mut data, row, MANY);
    }
    data
}

// The text.

fn text(data: &Data) -> String {
    let mut text = format!("{}\n", data.cases.len());
    for case in &data.cases {
        let (points, pairs) = (&case.figure.points, &case.figure.pairs);
        let (a, b) = (points.len(), pairs.len());
        assert!(
            a <= LENT.coordinates
                && b <= LENT.numbers
                && case.out <= LENT.out
                && case.work <= LENT.work
        );
        let (triangles, answer) = match &case.answer {
            Answer::Sheet(sheet) => (sheet.len(), line(sheet.as_flattened())),
            Answer::Refused(row, place) => (0, line(&[*row, *place])),
        };
        writeln!(text, "{a} {b} {} {} {triangles}", case.out, case.work).unwrap();
        text.push_str(&line(points));
        text.push_str(&line(pairs));
        text.push_str(&answer);
    }
    text
}

/// The numbers in a line, or no line where there are none.
fn line<T: ToString>(numbers: &[T]) -> String {
    if numbers.is_empty() {
        return String::new();
    }
    let words: Vec<String> = numbers.iter().map(T::to_string).collect();
    words.join(" ") + "\n"
}

fn census(data: &Data) -> String {
    let mut said = format!("{} cases: {} sheets", data.cases.len(), data.rows[0]);
    for (row, count) in data.rows.iter().enumerate().skip(1) {
        write!(said, ", {count} by refusal {row}").unwrap();
    }
    said.push('\n');
    let mut kinds: Vec<_> = data.kinds.iter().collect();
    kinds.sort_unstable();
    for (kind, count) in kinds {
        writeln!(said, "{count:4} {kind}").unwrap();
    }
    for (step, count) in STEPS.iter().zip(data.steps) {
        writeln!(said, "{count:4} with {step}").unwrap();
    }
    said
}

// Sheets.

fn add_sheets(data: &mut Data) {
    let full = |data: &Data| {
        // The families with each kind of pairs, and the shapes.
        let (families, shapes): (Vec<_>, Vec<_>) =
            data.kinds.iter().partition(|(kind, _)| kind.contains(','));
        families.len() == 6 * crate::figures::FAMILIES.len()
            && families.iter().all(|(_, count)| **count >= OF_A_KIND)
            && shapes.len() == crate::figures::SHAPES.len()
            && shapes.iter().all(|(_, count)| **count >= OF_A_SHAPE)
            && data.steps.iter().all(|count| *count >= OF_A_STEP)
    };
    for number in 0.. {
        if full(data) {
            return;
        }
        assert!(number < 100_000, "the figures do not show every step");
        add_sheet(data, figure(number, MOST));
    }
}

fn add_sheet(data: &mut Data, figure: Figure) {
    let count = data.kinds.get(&figure.name).copied().unwrap_or(0);
    let most = if figure.name.contains(',') {
        OF_A_KIND
    } else {
        OF_A_SHAPE
    };
    // The first of a kind may be small.
    let least = if count == 0 { 4 } else { 9 };
    let (points, pairs) = (points_of(&figure.points), pairs_of(&figure.pairs));
    let wanted = count < most && points.len() >= least;
    let has = steps_of(&points, &pairs);
    let lacking = (0..STEPS.len()).any(|k| has[k] && data.steps[k] < OF_A_STEP);
    if !wanted && !lacking {
        return;
    }
    let n = points.len();
    let (more_out, more_work) = more(data.cases.len());
    let (out, work) = (output_room(n) + more_out, working_room(n) + more_work);
    assert_eq!(refusal(&figure.points, &figure.pairs, out, work), None);
    let sheet = original_triangulate(&points, &pairs).expect("the original cuts the figure");
    *data.kinds.entry(figure.name.clone()).or_default() += 1;
    for (count, has) in data.steps.iter_mut().zip(has) {
        *count += has as usize;
    }
    data.rows[0] += 1;
    let answer = Answer::Sheet(sheet);
    data.cases.push(Case {
        figure,
        out,
        work,
        answer,
    });
}

/// How much longer than needed the output and the working area are: mostly not at all.
fn more(case: usize) -> (usize, usize) {
    [(0, 0), (0, 0), (5, 0), (0, 7), (1, 1), (0, 0), (12, 64)][case % 7]
}

/// Which of the steps the cutting of this figure takes.
fn steps_of(points: &[Point], pairs: &[Pair]) -> [bool; STEPS.len()] {
    let mut has = [false; STEPS.len()];
    let cut = |points: &[Point], pairs: &[Pair]| {
        original_triangulate(points, pairs).expect("the original cuts the figure")
    };
    for k in 3..points.len() {
        has[place_of(points, &cut(&points[..k], &[]), points[k])] = true;
    }
    has[4] = orient(points[0], points[1], points[2]) < 0;
    for (k, pair) in pairs.iter().enumerate() {
        let (a, b) = *pair;
        if pairs[..k].contains(&(a, b)) || pairs[..k].contains(&(b, a)) {
            has[6] = true;
            continue;
        }
        let sheet = cut(points, &pairs[..k]);
        cavity_of(points, &pairs[..k], *pair, &sheet, &mut has);
    }
    let sheet = cut(points, pairs);
    for (edge, c, d) in inner_edges(&sheet) {
        let at = |p: u32| points[p as usize];
        let sign = circle(at(edge.0), at(edge.1), at(c), at(d));
        has[3] |= sign == 0;
        has[12] |= sign > 0 && is_in(edge, pairs);
    }
    has
}

/// Where a point lies in a sheet: step 0, 1 or 2.
fn place_of(points: &[Point], sheet: &[[u32; 3]], p: Point) -> usize {
    let holding: Vec<[Point; 3]> = sheet
        .iter()
        .map(|t| t.map(|v| points[v as usize]))
        .filter(|t| in_closed(*t, p))
        .collect();
    let is_on_edge = (0..3).any(|k| orient(holding[0][k], holding[0][(k + 1) % 3], p) == 0);
    match (holding.len(), is_on_edge) {
        (1, false) => 0,
        (2, true) => 1,
        (1, true) => 2,
        _ => panic!("a new point is inside one triangle, or on an edge of one or two"),
    }
}

/// What the recovery of the pair meets in the sheet that has the other pairs.
fn cavity_of(points: &[Point], others: &[Pair], pair: Pair, sheet: &[[u32; 3]], has: &mut [bool]) {
    let segment = [pair];
    let crossed: Vec<[u32; 3]> = sheet
        .iter()
        .copied()
        .filter(|t| sides(t).iter().any(|e| crosses_one(points, *e, &segment)))
        .collect();
    let mut count: HashMap<Pair, usize> = HashMap::new();
    for (a, b) in crossed.iter().flat_map(sides) {
        *count.entry((a.min(b), a.max(b))).or_default() += 1;
    }
    let mut met: HashMap<u32, usize> = HashMap::new();
    for (edge, count) in count {
        has[9] |= count == 1 && is_in(edge, others);
        has[10] |= count == 2 && is_in(edge, others);
        if count == 1 {
            *met.entry(edge.0).or_default() += 1;
            *met.entry(edge.1).or_default() += 1;
        }
    }
    has[11] |= met.values().any(|count| *count > 2);
    has[5] |= crossed.is_empty();
    has[7] |= crossed.len() == 2;
    has[8] |= crossed.len() >= 6;
}

fn sides(&[a, b, c]: &[u32; 3]) -> [Pair; 3] {
    [(a, b), (b, c), (c, a)]
}

fn is_in((a, b): Pair, pairs: &[Pair]) -> bool {
    pairs.contains(&(a, b)) || pairs.contains(&(b, a))
}

/// The edges between two triangles, each with the corner on its left and then the one on its right.
fn inner_edges(sheet: &[[u32; 3]]) -> Vec<(Pair, u32, u32)> {
    let across: HashMap<Pair, u32> = sheet
        .iter()
        .flat_map(|&[a, b, c]| [((a, b), c), ((b, c), a), ((c, a), b)])
        .collect();
    let mut edges: Vec<(Pair, u32, u32)> = across
        .iter()
        .filter(|((a, b), _)| a < b)
        .filter_map(|(&(a, b), c)| across.get(&(b, a)).map(|d| ((a, b), *c, *d)))
        .collect();
    edges.sort_unstable();
    edges
}

// Refusals.

/// Figures with so many pairs at least that the table refuses by this row, each from another kind where
/// no number of pairs is asked for.
fn add_refusals(data: &mut Data, row: u32, least: usize) {
    let enough = data.rows[row as usize] + OF_A_ROW;
    let mut kinds = Vec::new();
    for number in 0.. {
        if data.rows[row as usize] == enough {
            return;
        }
        assert!(number < 100_000, "the figures do not show every row");
        let sound = figure(number, MOST);
        let kind = sound.name.clone();
        if least == 0 && kinds.contains(&kind) {
            continue;
        }
        let g = &mut Generator::new(!number);
        let case = refused(g, data.rows[row as usize], row, &sound);
        // The least number is beyond what the program reads as a coordinate.
        if case.figure.pairs.len() < 2 * least
            || case.figure.points.contains(&i32::MIN)
            || !matches!(case.answer, Answer::Refused(found, _) if found == row)
        {
            continue;
        }
        if matches!(row, 5 | 6 | 8..=10) {
            let theirs = original_triangulate(
                &points_of(&case.figure.points),
                &pairs_of(&case.figure.pairs),
            );
            assert!(theirs.is_err(), "the original panics by row {row}");
        }
        kinds.push(kind);
        data.rows[row as usize] += 1;
        data.cases.push(case);
    }
}

/// A figure made from this one, which the table may refuse by the row.
fn refused(g: &mut Generator, turn: usize, row: u32, sound: &Figure) -> Case {
    let mut figure = match row {
        // Some with no other fault, and some with others, of which the lower row is answered.
        2 | 3 if turn % 3 != 2 => sound.clone(),
        _ => spoiled(g, sound),
    };
    if row == 2 {
        figure.points.truncate(2 * (turn % 3));
    }
    let n = (figure.points.len() / 2).max(3);
    let (out, work) = (output_room(n), working_room(n));
    let (out, work) = match (row, turn % 6) {
        (3, 0) => (out - 1, work),
        (3, 1) => (out, work - 1),
        (3, 2) => (out - 1, work - 1),
        (3, 3) => (0, work),
        (3, 4) => (out, 0),
        (3, _) => (out / 2, work + 1),
        // The rows before it hide that there is no room.
        (1 | 2, 2 | 5) => (0, 0),
        _ => {
            let (more_out, more_work) = more(turn);
            (out + more_out, work + more_work)
        }
    };
    let answer = match refusal(&figure.points, &figure.pairs, out, work) {
        Some((row, place)) => Answer::Refused(row, place),
        None => Answer::Sheet(Vec::new()),
    };
    Case {
        figure,
        out,
        work,
        answer,
    }
}

#[cfg(test)]
mod tests {
    use super::*;

    #[test]
    fn every_kind_and_step_and_row_is_among_the_data() {
        let data = data();
        assert!(data.kinds.values().all(|count| *count >= OF_A_KIND));
        assert!(data.steps.iter().all(|count| *count >= OF_A_STEP));
        assert!(data.rows[1..9].iter().all(|count| *count == OF_A_ROW));
        assert!(data.rows[9..].iter().all(|count| *count == 2 * OF_A_ROW));
    }

    #[test]
    fn the_data_of_the_program_are_these() {
        let path = concat!(
            env!("CARGO_MANIFEST_DIR"),
            "/../crates/replay/data/answers.txt"
        );
        let kept = std::fs::read_to_string(path).expect("the data of the program");
        assert!(kept == text(&data()), "oracle/replay gives other data");
    }
}
