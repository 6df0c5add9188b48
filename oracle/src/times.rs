//! The benchmark of the cutters: the median time of a call, printed and not asserted. It is the processor's time, so
//! that other work on the machine counts for less. The calls take turns on a figure, so that a change of the
//! machine's speed meets them all.
//!
//! With the feature `ours` the project's cutter, its refusal tests alone and its checker are measured too,
//! and it is asserted that its list is the original's in house order and that its checker says yes.
//!
//! A call can also be made alone, so that a program that counts instructions can count those of a call.

use std::hint::black_box;
use std::process::ExitCode;
use std::time::Duration;

use original::robust::cdt::triangulate;
use original::robust::exact::rational::R2;

use crate::cutting::{original_pairs, original_points};
use crate::figures::{
    all_edges, columns, corridor, grid, in_x_order, near_pairs, stack, stretched_edges,
    uniform_inside, wide_fan, zigzag, Figure, Order, Pair,
};
use crate::generator::Generator;
use crate::plane::{pairs_of, points_of, Point};

/// What is measured on a figure. What it needs before it can start is no part of the time.
trait Cutter {
    /// Its name, for the head of the column.
    fn name(&self) -> &'static str;
    /// Takes the figure in, in the form in which it cuts it.
    fn prepare(&mut self, figure: &Figure);
    /// Makes the call. This alone is measured.
    fn call(&mut self);
}

/// The original, on points that are fractions already. Its list is in an order of its own.
#[derive(Default)]
struct Original {
    points: Vec<R2>,
    pairs: Vec<(usize, usize)>,
    list: Vec<[usize; 3]>,
}

impl Cutter for Original {
    fn name(&self) -> &'static str {
        "original"
    }

    fn prepare(&mut self, figure: &Figure) {
        self.points = original_points(&points_of(&figure.points));
        self.pairs = original_pairs(&pairs_of(&figure.pairs));
    }

    fn call(&mut self) {
        self.list = black_box(triangulate(black_box(&self.points), black_box(&self.pairs)));
    }
}

#[cfg(feature = "ours")]
mod linked {
    use super::{black_box, Cutter, Figure, Original};
    use crate::cutting::in_house_order;
    use crate::ours;
    use crate::table::{output_room, working_room};

    /// The project's cutter: the refusal tests, the building, and the list in house order.
    #[derive(Default)]
    pub struct Ours {
        points: Vec<i32>,
        pairs: Vec<u32>,
        out: Vec<u32>,
        work: Vec<u32>,
        answer: u64,
    }

    impl Cutter for Ours {
        fn name(&self) -> &'static str {
            "ours"
        }

        fn prepare(&mut self, figure: &Figure) {
            let n = figure.points.len() / 2;
            self.points = figure.points.clone();
            self.pairs = figure.pairs.clone();
            self.out = vec![0; output_room(n)];
            self.work = vec![0; working_room(n)];
        }

        fn call(&mut self) {
            let (points, pairs) = (black_box(&self.points), black_box(&self.pairs));
            self.answer = black_box(ours::cut(points, pairs, &mut self.out, &mut self.work));
        }
    }

    impl Ours {
        /// How the list differs from the original's.
        pub fn fault(&self, original: &Original) -> Option<String> {
            let theirs = original.list.iter().map(|t| t.map(|v| v as u32)).collect();
            let theirs = in_house_order(theirs);
            let list = self.out.get(..3 * self.answer as usize).unwrap_or(&[]);
            (list != theirs.as_flattened()).then(|| "our list is not the original's".to_string())
        }
    }

    /// The project's refusal tests alone, in which the cutter starts.
    #[derive(Default)]
    pub struct Rows {
        points: Vec<i32>,
        pairs: Vec<u32>,
        work: Vec<u32>,
        row: u32,
    }

    impl Cutter for Rows {
        fn name(&self) -> &'static str {
            "refusals"
        }

        fn prepare(&mut self, figure: &Figure) {
            let n = figure.points.len() / 2;
            self.points = figure.points.clone();
            self.pairs = figure.pairs.clone();
            self.work = vec![0; working_room(n)];
        }

        fn call(&mut self) {
            let (points, pairs) = (black_box(&self.points), black_box(&self.pairs));
            self.row = black_box(ours::rows(points, pairs, &mut self.work));
        }
    }

    impl Rows {
        /// What the tests have against the figure.
        pub fn fault(&self) -> Option<String> {
            (self.row != 0).then(|| format!("the refusal tests say {}", self.row))
        }
    }

    /// The project's checker on the sheet that its cutter made: the refusal tests and the eight rules.
    #[derive(Default)]
    pub struct Check {
        points: Vec<i32>,
        pairs: Vec<u32>,
        list: Vec<u32>,
        work: Vec<u32>,
        said: u64,
    }

    impl Cutter for Check {
        fn name(&self) -> &'static str {
            "check"
        }

        fn prepare(&mut self, figure: &Figure) {
            let mut ours = Ours::default();
            ours.prepare(figure);
            ours.call();
            ours.out.truncate(3 * ours.answer as usize);
            self.points = ours.points;
            self.pairs = ours.pairs;
            self.list = ours.out;
            self.work = ours.work;
        }

        fn call(&mut self) {
            let (points, pairs) = (black_box(&self.points), black_box(&self.pairs));
            let list = black_box(&self.list);
            self.said = black_box(ours::check(points, pairs, list, &mut self.work));
        }
    }

    impl Check {
        /// What the checker has against the list.
        pub fn fault(&self) -> Option<String> {
            (self.said != 0).then(|| format!("the checker says {:#x} to our list", self.said))
        }
    }
}

/// A figure of the benchmark: its name and how it is made.
type Maker = (&'static str, fn(&mut Generator) -> (Vec<Point>, Vec<Pair>));

/// The figures of the benchmark.
const FIGURES: &[Maker] = &[
    ("100 random points", |g| near(g, 100, 0)),
    ("- and 12 pairs", |g| near(g, 100, 12)),
    ("- and 50 pairs", |g| near(g, 100, 50)),
    ("- and 294 pairs, most edges", |g| edges(g, 100)),
    ("- and 294 pairs, few edges", |g| stretched(g, 100)),
    ("1000 random points", |g| near(g, 1000, 0)),
    ("- and 125 pairs", |g| near(g, 1000, 125)),
    ("- and 500 pairs", |g| near(g, 1000, 500)),
    ("- and 2994 pairs, most edges", |g| edges(g, 1000)),
    ("- and 2994 pairs, few edges", |g| stretched(g, 1000)),
    ("4096 random points", |g| near(g, 4096, 0)),
    ("- and 512 pairs", |g| near(g, 4096, 512)),
    ("- and 2048 pairs", |g| near(g, 4096, 2048)),
    ("- and 12282 pairs, most edges", |g| edges(g, 4096)),
    ("- and 12282 pairs, few edges", |g| stretched(g, 4096)),
    ("the grid of 64 by 64, by rows", |g| {
        (grid(g, 4096, 100, Order::Rows), Vec::new())
    }),
    ("the grid of 64 by 64, shuffled", |g| {
        (grid(g, 4096, 100, Order::Shuffled), Vec::new())
    }),
    ("4096 random points in order of x", |g| {
        (in_x_order(g, 4096), Vec::new())
    }),
    ("4096 points on a line, zigzag", |_| {
        (zigzag(4096), Vec::new())
    }),
    ("4096 points in two columns", |_| {
        (columns(4096), Vec::new())
    }),
    ("a fan of 4093 pairs", |g| wide_fan(g, 4096)),
    ("a long corridor, 4096 points", |g| corridor(g, 4096)),
    ("4 long corridors, 4096 points", |_| stack(4096, 4)),
];

/// Random points and so many pairs, few of them edges already, whose corridors are short.
fn near(g: &mut Generator, n: usize, m: usize) -> (Vec<Point>, Vec<Pair>) {
    let points = uniform_inside(g, n);
    let pairs = near_pairs(g, &points, m);
    (points, pairs)
}

/// Random points and all the edges of a sheet that some pairs are in: as many pairs as possible, and most of them
/// are edges without being asked for.
fn edges(g: &mut Generator, n: usize) -> (Vec<Point>, Vec<Pair>) {
    let (points, pairs) = near(g, n, n / 8);
    let pairs = all_edges(g, &points, &pairs);
    (points, pairs)
}

/// The same, but most have to be recovered.
fn stretched(g: &mut Generator, n: usize) -> (Vec<Point>, Vec<Pair>) {
    let points = uniform_inside(g, n);
    let pairs = stretched_edges(g, &points);
    (points, pairs)
}

/// A figure of the benchmark. Each has a generator of its own, so that none depends on those before it.
fn figure(seed: u64, place: usize) -> Figure {
    let (name, make) = FIGURES[place];
    let seed = Generator::new(seed.wrapping_add(place as u64)).bits();
    let (points, pairs) = make(&mut Generator::new(seed));
    Figure::new(name, &points, &pairs)
}

/// How many turns are measured: at least so many, and until so much of the processor's time is gone.
const LEAST: usize = 7;
const LONG: Duration = Duration::from_millis(1500);

/// The time that the processor gave this thread, from any start. The standard library does not tell
/// it, and on Linux the C library does.
#[cfg(all(target_os = "linux", target_pointer_width = "64"))]
fn processor_time() -> Duration {
    #[repr(C)]
    struct Timespec {
        seconds: i64,
        nanoseconds: i64,
    }
    extern "C" {
        fn clock_gettime(clock: i32, time: &mut Timespec) -> i32;
    }
    const THREAD: i32 = 3;
    let mut time = Timespec {
        seconds: 0,
        nanoseconds: 0,
    };
    let status = unsafe { clock_gettime(THREAD, &mut time) };
    assert_eq!(status, 0, "the thread has a clock");
    Duration::new(time.seconds as u64, time.nanoseconds as u32)
}

/// Elsewhere the clock's time must do.
#[cfg(not(all(target_os = "linux", target_pointer_width = "64")))]
fn processor_time() -> Duration {
    use std::sync::OnceLock;
    use std::time::Instant;
    static START: OnceLock<Instant> = OnceLock::new();
    START.get_or_init(Instant::now).elapsed()
}

/// The median times of the calls in microseconds, which take turns, and how many turns there were. Each was made
/// once before.
fn measure(cutters: &mut [&mut dyn Cutter]) -> (Vec<f64>, usize) {
    let mut times = vec![Vec::new(); cutters.len()];
    cutters.iter_mut().for_each(|cutter| cutter.call());
    let start = processor_time();
    let mut turns = 0;
    while turns < LEAST || processor_time() - start < LONG {
        for (cutter, times) in cutters.iter_mut().zip(&mut times) {
            let before = processor_time();
            cutter.call();
            times.push(processor_time() - before);
        }
        turns += 1;
    }
    let median = |mut times: Vec<Duration>| {
        times.sort_unstable();
        times[times.len() / 2].as_secs_f64() * 1e6
    };
    (times.into_iter().map(median).collect(), turns)
}

/// Prints a line of the table.
fn print_times(figure: &Figure, triangles: usize, turns: usize, times: &[f64]) {
    print!("{:<33}{triangles:>9}{turns:>7}", figure.name);
    for time in times {
        print!("{time:>12.1}");
    }
    if let [original, ours, rows, _] = times {
        let build = ours - rows;
        print!(
            "{build:>12.1}{:>10.2}{:>10.2}",
            build / original,
            ours / original
        );
    }
    println!();
}

/// Prints the first line of the table.
fn print_head(cutters: &[&dyn Cutter]) {
    print!("{:<33}{:>9}{:>7}", "figure", "triangles", "turns");
    for cutter in cutters {
        print!("{:>12}", cutter.name());
    }
    if cutters.len() == 4 {
        print!("{:>12}{:>10}{:>10}", "build", "build/or.", "ours/or.");
    }
    println!();
}

/// The name of a figure, which in the table may begin with that of a figure above it.
fn full_name(place: usize) -> String {
    let (above, name) = (&FIGURES[..place], FIGURES[place].0);
    let points = above.iter().rev().find(|maker| !maker.0.starts_with('-'));
    match (name.strip_prefix('-'), points) {
        (Some(rest), Some(points)) => format!("{}{rest}", points.0),
        _ => name.to_string(),
    }
}

/// Makes a call so many times, on the figure of this name, and prints nothing if there are such a call and such a
/// figure.
pub fn once(seed: u64, call: &str, name: &str, times: u64) -> ExitCode {
    let mut cutters: Vec<Box<dyn Cutter>> = vec![Box::<Original>::default()];
    #[cfg(feature = "ours")]
    {
        cutters.push(Box::<linked::Ours>::default());
        cutters.push(Box::<linked::Rows>::default());
        cutters.push(Box::<linked::Check>::default());
    }
    let Some(cutter) = cutters.iter_mut().find(|cutter| cutter.name() == call) else {
        eprintln!("there is no such call here: {call}");
        return ExitCode::from(2);
    };
    let Some(place) = (0..FIGURES.len()).find(|place| full_name(*place) == name) else {
        eprintln!("there is no such figure: {name}");
        return ExitCode::from(2);
    };
    cutter.prepare(&figure(seed, place));
    for _ in 0..times {
        cutter.call();
    }
    ExitCode::SUCCESS
}

/// Prints the table.
#[cfg(not(feature = "ours"))]
pub fn print(seed: u64) -> ExitCode {
    println!("Microseconds of the processor's time, medians.");
    let mut original = Original::default();
    print_head(&[&original]);
    for place in 0..FIGURES.len() {
        let figure = figure(seed, place);
        original.prepare(&figure);
        let (times, turns) = measure(&mut [&mut original]);
        print_times(&figure, original.list.len(), turns, &times);
    }
    ExitCode::SUCCESS
}

/// Prints the table, and the faults after it.
#[cfg(feature = "ours")]
pub fn print(seed: u64) -> ExitCode {
    println!("Microseconds of the processor's time, medians. \"ours\" is the project's whole call, \"refusals\" its refusal tests alone,");
    println!("\"check\" its checker on that sheet, with the same refusal tests, and \"build\" is ours without the refusals: the building and the");
    println!("list in house order. The original's list is in an order of its own. \"build/or.\" and \"ours/or.\" are parts of the original's time.");
    let mut original = Original::default();
    let mut ours = linked::Ours::default();
    let mut rows = linked::Rows::default();
    let mut check = linked::Check::default();
    print_head(&[&original, &ours, &rows, &check]);
    let mut faults = Vec::new();
    for place in 0..FIGURES.len() {
        let figure = figure(seed, place);
        original.prepare(&figure);
        ours.prepare(&figure);
        rows.prepare(&figure);
        check.prepare(&figure);
        let (times, turns) = measure(&mut [&mut original, &mut ours, &mut rows, &mut check]);
        print_times(&figure, original.list.len(), turns, &times);
        for fault in [rows.fault(), ours.fault(&original), check.fault()] {
            faults.extend(fault.map(|fault| format!("{}: {fault}.", figure.name)));
        }
    }
    for fault in &faults {
        println!("DIFFERENT: {fault}");
    }
    if faults.is_empty() {
        println!("On each figure our list is the original's in house order, and the checker says yes to it.");
        ExitCode::SUCCESS
    } else {
        ExitCode::FAILURE
    }
}

#[cfg(test)]
mod tests {
    use super::*;
    use crate::table::{output_room, refusal, working_room};

    #[test]
    fn the_figures_pass_the_table() {
        for place in 0..FIGURES.len() {
            let figure = figure(1, place);
            let n = figure.points.len() / 2;
            let (out, work) = (output_room(n), working_room(n));
            let refused = refusal(&figure.points, &figure.pairs, out, work);
            assert_eq!(refused, None, "{}", figure.name);
        }
    }

    #[test]
    fn the_names_tell_the_pairs() {
        for place in 0..FIGURES.len() {
            let (name, pairs) = (full_name(place), figure(1, place).pairs.len() / 2);
            let told = name
                .split(" and ")
                .nth(1)
                .and_then(|rest| rest.split(' ').next());
            if let Some(told) = told {
                assert_eq!(told.parse(), Ok(pairs), "{name}");
            }
            assert!((0..place).all(|before| full_name(before) != name), "{name}");
        }
    }
}
