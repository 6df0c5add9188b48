//! Asks the Rust original and the project's static library the same questions and prints where they
//! differ. `oracle/compare` builds and runs it: `oracle N` takes N patterns for each comparison.
//! Where the library is not linked, the command of its host follows: `oracle N EMULATOR HOST`.
//!
//! `oracle figures N M` compares the original's triangles with the requirement's table and rules, on
//! N figures of at most M points; `oracle/figures` runs it, and with the feature `ours` or `hosted` the
//! project's cutter and its checker are asked too. `oracle times` measures the original's triangulation
//! and, with the feature `ours`, the project's cutter and checker, and `oracle once CALL FIGURE N` makes
//! one of these calls N times on one of the figures; `bench/cut` runs both. `oracle replay` prints the
//! data of the program `replay`; `oracle/replay` runs it.
//!
//! The exit status is 0 where nothing differs, 1 where something does and 2 on bad usage.

mod comparisons;
mod cuts;
mod cutting;
mod figures;
mod generator;
#[cfg_attr(feature = "linked", path = "library_linked.rs")]
#[cfg_attr(not(feature = "linked"), path = "library_hosted.rs")]
mod library;
#[cfg(any(feature = "ours", feature = "hosted"))]
#[cfg_attr(feature = "ours", path = "ours_linked.rs")]
#[cfg_attr(not(feature = "ours"), path = "ours_hosted.rs")]
mod ours;
mod patterns;
mod plane;
mod reference;
mod replay;
mod report;
mod rules;
mod table;
mod times;

use std::process::ExitCode;

use generator::Generator;
use library::Library;
use report::Report;

/// The seed of the generator. It spells the project's name.
const SEED: u64 = u64::from_be_bytes(*b"Dergulam");

/// The comparisons, in the order in which they run.
const COMPARISONS: &[fn(u64, &mut Generator, &mut Library) -> Report] = &[
    comparisons::of_f64,
    comparisons::decomp,
    comparisons::orient2d_filter,
    comparisons::orient,
    comparisons::circle,
    comparisons::take_in,
    comparisons::incircle_det,
    comparisons::incircle_det_of_wholes,
];

fn main() -> ExitCode {
    let words: Vec<String> = std::env::args().skip(1).collect();
    let number = |place: usize| {
        let number: Option<u64> = words.get(place).and_then(|word| word.parse().ok());
        number.filter(|number| *number > 0)
    };
    match words.first().map(String::as_str) {
        Some("times") if words.len() == 1 => return times::print(SEED),
        Some("once") if words.len() == 4 => {
            if let Some(count) = number(3) {
                return times::once(SEED, &words[1], &words[2], count);
            }
        }
        Some("replay") if words.len() == 1 => return replay::print(),
        Some("figures") if words.len() == 3 => {
            if let (Some(count), Some(most)) = (number(1), number(2)) {
                return figures_of(count, most as usize);
            }
        }
        _ => {
            let library = words.get(1..).and_then(Library::new);
            if let (Some(count), Some(library)) = (number(0), library) {
                return patterns_of(count, library);
            }
        }
    }
    eprintln!(
        "usage: oracle N [EMULATOR HOST], oracle figures N M, oracle replay, oracle times or oracle once CALL FIGURE N; N and M above 0"
    );
    ExitCode::from(2)
}

/// The comparisons by patterns, so many for each.
fn patterns_of(count: u64, mut library: Library) -> ExitCode {
    println!(
        "The seed is {SEED:#018x}, and each comparison takes {count} patterns. {}",
        library::MANNER
    );
    let reports = COMPARISONS.iter().enumerate().map(|(place, compare)| {
        // Each has a generator of its own, so that none depends on those before it.
        let seed = Generator::new(SEED.wrapping_add(place as u64)).bits();
        compare(count, &mut Generator::new(seed), &mut library)
    });
    conclude(reports, "patterns")
}

/// The comparisons by figures, so many for each, of at most so many points.
fn figures_of(count: u64, most: usize) -> ExitCode {
    println!("Each comparison takes {count} figures of at most {most} points.");
    let reports = cuts::COMPARISONS.iter().map(|compare| compare(count, most));
    conclude(reports, "figures")
}

/// Prints each report as it comes, and then the verdict.
fn conclude(reports: impl Iterator<Item = Report>, things: &str) -> ExitCode {
    let (mut count, mut differences) = (0, 0);
    for report in reports {
        report.print();
        count += report.patterns();
        differences += report.differences();
    }
    if differences == 0 {
        println!("The comparison passes: {count} {things} in all, and no difference.");
        ExitCode::SUCCESS
    } else {
        println!("The comparison FAILS: {count} {things} in all, and {differences} differ.");
        ExitCode::FAILURE
    }
}
