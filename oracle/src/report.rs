//! What a comparison counts, and the lines that it prints.

use std::fmt::Write;

/// How many of the differences are printed.
const SHOWN: usize = 5;

/// The count of one comparison.
pub struct Report {
    /// What is compared with what.
    title: &'static str,
    /// What is counted: patterns, or figures.
    things: &'static str,
    /// The names of the expected answers, and how often each was expected.
    answers: Vec<(&'static str, u64)>,
    /// How many patterns, or figures, were compared, and how many of them differ.
    patterns: u64,
    differences: u64,
    first: Vec<String>,
}

impl Report {
    pub fn new(title: &'static str, answers: &[&'static str]) -> Report {
        Report::of("patterns", title, answers)
    }

    /// The same, of other things than patterns.
    pub fn of(things: &'static str, title: &'static str, answers: &[&'static str]) -> Report {
        Report {
            title,
            things,
            answers: answers.iter().map(|name| (*name, 0)).collect(),
            patterns: 0,
            differences: 0,
            first: Vec::new(),
        }
    }

    /// Counts a pattern, by the place of the expected answer among the names.
    pub fn expect(&mut self, answer: usize) {
        self.patterns += 1;
        self.answers[answer].1 += 1;
    }

    /// Counts a difference. The sentence has the bits of the input and both answers.
    pub fn differ(&mut self, sentence: impl FnOnce() -> String) {
        self.differences += 1;
        if self.first.len() < SHOWN {
            let sentence = sentence();
            if !self.first.contains(&sentence) {
                self.first.push(sentence);
            }
        }
    }

    /// The patterns that were compared.
    pub fn patterns(&self) -> u64 {
        self.patterns
    }

    /// The differences that were found.
    pub fn differences(&self) -> u64 {
        self.differences
    }

    /// Prints a line, and then one for each of the first differences, each once.
    pub fn print(&self) {
        let answers: Vec<String> = self
            .answers
            .iter()
            .map(|(name, count)| format!("{name} {count}"))
            .collect();
        let verdict = match self.differences {
            0 => "no difference.".to_string(),
            n => format!("DIFFERENT for {n}, the first of them:"),
        };
        println!(
            "{}: {} {} ({}): {verdict}",
            self.title,
            self.patterns,
            self.things,
            answers.join(", ")
        );
        for sentence in &self.first {
            println!("    {sentence}");
        }
    }
}

/// A float with its bits.
pub fn float(v: f64) -> String {
    format!("{:#018x} ({v:?})", v.to_bits())
}

/// Floats with their names and bits.
pub fn floats(names: &[&str], values: &[f64]) -> String {
    let mut text = String::new();
    for (name, v) in names.iter().zip(values) {
        let comma = if text.is_empty() { "" } else { ", " };
        write!(text, "{comma}{name} = {}", float(*v)).unwrap();
    }
    text
}

/// Whole numbers with their names and bits.
pub fn wholes(names: &[&str], values: &[i32]) -> String {
    let mut text = String::new();
    for (name, v) in names.iter().zip(values) {
        let comma = if text.is_empty() { "" } else { ", " };
        write!(text, "{comma}{name} = {v:#010x} ({v})").unwrap();
    }
    text
}
