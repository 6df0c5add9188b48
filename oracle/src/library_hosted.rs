//! The project's static library, `libsigns_c.a`, in a program of its own, `host.c`, which an emulator
//! of x86-64 runs. Questions and answers go through two pipes.
//!
//! Each function takes a batch of questions and gives the answers in their order, as those of
//! `library_linked.rs` do, which say what the answers mean.

use std::io::{Read, Write};
use std::process::{Child, ChildStdin, ChildStdout, Command, Stdio};

/// How the library is run, for the first line of the report.
pub const MANNER: &str = "The library runs under an emulator of x86-64.";

/// The numbers of the functions in `host.c`.
const OF_F64: u64 = 0;
const ORIENT2D_FILTER: u64 = 1;
const DECOMP: u64 = 2;
const ORIENT: u64 = 3;
const CIRCLE: u64 = 4;
const TAKE_IN: u64 = 5;
const INCIRCLE_DET: u64 = 6;

pub struct Library {
    host: Child,
    questions: Option<ChildStdin>,
    answers: ChildStdout,
}

impl Library {
    /// Starts the host. The words are its command: the emulator and the program.
    pub fn new(words: &[String]) -> Option<Library> {
        let (emulator, program) = words.split_first()?;
        let mut host = Command::new(emulator)
            .args(program)
            .env_clear()
            .stdin(Stdio::piped())
            .stdout(Stdio::piped())
            .spawn()
            .expect("the host of the library cannot be started");
        let questions = host.stdin.take();
        let answers = host
            .stdout
            .take()
            .expect("the host of the library has no output");
        Some(Library {
            host,
            questions,
            answers,
        })
    }

    /// Asks a batch of questions of I words for answers of O words. The host takes a batch whole
    /// before it answers.
    fn ask<const I: usize, const O: usize>(
        &mut self,
        function: u64,
        batch: impl ExactSizeIterator<Item = [u64; I]>,
    ) -> Vec<[u64; O]> {
        let count = batch.len();
        let mut bytes = Vec::with_capacity(8 * (2 + count * I));
        bytes.extend(function.to_le_bytes());
        bytes.extend((count as u64).to_le_bytes());
        for word in batch.flatten() {
            bytes.extend(word.to_le_bytes());
        }
        let questions = self
            .questions
            .as_mut()
            .expect("the host of the library has no input");
        questions
            .write_all(&bytes)
            .expect("the host of the library takes no question");

        bytes.clear();
        bytes.resize(8 * count * O, 0);
        self.answers
            .read_exact(&mut bytes)
            .expect("the host of the library gives no answer");
        let mut words = bytes
            .chunks_exact(8)
            .map(|w| u64::from_le_bytes(w.try_into().unwrap()));
        (0..count)
            .map(|_| [(); O].map(|_| words.next().unwrap()))
            .collect()
    }

    pub fn of_f64(&mut self, batch: &[f64]) -> Vec<i32> {
        let answers = self.ask(OF_F64, batch.iter().map(|v| [v.to_bits()]));
        answers.into_iter().map(|[sign]| sign as i32).collect()
    }

    pub fn orient2d_filter(&mut self, batch: &[[f64; 6]]) -> Vec<i32> {
        let answers = self.ask(ORIENT2D_FILTER, batch.iter().map(|p| p.map(f64::to_bits)));
        answers.into_iter().map(|[sign]| sign as i32).collect()
    }

    pub fn decomp(&mut self, batch: &[(f64, i64, i32)]) -> Vec<(bool, i64, i32)> {
        let questions = batch
            .iter()
            .map(|(v, m, e)| [v.to_bits(), *m as u64, *e as u64]);
        let answers = self.ask(DECOMP, questions);
        answers
            .into_iter()
            .map(|[written, m, e]| (written != 0, m as i64, e as i32))
            .collect()
    }

    pub fn orient(&mut self, batch: &[[i32; 6]]) -> Vec<i32> {
        let answers = self.ask(ORIENT, batch.iter().map(|p| p.map(|v| v as u64)));
        answers.into_iter().map(|[sign]| sign as i32).collect()
    }

    pub fn circle(&mut self, batch: &[[i32; 8]]) -> Vec<i32> {
        let answers = self.ask(CIRCLE, batch.iter().map(|p| p.map(|v| v as u64)));
        answers.into_iter().map(|[sign]| sign as i32).collect()
    }

    pub fn take_in(&mut self, batch: &[(f64, i32)]) -> Vec<(i32, i32)> {
        let questions = batch.iter().map(|(v, whole)| [v.to_bits(), *whole as u64]);
        let answers = self.ask(TAKE_IN, questions);
        answers
            .into_iter()
            .map(|[answer, whole]| (answer as i32, whole as i32))
            .collect()
    }

    pub fn incircle_det(&mut self, batch: &[[f64; 8]]) -> Vec<f64> {
        let answers = self.ask(INCIRCLE_DET, batch.iter().map(|p| p.map(f64::to_bits)));
        answers
            .into_iter()
            .map(|[det]| f64::from_bits(det))
            .collect()
    }
}

impl Drop for Library {
    /// Ends the host: it returns where there are no more questions.
    fn drop(&mut self) {
        self.questions = None;
        let _ = self.host.wait();
    }
}
