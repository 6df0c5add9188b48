//! The project's static library `libexports.a` in a program of its own, `cut_host.c`, which an emulator
//! of x86-64 runs. Questions and answers go through two pipes. The functions are those of
//! `ours_linked.rs`, which says what they answer.

use std::io::{Read, Write};
use std::process::{Child, ChildStdin, ChildStdout, Command, Stdio};
use std::sync::Mutex;

struct Host {
    _host: Child,
    questions: ChildStdin,
    answers: ChildStdout,
}

/// The host, once it has been started. The variable ORACLE_HOST is its command: the emulator and the
/// program.
static HOST: Mutex<Option<Host>> = Mutex::new(None);

impl Host {
    fn start() -> Host {
        let words = std::env::var("ORACLE_HOST").expect("ORACLE_HOST is not set");
        let mut words = words.split_whitespace();
        let emulator = words.next().expect("ORACLE_HOST is empty");
        let mut host = Command::new(emulator)
            .args(words)
            .env_clear()
            .stdin(Stdio::piped())
            .stdout(Stdio::piped())
            .spawn()
            .expect("the host of the library cannot be started");
        let questions = host.stdin.take().expect("the host has no input");
        let answers = host.stdout.take().expect("the host has no output");
        Host {
            _host: host,
            questions,
            answers,
        }
    }

    fn read(&mut self, list: &mut [u32]) {
        let mut bytes = vec![0; 4 * list.len()];
        self.answers
            .read_exact(&mut bytes)
            .expect("the host gives no answer");
        for (value, word) in list.iter_mut().zip(bytes.chunks_exact(4)) {
            *value = u32::from_le_bytes(word.try_into().unwrap());
        }
    }

    fn ask(&mut self, function: u64, points: &[i32], lists: [&[u32]; 3]) -> u64 {
        let mut bytes = Vec::new();
        bytes.extend(function.to_le_bytes());
        bytes.extend((points.len() as u64).to_le_bytes());
        for list in lists {
            bytes.extend((list.len() as u64).to_le_bytes());
        }
        for value in points {
            bytes.extend(value.to_le_bytes());
        }
        for value in lists.into_iter().flatten() {
            bytes.extend(value.to_le_bytes());
        }
        self.questions
            .write_all(&bytes)
            .expect("the host takes no question");
        let mut answer = [0; 8];
        self.answers
            .read_exact(&mut answer)
            .expect("the host gives no answer");
        u64::from_le_bytes(answer)
    }
}

pub fn cut(points: &[i32], pairs: &[u32], out: &mut [u32], work: &mut [u32]) -> u64 {
    let mut host = HOST.lock().unwrap();
    let host = host.get_or_insert_with(Host::start);
    let answer = host.ask(0, points, [pairs, out, work]);
    host.read(out);
    host.read(work);
    answer
}

pub fn check(points: &[i32], pairs: &[u32], list: &[u32], work: &mut [u32]) -> u64 {
    let mut host = HOST.lock().unwrap();
    let host = host.get_or_insert_with(Host::start);
    let answer = host.ask(1, points, [pairs, list, work]);
    host.read(work);
    answer
}
