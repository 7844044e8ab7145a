//! Processes that time one library each, so that two builds of it can be compared: their names are the same, and one program cannot hold
//! both.
//!
//! A worker reads lines: what to time and the round, `calls`, `tables`, or `compare`. It answers each by a line: the nanoseconds and the
//! check, how many calls or tables its library takes, or the hash of the comparison. It ends at the end of its input.
use crate::cases::{Cases, Timed, What};
use std::io::{BufRead, BufReader, Write};
use std::path::Path;
use std::process::{Child, ChildStdin, ChildStdout, Command, Stdio};

/// The argument that makes a program a worker.
pub const WORKER: &str = "--worker";

/// Times what the lines of the input say.
pub fn serve(cases: &Cases) {
    for line in std::io::stdin().lines() {
        let line = line.expect("a line");
        let words: Vec<&str> = line.split(' ').collect();
        let number = |i: usize| words[i].parse().expect("a number");
        let (what, round) = match words[0] {
            "library" => (What::Rejudge(number(1), None), number(2)),
            "plain" => (What::Rejudge(number(1), Some(number(2))), number(3)),
            "call" => (What::Call(number(1)), number(2)),
            "plain-call" => (What::PlainCall(number(1)), number(2)),
            "calls" => {
                println!("{}", cases.calls.len());
                continue;
            }
            "tables" => {
                println!("{}", cases.tables.len());
                continue;
            }
            "compare" => {
                println!("{}", cases.compare().1);
                continue;
            }
            _ => panic!("no command: {line}"),
        };
        // Once before the run that counts, since other workers had the processor in between.
        let first = cases.time(what, round);
        let Timed { nanoseconds, check } = cases.time(what, round);
        assert_eq!(first.check, check, "the second run differs");
        println!("{nanoseconds} {check}");
    }
}

pub struct Worker {
    process: Child,
    to: Option<ChildStdin>,
    from: BufReader<ChildStdout>,
}

impl Worker {
    pub fn start(program: &Path) -> Worker {
        let mut process = Command::new(program)
            .arg(WORKER)
            .stdin(Stdio::piped())
            .stdout(Stdio::piped())
            .spawn()
            .expect("the worker starts");
        Worker {
            to: process.stdin.take(),
            from: BufReader::new(process.stdout.take().expect("piped")),
            process,
        }
    }

    /// The numbers that a line is answered by.
    fn ask<const N: usize>(&mut self, line: &str) -> [u64; N] {
        let to = self.to.as_mut().expect("open until dropped");
        writeln!(to, "{line}").expect("the worker reads");
        let mut answer = String::new();
        self.from
            .read_line(&mut answer)
            .expect("the worker answers");
        let numbers: Vec<u64> = answer.split_whitespace().flat_map(str::parse).collect();
        numbers
            .try_into()
            .unwrap_or_else(|_| panic!("a worker answered {answer:?} to {line:?}"))
    }

    pub fn time(&mut self, what: What, round: usize) -> Timed {
        let [nanoseconds, check] = self.ask(&format!("{what} {round}"));
        Timed { nanoseconds, check }
    }

    pub fn calls(&mut self) -> usize {
        let [calls] = self.ask("calls");
        calls as usize
    }

    pub fn tables(&mut self) -> usize {
        let [tables] = self.ask("tables");
        tables as usize
    }

    pub fn compare(&mut self) -> u64 {
        let [ends] = self.ask("compare");
        ends
    }
}

impl Drop for Worker {
    fn drop(&mut self) {
        drop(self.to.take());
        let _ = self.process.wait();
    }
}
