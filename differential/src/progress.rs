//! How far a long run has come, on standard error: cases, rate, time left.

use std::io::{IsTerminal, Write};
use std::time::{Duration, Instant};

pub struct Progress {
    name: String,
    all: u64,
    done: u64,
    start: Instant,
    said: Instant,
    terminal: bool,
}

impl Progress {
    pub fn new(name: &str, all: u64) -> Self {
        let start = Instant::now();
        Progress { name: name.to_owned(), all, done: 0, start, said: start, terminal: std::io::stderr().is_terminal() }
    }

    /// So many more cases than were known of.
    pub fn more(&mut self, cases: u64) {
        self.all += cases;
    }

    pub fn step(&mut self) {
        self.done += 1;
        // the clock is not asked for each case
        if self.done % 64 == 0 && self.said.elapsed() >= self.pause() {
            self.say();
        }
    }

    /// A line that is written over each second, or a line each ten seconds in a log.
    fn pause(&self) -> Duration {
        Duration::from_secs(if self.terminal { 1 } else { 10 })
    }

    fn say(&mut self) {
        self.said = Instant::now();
        let rate = self.done as f64 / self.start.elapsed().as_secs_f64();
        let left = self.all.saturating_sub(self.done) as f64 / rate;
        let line = format!("{}: {} of {} cases, {rate:.0} a second, {left:.0} s left", self.name, self.done, self.all);
        let mut out = std::io::stderr().lock();
        let _ = if self.terminal { write!(out, "\r\x1b[K{line}") } else { writeln!(out, "{line}") };
        let _ = out.flush();
    }

    /// Clears the line.
    pub fn end(&mut self) {
        if self.terminal {
            eprint!("\r\x1b[K");
        }
    }
}
