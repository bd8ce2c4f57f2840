//! The progress of a long run: one line on a terminal, which is overwritten; nothing elsewhere.

use std::io::{self, IsTerminal};
use std::time::{Duration, Instant};

use crate::json::Json;
use crate::streams;

pub struct Progress {
    files: usize,
    began: Instant,
    shown: Option<Instant>,
    terminal: bool,
}

const EVERY: Duration = Duration::from_millis(200);
const WIDTH: usize = 24;
/// Back to the first column, and nothing behind it.
const CLEAR: &str = "\r\x1b[K";

impl Progress {
    pub fn new(files: usize) -> Progress {
        Progress { files, began: Instant::now(), shown: None, terminal: io::stderr().is_terminal() }
    }

    /// A bar, if it is time for one.
    pub fn show(&mut self, done: usize, refused: usize) {
        if self.terminal && self.shown.unwrap_or(self.began).elapsed() >= EVERY {
            self.shown = Some(Instant::now());
            streams::complain(&format!("{CLEAR}{}", bar(done, self.files, refused, self.began.elapsed())));
        }
    }

    /// A line of its own; the bar comes again below it.
    pub fn above(&mut self, line: &str) {
        let clear = if self.shown.take().is_some() { CLEAR } else { "" };
        streams::complain(&format!("{clear}{line}"));
    }

    /// The last line.
    pub fn summary(&mut self, done: usize, refused: usize, json: bool) -> String {
        let clear = if self.shown.take().is_some() { CLEAR } else { "" };
        let seconds = self.began.elapsed().as_secs_f64();
        let text = match json {
            true => Json::object([
                ("files", done.into()),
                ("refused", refused.into()),
                ("seconds", ((seconds * 1000.0).round() / 1000.0).into()),
            ])
            .to_string(),
            false => format!("{done} files, {refused} refused, {seconds:.1} s, {:.0} a second", rate(done, seconds)),
        };
        format!("{clear}{text}\n")
    }
}

fn rate(done: usize, seconds: f64) -> f64 {
    if seconds > 0.0 { done as f64 / seconds } else { 0.0 }
}

fn bar(done: usize, files: usize, refused: usize, passed: Duration) -> String {
    let full = (WIDTH * done).checked_div(files).unwrap_or(WIDTH).min(WIDTH);
    let a_second = rate(done, passed.as_secs_f64());
    let left = match a_second > 0.0 {
        true => time((files.saturating_sub(done) as f64 / a_second) as u64),
        false => "?".into(),
    };
    let refused = if refused == 0 { String::new() } else { format!(", {refused} refused") };
    let (on, off) = ("#".repeat(full), ".".repeat(WIDTH - full));
    format!("[{on}{off}] {done} of {files} files{refused}, {a_second:.0} a second, {left} left")
}

fn time(seconds: u64) -> String {
    match seconds {
        0..=99 => format!("{seconds} s"),
        100..=5999 => format!("{} min", seconds.div_ceil(60)),
        _ => format!("{:.1} h", seconds as f64 / 3600.0),
    }
}

#[cfg(test)]
mod tests {
    use super::*;

    #[test]
    fn bars() {
        let second = Duration::from_secs(1);
        assert_eq!(bar(0, 4, 0, Duration::ZERO), format!("[{}] 0 of 4 files, 0 a second, ? left", ".".repeat(24)));
        let half = format!("[{}{}] 2 of 4 files, 1 refused, 2 a second, 1 s left", "#".repeat(12), ".".repeat(12));
        assert_eq!(bar(2, 4, 1, second), half);
        assert!(bar(4, 4, 0, second).ends_with("4 of 4 files, 4 a second, 0 s left"));
        assert!(bar(0, 0, 0, second).contains("0 of 0"));
        assert_eq!([time(99), time(100), time(7200)], ["99 s", "2 min", "2.0 h"]);
    }
}
