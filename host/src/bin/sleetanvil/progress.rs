//! How far a long replay has come, on a terminal.

use std::io::{self, IsTerminal, Write};
use std::time::{Duration, Instant};

/// A log up to this length says nothing.
const LONG: u64 = 4 << 20;
/// How often a line is written.
const PAUSE: Duration = Duration::from_millis(200);

pub struct Progress {
    /// The length of the log, if it is known.
    total: Option<u64>,
    wanted: bool,
    last: Option<Instant>,
}

impl Progress {
    /// Standard error tells it if that is a terminal, and if nothing else is written there.
    pub fn new(total: Option<u64>, trace: bool) -> Self {
        let alone = !trace || !io::stdout().is_terminal();
        Progress {
            total,
            wanted: alone && io::stderr().is_terminal(),
            last: None,
        }
    }

    /// So many bytes of the log are done.
    pub fn at(&mut self, done: u64) {
        let due = self.last.is_none_or(|last| last.elapsed() >= PAUSE);
        if self.wanted && due && is_long(done, self.total) {
            self.last = Some(Instant::now());
            write(&format!("\r\x1b[K{}", text(done, self.total)));
        }
    }

    /// A log of so many bytes is being judged, which tells nothing until it is over.
    pub fn judging(&mut self, length: u64) {
        if self.wanted && is_long(length, None) {
            self.last = Some(Instant::now());
            write(&format!("{}, judging", text(0, Some(length))));
        }
    }

    /// The line goes away.
    pub fn end(&mut self) {
        if self.last.take().is_some() {
            write("\r\x1b[K");
        }
    }
}

fn write(text: &str) {
    // A terminal that takes nothing is no reason to stop.
    let _ = io::stderr().write_all(text.as_bytes());
}

fn is_long(done: u64, total: Option<u64>) -> bool {
    total.unwrap_or(done) > LONG
}

fn text(done: u64, total: Option<u64>) -> String {
    let megabytes = |bytes: u64| bytes as f64 / 1e6;
    match total {
        Some(total) => format!(
            "sleetanvil: {:.1} of {:.1} MB",
            megabytes(done.min(total)),
            megabytes(total)
        ),
        None => format!("sleetanvil: {:.1} MB", megabytes(done)),
    }
}

#[cfg(test)]
mod tests {
    use super::{is_long, text};

    #[test]
    fn a_long_log_is_told_of() {
        assert!(!is_long(0, Some(4 << 20)) && is_long(0, Some((4 << 20) + 1)));
        assert!(!is_long(4 << 20, None) && is_long((4 << 20) + 1, None));
        assert_eq!(
            text(1_500_000, Some(90_000_000)),
            "sleetanvil: 1.5 of 90.0 MB"
        );
        assert_eq!(text(12_300_000, None), "sleetanvil: 12.3 MB");
    }
}
