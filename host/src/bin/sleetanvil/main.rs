//! The command-line program: replays bus logs on the proved model, makes and reads parameter pages,
//! and runs the logs of a memory card.

mod args;
mod card;
mod card_trace;
mod image;
mod instruction;
mod judge;
mod operation;
mod output;
mod page;
mod pieces;
mod progress;
mod protection;
mod replay;
mod save;
mod trace;
mod words;

#[cfg(test)]
#[path = "../../../tests/support/mod.rs"]
mod support;

use std::env;
use std::io::{self, Write};
use std::process::ExitCode;

use args::Command;
use replay::Ended;

/// A bad file, a log or a page that was refused, or output other than the one expected.
const FAILED: u8 = 1;
/// A bad command line.
const MISUSED: u8 = 2;
/// The log was read to its end, and it is not orderly.
const NOT_ORDERLY: u8 = 3;
/// Nobody reads standard output any more: what a shell says of a program that SIGPIPE ended.
const CLOSED: u8 = 141;

/// Why something was not done.
pub enum Failure {
    /// Nobody reads standard output any more.
    Closed,
    Told(String),
}

impl Failure {
    /// A write to standard output failed.
    pub fn of_stdout(error: io::Error) -> Self {
        match error.kind() {
            io::ErrorKind::BrokenPipe => Failure::Closed,
            _ => Failure::Told(format!("standard output: {error}")),
        }
    }
}

impl From<String> for Failure {
    fn from(message: String) -> Self {
        Failure::Told(message)
    }
}

fn main() -> ExitCode {
    let outcome = match args::parse(env::args_os().skip(1)) {
        Ok(Command::Help) => print(args::HELP).map(|()| Ended::Well),
        Ok(Command::Version) => {
            print(concat!("sleetanvil ", env!("CARGO_PKG_VERSION"), "\n")).map(|()| Ended::Well)
        }
        Ok(Command::Replay(replay)) => replay::run(&replay),
        Ok(Command::Page(page)) => page::run(&page).map(|()| Ended::Well),
        Ok(Command::Card(card)) => card::run(&card).map(|()| Ended::Well),
        Err(message) => {
            tell(&format!("{message}\nTry `sleetanvil --help`."));
            return ExitCode::from(MISUSED);
        }
    };
    match outcome {
        Ok(Ended::Well) => ExitCode::SUCCESS,
        Ok(Ended::NotOrderly) => ExitCode::from(NOT_ORDERLY),
        Err(Failure::Closed) => ExitCode::from(CLOSED),
        Err(Failure::Told(message)) => {
            tell(&message);
            ExitCode::from(FAILED)
        }
    }
}

/// Write a text to standard output.
pub fn print(text: &str) -> Result<(), Failure> {
    put(text.as_bytes())
}

/// Write to standard output.
pub fn put(bytes: &[u8]) -> Result<(), Failure> {
    let mut out = io::stdout().lock();
    out.write_all(bytes)
        .and_then(|()| out.flush())
        .map_err(Failure::of_stdout)
}

/// Write to standard error. Where nobody reads it the exit status says enough.
fn tell(message: &str) {
    let _ = writeln!(io::stderr(), "sleetanvil: {message}");
}
