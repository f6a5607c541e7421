//! What the tests share: the library on a case and the comparison of outcomes, calls on a keeper, on a
//! card and of the parameter page, written cases, a random number generator, a generator of cases, the
//! hunt with its report, and how a program is started.

// Each test program uses a part of it.
#![allow(dead_code)]

pub mod carding;
pub mod compare;
pub mod generate;
pub mod hunt;
pub mod keeping;
pub mod paging;
pub mod rng;
pub mod written;

use std::env;
use std::path::Path;
use std::process::Command;

/// A program that a test starts; by `SLEETANVIL_RUNNER`, an emulator, where that is set.
pub fn program(path: &Path) -> Command {
    let Some(runner) = env::var_os("SLEETANVIL_RUNNER") else {
        return Command::new(path);
    };
    let mut command = Command::new(runner);
    command.arg(path);
    command
}
