//! Prints the expected lines of the project's vectors, by the paper's model.
//!
//! Nothing of the proved library is asked. A change of the papers, or more vectors, are carried into
//! the expected lines so, from the top of the project:
//!
//! ```text
//! cargo run --release --manifest-path host/Cargo.toml --bin vectors > crates/vectors/stdout
//! ```
//!
//! and the difference shows which lines changed.

use std::process::ExitCode;

use sleetanvil::{case, vectors};

fn main() -> ExitCode {
    match vectors::file("stdin").and_then(|input| vectors::print(&input, case::model)) {
        Ok(lines) => {
            print!("{lines}");
            ExitCode::SUCCESS
        }
        Err(error) => {
            eprintln!("error: {error}");
            ExitCode::FAILURE
        }
    }
}
