//! The written cases of a program that the gate runs: what is printed for them is what is expected.

use std::fs;
use std::path::PathBuf;

/// The files of a program, by its name. They stand beside the package, in `../crates`: `stdin` has
/// the cases, one line for each, and comments; `stdout` has the expected lines.
pub struct Written(pub &'static str);

impl Written {
    /// The lines of all cases are those that are expected.
    pub fn compare(&self, line: impl Fn(&str) -> String) {
        let expected = fs::read_to_string(self.path("stdout")).expect("the expected lines");
        let (printed, expected) = (self.printed(line), expected.lines());
        assert!(!printed.is_empty());
        assert_eq!(printed.len(), expected.clone().count());
        for (line, expected) in printed.iter().zip(expected) {
            assert_eq!(line, expected);
        }
    }

    /// Writes the expected lines anew.
    pub fn anew(&self, line: impl Fn(&str) -> String) {
        let lines = self.printed(line).join("\n") + "\n";
        fs::write(self.path("stdout"), lines).expect("a place for the lines");
    }

    fn printed(&self, line: impl Fn(&str) -> String) -> Vec<String> {
        let input = fs::read_to_string(self.path("stdin")).expect("the cases");
        let cases = input.lines().filter(|line| !line.starts_with('#'));
        cases.map(line).collect()
    }

    fn path(&self, name: &str) -> PathBuf {
        let crates = PathBuf::from(env!("CARGO_MANIFEST_DIR")).join("../crates");
        crates.join(self.0).join(name)
    }
}
