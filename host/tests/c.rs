//! The headers from C and from C++: the tests in `c/`, compiled under each standard with every
//! warning an error, linked with the library, and run.
//!
//! `CC` and `CXX` name other compilers, with arguments behind the name if need be, and
//! `SLEETANVIL_INCLUDE` another folder of the headers than `../include`.

mod support;

use std::collections::BTreeSet;
use std::env;
use std::fs;
use std::path::{Path, PathBuf};
use std::process::Command;
use std::str;

const STRICT: [&str; 6] = [
    "-Wall",
    "-Wextra",
    "-Werror",
    "-pedantic",
    "-Wconversion",
    "-Wshadow",
];

/// The standards of C, each by the names that compilers have for it: the first one known is taken.
const C: [&[&str]; 4] = [&["c99"], &["c11"], &["c17"], &["c23", "c2x"]];

/// The standards of C++.
const CPP: [&[&str]; 4] = [&["c++11"], &["c++14"], &["c++17"], &["c++20"]];

#[test]
fn sleetanvil_h_from_c() {
    for names in C {
        Compiler::c(names).run_test("run_log.c", &[]);
    }
}

#[test]
fn keepers_from_c() {
    for names in C {
        Compiler::c(names).run_test("keeper.c", &[]);
    }
}

#[test]
fn pages_from_c() {
    for names in C {
        Compiler::c(names).run_test("page.c", &[]);
    }
}

#[test]
fn cards_from_c() {
    for names in C {
        Compiler::c(names).run_test("card.c", &[]);
    }
}

#[test]
fn sleetanvil_device_h_from_c() {
    for names in C {
        Compiler::c(names).run_test("device.c", &[]);
    }
}

#[test]
fn sleetanvil_hpp_from_cpp() {
    for names in CPP {
        let compiler = Compiler::cpp(names);
        for source in ["device.cpp", "keeper.cpp", "page.cpp", "card.cpp"] {
            compiler.run_test(source, &["-Wold-style-cast"]);
        }
    }
}

/// The C tests are C++ too. One is run as the first C++; all are compiled as each.
#[test]
fn c_headers_from_cpp() {
    Compiler::cpp(CPP[0]).run_test("run_log.c", &[]);
    for names in CPP {
        let compiler = Compiler::cpp(names);
        for source in ["run_log.c", "device.c", "keeper.c", "page.c", "card.c"] {
            run(compiler.strict(source).arg("-fsyntax-only"));
        }
    }
}

/// The programs in the project's papers, as they stand there, and what each of them prints.
#[test]
fn programs_of_the_papers() {
    let printed = |paper| -> Vec<String> {
        let run = |source: &String| Compiler::c(C[0]).run_test(source, &[]);
        programs_of(paper).iter().map(run).collect()
    };
    assert_eq!(printed("README.md"), ["5A 01\n"]);
    assert_eq!(
        printed("docs/FOR-DRIVERS.md"),
        [
            "core 0: 00\ncore 1: FF\ncore 3: 01\ncore 0: 02\n",
            "copy 1: 2048 + 128 bytes a page, 64 pages a block, 512 blocks\n",
            "before: FF\nafter: A5, protect bit 1\n",
        ]
    );
}

/// The programs that stand in a paper of the project, in its order, each as a file of its own. A
/// program goes from its first header to the end of `main`.
fn programs_of(paper: &str) -> Vec<String> {
    let project = Path::new(env!("CARGO_MANIFEST_DIR")).join("..");
    let text = fs::read_to_string(project.join(paper)).expect("a paper");
    let mut lines = text.lines();
    let mut programs = Vec::new();
    while let Some(first) = lines.find(|line| *line == "    #include <stdio.h>") {
        let mut program = vec![first];
        let mut begun = false;
        while !begun || program.last() != Some(&"    }") {
            let line = lines.next().expect("the end of a program");
            begun |= line == "    int main(void)";
            program.push(line);
        }
        let plain = |line: &&str| String::from(line.strip_prefix("    ").unwrap_or(line));
        let plain: Vec<_> = program.iter().map(plain).collect();
        let name = format!("{}_{}.c", paper.replace(['/', '.'], "_"), programs.len());
        let source = Path::new(env!("CARGO_TARGET_TMPDIR")).join(name);
        fs::write(&source, plain.join("\n") + "\n").expect("a file of the tests");
        programs.push(source.to_str().expect("a plain path").into());
    }
    programs
}

/// The archive has the functions that the header names, and no others.
#[test]
fn the_archive_has_the_headers_functions() {
    let header = fs::read_to_string(headers().join("sleetanvil.h")).expect("the header");
    let declared: BTreeSet<&str> = header
        .match_indices("sleet_")
        .filter_map(|(at, _)| declared(&header, at))
        .collect();
    let archive = fs::read(env!("SLEETANVIL_ARCHIVE")).expect("the archive");
    let exported = index(&archive).expect("an index of names");
    assert_eq!(exported, declared);
    assert!(declared.contains("sleet_run") && declared.contains("sleet_page_make"));
    assert!(declared.contains("sleet_card_run") && declared.contains("sleet_card_command"));
}

/// The name of the function that is declared at a place of the header: the line begins with its
/// type, and nothing but the name stands between that and the bracket.
fn declared(header: &str, at: usize) -> Option<&str> {
    let name = header[at..]
        .split(|c: char| !(c.is_alphanumeric() || c == '_'))
        .next()?;
    let line = header[..at].rsplit('\n').next()?;
    let plain = line.starts_with(|c: char| c.is_alphabetic()) && !line.starts_with("typedef");
    (plain && !line.contains('(') && header[at + name.len()..].starts_with('(')).then_some(name)
}

/// The names in the index of an archive: its first member, 60 bytes of head, a count, so many
/// places, and the names with a NUL behind each.
fn index(archive: &[u8]) -> Option<BTreeSet<&str>> {
    let head = archive.strip_prefix(b"!<arch>\n/ ")?;
    let size: usize = str::from_utf8(head.get(46..56)?)
        .ok()?
        .trim()
        .parse()
        .ok()?;
    let member = head.get(58..58 + size)?;
    let count = u32::from_be_bytes(member.get(..4)?.try_into().ok()?) as usize;
    let names = str::from_utf8(member.get(4 + 4 * count..)?).ok()?;
    Some(names.split('\0').take(count).collect())
}

/// The folder of the headers.
fn headers() -> PathBuf {
    let beside = || Path::new(env!("CARGO_MANIFEST_DIR")).join("../include");
    env::var_os("SLEETANVIL_INCLUDE").map_or_else(beside, PathBuf::from)
}

/// A compiler with a language and a standard.
struct Compiler {
    words: Vec<String>,
    standard: String,
}

impl Compiler {
    fn c(names: &[&str]) -> Self {
        Compiler::find("CC", "cc", "c", names)
    }

    fn cpp(names: &[&str]) -> Self {
        Compiler::find("CXX", "c++", "c++", names)
    }

    /// The compiler with the first of a standard's names that it knows; it has to know one.
    fn find(variable: &str, usual: &str, language: &str, names: &[&str]) -> Self {
        let named = env::var(variable).unwrap_or_else(|_| usual.into());
        let words = named.split_whitespace().chain(["-x", language]);
        let words: Vec<String> = words.map(String::from).collect();
        let mut compilers = names.iter().map(|&name| Compiler {
            words: words.clone(),
            standard: name.into(),
        });
        let known = compilers.find(Compiler::knows);
        known.unwrap_or_else(|| panic!("{named}: not there, or knows no {}", names.join(" or ")))
    }

    /// A call of the compiler under the standard.
    fn call(&self) -> Command {
        let mut command = Command::new(self.words.first().expect("a compiler's name"));
        command
            .args(&self.words[1..])
            .arg(format!("-std={}", self.standard));
        command
    }

    /// Whether the compiler knows the standard: whether it takes an empty file under that name.
    fn knows(&self) -> bool {
        let mut command = self.call();
        command.args(["-fsyntax-only", "/dev/null"]);
        match command.output() {
            Ok(output) => output.status.success(),
            Err(error) => panic!("{command:?}: {error}"),
        }
    }

    /// A call on a file of `c/`, or one with its whole path, with every warning an error.
    fn strict(&self, source: &str) -> Command {
        let package = Path::new(env!("CARGO_MANIFEST_DIR"));
        let mut command = self.call();
        command
            .args(STRICT)
            .arg("-I")
            .arg(headers())
            .arg(package.join("tests/c").join(source));
        command
    }

    /// Compile a test, link it with the library, and run it. Gives what it printed.
    fn run_test(&self, source: &str, more: &[&str]) -> String {
        let file = Path::new(source).file_name().expect("a file's name");
        let name = format!("{}_{}", file.to_string_lossy(), self.standard).replace(['.', '+'], "_");
        let program = Path::new(env!("CARGO_TARGET_TMPDIR")).join(name);
        run(self
            .strict(source)
            .args(more)
            .args(["-x", "none"])
            .arg(env!("SLEETANVIL_ARCHIVE"))
            .arg("-o")
            .arg(&program));
        run(&mut support::program(&program))
    }
}

/// Run a command, which has to end well. Gives what it printed.
fn run(command: &mut Command) -> String {
    let output = command
        .output()
        .unwrap_or_else(|error| panic!("{command:?}: {error}"));
    assert!(
        output.status.success(),
        "{command:?}: {}\n{}{}",
        output.status,
        String::from_utf8_lossy(&output.stdout),
        String::from_utf8_lossy(&output.stderr)
    );
    String::from_utf8_lossy(&output.stdout).into_owned()
}
