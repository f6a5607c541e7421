//! Links the proved library, `libsleetanvil.a`.
//!
//! It is looked for in the folder that the environment variable `SLEETANVIL_LIB` names, by its
//! whole path, else in `../target/staticlib`.

use std::env;
use std::fs;
use std::path::PathBuf;
use std::process;

const ARCHIVE: &str = "libsleetanvil.a";

/// One of the functions of the headers that an archive of fewer crates lacks.
const LAST: &[u8] = b"sleet_card_run";

fn main() {
    println!("cargo:rerun-if-env-changed=SLEETANVIL_LIB");
    let folder = folder();
    let archive = folder.join(ARCHIVE);
    println!("cargo:rerun-if-changed={}", archive.display());
    let found = fs::read(&archive).unwrap_or_default();
    if !found.windows(LAST.len()).any(|bytes| bytes == LAST) {
        let lack = match archive.is_file() {
            true => "does not have all functions",
            false => "is not there",
        };
        eprintln!("error: {} {lack}.", archive.display());
        eprintln!("Make it with `bash make-archive`, in the project's folder,");
        eprintln!("or set SLEETANVIL_LIB to the folder that holds {ARCHIVE}.");
        process::exit(1);
    }
    println!("cargo:rustc-link-search=native={}", folder.display());
    println!("cargo:rustc-link-lib=static=sleetanvil");
    println!("cargo:rustc-env=SLEETANVIL_ARCHIVE={}", archive.display());
}

/// The folder of the archive, as a whole path.
fn folder() -> PathBuf {
    let package = PathBuf::from(env::var_os("CARGO_MANIFEST_DIR").unwrap_or_default());
    match env::var_os("SLEETANVIL_LIB") {
        Some(folder) if !folder.is_empty() => whole(PathBuf::from(folder)),
        _ => package.join("../target/staticlib"),
    }
}

/// A path that does not depend on where it is read: cargo starts this program in the package's
/// folder, which is seldom the one that a relative path was meant from.
fn whole(folder: PathBuf) -> PathBuf {
    if !folder.is_absolute() {
        eprintln!(
            "error: SLEETANVIL_LIB is {}: give it as a whole path.",
            folder.display()
        );
        process::exit(1);
    }
    folder
}
