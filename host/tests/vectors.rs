//! The project's vectors: both models print the expected lines.
//!
//! The files stand beside the package, in `../crates/vectors`, or in the folder that the
//! environment variable `SLEETANVIL_VECTORS` names.

mod support;

use sleetanvil::case::{model, Subject};
use sleetanvil::vectors::{self, Vector};
use sleetanvil::Stepping;
use support::compare::library;

#[test]
fn paper_prints_the_vectors() {
    compare(model);
}

#[test]
fn library_prints_the_vectors() {
    compare(library);
}

fn compare(subject: Subject) {
    let file = |name| vectors::file(name).unwrap_or_else(|error| panic!("{error}"));
    let (input, expected) = (file("stdin"), file("stdout"));
    let printed = vectors::print(&input, subject).unwrap_or_else(|error| panic!("{error}"));
    for (printed, expected) in printed.lines().zip(expected.lines()) {
        assert_eq!(printed, expected);
    }
    assert_eq!(printed.lines().count(), expected.lines().count());
    assert!(printed == expected && !printed.is_empty());
}

/// The numbers of the bench part at power-up.
const POWER_UP: &str = "10 4 4 8 38 10 1 40 1 0 0 0 0 0 0 0 13 0 0 280 FF 0 14 FF 0 20 0 40";

/// The line that the model prints for a vector.
fn line(vector: &str) -> Result<String, String> {
    let vector = Vector::read(vector)?;
    Ok(vector.line(&model(&vector.case)))
}

#[test]
fn a_number_that_is_missing_is_0() {
    let whole = line(&format!("v|{POWER_UP}|04 14 00 [9F 00 00 00]")).expect("a vector");
    assert!(whole.starts_with("v: 0 records 7 used 13 written 4 "));
    for more in ["", " ", " 0", " 0 0 0 0 0 0 0 0"] {
        let longer = line(&format!("v|{POWER_UP}{more}|04 14 00 [9F 00 00 00]"));
        assert_eq!(longer.as_ref(), Ok(&whole));
    }
    let without_room = POWER_UP.strip_suffix(" 40").expect("the last number");
    let no_room = line(&format!("v|{without_room}|02 00")).expect("a vector");
    assert!(no_room.starts_with("v: 9 records 0 "));
    assert!(line("v||").expect("a vector").starts_with("v: 1 records 0"));
}

#[test]
fn the_29th_number_is_the_stepping() {
    let a0 = |stepping: &str| {
        let vector = format!("v|{POWER_UP}{stepping}|04 14 00 [1F A0 FF]");
        let vector = Vector::read(&vector).expect("a vector");
        (
            vector.case.geometry.stepping,
            model(&vector.case).answer.state.a0,
        )
    };
    assert_eq!(a0(""), (Stepping::First, 0xBC));
    assert_eq!(a0(" 0"), (Stepping::First, 0xBC));
    assert_eq!(a0(" 1"), (Stepping::Second, 0xBE));
    assert_eq!(a0(" 1 0"), (Stepping::Second, 0xBE));
}

#[test]
fn what_is_no_vector_is_refused() {
    let long = format!("v|{POWER_UP}|{}", "06".repeat(2049));
    let refused = [
        "v",
        "v|10 4 4 8",
        "v|10|06|",
        "v|10 4 4 8 38 10 1 40 2|",
        "v|10 4 4 8 38 10 1 40 1 2|",
        "v|10 4 4 8 38 10 1 40 1 0 0 0 0 0 0 0 14 0 0|",
        "v|10 4 4 8 38 10 0 40 1 0 0 0 0 0 0 0 0 1 0|",
        "v|10 4 4 8 38 10 1 40 1 0 0 0 0 0 0 0 FF 1 7|",
        "v|10 4 4 8 0 10 0 40 1 0 0 0 0 0 0 0 0 0 0 10001|",
        "v|1G|",
        "v|1a|",
        "v|100000000|",
        "v|10|0",
        "v|10|[0x06]",
        &long,
        &format!("v|{POWER_UP} 2|"),
        &format!("v|{POWER_UP} 0 1|"),
        &format!("v|{POWER_UP} 1 1|"),
    ];
    for vector in refused {
        assert!(line(vector).is_err(), "{vector}");
    }
    assert!(line(&long.replacen("06", "", 1)).is_ok());
    assert!(line("v|10 4 4 8 38 10 1 40 1 0 0 0 0 0 0 0 FF 0 7|").is_ok());
}
