//! Words that several parts of the program use.

use sleetanvil::Refusal;

/// So many of a thing.
pub fn counted(count: u64, thing: &str) -> String {
    format!("{count} {thing}{}", if count == 1 { "" } else { "s" })
}

/// A refusal with its number.
pub fn numbered(refusal: Refusal) -> String {
    format!("{refusal} (refusal {})", refusal.number())
}

/// Bytes, each as a driver's papers have it.
pub fn hex(bytes: &[u8]) -> String {
    let bytes: Vec<_> = bytes.iter().map(|byte| format!("{byte:02X}h")).collect();
    bytes.join(" ")
}
