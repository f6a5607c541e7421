//! The proved library on a case, and the comparison of what two subjects make of one.

use sleetanvil::case::{Buffers, Case, Outcome};
use sleetanvil::lent::{self, Memory};
use sleetanvil::{Answer, Refusal, State};

/// The proved library on a case. What is beside the lent buffers is looked after too.
pub fn library(case: &Case) -> Outcome {
    let mut buffers = case.buffers();
    for (_, bytes) in buffers.named_mut() {
        *bytes = [&GUARD, &bytes[..], &GUARD].concat();
    }
    let mut memory = Memory {
        cells: guarded(&mut buffers.cells),
        cache: guarded(&mut buffers.cache),
        counts: guarded(&mut buffers.counts),
    };
    let out = guarded(&mut buffers.out);
    let answer = lent::run(&case.geometry, case.state, &case.log, &mut memory, out);
    for (name, bytes) in buffers.named_mut() {
        let touched = !bytes.starts_with(&GUARD) || !bytes.ends_with(&GUARD);
        assert!(!touched, "a byte beside the buffer {name} was touched");
        *bytes = guarded(bytes).to_vec();
    }
    Outcome { answer, buffers }
}

/// Bytes before and after a buffer that nobody may touch.
const GUARD: [u8; 32] = [0xC3; 32];

/// What is between the guards.
fn guarded(bytes: &mut [u8]) -> &mut [u8] {
    let end = bytes.len() - GUARD.len();
    &mut bytes[GUARD.len()..end]
}

/// The proved library on a case, in other memory than the case's own.
pub fn library_on(case: &Case, buffers: &mut Buffers) -> Answer {
    let (mut memory, out) = buffers.lent();
    lent::run(&case.geometry, case.state, &case.log, &mut memory, out)
}

/// The first field in which two outcomes differ, with both values.
pub fn difference(left: &Outcome, right: &Outcome) -> Option<String> {
    answer_difference(&left.answer, &right.answer).or_else(|| {
        let buffers = left.buffers.named().into_iter();
        buffers
            .zip(right.buffers.named())
            .find_map(|((name, left), (_, right))| bytes_difference(name, left, right))
    })
}

/// The first field in which two answers differ.
pub fn answer_difference(left: &Answer, right: &Answer) -> Option<String> {
    numbers(left)
        .into_iter()
        .zip(numbers(right))
        .find(|(left, right)| left.1 != right.1)
        .map(|((name, left), (_, right))| format!("{name}: {left} against {right}"))
}

/// The fields of an answer, each with its name. The patterns are whole, so that none is forgotten.
fn numbers(answer: &Answer) -> [(&'static str, usize); 19] {
    let Answer {
        state,
        records,
        used,
        written,
        refusal,
    } = *answer;
    let State {
        a0,
        b0,
        c0,
        d0,
        wp,
        selected,
        count,
        first,
        second,
        third,
        job,
        instruction,
        column,
        row,
        units,
    } = state;
    [
        ("refusal", refusal.map_or(0, Refusal::number).into()),
        ("records", records),
        ("used", used),
        ("written", written),
        ("state.a0", a0.into()),
        ("state.b0", b0.into()),
        ("state.c0", c0.into()),
        ("state.d0", d0.into()),
        ("state.wp", wp.into()),
        ("state.selected", selected.into()),
        ("state.count", count.into()),
        ("state.first", first.into()),
        ("state.second", second.into()),
        ("state.third", third.into()),
        ("state.job", job.into()),
        ("state.instruction", instruction.into()),
        ("state.column", column.into()),
        ("state.row", row.into()),
        ("state.units", units),
    ]
}

/// The first place at which two buffers differ.
pub fn bytes_difference(name: &str, left: &[u8], right: &[u8]) -> Option<String> {
    if left == right {
        return None;
    }
    let place = left
        .iter()
        .zip(right)
        .position(|(left, right)| left != right);
    Some(match place {
        Some(place) => format!(
            "{name}[{place}]: {:02X}h against {:02X}h",
            left[place], right[place]
        ),
        None => format!("{name}: {} against {} bytes", left.len(), right.len()),
    })
}
