//! What a card log does to a card, in words.

use std::io::Write;

use sleetanvil::card::{Card, Stage, CODE, COUNTER, KIND_COMMAND};

use crate::replay::{Done, Stop};
use crate::words::{counted, hex};
use crate::Failure;

/// A card whose records are run one by one, with a line for each.
///
/// What the line says is read off the card before and after the record, and the command that it was;
/// what the record does is the library's alone.
pub struct Tracer<W> {
    card: Card,
    out: W,
    /// Records done.
    records: usize,
}

impl<W: Write> Tracer<W> {
    pub fn new(card: Card, out: W) -> Self {
        Tracer {
            card,
            out,
            records: 0,
        }
    }

    /// Run a piece of a log, and count the bytes answered.
    pub fn piece(&mut self, log: &[u8], answered: &mut u64) -> Result<Done, Failure> {
        let (mut records, mut used) = (0, 0);
        let stop = loop {
            let record = first_record(&log[used..]);
            let (before, mut room) = (self.card.clone(), [0; 2]);
            let answer = self.card.run(record, &mut room);
            if let Some(refusal) = answer.refusal {
                break Some(Stop::Refused(refusal));
            }
            if answer.records == 0 {
                break None;
            }
            let text = line(record, &before, &self.card, &room[..answer.written]);
            writeln!(self.out, "{:>11}  {text}", self.records).map_err(Failure::of_stdout)?;
            self.records += 1;
            records += 1;
            used += answer.used;
            *answered += answer.written as u64;
        };
        self.out.flush().map_err(Failure::of_stdout)?;
        Ok(Done {
            records,
            used,
            stop,
        })
    }

    /// The end of the log. Gives the card back.
    pub fn finish(self) -> Card {
        self.card
    }
}

/// The bytes of a log's first record, as far as they are there.
fn first_record(log: &[u8]) -> &[u8] {
    let length = match log {
        [KIND_COMMAND, ..] => 4,
        _ => 1,
    };
    &log[..length.min(log.len())]
}

/// A record in words.
fn line(record: &[u8], before: &Card, after: &Card, answer: &[u8]) -> String {
    match *record {
        [_, first, second, third] => {
            let sent = Sent::of([first, second, third]);
            let effect = sent.effect(before);
            let effect = effect.map_or_else(String::new, |effect| format!(": {effect}"));
            let (bytes, answer) = (hex(&record[1..]), hex(answer));
            let steps = steps(before.stage(), after.stage());
            format!("{bytes}  {} -> {answer}{effect}{steps}", sent.asked())
        }
        _ => format!("power lost and back: {}", lost(before.stage())),
    }
}

/// What a command did to the security code.
fn steps(before: Stage, after: Stage) -> &'static str {
    match (before, after) {
        (Stage::Fresh, Stage::Counted) => "; step 1 of 3",
        (Stage::Counted | Stage::Half, Stage::Counted) => "; the code starts anew, step 1 of 3",
        (Stage::Counted, Stage::Half) => "; step 2 of 3",
        (Stage::Half, Stage::Open) => "; step 3 of 3, the card is open",
        (Stage::Counted | Stage::Half, Stage::Fresh) => "; the code starts anew",
        _ => "",
    }
}

/// What a power loss did.
fn lost(before: Stage) -> &'static str {
    match before {
        Stage::Fresh => "nothing changes",
        Stage::Counted | Stage::Half => "the code starts anew",
        Stage::Open => "the card is closed",
    }
}

/// The commands of the datasheet's table.
#[derive(Clone, Copy, PartialEq, Eq)]
enum Code {
    WriteProtect,
    Write,
    Protect,
    ReadBit,
    Read,
    Count,
    Compare,
    Unknown,
}

/// A command as it came.
struct Sent {
    code: Code,
    address: u16,
    data: u8,
}

impl Sent {
    fn of([first, second, data]: [u8; 3]) -> Self {
        let code = match first & 0x3F {
            0x31 => Code::WriteProtect,
            0x33 => Code::Write,
            0x30 => Code::Protect,
            0x0C => Code::ReadBit,
            0x0E => Code::Read,
            0x32 => Code::Count,
            0x0D => Code::Compare,
            _ => Code::Unknown,
        };
        Sent {
            code,
            address: u16::from_be_bytes([first >> 6, second]),
            data,
        }
    }

    /// What is asked.
    fn asked(&self) -> String {
        let (place, data) = (named(self.address), self.data);
        match self.code {
            Code::WriteProtect => format!("Write and Protect {place} = {data:02X}h"),
            Code::Write => format!("Write {place} = {data:02X}h"),
            Code::Protect => format!("Protect {place} if it is {data:02X}h"),
            Code::ReadBit => format!("Read with Protect Bit {place}"),
            Code::Read => format!("Read {place}"),
            Code::Count => format!("Count {place}, mask {data:02X}h"),
            Code::Compare => format!("Compare {place} with {data:02X}h"),
            Code::Unknown => "unknown".into(),
        }
    }

    /// What a command does to a card, or why nothing changes.
    fn effect(&self, card: &Card) -> Option<String> {
        match self.code {
            Code::WriteProtect | Code::Write => Some(self.written(card)),
            Code::Protect => Some(self.protected(card)),
            Code::ReadBit => {
                let hidden = self.hidden(card).map(|hidden| format!("{hidden}; "));
                let bit = match card.is_protected(self.address) {
                    true => "protected",
                    false => "not protected",
                };
                Some(hidden.unwrap_or_default() + bit)
            }
            Code::Read => self.hidden(card).map(String::from),
            Code::Count => Some(self.counted(card)),
            Code::Compare => Some(self.compared(card)),
            Code::Unknown => Some("nothing changes, not in the table".into()),
        }
    }

    fn byte(&self, card: &Card) -> u8 {
        card.cells()[usize::from(self.address)]
    }

    fn hidden(&self, card: &Card) -> Option<&'static str> {
        (self.address >= CODE && !card.is_open()).then_some("hidden, not open")
    }

    fn written(&self, card: &Card) -> String {
        if !card.is_open() {
            return "nothing changes, not open".into();
        }
        if card.is_protected(self.address) {
            return "nothing changes, protected".into();
        }
        let mut text = match (self.byte(card), self.data) {
            (old, new) if old == new => format!("it is {new:02X}h already"),
            (old, new) => format!("{old:02X}h becomes {new:02X}h"),
        };
        if self.address == COUNTER {
            text += &format!(", {}", left(self.data));
        }
        if self.code == Code::WriteProtect {
            text += &format!(", {}", self.for_ever());
        }
        text
    }

    fn protected(&self, card: &Card) -> String {
        if !card.is_open() {
            return "nothing changes, not open".into();
        }
        if card.is_protected(self.address) {
            return "nothing changes, protected already".into();
        }
        match self.byte(card) {
            byte if byte == self.data => self.for_ever().into(),
            byte => format!("nothing changes, the byte is {byte:02X}h"),
        }
    }

    fn for_ever(&self) -> &'static str {
        match self.address {
            COUNTER => "protected for ever; once power is lost the card never opens again",
            _ => "protected for ever",
        }
    }

    fn counted(&self, card: &Card) -> String {
        if self.address != COUNTER {
            return format!("nothing changes, the command is for {COUNTER} alone");
        }
        if card.is_protected(COUNTER) {
            return "nothing changes, the counter is protected".into();
        }
        let (old, new) = (card.counter(), card.counter() & self.data);
        match (old & !self.data).count_ones() {
            0 => "nothing changes, the mask clears no bit".into(),
            1 => format!("{old:02X}h becomes {new:02X}h, {}", left(new)),
            several => format!("nothing changes, the mask would clear {several} bits"),
        }
    }

    fn compared(&self, card: &Card) -> String {
        let second = CODE + 1;
        if self.address < CODE {
            return format!("nothing changes, the command is for {CODE} and {second} alone");
        }
        match (card.stage(), self.address) {
            (Stage::Fresh, _) => {
                "nothing changes, no counter bit was cleared right before it".into()
            }
            (Stage::Open, _) => "nothing changes, the card is open already".into(),
            (Stage::Counted, address) if address != CODE => {
                format!("nothing changes, {CODE} comes first")
            }
            (Stage::Half, CODE) => format!("nothing changes, {second} comes next"),
            _ if self.byte(card) == self.data => "right".into(),
            _ => "wrong".into(),
        }
    }
}

fn left(counter: u8) -> String {
    counted(counter.count_ones().into(), "bit") + " left"
}

/// An address, with what stands there.
fn named(address: u16) -> String {
    match address {
        COUNTER => format!("{address} (counter)"),
        CODE => format!("{address} (code byte 1)"),
        1023 => format!("{address} (code byte 2)"),
        _ => address.to_string(),
    }
}

#[cfg(test)]
mod tests {
    use sleetanvil::card::{Card, Stage};

    use super::line;

    const STAGES: [Stage; 4] = [Stage::Fresh, Stage::Counted, Stage::Half, Stage::Open];

    /// What a line says about change is what the library did, for every first byte at every stage.
    #[test]
    fn words_are_what_happens() {
        let mut cases = 0;
        for first in 0..=255u8 {
            for (second, third) in [
                (0x07, 0x00),
                (0x07, 0x5A),
                (0xFD, 0x00),
                (0xFD, 0x0F),
                (0xFD, 0x1F),
                (0xFD, 0x5F),
                (0xFE, 0x12),
                (0xFE, 0x34),
                (0xFF, 0x12),
                (0xFF, 0x34),
            ] {
                for stage in STAGES {
                    for protected in [0xFF, 0x7F, 0x5F, 0x00] {
                        check([first, second, third], stage, protected);
                        cases += 1;
                    }
                }
            }
        }
        assert_eq!(cases, 256 * 10 * 4 * 4);
    }

    fn check(bytes: [u8; 3], stage: Stage, protected: u8) {
        let (mut cells, mut bits) = (vec![0x5A; 1024], vec![0xFF; 128]);
        cells[1021..].copy_from_slice(&[0x1F, 0x12, 0x34]);
        (bits[0], bits[127]) = (protected, protected);
        let before = Card::from_parts(stage, cells, bits).expect("memory of the right lengths");
        let mut after = before.clone();
        let answer = after.command(bytes);
        let record = [0x20, bytes[0], bytes[1], bytes[2]];
        let text = line(&record, &before, &after, &answer);

        let changed = (before.cells(), before.bits()) != (after.cells(), after.bits());
        let says = |words: &str| text.contains(words);
        assert_eq!(
            changed,
            says(" becomes ") || says("protected for ever"),
            "{text}"
        );
        assert!(!(changed && says("nothing changes")), "{text}");
        let steps = match (before.stage(), after.stage()) {
            (_, Stage::Counted) => Some("step 1 of 3"),
            (_, Stage::Half) => Some("step 2 of 3"),
            (Stage::Half, Stage::Open) => Some("the card is open"),
            (Stage::Counted | Stage::Half, Stage::Fresh) => Some("starts anew"),
            _ => None,
        };
        match steps {
            Some(words) => assert!(says(words), "{text}"),
            None => assert!(!says("; step") && !says("anew"), "{text}"),
        }
        let right = matches!((before.stage(), after.stage()), (_, Stage::Half))
            || (before.stage(), after.stage()) == (Stage::Half, Stage::Open);
        assert_eq!(says(": right"), right, "{text}");
        let told: Vec<_> = answer.iter().map(|byte| format!("{byte:02X}h")).collect();
        assert!(says(&format!(" -> {}", told.join(" "))), "{text}");
        // No cell is 00h, so that this answer hides one.
        assert_eq!(says(": hidden, not open"), answer[0] == 0x00, "{text}");
        if let [_, bit] = answer[..] {
            assert_eq!(says(" not protected"), bit == 0x01, "{text}");
            assert!(says(" protected"), "{text}");
        }
    }
}
