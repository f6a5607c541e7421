//! What a log does to a device, in words.

use std::fmt::Write as _;
use std::io::{self, Write};

use sleetanvil::{Device, Job, Operation, Record, State};

use crate::instruction::{named, Form, Instruction};
use crate::operation::{self, block};
use crate::protection;
use crate::words::counted;

/// A device whose records are run one by one, with a line for each transfer and each record beside
/// one. The lines stand in the order in which they begin: what happens during a transfer is held
/// back, and stands indented below it.
pub struct Tracer<W> {
    device: Device,
    out: W,
    /// Data bytes shown on a line.
    shown: usize,
    /// Records done.
    records: usize,
    transfer: Option<Transfer>,
}

/// A transfer under way.
#[derive(Default)]
struct Transfer {
    /// The record of its select.
    from: usize,
    /// The bytes on DI and on DO.
    sent: Vec<u8>,
    answered: Vec<u8>,
    /// Whether the device ignores it.
    ignored: bool,
    /// What else happened meanwhile.
    during: Vec<(usize, String)>,
    /// What was before the log, if it was begun there.
    before: Option<Before>,
}

/// The part of a transfer that was before the log.
#[derive(Clone, Copy)]
struct Before {
    /// Its bytes; 5 stands for five or more, of which the first four are known.
    count: usize,
    /// The column that comes next.
    column: usize,
}

impl Transfer {
    /// The transfer that a device is in.
    fn under_way(state: &State) -> Option<Self> {
        let count = usize::from(state.count);
        let [code, _] = state.instruction.to_le_bytes();
        let known = [code, state.first, state.second, state.third];
        let mut sent = known[..count.min(known.len())].to_vec();
        sent.resize(count, 0);
        state.is_selected().then(|| Transfer {
            sent,
            answered: vec![0xFF; count],
            ignored: state.is_ignoring(),
            before: Some(Before {
                count,
                column: state.column.into(),
            }),
            ..Transfer::default()
        })
    }

    /// The bytes on DI from a place on, without those before the log.
    fn sent(&self, from: usize) -> &[u8] {
        self.sent.get(self.begins(from)..).unwrap_or_default()
    }

    /// The same on DO.
    fn answered(&self, from: usize) -> &[u8] {
        self.answered.get(self.begins(from)..).unwrap_or_default()
    }

    fn begins(&self, from: usize) -> usize {
        self.before.map_or(from, |before| before.count.max(from))
    }

    /// The column of the first byte of data in the log: the address, or where a transfer whose
    /// address was before the log had come to.
    fn column(&self, address: usize) -> usize {
        match self.before {
            Some(before) if before.count > 2 => before.column,
            _ => address,
        }
    }
}

impl<W: Write> Tracer<W> {
    pub fn new(device: Device, shown: usize, out: W) -> Self {
        Tracer {
            transfer: Transfer::under_way(device.state()),
            device,
            out,
            shown,
            records: 0,
        }
    }

    /// Run a record. Gives the byte on DO, if it has one.
    pub fn record(&mut self, record: Record) -> io::Result<Option<u8>> {
        let mut byte = None;
        match record {
            Record::Select => self.select()?,
            Record::Shift(sent) => byte = Some(self.shift(sent)?),
            Record::Deselect => self.deselect()?,
            Record::Work(units) => self.work(units)?,
            Record::Level(high) => self.level(high)?,
            Record::Power => self.power()?,
        }
        self.records += 1;
        Ok(byte)
    }

    /// Write out all that is known.
    pub fn flush(&mut self) -> io::Result<()> {
        self.out.flush()
    }

    /// The end of the log. Gives the device back.
    pub fn finish(mut self) -> io::Result<Device> {
        let transfer = self.transfer.take().filter(|_| self.records > 0);
        if let Some(transfer) = transfer {
            let text = self.describe(&transfer) + "; still selected";
            self.line_of(&transfer, self.records - 1, &text)?;
        }
        self.out.flush()?;
        Ok(self.device)
    }

    fn select(&mut self) -> io::Result<()> {
        self.device.select();
        if self.transfer.is_some() {
            return self.line("select: selected already, nothing happens".into());
        }
        self.transfer = Some(Transfer {
            from: self.records,
            ..Transfer::default()
        });
        Ok(())
    }

    fn shift(&mut self, byte: u8) -> io::Result<u8> {
        let answer = self.device.shift(byte);
        let ignored = self.device.state().is_ignoring();
        match &mut self.transfer {
            Some(transfer) => {
                transfer.sent.push(byte);
                transfer.answered.push(answer);
                transfer.ignored = ignored;
            }
            None => self.line(format!(
                "shift {byte:02X}h -> {answer:02X}h: not selected, nothing happens"
            ))?,
        }
        Ok(answer)
    }

    fn deselect(&mut self) -> io::Result<()> {
        let before = *self.device.state();
        self.device.deselect();
        let Some(transfer) = self.transfer.take() else {
            return self.line("deselect: not selected, nothing happens".into());
        };
        let mut text = self.describe(&transfer);
        if let Some(effect) = self.effect(&transfer, &before) {
            let _ = write!(text, ": {effect}");
        }
        text += &self.status_change(&before);
        self.line_of(&transfer, self.records, &text)
    }

    fn work(&mut self, units: u16) -> io::Result<()> {
        let before = *self.device.state();
        self.device.work(units.into());
        let mut text = format!("work of {}: ", counted(units.into(), "unit"));
        match before.operation() {
            None => text += "the array is idle, nothing happens",
            Some(operation) => text += &self.progress(&operation, units.into()),
        }
        text += &self.status_change(&before);
        self.line(text)
    }

    /// What work did to an operation.
    fn progress(&self, operation: &Operation, units: usize) -> String {
        let geometry = self.device.geometry();
        match self.device.state().operation() {
            Some(now) => operation::so_far(&now, geometry),
            None => {
                let name = operation::name(operation, geometry);
                let needed = geometry.operation_len(operation.job) - operation.units;
                let beyond = if needed < units {
                    format!(" with {needed} of them")
                } else {
                    String::new()
                };
                format!("{name} ends{beyond}")
            }
        }
    }

    fn level(&mut self, high: bool) -> io::Result<()> {
        self.device.level(high);
        self.line(format!("WP# {}", level_word(high)))
    }

    fn power(&mut self) -> io::Result<()> {
        let before = *self.device.state();
        if let Some(transfer) = self.transfer.take() {
            let text = self.describe(&transfer) + "; cut by power loss";
            // The select may have been before the log.
            let last = self.records.saturating_sub(1);
            self.line_of(&transfer, last, &text)?;
        }
        self.device.power();
        let mut text = String::from("power lost and back: ");
        if let Some(operation) = before.operation() {
            text += &operation::cut(&operation, self.device.geometry());
            text += ", ";
        }
        let after = self.device.state();
        let _ = write!(
            text,
            "read of row 0 begins; set back to A0h {:02X}h ({}), B0h {:02X}h, D0h {:02X}h and a \
             cache register of FFh; WP# stays {}",
            after.a0,
            protection::words(self.device.geometry(), after.a0),
            after.b0,
            after.d0,
            level_word(after.wp != 0)
        );
        text += &self.status_change(&before);
        self.line(text)
    }

    /// The instruction of a transfer with its addresses and data.
    fn describe(&self, transfer: &Transfer) -> String {
        let mut text = String::new();
        if transfer.before.is_some() {
            text += "begun before the log: ";
        }
        let Some((&code, rest)) = transfer.sent.split_first() else {
            return text + "select without a byte";
        };
        if transfer.ignored && transfer.before.is_some_and(|before| before.count > 0) {
            return text + "an ignored transfer" + &self.data("with", transfer.sent(0));
        }
        let Some(instruction) = Instruction::of(code) else {
            let bytes = self.data("sent", rest);
            return format!("{text}{code:02X}h{bytes}; ignored: unknown instruction");
        };
        text += &named(code);
        text += &match (instruction.form, rest) {
            (Form::Alone, _) => self.data("and", transfer.sent(1)),
            (Form::Get, [address, ..]) => self.describe_get(*address, transfer.answered(2)),
            (Form::Get, []) => " without an address".into(),
            (Form::Set, [address, value, ..]) => {
                let more = self.data("and", transfer.sent(3));
                format!(" {address:02X}h = {value:02X}h{more}")
            }
            (Form::Id, _) => self.data("->", transfer.answered(2)),
            (Form::Row, [_, high, low, ..]) => {
                let row = self.row(code, u16::from_be_bytes([*high, *low]));
                format!(" {row}{}", self.data("and", transfer.sent(4)))
            }
            (Form::ReadCache, [high, low, ..]) => {
                let (address, data) = (column(*high, *low), transfer.answered(4));
                let first = transfer.column(address);
                let past = match past(self.page(), first, data.len()) {
                    0 => String::new(),
                    past if first >= self.page() => format!(" ({past} past the page)"),
                    // What is ignored moves no column.
                    _ if transfer.ignored => String::new(),
                    past => format!(" ({past} past the page, from column 0 again)"),
                };
                format!(" {}{}{past}", self.column(address), self.data("->", data))
            }
            (Form::Load, [high, low, ..]) => {
                let (address, data) = (column(*high, *low), transfer.sent(3));
                let past = match past(self.page(), transfer.column(address), data.len()) {
                    0 => String::new(),
                    past => format!(" ({past} past the page, dropped)"),
                };
                format!(" {}{}{past}", self.column(address), self.data("<-", data))
            }
            _ => self.data("with", rest),
        };
        if transfer.ignored {
            text += "; ignored: busy at its first byte";
        }
        text
    }

    fn describe_get(&self, address: u8, values: &[u8]) -> String {
        let data = self.data("->", values);
        let words = match (address, values) {
            (0xA0, [.., last]) => protection::words(self.device.geometry(), *last),
            (0xC0, [first, .., last] | [first @ last]) => {
                let (first, last) = (status_words(*first), status_words(*last));
                if first == last {
                    last
                } else {
                    format!("{first}, then {last}")
                }
            }
            _ => return format!(" {address:02X}h{data}"),
        };
        format!(" {address:02X}h{data} ({words})")
    }

    /// A row, with what is to be known of it.
    fn row(&self, code: u8, row: u16) -> String {
        let geometry = self.device.geometry();
        if usize::from(row) >= geometry.counts_len() {
            format!("row {row} (outside the array)")
        } else if code == 0xD8 {
            format!("row {row} (block {})", block(row, geometry))
        } else {
            format!("row {row}")
        }
    }

    fn column(&self, column: usize) -> String {
        match column < self.page() {
            true => format!("column {column}"),
            false => format!("column {column} (outside the page)"),
        }
    }

    /// The bytes of a page.
    fn page(&self) -> usize {
        self.device.geometry().cache_len()
    }

    /// Bytes after a word, as many as are shown; nothing for no bytes.
    fn data(&self, word: &str, bytes: &[u8]) -> String {
        if bytes.is_empty() {
            return String::new();
        }
        let mut text = format!(" {word}");
        for byte in bytes.iter().take(self.shown) {
            let _ = write!(text, " {byte:02X}h");
        }
        if bytes.len() > self.shown {
            let _ = write!(text, " .. {} in all", counted(bytes.len() as u64, "byte"));
        }
        text
    }

    /// What the end of a transfer did. The state is that before it.
    fn effect(&self, transfer: &Transfer, before: &State) -> Option<String> {
        let code = *transfer.sent.first().filter(|_| !transfer.ignored)?;
        let needed = Instruction::of(code)?.bytes?;
        if transfer.sent.len() != needed {
            let sent = match transfer.before {
                Some(before) if before.count > 4 => "5 bytes or more".into(),
                _ => counted(transfer.sent.len() as u64, "byte"),
            };
            return Some(format!("nothing happens, shifted {sent}, needs {needed}"));
        }
        let after = self.device.state();
        match transfer.sent[..] {
            [0x1F, address, _] => Some(self.register_change(address, before)),
            [0x13, ..] => Some(self.begun(after)),
            [0x10 | 0xD8, ..] if !before.is_write_enabled() => {
                Some("nothing happens, WEL is 0".into())
            }
            [0x10 | 0xD8, _, high, low] => Some(if after.is_busy() {
                self.begun(after)
            } else {
                self.failure(u16::from_be_bytes([high, low]), after)
            }),
            [0xFF] => Some(self.reset(before)),
            _ => None,
        }
    }

    /// What a reset did: it cuts the operation in progress, if there is one, and then is one
    /// itself. The status is told where it stays, too: busy still. The state is that before it.
    fn reset(&self, before: &State) -> String {
        let (after, geometry) = (self.device.state(), self.device.geometry());
        let mut text = match before.operation() {
            None => self.begun(after),
            Some(operation) if operation.job == Job::Reset => {
                let units = operation::units(&operation, geometry);
                format!("reset begins anew after {units}")
            }
            Some(operation) => {
                let cut = operation::cut(&operation, geometry);
                format!("{cut}, {}", self.begun(after))
            }
        };
        if before.c0 == after.c0 {
            let words = status_words(after.c0);
            let _ = write!(text, "; status stays {:02X}h ({words})", after.c0);
        }
        text
    }

    fn begun(&self, state: &State) -> String {
        state.operation().map_or_else(String::new, |operation| {
            let geometry = self.device.geometry();
            let outside = usize::from(operation.row) >= geometry.counts_len();
            format!(
                "{} begins, {} units{}",
                operation::name(&operation, geometry),
                geometry.operation_len(operation.job),
                if outside { ", all FFh" } else { "" }
            )
        })
    }

    /// What Set Feature did to its register. The state is that before it.
    fn register_change(&self, address: u8, before: &State) -> String {
        let after = self.device.state();
        match address {
            0xA0 if before.a0 & 0x80 != 0 && before.wp == 0 => {
                "nothing happens, BRWD is 1 and WP# is low".into()
            }
            0xA0 => {
                let protected = protection::words(self.device.geometry(), after.a0);
                format!("{:02X}h -> {:02X}h, {protected}", before.a0, after.a0)
            }
            0xB0 => format!("{:02X}h -> {:02X}h", before.b0, after.b0),
            0xC0 => "nothing happens, C0h cannot be written".into(),
            0xD0 => format!("{:02X}h -> {:02X}h", before.d0, after.d0),
            _ => format!("nothing happens, there is no register at {address:02X}h"),
        }
    }

    /// Why a program or an erase was not begun.
    fn failure(&self, row: u16, state: &State) -> String {
        let bit = if state.program_failed() {
            "P_FAIL"
        } else {
            "E_FAIL"
        };
        match self.device.counts().get(usize::from(row)) {
            None => format!("{bit}, the row is outside the array"),
            Some(&count) if state.program_failed() && count >= 4 => {
                format!("{bit}, the page was programmed {count} times since its erase")
            }
            Some(_) => {
                let block = block(row, self.device.geometry());
                format!("{bit}, block {block} is protected")
            }
        }
    }

    fn status_change(&self, before: &State) -> String {
        let (before, after) = (before.c0, self.device.status());
        if before == after {
            return String::new();
        }
        let words = status_words(after);
        format!("; status {before:02X}h -> {after:02X}h ({words})")
    }

    /// A line for the record under way.
    fn line(&mut self, text: String) -> io::Result<()> {
        match &mut self.transfer {
            Some(transfer) => {
                transfer.during.push((self.records, text));
                Ok(())
            }
            None => writeln!(self.out, "{:>11}  {text}", self.records),
        }
    }

    /// The lines of a transfer whose last record is given.
    fn line_of(&mut self, transfer: &Transfer, last: usize, text: &str) -> io::Result<()> {
        let from = transfer.from;
        if from == last {
            writeln!(self.out, "{from:>11}  {text}")?;
        } else {
            writeln!(self.out, "{:>11}  {text}", format!("{from}-{last}"))?;
        }
        for (record, text) in &transfer.during {
            writeln!(self.out, "{record:>11}      {text}")?;
        }
        Ok(())
    }
}

fn level_word(high: bool) -> &'static str {
    if high {
        "high"
    } else {
        "low"
    }
}

fn column(high: u8, low: u8) -> usize {
    usize::from(u16::from_be_bytes([high & 0x0F, low]))
}

/// How many of the bytes that a line tells, the first of them at a column, come behind the page's
/// end. Where a read goes round more than once they are all those behind the first end; from a
/// column outside the page on they are all.
fn past(page: usize, first: usize, count: usize) -> usize {
    let inside = page.saturating_sub(first);
    count.saturating_sub(inside)
}

/// The bits of a status register in words.
fn status_words(status: u8) -> String {
    const BITS: [(u8, &str); 4] = [
        (0x01, "busy"),
        (0x02, "WEL"),
        (0x04, "E_FAIL"),
        (0x08, "P_FAIL"),
    ];
    let mut words = String::new();
    for (_, word) in BITS.iter().filter(|(bit, _)| status & bit != 0) {
        words += if words.is_empty() { "" } else { ", " };
        words += word;
    }
    if words.is_empty() {
        words += "idle";
    }
    words
}

#[cfg(test)]
mod tests {
    use sleetanvil::{Device, Geometry, Record, State};

    use super::Tracer;

    /// A device of one page of so many bytes, each other than its neighbours, in a transfer that
    /// has come to a column. Its address was 0.
    fn device(page: u32, code: u16, count: u8, column: u32) -> Device {
        let geometry = Geometry {
            data: page,
            spare: 0,
            pages: 1,
            blocks: 1,
            ..Geometry::bench()
        };
        let state = State {
            c0: 0x00,
            job: 0,
            selected: 1,
            instruction: code,
            count,
            column: column as u16,
            ..State::power_up()
        };
        let cells = vec![0xFF; page as usize];
        let cache = (0..page).map(|place| (place % 251) as u8).collect();
        Device::from_parts(geometry, state, cells, cache, vec![0]).expect("a sound device")
    }

    /// The bytes before data comes: the idle one of a read, if it has not come yet.
    fn idle(state: &State) -> usize {
        usize::from(state.instruction == 0x03 && state.count == 3)
    }

    /// What the trace says behind the data, if so many bytes of it come.
    fn told(device: &Device, bytes: usize) -> String {
        let mut trace = Vec::new();
        let mut tracer = Tracer::new(device.clone(), 0, &mut trace);
        for _ in 0..idle(device.state()) + bytes {
            tracer.record(Record::Shift(0x5A)).expect("memory");
        }
        tracer.record(Record::Deselect).expect("memory");
        tracer.finish().expect("memory");
        let trace = String::from_utf8(trace).expect("text");
        let (_, words) = trace.split_once(" in all").expect("a count of the data");
        words.trim_end().into()
    }

    /// What there is to say, by the columns that the library goes to.
    fn done(mut device: Device, bytes: usize) -> String {
        let page = device.geometry().cache_len();
        let load = device.state().instruction == 0x02;
        device.shifts(&vec![0x5A; idle(device.state())]);
        let (mut past, mut round) = (0, false);
        for _ in 0..bytes {
            let before = usize::from(device.state().column);
            let cached = device.cache().get(before).copied().unwrap_or(0xFF);
            let answer = device.shift(0x5A);
            let after = usize::from(device.state().column);
            assert!(load || answer == cached, "column {before} of {page}");
            past += usize::from(before >= page || round);
            round |= after <= before && after < page;
        }
        match past {
            0 => String::new(),
            _ if load => format!(" ({past} past the page, dropped)"),
            _ if round => format!(" ({past} past the page, from column 0 again)"),
            _ => format!(" ({past} past the page)"),
        }
    }

    /// Reads and loads that go on from columns near the borders, by one byte, by two, to the
    /// page's end and one further, and so again two pages later.
    #[test]
    fn past_the_page() {
        let mut met = [0; 4];
        for page in [1_u32, 2, 3, 20, 2_176, 4_095, 4_096] {
            let near = [0, 1, page - 1, page, page + 1, 4_094, 4_095, 4_096];
            let columns = near.into_iter().chain(page.checked_sub(2));
            for column in columns.filter(|&column| column <= 4_096) {
                let end = page.saturating_sub(column) as usize;
                let later = end + 2 * page as usize;
                for (code, count) in [(0x03, 3), (0x03, 4), (0x03, 5), (0x02, 3), (0x02, 5)] {
                    let device = device(page, code, count, column);
                    for bytes in [1, 2, end.max(1), end + 1, later, later + 1] {
                        let words = done(device.clone(), bytes);
                        let place = format!("{code:02X}h, {bytes} from column {column} of {page}");
                        assert_eq!(told(&device, bytes), words, "{place}");
                        met[match &words[..] {
                            "" => 0,
                            words if words.ends_with("again)") => 1,
                            words if words.ends_with("dropped)") => 2,
                            _ => 3,
                        }] += 1;
                    }
                }
            }
        }
        assert!(met.iter().all(|&times| times > 100), "{met:?}");
    }
}
