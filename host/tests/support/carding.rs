//! Calls on a card and who takes them, the library and the independent model; random cases, sound
//! and not; the hunt for a difference.

use std::fmt;
use std::hint::black_box;

use sleetanvil::paper::card::{self, Answer};
use sleetanvil::raw::{self, RawCard};

use super::compare::bytes_difference;
use super::rng::Rng;

/// The control words, in the order of the datasheet.
pub const WRITE_AND_PROTECT: u8 = 0x31;
pub const WRITE: u8 = 0x33;
pub const PROTECT: u8 = 0x30;
pub const READ_WITH_BIT: u8 = 0x0C;
pub const READ: u8 = 0x0E;
pub const COUNT: u8 = 0x32;
pub const COMPARE: u8 = 0x0D;

pub const WORDS: [u8; 7] = [
    WRITE_AND_PROTECT,
    WRITE,
    PROTECT,
    READ_WITH_BIT,
    READ,
    COUNT,
    COMPARE,
];

/// The addresses of the counter and of the code.
pub const COUNTER: usize = 1021;
pub const CODE: [usize; 2] = [1022, 1023];

/// The bytes of a command.
pub fn command(word: u8, address: usize, data: u8) -> [u8; 3] {
    let [low, high] = (address as u16).to_le_bytes();
    [high << 6 | word, low, data]
}

/// The record of a command.
pub fn record([first, second, third]: [u8; 3]) -> Vec<u8> {
    vec![0x20, first, second, third]
}

/// The records of a log; what cannot be read is one piece at the end.
pub fn records(log: &[u8]) -> Vec<&[u8]> {
    let mut records = Vec::new();
    let mut rest = log;
    while let Some(kind) = rest.first() {
        let length = match kind {
            0x20 if rest.len() >= 4 => 4,
            0x06 => 1,
            _ => rest.len(),
        };
        let (record, later) = rest.split_at(length);
        records.push(record);
        rest = later;
    }
    records
}

/// One call.
#[derive(Clone, Debug, PartialEq, Eq)]
pub enum Call {
    Run(Vec<u8>),
    Command([u8; 3]),
}

impl Call {
    /// The log that is run, or that of the one command.
    pub fn log(&self) -> Vec<u8> {
        match self {
            Call::Run(log) => log.clone(),
            Call::Command(command) => record(*command),
        }
    }
}

/// All that is lent to a call.
#[derive(Clone, Debug, PartialEq, Eq)]
pub struct Memory {
    pub cells: Vec<u8>,
    pub bits: Vec<u8>,
    pub out: Vec<u8>,
}

/// A call, the card it is made on, and the memory that is lent to it.
#[derive(Clone, PartialEq, Eq)]
pub struct Case {
    pub call: Call,
    pub stage: u8,
    pub memory: Memory,
}

/// All that a call gives back, and every byte of the memory after it.
#[derive(Clone, Debug, PartialEq, Eq)]
pub struct Outcome {
    pub answer: Answer,
    pub memory: Memory,
}

/// Whatever takes calls: the library, the model, or a model that is wrong.
pub type Subject<'a> = &'a dyn Fn(&Case) -> Outcome;

/// The library. What is beside the lent memory is looked after too.
pub fn library(case: &Case) -> Outcome {
    let mut memory = case.memory.clone();
    for (_, bytes) in memory.named_mut() {
        *bytes = [&GUARD, &bytes[..], &GUARD].concat();
    }
    let card = RawCard { stage: case.stage };
    let [cells, bits, out] = memory.named_mut().map(|(_, bytes)| guarded(bytes));
    let answer = match &case.call {
        Call::Run(log) => raw::card_run(card, log, cells, bits, out),
        Call::Command(command) => raw::card_command(card, *command, cells, bits, out),
    };
    black_box(&mut memory);
    for (name, bytes) in memory.named_mut() {
        let touched = !bytes.starts_with(&GUARD) || !bytes.ends_with(&GUARD);
        assert!(!touched, "a byte beside the {name} was touched: {case}");
        *bytes = guarded(bytes).to_vec();
    }
    let answer = Answer {
        records: answer.records,
        used: answer.used,
        written: answer.written,
        stage: answer.card.stage,
        refusal: answer.refusal,
    };
    Outcome { answer, memory }
}

/// Bytes before and after a buffer that nobody may touch.
const GUARD: [u8; 33] = [0xC3; 33];

/// What is between the guards.
fn guarded(bytes: &mut [u8]) -> &mut [u8] {
    let end = bytes.len() - GUARD.len();
    &mut bytes[GUARD.len()..end]
}

pub fn model(case: &Case) -> Outcome {
    let mut memory = case.memory.clone();
    let log = case.call.log();
    let Memory { cells, bits, out } = &mut memory;
    let answer = card::run(case.stage, &log, cells, bits, out);
    Outcome { answer, memory }
}

impl Memory {
    /// What a plain case has: code 12h 34h, all else FFh and open, and A5h in the output.
    pub fn plain(cells: usize, bits: usize, out: usize) -> Self {
        let mut memory = Memory {
            cells: vec![0xFF; cells],
            bits: vec![0xFF; bits],
            out: vec![0xA5; out],
        };
        for (place, byte) in CODE.into_iter().zip([0x12, 0x34]) {
            if let Some(cell) = memory.cells.get_mut(place) {
                *cell = byte;
            }
        }
        memory
    }

    pub fn named(&self) -> [(&'static str, &Vec<u8>); 3] {
        let Memory { cells, bits, out } = self;
        [("cells", cells), ("protect bits", bits), ("output", out)]
    }

    pub fn named_mut(&mut self) -> [(&'static str, &mut Vec<u8>); 3] {
        let Memory { cells, bits, out } = self;
        [("cells", cells), ("protect bits", bits), ("output", out)]
    }

    /// Whether a byte's protect bit is 1.
    pub fn is_open(&self, address: usize) -> bool {
        self.bits[address / 8] & 1 << (address % 8) != 0
    }
}

impl Outcome {
    /// What was written to the output.
    pub fn written(&self) -> &[u8] {
        &self.memory.out[..self.answer.written]
    }
}

/// The first thing that two subjects do not answer alike.
pub fn difference(case: &Case, left: Subject, right: Subject) -> Option<String> {
    let (left, right) = (left(case), right(case));
    if left.answer != right.answer {
        return Some(format!("{:?}\nagainst\n{:?}", left.answer, right.answer));
    }
    let pairs = left.memory.named().into_iter().zip(right.memory.named());
    let mut differences =
        pairs.filter_map(|((name, left), (_, right))| bytes_difference(name, left, right));
    differences.next()
}

/// The first case out of so many on which two subjects differ, with its number.
pub fn hunt(left: Subject, right: Subject, seed: u64, cases: u64) -> Option<(u64, Case)> {
    let mut found = (0..cases).map(|number| (number, Generator::new(seed, number).case()));
    found.find(|(_, case)| difference(case, left, right).is_some())
}

/// The case with fewer records and plainer memory, as far as the subjects still differ.
pub fn shrink(mut case: Case, left: Subject, right: Subject) -> Case {
    let attempt = |case: &mut Case, change: &dyn Fn(&mut Case)| {
        let mut smaller = case.clone();
        change(&mut smaller);
        if smaller != *case && difference(&smaller, left, right).is_some() {
            *case = smaller;
        }
    };
    for place in (0..records(&case.call.log()).len()).rev() {
        attempt(&mut case, &|case| {
            if let Call::Run(log) = &mut case.call {
                let mut kept = records(log);
                kept.remove(place);
                *log = kept.concat();
            }
        });
    }
    attempt(&mut case, &|case| case.stage = 0);
    attempt(&mut case, &|case| case.memory.out.truncate(2));
    let [cells, bits, out] = case.memory.named().map(|(_, bytes)| bytes.len());
    let plain = Memory::plain(cells, bits, out);
    for (buffer, (_, plain)) in plain.named().into_iter().enumerate() {
        let mut length = plain.len();
        while length > 0 {
            for at in (0..plain.len()).step_by(length) {
                let stretch = at..plain.len().min(at + length);
                attempt(&mut case, &|case| {
                    let (_, bytes) = &mut case.memory.named_mut()[buffer];
                    bytes[stretch.clone()].copy_from_slice(&plain[stretch.clone()]);
                });
            }
            length /= 2;
        }
    }
    case
}

/// The call, and how the memory differs from the plain one: enough to make the case again.
impl fmt::Display for Case {
    fn fmt(&self, f: &mut fmt::Formatter<'_>) -> fmt::Result {
        match &self.call {
            Call::Run(log) => {
                write!(f, "run at stage {}:", self.stage)?;
                records(log)
                    .iter()
                    .try_for_each(|record| write!(f, " {}", hex(record)))?;
            }
            Call::Command(command) => {
                write!(f, "command at stage {}: {}", self.stage, hex(command))?;
            }
        }
        let [cells, bits, out] = self.memory.named().map(|(_, bytes)| bytes.len());
        let plain = Memory::plain(cells, bits, out);
        for ((name, bytes), (_, plain)) in self.memory.named().into_iter().zip(plain.named()) {
            write!(f, "\n{} bytes of {name}, plain but for", bytes.len())?;
            let mut next = None;
            for place in (0..bytes.len()).filter(|place| bytes[*place] != plain[*place]) {
                if next != Some(place) {
                    write!(f, "\n{place:04X}:")?;
                }
                write!(f, " {:02X}", bytes[place])?;
                next = Some(place + 1);
            }
            if next.is_none() {
                write!(f, " nothing")?;
            }
        }
        Ok(())
    }
}

fn hex(bytes: &[u8]) -> String {
    bytes.iter().map(|byte| format!("{byte:02X}")).collect()
}

/// A source of cases.
pub struct Generator {
    pub rng: Rng,
}

impl Generator {
    pub fn new(seed: u64, case: u64) -> Self {
        Generator {
            rng: Rng::new(seed ^ 0x464D_3434_3238, case),
        }
    }

    /// Any case: about one in ten is refused at once.
    pub fn case(&mut self) -> Case {
        let mut case = self.sound_case();
        if self.rng.percent(15) {
            let log = case.call.log();
            if let [0x20, first, second, third, ..] = log[..] {
                case.call = Call::Command([first, second, third]);
            }
        }
        if self.rng.percent(12) {
            self.spoil(&mut case);
        }
        case
    }

    /// A card, a log, and a room that is enough or nearly so. The cells are 1,024 bytes, the
    /// protect bits 128, and the stage is 0 to 3.
    pub fn sound_case(&mut self) -> Case {
        let mut case = Case {
            call: Call::Run(Vec::new()),
            stage: self.rng.pick(&[0, 0, 0, 1, 2, 2, 3, 3]),
            memory: Memory {
                cells: self.cells(),
                bits: self.bits(),
                out: Vec::new(),
            },
        };
        let (log, needed) = self.log(&case);
        let room = match self.rng.below(10) {
            0 => needed,
            1 | 2 => needed.saturating_sub(self.rng.within(1, 2)),
            3 => self.rng.below(needed + 1),
            4 => self.rng.below(3),
            _ => needed + self.rng.within(1, 5),
        };
        case.call = Call::Run(log);
        case.memory.out = match self.rng.below(3) {
            0 => vec![0xA5; room],
            _ => self.bytes(room),
        };
        case
    }

    /// Make lengths and stage wrong, or not, each for itself.
    fn spoil(&mut self, case: &mut Case) {
        let memory = &mut case.memory;
        if self.rng.percent(50) {
            let any = self.rng.below(2050);
            let length = self
                .rng
                .pick(&[0, 1, 128, 1023, 1023, 1025, 1025, 2048, any]);
            memory.cells.resize(length, 0x3C);
        }
        if self.rng.percent(50) {
            let any = self.rng.below(260);
            let length = self.rng.pick(&[0, 1, 127, 127, 129, 129, 256, 1024, any]);
            memory.bits.resize(length, 0xC3);
        }
        if self.rng.percent(50) {
            case.stage = self.rng.pick(&[4, 4, 5, 7, 8, 128, 131, 255]);
        }
        if self.rng.percent(20) {
            case.call = Call::Run(Vec::new());
        }
    }

    fn bytes(&mut self, length: usize) -> Vec<u8> {
        (0..length).map(|_| self.rng.byte()).collect()
    }

    fn cells(&mut self) -> Vec<u8> {
        let mut cells = match self.rng.below(6) {
            0 => vec![0xFF; 1024],
            1 => vec![0x00; 1024],
            2 => {
                let mut cells = vec![0x00; 1024];
                for _ in 0..20 {
                    cells[self.rng.below(1024)] |= 1 << self.rng.below(8);
                }
                cells
            }
            _ => {
                let words = (0..128).flat_map(|_| self.rng.next().to_le_bytes());
                words.collect()
            }
        };
        if self.rng.percent(70) {
            let [any, few] = [self.rng.byte(), 1 << self.rng.below(8)];
            let two = few | 1 << self.rng.below(8);
            cells[COUNTER] = self.rng.pick(&[0xFF, 0xFF, 0x00, any, any, few, two]);
        }
        if self.rng.percent(50) {
            cells[CODE[0]] = self.rng.byte();
            cells[CODE[1]] = self.rng.byte();
        }
        if self.rng.percent(10) {
            cells[CODE[1]] = cells[CODE[0]];
        }
        cells
    }

    fn bits(&mut self) -> Vec<u8> {
        let mut bits = match self.rng.below(6) {
            0 => vec![0x00; 128],
            1 => self.bytes(128),
            2 => {
                let mut bits = vec![0xFF; 128];
                for _ in 0..40 {
                    bits[self.rng.below(128)] &= !(1 << self.rng.below(8));
                }
                bits
            }
            _ => vec![0xFF; 128],
        };
        // Those of the counter, of the code and of the byte before them.
        match self.rng.below(6) {
            0 => bits[127] = self.rng.byte(),
            1 => bits[127] ^= 0x10 << self.rng.below(4),
            2 => bits[127] |= 0x20,
            _ => bits[127] = 0xFF,
        }
        bits
    }
}

/// A card as it is after the records so far, so that the next one can be aimed.
struct Now {
    stage: u8,
    /// The stage that is believed in: at times one that a command or a power loss has undone.
    believed: u8,
    memory: Memory,
}

/// Logs.
impl Generator {
    /// A log, and how many bytes it answers where there is room for them.
    fn log(&mut self, case: &Case) -> (Vec<u8>, usize) {
        let mut now = Now {
            stage: case.stage,
            believed: case.stage,
            memory: case.memory.clone(),
        };
        now.memory.out = vec![0; 2];
        let most = self.rng.pick(&[1, 4, 10, 10, 30]);
        let count = self.rng.within(0, most);
        let foreign = self.rng.percent(6).then(|| self.rng.below(count + 1));
        let (mut log, mut needed, mut stopped) = (Vec::new(), 0, false);
        for place in 0..count {
            let record = match foreign {
                Some(other) if other == place => self.foreign_record(),
                _ => self.record(&now),
            };
            let compares = record[1..].starts_with(&command(COMPARE, CODE[0], 0)[..2]);
            let Memory { cells, bits, out } = &mut now.memory;
            let answer = card::run(now.stage, &record, cells, bits, out);
            now.stage = answer.stage;
            now.believed = match (now.stage, now.believed) {
                (0, 1) if compares && self.rng.percent(70) => 2,
                (0, believed) if self.rng.percent(50) => believed,
                (stage, _) => stage,
            };
            stopped |= answer.refusal != 0;
            if !stopped {
                needed += answer.written;
            }
            log.extend(record);
        }
        if self.rng.percent(10) {
            let [first, second, third] = self.aimed(&now);
            let cut = self.rng.within(1, 3);
            log.extend(&[0x20, first, second, third][..cut]);
        }
        (log, needed)
    }

    fn record(&mut self, now: &Now) -> Vec<u8> {
        match self.rng.below(100) {
            0..=3 => vec![0x06],
            _ => record(self.aimed(now)),
        }
    }

    /// A record of a kind that a card log does not have, with or without bytes behind it.
    fn foreign_record(&mut self) -> Vec<u8> {
        let any = self.rng.byte();
        let kinds = [
            0x05, 0x07, 0x21, 0x00, 0xFF, 0x01, 0x02, 0x03, 0x04, 0x14, 0x1F, 0x60, 0xA0, any,
        ];
        let length = self.rng.pick(&[0, 0, 1, 3, 4]);
        [vec![self.rng.pick(&kinds)], self.bytes(length)].concat()
    }

    /// A command, often the next step towards passing, or one that tries what has passed.
    fn aimed(&mut self, now: &Now) -> [u8; 3] {
        let mut bytes = match self.rng.below(100) {
            0..=39 => self.step(now),
            40..=51 => command(COUNT, COUNTER, self.mask(now)),
            52..=63 => self.compare(now),
            64..=75 => {
                let word = self.rng.pick(&[READ, READ_WITH_BIT]);
                command(word, self.address(), self.rng.byte())
            }
            76..=83 => {
                let word = self.rng.pick(&[WRITE, WRITE_AND_PROTECT]);
                command(word, self.address(), self.rng.byte())
            }
            84..=88 => self.protect(now),
            89 | 90 => command(COUNT, self.address(), self.mask(now)),
            91 | 92 => {
                let [.., data] = self.compare(now);
                command(COMPARE, self.address(), data)
            }
            93..=96 => command(self.rng.below(64) as u8, self.address(), self.rng.byte()),
            _ => [self.rng.byte(), self.rng.byte(), self.rng.byte()],
        };
        // A neighbour in the table, or the same at another address.
        match self.rng.below(40) {
            0 => bytes[0] ^= 1 << self.rng.below(6),
            1 => bytes[0] ^= 0x40 << self.rng.below(2),
            2 => bytes[1] ^= 1 << self.rng.below(8),
            3..=5 => bytes = command(bytes[0] % 64, self.address(), bytes[2]),
            _ => {}
        }
        bytes
    }

    /// The next step towards passing; where the code has passed, what is then possible.
    fn step(&mut self, now: &Now) -> [u8; 3] {
        let [first, second] = CODE.map(|place| now.memory.cells[place]);
        match now.believed {
            0 => command(COUNT, COUNTER, self.clearing(now.memory.cells[COUNTER], 1)),
            1 => command(COMPARE, CODE[0], first),
            2 => command(COMPARE, CODE[1], second),
            _ => match self.rng.below(10) {
                0..=2 => {
                    let word = self.rng.pick(&[WRITE, WRITE, WRITE_AND_PROTECT]);
                    let any = self.rng.byte();
                    command(word, COUNTER, self.rng.pick(&[0xFF, 0xFF, any, 0x00]))
                }
                3 | 4 => {
                    let word = self.rng.pick(&[WRITE, WRITE, WRITE_AND_PROTECT]);
                    command(word, self.rng.pick(&CODE), self.rng.byte())
                }
                5 => self.protect(now),
                6 => command(READ, self.rng.pick(&CODE), self.rng.byte()),
                7 => command(READ_WITH_BIT, self.rng.pick(&CODE), self.rng.byte()),
                8 => self.compare(now),
                _ => command(COUNT, COUNTER, self.mask(now)),
            },
        }
    }

    /// A mask that clears so many of the counter's bits, if it has them; its other bits are any.
    fn clearing(&mut self, counter: u8, count: usize) -> u8 {
        let mut kept = counter;
        for _ in 0..count {
            let set: Vec<u8> = (0..8).filter(|bit| kept & 1 << bit != 0).collect();
            if !set.is_empty() {
                kept &= !(1 << self.rng.pick(&set));
            }
        }
        let any = self.rng.byte();
        kept | !counter & self.rng.pick(&[0x00, 0xFF, any])
    }

    fn mask(&mut self, now: &Now) -> u8 {
        let counter = now.memory.cells[COUNTER];
        match self.rng.below(10) {
            0 => 0x00,
            1 => 0xFF,
            2 => 1 << self.rng.below(8),
            3 => !(1 << self.rng.below(8)),
            4..=6 => self.clearing(counter, 1),
            7 => self.clearing(counter, 2),
            8 => self.clearing(counter, 0),
            _ => self.rng.byte(),
        }
    }

    fn compare(&mut self, now: &Now) -> [u8; 3] {
        let address = self.rng.pick(&CODE);
        let right = now.memory.cells[address];
        let other = now.memory.cells[CODE[0] + CODE[1] - address];
        let any = self.rng.byte();
        let near = right ^ 1 << self.rng.below(8);
        let data = self
            .rng
            .pick(&[right, right, right, near, other, any, 0x00, 0xFF]);
        command(COMPARE, address, data)
    }

    fn protect(&mut self, now: &Now) -> [u8; 3] {
        let address = self.address();
        let right = now.memory.cells[address];
        let near = right ^ 1 << self.rng.below(8);
        let any = self.rng.byte();
        let data = self.rng.pick(&[right, right, right, near, any]);
        command(PROTECT, address, data)
    }

    /// An address, often one with a meaning of its own, or one that lacks a bit of such a one.
    fn address(&mut self) -> usize {
        let near = [
            0, 1, 7, 8, 253, 254, 255, 256, 509, 510, 511, 512, 765, 766, 767, 1015, 1016, 1020,
        ];
        match self.rng.below(8) {
            0 | 1 => COUNTER,
            2 => CODE[0],
            3 => CODE[1],
            4 | 5 => self.rng.pick(&near),
            _ => self.rng.below(1024),
        }
    }
}
