//! Calls of the parameter page and who takes them, the library and the independent model; random
//! cases, sound and not; the hunt for a difference.

use std::fmt;
use std::hint::black_box;

use sleetanvil::paper::{page, Part, Stepping};
use sleetanvil::raw::{self, RawSizes};
use sleetanvil::Geometry;

use super::compare::bytes_difference;
use super::rng::Rng;

/// One call.
#[derive(Clone, Copy, Debug, PartialEq, Eq)]
pub enum Call {
    /// A page is made.
    Make(Geometry),
    /// The three copies are read.
    Read,
    /// The check of all that is lent.
    Check,
}

/// A call, and the memory that is lent to it.
#[derive(Clone, PartialEq, Eq)]
pub struct Case {
    pub call: Call,
    pub memory: Vec<u8>,
}

/// All that a call gives back, and every byte of the memory after it. What a call does not answer is
/// 0.
#[derive(Clone, Debug, Default, PartialEq, Eq)]
pub struct Outcome {
    pub refusal: u8,
    pub copy: u8,
    /// D, S, K and N.
    pub sizes: [u32; 4],
    pub check: u16,
    pub memory: Vec<u8>,
}

/// Whatever takes calls: the library, the model, or a model that is wrong.
pub type Subject<'a> = &'a dyn Fn(&Case) -> Outcome;

/// The library. What is beside the lent memory is looked after too.
pub fn library(case: &Case) -> Outcome {
    let mut memory = [&GUARD, &case.memory[..], &GUARD].concat();
    let lent = GUARD.len()..GUARD.len() + case.memory.len();
    let mut outcome = Outcome::default();
    match case.call {
        Call::Make(part) => outcome.refusal = raw::page_make(part, &mut memory[lent.clone()]),
        Call::Read => {
            let answer = raw::page_read(&memory[lent.clone()]);
            (outcome.refusal, outcome.copy) = (answer.refusal, answer.copy);
            outcome.sizes = sizes(answer);
        }
        Call::Check => outcome.check = raw::page_check(&memory[lent.clone()]),
    }
    black_box(&mut memory);
    let touched = !memory.starts_with(&GUARD) || !memory.ends_with(&GUARD);
    assert!(!touched, "a byte beside the memory was touched: {case}");
    outcome.memory = memory[lent].to_vec();
    outcome
}

/// D, S, K and N of an answer.
pub fn sizes(answer: RawSizes) -> [u32; 4] {
    let spare = answer.spare.into();
    [answer.data, spare, answer.pages, answer.blocks]
}

/// Bytes before and after the memory that nobody may touch.
const GUARD: [u8; 33] = [0xC3; 33];

pub fn model(case: &Case) -> Outcome {
    let mut outcome = Outcome {
        memory: case.memory.clone(),
        ..Outcome::default()
    };
    match case.call {
        Call::Make(part) => {
            let made = page::make(&part.into(), &mut outcome.memory);
            outcome.refusal = made.err().unwrap_or(0);
        }
        Call::Read => match page::read(&case.memory) {
            Ok(sizes) => {
                outcome.copy = sizes.copy;
                let spare = sizes.spare.into();
                outcome.sizes = [sizes.data, spare, sizes.pages, sizes.blocks];
            }
            Err(refusal) => outcome.refusal = refusal,
        },
        Call::Check => outcome.check = page::check(&case.memory),
    }
    outcome
}

/// What two subjects do not answer alike.
pub fn difference(case: &Case, left: Subject, right: Subject) -> Option<String> {
    let (left, right) = (left(case), right(case));
    if left == right {
        return None;
    }
    let answers = [&left, &right].map(|outcome| {
        let [data, spare, pages, blocks] = outcome.sizes;
        format!(
            "refusal {}, copy {}, D {data} S {spare} K {pages} N {blocks}, check {:04X}h",
            outcome.refusal, outcome.copy, outcome.check
        )
    });
    let bytes = bytes_difference("memory", &left.memory, &right.memory);
    let bytes = bytes.unwrap_or_else(|| "memory alike".into());
    Some(format!("{}\nagainst\n{}\n{bytes}", answers[0], answers[1]))
}

/// The first case out of so many on which two subjects differ, shrunk, with its number.
pub fn hunt(left: Subject, right: Subject, seed: u64, cases: u64) -> Option<(u64, Case)> {
    (0..cases).find_map(|number| {
        let case = Generator::new(seed, number).case();
        difference(&case, left, right)?;
        let differ = |case: &Case| difference(case, left, right).is_some();
        Some((number, shrink(case, differ)))
    })
}

/// The case with less memory, a plainer part and plainer bytes, as far as the subjects still differ.
fn shrink(mut case: Case, differ: impl Fn(&Case) -> bool) -> Case {
    let attempt = |case: &mut Case, change: &dyn Fn(&mut Case)| {
        let mut smaller = case.clone();
        change(&mut smaller);
        let smaller_will_do = smaller != *case && differ(&smaller);
        if smaller_will_do {
            *case = smaller;
        }
        smaller_will_do
    };
    let mut less = case.memory.len();
    while less > 0 {
        let enough = case.memory.len() >= less;
        let cut = |case: &mut Case| case.memory.truncate(case.memory.len() - less);
        if !(enough && attempt(&mut case, &cut)) {
            less /= 2;
        }
    }
    let usual: [fn(&mut Geometry); 6] = [
        |part| part.data = Part::FM25S005BI3.data,
        |part| part.spare = Part::FM25S005BI3.spare,
        |part| part.pages = Part::FM25S005BI3.pages,
        |part| part.blocks = Part::FM25S005BI3.blocks,
        |part| part.identity = Part::FM25S005BI3.identity,
        |part| part.stepping = Part::FM25S005BI3.stepping.into(),
    ];
    for set in usual {
        attempt(&mut case, &|case| {
            if let Call::Make(part) = &mut case.call {
                set(part);
            }
        });
    }
    let plain = plain(case.memory.len());
    let mut stretch = PAGE;
    while stretch > 0 {
        for at in (0..plain.len()).step_by(stretch) {
            let stretch = at..plain.len().min(at + stretch);
            attempt(&mut case, &|case| {
                case.memory[stretch.clone()].copy_from_slice(&plain[stretch.clone()]);
            });
        }
        stretch /= 2;
    }
    case
}

pub const PAGE: usize = 256;

/// So much of three pages of the FM25S005BI3 with A5h behind them.
pub fn plain(length: usize) -> Vec<u8> {
    let mut memory = page_of(Part::FM25S005BI3).repeat(3);
    memory.resize(length, 0xA5);
    memory
}

/// The page of a sound part, by the model.
pub fn page_of(part: Part) -> Vec<u8> {
    let mut memory = vec![0; PAGE];
    page::make(&part, &mut memory).expect("a sound part");
    memory
}

/// Put the right check into a page.
pub fn mend(page: &mut [u8]) {
    let check = page::check(&page[..254]);
    page[254..PAGE].copy_from_slice(&check.to_le_bytes());
}

/// The call, and how the memory differs from the plain one: enough to make the case again.
impl fmt::Display for Case {
    fn fmt(&self, f: &mut fmt::Formatter<'_>) -> fmt::Result {
        let plain = plain(self.memory.len());
        let places = (0..plain.len()).filter(|place| self.memory[*place] != plain[*place]);
        writeln!(f, "{:?} with {} bytes:", self.call, plain.len())?;
        write!(f, "three pages of the FM25S005BI3 and A5h, but for")?;
        let mut next = None;
        for place in places {
            if next != Some(place) {
                write!(f, "\n{place:04X}:")?;
            }
            write!(f, " {:02X}", self.memory[place])?;
            next = Some(place + 1);
        }
        if next.is_none() {
            write!(f, " nothing")?;
        }
        Ok(())
    }
}

/// A check of the same form as the ONFI check, with its numbers at choice.
#[derive(Clone, Copy, Debug)]
pub struct Form {
    pub start: u16,
    pub polynomial: u16,
    pub lowest_first: bool,
}

impl Form {
    pub const ONFI: Form = Form {
        start: 0x4F4E,
        polynomial: 0x8005,
        lowest_first: false,
    };

    pub fn check(self, bytes: &[u8]) -> u16 {
        let turned = |byte: u8| match self.lowest_first {
            true => byte.reverse_bits(),
            false => byte,
        };
        let check = bytes.iter().fold(self.start, |check, byte| {
            let taken = check ^ u16::from(turned(*byte)) << 8;
            (0..8).fold(taken, |check, _| match check & 0x8000 {
                0 => check << 1,
                _ => check << 1 ^ self.polynomial,
            })
        });
        match self.lowest_first {
            true => check.reverse_bits(),
            false => check,
        }
    }
}

/// A source of cases.
pub struct Generator {
    pub rng: Rng,
}

impl Generator {
    pub fn new(seed: u64, case: u64) -> Self {
        Generator {
            rng: Rng::new(seed ^ 0x4F4E_4649, case),
        }
    }

    pub fn case(&mut self) -> Case {
        match self.rng.below(10) {
            0..=3 => self.making(),
            4..=7 => self.reading(),
            _ => self.checking(),
        }
    }

    pub fn making(&mut self) -> Case {
        let part = self.part().into();
        let length = match self.rng.below(10) {
            0..=2 => 256,
            3 | 4 => 255,
            5 | 6 => 257,
            _ => self.any_length(),
        };
        Case {
            call: Call::Make(part),
            memory: self.contents(length),
        }
    }

    pub fn reading(&mut self) -> Case {
        let mut memory = self.copies();
        let length = match self.rng.below(10) {
            0..=2 => 768,
            3 => 767,
            4 => 769,
            5..=7 => memory.len(),
            _ => self.any_length(),
        };
        memory.resize_with(length, || self.rng.byte());
        Case {
            call: Call::Read,
            memory,
        }
    }

    pub fn checking(&mut self) -> Case {
        let length = match self.rng.below(20) {
            0..=4 => self.rng.below(5),
            5..=9 => self.rng.within(252, 258),
            10 if self.rng.percent(5) => self.rng.within(65_533, 65_539),
            _ => self.any_length(),
        };
        Case {
            call: Call::Check,
            memory: self.contents(length),
        }
    }

    fn any_length(&mut self) -> usize {
        let borders = [0, 254, 255, 256, 257, 511, 512, 513, 767, 768, 769, 1024];
        match self.rng.below(10) {
            0..=3 => self.rng.pick(&borders),
            4 => self.rng.within(4090, 4100),
            _ => self.rng.within(0, 1100),
        }
    }

    /// Memory before a call that does not read copies in it.
    fn contents(&mut self, length: usize) -> Vec<u8> {
        match self.rng.below(5) {
            0 => vec![self.rng.pick(&[0x00, 0xA5, 0xFF]); length],
            1 => {
                let mut copies = self.copies();
                copies.resize_with(length, || self.rng.byte());
                copies
            }
            _ => self.bytes(length),
        }
    }

    fn bytes(&mut self, length: usize) -> Vec<u8> {
        (0..length).map(|_| self.rng.byte()).collect()
    }
}

/// Parts.
impl Generator {
    pub fn part(&mut self) -> Part {
        match self.rng.below(10) {
            0 => Part::FM25S005BI3,
            1 => Part::BENCH,
            2..=4 => self.unsound_part(),
            _ => self.sound_part(),
        }
    }

    pub fn sound_part(&mut self) -> Part {
        let rng = &mut self.rng;
        let any = rng.within(1, 4096);
        let page = rng.pick(&[1, 4096, any, any]);
        let any = rng.within(1, page);
        let data = rng.pick(&[1, page, any, any]);
        let any = rng.within(1, 256);
        let pages = rng.pick(&[1, 255, 256, any, any]);
        let any = rng.within(1, 65_536 / pages);
        let blocks = rng.pick(&[1, 65_536 / pages, any, any]);
        Part {
            data: data as u32,
            spare: (page - data) as u32,
            pages: pages as u32,
            blocks: blocks as u32,
            identity: [rng.byte(), rng.byte()],
            stepping: rng.pick(&[Stepping::First, Stepping::Second]),
        }
    }

    /// A part just beyond a border, or far.
    pub fn unsound_part(&mut self) -> Part {
        loop {
            let mut part = self.sound_part();
            let far = self.number();
            match self.rng.below(16) {
                0 => part.data = 0,
                1 => (part.data, part.spare) = (0, 0),
                2 => part.spare = 4097 - part.data,
                3 => part.data = 4097 - part.spare,
                4 => part.data = far,
                5 => part.spare = far,
                6 => part.pages = 0,
                7 => (part.pages, part.blocks) = (257, self.rng.within(1, 255) as u32),
                8 => part.pages = far,
                9 => part.blocks = 0,
                10 => part.blocks = 65_536 / part.pages + 1,
                11 => part.blocks = far,
                12 => (part.pages, part.blocks) = (1, 65_537),
                // A sum or a product that comes out small in 32 bits.
                13 | 14 => (part.data, part.spare) = (part.data.wrapping_neg(), 2 * part.data),
                _ => {
                    part.pages = 1 << self.rng.within(0, 8);
                    part.blocks = (u32::MAX / part.pages).wrapping_add(1 + far % 8);
                }
            }
            if !part.is_sound() {
                return part;
            }
        }
    }

    /// Any number, often one at a border.
    fn number(&mut self) -> u32 {
        let borders = [0, 1, 255, 256, 257, 4096, 4097, 65_535, 65_536, u32::MAX];
        match self.rng.below(4) {
            0 => self.rng.pick(&borders),
            1 => 1 << self.rng.below(32),
            _ => self.rng.next() as u32,
        }
    }
}

/// Copies.
impl Generator {
    /// Three copies, of which each holds or not; now and then a fourth, which is one too many.
    pub fn copies(&mut self) -> Vec<u8> {
        let count = self.rng.pick(&[3, 3, 4]);
        let alike = self.rng.percent(30).then(|| page_of(self.sound_part()));
        let first = self.rng.below(count + 1);
        let mut copies = Vec::new();
        for copy in 0..count {
            let good = match &alike {
                Some(page) => page.clone(),
                None => self.good_copy(),
            };
            let holds = copy == first || copy > first && self.rng.percent(60);
            let copy = match holds {
                true => good,
                false => self.bad_copy(good),
            };
            copies.extend(copy);
        }
        match self.rng.below(30) {
            0 => copies.rotate_right(1),
            1 => copies.rotate_left(1),
            _ => {}
        }
        copies
    }

    /// A made page; or another with a right check, whose numbers need not be those of a sound part.
    pub fn good_copy(&mut self) -> Vec<u8> {
        let mut page = page_of(self.sound_part());
        match self.rng.below(6) {
            0 => {
                page = self.bytes(PAGE);
                page[..4].copy_from_slice(b"ONFI");
            }
            1 => {
                for place in [80, 84, 92, 96] {
                    let number = self.number().to_le_bytes();
                    page[place..place + 4].copy_from_slice(&number);
                }
            }
            2 => {
                let place = self.rng.within(4, 253);
                page[place] = self.rng.byte();
            }
            3 => {
                // The polynomial, added anywhere: the check stays as it was.
                let first = self.rng.within(4 * 8, 254 * 8 - 17);
                for bit in [0, 1, 14, 16].map(|bit| first + bit) {
                    page[bit / 8] ^= 0x80 >> (bit % 8);
                }
                return page;
            }
            _ => return page,
        }
        mend(&mut page);
        page
    }

    /// A copy that, but for chance, does not hold, made of one that does.
    pub fn bad_copy(&mut self, mut page: Vec<u8>) -> Vec<u8> {
        let kind = self.rng.below(20);
        match kind {
            0 => self.flip(&mut page),
            1 => (0..self.rng.within(2, 5)).for_each(|_| self.flip(&mut page)),
            2 => {
                let place = self.place();
                page[place] = self.rng.byte();
            }
            3 => {
                for _ in 0..self.rng.within(2, 20) {
                    let place = self.place();
                    page[place] = self.rng.byte();
                }
            }
            4 | 5 => {
                let place = self.rng.below(4);
                page[place] ^= 1 << self.rng.below(8);
                mend(&mut page);
            }
            6 => {
                page[..4].copy_from_slice(&self.rng.pick(&[*b"INFO", *b"onfi", [0; 4], [0xFF; 4]]));
                mend(&mut page);
            }
            7 => page.swap(254, 255),
            8..=16 => {
                let check = self.wrong_check(&page, kind);
                page[254..].copy_from_slice(&check.to_le_bytes());
            }
            17 => {
                let other = self.good_copy();
                let place = self.rng.within(1, 255);
                page[place..].copy_from_slice(&other[place..]);
            }
            18 => page.fill(self.rng.pick(&[0x00, 0xA5, 0xFF])),
            _ => {
                page = self.bytes(PAGE);
                if self.rng.percent(50) {
                    page[..4].copy_from_slice(b"ONFI");
                }
            }
        }
        page
    }

    /// A check that is wrong in one thing.
    fn wrong_check(&mut self, page: &[u8], kind: usize) -> u16 {
        let onfi = Form::ONFI;
        let before = &page[..254];
        match kind {
            8 => onfi.check(&page[..253]),
            9 => onfi.check(&[before, &[0]].concat()),
            10 => onfi.check(&page[4..254]),
            11 => !onfi.check(before),
            12 => onfi.check(before).wrapping_add(1),
            13 => Form {
                start: self.rng.pick(&[0x4F4F, 0x4E4F, 0x0000, 0xFFFF]),
                ..onfi
            }
            .check(before),
            14 => Form {
                polynomial: self.rng.pick(&[0x8004, 0x8007, 0x1021, 0xA001]),
                ..onfi
            }
            .check(before),
            15 => Form {
                lowest_first: true,
                ..onfi
            }
            .check(before),
            _ => self.rng.word(),
        }
    }

    /// A bit of a page is flipped.
    fn flip(&mut self, page: &mut [u8]) {
        page[self.place()] ^= 1 << self.rng.below(8);
    }

    /// A place in a page, often one that is looked at in its own right.
    fn place(&mut self) -> usize {
        match self.rng.below(6) {
            0 => self.rng.below(4),
            1 => self.rng.within(80, 99),
            2 => self.rng.within(252, 255),
            _ => self.rng.below(PAGE),
        }
    }
}
