//! The parameter page: the proved library against the model that works bit by bit, on every byte of
//! the lent memory; and that such a test can fail.
//!
//! Seed and number of cases are those of `differential.rs`. A case on which two subjects differ is
//! shrunk and printed with all that is needed to run it again.

mod support;

use sleetanvil::paper::{page, Part};
use sleetanvil::raw;
use support::hunt::{cases, seed};
use support::paging::{difference, hunt, library, model, page_of, plain, sizes};
use support::paging::{Call, Case, Generator, Outcome, PAGE};

#[test]
fn calls_agree() {
    let seed = seed();
    if let Some((number, case)) = hunt(&library, &model, seed, cases()) {
        let difference = difference(&case, &library, &model).unwrap_or_default();
        panic!("seed {seed}, case {number}: {difference}\n{case}");
    }
}

/// As two other programs have them.
#[test]
fn known_checks() {
    assert_eq!(raw::page_check(b"123456789"), 0x2771);
    assert_eq!(raw::page_check(&[]), 0x4F4E);
    for (part, check) in [(Part::FM25S005BI3, 0xB77C), (Part::BENCH, 0xF954)] {
        let mut page = [0xA5; PAGE];
        assert_eq!(raw::page_make(part.into(), &mut page), 0);
        assert_eq!(raw::page_check(&page[..254]), check);
        assert_eq!(page[254..], check.to_le_bytes());
        assert_eq!(page[..], page_of(part));
    }
}

/// All stretches of one byte and of two: every entry of a table, and each behind each.
#[test]
fn every_short_stretch() {
    for first in 0..=255 {
        assert_eq!(raw::page_check(&[first]), page::check(&[first]));
        for second in 0..=255 {
            let bytes = [first, second];
            assert_eq!(raw::page_check(&bytes), page::check(&bytes), "{bytes:?}");
        }
    }
}

/// Memory of every length, with three good copies, with none, and for the maker.
#[test]
fn every_length() {
    for length in 0..=1100 {
        let (copies, blank) = (plain(length), vec![0xA5; length]);
        let make = Call::Make(Part::BENCH.into());
        let [short, shorter] = [length < 768, length < 256];
        let refusals = [
            (copies.clone(), Call::Read, if short { 11 } else { 0 }),
            (blank, Call::Read, if short { 11 } else { 10 }),
            (copies, make, if shorter { 11 } else { 0 }),
        ];
        for (memory, call, refusal) in refusals {
            let case = Case { call, memory };
            let outcome = library(&case);
            assert_eq!(outcome.refusal, refusal, "{case}");
            assert_eq!(outcome, model(&case), "{case}");
            let made = refusal == 0 && call != Call::Read;
            let stay = if made { PAGE } else { 0 };
            assert_eq!(outcome.memory[stay..], case.memory[stay..], "{case}");
        }
    }
}

/// Each byte of a copy at each other value: the copy no longer holds, and the next is taken.
#[test]
fn every_changed_byte_is_noticed() {
    let parts = [Part::FM25S005BI3, Part::BENCH, sized(4096, 0, 256, 256)];
    let good: Vec<u8> = parts.into_iter().flat_map(page_of).collect();
    for damaged in 0..3 {
        let mut memory = good.clone();
        for copy in 0..damaged {
            memory[copy * PAGE] ^= 0xFF;
        }
        let expected = match parts.get(damaged + 1) {
            Some(next) => (0, damaged as u8 + 1, sizes_of(next)),
            None => (10, 0, [0; 4]),
        };
        for place in damaged * PAGE..(damaged + 1) * PAGE {
            for change in 1..=255 {
                memory[place] ^= change;
                let answer = raw::page_read(&memory);
                let got = (answer.refusal, answer.copy, sizes(answer));
                assert_eq!(got, expected, "byte {place} changed by {change:02X}h");
                memory[place] ^= change;
            }
        }
    }
}

fn sizes_of(part: &Part) -> [u32; 4] {
    [part.data, part.spare, part.pages, part.blocks]
}

/// P, and K times N.
fn total(part: &Part) -> u64 {
    u64::from(part.data) + u64::from(part.spare)
}

fn rows(part: &Part) -> u64 {
    u64::from(part.pages) * u64::from(part.blocks)
}

fn sized(data: u32, spare: u32, pages: u32, blocks: u32) -> Part {
    Part {
        data,
        spare,
        pages,
        blocks,
        ..Part::BENCH
    }
}

/// The copies that hold, in every combination: the first of them is taken, as it stands.
#[test]
fn first_copy_that_holds() {
    let seed = seed() ^ 1;
    for number in 0..cases() / 50 {
        let mut generator = Generator::new(seed, number);
        let pages: [Vec<u8>; 3] = std::array::from_fn(|_| generator.good_copy());
        for holding in 0..8 {
            let mut memory = pages.concat();
            for copy in (0..3).filter(|copy| holding & 1 << copy == 0) {
                memory[copy * PAGE + generator.rng.below(PAGE)] ^= 1 << generator.rng.below(8);
            }
            let answer = raw::page_read(&memory);
            let what = format!("seed {seed}, case {number}, copies {holding:03b}");
            let Some(first) = (0..3).find(|copy| holding & 1 << copy != 0) else {
                assert_eq!(answer.refusal, 10, "{what}");
                continue;
            };
            assert_eq!((answer.refusal, answer.copy), (0, first), "{what}");
            let stands = |place, length| {
                let mut bytes = [0; 4];
                bytes[..length].copy_from_slice(&pages[usize::from(first)][place..place + length]);
                u32::from_le_bytes(bytes)
            };
            let four = [stands(80, 4), stands(84, 2), stands(92, 4), stands(96, 4)];
            assert_eq!(sizes(answer), four, "{what}");
        }
    }
}

/// What is made of a sound part is read again, from each of the three places.
#[test]
fn made_pages_are_read() {
    let seed = seed() ^ 2;
    for number in 0..cases() / 20 {
        let mut generator = Generator::new(seed, number);
        let part = generator.sound_part();
        let copy = generator.rng.below(3);
        let mut memory = vec![generator.rng.byte(); 3 * PAGE];
        let made = raw::page_make(part.into(), &mut memory[copy * PAGE..]);
        let answer = raw::page_read(&memory);
        let what = format!("seed {seed}, case {number}, {part:?}");
        assert_eq!((made, answer.refusal), (0, 0), "{what}");
        assert_eq!(usize::from(answer.copy), copy, "{what}");
        assert_eq!(sizes(answer), sizes_of(&part), "{what}");
    }
}

/// That the test can fail: models that are wrong in one thing.
mod wrong {
    use super::*;
    use support::paging::{mend, Form};

    /// The request, rule by rule, so that each can be another one.
    #[derive(Clone, Copy)]
    struct Rules {
        form: Form,
        /// Zeros behind the bytes of a check, and what is added to it at the end.
        zeros: usize,
        added: u16,
        /// The bytes that a page's check goes over.
        from: usize,
        to: usize,
        check_high_first: bool,
        /// Places and lengths of D, S, K and N.
        numbers: [(usize, usize); 4],
        high_first: bool,
        maker: Maker,
        reader: Reader,
    }

    #[derive(Clone, Copy)]
    struct Maker {
        sound: fn(&Part) -> bool,
        /// How long the memory is at least and at most.
        least: usize,
        most: usize,
        length_first: bool,
        /// How many bytes are written; from 256 on, the page begins anew.
        writes: usize,
        model_length: usize,
        /// What manufacturer and model are padded with.
        pads: [u8; 2],
        /// A byte of the table at another value, mended before the check.
        other: Option<(usize, u8)>,
        identity: bool,
        /// What a refused call does to the memory.
        refused: fn(&mut [u8]),
    }

    #[derive(Clone, Copy)]
    struct Reader {
        least: usize,
        most: usize,
        copies_first: bool,
        /// How many bytes of the signature are asked.
        signature: usize,
        check: bool,
        /// The copies in the order in which they are looked at: number and place.
        copies: &'static [(u8, usize)],
        /// What else a copy has to be.
        also: fn(&[u8]) -> bool,
        /// Where no copy holds, the sizes of the last.
        sizes_of_last: bool,
        mends: bool,
    }

    const RIGHT: Rules = Rules {
        form: Form::ONFI,
        zeros: 0,
        added: 0,
        from: 0,
        to: 254,
        check_high_first: false,
        numbers: [(80, 4), (84, 2), (92, 4), (96, 4)],
        high_first: false,
        maker: MAKER,
        reader: READER,
    };

    const MAKER: Maker = Maker {
        sound: Part::is_sound,
        least: 256,
        most: usize::MAX,
        length_first: false,
        writes: 256,
        model_length: 20,
        pads: [0x20; 2],
        other: None,
        identity: false,
        refused: |_| {},
    };

    const READER: Reader = Reader {
        least: 768,
        most: usize::MAX,
        copies_first: false,
        signature: 4,
        check: true,
        copies: &[(0, 0), (1, 256), (2, 512)],
        also: |_| true,
        sizes_of_last: false,
        mends: false,
    };

    const fn form(form: Form) -> Rules {
        Rules { form, ..RIGHT }
    }

    const fn numbers(numbers: [(usize, usize); 4]) -> Rules {
        Rules { numbers, ..RIGHT }
    }

    const fn maker(maker: Maker) -> Rules {
        Rules { maker, ..RIGHT }
    }

    const fn reader(reader: Reader) -> Rules {
        Rules { reader, ..RIGHT }
    }

    const fn sound(sound: fn(&Part) -> bool) -> Rules {
        maker(Maker { sound, ..MAKER })
    }

    const fn refused(refused: fn(&mut [u8])) -> Rules {
        maker(Maker { refused, ..MAKER })
    }

    const fn copies(copies: &'static [(u8, usize)]) -> Rules {
        reader(Reader { copies, ..READER })
    }

    const fn other(place: usize, value: u8) -> Rules {
        maker(Maker {
            other: Some((place, value)),
            ..MAKER
        })
    }

    #[rustfmt::skip]
    const OF_CHECK: &[(&str, Rules)] = &[
        ("starts at 4F4Fh", form(Form { start: 0x4F4F, ..Form::ONFI })),
        ("starts at 0", form(Form { start: 0, ..Form::ONFI })),
        ("starts at FFFFh", form(Form { start: 0xFFFF, ..Form::ONFI })),
        ("has the start's bytes exchanged", form(Form { start: 0x4E4F, ..Form::ONFI })),
        ("has polynomial 8004h", form(Form { polynomial: 0x8004, ..Form::ONFI })),
        ("has polynomial 1021h", form(Form { polynomial: 0x1021, ..Form::ONFI })),
        ("has the lowest bit first", form(Form { lowest_first: true, ..Form::ONFI })),
        ("puts zeros behind", Rules { zeros: 2, ..RIGHT }),
        ("turns the check round", Rules { added: 0xFFFF, ..RIGHT }),
        ("checks 253 bytes", Rules { to: 253, ..RIGHT }),
        ("checks 255 bytes", Rules { to: 255, ..RIGHT }),
        ("checks without the signature", Rules { from: 4, ..RIGHT }),
        ("checks from byte 1 on", Rules { from: 1, ..RIGHT }),
        ("stores the high byte first", Rules { check_high_first: true, ..RIGHT }),
    ];

    #[rustfmt::skip]
    const OF_NUMBERS: &[(&str, Rules)] = &[
        ("exchanges D and N", numbers([(96, 4), (84, 2), (92, 4), (80, 4)])),
        ("exchanges K and N", numbers([(80, 4), (84, 2), (96, 4), (92, 4)])),
        ("has D in two bytes", numbers([(80, 2), (84, 2), (92, 4), (96, 4)])),
        ("has S in four bytes", numbers([(80, 4), (84, 4), (92, 4), (96, 4)])),
        ("has S in one byte", numbers([(80, 4), (84, 1), (92, 4), (96, 4)])),
        ("has S behind D's low half", numbers([(80, 2), (82, 2), (92, 4), (96, 4)])),
        ("has K at 88", numbers([(80, 4), (84, 2), (88, 4), (96, 4)])),
        ("has K in one byte", numbers([(80, 4), (84, 2), (92, 1), (96, 4)])),
        ("has K in two bytes", numbers([(80, 4), (84, 2), (92, 2), (96, 4)])),
        ("has N at 100", numbers([(80, 4), (84, 2), (92, 4), (100, 4)])),
        ("has N in two bytes", numbers([(80, 4), (84, 2), (92, 4), (96, 2)])),
        ("has N in three bytes", numbers([(80, 4), (84, 2), (92, 4), (96, 3)])),
        ("has numbers high byte first", Rules { high_first: true, ..RIGHT }),
    ];

    #[rustfmt::skip]
    const OF_MAKER: &[(&str, Rules)] = &[
        ("makes a page in 255 bytes", maker(Maker { least: 255, ..MAKER })),
        ("makes no page in 256 bytes", maker(Maker { least: 257, ..MAKER })),
        ("makes no page in 257 bytes", maker(Maker { most: 256, ..MAKER })),
        ("makes no page in less than 768 bytes", maker(Maker { least: 768, ..MAKER })),
        ("refuses with 11 before 1", maker(Maker { length_first: true, ..MAKER })),
        ("writes byte 256", maker(Maker { writes: 257, ..MAKER })),
        ("writes three copies", maker(Maker { writes: 768, ..MAKER })),
        ("leaves byte 255", maker(Maker { writes: 255, ..MAKER })),
        ("pads the manufacturer with 00h", maker(Maker { pads: [0x00, 0x20], ..MAKER })),
        ("pads the model with 00h", maker(Maker { pads: [0x20, 0x00], ..MAKER })),
        ("has a model of 21 bytes", maker(Maker { model_length: 21, ..MAKER })),
        ("has a model of 19 bytes", maker(Maker { model_length: 19, ..MAKER })),
        ("has the part's own identity", maker(Maker { identity: true, ..MAKER })),
        ("clears the memory as it refuses", refused(|memory| memory.fill(0))),
        ("signs as it refuses", refused(|memory| memory.iter_mut().take(1).for_each(|byte| *byte = 0x4F))),
        ("takes any part", sound(|_| true)),
        ("takes D 0", sound(|part| soundly(part.data.max(1), part.spare, part.pages, part.blocks))),
        ("takes P 4097", sound(|part| soundly(part.data, part.spare.max(1) - 1, part.pages, part.blocks))),
        ("takes no P 4096", sound(|part| part.is_sound() && total(part) != 4096)),
        ("takes K 0", sound(|part| soundly(part.data, part.spare, part.pages.max(1), part.blocks))),
        ("takes K 257", sound(|part| part.is_sound() || soundly(part.data, part.spare, 1, part.blocks) && part.pages == 257)),
        ("takes no K 256", sound(|part| part.is_sound() && part.pages != 256)),
        ("takes N 0", sound(|part| soundly(part.data, part.spare, part.pages, part.blocks.max(1)))),
        ("takes K N 65537", sound(|part| part.is_sound() || soundly(part.data, part.spare, 1, 1) && rows(part) == 65_537)),
        ("takes no K N 65536", sound(|part| part.is_sound() && rows(part) != 65_536)),
        ("adds D and S in 32 bits", sound(|part| {
            let total = part.data.wrapping_add(part.spare);
            part.data > 0 && soundly(total, 0, part.pages, part.blocks)
        })),
        ("multiplies K and N in 32 bits", sound(|part| {
            let rows = part.pages.wrapping_mul(part.blocks);
            part.blocks > 0 && soundly(part.data, part.spare, part.pages, 1) && rows <= 65_536
        })),
        ("has no unit", other(100, 0x00)),
        ("has an erase time of its own", other(136, 0x26)),
        ("has an A5h among the zeros", other(111, 0xA5)),
        ("has an A5h before the check", other(253, 0xA5)),
    ];

    #[rustfmt::skip]
    const OF_READER: &[(&str, Rules)] = &[
        ("reads 767 bytes", reader(Reader { least: 767, ..READER })),
        ("reads any bytes", reader(Reader { least: 0, ..READER })),
        ("does not read 768 bytes", reader(Reader { least: 769, ..READER })),
        ("does not read 769 bytes", reader(Reader { most: 768, ..READER })),
        ("refuses with 10 before 11", reader(Reader { copies_first: true, ..READER })),
        ("asks for no signature", reader(Reader { signature: 0, ..READER })),
        ("asks for three bytes of the signature", reader(Reader { signature: 3, ..READER })),
        ("asks for no check", reader(Reader { check: false, ..READER })),
        ("takes the last copy", copies(&[(2, 512), (1, 256), (0, 0)])),
        ("looks at the first copy alone", copies(&[(0, 0)])),
        ("looks at two copies", copies(&[(0, 0), (1, 256)])),
        ("looks at four copies", copies(&[(0, 0), (1, 256), (2, 512), (3, 768)])),
        ("looks at the third copy before the second", copies(&[(0, 0), (2, 512), (1, 256)])),
        ("looks for the second copy at 255", copies(&[(0, 0), (1, 255), (2, 512)])),
        ("looks for the third copy at 513", copies(&[(0, 0), (1, 256), (2, 513)])),
        ("counts copies from 1", copies(&[(1, 0), (2, 256), (3, 512)])),
        ("calls the third copy the second", copies(&[(0, 0), (1, 256), (1, 512)])),
        ("asks for sound numbers", reader(Reader { also: sound_numbers, ..READER })),
        ("asks for the manufacturer", reader(Reader { also: |page| page[64] == 0xA1, ..READER })),
        ("asks for zeros", reader(Reader { also: |page| page[253] == 0, ..READER })),
        ("answers sizes where no copy holds", reader(Reader { sizes_of_last: true, ..READER })),
        ("mends the copies", reader(Reader { mends: true, ..READER })),
    ];

    fn soundly(data: u32, spare: u32, pages: u32, blocks: u32) -> bool {
        sized(data, spare, pages, blocks).is_sound()
    }

    fn sound_numbers(page: &[u8]) -> bool {
        let [data, spare, pages, blocks] = RIGHT.sizes(page);
        soundly(data, spare, pages, blocks)
    }

    impl Rules {
        fn take(&self, case: &Case) -> Outcome {
            let mut outcome = Outcome {
                memory: case.memory.clone(),
                ..Outcome::default()
            };
            match case.call {
                Call::Make(part) => self.make(&part.into(), &mut outcome),
                Call::Read => self.read(&mut outcome),
                Call::Check => outcome.check = self.check(&case.memory),
            }
            outcome
        }

        fn check(&self, bytes: &[u8]) -> u16 {
            let bytes = [bytes, &vec![0; self.zeros]].concat();
            self.form.check(&bytes) ^ self.added
        }

        fn stored(&self, page: &[u8]) -> [u8; 2] {
            let check = self.check(&page[self.from..self.to]);
            match self.check_high_first {
                true => check.to_be_bytes(),
                false => check.to_le_bytes(),
            }
        }

        fn make(&self, part: &Part, outcome: &mut Outcome) {
            let bad = !(self.maker.sound)(part);
            let lengths = self.maker.least..=self.maker.most;
            let short = !lengths.contains(&outcome.memory.len());
            outcome.refusal = match (bad, short) {
                (true, true) => [1, 11][usize::from(self.maker.length_first)],
                (true, false) => 1,
                (false, true) => 11,
                (false, false) => 0,
            };
            if outcome.refusal != 0 {
                return (self.maker.refused)(&mut outcome.memory);
            }
            let page = self.page(part);
            let bytes = outcome.memory.iter_mut().zip(page.iter().cycle());
            for (byte, value) in bytes.take(self.maker.writes) {
                *byte = *value;
            }
        }

        fn page(&self, part: &Part) -> Vec<u8> {
            let mut page = page_of(Part::BENCH);
            page[80..100].fill(0);
            for (size, (place, length)) in sizes_of(part).into_iter().zip(self.numbers) {
                let field = &mut page[place..place + length];
                field.copy_from_slice(&size.to_le_bytes()[..length]);
                if self.high_first {
                    field.reverse();
                }
            }
            let [of_manufacturer, of_model] = self.maker.pads;
            page[42..44].fill(of_manufacturer);
            page[63] = 0x00;
            page[55..44 + self.maker.model_length].fill(of_model);
            if self.maker.identity {
                page[64] = part.identity[0];
            }
            if let Some((place, value)) = self.maker.other {
                page[place] = value;
            }
            page[254..].fill(0);
            let stored = self.stored(&page);
            page[254..].copy_from_slice(&stored);
            page
        }

        fn read(&self, outcome: &mut Outcome) {
            let Outcome { memory, .. } = outcome;
            let lengths = self.reader.least..=self.reader.most;
            let short = !lengths.contains(&memory.len());
            let copies = self.reader.copies.iter().filter_map(|(number, place)| {
                let page = memory.get(*place..place + PAGE)?;
                Some((*number, page))
            });
            let copies: Vec<_> = copies.collect();
            let found = copies.iter().find(|(_, page)| self.holds(page));
            let answer = match (found, short) {
                (None, true) if self.reader.copies_first => Err(10),
                (_, true) => Err(11),
                (None, false) => Err(10),
                (Some(found), false) => Ok(*found),
            };
            match answer {
                Ok((number, page)) => (outcome.copy, outcome.sizes) = (number, self.sizes(page)),
                Err(refusal) => {
                    outcome.refusal = refusal;
                    if let (true, Some((_, page))) = (self.reader.sizes_of_last, copies.last()) {
                        outcome.sizes = self.sizes(page);
                    }
                }
            }
            if self.reader.mends && outcome.refusal == 0 {
                mend(&mut outcome.memory[..PAGE]);
            }
        }

        fn holds(&self, page: &[u8]) -> bool {
            let signed = page.starts_with(&b"ONFI"[..self.reader.signature]);
            let checked = !self.reader.check || page[254..] == self.stored(page);
            signed && checked && (self.reader.also)(page)
        }

        fn sizes(&self, page: &[u8]) -> [u32; 4] {
            self.numbers.map(|(place, length)| {
                let mut bytes = [0; 4];
                bytes[..length].copy_from_slice(&page[place..place + length]);
                if self.high_first {
                    bytes[..length].reverse();
                }
                u32::from_le_bytes(bytes)
            })
        }
    }

    /// How many cases are enough to find each.
    const CASES: u64 = 4000;

    fn each_is_found(impostors: &[(&str, Rules)]) {
        for (name, rules) in impostors {
            let found = hunt(&|case| rules.take(case), &model, 1, CASES);
            assert!(found.is_some(), "not found: a model that {name}");
        }
    }

    #[test]
    fn each_check_is_found() {
        each_is_found(OF_CHECK);
    }

    #[test]
    fn each_number_is_found() {
        each_is_found(OF_NUMBERS);
    }

    #[test]
    fn each_maker_is_found() {
        each_is_found(OF_MAKER);
    }

    #[test]
    fn each_reader_is_found() {
        each_is_found(OF_READER);
    }

    /// A wrong check is found by its own call, by the maker and by the reader.
    #[test]
    fn wrong_checks_are_found_by_every_call() {
        for (name, rules) in OF_CHECK {
            let differs =
                |case: Case| difference(&case, &|case| rules.take(case), &model).is_some();
            let finds = |case: fn(&mut Generator) -> Case| {
                (0..400).any(|number| differs(case(&mut Generator::new(2, number))))
            };
            let form = rules.form.check(b"1") != Form::ONFI.check(b"1");
            let of_any = form || rules.zeros != 0 || rules.added != 0;
            assert_eq!(finds(Generator::checking), of_any, "a check that {name}");
            assert!(finds(Generator::making), "a check that {name}");
            assert!(finds(Generator::reading), "a check that {name}");
        }
    }

    #[test]
    fn the_rules_themselves_are_not() {
        assert!(hunt(&|case| RIGHT.take(case), &model, 1, CASES).is_none());
    }

    #[test]
    fn what_is_found_is_shrunk() {
        let rules = copies(&[(0, 0), (1, 256)]);
        let (_, case) = hunt(&|case| rules.take(case), &model, 1, CASES).expect("it is found");
        assert_eq!(case.memory.len(), 768);
        let plain = plain(768);
        let changed = (0..768).filter(|place| case.memory[*place] != plain[*place]);
        assert!(changed.count() <= 8, "{case}");
    }
}

/// That the generator leaves nothing out.
mod completeness {
    use super::*;

    const CASES: u64 = 5000;

    /// Each refusal of each call, each copy, and refusals that could be two.
    #[test]
    fn every_answer_is_reached() {
        let (mut makes, mut reads, mut copies) = ([0; 12], [0; 12], [0; 3]);
        let (mut bad_and_short, mut good_and_short, mut behind) = (0, 0, 0);
        let mut checks = 0;
        for number in 0..CASES {
            let case = Generator::new(seed() ^ 3, number).case();
            let outcome = model(&case);
            let refusal = usize::from(outcome.refusal);
            let length = case.memory.len();
            match case.call {
                Call::Make(part) => {
                    makes[refusal] += 1;
                    bad_and_short += u32::from(!Part::from(part).is_sound() && length < 256);
                }
                Call::Read => {
                    reads[refusal] += 1;
                    if refusal == 0 {
                        copies[usize::from(outcome.copy)] += 1;
                    }
                    let mut whole = case.memory.clone();
                    whole.resize(768, 0);
                    good_and_short += u32::from(length < 768 && page::read(&whole).is_ok());
                    let fourth = case.memory.get(256..1024).map(page::read);
                    behind += u32::from(refusal == 10 && matches!(fourth, Some(Ok(_))));
                }
                Call::Check => checks += 1,
            }
        }
        let seen = |counts: [u32; 12], refusals: &[usize], least| {
            let counts = refusals.iter().map(|&refusal| counts[refusal]);
            counts.min() > Some(least)
        };
        assert!(seen(makes, &[0, 1, 11], 200), "{makes:?}");
        assert!(seen(reads, &[0, 10, 11], 200), "{reads:?}");
        assert!(copies.iter().all(|&taken| taken > 100), "{copies:?}");
        let two = [bad_and_short, good_and_short, behind];
        assert!(two.iter().all(|&seen| seen > 20), "{two:?}");
        assert!(checks > 500, "{checks}");
    }

    /// Each border of a part, on both sides.
    #[test]
    fn every_border_is_reached() {
        type Border = (&'static str, fn(&Part) -> bool);
        let borders: [Border; 14] = [
            ("D 0", |part| part.data == 0),
            ("D 1", |part| part.data == 1 && part.is_sound()),
            ("S 0", |part| part.spare == 0 && part.is_sound()),
            ("P 4096", |part| total(part) == 4096 && part.is_sound()),
            ("P 4097", |part| total(part) == 4097),
            ("K 0", |part| part.pages == 0),
            ("K 256", |part| part.pages == 256 && part.is_sound()),
            ("K 257", |part| part.pages == 257 && rows(part) <= 65_536),
            ("N 0", |part| part.blocks == 0),
            ("N 65536", |part| part.blocks == 65_536 && part.is_sound()),
            ("K N 65536", |part| rows(part) == 65_536 && part.is_sound()),
            ("K N 65537", |part| rows(part) == 65_537),
            ("P small in 32 bits", |part| total(part) > u32::MAX.into()),
            ("K N small in 32 bits", |part| {
                let small = part.pages.wrapping_mul(part.blocks) <= 65_536;
                rows(part) > u32::MAX.into() && small && part.pages <= 256
            }),
        ];
        let mut seen = borders.map(|_| 0);
        for number in 0..CASES {
            let part = Generator::new(seed() ^ 4, number).part();
            for (seen, (_, at)) in seen.iter_mut().zip(&borders) {
                *seen += u32::from(at(&part));
            }
        }
        for (seen, (name, _)) in seen.iter().zip(&borders) {
            assert!(*seen >= 20, "{name}: {seen}");
        }
    }

    /// Good copies hold, and of the bad ones nearly none does.
    #[test]
    fn copies_are_what_they_are_called() {
        let mut by_chance = 0;
        for number in 0..CASES {
            let mut generator = Generator::new(seed() ^ 5, number);
            let good = generator.good_copy();
            let bad = generator.bad_copy(good.clone());
            let holds = |page: &[u8]| page::read(&page.repeat(3)).is_ok();
            assert!(holds(&good), "case {number}");
            by_chance += u32::from(holds(&bad));
        }
        assert!(by_chance < CASES as u32 / 50, "{by_chance}");
    }
}
