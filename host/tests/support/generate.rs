//! Random parts, states, memories and logs, sound and not.

use sleetanvil::case::{Case, Fill};
use sleetanvil::{paper, Geometry, State, Stepping};

use super::rng::Rng;

/// The units of a reset, on every part.
const RESET_UNITS: usize = 8;

/// The codes that the state keeps.
pub const CODES: [u8; 12] = [
    0x06, 0x04, 0x0F, 0x1F, 0x9F, 0x13, 0x03, 0x02, 0x84, 0x10, 0xD8, 0xFF,
];

/// A source of cases.
pub struct Generator {
    pub rng: Rng,
}

impl Generator {
    pub fn new(seed: u64, case: u64) -> Self {
        Generator {
            rng: Rng::new(seed, case),
        }
    }

    /// Any case.
    pub fn case(&mut self) -> Case {
        let geometry = self.geometry();
        let mut case = Case::power_up(geometry, &[]);
        self.fill(&mut case);
        if self.rng.percent(5) {
            self.break_length(&mut case);
        }
        case.state = self.state(&geometry);
        self.with_log(case)
    }

    /// A case that is not refused before its first record.
    pub fn sound_case(&mut self) -> Case {
        let geometry = self.sound_geometry();
        let mut case = Case::power_up(geometry, &[]);
        self.fill(&mut case);
        case.state = self.sound_state(&geometry);
        self.with_log(case)
    }

    /// The case with a log and room for its output. A cache read that is under way mostly goes on.
    fn with_log(&mut self, mut case: Case) -> Case {
        let State {
            selected,
            instruction,
            count,
            column,
            ..
        } = case.state;
        if (selected, instruction) == (1, 0x03) && count >= 4 && self.rng.percent(70) {
            let bytes = answers(&mut self.rng, &case.geometry, column);
            case.log = (0..bytes).flat_map(|_| [2, self.rng.byte()]).collect();
            if self.rng.percent(80) {
                case.log.push(3);
            }
        }
        case.log.extend(self.log(&case.geometry));
        case.room = self.room(&case.log);
        case
    }

    /// The output room: enough for the log, or not.
    fn room(&mut self, log: &[u8]) -> usize {
        let most = log.len() / 2;
        match self.rng.below(10) {
            0 => self.rng.within(0, most),
            1 => self.rng.below(4),
            2 => most + self.rng.below(4),
            _ => most,
        }
    }
}

/// Parts.
impl Generator {
    pub fn geometry(&mut self) -> Geometry {
        if self.rng.percent(95) {
            self.sound_geometry()
        } else {
            self.unsound_geometry()
        }
    }

    /// A sound part, half of them of the second stepping.
    pub fn sound_geometry(&mut self) -> Geometry {
        let rng = &mut self.rng;
        let stepping = rng.pick(&[Stepping::First, Stepping::Second]);
        let (data, spare, pages, blocks) = match rng.below(20) {
            0 | 1 => return Geometry::bench().with_stepping(stepping),
            2 => (1, 0, 1, 1),
            3 => {
                let page = rng.within(250, 4096);
                let data = rng.within(1, page);
                (data, page - data, rng.within(1, 2), rng.within(1, 2))
            }
            4 if rng.percent(3) => rng.pick(&[
                (1, 0, 256, 256),
                (1, 0, 1, 65_536),
                (4000, 96, 17, 1),
                (300, 1, 256, 1),
            ]),
            4 => (4096 - 4095 * rng.below(2), 0, rng.within(1, 3), 1),
            5 => (rng.within(1, 3), 0, 256, rng.within(1, 2)),
            6 => (1, rng.below(2), 1, rng.within(200, 600)),
            7 => (rng.within(100, 300), rng.below(40), 2, rng.within(1, 3)),
            8 => (rng.within(1, 3), 0, rng.within(1, 2), rng.within(18, 140)),
            _ => (
                rng.within(1, 20),
                rng.below(6),
                rng.within(1, 5),
                rng.within(1, 17),
            ),
        };
        let mut geometry = Geometry {
            data: data as u32,
            spare: spare as u32,
            pages: pages as u32,
            blocks: blocks as u32,
            stepping,
            ..Geometry::bench()
        };
        geometry.identity = [self.rng.byte(), self.rng.byte()];
        geometry
    }

    /// A geometry with one bound broken, or any numbers that are not sound.
    pub fn unsound_geometry(&mut self) -> Geometry {
        loop {
            let mut geometry = self.sound_geometry();
            let rng = &mut self.rng;
            let huge = [u32::MAX, 0x8000_0000, 0x0100_0000, 0x0001_0000, 4097, 257];
            let large = rng.pick(&huge).wrapping_sub(rng.below(3) as u32);
            match rng.below(10) {
                0 => geometry.data = 0,
                1 => geometry.data = large,
                2 => geometry.spare = large,
                3 => geometry.spare = 4097 - geometry.data,
                4 => geometry.pages = 0,
                5 => geometry.pages = large,
                6 => geometry.blocks = 0,
                7 => geometry.blocks = large,
                8 => geometry.blocks = 65_536 / geometry.pages + 1,
                _ => {
                    // Sums and products that would come out small in 32 bits.
                    geometry.data = u32::MAX - rng.below(3) as u32;
                    geometry.spare = rng.within(1, 20) as u32;
                    geometry.pages = 1 << rng.within(0, 8);
                    geometry.blocks = (1 << rng.within(24, 31)) + rng.below(8) as u32;
                }
            }
            if !paper::Part::from(geometry).is_sound() {
                return geometry;
            }
        }
    }
}

/// Memories.
impl Generator {
    /// Memory of the right lengths; of some lengths for a geometry that is not sound.
    fn fill(&mut self, case: &mut Case) {
        let [cells, cache, counts] = paper::Part::from(case.geometry)
            .lengths()
            .unwrap_or_else(|| [40, 20, 2].map(|most| self.rng.within(0, most)));
        case.counts = Fill {
            len: counts,
            first: self.rng.byte(),
            step: self.rng.byte(),
            below: self.rng.pick(&[1, 1, 5, 6, 256]),
        };
        case.cells = self.contents(cells);
        case.cache = self.contents(cache);
    }

    fn contents(&mut self, len: usize) -> Fill {
        if self.rng.percent(20) {
            return Fill::constant(len, 0xFF);
        }
        Fill::counting(len, self.rng.byte(), self.rng.byte())
    }

    /// Memory of a length that is mostly not right.
    fn break_length(&mut self, case: &mut Case) {
        let lengths = [
            &mut case.cells.len,
            &mut case.cache.len,
            &mut case.counts.len,
        ];
        let which = self.rng.below(lengths.len());
        let other = self.rng.below(lengths.len());
        let (length, others) = (*lengths[which], *lengths[other]);
        match self.rng.below(5) {
            0 => *lengths[which] += 1,
            1 => *lengths[which] = length.saturating_sub(1),
            2 => *lengths[which] = 0,
            3 => *lengths[which] = others,
            _ => {
                *lengths[which] = others;
                *lengths[other] = length;
            }
        }
    }
}

/// States.
impl Generator {
    pub fn state(&mut self, geometry: &Geometry) -> State {
        match self.rng.below(20) {
            0 => self.unsound_state(geometry),
            1..=6 => paper::State::POWER_UP.into(),
            _ => self.sound_state(geometry),
        }
    }

    /// Any sound state: idle or not, between two bytes of a transfer or not, now and then two answers
    /// of a cache read.
    pub fn sound_state(&mut self, geometry: &Geometry) -> State {
        let rng = &mut self.rng;
        let mut state = State {
            a0: if rng.percent(50) {
                rng.byte() & a0_mask(geometry)
            } else {
                0
            },
            b0: rng.byte() & 0x11,
            c0: rng.byte() & 0x0E,
            d0: rng.byte() & 0x60,
            wp: rng.below(2) as u8,
            selected: rng.below(2) as u8,
            count: rng.below(6) as u8,
            first: rng.byte(),
            second: rng.byte(),
            third: rng.byte(),
            job: 0,
            instruction: instruction(rng),
            column: column(rng, geometry),
            ..paper::State::POWER_UP.into()
        };
        if rng.percent(40) {
            let job = rng.within(1, 4) as u8;
            begin_operation(rng, geometry, &mut state, job);
        } else if rng.percent(15) {
            state.selected = 1;
            state.count = rng.within(4, 5) as u8;
            state.instruction = 0x03;
            if rng.percent(50) {
                let page = sizes(geometry).0.min(4096) as u16;
                state.column = rng.pick(&[page - 1, page, 4096]);
            }
        }
        if let 0x13 | 0x10 | 0xD8 = state.instruction {
            let [_, high, low] = row_bytes(rng, geometry);
            (state.second, state.third) = (high, low);
        }
        state
    }

    /// A state with one clause of soundness broken, or several.
    pub fn unsound_state(&mut self, geometry: &Geometry) -> State {
        let mut state = self.sound_state(geometry);
        for _ in 0..20 {
            for _ in 0..self.rng.pick(&[1, 1, 1, 2, 4]) {
                self.break_clause(geometry, &mut state);
            }
            if !paper::State::from(state).is_sound(&(*geometry).into()) {
                break;
            }
            state = self.sound_state(geometry);
        }
        state
    }

    fn break_clause(&mut self, geometry: &Geometry, state: &mut State) {
        let rng = &mut self.rng;
        let (page, pages, rows) = sizes(geometry);
        match rng.below(22) {
            0 | 20 | 21 => state.a0 |= rng.pick(&[0x40, 0x02, 0x01]) & !a0_mask(geometry),
            1 => state.b0 |= rng.byte() & 0xEE,
            2 => state.c0 |= 0x10 << rng.below(4),
            3 => state.d0 |= rng.byte() & 0x9F,
            4 => state.c0 ^= 0x01,
            5 => state.count = rng.pick(&[6, 7, 255]),
            6 => state.column = rng.pick(&[4097, 4098, 0x8000, 0xFFFF]),
            7 => state.wp = rng.pick(&[2, 3, 255]),
            8 => state.selected = rng.pick(&[2, 128, 255]),
            9 => state.instruction = rng.pick(&[0, 1, 5, 0x0B, 0x55, 0x101, 0x106, 0x1FF, 0xFF06]),
            10 => state.job = rng.pick(&[5, 6, 255]),
            11 => (state.job, state.row) = (0, rng.word()),
            12 => (state.job, state.units) = (0, rng.pick(&[1, 20, usize::MAX])),
            13 => (state.job, state.units) = (1, page),
            14 => (state.job, state.units) = (2, rng.pick(&[page, page + 1, usize::MAX])),
            15 => (state.job, state.units) = (3, rng.pick(&[page * pages, usize::MAX])),
            16 => (state.job, state.row) = (rng.pick(&[2, 3]), rows.min(65_535) as u16),
            17 => {
                begin_operation(rng, geometry, state, 4);
                let long = page.max(RESET_UNITS);
                state.units =
                    rng.pick(&[RESET_UNITS, RESET_UNITS, RESET_UNITS + 1, long, usize::MAX]);
            }
            18 => {
                begin_operation(rng, geometry, state, 4);
                state.row = rng.pick(&[1, rows.min(65_535) as u16, rng.clone().word()]);
            }
            _ => {
                let job = rng.within(1, 4) as u8;
                begin_operation(rng, geometry, state, job);
                state.selected = 1;
                state.count = rng.within(1, 5) as u8;
                state.instruction = rng.pick(&CODES).into();
            }
        }
    }
}

/// The bits of A0h that a part of its stepping has.
fn a0_mask(geometry: &Geometry) -> u8 {
    match geometry.stepping {
        Stepping::First => 0xBC,
        Stepping::Second => 0xBE,
    }
}

/// Put a job in progress into a state, with an instruction that may be under way then.
fn begin_operation(rng: &mut Rng, geometry: &Geometry, state: &mut State, job: u8) {
    let (page, pages, rows) = sizes(geometry);
    state.c0 |= 0x01;
    state.job = job;
    let length = match job {
        3 => page * pages,
        4 => RESET_UNITS,
        _ => page,
    };
    state.units = match rng.below(3) {
        0 => 0,
        1 => length - 1,
        _ => rng.below(length),
    };
    let inside = rows.min(65_536);
    state.row = match job {
        1 if rng.percent(30) => rng.word(),
        4 => 0,
        _ => rng.pick(&[0, inside - 1, rng.clone().below(inside)]) as u16,
    };
    if state.selected == 1 && state.count > 0 {
        state.instruction = rng.pick(&[0x0F, 0x9F, 0xFF, State::IGNORED]);
    }
}

fn instruction(rng: &mut Rng) -> u16 {
    if rng.percent(10) {
        State::IGNORED
    } else {
        rng.pick(&CODES).into()
    }
}

/// The bytes of a page, the pages of a block and the rows, within reason for a geometry that is not
/// sound.
fn sizes(geometry: &Geometry) -> (usize, usize, usize) {
    let clamp = |number: u64| number.clamp(1, 70_000) as usize;
    let (data, spare) = (u64::from(geometry.data), u64::from(geometry.spare));
    let (pages, blocks) = (u64::from(geometry.pages), u64::from(geometry.blocks));
    (clamp(data + spare), clamp(pages), clamp(pages * blocks))
}

/// A column: within the page, at its end, past it, and at the last that two bytes can name.
fn column(rng: &mut Rng, geometry: &Geometry) -> u16 {
    let (page, ..) = sizes(geometry);
    let page = page.min(4096);
    let column = match rng.below(12) {
        0 => 0,
        1 => page.saturating_sub(2),
        2 | 3 => page - 1,
        4 => page,
        5 => page + 1,
        6 => rng.within(4090, 4095),
        7 => 4096,
        8 => rng.below(4097),
        _ => rng.below(page),
    };
    column.min(4096) as u16
}

/// The two bytes of a column, the top four bits as they come.
fn column_bytes(rng: &mut Rng, geometry: &Geometry) -> [u8; 2] {
    let column = column(rng, geometry).min(4095);
    let [high, low] = column.to_be_bytes();
    let ignored = if rng.percent(20) {
        rng.byte() & 0xF0
    } else {
        0
    };
    [high | ignored, low]
}

/// How many bytes a cache read answers from a column on: a few, the rest of the page or just more, a
/// page and more, more than two pages.
fn answers(rng: &mut Rng, geometry: &Geometry, column: u16) -> usize {
    let (page, ..) = sizes(geometry);
    let page = page.min(4096);
    let left = page.saturating_sub(column.into());
    let far = match rng.below(20) {
        0 | 1 => left,
        2..=4 => left + 1,
        5 | 6 => left + rng.within(2, 5),
        7 => page + 2,
        8 | 9 => 2 * page + rng.below(page + 2),
        _ => return rng.below(10),
    };
    // Long logs are few.
    if far > 300 && rng.percent(50) {
        return rng.below(10);
    }
    far
}

/// The bytes of a cache read.
pub fn cache_read(rng: &mut Rng, geometry: &Geometry) -> Vec<u8> {
    let [high, low] = column_bytes(rng, geometry);
    let column = u16::from_be_bytes([high & 0x0F, low]);
    let more = 1 + answers(rng, geometry, column);
    let mut bytes = vec![rng.pick(&[0x03, 0x0B]), high, low];
    bytes.extend((0..more).map(|_| rng.byte()));
    bytes
}

/// The three bytes of a row: mostly inside the array, and often one of a few, so that pages meet
/// again; now and then beside a border of protected blocks.
fn row_bytes(rng: &mut Rng, geometry: &Geometry) -> [u8; 3] {
    let (_, _, rows) = sizes(geometry);
    let row = match rng.below(10) {
        0..=2 => 0,
        3 | 4 => rows - 1,
        5 | 6 => rng.below(rows),
        7 => {
            let a0 = rng.byte();
            beside_the_border(rng, geometry, a0)
        }
        8 => rows + rng.below(3),
        _ => usize::from(rng.word()),
    };
    let [high, low] = (row as u16).to_be_bytes();
    [if rng.percent(80) { 0 } else { rng.byte() }, high, low]
}

/// A row at either side of the border between the blocks that A0h protects and the others; with a BP
/// number of 0, of the two halves.
fn beside_the_border(rng: &mut Rng, geometry: &Geometry, a0: u8) -> usize {
    let (_, pages, rows) = sizes(geometry);
    let divided = match a0 >> 3 & 7 {
        0 => 1,
        number => 7 - number,
    };
    let counted = ((rows / pages) >> divided) * pages;
    let border = match a0 & 0x04 {
        0 => rows - counted,
        _ => counted,
    };
    let row = if rng.percent(50) {
        border
    } else {
        border.saturating_sub(1)
    };
    row.min(rows - 1)
}

/// Logs.
impl Generator {
    /// A log: sound, cut short, damaged, or no log at all.
    pub fn log(&mut self, geometry: &Geometry) -> Vec<u8> {
        let steps = self.rng.pick(&[1, 2, 4, 8, 12, 20]);
        let mut log = self.sound_log(geometry, steps);
        match self.rng.below(20) {
            0 => log.truncate(self.rng.within(0, log.len())),
            1 | 2 => self.damage(&mut log),
            3 => log = self.noise(),
            4 => log.extend(self.rng.pick::<&[u8]>(&[
                &[0],
                &[7],
                &[5, 2],
                &[5],
                &[4, 1],
                &[2],
                &[0xFF],
            ])),
            _ => {}
        }
        log
    }

    /// A log without 6, 7 or 8 that has at most so many steps of a driver.
    pub fn sound_log(&mut self, geometry: &Geometry, steps: usize) -> Vec<u8> {
        let mut script = Script {
            rng: &mut self.rng,
            geometry,
            log: Vec::new(),
        };
        if script.rng.percent(45) {
            script.wake();
        }
        for _ in 0..script.rng.within(0, steps) {
            script.step();
        }
        script.log
    }

    fn damage(&mut self, log: &mut Vec<u8>) {
        for _ in 0..self.rng.within(1, 4) {
            if log.is_empty() {
                return;
            }
            let place = self.rng.below(log.len());
            match self.rng.below(5) {
                0 => log[place] = self.rng.byte(),
                1 => log[place] ^= 1 << self.rng.below(8),
                2 => log.insert(place, self.rng.byte()),
                3 => drop(log.remove(place)),
                _ => log[place] = self.rng.below(9) as u8,
            }
        }
    }

    fn noise(&mut self) -> Vec<u8> {
        let len = self.rng.below(80);
        (0..len)
            .map(|_| {
                if self.rng.percent(70) {
                    self.rng.within(1, 6) as u8
                } else {
                    self.rng.byte()
                }
            })
            .collect()
    }
}

/// A log in the making, step by step as a driver would, with its mistakes.
struct Script<'a> {
    rng: &'a mut Rng,
    geometry: &'a Geometry,
    log: Vec<u8>,
}

impl Script<'_> {
    fn step(&mut self) {
        match self.rng.below(22) {
            0..=3 => self.any_transfer(),
            4..=6 => self.program(),
            7 | 8 => self.erase(),
            9 => self.read(),
            10 => self.poll(),
            11 => self.unlock(),
            12 => self.load_and_look(),
            13 => self.read_cache(),
            14 | 15 => self.work(),
            16 => self.aside(),
            17 => self.cut(),
            18 | 19 => self.protect_and_try(),
            _ => self.finish(),
        }
    }

    /// What a driver does first: the power-up read ends or is cut, and the blocks are unlocked.
    fn wake(&mut self) {
        let (page, ..) = sizes(self.geometry);
        if self.rng.percent(50) {
            self.units(page.max(RESET_UNITS));
        } else {
            self.transfer(&[0xFF]);
            self.units(RESET_UNITS);
        }
        self.transfer(&[0x1F, 0xA0, 0x00]);
    }

    /// Any first byte with any number of bytes after it.
    fn any_transfer(&mut self) {
        let code = match self.rng.below(10) {
            0 => self.rng.byte(),
            1 => 0x0B,
            _ => self.rng.pick(&CODES),
        };
        let mut bytes = vec![code];
        match code {
            0x0F | 0x1F => bytes.push(self.address()),
            0x13 | 0x10 | 0xD8 => bytes.extend(row_bytes(self.rng, self.geometry)),
            0x03 | 0x0B | 0x02 | 0x84 => bytes.extend(column_bytes(self.rng, self.geometry)),
            _ => {}
        }
        let more = match (code, self.rng.below(10)) {
            (0x06 | 0x04 | 0xFF | 0x13 | 0x10 | 0xD8, 0..=6) => 0,
            (0x1F, 0..=6) => 1,
            _ => self.rng.below(8),
        };
        bytes.extend((0..more).map(|_| self.rng.byte()));
        if self.rng.percent(8) {
            bytes.truncate(self.rng.below(bytes.len() + 1));
        }
        self.transfer(&bytes);
        if bytes == [0xFF] && self.rng.percent(70) {
            self.recover();
        }
    }

    fn program(&mut self) {
        let enable_first = self.rng.percent(50);
        if enable_first {
            self.transfer(&[0x06]);
        }
        if self.rng.percent(70) {
            self.load();
        }
        if !enable_first && self.rng.percent(90) {
            self.transfer(&[0x06]);
        }
        self.with_row(0x10);
        self.finish();
    }

    fn erase(&mut self) {
        self.transfer(&[0x06]);
        self.with_row(0xD8);
        self.finish();
    }

    fn read(&mut self) {
        self.with_row(0x13);
        self.finish();
        if self.rng.percent(60) {
            self.read_cache();
        }
    }

    fn poll(&mut self) {
        self.transfer(&[0x0F, 0xC0, 0x00]);
    }

    /// A0h is written, mostly so that blocks are open.
    fn unlock(&mut self) {
        let value = match self.rng.below(3) {
            0 => self.rng.byte() & self.rng.pick(&[0x3E, 0x3E, 0xFF]),
            _ => self.rng.pick(&[0x00, 0x00, 0x80, 0x24, 0x08, 0xFF]),
        };
        self.transfer(&[0x1F, 0xA0, value]);
    }

    /// Some blocks are protected, and one is erased or programmed that is mostly beside their border.
    fn protect_and_try(&mut self) {
        let a0 = self.rng.byte() & self.rng.pick(&[0x3E, 0x3E, 0x3E, 0xFF]);
        self.transfer(&[0x1F, 0xA0, a0]);
        for _ in 0..self.rng.within(1, 2) {
            self.transfer(&[0x06]);
            let code = self.rng.pick(&[0x10, 0xD8]);
            if self.rng.percent(70) {
                let row = beside_the_border(self.rng, self.geometry, a0);
                let [high, low] = (row as u16).to_be_bytes();
                self.transfer(&[code, 0x00, high, low]);
            } else {
                self.with_row(code);
            }
            self.finish();
        }
        if self.rng.percent(30) {
            self.transfer(&[0x0F, 0xA0, 0x00]);
        }
    }

    fn load(&mut self) {
        let (page, ..) = sizes(self.geometry);
        let count = match self.rng.below(8) {
            0 => page,
            1 => page + 1,
            _ => self.rng.below(12),
        };
        let mut bytes = vec![self.rng.pick(&[0x02, 0x84])];
        bytes.extend(column_bytes(self.rng, self.geometry));
        bytes.extend((0..count).map(|_| self.rng.byte()));
        self.transfer(&bytes);
    }

    fn read_cache(&mut self) {
        let bytes = cache_read(self.rng, self.geometry);
        self.transfer(&bytes);
    }

    /// A load, and mostly a look at what it left.
    fn load_and_look(&mut self) {
        self.load();
        if self.rng.percent(70) {
            self.read_cache();
        }
    }

    /// A reset, now and then one more, and what comes behind them.
    fn reset(&mut self) {
        self.transfer(&[0xFF]);
        self.recover();
        if self.rng.percent(10) {
            self.reset();
        }
    }

    /// The work behind a reset: mostly all that it takes, so that the log gets on; else nearly all,
    /// a little or none.
    fn recover(&mut self) {
        let units = match self.rng.below(20) {
            0 => return,
            1 => 0,
            2 => 1,
            3 => self.rng.below(RESET_UNITS),
            4 | 5 => RESET_UNITS - 1,
            6..=15 => RESET_UNITS,
            16 | 17 => RESET_UNITS + 1,
            _ => return self.work(),
        };
        self.units(units);
    }

    /// A reset, now or after some work.
    fn cut(&mut self) {
        if self.rng.percent(50) {
            self.work();
        }
        self.reset();
    }

    /// The operation runs to its end, is cut, or is left as it is.
    fn finish(&mut self) {
        let (page, pages, _) = sizes(self.geometry);
        match self.rng.below(10) {
            0..=3 => self.units(page * pages),
            4 | 5 => self.units(page),
            6 | 7 => self.work(),
            8 => self.cut(),
            _ => {}
        }
        if self.rng.percent(40) {
            self.poll();
        }
    }

    fn work(&mut self) {
        let (page, pages, _) = sizes(self.geometry);
        let units = match self.rng.below(10) {
            0 => 0,
            1 => 1,
            2 => page - 1,
            3 => page,
            4 => page + 1,
            5 => page * pages - 1,
            6 => page * pages,
            7 => 65_535,
            8 => self.rng.below(65_536),
            _ => self.rng.below(2 * page),
        };
        self.units(units);
    }

    /// An event beside a transfer: a level, a loss of power, a select or deselect or shift out of
    /// place.
    fn aside(&mut self) {
        let bytes: &[u8] = match self.rng.below(8) {
            0 | 1 => &[5, 0],
            2 | 3 => &[5, 1],
            4 => &[6],
            5 => &[3],
            6 => &[1],
            _ => &[2, 0x06],
        };
        self.log.extend(bytes);
    }

    fn with_row(&mut self, code: u8) {
        let [first, high, low] = row_bytes(self.rng, self.geometry);
        self.transfer(&[code, first, high, low]);
    }

    /// Select, the bytes, deselect; now and then with something between the bytes, or without its
    /// end.
    fn transfer(&mut self, bytes: &[u8]) {
        let disturbed = self.rng.percent(12);
        self.log.push(1);
        for &byte in bytes {
            if disturbed && self.rng.percent(30) {
                if self.rng.percent(50) {
                    self.work();
                } else {
                    self.aside();
                }
            }
            self.log.extend([2, byte]);
        }
        if disturbed && self.rng.percent(50) {
            self.work();
        }
        if !self.rng.percent(3) {
            self.log.push(3);
        }
    }

    /// Work of so many units, in as many records as it takes.
    fn units(&mut self, mut units: usize) {
        loop {
            let now = units.min(65_535);
            let [low, high] = (now as u16).to_le_bytes();
            self.log.extend([4, low, high]);
            units -= now;
            if units == 0 {
                return;
            }
        }
    }

    fn address(&mut self) -> u8 {
        if self.rng.percent(85) {
            self.rng.pick(&[0xA0, 0xB0, 0xC0, 0xD0])
        } else {
            self.rng.byte()
        }
    }
}
