//! The benchmark: the proved library against the paper's model, against a naive model in memory and
//! against the limit, on the FM25S005BI3.
//!
//! The limit is the least that must happen to the same bytes: a copy, an AND, a fill. All contenders
//! run in turn, round after round, on the same memory (the naive model has its own), and each one's
//! best round counts: what else the machine does can only make a round longer. The last columns are
//! speeds: above 1 the library is the faster. Work of n units is given less what the same call costs
//! with one unit, so that the units are compared and not the call; what a call costs has rows of its
//! own, with the paper's model behind the same structs by value; so has the parameter page's check,
//! bit by bit in the paper's model and by a table in the place of the naive one; and so has a log of
//! the card. Run it with `cargo run --release --bin bench`.

mod calls;
mod cards;
mod checks;
mod naive;

use std::hint::black_box;
use std::time::{Duration, Instant};

use sleetanvil::case::{Buffers, Case};
use sleetanvil::{lent, paper, Answer, Geometry, Log, Record, State};

const ROUNDS: usize = 301;
/// How long one contender runs in a round.
const TURN: Duration = Duration::from_millis(1);

/// The pages that a mixed driver log programs and reads back.
const MIXED_PAGES: usize = 16;
/// The units of the reset that it begins with.
const RESET_UNITS: usize = 8;
/// The block it uses, and the block whose pages the others take in turn.
const MIXED_BLOCK: usize = 100;
const BLOCK: usize = 200;
/// How often the page is read out in a cache read that goes round.
const TIMES_ROUND: usize = 4;

fn main() {
    println!("The best of {ROUNDS} rounds.\n");
    println!(
        "| on FM25S005BI3 | library | Rust model | naive model | limit | speed, Rust model = 1 | speed, naive model = 1 | speed, limit = 1 |"
    );
    println!("|---|---|---|---|---|---|---|---|");
    let geometry = Geometry::fm25s005bi3();
    compare(&geometry, tasks(&geometry));
    calls::compare(&geometry, &mut buffers(&geometry));
    checks::compare(&mut buffers(&geometry));
    cards::compare(&mut buffers(&Geometry::bench()));
    println!("| on the bench part | | | | | | | |");
    compare(&Geometry::bench(), vec![nothing()]);
}

/// A row for each task on a part.
fn compare(geometry: &Geometry, tasks: Vec<Task>) {
    let mut buffers = buffers(geometry);
    for task in tasks {
        let model = |log: &Log, state: &State, geometry: &Geometry, buffers: &mut Buffers| {
            run_paper(log, state, geometry, buffers).into()
        };
        check(&task, geometry, &buffers, [run_library, model]);
        let mut times = measure(&task, &task.log, geometry, &mut buffers);
        if let Some(log) = &task.less {
            let less = measure(&task, log, geometry, &mut buffers);
            times.library -= less.library;
            times.model -= less.model;
        }
        println!("{}", times.row(task.name, task.per, task.count));
    }
}

/// The memory that all contenders share.
fn buffers(geometry: &Geometry) -> Buffers {
    let case = Case {
        room: 1 << 20,
        ..Case::power_up(*geometry, &[])
    };
    let mut buffers = case.buffers();
    for bytes in [&mut buffers.cells, &mut buffers.cache] {
        for (place, byte) in bytes.iter_mut().enumerate() {
            *byte = (place as u8).wrapping_mul(31) | 0x81;
        }
    }
    buffers
}

/// The best times of the contenders, in seconds a run.
struct Times {
    library: f64,
    model: f64,
    naive: Option<f64>,
    limit: Option<f64>,
}

impl Times {
    /// The row of the table for something that a run does so many times.
    fn row(&self, name: &str, per: &str, count: usize) -> String {
        let time = |seconds: f64| {
            let nanoseconds = seconds * 1e9 / count as f64;
            match nanoseconds {
                0.0..100.0 => format!("{nanoseconds:.2} ns"),
                100.0..10_000.0 => format!("{nanoseconds:.0} ns"),
                _ => format!("{:.1} us", nanoseconds / 1e3),
            }
        };
        let speed = |other: f64| format!("{:.2}", other / self.library);
        let or_blank = |what: Option<String>| what.unwrap_or_default();
        format!(
            "| {name}, one {per} | {} | {} | {} | {} | {} | {} | {} |",
            time(self.library),
            time(self.model),
            or_blank(self.naive.map(time)),
            or_blank(self.limit.map(time)),
            speed(self.model),
            or_blank(self.naive.map(speed)),
            or_blank(self.limit.map(speed)),
        )
    }
}

/// Something that is measured: one run of it on the shared memory.
type Contender<'a> = Box<dyn FnMut(&mut Buffers) + 'a>;

/// The best time of each contender, in seconds a run.
fn best<const N: usize>(mut contenders: [Contender<'_>; N], buffers: &mut Buffers) -> [f64; N] {
    let mut turn = |contender: &mut Contender<'_>, runs: usize| {
        let start = Instant::now();
        for _ in 0..runs {
            contender(buffers);
            black_box(&mut *buffers);
        }
        start.elapsed().as_secs_f64() / runs as f64
    };
    let runs = contenders.each_mut().map(|contender| {
        turn(contender, 8);
        let one = turn(contender, 16).max(1e-9);
        (TURN.as_secs_f64() / one).ceil() as usize
    });
    let mut best = [f64::INFINITY; N];
    for round in 0..ROUNDS {
        for place in 0..N {
            let which = (round + place) % N;
            best[which] = best[which].min(turn(&mut contenders[which], runs[which]));
        }
    }
    best
}

/// Something to do with a log, in three ways.
struct Task {
    name: &'static str,
    /// What the time is given for, and how many of it a run has.
    per: &'static str,
    count: usize,
    /// A run from one of these states, taken in turn, with the log.
    states: Vec<State>,
    log: Log,
    /// A log whose time is taken off.
    less: Option<Log>,
    /// The least that must happen, for one of the states, if it is anything.
    limit: Option<Limit>,
}

type Limit = Box<dyn Fn(&State, &mut Buffers)>;

fn tasks(geometry: &Geometry) -> Vec<Task> {
    let page = geometry.cache_len();
    let block = page * geometry.pages as usize;
    vec![
        bus_read(page),
        bus_read_round(page),
        bus_load(page),
        work("page read", 1, page, geometry),
        work("program", 2, page, geometry),
        work("erase", 3, block, geometry),
        mixed(geometry),
        polls(),
        nothing(),
    ]
}

/// Polls of the status register, one a transfer.
fn polls() -> Task {
    let mut driver = Driver { log: Log::new() };
    for _ in 0..400 {
        driver.poll();
    }
    Task {
        name: "polls of the status register",
        per: "event",
        count: driver.log.records().count(),
        states: vec![idle()],
        log: driver.log,
        less: None,
        limit: None,
    }
}

/// A call with an empty log: what every call costs.
fn nothing() -> Task {
    Task {
        name: "an empty log",
        per: "call",
        count: 1,
        states: vec![idle()],
        log: Log::new(),
        less: None,
        limit: None,
    }
}

/// The device after its power-up read, unlocked.
fn idle() -> State {
    State {
        a0: 0x00,
        c0: 0x00,
        job: 0,
        ..State::power_up()
    }
}

/// A transfer that reads a page out of the cache register.
fn bus_read(page: usize) -> Task {
    let bytes = read_out(page);
    on_bus("cache read on the bus", &bytes, move |_, buffers| {
        buffers.out[..page].copy_from_slice(&buffers.cache);
    })
}

/// A transfer that reads on past the page's end, and so reads the page out several times.
fn bus_read_round(page: usize) -> Task {
    let bytes = read_out(TIMES_ROUND * page);
    let name = "cache read on the bus, 4 pages in one transfer";
    on_bus(name, &bytes, move |_, buffers| {
        let out = &mut buffers.out[..TIMES_ROUND * page];
        for out in out.chunks_exact_mut(page) {
            out.copy_from_slice(&buffers.cache);
        }
    })
}

/// The bytes of a cache read from column 0 that answers so many.
fn read_out(answers: usize) -> Vec<u8> {
    let mut bytes = vec![0x03, 0x00, 0x00, 0x00];
    bytes.resize(4 + answers, 0x00);
    bytes
}

/// A transfer that loads a page into the cache register.
fn bus_load(page: usize) -> Task {
    let bytes = load(0x84, &vec![0x5A; page]);
    let data = bytes[3..].to_vec();
    on_bus("cache load on the bus", &bytes, move |_, buffers| {
        buffers.cache.copy_from_slice(&data);
    })
}

/// One transfer of an idle device.
fn on_bus(
    name: &'static str,
    bytes: &[u8],
    limit: impl Fn(&State, &mut Buffers) + 'static,
) -> Task {
    let mut log = Log::new();
    log.transfer(bytes);
    Task {
        name,
        per: "event",
        count: bytes.len() + 2,
        states: vec![idle()],
        log,
        less: None,
        limit: Some(Box::new(limit)),
    }
}

fn load(code: u8, data: &[u8]) -> Vec<u8> {
    [&[code, 0x00, 0x00], data].concat()
}

/// Work of so many units of a job that has just begun.
fn work(name: &'static str, job: u8, units: usize, geometry: &Geometry) -> Task {
    let pages = geometry.pages as usize;
    let rows = BLOCK * pages..(BLOCK + 1) * pages;
    let states = rows.map(|row| State {
        c0: 0x01,
        job,
        row: row as u16,
        ..idle()
    });
    let mut log = Log::new();
    push_work(&mut log, units);
    let page = geometry.cache_len();
    let limit: Limit = match job {
        1 => Box::new(move |state, buffers| read(buffers, usize::from(state.row) * page, units)),
        2 => Box::new(move |state, buffers| program(buffers, usize::from(state.row) * page, units)),
        _ => Box::new(move |state, buffers| {
            let first = usize::from(state.row) / pages * pages * page;
            buffers.cells[first..first + units].fill(0xFF);
        }),
    };
    let mut one = Log::new();
    push_work(&mut one, 1);
    Task {
        name,
        per: if units == page {
            "work of 2,176 units"
        } else {
            "work of 139,264 units"
        },
        count: 1,
        states: states.collect(),
        log,
        less: Some(one),
        limit: Some(limit),
    }
}

fn push_work(log: &mut Log, mut units: usize) {
    while units > 0 {
        let now = units.min(usize::from(u16::MAX));
        log.push(Record::Work(now as u16));
        units -= now;
    }
}

fn read(buffers: &mut Buffers, first: usize, units: usize) {
    let cells = &buffers.cells[first..first + units];
    buffers.cache[..units].copy_from_slice(cells);
}

fn program(buffers: &mut Buffers, first: usize, units: usize) {
    let cells = &mut buffers.cells[first..first + units];
    for (cell, byte) in cells.iter_mut().zip(&buffers.cache) {
        *cell &= byte;
    }
}

/// What drivers do: reset and probe, unlock, erase a block, program pages by both load forms, read
/// them back, and poll all along.
fn mixed(geometry: &Geometry) -> Task {
    let (page, pages) = (geometry.cache_len(), geometry.pages as usize);
    let data_bytes = geometry.data as usize;
    let first = MIXED_BLOCK * pages;
    let data: Vec<u8> = (0..page).map(|place| place as u8 ^ 0xA5).collect();

    let mut driver = Driver { log: Log::new() };
    driver.operate(&[0xFF], RESET_UNITS);
    driver.transfer(&[0x9F, 0x00, 0x00, 0x00]);
    driver.transfer(&[0x1F, 0xA0, 0x00]);
    driver.transfer(&[0x06]);
    driver.begin(0xD8, first, page * pages);
    for place in 0..MIXED_PAGES {
        driver.transfer(&[0x06]);
        if place % 2 == 0 {
            driver.transfer(&load(0x02, &data[..data_bytes]));
        } else {
            driver.transfer(&load(0x84, &data));
        }
        driver.begin(0x10, first + place, page);
    }
    let read_out = read_out(page);
    for place in 0..MIXED_PAGES {
        driver.begin(0x13, first + place, page);
        driver.transfer(&read_out);
    }

    let limit = move |_: &State, buffers: &mut Buffers| {
        let cells = first * page;
        buffers.cells[cells..cells + page * pages].fill(0xFF);
        buffers.counts[first..first + pages].fill(0);
        for place in 0..MIXED_PAGES {
            if place % 2 == 0 {
                buffers.cache.fill(0xFF);
                buffers.cache[..data_bytes].copy_from_slice(&data[..data_bytes]);
            } else {
                buffers.cache.copy_from_slice(&data);
            }
            program(buffers, cells + place * page, page);
            buffers.counts[first + place] += 1;
        }
        for place in 0..MIXED_PAGES {
            read(buffers, cells + place * page, page);
            buffers.out[place * page..(place + 1) * page].copy_from_slice(&buffers.cache);
        }
    };
    Task {
        name: "mixed driver log",
        per: "record",
        count: driver.log.records().count(),
        states: vec![State::power_up()],
        log: driver.log,
        less: None,
        limit: Some(Box::new(limit)),
    }
}

/// A log in the making.
struct Driver {
    log: Log,
}

impl Driver {
    fn transfer(&mut self, bytes: &[u8]) {
        self.log.transfer(bytes);
    }

    fn poll(&mut self) {
        self.transfer(&[0x0F, 0xC0, 0x00]);
    }

    /// An operation on a row.
    fn begin(&mut self, code: u8, row: usize, units: usize) {
        let [high, low] = (row as u16).to_be_bytes();
        self.operate(&[code, 0x00, high, low], units);
    }

    /// An operation, polled while it is done in quarters.
    fn operate(&mut self, bytes: &[u8], units: usize) {
        self.transfer(bytes);
        for _ in 0..4 {
            self.poll();
            push_work(&mut self.log, units.div_ceil(4));
        }
        self.poll();
    }
}

fn run_library(log: &Log, state: &State, geometry: &Geometry, buffers: &mut Buffers) -> Answer {
    let (mut memory, out) = buffers.lent();
    lent::run(geometry, *state, log.as_bytes(), &mut memory, out)
}

fn run_paper(
    log: &Log,
    state: &State,
    geometry: &Geometry,
    buffers: &mut Buffers,
) -> paper::Answer {
    let (memory, out) = buffers.lent_to_paper();
    let part = (*geometry).into();
    paper::run(&part, (*state).into(), log.as_bytes(), memory, out)
}

/// Something that does a log.
type Run = fn(&Log, &State, &Geometry, &mut Buffers) -> Answer;

/// Library and model do the same, and all of the log; and they do to the memory what the limit does
/// to it, so that nothing is measured that did not take place.
fn check(task: &Task, geometry: &Geometry, buffers: &Buffers, [library, model]: [Run; 2]) {
    // Memory on which every limit has an effect.
    let mut start = buffers.clone();
    start.cache.fill(0x3C);
    start.counts.fill(3);
    let (mut first, mut second, mut third) = (start.clone(), start.clone(), start.clone());
    for state in &task.states {
        let answer = library(&task.log, state, geometry, &mut first);
        assert_eq!(answer, model(&task.log, state, geometry, &mut second));
        assert_eq!(answer.used, task.log.as_bytes().len());
        if let Some(limit) = &task.limit {
            limit(state, &mut third);
        }
    }
    assert_eq!(third != start, task.limit.is_some(), "{}", task.name);
    third.out.clone_from(&first.out);
    for (one, other) in [(&first, &second), (&first, &third)] {
        for ((name, one), (_, other)) in one.named().into_iter().zip(other.named()) {
            assert!(one == other, "{}: {name}", task.name);
        }
    }
}

/// The best times of library, model and limit.
fn measure(task: &Task, log: &Log, geometry: &Geometry, buffers: &mut Buffers) -> Times {
    let states = || task.states.iter().cycle();
    let (mut first, mut second, mut third) = (states(), states(), states());
    let [library, model, limit] = best(
        [
            Box::new(|buffers| {
                let state = first.next().expect("a state");
                let _ = black_box(run_library(black_box(log), state, geometry, buffers));
            }),
            Box::new(|buffers| {
                let state = second.next().expect("a state");
                black_box(run_paper(black_box(log), state, geometry, buffers));
            }),
            Box::new(|buffers| {
                let state = third.next().expect("a state");
                if let Some(limit) = &task.limit {
                    limit(black_box(state), buffers);
                }
            }),
        ],
        buffers,
    );
    Times {
        library,
        model,
        naive: None,
        limit: task.limit.is_some().then_some(limit),
    }
}
