//! The keeper of the bus: the proved library against the model with the standard library's queues,
//! call by call and byte by byte; and what the request promises, measured on the library.
//!
//! Seed and number of cases are those of `differential.rs`. A case on which two subjects differ is
//! shrunk and printed with all that is needed to run it again.

mod support;

use std::collections::VecDeque;

use sleetanvil::raw::{self, RawKeeper, RawQueue};
use sleetanvil::{paper, Grant, Keeper, Refusal};
use support::hunt::{cases, seed};
use support::keeping::{library, model, Call, Outcome, Subject};
use support::rng::Rng;

/// A keeper that is handed in, and the calls on it, one after the other.
#[derive(Clone, Debug)]
struct Case {
    keeper: RawKeeper,
    calls: Vec<Call>,
}

/// The first call on which two subjects differ, each on its own keeper.
fn difference(case: &Case, left: Subject, right: Subject) -> Option<String> {
    let mut keepers = [case.keeper; 2];
    case.calls.iter().enumerate().find_map(|(place, &call)| {
        let [left, right] = [left(keepers[0], call), right(keepers[1], call)];
        keepers = [left.keeper, right.keeper];
        (left != right).then(|| format!("call {place}, {call:?}:\n{left:?}\nagainst\n{right:?}"))
    })
}

/// The first case out of so many on which two subjects differ, shrunk, with its number.
fn hunt(left: Subject, right: Subject, seed: u64, cases: u64) -> Option<(u64, Case)> {
    (0..cases).find_map(|number| {
        let case = Generator::new(seed, number).case();
        difference(&case, left, right)?;
        Some((number, shrink(case, left, right)))
    })
}

/// The case with every call dropped that can go while the subjects still differ.
fn shrink(mut case: Case, left: Subject, right: Subject) -> Case {
    for place in (0..case.calls.len()).rev() {
        let mut smaller = case.clone();
        smaller.calls.remove(place);
        if difference(&smaller, left, right).is_some() {
            case = smaller;
        }
    }
    case
}

#[test]
fn calls_agree() {
    let seed = seed();
    if let Some((number, case)) = hunt(library, model, seed, cases()) {
        let difference = difference(&case, library, model).unwrap_or_default();
        panic!("seed {seed}, case {number}: {difference}\n{case:?}");
    }
}

/// The four queues are kept from the first call to the last, beside the wrapper's keeper.
#[test]
fn queues_agree() {
    let seed = seed() ^ 1;
    for number in 0..cases() / 4 {
        let case = Generator::new(seed, number).sound_case();
        let mut keeper = Keeper::from_raw(case.keeper).expect("a sound keeper");
        let mut bus = paper::Keeper::from(case.keeper)
            .bus()
            .expect("a sound keeper");
        for (place, &call) in case.calls.iter().enumerate() {
            let what = || format!("seed {seed}, case {number}, call {place}: {case:?}");
            match call {
                Call::Add { core, tag } => {
                    let added = keeper.add(core, tag).map_err(Refusal::number);
                    assert_eq!(added, bus.add(core, tag), "{}", what());
                }
                Call::Grant => {
                    let granted = keeper.grant().map_err(Refusal::number);
                    let granted = granted.map(|Grant { core, tag }| (core, tag));
                    assert_eq!(granted, bus.grant(), "{}", what());
                }
            }
            for (core, queue) in (0..).zip(&bus.queues) {
                assert!(keeper.waiting(core).eq(queue.iter().copied()), "{}", what());
            }
            assert_eq!(keeper.last(), bus.last, "{}", what());
        }
    }
}

#[test]
fn new_keepers_agree() {
    assert_eq!(raw::keeper_new(), paper::Keeper::NEW.into());
    assert_eq!(paper::Keeper::NEW.bus(), Some(paper::Bus::new()));
}

/// 20 comes first, whatever the call, and every byte comes back.
#[test]
fn unsound_keepers_are_refused_first() {
    let seed = seed() ^ 2;
    for number in 0..cases() / 4 {
        let mut generator = Generator::new(seed, number);
        let keeper = generator.unsound_keeper();
        for call in [generator.adding(), Call::Grant] {
            let what = || format!("seed {seed}, case {number}, {call:?}");
            let refused = Outcome::ungranted(20, keeper);
            assert_eq!(library(keeper, call), refused, "{}", what());
            assert_eq!(model(keeper, call), refused, "{}", what());
        }
        assert_eq!(Keeper::from_raw(keeper), Err(Refusal::BadKeeper));
    }
}

/// Each number alone at each value, in keepers with empty queues, full queues and any.
#[test]
fn every_number_at_every_value() {
    let mut generator = Generator::new(seed() ^ 3, 0);
    let mut full = generator.sound_keeper();
    for queue in &mut full.queues {
        queue.length = 8;
    }
    for mut keeper in [raw::keeper_new(), full, generator.sound_keeper()] {
        for place in 0..numbers(&mut keeper).len() {
            for value in 0..=255 {
                let mut changed = keeper;
                let (number, most) = numbers(&mut changed).swap_remove(place);
                *number = value;
                check_soundness(changed, value <= most);
            }
        }
    }
}

/// Every call on a keeper is refused with 20 if it is not sound, and then alone.
fn check_soundness(keeper: RawKeeper, sound: bool) {
    assert_eq!(Keeper::from_raw(keeper).is_ok(), sound, "{keeper:?}");
    let adds = [0, 1, 2, 3, 4, 255].map(|core| Call::Add { core, tag: 0xA5 });
    for call in adds.into_iter().chain([Call::Grant]) {
        let outcome = library(keeper, call);
        assert_eq!(outcome, model(keeper, call), "{keeper:?} {call:?}");
        assert_eq!(outcome.refusal != 20, sound, "{keeper:?} {call:?}");
        if outcome.refusal != 0 {
            assert_eq!(outcome, Outcome::ungranted(outcome.refusal, keeper));
        }
    }
}

/// One queue at each place and length, for each core and each core granted last.
#[test]
fn every_place_and_length_of_a_queue() {
    for core in 0..4 {
        for head in 0..8 {
            for length in 0..=8 {
                for last in 0..4 {
                    check_queue(core, head, length, last);
                }
            }
        }
    }
}

/// Where a tag is stored, and where the front is after a grant, worked out here.
fn check_queue(core: u8, head: u8, length: u8, last: u8) {
    const TAGS: [u8; 8] = [0xA0, 0xA1, 0xA2, 0xA3, 0xA4, 0xA5, 0xA6, 0xA7];
    let own = usize::from(core);
    let mut keeper = raw::keeper_new();
    keeper.last = last;
    keeper.queues[own] = RawQueue {
        tags: TAGS,
        head,
        length,
    };

    let mut added = Outcome::ungranted(15, keeper);
    if length < 8 {
        added.refusal = 0;
        added.keeper.queues[own].tags[usize::from(head + length) % 8] = 0xBB;
        added.keeper.queues[own].length = length + 1;
    }
    let call = Call::Add { core, tag: 0xBB };
    assert_eq!(library(keeper, call), added, "{keeper:?} {call:?}");
    assert_eq!(model(keeper, call), added, "{keeper:?} {call:?}");

    let mut granted = Outcome::ungranted(16, keeper);
    if length > 0 {
        granted.refusal = 0;
        (granted.core, granted.tag) = (core, TAGS[usize::from(head)]);
        granted.keeper.queues[own].head = (head + 1) % 8;
        granted.keeper.queues[own].length = length - 1;
        granted.keeper.last = core;
    }
    assert_eq!(library(keeper, Call::Grant), granted, "{keeper:?}");
    assert_eq!(model(keeper, Call::Grant), granted, "{keeper:?}");
}

/// No core waits.
const NONE: u8 = 0xFF;

/// Whose turn it is, written by hand: a row for each core that was granted last, and in it a column
/// for each set of cores that wait, core c being in it by its bit 1 << c.
#[rustfmt::skip]
const TURNS: [[u8; 16]; 4] = [
    [NONE, 0, 1, 1, 2, 2, 1, 1, 3, 3, 1, 1, 2, 2, 1, 1],
    [NONE, 0, 1, 0, 2, 2, 2, 2, 3, 3, 3, 3, 2, 2, 2, 2],
    [NONE, 0, 1, 0, 2, 0, 1, 0, 3, 3, 3, 3, 3, 3, 3, 3],
    [NONE, 0, 1, 0, 2, 0, 1, 0, 3, 0, 1, 0, 2, 0, 1, 0],
];

#[test]
fn every_turn() {
    for (last, turns) in (0..).zip(TURNS) {
        for (set, turn) in turns.into_iter().enumerate() {
            check_turn(last, set, turn);
        }
    }
}

fn check_turn(last: u8, set: usize, turn: u8) {
    let mut keeper = raw::keeper_new();
    keeper.last = last;
    for (core, queue) in (0..).zip(&mut keeper.queues) {
        queue.tags[0] = 0x70 + core;
        queue.length = u8::from(set & 1 << core != 0);
    }
    let mut granted = Outcome::ungranted(16, keeper);
    if turn != NONE {
        (granted.refusal, granted.core, granted.tag) = (0, turn, 0x70 + turn);
        granted.keeper.queues[usize::from(turn)].head = 1;
        granted.keeper.queues[usize::from(turn)].length = 0;
        granted.keeper.last = turn;
    }
    assert_eq!(library(keeper, Call::Grant), granted, "{keeper:?}");
    assert_eq!(model(keeper, Call::Grant), granted, "{keeper:?}");
}

/// All lengths of the four queues, with each core granted last.
#[test]
fn every_length_of_four_queues() {
    let mut generator = Generator::new(seed() ^ 4, 0);
    for lengths in 0..9_u32.pow(4) {
        let mut keeper = generator.sound_keeper();
        for (core, queue) in (0..).zip(&mut keeper.queues) {
            queue.length = (lengths / 9_u32.pow(core) % 9) as u8;
        }
        for last in 0..4 {
            keeper.last = last;
            let adds = (0..5).map(|core| Call::Add { core, tag: last });
            for call in adds.chain([Call::Grant]) {
                let (got, expected) = (library(keeper, call), model(keeper, call));
                assert_eq!(got, expected, "{keeper:?} {call:?}");
            }
        }
    }
}

#[test]
fn what_is_promised_holds() {
    let seed = seed() ^ 5;
    for number in 0..cases() / 10 {
        let case = Generator::new(seed, number).sound_case();
        if let Err(broken) = waits(&case, library) {
            panic!("seed {seed}, case {number}, {broken}\n{case:?}");
        }
    }
}

/// The longest waits in a list of calls with grants behind it till nothing waits, counted in grants:
/// one number for the transfers that had none before them as they came, one for those that had one,
/// and so on. Or else the call that broke a promise.
fn waits(case: &Case, subject: Subject) -> Result<[usize; 8], String> {
    let mut keeper = case.keeper;
    let mut account = Account::new(keeper);
    let rest = std::iter::repeat_n(Call::Grant, 33);
    for (place, call) in case.calls.iter().copied().chain(rest).enumerate() {
        let outcome = subject(keeper, call);
        keeper = outcome.keeper;
        let kept = match call {
            Call::Add { core, tag } => account.added(core, tag, outcome.refusal),
            Call::Grant => account.granted(&outcome),
        };
        kept.map_err(|broken| format!("call {place}, {call:?}: {broken}"))?;
    }
    Ok(account.longest)
}

/// An account of what is promised, kept beside a keeper: each core that waits is granted within four
/// grants, each transfer with n before it within 4 * (n + 1), and each transfer that was added once
/// and in its core's order.
#[derive(Default)]
struct Account {
    waiting: [VecDeque<Waiting>; 4],
    grants: usize,
    longest: [usize; 8],
}

/// A transfer that waits.
struct Waiting {
    tag: u8,
    /// How many were before it as it came.
    before: usize,
    /// How many grants there had been by then.
    since: usize,
    /// The number of the last grant that may be its own.
    due: usize,
}

impl Account {
    /// What waits in a sound keeper counts as come now.
    fn new(keeper: RawKeeper) -> Self {
        let bus = paper::Keeper::from(keeper).bus().expect("a sound keeper");
        let mut account = Account::default();
        for (core, queue) in bus.queues.iter().enumerate() {
            for &tag in queue {
                account.come(core, tag);
            }
        }
        account
    }

    /// A transfer comes to the back of a core's queue.
    fn come(&mut self, core: usize, tag: u8) {
        let before = self.waiting[core].len();
        self.waiting[core].push_back(Waiting {
            tag,
            before,
            since: self.grants,
            due: self.grants + 4 * (before + 1),
        });
    }

    fn added(&mut self, core: u8, tag: u8, refusal: u8) -> Result<(), &'static str> {
        let core = usize::from(core);
        let expected = match self.waiting.get(core).map(VecDeque::len) {
            None => 14,
            Some(8) => 15,
            Some(_) => 0,
        };
        if refusal != expected {
            return Err("taken or refused against the rule");
        }
        if refusal == 0 {
            self.come(core, tag);
        }
        Ok(())
    }

    fn granted(&mut self, outcome: &Outcome) -> Result<(), &'static str> {
        let empty = self.waiting.iter().all(VecDeque::is_empty);
        match outcome.refusal {
            16 if empty => return Ok(()),
            0 => self.grants += 1,
            _ => return Err("refused against the rule"),
        }
        let front = self.waiting[usize::from(outcome.core)].pop_front();
        let Some(front) = front.filter(|front| front.tag == outcome.tag) else {
            return Err("not the front of the core's queue");
        };
        let longest = &mut self.longest[front.before];
        *longest = (*longest).max(self.grants - front.since);
        self.look_at_those_left()
    }

    /// None is overdue. The promise holds from every moment on, so that a transfer which has n
    /// before it now is due within 4 * (n + 1) from now.
    fn look_at_those_left(&mut self) -> Result<(), &'static str> {
        for (before, waiting) in self.waiting.iter_mut().flat_map(|queue| (0..).zip(queue)) {
            if waiting.due <= self.grants {
                return Err("a transfer is left waiting");
            }
            waiting.due = waiting.due.min(self.grants + 4 * (before + 1));
        }
        Ok(())
    }
}

/// The nine numbers of a keeper that have a range, each with the most that is sound.
fn numbers(keeper: &mut RawKeeper) -> Vec<(&mut u8, u8)> {
    let of_queues = keeper
        .queues
        .iter_mut()
        .flat_map(|queue| [(&mut queue.head, 7), (&mut queue.length, 8)]);
    of_queues.chain([(&mut keeper.last, 3)]).collect()
}

/// A source of keepers and calls.
struct Generator {
    rng: Rng,
}

impl Generator {
    fn new(seed: u64, case: u64) -> Self {
        Generator {
            rng: Rng::new(seed ^ 0x4B45_4550, case),
        }
    }

    /// Any case; some have a keeper that is not sound, and then a few calls only.
    fn case(&mut self) -> Case {
        if self.rng.percent(80) {
            return self.sound_case();
        }
        let keeper = self.unsound_keeper();
        let count = self.rng.within(1, 3);
        Case {
            keeper,
            calls: self.calls(count),
        }
    }

    /// A case with a sound keeper, new or not.
    fn sound_case(&mut self) -> Case {
        let keeper = if self.rng.percent(40) {
            paper::Keeper::NEW.into()
        } else {
            self.sound_keeper()
        };
        let count = self.rng.pick(&[1, 4, 12, 24, 48]);
        Case {
            keeper,
            calls: self.calls(count),
        }
    }

    /// Any tags and places; lengths alike in all queues, or not.
    fn sound_keeper(&mut self) -> RawKeeper {
        let rng = &mut self.rng;
        let length = rng.pick(&[None, None, Some(0), Some(1), Some(7), Some(8)]);
        let mut keeper: RawKeeper = paper::Keeper::NEW.into();
        for queue in &mut keeper.queues {
            queue.tags = queue.tags.map(|_| rng.byte());
            queue.head = rng.below(8) as u8;
            let any = rng.below(9) as u8;
            queue.length = match length {
                Some(length) if rng.percent(80) => length,
                _ => any,
            };
        }
        keeper.last = rng.below(4) as u8;
        keeper
    }

    /// A sound keeper with one to three numbers put out of range, by one or by more.
    fn unsound_keeper(&mut self) -> RawKeeper {
        let mut keeper = self.sound_keeper();
        for _ in 0..self.rng.pick(&[1, 1, 2, 3]) {
            let place = self.rng.below(9);
            let (number, most) = numbers(&mut keeper).swap_remove(place);
            *number = match self.rng.below(3) {
                0 => most + 1,
                1 => self.rng.within(usize::from(most) + 1, 255) as u8,
                _ => 255,
            };
        }
        keeper
    }

    /// So many calls: more adding or more granting, and now and then one core that is left alone.
    fn calls(&mut self, count: usize) -> Vec<Call> {
        let adding = self.rng.pick(&[25, 50, 50, 75]);
        let alone = self.rng.below(12) as u8;
        let calls = (0..count).map(|_| match self.adding() {
            Call::Add { core, tag } if self.rng.percent(adding) => Call::Add {
                core: if core == alone { (core + 1) % 4 } else { core },
                tag,
            },
            _ => Call::Grant,
        });
        calls.collect()
    }

    /// An adding, mostly for a core that is there.
    fn adding(&mut self) -> Call {
        let core = match self.rng.below(20) {
            0 => self.rng.byte(),
            1 => self.rng.pick(&[4, 5]),
            _ => self.rng.below(4) as u8,
        };
        let tag = if self.rng.percent(70) {
            self.rng.byte()
        } else {
            self.rng.below(2) as u8
        };
        Call::Add { core, tag }
    }
}

/// That these tests can fail: models that are nearly right are found out.
mod impostors {
    use super::*;

    const IMPOSTORS: &[(&str, Subject)] = &[
        ("looks from the core granted last itself", from_last),
        ("looks from core 0 always", from_core_0),
        ("goes round the other way", backwards),
        ("forgets whom it granted", forgets_last),
        ("moves on where no transfer waits", moves_on),
        ("says the last core where no transfer waits", says_last),
        ("takes the back of a queue", takes_back),
        ("grants a transfer twice", grants_twice),
        ("clears the place of what it granted", clears_place),
        ("has a place 8", has_place_8),
        ("adds at the place of the length", adds_at_length),
        ("is full at seven", full_at_seven),
        ("drops the ninth and says nothing", drops_ninth),
        ("takes core 4 for core 0", core_4_is_0),
        ("looks at the core first", core_first),
        ("looks at the queue first", queue_first),
        ("looks for a transfer first", transfer_first),
        ("looks at no head of an empty queue", no_empty_head),
        ("looks at the core's own queue alone", own_queue_alone),
        ("adds whatever the last core is", adds_with_any_last),
        ("mends what it refuses", mends),
    ];

    /// Those of them that break a promise, and do not only differ in a byte or a number.
    const BREAKERS: &[Subject] = &[
        from_last,
        from_core_0,
        forgets_last,
        takes_back,
        grants_twice,
        has_place_8,
        adds_at_length,
        full_at_seven,
        drops_ninth,
        core_4_is_0,
    ];

    #[test]
    fn each_is_found() {
        for (name, impostor) in IMPOSTORS {
            let found = hunt(*impostor, model, 1, 2000);
            assert!(found.is_some(), "not found: a model that {name}");
        }
    }

    #[test]
    fn each_broken_promise_is_found() {
        for (number, breaker) in BREAKERS.iter().enumerate() {
            let mut cases = (0..2000).map(|number| Generator::new(2, number).sound_case());
            let found = cases.any(|case| waits(&case, *breaker).is_err());
            assert!(found, "not found: breaker {number}");
        }
    }

    #[test]
    fn the_model_itself_is_not() {
        assert!(hunt(model, model, 1, 2000).is_none());
        let mut cases = (0..2000).map(|number| Generator::new(2, number).sound_case());
        assert!(cases.all(|case| waits(&case, model).is_ok()));
    }

    #[test]
    fn what_is_found_is_shrunk() {
        let (_, case) = hunt(forgets_last, model, 1, 2000).expect("it is found");
        assert!(case.calls.len() <= 2, "{case:?}");
    }

    fn from_last(keeper: RawKeeper, call: Call) -> Outcome {
        with_last(keeper, call, |last| (last + 3) % 4)
    }

    fn from_core_0(keeper: RawKeeper, call: Call) -> Outcome {
        with_last(keeper, call, |_| 3)
    }

    /// The model as if another core had been granted last.
    fn with_last(keeper: RawKeeper, call: Call, other: fn(u8) -> u8) -> Outcome {
        let mut other_keeper = keeper;
        if call == Call::Grant && keeper.last < 4 {
            other_keeper.last = other(keeper.last);
        }
        let mut outcome = model(other_keeper, call);
        if outcome.refusal != 0 {
            outcome.keeper = keeper;
        }
        outcome
    }

    fn backwards(keeper: RawKeeper, call: Call) -> Outcome {
        let mirror = |mut keeper: RawKeeper| {
            keeper.queues.reverse();
            keeper.last = 3 - keeper.last;
            keeper
        };
        if call != Call::Grant || keeper.last > 3 {
            return model(keeper, call);
        }
        let mut outcome = model(mirror(keeper), call);
        outcome.keeper = mirror(outcome.keeper);
        if outcome.refusal == 0 {
            outcome.core = 3 - outcome.core;
        }
        outcome
    }

    fn forgets_last(keeper: RawKeeper, call: Call) -> Outcome {
        let mut outcome = model(keeper, call);
        outcome.keeper.last = keeper.last;
        outcome
    }

    fn moves_on(keeper: RawKeeper, call: Call) -> Outcome {
        let mut outcome = model(keeper, call);
        if outcome.refusal == 16 {
            outcome.keeper.last = (keeper.last + 1) % 4;
        }
        outcome
    }

    fn says_last(keeper: RawKeeper, call: Call) -> Outcome {
        let mut outcome = model(keeper, call);
        if outcome.refusal == 16 {
            outcome.core = keeper.last;
        }
        outcome
    }

    /// The model, and something done to its outcome where a transfer was granted from a queue.
    fn where_granted(
        keeper: RawKeeper,
        call: Call,
        act: fn(&mut Outcome, before: RawQueue),
    ) -> Outcome {
        let mut outcome = model(keeper, call);
        if call == Call::Grant && outcome.refusal == 0 {
            let before = keeper.queues[usize::from(outcome.core)];
            act(&mut outcome, before);
        }
        outcome
    }

    fn takes_back(keeper: RawKeeper, call: Call) -> Outcome {
        where_granted(keeper, call, |outcome, before| {
            outcome.tag = before.tags[usize::from(before.head + before.length - 1) % 8];
            outcome.keeper.queues[usize::from(outcome.core)].head = before.head;
        })
    }

    fn grants_twice(keeper: RawKeeper, call: Call) -> Outcome {
        where_granted(keeper, call, |outcome, before| {
            outcome.keeper.queues[usize::from(outcome.core)] = before;
        })
    }

    fn clears_place(keeper: RawKeeper, call: Call) -> Outcome {
        where_granted(keeper, call, |outcome, before| {
            let queue = &mut outcome.keeper.queues[usize::from(outcome.core)];
            queue.tags[usize::from(before.head)] = 0;
        })
    }

    fn has_place_8(keeper: RawKeeper, call: Call) -> Outcome {
        where_granted(keeper, call, |outcome, before| {
            outcome.keeper.queues[usize::from(outcome.core)].head = before.head + 1;
        })
    }

    /// Right as long as the head is at place 0.
    fn adds_at_length(keeper: RawKeeper, call: Call) -> Outcome {
        let mut outcome = model(keeper, call);
        if let (Call::Add { core, tag }, 0) = (call, outcome.refusal) {
            let core = usize::from(core);
            let before = keeper.queues[core];
            outcome.keeper.queues[core].tags = before.tags;
            outcome.keeper.queues[core].tags[usize::from(before.length)] = tag;
        }
        outcome
    }

    fn full_at_seven(keeper: RawKeeper, call: Call) -> Outcome {
        let outcome = model(keeper, call);
        match call {
            Call::Add { core, .. }
                if outcome.refusal == 0 && keeper.queues[usize::from(core)].length == 7 =>
            {
                Outcome::ungranted(15, keeper)
            }
            _ => outcome,
        }
    }

    fn drops_ninth(keeper: RawKeeper, call: Call) -> Outcome {
        let mut outcome = model(keeper, call);
        if outcome.refusal == 15 {
            outcome.refusal = 0;
        }
        outcome
    }

    fn core_4_is_0(keeper: RawKeeper, call: Call) -> Outcome {
        match call {
            Call::Add { core: 4, tag } => model(keeper, Call::Add { core: 0, tag }),
            _ => model(keeper, call),
        }
    }

    fn core_first(keeper: RawKeeper, call: Call) -> Outcome {
        match call {
            Call::Add { core: 4.., .. } => Outcome::ungranted(14, keeper),
            _ => model(keeper, call),
        }
    }

    fn queue_first(keeper: RawKeeper, call: Call) -> Outcome {
        match call {
            Call::Add { core, .. } if core < 4 && keeper.queues[usize::from(core)].length >= 8 => {
                Outcome::ungranted(15, keeper)
            }
            _ => model(keeper, call),
        }
    }

    fn transfer_first(keeper: RawKeeper, call: Call) -> Outcome {
        let empty = keeper.queues.iter().all(|queue| queue.length == 0);
        if call == Call::Grant && empty {
            return Outcome::ungranted(16, keeper);
        }
        model(keeper, call)
    }

    fn no_empty_head(mut keeper: RawKeeper, call: Call) -> Outcome {
        for queue in keeper.queues.iter_mut().filter(|queue| queue.length == 0) {
            queue.head %= 8;
        }
        model(keeper, call)
    }

    fn own_queue_alone(mut keeper: RawKeeper, call: Call) -> Outcome {
        if let Call::Add { core, .. } = call {
            let queues = (0..).zip(&mut keeper.queues);
            for (_, queue) in queues.filter(|(other, _)| *other != core) {
                (queue.head, queue.length) = (queue.head % 8, queue.length % 9);
            }
        }
        model(keeper, call)
    }

    fn adds_with_any_last(mut keeper: RawKeeper, call: Call) -> Outcome {
        if call != Call::Grant {
            keeper.last %= 4;
        }
        model(keeper, call)
    }

    fn mends(keeper: RawKeeper, call: Call) -> Outcome {
        let mut outcome = model(keeper, call);
        if outcome.refusal == 20 {
            outcome.keeper.last %= 4;
        }
        outcome
    }
}

/// That the generator leaves nothing out.
mod completeness {
    use super::*;

    const CASES: u64 = 5000;

    /// Each refusal of each call, each core, and each turn of a queue from place 7 to 0.
    #[test]
    fn every_answer_is_reached() {
        let (mut adds, mut grants) = ([0; 256], [0; 256]);
        let (mut cores, mut added_round, mut granted_round) = ([0; 4], 0, 0);
        for number in 0..CASES {
            let Case { mut keeper, calls } = Generator::new(seed() ^ 6, number).case();
            for call in calls {
                let before = keeper;
                let outcome = model(keeper, call);
                keeper = outcome.keeper;
                let refusal = usize::from(outcome.refusal);
                match call {
                    Call::Add { core, .. } => {
                        adds[refusal] += 1;
                        if refusal == 0 {
                            let queue = before.queues[usize::from(core)];
                            added_round += u32::from(queue.head + queue.length >= 8);
                        }
                    }
                    Call::Grant => {
                        grants[refusal] += 1;
                        if refusal == 0 {
                            let core = usize::from(outcome.core);
                            cores[core] += 1;
                            granted_round += u32::from(before.queues[core].head == 7);
                        }
                    }
                }
            }
        }
        let seen = |refusals: &[usize], counts: [u32; 256]| {
            let counts = refusals.iter().map(|&refusal| counts[refusal]);
            counts.min().is_some_and(|least| least > 200)
        };
        assert!(seen(&[0, 14, 15, 20], adds), "{adds:?}");
        assert!(seen(&[0, 16, 20], grants), "{grants:?}");
        assert!(cores.iter().all(|&seen| seen > 2000), "{cores:?}");
        assert!(added_round > 2000 && granted_round > 2000);
    }

    /// Each number out of range alone, by one and by more; and a bad place in an empty queue.
    #[test]
    fn every_unsoundness_is_reached() {
        let (mut by_one, mut by_more, mut several, mut in_empty) = ([0; 9], [0; 9], 0, 0);
        for number in 0..CASES {
            let mut keeper = Generator::new(seed() ^ 7, number).unsound_keeper();
            let empty = keeper.queues.map(|queue| queue.length == 0);
            let numbers = numbers(&mut keeper).into_iter().enumerate();
            let bad: Vec<_> = numbers
                .filter(|(_, (number, most))| **number > *most)
                .collect();
            match &bad[..] {
                [(place, (number, most))] => {
                    let counts = if **number == most + 1 {
                        &mut by_one
                    } else {
                        &mut by_more
                    };
                    counts[*place] += 1;
                    in_empty += u32::from(*place < 8 && place % 2 == 0 && empty[place / 2]);
                }
                several_bad => several += u32::from(several_bad.len() > 1),
            }
        }
        let least = by_one.iter().chain(&by_more).min();
        assert!(least > Some(&50), "{by_one:?} {by_more:?}");
        assert!(several > 1000 && in_empty > 100, "{several} {in_empty}");
    }

    /// The longest waits are reached, so that no smaller number could be promised.
    #[test]
    fn every_longest_wait_is_reached() {
        let mut longest = [0; 8];
        for number in 0..CASES {
            let case = Generator::new(seed() ^ 8, number).sound_case();
            let waits = waits(&case, library).expect("what is promised holds");
            longest = std::array::from_fn(|before| longest[before].max(waits[before]));
        }
        assert_eq!(longest, [4, 8, 12, 16, 20, 24, 28, 32]);
    }
}
