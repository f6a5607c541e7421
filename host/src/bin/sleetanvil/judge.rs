//! Whether a log is orderly, and if not, why. The verdict is the library's, which is proved; the
//! reason is worked out here, and the tests compare the two.

use std::fmt;

use sleetanvil::{Device, Geometry, Operation, Record, Records, State};

use crate::{instruction, operation};

/// What is said of a log.
pub struct Judgement {
    pub orderly: bool,
    reason: Option<Reason>,
}

/// Why a log is not orderly: the first thing that breaks the rule. Records count from 0.
#[derive(Clone, Copy, Debug, PartialEq, Eq)]
enum Reason {
    /// It begins busy, and not at power-up.
    Start,
    /// An instruction's first byte while busy.
    Instruction { record: usize, code: u8 },
    /// A reset that took effect while busy.
    Reset { record: usize },
    /// Power lost while busy.
    Power { record: usize },
    /// It ends with an operation in progress, on a part.
    End(Operation, Geometry),
}

impl Judgement {
    /// Judge a log that begins in a device's state. A log that is refused is judged by the records
    /// before the refusal.
    pub fn of(device: &Device, log: &[u8]) -> Self {
        let mut out = vec![0; log.len() / 2];
        let (_, orderly) = device.clone().judge(log, &mut out);
        let reason = match orderly {
            true => None,
            false => reason(device.clone(), log),
        };
        Judgement { orderly, reason }
    }
}

impl fmt::Display for Judgement {
    fn fmt(&self, f: &mut fmt::Formatter<'_>) -> fmt::Result {
        match (self.orderly, self.reason) {
            (true, _) => f.write_str("orderly"),
            (false, Some(reason)) => write!(f, "not orderly: {reason}"),
            // The tests have never met this; the verdict would stand all the same.
            (false, None) => f.write_str("not orderly: this program has found no reason"),
        }
    }
}

impl fmt::Display for Reason {
    fn fmt(&self, f: &mut fmt::Formatter<'_>) -> fmt::Result {
        match self {
            Reason::Start => f.write_str("it begins while busy, and not at power-up"),
            Reason::Instruction { record, code } => {
                write!(f, "record {record}, {code:02X}h begun while busy")
            }
            Reason::Reset { record } => {
                write!(f, "record {record}, a reset took effect while busy")
            }
            Reason::Power { record } => write!(f, "record {record}, power lost while busy"),
            Reason::End(last, part) => {
                write!(f, "it ends while busy: {}", operation::so_far(last, part))
            }
        }
    }
}

/// The first reason why a log is not orderly.
fn reason(mut device: Device, log: &[u8]) -> Option<Reason> {
    if !starts(device.state()) {
        return Some(Reason::Start);
    }
    for (number, record) in Records::new(log).map_while(Result::ok).enumerate() {
        if let Some(reason) = broken(device.state(), number, record) {
            return Some(reason);
        }
        step(&mut device, record);
    }
    let last = device.state().operation()?;
    Some(Reason::End(last, *device.geometry()))
}

/// At power-up, with WP# at either level, or idle.
fn starts(state: &State) -> bool {
    let up = State::power_up();
    !state.is_busy() || *state == State { wp: state.wp, ..up }
}

/// What a record breaks in a state.
fn broken(state: &State, number: usize, record: Record) -> Option<Reason> {
    let first = state.is_selected() && state.count == 0;
    let resetting = state.is_selected() && state.count == 1 && state.instruction == 0xFF;
    match record {
        _ if !state.is_busy() => None,
        Record::Shift(code) if first && instruction::needs_idle(code) => {
            let record = number;
            Some(Reason::Instruction { record, code })
        }
        Record::Deselect if resetting => Some(Reason::Reset { record: number }),
        Record::Power => Some(Reason::Power { record: number }),
        _ => None,
    }
}

/// Do a record.
fn step(device: &mut Device, record: Record) {
    match record {
        Record::Select => device.select(),
        Record::Shift(byte) => drop(device.shift(byte)),
        Record::Deselect => device.deselect(),
        Record::Work(units) => device.work(units.into()),
        Record::Level(high) => device.level(high),
        Record::Power => device.power(),
    }
}

#[cfg(test)]
mod tests {
    use sleetanvil::case::Case;
    use sleetanvil::{Device, Geometry};

    use super::{reason, Reason};
    use crate::support::generate::Generator;

    fn device(case: &Case) -> Device {
        let buffers = case.buffers();
        let (cells, cache, counts) = (buffers.cells, buffers.cache, buffers.counts);
        Device::from_parts(case.geometry, case.state, cells, cache, counts).expect("a sound case")
    }

    /// A case: any, or a log that begins at power-up on the bench part.
    fn case(number: u64) -> Case {
        let mut generator = Generator::new(0x07DE, number);
        if number % 2 == 0 {
            return generator.sound_case();
        }
        let geometry = Geometry::bench();
        let log = generator.log(&geometry);
        Case::power_up(geometry, &log)
    }

    #[test]
    fn there_is_a_reason_exactly_where_the_verdict_is_not_orderly() {
        let mut met = [0; 6];
        for number in 0..20_000 {
            let case = case(number);
            let device = device(&case);
            let mut out = vec![0; case.log.len() / 2];
            let (_, orderly) = device.clone().judge(&case.log, &mut out);
            let reason = reason(device, &case.log);
            assert_eq!(orderly, reason.is_none(), "{number}: {reason:?}\n{case}");
            met[match reason {
                None => 0,
                Some(Reason::Start) => 1,
                Some(Reason::Instruction { .. }) => 2,
                Some(Reason::Reset { .. }) => 3,
                Some(Reason::Power { .. }) => 4,
                Some(Reason::End(..)) => 5,
            }] += 1;
        }
        assert!(met.iter().all(|&times| times >= 20), "{met:?}");
    }

    /// The records before the reason are orderly but for their end, so the reason is the first.
    #[test]
    fn the_reason_is_the_first() {
        let mut met = 0;
        for number in 0..4_000 {
            let case = case(number);
            let device = device(&case);
            let record = match reason(device.clone(), &case.log) {
                Some(Reason::Instruction { record, .. }) => record,
                Some(Reason::Reset { record } | Reason::Power { record }) => record,
                _ => continue,
            };
            met += 1;
            let mut records = sleetanvil::Records::new(&case.log);
            let before = records.by_ref().take(record).count();
            assert_eq!(before, record);
            let mut ended = case.log[..records.place()].to_vec();
            ended.extend([4, 0xFF, 0xFF].repeat(20));
            let mut out = vec![0; ended.len() / 2];
            let (answer, orderly) = device.clone().judge(&ended, &mut out);
            assert!(!answer.state.is_busy() && orderly, "{number}\n{case}");
            records.next();
            let mut ended = case.log[..records.place()].to_vec();
            ended.extend([4, 0xFF, 0xFF].repeat(20));
            let mut out = vec![0; ended.len() / 2];
            let (_, orderly) = device.clone().judge(&ended, &mut out);
            assert!(!orderly, "{number}\n{case}");
        }
        assert!(met > 100, "{met}");
    }
}
