//! A replay: the log goes to the device, what comes out goes where the command line says.

use std::fs::File;
use std::io::{self, Cursor, Read};
use std::path::Path;

use sleetanvil::{Device, Record, Records, Refusal};

use crate::args::{Replay, Source};
use crate::image::{self, Image};
use crate::judge::Judgement;
use crate::output::{Difference, Output};
use crate::pieces::Pieces;
use crate::progress::Progress;
use crate::save::{self, Target};
use crate::trace::Tracer;
use crate::words::{hex, numbered};
use crate::{print, Failure};

/// How a replay ended that was not refused.
pub enum Ended {
    Well,
    /// It was to be judged, and the log is not orderly.
    NotOrderly,
}

/// What was done of a piece of a log.
pub struct Done {
    pub records: usize,
    pub used: usize,
    pub stop: Option<Stop>,
}

/// How a log ended.
pub struct End {
    pub records: usize,
    pub stop: Option<Stop>,
}

/// Why it stopped before its end.
pub enum Stop {
    Refused(Refusal),
    /// The output is not the one expected.
    Differs(String),
}

/// Replay a log as the command line asks. Nothing is saved unless the log was read to its end and
/// its output was the one expected.
pub fn run(replay: &Replay) -> Result<Ended, Failure> {
    let target = replay.save.as_deref().map(Target::of).transpose()?;
    apart(replay)?;
    let device = begin(replay)?;
    let (mut log, total) = open_log(&replay.log)?;
    let mut progress = Progress::new(total, replay.trace);
    let mut judgement = None;
    if replay.judge {
        let mut whole = Vec::new();
        log.read_to_end(&mut whole)
            .map_err(|error| format!("{}: {error}", replay.log))?;
        progress.judging(whole.len() as u64);
        judgement = Some(Judgement::of(&device, &whole));
        log = Box::new(Cursor::new(whole));
    }
    let (keep, expect) = (replay.out.as_deref(), replay.expect.as_deref());
    let mut output = Output::open(keep, expect, device.state())?;

    let mut pieces = Pieces::new(log);
    let (device, done) = if replay.trace {
        let out = io::BufWriter::new(io::stdout().lock());
        let mut tracer = Tracer::new(device, replay.bytes, out);
        let done = in_pieces(&replay.log, &mut pieces, &mut progress, |log| {
            traced(&mut tracer, log, &mut output)
        });
        progress.end();
        let ended = tracer.finish();
        let done = done?;
        (ended.map_err(Failure::of_stdout)?, done)
    } else {
        let (mut device, mut room) = (device, Vec::new());
        let done = in_pieces(&replay.log, &mut pieces, &mut progress, |log| {
            plain(&mut device, log, &mut room, &mut output)
        });
        progress.end();
        (device, done?)
    };
    output.finish()?;

    let end = |refusal: u8| {
        let verdict = judgement.as_ref().map(|it| format!("{it}\n"));
        let verdict = verdict.unwrap_or_default();
        print(&format!("{verdict}end {refusal} {}\n", done.records))
    };
    let complaint = match done.stop {
        Some(Stop::Differs(message)) => Some(message),
        Some(Stop::Refused(refusal)) => {
            // The refusal counts more than a reader who is gone.
            let _ = end(refusal.number());
            Some(refused(refusal, done.records, &pieces))
        }
        None => output.left()?,
    };
    if let Some(mut message) = complaint {
        if let Some(path) = &replay.save {
            message += &format!("; {} is left as it was", path.display());
        }
        return Err(format!("{}: {message}", replay.log).into());
    }
    if let Some(target) = target {
        image::save(&device, &target)?;
    }
    end(0)?;
    Ok(match judgement {
        Some(Judgement { orderly: false, .. }) => Ended::NotOrderly,
        _ => Ended::Well,
    })
}

/// No file is written that is read, and none is written twice; but an image may be renewed.
fn apart(replay: &Replay) -> Result<(), String> {
    let (out, save) = (replay.out.as_deref(), replay.save.as_deref());
    let (image, expect) = (replay.image.as_deref(), replay.expect.as_deref());
    let log = match &replay.log {
        Source::Stdin => None,
        Source::File(path) => Some(path.as_path()),
    };
    type Named<'a> = (&'static str, Option<&'a Path>);
    let pairs: [(Named, Named); 6] = [
        (("--out", out), ("the log", log)),
        (("--out", out), ("--image", image)),
        (("--out", out), ("--expect", expect)),
        (("--out", out), ("--save", save)),
        (("--save", save), ("the log", log)),
        (("--save", save), ("--expect", expect)),
    ];
    for ((one, left), (other, right)) in pairs {
        if let (Some(left), Some(right)) = (left, right) {
            if save::same(left, right) {
                let path = left.display();
                return Err(format!("{path}: {one} and {other} are the same file"));
            }
        }
    }
    Ok(())
}

/// The device that the replay begins with.
fn begin(replay: &Replay) -> Result<Device, String> {
    let of_its_stepping = |image: Image| match replay.stepping {
        Some(stepping) => image.with_stepping(stepping),
        None => image,
    };
    let Some(path) = &replay.image else {
        let image = Image::erased(replay.part.unwrap_or_default().geometry());
        return of_its_stepping(image).device();
    };
    Image::load(path, replay.part)
        .map(of_its_stepping)
        .and_then(|image| match replay.power_up {
            true => image.powered_up().device(),
            false => image.device(),
        })
        .map_err(|message| format!("{}: {message}", path.display()))
}

/// The log, and how long it is if that is known.
pub fn open_log(source: &Source) -> Result<(Box<dyn Read>, Option<u64>), String> {
    match source {
        Source::Stdin => Ok((Box::new(io::stdin()), None)),
        Source::File(path) => {
            let file = File::open(path).map_err(|error| format!("{source}: {error}"))?;
            let found = file.metadata().ok().filter(|found| found.is_file());
            Ok((Box::new(file), found.map(|found| found.len())))
        }
    }
}

/// Do a log piece by piece. What is left of it begins at the record that stopped it.
pub fn in_pieces<R: Read>(
    source: &Source,
    pieces: &mut Pieces<R>,
    progress: &mut Progress,
    mut piece: impl FnMut(&[u8]) -> Result<Done, Failure>,
) -> Result<End, Failure> {
    let mut records = 0;
    loop {
        pieces
            .more()
            .map_err(|error| format!("{source}: {error}"))?;
        progress.at(pieces.used());
        let done = piece(pieces.bytes())?;
        pieces.done(done.used);
        records += done.records;
        let stop = match done.stop {
            // The rest of the record comes with the next piece.
            Some(Stop::Refused(Refusal::ShortBody)) if !pieces.ended() => continue,
            None if !pieces.ended() => continue,
            stop => stop,
        };
        return Ok(End { records, stop });
    }
}

/// Do a piece of a log in one go.
fn plain(
    device: &mut Device,
    log: &[u8],
    room: &mut Vec<u8>,
    output: &mut Output,
) -> Result<Done, Failure> {
    // A shift takes two bytes of the log, so this is room for all of them.
    room.resize(log.len() / 2, 0);
    let answer = device.run(log, room);
    let difference = output.take(&room[..answer.written])?;
    let mut stop = answer.refusal.map(Stop::Refused);
    if output.follows() {
        follow(output, &log[..answer.used], difference.as_ref());
    }
    if let Some(difference) = difference {
        stop = Some(Stop::Differs(output.describe(&difference)));
    }
    Ok(Done {
        records: answer.records,
        used: answer.used,
        stop,
    })
}

/// Follow the records up to the shift whose byte differs.
fn follow(output: &mut Output, log: &[u8], difference: Option<&Difference>) {
    let mut shifts = 0;
    for record in Records::new(log).map_while(Result::ok) {
        output.record(record);
        if matches!(record, Record::Shift(_)) {
            if difference.is_some_and(|difference| difference.place == shifts) {
                return;
            }
            shifts += 1;
        }
    }
}

/// Do a piece of a log record by record, with a trace.
fn traced<W: io::Write>(
    tracer: &mut Tracer<W>,
    log: &[u8],
    output: &mut Output,
) -> Result<Done, Failure> {
    let (mut records, mut used) = (0, 0);
    let stop = loop {
        let (record, next) = match Record::read_at(log, used) {
            Ok(None) => break None,
            Ok(Some(found)) => found,
            Err(refusal) => break Some(Stop::Refused(refusal)),
        };
        let byte = tracer.record(record).map_err(Failure::of_stdout)?;
        output.record(record);
        records += 1;
        used = next;
        if let Some(difference) = output.take(byte.as_slice())? {
            break Some(Stop::Differs(output.describe(&difference)));
        }
    };
    tracer.flush().map_err(Failure::of_stdout)?;
    Ok(Done {
        records,
        used,
        stop,
    })
}

/// A refusal in words, with its place and the bytes at fault. What is left of the log begins at its
/// record.
pub fn refused<R: Read>(refusal: Refusal, record: usize, pieces: &Pieces<R>) -> String {
    let fault = match (refusal, pieces.bytes()) {
        (Refusal::BadKind, [kind, ..]) => format!(": the byte is {kind:02X}h"),
        (Refusal::BadLevel, [_, level, ..]) => format!(": the level is {level:02X}h"),
        (Refusal::ShortBody, left) => format!(": nothing comes behind {}", hex(left)),
        _ => String::new(),
    };
    let (place, refusal) = (pieces.used(), numbered(refusal));
    format!("byte {place}, record {record}: {refusal}{fault}")
}
