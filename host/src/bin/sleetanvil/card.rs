//! Memory cards: a card log goes to a card, and what became of the card is put into words.

use std::fs;
use std::io::{self, Write};
use std::path::Path;

use sleetanvil::card::{Card, Stage, BITS, CELLS, COUNTER};
use sleetanvil::Refusal;

use crate::args::{self, Source};
use crate::card_trace::Tracer;
use crate::pieces::Pieces;
use crate::progress::Progress;
use crate::replay::{in_pieces, open_log, refused, Done, Stop};
use crate::save::{self, Target};
use crate::words::{counted, numbered};
use crate::{print, Failure};

/// The bytes of an image: the cells, then the protect bits.
const IMAGE: usize = CELLS + BITS;
/// As many stretches of protected bytes are named.
const NAMED: usize = 8;

/// Run a card log as the command line asks. Nothing is saved unless the log was read to its end.
pub fn run(asked: &args::Card) -> Result<(), Failure> {
    let target = asked.save.as_deref().map(Target::of).transpose()?;
    apart(asked)?;
    let card = begin(asked.image.as_deref())?;
    let (log, total) = open_log(&asked.log)?;
    let mut progress = Progress::new(total, asked.trace);
    let mut pieces = Pieces::new(log);
    let mut answered = 0;

    let (card, done) = if asked.trace {
        let out = io::BufWriter::new(io::stdout().lock());
        let mut tracer = Tracer::new(card, out);
        let done = in_pieces(&asked.log, &mut pieces, &mut progress, |log| {
            tracer.piece(log, &mut answered)
        });
        progress.end();
        (tracer.finish(), done?)
    } else {
        let (mut card, mut room) = (card, Vec::new());
        let done = in_pieces(&asked.log, &mut pieces, &mut progress, |log| {
            Ok(plain(&mut card, log, &mut room, &mut answered))
        });
        progress.end();
        (card, done?)
    };

    let refusal = match done.stop {
        None => None,
        Some(Stop::Refused(refusal)) => Some(refusal),
        Some(Stop::Differs(message)) => return Err(message.into()),
    };
    let ended = refusal.map_or("read to its end".into(), |refusal| {
        format!("stopped, {}", numbered(refusal))
    });
    let (records, used) = (done.records, pieces.used());
    let text = format!(
        "log: {ended}; {} done, {} used, {} answered\n{}end {} {records}\n",
        counted(records as u64, "record"),
        counted(used, "byte"),
        counted(answered, "byte"),
        told(&card),
        refusal.map_or(0, Refusal::number),
    );
    if let Some(refusal) = refusal {
        // The refusal counts more than a reader who is gone.
        let _ = print(&text);
        let mut message = refused(refusal, records, &pieces);
        if let Some(path) = &asked.save {
            message += &format!("; {} is left as it was", path.display());
        }
        return Err(format!("{}: {message}", asked.log).into());
    }
    if let Some(target) = target {
        target.save(|file| {
            file.write_all(card.cells())?;
            file.write_all(card.bits())
        })?;
    }
    print(&text)
}

/// The log is not the file that is written.
fn apart(asked: &args::Card) -> Result<(), String> {
    match (&asked.save, &asked.log) {
        (Some(save), Source::File(log)) if save::same(save, log) => Err(format!(
            "{}: --save and the log are the same file",
            save.display()
        )),
        _ => Ok(()),
    }
}

/// The card that the log begins with.
fn begin(image: Option<&Path>) -> Result<Card, String> {
    match image {
        None => Ok(Card::new()),
        Some(path) => load(path).map_err(|message| format!("{}: {message}", path.display())),
    }
}

fn load(path: &Path) -> Result<Card, String> {
    let mut cells = fs::read(path).map_err(|error| error.to_string())?;
    let length = cells.len();
    let bits = cells.split_off(CELLS.min(length));
    Card::from_memory(cells, bits).map_err(|refusal| {
        let refusal = numbered(refusal);
        format!("the image has {length} bytes, and one of a card has {IMAGE}: {refusal}")
    })
}

/// Do a piece of a log in one go.
fn plain(card: &mut Card, log: &[u8], room: &mut Vec<u8>, answered: &mut u64) -> Done {
    // A command takes four bytes of the log and answers two at most, so this is room for all.
    room.resize(log.len() / 2, 0);
    let answer = card.run(log, room);
    *answered += answer.written as u64;
    Done {
        records: answer.records,
        used: answer.used,
        stop: answer.refusal.map(Stop::Refused),
    }
}

/// The lines of a card: whether it is open, its counter, its protected bytes.
fn told(card: &Card) -> String {
    let frozen = match card.is_protected(COUNTER) {
        true => ", protected",
        false => "",
    };
    let counter = card.counter();
    let left = counted(counter.count_ones().into(), "bit");
    format!(
        "card: {}\ncounter: {counter:02X}h, {left} left{frozen}\nprotected: {}\n",
        opening(card),
        protected(card)
    )
}

/// Whether a card is open, and whether it can be opened again.
fn opening(card: &Card) -> String {
    let lost = match (card.is_protected(COUNTER), card.counter()) {
        (true, _) => Some("the counter is protected"),
        (false, 0) => Some("no counter bit is left"),
        _ => None,
    };
    match (card.stage(), lost) {
        (Stage::Fresh, None) => "closed".into(),
        (Stage::Fresh, Some(reason)) => format!("closed for good, {reason}"),
        (Stage::Counted, _) => "closed, step 1 of 3 is done".into(),
        (Stage::Half, _) => "closed, step 2 of 3 is done".into(),
        (Stage::Open, None) => "open".into(),
        (Stage::Open, Some(reason)) => {
            format!("open, and as it is never again once power is lost: {reason}")
        }
    }
}

/// How many bytes are protected, and which.
fn protected(card: &Card) -> String {
    let all: Vec<u16> = (0..CELLS as u16)
        .filter(|&address| card.is_protected(address))
        .collect();
    let stretches: Vec<String> = all
        .chunk_by(|one, next| one + 1 == *next)
        .map(|stretch| match stretch {
            [first, .., last] => format!("{first} to {last}"),
            [one] => one.to_string(),
            [] => String::new(),
        })
        .collect();
    let count = counted(all.len() as u64, "byte");
    match stretches.len() {
        0 => "no byte".into(),
        number if number > NAMED => format!("{count}: {}, ..", stretches[..NAMED].join(", ")),
        _ => format!("{count}: {}", stretches.join(", ")),
    }
}
