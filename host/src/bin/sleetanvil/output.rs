//! The bytes on DO: kept in a file, and compared with one.

use std::fs::File;
use std::io::{self, BufReader, BufWriter, Read, Write};
use std::path::{Path, PathBuf};

use sleetanvil::{Record, State};

use crate::instruction;
use crate::words::counted;

/// Where the bytes on DO go.
pub struct Output {
    kept: Option<Kept>,
    expected: Option<Expected>,
}

struct Kept {
    path: PathBuf,
    file: BufWriter<File>,
}

struct Expected {
    path: PathBuf,
    file: BufReader<File>,
    /// The bytes that were compared.
    compared: u64,
    walk: Walk,
}

/// A byte on DO that is not the one expected.
pub struct Difference {
    /// Which of the bytes that were taken together.
    pub place: usize,
    found: u8,
    /// None where the file has come to its end.
    expected: Option<u8>,
}

impl Output {
    /// The file to compare with is opened first, so that nothing is written if it is not there.
    pub fn open(keep: Option<&Path>, expect: Option<&Path>, start: &State) -> Result<Self, String> {
        let expected = match expect {
            None => None,
            Some(path) => Some(Expected {
                path: path.into(),
                file: BufReader::new(File::open(path).map_err(|error| message(path, error))?),
                compared: 0,
                walk: Walk::new(start),
            }),
        };
        let kept = match keep {
            None => None,
            Some(path) => Some(Kept {
                path: path.into(),
                file: BufWriter::new(File::create(path).map_err(|error| message(path, error))?),
            }),
        };
        Ok(Output { kept, expected })
    }

    /// Take some bytes on DO, up to the first that is not the one expected.
    pub fn take(&mut self, bytes: &[u8]) -> Result<Option<Difference>, String> {
        let difference = match &mut self.expected {
            None => None,
            Some(expected) => expected
                .compare(bytes)
                .map_err(|error| message(&expected.path, error))?,
        };
        if let Some(kept) = &mut self.kept {
            let taken = difference.as_ref().map_or(bytes.len(), |it| it.place + 1);
            kept.file
                .write_all(&bytes[..taken])
                .map_err(|error| message(&kept.path, error))?;
        }
        Ok(difference)
    }

    /// A record was done.
    pub fn record(&mut self, record: Record) {
        if let Some(expected) = &mut self.expected {
            expected.walk.record(record);
        }
    }

    /// Whether records are followed at all.
    pub fn follows(&self) -> bool {
        self.expected.is_some()
    }

    /// A difference in words, for the last record that was done.
    pub fn describe(&self, difference: &Difference) -> String {
        let Some(Expected {
            path,
            compared,
            walk,
            ..
        }) = &self.expected
        else {
            return String::new();
        };
        let (path, found, place) = (path.display(), difference.found, walk.place());
        match difference.expected {
            Some(byte) => {
                format!("{place}: DO is {found:02X}h, and byte {compared} of {path} is {byte:02X}h")
            }
            None => {
                let compared = counted(*compared, "byte");
                format!("{place}: DO is {found:02X}h, and {path} ends after {compared}")
            }
        }
    }

    /// All has been written.
    pub fn finish(&mut self) -> Result<(), String> {
        match &mut self.kept {
            None => Ok(()),
            Some(kept) => kept
                .file
                .flush()
                .map_err(|error| message(&kept.path, error)),
        }
    }

    /// What is left in the file to compare with, once the log has ended.
    pub fn left(&mut self) -> Result<Option<String>, String> {
        let Some(expected) = &mut self.expected else {
            return Ok(None);
        };
        let mut byte = [0];
        let path = &expected.path;
        match read_full(&mut expected.file, &mut byte).map_err(|error| message(path, error))? {
            0 => Ok(None),
            _ => Ok(Some(format!(
                "the log has ended with {} on DO, and {} goes on with {:02X}h",
                counted(expected.compared, "byte"),
                path.display(),
                byte[0]
            ))),
        }
    }
}

impl Expected {
    fn compare(&mut self, bytes: &[u8]) -> io::Result<Option<Difference>> {
        let mut expected = vec![0; bytes.len()];
        let count = read_full(&mut self.file, &mut expected)?;
        let expected = &expected[..count];
        let place = (0..bytes.len()).find(|&place| expected.get(place) != Some(&bytes[place]));
        self.compared += place.unwrap_or(bytes.len()) as u64;
        Ok(place.map(|place| Difference {
            place,
            found: bytes[place],
            expected: expected.get(place).copied(),
        }))
    }
}

fn message(path: &Path, error: io::Error) -> String {
    format!("{}: {error}", path.display())
}

/// Read until the room is full or the file ends.
fn read_full(file: &mut impl Read, room: &mut [u8]) -> io::Result<usize> {
    let mut count = 0;
    while count < room.len() {
        match file.read(&mut room[count..]) {
            Ok(0) => break,
            Ok(read) => count += read,
            Err(error) if error.kind() == io::ErrorKind::Interrupted => {}
            Err(error) => return Err(error),
        }
    }
    Ok(count)
}

/// Which record of which transfer a log has come to.
struct Walk {
    records: u64,
    transfer: Option<Begun>,
}

struct Begun {
    /// Its select; none for one before the log.
    from: Option<u64>,
    code: Code,
}

#[derive(Clone, Copy)]
enum Code {
    NoneYet,
    Of(u8),
    /// Shifted before the log, and ignored.
    Lost,
}

impl Walk {
    fn new(start: &State) -> Self {
        let code = match (start.count, u8::try_from(start.instruction)) {
            (0, _) => Code::NoneYet,
            (_, Ok(code)) => Code::Of(code),
            (_, Err(_)) => Code::Lost,
        };
        let transfer = start.is_selected().then_some(Begun { from: None, code });
        Walk {
            records: 0,
            transfer,
        }
    }

    fn record(&mut self, record: Record) {
        match (record, &mut self.transfer) {
            (Record::Select, None) => {
                let (from, code) = (Some(self.records), Code::NoneYet);
                self.transfer = Some(Begun { from, code });
            }
            (Record::Shift(byte), Some(begun)) if matches!(begun.code, Code::NoneYet) => {
                begun.code = Code::Of(byte);
            }
            (Record::Deselect | Record::Power, _) => self.transfer = None,
            _ => {}
        }
        self.records += 1;
    }

    /// The last record done and its transfer.
    fn place(&self) -> String {
        let record = format!("record {}", self.records.saturating_sub(1));
        let Some(begun) = &self.transfer else {
            return format!("{record}, not selected");
        };
        let from = match begun.from {
            Some(from) => format!("the transfer of record {from}"),
            None => "the transfer begun before the log".into(),
        };
        match begun.code {
            Code::Of(code) => format!("{record}, in {from} ({})", instruction::named(code)),
            _ => format!("{record}, in {from}"),
        }
    }
}
