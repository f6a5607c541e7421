//! A log that is read piece by piece, so that it may be larger than memory.

use std::io::{self, Read};

/// How much is read at a time.
const PIECE: usize = 1 << 18;

/// What has been read of a log and not been used yet.
pub struct Pieces<R> {
    from: R,
    bytes: Vec<u8>,
    ended: bool,
    used: u64,
}

impl<R: Read> Pieces<R> {
    pub fn new(from: R) -> Self {
        Pieces {
            from,
            bytes: Vec::new(),
            ended: false,
            used: 0,
        }
    }

    /// Read on, behind what is left.
    pub fn more(&mut self) -> io::Result<()> {
        let left = self.bytes.len();
        self.bytes.resize(left + PIECE, 0);
        let read = loop {
            match self.from.read(&mut self.bytes[left..]) {
                Err(error) if error.kind() == io::ErrorKind::Interrupted => {}
                read => break read,
            }
        };
        self.bytes.truncate(left + *read.as_ref().unwrap_or(&0));
        self.ended = read? == 0;
        Ok(())
    }

    /// What has been read and not been used.
    pub fn bytes(&self) -> &[u8] {
        &self.bytes
    }

    /// So many of the bytes are done with.
    pub fn done(&mut self, count: usize) {
        self.bytes.drain(..count);
        self.used += count as u64;
    }

    /// Whether nothing comes behind the bytes.
    pub fn ended(&self) -> bool {
        self.ended
    }

    /// How many bytes of the log were used.
    pub fn used(&self) -> u64 {
        self.used
    }
}
