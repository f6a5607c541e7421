//! A naive model of the part in memory, as somebody writes it who needs a flash to boot from: no
//! state that goes in and out, no checks, no number of refusal, and work done at once. It answers
//! what a well-behaved driver asks, and is here to be measured against.

pub struct Naive {
    data: usize,
    pages: usize,
    identity: [u8; 2],
    cells: Vec<u8>,
    cache: Vec<u8>,
    features: [u8; 4],
    write_enabled: bool,
    selected: bool,
    count: usize,
    code: u8,
    bytes: [u8; 3],
    column: usize,
}

impl Naive {
    pub fn new(page: usize, pages: usize, blocks: usize, identity: [u8; 2]) -> Self {
        Naive {
            data: page,
            pages,
            identity,
            cells: vec![0xFF; page * pages * blocks],
            cache: vec![0xFF; page],
            features: [0; 4],
            write_enabled: false,
            selected: false,
            count: 0,
            code: 0,
            bytes: [0; 3],
            column: 0,
        }
    }

    /// The cache register.
    pub fn cache(&mut self) -> &mut Vec<u8> {
        &mut self.cache
    }

    pub fn select(&mut self) {
        self.selected = true;
        self.count = 0;
    }

    pub fn shift(&mut self, byte: u8) -> u8 {
        if !self.selected {
            return 0xFF;
        }
        let count = self.count;
        self.count += 1;
        if count == 0 {
            self.code = byte;
            return 0xFF;
        }
        if count <= 3 {
            self.bytes[count - 1] = byte;
        }
        match self.code {
            0x0F if count >= 2 => self.feature(self.bytes[0]),
            0x9F if count >= 2 => self.identity.get(count - 2).copied().unwrap_or(0xFF),
            0x03 | 0x0B => {
                if count == 2 {
                    self.start_column();
                }
                if count >= 4 {
                    let column = self.column;
                    self.column += 1;
                    if self.column == self.data {
                        self.column = 0;
                    }
                    return self.cache.get(column).copied().unwrap_or(0xFF);
                }
                0xFF
            }
            0x02 | 0x84 => {
                if count == 2 {
                    self.start_column();
                    if self.code == 0x02 {
                        self.cache.fill(0xFF);
                    }
                }
                if count >= 3 {
                    if let Some(place) = self.cache.get_mut(self.column) {
                        *place = byte;
                    }
                    self.column += 1;
                }
                0xFF
            }
            _ => 0xFF,
        }
    }

    pub fn deselect(&mut self) {
        self.selected = false;
        let row = usize::from(self.bytes[1]) << 8 | usize::from(self.bytes[2]);
        match (self.code, self.count) {
            (0x06, 1) => self.write_enabled = true,
            (0x04, 1) => self.write_enabled = false,
            (0x1F, 3) => self.features[usize::from(self.bytes[0] >> 4 & 3)] = self.bytes[1],
            (0x13, 4) => {
                let page = &self.cells[row * self.data..(row + 1) * self.data];
                self.cache.copy_from_slice(page);
            }
            (0x10, 4) if self.write_enabled => {
                let page = &mut self.cells[row * self.data..(row + 1) * self.data];
                for (cell, byte) in page.iter_mut().zip(&self.cache) {
                    *cell &= byte;
                }
                self.write_enabled = false;
            }
            (0xD8, 4) if self.write_enabled => {
                let block = self.data * self.pages;
                let first = row / self.pages * block;
                self.cells[first..first + block].fill(0xFF);
                self.write_enabled = false;
            }
            _ => {}
        }
    }

    pub fn transfer(&mut self, di: &[u8], out: &mut [u8]) {
        self.select();
        for (byte, answer) in di.iter().zip(out) {
            *answer = self.shift(*byte);
        }
        self.deselect();
    }

    fn start_column(&mut self) {
        self.column = usize::from(self.bytes[0] & 0x0F) << 8 | usize::from(self.bytes[1]);
    }

    fn feature(&self, address: u8) -> u8 {
        if address == 0xC0 {
            return u8::from(self.write_enabled) << 1;
        }
        self.features[usize::from(address >> 4 & 3)]
    }
}
