//! Document 02, item 1: the parameter page and its check, with the datasheet's Table 11.

use self::Value::{Bytes, Number, Text, Zeros};
use super::Part;

/// How long a page is. The copies follow one another from byte 0 on.
const PAGE: usize = 256;
const COPIES: usize = 3;

/// Where the check stands, and how many bytes it goes over.
const CHECK: usize = 254;

/// The numbers of refusal.
const BAD_PART: u8 = 1;
const NO_COPY: u8 = 10;
const SHORT_MEMORY: u8 = 11;

const SIGNATURE: [u8; 4] = [0x4F, 0x4E, 0x46, 0x49];

/// What a line of the table has.
enum Value {
    Zeros,
    Bytes(&'static [u8]),
    /// Padded with 20h to the length of the line.
    Text(&'static str),
    /// A number of the part, low byte first.
    Number(fn(&Part) -> u32),
}

/// The table up to the check: the first byte of a line, its length and its value. Manufacturer, model
/// and the byte after them are the same for every part.
#[rustfmt::skip]
const TABLE: [(usize, usize, Value); 36] = [
    (0, 4, Bytes(&SIGNATURE)),
    (4, 2, Zeros),                      // revision number
    (6, 2, Zeros),                      // features supported
    (8, 2, Bytes(&[0x06, 0x00])),       // optional commands supported
    (10, 22, Zeros),
    (32, 12, Text("FUDANMICRO")),
    (44, 20, Text("FM25S005BI3")),
    (64, 1, Bytes(&[0xA1])),            // manufacturer
    (65, 2, Zeros),                     // date code
    (67, 13, Zeros),
    (80, 4, Number(|part| part.data)),
    (84, 2, Number(|part| part.spare)),
    (86, 6, Zeros),
    (92, 4, Number(|part| part.pages)),
    (96, 4, Number(|part| part.blocks)),
    (100, 1, Bytes(&[0x01])),           // logical units
    (101, 1, Zeros),                    // address bytes
    (102, 1, Bytes(&[0x01])),           // bits per cell
    (103, 2, Bytes(&[0x0A, 0x00])),     // bad blocks, at most
    (105, 2, Bytes(&[0x05, 0x04])),     // endurance
    (107, 1, Bytes(&[0x01])),           // blocks surely valid at the beginning
    (108, 2, Zeros),                    // their endurance
    (110, 1, Bytes(&[0x04])),           // programs per page
    (111, 1, Zeros),
    (112, 1, Zeros),                    // ECC bits
    (113, 1, Zeros),                    // plane address bits
    (114, 1, Zeros),                    // multi-plane operation
    (115, 13, Zeros),
    (128, 1, Bytes(&[0x08])),           // pin capacitance
    (129, 4, Zeros),
    (133, 2, Bytes(&[0x84, 0x03])),     // longest program
    (135, 2, Bytes(&[0x10, 0x27])),     // longest erase
    (137, 2, Bytes(&[0x69, 0x00])),     // longest page read
    (139, 25, Zeros),
    (164, 2, Zeros),                    // the vendor's revision number
    (166, 88, Zeros),                   // the vendor's own
];

/// What a reading answers: the copy that was taken, and its D, S, K and N as they stand.
#[derive(Clone, Copy, Debug, PartialEq, Eq)]
pub struct Sizes {
    pub copy: u8,
    pub data: u32,
    pub spare: u16,
    pub pages: u32,
    pub blocks: u32,
}

/// The ONFI 1.0 check, bit by bit. The highest bit of a byte comes first; where it differs from the
/// bit that leaves the register, the polynomial is added.
pub fn check(bytes: &[u8]) -> u16 {
    let mut register: u16 = 0x4F4E;
    for byte in bytes {
        for place in (0..8).rev() {
            let comes = byte >> place & 1 == 1;
            let leaves = register & 0x8000 != 0;
            register <<= 1;
            if comes != leaves {
                register ^= 0x8005;
            }
        }
    }
    register
}

/// Make the page of a part in the first 256 bytes of the lent memory.
pub fn make(part: &Part, memory: &mut [u8]) -> Result<(), u8> {
    if !part.is_sound() {
        return Err(BAD_PART);
    }
    let page = memory.get_mut(..PAGE).ok_or(SHORT_MEMORY)?;
    for (place, length, value) in &TABLE {
        value.write(&mut page[*place..place + length], part);
    }
    let [low, high] = check(&page[..CHECK]).to_le_bytes();
    (page[CHECK], page[CHECK + 1]) = (low, high);
    Ok(())
}

/// Read the first copy whose signature and check hold. Nothing else of it is judged.
pub fn read(memory: &[u8]) -> Result<Sizes, u8> {
    if memory.len() < COPIES * PAGE {
        return Err(SHORT_MEMORY);
    }
    let mut copies = (0..).zip(memory.chunks(PAGE).take(COPIES));
    let (copy, page) = copies.find(|(_, page)| holds(page)).ok_or(NO_COPY)?;
    Ok(Sizes {
        copy,
        data: number(&page[80..84]),
        spare: number(&page[84..86]) as u16,
        pages: number(&page[92..96]),
        blocks: number(&page[96..100]),
    })
}

fn holds(page: &[u8]) -> bool {
    page.starts_with(&SIGNATURE) && number(&page[CHECK..]) == u32::from(check(&page[..CHECK]))
}

/// A number, low byte first.
fn number(bytes: &[u8]) -> u32 {
    let from_the_top = bytes.iter().rev();
    from_the_top.fold(0, |number, byte| number << 8 | u32::from(*byte))
}

impl Value {
    fn write(&self, line: &mut [u8], part: &Part) {
        match self {
            Zeros => line.fill(0x00),
            Bytes(bytes) => line.copy_from_slice(bytes),
            Text(text) => {
                line.fill(0x20);
                line[..text.len()].copy_from_slice(text.as_bytes());
            }
            Number(of) => line.copy_from_slice(&of(part).to_le_bytes()[..line.len()]),
        }
    }
}

#[cfg(test)]
mod tests {
    use super::*;

    fn made(part: &Part) -> Vec<u8> {
        let mut page = vec![0xA5; PAGE];
        make(part, &mut page).expect("a sound part and room");
        page
    }

    #[test]
    fn lines_cover_all_up_to_the_check_once() {
        let mut next = 0;
        for (place, length, _) in &TABLE {
            assert_eq!(*place, next);
            next += length;
        }
        assert_eq!(next, CHECK);
    }

    #[test]
    fn values_fit_their_lines() {
        for (place, length, value) in &TABLE {
            let whole = match value {
                Zeros => true,
                Bytes(bytes) => bytes.len() == *length,
                Text(text) => text.len() < *length && text.is_ascii(),
                Number(_) => *length <= 4,
            };
            assert!(whole, "line at {place}");
        }
    }

    /// The bytes of the datasheet's two strings, one by one.
    #[test]
    fn strings_are_the_datasheets() {
        let page = made(&Part::BENCH);
        let manufacturer = [0x46, 0x55, 0x44, 0x41, 0x4E, 0x4D, 0x49, 0x43, 0x52, 0x4F];
        assert_eq!(page[32..42], manufacturer);
        assert_eq!(page[42..44], [0x20; 2]);
        let model = [
            0x46, 0x4D, 0x32, 0x35, 0x53, 0x30, 0x30, 0x35, 0x42, 0x49, 0x33,
        ];
        assert_eq!(page[44..55], model);
        assert_eq!(page[55..64], [0x20; 9]);
        assert_eq!(page[64..67], [0xA1, 0x00, 0x00]);
    }

    #[test]
    fn numbers_are_the_datasheets() {
        let page = made(&Part::FM25S005BI3);
        assert_eq!(page[80..86], [0x00, 0x08, 0x00, 0x00, 0x80, 0x00]);
        assert_eq!(page[92..96], [0x40, 0x00, 0x00, 0x00]);
        assert_eq!(page[96..100], [0x00, 0x02, 0x00, 0x00]);
    }

    /// As two other programs have them.
    #[test]
    fn known_checks() {
        assert_eq!(check(b"123456789"), 0x2771);
        let page = made(&Part::FM25S005BI3);
        assert_eq!(check(&page[..CHECK]), 0xB77C);
        assert_eq!(page[CHECK..], [0x7C, 0xB7]);
        let page = made(&Part::BENCH);
        assert_eq!(check(&page[..CHECK]), 0xF954);
        assert_eq!(page[CHECK..], [0x54, 0xF9]);
    }

    #[test]
    fn check_of_nothing_is_the_start() {
        assert_eq!(check(&[]), 0x4F4E);
        assert_eq!(check(&[0x4F, 0x4E]), 0x0000);
    }

    /// The rest that long division by the polynomial leaves: of the bytes with 16 zeros behind them,
    /// and the start added to their first 16 bits.
    #[test]
    fn check_is_the_rest_of_a_division() {
        for length in 2..=PAGE {
            let message = (0..length).map(|place| (place * 89 + length) as u8);
            let mut bytes: Vec<u8> = message.collect();
            let expected = u32::from(check(&bytes));
            (bytes[0], bytes[1]) = (bytes[0] ^ 0x4F, bytes[1] ^ 0x4E);
            bytes.extend([0, 0]);
            let mut rest = 0;
            for bit in 0..8 * bytes.len() {
                rest = rest << 1 | u32::from(bytes[bit / 8] >> (7 - bit % 8) & 1);
                if rest >= 0x1_0000 {
                    rest ^= 0x1_8005;
                }
            }
            assert_eq!(rest, expected, "{length} bytes");
        }
    }

    #[test]
    fn refusals_in_their_order() {
        let bad = Part {
            data: 0,
            ..Part::BENCH
        };
        let mut memory = vec![0xA5; 255];
        assert_eq!(make(&bad, &mut memory), Err(1));
        assert_eq!(make(&Part::BENCH, &mut memory), Err(11));
        assert_eq!(memory, [0xA5; 255]);
        assert_eq!(read(&[0xA5; 767]), Err(11));
        assert_eq!(read(&[0xA5; 768]), Err(10));
    }

    #[test]
    fn each_copy_is_read() {
        for copy in 0..3 {
            let mut memory = vec![0xA5; 768];
            let place = usize::from(copy) * PAGE;
            make(&Part::FM25S005BI3, &mut memory[place..]).expect("a sound part and room");
            let sizes = Sizes {
                copy,
                data: 2048,
                spare: 128,
                pages: 64,
                blocks: 512,
            };
            assert_eq!(read(&memory), Ok(sizes));
            assert!(memory[place + PAGE..].iter().all(|byte| *byte == 0xA5));
        }
    }
}
