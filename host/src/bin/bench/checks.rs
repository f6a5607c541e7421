//! The check of a parameter page, over its 254 bytes. The paper's model goes bit by bit; in the place
//! of the naive model stands the loop over a table that a Rust programmer would write.

use std::hint::black_box;

use sleetanvil::case::Buffers;
use sleetanvil::{paper, raw};

use super::{best, calls};

/// What the check is after one byte, for each value of the register's high byte with that byte added.
const TABLE: [u16; 256] = {
    let mut table = [0; 256];
    let mut place = 0;
    while place < table.len() {
        let mut entry = (place as u16) << 8;
        let mut bit = 0;
        while bit < 8 {
            entry = entry << 1 ^ if entry & 0x8000 != 0 { 0x8005 } else { 0 };
            bit += 1;
        }
        table[place] = entry;
        place += 1;
    }
    table
};

/// The row of the check.
pub fn compare(buffers: &mut Buffers) {
    let mut page = [0; 256];
    paper::page::make(&paper::Part::FM25S005BI3, &mut page).expect("a sound part and room");
    let bytes = &page[..254];
    for check in [raw::page_check, paper::page::check, by_table] {
        assert_eq!(check(bytes).to_le_bytes(), page[254..]);
    }
    let mut sums = [0_u64; 3];
    let [first, second, third] = &mut sums;
    let times = best(
        [
            Box::new(|_| *first += u64::from(raw::page_check(black_box(bytes)))),
            Box::new(|_| *second += u64::from(paper::page::check(black_box(bytes)))),
            Box::new(|_| *third += u64::from(by_table(black_box(bytes)))),
        ],
        buffers,
    );
    black_box(sums);
    let times = calls::with_naive(times);
    println!("{}", times.row("check of a parameter page", "check", 1));
}

fn by_table(bytes: &[u8]) -> u16 {
    bytes.iter().fold(0x4F4E, |check: u16, byte| {
        check << 8 ^ TABLE[usize::from((check >> 8) as u8 ^ byte)]
    })
}
