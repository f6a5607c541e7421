//! Which blocks register A0h protects, as the trace tells it.

use std::ops::Range;

use sleetanvil::{Geometry, Stepping};

/// The blocks that a value of A0h protects: with b the BP number, none for b = 0, otherwise
/// N / 2^(7-b) of them, rounded down; the highest numbered, or the lowest with INV. With CMP, which
/// the second stepping has, and b from 1 to 6 they are the others.
fn protected(geometry: &Geometry, a0: u8) -> Range<u32> {
    let n = geometry.blocks;
    let b = u32::from(a0 >> 3 & 7);
    let count = match b {
        0 => 0,
        b => n / 2u32.pow(7 - b),
    };
    let inv = a0 & 0x04 != 0;
    let cmp = a0 & 0x02 != 0 && geometry.stepping == Stepping::Second;
    match (inv, cmp && (1..=6).contains(&b)) {
        (false, false) => n - count..n,
        (true, false) => 0..count,
        (false, true) => 0..n - count,
        (true, true) => count..n,
    }
}

/// The same in words.
pub fn words(geometry: &Geometry, a0: u8) -> String {
    let Range { start, end } = protected(geometry, a0);
    match end - start {
        0 => "no block protected".into(),
        1 => format!("block {start} protected"),
        count if count == geometry.blocks => format!("all {count} blocks protected"),
        _ => format!("blocks {start} to {} protected", end - 1),
    }
}

#[cfg(test)]
mod tests {
    use std::ops::Range;

    use sleetanvil::{Device, Geometry, Stepping};

    use super::{protected, words};

    const BOTH: [Stepping; 2] = [Stepping::First, Stepping::Second];

    /// A part of so many blocks, each of one page of one byte.
    fn part(blocks: u32) -> Geometry {
        Geometry {
            data: 1,
            spare: 0,
            pages: 1,
            blocks,
            ..Geometry::bench()
        }
    }

    /// Whether the library fails an erase of a block as A0h is.
    fn fails(device: &mut Device, block: u32) -> bool {
        let [_, _, high, low] = block.to_be_bytes();
        device.transfer(&[0x06]);
        device.transfer(&[0xD8, 0x00, high, low]);
        device.work(1);
        device.state().erase_failed()
    }

    /// The blocks to ask about: of few all, of many those beside the two borders and at the ends.
    fn asked(blocks: u32, told: &Range<u32>) -> Vec<u32> {
        if blocks <= 32 {
            return (0..blocks).collect();
        }
        [0, told.start, told.end, blocks]
            .into_iter()
            .flat_map(|border| border.saturating_sub(1)..blocks.min(border + 1))
            .collect()
    }

    /// The blocks told are those that the proved library protects, whatever else stands in A0h.
    #[test]
    fn they_are_the_blocks_that_the_library_protects() {
        let many = [
            63, 64, 65, 127, 128, 129, 511, 512, 513, 1_000, 65_535, 65_536,
        ];
        let parts = (1..=32).chain(many).map(part);
        for geometry in parts.flat_map(|part| BOTH.map(|stepping| part.with_stepping(stepping))) {
            let Geometry {
                blocks, stepping, ..
            } = geometry;
            let mut device = Device::power_up(geometry).expect("a sound part");
            device.work(1);
            for a0 in 0..=0xFF {
                device.transfer(&[0x1F, 0xA0, a0]);
                let told = protected(&geometry, a0);
                for block in asked(blocks, &told) {
                    let fails = fails(&mut device, block);
                    assert_eq!(
                        fails,
                        told.contains(&block),
                        "block {block} of {blocks}, A0h {a0:02X}h, {stepping:?}"
                    );
                }
            }
        }
    }

    #[test]
    fn in_words() {
        let bench = Geometry::bench();
        for (a0, first, second) in [
            (0x00, "no block protected", "no block protected"),
            (0x02, "no block protected", "no block protected"),
            (0x06, "no block protected", "no block protected"),
            (0x18, "no block protected", "no block protected"),
            (0x1A, "no block protected", "all 8 blocks protected"),
            (0x1E, "no block protected", "all 8 blocks protected"),
            (0x20, "block 7 protected", "block 7 protected"),
            (0x22, "block 7 protected", "blocks 0 to 6 protected"),
            (0x24, "block 0 protected", "block 0 protected"),
            (0x26, "block 0 protected", "blocks 1 to 7 protected"),
            (0x30, "blocks 4 to 7 protected", "blocks 4 to 7 protected"),
            (0x32, "blocks 4 to 7 protected", "blocks 0 to 3 protected"),
            (0x34, "blocks 0 to 3 protected", "blocks 0 to 3 protected"),
            (0x36, "blocks 0 to 3 protected", "blocks 4 to 7 protected"),
            (0xB8, "all 8 blocks protected", "all 8 blocks protected"),
            (0x3A, "all 8 blocks protected", "all 8 blocks protected"),
            (0x3E, "all 8 blocks protected", "all 8 blocks protected"),
        ] {
            for (stepping, text) in BOTH.into_iter().zip([first, second]) {
                let words = words(&bench.with_stepping(stepping), a0);
                assert_eq!(words, text, "A0h {a0:02X}h, {stepping:?}");
            }
        }
        let one = part(1).with_stepping(Stepping::Second);
        for a0 in [0x38, 0x0A, 0x36] {
            assert_eq!(words(&one, a0), "block 0 protected", "A0h {a0:02X}h");
        }
    }
}
