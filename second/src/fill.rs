//! Fill bits (clause 7.2.5; document 02, request 2): seven pairs F0 to F6 between the octets of a block of 80 bits. They
//! come from a register of 17 bits, PRBS[16:0], whose bit 0 is the latest bit of a sequence; each new bit of the sequence is
//! 1 plus the bits 17 and 14 before it, modulo 2. A block takes the register as it stands, and then it moves on by 17 bits.
//! Modes without a gap have no fill bits, and their register stands at 0.

use crate::bits;
use crate::mode::Mode;

pub const REGISTER_BITS: usize = 17;
const NEAR: usize = 14;

/// All ones: 1 plus 1 plus 1 is 1 again, so that it would stand still.
pub const STANDSTILL: u32 = (1 << REGISTER_BITS) - 1;

/// A row of Table 38: the two bits of the register that the pair is normally filled with, the left one first, and the
/// PRBS[1:0] at which it is replaced instead.
struct Row {
    normally: [usize; 2],
    replaced_if: Option<[bool; 2]>,
}

const fn row(high: usize, low: usize, replaced_if: Option<[u8; 2]>) -> Row {
    let replaced_if = match replaced_if {
        Some([left, right]) => Some([left == 1, right == 1]),
        None => None,
    };
    Row { normally: [high, low], replaced_if }
}

#[rustfmt::skip]
const TABLE_38: [Row; 7] = [
    /* F0[0:1] */ row( 4,  3, None),
    /* F1[0:1] */ row( 6,  5, Some([0, 0])),
    /* F2[0:1] */ row( 8,  7, Some([0, 1])),
    /* F3[0:1] */ row(10,  9, None),
    /* F4[0:1] */ row(12, 11, Some([1, 0])),
    /* F5[0:1] */ row(14, 13, Some([1, 1])),
    /* F6[0:1] */ row(16, 15, None),
];

/// Bit k of the register.
fn prbs(register: u32, k: usize) -> bool {
    register / 2_u32.pow(k as u32) % 2 == 1
}

/// The seven pairs of a block, each with the bit that is sent first on the left.
pub fn pairs(register: u32) -> [[bool; 2]; 7] {
    let replacement = [!prbs(register, 2), prbs(register, 2)];
    let chosen = [prbs(register, 1), prbs(register, 0)];
    TABLE_38.map(
        |row| {
            if row.replaced_if == Some(chosen) {
                replacement
            } else {
                row.normally.map(|k| prbs(register, k))
            }
        },
    )
}

/// The register after so many more bits of its sequence.
fn moved(register: u32, count: usize) -> u32 {
    let mut sequence = bits::of_number(u64::from(register), REGISTER_BITS);
    for _ in 0..count {
        let back = |distance: usize| sequence[sequence.len() - distance];
        sequence.push(true ^ back(REGISTER_BITS) ^ back(NEAR));
    }
    bits::number(&sequence[count..]) as u32
}

/// The register after one block.
pub fn after_block(register: u32) -> u32 {
    moved(register, REGISTER_BITS)
}

/// The register after so many blocks of a mode.
pub fn after(mode: &Mode, register: u32, blocks: usize) -> u32 {
    if mode.gap == 0 {
        register
    } else {
        (0..blocks).fold(register, |register, _| after_block(register))
    }
}

/// Whether a sender may stand there.
pub fn is_in_range(mode: &Mode, register: u32) -> bool {
    register < if mode.gap == 0 { 1 } else { STANDSTILL }
}

#[cfg(test)]
mod tests {
    use super::{after, after_block, is_in_range, moved, pairs, STANDSTILL};
    use crate::mode::row;

    /// The pairs as the bits that are sent, the first on the left.
    fn sent(register: u32) -> String {
        pairs(register).concat().iter().map(|bit| if *bit { '1' } else { '0' }).collect()
    }

    /// Worked by hand from Table 38.
    #[test]
    fn pairs_of_some_registers() {
        assert_eq!(sent(0), "00100000000000");
        assert_eq!(sent(0b100), "00010000000000");
        assert_eq!(sent(0b001), "00001000000000");
        assert_eq!(sent(0b010), "00000000100000");
        assert_eq!(sent(0b111), "00000000000100");
        assert_eq!(sent(0b1_1001_1000_0110_1011), "01110000111011");
        assert_eq!(sent(1 << 4 | 1 << 9 | 1 << 16), "10100001000010");
    }

    /// Worked by hand: from 0 the first 14 new bits are 1 plus 0 plus 0, and then 1 plus 0 plus 1, since the bit 14 before
    /// is the first of them.
    #[test]
    fn the_first_moves() {
        assert_eq!([0, 1, 2, 14, 15, 17].map(|count| moved(0, count)), [0, 1, 3, 0x3FFF, 0x7FFE, 0x1_FFF8]);
        assert_eq!((moved(1 << 16, 1), moved(1 << 13, 1), moved(1 << 16 | 1 << 13, 1)), (0, 1 << 14, 1 << 14 | 1));
        assert_eq!(moved(STANDSTILL, 1), STANDSTILL);
    }

    /// 17 bits at once: the upper fourteen go by the old bits alone, the last three by the first of the new.
    #[test]
    fn a_block_is_17_bits() {
        for register in 0..=STANDSTILL {
            let upper = !(register ^ register << 3) & STANDSTILL;
            assert_eq!(after_block(register), upper ^ upper >> 14);
        }
    }

    #[test]
    fn a_mode_without_a_gap_stands_at_0() {
        assert_eq!([0, 1, 2, 3, 4, 5].map(|number| after(row(number), 0, 1)), [0, 0, 0x1_FFF8, 0x1_FFF8, 0, 0]);
        assert_eq!(after(row(3), 5, 2), after_block(after_block(5)));
        for (number, most) in [(0, 0), (1, 0), (2, 131_070), (3, 131_070), (4, 0), (5, 0)] {
            assert!(is_in_range(row(number), most) && !is_in_range(row(number), most + 1));
        }
    }
}
