//! Row 2 of Table 52 (clause 7.4.2): which values can stand there, between the printed rows 1 and 3.

use crate::code::CRC12;
use crate::polynomial::Polynomial;
use crate::tables::{BLOCKS, PRINTED_52};

/// The parity after one more block: what came before moves up by the block's 64 bits.
fn after(before: u32, block: &[u8; 8]) -> u32 {
    let earlier = Polynomial::of_number(before).times_power(64);
    let added = Polynomial::of_octets(block).times_power(CRC12.width());
    CRC12.remainder(&earlier.plus(&added))
}

/// Every 12-bit value from which the block leads to `goal`.
fn leading_to(goal: u32, block: &[u8; 8]) -> Vec<u32> {
    (0..4096).filter(|before| after(*before, block) == goal).collect()
}

pub fn lines() -> Vec<String> {
    let [_, row_1, _, row_3] = PRINTED_52;
    let found = leading_to(row_3, &BLOCKS[3]);
    let shown: Vec<String> = found.iter().map(|before| CRC12.hexadecimal(*before)).collect();
    let row_2 = after(row_1, &BLOCKS[2]);
    vec![
        format!(
            "of 4096 values before block 3, {} leads to {}: {}",
            found.len(),
            CRC12.hexadecimal(row_3),
            shown.join(" ")
        ),
        format!("block 2 leads from {} to {}", CRC12.hexadecimal(row_1), CRC12.hexadecimal(row_2)),
    ]
}

#[cfg(test)]
mod tests {
    use super::{after, leading_to, BLOCKS};
    use crate::code::CRC12;

    #[test]
    fn blocks_one_by_one_are_blocks_at_once() {
        let one_by_one = BLOCKS.iter().fold(0, after);
        assert_eq!(one_by_one, CRC12.of_octets(&BLOCKS.concat()));
    }

    #[test]
    fn the_printed_value_leads_elsewhere() {
        assert_eq!(leading_to(0x5FE, &BLOCKS[3]), [0xFEA]);
        assert_ne!(after(0xFE4, &BLOCKS[3]), 0x5FE);
    }
}
