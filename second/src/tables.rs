//! Table 37 of clause 7.2.4.2 and Tables 52, 53, 54 and 55 of clauses 7.4.2, 7.4.3 and 7.5.2: their source data, the values
//! they print, and the values that the scrambler and long division give.

use crate::code::{Code, CRC12, CRC3, FEC};
use crate::scrambler::{Scrambler, INITIAL_ONE};

/// The source data of Table 37.
const SOURCE_37: [[u8; 8]; 4] = [
    [0x00, 0x01, 0x02, 0x03, 0x04, 0x05, 0x06, 0x07],
    [0x08, 0x09, 0x0A, 0x0B, 0x0C, 0x0D, 0x0E, 0x0F],
    [0x10, 0x11, 0x12, 0x13, 0x14, 0x15, 0x16, 0x17],
    [0x18, 0x19, 0x1A, 0x1B, 0x1C, 0x1D, 0x1E, 0x1F],
];

/// The source data of Tables 52, 53 and 54.
pub const BLOCKS: [[u8; 8]; 4] = [
    [0x80, 0x01, 0x02, 0x03, 0x05, 0x05, 0x04, 0x23],
    [0x0E, 0x43, 0x80, 0xC2, 0x0B, 0x50, 0x81, 0xCD],
    [0x04, 0xE7, 0x83, 0x92, 0x5A, 0x3C, 0xAA, 0x51],
    [0x05, 0x4D, 0x87, 0xD9, 0x31, 0x3D, 0x11, 0x51],
];

/// What the standard prints; of block 0 of Table 37 only seven octets.
const PRINTED_37: [&str; 4] = ["80010203050423", "0E4380C20B5081CD", "04E783925A3CAA51", "054D87D9313D1151"];
pub const PRINTED_52: [u32; 4] = [0xD00, 0x11C, 0xFE4, 0x5FE];
const PRINTED_53: [u32; 4] = [0b011, 0b111, 0b010, 0b001];
const PRINTED_54: [u32; 4] = [0x22A43C3, 0x05DFF66, 0x07171AB, 0x01957FD];
const PRINTED_55: [u32; 3] = [0x235011A, 0x3C7FFE3, 0x0220211];

/// The source data of Table 55.
fn multiblocks() -> [[u8; 256]; 3] {
    let mut first_bit = [0x00; 256];
    first_bit[0] = 0x80;
    let mut last_bit = [0x00; 256];
    last_bit[255] = 0x01;
    [first_bit, [0xFF; 256], last_bit]
}

/// The octets of blocks 0 to `last`.
fn blocks_to(last: usize) -> Vec<u8> {
    BLOCKS[..=last].concat()
}

/// The computed value, and the printed one where that is another.
fn value(computed: &str, printed: &str) -> String {
    if computed == printed {
        computed.to_string()
    } else {
        format!("{computed} (the standard prints {printed}, a misprint)")
    }
}

/// Octets in hexadecimal.
fn hexadecimal(octets: &[u8]) -> String {
    octets.iter().map(|octet| format!("{octet:02X}")).collect()
}

/// Row k of Table 37 is block k, scrambled after the blocks before it.
fn scrambled_lines() -> Vec<String> {
    let mut scrambler = Scrambler::after(INITIAL_ONE);
    let line = |(row, (source, printed)): (usize, (&[u8; 8], &str))| {
        format!("table 37 block {row} {}", value(&hexadecimal(&scrambler.block(source)), printed))
    };
    SOURCE_37.iter().zip(PRINTED_37).enumerate().map(line).collect()
}

/// A parity computed, and the printed one where that is another.
fn parity_value(code: &Code, computed: u32, printed: u32) -> String {
    value(&code.hexadecimal(computed), &code.hexadecimal(printed))
}

/// Row k of Tables 52, 53 and 54 is the parity of blocks 0 to k as one group.
fn block_lines(table: u32, code: &Code, printed: &[u32]) -> Vec<String> {
    let line = |(row, printed): (usize, &u32)| {
        let computed = code.of_octets(&blocks_to(row));
        format!("table {table} block {row} {}", parity_value(code, computed, *printed))
    };
    printed.iter().enumerate().map(line).collect()
}

/// Row k of Table 55 is the parity of multiblock k.
fn multiblock_lines() -> Vec<String> {
    let line = |(row, (octets, printed)): (usize, ([u8; 256], u32))| {
        let computed = FEC.of_octets(&octets);
        format!("table 55 multiblock {row} {}", parity_value(&FEC, computed, printed))
    };
    multiblocks().into_iter().zip(PRINTED_55).enumerate().map(line).collect()
}

pub fn lines() -> Vec<String> {
    let table_52 = block_lines(52, &CRC12, &PRINTED_52);
    let table_53 = block_lines(53, &CRC3, &PRINTED_53);
    let table_54 = block_lines(54, &FEC, &PRINTED_54);
    [scrambled_lines(), table_52, table_53, table_54, multiblock_lines()].concat()
}

#[cfg(test)]
mod tests {
    use super::{hexadecimal, lines, value, Scrambler, BLOCKS, INITIAL_ONE, SOURCE_37};

    #[test]
    fn only_two_rows_differ() {
        let lines = lines();
        let noted: Vec<&String> = lines.iter().filter(|line| line.contains("misprint")).collect();
        assert_eq!(lines.len(), 19);
        assert_eq!(
            noted,
            [
                "table 37 block 0 8001020305050423 (the standard prints 80010203050423, a misprint)",
                "table 52 block 2 FEA (the standard prints FE4, a misprint)",
            ]
        );
    }

    /// The scrambled data of Table 37 are the source data of Tables 52, 53 and 54.
    #[test]
    fn table_37_leads_to_table_52() {
        let mut scrambler = Scrambler::after(INITIAL_ONE);
        let scrambled: Vec<Vec<u8>> = SOURCE_37.iter().map(|source| scrambler.block(source)).collect();
        assert_eq!(hexadecimal(&scrambled.concat()), hexadecimal(&BLOCKS.concat()));
    }

    #[test]
    fn a_wrong_value_shows() {
        assert_eq!(value("D00", "D00"), "D00");
        assert_eq!(value("D01", "D00"), "D01 (the standard prints D00, a misprint)");
    }
}
