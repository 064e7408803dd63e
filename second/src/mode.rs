//! The modes: 0 is CRC-12 and 1 is FEC, over blocks of 66 bits; 2 and 3 are the same over blocks of 80 bits (document 02,
//! request 2); 4 is CRC-3 and 5 the stand-alone command channel, over blocks of 66 bits (request 5). Each is a row of a sync
//! word, a gap and the most multiblocks of a call; a sync word has its parity code, its layout, the width of its commands and
//! its burst limit (document 01, "Parity"). All sizes on the lane follow from the gap ("From octets to lane bits").

use crate::code::{self, Code};
use crate::sync::{self, Layout};

pub const BLOCKS: usize = 32;
pub const USER_OCTETS: usize = 256;
pub const HEADER_BITS: usize = 2;
pub const BLOCK_OCTETS: usize = 8;
pub const BLOCK_DATA_BITS: usize = 8 * BLOCK_OCTETS;
pub const DATA_BITS: usize = BLOCKS * BLOCK_DATA_BITS;

/// Octets of a capture before those of its lane.
const CAPTURE_HEAD: usize = 11;

pub struct Word {
    pub code: &'static Code,
    pub layout: &'static Layout,
    /// The bits of a command.
    pub command_bits: u32,
    /// Bursts of at most so many bits are found, or mended too; none where there is no parity.
    pub burst_limit: usize,
    /// Whether a burst found is mended.
    pub repairs: bool,
}

pub struct Mode {
    pub name: &'static str,
    pub word: &'static Word,
    /// Fill bits before each octet of a block but the first.
    pub gap: usize,
    /// No more multiblocks than this in one call of a sender or receiver.
    pub most: usize,
}

const CRC12: Word = Word { code: &code::CRC12, layout: &sync::CRC12, command_bits: 7, burst_limit: 12, repairs: false };
const FEC: Word = Word { code: &code::FEC, layout: &sync::FEC, command_bits: 0, burst_limit: 9, repairs: true };
const CRC3: Word = Word { code: &code::CRC3, layout: &sync::CRC3, command_bits: 7, burst_limit: 3, repairs: false };
const COMMAND: Word =
    Word { code: &code::NONE, layout: &sync::COMMAND, command_bits: 19, burst_limit: 0, repairs: false };

/// How many modes there are.
pub const MODES: usize = 6;

static ROWS: [Mode; MODES] = [
    Mode { name: "crc12", word: &CRC12, gap: 0, most: 240 },
    Mode { name: "fec", word: &FEC, gap: 0, most: 240 },
    Mode { name: "crc12-80", word: &CRC12, gap: 2, most: 200 },
    Mode { name: "fec-80", word: &FEC, gap: 2, most: 200 },
    Mode { name: "crc3", word: &CRC3, gap: 0, most: 240 },
    Mode { name: "cmd", word: &COMMAND, gap: 0, most: 240 },
];

/// The mode of a number, if there is one.
pub fn mode(number: u8) -> Option<&'static Mode> {
    ROWS.get(usize::from(number))
}

/// The row of a mode that there is.
pub fn row(number: u8) -> &'static Mode {
    mode(number).expect("a mode of a lane is 0 to 5")
}

impl Word {
    /// Commands that are sent are at most this.
    pub fn highest_command(&self) -> u32 {
        2_u32.pow(self.command_bits) - 1
    }

    /// Commands that are received are at most this, with the mark of an invalid header; 0 where there is no command.
    pub fn highest_received(&self) -> u32 {
        match self.command_bits {
            0 => 0,
            bits => 2_u32.pow(bits + 1) - 1,
        }
    }
}

impl Mode {
    pub fn block_bits(&self) -> usize {
        HEADER_BITS + BLOCK_DATA_BITS + self.gap * (BLOCK_OCTETS - 1)
    }

    pub fn multiblock_bits(&self) -> usize {
        BLOCKS * self.block_bits()
    }

    pub fn lane_octets(&self) -> usize {
        self.multiblock_bits() / 8
    }

    /// The octets of the longest capture.
    pub fn longest_capture(&self) -> usize {
        CAPTURE_HEAD + self.most * self.lane_octets()
    }

    /// Where a bit of a multiblock's data stands on its lane, from the first bit of the multiblock on: after the header of
    /// its block, and after the gaps before its octet.
    pub fn data_place(&self, position: usize) -> usize {
        let (block, bit) = (position / BLOCK_DATA_BITS, position % BLOCK_DATA_BITS);
        self.block_bits() * block + HEADER_BITS + bit + self.gap * (bit / 8)
    }

    /// The bits of a block that are fill bits.
    pub fn fill_places(&self) -> Vec<usize> {
        let after = |octet: usize| HEADER_BITS + 8 * (octet + 1) + self.gap * octet;
        (0..BLOCK_OCTETS - 1).flat_map(|octet| after(octet)..after(octet) + self.gap).collect()
    }
}

/// E is 1 to 256.
pub fn is_extent(e: u32) -> bool {
    (1..=256).contains(&e)
}

#[cfg(test)]
mod tests {
    use super::{mode, row, BLOCK_DATA_BITS};
    use std::collections::HashSet;

    #[test]
    fn the_sizes_of_each_width() {
        let sizes = |number| {
            let mode = row(number);
            [mode.block_bits(), mode.multiblock_bits(), mode.lane_octets(), mode.most, mode.longest_capture()]
        };
        assert_eq!([0, 1, 4, 5].map(sizes), [[66, 2112, 264, 240, 63_371]; 4]);
        assert_eq!([2, 3].map(sizes), [[80, 2560, 320, 200, 64_011]; 2]);
        assert!([6, 7, 255].iter().all(|number| mode(*number).is_none()));
    }

    #[test]
    fn the_commands_of_each() {
        let highest = |number| (row(number).word.highest_command(), row(number).word.highest_received());
        assert_eq!([0, 2, 4].map(highest), [(127, 255); 3]);
        assert_eq!([1, 3, 5].map(highest), [(0, 0), (0, 0), (524_287, 1_048_575)]);
    }

    #[test]
    fn a_block_is_header_data_and_fill() {
        assert_eq!(row(3).fill_places(), [10, 11, 20, 21, 30, 31, 40, 41, 50, 51, 60, 61, 70, 71]);
        assert_eq!([0, 7, 8, 63, 64, 2047].map(|position| row(3).data_place(position)), [2, 9, 12, 79, 82, 2559]);
        for number in 0..6 {
            let data = (0..BLOCK_DATA_BITS).map(|position| row(number).data_place(position));
            let all: HashSet<usize> = data.chain(row(number).fill_places()).chain([0, 1]).collect();
            assert_eq!(all, (0..row(number).block_bits()).collect());
        }
    }
}
