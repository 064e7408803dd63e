//! Sync words by the lists of Tables 41, 43, 45 and 47 (clauses 7.3.4, 7.3.5, 7.3.6 and 7.3.7.2): 32 functions, that of bit
//! 0 first. Bit 0 is sent first and stands highest in the word. A word is read from the headers that came.
//!
//! A word carries parity of two multiblocks: of the one before it, and of its own (Table 44 of CRC-3; of CRC-12 and FEC it
//! is that of the one before alone). Of its own there are CRC-B, CRC-C and CRC-D, a number of nine bits with B the highest.

use crate::header::Headers;
use crate::mode::BLOCKS;
use Function::{Cmd, Crc, CrcA, CrcB, CrcC, CrcD, EoEmb, Fec, One, Zero};

/// What a bit of the sync word carries.
#[derive(Clone, Copy)]
enum Function {
    Crc(u32),
    Fec(u32),
    CrcA(u32),
    CrcB(u32),
    CrcC(u32),
    CrcD(u32),
    Cmd(u32),
    EoEmb,
    Zero,
    One,
}

#[rustfmt::skip]
const TABLE_41: [Function; 32] = [
    Crc(11), Crc(10), Crc(9), One, Crc(8), Crc(7), Crc(6), One,
    Crc(5), Crc(4), Crc(3), One, Crc(2), Crc(1), Crc(0), One,
    Cmd(6), Cmd(5), Cmd(4), One, Cmd(3), One, EoEmb, One,
    Cmd(2), Cmd(1), Cmd(0), Zero, Zero, Zero, Zero, One,
];

#[rustfmt::skip]
const TABLE_43: [Function; 32] = [
    CrcA(2), CrcA(1), CrcA(0), One, Cmd(6), Cmd(5), Cmd(4), One,
    CrcB(2), CrcB(1), CrcB(0), One, Cmd(3), Cmd(2), Cmd(1), One,
    CrcC(2), CrcC(1), CrcC(0), One, Cmd(0), One, EoEmb, One,
    CrcD(2), CrcD(1), CrcD(0), Zero, Zero, Zero, Zero, One,
];

#[rustfmt::skip]
const TABLE_45: [Function; 32] = [
    Fec(25), Fec(24), Fec(23), Fec(22), Fec(21), Fec(20), Fec(19), Fec(18),
    Fec(17), Fec(16), Fec(15), Fec(14), Fec(13), Fec(12), Fec(11), Fec(10),
    Fec(9), Fec(8), Fec(7), Fec(6), Fec(5), Fec(4), EoEmb, Fec(3),
    Fec(2), Fec(1), Fec(0), Zero, Zero, Zero, Zero, One,
];

#[rustfmt::skip]
const TABLE_47: [Function; 32] = [
    Cmd(18), Cmd(17), Cmd(16), One, Cmd(15), Cmd(14), Cmd(13), One,
    Cmd(12), Cmd(11), Cmd(10), One, Cmd(9), Cmd(8), Cmd(7), One,
    Cmd(6), Cmd(5), Cmd(4), One, Cmd(3), One, EoEmb, One,
    Cmd(2), Cmd(1), Cmd(0), Zero, Zero, Zero, Zero, One,
];

/// What a sync word carries.
#[derive(Clone, Copy)]
pub struct Fields {
    /// Parity of the multiblock before it.
    pub before: u32,
    /// Parity of its own multiblock.
    pub own: u32,
    pub command: u32,
    pub mark: bool,
}

pub const NOTHING: Fields = Fields { before: 0, own: 0, command: 0, mark: false };

/// A bit of the parity, and of which multiblock.
#[derive(Clone, Copy, PartialEq)]
pub enum Parity {
    Before(u32),
    Own(u32),
}

pub struct Layout {
    functions: [Function; 32],
}

pub const CRC12: Layout = Layout { functions: TABLE_41 };
pub const FEC: Layout = Layout { functions: TABLE_45 };
pub const CRC3: Layout = Layout { functions: TABLE_43 };
pub const COMMAND: Layout = Layout { functions: TABLE_47 };

/// Bit k of a number.
fn is_set(number: u32, k: u32) -> bool {
    number / 2_u32.pow(k) % 2 == 1
}

impl Function {
    /// Which bit of the parity this is, if it is one.
    fn parity(self) -> Option<Parity> {
        match self {
            Crc(k) | Fec(k) | CrcA(k) => Some(Parity::Before(k)),
            CrcB(k) => Some(Parity::Own(6 + k)),
            CrcC(k) => Some(Parity::Own(3 + k)),
            CrcD(k) => Some(Parity::Own(k)),
            Cmd(_) | EoEmb | Zero | One => None,
        }
    }

    /// Which bit of the parity of the multiblock before, if it is one.
    fn before(self) -> Option<u32> {
        match self.parity() {
            Some(Parity::Before(k)) => Some(k),
            _ => None,
        }
    }

    /// Which bit of the parity of its own multiblock, if it is one.
    fn own(self) -> Option<u32> {
        match self.parity() {
            Some(Parity::Own(k)) => Some(k),
            _ => None,
        }
    }

    /// Which bit of the command this is, if it is one.
    fn command(self) -> Option<u32> {
        match self {
            Cmd(k) => Some(k),
            _ => None,
        }
    }

    fn bit(self, fields: Fields) -> bool {
        match (self, self.parity()) {
            (_, Some(Parity::Before(k))) => is_set(fields.before, k),
            (_, Some(Parity::Own(k))) => is_set(fields.own, k),
            (Cmd(k), _) => is_set(fields.command, k),
            (EoEmb, _) => fields.mark,
            (One, _) => true,
            _ => false,
        }
    }
}

impl Layout {
    pub fn word(&self, fields: Fields) -> u32 {
        self.functions.iter().fold(0, |word, function| 2 * word + u32::from(function.bit(fields)))
    }

    /// Which bit of the parity the header of a block carries, if it carries one.
    pub fn parity_bit(&self, block: usize) -> Option<Parity> {
        self.functions[block].parity()
    }

    /// A field read by the list: each of its bits whose header carries 1 counts its power of two.
    fn read(&self, headers: &Headers, field: fn(Function) -> Option<u32>) -> u32 {
        let set = self.functions.iter().enumerate().filter(|(block, _)| headers.at(*block).carries());
        set.filter_map(|(_, function)| field(*function)).map(|k| 2_u32.pow(k)).sum()
    }

    /// Parity of the multiblock before.
    pub fn before(&self, headers: &Headers) -> u32 {
        self.read(headers, Function::before)
    }

    /// Parity of its own multiblock.
    pub fn own(&self, headers: &Headers) -> u32 {
        self.read(headers, Function::own)
    }

    /// The command, with a mark added if a header of one of its bits is invalid: 2 to the power of its width.
    pub fn command(&self, headers: &Headers) -> u32 {
        let command = self.read(headers, Function::command);
        let blocks: Vec<usize> = (0..BLOCKS).filter(|block| self.functions[*block].command().is_some()).collect();
        if blocks.iter().any(|block| headers.at(*block).is_invalid()) {
            command + 2_u32.pow(blocks.len() as u32)
        } else {
            command
        }
    }
}

#[cfg(test)]
mod tests {
    use super::{Fields, Layout, COMMAND, CRC12, CRC3, FEC, NOTHING};
    use crate::header::Headers;

    fn read(layout: &Layout, word: u32) -> (u32, u32, u32) {
        let headers = Headers::carrying(word);
        (layout.before(&headers), layout.own(&headers), layout.command(&headers))
    }

    /// Rows 9 to 12 of the dozen.
    #[test]
    fn words_of_the_dozen() {
        assert_eq!(CRC12.word(Fields { mark: true, ..NOTHING }), 0x11111701);
        assert_eq!(CRC12.word(NOTHING), 0x11111501);
        assert_eq!(CRC12.word(Fields { before: 0x30F, command: 0x41, ..NOTHING }), 0x393F9521);
        assert_eq!(FEC.word(Fields { mark: true, ..NOTHING }), 0x00000201);
    }

    /// Worked by hand from Tables 43 and 47.
    #[test]
    fn words_of_the_other_two() {
        assert_eq!([&CRC3, &COMMAND].map(|layout| layout.word(NOTHING)), [0x11111501; 2]);
        assert_eq!([&CRC3, &COMMAND].map(|layout| layout.word(Fields { mark: true, ..NOTHING })), [0x11111701; 2]);
        let some = Fields { before: 0b110, own: 0b101_011_001, command: 0b1010110, mark: false };
        assert_eq!(CRC3.word(some), 0b1101_1011_1011_0111_0111_0101_0010_0001);
        let some = Fields { command: 0b101_1001_1100_0011_0101, mark: true, ..NOTHING };
        assert_eq!(COMMAND.word(some), 0b1011_1001_1111_0001_0111_0111_1010_0001);
    }

    #[test]
    fn words_read_back() {
        assert_eq!((read(&CRC12, 0x393F9521), read(&FEC, 0x00000201)), ((0x30F, 0, 0x41), (0, 0, 0)));
        assert_eq!(read(&CRC3, 0xDBB7_7521), (0b110, 0b101_011_001, 0b1010110));
    }

    /// Every block but those of the command, and none of a word without one.
    #[test]
    fn only_invalid_headers_of_the_command_mark_it() {
        for invalid in [0, u32::MAX] {
            let spoilt = |blocks: u32| Headers::of_words(!blocks | invalid & blocks, invalid & blocks);
            assert_eq!(CRC12.command(&spoilt(0x0000_8000)), 128);
            assert_eq!(CRC12.command(&spoilt(0xFFFF_0000)), 0);
            assert_eq!(CRC3.command(&spoilt(0x0800_0000)), 128);
            assert_eq!(CRC3.command(&spoilt(0xF1F1_F7FF)), 0);
            assert_eq!(COMMAND.command(&spoilt(0x8000_0000)), 524_288);
            assert_eq!(COMMAND.command(&spoilt(0x1111_171F)), 0);
            assert_eq!(FEC.command(&spoilt(0xFFFF_FFFF)), 0);
        }
    }

    #[test]
    fn an_invalid_header_reads_as_0() {
        let spoilt = Headers::of_words(0x8000_0000, u32::MAX);
        assert_eq!((CRC12.before(&spoilt), CRC12.own(&spoilt), CRC12.command(&spoilt)), (0x7FF, 0, 0x7F));
        assert_eq!((CRC3.before(&spoilt), CRC3.own(&spoilt), CRC3.command(&spoilt)), (0b011, 0x1FF, 0x7F));
        assert_eq!(COMMAND.command(&spoilt), 0x3_FFFF + 524_288);
        assert_eq!(FEC.before(&spoilt), 0x1FF_FFFF);
    }
}
