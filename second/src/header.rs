//! Headers (clause 7.3.2; document 01, "From octets to lane bits"; document 02, request 1). A header's two bits make a
//! value: the first times 2, plus the second. 01 carries 1 and 10 carries 0; 00 and 11 are invalid, and carry 0.

use crate::bits;
use crate::mode::BLOCKS;

#[derive(Clone, Copy, Debug, PartialEq)]
pub enum Header {
    One,
    Zero,
    /// With the pair seen.
    Invalid(u8),
}

/// The headers of a multiblock, that of block 0 first.
#[derive(Debug, PartialEq)]
pub struct Headers(Vec<Header>);

impl Header {
    /// What a value reads as. Of a number above 3, which is no pair, it is invalid with that number.
    pub fn of(value: u8) -> Header {
        match value {
            0b01 => Header::One,
            0b10 => Header::Zero,
            pair => Header::Invalid(pair),
        }
    }

    pub fn carries(self) -> bool {
        self == Header::One
    }

    pub fn is_invalid(self) -> bool {
        matches!(self, Header::Invalid(_))
    }
}

impl Headers {
    pub fn of(values: &[u8]) -> Headers {
        Headers(values.iter().map(|value| Header::of(*value)).collect())
    }

    /// Those of 32 first bits and 32 second bits, block 0 the highest of each.
    pub fn of_words(first: u32, second: u32) -> Headers {
        let [first, second] = [first, second].map(|word| bits::of_number(u64::from(word), BLOCKS));
        let values = first.iter().zip(&second).map(|(first, second)| bits::number(&[*first, *second]) as u8);
        Headers::of(&values.collect::<Vec<u8>>())
    }

    /// Those that a sync word is sent with.
    pub fn carrying(word: u32) -> Headers {
        Headers::of_words(!word, word)
    }

    /// That of a block. From block 32 on there is none, and the answer is that of 00.
    pub fn at(&self, block: usize) -> Header {
        self.0.get(block).map_or(Header::Invalid(0), |header| *header)
    }

    /// How many are invalid, 0 to 32.
    pub fn invalid(&self) -> u8 {
        (0..BLOCKS).filter(|block| self.at(*block).is_invalid()).count() as u8
    }
}

#[cfg(test)]
mod tests {
    use super::{Header, Headers};

    #[test]
    fn each_value_reads_as_one_zero_or_invalid() {
        assert_eq!([0, 1, 2, 3].map(Header::of), [Header::Invalid(0), Header::One, Header::Zero, Header::Invalid(3)]);
        assert!((4..=255).all(|number| Header::of(number) == Header::Invalid(number)));
    }

    #[test]
    fn only_01_carries_1_and_only_00_and_11_are_invalid() {
        let headers = [0, 1, 2, 3].map(Header::of);
        assert_eq!(headers.map(Header::carries), [false, true, false, false]);
        assert_eq!(headers.map(Header::is_invalid), [true, false, false, true]);
    }

    #[test]
    fn block_0_is_the_highest_bit() {
        let headers = Headers::of_words(0x8000_0001, 0xC000_0000);
        assert_eq!([0, 1, 2, 31].map(|block| headers.at(block)), [3, 1, 0, 2].map(Header::of));
        assert_eq!([32, 33, usize::MAX].map(|block| headers.at(block)), [Header::Invalid(0); 3]);
    }

    #[test]
    fn all_32_are_counted() {
        assert_eq!(Headers::carrying(0x393F_9521).invalid(), 0);
        assert_eq!([0, u32::MAX].map(|word| Headers::of_words(word, word).invalid()), [32, 32]);
        for block in 0..32 {
            let one = 0x8000_0000 >> block;
            assert_eq!([Headers::of_words(one, 0).invalid(), Headers::of_words(!one, 0).invalid()], [31, 1]);
        }
    }
}
