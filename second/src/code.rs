//! The parity codes: CRC-12 of clause 7.4.2, CRC-3 of clause 7.4.3 and FEC of clause 7.5.2; and none. A code has groups of
//! blocks, all of the same length, and each group of a multiblock has its own remainder: that of its bits' polynomial times
//! x^width, divided by the generator. The parity of a multiblock is these remainders as one number, the first group's
//! highest. The last group's, the lowest bits, goes with the next sync word; the others go with the multiblock's own
//! (clauses 7.4.1 and 7.5.1, Table 44; document 02, request 5).

use crate::bits;
use crate::mode::DATA_BITS;
use crate::polynomial::Polynomial;

pub struct Code {
    /// The exponents of the generator's terms, the highest first.
    generator: &'static [usize],
    /// How many groups a multiblock has.
    groups: usize,
    /// How many hexadecimal digits a remainder is printed with.
    digits: usize,
}

pub const CRC12: Code = Code { generator: &[12, 9, 8, 3, 2, 1, 0], groups: 1, digits: 3 };
pub const FEC: Code = Code { generator: &[26, 21, 17, 9, 4, 0], groups: 1, digits: 7 };
pub const CRC3: Code = Code { generator: &[3, 1, 0], groups: 4, digits: 1 };

/// No group, and a remainder of no bits.
pub const NONE: Code = Code { generator: &[0], groups: 0, digits: 1 };

impl Code {
    /// The bits of a remainder.
    pub fn width(&self) -> usize {
        self.generator[0]
    }

    /// The bits of a multiblock's parity.
    pub fn parity_width(&self) -> usize {
        self.groups * self.width()
    }

    /// The bits of it that go with the multiblock's own sync word.
    pub fn own_width(&self) -> usize {
        self.parity_width() - self.width()
    }

    pub fn remainder(&self, of: &Polynomial) -> u32 {
        of.remainder(self.generator).number()
    }

    /// The remainder of a group of any length.
    fn of_group(&self, bits: &[bool]) -> u32 {
        self.remainder(&Polynomial::of_bits(bits).times_power(self.width()))
    }

    /// The remainder of octets as one group.
    pub fn of_octets(&self, octets: &[u8]) -> u32 {
        self.of_group(&bits::of_octets(octets))
    }

    /// The data bits of each group.
    fn groups<'a>(&self, data: &'a [bool]) -> impl Iterator<Item = &'a [bool]> {
        let count = self.groups;
        (0..count).map(move |k| &data[DATA_BITS / count * k..DATA_BITS / count * (k + 1)])
    }

    /// The parity of a multiblock's data bits.
    pub fn parity(&self, data: &[bool]) -> u32 {
        self.groups(data).fold(0, |parity, group| parity << self.width() | self.of_group(group))
    }

    /// What long division leaves of each group's codeword: its data bits, and its part of the parity after them.
    pub fn left(&self, data: &[bool], parity: u32) -> Vec<u32> {
        let parity = bits::of_number(u64::from(parity), self.parity_width());
        let codewords = self
            .groups(data)
            .enumerate()
            .map(|(k, group)| [group, &parity[self.width() * k..][..self.width()]].concat());
        codewords.map(|codeword| self.remainder(&Polynomial::of_bits(&codeword))).collect()
    }

    /// A parity apart: what goes with the multiblock's own sync word, and what goes with the next.
    pub fn apart(&self, parity: u32) -> (u32, u32) {
        (parity >> self.width(), parity % 2_u32.pow(self.width() as u32))
    }

    /// And together again.
    pub fn together(&self, own: u32, before: u32) -> u32 {
        own << self.width() | before
    }

    pub fn hexadecimal(&self, remainder: u32) -> String {
        format!("{:0digits$X}", remainder, digits = self.digits)
    }
}

#[cfg(test)]
mod tests {
    use super::{bits, Code, CRC12, CRC3, FEC, NONE};

    /// A multiblock of which the data bit at `position` alone is set.
    fn single(position: usize) -> Vec<bool> {
        (0..2048).map(|k| k == position).collect()
    }

    fn parity_of_position(code: &Code, position: usize) -> u32 {
        code.parity(&single(position))
    }

    #[test]
    fn crc12_of_single_positions() {
        assert_eq!(parity_of_position(&CRC12, 2047), 0x30F);
        assert_eq!(parity_of_position(&CRC12, 2046), 0x61E);
        assert_eq!(parity_of_position(&CRC12, 2044), 0xB77);
    }

    #[test]
    fn fec_of_single_positions() {
        assert_eq!(parity_of_position(&FEC, 2047), 0x0220211);
        assert_eq!(parity_of_position(&FEC, 2043), 0x2202110);
        assert_eq!(parity_of_position(&FEC, 2042), 0x0624031);
    }

    /// x^3 = x + 1, x^4 = x^2 + x, x^5 = x^2 + x + 1, x^6 = x^2 + 1 and x^7 = 1, and so on; the last bit of a group is
    /// multiplied by x^3. Groups begin at bits 0, 512, 1024 and 1536, and their remainders are B, C, D and A.
    #[test]
    fn crc3_of_single_positions() {
        let powers = [0b011, 0b110, 0b111, 0b101, 0b001, 0b010, 0b100];
        for (group, low) in [(0, 9), (1, 6), (2, 3), (3, 0)] {
            for back in [0, 1, 2, 3, 4, 5, 6, 7, 504, 511] {
                assert_eq!(parity_of_position(&CRC3, 512 * group + 511 - back), powers[back % 7] << low);
            }
        }
    }

    #[test]
    fn without_groups_there_is_no_parity() {
        assert_eq!((NONE.parity(&single(5)), NONE.parity_width(), NONE.width()), (0, 0, 0));
        assert_eq!(NONE.left(&single(5), 0), []);
    }

    #[test]
    fn the_widths_of_each() {
        let widths = |code: &Code| [code.width(), code.own_width(), code.parity_width()];
        assert_eq!(
            [CRC12, FEC, CRC3, NONE].map(|code| widths(&code)),
            [[12, 0, 12], [26, 0, 26], [3, 9, 12], [0, 0, 0]]
        );
    }

    #[test]
    fn a_parity_goes_with_two_sync_words() {
        assert_eq!(
            (CRC12.apart(0x30F), CRC3.apart(0b101_110_011_001), NONE.apart(0)),
            ((0, 0x30F), (0b101_110_011, 1), (0, 0))
        );
        assert!((0..4096).all(|parity| CRC3.apart(parity).1 < 8));
        for parity in 0..4096 {
            let (own, before) = CRC3.apart(parity);
            assert_eq!(CRC3.together(own, before), parity);
        }
    }

    /// A data bit or a bit of the parity that is another shows in its own group alone.
    #[test]
    fn each_group_is_divided_by_itself() {
        let data: Vec<bool> = (0..2048).map(|k| k * k % 7 < 3).collect();
        let parity = CRC3.parity(&data);
        assert_eq!(CRC3.left(&data, parity), [0; 4]);
        for position in [0, 511, 512, 1023, 1024, 1535, 1536, 2047] {
            let hit: Vec<bool> = data.iter().zip(single(position)).map(|(bit, flip)| bit ^ flip).collect();
            let left = CRC3.left(&hit, parity);
            assert!((0..4).all(|group| (left[group] != 0) == (group == position / 512)));
        }
        for bit in 0..12 {
            let left = CRC3.left(&data, parity ^ 1 << bit);
            assert!((0..4).all(|group| left[group] == if group == 3 - bit / 3 { 1 << (bit % 3) } else { 0 }));
        }
    }

    /// In each codeword of a group, 512 bits of data and 3 of the parity: no burst of at most 3 bits leaves nothing, and of
    /// those of 4 only the generator itself does, wherever it stands.
    #[test]
    fn crc3_finds_bursts_of_3_and_not_all_of_4() {
        let codeword = |place: usize, pattern: u64| {
            let burst = bits::of_number(pattern, (64 - pattern.leading_zeros()) as usize);
            let after = 515 - place - burst.len();
            [vec![false; place], burst, vec![false; after]].concat()
        };
        let leaves = |place, pattern| CRC3.remainder(&super::Polynomial::of_bits(&codeword(place, pattern)));
        for (pattern, most) in [(0b1, 514), (0b11, 513), (0b101, 512), (0b111, 512)] {
            assert!((0..=most).all(|place| leaves(place, pattern) != 0));
        }
        for place in 0..=511 {
            assert_eq!(
                [0b1001, 0b1011, 0b1101, 0b1111].map(|pattern| leaves(place, pattern) == 0),
                [false, true, false, false]
            );
        }
    }

    #[test]
    fn digits_hold_the_width() {
        assert_eq!(CRC12.hexadecimal(0x1C), "01C");
        assert_eq!(FEC.hexadecimal(0x220211), "0220211");
        assert_eq!(CRC3.hexadecimal(0b111), "7");
    }
}
