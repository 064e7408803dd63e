//! Multiblocks on the lane, bit by bit (clauses 7.1, 7.2.2 and 7.3.2; document 01, "From octets to lane bits"; document 02,
//! request 2): 32 blocks, each a header of two bits and 64 scrambled bits, octet by octet. In modes 2 and 3 a pair of fill
//! bits stands before each octet but the first; whoever reads a lane leaves them out.

use crate::bits;
use crate::fill;
use crate::header::Headers;
use crate::mode::{Mode, BLOCKS, BLOCK_DATA_BITS, DATA_BITS, HEADER_BITS};

/// A multiblock as it was seen: its headers, and its 2,048 scrambled bits.
pub struct Multiblock {
    pub headers: Headers,
    pub data: Vec<bool>,
}

/// Header 01 is sent for 1, header 10 for 0.
fn header_carrying(bit: bool) -> [bool; HEADER_BITS] {
    if bit {
        [false, true]
    } else {
        [true, false]
    }
}

/// A block's octets, with what stands before each but the first.
fn filled(mode: &Mode, register: u32, block: &[bool]) -> Vec<bool> {
    let pairs = fill::pairs(register);
    let before = |octet: usize| if octet == 0 { &[][..] } else { &pairs[octet - 1][..mode.gap] };
    block.chunks(8).enumerate().flat_map(|(octet, bits)| [before(octet), bits].concat()).collect()
}

/// The lane bits of a sync word and 2,048 scrambled bits, with the fill bits from that register on.
pub fn lane_bits(mode: &Mode, register: u32, word: u32, data: &[bool]) -> Vec<bool> {
    let word = bits::of_number(u64::from(word), BLOCKS);
    let mut register = register;
    let mut lane = vec![];
    for (bit, block) in word.iter().zip(data.chunks(BLOCK_DATA_BITS)) {
        lane.extend(header_carrying(*bit));
        lane.extend(filled(mode, register, block));
        register = fill::after(mode, register, 1);
    }
    lane
}

/// The values of the headers of whole blocks: the first bit times 2, plus the second.
fn values(mode: &Mode, lane: &[bool]) -> Vec<u8> {
    lane.chunks(mode.block_bits()).map(|block| bits::number(&block[..HEADER_BITS]) as u8).collect()
}

impl Multiblock {
    /// What is seen in the lane bits of one.
    pub fn of(mode: &Mode, lane: &[bool]) -> Multiblock {
        Multiblock {
            headers: Headers::of(&values(mode, lane)),
            data: (0..DATA_BITS).map(|position| lane[mode.data_place(position)]).collect(),
        }
    }
}

/// The values of the headers of whole multiblocks.
pub fn header_values(mode: &Mode, lane: &[u8]) -> Vec<u8> {
    values(mode, &bits::of_octets(lane))
}

/// A block, and the two bits that its header gets.
pub type NewHeader = (usize, [bool; HEADER_BITS]);

/// The lane's octets with these headers set, one after another.
pub fn with_headers(mode: &Mode, lane: &[u8], headers: &[NewHeader]) -> Vec<u8> {
    let mut all = bits::of_octets(lane);
    for (block, header) in headers {
        all[block * mode.block_bits()..][..HEADER_BITS].copy_from_slice(header);
    }
    bits::octets(&all)
}

/// The lane bits that are fill bits, of so many blocks.
pub fn fill_places(mode: &Mode, blocks: usize) -> Vec<usize> {
    let in_block = mode.fill_places();
    (0..blocks).flat_map(|block| in_block.iter().map(move |place| mode.block_bits() * block + place)).collect()
}

#[cfg(test)]
mod tests {
    use super::{bits, fill_places, header_values, lane_bits, with_headers, Multiblock};
    use crate::header::{Header, Headers};
    use crate::mode::row;

    fn data() -> Vec<bool> {
        (0..2048).map(|k| k * k % 7 < 3).collect()
    }

    #[test]
    fn what_is_sent_is_read() {
        for number in 0..6 {
            let read = Multiblock::of(row(number), &lane_bits(row(number), 0, 0x393F_9521, &data()));
            assert_eq!((read.headers, read.data), (Headers::carrying(0x393F_9521), data()));
        }
    }

    #[test]
    fn headers_are_01_for_1_and_10_for_0() {
        for (number, octets) in [(0, 264), (1, 264), (2, 320), (3, 320), (4, 264), (5, 264)] {
            let lane = bits::octets(&lane_bits(row(number), 0, 0x8000_0001, &data()));
            let values = header_values(row(number), &lane);
            assert_eq!((lane.len(), lane[0] >> 6), (octets, 1));
            assert_eq!((values.len(), values[0], values[1], values[30], values[31]), (32, 1, 2, 2, 1));
        }
    }

    /// Octets 01 to 08 after header 10, with F1 replaced by 10; then FF throughout after header 01, where the register is
    /// 1FFF8 and F1 is replaced by 10 again.
    #[test]
    fn blocks_of_80_bits_by_hand() {
        let data = bits::of_octets(&[&[1, 2, 3, 4, 5, 6, 7, 8][..], &[0xFF; 8], &[0; 240]].concat());
        let lane = bits::octets(&lane_bits(row(3), 0, 0x4000_0000, &data));
        let first = "10 00000001 00 00000010 10 00000011 00 00000100 00 00000101 00 00000110 00 00000111 00 00001000";
        let second = "01 11111111 11 11111111 10 11111111 11 11111111 11 11111111 11 11111111 11 11111111 11 11111111";
        let digits = |octets: &[u8]| octets.iter().map(|octet| format!("{octet:08b}")).collect::<String>();
        assert_eq!(digits(&lane[..10]), first.replace(' ', ""));
        assert_eq!(digits(&lane[10..20]), second.replace(' ', ""));
    }

    /// The register changes the fill bits alone, and nothing that is read.
    #[test]
    fn fill_bits_stand_in_the_gaps() {
        let [one, other] = [5, 0x1_2345].map(|register| lane_bits(row(2), register, 0x393F_9521, &data()));
        let places = fill_places(row(2), 32);
        let differ: Vec<usize> = (0..one.len()).filter(|place| one[*place] != other[*place]).collect();
        assert!(differ.len() > 100 && differ.iter().all(|place| places.contains(place)));
        assert_eq!((places.len(), fill_places(row(1), 32).len()), (14 * 32, 0));
        assert_eq!(lane_bits(row(1), 5, 1, &data()), lane_bits(row(1), 6, 1, &data()));
    }

    #[test]
    fn invalid_headers_are_seen_with_their_pair() {
        for mode in [row(1), row(3)] {
            let lane = bits::octets(&lane_bits(mode, 0, 0xFFFF_FFFF, &data()));
            let lane = with_headers(mode, &lane, &[(0, [true, true]), (31, [false, false])]);
            let Multiblock { headers, data: seen } = Multiblock::of(mode, &bits::of_octets(&lane));
            assert_eq!(
                [0, 1, 31].map(|block| headers.at(block)),
                [Header::Invalid(3), Header::One, Header::Invalid(0)]
            );
            assert_eq!((headers.invalid(), seen), (2, data()));
        }
    }
}
