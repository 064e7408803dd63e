//! Runs of bits, the first bit first: of octets, the most significant bit of each first (document 01, "From octets to
//! lane bits"), and of numbers, the highest bit first.

/// The bits of octets.
pub fn of_octets(octets: &[u8]) -> Vec<bool> {
    let bits_of = |octet: &u8| format!("{octet:08b}").chars().map(|digit| digit == '1').collect::<Vec<bool>>();
    octets.iter().flat_map(bits_of).collect()
}

/// The lowest `count` bits of a number.
pub fn of_number(number: u64, count: usize) -> Vec<bool> {
    (0..count).rev().map(|k| number >> k & 1 == 1).collect()
}

/// The number of at most 64 bits.
pub fn number(bits: &[bool]) -> u64 {
    bits.iter().fold(0, |number, bit| 2 * number + u64::from(*bit))
}

/// The octets of bits, eight for each.
pub fn octets(bits: &[bool]) -> Vec<u8> {
    bits.chunks(8).map(|eight| number(eight) as u8).collect()
}

#[cfg(test)]
mod tests {
    use super::{number, octets, of_number, of_octets};

    #[test]
    fn the_most_significant_bit_goes_first() {
        assert_eq!(of_octets(&[0xA0, 0x01])[..3], [true, false, true]);
        assert_eq!(of_number(0xA, 4), [true, false, true, false]);
    }

    #[test]
    fn what_is_taken_apart_comes_back() {
        assert_eq!(octets(&of_octets(&[0xA1, 0x00, 0xFE])), [0xA1, 0x00, 0xFE]);
        assert_eq!(number(&of_number(0x3FF_FFFF_FFFF_FFFE, 58)), 0x3FF_FFFF_FFFF_FFFE);
    }
}
