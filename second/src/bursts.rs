//! The bursts of the FEC codeword (clause 7.5.2): 2,074 positions, position p with the weight x^(2073-p). A burst of
//! at most 9 bits is an odd pattern below 512 at a place, bit j of the pattern for position place+j, and none past
//! the last position. Every one is tried.

use std::collections::HashMap;
use std::ops::Range;

use crate::code::FEC;
use crate::polynomial::Polynomial;

const POSITIONS: usize = 2074;
const AT_MOST_9_BITS: Range<u32> = 1..512;
const EXACTLY_10_BITS: Range<u32> = 513..1024;

#[derive(Clone, Copy, Debug, PartialEq)]
pub struct Burst {
    pub place: usize,
    pub pattern: u32,
}

/// The remainder of each position's weight, a long division for each.
fn position_remainders() -> Vec<u32> {
    let remainder = |position| FEC.remainder(&Polynomial::power(POSITIONS - 1 - position));
    (0..POSITIONS).map(remainder).collect()
}

impl Burst {
    pub fn positions(&self) -> Vec<usize> {
        let set = (0..10).filter(|j| self.pattern >> j & 1 == 1);
        set.map(|j| self.place + j).collect()
    }

    fn is_in_codeword(&self) -> bool {
        self.positions().iter().all(|position| *position < POSITIONS)
    }
}

/// Every burst whose pattern is odd and in the range.
fn bursts(patterns: Range<u32>) -> Vec<Burst> {
    let places = 0..POSITIONS;
    let at = |place| patterns.clone().filter(|pattern| pattern % 2 == 1).map(move |pattern| Burst { place, pattern });
    places.flat_map(at).filter(Burst::is_in_codeword).collect()
}

/// The remainder of a set of positions: the sum modulo 2 of theirs.
fn sum(positions: &[usize], remainders: &[u32]) -> u32 {
    positions.iter().fold(0, |sum, position| sum ^ remainders[*position])
}

/// Every burst of at most 9 bits by its remainder.
pub fn by_remainder() -> HashMap<u32, Burst> {
    let remainders = position_remainders();
    bursts(AT_MOST_9_BITS).into_iter().map(|burst| (sum(&burst.positions(), &remainders), burst)).collect()
}

fn yes_or_no(answer: bool) -> &'static str {
    if answer {
        "yes"
    } else {
        "no"
    }
}

/// What the flips at positions 0 and 10 are taken for: no burst of at most 9 bits, and yet with the remainder of one.
fn flips_line(found: Option<&Burst>) -> String {
    match found {
        Some(burst) => {
            format!("flips at positions 0 and 10: the remainder of place {}, pattern {}", burst.place, burst.pattern)
        }
        None => "flips at positions 0 and 10: the remainder of no burst of at most 9 bits".to_string(),
    }
}

pub fn lines() -> Vec<String> {
    let remainders = position_remainders();
    let short_count = bursts(AT_MOST_9_BITS).len();
    let by_remainder = by_remainder();
    let long = bursts(EXACTLY_10_BITS);
    let mistaken = long.iter().filter(|burst| by_remainder.contains_key(&sum(&burst.positions(), &remainders))).count();
    let flips = by_remainder.get(&sum(&[0, 10], &remainders));
    vec![
        format!("bursts of at most 9 bits: {short_count}"),
        format!("different remainders of these: {}", by_remainder.len()),
        format!("remainder 0 among them: {}", yes_or_no(by_remainder.contains_key(&0))),
        format!("bursts of exactly 10 bits: {}", long.len()),
        format!("with the remainder of a burst of at most 9 bits: {mistaken}"),
        flips_line(flips),
    ]
}

#[cfg(test)]
mod tests {
    use super::{bursts, position_remainders, sum, Burst, EXACTLY_10_BITS, POSITIONS};
    use crate::code::FEC;

    #[test]
    fn parity_positions_weigh_one_bit_each() {
        let remainders = position_remainders();
        assert_eq!(remainders[POSITIONS - 1], 1);
        assert_eq!(remainders[POSITIONS - 26], 1 << 25);
        assert_eq!(remainders[2047], 0x0220211);
    }

    #[test]
    fn positions_sum_to_the_parity_of_their_data() {
        let mut octets = [0; 256];
        octets[0] = 0x81;
        let burst = Burst { place: 0, pattern: 0x81 };
        assert_eq!(sum(&burst.positions(), &position_remainders()), FEC.of_octets(&octets));
    }

    #[test]
    fn no_burst_passes_the_last_position() {
        let ten = bursts(EXACTLY_10_BITS);
        assert_eq!(ten.iter().map(|burst| burst.place).max(), Some(2064));
        assert!(!Burst { place: 2073, pattern: 3 }.is_in_codeword());
    }
}
