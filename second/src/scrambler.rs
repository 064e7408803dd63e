//! The scrambler of clause 7.2.4.2, bit by bit: each bit sent is the user's bit plus the bits sent 39 and 58 earlier,
//! modulo 2. What was sent is kept whole, from the 58 bits before the first block on.

use crate::bits;

pub const HISTORY_BITS: usize = 58;
const NEAR: usize = 39;

/// Initial state 0x01 of Table 37: of the 58 bits sent before, only the earliest is 1.
pub const INITIAL_ONE: u64 = 1 << (HISTORY_BITS - 1);

pub struct Scrambler {
    /// All bits sent, the earliest first.
    sent: Vec<bool>,
}

impl Scrambler {
    /// After a history: its bit 0 is the latest bit sent.
    pub fn after(history: u64) -> Scrambler {
        Scrambler { sent: bits::of_number(history, HISTORY_BITS) }
    }

    fn back(&self, distance: usize) -> bool {
        self.sent[self.sent.len() - distance]
    }

    fn send(&mut self, user: bool) {
        self.sent.push(user ^ self.back(NEAR) ^ self.back(HISTORY_BITS));
    }

    /// The bits sent for a user's octets.
    pub fn scramble(&mut self, user: &[u8]) -> Vec<bool> {
        let start = self.sent.len();
        for bit in bits::of_octets(user) {
            self.send(bit);
        }
        self.sent[start..].to_vec()
    }

    /// The block sent for a user's block.
    pub fn block(&mut self, user: &[u8; 8]) -> Vec<u8> {
        bits::octets(&self.scramble(user))
    }

    /// The last 58 bits sent.
    pub fn history(&self) -> u64 {
        bits::number(&self.sent[self.sent.len() - HISTORY_BITS..])
    }
}

/// The user's octets from the bits received after a history: the same two earlier bits are added again.
pub fn descramble(history: u64, received: &[bool]) -> Vec<u8> {
    let all = [&bits::of_number(history, HISTORY_BITS)[..], received].concat();
    let user = |k| all[k] ^ all[k - NEAR] ^ all[k - HISTORY_BITS];
    bits::octets(&(HISTORY_BITS..all.len()).map(user).collect::<Vec<bool>>())
}

#[cfg(test)]
mod tests {
    use super::{bits, descramble, Scrambler, INITIAL_ONE};

    /// Rows 1 and 2 of the dozen.
    #[test]
    fn a_single_user_bit_comes_back_in_two_blocks() {
        let mut scrambler = Scrambler::after(0);
        let first = scrambler.block(&[0x80, 0, 0, 0, 0, 0, 0, 0]);
        assert_eq!(first, [0x80, 0x00, 0x00, 0x00, 0x01, 0x00, 0x00, 0x20]);
        assert_eq!(scrambler.block(&[0; 8]), [0x00, 0x02, 0x00, 0x00, 0x00, 0x00, 0x0C, 0x00]);
    }

    #[test]
    fn bit_0_of_a_history_is_the_latest() {
        let mut scrambler = Scrambler::after(INITIAL_ONE);
        assert_eq!(scrambler.history(), INITIAL_ONE);
        scrambler.send(false);
        assert_eq!(scrambler.history(), 1);
    }

    #[test]
    fn what_was_scrambled_comes_back() {
        let user: Vec<u8> = (0..=255).collect();
        let sent = Scrambler::after(0x123_4567_89AB_CDEF).scramble(&user);
        assert_eq!(descramble(0x123_4567_89AB_CDEF, &sent), user);
    }

    /// One flip becomes three, at 0, 39 and 58 bits.
    #[test]
    fn a_flip_shows_in_three_places() {
        let mut received = bits::of_octets(&[0; 16]);
        received[0] = true;
        assert_eq!(bits::of_octets(&descramble(0, &received)).iter().filter(|bit| **bit).count(), 3);
        assert_eq!(descramble(0, &received)[..8], [0x80, 0x00, 0x00, 0x00, 0x01, 0x00, 0x00, 0x20]);
    }
}
