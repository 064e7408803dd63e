//! Words in commands (clause 7.3.7.3). A word is six bits: 0 for a header or 1 for payload, then a number of five bits, [0] the
//! most significant (document 02, request 6). A command with a CRC has one word, by Table 49; one of the stand-alone channel
//! has three, by Table 50. Cmd[0] is the exclusive or of all other bits.
//!
//! A command as it came may have the receiver's mark above its own bits. With the mark, or with a wrong parity bit (clause
//! 7.6.3), it is spoilt, and has no words.

use crate::bits;
use crate::mode::Mode;
use Encoding::{Kind, Number, Parity};

#[derive(Clone, Copy, Debug, PartialEq)]
pub enum Word {
    /// Its function code.
    Header(u8),
    Payload(u8),
}

pub const IDLE: Word = Word::Header(0);

/// The highest number of a word.
pub const HIGHEST: u8 = 31;

/// What a bit of a command carries, of its first, second or third word.
#[derive(Clone, Copy, PartialEq)]
enum Encoding {
    /// Header or payload.
    Kind(usize),
    /// Header[k] or payload[k].
    Number(usize, u32),
    Parity,
}

/// From Cmd[6] down.
#[rustfmt::skip]
const TABLE_49: [Encoding; 7] = [
    Kind(0), Number(0, 0), Number(0, 1), Number(0, 2), Number(0, 3), Number(0, 4), Parity,
];

/// From Cmd[18] down.
#[rustfmt::skip]
const TABLE_50: [Encoding; 19] = [
    Kind(0), Number(0, 0), Number(0, 1), Number(0, 2), Number(0, 3), Number(0, 4),
    Kind(1), Number(1, 0), Number(1, 1), Number(1, 2), Number(1, 3), Number(1, 4),
    Kind(2), Number(2, 0), Number(2, 1), Number(2, 2), Number(2, 3), Number(2, 4), Parity,
];

/// What the bits of a command carry, the highest first.
pub struct Channel(&'static [Encoding]);

static WITH_CRC: Channel = Channel(&TABLE_49);
static ALONE: Channel = Channel(&TABLE_50);

impl Word {
    fn is_payload(self) -> bool {
        matches!(self, Word::Payload(_))
    }

    fn number(self) -> u8 {
        match self {
            Word::Header(number) | Word::Payload(number) => number,
        }
    }

    fn bit(self, k: u32) -> bool {
        self.number() >> (4 - k) & 1 == 1
    }
}

/// The exclusive or.
fn parity(bits: &[bool]) -> bool {
    bits.iter().fold(false, |parity, bit| parity ^ bit)
}

impl Channel {
    /// That of a mode, if it has one.
    pub fn of(mode: &Mode) -> Option<&'static Channel> {
        match mode.word.command_bits {
            0 => None,
            7 => Some(&WITH_CRC),
            _ => Some(&ALONE),
        }
    }

    /// How many words a command has.
    pub fn words(&self) -> usize {
        self.0.iter().filter(|encoding| matches!(encoding, Kind(_))).count()
    }

    /// The command that carries these words.
    pub fn command(&self, words: &[Word]) -> u32 {
        let carried = |encoding: &Encoding| match *encoding {
            Kind(word) => Some(words[word].is_payload()),
            Number(word, k) => Some(words[word].bit(k)),
            Parity => None,
        };
        let mut all: Vec<bool> = self.0.iter().filter_map(carried).collect();
        all.push(parity(&all));
        bits::number(&all) as u32
    }

    /// Whether the bit of that encoding is 1.
    fn is_set(&self, command: u32, encoding: Encoding) -> bool {
        let place = self.0.iter().rev().position(|other| *other == encoding).expect("every bit of a word is sent");
        command >> place & 1 == 1
    }

    /// A word of a command as it came, or nothing if that is spoilt.
    pub fn word(&self, command: u32, word: usize) -> Option<Word> {
        let with_mark = bits::of_number(u64::from(command), 1 + self.0.len());
        if with_mark[0] || parity(&with_mark) {
            return None;
        }
        let number = bits::number(&[0, 1, 2, 3, 4].map(|k| self.is_set(command, Number(word, k)))) as u8;
        Some(if self.is_set(command, Kind(word)) { Word::Payload(number) } else { Word::Header(number) })
    }
}

/// A command by its bits, the highest first, with blanks where its words and its parity begin.
#[cfg(test)]
pub fn of(bits: &str) -> u32 {
    u32::from_str_radix(&bits.replace(' ', ""), 2).expect("bits and blanks")
}

#[cfg(test)]
mod tests {
    use super::Word::{Header, Payload};
    use super::{of, Channel, ALONE, IDLE, WITH_CRC};
    use crate::mode::row;

    fn words(channel: &Channel, command: u32) -> Option<Vec<super::Word>> {
        (0..channel.words()).map(|k| channel.word(command, k)).collect()
    }

    #[test]
    fn one_word_by_table_49() {
        let worked = [
            (IDLE, of("0 00000 0")),
            (Header(1), of("0 00001 1")),
            (Header(16), of("0 10000 1")),
            (Header(6), of("0 00110 0")),
            (Payload(0), of("1 00000 1")),
            (Payload(1), of("1 00001 0")),
            (Payload(20), of("1 10100 1")),
            (Payload(31), of("1 11111 0")),
        ];
        for (word, command) in worked {
            assert_eq!(WITH_CRC.command(&[word]), command);
            assert_eq!(words(&WITH_CRC, command), Some(vec![word]));
        }
    }

    #[test]
    fn three_words_by_table_50() {
        let worked = [
            ([IDLE, IDLE, IDLE], 0),
            ([Header(16), Payload(3), Payload(31)], of("010000 100011 111111 0")),
            ([Payload(1), IDLE, IDLE], of("100001 000000 000000 0")),
            ([IDLE, IDLE, Payload(0)], of("000000 000000 100000 1")),
            ([IDLE, Header(4), IDLE], of("000000 000100 000000 1")),
        ];
        for (three, command) in worked {
            assert_eq!(ALONE.command(&three), command);
            assert_eq!(words(&ALONE, command), Some(three.to_vec()));
        }
    }

    #[test]
    fn one_bit_spoils_a_command() {
        for (channel, command, bits) in [(&WITH_CRC, of("1 10100 1"), 7), (&ALONE, of("010000 100011 111111 0"), 19)] {
            for bit in 0..=bits {
                assert!((0..channel.words()).all(|word| channel.word(command ^ 1 << bit, word).is_none()));
            }
        }
    }

    /// The mark alone is enough, and no parity makes up for it.
    #[test]
    fn a_mark_spoils_a_command() {
        for (channel, mark) in [(&WITH_CRC, 128), (&ALONE, 1 << 19)] {
            assert_eq!(channel.word(mark, 0), None);
            assert_eq!(channel.word(mark + 1, 0), None);
            assert_eq!(channel.word(mark + 3, 0), None);
        }
    }

    #[test]
    fn the_words_of_each_mode() {
        let words = |number| Channel::of(row(number)).map(Channel::words);
        assert_eq!([0, 1, 2, 3, 4, 5].map(words), [Some(1), None, Some(1), None, Some(1), Some(3)]);
    }
}
