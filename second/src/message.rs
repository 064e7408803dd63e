//! Messages of the command channel and their writer (clauses 7.3.7.4 and 7.3.7.6). A message is a header with a function code
//! and payload words. How many goes by the code: Table 51 has their bits, five a word. A user-defined code may have any number,
//! but never more than 35 bits follow a header.
//!
//! A message begins with a command. In the stand-alone channel idle headers fill its last one.
//! Refused (document 02, request 6), in this order: 1 there is no such mode, or it has no command channel; 6 a payload word
//! is above 31, or there are fewer than the code asks; 10 there are more than the code allows, or than 35 bits; 11 the code
//! isn't defined; 7 the list is too short.

use std::ops::RangeInclusive;

use crate::command::{Channel, Word, HIGHEST, IDLE};
use crate::mode::mode;

const WORD_BITS: usize = 5;

/// The most payload words of any message: 35 bits.
pub const MOST_WORDS: usize = 35 / WORD_BITS;

/// Table 51, codes 0x00 to 0x06.
const PAYLOAD_BITS: [usize; 7] = [0, 25, 10, 20, 25, 0, 0];
const USER_DEFINED: RangeInclusive<u8> = 0x10..=0x1F;

/// How many payload words a code may have, if it is defined.
pub fn payload_words(code: u8) -> Option<RangeInclusive<usize>> {
    match PAYLOAD_BITS.get(usize::from(code)) {
        Some(bits) => Some(bits / WORD_BITS..=bits / WORD_BITS),
        None => USER_DEFINED.contains(&code).then_some(0..=MOST_WORDS),
    }
}

#[derive(Debug, PartialEq)]
pub struct Written {
    pub refusal: u8,
    /// Commands written.
    pub count: usize,
}

/// The header, the payload, and idle headers up to a whole number of commands.
fn words_of(channel: &Channel, code: u8, payload: &[u8]) -> Vec<Word> {
    let mut words = vec![Word::Header(code)];
    words.extend(payload.iter().map(|number| Word::Payload(*number)));
    words.resize(words.len().next_multiple_of(channel.words()), IDLE);
    words
}

fn commands_of(number: u8, code: u8, payload: &[u8]) -> Result<Vec<u32>, u8> {
    let channel = mode(number).and_then(Channel::of).ok_or(1)?;
    let asked = payload_words(code).unwrap_or(0..=MOST_WORDS);
    if payload.iter().any(|number| *number > HIGHEST) || payload.len() < *asked.start() {
        return Err(6);
    }
    if payload.len() > *asked.end() {
        return Err(10);
    }
    payload_words(code).ok_or(11)?;
    Ok(words_of(channel, code, payload).chunks(channel.words()).map(|words| channel.command(words)).collect())
}

/// Writes a message over the start of the list. A refused one writes nothing.
pub fn write(number: u8, code: u8, payload: &[u8], commands: &mut [u32]) -> Written {
    match commands_of(number, code, payload) {
        Err(refusal) => Written { refusal, count: 0 },
        Ok(written) if written.len() > commands.len() => Written { refusal: 7, count: 0 },
        Ok(written) => {
            commands[..written.len()].copy_from_slice(&written);
            Written { refusal: 0, count: written.len() }
        }
    }
}

#[cfg(test)]
mod tests {
    use super::{payload_words, write, Written};
    use crate::command::of;

    const BEFORE: u32 = 165;

    /// A refusal and the commands that were written of eight.
    fn written(mode: u8, code: u8, payload: &[u8]) -> (u8, Vec<u32>) {
        let mut commands = [BEFORE; 8];
        let Written { refusal, count } = write(mode, code, payload, &mut commands);
        assert!(commands[count..].iter().all(|command| *command == BEFORE));
        (refusal, commands[..count].to_vec())
    }

    #[test]
    fn the_words_of_table_51() {
        for (code, words) in [0, 5, 2, 4, 5, 0, 0].into_iter().enumerate() {
            assert_eq!(payload_words(code as u8), Some(words..=words));
        }
        assert!((7..=15).chain(32..=255).all(|code| payload_words(code).is_none()));
        assert!((16..=31).all(|code| payload_words(code) == Some(0..=7)));
    }

    #[test]
    fn a_word_a_command() {
        for mode in [0, 2, 4] {
            assert_eq!(written(mode, 0, &[]), (0, vec![of("0 00000 0")]));
            assert_eq!(written(mode, 2, &[3, 31]), (0, vec![of("0 00010 1"), of("1 00011 1"), of("1 11111 0")]));
            assert_eq!(written(mode, 16, &[1]), (0, vec![of("0 10000 1"), of("1 00001 0")]));
        }
    }

    #[test]
    fn three_words_a_command() {
        assert_eq!(written(5, 0, &[]), (0, vec![0]));
        assert_eq!(written(5, 6, &[]), (0, vec![of("000110 000000 000000 0")]));
        assert_eq!(written(5, 2, &[3, 31]), (0, vec![of("000010 100011 111111 0")]));
        assert_eq!(written(5, 3, &[0, 1, 2, 3]), (0, vec![of("000011 100000 100001 1"), of("100010 100011 000000 1")]));
        assert_eq!(written(5, 31, &[9; 7]).1.len(), 3);
    }

    #[test]
    fn each_refusal_in_its_turn() {
        assert_eq!([1, 3, 6, 255].map(|mode| written(mode, 7, &[32; 9]).0), [1; 4]);
        assert_eq!(written(0, 7, &[0, 0, 0, 0, 0, 0, 0, 32]).0, 6);
        assert_eq!(written(0, 1, &[0; 4]).0, 6);
        assert_eq!(written(0, 1, &[0; 6]).0, 10);
        assert_eq!([7, 15, 32, 255].map(|code| written(0, code, &[0; 8]).0), [10; 4]);
        assert_eq!([7, 15, 32, 255].map(|code| written(0, code, &[0; 7]).0), [11; 4]);
        assert_eq!(written(0, 16, &[0; 8]).0, 10);
        assert_eq!(written(5, 0, &[0]).0, 10);
    }

    /// 7 is asked last.
    #[test]
    fn room_for_a_message() {
        let refusal = |mode, code, payload: &[u8], room| write(mode, code, payload, &mut vec![BEFORE; room]).refusal;
        assert_eq!([0, 5, 6].map(|room| refusal(0, 1, &[0; 5], room)), [7, 7, 0]);
        assert_eq!([0, 1, 2].map(|room| refusal(5, 1, &[0; 5], room)), [7, 7, 0]);
        assert_eq!([refusal(0, 1, &[0; 6], 0), refusal(0, 7, &[], 0), refusal(0, 1, &[], 0)], [10, 11, 6]);
    }
}
