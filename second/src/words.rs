//! Sync words made and read back (clauses 7.3.4 to 7.3.7.2): nothing, the mark, each bit of each field alone, everything,
//! and 16 cases a mode from a generator; then commands of which one header was invalid; then what headers read as, by their
//! value and by the first and second bits of 32 (document 02, request 1). A parity is printed whole: what the word carries of
//! its own multiblock above what it carries of the one before (code.rs).

use crate::generator::Generator;
use crate::header::{Header, Headers};
use crate::mode::{row, Word, BLOCKS};
use crate::sync::{Fields, NOTHING};

/// One mode for each layout, and of these the ones that have commands.
const MODES: [u8; 4] = [0, 1, 4, 5];
const WITH_COMMANDS: [u8; 3] = [0, 4, 5];

/// A word of FEC has no room for a command. It is given one of 7 bits all the same.
const BITS_WITHOUT_ROOM: u32 = 7;
const GENERATED: usize = 16;

/// Every pair, and numbers that are none.
const VALUES: [u8; 6] = [0, 1, 2, 3, 4, 255];

/// First and second bits of 32 headers.
const WORDS: [(u32, u32); 8] = [
    (0x0000_0000, 0x0000_0000),
    (0xFFFF_FFFF, 0xFFFF_FFFF),
    (0x0000_0000, 0xFFFF_FFFF),
    (0xFFFF_FFFF, 0x0000_0000),
    (0x8000_0001, 0x7FFF_FFFE),
    (0x0001_0000, 0x0003_0000),
    (0xAAAA_AAAA, 0x6666_6666),
    (0x1234_5678, 0x9ABC_DEF0),
];

const MARK: Fields = Fields { mark: true, ..NOTHING };

fn parity_bits(word: &Word) -> u32 {
    word.code.parity_width() as u32
}

/// The bits of a command that is given.
fn given_bits(word: &Word) -> u32 {
    match word.command_bits {
        0 => BITS_WITHOUT_ROOM,
        bits => bits,
    }
}

/// The fields that carry a parity.
fn carrying(word: &Word, parity: u32) -> Fields {
    let (own, before) = word.code.apart(parity);
    Fields { own, before, ..NOTHING }
}

/// Three numbers of the generator, for its parity, its command and its mark.
fn draw_fields(generator: &mut Generator, word: &Word) -> Fields {
    let fields = carrying(word, generator.highest(parity_bits(word)));
    let command = generator.highest(given_bits(word));
    Fields { command, mark: generator.highest(1) == 1, ..fields }
}

/// Cases from the numbers after 1.
fn generated(word: &Word) -> Vec<Fields> {
    let mut generator = Generator::from(1);
    (0..GENERATED).map(|_| draw_fields(&mut generator, word)).collect()
}

/// Each bit of a parity alone.
fn parities(word: &Word) -> Vec<Fields> {
    (0..parity_bits(word)).map(|k| carrying(word, 2_u32.pow(k))).collect()
}

/// Each bit of a command alone, if there is room for one.
fn commands(word: &Word) -> Vec<Fields> {
    (0..word.command_bits).map(|k| Fields { command: 2_u32.pow(k), ..NOTHING }).collect()
}

fn everything(word: &Word) -> Fields {
    let all = |bits| 2_u32.pow(bits) - 1;
    Fields { command: all(given_bits(word)), mark: true, ..carrying(word, all(parity_bits(word))) }
}

fn cases(word: &Word) -> Vec<Fields> {
    [vec![NOTHING, MARK], parities(word), commands(word), vec![everything(word)], generated(word)].concat()
}

/// A command in as many digits as one with its mark has.
fn command_digits(word: &Word, command: u32) -> String {
    format!("{command:0digits$X}", digits = (given_bits(word) + 1).div_ceil(4) as usize)
}

/// The sync word of the fields, and the parity and command read from it.
fn word_line(number: u8, fields: Fields) -> String {
    let word = row(number).word;
    let made = word.layout.word(fields);
    let headers = Headers::carrying(made);
    format!(
        "sync word {number} {:07X} {} {} -> {made:08X} read {:07X} {}",
        word.code.together(fields.own, fields.before),
        command_digits(word, fields.command),
        u32::from(fields.mark),
        word.code.together(word.layout.own(&headers), word.layout.before(&headers)),
        command_digits(word, word.layout.command(&headers))
    )
}

fn word_lines(number: u8) -> Vec<String> {
    cases(row(number).word).into_iter().map(|fields| word_line(number, fields)).collect()
}

/// The command of a word of zeros in which the header at one position is 11.
fn invalid_header_lines(number: u8) -> Vec<String> {
    let word = row(number).word;
    let headers = |position: u32| Headers::of_words(u32::MAX, 2_u32.pow(31 - position));
    let command = |position| command_digits(word, word.layout.command(&headers(position)));
    (0..32).map(|position| format!("command invalid {number} {position} -> {}", command(position))).collect()
}

fn value_line(value: u8) -> String {
    match Header::of(value) {
        Header::One => format!("header {value} -> one"),
        Header::Zero => format!("header {value} -> zero"),
        Header::Invalid(pair) => format!("header {value} -> invalid {pair}"),
    }
}

/// An invalid header is low, 00, or high, 11.
fn letter(header: Header) -> char {
    match header {
        Header::One => '1',
        Header::Zero => '0',
        Header::Invalid(0) => 'l',
        Header::Invalid(_) => 'h',
    }
}

/// The headers of blocks 0 to 31, that of block 32, and how many of the 32 are invalid.
fn words_line((first, second): (u32, u32)) -> String {
    let headers = Headers::of_words(first, second);
    let letters: String = (0..BLOCKS).map(|block| letter(headers.at(block))).collect();
    let after = letter(headers.at(BLOCKS));
    format!("headers {first:08X} {second:08X} -> {letters} {after} invalid {}", headers.invalid())
}

pub fn lines() -> Vec<String> {
    let words = MODES.map(word_lines).concat();
    let invalid = WITH_COMMANDS.map(invalid_header_lines).concat();
    let headers = [VALUES.map(value_line).to_vec(), WORDS.map(words_line).to_vec()].concat();
    [words, invalid, headers].concat()
}

#[cfg(test)]
mod tests {
    use super::{cases, generated, lines, row, words_line, Headers, MODES, NOTHING};
    use std::collections::HashSet;

    #[test]
    fn what_is_written_reads_back() {
        for word in MODES.map(|number| row(number).word) {
            for fields in cases(word) {
                let headers = Headers::carrying(word.layout.word(fields));
                let read = [word.layout.own(&headers), word.layout.before(&headers), word.layout.command(&headers)];
                let command = if word.command_bits == 0 { 0 } else { fields.command };
                assert_eq!(read, [fields.own, fields.before, command]);
            }
        }
    }

    /// The mark and each bit of each field, alone, set one bit of the word each, no two the same.
    #[test]
    fn each_bit_stands_once() {
        for (number, bits) in [(0, 12 + 7), (1, 26), (4, 12 + 7), (5, 19)] {
            let layout = row(number).word.layout;
            let alone = &cases(row(number).word)[1..2 + bits];
            let set: HashSet<u32> = alone.iter().map(|fields| layout.word(*fields) ^ layout.word(NOTHING)).collect();
            assert!(set.len() == 1 + bits && set.iter().all(|word| word.is_power_of_two()));
        }
    }

    #[test]
    fn a_command_has_the_digits_of_its_mode() {
        let lines = lines();
        for line in ["command invalid 4 4 -> 80", "command invalid 5 0 -> 80000", "command invalid 5 3 -> 00000"] {
            assert!(lines.contains(&line.to_string()));
        }
    }

    /// Of a parity of no bits a number is drawn too.
    #[test]
    fn every_mode_has_the_same_marks() {
        let marks = |number| generated(row(number).word).iter().map(|fields| fields.mark).collect::<Vec<bool>>();
        assert!(MODES.iter().all(|number| marks(*number) == marks(0)));
    }

    #[test]
    fn a_letter_for_each_header_and_one_for_the_block_after_them() {
        let line = "headers F0F0F0F0 CCCCCCCC -> hh0011llhh0011llhh0011llhh0011ll l invalid 16";
        assert_eq!(words_line((0xF0F0_F0F0, 0xCCCC_CCCC)), line);
    }
}
