//! What a list of commands has to tell, word by word from any word on (document 02, request 6; clause 7.6.3, Tables 56 and 57).
//! A header opens a message, and ends one that is open. What ends before it has the words that its code asks is cut. A
//! user-defined code has no number to wait for: its message is whole whenever something ends it, but a spoilt command cuts it.
//! Payload with nothing open is passed over. So is padding: in the stand-alone channel an idle header that isn't the first word
//! of its command. A spoilt command is one cut, whatever its words were.
//!
//! Refused: 1 there is no such mode, or it has no command channel; 6 a command is wider than its mode's and the mark.

use crate::command::{Channel, Word, IDLE};
use crate::message::payload_words;
use crate::mode::mode;

#[derive(Clone, Debug, PartialEq)]
pub enum Event {
    Nothing,
    Message {
        code: u8,
        words: Vec<u8>,
    },
    /// After so many words, its header among them; 0 if none was open.
    Cut(usize),
    /// A code that isn't defined.
    Undefined(u8),
}

#[derive(Debug, PartialEq)]
pub struct Read {
    pub refusal: u8,
    pub event: Event,
    /// The word at which the event begins.
    pub begin: usize,
    /// The word to go on from.
    pub next: usize,
}

/// What stands at a word of the list.
enum Sign {
    Header(u8),
    Payload(u8),
    Padding,
    Spoilt,
    /// No word: the list is at its end.
    End,
}

/// Commands, and where in them a word stands: word k is word k mod n of command k / n, of n words each.
struct List<'a> {
    channel: &'a Channel,
    commands: &'a [u32],
}

impl List<'_> {
    fn sign(&self, place: usize) -> Sign {
        let (command, word) = (place / self.channel.words(), place % self.channel.words());
        let Some(command) = self.commands.get(command) else {
            return Sign::End;
        };
        match self.channel.word(*command, word) {
            None => Sign::Spoilt,
            Some(IDLE) if word > 0 => Sign::Padding,
            Some(Word::Header(code)) => Sign::Header(code),
            Some(Word::Payload(number)) => Sign::Payload(number),
        }
    }

    /// The first word of the command after that of a word.
    fn next_command(&self, place: usize) -> usize {
        (place / self.channel.words() + 1) * self.channel.words()
    }

    /// The first word from one on that isn't padding.
    fn past_padding(&self, place: usize) -> usize {
        let mut place = place;
        while matches!(self.sign(place), Sign::Padding) {
            place += 1;
        }
        place
    }

    /// The message that a header opens, taken up to the word that ends it.
    fn opened(&self, begin: usize, code: u8, fewest: usize, most: usize) -> Read {
        let mut words = vec![];
        while words.len() < most {
            let place = begin + 1 + words.len();
            match self.sign(place) {
                Sign::Payload(number) => words.push(number),
                Sign::Spoilt => return told(Event::Cut(1 + words.len()), begin, self.next_command(place)),
                Sign::Header(_) | Sign::Padding | Sign::End => break,
            }
        }
        let next = self.past_padding(begin + 1 + words.len());
        let event = if words.len() < fewest { Event::Cut(1 + words.len()) } else { Event::Message { code, words } };
        told(event, begin, next)
    }

    /// What begins at a word, if something does.
    fn begun(&self, place: usize) -> Option<Read> {
        match self.sign(place) {
            Sign::Payload(_) | Sign::Padding => None,
            Sign::End => Some(told(Event::Nothing, place, place)),
            Sign::Spoilt => Some(told(Event::Cut(0), place, self.next_command(place))),
            Sign::Header(code) => Some(match payload_words(code) {
                Some(asked) => self.opened(place, code, *asked.start(), *asked.end()),
                None => told(Event::Undefined(code), place, self.past_padding(place + 1)),
            }),
        }
    }

    fn first_from(&self, from: usize) -> Read {
        let mut place = from;
        loop {
            match self.begun(place) {
                Some(read) => return read,
                None => place += 1,
            }
        }
    }
}

fn told(event: Event, begin: usize, next: usize) -> Read {
    Read { refusal: 0, event, begin, next }
}

fn refused(refusal: u8, from: usize) -> Read {
    Read { refusal, event: Event::Nothing, begin: from, next: from }
}

/// The first event at a word of the list or after it.
pub fn read(number: u8, commands: &[u32], from: usize) -> Read {
    let Some((mode, channel)) = mode(number).and_then(|mode| Some((mode, Channel::of(mode)?))) else {
        return refused(1, from);
    };
    if commands.iter().any(|command| *command > mode.word.highest_received()) {
        return refused(6, from);
    }
    List { channel, commands }.first_from(from)
}

/// All reads of a list, each from where the one before says, with that of nothing or the refused one last.
pub fn reads(number: u8, commands: &[u32], from: usize) -> Vec<Read> {
    let mut reads = vec![read(number, commands, from)];
    while let Some(Read { event, next, .. }) = reads.last() {
        if *event == Event::Nothing {
            break;
        }
        reads.push(read(number, commands, *next));
    }
    reads
}

#[cfg(test)]
mod tests {
    use super::{read, reads, Event, Read};
    use crate::command::Word::{self, Header, Payload};
    use crate::command::{Channel, IDLE};
    use crate::message::write;
    use crate::mode::row;

    /// The commands that carry these words.
    fn commands(mode: u8, words: &[Word]) -> Vec<u32> {
        let channel = Channel::of(row(mode)).expect("a mode with commands");
        words.chunks(channel.words()).map(|words| channel.command(words)).collect()
    }

    fn message(code: u8, words: &[u8]) -> Event {
        Event::Message { code, words: words.to_vec() }
    }

    /// The events from a word on, each with where it begins, and where all ends.
    fn events(mode: u8, commands: &[u32], from: usize) -> (Vec<(Event, usize)>, usize) {
        let mut reads = reads(mode, commands, from);
        let end = reads.pop().expect("at least that of nothing");
        assert_eq!((end.refusal, end.event, end.begin), (0, Event::Nothing, end.next));
        (reads.into_iter().map(|read| (read.event, read.begin)).collect(), end.next)
    }

    #[test]
    fn what_is_written_reads_back() {
        for mode in [0, 2, 4, 5] {
            for code in (0..=6).chain(16..=31) {
                for length in crate::message::payload_words(code).expect("a defined code") {
                    let payload: Vec<u8> = (0..length as u8).map(|k| (code + 7 * k) % 32).collect();
                    let mut list = vec![0; 8];
                    let count = write(mode, code, &payload, &mut list).count;
                    list.truncate(count);
                    let words = count * if mode == 5 { 3 } else { 1 };
                    assert_eq!(events(mode, &list, 0), (vec![(message(code, &payload), 0)], words));
                }
            }
        }
    }

    #[test]
    fn a_header_ends_what_is_open() {
        let list = commands(0, &[Header(1), Payload(3), Header(17), Payload(4), Header(6), Payload(5), Header(2)]);
        let found = [(Event::Cut(2), 0), (message(17, &[4]), 2), (message(6, &[]), 4), (Event::Cut(1), 6)];
        assert_eq!(events(0, &list, 0), (found.to_vec(), 7));
        assert_eq!(events(0, &list, 1), (found[1..].to_vec(), 7));
    }

    #[test]
    fn the_end_of_the_list_ends_what_is_open() {
        let list = commands(0, &[Header(4), Payload(1), Payload(2), Payload(3), Payload(4)]);
        assert_eq!(events(0, &list, 0), (vec![(Event::Cut(5), 0)], 5));
        assert_eq!(events(0, &list, 3), (vec![], 5));
        let list = commands(0, &[Header(16), Payload(1)]);
        assert_eq!(events(0, &list, 0), (vec![(message(16, &[1]), 0)], 2));
    }

    #[test]
    fn an_eighth_word_is_passed_over() {
        let words = [[Header(31)].to_vec(), (0..9).map(Payload).collect(), vec![IDLE]].concat();
        let whole = (message(31, &[0, 1, 2, 3, 4, 5, 6]), 0);
        assert_eq!(read(0, &commands(0, &words), 0).next, 8);
        assert_eq!(events(0, &commands(0, &words), 0), (vec![whole, (message(0, &[]), 10)], 11));
    }

    #[test]
    fn undefined_codes() {
        let list = commands(0, &[Header(7), Payload(1), Payload(2), Header(15), Header(5)]);
        let found = vec![(Event::Undefined(7), 0), (Event::Undefined(15), 3), (message(5, &[]), 4)];
        assert_eq!(events(0, &list, 0), (found, 5));
    }

    #[test]
    fn a_spoilt_command_ends_what_is_open() {
        let good = commands(0, &[Header(16), Payload(1), Payload(2), Payload(3)]);
        for wrong in [128, 1] {
            let mut list = good.clone();
            list[2] ^= wrong;
            assert_eq!(events(0, &list, 0), (vec![(Event::Cut(2), 0)], 4));
            assert_eq!(events(0, &list, 1), (vec![(Event::Cut(0), 2)], 4));
        }
    }

    /// After a word's last payload nothing is open that could be cut.
    #[test]
    fn a_spoilt_command_after_a_whole_message() {
        let mut list = commands(4, &[Header(2), Payload(1), Payload(2), IDLE]);
        list[3] ^= 128;
        assert_eq!(events(4, &list, 0), (vec![(message(2, &[1, 2]), 0), (Event::Cut(0), 3)], 4));
    }

    #[test]
    fn three_words_are_spoilt_once() {
        let mut list =
            commands(5, &[Header(1), Payload(1), Payload(2), Payload(3), Payload(4), Payload(5), IDLE, IDLE, IDLE]);
        list[1] ^= 1 << 19;
        assert_eq!(events(5, &list, 0), (vec![(Event::Cut(3), 0), (message(0, &[]), 6)], 9));
        for from in 3..6 {
            assert_eq!(read(5, &list, from), Read { refusal: 0, event: Event::Cut(0), begin: from, next: 6 });
        }
    }

    #[test]
    fn padding_ends_what_is_open_and_is_nothing() {
        let list = commands(5, &[Header(16), Payload(1), IDLE, Header(3), Payload(1), IDLE, Header(9), IDLE, IDLE]);
        let found = [(message(16, &[1]), 0), (Event::Cut(2), 3), (Event::Undefined(9), 6)];
        assert_eq!(events(5, &list, 0), (found.to_vec(), 9));
        assert_eq!([0, 3, 6].map(|from| read(5, &list, from).next), [3, 6, 9]);
    }

    /// The first word of a command is an event, the others are padding.
    #[test]
    fn no_operation_once_a_command() {
        let found = vec![(message(0, &[]), 0), (message(0, &[]), 3)];
        assert_eq!(events(5, &[0, 0], 0), (found.clone(), 6));
        assert_eq!(events(5, &[0, 0], 1), (found[1..].to_vec(), 6));
        assert_eq!(events(0, &[0, 0], 0).0.len(), 2);
    }

    /// A header may be any word of its command.
    #[test]
    fn messages_within_a_command() {
        let list = commands(5, &[Header(5), Header(6), Header(16), Payload(8), Header(2), Payload(1)]);
        let found = vec![(message(5, &[]), 0), (message(6, &[]), 1), (message(16, &[8]), 2), (Event::Cut(2), 4)];
        assert_eq!(events(5, &list, 0), (found, 6));
    }

    #[test]
    fn at_the_end_and_past_it() {
        for from in [2, 3, usize::MAX] {
            assert_eq!(read(0, &[0, 0], from), Read { refusal: 0, event: Event::Nothing, begin: from, next: from });
        }
        assert_eq!(read(5, &[], 0), Read { refusal: 0, event: Event::Nothing, begin: 0, next: 0 });
    }

    #[test]
    fn refusals() {
        let refusal = |mode, commands: &[u32]| {
            let read = read(mode, commands, 9);
            assert_eq!((read.event, read.begin, read.next), (Event::Nothing, 9, 9));
            read.refusal
        };
        assert_eq!([1, 3, 6, 255].map(|mode| refusal(mode, &[1 << 20])), [1; 4]);
        assert_eq!([255, 256].map(|command| refusal(0, &[0, command])), [0, 6]);
        assert_eq!([(1 << 20) - 1, 1 << 20].map(|command| refusal(5, &[0, command])), [0, 6]);
    }
}
