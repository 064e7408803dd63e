//! `SEED write`, `SEED read`, `SEED messages`: a message that is written, a list of commands that is read, and the messages of a
//! capture (cases.rs has the generator and the digest).
//!
//! Drawn: draw(4), which of the three: 0 write, 1 and 2 read, 3 messages. A command has n words and w bits: 3 and 19 in mode 5,
//! else 1 and 7. With a mode that has no commands all else is drawn as with mode 0.
//! A code: draw(7) if draw(2) is 0, else 16 + draw(16). Its words: 0, 5, 2, 4, 5, 0, 0 of codes 0 to 6, draw(8) of others.
//! A list: draw(13) parts, each by draw(10):
//!   0 to 5  a message as it is written: a code, and its words, draw(32) each
//!   6       1 + draw(3) commands, draw(2^(w+1)) each
//!   7       1 + draw(3) commands with a right parity bit, of words draw(64) each
//!   8       1 + draw(3) commands with a right parity bit, of words 0 if draw(4) is 0, draw(32) if it is 1, 32 + draw(32) if it
//!           is 2, 7 + draw(9) if it is 3
//!   9       1 + draw(3) commands 0
//!
//! write: mode = [0, 0, 0, 0, 2, 2, 2, 4, 4, 4, 5, 5, 5, 5, 5, 5, 5, 5, 5, 5, 1, 3, 6, 255][draw(24)]; a code, but if draw(4) is
//! 0, draw(40), and then rarely draw(256); its words, but if draw(4) is 0, draw(10), and then rarely 10 + draw(54); each word
//! draw(32); if draw(8) is 0 and there is one, word draw(how many) becomes 32 + draw(224). The list lent has draw(3) commands
//! more than the message needs; but if draw(4) is 0, draw(that and 1). Each is 165 before.
//! A line: `SEED write REFUSAL COUNT DIGEST`, the digest of the list lent, a command as a number.
//!
//! read: a mode as for write; a list of L commands; if there is one, by draw(4):
//!   0  nothing more
//!   1  1 + draw(3) times command draw(L) has bit draw(w + 1) flipped, 0 the lowest
//!   2  1 + draw(3) times command draw(L) gets the mark, bit w
//!   3  only the first draw(L) are kept
//! rarely, if there still is one, command draw(how many) becomes [2^(w+1), 2^32 - 1][draw(2)]. The first read is from word 0 if
//! draw(4) is 0 or 1, draw(n L + 1) if it is 2, draw(n L + 8) if it is 3, of the L that are left; but rarely 2^64 - 1 -
//! draw(4). Each next is from where the one before says, up to that of nothing, or a refused one.
//! A line: `SEED read MODE L FROM`; for each read ` REFUSAL/KIND/CODE/COUNT/BEGIN/NEXT`; ` DIGEST` of all that these say, as
//! numbers: REFUSAL, KIND, CODE, seven words, COUNT, BEGIN, NEXT; and ` DIGEST` so of a read from each word, 0 to n L.
//!
//! messages: mode = [0, 0, 2, 4, 4, 5, 5, 5, 5, 5, 1, 3][draw(12)]; E = [1, 2, 3, 256][draw(4)]; a list, of which the first 16 are
//! kept, with commands 0 after it up to two, each modulo 2^w; in modes 1 and 3 all 0. User octets are 0, and a fresh sender
//! makes a lane of it. Then kind = draw(12), the damage of damaged.rs, and a capture (listed.rs). The text lent has 12,210
//! octets; then it is lent COUNT octets, or one less if draw(2) is 1 and COUNT isn't 0. Each is 165 before.
//! A line: `SEED messages LENGTH REFUSAL COUNT DIGEST REFUSAL COUNT DIGEST`, with the length of the capture, and the digests of
//! all octets lent.

use crate::cases::{draw_extent, Input};
use crate::command::{Channel, Word, HIGHEST};
use crate::damaged;
use crate::digest::Digest;
use crate::event::{self, Event, Read};
use crate::generator::Generator;
use crate::listed::{self, Answer};
use crate::message::{self, MOST_WORDS};
use crate::messages;
use crate::mode::{mode, row, Mode, USER_OCTETS};

const MODES: [u8; 24] = [0, 0, 0, 0, 2, 2, 2, 4, 4, 4, 5, 5, 5, 5, 5, 5, 5, 5, 5, 5, 1, 3, 6, 255];
const LANE_MODES: [u8; 12] = [0, 0, 2, 4, 4, 5, 5, 5, 5, 5, 1, 3];
const BEFORE: u8 = 165;
const ROOM: usize = 12_210;
const MOST_MULTIBLOCKS: usize = 16;
const LEAST_MULTIBLOCKS: usize = 2;

/// What codes 0 to 6 ask.
const ASKED: [usize; 7] = [0, 5, 2, 4, 5, 0, 0];

/// A mode with commands, by which all else is drawn.
struct As {
    number: u8,
    mode: &'static Mode,
    channel: &'static Channel,
}

impl As {
    fn with_commands(number: u8) -> Option<As> {
        let mode = mode(number)?;
        Channel::of(mode).map(|channel| As { number, mode, channel })
    }

    fn of(number: u8) -> As {
        As::with_commands(number).or_else(|| As::with_commands(0)).expect("mode 0 has commands")
    }

    /// The first number that no command has with its mark.
    fn past(&self) -> u32 {
        self.mode.word.highest_received() + 1
    }
}

fn draw_code(generator: &mut Generator) -> u8 {
    (if generator.draw(2) == 0 { generator.draw(7) } else { 16 + generator.draw(16) }) as u8
}

/// How many words.
fn draw_asked(generator: &mut Generator, code: u8) -> usize {
    match ASKED.get(usize::from(code)) {
        Some(words) => *words,
        None => generator.draw(8),
    }
}

fn draw_payload(generator: &mut Generator, length: usize) -> Vec<u8> {
    (0..length).map(|_| generator.draw(32) as u8).collect()
}

/// A number of six bits as a word.
fn word_of(bits: usize) -> Word {
    match (bits / 32, (bits % 32) as u8) {
        (0, code) => Word::Header(code),
        (_, number) => Word::Payload(number),
    }
}

fn draw_any_word(generator: &mut Generator) -> Word {
    word_of(generator.draw(64))
}

/// One that has something to tell: idle, a header, payload, or a header that is reserved.
fn draw_telling_word(generator: &mut Generator) -> Word {
    word_of(match generator.draw(4) {
        0 => 0,
        1 => generator.draw(32),
        2 => 32 + generator.draw(32),
        _ => 7 + generator.draw(9),
    })
}

fn draw_words(generator: &mut Generator, channel: &Channel, draw_word: fn(&mut Generator) -> Word) -> u32 {
    channel.command(&(0..channel.words()).map(|_| draw_word(generator)).collect::<Vec<Word>>())
}

fn draw_message(generator: &mut Generator, drawn_as: &As) -> Vec<u32> {
    let code = draw_code(generator);
    let length = draw_asked(generator, code);
    let payload = draw_payload(generator, length);
    let mut commands = vec![0; 1 + length];
    let written = message::write(drawn_as.number, code, &payload, &mut commands);
    commands.truncate(written.count);
    commands
}

fn draw_part(generator: &mut Generator, drawn_as: &As) -> Vec<u32> {
    let kind = generator.draw(10);
    if kind < 6 {
        return draw_message(generator, drawn_as);
    }
    let count = 1 + generator.draw(3);
    let command = |_| match kind {
        6 => generator.draw(drawn_as.past() as usize) as u32,
        7 => draw_words(generator, drawn_as.channel, draw_any_word),
        8 => draw_words(generator, drawn_as.channel, draw_telling_word),
        _ => 0,
    };
    (0..count).map(command).collect()
}

fn draw_list(generator: &mut Generator, drawn_as: &As) -> Vec<u32> {
    let parts = generator.draw(13);
    (0..parts).flat_map(|_| draw_part(generator, drawn_as)).collect()
}

fn draw_written_code(generator: &mut Generator) -> u8 {
    let mut code = draw_code(generator);
    if generator.draw(4) == 0 {
        code = generator.draw(40) as u8;
    }
    if generator.rarely() {
        code = generator.draw_octet();
    }
    code
}

fn draw_written_payload(generator: &mut Generator, code: u8) -> Vec<u8> {
    let mut length = draw_asked(generator, code);
    if generator.draw(4) == 0 {
        length = generator.draw(10);
    }
    if generator.rarely() {
        length = 10 + generator.draw(54);
    }
    let mut payload = draw_payload(generator, length);
    if generator.draw(8) == 0 && length > 0 {
        let place = generator.draw(length);
        payload[place] = HIGHEST + 1 + generator.draw(224) as u8;
    }
    payload
}

fn write(generator: &mut Generator) -> String {
    let number = generator.one_of(&MODES);
    let code = draw_written_code(generator);
    let payload = draw_written_payload(generator, code);
    let needed = (1 + payload.len()).div_ceil(As::of(number).channel.words());
    let room = needed + generator.draw(3);
    let room = if generator.draw(4) == 0 { generator.draw(needed + 1) } else { room };
    let mut commands = vec![u32::from(BEFORE); room];
    let written = message::write(number, code, &payload, &mut commands);
    let digest = commands.iter().fold(Digest::empty(), |digest, command| digest.with_number(u64::from(*command)));
    format!("write {} {} {}", written.refusal, written.count, digest.hexadecimal())
}

fn damage_list(generator: &mut Generator, drawn_as: &As, commands: &mut Vec<u32>) {
    let (length, bits) = (commands.len(), drawn_as.mode.word.command_bits as usize);
    match generator.draw(4) {
        1 => {
            for _ in 0..1 + generator.draw(3) {
                let place = generator.draw(length);
                commands[place] ^= 2_u32.pow(generator.draw(bits + 1) as u32);
            }
        }
        2 => {
            for _ in 0..1 + generator.draw(3) {
                commands[generator.draw(length)] |= 2_u32.pow(bits as u32);
            }
        }
        3 => commands.truncate(generator.draw(length)),
        _ => (),
    }
}

fn draw_damaged_list(generator: &mut Generator, drawn_as: &As) -> Vec<u32> {
    let mut commands = draw_list(generator, drawn_as);
    if !commands.is_empty() {
        damage_list(generator, drawn_as, &mut commands);
    }
    if generator.rarely() && !commands.is_empty() {
        let place = generator.draw(commands.len());
        commands[place] = generator.one_of(&[drawn_as.past(), u32::MAX]);
    }
    commands
}

fn draw_from(generator: &mut Generator, words: usize) -> usize {
    let from = match generator.draw(4) {
        2 => generator.draw(words + 1),
        3 => generator.draw(words + 8),
        _ => 0,
    };
    if generator.rarely() {
        usize::MAX - generator.draw(4)
    } else {
        from
    }
}

/// What a read says, as a caller in C has it; what an event hasn't is 0.
struct Said {
    kind: u8,
    code: u8,
    words: [u8; MOST_WORDS],
    count: usize,
}

impl Said {
    fn of(event: &Event) -> Said {
        let nothing = Said { kind: 0, code: 0, words: [0; MOST_WORDS], count: 0 };
        match event {
            Event::Nothing => nothing,
            Event::Message { code, words } => {
                let mut all = [0; MOST_WORDS];
                all[..words.len()].copy_from_slice(words);
                Said { kind: 1, code: *code, words: all, count: words.len() }
            }
            Event::Cut(count) => Said { kind: 2, count: *count, ..nothing },
            Event::Undefined(code) => Said { kind: 3, code: *code, ..nothing },
        }
    }
}

fn with_read(digest: Digest, Read { refusal, event, begin, next }: &Read) -> Digest {
    let Said { kind, code, words, count } = Said::of(event);
    let octets = [*refusal, kind, code].into_iter().chain(words).map(u64::from);
    octets.chain([count, *begin, *next].map(|number| number as u64)).fold(digest, Digest::with_number)
}

fn read_text(Read { refusal, event, begin, next }: &Read) -> String {
    let Said { kind, code, count, .. } = Said::of(event);
    format!(" {refusal}/{kind}/{code}/{count}/{begin}/{next}")
}

fn read(generator: &mut Generator) -> String {
    let number = generator.one_of(&MODES);
    let drawn_as = As::of(number);
    let commands = draw_damaged_list(generator, &drawn_as);
    let words = drawn_as.channel.words() * commands.len();
    let from = draw_from(generator, words);
    let reads = event::reads(number, &commands, from);
    let from_each: Vec<Read> = (0..=words).map(|place| event::read(number, &commands, place)).collect();
    let digests = [&reads, &from_each].map(|reads| reads.iter().fold(Digest::empty(), with_read).hexadecimal());
    let texts: String = reads.iter().map(read_text).collect();
    format!("read {number} {} {from}{texts} {}", commands.len(), digests.join(" "))
}

fn draw_sent_commands(generator: &mut Generator, number: u8) -> Vec<u32> {
    let mut commands = draw_list(generator, &As::of(number));
    commands.truncate(MOST_MULTIBLOCKS);
    commands.resize(commands.len().max(LEAST_MULTIBLOCKS), 0);
    commands.iter().map(|command| command % (row(number).word.highest_command() + 1)).collect()
}

fn draw_capture(generator: &mut Generator) -> Vec<u8> {
    let mode = generator.one_of(&LANE_MODES);
    let e = draw_extent(generator);
    let commands = draw_sent_commands(generator, mode);
    let multiblocks = commands.len();
    let input = Input { mode, e, user: vec![0; USER_OCTETS * multiblocks], commands };
    let kind = generator.draw(12);
    let lane = damaged::damage(generator, kind, row(mode), multiblocks, input.lane());
    listed::draw_capture(generator, mode, e, lane)
}

fn messages(generator: &mut Generator) -> String {
    let capture = draw_capture(generator);
    let lines = messages::lines(&capture);
    let first = Answer::of(&lines, ROOM);
    let again = Answer::of(&lines, first.count.saturating_sub(generator.draw(2)));
    format!("messages {} {} {}", capture.len(), first.printed(), again.printed())
}

fn case(seed: u64) -> String {
    let mut generator = Generator::seeded(seed);
    match generator.draw(4) {
        0 => write(&mut generator),
        1 | 2 => read(&mut generator),
        _ => messages(&mut generator),
    }
}

pub fn line(seed: u64) -> String {
    format!("{seed} {}", case(seed))
}

#[cfg(test)]
mod tests {
    use super::case;
    use std::sync::LazyLock;

    /// What the cases of these seeds print.
    static LINES: LazyLock<Vec<Vec<String>>> =
        LazyLock::new(|| (1..=6_000).map(|seed| case(seed).split(' ').map(str::to_string).collect()).collect());

    /// Lines of a call whose word of that place begins so.
    fn count(call: &str, place: usize, begins: &str) -> usize {
        LINES.iter().filter(|words| words[0] == call && words[place].starts_with(begins)).count()
    }

    #[test]
    fn every_call_is_accepted_and_refused_by_each_number() {
        for refusal in [0, 1, 6, 7, 10, 11] {
            assert!(LINES.iter().filter(|words| words[0] == "write" && words[1] == refusal.to_string()).count() > 20);
        }
        for refusal in [0, 1, 6] {
            assert!(count("read", 4, &format!("{refusal}/")) > 20);
        }
        for refusal in [0, 1, 2, 4, 8] {
            assert!(count("messages", 2, &refusal.to_string()) > 20);
        }
        assert!(count("messages", 5, "7") > 200 && count("messages", 5, "0") > 200);
    }

    /// How often a list of a mode had an event that begins so.
    fn events(mode: &str, begins: &str) -> usize {
        let of_mode = LINES.iter().filter(|words| words[0] == "read" && words[1] == mode);
        of_mode.flat_map(|words| &words[4..]).filter(|event| event.starts_with(begins)).count()
    }

    #[test]
    fn every_event_comes_often() {
        for mode in ["0", "2", "4", "5"] {
            assert!(["0/0/", "0/1/", "0/2/", "0/3/"].iter().all(|event| events(mode, event) > 50));
        }
    }

    /// A message that is cut has its header too. In mode 5 most are cut where a command begins.
    #[test]
    fn messages_and_cuts_of_every_length() {
        for (mode, cuts) in [("0", &[0, 1, 2, 3, 4, 5, 6, 7][..]), ("5", &[0, 1, 2, 3, 4, 6])] {
            let user_defined = |length| (16..32).any(|code| events(mode, &format!("0/1/{code}/{length}/")) > 0);
            assert!((0..=7).all(user_defined));
            assert!(cuts.iter().all(|words| events(mode, &format!("0/2/0/{words}/")) > 0));
        }
    }
}
