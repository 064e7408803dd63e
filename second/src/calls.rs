//! `SEED send`, `SEED receive`, `SEED step`, `SEED longest`: one call with any state and any lengths, most of them in range
//! (cases.rs has the generator and the digest). States are numbers here, as a caller in C hands them: a flag that is
//! neither 0 nor 1 and a phase above 2 are out of range.
//!
//! Drawn: draw(4), which call of the four. Then, in order:
//! mode = [0, 0, 0, 0, 1, 1, 1, 2, 2, 2, 2, 3, 3, 3, 4, 4, 4, 4, 4, 5, 5, 5, 6, 255][draw(24)] and E = [1, 2, 3, 4, 256, 255,
//! 257, 0][draw(8)], where the call has them. With a mode that there isn't, all else is drawn as with mode 1.
//! A history: three draws, of 19, 20 and 19 bits, the first highest; rarely 2^58 more.
//! A count of multiblocks: draw(4); but if draw(32), drawn first, is 0, 239 + draw(3), or 199 + draw(3) in modes 2 and 3.
//!
//! send: a history; a parity of w bits, w being 12 in modes 0 and 2, 3 in mode 4, 0 in mode 5 and 26 in others: draw(2^w), but
//! of 26 bits two draws of 13 bits, the first highest; rarely 2^w more; a number, draw(E), 0 for E 0; rarely E more; a fill,
//! draw(2^17) in modes 2 and 3, in others 0, but if draw(8) is 0 then [0, 1, 131070, 131071, 131072, 4294967295][draw(6)]; a
//! count; 256 user octets for each, rarely 1 + draw(255) more; a command for each, rarely one more, draw(2^c) each of c bits,
//! c being 7 in modes 0, 2 and 4 and 19 in mode 5, in others 0; rarely, if there is one, command draw(how many) becomes 2^c,
//! in others 1; a lane of 264 octets for each, or 320, and draw(16), rarely 1 less than for each.
//!
//! receive: waiting = [0, 0, 0, 1, 1, 1, 1, 1][draw(8)], rarely 2; trusted = draw(2), rarely 2; a history; a command,
//! draw(2^(c+1)) where there are commands, rarely 2^(c+1) more, in others 0, rarely 1; 256 octets; invalid = draw(33), but if
//! draw(4) is 0 then [0, 32, 33, 255][draw(4)]; own = draw(512) in mode 4, in others 0, but if draw(8) is 0 then [0, 1, 511,
//! 512, 65535][draw(5)]; sound, repaired and failed, each: if draw(2) is 0 then [0, 1, 4294967293, 4294967294,
//! 4294967295][draw(5)], or else two draws of 16 bits, the first highest. With nothing waiting, draw(15): 0 keeps all, 1 only
//! the history, 2 the command, 3 trusted, 4 the octets, 5 invalid, 6 own, 7 sound, 8 repaired, 9 failed, others none; what
//! isn't kept becomes 0. A count of multiblocks; 264 lane octets for each, rarely 1 + draw(263) more, or 320 and 1 + draw(319).
//! Lent: 256 octets for each and draw(16), and five lists, one for each and draw(3); if draw(8) is 0, number draw(6) of these
//! six is 1 less than for each.
//!
//! step: locked = [0, 1, 1, 1, 1, 1, 1, 1][draw(8)], rarely 2; offset = draw(66), rarely 66 more, or draw(80) and 80 more in
//! modes 2 and 3; run = draw(64), rarely 64 more; bad = draw(16) if locked is 1, rarely 16 more; phase = draw(3), rarely 3; seen = [0, 5, 31, 32, 32, 32, 32,
//! 32][draw(8)], rarely 33; headers, two draws of 16 bits, the first highest; if draw(2) is 0, their last four bits become 0
//! and bit 8 becomes 1; but rarely, only the lowest `seen` bits are kept; good = 1 + draw(3) if phase is 1, rarely 4 more;
//! bad = draw(8) if phase is 2, rarely 8 more; next = 1 if phase is 1 or 2 and draw(2) is 0, or else 1 + draw(32 E); rarely
//! 32 E more (of E 0 as of 1); kept = 0 if phase isn't 1 or draw(2) is 0, or else, if draw(2) is 0, 1, but 2 if next is 1,
//! or else 1 + (next + draw(32 E - 1)) mod 32 E, which isn't next; then, one after another, rarely next instead, rarely 1
//! more, rarely 32 E more. With locked 0, if draw(4) isn't 0, all of extended lock becomes 0. The header is draw(4),
//! rarely 4 more.
//!
//! longest: draw(12) statuses, [0, 0, 0, 0, 1, 1, 1, 2, 3, 4, 5, 255][draw(12)] each; 256 octets for each, rarely 1 + draw(255)
//! more, rarely 256 more. The octets are 0.
//!
//! Every number lent to be written is 165 before. Lines: `SEED send REFUSAL COUNT HISTORY PARITY NUMBER FILL DIGEST`, the
//! digest of the lane; `SEED receive REFUSAL COUNT WAITING HISTORY TRUSTED COMMAND INVALID OWN SOUND REPAIRED FAILED DIGEST
//! DIGEST`, the digests of the state's octets and of all that was lent, commands, places and patterns as 8 octets each; `SEED
//! step REFUSAL` and the fields of the state (locks.rs); `SEED longest REFUSAL START COUNT`.

use crate::bits;
use crate::digest::Digest;
use crate::generator::Generator;
use crate::lock::{self, ExtendedLock, HeaderLock, Lock, Phase};
use crate::longest;
use crate::mode::{is_extent, mode, row, Mode, BLOCKS, USER_OCTETS};
use crate::receiver::{self, Counts, Lent, Receiver};
use crate::sender::{self, Sender};

const MODES: [u8; 24] = [0, 0, 0, 0, 1, 1, 1, 2, 2, 2, 2, 3, 3, 3, 4, 4, 4, 4, 4, 5, 5, 5, 6, 255];
const EXTENTS: [u32; 8] = [1, 2, 3, 4, 256, 255, 257, 0];
const FILLS: [u32; 6] = [0, 1, 131_070, 131_071, 131_072, u32::MAX];
const OWNS: [u16; 5] = [0, 1, 511, 512, u16::MAX];
const COUNTS: [u32; 5] = [0, 1, u32::MAX - 2, u32::MAX - 1, u32::MAX];
const BEFORE: u8 = 165;

/// The row that is drawn by.
fn drawn_as(number: u8) -> &'static Mode {
    mode(number).unwrap_or(row(1))
}

/// So much, but rarely more.
fn or_more(generator: &mut Generator, number: u32, more: u32) -> u32 {
    if generator.rarely() {
        number + more
    } else {
        number
    }
}

/// One of these, but rarely that.
fn or_rather(generator: &mut Generator, these: &[u32], that: u32) -> u32 {
    let number = generator.one_of(these);
    if generator.rarely() {
        that
    } else {
        number
    }
}

fn draw_number(generator: &mut Generator, below: u32) -> u32 {
    generator.draw(below as usize) as u32
}

fn draw_history(generator: &mut Generator) -> u64 {
    let parts = [19, 20, 19].map(|bits| (bits, generator.draw(1 << bits) as u64));
    let history = parts.iter().fold(0, |history, (bits, part)| history << bits | part);
    if generator.rarely() {
        history + (1 << 58)
    } else {
        history
    }
}

fn draw_count(generator: &mut Generator, mode: &Mode) -> usize {
    if generator.draw(32) == 0 {
        mode.most - 1 + generator.draw(3)
    } else {
        generator.draw(4)
    }
}

/// Octets of a number of whole parts, but rarely with a part of one more.
fn draw_parts(generator: &mut Generator, part: usize, count: usize) -> Vec<u8> {
    let more = if generator.rarely() { 1 + generator.draw(part - 1) } else { 0 };
    generator.draw_octets(part * count + more)
}

fn draw_parity(generator: &mut Generator, mode: &Mode) -> u32 {
    let parity = match mode.word.code.width() {
        26 => draw_number(generator, 1 << 13) << 13 | draw_number(generator, 1 << 13),
        width => draw_number(generator, 1 << width),
    };
    or_more(generator, parity, 1 << mode.word.code.width())
}

/// Any of 17 bits where there are fill bits, but often at the edge of its range or past that.
fn draw_fill(generator: &mut Generator, mode: &Mode) -> u32 {
    let any = if mode.gap == 0 { 0 } else { draw_number(generator, 1 << 17) };
    if generator.draw(8) == 0 {
        generator.one_of(&FILLS)
    } else {
        any
    }
}

fn draw_state(generator: &mut Generator, mode: &Mode, e: u32) -> Sender {
    let history = draw_history(generator);
    let parity = draw_parity(generator, mode);
    let number = draw_number(generator, e.max(1));
    let number = or_more(generator, number, e);
    Sender { history, parity, number, fill: draw_fill(generator, mode) }
}

fn draw_commands(generator: &mut Generator, mode: &Mode, count: usize) -> Vec<u32> {
    let length = count + usize::from(generator.rarely());
    let most = mode.word.highest_command();
    let command = |_| if most == 0 { 0 } else { draw_number(generator, most + 1) };
    let mut commands: Vec<u32> = (0..length).map(command).collect();
    if generator.rarely() && length > 0 {
        commands[generator.draw(length)] = most + 1;
    }
    commands
}

fn send(generator: &mut Generator) -> String {
    let number = generator.one_of(&MODES);
    let mode = drawn_as(number);
    let e = generator.one_of(&EXTENTS);
    let state = draw_state(generator, mode, e);
    let count = draw_count(generator, mode);
    let user = draw_parts(generator, USER_OCTETS, count);
    let commands = draw_commands(generator, mode, count);
    let whole = mode.lane_octets() * count;
    let room = whole + generator.draw(16);
    let room = if generator.rarely() { whole.saturating_sub(1) } else { room };
    let mut lane = vec![BEFORE; room];
    let sent = sender::send(number, e, state, &user, &commands, &mut lane);
    let Sender { history, parity, number, fill } = sent.state;
    let digest = Digest::of(&lane).hexadecimal();
    format!("send {} {} {history} {parity} {number} {fill} {digest}", sent.refusal, sent.count)
}

/// A receiver's state as numbers.
#[derive(Clone)]
struct Given {
    waiting: u32,
    trusted: u32,
    history: u64,
    command: u32,
    octets: Vec<u8>,
    invalid: u8,
    own: u16,
    counts: Counts,
}

/// In range, but often at the edge of it or past that.
fn draw_invalid(generator: &mut Generator) -> u8 {
    let any = generator.draw(BLOCKS + 1) as u8;
    if generator.draw(4) == 0 {
        generator.one_of(&[0, 32, 33, 255])
    } else {
        any
    }
}

/// Any of its bits where there are some, but often at the edge of its range or past that.
fn draw_own(generator: &mut Generator, mode: &Mode) -> u16 {
    let bits = mode.word.code.own_width();
    let any = if bits == 0 { 0 } else { generator.draw(1 << bits) as u16 };
    if generator.draw(8) == 0 {
        generator.one_of(&OWNS)
    } else {
        any
    }
}

/// The least, the greatest and those near it, or any of 32 bits.
fn draw_releases(generator: &mut Generator) -> u32 {
    if generator.draw(2) == 0 {
        generator.one_of(&COUNTS)
    } else {
        draw_number(generator, 1 << 16) << 16 | draw_number(generator, 1 << 16)
    }
}

fn draw_counts(generator: &mut Generator) -> Counts {
    let [sound, repaired, failed] = [(); 3].map(|()| draw_releases(generator));
    Counts { sound, repaired, failed }
}

impl Given {
    fn draw_any(generator: &mut Generator, mode: &Mode) -> Given {
        let waiting = or_rather(generator, &[0, 0, 0, 1, 1, 1, 1, 1], 2);
        let trusted = or_rather(generator, &[0, 1], 2);
        let history = draw_history(generator);
        let past = mode.word.highest_received() + 1;
        let command = if past == 1 { 0 } else { draw_number(generator, past) };
        let command = or_more(generator, command, past);
        let octets = generator.draw_octets(USER_OCTETS);
        let invalid = draw_invalid(generator);
        let own = draw_own(generator, mode);
        Given { waiting, trusted, history, command, octets, invalid, own, counts: draw_counts(generator) }
    }

    fn draw(generator: &mut Generator, mode: &Mode) -> Given {
        let any = Given::draw_any(generator, mode);
        let none = Given::of(&Receiver::fresh());
        if any.waiting != 0 {
            return any;
        }
        let counts = Counts::default();
        match generator.draw(15) {
            0 => any,
            1 => Given { history: any.history, ..none },
            2 => Given { command: any.command, ..none },
            3 => Given { trusted: any.trusted, ..none },
            4 => Given { octets: any.octets, ..none },
            5 => Given { invalid: any.invalid, ..none },
            6 => Given { own: any.own, ..none },
            7 => Given { counts: Counts { sound: any.counts.sound, ..counts }, ..none },
            8 => Given { counts: Counts { repaired: any.counts.repaired, ..counts }, ..none },
            9 => Given { counts: Counts { failed: any.counts.failed, ..counts }, ..none },
            _ => none,
        }
    }

    /// The state that they stand for, if each flag is one.
    fn state(&self) -> Option<Receiver> {
        let octets = self.octets[..].try_into().ok()?;
        let state = Receiver {
            waiting: self.waiting == 1,
            octets,
            history: self.history,
            trusted: self.trusted == 1,
            command: self.command,
            invalid: self.invalid,
            own: self.own,
            counts: self.counts,
        };
        Some(state).filter(|_| self.waiting < 2 && self.trusted < 2)
    }

    fn of(state: &Receiver) -> Given {
        Given {
            waiting: u32::from(state.waiting),
            trusted: u32::from(state.trusted),
            history: state.history,
            command: state.command,
            octets: state.octets.to_vec(),
            invalid: state.invalid,
            own: state.own,
            counts: state.counts,
        }
    }
}

fn draw_lent(generator: &mut Generator, count: usize) -> Lent {
    let mut rooms = [USER_OCTETS * count + generator.draw(16), 0, 0, 0, 0, 0];
    for room in &mut rooms[1..] {
        *room = count + generator.draw(3);
    }
    if generator.draw(8) == 0 {
        let which = generator.draw(6);
        rooms[which] = (if which == 0 { USER_OCTETS * count } else { count }).saturating_sub(1);
    }
    Lent {
        octets: vec![BEFORE; rooms[0]],
        statuses: vec![BEFORE; rooms[1]],
        commands: vec![u32::from(BEFORE); rooms[2]],
        places: vec![u16::from(BEFORE); rooms[3]],
        patterns: vec![u16::from(BEFORE); rooms[4]],
        invalid: vec![BEFORE; rooms[5]],
    }
}

fn digest_of(lent: &Lent) -> Digest {
    let octets = Digest::of(&lent.octets).with(&lent.statuses);
    let commands = lent.commands.iter().map(|command| u64::from(*command));
    let bursts = lent.places.iter().chain(&lent.patterns).map(|number| u64::from(*number));
    commands.chain(bursts).fold(octets, Digest::with_number).with(&lent.invalid)
}

/// What came of a call of the receiver.
struct Outcome {
    refusal: u8,
    count: usize,
    after: Given,
    lent: Lent,
}

/// The mode and the state of a call.
fn draw_given(generator: &mut Generator) -> (u8, Given) {
    let number = generator.one_of(&MODES);
    (number, Given::draw(generator, drawn_as(number)))
}

fn received(generator: &mut Generator, number: u8, given: &Given) -> Outcome {
    let drawn_as = drawn_as(number);
    let count = draw_count(generator, drawn_as);
    let lane = draw_parts(generator, drawn_as.lane_octets(), count);
    let mut lent = draw_lent(generator, count);
    let (refusal, count, after) = match given.state() {
        Some(state) => {
            let received = receiver::receive(number, state, &lane, &mut lent);
            (received.refusal, received.count, Given::of(&received.state))
        }
        None => (if mode(number).is_some() { 3 } else { 1 }, 0, given.clone()),
    };
    Outcome { refusal, count, after, lent }
}

fn receive(generator: &mut Generator) -> String {
    let (number, given) = draw_given(generator);
    let Outcome { refusal, count, after, lent } = received(generator, number, &given);
    let Given { waiting, trusted, history, command, octets, invalid, own, counts } = after;
    let Counts { sound, repaired, failed } = counts;
    let digests = [Digest::of(&octets), digest_of(&lent)].map(Digest::hexadecimal).join(" ");
    let waits = format!("{waiting} {history} {trusted} {command} {invalid} {own}");
    format!("receive {refusal} {count} {waits} {sound} {repaired} {failed} {digests}")
}

/// The fields of both locks, in the order of `Lock::numbers`.
type Numbers = [u32; 11];

fn draw_headers(generator: &mut Generator, seen: u32) -> u32 {
    let any = draw_number(generator, 1 << 16) << 16 | draw_number(generator, 1 << 16);
    let headers = if generator.draw(2) == 0 { any / 16 * 16 | 256 } else { any };
    if generator.rarely() {
        headers
    } else {
        (u64::from(headers) % (1 << seen)) as u32
    }
}

fn draw_next(generator: &mut Generator, phase: u32, period: u32) -> u32 {
    if phase != 1 && phase != 2 {
        0
    } else if generator.draw(2) == 0 {
        1
    } else {
        1 + draw_number(generator, period)
    }
}

/// Mostly one that is accepted beside the next look, 0 for none.
fn draw_kept(generator: &mut Generator, phase: u32, next: u32, period: u32) -> u32 {
    if phase != 1 || generator.draw(2) == 0 {
        0
    } else if generator.draw(2) == 0 {
        1 + u32::from(next == 1)
    } else {
        1 + (next + draw_number(generator, period - 1)) % period
    }
}

fn draw_lock(generator: &mut Generator, mode: &Mode, e: u32) -> Numbers {
    let period = 32 * e.max(1);
    let locked = or_rather(generator, &[0, 1, 1, 1, 1, 1, 1, 1], 2);
    let bits = mode.block_bits() as u32;
    let offset = draw_number(generator, bits);
    let offset = or_more(generator, offset, bits);
    let run = draw_number(generator, 64);
    let run = or_more(generator, run, 64);
    let bad = if locked == 1 { draw_number(generator, 16) } else { 0 };
    let bad = or_more(generator, bad, 16);
    let phase = or_rather(generator, &[0, 1, 2], 3);
    let seen = or_rather(generator, &[0, 5, 31, 32, 32, 32, 32, 32], 33);
    let headers = draw_headers(generator, seen);
    let good = if phase == 1 { 1 + draw_number(generator, 3) } else { 0 };
    let good = or_more(generator, good, 4);
    let missed = if phase == 2 { draw_number(generator, 8) } else { 0 };
    let missed = or_more(generator, missed, 8);
    let next = draw_next(generator, phase, period);
    let next = or_more(generator, next, period);
    let kept = draw_kept(generator, phase, next, period);
    let kept = if generator.rarely() { next } else { kept };
    let kept = or_more(generator, kept, 1);
    let kept = or_more(generator, kept, period);
    if locked == 0 && generator.draw(4) != 0 {
        return [locked, offset, run, bad, 0, 0, 0, 0, 0, 0, 0];
    }
    [locked, offset, run, bad, phase, seen, headers, good, missed, next, kept]
}

/// The locks that numbers stand for, if the flag and the phase are one.
fn lock_of(numbers: Numbers) -> Option<Lock> {
    let [locked, offset, run, bad, phase, seen, headers, good, missed, next, kept] = numbers;
    let phase = *[Phase::Hunting, Phase::Following, Phase::Locked].get(phase as usize)?;
    let headers: [bool; BLOCKS] = bits::of_number(u64::from(headers), BLOCKS).try_into().ok()?;
    let header = HeaderLock { locked: locked == 1, offset, run, bad };
    let extended = ExtendedLock { phase, seen, headers, good, bad: missed, next, kept };
    Some(Lock { header, extended }).filter(|_| locked < 2)
}

fn step(generator: &mut Generator) -> String {
    let number = generator.one_of(&MODES);
    let e = generator.one_of(&EXTENTS);
    let numbers = draw_lock(generator, drawn_as(number), e);
    let header = draw_number(generator, 4);
    let header = or_more(generator, header, 4) as u8;
    let (refusal, after) = match lock_of(numbers) {
        Some(lock) => {
            let stepped = lock::step(number, e, lock, header);
            (stepped.refusal, stepped.lock.numbers())
        }
        None if mode(number).is_none() => (1, numbers.map(u64::from)),
        None => (if is_extent(e) { 3 } else { 2 }, numbers.map(u64::from)),
    };
    format!("step {refusal} {}", after.map(|number| number.to_string()).join(" "))
}

fn longest(generator: &mut Generator) -> String {
    let count = generator.draw(12);
    let statuses: Vec<u8> = (0..count).map(|_| generator.one_of(&[0, 0, 0, 0, 1, 1, 1, 2, 3, 4, 5, 255])).collect();
    let more = if generator.rarely() { 1 + generator.draw(255) } else { 0 };
    let octets = vec![0; USER_OCTETS * (count + usize::from(generator.rarely())) + more];
    let refusal = longest::longest_run(&octets, &statuses).refusal;
    let (start, count) = if refusal == 0 { longest::span(&statuses) } else { (0, 0) };
    format!("longest {refusal} {start} {count}")
}

fn call(seed: u64) -> String {
    let mut generator = Generator::seeded(seed);
    match generator.draw(4) {
        0 => send(&mut generator),
        1 => receive(&mut generator),
        2 => step(&mut generator),
        _ => longest(&mut generator),
    }
}

pub fn line(seed: u64) -> String {
    format!("{seed} {}", call(seed))
}

#[cfg(test)]
mod tests {
    use super::{call, draw_given, received, Given, Outcome};
    use crate::generator::Generator;
    use crate::receiver::Receiver;
    use std::collections::HashMap;
    use std::sync::LazyLock;

    /// What the cases of these seeds print.
    static LINES: LazyLock<Vec<String>> = LazyLock::new(|| (1..=12_000).map(call).collect());

    #[test]
    fn every_call_is_accepted_and_refused_by_each_number() {
        let mut seen: HashMap<(String, String), usize> = HashMap::new();
        for line in LINES.iter() {
            let mut words = line.split(' ').map(str::to_string);
            *seen.entry((words.next().unwrap(), words.next().unwrap())).or_default() += 1;
        }
        let numbers =
            [("send", &[0, 1, 2, 3, 4, 5, 6, 7][..]), ("receive", &[0, 1, 3, 4, 5, 7]), ("step", &[0, 1, 2, 3, 9])];
        for (name, refusals) in numbers.iter().chain(&[("longest", &[0, 4][..])]) {
            for refusal in *refusals {
                let count = seen.get(&(name.to_string(), refusal.to_string())).copied().unwrap_or(0);
                assert!(count > 2, "{name} refused by {refusal}: {count}");
            }
        }
    }

    /// A refused state comes back as it was given, and an accepted empty call's too: FILL is word 6 of the line.
    #[test]
    fn fills_are_refused_from_their_edge_on() {
        let count = |start: &str, fill: &str| {
            let of_start = LINES.iter().filter(|line| line.starts_with(start));
            of_start.filter(|line| line.split(' ').nth(6) == Some(fill)).count()
        };
        assert!(["1", "131070", "131071", "131072", "4294967295"].iter().all(|fill| count("send 3 0 ", fill) > 2));
        assert!(count("send 0 0 ", "131070") > 0 && count("send 0 0 ", "1") > 0);
        assert!(["131071", "131072", "4294967295"].iter().all(|fill| count("send 0 ", fill) == 0));
    }

    /// A refused state comes back as it was given: WAITING is word 3 of the line, INVALID word 7.
    #[test]
    fn numbers_of_invalid_headers_are_refused() {
        let refused: Vec<&String> = LINES.iter().filter(|line| line.starts_with("receive 3 ")).collect();
        let given = |line: &&String| {
            let words: Vec<&str> = line.split(' ').collect();
            (words[3] == "0", words[7].parse::<u8>().unwrap())
        };
        let count = |holds: fn(bool, u8) -> bool| refused.iter().map(given).filter(|(no, k)| holds(*no, *k)).count();
        assert!(count(|_, invalid| invalid == 33) > 2 && count(|_, invalid| invalid == 255) > 2);
        assert!(count(|nothing_waits, invalid| nothing_waits && (1..=32).contains(&invalid)) > 2);
    }

    /// A refused state comes back as it was given, and an accepted empty call's too: COUNT is word 2 of the line, OWN word 8.
    #[test]
    fn own_parities_are_refused_from_their_edge_on() {
        let count = |start: &str, own: &str| {
            let of_start = LINES.iter().filter(|line| line.starts_with(start));
            of_start.filter(|line| line.split(' ').nth(8) == Some(own)).count()
        };
        assert!(["1", "511", "512", "65535"].iter().all(|own| count("receive 3 0 ", own) > 2));
        assert!(["1", "511"].iter().all(|own| count("receive 0 0 ", own) > 0));
        assert!(["512", "65535"].iter().all(|own| count("receive 0 ", own) == 0));
    }

    /// The receiver's calls of these seeds: the state given, and what came of it.
    static RECEIVED: LazyLock<Vec<(Given, Outcome)>> = LazyLock::new(|| {
        let of_receiver = (1..=12_000).map(Generator::seeded).filter_map(|mut generator| {
            (generator.draw(4) == 1).then(|| {
                let (number, given) = draw_given(&mut generator);
                let outcome = received(&mut generator, number, &given);
                (given, outcome)
            })
        });
        of_receiver.collect()
    });

    fn numbers(state: &Given) -> [u32; 3] {
        [state.counts.sound, state.counts.repaired, state.counts.failed]
    }

    /// Releases with status 0 or 4, 1 or 5, 2 or 6.
    fn kinds(outcome: &Outcome) -> [u32; 3] {
        let statuses = &outcome.lent.statuses[..outcome.count];
        [0, 1, 2].map(|kind| statuses.iter().filter(|status| [kind, kind + 4].contains(status)).count() as u32)
    }

    /// A count stops on its way: below 4,294,967,295 before the call, and there with more released than that takes. Each count
    /// stays there, and each goes on where there is room. Drawn octets are seldom mended, so that of `repaired` no case of
    /// these seeds stops on its way: the tests of receiver.rs and runs/receiver.txt have that.
    #[test]
    fn counts_reach_the_greatest_number() {
        let (mut stop, mut stay, mut go_on) = ([0; 3], [0; 3], [0; 3]);
        for (given, outcome) in RECEIVED.iter() {
            let (before, after) = (numbers(given), numbers(&outcome.after));
            for (kind, more) in kinds(outcome).into_iter().enumerate() {
                let exact = u64::from(before[kind]) + u64::from(more);
                assert_eq!(u64::from(after[kind]), exact.min(4_294_967_295));
                stay[kind] += usize::from(more > 0 && before[kind] == u32::MAX);
                stop[kind] += usize::from(before[kind] < u32::MAX && exact > 4_294_967_295);
                go_on[kind] += usize::from(more > 0 && exact < 4_294_967_295);
            }
        }
        assert!(stay.iter().chain(&go_on).all(|cases| *cases > 0), "{stay:?} {go_on:?}");
        assert!(stop[0] > 2 && stop[2] > 2, "{stop:?}");
    }

    /// Nothing waits, and of all numbers but this count each is 0.
    fn is_alone(kind: usize, given: &Given) -> bool {
        let none = Given::of(&Receiver::fresh());
        let others = [given.waiting, given.trusted, given.command, given.invalid.into(), given.own.into()];
        let counts = numbers(given).into_iter().enumerate();
        let zero = others == [0; 5] && given.history == 0 && given.octets == none.octets;
        zero && counts.filter(|(_, count)| *count > 0).map(|(k, _)| k).eq([kind])
    }

    /// With nothing waiting each count alone is refused by 3, at 1, at the greatest number and between; with one waiting the
    /// greatest is accepted of each.
    #[test]
    fn counts_are_refused_with_nothing_waiting() {
        for kind in 0..3 {
            let alone: Vec<_> = RECEIVED.iter().filter(|(given, _)| is_alone(kind, given)).collect();
            assert!(alone.iter().all(|(_, outcome)| [1, 3].contains(&outcome.refusal)));
            let refused = alone.iter().filter(|(_, outcome)| outcome.refusal == 3);
            let counts: Vec<u32> = refused.map(|(given, _)| numbers(given)[kind]).collect();
            assert!([1, u32::MAX].iter().all(|edge| counts.contains(edge)));
            assert!(counts.iter().any(|count| (2..u32::MAX - 2).contains(count)));
            let accepted = RECEIVED.iter().filter(|(_, outcome)| outcome.refusal == 0);
            assert!(accepted.filter(|(given, _)| numbers(given)[kind] == u32::MAX).count() > 9);
        }
    }

    /// A refused state comes back as it was given: PARITY is word 4 of the line of a sender, COMMAND word 6 of a receiver's.
    #[test]
    fn parities_and_commands_reach_the_edges_of_modes_4_and_5() {
        let count = |start: &str, word: usize, holds: fn(u32) -> bool| {
            let of_start = LINES.iter().filter(|line| line.starts_with(start));
            of_start
                .filter(|line| line.split(' ').nth(word).is_some_and(|number| number.parse().is_ok_and(holds)))
                .count()
        };
        assert!(count("send 3 0 ", 4, |parity| (8..16).contains(&parity)) > 2);
        assert!(count("send 3 0 ", 4, |parity| parity == 1) > 0);
        assert!(count("receive 3 0 ", 6, |command| command >= 1 << 20) > 2);
        assert!(count("receive 0 ", 6, |command| (1 << 19..1 << 20).contains(&command)) > 9);
    }

    /// A refused state comes back as it was given: PHASE is word 6 of the line, NEXT word 11, KEPT word 12. Of E nothing is
    /// printed, so that of those above 32 E only the ones above that of 256 are counted.
    #[test]
    fn kept_phases_are_refused_from_their_edges_on() {
        let count = |start: &str, holds: fn(u32, u32, u32) -> bool| {
            let of_start = LINES.iter().filter(|line| line.starts_with(start));
            let numbers =
                of_start.map(|line| line.split(' ').map(|word| word.parse().unwrap_or(0)).collect::<Vec<u32>>());
            numbers.filter(|words| holds(words[6], words[11], words[12])).count()
        };
        assert!(count("step 3 ", |phase, next, kept| phase == 1 && next == kept) > 2);
        assert!(count("step 3 ", |phase, _, kept| phase == 1 && kept > 32 * 256) > 0);
        assert!(count("step 3 ", |phase, _, kept| phase == 0 && kept == 1) > 2);
        assert!(count("step 3 ", |phase, _, kept| phase == 2 && kept > 0) > 2);
        assert!(count("step 0 ", |phase, _, kept| phase == 1 && kept > 0) > 50);
        assert!(count("step 0 ", |phase, next, kept| phase != 1 && kept > 0 || phase == 1 && next == kept) == 0);
    }
}
