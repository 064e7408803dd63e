//! `SEED listing`: the listing of a seeded capture (cases.rs has the generator and the digest).
//!
//! Drawn: mode, E and a damaged lane (damaged.rs), of multiblocks of 264 octets or 320; and a capture.
//! A capture of a lane: if draw(32) is 0, the lane becomes 239 + draw(3) multiblocks of octets, 199 + draw(3) in modes 2 and 3,
//! draw(256) each octet. If draw(4) is 0, only its first draw(M + 1) multiblocks are kept, of M. If draw(12) is 6, it loses
//! its last draw(264 or 320) octets, or all. This is made a capture; and then, where draw(12) was
//!   0  the mode becomes draw(256)
//!   1  E becomes [0, 1, 256, 257][draw(4)]
//!   2  E becomes draw(65536)
//!   3  octet draw(11) becomes draw(256)
//!   4  only the first draw(L + 1) octets are kept, of L
//!   5  1 + draw(300) octets more, draw(256) each
//!   7  the mode becomes draw(7)
//! The text lent has 4,096 octets; if draw(8) is 0, draw(64). Each is 165 before.
//! A line: `SEED listing LENGTH REFUSAL COUNT DIGEST`, with the length of the capture and the digest of all octets lent.

use crate::captures::capture;
use crate::damaged;
use crate::digest::Digest;
use crate::generator::Generator;
use crate::listing;
use crate::mode::{row, Mode, MODES};

const BEFORE: u8 = 165;
const ROOM: usize = 4096;

fn draw_lane(generator: &mut Generator, mode: &Mode, damaged: Vec<u8>) -> Vec<u8> {
    let octets = mode.lane_octets();
    let mut lane = damaged;
    if generator.draw(32) == 0 {
        let multiblocks = mode.most - 1 + generator.draw(3);
        lane = generator.draw_octets(octets * multiblocks);
    }
    if generator.draw(4) == 0 {
        lane.truncate(octets * generator.draw(lane.len() / octets + 1));
    }
    lane
}

/// A capture of a lane, or of another instead of it.
pub fn draw_capture(generator: &mut Generator, number: u8, e: u32, lane: Vec<u8>) -> Vec<u8> {
    let mode = row(number);
    let mut lane = draw_lane(generator, mode, lane);
    let form = generator.draw(12);
    if form == 6 {
        lane.truncate(lane.len().saturating_sub(generator.draw(mode.lane_octets())));
    }
    let of_mode = |mode: u8| capture(mode, e as u16, &lane);
    let of_extent = |e: usize| capture(number, e as u16, &lane);
    let mut whole = of_mode(number);
    match form {
        0 => of_mode(generator.draw_octet()),
        1 => of_extent(generator.one_of(&[0, 1, 256, 257])),
        2 => of_extent(generator.draw(65536)),
        3 => {
            let place = generator.draw(11);
            whole[place] = generator.draw_octet();
            whole
        }
        4 => {
            whole.truncate(generator.draw(whole.len() + 1));
            whole
        }
        5 => {
            let more = 1 + generator.draw(300);
            [whole, generator.draw_octets(more)].concat()
        }
        7 => of_mode(generator.draw(MODES + 1) as u8),
        _ => whole,
    }
}

/// What a call answers that writes lines to a text.
pub struct Answer {
    pub refusal: u8,
    /// Octets written.
    pub count: usize,
    /// What was lent, at exit.
    text: Vec<u8>,
}

impl Answer {
    fn refused(refusal: u8, room: usize) -> Answer {
        Answer { refusal, count: 0, text: vec![BEFORE; room] }
    }

    /// That of a call with so much room, by the lines of its capture or the number by which that is refused.
    pub fn of(lines: &Result<Vec<String>, u8>, room: usize) -> Answer {
        let lines = match lines {
            Ok(lines) => lines,
            Err(refusal) => return Answer::refused(*refusal, room),
        };
        let octets: Vec<u8> = lines.iter().flat_map(|line| format!("{line}\n").into_bytes()).collect();
        if octets.len() > room {
            return Answer::refused(7, room);
        }
        let mut text = vec![BEFORE; room];
        text[..octets.len()].copy_from_slice(&octets);
        Answer { refusal: 0, count: octets.len(), text }
    }

    /// `REFUSAL COUNT DIGEST`.
    pub fn printed(&self) -> String {
        format!("{} {} {}", self.refusal, self.count, Digest::of(&self.text).hexadecimal())
    }
}

/// The length of the capture, and what comes of its listing.
fn outcome(seed: u64) -> (usize, Answer) {
    let mut generator = Generator::seeded(seed);
    let case = damaged::draw_case(&mut generator);
    let capture = draw_capture(&mut generator, case.input.mode, case.input.e, case.lane);
    let room = if generator.draw(8) == 0 { generator.draw(64) } else { ROOM };
    (capture.len(), Answer::of(&listing::lines(&capture), room))
}

pub fn line(seed: u64) -> String {
    let (length, answer) = outcome(seed);
    format!("{seed} listing {length} {}", answer.printed())
}

#[cfg(test)]
mod tests {
    use super::outcome;

    #[test]
    fn every_refusal_and_the_longest_occur() {
        let outcomes: Vec<(usize, u8)> =
            (1..=1500).map(outcome).map(|(length, answer)| (length, answer.refusal)).collect();
        for refusal in [0, 1, 2, 4, 7, 8] {
            assert!(outcomes.iter().filter(|outcome| outcome.1 == refusal).count() > 9, "refusal {refusal}");
        }
        for longest in [63_371, 64_011] {
            assert!(outcomes.iter().any(|outcome| outcome.0 == longest && outcome.1 == 0));
        }
        assert!(outcomes.iter().any(|outcome| outcome.0 > 64_011 && outcome.1 == 8));
    }
}
