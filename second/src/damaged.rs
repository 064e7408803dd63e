//! `SEED damaged`: what a receiver makes of a seeded lane, damaged and cut into calls (cases.rs has the generator and
//! the digest).
//!
//! Drawn: mode; E = [1, 2, 3, 256][draw(4)]; N = 2 + draw(6) multiblocks, M lane bits each; user octets; commands. The lane
//! is made in one call of a fresh sender. L is 9 in FEC, 12 in CRC-12, 3 in CRC-3, and 12 in mode 5, where no burst is found.
//! Then kind = draw(12):
//!   0  none
//!   1  one burst of at most L lane bits
//!   2  1 + draw(4) bursts of at most 14 lane bits
//!   3  1 + draw(8) headers: block draw(32 N) gets an invalid one
//!   4  1 + draw(64) octets: octet draw(M N / 8) becomes draw(256)
//!   5  both header bits flipped in every block of the multiblocks N / 2 (rounded down) to N - 1 that carries parity
//!   6  bursts of at most L lane bits, 2 M clear bits or more between: the first begins at bit draw(2 M), each next draw(M)
//!      bits later than it could, while they end within the lane; of each the length is drawn, then its bits, then where
//!      the next begins
//!   7  every octet is drawn
//!   8  1 + draw(3) stretches of headers: from block draw(32 N) on 1 + draw(96) blocks, but at most to the lane's end, get
//!      00 if draw(3) is 0, 11 if it is 1, and an invalid one each if it is 2
//!   9  noise = 1 + draw(8); each block in order, if draw(noise) is 0, gets an invalid header
//!  10  noise = 1 + draw(8); each fill bit in order, if draw(noise) is 0, is flipped; there are some in modes 2 and 3 alone
//!  11  1 + draw(4) bursts of L + 1 lane bits
//! A burst of at most m bits: length = 1 + draw(m), and then it is one of that length. A burst of a length: first bit =
//! draw(M N - length + 1); the first and the last are flipped, and each between, in order, if draw(2) is 1. An invalid header
//! is 00 if draw(2) is 0, and 11 if it is 1.
//! Then the calls are drawn in which the lane is received, the first from a fresh state.
//! A line: `SEED damaged MODE N KIND COUNT`, COUNT multiblocks released in all; for each
//! ` STATUS/PLACE/PATTERN/COMMAND/INVALID`; ` DIGEST` of all released octets; the end state as
//! ` WAITING HISTORY TRUSTED COMMAND INVALID OWN SOUND REPAIRED FAILED DIGEST`, the digest of its 256 octets; and the longest
//! run of statuses 0 and 1 over all releases as ` START LENGTH` in multiblocks, 0 0 if none.

use crate::bits;
use crate::cases::{draw_calls, draw_extent, draw_mode, Input};
use crate::digest::Digest;
use crate::frame::{self, NewHeader};
use crate::generator::Generator;
use crate::longest;
use crate::mode::{row, Mode, BLOCKS, USER_OCTETS};
use crate::receiver::{self, Counts, Lent, Receiver};

const LONG_BURST: usize = 14;

/// Where there is no limit to go by.
const ANY_LIMIT: usize = 12;
const LONG_STRETCH: usize = 96;

pub struct Case {
    pub input: Input,
    kind: usize,
    /// The lane of the input, damaged.
    pub lane: Vec<u8>,
}

struct Outcome {
    released: Lent,
    state: Receiver,
}

/// Every lane bit of a set flipped.
pub fn flipped(lane: &[u8], places: &[usize]) -> Vec<u8> {
    let mut all = bits::of_octets(lane);
    for place in places {
        all[*place] ^= true;
    }
    bits::octets(&all)
}

/// The lane bits of a burst from `first` to `last`.
fn draw_bits(generator: &mut Generator, first: usize, last: usize) -> Vec<usize> {
    (first..=last).filter(|place| *place == first || *place == last || generator.draw(2) == 1).collect()
}

/// The lane bits of a burst of that length.
fn draw_burst_of(generator: &mut Generator, length: usize, lane_bits: usize) -> Vec<usize> {
    let first = generator.draw(lane_bits - length + 1);
    draw_bits(generator, first, first + length - 1)
}

/// The lane bits of a burst of at most so many.
fn draw_burst(generator: &mut Generator, at_most: usize, lane_bits: usize) -> Vec<usize> {
    let length = 1 + generator.draw(at_most);
    draw_burst_of(generator, length, lane_bits)
}

fn limit(mode: &Mode) -> usize {
    match mode.word.burst_limit {
        0 => ANY_LIMIT,
        limit => limit,
    }
}

/// The lane bits of bursts within the mode's limit, far enough from each other.
fn draw_far_bursts(generator: &mut Generator, mode: &Mode, lane_bits: usize) -> Vec<usize> {
    let clear_bits = 2 * mode.multiblock_bits();
    let mut places = vec![];
    let mut first = generator.draw(clear_bits);
    loop {
        let last = first + generator.draw(limit(mode));
        if last >= lane_bits {
            return places;
        }
        places.extend(draw_bits(generator, first, last));
        first = last + 1 + clear_bits + generator.draw(mode.multiblock_bits());
    }
}

/// The lane bits of all headers that carry parity in the multiblocks from `first` on.
fn parity_headers(mode: &Mode, first: usize, multiblocks: usize) -> Vec<usize> {
    let carries = |block: &usize| mode.word.layout.parity_bit(block % BLOCKS).is_some();
    let blocks = (BLOCKS * first..BLOCKS * multiblocks).filter(carries);
    blocks.flat_map(|block| [mode.block_bits() * block, mode.block_bits() * block + 1]).collect()
}

fn draw_invalid(generator: &mut Generator, block: usize) -> NewHeader {
    let bit = generator.draw(2) == 1;
    (block, [bit, bit])
}

/// Invalid headers at blocks that are drawn.
fn draw_headers(generator: &mut Generator, blocks: usize) -> Vec<NewHeader> {
    let count = 1 + generator.draw(8);
    let header = |_| {
        let block = generator.draw(blocks);
        draw_invalid(generator, block)
    };
    (0..count).map(header).collect()
}

/// A stretch of invalid headers: all 00, all 11, or drawn.
fn draw_stretch(generator: &mut Generator, blocks: usize) -> Vec<NewHeader> {
    let first = generator.draw(blocks);
    let end = blocks.min(first + 1 + generator.draw(LONG_STRETCH));
    let pair = generator.draw(3);
    let header = |block| if pair == 2 { draw_invalid(generator, block) } else { (block, [pair == 1; 2]) };
    (first..end).map(header).collect()
}

/// Invalid headers all along the lane.
fn draw_noise(generator: &mut Generator, blocks: usize) -> Vec<NewHeader> {
    let noise = 1 + generator.draw(8);
    let header = |block| (generator.draw(noise) == 0).then(|| draw_invalid(generator, block));
    (0..blocks).filter_map(header).collect()
}

/// Fill bits all along the lane.
fn draw_fill(generator: &mut Generator, mode: &Mode, blocks: usize) -> Vec<usize> {
    let noise = 1 + generator.draw(8);
    frame::fill_places(mode, blocks).into_iter().filter(|_| generator.draw(noise) == 0).collect()
}

pub fn damage(generator: &mut Generator, kind: usize, mode: &Mode, multiblocks: usize, lane: Vec<u8>) -> Vec<u8> {
    let lane_bits = mode.multiblock_bits() * multiblocks;
    let blocks = BLOCKS * multiblocks;
    match kind {
        1 => flipped(&lane, &draw_burst(generator, limit(mode), lane_bits)),
        2 => (0..1 + generator.draw(4))
            .fold(lane, |lane, _| flipped(&lane, &draw_burst(generator, LONG_BURST, lane_bits))),
        3 => frame::with_headers(mode, &lane, &draw_headers(generator, blocks)),
        4 => (0..1 + generator.draw(64)).fold(lane, |mut lane, _| {
            let place = generator.draw(lane.len());
            lane[place] = generator.draw_octet();
            lane
        }),
        5 => flipped(&lane, &parity_headers(mode, multiblocks / 2, multiblocks)),
        6 => flipped(&lane, &draw_far_bursts(generator, mode, lane_bits)),
        7 => generator.draw_octets(lane.len()),
        8 => (0..1 + generator.draw(3))
            .fold(lane, |lane, _| frame::with_headers(mode, &lane, &draw_stretch(generator, blocks))),
        9 => frame::with_headers(mode, &lane, &draw_noise(generator, blocks)),
        10 => flipped(&lane, &draw_fill(generator, mode, blocks)),
        11 => (0..1 + generator.draw(4))
            .fold(lane, |lane, _| flipped(&lane, &draw_burst_of(generator, limit(mode) + 1, lane_bits))),
        _ => lane,
    }
}

pub fn draw_case(generator: &mut Generator) -> Case {
    let mode = draw_mode(generator);
    let e = draw_extent(generator);
    let multiblocks = 2 + generator.draw(6);
    let input = Input::draw(generator, mode, e, multiblocks);
    let kind = generator.draw(12);
    let lane = damage(generator, kind, row(mode), multiblocks, input.lane());
    Case { input, kind, lane }
}

fn receive(generator: &mut Generator, case: &Case) -> Outcome {
    let mut released = Lent::room_for(0);
    let mut state = Receiver::fresh();
    let mode = case.input.mode;
    let octets = row(mode).lane_octets();
    for call in draw_calls(generator, case.input.multiblocks()) {
        let mut lent = Lent::room_for(call.len());
        let lane = &case.lane[octets * call.start..octets * call.end];
        let received = receiver::receive(mode, state, lane, &mut lent);
        assert_eq!(received.refusal, 0);
        released.append(&lent, received.count);
        state = received.state;
    }
    Outcome { released, state }
}

fn case_and_outcome(seed: u64) -> (Case, Outcome) {
    let mut generator = Generator::seeded(seed);
    let case = draw_case(&mut generator);
    let outcome = receive(&mut generator, &case);
    (case, outcome)
}

pub fn line(seed: u64) -> String {
    let (case, Outcome { released, state }) = case_and_outcome(seed);
    let count = released.statuses.len();
    let release = |k: usize| {
        let Lent { statuses, places, patterns, commands, invalid, .. } = &released;
        format!(" {}/{}/{}/{}/{}", statuses[k], places[k], patterns[k], commands[k], invalid[k])
    };
    let releases: String = (0..count).map(release).collect();
    let [waiting, trusted] = [state.waiting, state.trusted].map(u8::from);
    let Counts { sound, repaired, failed } = state.counts;
    let waits = format!("{waiting} {} {trusted} {} {} {}", state.history, state.command, state.invalid, state.own);
    let end = format!("{waits} {sound} {repaired} {failed}");
    let (start, length) = longest::span(&released.statuses);
    assert_eq!(longest::longest_run(&released.octets, &released.statuses).part.len(), USER_OCTETS * length);
    format!(
        "{seed} damaged {} {} {} {count}{releases} {} {end} {} {start} {length}",
        case.input.mode,
        case.input.multiblocks(),
        case.kind,
        Digest::of(&released.octets).hexadecimal(),
        Digest::of(&state.octets).hexadecimal()
    )
}

#[cfg(test)]
mod tests {
    use super::{case_and_outcome, draw_far_bursts, flipped, parity_headers, Case, Outcome};
    use crate::frame::fill_places;
    use crate::generator::Generator;
    use crate::mode::row;
    use crate::receiver::{self, Lent, Receiver};
    use std::sync::LazyLock;

    const SEEDS: std::ops::RangeInclusive<u64> = 1..=1500;

    static ALL: LazyLock<Vec<(Case, Outcome)>> = LazyLock::new(|| SEEDS.map(case_and_outcome).collect());

    #[test]
    fn far_bursts_are_within_the_premise() {
        for seed in SEEDS {
            for (mode, limit, bits, clear_bits) in [(1, 9, 2112, 4224), (3, 9, 2560, 5120), (4, 3, 2112, 4224)] {
                let places = draw_far_bursts(&mut Generator::seeded(seed), row(mode), bits * 7);
                assert!(places.windows(2).all(|pair| pair[1] - pair[0] < limit || pair[1] - pair[0] > clear_bits));
                assert!(places.iter().any(|place| *place > clear_bits) && places.iter().all(|place| *place < bits * 7));
            }
        }
    }

    #[test]
    fn the_parity_headers_of_each_mode() {
        let ends = |number| {
            let places = parity_headers(row(number), 1, 2);
            (places.len(), places[0], places[places.len() - 1])
        };
        assert_eq!([0, 1].map(ends), [(24, 2112, 2112 + 66 * 14 + 1), (52, 2112, 2112 + 66 * 26 + 1)]);
        assert_eq!([2, 3].map(ends), [(24, 2560, 2560 + 80 * 14 + 1), (52, 2560, 2560 + 80 * 26 + 1)]);
        assert_eq!((ends(4), parity_headers(row(5), 0, 2)), ((24, 2112, 2112 + 66 * 26 + 1), vec![]));
    }

    /// Bursts with two multiblocks of clear bits between fail no multiblock of FEC.
    #[test]
    fn far_bursts_are_mended() {
        let of_fec = ALL.iter().filter(|(case, _)| row(case.input.mode).word.repairs && case.kind == 6);
        let statuses: Vec<u8> = of_fec.flat_map(|(_, outcome)| outcome.released.statuses.clone()).collect();
        assert!(statuses.len() > 99 && statuses.iter().all(|status| status & 2 == 0));
    }

    /// How many multiblocks have an octet that is called sound, or unchecked in mode 5, and isn't the one sent.
    fn wrong((case, Outcome { released, .. }): &(Case, Outcome)) -> usize {
        let differ = |k: usize, first: usize| {
            released.octets[256 * k + first..256 * (k + 1)] != case.input.user[256 * k + first..256 * (k + 1)]
        };
        let is_wrong = |(k, status): &(usize, &u8)| match **status {
            0 | 1 => differ(*k, 0),
            4 | 5 => differ(*k, 8),
            _ => false,
        };
        released.statuses.iter().enumerate().filter(is_wrong).count()
    }

    /// With bursts within the limit and far enough apart nothing wrong is called sound. With those of 4 bits it happens in
    /// CRC-3, and in mode 5, where nothing is checked, with any.
    #[test]
    fn what_is_called_sound_was_sent() {
        let count = |holds: fn(u8, usize) -> bool| {
            ALL.iter().filter(|(case, _)| holds(case.input.mode, case.kind)).map(wrong).sum::<usize>()
        };
        assert_eq!(count(|mode, kind| mode != 5 && [0, 1, 6, 10].contains(&kind)), 0);
        assert!(count(|mode, kind| mode == 4 && kind == 11) > 2);
        assert!(count(|mode, kind| mode == 5 && [1, 6].contains(&kind)) > 9);
        assert_eq!(count(|mode, kind| mode == 5 && [0, 3, 5, 8, 9, 10].contains(&kind)), 0);
    }

    #[test]
    fn fill_bits_are_ignored() {
        for (case, Outcome { released, state }) in ALL.iter() {
            let multiblocks = case.input.multiblocks();
            let lane = flipped(&case.lane, &fill_places(row(case.input.mode), 32 * multiblocks));
            let mut lent = Lent::room_for(multiblocks - 1);
            let whole = receiver::receive(case.input.mode, Receiver::fresh(), &lane, &mut lent);
            assert_eq!((&lent, &whole.state), (released, state));
        }
    }

    #[test]
    fn calls_release_what_one_call_releases() {
        for (case, Outcome { released, state }) in ALL.iter() {
            let mut lent = Lent::room_for(case.input.multiblocks() - 1);
            let whole = receiver::receive(case.input.mode, Receiver::fresh(), &case.lane, &mut lent);
            assert_eq!((&lent, &whole.state), (released, state));
        }
    }

    /// The end state counts what all calls released, and not the multiblock that waits; each kind is counted more than once.
    #[test]
    fn counts_are_those_of_the_statuses() {
        let mut most = [0; 3];
        for (case, Outcome { released, state }) in ALL.iter() {
            let of = |kinds: [u8; 2]| released.statuses.iter().filter(|status| kinds.contains(status)).count() as u32;
            let counted = [of([0, 4]), of([1, 5]), of([2, 6])];
            assert_eq!([state.counts.sound, state.counts.repaired, state.counts.failed], counted);
            assert_eq!(counted.iter().sum::<u32>() as usize, case.input.multiblocks() - 1);
            for (most, count) in most.iter_mut().zip(counted) {
                *most = count.max(*most);
            }
        }
        assert!(most.iter().all(|count| *count > 1));
    }

    /// Each status occurs in each mode that has it, bursts in the data and in the parity, marked commands, and numbers of
    /// invalid headers from none to all.
    #[test]
    fn every_status_occurs() {
        let mut seen = [[0; 8]; 6];
        let (mut in_data, mut in_parity, mut marked) = (0, 0, [0; 6]);
        let mut invalid = [0; 33];
        for (Case { input, .. }, Outcome { released, .. }) in ALL.iter() {
            let (mode, highest) = (usize::from(input.mode), row(input.mode).word.highest_command());
            for (k, status) in released.statuses.iter().enumerate() {
                seen[mode][usize::from(*status)] += 1;
                in_data += usize::from(status & 1 == 1 && released.places[k] < 2048);
                in_parity += usize::from(status & 1 == 1 && released.places[k] >= 2048);
                marked[mode] += usize::from(released.commands[k] > highest);
                invalid[usize::from(released.invalid[k])] += 1;
            }
        }
        let occur: [&[usize]; 6] =
            [&[0, 2, 4, 6], &[0, 1, 2, 4, 5, 6], &[0, 2, 4, 6], &[0, 1, 2, 4, 5, 6], &[0, 2, 4, 6], &[0, 4]];
        for (seen, occur) in seen.iter().zip(occur) {
            assert!((0..8).all(|status| if occur.contains(&status) { seen[status] > 9 } else { seen[status] == 0 }));
        }
        assert!(in_data > 9 && in_parity > 9);
        assert!([0, 2, 4, 5].iter().all(|mode| marked[*mode] > 9) && (marked[1], marked[3]) == (0, 0));
        assert!([0, 1, 2, 16, 32].iter().all(|number| invalid[*number] > 9));
    }
}
