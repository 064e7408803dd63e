//! Lanes of FEC that are locked at a false block for ever: the scrambled octets of all multiblocks are the same, so that all
//! sync words but the first carry the same parity, and in that there is a pilot. The scrambled octets are 0 but for the last
//! four, which are the least number, highest octet first, whose parity has a pilot within it. User octets are what they
//! descramble to.

use crate::bits;
use crate::code;
use crate::lock::{Between, Lock};
use crate::locking::{both_are_held, next, sent_headers, TABLES};
use crate::mode::{BLOCKS, USER_OCTETS};
use crate::scrambler::descramble;
use crate::sync::{self, Fields, NOTHING};

/// In multiblocks.
const LANE: usize = 40;

/// The blocks that carry parity from the first on, before the end mark.
const PARITY_BLOCKS: usize = 22;

fn scrambled(number: u32) -> Vec<u8> {
    [&[0; USER_OCTETS - 4][..], &number.to_be_bytes()].concat()
}

/// The blocks of a multiblock in which a pilot ends that stands in its parity alone, before the end mark.
fn pilots(parity: u32) -> Vec<usize> {
    let word = sync::FEC.word(Fields { before: parity, ..NOTHING });
    let carried = bits::of_number(u64::from(word), BLOCKS);
    let ends = |last: &usize| carried[last - 9] && carried[last - 4..=*last] == [false, false, false, false, true];
    (9..PARITY_BLOCKS).filter(ends).collect()
}

fn least() -> u32 {
    let has_one = |number: &u32| !pilots(code::FEC.of_octets(&scrambled(*number))).is_empty();
    (1..=u32::MAX).find(has_one).expect("some parity has a pilot")
}

fn lane(number: u32, e: u32) -> Vec<u8> {
    let sent = scrambled(number).repeat(LANE);
    sent_headers(e, &descramble(0, &bits::of_octets(&sent)))
}

/// From one block on: how far before the true end the block is with which both locks are first held. They are held to the
/// lane's end, and look there still.
fn before_the_end(between: Between, e: u32, headers: &[u8], from: usize) -> usize {
    let period = BLOCKS * e as usize;
    let states: Vec<Lock> = (from..headers.len())
        .scan(Lock::fresh(), |lock, block| {
            *lock = next(between, e, *lock, headers[block]);
            Some(*lock)
        })
        .collect();
    let held = states.iter().position(both_are_held).expect("such a lane is locked");
    assert!(states[held..].iter().all(|lock| both_are_held(lock) && lock.extended.bad == 0));
    assert!((states.len() - held - 1 + states[states.len() - 1].extended.next as usize).is_multiple_of(period));
    period - 1 - (from + held) % period
}

fn line(name: &str, between: Between, e: u32, headers: &[u8]) -> String {
    let starts = 0..BLOCKS * e as usize;
    let distances: Vec<usize> = starts.map(|from| before_the_end(between, e, headers, from)).collect();
    let mut different = distances.clone();
    different.sort_unstable();
    different.dedup();
    let count = |distance: &usize| distances.iter().filter(|other| *other == distance).count();
    let words: Vec<String> = different.iter().map(|distance| format!("{distance} from {}", count(distance))).collect();
    format!("  E {e}, {name}, begun at each of {} blocks: {}", distances.len(), words.join(", "))
}

pub fn lines() -> Vec<String> {
    let number = least();
    let parity = code::FEC.of_octets(&scrambled(number));
    let head = format!("FEC, every multiblock the scrambled octets 00 but for the last four, {number:08X}:");
    let pilots: Vec<String> = pilots(parity).iter().map(usize::to_string).collect();
    let facts =
        format!("  parity {}, in which a pilot ends in block {}", code::FEC.hexadecimal(parity), pilots.join(" "));
    let told =
        "  both locks are held, and to the end of 40 multiblocks, so many blocks before the true end:".to_string();
    let of_extent = |e: u32| {
        let headers = lane(number, e);
        TABLES.map(|(name, between)| line(name, between, e, &headers))
    };
    [head, facts, told].into_iter().chain([1, 2].into_iter().flat_map(of_extent)).collect()
}

#[cfg(test)]
mod tests {
    use super::{lane, least, pilots, scrambled, LANE};
    use crate::code;
    use crate::header::Headers;
    use crate::sync;

    /// Every sync word but the first carries the parity of the same octets.
    #[test]
    fn the_lane_repeats() {
        let headers = lane(least(), 2);
        let parity = code::FEC.of_octets(&scrambled(least()));
        assert_eq!(headers.len(), 32 * LANE);
        let words: Vec<u32> = headers.chunks(32).map(|values| sync::FEC.before(&Headers::of(values))).collect();
        assert!(words[0] == 0 && words[1..].iter().all(|word| *word == parity));
    }

    #[test]
    fn a_pilot_within_the_parity() {
        assert_eq!(pilots(1 << 25 | 1 << 16), [9]);
        assert_eq!(pilots(1 << 25 | 1 << 17 | 1 << 16), []);
        assert_eq!(pilots(1 << 13 | 1 << 4), [21]);
    }
}
