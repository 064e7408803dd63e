//! `second locking`: after how many blocks both locks are held by document 01's table, which ignores matches between two
//! looks, and by that of request 4, which keeps the earliest (lock.rs has both). First over seeded lanes of FEC; then later.rs
//! has a lane that request 4's table locks later, and repeating.rs lanes that both lock at a false block for ever.
//!
//! Lanes: mode 1, of user octets, each the highest 8 bits of a number of the generator seeded with the lane's number, 1 for
//! the first; made by a fresh sender, and undamaged. Locks begin fresh at the true offset with each block of the first
//! extended multiblock. Its first multiblock carries parity 0, but within the 64 headers that header lock takes.
//! Blocks to lock are counted from that block on, which is 1.

use std::collections::HashMap;

use crate::frame;
use crate::generator::Generator;
use crate::header::Header;
use crate::lock::{step_by, Between, ExtendedLock, Lock, Phase};
use crate::mode::{row, BLOCKS, USER_OCTETS};
use crate::sender::{send, Sender};
use crate::{later, repeating};

pub const FEC: u8 = 1;

/// E, how many lanes, and how many extended multiblocks each has.
const LANES: [(u32, u64, usize); 4] = [(1, 1000, 20), (2, 500, 20), (16, 40, 30), (256, 2, 144)];

/// So many valid headers give header lock.
const TO_HEADER_LOCK: usize = 64;

/// How often states that came to be the same are put together, in blocks.
const MERGED_EVERY: usize = 32;

/// The two tables, with what they are called here.
pub const TABLES: [(&str, Between); 2] =
    [("document 01's table", Between::Ignored), ("request 4's table", Between::Kept)];

/// The header values that a fresh sender sends for user octets, in as many calls as it takes.
pub fn sent_headers(e: u32, user: &[u8]) -> Vec<u8> {
    let mode = row(FEC);
    let mut state = Sender::fresh();
    let mut headers = vec![];
    for user in user.chunks(USER_OCTETS * mode.most) {
        let multiblocks = user.len() / USER_OCTETS;
        let mut lane = vec![0; mode.lane_octets() * multiblocks];
        let sent = send(FEC, e, state, user, &vec![0; multiblocks], &mut lane);
        assert_eq!((sent.refusal, sent.count), (0, multiblocks));
        state = sent.state;
        headers.extend(frame::header_values(mode, &lane));
    }
    headers
}

pub fn next(between: Between, e: u32, lock: Lock, header: u8) -> Lock {
    let stepped = step_by(between, FEC, e, lock, header);
    assert_eq!(stepped.refusal, 0);
    stepped.lock
}

pub fn both_are_held(lock: &Lock) -> bool {
    lock.header.locked && lock.extended.phase == Phase::Locked
}

/// Extended lock when header lock has just been given: on an undamaged lane that is after 64 headers, and it is held from
/// there on, so that extended lock is stepped by every further header.
fn under_header_lock(between: Between, e: u32, headers: &[u8]) -> ExtendedLock {
    let lock = headers[..TO_HEADER_LOCK].iter().fold(Lock::fresh(), |lock, header| next(between, e, lock, *header));
    assert!(lock.header.locked);
    lock.extended
}

/// Starts that came to the same state at the same block.
type Groups = Vec<(ExtendedLock, Vec<usize>)>;

fn merged(groups: Groups) -> Groups {
    let mut by_state: HashMap<ExtendedLock, Vec<usize>> = HashMap::new();
    for (state, starts) in groups {
        by_state.entry(state).or_default().extend(starts);
    }
    by_state.into_iter().collect()
}

/// With which block both locks are first held, of each start; none if not by the lane's end.
fn held_with(between: Between, e: u32, headers: &[u8]) -> Vec<Option<usize>> {
    assert!(headers.iter().all(|header| !Header::of(*header).is_invalid()));
    let mut held = vec![None; BLOCKS * e as usize];
    let mut groups: Groups = vec![];
    for (block, header) in headers.iter().enumerate().skip(TO_HEADER_LOCK) {
        let start = block - TO_HEADER_LOCK;
        if start < held.len() {
            groups.push((under_header_lock(between, e, &headers[start..block]), vec![start]));
        }
        groups.iter_mut().for_each(|(state, _)| *state = state.step(between, e, Header::of(*header)));
        for (_, starts) in groups.extract_if(.., |(state, _)| state.phase == Phase::Locked) {
            starts.iter().for_each(|start| held[*start] = Some(block));
        }
        if block % MERGED_EVERY == 0 {
            groups = merged(groups);
        }
    }
    held
}

/// What a table makes of all lanes of an E: of each start, how many blocks it takes and whether it locks at a true end.
struct Found {
    taken: Vec<Option<usize>>,
    falsely: usize,
}

impl Found {
    fn none() -> Found {
        Found { taken: vec![], falsely: 0 }
    }

    fn add(&mut self, between: Between, e: u32, headers: &[u8]) {
        let held = held_with(between, e, headers);
        let is_false = |block: &&usize| !(**block + 1).is_multiple_of(BLOCKS * e as usize);
        self.falsely += held.iter().flatten().filter(is_false).count();
        self.taken.extend(held.iter().enumerate().map(|(start, block)| block.map(|block| block + 1 - start)));
    }

    /// Of an even number the median is the upper of the two in the middle.
    fn lines(&self, name: &str, bound: usize) -> Vec<String> {
        let mut taken: Vec<usize> = self.taken.iter().flatten().copied().collect();
        taken.sort_unstable();
        let mean = 10 * taken.iter().sum::<usize>() / taken.len();
        vec![
            format!(
                "  {name}: blocks to lock: least {}, median {}, mean {}.{}, most {}",
                taken[0],
                taken[taken.len() / 2],
                mean / 10,
                mean % 10,
                taken[taken.len() - 1]
            ),
            format!(
                "  {name}: within 95+128E = {bound} blocks {}; not by the lane's end {}; at a false block {}",
                taken.iter().filter(|taken| **taken <= bound).count(),
                self.taken.len() - taken.len(),
                self.falsely
            ),
        ]
    }
}

/// How many starts lock sooner, as soon and later by the other table; not by the lane's end is later than any.
fn compared(one: &Found, other: &Found) -> [usize; 3] {
    let pairs = || one.taken.iter().zip(&other.taken);
    let blocks = |taken: &Option<usize>| taken.unwrap_or(usize::MAX);
    [std::cmp::Ordering::Less, std::cmp::Ordering::Equal, std::cmp::Ordering::Greater]
        .map(|order| pairs().filter(|(one, other)| blocks(other).cmp(&blocks(one)) == order).count())
}

fn lane(seed: u64, e: u32, extended: usize) -> Vec<u8> {
    let mut generator = Generator::seeded(seed);
    let octets = USER_OCTETS * e as usize * extended;
    sent_headers(e, &(0..octets).map(|_| generator.highest(8) as u8).collect::<Vec<u8>>())
}

fn lines_of((e, lanes, extended): (u32, u64, usize)) -> Vec<String> {
    let mut found = TABLES.map(|_| Found::none());
    for headers in (1..=lanes).map(|seed| lane(seed, e, extended)) {
        for (found, (_, between)) in found.iter_mut().zip(TABLES) {
            found.add(between, e, &headers);
        }
    }
    let [sooner, as_soon, later] = compared(&found[0], &found[1]);
    let blocks = BLOCKS * e as usize;
    let starts = blocks * lanes as usize;
    let head = format!(
        "FEC, E {e}: {lanes} lanes of {} blocks, begun at each of the first {blocks}: {starts} starts",
        blocks * extended
    );
    let tables = found.iter().zip(TABLES).flat_map(|(found, (name, _))| found.lines(name, 95 + 128 * e as usize));
    let last = format!("  by request 4's table sooner {sooner}, as soon {as_soon}, later {later}");
    [head].into_iter().chain(tables).chain([last]).collect()
}

pub fn lines() -> Vec<String> {
    let seeded = LANES.into_iter().flat_map(lines_of);
    seeded.chain(later::lines()).chain(repeating::lines()).collect()
}

#[cfg(test)]
mod tests {
    use super::{both_are_held, held_with, lane, next, Lock, TABLES};

    /// Start by start, both locks stepped by every header.
    #[test]
    fn starts_put_together_lock_as_they_do_alone() {
        for (e, extended, seed) in [(1, 12, 1), (1, 12, 5), (2, 12, 2), (3, 12, 3)] {
            let headers = lane(seed, e, extended);
            for (_, between) in TABLES {
                let held = held_with(between, e, &headers);
                assert_eq!(held.len(), 32 * e as usize);
                for (start, with) in held.iter().enumerate() {
                    let mut lock = Lock::fresh();
                    let alone = (start..headers.len()).find(|block| {
                        lock = next(between, e, lock, headers[*block]);
                        both_are_held(&lock)
                    });
                    assert_eq!(alone, *with);
                }
            }
        }
    }
}
