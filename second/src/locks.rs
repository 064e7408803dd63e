//! `SEED lock`: what the lock machines make of a seeded header stream (cases.rs has the generator and the digest).
//!
//! Drawn: mode; E = 1 + draw(3); user octets and commands of 6 E + 4 multiblocks. The lane is
//! made in one call of a fresh sender. Then the block of the first header, draw(32 E); noise = draw(3); and, for each
//! header from that block on to the lane's end, in order: with noise 0 nothing; with noise 1, if draw(64) is 0, and with
//! noise 2, if draw(8) is 0, the header's value becomes draw(4).
//! Then false pilots (pilot.rs), draw(4) phases of them, one phase after another: its first pilot ends with the header of
//! index 95 + draw(32 E), the first header's index being 0, and further ones would end every 32 E headers from there on, as
//! long as there are headers; each of these, the first among them, is planted unless draw(4) is 0.
//! If draw(5) is 0 it goes on: 384 E valid headers, 1 + draw(2) each, that lose extended lock; and 192 headers, draw(4) each,
//! that lose header lock.
//! A line: `SEED lock MODE E NOISE STEPS DIGEST`, then the fields of the last state. The digest goes over the fields of the
//! state after each step, each a number: locked, offset, run, bad; phase (0 hunting, 1 following, 2 locked), seen, headers
//! (the latest is bit 0), good, bad, next, kept.

use crate::cases::{draw_mode, Input};
use crate::digest::Digest;
use crate::frame;
use crate::generator::Generator;
use crate::lock::{step, Lock};
use crate::mode::{row, BLOCKS};
use crate::pilot::plant;

/// The index of the first header that can end a match: header lock takes 64, and a match 32 more.
const FIRST_MATCH: usize = 95;
const VALID_PER_EXTENT: usize = 384;
const LAST: usize = 192;

struct Case {
    mode: u8,
    e: u32,
    noise: usize,
    headers: Vec<u8>,
}

fn noisy(generator: &mut Generator, noise: usize, header: u8) -> u8 {
    let replaced = match noise {
        1 => generator.draw(64) == 0,
        2 => generator.draw(8) == 0,
        _ => false,
    };
    if replaced {
        generator.draw(4) as u8
    } else {
        header
    }
}

/// Pilots of one phase, of which about one in four is missing.
fn plant_phase(generator: &mut Generator, extent: usize, headers: &mut [u8]) {
    let first = FIRST_MATCH + generator.draw(BLOCKS * extent);
    for last in (first..headers.len()).step_by(BLOCKS * extent) {
        if generator.draw(4) != 0 {
            plant(headers, last);
        }
    }
}

/// What comes after the lane in a longer case.
fn draw_tail(generator: &mut Generator, extent: usize) -> Vec<u8> {
    let valid: Vec<u8> = (0..VALID_PER_EXTENT * extent).map(|_| 1 + generator.draw(2) as u8).collect();
    let any: Vec<u8> = (0..LAST).map(|_| generator.draw(4) as u8).collect();
    [valid, any].concat()
}

fn case(seed: u64) -> Case {
    let mut generator = Generator::seeded(seed);
    let mode = draw_mode(&mut generator);
    let extent = 1 + generator.draw(3);
    let e = extent as u32;
    let lane = Input::draw(&mut generator, mode, e, 6 * extent + 4).lane();
    let first = generator.draw(BLOCKS * extent);
    let noise = generator.draw(3);
    let clean = &frame::header_values(row(mode), &lane)[first..];
    let mut headers: Vec<u8> = clean.iter().map(|header| noisy(&mut generator, noise, *header)).collect();
    for _ in 0..generator.draw(4) {
        plant_phase(&mut generator, extent, &mut headers);
    }
    if generator.draw(5) == 0 {
        headers.extend(draw_tail(&mut generator, extent));
    }
    Case { mode, e, noise, headers }
}

/// The states along the way, from the one after the first header on.
fn states(case: &Case) -> Vec<Lock> {
    let next = |lock: &mut Lock, header: &u8| {
        let stepped = step(case.mode, case.e, *lock, *header);
        assert_eq!(stepped.refusal, 0);
        *lock = stepped.lock;
        Some(*lock)
    };
    case.headers.iter().scan(Lock::fresh(), next).collect()
}

pub fn line(seed: u64) -> String {
    let case = case(seed);
    let states = states(&case);
    let numbers = states.iter().flat_map(Lock::numbers);
    let digest = numbers.fold(Digest::empty(), Digest::with_number).hexadecimal();
    let last = states.last().map_or(Lock::fresh(), |lock| *lock).numbers().map(|number| number.to_string());
    let Case { mode, e, noise, headers } = case;
    format!("{seed} lock {mode} {e} {noise} {} {digest} {}", headers.len(), last.join(" "))
}

#[cfg(test)]
mod tests {
    use super::{case, states};
    use crate::lock::{ExtendedLock, Lock, Phase};

    /// Those of the first 400 that are cases of locks (bulk.rs).
    fn seeds() -> impl Iterator<Item = u64> {
        (2..=400).step_by(5)
    }

    /// Every two neighbouring states of every case.
    fn changes() -> Vec<(Lock, Lock)> {
        let of_seed = |seed| states(&case(seed)).windows(2).map(|pair| (pair[0], pair[1])).collect::<Vec<_>>();
        seeds().flat_map(of_seed).collect()
    }

    #[test]
    fn every_row_of_the_tables_is_used() {
        let changes = changes();
        let count = |holds: fn(&Lock, &Lock) -> bool| changes.iter().filter(|(old, new)| holds(old, new)).count();
        let phases = |old, new| {
            let held = changes.iter().filter(|(before, after)| before.header.locked && after.header.locked);
            held.filter(|(before, after)| before.extended.phase == old && after.extended.phase == new).count()
        };
        let used = [
            count(|old, new| !old.header.locked && new.header.locked),
            count(|old, new| old.header.locked && !new.header.locked),
            count(|old, new| old.header.offset == 65 && new.header.offset == 0),
            count(|old, new| old.header.offset == 65 && new.header.offset == 66),
            count(|old, new| old.header.offset == 79 && new.header.offset == 0),
            count(|old, new| new.header.locked && old.header.bad > 0 && new.header.bad == 0),
            count(|old, new| !new.header.locked && old.extended.phase == Phase::Locked),
            count(|old, new| old.extended.bad == 6 && new.extended.bad == 7),
            count(|old, new| new.extended.phase == Phase::Locked && old.extended.bad > 0 && new.extended.bad == 0),
            phases(Phase::Hunting, Phase::Following),
            phases(Phase::Following, Phase::Hunting),
            phases(Phase::Following, Phase::Locked),
            phases(Phase::Locked, Phase::Hunting),
        ];
        assert!(used.iter().all(|count| *count > 0), "{used:?}");
    }

    /// The rows of request 4, while following under header lock.
    #[test]
    fn every_row_of_the_kept_phase_is_used() {
        let changes = changes();
        let followed = changes.iter().filter(|(old, new)| old.extended.phase == Phase::Following && new.header.locked);
        let steps: Vec<_> = followed.map(|(old, new)| (old.extended, new.extended)).collect();
        let count =
            |holds: fn(&ExtendedLock, &ExtendedLock) -> bool| steps.iter().filter(|(old, new)| holds(old, new)).count();
        let used = [
            // A match is kept, and a later one changes nothing.
            count(|old, new| old.kept == 0 && new.kept > 0),
            count(|old, new| old.next > 1 && old.kept > 1 && new.matches() && new.kept == old.kept - 1),
            // The kept phase's own pass, without a match and with one.
            count(|old, new| old.kept == 1 && new.kept > 1 && !new.matches()),
            count(|old, new| old.kept == 1 && new.kept > 1 && new.matches() && new.good == old.good),
            // A match counts for the followed one, and the kept one stays; on locking it is dropped.
            count(|old, new| old.kept > 0 && new.good == old.good + 1 && new.kept == old.kept - 1),
            count(|old, new| old.kept > 0 && new.phase == Phase::Locked && new.kept == 0),
            // A failed look, with one kept and with none.
            count(|old, new| {
                old.next == 1 && !new.matches() && new.next + 1 == old.kept && (new.good, new.kept) == (1, 0)
            }),
            count(|old, new| old.kept == 0 && new.phase == Phase::Hunting),
        ];
        assert!(used.iter().all(|count| *count > 0), "{used:?}");
    }
}
