//! The two locks, one header a step (document 01, "Lock tables" and "Numbers of refusal", lines 1, 2, 3 and 9; clauses
//! 7.6.1 and 7.6.2; of the kept phase document 02, request 4). The last 32 headers' bits are a list, the latest last, so
//! that its places are those of a sync word.

use crate::bits;
use crate::header::Header;
use crate::mode::{is_extent, mode, Mode, BLOCKS};

const END_MARK: usize = 22;
const PILOT: usize = 27;
const LOCKED_AFTER: u32 = 64;
const LOST_AFTER: u32 = 16;
const EXTENDED_LOCKED_AFTER: u32 = 4;
const EXTENDED_LOST_AFTER: u32 = 8;

/// What becomes of a match between two looks while following.
#[derive(Clone, Copy, Debug, PartialEq)]
pub enum Between {
    /// As document 01 has it: nothing. Then nothing is ever kept.
    Ignored,
    /// As request 4 has it: the earliest is kept.
    Kept,
}

#[derive(Clone, Copy, Debug, PartialEq, Eq, Hash)]
pub struct HeaderLock {
    pub locked: bool,
    pub offset: u32,
    pub run: u32,
    pub bad: u32,
}

#[derive(Clone, Copy, Debug, PartialEq, Eq, Hash)]
pub enum Phase {
    Hunting,
    Following,
    Locked,
}

#[derive(Clone, Copy, Debug, PartialEq, Eq, Hash)]
pub struct ExtendedLock {
    pub phase: Phase,
    /// How many headers were seen, at most 32.
    pub seen: u32,
    /// The bits of the last 32; a missing one is 0.
    pub headers: [bool; BLOCKS],
    pub good: u32,
    pub bad: u32,
    /// Blocks to the next look.
    pub next: u32,
    /// Blocks to the kept phase's next look, 0 if none is kept.
    pub kept: u32,
}

#[derive(Clone, Copy, Debug, PartialEq, Eq, Hash)]
pub struct Lock {
    pub header: HeaderLock,
    pub extended: ExtendedLock,
}

#[derive(Debug, PartialEq)]
pub struct Stepped {
    pub refusal: u8,
    pub lock: Lock,
}

impl HeaderLock {
    fn fresh() -> HeaderLock {
        HeaderLock { locked: false, offset: 0, run: 0, bad: 0 }
    }

    fn is_in_range(&self, mode: &Mode) -> bool {
        let bad = if self.locked { LOST_AFTER - 1 } else { 0 };
        self.run < LOCKED_AFTER && self.bad <= bad && self.offset < mode.block_bits() as u32
    }

    fn step(mut self, mode: &Mode, header: Header) -> HeaderLock {
        if !header.is_invalid() {
            self.run += 1;
            if self.run == LOCKED_AFTER {
                self = HeaderLock { locked: true, run: 0, bad: 0, ..self };
            }
        } else if self.locked {
            self.run = 0;
            self.bad += 1;
            if self.bad == LOST_AFTER {
                self = HeaderLock { locked: false, bad: 0, ..self };
            }
        } else {
            self.run = 0;
            self.offset = (self.offset + 1) % mode.block_bits() as u32;
        }
        self
    }
}

impl ExtendedLock {
    fn fresh() -> ExtendedLock {
        ExtendedLock { phase: Phase::Hunting, seen: 0, headers: [false; BLOCKS], good: 0, bad: 0, next: 0, kept: 0 }
    }

    /// At most 32 headers were seen, and a missing one is 0.
    fn headers_are_in_range(&self) -> bool {
        let missing = BLOCKS - (self.seen as usize).min(BLOCKS);
        self.seen as usize <= BLOCKS && self.headers[..missing].iter().all(|bit| !bit)
    }

    /// Of the blocks to the looks while following: those to the kept phase's are not those to the followed one's.
    fn looks_are_in_range(&self, e: u32) -> bool {
        (1..=32 * e).contains(&self.next) && self.kept <= 32 * e && self.kept != self.next
    }

    fn is_in_range(&self, e: u32) -> bool {
        let look = 1..=32 * e;
        let fields = match self.phase {
            Phase::Hunting => (self.good, self.bad, self.next, self.kept) == (0, 0, 0, 0),
            Phase::Following => {
                (1..EXTENDED_LOCKED_AFTER).contains(&self.good) && self.bad == 0 && self.looks_are_in_range(e)
            }
            Phase::Locked => {
                (self.good, self.kept) == (0, 0) && self.bad < EXTENDED_LOST_AFTER && look.contains(&self.next)
            }
        };
        fields && self.headers_are_in_range()
    }

    fn see(&mut self, header: Header) {
        self.headers.rotate_left(1);
        self.headers[BLOCKS - 1] = header.carries();
        self.seen = (self.seen + 1).min(BLOCKS as u32);
    }

    pub fn matches(&self) -> bool {
        let pilot = [false, false, false, false, true];
        self.seen as usize == BLOCKS && self.headers[END_MARK] && self.headers[PILOT..] == pilot
    }

    /// One block nearer to each look. The kept phase's own passes are counted on, and nothing is looked at there.
    fn count_down(&mut self, e: u32) {
        self.next = self.next.saturating_sub(1);
        self.kept = match self.kept {
            0 => 0,
            1 => 32 * e,
            blocks => blocks - 1,
        };
    }

    fn hunt(self) -> ExtendedLock {
        ExtendedLock { phase: Phase::Hunting, good: 0, bad: 0, next: 0, kept: 0, ..self }
    }

    /// What is kept stays so until locking.
    fn follow(self, good: u32, e: u32) -> ExtendedLock {
        if good == EXTENDED_LOCKED_AFTER {
            ExtendedLock { phase: Phase::Locked, good: 0, bad: 0, next: 32 * e, kept: 0, ..self }
        } else {
            ExtendedLock { phase: Phase::Following, good, bad: 0, next: 32 * e, ..self }
        }
    }

    /// A match between two looks: the earliest is kept, and later ones change nothing.
    fn keep(self, between: Between, e: u32) -> ExtendedLock {
        match (between, self.kept) {
            (Between::Kept, 0) => ExtendedLock { kept: 32 * e, ..self },
            _ => self,
        }
    }

    /// The followed phase failed: the kept one is followed at once, and with none kept it hunts.
    fn fail(self) -> ExtendedLock {
        if self.kept == 0 {
            self.hunt()
        } else {
            ExtendedLock { good: 1, next: self.kept, kept: 0, ..self }
        }
    }

    fn hold(self, bad: u32, e: u32) -> ExtendedLock {
        if bad == EXTENDED_LOST_AFTER {
            self.hunt()
        } else {
            ExtendedLock { bad, next: 32 * e, ..self }
        }
    }

    pub fn step(mut self, between: Between, e: u32, header: Header) -> ExtendedLock {
        self.see(header);
        self.count_down(e);
        let looks = self.next == 0;
        match (self.phase, looks, self.matches()) {
            (Phase::Hunting, _, true) => self.follow(1, e),
            (Phase::Following, true, true) => self.follow(self.good + 1, e),
            (Phase::Following, true, false) => self.fail(),
            (Phase::Following, false, true) => self.keep(between, e),
            (Phase::Locked, true, true) => self.hold(0, e),
            (Phase::Locked, true, false) => self.hold(self.bad + 1, e),
            _ => self,
        }
    }
}

impl Lock {
    pub fn fresh() -> Lock {
        Lock { header: HeaderLock::fresh(), extended: ExtendedLock::fresh() }
    }

    fn is_in_range(&self, mode: &Mode, e: u32) -> bool {
        let together = self.header.locked || self.extended == ExtendedLock::fresh();
        self.header.is_in_range(mode) && self.extended.is_in_range(e) && together
    }

    /// The fields in their order: header lock's locked, offset, run, bad; extended lock's phase (0 hunting, 1 following,
    /// 2 locked), seen, headers (the latest is bit 0), good, bad, next, kept.
    pub fn numbers(&self) -> [u64; 11] {
        let (header, extended) = (&self.header, &self.extended);
        [
            u64::from(header.locked),
            u64::from(header.offset),
            u64::from(header.run),
            u64::from(header.bad),
            extended.phase as u64,
            u64::from(extended.seen),
            bits::number(&extended.headers),
            u64::from(extended.good),
            u64::from(extended.bad),
            u64::from(extended.next),
            u64::from(extended.kept),
        ]
    }
}

/// The lowest number of refusal that applies, or 0.
fn refusal(number: u8, e: u32, lock: &Lock, value: u8) -> u8 {
    let Some(mode) = mode(number) else { return 1 };
    if !is_extent(e) {
        2
    } else if !lock.is_in_range(mode, e) {
        3
    } else if value > 3 {
        9
    } else {
        0
    }
}

/// Both locks after one more header, given by its value, by one of the two tables. The header that gives header lock does
/// not step extended lock.
pub fn step_by(between: Between, number: u8, e: u32, lock: Lock, value: u8) -> Stepped {
    let refusal = refusal(number, e, &lock, value);
    let (0, Some(mode)) = (refusal, mode(number)) else { return Stepped { refusal, lock } };
    let header = Header::of(value);
    let after = lock.header.step(mode, header);
    let extended =
        if lock.header.locked && after.locked { lock.extended.step(between, e, header) } else { ExtendedLock::fresh() };
    Stepped { refusal: 0, lock: Lock { header: after, extended } }
}

/// As the library steps: by request 4's table.
pub fn step(number: u8, e: u32, lock: Lock, value: u8) -> Stepped {
    step_by(Between::Kept, number, e, lock, value)
}

#[cfg(test)]
mod tests {
    use super::{step, step_by, Between, ExtendedLock, HeaderLock, Lock, Phase};
    use crate::frame::header_values;
    use crate::mode::row;
    use crate::pilot::{planted, ONE, ZERO};
    use crate::sender::{send, Sender};

    const BAD: u8 = 3;

    fn stepped(e: u32, lock: Lock, headers: &[u8]) -> Lock {
        stepped_in(0, e, lock, headers)
    }

    fn stepped_in(mode: u8, e: u32, lock: Lock, headers: &[u8]) -> Lock {
        headers.iter().fold(lock, |lock, header| {
            let stepped = step(mode, e, lock, *header);
            assert_eq!(stepped.refusal, 0);
            stepped.lock
        })
    }

    fn header_locked() -> Lock {
        stepped(1, Lock::fresh(), &[ZERO; 64])
    }

    /// A multiblock's headers, with its end mark and the five last bits.
    fn word(matching: bool) -> Vec<u8> {
        let mut headers = vec![ZERO; 32];
        headers[22] = if matching { ONE } else { ZERO };
        headers[31] = ONE;
        headers
    }

    fn words(matching: &[bool]) -> Vec<u8> {
        matching.iter().flat_map(|matching| word(*matching)).collect()
    }

    #[test]
    fn header_lock_at_64() {
        let nearly = stepped(1, Lock::fresh(), &[ONE; 63]);
        assert_eq!(nearly.header, HeaderLock { locked: false, offset: 0, run: 63, bad: 0 });
        let lock = stepped(1, nearly, &[ZERO]);
        assert_eq!(lock.header, HeaderLock { locked: true, offset: 0, run: 0, bad: 0 });
        assert_eq!(lock.extended, ExtendedLock::fresh());
        assert_eq!(stepped(1, lock, &[ONE]).extended.seen, 1);
    }

    #[test]
    fn an_invalid_header_slips_by_one() {
        let slipped = stepped(1, stepped(1, Lock::fresh(), &[ONE; 40]), &[BAD, 0]);
        assert_eq!(slipped.header, HeaderLock { locked: false, offset: 2, run: 0, bad: 0 });
        assert_eq!(stepped(1, slipped, &[BAD; 64]).header.offset, 0);
    }

    #[test]
    fn the_offset_moves_modulo_the_width() {
        for (mode, bits) in [(0, 66), (1, 66), (2, 80), (3, 80)] {
            let last = stepped_in(mode, 1, Lock::fresh(), &vec![BAD; bits - 1]);
            assert_eq!(last.header.offset as usize, bits - 1);
            assert_eq!(stepped_in(mode, 1, last, &[BAD]), Lock::fresh());
        }
    }

    #[test]
    fn header_lock_is_lost_at_16() {
        let nearly = stepped(1, header_locked(), &[BAD; 15]);
        assert_eq!(nearly.header, HeaderLock { locked: true, offset: 0, run: 0, bad: 15 });
        assert_eq!(nearly.extended.seen, 15);
        let lost = stepped(1, nearly, &[BAD]);
        assert_eq!(lost, Lock::fresh());
    }

    #[test]
    fn a_run_of_64_forgives() {
        let forgiven = stepped(1, stepped(1, header_locked(), &[BAD; 15]), &[ONE; 64]);
        assert_eq!(forgiven.header, HeaderLock { locked: true, offset: 0, run: 0, bad: 0 });
        let short = stepped(1, stepped(1, header_locked(), &[BAD; 15]), &[ONE; 63]);
        assert!(!stepped(1, short, &[BAD]).header.locked);
    }

    #[test]
    fn a_match_wants_32_headers() {
        let nearly = stepped(1, header_locked(), &word(true)[1..]);
        assert_eq!((nearly.extended.phase, nearly.extended.seen), (Phase::Hunting, 31));
        let following = stepped(1, header_locked(), &word(true));
        let is = following.extended;
        assert_eq!((is.phase, is.seen, is.good, is.bad, is.next), (Phase::Following, 32, 1, 0, 32));
    }

    #[test]
    fn extended_lock_at_4_and_lost_at_8() {
        let three = stepped(1, header_locked(), &words(&[true; 3]));
        assert_eq!((three.extended.phase, three.extended.good), (Phase::Following, 3));
        let four = stepped(1, three, &word(true));
        let is = four.extended;
        assert_eq!((is.phase, is.good, is.bad, is.next), (Phase::Locked, 0, 0, 32));
        let seven = stepped(1, four, &words(&[false; 7]));
        assert_eq!((seven.extended.phase, seven.extended.bad), (Phase::Locked, 7));
        assert_eq!(stepped(1, seven, &word(true)).extended.bad, 0);
        let eight = stepped(1, seven, &word(false)).extended;
        assert_eq!((eight.phase, eight.seen, eight.good, eight.bad, eight.next), (Phase::Hunting, 32, 0, 0, 0));
        assert!(eight.headers[31]);
    }

    #[test]
    fn a_miss_while_following_hunts() {
        let hunts = stepped(1, header_locked(), &words(&[true, true, false]));
        assert_eq!((hunts.extended.phase, hunts.extended.good), (Phase::Hunting, 0));
    }

    /// The state after so many blocks of a lane of zeros with pilots, E 2, the first block being that after header lock.
    fn after(between: Between, pilots: &[usize], blocks: usize) -> ExtendedLock {
        let headers = planted(300, pilots);
        headers[..blocks]
            .iter()
            .fold(header_locked(), |lock, header| step_by(between, 0, 2, lock, *header).lock)
            .extended
    }

    fn check_along(pilots: &[usize], looks: &[(usize, Phase, u32, u32, u32)]) {
        for (blocks, phase, good, next, kept) in looks {
            let is = after(Between::Kept, pilots, *blocks);
            assert_eq!((is.phase, is.good, is.next, is.kept), (*phase, *good, *next, *kept), "after {blocks}");
        }
    }

    #[test]
    fn by_document_01_matches_in_between_are_ignored() {
        let pilots = [40, 60, 80, 104, 124];
        assert!((0..300).all(|blocks| after(Between::Ignored, &pilots, blocks).kept == 0));
        let [failed, hunted] = [167, 168].map(|blocks| after(Between::Ignored, &pilots, blocks));
        assert_eq!((failed.phase, failed.good, failed.next), (Phase::Following, 2, 1));
        assert_eq!((hunted.phase, hunted.good, hunted.next), (Phase::Hunting, 0, 0));
    }

    #[test]
    fn the_earliest_match_in_between_is_kept() {
        let steps = [
            (40, Phase::Following, 1, 64, 0),
            (59, Phase::Following, 1, 45, 0),
            (60, Phase::Following, 1, 44, 64),
            (61, Phase::Following, 1, 43, 63),
            (79, Phase::Following, 1, 25, 45),
            (80, Phase::Following, 1, 24, 44),
            (81, Phase::Following, 1, 23, 43),
        ];
        check_along(&[40, 60, 80], &steps);
    }

    #[test]
    fn a_look_that_matches_leaves_the_kept_one() {
        check_along(&[40, 60, 104], &[(103, Phase::Following, 1, 1, 21), (104, Phase::Following, 2, 64, 20)]);
    }

    /// Neither a match there nor none changes anything: the count starts again.
    #[test]
    fn the_kept_phase_is_not_looked_at() {
        let steps = [(123, Phase::Following, 2, 45, 1), (124, Phase::Following, 2, 44, 64)];
        check_along(&[40, 60, 104], &steps);
        check_along(&[40, 60, 104, 124], &steps);
    }

    /// Even if its own pass had no match, and then by its own phase's next look, not by a whole period from here.
    #[test]
    fn the_kept_phase_is_followed_when_the_followed_one_fails() {
        let at_once = [(103, Phase::Following, 1, 1, 21), (104, Phase::Following, 1, 20, 0)];
        check_along(&[40, 60], &at_once);
        let later =
            [(167, Phase::Following, 2, 1, 21), (168, Phase::Following, 1, 20, 0), (188, Phase::Hunting, 0, 0, 0)];
        check_along(&[40, 60, 104], &later);
        check_along(&[40, 60, 104, 124], &later);
        check_along(&[40, 60, 104, 188], &[(187, Phase::Following, 1, 1, 0), (188, Phase::Following, 2, 64, 0)]);
    }

    #[test]
    fn after_adopting_another_may_be_kept() {
        let steps =
            [(109, Phase::Following, 1, 15, 0), (110, Phase::Following, 1, 14, 64), (124, Phase::Following, 1, 50, 0)];
        check_along(&[40, 60, 110], &steps);
    }

    #[test]
    fn with_none_kept_a_failed_look_hunts() {
        check_along(&[40], &[(103, Phase::Following, 1, 1, 0), (104, Phase::Hunting, 0, 0, 0)]);
    }

    #[test]
    fn locking_drops_the_kept_phase() {
        let steps = [(231, Phase::Following, 3, 1, 21), (232, Phase::Locked, 0, 64, 0), (252, Phase::Locked, 0, 44, 0)];
        check_along(&[40, 60, 104, 168, 232, 252], &steps);
    }

    #[test]
    fn losing_header_lock_drops_the_kept_phase() {
        let kept = Lock { extended: after(Between::Kept, &[40, 60], 60), ..header_locked() };
        assert_eq!(stepped(2, kept, &[BAD; 15]).extended.kept, 49);
        assert_eq!(stepped(2, kept, &[BAD; 16]), Lock::fresh());
    }

    /// From every accepted count of blocks, with and without a match. With something kept no look leads to hunting.
    #[test]
    fn the_two_looks_never_meet() {
        for (e, next, kept) in [1, 2].into_iter().flat_map(|e| pairs_up_to(32 * e).map(move |(n, k)| (e, n, k))) {
            for (matching, good) in [(false, 1), (false, 3), (true, 1), (true, 3)] {
                let headers = std::array::from_fn(|k| k == 23 && matching);
                let extended = ExtendedLock {
                    phase: Phase::Following,
                    seen: 32,
                    headers,
                    good,
                    next,
                    kept,
                    ..ExtendedLock::fresh()
                };
                let after = stepped(e, Lock { extended, ..header_locked() }, &[ONE]);
                assert_eq!(refusal_of(e, after), 0);
                assert!(kept == 0 || after.extended.phase != Phase::Hunting);
            }
        }
    }

    /// Every number from 1 on beside every other from 0 on.
    fn pairs_up_to(most: u32) -> impl Iterator<Item = (u32, u32)> {
        (1..=most).flat_map(move |one| (0..=most).filter(move |other| *other != one).map(move |other| (one, other)))
    }

    #[test]
    fn an_invalid_header_carries_0() {
        let mut headers = word(true);
        headers[27] = BAD;
        assert_eq!(stepped(1, header_locked(), &headers).extended.phase, Phase::Following);
        headers[22] = BAD;
        assert_eq!(stepped(1, header_locked(), &headers).extended.phase, Phase::Hunting);
    }

    /// The headers of an undamaged lane, from a fresh sender.
    fn lane_headers(mode: u8, e: u32, multiblocks: usize) -> Vec<u8> {
        let mut lane = vec![0; row(mode).lane_octets() * multiblocks];
        let user: Vec<u8> = (0..256 * multiblocks).map(|k| (k * k / 11) as u8).collect();
        send(mode, e, Sender::fresh(), &user, &vec![0; multiblocks], &mut lane);
        header_values(row(mode), &lane)
    }

    /// Nothing is kept on the way.
    fn blocks_to_both(mode: u8, e: u32, headers: &[u8]) -> usize {
        let mut lock = Lock::fresh();
        let both = |lock: &Lock| lock.header.locked && lock.extended.phase == Phase::Locked;
        let mut taken = 0;
        while !both(&lock) {
            lock = stepped_in(mode, e, lock, &headers[taken..=taken]);
            assert_eq!(lock.extended.kept, 0);
            taken += 1;
        }
        assert!(headers[taken..].iter().all(|header| {
            lock = stepped_in(mode, e, lock, &[*header]);
            both(&lock)
        }));
        taken
    }

    /// The bound 95 + 128 E is met from every block, and attained from some: the pilot's ending fits at no other phase, in
    /// whatever mode has the fixed bits of Table 41.
    #[test]
    fn an_undamaged_lane_without_fec_is_held() {
        for (mode, e) in [0, 2, 4, 5].into_iter().flat_map(|mode| [1, 2, 3].map(|e| (mode, e))) {
            let headers = lane_headers(mode, e, 6 * e as usize + 4);
            let worst = (0..32 * e as usize).map(|from| blocks_to_both(mode, e, &headers[from..])).max();
            assert_eq!(worst, Some(95 + 128 * e as usize));
        }
    }

    fn refusal_of(e: u32, lock: Lock) -> u8 {
        let stepped = step(0, e, lock, ONE);
        assert!(stepped.refusal == 0 || stepped.lock == lock);
        stepped.refusal
    }

    #[test]
    fn refusals_of_arguments() {
        assert_eq!([0, 1, 2, 3, 4, 5].map(|mode| step(mode, 1, Lock::fresh(), ONE).refusal), [0; 6]);
        assert_eq!([6, 7, 255].map(|mode| step(mode, 1, Lock::fresh(), ONE).refusal), [1; 3]);
        assert_eq!([0, 1, 256, 257].map(|e| step(0, e, Lock::fresh(), ONE).refusal), [2, 0, 0, 2]);
        assert_eq!([0, 1, 2, 3, 4, 255].map(|header| step(0, 1, Lock::fresh(), header).refusal), [0, 0, 0, 0, 9, 9]);
        let bad = Lock { header: HeaderLock { run: 64, ..HeaderLock::fresh() }, ..Lock::fresh() };
        assert_eq!([step(6, 0, bad, 4).refusal, step(0, 0, bad, 4).refusal, step(0, 1, bad, 4).refusal], [1, 2, 3]);
    }

    #[test]
    fn refusals_of_header_locks() {
        let check = |header, refusal| assert_eq!(refusal_of(1, Lock { header, ..Lock::fresh() }), refusal);
        let locked = HeaderLock { locked: true, offset: 65, run: 63, bad: 15 };
        check(locked, 0);
        check(HeaderLock { run: 64, ..locked }, 3);
        check(HeaderLock { bad: 16, ..locked }, 3);
        check(HeaderLock { offset: 66, ..locked }, 3);
        let wide = [3, 3, 0, 0, 3, 3];
        for (offset, refused) in [(65, [0; 6]), (66, wide), (79, wide), (80, [3; 6])] {
            let lock = Lock { header: HeaderLock { offset, ..locked }, ..Lock::fresh() };
            assert_eq!([0, 1, 2, 3, 4, 5].map(|mode| step(mode, 1, lock, ONE).refusal), refused);
        }
        check(HeaderLock { locked: false, bad: 0, ..locked }, 0);
        check(HeaderLock { locked: false, bad: 1, ..locked }, 3);
    }

    #[test]
    fn refusals_of_extended_locks() {
        let check = |extended, refusal| assert_eq!(refusal_of(2, Lock { extended, ..header_locked() }), refusal);
        let fresh = ExtendedLock::fresh();
        let mut headers = [false; 32];
        headers[16] = true;
        check(ExtendedLock { seen: 16, headers, ..fresh }, 0);
        check(ExtendedLock { seen: 15, headers, ..fresh }, 3);
        check(ExtendedLock { seen: 32, headers: [true; 32], ..fresh }, 0);
        check(ExtendedLock { seen: 33, headers: [true; 32], ..fresh }, 3);
        check(ExtendedLock { good: 1, ..fresh }, 3);
        check(ExtendedLock { bad: 1, ..fresh }, 3);
        check(ExtendedLock { next: 1, ..fresh }, 3);
        let following = ExtendedLock { phase: Phase::Following, good: 1, next: 1, ..fresh };
        check(following, 0);
        check(ExtendedLock { good: 0, ..following }, 3);
        check(ExtendedLock { good: 3, ..following }, 0);
        check(ExtendedLock { good: 4, ..following }, 3);
        check(ExtendedLock { bad: 1, ..following }, 3);
        check(ExtendedLock { next: 0, ..following }, 3);
        check(ExtendedLock { next: 64, ..following }, 0);
        check(ExtendedLock { next: 65, ..following }, 3);
        let locked = ExtendedLock { phase: Phase::Locked, bad: 7, next: 64, ..fresh };
        check(locked, 0);
        check(ExtendedLock { bad: 8, ..locked }, 3);
        check(ExtendedLock { good: 1, ..locked }, 3);
        check(ExtendedLock { next: 0, ..locked }, 3);
        check(ExtendedLock { next: 65, ..locked }, 3);
    }

    #[test]
    fn refusals_of_kept_phases() {
        let check = |e, extended, refusal| assert_eq!(refusal_of(e, Lock { extended, ..header_locked() }), refusal);
        let fresh = ExtendedLock::fresh();
        for e in [1, 2, 256] {
            for next in [1, 7, 32 * e] {
                let following = ExtendedLock { phase: Phase::Following, good: 1, next, ..fresh };
                for kept in [0, 1, 6, 7, 8, 32 * e - 1, 32 * e] {
                    check(e, ExtendedLock { kept, ..following }, if kept == next { 3 } else { 0 });
                }
                for kept in [32 * e + 1, 64 * e, u32::MAX] {
                    check(e, ExtendedLock { kept, ..following }, 3);
                }
            }
        }
        let locked = ExtendedLock { phase: Phase::Locked, next: 64, ..fresh };
        for kept in [1, 63, 64, 65] {
            check(2, ExtendedLock { kept, ..fresh }, 3);
            check(2, ExtendedLock { kept, ..locked }, 3);
        }
        assert_eq!(refusal_of(2, Lock { extended: ExtendedLock { kept: 1, ..fresh }, ..Lock::fresh() }), 3);
    }

    #[test]
    fn extended_lock_is_fresh_while_header_lock_hunts() {
        let hunting = Lock { extended: ExtendedLock { seen: 1, ..ExtendedLock::fresh() }, ..Lock::fresh() };
        assert_eq!(refusal_of(1, hunting), 3);
        assert_eq!(refusal_of(1, Lock { header: HeaderLock { locked: true, ..HeaderLock::fresh() }, ..hunting }), 0);
    }
}
