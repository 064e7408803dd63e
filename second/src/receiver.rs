//! The receiver, bit by bit (document 01, "What the receiver releases" and "Numbers of refusal"). A multiblock waits
//! until the next has come with its parity, or with what is missing of it: with CRC-3 three groups' came with the multiblock
//! itself, and are kept in `own` (document 02, request 5). A group and its parity are a codeword. The parity agrees where
//! long division leaves nothing of any; else, in FEC mode, the burst that leaves the same is flipped. Without groups nothing
//! can disagree. With each goes how many of its own headers were invalid (request 1). The state counts what was released so far,
//! by what the statuses say (request 7).

use std::collections::HashMap;
use std::sync::LazyLock;

use crate::bits;
use crate::bursts::{self, Burst};
use crate::frame::Multiblock;
use crate::mode::{mode, Mode, BLOCKS, DATA_BITS, USER_OCTETS};
use crate::scrambler::{descramble, HISTORY_BITS};

const UNTRUSTED: u8 = 4;

/// Multiblocks released from a fresh state on, by what their statuses say. None goes above `u32::MAX`.
#[derive(Clone, Copy, Debug, Default, PartialEq)]
pub struct Counts {
    /// Of statuses 0 and 4, also in mode 5, where nothing was checked.
    pub sound: u32,
    /// Of statuses 1 and 5.
    pub repaired: u32,
    /// Of statuses 2 and 6.
    pub failed: u32,
}

impl Counts {
    /// With one more release of that status: 4, 5 and 6 are counted as 0, 1 and 2. A count that has come to the greatest number
    /// stays there.
    fn with(self, status: u8) -> Counts {
        let mut counts = self;
        let count = match status % UNTRUSTED {
            0 => &mut counts.sound,
            1 => &mut counts.repaired,
            _ => &mut counts.failed,
        };
        *count = count.saturating_add(1);
        counts
    }
}

#[derive(Clone, Debug, PartialEq)]
pub struct Receiver {
    pub waiting: bool,
    pub octets: [u8; USER_OCTETS],
    pub history: u64,
    pub trusted: bool,
    pub command: u32,
    /// Invalid headers of the multiblock that waits.
    pub invalid: u8,
    /// Its parity as far as it came with its own sync word.
    pub own: u16,
    pub counts: Counts,
}

#[derive(Debug, PartialEq)]
pub struct Received {
    pub refusal: u8,
    /// Multiblocks released.
    pub count: usize,
    pub state: Receiver,
}

/// What the caller lends.
#[derive(Clone, Debug, PartialEq)]
pub struct Lent {
    pub octets: Vec<u8>,
    pub statuses: Vec<u8>,
    pub commands: Vec<u32>,
    pub places: Vec<u16>,
    pub patterns: Vec<u16>,
    /// Invalid headers of each.
    pub invalid: Vec<u8>,
}

impl Lent {
    /// Zeros for so many multiblocks.
    pub fn room_for(count: usize) -> Lent {
        Lent {
            octets: vec![0; USER_OCTETS * count],
            statuses: vec![0; count],
            commands: vec![0; count],
            places: vec![0; count],
            patterns: vec![0; count],
            invalid: vec![0; count],
        }
    }

    /// The first places of another, so many multiblocks, go to the end of these.
    pub fn append(&mut self, other: &Lent, count: usize) {
        self.octets.extend(&other.octets[..USER_OCTETS * count]);
        self.statuses.extend(&other.statuses[..count]);
        self.commands.extend(&other.commands[..count]);
        self.places.extend(&other.places[..count]);
        self.patterns.extend(&other.patterns[..count]);
        self.invalid.extend(&other.invalid[..count]);
    }

    fn holds(&self, count: usize) -> bool {
        let Lent { octets, statuses, commands, places, patterns, invalid } = self;
        let lists = [statuses.len(), commands.len(), places.len(), patterns.len(), invalid.len()];
        octets.len() >= USER_OCTETS * count && lists.iter().all(|length| *length >= count)
    }

    fn write(&mut self, k: usize, release: &Release) {
        self.octets[USER_OCTETS * k..][..USER_OCTETS].copy_from_slice(&release.octets);
        self.statuses[k] = release.status;
        self.commands[k] = release.command;
        self.places[k] = release.place;
        self.patterns[k] = release.pattern;
        self.invalid[k] = release.invalid;
    }
}

struct Release {
    octets: Vec<u8>,
    status: u8,
    command: u32,
    place: u16,
    pattern: u16,
    invalid: u8,
}

/// Every burst that can be mended, by what it leaves.
static BURSTS: LazyLock<HashMap<u32, Burst>> = LazyLock::new(bursts::by_remainder);

/// What a multiblock turns out to be.
enum Verdict {
    Agrees,
    Repaired(Burst),
    Failed,
}

impl Verdict {
    /// By what is left of its groups.
    fn of(mode: &Mode, left: &[u32]) -> Verdict {
        match left {
            _ if left.iter().all(|left| *left == 0) => Verdict::Agrees,
            [left] if mode.word.repairs => BURSTS.get(left).map_or(Verdict::Failed, |burst| Verdict::Repaired(*burst)),
            _ => Verdict::Failed,
        }
    }

    /// The data bits that are flipped back.
    fn flipped_positions(&self) -> Vec<usize> {
        match self {
            Verdict::Repaired(burst) => {
                burst.positions().into_iter().filter(|position| *position < DATA_BITS).collect()
            }
            _ => vec![],
        }
    }

    /// Status, place and pattern.
    fn numbers(&self) -> (u8, u16, u16) {
        match self {
            Verdict::Agrees => (0, 0, 0),
            Verdict::Repaired(burst) => (1, burst.place as u16, burst.pattern as u16),
            Verdict::Failed => (2, 0, 0),
        }
    }
}

impl Receiver {
    pub fn fresh() -> Receiver {
        Receiver {
            waiting: false,
            octets: [0; USER_OCTETS],
            history: 0,
            trusted: false,
            command: 0,
            invalid: 0,
            own: 0,
            counts: Counts::default(),
        }
    }

    /// With nothing waiting all is 0, the counts too; with one waiting they may be any.
    fn is_in_range(&self, mode: &Mode) -> bool {
        let fits = self.history >> HISTORY_BITS == 0 && self.command <= mode.word.highest_received();
        let numbers = usize::from(self.invalid) <= BLOCKS && self.own >> mode.word.code.own_width() == 0;
        fits && numbers && (self.waiting || *self == Receiver::fresh())
    }

    /// How many are released when so many are received.
    fn released(&self, received: usize) -> usize {
        if self.waiting {
            received
        } else {
            received.saturating_sub(1)
        }
    }

    /// The multiblock that has come waits from now on.
    fn waiting_with(mode: &Mode, come: &Multiblock, history: u64, trusted: bool, counts: Counts) -> Receiver {
        let octets = bits::octets(&come.data).try_into().expect("a multiblock has 256 octets of data");
        let command = mode.word.layout.command(&come.headers);
        let own = mode.word.layout.own(&come.headers) as u16;
        Receiver { waiting: true, octets, history, trusted, command, invalid: come.headers.invalid(), own, counts }
    }

    /// The multiblock that waits is released, now that the next one has come.
    fn release(&self, mode: &Mode, come: &Multiblock) -> (Receiver, Release) {
        let code = mode.word.code;
        let parity = code.together(u32::from(self.own), mode.word.layout.before(&come.headers));
        let mut data = bits::of_octets(&self.octets);
        let verdict = Verdict::of(mode, &code.left(&data, parity));
        for position in verdict.flipped_positions() {
            data[position] ^= true;
        }
        let (status, place, pattern) = verdict.numbers();
        let release = Release {
            octets: descramble(self.history, &data),
            status: if self.trusted { status } else { status + UNTRUSTED },
            command: self.command,
            place,
            pattern,
            invalid: self.invalid,
        };
        let history = bits::number(&data[DATA_BITS - HISTORY_BITS..]);
        let counts = self.counts.with(release.status);
        (Receiver::waiting_with(mode, come, history, status != 2, counts), release)
    }

    /// The state after a multiblock has come, and what was released.
    fn receive_one(&self, mode: &Mode, lane: &[u8]) -> (Receiver, Option<Release>) {
        let come = Multiblock::of(mode, &bits::of_octets(lane));
        if self.waiting {
            let (after, release) = self.release(mode, &come);
            (after, Some(release))
        } else {
            (Receiver::waiting_with(mode, &come, 0, false, self.counts), None)
        }
    }
}

/// The lowest number of refusal that applies, or 0.
fn refusal(number: u8, state: &Receiver, lane: &[u8], lent: &Lent) -> u8 {
    let Some(mode) = mode(number) else { return 1 };
    let multiblocks = lane.len() / mode.lane_octets();
    let refused = [
        (3, !state.is_in_range(mode)),
        (4, !lane.len().is_multiple_of(mode.lane_octets())),
        (5, multiblocks > mode.most),
        (7, !lent.holds(state.released(multiblocks))),
    ];
    refused.iter().find(|(_, applies)| *applies).map_or(0, |(number, _)| *number)
}

/// Receives the multiblocks of the lane's octets; what is released goes to the start of what is lent.
pub fn receive(number: u8, state: Receiver, lane: &[u8], lent: &mut Lent) -> Received {
    let refusal = refusal(number, &state, lane, lent);
    let (0, Some(mode)) = (refusal, mode(number)) else { return Received { refusal, count: 0, state } };
    let mut state = state;
    let mut count = 0;
    for octets in lane.chunks(mode.lane_octets()) {
        let (after, released) = state.receive_one(mode, octets);
        if let Some(release) = released {
            lent.write(count, &release);
            count += 1;
        }
        state = after;
    }
    Received { refusal: 0, count, state }
}

#[cfg(test)]
mod tests {
    use super::{receive, Counts, Lent, Received, Receiver};
    use crate::bits;
    use crate::frame::{fill_places, with_headers};
    use crate::mode::row;
    use crate::sender::{send, Sender};

    const E: u32 = 2;

    fn user(multiblocks: usize) -> Vec<u8> {
        (0..256 * multiblocks as u32).map(|k| (k * k / 5 + k / 256) as u8).collect()
    }

    fn lane(mode: u8, multiblocks: usize, command: u32) -> Vec<u8> {
        let mut lane = vec![0; row(mode).lane_octets() * multiblocks];
        let sent = send(mode, E, Sender::fresh(), &user(multiblocks), &vec![command; multiblocks], &mut lane);
        assert_eq!(sent.refusal, 0);
        lane
    }

    fn received(mode: u8, lane: &[u8]) -> (Received, Lent) {
        let mut lent = Lent::room_for(lane.len() / row(mode).lane_octets());
        let received = receive(mode, Receiver::fresh(), lane, &mut lent);
        (received, lent)
    }

    /// Flips codeword positions of multiblock 1 of a FEC lane: data, or parity in the headers of the next.
    fn flip(mode: u8, lane: &mut Vec<u8>, positions: &[usize]) {
        let (multiblock, block_bits) = (row(mode).multiblock_bits(), row(mode).block_bits());
        let mut all = bits::of_octets(lane);
        for position in positions {
            if *position < 2048 {
                all[multiblock + row(mode).data_place(*position)] ^= true;
            } else {
                let parity = position - 2048;
                let block = if parity < 22 { parity } else { parity + 1 };
                all[2 * multiblock + block_bits * block] ^= true;
                all[2 * multiblock + block_bits * block + 1] ^= true;
            }
        }
        *lane = bits::octets(&all);
    }

    /// Status, place and pattern of multiblock 1, and whether its octets are those sent; the same for both widths.
    fn after_flips(positions: &[usize]) -> (u8, u16, u16, bool) {
        let [narrow, wide] = [1, 3].map(|mode| after_flips_of(mode, positions));
        assert_eq!(narrow, wide);
        wide
    }

    fn after_flips_of(mode: u8, positions: &[usize]) -> (u8, u16, u16, bool) {
        let mut lane = lane(mode, 4, 0);
        flip(mode, &mut lane, positions);
        let (received, lent) = received(mode, &lane);
        assert_eq!(received.count, 3);
        let same = lent.octets[256..512] == user(4)[256..512];
        (lent.statuses[1], lent.places[1], lent.patterns[1], same)
    }

    #[test]
    fn a_clean_lane_comes_back() {
        for (mode, command) in [(0, 0x55), (1, 0), (2, 0x55), (3, 0), (4, 0x55), (5, 0x5_5AAA)] {
            let (received, lent) = received(mode, &lane(mode, 4, command));
            assert_eq!((received.refusal, received.count), (0, 3));
            assert_eq!(lent.octets[..768], user(4)[..768]);
            assert_eq!((lent.statuses, lent.commands), (vec![4, 0, 0, 0], vec![command, command, command, 0]));
            assert!(received.state.waiting && received.state.trusted);
        }
    }

    #[test]
    fn bursts_of_9_are_flipped_and_of_10_fail() {
        let ends = |place: usize, length: usize| vec![place, place + length - 1];
        assert_eq!(after_flips(&ends(0, 9)), (1, 0, 257, true));
        assert_eq!(after_flips(&ends(2065, 9)), (1, 2065, 257, true));
        assert_eq!(after_flips(&ends(2040, 9)), (1, 2040, 257, true));
        assert_eq!(after_flips(&(100..109).collect::<Vec<usize>>()), (1, 100, 511, true));
        assert_eq!(after_flips(&[2073]), (1, 2073, 1, true));
        assert_eq!(after_flips(&ends(0, 10)), (2, 0, 0, false));
        assert_eq!(after_flips(&ends(2064, 10)), (2, 0, 0, true));
        assert_eq!(after_flips(&[0, 2073]), (2, 0, 0, false));
    }

    #[test]
    fn after_a_failed_one_only_eight_octets_are_lost() {
        for mode in [1, 3] {
            let mut lane = lane(mode, 4, 0);
            flip(mode, &mut lane, &[1990, 2047]);
            let (_, lent) = received(mode, &lane);
            assert_eq!(lent.statuses[..3], [4, 2, 4]);
            assert_ne!(lent.octets[512..520], user(4)[512..520]);
            assert_eq!(lent.octets[520..768], user(4)[520..768]);
        }
    }

    #[test]
    fn crc_finds_and_mends_nothing() {
        for mode in [0, 2, 4] {
            let mut lane = lane(mode, 4, 9);
            flip(mode, &mut lane, &[700]);
            let (_, lent) = received(mode, &lane);
            assert_eq!((lent.statuses, lent.places, lent.patterns), (vec![4, 2, 4, 0], vec![0; 4], vec![0; 4]));
        }
    }

    #[test]
    fn fill_bits_are_ignored() {
        for mode in [2, 3] {
            let mut lane = lane(mode, 4, 0);
            flip(mode, &mut lane, &[5, 11]);
            let mut all = bits::of_octets(&lane);
            for (k, place) in fill_places(row(mode), 32 * 4).into_iter().enumerate() {
                all[place] = k * k % 11 < 5;
            }
            assert_eq!(received(mode, &bits::octets(&all)), received(mode, &lane));
        }
    }

    /// Statuses of the four that are released of a lane of five, with lane bits flipped that count from multiblock 1 on.
    fn statuses_after(mode: u8, lane: &[u8], flips: &[usize]) -> Vec<u8> {
        let mut all = bits::of_octets(lane);
        for flip in flips {
            all[row(mode).multiblock_bits() + flip] ^= true;
        }
        received(mode, &bits::octets(&all)).1.statuses[..4].to_vec()
    }

    /// A group that disagrees fails its multiblock, and a failed one takes the next one's trust. CRC-A, in blocks 0 to 2,
    /// is the parity of the multiblock before; B, C and D, in blocks 8 to 10, 16 to 18 and 24 to 26, are of its own.
    #[test]
    fn every_group_of_crc3_counts() {
        let clean = lane(4, 5, 0);
        let after = |flips: &[usize]| statuses_after(4, &clean, flips);
        for group in 0..4 {
            for bit in [0, 511] {
                assert_eq!(after(&[row(4).data_place(512 * group + bit)]), [4, 2, 4, 0]);
            }
        }
        let after_header = |block: usize| after(&[66 * block, 66 * block + 1]);
        assert!([8, 9, 10, 16, 17, 18, 24, 25, 26].iter().all(|block| after_header(*block) == [4, 2, 4, 0]));
        assert!([0, 1, 2].iter().all(|block| after_header(*block) == [6, 4, 0, 0]));
        assert!([3, 4, 7, 12, 20, 21, 22, 27, 31].iter().all(|block| after_header(*block) == [4, 0, 0, 0]));
    }

    /// Across each edge of a group, from 4 bits before it to 4 after it: a burst of at most 3 lane bits fails a multiblock
    /// if it hits data. Of the bursts of 4 only 1011 can be missed: within the data of a block it is, and it may be where
    /// its last bit is the first of a header.
    #[test]
    fn what_crc3_misses() {
        let clean = lane(4, 5, 0);
        let fails = |flips: &[usize]| statuses_after(4, &clean, flips).iter().any(|status| status & 2 == 2);
        let is_data = |bit: &usize| bit % 66 > 1;
        for first in (1..=4).flat_map(|group| 66 * 8 * group - 4..66 * 8 * group + 4) {
            let flips = |lane_order: &[usize]| lane_order.iter().map(|j| first + j).collect::<Vec<usize>>();
            for flips in [&[0][..], &[0, 1], &[0, 2], &[0, 1, 2]].map(flips) {
                assert!(fails(&flips) || !flips.iter().any(is_data));
            }
            assert!([&[0, 3][..], &[0, 1, 3], &[0, 1, 2, 3]].map(flips).iter().all(|flips| fails(flips)));
            if first % 66 > 1 && (first + 3) % 66 > 4 {
                assert!(!fails(&flips(&[0, 2, 3])));
            }
        }
    }

    #[test]
    fn nothing_disagrees_in_mode_5() {
        assert_eq!(statuses_after(5, &lane(5, 5, 1), &(0..2112).step_by(3).collect::<Vec<_>>()), [4, 0, 0, 0]);
        let (_, lent) = received(5, &[0xA5; 264 * 4]);
        assert_eq!((&lent.statuses[..3], lent.places, lent.patterns), (&[4, 0, 0][..], vec![0; 4], vec![0; 4]));
        let mut lane = lane(5, 4, 0x7_FFFF);
        flip(5, &mut lane, &[700]);
        let (_, lent) = received(5, &lane);
        assert_eq!((&lent.statuses[..3], lent.octets[256..512] == user(4)[256..512]), (&[4, 0, 0][..], false));
    }

    /// What came with the waiting multiblock's own sync word is kept, and only where there is such a thing.
    #[test]
    fn own_parity_is_kept() {
        for mode in 0..6 {
            let (after, _) = received(mode, &lane(mode, 3, 0));
            let parity = row(mode).word.code.parity(&bits::of_octets(&after.state.octets));
            let own = if mode == 4 { (parity >> 3) as u16 } else { 0 };
            assert_eq!((after.state.own, own > 0), (own, mode == 4));
        }
        let spoilt = with_headers(row(4), &lane(4, 2, 0), &(0..64).map(|block| (block, [true; 2])).collect::<Vec<_>>());
        assert_eq!(received(4, &spoilt).0.state.own, 0);
    }

    /// Blocks 4 to 6, 12 to 14 and 20 carry the command of CRC-3. In mode 5 it is all before block 27 but 3, 7, 11, 15, 19 and
    /// 21 to 23.
    #[test]
    fn an_invalid_header_marks_a_command_by_its_width() {
        for (mode, most, marks) in [(4, 0x7F, 0x0E0E_0800), (5, 0x7_FFFF, 0xEEEE_E8E0_u32)] {
            let clean = lane(mode, 3, most);
            for block in 0..32 {
                let (_, lent) = received(mode, &with_headers(row(mode), &clean, &[(32 + block, [false; 2])]));
                let marked = marks >> (31 - block) & 1 == 1;
                assert_eq!((lent.commands[0], lent.commands[1] > most), (most, marked));
                assert!(!marked || lent.commands[1] - most - 1 < most);
            }
        }
    }

    /// Blocks 16 to 18, 20 and 24 to 26 carry the command.
    #[test]
    fn an_invalid_header_marks_its_command() {
        for mode in [0, 2] {
            let clean = lane(mode, 3, 0x7F);
            for (block, command) in [(15, 0x7F), (16, 0xBF), (20, 0xF7), (22, 0x7F), (26, 0xFE), (27, 0x7F)] {
                let (_, lent) = received(mode, &with_headers(row(mode), &clean, &[(32 + block, [true, true])]));
                assert_eq!((lent.commands[0], lent.commands[1]), (0x7F, command));
            }
        }
    }

    #[test]
    fn a_wrong_mark_or_fixed_bit_changes_only_the_count() {
        for mode in 0..6 {
            let clean = lane(mode, 4, 0);
            for block in [22, 27, 31] {
                let spoilt = with_headers(row(mode), &clean, &[(32 * 2 + block, [false, false])]);
                let (state, mut lent) = received(mode, &spoilt);
                assert_eq!(lent.invalid, [0, 0, 1, 0]);
                lent.invalid = vec![0; 4];
                assert_eq!((state, lent), received(mode, &clean));
            }
        }
    }

    /// Multiblock 1 has every header 00, multiblock 2 every header 11; of multiblock 4 the first is 00 and the last 11, of
    /// multiblock 5 the first is 11.
    #[test]
    fn each_multiblock_has_its_own_count() {
        for mode in 0..6 {
            let whole = (32..64).map(|block| (block, [false; 2])).chain((64..96).map(|block| (block, [true; 2])));
            let headers: Vec<_> = whole.chain([(128, [false; 2]), (159, [true; 2]), (160, [true; 2])]).collect();
            let lane = with_headers(row(mode), &lane(mode, 6, 0), &headers);
            let octets = row(mode).lane_octets();
            let (all, lent) = received(mode, &lane);
            assert_eq!((&lent.invalid[..5], all.state.invalid), (&[0, 32, 32, 0, 2][..], 1));
            let mut lent = Lent::room_for(1);
            let head = receive(mode, Receiver::fresh(), &lane[..2 * octets], &mut lent);
            assert_eq!((&lent.invalid[..], head.state.invalid), (&[0][..], 32));
            receive(mode, head.state, &lane[2 * octets..3 * octets], &mut lent);
            assert_eq!(lent.invalid, [32]);
        }
    }

    #[test]
    fn a_lane_cut_anywhere_releases_the_same() {
        for mode in 0..6 {
            cut_anywhere(mode);
        }
    }

    fn cut_anywhere(mode: u8) {
        let headers = [(32, [true; 2]), (127, [false; 2]), (128, [true; 2])];
        let mut lane = with_headers(row(mode), &lane(mode, 5, 0), &headers);
        flip(mode, &mut lane, &[5, 9, 13]);
        let (whole, all) = received(mode, &lane);
        for cut in 0..=5 {
            let (head, tail) = lane.split_at(row(mode).lane_octets() * cut);
            let mut first = Lent::room_for(5);
            let head = receive(mode, Receiver::fresh(), head, &mut first);
            let mut second = Lent::room_for(5);
            let tail = receive(mode, head.state, tail, &mut second);
            assert_eq!((head.count, head.count + tail.count), (cut.saturating_sub(1), 4));
            assert_eq!(tail.state, whole.state);
            let octets = [&first.octets[..256 * head.count], &second.octets[..256 * tail.count]].concat();
            let statuses = [&first.statuses[..head.count], &second.statuses[..tail.count]].concat();
            let invalid = [&first.invalid[..head.count], &second.invalid[..tail.count]].concat();
            assert_eq!((&octets[..], &statuses[..]), (&all.octets[..1024], &all.statuses[..4]));
            assert_eq!(invalid[..], all.invalid[..4]);
        }
    }

    fn counts(sound: u32, repaired: u32, failed: u32) -> Counts {
        Counts { sound, repaired, failed }
    }

    #[test]
    fn each_status_has_its_count() {
        let after = |status| counts(10, 20, 30).with(status);
        assert_eq!([0, 4].map(after), [counts(11, 20, 30); 2]);
        assert_eq!([1, 5].map(after), [counts(10, 21, 30); 2]);
        assert_eq!([2, 6].map(after), [counts(10, 20, 31); 2]);
    }

    /// The status of a multiblock of FEC that waited with these counts, and the counts after it. Of the two that had come
    /// before its release it is the last, or the first, which has nothing before it; its flips are at these positions.
    fn released_from(given: Counts, trusted: bool, positions: &[usize]) -> (u8, Counts) {
        let mut lane = lane(1, 4, 0);
        flip(1, &mut lane, positions);
        let from = if trusted { 0 } else { 264 };
        let mut lent = Lent::room_for(1);
        let before = receive(1, Receiver::fresh(), &lane[from..528], &mut lent).state;
        let after = receive(1, Receiver { counts: given, ..before }, &lane[528..792], &mut lent);
        assert_eq!((after.refusal, after.count), (0, 1));
        (lent.statuses[0], after.state.counts)
    }

    /// From 4,294,967,294 a count goes to 4,294,967,295, and no further; the other two stay what they are.
    #[test]
    fn a_count_stops_at_the_greatest_number() {
        const MOST: u32 = 4_294_967_295;
        for (kind, positions) in [&[][..], &[7], &[0, 9]].into_iter().enumerate() {
            for trusted in [true, false] {
                let status = kind as u8 + if trusted { 0 } else { 4 };
                let near = counts(MOST - 1, MOST - 1, MOST - 1);
                let at = [
                    counts(MOST, MOST - 1, MOST - 1),
                    counts(MOST - 1, MOST, MOST - 1),
                    counts(MOST - 1, MOST - 1, MOST),
                ];
                assert_eq!(released_from(near, trusted, positions), (status, at[kind]));
                assert_eq!(released_from(at[kind], trusted, positions), (status, at[kind]));
                let past = [counts(1, MOST, MOST), counts(MOST, 1, MOST), counts(MOST, MOST, 1)];
                let given = [counts(0, MOST, MOST), counts(MOST, 0, MOST), counts(MOST, MOST, 0)];
                assert_eq!(released_from(given[kind], trusted, positions), (status, past[kind]));
            }
        }
    }

    /// What is counted is what was released: the multiblock that waits isn't among them.
    #[test]
    fn counts_go_on_from_call_to_call() {
        for (mode, statuses, end) in [
            (0, [4, 2, 4, 0], counts(3, 0, 1)),
            (1, [4, 1, 0, 0], counts(3, 1, 0)),
            (2, [4, 2, 4, 0], counts(3, 0, 1)),
            (3, [4, 1, 0, 0], counts(3, 1, 0)),
            (4, [4, 2, 4, 0], counts(3, 0, 1)),
            (5, [4, 0, 0, 0], counts(4, 0, 0)),
        ] {
            let mut lane = lane(mode, 5, 0);
            flip(mode, &mut lane, &[700]);
            let (whole, lent) = received(mode, &lane);
            assert_eq!((&lent.statuses[..4], whole.state.counts), (&statuses[..], end));
            let mut state = Receiver::fresh();
            for (k, octets) in lane.chunks(row(mode).lane_octets()).enumerate() {
                state = receive(mode, state, octets, &mut Lent::room_for(1)).state;
                let so_far = statuses[..k].iter().fold(Counts::default(), |counts, status| counts.with(*status));
                assert_eq!(state.counts, so_far);
            }
            assert_eq!(state, whole.state);
        }
    }

    /// Two states that differ only in counts release the same, and the states after it differ only in counts.
    #[test]
    fn counts_change_nothing_else() {
        for mode in 0..6 {
            let mut lane = lane(mode, 4, 0);
            flip(mode, &mut lane, &[5, 9, 13]);
            let (head, tail) = lane.split_at(row(mode).lane_octets());
            let before = receive(mode, Receiver::fresh(), head, &mut Lent::room_for(0)).state;
            let after = |given| {
                let mut lent = Lent::room_for(3);
                let received = receive(mode, Receiver { counts: given, ..before.clone() }, tail, &mut lent);
                (received.count, lent, received.state)
            };
            let (count, released, state) = after(Counts::default());
            let (count_again, released_again, other) = after(counts(1000, 2000, u32::MAX));
            assert_eq!((count_again, released_again), (count, released));
            let Counts { sound, repaired, .. } = state.counts;
            assert_eq!(other.counts, counts(1000 + sound, 2000 + repaired, u32::MAX));
            assert_eq!(Receiver { counts: state.counts, ..other }, state);
        }
    }

    /// A call without multiblocks and a refused one hand back what was given.
    #[test]
    fn counts_come_back_as_given() {
        let most = counts(u32::MAX, u32::MAX, u32::MAX);
        let waiting = |counts| Receiver { waiting: true, counts, ..Receiver::fresh() };
        for given in [counts(1, 2, 3), most].map(waiting) {
            let empty = receive(5, given.clone(), &[], &mut Lent::room_for(0));
            assert_eq!(empty, Received { refusal: 0, count: 0, state: given.clone() });
            assert_eq!(refusal_of(6, given.clone(), 264, Lent::room_for(1)), 1);
            assert_eq!(refusal_of(1, Receiver { command: 1, ..given.clone() }, 264, Lent::room_for(1)), 3);
            assert_eq!(refusal_of(1, given.clone(), 265, Lent::room_for(1)), 4);
            assert_eq!(refusal_of(1, given.clone(), 264 * 241, Lent::room_for(241)), 5);
            assert_eq!(refusal_of(1, given, 264, Lent::room_for(0)), 7);
        }
    }

    fn refusal_of(mode: u8, state: Receiver, lane: usize, lent: Lent) -> u8 {
        let mut exit = lent.clone();
        let received = receive(mode, state.clone(), &vec![0; lane], &mut exit);
        if received.refusal != 0 {
            assert_eq!(exit, lent);
            assert_eq!(received, Received { refusal: received.refusal, count: 0, state });
        }
        received.refusal
    }

    #[test]
    fn refusals_of_states() {
        let check = |mode, state, refusal| assert_eq!(refusal_of(mode, state, 0, Lent::room_for(0)), refusal);
        let waiting = || Receiver { waiting: true, octets: [9; 256], history: 5, trusted: true, ..Receiver::fresh() };
        check(6, waiting(), 1);
        check(255, waiting(), 1);
        check(0, waiting(), 0);
        check(5, waiting(), 0);
        check(0, Receiver { history: (1 << 58) - 1, ..waiting() }, 0);
        check(0, Receiver { history: 1 << 58, ..waiting() }, 3);
        for (mode, most) in [(0, 255), (1, 0), (2, 255), (3, 0), (4, 255), (5, 1_048_575)] {
            check(mode, Receiver { command: most, ..waiting() }, 0);
            check(mode, Receiver { command: most + 1, ..waiting() }, 3);
        }
        for (mode, most) in [(0, 0), (1, 0), (2, 0), (3, 0), (4, 511), (5, 0)] {
            check(mode, Receiver { own: most, ..waiting() }, 0);
            check(mode, Receiver { own: most + 1, ..waiting() }, 3);
            check(mode, Receiver { own: u16::MAX, ..waiting() }, 3);
            check(mode, Receiver { own: 1, ..Receiver::fresh() }, 3);
        }
        for mode in 0..6 {
            for (invalid, refusal) in [(1, 0), (32, 0), (33, 3), (255, 3)] {
                check(mode, Receiver { invalid, ..waiting() }, refusal);
            }
        }
        check(0, Receiver { command: 128, invalid: 0, ..waiting() }, 0);
        check(0, Receiver { invalid: 1, ..Receiver::fresh() }, 3);
        check(0, Receiver { history: 1, ..Receiver::fresh() }, 3);
        check(0, Receiver { command: 1, ..Receiver::fresh() }, 3);
        check(0, Receiver { trusted: true, ..Receiver::fresh() }, 3);
        let mut octets = [0; 256];
        octets[255] = 1;
        check(1, Receiver { octets, ..Receiver::fresh() }, 3);
    }

    /// Any count is accepted with one waiting, and none but 0 with nothing waiting.
    #[test]
    fn refusals_of_counts() {
        let check = |mode, state, refusal| assert_eq!(refusal_of(mode, state, 0, Lent::room_for(0)), refusal);
        for mode in 0..6 {
            for count in [1, u32::MAX - 1, u32::MAX] {
                for counts in
                    [counts(count, 0, 0), counts(0, count, 0), counts(0, 0, count), counts(count, count, count)]
                {
                    check(mode, Receiver { counts, ..Receiver::fresh() }, 3);
                    check(mode, Receiver { counts, waiting: true, ..Receiver::fresh() }, 0);
                }
            }
        }
    }

    #[test]
    fn refusals_of_sizes() {
        let waiting = || Receiver { waiting: true, ..Receiver::fresh() };
        assert_eq!([263, 264, 265].map(|lane| refusal_of(0, Receiver::fresh(), lane, Lent::room_for(0))), [4, 0, 4]);
        assert_eq!([319, 320, 321].map(|lane| refusal_of(2, Receiver::fresh(), lane, Lent::room_for(0))), [4, 0, 4]);
        assert_eq!(refusal_of(3, Receiver::fresh(), 64_000, Lent::room_for(199)), 0);
        assert_eq!(refusal_of(3, Receiver::fresh(), 64_000, Lent::room_for(198)), 7);
        assert_eq!(refusal_of(3, Receiver::fresh(), 64_320, Lent::room_for(0)), 5);
        for mode in [0, 4, 5] {
            assert_eq!(refusal_of(mode, Receiver::fresh(), 264 * 240, Lent::room_for(239)), 0);
            assert_eq!(refusal_of(mode, Receiver::fresh(), 264 * 240, Lent::room_for(238)), 7);
            assert_eq!(refusal_of(mode, Receiver::fresh(), 264 * 241, Lent::room_for(0)), 5);
        }
        assert_eq!(refusal_of(0, waiting(), 0, Lent::room_for(0)), 0);
        assert_eq!(refusal_of(0, waiting(), 264, Lent::room_for(0)), 7);
        let room = || Lent::room_for(1);
        assert_eq!(refusal_of(0, waiting(), 264, room()), 0);
        assert_eq!(refusal_of(0, waiting(), 264, Lent { octets: vec![0; 255], ..room() }), 7);
        assert_eq!(refusal_of(0, waiting(), 264, Lent { statuses: vec![], ..room() }), 7);
        assert_eq!(refusal_of(0, waiting(), 264, Lent { commands: vec![], ..room() }), 7);
        assert_eq!(refusal_of(0, waiting(), 264, Lent { places: vec![], ..room() }), 7);
        assert_eq!(refusal_of(0, waiting(), 264, Lent { patterns: vec![], ..room() }), 7);
        assert_eq!(refusal_of(0, waiting(), 264, Lent { invalid: vec![], ..room() }), 7);
    }

    #[test]
    fn the_lowest_number_wins() {
        let bad = || Receiver { history: 1, ..Receiver::fresh() };
        assert_eq!(refusal_of(6, bad(), 1, Lent::room_for(0)), 1);
        assert_eq!(refusal_of(1, bad(), 1, Lent::room_for(0)), 3);
        assert_eq!(refusal_of(1, Receiver::fresh(), 264 * 241 + 1, Lent::room_for(0)), 4);
        assert_eq!(refusal_of(1, Receiver::fresh(), 264 * 241, Lent::room_for(0)), 5);
    }
}
