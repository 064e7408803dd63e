//! Captures as a user would have them, each with a name. `second captures` prints those that are listed, as `second listings`
//! reads them; `second capture NAME` prints one of these, or of those that carry messages.

use crate::cases::Input;
use crate::command::{Channel, Word};
use crate::damaged::flipped;
use crate::frame::{fill_places, with_headers};
use crate::generator::Generator;
use crate::message;
use crate::mode::{row, BLOCKS, DATA_BITS, MODES, USER_OCTETS};
use crate::sync::Parity;

const CRC12: u8 = 0;
const FEC: u8 = 1;
const CRC12_80: u8 = 2;
const FEC_80: u8 = 3;
const CRC3: u8 = 4;
const COMMAND: u8 = 5;

/// The first number that is no mode.
const NO_MODE: u8 = MODES as u8;

#[derive(Clone)]
pub struct Case {
    pub name: String,
    pub capture: Vec<u8>,
}

fn case(name: impl Into<String>, capture: Vec<u8>) -> Case {
    Case { name: name.into(), capture }
}

fn counted(count: u32, octets: &[u8]) -> Vec<u8> {
    [&count.to_be_bytes(), octets].concat()
}

/// A capture whose two counts are given.
fn miscounted(first: u32, mode: u8, e: u16, second: u32, lane: &[u8]) -> Vec<u8> {
    let [high, low] = e.to_be_bytes();
    [counted(first, &[mode, high, low]), counted(second, lane)].concat()
}

/// A capture of a lane's octets.
pub fn capture(mode: u8, e: u16, lane: &[u8]) -> Vec<u8> {
    miscounted(3, mode, e, lane.len() as u32, lane)
}

/// The name and the capture of each, as sections.
pub fn packed(cases: &[Case]) -> Vec<u8> {
    let section = |octets: &[u8]| counted(octets.len() as u32, octets);
    cases.iter().flat_map(|case| [section(case.name.as_bytes()), section(&case.capture)].concat()).collect()
}

/// A seeded lane of so many multiblocks.
fn lane(seed: u64, mode: u8, e: u16, multiblocks: usize) -> Vec<u8> {
    Input::draw(&mut Generator::seeded(seed), mode, u32::from(e), multiblocks).lane()
}

/// The first lane bit of the header that carries a bit of a multiblock's parity, 0 the highest: one of its own headers, or of
/// the next multiblock's.
fn parity_place(number: u8, multiblock: usize, bit: usize) -> usize {
    let (mode, code) = (row(number), row(number).word.code);
    let (wanted, carrier) = match code.own_width().checked_sub(bit + 1) {
        Some(own) => (Parity::Own(own as u32), multiblock),
        None => (Parity::Before((code.parity_width() - 1 - bit) as u32), multiblock + 1),
    };
    let carries = |block: &usize| mode.word.layout.parity_bit(*block) == Some(wanted);
    let block = (0..BLOCKS).find(carries).expect("every bit of the parity is sent");
    mode.multiblock_bits() * carrier + mode.block_bits() * block
}

/// The lane bits of a position of a multiblock, its data and its parity after them: one of data, or the two of a header.
fn places(mode: u8, multiblock: usize, position: usize) -> Vec<usize> {
    if position < DATA_BITS {
        return vec![row(mode).multiblock_bits() * multiblock + row(mode).data_place(position)];
    }
    let place = parity_place(mode, multiblock, position - DATA_BITS);
    vec![place, place + 1]
}

/// The lane bits of the burst of that place and pattern in the data and the parity of a multiblock.
fn burst(mode: u8, multiblock: usize, place: usize, pattern: usize) -> Vec<usize> {
    let positions = (0..16).filter(|j| pattern >> j & 1 == 1).map(|j| place + j);
    positions.flat_map(|position| places(mode, multiblock, position)).collect()
}

fn hit(mode: u8, lane: &[u8], multiblock: usize, place: usize, pattern: usize) -> Vec<u8> {
    flipped(lane, &burst(mode, multiblock, place, pattern))
}

/// Six multiblocks of a mode.
fn six(mode: u8) -> Vec<u8> {
    lane(20 + u64::from(mode), mode, 3, 6)
}

/// The lane with the headers of these blocks of every multiblock set to 11.
fn spoilt(mode: u8, lane: &[u8], blocks: &[usize]) -> Vec<u8> {
    let multiblocks = lane.len() / row(mode).lane_octets();
    let all = (0..multiblocks).flat_map(|k| blocks.iter().map(move |block| BLOCKS * k + block));
    with_headers(row(mode), lane, &all.map(|block| (block, [true, true])).collect::<Vec<_>>())
}

/// Nine lane bits flipped from bit 7 of block 10 of a multiblock on: the fourth and fifth are the first pair of fill bits,
/// so that seven codeword bits are hit, those from 645 on.
fn across_a_gap(mode: u8, lane: &[u8], multiblock: usize) -> Vec<u8> {
    let first = row(mode).multiblock_bits() * multiblock + row(mode).block_bits() * 10 + 7;
    flipped(lane, &(first..first + 9).collect::<Vec<usize>>())
}

/// Those of `examples/`.
fn examples() -> Vec<Case> {
    let clean = lane(1, FEC, 4, 5);
    let repaired = hit(FEC, &hit(FEC, &clean, 1, 700, 0b101), 3, 2045, 0b1_1011_0011);
    let failed = hit(CRC12, &lane(2, CRC12, 4, 5), 2, 1234, 0b11);
    let clean_80 = lane(1, FEC_80, 4, 5);
    let repaired_80 = hit(FEC_80, &across_a_gap(FEC_80, &clean_80, 1), 3, 2045, 0b1_1011_0011);
    let failed_80 = hit(CRC12_80, &lane(2, CRC12_80, 4, 5), 2, 1234, 0b11);
    let clean_crc3 = lane(3, CRC3, 4, 5);
    let failed_crc3 = hit(CRC3, &clean_crc3, 2, 1234, 0b11);
    let document = Input { mode: FEC, e: 1, user: vec![0; 512], commands: vec![0; 2] }.lane();
    vec![
        case("document", capture(FEC, 1, &document)),
        case("clean", capture(FEC, 4, &clean)),
        case("repaired", capture(FEC, 4, &repaired)),
        case("failed", capture(CRC12, 4, &failed)),
        case("cut", capture(FEC, 4, &clean)[..1000].to_vec()),
        case("clean-80", capture(FEC_80, 4, &clean_80)),
        case("repaired-80", capture(FEC_80, 4, &repaired_80)),
        case("failed-80", capture(CRC12_80, 4, &failed_80)),
        case("clean-crc3", capture(CRC3, 4, &clean_crc3)),
        case("failed-crc3", capture(CRC3, 4, &failed_crc3)),
        case("cmd", capture(COMMAND, 4, &lane(4, COMMAND, 4, 5))),
    ]
}

/// The commands of a message.
fn message(mode: u8, code: u8, payload: &[u8]) -> Vec<u32> {
    let mut commands = vec![0; 1 + payload.len()];
    let written = message::write(mode, code, payload, &mut commands);
    assert_eq!(written.refusal, 0);
    commands.truncate(written.count);
    commands
}

/// A seeded lane with these commands.
fn carrying(seed: u64, mode: u8, e: u16, commands: Vec<u32>) -> Vec<u8> {
    let user = Generator::seeded(seed).draw_octets(USER_OCTETS * commands.len());
    Input { mode, e: u32::from(e), user, commands }.lane()
}

/// A gain, as a user may define it: its code and its words.
const GAIN: u8 = 16;
const GAIN_WORDS: [u8; 3] = [3, 17, 9];

/// Amid idle headers, in a lane of CRC-12.
fn gain() -> Case {
    let idle = vec![0; 2];
    let commands = [idle.clone(), message(CRC12, GAIN, &GAIN_WORDS), idle].concat();
    case("gain", capture(CRC12, 4, &carrying(5, CRC12, 4, commands)))
}

/// Three words a command: an idle one, a gain with padding, a register write that fills its command, a reserved code and its
/// payload, a register write whose second command has an invalid header, a message of one word, a command with a wrong parity
/// bit, and one that waits.
fn gain_of_three() -> Case {
    let channel = Channel::of(row(COMMAND)).expect("mode 5 has commands");
    let reserved = [Word::Header(7), Word::Payload(1), Word::Payload(2)];
    let commands = [
        vec![0],
        message(COMMAND, GAIN, &GAIN_WORDS),
        message(COMMAND, 2, &[1, 5]),
        vec![channel.command(&reserved)],
        message(COMMAND, 1, &[0, 2, 8, 20, 6]),
        message(COMMAND, 31, &[12]),
        vec![1, 0],
    ]
    .concat();
    let lane = carrying(6, COMMAND, 4, commands);
    let spoilt = with_headers(row(COMMAND), &lane, &[(BLOCKS * 6 + 9, [true, true])]);
    case("gain-cmd", capture(COMMAND, 4, &spoilt))
}

/// Those of `examples/` that carry messages.
fn with_messages() -> Vec<Case> {
    vec![gain(), gain_of_three()]
}

/// Six multiblocks in a mode: clean, cut, and hit in their data or in headers without parity.
fn of_mode(mode: u8) -> Vec<Case> {
    let name = row(mode).name;
    let octets = row(mode).lane_octets();
    let clean = six(mode);
    let damaged = |word: &str, lane: &[u8]| case(format!("{name}-{word}"), capture(mode, 3, lane));
    let hit = |lane: &[u8], multiblock, place, pattern| hit(mode, lane, multiblock, place, pattern);
    vec![
        damaged("clean", &clean),
        case(format!("{name}-cut"), capture(mode, 3, &clean)[..1400].to_vec()),
        damaged("cut-and-counted", &clean[..1400]),
        damaged("cut-after-a-multiblock", &clean[..octets * 5]),
        damaged("begun-late", &clean[octets * 2..]),
        damaged("one-bit", &hit(&clean, 2, 1000, 1)),
        damaged("last-data-bit", &hit(&clean, 2, 2047, 1)),
        damaged("first-multiblock", &hit(&clean, 0, 77, 0b101)),
        damaged("across-a-header", &hit(&clean, 1, 60, 0b1_1011_0101)),
        damaged("waiting-one-hit", &hit(&clean, 5, 500, 0b1001)),
        damaged("marks-invalid", &spoilt(mode, &clean, &[22, 27, 31])),
    ]
}

/// The same six hit in their parity, and hit so that two fail.
fn of_parity(mode: u8) -> Vec<Case> {
    let clean = six(mode);
    let damaged = |word: &str, lane: &[u8]| case(format!("{}-{word}", row(mode).name), capture(mode, 3, lane));
    let hit = |lane: &[u8], multiblock, place, pattern| hit(mode, lane, multiblock, place, pattern);
    vec![
        damaged("first-parity-bit", &hit(&clean, 2, 2048, 1)),
        damaged("data-and-parity", &hit(&clean, 2, 2043, 0b1_0101_0101)),
        damaged("two-failed", &hit(&hit(&clean, 1, 5, 0b10_0000_0001), 2, 9, 0b10_0000_0000_0001)),
        damaged("parity-headers-invalid", &spoilt(mode, &clean, &[0, 9])),
    ]
}

/// The same six in mode 5, where nothing is checked: damage of every sort.
fn unchecked() -> Vec<Case> {
    let clean = six(COMMAND);
    let damaged = |word: &str, lane: &[u8]| case(format!("cmd-{word}"), capture(COMMAND, 3, lane));
    let every_third: Vec<usize> = (0..8 * clean.len()).step_by(3).collect();
    vec![
        damaged("two-multiblocks-hit", &hit(COMMAND, &hit(COMMAND, &clean, 1, 5, 0b11), 2, 9, 0b1_1111)),
        damaged("command-headers-invalid", &spoilt(COMMAND, &clean, &[0, 9])),
        damaged("every-header-invalid", &spoilt(COMMAND, &clean, &(0..BLOCKS).collect::<Vec<usize>>())),
        damaged("every-third-bit-flipped", &flipped(&clean, &every_third)),
        damaged("any-octets", &Generator::seeded(52).draw_octets(clean.len())),
    ]
}

/// The groups of CRC-3 by the names of their parities, in the order of their blocks (Table 44).
const GROUPS: [char; 4] = ['B', 'C', 'D', 'A'];
const GROUP_BITS: usize = 512;

/// Bursts of 3 lane bits at the ends of a group of CRC-3 and across the edge after it, a header hit in each bit of its
/// parity, and the burst of 4 that goes unnoticed: 1011, the polynomial itself. So it does where its last bit is the first
/// of a header of the parity that carries 1: the header becomes invalid, and reads as 0. Of five multiblocks the second is
/// hit.
fn of_group(k: usize) -> Vec<Case> {
    let clean = lane(51, CRC3, 2, 5);
    let edge = places(CRC3, 1, GROUP_BITS * (k + 1) - 1)[0] + 1;
    let name = |word: &str| format!("crc3-{}-{word}", GROUPS[k]);
    let damaged = |word: &str, lane: &[u8]| case(name(word), capture(CRC3, 2, lane));
    let hit = |place, pattern| hit(CRC3, &clean, 1, place, pattern);
    let of_bit = |bit: usize| damaged(&format!("parity-bit-{bit}"), &hit(DATA_BITS + 3 * k + 2 - bit, 1));
    let at_edges = [
        damaged("first-bits", &hit(GROUP_BITS * k, 0b111)),
        damaged("last-bits", &hit(GROUP_BITS * (k + 1) - 3, 0b111)),
        damaged("last-bit-and-header", &flipped(&clean, &[edge - 1, edge, edge + 1])),
        damaged("header-and-first-bit-after", &flipped(&clean, &[edge, edge + 1, edge + 2])),
        damaged("1011-unnoticed", &hit(GROUP_BITS * k + 200, 0b1101)),
        damaged("1011-into-a-header", &flipped(&clean, &[edge - 3, edge - 1, edge])),
    ];
    at_edges.into_iter().chain([2, 1, 0].map(of_bit)).collect()
}

/// Beside those: a bit in every group at once, and the bursts of 4 that are noticed.
fn of_crc3() -> Vec<Case> {
    let clean = lane(51, CRC3, 2, 5);
    let damaged = |word: &str, lane: &[u8]| case(format!("crc3-{word}"), capture(CRC3, 2, lane));
    let in_every_group: Vec<usize> = (0..4).flat_map(|k| places(CRC3, 1, GROUP_BITS * k + 300)).collect();
    vec![
        damaged("every-group", &flipped(&clean, &in_every_group)),
        damaged("1001-noticed", &hit(CRC3, &clean, 1, 200, 0b1001)),
        damaged("1101-noticed", &hit(CRC3, &clean, 1, 200, 0b1011)),
        damaged("1111-noticed", &hit(CRC3, &clean, 1, 200, 0b1111)),
    ]
}

/// The same six in a mode with fill bits: these alone changed, and hits beside them.
fn gaps(mode: u8) -> Vec<Case> {
    let name = row(mode).name;
    let clean = six(mode);
    let fill = fill_places(row(mode), BLOCKS * 6);
    let some: Vec<usize> = fill.iter().copied().filter(|place| place * place % 7 < 3).collect();
    let first_of_each: Vec<usize> = fill.iter().copied().step_by(14).collect();
    let damaged = |word: &str, lane: &[u8]| case(format!("{name}-{word}"), capture(mode, 3, lane));
    vec![
        damaged("every-fill-bit-flipped", &flipped(&clean, &fill)),
        damaged("some-fill-bits-flipped", &flipped(&clean, &some)),
        damaged("a-fill-bit-of-each-block-flipped", &flipped(&clean, &first_of_each)),
        damaged("across-a-gap", &across_a_gap(mode, &clean, 2)),
        damaged("some-fill-bits-and-one-bit", &hit(mode, &flipped(&clean, &some), 3, 8, 1)),
    ]
}

/// Numbers of multiblocks, E, and lengths of the lane, at their edges.
fn edges(mode: u8) -> Vec<Case> {
    let (name, octets, most) = (row(mode).name, row(mode).lane_octets(), row(mode).most);
    let long = lane(30 + u64::from(mode), mode, 256, most);
    let of_count =
        |count: usize| case(format!("{name}-{count}-multiblocks"), capture(mode, 256, &long[..octets * count]));
    let of_extent = |e: u16| case(format!("{name}-E-{e}"), capture(mode, e, &long[..octets * 2]));
    let of_length = |length: usize| case(format!("{name}-lane-{length}"), capture(mode, 1, &long[..length]));
    let counts = [0, 1, 2, most].map(of_count).into_iter();
    let extents = [0, 1, 2, 255, 256, 257, 512, 65535].map(of_extent);
    let lengths = [1, octets - 1, octets, octets + 1, 2 * octets - 1, 2 * octets + 1].map(of_length);
    counts.chain(extents).chain(lengths).collect()
}

/// Bursts of 9 and 10 bits at the ends of the codeword in mode 3.
fn bursts_80() -> Vec<Case> {
    let clean = lane(50, FEC_80, 2, 3);
    let named = |(place, pattern)| {
        let hit = hit(FEC_80, &clean, 1, place, pattern);
        case(format!("fec-80-burst-{place}-{pattern}"), capture(FEC_80, 2, &hit))
    };
    [(0, 257), (2065, 257), (0, 513), (2064, 513), (0, 511), (2073, 1), (4, 511)].map(named).into()
}

/// Bursts of 9 and 10 bits at the ends of the codeword, and what is no burst.
fn bursts() -> Vec<Case> {
    let clean = lane(50, FEC, 2, 3);
    let ends = |length: usize| 1 << (length - 1) | 1;
    let at =
        [(0, ends(9)), (2065, ends(9)), (0, ends(10)), (2064, ends(10)), (0, 511), (2065, 511), (2073, 1), (9, 341)];
    let named = |(place, pattern)| {
        case(format!("burst-{place}-{pattern}"), capture(FEC, 2, &hit(FEC, &clean, 1, place, pattern)))
    };
    let around = hit(FEC, &hit(FEC, &clean, 1, 0, 1), 1, 2073, 1);
    let repaired_wrongly = hit(FEC, &clean, 1, 0, 0b100_0000_0001);
    let bits = row(FEC).multiblock_bits();
    let garbled: Vec<usize> = (bits..2 * bits).step_by(7).collect();
    let others = [
        case("burst-around-the-end", capture(FEC, 2, &around)),
        case("two-bits-10-apart", capture(FEC, 2, &repaired_wrongly)),
        case("garbled-multiblock", capture(FEC, 2, &flipped(&clean, &garbled))),
    ];
    at.map(named).into_iter().chain(others).collect()
}

/// A burst in each multiblock released, its place of four digits and its pattern of three: no listing is longer.
fn longest() -> Case {
    let wide = |k: usize| burst(FEC, k, 1000 + 4 * k, 257 + 2 * (k / 2));
    let flips: Vec<usize> = (0..239).flat_map(wide).collect();
    case("longest-listing", capture(FEC, 256, &flipped(&lane(60, FEC, 256, 240), &flips)))
}

/// Captures that are not of the form, or of more than one fault.
fn forms() -> Vec<Case> {
    let lane = lane(70, FEC, 1, 2);
    let good = capture(FEC, 1, &lane);
    let cut = |length: usize| case(format!("first-{length}-octets"), good[..length].to_vec());
    let with = |octets: &[u8], more: &[u8]| [octets, more].concat();
    let others = [
        case("empty", vec![]),
        case("garbage", Generator::seeded(71).draw_octets(1000)),
        case("a-listing", b"fec 1 2 1\n0 4 0 0\n".to_vec()),
        case("zeros", vec![0; 539]),
        case("mode-6", capture(NO_MODE, 1, &lane)),
        case("mode-255", capture(255, 1, &lane)),
        case("mode-6-E-0", capture(NO_MODE, 0, &lane)),
        case("mode-6-lane-263", capture(NO_MODE, 1, &lane[..263])),
        case("lane-of-fec-in-fec-80", capture(FEC_80, 1, &lane)),
        case("lane-of-fec-in-crc3", capture(CRC3, 1, &lane)),
        case("lane-of-fec-in-cmd", capture(COMMAND, 1, &lane)),
        case("E-0-lane-263", capture(FEC, 0, &lane[..263])),
        case("one-octet-after", with(&good, &[0])),
        case("a-multiblock-after", with(&good, &lane[..264])),
        case("mode-6-one-octet-after", with(&capture(NO_MODE, 1, &lane), &[0])),
        case("E-257-one-octet-after", with(&capture(FEC, 257, &lane), &[0])),
        case("no-lane-one-octet-after", with(&capture(FEC, 1, &[]), &[0])),
    ];
    [1, 3, 4, 7, 10, 11].map(cut).into_iter().chain(others).collect()
}

/// Counts that are too small, too large, or near 2^32.
fn counts() -> Vec<Case> {
    let lane = lane(80, FEC, 1, 2);
    let first = |count: u32| case(format!("first-count-{count}"), miscounted(count, FEC, 1, 528, &lane));
    let second = |count: u32| case(format!("second-count-{count}"), miscounted(3, FEC, 1, count, &lane));
    let top = u32::MAX;
    let firsts = [0, 2, 4, 3 << 24, 3 | 1 << 8, 3 | 1 << 16, 3 | 1 << 24, top - 3, top].map(first);
    let seconds = [0, 264, 527, 529, 792, 528 | 1 << 16, 528 | 1 << 24, top - 10, top - 6, top].map(second);
    firsts.into_iter().chain(seconds).collect()
}

/// Captures around the longest of each width, with all lane octets 0, by their mode octet. Those that are too long are
/// refused by 8, even with a mode that there isn't.
fn lengths() -> Vec<Case> {
    let of_octets = |(octets, mode): (usize, u8)| {
        case(format!("octets-{octets}-mode-{mode}"), capture(mode, 7, &vec![0; octets - 11]))
    };
    let of_modes = |octets: usize, modes: &[u8]| modes.iter().map(|mode| (octets, *mode)).collect::<Vec<_>>();
    let fit = [of_modes(63_371, &[7]), of_modes(63_372, &[FEC_80])];
    let narrow = [of_modes(63_372, &[CRC12, FEC, 7, CRC3, COMMAND]), of_modes(64_011, &[CRC12, FEC, 7])];
    let wide = [of_modes(64_012, &[CRC12_80, FEC_80])];
    fit.into_iter().chain(narrow).chain(wide).flatten().map(of_octets).collect()
}

/// A multiblock more than a call takes, in modes 0, 2, 4 and 5, and an octet after the longest capture of all.
fn too_long() -> Vec<Case> {
    let zeros = |mode: u8, count: usize| capture(mode, 7, &vec![0; row(mode).lane_octets() * count]);
    let one_more = |name: &str, mode: u8| {
        let count = row(mode).most + 1;
        case(format!("{name}{count}-multiblocks"), zeros(mode, count))
    };
    let longest = zeros(CRC12_80, row(CRC12_80).most);
    let after = case(format!("octets-{}-one-octet-after", longest.len()), [longest, vec![0]].concat());
    vec![one_more("", CRC12), one_more("", CRC12_80), after, one_more("crc3-", CRC3), one_more("cmd-", COMMAND)]
}

/// Those that are listed.
pub fn cases() -> Vec<Case> {
    let with_parity = [CRC12, FEC, CRC12_80, FEC_80, CRC3];
    let of_modes = with_parity.into_iter().flat_map(|mode| [of_mode(mode), of_parity(mode), edges(mode)].concat());
    let of_command = [of_mode(COMMAND), unchecked(), edges(COMMAND)].concat();
    let in_gaps = [CRC12_80, FEC_80].map(gaps).concat();
    let in_groups = [[0, 1, 2, 3].map(of_group).concat(), of_crc3()].concat();
    let parts = [of_modes.collect(), of_command, in_gaps, in_groups, bursts(), bursts_80(), vec![longest()], forms()];
    [examples()].into_iter().chain(parts).chain([counts(), lengths(), too_long()]).flatten().collect()
}

/// The capture of that name, if there is one.
pub fn named(name: &str) -> Option<Vec<u8>> {
    let all = with_messages().into_iter().chain(cases());
    all.into_iter().find(|case| case.name == name).map(|case| case.capture)
}

#[cfg(test)]
mod tests {
    use super::{cases, Case};
    use crate::listing::listing;
    use std::collections::HashSet;
    use std::sync::LazyLock;

    static ALL: LazyLock<Vec<Case>> = LazyLock::new(cases);

    fn capture_of(name: &str) -> &'static [u8] {
        &ALL.iter().find(|case| case.name == name).expect("a case of that name").capture
    }

    fn listing_of(name: &str) -> String {
        listing(capture_of(name))
    }

    #[test]
    fn no_two_have_one_name() {
        let names: HashSet<&str> = ALL.iter().map(|case| case.name.as_str()).collect();
        assert_eq!(names.len(), ALL.len());
        assert_eq!(super::named("clean"), Some(capture_of("clean").to_vec()));
    }

    #[test]
    fn those_that_carry_messages() {
        let text = |name: &str| crate::messages::text(&super::named(name).expect("a capture of that name"));
        assert_eq!(text("gain"), "crc12 4 8 7\n0 message 0\n1 message 0\n2 message 16 3 17 9\n6 message 0\n");
        let of_three = [
            "cmd 4 10 9",
            "0 message 0",
            "1 message 16 3 17 9",
            "3 message 2 1 5",
            "4 undefined 7",
            "5 cut 3",
            "7 message 31 12",
            "8 cut 0",
        ];
        assert_eq!(text("gain-cmd"), of_three.map(|line| format!("{line}\n")).concat());
        assert!(super::with_messages().iter().all(|case| ALL.iter().all(|other| other.name != case.name)));
    }

    #[test]
    fn every_refusal_and_status_occurs() {
        let text: String = ALL.iter().map(|case| listing(&case.capture)).collect();
        for refusal in [1, 2, 4, 8] {
            assert!(text.contains(&format!("refused {refusal}\n")));
        }
        let statuses: HashSet<&str> = text.lines().filter_map(|line| line.split(' ').nth(1)).collect();
        assert!(["0", "1", "2", "4", "5", "6"].iter().all(|status| statuses.contains(status)));
    }

    /// Header line of 16 octets, and lines of 12 octets and the digits of 0 to 238.
    #[test]
    fn the_longest_is_as_long_as_it_can_be() {
        assert_eq!(listing_of("longest-listing").len(), 16 + 12 * 239 + 10 + 2 * 90 + 3 * 139);
    }

    #[test]
    fn those_at_the_edges() {
        assert_eq!(capture_of("fec-240-multiblocks").len(), 63_371);
        assert_eq!(capture_of("fec-80-200-multiblocks").len(), 64_011);
        assert_eq!(capture_of("octets-64012-mode-2").len(), 64_012);
        assert_eq!(capture_of("octets-64011-one-octet-after").len(), 64_012);
        assert_eq!(listing_of("fec-0-multiblocks"), "fec 256 0 0\n");
        assert_eq!(listing_of("fec-1-multiblocks"), "fec 256 1 0\n");
        assert_eq!(listing_of("fec-80-1-multiblocks"), "fec-80 256 1 0\n");
        assert_eq!(listing_of("burst-2065-257"), "fec 2 3 2\n0 4 0 0\n1 1 2065 257\n");
        assert_eq!(listing_of("burst-2064-513"), "fec 2 3 2\n0 4 0 0\n1 2 0 0\n");
        assert_eq!(listing_of("two-bits-10-apart"), "fec 2 3 2\n0 4 0 0\n1 1 78 129\n");
        assert_eq!(listing_of("fec-80-burst-2065-257"), "fec-80 2 3 2\n0 4 0 0\n1 1 2065 257\n");
        assert_eq!(listing_of("fec-80-burst-2064-513"), "fec-80 2 3 2\n0 4 0 0\n1 2 0 0\n");
    }

    #[test]
    fn those_of_modes_4_and_5() {
        assert_eq!(listing_of("clean-crc3"), "crc3 4 5 4\n0 4 0 0\n1 0 0 0\n2 0 0 0\n3 0 0 0\n");
        assert_eq!(listing_of("failed-crc3"), "crc3 4 5 4\n0 4 0 0\n1 0 0 0\n2 2 0 0\n3 4 0 0\n");
        assert_eq!(listing_of("cmd"), "cmd 4 5 4\n0 4 0 0\n1 0 0 0\n2 0 0 0\n3 0 0 0\n");
        for (name, mode) in [("crc3", 4), ("cmd", 5)] {
            assert_eq!(listing_of(&format!("{name}-0-multiblocks")), format!("{name} 256 0 0\n"));
            assert_eq!(listing_of(&format!("{name}-1-multiblocks")), format!("{name} 256 1 0\n"));
            assert!(listing_of(&format!("{name}-240-multiblocks")).ends_with("\n238 0 0 0\n"));
            assert_eq!(listing_of(&format!("{name}-241-multiblocks")), "refused 8\n");
            assert_eq!(listing_of(&format!("octets-63372-mode-{mode}")), "refused 8\n");
        }
        assert_eq!(listing_of("mode-6"), "refused 1\n");
    }

    fn statuses_of(name: &str) -> Vec<String> {
        listing_of(name).lines().skip(1).map(|line| line.split(' ').nth(1).unwrap_or("").to_string()).collect()
    }

    /// The multiblock that was hit failed, and so took the next one's trust; with the first bit after group A the next
    /// multiblock failed too. Of the four headers that 1011 runs into all but that of C carry 1.
    #[test]
    fn hits_of_groups() {
        for group in super::GROUPS {
            let names =
                ["first-bits", "last-bits", "last-bit-and-header", "parity-bit-2", "parity-bit-1", "parity-bit-0"];
            for name in names {
                assert_eq!(statuses_of(&format!("crc3-{group}-{name}")), ["4", "2", "4", "0"]);
            }
            let after = statuses_of(&format!("crc3-{group}-header-and-first-bit-after"));
            assert_eq!(after, if group == 'A' { ["4", "2", "6", "4"] } else { ["4", "2", "4", "0"] });
            assert_eq!(statuses_of(&format!("crc3-{group}-1011-unnoticed")), ["4", "0", "0", "0"]);
        }
        for name in ["every-group", "1001-noticed", "1101-noticed", "1111-noticed"] {
            assert_eq!(statuses_of(&format!("crc3-{name}")), ["4", "2", "4", "0"]);
        }
        let into_a_header =
            super::GROUPS.map(|group| statuses_of(&format!("crc3-{group}-1011-into-a-header"))[1] == "0");
        assert_eq!(into_a_header, [true, false, true, true]);
    }

    #[test]
    fn mode_5_says_0_and_4_alone() {
        let of_mode_5 = ALL.iter().filter(|case| listing(&case.capture).starts_with("cmd "));
        let mut released = 0;
        for statuses in of_mode_5.map(|case| statuses_of(&case.name)) {
            assert!(statuses.iter().enumerate().all(|(k, status)| status == if k == 0 { "4" } else { "0" }));
            released += statuses.len();
        }
        assert!(released > 300);
    }

    #[test]
    fn fill_bits_change_no_listing() {
        for mode in ["crc12-80", "fec-80"] {
            for word in ["every-fill-bit-flipped", "some-fill-bits-flipped", "a-fill-bit-of-each-block-flipped"] {
                assert_eq!(listing_of(&format!("{mode}-{word}")), listing_of(&format!("{mode}-clean")));
            }
        }
        assert_eq!(listing_of("repaired-80"), "fec-80 4 5 4\n0 4 0 0\n1 1 645 127\n2 0 0 0\n3 1 2045 435\n");
    }

    #[test]
    fn longer_ones_are_refused_by_8() {
        let refused = |name: &str| listing_of(name) == "refused 8\n";
        let too_long = ["63372-mode-0", "63372-mode-7", "64011-mode-1", "64011-mode-7", "64012-mode-2", "64012-mode-3"];
        assert!(too_long.iter().all(|name| refused(&format!("octets-{name}"))));
        assert!(["octets-64011-one-octet-after", "241-multiblocks", "201-multiblocks"].into_iter().all(refused));
        assert_eq!(listing_of("octets-63371-mode-7"), "refused 1\n");
        assert_eq!(listing_of("octets-63372-mode-3"), "refused 4\n");
    }
}
