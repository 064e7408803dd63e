//! The sender, bit by bit (document 01, "From octets to lane bits" and "Numbers of refusal"). The state has the parity that
//! goes with the next sync word, which is that of the last group of the multiblock before; the other groups' goes with their
//! own (code.rs). The end mark is 1 in the last of E multiblocks. The register of the fill bits runs on across multiblocks
//! and calls (document 02, request 2).

use crate::bits;
use crate::fill;
use crate::frame;
use crate::mode::{is_extent, mode, Mode, BLOCKS, USER_OCTETS};
use crate::scrambler::{Scrambler, HISTORY_BITS};
use crate::sync::Fields;

#[derive(Clone, Copy, Debug, PartialEq)]
pub struct Sender {
    pub history: u64,
    pub parity: u32,
    pub number: u32,
    pub fill: u32,
}

#[derive(Debug, PartialEq)]
pub struct Sent {
    pub refusal: u8,
    /// Multiblocks sent.
    pub count: usize,
    pub state: Sender,
}

impl Sender {
    pub fn fresh() -> Sender {
        Sender { history: 0, parity: 0, number: 0, fill: 0 }
    }

    fn is_in_range(self, mode: &Mode, e: u32) -> bool {
        let fits = self.history >> HISTORY_BITS == 0 && self.parity >> mode.word.code.width() == 0;
        fits && self.number < e && fill::is_in_range(mode, self.fill)
    }

    /// The state after a multiblock, and its lane bits.
    fn send_one(self, mode: &Mode, e: u32, user: &[u8], command: u32) -> (Sender, Vec<bool>) {
        let mut scrambler = Scrambler::after(self.history);
        let sent = scrambler.scramble(user);
        let (own, parity) = mode.word.code.apart(mode.word.code.parity(&sent));
        let word = mode.word.layout.word(Fields { before: self.parity, own, command, mark: self.number == e - 1 });
        let after = Sender {
            history: scrambler.history(),
            parity,
            number: (self.number + 1) % e,
            fill: fill::after(mode, self.fill, BLOCKS),
        };
        (after, frame::lane_bits(mode, self.fill, word, &sent))
    }
}

/// The lowest number of refusal that applies, or 0.
fn refusal(number: u8, e: u32, state: Sender, user: &[u8], commands: &[u32], lane: &[u8]) -> u8 {
    let Some(mode) = mode(number) else { return 1 };
    let multiblocks = user.len() / USER_OCTETS;
    let refused = [
        (2, !is_extent(e)),
        (3, !state.is_in_range(mode, e)),
        (4, !user.len().is_multiple_of(USER_OCTETS)),
        (5, multiblocks > mode.most),
        (6, commands.len() != multiblocks || commands.iter().any(|command| *command > mode.word.highest_command())),
        (7, lane.len() < mode.lane_octets() * multiblocks),
    ];
    refused.iter().find(|(_, applies)| *applies).map_or(0, |(number, _)| *number)
}

/// Sends 256 user octets for each command, over the start of the lane's octets.
pub fn send(number: u8, e: u32, state: Sender, user: &[u8], commands: &[u32], lane: &mut [u8]) -> Sent {
    let refusal = refusal(number, e, state, user, commands, lane);
    let (0, Some(mode)) = (refusal, mode(number)) else { return Sent { refusal, count: 0, state } };
    let mut state = state;
    for (k, (user, command)) in user.chunks(USER_OCTETS).zip(commands).enumerate() {
        let (after, sent) = state.send_one(mode, e, user, *command);
        lane[mode.lane_octets() * k..][..mode.lane_octets()].copy_from_slice(&bits::octets(&sent));
        state = after;
    }
    Sent { refusal: 0, count: commands.len(), state }
}

#[cfg(test)]
mod tests {
    use super::{send, Sender, Sent};
    use crate::bits;
    use crate::code;
    use crate::fill;
    use crate::frame::Multiblock;
    use crate::header::Headers;
    use crate::mode::row;
    use crate::sync;

    fn refusal_of(number: u8, e: u32, state: Sender, user: usize, commands: &[u32], lane: usize) -> u8 {
        let mut lent = vec![0xA5; lane];
        let sent = send(number, e, state, &vec![1; user], commands, &mut lent);
        if sent.refusal != 0 {
            assert_eq!(sent, Sent { refusal: sent.refusal, count: 0, state });
            assert_eq!(lent, vec![0xA5; lane]);
        }
        sent.refusal
    }

    fn multiblocks(mode: u8, lane: &[u8]) -> Vec<Multiblock> {
        let octets = lane.chunks(row(mode).lane_octets());
        octets.map(|octets| Multiblock::of(row(mode), &bits::of_octets(octets))).collect()
    }

    #[test]
    fn a_word_carries_the_parity_of_the_one_before() {
        for mode in [0, 2] {
            let mut lane = vec![0; 2 * row(mode).lane_octets()];
            let sent = send(mode, 2, Sender::fresh(), &[7; 512], &[0x41, 0x7F], &mut lane);
            let [first, second] = &multiblocks(mode, &lane)[..] else { panic!() };
            let word = sync::CRC12.word(sync::Fields { command: 0x41, ..sync::NOTHING });
            assert_eq!(first.headers, Headers::carrying(word));
            assert_eq!(sync::CRC12.before(&second.headers), code::CRC12.parity(&first.data));
            assert!(second.headers.at(22).carries());
            assert_eq!(sent.state.parity, code::CRC12.parity(&second.data));
            assert_eq!(sent.state.history, bits::number(&second.data[1990..]));
            assert_eq!((sent.refusal, sent.count, sent.state.number), (0, 2, 0));
        }
    }

    /// CRC-A is that of blocks 24 to 31 of the multiblock before; B, C and D those of its own (Table 44).
    #[test]
    fn a_word_of_crc3_carries_parity_of_two_multiblocks() {
        let user: Vec<u8> = (0..768_u32).map(|k| (k * k / 9) as u8).collect();
        let mut lane = vec![0; 3 * 264];
        let sent = send(4, 1, Sender { parity: 5, ..Sender::fresh() }, &user, &[1, 2, 3], &mut lane);
        let seen = multiblocks(4, &lane);
        let of_blocks =
            |k: usize, first: usize| code::CRC3.of_octets(&bits::octets(&seen[k].data)[8 * first..8 * (first + 8)]);
        let own = |k: usize| of_blocks(k, 0) << 6 | of_blocks(k, 8) << 3 | of_blocks(k, 16);
        for (k, multiblock) in seen.iter().enumerate() {
            assert_eq!(sync::CRC3.before(&multiblock.headers), if k == 0 { 5 } else { of_blocks(k - 1, 24) });
            assert_eq!(sync::CRC3.own(&multiblock.headers), own(k));
            assert_eq!(sync::CRC3.command(&multiblock.headers), k as u32 + 1);
        }
        assert_eq!((sent.state.parity, own(0) != own(1) && own(1) != own(2)), (of_blocks(2, 24), true));
    }

    #[test]
    fn a_word_of_mode_5_carries_its_command_alone() {
        let mut lane = vec![0; 2 * 264];
        let sent = send(5, 2, Sender::fresh(), &[7; 512], &[0x7_FFFF, 0x4_0001], &mut lane);
        let words = [(0x7_FFFF, false), (0x4_0001, true)]
            .map(|(command, mark)| sync::COMMAND.word(sync::Fields { command, mark, ..sync::NOTHING }));
        let headers: Vec<Headers> = multiblocks(5, &lane).into_iter().map(|multiblock| multiblock.headers).collect();
        assert_eq!((headers, sent.state.parity), (Vec::from(words.map(Headers::carrying)), 0));
    }

    /// The same sync words and scrambled bits, whatever the width and the register.
    #[test]
    fn a_gap_changes_no_more_than_the_gap() {
        let user: Vec<u8> = (0..768_u32).map(|k| (k * k / 7) as u8).collect();
        for (narrow, wide) in [(0, 2), (1, 3)] {
            let mut lanes = [vec![0; 264 * 3], vec![0; 320 * 3]];
            let one = send(narrow, 2, Sender::fresh(), &user, &[0; 3], &mut lanes[0]);
            let other = send(wide, 2, Sender { fill: 99, ..Sender::fresh() }, &user, &[0; 3], &mut lanes[1]);
            let [one_seen, other_seen] = [multiblocks(narrow, &lanes[0]), multiblocks(wide, &lanes[1])];
            for (one, other) in one_seen.iter().zip(&other_seen) {
                assert_eq!((&one.headers, &one.data), (&other.headers, &other.data));
            }
            assert_eq!(other.state, Sender { fill: fill::after(row(wide), 99, 96), ..one.state });
            assert_eq!(one.state.fill, 0);
        }
    }

    #[test]
    fn the_end_mark_is_in_every_last() {
        for mode in [1, 3, 4, 5] {
            let mut lane = vec![0; row(mode).lane_octets() * 7];
            let sent = send(mode, 3, Sender { number: 1, ..Sender::fresh() }, &[0; 256 * 7], &[0; 7], &mut lane);
            let marked = |multiblock: &Multiblock| u8::from(multiblock.headers.at(22).carries());
            let marks: Vec<u8> = multiblocks(mode, &lane).iter().map(marked).collect();
            assert_eq!((marks, sent.state.number), (vec![0, 1, 0, 0, 1, 0, 0], 2));
        }
    }

    #[test]
    fn a_lane_cut_into_calls_is_the_same() {
        let user: Vec<u8> = (0..1024_u32).map(|k| (k * k / 3) as u8).collect();
        for mode in [1, 3, 4, 5] {
            let octets = row(mode).lane_octets();
            let mut whole = vec![0; 4 * octets];
            let all = send(mode, 3, Sender::fresh(), &user, &[0; 4], &mut whole);
            let mut parts = vec![0; 4 * octets];
            let first = send(mode, 3, Sender::fresh(), &user[..256], &[0], &mut parts);
            let none = send(mode, 3, first.state, &[], &[], &mut []);
            let rest = send(mode, 3, none.state, &user[256..], &[0; 3], &mut parts[octets..]);
            assert_eq!((none.count, none.state), (0, first.state));
            assert_eq!((parts, rest.state), (whole, all.state));
        }
    }

    #[test]
    fn octets_past_the_end_keep_their_values() {
        let mut lane = vec![0xA5; 350];
        send(2, 1, Sender::fresh(), &[0; 256], &[0], &mut lane);
        assert_eq!(lane[320..], [0xA5; 30]);
        lane.fill(0xA5);
        send(0, 1, Sender::fresh(), &[0; 256], &[0], &mut lane);
        assert_eq!(lane[264..], [0xA5; 86]);
    }

    #[test]
    fn refusals_at_their_edges() {
        let fresh = Sender::fresh();
        assert_eq!([5, 6, 255].map(|mode| refusal_of(mode, 1, fresh, 0, &[], 0)), [0, 1, 1]);
        assert_eq!([0, 1, 256, 257].map(|e| refusal_of(0, e, fresh, 0, &[], 0)), [2, 0, 0, 2]);
        for (history, refused) in [((1 << 58) - 1, 0), (1 << 58, 3)] {
            assert_eq!(refusal_of(0, 1, Sender { history, ..fresh }, 0, &[], 0), refused);
        }
        for (mode, most) in [(0, 0xFFF), (1, 0x3FF_FFFF), (2, 0xFFF), (3, 0x3FF_FFFF), (4, 7), (5, 0)] {
            for (parity, refused) in [(most, 0), (most + 1, 3), (u32::MAX, 3)] {
                assert_eq!(refusal_of(mode, 1, Sender { parity, ..fresh }, 0, &[], 0), refused);
            }
        }
        let wide = [3, 3, 0, 0, 3, 3];
        for (fill, refused) in [(0, [0; 6]), (1, wide), (131_070, wide), (131_071, [3; 6])] {
            let of_mode = |mode| refusal_of(mode, 1, Sender { fill, ..fresh }, 0, &[], 0);
            assert_eq!([0, 1, 2, 3, 4, 5].map(of_mode), refused);
        }
        for (e, number, refused) in [(1, 0, 0), (1, 1, 3), (256, 255, 0), (256, 256, 3)] {
            assert_eq!(refusal_of(0, e, Sender { number, ..fresh }, 0, &[], 0), refused);
        }
        assert_eq!([255, 256, 257].map(|user| refusal_of(0, 1, fresh, user, &[0], 264)), [4, 0, 4]);
        for mode in [0, 4, 5] {
            assert_eq!(refusal_of(mode, 1, fresh, 256 * 240, &[0; 240], 264 * 240), 0);
            assert_eq!(refusal_of(mode, 1, fresh, 256 * 241, &[0; 241], 264 * 241), 5);
        }
        assert_eq!(refusal_of(2, 1, fresh, 256 * 200, &[0; 200], 320 * 200), 0);
        assert_eq!(refusal_of(2, 1, fresh, 256 * 201, &[0; 201], 320 * 201), 5);
        assert_eq!(
            [&[][..], &[127], &[128], &[0, 0]].map(|list| refusal_of(0, 1, fresh, 256, list, 264)),
            [6, 0, 6, 6]
        );
        assert_eq!([0, 1].map(|command| refusal_of(1, 1, fresh, 256, &[command], 264)), [0, 6]);
        assert_eq!([127, 128].map(|command| refusal_of(2, 1, fresh, 256, &[command], 320)), [0, 6]);
        assert_eq!([0, 1].map(|command| refusal_of(3, 1, fresh, 256, &[command], 320)), [0, 6]);
        assert_eq!([127, 128].map(|command| refusal_of(4, 1, fresh, 256, &[command], 264)), [0, 6]);
        assert_eq!([524_287, 524_288].map(|command| refusal_of(5, 1, fresh, 256, &[command], 264)), [0, 6]);
        assert_eq!([263, 264].map(|lane| refusal_of(0, 1, fresh, 256, &[0], lane)), [7, 0]);
        assert_eq!([319, 320].map(|lane| refusal_of(2, 1, fresh, 256, &[0], lane)), [7, 0]);
    }

    #[test]
    fn the_lowest_number_wins() {
        let bad = Sender { history: 1 << 58, ..Sender::fresh() };
        assert_eq!(refusal_of(6, 0, bad, 1, &[128], 0), 1);
        assert_eq!(refusal_of(1, 0, bad, 1, &[128], 0), 2);
        assert_eq!(refusal_of(1, 1, bad, 1, &[128], 0), 3);
        assert_eq!(refusal_of(1, 1, Sender::fresh(), 256 * 241 + 1, &[128], 0), 4);
        assert_eq!(refusal_of(1, 1, Sender::fresh(), 256 * 241, &[128], 0), 5);
        assert_eq!(refusal_of(1, 1, Sender::fresh(), 256, &[1], 0), 6);
    }
}
