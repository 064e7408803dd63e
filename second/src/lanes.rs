//! `SEED lane`: what a sender makes of a seeded input, cut into calls (cases.rs has the generator and the digest).
//!
//! Drawn: mode; E = [1, 2, 3, 256][draw(4)]; N = 1 + draw(6) multiblocks; user octets; commands; calls; a fill, draw(131071)
//! in modes 2 and 3, and 0 without a draw in the others. The first call is given a fresh sender but for that fill.
//! A line: `SEED lane MODE E N CALLS DIGEST HISTORY PARITY NUMBER FILL`, with the calls counted (empty ones too), the digest
//! of the whole lane, and the state after the last call.

use std::ops::Range;

use crate::cases::{draw_calls, draw_extent, draw_mode, Input};
use crate::digest::Digest;
use crate::fill::STANDSTILL;
use crate::generator::Generator;
use crate::mode::{row, USER_OCTETS};
use crate::sender::{send, Sender};

struct Case {
    input: Input,
    calls: Vec<Range<usize>>,
    /// What the first call is given.
    first: Sender,
}

fn draw_first(generator: &mut Generator, mode: u8) -> Sender {
    let fill = if row(mode).gap == 0 { 0 } else { generator.draw(STANDSTILL as usize) as u32 };
    Sender { fill, ..Sender::fresh() }
}

fn case(seed: u64) -> Case {
    let mut generator = Generator::seeded(seed);
    let mode = draw_mode(&mut generator);
    let e = draw_extent(&mut generator);
    let multiblocks = 1 + generator.draw(6);
    let input = Input::draw(&mut generator, mode, e, multiblocks);
    let calls = draw_calls(&mut generator, multiblocks);
    Case { input, calls, first: draw_first(&mut generator, mode) }
}

/// The lane that the calls make, and the state after the last.
fn sent(Case { input, calls, first }: &Case) -> (Vec<u8>, Sender) {
    let octets = row(input.mode).lane_octets();
    let mut state = *first;
    let mut lane = vec![0; octets * input.multiblocks()];
    for call in calls {
        let user = &input.user[USER_OCTETS * call.start..USER_OCTETS * call.end];
        let commands = &input.commands[call.clone()];
        let sent = send(input.mode, input.e, state, user, commands, &mut lane[octets * call.start..]);
        assert_eq!((sent.refusal, sent.count), (0, call.len()));
        state = sent.state;
    }
    (lane, state)
}

pub fn line(seed: u64) -> String {
    let case = case(seed);
    let (lane, state) = sent(&case);
    let Case { input, calls, .. } = case;
    let digest = Digest::of(&lane).hexadecimal();
    let drawn = format!("{seed} lane {} {} {} {}", input.mode, input.e, input.multiblocks(), calls.len());
    format!("{drawn} {digest} {} {} {} {}", state.history, state.parity, state.number, state.fill)
}

#[cfg(test)]
mod tests {
    use super::{case, sent, Case};

    const SEEDS: std::ops::RangeInclusive<u64> = 1..=480;

    #[test]
    fn calls_make_the_lane_of_one_call() {
        for case in SEEDS.map(case) {
            let in_calls = sent(&case);
            let multiblocks = case.input.multiblocks();
            assert_eq!(sent(&Case { calls: vec![0..multiblocks], ..case }), in_calls);
        }
    }

    #[test]
    fn every_mode_and_extent_occurs() {
        let drawn: Vec<(u8, u32)> = SEEDS.map(|seed| case(seed).input).map(|input| (input.mode, input.e)).collect();
        for mode in 0..6 {
            for e in [1, 2, 3, 256] {
                assert!(drawn.iter().filter(|case| **case == (mode, e)).count() > 9, "mode {mode}, E {e}");
            }
        }
    }
}
