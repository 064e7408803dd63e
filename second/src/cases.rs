//! What the seeded cases of `second bulk` have in common.
//!
//! Every number of a case comes from its own generator, in the order in which it is named here (generator.rs): x starts
//! at seed * 7919 mod 2^31, and draw(n) steps x to (x * 1103515245 + 12345) mod 2^31 and is then x / 2^11 mod n. No n is
//! above 2^20, so one draw makes each number; "rarely" is draw(32) being 0. A digest is FNV-1a of 64 bits over octets, a number as 8 octets with the
//! highest first; it is printed in 16 hexadecimal digits, all else in decimal.
//!
//! A mode is 0 to 5, draw(6); in modes 2 and 3 a block has 80 bits, a multiblock 2,560 lane bits and 320 lane octets, and a
//! call takes at most 200 multiblocks; in the others it is 66, 2,112, 264 and 240.
//! Input of a sender: mode, E, the number of multiblocks; 256 user octets for each, draw(256) each; one command for each,
//! draw(128) each in modes 0, 2 and 4, draw(2^19) each in mode 5, and 0 without a draw in modes 1 and 3.
//! Calls: until nothing is left, draw(4) multiblocks, but at most what is left; 0 is an empty call. No case takes more
//! than 64 calls.

use std::ops::Range;

use crate::generator::Generator;
use crate::mode::{row, MODES, USER_OCTETS};
use crate::sender::{self, Sender};

const MOST_CALLS: usize = 64;

/// A sender's input.
pub struct Input {
    pub mode: u8,
    pub e: u32,
    pub user: Vec<u8>,
    pub commands: Vec<u32>,
}

impl Input {
    /// Mode, E and the number of multiblocks were drawn; now the octets and the commands.
    pub fn draw(generator: &mut Generator, mode: u8, e: u32, multiblocks: usize) -> Input {
        let user = generator.draw_octets(USER_OCTETS * multiblocks);
        let most = row(mode).word.highest_command() as usize;
        let mut command = || if most == 0 { 0 } else { generator.draw(most + 1) as u32 };
        let commands = (0..multiblocks).map(|_| command()).collect();
        Input { mode, e, user, commands }
    }

    pub fn multiblocks(&self) -> usize {
        self.commands.len()
    }

    /// The lane that a fresh sender makes of it in one call.
    pub fn lane(&self) -> Vec<u8> {
        let mut lane = vec![0; row(self.mode).lane_octets() * self.multiblocks()];
        let sent = sender::send(self.mode, self.e, Sender::fresh(), &self.user, &self.commands, &mut lane);
        assert_eq!((sent.refusal, sent.count), (0, self.multiblocks()));
        lane
    }
}

pub fn draw_mode(generator: &mut Generator) -> u8 {
    generator.draw(MODES) as u8
}

/// E of lanes and damaged lanes.
pub fn draw_extent(generator: &mut Generator) -> u32 {
    generator.one_of(&[1, 2, 3, 256])
}

/// Which multiblocks each call takes.
pub fn draw_calls(generator: &mut Generator, multiblocks: usize) -> Vec<Range<usize>> {
    let mut calls = vec![];
    let mut start = 0;
    while start < multiblocks {
        let end = start + generator.draw(4).min(multiblocks - start);
        calls.push(start..end);
        start = end;
    }
    assert!(calls.len() <= MOST_CALLS);
    calls
}
