//! `second fill`: what the register of the fill bits comes to, tried over every value of it: after how many blocks it stands
//! where it stood, and the longest run of equal bits that header, fill bits and any data can make on a lane of 80-bit blocks
//! (clause 7.2.5 asks for at most 66).
//!
//! Data bits may be anything, and so may be which of 01 and 10 a header is. A run is then a stretch of neighbouring bits in
//! which each fill bit has the value of the run, and of no header both bits stand, since these differ.

use crate::fill::{after_block, pairs, REGISTER_BITS, STANDSTILL};
use crate::mode::{row, Mode, HEADER_BITS};

const MODE: u8 = 3;

/// What may stand at a bit of the lane.
#[derive(Clone, Copy, PartialEq)]
enum Bit {
    Header,
    Data,
    Fill(bool),
}

/// A block whose fill bits come from the register.
fn block(mode: &Mode, register: u32) -> Vec<Bit> {
    let mut bits = vec![Bit::Data; mode.block_bits()];
    bits[..HEADER_BITS].fill(Bit::Header);
    for (place, fill) in mode.fill_places().into_iter().zip(pairs(register).concat()) {
        bits[place] = Bit::Fill(fill);
    }
    bits
}

/// How long a run of the value from the first of these bits on can be.
fn run_from(bits: &[Bit], value: bool) -> usize {
    let ends_before = |k: &usize| {
        let both_of_a_header = *k > 0 && bits[k - 1] == Bit::Header && bits[*k] == Bit::Header;
        both_of_a_header || bits[*k] == Bit::Fill(!value)
    };
    (0..bits.len()).find(ends_before).unwrap_or(bits.len())
}

/// The longest run that begins in the block of the register. No run reaches past the next block, since no run passes its
/// header.
fn longest_from(mode: &Mode, register: u32) -> usize {
    let two = [block(mode, register), block(mode, after_block(register))].concat();
    let starts = 0..mode.block_bits();
    starts.flat_map(|start| [false, true].map(|value| run_from(&two[start..], value))).max().unwrap_or(0)
}

/// The values that the register has, block by block from 0 on, until it is 0 again.
fn cycle() -> Vec<u32> {
    let mut values = vec![0];
    loop {
        match after_block(values[values.len() - 1]) {
            0 => return values,
            next => values.push(next),
        }
    }
}

pub fn lines() -> Vec<String> {
    let cycle = cycle();
    let mut values = cycle.clone();
    values.sort_unstable();
    values.dedup();
    let runs: Vec<usize> = values.iter().map(|register| longest_from(row(MODE), *register)).collect();
    let longest = runs.iter().max().copied().unwrap_or(0);
    let attain: Vec<u32> = values.iter().zip(&runs).filter(|(_, run)| **run == longest).map(|pair| *pair.0).collect();
    vec![
        format!("blocks after which the register is 0 again: {}", cycle.len()),
        format!("different values on the way: {} of {}", values.len(), 1 << REGISTER_BITS),
        format!("the value that is not among them: {STANDSTILL}, after which comes {}", after_block(STANDSTILL)),
        format!("longest run of equal bits: {longest}"),
        format!("values whose block begins such a run: {}, the least {}", attain.len(), attain[0]),
    ]
}

#[cfg(test)]
mod tests {
    use super::{block, cycle, lines, longest_from, run_from, Bit, STANDSTILL};
    use crate::mode::row;

    #[test]
    fn every_value_but_one_is_met() {
        let cycle = cycle();
        assert_eq!(cycle.len(), STANDSTILL as usize);
        assert!(!cycle.contains(&STANDSTILL));
    }

    /// Register 0: F1 is 10 and all other pairs are 00. A run of 0 begins with the second bit of F1 and ends with the first
    /// bit of the next header: bits 21 to 80.
    #[test]
    fn the_run_of_register_0() {
        let bits = [block(row(3), 0), block(row(3), 0x1_FFF8)].concat();
        assert_eq!((run_from(&bits[21..], false), run_from(&bits[20..], false)), (60, 0));
        assert_eq!((run_from(&bits[1..], false), run_from(&bits[1..], true)), (19, 9));
        assert_eq!((run_from(&bits[0..], false), run_from(&bits[80..], true)), (1, 1));
        assert_eq!(longest_from(row(3), 0), 60);
    }

    /// Without a gap a run goes from the second bit of a header to the first of the next: the 66 of the clause.
    #[test]
    fn blocks_of_66_bits_have_runs_of_66() {
        let bits = [vec![Bit::Header; 2], vec![Bit::Data; 64], vec![Bit::Header; 2]].concat();
        assert_eq!(run_from(&bits[1..], true), 66);
    }

    #[test]
    fn no_run_is_longer_than_60() {
        assert!(lines().contains(&"longest run of equal bits: 60".to_string()));
    }
}
