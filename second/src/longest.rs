//! The longest run of multiblocks with status 0 or 1 (document 01, "What the receiver releases"): every length is tried
//! from the longest down, and at each every start from the earliest on.

use crate::mode::USER_OCTETS;

#[derive(Debug, PartialEq)]
pub struct Run<'a> {
    pub refusal: u8,
    /// That part of the caller's octets.
    pub part: &'a [u8],
}

/// The first multiblock of the longest run and the number of its multiblocks; 0 and 0 if there is none.
pub fn span(statuses: &[u8]) -> (usize, usize) {
    let lengths = (1..=statuses.len()).rev();
    let mut runs = lengths.flat_map(|length| (0..=statuses.len() - length).map(move |start| (start, length)));
    let is_good = |run: &(usize, usize)| statuses[run.0..run.0 + run.1].iter().all(|status| *status <= 1);
    runs.find(is_good).unwrap_or((0, 0))
}

/// The longest run as the caller's octets; refused where these aren't 256 for each status.
pub fn longest_run<'a>(octets: &'a [u8], statuses: &[u8]) -> Run<'a> {
    if octets.len() != USER_OCTETS * statuses.len() {
        return Run { refusal: 4, part: &[] };
    }
    let (start, length) = span(statuses);
    Run { refusal: 0, part: &octets[USER_OCTETS * start..][..USER_OCTETS * length] }
}

#[cfg(test)]
mod tests {
    use super::{longest_run, span, Run};

    #[test]
    fn the_earliest_of_the_longest() {
        assert_eq!(span(&[]), (0, 0));
        assert_eq!(span(&[4, 2, 6, 5]), (0, 0));
        assert_eq!(span(&[4, 0, 1, 2, 1, 0, 4]), (1, 2));
        assert_eq!(span(&[0, 2, 1, 1, 1]), (2, 3));
        assert_eq!(span(&[0, 1, 0]), (0, 3));
    }

    #[test]
    fn a_value_not_listed_only_ends_a_run() {
        assert_eq!(span(&[0, 3, 0, 0, 255, 7]), (2, 2));
    }

    #[test]
    fn it_is_a_part_of_the_octets() {
        let octets: Vec<u8> = (0..1024_u32).map(|k| (k / 256) as u8).collect();
        assert_eq!(longest_run(&octets, &[4, 0, 0, 2]), Run { refusal: 0, part: &octets[256..768] });
        assert_eq!(longest_run(&octets, &[4, 6, 2, 2]), Run { refusal: 0, part: &[] });
    }

    #[test]
    fn other_lengths_are_refused() {
        for length in [0, 511, 513] {
            assert_eq!(longest_run(&vec![0; length], &[0, 0]), Run { refusal: 4, part: &[] });
        }
        assert_eq!(longest_run(&[], &[]).refusal, 0);
    }
}
