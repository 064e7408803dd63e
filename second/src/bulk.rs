//! `second bulk FIRST LAST`: a line for the case of each seed, which begins with the seed. A seed modulo 6 says what it is
//! a case of: 0 lanes.rs, 1 damaged.rs, 2 locks.rs, 3 listed.rs, 4 calls.rs, 5 messaged.rs.

use crate::{calls, damaged, lanes, listed, locks, messaged};

fn line(seed: u64) -> String {
    match seed % 6 {
        0 => lanes::line(seed),
        1 => damaged::line(seed),
        2 => locks::line(seed),
        3 => listed::line(seed),
        4 => calls::line(seed),
        _ => messaged::line(seed),
    }
}

pub fn lines(first: u64, last: u64) -> Vec<String> {
    (first..=last).map(line).collect()
}

#[cfg(test)]
mod tests {
    use super::lines;

    #[test]
    fn a_line_begins_with_its_seed() {
        let lines = lines(1, 200);
        assert_eq!(lines.len(), 200);
        for (k, line) in lines.iter().enumerate() {
            assert!(line.starts_with(&format!("{} ", k + 1)));
        }
    }
}
