//! Pilots planted in header values: what extended lock takes for the end of an extended multiblock stands in ten blocks, the
//! end mark in the first of them, 0 in the four before the last, and 1 in the last (document 01, "Lock tables"). The other
//! four are left as they are.

pub const ONE: u8 = 0b01;
pub const ZERO: u8 = 0b10;

/// The blocks from the end mark to the last, both counted.
pub const RUN: usize = 10;

/// Plants a pilot that ends with the header of that index, which is at least 9.
pub fn plant(headers: &mut [u8], last: usize) {
    headers[last + 1 - RUN] = ONE;
    headers[last - 4..last].fill(ZERO);
    headers[last] = ONE;
}

/// So many headers that carry 0 but for the pilots that end in these blocks, the first header's block being 1.
pub fn planted(count: usize, blocks: &[usize]) -> Vec<u8> {
    let mut headers = vec![ZERO; count];
    for block in blocks {
        plant(&mut headers, block - 1);
    }
    headers
}

#[cfg(test)]
mod tests {
    use super::{plant, planted};

    #[test]
    fn a_pilot_sets_six_of_ten_blocks() {
        let mut headers = [3; 12];
        plant(&mut headers, 10);
        assert_eq!(headers, [3, 1, 3, 3, 3, 3, 2, 2, 2, 2, 1, 3]);
    }

    #[test]
    fn blocks_count_from_1() {
        assert_eq!(planted(11, &[10]), [1, 2, 2, 2, 2, 2, 2, 2, 2, 1, 2]);
    }
}
