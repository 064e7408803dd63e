//! The generator that every seeded case is drawn from: x' = (x * 1103515245 + 12345) mod 2^31.

const MODULUS: u64 = 1 << 31;
const SEED_FACTOR: u64 = 7919;

pub struct Generator {
    x: u64,
}

impl Generator {
    /// The generator that stands at x.
    pub fn from(x: u64) -> Generator {
        Generator { x }
    }

    /// A case's generator starts at x = seed * 7919 mod 2^31.
    pub fn seeded(seed: u64) -> Generator {
        Generator::from(seed * SEED_FACTOR % MODULUS)
    }

    fn next(&mut self) -> u64 {
        self.x = (self.x * 1_103_515_245 + 12_345) % MODULUS;
        self.x
    }

    /// The highest `count` of the next number's 31 bits.
    pub fn highest(&mut self, count: u32) -> u32 {
        (self.next() / 2_u64.pow(31 - count)) as u32
    }

    /// A number below n, for n at most 2^20: after one step, x / 2^11 mod n.
    pub fn draw(&mut self, n: usize) -> usize {
        (self.next() / 2_u64.pow(11)) as usize % n
    }

    /// One of these.
    pub fn one_of<T: Copy>(&mut self, these: &[T]) -> T {
        these[self.draw(these.len())]
    }

    /// Whether draw(32) is 0.
    pub fn rarely(&mut self) -> bool {
        self.draw(32) == 0
    }

    pub fn draw_octet(&mut self) -> u8 {
        self.draw(256) as u8
    }

    pub fn draw_octets(&mut self, count: usize) -> Vec<u8> {
        (0..count).map(|_| self.draw_octet()).collect()
    }
}

#[cfg(test)]
mod tests {
    use super::Generator;

    #[test]
    fn it_goes_by_its_formula() {
        let mut generator = Generator::from(1);
        assert_eq!([generator.next(), generator.next()], [1_103_527_590, 377_401_575]);
    }

    #[test]
    fn a_draw_is_one_step() {
        assert_eq!(Generator::from(1).draw(1 << 20), 1_103_527_590 / 2048);
        assert_eq!(Generator::from(1).draw(100), 1_103_527_590 / 2048 % 100);
        assert_eq!(Generator::seeded(3).x, 3 * 7919);
    }
}
