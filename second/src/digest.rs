//! The digest of a case: FNV-1a of 64 bits over octets. It stands for what would be too long to print.

const OFFSET: u64 = 0xcbf2_9ce4_8422_2325;
const PRIME: u64 = 0x100_0000_01b3;

#[derive(Clone, Copy)]
pub struct Digest(u64);

impl Digest {
    pub fn empty() -> Digest {
        Digest(OFFSET)
    }

    pub fn of(octets: &[u8]) -> Digest {
        Digest::empty().with(octets)
    }

    pub fn with(self, octets: &[u8]) -> Digest {
        Digest(octets.iter().fold(self.0, |digest, octet| (digest ^ u64::from(*octet)).wrapping_mul(PRIME)))
    }

    /// A number goes in as 8 octets, the highest first.
    pub fn with_number(self, number: u64) -> Digest {
        self.with(&number.to_be_bytes())
    }

    /// 16 digits.
    pub fn hexadecimal(self) -> String {
        format!("{:016x}", self.0)
    }
}

#[cfg(test)]
mod tests {
    use super::Digest;

    /// Values published with the function.
    #[test]
    fn published_values() {
        assert_eq!(Digest::of(b"").hexadecimal(), "cbf29ce484222325");
        assert_eq!(Digest::of(b"a").hexadecimal(), "af63dc4c8601ec8c");
        assert_eq!(Digest::of(b"foobar").hexadecimal(), "85944171f73967e8");
    }

    #[test]
    fn a_number_is_eight_octets() {
        let octets = Digest::of(&[0, 0, 0, 0, 0, 0, 1, 2]);
        assert_eq!(Digest::empty().with_number(0x102).hexadecimal(), octets.hexadecimal());
    }
}
