//! Polynomials whose coefficients are bits, with sums modulo 2: the arithmetic that clauses 7.4.2, 7.4.3 and 7.5.2
//! speak in. Entry k of the vector is the coefficient of x^k.

use crate::bits;

#[derive(Clone)]
pub struct Polynomial(Vec<bool>);

impl Polynomial {
    /// x^exponent.
    pub fn power(exponent: usize) -> Polynomial {
        let mut coefficients = vec![false; exponent + 1];
        coefficients[exponent] = true;
        Polynomial(coefficients)
    }

    /// The first bit has the highest power.
    pub fn of_bits(bits: &[bool]) -> Polynomial {
        Polynomial(bits.iter().rev().copied().collect())
    }

    /// The bits of the octets, most significant first; the first bit has the highest power.
    pub fn of_octets(octets: &[u8]) -> Polynomial {
        Polynomial::of_bits(&bits::of_octets(octets))
    }

    /// Bit k of the number is the coefficient of x^k.
    pub fn of_number(number: u32) -> Polynomial {
        Polynomial((0..32).map(|k| number >> k & 1 == 1).collect())
    }

    /// The number whose bit k is the coefficient of x^k, for a polynomial of degree below 32.
    pub fn number(&self) -> u32 {
        let highest_first = self.0.iter().rev();
        highest_first.fold(0, |number, bit| 2 * number + u32::from(*bit))
    }

    /// The product with x^exponent.
    pub fn times_power(&self, exponent: usize) -> Polynomial {
        let mut coefficients = vec![false; exponent];
        coefficients.extend(&self.0);
        Polynomial(coefficients)
    }

    pub fn plus(&self, other: &Polynomial) -> Polynomial {
        let (longer, shorter) = if self.0.len() < other.0.len() { (other, self) } else { (self, other) };
        let mut sum = longer.clone();
        for (k, bit) in shorter.0.iter().enumerate() {
            sum.0[k] ^= bit;
        }
        sum
    }

    /// The remainder of long division by the sum of the powers with these exponents, the highest exponent first:
    /// from the top down, wherever a coefficient is 1, the divisor is taken away below it.
    pub fn remainder(&self, divisor: &[usize]) -> Polynomial {
        let degree = divisor[0];
        let mut rest = self.0.clone();
        for top in (degree..rest.len()).rev() {
            if rest[top] {
                for exponent in divisor {
                    rest[top - degree + exponent] ^= true;
                }
            }
        }
        rest.truncate(degree);
        Polynomial(rest)
    }
}

#[cfg(test)]
mod tests {
    use super::Polynomial;

    #[test]
    fn a_number_comes_back() {
        assert_eq!(Polynomial::of_number(0x30F).number(), 0x30F);
        assert_eq!(Polynomial::of_octets(&[0x80, 0x01]).number(), 0x8001);
        assert_eq!(Polynomial::of_number(0x41).times_power(4).number(), 0x410);
    }

    #[test]
    fn a_sum_is_modulo_2() {
        let sum = Polynomial::power(3).plus(&Polynomial::of_number(0x9));
        assert_eq!(sum.number(), 1);
    }

    /// x^7 + 1 = (x^3 + x + 1)(x^4 + x^2 + x + 1).
    #[test]
    fn a_multiple_leaves_nothing() {
        let multiple = Polynomial::power(7).plus(&Polynomial::power(0));
        assert_eq!(multiple.remainder(&[3, 1, 0]).number(), 0);
        assert_eq!(Polynomial::power(3).remainder(&[3, 1, 0]).number(), 3);
    }
}
