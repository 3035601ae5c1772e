//! Polynomials over bits, divided as on paper.

/// The degree of the polynomial that a whole block stands for.
pub const DEGREE: usize = 126;

/// The degree of the generator; the remainder has this many coefficients.
pub const GENERATOR_DEGREE: usize = 7;

/// x^7 + x^3 + 1, the coefficient of power i at place i.
const GENERATOR: [bool; GENERATOR_DEGREE + 1] =
    [true, false, false, true, false, false, false, true];

/// The coefficient of power i at place i.
pub type Polynomial = [bool; DEGREE + 1];

/// The coefficient of power i at place i.
pub type Remainder = [bool; GENERATOR_DEGREE];

/// Long division by the generator: from the highest power down, take away the
/// generator, shifted, wherever a coefficient is left; over bits that is XOR.
pub fn remainder(mut dividend: Polynomial) -> Remainder {
    for shift in (0..=DEGREE - GENERATOR_DEGREE).rev() {
        if dividend[shift + GENERATOR_DEGREE] {
            take_away_generator(&mut dividend, shift);
        }
    }
    std::array::from_fn(|power| dividend[power])
}

fn take_away_generator(dividend: &mut Polynomial, shift: usize) {
    for (power, coefficient) in GENERATOR.iter().enumerate() {
        dividend[shift + power] ^= coefficient;
    }
}
