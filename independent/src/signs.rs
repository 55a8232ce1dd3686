//! Sign sets: which of negative, zero and positive a value may be (document 01, "Signs").
//! Every operation is computed from the meaning of the three signs; there are no tables.

#[derive(Clone, Copy, Debug, PartialEq, Eq)]
pub enum Sign {
    Negative,
    Zero,
    Positive,
}

use Sign::{Negative, Positive, Zero};

pub const SIGNS: [Sign; 3] = [Negative, Zero, Positive];

/// The sign of a whole number.
pub fn sign_of(value: i128) -> Sign {
    if value < 0 {
        Negative
    } else if value == 0 {
        Zero
    } else {
        Positive
    }
}

/// "A sign set is a part of {negative, zero, positive}"
#[derive(Clone, Copy, Debug, PartialEq, Eq)]
pub struct SignSet {
    negative: bool,
    zero: bool,
    positive: bool,
}

/// "stored in three bits in that order: < is 4, = is 2, ≤ is 6, > is 1, ≠ is 5, ≥ is 3, empty is 0,
/// full is 7."
impl SignSet {
    pub const EMPTY: SignSet = SignSet::with(false, false, false);
    pub const FULL: SignSet = SignSet::with(true, true, true);
    pub const LESS: SignSet = SignSet::with(true, false, false);
    pub const EQUAL: SignSet = SignSet::with(false, true, false);
    pub const LESS_EQUAL: SignSet = SignSet::with(true, true, false);
    pub const GREATER: SignSet = SignSet::with(false, false, true);
    pub const NOT_EQUAL: SignSet = SignSet::with(true, false, true);
    pub const GREATER_EQUAL: SignSet = SignSet::with(false, true, true);

    const fn with(negative: bool, zero: bool, positive: bool) -> SignSet {
        SignSet { negative, zero, positive }
    }

    pub fn from_bits(bits: u64) -> SignSet {
        SignSet::with(bits & 4 != 0, bits & 2 != 0, bits & 1 != 0)
    }

    pub fn to_bits(self) -> u64 {
        4 * u64::from(self.negative) + 2 * u64::from(self.zero) + u64::from(self.positive)
    }

    /// All eight sets.
    pub fn all() -> Vec<SignSet> {
        (0..8).map(SignSet::from_bits).collect()
    }

    pub fn only(sign: Sign) -> SignSet {
        SignSet::with(sign == Negative, sign == Zero, sign == Positive)
    }

    pub fn has(self, sign: Sign) -> bool {
        match sign {
            Negative => self.negative,
            Zero => self.zero,
            Positive => self.positive,
        }
    }

    pub fn is_empty(self) -> bool {
        self == SignSet::EMPTY
    }

    pub fn is_full(self) -> bool {
        self == SignSet::FULL
    }

    pub fn is_inside(self, other: SignSet) -> bool {
        SIGNS.iter().all(|&sign| !self.has(sign) || other.has(sign))
    }

    pub fn union(self, other: SignSet) -> SignSet {
        SignSet::with(
            self.negative || other.negative,
            self.zero || other.zero,
            self.positive || other.positive,
        )
    }

    pub fn intersection(self, other: SignSet) -> SignSet {
        SignSet::with(
            self.negative && other.negative,
            self.zero && other.zero,
            self.positive && other.positive,
        )
    }

    /// "Sum of two sets: all signs that a sum of whole numbers with such signs can have"
    pub fn sum(self, other: SignSet) -> SignSet {
        of_all_pairs(self, other, sum_of_signs)
    }

    /// "Product and square likewise."
    pub fn product(self, other: SignSet) -> SignSet {
        of_all_pairs(self, other, |a, b| SignSet::only(product_of_signs(a, b)))
    }

    /// The square of one number: both factors have the same sign.
    pub fn square(self) -> SignSet {
        let mut squares = SignSet::EMPTY;
        for sign in SIGNS {
            if self.has(sign) {
                squares = squares.union(SignSet::only(product_of_signs(sign, sign)));
            }
        }
        squares
    }

    /// "Complement is definition 7": the signs that are not in the set.
    pub fn complement(self) -> SignSet {
        SignSet::with(!self.negative, !self.zero, !self.positive)
    }

    /// "mirror the atom's set (negative and positive exchanged)"
    pub fn mirror(self) -> SignSet {
        SignSet::with(self.positive, self.zero, self.negative)
    }
}

/// The union over each sign of one set and each of the other. "Anything with the empty set gives
/// the empty set": there is no pair then.
fn of_all_pairs(one: SignSet, other: SignSet, of: fn(Sign, Sign) -> SignSet) -> SignSet {
    let mut found = SignSet::EMPTY;
    for a in SIGNS {
        for b in SIGNS {
            if one.has(a) && other.has(b) {
                found = found.union(of(a, b));
            }
        }
    }
    found
}

/// The signs of a + b. "(negative plus positive: all three)"
fn sum_of_signs(a: Sign, b: Sign) -> SignSet {
    match (a, b) {
        (Zero, _) => SignSet::only(b),
        (_, Zero) => SignSet::only(a),
        (Negative, Negative) => SignSet::LESS,
        (Positive, Positive) => SignSet::GREATER,
        (Negative, Positive) | (Positive, Negative) => SignSet::FULL,
    }
}

/// The sign of a · b.
fn product_of_signs(a: Sign, b: Sign) -> Sign {
    match (a, b) {
        (Zero, _) | (_, Zero) => Zero,
        (Negative, Negative) | (Positive, Positive) => Positive,
        (Negative, Positive) | (Positive, Negative) => Negative,
    }
}
