//! Sparse polynomials with whole-number coefficients: signs of monomials, sign by terms, normal form.
//! A monomial is its list of exponents, one for each variable.

use crate::signs::{sign_of, SignSet};

#[derive(Clone, Debug, PartialEq, Eq)]
pub struct Term {
    pub coefficient: i128,
    pub exponents: Vec<u8>,
}

/// Terms whose "exponent lists fall strictly from term to term in lexicographic order, first variable
/// foremost" (the order of `Vec<u8>`), with no coefficient 0.
#[derive(Clone, Debug, PartialEq, Eq)]
pub struct Polynomial {
    pub terms: Vec<Term>,
}

/// "Sign of a monomial: start from {positive}. For each variable with exponent above 0, multiply by its
/// set if the exponent is odd, by the square of its set if even."
pub fn monomial_sign(exponents: &[u8], board: &[SignSet]) -> SignSet {
    let mut sign = SignSet::GREATER;
    for (&exponent, &set) in exponents.iter().zip(board) {
        if exponent > 0 {
            if exponent % 2 == 1 {
                sign = sign.product(set);
            } else {
                sign = sign.product(set.square());
            }
        }
    }
    sign
}

impl Polynomial {
    /// "Sign of a polynomial by terms: start from {zero} and add, for each term, the coefficient's sign
    /// times the monomial's."
    pub fn sign_by_terms(&self, board: &[SignSet]) -> SignSet {
        let mut sign = SignSet::EQUAL;
        for term in &self.terms {
            let of_coefficient = SignSet::only(sign_of(term.coefficient));
            sign = sign.sum(of_coefficient.product(monomial_sign(&term.exponents, board)));
        }
        sign
    }

    /// "Divide by the greatest common divisor of the coefficients; if the first coefficient is negative,
    /// negate all". Also says whether it was negated: the atom's set is then to be mirrored.
    pub fn normal_form(&self) -> (Polynomial, bool) {
        let mut divisor = 0;
        for term in &self.terms {
            divisor = greatest_common_divisor(divisor, term.coefficient.abs());
        }
        let negated = self.terms[0].coefficient < 0;
        let mut form = self.clone();
        for term in &mut form.terms {
            term.coefficient /= divisor;
            if negated {
                term.coefficient = -term.coefficient;
            }
        }
        (form, negated)
    }

    /// A constant polynomial: its only monomial is 1.
    pub fn is_constant(&self) -> bool {
        self.terms.len() == 1 && self.terms[0].exponents.iter().all(|&e| e == 0)
    }

    /// "A *variable atom* has a normal form that is one variable to the power 1." For such a form, the
    /// variable's index (the first variable has 0).
    pub fn variable(&self) -> Option<usize> {
        if self.terms.len() != 1 || self.terms[0].coefficient != 1 {
            return None;
        }
        let exponents = &self.terms[0].exponents;
        if exponents.iter().map(|&e| u32::from(e)).sum::<u32>() != 1 {
            return None;
        }
        exponents.iter().position(|&e| e == 1)
    }

    /// The polynomial x_i over n variables, i counted from 0.
    pub fn of_variable(n: usize, i: usize) -> Polynomial {
        let mut exponents = vec![0; n];
        exponents[i] = 1;
        Polynomial { terms: vec![Term { coefficient: 1, exponents }] }
    }

    /// The coefficient of a monomial, "0 if absent".
    pub fn coefficient(&self, exponents: &[u8]) -> i128 {
        match self.terms.iter().find(|term| term.exponents == exponents) {
            Some(term) => term.coefficient,
            None => 0,
        }
    }
}

fn greatest_common_divisor(a: i128, b: i128) -> i128 {
    if b == 0 {
        a
    } else {
        greatest_common_divisor(b, a % b)
    }
}
