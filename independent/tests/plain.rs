//! Single values of t (document 02, #110) against the first reading of deductions, and the values themselves.
//! What does not fit 64 signed bits ends a test, since plain.rs multiplies with a check.

use independent::block::LARGEST_MAGNITUDE;
use independent::deduce::{deduce, Monomial};
use independent::engine::{deduction_line, deductions, single_points};
use independent::plain;
use independent::polynomial::{Polynomial, Term};
use independent::random::Random;
use independent::signs::SignSet;

#[test]
fn the_two_ways_find_the_same() {
    for block in deductions(110, 6000).into_iter().chain(single_points()) {
        assert_eq!(plain::line(&block), deduction_line(&block));
    }
}

/// Sixteen terms over one variable each, coefficients at or next to the limit.
fn at_the_limit(random: &mut Random) -> Polynomial {
    let terms = (0..16).map(|i| {
        let mut exponents = vec![0; 16];
        exponents[i] = 1;
        let magnitude = LARGEST_MAGNITUDE - random.below(3) as i128;
        Term { coefficient: if random.percent(50) { magnitude } else { -magnitude }, exponents }
    });
    Polynomial { terms: terms.collect() }
}

#[test]
fn the_largest_terms_fit() {
    let mut random = Random::new(64);
    for _ in 0..200 {
        let (p, q) = (at_the_limit(&mut random), at_the_limit(&mut random));
        let board: Vec<SignSet> = (0..16).map(|_| SignSet::from_bits(1 + random.below(7) as u64)).collect();
        for set in SignSet::all() {
            assert_eq!(plain::deduce(&p, &q, set, &board), deduce(&p, &q, set, &board));
        }
    }
}

fn monomial(a: i128, b: i128) -> Monomial {
    Monomial { a, b, s: SignSet::EQUAL }
}

fn pairs(values: &[plain::Value]) -> Vec<(i64, i64)> {
    values.iter().map(|value| (value.c, value.d)).collect()
}

#[test]
fn the_values_are_as_said() {
    // "With 0 alone: -1, 0, 1."
    assert_eq!(pairs(&plain::values(&[monomial(5, 0)])), [(-1, 1), (0, 1), (1, 1)]);
    // "Equal fractions are one value, whatever their terms", "also where the monomial's set is ="
    let equal = [monomial(-1, 2), monomial(2, -4), monomial(0, 3)];
    assert_eq!(pairs(&plain::values(&equal)), [(-1, 1), (0, 1), (1, 3), (1, 2), (3, 2)]);
    // "At most 35 values."
    let most: Vec<Monomial> = (1..=16).map(|i| monomial(i, 1)).collect();
    assert_eq!(plain::values(&most).len(), 35);
}

#[test]
fn case_a_by_hand() {
    let shown = std::fs::read_to_string("../docs/BY-HAND.md").unwrap();
    let block = include_bytes!("data/case_a_deduction");
    for line in plain::shown(block, &["x", "y"]).lines() {
        assert!(shown.lines().any(|other| other.trim() == line.trim()), "docs/BY-HAND.md has no line {line}");
    }
}
