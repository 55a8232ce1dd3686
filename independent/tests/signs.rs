//! Sums, products, squares and complements of sign sets against brute force over small whole numbers.
//! The same for signs of monomials and signs by terms: no value may have a sign outside.

use independent::meaning::value;
use independent::polynomial::{monomial_sign, Polynomial, Term};
use independent::random::Random;
use independent::signs::{sign_of, SignSet, SIGNS};

fn members(set: SignSet) -> Vec<i128> {
    (-4..=4).filter(|&v| set.has(sign_of(v))).collect()
}

fn set_of(values: impl Iterator<Item = i128>) -> SignSet {
    values.fold(SignSet::EMPTY, |set, v| set.union(SignSet::only(sign_of(v))))
}

#[test]
fn the_codes_are_document_01s() {
    let codes = [
        (SignSet::LESS, 4, "< 0"),
        (SignSet::EQUAL, 2, "= 0"),
        (SignSet::LESS_EQUAL, 6, "≤ 0"),
        (SignSet::GREATER, 1, "> 0"),
        (SignSet::NOT_EQUAL, 5, "≠ 0"),
        (SignSet::GREATER_EQUAL, 3, "≥ 0"),
        (SignSet::EMPTY, 0, "nothing"),
        (SignSet::FULL, 7, "anything"),
    ];
    for (set, code, name) in codes {
        assert_eq!(set.to_bits(), code, "{name}");
        assert_eq!(SignSet::from_bits(code), set, "{name}");
    }
    assert_eq!(members(SignSet::LESS), [-4, -3, -2, -1]);
    assert_eq!(members(SignSet::LESS_EQUAL), [-4, -3, -2, -1, 0]);
    assert_eq!(members(SignSet::EQUAL), [0]);
    assert_eq!(members(SignSet::GREATER_EQUAL), [0, 1, 2, 3, 4]);
    assert_eq!(members(SignSet::GREATER), [1, 2, 3, 4]);
    assert_eq!(members(SignSet::NOT_EQUAL), [-4, -3, -2, -1, 1, 2, 3, 4]);
}

#[test]
fn sums_and_products_are_those_of_whole_numbers() {
    for one in SignSet::all() {
        for other in SignSet::all() {
            let pairs = || {
                members(one).into_iter().flat_map(move |a| members(other).into_iter().map(move |b| (a, b)))
            };
            assert_eq!(one.sum(other), set_of(pairs().map(|(a, b)| a + b)), "{one:?} + {other:?}");
            assert_eq!(one.product(other), set_of(pairs().map(|(a, b)| a * b)), "{one:?} · {other:?}");
        }
    }
}

#[test]
fn squares_mirrors_and_complements_are_those_of_whole_numbers() {
    for set in SignSet::all() {
        assert_eq!(set.square(), set_of(members(set).into_iter().map(|v| v * v)));
        assert_eq!(set.mirror(), set_of(members(set).into_iter().map(|v| -v)));
        let others = (-4..=4).filter(|&v| !set.has(sign_of(v)));
        assert_eq!(set.complement(), set_of(others));
    }
}

#[test]
fn unions_intersections_and_inclusion_are_by_members() {
    for one in SignSet::all() {
        for other in SignSet::all() {
            for sign in SIGNS {
                assert_eq!(one.union(other).has(sign), one.has(sign) || other.has(sign));
                assert_eq!(one.intersection(other).has(sign), one.has(sign) && other.has(sign));
            }
            assert_eq!(one.is_inside(other), members(one).iter().all(|v| members(other).contains(v)));
        }
    }
}

#[test]
fn the_monomial_1_is_positive() {
    assert_eq!(monomial_sign(&[0, 0], &[SignSet::FULL, SignSet::LESS]), SignSet::GREATER);
    assert_eq!(monomial_sign(&[2, 0], &[SignSet::FULL, SignSet::LESS]), SignSet::GREATER_EQUAL);
    assert_eq!(monomial_sign(&[2, 1], &[SignSet::NOT_EQUAL, SignSet::LESS]), SignSet::LESS);
    assert_eq!(monomial_sign(&[0, 3], &[SignSet::EMPTY, SignSet::LESS]), SignSet::LESS);
    assert_eq!(monomial_sign(&[1, 3], &[SignSet::EMPTY, SignSet::LESS]), SignSet::EMPTY);
}

#[test]
fn a_monomials_sign_set_is_exactly_that_of_its_values() {
    for exponents in [[0, 0], [1, 0], [2, 1], [3, 2], [1, 1], [4, 2], [5, 3]] {
        for one in SignSet::all() {
            for other in SignSet::all() {
                if one.is_empty() || other.is_empty() {
                    continue;
                }
                let monomial =
                    Polynomial { terms: vec![Term { coefficient: 1, exponents: exponents.to_vec() }] };
                let mut values = vec![];
                for x in members(one) {
                    for y in members(other) {
                        values.push(value(&monomial, &[x, y]).unwrap());
                    }
                }
                assert_eq!(monomial_sign(&exponents, &[one, other]), set_of(values.into_iter()));
            }
        }
    }
}

#[test]
fn a_sign_by_terms_holds_each_value() {
    let mut random = Random::new(7);
    let mut narrow = 0;
    for _ in 0..3_000 {
        let board: Vec<SignSet> = (0..2).map(|_| SignSet::from_bits(1 + random.below(7) as u64)).collect();
        let mut terms = vec![];
        for exponents in [[2, 1], [2, 0], [1, 0], [0, 3], [0, 0]] {
            if random.percent(50) {
                let coefficient = random.pick(&[1, 2, -1, -2]);
                terms.push(Term { coefficient, exponents: exponents.to_vec() });
            }
        }
        let polynomial = Polynomial { terms };
        let by_terms = polynomial.sign_by_terms(&board);
        narrow += usize::from(!by_terms.is_full());
        for x in members(board[0]) {
            for y in members(board[1]) {
                assert!(by_terms.has(sign_of(value(&polynomial, &[x, y]).unwrap())));
            }
        }
    }
    assert!(narrow > 500, "only {narrow} signs by terms say anything");
}
