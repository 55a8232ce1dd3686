//! Document 02, #111: two atoms at once. Known results and numbers of rounds; and the search against one that adds whole polynomials.
//! Sums of one sign pattern, lists of equalities and random lists, with boards of every kind.

use std::collections::BTreeMap;

use independent::count::work_of;
use independent::level::{simplify, tidied};
use independent::polynomial::{Polynomial, Term};
use independent::random::Random;
use independent::rounds::run_rounds;
use independent::signs::SignSet;
use independent::tree::{Atom, Node};
use independent::two_atoms::{found, found_mirrored, is_strict, never_negative, never_positive, Pairs, FACTORS};

type AtomList = Vec<Atom<Polynomial>>;

fn polynomial(terms: &[(i128, [u8; 2])]) -> Polynomial {
    let terms = terms.iter().map(|&(coefficient, e)| Term { coefficient, exponents: e.to_vec() });
    Polynomial { terms: terms.collect() }
}

fn list(atoms: &[(&[(i128, [u8; 2])], SignSet)]) -> AtomList {
    atoms.iter().map(|(terms, set)| Atom { poly: polynomial(terms), set: *set, place: None }).collect()
}

fn and(atoms: AtomList) -> Node<Polynomial> {
    Node::And(atoms.into_iter().map(Node::Atom).collect())
}

const X_PLUS_1: &[(i128, [u8; 2])] = &[(1, [1, 0]), (1, [0, 0])];
const Y_PLUS_1: &[(i128, [u8; 2])] = &[(1, [0, 1]), (1, [0, 0])];
const X_PLUS_Y_PLUS_2: &[(i128, [u8; 2])] = &[(1, [1, 0]), (1, [0, 1]), (2, [0, 0])];

/// "From x+1 > 0 and y+1 > 0 it follows that x+y+2 > 0, and we keep all three."
#[test]
fn the_third_follows_from_two() {
    let greater = SignSet::GREATER;
    let three = list(&[(X_PLUS_1, greater), (Y_PLUS_1, greater), (X_PLUS_Y_PLUS_2, greater)]);
    assert_eq!(simplify(2, and(three.clone())), and(three[..2].to_vec()));
    assert_eq!(run_rounds(2, &three).rounds, 1);
    // In another order too.
    let turned = vec![three[2].clone(), three[0].clone(), three[1].clone()];
    assert_eq!(simplify(2, and(turned)), and(three[..2].to_vec()));
}

/// What the search finds begins another round; a weak sum of weak sets is weak.
#[test]
fn a_finding_begins_another_round() {
    let (weak, unequal) = (SignSet::GREATER_EQUAL, SignSet::NOT_EQUAL);
    let three = list(&[(X_PLUS_1, weak), (Y_PLUS_1, weak), (X_PLUS_Y_PLUS_2, unequal)]);
    let after = run_rounds(2, &three);
    assert_eq!((after.rounds, after.contradiction), (2, false));
    assert_eq!(after.atoms[2].set, SignSet::GREATER);
    assert_eq!(simplify(2, and(three)), and(after.atoms));
}

/// "unless that set is now empty: that ends the run as a contradiction, and no further round is begun". First x < 0 and y < 0 are found,
/// each of which begins a round.
#[test]
fn an_emptied_set_begins_none() {
    let greater = SignSet::GREATER;
    let three = list(&[(X_PLUS_1, greater), (Y_PLUS_1, greater), (X_PLUS_Y_PLUS_2, SignSet::LESS)]);
    let after = run_rounds(2, &three);
    assert_eq!((after.rounds, after.contradiction), (3, true));
    assert_eq!(simplify(2, and(three)), Node::Or(vec![]));
    // With x² in place of x and y² in place of y nothing is found of the variables.
    let x2 = list(&[
        (&[(1, [3, 0]), (1, [0, 0])], greater),
        (&[(1, [0, 3]), (1, [0, 0])], greater),
        (&[(1, [3, 0]), (1, [0, 3]), (2, [0, 0])], SignSet::LESS_EQUAL),
    ]);
    let after = run_rounds(2, &x2);
    assert_eq!((after.rounds, after.contradiction), (1, true));
}

/// An answer can have more atoms than without this rule: x = 0 alone was left.
#[test]
fn more_can_be_left() {
    let (equal, at_most) = (SignSet::EQUAL, SignSet::LESS_EQUAL);
    let square: &[(i128, [u8; 2])] = &[(1, [2, 0])];
    let other: &[(i128, [u8; 2])] = &[(3, [2, 0]), (-2, [1, 0])];
    let three = list(&[(&[(1, [1, 0])], equal), (square, at_most), (other, at_most)]);
    assert_eq!(simplify(2, and(three)), and(list(&[(square, equal), (other, equal)])));
}

/// A variable without an atom is a p too, and what is found of it goes on: 2x+y-3 > 0 and x-y > 0 say x > 0.
#[test]
fn a_variable_is_found() {
    let both = list(&[
        (&[(2, [1, 0]), (1, [0, 1]), (-3, [0, 0])], SignSet::GREATER),
        (&[(1, [1, 0]), (-1, [0, 1])], SignSet::GREATER),
    ]);
    let after = run_rounds(2, &both);
    assert_eq!(after.board, [SignSet::FULL; 2]);
    let both = list(&[
        (&[(2, [1, 0]), (1, [0, 1]), (-3, [0, 0])], SignSet::GREATER),
        (&[(-1, [1, 0]), (-1, [0, 1])], SignSet::GREATER),
    ]);
    // x + u(2x+y-3) + v(-x-y) with u = v = -1: the y cancel, and 3 is left.
    let after = run_rounds(2, &both);
    assert_eq!(after.board, [SignSet::GREATER, SignSet::LESS]);
}

/// Only the pairs whose factors allow a test are counted: 32 where both sets have one direction, 64 where one is =, none for ≠.
#[test]
fn tries_are_counted() {
    let three = |first, second| {
        list(&[
            (&[(1, [5, 0]), (1, [0, 3])], first),
            (&[(1, [3, 1]), (1, [2, 2])], second),
            (&[(1, [1, 7]), (1, [1, 5])], SignSet::NOT_EQUAL),
        ])
    };
    let greater = SignSet::GREATER;
    // p is x, y and the third atom.
    for (first, second, pair) in [
        (greater, greater, 32),
        (greater, SignSet::LESS_EQUAL, 32),
        (SignSet::EQUAL, greater, 64),
        (SignSet::EQUAL, SignSet::EQUAL, 64),
        (SignSet::NOT_EQUAL, greater, 0),
    ] {
        let work = work_of(|| drop(run_rounds(2, &three(first, second))));
        assert_eq!((work.rounds, work.tries), (1, 3 * pair));
    }
}

// ------------------------------------------------------------------------------- against whole polynomials

fn added(p: &Polynomial, u: i128, q: &Polynomial) -> Polynomial {
    let mut sum: BTreeMap<Vec<u8>, i128> = BTreeMap::new();
    for (factor, polynomial) in [(1, p), (u, q)] {
        for term in &polynomial.terms {
            *sum.entry(term.exponents.clone()).or_default() += factor * term.coefficient;
        }
    }
    let terms = sum.into_iter().rev().filter(|&(_, coefficient)| coefficient != 0);
    Polynomial { terms: terms.map(|(exponents, coefficient)| Term { coefficient, exponents }).collect() }
}

/// All findings in order, each sum as a polynomial of its own.
fn findings(board: &[SignSet], p: &Polynomial, atoms: &[Atom<Polynomial>]) -> Vec<SignSet> {
    let mut all = vec![];
    for (at, q1) in atoms.iter().enumerate().filter(|q1| q1.1.poly != *p) {
        for q2 in atoms[at + 1..].iter().filter(|q2| q2.poly != *p) {
            for u in FACTORS {
                for v in FACTORS {
                    let total = added(&added(p, u, &q1.poly), v, &q2.poly).sign_by_terms(board);
                    let strict = is_strict(q1.set) || is_strict(q2.set);
                    if never_positive(u, q1.set) && never_positive(v, q2.set) {
                        all.push(found(total, strict));
                    }
                    if never_negative(u, q1.set) && never_negative(v, q2.set) {
                        all.push(found_mirrored(total, strict));
                    }
                }
            }
        }
    }
    all
}

fn some_list(random: &mut Random, variables: usize) -> AtomList {
    let pattern: Vec<i128> = (0..variables).map(|_| random.pick(&[1, -1])).collect();
    let kind = random.below(4);
    let sets: &[u64] = match kind {
        0 => &[2],
        1 => &[1, 3],
        _ => &[1, 2, 3, 4, 5, 6],
    };
    let mut atoms = vec![];
    for _ in 0..2 + random.below(4) {
        let mut sum = Polynomial { terms: vec![] };
        for i in 0..variables {
            let c = match kind {
                1 => pattern[i] * random.pick(&[0, 1, 1, 2]),
                _ => random.pick(&[0, 0, 1, -1, 2, -3]),
            };
            sum = added(&sum, c, &Polynomial::of_variable(variables, i));
        }
        let constant = Polynomial { terms: vec![Term { coefficient: 1, exponents: vec![0; variables] }] };
        sum = added(&sum, random.pick(&[-2, -1, 0, 1, 1, 4]), &constant);
        if random.percent(30) {
            let exponents = (0..variables).map(|_| random.below(3) as u8).collect();
            sum = added(&sum, random.pick(&[-1, 1, 2]), &Polynomial { terms: vec![Term { coefficient: 1, exponents }] });
        }
        if !sum.terms.is_empty() {
            atoms.push(Atom { poly: sum, set: SignSet::from_bits(random.pick(sets)), place: None });
        }
    }
    tidied(atoms).unwrap_or_default().into_iter().filter(|atom| atom.poly.variable().is_none()).collect()
}

#[test]
fn the_search_is_that_of_whole_polynomials() {
    let mut random = Random::new(111);
    let (mut first, mut all) = (0, 0);
    for _ in 0..400 {
        let variables = 1 + random.below(3);
        let atoms = some_list(&mut random, variables);
        let board: Vec<SignSet> =
            (0..variables).map(|_| SignSet::from_bits(random.pick(&[1, 2, 3, 4, 5, 6, 7, 7, 7]))).collect();
        let targets: Vec<Polynomial> = (0..variables)
            .map(|i| Polynomial::of_variable(variables, i))
            .chain(atoms.iter().map(|atom| atom.poly.clone()))
            .collect();
        for p in &targets {
            let findings = findings(&board, p, &atoms);
            for set in SignSet::all() {
                let mut pairs = Pairs::new(&board, &atoms);
                let cut = findings.iter().map(|&f| set.intersection(f)).find(|&cut| cut != set);
                // Both tests of a try are one finding: they differ here only where one try empties a set.
                let found = pairs.first_cut(p, set);
                assert_eq!(found.is_some(), cut.is_some());
                if found != cut {
                    assert!(found.unwrap().is_inside(cut.unwrap()));
                }
                let left = findings.iter().fold(set, |left, &f| left.intersection(f));
                assert_eq!(pairs.cut_by_all(p, set), left);
                first += usize::from(found.is_some());
                all += usize::from(left != set);
            }
        }
    }
    assert!(first > 500 && all > 500, "{first} and {all}");
}
