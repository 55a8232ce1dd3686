//! Blocks for two atoms at once (document 02, #111): those that its cost is measured on, and random ones.
//! Equalities, sums of one sign pattern, atoms that two others imply, and chains that only pairs settle.

use std::collections::BTreeMap;

use crate::block::{write, Formula};
use crate::meaning::value;
use crate::polynomial::{Polynomial, Term};
use crate::random::Random;
use crate::signs::{sign_of, SignSet};
use crate::tree::Node;

type Sum = BTreeMap<Vec<u8>, i128>;

const VARIABLES: usize = 16;
const POLYNOMIALS: usize = 64;

/// The block of a name.
pub fn formula(name: &str) -> Option<Formula> {
    Some(match name {
        "equalities" => conjunction(VARIABLES, equalities()),
        "sums" => conjunction(VARIABLES, sums()),
        "linked" => conjunction(VARIABLES, linked()),
        "again" => again(),
        "asked" => asked(),
        "nested" => nested(equalities()),
        "pinned" => nested(pinned_to_zero()),
        _ => return None,
    })
}

fn one(n: usize) -> Vec<u8> {
    vec![0; n]
}

fn power(n: usize, i: usize, exponent: u8) -> Vec<u8> {
    (0..n).map(|j| if i == j { exponent } else { 0 }).collect()
}

fn polynomial(sum: &Sum) -> Polynomial {
    let terms = sum.iter().rev().filter(|term| *term.1 != 0);
    Polynomial { terms: terms.map(|(e, &coefficient)| Term { coefficient, exponents: e.clone() }).collect() }
}

type Atoms = Vec<(Polynomial, SignSet)>;

fn table(atoms: &Atoms) -> Vec<Polynomial> {
    atoms.iter().map(|atom| atom.0.clone()).collect()
}

/// An AND of atoms, one for each polynomial.
fn conjunction(variables: usize, atoms: Atoms) -> Formula {
    let parts = atoms.iter().enumerate().map(|(number, atom)| Node::atom(number, atom.1)).collect();
    Formula { variables, table: table(&atoms), tree: Node::And(parts) }
}

/// A sum of one sign pattern: - for all these monomials but the last, + for that one, all of about the same size; it is 0 where each of them is 1.
/// Of three such sums p + u·q1 + v·q2 most factors let the monomials with - pass, and then the last lets none.
fn balanced(random: &mut Random, monomials: &[Vec<u8>]) -> Polynomial {
    let (last, others) = monomials.split_last().expect("there are some");
    let mut sum: Sum = others.iter().map(|monomial| (monomial.clone(), -random.between(97, 103))).collect();
    sum.insert(last.clone(), -sum.values().sum::<i128>());
    polynomial(&sum)
}

/// The squares of all variables, which have a sign on any board.
fn squares() -> Vec<Vec<u8>> {
    (0..VARIABLES).map(|i| power(VARIABLES, i, 2)).collect()
}

/// All sets =: 64 sums of one sign pattern.
fn equalities() -> Atoms {
    let mut random = Random::new(7);
    (0..POLYNOMIALS).map(|_| (balanced(&mut random, &squares()), SignSet::EQUAL)).collect()
}

/// Sixteen x_i - 1 ≥ 0, so that each variable has a sign, and 48 sums of them all with one sign pattern.
fn sums() -> Atoms {
    let mut random = Random::new(8);
    let variables: Vec<Vec<u8>> = (0..VARIABLES).map(|i| power(VARIABLES, i, 1)).collect();
    let above_1 = |x: &Vec<u8>| polynomial(&Sum::from([(x.clone(), 1), (one(VARIABLES), -1)]));
    let mut atoms: Atoms = variables.iter().map(|x| (above_1(x), SignSet::GREATER_EQUAL)).collect();
    while atoms.len() < POLYNOMIALS {
        atoms.push((balanced(&mut random, &variables), SignSet::GREATER_EQUAL));
    }
    atoms
}

/// Even powers of x_1 to x_14, 16 of them.
fn even_powers() -> Vec<Vec<u8>> {
    let mut list: Vec<Vec<u8>> = (0..VARIABLES - 2).map(|i| power(VARIABLES, i, 2)).collect();
    for i in [1, 2] {
        let mut exponents = power(VARIABLES, 0, 2);
        exponents[i] = 2;
        list.push(exponents);
    }
    list.sort();
    list.reverse();
    list
}

/// x_i - x_j + y - z, where y and z, the last two variables, have any sign: with z - y it says what x_i - x_j does.
fn link(i: usize, j: Option<usize>) -> Sum {
    let x = |i| power(VARIABLES, i, 1);
    let mut sum = Sum::from([(x(i), 1), (x(VARIABLES - 2), 1), (x(VARIABLES - 1), -1)]);
    if let Some(j) = j {
        sum.insert(x(j), -1);
    }
    sum
}

fn z_minus_y() -> Polynomial {
    polynomial(&Sum::from([(power(VARIABLES, VARIABLES - 1, 1), 1), (power(VARIABLES, VARIABLES - 2, 1), -1)]))
}

/// A chain that only pairs settle, each link with z - y ≥ 0: x_14 is at or above 0, and so x_13, .. x_1, one after the other; then x_14 ≥ 1 + x_1·y² is
/// above 0, and so they all. 28 searches find a variable, each from x_1 on; and 48 equalities of one sign pattern are tried in each.
fn linked() -> Atoms {
    let mut random = Random::new(9);
    let first = VARIABLES - 3;
    let mut above = link(first, None);
    above.insert(one(VARIABLES), -1);
    let mut x_1_y2 = power(VARIABLES, 0, 1);
    x_1_y2[VARIABLES - 2] = 2;
    above.insert(x_1_y2, -1);
    let mut atoms = vec![z_minus_y(), polynomial(&link(first, None)), polynomial(&above)];
    atoms.extend((0..first).map(|i| polynomial(&link(i, Some(i + 1)))));
    let mut atoms: Atoms = atoms.into_iter().map(|polynomial| (polynomial, SignSet::GREATER_EQUAL)).collect();
    while atoms.len() < POLYNOMIALS {
        atoms.push((balanced(&mut random, &even_powers()), SignSet::EQUAL));
    }
    atoms
}

/// The same chain with = in all its links, so that all its variables are 0 and each atom is implied: step 5 runs afresh for every one.
fn pinned_to_zero() -> Atoms {
    let mut random = Random::new(10);
    let first = VARIABLES - 3;
    let mut polynomials = vec![z_minus_y(), polynomial(&link(first, None))];
    polynomials.extend((0..first).map(|i| polynomial(&link(i, Some(i + 1)))));
    while polynomials.len() < POLYNOMIALS {
        polynomials.push(balanced(&mut random, &even_powers()));
    }
    polynomials.into_iter().map(|polynomial| (polynomial, SignSet::EQUAL)).collect()
}

/// Sums of one sign pattern: so many at or above 0 and at or below it in turn, and so many equal to 0; and children that make the former > and <, one at each
/// way back to step 2, the last first. Each way back has a search over all pairs.
fn ways_back(table: &[Polynomial], moved: usize, equal: usize) -> Vec<Node<usize>> {
    let weak = |k: usize| if k % 2 == 1 { SignSet::GREATER_EQUAL } else { SignSet::LESS_EQUAL };
    let strict = |k: usize| if k % 2 == 1 { SignSet::GREATER } else { SignSet::LESS };
    let set = |k: usize| match k {
        _ if k + 1 < moved => weak(k),
        _ if k + 1 == moved => strict(k),
        _ => SignSet::EQUAL,
    };
    let child = |k: usize| Node::Or(vec![Node::atom(k, strict(k).complement()), Node::atom(k - 1, strict(k - 1))]);
    assert!(moved + equal <= table.len());
    (0..moved + equal).map(|k| Node::atom(k, set(k))).chain((1..moved).map(child)).collect()
}

fn balanced_table(seed: u64) -> Vec<Polynomial> {
    let mut random = Random::new(seed);
    (0..POLYNOMIALS).map(|_| balanced(&mut random, &squares())).collect()
}

/// 43 ways back.
fn again() -> Formula {
    let table = balanced_table(11);
    let tree = Node::And(ways_back(&table, 44, 20));
    Formula { variables: VARIABLES, table, tree }
}

/// 23 ways back, and in each of them 114 atoms of children are asked about whose polynomials are not listed.
fn asked() -> Formula {
    let table = balanced_table(12);
    let (moved, equal) = (24, 32);
    let mut parts = ways_back(&table, moved, equal);
    let mut nodes_left = 255 - Node::And(parts.clone()).nodes();
    while nodes_left > 2 {
        let atoms = (POLYNOMIALS - moved - equal).min(nodes_left - 1);
        let atom = |k: usize| Node::atom(moved + equal + k, if k % 2 == 1 { SignSet::GREATER_EQUAL } else { SignSet::LESS });
        parts.push(Node::Or((0..atoms).map(atom).collect()));
        nodes_left -= atoms + 1;
    }
    Formula { variables: VARIABLES, table, tree: Node::And(parts) }
}

/// The list as an OR at nesting 6, alone in each node above, so that it is spliced and settled three times; three of them, and one with what is left of
/// 255 nodes.
fn nested(atoms: Atoms) -> Formula {
    let spliced = |count: usize| {
        let parts = (0..count).map(|k| Node::atom(k, atoms[k].1.complement())).collect();
        Node::Or(vec![Node::And(vec![Node::Or(vec![Node::And(vec![Node::Or(parts)])])])])
    };
    let tree = Node::And([64, 64, 64, 42].map(spliced).into());
    Formula { variables: VARIABLES, table: table(&atoms), tree }
}

// ---------------------------------------------------------------------------------------- random ones

/// Random ANDs of atoms, now and then with an OR child, or exchanged; every tenth with coefficients at the limit of the magnitudes.
pub fn corpus(seed: u64, count: usize) -> Vec<Vec<u8>> {
    let mut random = Random::new(seed);
    (0..count).map(|i| write(&if i % 10 == 9 { largest_list(&mut random) } else { random_list(&mut random) })).collect()
}

/// Coefficients of magnitude 2^31-1 and about a half, a third and a quarter of it, so that p + u·q1 + v·q2 reaches 9(2^31-1), cancels, and misses that
/// by one; up to sixteen terms each, so that the three have up to 48 monomials together.
fn largest_list(random: &mut Random) -> Formula {
    const MOST: i128 = (1 << 31) - 1;
    let n = 1 + random.below(VARIABLES);
    let shared = random.percent(60);
    let mut table: Vec<Polynomial> = vec![];
    while table.len() < 3 + random.below(3) {
        let mut sum = Sum::new();
        for k in 0..1 + random.below(16) {
            let exponent = if shared { random.pick(&[1, 2]) } else { 1 + (table.len() * 3 + random.below(3)) as u8 % 15 };
            let size = MOST / random.pick(&[1, 1, 1, 2, 3, 4]) - random.pick(&[0, 0, 1]);
            sum.insert(if random.percent(10) { one(n) } else { power(n, k % n, exponent) }, size * random.pick(&[1, -1]));
        }
        table.push(polynomial(&sum));
    }
    let mut parts: Vec<Node<usize>> = vec![];
    for number in 0..table.len() {
        parts.push(Node::atom(number, SignSet::from_bits(random.pick(&[1, 2, 3, 4, 6, 2, 3, 6]))));
    }
    for i in 0..n.min(4) {
        if random.percent(50) {
            table.push(Polynomial::of_variable(n, i));
            parts.push(Node::atom(table.len() - 1, SignSet::from_bits(random.pick(&[1, 3, 4, 6]))));
        }
    }
    Formula { variables: n, table, tree: Node::And(parts) }
}

fn random_list(random: &mut Random) -> Formula {
    let n = 1 + random.below(5);
    let point: Vec<i128> = (0..n).map(|_| random.between(-2, 2)).collect();
    let kind = random.below(6);
    let pattern: Vec<i128> = (0..n).map(|_| random.pick(&[1, -1])).collect();
    let degree = random.pick(&[1, 1, 1, 2, 3]);
    let count = 2 + random.below(7);
    let mut table: Vec<Polynomial> = vec![];
    while table.len() < count {
        let sum: Sum = match kind {
            // Linear combinations of two that are there, and something beside.
            0 | 1 if table.len() >= 2 && random.percent(60) => {
                let (q1, q2) = (random.below(table.len()), random.below(table.len()));
                let mut sum = Sum::new();
                for (factor, q) in [(random.between(-4, 4), &table[q1]), (random.between(-4, 4), &table[q2])] {
                    for term in &q.terms {
                        *sum.entry(term.exponents.clone()).or_default() += factor * term.coefficient;
                    }
                }
                *sum.entry(one(n)).or_default() += random.pick(&[-1, 0, 0, 1, 2]);
                sum
            }
            // One sign pattern, and single variables beside it.
            2 | 3 if random.percent(70) => {
                let of = |random: &mut Random, i: usize| (power(n, i, degree), pattern[i] * random.between(0, 3));
                let mut sum: Sum = (0..n).map(|i| of(random, i)).collect();
                sum.insert(one(n), random.between(-1, 1));
                sum
            }
            2 | 3 => Sum::from([(power(n, random.below(n), 1), 1), (one(n), random.between(-2, 1))]),
            // A link of a chain, with one more variable of either sign.
            4 => {
                let (i, j, k) = (random.below(n), random.below(n), random.below(n));
                let mut sum = Sum::from([(power(n, i, 1), random.between(1, 2))]);
                *sum.entry(power(n, j, 1)).or_default() += random.pick(&[1, -1]);
                *sum.entry(power(n, k, degree)).or_default() += random.pick(&[1, -1]);
                *sum.entry(one(n)).or_default() += random.pick(&[-1, 0, 0, 0, 1]);
                sum
            }
            _ => {
                let mut sum: Sum = (0..n).map(|i| (power(n, i, 1 + random.below(3) as u8), random.between(-3, 3))).collect();
                sum.insert(one(n), random.between(-2, 2));
                sum
            }
        };
        let new = polynomial(&sum);
        if !new.terms.is_empty() && new.terms.len() <= 16 && new.terms.iter().all(|term| term.coefficient.abs() < 1 << 30) {
            table.push(new);
        }
    }
    let equal = random.percent(25);
    let steered = random.percent(75);
    let mut parts: Vec<Node<usize>> = vec![];
    for (number, polynomial) in table.iter().enumerate() {
        let set = SignSet::from_bits(if equal { 2 } else { random.pick(&[1, 2, 3, 4, 5, 6, 1, 3, 6]) });
        let sign = value(polynomial, &point).map(sign_of);
        let set = match sign {
            Some(sign) if steered && !set.has(sign) => SignSet::only(sign).union(random.pick(&[set, SignSet::only(sign)])),
            _ => set,
        };
        parts.push(Node::atom(number, set));
    }
    if random.percent(20) {
        let i = random.below(n);
        table.push(Polynomial::of_variable(n, i));
        parts.push(Node::atom(table.len() - 1, SignSet::from_bits(random.pick(&[1, 3, 4, 5, 6]))));
    }
    if parts.len() > 3 && random.percent(25) {
        let at = parts.len() - 2;
        let child = parts.split_off(at);
        parts.push(Node::Or(child));
    }
    let tree = Node::And(parts);
    Formula { variables: n, table, tree: if random.percent(15) { tree.exchanged() } else { tree } }
}
