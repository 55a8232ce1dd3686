//! The blocks that the cost is measured on, each made from a fixed seed.
//! Random conditions are made to hold at a hidden point, so that they do not contradict each other.

use std::collections::BTreeSet;
use std::ops::Range;

use crate::block::{write, Formula};
use crate::meaning::value;
use crate::polynomial::{Polynomial, Term};
use crate::random::Random;
use crate::search::{candidate, SLOWEST};
use crate::signs::{sign_of, SignSet};
use crate::together;
use crate::tree::Node;

/// The block of a name.
pub fn block(name: &str) -> Option<Vec<u8>> {
    let formula = match name {
        "chain" => chain(),
        "linear" => linear(),
        "mixed" => mixed(),
        "deep" => deep(),
        "back" => back(down()),
        "zigzag" => back(zigzag()),
        "scattered" => back(SCATTERED.to_vec()),
        "removed" => removed(),
        "worst" => worst(),
        "slowest" => candidate(SLOWEST),
        _ => match name.strip_prefix("order-") {
            Some(variables) => back(order(variables)?),
            None => match name.strip_prefix("list-") {
                Some(size) => list(size)?,
                None => together::formula(name)?,
            },
        },
    };
    Some(write(&formula))
}

const VARIABLES: usize = 16;
const POLYNOMIALS: usize = 64;

/// The AND of 64 different differences x_i - x_j + c over 16 variables.
fn chain() -> Formula {
    let mut random = Random::new(1);
    let point = hidden_point(&mut random);
    let mut pairs = BTreeSet::new();
    let mut table = vec![];
    while table.len() < POLYNOMIALS {
        let (i, j) = (random.below(VARIABLES), random.below(VARIABLES));
        if i == j || !pairs.insert((i, j)) {
            continue;
        }
        let c = random.pick(&[-9, -5, -2, -1, 1, 3, 4, 8]);
        table.push(polynomial(vec![(1, variable(i)), (-1, variable(j)), (c, vec![0; VARIABLES])]));
    }
    conjunction(&mut random, &point, table)
}

/// 64 atoms of 16 terms of degree 1.
fn linear() -> Formula {
    let mut random = Random::new(2);
    let point = hidden_point(&mut random);
    let table = (0..POLYNOMIALS)
        .map(|_| polynomial((0..VARIABLES).map(|i| (coefficient(&mut random), variable(i))).collect()))
        .collect();
    conjunction(&mut random, &point, table)
}

/// 64 atoms of 16 terms of mixed degree, exponents 0 to 3.
fn mixed() -> Formula {
    let mut random = Random::new(3);
    let point = hidden_point(&mut random);
    let table = (0..POLYNOMIALS).map(|_| mixed_polynomial(&mut random, 16)).collect();
    conjunction(&mut random, &point, table)
}

/// Nesting 6 with 255 nodes over 64 polynomials, differences and mixed ones.
fn deep() -> Formula {
    let mut random = Random::new(4);
    let point = hidden_point(&mut random);
    let table: Vec<Polynomial> = (0..POLYNOMIALS)
        .map(|k| match k % 4 {
            0 => polynomial(vec![(1, variable(random.below(VARIABLES)))]),
            1 => mixed_polynomial(&mut random, 4),
            _ => {
                let (i, j) = (random.below(VARIABLES), random.below(VARIABLES - 1));
                let j = if j < i { j } else { j + 1 };
                polynomial(vec![
                    (1, variable(i)),
                    (-1, variable(j)),
                    (coefficient(&mut random), vec![0; VARIABLES]),
                ])
            }
        })
        .collect();
    let mut nodes_left = 255;
    let tree = deep_node(&mut random, &point, &table, true, 1, &mut nodes_left);
    Formula { variables: VARIABLES, table, tree }
}

/// An AND or OR with its share of the nodes that are left: one child of the other kind at each nesting but the last, atoms beside it.
fn deep_node(
    random: &mut Random,
    point: &[i128],
    table: &[Polynomial],
    and: bool,
    nesting: usize,
    nodes_left: &mut usize,
) -> Node<usize> {
    *nodes_left -= 1;
    let mut parts = vec![];
    if nesting < 6 {
        let children = if nesting < 4 { 2 } else { 1 };
        for child in 0..children {
            let mut share = if child + 1 == children { *nodes_left * 3 / 4 } else { *nodes_left * 3 / 8 };
            *nodes_left -= share;
            parts.push(deep_node(random, point, table, !and, nesting + 1, &mut share));
            *nodes_left += share;
        }
    }
    while *nodes_left > 0 {
        *nodes_left -= 1;
        let number = random.below(table.len());
        parts.push(Node::atom(number, set_at(random, point, &table[number], and)));
    }
    if and {
        Node::And(parts)
    } else {
        Node::Or(parts)
    }
}

// ------------------------------------------------------------------------------- many rounds on purpose

/// 64 polynomials whose list, all of them at or above 0, takes 30 rounds: one change of the board in each but the last, while no atom is cut, and
/// most deductions find only at the last monomials that there is no t.
///
/// The links x_i - x_(i+1) - .. carry what is known of x_16 down to x_2, one variable in each round, since x_i has its turn before x_(i+1):
/// first that it is at or above 0, then that it is above. x_16 - .. starts the first, 2 x_16 - x_2 - 1 - .. the second. The order may be another
/// one than down from x_16. With two such chains the rounds are as many when one atom is left out. The dots are even powers with x_1 in each: they come before all that decides.
/// The list holds where x_1 is 0 and the others 1. The other polynomials are 1 - .. , which no atom implies, or .. , which the rounds do.
fn slow_polynomials(order: &[usize], chains: usize, implied: bool) -> Vec<Polynomial> {
    let mut random = Random::new(5);
    let powers = even_powers(&mut random);
    let constant = vec![0; VARIABLES];
    let (end, start) = (order[0], order[order.len() - 1]);
    let mut starts = vec![];
    for _ in 0..chains {
        starts.push(vec![(1, variable(start))]);
        starts.push(vec![(2, variable(start)), (-1, variable(end)), (-1, constant.clone())]);
        for link in order.windows(2) {
            starts.push(vec![(1, variable(link[0])), (-1, variable(link[1]))]);
        }
    }
    let mut table: Vec<Polynomial> =
        starts.into_iter().map(|start| with_even_powers(&mut random, &powers, -1, 16, start)).collect();
    while table.len() < POLYNOMIALS {
        table.push(if implied {
            with_even_powers(&mut random, &powers, 1, 16, vec![])
        } else {
            with_even_powers(&mut random, &powers, -1, 16, vec![(1, constant.clone())])
        });
    }
    table
}

/// The variables of a chain but x_1, each before the one that it learns from: x_2, x_3, .. x_16.
fn down() -> Vec<usize> {
    (1..VARIABLES).collect()
}

/// The same with every other one from the end: x_2, x_16, x_3, x_15, .. x_9. Turns in the order of the variables, up or down, then go on by few links.
fn zigzag() -> Vec<usize> {
    (1..VARIABLES).map(|k| if k % 2 == 1 { k / 2 + 1 } else { VARIABLES - k / 2 }).collect()
}

/// The order that makes *back* the slowest known for the program; bench/orders looks for a slower one. It has x_1 too, which learns last.
const SCATTERED: [usize; VARIABLES] = [0, 14, 15, 7, 4, 9, 12, 2, 1, 6, 11, 5, 3, 10, 13, 8];

/// `0-14-..`: any order of different variables, counted from 0, two at least.
fn order(variables: &str) -> Option<Vec<usize>> {
    let order: Vec<usize> = variables.split('-').map(|word| word.parse().ok()).collect::<Option<_>>()?;
    let different: BTreeSet<usize> = order.iter().copied().collect();
    (different.len() == order.len() && order.len() > 1 && order.iter().all(|&i| i < VARIABLES))
        .then_some(order)
}

/// Even powers with x_1 in each, so many that two polynomials share some of theirs: the slowest to go through.
fn even_powers(random: &mut Random) -> Vec<Vec<u8>> {
    let mut monomials = BTreeSet::new();
    while monomials.len() < 45 {
        let mut exponents: Vec<u8> = (0..VARIABLES).map(|_| random.pick(&[0, 0, 0, 2])).collect();
        exponents[0] = random.pick(&[2, 4, 6]);
        monomials.insert(exponents);
    }
    monomials.into_iter().collect()
}

/// The terms, and even powers with coefficients of one sign up to a number of terms.
fn with_even_powers(
    random: &mut Random,
    powers: &[Vec<u8>],
    sign: i128,
    count: usize,
    mut terms: Vec<(i128, Vec<u8>)>,
) -> Polynomial {
    let mut monomials = BTreeSet::new();
    while terms.len() + monomials.len() < count {
        monomials.insert(powers[random.below(powers.len())].clone());
    }
    terms.extend(monomials.into_iter().map(|exponents| (sign * random.between(1, 9), exponents)));
    polynomial(terms)
}

/// `ATOMS-TERMS`: an AND of so many polynomials 1 - .. with so many terms, for the cost of a round by its size.
fn list(size: &str) -> Option<Formula> {
    let (atoms, terms) = size.split_once('-')?;
    let (atoms, terms) = (atoms.parse::<usize>().ok()?, terms.parse::<usize>().ok()?);
    if atoms > POLYNOMIALS || terms > 16 {
        return None;
    }
    let mut random = Random::new(6);
    let powers = even_powers(&mut random);
    let table = (0..atoms)
        .map(|_| with_even_powers(&mut random, &powers, -1, terms, vec![(1, vec![0; VARIABLES])]))
        .collect();
    let tree = Node::And((0..atoms).map(|k| Node::atom(k, SignSet::GREATER_EQUAL)).collect());
    Some(Formula { variables: VARIABLES, table, tree })
}

/// Lists of slow polynomials, three of 64 and one with what is left of 255 nodes. Each stands as an OR at nesting 6, alone in its nodes above,
/// so that it is spliced into the ORs at 4 and at 2 and goes through its 65 runs three times.
fn worst() -> Formula {
    let children = [64, 64, 64, 42].map(|atoms| spliced(0..atoms, 0..0, 0..0));
    Formula {
        variables: VARIABLES,
        table: slow_polynomials(&down(), 2, false),
        tree: Node::And(children.into()),
    }
}

/// Lists of which step 5 removes all but the 16 links, one after the other, each by a run of 30 rounds. The ORs at nesting 4 and 2 have those that
/// are removed again, beside the links that are spliced.
fn removed() -> Formula {
    let children = vec![spliced(0..64, 16..64, 16..64), spliced(0..64, 16..36, 0..0)];
    Formula { variables: VARIABLES, table: slow_polynomials(&down(), 1, true), tree: Node::And(children) }
}

/// An OR at nesting 6, alone in an AND within the OR at 4, which is alone in an AND within the OR at 2; the polynomials of each OR.
fn spliced(at_6: Range<usize>, at_4: Range<usize>, at_2: Range<usize>) -> Node<usize> {
    let or = |polynomials: Range<usize>, below: Option<Node<usize>>| {
        let atoms = polynomials.map(|k| Node::atom(k, SignSet::GREATER_EQUAL.complement()));
        Node::Or(atoms.chain(below).collect())
    };
    let below = or(at_4, Some(Node::And(vec![or(at_6, None)])));
    or(at_2, Some(Node::And(vec![below])))
}

/// A list of slow polynomials and 63 children f_k ≤ 0 OR f_(k-1) > 0, the last f above 0 at first: one child joins at each way back to step 2.
fn back(order: Vec<usize>) -> Formula {
    let table = slow_polynomials(&order, 1, false);
    let last = POLYNOMIALS - 1;
    let mut parts: Vec<Node<usize>> = (0..POLYNOMIALS)
        .map(|k| Node::atom(k, if k == last { SignSet::GREATER } else { SignSet::GREATER_EQUAL }))
        .collect();
    for k in 1..POLYNOMIALS {
        parts.push(Node::Or(vec![Node::atom(k, SignSet::LESS_EQUAL), Node::atom(k - 1, SignSet::GREATER)]));
    }
    Formula { variables: VARIABLES, table, tree: Node::And(parts) }
}

// ------------------------------------------------------------------------------------- the pieces

fn hidden_point(random: &mut Random) -> Vec<i128> {
    (0..VARIABLES).map(|_| random.between(-3, 3)).collect()
}

/// The AND of one atom for each polynomial, all of which hold at the point.
fn conjunction(random: &mut Random, point: &[i128], table: Vec<Polynomial>) -> Formula {
    let atoms = table
        .iter()
        .enumerate()
        .map(|(number, polynomial)| Node::atom(number, set_at(random, point, polynomial, true)))
        .collect();
    Formula { variables: VARIABLES, table, tree: Node::And(atoms) }
}

/// A set that says something, and has, or has not, the polynomial's sign at the point.
fn set_at(random: &mut Random, point: &[i128], polynomial: &Polynomial, holds: bool) -> SignSet {
    let set = SignSet::from_bits(1 + random.below(6) as u64);
    match value(polynomial, point) {
        Some(value) if set.has(sign_of(value)) != holds => set.complement(),
        _ => set,
    }
}

fn polynomial(mut terms: Vec<(i128, Vec<u8>)>) -> Polynomial {
    terms.sort_by(|one, other| other.1.cmp(&one.1));
    Polynomial {
        terms: terms.into_iter().map(|(coefficient, exponents)| Term { coefficient, exponents }).collect(),
    }
}

fn variable(i: usize) -> Vec<u8> {
    (0..VARIABLES).map(|j| u8::from(i == j)).collect()
}

fn coefficient(random: &mut Random) -> i128 {
    random.pick(&[-9, -7, -5, -4, -3, -2, -1, 1, 2, 3, 4, 5, 7, 9])
}

/// Different monomials with exponents 0 to 3.
fn mixed_polynomial(random: &mut Random, terms: usize) -> Polynomial {
    let mut monomials = BTreeSet::new();
    while monomials.len() < terms {
        let exponents: Vec<u8> =
            (0..VARIABLES).map(|_| if random.percent(60) { 0 } else { random.below(4) as u8 }).collect();
        monomials.insert(exponents);
    }
    polynomial(monomials.into_iter().map(|exponents| (coefficient(random), exponents)).collect())
}
