//! The six steps: small formulas that show one rule each, the decisions and the wrong turns among them.
//! Written over x, y, z; each is answered as a tree.

use independent::level::simplify;
use independent::polynomial::{Polynomial, Term};
use independent::signs::SignSet;
use independent::tree::Node;

type Tree = Node<Polynomial>;

/// A linear polynomial: the coefficients of x, y, z and 1.
fn linear(coefficients: [i128; 4]) -> Polynomial {
    let mut terms = vec![];
    for (i, coefficient) in coefficients.into_iter().enumerate() {
        if coefficient != 0 {
            let mut exponents = vec![0; 3];
            if i < 3 {
                exponents[i] = 1;
            }
            terms.push(Term { coefficient, exponents });
        }
    }
    Polynomial { terms }
}

const X: [i128; 4] = [1, 0, 0, 0];
const Y: [i128; 4] = [0, 1, 0, 0];
const Z: [i128; 4] = [0, 0, 1, 0];

/// An atom, its set by document 01's code.
fn is(coefficients: [i128; 4], set: u64) -> Tree {
    Node::atom(linear(coefficients), SignSet::from_bits(set))
}

const GREATER: u64 = 1;
const EQUAL: u64 = 2;
const GREATER_EQUAL: u64 = 3;
const LESS: u64 = 4;
const NOT_EQUAL: u64 = 5;
const LESS_EQUAL: u64 = 6;

fn and(parts: &[Tree]) -> Tree {
    Node::And(parts.to_vec())
}

fn or(parts: &[Tree]) -> Tree {
    Node::Or(parts.to_vec())
}

/// The formula gives the result, and the exchanged formula the exchanged result.
#[track_caller]
fn gives(formula: Tree, result: Tree) {
    assert_eq!(simplify(3, formula.clone()), result);
    if !matches!(formula, Node::Atom(_)) {
        assert_eq!(simplify(3, formula.exchanged()), result.exchanged());
    }
}

#[test]
fn constants_and_trivial_sets() {
    gives(and(&[]), and(&[]));
    gives(and(&[or(&[])]), or(&[]));
    gives(and(&[or(&[and(&[])])]), and(&[]));
    gives(is(X, 7), and(&[]));
    gives(is(X, 0), or(&[]));
    gives(is([0, 0, 0, 5], GREATER), and(&[]));
    gives(is([0, 0, 0, 5], LESS_EQUAL), or(&[]));
    gives(is([0, 0, 0, -5], GREATER), or(&[]));
    gives(is([0, 0, 0, -5], NOT_EQUAL), and(&[]));
    gives(and(&[is(X, GREATER), is([0, 0, 0, -5], GREATER)]), or(&[]));
    gives(and(&[is(X, GREATER), is([0, 0, 0, -5], LESS)]), is(X, GREATER));
    gives(and(&[is(X, GREATER), is(Y, 0)]), or(&[]));
}

#[test]
fn normal_form() {
    gives(is([-6, 0, 0, 3], GREATER), is([2, 0, 0, -1], LESS));
    gives(is([-6, 0, 0, 4], GREATER_EQUAL), is([3, 0, 0, -2], LESS_EQUAL));
    gives(is([0, -7, 0, 0], EQUAL), is(Y, EQUAL));
    gives(is([0, -2, 4, 0], NOT_EQUAL), is([0, 1, -2, 0], NOT_EQUAL));
}

/// Step 2: atoms of one polynomial become one at the first's place; merged before full ones are dropped.
#[test]
fn merging() {
    gives(
        and(&[is(X, GREATER_EQUAL), is(Y, GREATER), is([-2, 0, 0, 0], NOT_EQUAL)]),
        and(&[is(X, GREATER), is(Y, GREATER)]),
    );
    gives(and(&[is(X, 7), is(Y, GREATER), is(X, LESS)]), and(&[is(X, LESS), is(Y, GREATER)]));
    gives(and(&[is(X, GREATER), is(Y, GREATER), is([-1, 0, 0, 0], GREATER)]), or(&[]));
    gives(or(&[is(X, 0), is(Y, GREATER), is(X, LESS)]), or(&[is(X, LESS), is(Y, GREATER)]));
}

/// Step 3: "Atoms now carry the cut sets (a variable without an atom gets none)."
#[test]
fn carried_sets() {
    // "Case G's first atom alone would become two."
    gives(and(&[is([2, 0, 0, -1], GREATER)]), is([2, 0, 0, -1], GREATER));
    // x ≥ 0 and y ≥ 0 with x + y ≤ 0: all are zero; then the first goes on account of the two others.
    gives(
        and(&[is(X, GREATER_EQUAL), is(Y, GREATER_EQUAL), is([1, 1, 0, 0], LESS_EQUAL)]),
        and(&[is(Y, EQUAL), is([1, 1, 0, 0], EQUAL)]),
    );
    // "≠ or full: nothing."
    gives(
        and(&[is(X, GREATER_EQUAL), is([1, -1, 0, 0], NOT_EQUAL)]),
        and(&[is(X, GREATER_EQUAL), is([1, -1, 0, 0], NOT_EQUAL)]),
    );
}

/// Step 4: a child is dropped, an atom narrowed, an atom dropped, a child joins.
#[test]
fn or_children() {
    // Emptied because it is true, and because it is false.
    gives(and(&[is(X, GREATER), or(&[is(X, GREATER_EQUAL), is(Y, GREATER)])]), is(X, GREATER));
    gives(and(&[is(X, GREATER), or(&[is(X, LESS), is([1, 0, 0, 1], LESS)])]), or(&[]));
    // Narrowed.
    gives(
        and(&[is(X, GREATER_EQUAL), or(&[is(X, LESS_EQUAL), is(Y, GREATER)])]),
        and(&[is(X, GREATER_EQUAL), or(&[is(X, EQUAL), is(Y, GREATER)])]),
    );
    gives(
        and(&[is(X, GREATER_EQUAL), or(&[is(X, NOT_EQUAL), is(Y, GREATER)])]),
        and(&[is(X, GREATER_EQUAL), or(&[is(X, GREATER), is(Y, GREATER)])]),
    );
    // "Case I would lose its OR."
    gives(
        and(&[is(Y, GREATER), or(&[is(X, GREATER_EQUAL), is(Z, GREATER)])]),
        and(&[is(Y, GREATER), or(&[is(X, GREATER_EQUAL), is(Z, GREATER)])]),
    );
    // A join sends back to step 2, so that the second child is met again.
    gives(
        and(&[is(X, GREATER), or(&[is(X, LESS), is(Y, GREATER)]), or(&[is(Y, LESS), is(Z, GREATER)])]),
        and(&[is(X, GREATER), is(Y, GREATER), is(Z, GREATER)]),
    );
    // So is the first, after the second has joined.
    gives(
        and(&[is(X, GREATER), or(&[is(Y, LESS), is(Z, GREATER)]), or(&[is(X, LESS), is(Y, GREATER)])]),
        and(&[is(X, GREATER), is(Y, GREATER), is(Z, GREATER)]),
    );
}

/// A joined atom goes to the end of the list, and so do the atoms of a spliced AND; its ORs go to the
/// child's place.
#[test]
fn places() {
    let other_or = or(&[is([1, 1, 1, -7], GREATER), is([1, 2, 3, -5], GREATER)]);
    let inner_or = or(&[is([1, 3, 1, 4], LESS), is([1, -5, 2, 0], LESS)]);
    // Step 1: the OR child is one AND.
    gives(
        and(&[
            other_or.clone(),
            or(&[and(&[inner_or.clone(), is([0, 0, 1, -3], LESS)])]),
            or(&[is([0, 1, 0, -3], LESS)]),
            is(X, NOT_EQUAL),
        ]),
        and(&[
            is(X, NOT_EQUAL),
            is([0, 0, 1, -3], LESS),
            is([0, 1, 0, -3], LESS),
            other_or.clone(),
            inner_or.clone(),
        ]),
    );
    // Step 4: one AND is left of the OR child.
    gives(
        and(&[
            or(&[is(X, LESS), and(&[inner_or.clone(), is([0, 0, 1, -3], LESS)])]),
            other_or.clone(),
            or(&[is(X, EQUAL), is([0, 1, 0, -3], LESS)]),
            is(X, GREATER),
        ]),
        and(&[is(X, GREATER), is([0, 0, 1, -3], LESS), is([0, 1, 0, -3], LESS), inner_or, other_or]),
    );
}

/// AND parts inside an OR child are left alone.
#[test]
fn and_parts_of_an_or_child() {
    let child = or(&[and(&[is(X, GREATER), is(Y, GREATER)]), and(&[is(X, LESS), is(Z, GREATER)])]);
    gives(and(&[is(X, GREATER), child.clone()]), and(&[is(X, GREATER), child]));
}

/// Step 5: in order, and against the carried set.
#[test]
fn removal() {
    // Equal in force: the first goes.
    gives(and(&[is([2, 0, 0, -1], GREATER), is([3, 0, 0, -2], GREATER)]), is([3, 0, 0, -2], GREATER));
    // Case D in another order.
    gives(
        and(&[is([1, 1, 0, 0], GREATER), is(X, GREATER), is(Y, GREATER)]),
        and(&[is(X, GREATER), is(Y, GREATER)]),
    );
    // x + y = 0 and x = 0 make y = 0: the carried set of y is =, so that x + y goes on account of it and y
    // is kept by its carried set, though it was read as y ≥ 0.
    gives(
        and(&[is([1, 1, 0, 0], EQUAL), is(X, EQUAL), is(Y, GREATER_EQUAL)]),
        and(&[is(X, EQUAL), is(Y, EQUAL)]),
    );
    // y goes on account of both others; they stay.
    gives(
        and(&[is(Y, GREATER_EQUAL), is([1, 1, 0, 0], EQUAL), is(X, EQUAL)]),
        and(&[is([1, 1, 0, 0], EQUAL), is(X, EQUAL)]),
    );
}

/// "one atom can go on account of a second's cut set, and the second then go by its wider one": x + y goes
/// since x and y are cut to zero; y - z² says y ≥ 0, which is y as first read, and not y = 0.
#[test]
fn removal_is_against_the_carried_set() {
    let y_minus_z2 = Polynomial {
        terms: vec![
            Term { coefficient: 1, exponents: vec![0, 1, 0] },
            Term { coefficient: -1, exponents: vec![0, 0, 2] },
        ],
    };
    gives(
        and(&[
            is([1, 1, 0, 0], LESS_EQUAL),
            is(X, GREATER_EQUAL),
            is(Y, GREATER_EQUAL),
            Node::atom(y_minus_z2.clone(), SignSet::GREATER_EQUAL),
        ]),
        and(&[is(X, EQUAL), is(Y, EQUAL), Node::atom(y_minus_z2, SignSet::EQUAL)]),
    );
}

/// Step 6: "One part: that part."
#[test]
fn one_part() {
    gives(and(&[or(&[is(X, GREATER), is(Y, GREATER)])]), or(&[is(X, GREATER), is(Y, GREATER)]));
    gives(
        and(&[is([0, 0, 0, 1], GREATER), or(&[and(&[or(&[is(X, GREATER), is(Y, GREATER)])])])]),
        or(&[is(X, GREATER), is(Y, GREATER)]),
    );
    gives(or(&[and(&[is(X, GREATER)]), and(&[is(Y, GREATER)])]), or(&[is(X, GREATER), is(Y, GREATER)]));
}

/// 02, #105: the places of the answer's atoms need not rise; a joined atom merges into the one that stands in the
/// list, whose place stays; a full first atom still gives the place; carried atoms stand before those that joined.
#[test]
fn places_of_the_answer() {
    let places = |parts: Vec<Tree>| simplify(3, Node::And(parts).numbered(&mut 0)).places();
    let or = |parts: Vec<Tree>| Node::Or(parts);
    let y_plus_1 = [0, 1, 0, 1];
    assert_eq!(places(vec![or(vec![is(X, GREATER), is(Y, GREATER)]), is(Z, GREATER)]), [2, 0, 1]);
    assert_eq!(places(vec![or(vec![is(y_plus_1, EQUAL), is(y_plus_1, LESS_EQUAL)]), is(y_plus_1, EQUAL)]), [2]);
    assert_eq!(places(vec![is(X, 7), is(X, GREATER)]), [0]);
    let child = or(vec![is(Y, LESS), is(X, LESS_EQUAL)]);
    assert_eq!(places(vec![is(X, GREATER_EQUAL), child, is(Y, GREATER_EQUAL)]), [0, 3]);
}
