//! The rounds: how many there are at most, what they find, and that their outcome is settled.
//! Lists of atoms are taken from random formulas and from chains.

use independent::corpus::random_formula;
use independent::level::{in_normal_form, tidied};
use independent::polynomial::{Polynomial, Term};
use independent::random::Random;
use independent::rounds::run_rounds;
use independent::signs::SignSet;
use independent::tree::{Atom, Node};

fn all_atoms(node: &Node<Polynomial>, list: &mut Vec<Atom<Polynomial>>) {
    match node {
        Node::Atom(atom) => list.push(in_normal_form(atom.clone())),
        Node::And(parts) | Node::Or(parts) => parts.iter().for_each(|part| all_atoms(part, list)),
    }
}

/// All atoms of random formulas, as if joined by AND.
fn random_lists(seed: u64, count: usize) -> Vec<(usize, Vec<Atom<Polynomial>>)> {
    let mut random = Random::new(seed);
    let mut lists = vec![];
    for _ in 0..count {
        let formula = random_formula(&mut random);
        let mut atoms = vec![];
        all_atoms(&formula.tree.map(&mut |&number| formula.table[number].clone()), &mut atoms);
        atoms.truncate(14);
        if let Some(list) = tidied(atoms) {
            lists.push((formula.variables, list));
        }
    }
    lists
}

#[test]
fn there_are_at_most_2_n_plus_k_plus_1_rounds() {
    let mut contradictions = 0;
    let mut settled = 0;
    for (n, list) in random_lists(51, 6_000) {
        let k = list.iter().filter(|atom| atom.poly.variable().is_none()).count();
        let after = run_rounds(n, &list);
        assert!(after.rounds >= 1 && after.rounds <= 2 * (n + k) + 1, "{} rounds", after.rounds);
        if after.contradiction {
            contradictions += 1;
        } else {
            settled += 1;
            assert!(after.atoms.iter().all(|atom| !atom.set.is_empty()));
            assert!(after.board.iter().all(|set| !set.is_empty()));
        }
    }
    assert!(contradictions > 300 && settled > 2_000, "{contradictions} and {settled}");
}

/// Sets are only cut, in the order given, and a second run over what the first left changes nothing.
#[test]
fn what_the_rounds_leave_is_settled() {
    let mut cut = 0;
    for (n, list) in random_lists(52, 3_000) {
        let after = run_rounds(n, &list);
        if after.contradiction {
            assert_eq!(after.says_of(&Polynomial::of_variable(n, 0)), SignSet::EMPTY);
            continue;
        }
        assert_eq!(after.atoms.len(), list.len());
        for (one, other) in after.atoms.iter().zip(&list) {
            assert_eq!(one.poly, other.poly);
            assert!(one.set.is_inside(other.set));
            cut += usize::from(one.set != other.set);
            assert!(after.says_of(&one.poly).is_inside(one.set));
        }
        let again = run_rounds(n, &after.atoms);
        assert!(!again.contradiction);
        assert_eq!(again.atoms, after.atoms);
        assert_eq!(again.board, after.board);
    }
    assert!(cut > 500, "{cut} sets cut");
}

fn polynomial(terms: &[(i128, [u8; 3])]) -> Polynomial {
    let terms = terms.iter().map(|&(coefficient, e)| Term { coefficient, exponents: e.to_vec() });
    Polynomial { terms: terms.collect() }
}

fn atom(poly: Polynomial, set: SignSet) -> Atom<Polynomial> {
    Atom { poly, set, place: None }
}

/// x - y > 0 and y - z > 0 with z > 0: y's turn comes before any later variable's, so that a sign which goes
/// up the variables takes one round each, and one that goes down them takes one round for all.
#[test]
fn a_turn_sees_the_turns_before_it() {
    let up = [
        atom(polynomial(&[(1, [1, 0, 0]), (-1, [0, 1, 0])]), SignSet::GREATER),
        atom(polynomial(&[(1, [0, 1, 0]), (-1, [0, 0, 1])]), SignSet::GREATER),
        atom(polynomial(&[(1, [0, 0, 1])]), SignSet::GREATER),
    ];
    let after = run_rounds(3, &up);
    assert_eq!(after.board, [SignSet::GREATER; 3]);
    let down = [
        atom(polynomial(&[(1, [1, 0, 0])]), SignSet::GREATER),
        atom(polynomial(&[(1, [1, 0, 0]), (-1, [0, 1, 0])]), SignSet::LESS),
        atom(polynomial(&[(1, [0, 1, 0]), (-1, [0, 0, 1])]), SignSet::LESS),
    ];
    let later = run_rounds(3, &down);
    assert_eq!(later.board, [SignSet::GREATER; 3]);
    // Up: y in the first round, x in the second, and the third changes nothing.
    assert_eq!(after.rounds, 3);
    // Down: y and z in the first round, and the second changes nothing.
    assert_eq!(later.rounds, 2);
}

/// The atoms' turn uses the board as the round's variable turns left it: z > 0 is found in the first round,
/// and both zx² + y² ≥ 0 (by terms) and x - y + zx² > 0 (from x - y > 0) with it.
#[test]
fn the_atoms_see_the_variables_turns() {
    let z_minus_1 = || atom(polynomial(&[(1, [0, 0, 1]), (-1, [0, 0, 0])]), SignSet::GREATER);
    let by_terms = atom(polynomial(&[(1, [2, 0, 1]), (1, [0, 2, 0])]), SignSet::NOT_EQUAL);
    let after = run_rounds(3, &[by_terms, z_minus_1()]);
    assert_eq!(after.atoms[0].set, SignSet::GREATER);
    assert_eq!(after.rounds, 2);
    let x_minus_y = atom(polynomial(&[(1, [1, 0, 0]), (-1, [0, 1, 0])]), SignSet::GREATER);
    let deduced = atom(polynomial(&[(1, [2, 0, 1]), (1, [1, 0, 0]), (-1, [0, 1, 0])]), SignSet::NOT_EQUAL);
    let after = run_rounds(3, &[deduced, x_minus_y, z_minus_1()]);
    assert_eq!(after.atoms[0].set, SignSet::GREATER);
    assert_eq!(after.rounds, 2);
}

/// "with their sets from before the round": x + y ≥ 0 makes x + y + z² ≠ 0 positive in the first round, and
/// that makes x + y + 2z² ≥ 0 positive in the second.
#[test]
fn the_atoms_see_each_other_as_before_the_round() {
    let list = [
        atom(polynomial(&[(1, [1, 0, 0]), (1, [0, 1, 0])]), SignSet::GREATER_EQUAL),
        atom(polynomial(&[(1, [1, 0, 0]), (1, [0, 1, 0]), (1, [0, 0, 2])]), SignSet::NOT_EQUAL),
        atom(polynomial(&[(1, [1, 0, 0]), (1, [0, 1, 0]), (2, [0, 0, 2])]), SignSet::GREATER_EQUAL),
    ];
    let after = run_rounds(3, &list);
    assert_eq!(after.atoms[1].set, SignSet::GREATER);
    assert_eq!(after.atoms[2].set, SignSet::GREATER);
    assert_eq!(after.rounds, 3);
}

#[test]
fn a_round_with_nothing_to_do_is_counted() {
    let after = run_rounds(2, &[]);
    assert_eq!(after.rounds, 1);
    assert_eq!(after.board, [SignSet::FULL; 2]);
    assert!(!after.contradiction);
}

/// Case K: the round that finds the contradiction is counted.
#[test]
fn a_contradiction_ends_the_rounds() {
    let list = [
        atom(polynomial(&[(1, [1, 0, 0])]), SignSet::GREATER),
        atom(polynomial(&[(1, [1, 0, 0]), (1, [0, 0, 0])]), SignSet::LESS),
    ];
    let after = run_rounds(3, &list);
    assert!(after.contradiction);
    assert_eq!(after.rounds, 1);
}

#[test]
fn says_of_a_polynomial() {
    let x_plus_1 = polynomial(&[(1, [1, 0, 0]), (1, [0, 0, 0])]);
    let list = [atom(polynomial(&[(1, [1, 0, 0]), (-1, [0, 0, 0])]), SignSet::GREATER_EQUAL)];
    let after = run_rounds(3, &list);
    // The variable's set, though it has no atom.
    assert_eq!(after.says_of(&Polynomial::of_variable(3, 0)), SignSet::GREATER);
    assert_eq!(after.says_of(&Polynomial::of_variable(3, 1)), SignSet::FULL);
    // By terms, and by deduction.
    assert_eq!(after.says_of(&x_plus_1), SignSet::GREATER);
    assert_eq!(after.says_of(&polynomial(&[(2, [1, 0, 0]), (-1, [0, 0, 0])])), SignSet::GREATER);
    assert_eq!(after.says_of(&polynomial(&[(1, [1, 0, 0]), (-2, [0, 0, 0])])), SignSet::FULL);
    // Its own set if listed.
    assert_eq!(after.says_of(&list[0].poly), SignSet::GREATER_EQUAL);
}
