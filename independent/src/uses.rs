//! Document 02, #103: blocks whose polynomials in are known, counted by hand: unused, equal, multiple, negated
//! and constant polynomials, atoms with the empty and the full set, full tables.

use crate::block::{write, Formula, LARGEST_MAGNITUDE};
use crate::cases::polynomial;
use crate::polynomial::{Polynomial, Term};
use crate::signs::SignSet;
use crate::tree::Node;

pub struct Known {
    pub note: &'static str,
    pub polynomials_in: usize,
    pub bytes: Vec<u8>,
}

pub fn blocks() -> Vec<Known> {
    let mut list = vec![];
    few_polynomials(&mut list);
    constants(&mut list);
    sets_and_places(&mut list);
    full_tables(&mut list);
    list
}

fn push(
    list: &mut Vec<Known>,
    note: &'static str,
    polynomials_in: usize,
    table: Vec<Polynomial>,
    tree: Node<usize>,
) {
    let variables = table.first().map_or(1, |p| p.terms[0].exponents.len());
    list.push(Known { note, polynomials_in, bytes: write(&Formula { variables, table, tree }) });
}

fn is(number: usize, set: SignSet) -> Node<usize> {
    Node::atom(number, set)
}

/// Each number with a set of its own, >, ≥, ≠ in turn.
fn atoms(numbers: &[usize]) -> Vec<Node<usize>> {
    let sets = [SignSet::GREATER, SignSet::GREATER_EQUAL, SignSet::NOT_EQUAL];
    numbers.iter().enumerate().map(|(at, &number)| is(number, sets[at % 3])).collect()
}

fn constant(value: i128) -> Polynomial {
    polynomial(&[(value, [0, 0])])
}

/// a·x + b·y + c
fn linear(a: i128, b: i128, c: i128) -> Polynomial {
    let mut sum = polynomial(&[(a, [1, 0]), (b, [0, 1]), (c, [0, 0])]);
    sum.terms.retain(|term| term.coefficient != 0);
    sum
}

fn few_polynomials(list: &mut Vec<Known>) {
    let (x, y, x_minus_1) = (linear(1, 0, 0), linear(0, 1, 0), linear(1, 0, -1));
    let three = || vec![x.clone(), y.clone(), x_minus_1.clone()];
    push(list, "all unused, always", 0, three(), Node::And(vec![]));
    push(list, "all unused, never", 0, three(), Node::Or(vec![]));
    for number in 0..3 {
        push(list, "one of three used", 1, three(), is(number, SignSet::LESS));
    }
    push(list, "two of three used", 2, three(), Node::Or(atoms(&[2, 0, 2])));
    push(list, "an unused equal one", 1, vec![x.clone(), x.clone(), y.clone()], is(1, SignSet::EQUAL));

    let equal = vec![x_minus_1.clone(); 3];
    push(list, "equal ones", 1, equal.clone(), Node::And(atoms(&[0, 1, 2])));
    push(list, "equal ones, one named twice", 1, equal, Node::Or(atoms(&[2, 2, 0])));
    let multiple = vec![linear(2, 0, -2), x_minus_1.clone(), linear(7, 0, -7)];
    push(list, "multiples", 1, multiple.clone(), Node::And(atoms(&[0, 1, 2])));
    push(list, "multiples of an unused one", 1, multiple, Node::And(atoms(&[0, 2])));
    let negated = vec![x_minus_1.clone(), linear(-1, 0, 1), linear(-3, 0, 3)];
    push(list, "negated ones", 1, negated.clone(), Node::And(atoms(&[0, 1, 2])));
    push(list, "negated ones alone", 1, negated, Node::Or(atoms(&[1, 2])));
    let largest = vec![linear(LARGEST_MAGNITUDE, 0, 0), linear(-LARGEST_MAGNITUDE, 0, 0), x.clone()];
    push(list, "the largest multiples", 1, largest, Node::And(atoms(&[0, 1, 2])));

    let apart = vec![linear(1, 0, 1), x_minus_1.clone(), linear(-1, 0, -1)];
    push(list, "one sign apart", 2, apart, Node::And(atoms(&[0, 1, 2])));
    let near = vec![linear(2, 3, 0), linear(4, 6, 0), linear(4, 6, 1), linear(2, 0, 3), linear(0, 2, 3)];
    push(list, "a term apart", 4, near, Node::And(atoms(&[0, 1, 2, 3, 4])));
    let powers =
        vec![polynomial(&[(1, [2, 0])]), polynomial(&[(3, [0, 2])]), x.clone(), polynomial(&[(-5, [1, 1])])];
    push(list, "an exponent apart", 4, powers, Node::And(atoms(&[0, 1, 2, 3])));
    let mixed = vec![
        y.clone(),
        linear(0, -4, 0),
        linear(6, 0, -6),
        constant(6),
        x_minus_1,
        linear(-5, 0, 5),
        constant(-6),
        x,
    ];
    push(list, "of all kinds", 2, mixed, Node::And(atoms(&[6, 1, 5, 2, 3, 0, 1])));
}

fn constants(list: &mut Vec<Known>) {
    for bits in 0..8 {
        let set = SignSet::from_bits(bits);
        push(list, "a constant alone", 0, vec![constant(5)], is(0, set));
        push(list, "a negative constant alone", 0, vec![constant(-5)], is(0, set));
    }
    let some = || vec![constant(1), constant(-2), constant(LARGEST_MAGNITUDE), linear(1, 0, 0), constant(1)];
    push(
        list,
        "a tree of constants only, true",
        0,
        some(),
        Node::And(vec![
            is(0, SignSet::GREATER),
            is(1, SignSet::LESS),
            Node::Or(vec![is(2, SignSet::NOT_EQUAL), is(4, SignSet::LESS)]),
        ]),
    );
    push(
        list,
        "a tree of constants only, false",
        0,
        some(),
        Node::And(vec![
            is(0, SignSet::LESS),
            is(1, SignSet::LESS),
            Node::Or(vec![is(2, SignSet::NOT_EQUAL), is(4, SignSet::LESS)]),
        ]),
    );
    push(
        list,
        "an OR of constants only",
        0,
        some(),
        Node::Or(vec![is(4, SignSet::LESS), is(1, SignSet::EQUAL)]),
    );
    push(
        list,
        "constants beside a variable",
        1,
        some(),
        Node::And(vec![is(0, SignSet::GREATER), is(3, SignSet::GREATER), is(4, SignSet::GREATER)]),
    );
    push(
        list,
        "a false constant before a variable",
        1,
        some(),
        Node::And(vec![is(1, SignSet::GREATER), is(3, SignSet::GREATER)]),
    );
}

fn sets_and_places(list: &mut Vec<Known>) {
    let table = || vec![linear(1, 0, 0), linear(0, 1, -2), linear(0, -3, 6), linear(1, 1, 0)];
    for set in [SignSet::EMPTY, SignSet::FULL] {
        push(list, "the empty or the full set alone", 1, table(), is(1, set));
        push(
            list,
            "the empty or the full set in an AND",
            2,
            table(),
            Node::And(vec![is(0, SignSet::GREATER), is(2, set)]),
        );
        push(
            list,
            "the empty or the full set in an OR",
            2,
            table(),
            Node::Or(vec![is(1, set), is(3, SignSet::LESS)]),
        );
        push(
            list,
            "the empty or the full set and the same form",
            1,
            table(),
            Node::And(vec![is(1, set), is(2, SignSet::LESS)]),
        );
    }
    push(
        list,
        "one form in each nesting",
        1,
        vec![linear(1, 0, -1), linear(-2, 0, 2)],
        Node::And(vec![
            is(0, SignSet::GREATER_EQUAL),
            Node::Or(vec![
                is(1, SignSet::LESS),
                Node::And(vec![is(1, SignSet::NOT_EQUAL), is(0, SignSet::LESS_EQUAL)]),
            ]),
        ]),
    );
    push(
        list,
        "behind what makes the node false",
        3,
        table(),
        Node::And(vec![is(0, SignSet::EMPTY), Node::Or(vec![is(1, SignSet::LESS), is(3, SignSet::LESS)])]),
    );
    push(
        list,
        "behind an OR that is false",
        3,
        table(),
        Node::And(vec![
            Node::Or(vec![is(2, SignSet::EMPTY)]),
            is(0, SignSet::LESS),
            Node::Or(vec![is(1, SignSet::LESS), is(3, SignSet::LESS)]),
        ]),
    );
}

/// Tables of 64 polynomials.
fn full_tables(list: &mut Vec<Known>) {
    let apart: Vec<Polynomial> = (1..=64).map(|k| linear(1, 0, -k)).collect();
    for number in [0, 17, 63] {
        push(list, "64 polynomials with one used", 1, apart.clone(), is(number, SignSet::LESS));
    }
    let all: Vec<usize> = (0..64).collect();
    push(list, "64 polynomials, 40 of them unused", 24, apart.clone(), Node::Or(atoms(&all[40..])));
    push(list, "64 polynomials, all used", 64, apart, Node::Or(atoms(&all)));
    let multiples = (1..=64).map(|k| linear(if k % 2 == 0 { k } else { -k }, 0, 0)).collect();
    push(list, "64 multiples of one form", 1, multiples, Node::And(atoms(&all)));
    let constants = (1..=64).map(|k| constant(if k % 2 == 0 { k } else { -k })).collect();
    push(list, "64 constants", 0, constants, Node::Or(atoms(&all)));
    let pairs: Vec<Polynomial> =
        (0..64).map(|k| if k % 2 == 0 { linear(1, 0, k) } else { linear(-2, 0, 2 - 2 * k) }).collect();
    push(list, "32 forms, each twice", 32, pairs, Node::And(atoms(&all)));
    let long = |k: i128| {
        let terms = (0..16).map(|i| Term { coefficient: if i == 15 { 1 + k } else { 1 }, exponents: at(i) });
        Polynomial { terms: terms.collect() }
    };
    push(list, "64 of 16 terms over 16 variables", 64, (0..64).map(long).collect(), Node::And(atoms(&all)));
    push(list, "64 of 16 terms, one used", 1, (0..64).map(long).collect(), is(63, SignSet::GREATER));
}

/// The exponents of variable i of 16.
fn at(i: usize) -> Vec<u8> {
    let mut exponents = vec![0; 16];
    exponents[i] = 1;
    exponents
}
