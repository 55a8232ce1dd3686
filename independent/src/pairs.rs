//! The edge blocks that only edition 2 can have: pair counts, variable numbers and exponents, right and wrong.
//! Document 02, #109: "in a term 6 as far as the pair count, 8, 21, 6 for the pairs, 22, 23, 9".

use crate::block::Edition;
use crate::edge::{cut_to, middle_in, push, Body, Edge, Reading};

use Reading::{Accepted, Either, Refused};

/// Blocks "on which careful readers could differ", and what is read.
pub const SAID: [(&[u8], Reading); 6] = [
    (&[0x21, 1, 1, 0, 0x0e, 8, 0, 0, 0, 8, 0x80, 0, 0x40, 8], Refused(22)),
    (&[0x21, 1, 1, 0, 0x0c, 8, 0, 0, 0, 8, 0x8c, 0x40], Refused(6)),
    (&[0x21, 1, 1, 0, 0x0b, 8, 0, 0, 0, 0, 0x80], Refused(8)),
    (&[0x21, 1, 1, 0, 0x0b, 8, 0, 0, 0, 0x0f, 0xc0], Refused(21)),
    (&[0x21, 1, 1, 0, 0x12, 0x10, 0, 0, 0, 8, 0, 0, 0, 0, 0x42, 0, 0, 0x40], Refused(23)),
    (&[0x21, 1, 1, 0, 0x13, 0x10, 0, 0, 0, 8, 0x40, 0x40, 0, 0, 0, 0x42, 0x2a, 0, 0x40], Accepted),
];

fn body() -> Body {
    Body::of(Edition::Two)
}

/// One polynomial of one term with these pairs, over n variables, and an atom of it.
fn alone(n: u64, magnitude: u64, count: u64, pairs: &[(u64, u64)]) -> Vec<u8> {
    body().term_count(1).paired(0, magnitude, count, pairs).atom(0, 1).under(n, 1, 1)
}

/// The same with a term before it.
fn second(n: u64, first: &[(u64, u64)], magnitude: u64, count: u64, pairs: &[(u64, u64)]) -> Vec<u8> {
    let terms =
        body().term_count(2).paired(1, 3, first.len() as u64, first).paired(0, magnitude, count, pairs);
    terms.atom(0, 1).under(n, 1, 1)
}

fn all(n: u64, exponent: u64) -> Vec<(u64, u64)> {
    (0..n).map(|variable| (variable, exponent)).collect()
}

pub fn refusals(list: &mut Vec<Edge>) {
    for (bytes, reading) in SAID {
        push(list, reading, "said", bytes.to_vec());
    }
    accepted(list);
    too_many(list);
    pairs_end(list);
    numbers(list);
    exponents(list);
    order(list);
    mixed(list);
}

fn accepted(list: &mut Vec<Edge>) {
    push(list, Accepted, "a constant has no pairs", alone(1, 7, 0, &[]));
    push(list, Accepted, "a constant over 16 variables", alone(16, 7, 0, &[]));
    for n in [1, 2, 15, 16] {
        for exponent in [1, 15] {
            push(list, Accepted, "all variables", alone(n, 1, n, &all(n, exponent)));
        }
        push(list, Accepted, "the last variable", alone(n, 1, 1, &[(n - 1, 1)]));
    }
    push(list, Accepted, "some variables", alone(16, 2_147_483_647, 3, &[(0, 15), (7, 1), (15, 8)]));
}

/// 21: "pair count above n"
fn too_many(list: &mut Vec<Edge>) {
    for (n, count) in [(1, 2), (1, 16), (1, 31), (2, 3), (15, 16), (16, 17), (16, 31)] {
        push(list, Refused(21), "pair count", alone(n, 1, count, &all(n, 1)));
        let few = body().term_count(1).paired(0, 1, count, &[]).under(n, 1, 1);
        push(list, Refused(21), "pair count, and no pairs", few);
    }
    push(list, Refused(21), "pair count, and numbers that fall", alone(2, 1, 3, &[(1, 0), (0, 0), (0, 0)]));
    push(list, Refused(21), "pair count of the second term", second(1, &[(0, 1)], 1, 2, &[(0, 1), (1, 1)]));
    let later = body().times_x(2).term_count(1).paired(1, 5, 2, &[(0, 1), (0, 1)]).atom(0, 1).under(1, 3, 1);
    push(list, Refused(21), "pair count of the third polynomial", later);
    // 8 stands before 21.
    push(list, Refused(8), "and a pair count above n", alone(1, 0, 2, &[(0, 1), (0, 1)]));
    push(list, Refused(8), "and a pair count of 31", alone(16, 0, 31, &[]));
}

/// 6: as far as the pair count, and for the pairs.
fn pairs_end(list: &mut Vec<Edge>) {
    // The head's 40 bits, the term count's 5, and 37: 82 bits, so that 10 bytes end inside the pair count.
    for length in 6..=10 {
        push(list, Refused(6), "before the pair count's end", cut_to(alone(4, 1, 4, &all(4, 1)), length));
        push(list, Refused(6), "magnitude 0, before that", cut_to(alone(4, 0, 4, &all(4, 1)), length));
    }
    // Each pair has 8 bits: 14 bytes end inside the last of four.
    for length in 11..=14 {
        push(list, Refused(6), "inside the pairs", cut_to(alone(4, 1, 4, &all(4, 1)), length));
        push(list, Refused(6), "inside exponents 0", cut_to(alone(4, 1, 4, &all(4, 0)), length));
        push(list, Refused(6), "inside equal numbers", cut_to(alone(4, 1, 4, &[(2, 1); 4]), length));
        push(list, Refused(6), "inside numbers above n", cut_to(alone(4, 1, 4, &[(9, 1); 4]), length));
        push(list, Refused(8), "inside the pairs", cut_to(alone(4, 0, 4, &all(4, 1)), length));
        push(list, Refused(21), "inside the pairs", cut_to(alone(3, 1, 4, &all(4, 1)), length));
    }
    let rising = second(2, &[], 1, 1, &[(0, 1)]);
    push(list, Refused(6), "inside the pairs of a term that does not fall", cut_to(rising, 15));
    let constant = body().term_count(1).paired(0, 1, 0, &[]).under(1, 1, 1);
    push(list, Refused(6), "after a constant", constant);
}

/// 22: "variable numbers not rising or not below n"
fn numbers(list: &mut Vec<Edge>) {
    for n in [1, 2, 8, 15] {
        push(list, Refused(22), "number n", alone(n, 1, 1, &[(n, 1)]));
        push(list, Refused(22), "number 15", alone(n, 1, 1, &[(15, 1)]));
    }
    for pairs in [[(1, 1), (1, 1)], [(1, 1), (0, 1)], [(0, 1), (0, 2)], [(3, 1), (2, 15)], [(0, 1), (4, 1)]] {
        push(list, Refused(22), "numbers", alone(4, 1, 2, &pairs));
        push(list, Refused(22), "numbers of the second term", second(4, &[(0, 9)], 1, 2, &pairs));
    }
    push(list, Refused(22), "the third number", alone(16, 1, 3, &[(3, 1), (9, 1), (9, 1)]));
    push(
        list,
        Refused(22),
        "one falls, far from the first",
        alone(16, 1, 4, &[(3, 1), (9, 1), (8, 1), (10, 1)]),
    );
    let mut last = all(16, 1);
    last[15].0 = 14;
    push(list, Refused(22), "the last of 16", alone(16, 1, 16, &last));
    // "22 if any": it stands before 23 of an earlier pair.
    push(list, Refused(22), "and an exponent 0 before it", alone(2, 1, 2, &[(1, 0), (0, 1)]));
    push(list, Refused(22), "and an exponent 0 of the same", alone(2, 1, 1, &[(2, 0)]));
    push(list, Refused(22), "and all exponents 0", alone(16, 1, 3, &[(5, 0), (5, 0), (5, 0)]));
    // And before 9.
    push(list, Refused(22), "in a term that does not fall", second(2, &[], 1, 2, &[(0, 1), (0, 1)]));
    push(list, Refused(8), "and numbers that fall", alone(2, 0, 2, &[(1, 1), (0, 1)]));
}

/// 23: "exponent 0"
fn exponents(list: &mut Vec<Edge>) {
    push(list, Refused(23), "the only one", alone(1, 1, 1, &[(0, 0)]));
    push(list, Refused(23), "the first", alone(2, 1, 2, &[(0, 0), (1, 1)]));
    push(list, Refused(23), "the second", alone(2, 1, 2, &[(0, 1), (1, 0)]));
    push(list, Refused(23), "all of 16", alone(16, 1, 16, &all(16, 0)));
    let mut last = all(16, 15);
    last[15].1 = 0;
    push(list, Refused(23), "the last of 16", alone(16, 1, 16, &last));
    // It stands before 9: the list would be the one of the term before it, or a larger one.
    push(list, Refused(23), "in a term like the one before it", second(1, &[], 1, 1, &[(0, 0)]));
    push(list, Refused(23), "in a term that does not fall", second(2, &[], 1, 2, &[(0, 1), (1, 0)]));
    push(list, Refused(23), "in a term that falls", second(2, &[(0, 2)], 1, 2, &[(0, 1), (1, 0)]));
    push(list, Refused(8), "and an exponent 0", alone(1, 0, 1, &[(0, 0)]));
}

/// 9 "compares exponent lists as in edition 1, never pair lists".
fn order(list: &mut Vec<Edge>) {
    for (first, then) in [
        (vec![(0, 1)], vec![(1, 15)]),
        (vec![(0, 1), (1, 1)], vec![(0, 1)]),
        (vec![(0, 1), (1, 1)], vec![(0, 1), (2, 9)]),
        (vec![(1, 1)], vec![(3, 2)]),
        (vec![(2, 2)], vec![(2, 1), (3, 15)]),
        (vec![(3, 15)], vec![]),
    ] {
        let falls = second(4, &first, 1, then.len() as u64, &then);
        push(list, Accepted, "exponent lists fall", falls);
        push(list, Refused(9), "exponent lists rise", second(4, &then, 1, first.len() as u64, &first));
        push(list, Refused(9), "exponent lists are equal", second(4, &first, 1, first.len() as u64, &first));
    }
    push(list, Refused(9), "two constants", second(16, &[], 1, 0, &[]));
    let third =
        body().term_count(3).paired(0, 1, 1, &[(0, 2)]).paired(0, 1, 1, &[(1, 3)]).paired(0, 1, 1, &[(0, 1)]);
    push(list, Refused(9), "the third term", third.atom(0, 1).under(2, 1, 1));
}

/// An edition's head over the other's block, and cuts of one over the other.
fn mixed(list: &mut Vec<Edge>) {
    for (new, old) in [(Edition::Two, Edition::One), (Edition::One, Edition::Two)] {
        let (new, old) = (middle_in(new), middle_in(old));
        for cut in 1..new.len() {
            let image = crate::corpus::half_written(&new, &old, cut);
            push(list, Either, &format!("cut after {cut} bytes, of another edition"), image);
        }
    }
}
