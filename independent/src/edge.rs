//! The fixed edge blocks: each limit of document 01 at its last allowed value and one beyond, each refusal
//! number in several ways, a block cut or flipped at each place, a new head over an old body. In both editions.

use crate::block::{write_in, Bits, Edition, Formula, Refusal, LARGEST_MAGNITUDE};
use crate::cases::polynomial;
use crate::corpus::{flip, half_written, put_field, put_length, put_length_right};
use crate::polynomial::{Polynomial, Term};
use crate::signs::SignSet;
use crate::tree::Node;

pub struct Edge {
    pub note: String,
    pub bytes: Vec<u8>,
    pub reading: Reading,
}

/// What reading the block must give.
#[derive(Clone, Copy, Debug, PartialEq, Eq)]
pub enum Reading {
    Accepted,
    Refused(Refusal),
    /// One of a family that is compared as a whole.
    Either,
}

use Reading::{Accepted, Either, Refused};

/// Those of edition 1.
pub fn blocks() -> Vec<Edge> {
    blocks_in(Edition::One)
}

pub fn blocks_in(edition: Edition) -> Vec<Edge> {
    let mut list = vec![];
    limits(&mut list, edition);
    head_refusals(&mut list, edition);
    bits_end(&mut list, edition);
    polynomial_refusals(&mut list, edition);
    tree_refusals(&mut list, edition);
    end_refusals(&mut list, edition);
    large_coefficients(&mut list, edition);
    families(&mut list, edition);
    if edition == Edition::Two {
        crate::pairs::refusals(&mut list);
    }
    list
}

pub fn push(list: &mut Vec<Edge>, reading: Reading, note: &str, bytes: Vec<u8>) {
    list.push(Edge { note: note.to_string(), bytes, reading });
}

// -------------------------------------------------------------------------------------- by hand

/// The body of a block, field by field, right or wrong.
pub struct Body {
    edition: Edition,
    bits: Bits,
}

impl Body {
    pub fn of(edition: Edition) -> Body {
        Body { edition, bits: Bits::default() }
    }

    pub fn term_count(mut self, count: u64) -> Body {
        self.bits.put(count, 5);
        self
    }

    pub fn term(mut self, minus: u64, magnitude: u64, exponents: &[u8]) -> Body {
        if self.edition == Edition::Two {
            let occurring = exponents.iter().enumerate().filter(|pair| *pair.1 > 0);
            let pairs: Vec<(u64, u64)> = occurring.map(|(i, &e)| (i as u64, u64::from(e))).collect();
            return self.paired(minus, magnitude, pairs.len() as u64, &pairs);
        }
        self.bits.put(minus, 1);
        self.bits.put(magnitude, 31);
        for &exponent in exponents {
            self.bits.put(u64::from(exponent), 4);
        }
        self
    }

    /// A term of edition 2 as it stands: its pair count, and pairs of variable number and exponent.
    pub fn paired(mut self, minus: u64, magnitude: u64, count: u64, pairs: &[(u64, u64)]) -> Body {
        self.bits.put(minus, 1);
        self.bits.put(magnitude, 31);
        self.bits.put(count, 5);
        for &(variable, exponent) in pairs {
            self.bits.put(variable, 4);
            self.bits.put(exponent, 4);
        }
        self
    }

    /// So many times the polynomial x, over one variable: 41 bits each in edition 1, 50 in edition 2.
    pub fn times_x(self, count: usize) -> Body {
        (0..count).fold(self, |body, _| body.term_count(1).term(0, 1, &[1]))
    }

    /// As many times x as leave 2 bits of a byte, and so 10 bits of two.
    fn up_to_two_bits(self) -> (Body, u64) {
        let count = if self.edition == Edition::One { 6 } else { 3 };
        (self.times_x(count), count as u64)
    }

    pub fn kind(mut self, kind: u64) -> Body {
        self.bits.put(kind, 2);
        self
    }

    pub fn atom(mut self, number: u64, set: u64) -> Body {
        self.bits.put(0, 2);
        self.bits.put(number, 6);
        self.bits.put(set, 3);
        self
    }

    pub fn and(mut self, count: u64) -> Body {
        self.bits.put(1, 2);
        self.bits.put(count, 8);
        self
    }

    pub fn or(mut self, count: u64) -> Body {
        self.bits.put(2, 2);
        self.bits.put(count, 8);
        self
    }

    pub fn raw(mut self, value: u64, width: usize) -> Body {
        self.bits.put(value, width);
        self
    }

    /// The block with this body and a head that gives its true length.
    pub fn under(self, variables: u64, polynomials: u64, nodes: u64) -> Vec<u8> {
        let mut bits = Bits::default();
        bits.put(self.edition.number(), 4);
        bits.put(variables, 5);
        bits.put(polynomials, 7);
        bits.put(nodes, 8);
        bits.put(0, 16);
        bits.append(&self.bits);
        let mut bytes = bits.finish();
        put_length_right(&mut bytes);
        bytes
    }
}

pub fn cut_to(mut bytes: Vec<u8>, length: usize) -> Vec<u8> {
    bytes.truncate(length);
    put_length_right(&mut bytes);
    bytes
}

pub fn longer_by(mut bytes: Vec<u8>, more: &[u8]) -> Vec<u8> {
    bytes.extend(more);
    put_length_right(&mut bytes);
    bytes
}

pub fn with_field(mut bytes: Vec<u8>, at: usize, width: usize, value: usize) -> Vec<u8> {
    put_field(&mut bytes, at, width, value);
    bytes
}

pub fn with_length(mut bytes: Vec<u8>, length: usize) -> Vec<u8> {
    put_length(&mut bytes, length);
    bytes
}

/// x > 0 over one variable: 12 bytes in edition 1, 13 in edition 2.
pub fn plain(edition: Edition) -> Vec<u8> {
    Body::of(edition).times_x(1).atom(0, 1).under(1, 1, 1)
}

// -------------------------------------------------------------------------------------- limits

fn limits(list: &mut Vec<Edge>, edition: Edition) {
    push(list, Accepted, "AND with no children", Body::of(edition).and(0).under(1, 0, 1));
    push(list, Accepted, "OR with no children", Body::of(edition).or(0).under(1, 0, 1));
    push(list, Accepted, "AND with no children, 16 variables", Body::of(edition).and(0).under(16, 0, 1));
    push(list, Accepted, "OR of an AND with no children", Body::of(edition).or(1).and(0).under(1, 0, 2));
    push(list, Accepted, "AND of an OR with no children", Body::of(edition).and(1).or(0).under(1, 0, 2));

    for n in [1, 2, 15, 16, 17, 31] {
        let reading = if n <= 16 { Accepted } else { Refused(5) };
        let mut body = Body::of(edition).term_count(n.min(16) as u64);
        for i in 0..n.min(16) {
            let mut exponents = vec![0; n];
            exponents[i] = 1;
            body = body.term(0, 1 + i as u64, &exponents);
        }
        let bytes = body.atom(0, 1).under(n as u64, 1, 1);
        push(list, reading, &format!("{n} variables"), bytes);
    }

    for m in [0, 1, 63, 64, 65, 127] {
        let reading = if m <= 64 { Accepted } else { Refused(5) };
        let mut body = Body::of(edition);
        for k in 1..=m {
            body = body.term_count(2).term(0, 1, &[1]).term(1, k, &[0]);
        }
        let bytes = match m {
            0 => body.and(0).under(1, 0, 1),
            _ => {
                let last = m.min(64) - 1;
                body.and(3).atom(0, 1).or(2).atom(last, 1).atom(0, 6).atom(last, 6).under(1, m, 6)
            }
        };
        push(list, reading, &format!("{m} polynomials"), bytes);
    }

    for terms in [1, 2, 15, 16, 17, 31] {
        let reading = if terms <= 16 { Accepted } else { Refused(7) };
        let mut body = Body::of(edition).term_count(terms);
        for k in (0..terms).rev() {
            body = body.term(k % 2, 1 + k, &[(k / 16) as u8, (k % 16) as u8]);
        }
        push(list, reading, &format!("{terms} terms"), body.atom(0, 1).under(2, 1, 1));
    }

    // "AND/OR nesting is at most 6, the root counting 1."
    for nesting in [1, 2, 5, 6, 7, 8] {
        for root_is_and in [true, false] {
            let reading = if nesting <= 6 { Accepted } else { Refused(13) };
            let mut bare = Body::of(edition);
            let mut full = Body::of(edition).times_x(2);
            for k in 0..nesting {
                let last = k + 1 == nesting;
                if root_is_and == (k % 2 == 0) {
                    bare = bare.and(if last { 0 } else { 1 });
                    full = full.and(if last { 1 } else { 2 }).atom(0, 3);
                } else {
                    bare = bare.or(if last { 0 } else { 1 });
                    full = full.or(if last { 1 } else { 2 }).atom(1, 4);
                }
            }
            let note = format!("nesting {nesting}");
            push(list, reading, &note, bare.under(1, 0, nesting));
            push(list, reading, &note, full.under(1, 2, 2 * nesting));
        }
    }

    // "a minus bit, a 31-bit magnitude (1 to 2,147,483,647)"
    for magnitude in [0, 1, 2, 2_147_483_646, 2_147_483_647] {
        for minus in [0, 1] {
            let reading = if magnitude == 0 { Refused(8) } else { Accepted };
            let note = format!("magnitude {magnitude}, minus bit {minus}");
            let alone = Body::of(edition).term_count(1).term(minus, magnitude, &[1]).atom(0, 3);
            push(list, reading, &note, alone.under(1, 1, 1));
            let second =
                Body::of(edition).term_count(2).term(0, 3, &[1]).term(minus, magnitude, &[0]).atom(0, 3);
            push(list, reading, &note, second.under(1, 1, 1));
        }
    }

    // "tree nodes, atoms counted": 1 to 255
    for nodes in [2, 254, 255, 256] {
        let mut body = Body::of(edition).times_x(1);
        body = body.and(nodes - 1);
        for k in 1..nodes {
            body = body.atom(0, [3, 5, 7, 3, 1][(k % 5) as usize]);
        }
        let reading = if nodes <= 255 { Accepted } else { Refused(14) };
        push(list, reading, &format!("{nodes} nodes"), body.under(1, 1, nodes.min(255)));
    }
    let mut body = Body::of(edition).times_x(1).or(127);
    for k in 0..127 {
        body = body.and(1).atom(0, [4, 1][k % 2]);
    }
    push(list, Accepted, "255 nodes, nested", body.under(1, 1, 255));
    let mut body = Body::of(edition).times_x(1).or(127);
    for k in 0..127 {
        body = body.and(if k == 126 { 2 } else { 1 }).atom(0, 1);
    }
    push(list, Refused(14), "255 nodes and a 256th, nested", body.atom(0, 4).under(1, 1, 255));

    push(list, Accepted, "the largest table", largest_table(edition));
    push(list, Accepted, "all 64 in small parts", small_parts(edition));
    let apart: Vec<u64> = vec![5; 254];
    push(list, Accepted, "254 atoms of 64 polynomials in one AND", one_list(edition, &apart));
    let mut against = vec![1; 254];
    against[253] = 4;
    push(list, Accepted, "254 atoms in one AND that cannot be", one_list(edition, &against));
    for set in 0..8 {
        let note = format!("an atom with set {set}");
        push(list, Accepted, &note, Body::of(edition).times_x(1).atom(0, set).under(1, 1, 1));
        let constant = Body::of(edition).term_count(1).term(set & 1, 5, &[0]).atom(0, set);
        push(list, Accepted, "a constant polynomial", constant.under(1, 1, 1));
    }
}

/// 64 polynomials of 16 terms over 16 variables, of which the tree uses a few.
fn largest_table(edition: Edition) -> Vec<u8> {
    let mut table = vec![];
    for k in 0..64i128 {
        let mut terms = vec![];
        for i in 0..16 {
            let mut exponents = vec![0; 16];
            exponents[i] = 1 + ((k + i as i128) % 15) as u8;
            let coefficient = if (k + i as i128) % 3 == 0 { -1 - k } else { LARGEST_MAGNITUDE - k };
            terms.push(Term { coefficient, exponents });
        }
        table.push(Polynomial { terms });
    }
    let atom = |number, set| Node::atom(number, set);
    let tree = Node::Or(vec![
        atom(63, SignSet::LESS),
        Node::And(vec![
            atom(0, SignSet::GREATER),
            atom(31, SignSet::EQUAL),
            Node::Or(vec![atom(63, SignSet::NOT_EQUAL), atom(62, SignSet::LESS_EQUAL)]),
        ]),
        atom(63, SignSet::EQUAL),
    ]);
    write_in(edition, &Formula { variables: 16, table, tree })
}

/// 64 polynomials, x_i - k, in 16 ANDs of 4 atoms each: nothing follows from anything.
fn small_parts(edition: Edition) -> Vec<u8> {
    let mut table = vec![];
    let mut parts = vec![];
    for part in 0..16 {
        let mut atoms = vec![];
        for i in 0..4 {
            let variable = Polynomial::of_variable(16, (4 * part + i) % 16);
            let mut terms = variable.terms;
            terms.push(Term { coefficient: -1 - part as i128, exponents: vec![0; 16] });
            table.push(Polynomial { terms });
            let set = SignSet::from_bits(1 + ((part + i) % 6) as u64);
            atoms.push(Node::atom(63 - (4 * part + i), set));
        }
        parts.push(Node::And(atoms));
    }
    write_in(edition, &Formula { variables: 16, table, tree: Node::Or(parts) })
}

/// An AND of atoms with these sets, over x - 1, x - 2, ..., x - 64 in turn.
fn one_list(edition: Edition, sets: &[u64]) -> Vec<u8> {
    let table = (1..=64).map(|k| polynomial(&[(1, [1]), (-k, [0])])).collect();
    let atoms = sets.iter().enumerate().map(|(at, &set)| Node::atom(at % 64, SignSet::from_bits(set)));
    write_in(edition, &Formula { variables: 1, table, tree: Node::And(atoms.collect()) })
}

// -------------------------------------------------------------------------------------- refusals

fn head_refusals(list: &mut Vec<Edge>, edition: Edition) {
    // 2: "input under 5 bytes"
    for length in 0..5 {
        push(list, Refused(2), "under 5 bytes", plain(edition)[..length].to_vec());
    }
    push(list, Refused(2), "under 5 bytes, another edition", vec![0xf0, 0, 0, 4]);
    // 3: "3 now means neither 1 nor 2"
    for wrong in [0, 3, 9, 15] {
        push(list, Refused(3), "edition", with_field(plain(edition), 0, 4, wrong));
    }
    push(
        list,
        Refused(3),
        "edition, and a wrong length",
        with_length(with_field(plain(edition), 0, 4, 3), 9),
    );
    push(list, Refused(3), "edition, and no variables", with_field(plain(edition), 0, 9, 3 << 5));
    push(list, Refused(3), "five zero bytes", vec![0; 5]);
    push(list, Refused(3), "five bytes of ones", vec![0xff; 5]);
    // An edition's head over the other's body.
    let other = with_field(plain(edition.other()), 0, 4, edition.number() as usize);
    push(list, Refused(if edition == Edition::One { 14 } else { 21 }), "the other edition's body", other);
    // 4: "length field differs from input length"
    let true_length = plain(edition).len();
    for length in [0, 5, true_length - 1, true_length + 1, true_length * 256, 65_535] {
        push(list, Refused(4), "length field", with_length(plain(edition), length));
    }
    let mut more = plain(edition);
    more.push(0);
    push(list, Refused(4), "a zero byte more", more);
    push(
        list,
        Refused(4),
        "length field, and no variables",
        with_field(with_length(plain(edition), 7), 4, 5, 0),
    );
    // 5: "n, m or node count not allowed"
    for n in [0, 17, 24, 31] {
        push(list, Refused(5), "variables", with_field(plain(edition), 4, 5, n));
    }
    for m in [65, 96, 127] {
        push(list, Refused(5), "polynomials", with_field(plain(edition), 9, 7, m));
    }
    push(list, Refused(5), "nodes", with_field(plain(edition), 16, 8, 0));
    push(list, Refused(5), "no variables, in 5 bytes", Body::of(edition).under(0, 0, 1));
    push(list, Refused(5), "65 polynomials, in 5 bytes", Body::of(edition).under(1, 65, 1));
    push(list, Refused(5), "no nodes, in 5 bytes", Body::of(edition).under(1, 0, 0));
}

/// 6: "bits end inside a field"
fn bits_end(list: &mut Vec<Edge>, edition: Edition) {
    push(list, Refused(6), "before the term count", Body::of(edition).under(1, 1, 1));
    // Each x over one variable takes 41 bits, or 50: after four or two of them 4 bits of a byte are left.
    let [four_left, enough, one_left] = match edition {
        Edition::One => {
            [Body::of(edition).times_x(4), Body::of(edition).times_x(3), Body::of(edition).times_x(7)]
        }
        Edition::Two => [
            Body::of(edition).times_x(2),
            Body::of(edition).times_x(1),
            Body::of(edition).term_count(2).term(0, 1, &[1]).term(0, 1, &[0]),
        ],
    };
    let [many, few, some] = if edition == Edition::One { [5, 4, 7] } else { [3, 2, 1] };
    push(list, Refused(6), "inside the term count", four_left.under(1, many, 1));
    push(list, Refused(7), "at the end, a term count of zero bits", enough.under(1, few, 1));
    let one_term = || Body::of(edition).term_count(1).term(0, 1, &[1]).atom(0, 1).under(1, 1, 1);
    let term_end = (40 + Body::of(edition).times_x(1).bits.len()) / 8;
    for length in 6..=term_end {
        push(list, Refused(6), "inside a term", cut_to(one_term(), length));
    }
    let zero = Body::of(edition).term_count(1).term(0, 0, &[1]).under(1, 1, 1);
    push(list, Refused(6), "inside a term of magnitude 0", cut_to(zero, 10));
    let equal = Body::of(edition).term_count(2).term(0, 1, &[1]).term(0, 1, &[1]).under(1, 1, 1);
    push(list, Refused(6), "inside a term that does not fall", cut_to(equal, 14));
    push(list, Refused(6), "before the kind", Body::of(edition).under(1, 0, 1));
    push(list, Refused(6), "inside the kind", one_left.under(1, some, 1));
    push(list, Refused(6), "inside an atom", cut_to(one_term(), one_term().len() - 1));
    let no_such = Body::of(edition).times_x(1).atom(63, 7).under(1, 1, 1);
    push(list, Refused(6), "inside an atom of no polynomial", cut_to(no_such, one_term().len() - 1));
    push(list, Refused(6), "inside a child count", cut_to(Body::of(edition).and(3).under(1, 0, 1), 6));
    let (body, count) = Body::of(edition).up_to_two_bits();
    push(list, Refused(6), "before a child", body.and(1).under(1, count, 2));
    push(list, Refused(6), "after a child", Body::of(edition).times_x(1).and(2).atom(0, 1).under(1, 1, 3));
    let and_and = Body::of(edition).and(1).kind(1).under(1, 0, 2);
    push(list, Refused(6), "inside an AND under AND", and_and);
    let or_or = Body::of(edition).or(1).kind(2).under(1, 0, 2);
    push(list, Refused(6), "inside an OR under OR", or_or);
    let deep = Body::of(edition).and(1).or(1).and(1).or(1).and(1).or(1).kind(1).under(1, 0, 7);
    push(list, Refused(6), "inside an AND with nesting 7", deep);
}

fn polynomial_refusals(list: &mut Vec<Edge>, edition: Edition) {
    // 7: "term count 0 or above 16"
    for count in [0, 17, 24, 31] {
        let alone = Body::of(edition).term_count(count).term(0, 1, &[1]).atom(0, 1).under(1, 1, 1);
        push(list, Refused(7), "term count", alone);
        let second = Body::of(edition).times_x(1).term_count(count).term(0, 0, &[1]).under(1, 2, 1);
        push(list, Refused(7), "term count of the second", second);
    }
    // 8: "magnitude 0"
    for minus in [0, 1] {
        let first = Body::of(edition).term_count(2).term(minus, 0, &[1]).term(0, 1, &[0]).atom(0, 1);
        push(list, Refused(8), "magnitude of the first term", first.under(1, 1, 1));
        let rising = Body::of(edition).term_count(2).term(0, 1, &[0]).term(minus, 0, &[1]).atom(0, 1);
        push(list, Refused(8), "magnitude of a term that does not fall", rising.under(1, 1, 1));
        let later = Body::of(edition).times_x(2).term_count(1).term(minus, 0, &[1]).kind(3).under(1, 3, 1);
        push(list, Refused(8), "magnitude in the third", later);
    }
    // 9: "exponents do not fall strictly"
    for (note, one, other) in [
        ("equal", [1, 1], [1, 1]),
        ("both 0", [0, 0], [0, 0]),
        ("first variable rises", [1, 9], [2, 0]),
        ("second variable rises", [1, 1], [1, 2]),
        ("second variable falls, first rises", [0, 15], [1, 0]),
    ] {
        let body = Body::of(edition).term_count(2).term(0, 1, &one).term(1, 1, &other).atom(0, 1);
        push(list, Refused(9), note, body.under(2, 1, 1));
    }
    let third = Body::of(edition).term_count(3).term(0, 1, &[2]).term(0, 1, &[1]).term(0, 1, &[2]);
    push(list, Refused(9), "the third term", third.atom(0, 1).under(1, 1, 1));
    let falls = Body::of(edition).term_count(2).term(0, 1, &[2, 0]).term(0, 1, &[1, 15]).atom(0, 1);
    push(list, Accepted, "the first variable is foremost", falls.under(2, 1, 1));
    let apart = Body::of(edition).times_x(1).term_count(1).term(0, 1, &[2]).atom(1, 1);
    push(list, Accepted, "polynomials need not fall", apart.under(1, 2, 1));
}

fn tree_refusals(list: &mut Vec<Edge>, edition: Edition) {
    // 10: "kind 3"
    push(list, Refused(10), "at the root", Body::of(edition).kind(3).under(1, 0, 1));
    let (body, count) = Body::of(edition).up_to_two_bits();
    push(list, Refused(10), "at the very end", body.kind(3).under(1, count, 1));
    push(list, Refused(10), "a child", Body::of(edition).and(1).kind(3).raw(0, 9).under(1, 0, 2));
    push(list, Refused(10), "deep", Body::of(edition).or(2).and(1).or(1).kind(3).under(1, 0, 5));
    let late = Body::of(edition).times_x(1).and(2).atom(0, 1).kind(3).raw(0, 9).under(1, 1, 3);
    push(list, Refused(10), "the last node", late);
    // 11: "polynomial number m or above"
    push(list, Refused(11), "no table", Body::of(edition).atom(0, 7).under(1, 0, 1));
    push(list, Refused(11), "number m", Body::of(edition).times_x(1).atom(1, 7).under(1, 1, 1));
    push(list, Refused(11), "number 63", Body::of(edition).times_x(3).atom(63, 1).under(1, 3, 1));
    let second = Body::of(edition).times_x(2).or(2).atom(1, 1).atom(2, 1).under(1, 2, 3);
    push(list, Refused(11), "in the second child", second);
    // 12: "AND under AND or OR under OR"
    push(list, Refused(12), "AND", Body::of(edition).and(1).and(0).under(1, 0, 2));
    push(list, Refused(12), "OR", Body::of(edition).or(1).or(0).under(1, 0, 2));
    push(list, Refused(12), "deep", Body::of(edition).and(1).or(1).or(5).under(1, 0, 3));
    let second = Body::of(edition).times_x(1).and(2).atom(0, 1).and(1).atom(0, 1).under(1, 1, 4);
    push(list, Refused(12), "the second child", second);
    let seventh = Body::of(edition).and(1).or(1).and(1).or(1).and(1).or(1).or(0).under(1, 0, 7);
    push(list, Refused(12), "with nesting 7", seventh);
    let sibling = Body::of(edition).and(2).or(0).or(0).under(1, 0, 3);
    push(list, Accepted, "OR beside OR", sibling);
    let grandchild = Body::of(edition).and(1).or(1).and(0).under(1, 0, 3);
    push(list, Accepted, "AND two below AND", grandchild);
    // 13: "nesting above 6"
    let deep = || Body::of(edition).or(1).and(1).or(1).and(1).or(1);
    push(list, Refused(13), "with a child count", deep().and(1).or(200).under(1, 0, 7));
    push(list, Refused(13), "the second at 6", deep().and(2).or(0).or(0).under(1, 0, 8));
    let beside = Body::of(edition).or(2).and(0).and(1).or(1).and(1).or(1).and(1).or(0);
    push(list, Refused(13), "beside a shallow one", beside.under(1, 0, 8));
    let beside = Body::of(edition).times_x(1).or(2).and(1).or(1).and(1).or(1).and(0).and(1).atom(0, 1);
    push(list, Accepted, "nesting falls again", beside.under(1, 1, 8));
    // 14, before a node: "14 if the head's number is already read"
    push(list, Refused(14), "a child too many", Body::of(edition).and(1).or(0).under(1, 0, 1));
    let (body, count) = Body::of(edition).up_to_two_bits();
    push(list, Refused(14), "no bits for it", body.and(1).under(1, count, 1));
    push(list, Refused(14), "it has kind 3", Body::of(edition).and(1).kind(3).under(1, 0, 1));
    let atoms = Body::of(edition).times_x(1).or(3).atom(0, 1).atom(0, 2).atom(0, 4).under(1, 1, 3);
    push(list, Refused(14), "the last of three", atoms);
}

fn end_refusals(list: &mut Vec<Edge>, edition: Edition) {
    // 14, at the end: fewer nodes than the head says
    push(
        list,
        Refused(14),
        "an atom, the head says 2",
        Body::of(edition).times_x(1).atom(0, 1).under(1, 1, 2),
    );
    push(list, Refused(14), "an AND, the head says 255", Body::of(edition).and(0).under(1, 0, 255));
    let padding = Body::of(edition).and(0).raw(63, 6).under(1, 0, 2);
    push(list, Refused(14), "and padding not zero", padding);
    let left_over = longer_by(Body::of(edition).or(0).under(1, 0, 3), &[0]);
    push(list, Refused(14), "and a byte left over", left_over);
    // 15: "padding not zero, or a whole byte left over"
    for place in 0..6 {
        let padding = Body::of(edition).and(0).raw(1 << place, 6).under(1, 0, 1);
        push(list, Refused(15), "padding", padding);
    }
    push(list, Refused(15), "a zero byte", longer_by(Body::of(edition).and(0).under(1, 0, 1), &[0]));
    push(list, Refused(15), "a byte", longer_by(Body::of(edition).and(0).under(1, 0, 1), &[1]));
    push(list, Refused(15), "three zero bytes", longer_by(plain(edition), &[0, 0, 0]));
    // Six times x, or three in edition 2, and an AND with no children end with a byte: no padding.
    let exact = || {
        let (body, count) = Body::of(edition).up_to_two_bits();
        body.and(0).under(1, count, 1)
    };
    push(list, Accepted, "no padding", exact());
    push(list, Refused(15), "a zero byte after no padding", longer_by(exact(), &[0]));
    push(list, Refused(15), "a byte after no padding", longer_by(exact(), &[0x80]));
    push(list, Refused(15), "many bytes", longer_by(plain(edition), &[0; 300]));
    // "It reads at most 32,768 bytes of a block": no accepted block is as long.
    push(
        list,
        Refused(15),
        "32,767 bytes",
        longer_by(plain(edition), &vec![0; 32_767 - plain(edition).len()]),
    );
    push(
        list,
        Refused(15),
        "32,768 bytes",
        longer_by(plain(edition), &vec![0; 32_768 - plain(edition).len()]),
    );
}

// -------------------------------------------------------------------------------------- long inputs

/// "It reads at most 32,768 bytes of a block": an AND with no children and zeros, as long as a stream allows, and around the number that is read.
/// The head gives the true length, and once the 32,768 bytes that are taken of 32,769.
pub fn long() -> Vec<Vec<u8>> {
    let of_length = |length| {
        let mut bytes = Body::of(Edition::One).and(0).under(1, 0, 1);
        bytes.resize(length, 0);
        bytes
    };
    let mut list: Vec<Vec<u8>> = [32_767, 32_768, 32_769, 40_000, 65_535]
        .into_iter()
        .map(|length| with_length(of_length(length), length))
        .collect();
    list.push(with_length(of_length(32_769), 32_768));
    list
}

// -------------------------------------------------------------------------------------- families

/// The largest coefficients in each deduction: cross products near 2^62, fractions that differ by little.
fn large_coefficients(list: &mut Vec<Edge>, edition: Edition) {
    let most = LARGEST_MAGNITUDE;
    let pairs = [
        (
            polynomial(&[(most, [1, 0]), (-(most - 1), [0, 1]), (1, [0, 0])]),
            polynomial(&[(most - 1, [1, 0]), (-(most - 2), [0, 1]), (most, [0, 0])]),
        ),
        (
            polynomial(&[(most, [1, 0]), (most - 1, [0, 1]), (-1, [0, 0])]),
            polynomial(&[(-(most - 1), [1, 0]), (-most, [0, 1]), (-most, [0, 0])]),
        ),
    ];
    for (one, other) in pairs {
        for first in 1..7 {
            for second in 1..7 {
                let tree = Node::And(vec![
                    Node::atom(0, SignSet::GREATER_EQUAL),
                    Node::atom(1, SignSet::from_bits(first)),
                    Node::atom(2, SignSet::from_bits(second)),
                ]);
                let table = vec![Polynomial::of_variable(2, 1), one.clone(), other.clone()];
                let bytes = write_in(edition, &Formula { variables: 2, table, tree });
                push(list, Accepted, "large coefficients", bytes);
            }
        }
    }
}

/// 2x-1 < 0 AND (y²-x+1 ≤ 0 OR z+1 > 0) AND x ≥ 0: a block of 60 bytes.
pub fn middle() -> Vec<u8> {
    middle_in(Edition::One)
}

pub fn middle_in(edition: Edition) -> Vec<u8> {
    let table = vec![
        polynomial(&[(2, [1, 0, 0]), (-1, [0, 0, 0])]),
        polynomial(&[(-1, [1, 0, 0]), (1, [0, 2, 0]), (1, [0, 0, 0])]),
        polynomial(&[(1, [0, 0, 1]), (1, [0, 0, 0])]),
        polynomial(&[(1, [1, 0, 0])]),
    ];
    let tree = Node::And(vec![
        Node::atom(0, SignSet::LESS),
        Node::Or(vec![Node::atom(1, SignSet::LESS_EQUAL), Node::atom(2, SignSet::GREATER)]),
        Node::atom(3, SignSet::GREATER_EQUAL),
    ]);
    write_in(edition, &Formula { variables: 3, table, tree })
}

/// The same layout with other numbers.
fn same_layout(edition: Edition) -> Vec<u8> {
    let table = vec![
        polynomial(&[(200, [1, 1, 0]), (-77, [0, 0, 0])]),
        polynomial(&[(31, [0, 1, 0]), (-9, [0, 0, 2]), (4, [0, 0, 1])]),
        polynomial(&[(-5, [1, 0, 1]), (1000, [0, 0, 0])]),
        polynomial(&[(-7, [0, 0, 1])]),
    ];
    let tree = Node::Or(vec![
        Node::atom(3, SignSet::NOT_EQUAL),
        Node::And(vec![Node::atom(2, SignSet::EQUAL), Node::atom(1, SignSet::LESS)]),
        Node::atom(0, SignSet::GREATER),
    ]);
    write_in(edition, &Formula { variables: 3, table, tree })
}

/// Another layout, and longer.
fn other_layout(edition: Edition) -> Vec<u8> {
    let table = vec![
        polynomial(&[(12, [1, 0]), (5, [0, 1]), (-840, [0, 0])]),
        polynomial(&[(1, [2, 0]), (1, [0, 2]), (-400, [0, 0])]),
        polynomial(&[(3, [1, 1]), (-1, [0, 0])]),
        polynomial(&[(-1, [1, 0])]),
        polynomial(&[(1, [0, 1]), (-20, [0, 0])]),
    ];
    let tree = Node::And(vec![
        Node::Or(vec![
            Node::atom(0, SignSet::LESS_EQUAL),
            Node::And(vec![Node::atom(1, SignSet::LESS), Node::atom(2, SignSet::GREATER)]),
        ]),
        Node::atom(3, SignSet::LESS_EQUAL),
        Node::atom(4, SignSet::NOT_EQUAL),
    ]);
    write_in(edition, &Formula { variables: 2, table, tree })
}

fn families(list: &mut Vec<Edge>, edition: Edition) {
    let block = middle_in(edition);
    push(list, Accepted, "the middle block", block.clone());
    for bit in 0..8 * block.len() {
        let mut flipped = block.clone();
        flip(&mut flipped, bit);
        push(list, Either, &format!("bit {bit} flipped"), flipped);
    }
    for length in 0..block.len() {
        let prefix = block[..length].to_vec();
        let reading = Refused(if length < 5 { 2 } else { 4 });
        push(list, reading, &format!("the first {length} bytes"), prefix);
    }
    for length in 5..block.len() {
        let note = format!("the first {length} bytes, the length field put right");
        push(list, Refused(6), &note, cut_to(block.clone(), length));
    }
    for more in 1..4 {
        let mut longer = block.clone();
        longer.extend(vec![0; more]);
        push(list, Refused(4), &format!("{more} zero bytes more"), longer);
        let note = format!("{more} zero bytes more, the length field put right");
        push(list, Refused(15), &note, longer_by(block.clone(), &vec![0; more]));
    }
    // "A cut had left a new head over half-written conditions": the first bytes are the new block's, the
    // rest still the old one's.
    for (new, old) in [
        (middle_in(edition), same_layout(edition)),
        (same_layout(edition), middle_in(edition)),
        (middle_in(edition), other_layout(edition)),
        (other_layout(edition), middle_in(edition)),
    ] {
        for cut in 5..new.len() {
            push(list, Either, &format!("cut after {cut} bytes"), half_written(&new, &old, cut));
        }
    }
}
