//! The reader (bytes to a formula, or the first refusal) and the writer (a formula to bytes), for both editions.
//! Document 01, "The block" and "Refusal numbers"; document 02, #109.

use crate::polynomial::{Polynomial, Term};
use crate::signs::SignSet;
use crate::tree::Node;

/// A refusal's number.
pub type Refusal = u8;

/// What a block holds: "variable count, table and tree". An atom names its polynomial by its number.
#[derive(Clone, Debug, PartialEq, Eq)]
pub struct Formula {
    pub variables: usize,
    pub table: Vec<Polynomial>,
    pub tree: Node<usize>,
}

/// 02, #109: the two editions of a block, which differ in the exponents of a term.
#[derive(Clone, Copy, Debug, PartialEq, Eq)]
pub enum Edition {
    One,
    Two,
}

impl Edition {
    pub const BOTH: [Edition; 2] = [Edition::One, Edition::Two];

    /// What the head says: "neither 1 nor 2" is none.
    pub fn of_number(number: u64) -> Option<Edition> {
        Edition::BOTH.into_iter().find(|edition| edition.number() == number)
    }

    pub fn number(self) -> u64 {
        match self {
            Edition::One => 1,
            Edition::Two => 2,
        }
    }

    pub fn other(self) -> Edition {
        match self {
            Edition::One => Edition::Two,
            Edition::Two => Edition::One,
        }
    }
}

/// The edition that a block's head gives, if it is one of the two.
pub fn edition_of(bytes: &[u8]) -> Option<Edition> {
    Edition::of_number(u64::from(bytes.first()? >> 4))
}

pub const LARGEST_MAGNITUDE: i128 = 2_147_483_647;
pub const LARGEST_NESTING: usize = 6;

// ---------------------------------------------------------------------------------------- fields

/// "Bit fields, most significant bit first, no gaps."
struct Fields<'a> {
    bytes: &'a [u8],
    at: usize,
}

impl Fields<'_> {
    fn bits_left(&self) -> usize {
        8 * self.bytes.len() - self.at
    }

    /// The next field. Refusal 6: "bits end inside a field".
    fn next(&mut self, width: usize) -> Result<u64, Refusal> {
        self.must_have(width)?;
        let mut value = 0;
        for _ in 0..width {
            let byte = self.bytes[self.at / 8];
            let bit = byte >> (7 - self.at % 8) & 1;
            value = 2 * value + u64::from(bit);
            self.at += 1;
        }
        Ok(value)
    }

    fn must_have(&self, width: usize) -> Result<(), Refusal> {
        if self.bits_left() < width {
            return Err(6);
        }
        Ok(())
    }
}

// ---------------------------------------------------------------------------------------- reading

/// The formula that the bytes hold, or the first refusal from 2 on. (1 is about the lent output; see
/// `answer`.)
pub fn read(bytes: &[u8]) -> Result<Formula, Refusal> {
    // "1 to 5 are tried in that order; 5 in field order."
    // 2: "input under 5 bytes"
    if bytes.len() < 5 {
        return Err(2);
    }
    let mut fields = Fields { bytes, at: 0 };
    let edition = fields.next(4)?;
    let variables = fields.next(5)? as usize;
    let polynomials = fields.next(7)? as usize;
    let nodes = fields.next(8)? as usize;
    let length = fields.next(16)? as usize;
    // 3: "3 now means neither 1 nor 2"
    let Some(edition) = Edition::of_number(edition) else { return Err(3) };
    // 4: "length field differs from input length"
    if length != bytes.len() {
        return Err(4);
    }
    // 5: "n, m or node count not allowed"
    if !(1..=16).contains(&variables) {
        return Err(5);
    }
    if polynomials > 64 {
        return Err(5);
    }
    if nodes == 0 {
        return Err(5);
    }
    // "The rest is met in reading order."
    let mut table = vec![];
    for _ in 0..polynomials {
        table.push(read_polynomial(&mut fields, edition, variables)?);
    }
    let mut nodes_left = nodes;
    let tree = read_node(&mut fields, polynomials, &mut nodes_left, None, 0)?;
    // "At the end 14, then 15."
    // 14: "more or fewer nodes than the head says"
    if nodes_left > 0 {
        return Err(14);
    }
    // 15: "padding not zero, or a whole byte left over"
    let padding = fields.bits_left();
    if padding >= 8 || fields.next(padding)? != 0 {
        return Err(15);
    }
    Ok(Formula { variables, table, tree })
}

/// "term count (5 bits, 1 to 16);" then the terms. "Exponent lists fall strictly from term to term".
fn read_polynomial(fields: &mut Fields, edition: Edition, variables: usize) -> Result<Polynomial, Refusal> {
    let count = fields.next(5)?;
    // 7: "term count 0 or above 16"
    if count == 0 || count > 16 {
        return Err(7);
    }
    let mut terms: Vec<Term> = vec![];
    for _ in 0..count {
        let term = match edition {
            Edition::One => read_term(fields, variables)?,
            Edition::Two => read_paired_term(fields, variables)?,
        };
        // 9: "exponents do not fall strictly": of the exponent lists, in both editions.
        if let Some(before) = terms.last() {
            if term.exponents >= before.exponents {
                return Err(9);
            }
        }
        terms.push(term);
    }
    Ok(Polynomial { terms })
}

/// Edition 1: "each term a minus bit, a 31-bit magnitude (1 to 2,147,483,647) and n exponents of 4 bits." "In a term: 6
/// for the term as a whole, then 8, 9."
fn read_term(fields: &mut Fields, variables: usize) -> Result<Term, Refusal> {
    fields.must_have(1 + 31 + 4 * variables)?;
    let (minus, magnitude) = (fields.next(1)? == 1, i128::from(fields.next(31)?));
    let mut exponents = vec![];
    for _ in 0..variables {
        exponents.push(fields.next(4)? as u8);
    }
    // 8: "magnitude 0"
    if magnitude == 0 {
        return Err(8);
    }
    Ok(Term { coefficient: if minus { -magnitude } else { magnitude }, exponents })
}

/// Edition 2: "a term has, after its magnitude, a 5-bit count of variables with exponent above 0 (0 to n), then that many
/// pairs of variable number (4 bits, strictly rising, below n) and exponent (4 bits, 1 to 15)." "in a term 6 as far as the
/// pair count, 8, 21, 6 for the pairs, 22, 23, 9": each is asked of the whole term before the next.
fn read_paired_term(fields: &mut Fields, variables: usize) -> Result<Term, Refusal> {
    fields.must_have(1 + 31 + 5)?;
    let (minus, magnitude) = (fields.next(1)? == 1, i128::from(fields.next(31)?));
    let count = fields.next(5)? as usize;
    if magnitude == 0 {
        return Err(8);
    }
    // 21: "pair count above n"
    if count > variables {
        return Err(21);
    }
    fields.must_have(8 * count)?;
    let mut pairs = vec![];
    for _ in 0..count {
        pairs.push((fields.next(4)? as usize, fields.next(4)? as u8));
    }
    // 22: "variable numbers not rising or not below n"
    let below = pairs.iter().all(|&(variable, _)| variable < variables);
    let rising = pairs.windows(2).all(|two| two[0].0 < two[1].0);
    if !below || !rising {
        return Err(22);
    }
    // 23: "exponent 0"
    if pairs.iter().any(|&(_, exponent)| exponent == 0) {
        return Err(23);
    }
    let mut exponents = vec![0; variables];
    for (variable, exponent) in pairs {
        exponents[variable] = exponent;
    }
    Ok(Term { coefficient: if minus { -magnitude } else { magnitude }, exponents })
}

#[derive(Clone, Copy, PartialEq, Eq)]
enum Kind {
    And,
    Or,
}

/// "Then the tree, parent before children". `parent` is the kind of the node above, `nesting` the number
/// of AND and OR nodes above.
fn read_node(
    fields: &mut Fields,
    polynomials: usize,
    nodes_left: &mut usize,
    parent: Option<Kind>,
    nesting: usize,
) -> Result<Node<usize>, Refusal> {
    // "Before a node: 14 if the head's number is already read;"
    if *nodes_left == 0 {
        return Err(14);
    }
    *nodes_left -= 1;
    // "then 6 for the kind, 10,"
    let kind = match fields.next(2)? {
        // "6 for the rest that this kind has, and 11 for an atom,"
        0 => {
            fields.must_have(6 + 3)?;
            let poly = fields.next(6)? as usize;
            let set = SignSet::from_bits(fields.next(3)?);
            // 11: "polynomial number m or above"
            if poly >= polynomials {
                return Err(11);
            }
            return Ok(Node::atom(poly, set));
        }
        1 => Kind::And,
        2 => Kind::Or,
        // 10: "kind 3"
        _ => return Err(10),
    };
    let count = fields.next(8)?;
    // "12, 13 for AND or OR."
    // 12: "AND under AND or OR under OR"
    if parent == Some(kind) {
        return Err(12);
    }
    // 13: "nesting above 6"
    if nesting + 1 > LARGEST_NESTING {
        return Err(13);
    }
    let mut parts = vec![];
    for _ in 0..count {
        parts.push(read_node(fields, polynomials, nodes_left, Some(kind), nesting + 1)?);
    }
    Ok(match kind {
        Kind::And => Node::And(parts),
        Kind::Or => Node::Or(parts),
    })
}

// ---------------------------------------------------------------------------------------- writing

/// Fields put one after another; `finish` gives the bytes, with "zero bits up to the byte end".
#[derive(Default)]
pub struct Bits {
    bits: Vec<bool>,
}

impl Bits {
    pub fn put(&mut self, value: u64, width: usize) {
        for place in (0..width).rev() {
            self.bits.push(value >> place & 1 == 1);
        }
    }

    pub fn len(&self) -> usize {
        self.bits.len()
    }

    pub fn is_empty(&self) -> bool {
        self.bits.is_empty()
    }

    pub fn append(&mut self, other: &Bits) {
        self.bits.extend(&other.bits);
    }

    pub fn finish(&self) -> Vec<u8> {
        let mut bytes = vec![0; self.bits.len().div_ceil(8)];
        for (at, &bit) in self.bits.iter().enumerate() {
            if bit {
                bytes[at / 8] |= 1 << (7 - at % 8);
            }
        }
        bytes
    }
}

/// The block of a formula within the limits, in edition 1.
pub fn write(formula: &Formula) -> Vec<u8> {
    write_in(Edition::One, formula)
}

/// The block of a formula within the limits. "All else keeps its place."
pub fn write_in(edition: Edition, formula: &Formula) -> Vec<u8> {
    let mut body = Bits::default();
    for polynomial in &formula.table {
        write_polynomial(edition, polynomial, &mut body);
    }
    write_node(&formula.tree, &mut body);
    let length = (40 + body.len()).div_ceil(8);
    let mut bits = Bits::default();
    bits.put(edition.number(), 4);
    bits.put(formula.variables as u64, 5);
    bits.put(formula.table.len() as u64, 7);
    bits.put(formula.tree.nodes() as u64, 8);
    bits.put(length as u64, 16);
    bits.append(&body);
    bits.finish()
}

pub fn write_polynomial(edition: Edition, polynomial: &Polynomial, bits: &mut Bits) {
    bits.put(polynomial.terms.len() as u64, 5);
    for term in &polynomial.terms {
        bits.put(u64::from(term.coefficient < 0), 1);
        bits.put(term.coefficient.unsigned_abs() as u64, 31);
        match edition {
            Edition::One => term.exponents.iter().for_each(|&exponent| bits.put(u64::from(exponent), 4)),
            Edition::Two => write_pairs(&term.exponents, bits),
        }
    }
}

/// The variables with exponent above 0, in order: how many, and each with its exponent.
fn write_pairs(exponents: &[u8], bits: &mut Bits) {
    let pairs: Vec<(usize, u8)> = exponents.iter().copied().enumerate().filter(|pair| pair.1 > 0).collect();
    bits.put(pairs.len() as u64, 5);
    for (variable, exponent) in pairs {
        bits.put(variable as u64, 4);
        bits.put(u64::from(exponent), 4);
    }
}

/// "kind (2 bits). 0 is an atom: polynomial number (6 bits), sign set (3 bits). 1 is AND and 2 is OR:
/// child count (8 bits), then the children."
pub fn write_node(node: &Node<usize>, bits: &mut Bits) {
    match node {
        Node::Atom(atom) => {
            bits.put(0, 2);
            bits.put(atom.poly as u64, 6);
            bits.put(atom.set.to_bits(), 3);
        }
        Node::And(parts) | Node::Or(parts) => {
            bits.put(if matches!(node, Node::And(_)) { 1 } else { 2 }, 2);
            bits.put(parts.len() as u64, 8);
            for part in parts {
                write_node(part, bits);
            }
        }
    }
}
