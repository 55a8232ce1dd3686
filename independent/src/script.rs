//! Request #112: the answer as a script of SMT-LIB 2, the reader of exactly this text, and the position where a text stops.
//! Every place of a text is one of two: bytes that must stand there, or a choice among the bytes that go on.

use std::cmp::Ordering;

use crate::answer::answer;
use crate::block::{Formula, Refusal, LARGEST_MAGNITUDE, LARGEST_NESTING};
use crate::polynomial::{Polynomial, Term};
use crate::signs::SignSet;
use crate::tree::Node;

pub const MOST_VARIABLES: usize = 16;
pub const MOST_POLYNOMIALS: usize = 64;
pub const MOST_TERMS: usize = 16;
pub const MOST_NODES: usize = 255;
pub const LARGEST_EXPONENT: u8 = 15;

// ---------------------------------------------------------------------------------------- plain

/// "lists only used polynomials, each once (term by term equal), by first use, has no set empty or full and no AND or OR of
/// fewer than two children; or is an AND or an OR of none with an empty table"
pub fn is_plain(formula: &Formula) -> bool {
    if formula.tree.is_always() || formula.tree.is_never() {
        return formula.table.is_empty();
    }
    let mut used: Vec<usize> = vec![];
    formula.tree.map(&mut |&number| {
        if !used.contains(&number) {
            used.push(number);
        }
    });
    let by_first_use = used.iter().copied().eq(0..formula.table.len());
    let each_once = (0..formula.table.len()).all(|k| !formula.table[..k].contains(&formula.table[k]));
    by_first_use && each_once && says_something(&formula.tree)
}

/// No set empty or full, no AND or OR of fewer than two children.
fn says_something(node: &Node<usize>) -> bool {
    match node {
        Node::Atom(atom) => !atom.set.is_empty() && !atom.set.is_full(),
        Node::And(parts) | Node::Or(parts) => parts.len() >= 2 && parts.iter().all(says_something),
    }
}

// ---------------------------------------------------------------------------------------- writing

/// The names a, b, .. p.
pub fn name(variable: usize) -> char {
    char::from(b'a' + variable as u8)
}

/// The script of a plain formula.
pub fn script(formula: &Formula) -> String {
    let mut text = String::from("(set-logic QF_NIA)\n");
    for variable in 0..formula.variables {
        text += &declaration(variable);
    }
    let root = match &formula.tree {
        tree if tree.is_always() => "true".to_string(),
        tree if tree.is_never() => "false".to_string(),
        tree => node_text(tree, &formula.table),
    };
    text + "(assert " + &root + ")\n"
}

fn declaration(variable: usize) -> String {
    format!("(declare-fun {} () Int)\n", name(variable))
}

fn node_text(node: &Node<usize>, table: &[Polynomial]) -> String {
    let joined = |word: &str, parts: &[Node<usize>]| {
        let parts: String = parts.iter().map(|part| format!(" {}", node_text(part, table))).collect();
        format!("({word}{parts})")
    };
    match node {
        Node::And(parts) => joined("and", parts),
        Node::Or(parts) => joined("or", parts),
        Node::Atom(atom) => {
            let polynomial = polynomial_text(&table[atom.poly]);
            match atom.set {
                SignSet::LESS => format!("(< {polynomial} 0)"),
                SignSet::LESS_EQUAL => format!("(<= {polynomial} 0)"),
                SignSet::EQUAL => format!("(= {polynomial} 0)"),
                SignSet::GREATER_EQUAL => format!("(>= {polynomial} 0)"),
                SignSet::GREATER => format!("(> {polynomial} 0)"),
                // "≠ is the negation of an equality"
                SignSet::NOT_EQUAL => format!("(not (= {polynomial} 0))"),
                _ => panic!("a plain formula has no set empty or full"),
            }
        }
    }
}

/// "terms in block order"
pub fn polynomial_text(polynomial: &Polynomial) -> String {
    match &polynomial.terms[..] {
        [only] => term_text(only),
        terms => {
            let terms: String = terms.iter().map(|term| format!(" {}", term_text(term))).collect();
            format!("(+{terms})")
        }
    }
}

/// "In a product the variables rise, each as often as its exponent says; the coefficient is always written, also 1"
fn term_text(term: &Term) -> String {
    let magnitude = term.coefficient.abs();
    let number = if term.coefficient < 0 { format!("(- {magnitude})") } else { magnitude.to_string() };
    let mut factors = String::new();
    for (variable, &exponent) in term.exponents.iter().enumerate() {
        for _ in 0..exponent {
            factors += &format!(" {}", name(variable));
        }
    }
    // "a number alone is the constant term"
    if factors.is_empty() {
        return number;
    }
    format!("(* {number}{factors})")
}

/// "Simplify a block and write the answer": the reader's refusals, then 24 "if the lent text buffer is shorter than the
/// finished script".
pub fn answer_script(input: &[u8], room: usize) -> Result<String, Refusal> {
    let text = script(&answer(input, input.len())?.simplified);
    if room < text.len() {
        return Err(24);
    }
    Ok(text)
}

/// The answer's script, or the line REFUSED and the number.
pub fn answer_lines(input: &[u8]) -> String {
    let input = &input[..input.len().min(crate::answer::MOST_READ)];
    answer_script(input, usize::MAX).unwrap_or_else(|refusal| format!("REFUSED {refusal}\n"))
}

/// The script of the block itself, if it is plain.
pub fn plain_lines(input: &[u8]) -> String {
    match crate::block::read(&input[..input.len().min(crate::answer::MOST_READ)]) {
        Err(refusal) => format!("REFUSED {refusal}\n"),
        Ok(formula) if is_plain(&formula) => script(&formula),
        Ok(_) => "NOT PLAIN\n".to_string(),
    }
}

// ---------------------------------------------------------------------------------------- reading

/// "the position, from 0, of the first byte at which no such text goes on"
pub type Position = usize;

/// The formula of a script, or where the text stops: "an unfinished text stops at its length, a text with more behind it where
/// the extra begins".
pub fn read_script(text: &[u8]) -> Result<Formula, Position> {
    let mut reader = Reader { text, at: 0, variables: 0, known: vec![], fewest_nodes: 1 };
    let tree = reader.script()?;
    if reader.at < text.len() {
        return Err(reader.at);
    }
    Ok(Formula { variables: reader.variables, table: reader.known, tree })
}

/// The block of a script as hex pairs, or REFUSED 25 and the position.
pub fn back_line(text: &[u8]) -> String {
    match read_script(text) {
        Err(position) => format!("REFUSED 25 {position}\n"),
        Ok(formula) => {
            let bytes = crate::block::write(&formula);
            bytes.iter().map(|byte| format!("{byte:02x}")).collect::<Vec<_>>().join(" ") + "\n"
        }
    }
}

#[derive(Clone, Copy, PartialEq, Eq)]
enum Kind {
    And,
    Or,
}

struct Reader<'a> {
    text: &'a [u8],
    at: Position,
    variables: usize,
    /// The different polynomials so far, by first use.
    known: Vec<Polynomial>,
    /// The fewest nodes that a tree beginning so can have.
    fewest_nodes: usize,
}

impl Reader<'_> {
    /// The next byte must be one of these, or the text stops here.
    fn one_of(&mut self, bytes: &[u8]) -> Result<u8, Position> {
        match self.text.get(self.at) {
            Some(byte) if bytes.contains(byte) => {
                self.at += 1;
                Ok(*byte)
            }
            _ => Err(self.at),
        }
    }

    /// These bytes must follow.
    fn must_be(&mut self, bytes: &[u8]) -> Result<(), Position> {
        bytes.iter().try_for_each(|&byte| self.one_of(&[byte]).map(drop))
    }

    /// "declaration{n}", n from 1 to 16, "v = a, b, .. p in order", and the assertion.
    fn script(&mut self) -> Result<Node<usize>, Position> {
        self.must_be(b"(set-logic QF_NIA)\n")?;
        loop {
            self.must_be(b"(")?;
            let mut goes_on = vec![];
            if self.variables < MOST_VARIABLES {
                goes_on.push(b'd');
            }
            if self.variables >= 1 {
                goes_on.push(b'a');
            }
            if self.one_of(&goes_on)? == b'a' {
                break;
            }
            self.must_be(&declaration(self.variables).as_bytes()[2..])?;
            self.variables += 1;
        }
        self.must_be(b"ssert ")?;
        let tree = match self.one_of(b"tf(")? {
            b't' => self.must_be(b"rue").map(|()| Node::always())?,
            b'f' => self.must_be(b"alse").map(|()| Node::never())?,
            _ => self.node(None, 0)?,
        };
        self.must_be(b")\n")?;
        Ok(tree)
    }

    /// A node behind its bracket; the kind above it, and how many ANDs and ORs stand above.
    fn node(&mut self, above: Option<Kind>, nesting: usize) -> Result<Node<usize>, Position> {
        let mut goes_on = b"<>=n".to_vec();
        // An AND or OR has two nodes more at least.
        if nesting < LARGEST_NESTING && self.fewest_nodes + 2 <= MOST_NODES {
            goes_on.extend(
                [(Kind::And, b'a'), (Kind::Or, b'o')]
                    .iter()
                    .filter(|pair| above != Some(pair.0))
                    .map(|pair| pair.1),
            );
        }
        let first = self.one_of(&goes_on)?;
        match first {
            b'a' => {
                self.must_be(b"nd")?;
                Ok(Node::And(self.children(Kind::And, nesting)?))
            }
            b'o' => {
                self.must_be(b"r")?;
                Ok(Node::Or(self.children(Kind::Or, nesting)?))
            }
            b'n' => {
                self.must_be(b"ot (= ")?;
                self.atom(SignSet::NOT_EQUAL, b" 0))")
            }
            b'=' => {
                self.must_be(b" ")?;
                self.atom(SignSet::EQUAL, b" 0)")
            }
            _ => {
                let mut set = if first == b'<' { SignSet::LESS } else { SignSet::GREATER };
                if self.one_of(b" =")? == b'=' {
                    set = set.union(SignSet::EQUAL);
                    self.must_be(b" ")?;
                }
                self.atom(set, b" 0)")
            }
        }
    }

    /// The children, two at least, and the closing bracket.
    fn children(&mut self, kind: Kind, nesting: usize) -> Result<Vec<Node<usize>>, Position> {
        self.fewest_nodes += 2;
        let mut parts = vec![];
        loop {
            let mut goes_on = vec![];
            if parts.len() < 2 || self.fewest_nodes < MOST_NODES {
                goes_on.push(b' ');
            }
            if parts.len() >= 2 {
                goes_on.push(b')');
            }
            if self.one_of(&goes_on)? == b')' {
                return Ok(parts);
            }
            if parts.len() >= 2 {
                self.fewest_nodes += 1;
            }
            self.must_be(b"(")?;
            parts.push(self.node(Some(kind), nesting + 1)?);
        }
    }

    /// A polynomial and what closes its atom. Where 64 are known only one of them goes on.
    fn atom(&mut self, set: SignSet, closing: &[u8]) -> Result<Node<usize>, Position> {
        let number = if self.known.len() < MOST_POLYNOMIALS {
            let polynomial = self.polynomial()?;
            self.must_be(closing)?;
            let number = self.known.iter().position(|known| *known == polynomial);
            number.unwrap_or_else(|| {
                self.known.push(polynomial);
                self.known.len() - 1
            })
        } else {
            self.one_of_the_known(closing)?
        };
        Ok(Node::atom(number, set))
    }

    /// "the position is the longest agreement with any of the 64 (and what must follow it)"
    fn one_of_the_known(&mut self, closing: &[u8]) -> Result<usize, Position> {
        let rest = &self.text[self.at..];
        let mut longest = 0;
        for (number, polynomial) in self.known.iter().enumerate() {
            let mut expected = polynomial_text(polynomial).into_bytes();
            expected.extend(closing);
            let agreeing = rest.iter().zip(&expected).take_while(|(one, other)| one == other).count();
            if agreeing == expected.len() {
                self.at += agreeing;
                return Ok(number);
            }
            longest = longest.max(agreeing);
        }
        Err(self.at + longest)
    }

    /// "p = term | "(+" (" " term){2,16} ")"": each term's monomial falls below the one before.
    fn polynomial(&mut self) -> Result<Polynomial, Position> {
        if self.digit_or_bracket()? {
            return Ok(self.constant(self.text[self.at - 1]).map(|term| Polynomial { terms: vec![term] })?);
        }
        match self.one_of(b"-*+")? {
            b'-' => Ok(Polynomial { terms: vec![self.negative_constant()?] }),
            b'*' => Ok(Polynomial { terms: vec![self.product(None)?] }),
            _ => {
                let mut terms: Vec<Term> = vec![];
                loop {
                    let mut goes_on = vec![];
                    let lowest = terms.last().is_some_and(|term| term.exponents.iter().all(|&e| e == 0));
                    if terms.len() < MOST_TERMS && !lowest {
                        goes_on.push(b' ');
                    }
                    if terms.len() >= 2 {
                        goes_on.push(b')');
                    }
                    if self.one_of(&goes_on)? == b')' {
                        return Ok(Polynomial { terms });
                    }
                    let term = self.summand(terms.last())?;
                    terms.push(term);
                }
            }
        }
    }

    /// A term of a sum: the first is a product, since something must fall below it.
    fn summand(&mut self, before: Option<&Term>) -> Result<Term, Position> {
        let Some(before) = before else {
            self.must_be(b"(*")?;
            return self.product(None);
        };
        if self.digit_or_bracket()? {
            return self.constant(self.text[self.at - 1]);
        }
        let mut goes_on = vec![b'-'];
        if !self.factors_that_go_on(&vec![0; self.variables], Some(before)).is_empty() {
            goes_on.push(b'*');
        }
        match self.one_of(&goes_on)? {
            b'-' => self.negative_constant(),
            _ => self.product(Some(before)),
        }
    }

    /// Whether a digit that begins a number stands here, and no bracket.
    fn digit_or_bracket(&mut self) -> Result<bool, Position> {
        Ok(self.one_of(b"123456789(")? != b'(')
    }

    /// The number that begins with a digit: "1..2147483647, no leading zero".
    fn digits(&mut self, first: u8) -> i128 {
        let mut number = i128::from(first - b'0');
        while let Some(&byte) = self.text.get(self.at) {
            if !byte.is_ascii_digit() || 10 * number + i128::from(byte - b'0') > LARGEST_MAGNITUDE {
                break;
            }
            number = 10 * number + i128::from(byte - b'0');
            self.at += 1;
        }
        number
    }

    fn constant(&mut self, first: u8) -> Result<Term, Position> {
        Ok(Term { coefficient: self.digits(first), exponents: vec![0; self.variables] })
    }

    /// Behind "(-".
    fn negative(&mut self) -> Result<i128, Position> {
        self.must_be(b" ")?;
        let first = self.one_of(b"123456789")?;
        let magnitude = self.digits(first);
        self.must_be(b")")?;
        Ok(-magnitude)
    }

    fn negative_constant(&mut self) -> Result<Term, Position> {
        Ok(Term { coefficient: self.negative()?, exponents: vec![0; self.variables] })
    }

    /// Behind "(*": the coefficient, then variables that rise, each at most 15 times, below the monomial before.
    fn product(&mut self, before: Option<&Term>) -> Result<Term, Position> {
        self.must_be(b" ")?;
        let coefficient = if self.digit_or_bracket()? {
            self.digits(self.text[self.at - 1])
        } else {
            self.must_be(b"-")?;
            self.negative()?
        };
        let mut exponents = vec![0; self.variables];
        loop {
            let factors = self.factors_that_go_on(&exponents, before);
            let mut goes_on = vec![];
            if !factors.is_empty() {
                goes_on.push(b' ');
            }
            if exponents.iter().any(|&exponent| exponent > 0) {
                goes_on.push(b')');
            }
            if self.one_of(&goes_on)? == b')' {
                return Ok(Term { coefficient, exponents });
            }
            let names: Vec<u8> = factors.iter().map(|&variable| name(variable) as u8).collect();
            let factor = self.one_of(&names)?;
            exponents[usize::from(factor - b'a')] += 1;
        }
    }

    /// The variables that a product with these exponents may have next: none that has one behind it, none 16 times, and none
    /// that lifts the monomial to the one before or above it. More factors only lift it further.
    fn factors_that_go_on(&self, exponents: &[u8], before: Option<&Term>) -> Vec<usize> {
        let last = exponents.iter().rposition(|&exponent| exponent > 0).unwrap_or(0);
        let goes_on = |&variable: &usize| {
            let mut more = exponents.to_vec();
            more[variable] += 1;
            let falls = before.is_none_or(|term| more.cmp(&term.exponents) == Ordering::Less);
            more[variable] <= LARGEST_EXPONENT && falls
        };
        (last..self.variables).filter(goes_on).collect()
    }
}
