//! Document 02, #112: scripts written and read back, and where a text stops. The positions are held to a second way that knows no
//! rule of the reader: a text is a script if it is the script of the plain block that its brackets give, and some bytes begin a
//! script if one of many ways to finish them is one.

use independent::answer::answer;
use independent::block::{read, write, Edition, Formula};
use independent::cases::{cases, later_cases};
use independent::polynomial::{Polynomial, Term};
use independent::random::Random;
use independent::script::{
    answer_lines, answer_script, back_line, is_plain, name, plain_lines, read_script, script,
};
use independent::scripts::{changed, everywhere, marked, plain_formula, short_script};
use independent::signs::SignSet;
use independent::tree::Node;
use independent::{convert, corpus, edge, uses};

// ------------------------------------------------------------------------------- what is a script

/// What stands in brackets, or a word.
enum Part {
    Word(String),
    List(Vec<Part>),
}

/// The parts of a text, read without any care for spaces and lines.
fn parts(text: &str) -> Option<Vec<Part>> {
    let mut open: Vec<Vec<Part>> = vec![vec![]];
    let spaced = text.replace('(', " ( ").replace(')', " ) ");
    for word in spaced.split_ascii_whitespace() {
        match word {
            "(" => open.push(vec![]),
            ")" => {
                let list = open.pop()?;
                open.last_mut()?.push(Part::List(list));
            }
            _ => open.last_mut()?.push(Part::Word(word.to_string())),
        }
    }
    let all = open.pop()?;
    open.is_empty().then_some(all)
}

fn words(part: &Part) -> Option<(&str, &[Part])> {
    match part {
        Part::List(list) => match &list[..] {
            [Part::Word(first), rest @ ..] => Some((first, rest)),
            _ => None,
        },
        Part::Word(_) => None,
    }
}

fn number(part: &Part) -> Option<i128> {
    match part {
        Part::Word(word) if word.len() < 20 => word.parse().ok(),
        Part::Word(_) => None,
        Part::List(_) => match words(part)? {
            ("-", [one]) => Some(-number(one)?),
            _ => None,
        },
    }
}

fn term(variables: usize, part: &Part) -> Option<Term> {
    let mut exponents = vec![0u8; variables];
    if let Some(coefficient) = number(part) {
        return Some(Term { coefficient, exponents });
    }
    let ("*", [coefficient, factors @ ..]) = words(part)? else { return None };
    for factor in factors {
        let Part::Word(word) = factor else { return None };
        let variable = (0..variables).find(|&variable| name(variable).to_string() == *word)?;
        exponents[variable] = exponents[variable].checked_add(1)?;
    }
    Some(Term { coefficient: number(coefficient)?, exponents })
}

fn formula_node(variables: usize, table: &mut Vec<Polynomial>, part: &Part) -> Option<Node<usize>> {
    let (word, rest) = match part {
        Part::Word(word) if word == "true" => return Some(Node::always()),
        Part::Word(word) if word == "false" => return Some(Node::never()),
        _ => words(part)?,
    };
    if word == "and" || word == "or" {
        let parts: Option<Vec<_>> = rest.iter().map(|part| formula_node(variables, table, part)).collect();
        return Some(if word == "and" { Node::And(parts?) } else { Node::Or(parts?) });
    }
    if word == "not" {
        let [one] = rest else { return None };
        let Node::Atom(atom) = formula_node(variables, table, one)? else { return None };
        return Some(Node::atom(atom.poly, atom.set.complement()));
    }
    let set = match word {
        "<" => SignSet::LESS,
        "<=" => SignSet::LESS_EQUAL,
        "=" => SignSet::EQUAL,
        ">=" => SignSet::GREATER_EQUAL,
        ">" => SignSet::GREATER,
        _ => return None,
    };
    let terms = match words(rest.first()?) {
        Some(("+", terms)) => terms.iter().map(|part| term(variables, part)).collect::<Option<Vec<_>>>()?,
        _ => vec![term(variables, rest.first()?)?],
    };
    let polynomial = Polynomial { terms };
    if polynomial.terms.is_empty() {
        return None;
    }
    let number = table.iter().position(|known| *known == polynomial).unwrap_or(table.len());
    if number == table.len() {
        table.push(polynomial);
    }
    Some(Node::atom(number, set))
}

/// The plain block whose script this text is, by its brackets alone.
fn formula_of(text: &[u8]) -> Option<Formula> {
    let text = std::str::from_utf8(text).ok()?;
    let all = parts(text)?;
    let [_, declarations @ .., last] = &all[..] else { return None };
    let ("assert", [root]) = words(last)? else { return None };
    let variables = declarations.len();
    let mut table = vec![];
    let tree = formula_node(variables, &mut table, root)?;
    let formula = Formula { variables, table, tree };
    let small = formula.table.len() <= 64 && formula.tree.nodes() <= 255 && (1..=16).contains(&variables);
    let accepted = small && read(&write(&formula)) == Ok(formula.clone());
    (accepted && is_plain(&formula) && script(&formula) == text).then_some(formula)
}

// ------------------------------------------------------------------------------- what begins a script

fn head(variables: usize) -> String {
    script(&Formula { variables, table: vec![], tree: Node::always() }).replace("(assert true)\n", "")
}

/// A bracket that is open: its first word, how many parts it has behind that, and where the first of them begins.
#[derive(Clone)]
struct Open {
    word: String,
    parts: usize,
    from: usize,
}

const COMPARISONS: [&str; 5] = ["<", "<=", "=", ">=", ">"];
const WORDS: [&str; 11] = ["<", "<=", "=", ">=", ">", "not", "and", "or", "+", "*", "-"];

struct Begun {
    variables: usize,
    text: String,
    open: Vec<Open>,
    /// A word that is begun.
    word: String,
    /// The texts of polynomials that are finished.
    known: Vec<String>,
    root_is_there: bool,
}

/// The brackets that are open behind the head.
fn begun(text: &str) -> Option<Begun> {
    let variables = (1..=16).find(|&n| text.starts_with(&(head(n) + "(assert ")))?;
    let from = head(variables).len() + "(assert ".len();
    let mut state = Begun {
        variables,
        text: text.to_string(),
        open: vec![],
        word: String::new(),
        known: vec![],
        root_is_there: false,
    };
    for (at, byte) in text.bytes().enumerate().skip(from) {
        match byte {
            b'(' => state.open.push(Open { word: String::new(), parts: 0, from: 0 }),
            b' ' | b'\n' | b')' => {
                if !state.word.is_empty() {
                    let word = std::mem::take(&mut state.word);
                    match state.open.last_mut() {
                        Some(open) if open.word.is_empty() => {
                            open.word = word;
                            open.from = at + 1;
                        }
                        _ => state.a_part_ends(at),
                    }
                }
                // The bracket of the assertion.
                if byte == b')' && state.open.is_empty() {
                    break;
                }
                if byte == b')' {
                    state.open.pop()?;
                    state.a_part_ends(at + 1);
                }
            }
            _ => state.word.push(char::from(byte)),
        }
    }
    Some(state)
}

impl Begun {
    fn a_part_ends(&mut self, at: usize) {
        match self.open.last_mut() {
            None => self.root_is_there = true,
            Some(open) => {
                open.parts += 1;
                if open.parts == 1 && COMPARISONS.contains(&open.word.as_str()) && open.from <= at {
                    self.known.push(self.text[open.from..at].to_string());
                }
            }
        }
    }

    /// A polynomial that is known, or any.
    fn some_polynomial(&self) -> String {
        self.known.first().cloned().unwrap_or_else(|| "1".to_string())
    }

    /// What may stand as the next part of an open bracket.
    fn next_parts(&self, open: Option<&Open>) -> Vec<String> {
        let atom = format!("(= {} 0)", self.some_polynomial());
        let names = (0..self.variables).map(|variable| name(variable).to_string());
        match open.map_or("", |open| open.word.as_str()) {
            "" => vec!["true".to_string(), atom],
            "and" | "or" | "not" => vec![atom],
            "+" => names.map(|name| format!("(* 1 {name})")).chain(["1".to_string()]).collect(),
            "*" if open.is_some_and(|open| open.parts > 0) => names.collect(),
            "*" | "-" => vec!["1".to_string()],
            _ if open.is_some_and(|open| open.parts > 0) => vec!["0".to_string()],
            _ => vec![self.some_polynomial()],
        }
    }

    /// Ways to finish the text.
    fn finished(&self) -> Vec<String> {
        let mut found = vec![];
        let last = self.text.bytes().last();
        let with = |more: &str, change: &dyn Fn(&mut Vec<Open>)| {
            let mut open = self.open.clone();
            change(&mut open);
            (self.text.clone() + more, open)
        };
        let mut ways: Vec<(String, Vec<Open>)> = vec![];
        let needs_word = self.open.last().is_some_and(|open| open.word.is_empty());
        let one_more = |open: &mut Vec<Open>| {
            if let Some(open) = open.last_mut() {
                open.parts += 1;
            }
        };
        if self.root_is_there && self.open.is_empty() {
            return vec![self.text.clone(), self.text.clone() + "\n", self.text.clone() + ")\n"];
        }
        if needs_word {
            for word in WORDS.iter().filter(|word| word.starts_with(&self.word)) {
                ways.push(with(&word[self.word.len()..], &|open| {
                    open.last_mut().unwrap().word = word.to_string();
                }));
            }
        } else if !self.word.is_empty() && self.open.is_empty() {
            for word in ["true", "false"].iter().filter(|word| word.starts_with(&self.word)) {
                ways.push(with(&word[self.word.len()..], &|_| {}));
            }
        } else if !self.word.is_empty() {
            ways.push(with("", &one_more));
        } else if last == Some(b' ') {
            for part in self.next_parts(self.open.last()) {
                ways.push(with(&part, &one_more));
            }
        } else {
            ways.push(with("", &|_| {}));
        }
        // A known polynomial that begins as the one that is begun.
        let comparing = |open: &Open| COMPARISONS.contains(&open.word.as_str()) && open.parts == 0;
        if let Some(at) = self.open.iter().position(comparing) {
            let from = self.open[at].from;
            if from <= self.text.len() && from > 0 {
                for known in self.known.iter().filter(|known| known.starts_with(&self.text[from..])) {
                    let mut open = self.open[..=at].to_vec();
                    open[at].parts = 1;
                    ways.push((self.text[..from].to_string() + known, open));
                }
            }
        }
        for (text, open) in ways {
            self.close(text, open, &mut found);
        }
        found
    }

    /// Closes the brackets, each with as many parts as it needs.
    fn close(&self, text: String, mut open: Vec<Open>, found: &mut Vec<String>) {
        let Some(top) = open.last_mut() else {
            found.push(text + ")\n");
            return;
        };
        let needed = match top.word.as_str() {
            "-" | "not" => 1,
            _ => 2,
        };
        if top.parts < needed {
            let parts = self.next_parts(Some(top));
            // The second term of a sum is the lowest one.
            let parts = if top.word == "+" && top.parts == 1 { vec!["1".to_string()] } else { parts };
            top.parts += 1;
            for part in parts {
                self.close(format!("{text} {part}"), open.clone(), found);
            }
            return;
        }
        open.pop();
        if let Some(above) = open.last_mut() {
            above.parts += 1;
        }
        self.close(text + ")", open, found);
    }
}

/// Whether some bytes begin a script: a way to finish them is one.
fn begins_a_script(bytes: &[u8]) -> bool {
    let Ok(text) = std::str::from_utf8(bytes) else { return false };
    let small = |n: usize| head(n) + "(assert (< 1 0))\n";
    if (1..=16).any(|n| small(n).starts_with(text)) {
        return true;
    }
    begun(text).is_some_and(|begun| begun.finished().iter().any(|text| formula_of(text.as_bytes()).is_some()))
}

/// "at position p: the first p bytes begin some script, and if there is a byte at p, the first p+1 begin none"
fn assert_right(text: &[u8]) {
    let shown = String::from_utf8_lossy(text);
    match read_script(text) {
        Ok(formula) => assert_eq!(formula_of(text), Some(formula), "{shown}"),
        Err(position) => {
            assert!(position <= text.len());
            assert_eq!(formula_of(text), None, "{shown}");
            assert!(begins_a_script(&text[..position]), "{position} is too far: {shown}");
            if position < text.len() {
                assert!(!begins_a_script(&text[..position + 1]), "{position} is too near: {shown}");
            }
        }
    }
}

// ------------------------------------------------------------------------------- tests

#[test]
fn case_a() {
    let block = write(&cases()[0].formula);
    let text = "(set-logic QF_NIA)\n(declare-fun a () Int)\n(declare-fun b () Int)\n(assert (< (+ (* 2 a) (- 1)) 0))\n";
    assert_eq!(answer_lines(&block), text);
    assert_eq!(back_line(text.as_bytes()), "11 01 01 00 11 10 00 00 00 10 84 00 00 00 08 00 04\n");
    assert_eq!(back_line(&text.as_bytes()[..70]), "REFUSED 25 70\n");
}

/// "the reader's refusals, then 24 if the text is shorter than the finished script; no 1"
#[test]
fn refusal_24_comes_last() {
    let block = write(&cases()[0].formula);
    let length = answer_lines(&block).len();
    for room in [0, 1, length - 1] {
        assert_eq!(answer_script(&block, room), Err(24));
    }
    assert!(answer_script(&block, length).is_ok());
    assert_eq!(answer_script(&block[..20], 0), Err(4));
    assert_eq!(answer_lines(&[]), "REFUSED 2\n");
}

#[test]
fn traps_and_limits() {
    for marked in marked() {
        let shown = String::from_utf8_lossy(&marked.text);
        assert_eq!(read_script(&marked.text).err(), marked.stops, "{shown}");
        assert_right(&marked.text);
    }
}

/// "The longest script has 2,024,782 bytes."
#[test]
fn the_longest_script() {
    let mut lists: Vec<Vec<u8>> = (0..16)
        .map(|variable| {
            let mut exponents = vec![15; 16];
            exponents[variable] = 14;
            exponents
        })
        .collect();
    lists.push(vec![15; 16]);
    lists.sort();
    let terms = lists.into_iter().rev().take(16);
    let terms = terms.map(|exponents| Term { coefficient: -2_147_483_647, exponents }).collect();
    let atoms = (0..254).map(|_| Node::atom(0, SignSet::NOT_EQUAL)).collect();
    let formula = Formula { variables: 16, table: vec![Polynomial { terms }], tree: Node::And(atoms) };
    let text = script(&formula);
    assert_eq!(text.len(), 2_024_782);
    assert_eq!(read_script(text.as_bytes()), Ok(formula));
}

/// "the script of a plain block reads as that block", for the answers of all corpora in both editions; and "the simplifier's new
/// block is plain"
#[test]
fn scripts_of_answers_read_back() {
    let mut blocks: Vec<Vec<u8>> = vec![];
    blocks.extend(cases().iter().chain(&later_cases()).map(|case| write(&case.formula)));
    blocks.extend(edge::blocks_in(Edition::One).into_iter().map(|edge| edge.bytes));
    blocks.extend(edge::blocks_in(Edition::Two).into_iter().map(|edge| edge.bytes));
    blocks.extend(uses::blocks().into_iter().map(|known| known.bytes));
    blocks.extend(corpus::valid(31, 1000));
    blocks.extend(corpus::uses(31, 150));
    blocks.extend(corpus::trees(31, 24));
    blocks.extend(convert::all_in(Edition::Two, corpus::valid(32, 200)));
    let mut read_back = 0;
    for block in blocks {
        let Ok(answer) = answer(&block, block.len()) else {
            assert!(answer_lines(&block).starts_with("REFUSED "));
            continue;
        };
        assert!(is_plain(&answer.simplified));
        let text = answer_lines(&block);
        assert_eq!(read_script(text.as_bytes()).as_ref(), Ok(&answer.simplified));
        // The block itself, where it is plain.
        let is_plain = is_plain(&answer.original);
        assert_eq!(plain_lines(&block) == "NOT PLAIN\n", !is_plain);
        if is_plain {
            assert_eq!(read_script(plain_lines(&block).as_bytes()), Ok(answer.original));
        }
        read_back += 1;
    }
    assert!(read_back > 1400, "{read_back}");
}

/// Plain formulas that are no answers: constants, polynomials not in normal form.
#[test]
fn scripts_of_plain_formulas_read_back() {
    let mut random = Random::new(33);
    for index in 0..600 {
        let formula = plain_formula(&mut random, index % 8 == 0);
        assert!(is_plain(&formula));
        let text = script(&formula).into_bytes();
        assert_eq!(read_script(&text).as_ref(), Ok(&formula));
        assert_eq!(formula_of(&text).as_ref(), Some(&formula));
    }
}

/// Every way to not be plain.
#[test]
fn what_is_not_plain() {
    let x = Polynomial::of_variable(2, 0);
    let y = Polynomial::of_variable(2, 1);
    let is = |number, set| Node::atom(number, set);
    let less = SignSet::LESS;
    let plain = |table: &[&Polynomial], tree| {
        is_plain(&Formula { variables: 2, table: table.iter().map(|p| (*p).clone()).collect(), tree })
    };
    assert!(plain(&[&x], is(0, less)));
    assert!(plain(&[&x, &y], Node::And(vec![is(0, less), is(1, less), is(0, less)])));
    assert!(plain(&[], Node::And(vec![])) && plain(&[], Node::Or(vec![])));
    assert!(!plain(&[&x], Node::And(vec![])) && !plain(&[&x], Node::Or(vec![])));
    assert!(!plain(&[&x, &y], is(0, less)), "an unused one");
    assert!(!plain(&[&x, &x], Node::And(vec![is(0, less), is(1, less)])), "one twice");
    assert!(!plain(&[&x, &y], Node::And(vec![is(1, less), is(0, less)])), "another order");
    assert!(!plain(&[&x], is(0, SignSet::EMPTY)) && !plain(&[&x], is(0, SignSet::FULL)));
    assert!(!plain(&[&x], Node::And(vec![is(0, less)])) && !plain(&[&x], Node::Or(vec![is(0, less)])));
    assert!(!plain(&[&x], Node::And(vec![is(0, less), Node::Or(vec![])])));
    assert!(!plain(&[&x], Node::And(vec![is(0, less), Node::Or(vec![is(0, less)])])));
}

/// Every prefix of a script begins one, so the ways to finish are enough; it stops at its length. One more byte behind it stops
/// where that begins.
#[test]
fn prefixes_of_scripts() {
    let mut random = Random::new(34);
    let mut texts = vec![short_script()];
    texts.extend(cases().iter().map(|case| answer_lines(&write(&case.formula)).into_bytes()));
    texts.extend((0..30).map(|_| script(&plain_formula(&mut random, false)).into_bytes()));
    for text in texts {
        for cut in 0..text.len() {
            assert_eq!(read_script(&text[..cut]).err(), Some(cut));
            if cut % 7 == 0 || text.len() < 300 {
                assert!(begins_a_script(&text[..cut]), "{cut} of {}", String::from_utf8_lossy(&text));
            }
        }
        for byte in [0, b'\n', b' ', b'(', b')', b'a', 255] {
            let mut longer = text.clone();
            longer.push(byte);
            assert_eq!(read_script(&longer).err(), Some(text.len()));
        }
    }
}

/// Texts cut, changed and extended at each byte, with every byte that scripts are made of.
#[test]
fn texts_changed_at_each_byte() {
    let mut random = Random::new(35);
    for text in everywhere(&mut random, &short_script()) {
        assert_right(&text);
    }
    let text = short_script();
    for at in head(2).len()..text.len() {
        for &byte in b"() -+*<>=01259abcodntf\n" {
            let mut other = text.clone();
            other[at] = byte;
            assert_right(&other);
        }
    }
}

/// Random scripts that something happened to.
#[test]
fn texts_that_something_happened_to() {
    let mut random = Random::new(36);
    let (mut stopped, mut inside) = (0, 0);
    for index in 0..1500 {
        let text = changed(&mut random, index % 40 == 0);
        if text.len() > 6000 {
            continue;
        }
        assert_right(&text);
        if let Err(position) = read_script(&text) {
            stopped += 1;
            inside += usize::from(position < text.len());
        }
    }
    assert!(stopped > 800 && inside > 600, "{stopped} {inside}");
}
