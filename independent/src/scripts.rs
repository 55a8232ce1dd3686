//! Texts that readers of scripts are run on (request #112): scripts of plain formulas, the traps, texts at each limit, and texts
//! that something happened to. A stream has each text after its length in 4 bytes, most significant first.

use crate::answer::simplify_formula;
use crate::block::{read, Formula};
use crate::cases::{cases, later_cases};
use crate::corpus;
use crate::polynomial::Polynomial;
use crate::random::Random;
use crate::script::{name, script, Position, MOST_NODES, MOST_POLYNOMIALS};
use crate::tree::Node;

/// The stream of some texts.
pub fn stream(texts: &[Vec<u8>]) -> Vec<u8> {
    let mut bytes = vec![];
    for text in texts {
        bytes.extend((text.len() as u32).to_be_bytes());
        bytes.extend(text);
    }
    bytes
}

/// The traps and limits, short scripts changed at each byte, random scripts as they are, and texts that something happened to.
pub fn corpus(seed: u64, count: usize) -> Vec<Vec<u8>> {
    let mut random = Random::new(seed);
    let mut texts: Vec<Vec<u8>> = marked().into_iter().map(|marked| marked.text).collect();
    let known: Vec<Formula> =
        cases().into_iter().chain(later_cases()).map(|case| simplify_formula(&case.formula).1).collect();
    texts.extend(known.iter().map(|formula| script(formula).into_bytes()));
    texts.extend(everywhere(&mut random, &short_script()));
    for _ in 0..count / 200 {
        let formula = &known[random.below(known.len())];
        texts.extend(everywhere(&mut random, script(formula).as_bytes()));
    }
    for index in 0..count {
        texts.push(script(&plain_formula(&mut random, index % 16 == 0)).into_bytes());
    }
    for index in 0..2 * count {
        texts.push(changed(&mut random, index % 32 == 0));
    }
    texts.retain(|text| text.len() < 60_000);
    texts
}

// ---------------------------------------------------------------------------------------- plain formulas

/// A random formula made plain; a whole tree of many nodes if it is to be large. Polynomials need not be in normal form.
pub fn plain_formula(random: &mut Random, large: bool) -> Formula {
    let block = match (large, random.below(3)) {
        (true, _) => corpus::trees(random.draw(), 1),
        (false, 0) => corpus::uses(random.draw(), 1),
        _ => corpus::valid(random.draw(), 1),
    };
    let formula = read(&block[0]).expect("an accepted block");
    if random.percent(10) {
        return simplify_formula(&formula).1;
    }
    made_plain(random, &formula)
}

/// The formula without what a plain one has not: its sets replaced, small ANDs and ORs taken together.
pub fn made_plain(random: &mut Random, formula: &Formula) -> Formula {
    let mut table: Vec<Polynomial> = vec![];
    let tree = match plain_node(random, formula, &formula.tree) {
        None if random.percent(50) => Node::always(),
        None => Node::never(),
        Some(tree) => tree.map(&mut |&number: &usize| {
            let polynomial = &formula.table[number];
            table.iter().position(|used| used == polynomial).unwrap_or_else(|| {
                table.push(polynomial.clone());
                table.len() - 1
            })
        }),
    };
    Formula { variables: formula.variables, table, tree }
}

fn plain_node(random: &mut Random, formula: &Formula, node: &Node<usize>) -> Option<Node<usize>> {
    let (parts, is_and) = match node {
        Node::Atom(atom) => {
            let says = !atom.set.is_empty() && !atom.set.is_full();
            return Some(Node::atom(atom.poly, if says { atom.set } else { corpus::some_set(random) }));
        }
        Node::And(parts) => (parts, true),
        Node::Or(parts) => (parts, false),
    };
    let mut left = vec![];
    for part in parts {
        match plain_node(random, formula, part) {
            None => {}
            Some(Node::And(own)) if is_and => left.extend(own),
            Some(Node::Or(own)) if !is_and => left.extend(own),
            Some(part) => left.push(part),
        }
    }
    match left.len() {
        0 => None,
        1 => left.pop(),
        _ if is_and => Some(Node::And(left)),
        _ => Some(Node::Or(left)),
    }
}

// ---------------------------------------------------------------------------------------- traps and limits

/// A text, and where it stops; none if it is a script.
pub struct Marked {
    pub text: Vec<u8>,
    pub stops: Option<Position>,
}

/// A text with a bar where it stops.
fn mark(text: &str) -> Marked {
    Marked { text: text.replace('|', "").into_bytes(), stops: text.find('|') }
}

fn head(variables: usize) -> String {
    let declarations: String =
        (0..variables).map(|variable| format!("(declare-fun {} () Int)\n", name(variable))).collect();
    format!("(set-logic QF_NIA)\n{declarations}")
}

fn root(variables: usize, root: &str) -> Marked {
    mark(&format!("{}(assert {root})\n", head(variables)))
}

/// An atom of this polynomial, which is the root.
fn of(variables: usize, polynomial: &str) -> Marked {
    root(variables, &format!("(< {polynomial} 0)"))
}

/// The traps of the request, each limit and one beyond, with a bar where the text stops.
pub fn marked() -> Vec<Marked> {
    let mut list = vec![
        of(2, "(+ (* 1 a b) (* 2 a| b))"),
        of(2, "(+ (* 1 b) (|* 2 b))"),
        of(2, "(+ (* 1 b) (|* 2 a))"),
        of(2, "(+ (* 1 a) (* 2 |a))"),
        of(2, "(+ (* 1 a) (* 2 b) 3)"),
        of(3, "(+ (* 1 b) (* 2 |b))"),
        of(3, "(+ (* 1 b) (* 2 |a))"),
        of(2, "(+ |1 2)"),
        of(2, "(+ (|- 1) 2)"),
        of(2, "(+ (* 1 a)|)"),
        of(2, "(+ (* 1 a) 1| (- 1))"),
        of(2, "(+ (* 1 a) (- 1)| (* 1 b))"),
        of(2, "(+ (|+ (* 1 a) 1) 1)"),
        of(2, "|0"),
        of(2, "|-1"),
        of(2, "(- |0)"),
        of(2, "1|b"),
        of(2, "|a"),
        of(2, "(* |0 a)"),
        of(2, "(* |a)"),
        of(2, "(* (|* 1 a) b)"),
        of(2, "(* 1|)"),
        of(2, "(* 1 |c)"),
        of(2, "(* 1 b |a)"),
        of(2, "(* 1 a b)"),
        of(2, "(* 1 a |0)"),
        of(2, "(* |a b)"),
        of(2, "2147483647"),
        of(2, "214748364|8"),
        of(2, "2147483647|0"),
        of(2, "(- 2147483647)"),
        of(2, "(- 214748364|8)"),
        of(2, "(* 214748364|8 a)"),
        of(2, "(* (- 214748364|8) a)"),
        of(2, "(* 999999999|9 a)"),
        root(1, "true"),
        root(1, "false"),
        root(1, "tru|th"),
        root(1, "|0"),
        root(1, "(and |true false)"),
        root(1, "(and (not |true) false)"),
        root(1, "(|)"),
        root(1, "(and|)"),
        root(1, "(and (< 1 0)|)"),
        root(1, "(or (< 1 0)|)"),
        root(1, "(and (< 1 0) (< 1 0))"),
        root(1, "(or (< 1 0) (|or (< 1 0) (< 1 0)))"),
        root(1, "(and (< 1 0) (|and (< 1 0) (< 1 0)))"),
        root(1, "(not (= 1 0))"),
        root(1, "(not (|< 1 0))"),
        mark(&format!("{}(assert (not (= 1 0))|\n", head(1))),
        root(1, "(=|> 1 0)"),
        root(1, "(=|= 1 0)"),
        root(1, "(<=|= 1 0)"),
        root(1, "(<|> 1 0)"),
        root(1, "(> 1 |1)"),
        root(1, "(> 1 0|0)"),
        mark(&format!("{}(assert (> 1 0)|\n", head(1))),
        mark(&format!("{}(assert true)\n|\n", head(1))),
        mark(&format!("{}(assert true)\n|(check-sat)\n", head(1))),
        mark(&format!("{}(assert true)|", head(1))),
        mark(&format!("{}(assert true)| \n", head(1))),
        mark("|"),
        mark("(set-logic QF_|LIA)\n"),
        mark("(set-logic QF_NIA)|\r\n"),
        mark("(set-logic QF_NIA)\n(|assert true)\n"),
        mark("(set-logic QF_NIA)\n(declare-fun |b () Int)\n"),
        mark("(set-logic QF_NIA)\n(declare-fun a () |Real)\n"),
        mark(&format!("{}(declare-fun |a () Int)\n", head(1))),
        mark(&format!("{}(|declare-fun q () Int)\n", head(16))),
        root(16, "(= (* 1 p) 0)"),
        root(15, "(= (* 1 |p) 0)"),
    ];
    list.extend(powers());
    list.extend(many_terms());
    list.extend(nestings());
    list.extend(many_nodes());
    list.extend(many_polynomials());
    list
}

fn powers() -> Vec<Marked> {
    let a = |times| " a".repeat(times);
    vec![
        of(1, &format!("(* 1{})", a(15))),
        of(1, &format!("(* 1{}| a)", a(15))),
        of(2, &format!("(* 1{} |a)", a(15))),
        of(2, &format!("(* 1{}{}| b)", a(15), " b".repeat(15))),
        of(2, &format!("(+ (* 1 a) (* 1{}) 1)", " b".repeat(15))),
        of(2, &format!("(+ (* 1 a) (* 1{}| b) 1)", " b".repeat(15))),
        of(2, &format!("(+ (* 1{} b) (* 1{}) 1)", a(15), a(15))),
        of(2, &format!("(+ (* 1{} b) (* 1{}| b) 1)", a(15), a(15))),
        of(2, "(+ (* 1 a a) (* 1 a b) (* 1 a| b b) 1)"),
        of(2, "(+ (* 1 a a b) (* 1 a a) (* 1 a b b) (* 1 a b) 1)"),
    ]
}

/// 16 terms and one more.
fn many_terms() -> Vec<Marked> {
    let falling = |from: usize, count: usize| -> String {
        (0..count).map(|k| format!(" (* {} {})", k + 1, vec!["a"; from - k].join(" "))).collect()
    };
    vec![
        of(1, &format!("(+{} 7)", falling(15, 15))),
        of(1, &format!("(+{} 7| 8)", falling(15, 15))),
        of(2, &format!("(+ (* 1{} b){})", " a".repeat(15), falling(15, 15))),
        of(2, &format!("(+ (* 1{} b){}| 7)", " a".repeat(15), falling(15, 15))),
        of(2, &format!("(+ (* 1{} b){}| (* 1 b))", " a".repeat(15), falling(15, 15))),
        of(2, &format!("(+ (* 1{} b){} (- 7))", " a".repeat(15), falling(15, 14))),
    ]
}

/// ANDs and ORs in turn, each over an atom and the next.
fn nestings() -> Vec<Marked> {
    let nested = |deepest: &str| {
        let mut text = deepest.to_string();
        for level in 0..6 {
            text = format!("({} (< 1 0) {text})", ["or", "and"][level % 2]);
        }
        text
    };
    vec![
        root(1, &nested("(> 1 0)")),
        root(1, &nested("(|and (< 1 0) (< 1 0))")),
        root(1, &nested("(|or (< 1 0) (< 1 0))")),
    ]
}

/// 255 nodes and one more: at a space, and at an AND or OR that would need two.
fn many_nodes() -> Vec<Marked> {
    let atoms = |count: usize| " (< 1 0)".repeat(count);
    let most = MOST_NODES;
    vec![
        root(1, &format!("(and{})", atoms(most - 1))),
        root(1, &format!("(and{}| (< 1 0))", atoms(most - 1))),
        // An OR where 254 nodes are there, and where 253 are.
        root(1, &format!("(and{} (|or (< 1 0) (< 1 0)))", atoms(most - 3))),
        root(1, &format!("(and{} (or (< 1 0) (< 1 0)))", atoms(most - 4))),
        root(1, &format!("(and{} (or (< 1 0) (< 1 0)| (< 1 0)))", atoms(most - 4))),
        root(1, &format!("(and{} (or (< 1 0) (< 1 0))| (< 1 0))", atoms(most - 4))),
        root(1, &format!("(or (and (< 1 0) (= 1 0)){})", atoms(most - 4))),
        root(1, &format!("(or (and (< 1 0) (= 1 0)){}| (< 1 0))", atoms(most - 4))),
        root(1, &format!("(and (or{}) (|or (< 1 0) (< 1 0)))", atoms(most - 4))),
        root(1, &format!("(and (or{}) (or (< 1 0) (< 1 0) (< 1 0)))", atoms(most - 6))),
        root(1, &format!("(and (or{}) (or (< 1 0) (< 1 0)| (< 1 0)))", atoms(most - 5))),
        // Two ORs with their second children not there yet.
        root(1, &format!("(and (or{}| (< 1 0)) (< 1 0))", atoms(most - 3))),
    ]
}

/// 64 polynomials: only a known one goes on, and where it does not is told by the longest agreement.
fn many_polynomials() -> Vec<Marked> {
    let numbers: String = (11..11 + MOST_POLYNOMIALS).map(|k| format!(" (< {k} 0)")).collect();
    let sums: String = (11..11 + MOST_POLYNOMIALS).map(|k| format!(" (< (+ (* {k} a b) {k}) 0)")).collect();
    let longer: String = [1, 12].into_iter().chain(200..200 + 62).map(|k| format!(" (< {k} 0)")).collect();
    let and = |atoms: &str, more: &str| root(2, &format!("(and{atoms} {more})"));
    vec![
        and(&numbers, "(> 74 0)"),
        and(&numbers, "(> 7|5 0)"),
        and(&numbers, "(> |8 0)"),
        and(&numbers, "(> 1|0 0)"),
        and(&numbers, "(> 12|1 0)"),
        and(&numbers, "(> 1| 0)"),
        and(&numbers, "(> |(- 11) 0)"),
        and(&numbers, "(> |(* 11 a) 0)"),
        and(&numbers, "(not (= 11 0))"),
        and(&numbers, "(not (= 11 |1))"),
        and(&numbers, "(>= 11 0|0)"),
        and(&numbers, "(or (> 11 0) (> |(* 11 a) 0))"),
        and(&sums, "(= (+ (* 70 a b) 70) 0)"),
        and(&sums, "(= (+ (* 70 a b) 7|1) 0)"),
        and(&sums, "(= (+ (* 70 a b)|) 0)"),
        and(&sums, "(= (+ (* 70 a |a) 1) 0)"),
        and(&sums, "(= (+ (* 7|5 a b) 75) 0)"),
        and(&sums, "(= (|* 70 a b) 0)"),
        and(&sums, "(= |70 0)"),
        and(&longer, "(= 1 0)"),
        and(&longer, "(= 12 0)"),
        and(&longer, "(= 12|3 0)"),
        and(&longer, "(= 1|3 0)"),
        and(&longer, "(= 20|  0)"),
        // One less: any polynomial goes on once.
        root(2, &format!("(and{} (< 74 0) (< 7|5 0))", &numbers[..numbers.len() - " (< 74 0)".len()])),
        root(
            2,
            &format!(
                "(and{} (< (+ (* 7 a) 5) 0) (< (+ (* 7 a) |6) 0))",
                &numbers[..numbers.len() - " (< 74 0)".len()]
            ),
        ),
    ]
}

// ---------------------------------------------------------------------------------------- what happens to a text

/// The bytes that scripts are made of, and some others.
const ALPHABET: &[u8] = b"()()  -+*<>=0123456789abcdopqntrfe\nA!\r\t\x00\xff";

fn some_byte(random: &mut Random) -> u8 {
    random.pick(ALPHABET)
}

/// A script of two variables with something of everything.
pub fn short_script() -> Vec<u8> {
    let parts = "(<= (+ (* 2 a) (* (- 31) b) 7) 0) (or (not (= (* 1 a b) 0)) (> (- 5) 0))";
    format!("{}(assert (and {parts}))\n", head(2)).into_bytes()
}

/// The text cut, changed and extended at each byte.
pub fn everywhere(random: &mut Random, text: &[u8]) -> Vec<Vec<u8>> {
    let mut texts = vec![];
    for at in 0..=text.len() {
        texts.push(text[..at].to_vec());
        let mut longer = text.to_vec();
        longer.insert(at, some_byte(random));
        texts.push(longer);
        if at < text.len() {
            let mut other = text.to_vec();
            other[at] = some_byte(random);
            texts.push(other);
        }
    }
    texts
}

/// The pieces of a text: brackets, spaces, ends of lines, and what stands between them.
fn pieces(text: &[u8]) -> Vec<Vec<u8>> {
    let mut list: Vec<Vec<u8>> = vec![];
    let mut inside = false;
    for &byte in text {
        let alone = b"() \n".contains(&byte);
        if alone || !inside {
            list.push(vec![]);
        }
        list.last_mut().expect("there is one").push(byte);
        inside = !alone;
    }
    list
}

/// A script that something happened to. (It may still be one.)
pub fn changed(random: &mut Random, large: bool) -> Vec<u8> {
    let formula = plain_formula(random, large);
    let mut text = script(&formula).into_bytes();
    // What is behind the declarations is met more often.
    let from = if random.percent(85) { head(formula.variables).len() } else { 0 };
    let at = from + random.below(text.len() - from);
    let mut list = pieces(&text);
    let first = if random.percent(85) { pieces(head(formula.variables).as_bytes()).len() } else { 0 };
    let piece = first + random.below(list.len() - first);
    match random.below(12) {
        0 => text[at] = some_byte(random),
        1 => text.truncate(at),
        2 => text.insert(at, some_byte(random)),
        3 => drop(text.remove(at)),
        4 => text.extend((0..1 + random.below(3)).map(|_| some_byte(random))),
        // A piece left out, doubled, or exchanged with another one.
        5 => drop(list.remove(piece)),
        6 => list.insert(piece, list[piece].clone()),
        7 => {
            let other = first + random.below(list.len() - first);
            list.swap(piece, other);
        }
        // Another number or another name in a piece's place.
        8 | 9 => {
            let like = |piece: &Vec<u8>| {
                piece[0].is_ascii_digit() || (piece.len() == 1 && piece[0].is_ascii_lowercase())
            };
            let at: Vec<usize> = (first..list.len()).filter(|&at| like(&list[at])).collect();
            if !at.is_empty() {
                let at = random.pick(&at);
                list[at] = if list[at][0].is_ascii_digit() {
                    random
                        .pick(&["1", "0", "2147483647", "2147483648", "21474836470", "07", "12"])
                        .as_bytes()
                        .to_vec()
                } else {
                    vec![b'a' + random.below(formula.variables + 1) as u8]
                };
            }
        }
        // A whole part again behind itself: an atom, a term, a factor.
        10 => {
            let opens: Vec<usize> = (first..list.len()).filter(|&at| list[at] == b"(").collect();
            if !opens.is_empty() {
                let from = random.pick(&opens);
                let to = closing(&list, from);
                let mut part = list[from..to].to_vec();
                part.insert(0, b" ".to_vec());
                for (offset, piece) in part.into_iter().enumerate() {
                    list.insert(to + offset, piece);
                }
            }
        }
        // The declarations of one script before the assertion of another.
        _ => {
            let other = plain_formula(random, false);
            let assertion = script(&other).into_bytes().split_off(head(other.variables).len());
            text.truncate(head(formula.variables).len());
            text.extend(assertion);
            return text;
        }
    }
    if list.concat() == script(&formula).as_bytes() {
        text
    } else {
        list.concat()
    }
}

/// Behind the bracket that closes the one at this piece.
fn closing(list: &[Vec<u8>], from: usize) -> usize {
    let mut open = 0;
    for (at, piece) in list.iter().enumerate().skip(from) {
        match &piece[..] {
            b"(" => open += 1,
            b")" => open -= 1,
            _ => {}
        }
        if open == 0 {
            return at + 1;
        }
    }
    list.len()
}
