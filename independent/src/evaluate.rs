//! Request #102: a block run on readings of 32 signed bits, "permit or deny". Arithmetic is exact here, in 128 bits, and each product and
//! running sum is looked at: does it fit 64?

use crate::answer::MOST_READ;
use crate::block::{read, write_in, Edition, Formula, Refusal};
use crate::convert::all_in;
use crate::corpus::{random_formula, stream, valid};
use crate::edge;
use crate::level::in_normal_form;
use crate::polynomial::{Polynomial, Term};
use crate::random::Random;
use crate::signs::{sign_of, SignSet};
use crate::tree::{Atom, Node};

/// The product or sum, if it "leaves" the 64 bits: refusal 17.
fn fitting(number: i128) -> Result<i128, Refusal> {
    if number < -(1 << 63) || number >= 1 << 63 {
        return Err(17);
    }
    Ok(number)
}

/// "Terms are taken in block order. A term starts from its coefficient and is multiplied by each reading,
/// variable by variable, as often as the exponent says."
fn value(polynomial: &Polynomial, readings: &[i32]) -> Result<i128, Refusal> {
    let mut sum = 0;
    for term in &polynomial.terms {
        let mut product = term.coefficient;
        for (variable, &reading) in readings.iter().enumerate() {
            for _ in 0..term.exponents[variable] {
                product = fitting(product * i128::from(reading))?;
            }
        }
        sum = fitting(sum + product)?;
    }
    Ok(sum)
}

/// "A node is evaluated by evaluating its children. All children are evaluated, also after the result is known."
fn holds(node: &Node<usize>, table: &[Polynomial], readings: &[i32]) -> Result<bool, Refusal> {
    let children = |parts: &[Node<usize>]| -> Result<Vec<bool>, Refusal> {
        let results: Vec<Result<bool, Refusal>> =
            parts.iter().map(|part| holds(part, table, readings)).collect();
        results.into_iter().collect()
    };
    match node {
        Node::Atom(atom) => Ok(atom.set.has(sign_of(value(&table[atom.poly], readings)?))),
        Node::And(parts) => Ok(children(parts)?.iter().all(|&held| held)),
        Node::Or(parts) => Ok(children(parts)?.iter().any(|&held| held)),
    }
}

/// "Refusals: the base's 2 to 15 keep their order, then 16 if the number of readings is not n, then 17 overflow." A line that
/// is not readings has no number of them.
pub fn evaluate(block: &[u8], readings: Option<&[i32]>) -> Result<bool, Refusal> {
    let formula = read(block)?;
    match readings {
        Some(readings) if readings.len() == formula.variables => {
            holds(&formula.tree, &formula.table, readings)
        }
        _ => Err(16),
    }
}

/// Whole numbers of 32 bits, apart by spaces: digits, with a minus before them or not.
pub fn readings_of(line: &str) -> Option<Vec<i32>> {
    let words = line.split([' ', '\t', '\r']).filter(|word| !word.is_empty());
    words.map(|word| if is_whole(word) { word.parse().ok() } else { None }).collect()
}

pub fn is_whole(word: &str) -> bool {
    let digits = word.strip_prefix('-').unwrap_or(word);
    !digits.is_empty() && digits.bytes().all(|byte| byte.is_ascii_digit())
}

pub fn line(outcome: Result<bool, Refusal>) -> String {
    match outcome {
        Ok(true) => "PERMIT\n".to_string(),
        Ok(false) => "DENY\n".to_string(),
        Err(refusal) => format!("REFUSED {refusal}\n"),
    }
}

/// A frame of the corpus: a line of readings, and a block behind it.
pub fn frame_line(frame: &[u8]) -> String {
    let end = frame.iter().position(|&byte| byte == b'\n').expect("a line");
    let readings = std::str::from_utf8(&frame[..end]).ok().and_then(readings_of);
    line(evaluate(&frame[end + 1..], readings.as_deref()))
}

// -------------------------------------------------------------------------------------- the corpus

fn frame(text: &str, block: &[u8]) -> Vec<u8> {
    let mut frame = text.as_bytes().to_vec();
    frame.push(b'\n');
    frame.extend(block);
    frame
}

fn joined(readings: &[i128]) -> String {
    readings.iter().map(i128::to_string).collect::<Vec<_>>().join(" ")
}

/// Blocks and readings: conditions of many shapes, products and sums about the edges of 64 bits, trees whose result is known before an
/// overflow, originals with their answers, blocks that are refused, and lines that are not n readings.
pub fn corpus(seed: u64, count: usize) -> Vec<Vec<u8>> {
    corpus_in(Edition::One, seed, count)
}

/// The same with blocks of this edition.
pub fn corpus_in(edition: Edition, seed: u64, count: usize) -> Vec<Vec<u8>> {
    let mut random = Random::new(seed);
    let edges = edge::blocks_in(edition);
    let mut frames = vec![];
    while frames.len() < count {
        match random.below(16) {
            0..=3 => {
                let formula = random_formula(&mut random);
                frames.push(frame(
                    &some_readings(&mut random, formula.variables),
                    &write_in(edition, &formula),
                ));
            }
            4..=7 => {
                let (formula, readings) = at_the_edge(&mut random);
                let block = write_in(edition, &formula);
                frames.push(frame(&joined(&readings), &block));
                let answer = crate::answer::answer(&block, block.len()).expect("an accepted block");
                frames.push(frame(&joined(&readings), &answer.bytes));
            }
            8..=10 => {
                let formula = random_formula(&mut random);
                let readings = some_readings(&mut random, formula.variables);
                let block = write_in(edition, &formula);
                let answer = crate::answer::answer(&block, block.len()).expect("an accepted block");
                frames.push(frame(&readings, &block));
                frames.push(frame(&readings, &answer.bytes));
            }
            11 => {
                let edge = &edges[random.below(edges.len())].bytes;
                let variables = read(edge).map_or(1 + random.below(16), |formula| formula.variables);
                let frame = frame(&some_readings(&mut random, variables), edge);
                // Of a frame no more than that is taken.
                if frame.len() <= MOST_READ {
                    frames.push(frame);
                }
            }
            12 => {
                let block = &crate::corpus::damaged_in(edition, random.draw(), 1)[0];
                let variables = read(block).map_or(random.below(3), |formula| formula.variables);
                frames.push(frame(&some_readings(&mut random, variables), block));
            }
            _ => {
                let block = &all_in(edition, valid(random.draw(), 1))[0];
                let variables = read(block).expect("a valid block").variables;
                frames.push(frame(&other_line(&mut random, variables), block));
            }
        }
    }
    frames.truncate(count);
    frames
}

pub fn corpus_stream(seed: u64, count: usize) -> Vec<u8> {
    stream(&corpus(seed, count))
}

const EDGES: [i128; 12] =
    [0, 1, -1, 2, -2, 2_147_483_647, -2_147_483_648, -2_147_483_647, 65_536, -65_536, 2_097_152, -2_097_152];

fn some_readings(random: &mut Random, variables: usize) -> String {
    let size = random.below(6);
    let readings: Vec<i128> = (0..variables)
        .map(|_| match size {
            0 => random.between(-1, 1),
            1 => random.between(-9, 9),
            2 => random.between(-300, 300),
            3 => random.pick(&EDGES),
            4 => random.between(-2_147_483_648, 2_147_483_647),
            _ => random.between(-40_000, 40_000),
        })
        .collect();
    joined(&readings)
}

/// A line that is not n whole numbers of 32 bits, or is, but not as one would write them first.
fn other_line(random: &mut Random, variables: usize) -> String {
    let numbers: Vec<String> = (0..variables).map(|_| random.between(-20, 20).to_string()).collect();
    let at = random.below(variables);
    let mut words = numbers.clone();
    match random.below(12) {
        0 => words.push("0".to_string()),
        1 => drop(words.pop()),
        2 => words.clear(),
        3 => words[at] = "2147483648".to_string(),
        4 => words[at] = "-2147483649".to_string(),
        5 => words[at] = "99999999999999999999999999".to_string(),
        6 => words[at] = "+1".to_string(),
        7 => words[at] = "1.5".to_string(),
        8 => words[at] = random.pick(&["-", "--1", "1-", "x", "0x1", "-2147483648-"]).to_string(),
        9 => words[at] = "-0".to_string(),
        10 => words[at] = format!("{}2147483647", "0".repeat(random.below(30))),
        _ => return format!("  {}\t\r", words.join("   ")),
    }
    words.join(" ")
}

/// A condition of few variables whose products and sums are about -2^63 and 2^63.
fn at_the_edge(random: &mut Random) -> (Formula, Vec<i128>) {
    let variables = 1 + random.below(3);
    let mut readings: Vec<i128> = (0..variables)
        .map(|_| {
            let power = 1 << random.between(0, 31);
            let reading = random.pick(&[power, power - 1, power + 1, -power, 1 - power]);
            reading.clamp(-2_147_483_648, 2_147_483_647)
        })
        .collect();
    if random.percent(30) {
        readings[random.below(variables)] = random.pick(&EDGES);
    }
    let table: Vec<Polynomial> = (0..1 + random.below(3)).map(|_| near(random, &readings)).collect();
    let atoms: Vec<Node<usize>> = (0..1 + random.below(4))
        .map(|_| Node::atom(random.below(table.len()), SignSet::from_bits(random.below(8) as u64)))
        .collect();
    let tree = match random.below(4) {
        0 => atoms[0].clone(),
        1 => Node::And(atoms),
        2 => Node::Or(atoms),
        _ => Node::And(vec![atoms[0].clone(), Node::Or(atoms)]),
    };
    (Formula { variables, table, tree }, readings)
}

/// A polynomial whose terms are each as large as the readings let them be, some with the coefficient that just fits or just does not.
fn near(random: &mut Random, readings: &[i128]) -> Polynomial {
    let mut terms: Vec<Term> = vec![];
    for _ in 0..1 + random.below(3) {
        let mut exponents = vec![0u8; readings.len()];
        let mut product: i128 = 1;
        for _ in 0..40 {
            let variable = random.below(readings.len());
            let larger = product * readings[variable];
            if exponents[variable] < 15 && larger.abs() <= 1 << 63 && random.percent(90) {
                exponents[variable] += 1;
                product = larger;
            }
        }
        let rest = if product == 0 { 1 } else { (1i128 << 63) / product.abs() };
        let near = [rest, rest - 1, rest + 1, rest / 2, 1, random.between(1, 100)];
        let size = random.pick(&near).clamp(1, 2_147_483_647);
        let coefficient = if random.percent(50) { -size } else { size };
        if !terms.iter().any(|term| term.exponents == exponents) {
            terms.push(Term { coefficient, exponents });
        }
    }
    terms.sort_by(|one, other| other.exponents.cmp(&one.exponents));
    Polynomial { terms }
}

/// Whether a polynomial of the tree is negated in its normal form: only then may the answer be refused where the original answers.
pub fn some_negated(formula: &Formula) -> bool {
    let mut negated = false;
    formula.tree.map(&mut |&number| {
        let atom = Atom { poly: formula.table[number].clone(), set: SignSet::EQUAL, place: None };
        negated |= in_normal_form(atom.clone()).poly != atom.poly && atom.poly.terms[0].coefficient < 0;
    });
    negated
}
