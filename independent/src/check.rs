//! The self-check: each random formula against its answer, at many points and in all its counts.
//! Used by the command `check` and by the tests.

use crate::answer::{answer, polynomials_in, Answer, Verdict};
use crate::block::{read, write, Formula, Refusal};
use crate::corpus::random_formula;
use crate::level::{in_normal_form, tidied};
use crate::meaning::{formula_holds, Choice};
use crate::random::Random;
use crate::rounds::run_rounds;
use crate::tree::Node;

#[derive(Default)]
pub struct Summary {
    pub formulas: usize,
    pub points: usize,
    pub fractions: usize,
    pub held: usize,
    pub formula: usize,
    pub always: usize,
    pub unsatisfiable: usize,
    pub shorter: usize,
    pub most_rounds: usize,
    pub wrong: Vec<String>,
}

impl Summary {
    pub fn line(&self) -> String {
        format!(
            "{} formulas at {} points ({} of them fractions), of which {} lifts: {} FORMULA ({} of them shorter), {} ALWAYS, \
             {} UNSATISFIABLE, at most {} rounds, {} wrong",
            self.formulas,
            self.points,
            self.fractions,
            self.held,
            self.formula,
            self.shorter,
            self.always,
            self.unsatisfiable,
            self.most_rounds,
            self.wrong.len()
        )
    }
}

/// Checks the answers of this reading.
pub fn check(seed: u64, count: usize) -> Summary {
    check_answers(seed, count, |block| answer(block, block.len()))
}

/// Checks any answers. (The tests hand in wrong ones, which must be found.)
pub fn check_answers(seed: u64, count: usize, answers: fn(&[u8]) -> Result<Answer, Refusal>) -> Summary {
    let mut random = Random::new(seed);
    let mut summary = Summary::default();
    for index in 0..count {
        let formula = random_formula(&mut random);
        let before = summary.wrong.len();
        check_formula(&formula, answers, &mut random, &mut summary);
        for what in &mut summary.wrong[before..] {
            *what = format!("formula {index} of seed {seed}: {what}");
        }
    }
    summary
}

/// Checks one formula, with points drawn at random.
pub fn check_formula(
    formula: &Formula,
    answers: fn(&[u8]) -> Result<Answer, Refusal>,
    random: &mut Random,
    summary: &mut Summary,
) {
    summary.formulas += 1;
    let block = write(formula);
    if read(&block).as_ref() != Ok(formula) {
        summary.wrong.push("the block does not read back".to_string());
    }
    let answer = match answers(&block) {
        Ok(answer) => answer,
        Err(refusal) => {
            summary.wrong.push(format!("refused by {refusal}"));
            return;
        }
    };
    match answer.verdict {
        Verdict::Formula => summary.formula += 1,
        Verdict::Always => summary.always += 1,
        Verdict::Unsatisfiable => summary.unsatisfiable += 1,
    }
    if answer.verdict == Verdict::Formula && answer.bytes.len() < block.len() {
        summary.shorter += 1;
    }
    summary.wrong.extend(wrong_form(formula, &block, &answer));
    for number in 0..WHOLE_POINTS + FRACTIONS {
        let numerators = random_point(random, formula.variables, number);
        let denominator = if number < WHOLE_POINTS { 1 } else { random.pick(&[2, 3, 7, 10, 10, 100]) };
        let choice = Choice { numerators, denominator };
        let Some(original) = formula_holds(formula, &choice) else { continue };
        summary.points += 1;
        summary.fractions += usize::from(denominator > 1);
        summary.held += usize::from(original);
        if formula_holds(&answer.simplified, &choice) != Some(original) {
            summary.wrong.push(format!("the answer differs at {:?} over {denominator}", choice.numerators));
            break;
        }
    }
    check_rounds(formula, summary);
}

/// What is wrong with the answer apart from its meaning.
fn wrong_form(formula: &Formula, block: &[u8], answer: &Answer) -> Vec<String> {
    let mut wrong = vec![];
    let simplified = &answer.simplified;
    let mut must = |holds: bool, what: &str| {
        if !holds {
            wrong.push(what.to_string());
        }
    };
    must(simplified.tree.atoms() <= formula.tree.atoms(), "more atoms");
    must(simplified.table.len() <= polynomials_in(formula), "more polynomials");
    must(simplified.table.len() == polynomials_in(simplified), "polynomials out counted otherwise");
    must(simplified.tree.nodes() <= formula.tree.nodes(), "more nodes");
    must(answer.bytes.len() <= block.len(), "more bytes");
    must(simplified.variables == formula.variables, "another n");
    must(read(&answer.bytes).as_ref() == Ok(simplified), "the answer does not read back");
    must(simplified.tree.nesting() <= formula.tree.nesting().max(1), "deeper nesting");
    must(is_tidy(&simplified.tree, true), "an answer that no level gives");
    must(by_first_use(simplified), "the table is not the used forms by first use");
    must(
        simplified.table.iter().all(|p| p.normal_form() == (p.clone(), false)),
        "a polynomial not in normal form",
    );
    must(simplified.table.iter().all(|p| !p.is_constant()), "a constant polynomial");
    let as_read = match answer.verdict {
        Verdict::Always => simplified.tree.is_always(),
        Verdict::Unsatisfiable => simplified.tree.is_never(),
        Verdict::Formula => !simplified.tree.is_always() && !simplified.tree.is_never(),
    };
    must(as_read, "the verdict is not the block's");
    wrong
}

/// "Result: atoms, then ORs, in order. One part: that part. None: true." So inside an answer each AND and OR
/// has two parts at least, atoms first, and no atom says everything or nothing.
fn is_tidy(node: &Node<usize>, root: bool) -> bool {
    match node {
        Node::Atom(atom) => !atom.set.is_empty() && !atom.set.is_full(),
        Node::And(parts) | Node::Or(parts) => {
            let atoms = parts.iter().take_while(|part| matches!(part, Node::Atom(_))).count();
            let rest_has_no_atom = !parts[atoms..].iter().any(|part| matches!(part, Node::Atom(_)));
            (parts.len() >= 2 || root && parts.is_empty())
                && rest_has_no_atom
                && parts.iter().all(|part| is_tidy(part, false))
        }
    }
}

fn by_first_use(formula: &Formula) -> bool {
    let mut uses = 0;
    let mut rising = true;
    formula.tree.map(&mut |&number| {
        rising &= number <= uses;
        uses = uses.max(number + 1);
    });
    let mut distinct = true;
    for (at, one) in formula.table.iter().enumerate() {
        distinct &= !formula.table[..at].contains(one);
    }
    rising && distinct && uses == formula.table.len()
}

/// A run of the rounds over n variables and k non-variable atoms takes at most 2(n+k)+1 rounds: each that
/// changes something takes a sign out of a set, and no set loses its last one but in the last round.
fn check_rounds(formula: &Formula, summary: &mut Summary) {
    let tree = formula.tree.map(&mut |&number| formula.table[number].clone());
    let parts = match tree {
        Node::And(parts) => parts,
        other => match other.exchanged() {
            Node::And(parts) => parts,
            atom => vec![atom],
        },
    };
    let mut atoms = vec![];
    for part in parts {
        if let Node::Atom(atom) = part {
            atoms.push(in_normal_form(atom));
        }
    }
    if let Some(list) = tidied(atoms) {
        let after = run_rounds(formula.variables, &list);
        let others = list.iter().filter(|atom| atom.poly.variable().is_none()).count();
        summary.most_rounds = summary.most_rounds.max(after.rounds);
        if after.rounds > 2 * (formula.variables + others) + 1 {
            summary.wrong.push(format!("{} rounds", after.rounds));
        }
    }
}

const WHOLE_POINTS: usize = 60;
const FRACTIONS: usize = 36;

/// A point: zeros and ones first, so that no power is too large; then small, middle and large values, of
/// which `meaning` leaves out those that do not fit.
fn random_point(random: &mut Random, variables: usize, number: usize) -> Vec<i128> {
    let mut point = vec![];
    for _ in 0..variables {
        point.push(match number % 6 {
            0 => random.between(-1, 1),
            1 => random.pick(&[0, 0, 0, 1, -1, 2, -2]),
            2 | 3 => random.between(-3, 3),
            4 => random.between(-12, 12),
            _ => random.pick(&[0, 1, -1, 1_000_003, -1_000_003, 2_147_483_647, -2_147_483_648]),
        });
    }
    point
}
