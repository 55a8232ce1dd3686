//! The corpora: valid blocks are read and written back, damaged ones meet each refusal, shapes are many.
//! And the answers of random formulas, at many points and in all their counts.

use std::collections::BTreeSet;

use independent::answer::{answer, Answer, Verdict};
use independent::block::{read, write, Formula};
use independent::check::{check, check_answers, check_formula, Summary};
use independent::corpus::{damaged, random_formula, valid};
use independent::edge;
use independent::random::Random;
use independent::signs::SignSet;
use independent::tree::Node;

#[test]
fn a_formula_reads_back() {
    let mut random = Random::new(41);
    for _ in 0..3_000 {
        let formula = random_formula(&mut random);
        assert_eq!(read(&write(&formula)), Ok(formula));
    }
}

#[test]
fn an_accepted_block_is_written_back() {
    let mut accepted = 0;
    let edges = edge::blocks().into_iter().map(|edge| edge.bytes);
    for block in valid(42, 2_000).into_iter().chain(damaged(43, 6_000)).chain(edges) {
        if let Ok(formula) = read(&block) {
            accepted += 1;
            assert_eq!(write(&formula), block);
        }
    }
    assert!(accepted > 3_000, "{accepted} accepted");
}

#[test]
fn no_two_blocks_hold_the_same() {
    let mut blocks: Vec<Vec<u8>> = valid(44, 600).into_iter().chain(damaged(45, 600)).collect();
    blocks.sort();
    blocks.dedup();
    let formulas: Vec<Formula> = blocks.iter().filter_map(|block| read(block).ok()).collect();
    for (at, formula) in formulas.iter().enumerate() {
        assert!(!formulas[..at].contains(formula));
    }
    assert!(formulas.len() > 500);
}

#[test]
fn damaged_blocks_meet_each_refusal() {
    let blocks = damaged(46, 6_000);
    for number in 2..=15 {
        let met = blocks.iter().filter(|block| read(block).err() == Some(number)).count();
        assert!(met >= 10, "refusal {number} is met {met} times");
    }
    let accepted = blocks.iter().filter(|block| read(block).is_ok()).count();
    assert!(accepted > 300, "{accepted} accepted");
}

#[test]
fn a_seed_gives_one_corpus() {
    assert_eq!(valid(5, 50), valid(5, 50));
    assert_ne!(valid(5, 50), valid(6, 50));
    assert_eq!(valid(5, 50)[..20], valid(5, 20));
    assert_eq!(damaged(5, 50), damaged(5, 50));
    assert_ne!(damaged(5, 50), damaged(6, 50));
}

#[test]
fn the_valid_corpus_has_many_shapes() {
    let mut seen: BTreeSet<String> = BTreeSet::new();
    for block in valid(47, 3_000) {
        let formula = read(&block).unwrap();
        seen.insert(format!("{} variables", formula.variables));
        seen.insert(format!("nesting {}", formula.tree.nesting()));
        note_sets(&formula.tree, &mut seen);
        let mut used = BTreeSet::new();
        formula.tree.map(&mut |&number| used.insert(number));
        if used.len() < formula.table.len() {
            seen.insert("unused entries".to_string());
        }
        if used.iter().any(|&number| formula.table[number].is_constant()) {
            seen.insert("constants".to_string());
        }
        for (at, one) in formula.table.iter().enumerate() {
            for other in &formula.table[..at] {
                if one == other {
                    seen.insert("equal polynomials".to_string());
                } else if one.normal_form().0 == other.normal_form().0 {
                    seen.insert("one form scaled".to_string());
                }
            }
            seen.insert(format!("{} terms", one.terms.len()));
            if one.terms.iter().any(|term| term.coefficient.abs() == 2_147_483_647) {
                seen.insert("largest magnitude".to_string());
            }
            if one.terms.iter().any(|term| term.exponents.contains(&15)) {
                seen.insert("exponent 15".to_string());
            }
        }
    }
    let mut wanted: Vec<String> = ["unused entries", "constants", "equal polynomials", "one form scaled"]
        .into_iter()
        .chain(["largest magnitude", "exponent 15"])
        .map(str::to_string)
        .collect();
    wanted.extend((1..=16).map(|n| format!("{n} variables")));
    wanted.extend((0..=6).map(|k| format!("nesting {k}")));
    wanted.extend((1..=16).map(|k| format!("{k} terms")));
    wanted.extend(SignSet::all().iter().map(|set| format!("set {}", set.to_bits())));
    for what in wanted {
        assert!(seen.contains(&what), "no formula with {what}");
    }
}

fn note_sets(node: &Node<usize>, seen: &mut BTreeSet<String>) {
    match node {
        Node::Atom(atom) => {
            seen.insert(format!("set {}", atom.set.to_bits()));
        }
        Node::And(parts) | Node::Or(parts) => parts.iter().for_each(|part| note_sets(part, seen)),
    }
}

/// The answer holds where the original holds, is never longer, reads back and is what a level gives; the
/// rounds end in time.
#[test]
fn answers_hold_where_the_originals_hold() {
    let summary = check(48, 20_000);
    assert!(summary.wrong.is_empty(), "{:#?}", summary.wrong);
    assert!(summary.points > 70 * summary.formulas, "{}", summary.line());
    assert!(summary.fractions > 20 * summary.formulas, "{}", summary.line());
    assert!(summary.held > summary.points / 4, "{}", summary.line());
    assert!(summary.held < summary.points * 3 / 4, "{}", summary.line());
    assert!(summary.formula > summary.formulas / 2, "{}", summary.line());
    assert!(summary.shorter > summary.formulas / 4, "{}", summary.line());
    assert!(summary.always > summary.formulas / 20, "{}", summary.line());
    assert!(summary.unsatisfiable > summary.formulas / 20, "{}", summary.line());
    assert!(summary.most_rounds >= 5, "{}", summary.line());
}

/// The same for what is accepted among the edge blocks and the damaged ones.
#[test]
fn answers_to_edge_and_damaged_blocks_hold_too() {
    let mut random = Random::new(50);
    let mut summary = Summary::default();
    let edges = edge::blocks().into_iter().map(|edge| edge.bytes);
    for block in edges.chain(damaged(50, 4_000)) {
        if let Ok(formula) = read(&block) {
            check_formula(&formula, |block| answer(block, block.len()), &mut random, &mut summary);
        }
    }
    assert!(summary.wrong.is_empty(), "{:#?}", summary.wrong);
    assert!(summary.formulas > 1_000, "{}", summary.line());
}

fn own_answer(block: &[u8]) -> Answer {
    answer(block, block.len()).unwrap()
}

/// The check itself can fail: each of these wrong answers is found.
#[test]
fn wrong_answers_are_found() {
    let always = check_answers(49, 200, |block| {
        let mut answer = own_answer(block);
        answer.verdict = Verdict::Always;
        answer.simplified.table = vec![];
        answer.simplified.tree = Node::And(vec![]);
        answer.bytes = write(&answer.simplified);
        Ok(answer)
    });
    assert!(always.wrong.len() > 100, "{}", always.line());
    assert!(always.wrong.iter().all(|what| what.contains("differs at")));

    let copied = check_answers(49, 200, |block| {
        let mut answer = own_answer(block);
        answer.simplified = answer.original.clone();
        answer.bytes = block.to_vec();
        Ok(answer)
    });
    assert!(copied.wrong.len() > 100, "{}", copied.line());

    let part_lost = check_answers(49, 400, |block| {
        let mut answer = own_answer(block);
        if let Node::And(parts) | Node::Or(parts) = &mut answer.simplified.tree {
            parts.pop();
        }
        Ok(answer)
    });
    assert!(part_lost.wrong.iter().filter(|what| what.contains("differs at")).count() > 50);

    let zero_lost = check_answers(49, 400, |block| {
        let mut answer = own_answer(block);
        if let Node::And(parts) | Node::Or(parts) = &mut answer.simplified.tree {
            if let Some(Node::Atom(atom)) = parts.first_mut() {
                let zero = SignSet::EQUAL;
                atom.set = if zero.is_inside(atom.set) {
                    atom.set.intersection(zero.complement())
                } else {
                    atom.set.union(zero)
                };
            }
        }
        Ok(answer)
    });
    assert!(zero_lost.wrong.iter().filter(|what| what.contains("differs at")).count() > 50);

    let refused = check_answers(49, 200, |_| Err(6));
    assert_eq!(refused.wrong.len(), 200);
}
