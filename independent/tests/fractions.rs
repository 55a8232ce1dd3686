//! Request #101: readings in tenths. A radius of 12.5 m is 125 over 10; an answer that is right at whole numbers alone is found.

use independent::answer::{answer, Verdict};
use independent::block::{write, Formula};
use independent::check::{check_formula, Summary};
use independent::meaning::{formula_holds, value_over, Choice};
use independent::polynomial::{Polynomial, Term};
use independent::random::Random;
use independent::signs::SignSet;
use independent::tree::Node;

fn polynomial(terms: &[(i128, &[u8])]) -> Polynomial {
    let terms = terms.iter();
    Polynomial { terms: terms.map(|&(coefficient, e)| Term { coefficient, exponents: e.to_vec() }).collect() }
}

/// 2 radius - 25, radius load - 45 and 2 radius + load^2 - 38 at 12.5 m and 3.6 t: 0, 0 and -0.04.
#[test]
fn the_value_is_multiplied_by_the_power_of_the_total_degree() {
    let at = |terms: &[(i128, &[u8])]| value_over(&polynomial(terms), &[125, 36], 10);
    assert_eq!(at(&[(2, &[1, 0]), (-25, &[0, 0])]), Some(0));
    assert_eq!(at(&[(1, &[1, 1]), (-45, &[0, 0])]), Some(0));
    assert_eq!(at(&[(2, &[1, 0]), (1, &[0, 2]), (-38, &[0, 0])]), Some(-4));
    assert_eq!(at(&[(7, &[0, 0])]), Some(7));
}

/// 2x - 1 = 0 holds at no whole number, and at 1 over 2.
#[test]
fn an_answer_for_whole_numbers_alone_is_found() {
    let table = vec![polynomial(&[(2, &[1]), (-1, &[0])])];
    let formula = Formula { variables: 1, table, tree: Node::atom(0, SignSet::EQUAL) };
    assert_eq!(formula_holds(&formula, &Choice { numerators: vec![1], denominator: 2 }), Some(true));
    let mut summary = Summary::default();
    check_formula(&formula, |block| answer(block, block.len()), &mut Random::new(1), &mut summary);
    assert!(summary.wrong.is_empty(), "{:?}", summary.wrong);
    let never = |block: &[u8]| {
        let mut answer = answer(block, block.len())?;
        answer.verdict = Verdict::Unsatisfiable;
        answer.simplified = Formula { variables: 1, table: vec![], tree: Node::Or(vec![]) };
        answer.bytes = write(&answer.simplified);
        Ok(answer)
    };
    let mut found = 0;
    for seed in 0..50 {
        let mut summary = Summary::default();
        check_formula(&formula, never, &mut Random::new(seed), &mut summary);
        found += summary.wrong.len();
        assert!(
            summary.wrong.iter().all(|what| what.contains("differs at [1] over 2")),
            "{:?}",
            summary.wrong
        );
    }
    assert!(found > 10, "{found} of 50");
}
