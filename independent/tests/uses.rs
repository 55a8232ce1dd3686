//! Document 02, #103: polynomials in, held to counts made by hand; and what the corpus of uses has in it.

use independent::answer::{answer, polynomials_in};
use independent::block::read;
use independent::check::{check_formula, Summary};
use independent::corpus;
use independent::random::Random;
use independent::uses;

#[test]
fn known_counts() {
    for known in uses::blocks() {
        let formula = read(&known.bytes).unwrap();
        assert_eq!(polynomials_in(&formula), known.polynomials_in, "{}", known.note);
    }
}

#[test]
fn the_line_has_the_count() {
    for known in uses::blocks() {
        let line = independent::answer::report(&known.bytes);
        let count = known.polynomials_in.to_string();
        assert_eq!(line.split_whitespace().nth(3), Some(count.as_str()), "{}", known.note);
    }
}

/// Answers to these blocks hold, and are never longer with the smaller count.
#[test]
fn answers_hold() {
    let mut random = Random::new(61);
    let mut summary = Summary::default();
    let known = uses::blocks().into_iter().map(|known| known.bytes);
    for block in known.chain(corpus::uses(61, 2_000)) {
        let formula = read(&block).unwrap();
        check_formula(&formula, |block| answer(block, block.len()), &mut random, &mut summary);
    }
    assert!(summary.wrong.is_empty(), "{:#?}", summary.wrong);
}

/// Most tables of the corpus are larger than what their trees use, by every way there is.
#[test]
fn the_corpus_has_all_of_it() {
    let (mut unused, mut shared, mut constant, mut none) = (0, 0, 0, 0);
    for block in corpus::uses(62, 1_000) {
        let formula = read(&block).unwrap();
        let mut named = vec![];
        formula.tree.map(&mut |&number| named.push(number));
        named.sort();
        named.dedup();
        let constants = named.iter().filter(|&&number| formula.table[number].is_constant()).count();
        unused += usize::from(named.len() < formula.table.len());
        shared += usize::from(polynomials_in(&formula) + constants < named.len());
        constant += usize::from(constants > 0);
        none += usize::from(polynomials_in(&formula) == 0);
    }
    assert!(unused > 800, "{unused}");
    assert!(shared > 400, "{shared}");
    assert!(constant > 300, "{constant}");
    assert!(none > 10, "{none}");
}
