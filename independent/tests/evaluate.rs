//! Request #102: the evaluator at the edges of 64 bits, its refusals in order, and originals beside their answers.

use std::collections::BTreeMap;

use independent::answer::answer;
use independent::block::{read, write, Edition, Formula};
use independent::convert::convert;
use independent::evaluate::{corpus, corpus_in, evaluate, frame_line, readings_of, some_negated};
use independent::polynomial::{Polynomial, Term};
use independent::signs::SignSet;
use independent::tree::Node;

#[test]
fn lines_are_readings_or_not() {
    assert_eq!(readings_of("120 -35"), Some(vec![120, -35]));
    assert_eq!(readings_of(" 1\t2  -2147483648 \r"), Some(vec![1, 2, -2_147_483_648]));
    assert_eq!(readings_of(""), Some(vec![]));
    for other in ["2147483648", "-2147483649", "1.5", "+1", "-", "1 x", "--1", "99999999999999999999"] {
        assert_eq!(readings_of(other), None, "{other}");
    }
}

/// The corpus has permits, denials, each refusal from 2 on, and overflows at many.
#[test]
fn the_corpus_meets_each_outcome() {
    let mut met: BTreeMap<String, usize> = BTreeMap::new();
    for frame in corpus(3, 20_000) {
        *met.entry(frame_line(&frame)).or_default() += 1;
    }
    for number in 2..=17 {
        assert!(met.get(&format!("REFUSED {number}\n")).is_some_and(|&times| times > 5), "{number}: {met:?}");
    }
    assert!(met["PERMIT\n"] > 2_000 && met["DENY\n"] > 2_000 && met["REFUSED 17\n"] > 2_000, "{met:?}");
}

/// The readings say the same of a block in either edition.
#[test]
fn an_edition_changes_no_answer() {
    for frame in corpus(5, 6_000) {
        let (line, block) = frame.split_at(1 + frame.iter().position(|&byte| byte == b'\n').unwrap());
        if let Ok(second) = convert(Edition::Two, block, 65_535) {
            assert_eq!(frame_line(&frame), frame_line(&[line, &second].concat()));
        }
    }
    let mut met: BTreeMap<String, usize> = BTreeMap::new();
    for frame in corpus_in(Edition::Two, 3, 20_000) {
        *met.entry(frame_line(&frame)).or_default() += 1;
    }
    for number in (2..=17).chain(21..=23) {
        assert!(met.get(&format!("REFUSED {number}\n")).is_some_and(|&times| times > 5), "{number}: {met:?}");
    }
}

/// Where both answer they answer alike; where the original answers and the answer does not, a negated polynomial met the edge.
#[test]
fn originals_and_answers_answer_alike() {
    let (mut both, mut wider, mut narrower) = (0, 0, 0);
    for frame in corpus(4, 40_000) {
        let end = frame.iter().position(|&byte| byte == b'\n').unwrap();
        let (text, block) = (std::str::from_utf8(&frame[..end]).unwrap(), &frame[end + 1..]);
        let (Some(readings), Ok(formula)) = (readings_of(text), read(block)) else { continue };
        let short = answer(block, block.len()).unwrap().bytes;
        match (evaluate(block, Some(&readings)), evaluate(&short, Some(&readings))) {
            (Ok(one), Ok(other)) => {
                assert_eq!(one, other, "{text} {block:02x?}");
                both += 1;
            }
            (Ok(_), Err(refusal)) => {
                assert!(refusal == 17 && some_negated(&formula), "{text} {block:02x?}");
                narrower += 1;
            }
            (Err(17), Ok(_)) => wider += 1,
            _ => {}
        }
    }
    assert!(both > 10_000 && wider > 500 && narrower > 10, "{both} {wider} {narrower}");
}

/// "-x^3 < 0 at x = 2,097,152 permits, and the short x^3 > 0 is refused 17."
#[test]
fn the_example_of_the_edge() {
    let table = vec![Polynomial { terms: vec![Term { coefficient: -1, exponents: vec![3] }] }];
    let block = write(&Formula { variables: 1, table, tree: Node::atom(0, SignSet::LESS) });
    let short = answer(&block, block.len()).unwrap().bytes;
    assert_eq!(evaluate(&block, Some(&[2_097_152])), Ok(true));
    assert_eq!(evaluate(&short, Some(&[2_097_152])), Err(17));
    assert_eq!(evaluate(&short, Some(&[2_097_151])), Ok(true));
    assert_eq!(evaluate(&block, Some(&[1, 2])), Err(16));
    assert_eq!(evaluate(&block[..4], None), Err(2));
}
