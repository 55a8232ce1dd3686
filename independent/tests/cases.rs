//! Cases A to N of document 01 and the later ones of document 02: each formula's result, and case A's exact bytes and printed lines.
//! The blocks of the cases are read and answered as bytes.

use independent::answer::{answer, report, report_with_rounds, Verdict};
use independent::block::{read, write, Formula};
use independent::cases::{cases, later_cases};
use independent::level::in_normal_form;
use independent::polynomial::Polynomial;
use independent::rounds::run_rounds;
use independent::signs::SignSet;
use independent::tree::{Atom, Node};

/// "Input ... (case A) prints"
const CASE_A: [u8; 36] = [
    0x11, 0x02, 0x03, 0x00, 0x24, 0x1c, 0x00, 0x00, 0x00, 0x08, 0x80, 0x00, 0x00, 0x00, 0x08, 0x10, 0x00,
    0x00, 0x00, 0x08, 0x00, 0x80, 0x00, 0x00, 0x00, 0x84, 0x20, 0x00, 0x00, 0x00, 0x40, 0x10, 0x20, 0x02,
    0x03, 0x00,
];
const CASE_A_LINES: &str = "FORMULA 2 1 2 1\n11 01 01 00 11 10 00 00 00 10 84 00 00 00 08 00 04\n";

#[test]
fn case_a_has_its_bytes_and_prints_its_lines() {
    let case = &cases()[0];
    assert_eq!(write(&case.formula), CASE_A);
    assert_eq!(read(&CASE_A).as_ref(), Ok(&case.formula));
    assert_eq!(report(&CASE_A), CASE_A_LINES);
}

#[test]
fn each_case_gives_its_result() {
    for case in cases().into_iter().chain(later_cases()) {
        let block = write(&case.formula);
        assert_eq!(read(&block).as_ref(), Ok(&case.formula), "case {}", case.name);
        let answer = answer(&block, block.len()).unwrap();
        assert_eq!(answer.verdict, case.verdict, "case {}", case.name);
        assert_eq!(answer.simplified, case.result, "case {}", case.name);
        assert_eq!(answer.bytes, write(&case.result), "case {}", case.name);
    }
}

#[test]
fn the_list_is_whole() {
    let names: String = cases().iter().map(|case| case.name).collect();
    assert_eq!(names, "ABCDEFGHIJKMN");
    let with = |verdict| cases().iter().filter(|case| case.verdict == verdict).count();
    assert_eq!(with(Verdict::Formula), 10);
    assert_eq!(with(Verdict::Always), 1);
    assert_eq!(with(Verdict::Unsatisfiable), 2);
}

/// "What z says reaches x only after several rounds."
#[test]
fn case_n_takes_several_rounds() {
    let case = cases().into_iter().find(|case| case.name == 'N').unwrap();
    let Node::And(parts) = case.formula.tree else { panic!("case N is an AND") };
    let mut atoms = vec![];
    for part in &parts[..3] {
        let Node::Atom(atom) = part else { panic!("case N has atoms alone") };
        let poly = case.formula.table[atom.poly].clone();
        atoms.push(in_normal_form(Atom { poly, set: atom.set, place: None }));
    }
    let after = run_rounds(3, &atoms);
    assert!(!after.contradiction);
    assert!(after.rounds >= 4, "{} rounds", after.rounds);
    let signs: Vec<u64> = after.board.iter().map(|set| set.to_bits()).collect();
    assert_eq!(signs, [1, 1, 1], "x, y and z are positive");
}

/// Request #108: the largest number of rounds that one run took, for cases A to N in order. In H the fresh run of
/// step 5 over x-1 ≥ 0 alone takes 2.
#[test]
fn each_case_takes_its_rounds() {
    let taken: Vec<usize> = cases()
        .iter()
        .map(|case| {
            let block = write(&case.formula);
            answer(&block, block.len()).unwrap().rounds
        })
        .collect();
    assert_eq!(taken, [1, 1, 2, 1, 1, 1, 2, 2, 1, 1, 1, 2, 4]);
}

/// "one line more at the end", none on refusal.
#[test]
fn the_rounds_stand_on_a_line_of_their_own() {
    assert_eq!(report_with_rounds(&CASE_A), format!("{CASE_A_LINES}ROUNDS 1\n"));
    assert_eq!(report_with_rounds(&CASE_A[..4]), "REFUSED 2\n");
}

/// "0 exactly if there was no run": a root atom with the empty set, and x > 0 AND x < 0.
#[test]
fn without_a_run_there_are_no_rounds() {
    let of = |node| {
        let table = vec![Polynomial::of_variable(1, 0)];
        let block = write(&Formula { variables: 1, table, tree: node });
        answer(&block, block.len()).unwrap().rounds
    };
    let x = |bits| Node::Atom(Atom { poly: 0, set: SignSet::from_bits(bits), place: None });
    assert_eq!(of(x(0)), 0);
    assert_eq!(of(Node::And(vec![x(1), x(4)])), 0);
    assert_eq!(of(x(7)), 1, "a run over a list with no atoms has one round");
    assert_eq!(of(x(1)), 1);
}
