//! The blocks that the cost is measured on: accepted, of the shape that their names say, and the same from run to run.
//! What is counted of a case is known; a script of SMT-LIB says the same as the block.

use independent::answer::answer;
use independent::block::{read, write};
use independent::cases::cases;
use independent::count::{work_of, Work};
use independent::{bench, smt};

#[test]
fn the_blocks_have_their_shapes() {
    for (name, atoms, nodes, nesting) in [
        ("chain", 64, 65, 1),
        ("linear", 64, 65, 1),
        ("mixed", 64, 65, 1),
        ("deep", 224, 255, 6),
        ("back", 190, 254, 2),
        ("zigzag", 190, 254, 2),
        ("scattered", 190, 254, 2),
        ("order-3-1-2", 190, 254, 2),
        ("removed", 244, 255, 6),
        ("worst", 234, 255, 6),
        ("list-8-4", 8, 9, 1),
        ("equalities", 64, 65, 1),
        ("sums", 64, 65, 1),
        ("linked", 64, 65, 1),
        ("again", 150, 194, 2),
        ("asked", 216, 255, 2),
        ("nested", 234, 255, 6),
        ("pinned", 234, 255, 6),
    ] {
        let block = bench::block(name).expect(name);
        let formula = read(&block).expect(name);
        assert_eq!(write(&formula), block, "{name}");
        assert_eq!((formula.tree.atoms(), formula.tree.nodes()), (atoms, nodes), "{name}");
        assert_eq!(formula.tree.nesting(), nesting, "{name}");
        assert_eq!(bench::block(name).as_ref(), Some(&block), "{name}");
    }
    assert!(read(&bench::block("slowest").expect("slowest")).is_ok());
    for none in ["list-65-4", "other", "order-", "order-3", "order-3-3", "order-3-16", "order-3-x"] {
        assert!(bench::block(none).is_none(), "{none}");
    }
    let order = "order-0-14-15-7-4-9-12-2-1-6-11-5-3-10-13-8";
    assert_eq!(bench::block(order), bench::block("scattered"));
}

/// Case A: one round changes nothing, 4 deductions of variables and 2 of atoms. In step 5 a round over 2x - 1 < 0 alone makes 2 deductions, and
/// what it says of the first atom 1; the first atom goes, and a last round over no atom makes none. The pair of atoms is tried for x and for y, with
/// 32 pairs of factors each; no other list has two atoms beside p.
#[test]
fn work_is_counted() {
    let block = write(&cases()[0].formula);
    let work = work_of(|| drop(answer(&block, block.len())));
    assert_eq!(work, Work { deductions: 9, rounds: 3, tries: 64 });
}

#[test]
fn a_script_says_the_same() {
    let text = smt::script(&cases()[0].formula);
    let assertion = "(assert (and (> (+ (* (- 1) x1) (* 1 x2 x2) 1) 0) (< (+ (* 2 x1) (- 1)) 0)))";
    assert!(text.lines().any(|line| line == assertion), "{text}");
}
