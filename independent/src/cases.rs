//! Cases A to N of document 01, "Conditions with known results": each formula and its result; and those of document 02.
//! "Variables x, y, z in that order"; n is as small as the case allows, as in the printed case A.

use crate::answer::Verdict;
use crate::block::Formula;
use crate::polynomial::{Polynomial, Term};
use crate::signs::SignSet;
use crate::tree::Node;

pub struct Case {
    pub name: char,
    pub formula: Formula,
    pub verdict: Verdict,
    pub result: Formula,
}

/// A polynomial from its terms, each a coefficient and its exponents, exponents falling.
pub fn polynomial<const N: usize>(terms: &[(i128, [u8; N])]) -> Polynomial {
    let terms = terms
        .iter()
        .map(|&(coefficient, exponents)| Term { coefficient, exponents: exponents.to_vec() })
        .collect();
    Polynomial { terms }
}

/// The blocks of the cases, as the printed case A has them: polynomials listed by first use.
pub fn cases() -> Vec<Case> {
    let less = SignSet::LESS;
    let less_equal = SignSet::LESS_EQUAL;
    let greater = SignSet::GREATER;
    let greater_equal = SignSet::GREATER_EQUAL;
    let is = |number, set| Node::atom(number, set);
    let formula = |n, table: &[&Polynomial], tree| Formula {
        variables: n,
        table: table.iter().map(|&p| p.clone()).collect(),
        tree,
    };
    let case = |name, formula, result| Case { name, formula, verdict: Verdict::Formula, result };
    let always = |name, formula: Formula| {
        let result = Formula { variables: formula.variables, table: vec![], tree: Node::And(vec![]) };
        Case { name, formula, verdict: Verdict::Always, result }
    };
    let unsatisfiable = |name, formula: Formula| {
        let result = Formula { variables: formula.variables, table: vec![], tree: Node::Or(vec![]) };
        Case { name, formula, verdict: Verdict::Unsatisfiable, result }
    };

    // Over x alone.
    let x = polynomial(&[(1, [1])]);
    let minus_x = polynomial(&[(-1, [1])]);
    let x_plus_1 = polynomial(&[(1, [1]), (1, [0])]);
    let x_minus_1 = polynomial(&[(1, [1]), (-1, [0])]);
    let two_x_minus_1 = polynomial(&[(2, [1]), (-1, [0])]);
    let six_x_minus_3 = polynomial(&[(6, [1]), (-3, [0])]);
    let x2_plus_1 = polynomial(&[(1, [2]), (1, [0])]);
    // Over x and y.
    let x_of_2 = polynomial(&[(1, [1, 0])]);
    let y_of_2 = polynomial(&[(1, [0, 1])]);
    let x_plus_y = polynomial(&[(1, [1, 0]), (1, [0, 1])]);
    let y2_minus_x_plus_1 = polynomial(&[(-1, [1, 0]), (1, [0, 2]), (1, [0, 0])]);
    let two_x_minus_1_of_2 = polynomial(&[(2, [1, 0]), (-1, [0, 0])]);
    // Over x, y and z.
    let x_of_3 = polynomial(&[(1, [1, 0, 0])]);
    let y_of_3 = polynomial(&[(1, [0, 1, 0])]);
    let z_of_3 = polynomial(&[(1, [0, 0, 1])]);
    let y2_minus_x_plus_1_of_3 = polynomial(&[(-1, [1, 0, 0]), (1, [0, 2, 0]), (1, [0, 0, 0])]);
    let two_x_minus_1_of_3 = polynomial(&[(2, [1, 0, 0]), (-1, [0, 0, 0])]);
    let z_plus_1 = polynomial(&[(1, [0, 0, 1]), (1, [0, 0, 0])]);
    let z_minus_1 = polynomial(&[(1, [0, 0, 1]), (-1, [0, 0, 0])]);
    let x_minus_y = polynomial(&[(1, [1, 0, 0]), (-1, [0, 1, 0])]);
    let y_minus_z = polynomial(&[(1, [0, 1, 0]), (-1, [0, 0, 1])]);

    // "I: y > 0 AND (x ≥ 0 OR z > 0) is unchanged."
    let case_i = formula(
        3,
        &[&y_of_3, &x_of_3, &z_of_3],
        Node::And(vec![is(0, greater), Node::Or(vec![is(1, greater_equal), is(2, greater)])]),
    );

    vec![
        // "A: y²-x+1 > 0 AND 2x-1 < 0 gives 2x-1 < 0."
        case(
            'A',
            formula(
                2,
                &[&y2_minus_x_plus_1, &two_x_minus_1_of_2],
                Node::And(vec![is(0, greater), is(1, less)]),
            ),
            formula(2, &[&two_x_minus_1_of_2], is(0, less)),
        ),
        // "B: y²-x+1 ≤ 0 OR 2x-1 ≥ 0 gives 2x-1 ≥ 0."
        case(
            'B',
            formula(
                2,
                &[&y2_minus_x_plus_1, &two_x_minus_1_of_2],
                Node::Or(vec![is(0, less_equal), is(1, greater_equal)]),
            ),
            formula(2, &[&two_x_minus_1_of_2], is(0, greater_equal)),
        ),
        // "C: 2x-1 < 0 AND (y²-x+1 ≤ 0 OR z+1 > 0) gives 2x-1 < 0 AND z+1 > 0."
        case(
            'C',
            formula(
                3,
                &[&two_x_minus_1_of_3, &y2_minus_x_plus_1_of_3, &z_plus_1],
                Node::And(vec![is(0, less), Node::Or(vec![is(1, less_equal), is(2, greater)])]),
            ),
            formula(3, &[&two_x_minus_1_of_3, &z_plus_1], Node::And(vec![is(0, less), is(1, greater)])),
        ),
        // "D: x > 0 AND y > 0 AND x+y > 0 gives the first two."
        case(
            'D',
            formula(
                2,
                &[&x_of_2, &y_of_2, &x_plus_y],
                Node::And(vec![is(0, greater), is(1, greater), is(2, greater)]),
            ),
            formula(2, &[&x_of_2, &y_of_2], Node::And(vec![is(0, greater), is(1, greater)])),
        ),
        // "E: x²+1 ≤ 0: unsatisfiable. F: x²+1 > 0: always."
        unsatisfiable('E', formula(1, &[&x2_plus_1], is(0, less_equal))),
        always('F', formula(1, &[&x2_plus_1], is(0, greater))),
        // "G: 2x-1 > 0 AND x ≥ 0 gives 2x-1 > 0."
        case(
            'G',
            formula(1, &[&two_x_minus_1, &x], Node::And(vec![is(0, greater), is(1, greater_equal)])),
            formula(1, &[&two_x_minus_1], is(0, greater)),
        ),
        // "H: x-1 ≥ 0 AND x ≠ 0 gives x-1 ≥ 0."
        case(
            'H',
            formula(1, &[&x_minus_1, &x], Node::And(vec![is(0, greater_equal), is(1, SignSet::NOT_EQUAL)])),
            formula(1, &[&x_minus_1], is(0, greater_equal)),
        ),
        case('I', case_i.clone(), case_i),
        // "J: x ≥ 0 AND -x ≥ 0 gives x = 0."
        case(
            'J',
            formula(1, &[&x, &minus_x], Node::And(vec![is(0, greater_equal), is(1, greater_equal)])),
            formula(1, &[&x], is(0, SignSet::EQUAL)),
        ),
        // "K: x > 0 AND x+1 < 0: unsatisfiable."
        unsatisfiable('K', formula(1, &[&x, &x_plus_1], Node::And(vec![is(0, greater), is(1, less)]))),
        // "M: 6x-3 > 0 gives 2x-1 > 0."
        case(
            'M',
            formula(1, &[&six_x_minus_3], is(0, greater)),
            formula(1, &[&two_x_minus_1], is(0, greater)),
        ),
        // "N: x-y ≥ 0 AND y-z ≥ 0 AND z-1 > 0 AND x > 0 gives the first three. What z says reaches x only
        // after several rounds."
        case(
            'N',
            formula(
                3,
                &[&x_minus_y, &y_minus_z, &z_minus_1, &x_of_3],
                Node::And(vec![is(0, greater_equal), is(1, greater_equal), is(2, greater), is(3, greater)]),
            ),
            formula(
                3,
                &[&x_minus_y, &y_minus_z, &z_minus_1],
                Node::And(vec![is(0, greater_equal), is(1, greater_equal), is(2, greater)]),
            ),
        ),
    ]
}

/// Document 02's conditions with known results, the number of the request's line as name.
pub fn later_cases() -> Vec<Case> {
    let x_minus_y = polynomial(&[(1, [1, 0]), (-1, [0, 1])]);
    let x_minus_y_plus_1 = polynomial(&[(1, [1, 0]), (-1, [0, 1]), (1, [0, 0])]);
    let is = |number, set| Node::atom(number, set);
    let gives_the_first = |name, tree, set| Case {
        name,
        formula: Formula { variables: 2, table: vec![x_minus_y.clone(), x_minus_y_plus_1.clone()], tree },
        verdict: Verdict::Formula,
        result: Formula { variables: 2, table: vec![x_minus_y.clone()], tree: is(0, set) },
    };
    let (greater_equal, greater) = (SignSet::GREATER_EQUAL, SignSet::GREATER);
    let (less_equal, less) = (SignSet::LESS_EQUAL, SignSet::LESS);
    let of = |n, table: &[&Polynomial], tree| Formula {
        variables: n,
        table: table.iter().map(|&p| p.clone()).collect(),
        tree,
    };
    let x_plus_1 = polynomial(&[(1, [1, 0]), (1, [0, 0])]);
    let y_plus_1 = polynomial(&[(1, [0, 1]), (1, [0, 0])]);
    let x_plus_y_plus_2 = polynomial(&[(1, [1, 0]), (1, [0, 1]), (2, [0, 0])]);
    let three = [&x_plus_1, &y_plus_1, &x_plus_y_plus_2];
    let (x, x2) = (polynomial(&[(1, [1])]), polynomial(&[(1, [2])]));
    let three_x2_minus_2x = polynomial(&[(3, [2]), (-2, [1])]);
    let equal = SignSet::EQUAL;
    vec![
        // #104: "x-y ≥ 0 AND x-y+1 > 0 now gives the first alone." And so with OR and all sets complemented, and where x-y = 0 is given.
        gives_the_first('1', Node::And(vec![is(0, greater_equal), is(1, greater)]), greater_equal),
        gives_the_first('2', Node::Or(vec![is(0, less), is(1, less_equal)]), less),
        gives_the_first('3', Node::And(vec![is(0, SignSet::EQUAL), is(1, greater)]), SignSet::EQUAL),
        // #111: "From x+1 > 0 and y+1 > 0 it follows that x+y+2 > 0"; from weak sets it follows weakly; and none is at or below 0.
        Case {
            name: '4',
            formula: of(2, &three, Node::And(vec![is(0, greater), is(1, greater), is(2, greater)])),
            verdict: Verdict::Formula,
            result: of(2, &three[..2], Node::And(vec![is(0, greater), is(1, greater)])),
        },
        Case {
            name: '5',
            formula: of(2, &three, Node::And(vec![is(0, greater_equal), is(1, greater_equal), is(2, SignSet::NOT_EQUAL)])),
            verdict: Verdict::Formula,
            result: of(2, &three, Node::And(vec![is(0, greater_equal), is(1, greater_equal), is(2, greater)])),
        },
        Case {
            name: '6',
            formula: of(2, &three, Node::And(vec![is(0, greater), is(1, greater), is(2, less)])),
            verdict: Verdict::Unsatisfiable,
            result: of(2, &[], Node::Or(vec![])),
        },
        // An answer can have more atoms than without #111: x² ≤ 0 and 3x²-2x ≤ 0, both cut to =, say x = 0 together.
        Case {
            name: '7',
            formula: of(1, &[&x, &x2, &three_x2_minus_2x], Node::And(vec![is(0, equal), is(1, less_equal), is(2, less_equal)])),
            verdict: Verdict::Formula,
            result: of(1, &[&x2, &three_x2_minus_2x], Node::And(vec![is(0, equal), is(1, equal)])),
        },
    ]
}
