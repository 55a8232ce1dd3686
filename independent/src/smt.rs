//! A formula as SMT-LIB 2, for solvers to simplify: whole-number constants x1 to xn, powers as products.
//! The command asked for is z3's `ctx-solver-simplify`.

use crate::block::Formula;
use crate::polynomial::{Polynomial, Term};
use crate::signs::SignSet;
use crate::tree::Node;

/// The script: declarations, one assertion, and the command.
pub fn script(formula: &Formula) -> String {
    let mut text =
        String::from("(set-option :pp.min_alias_size 1000000)\n(set-option :pp.max_depth 1000000)\n");
    for i in 1..=formula.variables {
        text += &format!("(declare-const x{i} Int)\n");
    }
    text + &format!("(assert {})\n(apply ctx-solver-simplify)\n", node(&formula.tree, &formula.table))
}

fn node(tree: &Node<usize>, table: &[Polynomial]) -> String {
    match tree {
        Node::Atom(atom) => comparison(&polynomial(&table[atom.poly]), atom.set),
        Node::And(parts) if parts.is_empty() => "true".to_string(),
        Node::Or(parts) if parts.is_empty() => "false".to_string(),
        Node::And(parts) => applied("and", parts.iter().map(|part| node(part, table)).collect()),
        Node::Or(parts) => applied("or", parts.iter().map(|part| node(part, table)).collect()),
    }
}

fn comparison(value: &str, set: SignSet) -> String {
    match set {
        SignSet::LESS => format!("(< {value} 0)"),
        SignSet::LESS_EQUAL => format!("(<= {value} 0)"),
        SignSet::EQUAL => format!("(= {value} 0)"),
        SignSet::GREATER => format!("(> {value} 0)"),
        SignSet::GREATER_EQUAL => format!("(>= {value} 0)"),
        SignSet::NOT_EQUAL => format!("(not (= {value} 0))"),
        SignSet::FULL => "true".to_string(),
        _ => "false".to_string(),
    }
}

fn polynomial(polynomial: &Polynomial) -> String {
    applied("+", polynomial.terms.iter().map(term).collect())
}

fn term(term: &Term) -> String {
    let magnitude = term.coefficient.abs();
    let mut factors =
        vec![if term.coefficient < 0 { format!("(- {magnitude})") } else { magnitude.to_string() }];
    for (i, &exponent) in term.exponents.iter().enumerate() {
        factors.extend((0..exponent).map(|_| format!("x{}", i + 1)));
    }
    applied("*", factors)
}

/// The operator over its parts; one part stands alone.
fn applied(operator: &str, mut parts: Vec<String>) -> String {
    if parts.len() == 1 {
        return parts.remove(0);
    }
    format!("({operator} {})", parts.join(" "))
}
