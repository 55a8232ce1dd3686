//! Random accepted blocks for a search of the slowest: candidate k is made from the seed k alone.
//! Some are the corpus's formulas; most are at the limits, with up to 64 related polynomials and 255 nodes.

use crate::block::Formula;
use crate::corpus::{random_formula, random_table, some_set};
use crate::meaning::value;
use crate::polynomial::Polynomial;
use crate::random::Random;
use crate::signs::sign_of;
use crate::tree::Node;

/// The candidate that the search of the first 20,000 found to make the most deductions (bench/search).
pub const SLOWEST: u64 = 5585;

pub fn candidate(k: u64) -> Formula {
    let mut random = Random::new(k);
    if random.percent(20) {
        return random_formula(&mut random);
    }
    let variables = random.pick(&[2, 4, 8, 12, 16, 16]);
    let polynomials = random.pick(&[16, 32, 64, 64]);
    let mut grown = Grown {
        table: random_table(&mut random, variables, polynomials),
        point: (0..variables).map(|_| random.between(-3, 3)).collect(),
        steered: random.percent(80),
        deepest: random.pick(&[1, 1, 2, 3, 6]),
        random,
    };
    // One list of all polynomials, or a tree of many nodes.
    let nodes = if grown.deepest == 1 { grown.table.len() + 1 } else { 100 + grown.random.below(156) };
    let and = grown.random.percent(60);
    let tree = grown.node(and, 1, nodes);
    Formula { variables, table: grown.table, tree }
}

struct Grown {
    random: Random,
    table: Vec<Polynomial>,
    point: Vec<i128>,
    /// The atoms of ANDs hold at the point and those of ORs do not, so that something is left.
    steered: bool,
    deepest: usize,
}

impl Grown {
    fn node(&mut self, and: bool, nesting: usize, nodes: usize) -> Node<usize> {
        let mut left = nodes - 1;
        let mut parts = vec![];
        while left > 0 {
            if nesting < self.deepest && left > 3 && self.random.percent(30) {
                let share = 3 + self.random.below(left - 3);
                parts.push(self.node(!and, nesting + 1, share));
                left -= share;
            } else {
                // A list names each polynomial in turn.
                let number =
                    if self.deepest == 1 { nodes - 1 - left } else { self.random.below(self.table.len()) };
                parts.push(self.atom(and, number));
                left -= 1;
            }
        }
        if and {
            Node::And(parts)
        } else {
            Node::Or(parts)
        }
    }

    fn atom(&mut self, and: bool, number: usize) -> Node<usize> {
        let set = some_set(&mut self.random);
        match value(&self.table[number], &self.point) {
            Some(value) if self.steered && set.has(sign_of(value)) != and => {
                Node::atom(number, set.complement())
            }
            _ => Node::atom(number, set),
        }
    }
}
