//! Deductions and lists of atoms as blocks: what the inner functions are run over, and the lines that they are held to.
//! A deduction is the AND of an atom of p, an atom of q with its set, and one atom for each variable; a list is an AND of atoms in normal form.

use crate::block::{read, write, Formula, LARGEST_MAGNITUDE};
use crate::deduce::deduce;
use crate::level::tidied;
use crate::polynomial::{Polynomial, Term};
use crate::random::Random;
use crate::rounds::run_rounds;
use crate::signs::SignSet;
use crate::tree::{Atom, Node};

/// Blocks of deductions: all eight sets, related polynomials so that fractions meet, coefficients at the limits.
pub fn deductions(seed: u64, count: usize) -> Vec<Vec<u8>> {
    let mut random = Random::new(seed);
    (0..count).map(|_| write(&deduction(&mut random))).collect()
}

fn deduction(random: &mut Random) -> Formula {
    let variables = 1 + random.below(4);
    let pool = monomials(random, variables);
    let q = some_polynomial(random, &pool);
    let p = if random.percent(60) { related(random, &pool, &q) } else { some_polynomial(random, &pool) };
    let mut table = vec![p, q];
    let mut parts = vec![Node::atom(0, SignSet::FULL), Node::atom(1, any_set(random))];
    for i in 0..variables {
        table.push(Polynomial::of_variable(variables, i));
        let set = if random.percent(4) { SignSet::EMPTY } else { some_set(random) };
        parts.push(Node::atom(2 + i, set));
    }
    Formula { variables, table, tree: Node::And(parts) }
}

/// Blocks of deductions for request #104: x may have any sign, so that one t is left, -a/b of x; z, with each of four sets, and the constant
/// vanish there or not, together or apart. Then the same at the limit of the magnitudes, where cross products differ by 1.
pub fn single_points() -> Vec<Vec<u8>> {
    let pairs = [(0, 0), (1, 1), (2, 1), (0, 1), (1, 0)];
    let large = LARGEST_MAGNITUDE;
    let near = [
        (large, large - 1),
        (large - 1, large - 2),
        (large - 1, large),
        (large, large),
        (1, large),
        (-large, large),
    ];
    let mut list = vec![];
    let mut at_point = |x: (i128, i128), z: (i128, i128), one: (i128, i128), of_z: SignSet| {
        let of = |coefficients: [i128; 3]| {
            let exponents = [vec![1, 0], vec![0, 1], vec![0, 0]];
            let terms = coefficients.into_iter().zip(exponents).filter(|&(coefficient, _)| coefficient != 0);
            Polynomial {
                terms: terms.map(|(coefficient, exponents)| Term { coefficient, exponents }).collect(),
            }
        };
        let (p, q) = (of([x.0, z.0, one.0]), of([x.1, z.1, one.1]));
        for set in
            [SignSet::GREATER, SignSet::EQUAL, SignSet::GREATER_EQUAL, SignSet::LESS, SignSet::LESS_EQUAL]
        {
            let table =
                vec![p.clone(), q.clone(), Polynomial::of_variable(2, 0), Polynomial::of_variable(2, 1)];
            let sets = [SignSet::FULL, set, SignSet::FULL, of_z];
            let parts = sets.into_iter().enumerate().map(|(number, set)| Node::atom(number, set)).collect();
            if !p.terms.is_empty() {
                list.push(write(&Formula { variables: 2, table, tree: Node::And(parts) }));
            }
        }
    };
    for x in [-1, 0, 1] {
        for z in pairs {
            for one in pairs {
                for of_z in [SignSet::GREATER, SignSet::LESS, SignSet::GREATER_EQUAL, SignSet::EQUAL] {
                    at_point((x, 1), z, one, of_z);
                }
            }
        }
    }
    for x in near {
        for z in near {
            at_point(x, z, near[0], SignSet::GREATER);
            at_point(x, z, near[3], SignSet::LESS);
        }
    }
    list
}

/// What q with its set says of p, as the set's number.
pub fn deduction_line(block: &[u8]) -> String {
    let Ok(formula) = read(block) else { return "REFUSED\n".to_string() };
    let sets = sets_of(&formula);
    let found = deduce(&formula.table[0], &formula.table[1], sets[1], &sets[2..]);
    format!("{}\n", found.to_bits())
}

/// Blocks of lists: the atoms in normal form, no two of one polynomial, none constant, none full or empty.
pub fn lists(seed: u64, count: usize) -> Vec<Vec<u8>> {
    let mut random = Random::new(seed);
    (0..count).map(|_| write(&list(&mut random))).collect()
}

fn list(random: &mut Random) -> Formula {
    let variables = 1 + random.below(6);
    let pool = monomials(random, variables);
    let mut atoms = vec![];
    for _ in 0..1 + random.below(8) {
        let poly = match random.below(4) {
            0 => Polynomial::of_variable(variables, random.below(variables)),
            1 => some_polynomial(random, &pool),
            _ => difference(random, variables),
        };
        atoms.push(Atom { poly, set: some_set(random), place: None });
    }
    let atoms = tidied(atoms).unwrap_or_default();
    let table: Vec<Polynomial> = atoms.iter().map(|atom| atom.poly.clone()).collect();
    let parts = atoms.iter().enumerate().map(|(number, atom)| Node::atom(number, atom.set)).collect();
    Formula { variables, table, tree: Node::And(parts) }
}

/// The rounds begun, then CONTRADICTION, or the board, the carried sets, and what the list says of each of its polynomials, as numbers of sets.
pub fn list_line(block: &[u8]) -> String {
    let Ok(formula) = read(block) else { return "REFUSED\n".to_string() };
    let sets = sets_of(&formula);
    let atoms: Vec<Atom<Polynomial>> =
        formula.table.iter().zip(&sets).map(|(poly, set)| Atom { poly: poly.clone(), set: *set, place: None }).collect();
    let after = run_rounds(formula.variables, &atoms);
    if after.contradiction {
        return format!("{} CONTRADICTION\n", after.rounds);
    }
    let board = numbers(after.board.iter());
    let carried = numbers(after.atoms.iter().map(|atom| &atom.set));
    let says: Vec<SignSet> = formula.table.iter().map(|poly| after.says_of(poly)).collect();
    format!("{} {board} {carried} {}\n", after.rounds, numbers(says.iter()))
}

fn numbers<'a>(sets: impl Iterator<Item = &'a SignSet>) -> String {
    sets.map(|set| set.to_bits().to_string()).collect()
}

/// The sets of the atoms of a root AND, in order.
pub fn sets_of(formula: &Formula) -> Vec<SignSet> {
    let Node::And(parts) = &formula.tree else { return vec![] };
    parts.iter().filter_map(|part| if let Node::Atom(atom) = part { Some(atom.set) } else { None }).collect()
}

// ------------------------------------------------------------------------------------- polynomials

/// A few monomials, falling, the constant often among them.
fn monomials(random: &mut Random, variables: usize) -> Vec<Vec<u8>> {
    let mut pool: Vec<Vec<u8>> = (0..2 + random.below(5))
        .map(|_| (0..variables).map(|_| if random.percent(55) { 0 } else { random.below(4) as u8 }).collect())
        .collect();
    if random.percent(70) {
        pool.push(vec![0; variables]);
    }
    pool.sort();
    pool.dedup();
    pool.reverse();
    pool
}

fn some_polynomial(random: &mut Random, pool: &[Vec<u8>]) -> Polynomial {
    let mut terms: Vec<Term> = vec![];
    for exponents in pool {
        if random.percent(65) {
            terms.push(Term { coefficient: coefficient(random), exponents: exponents.clone() });
        }
    }
    if terms.is_empty() {
        terms.push(Term { coefficient: coefficient(random), exponents: pool[0].clone() });
    }
    Polynomial { terms }
}

/// A multiple of q where that fits, but for one or two terms: its fractions are equal, or nearly so.
fn related(random: &mut Random, pool: &[Vec<u8>], q: &Polynomial) -> Polynomial {
    let factor = random.pick(&[-3, -2, -1, 1, 1, 2, 5]);
    let mut terms: Vec<Term> = vec![];
    for exponents in pool {
        let own = q.coefficient(exponents) * factor + random.pick(&[0, 0, 0, 0, 1, -1]);
        let fits = own != 0 && own.abs() <= LARGEST_MAGNITUDE;
        let value = if fits {
            own
        } else if random.percent(20) {
            coefficient(random)
        } else {
            0
        };
        if value != 0 {
            terms.push(Term { coefficient: value, exponents: exponents.clone() });
        }
    }
    if terms.is_empty() {
        return some_polynomial(random, pool);
    }
    Polynomial { terms }
}

/// x_i - x_j + c, or a multiple of it.
fn difference(random: &mut Random, variables: usize) -> Polynomial {
    let pool: Vec<Vec<u8>> = {
        let mut pool: Vec<Vec<u8>> = (0..2).map(|_| unit(variables, random.below(variables))).collect();
        pool.push(vec![0; variables]);
        pool.sort();
        pool.dedup();
        pool.reverse();
        pool
    };
    let mut terms: Vec<Term> = pool
        .iter()
        .map(|exponents| Term {
            coefficient: random.pick(&[1, -1, 1, -1, 2, -2, 3]),
            exponents: exponents.clone(),
        })
        .collect();
    if random.percent(40) && terms.len() > 1 {
        terms.pop();
    }
    Polynomial { terms }
}

fn unit(variables: usize, i: usize) -> Vec<u8> {
    (0..variables).map(|j| u8::from(i == j)).collect()
}

/// Small ones, and those at the limits.
fn coefficient(random: &mut Random) -> i128 {
    let large = LARGEST_MAGNITUDE;
    match random.below(10) {
        0 => random.pick(&[large, -large, large - 1, 1 - large, large / 2]),
        1 => random.pick(&[1, -1]),
        _ => random.pick(&[-4, -3, -2, -1, 1, 2, 3, 4, 6]),
    }
}

fn any_set(random: &mut Random) -> SignSet {
    SignSet::from_bits(random.below(8) as u64)
}

/// Neither empty nor, mostly, full.
fn some_set(random: &mut Random) -> SignSet {
    SignSet::from_bits(random.pick(&[1, 2, 3, 4, 5, 6, 1, 3, 4, 6, 7]))
}
