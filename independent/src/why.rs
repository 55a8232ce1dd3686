//! Request #106: why is the clause gone? A reason for each atom of an AND of atoms, with the places that it rests on.
//! Every run of the rounds is made: nothing is known of a list that was not run. And the blocks that reasons are compared over.

use crate::answer::MOST_READ;
use crate::block::{read, write, write_in, Edition, Formula, Refusal};
use crate::cases::polynomial;
use crate::corpus::{chain, damaged_block, fitted, pinned, random_formula, random_table, some_set, times};
use crate::level::in_normal_form;
use crate::meaning::value;
use crate::polynomial::Polynomial;
use crate::random::Random;
use crate::rounds::run_rounds;
use crate::signs::{sign_of, Sign, SignSet};
use crate::tree::{Atom, Node};

type AtomList = Vec<Atom<Polynomial>>;

/// "A record says: kept with its (mirrored) set; kept and narrowed; merged, with the place; removed, with a set of places;
/// or that the whole is false, with a set of places, the same in every record." A removed atom's set is the carried one, full
/// for "one true, or full after merging". Places rise.
#[derive(Clone, Debug, PartialEq, Eq)]
pub enum Reason {
    Kept { set: SignSet },
    Narrowed { set: SignSet },
    Merged { place: usize },
    Removed { set: SignSet, by: Vec<usize> },
    False { by: Vec<usize> },
}

/// What is told of a block: its reasons, and for each atom whether its normal form is the negated one.
#[derive(Clone, Debug)]
pub struct Told {
    pub reasons: Vec<Reason>,
    pub mirrored: Vec<bool>,
}

/// "Refusals: 19 if the root is not an AND of atoms, after 15; 20 if the list has fewer records than atoms, after 19."
pub fn why(input: &[u8], records: usize) -> Result<Told, Refusal> {
    let formula = read(input)?;
    let atoms = atoms_of(&formula).ok_or(19)?;
    if records < atoms.len() {
        return Err(20);
    }
    let mirrored = atoms.iter().map(|atom| atom.poly.normal_form().1).collect();
    Ok(Told { reasons: reasons(formula.variables, atoms), mirrored })
}

/// "a block whose root is an AND of atoms only (a root atom is one)": its atoms in order, each with its place.
pub fn atoms_of(formula: &Formula) -> Option<AtomList> {
    let tree = formula.tree.map(&mut |&number| formula.table[number].clone()).numbered(&mut 0);
    let parts = match tree {
        Node::Atom(_) => vec![tree],
        Node::And(parts) => parts,
        Node::Or(_) => return None,
    };
    let only_atoms = parts.into_iter().map(|part| match part {
        Node::Atom(atom) => Some(atom),
        _ => None,
    });
    only_atoms.collect()
}

/// The place of an atom that is numbered.
fn place_of(atom: &Atom<Polynomial>) -> usize {
    atom.place.expect("the atoms are numbered")
}

fn places_of(list: &[Atom<Polynomial>]) -> Vec<usize> {
    list.iter().map(place_of).collect()
}

/// The constant's normal form is 1, which is positive.
fn is_true_constant(atom: &Atom<Polynomial>) -> bool {
    atom.poly.is_constant() && atom.set.has(Sign::Positive)
}

/// What merging makes of the atoms, nothing cut short.
pub struct Merged {
    /// "each non-constant normal polynomial once, at its first place, with the intersected set; a true constant is not in it;
    /// a false constant stands in it at its own place as an atom with the empty set; constants are never merged. Then full
    /// sets are taken out."
    pub list: AtomList,
    /// For each atom the place of the one that it is merged into.
    pub into: Vec<Option<usize>>,
}

pub fn merged(atoms: &[Atom<Polynomial>]) -> Merged {
    let mut list: AtomList = vec![];
    let mut into = vec![];
    for atom in atoms {
        let atom = in_normal_form(atom.clone());
        if atom.poly.is_constant() {
            into.push(None);
            if !is_true_constant(&atom) {
                list.push(Atom { set: SignSet::EMPTY, ..atom });
            }
            continue;
        }
        match list.iter_mut().find(|first| first.poly == atom.poly) {
            Some(first) => {
                first.set = first.set.intersection(atom.set);
                into.push(first.place);
            }
            None => {
                list.push(atom);
                into.push(None);
            }
        }
    }
    list.retain(|atom| !atom.set.is_full());
    Merged { list, into }
}

/// ""enough" being a contradiction or an atom with the empty set (a false constant counts as one)"
pub fn is_false(n: usize, list: &[Atom<Polynomial>]) -> bool {
    list.iter().any(|atom| atom.set.is_empty()) || run_rounds(n, list).contradiction
}

/// What the list, rounds run afresh, says of the atom's polynomial lies inside its set.
pub fn says_enough(n: usize, list: &[Atom<Polynomial>], atom: &Atom<Polynomial>) -> bool {
    run_rounds(n, list).says_of(&atom.poly).is_inside(atom.set)
}

/// "go through them in order, and leave out each without which the rest still says enough"
fn leave_out(list: &[Atom<Polynomial>], enough: impl Fn(&[Atom<Polynomial>]) -> bool) -> AtomList {
    let mut left = list.to_vec();
    for atom in list {
        let without: AtomList = left.iter().filter(|other| other.place != atom.place).cloned().collect();
        if enough(&without) {
            left = without;
        }
    }
    left
}

/// The reasons of atoms joined by AND on n variables, one for each in order.
pub fn reasons(n: usize, atoms: Vec<Atom<Polynomial>>) -> Vec<Reason> {
    let Merged { list, into } = merged(&atoms);
    // "For a false whole do the same from the merged list"
    if is_false(n, &list) {
        let by = places_of(&leave_out(&list, |rest| is_false(n, rest)));
        return atoms.iter().map(|_| Reason::False { by: by.clone() }).collect();
    }
    // "an atom merged into another is always told as merged; one true, or full after merging, is removed with the empty set
    // of places"
    let from_merging = |into: &Option<usize>| match *into {
        Some(place) => Reason::Merged { place },
        None => Reason::Removed { set: SignSet::FULL, by: vec![] },
    };
    let mut told: Vec<Reason> = into.iter().map(from_merging).collect();
    // Step 5, from the first to the last, over the atoms with their carried sets.
    let mut remaining = run_rounds(n, &list).atoms;
    for atom in remaining.clone() {
        let place = place_of(&atom);
        let others: AtomList = remaining.iter().filter(|other| other.place != atom.place).cloned().collect();
        told[place] = if says_enough(n, &others, &atom) {
            // "start from the atoms that remained then, with their carried sets"
            let by = places_of(&leave_out(&others, |rest| says_enough(n, rest, &atom)));
            remaining = others;
            Reason::Removed { set: atom.set, by }
        } else if atom.set == in_normal_form(atoms[place].clone()).set {
            Reason::Kept { set: atom.set }
        } else {
            Reason::Narrowed { set: atom.set }
        };
    }
    told
}

// ---------------------------------------------------------------------------------------- lines

/// "prints a head line (verdict word, atoms in, atoms kept; or REFUSED n) and a line for each atom"
pub fn lines(input: &[u8]) -> String {
    match why(&input[..input.len().min(MOST_READ)], 255) {
        Err(refusal) => format!("REFUSED {refusal}\n"),
        Ok(told) => {
            let kept = told.reasons.iter().filter(|reason| is_kept(reason)).count();
            let word = if told.reasons.iter().any(|reason| matches!(reason, Reason::False { .. })) {
                "UNSATISFIABLE"
            } else if kept == 0 {
                "ALWAYS"
            } else {
                "FORMULA"
            };
            let mut text = format!("{word} {} {kept}\n", told.reasons.len());
            for (place, (reason, &mirrored)) in told.reasons.iter().zip(&told.mirrored).enumerate() {
                text += &format!("{place} {}\n", line(reason, mirrored));
            }
            text
        }
    }
}

pub fn is_kept(reason: &Reason) -> bool {
    matches!(reason, Reason::Kept { .. } | Reason::Narrowed { .. })
}

/// "REMOVED without BY: its terms alone say so; without a set: a true constant, or all signs allowed."
fn line(reason: &Reason, mirrored: bool) -> String {
    let set_of = |set: SignSet| format!(" {}{}", symbol(set), if mirrored { " MIRRORED" } else { "" });
    match reason {
        Reason::Kept { set } => format!("KEPT{}", set_of(*set)),
        Reason::Narrowed { set } => format!("NARROWED{}", set_of(*set)),
        Reason::Merged { place } => format!("MERGED {place}"),
        Reason::Removed { set, by } if set.is_full() => format!("REMOVED{}", named(by)),
        Reason::Removed { set, by } => format!("REMOVED{}{}", set_of(*set), named(by)),
        Reason::False { by } => format!("FALSE{}", named(by)),
    }
}

/// "places rising"
fn named(places: &[usize]) -> String {
    if places.is_empty() {
        return String::new();
    }
    let places: String = places.iter().map(|place| format!(" {place}")).collect();
    format!(" BY{places}")
}

/// "sets as < = <= > != >="
fn symbol(set: SignSet) -> &'static str {
    match set {
        SignSet::LESS => "<",
        SignSet::EQUAL => "=",
        SignSet::LESS_EQUAL => "<=",
        SignSet::GREATER => ">",
        SignSet::NOT_EQUAL => "!=",
        SignSet::GREATER_EQUAL => ">=",
        _ => panic!("no kept or removed atom carries the empty set, and the full one is not told"),
    }
}

// ---------------------------------------------------------------------------------------- known results

/// Conditions on x and y whose reasons are known, with the lines behind the head.
pub struct Known {
    pub note: &'static str,
    pub bytes: Vec<u8>,
    pub lines: &'static str,
}

/// "Results that tell readings apart", worked out by hand under #104, and others beside them.
pub fn known() -> Vec<Known> {
    let of = |terms: &[(i128, [u8; 2])]| polynomial(terms);
    let x = of(&[(1, [1, 0])]);
    let y = of(&[(1, [0, 1])]);
    let minus_x = of(&[(-1, [1, 0])]);
    let x_squared = of(&[(1, [2, 0])]);
    let x_minus_1 = of(&[(1, [1, 0]), (-1, [0, 0])]);
    let x_plus_1 = of(&[(1, [1, 0]), (1, [0, 0])]);
    let one_minus_x = of(&[(-2, [1, 0]), (2, [0, 0])]);
    let one = of(&[(1, [0, 0])]);
    let minus_two = of(&[(-2, [0, 0])]);
    let x_minus_y = of(&[(1, [1, 0]), (-1, [0, 1])]);
    let x_minus_y_plus_1 = of(&[(1, [1, 0]), (-1, [0, 1]), (1, [0, 0])]);
    let (less, equal, greater) = (SignSet::LESS, SignSet::EQUAL, SignSet::GREATER);
    let (at_most, at_least, any) = (SignSet::LESS_EQUAL, SignSet::GREATER_EQUAL, SignSet::FULL);
    let and = |note, list: &[(&Polynomial, SignSet)], lines| {
        let table = list.iter().map(|(poly, _)| (*poly).clone()).collect();
        let parts = list.iter().enumerate().map(|(number, &(_, set))| Node::atom(number, set)).collect();
        Known { note, bytes: write(&Formula { variables: 2, table, tree: Node::And(parts) }), lines }
    };
    vec![
        and(
            "x>=0; -x>=0",
            &[(&x, at_least), (&minus_x, at_least)],
            "FORMULA 2 1\n0 NARROWED =\n1 MERGED 0\n",
        ),
        // x < 0 says of its square that it is above 0: the carried set of line 1 is >.
        and("x<0; x2>=0", &[(&x, less), (&x_squared, at_least)], "FORMULA 2 1\n0 KEPT <\n1 REMOVED > BY 0\n"),
        and(
            "x-1>=0; x<=0; x2<=0",
            &[(&x_minus_1, at_least), (&x, at_most), (&x_squared, at_most)],
            "UNSATISFIABLE 3 0\n0 FALSE BY 0 2\n1 FALSE BY 0 2\n2 FALSE BY 0 2\n",
        ),
        and("1<0; 1=0", &[(&one, less), (&one, equal)], "UNSATISFIABLE 2 0\n0 FALSE BY 1\n1 FALSE BY 1\n"),
        and(
            "1<0; x>0; x+1<0",
            &[(&one, less), (&x, greater), (&x_plus_1, less)],
            "UNSATISFIABLE 3 0\n0 FALSE BY 1 2\n1 FALSE BY 1 2\n2 FALSE BY 1 2\n",
        ),
        and(
            "y>0; y<0; x>0; x+1<0",
            &[(&y, greater), (&y, less), (&x, greater), (&x_plus_1, less)],
            "UNSATISFIABLE 4 0\n0 FALSE BY 2 3\n1 FALSE BY 2 3\n2 FALSE BY 2 3\n3 FALSE BY 2 3\n",
        ),
        and("x any; x any", &[(&x, any), (&x, any)], "ALWAYS 2 0\n0 REMOVED\n1 MERGED 0\n"),
        // "in x2>0; x+1<0; x<=0 line 0 goes on account of line 2, whose written set <= would not do; its carried set < does"
        and(
            "x2>0; x+1<0; x<=0",
            &[(&x_squared, greater), (&x_plus_1, less), (&x, at_most)],
            "FORMULA 3 1\n0 REMOVED > BY 2\n1 KEPT <\n2 REMOVED < BY 1\n",
        ),
        // #104's own: "x-y >= 0 AND x-y+1 > 0 now gives the first alone"
        and(
            "x-y>=0; x-y+1>0",
            &[(&x_minus_y, at_least), (&x_minus_y_plus_1, greater)],
            "FORMULA 2 1\n0 KEPT >=\n1 REMOVED > BY 0\n",
        ),
        // Case D: both of the first two are needed.
        and(
            "x>0; y>0; x+y>0",
            &[(&x, greater), (&y, greater), (&of(&[(1, [1, 0]), (1, [0, 1])]), greater)],
            "FORMULA 3 2\n0 KEPT >\n1 KEPT >\n2 REMOVED > BY 0 1\n",
        ),
        // Case F: the terms alone say so.
        and("x2+1>0", &[(&of(&[(1, [2, 0]), (1, [0, 0])]), greater)], "ALWAYS 1 0\n0 REMOVED >\n"),
        // A negated multiple: its set is told mirrored.
        and("2-2x<=0", &[(&one_minus_x, at_most)], "FORMULA 1 1\n0 KEPT >= MIRRORED\n"),
        and(
            "2-2x<=0; x any; x-1!=0; 1>0; -2<0",
            &[
                (&one_minus_x, at_most),
                (&x, any),
                (&x_minus_1, SignSet::NOT_EQUAL),
                (&one, greater),
                (&minus_two, less),
            ],
            "FORMULA 5 1\n0 NARROWED > MIRRORED\n1 REMOVED\n2 MERGED 0\n3 REMOVED\n4 REMOVED\n",
        ),
        // Merged into one that goes afterwards.
        and(
            "x>=0; x-1>=0; x!=0",
            &[(&x, at_least), (&x_minus_1, at_least), (&x, SignSet::NOT_EQUAL)],
            "FORMULA 3 1\n0 REMOVED > BY 1\n1 KEPT >=\n2 MERGED 0\n",
        ),
        // An atom with the empty set, and one emptied by merging: the last of them is enough.
        and(
            "x none; x-1>0; x-1<0",
            &[(&x, SignSet::EMPTY), (&x_minus_1, greater), (&x_minus_1, less)],
            "UNSATISFIABLE 3 0\n0 FALSE BY 1\n1 FALSE BY 1\n2 FALSE BY 1\n",
        ),
        and("nothing", &[], "ALWAYS 0 0\n"),
    ]
}

// ---------------------------------------------------------------------------------------- corpora

/// Blocks to explain, the known ones first; some are refused.
pub fn corpus(edition: Edition, seed: u64, count: usize) -> Vec<Vec<u8>> {
    let mut random = Random::new(seed);
    let known = known().into_iter().map(|known| known.bytes);
    let known = crate::convert::all_in(edition, known.collect());
    known.into_iter().chain((0..count).map(|_| block(edition, &mut random))).collect()
}

fn block(edition: Edition, random: &mut Random) -> Vec<u8> {
    let most = if random.percent(80) { 4 } else { 16 };
    let variables = 1 + random.below(most);
    let formula = match random.below(40) {
        0..=2 => return damaged_block(edition, random),
        // Any formula: most roots are no AND of atoms.
        3 => random_formula(random),
        // A root that is an atom.
        4 | 5 => {
            let table = random_table(random, variables, 2);
            Formula { variables, table, tree: Node::atom(random.below(2), any_set(random)) }
        }
        // What one end says takes several rounds to reach the other; and variables that are cut to zero.
        6..=11 => mixed(random, variables, chain),
        12..=15 => mixed(random, variables, pinned),
        16..=20 => close(random),
        21..=29 => joined(random, variables, 5, 8),
        30..=35 => joined(random, variables, 10, 14),
        36 | 37 => joined(random, 1 + variables % 3, 16, 26),
        38 => apart(random, variables),
        // As many atoms as a block can have.
        _ => joined(random, 1 + variables % 2, 6, 254),
    };
    write_in(edition, &formula)
}

/// An AND of at most so many atoms over at most so many polynomials, related to one another.
fn joined(random: &mut Random, variables: usize, polynomials: usize, atoms: usize) -> Formula {
    let size = 1 + random.below(polynomials);
    let mut table = random_table(random, variables, size);
    for polynomial in &mut table {
        if random.percent(20) {
            polynomial.terms.truncate(2);
        }
    }
    let point: Vec<i128> = (0..variables).map(|_| random.between(-3, 3)).collect();
    // A steered AND tends to hold at the point, so that something is left.
    let steered = random.percent(75);
    let mut parts = vec![];
    for _ in 0..1 + random.below(atoms) {
        let number = random.below(table.len());
        let set = if random.percent(3) { any_set(random) } else { some_set(random) };
        let holds = value(&table[number], &point).is_some_and(|value| set.has(sign_of(value)));
        parts.push((table[number].clone(), if steered && !holds { set.complement() } else { set }));
    }
    gathered(random, variables, parts)
}

/// Few atoms of small polynomials of x and y that have much to say of one another: a set that one gets from a second is what
/// a third goes by.
fn close(random: &mut Random) -> Formula {
    let (x, y) = (random.between(-1, 1), random.between(-1, 1));
    let mut parts = vec![];
    for _ in 0..2 + random.below(6) {
        let shift = random.between(-1, 1);
        let terms = match random.below(10) {
            0 => [(1, [1, 0]), (shift, [0, 0])],
            1 | 2 => [(1, [1, 0]), (0, [0, 0])],
            3 => [(1, [2, 0]), (shift, [0, 0])],
            4 => [(1, [0, 1]), (shift, [0, 0])],
            5 => [(1, [0, 1]), (0, [0, 0])],
            6 => [(1, [1, 1]), (shift, [0, 0])],
            7 => [(1, [1, 0]), (shift, [0, 1])],
            8 => [(1, [2, 0]), (shift, [0, 1])],
            _ => [(1, [1, 0]), (shift, [0, 2])],
        };
        let poly = polynomial(&terms.into_iter().filter(|term| term.0 != 0).collect::<Vec<_>>());
        let set = some_set(random);
        let holds = value(&poly, &[x, y]).is_some_and(|value| set.has(sign_of(value)));
        let steered = !holds && random.percent(85);
        parts.push((poly, if steered { set.complement() } else { set }));
    }
    gathered(random, 2, parts)
}

/// Up to 64 atoms of polynomials of their own, all of which hold at one point.
fn apart(random: &mut Random, variables: usize) -> Formula {
    let point: Vec<i128> = (0..variables).map(|_| random.between(-3, 3)).collect();
    let size = 20 + random.below(45);
    let mut parts = vec![];
    for poly in random_table(random, variables, size) {
        let set = some_set(random);
        let Some(value) = value(&poly, &point) else { continue };
        parts.push((poly, if set.has(sign_of(value)) { set } else { set.complement() }));
    }
    gathered(random, variables, parts)
}

/// A formula of one of the corpus's shapes with atoms more that are of another place's polynomial.
fn mixed(random: &mut Random, variables: usize, shape: fn(&mut Random, usize) -> Formula) -> Formula {
    let formula = shape(random, variables);
    let Some(atoms) = atoms_of(&formula) else { return formula };
    let mut parts: Vec<(Polynomial, SignSet)> = atoms.into_iter().map(|atom| (atom.poly, atom.set)).collect();
    for _ in 0..random.below(3) {
        let (poly, set) = parts[random.below(parts.len())].clone();
        let set = if random.percent(30) { some_set(random) } else { set };
        parts.insert(random.below(parts.len() + 1), (poly, set));
    }
    gathered(random, variables, parts)
}

/// The atoms as a block: some polynomials as multiples or negated ones of their own in the table, constants, full and empty
/// sets among them.
fn gathered(random: &mut Random, variables: usize, parts: Vec<(Polynomial, SignSet)>) -> Formula {
    let mut table: Vec<Polynomial> = vec![];
    let mut atoms = vec![];
    for (poly, set) in parts {
        let factor = if random.percent(25) { random.pick(&[-3, -2, -1, -1, 2]) } else { 1 };
        let multiple = fitted(&times(&poly, factor));
        let set = if factor < 0 { set.mirror() } else { set };
        let listed = table.iter().position(|other| *other == multiple);
        if listed.is_none() && table.len() == 64 {
            continue;
        }
        let number = listed.unwrap_or(table.len());
        if listed.is_none() {
            table.push(multiple);
        }
        atoms.push(Node::atom(number, set));
    }
    if random.percent(12) && table.len() < 64 {
        let mut constant = Polynomial::of_variable(variables, 0);
        constant.terms[0].exponents[0] = 0;
        constant.terms[0].coefficient = random.pick(&[1, 3, -1, -7]);
        table.push(constant);
        for _ in 0..1 + random.below(2) {
            let sign = SignSet::only(sign_of(table[table.len() - 1].terms[0].coefficient));
            let set = some_set(random);
            let set = if random.percent(75) { set.union(sign) } else { set };
            atoms.insert(random.below(atoms.len() + 1), Node::atom(table.len() - 1, set));
        }
    }
    if random.percent(12) && !table.is_empty() {
        let set = if random.percent(75) { SignSet::FULL } else { SignSet::EMPTY };
        atoms.insert(random.below(atoms.len() + 1), Node::atom(random.below(table.len()), set));
    }
    atoms.truncate(254);
    let tree = match random.below(40) {
        0 => Node::Or(atoms),
        1 if atoms.len() > 1 => Node::And(vec![Node::Or(atoms)]),
        _ => Node::And(atoms),
    };
    Formula { variables, table, tree }
}

fn any_set(random: &mut Random) -> SignSet {
    SignSet::from_bits(random.below(8) as u64)
}
