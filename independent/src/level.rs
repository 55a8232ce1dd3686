//! One level of the tree: the six steps of the AND rule, and the OR rule over it (document 01, "A level").
//! The AND rule and the OR rule call one another, each time one nesting lower.

use crate::polynomial::Polynomial;
use crate::rounds::{run_rounds, AfterRounds};
use crate::signs::Sign;
use crate::tree::{all_exchanged, Atom, Node};

type Part = Node<Polynomial>;
type AtomList = Vec<Atom<Polynomial>>;
/// OR children, each as the list of its parts.
type OrChildren = Vec<Vec<Part>>;

/// A step that finds the node to be false ends the level.
struct NodeIsFalse;

/// The root. "A root atom is an AND of one."
pub fn simplify(n: usize, root: Part) -> Part {
    match root {
        Node::Atom(_) => and_rule(n, vec![root]),
        Node::And(parts) => and_rule(n, parts),
        Node::Or(parts) => or_rule(n, parts),
    }
}

/// "OR: complement all sets and exchange AND and OR below, apply the AND rule, complement and exchange
/// back."
pub fn or_rule(n: usize, parts: Vec<Part>) -> Part {
    and_rule(n, all_exchanged(parts)).exchanged()
}

/// The AND rule.
pub fn and_rule(n: usize, parts: Vec<Part>) -> Part {
    match steps(n, parts) {
        Ok(result) => result,
        Err(NodeIsFalse) => Node::never(),
    }
}

fn steps(n: usize, parts: Vec<Part>) -> Result<Part, NodeIsFalse> {
    let (mut atoms, mut ors) = step_1(n, parts)?;
    loop {
        atoms = step_2(atoms)?;
        let list = step_3(n, &atoms)?;
        atoms = list.atoms.clone();
        let joined_or_spliced = step_4(&list, &mut atoms, &mut ors)?;
        // "If any did, go to 2."
        if !joined_or_spliced {
            break;
        }
    }
    let atoms = step_5(n, atoms);
    Ok(step_6(atoms, ors))
}

/// Step 1: "The atom list starts as the node's direct atoms, in order. Simplify each OR child, in order, by
/// the OR rule. True: dropped. False: the node is false at once, later children untouched. An atom joins the
/// end of the atom list. An AND is spliced: its atoms go to the end of the list, its ORs to the child's
/// place, not simplified again."
fn step_1(n: usize, parts: Vec<Part>) -> Result<(AtomList, OrChildren), NodeIsFalse> {
    let mut atoms = vec![];
    let mut children = vec![];
    for part in parts {
        match part {
            Node::Atom(atom) => atoms.push(atom),
            Node::Or(parts) => children.push(parts),
            Node::And(_) => panic!("no AND stands directly under AND"),
        }
    }
    let mut ors = vec![];
    for child in children {
        let simplified = or_rule(n, child);
        if simplified.is_always() {
            continue;
        }
        if simplified.is_never() {
            return Err(NodeIsFalse);
        }
        match simplified {
            Node::Or(parts) => ors.push(parts),
            one_part => join_or_splice(one_part, &mut atoms, &mut ors),
        }
    }
    Ok((atoms, ors))
}

/// An atom joins the end of the atom list; an AND is spliced, with `ors` filled up to the child's place.
fn join_or_splice(part: Part, atoms: &mut AtomList, ors: &mut OrChildren) {
    match part {
        Node::Atom(atom) => atoms.push(atom),
        Node::And(parts) => {
            for part in parts {
                match part {
                    Node::Atom(atom) => atoms.push(atom),
                    Node::Or(parts) => ors.push(parts),
                    Node::And(_) => panic!("no AND stands directly under AND"),
                }
            }
        }
        Node::Or(_) => panic!("no OR stands directly under OR"),
    }
}

/// Step 2: "Bring atoms to normal form; atoms of one polynomial become one at the first's place with the
/// intersected set. Full or true: dropped. Empty or false: the node is false." The atoms are merged first;
/// what is full, true, empty or false is asked of the merged ones. 02, #105: "A merged atom keeps the place of
/// the one it is merged into": the first in the list.
fn step_2(atoms: AtomList) -> Result<AtomList, NodeIsFalse> {
    let mut merged: AtomList = vec![];
    for atom in atoms {
        let atom = in_normal_form(atom);
        match merged.iter_mut().find(|first| first.poly == atom.poly) {
            Some(first) => first.set = first.set.intersection(atom.set),
            None => merged.push(atom),
        }
    }
    let mut kept = vec![];
    for atom in merged {
        if is_true(&atom) {
            continue;
        }
        if is_false(&atom) {
            return Err(NodeIsFalse);
        }
        kept.push(atom);
    }
    Ok(kept)
}

/// "if the first coefficient is negative, negate all and mirror the atom's set"
pub fn in_normal_form(atom: Atom<Polynomial>) -> Atom<Polynomial> {
    let (poly, negated) = atom.poly.normal_form();
    let set = if negated { atom.set.mirror() } else { atom.set };
    Atom { poly, set, place: atom.place }
}

/// "A constant polynomial makes its atom true or false." Its normal form is 1, which is positive.
fn is_true(atom: &Atom<Polynomial>) -> bool {
    atom.set.is_full() || (atom.poly.is_constant() && atom.set.has(Sign::Positive))
}

fn is_false(atom: &Atom<Polynomial>) -> bool {
    atom.set.is_empty() || (atom.poly.is_constant() && !atom.set.has(Sign::Positive))
}

/// Step 3: "Run the rounds; contradiction makes the node false. Atoms now carry the cut sets (a variable
/// without an atom gets none)."
fn step_3(n: usize, atoms: &AtomList) -> Result<AfterRounds, NodeIsFalse> {
    let list = run_rounds(n, atoms);
    if list.contradiction {
        return Err(NodeIsFalse);
    }
    Ok(list)
}

/// Step 4: "For each OR child, each direct atom (p, s) in order: if what the list says of p lies inside s,
/// the child is dropped; else s becomes the intersection, and an empty s drops the atom. A child with
/// nothing left makes the node false at once; with one part left it joins or is spliced as in 1. The list
/// here is the one that step 3 left: joins and splices take effect after the last child, in child order. If
/// any did, go to 2." Answers whether any did.
fn step_4(list: &AfterRounds, atoms: &mut AtomList, ors: &mut OrChildren) -> Result<bool, NodeIsFalse> {
    let mut joined_or_spliced = false;
    let mut ors_left = vec![];
    for child in std::mem::take(ors) {
        let Some(mut left) = what_is_left(list, child) else { continue };
        match left.len() {
            0 => return Err(NodeIsFalse),
            1 => {
                join_or_splice(left.remove(0), atoms, &mut ors_left);
                joined_or_spliced = true;
            }
            _ => ors_left.push(left),
        }
    }
    *ors = ors_left;
    Ok(joined_or_spliced)
}

/// The parts left of an OR child; none if the child is dropped. Its AND parts are left alone.
fn what_is_left(list: &AfterRounds, child: Vec<Part>) -> Option<Vec<Part>> {
    let mut left = vec![];
    for part in child {
        match part {
            Node::Atom(Atom { poly, set, place }) => {
                let says = list.says_of(&poly);
                if says.is_inside(set) {
                    return None;
                }
                let set = set.intersection(says);
                if !set.is_empty() {
                    left.push(Node::Atom(Atom { poly, set, place }));
                }
            }
            other => left.push(other),
        }
    }
    Some(left)
}

/// Step 5: "In order, an atom is removed if what the other remaining atoms (rounds run afresh on them alone)
/// say of it lies inside its carried set." The fresh rounds start from the carried sets.
fn step_5(n: usize, atoms: AtomList) -> AtomList {
    let mut remaining = atoms;
    let mut at = 0;
    while at < remaining.len() {
        let atom = remaining[at].clone();
        let mut others = remaining.clone();
        others.remove(at);
        if run_rounds(n, &others).says_of(&atom.poly).is_inside(atom.set) {
            remaining = others;
        } else {
            at += 1;
        }
    }
    remaining
}

/// Step 6: "Result: atoms, then ORs, in order. One part: that part. None: true."
fn step_6(atoms: AtomList, ors: OrChildren) -> Part {
    let mut parts: Vec<Part> = atoms.into_iter().map(Node::Atom).collect();
    parts.extend(ors.into_iter().map(Node::Or));
    if parts.len() == 1 {
        return parts.remove(0);
    }
    Node::And(parts)
}

/// What step 2 leaves of a list of atoms; none if it is false. (For checks of the rounds.)
pub fn tidied(atoms: AtomList) -> Option<AtomList> {
    step_2(atoms).ok()
}
