//! Document 02, #106: the true reason. The named atoms suffice, each of them is needed, and they imply the atom that is gone;
//! refusals 19 and 20, known results, and the atoms of the answer.

use independent::answer::{answer, Verdict};
use independent::block::{read, write, Edition, Formula};
use independent::cases::polynomial;
use independent::convert::to_the_other;
use independent::level::in_normal_form;
use independent::meaning::value_over;
use independent::polynomial::Polynomial;
use independent::random::Random;
use independent::rounds::run_rounds;
use independent::signs::{sign_of, SignSet};
use independent::tree::{Atom, Node};
use independent::why::{atoms_of, corpus, is_false, is_kept, known, lines, merged, says_enough, why, Reason};

type AtomList = Vec<Atom<Polynomial>>;

/// A block that is explained: its atoms as read, the merged list, and the reasons.
struct Explained {
    variables: usize,
    bytes: Vec<u8>,
    atoms: AtomList,
    list: AtomList,
    reasons: Vec<Reason>,
}

fn explained(seed: u64, count: usize) -> Vec<Explained> {
    let mut found = vec![];
    for edition in Edition::BOTH {
        let count = if edition == Edition::One { count } else { count / 4 };
        for bytes in corpus(edition, seed, count) {
            let Ok(told) = why(&bytes, 255) else { continue };
            let formula = read(&bytes).expect("it was read before");
            let atoms = atoms_of(&formula).expect("an AND of atoms");
            let list = merged(&atoms).list;
            found.push(Explained { variables: formula.variables, bytes, atoms, list, reasons: told.reasons });
        }
    }
    found
}

/// The set that a record tells.
fn set_of(reason: &Reason) -> Option<SignSet> {
    match reason {
        Reason::Kept { set } | Reason::Narrowed { set } | Reason::Removed { set, .. } => Some(*set),
        _ => None,
    }
}

impl Explained {
    fn form(&self, place: usize) -> Polynomial {
        self.atoms[place].poly.normal_form().0
    }

    /// The named atoms, with the sets that stand in their own records.
    fn named(&self, by: &[usize]) -> AtomList {
        let told = |&place: &usize| Atom {
            poly: self.form(place),
            set: set_of(&self.reasons[place]).expect("a named atom's record tells its set"),
            place: Some(place),
        };
        by.iter().map(told).collect()
    }

    /// The named atoms of a false whole, each with the set that merging gave it.
    fn of_merged_list(&self, by: &[usize]) -> AtomList {
        let chosen: AtomList =
            self.list.iter().filter(|atom| by.contains(&atom.place.unwrap())).cloned().collect();
        assert_eq!(chosen.len(), by.len(), "each named place is one of the merged list");
        chosen
    }
}

fn each_left_out(list: &AtomList, mut rest_is: impl FnMut(AtomList)) {
    for at in 0..list.len() {
        let mut rest = list.clone();
        rest.remove(at);
        rest_is(rest);
    }
}

#[test]
fn known_results() {
    for known in known() {
        assert_eq!(lines(&known.bytes), known.lines, "{}", known.note);
        let other = to_the_other(&known.bytes, usize::MAX).expect("an accepted block");
        assert_eq!(lines(&other), known.lines, "{} in edition 2", known.note);
    }
}

/// "Refusals: 19 if the root is not an AND of atoms, after 15; 20 if the list has fewer records than atoms, after 19."
#[test]
fn refusals_in_their_order() {
    let atom = || Node::atom(0, SignSet::LESS);
    let block = |tree| {
        let table = vec![polynomial(&[(1, [1, 0])])];
        write(&Formula { variables: 2, table, tree })
    };
    let outcome = |bytes: &[u8], records| why(bytes, records).map(|told| told.reasons.len());
    for tree in [
        Node::Or(vec![]),
        Node::Or(vec![atom()]),
        Node::Or(vec![atom(), atom()]),
        Node::And(vec![Node::Or(vec![])]),
        Node::And(vec![atom(), Node::Or(vec![atom(), atom()])]),
        Node::And(vec![Node::Or(vec![atom()]), atom()]),
    ] {
        let bytes = block(tree);
        assert_eq!(outcome(&bytes, 255), Err(19));
        assert_eq!(outcome(&bytes, 0), Err(19), "19 before 20");
        // The reader's refusals come first.
        let mut longer = bytes.clone();
        longer.push(0);
        let length = longer.len() as u8;
        longer[4] = length;
        assert_eq!(outcome(&longer, 255), Err(15));
        assert_eq!(outcome(&bytes[..bytes.len() - 1], 255), Err(4));
    }
    assert_eq!(outcome(&block(atom()), 1), Ok(1));
    assert_eq!(outcome(&block(atom()), 0), Err(20));
    assert_eq!(outcome(&block(Node::And(vec![])), 0), Ok(0));
    for atoms in [1, 2, 63, 64, 65, 254] {
        let bytes = block(Node::And((0..atoms).map(|_| atom()).collect()));
        assert_eq!(outcome(&bytes, atoms), Ok(atoms));
        assert_eq!(outcome(&bytes, atoms + 1), Ok(atoms));
        assert_eq!(outcome(&bytes, atoms - 1), Err(20));
        assert_eq!(outcome(&bytes, 0), Err(20));
    }
    assert_eq!(outcome(&[], 0), Err(2));
    assert_eq!(lines(&block(Node::Or(vec![]))), "REFUSED 19\n");
}

/// "the named atoms with those sets suffice under document 01's rules, and with any one left out they no longer do"
#[test]
fn the_named_atoms_suffice_and_each_is_needed() {
    let (mut removed, mut by_two, mut wholes) = (0, 0, 0);
    for block in explained(21, 500) {
        let n = block.variables;
        for (place, reason) in block.reasons.iter().enumerate() {
            match reason {
                Reason::Removed { set, by } if !set.is_full() => {
                    let gone = Atom { poly: block.form(place), set: *set, place: Some(place) };
                    let named = block.named(by);
                    assert!(says_enough(n, &named, &gone), "{}", lines(&block.bytes));
                    each_left_out(&named, |rest| assert!(!says_enough(n, &rest, &gone)));
                    assert!(by.windows(2).all(|two| two[0] < two[1]) && !by.contains(&place));
                    removed += 1;
                    by_two += usize::from(by.len() > 1);
                }
                Reason::False { by } if place == 0 => {
                    let named = block.of_merged_list(by);
                    assert!(!by.is_empty() && is_false(n, &named));
                    each_left_out(&named, |rest| assert!(!is_false(n, &rest)));
                    wholes += 1;
                }
                // "the same in every record"
                Reason::False { .. } => assert_eq!(*reason, block.reasons[0]),
                _ => {}
            }
        }
    }
    assert!(removed > 200 && by_two > 20 && wholes > 40, "{removed} {by_two} {wholes}");
}

/// "kept and narrowed records are exactly the atoms and places of the answer of #105"; a false whole is no formula, and all
/// records say so.
#[test]
fn the_kept_are_the_atoms_of_the_answer() {
    for block in explained(22, 500) {
        let answer = answer(&block.bytes, block.bytes.len()).expect("an accepted block");
        let whole_is_false = block.reasons.iter().any(|reason| matches!(reason, Reason::False { .. }));
        assert_eq!(whole_is_false, answer.verdict == Verdict::Unsatisfiable && !block.reasons.is_empty());
        let kept: Vec<usize> = (0..block.reasons.len()).filter(|&at| is_kept(&block.reasons[at])).collect();
        assert_eq!(kept, answer.places);
        let atoms: AtomList = block.named(&kept);
        let told: Vec<_> = atoms.iter().map(|atom| (atom.poly.clone(), atom.set)).collect();
        let in_answer: Vec<_> = atoms_of(&answer.simplified).unwrap_or_default();
        let in_answer: Vec<_> = in_answer.into_iter().map(|atom| (atom.poly, atom.set)).collect();
        assert_eq!(told, in_answer);
        for (place, reason) in block.reasons.iter().enumerate() {
            let own = in_normal_form(block.atoms[place].clone()).set;
            match reason {
                Reason::Kept { set } => assert_eq!(*set, own),
                Reason::Narrowed { set } => assert!(*set != own && set.is_inside(own)),
                Reason::Merged { place: first } => {
                    let of_form = |&at: &usize| block.form(at) == block.form(place);
                    assert_eq!((0..place).find(of_form), Some(*first));
                }
                // "a record "removed by none, 7" is a true constant or a full one"
                Reason::Removed { set, by } if set.is_full() => {
                    let form = block.form(place);
                    let same = (0..block.atoms.len()).filter(|&at| block.form(at) == form);
                    let full = |at: usize| block.atoms[at].set.is_full();
                    assert!(by.is_empty() && (form.is_constant() || same.into_iter().all(full)));
                }
                _ => {}
            }
        }
    }
}

/// "a named atom that is itself removed has a larger place, so following names ends at kept atoms"
#[test]
fn following_names_ends_at_kept_atoms() {
    for block in explained(23, 300) {
        for (place, reason) in block.reasons.iter().enumerate() {
            let Reason::Removed { by, .. } = reason else { continue };
            for &named in by {
                match &block.reasons[named] {
                    Reason::Removed { .. } => assert!(named > place),
                    other => assert!(is_kept(other)),
                }
            }
        }
    }
}

/// "the named atoms imply the removed one at every choice of readings (fractions too)"
#[test]
fn the_named_atoms_imply_the_removed_one() {
    let mut random = Random::new(24);
    let mut met = 0;
    for block in explained(24, 300) {
        for _ in 0..20 {
            let denominator = random.between(1, 4);
            let numerators: Vec<i128> =
                (0..block.variables).map(|_| random.between(-4, 4) * random.between(1, 3)).collect();
            let holds = |atom: &Atom<Polynomial>| {
                let value = value_over(&atom.poly, &numerators, denominator)?;
                Some(atom.set.has(sign_of(value)))
            };
            for (place, reason) in block.reasons.iter().enumerate() {
                match reason {
                    Reason::Removed { set, by } if !set.is_full() => {
                        if block.named(by).iter().all(|atom| holds(atom) == Some(true)) {
                            let gone = Atom { poly: block.form(place), set: *set, place: None };
                            assert_ne!(holds(&gone), Some(false));
                            met += 1;
                        }
                    }
                    Reason::False { by } if place == 0 => {
                        assert!(!block.of_merged_list(by).iter().all(|atom| holds(atom) == Some(true)));
                    }
                    _ => {}
                }
            }
        }
    }
    assert!(met > 500, "{met}");
}

/// The corpus has blocks where a wrong reading gives something else: sets as merged instead of carried ones, the last left
/// out first, and the first empty set of a false whole instead of the last.
#[test]
fn the_corpus_tells_readings_apart() {
    let (mut carried, mut backwards, mut first_empty) = (0, 0, 0);
    for block in explained(25, 500) {
        let n = block.variables;
        for (place, reason) in block.reasons.iter().enumerate() {
            match reason {
                Reason::Removed { set, by } if !set.is_full() => {
                    let gone = Atom { poly: block.form(place), set: *set, place: Some(place) };
                    carried += usize::from(!says_enough(n, &block.of_merged_list(by), &gone));
                    // The atoms that remained then: the kept ones before it, and all behind it.
                    let remained: Vec<usize> = run_rounds(n, &block.list)
                        .atoms
                        .iter()
                        .map(|atom| atom.place.unwrap())
                        .filter(|&at| at > place || (at < place && is_kept(&block.reasons[at])))
                        .collect();
                    if block.atoms.len() < 12 {
                        let mut left = block.named(&remained);
                        for at in (0..left.len()).rev() {
                            let mut without = left.clone();
                            without.remove(at);
                            if says_enough(n, &without, &gone) {
                                left = without;
                            }
                        }
                        let places: Vec<usize> = left.iter().map(|atom| atom.place.unwrap()).collect();
                        backwards += usize::from(places != *by);
                    }
                }
                Reason::False { by } if place == 0 => {
                    let first = block.list.iter().find(|atom| atom.set.is_empty());
                    first_empty += usize::from(first.is_some_and(|atom| vec![atom.place.unwrap()] != *by));
                }
                _ => {}
            }
        }
    }
    assert!(carried > 10 && backwards > 5 && first_empty > 5, "{carried} {backwards} {first_empty}");
}
