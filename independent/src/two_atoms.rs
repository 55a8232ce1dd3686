//! Two atoms at once (document 02, #111): what two atoms say of p together, by p + u·q1 + v·q2 with small whole factors u and v.
//! Each sum is worked out monomial by monomial; a try is left early only where neither of its tests can find anything more.

use std::collections::BTreeMap;
use std::sync::OnceLock;

use crate::count;
use crate::polynomial::{monomial_sign, Polynomial};
use crate::signs::{sign_of, Sign, SignSet};
use crate::tree::Atom;

/// "with whole factors u, then v, from -4 up to 4, neither 0"
pub const FACTORS: [i128; 8] = [-4, -3, -2, -1, 1, 2, 3, 4];

/// The signs that u·q can have.
fn multiple(u: i128, set: SignSet) -> SignSet {
    SignSet::only(sign_of(u)).product(set)
}

/// "Each factor must make u·q1 and v·q2 never positive under their sets, sets ≠ and full being left out." (A multiple of
/// such a set can be positive and can be negative.)
pub fn never_positive(u: i128, set: SignSet) -> bool {
    multiple(u, set).is_inside(SignSet::LESS_EQUAL)
}

/// "u·q1 and v·q2 never negative"
pub fn never_negative(u: i128, set: SignSet) -> bool {
    multiple(u, set).is_inside(SignSet::GREATER_EQUAL)
}

/// "If the set by terms of p + u·q1 + v·q2 lies inside ≥, then p ≥ 0; and p > 0 if that set is > or if q1's or q2's set is
/// < or >."
pub fn found(total: SignSet, strict: bool) -> SignSet {
    if !total.is_inside(SignSet::GREATER_EQUAL) {
        SignSet::FULL
    } else if total == SignSet::GREATER || strict {
        SignSet::GREATER
    } else {
        SignSet::GREATER_EQUAL
    }
}

/// "The mirrored test (.. the set inside ≤) gives ≤ and <."
pub fn found_mirrored(total: SignSet, strict: bool) -> SignSet {
    if !total.is_inside(SignSet::LESS_EQUAL) {
        SignSet::FULL
    } else if total == SignSet::LESS || strict {
        SignSet::LESS
    } else {
        SignSet::LESS_EQUAL
    }
}

/// "q1's or q2's set is < or >"
pub fn is_strict(set: SignSet) -> bool {
    set == SignSet::LESS || set == SignSet::GREATER
}

/// A pair of factors, and the tests that they allow.
#[derive(Clone, Copy)]
struct Factors {
    u: i128,
    v: i128,
    above: bool,
    below: bool,
}

/// The pairs of factors that allow a test for these sets of q1 and q2, in order. (Worked out once for all sets.)
fn factors(q1_set: SignSet, q2_set: SignSet) -> &'static [Factors] {
    static TABLE: OnceLock<Vec<Vec<Factors>>> = OnceLock::new();
    let of_sets = |q1_set: SignSet, q2_set: SignSet| {
        let mut list = vec![];
        for u in FACTORS {
            for v in FACTORS {
                let above = never_positive(u, q1_set) && never_positive(v, q2_set);
                let below = never_negative(u, q1_set) && never_negative(v, q2_set);
                if above || below {
                    list.push(Factors { u, v, above, below });
                }
            }
        }
        list
    };
    let all = || SignSet::all().into_iter().flat_map(|one| SignSet::all().into_iter().map(move |other| (one, other)));
    let table = TABLE.get_or_init(|| all().map(|(one, other)| of_sets(one, other)).collect());
    &table[8 * q1_set.to_bits() as usize + q2_set.to_bits() as usize]
}

/// A polynomial over numbered monomials: number and coefficient, numbers rising.
type Numbered = Vec<(usize, i128)>;

/// A monomial's coefficients in p, q1 and q2, and its set.
#[derive(Clone, Copy)]
struct Row {
    number: usize,
    of: [i128; 3],
    set: SignSet,
}

impl Row {
    /// It has any sign, or ≠, and stands in one of p and q1 alone.
    fn is_lonely(&self) -> bool {
        let any = self.set.has(Sign::Negative) && self.set.has(Sign::Positive);
        any && (self.of[0] == 0) != (self.of[1] == 0)
    }
}

/// The non-variable atoms of a list on a board, their monomials numbered.
pub struct Pairs<'a> {
    board: &'a [SignSet],
    numbers: BTreeMap<&'a [u8], usize>,
    /// The set of each monomial.
    sets: Vec<SignSet>,
    atoms: Vec<(&'a Atom<Polynomial>, Numbered)>,
}

impl<'a> Pairs<'a> {
    pub fn new(board: &'a [SignSet], atoms: &'a [Atom<Polynomial>]) -> Pairs<'a> {
        let mut pairs = Pairs { board, numbers: BTreeMap::new(), sets: vec![], atoms: vec![] };
        for atom in atoms {
            let numbered = pairs.numbered(&atom.poly);
            pairs.atoms.push((atom, numbered));
        }
        pairs
    }

    fn numbered(&mut self, p: &'a Polynomial) -> Numbered {
        let mut list = vec![];
        for term in &p.terms {
            let next = self.sets.len();
            let number = *self.numbers.entry(&term.exponents).or_insert(next);
            if number == next {
                self.sets.push(monomial_sign(&term.exponents, self.board));
            }
            list.push((number, term.coefficient));
        }
        list.sort();
        list
    }

    /// The findings of all tries with p, "each pair of non-variable atoms other than p, in list order, with whole factors u,
    /// then v", each handed to `next`, which says what is left of p's set, or none to end the tries.
    /// A finding that changes nothing of the set at hand may be missing.
    fn each(&mut self, p: &'a Polynomial, set: SignSet, next: &mut impl FnMut(SignSet) -> Option<SignSet>) {
        let mut set = set;
        let p_numbered = self.numbered(p);
        let rows = self.with(&[], &p_numbered, 0);
        let others: Vec<&(&Atom<Polynomial>, Numbered)> = self.atoms.iter().filter(|q| q.0.poly != *p).collect();
        for (at, (q1, q1_numbered)) in others.iter().enumerate() {
            let rows = self.with(&rows, q1_numbered, 1);
            let lonely: Vec<usize> = rows.iter().filter(|row| row.is_lonely()).map(|row| row.number).collect();
            for (q2, q2_numbered) in &others[at + 1..] {
                let factors = factors(q1.set, q2.set);
                // A monomial with any sign that one of the three alone has stays, whatever u and v: no test finds anything.
                let has = |number: &usize| q2_numbered.binary_search_by_key(number, |term| term.0).is_ok();
                if !lonely.iter().all(has) {
                    count::tries(factors.len());
                    continue;
                }
                let rows = self.with(&rows, q2_numbered, 2);
                let strict = is_strict(q1.set) || is_strict(q2.set);
                for factors in factors {
                    count::tries(1);
                    let Some(finding) = tried(&rows, factors, strict) else { continue };
                    if set.intersection(finding) != set {
                        match next(finding) {
                            Some(left) => set = left,
                            None => return,
                        }
                    }
                }
            }
        }
    }

    /// The rows with a polynomial's coefficients in one of their places. (The rows' numbers rise.)
    fn with(&self, rows: &[Row], q: &Numbered, place: usize) -> Vec<Row> {
        let mut all = Vec::with_capacity(rows.len() + q.len());
        let mut rows = rows.iter().peekable();
        for &(number, coefficient) in q {
            while let Some(row) = rows.next_if(|row| row.number < number) {
                all.push(*row);
            }
            let same = rows.next_if(|row| row.number == number);
            let mut row = same.copied().unwrap_or(Row { number, of: [0; 3], set: self.sets[number] });
            row.of[place] = coefficient;
            all.push(row);
        }
        all.extend(rows);
        all
    }

    /// "The first pair finding that changes a set": what it leaves of p's set, if there is one.
    pub fn first_cut(&mut self, p: &'a Polynomial, set: SignSet) -> Option<SignSet> {
        let mut cut = None;
        self.each(p, set, &mut |finding| {
            cut = Some(set.intersection(finding));
            None
        });
        cut
    }

    /// "What a list says of p includes these": a set cut by the findings of all tries.
    pub fn cut_by_all(&mut self, p: &'a Polynomial, set: SignSet) -> SignSet {
        let mut left = set;
        self.each(p, set, &mut |finding| {
            left = left.intersection(finding);
            Some(left)
        });
        left
    }
}

/// One try: p + u·q1 + v·q2 "as a polynomial", like monomials combined and those with the coefficient 0 gone, its set by terms,
/// and the findings of the tests that the factors allow, intersected. None where both a negative and a positive sum can be.
fn tried(rows: &[Row], &Factors { u, v, above, below }: &Factors, strict: bool) -> Option<SignSet> {
    let coefficient = |row: &Row| row.of[0] + u * row.of[1] + v * row.of[2];
    let (mut in_above, mut in_below) = (above, below);
    for row in rows {
        let sign = sign_of(coefficient(row));
        let (same, opposite) = (row.set.has(Sign::Positive), row.set.has(Sign::Negative));
        let (positive, negative) = match sign {
            Sign::Zero => continue,
            Sign::Positive => (same, opposite),
            Sign::Negative => (opposite, same),
        };
        // A sum with a term that can be negative can be negative, so that it does not lie inside ≥; and so for ≤.
        in_above = in_above && !negative;
        in_below = in_below && !positive;
        if !in_above && !in_below {
            return None;
        }
    }
    let mut total = SignSet::EQUAL;
    for row in rows {
        total = total.sum(SignSet::only(sign_of(coefficient(row))).product(row.set));
    }
    let of_above = if above { found(total, strict) } else { SignSet::FULL };
    let of_below = if below { found_mirrored(total, strict) } else { SignSet::FULL };
    Some(of_above.intersection(of_below))
}
