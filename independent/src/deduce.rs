//! What the sign of q says of the sign of p (document 01, "Deducing p from q", with request #104 of document 02).
//! L and U are decided by testing fractions t one by one against the conditions.

use crate::count;
use crate::polynomial::{monomial_sign, Polynomial};
use crate::signs::SignSet;

/// "For all monomials of p or q let a, b be their coefficients (0 if absent), s the monomial's sign set."
#[derive(Clone, Copy, Debug)]
pub struct Monomial {
    pub a: i128,
    pub b: i128,
    pub s: SignSet,
}

pub fn monomials(p: &Polynomial, q: &Polynomial, board: &[SignSet]) -> Vec<Monomial> {
    let mut list = vec![];
    for term in &p.terms {
        list.push(Monomial {
            a: term.coefficient,
            b: q.coefficient(&term.exponents),
            s: monomial_sign(&term.exponents, board),
        });
    }
    for term in &q.terms {
        if p.coefficient(&term.exponents) == 0 {
            list.push(Monomial { a: 0, b: term.coefficient, s: monomial_sign(&term.exponents, board) });
        }
    }
    list
}

/// "*Strict* means that some s is > or <."
pub fn strict(monomials: &[Monomial]) -> bool {
    monomials.iter().any(|m| m.s == SignSet::GREATER || m.s == SignSet::LESS)
}

/// "some monomial with set > or < has a+tb other than 0" (document 02, #104)
pub fn strict_at(monomials: &[Monomial], t: Fraction) -> bool {
    monomials.iter().any(|m| {
        let strict = m.s == SignSet::GREATER || m.s == SignSet::LESS;
        strict && m.a * t.d + t.c * m.b != 0
    })
}

/// "Here a t is a pair of whole numbers c and d with d above 0"
#[derive(Clone, Copy, Debug)]
pub struct Fraction {
    pub c: i128,
    pub d: i128,
}

/// "Fractions -a/b are compared by cross products, never by division."
fn order(one: &Fraction, other: &Fraction) -> std::cmp::Ordering {
    (one.c * other.d).cmp(&(other.c * one.d))
}

#[derive(Clone, Copy, Debug, PartialEq, Eq)]
pub enum Which {
    L,
    U,
}

/// "L holds the rational t for which each monomial has: a+tb ≥ 0 if s is > or ≥; a+tb ≤ 0 if s is < or ≤;
/// a+tb = 0 if s is ≠ or full; no condition if s is =. U is the same with ≥ and ≤ exchanged."
pub fn holds(which: Which, monomials: &[Monomial], t: Fraction) -> bool {
    monomials.iter().all(|m| {
        // "a+tb has the sign of ad+cb"
        let value = m.a * t.d + t.c * m.b;
        let value = if which == Which::L { value } else { -value };
        match m.s {
            SignSet::GREATER | SignSet::GREATER_EQUAL => value >= 0,
            SignSet::LESS | SignSet::LESS_EQUAL => value <= 0,
            SignSet::NOT_EQUAL | SignSet::FULL => value == 0,
            SignSet::EQUAL => true,
            _ => panic!("no variable's set is empty here, so no monomial's is"),
        }
    })
}

/// The fractions to test, rising: each -a/b with b not 0, and 0; a value between each two neighbours;
/// two values below all and two above all.
///
/// Each condition on t holds on a closed half-line that ends at -a/b, at the point -a/b alone, everywhere
/// or nowhere. So L is convex, and between neighbours among the -a/b it holds each t or none. Hence L has
/// a t above 0 (below 0, equal to 0) exactly if one of these fractions is such a t, and likewise for its
/// interior: a t between two neighbours has these, or nearer ones, as its smaller and larger t; beyond all
/// fractions it takes a second value on the far side to show one. A monomial's a+tb is 0 at -a/b alone, unless
/// a and b are both 0, so that between neighbours none is 0 that is not 0 everywhere.
pub fn fractions_to_test(monomials: &[Monomial]) -> Vec<Fraction> {
    let mut ends = vec![Fraction { c: 0, d: 1 }];
    for m in monomials {
        if m.b > 0 {
            ends.push(Fraction { c: -m.a, d: m.b });
        }
        if m.b < 0 {
            ends.push(Fraction { c: m.a, d: -m.b });
        }
    }
    ends.sort_by(order);
    ends.dedup_by(|one, other| order(one, other).is_eq());

    let first = ends[0];
    let last = ends[ends.len() - 1];
    let mut list = vec![
        Fraction { c: first.c - 2 * first.d, d: first.d },
        Fraction { c: first.c - first.d, d: first.d },
        first,
    ];
    for pair in ends.windows(2) {
        let (low, high) = (pair[0], pair[1]);
        list.push(Fraction { c: low.c * high.d + high.c * low.d, d: 2 * low.d * high.d });
        list.push(high);
    }
    list.push(Fraction { c: last.c + last.d, d: last.d });
    list.push(Fraction { c: last.c + 2 * last.d, d: last.d });
    list
}

/// L or U, as the tested fractions, whether each is in it, and whether some monomial is strict at it.
pub struct Tested {
    tested: Vec<(Fraction, bool)>,
    strict: Vec<bool>,
}

impl Tested {
    pub fn new(which: Which, monomials: &[Monomial]) -> Tested {
        let fractions = fractions_to_test(monomials);
        let strict = fractions.iter().map(|&t| strict_at(monomials, t)).collect();
        Tested { tested: fractions.into_iter().map(|t| (t, holds(which, monomials, t))).collect(), strict }
    }

    /// It has a t such as wanted. (d is above 0, so t has the sign of c.)
    pub fn has(&self, wanted: fn(i128) -> bool) -> bool {
        self.tested.iter().any(|&(t, held)| held && wanted(t.c))
    }

    /// It has a t such as wanted at which some monomial is strict.
    pub fn strict_has(&self, wanted: fn(i128) -> bool) -> bool {
        self.tested.iter().zip(&self.strict).any(|(&(t, held), &strict)| held && strict && wanted(t.c))
    }

    /// "t is in the interior of L (or U) if that set also holds a smaller and a larger t."
    pub fn interior_has(&self, wanted: fn(i128) -> bool) -> bool {
        (0..self.tested.len()).any(|i| {
            let (t, held) = self.tested[i];
            let smaller = self.tested[..i].iter().any(|&(_, held)| held);
            let larger = self.tested[i + 1..].iter().any(|&(_, held)| held);
            held && smaller && larger && wanted(t.c)
        })
    }
}

/// What q's set says of the sign of p, given the sets of the variables.
pub fn deduce(p: &Polynomial, q: &Polynomial, q_set: SignSet, board: &[SignSet]) -> SignSet {
    // "If q's set or any variable's set is empty, the finding is the empty set."
    if q_set.is_empty() || board.iter().any(|set| set.is_empty()) {
        return SignSet::EMPTY;
    }
    // "≠ or full: nothing."
    if q_set == SignSet::NOT_EQUAL || q_set == SignSet::FULL {
        return SignSet::FULL;
    }
    count::a_deduction();
    let monomials = monomials(p, q, board);
    let strict = strict(&monomials);
    let l = Tested::new(Which::L, &monomials);
    let u = Tested::new(Which::U, &monomials);

    // Document 02, #104: "New rule wherever strictness is tested: a finding is strict also at an allowed t at which
    // some monomial with set > or < has a+tb other than 0. The t must still have the sign that the present rule
    // asks for, where zero is allowed too if the weak finding allows it." It is taken for < and > too, whose
    // weak finding allows zero.
    let (of_l, of_u) = match q_set {
        // "<: if L has a t > 0, p > 0; else if 0 is in L, p ≥ 0. If U has a t < 0, p < 0; else if 0 is in
        // U, p ≤ 0."
        SignSet::LESS => (
            above(l.has(|t| t > 0) || l.strict_has(|t| t >= 0), l.has(|t| t == 0)),
            below(u.has(|t| t < 0) || u.strict_has(|t| t <= 0), u.has(|t| t == 0)),
        ),
        // "≤: if strict and L's interior has a t > 0, p > 0; else if L has a t ≥ 0, p ≥ 0. Same for U with
        // t < 0, t ≤ 0, giving < and ≤."
        SignSet::LESS_EQUAL => (
            above(strict && l.interior_has(|t| t > 0) || l.strict_has(|t| t >= 0), l.has(|t| t >= 0)),
            below(strict && u.interior_has(|t| t < 0) || u.strict_has(|t| t <= 0), u.has(|t| t <= 0)),
        ),
        // "> and ≥: the same two, with the signs of t exchanged."
        SignSet::GREATER => (
            above(l.has(|t| t < 0) || l.strict_has(|t| t <= 0), l.has(|t| t == 0)),
            below(u.has(|t| t > 0) || u.strict_has(|t| t >= 0), u.has(|t| t == 0)),
        ),
        SignSet::GREATER_EQUAL => (
            above(strict && l.interior_has(|t| t < 0) || l.strict_has(|t| t <= 0), l.has(|t| t <= 0)),
            below(strict && u.interior_has(|t| t > 0) || u.strict_has(|t| t >= 0), u.has(|t| t >= 0)),
        ),
        // "=: if strict and L's interior is not empty, p > 0; else if L is not empty, p ≥ 0. Same for U."
        SignSet::EQUAL => (
            above(strict && l.interior_has(|_| true) || l.strict_has(|_| true), l.has(|_| true)),
            below(strict && u.interior_has(|_| true) || u.strict_has(|_| true), u.has(|_| true)),
        ),
        _ => panic!("empty, ≠ and full are answered above"),
    };
    // "The findings are intersected."
    of_l.intersection(of_u)
}

/// What L says: p > 0, else p ≥ 0, else nothing.
fn above(greater: bool, greater_or_equal: bool) -> SignSet {
    if greater {
        SignSet::GREATER
    } else if greater_or_equal {
        SignSet::GREATER_EQUAL
    } else {
        SignSet::FULL
    }
}

/// What U says: p < 0, else p ≤ 0, else nothing.
fn below(less: bool, less_or_equal: bool) -> SignSet {
    if less {
        SignSet::LESS
    } else if less_or_equal {
        SignSet::LESS_EQUAL
    } else {
        SignSet::FULL
    }
}
