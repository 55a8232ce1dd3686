//! L and U by tested fractions against a second computation, by the two ends of an interval.
//! And each finding against values: where the variables and q have their signs, p has the found one.

use independent::deduce::{deduce, holds, monomials, strict, Fraction, Monomial, Tested, Which};
use independent::engine::{deduction_line, single_points};
use independent::meaning::value;
use independent::polynomial::{Polynomial, Term};
use independent::random::Random;
use independent::signs::{sign_of, SignSet};

/// A closed interval of fractions; an end that is not there is open to that side.
struct Interval {
    empty: bool,
    low: Option<Fraction>,
    high: Option<Fraction>,
}

fn less(one: Fraction, other: Fraction) -> bool {
    one.c * other.d < other.c * one.d
}

impl Interval {
    /// Each monomial in turn draws the ends closer.
    fn new(which: Which, list: &[Monomial]) -> Interval {
        let mut interval = Interval { empty: false, low: None, high: None };
        for m in list {
            let (at_least, at_most) = match m.s.to_bits() {
                1 | 3 => (true, false),
                4 | 6 => (false, true),
                5 | 7 => (true, true),
                _ => (false, false),
            };
            let (at_least, at_most) =
                if which == Which::L { (at_least, at_most) } else { (at_most, at_least) };
            if at_least {
                interval.draw(m.a, m.b);
            }
            if at_most {
                interval.draw(-m.a, -m.b);
            }
        }
        interval
    }

    /// a + tb ≥ 0
    fn draw(&mut self, a: i128, b: i128) {
        if b == 0 {
            self.empty |= a < 0;
        } else if b > 0 {
            let end = Fraction { c: -a, d: b };
            if self.low.is_none_or(|low| less(low, end)) {
                self.low = Some(end);
            }
        } else {
            let end = Fraction { c: a, d: -b };
            if self.high.is_none_or(|high| less(end, high)) {
                self.high = Some(end);
            }
        }
        if let (Some(low), Some(high)) = (self.low, self.high) {
            self.empty |= less(high, low);
        }
    }

    fn low_sign(&self) -> i128 {
        self.low.map_or(-1, |low| low.c.signum())
    }

    fn high_sign(&self) -> i128 {
        self.high.map_or(1, |high| high.c.signum())
    }

    fn has_interior(&self) -> bool {
        let apart = match (self.low, self.high) {
            (Some(low), Some(high)) => less(low, high),
            _ => true,
        };
        !self.empty && apart
    }
}

/// The t of an interval that have a wanted sign: those from 0 up (1), from 0 down (-1) or all (0).
fn allowed(mut interval: Interval, sign: i128) -> Interval {
    if sign != 0 {
        interval.draw(0, sign);
    }
    interval
}

/// Request #104 by intervals: there is a t, there is a strict monomial, and not (it is one t and all of them vanish there).
fn strict_by_intervals(interval: &Interval, list: &[Monomial]) -> bool {
    let mut strict = list.iter().filter(|m| m.s.to_bits() == 1 || m.s.to_bits() == 4);
    let strict_there = match (interval.low, interval.has_interior()) {
        (Some(t), false) => strict.any(|m| m.a * t.d + t.c * m.b != 0),
        _ => strict.next().is_some(),
    };
    !interval.empty && strict_there
}

#[test]
fn strict_findings_are_those_of_the_intervals() {
    let mut random = Random::new(15);
    let mut seen = [[0; 2]; 3];
    for _ in 0..60_000 {
        let list = random_monomials(&mut random);
        for which in [Which::L, Which::U] {
            let tested = Tested::new(which, &list);
            let answers =
                [tested.strict_has(|_| true), tested.strict_has(|t| t >= 0), tested.strict_has(|t| t <= 0)];
            for (number, sign) in [0, 1, -1].into_iter().enumerate() {
                let interval = allowed(Interval::new(which, &list), sign);
                assert_eq!(
                    answers[number],
                    strict_by_intervals(&interval, &list),
                    "{sign} of {which:?} over {list:?}"
                );
                seen[number][usize::from(answers[number])] += 1;
            }
            // "strict and the interior has a t": that is a t at which some monomial is strict
            if strict(&list) {
                assert!(answers[0] || !tested.interior_has(|_| true), "{which:?} over {list:?}");
                assert!(answers[1] || !tested.interior_has(|t| t > 0), "{which:?} over {list:?}");
                assert!(answers[2] || !tested.interior_has(|t| t < 0), "{which:?} over {list:?}");
            }
        }
    }
    for (number, counts) in seen.iter().enumerate() {
        assert!(counts[0] > 500 && counts[1] > 500, "question {number}: {counts:?}");
    }
}

/// The corpus of single points: what is found by each set, and that strict and weak findings are both among them.
#[test]
fn single_points_are_strict_and_weak() {
    let mut found = [0; 8];
    for block in single_points() {
        let line = deduction_line(&block);
        found[line.trim().parse::<usize>().unwrap()] += 1;
    }
    for set in [1, 3, 4, 6, 7] {
        assert!(found[set] > 30, "set {set}: {found:?}");
    }
}

fn random_monomials(random: &mut Random) -> Vec<Monomial> {
    let size = if random.percent(20) { LARGE } else { 4 };
    let mut list = vec![];
    for _ in 0..1 + random.below(5) {
        let near = random.percent(50);
        let coefficient = |random: &mut Random| {
            let magnitude =
                if near && size == LARGE { size - random.between(0, 3) } else { random.between(0, size) };
            random.pick(&[magnitude, -magnitude])
        };
        let (a, b) = (coefficient(random), coefficient(random));
        let s = SignSet::from_bits(random.pick(&[1, 1, 3, 3, 4, 4, 6, 6, 2, 5, 7]));
        if a != 0 || b != 0 {
            list.push(Monomial { a, b, s });
        }
    }
    list
}

const LARGE: i128 = 2_147_483_647;

#[test]
fn l_and_u_are_the_intervals() {
    let mut random = Random::new(11);
    let mut seen = [[0; 2]; 7];
    for _ in 0..60_000 {
        let list = random_monomials(&mut random);
        for which in [Which::L, Which::U] {
            let tested = Tested::new(which, &list);
            let interval = Interval::new(which, &list);
            let (low, high) = (interval.low_sign(), interval.high_sign());
            let some = !interval.empty;
            let inner = interval.has_interior();
            let questions = [
                (tested.has(|t| t > 0), some && high > 0),
                (tested.has(|t| t < 0), some && low < 0),
                (tested.has(|t| t == 0), some && low <= 0 && high >= 0),
                (tested.has(|_| true), some),
                (tested.interior_has(|t| t > 0), inner && high > 0),
                (tested.interior_has(|t| t < 0), inner && low < 0),
                (tested.interior_has(|_| true), inner),
            ];
            for (number, (one, other)) in questions.into_iter().enumerate() {
                assert_eq!(one, other, "question {number} of {which:?} over {list:?}");
                seen[number][usize::from(one)] += 1;
            }
            assert_eq!(tested.has(|t| t >= 0), some && high >= 0, "{which:?} over {list:?}");
            assert_eq!(tested.has(|t| t <= 0), some && low <= 0, "{which:?} over {list:?}");
        }
    }
    for (number, counts) in seen.iter().enumerate() {
        assert!(counts[0] > 500 && counts[1] > 500, "question {number}: {counts:?}");
    }
}

/// Any other t that lies in L shows nothing that the tested fractions do not.
#[test]
fn no_other_fraction_answers_differently() {
    let mut random = Random::new(12);
    for _ in 0..4_000 {
        let list = random_monomials(&mut random);
        for which in [Which::L, Which::U] {
            let tested = Tested::new(which, &list);
            for _ in 0..20 {
                let t = Fraction { c: random.between(-30, 30), d: random.between(1, 12) };
                if holds(which, &list, t) {
                    assert!(tested.has(match t.c.signum() {
                        1 => |t| t > 0,
                        0 => |t| t == 0,
                        _ => |t| t < 0,
                    }));
                }
            }
        }
    }
}

fn random_polynomial(random: &mut Random) -> Polynomial {
    loop {
        let mut terms = vec![];
        for exponents in [[2, 0], [1, 1], [1, 0], [0, 2], [0, 1], [0, 0]] {
            if random.percent(45) {
                let coefficient = random.pick(&[1, 1, 2, 3, -1, -1, -2, -3]);
                terms.push(Term { coefficient, exponents: exponents.to_vec() });
            }
        }
        if !terms.is_empty() {
            return Polynomial { terms };
        }
    }
}

#[test]
fn what_is_found_is_so() {
    let mut random = Random::new(13);
    let mut found_by_set = [0; 8];
    for _ in 0..40_000 {
        let p = random_polynomial(&mut random);
        let mut q = random_polynomial(&mut random);
        if random.percent(40) {
            q = p.clone();
            let at = random.below(q.terms.len());
            q.terms[at].coefficient = random.pick(&[1, 2, -1, -2, 5]);
        }
        let q_set = SignSet::from_bits(random.below(8) as u64);
        let board: Vec<SignSet> = (0..2).map(|_| SignSet::from_bits(1 + random.below(7) as u64)).collect();
        let finding = deduce(&p, &q, q_set, &board);
        if !finding.is_full() {
            found_by_set[q_set.to_bits() as usize] += 1;
        }
        for x in -5..=5 {
            for y in -5..=5 {
                let point = [x, y];
                let signs_fit = board[0].has(sign_of(x))
                    && board[1].has(sign_of(y))
                    && q_set.has(sign_of(value(&q, &point).unwrap()));
                if signs_fit {
                    let sign = sign_of(value(&p, &point).unwrap());
                    assert!(finding.has(sign), "{p:?} from {q:?} {q_set:?} at {point:?}: {finding:?}");
                }
            }
        }
    }
    for set in [1, 2, 3, 4, 6] {
        assert!(found_by_set[set] > 300, "set {set}: {found_by_set:?}");
    }
    assert_eq!(found_by_set[5] + found_by_set[7], 0, "≠ or full: nothing");
}

/// Exchanging the sign of q, or of all monomials, exchanges what is found.
#[test]
fn findings_are_symmetric() {
    let mut random = Random::new(14);
    for _ in 0..5_000 {
        let p = random_polynomial(&mut random);
        let q = random_polynomial(&mut random);
        let negated = |of: &Polynomial| {
            let mut of = of.clone();
            for term in &mut of.terms {
                term.coefficient = -term.coefficient;
            }
            of
        };
        let set = SignSet::from_bits(random.below(8) as u64);
        let board: Vec<SignSet> = (0..2).map(|_| SignSet::from_bits(1 + random.below(7) as u64)).collect();
        let found = deduce(&p, &q, set, &board);
        assert_eq!(found, deduce(&p, &negated(&q), set.mirror(), &board));
        assert_eq!(found.mirror(), deduce(&negated(&p), &q, set, &board));
    }
}

#[test]
fn an_empty_set_says_the_empty_set() {
    let x = Polynomial::of_variable(2, 0);
    let y = Polynomial::of_variable(2, 1);
    let full = [SignSet::FULL, SignSet::FULL];
    assert_eq!(deduce(&x, &y, SignSet::EMPTY, &full), SignSet::EMPTY);
    for board in [[SignSet::EMPTY, SignSet::FULL], [SignSet::FULL, SignSet::EMPTY]] {
        for set in SignSet::all() {
            assert_eq!(deduce(&x, &x, set, &board), SignSet::EMPTY);
        }
    }
}

#[test]
fn a_monomial_of_both_is_listed_once() {
    let p = Polynomial {
        terms: vec![
            Term { coefficient: 2, exponents: vec![1, 0] },
            Term { coefficient: -1, exponents: vec![0, 0] },
        ],
    };
    let q = Polynomial {
        terms: vec![
            Term { coefficient: 3, exponents: vec![1, 0] },
            Term { coefficient: 5, exponents: vec![0, 1] },
        ],
    };
    let list = monomials(&p, &q, &[SignSet::LESS, SignSet::EQUAL]);
    let as_numbers: Vec<_> = list.iter().map(|m| (m.a, m.b, m.s.to_bits())).collect();
    assert_eq!(as_numbers, [(2, 3, 4), (-1, 0, 1), (0, 5, 2)]);
}
