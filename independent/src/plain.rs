//! "Deducing p from q" for a person with a pencil (document 02, #110): some values of t are listed, and each is tested by itself.
//! All terms and products are kept in 64 signed bits, and one that would not fit ends the program.

use crate::block::{read, Formula};
use crate::deduce::{monomials, Monomial};
use crate::engine::sets_of;
use crate::polynomial::Polynomial;
use crate::signs::{sign_of, Sign, SignSet};

/// t = c/d with d above 0.
#[derive(Clone, Copy, Debug, PartialEq, Eq)]
pub struct Value {
    pub c: i64,
    pub d: i64,
}

fn times(one: i64, other: i64) -> i64 {
    one.checked_mul(other).expect("64 signed bits hold each product")
}

fn order(one: &Value, other: &Value) -> std::cmp::Ordering {
    times(one.c, other.d).cmp(&times(other.c, one.d))
}

fn small(coefficient: i128) -> i64 {
    i64::try_from(coefficient).expect("a coefficient has 31 bits")
}

/// "-a/b for every monomial of p or q with b not 0 (also where the monomial's set is =), and 0. Equal fractions are
/// one value, whatever their terms." Of equal ones the first stays, 0 before all.
pub fn listed(monomials: &[Monomial]) -> Vec<Value> {
    let mut list = vec![Value { c: 0, d: 1 }];
    for m in monomials {
        let (a, b) = (small(m.a), small(m.b));
        if b != 0 {
            let value = if b > 0 { Value { c: -a, d: b } } else { Value { c: a, d: -b } };
            if list.iter().all(|other| order(other, &value).is_ne()) {
                list.push(value);
            }
        }
    }
    list.sort_by(order);
    list
}

/// "One value between each two neighbours: numerators added, denominators added. One below the least: the least
/// less 1; one above the greatest: the greatest plus 1."
pub fn values(monomials: &[Monomial]) -> Vec<Value> {
    let listed = listed(monomials);
    let (least, greatest) = (listed[0], listed[listed.len() - 1]);
    let mut list = vec![Value { c: least.c - least.d, d: least.d }];
    for (i, &value) in listed.iter().enumerate() {
        if i > 0 {
            let below = listed[i - 1];
            list.push(Value { c: below.c + value.c, d: below.d + value.d });
        }
        list.push(value);
    }
    list.push(Value { c: greatest.c + greatest.d, d: greatest.d });
    list
}

/// "by comparing the products a·d and -c·b, never by adding them"
pub fn sign_at(m: &Monomial, t: Value) -> Sign {
    match times(small(m.a), t.d).cmp(&times(-t.c, small(m.b))) {
        std::cmp::Ordering::Less => Sign::Negative,
        std::cmp::Ordering::Equal => Sign::Zero,
        std::cmp::Ordering::Greater => Sign::Positive,
    }
}

/// The signs of a+tb that L asks for; U asks for the mirrored ones.
fn asked(s: SignSet) -> SignSet {
    match s {
        SignSet::GREATER | SignSet::GREATER_EQUAL => SignSet::GREATER_EQUAL,
        SignSet::LESS | SignSet::LESS_EQUAL => SignSet::LESS_EQUAL,
        SignSet::NOT_EQUAL | SignSet::FULL => SignSet::EQUAL,
        _ => SignSet::FULL,
    }
}

/// The signs of t that are wanted of L, by q's set; of U the mirrored ones. With ≠ and full no t is asked for.
fn wanted(q_set: SignSet) -> SignSet {
    match q_set {
        SignSet::LESS | SignSet::LESS_EQUAL => SignSet::GREATER_EQUAL,
        SignSet::GREATER | SignSet::GREATER_EQUAL => SignSet::LESS_EQUAL,
        SignSet::EQUAL => SignSet::FULL,
        _ => SignSet::EMPTY,
    }
}

fn is_strict(set: SignSet) -> bool {
    set == SignSet::GREATER || set == SignSet::LESS
}

/// One value and its tests.
pub struct Tested {
    pub t: Value,
    pub signs: Vec<Sign>,
    pub l: bool,
    pub u: bool,
    pub strict: bool,
}

pub fn tested(monomials: &[Monomial], q_set: SignSet, t: Value) -> Tested {
    let signs: Vec<Sign> = monomials.iter().map(|m| sign_at(m, t)).collect();
    let sign = sign_of(i128::from(t.c));
    let passes = |mirrored: bool| {
        let turn = |set: SignSet| if mirrored { set.mirror() } else { set };
        turn(wanted(q_set)).has(sign)
            && monomials.iter().zip(&signs).all(|(m, &sign)| turn(asked(m.s)).has(sign))
    };
    // "strict as #104 has it: at some tested value of the allowed sign that passes, some > or < monomial is not 0";
    // and with q's set < or >, where t is not 0.
    let strict = is_strict(q_set) && sign != Sign::Zero
        || monomials.iter().zip(&signs).any(|(m, &sign)| is_strict(m.s) && sign != Sign::Zero);
    Tested { t, l: passes(false), u: passes(true), strict, signs }
}

/// What is found, from the values that were tested.
pub fn found(list: &[Tested]) -> SignSet {
    let side = |held: fn(&Tested) -> bool| {
        if list.iter().any(|value| held(value) && value.strict) {
            SignSet::GREATER
        } else if list.iter().any(held) {
            SignSet::GREATER_EQUAL
        } else {
            SignSet::FULL
        }
    };
    side(|value| value.l).intersection(side(|value| value.u).mirror())
}

/// The monomials of p or q, the greatest first.
pub fn rows(p: &Polynomial, q: &Polynomial, board: &[SignSet]) -> Vec<(Vec<u8>, Monomial)> {
    let mine = p.terms.iter().map(|term| term.exponents.clone());
    let its =
        q.terms.iter().map(|term| term.exponents.clone()).filter(|exponents| p.coefficient(exponents) == 0);
    let mut rows: Vec<(Vec<u8>, Monomial)> = mine.chain(its).zip(monomials(p, q, board)).collect();
    rows.sort_by(|one, other| other.0.cmp(&one.0));
    rows
}

/// What q's set says of the sign of p, given the sets of the variables.
pub fn deduce(p: &Polynomial, q: &Polynomial, q_set: SignSet, board: &[SignSet]) -> SignSet {
    if q_set.is_empty() || board.iter().any(|set| set.is_empty()) {
        return SignSet::EMPTY;
    }
    let monomials: Vec<Monomial> = rows(p, q, board).into_iter().map(|row| row.1).collect();
    let list: Vec<Tested> = values(&monomials).into_iter().map(|t| tested(&monomials, q_set, t)).collect();
    found(&list)
}

/// The finding for a deduction that is a block (engine.rs), as the set's number.
pub fn line(block: &[u8]) -> String {
    let Ok(formula) = read(block) else { return "REFUSED\n".to_string() };
    let sets = sets_of(&formula);
    format!("{}\n", deduce(&formula.table[0], &formula.table[1], sets[1], &sets[2..]).to_bits())
}

// ---- For a person.

fn name(set: SignSet) -> &'static str {
    ["empty", ">", "=", ">=", "<", "!=", "<=", "any"][set.to_bits() as usize]
}

fn sign_name(sign: Sign) -> &'static str {
    match sign {
        Sign::Negative => "-",
        Sign::Zero => "0",
        Sign::Positive => "+",
    }
}

fn monomial_name(exponents: &[u8], names: &[String]) -> String {
    let factors =
        exponents.iter().zip(names).filter(|(&exponent, _)| exponent > 0).map(|(&exponent, name)| {
            if exponent == 1 {
                name.clone()
            } else {
                format!("{name}^{exponent}")
            }
        });
    let text = factors.collect::<Vec<_>>().join("*");
    if text.is_empty() {
        "1".to_string()
    } else {
        text
    }
}

fn polynomial_name(polynomial: &Polynomial, names: &[String]) -> String {
    let mut text = String::new();
    for term in &polynomial.terms {
        let name = monomial_name(&term.exponents, names);
        let magnitude = term.coefficient.abs();
        let sign = match (text.is_empty(), term.coefficient < 0) {
            (true, true) => "-",
            (true, false) => "",
            (false, true) => " - ",
            (false, false) => " + ",
        };
        let factor = match (magnitude == 1, name == "1") {
            (_, true) => magnitude.to_string(),
            (true, false) => name,
            (false, false) => format!("{magnitude}*{name}"),
        };
        text += &format!("{sign}{factor}");
    }
    text
}

fn value_name(t: Value) -> String {
    if t.d == 1 {
        t.c.to_string()
    } else {
        format!("{}/{}", t.c, t.d)
    }
}

/// One deduction: p, q, the sets, the monomials with a, b and s, each t with the sign of each a+tb and whether it passes, and the finding.
/// The variables are called by these names, or x1, x2, ..
pub fn shown(block: &[u8], names: &[&str]) -> String {
    let Ok(formula) = read(block) else { return "REFUSED\n".to_string() };
    let Formula { table, variables, .. } = &formula;
    let sets = sets_of(&formula);
    if table.len() != variables + 2 || sets.len() != variables + 2 {
        return "no deduction: the AND of an atom of p, an atom of q with its set, and one atom for each variable\n"
            .to_string();
    }
    let names: Vec<String> = (0..*variables)
        .map(|i| names.get(i).map_or(format!("x{}", i + 1), |name| name.to_string()))
        .collect();
    let (p, q, board) = (&table[0], &table[1], &sets[2..]);
    let mut text = format!(
        "p = {}\nq = {} {} 0\n",
        polynomial_name(p, &names),
        polynomial_name(q, &names),
        name(sets[1])
    );
    for (variable, &set) in names.iter().zip(board) {
        text += &if set.is_full() {
            format!("{variable} any\n")
        } else {
            format!("{variable} {} 0\n", name(set))
        };
    }
    if sets[1].is_empty() || board.iter().any(|set| set.is_empty()) {
        return text + "\na set is empty, so is the finding\n";
    }
    let rows = rows(p, q, board);
    text += "\n| monomial | a | b | s | L asks | U asks |\n|---|--:|--:|---|---|---|\n";
    for (exponents, m) in &rows {
        let (l, u) = (asked(m.s), asked(m.s).mirror());
        let cells = [name(m.s), name(l), name(u)].join(" | ");
        text += &format!("| {} | {} | {} | {cells} |\n", monomial_name(exponents, &names), m.a, m.b);
    }
    let monomials: Vec<Monomial> = rows.iter().map(|row| row.1).collect();
    let of_l = wanted(sets[1]);
    text += &format!("\nt of L: {}, t of U: {}\n\n| t |", name(of_l), name(of_l.mirror()));
    for (exponents, _) in &rows {
        text += &format!(" {} |", monomial_name(exponents, &names));
    }
    text += " L | U | strict |\n|--:|";
    text += &"---|".repeat(rows.len() + 3);
    text.push('\n');
    let list: Vec<Tested> = values(&monomials).into_iter().map(|t| tested(&monomials, sets[1], t)).collect();
    for value in &list {
        text += &format!("| {} |", value_name(value.t));
        for &sign in &value.signs {
            text += &format!(" {} |", sign_name(sign));
        }
        for held in [value.l, value.u, value.strict] {
            text += if held { " yes |" } else { " |" };
        }
        text.push('\n');
    }
    let finding = found(&list);
    text + &if finding.is_full() {
        "\nnothing is found of p\n".to_string()
    } else {
        format!("\np {} 0\n", name(finding))
    }
}
