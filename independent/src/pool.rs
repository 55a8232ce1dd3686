//! Request #113: "one pool of 128 normal forms". Blocks come and go by their numbers; what a form counts is counted anew from them.
//! And the streams of calls that pools are run on.

use std::collections::BTreeMap;

use crate::block::{read, Formula, Refusal};
use crate::corpus::{fitted, flip, put_length_right, random_table, times};
use crate::polynomial::{Polynomial, Term};
use crate::random::Random;
use crate::signs::SignSet;
use crate::tree::Node;

pub const SLOTS: usize = 128;
/// "Up to 32 blocks, each by a number"
pub const NUMBERS: usize = 32;

/// A block that is present: its variable number, and the forms that it lists.
#[derive(Clone, Debug, PartialEq, Eq)]
struct Listing {
    variables: usize,
    forms: Vec<Polynomial>,
}

#[derive(Clone, Debug, PartialEq, Eq)]
pub struct Pool {
    slots: Vec<Option<Polynomial>>,
    present: BTreeMap<usize, Listing>,
}

impl Default for Pool {
    fn default() -> Pool {
        Pool { slots: vec![None; SLOTS], present: BTreeMap::new() }
    }
}

/// "A block lists the different normal forms of its non-constant table polynomials, used in the tree or not; repeats,
/// multiples and negations count once."
pub fn listed(formula: &Formula) -> Vec<Polynomial> {
    let mut forms: Vec<Polynomial> = vec![];
    for polynomial in &formula.table {
        let (form, _) = polynomial.normal_form();
        if !form.is_constant() && !forms.contains(&form) {
            forms.push(form);
        }
    }
    forms
}

impl Pool {
    /// "Refusals, in this order after the reader's: 26 block number above 31, already present on adding or absent on
    /// withdrawal; 27 variable number n differs from that of the blocks present; 28 pool full."
    pub fn add(&mut self, number: usize, block: &[u8]) -> Result<(), Refusal> {
        let formula = read(block)?;
        if number >= NUMBERS || self.present.contains_key(&number) {
            return Err(26);
        }
        if self.present.values().any(|listing| listing.variables != formula.variables) {
            return Err(27);
        }
        let forms = listed(&formula);
        let new: Vec<&Polynomial> = forms.iter().filter(|&form| !self.holds(form)).collect();
        // "refused as full exactly if the forms in use with the new ones would exceed 128"
        if self.in_use() + new.len() > SLOTS {
            return Err(28);
        }
        // "New forms go, in table order, to the first free slot"
        for form in new {
            let free = self.slots.iter_mut().find(|slot| slot.is_none()).expect("there is room");
            *free = Some(form.clone());
        }
        self.present.insert(number, Listing { variables: formula.variables, forms });
        Ok(())
    }

    /// "withdrawing the block lowers the counts and frees forms with no use"
    pub fn withdraw(&mut self, number: usize) -> Result<(), Refusal> {
        if self.present.remove(&number).is_none() {
            return Err(26);
        }
        for slot in &mut self.slots {
            let used = |form: &Polynomial| self.present.values().any(|listing| listing.forms.contains(form));
            if !slot.as_ref().is_some_and(used) {
                *slot = None;
            }
        }
        Ok(())
    }

    fn holds(&self, form: &Polynomial) -> bool {
        self.slots.iter().flatten().any(|held| held == form)
    }

    pub fn in_use(&self) -> usize {
        self.slots.iter().flatten().count()
    }

    /// The numbers of the blocks present that list a form, rising.
    pub fn users(&self, form: &Polynomial) -> Vec<usize> {
        let users = self.present.iter().filter(|(_, listing)| listing.forms.contains(form));
        users.map(|(&number, _)| number).collect()
    }

    /// "`FORMS k BLOCKS b`, then a line for each form in slot order: the slot, the use count, the numbers of its blocks
    /// joined by commas, and the form as `c:e1.e2..en` for each term, one space apart"
    pub fn shown(&self) -> String {
        let mut text = format!("FORMS {} BLOCKS {}\n", self.in_use(), self.present.len());
        for (at, slot) in self.slots.iter().enumerate() {
            let Some(form) = slot else { continue };
            let users = self.users(form);
            let numbers: Vec<String> = users.iter().map(usize::to_string).collect();
            let terms: Vec<String> = form.terms.iter().map(shown_term).collect();
            text += &format!("{at} {} {} {}\n", users.len(), numbers.join(","), terms.join(" "));
        }
        text
    }

    fn add_line(&mut self, number: usize, block: &[u8]) -> String {
        match self.add(number, block) {
            Ok(()) => format!("ADDED {number}\n"),
            Err(refusal) => format!("REFUSED {refusal}\n"),
        }
    }

    fn withdraw_line(&mut self, number: usize) -> String {
        match self.withdraw(number) {
            Ok(()) => format!("WITHDRAWN {number}\n"),
            Err(refusal) => format!("REFUSED {refusal}\n"),
        }
    }

    /// A frame of a stream: an operation (0 a new pool, 1 an addition, 2 a withdrawal, 3 what the pool holds), a number, and
    /// for an addition the block.
    pub fn frame_lines(&mut self, frame: &[u8]) -> String {
        match frame {
            [0, _] => {
                *self = Pool::default();
                String::new()
            }
            [1, number, block @ ..] => self.add_line(usize::from(*number), block),
            [2, number] => self.withdraw_line(usize::from(*number)),
            [3, _] => self.shown(),
            _ => "NO CALL\n".to_string(),
        }
    }

    /// A line of a script: `add N FILE`, `withdraw N` or `show`. Numbers above 255 are taken for 255.
    pub fn script_lines(&mut self, line: &str, load: impl Fn(&str) -> Option<Vec<u8>>) -> String {
        let mut words = line.splitn(3, ' ');
        let call = (words.next(), words.next().map(number_of), words.next());
        match call {
            (Some("add"), Some(Some(number)), Some(file)) => match load(file) {
                Some(block) => self.add_line(number, &block),
                None => "NO FILE\n".to_string(),
            },
            (Some("withdraw"), Some(Some(number)), None) => self.withdraw_line(number),
            (Some("show"), None, None) => self.shown(),
            _ => "NO CALL\n".to_string(),
        }
    }
}

fn number_of(word: &str) -> Option<usize> {
    if word.is_empty() || !word.bytes().all(|byte| byte.is_ascii_digit()) {
        return None;
    }
    Some(word.bytes().fold(0, |sum, digit| (10 * sum + usize::from(digit - b'0')).min(255)))
}

fn shown_term(term: &Term) -> String {
    let exponents: Vec<String> = term.exponents.iter().map(u8::to_string).collect();
    format!("{}:{}", term.coefficient, exponents.join("."))
}

// -------------------------------------------------------------------------------------- the corpus

/// How a formula is written: the edition of a stream's blocks.
type Writer = fn(&Formula) -> Vec<u8>;

const NEW_POOL: [u8; 2] = [0, 0];
const SHOW: [u8; 2] = [3, 0];

fn addition(number: usize, block: &[u8]) -> Vec<u8> {
    let mut frame = vec![1, number as u8];
    frame.extend(block);
    frame
}

fn withdrawal(number: usize) -> Vec<u8> {
    vec![2, number as u8]
}

/// So many random sequences of calls, and the ones about a full pool and all numbers.
pub fn corpus(seed: u64, count: usize, write: Writer) -> Vec<Vec<u8>> {
    let mut random = Random::new(seed);
    let mut frames = vec![];
    for all in [127, 128, 129] {
        for shared in [0, 1, 30] {
            frames.extend(full(all, shared, write));
        }
        frames.extend(filled(&mut random, all, write));
    }
    frames.extend(every_number(write));
    frames.extend(other_variables(write));
    frames.extend(at_the_limits(write));
    for _ in 0..count {
        frames.extend(sequence(&mut random, write));
    }
    frames
}

/// x - k over n variables.
fn shifted(n: usize, k: i128) -> Polynomial {
    let mut form = Polynomial::of_variable(n, 0);
    form.terms.push(Term { coefficient: -k, exponents: vec![0; n] });
    form
}

fn of_table(n: usize, table: Vec<Polynomial>, write: Writer) -> Vec<u8> {
    write(&Formula { variables: n, table, tree: Node::And(vec![]) })
}

/// x - k for these k.
fn shifts(ks: impl Iterator<Item = i128>, write: Writer) -> Vec<u8> {
    of_table(1, ks.map(|k| shifted(1, k)).collect(), write)
}

/// Blocks of 64 polynomials up to so many forms in use, of which some are listed twice; what is one too many; and room used
/// again.
fn full(all: i128, shared: i128, write: Writer) -> Vec<Vec<u8>> {
    let rest = all - 64 + shared;
    vec![
        NEW_POOL.to_vec(),
        addition(31, &shifts(1..65, write)),
        addition(7, &shifts((65 - shared..all + 1).take(64), write)),
        SHOW.to_vec(),
        // the rest of them, where one block did not list them all
        addition(8, &shifts((65 - shared..all + 1).skip(64), write)),
        addition(0, &shifts(all + 1..all + 2, write)),
        addition(1, &shifts(all + 2..all + 4, write)),
        // what is there already fits into a full pool
        addition(2, &shifts((60..65).chain(1..4), write)),
        addition(3, &shifts(3..6, write)),
        SHOW.to_vec(),
        withdrawal(31),
        SHOW.to_vec(),
        // the freed room is used again, to the last slot and not beyond
        addition(4, &shifts(200..264, write)),
        addition(5, &shifts(300..300 + (SLOTS as i128 - rest).min(64), write)),
        addition(6, &shifts(400..401, write)),
        SHOW.to_vec(),
        withdrawal(7),
        withdrawal(7),
        addition(9, &shifts((400..464).rev(), write)),
        SHOW.to_vec(),
    ]
}

/// So many forms, in small blocks of any order.
fn filled(random: &mut Random, all: i128, write: Writer) -> Vec<Vec<u8>> {
    let mut frames = vec![NEW_POOL.to_vec()];
    let (mut next, mut number) = (1, 0);
    while next <= all {
        let size = (1 + random.below(12) as i128).min(all - next + 1);
        let again = (0..random.below(4)).map(|_| 1 + random.below(next as usize) as i128);
        let again: Vec<i128> = again.filter(|&k| k < next).collect();
        frames.push(addition(number, &shifts((next..next + size).chain(again), write)));
        next += size;
        number += 1;
        if number == NUMBERS {
            frames.push(withdrawal(random.below(NUMBERS)));
            number = 0;
        }
    }
    frames.push(SHOW.to_vec());
    for number in [3, 31, 1, 3, 0] {
        frames.push(withdrawal(number));
    }
    frames.push(addition(3, &shifts(500..564, write)));
    frames.push(SHOW.to_vec());
    frames.push(addition(1, &shifts(600..620, write)));
    frames.push(SHOW.to_vec());
    frames
}

/// All 32 numbers, one more, and each again.
fn every_number(write: Writer) -> Vec<Vec<u8>> {
    let mut frames = vec![NEW_POOL.to_vec()];
    for number in (0..NUMBERS + 2).chain([31, 32, 63, 64, 128, 255]) {
        frames.push(addition(number, &shifts([1, number as i128 % 5 + 2].into_iter(), write)));
    }
    frames.push(SHOW.to_vec());
    for number in [31, 31, 32, 33, 64, 255, 0, 5] {
        frames.push(withdrawal(number));
    }
    frames.push(SHOW.to_vec());
    for number in [5, 31, 0, 32, 31] {
        frames.push(addition(number, &shifts(7..9, write)));
    }
    frames.push(SHOW.to_vec());
    frames
}

/// "with no block present any n is accepted": another n while one is present, while only one is that lists nothing, and after
/// the last withdrawal.
fn other_variables(write: Writer) -> Vec<Vec<u8>> {
    let mut frames = vec![NEW_POOL.to_vec()];
    let nothing = |n| of_table(n, vec![], write);
    let x = |n| of_table(n, vec![Polynomial::of_variable(n, 0)], write);
    for (number, block) in [(4, nothing(2)), (5, x(3)), (5, x(2)), (6, nothing(1)), (4, x(3)), (32, x(3))] {
        frames.push(addition(number, &block));
        frames.push(SHOW.to_vec());
    }
    for number in [4, 6, 5, 5] {
        frames.push(withdrawal(number));
        frames.push(addition(31, &x(16)));
        frames.push(SHOW.to_vec());
        frames.push(withdrawal(31));
    }
    frames.push(addition(31, &nothing(16)));
    frames.push(addition(30, &x(2)));
    frames.push(addition(30, &x(16)));
    frames.push(SHOW.to_vec());
    frames
}

/// Forms at the limits of a block: 16 terms, 16 variables, the largest magnitude and exponent, common divisors.
fn at_the_limits(write: Writer) -> Vec<Vec<u8>> {
    let most = crate::block::LARGEST_MAGNITUDE;
    let of = |terms: &[(i128, u8)]| {
        let terms =
            terms.iter().map(|&(coefficient, exponent)| Term { coefficient, exponents: vec![exponent; 16] });
        Polynomial { terms: terms.collect() }
    };
    let long: Vec<(i128, u8)> = (0..16).rev().map(|e| (most - i128::from(e), e)).collect();
    let negated: Vec<(i128, u8)> = long.iter().map(|&(c, e)| (-c, e)).collect();
    let table = vec![
        of(&long),
        of(&negated),
        of(&[(most, 15)]),
        of(&[(-most, 15), (most, 14)]),
        of(&[(1, 15), (-1, 14)]),
        of(&[(2_147_483_646, 3), (-2, 0)]),
        of(&[(-1_073_741_823, 3), (1, 0)]),
        of(&[(most, 0)]),
        of(&[(-7, 0)]),
    ];
    let mut frames = vec![NEW_POOL.to_vec(), addition(0, &of_table(16, table.clone(), write)), SHOW.to_vec()];
    for (number, polynomial) in table.into_iter().enumerate() {
        frames.push(addition(number + 1, &of_table(16, vec![polynomial], write)));
    }
    frames.push(SHOW.to_vec());
    frames.push(withdrawal(0));
    frames.push(SHOW.to_vec());
    frames
}

/// A few calls over few forms.
fn sequence(random: &mut Random, write: Writer) -> Vec<Vec<u8>> {
    let n = random.pick(&[1, 1, 2, 2, 2, 3, 4, 16]);
    let size = 2 + random.below(7);
    let mut palette = random_table(random, n, size);
    palette.push(Polynomial { terms: vec![Term { coefficient: 3, exponents: vec![0; n] }] });
    let other = random_table(random, n % 16 + 1, 3);
    let mut pool = Pool::default();
    let mut last = some_block(random, n, &palette, write);
    let mut frames = vec![NEW_POOL.to_vec()];
    for _ in 0..3 + random.below(14) {
        let call = random.below(20);
        let number = some_number(random, &pool, call < 12);
        match call {
            0..=8 => {
                last = some_block(random, n, &palette, write);
                frames.push(addition(number, &last));
            }
            9 => frames.push(addition(number, &last)),
            10 => frames.push(addition(number, &some_block(random, n % 16 + 1, &other, write))),
            11 => {
                let block = some_block(random, n, &palette, write);
                frames.push(addition(number, &wrong(random, block)));
            }
            12..=17 => frames.push(withdrawal(number)),
            // all of them, so that another n may come
            _ if random.percent(30) => {
                frames.extend((0..NUMBERS).filter(|k| pool.present.contains_key(k)).map(withdrawal))
            }
            _ => {}
        }
        if random.percent(25) {
            frames.push(SHOW.to_vec());
        }
        pool = Pool::default();
        for frame in &frames {
            pool.frame_lines(frame);
        }
    }
    frames.push(SHOW.to_vec());
    frames
}

/// A number that will do, mostly: an absent one for an addition, a present one for a withdrawal. Else any, 31 and 32 often.
fn some_number(random: &mut Random, pool: &Pool, adding: bool) -> usize {
    if random.percent(70) {
        let wanted = [0, 1, 2, 3, 4, 30, 31].into_iter().filter(|k| pool.present.contains_key(k) != adding);
        let wanted: Vec<usize> = wanted.collect();
        if !wanted.is_empty() {
            return random.pick(&wanted);
        }
    }
    match random.below(8) {
        0..=3 => random.below(NUMBERS),
        4 => 31,
        5 | 6 => 32,
        _ => random.pick(&[33, 64, 127, 128, 200, 255]),
    }
}

/// A table of some of these polynomials, repeats, multiples and negations among them, and a tree that uses some or none.
fn some_block(random: &mut Random, n: usize, palette: &[Polynomial], write: Writer) -> Vec<u8> {
    let mut table = vec![];
    for _ in 0..random.below(6) {
        let factor = random.pick(&[1, 1, 1, -1, 2, -3]);
        table.push(fitted(&times(&palette[random.below(palette.len())], factor)));
    }
    let mut atoms = vec![];
    for number in 0..table.len() {
        if random.percent(30) {
            atoms.push(Node::atom(number, SignSet::from_bits(random.below(8) as u64)));
        }
    }
    write(&Formula {
        variables: n,
        table,
        tree: if random.percent(50) { Node::And(atoms) } else { Node::Or(atoms) },
    })
}

/// Cut, longer, or with a bit flipped: refused by the reader, or another block.
fn wrong(random: &mut Random, mut block: Vec<u8>) -> Vec<u8> {
    match random.below(4) {
        0 => block.truncate(random.below(block.len())),
        1 => {
            block.truncate(1 + random.below(block.len()));
            put_length_right(&mut block);
        }
        2 => {
            block.push(random.pick(&[0, 1, 128]));
            put_length_right(&mut block);
        }
        _ => {
            let bit = random.below(8 * block.len());
            flip(&mut block, bit);
        }
    }
    block
}
