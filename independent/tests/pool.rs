//! Document 02, #113: the pool after any sequence of calls, its refusals in order, the edges of its room, and the lines.

use std::collections::BTreeMap;

use independent::block::{read, write, write_in, Edition, Formula};
use independent::cases::polynomial;
use independent::polynomial::Polynomial;
use independent::pool::{corpus, listed, Pool, NUMBERS, SLOTS};
use independent::signs::SignSet;
use independent::tree::Node;

fn of_table(variables: usize, table: Vec<Polynomial>) -> Vec<u8> {
    write(&Formula { variables, table, tree: Node::And(vec![]) })
}

fn shift(k: i128) -> Polynomial {
    polynomial(&[(1, [1]), (-k, [0])])
}

fn shifts(ks: std::ops::Range<i128>) -> Vec<u8> {
    of_table(1, ks.map(shift).collect())
}

#[test]
fn repeats_multiples_and_negations_count_once() {
    let x = polynomial(&[(1, [1, 0])]);
    let table = vec![
        polynomial(&[(2, [1, 0]), (-1, [0, 0])]),
        polynomial(&[(-6, [1, 0]), (3, [0, 0])]),
        polynomial(&[(5, [0, 0])]),
        polynomial(&[(-4, [1, 0])]),
        x.clone(),
        polynomial(&[(2, [1, 0]), (-1, [0, 0])]),
        polynomial(&[(2, [1, 0]), (1, [0, 0])]),
    ];
    // one that the tree uses, and those that it does not
    let formula = Formula { variables: 2, table, tree: Node::atom(6, SignSet::LESS) };
    let two_x = |c| polynomial(&[(2, [1, 0]), (c, [0, 0])]);
    assert_eq!(listed(&formula), [two_x(-1), x, two_x(1)]);
    let mut pool = Pool::default();
    assert_eq!(pool.add(3, &write(&formula)), Ok(()));
    assert_eq!(pool.add(7, &of_table(2, vec![two_x(-1)])), Ok(()));
    let shown = "FORMS 3 BLOCKS 2\n0 2 3,7 2:1.0 -1:0.0\n1 1 3 1:1.0\n2 1 3 2:1.0 1:0.0\n";
    assert_eq!(pool.shown(), shown);
}

#[test]
fn refusals_in_their_order() {
    let mut pool = Pool::default();
    let fine = shifts(1..3);
    assert_eq!(pool.add(32, &fine[..7]), Err(4));
    assert_eq!(pool.add(32, &fine), Err(26));
    assert_eq!(pool.add(255, &[]), Err(2));
    assert_eq!(pool.withdraw(0), Err(26));
    assert_eq!(pool.withdraw(32), Err(26));
    assert_eq!(pool.add(31, &fine), Ok(()));
    assert_eq!(pool.add(31, &fine), Err(26));
    // 26 before 27, 27 before 28
    let two = of_table(2, vec![polynomial(&[(1, [1, 1])])]);
    assert_eq!(pool.add(31, &two), Err(26));
    assert_eq!(pool.add(30, &two), Err(27));
    assert_eq!(pool.add(1, &shifts(1..65)), Ok(()));
    assert_eq!(pool.add(2, &shifts(65..129)), Ok(()));
    let table = (0..15).map(|e| polynomial(&[(1, [e + 1, 0]), (1, [0, 1])])).collect();
    assert_eq!(pool.add(3, &of_table(2, table)), Err(27));
    assert_eq!(pool.add(3, &shifts(128..130)), Err(28));
    assert_eq!(pool.add(2, &shifts(128..130)), Err(26));
    assert_eq!(pool.add(3, &shifts(100..129)), Ok(()));
}

/// "an addition is refused as full exactly if the forms in use with the new ones would exceed 128"
#[test]
fn the_last_slot() {
    for (all, outcome) in [(127, Ok(())), (128, Ok(())), (129, Err(28))] {
        let mut pool = Pool::default();
        assert_eq!(pool.add(0, &shifts(1..65)), Ok(()));
        assert_eq!(pool.add(1, &shifts(60..100)), Ok(()));
        assert_eq!(pool.in_use(), 99);
        assert_eq!(pool.add(2, &shifts(90..all + 1)), outcome);
        assert_eq!(pool.in_use(), if outcome.is_ok() { all as usize } else { 99 });
    }
}

/// "Freed room is used again": the first free slots, in table order.
#[test]
fn freed_slots_are_used_again() {
    let mut pool = Pool::default();
    for (number, ks) in [(0, 1..4), (1, 2..6), (2, 4..8)] {
        assert_eq!(pool.add(number, &shifts(ks)), Ok(()));
    }
    assert_eq!(pool.withdraw(1), Ok(()));
    assert!(pool
        .shown()
        .starts_with("FORMS 7 BLOCKS 2\n0 1 0 1:1 -1:0\n1 1 0 1:1 -2:0\n2 1 0 1:1 -3:0\n3 1 2 "));
    assert_eq!(pool.withdraw(0), Ok(()));
    assert_eq!(pool.add(5, &shifts(10..14)), Ok(()));
    let shown = "FORMS 8 BLOCKS 2\n0 1 5 1:1 -10:0\n1 1 5 1:1 -11:0\n2 1 5 1:1 -12:0\n3 1 2 1:1 -4:0\n\
                 4 1 2 1:1 -5:0\n5 1 2 1:1 -6:0\n6 1 2 1:1 -7:0\n7 1 5 1:1 -13:0\n";
    assert_eq!(pool.shown(), shown);
}

/// A block that lists nothing is present and fixes n; with no block present any n is accepted.
#[test]
fn a_block_that_lists_nothing() {
    let mut pool = Pool::default();
    assert_eq!(pool.add(0, &of_table(3, vec![polynomial(&[(9, [0, 0, 0])])])), Ok(()));
    assert_eq!(pool.shown(), "FORMS 0 BLOCKS 1\n");
    assert_eq!(pool.add(1, &of_table(2, vec![])), Err(27));
    assert_eq!(pool.withdraw(0), Ok(()));
    assert_eq!(pool, Pool::default());
    assert_eq!(pool.add(1, &of_table(2, vec![])), Ok(()));
}

/// A second bookkeeping beside the pool: which blocks are present, by their bytes. "After any sequence of additions and
/// withdrawals the pool holds exactly the forms of the blocks present, each with the number of blocks that list it."
fn held_to(frames: &[Vec<u8>]) -> BTreeMap<String, usize> {
    let (mut pool, mut present) = (Pool::default(), BTreeMap::<usize, Vec<u8>>::new());
    let mut met: BTreeMap<String, usize> = BTreeMap::new();
    for frame in frames {
        let before = pool.clone();
        let line = pool.frame_lines(frame);
        let word = line
            .split_whitespace()
            .take(1 + usize::from(line.starts_with("REF")))
            .collect::<Vec<_>>()
            .join(" ");
        *met.entry(word).or_default() += 1;
        if line.starts_with("REFUSED") {
            assert_eq!(pool, before);
            continue;
        }
        match frame[0] {
            0 => present.clear(),
            1 => assert_eq!(present.insert(frame[1].into(), frame[2..].to_vec()), None),
            2 => assert!(present.remove(&frame[1].into()).is_some()),
            _ => {}
        }
        let mut counted: Vec<(Polynomial, Vec<usize>)> = vec![];
        for (&number, block) in &present {
            for form in listed(&read(block).unwrap()) {
                match counted.iter_mut().find(|known| known.0 == form) {
                    Some(known) => known.1.push(number),
                    None => counted.push((form, vec![number])),
                }
            }
        }
        assert_eq!(pool.in_use(), counted.len());
        assert!(counted.len() <= SLOTS && present.keys().all(|&number| number < NUMBERS));
        for (form, numbers) in counted {
            assert_eq!(pool.users(&form), numbers);
        }
    }
    met
}

#[test]
fn any_sequence_of_calls() {
    let met = held_to(&corpus(81, 3_000, write));
    for (word, least) in [
        ("ADDED", 10_000),
        ("WITHDRAWN", 4_000),
        ("REFUSED 26", 1_000),
        ("REFUSED 27", 300),
        ("REFUSED 28", 30),
    ] {
        assert!(met[word] > least, "{word}: {met:?}");
    }
    let met = held_to(&corpus(82, 500, |formula| write_in(Edition::Two, formula)));
    assert!(met["ADDED"] > 1_500, "{met:?}");
}

#[test]
fn equal_histories_give_equal_pools() {
    let frames = corpus(83, 200, write);
    let run = || {
        let mut pool = Pool::default();
        frames.iter().map(|frame| pool.frame_lines(frame)).collect::<String>()
    };
    assert_eq!(run(), run());
}

#[test]
fn lines_of_a_script() {
    let mut pool = Pool::default();
    let load = |file: &str| match file {
        "one" => Some(shifts(1..3)),
        "with a space" => Some(shifts(2..3)),
        _ => None,
    };
    for (line, told) in [
        ("add 3 one", "ADDED 3\n"),
        ("add 003 one", "REFUSED 26\n"),
        ("add 4 with a space", "ADDED 4\n"),
        ("add 5 none", "NO FILE\n"),
        ("add 99999999999999999999 one", "REFUSED 26\n"),
        ("add -1 one", "NO CALL\n"),
        ("add 5", "NO CALL\n"),
        ("add 5 ", "NO FILE\n"),
        ("withdraw 3 ", "NO CALL\n"),
        ("withdraw  3", "NO CALL\n"),
        ("withdraw", "NO CALL\n"),
        ("", "NO CALL\n"),
        ("show all", "NO CALL\n"),
        ("withdraw 3", "WITHDRAWN 3\n"),
        ("withdraw 3", "REFUSED 26\n"),
        ("show", "FORMS 1 BLOCKS 1\n1 1 4 1:1 -2:0\n"),
    ] {
        assert_eq!(pool.script_lines(line, load), told, "{line}");
    }
}
