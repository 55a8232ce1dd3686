//! Document 02, #109: both editions read, written, converted and answered.
//! The blocks on which careful readers could differ, each refusal of edition 2 in its order, and there and back.

use independent::answer::{answer, report};
use independent::block::{edition_of, read, write_in, Edition};
use independent::cases::cases;
use independent::convert::{all_in, convert, corpus as conversions, frame_lines, longest, to_the_other};
use independent::corpus::{damaged_in, put_length_right, random_formula, trees, uses, valid};
use independent::edge::{blocks_in, middle_in, Reading};
use independent::pairs::SAID;
use independent::random::Random;

const ENOUGH: usize = 65_535;

fn bytes(text: &str) -> Vec<u8> {
    text.split(' ').map(|pair| u8::from_str_radix(pair, 16).unwrap()).collect()
}

#[test]
fn what_careful_readers_could_differ_on() {
    for (text, wanted) in [
        ("21 01 01 00 0e 08 00 00 00 08 80 00 40 08", Some(22)),
        ("21 01 01 00 0c 08 00 00 00 08 8c 40", Some(6)),
        ("21 01 01 00 0b 08 00 00 00 00 80", Some(8)),
        ("21 01 01 00 0b 08 00 00 00 0f c0", Some(21)),
        ("21 01 01 00 12 10 00 00 00 08 00 00 00 00 42 00 00 40", Some(23)),
        ("21 01 01 00 13 10 00 00 00 08 40 40 00 00 00 42 2a 00 40", None),
    ] {
        assert_eq!(read(&bytes(text)).err(), wanted, "{text}");
        assert!(SAID.iter().any(|said| said.0 == bytes(text)));
    }
}

#[test]
fn case_a_in_edition_2() {
    let case_a = write_in(Edition::Two, &cases()[0].formula);
    let told = "FORMULA 2 1 2 1\n21 01 01 00 12 10 00 00 00 10 40 60 00 00 00 40 01 00\n";
    assert_eq!(report(&case_a), told);
}

#[test]
fn each_edge_block_is_read_as_stated() {
    for edge in blocks_in(Edition::Two) {
        let read = read(&edge.bytes);
        match edge.reading {
            Reading::Accepted => assert!(read.is_ok(), "{}: {read:?}", edge.note),
            Reading::Refused(number) => assert_eq!(read.err(), Some(number), "{}", edge.note),
            Reading::Either => {}
        }
    }
}

#[test]
fn each_number_is_met_in_three_ways() {
    for number in (2..=15).chain(21..=23) {
        let edges = blocks_in(Edition::Two);
        let met = edges.iter().filter(|edge| edge.reading == Reading::Refused(number));
        let mut notes: Vec<&str> = met.map(|edge| edge.note.as_str()).collect();
        assert!(notes.len() >= 3, "refusal {number}: {notes:?}");
        notes.dedup();
        assert!(notes.len() >= 2 || number == 2, "refusal {number}: {notes:?}");
    }
    let accepted = blocks_in(Edition::Two).iter().filter(|edge| edge.reading == Reading::Accepted).count();
    assert!(accepted > 60, "{accepted} accepted");
}

#[test]
fn damaged_blocks_meet_each_refusal() {
    let blocks = damaged_in(Edition::Two, 46, 6_000);
    for number in (2..=15).chain(21..=23) {
        let met = blocks.iter().filter(|block| read(block).err() == Some(number)).count();
        assert!(met >= 10, "refusal {number} is met {met} times");
    }
    assert!(blocks.iter().filter(|block| read(block).is_ok()).count() > 300);
}

#[test]
fn a_formula_reads_back_in_both() {
    let mut random = Random::new(71);
    for _ in 0..3_000 {
        let formula = random_formula(&mut random);
        for edition in Edition::BOTH {
            let block = write_in(edition, &formula);
            assert_eq!(edition_of(&block), Some(edition));
            assert_eq!(read(&block).as_ref(), Ok(&formula));
        }
    }
}

/// "one block for one table and tree ... within an edition": what is accepted is what its formula is written as.
#[test]
fn an_accepted_block_is_written_back() {
    let mut accepted = 0;
    let edges = blocks_in(Edition::Two).into_iter().map(|edge| edge.bytes);
    for block in damaged_in(Edition::Two, 43, 6_000).into_iter().chain(edges) {
        if let Ok(formula) = read(&block) {
            accepted += 1;
            assert_eq!(write_in(edition_of(&block).unwrap(), &formula), block);
        }
    }
    assert!(accepted > 1_200, "{accepted} accepted");
}

#[test]
fn no_prefix_and_no_extension_is_accepted() {
    for block in all_in(Edition::Two, valid(31, 150)) {
        for length in 0..block.len() {
            let mut prefix = block[..length].to_vec();
            assert_eq!(read(&prefix).err(), Some(if length < 5 { 2 } else { 4 }));
            if length >= 5 {
                put_length_right(&mut prefix);
                assert_eq!(read(&prefix).err(), Some(6), "{length} bytes of {block:?}");
            }
        }
        for more in [vec![0], vec![1], vec![0, 0], vec![0xff; 7]] {
            let mut longer = block.clone();
            longer.extend(more);
            assert_eq!(read(&longer).err(), Some(4));
            put_length_right(&mut longer);
            assert_eq!(read(&longer).err(), Some(15));
        }
    }
}

#[test]
fn a_flipped_bit_is_refused_or_read_as_another_formula() {
    let block = middle_in(Edition::Two);
    let original = read(&block).unwrap();
    let mut refusals = vec![];
    for bit in 0..8 * block.len() {
        let mut flipped = block.clone();
        flipped[bit / 8] ^= 0x80 >> (bit % 8);
        match read(&flipped) {
            Ok(formula) => {
                assert_ne!(formula, original, "bit {bit}");
                assert_eq!(write_in(Edition::Two, &formula), flipped, "bit {bit}");
            }
            Err(number) => refusals.push(number),
        }
    }
    assert!([21, 22, 23].iter().all(|number| refusals.contains(number)), "{refusals:?}");
}

/// "Old to new to old gives the same bytes, and so does new to old to new"; a block in its own edition stays.
#[test]
fn there_and_back() {
    let corpora = [valid(72, 1_500), uses(73, 300), trees(74, 100)].concat();
    let edges = blocks_in(Edition::One).into_iter().chain(blocks_in(Edition::Two)).map(|edge| edge.bytes);
    let (mut longer, mut shorter) = (0, 0);
    for block in corpora.into_iter().chain(edges) {
        let Ok(formula) = read(&block) else {
            assert_eq!(to_the_other(&block, 0).err(), read(&block).err());
            continue;
        };
        let own = edition_of(&block).unwrap();
        assert_eq!(convert(own, &block, ENOUGH).as_ref(), Ok(&block));
        let there = convert(own.other(), &block, ENOUGH).unwrap();
        assert_eq!(read(&there), Ok(formula));
        assert_eq!(convert(own, &there, ENOUGH).as_ref(), Ok(&block));
        longer += usize::from(there.len() > block.len());
        shorter += usize::from(there.len() < block.len());
    }
    assert!(longer > 300 && shorter > 300, "{longer} longer, {shorter} shorter");
}

/// "1 after all others, if the output is shorter than the finished block": an output shorter than the input is fine.
#[test]
fn a_short_output_is_refused_last() {
    let mut smaller = 0;
    for block in valid(75, 500).into_iter().chain(all_in(Edition::Two, valid(75, 500))) {
        for to in Edition::BOTH {
            let finished = convert(to, &block, ENOUGH).unwrap();
            assert_eq!(convert(to, &block, finished.len()).as_ref(), Ok(&finished));
            assert_eq!(convert(to, &block, finished.len() - 1).err(), Some(1));
            smaller += usize::from(finished.len() < block.len());
        }
        let mut wrong = block.clone();
        wrong[4] ^= 1;
        assert_eq!(convert(Edition::One, &wrong, 0).err(), Some(4));
    }
    assert!(smaller > 200, "{smaller}");
}

/// "The simplifier answers in the edition it was given", never longer within it; "demand 3's byte count".
#[test]
fn answers_are_the_same_in_both() {
    for block in [valid(76, 1_500), uses(77, 200), trees(78, 60)].concat() {
        let second = convert(Edition::Two, &block, ENOUGH).unwrap();
        let (one, two) = (answer(&block, block.len()).unwrap(), answer(&second, second.len()).unwrap());
        assert_eq!(one.simplified, two.simplified);
        assert_eq!((one.verdict, one.rounds, one.places), (two.verdict, two.rounds, two.places));
        assert_eq!(two.bytes, convert(Edition::Two, &one.bytes, ENOUGH).unwrap());
        assert!(two.bytes.len() <= second.len());
        assert_eq!(answer(&second, second.len() - 1).err(), Some(1));
    }
}

#[test]
fn the_longest_blocks() {
    for (edition, length) in [(Edition::One, 12_684), (Edition::Two, 21_516)] {
        let block = longest(edition);
        assert_eq!(block.len(), length);
        assert!(read(&block).is_ok());
        // each polynomial as long as can be: 16 terms, in edition 2 with 16 pairs each
        let other = convert(edition.other(), &block, ENOUGH).unwrap();
        assert_eq!(other, longest(edition.other()));
    }
}

#[test]
fn the_corpus_of_conversions() {
    let frames = conversions(7, 100);
    assert!(frames.iter().all(|frame| frame.len() >= 2 && frame.len() <= 32_768));
    let lines: String = frames.iter().map(|frame| frame_lines(frame)).collect();
    assert_eq!(lines.lines().count(), 2 * frames.len());
    for number in (1..=15).chain(21..=23) {
        let line = format!("REFUSED {number}");
        assert!(lines.lines().filter(|&told| told == line).count() >= 6, "{line}");
    }
    for start in ["1", "2"] {
        assert!(lines.lines().filter(|told| told.starts_with(start)).count() > 1_000);
    }
}
