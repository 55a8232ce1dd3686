//! Each refusal number in several ways, the limits, and that an accepted block has no other form.
//! The edge blocks carry what reading them must give.

use independent::answer::answer;
use independent::block::{read, write};
use independent::corpus::{put_length_right, valid};
use independent::edge::{blocks, middle, Reading};

#[test]
fn each_edge_block_is_read_as_stated() {
    for edge in blocks() {
        let read = read(&edge.bytes);
        match edge.reading {
            Reading::Accepted => assert!(read.is_ok(), "{}: {read:?}", edge.note),
            Reading::Refused(number) => assert_eq!(read.err(), Some(number), "{}", edge.note),
            Reading::Either => {}
        }
    }
}

#[test]
fn each_number_is_met_in_three_ways() {
    for number in 2..=15 {
        let mut notes: Vec<String> = vec![];
        let mut ways = 0;
        for edge in blocks() {
            if edge.reading == Reading::Refused(number) {
                ways += 1;
                notes.push(edge.note);
            }
        }
        notes.dedup();
        assert!(ways >= 3, "refusal {number}: {notes:?}");
        assert!(notes.len() >= 2 || number == 2, "refusal {number}: {notes:?}");
    }
    let accepted = blocks().iter().filter(|edge| edge.reading == Reading::Accepted).count();
    assert!(accepted > 60, "{accepted} accepted");
}

/// 1: "lent output shorter than lent input", before all others.
#[test]
fn a_short_output_is_refused_first() {
    let block = middle();
    assert_eq!(answer(&block, block.len() - 1).err(), Some(1));
    assert_eq!(answer(&block, 0).err(), Some(1));
    assert_eq!(answer(&[0], 0).err(), Some(1));
    assert_eq!(answer(&[], 0).err(), Some(2));
    assert_eq!(answer(&[0], 1).err(), Some(2));
    assert!(answer(&block, block.len()).is_ok());
    assert!(answer(&block, block.len() + 1).is_ok());
}

/// Two accepted blocks that differ hold different formulas: each is what its formula is written as.
#[test]
fn a_flipped_bit_is_refused_or_read_as_another_formula() {
    let block = middle();
    assert_eq!(block.len(), 60);
    let original = read(&block).unwrap();
    let mut accepted = 0;
    for bit in 0..8 * block.len() {
        let mut flipped = block.clone();
        flipped[bit / 8] ^= 0x80 >> (bit % 8);
        if let Ok(formula) = read(&flipped) {
            accepted += 1;
            assert_ne!(formula, original, "bit {bit}");
            assert_eq!(write(&formula), flipped, "bit {bit}");
        }
    }
    assert!(accepted > 200 && accepted < 8 * block.len() - 40, "{accepted} accepted");
}

#[test]
fn no_prefix_and_no_extension_is_accepted() {
    for block in valid(31, 150) {
        for length in 0..block.len() {
            let mut prefix = block[..length].to_vec();
            assert_eq!(read(&prefix).err(), Some(if length < 5 { 2 } else { 4 }));
            if length >= 5 {
                put_length_right(&mut prefix);
                assert_eq!(read(&prefix).err(), Some(6), "{length} bytes of {block:?}");
            }
        }
        for more in [vec![0], vec![1], vec![0, 0], vec![0xff; 7]] {
            let mut longer = block.clone();
            longer.extend(more);
            assert_eq!(read(&longer).err(), Some(4));
            put_length_right(&mut longer);
            assert_eq!(read(&longer).err(), Some(15));
        }
    }
}

/// The first refusal counts: what stands later in the order, or later in the block, does not.
#[test]
fn an_earlier_refusal_hides_the_later() {
    let block = middle();
    let with = |bytes: &[(usize, u8)]| {
        let mut block = block.clone();
        for &(at, byte) in bytes {
            block[at] = byte;
        }
        read(&block).err()
    };
    let wrong_edition = (0, 0x31);
    let wrong_length = (4, 59);
    let no_nodes = (2, 0);
    let no_terms = (5, 0);
    let padding = (59, block[59] | 1);
    assert_eq!(with(&[wrong_edition, wrong_length, no_nodes, no_terms, padding]), Some(3));
    assert_eq!(with(&[wrong_length, no_nodes, no_terms, padding]), Some(4));
    assert_eq!(with(&[no_nodes, no_terms, padding]), Some(5));
    assert_eq!(with(&[no_terms, padding]), Some(7));
    assert_eq!(with(&[padding]), Some(15));
    assert_eq!(with(&[]), None);
}
