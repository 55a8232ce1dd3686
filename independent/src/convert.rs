//! Request #109: "a converter each way". A block of either edition in, the same formula's block in the edition asked for out.
//! And the corpus that converters are run on: blocks with the number of bytes that is lent for the output.

use crate::block::{edition_of, read, write_in, Edition, Refusal};
use crate::corpus;
use crate::random::Random;
use crate::{cases, edge, uses};

/// "the converter gives 1 after all others, if the output is shorter than the finished block."
pub fn convert(to: Edition, input: &[u8], room: usize) -> Result<Vec<u8>, Refusal> {
    let formula = read(input)?;
    let finished = write_in(to, &formula);
    if room < finished.len() {
        return Err(1);
    }
    Ok(finished)
}

/// The block in the other edition; or the refusal.
pub fn to_the_other(input: &[u8], room: usize) -> Result<Vec<u8>, Refusal> {
    convert(edition_of(input).map_or(Edition::One, Edition::other), input, room)
}

/// The same blocks, each accepted one in this edition and the others as they are.
pub fn all_in(edition: Edition, blocks: Vec<Vec<u8>>) -> Vec<Vec<u8>> {
    let converted = |block: Vec<u8>| convert(edition, &block, usize::MAX).unwrap_or(block);
    blocks.into_iter().map(converted).collect()
}

fn line(outcome: Result<Vec<u8>, Refusal>) -> String {
    match outcome {
        Err(refusal) => format!("REFUSED {refusal}\n"),
        Ok(bytes) => bytes.iter().map(|byte| format!("{byte:02x}")).collect::<Vec<_>>().join(" ") + "\n",
    }
}

/// A frame of the corpus, the room in two bytes and a block: its conversion to edition 1, and to edition 2.
pub fn frame_lines(frame: &[u8]) -> String {
    let room = usize::from(frame[0]) * 256 + usize::from(frame[1]);
    Edition::BOTH.into_iter().map(|to| line(convert(to, &frame[2..], room))).collect()
}

// -------------------------------------------------------------------------------------- the corpus

fn frame(room: usize, block: &[u8]) -> Vec<u8> {
    let mut frame = vec![(room / 256) as u8, (room % 256) as u8];
    frame.extend(block);
    frame
}

const MOST: usize = 65_535;

/// The edge blocks of both editions, the cases, random blocks and damaged ones of both editions, with room enough; each
/// edition's longest block; and blocks with just the room that they need, one byte less, none, and less than their own length.
pub fn corpus(seed: u64, count: usize) -> Vec<Vec<u8>> {
    let mut frames = vec![];
    let mut random = Random::new(seed);
    for edition in Edition::BOTH {
        for block in edge::blocks_in(edition) {
            // What is refused is refused whatever the room is: 1 comes "after all others".
            if block.bytes.len() <= 32_766 {
                frames.push(frame(random.pick(&[MOST, MOST, MOST, 0, 4]), &block.bytes));
            }
        }
        for block in blocks(seed, count, edition) {
            frames.push(frame(MOST, &block));
        }
        frames.push(frame(MOST, &longest(edition)));
        for block in corpus::damaged_in(edition, seed, count) {
            frames.push(frame(random.pick(&[MOST, 0, block.len(), 64]), &block));
        }
        for block in blocks(seed + 1, count / 4, edition) {
            frames.extend(rooms(&block).into_iter().map(|room| frame(room, &block)));
        }
        let block = longest(edition);
        frames.extend(rooms(&block).into_iter().map(|room| frame(room, &block)));
    }
    frames
}

/// The cases and random blocks, unused, equal and constant polynomials among them.
fn blocks(seed: u64, count: usize, edition: Edition) -> Vec<Vec<u8>> {
    let known = cases::cases().into_iter().chain(cases::later_cases());
    let mut list: Vec<Vec<u8>> = known.map(|case| write_in(edition, &case.formula)).collect();
    list.extend(all_in(edition, uses::blocks().into_iter().map(|known| known.bytes).collect()));
    list.extend(all_in(edition, corpus::valid(seed, count)));
    list.extend(all_in(edition, corpus::uses(seed, count / 2)));
    list.extend(all_in(edition, corpus::trees(seed, count / 8)));
    list
}

/// For each of the finished blocks its length, one byte less, and none; and one byte less than the block's own length.
fn rooms(block: &[u8]) -> Vec<usize> {
    let mut rooms = vec![0, block.len() - 1, block.len()];
    for to in Edition::BOTH {
        let finished = convert(to, block, MOST).expect("an accepted block").len();
        rooms.extend([finished - 1, finished, finished + 1]);
    }
    rooms.sort();
    rooms.dedup();
    rooms
}

/// 64 polynomials of 16 terms over 16 variables, every exponent above 0, and a tree of 255 nodes: as long as a block can be.
pub fn longest(edition: Edition) -> Vec<u8> {
    use crate::block::{Formula, LARGEST_MAGNITUDE};
    use crate::polynomial::{Polynomial, Term};
    use crate::signs::SignSet;
    use crate::tree::Node;
    let term = |k: usize, place: usize| {
        let mut exponents = vec![1 + ((k + place) % 15) as u8; 16];
        exponents[0] = 15 - (place / 15) as u8;
        exponents[1] = 15 - (place % 15) as u8;
        Term { coefficient: LARGEST_MAGNITUDE - (16 * k + place) as i128, exponents }
    };
    let table =
        (0..64).map(|k| Polynomial { terms: (0..16).map(|place| term(k, place)).collect() }).collect();
    let atoms = (0..254).map(|at| Node::atom(at % 64, SignSet::from_bits((at % 8) as u64))).collect();
    write_in(edition, &Formula { variables: 16, table, tree: Node::And(atoms) })
}
