//! Loading that a power cut cannot hurt: the check at the start, the order of the byte writes, and what a cut leaves.
//! Plain lists: a load is the list of its writes, and an image is a copy of the area with some of them made.

use crate::answer::simplify_formula;
use crate::block::{self, Edition, Refusal};
use crate::cases::{cases, polynomial};
use crate::corpus;
use crate::signs::SignSet;
use crate::tree::Node;

/// "the reader on the first L bytes, L the head's length field, if 5 ≤ L ≤ the area's length; else on the whole area":
/// the block that starts, or the refusal.
pub fn started(area: &[u8]) -> Result<&[u8], Refusal> {
    let mut lent = area;
    if area.len() >= 5 {
        let said = usize::from(area[3]) * 256 + usize::from(area[4]);
        if (5..=area.len()).contains(&said) {
            lent = &area[..said];
        }
    }
    block::read(lent).map(|_| lent)
}

/// "prints `STARTS n` or `REFUSED n`"
pub fn start_line(area: &[u8]) -> String {
    match started(area) {
        Ok(block) => format!("STARTS {}\n", block.len()),
        Err(number) => format!("REFUSED {number}\n"),
    }
}

/// "the block's own refusal, then 1 if the area is shorter than the block": "prints `LOADED n` with the length, or
/// `REFUSED n`"
pub fn load_line(area: &[u8], block: &[u8]) -> String {
    match block::read(block) {
        Err(number) => format!("REFUSED {number}\n"),
        Ok(_) if area.len() < block.len() => "REFUSED 1\n".to_string(),
        Ok(_) => format!("LOADED {}\n", block.len()),
    }
}

/// "first byte 3 (the length's upper byte) becomes 255, left out if it is 255 already; then bytes 0, 1, 2 and 4 to the
/// last; last byte 3 of the new block": each write as a place and a byte.
pub fn writes(area: &[u8], block: &[u8]) -> Vec<(usize, u8)> {
    let mut writes = vec![];
    if area[3] != 255 {
        writes.push((3, 255));
    }
    writes.extend([0, 1, 2].map(|at| (at, block[at])));
    writes.extend((4..block.len()).map(|at| (at, block[at])));
    writes.push((3, block[3]));
    writes
}

/// "at a cut only the byte being written differs from what the finished writes left, and it may hold any value": the
/// images of the cuts in each write of a load, with each of these values in the byte.
pub fn cuts(area: &[u8], block: &[u8], values: &[u8]) -> Vec<Vec<u8>> {
    let mut images = vec![];
    let mut image = area.to_vec();
    for (at, byte) in writes(area, block) {
        for &value in values {
            let mut cut = image.clone();
            cut[at] = value;
            images.push(cut);
        }
        image[at] = byte;
    }
    images
}

/// How many of these images start the old block, none, the new one, or another.
fn line(images: impl Iterator<Item = Vec<u8>>, old: Result<&[u8], Refusal>, new: &[u8]) -> String {
    let [mut as_old, mut refused, mut as_new, mut other] = [0; 4];
    for image in images {
        match started(&image) {
            Err(_) => refused += 1,
            Ok(found) if found == new => as_new += 1,
            Ok(found) if Ok(found) == old => as_old += 1,
            Ok(_) => other += 1,
        }
    }
    format!("OLD {as_old} REFUSED {refused} NEW {as_new} OTHER {other}\n")
}

/// The lines for a load: each cut with each of the 256 values; then loads begun again on the images of cuts with four
/// values, and cut a second time with four values.
pub fn lines(area: &[u8], block: &[u8]) -> String {
    let old = started(area);
    let all: Vec<u8> = (0..=255).collect();
    let four = [0, 85, 170, 255];
    let twice = cuts(area, block, &four).into_iter().flat_map(|torn| cuts(&torn, block, &four));
    line(cuts(area, block, &all).into_iter(), old, block) + &line(twice, old, block)
}

/// An area of so many bytes that begins with a block; behind it stand bytes of this value.
fn area(block: &[u8], length: usize, behind: u8) -> Vec<u8> {
    let mut area = block.to_vec();
    area.resize(length.max(block.len()), behind);
    area
}

/// x ≤ limit AND y ≥ 0, in so many bytes whatever the limit.
fn limited(limit: i128) -> Vec<u8> {
    let x = polynomial(&[(1, [1, 0]), (-limit, [0, 0])]);
    let y = polynomial(&[(1, [0, 1])]);
    let tree = Node::And(vec![Node::atom(0, SignSet::LESS_EQUAL), Node::atom(1, SignSet::GREATER_EQUAL)]);
    block::write(&block::Formula { variables: 2, table: vec![x, y], tree })
}

/// The loads that the cuts are tried on, each an area and then a block.
pub fn corpus() -> Vec<Vec<u8>> {
    let printed: Vec<Vec<u8>> = cases().iter().map(|case| block::write(&case.formula)).collect();
    let short = |bytes: &[u8]| block::write(&simplify_formula(&block::read(bytes).unwrap()).1);
    let longest = printed.iter().max_by_key(|block| block.len()).unwrap();
    let valid = corpus::valid(9, 200);
    let of_length = |least: usize| {
        valid.iter().filter(|block| block.len() >= least).min_by_key(|block| block.len()).unwrap().clone()
    };
    let (fifty, hundred, past_256) = (of_length(50), of_length(100), of_length(256));
    let smallest = block::write(&block::Formula { variables: 1, table: vec![], tree: Node::And(vec![]) });
    let mut loads = vec![
        // the two differ in one number, and an image in between is another valid block where the bytes are written in a row
        (limited(24000), limited(22001)),
        (area(&limited(24000), 64, 0), limited(-1)),
        // an area of the block's own length, and a longer one; a shorter block over a longer one and the other way round
        (printed[0].clone(), short(&printed[0])),
        (area(&short(&printed[0]), printed[0].len(), 255), printed[0].clone()),
        (area(longest, 100, 0), printed[0].clone()),
        (area(&printed[1], 100, 170), longest.clone()),
        // the same block again, and the smallest one
        (printed[0].clone(), printed[0].clone()),
        (area(&smallest, 40, 0), printed[3].clone()),
        (printed[3].clone(), smallest.clone()),
        // erased memory, zeros, and what no head makes a block of
        (vec![255; 64], printed[0].clone()),
        (vec![255; 300], hundred.clone()),
        (vec![0; 64], printed[0].clone()),
        ((0..64).map(|i| (i * 37 + 11) as u8).collect(), printed[0].clone()),
        // some hundred bytes, and a length that fills the upper byte
        (area(&fifty, 300, 0), hundred.clone()),
        (area(&past_256, 330, 255), hundred.clone()),
        (area(&hundred, 330, 0), past_256.clone()),
    ];
    for pair in printed.windows(2) {
        loads.push((area(&pair[0], 120, 0), pair[1].clone()));
    }
    // 02, #109: an edition over the other, the same condition and another one, shorter and longer; and edition 2 over itself
    let second = |bytes: &[u8]| block::write_in(Edition::Two, &block::read(bytes).unwrap());
    for (one, other) in
        [(&printed[0], &printed[0]), (&printed[3], longest), (longest, &printed[0]), (&fifty, &hundred)]
    {
        let room = 4 + one.len().max(other.len()).max(second(one).len()).max(second(other).len());
        loads.push((area(one, room, 0), second(other)));
        loads.push((area(&second(one), room, 255), other.clone()));
        loads.push((area(&second(one), room, 0), second(other)));
    }
    loads.push((second(&limited(24000)), second(&limited(22001))));
    loads.push((area(&limited(24000), 64, 255), second(&limited(24000))));
    loads.push((area(&second(&limited(24000)), 64, 0), limited(24000)));
    loads.push((vec![255; 64], second(&printed[0])));
    loads.push((vec![0; 300], second(&hundred)));
    loads.push((area(&second(&past_256), 400, 255), past_256.clone()));
    loads.into_iter().flat_map(|(area, block)| [area, block]).collect()
}
