//! Loads and their cuts: nothing but the old block and the new one ever starts, and other orders of the writes would not do.

use independent::block;
use independent::corpus::half_written;
use independent::loading::{corpus, lines, start_line, started, writes};

#[test]
fn each_block_is_accepted_and_has_room() {
    for load in corpus().chunks_exact(2) {
        assert!(block::read(&load[1]).is_ok());
        assert!(load[1].len() <= load[0].len());
    }
}

#[test]
fn nothing_but_the_old_block_and_the_new_one_starts() {
    for load in corpus().chunks_exact(2) {
        let lines = lines(&load[0], &load[1]);
        assert_eq!(lines.lines().filter(|line| line.ends_with("OTHER 0")).count(), 2, "{lines}");
    }
}

#[test]
fn a_finished_load_starts_the_new_block() {
    for load in corpus().chunks_exact(2) {
        let mut area = load[0].clone();
        for (at, byte) in writes(&load[0], &load[1]) {
            area[at] = byte;
        }
        assert_eq!(started(&area), Ok(&load[1][..]));
        assert_eq!(area[load[1].len()..], load[0][load[1].len()..]);
    }
}

#[test]
fn bytes_in_a_row_would_start_another_block() {
    let loads = corpus();
    let (old, new) = (&loads[0], &loads[1]);
    let other = (0..=new.len()).any(|cut| {
        let image = half_written(new, old, cut);
        block::read(&image).is_ok() && image != *new && image != *old
    });
    assert!(other);
}

#[test]
fn erased_memory_is_written_once() {
    for load in corpus().chunks_exact(2).filter(|load| load[0].iter().all(|&byte| byte == 255)) {
        let mut places: Vec<usize> = writes(&load[0], &load[1]).iter().map(|&(at, _)| at).collect();
        places.sort();
        assert!(places.into_iter().eq(0..load[1].len()));
    }
}

#[test]
fn the_guard_is_refused_whatever_else_stands_there() {
    for load in corpus().chunks_exact(2) {
        let mut area = load[0].clone();
        area.resize(65536, 0);
        area[3] = 255;
        assert_eq!(&start_line(&area)[..7], "REFUSED");
    }
}

/// The numbers of a list of the book, `1 ∷ 2 ∷ []`.
fn numbers(text: &str) -> Vec<u8> {
    text.split(|c: char| !c.is_ascii_digit())
        .filter(|word| !word.is_empty())
        .map(|word| word.parse().unwrap())
        .collect()
}

/// What the area starts, as the claims of the book's cases say it.
fn claimed(area: &[u8]) -> String {
    match started(area) {
        Ok(block) => format!("starts {block:?}"),
        Err(number) => format!("refusal {number}"),
    }
}

/// Each claim about a cut in crates/loading_laws/specs/Cases.antt is what this reading says of that cut.
#[test]
fn the_cases_that_the_laws_are_tried_on() {
    let text = std::fs::read_to_string("../crates/loading_laws/specs/Cases.antt").unwrap();
    let list =
        |name: &str| numbers(text.split(&format!("\n{name} = ")).nth(1).unwrap().lines().next().unwrap());
    let mut claims = 0;
    for line in text.lines().filter(|line| line.contains("(start_of (cut_at case")) {
        let words: Vec<&str> = line.split("(start_of (cut_at ").nth(1).unwrap().split([' ', ')']).collect();
        let (block, mut area) = (list(words[0]), list(words[1]));
        let (k, value): (usize, u8) = (words[2].parse().unwrap(), words[3].parse().unwrap());
        let left_out = usize::from(area[3] == 255);
        if k < left_out {
            continue;
        }
        let order = writes(&area, &block);
        for &(at, byte) in &order[..k - left_out] {
            area[at] = byte;
        }
        area[order[k - left_out].0] = value;
        let claim = line.split('≡').nth(1).unwrap();
        let found = claim.trim_start().split(' ').next().unwrap();
        let wanted = match found {
            "starts" => format!("starts {:?}", numbers(claim)),
            _ => format!("refusal {}", numbers(claim)[0]),
        };
        assert_eq!(claimed(&area), wanted, "{line}");
        claims += 1;
    }
    assert!(claims > 100);
}
