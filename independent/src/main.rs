//! The command line: the program of document 01, the same over a stream of blocks, corpora and the check.
//! Standard input to standard output; see README.md for the commands.

use std::io::{self, Read, Write};
use std::process::ExitCode;

use independent::answer::{answer, read_report, report, report_with_both, report_with_places, report_with_rounds, MOST_READ};
use independent::cases::{cases, later_cases};
use independent::block::Edition;
use independent::count::work_of;
use independent::script::{answer_lines, back_line, plain_lines};
use independent::scripts;
use independent::{
    bench, block, book, check, convert, corpus, edge, engine, evaluate, loading, plain, pool, search,
    smt, together, uses, why,
};

const USAGE: &str =
    "usage: independent [rounds | places | many [rounds | places | places rounds] | read | describe | deductions | plain | shown [NAME..] | lists | evaluations | live FILE | why | whys |\n\
                    conversions | convert [1 | 2] | pools | pool | loads | load | start | count | repeat | smt | bench NAME |\n\
                    script | many script | plain-script | script-back | scripts-back | corpus scripts SEED COUNT |\n\
                    corpus KIND SEED COUNT [EDITION] | book SEED COUNT | book-deductions SEED COUNT | check SEED COUNT]\n\
     KIND is valid, damaged, whys, trees, uses, edge, long, cases, later, deductions, points, lists, evaluations, conversions,\n\
     pools, loads, together or candidates\n";

fn main() -> ExitCode {
    let arguments: Vec<String> = std::env::args().skip(1).collect();
    let words: Vec<&str> = arguments.iter().map(String::as_str).collect();
    let outcome = match words[..] {
        [] => program(report),
        ["rounds"] => program(report_with_rounds),
        ["places"] => program(report_with_places),
        ["many"] => each_block(|_, block| report(block)),
        ["many", "rounds"] => each_block(|_, block| report_with_rounds(block)),
        ["many", "places"] => each_block(|_, block| report_with_places(block)),
        ["many", "places", "rounds"] => each_block(|_, block| report_with_both(block)),
        ["read"] => each_block(|_, block| read_report(block)),
        ["describe"] => each_block(|index, block| format!("{index} {}", read_report(block))),
        ["deductions"] => each_block(|_, block| engine::deduction_line(block)),
        ["plain"] => each_block(|_, block| plain::line(block)),
        ["shown", ref names @ ..] => show(names),
        ["lists"] => each_block(|_, block| engine::list_line(block)),
        ["live", file] => live(file),
        ["evaluations"] => each_block(|_, frame| evaluate::frame_line(frame)),
        ["conversions"] => each_block(|_, frame| convert::frame_lines(frame)),
        ["convert"] => write_converted(None),
        ["convert", "1"] => write_converted(Some(Edition::One)),
        ["convert", "2"] => write_converted(Some(Edition::Two)),
        ["pools"] => {
            let mut pool = pool::Pool::default();
            each_block(move |_, frame| pool.frame_lines(frame))
        }
        ["pool"] => run_pool_script(),
        ["why"] => program(why::lines),
        ["whys"] => each_block(|_, block| why::lines(block)),
        ["loads"] => each_load(loading::lines),
        ["load"] => each_load(loading::load_line),
        ["start"] => each_block(|_, area| loading::start_line(area)),
        ["count"] => each_block(|_, block| count_line(block)),
        ["bench", name] => write_bench(name),
        ["repeat"] => repeat(),
        ["smt"] => write_script(),
        ["script"] => program(answer_lines),
        ["many", "script"] => each_block(|_, block| answer_lines(block)),
        ["plain-script"] => program(plain_lines),
        ["script-back"] => read_script_back(),
        ["scripts-back"] => each_text(back_line),
        ["corpus", kind, seed, count, ref edition @ ..] => {
            let edition = match edition {
                [] | ["1"] => Some(Edition::One),
                ["2"] => Some(Edition::Two),
                _ => None,
            };
            match (seed.parse(), count.parse(), edition) {
                (Ok(seed), Ok(count), Some(edition)) => write_corpus(kind, seed, count, edition),
                _ => usage(),
            }
        }
        ["book", seed, count] => match (seed.parse(), count.parse()) {
            (Ok(seed), Ok(count)) => write_claims(seed, count),
            _ => usage(),
        },
        ["book-deductions", seed, count] => match (seed.parse(), count.parse()) {
            (Ok(seed), Ok(count)) => io::stdout()
                .write_all(book::deduction_claims(seed, count).as_bytes())
                .map(|()| ExitCode::SUCCESS),
            _ => usage(),
        },
        ["check", seed, count] => match (seed.parse(), count.parse()) {
            (Ok(seed), Ok(count)) => run_check(seed, count),
            _ => usage(),
        },
        _ => usage(),
    };
    match outcome {
        Ok(code) => code,
        Err(error) => {
            eprintln!("independent: {error}");
            ExitCode::FAILURE
        }
    }
}

fn usage() -> io::Result<ExitCode> {
    eprint!("{USAGE}");
    Ok(ExitCode::FAILURE)
}

/// "It reads at most 32,768 bytes of a block on standard input (no accepted block is as long; the rest is
/// not read)"
fn program(lines: fn(&[u8]) -> String) -> io::Result<ExitCode> {
    let mut input = vec![];
    io::stdin().lock().take(MOST_READ as u64).read_to_end(&mut input)?;
    io::stdout().write_all(lines(&input).as_bytes())?;
    Ok(ExitCode::SUCCESS)
}

/// The lines for each block of a stream. A frame that is cut off gets the line CUT OFF and is the last.
fn each_block(mut lines: impl FnMut(usize, &[u8]) -> String) -> io::Result<ExitCode> {
    let mut input = vec![];
    io::stdin().lock().read_to_end(&mut input)?;
    let mut output = io::BufWriter::new(io::stdout().lock());
    let mut rest = &input[..];
    let mut index = 0;
    while !rest.is_empty() {
        let whole = rest.len() >= 2 && {
            let length = usize::from(rest[0]) * 256 + usize::from(rest[1]);
            rest.len() >= 2 + length
        };
        if !whole {
            output.write_all(b"CUT OFF\n")?;
            break;
        }
        let length = usize::from(rest[0]) * 256 + usize::from(rest[1]);
        output.write_all(lines(index, &rest[2..2 + length]).as_bytes())?;
        rest = &rest[2 + length..];
        index += 1;
    }
    output.flush()?;
    Ok(ExitCode::SUCCESS)
}

/// A script on standard input, read back.
fn read_script_back() -> io::Result<ExitCode> {
    let mut text = vec![];
    io::stdin().lock().read_to_end(&mut text)?;
    io::stdout().write_all(back_line(&text).as_bytes())?;
    Ok(ExitCode::SUCCESS)
}

/// A line for each text of a stream, each after its length in 4 bytes, most significant first.
fn each_text(line: fn(&[u8]) -> String) -> io::Result<ExitCode> {
    let mut input = vec![];
    io::stdin().lock().read_to_end(&mut input)?;
    let mut output = io::BufWriter::new(io::stdout().lock());
    let mut rest = &input[..];
    while !rest.is_empty() {
        let number = |bytes: &[u8]| bytes.iter().fold(0, |sum, &byte| 256 * sum + usize::from(byte));
        let length = rest.get(..4).map(number);
        let Some(text) = length.and_then(|length| rest.get(4..4 + length)) else {
            output.write_all(b"CUT OFF\n")?;
            break;
        };
        output.write_all(line(text).as_bytes())?;
        rest = &rest[4 + text.len()..];
    }
    output.flush()?;
    Ok(ExitCode::SUCCESS)
}

/// The lines for each load of a stream, two frames each: an area and the block that is loaded into it.
fn each_load(lines: fn(&[u8], &[u8]) -> String) -> io::Result<ExitCode> {
    let mut input = vec![];
    io::stdin().lock().read_to_end(&mut input)?;
    let mut frames = vec![];
    let mut rest = &input[..];
    while let [upper, lower, behind @ ..] = rest {
        let (frame, next) = behind.split_at(usize::from(*upper) * 256 + usize::from(*lower));
        frames.push(frame);
        rest = next;
    }
    for load in frames.chunks_exact(2) {
        io::stdout().write_all(lines(load[0], load[1]).as_bytes())?;
    }
    Ok(ExitCode::SUCCESS)
}

/// A corpus in edition 1, or in edition 2: then its accepted blocks are converted, and what is wrong is made wrong in edition 2.
fn write_corpus(kind: &str, seed: u64, count: usize, edition: Edition) -> io::Result<ExitCode> {
    if kind == "scripts" {
        io::stdout().lock().write_all(&scripts::stream(&scripts::corpus(seed, count)))?;
        return Ok(ExitCode::SUCCESS);
    }
    let blocks = match kind {
        "valid" => corpus::valid(seed, count),
        "damaged" => corpus::damaged_in(edition, seed, count),
        "trees" => corpus::trees(seed, count),
        "uses" => {
            let known = uses::blocks().into_iter().map(|known| known.bytes);
            known.chain(corpus::uses(seed, count)).collect()
        }
        "edge" => edge::blocks_in(edition).into_iter().map(|edge| edge.bytes).collect(),
        "long" => edge::long(),
        "deductions" => engine::deductions(seed, count),
        "lists" => engine::lists(seed, count),
        "loads" => loading::corpus(),
        "candidates" => (seed..seed + count as u64).map(|k| block::write(&search::candidate(k))).collect(),
        "evaluations" => evaluate::corpus_in(edition, seed, count),
        "conversions" => convert::corpus(seed, count),
        "pools" if edition == Edition::One => pool::corpus(seed, count, block::write),
        "pools" => pool::corpus(seed, count, |formula| block::write_in(Edition::Two, formula)),
        "whys" => why::corpus(edition, seed, count),
        "cases" => cases().iter().map(|case| block::write(&case.formula)).collect(),
        "later" => later_cases().iter().map(|case| block::write(&case.formula)).collect(),
        "points" => engine::single_points(),
        "together" => together::corpus(seed, count),
        _ => return usage(),
    };
    let as_made = edition == Edition::One
        || ["damaged", "edge", "long", "loads", "evaluations", "conversions", "pools", "whys"].contains(&kind);
    let blocks = if as_made { blocks } else { convert::all_in(edition, blocks) };
    io::stdout().lock().write_all(&corpus::stream(&blocks))?;
    Ok(ExitCode::SUCCESS)
}

/// The block on standard input in this edition, or in the other one.
fn write_converted(to: Option<Edition>) -> io::Result<ExitCode> {
    let mut input = vec![];
    io::stdin().lock().take(MOST_READ as u64).read_to_end(&mut input)?;
    let outcome = match to {
        Some(edition) => convert::convert(edition, &input, usize::MAX),
        None => convert::to_the_other(&input, usize::MAX),
    };
    match outcome {
        Ok(bytes) => io::stdout().write_all(&bytes)?,
        Err(refusal) => eprintln!("REFUSED {refusal}"),
    }
    Ok(ExitCode::SUCCESS)
}

/// The block in a file run on each line of readings, a line of answer each. A last line without its end counts if it has a byte.
fn live(file: &str) -> io::Result<ExitCode> {
    let mut input = String::new();
    io::stdin().lock().read_to_string(&mut input)?;
    let mut block = vec![];
    std::fs::File::open(file)?.take(MOST_READ as u64).read_to_end(&mut block)?;
    let mut output = io::BufWriter::new(io::stdout().lock());
    for line in input.strip_suffix('\n').unwrap_or(&input).split('\n').filter(|_| !input.is_empty()) {
        let readings = evaluate::readings_of(line);
        output.write_all(evaluate::line(evaluate::evaluate(&block, readings.as_deref())).as_bytes())?;
    }
    output.flush()?;
    Ok(ExitCode::SUCCESS)
}

/// A release manager's script: additions and withdrawals of blocks in files, and what the pool holds.
fn run_pool_script() -> io::Result<ExitCode> {
    let mut input = vec![];
    io::stdin().lock().read_to_end(&mut input)?;
    let mut pool = pool::Pool::default();
    let mut output = io::BufWriter::new(io::stdout().lock());
    let lines = input.strip_suffix(b"\n").unwrap_or(&input);
    for line in lines.split(|&byte| byte == b'\n').filter(|_| !input.is_empty()) {
        let load = |file: &str| {
            let mut block = vec![];
            std::fs::File::open(file).ok()?.take(MOST_READ as u64).read_to_end(&mut block).ok()?;
            Some(block)
        };
        output.write_all(pool.script_lines(&String::from_utf8_lossy(line), load).as_bytes())?;
    }
    output.flush()?;
    Ok(ExitCode::SUCCESS)
}

/// The blocks that the cost is measured on, by their names.
fn write_bench(name: &str) -> io::Result<ExitCode> {
    let Some(block) = bench::block(name) else { return usage() };
    io::stdout().lock().write_all(&block)?;
    Ok(ExitCode::SUCCESS)
}

/// One deduction as a block on standard input, shown with all its values.
fn show(names: &[&str]) -> io::Result<ExitCode> {
    let mut input = vec![];
    io::stdin().lock().read_to_end(&mut input)?;
    io::stdout().write_all(plain::shown(&input, names).as_bytes())?;
    Ok(ExitCode::SUCCESS)
}

/// The script of a block on standard input.
fn write_script() -> io::Result<ExitCode> {
    let mut input = vec![];
    io::stdin().lock().read_to_end(&mut input)?;
    match block::read(&input) {
        Ok(formula) => io::stdout().write_all(smt::script(&formula).as_bytes())?,
        Err(refusal) => eprintln!("independent: refused by number {refusal}"),
    }
    Ok(ExitCode::SUCCESS)
}

/// How often, in 4 bytes, most significant first, then a block: it is answered so often, and the lines are printed once.
fn repeat() -> io::Result<ExitCode> {
    let mut input = vec![];
    io::stdin().lock().take(4 + MOST_READ as u64).read_to_end(&mut input)?;
    if input.len() < 4 {
        return usage();
    }
    let (times, block) = input.split_at(4);
    let times = times.iter().fold(0, |sum, &byte| 256 * sum + u64::from(byte));
    for _ in 1..times {
        std::hint::black_box(answer(std::hint::black_box(block), block.len()).ok());
    }
    io::stdout().write_all(report(block).as_bytes())?;
    Ok(ExitCode::SUCCESS)
}

/// Deductions made, rounds begun, and pairs tried with their factors.
fn count_line(block: &[u8]) -> String {
    let work = work_of(|| drop(answer(block, block.len())));
    format!("{} {} {}\n", work.deductions, work.rounds, work.tries)
}

fn write_claims(seed: u64, count: usize) -> io::Result<ExitCode> {
    io::stdout().write_all(book::claims(seed, count).as_bytes())?;
    Ok(ExitCode::SUCCESS)
}

fn run_check(seed: u64, count: usize) -> io::Result<ExitCode> {
    let summary = check::check(seed, count);
    for what in &summary.wrong {
        println!("{what}");
    }
    println!("{}", summary.line());
    Ok(if summary.wrong.is_empty() { ExitCode::SUCCESS } else { ExitCode::FAILURE })
}
