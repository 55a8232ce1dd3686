//! The command line as it is run: standard input to standard output.
//! Lines, hex, the 32,768 bytes, streams and streams that are cut off.

use std::io::Write;
use std::process::{Command, Stdio};

use independent::answer::report;
use independent::block::write;
use independent::cases::cases;
use independent::{corpus, edge};

fn run(arguments: &[&str], input: &[u8]) -> Vec<u8> {
    let mut child = Command::new(env!("CARGO_BIN_EXE_independent"))
        .args(arguments)
        .stdin(Stdio::piped())
        .stdout(Stdio::piped())
        .stderr(Stdio::null())
        .spawn()
        .unwrap();
    let mut stdin = child.stdin.take().unwrap();
    let input = input.to_vec();
    // The program may end before it has read everything.
    let writer = std::thread::spawn(move || {
        let _ = stdin.write_all(&input);
    });
    let output = child.wait_with_output().unwrap();
    writer.join().unwrap();
    output.stdout
}

fn lines(arguments: &[&str], input: &[u8]) -> String {
    String::from_utf8(run(arguments, input)).unwrap()
}

#[test]
fn one_block() {
    let case_a = write(&cases()[0].formula);
    assert_eq!(lines(&[], &case_a), "FORMULA 2 1 2 1\n11 01 01 00 11 10 00 00 00 10 84 00 00 00 08 00 04\n");
    assert_eq!(lines(&[], &[]), "REFUSED 2\n");
    assert_eq!(lines(&[], &case_a[..35]), "REFUSED 4\n");
    let case_e = cases().into_iter().find(|case| case.name == 'E').unwrap();
    assert_eq!(lines(&[], &write(&case_e.formula)), "UNSATISFIABLE 1 0 1 0\n10 80 01 00 07 80 00\n");
    let case_f = cases().into_iter().find(|case| case.name == 'F').unwrap();
    assert_eq!(lines(&[], &write(&case_f.formula)), "ALWAYS 1 0 1 0\n10 80 01 00 07 40 00\n");
}

/// "at most 32,768 bytes ... the rest is not read"
#[test]
fn the_rest_is_not_read() {
    let mut long = write(&cases()[0].formula);
    long.resize(40_000, 0);
    corpus::put_length(&mut long, 32_768);
    assert_eq!(lines(&[], &long), "REFUSED 15\n");
    corpus::put_length(&mut long, 40_000);
    assert_eq!(lines(&[], &long), "REFUSED 4\n");
}

/// The same of a block in a stream: the program and the stream tell the same of each.
#[test]
fn the_rest_is_not_taken_of_a_stream() {
    let long = edge::long();
    let lengths: Vec<usize> = long.iter().map(Vec::len).collect();
    assert_eq!(lengths, [32_767, 32_768, 32_769, 40_000, 65_535, 32_769]);
    let told = lines(&["many"], &run(&["corpus", "long", "0", "0"], &[]));
    assert_eq!(told, "REFUSED 15\nREFUSED 15\nREFUSED 4\nREFUSED 4\nREFUSED 4\nREFUSED 15\n");
    assert_eq!(told, lines(&["read"], &corpus::stream(&long)));
    assert_eq!(told, long.iter().map(|block| lines(&[], block)).collect::<String>());
}

#[test]
fn many_blocks() {
    let stream = run(&["corpus", "cases", "0", "0"], &[]);
    let expected: String = cases().iter().map(|case| report(&write(&case.formula))).collect();
    assert_eq!(lines(&["many"], &stream), expected);
    assert_eq!(expected.lines().count(), 26);
    assert_eq!(lines(&["many"], &[]), "");
    assert_eq!(lines(&["many"], &[0, 0]), "REFUSED 2\n");
    assert_eq!(lines(&["many"], &[0]), "CUT OFF\n");
    assert_eq!(lines(&["many"], &[0, 0, 0, 3, 1, 1]), "REFUSED 2\nCUT OFF\n");
    assert_eq!(lines(&["many"], &[0, 0, 0, 3]), "REFUSED 2\nCUT OFF\n");
}

#[test]
fn reading_alone() {
    let mut stream = run(&["corpus", "cases", "0", "0"], &[]);
    assert_eq!(lines(&["read"], &stream), "ACCEPTED\n".repeat(13));
    stream.extend([0, 5, 0x30, 0, 0, 0, 5, 0, 9, 1]);
    let end = lines(&["read"], &stream);
    assert!(end.ends_with("ACCEPTED\nREFUSED 3\nCUT OFF\n"));
    let numbered = lines(&["describe"], &stream);
    assert!(numbered.starts_with("0 ACCEPTED\n1 ACCEPTED\n"));
    assert!(numbered.ends_with("12 ACCEPTED\n13 REFUSED 3\nCUT OFF\n"));
}

#[test]
fn corpora_are_streams() {
    for kind in ["valid", "damaged", "edge"] {
        let stream = run(&["corpus", kind, "3", "40"], &[]);
        assert_eq!(stream, run(&["corpus", kind, "3", "40"], &[]));
        let read = lines(&["read"], &stream);
        assert!(!read.contains("CUT OFF"));
        match kind {
            "valid" => assert_eq!(read, "ACCEPTED\n".repeat(40)),
            "damaged" => assert_eq!(read.lines().count(), 40),
            _ => assert!(read.lines().count() > 800),
        }
    }
    assert!(lines(&["check", "1", "20"], &[]).ends_with(" 0 wrong\n"));
    assert_eq!(lines(&["corpus", "none", "1", "1"], &[]), "");
}
