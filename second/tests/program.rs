//! The program `second` and the example texts: expected lines are written out
//! from 01.

use std::io::Write;
use std::process::{Command, Output, Stdio};

use second::fields::run;
use second::text::capture_of;

const LISTING: &str = include_str!("../../examples/listing.txt");
const NIGHT: &str = include_str!("../../examples/night.txt");
const ROUND: &str = include_str!("../../examples/round.txt");

/// 01, "Program and one full listing".
const LISTING_LINES: &str = "S 0
P 0 0 1 0
P 0 0 2 0
P 0 0 3 0
P 1 1 0 4500
C 0 0 0
P 17 0 0 0
";

#[test]
fn the_full_listing() {
    assert_eq!(run(&capture_of(LISTING).unwrap()), LISTING_LINES);
}

/// The night by 01: verdict 1 first, 2 next; piece 3 and 12 come twice (20);
/// the second desk's open message is of ms 9000 and T is 15000; it was heard at
/// ms 0 with 40 s.
const NIGHT_LINES: &str = "\
S 0
A 0
A 0
C 0 0 0
P 1 1 0 80
P 0 0 1 0
P 0 0 2 0
P 0 0 3 0
P 0 0 1 0
C 0 0 0
P 0 0 4 0
P 20 0 0 0
P 0 0 5 0
P 0 0 2 0
P 0 0 6 0
P 0 0 7 0
C 0 0 0
P 0 0 8 0
P 20 0 0 0
P 0 0 9 0
P 1 1 0 3000
P 0 0 10 0
P 0 0 11 0
P 0 0 1 0
C 0 0 0
P 1 2 0 16384
A 0
C 0 2 0
C 0 0 0
C 0 0 2
P 17 0 0 0
P 17 0 0 0
P 1 2 0 0
A 0
C 0 0 0
";

#[test]
fn a_night() {
    assert_eq!(run(&capture_of(NIGHT).unwrap()), NIGHT_LINES);
}

/// Behind M - 1 number 1 is a gap of one, M; and M, behind 1, is one back.
const ROUND_LINES: &str = "\
S 0
P 1 1 0 100
P 0 0 1 0
P 0 0 1 0
P 18 0 0 0
P 1 4 0 300
P 17 0 0 1
P 1 2 0 100
";

#[test]
fn a_desk_that_came_round() {
    assert_eq!(run(&capture_of(ROUND).unwrap()), ROUND_LINES);
}

/// "`P 17 0 0 d`": with 17 alone the length is an age. N1 is 16; 5 is delivered behind
/// M - 10 as a gap, 15 back lies M - 10, and 16 back M - 11.
#[test]
fn the_age_stands_in_the_length() {
    let whole = |seq: u32| format!("pdu field=1 node=7 version=5 seq={seq} n=10\n");
    let piece =
        |seq: u32, p: u8| format!("pdu field=1 node=7 version=5 seq={seq} n=300 u=256 piece={p}\n");
    let text = [
        "setup online n1=16 senders=1:7\n".to_string(),
        whole(2_147_483_637),
        whole(5),
        whole(5),
        whole(4),
        piece(2_147_483_647, 2),
        whole(2_147_483_637),
        whole(4).replace("n=10", "n=10 mode=1"),
        whole(4).replace("n=10", "n=10 cbn=2"),
        piece(9, 1),
        whole(1),
        whole(8),
        piece(9, 1),
        whole(2_147_483_636),
        piece(9, 2),
        whole(2_147_483_641),
    ];
    let expected = "S 0\nP 1 1 0 10\nP 1 4 0 10\nP 17 0 0 0\nP 17 0 0 1\nP 17 0 0 5\n\
                    P 17 0 0 15\nP 15 0 0 0\nP 16 0 0 0\nP 0 0 1 0\nP 17 0 0 4\nP 18 0 0 0\n\
                    P 20 0 0 0\nP 18 0 0 0\nP 1 4 0 300\nP 17 0 0 15\n";
    assert_eq!(run(&capture_of(&text.concat()).unwrap()), expected);
}

/// Runs the program with these words and this input.
fn second(words: &[&str], input: &[u8]) -> Output {
    let mut child = Command::new(env!("CARGO_BIN_EXE_second"))
        .args(words)
        .stdin(Stdio::piped())
        .stdout(Stdio::piped())
        .stderr(Stdio::piped())
        .spawn()
        .unwrap();
    // The program may end without reading all of it.
    let _ = child.stdin.take().unwrap().write_all(input);
    child.wait_with_output().unwrap()
}

fn lines(output: &Output) -> &str {
    std::str::from_utf8(&output.stdout).unwrap()
}

#[test]
fn capture_then_run_then_tally() {
    let capture = second(&["capture"], LISTING.as_bytes());
    assert_eq!(capture.status.code(), Some(0));
    let run = second(&["run"], &capture.stdout);
    assert_eq!((run.status.code(), lines(&run)), (Some(0), LISTING_LINES));
    let tally = second(&["tally"], &run.stdout);
    let expected = "C 0 1\nP 0 3\nP 1 1\nP 17 1\nS 0 1\nV 0 4\nV 1 1\n";
    assert_eq!((tally.status.code(), lines(&tally)), (Some(0), expected));
}

#[test]
fn a_wrong_line_is_told_on_standard_error() {
    let wrong = second(&["capture"], b"clock 1\n\npdu fild=1\n");
    assert_eq!(wrong.status.code(), Some(1));
    assert!(wrong.stdout.is_empty());
    let said = String::from_utf8(wrong.stderr).unwrap();
    assert!(said.contains("line 3:"), "{said}");
    assert_eq!(second(&["tally"], b"S 0\nx\n").status.code(), Some(1));
}

#[test]
fn unknown_words_give_the_usage() {
    let wrong: [&[&str]; 12] = [
        &[],
        &["edge"],
        &["edges", "now"],
        &["edges-calls", "now"],
        &["run", "now"],
        &["random", "1"],
        &["random", "x", "5"],
        &["random-cut"],
        &["edges-random", "1"],
        &["edges-random", "1", "x"],
        &["edges-random-calls", "-1", "5"],
        &["tally", "calls", "lines"],
    ];
    for words in wrong {
        let output = second(words, b"");
        assert_eq!(output.status.code(), Some(2), "{words:?}");
        assert!(output.stdout.is_empty());
        assert!(output.stderr.starts_with(b"usage: second"), "{words:?}");
    }
}

/// How often this answer of this kind is in the tally.
fn count_in(tally: &str, kind: &str) -> u64 {
    tally
        .lines()
        .find_map(|line| line.strip_prefix(kind)?.strip_prefix(' ')?.parse().ok())
        .unwrap_or(0)
}

/// The tally of these lines with the fields that they are of.
fn tally_of_calls(calls: &[u8], lines: &[u8]) -> Output {
    let name = concat!(env!("CARGO_TARGET_TMPDIR"), "/calls");
    std::fs::write(name, calls).unwrap();
    second(&["tally", name], lines)
}

/// 01's and 02's numbers, each where it can be given, each `next` of a field, numbers
/// that came round, and repeats of age 0, between, and N1 - 1.
#[test]
fn edges_then_tally_reach_every_number() {
    let edges = second(&["edges"], b"");
    assert_eq!(edges.status.code(), Some(0));
    let calls = second(&["edges-calls"], b"");
    let tally = tally_of_calls(&calls.stdout, &edges.stdout);
    assert_eq!(tally.status.code(), Some(0));
    let others = tally_of_calls(&calls.stdout, b"S 0\n");
    assert_eq!(others.status.code(), Some(1));
    let none = second(&["tally", "no such file"], b"");
    assert_eq!(none.status.code(), Some(1));
    let kinds = [
        ("S", &[0, 10][..]),
        ("P", &[0, 1, 9, 11, 12, 13, 14, 15, 16, 17, 18, 19, 20]),
        ("V", &[0, 1, 2, 3, 4, 5]),
        ("M", &[1, 9, 12, 13, 14, 15, 16, 17, 25, 26]),
        ("MV", &[0, 1, 2, 3, 4, 5]),
        ("N", &[0, 1, 18]),
        ("D", &[0, 1, 2]),
        ("MD", &[0, 1, 2]),
        ("A", &[0, 9, 12, 13, 14, 22, 24]),
        ("C", &[0, 9, 21]),
        ("Q", &[0, 9]),
        ("K", &[0, 23]),
        ("F", &[0, 1, 2, 3]),
        ("G", &[0, 24]),
        ("Z", &[0, 23, 24]),
    ];
    let mut reached = 0;
    for (kind, numbers) in kinds {
        for number in numbers {
            let kind = format!("{kind} {number}");
            assert!(count_in(lines(&tally), &kind) > 0, "{kind}");
            reached += 1;
        }
    }
    assert_eq!(lines(&tally).lines().count(), reached);
}

#[test]
fn edges_calls_begin_with_the_first_title() {
    let calls = second(&["edges-calls"], b"");
    assert_eq!(calls.status.code(), Some(0));
    assert!(calls.stdout.starts_with(b"#\x00\x091.1 Setups\x00\x41"));
}

#[test]
fn random_captures_run_to_their_end() {
    let capture = second(&["random", "5", "200"], b"");
    let run = second(&["run"], &capture.stdout);
    assert_eq!(lines(&run).lines().count(), 200);
    assert!(!lines(&run).contains('E'));
    let cut = second(&["random-cut", "5"], b"");
    let run = second(&["run"], &cut.stdout);
    assert!(lines(&run).ends_with("E\n"));
}

#[test]
fn random_calls_are_printed_and_written() {
    let printed = second(&["edges-random", "5", "200"], b"");
    assert_eq!(lines(&printed), second::edges::random::lines(5, 200));
    let calls = second(&["edges-random-calls", "5", "200"], b"");
    assert_eq!(calls.stdout, second::edges::random::calls_as_fields(5, 200));
    let tally = second(&["tally"], &printed.stdout);
    assert_eq!(tally.status.code(), Some(0));
}

#[test]
fn an_empty_input_prints_nothing() {
    let run = second(&["run"], b"");
    assert_eq!((run.status.code(), lines(&run)), (Some(0), ""));
}
