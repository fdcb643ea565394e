//! The edges: what each row of `docs/EDGES.md` must answer by 01 and 02, written
//! by hand. Sums are made anew here, over messages and storage kept apart from the
//! code under test.

use std::sync::OnceLock;

/// All lines, made once for all tests.
fn lines() -> &'static str {
    static LINES: OnceLock<String> = OnceLock::new();
    LINES.get_or_init(second::edges::lines)
}

/// The lines of one section, without its title.
fn section(title: &str) -> Vec<String> {
    let mut found = lines()
        .lines()
        .skip_while(|line| *line != format!("# {title}"));
    assert!(found.next().is_some(), "no section {title:?}");
    found
        .take_while(|line| !line.starts_with('#'))
        .map(str::to_string)
        .collect()
}

/// "groups g1 g2 ... g8" of a state without groups, as all states are before
/// section 14.
const NO_GROUPS: &str = " 0 0 0 0 0 0 0 0 0";

/// A line without the two sums of a P line; of a W line that ends in no groups, what
/// stands before them.
fn without_sums(line: &str) -> String {
    let words: Vec<&str> = line.split(' ').collect();
    match words[0] {
        "P" => words[..9].join(" "),
        "W" if words.len() == 15 => line.strip_suffix(NO_GROUPS).unwrap_or(line).to_string(),
        _ => line.to_string(),
    }
}

fn answers(title: &str) -> Vec<String> {
    section(title)
        .iter()
        .map(|line| without_sums(line))
        .collect()
}

/// The section's lines, sums apart, are these.
fn expect(title: &str, expected: &str) {
    let expected: Vec<&str> = expected.lines().collect();
    assert_eq!(answers(title), expected, "{title}");
}

/// Each line of the section is a letter, one of these numbers, and 0 for the rest
/// ("nothing more").
fn expect_numbers(title: &str, letter: &str, rest: &str, numbers: &[u8]) {
    let expected: Vec<String> = numbers
        .iter()
        .map(|number| format!("{letter} {number}{rest}"))
        .collect();
    assert_eq!(answers(title), expected, "{title}");
}

#[test]
fn setup_by_01s_limits() {
    let numbers = [
        0, // the base
        10, 0, 0, 10, // N1 0, 1, 1024, 1025
        10, 0, 0, 10, // T 0, 1, 600000, 600001
        10, 0, 0, 10, // senders 0, 1, 16, 17
        10, 0, 0, // data field 0, 1, 255
        10, 0, 0, 10, // node 0, 1, 4095, 4096
        0, 10, 10, // mode 1, 2, 255
        10, 0, 0, // a pair twice; past the count; only the node
        10, 0, // places 1 and 15; past the count
    ];
    expect_numbers("1.1 Setup", "S", "", &numbers);
}

/// "At setup the clock is 0, nobody is heard, nothing is open and every last
/// version and number is 0." A refused one: "online, N1 1, T 1".
#[test]
fn what_setup_returns() {
    expect(
        "1.2 What setup returns",
        "\
S 0
W 0 16 15000 0 2
w 0 1 7 0 0 0 0 0 0 0 0 0 0 0 0 0 0 0
w 1 2 9 0 0 0 0 0 0 0 0 0 0 0 0 0 0 0
S 0
W 1 1024 600000 0 2
w 0 1 7 0 0 0 0 0 0 0 0 0 0 0 0 0 0 0
w 1 255 4095 0 0 0 0 0 0 0 0 0 0 0 0 0 0 0
S 10
W 0 1 1 0 0",
    );
}

/// A P line of a fresh state: a refusal; 0, the first of several held; 1, first,
/// with the delivered length.
fn fresh_message(number: u8, length: usize) -> String {
    match number {
        0 => "P 0 0 1 0 0 0 0 0".into(),
        1 => format!("P 1 1 0 {length} 0 0 0 0"),
        _ => format!("P {number} 0 0 0 0 0 0 0"),
    }
}

fn expect_fresh_messages(title: &str, rows: &[(u8, usize)]) {
    let expected: Vec<String> = rows
        .iter()
        .map(|(number, length)| fresh_message(*number, *length))
        .collect();
    assert_eq!(answers(title), expected, "{title}");
}

#[test]
fn places_of_the_header() {
    let numbers = [
        13, 1, 1, 13, // SEQ 0, 1, M, M + 1
        13, 1, 1, 13, 13, // TCD 0, 1, 59999, 60000, 65535
        1, 13, // PRI 7, 8
        15, 13, 13, // MODE 1, 2, 256 at an online node
        13, 13, 13, 13, 13, // H_TYPE, domain, INQ_ID twice, VER
        13, 13, 13, 13, 13, // GTID twice, PVER 0 and 2, FUI
        1, 1, // DA, M_CTL
        14, 14, 14, 14, // data field, node, 4103, the pair
    ];
    let rows: Vec<(u8, usize)> = numbers.iter().map(|number| (*number, 10)).collect();
    expect_fresh_messages("2.1 One place of the header", &rows);
}

#[test]
fn lengths_storage_and_the_lowest_number() {
    let lengths = [
        (12, 0),
        (12, 0),
        (1, 0),
        (1, 1_396),
        (12, 0),
        (12, 0),
        (12, 0),
    ];
    expect_fresh_messages("2.2 Lengths", &lengths);
    let storage = [(1, 10), (11, 0), (11, 0), (11, 0), (11, 0), (12, 0)];
    expect_fresh_messages("2.3 Storage", &storage);
    let lowest = [(12, 0), (13, 0), (14, 0), (14, 0), (15, 0)];
    expect_fresh_messages("2.4 Two numbers at once", &lowest);
}

#[test]
fn a_test_node_and_the_empty_state() {
    expect(
        "2.5 A test node",
        "S 0\nP 13 0 0 0 0 0 0 0\nP 1 1 0 10 0 0 0 0\nP 1 2 0 10 0 0 0 0",
    );
    expect(
        "2.6 The empty state",
        "S 10\nP 14 0 0 0 0 0 0 0\nP 13 0 0 0 0 0 0 0\nP 12 0 0 0 0 0 0 0\nP 11 0 0 0 0 0 0 0",
    );
}

#[test]
fn cuts_possible_and_not() {
    let numbers = [
        16, 16, 1, 16, // n -64, -1, 0, 2^32 - 65
        0, 16, 0, 16, // n 16384, 16385: first piece, last piece
        16, 16, 16, // CBN 0, CBN 0 of 2, TBN 0
        16, 16, // CBN above TBN
        16, 16, // TBN 1, p unlike n
        16, 0, 0, 12, // u 255, 256, 1396, 1397
        16, 0, // 512 < n: n 512, 513
        0, 16, // n <= 768: n 768, 769
        0, 16, 0, // TBN 64, TBN 65, piece 64 of 64
        16, 16, // n - p 0, -1
        0, 16, // n - p 512, 513, by 2
        16, 0, 16, // quotient 255, 1396, 1397
        16, 0, 0, 16, // p 0, 1, u, u + 1
    ];
    let rows: Vec<(u8, usize)> = numbers.iter().map(|number| (*number, 0)).collect();
    expect_fresh_messages("3.1 Cut rule", &rows);
}

/// M is 2147483647; 85 - 101 - 1 is -17, M - 17 is 2147483630.
#[test]
fn the_number_check_with_n1_16() {
    expect(
        "4.1 N1 16",
        "\
P 1 5 0 10 0 0 0 0
P 1 1 0 10 0 0 0 0
P 1 2 0 10 0 0 0 0
P 17 0 0 0 0 0 0 0
P 17 0 0 0 0 15 0 0
P 1 4 0 10 2147483630 0 0 0
P 1 4 0 10 2 0 0 0
P 1 3 0 10 0 0 0 0
P 1 4 0 10 2147483558 0 0 0
P 17 0 0 0 0 0 0 0
P 1 2 0 10 0 0 0 0
P 1 4 0 10 1 0 0 0
P 17 0 0 0 0 15 0 0
P 1 4 0 10 2147483630 0 0 0
P 1 5 0 10 0 0 0 0
W 0 16 15000 0 2
w 0 1 7 6 2147483634 0 0 0 0 0 0 0 0 0 0 0 0 0
w 1 2 9 0 0 0 0 0 0 0 0 0 0 0 0 0 0 0
P 1 3 0 10 0 0 0 0
P 1 1 0 10 0 0 0 0
P 1 1 0 10 0 0 0 0
P 1 5 0 10 0 0 0 0
W 0 16 15000 0 2
w 0 1 7 0 5 0 0 0 0 0 0 0 0 0 0 0 0 0
w 1 2 9 0 0 0 0 0 0 0 0 0 0 0 0 0 0 0
P 1 1 0 10 0 0 0 0
P 1 2 0 10 0 0 0 0",
    );
}

/// 99 - 100 - 1 is -2; 976 - 2000 - 1 is -1025; 2147483599 - 976 - 1.
#[test]
fn the_number_check_with_n1_at_its_ends() {
    expect(
        "4.2 N1 1",
        "\
S 0
P 1 1 0 10 0 0 0 0
P 17 0 0 0 0 0 0 0
P 1 4 0 10 2147483645 0 0 0
P 1 2 0 10 0 0 0 0",
    );
    expect(
        "4.3 N1 1024",
        "\
S 0
P 1 1 0 10 0 0 0 0
P 17 0 0 0 0 1023 0 0
P 1 4 0 10 2147482622 0 0 0
P 17 0 0 0 0 1023 0 0
P 1 4 0 10 2147482622 0 0 0",
    );
}

#[test]
fn four_pieces() {
    expect(
        "5.1 Four pieces",
        "\
P 0 0 1 0 0 0 0 0
Q 0 1 0 2 2
P 0 0 2 0 0 0 0 0
P 0 0 3 0 0 0 0 0
Q 0 1 0 4 4
P 1 1 0 4500 0 0 0 0
Q 0 0 0 0 0
P 17 0 0 0 0 0 0 0
P 0 0 1 0 0 0 0 0
P 20 0 0 0 0 0 0 0
P 0 0 2 0 0 0 0 0
P 0 0 3 0 0 0 0 0
Q 0 1 0 1 1
P 20 0 0 0 0 0 0 0
P 1 2 0 4500 0 0 0 0",
    );
}

/// After each k pieces 1 to k are held from below.
#[test]
fn twelve_pieces_and_sixty_four() {
    let mut twelve = Vec::new();
    for k in 1..=5 {
        twelve.push(format!("P 0 0 {} 0 0 0 0 0", 2 * k - 1));
        twelve.push(format!("P 0 0 {} 0 0 0 0 0", 2 * k));
        twelve.push(format!("Q 0 1 0 {} {}", k + 1, k + 1));
    }
    twelve.push("P 0 0 11 0 0 0 0 0".into());
    twelve.push("P 1 1 0 16384 0 0 0 0".into());
    twelve.push("Q 0 0 0 0 0".into());
    expect("5.2 Twelve pieces", &twelve.join("\n"));
    let stored = |held: u32| format!("P 0 0 {held} 0 0 0 0 0");
    let mut most: Vec<String> = (1..=63).map(stored).collect();
    most.push("Q 0 1 1 64 64".into());
    most.push("P 0 0 1 0 0 0 5 99".into());
    most.extend((2..=63).map(stored));
    most.push("P 1 1 0 16384 0 0 0 0".into());
    most.push("Q 0 0 0 0 0".into());
    expect("5.3 Sixty-four pieces", &most.join("\n"));
}

#[test]
fn two_senders() {
    expect(
        "5.4 Two senders",
        "\
P 0 0 1 0 0 0 0 0
Q 0 1 1 1 1
P 0 0 1 0 0 0 0 0
Q 0 1 0 2 2
P 0 0 2 0 0 0 0 0
P 0 0 2 0 0 0 0 0
P 1 1 0 600 0 0 0 0
Q 0 1 1 2 2
P 1 1 0 600 0 0 0 0",
    );
}

/// R is 102 behind the first one-piece message, so 112 skips 9. Open M, 113 comes:
/// it is 113 on, and newer.
#[test]
fn drops() {
    expect(
        "5.5 Drops",
        "\
P 0 0 1 0 0 0 0 0
P 0 0 1 0 0 0 5 100
Q 0 1 0 2 2
P 18 0 0 0 0 0 0 0
P 0 0 1 0 0 0 5 101
P 0 0 1 0 0 0 6 50
P 1 1 0 10 0 0 5 101
Q 0 0 0 0 0
P 0 0 1 0 0 0 0 0
P 17 0 0 0 0 0 0 0
P 18 0 0 0 0 0 0 0
P 18 0 0 0 0 0 0 0
P 1 4 0 10 9 0 5 110
P 0 0 1 0 0 0 0 0
P 0 0 1 0 0 0 5 2147483647
P 0 0 1 0 0 0 5 113
P 1 5 0 300 0 0 0 0
W 0 16 15000 0 2
w 0 1 7 5 112 0 0 0 0 0 0 0 0 0 0 0 0 0
w 1 2 9 0 0 0 0 0 0 0 0 0 0 0 0 0 0 0",
    );
}

/// Pieces 1, 2 and 4 are bits 0, 1 and 3: map 11.
#[test]
fn unlike_the_open_message() {
    expect(
        "5.6 Unlike the open message",
        "\
P 0 0 1 0 0 0 0 0
P 19 0 0 0 0 0 0 0
P 19 0 0 0 0 0 0 0
P 19 0 0 0 0 0 0 0
P 19 0 0 0 0 0 0 0
P 19 0 0 0 0 0 0 0
P 19 0 0 0 0 0 0 0
P 19 0 0 0 0 0 0 0
P 19 0 0 0 0 0 0 0
P 20 0 0 0 0 0 0 0
P 20 0 0 0 0 0 0 0
P 0 0 2 0 0 0 0 0
P 0 0 3 0 0 0 0 0
W 0 16 15000 0 2
w 0 1 7 0 0 1 5 100 1 4500 4 1332 11 3 0 0 0 0
w 1 2 9 0 0 0 0 0 0 0 0 0 0 0 0 0 0 0
P 1 1 0 4500 0 0 0 0
P 17 0 0 0 0 0 0 0",
    );
}

/// "Delivery leaves RV and R", so (0, 1) opens again and (0, 2) comes first.
#[test]
fn unchecked_of_several_pieces() {
    expect(
        "5.7 Unchecked, of several pieces",
        "\
P 0 0 1 0 0 0 0 0
P 1 5 0 300 0 0 0 0
P 0 0 1 0 0 0 0 0
P 19 0 0 0 0 0 0 0
P 20 0 0 0 0 0 0 0
P 0 0 1 0 0 0 0 1
P 18 0 0 0 0 0 0 0
W 0 16 15000 0 2
w 0 1 7 0 0 1 0 2 1 300 2 256 1 1 0 0 0 0
w 1 2 9 0 0 0 0 0 0 0 0 0 0 0 0 0 0 0
P 1 1 0 300 0 0 0 0
W 0 16 15000 0 2
w 0 1 7 0 2 0 0 0 0 0 0 0 0 0 0 0 0 0
w 1 2 9 0 0 0 0 0 0 0 0 0 0 0 0 0 0 0",
    );
}

/// A sender with nothing open, as 01 has it written, but for its last version and
/// number and what is heard of it.
fn closed(sender: &str, last: &str, heard: &str) -> String {
    format!("w {sender} {last} 0 {NOUGHT} {heard}\n")
}

/// Each piece that joins is one more; a refused one is none. Pieces 2 and 4 are
/// bits 1 and 3: map 10.
const COUNT_OF_JOINS: &str = "\
P 0 0 1 0 0 0 0 0
H 1
H 0
H 0
P 0 0 2 0 0 0 0 0
H 2
W 0 16 15000 0 2
w 0 1 7 0 0 1 5 100 1 4500 4 1332 10 2 0 0 0 0
w 1 2 9 0 0 0 0 0 0 0 0 0 0 0 0 0 0 0
P 20 0 0 0 0 0 0 0
H 2
P 18 0 0 0 0 0 0 0
H 2
P 19 0 0 0 0 0 0 0
H 2
P 16 0 0 0 0 0 0 0
H 2
P 13 0 0 0 0 0 0 0
H 2
P 11 0 0 0 0 0 0 0
H 2
";

/// The second sender's piece of ms 0 is its own; a signal and a clock call that
/// drops nothing leave both counts.
const COUNT_BESIDE_OTHERS: &str = "\
P 0 0 1 0 0 0 0 0
H 2
H 1
H 0
A 0
H 2
H 1
C 0 0 0
H 2
H 1
P 0 0 3 0 0 0 0 0
H 3
H 1
";

/// A newcomer's first piece is 1, whatever was held before. The second sender's
/// stamp is 0 and the first's 1000, so that T 15000 drops them at 15999 and 16000.
const COUNT_OF_NEWCOMERS: &str = "\
P 0 0 1 0 0 0 5 100
H 1
H 1
W 0 16 15000 1000 2
w 0 1 7 0 0 1 5 101 1 4500 4 1332 4 1 1000 1 0 60
w 1 2 9 0 0 1 5 100 1 4500 4 1332 1 1 0 0 0 0
P 0 0 2 0 0 0 0 0
H 2
P 0 0 1 0 0 0 5 101
H 1
P 0 0 2 0 0 0 0 0
H 2
C 0 2 0
H 2
H 0
C 0 1 0
H 0
H 0
W 0 16 15000 16000 2
w 0 1 7 0 0 0 0 0 0 0 0 0 0 0 0 1 0 60
w 1 2 9 0 0 0 0 0 0 0 0 0 0 0 0 0 0 0
";

/// Nothing is held behind a delivery. Behind (6, 51) number 61 skips 9.
const COUNT_OF_DELIVERIES: &str = "\
P 0 0 1 0 0 0 0 0
H 1
P 0 0 2 0 0 0 0 0
H 2
P 0 0 3 0 0 0 0 0
H 3
P 1 1 0 4500 0 0 0 0
H 0
W 0 16 15000 16000 2
w 0 1 7 6 50 0 0 0 0 0 0 0 0 0 0 1 0 60
w 1 2 9 0 0 0 0 0 0 0 0 0 0 0 0 0 0 0
P 17 0 0 0 0 0 0 0
H 0
P 1 2 0 10 0 0 0 0
H 0
P 0 0 1 0 0 0 0 0
H 1
P 17 0 0 0 0 0 0 0
H 1
P 1 4 0 10 9 0 6 60
H 0
P 0 0 1 0 0 0 0 0
H 1
P 1 5 0 300 0 0 0 0
H 0
W 0 16 15000 16000 2
w 0 1 7 6 61 0 0 0 0 0 0 0 0 0 0 1 0 60
w 1 2 9 0 0 0 0 0 0 0 0 0 0 0 0 0 0 0
";

/// Twelve pieces under version 7, a restart; then 63 of 64, and all of the next
/// message's. Pieces 1 to 63 are the map 2^63 - 1.
fn count_of_long_messages() -> String {
    let joined = |held: u32| format!("P 0 0 {held} 0 0 0 0 0\nH {held}\n");
    let clock = "W 0 16 15000 16000 2\n";
    let first = closed("0 1 7", "7 100", "1 0 60");
    let mut lines: String = (1..=11).map(joined).collect();
    lines += "P 1 3 0 16384 0 0 0 0\nH 0\n";
    lines.extend((1..=63).map(joined));
    lines += &[clock, &first].concat();
    lines += "w 1 2 9 0 0 1 5 99 1 16384 64 256 9223372036854775807 63 16000 0 0 0\n";
    lines += "P 0 0 1 0 0 0 5 99\nH 1\n";
    lines.extend((2..=63).map(joined));
    lines += "P 1 1 0 16384 0 0 0 0\nH 0\n";
    lines += &[clock, &first, &closed("1 2 9", "5 100", "0 0 0")].concat();
    lines
}

#[test]
fn the_kept_count() {
    let sixteen = "S 0\nH 0\nH 0\nP 0 0 1 0 0 0 0 0\nH 0\nH 0\nH 1\nH 0\nH 0\n";
    let parts = [
        "H 0\nH 0\nH 0\nH 0\nH 0\nH 0\n",
        COUNT_OF_JOINS,
        COUNT_BESIDE_OTHERS,
        COUNT_OF_NEWCOMERS,
        COUNT_OF_DELIVERIES,
        &count_of_long_messages(),
        sixteen,
        "S 10\nH 0\nH 0\nH 0\n",
    ];
    expect("5.8 The kept count", &parts.concat());
}

/// "open M, 1 comes: replaced. Open 1, M comes: 18." The second sender's 1 stands
/// beside it. Of three pieces the second is bit 1: map 2.
const M_AND_THEN_1: &str = "\
P 0 0 1 0 0 0 0 0
P 0 0 1 0 0 0 0 0
P 0 0 1 0 0 0 5 2147483647
W 0 16 15000 0 2
w 0 1 7 0 0 1 5 1 1 600 3 256 2 1 0 0 0 0
w 1 2 9 0 0 1 5 1 1 600 3 256 1 1 0 0 0 0
P 18 0 0 0 0 0 0 0
P 18 0 0 0 0 0 0 0
P 18 0 0 0 0 0 0 0
H 1
H 1
P 0 0 2 0 0 0 0 0
P 1 1 0 600 0 0 0 0
P 17 0 0 0 0 1 0 0
W 0 16 15000 0 2
w 0 1 7 5 1 0 0 0 0 0 0 0 0 0 0 0 0 0
w 1 2 9 0 0 1 5 1 1 600 3 256 1 1 0 0 0 0
";

/// Two pieces of M are joined; behind 1 under version 6 it is a repeat.
const DROPPED_BY_ONE_PIECE: &str = "\
P 0 0 1 0 0 0 0 0
P 0 0 1 0 0 0 6 2147483646
P 0 0 2 0 0 0 0 0
H 2
P 1 3 0 10 0 0 6 2147483647
H 0
P 17 0 0 0 0 1 0 0
";

/// Behind M - 1 number 1 skips one, M. Behind M - 2 all four are next.
const DELIVERED_OVER_THE_END: &str = "\
P 1 3 0 10 0 0 0 0
P 0 0 1 0 0 0 0 0
P 0 0 1 0 0 0 7 2147483647
P 1 4 0 300 1 0 0 0
P 1 3 0 10 0 0 0 0
P 0 0 1 0 0 0 0 0
P 1 2 0 300 0 0 0 0
P 0 0 1 0 0 0 0 0
P 1 2 0 300 0 0 0 0
P 0 0 1 0 0 0 0 0
P 1 2 0 300 0 0 0 0
P 0 0 1 0 0 0 0 0
P 1 2 0 300 0 0 0 0
W 0 16 15000 0 2
w 0 1 7 8 2 0 0 0 0 0 0 0 0 0 0 0 0 0
w 1 2 9 0 0 1 5 1 1 600 3 256 1 1 0 0 0 0
";

/// Each drops the one before; RV is 8, so that version 9 is a restart.
const ANOTHER_VERSION: &str = "\
P 0 0 1 0 0 0 0 0
P 0 0 1 0 0 0 9 1
P 0 0 1 0 0 0 10 2147483647
P 0 0 1 0 0 0 9 1
P 0 0 1 0 0 0 10 1073741824
P 0 0 1 0 0 0 9 1
P 0 0 1 0 0 0 10 1073741825
P 0 0 1 0 0 0 9 1
P 1 3 0 10 0 0 10 1
";

/// (0, 1) is unchecked and leaves RV and R, so that (0, M) opens again.
const VERSION_0: &str = "\
P 0 0 1 0 0 0 0 0
P 0 0 1 0 0 0 0 2147483647
P 18 0 0 0 0 0 0 0
P 1 5 0 300 0 0 0 0
P 0 0 1 0 0 0 0 0
P 1 5 0 10 0 0 0 2147483647
W 0 16 15000 0 2
w 0 1 7 9 2147483647 0 0 0 0 0 0 0 0 0 0 0 0 0
w 1 2 9 0 0 1 5 1 1 600 3 256 1 1 0 0 0 0
";

#[test]
fn numbers_that_came_round() {
    let parts = [
        M_AND_THEN_1,
        DROPPED_BY_ONE_PIECE,
        DELIVERED_OVER_THE_END,
        ANOTHER_VERSION,
        VERSION_0,
    ];
    expect("5.9 Numbers that came round", &parts.concat());
}

/// What y is to the open x by 02. A newer one is close, so many steps on, where x is
/// a repeat behind its delivery, of that age.
#[derive(Clone, Copy, Debug, PartialEq)]
enum Comes {
    Newer,
    NewerAndClose(u32),
    Older,
    Same,
}

/// With x open and y coming, of several pieces and then of one. Piece 3 of x is
/// older than y, or its second, or its last where y is x; behind a delivery of y,
/// number 17 or a gap that opens.
fn meeting(x: u32, y: Comes) -> String {
    let several = match y {
        Comes::Newer | Comes::NewerAndClose(_) => {
            format!("P 0 0 1 0 0 0 5 {x}\nP 18 0 0 0 0 0 0 0\nQ 0 1 0 1 1\n")
        }
        Comes::Older => "P 18 0 0 0 0 0 0 0\nP 0 0 2 0 0 0 0 0\nQ 0 1 0 2 2\n".into(),
        Comes::Same => "P 0 0 2 0 0 0 0 0\nP 1 1 0 600 0 0 0 0\nQ 0 0 0 0 0\n".into(),
    };
    let one = match y {
        Comes::Newer => format!("P 1 1 0 10 0 0 5 {x}\nP 0 0 1 0 0 0 0 0\nQ 0 1 0 1 1\n"),
        Comes::NewerAndClose(age) => {
            format!("P 1 1 0 10 0 0 5 {x}\nP 17 0 0 0 0 {age} 0 0\nQ 0 0 0 0 0\n")
        }
        Comes::Older => "P 18 0 0 0 0 0 0 0\nP 0 0 2 0 0 0 0 0\nQ 0 1 0 2 2\n".into(),
        Comes::Same => "P 19 0 0 0 0 0 0 0\nP 0 0 2 0 0 0 0 0\nQ 0 1 0 2 2\n".into(),
    };
    let opens = "P 0 0 1 0 0 0 0 0\n";
    [opens, &several, opens, &one].concat()
}

/// a, b, and whether b is newer than a: up to 1,073,741,823 on. If not, a is newer
/// than b.
const HALF: [(usize, usize, bool); 18] = [
    (1, 1_073_741_823, true),
    (1, 1_073_741_824, true),
    (1, 1_073_741_825, false),
    (1, 1_073_741_826, false),
    (100, 1_073_741_923, true),
    (100, 1_073_741_924, false),
    (1_073_741_823, 2_147_483_646, true),
    (1_073_741_823, 2_147_483_647, false),
    (1_073_741_824, 2_147_483_647, true),
    (1_073_741_824, 1, false),
    (1_073_741_825, 1, true),
    (1_073_741_825, 2, false),
    (2_000_000_000, 926_258_176, true),
    (2_000_000_000, 926_258_177, false),
    (2_147_483_647, 1_073_741_822, true),
    (2_147_483_647, 1_073_741_823, true),
    (2_147_483_647, 1_073_741_824, false),
    (2_147_483_647, 1_073_741_825, false),
];

/// x, y, and what y is: both roles of each row.
fn half_of_the_ring() -> Vec<(usize, usize, Comes)> {
    let roles = HALF.map(|(a, b, newer)| match newer {
        true => [(a, b, Comes::Newer), (b, a, Comes::Older)],
        false => [(a, b, Comes::Older), (b, a, Comes::Newer)],
    });
    roles.concat()
}

/// The row of each x; M - 1, M, 1 and 2 follow each other.
fn around_the_end() -> Vec<(usize, usize, Comes)> {
    use Comes::{NewerAndClose, Older, Same};
    let numbers = [2_147_483_646, 2_147_483_647, 1, 2];
    let rows = [
        [Same, NewerAndClose(1), NewerAndClose(2), NewerAndClose(3)],
        [Older, Same, NewerAndClose(1), NewerAndClose(2)],
        [Older, Older, Same, NewerAndClose(1)],
        [Older, Older, Older, Same],
    ];
    let of_x = |(x, row): (usize, [Comes; 4])| {
        let pairs = numbers.into_iter().zip(row);
        pairs.map(move |(y, comes)| (x, y, comes))
    };
    numbers.into_iter().zip(rows).flat_map(of_x).collect()
}

#[test]
fn both_sides_of_half_the_ring_and_of_its_end() {
    for (title, pairs) in [
        ("5.10 Half of the ring", half_of_the_ring()),
        ("5.11 Around the end of the ring", around_the_end()),
    ] {
        let expected: String = pairs
            .iter()
            .map(|(x, _, y)| meeting(*x as u32, *y))
            .collect();
        expect(title, &expected);
    }
}

/// R is 2, so that 4 skips one; then 2 under version 6, and 3 is next; then 1 under
/// version 7.
#[test]
fn repeats_around_the_end_of_the_ring() {
    expect(
        "5.12 17 before 18",
        "\
P 1 1 0 10 0 0 0 0
P 0 0 1 0 0 0 0 0
P 17 0 0 0 0 2 0 0
P 17 0 0 0 0 15 0 0
P 18 0 0 0 0 0 0 0
P 18 0 0 0 0 0 0 0
P 1 4 0 300 1 0 0 0
P 1 3 0 10 0 0 0 0
P 0 0 1 0 0 0 0 0
P 17 0 0 0 0 2 0 0
P 17 0 0 0 0 1 0 0
P 17 0 0 0 0 0 0 0
P 17 0 0 0 0 15 0 0
P 0 0 1 0 0 0 6 2147483547
P 1 2 0 10 0 0 6 2147483633
P 1 3 0 10 0 0 0 0
P 0 0 1 0 0 0 0 0
P 17 0 0 0 0 0 0 0
P 17 0 0 0 0 1 0 0
P 18 0 0 0 0 0 0 0
P 0 0 1 0 0 0 7 1073741824
W 0 16 15000 0 2
w 0 1 7 7 1 1 7 2147483632 1 300 2 256 2 1 0 0 0 0
w 1 2 9 0 0 0 0 0 0 0 0 0 0 0 0 0 0 0",
    );
}

#[test]
fn three_numbers_in_a_circle() {
    expect(
        "5.13 Three numbers in a circle",
        "\
P 0 0 1 0 0 0 0 0
P 0 0 1 0 0 0 5 1
P 0 0 1 0 0 0 5 715827883
P 0 0 1 0 0 0 5 1431655765
P 18 0 0 0 0 0 0 0
P 0 0 1 0 0 0 5 1
W 0 16 15000 0 2
w 0 1 7 0 0 1 5 715827883 1 300 2 256 1 1 0 0 0 0
w 1 2 9 0 0 0 0 0 0 0 0 0 0 0 0 0 0 0
P 18 0 0 0 0 0 0 0
P 1 1 0 10 0 0 5 715827883
W 0 16 15000 0 2
w 0 1 7 5 1431655765 0 0 0 0 0 0 0 0 0 0 0 0 0
w 1 2 9 0 0 0 0 0 0 0 0 0 0 0 0 0 0 0",
    );
}

/// A repeat of this age.
fn repeat(age: u32) -> String {
    format!("P 17 0 0 0 0 {age} 0 0\n")
}

/// One piece of 10 octets that is delivered with this verdict and skipped count.
fn delivered(verdict: u8, skipped: u32) -> String {
    format!("P 1 {verdict} 0 10 {skipped} 0 0 0\n")
}

/// A refusal without an age.
fn bare(number: u8) -> String {
    format!("P {number} 0 0 0 0 0 0 0\n")
}

/// 100 - 84 is 16 and 3 - 16 is -13, M - 13; 84 - 100 - 1 and -13 - 3 - 1 are -17.
#[test]
fn ages_of_repeats_with_n1_16() {
    let parts = [
        delivered(1, 0),
        [0, 1, 8, 15].map(repeat).concat(),
        delivered(4, 2_147_483_630),
        repeat(0),
        delivered(3, 0),
        [2, 3, 15].map(repeat).concat(),
        delivered(4, 2_147_483_630),
        delivered(3, 0),
        repeat(1),
    ];
    expect("15.1 Ages of a repeat, N1 16", &parts.concat());
}

/// 99 - 100 - 1 is -2, M - 1 - 1 - 1 is M - 3, -24 - 1000 - 1 is -1025.
#[test]
fn ages_of_repeats_with_other_n1() {
    let first = ["S 0\n".to_string(), delivered(1, 0)].concat();
    let parts = [
        first.clone(),
        repeat(0),
        delivered(4, 2_147_483_645),
        first.clone(),
        repeat(1),
        delivered(4, 2_147_483_644),
        first,
        [255, 256, 1_023].map(repeat).concat(),
        delivered(4, 2_147_482_622),
    ];
    expect("15.2 Ages of a repeat, N1 1, 2 and 1024", &parts.concat());
}

/// R is 100 while 110 is open, and then 110: 101 to 109 are skipped.
#[test]
fn ages_from_the_number_last_delivered() {
    let opened = "P 0 0 1 0 0 0 0 0\n";
    let parts = [
        delivered(1, 0),
        opened.into(),
        [0, 3, 15].map(repeat).concat(),
        [18, 19, 20].map(bare).concat(),
        "P 0 0 2 0 0 0 0 0\nP 1 4 0 600 9 0 0 0\n".into(),
        [10, 0].map(repeat).concat(),
        opened.into(),
        repeat(2),
        "P 0 0 1 0 0 0 5 2147483600\n".into(),
        repeat(5),
        "C 0 1 0\n".into(),
        repeat(15),
    ];
    expect("15.3 From the number last delivered", &parts.concat());
}

/// R is 103, and then 113.
#[test]
fn other_numbers_beside_a_repeat() {
    let parts = [
        delivered(1, 0),
        repeat(3),
        [11, 12, 13, 14, 15, 16, 9].map(bare).concat(),
        repeat(3),
        "P 0 0 1 0 0 0 0 0\n".into(),
        [5, 3, 3].map(repeat).concat(),
    ];
    expect("15.4 Other numbers beside a repeat", &parts.concat());
}

#[test]
fn ages_beside_unchecked_and_under_version_0() {
    let parts = [
        delivered(1, 0),
        delivered(5, 0),
        repeat(10),
        "P 0 0 1 0 0 0 0 0\n".into(),
        repeat(10),
        "P 1 5 0 300 0 0 0 0\n".into(),
        repeat(15),
        delivered(3, 0),
        delivered(1, 0).repeat(2),
        repeat(0),
    ];
    expect("15.5 Unchecked, and version 0", &parts.concat());
}

/// The second sender's R is 105; the first's 100, and then 103.
#[test]
fn ages_of_each_sender() {
    let parts = [
        delivered(1, 0).repeat(2),
        [5, 10].map(repeat).concat(),
        delivered(4, 2),
        [8, 10, 15].map(repeat).concat(),
    ];
    expect("15.6 Each sender's own", &parts.concat());
}

#[test]
fn the_clock_never_goes_back() {
    let numbers = [0, 0, 0, 21, 0, 21, 21, 0, 0, 0, 21];
    expect_numbers("6.1 The clock", "C", " 0 0", &numbers);
}

/// T 15000. Sender 0's stamp is 8000, then 23000, then 38000; sender 1's is 9000,
/// then 38000.
#[test]
fn ages_of_open_messages() {
    expect(
        "6.2 Age of a message",
        "\
C 0 0 0
P 0 0 1 0 0 0 0 0
C 0 0 0
P 0 0 2 0 0 0 0 0
C 0 0 0
P 20 0 0 0 0 0 0 0
P 0 0 1 0 0 0 0 0
W 0 16 15000 9000 2
w 0 1 7 0 0 1 5 100 1 4500 4 1332 3 2 8000 0 0 0
w 1 2 9 0 0 1 5 100 1 300 2 256 1 1 9000 0 0 0
C 0 0 0
C 0 1 0
Q 0 1 1 2 2
P 0 0 1 0 0 0 0 0
C 0 2 0
C 0 0 0
C 0 1 0
Q 0 0 0 0 0
P 0 0 1 0 0 0 0 0
P 0 0 1 0 0 0 0 0
C 0 3 0",
    );
    let once = "S 0\nP 0 0 1 0 0 0 0 0\nC 0 0 0\nC 0 1 0";
    expect("6.3 T at its ends", &[once, once].join("\n"));
}

/// al_tm_out is in seconds: 1999 + 4294968 x 1000 = 4294969999.
#[test]
fn silent_senders() {
    expect(
        "6.4 al_tm_out",
        "\
A 0
C 0 0 1
A 0
A 0
C 0 0 0
A 0
C 0 0 1
C 0 0 0
C 0 0 2
A 0
A 0
C 0 0 0
C 0 0 2
C 0 0 0
W 0 16 15000 1099511627776 2
w 0 1 7 0 0 0 0 0 0 0 0 0 0 0 0 1 1999 4294967295
w 1 2 9 0 0 0 0 0 0 0 0 0 0 0 0 0 0 0",
    );
    expect(
        "6.5 Both maps",
        "A 0\nA 0\nP 0 0 1 0 0 0 0 0\nC 0 0 0\nP 0 0 1 0 0 0 0 0\nC 0 0 2\nC 0 3 1",
    );
}

#[test]
fn alive_pdus() {
    // 1,472 octets have 1,344 behind the header, all 0: no section.
    let lengths = [12, 0, 24, 12, 12, 12, 12, 12, 22, 22, 22];
    expect_numbers("7.1 Lengths of an alive PDU", "A", "", &lengths);
    let places = [
        13, 13, 13, 13, // H_TYPE, domain, PVER, FUI
        0, 0, 13, // PRI 0, 7, 8
        0, 13, // MODE 1, 2
        13, 0, 13, 13, // TCD 60002, 60003, 60004, 1
        0, 0, // SEQ 0, M + 1
        14, 14, // sender
        22, 22, 22, // CBN 0, 2; TBN 2
        22, 22, 0, // group 1, 256; the rest of DA
        22, 22, 22, 22, // al_protocol 3, 5; al_ver 0, 2
        22, 0, 0, 0, 22, // al_mode 0 to 4
        0,  // fu2
    ];
    expect_numbers("7.2 One place of an alive PDU", "A", "", &places);
    expect_numbers("7.3 Two numbers at once", "A", "", &[12, 13, 13, 14]);
}

#[test]
fn alive_and_dead() {
    expect(
        "7.4 Alive and dead",
        "\
C 0 0 0
A 0
W 0 16 15000 500 2
w 0 1 7 0 0 0 0 0 0 0 0 0 0 0 0 1 500 60
w 1 2 9 0 0 0 0 0 0 0 0 0 0 0 0 0 0 0
C 0 0 0
A 0
A 0
A 22
W 0 16 15000 600 2
w 0 1 7 0 0 0 0 0 0 0 0 0 0 0 0 1 600 7
w 1 2 9 0 0 0 0 0 0 0 0 0 0 0 0 1 600 9
A 0
W 0 16 15000 600 2
w 0 1 7 0 0 0 0 0 0 0 0 0 0 0 0 0 0 0
w 1 2 9 0 0 0 0 0 0 0 0 0 0 0 0 1 600 9
A 0
A 0
W 0 16 15000 600 2
w 0 1 7 0 0 0 0 0 0 0 0 0 0 0 0 1 600 4294967295
w 1 2 9 0 0 0 0 0 0 0 0 0 0 0 0 0 0 0",
    );
    expect(
        "7.5 Alive at the empty state",
        "S 10\nA 14\nA 13\nA 12\nC 0 0 0\nQ 0 0 0 0 0\nW 0 1 1 1000 0",
    );
}

/// What the four calls answer on a damaged state.
const REFUSED: [&str; 4] = ["P 9 0 0 0 0 0 0 0", "A 9", "C 9 0 0", "Q 9 0 0 0 0"];
/// Piece 2 is held, piece 1 joins it, piece 3 is missing.
const PASSES: [&str; 4] = ["P 0 0 2 0 0 0 0 0", "A 0", "C 0 0 0", "Q 0 1 0 3 3"];
/// The state passes; the PDU's n differs from the open message's.
const UNLIKE: [&str; 4] = ["P 19 0 0 0 0 0 0 0", "A 0", "C 0 0 0", "Q 0 1 0 1 1"];
/// Pieces 2 and 3 are held, piece 1 joins them, piece 4 is missing.
const TWO_HELD: [&str; 4] = ["P 0 0 3 0 0 0 0 0", "A 0", "C 0 0 0", "Q 0 1 0 4 4"];
/// Nothing was open: piece 1 opens, piece 2 is missing.
const OPENS: [&str; 4] = ["P 0 0 1 0 0 0 0 0", "A 0", "C 0 0 0", "Q 0 1 0 2 2"];
/// The empty state: nobody is registered.
const NOBODY: [&str; 4] = ["P 14 0 0 0 0 0 0 0", "A 14", "C 0 0 0", "Q 0 0 0 0 0"];

/// The rows of the section, from 1, that are not refused with 9.
fn expect_rows(title: &str, count: usize, passing: &[(usize, [&str; 4])]) {
    let mut rows = vec![REFUSED; count];
    for (row, answers) in passing {
        rows[row - 1] = *answers;
    }
    assert_eq!(answers(title), rows.concat(), "{title}");
}

#[test]
fn damaged_states() {
    // Nothing changed; last version 0 with number 7. Piece 2 alone is held, so that
    // held 0, 2 and 255 differ from it.
    let whole = [(1, PASSES), (14, PASSES)];
    expect_rows("8.1 One value changed", 23, &whole);
    // n 3997, n 5328, all of 64 but piece 1; then map 6 with held 2, and not with 1
    // or 3, nor 63 ones with 62 or 64.
    let possible = [(6, UNLIKE), (7, UNLIKE), (13, UNLIKE), (15, TWO_HELD)];
    expect_rows("8.2 Cut and map of the open message", 19, &possible);
    let junk = [(1, OPENS), (2, PASSES), (3, PASSES)];
    expect_rows("8.3 What is never looked at", 3, &junk);
    expect_rows("8.4 No senders", 4, &[(1, NOBODY)]);
}

/// A record that is not open, and full of what is never looked at.
const JUNK: &str = "5 100 60000 65535 1 0 18446744073709551615 255 18446744073709551615";
/// The record of a message not open as 01 has it written.
const NOUGHT: &str = "0 0 0 0 0 0 0 0 0";
/// A sender not alive, with a stamp and al_tm_out that are never looked at.
const UNHEARD: &str = "0 18446744073709551615 4294967295";

/// One row of 8.5: the call's line, then the state, with this of sender 0 (its
/// last version and number, open and record, alive and the rest) and of sender 1
/// (its last version and number).
fn junk_row(line: &str, clock: u32, first: [&str; 3], second: &str) -> Vec<String> {
    vec![
        line.to_string(),
        format!("W 0 16 15000 {clock} 2"),
        format!("w 0 1 7 {}", first.join(" ")),
        format!("w 1 2 9 {second} 0 {NOUGHT} 0 0 0"),
    ]
}

/// A delivery leaves nothing open: its sender's record is written 0. An alive
/// signal writes the stamp and al_tm_out. Nothing else writes there.
#[test]
fn what_is_written_over_junk() {
    let junk = format!("0 {JUNK}");
    let nought = format!("0 {NOUGHT}");
    let still = ["0 0", &junk, UNHEARD];
    let open = ["0 0", "1 5 100 1 300 2 256 2 1 1000", UNHEARD];
    let rows = [
        junk_row(
            "P 1 1 0 10 0 0 0 0",
            1_000,
            ["5 100", &nought, UNHEARD],
            "0 0",
        ),
        junk_row(
            "P 1 5 0 10 0 0 0 0",
            1_000,
            ["0 0", &nought, UNHEARD],
            "0 0",
        ),
        junk_row("P 0 0 1 0 0 0 0 0", 1_000, open, "0 0"),
        junk_row(
            "P 1 1 0 300 0 0 0 0",
            1_000,
            ["5 100", &nought, UNHEARD],
            "0 0",
        ),
        junk_row("P 13 0 0 0 0 0 0 0", 1_000, still, "0 0"),
        junk_row("P 1 1 0 10 0 0 0 0", 1_000, still, "5 100"),
        junk_row("A 0", 1_000, ["0 0", &junk, "1 1000 60"], "0 0"),
        junk_row("A 0", 1_000, ["0 0", &junk, "0 0 0"], "0 0"),
        junk_row("C 0 0 0", 1_001, still, "0 0"),
        junk_row("Q 0 0 0 0 0", 1_000, still, "0 0"),
    ];
    assert_eq!(answers("8.5 What is written over it"), rows.concat());
}

/// The number kept, whatever the state is: at 0, 1, 2, 15, 16, 255.
#[test]
fn the_count_of_damaged_states() {
    let rows = [
        [1, 0, 0, 0, 0, 0],   // nothing changed
        [0, 0, 0, 0, 0, 0],   // held 0
        [255, 0, 0, 0, 0, 0], // held 255
        [0, 0, 0, 0, 0, 0],   // not open
        [1, 0, 0, 0, 0, 0],   // N1 0
        [0, 0, 0, 0, 0, 0],   // count 0
        [1, 0, 0, 0, 0, 0],   // count 1
        [1, 0, 0, 0, 0, 0],   // count 17
        [1, 0, 0, 0, 0, 0],   // count 255
        [1, 0, 0, 0, 0, 0],   // place 2 past the senders
        [1, 0, 9, 0, 0, 0],   // and within them
    ];
    expect_numbers(
        "8.6 The count of a damaged state",
        "H",
        "",
        rows.as_flattened(),
    );
}

/// ms 7000 is 0 to 7 seconds or more; ms 15000 is T, and 15 seconds.
#[test]
fn sixteen_senders() {
    let mut expected = vec!["S 0".to_string()];
    expected.extend((0..16).map(|_| "P 0 0 1 0 0 0 0 0".into()));
    expected.push("Q 0 1 0 1 1".into());
    expected.extend((0..16).map(|_| "P 1 1 0 300 0 0 0 0".into()));
    expected.push("Q 0 0 0 0 0".into());
    expected.extend((0..16).map(|_| "A 0".into()));
    expected.push("P 0 0 1 0 0 0 0 0".into());
    expected.push("Q 0 1 15 1 1".into());
    expected.push("C 0 0 255".into());
    expected.push("W 0 16 15000 7000 16".into());
    expected.extend((0..16).map(sender_after_7_seconds));
    expected.push("C 0 32768 65280".into());
    expect("9.1 Sixteen senders", &expected.join("\n"));
}

fn sender_after_7_seconds(i: u32) -> String {
    let (field, node, r) = (1 + i, 7 + i, 100 + i);
    let open = match i {
        15 => "1 5 116 1 300 2 256 2 1 0",
        _ => "0 0 0 0 0 0 0 0 0 0",
    };
    let alive = if i < 8 {
        "0 0 0".into()
    } else {
        format!("1 0 {i}")
    };
    format!("w {i} {field} {node} 5 {r} {open} {alive}")
}

// The sums.

const AREA: usize = 16_384;

fn sum(octets: &[u8]) -> u64 {
    octets
        .iter()
        .fold(7, |s, octet| (31 * s + u64::from(*octet)) % 4_294_967_296)
}

/// Octets `from` to `to` of the message with this number.
fn message(seq: usize, from: usize, to: usize) -> Vec<u8> {
    (from..to)
        .map(|i| ((7 * i + i / 256 + seq) % 256) as u8)
        .collect()
}

/// Storage as the rows leave it, kept by hand.
struct Kept {
    storage: Vec<u8>,
}

/// What a row that answers 0 or 1 brought: sender's place, SEQ, n, u, and the
/// piece (0: the message is of one piece).
type Brought = [usize; 5];

impl Kept {
    fn new(senders: usize) -> Kept {
        Kept {
            storage: vec![170; senders * AREA],
        }
    }

    /// The part delivered, if this piece is the last to come.
    fn bring(&mut self, [place, seq, n, u, piece]: Brought) -> Vec<u8> {
        if piece > 0 {
            let (from, to) = ((piece - 1) * u, (piece * u).min(n));
            let at = place * AREA;
            self.storage[at + from..at + to].copy_from_slice(&message(seq, from, to));
        }
        message(seq, 0, n)
    }
}

/// (number, part-sum, storage-sum) of each P line.
fn sums(title: &str) -> Vec<(u64, u64, u64)> {
    let numbers = |line: &String| {
        let words: Vec<&str> = line.split(' ').collect();
        let number = |at: usize| words[at].parse().unwrap();
        (words[0] == "P").then(|| (number(1), number(9), number(10)))
    };
    section(title).iter().filter_map(numbers).collect()
}

/// "A piece of several changes exactly its p octets in its sender's area"; the
/// delivered part is the message, octet for octet; a refusal alters no storage.
fn expect_sums(title: &str, senders: usize, brought: &[Brought]) {
    expect_sums_of(title, &sums(title), senders, brought);
}

/// The same of some of a section's P lines.
fn expect_sums_of(title: &str, sums: &[(u64, u64, u64)], senders: usize, brought: &[Brought]) {
    let mut kept = Kept::new(senders);
    let mut brought = brought.iter();
    for (row, (number, part, storage)) in sums.iter().copied().enumerate() {
        let mut delivered = Vec::new();
        if number <= 1 {
            let whole = kept.bring(*brought.next().expect("a row too many"));
            if number == 1 {
                delivered = whole;
            }
        }
        assert_eq!(part, sum(&delivered), "{title}, P line {row}");
        assert_eq!(storage, sum(&kept.storage), "{title}, P line {row}");
    }
    assert!(brought.next().is_none(), "{title}: a row too few");
}

/// These pieces of one message.
fn pieces(message: [usize; 4], pieces: &[usize]) -> Vec<Brought> {
    let [place, seq, n, u] = message;
    pieces
        .iter()
        .map(|piece| [place, seq, n, u, *piece])
        .collect()
}

#[test]
fn sums_of_joined_messages() {
    let first = pieces([0, 100, 4_500, 1_332], &[1, 2, 3, 4]);
    let second = pieces([0, 101, 4_500, 1_332], &[4, 3, 2, 1]);
    expect_sums("5.1 Four pieces", 2, &[first, second].concat());
    let order = [12, 1, 11, 2, 10, 3, 9, 4, 8, 5, 7, 6];
    let twelve = pieces([0, 100, 16_384, 1_396], &order);
    expect_sums("5.2 Twelve pieces", 2, &twelve);
    let reversed: Vec<usize> = (1..=64).rev().collect();
    let but_one: Vec<usize> = (1..=63).collect();
    let dropped = pieces([1, 99, 16_384, 256], &but_one);
    let most = pieces([1, 100, 16_384, 256], &reversed);
    expect_sums("5.3 Sixty-four pieces", 2, &[dropped, most].concat());
    let between = [
        [1, 100, 600, 256, 3],
        [0, 104, 600, 256, 1],
        [0, 104, 600, 256, 3],
        [1, 100, 600, 256, 1],
        [0, 104, 600, 256, 2],
        [1, 100, 600, 256, 2],
    ];
    expect_sums("5.4 Two senders", 2, &between);
}

#[test]
fn sums_of_dropped_and_unlike_messages() {
    let drops = [
        [0, 100, 4_500, 1_332, 2],
        [0, 101, 4_500, 1_332, 1],
        [0, 50, 4_500, 1_332, 3],
        [0, 101, 4_500, 1_332, 4],
        [0, 102, 10, 256, 0],
        [0, 110, 300, 256, 1],
        [0, 112, 10, 256, 0],
        [0, 2_147_483_647, 300, 256, 1],
        [0, 113, 300, 256, 1],
        [0, 1, 300, 256, 2],
        [0, 1, 300, 256, 1],
    ];
    expect_sums("5.5 Drops", 2, &drops);
    let alike = pieces([0, 100, 4_500, 1_332], &[2, 4, 1, 3]);
    expect_sums("5.6 Unlike the open message", 2, &alike);
    let unchecked = pieces([0, 1, 300, 256], &[2, 1, 1]);
    let second = pieces([0, 2, 300, 256], &[1, 2]);
    let title = "5.7 Unchecked, of several pieces";
    expect_sums(title, 2, &[unchecked, second].concat());
}

/// Three pieces of a message of the sender at this place.
fn of_three(place: usize, seq: usize, order: &[usize]) -> Vec<Brought> {
    pieces([place, seq, 600, 256], order)
}

/// The first sender's messages of two pieces, and of one.
fn of_two(seq: usize, order: &[usize]) -> Vec<Brought> {
    pieces([0, seq, 300, 256], order)
}

fn of_one(seq: usize) -> Vec<Brought> {
    vec![[0, seq, 10, 256, 0]]
}

#[test]
fn sums_of_numbers_that_came_round() {
    let m = 2_147_483_647;
    let versions = [1, m, 1, 1_073_741_824, 1, 1_073_741_825, 1, 1];
    let brought = [
        of_three(0, m, &[1]),
        of_three(1, 1, &[1]),
        of_three(0, 1, &[2, 1, 3]),
        of_three(0, m - 1, &[3]),
        of_three(0, m, &[1, 2]),
        of_one(1),
        of_one(m - 1),
        of_two(m, &[1]),
        of_two(1, &[1, 2]),
        of_one(m - 2),
        [m - 1, m, 1, 2].map(|seq| of_two(seq, &[2, 1])).concat(),
        versions.map(|seq| of_two(seq, &[1])).concat(),
        of_one(m),
        of_two(m, &[1]),
        of_two(1, &[1, 2]),
        of_two(m, &[2]),
        of_one(1),
    ];
    expect_sums("5.9 Numbers that came round", 2, &brought.concat());
}

#[test]
fn sums_of_repeats_and_of_the_circle() {
    let m = 2_147_483_647;
    let repeats = [
        of_one(2),
        of_two(4, &[1, 2]),
        of_one(2),
        of_two(m - 100, &[1]),
        of_two(m - 14, &[1]),
        of_one(3),
        of_one(1),
        of_two(1_073_741_824, &[1]),
        of_two(m - 15, &[2]),
    ];
    expect_sums("5.12 17 before 18", 2, &repeats.concat());
    let circle = [1, 715_827_883, 1_431_655_765, 1, 715_827_883];
    let mut circle = circle.map(|seq| of_two(seq, &[1])).concat();
    circle.extend(of_one(1_431_655_765));
    expect_sums("5.13 Three numbers in a circle", 2, &circle);
}

/// A repeat leaves the storage, whatever its age. One call of 15.4 is lent less.
#[test]
fn sums_beside_ages_of_repeats() {
    let m = 2_147_483_647;
    let of_ones = |seqs: &[usize]| seqs.iter().flat_map(|seq| of_one(*seq)).collect::<Vec<_>>();
    let title = "15.1 Ages of a repeat, N1 16";
    expect_sums(title, 2, &of_ones(&[100, 84, 3, m - 13, 1]));
    let title = "15.2 Ages of a repeat, N1 1, 2 and 1024";
    expect_sums(title, 2, &of_ones(&[100, 99, 1, m - 1, 1_000, m - 24]));
    let brought = [
        of_one(100),
        of_three(0, 110, &[1, 2, 3]),
        of_two(2_147_483_600, &[1]),
        of_two(1, &[1]),
    ];
    expect_sums("15.3 From the number last delivered", 2, &brought.concat());
    let title = "15.4 Other numbers beside a repeat";
    let mut lines = sums(title);
    assert_eq!(lines.remove(2), (11, 7, sum(&[170; 32_767])));
    let brought = [of_one(103), of_three(0, 110, &[1])].concat();
    expect_sums_of(title, &lines, 2, &brought);
    let brought = [
        of_ones(&[100, 1]),
        of_two(1, &[1, 2]),
        of_ones(&[100, 100, 95]),
    ];
    expect_sums("15.5 Unchecked, and version 0", 2, &brought.concat());
    let brought = [of_one(100), vec![[1, 105, 10, 256, 0]], of_one(103)];
    expect_sums("15.6 Each sender's own", 2, &brought.concat());
    expect_sums("15.9 Each entry's own", 2, &of_one(104));
}

/// What the six P lines of a pair bring, three of several pieces and three of one.
fn brought_by_a_pair(x: usize, y: usize, comes: Comes) -> [Vec<Brought>; 2] {
    let of = |seq, piece| [0, seq, 600, 256, piece];
    let whole = [0, y, 10, 256, 0];
    let several = match comes {
        Comes::Newer | Comes::NewerAndClose(_) => vec![of(x, 1), of(y, 2)],
        Comes::Older => vec![of(x, 1), of(x, 3)],
        Comes::Same => vec![of(x, 1), of(x, 2), of(x, 3)],
    };
    let one = match comes {
        Comes::Newer => vec![of(x, 1), whole, of(x, 3)],
        Comes::NewerAndClose(_) => vec![of(x, 1), whole],
        Comes::Older | Comes::Same => vec![of(x, 1), of(x, 3)],
    };
    [several, one]
}

#[test]
fn sums_on_both_sides_of_half_the_ring_and_of_its_end() {
    for (title, pairs) in [
        ("5.10 Half of the ring", half_of_the_ring()),
        ("5.11 Around the end of the ring", around_the_end()),
    ] {
        let rows = pairs
            .iter()
            .flat_map(|(x, y, comes)| brought_by_a_pair(*x, *y, *comes));
        let rows: Vec<Vec<Brought>> = rows.collect();
        let lines = sums(title);
        assert_eq!(lines.len(), 3 * rows.len(), "{title}");
        for (lines, brought) in lines.chunks(3).zip(&rows) {
            expect_sums_of(title, lines, 2, brought);
        }
    }
}

/// The one call that is lent no storage is the sixth refusal behind the first two
/// pieces; the last of all is lent that of 16 senders.
#[test]
fn sums_beside_the_kept_count() {
    let title = "5.8 The kept count";
    let mut lines = sums(title);
    assert_eq!(lines.remove(7), (11, 7, 7));
    let last = lines.pop().unwrap();
    let four = |seq: usize, order: &[usize]| pieces([0, seq, 4_500, 1_332], order);
    let order = [12, 1, 11, 2, 10, 3, 9, 4, 8, 5, 7, 6];
    let from_below: Vec<usize> = (1..=63).collect();
    let from_above: Vec<usize> = (1..=64).rev().collect();
    let brought = [
        four(100, &[2, 4]),
        vec![[1, 100, 4_500, 1_332, 1]],
        four(100, &[1]),
        four(101, &[3, 1]),
        four(50, &[2, 1, 4, 3, 2, 1]),
        vec![[0, 51, 10, 256, 0], [0, 60, 300, 256, 2]],
        vec![[0, 61, 10, 256, 0]],
        pieces([0, 1, 300, 256], &[2, 1]),
        pieces([0, 100, 16_384, 1_396], &order),
        pieces([1, 99, 16_384, 256], &from_below),
        pieces([1, 100, 16_384, 256], &from_above),
    ];
    expect_sums_of(title, &lines, 2, &brought.concat());
    expect_sums_of(title, &[last], 16, &[[15, 100, 300, 256, 2]]);
}

#[test]
fn sums_of_the_clocks_messages() {
    let brought = [
        [0, 100, 4_500, 1_332, 1],
        [0, 100, 4_500, 1_332, 2],
        [1, 100, 300, 256, 1],
        [0, 100, 4_500, 1_332, 3],
        [1, 100, 300, 256, 2],
        [0, 100, 4_500, 1_332, 1],
    ];
    expect_sums("6.2 Age of a message", 2, &brought);
    let twice = pieces([0, 100, 300, 256], &[1, 1]);
    expect_sums("6.3 T at its ends", 2, &twice);
    let both = [[1, 100, 300, 256, 1], [0, 100, 300, 256, 1]];
    expect_sums("6.5 Both maps", 2, &both);
}

#[test]
fn sums_of_sixteen_senders() {
    let of = |i: usize, piece: usize| [i, 100 + i, 300, 256, piece];
    let mut brought: Vec<Brought> = (0..16).map(|i| of(i, 2)).collect();
    brought.extend((0..16).rev().map(|i| of(i, 1)));
    brought.push([15, 116, 300, 256, 2]);
    expect_sums("9.1 Sixteen senders", 16, &brought);
}

#[test]
fn sums_of_single_messages() {
    let numbers =
        |seqs: &[usize]| -> Vec<Brought> { seqs.iter().map(|seq| [0, *seq, 10, 256, 0]).collect() };
    let m = 2_147_483_647;
    let n1_16 = [1, 100, 101, 85, 88, 88, m, 1, 3, m - 13, 1];
    let version_0 = [2, 2, 5, 1, 7, 8];
    expect_sums("4.1 N1 16", 2, &numbers(&[&n1_16[..], &version_0].concat()));
    expect_sums("4.2 N1 1", 2, &numbers(&[100, 99, 100]));
    let n1_1024 = [2_000, 976, 2_147_483_599];
    expect_sums("4.3 N1 1024", 2, &numbers(&n1_1024));
    expect_sums("2.5 A test node", 2, &numbers(&[100, 101]));
    // What is laid over the header leaves the octets behind it.
    expect_sums("2.1 One place of the header", 2, &numbers(&[100; 7]));
    expect_sums("2.4 Two numbers at once", 2, &[]);
    let lengths = [[0, 100, 0, 256, 0], [0, 100, 1_396, 256, 0]];
    expect_sums("2.2 Lengths", 2, &lengths);
}

#[test]
fn sums_of_other_lengths_of_storage() {
    let whole = sum(&message(100, 0, 10));
    let lent: Vec<u64> = [32_768, 32_767, 32_769, 0, 32_767, 32_768]
        .iter()
        .map(|length| sum(&vec![170; *length]))
        .collect();
    let expected = [
        (1, whole, lent[0]),
        (11, 7, lent[1]),
        (11, 7, lent[2]),
        (11, 7, 7),
        (11, 7, lent[4]),
        (12, 7, lent[5]),
    ];
    assert_eq!(sums("2.3 Storage"), expected);
    let one = 31 * 7 + 170;
    let expected = [(14, 7, 7), (13, 7, 7), (12, 7, 7), (11, 7, one)];
    assert_eq!(sums("2.6 The empty state"), expected);
}

/// The rows of 3.1 that are stored, from 0: place (CBN - 1) x u and p. Their
/// octets start with message octet 0.
const RAW_PIECES: [(usize, usize, usize); 12] = [
    (4, 0, 1_396),
    (6, 11 * 1_396, 1_028),
    (16, 0, 256),
    (17, 0, 1_396),
    (20, 256, 256),
    (21, 256, 256),
    (23, 0, 256),
    (25, 63 * 256, 256),
    (28, 512, 100),
    (31, 2_792, 100),
    (34, 256, 1),
    (35, 256, 256),
];

#[test]
fn sums_of_raw_pieces() {
    let sums = sums("3.1 Cut rule");
    assert_eq!(sums.len(), 37);
    for (row, (_, part, storage)) in sums.into_iter().enumerate() {
        let mut kept = Kept::new(2).storage;
        if let Some((_, place, p)) = RAW_PIECES.iter().find(|raw| raw.0 == row) {
            kept[*place..place + p].copy_from_slice(&message(100, 0, *p));
        }
        assert_eq!((part, storage), (7, sum(&kept)), "row {row}");
    }
}

/// Piece 2 lies there from before; piece 1 comes in the rows that are stored.
#[test]
fn sums_of_damaged_states() {
    let mut kept = Kept::new(2);
    kept.bring([0, 100, 4_500, 1_332, 2]);
    let before = sum(&kept.storage);
    kept.bring([0, 100, 4_500, 1_332, 1]);
    let after = sum(&kept.storage);
    let titles = [
        "8.1 One value changed",
        "8.2 Cut and map of the open message",
        "8.3 What is never looked at",
    ];
    for (number, part, storage) in titles.iter().flat_map(|title| sums(title)) {
        let expected = if number == 0 { after } else { before };
        assert_eq!((part, storage), (7, expected));
    }
    let nobody = sums("8.4 No senders");
    assert_eq!(nobody, [(14, 7, 7), (9, 7, 7), (9, 7, 7), (9, 7, 7)]);
}

// Section 9.2: the last of c senders, c:(6 + c), at place c - 1.

/// Heard and opened at ms 0 of 15 seconds and T 15000, then opened at ms 14999.
fn lines_with_senders(c: usize) -> Vec<String> {
    let map = 1 << (c - 1);
    let mut expected: Vec<String> = Vec::new();
    expected.extend(["S 0", "P 0 0 1 0 0 0 0 0", "P 14 0 0 0 0 0 0 0"].map(String::from));
    let storage = if c < 16 { 2 } else { 1 };
    expected.extend((0..storage).map(|_| "P 11 0 0 0 0 0 0 0".into()));
    expected.push(format!("Q 0 1 {} 1 1", c - 1));
    expected
        .extend(["A 0", "C 0 0 0", "P 1 1 0 300 0 0 0 0", "P 0 0 1 0 0 0 0 0"].map(String::from));
    expected.push(format!("C 0 0 {map}"));
    expected.push(format!("C 0 {map} 0"));
    expected.push(format!("W 0 16 15000 29999 {c}"));
    for i in 0..c {
        let last = if i == c - 1 { "5 100" } else { "0 0" };
        let nought = format!("0 {NOUGHT} 0 0 0");
        expected.push(format!("w {i} {} {} {last} {nought}", 1 + i, 7 + i));
    }
    expected
}

#[test]
fn five_to_sixteen_senders() {
    let expected: Vec<String> = (5..=16).flat_map(lines_with_senders).collect();
    expect("9.2 Five to sixteen senders", &expected.join("\n"));
}

/// (number, part-sum, storage-sum) of each message call with c senders.
fn sums_with_senders(c: usize) -> Vec<(u64, u64, u64)> {
    let mut kept = Kept::new(c);
    kept.bring([c - 1, 100, 300, 256, 2]);
    let opened = sum(&kept.storage);
    let short = sum(&kept.storage[..c * AREA - 1]);
    let mut expected = vec![(0, 7, opened), (14, 7, opened), (11, 7, short)];
    if c < 16 {
        let long = [&kept.storage[..], &[170]].concat();
        expected.push((11, 7, sum(&long)));
    }
    let whole = kept.bring([c - 1, 100, 300, 256, 1]);
    expected.push((1, sum(&whole), sum(&kept.storage)));
    kept.bring([c - 1, 101, 300, 256, 1]);
    expected.push((0, 7, sum(&kept.storage)));
    expected
}

#[test]
fn sums_of_five_to_sixteen_senders() {
    let expected: Vec<(u64, u64, u64)> = (5..=16).flat_map(sums_with_senders).collect();
    assert_eq!(sums("9.2 Five to sixteen senders"), expected);
}

// Section 10: the cutter.

/// A K line's number, length and two sums, and the octets of its k line.
#[derive(Debug, PartialEq)]
struct CutLine {
    numbers: [u64; 4],
    header: Option<Vec<u8>>,
}

fn cut_lines(title: &str) -> Vec<CutLine> {
    let mut rows: Vec<CutLine> = Vec::new();
    for line in section(title) {
        let (kind, rest) = line.split_once(' ').unwrap();
        let numbers: Vec<u64> = rest.split(' ').map(|word| word.parse().unwrap()).collect();
        if kind == "K" {
            rows.push(CutLine {
                numbers: numbers.try_into().unwrap(),
                header: None,
            });
        } else {
            let octets = numbers.iter().map(|octet| *octet as u8).collect();
            rows.last_mut().unwrap().header = Some(octets);
        }
    }
    rows
}

/// "23 | cutter: [...]", and the buffer is as it was.
fn refused(buffer: usize) -> CutLine {
    CutLine {
        numbers: [23, 0, 7, sum(&vec![170; buffer])],
        header: None,
    }
}

/// Written: the header, message octets `from` to `to`, and the rest of the buffer
/// as it was.
fn written(header: &[u8], from: usize, to: usize, buffer: usize) -> CutLine {
    let pdu = [header, &message(100, from, to)].concat();
    let rest = vec![170; buffer - pdu.len()];
    CutLine {
        numbers: [0, pdu.len() as u64, sum(&pdu), sum(&rest)],
        header: Some(header.to_vec()),
    }
}

/// The header of a PDU whose nine values are the page's: ML at 4, CBN, TBN and
/// BSIZE at 56.
fn header(ml: u16, cbn: u8, tbn: u8, bsize: u16) -> Vec<u8> {
    let mut octets = vec![78, 85, 88, 77, 0, 0];
    octets.extend(ml.to_be_bytes());
    octets.extend([
        0, 1, 0, 7, 0, 1, 0, 1, 0, 0, 0, 5, 0, 0, 0, 100, 128, 0, 0, 0,
    ]);
    octets.extend([0; 12]);
    octets.extend([0, 1, 0, 0, 0, 0, 0, 0, 0, 0, 0, 0, 0, 0, 1, 0, cbn, tbn]);
    octets.extend(bsize.to_be_bytes());
    octets.extend([0; 4]);
    octets
}

/// (n, u, TBN, octets of the last piece), by "n / u rounded up" and "the last
/// carries the rest": 16384 - 11 x 1396 = 1028, 4500 - 3 x 1396 = 312.
const MESSAGES: [[usize; 4]; 13] = [
    [0, 256, 1, 0],
    [1, 256, 1, 1],
    [255, 256, 1, 255],
    [256, 256, 1, 256],
    [257, 256, 2, 1],
    [512, 256, 2, 256],
    [513, 256, 3, 1],
    [1_396, 1_396, 1, 1_396],
    [1_397, 1_396, 2, 1],
    [4_500, 1_332, 4, 504],
    [4_500, 1_396, 4, 312],
    [16_384, 1_396, 12, 1_028],
    [16_384, 256, 64, 256],
];

/// What cut(n, u, piece, buffer) writes.
fn piece_written([n, u, tbn, last]: [usize; 4], piece: usize, buffer: usize) -> CutLine {
    let from = (piece - 1) * u;
    let p = if piece < tbn { u } else { last };
    let (ml, bsize) = ((n + 64) as u16, (p + 64) as u16);
    let header = header(ml, piece as u8, tbn as u8, bsize);
    written(&header, from, from + p, buffer)
}

#[test]
fn each_pdu_of_the_cutter() {
    let mut expected = Vec::new();
    for cut in MESSAGES {
        expected.push(refused(1_473));
        expected.extend((1..=cut[2]).map(|piece| piece_written(cut, piece, 1_473)));
        expected.push(refused(1_473));
    }
    assert_eq!(expected.len(), 124);
    assert_eq!(cut_lines("10.1 Each PDU"), expected);
}

/// All 64 octets, place by place. 4564 is 17 x 256 + 212, 568 is 2 x 256 + 56.
const LAST_OF_FIGURE_54: [u8; 64] = [
    78, 85, 88, 77, // H_TYPE
    0, 0, 17, 212, // ML
    0, 1, 0, 7, // domain, data field, node
    0, 1, 0, 1, // DA
    0, 0, 0, 5, // V_SEQ
    0, 0, 0, 100, // SEQ
    128, 0, 0, 0, // M_CTL
    0, 0, 0, 0, 0, 0, 0, 0, 0, 0, 0, 0, // INQ_ID
    0, 1, 0, 0, // TCD, VER
    0, 0, 0, 0, 0, 0, 0, 0, // GTID
    0, 0, 1, 0, // MODE, PVER, PRI
    4, 4, 2, 56, // CBN, TBN, BSIZE
    0, 0, 0, 0, // FUI
];

/// 16448 is 64 x 256 + 64, 1092 is 4 x 256 + 68.
const LAST_OF_TWELVE: [u8; 64] = [
    78, 85, 88, 77, 0, 0, 64, 64, 0, 1, 0, 7, 0, 1, 0, 1, // to DA
    0, 0, 0, 5, 0, 0, 0, 100, 128, 0, 0, 0, 0, 0, 0, 0, // V_SEQ, SEQ, M_CTL
    0, 0, 0, 0, 0, 0, 0, 0, 0, 1, 0, 0, 0, 0, 0, 0, // INQ_ID's rest, TCD
    0, 0, 0, 0, 0, 0, 1, 0, 12, 12, 4, 68, 0, 0, 0, 0, // MODE, PVER, PRI, ...
];

/// cut_with(TCD, 4660): 18 x 256 + 52. One piece of 10 octets.
const OF_ONE_PIECE: [u8; 64] = [
    78, 85, 88, 77, 0, 0, 0, 74, 0, 1, 0, 7, 0, 1, 0, 1, // to DA
    0, 0, 0, 5, 0, 0, 0, 100, 128, 0, 0, 0, 0, 0, 0, 0, // V_SEQ, SEQ, M_CTL
    0, 0, 0, 0, 0, 0, 0, 0, 18, 52, 0, 0, 0, 0, 0, 0, // INQ_ID's rest, TCD
    0, 0, 0, 0, 0, 0, 1, 0, 1, 1, 0, 74, 0, 0, 0, 0, // MODE, PVER, PRI, ...
];

#[test]
fn whole_headers_by_hand() {
    let each = cut_lines("10.1 Each PDU");
    // Before (4500, 1332): 9 messages of 14 pieces and 18 refusals.
    let four = written(&LAST_OF_FIGURE_54, 3_996, 4_500, 1_473);
    assert_eq!(each[14 + 18 + 4], four);
    // Then twice 4 pieces and 2 refusals.
    let twelve = written(&LAST_OF_TWELVE, 15_356, 16_384, 1_473);
    assert_eq!(each[32 + 12 + 12], twelve);
    let values = cut_lines("10.3 Header values");
    // Before TCD: 3 + 7 + 4 + 4 + 6 + 4 rows.
    assert_eq!(values[28 + 2], written(&OF_ONE_PIECE, 0, 10, 128));
}

/// Rows of 10.2 that are written, from 1: the cut, the piece, the buffer. All
/// others meet 23.
const WITHIN_LIMITS: [(usize, [usize; 4], usize, usize); 15] = [
    (1, [16_384, 1_396, 12, 1_028], 12, 1_473),
    (7, [10, 256, 1, 10], 1, 1_473),
    (8, [10, 1_396, 1, 10], 1, 1_473),
    (16, [4_500, 1_332, 4, 504], 4, 1_473),
    (19, [16_384, 256, 64, 256], 64, 1_473),
    (22, [0, 256, 1, 0], 1, 64),
    (23, [0, 256, 1, 0], 1, 65),
    (27, [10, 256, 1, 10], 1, 74),
    (28, [10, 256, 1, 10], 1, 75),
    (30, [4_500, 1_332, 4, 504], 1, 1_396),
    (31, [4_500, 1_332, 4, 504], 1, 1_397),
    (33, [4_500, 1_332, 4, 504], 4, 568),
    (34, [4_500, 1_332, 4, 504], 4, 569),
    (36, [16_384, 1_396, 12, 1_028], 1, 1_460),
    (37, [16_384, 1_396, 12, 1_028], 1, 1_461),
];

/// The rows refused for their buffer alone, and its length.
const SHORT: [(usize, usize); 7] = [
    (21, 63),
    (24, 0),
    (25, 64),
    (26, 73),
    (29, 1_395),
    (32, 567),
    (35, 1_459),
];

#[test]
fn limits_of_the_cut() {
    let rows = cut_lines("10.2 Limits of the cut");
    assert_eq!(rows.len(), 37);
    for (row, line) in (1..).zip(rows) {
        let within = WITHIN_LIMITS.iter().find(|within| within.0 == row);
        let short = SHORT.iter().find(|short| short.0 == row);
        let expected = match (within, short) {
            (Some((_, cut, piece, buffer)), _) => piece_written(*cut, *piece, *buffer),
            (None, Some((_, buffer))) => refused(*buffer),
            (None, None) => refused(1_473),
        };
        assert_eq!(line, expected, "row {row}");
    }
}

/// Where a value stands, how many octets it takes, and the page's values in its
/// order, each with whether it is written or meets 23.
type Place = (usize, usize, &'static [(u32, bool)]);

const ANY: [(u32, bool); 4] = [
    (0, true),
    (1, true),
    (4_294_967_295, true),
    (305_419_896, true),
];

const HEADER_VALUES: [Place; 9] = [
    // "Data field numbers (1 to 255) and node numbers (1 to 4,095)"
    (9, 1, &[(0, false), (1, true), (255, true)]),
    (
        10,
        2,
        &[
            (0, false),
            (1, true),
            (255, true),
            (256, true),
            (4_095, true),
            (4_096, false),
            (65_535, false),
        ],
    ),
    // "The destination address is not examined"; "V_SEQ is any 32-bit number"
    (12, 4, &ANY),
    (16, 4, &ANY),
    // "SEQ is 1 to M"
    (
        20,
        4,
        &[
            (0, false),
            (1, true),
            (2_147_483_647, true),
            (2_147_483_648, false),
            (4_294_967_295, false),
            (305_419_896, true),
        ],
    ),
    (24, 4, &ANY),
    // "1 to 59,999 are the user's"; "Messages carry user codes only."
    (
        40,
        2,
        &[
            (0, false),
            (1, true),
            (4_660, true),
            (59_999, true),
            (60_000, false),
            (60_003, false),
            (65_534, false),
            (65_535, false),
        ],
    ),
    // "The two MODE values are those of 5.1."
    (
        52,
        2,
        &[
            (0, true),
            (1, true),
            (2, false),
            (256, false),
            (65_535, false),
        ],
    ),
    // "PRI is 0 to 7"
    (
        55,
        1,
        &[(0, true), (1, true), (7, true), (8, false), (255, false)],
    ),
];

#[test]
fn header_values_of_the_cutter() {
    let mut expected = Vec::new();
    for (at, size, values) in HEADER_VALUES {
        for (value, right) in values {
            let mut octets = header(74, 1, 1, 74);
            octets[at..at + size].copy_from_slice(&value.to_be_bytes()[4 - size..]);
            expected.push(match right {
                true => written(&octets, 0, 10, 128),
                false => refused(128),
            });
        }
    }
    assert_eq!(expected.len(), 46);
    assert_eq!(cut_lines("10.3 Header values"), expected);
}

// Section 11: the part.

/// Rows of 11.1, from 1, that hand over octets; the others hand over none.
#[test]
fn parts_of_packet_and_storage() {
    let ten = message(100, 0, 10);
    let joined = message(100, 0, 600);
    let fill = vec![170; AREA];
    let all = [&fill[..], &joined, &fill[600..]].concat();
    let mut expected = vec![&[][..]; 24];
    for (row, part) in [(3, &ten[..]), (4, &ten), (5, &ten[..1])] {
        expected[row - 1] = part;
    }
    for (row, part) in [(9, &joined), (10, &joined), (11, &joined), (15, &all)] {
        expected[row - 1] = part;
    }
    let line = |part: &&[u8]| format!("R {} {}", part.len(), sum(part));
    let parts: Vec<String> = expected.iter().map(line).collect();
    assert_eq!((parts[0].as_str(), parts[4].as_str()), ("R 0 7", "R 1 317"));
    let pieces = "P 0 0 1 0 0 0 0 0\nP 0 0 2 0 0 0 0 0\nP 1 1 0 600 0 0 0 0\n";
    let title = "11.1 Slices that do not fit";
    expect(title, &[pieces, &parts.join("\n")].concat());
}

#[test]
fn sums_of_the_message_before_the_parts() {
    let brought = pieces([1, 100, 600, 256], &[1, 2, 3]);
    expect_sums("11.1 Slices that do not fit", 2, &brought);
}

// Section 12: fields.

/// A whole field's line: contents octet i is (17 x i + tag) mod 256.
fn whole(tag: u64, length: u64) -> String {
    let contents: Vec<u8> = (0..length).map(|i| ((17 * i + tag) % 256) as u8).collect();
    format!("F 3 {tag} {length} {}", sum(&contents))
}

const CUT: &str = "F 1 0 0 7";
const BAD: &str = "F 2 0 0 7";

/// No octet; 1 octet to one less than all; all, and one or two behind them.
#[test]
fn fields_cut_at_each_place() {
    let mut expected: Vec<String> = Vec::new();
    for (tag, length) in [(1, 10), (1, 19), (2, 0), (2, 5), (3, 8), (4, 3)] {
        expected.push("F 0 0 0 7".into());
        expected.extend((1..3 + length).map(|_| CUT.to_string()));
        expected.extend((0..3).map(|_| whole(tag, length)));
    }
    assert_eq!(expected.len(), 81);
    // 4, 21, 38: 7 x 31 + 4 = 221, x 31 + 21 = 6872, x 31 + 38 = 213070.
    assert_eq!(expected.last().unwrap(), "F 3 4 3 213070");
    expect("12.1 Cut at each place", &expected.join("\n"));
}

/// "Bad is another tag, tag 1 not of 10, 13, 16 or 19 octets, tag 3 not of 8; a
/// PDU of any length goes to its call." Tag, length, and whether it is good.
const TAGS_AND_LENGTHS: [(u64, u64, bool); 42] = [
    (0, 0, false),
    (0, 10, false),
    (1, 0, false),
    (1, 7, false),
    (1, 9, false),
    (1, 10, true),
    (1, 11, false),
    (1, 12, false),
    (1, 13, true),
    (1, 14, false),
    (1, 15, false),
    (1, 16, true),
    (1, 17, false),
    (1, 18, false),
    (1, 19, true),
    (1, 20, false),
    (1, 22, false),
    (1, 266, false),
    (2, 0, true),
    (2, 1, true),
    (2, 63, true),
    (2, 64, true),
    (2, 1_460, true),
    (2, 1_461, true),
    (2, 2_560, true),
    (2, 65_000, true),
    (3, 0, false),
    (3, 7, false),
    (3, 8, true),
    (3, 9, false),
    (3, 264, false),
    (4, 0, true),
    (4, 1, true),
    (4, 127, true),
    (4, 128, true),
    (4, 1_472, true),
    (4, 1_473, true),
    (4, 65_000, true),
    (5, 0, false),
    (5, 8, false),
    (255, 0, false),
    (255, 10, false),
];

/// "where its 3 octets are there and bad, the field is bad, whether or not its
/// contents are cut": the 3 octets alone are a cut field only where they are good
/// and contents belong to them.
#[test]
fn tags_and_lengths() {
    let mut expected: Vec<String> = Vec::new();
    for (tag, length, good) in TAGS_AND_LENGTHS {
        let all = if good { whole(tag, length) } else { BAD.into() };
        let cut = good && length > 0;
        let alone = if cut { CUT.into() } else { all.clone() };
        expected.extend([all, alone]);
    }
    expect("12.2 Tags and lengths", &expected.join("\n"));
}

/// The number of "2159 lines in all", as it stands on the page.
fn lines_in_all(page: &str) -> usize {
    let (before, _) = page.split_once(" lines in all").expect("said on the page");
    let number = before.rsplit(' ').next().expect("a word");
    number.parse().expect("a number")
}

/// The page's titles and no others, in its order, and as many lines as it says.
#[test]
fn the_sections_are_the_pages() {
    let page = include_str!("../../docs/EDGES.md");
    let of_page: Vec<&str> = page
        .lines()
        .filter_map(|line| line.strip_prefix("### `")?.split('`').next())
        .collect();
    let printed: Vec<&str> = lines()
        .lines()
        .filter(|line| line.starts_with('#'))
        .collect();
    assert_eq!(printed, of_page);
    assert_eq!(lines().lines().count(), lines_in_all(page));
}
