//! Sections 14 and 15.7 to 15.9 of the edges: what each row of `docs/EDGES.md` must
//! answer by 01 and 02, written by hand. Sums and tables are made anew here, apart from
//! the code under test.

use std::sync::OnceLock;

/// All lines, made once for all tests.
fn lines() -> &'static str {
    static LINES: OnceLock<String> = OnceLock::new();
    LINES.get_or_init(second::edges::lines)
}

/// The lines of one section, without its title.
fn section(title: &str) -> Vec<&'static str> {
    let mut found = lines()
        .lines()
        .skip_while(|line| line.strip_prefix("# ") != Some(title));
    assert!(found.next().is_some(), "no section {title:?}");
    found.take_while(|line| !line.starts_with('#')).collect()
}

/// A line without the two sums of a P line or the three of an M line.
fn without_sums(line: &str) -> String {
    let words: Vec<&str> = line.split(' ').collect();
    match words[0] {
        "P" => words[..9].join(" "),
        "M" => words[..6].join(" "),
        _ => line.to_string(),
    }
}

/// The section's lines, sums apart, are these.
fn expect(title: &str, expected: &str) {
    let found: Vec<String> = section(title).into_iter().map(without_sums).collect();
    let expected: Vec<&str> = expected.lines().collect();
    assert_eq!(found, expected, "{title}");
}

/// The M line of this number where nothing came to the packet's entry before: 1 is a
/// first one of 10 octets.
fn fresh(number: u8) -> String {
    match number {
        1 => "M 1 1 10 0 0\n".into(),
        _ => format!("M {number} 0 0 0 0\n"),
    }
}

/// The section has M lines with these numbers alone.
fn expect_fresh(title: &str, numbers: &[u8]) {
    let expected: String = numbers.iter().map(|number| fresh(*number)).collect();
    expect(title, &expected);
}

/// E and its e lines.
fn table(entries: &[(usize, u32, u32)]) -> String {
    let entry =
        |(place, version, number): &(usize, u32, u32)| format!("e {place} {version} {number}\n");
    let entries_in_use: String = entries.iter().map(entry).collect();
    format!("E {}\n{entries_in_use}", entries.len())
}

// ---- groups

#[test]
fn groups_of_a_setup() {
    let numbers = [
        0, 0, 0, 10, 10, 10, // 0, 1, 8, 9, 255, 9 of them
        10, 0, 0, // 0, 1, 255 alone
        10, 0, 0, 10, 0, 0, 10, 0, 0,  // in the first, a middle, the last place
        10, // all 0
        10, 0, 10, // 7 and 7, 7 and 8, 255 twice
        10, 10, 10, 10, 10, 10, // neighbours, first and last, middle, all
        0, 0, // in any order
        0, 0, 0, 0, // past the count
        10, 10, 0, // within it twice and 0, past it 0
        0, 0, 0, 10, // 7 of them; the last within twice
        10, 10, 10, 10, 10, 10, 10, 10, 10, // other reasons too
        0, 0, 0, // a test node, one sender, sixteen
    ];
    let expected: String = numbers
        .iter()
        .map(|number| format!("S {number}\n"))
        .collect();
    expect("14.1 Groups of a setup", &expected);
}

/// A sender's line with nothing heard, open or delivered.
fn unheard(place: u32, field: u32, node: u32) -> String {
    format!("w {place} {field} {node} 0 0 0 0 0 0 0 0 0 0 0 0 0 0 0\n")
}

#[test]
fn what_setup_returns_of_groups() {
    let two = [unheard(0, 1, 7), unheard(1, 2, 9)].concat();
    let base = |groups: &str| format!("S 0\nW 0 16 15000 0 2 {groups}\n{two}");
    let mut expected = [
        base("3 5 1 255 0 0 0 0 0"),
        base("8 8 7 6 5 4 3 2 1"),
        base("0 0 0 0 0 0 0 0 0"),
        base("1 5 0 0 0 0 0 0 0"),
        base("7 1 2 3 4 5 6 7 0"),
        "S 0\nW 1 1024 600000 0 1 8 80 70 60 50 40 30 20 10\n".into(),
        unheard(0, 1, 7),
    ]
    .concat();
    let damaged = table(&[(0, 5, 100), (500, 0, 4_294_967_295), (1_039, 6, 0)]);
    for number in [0, 10, 10, 0] {
        expected += &format!("{damaged}S {number}\nE 0\n");
    }
    expected += &["W 0 16 15000 0 2 0 0 0 0 0 0 0 0 0\n", &two].concat();
    expect("14.2 What setup returns of groups", &expected);
}

/// What the five calls answer on a damaged state.
const REFUSED: &str = "P 9 0 0 0 0 0 0 0\nA 9\nC 9 0 0\nQ 9 0 0 0 0\nM 9 0 0 0 0\n";
/// Piece 2 is held, piece 1 joins it, piece 3 is missing.
const PASSES: &str = "P 0 0 2 0 0 0 0 0\nA 0\nC 0 0 0\nQ 0 1 0 3 3\n";
/// The empty state: nobody is registered.
const NOBODY: &str = "P 14 0 0 0 0 0 0 0\nA 14\nC 0 0 0\nQ 0 0 0 0 0\nM 14 0 0 0 0\n";

#[test]
fn groups_of_a_damaged_state() {
    // Rows from 1 that pass, and the number of the multicast call to group 1.
    let passing = [
        (1, 1),
        (4, 1),   // eight
        (9, 1),   // 5 and 1
        (10, 25), // 5 alone
        (11, 25), // none
        (24, 1),  // garbage past three
        (25, 1),
        (26, 1),
        (27, 25), // past none
        (28, 25),
        (29, 1),
    ];
    let mut rows = vec![REFUSED.to_string(); 29];
    for (row, number) in passing {
        rows[row - 1] = [PASSES, &fresh(number)].concat();
    }
    expect("14.3 Groups of a damaged state", &rows.concat());
    let mut rows = [REFUSED; 9];
    (rows[0], rows[1]) = (NOBODY, NOBODY);
    expect("14.4 Groups without senders", &rows.concat());
}

/// The rows of 8.1, 8.2 and 8.3 that pass there pass here.
#[test]
fn multicast_at_damaged_states() {
    let mut numbers = [9; 23 + 19 + 3];
    for row in [1, 14, 23 + 6, 23 + 7, 23 + 13, 23 + 15, 43, 44, 45] {
        numbers[row - 1] = 1;
    }
    expect_fresh("14.5 Multicast at damaged states", &numbers);
}

// ---- tables

#[test]
fn sizes_of_the_tables() {
    let rows = [(1, 23), (1, 8), (1, 9), (25, 6), (14, 5)];
    let mut numbers = Vec::new();
    for (right, count) in rows {
        numbers.push(right);
        numbers.extend(vec![26; count - 1]);
    }
    expect_fresh("14.6 Sizes of the tables", &numbers);
}

/// version, number, and whether 26 refuses it.
const PAIRS: [(u32, u32, bool); 16] = [
    (0, 0, false),
    (0, 1, false),
    (0, 2_147_483_647, false),
    (0, 2_147_483_648, true),
    (0, 4_294_967_295, true),
    (1, 0, true),
    (1, 1, false),
    (1, 2_147_483_647, false),
    (1, 2_147_483_648, true),
    (5, 0, true),
    (5, 2_147_483_647, false),
    (5, 2_147_483_648, true),
    (5, 4_294_967_295, true),
    (4_294_967_295, 0, true),
    (4_294_967_295, 1, false),
    (4_294_967_295, 4_294_967_295, true),
];

/// The M line and the tables of one row. Behind (5, M) number 100 skips 99.
fn row_of_entries(place: usize, (version, number, wrong): (u32, u32, bool)) -> String {
    let entry = (place, version, number);
    if wrong {
        return fresh(26) + &table(&[entry]);
    }
    let own = (8, 5, 100);
    if place == 8 {
        let verdict = match version {
            0 => "M 1 1 10 0 0\n",
            5 => "M 1 4 10 99 0\n",
            _ => "M 1 3 10 0 0\n",
        };
        return verdict.to_string() + &table(&[own]);
    }
    let mut in_use = vec![entry, own];
    in_use.retain(|(_, version, number)| (*version, *number) != (0, 0));
    in_use.sort_unstable();
    fresh(1) + &table(&in_use)
}

#[test]
fn entries_of_the_tables() {
    let mut expected = String::new();
    for place in [0, 20, 8, 47] {
        expected.extend(PAIRS.map(|pair| row_of_entries(place, pair)));
    }
    expected.extend([1, 1, 1, 26, 26, 1].map(fresh));
    expected += &[fresh(1), fresh(26), "M 1 2 10 0 0\n".into(), fresh(26)].concat();
    expected += &table(&[(0, 5, 2_147_483_648), (8, 5, 101)]);
    expected += &["S 0\n", &fresh(1), &table(&[(8, 5, 102)])].concat();
    expect("14.7 Entries of the tables", &expected);
}

/// The numbers of 14.8's a to k.
const WRONG: [u8; 11] = [26, 26, 26, 26, 12, 13, 14, 25, 15, 16, 17];

#[test]
fn two_numbers_at_once() {
    let mut numbers = WRONG.to_vec();
    numbers.extend([26; 4 * 7]);
    for (number, others) in [(12, 6), (13, 5), (14, 4), (25, 3), (15, 2), (16, 1)] {
        numbers.extend(vec![number; others]);
    }
    numbers.extend([26; 14 + 14 + 12]);
    expect_fresh("14.8 Two numbers at once", &numbers);
    expect_fresh("14.9 9 and other numbers", &[9; 24]);
}

// ---- the packet and the group

#[test]
fn lengths_of_a_multicast_pdu() {
    let lengths = [
        (12, 0),
        (12, 0),
        (1, 0),
        (1, 1),
        (1, 1_395),
        (1, 1_396),
        (1, 1_397),
        (1, 1_407),
        (1, 1_408),
        (12, 0),
        (12, 0),
        (12, 0),
    ];
    let line = |(number, n): (u8, usize)| match number {
        1 => format!("M 1 1 {n} 0 0\n"),
        _ => fresh(number),
    };
    let unlike_bsize = [(12, 0); 11];
    let expected: String = lengths.into_iter().chain(unlike_bsize).map(line).collect();
    expect("14.10 Lengths of a multicast PDU", &expected);
}

#[test]
fn places_of_a_multicast_pdu() {
    let numbers = [
        13, 1, 1, 13, // SEQ 0, 1, M, M + 1
        13, 1, 1, 13, 13, // TCD 0, 1, 59999, 60000, 65535
        1, 13, // PRI 7, 8
        15, 13, 13, // MODE 1, 2, 256 at an online node
        13, 13, 13, 13, 13, // H_TYPE, domain, INQ_ID twice, VER
        13, 13, 13, 13, 13, // GTID twice, PVER 0 and 2, FUI
        1, 1, // DA, M_CTL
        14, 14, 14, 14, // data field, node, 4103, the pair
        1, 1, 1, 1, 1, 1, 1, 1, 1, 1, // DA and M_CTL
    ];
    expect_fresh("14.11 One place of a multicast PDU", &numbers);
}

#[test]
fn the_group_given() {
    let numbers = [
        25, 1, 25, 25, 1, 25, 25, 1, // of 5, 1, 255: 0, 1, 2, 4, 5, 6, 254, 255
        25, 25, 25, 25, 1, // 7, 0, 9, 2 past the count; 255
        25, 25, 1, 1, // 255 past the count, 0; 5, 1
        25, 25, 25, 25, // none
        25, 1, 1, 25, // of 8 to 1: 0, 1, 8, 9
        25, 25, 25, 14, // no groups; sender 1:8
        14, 14, // the empty state
    ];
    expect_fresh("14.12 The group given", &numbers);
    let modes = [1, 15, 13, 13, 1, 1, 13, 13];
    expect_fresh("14.13 Test messages to a group", &modes);
}

#[test]
fn one_piece_to_a_group() {
    let mut lines = vec![fresh(16); 29];
    lines[0] = fresh(1);
    lines[18] = "M 1 1 0 0 0\n".into();
    lines[23] = "M 1 1 1408 0 0\n".into();
    expect("14.14 One piece to a group", &lines.concat());
}

// ---- the check

/// number, verdict, length, skipped and age, and the entry behind it, up to 4.1's
/// first W.
const CHECKED: [(&str, u32, u32); 15] = [
    ("1 5 10 0 0", 0, 0),
    ("1 1 10 0 0", 5, 100),
    ("1 2 10 0 0", 5, 101),
    ("17 0 0 0 0", 5, 101),
    ("17 0 0 0 15", 5, 101),
    ("1 4 10 2147483630 0", 5, 85),
    ("1 4 10 2 0", 5, 88),
    ("1 3 10 0 0", 6, 88),
    ("1 4 10 2147483558 0", 6, 2_147_483_647),
    ("17 0 0 0 0", 6, 2_147_483_647),
    ("1 2 10 0 0", 6, 1),
    ("1 4 10 1 0", 6, 3),
    ("17 0 0 0 15", 6, 3),
    ("1 4 10 2147483630 0", 6, 2_147_483_634),
    ("1 5 10 0 0", 6, 2_147_483_634),
];

#[test]
fn the_number_check_of_a_group() {
    let mut expected = String::new();
    for (answer, version, number) in CHECKED {
        let in_use: &[(usize, u32, u32)] = &[(8, version, number)];
        let in_use = if version == 0 { &[] } else { in_use };
        expected += &format!("M {answer}\n{}", table(in_use));
    }
    // (0, 2) is a restart, then RV is 0; (0, 1) leaves it.
    expected += "M 1 3 10 0 0\nM 1 1 10 0 0\nM 1 1 10 0 0\nM 1 5 10 0 0\n";
    expected += &table(&[(8, 0, 5)]);
    expected += "M 1 1 10 0 0\nM 1 2 10 0 0\n";
    expected += "M 1 3 10 0 0\nM 1 3 10 0 0\nM 1 3 10 0 0\n";
    expected += "M 1 1 10 0 0\nM 1 5 10 0 0\nM 17 0 0 0 0\n";
    expected += &table(&[(8, 5, 7)]);
    expect("14.15 Number check of a group, N1 16", &expected);
}

/// 99 - 100 - 1 is -2; 976 - 2000 - 1 is -1025; 2147483597 - 2147483599 - 1 is -3.
#[test]
fn the_number_check_of_a_group_with_other_n1() {
    let expected = "\
S 0
M 1 1 10 0 0
M 17 0 0 0 0
M 1 4 10 2147483645 0
M 1 2 10 0 0
S 0
M 1 1 10 0 0
M 17 0 0 0 1023
M 1 4 10 2147482622 0
M 17 0 0 0 1023
M 1 4 10 2147482622 0
M 17 0 0 0 1
M 1 4 10 2147483644 0
M 17 0 0 0 1
E 1
e 8 5 2147483597";
    expect("14.16 Number check of a group, N1 1 and 1024", expected);
}

#[test]
fn what_a_refusal_leaves_of_the_tables() {
    let two = [(8, 5, 99), (47, 6, 7)];
    let with = |number: u32| table(&[two[0], (20, 5, number), two[1]]);
    let mut expected = String::new();
    for (row, number) in WRONG.iter().enumerate() {
        expected += &fresh(*number);
        expected += &match row {
            2 => with(2_147_483_648),
            3 => with(0),
            10 => table(&[(8, 5, 100), two[1]]),
            _ => table(&two),
        };
    }
    expected += &[fresh(9), table(&two)].concat();
    expect("14.17 What a refusal leaves of the tables", &expected);
}

// ---- entries

/// The entry of each row of 14.18: 64 for each sender, 8 for each group.
const CORNERS: [usize; 10] = [0, 7, 56, 63, 960, 967, 1_016, 1_023, 476, 73];

#[test]
fn sixteen_senders_and_eight_groups() {
    let in_use = |first: u32| {
        let mut entries: Vec<_> = (first..)
            .zip(CORNERS)
            .map(|(number, place)| (place, 5, number))
            .collect();
        entries.sort_unstable();
        table(&entries)
    };
    let expected = [
        "S 0\n".into(),
        fresh(1).repeat(10),
        in_use(100),
        fresh(17).repeat(10),
        in_use(100),
        "M 1 2 10 0 0\n".repeat(10),
        in_use(101),
    ];
    expect("14.18 Sixteen senders and eight groups", &expected.concat());
}

#[test]
fn every_entry_of_two_senders_and_three_groups() {
    let in_use = |first: u32| {
        let entries: Vec<_> = (0..48).map(|k| (k as usize, 5, first + k)).collect();
        table(&entries)
    };
    let lines = |verdict: u8, k: u32| format!("M 1 {verdict} {k} 0 0\n");
    let expected = [
        (0..48).map(|k| lines(1, k)).collect(),
        in_use(100),
        (0..48).rev().map(|k| lines(2, k)).collect(),
        in_use(101),
    ];
    let title = "14.19 Every entry of two senders and three groups";
    expect(title, &expected.concat());
}

/// 100 to 130 skips 29; 101 - 130 - 1 is -30; 102 to 117 skips 14.
#[test]
fn each_entry_apart() {
    let gone_on = "\
M 1 4 10 29 0
M 1 2 10 0 0
M 1 4 10 2147483617 0
M 1 2 10 0 0
M 1 3 10 0 0
M 1 2 10 0 0
M 17 0 0 0 0
M 1 2 10 0 0
M 1 5 10 0 0
M 1 1 10 0 0
M 1 5 10 0 0
M 1 2 10 0 0
M 1 4 10 14 0
M 1 1 10 0 0
";
    let in_use = [
        (0, 6, 1),
        (8, 5, 117),
        (9, 5, 101),
        (15, 5, 101),
        (16, 5, 101),
        (24, 6, 2),
        (32, 5, 101),
        (46, 5, 1),
    ];
    // Sender 1 of four groups begins at 32; PRI 2 of each group.
    let orders = [[102, 101, 103, 100], [100, 103, 101, 102]].map(|numbers| {
        let places = [34, 42, 50, 58].into_iter().zip(numbers);
        let entries: Vec<_> = places.map(|(place, number)| (place, 5, number)).collect();
        ["S 0\n", &fresh(1).repeat(4), &table(&entries)].concat()
    });
    let parts = [
        fresh(1).repeat(6),
        fresh(17).repeat(6),
        gone_on.into(),
        table(&in_use),
        orders.concat(),
    ];
    expect("14.20 Each entry apart", &parts.concat());
}

/// The first sender's record (last version and number, open and record, alive and
/// the rest) behind the W line of this clock; the second is unheard.
fn state(clock: u32, first: &str) -> String {
    let second = unheard(1, 2, 9);
    format!("W 0 16 15000 {clock} 2 3 5 1 255 0 0 0 0 0\nw 0 1 7 {first}\n{second}")
}

/// The M's between the pieces leave the state; the P's leave the tables.
fn same_version_and_number() -> String {
    let opened = state(0, "0 0 1 5 100 1 600 3 256 1 1 0 0 0 0");
    [
        "P 0 0 1 0 0 0 0 0\n",
        &opened,
        "M 1 1 10 0 0\n",
        &opened,
        &table(&[(8, 5, 100)]),
        "P 0 0 2 0 0 0 0 0\nM 17 0 0 0 0\nH 2\nQ 0 1 0 2 2\n",
        "P 1 1 0 600 0 0 0 0\nP 17 0 0 0 0 0 0 0\nM 1 2 10 0 0\n",
        "P 1 2 0 10 0 0 0 0\nM 1 2 10 0 0\n",
        &state(0, "5 101 0 0 0 0 0 0 0 0 0 0 0 0 0"),
        &table(&[(8, 5, 102)]),
    ]
    .concat()
}

/// 102 to 111 skips 8, and so does 101 to 110. The second sender's entry is 32.
fn newer_and_older() -> String {
    let tables = table(&[(8, 6, 1), (32, 5, 100)]);
    [
        "P 0 0 1 0 0 0 0 0\nM 1 4 10 8 0\nM 1 3 10 0 0\nM 1 5 10 0 0\nM 1 1 1408 0 0\n",
        "M 16 0 0 0 0\nM 25 0 0 0 0\nH 1\n",
        &state(0, "5 101 1 5 110 1 600 3 256 2 1 0 0 0 0"),
        &tables,
        "P 0 0 2 0 0 0 0 0\nM 17 0 0 0 0\nP 1 4 0 600 8 0 0 0\n",
        &state(0, "5 110 0 0 0 0 0 0 0 0 0 0 0 0 0"),
        &tables,
    ]
    .concat()
}

/// One second of life and fifteen of the open message, which are none of the
/// tables'.
fn alive_and_clock() -> String {
    [
        "A 0\nP 0 0 1 0 0 0 0 0\nM 1 2 10 0 0\nC 0 0 1\nM 1 2 10 0 0\nC 0 1 0\nM 1 2 10 0 0\nA 0\n",
        "M 1 2 10 0 0\n",
        &state(15_000, "5 110 0 0 0 0 0 0 0 0 0 0 0 0 0"),
        &table(&[(8, 6, 5), (32, 5, 100)]),
    ]
    .concat()
}

/// Behind 110 number 1596 skips 1485; behind 1597 number 1608 skips 10.
fn long_messages() -> String {
    [
        "P 1 4 0 1396 1485 0 0 0\nM 1 1 1396 0 0\n",
        "P 12 0 0 0 0 0 0 0\nM 1 2 1397 0 0\n",
        "P 12 0 0 0 0 0 0 0\nM 1 4 1408 10 0\n",
        "P 0 0 1 0 0 0 0 0\nM 16 0 0 0 0\n",
        &state(15_000, "5 1596 1 7 1 1 600 3 256 1 1 15000 0 0 0"),
        &table(&[(0, 5, 1_608), (8, 6, 5), (32, 5, 100)]),
    ]
    .concat()
}

#[test]
fn beside_peer_to_peer_messages() {
    let parts = [
        same_version_and_number(),
        newer_and_older(),
        alive_and_clock(),
        long_messages(),
    ];
    expect("14.21 Beside peer-to-peer messages", &parts.concat());
}

// ---- ages

/// A repeat of this age.
fn repeat(age: u32) -> String {
    format!("M 17 0 0 0 {age}\n")
}

/// 10 octets that are delivered with this verdict and skipped count.
fn delivered(verdict: u8, skipped: u32) -> String {
    format!("M 1 {verdict} 10 {skipped} 0\n")
}

/// As in 15.1: 84 - 100 - 1 and -13 - 3 - 1 are -17.
#[test]
fn ages_of_repeats_to_a_group() {
    let parts = [
        delivered(1, 0),
        [0, 1, 8, 15].map(repeat).concat(),
        delivered(4, 2_147_483_630),
        repeat(0),
        delivered(3, 0),
        [2, 3, 15].map(repeat).concat(),
        delivered(4, 2_147_483_630),
    ];
    expect("15.7 Ages of a repeat to a group", &parts.concat());
}

/// The numbers of 14.8's a to j, 9, and then 17 with its age: 103 to 100.
#[test]
fn other_numbers_beside_a_repeat_to_a_group() {
    let parts = [WRONG[..10].iter().copied().map(fresh).collect(), fresh(9)];
    let title = "15.8 Other numbers beside a repeat to a group";
    expect(title, &[&parts.concat(), &repeat(3)[..]].concat());
}

/// Last are 100 to 103 in four entries and 104 of the messages to this node alone.
#[test]
fn ages_of_each_entry() {
    let parts = [
        delivered(1, 0).repeat(4),
        "P 1 1 0 10 0 0 0 0\n".into(),
        [5, 6, 7, 8].map(repeat).concat(),
        "P 17 0 0 0 0 9 0 0\n".into(),
        delivered(1, 0),
        delivered(5, 0),
        repeat(5),
        delivered(3, 0),
        delivered(1, 0),
    ];
    expect("15.9 Each entry's own", &parts.concat());
}

// ---- the sums

fn sum(octets: &[u8]) -> u64 {
    octets
        .iter()
        .fold(7, |s, octet| (31 * s + u64::from(*octet)) % 4_294_967_296)
}

fn number(octets: &[u8]) -> u32 {
    octets
        .iter()
        .fold(0, |n, octet| n * 256 + u32::from(*octet))
}

/// Both tables as the calls leave them, kept by hand.
struct Kept {
    tables: [Vec<u32>; 2],
    /// Data field and node of the senders, as octets, and the groups.
    senders: Vec<[u8; 3]>,
    groups: Vec<u8>,
}

impl Kept {
    /// A setup clears the tables and names senders and groups; `t` names groups.
    fn set_up(&mut self, contents: &[u8]) {
        self.tables = [vec![0; 1_040], vec![0; 1_040]];
        let senders = contents[8..56].chunks(3).take(contents[7].into());
        self.senders = senders
            .map(|octets| [octets[0], octets[1], octets[2]])
            .collect();
        self.register(&contents[56..]);
    }

    fn register(&mut self, groups: &[u8]) {
        self.groups = groups[1..].iter().copied().take(groups[0].into()).collect();
    }

    fn damage(&mut self, contents: &[u8]) {
        let place = number(&contents[..2]) as usize;
        self.tables[0][place] = number(&contents[2..6]);
        self.tables[1][place] = number(&contents[6..]);
    }

    /// What a delivery, not unchecked, writes; V_SEQ is at 16 of the PDU, SEQ at 20.
    fn deliver(&mut self, group: u8, pdu: &[u8]) {
        let sender = self
            .senders
            .iter()
            .position(|sender| sender[..] == pdu[9..12]);
        let group = self
            .groups
            .iter()
            .position(|registered| *registered == group);
        let (Some(sender), Some(group)) = (sender, group) else {
            panic!("delivered of nobody");
        };
        let place = (sender * self.groups.len() + group) * 8 + usize::from(pdu[55]);
        self.tables[0][place] = number(&pdu[16..20]);
        self.tables[1][place] = number(&pdu[20..24]);
    }

    /// The sum of the first entries of a table.
    fn sum_of(&self, table: usize, lent: &[u8]) -> u64 {
        let lent = &self.tables[table][..number(lent) as usize];
        let octets: Vec<u8> = lent.iter().flat_map(|entry| entry.to_be_bytes()).collect();
        sum(&octets)
    }

    /// The three sums of an M line with this number and verdict.
    fn sums(&mut self, contents: &[u8], answer: &str, verdict: &str) -> String {
        let (group, pdu) = (contents[4], &contents[5..]);
        if answer == "1" && verdict != "5" {
            self.deliver(group, pdu);
        }
        let part = if answer == "1" { sum(&pdu[64..]) } else { 7 };
        let (versions, numbers) = (&contents[..2], &contents[2..4]);
        format!(
            "{part} {} {}",
            self.sum_of(0, versions),
            self.sum_of(1, numbers)
        )
    }
}

/// Tag and contents of each field.
fn fields() -> Vec<(char, Vec<u8>)> {
    let octets = second::edges::calls_as_fields();
    let mut fields = Vec::new();
    let mut rest = &octets[..];
    while !rest.is_empty() {
        let end = 3 + number(&rest[1..3]) as usize;
        fields.push((char::from(rest[0]), rest[3..end].to_vec()));
        rest = &rest[end..];
    }
    fields
}

/// The sums of every M line are those of the delivered part and of the tables as its
/// answers leave them. The two calls of 14.17 that print nothing are delivered.
#[test]
fn sums_of_every_multicast_call() {
    let mut kept = Kept {
        tables: [Vec::new(), Vec::new()],
        senders: Vec::new(),
        groups: Vec::new(),
    };
    let mut lines = lines().lines().filter(|line| line.starts_with("M "));
    let mut seen = 0;
    for (tag, contents) in fields() {
        match tag {
            'S' | 's' => kept.set_up(&contents),
            't' => kept.register(&contents[16..]),
            'e' => kept.damage(&contents),
            'm' => kept.deliver(contents[4], &contents[5..]),
            'M' => {
                let words: Vec<&str> = lines.next().expect("a line").split(' ').collect();
                let expected = kept.sums(&contents, words[1], words[2]);
                assert_eq!(words[6..].join(" "), expected, "M line {seen}");
                seen += 1;
            }
            _ => (),
        }
    }
    assert_eq!((lines.next(), seen > 600), (None, true));
}
