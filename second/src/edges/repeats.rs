//! Section 15: 02's "How old was the repeat?", of messages and of multicast.

use super::damage::{change_sender, change_state};
use super::lent_tables::{cast_wrong, Wrong, WRONG};
use super::past::Past;
use crate::numbers::M;

pub fn sections(past: &mut Past) {
    n1_16(past);
    other_n1(past);
    from_the_last_delivered(past);
    other_numbers(past);
    unchecked_and_version_0(past);
    each_sender(past);
    to_a_group(past);
    other_numbers_to_a_group(past);
    each_entry(past);
}

/// version, seq: 0, 1, between, N1 - 1 and N1 back, behind R 100 and behind R 3.
const AGES: [(u32, u32); 12] = [
    (5, 100),
    (5, 100),
    (5, 99),
    (5, 92),
    (5, 85),
    (5, 84),
    (5, 84),
    (6, 3),
    (6, 1),
    (6, M),
    (6, M - 12),
    (6, M - 13),
];

fn numbers(past: &mut Past, rows: &[(u32, u32)]) {
    for (version, seq) in rows {
        past.number(*version, *seq);
    }
}

fn n1_16(past: &mut Past) {
    past.section("15.1 Ages of a repeat, N1 16");
    numbers(past, &AGES);
    numbers(past, &[(7, 1), (7, M)]);
}

/// Each N1 with both sides of its edge; ages of one octet and of two.
fn other_n1(past: &mut Past) {
    past.section("15.2 Ages of a repeat, N1 1, 2 and 1024");
    past.setup([0, 1, 15_000, 2, 2, 9]);
    numbers(past, &[(5, 100), (5, 100), (5, 99)]);
    past.setup([0, 2, 15_000, 2, 2, 9]);
    numbers(past, &[(5, 1), (5, M), (5, M - 1)]);
    past.setup([0, 1_024, 15_000, 2, 2, 9]);
    numbers(past, &[(5, 1_000), (5, 745), (5, 744)]);
    numbers(past, &[(5, M - 23), (5, M - 24)]);
}

/// 01: "the last delivered version RV and number R", whatever is open: a newer
/// number, an older one, another version.
fn from_the_last_delivered(past: &mut Past) {
    past.section("15.3 From the number last delivered");
    past.number(5, 100);
    past.piece([1, 7, 5, 110, 1, 600, 256, 1]);
    past.number(5, 100);
    past.piece([1, 7, 5, 97, 1, 300, 256, 2]);
    past.number(5, 85);
    past.number(5, 84);
    past.piece([1, 7, 5, 110, 2, 600, 256, 2]);
    past.piece([1, 7, 5, 110, 1, 600, 256, 1]);
    past.piece([1, 7, 5, 110, 1, 600, 256, 2]);
    past.piece([1, 7, 5, 110, 1, 600, 256, 3]);
    past.number(5, 100);
    past.piece([1, 7, 5, 110, 1, 600, 256, 3]);
    past.piece([1, 7, 5, 2_147_483_600, 1, 300, 256, 1]);
    past.number(5, 108);
    past.piece([1, 7, 6, 1, 1, 300, 256, 1]);
    past.number(5, 105);
    past.clock(15_000);
    past.number(5, 95);
}

/// R is 103, so that number(5, 100) is 3 back, whatever is laid over it.
fn other_numbers(past: &mut Past) {
    past.section("15.4 Other numbers beside a repeat");
    past.number(5, 103);
    past.number(5, 100);
    past.lend(32_767, 74);
    for laid in [(58, 2, 75), (55, 1, 8), (10, 2, 8), (52, 2, 1), (56, 1, 2)] {
        past.laid(&[laid]);
    }
    change_state(past, |state| state.n1 = 0);
    past.number(5, 100);
    change_state(past, |state| state.n1 = 16);
    past.number(5, 100);
    past.piece([1, 7, 5, 110, 1, 600, 256, 1]);
    // No past leaves an open message that is a repeat.
    change_sender(past, 0, |sender| sender.last_number = 113);
    past.number(5, 108);
    past.piece([1, 7, 5, 110, 2, 600, 256, 2]);
    past.piece([1, 7, 5, 110, 1, 600, 256, 1]);
}

/// Unchecked: "Delivery leaves RV and R." Under version 0 nothing is a repeat.
fn unchecked_and_version_0(past: &mut Past) {
    past.section("15.5 Unchecked, and version 0");
    numbers(past, &[(5, 100), (0, 1), (5, 90)]);
    past.piece([1, 7, 0, 1, 1, 300, 256, 1]);
    past.number(5, 90);
    past.piece([1, 7, 0, 1, 1, 300, 256, 2]);
    past.number(5, 85);
    numbers(past, &[(0, 100), (0, 100), (5, 95), (5, 95)]);
}

fn each_sender(past: &mut Past) {
    past.section("15.6 Each sender's own");
    let second = |past: &mut Past, seq| past.piece([2, 9, 5, seq, 1, 10, 256, 1]);
    past.number(5, 100);
    second(past, 105);
    past.number(5, 95);
    second(past, 95);
    past.number(5, 103);
    past.number(5, 95);
    second(past, 95);
    second(past, 90);
}

/// 02: "multicast too".
fn to_a_group(past: &mut Past) {
    past.section("15.7 Ages of a repeat to a group");
    past.ready();
    for (version, seq) in AGES {
        past.cast_number(version, seq);
    }
}

/// The packet's own entry: cast_number(5, 100) is 3 back.
const THREE_BACK: Wrong = Wrong::Entry(8, 5, 103);

/// 14.8's a to j, whose numbers come before 17.
fn other_numbers_to_a_group(past: &mut Past) {
    past.section("15.8 Other numbers beside a repeat to a group");
    for before in &WRONG[..10] {
        past.ready();
        cast_wrong(past, &[THREE_BACK, *before]);
    }
    past.ready();
    change_state(past, |state| state.n1 = 0);
    cast_wrong(past, &[THREE_BACK]);
    past.ready();
    cast_wrong(past, &[THREE_BACK]);
}

/// Four entries and the sender's own record, each with another last number.
fn each_entry(past: &mut Past) {
    past.section("15.9 Each entry's own");
    past.ready();
    past.cast(1, [1, 7, 0, 5, 100, 10]);
    past.cast(1, [2, 9, 0, 5, 101, 10]);
    past.cast(5, [1, 7, 0, 5, 102, 10]);
    past.cast(1, [1, 7, 1, 5, 103, 10]);
    past.number(5, 104);
    past.cast(1, [1, 7, 0, 5, 95, 10]);
    past.cast(1, [2, 9, 0, 5, 95, 10]);
    past.cast(5, [1, 7, 0, 5, 95, 10]);
    past.cast(1, [1, 7, 1, 5, 95, 10]);
    past.number(5, 95);
    past.cast(255, [1, 7, 0, 5, 95, 10]);
    for (version, seq) in [(0, 1), (5, 95), (0, 95), (0, 95)] {
        past.cast(1, [1, 7, 0, version, seq, 10]);
    }
}
