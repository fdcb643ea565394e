//! Sections 5.9 to 5.13: 02's "Numbers that came round", beside an open message.

use super::past::Past;
use crate::numbers::M;

pub fn sections(past: &mut Past) {
    numbers_that_came_round(past);
    half_of_the_ring(past);
    around_the_end(past);
    repeats_around_the_end(past);
    three_in_a_circle(past);
}

fn numbers_that_came_round(past: &mut Past) {
    past.section("5.9 Numbers that came round");
    m_and_then_1(past);
    dropped_by_one_piece(past);
    delivered_over_the_end(past);
    another_version(past);
    version_0(past);
}

/// 02: "open M, 1 comes: replaced. Open 1, M comes: 18."
fn m_and_then_1(past: &mut Past) {
    past.piece([1, 7, 5, M, 1, 600, 256, 1]);
    past.piece([2, 9, 5, 1, 1, 600, 256, 1]);
    past.piece([1, 7, 5, 1, 1, 600, 256, 2]);
    past.show();
    past.piece([1, 7, 5, M, 1, 600, 256, 2]);
    past.number(5, M);
    past.piece([2, 9, 5, M, 1, 600, 256, 2]);
    past.held_at(&[0, 1]);
    past.piece([1, 7, 5, 1, 1, 600, 256, 1]);
    past.piece([1, 7, 5, 1, 1, 600, 256, 3]);
    past.piece([1, 7, 5, M, 1, 600, 256, 3]);
    past.show();
}

fn dropped_by_one_piece(past: &mut Past) {
    past.piece([1, 7, 6, M - 1, 1, 600, 256, 3]);
    past.piece([1, 7, 6, M, 1, 600, 256, 1]);
    past.piece([1, 7, 6, M, 1, 600, 256, 2]);
    past.held(0);
    past.number(6, 1);
    past.held(0);
    past.piece([1, 7, 6, M, 1, 600, 256, 3]);
}

/// A number that is skipped, then messages that follow each other.
fn delivered_over_the_end(past: &mut Past) {
    past.number(7, M - 1);
    past.piece([1, 7, 7, M, 1, 300, 256, 1]);
    past.piece([1, 7, 7, 1, 1, 300, 256, 1]);
    past.piece([1, 7, 7, 1, 1, 300, 256, 2]);
    past.number(8, M - 2);
    for seq in [M - 1, M, 1, 2] {
        past.piece([1, 7, 8, seq, 1, 300, 256, 2]);
        past.piece([1, 7, 8, seq, 1, 300, 256, 1]);
    }
    past.show();
}

/// Both sides of the half, and the same number, under two versions by turns.
fn another_version(past: &mut Past) {
    let newcomers = [
        (9, 1),
        (10, M),
        (9, 1),
        (10, 1_073_741_824),
        (9, 1),
        (10, 1_073_741_825),
        (9, 1),
        (10, 1),
    ];
    for (version, seq) in newcomers {
        past.piece([1, 7, version, seq, 1, 300, 256, 1]);
    }
    past.number(9, M);
}

fn version_0(past: &mut Past) {
    past.piece([1, 7, 0, M, 1, 300, 256, 1]);
    past.piece([1, 7, 0, 1, 1, 300, 256, 1]);
    past.piece([1, 7, 0, M, 1, 300, 256, 2]);
    past.piece([1, 7, 0, 1, 1, 300, 256, 2]);
    past.piece([1, 7, 0, M, 1, 300, 256, 2]);
    past.number(0, 1);
    past.show();
}

/// "With x open and y coming": of several pieces, and of one.
fn meeting(past: &mut Past, x: u32, y: u32) {
    let newcomers: [fn(&mut Past, u32); 2] = [
        |past, y| past.piece([1, 7, 5, y, 1, 600, 256, 2]),
        |past, y| past.number(5, y),
    ];
    for comes in newcomers {
        past.fresh();
        past.piece([1, 7, 5, x, 1, 600, 256, 1]);
        comes(past, y);
        past.piece([1, 7, 5, x, 1, 600, 256, 3]);
        past.ask();
    }
}

/// Ways of 1,073,741,823 and 1,073,741,824, and of one less and one more.
const HALF: [(u32, u32); 18] = [
    (1, 1_073_741_823),
    (1, 1_073_741_824),
    (1, 1_073_741_825),
    (1, 1_073_741_826),
    (100, 1_073_741_923),
    (100, 1_073_741_924),
    (1_073_741_823, 2_147_483_646),
    (1_073_741_823, 2_147_483_647),
    (1_073_741_824, 2_147_483_647),
    (1_073_741_824, 1),
    (1_073_741_825, 1),
    (1_073_741_825, 2),
    (2_000_000_000, 926_258_176),
    (2_000_000_000, 926_258_177),
    (2_147_483_647, 1_073_741_822),
    (2_147_483_647, 1_073_741_823),
    (2_147_483_647, 1_073_741_824),
    (2_147_483_647, 1_073_741_825),
];

fn half_of_the_ring(past: &mut Past) {
    past.section("5.10 Half of the ring");
    for (a, b) in HALF {
        meeting(past, a, b);
        meeting(past, b, a);
    }
}

fn around_the_end(past: &mut Past) {
    past.section("5.11 Around the end of the ring");
    let numbers = [M - 1, M, 1, 2];
    for x in numbers {
        for y in numbers {
            meeting(past, x, y);
        }
    }
}

/// "17 still comes first": where the newcomer is older, and where it is newer.
fn repeats_around_the_end(past: &mut Past) {
    past.section("5.12 17 before 18");
    past.number(5, 2);
    past.piece([1, 7, 5, 4, 1, 300, 256, 1]);
    past.piece([1, 7, 5, M, 1, 300, 256, 1]);
    past.number(5, M - 13);
    past.number(5, M - 14);
    past.piece([1, 7, 5, 3, 1, 300, 256, 2]);
    past.piece([1, 7, 5, 4, 1, 300, 256, 2]);
    past.number(6, 2);
    past.piece([1, 7, 6, M - 100, 1, 300, 256, 1]);
    past.piece([1, 7, 6, M, 1, 300, 256, 1]);
    past.number(6, 1);
    past.number(6, 2);
    past.number(6, M - 13);
    past.piece([1, 7, 6, M - 14, 1, 300, 256, 1]);
    past.number(6, 3);
    past.number(7, 1);
    past.piece([1, 7, 7, 1_073_741_824, 1, 300, 256, 1]);
    past.number(7, 1);
    past.number(7, M);
    past.number(7, 2);
    past.piece([1, 7, 7, M - 15, 1, 300, 256, 2]);
    past.show();
}

/// Each of 1, 715827883 and 1431655765 is newer than the one before it.
fn three_in_a_circle(past: &mut Past) {
    past.section("5.13 Three numbers in a circle");
    for seq in [1, 715_827_883, 1_431_655_765, 1, 1_431_655_765, 715_827_883] {
        past.piece([1, 7, 5, seq, 1, 300, 256, 1]);
    }
    past.show();
    past.piece([1, 7, 5, 1, 1, 300, 256, 2]);
    past.number(5, 1_431_655_765);
    past.show();
}
