//! Sections 1 to 4: setup, the message header, the cut rule, the number check.
//! A PDU stands alone here, or is a message of one piece.

use super::past::Past;
use super::pdu::Laid;

const M: u32 = 2_147_483_647;

pub fn sections(past: &mut Past) {
    setups(past);
    what_setup_returns(past);
    one_place(past);
    lengths(past);
    storage(past);
    two_numbers(past);
    a_test_node(past);
    the_empty_state(past);
    cut_rule(past);
    n1_16(past);
    n1_1(past);
    n1_1024(past);
}

/// mode, n1, t, count, field, node.
const SETUPS: [[u32; 6]; 28] = [
    [0, 16, 15_000, 2, 2, 9],
    [0, 0, 15_000, 2, 2, 9],
    [0, 1, 15_000, 2, 2, 9],
    [0, 1_024, 15_000, 2, 2, 9],
    [0, 1_025, 15_000, 2, 2, 9],
    [0, 16, 0, 2, 2, 9],
    [0, 16, 1, 2, 2, 9],
    [0, 16, 600_000, 2, 2, 9],
    [0, 16, 600_001, 2, 2, 9],
    [0, 16, 15_000, 0, 2, 8],
    [0, 16, 15_000, 1, 2, 8],
    [0, 16, 15_000, 16, 2, 8],
    [0, 16, 15_000, 17, 2, 8],
    [0, 16, 15_000, 2, 0, 9],
    [0, 16, 15_000, 2, 1, 9],
    [0, 16, 15_000, 2, 255, 9],
    [0, 16, 15_000, 2, 2, 0],
    [0, 16, 15_000, 2, 2, 1],
    [0, 16, 15_000, 2, 2, 4_095],
    [0, 16, 15_000, 2, 2, 4_096],
    [1, 16, 15_000, 2, 2, 9],
    [2, 16, 15_000, 2, 2, 9],
    [255, 16, 15_000, 2, 2, 9],
    [0, 16, 15_000, 2, 1, 7],
    [0, 16, 15_000, 1, 1, 7],
    [0, 16, 15_000, 2, 2, 7],
    [0, 16, 15_000, 16, 16, 22],
    [0, 16, 15_000, 15, 16, 22],
];

fn setups(past: &mut Past) {
    past.section("1.1 Setup");
    for values in SETUPS {
        past.setup(values);
    }
}

fn what_setup_returns(past: &mut Past) {
    past.section("1.2 What setup returns");
    past.setup([0, 16, 15_000, 2, 2, 9]);
    past.show();
    past.setup([1, 1_024, 600_000, 2, 255, 4_095]);
    past.show();
    past.setup([2, 16, 15_000, 2, 2, 9]);
    past.show();
}

/// at, size, value.
pub const ONE_PLACE: [Laid; 30] = [
    (20, 4, 0),
    (20, 4, 1),
    (20, 4, 2_147_483_647),
    (20, 4, 2_147_483_648),
    (40, 2, 0),
    (40, 2, 1),
    (40, 2, 59_999),
    (40, 2, 60_000),
    (40, 2, 65_535),
    (55, 1, 7),
    (55, 1, 8),
    (52, 2, 1),
    (52, 2, 2),
    (52, 2, 256),
    (3, 1, 78),
    (8, 1, 1),
    (28, 1, 128),
    (39, 1, 1),
    (43, 1, 1),
    (44, 1, 128),
    (51, 1, 1),
    (54, 1, 0),
    (54, 1, 2),
    (63, 1, 1),
    (12, 4, 4_294_967_295),
    (24, 4, 0),
    (9, 1, 3),
    (10, 2, 8),
    (10, 2, 4_103),
    (10, 2, 9),
];

fn one_place(past: &mut Past) {
    past.section("2.1 One place of the header");
    for laid in ONE_PLACE {
        past.fresh();
        past.laid(&[laid]);
    }
}

/// ml, bsize, cbn, tbn, lent.
const LENGTHS: [(u32, u16, u8, u8, usize); 7] = [
    (64, 64, 1, 1, 0),
    (63, 63, 1, 1, 63),
    (64, 64, 1, 1, 64),
    (1_460, 1_460, 1, 1, 1_460),
    (1_461, 1_461, 1, 1, 1_461),
    (74, 73, 1, 1, 74),
    (74, 75, 1, 1, 74),
];

fn lengths(past: &mut Past) {
    past.section("2.2 Lengths");
    for (ml, bsize, cbn, tbn, lent) in LENGTHS {
        past.fresh();
        past.raw(ml, bsize, cbn, tbn, lent);
    }
}

/// storage, octets.
const STORAGE: [(usize, usize); 6] = [
    (32_768, 74),
    (32_767, 74),
    (32_769, 74),
    (0, 74),
    (32_767, 73),
    (32_768, 73),
];

fn storage(past: &mut Past) {
    past.section("2.3 Storage");
    for (storage, octets) in STORAGE {
        past.fresh();
        past.lend(storage, octets);
    }
}

const TWO_NUMBERS: [[Laid; 2]; 5] = [
    [(58, 2, 75), (20, 4, 0)],
    [(20, 4, 0), (10, 2, 8)],
    [(10, 2, 8), (52, 2, 1)],
    [(10, 2, 8), (56, 1, 0)],
    [(52, 2, 1), (56, 1, 0)],
];

fn two_numbers(past: &mut Past) {
    past.section("2.4 Two numbers at once");
    for laid in TWO_NUMBERS {
        past.fresh();
        past.laid(&laid);
    }
}

fn a_test_node(past: &mut Past) {
    past.section("2.5 A test node");
    past.setup([1, 16, 15_000, 2, 2, 9]);
    past.laid(&[(52, 2, 2)]);
    past.laid(&[(52, 2, 1)]);
    past.number(5, 101);
}

fn the_empty_state(past: &mut Past) {
    past.section("2.6 The empty state");
    past.setup([0, 0, 15_000, 2, 2, 9]);
    past.number(5, 100);
    past.laid(&[(20, 4, 0)]);
    past.lend(0, 63);
    past.lend(1, 74);
}

/// ml, bsize, cbn, tbn.
const CUTS: [(u32, u16, u8, u8); 37] = [
    (0, 64, 1, 1),
    (63, 64, 1, 1),
    (64, 64, 1, 1),
    (4_294_967_295, 64, 1, 1),
    (16_448, 1_460, 1, 12),
    (16_449, 1_460, 1, 12),
    (16_448, 1_092, 12, 12),
    (16_449, 1_093, 12, 12),
    (74, 74, 0, 1),
    (364, 320, 0, 2),
    (74, 74, 0, 0),
    (74, 74, 2, 1),
    (364, 320, 3, 2),
    (73, 74, 1, 1),
    (75, 74, 1, 1),
    (364, 319, 1, 2),
    (364, 320, 1, 2),
    (1_464, 1_460, 1, 2),
    (1_464, 1_461, 1, 2),
    (576, 320, 2, 3),
    (577, 320, 2, 3),
    (832, 320, 2, 3),
    (833, 320, 2, 3),
    (16_448, 320, 1, 64),
    (16_448, 320, 1, 65),
    (16_448, 320, 64, 64),
    (364, 364, 2, 2),
    (364, 365, 2, 2),
    (676, 164, 3, 3),
    (677, 164, 3, 3),
    (674, 164, 3, 3),
    (2_956, 164, 3, 3),
    (2_958, 164, 3, 3),
    (320, 64, 2, 2),
    (321, 65, 2, 2),
    (576, 320, 2, 2),
    (577, 321, 2, 2),
];

fn cut_rule(past: &mut Past) {
    past.section("3.1 Cut rule");
    for (ml, bsize, cbn, tbn) in CUTS {
        past.fresh();
        past.raw(ml, bsize, cbn, tbn, bsize.into());
    }
}

/// version, seq, up to the first W.
pub const CHECKED: [(u32, u32); 15] = [
    (0, 1),
    (5, 100),
    (5, 101),
    (5, 101),
    (5, 86),
    (5, 85),
    (5, 88),
    (6, 88),
    (6, M),
    (6, M),
    (6, 1),
    (6, 3),
    (6, 2_147_483_635),
    (6, 2_147_483_634),
    (0, 1),
];

pub const UNDER_VERSION_0: [(u32, u32); 4] = [(0, 2), (0, 2), (0, 5), (0, 1)];

fn numbers(past: &mut Past, rows: &[(u32, u32)]) {
    for (version, seq) in rows {
        past.number(*version, *seq);
    }
}

fn n1_16(past: &mut Past) {
    past.section("4.1 N1 16");
    numbers(past, &CHECKED);
    past.show();
    numbers(past, &UNDER_VERSION_0);
    past.show();
    numbers(past, &[(u32::MAX, 7), (u32::MAX, 8)]);
}

fn n1_1(past: &mut Past) {
    past.section("4.2 N1 1");
    past.setup([0, 1, 15_000, 2, 2, 9]);
    numbers(past, &[(5, 100), (5, 100), (5, 99), (5, 100)]);
}

fn n1_1024(past: &mut Past) {
    past.section("4.3 N1 1024");
    past.setup([0, 1_024, 15_000, 2, 2, 9]);
    numbers(past, &[(5, 2_000), (5, 977), (5, 976)]);
    numbers(past, &[(5, 2_147_483_600), (5, 2_147_483_599)]);
}
