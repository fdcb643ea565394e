//! Sections 14.10 to 14.17: the packet of a multicast call, its group, and the
//! number check.

use super::cast_calls::groups_of;
use super::damage::change_state;
use super::lent_tables::{cast_wrong, WRONG};
use super::past::Past;
use super::pdu::Laid;
use super::single::{CHECKED, ONE_PLACE, UNDER_VERSION_0};
use crate::state::Groups;

pub fn sections(past: &mut Past) {
    lengths(past);
    one_place(past);
    the_group_given(past);
    test_messages(past);
    one_piece(past);
    n1_16(past);
    other_n1(past);
    what_a_refusal_leaves(past);
}

/// ml, bsize, lent.
const LENGTHS: [(u32, u16, usize); 23] = [
    (64, 64, 0),
    (63, 63, 63),
    (64, 64, 64),
    (65, 65, 65),
    (1_459, 1_459, 1_459),
    (1_460, 1_460, 1_460),
    (1_461, 1_461, 1_461),
    (1_471, 1_471, 1_471),
    (1_472, 1_472, 1_472),
    (1_473, 1_473, 1_473),
    (1_536, 1_536, 1_536),
    (2_000, 2_000, 2_000),
    (74, 73, 74),
    (74, 75, 74),
    (74, 74, 73),
    (74, 74, 75),
    (64, 64, 63),
    (64, 63, 64),
    (1_472, 1_471, 1_472),
    (1_472, 1_473, 1_472),
    (1_472, 1_472, 1_471),
    (1_472, 1_472, 1_473),
    (1_473, 1_472, 1_473),
];

fn lengths(past: &mut Past) {
    past.section("14.10 Lengths of a multicast PDU");
    for (ml, bsize, lent) in LENGTHS {
        past.ready();
        past.cast_raw(ml, bsize, 1, 1, lent);
    }
}

/// DA and M_CTL, which are not looked at. A group stands in the last two octets of
/// DA.
const NOT_LOOKED_AT: [Laid; 10] = [
    (12, 4, 0),
    (12, 4, 1),
    (12, 4, 65_536),
    (12, 4, 65_538),
    (12, 4, 65_541),
    (12, 4, 65_791),
    (12, 4, 16_842_753),
    (24, 4, 1),
    (24, 4, 1_073_741_824),
    (24, 4, 4_294_967_295),
];

/// "each row cast_laid with group 1": first the rows of 2.1.
fn one_place(past: &mut Past) {
    past.section("14.11 One place of a multicast PDU");
    for laid in ONE_PLACE.into_iter().chain(NOT_LOOKED_AT) {
        past.ready();
        past.cast_laid(1, &[laid]);
    }
}

/// The groups of the state, and the group given.
const GIVEN: [(Groups, &[u8]); 5] = [
    (
        Groups {
            count: 3,
            places: [5, 1, 255, 0, 0, 0, 0, 0],
        },
        &[0, 1, 2, 4, 5, 6, 254, 255],
    ),
    (
        Groups {
            count: 3,
            places: [5, 1, 255, 7, 0, 9, 0, 2],
        },
        &[7, 0, 9, 2, 255],
    ),
    (
        Groups {
            count: 2,
            places: [5, 1, 255, 0, 0, 0, 0, 0],
        },
        &[255, 0, 5, 1],
    ),
    (
        Groups {
            count: 0,
            places: [5, 1, 255, 0, 0, 0, 0, 0],
        },
        &[0, 1, 5, 255],
    ),
    (
        Groups {
            count: 8,
            places: [8, 7, 6, 5, 4, 3, 2, 1],
        },
        &[0, 1, 8, 9],
    ),
];

/// The state's groups are made by `t`, so that what stands past the count is there.
fn the_group_given(past: &mut Past) {
    past.section("14.12 The group given");
    for (groups, given) in GIVEN {
        for group in given {
            past.ready();
            change_state(past, |state| state.groups = groups);
            past.cast_laid(*group, &[]);
        }
    }
    no_groups(past);
}

/// No groups: the tables are empty, and 25 comes after 14 all the same.
fn no_groups(past: &mut Past) {
    for (group, laid) in [(0, None), (1, None), (255, None), (1, Some((10, 2, 8)))] {
        past.fresh();
        past.cast_laid(group, laid.as_slice());
    }
    for group in [0, 1] {
        past.quietly(|past| past.setup([0, 0, 15_000, 2, 2, 9]));
        past.cast_laid(group, &[]);
    }
}

/// Both modes at both kinds of node.
fn test_messages(past: &mut Past) {
    past.section("14.13 Test messages to a group");
    let nodes: [fn(&mut Past); 2] = [
        |past| past.groups(3, &[5, 1, 255]),
        |past| past.setup_with([1, 16, 15_000, 2, 2, 9], groups_of(3, &[5, 1, 255])),
    ];
    for node in nodes {
        for mode in [0, 1, 2, 256] {
            past.quietly(node);
            past.cast_laid(1, &[(52, 2, mode)]);
        }
    }
}

/// ml, bsize, cbn, tbn.
const PIECES: [(u32, u16, u8, u8); 29] = [
    (74, 74, 1, 1),
    (74, 74, 0, 1),
    (74, 74, 2, 1),
    (74, 74, 255, 1),
    (74, 74, 1, 0),
    (74, 74, 1, 2),
    (74, 74, 1, 255),
    (74, 74, 0, 0),
    (74, 74, 2, 2),
    (74, 74, 255, 255),
    (73, 74, 1, 1),
    (75, 74, 1, 1),
    (0, 74, 1, 1),
    (10, 74, 1, 1),
    (65_610, 74, 1, 1),
    (4_294_967_295, 74, 1, 1),
    (0, 64, 1, 1),
    (63, 64, 1, 1),
    (64, 64, 1, 1),
    (65, 64, 1, 1),
    (4_294_967_232, 64, 1, 1),
    (4_294_967_295, 64, 1, 1),
    (1_471, 1_472, 1, 1),
    (1_472, 1_472, 1, 1),
    (1_473, 1_472, 1, 1),
    (364, 320, 1, 2),
    (364, 108, 2, 2),
    (16_448, 1_460, 1, 12),
    (16_448, 1_092, 12, 12),
];

fn one_piece(past: &mut Past) {
    past.section("14.14 One piece to a group");
    for (ml, bsize, cbn, tbn) in PIECES {
        past.ready();
        past.cast_raw(ml, bsize, cbn, tbn, bsize.into());
    }
}

fn numbers(past: &mut Past, rows: &[(u32, u32)]) {
    for (version, seq) in rows {
        past.cast_number(*version, *seq);
    }
}

/// 02: "judged by the same check": the rows of 4.1.
fn n1_16(past: &mut Past) {
    past.section("14.15 Number check of a group, N1 16");
    past.ready();
    for (version, seq) in CHECKED {
        past.cast_number(version, seq);
        past.tables();
    }
    numbers(past, &UNDER_VERSION_0);
    past.tables();
    numbers(past, &[(u32::MAX, 7), (u32::MAX, 8)]);
    numbers(past, &[(5, 8), (6, 8), (0, 7), (5, 7), (0, 1), (5, 7)]);
    past.tables();
}

/// The rows of 4.2 and 4.3; then another N1 in the same state.
fn other_n1(past: &mut Past) {
    past.section("14.16 Number check of a group, N1 1 and 1024");
    let groups = groups_of(3, &[5, 1, 255]);
    past.setup_with([0, 1, 15_000, 2, 2, 9], groups);
    numbers(past, &[(5, 100), (5, 100), (5, 99), (5, 100)]);
    past.setup_with([0, 1_024, 15_000, 2, 2, 9], groups);
    numbers(past, &[(5, 2_000), (5, 977), (5, 976)]);
    numbers(past, &[(5, 2_147_483_600), (5, 2_147_483_599)]);
    change_state(past, |state| state.n1 = 2);
    let after = [2_147_483_598, 2_147_483_597, 2_147_483_596];
    numbers(past, &after.map(|seq| (5, seq)));
    past.tables();
}

/// "A refusal alters" no entry, neither that of the packet nor another: all of them
/// are shown behind each.
fn what_a_refusal_leaves(past: &mut Past) {
    past.section("14.17 What a refusal leaves of the tables");
    for one in WRONG {
        two_entries(past);
        cast_wrong(past, &[one]);
        past.tables();
    }
    two_entries(past);
    change_state(past, |state| state.n1 = 0);
    past.cast_number(5, 101);
    past.tables();
}

/// Entries 8 and 47 are in use.
fn two_entries(past: &mut Past) {
    past.ready();
    past.quietly(|past| {
        past.cast_number(5, 99);
        past.cast(255, [2, 9, 7, 6, 7, 10]);
    });
}
