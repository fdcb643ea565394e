//! Sections 14.6 to 14.9: the lent tables, and which of two numbers is given.

use super::cast_calls::groups_of;
use super::damage::change_state;
use super::past::Past;
use super::pdu::{self, Laid};
use crate::state::Receiver;

pub fn sections(past: &mut Past) {
    sizes(past);
    entries(past);
    two_numbers(past);
    nine_and_others(past);
}

/// A state, made without printing, and how many entries of each table are lent.
type Sizes = (fn(&mut Past), &'static [[usize; 2]]);

const SIZES: [Sizes; 5] = [
    (
        |past| past.groups(3, &[5, 1, 255]),
        &[
            [48, 48],
            [47, 48],
            [48, 47],
            [49, 48],
            [48, 49],
            [47, 47],
            [49, 49],
            [47, 49],
            [49, 47],
            [0, 48],
            [48, 0],
            [0, 0],
            [96, 48],
            [48, 96],
            [96, 96],
            [16, 16],
            [24, 24],
            [6, 6],
            [8, 8],
            [384, 384],
            [1_040, 48],
            [48, 1_040],
            [1_040, 1_040],
        ],
    ),
    (
        |past| past.setup_with([0, 16, 15_000, 1, 2, 9], groups_of(1, &[1])),
        &[
            [8, 8],
            [7, 8],
            [8, 7],
            [9, 8],
            [8, 9],
            [1, 1],
            [16, 16],
            [0, 0],
        ],
    ),
    (
        |past| {
            let groups = groups_of(8, &[8, 7, 6, 5, 4, 3, 2, 1]);
            past.setup_with([0, 16, 15_000, 16, 2, 8], groups);
        },
        &[
            [1_024, 1_024],
            [1_023, 1_024],
            [1_024, 1_023],
            [1_025, 1_024],
            [1_024, 1_025],
            [1_040, 1_040],
            [128, 128],
            [64, 64],
            [0, 0],
        ],
    ),
    (
        |past| past.setup([0, 16, 15_000, 2, 2, 9]),
        &[[0, 0], [1, 0], [0, 1], [1, 1], [8, 8], [16, 16]],
    ),
    (
        |past| past.setup([0, 0, 15_000, 2, 2, 9]),
        &[[0, 0], [1, 0], [0, 1], [1, 1], [8, 8]],
    ),
];

fn sizes(past: &mut Past) {
    past.section("14.6 Sizes of the tables");
    for (state, rows) in SIZES {
        for lent in rows {
            past.quietly(state);
            past.multicast_lent(*lent, 1, &pdu::number(5, 100));
        }
    }
}

/// The first entry, one between, the packet's own and the last of 48.
const PLACES: [usize; 4] = [0, 20, 8, 47];

/// version, number.
const PAIRS: [(u32, u32); 16] = [
    (0, 0),
    (0, 1),
    (0, 2_147_483_647),
    (0, 2_147_483_648),
    (0, 4_294_967_295),
    (1, 0),
    (1, 1),
    (1, 2_147_483_647),
    (1, 2_147_483_648),
    (5, 0),
    (5, 2_147_483_647),
    (5, 2_147_483_648),
    (5, 4_294_967_295),
    (4_294_967_295, 0),
    (4_294_967_295, 1),
    (4_294_967_295, 4_294_967_295),
];

fn entries(past: &mut Past) {
    past.section("14.7 Entries of the tables");
    for place in PLACES {
        for (version, number) in PAIRS {
            past.ready();
            past.entry(place, version, number);
            past.cast_number(5, 100);
            past.tables();
        }
    }
    not_lent(past);
    of_1024(past);
    mended(past);
}

/// What stands behind the lent entries is not looked at.
fn not_lent(past: &mut Past) {
    for (place, version, number) in [(48, 5, 0), (48, 5, 4_294_967_295), (1_039, 5, 0)] {
        past.ready();
        past.entry(place, version, number);
        past.cast_number(5, 100);
    }
}

/// The last entry of as many as there can be, and the one behind it.
fn of_1024(past: &mut Past) {
    for (place, version, number) in [(1_023, 1, 0), (1_023, 0, 2_147_483_648), (1_024, 1, 0)] {
        past.quietly(|past| {
            let groups = groups_of(8, &[8, 7, 6, 5, 4, 3, 2, 1]);
            past.setup_with([0, 16, 15_000, 16, 2, 8], groups);
        });
        past.entry(place, version, number);
        past.cast_number(5, 100);
    }
}

/// By an entry, and by a setup.
fn mended(past: &mut Past) {
    past.ready();
    past.cast_number(5, 100);
    past.entry(47, 5, 0);
    past.cast_number(5, 101);
    past.entry(47, 0, 0);
    past.cast_number(5, 101);
    past.entry(0, 5, 2_147_483_648);
    past.cast_number(5, 102);
    past.tables();
    past.groups(3, &[5, 1, 255]);
    past.cast_number(5, 102);
    past.tables();
}

// ---- numbers together

/// One thing that is wrong with a multicast call.
#[derive(Clone, Copy)]
pub enum Wrong {
    Lent([usize; 2]),
    Entry(usize, u32, u32),
    Laid(Laid),
    Group(u8),
}

/// In the order in which their numbers are given: 26 for each of its reasons, 12,
/// 13, 14, 25, 15, 16, 17.
pub const WRONG: [Wrong; 11] = [
    Wrong::Lent([47, 48]),
    Wrong::Lent([48, 47]),
    Wrong::Entry(20, 5, 2_147_483_648),
    Wrong::Entry(20, 5, 0),
    Wrong::Laid((58, 2, 75)),
    Wrong::Laid((40, 2, 0)),
    Wrong::Laid((10, 2, 8)),
    Wrong::Group(2),
    Wrong::Laid((52, 2, 1)),
    Wrong::Laid((56, 1, 2)),
    Wrong::Entry(8, 5, 100),
];

/// How many of them are 26.
const OF_26: usize = 4;

/// cast_number(5, 100), lent 48 entries of each table, but for these.
pub fn cast_wrong(past: &mut Past, wrong: &[Wrong]) {
    let (mut lent, mut group, mut laid) = ([48, 48], 1, Vec::new());
    for one in wrong {
        match one {
            Wrong::Lent(other) => lent = *other,
            Wrong::Entry(place, version, number) => past.entry(*place, *version, *number),
            Wrong::Laid(other) => laid.push(*other),
            Wrong::Group(other) => group = *other,
        }
    }
    past.multicast_lent(lent, group, &pdu::with(pdu::number(5, 100), &laid));
}

/// Each alone, then every two that are not both 26.
fn two_numbers(past: &mut Past) {
    past.section("14.8 Two numbers at once");
    for one in WRONG {
        past.ready();
        cast_wrong(past, &[one]);
    }
    for (i, low) in WRONG.iter().enumerate() {
        for high in &WRONG[(i + 1).max(OF_26)..] {
            past.ready();
            cast_wrong(past, &[*low, *high]);
        }
    }
    for place in [0, 47, 8] {
        wrong_entry_and_others(past, place);
    }
}

/// An entry that 26 refuses, in other places than above, beside each other number.
/// The packet's own can hold nothing else besides.
fn wrong_entry_and_others(past: &mut Past, place: usize) {
    let own = |wrong: &Wrong| matches!(wrong, Wrong::Entry(entry, _, _) if *entry == place);
    for number in [2_147_483_648, 0] {
        for high in WRONG[OF_26..].iter().filter(|wrong| !own(wrong)) {
            past.ready();
            cast_wrong(past, &[Wrong::Entry(place, 5, number), *high]);
        }
    }
}

/// Two damages of the state, each before everything else.
const DAMAGES: [fn(&mut Receiver); 2] = [|state| state.groups.count = 9, |state| state.n1 = 0];

fn nine_and_others(past: &mut Past) {
    past.section("14.9 9 and other numbers");
    for damage in DAMAGES {
        past.ready();
        change_state(past, damage);
        cast_wrong(past, &[]);
        for one in WRONG {
            past.ready();
            change_state(past, damage);
            cast_wrong(past, &[one]);
        }
    }
}
