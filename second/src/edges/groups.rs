//! Sections 14.1 to 14.5: the groups of a setup and of a state, and the multicast
//! call at damaged states.

use super::cast_calls::groups_of;
use super::damage::{
    change_state, cut_and_map, four_calls, heard_and_open, never_looked_at, one_value_changed,
};
use super::past::Past;
use crate::state::{Groups, AREA};

pub fn sections(past: &mut Past) {
    setups(past);
    what_setup_returns(past);
    damaged_groups(past);
    no_senders(past);
    damaged_states(past);
}

/// How many groups there are, and the eight places.
type Row = (u8, [u8; 8]);

const SETUPS: [Row; 41] = [
    (0, [0; 8]),
    (1, [5, 0, 0, 0, 0, 0, 0, 0]),
    (8, [1, 2, 3, 4, 5, 6, 7, 8]),
    (9, [1, 2, 3, 4, 5, 6, 7, 8]),
    (255, [1, 2, 3, 4, 5, 6, 7, 8]),
    (9, [0; 8]),
    // A group 0, 1 and 255: alone, in the first, a middle and the last place.
    (1, [0; 8]),
    (1, [1, 0, 0, 0, 0, 0, 0, 0]),
    (1, [255, 0, 0, 0, 0, 0, 0, 0]),
    (8, [0, 2, 3, 4, 5, 6, 7, 8]),
    (8, [1, 2, 3, 4, 5, 6, 7, 9]),
    (8, [255, 2, 3, 4, 5, 6, 7, 8]),
    (8, [9, 2, 3, 0, 5, 6, 7, 8]),
    (8, [9, 2, 3, 1, 5, 6, 7, 8]),
    (8, [9, 2, 3, 255, 5, 6, 7, 8]),
    (8, [9, 2, 3, 4, 5, 6, 7, 0]),
    (8, [9, 2, 3, 4, 5, 6, 7, 1]),
    (8, [9, 2, 3, 4, 5, 6, 7, 255]),
    (8, [0; 8]),
    // Twice.
    (2, [7, 7, 0, 0, 0, 0, 0, 0]),
    (2, [7, 8, 0, 0, 0, 0, 0, 0]),
    (2, [255, 255, 0, 0, 0, 0, 0, 0]),
    (8, [1, 1, 3, 4, 5, 6, 7, 8]),
    (8, [1, 2, 3, 4, 4, 6, 7, 8]),
    (8, [1, 2, 3, 4, 5, 6, 7, 7]),
    (8, [1, 2, 3, 4, 5, 6, 7, 1]),
    (8, [1, 2, 3, 4, 5, 3, 7, 8]),
    (8, [1; 8]),
    // In any order.
    (8, [8, 7, 6, 5, 4, 3, 2, 1]),
    (4, [9, 3, 200, 1, 0, 0, 0, 0]),
    // Past the count.
    (0, [9, 9, 0, 9, 255, 1, 2, 3]),
    (1, [5, 5, 0, 0, 0, 0, 0, 0]),
    (1, [5, 0, 5, 0, 0, 0, 0, 0]),
    (2, [5, 6, 6, 5, 0, 0, 0, 0]),
    (2, [5, 5, 6, 7, 0, 0, 0, 0]),
    (3, [5, 6, 0, 7, 0, 0, 0, 0]),
    (2, [5, 6, 0, 7, 0, 0, 0, 0]),
    (7, [1, 2, 3, 4, 5, 6, 7, 0]),
    (7, [1, 2, 3, 4, 5, 6, 7, 7]),
    (7, [1, 2, 3, 4, 5, 6, 7, 1]),
    (7, [1, 2, 3, 4, 5, 6, 6, 8]),
];

/// Other settings beside the groups, wrong and right.
const WITH_OTHERS: [([u32; 6], Row); 12] = [
    ([0, 0, 15_000, 2, 2, 9], (1, [5, 0, 0, 0, 0, 0, 0, 0])),
    ([0, 0, 15_000, 2, 2, 9], (9, [1, 2, 3, 4, 5, 6, 7, 8])),
    ([0, 16, 600_001, 2, 2, 9], (2, [5, 5, 0, 0, 0, 0, 0, 0])),
    ([2, 16, 15_000, 2, 2, 9], (1, [0; 8])),
    ([0, 16, 15_000, 0, 2, 8], (1, [5, 0, 0, 0, 0, 0, 0, 0])),
    ([0, 16, 15_000, 0, 2, 8], (0, [0; 8])),
    ([0, 16, 15_000, 17, 2, 8], (8, [1, 2, 3, 4, 5, 6, 7, 8])),
    ([0, 16, 15_000, 2, 1, 7], (1, [5, 0, 0, 0, 0, 0, 0, 0])),
    ([0, 16, 15_000, 2, 1, 7], (2, [7, 7, 0, 0, 0, 0, 0, 0])),
    ([1, 16, 15_000, 2, 2, 9], (1, [5, 0, 0, 0, 0, 0, 0, 0])),
    ([0, 16, 15_000, 1, 2, 8], (8, [1, 2, 3, 4, 5, 6, 7, 8])),
    ([0, 16, 15_000, 16, 2, 8], (8, [1, 2, 3, 4, 5, 6, 7, 8])),
];

fn setups(past: &mut Past) {
    past.section("14.1 Groups of a setup");
    for (count, places) in SETUPS {
        past.groups(count, &places);
    }
    for (values, (count, places)) in WITH_OTHERS {
        past.setup_with(values, Groups { count, places });
    }
}

/// Places past the count are written 0. A setup, refused or not, clears the tables.
fn what_setup_returns(past: &mut Past) {
    past.section("14.2 What setup returns of groups");
    let rows = [
        (3, [5, 1, 255, 0, 0, 0, 0, 0]),
        (8, [8, 7, 6, 5, 4, 3, 2, 1]),
        (0, [9, 9, 0, 9, 255, 1, 2, 3]),
        (1, [5, 5, 0, 255, 1, 5, 6, 7]),
        (7, [1, 2, 3, 4, 5, 6, 7, 200]),
    ];
    for (count, places) in rows {
        past.groups(count, &places);
        past.show();
    }
    let tens = groups_of(8, &[80, 70, 60, 50, 40, 30, 20, 10]);
    past.setup_with([1, 1_024, 600_000, 1, 2, 9], tens);
    past.show();
    let setups: [fn(&mut Past); 4] = [
        |past| past.groups(2, &[9, 200]),
        |past| past.groups(1, &[0]),
        |past| past.setup([0, 0, 15_000, 2, 2, 9]),
        |past| past.setup([0, 16, 15_000, 2, 2, 9]),
    ];
    for setup in setups {
        past.entry(0, 5, 100);
        past.entry(500, 0, 4_294_967_295);
        past.entry(1_039, 6, 0);
        past.tables();
        setup(past);
        past.tables();
    }
    past.show();
}

/// What the groups of the state become.
const DAMAGED: [Row; 29] = [
    (3, [5, 1, 255, 0, 0, 0, 0, 0]),
    // Counts.
    (9, [5, 1, 255, 0, 0, 0, 0, 0]),
    (255, [5, 1, 255, 0, 0, 0, 0, 0]),
    (8, [1, 2, 3, 4, 5, 6, 7, 8]),
    (9, [1, 2, 3, 4, 5, 6, 7, 8]),
    (128, [1, 2, 3, 4, 5, 6, 7, 8]),
    (255, [1, 2, 3, 4, 5, 6, 7, 8]),
    (4, [5, 1, 255, 0, 0, 0, 0, 0]),
    (2, [5, 1, 255, 0, 0, 0, 0, 0]),
    (1, [5, 1, 255, 0, 0, 0, 0, 0]),
    (0, [5, 1, 255, 0, 0, 0, 0, 0]),
    // A group 0.
    (3, [0, 1, 255, 0, 0, 0, 0, 0]),
    (3, [5, 0, 1, 0, 0, 0, 0, 0]),
    (3, [5, 1, 0, 0, 0, 0, 0, 0]),
    (8, [0, 1, 3, 4, 5, 6, 7, 8]),
    (8, [1, 2, 3, 4, 5, 6, 7, 0]),
    (1, [0, 1, 0, 0, 0, 0, 0, 0]),
    // One twice.
    (3, [5, 5, 1, 0, 0, 0, 0, 0]),
    (3, [5, 1, 1, 0, 0, 0, 0, 0]),
    (3, [5, 1, 5, 0, 0, 0, 0, 0]),
    (8, [1, 2, 3, 4, 5, 6, 7, 1]),
    (8, [1, 2, 3, 4, 4, 6, 7, 8]),
    (2, [1, 1, 0, 0, 0, 0, 0, 0]),
    // What stands past the count.
    (3, [5, 1, 255, 5, 0, 1, 255, 7]),
    (2, [5, 1, 1, 0, 0, 0, 0, 0]),
    (1, [1, 1, 1, 1, 1, 1, 1, 1]),
    (0, [1, 1, 0, 9, 9, 9, 9, 9]),
    (0, [0; 8]),
    (7, [1, 2, 3, 4, 5, 6, 7, 7]),
];

/// "The rows are made as in section 8", of a state with groups; behind the four
/// calls comes the multicast call.
fn damaged_groups(past: &mut Past) {
    past.section("14.3 Groups of a damaged state");
    for (count, places) in DAMAGED {
        make_busy(past);
        change_state(past, |state| state.groups = Groups { count, places });
        four_calls(past, 2 * AREA);
        past.cast_number(5, 100);
    }
}

fn make_busy(past: &mut Past) {
    past.ready();
    heard_and_open(past);
}

/// test, n1, t, and the groups. Of the states without senders only the empty one
/// passes.
const NO_SENDERS: [(bool, u16, u32, Row); 9] = [
    (false, 1, 1, (0, [0; 8])),
    (false, 1, 1, (0, [5, 5, 0, 1, 0, 0, 0, 255])),
    (false, 1, 1, (1, [5, 0, 0, 0, 0, 0, 0, 0])),
    (false, 1, 1, (8, [1, 2, 3, 4, 5, 6, 7, 8])),
    (false, 1, 1, (9, [1, 2, 3, 4, 5, 6, 7, 8])),
    (false, 1, 1, (1, [0; 8])),
    (true, 1, 1, (0, [0; 8])),
    (false, 2, 1, (0, [0; 8])),
    (false, 1, 2, (1, [1, 0, 0, 0, 0, 0, 0, 0])),
];

fn no_senders(past: &mut Past) {
    past.section("14.4 Groups without senders");
    for (test, n1, t, (count, places)) in NO_SENDERS {
        past.quietly(|past| past.setup([0, 0, 15_000, 2, 2, 9]));
        change_state(past, |state| {
            (state.test, state.n1, state.t) = (test, n1, t);
            state.groups = Groups { count, places };
        });
        four_calls(past, 0);
        past.cast_number(5, 100);
    }
}

/// 01's and 02's other clauses of 9 hold for this call too.
fn damaged_states(past: &mut Past) {
    past.section("14.5 Multicast at damaged states");
    one_value_changed(past, multicast_row);
    cut_and_map(past, multicast_row);
    never_looked_at(past, multicast_row);
}

fn multicast_row(past: &mut Past, damage: &dyn Fn(&mut Past)) {
    make_busy(past);
    damage(past);
    past.cast_number(5, 100);
}
