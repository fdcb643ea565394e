//! Sections 14.18 to 14.21: each sender, group and priority has an entry of its own,
//! and peer-to-peer messages are not touched.

use super::cast_calls::groups_of;
use super::past::Past;

pub fn sections(past: &mut Past) {
    sixteen_by_eight(past);
    two_by_three(past);
    each_entry_apart(past);
    beside_peer_to_peer(past);
}

/// Groups in no rising order.
const EIGHT: [u8; 8] = [200, 3, 255, 1, 77, 2, 9, 128];

/// group, field, node, pri: the ends of each, then two between.
const CORNERS: [(u8, u32, u32, u32); 10] = [
    (200, 1, 7, 0),
    (200, 1, 7, 7),
    (128, 1, 7, 0),
    (128, 1, 7, 7),
    (200, 16, 22, 0),
    (200, 16, 22, 7),
    (128, 16, 22, 0),
    (128, 16, 22, 7),
    (1, 8, 14, 4),
    (3, 2, 8, 1),
];

/// First each in order, then each once more, then the next numbers from the end.
fn sixteen_by_eight(past: &mut Past) {
    past.section("14.18 Sixteen senders and eight groups");
    past.setup_with([0, 16, 15_000, 16, 2, 8], groups_of(8, &EIGHT));
    for (k, (group, field, node, pri)) in (0..).zip(CORNERS) {
        past.cast(group, [field, node, pri, 5, 100 + k, 10]);
    }
    past.tables();
    for (k, (group, field, node, pri)) in (0..).zip(CORNERS) {
        past.cast(group, [field, node, pri, 5, 100 + k, 10]);
    }
    past.tables();
    for (k, (group, field, node, pri)) in (0..10).zip(CORNERS).rev() {
        past.cast(group, [field, node, pri, 5, 101 + k, 10]);
    }
    past.tables();
}

const SENDERS: [(u32, u32); 2] = [(1, 7), (2, 9)];
const GROUPS: [u8; 3] = [5, 1, 255];

/// Every sender, group and PRI in the order of the table.
fn every_entry() -> Vec<(u8, u32, u32, u32)> {
    let mut all = Vec::new();
    for (field, node) in SENDERS {
        for group in GROUPS {
            all.extend((0..8).map(|pri| (group, field, node, pri)));
        }
    }
    all
}

fn two_by_three(past: &mut Past) {
    past.section("14.19 Every entry of two senders and three groups");
    past.ready();
    for (k, (group, field, node, pri)) in (0..).zip(every_entry()) {
        past.cast(group, [field, node, pri, 5, 100 + k, k]);
    }
    past.tables();
    for (k, (group, field, node, pri)) in (0..48).zip(every_entry()).rev() {
        past.cast(group, [field, node, pri, 5, 101 + k, k]);
    }
    past.tables();
}

/// group, field, node, pri, version, seq.
const APART: [(u8, [u32; 5]); 26] = [
    (1, [1, 7, 0, 5, 100]),
    (1, [2, 9, 0, 5, 100]),
    (5, [1, 7, 0, 5, 100]),
    (255, [1, 7, 0, 5, 100]),
    (1, [1, 7, 1, 5, 100]),
    (1, [1, 7, 7, 5, 100]),
    // Each is a repeat in its own entry.
    (1, [1, 7, 0, 5, 100]),
    (1, [2, 9, 0, 5, 100]),
    (5, [1, 7, 0, 5, 100]),
    (255, [1, 7, 0, 5, 100]),
    (1, [1, 7, 1, 5, 100]),
    (1, [1, 7, 7, 5, 100]),
    // One goes on, the others stay.
    (1, [1, 7, 0, 5, 130]),
    (1, [1, 7, 1, 5, 101]),
    (1, [1, 7, 0, 5, 101]),
    (1, [2, 9, 0, 5, 101]),
    (5, [1, 7, 0, 6, 1]),
    (255, [1, 7, 0, 5, 101]),
    (1, [1, 7, 7, 5, 100]),
    (1, [1, 7, 7, 5, 101]),
    // An entry that nothing was written to, and unchecked ones.
    (255, [2, 9, 6, 0, 1]),
    (255, [2, 9, 6, 5, 1]),
    (1, [1, 7, 0, 0, 1]),
    (1, [1, 7, 0, 5, 102]),
    (1, [1, 7, 0, 5, 117]),
    (5, [2, 9, 0, 6, 2]),
];

fn each_entry_apart(past: &mut Past) {
    past.section("14.20 Each entry apart");
    past.ready();
    for (group, [field, node, pri, version, seq]) in APART {
        past.cast(group, [field, node, pri, version, seq, 10]);
    }
    past.tables();
    in_the_order_of_setup(past);
}

/// The same groups, registered in two orders.
fn in_the_order_of_setup(past: &mut Past) {
    for order in [[9, 3, 200, 1], [1, 200, 3, 9]] {
        past.groups(4, &order);
        for (k, group) in (0..).zip([1, 3, 9, 200]) {
            past.cast(group, [2, 9, 2, 5, 100 + k, 10]);
        }
        past.tables();
    }
}

/// 02: "demand 3 still speaks of peer-to-peer messages, which it doesn't touch". P
/// and M of the same sender, version and number, an open message between them.
fn beside_peer_to_peer(past: &mut Past) {
    past.section("14.21 Beside peer-to-peer messages");
    past.ready();
    past.piece([1, 7, 5, 100, 1, 600, 256, 1]);
    past.show();
    past.cast_number(5, 100);
    past.show();
    past.tables();
    past.piece([1, 7, 5, 100, 1, 600, 256, 3]);
    past.cast_number(5, 100);
    past.held(0);
    past.ask();
    past.piece([1, 7, 5, 100, 1, 600, 256, 2]);
    past.number(5, 100);
    past.cast_number(5, 101);
    past.number(5, 101);
    past.cast_number(5, 102);
    past.show();
    past.tables();
    newer_and_older(past);
    alive_and_clock(past);
    long_messages(past);
}

/// A newer number and another version of a group drop nothing that is open.
fn newer_and_older(past: &mut Past) {
    past.piece([1, 7, 5, 110, 1, 600, 256, 2]);
    past.cast_number(5, 111);
    past.cast_number(6, 1);
    past.cast_number(0, 1);
    past.cast(1, [2, 9, 0, 5, 100, 1_408]);
    past.cast_laid(1, &[(56, 1, 2)]);
    past.cast_laid(2, &[]);
    past.held(0);
    past.show();
    past.tables();
    past.piece([1, 7, 5, 110, 1, 600, 256, 1]);
    past.cast_number(6, 1);
    past.piece([1, 7, 5, 110, 1, 600, 256, 3]);
    past.show();
    past.tables();
}

/// Neither alive signals nor the clock touch the tables; a dead sender's messages
/// are taken.
fn alive_and_clock(past: &mut Past) {
    past.alive(1, 7, 1, 1);
    past.piece([1, 7, 5, 120, 1, 600, 256, 1]);
    past.cast_number(6, 2);
    past.clock(14_999);
    past.cast_number(6, 3);
    past.clock(15_000);
    past.cast_number(6, 4);
    past.alive(1, 7, 2, 1);
    past.cast_number(6, 5);
    past.show();
    past.tables();
}

/// 1,397 to 1,408 octets are a message of a group, and too long for one piece of the
/// other kind; and a piece of several is none of a group.
fn long_messages(past: &mut Past) {
    for n in [1_396, 1_397, 1_408] {
        past.peer([1, 7, 0, 5, 200 + n, n]);
        past.cast(5, [1, 7, 0, 5, 200 + n, n]);
    }
    past.piece([1, 7, 7, 1, 1, 600, 256, 1]);
    past.cast_raw(664, 320, 1, 3, 320);
    past.show();
    past.tables();
}
