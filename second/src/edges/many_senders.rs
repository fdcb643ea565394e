//! Section 9: up to sixteen senders. Sender i, from 0, is (1 + i):(7 + i).

use super::past::Past;
use crate::state::{AREA, SENDERS_MOST};

pub fn sections(past: &mut Past) {
    sixteen_senders(past);
    five_to_sixteen_senders(past);
}

/// The numbers differ so that the octets do.
fn sixteen_senders(past: &mut Past) {
    past.section("9.1 Sixteen senders");
    past.setup([0, 16, 15_000, 16, 2, 8]);
    for i in 0..16 {
        past.piece([1 + i, 7 + i, 5, 100 + i, 1, 300, 256, 2]);
    }
    past.ask();
    for i in (0..16).rev() {
        past.piece([1 + i, 7 + i, 5, 100 + i, 1, 300, 256, 1]);
    }
    past.ask();
    for i in 0..16 {
        past.alive(1 + i, 7 + i, 1, i);
    }
    past.piece([16, 22, 5, 116, 1, 300, 256, 2]);
    past.ask();
    past.clock(7_000);
    past.show();
    past.clock(15_000);
}

fn five_to_sixteen_senders(past: &mut Past) {
    past.section("9.2 Five to sixteen senders");
    for c in 5..=16 {
        this_many_senders(past, c);
    }
}

/// "sender c - 1 is the last one, c:(6 + c), and (c + 1):(7 + c) is not
/// registered".
fn this_many_senders(past: &mut Past, c: u32) {
    past.setup([0, 16, 15_000, c, 2, 8]);
    past.piece([c, 6 + c, 5, 100, 1, 300, 256, 2]);
    past.piece([c + 1, 7 + c, 5, 100, 1, 300, 256, 2]);
    storage_on_both_sides(past, AREA * c as usize);
    past.ask();
    past.alive(c, 6 + c, 1, 15);
    past.clock(14_999);
    past.piece([c, 6 + c, 5, 100, 1, 300, 256, 1]);
    past.piece([c, 6 + c, 5, 101, 1, 300, 256, 1]);
    past.clock(15_000);
    past.clock(29_999);
    past.show();
}

/// One octet short, and one long: "not for c = 16, where there is no more".
fn storage_on_both_sides(past: &mut Past, right: usize) {
    past.lend(right - 1, 74);
    if right < SENDERS_MOST * AREA {
        past.lend(right + 1, 74);
    }
}
