//! Sections 6 and 7: the clock call and alive signals.

use super::past::Past;
use super::pdu::Laid;

pub fn sections(past: &mut Past) {
    the_clock(past);
    age_of_a_message(past);
    t_at_its_ends(past);
    al_tm_out(past);
    both_maps(past);
    lengths(past);
    one_place(past);
    two_numbers(past);
    alive_and_dead(past);
    alive_at_the_empty_state(past);
}

const CLOCKS: [u64; 11] = [
    0,
    0,
    5,
    4,
    5,
    1_099_511_627_777,
    18_446_744_073_709_551_615,
    6,
    1_099_511_627_776,
    1_099_511_627_776,
    1_099_511_627_775,
];

fn the_clock(past: &mut Past) {
    past.section("6.1 The clock");
    for ms in CLOCKS {
        past.clock(ms);
    }
}

fn age_of_a_message(past: &mut Past) {
    past.section("6.2 Age of a message");
    past.clock(1_000);
    past.piece([1, 7, 5, 100, 1, 4_500, 1_332, 1]);
    past.clock(8_000);
    past.piece([1, 7, 5, 100, 1, 4_500, 1_332, 2]);
    past.clock(9_000);
    past.piece([1, 7, 5, 100, 1, 4_500, 1_332, 2]);
    past.piece([2, 9, 5, 100, 1, 300, 256, 1]);
    past.show();
    past.clock(22_999);
    past.clock(23_000);
    past.ask();
    past.piece([1, 7, 5, 100, 1, 4_500, 1_332, 3]);
    past.clock(24_000);
    past.clock(37_999);
    past.clock(38_000);
    past.ask();
    past.piece([2, 9, 5, 100, 1, 300, 256, 2]);
    past.piece([1, 7, 5, 100, 1, 4_500, 1_332, 1]);
    past.clock(53_000);
}

fn t_at_its_ends(past: &mut Past) {
    past.section("6.3 T at its ends");
    past.setup([0, 16, 1, 2, 2, 9]);
    past.piece([1, 7, 5, 100, 1, 300, 256, 1]);
    past.clock(0);
    past.clock(1);
    past.setup([0, 16, 600_000, 2, 2, 9]);
    past.piece([1, 7, 5, 100, 1, 300, 256, 1]);
    past.clock(599_999);
    past.clock(600_000);
}

fn al_tm_out(past: &mut Past) {
    past.section("6.4 al_tm_out");
    past.alive(1, 7, 1, 0);
    past.clock(0);
    past.alive(1, 7, 1, 1);
    past.alive(2, 9, 1, 1);
    past.clock(999);
    past.alive(2, 9, 1, 1);
    past.clock(1_000);
    past.clock(1_998);
    past.clock(1_999);
    past.alive(1, 7, 1, 4_294_967_295);
    past.alive(2, 9, 1, 4_294_968);
    past.clock(4_294_969_998);
    past.clock(4_294_969_999);
    past.clock(1_099_511_627_776);
    past.show();
}

fn both_maps(past: &mut Past) {
    past.section("6.5 Both maps");
    past.alive(1, 7, 1, 15);
    past.alive(2, 9, 1, 14);
    past.piece([2, 9, 5, 100, 1, 300, 256, 1]);
    past.clock(0);
    past.piece([1, 7, 5, 100, 1, 300, 256, 1]);
    past.clock(14_000);
    past.clock(15_000);
}

/// ml, bsize, lent.
const LENGTHS: [(u32, u16, usize); 11] = [
    (127, 127, 127),
    (128, 128, 128),
    (1_472, 1_472, 1_472),
    (1_473, 1_473, 1_473),
    (128, 127, 128),
    (128, 129, 128),
    (128, 128, 127),
    (128, 128, 129),
    (127, 128, 128),
    (129, 128, 128),
    (128, 129, 129),
];

fn lengths(past: &mut Past) {
    past.section("7.1 Lengths of an alive PDU");
    for (ml, bsize, lent) in LENGTHS {
        past.fresh();
        past.alive_sized(ml, bsize, lent);
    }
}

/// at, size, value.
const ONE_PLACE: [Laid; 33] = [
    (3, 1, 78),
    (8, 1, 1),
    (54, 1, 2),
    (63, 1, 1),
    (55, 1, 0),
    (55, 1, 7),
    (55, 1, 8),
    (52, 2, 1),
    (52, 2, 2),
    (40, 2, 60_002),
    (40, 2, 60_003),
    (40, 2, 60_004),
    (40, 2, 1),
    (20, 4, 0),
    (20, 4, 2_147_483_648),
    (9, 1, 2),
    (10, 2, 4_103),
    (56, 1, 0),
    (56, 1, 2),
    (57, 1, 2),
    (14, 2, 1),
    (14, 2, 256),
    (12, 2, 65_535),
    (91, 1, 3),
    (91, 1, 5),
    (105, 1, 0),
    (105, 1, 2),
    (90, 1, 0),
    (90, 1, 1),
    (90, 1, 2),
    (90, 1, 3),
    (90, 1, 4),
    (106, 4, 4_294_967_295),
];

fn one_place(past: &mut Past) {
    past.section("7.2 One place of an alive PDU");
    for laid in ONE_PLACE {
        past.fresh();
        past.alive_laid(&[laid]);
    }
}

const TWO_NUMBERS: [[Laid; 2]; 4] = [
    [(58, 2, 129), (55, 1, 8)],
    [(55, 1, 8), (10, 2, 8)],
    [(40, 2, 60_002), (91, 1, 3)],
    [(10, 2, 8), (56, 1, 2)],
];

fn two_numbers(past: &mut Past) {
    past.section("7.3 Two numbers at once");
    for laid in TWO_NUMBERS {
        past.fresh();
        past.alive_laid(&laid);
    }
}

fn alive_and_dead(past: &mut Past) {
    past.section("7.4 Alive and dead");
    past.clock(500);
    past.alive(1, 7, 1, 60);
    past.show();
    past.clock(600);
    past.alive(1, 7, 1, 7);
    past.alive(2, 9, 1, 9);
    past.alive_laid(&[(90, 1, 4), (84, 4, 5)]);
    past.show();
    past.alive(1, 7, 2, 8);
    past.show();
    past.alive(2, 9, 3, 8);
    past.alive(1, 7, 1, 4_294_967_295);
    past.show();
}

fn alive_at_the_empty_state(past: &mut Past) {
    past.section("7.5 Alive at the empty state");
    past.setup([0, 0, 15_000, 2, 2, 9]);
    past.alive(1, 7, 1, 60);
    past.alive_laid(&[(55, 1, 8)]);
    past.alive_sized(127, 127, 127);
    past.clock(1_000);
    past.ask();
    past.show();
}
