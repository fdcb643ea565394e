//! Section 7, from 7.6 on: alive signals with fault sections.

use super::past::Past;
use super::pdu::{alive_with, Laid};
use super::section::{last_word, octets_of, section_with_bit, Row};
use super::section_rows::{options_and_lengths, ERRORS, MODULES};

pub fn sections(past: &mut Past) {
    octets_of_nought(past);
    each_section(past);
    two_numbers(past);
    every_mode(past);
    at_the_empty_state(past);
}

/// "alive_with(al_mode, section; laid)", where the section is a row's octets.
fn call(past: &mut Past, al_mode: u32, row: Row, laid: &[Laid]) {
    past.alive_call(&alive_with(al_mode, &octets_of(row), laid));
}

/// "alive_sized(l, l, l) for l = 128, 129, ..., 150": behind the header all is 0.
fn octets_of_nought(past: &mut Past) {
    past.section("7.6 Octets of 0 behind the header");
    for length in 128..=150u16 {
        past.fresh();
        past.alive_sized(length.into(), length, length.into());
    }
}

/// "the sections of 13.1, of 13.2 for m = 33, of 13.3 and of 13.4, in that order".
fn each_section(past: &mut Past) {
    past.section("7.7 Sections behind the header");
    let bits = last_word(33).into_iter().map(section_with_bit);
    let mut sections: Vec<Vec<u8>> = MODULES.into_iter().map(octets_of).collect();
    sections.extend(bits);
    sections.extend(ERRORS.into_iter().map(octets_of));
    sections.extend(options_and_lengths().into_iter().map(octets_of));
    for section in sections {
        past.fresh();
        past.alive_call(&alive_with(1, &section, &[]));
    }
}

const GOOD: Row = ((33, 2, 5), &[], None);
/// One octet of options less than there is.
const BROKEN: Row = ((33, 2, 5), &[(32, 4, 4)], None);

/// What is laid over the PDU, whose ML and BSIZE are 169.
const LAID: [&[Laid]; 23] = [
    &[],
    &[(4, 4, 168)],
    &[(4, 4, 170)],
    &[(4, 4, 128)],
    &[(56, 1, 2)],
    &[(57, 1, 2)],
    &[(14, 2, 1)],
    &[(90, 1, 0)],
    &[(90, 1, 4)],
    &[(91, 1, 3)],
    &[(105, 1, 2)],
    &[(10, 2, 8)],
    &[(9, 1, 2)],
    &[(40, 2, 60_002)],
    &[(55, 1, 8)],
    &[(54, 1, 2)],
    &[(58, 2, 168)],
    &[(58, 2, 170)],
    &[(58, 2, 128)],
    &[(90, 1, 4), (10, 2, 8)],
    &[(10, 2, 8), (55, 1, 8)],
    &[(20, 4, 0)],
    &[(52, 2, 1)],
];

/// Each with a good section, then with a broken one.
fn two_numbers(past: &mut Past) {
    past.section("7.8 24 and other numbers");
    for laid in LAID {
        for row in [GOOD, BROKEN] {
            past.fresh();
            call(past, 1, row, laid);
        }
    }
}

/// al_tm_out 5.
const FIVE: &[Laid] = &[(84, 4, 5)];
/// Sender 2:9.
const OF_NINE: &[Laid] = &[(9, 1, 2), (10, 2, 9)];

fn every_mode(past: &mut Past) {
    past.section("7.9 Sections in every mode");
    past.clock(500);
    past.alive(1, 7, 1, 60);
    past.clock(600);
    for al_mode in 0..=4 {
        call(past, al_mode, BROKEN, FIVE);
        past.show();
    }
    call(past, 1, GOOD, FIVE);
    past.show();
    call(past, 2, GOOD, FIVE);
    past.show();
    for al_mode in 1..=3 {
        call(past, al_mode, BROKEN, FIVE);
    }
    past.show();
    call(past, 1, ((0, 0, 0), &[(8, 8, 0)], None), FIVE);
    call(past, 1, ((0, 331, 0), &[], None), OF_NINE);
    past.show();
    call(past, 3, ((0, 0, 0), &[], None), FIVE);
    call(past, 3, ((10_592, 0, 0), &[], None), OF_NINE);
    past.show();
}

fn at_the_empty_state(past: &mut Past) {
    past.section("7.10 Sections at the empty state");
    past.setup([0, 0, 15_000, 2, 2, 9]);
    for row in [GOOD, BROKEN] {
        call(past, 1, row, &[]);
        call(past, 4, row, &[]);
    }
    past.show();
}
