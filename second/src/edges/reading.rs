//! Section 13, reading: whole sections, bits, errors, options.

use super::fault_calls::{error_call, module_call, options_call, read_call};
use super::past::Past;
use super::section::{last_words, octets_of, section_with_bit, Row};
use super::section_rows::{options_and_lengths, ERRORS, MODULES};

pub fn sections(past: &mut Past) {
    read_rows(past, "13.1 Modules of a section", &MODULES);
    bits_of_the_last_word(past);
    read_rows(past, "13.3 Errors of a section", &ERRORS);
    let rows = options_and_lengths();
    read_rows(past, "13.4 Options and lengths of a section", &rows);
    modules_in_turn(past);
    modules_of_any_octets(past);
    errors_by_index(past);
    the_options(past);
}

fn read_rows(past: &mut Past, title: &str, rows: &[Row]) {
    past.section(title);
    for row in rows {
        read_call(past, &octets_of(*row));
    }
}

/// Whole octets of bits that are above or within the count.
const WHOLE_OCTETS: [Row; 6] = [
    ((32, 0, 0), &[(4, 4, 4_294_967_295)], None),
    ((31, 0, 0), &[(4, 4, 4_294_967_295)], None),
    ((31, 0, 0), &[(4, 4, 4_294_967_167)], None),
    ((33, 2, 5), &[(4, 8, 18_446_744_069_431_361_536)], None),
    ((33, 2, 5), &[(9, 1, 255)], None),
    ((33, 2, 5), &[(11, 1, 128)], None),
];

fn bits_of_the_last_word(past: &mut Past) {
    past.section("13.2 Bits of the last word");
    for bit in last_words() {
        read_call(past, &section_with_bit(bit));
    }
    for row in WHOLE_OCTETS {
        read_call(past, &octets_of(row));
    }
}

const COUNTS: [u32; 10] = [0, 1, 7, 8, 9, 31, 32, 33, 64, 65];

/// "X = 0, 1, ..., m + 1 and 4294967295".
fn modules_in_turn(past: &mut Past) {
    past.section("13.5 Modules in turn");
    for m in COUNTS {
        let octets = octets_of(((m, 0, 0), &[], None));
        for module in (0..=m + 1).chain([u32::MAX]) {
            module_call(past, module, &octets);
        }
    }
}

/// A section or not, and the numbers that are asked for in it.
type Asked = (Row, &'static [u32]);

const ALL_SET: Row = ((1, 0, 0), &[(4, 4, 4_294_967_295)], None);
const ALL_255: Row = (
    (0, 0, 1),
    &[
        (0, 8, 18_446_744_073_709_551_615),
        (8, 8, 18_446_744_073_709_551_615),
        (16, 4, 4_294_967_295),
    ],
    Some(20),
);

const ANY_MODULES: [Asked; 9] = [
    (((10_592, 0, 0), &[], None), &[1, 10_591, 10_592, 10_593]),
    (ALL_SET, &[0, 1, 2, 8, 9, 32, 33]),
    (((8, 0, 0), &[], Some(0)), &[0, 1]),
    (((256, 0, 0), &[], Some(3)), &[1]),
    (((8, 0, 0), &[], Some(4)), &[1]),
    (((9, 0, 0), &[], Some(5)), &[1, 7, 8, 9]),
    (((33, 2, 5), &[(0, 4, 97)], None), &[96, 97, 98]),
    (
        ALL_255,
        &[0, 1, 120, 121, 128, 129, 2_147_483_648, 4_294_967_295],
    ),
    (((10_593, 0, 0), &[], None), &[10_591, 10_592, 10_593]),
];

/// "B [...] judge nothing": octets that are no section.
fn modules_of_any_octets(past: &mut Past) {
    past.section("13.6 Modules of any octets");
    for (row, modules) in ANY_MODULES {
        for module in modules {
            module_call(past, *module, &octets_of(row));
        }
    }
}

const ANY_ERRORS: [Asked; 15] = [
    (((0, 0, 0), &[], None), &[0, 1, 4_294_967_295]),
    (((0, 1, 0), &[], None), &[0, 1, 4_294_967_295]),
    (((33, 3, 5), &[], None), &[0, 1, 2, 3, 4_294_967_295]),
    (((0, 331, 0), &[], None), &[0, 330, 331]),
    (((65, 2, 0), &[], None), &[0, 1, 2]),
    (((0, 3, 0), &[(16, 4, 4_294_967_295)], None), &[0, 1]),
    (((0, 3, 0), &[(20, 2, 0)], None), &[1]),
    (((0, 2, 7), &[(4, 4, 3)], None), &[2, 3]),
    (((0, 2, 0), &[], Some(23)), &[0, 1]),
    (((0, 2, 0), &[], Some(21)), &[0, 1]),
    (((0, 2, 0), &[], Some(20)), &[0, 1]),
    (((0, 256, 0), &[], Some(7)), &[0]),
    (
        ((0, 1, 0), &[(4, 4, 4_294_967_295)], None),
        &[0, 1, 2, 1_073_741_824, 4_294_967_294, 4_294_967_295],
    ),
    (((0, 1, 0), &[(0, 4, 4_294_967_265)], None), &[0]),
    (((0, 332, 0), &[], None), &[331, 332]),
];

fn errors_by_index(past: &mut Past) {
    past.section("13.7 Errors by their index");
    for (row, indices) in ANY_ERRORS {
        for index in indices {
            error_call(past, *index, &octets_of(row));
        }
    }
}

const ANY_OPTIONS: [Row; 21] = [
    ((0, 0, 0), &[], None),
    ((0, 0, 1), &[], None),
    ((33, 2, 5), &[], None),
    ((0, 331, 0), &[], None),
    ((0, 0, 1_324), &[], None),
    ((0, 0, 1_325), &[], None),
    ((33, 2, 5), &[], Some(40)),
    ((33, 2, 5), &[], Some(37)),
    ((33, 2, 5), &[], Some(36)),
    ((33, 2, 5), &[], Some(35)),
    ((33, 2, 5), &[], Some(43)),
    ((33, 2, 5), &[(32, 4, 4)], None),
    ((33, 2, 5), &[(32, 4, 6)], None),
    ((33, 2, 5), &[(32, 4, 4_294_967_295)], None),
    ((0, 0, 5), &[(4, 4, 1)], None),
    ((0, 0, 5), &[(4, 4, 1_073_741_824)], None),
    ((0, 0, 5), &[(4, 4, 4_294_967_295)], None),
    ((0, 0, 5), &[(0, 4, 4_294_967_265)], None),
    ((0, 0, 256), &[], Some(19)),
    ((0, 0, 0), &[], Some(0)),
    ALL_255,
];

fn the_options(past: &mut Past) {
    past.section("13.8 Options of any octets");
    for row in ANY_OPTIONS {
        options_call(past, &octets_of(row));
    }
}
