//! Section 13, writing: buffers, totals above 1,344, bits and errors that break
//! the rules.

use super::fault_calls::{write_call, BUFFER_MOST};
use super::past::Past;
use super::section::{bits, l, last_words, numbers, one_bit, options, NAME};
use crate::fault::Parts;

pub fn sections(past: &mut Past) {
    what_is_written(past);
    above_the_total(past);
    bits_given(past);
    bits_of_the_last_word(past);
    errors_given(past);
}

/// "write(buffer, m, b, w, o)": buffer, module count, octets of bits, 16-bit
/// numbers, octets of options.
pub struct Given {
    modules: u32,
    bits: Vec<u8>,
    numbers: Vec<u16>,
    name: [u8; 8],
    options: Vec<u8>,
}

impl Given {
    fn of(m: u32, b: usize, w: usize, o: usize) -> Given {
        Given {
            modules: m,
            bits: bits(m, b),
            numbers: numbers(w),
            name: NAME,
            options: options(o),
        }
    }

    fn write(&self, past: &mut Past, buffer: usize) {
        let parts = Parts {
            modules: self.modules,
            bits: &self.bits,
            errors: &self.numbers,
            name: self.name,
            options: &self.options,
        };
        write_call(past, &parts, buffer);
    }
}

/// m, w, o.
const GOOD: [(u32, usize, usize); 22] = [
    (0, 0, 0),
    (1, 0, 0),
    (7, 0, 0),
    (8, 0, 0),
    (9, 0, 0),
    (31, 0, 0),
    (32, 0, 0),
    (33, 0, 0),
    (64, 0, 0),
    (65, 0, 0),
    (33, 4, 5),
    (0, 2, 0),
    (0, 662, 0),
    (0, 0, 1),
    (0, 0, 1_323),
    (0, 0, 1_324),
    (10_592, 0, 0),
    (10_560, 2, 0),
    (10_560, 0, 3),
    (10_528, 2, 4),
    (1, 660, 0),
    (0, 660, 4),
];

/// "a buffer one short, exact, one long, and of 4,096 octets".
fn what_is_written(past: &mut Past) {
    past.section("13.9 What is written");
    for (m, w, o) in GOOD {
        let given = Given::of(m, l(m), w, o);
        let needed = 20 + l(m) + 2 * w + o;
        for buffer in [needed - 1, needed, needed + 1, BUFFER_MOST] {
            given.write(past, buffer);
        }
    }
    for name in [[0; 8], [255; 8], [1, 2, 3, 4, 5, 6, 7, 8]] {
        let given = Given::of(0, 0, 0, 0);
        Given { name, ..given }.write(past, 20);
    }
}

/// buffer, m, b, w, o.
type Row = (usize, u32, usize, usize, usize);

fn write_rows(past: &mut Past, rows: &[Row]) {
    for (buffer, m, b, w, o) in rows {
        Given::of(*m, *b, *w, *o).write(past, *buffer);
    }
}

const ABOVE: [Row; 41] = [
    (1_344, 10_593, 1_328, 0, 0),
    (1_347, 10_593, 1_328, 0, 0),
    (1_348, 10_593, 1_328, 0, 0),
    (4_096, 10_593, 1_328, 0, 0),
    (1_344, 10_561, 1_324, 2, 0),
    (1_348, 10_561, 1_324, 2, 0),
    (1_344, 10_560, 1_320, 0, 5),
    (1_345, 10_560, 1_320, 0, 5),
    (1_347, 0, 0, 664, 0),
    (1_348, 0, 0, 664, 0),
    (1_344, 0, 0, 0, 1_325),
    (1_345, 0, 0, 0, 1_325),
    (1_346, 0, 0, 0, 1_325),
    (1_344, 0, 0, 662, 1),
    (1_345, 0, 0, 662, 1),
    (1_347, 1, 4, 662, 0),
    (1_348, 1, 4, 662, 0),
    (4_095, 32_608, 4_076, 0, 0),
    (4_096, 32_608, 4_076, 0, 0),
    (4_096, 32_609, 4_080, 0, 0),
    (4_096, 0, 0, 2_038, 0),
    (4_096, 0, 0, 2_040, 0),
    (4_096, 0, 0, 0, 4_076),
    (4_096, 0, 0, 0, 4_077),
    (4_096, 0, 0, 0, 60_000),
    (4_096, 0, 0, 30_000, 0),
    (4_096, 0, 0, 32_750, 0),
    (20, 65_536, 0, 0, 0),
    (4_096, 65_536, 0, 0, 0),
    (20, 4_294_967_264, 0, 0, 0),
    (20, 4_294_967_265, 0, 0, 0),
    (20, 4_294_967_295, 0, 0, 0),
    (4_096, 4_294_967_264, 0, 0, 0),
    (4_096, 4_294_967_265, 0, 0, 0),
    (4_096, 4_294_967_295, 0, 0, 0),
    (4_096, 4_294_967_295, 4, 0, 0),
    (4_096, 4_294_967_295, 1_324, 0, 0),
    (4_096, 2_147_483_648, 0, 0, 0),
    (0, 0, 0, 0, 0),
    (0, 4_294_967_295, 0, 1, 0),
    (1_344, 0, 0, 0, 1_324),
];

fn above_the_total(past: &mut Past) {
    past.section("13.10 Totals above 1,344");
    write_rows(past, &ABOVE);
}

const BITS: [Row; 26] = [
    (28, 33, 8, 0, 0),
    (28, 33, 7, 0, 0),
    (28, 33, 9, 0, 0),
    (28, 33, 4, 0, 0),
    (28, 33, 12, 0, 0),
    (28, 33, 0, 0, 0),
    (27, 33, 7, 0, 0),
    (27, 33, 0, 0, 0),
    (4_096, 33, 7, 0, 0),
    (4_096, 33, 9, 0, 0),
    (20, 0, 1, 0, 0),
    (20, 0, 4, 0, 0),
    (19, 0, 1, 0, 0),
    (4_096, 0, 1, 0, 0),
    (24, 1, 0, 0, 0),
    (24, 1, 1, 0, 0),
    (24, 1, 3, 0, 0),
    (24, 1, 5, 0, 0),
    (24, 1, 8, 0, 0),
    (23, 1, 3, 0, 0),
    (20, 1, 0, 0, 0),
    (24, 32, 3, 0, 0),
    (24, 32, 4, 0, 0),
    (24, 32, 8, 0, 0),
    (1_344, 10_592, 1_323, 0, 0),
    (1_344, 10_592, 1_325, 0, 0),
];

fn bits_given(past: &mut Past) {
    past.section("13.11 Octets of bits");
    write_rows(past, &BITS);
}

/// "all its bits 0 but bit p": in a buffer as long as needed; then those whose bit
/// is above the count once more, in one that is short.
fn bits_of_the_last_word(past: &mut Past) {
    past.section("13.12 Bits of the last word");
    for (m, place) in last_words() {
        let given = Given {
            bits: one_bit(m, place),
            ..Given::of(m, 0, 0, 0)
        };
        given.write(past, 20 + l(m));
    }
    for (m, place) in [(1, 1), (33, 63), (65, 72)] {
        let given = Given {
            bits: one_bit(m, place),
            ..Given::of(m, 0, 0, 0)
        };
        given.write(past, 20 + l(m) - 1);
    }
}

/// w, the place of the number that is changed, and what it becomes.
const CHANGED: [(usize, usize, u16); 15] = [
    (2, 0, 0),
    (2, 0, 65_535),
    (2, 1, 0),
    (2, 1, 65_535),
    (6, 0, 0),
    (6, 2, 0),
    (6, 4, 0),
    (6, 1, 0),
    (6, 3, 0),
    (6, 5, 0),
    (6, 4, 65_535),
    (5, 4, 0),
    (662, 0, 0),
    (662, 330, 0),
    (662, 660, 0),
];

/// "w = 0, 1, ..., 6, each in a buffer as long as needed and in one that is one
/// short"; then the changed ones likewise.
fn errors_given(past: &mut Past) {
    past.section("13.13 Numbers of errors");
    for w in [0, 1, 2, 3, 4, 5, 6, 661, 663] {
        for buffer in [20 + 2 * w, 19 + 2 * w] {
            Given::of(0, 0, w, 0).write(past, buffer);
        }
    }
    for (w, place, value) in CHANGED {
        let mut given = Given::of(0, 0, w, 0);
        given.numbers[place] = value;
        for buffer in [20 + 2 * w, 19 + 2 * w] {
            given.write(past, buffer);
        }
    }
    let beyond = Given {
        numbers: vec![6, 1, 65_535, 2],
        ..Given::of(5, 4, 0, 3)
    };
    beyond.write(past, 35);
}
