//! Section 10: the cutter.

use super::calls;
use super::past::{joined, sum, Past, FILL};
use super::pdu;
use crate::answers::STORED;
use crate::cut::{cut_piece, pieces, CutAnswer, HeaderValues};
use crate::header::HEADER;

pub fn sections(past: &mut Past) {
    each_pdu(past);
    limits_of_the_cut(past);
    header_values(past);
}

/// "the header's values are these nine".
const NINE: HeaderValues = HeaderValues {
    field: 1,
    node: 7,
    da: 65_537,
    version: 5,
    seq: 100,
    m_ctl: 2_147_483_648,
    tcd: 1,
    mode: 0,
    pri: 0,
};

/// n, u, piece, buffer.
pub type Row = [usize; 4];

/// "cut(n, u, piece, buffer)", with these header values. The message's octets
/// are always those of SEQ 100. "The buffer has buffer octets, each of them 170
/// before the call."
pub fn cut_with(past: &mut Past, values: &HeaderValues, [n, u, piece, length]: Row) {
    let message = pdu::message(0..n, 100);
    let mut buffer = vec![FILL; length];
    let answer = cut_piece(values, &message, u, piece, &mut buffer);
    let contents = calls::cut(values, &message, u, piece, length);
    past.made('K', &contents, &lines_of(answer, &buffer));
}

/// "K number length pdu-sum rest-sum" and, "behind a K line with number 0: the
/// first 64 octets of the buffer".
fn lines_of(answer: CutAnswer, buffer: &[u8]) -> String {
    let (pdu, rest) = buffer.split_at(answer.length);
    let (number, length) = (answer.number, answer.length);
    let line = format!("K {number} {length} {} {}", sum(pdu), sum(rest));
    match number {
        STORED => format!("{line}\nk {}", joined(&buffer[..HEADER])),
        _ => line,
    }
}

/// n, u.
const MESSAGES: [(usize, usize); 13] = [
    (0, 256),
    (1, 256),
    (255, 256),
    (256, 256),
    (257, 256),
    (512, 256),
    (513, 256),
    (1_396, 1_396),
    (1_397, 1_396),
    (4_500, 1_332),
    (4_500, 1_396),
    (16_384, 1_396),
    (16_384, 256),
];

/// "for piece = 0, 1, ..., TBN + 1": the first and the last are refused.
fn each_pdu(past: &mut Past) {
    past.section("10.1 Each PDU");
    for (n, u) in MESSAGES {
        for piece in 0..=pieces(n, u) + 1 {
            cut_with(past, &NINE, [n, u, piece, 1_473]);
        }
    }
}

const LIMITS: [Row; 37] = [
    [16_384, 1_396, 12, 1_473],
    [16_385, 1_396, 12, 1_473],
    [16_385, 1_396, 1, 1_473],
    [20_000, 1_396, 1, 1_473],
    [10, 0, 1, 1_473],
    [10, 255, 1, 1_473],
    [10, 256, 1, 1_473],
    [10, 1_396, 1, 1_473],
    [10, 1_397, 1, 1_473],
    [10, 65_535, 1, 1_473],
    [4_500, 255, 1, 1_473],
    [4_500, 1_397, 1, 1_473],
    [4_500, 0, 1, 1_473],
    [10, 256, 0, 1_473],
    [10, 256, 2, 1_473],
    [4_500, 1_332, 4, 1_473],
    [4_500, 1_332, 5, 1_473],
    [4_500, 1_332, 255, 1_473],
    [16_384, 256, 64, 1_473],
    [16_384, 256, 65, 1_473],
    [0, 256, 1, 63],
    [0, 256, 1, 64],
    [0, 256, 1, 65],
    [10, 256, 1, 0],
    [10, 256, 1, 64],
    [10, 256, 1, 73],
    [10, 256, 1, 74],
    [10, 256, 1, 75],
    [4_500, 1_332, 1, 1_395],
    [4_500, 1_332, 1, 1_396],
    [4_500, 1_332, 1, 1_397],
    [4_500, 1_332, 4, 567],
    [4_500, 1_332, 4, 568],
    [4_500, 1_332, 4, 569],
    [16_384, 1_396, 1, 1_459],
    [16_384, 1_396, 1, 1_460],
    [16_384, 1_396, 1, 1_461],
];

fn limits_of_the_cut(past: &mut Past) {
    past.section("10.2 Limits of the cut");
    for row in LIMITS {
        cut_with(past, &NINE, row);
    }
}

/// 305419896 is octets 18, 52, 86, 120: each place of a number differs.
const WIDE: [u32; 4] = [0, 1, 4_294_967_295, 305_419_896];
const NODES: [u32; 7] = [0, 1, 255, 256, 4_095, 4_096, 65_535];
const SEQS: [u32; 6] = [
    0,
    1,
    2_147_483_647,
    2_147_483_648,
    4_294_967_295,
    305_419_896,
];
const CODES: [u32; 8] = [0, 1, 4_660, 59_999, 60_000, 60_003, 65_534, 65_535];

fn header_values(past: &mut Past) {
    past.section("10.3 Header values");
    each_value(past, &[0, 1, 255], |nine, value| nine.field = value as u8);
    each_value(past, &NODES, |nine, value| nine.node = value as u16);
    each_value(past, &WIDE, |nine, value| nine.da = value);
    each_value(past, &WIDE, |nine, value| nine.version = value);
    each_value(past, &SEQS, |nine, value| nine.seq = value);
    each_value(past, &WIDE, |nine, value| nine.m_ctl = value);
    each_value(past, &CODES, |nine, value| nine.tcd = value as u16);
    each_value(past, &[0, 1, 2, 256, 65_535], |nine, value| {
        nine.mode = value as u16
    });
    each_value(past, &[0, 1, 7, 8, 255], |nine, value| {
        nine.pri = value as u8
    });
}

/// "cut(10, 256, 1, 128) with one of the nine values changed."
fn each_value(past: &mut Past, values: &[u32], change: fn(&mut HeaderValues, u32)) {
    for value in values {
        let mut changed = NINE;
        change(&mut changed, *value);
        cut_with(past, &changed, [10, 256, 1, 128]);
    }
}
