//! Sections 11 and 12: the part that is handed over, and a field cut off the
//! front of some octets.

use super::calls;
use super::past::{sum, Past};
use super::pdu;
use crate::fields::{next_field, Next};
use crate::receiver::{part, Where};

pub fn sections(past: &mut Past) {
    slices_that_do_not_fit(past);
    cut_at_each_place(past);
    tags_and_lengths(past);
}

/// kind, start, length, packet, storage.
pub type Row = (u8, u64, u64, usize, usize);

const PARTS: [Row; 24] = [
    (0, 0, 0, 74, 32_768),
    (0, 0, 0, 0, 0),
    (1, 0, 0, 74, 32_768),
    (1, 0, 0, 74, 0),
    (1, 0, 0, 65, 0),
    (1, 0, 0, 64, 0),
    (1, 0, 0, 63, 0),
    (1, 0, 0, 0, 0),
    (2, 16_384, 600, 74, 32_768),
    (2, 16_384, 600, 0, 32_768),
    (2, 16_384, 600, 0, 16_984),
    (2, 16_384, 600, 0, 16_983),
    (2, 16_384, 0, 0, 16_384),
    (2, 16_384, 0, 0, 16_383),
    (2, 0, 32_768, 0, 32_768),
    (2, 0, 32_769, 0, 32_768),
    (2, 1, 32_768, 0, 32_768),
    (2, 32_768, 0, 0, 32_768),
    (2, 32_769, 0, 0, 32_768),
    (2, 0, 0, 0, 0),
    (2, 0, 1, 0, 0),
    (2, u64::MAX, 1, 0, 32_768),
    (2, 1, u64::MAX, 0, 32_768),
    (2, u64::MAX, u64::MAX, 0, 32_768),
];

/// "First, each row piece, so that the second sender's area holds a message and
/// the first's the fill".
fn slices_that_do_not_fit(past: &mut Past) {
    past.section("11.1 Slices that do not fit");
    for c in 1..=3 {
        past.piece([2, 9, 5, 100, 1, 600, 256, c]);
    }
    for row in PARTS {
        part_call(past, row);
    }
}

/// "R length sum".
pub fn part_call(past: &mut Past, (kind, start, length, packet, lent): Row) {
    let packet = &pdu::number(5, 100)[..packet];
    let handed = part(place_of(kind, start, length), packet, &past.storage[..lent]);
    let line = format!("R {} {}", handed.len(), sum(handed));
    past.made('R', &calls::part(kind, start, length, packet, lent), &line);
}

/// "lies nowhere (kind 0), in the packet (1), or in the storage from octet start
/// on with length octets (2 [...])".
fn place_of(kind: u8, start: u64, length: u64) -> Where {
    match kind {
        0 => Where::Nothing,
        1 => Where::Packet,
        _ => Where::Storage {
            start: octets_of(start),
            length: octets_of(length),
        },
    }
}

/// No slice has more octets than a usize can tell, so the largest stands for all
/// above it.
fn octets_of(number: u64) -> usize {
    usize::try_from(number).unwrap_or(usize::MAX)
}

/// "F next tag length sum": "of a whole one its tag, the length of its contents
/// and their sum, otherwise 0 0 7".
fn field_call(past: &mut Past, octets: &[u8]) {
    let line = match next_field(octets) {
        Next::End => "F 0 0 0 7".into(),
        Next::Cut => "F 1 0 0 7".into(),
        Next::Bad => "F 2 0 0 7".into(),
        Next::One { tag, contents, .. } => {
            format!("F 3 {tag} {} {}", contents.len(), sum(contents))
        }
    };
    past.made('F', octets, &line);
}

/// "A field with tag t and length l has contents octet i = (17 x i + t) mod
/// 256."
fn field_octets(tag: u8, length: u16) -> Vec<u8> {
    let contents = (0..usize::from(length)).map(|i| ((17 * i + usize::from(tag)) % 256) as u8);
    let mut octets = vec![tag];
    octets.extend(length.to_be_bytes());
    octets.extend(contents);
    octets
}

/// tag, length.
const CUT: [(u8, u16); 6] = [(1, 10), (1, 19), (2, 0), (2, 5), (3, 8), (4, 3)];

/// "up to all of its octets and two more (octet 1 each) behind it".
fn cut_at_each_place(past: &mut Past) {
    past.section("12.1 Cut at each place");
    for (tag, length) in CUT {
        let octets = [field_octets(tag, length), vec![1, 1]].concat();
        for k in 0..=octets.len() {
            field_call(past, &octets[..k]);
        }
    }
}

/// tag, lengths.
const LENGTHS: [(u8, &[u16]); 7] = [
    (0, &[0, 10]),
    (
        1,
        &[0, 7, 9, 10, 11, 12, 13, 14, 15, 16, 17, 18, 19, 20, 22, 266],
    ),
    (2, &[0, 1, 63, 64, 1_460, 1_461, 2_560, 65_000]),
    (3, &[0, 7, 8, 9, 264]),
    (4, &[0, 1, 127, 128, 1_472, 1_473, 65_000]),
    (5, &[0, 8]),
    (255, &[0, 10]),
];

/// "first with all contents and nothing behind them, then without any contents
/// (the 3 octets alone)".
fn tags_and_lengths(past: &mut Past) {
    past.section("12.2 Tags and lengths");
    for (tag, lengths) in LENGTHS {
        for length in lengths {
            let octets = field_octets(tag, *length);
            field_call(past, &octets);
            field_call(past, &octets[..3]);
        }
    }
}
