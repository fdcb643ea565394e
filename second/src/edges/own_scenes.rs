//! Scenes that a capture cannot show: all senders at once, storage of another
//! length, the cutter, parts, fault sections, kept counts, multicast, and states
//! that no past leaves.

use super::cast_scenes::{
    ages, cast_checks, casts_among_pieces, casts_in_turn, damaged_casts, groups_past_the_count,
    one_number_to_many, other_groups, refused_groups,
};
use super::cutting::cut_with;
use super::fault_scenes::{sections_read, sections_written};
use super::library::Library;
use super::nine::damaged_states;
use super::parts_and_fields::part_call;
use super::table_scenes::{damaged_tables, other_entries};
use crate::cut::{length_of, pieces, HeaderValues};
use crate::dice::Dice;
use crate::header::HEADER;
use crate::numbers::M;
use crate::scenes::{self, Plan};
use crate::stage::Stage;
use crate::state::{OpenMessage, Sender, Setup, AREA, SENDERS_MOST};

/// One of the library's own scenes.
pub type OwnScene = fn(&mut Library);

/// The deck of them. A scene that stands twice is played twice as often.
pub const OWN_SCENES: [OwnScene; 28] = [
    refused_counts,
    all_senders,
    all_senders,
    storage_lengths,
    cutter,
    parts,
    parts,
    sections_read,
    sections_read,
    sections_written,
    sections_written,
    never_looked_at,
    other_count,
    other_held,
    casts_in_turn,
    cast_checks,
    cast_checks,
    ages,
    one_number_to_many,
    casts_among_pieces,
    damaged_casts,
    damaged_casts,
    refused_groups,
    groups_past_the_count,
    other_groups,
    other_entries,
    damaged_tables,
    damaged_states,
];

/// "1 to 16 senders": none, and more.
fn refused_counts(library: &mut Library) {
    let count = library.dice.one_of(&[0, 17, 18, 255]);
    let wanted = Setup {
        mode: 0,
        n1: 16,
        t: 15_000,
        senders: (1..=count).map(|node| (1, node)).collect(),
        groups: library.groups(),
    };
    library.setup(&wanted);
}

// ---- messages of all senders

/// A message of each sender, all pieces in one another's midst.
fn all_senders(library: &mut Library) {
    let mut waiting: Vec<(Plan, Vec<usize>)> = Vec::new();
    for at in 0..library.past.receiver.senders.len() {
        scenes::settle(library, at);
        let next = scenes::following(library, at, 1);
        let next = of_some_size(library, next);
        let order = scenes::order(&mut library.dice, next.pieces());
        waiting.push((next, order));
    }
    while !waiting.is_empty() {
        let any = library.dice.below(waiting.len() as u64) as usize;
        let (plan, order) = &mut waiting[any];
        let piece = order.remove(0);
        scenes::send(library, plan, piece);
        if waiting[any].1.is_empty() {
            waiting.remove(any);
        }
    }
}

/// One piece, several, twelve, or sixty-four now and then.
fn of_some_size(library: &mut Library, plan: Plan) -> Plan {
    let long = |u| Plan {
        n: 16_384,
        u,
        ..plan.clone()
    };
    match library.dice.below(40) {
        0 => long(256),
        1..=4 => long(1_396),
        5..=25 => scenes::several(library, plan),
        _ => scenes::short(library, plan),
    }
}

// ---- storage of another length

/// "11 | message call: storage length wrong": alone, and before other numbers.
fn storage_lengths(library: &mut Library) {
    for _ in 0..4 {
        let mut pdu = scenes::good_or_repeated(library);
        if library.dice.one_in(3) {
            scenes::damage_header(&mut library.dice, &mut pdu);
        }
        let lent = library.wrong_length();
        library.past.message_lent(lent, &pdu);
    }
}

// ---- the cutter

fn cutter(library: &mut Library) {
    for _ in 0..6 {
        let dice = &mut library.dice;
        let mut values = header_values(dice);
        let mut row = good_row(dice);
        for _ in 0..dice.one_of(&[0, 0, 1, 1, 2]) {
            if dice.one_in(2) {
                damage_value(dice, &mut values);
            } else {
                damage_row(dice, &mut row);
            }
        }
        cut_with(&mut library.past, &values, row);
    }
}

fn header_values(dice: &mut Dice) -> HeaderValues {
    let any = dice.throw() as u32;
    HeaderValues {
        field: dice.between(1, 255) as u8,
        node: dice.between(1, 4_095) as u16,
        da: dice.one_of(&[0, any, u32::MAX]),
        version: dice.one_of(&[0, 5, any, u32::MAX]),
        seq: dice.one_of(&[1, 100, any % M + 1, M]),
        m_ctl: dice.one_of(&[0, any, 0x8000_0000]),
        tcd: dice.between(1, 59_999) as u16,
        mode: dice.below(2) as u16,
        pri: dice.below(8) as u8,
    }
}

fn damage_value(dice: &mut Dice, values: &mut HeaderValues) {
    match dice.below(6) {
        0 => values.field = 0,
        1 => values.node = dice.one_of(&[0, 4_096, u16::MAX]),
        2 => values.seq = dice.one_of(&[0, M + 1, u32::MAX]),
        3 => values.tcd = dice.one_of(&[0, 60_000, 60_003, u16::MAX]),
        4 => values.mode = dice.one_of(&[2, 256, u16::MAX]),
        _ => values.pri = dice.one_of(&[8, u8::MAX]),
    }
}

/// n, u, piece and the buffer's length, all within the limits.
fn good_row(dice: &mut Dice) -> [usize; 4] {
    let (any_n, any_u) = (dice.below(16_385), dice.between(256, 1_396));
    let n = dice.one_of(&[0, 1, 256, 1_396, 1_397, 4_500, 16_384, any_n, any_n]) as usize;
    let u = dice.one_of(&[256, 257, 1_332, 1_396, any_u, any_u]) as usize;
    let last = pieces(n, u);
    let any = dice.between(1, last as u64) as usize;
    let piece = dice.one_of(&[1, any, any, last]);
    let least = HEADER + length_of(piece, n, u);
    let any = dice.between(least as u64, 1_473) as usize;
    [n, u, piece, dice.one_of(&[least, least, any, 1_473])]
}

fn damage_row(dice: &mut Dice, row: &mut [usize; 4]) {
    let [n, u, piece, buffer] = row;
    match dice.below(4) {
        0 => *n = dice.one_of(&[16_385, 20_000]),
        1 => *u = dice.one_of(&[0, 255, 1_397, 65_535]),
        2 => *piece = dice.one_of(&[0, *piece + 1, 65, 255]),
        _ => *buffer = dice.one_of(&[0, 63, 64, (*buffer).saturating_sub(1)]),
    }
}

// ---- the part that is handed over

/// Slices that fit, and others.
fn parts(library: &mut Library) {
    for _ in 0..4 {
        let lent = library.storage();
        let dice = &mut library.dice;
        let kind = dice.one_of(&[0, 1, 2, 2, 2, 2]);
        let packet = dice.one_of(&[0, 63, 64, 65, 74]);
        let (start, length) = match kind {
            2 => a_slice(dice, lent as u64),
            _ => (0, 0),
        };
        part_call(&mut library.past, (kind, start, length, packet, lent));
    }
}

/// Start and length of a slice that ends in the storage, at its end, or behind it.
fn a_slice(dice: &mut Dice, lent: u64) -> (u64, u64) {
    let area = AREA as u64 * dice.below(lent / AREA as u64);
    let any = dice.below(lent + 1);
    let start = dice.one_of(&[area, area, any, lent, lent + 1, u64::MAX]);
    let rest = lent.saturating_sub(start);
    let within = dice.below(rest + 1);
    let length = dice.one_of(&[within, within, 0, rest, rest + 1, u64::MAX]);
    (start, length)
}

// ---- states within their limits that no past leaves

/// 01: "The record of a message not open, the stamp and al_tm_out of a sender not
/// alive, and places past the senders are written 0 and never looked at." Here
/// they hold anything.
fn never_looked_at(library: &mut Library) {
    let at = scenes::any_sender(library);
    let mut state = library.past.receiver.clone();
    let dice = &mut library.dice;
    let sender = &mut state.senders[at];
    if !sender.open {
        sender.message = any_record(dice);
    }
    if !sender.alive {
        (sender.alive_stamp, sender.al_tm_out) = (dice.throw(), dice.throw() as u32);
    }
    library.past.damage_to(state);
    library.past.show();
    library.past.held(at as u8);
    let next = scenes::following(library, at, 1);
    let next = scenes::short(library, next);
    match library.dice.below(3) {
        0 => scenes::send(library, &next, 1),
        1 => scenes::hear(library, at, 1, 60),
        _ => scenes::tick(library, 1),
    }
    library.past.show();
    library.past.ask();
}

fn any_record(dice: &mut Dice) -> OpenMessage {
    OpenMessage {
        version: dice.one_of(&[0, 5, u32::MAX]),
        seq: dice.throw() as u32,
        tcd: dice.throw() as u16,
        n: dice.throw() as u16,
        tbn: dice.throw() as u8,
        u: dice.throw() as u16,
        map: dice.one_of(&[0, 1, u64::MAX]),
        held: dice.throw() as u8,
        stamp: dice.throw(),
    }
}

/// Fewer senders, so that what the others left stands past them, or one more.
fn other_count(library: &mut Library) {
    let mut state = library.past.receiver.clone();
    let count = state.senders.len();
    let free = (1..=4_095).find(|node| state.place_of(3, *node).is_none());
    match free {
        Some(node) if count < SENDERS_MOST && library.dice.one_in(2) => {
            state.senders.push(Sender {
                field: 3,
                node,
                ..Sender::default()
            })
        }
        _ => state
            .senders
            .truncate(library.dice.between(1, count as u64) as usize),
    }
    library.past.damage_to(state);
    library.past.show();
    // At the last sender, at those that stood behind it, and past all.
    let left = library.past.receiver.senders.len();
    for place in left - 1..=count.max(left) {
        library.past.held(place as u8);
    }
    all_senders(library);
}

// ---- kept counts

/// The number kept is told as it stands, whatever the map says: none, the right
/// one, any, as many as there can be, and as many as an octet can say.
fn other_held(library: &mut Library) {
    let (at, _, _) = scenes::open_one(library, 1);
    let before = library.past.receiver.clone();
    let right = before.senders[at].message.held;
    let any = library.dice.throw() as u8;
    for held in [0, right, any, 64, 255] {
        let mut state = before.clone();
        state.senders[at].message.held = held;
        library.past.damage_to(state);
        library.past.held(at as u8);
        library.held_somewhere();
    }
    library.past.damage_to(before);
}
