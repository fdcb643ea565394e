//! Random multicast calls with tables that 26 refuses, and with such as no past
//! leaves. Titles name 26's reason, so that the lines under them can be held to it:
//!
//! - under "26 alone: REASON" a multicast call gives 26;
//! - under "26 and NUMBER: REASON" stand two lines of the same call, NUMBER before
//!   the damage and 26 after it;
//! - under "26 mended: REASON" the call of "26 alone" gives 1, without the damage.

use super::cast_scenes::{self, set_up_until, Cast, Spot};
use super::library::Library;
use super::past::TABLE;
use crate::dice::Dice;
use crate::header;
use crate::multicast::{entries, multicast, Tables};
use crate::numbers::M;
use crate::scenes::{self, put};
use crate::stage::Stage;
use crate::state::Setup;

/// What is lent, if not the right sizes, and an entry that is put in.
struct Damage {
    lent: [usize; 2],
    entry: Option<(usize, u32, u32)>,
}

/// One of 26's reasons: its name, and a damage that meets it alone.
struct Reason {
    name: &'static str,
    damage: fn(&mut Library) -> Damage,
}

/// 02: "26 a lent table of the wrong size, a SEQ above M, or 0 under a version not
/// 0".
const REASONS: [Reason; 4] = [
    Reason {
        name: "versions table",
        damage: |library| {
            let right = right_size(library);
            lent([wrong_size(library), right])
        },
    },
    Reason {
        name: "SEQ table",
        damage: |library| {
            let right = right_size(library);
            lent([right, wrong_size(library)])
        },
    },
    Reason {
        name: "SEQ above M",
        damage: |library| {
            let above = library.dice.between(u64::from(M) + 1, u32::MAX.into()) as u32;
            let number = library.dice.one_of(&[M + 1, above, u32::MAX]);
            let version = a_version(&mut library.dice, &[0, 5]);
            with_entry(library, version, number)
        },
    },
    Reason {
        name: "SEQ 0 under a version not 0",
        damage: |library| {
            let version = a_version(&mut library.dice, &[1, 5]);
            with_entry(library, version.max(1), 0)
        },
    },
];

/// One of these, the largest, or any.
fn a_version(dice: &mut Dice, some: &[u32; 2]) -> u32 {
    let any = dice.throw() as u32;
    dice.one_of(&[some[0], some[1], u32::MAX, any])
}

fn right_size(library: &Library) -> usize {
    entries(&library.past.receiver)
}

/// One less, one more, none, twice as many, other products, all, or any.
pub fn wrong_size(library: &mut Library) -> usize {
    let right = right_size(library);
    let senders = library.past.receiver.senders.len();
    let groups = usize::from(library.past.receiver.groups.count);
    let any = library.dice.below(TABLE as u64 + 1) as usize;
    let sizes = [
        right.saturating_sub(1),
        right + 1,
        0,
        2 * right,
        senders * 8,
        groups * 8,
        senders * groups,
        TABLE,
        any,
    ];
    let wrong: Vec<usize> = sizes
        .into_iter()
        .filter(|size| *size != right && *size <= TABLE)
        .collect();
    library.dice.one_of(&wrong)
}

fn lent(lent: [usize; 2]) -> Damage {
    Damage { lent, entry: None }
}

/// In the first entry, the last one, or any.
fn with_entry(library: &mut Library, version: u32, number: u32) -> Damage {
    let right = right_size(library);
    let any = library.dice.below(right as u64) as usize;
    let place = library.dice.one_of(&[0, right - 1, any, any]);
    Damage {
        lent: [right, right],
        entry: Some((place, version, number)),
    }
}

/// The numbers that can be given beside 26.
const OTHERS: [u8; 7] = [12, 13, 14, 15, 16, 17, 25];

/// Each reason once, in random order.
pub fn damaged_tables(library: &mut Library) {
    let mut order: Vec<&Reason> = REASONS.iter().collect();
    library.dice.shuffle(&mut order);
    let mut numbers = OTHERS;
    library.dice.shuffle(&mut numbers);
    let mut numbers = numbers.into_iter().cycle();
    for reason in order {
        let others: Vec<u8> = numbers.by_ref().take(2).collect();
        let (spot, good) = a_good_cast(library, others.contains(&15));
        for number in others {
            together(library, reason, &good, number);
        }
        alone(library, reason, spot, &good);
    }
}

/// The next message of an entry whose version is not 0; at an online node, if 15 is
/// wanted of it.
fn a_good_cast(library: &mut Library, online: bool) -> (Spot, Cast) {
    set_up_until(library, |state| {
        state.groups.count > 0 && !(online && state.test)
    });
    let sender = scenes::any_sender(library);
    let spot = cast_scenes::spot_of(library, sender);
    cast_scenes::settle(library, spot);
    (spot, cast_scenes::following(library, spot, 1))
}

/// Makes a call with the damage, and mends the entry.
fn damaged(library: &mut Library, damage: &Damage, group: u8, packet: &[u8]) {
    let Some((place, version, number)) = damage.entry else {
        return library.past.multicast_lent(damage.lent, group, packet);
    };
    let past = &mut library.past;
    let before = (past.versions[place], past.numbers[place]);
    past.entry(place, version, number);
    past.multicast_lent(damage.lent, group, packet);
    past.entry(place, before.0, before.1);
}

/// The good call, to any entry and to the damaged one; and once it is mended, by the
/// entry or by a setup, which clears the tables.
fn alone(library: &mut Library, reason: &Reason, spot: Spot, good: &Cast) {
    library.past.title(&format!("26 alone: {}", reason.name));
    let mut damage = (reason.damage)(library);
    let own = spot.place(library);
    if let Some((place, _, _)) = &mut damage.entry {
        *place = library.dice.one_of(&[*place, *place, own]);
    }
    let packet = good.pdu();
    damaged(library, &damage, good.group, &packet);
    library.past.title(&format!("26 mended: {}", reason.name));
    if library.dice.one_in(3) {
        the_same_setup(library);
    }
    library.past.multicast(good.group, &packet);
    library.past.tables();
}

/// A setup with the settings, senders and groups of the state in use.
fn the_same_setup(library: &mut Library) {
    let state = &library.past.receiver;
    let wanted = Setup {
        mode: state.test.into(),
        n1: state.n1,
        t: state.t,
        senders: state
            .senders
            .iter()
            .map(|sender| (sender.field, sender.node))
            .collect(),
        groups: state.groups,
    };
    library.setup(&wanted);
}

/// A call that is refused with right tables too.
fn together(library: &mut Library, reason: &Reason, good: &Cast, number: u8) {
    let (group, packet) = refused_with(library, good, number);
    let title = format!("26 and {number}: {}", reason.name);
    library.past.title(&title);
    library.past.multicast(group, &packet);
    let damage = (reason.damage)(library);
    damaged(library, &damage, group, &packet);
}

/// The number that a multicast call would be answered with, lent so many entries.
pub fn number_lent(library: &Library, lent: [usize; 2], group: u8, packet: &[u8]) -> u8 {
    let past = &library.past;
    let tables = Tables {
        versions: &mut past.versions[..lent[0]].to_vec(),
        numbers: &mut past.numbers[..lent[1]].to_vec(),
    };
    multicast(&past.receiver, tables, group, packet).number
}

/// A group and a packet for this number.
pub fn refused_with(library: &mut Library, good: &Cast, number: u8) -> (u8, Vec<u8>) {
    let mut wrong = good.clone();
    match number {
        15 => wrong.values.mode = header::TEST,
        17 => wrong.values.seq = scenes::before(wrong.values.seq, 1 + scenes::any_age(library)),
        25 => wrong.group = cast_scenes::unregistered(library),
        _ => (),
    }
    let mut packet = wrong.pdu();
    match number {
        12 => packet.push(0),
        13 => put(&mut packet, header::PVER, 2),
        14 => put(&mut packet, header::SA_NODE, 4_096),
        16 => put(&mut packet, header::TBN, 2),
        _ => (),
    }
    (wrong.group, packet)
}

/// Entries that no past leaves but that are within their limits: any version with
/// any number from 1 to M, and any number under version 0.
pub fn other_entries(library: &mut Library) {
    for _ in 0..4 {
        let (spot, _) = a_good_cast(library, false);
        let any = library.dice.throw() as u32;
        let seq = scenes::any_seq(&mut library.dice);
        let pairs = [(0, 0), (0, seq), (0, M), (any, seq), (u32::MAX, M), (5, 1)];
        let (version, number) = library.dice.one_of(&pairs);
        let place = spot.place(library);
        library.past.entry(place, version, number);
        let next = cast_scenes::following(library, spot, 1);
        cast_scenes::send(library, &next);
    }
    library.past.tables();
}
