//! Random multicast calls, beside the peer-to-peer messages of the same senders.

use super::library::Library;
use crate::cut::HeaderValues;
use crate::dice::Dice;
use crate::header::{self, write_head, Head, HEADER};
use crate::multicast::entry_of;
use crate::numbers::M;
use crate::scenes::{self, after, before, put};
use crate::stage::Stage;
use crate::state::{Groups, Receiver, GROUPS_MOST};

/// A message that some sender means to send to a group.
#[derive(Clone)]
pub struct Cast {
    pub group: u8,
    pub values: HeaderValues,
    pub n: usize,
}

impl Cast {
    /// The cutter has no pieces of more than 1,396 octets, so that it is written
    /// here.
    pub fn pdu(&self) -> Vec<u8> {
        let values = &self.values;
        let size = HEADER + self.n;
        let head = Head {
            ml: size as u32,
            field: values.field,
            node: values.node,
            da: values.da,
            version: values.version,
            seq: values.seq,
            m_ctl: values.m_ctl,
            tcd: values.tcd,
            mode: values.mode,
            pri: values.pri,
            cbn: 1,
            tbn: 1,
            bsize: size as u16,
            ..Head::fixed()
        };
        let mut pdu: Vec<u8> = (0..size).map(|i| (i % 251) as u8).collect();
        write_head(&head, &mut pdu);
        pdu
    }
}

/// What has an entry of its own: a sender and a group by their places, and a PRI.
#[derive(Clone, Copy)]
pub struct Spot {
    sender: usize,
    group: usize,
    pri: u8,
}

impl Spot {
    /// The place of its entry in the tables.
    pub fn place(&self, library: &Library) -> usize {
        entry_of(&library.past.receiver, self.sender, self.group, self.pri)
    }

    /// The version and number of its entry.
    fn last(&self, library: &Library) -> (u32, u32) {
        let place = self.place(library);
        (library.past.versions[place], library.past.numbers[place])
    }
}

// ---- what the scenes share

/// Setups until the state is one that a scene can be played on.
pub fn set_up_until(library: &mut Library, fits: impl Fn(&Receiver) -> bool) {
    while !fits(&library.past.receiver) {
        scenes::new_setup(library);
    }
}

fn with_groups(library: &mut Library) {
    set_up_until(library, |state| state.groups.count > 0);
}

/// None without senders or groups. A few PRI come again and again.
fn any_spot(library: &mut Library) -> Option<Spot> {
    let senders = library.past.receiver.senders.len() as u64;
    let groups = u64::from(library.past.receiver.groups.count);
    if senders == 0 || groups == 0 {
        return None;
    }
    let dice = &mut library.dice;
    let any = dice.below(8) as u8;
    Some(Spot {
        sender: dice.below(senders) as usize,
        group: dice.below(groups) as usize,
        pri: dice.one_of(&[0, 0, 7, any]),
    })
}

/// Any of one sender's, in a state with groups.
pub fn spot_of(library: &mut Library, sender: usize) -> Spot {
    let groups = u64::from(library.past.receiver.groups.count);
    Spot {
        sender,
        group: library.dice.below(groups) as usize,
        pri: library.dice.below(8) as u8,
    }
}

fn cast(library: &mut Library, spot: Spot, version: u32, seq: u32) -> Cast {
    let state = &library.past.receiver;
    let sender = &state.senders[spot.sender];
    let (field, node) = (sender.field, sender.node);
    let group = state.groups.registered()[spot.group];
    let dice = &mut library.dice;
    let any = dice.throw();
    let values = HeaderValues {
        field,
        node,
        da: dice.one_of(&[0x0001_0001, 0x0001_0000 + u32::from(group), any as u32]),
        version,
        seq,
        m_ctl: dice.one_of(&[0x8000_0000, 0, any as u32]),
        tcd: dice.one_of(&[1, 2, 1_000, 59_999]),
        mode: header::ONLINE,
        pri: spot.pri,
    };
    let n = dice.one_of(&[0, 1, 10, 1_396, 1_397, 1_408, any as usize % 1_409]);
    Cast { group, values, n }
}

/// A version that is neither 0 nor that of the entry.
fn fresh_version(library: &mut Library, spot: Spot) -> u32 {
    let (last, _) = spot.last(library);
    loop {
        let any = library.dice.throw() as u32;
        let version = library.dice.one_of(&[1, 2, 5, 6, u32::MAX, any]);
        if ![0, last].contains(&version) {
            return version;
        }
    }
}

pub fn send(library: &mut Library, cast: &Cast) {
    library.past.multicast(cast.group, &cast.pdu());
    if library.dice.one_in(30) {
        library.past.tables();
    }
}

/// Gives the entry a version that is not 0.
pub fn settle(library: &mut Library, spot: Spot) {
    if spot.last(library).0 == 0 {
        let version = fresh_version(library, spot);
        let seq = scenes::any_seq(&mut library.dice);
        let first = cast(library, spot, version, seq);
        send(library, &first);
    }
}

/// Under a settled entry's version, `steps` after its number.
pub fn following(library: &mut Library, spot: Spot, steps: u64) -> Cast {
    let (version, number) = spot.last(library);
    cast(library, spot, version, after(number.max(1), steps))
}

/// An entry with a version not 0.
fn settled(library: &mut Library) -> Spot {
    with_groups(library);
    let sender = scenes::any_sender(library);
    let spot = spot_of(library, sender);
    settle(library, spot);
    spot
}

/// One call between others: to some entry the next number, or one that the sender
/// bears elsewhere; where nobody or no group is registered, a packet all the same.
pub fn cast_between(library: &mut Library) {
    let Some(spot) = any_spot(library) else {
        return cast_without_an_entry(library);
    };
    let sender = &library.past.receiver.senders[spot.sender];
    let delivered = (sender.last_version, sender.last_number.max(1));
    let open = (sender.message.version, sender.message.seq.clamp(1, M));
    let (version, number) = spot.last(library);
    let next = (version.max(1), after(number.max(1), 1));
    let (version, seq) = library.dice.one_of(&[next, next, delivered, open]);
    let between = cast(library, spot, version, seq);
    send(library, &between);
}

/// Of a sender that is registered, if there is one, to any group.
fn cast_without_an_entry(library: &mut Library) {
    let mut packet = scenes::a_pdu_of_nobody();
    if let Some(sender) = library.past.receiver.senders.first() {
        put(&mut packet, header::SA_FIELD, sender.field.into());
        put(&mut packet, header::SA_NODE, sender.node.into());
    }
    cast_anywhere(library, &packet);
}

/// Any packet to some group, most of the time one that is registered.
pub fn cast_anywhere(library: &mut Library, packet: &[u8]) {
    let mut groups = library.past.receiver.groups.registered().to_vec();
    groups.extend([0, 1]);
    let group = library.dice.one_of(&groups);
    library.past.multicast(group, packet);
}

// ---- messages that are delivered, and the check

/// The next numbers of one entry.
pub fn casts_in_turn(library: &mut Library) {
    let spot = settled(library);
    for _ in 0..library.dice.between(1, 4) {
        let next = following(library, spot, 1);
        send(library, &next);
    }
}

/// All verdicts and repeats, at both sides of the window and of the ring's ends and
/// within.
pub fn cast_checks(library: &mut Library) {
    let spot = settled(library);
    let n1 = u64::from(library.past.receiver.n1);
    for _ in 0..8 {
        let (version, number) = spot.last(library);
        let last = number.max(1);
        let fresh = fresh_version(library, spot);
        let far = scenes::any_seq(&mut library.dice);
        let age = scenes::any_age(library);
        let numbers = [
            (version, last),
            (version, before(last, age)),
            (version, before(last, n1 - 1)),
            (version, before(last, n1)),
            (version, after(last, 1)),
            (version, after(last, 2)),
            (version, far),
            (fresh, far),
            (fresh, last),
            (0, 1),
            (0, 1),
            (0, far),
            (version, M),
            (version, 1),
        ];
        let (version, seq) = library.dice.one_of(&numbers);
        let checked = cast(library, spot, version, seq);
        send(library, &checked);
    }
    library.past.tables();
}

/// Repeats of one sender, of age 0, between and N1 - 1, and at last what lies N1 back:
/// of its messages to this node alone and of those to a group, by turns.
pub fn ages(library: &mut Library) {
    set_up_until(library, |state| state.groups.count > 0 && state.n1 > 2);
    let sender = scenes::any_sender(library);
    scenes::settle(library, sender);
    let spot = spot_of(library, sender);
    settle(library, spot);
    let n1 = u64::from(library.past.receiver.n1);
    let mut ages = [0, library.dice.between(1, n1 - 2), n1 - 1];
    library.dice.shuffle(&mut ages);
    for age in ages.into_iter().chain([n1]) {
        let peer = scenes::following(library, sender, u64::from(M) - age);
        scenes::send(library, &peer, 1);
        let cast = following(library, spot, u64::from(M) - age);
        send(library, &cast);
    }
}

/// One version and number to many entries: of each it is the first, and then a
/// repeat.
pub fn one_number_to_many(library: &mut Library) {
    let spot = settled(library);
    let version = fresh_version(library, spot);
    let seq = scenes::any_seq(&mut library.dice);
    for _ in 0..6 {
        let sender = scenes::any_sender(library);
        let spot = spot_of(library, sender);
        let same = cast(library, spot, version, seq);
        send(library, &same);
    }
    library.past.tables();
}

/// Pieces of a peer-to-peer message, and between them messages of the same sender,
/// version and number to its groups.
pub fn casts_among_pieces(library: &mut Library) {
    with_groups(library);
    let (at, opened, pieces) = scenes::open_one(library, 1);
    for piece in pieces {
        let spot = spot_of(library, at);
        let (version, seq) = (opened.values.version, opened.values.seq);
        let same = cast(library, spot, version, seq);
        send(library, &same);
        library.past.show();
        scenes::send(library, &opened, piece);
    }
    library.past.tables();
}

// ---- refusals

/// Each number from 12 to 17 and 25, alone and with others.
pub fn damaged_casts(library: &mut Library) {
    for _ in 0..8 {
        let spot = settled(library);
        let back = u64::from(M) - scenes::any_age(library);
        let steps = library.dice.one_of(&[back, 1, 1]);
        let next = following(library, spot, steps);
        let (mut group, mut pdu) = (next.group, next.pdu());
        for _ in 0..library.dice.one_of(&[1, 1, 2]) {
            damage(library, &mut group, &mut pdu);
        }
        library.past.multicast(group, &pdu);
    }
    library.past.tables();
}

/// Damages one thing that the call looks at.
fn damage(library: &mut Library, group: &mut u8, pdu: &mut Vec<u8>) {
    match library.dice.below(7) {
        0 => *group = unregistered(library),
        1 => put(pdu, header::MODE, header::TEST.into()),
        2 => another_cut(&mut library.dice, pdu),
        3 => another_length(&mut library.dice, pdu),
        4 => put(pdu, header::SA_NODE, library.dice.one_of(&[0, 3, 4_096])),
        _ => scenes::damage_header(&mut library.dice, pdu),
    }
}

/// A group that is not registered: 0, any, or what stands past the count.
pub fn unregistered(library: &mut Library) -> u8 {
    let groups = library.past.receiver.groups;
    let any = library.another_group(groups.registered());
    let past = groups.places[GROUPS_MOST - 1];
    let group = library.dice.one_of(&[0, any, past]);
    match groups.place_of(group) {
        Some(_) => 0,
        None => group,
    }
}

/// CBN, TBN or ML that are not those of one piece.
fn another_cut(dice: &mut Dice, pdu: &mut [u8]) {
    let ml = pdu.len() as u64;
    match dice.below(3) {
        0 => put(pdu, header::CBN, dice.one_of(&[0, 2, 255])),
        1 => put(pdu, header::TBN, dice.one_of(&[0, 2, 255])),
        _ => put(
            pdu,
            header::ML,
            dice.one_of(&[ml + 1, ml.saturating_sub(1), 0, 63, u32::MAX.into()]),
        ),
    }
}

/// Shorter, longer, unlike BSIZE, or as long as may be.
fn another_length(dice: &mut Dice, pdu: &mut Vec<u8>) {
    match dice.below(3) {
        0 => pdu.push(0),
        1 => {
            pdu.pop();
        }
        _ => {
            let length = dice.one_of(&[63, 64, 1_460, 1_461, 1_472, 1_473, 2_000]);
            scenes::resize(pdu, length);
        }
    }
}

// ---- groups of setups and states

/// 02: "10 for groups outside these limits or named twice".
pub fn refused_groups(library: &mut Library) {
    for _ in 0..2 {
        let mut setup = scenes::good_setup(library);
        bad_groups(library, &mut setup.groups);
        library.setup(&setup);
    }
}

fn bad_groups(library: &mut Library, groups: &mut Groups) {
    if library.dice.one_in(3) {
        groups.count = library.dice.one_of(&[9, 10, 128, 255]);
        return;
    }
    groups.count = groups.count.max(2);
    let count = u64::from(groups.count);
    let at = library.dice.below(count) as usize;
    let other = (at + library.dice.between(1, count - 1) as usize) % count as usize;
    groups.places[at] = library.dice.one_of(&[0, groups.places[other]]);
}

/// A state that no past leaves, but within its limits: past the groups stands
/// anything, and one that stands only there is not registered.
pub fn groups_past_the_count(library: &mut Library) {
    let mut state = library.past.receiver.clone();
    if usize::from(state.groups.count) == GROUPS_MOST {
        return;
    }
    let past = library.another_group(state.groups.registered());
    for at in usize::from(state.groups.count)..GROUPS_MOST {
        state.groups.places[at] = library
            .dice
            .one_of(&[past, past, 0, state.groups.places[0]]);
    }
    library.past.damage_to(state);
    library.past.show();
    let packet = match any_spot(library) {
        Some(spot) => following(library, spot, 1).pdu(),
        None => scenes::a_pdu_of_nobody(),
    };
    for group in [past, 0] {
        library.past.multicast(group, &packet);
    }
    library.past.ask();
}

/// Fewer groups, so that the tables are read by other places, and all again.
pub fn other_groups(library: &mut Library) {
    with_groups(library);
    let before = library.past.receiver.clone();
    let mut state = before.clone();
    let count = u64::from(state.groups.count);
    state.groups.count = library.dice.below(count + 1) as u8;
    library.past.damage_to(state);
    library.past.show();
    for _ in 0..3 {
        cast_between(library);
    }
    library.past.damage_to(before);
    cast_between(library);
}
