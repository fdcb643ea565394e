//! Section 8: damaged states. Each call but setup and cutter asks about 9
//! first, so each of the four is made on each of them.

use super::calls;
use super::past::Past;
use super::pdu;
use super::table::senders;
use crate::state::{OpenMessage, Receiver, Sender, AREA};

pub fn sections(past: &mut Past) {
    past.section("8.1 One value changed");
    one_value_changed(past, row);
    past.section("8.2 Cut and map of the open message");
    cut_and_map(past, row);
    past.section("8.3 What is never looked at");
    never_looked_at(past, row);
    no_senders(past);
    written_over(past);
    count_of_damaged_states(past);
}

/// "Each row of these sections starts with fresh() and then makes, printing
/// nothing": sender 0 is open with piece 2 held, and alive.
fn make_busy(past: &mut Past) {
    past.fresh();
    heard_and_open(past);
}

/// What is made behind the setup.
pub fn heard_and_open(past: &mut Past) {
    past.quietly(|past| {
        past.clock(1_000);
        past.alive(1, 7, 1, 60);
        past.piece([1, 7, 5, 100, 1, 4_500, 1_332, 2]);
    });
}

/// The four calls, good but for the state.
pub fn four_calls(past: &mut Past, lent: usize) {
    let packet = pdu::piece([1, 7, 5, 100, 1, 4_500, 1_332, 1]);
    past.message_lent(lent, &packet);
    past.alive(1, 7, 1, 60);
    past.clock(15_999);
    past.ask();
}

/// Makes one row of what it changes.
pub type Row = fn(&mut Past, &dyn Fn(&mut Past));

/// "The message call is lent exactly 32,768 octets of storage in 8.1 to 8.3,
/// whatever the count says".
fn row(past: &mut Past, damage: &dyn Fn(&mut Past)) {
    make_busy(past);
    damage(past);
    four_calls(past, 2 * AREA);
}

/// Changes settings, time, count or groups of the state in use; the field bears all
/// of them.
pub fn change_state(past: &mut Past, change: impl Fn(&mut Receiver)) {
    change(&mut past.receiver);
    past.write('t', &calls::settings(&past.receiver));
}

/// Changes the record of one sender; the field bears the whole of it.
pub fn change_sender(past: &mut Past, place: usize, change: impl Fn(&mut Sender)) {
    let sender = &mut past.receiver.senders[place];
    change(sender);
    let contents = calls::record(place, sender);
    past.write('r', &contents);
}

/// 01's 9 names what is judged: "a setting, sender, time, last number, open SEQ
/// or open code outside this paper's limits, a stamp after the clock, last number
/// 0 under a version not 0"; 02 adds the kept count. First of the settings and the
/// time.
const STATE_CHANGES: [fn(&mut Receiver); 6] = [
    |state| state.n1 = 0,
    |state| state.n1 = 1_025,
    |state| state.t = 0,
    |state| state.t = 600_001,
    |state| state.clock = 1_099_511_627_777,
    |state| more_senders(state, 17),
];

/// "one that holds a list has 17 senders in it, those from place 2 on unheard".
fn more_senders(state: &mut Receiver, count: u32) {
    let unheard = |(field, node)| Sender {
        field,
        node,
        ..Sender::default()
    };
    let more = senders(count, (2, 9)).into_iter().skip(2).map(unheard);
    state.senders.extend(more);
}

/// A sender's place, and what becomes of its record.
type SenderChange = (usize, fn(&mut Sender));

/// Then of one sender.
const SENDER_CHANGES: [SenderChange; 16] = [
    (1, |sender| sender.field = 0),
    (1, |sender| sender.node = 0),
    (1, |sender| sender.node = 4_096),
    (1, |sender| (sender.field, sender.node) = (1, 7)),
    (0, |sender| sender.last_number = 2_147_483_648),
    (0, |sender| sender.last_version = 5),
    (0, |sender| sender.last_number = 7),
    (0, |sender| sender.message.seq = 0),
    (0, |sender| sender.message.seq = 2_147_483_648),
    (0, |sender| sender.message.tcd = 0),
    (0, |sender| sender.message.tcd = 60_000),
    (0, |sender| sender.message.stamp = 1_001),
    (0, |sender| sender.alive_stamp = 1_001),
    (0, |sender| sender.message.held = 0),
    (0, |sender| sender.message.held = 2),
    (0, |sender| sender.message.held = 255),
];

/// The rows of 8.1.
pub fn one_value_changed(past: &mut Past, row: Row) {
    row(past, &|_| ());
    for change in STATE_CHANGES {
        row(past, &|past| change_state(past, change));
    }
    for (place, change) in SENDER_CHANGES {
        row(past, &|past| change_sender(past, place, change));
    }
}

/// n, tbn, u, map, held.
const CUTS_AND_MAPS: [(u16, u8, u16, u64, u8); 19] = [
    (4_500, 1, 1_332, 2, 1),
    (4_500, 65, 1_332, 2, 1),
    (1_000, 4, 255, 2, 1),
    (4_500, 4, 1_397, 2, 1),
    (3_996, 4, 1_332, 2, 1),
    (3_997, 4, 1_332, 2, 1),
    (5_328, 4, 1_332, 2, 1),
    (5_329, 4, 1_332, 2, 1),
    (16_385, 12, 1_396, 2, 1),
    (4_500, 4, 1_332, 0, 0),
    (4_500, 4, 1_332, 15, 4),
    (4_500, 4, 1_332, 18, 2),
    (16_384, 64, 256, 18_446_744_073_709_551_614, 63),
    (16_384, 64, 256, 18_446_744_073_709_551_615, 64),
    (4_500, 4, 1_332, 6, 2),
    (4_500, 4, 1_332, 6, 1),
    (4_500, 4, 1_332, 6, 3),
    (16_384, 64, 256, 18_446_744_073_709_551_614, 62),
    (16_384, 64, 256, 18_446_744_073_709_551_614, 64),
];

/// 9, of "an open message with an impossible cut or a map that is empty, full or
/// marked past TBN", and where the kept count is not that of the map's ones: the
/// rows of 8.2.
pub fn cut_and_map(past: &mut Past, row: Row) {
    for (n, tbn, u, map, held) in CUTS_AND_MAPS {
        let change = |sender: &mut Sender| {
            let open = &mut sender.message;
            (open.n, open.tbn, open.u) = (n, tbn, u);
            (open.map, open.held) = (map, held);
        };
        row(past, &|past| change_sender(past, 0, change));
    }
}

/// 01: "The record of a message not open, the stamp and al_tm_out of a sender not
/// alive, and places past the senders are [...] never looked at." The rows of 8.3.
pub fn never_looked_at(past: &mut Past, row: Row) {
    row(past, &|past| change_sender(past, 0, not_open));
    row(past, &|past| change_sender(past, 1, not_alive));
    row(past, &a_place_past_the_senders);
}

fn not_open(sender: &mut Sender) {
    sender.open = false;
    sender.message = OpenMessage {
        version: 5,
        seq: 100,
        tcd: 60_000,
        n: 65_535,
        tbn: 1,
        u: 0,
        map: u64::MAX,
        held: 255,
        stamp: u64::MAX,
    };
}

fn not_alive(sender: &mut Sender) {
    sender.alive_stamp = u64::MAX;
    sender.al_tm_out = u32::MAX;
}

/// "A program that has no such place sets nothing": this state holds none, so
/// only the field is written, for one that does.
fn a_place_past_the_senders(past: &mut Past) {
    let junk = Sender {
        field: 1,
        node: 7,
        last_version: 5,
        open: true,
        message: OpenMessage {
            held: 255,
            ..OpenMessage::default()
        },
        alive: true,
        alive_stamp: u64::MAX,
        ..Sender::default()
    };
    past.write('r', &calls::record(2, &junk));
}

/// test, n1, t. The first is the empty state: "9 lets it pass".
const NO_SENDERS: [(bool, u16, u32); 4] =
    [(false, 1, 1), (true, 1, 1), (false, 2, 1), (false, 1, 2)];

/// "In 8.4 the state is made by a setup that is refused (s, the one of 2.6), then
/// t."
fn no_senders(past: &mut Past) {
    past.section("8.4 No senders");
    for (test, n1, t) in NO_SENDERS {
        past.fresh();
        past.quietly(|past| past.setup([0, 0, 15_000, 2, 2, 9]));
        change_state(past, |state| {
            (state.test, state.n1, state.t) = (test, n1, t)
        });
        four_calls(past, 0);
    }
}

/// What each row calls, on a record that is full of what is never looked at.
const ON_JUNK: [fn(&mut Past); 9] = [
    |past| past.number(5, 100),
    |past| past.number(0, 1),
    |past| {
        past.piece([1, 7, 5, 100, 1, 300, 256, 2]);
        past.show();
        past.piece([1, 7, 5, 100, 1, 300, 256, 1]);
    },
    |past| past.laid(&[(20, 4, 0)]),
    |past| past.piece([2, 9, 5, 100, 1, 10, 256, 1]),
    |past| past.alive(1, 7, 1, 60),
    |past| past.alive(1, 7, 2, 60),
    |past| past.clock(1_001),
    |past| past.ask(),
];

/// 01: "are written 0 and never looked at". Which calls write there is seen only
/// where something else stood.
fn written_over(past: &mut Past) {
    past.section("8.5 What is written over it");
    for calls in ON_JUNK {
        past.fresh();
        past.quietly(|past| past.clock(1_000));
        change_sender(past, 0, |sender| {
            not_open(sender);
            not_alive(sender);
        });
        calls(past);
        past.show();
    }
}

/// What each row changes. A place past the senders is written alone, as in 8.3;
/// with a count that reaches it, the count is written first.
const COUNTED: [fn(&mut Past); 11] = [
    |_| (),
    |past| change_sender(past, 0, |sender| sender.message.held = 0),
    |past| change_sender(past, 0, |sender| sender.message.held = 255),
    |past| {
        change_sender(past, 0, |sender| {
            (sender.open, sender.message.held) = (false, 255)
        })
    },
    |past| change_state(past, |state| state.n1 = 0),
    |past| change_state(past, |state| state.senders.clear()),
    |past| change_state(past, |state| state.senders.truncate(1)),
    |past| change_state(past, |state| more_senders(state, 17)),
    |past| change_state(past, |state| more_senders(state, 255)),
    |past| past.write('r', &calls::record(2, &nine_held())),
    |past| {
        change_state(past, |state| more_senders(state, 3));
        change_sender(past, 2, |sender| *sender = nine_held());
    },
];

/// "open 1, held 9, all else 0".
fn nine_held() -> Sender {
    let mut sender = Sender {
        open: true,
        ..Sender::default()
    };
    sender.message.held = 9;
    sender
}

/// The number kept is told of any state: nothing is counted, and no 9 is judged.
fn count_of_damaged_states(past: &mut Past) {
    past.section("8.6 The count of a damaged state");
    for damage in COUNTED {
        make_busy(past);
        damage(past);
        past.held_at(&[0, 1, 2, 15, 16, 255]);
    }
}
