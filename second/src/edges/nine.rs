//! Calls on states outside their limits: each clause of 9 by itself, and together
//! with another number. Titles name the clause, so that the lines under them can
//! be held to it:
//!
//! - under "9 alone: CLAUSE" all lines of calls that judge 9 give 9;
//! - under "9 and NUMBER: CLAUSE" stand two lines of the same call, NUMBER before
//!   the damage and 9 after it;
//! - under "mended: CLAUSE" stand first the five calls of "9 alone" once more,
//!   without the damage, and give 0 or 1.
//!
//! On every damaged state stand held calls too, which judge no 9.

use super::cast_scenes::{self, set_up_until, Cast};
use super::clauses::{Clause, CLAUSES};
use super::library::Library;
use super::table_scenes::{self, wrong_size};
use crate::alive::{self, alive};
use crate::clock::clock;
use crate::header;
use crate::receiver::message;
use crate::scenes::{self, before, put, Plan};
use crate::state::{AREA, CLOCK_MOST, SENDERS_MOST};

/// Each clause once, in random order, and each other number.
pub fn damaged_states(library: &mut Library) {
    let mut order: Vec<&Clause> = CLAUSES.iter().collect();
    library.dice.shuffle(&mut order);
    let mut numbers = OTHERS;
    library.dice.shuffle(&mut numbers);
    for (clause, number) in order.into_iter().zip(numbers.into_iter().cycle()) {
        let busy = make_busy(library, number == 15);
        alone(library, clause, &busy);
        together(library, clause, &busy, number);
        library.past.title(&format!("mended: {}", clause.name));
        good_calls(library, &busy);
    }
}

/// A sender that is alive and has an open message, and good calls for it. Its next
/// message to a group follows one that was delivered.
struct Busy {
    at: usize,
    plan: Plan,
    held: usize,
    missing: usize,
    /// A number that is a repeat.
    repeat: u32,
    signal: Vec<u8>,
    now: u64,
    cast: Cast,
}

/// At least two senders and a group, at an online node if 15 is wanted of it. One of
/// the senders is heard and opens a message, ten numbers after its last one, so that
/// there is room for an older one.
fn make_busy(library: &mut Library, online: bool) -> Busy {
    set_up_until(library, |state| {
        let tables = state.senders.len() >= 2 && state.groups.count > 0;
        tables && !(online && state.test)
    });
    let (at, plan, pieces) = scenes::open_one(library, 10);
    let age = scenes::any_age(library);
    let repeat = before(plan.values.seq, 10 + age);
    scenes::hear(library, at, 1, 60);
    let spot = cast_scenes::spot_of(library, at);
    cast_scenes::settle(library, spot);
    Busy {
        at,
        plan,
        held: pieces[0],
        missing: pieces[pieces.len() - 1],
        repeat,
        signal: scenes::good_alive(library, at, 1, 60),
        now: library.past.receiver.clock,
        cast: cast_scenes::following(library, spot, 1),
    }
}

/// Calls that are good but for the state; there is no storage of the right length
/// for more than 16 senders.
fn good_calls(library: &mut Library, busy: &Busy) {
    let lent = library.storage().min(SENDERS_MOST * AREA);
    let past = &mut library.past;
    past.message_lent(lent, &busy.plan.pdu(busy.missing));
    past.alive_call(&busy.signal);
    past.clock(busy.now);
    past.ask();
    past.multicast(busy.cast.group, &busy.cast.pdu());
}

/// Damages the state, makes the calls, asks for kept counts, and mends it.
fn damaged(library: &mut Library, clause: &Clause, at: usize, calls: impl Fn(&mut Library)) {
    let before = library.past.receiver.clone();
    let mut damaged = before.clone();
    (clause.damage)(&mut damaged, at, &mut library.dice);
    library.past.damage_to(damaged);
    calls(library);
    library.past.held(at as u8);
    library.held_somewhere();
    library.past.damage_to(before);
}

/// The good calls on a damaged state, and the state, where it can be shown.
fn alone(library: &mut Library, clause: &Clause, busy: &Busy) {
    library.past.title(&format!("9 alone: {}", clause.name));
    damaged(library, clause, busy.at, |library| {
        good_calls(library, busy);
        if library.past.receiver.senders.len() <= SENDERS_MOST {
            library.past.show();
        }
    });
}

/// A call with all its octets.
enum Call {
    Message {
        lent: usize,
        packet: Vec<u8>,
    },
    Alive(Vec<u8>),
    Clock(u64),
    Multicast {
        lent: [usize; 2],
        group: u8,
        packet: Vec<u8>,
    },
}

impl Call {
    /// The number that it would be answered with.
    fn number_now(&self, library: &Library) -> u8 {
        let mut state = library.past.receiver.clone();
        match self {
            Call::Message { lent, packet } => {
                message(&mut state, &mut vec![0; *lent], packet).number
            }
            Call::Alive(packet) => alive(&mut state, packet),
            Call::Clock(ms) => clock(&mut state, *ms).number,
            Call::Multicast {
                lent,
                group,
                packet,
            } => table_scenes::number_lent(library, *lent, *group, packet),
        }
    }

    fn make(&self, library: &mut Library) {
        match self {
            Call::Message { lent, packet } => library.past.message_lent(*lent, packet),
            Call::Alive(packet) => library.past.alive_call(packet),
            Call::Clock(ms) => library.past.clock(*ms),
            Call::Multicast {
                lent,
                group,
                packet,
            } => library.past.multicast_lent(*lent, *group, packet),
        }
    }
}

/// The numbers that can be given beside 9.
const OTHERS: [u8; 15] = [11, 12, 13, 14, 15, 16, 17, 18, 19, 20, 21, 22, 24, 25, 26];

/// A call that is refused at the good state too. (Not each section that is broken at
/// random is refused with 24.)
fn together(library: &mut Library, clause: &Clause, busy: &Busy, number: u8) {
    let call = refused_with(library, busy, number);
    let number = call.number_now(library);
    if number < 9 {
        return;
    }
    let title = format!("9 and {number}: {}", clause.name);
    library.past.title(&title);
    call.make(library);
    damaged(library, clause, busy.at, |library| call.make(library));
}

/// A call for this number.
fn refused_with(library: &mut Library, busy: &Busy, number: u8) -> Call {
    let signal = library.dice.one_in(2);
    let to_a_group = library.dice.one_in(2);
    match number {
        25 | 26 => wrong_cast(library, busy, number),
        12..=17 if to_a_group => wrong_cast(library, busy, number),
        11 => Call::Message {
            lent: library.wrong_length(),
            packet: busy.plan.pdu(busy.missing),
        },
        21 => Call::Clock(wrong_time(library)),
        22 => wrong_signal(library, busy, number),
        24 => Call::Alive(scenes::broken_alive(library, busy.at, 1, 60)),
        12..=14 if signal => wrong_signal(library, busy, number),
        _ => Call::Message {
            lent: library.storage(),
            packet: wrong_packet(busy, number),
        },
    }
}

/// "21 | clock back or above its limit".
fn wrong_time(library: &mut Library) -> u64 {
    let now = library.past.receiver.clock;
    let late = library.dice.one_of(&[CLOCK_MOST + 1, u64::MAX]);
    match now {
        0 => late,
        _ => library.dice.one_of(&[now - 1, 0, late]),
    }
}

fn wrong_signal(library: &mut Library, busy: &Busy, number: u8) -> Call {
    let mut packet = scenes::good_alive(library, busy.at, 1, 60);
    match number {
        12 => packet.push(0),
        13 => put(&mut packet, header::PVER, 2),
        14 => put(&mut packet, header::SA_NODE, 4_096),
        _ => put(&mut packet, alive::AL_VER, 2),
    }
    Call::Alive(packet)
}

/// A multicast call with one thing wrong: 26 is a table's size.
fn wrong_cast(library: &mut Library, busy: &Busy, number: u8) -> Call {
    let mut lent = library.past.entries_lent();
    if number == 26 {
        let table = library.dice.below(2) as usize;
        lent[table] = wrong_size(library);
    }
    let (group, packet) = table_scenes::refused_with(library, &busy.cast, number);
    Call::Multicast {
        lent,
        group,
        packet,
    }
}

/// A PDU of the open message, or of one before it, with one thing wrong.
fn wrong_packet(busy: &Busy, number: u8) -> Vec<u8> {
    let mut plan = busy.plan.clone();
    match number {
        15 => plan.values.mode = header::TEST,
        17 => plan.values.seq = busy.repeat,
        18 => plan.values.seq = before(plan.values.seq, 1),
        19 => plan.values.tcd ^= 7,
        _ => (),
    }
    let piece = if number == 20 {
        busy.held
    } else {
        busy.missing
    };
    let mut packet = plan.pdu(piece);
    match number {
        12 => packet.push(0),
        13 => put(&mut packet, header::PVER, 2),
        14 => put(&mut packet, header::SA_NODE, 4_096),
        16 => put(&mut packet, header::CBN, 0),
        _ => (),
    }
    packet
}
