//! The clauses of 9, each with a damage that meets it alone: "a state with a
//! setting, sender, time, last number, open SEQ or open code outside this paper's
//! limits, a stamp after the clock, last number 0 under a version not 0, or an
//! open message with an impossible cut or a map that is empty, full or marked
//! past TBN"; and 02's, of the kept count and the number of ones in the map: "a
//! state where they differ meets 9", and of groups that setup would refuse.

use crate::dice::Dice;
use crate::numbers::M;
use crate::state::{full_map, Groups, OpenMessage, Receiver, Sender, CLOCK_MOST, GROUPS_MOST};

/// One clause: its name, and a damage that brings a state outside it. The place
/// is that of a sender that is alive and has an open message, in a state within
/// its limits with at least two senders and one group.
pub struct Clause {
    pub name: &'static str,
    pub damage: fn(&mut Receiver, usize, &mut Dice),
}

const fn clause(name: &'static str, damage: fn(&mut Receiver, usize, &mut Dice)) -> Clause {
    Clause { name, damage }
}

pub const CLAUSES: [Clause; 22] = [
    clause("N1", |state, _, dice| {
        state.n1 = dice.one_of(&[0, 1_025, u16::MAX])
    }),
    clause("T", |state, _, dice| {
        state.t = dice.one_of(&[0, 600_001, u32::MAX])
    }),
    clause("data field", |state, _, dice| {
        any_sender(state, dice).field = 0
    }),
    clause("node", |state, _, dice| {
        any_sender(state, dice).node = dice.one_of(&[0, 4_096, u16::MAX])
    }),
    clause("a pair twice", a_pair_twice),
    clause("more than 16 senders", more_than_16_senders),
    clause("no senders", no_senders),
    clause("time", |state, _, dice| {
        state.clock = dice.one_of(&[CLOCK_MOST + 1, u64::MAX])
    }),
    clause("last number", |state, _, dice| {
        any_sender(state, dice).last_number = dice.one_of(&[M + 1, u32::MAX])
    }),
    clause("last number 0 under a version not 0", |state, _, dice| {
        let version = dice.one_of(&[1, 5, u32::MAX]);
        let sender = any_sender(state, dice);
        (sender.last_version, sender.last_number) = (version, 0);
    }),
    clause("open SEQ", |state, at, dice| {
        open(state, at).seq = dice.one_of(&[0, M + 1, u32::MAX])
    }),
    clause("open code", |state, at, dice| {
        open(state, at).tcd = dice.one_of(&[0, 60_000, 60_003, u16::MAX])
    }),
    clause("a message's stamp after the clock", |state, at, dice| {
        open(state, at).stamp = dice.one_of(&[state.clock + 1, u64::MAX])
    }),
    clause(
        "an alive sender's stamp after the clock",
        |state, at, dice| state.senders[at].alive_stamp = dice.one_of(&[state.clock + 1, u64::MAX]),
    ),
    clause("impossible cut", impossible_cut),
    clause("map empty", |state, at, _| set_map(open(state, at), 0)),
    clause("map full", |state, at, _| {
        let open = open(state, at);
        set_map(open, full_map(open.tbn))
    }),
    clause("map marked past TBN", |state, at, dice| {
        let open = open(state, at);
        let past = 1 << dice.between(open.tbn.into(), 63);
        set_map(open, open.map | past)
    }),
    clause("held count", held_count),
    clause("more than 8 groups", more_than_8_groups),
    clause("group 0", |state, _, dice| {
        let place = dice.below(state.groups.count.into()) as usize;
        state.groups.places[place] = 0;
    }),
    clause("a group twice", a_group_twice),
];

fn any_sender<'a>(state: &'a mut Receiver, dice: &mut Dice) -> &'a mut Sender {
    let place = dice.below(state.senders.len() as u64) as usize;
    &mut state.senders[place]
}

fn open(state: &mut Receiver, at: usize) -> &mut OpenMessage {
    &mut state.senders[at].message
}

/// The map alone is outside: the number of pieces held is that of its ones.
fn set_map(open: &mut OpenMessage, map: u64) {
    open.map = map;
    open.held = map.count_ones() as u8;
}

fn a_pair_twice(state: &mut Receiver, at: usize, dice: &mut Dice) {
    let others = state.senders.len() as u64 - 1;
    let other = (at + 1 + dice.below(others) as usize) % state.senders.len();
    let pair = (state.senders[at].field, state.senders[at].node);
    let sender = &mut state.senders[other];
    (sender.field, sender.node) = pair;
}

/// The count alone is outside: the senders behind the others are unheard, and no
/// pair stands twice.
fn more_than_16_senders(state: &mut Receiver, _: usize, dice: &mut Dice) {
    let count = dice.one_of(&[17, 18, 255]);
    let unheard = (1..=4_095).map(|node| Sender {
        field: 77,
        node,
        ..Sender::default()
    });
    let more = count - state.senders.len();
    state.senders.extend(unheard.take(more));
}

/// Of the states without senders only the empty one passes, "online, N1 1, T 1", and
/// it has no groups.
fn no_senders(state: &mut Receiver, _: usize, dice: &mut Dice) {
    state.senders.clear();
    let (groups, none) = (state.groups, Groups::default());
    let others = [
        (true, 1, 1, none),
        (false, 2, 1, none),
        (false, 1, 2, none),
        (false, 16, 15_000, none),
        (false, 1, 1, groups),
        (false, 16, 15_000, groups),
    ];
    (state.test, state.n1, state.t, state.groups) = dice.one_of(&others);
}

/// The count alone is outside: all eight places hold groups, and none stands twice.
fn more_than_8_groups(state: &mut Receiver, _: usize, dice: &mut Dice) {
    let mut groups = state.groups.registered().to_vec();
    let others = (1..=255).filter(|group| state.groups.place_of(*group).is_none());
    groups.extend(others.take(GROUPS_MOST - groups.len()));
    state.groups.places.copy_from_slice(&groups);
    state.groups.count = dice.one_of(&[9, 10, 255]);
}

/// Behind a single group there is room for it once more.
fn a_group_twice(state: &mut Receiver, _: usize, dice: &mut Dice) {
    let groups = &mut state.groups;
    groups.count = groups.count.max(2);
    let count = u64::from(groups.count);
    let (one, steps) = (dice.below(count), dice.between(1, count - 1));
    let other = (one + steps) % count;
    let twice = groups.places[one.min(other) as usize];
    groups.places[one.max(other) as usize] = twice;
}

/// Too few, too many, none, and as many as an octet can say.
fn held_count(state: &mut Receiver, at: usize, dice: &mut Dice) {
    let open = open(state, at);
    open.held = dice.one_of(&[0, open.held - 1, open.held + 1, 255]);
}

/// The cut alone is outside: TBN never falls below the pieces that are held.
fn impossible_cut(state: &mut Receiver, at: usize, dice: &mut Dice) {
    let open = open(state, at);
    let (tbn, u) = (u16::from(open.tbn), open.u);
    match dice.below(5) {
        0 => open.u = dice.one_of(&[0, 255, 1_397, u16::MAX]),
        1 => open.n = (tbn - 1) * u,
        2 => open.n = tbn * u + 1,
        3 => open.tbn += 1,
        _ => open.n = dice.one_of(&[0, 16_385, u16::MAX]),
    }
}

#[cfg(test)]
mod tests {
    use super::*;
    use crate::state::{setup, within_limits, Setup};

    /// Three senders; the second is alive, with Figure 54's message open.
    fn busy() -> Receiver {
        let wanted = Setup {
            mode: 0,
            n1: 16,
            t: 15_000,
            senders: vec![(1, 7), (2, 9), (3, 9)],
            groups: Groups {
                count: 3,
                places: [5, 1, 255, 0, 0, 0, 0, 0],
            },
        };
        let mut state = setup(&wanted).1;
        state.clock = 1_000;
        let sender = &mut state.senders[1];
        (sender.last_version, sender.last_number) = (5, 99);
        (sender.alive, sender.alive_stamp, sender.open) = (true, 1_000, true);
        sender.message = OpenMessage {
            version: 5,
            seq: 100,
            tcd: 1,
            n: 4_500,
            tbn: 4,
            u: 1_332,
            map: 0b0101,
            held: 2,
            stamp: 1_000,
        };
        state
    }

    #[test]
    fn each_clause_is_outside_the_limits() {
        assert!(within_limits(&busy()));
        let mut dice = Dice::new(1);
        for clause in CLAUSES {
            for _ in 0..50 {
                let mut damaged = busy();
                (clause.damage)(&mut damaged, 1, &mut dice);
                assert!(!within_limits(&damaged), "{}: {damaged:?}", clause.name);
            }
        }
    }

    /// The kept count is outside in its own clause alone, and nothing else is.
    #[test]
    fn each_clause_but_one_leaves_the_count_of_the_map() {
        let mut dice = Dice::new(2);
        for clause in CLAUSES {
            for _ in 0..50 {
                let mut damaged = busy();
                (clause.damage)(&mut damaged, 1, &mut dice);
                let differs = damaged.senders.iter().any(|sender| {
                    let message = &sender.message;
                    sender.open && u32::from(message.held) != message.map.count_ones()
                });
                assert_eq!(differs, clause.name == "held count", "{}", clause.name);
                if differs {
                    damaged.senders[1].message.held = 2;
                    assert_eq!(damaged, busy());
                }
            }
        }
    }

    #[test]
    fn names_differ() {
        let mut names: Vec<&str> = CLAUSES.iter().map(|clause| clause.name).collect();
        names.sort_unstable();
        names.dedup();
        assert_eq!(names.len(), CLAUSES.len());
    }
}
