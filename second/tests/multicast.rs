//! The multicast call (02, item 5): both sides of each of its edges, every two of
//! its numbers, and its entries against a record of what was delivered to whom.

mod common;

use std::collections::BTreeMap;

use common::{alive_of_node_2, figure_54, lay, octets, Message, M};
use second::alive::alive;
use second::clock::clock;
use second::multicast::{multicast, MulticastAnswer, Tables};
use second::receiver::{message, part, question, Answer, Where};
use second::state::{setup, Groups, OpenMessage, Receiver, Setup, CLOCK_MOST};

/// A multicast call that is about to be made.
#[derive(Clone)]
struct Call {
    receiver: Receiver,
    versions: Vec<u32>,
    numbers: Vec<u32>,
    group: u8,
    packet: Vec<u8>,
}

fn groups(count: u8, first: &[u8]) -> Groups {
    let mut places = [0; 8];
    places[..first.len()].copy_from_slice(first);
    Groups { count, places }
}

/// Online, N1 16, T 15000, these senders and groups.
fn desk(senders: &[(u8, u16)], registered: Groups) -> Receiver {
    let wanted = Setup {
        mode: 0,
        n1: 16,
        t: 15_000,
        senders: senders.to_vec(),
        groups: registered,
    };
    let (number, receiver) = setup(&wanted);
    assert_eq!(number, 0);
    receiver
}

/// A message of one piece, of any length: 1,408 octets and more too.
fn one_piece(n: usize) -> Message {
    figure_54().sized(n, n.max(1))
}

/// Senders 1:7, 2:9 and 3:9, groups 5 and 200. The packet of 1:7 to group 200 with
/// PRI 0 has entry (0 x 2 + 1) x 8 = 8, where (5, 99) stands: it is the next one.
fn good_call() -> Call {
    let mut versions = vec![0; 48];
    let mut numbers = vec![0; 48];
    (versions[8], numbers[8]) = (5, 99);
    Call {
        receiver: desk(&[(1, 7), (2, 9), (3, 9)], groups(2, &[5, 200])),
        versions,
        numbers,
        group: 200,
        packet: one_piece(10).pdu(1),
    }
}

/// Makes the call.
fn answer_of(call: &mut Call) -> MulticastAnswer {
    let tables = Tables {
        versions: &mut call.versions,
        numbers: &mut call.numbers,
    };
    multicast(&call.receiver, tables, call.group, &call.packet)
}

/// The number; a refusal gives nothing more, but for the age of a repeat, and changes
/// no entry.
fn number_of(call: Call) -> u8 {
    number_and_age(call).0
}

fn number_and_age(mut call: Call) -> (u8, u32) {
    let before = call.clone();
    let answer = answer_of(&mut call);
    if answer.number != 1 {
        assert_eq!(
            (call.versions, call.numbers),
            (before.versions, before.numbers)
        );
        assert_eq!((answer.verdict.number(), answer.skipped), (0, 0));
        assert_eq!(answer.message, Where::Nothing);
    }
    if answer.number != 17 {
        assert_eq!(answer.age, 0, "{}", answer.number);
    }
    (answer.number, answer.age)
}

fn number_with(change: &dyn Fn(&mut Call)) -> u8 {
    let mut call = good_call();
    change(&mut call);
    number_of(call)
}

// ---- the rows, alone and in pairs

/// In the order in which they are given.
const ROWS: [u8; 9] = [9, 26, 12, 13, 14, 25, 15, 16, 17];

/// Makes one row's condition hold, whatever else holds.
fn make_hold(call: &mut Call, row: u8) {
    match row {
        9 => call.receiver.clock = CLOCK_MOST + 1,
        26 => call.numbers[47] = M + 1,
        12 => call.packet.push(0),
        13 => call.packet[41] = 0,
        14 => call.packet[11] = 8,
        25 => call.group = 6,
        15 => call.packet[53] = 1,
        16 => call.packet[56] = 2,
        17 => call.numbers[8] = 103,
        _ => panic!("no row {row} in the multicast call"),
    }
}

#[test]
fn the_good_call_is_delivered_into_one_entry() {
    let mut call = good_call();
    let before = call.clone();
    let answer = answer_of(&mut call);
    assert_eq!(
        (answer.number, answer.verdict.number(), answer.skipped),
        (1, 2, 0)
    );
    assert_eq!(part(answer.message, &call.packet, &[]), octets(10));
    assert_eq!(call.receiver, before.receiver);
    assert_eq!((call.versions[8], call.numbers[8]), (5, 100));
    (call.versions[8], call.numbers[8]) = (5, 99);
    assert_eq!(
        (call.versions, call.numbers),
        (before.versions, before.numbers)
    );
}

#[test]
fn each_row_alone_and_of_two_the_one_that_comes_first() {
    for (i, first) in ROWS.iter().enumerate() {
        assert_eq!(number_with(&|call| make_hold(call, *first)), *first);
        for second in &ROWS[i + 1..] {
            for order in [[first, second], [second, first]] {
                let number =
                    number_with(&|call| order.iter().for_each(|row| make_hold(call, **row)));
                assert_eq!(number, *first, "{first} and {second}");
            }
        }
    }
}

#[test]
fn all_rows_together_give_the_first() {
    for (i, first) in ROWS.iter().enumerate() {
        let number = number_with(&|call| ROWS[i..].iter().for_each(|row| make_hold(call, *row)));
        assert_eq!(number, *first);
    }
}

// ---- 9

/// The numbers of the five calls that judge 9, with these groups in the state.
fn numbers_with_groups(registered: Groups) -> [u8; 5] {
    let mut call = good_call();
    call.receiver.groups = registered;
    let entries = 3 * usize::from(registered.count) * 8;
    call.versions = vec![0; entries];
    call.numbers = vec![0; entries];
    let state = call.receiver.clone();
    let mut signal = alive_of_node_2();
    signal[11] = 7;
    let mut storage = vec![0; 3 * 16_384];
    [
        message(&mut state.clone(), &mut storage, &figure_54().pdu(1)).number,
        alive(&mut state.clone(), &signal),
        clock(&mut state.clone(), 5).number,
        match question(&state) {
            Answer::Refused(number) => number,
            _ => 0,
        },
        number_of(call),
    ]
}

/// What is 10 in a setup is 9 in a state, in every call.
#[test]
fn row_9_groups_on_both_sides_in_every_call() {
    let eight = [1, 2, 3, 4, 5, 6, 7, 200];
    let good = [
        groups(1, &[200]),
        groups(2, &[255, 200]),
        groups(8, &eight),
        groups(7, &[1, 2, 3, 4, 5, 6, 200, 1]),
        groups(2, &[200, 1, 1, 0, 0, 200]),
    ];
    for registered in good {
        assert_eq!(
            numbers_with_groups(registered),
            [0, 0, 0, 0, 1],
            "{registered:?}"
        );
    }
    // Good states, in which group 200 is not registered.
    for registered in [groups(0, &[200]), groups(0, &[]), groups(1, &[5, 200])] {
        assert_eq!(
            numbers_with_groups(registered),
            [0, 0, 0, 0, 25],
            "{registered:?}"
        );
    }
    let outside = [
        groups(9, &eight),
        groups(255, &eight),
        groups(9, &[]),
        groups(1, &[0]),
        groups(3, &[200, 0, 1]),
        groups(8, &[1, 2, 3, 4, 5, 6, 200, 0]),
        groups(2, &[200, 200]),
        groups(8, &[200, 2, 3, 4, 5, 6, 7, 200]),
    ];
    for registered in outside {
        assert_eq!(numbers_with_groups(registered), [9; 5], "{registered:?}");
    }
}

/// Every other clause of 9 holds for this call too.
#[test]
fn row_9_other_clauses() {
    let changes: [fn(&mut Receiver); 8] = [
        |state| state.n1 = 0,
        |state| state.t = 600_001,
        |state| state.senders[2].node = 4_096,
        |state| (state.senders[2].field, state.senders[2].node) = (1, 7),
        |state| state.senders[1].last_number = M + 1,
        |state| state.senders[1].last_version = 5,
        |state| (state.senders[0].alive, state.senders[0].alive_stamp) = (true, 1),
        |state| state.senders[1].open = true,
    ];
    for change in changes {
        assert_eq!(number_with(&|call| change(&mut call.receiver)), 9);
    }
    // A good open message, and one whose count differs.
    let open = |held: u8| {
        number_with(&|call| {
            call.receiver.senders[0].open = true;
            call.receiver.senders[0].message = OpenMessage {
                version: 5,
                seq: 100,
                tcd: 1,
                n: 4_500,
                tbn: 4,
                u: 1_332,
                map: 0b0101,
                held,
                stamp: 0,
            };
        })
    };
    assert_eq!((open(2), open(1)), (1, 9));
}

/// Of the states without senders only the empty one passes.
#[test]
fn the_empty_state_and_others_without_senders() {
    let at = |registered: Groups, entries: [usize; 2]| {
        number_with(&|call| {
            call.receiver = Receiver::empty();
            call.receiver.groups = registered;
            call.versions = vec![0; entries[0]];
            call.numbers = vec![0; entries[1]];
        })
    };
    assert_eq!(at(groups(0, &[]), [0, 0]), 14);
    assert_eq!(
        (at(groups(0, &[]), [1, 0]), at(groups(0, &[]), [0, 1])),
        (26, 26)
    );
    assert_eq!(at(groups(0, &[200, 200, 0]), [0, 0]), 14);
    assert_eq!(at(groups(1, &[200]), [0, 0]), 9);
    assert_eq!(at(groups(9, &[200]), [0, 0]), 9);
}

// ---- 26

#[test]
fn row_26_sizes_on_both_sides() {
    let lent = |versions: usize, numbers: usize| {
        number_with(&|call| {
            call.versions.resize(versions, 0);
            call.numbers.resize(numbers, 0);
        })
    };
    assert_eq!(lent(48, 48), 1);
    for size in [0, 1, 6, 8, 16, 24, 47, 49, 96, 1_024] {
        assert_eq!((lent(size, 48), lent(48, size)), (26, 26), "{size}");
        assert_eq!(lent(size, size), 26, "{size}");
    }
}

#[test]
fn row_26_every_entry_is_looked_at() {
    for at in 0..48 {
        let with = |version: u32, number: u32| {
            number_with(&|call| (call.versions[at], call.numbers[at]) = (version, number))
        };
        assert_eq!((with(5, M), with(5, M + 1), with(5, u32::MAX)), (1, 26, 26));
        assert_eq!((with(0, M), with(0, M + 1), with(0, u32::MAX)), (1, 26, 26));
        assert_eq!((with(0, 0), with(1, 0), with(u32::MAX, 0)), (1, 26, 26));
        assert_eq!((with(0, 1), with(1, 1), with(u32::MAX, 1)), (1, 1, 1));
    }
}

// ---- 12 to 17 and 25

/// A packet of this length and BSIZE; n follows BSIZE.
fn of_length(length: usize, bsize: usize) -> u8 {
    number_with(&|call| {
        call.packet.resize(length.max(64), 0);
        lay(&mut call.packet, 4, &(bsize as u32).to_be_bytes());
        lay(&mut call.packet, 58, &(bsize as u16).to_be_bytes());
        call.packet.truncate(length);
    })
}

#[test]
fn row_12_lengths_on_both_sides() {
    assert_eq!(
        (of_length(0, 0), of_length(63, 63), of_length(64, 64)),
        (12, 12, 1)
    );
    assert_eq!((of_length(1_460, 1_460), of_length(1_461, 1_461)), (1, 1));
    assert_eq!((of_length(1_472, 1_472), of_length(1_473, 1_473)), (1, 12));
    assert_eq!((of_length(65_535, 65_535), of_length(65_600, 64)), (12, 12));
    assert_eq!((of_length(100, 99), of_length(100, 101)), (12, 12));
    assert_eq!((of_length(1_472, 1_471), of_length(1_472, 1_473)), (12, 12));
}

#[test]
fn messages_of_0_to_1408_octets_are_handed_over() {
    for n in [0, 1, 255, 1_396, 1_397, 1_407, 1_408] {
        let mut call = good_call();
        call.packet = one_piece(n).pdu(1);
        let answer = answer_of(&mut call);
        assert_eq!((answer.number, answer.message), (1, Where::Packet));
        assert_eq!(part(answer.message, &call.packet, &[]), octets(n), "{n}");
    }
    assert_eq!(
        number_with(&|call| call.packet = one_piece(1_409).pdu(1)),
        12
    );
}

#[test]
fn row_13_is_that_of_the_message_call() {
    for at in (0..4)
        .chain([8])
        .chain(28..40)
        .chain(42..52)
        .chain([54])
        .chain(60..64)
    {
        assert_eq!(number_with(&|call| call.packet[at] ^= 1), 13, "octet {at}");
        assert_eq!(
            number_with(&|call| call.packet[at] ^= 0x80),
            13,
            "octet {at}"
        );
    }
    let with = |at: usize, octets: &[u8]| number_with(&|call| lay(&mut call.packet, at, octets));
    assert_eq!(
        (with(55, &[7]), with(55, &[8]), with(55, &[255])),
        (1, 13, 13)
    );
    assert_eq!((with(52, &[0, 2]), with(52, &[1, 0])), (13, 13));
    let code = |tcd: u16| with(40, &tcd.to_be_bytes());
    assert_eq!((code(0), code(1), code(59_999)), (13, 1, 1));
    assert_eq!((code(60_000), code(60_003), code(65_535)), (13, 13, 13));
    let seq = |seq: u32| with(20, &seq.to_be_bytes());
    assert_eq!((seq(0), seq(1), seq(M), seq(M + 1)), (13, 1, 1, 13));
    assert_eq!(seq(u32::MAX), 13);
}

/// "DA and M_CTL are not looked at."
#[test]
fn da_and_m_ctl_may_hold_anything() {
    for at in (12..16).chain(24..28) {
        for octet in [0, 1, 5, 200, 255] {
            assert_eq!(
                number_with(&|call| call.packet[at] = octet),
                1,
                "octet {at}"
            );
        }
    }
}

#[test]
fn row_14_senders() {
    let from = |field: u8, node: u16| {
        number_with(&|call| call.packet = one_piece(10).from(field, node).pdu(1))
    };
    assert_eq!((from(1, 7), from(2, 9), from(3, 9)), (1, 1, 1));
    assert_eq!((from(1, 9), from(2, 7), from(4, 9)), (14, 14, 14));
    assert_eq!((from(1, 4_103), from(0, 7), from(1, 0)), (14, 14, 14));
}

#[test]
fn row_25_groups() {
    let to = |group: u8| number_with(&|call| call.group = group);
    assert_eq!((to(5), to(200)), (1, 1));
    for group in (0..=255).filter(|group| ![5, 200].contains(group)) {
        assert_eq!(to(group), 25, "{group}");
    }
    // Only past the count.
    let past = |group: u8| {
        number_with(&|call| {
            call.receiver.groups = groups(2, &[5, 200, 9, 0, 7]);
            call.group = group;
        })
    };
    assert_eq!((past(200), past(9), past(0), past(7)), (1, 25, 25, 25));
}

/// "With no groups the tables are empty and every group is 25 (after 14)."
#[test]
fn row_25_without_groups() {
    let to = |group: u8, node: u8, entries: usize| {
        number_with(&|call| {
            call.receiver.groups = groups(0, &[]);
            call.versions = vec![0; entries];
            call.numbers = vec![0; entries];
            call.packet[11] = node;
            call.group = group;
        })
    };
    assert_eq!((to(0, 7, 0), to(1, 7, 0), to(255, 7, 0)), (25, 25, 25));
    assert_eq!((to(1, 8, 0), to(1, 7, 8), to(1, 7, 24)), (14, 26, 26));
}

#[test]
fn row_15_only_test_at_online() {
    let at = |node_is_test: bool, mode: u8| {
        number_with(&|call| {
            call.receiver.test = node_is_test;
            call.packet[53] = mode;
        })
    };
    assert_eq!((at(false, 0), at(false, 1)), (1, 15));
    assert_eq!((at(true, 0), at(true, 1)), (1, 1));
}

#[test]
fn row_16_unless_one_piece_and_p_is_n() {
    let with = |at: usize, octets: &[u8]| number_with(&|call| lay(&mut call.packet, at, octets));
    for octet in [0, 2, 255] {
        assert_eq!(
            (with(56, &[octet]), with(57, &[octet])),
            (16, 16),
            "{octet}"
        );
        assert_eq!(with(56, &[octet, octet]), 16, "{octet}");
    }
    let ml = |ml: u32| with(4, &ml.to_be_bytes());
    assert_eq!((ml(73), ml(74), ml(75)), (16, 1, 16));
    assert_eq!((ml(0), ml(10), ml(63), ml(64)), (16, 16, 16, 16));
    assert_eq!((ml(74 + 65_536), ml(u32::MAX)), (16, 16));
    let none = |ml: u32| {
        number_with(&|call| {
            call.packet = one_piece(0).pdu(1);
            lay(&mut call.packet, 4, &ml.to_be_bytes());
        })
    };
    assert_eq!((none(0), none(63), none(64), none(65)), (16, 16, 1, 16));
    assert_eq!(none(u32::MAX), 16);
    // A good piece of several.
    let piece = |at: usize| number_with(&|call| call.packet = figure_54().pdu(at));
    assert_eq!((piece(1), piece(4)), (16, 16));
}

// ---- the check

/// Number, verdict and skipped of a message with this version and number, where the
/// packet's entry is this one; and the entry afterwards.
fn checked(n1: u16, last: (u32, u32), packet: (u32, u32)) -> ((u8, u8, u32), (u32, u32)) {
    let mut call = call_with(n1, last, packet);
    let a = answer_of(&mut call);
    let entry = (call.versions[8], call.numbers[8]);
    ((a.number, a.verdict.number(), a.skipped), entry)
}

#[test]
fn the_check_of_table_14_with_the_entry() {
    let cases = [
        ((0, 0), (5, 100), (1, 1, 0)),
        ((5, 100), (5, 101), (1, 2, 0)),
        ((5, 100), (6, 101), (1, 3, 0)),
        ((5, 100), (6, 100), (1, 3, 0)),
        ((5, 100), (5, 103), (1, 4, 2)),
        ((5, 100), (5, 84), (1, 4, 2_147_483_630)),
        ((5, M), (5, 1), (1, 2, 0)),
        ((5, M), (5, 2), (1, 4, 1)),
        ((5, 3), (5, 2_147_483_634), (1, 4, 2_147_483_630)),
        // Version 0 with SEQ not 1, and behind it.
        ((5, 100), (0, 2), (1, 3, 0)),
        ((0, 2), (0, 2), (1, 1, 0)),
        ((0, 2), (5, 2), (1, 1, 0)),
        ((u32::MAX, 7), (u32::MAX, 8), (1, 2, 0)),
    ];
    for (last, packet, expected) in cases {
        let delivered = checked(16, last, packet);
        assert_eq!(delivered, (expected, packet), "{last:?} {packet:?}");
    }
}

#[test]
fn repeats_and_unchecked_leave_the_entry() {
    let refused = (17, 0, 0);
    for (last, packet) in [
        ((5, 100), (5, 100)),
        ((5, 100), (5, 85)),
        ((5, M), (5, M)),
        ((5, 1), (5, M)),
        ((5, 3), (5, 2_147_483_635)),
    ] {
        assert_eq!(
            checked(16, last, packet),
            (refused, last),
            "{last:?} {packet:?}"
        );
    }
    for last in [(0, 0), (5, 100), (5, 1), (0, 1)] {
        assert_eq!(checked(16, last, (0, 1)), ((1, 5, 0), last), "{last:?}");
    }
}

/// The call of a packet with this version and number, whose entry is this one.
fn call_with(n1: u16, last: (u32, u32), packet: (u32, u32)) -> Call {
    let mut call = good_call();
    call.receiver.n1 = n1;
    (call.versions[8], call.numbers[8]) = last;
    call.packet = one_piece(10).numbered(packet.0, packet.1).pdu(1);
    call
}

/// With 17 its age, how far the packet's number lies behind the entry's; otherwise 0.
#[test]
fn n1_is_that_of_the_state() {
    let number = |n1: u16, seq: u32| number_and_age(call_with(n1, (5, 2_000), (5, seq)));
    assert_eq!((number(1, 2_000), number(1, 1_999)), ((17, 0), (1, 0)));
    assert_eq!((number(2, 1_999), number(2, 1_998)), ((17, 1), (1, 0)));
    assert_eq!(
        (number(1_024, 1_999), number(1_024, 1_744)),
        ((17, 1), (17, 256))
    );
    assert_eq!(
        (number(1_024, 977), number(1_024, 976)),
        ((17, 1_023), (1, 0))
    );
}

// ---- entries

/// Every sender, group and PRI of a desk: a message is the first of its entry and
/// then a repeat there, whatever came to the others, and no two share an entry.
fn each_has_its_entry(senders: &[(u8, u16)], registered: Groups) {
    let receiver = desk(senders, registered);
    let entries = senders.len() * registered.registered().len() * 8;
    let mut call = Call {
        receiver,
        versions: vec![0; entries],
        numbers: vec![0; entries],
        group: 0,
        packet: Vec::new(),
    };
    let mut place = 0;
    for (field, node) in senders {
        for group in registered.registered() {
            for pri in 0..8 {
                call.group = *group;
                let sent = Message {
                    pri,
                    ..one_piece(10).from(*field, *node)
                };
                call.packet = sent.pdu(1);
                let first = answer_of(&mut call);
                assert_eq!((first.number, first.verdict.number()), (1, 1));
                assert_eq!(number_of(call.clone()), 17);
                // In the order of setup, and PRI last.
                let filled = call.numbers.iter().filter(|number| **number != 0).count();
                assert_eq!((filled, call.numbers[place]), (place + 1, 100));
                place += 1;
            }
        }
    }
    assert_eq!(place, entries);
    assert!(call.versions.iter().all(|version| *version == 5));
}

#[test]
fn each_sender_group_and_priority_has_its_entry() {
    each_has_its_entry(&[(1, 7)], groups(1, &[255]));
    each_has_its_entry(&[(2, 9), (1, 7)], groups(3, &[5, 1, 255]));
    each_has_its_entry(&[(1, 7), (1, 8), (2, 7), (255, 4_095)], groups(2, &[2, 1]));
    let sixteen: Vec<(u8, u16)> = (1..=16).map(|i| (i, 100 - u16::from(i))).collect();
    each_has_its_entry(&sixteen, groups(8, &[200, 3, 255, 1, 77, 2, 9, 128]));
}

/// Small pseudo-random numbers of the test's own.
struct Throws(u64);

impl Throws {
    fn below(&mut self, n: u64) -> u64 {
        self.0 = self
            .0
            .wrapping_mul(6_364_136_223_846_793_005)
            .wrapping_add(1_442_695_040_888_963_407);
        (self.0 >> 33) % n
    }
}

/// The four rules by steps: a repeat is one of the N1 numbers that end with R. The
/// verdict, and with 0 how many steps back it was found.
fn by_steps(last: (u32, u32), (version, seq): (u32, u32), n1: u32) -> (u8, u32) {
    let back = |steps: u32| (1..=steps).fold(last.1, |at, _| if at == 1 { M } else { at - 1 });
    let found = || (0..n1).find(|steps| back(*steps) == seq);
    match last {
        _ if (version, seq) == (0, 1) => (5, 0),
        (0, _) => (1, 0),
        (rv, _) if rv != version => (3, 0),
        (_, r) if (r == M && seq == 1) || (r < M && seq == r + 1) => (2, 0),
        _ => found().map_or((4, 0), |steps| (0, steps)),
    }
}

/// Many calls to few entries: each verdict, and each age of a repeat, is that of the
/// last message that was delivered to the same sender, group and priority, by a record
/// that knows no tables.
#[test]
fn verdicts_are_those_of_the_last_delivery_to_the_same() {
    let senders = [(1, 7), (2, 9), (1, 9)];
    let mut call = good_call();
    call.receiver = desk(&senders, groups(3, &[9, 200, 1]));
    call.receiver.n1 = 3;
    (call.versions, call.numbers) = (vec![0; 72], vec![0; 72]);
    let mut record: BTreeMap<(usize, u8, u8), (u32, u32)> = BTreeMap::new();
    let mut throws = Throws(7);
    let (mut seen, mut ages) = ([0; 6], [0; 3]);
    for _ in 0..20_000 {
        let sender = throws.below(3) as usize;
        let group = [9, 200, 1][throws.below(3) as usize];
        let pri = [0, 3, 7][throws.below(3) as usize];
        let version = [0, 5, 5, 5, 5, 6][throws.below(6) as usize];
        let seq = [M - 2, M - 1, M, 1, 2, 3, 4, 5][throws.below(8) as usize];
        let (field, node) = senders[sender];
        let sent = Message {
            pri,
            ..one_piece(3).from(field, node).numbered(version, seq)
        };
        (call.group, call.packet) = (group, sent.pdu(1));
        let last = record.entry((sender, group, pri)).or_default();
        let (expected, age) = by_steps(*last, (version, seq), 3);
        let answer = answer_of(&mut call);
        assert_eq!((answer.verdict.number(), answer.age), (expected, age));
        assert_eq!(answer.number, if expected == 0 { 17 } else { 1 });
        if ![0, 5].contains(&expected) {
            *last = (version, seq);
        }
        seen[usize::from(expected)] += 1;
        ages[age as usize] += u32::from(expected == 0);
    }
    assert!(seen.iter().all(|count| *count > 100), "{seen:?}");
    assert!(ages.iter().all(|count| *count > 100), "{ages:?}");
}

// ---- beside peer-to-peer messages

/// 02: "demand 3 still speaks of peer-to-peer messages, which it doesn't touch."
/// The state is only looked at; here the last number, the open message and the
/// storage of one kind and the entries of the other stay as they are.
#[test]
fn the_two_kinds_do_not_touch_each_other() {
    let mut call = good_call();
    let mut storage = vec![0xee; 3 * 16_384];
    let mut take = |call: &mut Call, packet: &[u8]| {
        let tables = (call.versions.clone(), call.numbers.clone());
        let answer = message(&mut call.receiver, &mut storage, packet);
        assert_eq!((call.versions.clone(), call.numbers.clone()), tables);
        (answer.number, answer.verdict.number())
    };
    assert_eq!(take(&mut call, &figure_54().pdu(2)), (0, 0));
    let state = call.receiver.clone();
    // The same version and number, a newer one, and another version.
    for (version, seq, verdict) in [(5, 100, 2), (5, 101, 2), (6, 1, 3), (0, 1, 5)] {
        call.packet = one_piece(10).numbered(version, seq).pdu(1);
        let answer = answer_of(&mut call);
        assert_eq!((answer.number, answer.verdict.number()), (1, verdict));
        assert_eq!(call.receiver, state);
    }
    for piece in [1, 3] {
        assert_eq!(take(&mut call, &figure_54().pdu(piece)), (0, 0));
    }
    assert_eq!(take(&mut call, &figure_54().pdu(4)), (1, 1));
    let whole = one_piece(10).numbered(5, 101).pdu(1);
    assert_eq!(take(&mut call, &whole), (1, 2));
    assert_eq!((call.versions[8], call.numbers[8]), (6, 1));
}
