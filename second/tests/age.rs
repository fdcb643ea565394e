//! The age of a repeat (02, item 6): how far a refused number lies behind the one that
//! was last delivered, of message calls and of multicast calls. All of it is added by
//! hand on the ring 1 to M.

mod common;

use common::{figure_54, octets, Message, M};
use second::clock::clock;
use second::multicast::{multicast, Tables};
use second::receiver::{message, part, Where};
use second::state::{setup, Groups, Receiver, Setup};

/// Senders 1:7 and 2:9, groups 5 and 200, and all that is lent.
struct Desk {
    receiver: Receiver,
    storage: Vec<u8>,
    versions: Vec<u32>,
    numbers: Vec<u32>,
}

/// Number and age of an answer.
type Told = (u8, u32);

impl Desk {
    fn new(n1: u16) -> Desk {
        let wanted = Setup {
            mode: 0,
            n1,
            t: 15_000,
            senders: vec![(1, 7), (2, 9)],
            groups: Groups {
                count: 2,
                places: [5, 200, 0, 0, 0, 0, 0, 0],
            },
        };
        let (number, receiver) = setup(&wanted);
        assert_eq!(number, 0);
        Desk {
            receiver,
            storage: vec![0xee; 2 * 16_384],
            versions: vec![0; 32],
            numbers: vec![0; 32],
        }
    }

    /// A repeat alters nothing, and its part is empty: only its number and its age are
    /// told.
    fn call(&mut self, packet: &[u8]) -> Told {
        let before = (self.receiver.clone(), self.storage.clone());
        let answer = message(&mut self.receiver, &mut self.storage, packet);
        if answer.number == 17 {
            assert_eq!((&self.receiver, &self.storage), (&before.0, &before.1));
            let nothing = (answer.verdict.number(), answer.skipped, answer.held);
            assert_eq!(nothing, (0, 0, 0));
            assert_eq!((answer.dropped_version, answer.dropped_number), (0, 0));
            assert_eq!(part(answer.message, packet, &self.storage), []);
        } else {
            assert_eq!(answer.age, 0, "{}", answer.number);
        }
        (answer.number, answer.age)
    }

    /// A message of one piece of the first sender.
    fn number(&mut self, version: u32, seq: u32) -> Told {
        self.call(&whole(version, seq).pdu(1))
    }

    /// One of three pieces of the first sender's.
    fn piece(&mut self, version: u32, seq: u32, piece: usize) -> Told {
        let three = figure_54().numbered(version, seq).sized(600, 256);
        self.call(&three.pdu(piece))
    }

    /// A packet to a group; a repeat leaves the tables.
    fn cast(&mut self, group: u8, sent: &Message) -> Told {
        let before = (self.versions.clone(), self.numbers.clone());
        let tables = Tables {
            versions: &mut self.versions,
            numbers: &mut self.numbers,
        };
        let answer = multicast(&self.receiver, tables, group, &sent.pdu(1));
        if answer.number == 17 {
            assert_eq!((&self.versions, &self.numbers), (&before.0, &before.1));
            assert_eq!((answer.verdict.number(), answer.skipped), (0, 0));
            assert_eq!(answer.message, Where::Nothing);
        } else {
            assert_eq!(answer.age, 0, "{}", answer.number);
        }
        (answer.number, answer.age)
    }
}

fn whole(version: u32, seq: u32) -> Message {
    figure_54().numbered(version, seq).sized(10, 256)
}

const DELIVERED: Told = (1, 0);
const STORED: Told = (0, 0);

/// N1, the last delivered number, and numbers with their ages.
type Behind = (u16, u32, &'static [(u32, u32)]);

/// 0, 1, N1 - 1; behind 1 comes M.
const REPEATS: [Behind; 9] = [
    (16, 100, &[(100, 0), (99, 1), (92, 8), (85, 15)]),
    (16, 3, &[(3, 0), (2, 1), (1, 2), (M, 3), (M - 12, 15)]),
    (16, 1, &[(1, 0), (M, 1), (M - 14, 15)]),
    (16, M, &[(M, 0), (M - 1, 1), (M - 15, 15)]),
    (1, 100, &[(100, 0)]),
    (1, 1, &[(1, 0)]),
    (2, 1, &[(1, 0), (M, 1)]),
    (
        1_024,
        2_000,
        &[(1_999, 1), (1_745, 255), (1_744, 256), (977, 1_023)],
    ),
    (
        1_024,
        1_000,
        &[(1_000, 0), (1, 999), (M, 1_000), (M - 23, 1_023)],
    ),
];

/// The number that is N1 behind the last one.
const BEYOND: [u32; 9] = [84, M - 13, M - 15, M - 16, 99, M, M - 1, 976, M - 24];

#[test]
fn a_repeat_has_its_age_and_the_number_n1_back_is_none() {
    for ((n1, last, repeats), beyond) in REPEATS.into_iter().zip(BEYOND) {
        let mut desk = Desk::new(n1);
        assert_eq!(desk.number(5, last), DELIVERED);
        assert_eq!(desk.cast(200, &whole(5, last)), DELIVERED);
        for (seq, age) in repeats {
            let expected = (17, *age);
            assert_eq!(desk.number(5, *seq), expected, "N1 {n1}, R {last}, {seq}");
            assert_eq!(desk.piece(5, *seq, 2), expected, "N1 {n1}, R {last}, {seq}");
            assert_eq!(desk.cast(200, &whole(5, *seq)), expected);
        }
        assert_eq!(desk.number(5, beyond), DELIVERED, "N1 {n1}, R {last}");
        assert_eq!(desk.cast(200, &whole(5, beyond)), DELIVERED);
        // It is the last one now, a gap behind the other.
        assert_eq!(desk.number(5, beyond), (17, 0));
        assert_eq!(desk.cast(200, &whole(5, beyond)), (17, 0));
    }
}

/// "For each sender the last delivered version RV and number R are kept."
#[test]
fn the_age_is_counted_from_the_last_delivered_number() {
    let mut desk = Desk::new(16);
    desk.number(5, 100);
    assert_eq!(desk.piece(5, 110, 1), STORED);
    // Not from the open 110: 100 would be 10 back, and 97 be 13.
    assert_eq!(
        (desk.number(5, 100), desk.piece(5, 97, 3)),
        ((17, 0), (17, 3))
    );
    assert_eq!(desk.number(5, 85), (17, 15));
    // 16 back: only older than the open one. Nor have 19 and 20 an age.
    assert_eq!(desk.number(5, 84), (18, 0));
    assert_eq!(desk.number(5, 110), (19, 0));
    assert_eq!(desk.piece(5, 110, 1), (20, 0));
    assert_eq!(
        (desk.piece(5, 110, 2), desk.piece(5, 110, 3)),
        (STORED, DELIVERED)
    );
    assert_eq!(
        (desk.number(5, 100), desk.piece(5, 110, 2)),
        ((17, 10), (17, 0))
    );
    assert_eq!(
        (desk.number(5, 95), desk.number(5, 94)),
        ((17, 15), DELIVERED)
    );
}

#[test]
fn what_is_open_or_dropped_does_not_count() {
    let mut desk = Desk::new(16);
    desk.number(5, 100);
    // 47 back from M and 100 on is 147 back: older than all repeats, which are newer.
    assert_eq!(desk.piece(5, M - 47, 1), STORED);
    assert_eq!(
        (desk.number(5, 98), desk.number(5, 100)),
        ((17, 2), (17, 0))
    );
    // Another version is open, then a newer number of it, then nothing.
    assert_eq!(desk.piece(6, 1, 1), STORED);
    assert_eq!(desk.number(5, 95), (17, 5));
    assert_eq!(desk.piece(6, 9, 1), STORED);
    assert_eq!(desk.number(5, 90), (17, 10));
    assert_eq!(clock(&mut desk.receiver, 15_000).dropped, 1);
    assert_eq!(desk.number(5, 85), (17, 15));
    // Another version that is delivered is counted from its own number.
    assert_eq!(desk.number(6, 90), DELIVERED);
    assert_eq!(
        (desk.number(6, 85), desk.number(5, 85)),
        ((17, 5), DELIVERED)
    );
}

/// "Delivery leaves RV and R": the older R is the one that is counted from.
#[test]
fn unchecked_leaves_what_is_counted_from() {
    let mut desk = Desk::new(16);
    desk.number(5, 100);
    desk.cast(200, &whole(5, 100));
    for age in [0, 1, 9, 15] {
        assert_eq!(desk.number(0, 1), DELIVERED);
        assert_eq!(desk.cast(200, &whole(0, 1)), DELIVERED);
        assert_eq!(desk.number(5, 100 - age), (17, age));
        assert_eq!(desk.cast(200, &whole(5, 100 - age)), (17, age));
    }
    // While one of several pieces is open.
    assert_eq!(desk.piece(0, 1, 1), STORED);
    assert_eq!(desk.number(5, 93), (17, 7));
    assert_eq!(
        (desk.piece(0, 1, 3), desk.piece(0, 1, 2)),
        (STORED, DELIVERED)
    );
    assert_eq!(desk.number(5, 93), (17, 7));
}

/// Behind version 0 nothing is a repeat: RV is 0, and each is the first.
#[test]
fn version_0_has_no_ages() {
    let mut desk = Desk::new(16);
    for seq in [100, 100, 99, 85, 2] {
        assert_eq!(desk.number(0, seq), DELIVERED);
        assert_eq!(desk.cast(200, &whole(0, seq)), DELIVERED);
    }
    // (0, 1) behind (0, 2), and behind (5, 2).
    assert_eq!(desk.number(0, 1), DELIVERED);
    assert_eq!((desk.number(5, 2), desk.number(5, 1)), (DELIVERED, (17, 1)));
    assert_eq!((desk.number(0, 1), desk.number(5, 1)), (DELIVERED, (17, 1)));
    // Rule 3: a restart under version 0, and from it.
    assert_eq!(
        (desk.number(0, 2), desk.number(5, 2)),
        (DELIVERED, DELIVERED)
    );
}

/// "The lowest number that applies is given": 15 and 16 before 17, and 12 to 14 and 25
/// too. The packet is 3 back in each.
#[test]
fn other_numbers_come_first_and_have_no_age() {
    let mut desk = Desk::new(16);
    desk.number(5, 103);
    desk.cast(200, &whole(5, 103));
    let old = whole(5, 100);
    assert_eq!(
        (desk.call(&old.pdu(1)), desk.cast(200, &old)),
        ((17, 3), (17, 3))
    );
    let changes: [(u8, usize, u8); 5] = [
        (12, 59, 75), // BSIZE
        (13, 55, 8),  // PRI
        (14, 11, 8),  // node
        (15, 53, 1),  // MODE
        (16, 56, 2),  // CBN
    ];
    for (number, at, octet) in changes {
        let mut packet = old.pdu(1);
        packet[at] = octet;
        assert_eq!(desk.call(&packet), (number, 0));
        let tables = Tables {
            versions: &mut desk.versions,
            numbers: &mut desk.numbers,
        };
        let answer = multicast(&desk.receiver, tables, 200, &packet);
        assert_eq!((answer.number, answer.age), (number, 0));
    }
    assert_eq!(desk.cast(6, &old), (25, 0));
    desk.numbers[0] = M + 1;
    assert_eq!(desk.cast(200, &old), (26, 0));
    desk.numbers[0] = 0;
    desk.storage.push(0);
    assert_eq!(desk.call(&old.pdu(1)), (11, 0));
    desk.receiver.n1 = 0;
    assert_eq!(
        (desk.call(&old.pdu(1)), desk.cast(200, &old)),
        ((9, 0), (9, 0))
    );
    // At a test node a test message is a repeat like any other.
    desk.receiver.n1 = 16;
    desk.receiver.test = true;
    desk.storage.pop();
    let test = Message { mode: 1, ..old };
    assert_eq!(
        (desk.call(&test.pdu(1)), desk.cast(200, &test)),
        ((17, 3), (17, 3))
    );
}

/// Two senders, two groups, two priorities, and the messages to nobody but this node:
/// each counted from its own last number.
#[test]
fn each_sender_group_and_priority_is_counted_apart() {
    let mut desk = Desk::new(16);
    let entry = |field, node, pri, seq| Message {
        pri,
        ..whole(5, seq).from(field, node)
    };
    let casts = |seq: [u32; 4]| {
        [
            (200, entry(1, 7, 0, seq[0])),
            (200, entry(2, 9, 0, seq[1])),
            (5, entry(1, 7, 0, seq[2])),
            (200, entry(1, 7, 7, seq[3])),
        ]
    };
    for (group, sent) in casts([100, 101, 102, 103]) {
        assert_eq!(desk.cast(group, &sent), DELIVERED);
    }
    assert_eq!(desk.number(5, 104), DELIVERED);
    assert_eq!(desk.call(&entry(2, 9, 0, 105).pdu(1)), DELIVERED);
    for (steps, (group, sent)) in (0..).zip(casts([95; 4])) {
        assert_eq!(desk.cast(group, &sent), (17, 5 + steps));
    }
    // PRI does not part the messages of a sender to this node.
    assert_eq!(desk.call(&entry(1, 7, 7, 95).pdu(1)), (17, 9));
    assert_eq!(desk.call(&entry(2, 9, 7, 95).pdu(1)), (17, 10));
    // One goes on, the others stay.
    assert_eq!(desk.cast(200, &entry(1, 7, 0, 101)), DELIVERED);
    for (age, (group, sent)) in [6, 6, 7, 8].into_iter().zip(casts([95; 4])) {
        assert_eq!(desk.cast(group, &sent), (17, age));
    }
    assert_eq!(desk.number(5, 95), (17, 9));
    // An entry that nothing came to.
    assert_eq!(desk.cast(5, &entry(2, 9, 0, 95)), DELIVERED);
}

/// A one-piece message and one of several, delivered and then again: the same number.
#[test]
fn a_stutter_is_0() {
    let mut desk = Desk::new(1_024);
    let packet = figure_54().sized(10, 256).pdu(1);
    let first = message(&mut desk.receiver, &mut desk.storage, &packet);
    assert_eq!((first.number, first.age), (1, 0));
    assert_eq!(part(first.message, &packet, &desk.storage), octets(10));
    assert_eq!(desk.call(&packet), (17, 0));
    for piece in [1, 2] {
        assert_eq!(desk.piece(5, 101, piece), STORED);
    }
    assert_eq!(desk.piece(5, 101, 3), DELIVERED);
    for piece in [1, 2, 3] {
        assert_eq!(desk.piece(5, 101, piece), (17, 0));
    }
}
