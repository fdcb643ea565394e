//! The kept count of pieces held (02, item 1): what each call leaves of it, and
//! that it is the number of ones of the map after every past.

mod common;

use common::{alive_of_node_2, figure_54, lay, receiver, Message};
use second::alive::alive;
use second::clock::clock;
use second::fields::{next_field, Next, Run};
use second::random::capture;
use second::receiver::message;
use second::state::{OpenMessage, Receiver};

/// Senders 1:7 and 1:2, with their storage.
struct Desk {
    receiver: Receiver,
    storage: Vec<u8>,
}

impl Desk {
    fn new() -> Desk {
        Desk {
            receiver: receiver(&[(1, 7), (1, 2)]),
            storage: vec![0xee; 2 * 16_384],
        }
    }

    /// Number and held of the answer.
    fn call(&mut self, packet: &[u8]) -> (u8, u32) {
        let answer = message(&mut self.receiver, &mut self.storage, packet);
        (answer.number, answer.held)
    }

    fn take(&mut self, of: &Message, piece: usize) -> (u8, u32) {
        self.call(&of.pdu(piece))
    }

    /// The kept counts of both senders.
    fn held(&self) -> [u8; 2] {
        [self.receiver.held(0), self.receiver.held(1)]
    }
}

#[test]
fn a_joined_piece_is_one_more_and_the_answer_has_the_kept_number() {
    for order in [[1, 2, 3, 4], [4, 3, 2, 1], [2, 4, 1, 3]] {
        let mut desk = Desk::new();
        assert_eq!(desk.held(), [0, 0]);
        for (piece, held) in order[..3].iter().zip(1..) {
            assert_eq!(desk.take(&figure_54(), *piece), (0, u32::from(held)));
            assert_eq!(desk.held(), [held, 0]);
        }
        assert_eq!(desk.take(&figure_54(), order[3]), (1, 0));
        assert_eq!(desk.held(), [0, 0]);
        assert_eq!(desk.receiver.senders[0].message, OpenMessage::default());
    }
}

#[test]
fn of_twelve_eleven_and_of_sixty_four_sixty_three() {
    for (u, count) in [(1_396, 12), (256, 64)] {
        let longest = figure_54().sized(16_384, u);
        let forwards: Vec<usize> = (1..=count).collect();
        let backwards: Vec<usize> = (1..=count).rev().collect();
        for order in [forwards, backwards] {
            let mut desk = Desk::new();
            for (piece, held) in order[..count - 1].iter().zip(1..) {
                assert_eq!(desk.take(&longest, *piece).0, 0);
                assert_eq!(desk.held(), [held, 0]);
            }
            assert_eq!(desk.held()[0] as usize, count - 1);
            assert_eq!(desk.take(&longest, order[count - 1]), (1, 0));
            assert_eq!(desk.held(), [0, 0]);
        }
    }
}

/// A desk that delivered number 99 and holds pieces 2 and 4 of number 100.
fn half_joined() -> Desk {
    let mut desk = Desk::new();
    let before = figure_54().numbered(5, 99).sized(10, 256);
    assert_eq!(desk.take(&before, 1), (1, 0));
    assert_eq!(desk.take(&figure_54(), 2), (0, 1));
    assert_eq!(desk.take(&figure_54(), 4), (0, 2));
    desk
}

#[test]
fn a_refused_piece_is_no_more() {
    let with = |at: usize, octet: u8| {
        let mut packet = figure_54().pdu(1);
        packet[at] = octet;
        packet
    };
    let other_code = Message {
        tcd: 2,
        ..figure_54()
    };
    let refused = [
        (12, figure_54().pdu(1)[..100].to_vec()),
        (13, with(55, 8)),
        (14, with(11, 8)),
        (15, with(53, 1)),
        (16, with(56, 0)),
        (17, figure_54().numbered(5, 99).pdu(1)),
        (18, figure_54().numbered(5, 70).pdu(1)),
        (19, other_code.pdu(1)),
        (20, figure_54().pdu(2)),
        (20, figure_54().pdu(4)),
    ];
    let mut desk = half_joined();
    for (number, packet) in refused {
        assert_eq!(desk.call(&packet), (number, 0));
        assert_eq!(desk.held(), [2, 0], "{number}");
    }
    desk.storage.push(0);
    assert_eq!(desk.take(&figure_54(), 1), (11, 0));
    assert_eq!(desk.held(), [2, 0]);
}

#[test]
fn a_message_that_replaces_another_begins_at_1() {
    for (version, seq) in [(5, 101), (6, 100), (0, 1), (4, 7)] {
        let mut desk = half_joined();
        let newcomer = figure_54().numbered(version, seq);
        assert_eq!(desk.take(&newcomer, 3), (0, 1));
        assert_eq!(desk.held(), [1, 0], "{version} {seq}");
        assert_eq!(desk.take(&newcomer, 2), (0, 2));
        assert_eq!(desk.held(), [2, 0], "{version} {seq}");
    }
    // Of one piece: nothing is open behind it.
    let mut desk = half_joined();
    let whole = figure_54().numbered(5, 101).sized(10, 256);
    assert_eq!(desk.take(&whole, 1), (1, 0));
    assert_eq!(desk.held(), [0, 0]);
}

#[test]
fn each_sender_has_its_own_count() {
    let mut desk = half_joined();
    let of_second = figure_54().from(1, 2);
    assert_eq!(desk.take(&of_second, 1), (0, 1));
    assert_eq!(desk.held(), [2, 1]);
    assert_eq!(desk.take(&figure_54(), 1), (0, 3));
    assert_eq!(desk.held(), [3, 1]);
    assert_eq!(desk.take(&figure_54(), 3), (1, 0));
    assert_eq!(desk.held(), [0, 1]);
    assert_eq!(desk.take(&of_second, 2), (0, 2));
    assert_eq!(desk.held(), [0, 2]);
}

/// T is 15000; a signal of mode 1 or 2 leaves the open message alone.
#[test]
fn a_clock_drop_leaves_none_and_a_signal_all() {
    let mut desk = half_joined();
    for mode in [1, 2] {
        let mut signal = alive_of_node_2();
        lay(&mut signal, 10, &7u16.to_be_bytes());
        signal[90] = mode;
        assert_eq!(alive(&mut desk.receiver, &signal), 0);
        assert_eq!(desk.held(), [2, 0]);
    }
    assert_eq!(clock(&mut desk.receiver, 14_999).dropped, 0);
    assert_eq!(desk.held(), [2, 0]);
    assert_eq!(clock(&mut desk.receiver, 15_000).dropped, 1);
    assert_eq!(desk.held(), [0, 0]);
    assert_eq!(desk.receiver.senders[0].message, OpenMessage::default());
    // Opened anew, it begins at 1.
    assert_eq!(desk.take(&figure_54(), 3), (0, 1));
    assert_eq!(desk.held(), [1, 0]);
}

fn ones(map: u64) -> u8 {
    (0..64).map(|place| (map >> place & 1) as u8).sum()
}

/// 02: "Every call keeps it equal to the number of ones in the map"; a record that
/// is not open is 0 altogether.
fn expect_kept(state: &Receiver) {
    for (place, sender) in state.senders.iter().enumerate() {
        if sender.open {
            assert_eq!(sender.message.held, ones(sender.message.map));
            assert!((1..=63).contains(&sender.message.held));
        } else {
            assert_eq!(sender.message, OpenMessage::default());
        }
        assert_eq!(state.held(place), ones(sender.message.map));
    }
    assert_eq!(state.held(state.senders.len()), 0);
}

#[test]
fn after_every_random_past_the_count_is_that_of_the_map() {
    for seed in 0..6 {
        let capture = capture(seed, 3_000);
        let (mut run, mut rest) = (Run::default(), &capture[..]);
        let (mut steps, mut most) = (0, 0);
        while let Next::One {
            field, rest: next, ..
        } = next_field(rest)
        {
            run.step(&field);
            expect_kept(&run.receiver);
            most = most.max(run.receiver.held(0));
            (rest, steps) = (next, steps + 1);
        }
        assert_eq!(steps, 3_000);
        assert!(most >= 5, "seed {seed}: at most {most}");
    }
}
