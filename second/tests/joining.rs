//! Joining, the number check at delivery, the question, and the tally.

mod common;

use common::{figure_54, octet, octets, receiver, Message, M};
use second::receiver::{message, part, question, Answer, MessageAnswer, Where};
use second::state::{setup, Groups, OpenMessage, Receiver, Setup};
use second::tally::{counted_message, Tally};

/// A receiver with its storage, whose octets are not 0 at the beginning.
struct Desk {
    receiver: Receiver,
    storage: Vec<u8>,
}

impl Desk {
    fn new(senders: &[(u8, u16)]) -> Desk {
        Desk {
            receiver: receiver(senders),
            storage: vec![0xee; 16_384 * senders.len()],
        }
    }

    fn call(&mut self, packet: &[u8]) -> MessageAnswer {
        message(&mut self.receiver, &mut self.storage, packet)
    }

    /// Number, verdict, held, and the delivered octets.
    fn take(&mut self, of: &Message, piece: usize) -> (u8, u8, u32, Vec<u8>) {
        let packet = of.pdu(piece);
        let answer = self.call(&packet);
        let delivered = part(answer.message, &packet, &self.storage).to_vec();
        (
            answer.number,
            answer.verdict.number(),
            answer.held,
            delivered,
        )
    }

    fn last(&self, at: usize) -> (u32, u32) {
        let sender = &self.receiver.senders[at];
        (sender.last_version, sender.last_number)
    }
}

fn stored(held: u32) -> (u8, u8, u32, Vec<u8>) {
    (0, 0, held, Vec::new())
}

fn refused(number: u8) -> (u8, u8, u32, Vec<u8>) {
    (number, 0, 0, Vec::new())
}

fn permutations(list: &[usize]) -> Vec<Vec<usize>> {
    if list.is_empty() {
        return vec![Vec::new()];
    }
    let mut all = Vec::new();
    for (i, first) in list.iter().enumerate() {
        let mut rest = list.to_vec();
        rest.remove(i);
        for tail in permutations(&rest) {
            all.push([vec![*first], tail].concat());
        }
    }
    all
}

#[test]
fn figure_54_in_every_order() {
    let orders = permutations(&[1, 2, 3, 4]);
    assert_eq!(orders.len(), 24);
    for order in orders {
        let mut desk = Desk::new(&[(1, 7)]);
        for (i, piece) in order[..3].iter().enumerate() {
            assert_eq!(desk.take(&figure_54(), *piece), stored(i as u32 + 1));
        }
        let delivered = desk.take(&figure_54(), order[3]);
        assert_eq!(delivered, (1, 1, 0, octets(4500)), "{order:?}");
        assert_eq!(desk.last(0), (5, 100));
        assert!(!desk.receiver.senders[0].open);
        assert_eq!(desk.receiver.senders[0].message, OpenMessage::default());
        // Figure 54's fifth packet: SEQ 101, not fragmented, BSIZE = ML = 1024.
        let fifth = figure_54().numbered(5, 101).sized(960, 1332);
        assert_eq!(desk.take(&fifth, 1), (1, 2, 0, octets(960)));
    }
}

#[test]
fn a_piece_changes_exactly_its_octets() {
    for piece in 1..=4 {
        let mut desk = Desk::new(&[(2, 9), (1, 7), (3, 3)]);
        assert_eq!(desk.take(&figure_54(), piece), stored(1));
        let start = (piece - 1) * 1332;
        let end = (start + 1332).min(4500);
        for (at, found) in desk.storage.iter().enumerate() {
            let i = at.wrapping_sub(16_384);
            let expected = if (start..end).contains(&i) {
                octet(i)
            } else {
                0xee
            };
            assert_eq!(*found, expected, "octet {at} after piece {piece}");
        }
    }
}

#[test]
fn one_piece_is_a_part_of_the_packet_and_storage_is_untouched() {
    for n in [0, 1, 1396] {
        let mut desk = Desk::new(&[(1, 7)]);
        let packet = figure_54().sized(n, 1396).pdu(1);
        let answer = desk.call(&packet);
        assert_eq!((answer.number, answer.message), (1, Where::Packet));
        assert_eq!(part(answer.message, &packet, &desk.storage), octets(n));
        assert!(desk.storage.iter().all(|octet| *octet == 0xee));
    }
}

#[test]
fn a_message_lies_in_its_senders_area() {
    let mut desk = Desk::new(&[(2, 9), (1, 7)]);
    let small = figure_54().sized(300, 256);
    assert_eq!(desk.call(&small.pdu(2)).message, Where::Nothing);
    let expected = Where::Storage {
        start: 16_384,
        length: 300,
    };
    assert_eq!(desk.call(&small.pdu(1)).message, expected);
}

#[test]
fn twelve_and_sixty_four_pieces() {
    for (u, count) in [(1396, 12), (256, 64)] {
        let mut desk = Desk::new(&[(1, 7)]);
        let longest = figure_54().sized(16_384, u);
        for piece in (2..=count).rev() {
            let held = (count - piece + 1) as u32;
            assert_eq!(desk.take(&longest, piece), stored(held));
        }
        assert_eq!(
            question(&desk.receiver),
            Answer::Missing {
                sender: 0,
                piece: 1
            }
        );
        assert_eq!(desk.take(&longest, 1), (1, 1, 0, octets(16_384)));
        assert_eq!(desk.storage, octets(16_384));
    }
}

#[test]
fn opening_leaves_the_last_number() {
    let mut desk = Desk::new(&[(1, 7)]);
    desk.take(&figure_54(), 1);
    assert_eq!(desk.last(0), (0, 0));
    let sender = &desk.receiver.senders[0];
    assert_eq!(sender.message.map, 1);
    let kept = (
        sender.message.version,
        sender.message.seq,
        sender.message.tcd,
    );
    assert_eq!(kept, (5, 100, 1));
    let cut = (sender.message.n, sender.message.tbn, sender.message.u);
    assert_eq!(cut, (4500, 4, 1332));
}

#[test]
fn repeated_pieces_are_20_while_open_and_17_after() {
    let mut desk = Desk::new(&[(1, 7)]);
    let small = figure_54().sized(300, 256);
    assert_eq!(desk.take(&small, 2), stored(1));
    assert_eq!(desk.take(&small, 2), refused(20));
    assert_eq!(desk.take(&small, 1).0, 1);
    assert_eq!(desk.take(&small, 1), refused(17));
    assert_eq!(desk.take(&small, 2), refused(17));
}

/// Number, and dropped version and number.
fn dropped(answer: MessageAnswer) -> (u8, u32, u32) {
    (answer.number, answer.dropped_version, answer.dropped_number)
}

#[test]
fn a_newer_message_drops_the_open_one() {
    let mut desk = Desk::new(&[(1, 7)]);
    assert_eq!(dropped(desk.call(&figure_54().pdu(1))), (0, 0, 0));
    assert_eq!(dropped(desk.call(&figure_54().pdu(2))), (0, 0, 0));
    // The PDU that caused the drop is joined.
    let newer = figure_54().numbered(5, 101).sized(300, 256);
    assert_eq!(dropped(desk.call(&newer.pdu(2))), (0, 5, 100));
    assert_eq!(desk.receiver.senders[0].message.map, 0b10);
    // The dropped message's pieces are older now.
    assert_eq!(desk.take(&figure_54(), 3), refused(18));
    assert_eq!(desk.take(&newer, 1), (1, 1, 0, octets(300)));
    // Under the delivered number 101, number 100 is a repeat.
    assert_eq!(desk.take(&figure_54(), 3), refused(17));
}

/// 02: "A long-running desk passed 2,147,483,647 while a table was open; its next
/// message, number 1, was refused as 18."
#[test]
fn a_number_that_came_round_drops_the_open_one() {
    let mut desk = Desk::new(&[(1, 7)]);
    let last = figure_54().numbered(5, M);
    let next = figure_54().numbered(5, 1);
    assert_eq!(dropped(desk.call(&last.pdu(1))), (0, 0, 0));
    assert_eq!(dropped(desk.call(&next.pdu(3))), (0, 5, M));
    let kept = &desk.receiver.senders[0].message;
    assert_eq!(
        (kept.version, kept.seq, kept.map, kept.held),
        (5, 1, 0b100, 1)
    );
    // "Open 1, M comes: 18": of several pieces, and of one.
    assert_eq!(desk.take(&last, 2), refused(18));
    assert_eq!(desk.take(&last.sized(10, 256), 1), refused(18));
    for (piece, held) in [(1, 2), (4, 3)] {
        assert_eq!(desk.take(&next, piece), stored(held));
    }
    assert_eq!(desk.take(&next, 2), (1, 1, 0, octets(4500)));
    assert_eq!(desk.last(0), (5, 1));
    assert_eq!(desk.take(&last, 2), refused(17));
}

#[test]
fn a_one_piece_newcomer_that_came_round_is_delivered() {
    let mut desk = Desk::new(&[(1, 7)]);
    verdict_of(&mut desk, 5, M - 1);
    desk.call(&figure_54().numbered(5, M).pdu(1));
    let answer = desk.call(&figure_54().numbered(5, 1).sized(10, 256).pdu(1));
    assert_eq!(dropped(answer), (1, 5, M));
    // M is skipped.
    assert_eq!((answer.verdict.number(), answer.skipped), (4, 1));
}

#[test]
fn messages_of_several_pieces_follow_each_other_over_the_end() {
    let mut desk = Desk::new(&[(1, 7)]);
    verdict_of(&mut desk, 5, M - 1);
    for seq in [M, 1, 2] {
        let next = figure_54().numbered(5, seq).sized(300, 256);
        assert_eq!(desk.take(&next, 2), stored(1));
        assert_eq!(desk.take(&next, 1), (1, 2, 0, octets(300)));
        assert_eq!(desk.last(0), (5, seq));
    }
}

/// R is 2 and N1 16: M - 13 is a repeat, M - 14 is not.
#[test]
fn repeats_come_first_whether_older_or_newer_than_the_open_message() {
    for (open, beyond) in [(4, 18), (M - 100, 0)] {
        let mut desk = Desk::new(&[(1, 7)]);
        verdict_of(&mut desk, 5, 2);
        let opened = figure_54().numbered(5, open);
        assert_eq!(desk.take(&opened, 1), stored(1));
        for seq in [M, 1, 2, M - 13] {
            assert_eq!(desk.take(&figure_54().numbered(5, seq), 2), refused(17));
        }
        let answer = desk.call(&figure_54().numbered(5, M - 14).pdu(2));
        assert_eq!(answer.number, beyond, "open {open}");
    }
}

#[test]
fn another_version_drops_whatever_its_number() {
    let halves = [(6, 1_073_741_923), (6, 1_073_741_924)];
    let others = [(6, 100), (4, 1), (0, 100), (0, 1), (u32::MAX, M)];
    for (version, seq) in [&halves[..], &others].concat() {
        let mut desk = Desk::new(&[(1, 7)]);
        desk.call(&figure_54().pdu(1));
        let other = figure_54().numbered(version, seq);
        assert_eq!(dropped(desk.call(&other.pdu(4))), (0, 5, 100));
        assert_eq!(desk.receiver.senders[0].message.version, version);
        assert_eq!(desk.receiver.senders[0].message.map, 0b1000);
    }
}

#[test]
fn a_one_piece_newcomer_drops_and_delivers() {
    let mut desk = Desk::new(&[(1, 7)]);
    desk.call(&figure_54().pdu(1));
    let whole = figure_54().numbered(5, 103).sized(10, 256).pdu(1);
    let answer = desk.call(&whole);
    assert_eq!(dropped(answer), (1, 5, 100));
    assert_eq!((answer.verdict.number(), answer.held), (1, 0));
    assert!(!desk.receiver.senders[0].open);
    assert_eq!(desk.last(0), (5, 103));
}

#[test]
fn one_piece_under_the_open_number_is_19() {
    let mut desk = Desk::new(&[(1, 7)]);
    desk.call(&figure_54().pdu(1));
    assert_eq!(desk.take(&figure_54().sized(10, 256), 1), refused(19));
}

/// Delivers one piece; verdict and skipped.
fn verdict_of(desk: &mut Desk, version: u32, seq: u32) -> (u8, u32) {
    let packet = figure_54().numbered(version, seq).sized(5, 256).pdu(1);
    let answer = desk.call(&packet);
    assert_eq!(answer.number, 1, "version {version}, number {seq}");
    (answer.verdict.number(), answer.skipped)
}

#[test]
fn verdicts_and_skipped_counts_at_delivery() {
    let mut desk = Desk::new(&[(1, 7)]);
    assert_eq!(verdict_of(&mut desk, 5, 100), (1, 0));
    assert_eq!(verdict_of(&mut desk, 5, 101), (2, 0));
    assert_eq!(verdict_of(&mut desk, 5, 104), (4, 2));
    assert_eq!(verdict_of(&mut desk, 5, 88), (4, 2_147_483_630));
    assert_eq!(verdict_of(&mut desk, 6, 88), (3, 0));
    assert_eq!(verdict_of(&mut desk, 0, 1), (5, 0));
    assert_eq!(desk.last(0), (6, 88));
    assert_eq!(verdict_of(&mut desk, 6, M), (4, M - 89));
    assert_eq!(verdict_of(&mut desk, 6, 1), (2, 0));
}

#[test]
fn version_0_with_another_number_is_checked_as_any() {
    let mut desk = Desk::new(&[(1, 7)]);
    assert_eq!(verdict_of(&mut desk, 0, 2), (1, 0));
    assert_eq!(desk.last(0), (0, 2));
    assert_eq!(verdict_of(&mut desk, 0, 2), (1, 0));
    assert_eq!(verdict_of(&mut desk, 5, 2), (1, 0));
    assert_eq!(verdict_of(&mut desk, 0, 2), (3, 0));
    assert_eq!(desk.last(0), (0, 2));
}

#[test]
fn unchecked_of_several_pieces_leaves_the_last_number() {
    let mut desk = Desk::new(&[(1, 7)]);
    verdict_of(&mut desk, 5, 100);
    for _ in 0..2 {
        let free = figure_54().numbered(0, 1).sized(300, 256);
        assert_eq!(desk.take(&free, 2), stored(1));
        assert_eq!(desk.take(&free, 2), refused(20));
        assert_eq!(desk.take(&free, 1), (1, 5, 0, octets(300)));
        assert_eq!(desk.last(0), (5, 100));
    }
    assert_eq!(verdict_of(&mut desk, 5, 101), (2, 0));
}

#[test]
fn n1_of_the_setup_is_the_one_used() {
    for (n1, seq, number) in [(1, 99, 1), (2, 99, 17), (1024, 77, 17), (1023, 77, 1)] {
        let wanted = Setup {
            mode: 0,
            n1,
            t: 1,
            senders: vec![(1, 7)],
            groups: Groups::default(),
        };
        let mut desk = Desk {
            receiver: setup(&wanted).1,
            storage: vec![0; 16_384],
        };
        let last = if n1 > 2 { 1100 } else { 100 };
        verdict_of(&mut desk, 5, last);
        let packet = figure_54().numbered(5, seq).sized(5, 256).pdu(1);
        assert_eq!(desk.call(&packet).number, number, "N1 {n1}");
    }
}

#[test]
fn stored_fragments_set_the_stamp_and_refused_ones_do_not() {
    let mut desk = Desk::new(&[(1, 7)]);
    desk.receiver.clock = 50;
    desk.take(&figure_54(), 1);
    assert_eq!(desk.receiver.senders[0].message.stamp, 50);
    desk.receiver.clock = 60;
    assert_eq!(desk.take(&figure_54(), 1), refused(20));
    assert_eq!(desk.receiver.senders[0].message.stamp, 50);
    desk.take(&figure_54(), 3);
    assert_eq!(desk.receiver.senders[0].message.stamp, 60);
}

#[test]
fn senders_do_not_touch_one_another() {
    let mut desk = Desk::new(&[(1, 7), (1, 9), (2, 7)]);
    let of = |field, node| figure_54().sized(700, 300).from(field, node);
    let senders = [(1, 7), (1, 9), (2, 7)];
    for piece in [3, 1] {
        for (held, (field, node)) in senders.iter().enumerate() {
            let expected = stored(if piece == 3 { 1 } else { 2 });
            assert_eq!(desk.take(&of(*field, *node), piece), expected, "{held}");
        }
    }
    for (at, (field, node)) in senders.iter().enumerate() {
        assert_eq!(desk.last(at), (0, 0));
        assert_eq!(desk.take(&of(*field, *node), 2), (1, 1, 0, octets(700)));
        assert_eq!(desk.last(at), (5, 100));
    }
}

#[test]
fn the_question() {
    let mut desk = Desk::new(&[(1, 7), (1, 9)]);
    let missing = |sender, piece| Answer::Missing { sender, piece };
    assert_eq!(question(&Receiver::empty()), Answer::NoneOpen);
    assert_eq!(question(&desk.receiver), Answer::NoneOpen);
    desk.take(&figure_54().from(1, 9), 1);
    assert_eq!(question(&desk.receiver), missing(1, 2));
    desk.take(&figure_54().from(1, 9), 2);
    assert_eq!(question(&desk.receiver), missing(1, 3));
    desk.take(&figure_54(), 4);
    assert_eq!(question(&desk.receiver), missing(0, 1));
    desk.take(&figure_54(), 1);
    desk.take(&figure_54(), 2);
    assert_eq!(question(&desk.receiver), missing(0, 3));
    desk.take(&figure_54(), 3);
    assert_eq!(question(&desk.receiver), missing(1, 3));
    desk.take(&figure_54().from(1, 9), 3);
    assert_eq!(question(&desk.receiver), missing(1, 4));
    desk.take(&figure_54().from(1, 9), 4);
    assert_eq!(question(&desk.receiver), Answer::NoneOpen);
}

#[test]
fn the_last_of_sixty_four_can_be_missing() {
    let mut desk = Desk::new(&[(1, 7)]);
    for piece in 1..=63 {
        desk.take(&figure_54().sized(16_384, 256), piece);
    }
    assert_eq!(
        question(&desk.receiver),
        Answer::Missing {
            sender: 0,
            piece: 64
        }
    );
}

#[test]
fn a_part_that_does_not_fit_is_empty() {
    let (packet, storage) = (octets(70), octets(100));
    let of_storage = |start, length| Where::Storage { start, length };
    assert_eq!(part(Where::Packet, &packet, &storage), &packet[64..]);
    assert_eq!(part(Where::Packet, &packet[..63], &storage), []);
    assert_eq!(part(Where::Nothing, &packet, &storage), []);
    assert_eq!(part(of_storage(90, 10), &packet, &storage), &storage[90..]);
    assert_eq!(part(of_storage(90, 11), &packet, &storage), []);
    assert_eq!(part(of_storage(usize::MAX, 2), &packet, &storage), []);
}

#[test]
fn the_tally_counts_answers_and_refusals_and_stops() {
    let mut desk = Desk::new(&[(1, 7)]);
    let mut tally = Tally::default();
    let small = figure_54().sized(300, 256);
    for piece in [1, 1, 2, 2, 2] {
        let packet = small.pdu(piece);
        counted_message(&mut tally, &mut desk.receiver, &mut desk.storage, &packet);
    }
    // Stored, 20, delivered, 17, 17.
    assert_eq!((tally.answers, tally.refusals), (2, 3));
    let mut tally = Tally {
        answers: 4_294_967_294,
        refusals: 4_294_967_294,
    };
    for seq in [101, 102, 103] {
        let packet = small.numbered(5, seq).sized(5, 256).pdu(1);
        counted_message(&mut tally, &mut desk.receiver, &mut desk.storage, &packet);
        counted_message(&mut tally, &mut desk.receiver, &mut desk.storage, &[]);
    }
    assert_eq!(
        (tally.answers, tally.refusals),
        (4_294_967_295, 4_294_967_295)
    );
}
