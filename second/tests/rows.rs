//! The table "Numbers that come back": each row alone, and every two rows that
//! can hold together, of which the lower number is given.

mod common;

use common::{alive_of_node_2, figure_54, lay, octets, receiver, M};
use second::alive::alive;
use second::clock::{clock, ClockAnswer};
use second::receiver::{message, question, Answer, Where};
use second::state::{OpenMessage, Receiver, CLOCK_MOST};

/// A message call that is about to be made.
#[derive(Clone)]
struct Call {
    receiver: Receiver,
    storage: Vec<u8>,
    packet: Vec<u8>,
}

/// Figure 54's message under number 103, open with piece 1 held after R 100;
/// the packet brings piece 2 and is stored.
fn good_call() -> Call {
    let mut receiver = receiver(&[(1, 7)]);
    let sender = &mut receiver.senders[0];
    (sender.last_version, sender.last_number) = (5, 100);
    sender.open = true;
    sender.message = OpenMessage {
        version: 5,
        seq: 103,
        tcd: 1,
        n: 4500,
        tbn: 4,
        u: 1332,
        map: 0b0001,
        held: 1,
        stamp: 0,
    };
    Call {
        receiver,
        storage: octets(16_384),
        packet: figure_54().numbered(5, 103).pdu(2),
    }
}

/// Makes one row's condition hold, whatever else holds.
fn make_hold(call: &mut Call, row: u8) {
    let sender = &mut call.receiver.senders[0];
    match row {
        9 => call.receiver.clock = CLOCK_MOST + 1,
        11 => call.storage.push(0),
        12 => call.packet.push(0),
        13 => call.packet[55] = 8,
        14 => call.packet[11] = 8,
        15 => call.packet[53] = 1,
        16 => lay(&mut call.packet, 4, &16_449u32.to_be_bytes()),
        17 => sender.last_number = 106,
        18 => sender.message.seq = 104,
        19 => lay(&mut call.packet, 40, &2u16.to_be_bytes()),
        20 => (sender.message.map, sender.message.held) = (0b0011, 2),
        _ => panic!("no row {row} in the message call"),
    }
}

const ROWS: [u8; 11] = [9, 11, 12, 13, 14, 15, 16, 17, 18, 19, 20];

/// A sender that is not registered has no last number and nothing open; an open
/// message has either a newer or the same number.
const NEVER_TOGETHER: [(u8, u8); 6] = [(14, 17), (14, 18), (14, 19), (14, 20), (18, 19), (18, 20)];

/// Makes the call; a refusal gives nothing more, but for the age of a repeat, and
/// alters nothing.
fn number_of(call: Call) -> u8 {
    number_and_age(call).0
}

fn number_and_age(mut call: Call) -> (u8, u32) {
    let before = call.clone();
    let answer = message(&mut call.receiver, &mut call.storage, &call.packet);
    if answer.number > 1 {
        assert_eq!(call.receiver, before.receiver);
        assert_eq!(call.storage, before.storage);
        assert_eq!((answer.verdict.number(), answer.skipped), (0, 0));
        assert_eq!((answer.held, answer.message), (0, Where::Nothing));
        assert_eq!((answer.dropped_version, answer.dropped_number), (0, 0));
    }
    if answer.number != 17 {
        assert_eq!(answer.age, 0, "{}", answer.number);
    }
    (answer.number, answer.age)
}

fn number_with(change: &dyn Fn(&mut Call)) -> u8 {
    with_age(change).0
}

fn with_age(change: &dyn Fn(&mut Call)) -> (u8, u32) {
    let mut call = good_call();
    change(&mut call);
    number_and_age(call)
}

#[test]
fn the_good_call_is_stored() {
    assert_eq!(number_of(good_call()), 0);
}

#[test]
fn each_row_alone_gives_its_number() {
    for row in ROWS {
        assert_eq!(number_with(&|call| make_hold(call, row)), row);
    }
}

#[test]
fn of_two_rows_the_lower_number_is_given() {
    let mut pairs = 0;
    for (i, low) in ROWS.iter().enumerate() {
        for high in &ROWS[i + 1..] {
            if NEVER_TOGETHER.contains(&(*low, *high)) {
                continue;
            }
            pairs += 1;
            for (one, other) in [(*low, *high), (*high, *low)] {
                let (number, age) = with_age(&|call| {
                    make_hold(call, one);
                    make_hold(call, other);
                });
                assert_eq!(number, *low, "rows {low} and {high}");
                // 17 before 18, 19 and 20 has its age, R 106 to 103.
                assert_eq!(age, if *low == 17 { 3 } else { 0 }, "{low} and {high}");
            }
        }
    }
    assert_eq!(pairs, 55 - 6);
}

#[test]
fn all_rows_together_give_9() {
    let rows = [20, 19, 17, 16, 15, 13, 12, 11, 9];
    for (i, lowest) in rows.iter().enumerate() {
        let number = number_with(&|call| rows[..=i].iter().for_each(|row| make_hold(call, *row)));
        assert_eq!(number, *lowest);
    }
}

/// The numbers of the four calls that judge 9, each made on the good call's state
/// with this map and count. A refusal alters nothing.
fn numbers_with_held(map: u64, held: u8) -> [u8; 4] {
    let mut call = good_call();
    let open = &mut call.receiver.senders[0].message;
    (open.map, open.held) = (map, held);
    let state = call.receiver.clone();
    let mut signal = alive_of_node_2();
    signal[11] = 7;
    let (mut heard, mut moved) = (state.clone(), state.clone());
    let numbers = [
        number_of(call),
        alive(&mut heard, &signal),
        clock(&mut moved, 5).number,
        match question(&state) {
            Answer::Refused(number) => number,
            _ => 0,
        },
    ];
    assert_eq!(heard == state, numbers[1] == 9);
    assert_eq!(moved == state, numbers[2] == 9);
    numbers
}

/// 02: "a state where they differ meets 9", in every call that judges 9.
#[test]
fn row_9_the_kept_count_on_both_sides() {
    assert_eq!(numbers_with_held(0b0001, 1), [0; 4]);
    for held in [0, 2, 3, 4, 64, 65, 129, 255] {
        assert_eq!(numbers_with_held(0b0001, held), [9; 4], "{held}");
    }
    assert_eq!(numbers_with_held(0b1101, 3), [1, 0, 0, 0]);
    for held in [0, 1, 2, 4, 255] {
        assert_eq!(numbers_with_held(0b1101, held), [9; 4], "{held}");
    }
}

/// "The record of a message not open [is] never looked at": nothing is compared
/// there, and nothing of it is left where a message opens or is delivered.
#[test]
fn row_9_does_not_compare_a_record_that_is_not_open() {
    for (map, held) in [(0, 255), (0b0111, 0), (u64::MAX, 1), (0, 1)] {
        let mut call = good_call();
        let sender = &mut call.receiver.senders[0];
        sender.open = false;
        (sender.message.map, sender.message.held) = (map, held);
        assert_eq!(question(&call.receiver), Answer::NoneOpen);
        let (mut state, mut storage) = (call.receiver.clone(), call.storage.clone());
        let answer = message(&mut state, &mut storage, &call.packet);
        assert_eq!((answer.number, answer.held), (0, 1));
        assert_eq!(state.senders[0].message.held, 1);
        let whole = figure_54().numbered(5, 103).sized(10, 256).pdu(1);
        let answer = message(&mut call.receiver, &mut storage, &whole);
        assert_eq!((answer.number, answer.held), (1, 0));
        assert_eq!(call.receiver.senders[0].message, OpenMessage::default());
    }
}

#[test]
fn row_11_storage_on_both_sides() {
    assert_eq!(number_with(&|call| call.storage.truncate(16_383)), 11);
    assert_eq!(number_with(&|call| call.storage.resize(16_385, 0)), 11);
    assert_eq!(number_with(&|call| call.storage.clear()), 11);
    assert_eq!(number_with(&|call| call.storage.resize(32_768, 0)), 11);
    let two = |storage: usize| {
        move |call: &mut Call| {
            let other = receiver(&[(2, 9)]).senders.remove(0);
            call.receiver.senders.push(other);
            call.storage.resize(storage, 0);
        }
    };
    assert_eq!(number_with(&two(32_768)), 0);
    assert_eq!(number_with(&two(16_384)), 11);
}

#[test]
fn at_the_empty_state_11_is_never_met_by_no_storage() {
    let at_empty = |packet: &[u8], storage: usize| {
        number_of(Call {
            receiver: Receiver::empty(),
            storage: vec![0; storage],
            packet: packet.to_vec(),
        })
    };
    let good = good_call().packet;
    assert_eq!(at_empty(&good, 0), 14);
    assert_eq!(at_empty(&good, 16_384), 11);
    assert_eq!(at_empty(&good[..63], 0), 12);
    let mut damaged = good;
    damaged[0] = b'M';
    assert_eq!(at_empty(&damaged, 0), 13);
}

/// A one-piece packet of a new number, of this length and BSIZE.
fn of_length(length: usize, bsize: usize) -> impl Fn(&mut Call) {
    move |call| {
        call.packet = figure_54().numbered(5, 104).sized(0, 256).pdu(1);
        call.packet.resize(length.max(64), 0);
        lay(&mut call.packet, 4, &(bsize as u32).to_be_bytes());
        lay(&mut call.packet, 58, &(bsize as u16).to_be_bytes());
        call.packet.truncate(length);
    }
}

#[test]
fn row_12_lengths_on_both_sides() {
    assert_eq!(number_with(&of_length(0, 0)), 12);
    assert_eq!(number_with(&of_length(63, 63)), 12);
    assert_eq!(number_with(&of_length(64, 64)), 1);
    assert_eq!(number_with(&of_length(1460, 1460)), 1);
    assert_eq!(number_with(&of_length(1461, 1461)), 12);
    assert_eq!(number_with(&of_length(65_535, 65_535)), 12);
    assert_eq!(number_with(&of_length(100, 99)), 12);
    assert_eq!(number_with(&of_length(100, 100)), 1);
    assert_eq!(number_with(&of_length(100, 101)), 12);
}

#[test]
fn row_13_every_fixed_octet() {
    let fixed = [0..4, 8..9, 28..40, 42..52, 54..55, 60..64];
    for at in fixed.into_iter().flatten() {
        assert_eq!(number_with(&|call| call.packet[at] ^= 1), 13, "octet {at}");
        let high = number_with(&|call| call.packet[at] ^= 0x80);
        assert_eq!(high, 13, "octet {at}");
    }
    // DA and M_CTL are not examined.
    for at in (12..16).chain(24..28) {
        let number = number_with(&|call| call.packet[at] ^= 0xff);
        assert_eq!(number, 0, "octet {at}");
    }
}

#[test]
fn row_13_pri_mode_code_and_seq_on_both_sides() {
    let newcomer = |at: usize, octets: &[u8]| {
        number_with(&|call| {
            call.packet = figure_54().numbered(6, 500).sized(10, 256).pdu(1);
            lay(&mut call.packet, at, octets);
        })
    };
    assert_eq!((newcomer(55, &[7]), newcomer(55, &[8])), (1, 13));
    assert_eq!(newcomer(55, &[255]), 13);
    assert_eq!((newcomer(52, &[0, 0]), newcomer(52, &[0, 2])), (1, 13));
    assert_eq!((newcomer(52, &[1, 0]), newcomer(52, &[1, 1])), (13, 13));
    let code = |tcd: u16| newcomer(40, &tcd.to_be_bytes());
    assert_eq!((code(0), code(1)), (13, 1));
    assert_eq!((code(59_999), code(60_000)), (1, 13));
    assert_eq!((code(60_003), code(65_535)), (13, 13));
    let seq = |seq: u32| newcomer(20, &seq.to_be_bytes());
    assert_eq!((seq(0), seq(1)), (13, 1));
    assert_eq!((seq(M), seq(M + 1)), (1, 13));
    assert_eq!(seq(u32::MAX), 13);
}

#[test]
fn row_14_all_of_field_and_node_count() {
    let from = |field: u8, node: u16| {
        number_with(&|call| call.packet = figure_54().numbered(5, 103).from(field, node).pdu(2))
    };
    assert_eq!(from(1, 7), 0);
    assert_eq!(
        (from(2, 7), from(1, 8), from(0, 7), from(1, 0)),
        (14, 14, 14, 14)
    );
    assert_eq!(from(1, 4_103), 14);
    assert_eq!(from(7, 1), 14);
}

#[test]
fn row_15_only_test_at_online() {
    let (online, test) = (0u8, 1u8);
    let at = |node_is_test: bool, mode: u8| {
        number_with(&|call| {
            call.receiver.test = node_is_test;
            call.packet[53] = mode;
        })
    };
    assert_eq!((at(false, online), at(false, test)), (0, 15));
    assert_eq!((at(true, online), at(true, test)), (0, 0));
}

#[test]
fn row_16_each_kind_of_cut() {
    // CBN 0, CBN above TBN, ML too small, a piece not last whose n is not in
    // (TBN - 1) x u < n <= TBN x u.
    assert_eq!(number_with(&|call| call.packet[56] = 0), 16);
    assert_eq!(number_with(&|call| call.packet[56] = 5), 16);
    assert_eq!(
        number_with(&|call| lay(&mut call.packet, 4, &[0, 0, 0, 63])),
        16
    );
    let ml = |n: u32| number_with(&|call| lay(&mut call.packet, 4, &(n + 64).to_be_bytes()));
    assert_eq!((ml(3 * 1332), ml(3 * 1332 + 1)), (16, 19));
    assert_eq!((ml(4 * 1332), ml(4 * 1332 + 1)), (19, 16));
}

#[test]
fn row_17_at_the_windows_edge() {
    // The packet's SEQ is 103 and N1 is 16: d is R - 103.
    let last = |r: u32| with_age(&|call| call.receiver.senders[0].last_number = r);
    assert_eq!((last(103), last(104)), ((17, 0), (17, 1)));
    assert_eq!((last(117), last(118)), ((17, 14), (17, 15)));
    assert_eq!((last(102), last(119)), ((0, 0), (0, 0)));
}

#[test]
fn row_18_wants_the_same_version() {
    let open = |version: u32, seq: u32| {
        number_with(&|call| {
            let open = &mut call.receiver.senders[0].message;
            (open.version, open.seq) = (version, seq);
        })
    };
    assert_eq!((open(5, 104), open(6, 104)), (18, 0));
    assert_eq!((open(5, 102), open(6, 102)), (0, 0));
}

/// 02: "the newcomer is newer when (SEQ - open SEQ) modulo M is 1 to
/// 1,073,741,823, and older when it is larger."
#[test]
fn row_18_at_the_half_and_at_the_end_of_the_ring() {
    // N1 is 1 and R far from all of these, so that none is a repeat.
    let comes = |open: u32, seq: u32| {
        number_with(&|call| {
            call.receiver.n1 = 1;
            let sender = &mut call.receiver.senders[0];
            (sender.last_number, sender.message.seq) = (500_000_000, open);
            call.packet = figure_54().numbered(5, seq).pdu(2);
        })
    };
    assert_eq!((comes(M, 1), comes(1, M)), (0, 18));
    assert_eq!((comes(M, 103), comes(103, M)), (0, 18));
    let from = |open: u32, on_823: u32, on_824: u32| (comes(open, on_823), comes(open, on_824));
    assert_eq!(from(103, 1_073_741_926, 1_073_741_927), (0, 18));
    assert_eq!(from(1_073_741_824, M, 1), (0, 18));
    assert_eq!(from(1_073_741_825, 1, 2), (0, 18));
    assert_eq!(from(M, 1_073_741_823, 1_073_741_824), (0, 18));
    let to = |seq: u32, back_823: u32, back_824: u32| (comes(back_823, seq), comes(back_824, seq));
    assert_eq!(to(103, 1_073_741_927, 1_073_741_926), (0, 18));
    assert_eq!(to(1, 1_073_741_825, 1_073_741_824), (0, 18));
    assert_eq!(to(M, 1_073_741_824, 1_073_741_823), (0, 18));
}

#[test]
fn row_19_each_thing_that_can_differ() {
    let packet = |message: common::Message, piece: usize| {
        number_with(&|call| call.packet = message.numbered(5, 103).pdu(piece))
    };
    let same = figure_54();
    assert_eq!(packet(same.clone(), 2), 0);
    let other_code = common::Message {
        tcd: 2,
        ..same.clone()
    };
    assert_eq!(packet(other_code, 2), 19);
    // n differs; TBN and u do not.
    assert_eq!(packet(same.sized(4501, 1332), 2), 19);
    // u differs; n and TBN do not.
    assert_eq!(packet(same.sized(4500, 1331), 2), 19);
    assert_eq!(packet(same.sized(4500, 1331), 4), 19);
    // TBN and u differ; n does not.
    assert_eq!(packet(same.sized(4500, 1000), 2), 19);
    // n and TBN differ, u does not.
    assert_eq!(packet(same.sized(5400, 1332), 2), 19);
    // One piece under the open message's version and number.
    assert_eq!(packet(same.sized(100, 1332), 1), 19);
    // MODE, PRI, DA and M_CTL are not compared.
    let test_mode = number_with(&|call| {
        call.receiver.test = true;
        call.packet[53] = 1;
        call.packet[55] = 7;
        call.packet[12] = 9;
        call.packet[24] = 9;
    });
    assert_eq!(test_mode, 0);
}

#[test]
fn row_20_octets_are_not_compared() {
    let again = |piece: usize, change: u8| {
        number_with(&|call| {
            call.packet = figure_54().numbered(5, 103).pdu(piece);
            call.packet[64] ^= change;
        })
    };
    assert_eq!((again(1, 0), again(1, 1), again(2, 1)), (20, 20, 0));
}

#[test]
fn unchecked_skips_17_alone() {
    // (0, 1) is unchecked, so that it is no repeat; but 18, 19 and 20 meet it.
    let call = |map: u64, held: u8, tcd: u16| {
        number_with(&|call| {
            let sender = &mut call.receiver.senders[0];
            sender.last_version = 0;
            sender.last_number = 1;
            (sender.message.version, sender.message.seq) = (0, 1);
            (sender.message.map, sender.message.held) = (map, held);
            sender.message.tcd = tcd;
            call.packet = figure_54().numbered(0, 1).pdu(2);
        })
    };
    assert_eq!((call(0b0001, 1, 1), call(0b0001, 1, 2)), (0, 19));
    assert_eq!(call(0b0011, 2, 1), 20);
    let open = |seq: u32| {
        number_with(&|call| {
            let open = &mut call.receiver.senders[0].message;
            (open.version, open.seq) = (0, seq);
            call.packet = figure_54().numbered(0, 1).pdu(2);
        })
    };
    assert_eq!((open(2), open(103), open(1_073_741_824)), (18, 18, 18));
    assert_eq!((open(1_073_741_825), open(M)), (0, 0));
}

// ---- alive signals ----

fn alive_number(change: &dyn Fn(&mut Receiver, &mut Vec<u8>)) -> u8 {
    let mut state = receiver(&[(1, 7), (1, 2)]);
    let mut packet = alive_of_node_2();
    change(&mut state, &mut packet);
    let before = state.clone();
    let number = alive(&mut state, &packet);
    assert_eq!(state == before, number != 0);
    number
}

fn make_alive_hold(state: &mut Receiver, packet: &mut Vec<u8>, row: u8) {
    match row {
        9 => state.clock = CLOCK_MOST + 1,
        12 => packet.push(0),
        13 => packet[55] = 8,
        14 => packet[11] = 3,
        22 => packet[90] = 4,
        // An octet behind the 128, told by ML and BSIZE: no section.
        24 => {
            packet.push(0);
            (packet[7], packet[59]) = (129, 129);
        }
        _ => panic!("no row {row} in the alive call"),
    }
}

#[test]
fn alive_rows_alone_and_in_pairs() {
    let rows = [9, 12, 13, 14, 22, 24];
    assert_eq!(alive_number(&|_, _| ()), 0);
    for (i, low) in rows.iter().enumerate() {
        for high in &rows[i..] {
            let number = alive_number(&|state, packet| {
                make_alive_hold(state, packet, *low);
                if low != high {
                    make_alive_hold(state, packet, *high);
                }
            });
            assert_eq!(number, *low, "rows {low} and {high}");
        }
    }
}

#[test]
fn alive_row_12_on_both_sides() {
    let of_length = |length: usize, bsize: u16| {
        alive_number(&|_, packet| {
            lay(packet, 4, &u32::from(bsize).to_be_bytes());
            lay(packet, 58, &bsize.to_be_bytes());
            packet.resize(length, 0xee);
        })
    };
    assert_eq!((of_length(127, 127), of_length(128, 128)), (12, 0));
    // As long as may be, but no section.
    assert_eq!((of_length(1472, 1472), of_length(1473, 1473)), (24, 12));
    assert_eq!((of_length(129, 128), of_length(129, 130)), (12, 12));
    assert_eq!((of_length(0, 0), of_length(64, 64)), (12, 12));
}

#[test]
fn alive_row_13_looks_at_all_but_seq() {
    let with = |at: usize, octets: &[u8]| alive_number(&|_, packet| lay(packet, at, octets));
    for at in [0, 3, 8, 28, 39, 42, 43, 44, 51, 54, 60, 63] {
        let number = alive_number(&|_, packet| packet[at] ^= 1);
        assert_eq!(number, 13, "octet {at}");
    }
    assert_eq!((with(55, &[0]), with(55, &[7]), with(55, &[8])), (0, 0, 13));
    assert_eq!(
        (with(52, &[0, 1]), with(52, &[0, 2]), with(52, &[1, 0])),
        (0, 13, 13)
    );
    let code = |tcd: u16| with(40, &tcd.to_be_bytes());
    assert_eq!(
        (code(1), code(59_999), code(60_000), code(60_002)),
        (13, 13, 13, 13)
    );
    assert_eq!((code(60_003), code(60_004), code(65_535)), (0, 13, 13));
    for seq in [0, 1, M, M + 1, u32::MAX] {
        assert_eq!(with(20, &seq.to_be_bytes()), 0, "SEQ {seq}");
    }
    // V_SEQ and M_CTL are not looked at either.
    assert_eq!((with(16, &[1, 2, 3, 4]), with(24, &[1, 2, 3, 4])), (0, 0));
}

#[test]
fn alive_row_14_and_no_15() {
    let from = |sa: &[u8]| alive_number(&|_, packet| lay(packet, 8, sa));
    assert_eq!((from(&[0, 1, 0, 2]), from(&[0, 1, 0, 7])), (0, 0));
    assert_eq!((from(&[0, 2, 0, 2]), from(&[0, 1, 0, 3])), (14, 14));
    assert_eq!((from(&[0, 0, 0, 2]), from(&[0, 1, 0, 0])), (14, 14));
    assert_eq!((from(&[0, 1, 0x10, 2]), from(&[1, 1, 0, 2])), (14, 13));
    let test_signal_at_online = alive_number(&|_, packet| packet[53] = 1);
    assert_eq!(test_signal_at_online, 0);
}

#[test]
fn alive_row_22_each_part() {
    let with = |at: usize, octets: &[u8]| alive_number(&|_, packet| lay(packet, at, octets));
    let ml = |ml: u32| with(4, &ml.to_be_bytes());
    assert_eq!(
        (ml(127), ml(128), ml(129), ml(128 + 65_536)),
        (22, 0, 22, 22)
    );
    assert_eq!(
        (with(56, &[0]), with(56, &[1]), with(56, &[2])),
        (22, 0, 22)
    );
    assert_eq!(
        (with(57, &[0]), with(57, &[1]), with(57, &[2])),
        (22, 0, 22)
    );
    // The group: the last two octets of DA, and only they.
    assert_eq!(
        (with(14, &[0, 1]), with(14, &[1, 0]), with(12, &[9, 9])),
        (22, 22, 0)
    );
    assert_eq!(
        (with(90, &[0]), with(90, &[4]), with(90, &[255])),
        (22, 22, 22)
    );
    assert_eq!(
        (with(90, &[1]), with(91, &[3]), with(91, &[5])),
        (0, 22, 22)
    );
    assert_eq!(
        (with(105, &[0]), with(105, &[2]), with(105, &[1])),
        (22, 22, 0)
    );
    // "other places of the alive header may hold anything"
    let anything = (64..84).chain(84..90).chain(92..105).chain(106..128);
    for at in anything {
        let number = alive_number(&|_, packet| packet[at] ^= 0xff);
        assert_eq!(number, 0, "octet {at}");
    }
}

/// The alive signal with these octets behind its 128, ML and BSIZE to match.
fn with_section(mode: u8, section: &[u8]) -> u8 {
    alive_number(&|_, packet| {
        packet[90] = mode;
        packet.extend(section);
        let length = packet.len() as u16;
        lay(packet, 4, &u32::from(length).to_be_bytes());
        lay(packet, 58, &length.to_be_bytes());
    })
}

/// "129 to 147 octets of PDU are 24; 148 with 20 zeros has an empty section".
#[test]
fn alive_row_24_by_length() {
    for length in 0..=30 {
        let expected = if [0, 20].contains(&length) { 0 } else { 24 };
        assert_eq!(with_section(1, &vec![0; length]), expected, "{length}");
    }
    // 1,324 = 5 x 256 + 44 octets of options make 1,472 octets in all.
    let options = |count: [u8; 2], octets: usize| {
        let counts = [&[0; 18][..], &count].concat();
        with_section(1, &[counts, vec![7; octets]].concat())
    };
    assert_eq!(options([5, 44], 1_323), 24);
    assert_eq!(options([5, 44], 1_324), 0);
    assert_eq!(options([5, 43], 1_324), 24);
    assert_eq!(options([5, 45], 1_324), 24);
    // 1,473 octets are too many for any alive signal.
    assert_eq!(options([5, 45], 1_325), 12);
}

/// 33 modules with the last dead, and an error of module 9.
const A_SECTION: [u8; 32] = [
    0, 0, 0, 33, 0, 0, 0, 0, 1, 0, 0, 0, // modules, bits
    0, 0, 0, 1, 1, 2, 3, 4, 5, 6, 7, 8, // errors, name
    0, 9, 0, 0, 0, 0, 0, 0, // module, error, options
];

/// "In the alive call 24 comes after 22, in every mode". (That a refused signal
/// changes nothing is held by `alive_number`.)
#[test]
fn alive_row_24_in_every_mode() {
    let with = |mode: u8, at: usize, octet: u8| {
        let mut section = A_SECTION;
        section[at] = octet;
        with_section(mode, &section)
    };
    assert_eq!((with(1, 8, 1), with(1, 8, 0)), (0, 0));
    // Bits above the count: the first, the last of its octet, the last of all.
    assert_eq!((with(1, 8, 3), with(1, 8, 129)), (24, 24));
    assert_eq!((with(1, 9, 1), with(1, 11, 128)), (24, 24));
    // Another number of modules, errors, octets of options; an error of module 0.
    assert_eq!((with(1, 3, 32), with(1, 3, 65)), (24, 24));
    assert_eq!((with(1, 15, 0), with(1, 15, 2)), (24, 24));
    assert_eq!((with(1, 31, 1), with(1, 25, 0)), (24, 24));
    // The error's number and the name are any.
    assert_eq!((with(1, 27, 255), with(1, 16, 0)), (0, 0));
    for mode in [2, 3] {
        // A sender that is not alive stays so: only the number tells.
        assert_eq!(refused_in_mode(mode), 24);
    }
    assert_eq!((with(0, 25, 0), with(4, 25, 0)), (22, 22));
}

/// The number for a broken section in this mode, at a sender that is alive and
/// stays it.
fn refused_in_mode(mode: u8) -> u8 {
    let mut state = receiver(&[(1, 7), (1, 2)]);
    assert_eq!(alive(&mut state, &alive_of_node_2()), 0);
    let before = state.clone();
    let mut packet = alive_of_node_2();
    packet[90] = mode;
    packet.extend(A_SECTION);
    (packet[7], packet[59]) = (160, 160);
    let good = alive(&mut state.clone(), &packet);
    assert_eq!(good, 0, "mode {mode}");
    packet[128 + 25] = 0;
    let number = alive(&mut state, &packet);
    assert_eq!(state, before);
    number
}

// ---- clock and question ----

#[test]
fn clock_rows_alone_and_together() {
    let number = |state_clock: u64, damaged: bool, ms: u64| {
        let mut state = receiver(&[(1, 7)]);
        state.clock = state_clock;
        if damaged {
            state.n1 = 0;
        }
        let before = state.clone();
        let answer = clock(&mut state, ms);
        if answer.number != 0 {
            assert_eq!(state, before);
            let number = answer.number;
            let (dropped, dead) = (0, 0);
            assert_eq!(
                answer,
                ClockAnswer {
                    number,
                    dropped,
                    dead
                }
            );
        }
        answer.number
    };
    assert_eq!(
        (number(1000, false, 999), number(1000, false, 1000)),
        (21, 0)
    );
    assert_eq!((number(1000, false, 0), number(1000, false, 1001)), (21, 0));
    assert_eq!(
        (
            number(0, false, CLOCK_MOST),
            number(0, false, CLOCK_MOST + 1)
        ),
        (0, 21)
    );
    assert_eq!((number(0, false, u64::MAX), number(0, false, 0)), (21, 0));
    assert_eq!((number(1000, true, 1000), number(1000, true, 999)), (9, 9));
}

#[test]
fn the_question_is_refused_with_9_alone() {
    let mut call = good_call();
    assert_eq!(
        question(&call.receiver),
        Answer::Missing {
            sender: 0,
            piece: 2
        }
    );
    call.receiver.senders[0].message.stamp = 1;
    assert_eq!(question(&call.receiver), Answer::Refused(9));
}
