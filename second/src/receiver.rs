//! The message call (joining, D.4.4), the part that is handed over, and the
//! question.

use crate::answers::{first_that_applies, DELIVERED, REPEAT, STORED};
use crate::cut::{possible_cut, Cut};
use crate::header::{self, read_head, Code, Head, HEADER};
use crate::numbers::{age, newer, number_check, seq_right, verdict, Check, Verdict};
use crate::state::{bit, full_map, within_limits, OpenMessage, Receiver, Sender, AREA};

/// Where a delivered message lies: 01, "handed over as a part of the packet or
/// of the storage, never copied out; any other answer gives an empty part."
#[derive(Clone, Copy, Debug, PartialEq, Eq)]
pub enum Where {
    Nothing,
    Packet,
    Storage { start: usize, length: usize },
}

/// Everything a message call answers, besides the state and the storage.
#[derive(Clone, Copy, Debug, PartialEq, Eq)]
pub struct MessageAnswer {
    pub number: u8,
    pub verdict: Verdict,
    /// The numbers skipped before a gap's delivery, otherwise 0.
    pub skipped: u32,
    /// 02: "how far back the number lies, 0 to N1 - 1", with 17, otherwise 0.
    pub age: u32,
    /// "pieces then held for the PDU's sender, 0 on a refusal".
    pub held: u32,
    /// "its version and number stand in the answer (both 0 if none)".
    pub dropped_version: u32,
    pub dropped_number: u32,
    pub message: Where,
}

impl MessageAnswer {
    /// A number and "nothing more".
    fn bare(number: u8) -> MessageAnswer {
        MessageAnswer {
            number,
            verdict: Verdict::Nothing,
            skipped: 0,
            age: 0,
            held: 0,
            dropped_version: 0,
            dropped_number: 0,
            message: Where::Nothing,
        }
    }
}

/// What is known of a PDU before it is refused or admitted.
struct Arrival {
    head: Head,
    length: usize,
    sender: Option<usize>,
    cut: Option<Cut>,
}

/// The message call. "A refusal alters no state, stamp, clock, storage or
/// buffer."
pub fn message(receiver: &mut Receiver, storage: &mut [u8], packet: &[u8]) -> MessageAnswer {
    let head = read_head(packet);
    let arrival = Arrival {
        length: packet.len(),
        sender: receiver.place_of(head.field, head.node),
        cut: possible_cut(&head),
        head,
    };
    if let Some(number) = refusal(receiver, storage.len(), &arrival) {
        return refused(receiver, &arrival, number);
    }
    match (arrival.sender, arrival.cut) {
        (Some(at), Some(_)) if arrival.head.tbn == 1 => admit_whole(receiver, at, &arrival.head),
        (Some(at), Some(cut)) => {
            let octets = &packet[HEADER..];
            admit_piece(receiver, storage, at, &arrival.head, cut, octets)
        }
        _ => unreachable!("rows 14 and 16 refuse these"),
    }
}

/// A refusal gives "nothing more", but for a repeat's age; 02: "The receiver passes
/// it on with refusal 17".
fn refused(receiver: &Receiver, arrival: &Arrival, number: u8) -> MessageAnswer {
    let age = match (number, arrival.sender) {
        (REPEAT, Some(at)) => age(check(&receiver.senders[at], &arrival.head, receiver.n1)),
        _ => 0,
    };
    MessageAnswer {
        age,
        ..MessageAnswer::bare(number)
    }
}

/// "Numbers that come back", the rows of the message call in their order.
fn refusal(receiver: &Receiver, storage: usize, arrival: &Arrival) -> Option<u8> {
    let head = &arrival.head;
    let sender = arrival.sender.map(|at| &receiver.senders[at]);
    let of_sender = |applies: &dyn Fn(&Sender) -> bool| sender.is_some_and(applies);
    first_that_applies(&[
        // "a state with a setting, sender, time [...] outside"
        (9, !within_limits(receiver)),
        // "message call: storage length wrong"
        (11, storage != AREA * receiver.senders.len()),
        // "PDU too short [...], too long [...], or length unlike BSIZE"
        (12, length_wrong(arrival)),
        // "a fixed field of 5.1, PRI, MODE, code, or SEQ [...] out of range"
        (13, head_out_of_range(head)),
        // "sender not registered"
        (14, sender.is_none()),
        // "test message at an online node"
        (15, head.mode == header::TEST && !receiver.test),
        // "cut not possible"
        (16, arrival.cut.is_none()),
        // "number check says repeat"
        (REPEAT, of_sender(&|s| repeat(s, head, receiver.n1))),
        // "open message has the same version and a", by 02, newer "number"
        (18, of_sender(&|s| older_than_open(s, head))),
        // "same version and number, but TCD, n, TBN or u differ"
        (19, of_sender(&|s| unlike_open(s, arrival))),
        // "piece already held (octets not compared)"
        (20, of_sender(&|s| piece_held(s, head))),
    ])
}

/// "12 | PDU too short (64; [...]), too long (1,460; [...]), or length unlike
/// BSIZE".
fn length_wrong(arrival: &Arrival) -> bool {
    arrival.length < 64
        || arrival.length > 1_460
        || arrival.length != usize::from(arrival.head.bsize)
}

/// "13 | a fixed field of 5.1, PRI, MODE, code, or SEQ (0 or above M; [...]) out
/// of range". "Code in 13 means not a user code". Multicast has the same.
pub fn head_out_of_range(head: &Head) -> bool {
    !header::fixed_fields_right(head)
        || !header::pri_right(head.pri)
        || !header::mode_right(head.mode)
        || header::code(head.tcd) != Code::User
        || !seq_right(head.seq)
}

fn check(sender: &Sender, head: &Head, n1: u16) -> Check {
    number_check(
        sender.last_version,
        sender.last_number,
        head.version,
        head.seq,
        n1,
    )
}

/// "17 | number check says repeat".
fn repeat(sender: &Sender, head: &Head, n1: u16) -> bool {
    matches!(check(sender, head, n1), Check::Repeat { .. })
}

/// "18 | open message has the same version and a larger number", where 02 corrects
/// 01: a newer one. "Demand 3 then reads "no newer number of that version is
/// open"."
fn older_than_open(sender: &Sender, head: &Head) -> bool {
    let open = &sender.message;
    sender.open && open.version == head.version && newer(open.seq, head.seq)
}

/// "Same version and number": the PDU is of the open message.
fn same_message(sender: &Sender, head: &Head) -> bool {
    let open = &sender.message;
    sender.open && open.version == head.version && open.seq == head.seq
}

/// "19 | same version and number, but TCD, n, TBN or u differ".
fn unlike_open(sender: &Sender, arrival: &Arrival) -> bool {
    let (open, head) = (&sender.message, &arrival.head);
    let cut_differs = match arrival.cut {
        Some(cut) => open.n != cut.n || open.u != cut.u,
        None => true,
    };
    let differs = open.tcd != head.tcd || open.tbn != head.tbn || cut_differs;
    same_message(sender, head) && differs
}

/// "20 | piece already held (octets not compared)".
fn piece_held(sender: &Sender, head: &Head) -> bool {
    same_message(sender, head) && sender.message.map & bit(head.cbn) != 0
}

/// 01: "A message of one piece is delivered at once and storage is untouched."
/// A one-piece newcomer drops what is open; after any delivery "nothing is then
/// open", and the record of a message not open is "written 0", whatever stood
/// there.
fn admit_whole(receiver: &mut Receiver, at: usize, head: &Head) -> MessageAnswer {
    let n1 = receiver.n1;
    let sender = &mut receiver.senders[at];
    let (dropped_version, dropped_number) = drop_other(sender, head);
    sender.close();
    let (verdict, skipped) = deliver(sender, head, n1);
    MessageAnswer {
        verdict,
        skipped,
        dropped_version,
        dropped_number,
        message: Where::Packet,
        ..MessageAnswer::bare(DELIVERED)
    }
}

/// 01: "For an admitted PDU: nothing open, it opens. [...] Same version and
/// number: a new piece is added. [...] The message is delivered at the piece
/// that fills the map, in whatever order pieces came; nothing is then open."
fn admit_piece(
    receiver: &mut Receiver,
    storage: &mut [u8],
    at: usize,
    head: &Head,
    cut: Cut,
    octets: &[u8],
) -> MessageAnswer {
    let (n1, clock) = (receiver.n1, receiver.clock);
    let sender = &mut receiver.senders[at];
    let (dropped_version, dropped_number) = drop_other(sender, head);
    if !sender.open {
        open(sender, head, cut);
    }
    lay_piece(&mut storage[at * AREA..(at + 1) * AREA], cut, octets);
    sender.message.map |= bit(head.cbn);
    // The piece was not held before (20), so there is one more.
    sender.message.held += 1;
    // "A fragment that is stored sets the message's stamp to the clock."
    sender.message.stamp = clock;
    let mut answer = MessageAnswer {
        held: sender.message.held.into(),
        dropped_version,
        dropped_number,
        ..MessageAnswer::bare(STORED)
    };
    if sender.message.map == full_map(head.tbn) {
        sender.close();
        (answer.verdict, answer.skipped) = deliver(sender, head, n1);
        (answer.number, answer.held) = (DELIVERED, 0);
        let (start, length) = (at * AREA, usize::from(cut.n));
        answer.message = Where::Storage { start, length };
    }
    answer
}

/// 01: "Another version than the open one, or the same version and a larger
/// number", by 02 a newer one: "the open message is dropped, its version and
/// number stand in the answer (both 0 if none; not printed), and the new one
/// opens." An older one of the same version never comes here (18).
fn drop_other(sender: &mut Sender, head: &Head) -> (u32, u32) {
    if !sender.open || same_message(sender, head) {
        return (0, 0);
    }
    let dropped = (sender.message.version, sender.message.seq);
    sender.close();
    dropped
}

/// 01: "nothing open, it opens", "kept with V_SEQ, SEQ, TCD, n, TBN, u and a
/// 64-bit map of pieces held". No piece is held yet.
fn open(sender: &mut Sender, head: &Head, cut: Cut) {
    sender.open = true;
    sender.message = OpenMessage {
        version: head.version,
        seq: head.seq,
        tcd: head.tcd,
        n: cut.n,
        tbn: head.tbn,
        u: cut.u,
        map: 0,
        held: 0,
        stamp: 0,
    };
}

/// 01: "A piece of several changes exactly its p octets in its sender's area."
fn lay_piece(area: &mut [u8], cut: Cut, octets: &[u8]) {
    let start = usize::from(cut.place);
    let p = usize::from(cut.p);
    area[start..start + p].copy_from_slice(&octets[..p]);
}

/// 01: "In cases 2 to 4, delivery stores V_SEQ and SEQ." Unchecked: "Delivery
/// leaves RV and R."
fn deliver(sender: &mut Sender, head: &Head, n1: u16) -> (Verdict, u32) {
    let check = check(sender, head, n1);
    if check != Check::Unchecked {
        sender.last_version = head.version;
        sender.last_number = head.seq;
    }
    verdict(check)
}

/// The delivered octets: a part of one of the two lent slices. Empty where
/// nothing is delivered, and where the place does not fit the slices.
pub fn part<'a>(place: Where, packet: &'a [u8], storage: &'a [u8]) -> &'a [u8] {
    match place {
        Where::Nothing => &[],
        Where::Packet => behind_header(packet),
        Where::Storage { start, length } => start
            .checked_add(length)
            .and_then(|end| storage.get(start..end))
            .unwrap_or(&[]),
    }
}

/// 01: "a one-piece message comes back as the part of the lent packet behind
/// its header."
pub fn behind_header(packet: &[u8]) -> &[u8] {
    packet.get(HEADER..).unwrap_or(&[])
}

/// What the question answers.
#[derive(Clone, Copy, Debug, PartialEq, Eq)]
pub enum Answer {
    /// 9, the only number the question can be refused with.
    Refused(u8),
    NoneOpen,
    /// The sender by its place in the table from 0, the piece by its number
    /// from 1.
    Missing {
        sender: usize,
        piece: u8,
    },
}

/// 01: "One question: of the first sender in table order with an open message,
/// which piece is its lowest missing one? The answer is sender and piece, or
/// "none open"."
pub fn question(receiver: &Receiver) -> Answer {
    if let Some(number) = first_that_applies(&[(9, !within_limits(receiver))]) {
        return Answer::Refused(number);
    }
    let Some(sender) = receiver.senders.iter().position(|sender| sender.open) else {
        return Answer::NoneOpen;
    };
    let message = &receiver.senders[sender].message;
    (1..=message.tbn)
        .find(|piece| message.map & bit(*piece) == 0)
        .map_or(Answer::NoneOpen, |piece| Answer::Missing { sender, piece })
}
