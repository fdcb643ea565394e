//! The multicast call (class Base-1, D.3.1): a message of one piece for a group
//! that this node has joined, judged by the number check of D.3.1.3.

use crate::answers::{first_that_applies, DELIVERED, REPEAT};
use crate::header::{self, read_head, Head};
use crate::numbers::{age, number_check, verdict, Check, Verdict, M};
use crate::receiver::{head_out_of_range, Where};
use crate::state::{within_limits, Receiver};

/// 01: "PRI is 0 to 7".
const PRIORITIES: usize = 8;

/// 02: "Messages have one piece and 0 to 1,408 octets"; "a PDU may be 1,472 octets
/// here".
const PDU_LEAST: usize = 64;
const PDU_MOST: usize = 1_472;

/// 02: "The last version and number are kept for each sender, group and priority
/// (D.3.1.2) in two lent tables of 32-bit numbers, versions and SEQ".
pub struct Tables<'a> {
    pub versions: &'a mut [u32],
    pub numbers: &'a mut [u32],
}

/// Everything a multicast call answers, besides the tables.
#[derive(Clone, Copy, Debug, PartialEq, Eq)]
pub struct MulticastAnswer {
    pub number: u8,
    pub verdict: Verdict,
    /// The numbers skipped before a gap's delivery, otherwise 0.
    pub skipped: u32,
    /// How far back a repeat lies, with 17, otherwise 0.
    pub age: u32,
    /// Nowhere, or in the packet: no storage is lent to this call.
    pub message: Where,
}

/// What is known of a PDU before it is refused or delivered. Sender and group are
/// their places, from 0, in the order of setup.
struct Arrival {
    head: Head,
    length: usize,
    sender: Option<usize>,
    group: Option<usize>,
    /// Its entry, and what the check says of it.
    judged: Option<(usize, Check)>,
}

/// 02: "each senders x groups x 8 long".
pub fn entries(receiver: &Receiver) -> usize {
    receiver.senders.len() * usize::from(receiver.groups.count) * PRIORITIES
}

/// The multicast call; 02: "the group given by the caller from the receiving
/// port". It looks at the state and leaves it: demand 3 "still speaks of
/// peer-to-peer messages, which it doesn't touch". "A refusal alters" no entry.
pub fn multicast(receiver: &Receiver, tables: Tables, group: u8, packet: &[u8]) -> MulticastAnswer {
    let arrival = arrival(receiver, &tables, group, packet);
    if let Some(number) = refusal(receiver, &tables, &arrival) {
        return MulticastAnswer {
            number,
            verdict: Verdict::Nothing,
            skipped: 0,
            age: age_with(number, &arrival),
            message: Where::Nothing,
        };
    }
    match arrival.judged {
        Some((at, check)) => deliver(tables, at, &arrival.head, check),
        None => unreachable!("rows 26, 13, 14 and 25 refuse these"),
    }
}

fn arrival(receiver: &Receiver, tables: &Tables, group: u8, packet: &[u8]) -> Arrival {
    let head = read_head(packet);
    let sender = receiver.place_of(head.field, head.node);
    let group = receiver.groups.place_of(group);
    let judged = match (sender, group) {
        (Some(sender), Some(group)) => {
            let at = entry_of(receiver, sender, group, head.pri);
            check(tables, at, &head, receiver.n1).map(|check| (at, check))
        }
        _ => None,
    };
    Arrival {
        head,
        length: packet.len(),
        sender,
        group,
        judged,
    }
}

/// 02: "kept for each sender, group and priority [...] in that order", each from 0.
pub fn entry_of(receiver: &Receiver, sender: usize, group: usize, pri: u8) -> usize {
    let groups = usize::from(receiver.groups.count);
    (sender * groups + group) * PRIORITIES + usize::from(pri)
}

/// 02: "judged by the same check", with the entry for RV and R. None where the
/// tables have no such entry, which 13 or 26 refuses.
fn check(tables: &Tables, at: usize, head: &Head, n1: u16) -> Option<Check> {
    let rv = *tables.versions.get(at)?;
    let r = *tables.numbers.get(at)?;
    Some(number_check(rv, r, head.version, head.seq, n1))
}

/// "Numbers that come back", and those of 02: "25 group not registered, after 14";
/// "26 a lent table of the wrong size, a SEQ above M, or 0 under a version not 0,
/// before 12".
fn refusal(receiver: &Receiver, tables: &Tables, arrival: &Arrival) -> Option<u8> {
    let head = &arrival.head;
    first_that_applies(&[
        // "a state with a setting, sender, time [...] outside"
        (9, !within_limits(receiver)),
        // "a lent table of the wrong size, a SEQ above M, or 0 under a version
        // not 0"
        (26, !tables_right(tables, entries(receiver))),
        // "PDU too short [...], too long [...], or length unlike BSIZE"
        (12, length_wrong(arrival)),
        // "a fixed field of 5.1, PRI, MODE, code, or SEQ [...] out of range"
        (13, head_out_of_range(head)),
        // "sender not registered"
        (14, arrival.sender.is_none()),
        // "group not registered"
        (25, arrival.group.is_none()),
        // "test message at an online node"
        (15, head.mode == header::TEST && !receiver.test),
        // "unless CBN = TBN = 1 and p = n"
        (16, !of_one_piece(head)),
        // "number check says repeat"
        (REPEAT, repeat(arrival)),
    ])
}

/// The whole of both tables is looked at, not only the packet's entry.
fn tables_right(tables: &Tables, entries: usize) -> bool {
    let sizes_right = tables.versions.len() == entries && tables.numbers.len() == entries;
    let mut pairs = tables.versions.iter().zip(tables.numbers.iter());
    sizes_right && pairs.all(|(version, number)| entry_right(*version, *number))
}

/// An entry is 0 and 0 before its first delivery, and afterwards a version and a
/// number from 1 to M.
fn entry_right(version: u32, number: u32) -> bool {
    number <= M && (number != 0 || version == 0)
}

/// "12 | PDU too short (64; [...]), too long", here above 1,472, "or length unlike
/// BSIZE".
fn length_wrong(arrival: &Arrival) -> bool {
    !(PDU_LEAST..=PDU_MOST).contains(&arrival.length)
        || arrival.length != usize::from(arrival.head.bsize)
}

/// 02: "16 unless CBN = TBN = 1 and p = n". 01: "Let n = ML - 64 and
/// p = BSIZE - 64", both whole numbers, so that with an ML below 64 p is not n.
fn of_one_piece(head: &Head) -> bool {
    let n = i64::from(head.ml) - 64;
    let p = i64::from(head.bsize) - 64;
    head.cbn == 1 && head.tbn == 1 && p == n
}

/// "17 | number check says repeat".
fn repeat(arrival: &Arrival) -> bool {
    matches!(arrival.judged, Some((_, Check::Repeat { .. })))
}

/// 02: "The receiver passes it on with refusal 17, multicast too".
fn age_with(number: u8, arrival: &Arrival) -> u32 {
    match (number, arrival.judged) {
        (REPEAT, Some((_, check))) => age(check),
        _ => 0,
    }
}

/// 01: "In cases 2 to 4, delivery stores V_SEQ and SEQ", here in one entry.
/// Unchecked: "Delivery leaves RV and R." And "a one-piece message comes back as
/// the part of the lent packet behind its header."
fn deliver(tables: Tables, at: usize, head: &Head, check: Check) -> MulticastAnswer {
    if check != Check::Unchecked {
        tables.versions[at] = head.version;
        tables.numbers[at] = head.seq;
    }
    let (verdict, skipped) = verdict(check);
    MulticastAnswer {
        number: DELIVERED,
        verdict,
        skipped,
        age: 0,
        message: Where::Packet,
    }
}

#[cfg(test)]
mod tests {
    use super::*;
    use crate::state::{setup, Groups, Setup};

    #[test]
    fn entries_on_both_sides_of_their_limits() {
        assert!(entry_right(0, 0) && entry_right(0, 1) && entry_right(0, M));
        assert!(entry_right(1, 1) && entry_right(u32::MAX, M));
        assert!(!entry_right(1, 0) && !entry_right(u32::MAX, 0));
        assert!(!entry_right(0, M + 1) && !entry_right(5, M + 1));
        assert!(!entry_right(0, u32::MAX) && !entry_right(5, u32::MAX));
    }

    fn state(senders: u16, groups: u8) -> Receiver {
        let wanted = Setup {
            mode: 0,
            n1: 16,
            t: 15_000,
            senders: (1..=senders).map(|node| (1, node)).collect(),
            groups: Groups {
                count: groups,
                places: [1, 2, 3, 4, 5, 6, 7, 8],
            },
        };
        setup(&wanted).1
    }

    #[test]
    fn tables_are_senders_by_groups_by_eight() {
        assert_eq!(entries(&Receiver::empty()), 0);
        assert_eq!(entries(&state(16, 0)), 0);
        assert_eq!(entries(&state(1, 1)), 8);
        assert_eq!(entries(&state(2, 3)), 48);
        assert_eq!(entries(&state(16, 8)), 1_024);
    }

    /// No two share one, and the last is the tables' last.
    #[test]
    fn each_sender_group_and_pri_has_its_own_entry() {
        let state = state(5, 3);
        let mut taken = Vec::new();
        for sender in 0..5 {
            for group in 0..3 {
                taken.extend((0..8).map(|pri| entry_of(&state, sender, group, pri)));
            }
        }
        let expected: Vec<usize> = (0..120).collect();
        assert_eq!(taken, expected);
    }

    /// ML below 64 is no small n: it would be 2^32 - 1 and more in 32 bits.
    #[test]
    fn one_piece_in_whole_numbers() {
        let with = |ml: u32, bsize: u16, cbn: u8, tbn: u8| {
            of_one_piece(&Head {
                ml,
                bsize,
                cbn,
                tbn,
                ..Head::fixed()
            })
        };
        assert!(with(64, 64, 1, 1) && with(1_472, 1_472, 1, 1));
        assert!(!with(63, 64, 1, 1) && !with(65, 64, 1, 1) && !with(0, 64, 1, 1));
        assert!(!with(74, 74, 0, 1) && !with(74, 74, 2, 1) && !with(74, 74, 255, 1));
        assert!(!with(74, 74, 1, 0) && !with(74, 74, 1, 2) && !with(74, 74, 1, 255));
        assert!(!with(74, 74, 2, 2) && !with(74 + 65_536, 74, 1, 1));
    }
}
