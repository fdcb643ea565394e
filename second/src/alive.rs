//! Alive signals: the alive header's places (5.3, Table 8) and the alive call.

use crate::answers::{first_that_applies, STORED};
use crate::fault;
use crate::header::{self, read_head, Code, Head, Place};
use crate::octets;
use crate::state::{within_limits, Receiver};

const fn place(start: usize, size: usize) -> Place {
    Place { start, size }
}

// 5.3, Table 8, in the printed order and sizes, behind the header's 64 octets.
pub const AL_ND_NAME: Place = place(64, 10);
pub const AL_OS_NAME: Place = place(74, 10);
pub const AL_TM_OUT: Place = place(84, 4);
pub const AL_MSGSERNO: Place = place(88, 2);
pub const AL_MODE: Place = place(90, 1);
pub const AL_PROTOCOL: Place = place(91, 1);
pub const FU1: Place = place(92, 1);
pub const AL_CHG_TIME: Place = place(93, 4);
pub const AL_IPADDR_0: Place = place(97, 4);
pub const AL_IPADDR_1: Place = place(101, 4);
pub const AL_VER: Place = place(105, 1);
pub const FU2: Place = place(106, 15);
pub const RESERVED: Place = place(121, 7);

/// The alive header's places in one table.
pub const ALIVE_PLACES: [Place; 13] = [
    AL_ND_NAME,
    AL_OS_NAME,
    AL_TM_OUT,
    AL_MSGSERNO,
    AL_MODE,
    AL_PROTOCOL,
    FU1,
    AL_CHG_TIME,
    AL_IPADDR_0,
    AL_IPADDR_1,
    AL_VER,
    FU2,
    RESERVED,
];

/// 01: "An alive PDU is 128 to 1,472 octets".
pub const ALIVE_LEAST: usize = 128;
pub const ALIVE_MOST: usize = 1_472;

/// What is looked at in the alive header; "other places of the alive header may
/// hold anything."
struct Body {
    tm_out: u32,
    mode: u8,
    protocol: u8,
    ver: u8,
}

fn read_body(packet: &[u8]) -> Body {
    let number = |place: Place| octets::read(packet, place.start, place.size);
    Body {
        tm_out: number(AL_TM_OUT) as u32,
        mode: number(AL_MODE) as u8,
        protocol: number(AL_PROTOCOL) as u8,
        ver: number(AL_VER) as u8,
    }
}

/// The alive call: its number.
pub fn alive(receiver: &mut Receiver, packet: &[u8]) -> u8 {
    let head = read_head(packet);
    let body = read_body(packet);
    let sender = receiver.place_of(head.field, head.node);
    if let Some(number) = refusal(receiver, packet, &head, &body, sender) {
        return number;
    }
    if let Some(at) = sender {
        hear(receiver, at, &body);
    }
    STORED
}

/// "Alive signals use 9, 12, 13, 14, 22 only", and by 02, which narrows 01, 24
/// "after 22".
fn refusal(
    receiver: &Receiver,
    packet: &[u8],
    head: &Head,
    body: &Body,
    sender: Option<usize>,
) -> Option<u8> {
    let length = packet.len();
    first_that_applies(&[
        // "a state with a setting, sender, time [...] outside"
        (9, !within_limits(receiver)),
        // "PDU too short (64; alive 128), too long (1,460; alive 1,472), or
        // length unlike BSIZE"
        (12, length_wrong(length, head)),
        // "a fixed field of 5.1, PRI, MODE, code [...] out of range"
        (13, head_out_of_range(head)),
        // "sender not registered"
        (14, sender.is_none()),
        // "alive ML, CBN, TBN, group or body wrong"
        (22, frame_wrong(length, head) || body_wrong(body)),
        // "a fault section that breaks these rules"
        (24, section_wrong(packet)),
    ])
}

fn length_wrong(length: usize, head: &Head) -> bool {
    !(ALIVE_LEAST..=ALIVE_MOST).contains(&length) || length != usize::from(head.bsize)
}

/// "SEQ ([...] not looked at in alive signals)". "Code in 13 means [...] in an
/// alive signal not 60,003."
fn head_out_of_range(head: &Head) -> bool {
    !header::fixed_fields_right(head)
        || !header::pri_right(head.pri)
        || !header::mode_right(head.mode)
        || header::code(head.tcd) != Code::Alive
}

/// 01: "its length equal to BSIZE and ML, CBN = TBN = 1, code 60,003, group 0".
fn frame_wrong(length: usize, head: &Head) -> bool {
    length as u64 != u64::from(head.ml) || head.cbn != 1 || head.tbn != 1 || group(head.da) != 0
}

/// The multicast group is the last two octets of the destination address.
fn group(da: u32) -> u16 {
    (da & 0xffff) as u16
}

/// 01: "al_protocol is 4, al_ver 1, al_mode 1 to 3".
fn body_wrong(body: &Body) -> bool {
    body.protocol != 4 || body.ver != 1 || !(1..=3).contains(&body.mode)
}

/// 02: "The section ends the PDU exactly, or is absent in a PDU of 128 octets".
fn section_wrong(packet: &[u8]) -> bool {
    packet.len() > ALIVE_LEAST && !fault::is_section(&packet[ALIVE_LEAST..])
}

/// 01: "Mode 1: the sender is alive, stamped with the clock and al_tm_out (unit
/// by 5.3). Modes 2 and 3: dead from then on".
fn hear(receiver: &mut Receiver, at: usize, body: &Body) {
    let clock = receiver.clock;
    let sender = &mut receiver.senders[at];
    if body.mode == 1 {
        sender.alive = true;
        sender.alive_stamp = clock;
        sender.al_tm_out = body.tm_out;
    } else {
        sender.die();
    }
}

#[cfg(test)]
mod tests {
    use super::*;

    #[test]
    fn places_cover_the_alive_header_without_overlap() {
        let mut end = 64;
        for place in ALIVE_PLACES {
            assert_eq!(place.start, end);
            end = place.start + place.size;
        }
        assert_eq!(end, 128);
    }

    #[test]
    fn the_group_is_the_last_two_octets() {
        assert_eq!(group(0x0001_0001), 1);
        assert_eq!(group(0x0001_0100), 256);
        assert_eq!(group(0xffff_0000), 0);
    }
}
