//! The PDUs of the edges: written as `docs/EDGES.md` says, also where no cutter
//! would write them so.

use std::ops::Range;

use crate::alive::{AL_MODE, AL_PROTOCOL, AL_TM_OUT, AL_VER};
use crate::cut;
use crate::header::{write_head, Head, Place, HEADER};
use crate::octets;

/// A value laid over a PDU: "at, size, value".
pub type Laid = (usize, usize, u64);

/// The base: field 1, node 7, V_SEQ 5, SEQ 100, TCD 1 and the fixed values.
fn base_head() -> Head {
    Head {
        field: 1,
        node: 7,
        da: 0x0001_0001,
        version: 5,
        seq: 100,
        m_ctl: 0x8000_0000,
        tcd: 1,
        ..Head::fixed()
    }
}

/// "Message octet i (from 0) of a message with number SEQ is
/// (7 x i + i / 256 + SEQ) mod 256": pieces differ, and messages do.
fn message_octet(i: usize, seq: u32) -> u8 {
    ((7 * i + i / 256 + seq as usize) % 256) as u8
}

/// A run of the octets of the message with this number.
pub fn message(octets: Range<usize>, seq: u32) -> Vec<u8> {
    octets.map(|i| message_octet(i, seq)).collect()
}

/// The header and, behind it, message octets from `start` on; `lent` octets of
/// all this.
fn pdu(head: &Head, start: usize, lent: usize) -> Vec<u8> {
    let mut pdu = vec![0; HEADER];
    write_head(head, &mut pdu);
    pdu.extend(message(start..start + lent, head.seq));
    pdu.truncate(lent);
    pdu
}

/// "piece(field, node, version, seq, tcd, n, u, piece)": the PDU that D.4.3
/// gives.
pub fn piece(values: [u32; 8]) -> Vec<u8> {
    let [field, node, version, seq, tcd, n, u, piece] = values;
    let (n, u, piece) = (n as usize, u as usize, piece as usize);
    let bsize = HEADER + cut::length_of(piece, n, u);
    let head = Head {
        ml: (n + HEADER) as u32,
        field: field as u8,
        node: node as u16,
        version,
        seq,
        tcd: tcd as u16,
        cbn: piece as u8,
        tbn: cut::pieces(n, u) as u8,
        bsize: bsize as u16,
        ..base_head()
    };
    pdu(&head, cut::place_of(piece, u), bsize)
}

/// "number(version, seq)": a message of one piece, of 10 octets.
pub fn number(version: u32, seq: u32) -> Vec<u8> {
    piece([1, 7, version, seq, 1, 10, 256, 1])
}

/// "cast(group, field, node, pri, version, seq, n)": a multicast message, whose
/// group is none of the PDU's.
pub fn cast(values: [u32; 6]) -> Vec<u8> {
    let [field, node, pri, version, seq, n] = values;
    let size = HEADER as u32 + n;
    let head = Head {
        ml: size,
        field: field as u8,
        node: node as u16,
        version,
        seq,
        pri: pri as u8,
        cbn: 1,
        tbn: 1,
        bsize: size as u16,
        ..base_head()
    };
    pdu(&head, 0, size as usize)
}

/// "raw(ml, bsize, cbn, tbn, lent)": any sizes, possible or not.
pub fn raw(ml: u32, bsize: u16, cbn: u8, tbn: u8, lent: usize) -> Vec<u8> {
    let head = Head {
        ml,
        bsize,
        cbn,
        tbn,
        ..base_head()
    };
    pdu(&head, 0, lent)
}

/// "alive(field, node, al_mode, al_tm_out)".
pub fn alive(field: u32, node: u32, al_mode: u32, al_tm_out: u32) -> Vec<u8> {
    alive_of(field, node, al_mode, al_tm_out, 128, 128, 128)
}

/// "alive_sized(ml, bsize, lent)".
pub fn alive_sized(ml: u32, bsize: u16, lent: usize) -> Vec<u8> {
    alive_of(1, 7, 1, 60, ml, bsize, lent)
}

/// "alive_with(al_mode, section; laid)": ML and BSIZE are 128 and the section's
/// octets, and the numbers are laid over all this.
pub fn alive_with(al_mode: u32, section: &[u8], laid: &[Laid]) -> Vec<u8> {
    let length = 128 + section.len();
    let mut pdu = alive_of(1, 7, al_mode, 60, length as u32, length as u16, 128);
    pdu.extend(section);
    with(pdu, laid)
}

fn alive_of(
    field: u32,
    node: u32,
    al_mode: u32,
    al_tm_out: u32,
    ml: u32,
    bsize: u16,
    lent: usize,
) -> Vec<u8> {
    let head = Head {
        ml,
        field: field as u8,
        node: node as u16,
        da: 0x0001_0000,
        seq: 1,
        tcd: 60_003,
        pri: 1,
        cbn: 1,
        tbn: 1,
        bsize,
        ..Head::fixed()
    };
    let mut pdu = vec![0; lent.max(128)];
    write_head(&head, &mut pdu);
    lay_place(&mut pdu, AL_TM_OUT, al_tm_out);
    lay_place(&mut pdu, AL_MODE, al_mode);
    lay_place(&mut pdu, AL_PROTOCOL, 4);
    lay_place(&mut pdu, AL_VER, 1);
    pdu.truncate(lent);
    pdu
}

fn lay_place(pdu: &mut [u8], place: Place, value: u32) {
    octets::write(pdu, place.start, place.size, value.into());
}

/// The same PDU with these values laid over it, one after the other.
pub fn with(mut pdu: Vec<u8>, laid: &[Laid]) -> Vec<u8> {
    for (at, size, value) in laid {
        octets::write(&mut pdu, *at, *size, *value);
    }
    pdu
}

#[cfg(test)]
mod tests {
    use super::*;

    #[test]
    fn a_piece_octet_by_octet() {
        let pdu = piece([2, 9, 6, 101, 3, 300, 256, 2]);
        let mut expected = Vec::new();
        expected.extend([78, 85, 88, 77, 0, 0, 1, 108, 0, 2, 0, 9, 0, 1, 0, 1]);
        expected.extend([0, 0, 0, 6, 0, 0, 0, 101, 128, 0, 0, 0]);
        expected.extend([0; 12]);
        expected.extend([0, 3, 0, 0]);
        expected.extend([0; 8]);
        expected.extend([0, 0, 1, 0, 2, 2, 0, 108, 0, 0, 0, 0]);
        // 7 x 256 + 1 + 101 = 1894 = 7 x 256 + 102.
        expected.extend((0..44).map(|j| ((102 + 7 * j) % 256) as u8));
        assert_eq!(pdu, expected);
    }

    #[test]
    fn a_multicast_message_is_a_piece_with_a_priority() {
        assert_eq!(cast([1, 7, 0, 5, 100, 10]), number(5, 100));
        let most = piece([2, 9, 6, 101, 1, 1_396, 1_396, 1]);
        assert_eq!(cast([2, 9, 7, 6, 101, 1_396]), with(most, &[(55, 1, 7)]));
        assert_eq!(cast([1, 7, 0, 5, 100, 1_408]).len(), 1_472);
    }

    #[test]
    fn raw_sizes_and_what_is_laid() {
        assert_eq!(raw(74, 74, 1, 1, 74), number(5, 100));
        assert_eq!(raw(74, 74, 1, 1, 63), number(5, 100)[..63]);
        let longer = raw(74, 74, 1, 1, 1_461);
        assert_eq!(longer.len(), 1_461);
        assert_eq!((longer[64], longer[65]), (100, 107));
        let laid = with(number(5, 100), &[(58, 2, 75), (20, 4, 0)]);
        assert_eq!((&laid[58..60], &laid[20..24]), (&[0, 75][..], &[0; 4][..]));
        assert_eq!(laid[64..], number(5, 100)[64..]);
    }

    #[test]
    fn alive_octets_of_table_8() {
        let pdu = alive(2, 9, 3, 40);
        assert_eq!(pdu.len(), 128);
        let named = [(3, 77), (7, 128), (9, 2), (11, 9), (13, 1), (23, 1)];
        let more = [(40, 234), (41, 99), (54, 1), (55, 1), (56, 1), (57, 1)];
        let body = [(59, 128), (87, 40), (90, 3), (91, 4), (105, 1)];
        let first = [(0, 78), (1, 85), (2, 88)];
        let all = [&named[..], &more, &body, &first].concat();
        for (at, octet) in pdu.iter().enumerate() {
            let expected = all.iter().find(|(place, _)| *place == at);
            assert_eq!(*octet, expected.map_or(0, |(_, octet)| *octet), "{at}");
        }
        assert_eq!(alive_sized(127, 127, 127).len(), 127);
        let longer = alive_with(3, &[1, 2, 3], &[(9, 1, 2), (11, 1, 9), (87, 1, 40)]);
        let longer = with(longer, &[(7, 1, 128), (59, 1, 128)]);
        assert_eq!(longer, [&pdu[..], &[1, 2, 3]].concat());
        assert_eq!(alive_with(1, &[0; 3], &[])[59], 131);
        assert_eq!(alive_sized(1_473, 1_473, 1_473)[128..], [0; 1_345]);
    }
}
