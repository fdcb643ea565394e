//! What the tests share: PDUs written octet by octet at the places of Table 7
//! and Table 8, apart from the code under test.
#![allow(dead_code)]

use second::state::{setup, Groups, Receiver, Setup};

pub const M: u32 = 2_147_483_647;

/// A message as its sender means it.
#[derive(Clone)]
pub struct Message {
    pub field: u8,
    pub node: u16,
    pub version: u32,
    pub seq: u32,
    pub tcd: u16,
    pub mode: u16,
    pub pri: u8,
    pub n: usize,
    pub u: usize,
}

/// Figure 54's message: SEQ 100, ML 4564, cut at 1332.
pub fn figure_54() -> Message {
    Message {
        field: 1,
        node: 7,
        version: 5,
        seq: 100,
        tcd: 1,
        mode: 0,
        pri: 0,
        n: 4500,
        u: 1332,
    }
}

pub fn octet(i: usize) -> u8 {
    ((i * 7 + 3) % 256) as u8
}

pub fn octets(n: usize) -> Vec<u8> {
    (0..n).map(octet).collect()
}

pub fn lay(pdu: &mut [u8], at: usize, octets: &[u8]) {
    pdu[at..at + octets.len()].copy_from_slice(octets);
}

impl Message {
    pub fn numbered(&self, version: u32, seq: u32) -> Message {
        Message {
            version,
            seq,
            ..self.clone()
        }
    }

    pub fn sized(&self, n: usize, u: usize) -> Message {
        Message {
            n,
            u,
            ..self.clone()
        }
    }

    pub fn from(&self, field: u8, node: u16) -> Message {
        Message {
            field,
            node,
            ..self.clone()
        }
    }

    /// The PDU of one piece, by D.4.3.
    pub fn pdu(&self, cbn: usize) -> Vec<u8> {
        let (uml, ubs) = (self.n, self.u);
        let tbn = if ubs < uml { uml.div_ceil(ubs) } else { 1 };
        let start = ubs * (cbn - 1);
        let end = if cbn == tbn { uml } else { start + ubs };
        let mut pdu = vec![0; 64];
        lay(&mut pdu, 0, b"NUXM");
        lay(&mut pdu, 4, &(uml as u32 + 64).to_be_bytes());
        lay(&mut pdu, 8, &[0, self.field]);
        lay(&mut pdu, 10, &self.node.to_be_bytes());
        lay(&mut pdu, 12, &[0, 1, 0, 1]);
        lay(&mut pdu, 16, &self.version.to_be_bytes());
        lay(&mut pdu, 20, &self.seq.to_be_bytes());
        lay(&mut pdu, 24, &[0x80, 0, 0, 0]);
        lay(&mut pdu, 40, &self.tcd.to_be_bytes());
        lay(&mut pdu, 52, &self.mode.to_be_bytes());
        lay(&mut pdu, 54, &[1, self.pri, cbn as u8, tbn as u8]);
        lay(&mut pdu, 58, &((end - start + 64) as u16).to_be_bytes());
        pdu.extend((start..end).map(octet));
        pdu
    }
}

/// Online, N1 16, T 15000, and these senders.
pub fn receiver(senders: &[(u8, u16)]) -> Receiver {
    let wanted = Setup {
        mode: 0,
        n1: 16,
        t: 15_000,
        senders: senders.to_vec(),
        groups: Groups::default(),
    };
    let (number, receiver) = setup(&wanted);
    assert_eq!(number, 0);
    receiver
}

/// E.3.2's alive signal (field 1, node 2, al_tm_out 10 * 4 seconds), octet by
/// octet, as printed: its group is 1.
pub fn sample_of_e_3_2() -> Vec<u8> {
    let mut pdu = Vec::new();
    pdu.extend(b"NUXM"); // h_type
    pdu.extend([0, 0, 0, 128]); // ml = 128
    pdu.extend([0, 1, 0, 2]); // sa = 0x00010002
    pdu.extend([0, 1, 0, 1]); // da = 0x00010001
    pdu.extend([0, 0, 0, 0]); // v_seq = 0
    pdu.extend([0, 0, 0, 1]); // seq = 1
    pdu.extend([0x80, 0, 0, 0]); // m_ctl = 0x80000000
    pdu.extend([0; 12]); // inq_id = 0
    pdu.extend([0xea, 0x63]); // tcd = 60003
    pdu.extend([0; 2]); // ver = 0
    pdu.extend([0; 8]); // gtid = 0
    pdu.extend([0, 0]); // mode = 0
    pdu.extend([1, 1, 1, 1]); // pver, pri, cbn, tbn
    pdu.extend([0, 128]); // bsize = 128
    pdu.extend([0; 4]); // fu1 = 0
    pdu.extend(b"node2\0\0\0\0\0"); // al_nd_name
    pdu.extend(b"HI_PC_win\0"); // al_os_name
    pdu.extend([0, 0, 0, 40]); // al_tm_out = 10 * 4
    pdu.extend([0, 0]); // al_msgserno = 0
    pdu.extend([1, 4]); // al_mode = 1, al_protocol = 4
    pdu.extend([0]); // fu1 = 0
    pdu.extend([0; 4]); // al_chg_time = 0
    pdu.extend([128, 0, 0, 1]); // al_ipaddr[0]: 128.0.0.1
    pdu.extend([0; 4]); // al_ipaddr[1] = 0
    pdu.extend([1]); // al_ver = 1
    pdu.extend([0; 15]); // fu2 = 0
    pdu.extend([0; 7]); // reserved = 0
    pdu
}

/// The same with group 0, as 01 wants it.
pub fn alive_of_node_2() -> Vec<u8> {
    let mut pdu = sample_of_e_3_2();
    lay(&mut pdu, 14, &[0, 0]);
    pdu
}
