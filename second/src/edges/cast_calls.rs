//! The multicast call, its tables, and setups with groups, as `docs/EDGES.md` has
//! them.

use super::calls;
use super::past::{joined, sum, Past, TABLE};
use super::pdu::{self, Laid};
use crate::multicast::{entries, multicast, Tables};
use crate::receiver::part;
use crate::state::{Groups, GROUPS_MOST};

/// "n: g1, g2, ...": so many groups, and these in the first places; "0 in the
/// others".
pub fn groups_of(count: u8, first: &[u8]) -> Groups {
    let mut places = [0; GROUPS_MOST];
    places[..first.len()].copy_from_slice(first);
    Groups { count, places }
}

impl Past {
    /// "groups(n: g1, g2, ...)".
    pub fn groups(&mut self, count: u8, first: &[u8]) {
        self.setup_with([0, 16, 15_000, 2, 2, 9], groups_of(count, first));
    }

    /// "nothing: groups(3: 5, 1, 255), so that the tables are 48 entries long".
    pub fn ready(&mut self) {
        self.quietly(|past| past.groups(3, &[5, 1, 255]));
    }

    /// "cast(group, field, node, pri, version, seq, n)".
    pub fn cast(&mut self, group: u8, values: [u32; 6]) {
        self.multicast(group, &pdu::cast(values));
    }

    /// "peer(field, node, pri, version, seq, n)": the same PDU, to the message call.
    pub fn peer(&mut self, values: [u32; 6]) {
        self.message(&pdu::cast(values));
    }

    /// "cast_number(version, seq)": to group 1, whose entry is 8 at the state of
    /// ready().
    pub fn cast_number(&mut self, version: u32, seq: u32) {
        self.multicast(1, &pdu::number(version, seq));
    }

    /// "cast_laid(group; laid)".
    pub fn cast_laid(&mut self, group: u8, laid: &[Laid]) {
        self.multicast(group, &pdu::with(pdu::number(5, 100), laid));
    }

    /// "cast_raw(ml, bsize, cbn, tbn, lent)".
    pub fn cast_raw(&mut self, ml: u32, bsize: u16, cbn: u8, tbn: u8, lent: usize) {
        self.multicast(1, &pdu::raw(ml, bsize, cbn, tbn, lent));
    }

    /// "the first senders x groups x 8 entries of each, by the state in use"; "where
    /// that is more than there are, all 1,040".
    pub fn entries_lent(&self) -> [usize; 2] {
        [entries(&self.receiver).min(TABLE); 2]
    }

    /// Lends the entries that belong to the state.
    pub fn multicast(&mut self, group: u8, packet: &[u8]) {
        self.multicast_lent(self.entries_lent(), group, packet);
    }

    /// "M number verdict length skipped age part-sum versions-sum numbers-sum".
    pub fn multicast_lent(&mut self, lent: [usize; 2], group: u8, packet: &[u8]) {
        let [versions, numbers] = lent;
        let tables = Tables {
            versions: &mut self.versions[..versions],
            numbers: &mut self.numbers[..numbers],
        };
        let answer = multicast(&self.receiver, tables, group, packet);
        let delivered = part(answer.message, packet, &[]);
        let line = [
            answer.number.into(),
            answer.verdict.number().into(),
            delivered.len() as u32,
            answer.skipped,
            answer.age,
            sum(delivered),
            sum_of_entries(&self.versions[..versions]),
            sum_of_entries(&self.numbers[..numbers]),
        ];
        let contents = calls::multicast(lent, group, packet);
        self.made('M', &contents, &format!("M {}", joined(&line)));
    }

    /// "entry(place, version, number)", prints nothing: damage of one entry, or its
    /// mending.
    pub fn entry(&mut self, place: usize, version: u32, number: u32) {
        (self.versions[place], self.numbers[place]) = (version, number);
        self.write('e', &calls::entry(place, version, number));
    }

    /// "E count", and "e place version number" for each entry that is not 0 and 0.
    pub fn tables(&mut self) {
        let pairs = self.versions.iter().zip(&self.numbers).enumerate();
        let in_use: Vec<String> = pairs
            .filter(|(_, pair)| *pair != (&0, &0))
            .map(|(place, (version, number))| format!("e {place} {version} {number}"))
            .collect();
        let count = format!("E {}", in_use.len());
        self.made('E', &[], &[vec![count], in_use].concat().join("\n"));
    }
}

/// "each entry as four octets, high octet first".
fn sum_of_entries(entries: &[u32]) -> u32 {
    let octets: Vec<u8> = entries
        .iter()
        .flat_map(|entry| entry.to_be_bytes())
        .collect();
    sum(&octets)
}

#[cfg(test)]
mod tests {
    use super::*;

    /// 7 x 31^4 is 6464647.
    #[test]
    fn sums_of_entries_by_hand() {
        assert_eq!(sum_of_entries(&[]), 7);
        assert_eq!(sum_of_entries(&[0]), 6_464_647);
        assert_eq!(sum_of_entries(&[0x0102_ff00]), sum(&[1, 2, 255, 0]));
    }

    #[test]
    fn entries_in_use_are_shown_in_their_order() {
        let mut past = Past::new();
        past.tables();
        past.entry(1_039, 0, 7);
        past.entry(3, 5, 0);
        past.tables();
        assert_eq!(past.lines, "E 0\nE 2\ne 3 5 0\ne 1039 0 7\n");
    }
}
