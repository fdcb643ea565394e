//! The table of senders: who stands at which place, and the values of a record.

use crate::state::Sender;

/// "place 0 is 1:7, place 1 is field:node, place i from 2 is (1 + i):(7 + i);
/// the first count places are given."
pub fn senders(count: u32, second: (u8, u16)) -> Vec<(u8, u16)> {
    let sender = |place: u32| match place {
        1 => second,
        _ => ((1 + place) as u8, (7 + place) as u16),
    };
    (0..count).map(sender).collect()
}

/// All values of a sender's record, "in the order of the w line".
pub fn values_of(place: usize, sender: &Sender) -> [u64; 18] {
    let open = &sender.message;
    [
        place as u64,
        sender.field.into(),
        sender.node.into(),
        sender.last_version.into(),
        sender.last_number.into(),
        sender.open.into(),
        open.version.into(),
        open.seq.into(),
        open.tcd.into(),
        open.n.into(),
        open.tbn.into(),
        open.u.into(),
        open.map,
        open.held.into(),
        open.stamp,
        sender.alive.into(),
        sender.alive_stamp,
        sender.al_tm_out.into(),
    ]
}

#[cfg(test)]
mod tests {
    use super::*;

    #[test]
    fn tables_of_senders() {
        assert_eq!(senders(0, (2, 9)), []);
        assert_eq!(senders(3, (2, 9)), [(1, 7), (2, 9), (3, 9)]);
        assert_eq!(senders(17, (2, 8))[16], (17, 23));
    }
}
