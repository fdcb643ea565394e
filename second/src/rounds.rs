//! Which message calls tell the ring from the mere size of two numbers: what the
//! edges and random pasts have to reach.

use std::collections::BTreeMap;

use crate::header::read_head;
use crate::pairs::Pair;

/// The version and number of the message that a sender, by its data field and
/// node, is known to have open: the one of its last stored piece, where nothing
/// came since that may have closed it.
type Open = BTreeMap<(u8, u16), (u32, u32)>;

/// The answers to those message calls in which a message of the same version was
/// open and 02's "newer" is not the larger number: 0 or 1 where the open one, of a
/// larger number, was replaced all the same, 18 where it stayed in spite of its
/// smaller one.
pub fn came_round(pairs: &[Pair]) -> Vec<u64> {
    let mut open = Open::new();
    let answers = pairs.iter().filter_map(|pair| step(&mut open, pair));
    answers.collect()
}

/// The call's answer, where it is one of those that are looked for.
fn step(open: &mut Open, pair: &Pair) -> Option<u64> {
    let Some(numbers) = &pair.numbers else {
        // What such a call did is not printed.
        open.clear();
        return None;
    };
    match (pair.letter(), &numbers[..]) {
        ('P', [answer, ..]) => judge(open, pair.message()?, *answer),
        // A clock call that drops nothing leaves what is open.
        ('C', [_, 0, _]) => None,
        ('S' | 'C', _) => {
            open.clear();
            None
        }
        _ => None,
    }
}

fn judge(open: &mut Open, packet: &[u8], answer: u64) -> Option<u64> {
    let head = read_head(packet);
    let sender = (head.field, head.node);
    let of_version = |(version, _): &&(u32, u32)| *version == head.version;
    let open_number = open.get(&sender).filter(of_version).map(|(_, seq)| *seq);
    match answer {
        0 => open.insert(sender, (head.version, head.seq)),
        1 => open.remove(&sender),
        _ => None,
    };
    let round = match answer {
        0 | 1 => open_number? > head.seq,
        18 => open_number? < head.seq,
        _ => false,
    };
    round.then_some(answer)
}

#[cfg(test)]
mod tests {
    use super::*;
    use crate::fields::run;
    use crate::pairs::pairs;
    use crate::text::capture_of;

    fn pdu(seq: u32, piece: usize) -> String {
        format!("pdu field=1 node=7 version=5 seq={seq} n=300 u=256 piece={piece}\n")
    }

    /// The answers looked for, in a capture of these lines behind a setup.
    fn of_text(texts: &[&str]) -> Vec<u64> {
        let text = ["setup online senders=1:7\n", &texts.concat()].concat();
        let capture = capture_of(&text).unwrap();
        came_round(&pairs(&capture, &run(&capture)).unwrap())
    }

    #[test]
    fn what_02s_cases_count_for() {
        let (m, one) = (2_147_483_647, 1);
        let whole = "pdu field=1 node=7 version=5 seq=1 n=10\n";
        // Open M, 1 comes, of several pieces and of one.
        assert_eq!(of_text(&[&pdu(m, 1), &pdu(one, 1)]), [0]);
        assert_eq!(of_text(&[&pdu(m, 1), whole]), [1]);
        // Open 1, M comes.
        assert_eq!(of_text(&[&pdu(one, 1), &pdu(m, 1)]), [18]);
        assert_eq!(of_text(&[&pdu(m, 1), &pdu(one, 1), &pdu(m, 2)]), [0, 18]);
    }

    #[test]
    fn what_the_size_would_say_too_does_not_count() {
        assert_eq!(of_text(&[&pdu(100, 1), &pdu(101, 1), &pdu(100, 2)]), []);
        assert_eq!(of_text(&[&pdu(100, 1), &pdu(100, 1), &pdu(100, 2)]), []);
        let other = pdu(1, 1).replace("version=5", "version=6");
        assert_eq!(of_text(&[&pdu(100, 1), &other]), []);
    }

    #[test]
    fn nothing_counts_where_the_open_one_may_be_gone() {
        let m = 2_147_483_647;
        assert_eq!(of_text(&[&pdu(m, 1), &pdu(m, 2), &pdu(17, 1)]), []);
        assert_eq!(of_text(&[&pdu(m, 1), "clock 15000\n", &pdu(1, 1)]), []);
        assert_eq!(of_text(&[&pdu(m, 1), "clock 14999\n", &pdu(1, 1)]), [0]);
        let setup = "setup online senders=1:7\n";
        assert_eq!(of_text(&[&pdu(m, 1), setup, &pdu(1, 1)]), []);
    }

    #[test]
    fn calls_of_the_edges_count_too() {
        let calls = crate::edges::calls_as_fields();
        let answers = came_round(&pairs(&calls, &crate::edges::lines()).unwrap());
        for answer in [0, 1, 18] {
            assert!(answers.contains(&answer), "{answer}");
        }
    }
}
