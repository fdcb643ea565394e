//! How old the repeats were that came: what the edges and random pasts have to
//! reach.

use crate::fields::TAG_SETUP;
use crate::octets;
use crate::pairs::Pair;

/// A repeat's age on both sides of what 02 names, "0 to N1 - 1": 0, between, and
/// N1 - 1 where that is not 0.
const SAME: u64 = 0;
const BETWEEN: u64 = 1;
const OLDEST: u64 = 2;

/// Each repeat as its kind, D for a message call and MD for a multicast call, and
/// its age as one of the three.
pub fn ages(pairs: &[Pair]) -> Vec<(&'static str, u64)> {
    let (mut n1, mut found) = (1, Vec::new());
    for pair in pairs {
        n1 = n1_behind(pair).unwrap_or(n1);
        found.extend(age_of(pair).map(|(kind, age)| (kind, class(age, n1))));
    }
    found
}

fn class(age: u64, n1: u64) -> u64 {
    match age {
        0 => SAME,
        _ if age + 1 == n1 => OLDEST,
        _ => BETWEEN,
    }
}

/// N1 of the state in use, where a call changes it: a setup, or damage. In a capture
/// "a refused setup leaves the state in use"; behind one of the edges nobody is
/// registered, and nothing is a repeat.
fn n1_behind(pair: &Pair) -> Option<u64> {
    let refused = pair.tag == TAG_SETUP && pair.numbers != Some(vec![0]);
    match pair.letter() {
        'S' | 's' | 't' if !refused && pair.contents.len() >= 3 => {
            Some(octets::read(pair.contents, 1, 2))
        }
        _ => None,
    }
}

/// The age in the line of a repeat: the length of a run's P line, and a number of
/// its own in the edges' lines.
fn age_of(pair: &Pair) -> Option<(&'static str, u64)> {
    match (pair.letter(), pair.numbers.as_deref()?) {
        ('P', [17, _, _, age] | [17, _, _, _, _, age, ..]) => Some(("D", *age)),
        ('M', [17, _, _, _, age, ..]) => Some(("MD", *age)),
        _ => None,
    }
}

#[cfg(test)]
mod tests {
    use super::*;
    use crate::fields::run;
    use crate::pairs::pairs;
    use crate::text::capture_of;

    fn pdu(seq: u32) -> String {
        format!("pdu field=1 node=7 version=5 seq={seq}\n")
    }

    /// What a capture of these lines counts for.
    fn of_text(texts: &[&str]) -> Vec<(&'static str, u64)> {
        let capture = capture_of(&texts.concat()).unwrap();
        ages(&pairs(&capture, &run(&capture)).unwrap())
    }

    #[test]
    fn the_same_number_one_between_and_the_oldest() {
        let sixteen = "setup online n1=16 senders=1:7\n";
        let same = ("D", SAME);
        let (between, oldest) = (("D", BETWEEN), ("D", OLDEST));
        let texts = [100, 100, 99, 86, 85].map(pdu);
        let texts: Vec<&str> = texts.iter().map(String::as_str).collect();
        let found = of_text(&[&[sixteen], &texts[..]].concat());
        assert_eq!(found, [same, between, between, oldest]);
        // 84 is no repeat, and behind it 85 is the next one.
        assert_eq!(of_text(&[sixteen, &pdu(100), &pdu(84), &pdu(85)]), []);
        // With N1 1 the oldest is the same number; with N1 2 none is between.
        let one = "setup online n1=1 senders=1:7\n";
        assert_eq!(of_text(&[one, &pdu(100), &pdu(100)]), [same]);
        let two = "setup online n1=2 senders=1:7\n";
        assert_eq!(of_text(&[two, &pdu(100), &pdu(99)]), [oldest]);
    }

    #[test]
    fn n1_is_that_of_the_last_good_setup() {
        let (two, none) = ("n1=2", "n1=0");
        let setup = |n1: &str| format!("setup online {n1} senders=1:7\n");
        let texts = [&setup(two), &pdu(100), &setup(none), &pdu(99)];
        assert_eq!(of_text(&texts.map(String::as_str)), [("D", OLDEST)]);
    }

    /// Messages and multicast, each age; N1 of damaged states too.
    #[test]
    fn calls_of_the_edges_count_too() {
        let calls = crate::edges::calls_as_fields();
        let found = ages(&pairs(&calls, &crate::edges::lines()).unwrap());
        for kind in ["D", "MD"] {
            for age in [SAME, BETWEEN, OLDEST] {
                assert!(found.contains(&(kind, age)), "{kind} {age}");
            }
        }
    }
}
