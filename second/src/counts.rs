//! `second tally`: how often each answer of each kind of line occurred.

use std::collections::BTreeMap;

use crate::ages::ages;
use crate::pairs::pairs;
use crate::rounds::came_round;

/// How often each kind of line occurred with each number.
type Counts = BTreeMap<(&'static str, u64), u64>;

/// Reads printed lines, of a run or of the edges, and gives "KIND NUMBER COUNT"
/// lines, sorted. The kinds are the lines' own letters (A, C, E, F, G, K, M, P, Q,
/// S, Z), V for the verdict of a P line and MV for that of an M line; F is counted
/// under its `next`, the E that ends a run and bears no number under 0. Titles,
/// states, kept counts, tables with their entries, the cutter's octets and parts,
/// of messages and of sections (#, W, w, H, E, e, k, R, B, L, O), bear no answer's
/// number and are passed over.
pub fn counts(lines: &str) -> Result<String, String> {
    Ok(written(&counted(lines)?))
}

/// The same with the fields that the lines are of, and with three kinds more: N for
/// numbers that came round, under the answer of the message call, D and MD for
/// repeats of a message call and of a multicast call, under 0 for the same number, 2
/// for N1 - 1 back, 1 for between.
pub fn counts_of_calls(fields: &[u8], lines: &str) -> Result<String, String> {
    let mut counts = counted(lines)?;
    let pairs = pairs(fields, lines)?;
    let round = came_round(&pairs).into_iter().map(|answer| ("N", answer));
    for kind in round.chain(ages(&pairs)) {
        *counts.entry(kind).or_default() += 1;
    }
    Ok(written(&counts))
}

fn counted(lines: &str) -> Result<Counts, String> {
    let mut counts = Counts::new();
    for (at, line) in lines.lines().enumerate() {
        let kinds = kinds_of(line).ok_or(format!("line {}: not a line: {line:?}", at + 1))?;
        for kind in kinds {
            *counts.entry(kind).or_default() += 1;
        }
    }
    Ok(counts)
}

fn written(counts: &Counts) -> String {
    let lines = counts
        .iter()
        .map(|((kind, number), count)| format!("{kind} {number} {count}\n"));
    lines.collect()
}

/// What one line counts for; None where it is not one of the program's lines. A P
/// line has 4 numbers in a run, 10 among the edges; an E line none in a run, where
/// it ends it, and one among the edges, where it tells how many entries are in use.
fn kinds_of(line: &str) -> Option<Vec<(&'static str, u64)>> {
    if line.starts_with("# ") {
        return Some(Vec::new());
    }
    let mut words = line.split(' ');
    let kind = words.next()?;
    let numbers: Vec<u64> = words.map(|word| word.parse().ok()).collect::<Option<_>>()?;
    match (kind, &numbers[..]) {
        ("S", [answer]) => Some(vec![("S", *answer)]),
        ("P", [answer, verdict, _, _] | [answer, verdict, _, _, _, _, _, _, _, _]) => {
            Some(vec![("P", *answer), ("V", *verdict)])
        }
        ("C", [answer, _, _]) => Some(vec![("C", *answer)]),
        ("A", [answer]) => Some(vec![("A", *answer)]),
        ("Q", [answer, _, _, _, _]) => Some(vec![("Q", *answer)]),
        ("M", [answer, verdict, _, _, _, _, _, _]) => Some(vec![("M", *answer), ("MV", *verdict)]),
        ("E", [_]) | ("e", [_, _, _]) => Some(Vec::new()),
        ("W", state) if state.len() == 14 => Some(Vec::new()),
        ("w", sender) if sender.len() == 18 => Some(Vec::new()),
        ("H", [_]) => Some(Vec::new()),
        ("K", [answer, _, _, _]) => Some(vec![("K", *answer)]),
        ("k", octets) if octets.len() == 64 => Some(Vec::new()),
        ("R", [_, _]) => Some(Vec::new()),
        ("F", [next, _, _, _]) => Some(vec![("F", *next)]),
        ("G", [answer, counts_and_name @ ..]) if counts_and_name.len() == 11 => {
            Some(vec![("G", *answer)])
        }
        ("B", [_]) | ("L" | "O", [_, _]) => Some(Vec::new()),
        ("Z", [answer, _, _, _]) => Some(vec![("Z", *answer)]),
        ("E", []) => Some(vec![("E", 0)]),
        _ => None,
    }
}

#[cfg(test)]
mod tests {
    use super::*;

    #[test]
    fn counts_answers_and_verdicts() {
        let lines = "S 0\nP 0 0 1 0\nP 17 0 0 9\nP 1 1 0 4500\nC 0 3 0\nA 22\nA 0\nP 1 1 0 7\nE\n";
        let expected = "A 0 1\nA 22 1\nC 0 1\nE 0 1\nP 0 1\nP 1 2\nP 17 1\nS 0 1\nV 0 2\nV 1 2\n";
        assert_eq!(counts(lines).unwrap(), expected);
    }

    #[test]
    fn counts_the_lines_of_the_edges() {
        let lines = "# 1.1 A title: P 1\nP 1 4 0 10 2 0 0 0 7 9\nP 9 0 0 0 0 0 0 0 7 7\n\
                     Q 9 0 0 0 0\nQ 0 1 0 2 2\nW 0 16 15000 0 1 2 5 1 0 0 0 0 0 0\n\
                     w 0 1 7 0 0 0 0 0 0 0 0 0 0 0 0 0 0 0\n";
        let expected = "P 1 1\nP 9 1\nQ 0 1\nQ 9 1\nV 0 1\nV 4 1\n";
        assert_eq!(counts(lines).unwrap(), expected);
        let held = "H 0\nH 63\nH 255\n";
        assert_eq!(counts(&[lines, held].concat()).unwrap(), expected);
        assert_eq!(counts(held).unwrap(), "");
    }

    #[test]
    fn counts_multicast_calls_and_passes_over_tables() {
        let lines = "M 1 4 10 2 0 9 9 9\nM 26 0 0 0 0 7 7 7\nM 1 1 0 0 0 7 9 9\nE 0\nE 1\n\
                     e 8 5 100\n";
        let expected = "M 1 2\nM 26 1\nMV 0 1\nMV 1 1\nMV 4 1\n";
        assert_eq!(counts(lines).unwrap(), expected);
        // Behind M and MV, in the order of the kinds.
        let with_others = [lines, "P 1 1 0 10\nK 0 64 9 7\nE\n"].concat();
        let expected = ["E 0 1\nK 0 1\n", expected, "P 1 1\nV 1 1\n"].concat();
        assert_eq!(counts(&with_others).unwrap(), expected);
    }

    #[test]
    fn counts_cutter_and_fields_and_passes_over_octets_and_parts() {
        let octets = " 170".repeat(64);
        let lines = format!(
            "K 0 64 9 7\nk{octets}\nK 23 0 7 9\nR 10 5\nR 0 7\nF 3 2 5 9\nF 0 0 0 7\nF 3 4 0 7\n"
        );
        let expected = "F 0 1\nF 3 2\nK 0 1\nK 23 1\n";
        assert_eq!(counts(&lines).unwrap(), expected);
    }

    #[test]
    fn counts_sections_read_and_written_and_passes_over_their_parts() {
        let lines = "G 0 33 2 5 65 66 67 68 69 70 71 72\nG 24 0 0 0 0 0 0 0 0 0 0 0\nB 1\nB 0\n\
                     L 0 0\nO 5 9\nZ 0 20 9 7\nZ 23 0 7 9\nZ 24 0 7 9\nZ 24 0 7 9\n";
        let expected = "G 0 1\nG 24 1\nZ 0 1\nZ 23 1\nZ 24 2\n";
        assert_eq!(counts(lines).unwrap(), expected);
    }

    #[test]
    fn counts_numbers_that_came_round() {
        let whole = "pdu field=1 node=7 version=5 seq=1 n=10\n";
        let open = "pdu field=1 node=7 version=5 seq=2147483647 n=300 u=256\n";
        let text = ["setup online senders=1:7\n", open, whole].concat();
        let capture = crate::text::capture_of(&text).unwrap();
        let lines = "S 0\nP 0 0 1 0\nP 1 1 0 10\n";
        let expected = "N 1 1\nP 0 1\nP 1 1\nS 0 1\nV 0 1\nV 1 1\n";
        assert_eq!(counts_of_calls(&capture, lines).unwrap(), expected);
        assert!(counts_of_calls(&capture, "S 0\n").is_err());
        assert_eq!(counts(lines).unwrap(), expected[6..]);
    }

    #[test]
    fn counts_repeats_by_their_age() {
        let pdu = |seq: u32| format!("pdu field=1 node=7 version=5 seq={seq} n=10\n");
        let setup = "setup online n1=16 senders=1:7\n";
        let text = [setup, &pdu(100), &pdu(100), &pdu(99), &pdu(85), &pdu(100)].concat();
        let capture = crate::text::capture_of(&text).unwrap();
        let lines = "S 0\nP 1 1 0 10\nP 17 0 0 0\nP 17 0 0 1\nP 17 0 0 15\nP 17 0 0 0\n";
        let expected = "D 0 2\nD 1 1\nD 2 1\nP 1 1\nP 17 4\nS 0 1\nV 0 4\nV 1 1\n";
        assert_eq!(counts_of_calls(&capture, lines).unwrap(), expected);
        assert_eq!(counts(lines).unwrap(), expected[18..]);
    }

    #[test]
    fn tells_the_number_of_a_wrong_line() {
        let runs = ["P 1 1 0", "Q 1", "S", "S x", "", "C 0 0 0 0", "E x", "S  0"];
        let edges = [
            "P 1 1 0 0 0 0 0 7 7",
            "P 1 1 0 0 0 0 0 0 7 7 7",
            "#",
            "W 0 16 15000 0",
            "w 0 1 7",
            "W",
        ];
        let multicast = [
            "M 1 1 0 0 7 7 7",
            "M 1 1 0 0 0 7 7 7 7",
            "m 1 1 0 0 0 7 7 7",
            "M",
            "MV 1",
            "E 1 2",
            "e 8 5",
            "e 8 5 100 0",
            "W 0 16 15000 0 1",
            "W 0 16 15000 0 1 0 0 0 0 0 0 0 0",
        ];
        let more = [
            "H",
            "H 0 0",
            "H x",
            "h 0",
            "K 0 64 9",
            "k 1 2 3",
            "R 0",
            "R 0 7 7",
            "F 3 2 5",
            "f 0 0 0 7",
            "G 24",
            "G 24 0 0 0 0 0 0 0 0 0 0",
            "B 1 0",
            "L 1",
            "O 1",
            "Z 0 20 9",
        ];
        for wrong in [&runs[..], &edges, &multicast, &more].concat() {
            let lines = format!("S 0\n{wrong}\n");
            assert!(
                counts(&lines).unwrap_err().starts_with("line 2:"),
                "{wrong}"
            );
        }
    }
}
