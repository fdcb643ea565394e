//! `second edges-random` and `second edges-random-calls`: random calls of the
//! library, held to what `docs/EDGES.md` says of them.

mod replay;

use std::collections::BTreeMap;

use replay::{lines_of, read};
use second::counts::counts_of_calls;
use second::edges::random::{calls_as_fields, lines};

/// Calls enough for every number and clause.
const COUNT: usize = 5_000;

#[test]
fn calls_depend_on_their_seed_alone() {
    assert_eq!(calls_as_fields(7, 300), calls_as_fields(7, 300));
    assert_ne!(calls_as_fields(7, 300), calls_as_fields(8, 300));
    assert_eq!(lines(7, 300), lines(7, 300));
    assert_eq!(calls_as_fields(7, 0), []);
    assert_eq!(lines(7, 0), "");
}

#[test]
fn a_smaller_count_is_a_beginning() {
    let (all_fields, all_lines) = (calls_as_fields(7, 2_000), lines(7, 2_000));
    for count in [1, 2, 3, 10, 199, 200, 1_000, 1_999] {
        assert!(
            all_fields.starts_with(&calls_as_fields(7, count)),
            "{count}"
        );
        assert!(all_lines.starts_with(&lines(7, count)), "{count}");
    }
}

/// A call is a field with a capital tag.
#[test]
fn so_many_calls_are_made() {
    for count in [1, 57, 1_000] {
        let fields = read(&calls_as_fields(3, count));
        let calls = fields.iter().filter(|(tag, _)| tag.is_ascii_uppercase());
        assert_eq!(calls.count(), count);
    }
}

#[test]
fn the_fields_alone_give_the_same_lines() {
    for seed in [1, u64::MAX] {
        let replayed = lines_of(&read(&calls_as_fields(seed, 2_000)));
        let printed = lines(seed, 2_000);
        let printed: Vec<&str> = printed.lines().collect();
        assert_eq!(replayed.len(), printed.len());
        for (at, line) in printed.iter().enumerate() {
            assert_eq!(replayed[at], *line, "seed {seed}, line {}", at + 1);
        }
    }
}

/// Every answer of each kind of line, every verdict, numbers that came round, and
/// repeats of age 0, between, and N1 - 1.
const REACHED: [(&str, &[u8]); 14] = [
    ("M", &[1, 9, 12, 13, 14, 15, 16, 17, 25, 26]),
    ("MV", &[0, 1, 2, 3, 4, 5]),
    ("S", &[0, 10]),
    ("P", &[0, 1, 9, 11, 12, 13, 14, 15, 16, 17, 18, 19, 20]),
    ("V", &[0, 1, 2, 3, 4, 5]),
    ("N", &[0, 1, 18]),
    ("D", &[0, 1, 2]),
    ("MD", &[0, 1, 2]),
    ("A", &[0, 9, 12, 13, 14, 22, 24]),
    ("C", &[0, 9, 21]),
    ("Q", &[0, 9]),
    ("K", &[0, 23]),
    ("G", &[0, 24]),
    ("Z", &[0, 23, 24]),
];

#[test]
fn every_number_and_verdict_is_reached_by_any_seed() {
    for seed in [0, 1, u64::MAX] {
        let calls = calls_as_fields(seed, COUNT);
        let tally = counts_of_calls(&calls, &lines(seed, COUNT)).unwrap();
        for (kind, numbers) in REACHED {
            for number in numbers {
                let start = format!("{kind} {number} ");
                let occurs = tally.lines().any(|line| line.starts_with(&start));
                assert!(occurs, "seed {seed}: {start}");
            }
        }
    }
}

/// The clauses of 01's row 9 and those that 02 adds, by the names that the titles
/// have.
const CLAUSES: [&str; 22] = [
    "N1",
    "T",
    "data field",
    "node",
    "a pair twice",
    "more than 16 senders",
    "no senders",
    "time",
    "last number",
    "last number 0 under a version not 0",
    "open SEQ",
    "open code",
    "a message's stamp after the clock",
    "an alive sender's stamp after the clock",
    "impossible cut",
    "map empty",
    "map full",
    "map marked past TBN",
    "held count",
    "more than 8 groups",
    "group 0",
    "a group twice",
];

/// The reasons of 02's row 26, by the names that the titles have.
const REASONS: [&str; 4] = [
    "versions table",
    "SEQ table",
    "SEQ above M",
    "SEQ 0 under a version not 0",
];

/// The numbers of the lines of calls under each title, in order; W, w and k lines
/// bear none.
fn numbers_under_titles(lines: &str) -> Vec<(&str, Vec<(char, u8)>)> {
    let mut found: Vec<(&str, Vec<(char, u8)>)> = vec![("", Vec::new())];
    for line in lines.lines() {
        if let Some(title) = line.strip_prefix("# ") {
            found.push((title, Vec::new()));
        } else if line.starts_with(['P', 'A', 'C', 'Q', 'M', 'S']) {
            let number = line.split(' ').nth(1).unwrap().parse().unwrap();
            let letter = line.chars().next().unwrap();
            found.last_mut().unwrap().1.push((letter, number));
        }
    }
    found
}

#[test]
fn each_clause_alone_is_answered_with_9() {
    let printed = lines(1, COUNT);
    let mut seen: BTreeMap<&str, usize> = BTreeMap::new();
    for (title, numbers) in numbers_under_titles(&printed) {
        if let Some(clause) = title.strip_prefix("9 alone: ") {
            let expected = [('P', 9), ('A', 9), ('C', 9), ('Q', 9), ('M', 9)];
            if numbers.len() == 5 {
                *seen.entry(clause).or_default() += 1;
            }
            assert_eq!(numbers, expected[..numbers.len()], "{title}");
        }
    }
    let mut clauses = CLAUSES;
    clauses.sort_unstable();
    assert_eq!(seen.into_keys().collect::<Vec<_>>(), clauses);
}

/// The same five calls on the mended state give 0 or 1: only the damage was wrong.
#[test]
fn the_same_calls_are_good_once_the_state_is_mended() {
    let printed = lines(1, COUNT);
    let mut mended = 0;
    for (title, numbers) in numbers_under_titles(&printed) {
        if title.starts_with("mended: ") {
            let good = numbers.iter().take(5).all(|(_, number)| *number <= 1);
            assert!(good, "{title}: {numbers:?}");
            mended += 1;
        }
    }
    assert!(mended >= CLAUSES.len());
}

#[test]
fn nine_comes_before_every_other_number() {
    let printed = lines(1, COUNT);
    let mut seen: BTreeMap<u8, usize> = BTreeMap::new();
    for (title, numbers) in numbers_under_titles(&printed) {
        let Some((number, clause)) = title
            .strip_prefix("9 and ")
            .and_then(|t| t.split_once(": "))
        else {
            continue;
        };
        assert!(CLAUSES.contains(&clause), "{title}");
        let number: u8 = number.parse().unwrap();
        if let [(before, first), (after, second)] = numbers[..] {
            assert_eq!((before, first, second), (after, number, 9), "{title}");
            *seen.entry(number).or_default() += 1;
        }
    }
    let numbers: Vec<u8> = (11..=22).chain(24..=26).collect();
    assert_eq!(seen.into_keys().collect::<Vec<_>>(), numbers);
}

/// 26 by each of its reasons, and 1 once the tables are mended, also behind a setup.
#[test]
fn each_reason_alone_is_answered_with_26() {
    let printed: String = (1..=3).map(|seed| lines(seed, COUNT)).collect();
    let (mut alone, mut mended) = (BTreeMap::new(), BTreeMap::new());
    for (title, numbers) in numbers_under_titles(&printed) {
        // What follows the first line under "26 mended" is of the next scene.
        if let (Some(reason), false) = (title.strip_prefix("26 alone: "), numbers.is_empty()) {
            assert_eq!(numbers, [('M', 26)], "{title}");
            *alone.entry(reason).or_insert(0) += 1;
        }
        if let Some(reason) = title.strip_prefix("26 mended: ") {
            match numbers[..] {
                [('S', 0), ('M', 1), ..] => *mended.entry((reason, "setup")).or_insert(0) += 1,
                [('M', 1), ..] => *mended.entry((reason, "entry")).or_insert(0) += 1,
                _ => assert!(numbers.len() < 2, "{title}: {numbers:?}"),
            }
        }
    }
    for reason in REASONS {
        assert!(alone[reason] > 3, "{reason}");
        assert!(mended[&(reason, "setup")] > 0 && mended[&(reason, "entry")] > 0);
    }
    assert_eq!(alone.len(), REASONS.len());
}

#[test]
fn twenty_six_comes_before_every_other_number() {
    let printed: String = (1..=3).map(|seed| lines(seed, COUNT)).collect();
    let mut seen: BTreeMap<u8, usize> = BTreeMap::new();
    for (title, numbers) in numbers_under_titles(&printed) {
        let Some((number, reason)) = title
            .strip_prefix("26 and ")
            .and_then(|t| t.split_once(": "))
        else {
            continue;
        };
        assert!(REASONS.contains(&reason), "{title}");
        let number: u8 = number.parse().unwrap();
        if numbers.len() == 2 {
            assert_eq!(numbers, [('M', number), ('M', 26)], "{title}");
            *seen.entry(number).or_default() += 1;
        }
    }
    let numbers = [12, 13, 14, 15, 16, 17, 25];
    assert_eq!(seen.into_keys().collect::<Vec<_>>(), numbers);
}

/// Groups of every number, tables of sixteen senders and eight groups, multicast
/// messages of 0 and of 1,408 octets, and messages of both kinds of the same sender,
/// version and number.
#[test]
fn groups_and_multicast_calls_of_every_kind_occur() {
    let fields: Vec<_> = (1..=3)
        .flat_map(|seed| read(&calls_as_fields(seed, COUNT)))
        .collect();
    let of = |letter: char| fields.iter().filter(move |(tag, _)| *tag == letter);
    for count in 0..=9 {
        assert!(of('S').any(|(_, c)| c[56] == count), "{count} groups");
    }
    assert!(of('M').any(|(_, c)| c[..2] == c[2..4] && c[0] >= 1));
    let lengths: Vec<usize> = of('M').map(|(_, c)| c.len() - 5).collect();
    for length in [64, 1_460, 1_461, 1_472, 1_473] {
        assert!(lengths.contains(&length), "{length}");
    }
    // Data field, node, V_SEQ and SEQ.
    let named = |pdu: &[u8]| {
        pdu.get(9..24)
            .map(|octets| [&octets[..3], &octets[7..]].concat())
    };
    let peers: Vec<_> = of('P').filter_map(|(_, c)| named(&c[4..])).collect();
    let both = of('M').filter_map(|(_, c)| named(&c[5..]));
    assert!(both.filter(|name| peers.contains(name)).count() > 50);
}

/// Drops and deaths by the clock, sixteen senders, and messages of 16,384 octets,
/// in the calls of the gate's seeds.
#[test]
fn drops_deaths_and_long_messages_occur() {
    let printed: String = (1..=3).map(|seed| lines(seed, COUNT)).collect();
    let numbers = |letter: char| {
        let of_letter = printed.lines().filter(move |line| line.starts_with(letter));
        of_letter.map(|line| line.split(' ').skip(1).map(|n| n.parse::<u64>().unwrap()))
    };
    let at = |letter, place: usize| numbers(letter).filter_map(move |mut n| n.nth(place));
    assert!(at('C', 1).any(|dropped| dropped != 0));
    assert!(at('C', 2).any(|dead| dead != 0));
    assert!(at('P', 2).any(|held| held == 11) && at('P', 2).any(|held| held == 63));
    assert!(at('P', 3).any(|length| length == 16_384));
    assert!(at('W', 4).any(|count| count == 16) && at('W', 4).any(|count| count == 0));
    assert!(at('R', 0).any(|length| length == 0) && at('R', 0).any(|length| length > 10));
}

// The kept count.

/// The numbers of each line with this letter, and the title that it stands under.
fn numbers_of<'a>(lines: &'a str, letter: &str) -> Vec<(&'a str, Vec<u64>)> {
    let (mut title, mut found) = ("", Vec::new());
    for line in lines.lines() {
        let mut words = line.split(' ');
        if let Some(new) = line.strip_prefix("# ") {
            title = new;
        } else if words.next() == Some(letter) {
            found.push((title, words.map(|word| word.parse().unwrap()).collect()));
        }
    }
    found
}

fn ones(map: u64) -> u64 {
    (0..64).map(|place| map >> place & 1).sum()
}

/// "w place field node rv r open version number tcd n tbn u map held ...": from 0,
/// open is the sixth, map the thirteenth. Only damaged states are outside.
#[test]
fn wherever_a_state_is_within_its_limits_the_count_is_that_of_the_map() {
    let printed = lines(2, COUNT);
    let (mut open, mut closed) = (0, 0);
    for (title, record) in numbers_of(&printed, "w") {
        let within = !title.starts_with("9 alone: ");
        if within && record[5] == 1 {
            assert_eq!(record[13], ones(record[12]), "{title}: {record:?}");
            open += 1;
        }
        // "written 0 and never looked at": some hold another number.
        closed += usize::from(within && record[5] == 0 && record[13] != 0);
    }
    assert!(open > 50 && closed > 0, "{open} {closed}");
}

/// On each damaged state stands at least the held call for the busy sender.
#[test]
fn held_is_told_of_every_damaged_state() {
    let printed = lines(1, COUNT);
    let held = numbers_of(&printed, "H");
    for clause in CLAUSES {
        let title = format!("9 alone: {clause}");
        assert!(held.iter().any(|(under, _)| **under == title), "{title}");
    }
    let told = |clause: &str, fits: fn(u64) -> bool| {
        let title = format!("9 alone: {clause}");
        held.iter().any(|(under, n)| **under == title && fits(n[0]))
    };
    assert!(told("N1", |held| (1..=5).contains(&held)));
    assert!(told("map full", |held| (2..=6).contains(&held)));
    assert!(told("map empty", |held| held == 0) && !told("no senders", |held| held != 0));
}

/// Counts of every size, and every kind of place.
#[test]
fn held_calls_of_every_kind_occur() {
    for seed in [0, 1, u64::MAX] {
        let printed = lines(seed, COUNT);
        let held: Vec<u64> = numbers_of(&printed, "H")
            .iter()
            .map(|(_, n)| n[0])
            .collect();
        for number in [0, 1, 2, 3, 4, 64, 255] {
            assert!(held.contains(&number), "seed {seed}: H {number}");
        }
        assert!(held.len() > COUNT / 10, "seed {seed}");
        let fields = read(&calls_as_fields(seed, COUNT));
        let asked: Vec<u8> = fields
            .iter()
            .filter(|(tag, _)| *tag == 'H')
            .map(|(_, contents)| contents[0])
            .collect();
        for place in [0, 1, 2, 16, 255] {
            assert!(asked.contains(&place), "seed {seed}: place {place}");
        }
        assert!(asked.iter().any(|place| (17..255).contains(place)));
    }
}
