//! `second random` and `second random-cut`: pseudo-random captures, the same
//! for the same SEED. The scenes that are played stand in scenes.rs.

use crate::dice::Dice;
use crate::fields::{
    field, next_field, setup_contents, Next, Run, TAG_ALIVE, TAG_CLOCK, TAG_MESSAGE, TAG_SETUP,
};
use crate::scenes;
use crate::stage::Stage;
use crate::state::{Groups, Receiver, Setup};

/// Writes a capture field by field.
struct Author {
    dice: Dice,
    run: Run,
    capture: Vec<u8>,
    fields: usize,
    count: usize,
}

impl Author {
    fn new(seed: u64, count: usize) -> Author {
        Author {
            dice: Dice::new(seed),
            run: Run::default(),
            capture: Vec::new(),
            fields: 0,
            count,
        }
    }

    /// Adds one field, unless the capture has all its fields.
    fn write(&mut self, tag: u8, contents: &[u8]) {
        if self.fields == self.count {
            return;
        }
        let octets = field(tag, contents).expect("scenes write short fields");
        let Next::One { field: good, .. } = next_field(&octets) else {
            panic!("scenes write good fields");
        };
        self.run.step(&good);
        self.fields += 1;
        self.capture.extend(octets);
    }

    /// Deals the scenes in random order, again and again, until all is written.
    fn play(&mut self) {
        if self.dice.one_in(2) {
            scenes::before_setup(self);
        }
        scenes::new_setup(self);
        while self.fields < self.count {
            let mut deck = scenes::SCENES;
            self.dice.shuffle(&mut deck);
            for scene in deck {
                scene(self);
            }
        }
    }
}

impl Stage for Author {
    fn dice(&mut self) -> &mut Dice {
        &mut self.dice
    }

    fn receiver(&self) -> &Receiver {
        &self.run.receiver
    }

    /// "for each of 1 to 4 senders."
    fn senders_most(&self) -> u64 {
        4
    }

    /// 02: "0 to 8 registered groups (0 in the program)".
    fn groups(&mut self) -> Groups {
        Groups::default()
    }

    fn setup(&mut self, wanted: &Setup) {
        self.write(TAG_SETUP, &setup_contents(wanted));
    }

    fn message(&mut self, packet: &[u8]) {
        self.write(TAG_MESSAGE, packet);
    }

    fn alive(&mut self, packet: &[u8]) {
        self.write(TAG_ALIVE, packet);
    }

    fn clock(&mut self, ms: u64) {
        self.write(TAG_CLOCK, &ms.to_be_bytes());
    }
}

/// A capture of `count` good fields.
pub fn capture(seed: u64, count: usize) -> Vec<u8> {
    let mut author = Author::new(seed, count);
    author.play();
    author.capture
}

/// A short capture that ends in a bad or cut field, sometimes with good fields
/// behind it.
pub fn cut_capture(seed: u64) -> Vec<u8> {
    let mut author = Author::new(seed, 0);
    author.count = author.dice.below(30) as usize;
    author.play();
    let mut capture = author.capture;
    let dice = &mut author.dice;
    if dice.one_in(2) {
        capture.extend(bad_field(dice));
        if dice.one_in(2) {
            capture.extend([3, 0, 8, 0, 0, 0, 0, 0, 0, 0, 9]);
        }
    } else {
        capture.extend(cut_field(dice));
    }
    capture
}

/// 01: "Bad is another tag, tag 1 not of 10, 13, 16 or 19 octets, tag 3 not of
/// 8".
fn bad_field(dice: &mut Dice) -> Vec<u8> {
    let (tag, length) = match dice.below(3) {
        0 => (dice.one_of(&[0, 5, 6, 128, 255]), dice.below(40) as u16),
        1 => {
            let lengths = [0, 1, 7, 8, 9, 11, 12, 14, 15, 17, 18, 20, 22, 25];
            (1, dice.one_of(&lengths))
        }
        _ => (3, dice.one_of(&[0, 1, 4, 7, 9, 16])),
    };
    let mut field = vec![tag];
    field.extend(length.to_be_bytes());
    field.extend((0..length).map(|_| dice.throw() as u8));
    field
}

/// A good field with its end cut off.
fn cut_field(dice: &mut Dice) -> Vec<u8> {
    let (tag, length) = dice.one_of(&[(1, 10u16), (2, 64), (2, 1460), (3, 8), (4, 128)]);
    let mut field = vec![tag];
    field.extend(length.to_be_bytes());
    field.extend((0..length).map(|_| dice.throw() as u8));
    let left = dice.between(1, u64::from(length) + 2) as usize;
    let left = dice.one_of(&[1, 2, 3, left, field.len() - 1]);
    field.truncate(left);
    field
}

#[cfg(test)]
mod tests {
    use super::*;
    use crate::counts::counts_of_calls;
    use crate::fields::run;
    use std::collections::BTreeSet;

    /// Every answer of each kind of line, every verdict, that the program can give
    /// (9, 11 and 23 can't be reached through it), numbers that came round, and
    /// repeats of every age.
    const REACHED: [&str; 34] = [
        "S 0", "S 10", "P 0", "P 1", "P 12", "P 13", "P 14", "P 15", "P 16", "P 17", "P 18",
        "P 19", "P 20", "C 0", "C 21", "A 0", "A 12", "A 13", "A 14", "A 22", "A 24", "V 0", "V 1",
        "V 2", "V 3", "V 4", "V 5", "N 0", "N 1", "N 18", "D 0", "D 1", "D 2", "C drop",
    ];

    fn reached_by(capture: &[u8], lines: &str) -> BTreeSet<String> {
        let counted = counts_of_calls(capture, lines).unwrap();
        let mut reached: BTreeSet<String> = counted
            .lines()
            .map(|line| line.rsplit_once(' ').unwrap().0.to_string())
            .collect();
        let maps = lines.lines().filter_map(|line| line.strip_prefix("C 0 "));
        if maps.into_iter().any(|maps| !maps.starts_with('0')) {
            reached.insert("C drop".into());
        }
        reached
    }

    #[test]
    fn every_number_and_verdict_is_reached_by_any_seed() {
        for seed in [0, 1, 2, 3, 4, 5, 6, 7, 99, 2024, u64::MAX] {
            let capture = capture(seed, 5000);
            let lines = run(&capture);
            assert_eq!(lines.lines().count(), 5000, "seed {seed}");
            let reached = reached_by(&capture, &lines);
            let expected: BTreeSet<String> = REACHED.iter().map(|s| s.to_string()).collect();
            assert_eq!(reached, expected, "seed {seed}");
        }
    }

    #[test]
    fn deaths_by_clock_and_long_messages_occur() {
        let lines = run(&capture(11, 5000));
        let dead = |line: &str| line.starts_with("C 0 ") && !line.ends_with(" 0");
        assert!(lines.lines().any(dead));
        for held in ["P 0 0 11 0", "P 0 0 63 0"] {
            assert!(lines.lines().any(|line| line == held), "{held}");
        }
        assert!(lines.lines().any(|line| line.ends_with(" 0 16384")));
        let of_length_0 = |line: &str| line.starts_with("P 1 ") && line.ends_with(" 0 0");
        assert!(lines.lines().any(of_length_0));
    }

    #[test]
    fn a_capture_depends_on_its_seed_alone() {
        assert_eq!(capture(7, 300), capture(7, 300));
        assert_ne!(capture(7, 300), capture(8, 300));
        assert!(capture(7, 300).starts_with(&capture(7, 200)));
        assert_eq!(capture(7, 0), []);
        assert_eq!(run(&capture(7, 1)).lines().count(), 1);
    }

    #[test]
    fn a_cut_capture_ends_with_line_e() {
        for seed in 0..300 {
            let lines = run(&cut_capture(seed));
            assert!(lines.ends_with("E\n"), "seed {seed}");
            assert_eq!(lines.matches('E').count(), 1, "seed {seed}");
        }
    }
}
