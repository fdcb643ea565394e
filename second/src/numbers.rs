//! Versions and sequence numbers: the ring 1 to M, which of two numbers is newer,
//! the number check with its four rules, the verdict, the skipped count and the
//! age of a repeat (D.3.1.3, Table 14).

/// 01: "SEQ is 1 to M, where M = 2,147,483,647."
pub const M: u32 = 2_147_483_647;

/// 01: "SEQ is 1 to M". "V_SEQ is any 32-bit number" and needs no test.
pub fn seq_right(seq: u32) -> bool {
    (1..=M).contains(&seq)
}

/// 02: "1 to 1,073,741,823", the steps that a newer number is on. M is odd, so that
/// there are as many of them as of the others, 1,073,741,824 to M - 1: of two
/// different numbers exactly one is newer.
pub const NEWER_MOST: u32 = 1_073_741_823;

/// 02: "Correct 01: with the same version, the newcomer is newer when (SEQ - open
/// SEQ) modulo M is 1 to 1,073,741,823, and older when it is larger. [...] Cases:
/// open M, 1 comes: replaced. Open 1, M comes: 18." No other place asks which of
/// two sequence numbers came later.
pub fn newer(seq: u32, than: u32) -> bool {
    let on = remainder_by_m(i64::from(seq) - i64::from(than));
    (1..=NEWER_MOST).contains(&on)
}

/// What the number check says.
#[derive(Clone, Copy, Debug, PartialEq, Eq)]
pub enum Check {
    Unchecked,
    First,
    Restart,
    Repeat { age: u32 },
    Next,
    Gap { skipped: u32 },
}

/// 01: "For each sender the last delivered version RV and number R are kept.
/// In this order:
/// 1. V_SEQ = 0 and SEQ = 1: unchecked.
/// 2. RV = 0: first.
/// 3. V_SEQ differs from RV: restart.
/// 4. Let d be the remainder of R - SEQ by M, 0 to M - 1. d < N1: repeat.
///    d = M - 1: next. Otherwise gap".
///
/// 02: "When the number check says repeat, it should also give how far back the
/// number lies, 0 to N1 - 1": that is d.
pub fn number_check(rv: u32, r: u32, version: u32, seq: u32, n1: u16) -> Check {
    if version == 0 && seq == 1 {
        return Check::Unchecked;
    }
    if rv == 0 {
        return Check::First;
    }
    if version != rv {
        return Check::Restart;
    }
    let d = remainder_by_m(i64::from(r) - i64::from(seq));
    if d < u32::from(n1) {
        Check::Repeat { age: d }
    } else if d == M - 1 {
        Check::Next
    } else {
        Check::Gap {
            skipped: skipped(r, seq),
        }
    }
}

/// 01: "gap, with (SEQ - R - 1) modulo M numbers skipped."
fn skipped(r: u32, seq: u32) -> u32 {
    remainder_by_m(i64::from(seq) - i64::from(r) - 1)
}

/// The remainder by M, "0 to M - 1", of any difference of two numbers.
fn remainder_by_m(difference: i64) -> u32 {
    difference.rem_euclid(i64::from(M)) as u32
}

/// 01: "Verdicts: 1 first, 2 next, 3 restart, 4 gap, 5 unchecked, 0 where
/// nothing is delivered."
#[derive(Clone, Copy, Debug, PartialEq, Eq)]
pub enum Verdict {
    Nothing,
    First,
    Next,
    Restart,
    Gap,
    Unchecked,
}

impl Verdict {
    pub fn number(self) -> u8 {
        match self {
            Verdict::Nothing => 0,
            Verdict::First => 1,
            Verdict::Next => 2,
            Verdict::Restart => 3,
            Verdict::Gap => 4,
            Verdict::Unchecked => 5,
        }
    }
}

/// The verdict and the skipped count with which a message is delivered: "A gap
/// is delivered with its verdict." A repeat is never delivered.
pub fn verdict(check: Check) -> (Verdict, u32) {
    match check {
        Check::Unchecked => (Verdict::Unchecked, 0),
        Check::First => (Verdict::First, 0),
        Check::Restart => (Verdict::Restart, 0),
        Check::Next => (Verdict::Next, 0),
        Check::Gap { skipped } => (Verdict::Gap, skipped),
        Check::Repeat { .. } => (Verdict::Nothing, 0),
    }
}

/// How far back a repeat lies. Whatever else the check says has no age, and 0
/// stands for it.
pub fn age(check: Check) -> u32 {
    match check {
        Check::Repeat { age } => age,
        _ => 0,
    }
}

#[cfg(test)]
mod tests {
    use super::*;

    /// The check of a number under the same version, rule 4.
    fn rule_4(r: u32, seq: u32, n1: u16) -> Check {
        number_check(5, r, 5, seq, n1)
    }

    #[test]
    fn edges_with_n1_16_and_r_100() {
        assert_eq!(rule_4(100, 101, 16), Check::Next);
        assert_eq!(rule_4(100, 100, 16), Check::Repeat { age: 0 });
        assert_eq!(rule_4(100, 85, 16), Check::Repeat { age: 15 });
        let far = 2_147_483_630;
        assert_eq!(rule_4(100, 84, 16), Check::Gap { skipped: far });
        assert_eq!(rule_4(100, 103, 16), Check::Gap { skipped: 2 });
        assert_eq!(rule_4(100, 102, 16), Check::Gap { skipped: 1 });
    }

    #[test]
    fn edges_at_the_ring_ends() {
        assert_eq!(rule_4(M, 1, 16), Check::Next);
        assert_eq!(rule_4(M, 2, 16), Check::Gap { skipped: 1 });
        assert_eq!(rule_4(M, M, 16), Check::Repeat { age: 0 });
        assert_eq!(rule_4(1, M, 16), Check::Repeat { age: 1 });
        assert_eq!(rule_4(M - 1, M, 16), Check::Next);
        assert_eq!(rule_4(3, 2_147_483_635, 16), Check::Repeat { age: 15 });
        // Skipped between 3 and 2147483634: 4 to 2147483633.
        let far = 2_147_483_630;
        assert_eq!(rule_4(3, 2_147_483_634, 16), Check::Gap { skipped: far });
    }

    #[test]
    fn n1_at_its_own_ends() {
        assert_eq!(rule_4(100, 100, 1), Check::Repeat { age: 0 });
        assert_eq!(rule_4(100, 99, 1), Check::Gap { skipped: M - 2 });
        assert_eq!(rule_4(2000, 977, 1024), Check::Repeat { age: 1023 });
        assert_eq!(rule_4(2000, 976, 1024), Check::Gap { skipped: M - 1025 });
    }

    /// Table 14 as printed: rows 1 to 5, apart from rule 4's ring.
    fn table_14(r: i64, seq: i64, n1: i64) -> &'static str {
        let top = 0x7fff_ffff;
        if (r != top && r + 1 == seq) || (r == top && seq == 1) {
            return "next";
        }
        let row_3 = r > n1 && r - n1 < seq && seq <= r;
        let row_4 = r <= n1 && ((0 < seq && seq <= r) || (top - (n1 - r) < seq && seq <= top));
        if row_3 || row_4 {
            "repeat"
        } else {
            "gap"
        }
    }

    #[test]
    fn rule_4_is_table_14_near_every_edge() {
        let top = i64::from(M);
        for n1 in [1u16, 2, 16, 1024] {
            for r in [1, 2, 15, 16, 17, 1023, 1024, 1025, 5000, M - 1024, M - 1, M] {
                let back = i64::from(r) - i64::from(n1);
                let edges = [1, i64::from(r), top, back, back + top];
                let near = edges.iter().flat_map(|edge| edge - 20..=edge + 20);
                for seq in near.filter(|seq| (1..=top).contains(seq)) {
                    let said = match rule_4(r, seq as u32, n1) {
                        Check::Next => "next",
                        Check::Repeat { .. } => "repeat",
                        Check::Gap { .. } => "gap",
                        other => panic!("rule 4 said {other:?}"),
                    };
                    let printed = table_14(r.into(), seq, n1.into());
                    assert_eq!(said, printed, "R {r}, SEQ {seq}, N1 {n1}");
                }
            }
        }
    }

    #[test]
    fn the_four_rules_in_their_order() {
        // Rule 1 before rules 2, 3 and 4 (R 1 under version 0 is a repeat of 1).
        assert_eq!(number_check(0, 0, 0, 1, 16), Check::Unchecked);
        assert_eq!(number_check(5, 100, 0, 1, 16), Check::Unchecked);
        // Both parts of rule 1 are needed.
        assert_eq!(number_check(0, 0, 0, 2, 16), Check::First);
        assert_eq!(number_check(0, 0, 1, 1, 16), Check::First);
        // Rule 2 before rule 3, and before rule 4 under version 0.
        assert_eq!(number_check(0, 100, 5, 100, 16), Check::First);
        assert_eq!(number_check(0, 100, 0, 100, 16), Check::First);
        // Rule 3 before rule 4, for version 0 too.
        assert_eq!(number_check(5, 100, 6, 100, 16), Check::Restart);
        assert_eq!(number_check(5, 100, 4, 101, 16), Check::Restart);
        assert_eq!(number_check(5, 100, 0, 100, 16), Check::Restart);
        assert_eq!(number_check(u32::MAX, 7, u32::MAX, 8, 16), Check::Next);
    }

    #[test]
    fn seq_on_both_sides() {
        assert!(!seq_right(0) && seq_right(1) && seq_right(M) && !seq_right(M + 1));
    }

    /// "Cases: open M, 1 comes: replaced. Open 1, M comes: 18."
    #[test]
    fn newer_around_the_end_of_the_ring() {
        assert!(newer(1, M) && !newer(M, 1));
        assert!(newer(2, 1) && !newer(1, 2));
        assert!(newer(M, M - 1) && !newer(M - 1, M));
        assert!(newer(1, M - 1) && newer(2, M - 1) && newer(2, M));
        assert!(!newer(M - 1, 1) && !newer(M - 1, 2) && !newer(M, 2));
        assert!(newer(113, M) && !newer(M, 113));
    }

    /// An open number, the one 1,073,741,823 on and the one 1,073,741,824 on, added
    /// by hand; past M the sum is taken by 2,147,483,647.
    const HALF_ON: [(u32, u32, u32); 9] = [
        // Below M.
        (1, 1_073_741_824, 1_073_741_825),
        (100, 1_073_741_923, 1_073_741_924),
        (1_000_000_000, 2_073_741_823, 2_073_741_824),
        // M - 1, M, 1 and 2.
        (1_073_741_823, 2_147_483_646, 2_147_483_647),
        (1_073_741_824, 2_147_483_647, 1),
        (1_073_741_825, 1, 2),
        // Past M.
        (2_000_000_000, 926_258_176, 926_258_177),
        (2_147_483_646, 1_073_741_822, 1_073_741_823),
        (2_147_483_647, 1_073_741_823, 1_073_741_824),
    ];

    #[test]
    fn newer_on_both_sides_of_the_half() {
        for (open, last_newer, first_older) in HALF_ON {
            assert!(newer(last_newer, open), "open {open}, {last_newer} comes");
            assert!(
                !newer(first_older, open),
                "open {open}, {first_older} comes"
            );
            // The other way about: 1,073,741,823 and 1,073,741,824 back.
            assert!(!newer(open, last_newer), "open {last_newer}, {open} comes");
            assert!(newer(open, first_older), "open {first_older}, {open} comes");
        }
    }

    #[test]
    fn of_two_different_numbers_exactly_one_is_newer() {
        let ends = [1, 2, 3, 16, 17, 2_147_483_645, 2_147_483_646, M];
        let halves = HALF_ON
            .map(|(open, one, other)| [open, one, other])
            .concat();
        let numbers = [&ends[..], &halves].concat();
        for one in &numbers {
            for other in &numbers {
                let newer_ones = [newer(*one, *other), newer(*other, *one)];
                let count = newer_ones.iter().filter(|newer| **newer).count();
                assert_eq!(count, usize::from(one != other), "{one} and {other}");
            }
        }
    }

    /// A third of M is 715,827,882 and a third.
    #[test]
    fn three_numbers_each_newer_than_the_one_before() {
        let (one, two, three) = (1, 715_827_883, 1_431_655_765);
        assert!(newer(two, one) && newer(three, two) && newer(one, three));
        assert!(!newer(one, two) && !newer(two, three) && !newer(three, one));
    }

    #[test]
    fn verdicts_bear_the_papers_numbers() {
        let gap = Check::Gap { skipped: 2 };
        let checks = [Check::First, Check::Next, Check::Restart, gap];
        for (number, check) in (1..).zip(checks) {
            assert_eq!(verdict(check).0.number(), number);
        }
        assert_eq!(verdict(Check::Unchecked).0.number(), 5);
        let repeat = Check::Repeat { age: 7 };
        assert_eq!(verdict(repeat).0.number(), 0);
        assert_eq!(verdict(gap).1, 2);
        assert_eq!((verdict(Check::Next).1, verdict(repeat).1), (0, 0));
    }

    /// R, SEQ and N1 of repeats, and how far back SEQ lies, counted by hand; past 1
    /// the steps go on from M, 2,147,483,647.
    const AGES: [(u32, u32, u16, u32); 24] = [
        // The same number, one back, between, N1 - 1.
        (100, 100, 16, 0),
        (100, 99, 16, 1),
        (100, 92, 16, 8),
        (100, 86, 16, 14),
        (100, 85, 16, 15),
        // 3, 2, 1, M, M - 1, ..., M - 12.
        (3, 3, 16, 0),
        (3, 1, 16, 2),
        (3, 2_147_483_647, 16, 3),
        (3, 2_147_483_646, 16, 4),
        (3, 2_147_483_635, 16, 15),
        (1, 2_147_483_647, 16, 1),
        (1, 2_147_483_633, 16, 15),
        (2_147_483_647, 2_147_483_647, 16, 0),
        (2_147_483_647, 2_147_483_632, 16, 15),
        // N1 1 and 2.
        (100, 100, 1, 0),
        (1, 1, 1, 0),
        (2_147_483_647, 2_147_483_647, 1, 0),
        (1, 2_147_483_647, 2, 1),
        // N1 1024: ages of one octet and of two.
        (2_000, 1_999, 1_024, 1),
        (2_000, 1_745, 1_024, 255),
        (2_000, 1_744, 1_024, 256),
        (2_000, 977, 1_024, 1_023),
        (976, 2_147_483_600, 1_024, 1_023),
        (1, 2_147_482_625, 1_024, 1_023),
    ];

    #[test]
    fn a_repeat_tells_how_far_back_it_lies() {
        for (r, seq, n1, age) in AGES {
            let repeat = Check::Repeat { age };
            assert_eq!(rule_4(r, seq, n1), repeat, "R {r}, SEQ {seq}, N1 {n1}");
        }
    }

    /// The number N1 back is no repeat and has no age; nor has anything else.
    #[test]
    fn nothing_else_has_an_age() {
        let n1_back = [
            (100, 84, 16),
            (3, 2_147_483_634, 16),
            (1, 2_147_483_632, 16),
            (2_147_483_647, 2_147_483_631, 16),
            (100, 99, 1),
            (1, 2_147_483_647, 1),
            (1, 2_147_483_646, 2),
            (2_000, 976, 1_024),
            (976, 2_147_483_599, 1_024),
        ];
        for (r, seq, n1) in n1_back {
            let check = rule_4(r, seq, n1);
            assert!(matches!(check, Check::Gap { .. }), "{r} {seq} {n1}");
            assert_eq!(age(check), 0);
        }
        // Unchecked, first, restart, next, where rule 4 would find 0, 5 and 15 back.
        assert_eq!(age(number_check(0, 1, 0, 1, 16)), 0);
        assert_eq!(age(number_check(5, 6, 0, 1, 16)), 0);
        assert_eq!(age(number_check(0, 100, 5, 95, 16)), 0);
        assert_eq!(age(number_check(0, 100, 0, 85, 16)), 0);
        assert_eq!(age(number_check(5, 100, 6, 95, 16)), 0);
        assert_eq!(age(number_check(5, 100, 5, 101, 16)), 0);
        assert_eq!(age(number_check(5, 100, 5, 95, 16)), 5);
    }

    /// Step by step back from R, over the end of the ring: the numbers of ages 0 to
    /// N1 - 1, and no others, are repeats.
    #[test]
    fn each_step_back_is_one_more() {
        for n1 in [1, 2, 16, 1_024] {
            for r in [1, 2, 15, 16, 17, 1_023, 1_024, 5_000, M - 1, M] {
                let mut seq = r;
                for steps in 0..u32::from(n1) + 3 {
                    let expected = (steps < n1.into()).then_some(steps);
                    let said = match rule_4(r, seq, n1) {
                        Check::Repeat { age } => Some(age),
                        _ => None,
                    };
                    assert_eq!(said, expected, "R {r}, SEQ {seq}, N1 {n1}");
                    seq = if seq == 1 { M } else { seq - 1 };
                }
            }
        }
    }
}
