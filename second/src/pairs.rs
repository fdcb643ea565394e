//! The calls of a past, each beside the line that some program printed of it.

use crate::fields::{TAG_ALIVE, TAG_CLOCK, TAG_MESSAGE, TAG_SETUP};
use crate::octets;

/// A call as its field, and the numbers of its line; none where the call prints
/// nothing.
pub struct Pair<'a> {
    pub tag: u8,
    pub contents: &'a [u8],
    pub numbers: Option<Vec<u64>>,
}

impl Pair<'_> {
    /// The letter of the call.
    pub fn letter(&self) -> char {
        letter_of(self.tag)
    }

    /// The PDU of a message call. The edges' P has four octets before it, how much
    /// storage is lent.
    pub fn message(&self) -> Option<&[u8]> {
        match self.tag {
            TAG_MESSAGE => Some(self.contents),
            b'P' => self.contents.get(4..),
            _ => None,
        }
    }
}

/// The calls are the fields of a capture or those of `docs/EDGES.md`, titles apart;
/// the lines are what any program printed of them.
pub fn pairs<'a>(fields: &'a [u8], lines: &str) -> Result<Vec<Pair<'a>>, String> {
    let mut lines = lines
        .lines()
        .filter(|line| !line.starts_with(['#', 'w', 'k', 'e']));
    let (mut pairs, mut rest) = (Vec::new(), fields);
    while let Some((tag, contents, behind)) = first_field(rest) {
        rest = behind;
        let numbers = match letter_of(tag) {
            '#' => continue,
            'a'..='z' => None,
            letter => {
                let line = lines.next().unwrap_or("");
                // "A bad or cut field ends the run".
                if line == "E" {
                    return Ok(pairs);
                }
                Some(numbers_of(letter, line).ok_or_else(|| unlike(line))?)
            }
        };
        pairs.push(Pair {
            tag,
            contents,
            numbers,
        });
    }
    match lines.next() {
        None | Some("E") => Ok(pairs),
        Some(line) => Err(unlike(line)),
    }
}

fn unlike(line: &str) -> String {
    format!("the lines are not of these calls: {line:?}")
}

/// A field and what is behind it; None at the end, and where the field is cut.
fn first_field(octets: &[u8]) -> Option<(u8, &[u8], &[u8])> {
    let behind_head = octets.get(3..)?;
    let length = octets::read(octets, 1, 2) as usize;
    let (contents, behind) = behind_head.split_at_checked(length)?;
    Some((octets[0], contents, behind))
}

/// The letter of a call's line: "Tag 1 setup", "2 message PDU, 3 clock", "4 alive
/// PDU"; the calls of the edges bear theirs.
fn letter_of(tag: u8) -> char {
    match tag {
        TAG_SETUP => 'S',
        TAG_MESSAGE => 'P',
        TAG_CLOCK => 'C',
        TAG_ALIVE => 'A',
        letter => letter.into(),
    }
}

/// The numbers of a line that begins with this letter.
fn numbers_of(letter: char, line: &str) -> Option<Vec<u64>> {
    let numbers = line.strip_prefix(letter)?.split_whitespace();
    numbers.map(|word| word.parse().ok()).collect()
}

#[cfg(test)]
mod tests {
    use super::*;
    use crate::text::capture_of;

    #[test]
    fn each_call_has_its_numbers() {
        let capture = capture_of("setup online senders=1:7\nraw 02 00 01 ff\n").unwrap();
        let pairs = pairs(&capture, "S 0\nP 12 0 0 0\n").unwrap();
        assert_eq!((pairs[0].letter(), pairs[1].letter()), ('S', 'P'));
        assert_eq!(pairs[1].numbers, Some(vec![12, 0, 0, 0]));
        assert_eq!(pairs[1].message(), Some(&[255][..]));
        assert_eq!((pairs[0].message(), pairs.len()), (None, 2));
    }

    /// A title, a clock call that prints nothing, and a message call that is lent
    /// 7 octets.
    #[test]
    fn calls_of_the_edges_bear_their_letters() {
        let calls = b"#\0\x01xc\0\x08\0\0\0\0\0\0\0\x09P\0\x05\0\0\0\x07\xee";
        let pairs = pairs(calls, "# x\nP 11 0 0 0 0 0 0 0 7 7\n").unwrap();
        assert_eq!((pairs.len(), &pairs[0].numbers), (2, &None));
        assert_eq!((pairs[0].letter(), pairs[1].letter()), ('c', 'P'));
        assert_eq!(pairs[1].message(), Some(&[0xee][..]));
    }

    #[test]
    fn lines_of_other_calls_are_told() {
        // Behind the clock a cut field, a bad length, a bad tag.
        for last in ["03 00", "03 00 00", "09 00 00"] {
            let capture = capture_of(&format!("clock 5\nraw {last}\n")).unwrap();
            assert_eq!(pairs(&capture, "C 0 0 0\nE\n").unwrap().len(), 1);
        }
        let capture = capture_of("clock 5\n").unwrap();
        for lines in ["", "P 0 0 1 0\n", "C 0 x 0\n", "C 0 0 0\nC 0 0 0\n"] {
            assert!(pairs(&capture, lines).is_err(), "{lines:?}");
        }
    }
}
