//! Sections 7.6 to 7.10 and 13 of the edges: what each row of `docs/EDGES.md` must
//! answer by 01 and 02, written by hand. Sections and sums are made anew here,
//! apart from the code under test.

use std::sync::OnceLock;

/// All lines, made once for all tests.
fn lines() -> &'static str {
    static LINES: OnceLock<String> = OnceLock::new();
    LINES.get_or_init(second::edges::lines)
}

/// The lines of one section, without its title.
fn section(title: &str) -> Vec<&'static str> {
    let mut found = lines()
        .lines()
        .skip_while(|line| line.strip_prefix("# ") != Some(title));
    assert!(found.next().is_some(), "no section {title:?}");
    found.take_while(|line| !line.starts_with('#')).collect()
}

fn expect(title: &str, expected: Vec<String>) {
    let found = section(title);
    assert_eq!(found.len(), expected.len(), "{title}");
    for (row, (found, expected)) in found.iter().zip(&expected).enumerate() {
        assert_eq!(found, expected, "{title}, row {}", row + 1);
    }
}

/// "s = 7; then, for each octet in order, s = (31 x s + octet) mod 2^32."
fn sum(octets: &[u8]) -> u64 {
    octets
        .iter()
        .fold(7, |s, octet| (31 * s + u64::from(*octet)) % (1 << 32))
}

fn l(m: u32) -> usize {
    match m {
        0 => 0,
        _ => ((m as usize - 1) / 32 + 1) * 4,
    }
}

/// "X = 1, 4, 7, ... (X mod 3 = 1) are dead".
fn bits(m: u32, b: usize) -> Vec<u8> {
    let octet = |at: usize| {
        let modules = (1..=8).map(|bit| (bit, 8 * at as u64 + bit));
        let dead = modules.filter(|(_, x)| x % 3 == 1 && *x <= u64::from(m));
        dead.map(|(bit, _)| 1 << (bit - 1)).sum()
    };
    (0..b).map(octet).collect()
}

/// "error k, from 0, has module k + 1 and error (257 x k + 3) mod 65536".
fn number(j: usize) -> u16 {
    let k = j / 2;
    let pair = [k + 1, (257 * k + 3) % 65_536];
    pair[j % 2] as u16
}

/// A section from its parts.
fn made_of(m: u32, bits: &[u8], numbers: &[u16], name: [u8; 8], o: usize) -> Vec<u8> {
    let mut octets = m.to_be_bytes().to_vec();
    octets.extend(bits);
    octets.extend((numbers.len() as u32 / 2).to_be_bytes());
    octets.extend(name);
    for number in numbers {
        octets.extend(number.to_be_bytes());
    }
    octets.extend((o as u32).to_be_bytes());
    octets.extend((0..o).map(|i| ((11 * i + 5) % 256) as u8));
    octets
}

const NAME: [u8; 8] = [65, 66, 67, 68, 69, 70, 71, 72];

// Reading.

/// A G line: the counts of a section, or None for 24.
fn reading(counts: Option<(u32, u32, u32)>) -> String {
    match counts {
        Some((m, e, o)) => format!("G 0 {m} {e} {o} 65 66 67 68 69 70 71 72"),
        None => "G 24 0 0 0 0 0 0 0 0 0 0 0".into(),
    }
}

/// Which of 13.1's rows are sections, by their module count, errors, options.
fn modules() -> Vec<Option<(u32, u32, u32)>> {
    let counts = [0, 1, 7, 8, 9, 31, 32, 33, 64, 65];
    let mut rows: Vec<_> = counts.map(|m| Some((m, 0, 0))).to_vec();
    rows.extend([
        None, // 1 module and no bits
        None, // no module and 4 octets of bits
        None, // 32 modules have L 4
        Some((34, 0, 0)),
        Some((64, 0, 0)),
        None,                 // 65 have L 12
        Some((10_592, 0, 0)), // 20 + 1,324
        None,
        Some((10_560, 1, 0)), // 20 + 1,320 + 4
        None,
        Some((10_560, 0, 3)), // 1,343
        Some((10_560, 0, 4)), // 1,344
        None,                 // 1,345
        Some((10_528, 1, 4)), // 20 + 1,316 + 4 + 4
        None,
    ]);
    // Great counts, none of which wraps.
    rows.extend([None; 7]);
    rows
}

/// Of 13.2: one bit of the last word, which is within the count or above it.
fn one_bit(m: u32) -> Vec<Option<(u32, u32, u32)>> {
    let above = 8 * l(m) as u32 - m;
    let within = Some((m, 0, 0));
    let row = |place: u32| within.filter(|_| place < 32 - above);
    (0..32).map(row).collect()
}

const LAST_WORDS: [u32; 9] = [1, 7, 8, 9, 31, 32, 33, 64, 65];

/// Of 13.3, without the last four rows, whose names differ.
fn errors() -> Vec<Option<(u32, u32, u32)>> {
    let mut rows = vec![
        Some((0, 1, 0)),
        Some((0, 330, 0)),
        Some((0, 331, 0)), // 20 + 1,324
        None,
        None,
        None,
        Some((1, 330, 0)), // 24 + 1,320
        None,
    ];
    // Counts that the octets do not have, and great ones.
    rows.extend([None; 13]);
    let one = Some((0, 1, 0));
    // Module 0, 1, 256, 65535; error 0, 65535.
    rows.extend([None, one, one, one, one, one]);
    // Module 0 of the first, second, third; errors 0.
    rows.extend([None, None, None, Some((0, 3, 0))]);
    // The same of 331; module 65535.
    rows.extend([None, None, None, Some((0, 331, 0))]);
    // Of 5 modules the fifth, the sixth, and 0.
    rows.extend([Some((5, 1, 0)), Some((5, 1, 0)), None]);
    rows
}

/// Of 13.4: the table, then the lengths 0 to 22 and 0 to 43, of which 20 and 41
/// are right.
fn options() -> Vec<Option<(u32, u32, u32)>> {
    let mut rows = vec![
        Some((33, 2, 5)),
        Some((0, 0, 1)),
        Some((0, 0, 1_323)),
        Some((0, 0, 1_324)),
    ];
    rows.extend([None; 21]);
    rows.extend((0..=22).map(|length| Some((0, 0, 0)).filter(|_| length == 20)));
    rows.extend((0..=43).map(|length| Some((33, 2, 5)).filter(|_| length == 41)));
    rows
}

#[test]
fn sections_read() {
    let modules = modules().into_iter().map(reading);
    expect("13.1 Modules of a section", modules.collect());
    let bits = LAST_WORDS.into_iter().flat_map(one_bit);
    // All 32; the 32nd above 31; all 31; all 33; two above 33.
    let whole = [
        Some((32, 0, 0)),
        None,
        Some((31, 0, 0)),
        Some((33, 2, 5)),
        None,
        None,
    ];
    let bits = bits.chain(whole).map(reading);
    expect("13.2 Bits of the last word", bits.collect());
    let mut errors: Vec<String> = errors().into_iter().map(reading).collect();
    errors.push("G 0 0 0 0 0 0 0 0 0 0 0 0".into());
    errors.push("G 0 0 0 0 1 2 3 4 5 6 7 8".into());
    errors.push("G 0 0 0 0 255 255 255 255 255 255 255 255".into());
    errors.push("G 0 33 2 5 255 255 255 255 255 255 255 255".into());
    expect("13.3 Errors of a section", errors);
    let options = options().into_iter().map(reading);
    expect("13.4 Options and lengths of a section", options.collect());
}

#[test]
fn modules_in_turn() {
    let mut expected = Vec::new();
    for m in [0u64, 1, 7, 8, 9, 31, 32, 33, 64, 65] {
        for x in (0..=m + 1).chain([4_294_967_295]) {
            let dead = x >= 1 && x <= m && x % 3 == 1;
            expected.push(format!("B {}", u8::from(dead)));
        }
    }
    expect("13.5 Modules in turn", expected);
}

#[test]
fn modules_of_any_octets() {
    // 10,591 = 3 x 3,530 + 1; 10,592 and 10,593 are not of that form.
    let rows: [&[u8]; 9] = [
        &[1, 1, 0, 0],
        &[0, 1, 0, 0, 0, 0, 0], // only module 1 is within the count
        &[0, 0],
        &[0],
        &[0],
        &[1, 1, 0, 0],             // 1, 7; not 8; 9 has no octet
        &[0, 1, 0],                // name octet 65 is 64 + 1: bit 0 is 97's
        &[0, 1, 1, 1, 1, 0, 0, 0], // 16 octets of bits are there, 128 modules
        &[1, 0, 0],
    ];
    let expected = rows
        .concat()
        .iter()
        .map(|dead| format!("B {dead}"))
        .collect();
    expect("13.6 Modules of any octets", expected);
}

#[test]
fn errors_by_their_index() {
    // Error 330 has number 257 x 330 + 3 = 84,813 - 65,536 = 19,277; 331 has 19,534.
    let rows: [&[(u16, u16)]; 15] = [
        &[(0, 0), (0, 0), (0, 0)],
        &[(1, 3), (0, 0), (0, 0)],
        &[(1, 3), (2, 260), (3, 517), (0, 0), (0, 0)],
        &[(1, 3), (331, 19_277), (0, 0)],
        &[(1, 3), (2, 260), (0, 0)],
        &[(65_535, 65_535), (2, 260)],
        &[(0, 260)],
        &[(0, 7), (0, 0)],
        &[(1, 3), (2, 256)], // 260 = 256 + 4, whose low octet is cut off
        &[(1, 3), (0, 0)],   // of module 2 the high octet
        &[(1, 3), (0, 0)],
        &[(0, 0)],
        &[(1, 3), (0, 0), (0, 0), (0, 0), (0, 0), (0, 0)],
        &[(0, 0)],
        &[(332, 19_534), (0, 0)],
    ];
    let line = |(module, error): &(u16, u16)| format!("L {module} {error}");
    let expected = rows.concat().iter().map(line).collect();
    expect("13.7 Errors by their index", expected);
}

#[test]
fn options_of_any_octets() {
    let all: Vec<u8> = (0..1_325).map(|i| ((11 * i + 5) % 256) as u8).collect();
    let first = |count: usize| &all[..count];
    let rows: [&[u8]; 21] = [
        &[],
        &[5],
        &[5, 16, 27, 38, 49],
        &[],
        first(1_324),
        first(1_325),
        &[5, 16, 27, 38],
        &[5],
        &[],
        &[], // the count 5 stands in the octet that is cut off
        first(5),
        first(4),
        first(5), // one more is told than there is
        first(5),
        &[49], // the count is 5, 16, 27, 38; one octet stands behind it
        &[],
        &[],
        &[],
        &[],
        &[],
        &[],
    ];
    let line = |octets: &&[u8]| format!("O {} {}", octets.len(), sum(octets));
    expect(
        "13.8 Options of any octets",
        rows.iter().map(line).collect(),
    );
}

// Writing.

/// A Z line: the section at the buffer's beginning, 170 behind it.
fn written(section: &[u8], buffer: usize) -> String {
    let rest = vec![170; buffer - section.len()];
    format!("Z 0 {} {} {}", section.len(), sum(section), sum(&rest))
}

/// A Z line of a refusal: the buffer is as it was.
fn refused(number: u8, buffer: usize) -> String {
    format!("Z {number} 0 7 {}", sum(&vec![170; buffer]))
}

fn numbers(w: usize) -> Vec<u16> {
    (0..w).map(number).collect()
}

/// The section that is written of m modules, w numbers and o options.
fn of(m: u32, w: usize, o: usize) -> Vec<u8> {
    made_of(m, &bits(m, l(m)), &numbers(w), NAME, o)
}

#[test]
fn what_is_written() {
    let rows = [
        (0, 0, 0, 20),
        (1, 0, 0, 24),
        (7, 0, 0, 24),
        (8, 0, 0, 24),
        (9, 0, 0, 24),
        (31, 0, 0, 24),
        (32, 0, 0, 24),
        (33, 0, 0, 28),
        (64, 0, 0, 28),
        (65, 0, 0, 32),
        (33, 4, 5, 41),
        (0, 2, 0, 24),
        (0, 662, 0, 1_344),
        (0, 0, 1, 21),
        (0, 0, 1_323, 1_343),
        (0, 0, 1_324, 1_344),
        (10_592, 0, 0, 1_344),
        (10_560, 2, 0, 1_344),
        (10_560, 0, 3, 1_343),
        (10_528, 2, 4, 1_344),
        (1, 660, 0, 1_344),
        (0, 660, 4, 1_344),
    ];
    let mut expected = Vec::new();
    for (m, w, o, needed) in rows {
        let section = of(m, w, o);
        assert_eq!(section.len(), needed);
        expected.push(refused(23, needed - 1));
        for buffer in [needed, needed + 1, 4_096] {
            expected.push(written(&section, buffer));
        }
    }
    for name in [[0; 8], [255; 8], [1, 2, 3, 4, 5, 6, 7, 8]] {
        expected.push(written(&made_of(0, &[], &[], name, 0), 20));
    }
    expect("13.9 What is written", expected);
}

#[test]
fn totals_above() {
    let rows = [
        // 10,593 modules: 1,348 octets.
        (23, 1_344),
        (23, 1_347),
        (24, 1_348),
        (24, 4_096),
        // With an error 1,348, with options 1,345.
        (23, 1_344),
        (24, 1_348),
        (23, 1_344),
        (24, 1_345),
        // 332 errors, 1,325 options, 331 errors and one, 331 errors and a module.
        (23, 1_347),
        (24, 1_348),
        (23, 1_344),
        (24, 1_345),
        (24, 1_346),
        (23, 1_344),
        (24, 1_345),
        (23, 1_347),
        (24, 1_348),
        // About the 4,096 that are at hand.
        (23, 4_095),
        (24, 4_096),
        (23, 4_096),
        (24, 4_096),
        (23, 4_096),
        (24, 4_096),
        (23, 4_096),
        (23, 4_096),
        (23, 4_096),
        (23, 4_096),
        // Great module counts: never room enough.
        (23, 20),
        (23, 4_096),
        (23, 20),
        (23, 20),
        (23, 20),
        (23, 4_096),
        (23, 4_096),
        (23, 4_096),
        (23, 4_096),
        (23, 4_096),
        (23, 4_096),
        (23, 0),
        (23, 0),
    ];
    let mut expected: Vec<String> = rows.map(|(number, of)| refused(number, of)).to_vec();
    expected.push(written(&of(0, 0, 1_324), 1_344));
    expect("13.10 Totals above 1,344", expected);
}

#[test]
fn octets_of_bits() {
    let refusals = |number: u8, buffers: &[usize]| -> Vec<String> {
        buffers.iter().map(|of| refused(number, *of)).collect()
    };
    let mut expected = vec![written(&of(33, 0, 0), 28)];
    expected.extend(refusals(24, &[28; 5]));
    expected.extend(refusals(23, &[27; 2]));
    expected.extend(refusals(24, &[4_096, 4_096, 20, 20]));
    expected.extend(refusals(23, &[19]));
    expected.extend(refusals(24, &[4_096, 24, 24, 24, 24, 24]));
    expected.extend(refusals(23, &[23, 20]));
    expected.extend(refusals(24, &[24]));
    expected.push(written(&of(32, 0, 0), 24));
    expected.extend(refusals(24, &[24, 1_344, 1_344]));
    expect("13.11 Octets of bits", expected);
}

#[test]
fn bits_of_the_last_word_written() {
    let mut expected = Vec::new();
    for m in LAST_WORDS {
        for place in 8 * l(m) - 32..8 * l(m) {
            let mut bits = vec![0; l(m)];
            bits[place / 8] = 1 << (place % 8);
            let buffer = 20 + l(m);
            expected.push(match place < m as usize {
                true => written(&made_of(m, &bits, &[], NAME, 0), buffer),
                false => refused(24, buffer),
            });
        }
    }
    expected.extend([23, 27, 31].map(|buffer| refused(23, buffer)));
    expect("13.12 Bits of the last word", expected);
}

#[test]
fn numbers_of_errors() {
    let mut expected = Vec::new();
    let mut both = |numbers: &[u16], good: bool| {
        let needed = 20 + 2 * numbers.len();
        expected.push(match good {
            true => written(&made_of(0, &[], numbers, NAME, 0), needed),
            false => refused(24, needed),
        });
        expected.push(refused(23, needed - 1));
    };
    let counts = [(0, true), (1, false), (2, true), (3, false), (4, true)];
    let more = [(5, false), (6, true), (661, false), (663, false)];
    for (w, good) in [&counts[..], &more].concat() {
        both(&numbers(w), good);
    }
    let changed = [
        (2, 0, 0, false),
        (2, 0, 65_535, true),
        (2, 1, 0, true),
        (2, 1, 65_535, true),
        (6, 0, 0, false),
        (6, 2, 0, false),
        (6, 4, 0, false),
        (6, 1, 0, true),
        (6, 3, 0, true),
        (6, 5, 0, true),
        (6, 4, 65_535, true),
        (5, 4, 0, false),
        (662, 0, 0, false),
        (662, 330, 0, false),
        (662, 660, 0, false),
    ];
    for (w, place, value, good) in changed {
        let mut numbers = numbers(w);
        numbers[place] = value;
        both(&numbers, good);
    }
    // 1 and 4 of 5 modules are dead: 1 + 8.
    let section = made_of(5, &[9, 0, 0, 0], &[6, 1, 65_535, 2], NAME, 3);
    expected.push(written(&section, 35));
    expect("13.13 Numbers of errors", expected);
}

// Alive signals.

fn heard(numbers: impl IntoIterator<Item = u8>) -> Vec<String> {
    let lines = numbers.into_iter().map(|number| format!("A {number}"));
    lines.collect()
}

/// 0 for a section, 24 for what is none.
fn judged(rows: Vec<Option<(u32, u32, u32)>>) -> Vec<u8> {
    let number = |row: Option<_>| if row.is_some() { 0 } else { 24 };
    rows.into_iter().map(number).collect()
}

#[test]
fn alive_signals_with_sections() {
    let noughts = (0..=22).map(|behind| if [0, 20].contains(&behind) { 0 } else { 24 });
    expect("7.6 Octets of 0 behind the header", heard(noughts));
    // Where there are more than 1,344 octets, the PDU is longer than 1,472.
    let mut modules = judged(modules());
    for row in [18, 20, 23, 25] {
        modules[row - 1] = 12;
    }
    let mut errors = judged(errors());
    errors.extend([0; 4]);
    for row in [4, 5, 6, 8, 14] {
        errors[row - 1] = 12;
    }
    let mut options = judged(options());
    for row in [5, 8, 23, 25] {
        options[row - 1] = 12;
    }
    // No octets are no section: the table has 25 rows, then lengths from 0.
    options[25] = 0;
    options[25 + 23] = 0;
    let rows = [modules, judged(one_bit(33)), errors, options].concat();
    expect("7.7 Sections behind the header", heard(rows));
}

#[test]
fn twenty_four_and_other_numbers() {
    let rows = [
        (0, 24),
        (22, 22), // ML
        (22, 22),
        (22, 22),
        (22, 22), // CBN
        (22, 22), // TBN
        (22, 22), // group
        (22, 22), // al_mode
        (22, 22),
        (22, 22), // al_protocol
        (22, 22), // al_ver
        (14, 14), // sender
        (14, 14),
        (13, 13), // TCD
        (13, 13), // PRI
        (13, 13), // PVER
        (12, 12), // BSIZE
        (12, 12),
        (12, 12),
        (14, 14), // al_mode and sender
        (13, 13), // sender and PRI
        (0, 24),  // SEQ
        (0, 24),  // MODE
    ];
    let numbers = rows.into_iter().flat_map(|(good, broken)| [good, broken]);
    expect("7.8 24 and other numbers", heard(numbers));
}

/// A W line at clock 600, and whether each sender is alive, since when, how long.
fn shown(first: &str, second: &str) -> String {
    let nothing = "0 0 0 0 0 0 0 0 0 0 0 0";
    let none = "0 0 0 0 0 0 0 0 0";
    format!("W 0 16 15000 600 2 {none}\nw 0 1 7 {nothing} {first}\nw 1 2 9 {nothing} {second}\n")
}

#[test]
fn sections_in_every_mode() {
    let before = shown("1 500 60", "0 0 0");
    let mut expected = "C 0 0 0\nA 0\nC 0 0 0\n".to_string();
    for number in [22, 24, 24, 24, 22] {
        expected += &format!("A {number}\n{before}");
    }
    expected += &format!("A 0\n{}", shown("1 600 5", "0 0 0"));
    let both_dead = shown("0 0 0", "0 0 0");
    expected += &format!("A 0\n{both_dead}A 24\nA 24\nA 24\n{both_dead}");
    expected += &format!("A 0\nA 0\n{}", shown("1 600 5", "1 600 60"));
    expected += &format!("A 0\nA 0\n{both_dead}");
    let expected = expected.lines().map(str::to_string).collect();
    expect("7.9 Sections in every mode", expected);
}

#[test]
fn sections_at_the_empty_state() {
    let mut expected = vec!["S 10".to_string()];
    expected.extend(heard([14; 4]));
    expected.push("W 0 1 1 0 0 0 0 0 0 0 0 0 0 0".into());
    expect("7.10 Sections at the empty state", expected);
}
