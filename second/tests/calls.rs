//! `second edges-calls`: its fields, read back with a reader of their own, have
//! the shape that `docs/EDGES.md` gives them, and make the calls whose lines
//! `second edges` prints.

mod replay;

use std::sync::OnceLock;

use replay::{lines_of, read, Field};

/// All fields, made and read once for all tests.
fn fields() -> &'static [Field] {
    static FIELDS: OnceLock<Vec<Field>> = OnceLock::new();
    FIELDS.get_or_init(|| read(&second::edges::calls_as_fields()))
}

/// The fields of one section, without its title.
fn section(title: &str) -> Vec<Field> {
    let mut found = fields()
        .iter()
        .skip_while(|(tag, contents)| *tag != '#' || contents != title.as_bytes());
    assert!(found.next().is_some(), "no section {title:?}");
    found.take_while(|(tag, _)| *tag != '#').cloned().collect()
}

fn tags(fields: &[Field]) -> String {
    fields.iter().map(|(tag, _)| *tag).collect()
}

// The shape.

/// The least and the most octets of a field with this tag.
fn room(tag: char) -> (usize, usize) {
    match tag {
        '#' => (1, 100),
        // 1 + 2 + 4 + 1, 1 + 2 for each of 16 places, 1 and 8 for the groups.
        'S' | 's' => (65, 65),
        'P' | 'p' => (4, 4 + 1_472),
        // 128 and up to 1,348 octets behind them.
        'A' | 'a' => (127, 1_476),
        'C' | 'c' => (8, 8),
        'Q' | 'W' | 'E' => (0, 0),
        'H' => (1, 1),
        // 1 + 2 + 4 + 8 + 1, and the groups.
        't' => (25, 25),
        'M' | 'm' => (5, 5 + 2_000),
        'e' => (10, 10),
        'r' => (58, 58),
        'K' => (29, 29 + 20_000),
        'R' => (21, 21 + 74),
        'F' => (0, 3 + 65_000),
        'G' | 'O' => (0, 1_348),
        'B' | 'L' => (4, 4 + 1_348),
        // 2 + 4 + 2 + 2 + 8, and 32,750 numbers at most.
        'Z' => (18, 18 + 65_500),
        _ => panic!("no such tag: {tag:?}"),
    }
}

#[test]
fn each_field_has_its_shape() {
    for (tag, contents) in fields() {
        let (least, most) = room(*tag);
        let length = contents.len();
        assert!((least..=most).contains(&length), "{tag} with {length}");
    }
}

/// Each line but w, k and e is of one field, and each field with `#` or a capital
/// prints one line, which begins with its tag.
#[test]
fn each_field_that_prints_has_its_line() {
    let printing = fields().iter().filter(|(tag, _)| !tag.is_lowercase());
    let printing: String = printing.map(|(tag, _)| *tag).collect();
    let lines = second::edges::lines();
    let lines = lines
        .lines()
        .filter(|line| !line.starts_with(['w', 'k', 'e']));
    let letters: String = lines.filter_map(|line| line.chars().next()).collect();
    assert_eq!(printing.len(), letters.len());
    assert_eq!(printing, letters);
}

/// `fresh()` after each title, and before each row where the page says so.
#[test]
fn fresh_is_written_where_it_is_made() {
    assert_eq!(tags(&fields()[..3]), "#sS");
    assert_eq!(tags(&section("1.1 Setup")), ["s", &"S".repeat(28)].concat());
    assert_eq!(
        tags(&section("2.3 Storage")),
        ["s", &"sP".repeat(6)].concat()
    );
    assert_eq!(
        tags(&section("5.11 Around the end of the ring")),
        ["s", &"sPPPQ".repeat(32)].concat()
    );
    assert_eq!(
        tags(&section("7.3 Two numbers at once")),
        ["s", &"sA".repeat(4)].concat()
    );
    assert_eq!(
        tags(&section("10.3 Header values")),
        ["s", &"K".repeat(46)].concat()
    );
    assert_eq!(
        tags(&section("11.1 Slices that do not fit")),
        ["sPPP", &"R".repeat(24)].concat()
    );
}

#[test]
fn damage_is_written_between_the_calls() {
    let rows = |damage: &str, count: usize| format!("scap{damage}PACQ").repeat(count);
    let one_value = ["s".to_string(), rows("", 1), rows("t", 6), rows("r", 16)];
    assert_eq!(tags(&section("8.1 One value changed")), one_value.concat());
    let cuts = ["s".to_string(), rows("r", 19)].concat();
    assert_eq!(tags(&section("8.2 Cut and map of the open message")), cuts);
    let unseen = ["s".to_string(), rows("r", 3)].concat();
    assert_eq!(tags(&section("8.3 What is never looked at")), unseen);
    let nobody = ["s", &"sstPACQ".repeat(4)].concat();
    assert_eq!(tags(&section("8.4 No senders")), nobody);
    let over = ["P", "P", "PWP", "P", "P", "A", "A", "C", "Q"].map(|calls| format!("scr{calls}W"));
    let over = ["s", &over.concat()].concat();
    assert_eq!(tags(&section("8.5 What is written over it")), over);
    let damages = ["", "r", "r", "r", "t", "t", "t", "t", "t", "r", "tr"];
    let counted = damages.map(|damage| format!("scap{damage}HHHHHH"));
    let counted = ["s", &counted.concat()].concat();
    assert_eq!(tags(&section("8.6 The count of a damaged state")), counted);
}

// Some fields, octet by octet.

/// Mode, N1, T, count, then places 0 and 1; place i from 2 is (1 + i):(7 + i). There
/// are no groups.
fn setup_by_hand(first: [u8; 8], second: [u8; 3]) -> Vec<u8> {
    let mut expected = first.to_vec();
    expected.extend([1, 0, 7]);
    expected.extend(second);
    expected.extend([3, 0, 9, 4, 0, 10, 5, 0, 11, 6, 0, 12, 7, 0, 13]);
    expected.extend([8, 0, 14, 9, 0, 15, 10, 0, 16, 11, 0, 17, 12, 0, 18]);
    expected.extend([13, 0, 19, 14, 0, 20, 15, 0, 21, 16, 0, 22]);
    expected.extend([0; 9]);
    expected
}

/// T 15000 is 58 x 256 + 152; 600000 is 9 x 65536 + 39 x 256 + 192.
#[test]
fn setups_octet_by_octet() {
    let base = setup_by_hand([0, 0, 16, 0, 0, 58, 152, 2], [2, 0, 9]);
    let rows = section("1.1 Setup");
    assert_eq!(rows[0], ('s', base.clone()));
    assert_eq!(rows[1], ('S', base));
    let seventeen = setup_by_hand([0, 0, 16, 0, 0, 58, 152, 17], [2, 0, 8]);
    assert_eq!(rows[13], ('S', seventeen));
    let most = setup_by_hand([1, 4, 0, 0, 9, 39, 192, 2], [255, 15, 255]);
    assert_eq!(section("1.2 What setup returns")[3], ('S', most));
}

/// 16384 x 5 is 81920 = 65536 + 64 x 256; one octet less and one more.
#[test]
fn lent_storage_is_what_the_call_is_lent() {
    let lent = |field: &Field| field.1[..4].to_vec();
    let rows = section("9.2 Five to sixteen senders");
    assert_eq!(tags(&rows[..14]), "sSPPPPQACPPCCW");
    assert_eq!(lent(&rows[2]), [0, 1, 64, 0]);
    assert_eq!(lent(&rows[4]), [0, 1, 63, 255]);
    assert_eq!(lent(&rows[5]), [0, 1, 64, 1]);
    assert_eq!(rows[5].1.len(), 4 + 74);
    // Nothing is lent at the empty state.
    let empty = section("2.6 The empty state");
    assert_eq!(
        (tags(&empty).as_str(), lent(&empty[2])),
        ("sSPPPP", vec![0; 4])
    );
    // 32768, whatever the count says: the row with count 17 is the seventh.
    let damaged = section("8.1 One value changed");
    assert_eq!(lent(&damaged[1 + 8 + 5 * 9 + 5]), [0, 0, 128, 0]);
}

/// Clock 1000 is 3 x 256 + 232; 1099511627777 is 2^40 + 1.
#[test]
fn damaged_settings_octet_by_octet() {
    let rows = section("8.1 One value changed");
    // fresh, a row of 8 fields, then rows of 9; the damage is each one's fifth.
    let damage = |row: usize| rows[1 + 8 + (row - 2) * 9 + 4].clone();
    let n1_0 = [0, 0, 0, 0, 0, 58, 152, 0, 0, 0, 0, 0, 0, 3, 232, 2];
    assert_eq!(damage(2), ('t', without_groups(n1_0)));
    let late = [0, 0, 16, 0, 0, 58, 152, 0, 0, 1, 0, 0, 0, 0, 1, 2];
    assert_eq!(damage(6), ('t', without_groups(late)));
    let seventeen = [0, 0, 16, 0, 0, 58, 152, 0, 0, 0, 0, 0, 0, 3, 232, 17];
    assert_eq!(damage(7), ('t', without_groups(seventeen)));
    let nobody = section("8.4 No senders");
    // fresh, then rows of 7; 0 senders at clock 0.
    assert_eq!(nobody[2].1[..3], [0, 0, 0]);
    let empty = [0, 0, 1, 0, 0, 0, 1, 0, 0, 0, 0, 0, 0, 0, 0, 0];
    assert_eq!(nobody[3], ('t', without_groups(empty)));
    let test = [1, 0, 1, 0, 0, 0, 1, 0, 0, 0, 0, 0, 0, 0, 0, 0];
    assert_eq!(nobody[10], ('t', without_groups(test)));
}

/// Settings, time and count, and behind them 0 groups and eight times 0.
fn without_groups(settings: [u8; 16]) -> Vec<u8> {
    [&settings[..], &[0; 9]].concat()
}

/// The busy sender 0 with tcd 60000 (234 x 256 + 96), and 8.3's place 2.
#[test]
fn damaged_records_octet_by_octet() {
    let rows = section("8.1 One value changed");
    let mut expected = vec![0, 1, 0, 7, 0, 0, 0, 0, 0, 0, 0, 0];
    expected.extend([1, 0, 0, 0, 5, 0, 0, 0, 100, 234, 96, 17, 148, 4, 5, 52]);
    expected.extend([0, 0, 0, 0, 0, 0, 0, 2, 1, 0, 0, 0, 0, 0, 0, 3, 232]);
    expected.extend([1, 0, 0, 0, 0, 0, 0, 3, 232, 0, 0, 0, 60]);
    assert_eq!(rows[1 + 8 + 16 * 9 + 4], ('r', expected.clone()));
    // Row 23: tcd 1 as it was, held 255.
    expected.splice(21..23, [0, 1]);
    expected[36] = 255;
    assert_eq!(rows[1 + 8 + 21 * 9 + 4], ('r', expected));
    let rows = section("8.3 What is never looked at");
    let mut expected = vec![2, 1, 0, 7, 0, 0, 0, 5, 0, 0, 0, 0, 1];
    expected.extend([0; 23]);
    expected.extend([255, 0, 0, 0, 0, 0, 0, 0, 0]);
    expected.extend([1, 255, 255, 255, 255, 255, 255, 255, 255, 0, 0, 0, 0]);
    assert_eq!(rows[1 + 2 * 9 + 4], ('r', expected));
}

/// Rows of 10 fields, 11 with one damage; 9 of place 2, all else 0.
#[test]
fn held_calls_octet_by_octet() {
    let rows = section("8.6 The count of a damaged state");
    let places = [0, 1, 2, 15, 16, 255].map(|place| ('H', vec![place]));
    assert_eq!(rows[5..11], places);
    assert_eq!(rows[rows.len() - 6..], places);
    let mut expected = vec![2, 0, 0, 0, 0, 0, 0, 0, 0, 0, 0, 0, 1];
    expected.extend([0; 23]);
    expected.push(9);
    expected.extend([0; 21]);
    assert_eq!(rows[rows.len() - 7], ('r', expected.clone()));
    assert_eq!(rows[1 + 10 + 8 * 11 + 4], ('r', expected));
    let three = [0, 0, 16, 0, 0, 58, 152, 0, 0, 0, 0, 0, 0, 3, 232, 3];
    assert_eq!(rows[rows.len() - 8], ('t', without_groups(three)));
}

/// cut_with(SEQ, 305419896) and the part whose end is above 2^64.
#[test]
fn cutter_part_and_field_octet_by_octet() {
    let message = [100, 107, 114, 121, 128, 135, 142, 149, 156, 163];
    let mut expected = vec![0, 128, 1, 0, 1, 1, 0, 7, 0, 1, 0, 1, 0, 0, 0, 5];
    expected.extend([18, 52, 86, 120, 128, 0, 0, 0, 0, 1, 0, 0, 0]);
    expected.extend(message);
    let before = 3 + 7 + 4 + 4;
    assert_eq!(
        section("10.3 Header values")[1 + before + 5],
        ('K', expected)
    );
    let rows = section("11.1 Slices that do not fit");
    let mut expected = vec![2];
    expected.extend([255; 8]);
    expected.extend([0, 0, 0, 0, 0, 0, 0, 1, 0, 0, 128, 0]);
    assert_eq!(rows[1 + 3 + 21], ('R', expected));
    let rows = section("12.1 Cut at each place");
    let whole = vec![4, 0, 3, 4, 21, 38, 1, 1];
    assert_eq!(rows.last(), Some(&('F', whole)));
}

/// Section (33, 2, 5): L is 8, errors (1, 3) and (2, 260), options from 5 by 11.
const A_SECTION: [u8; 41] = [
    0, 0, 0, 33, 73, 146, 36, 73, 0, 0, 0, 0, 0, 0, 0, 2, // modules, bits, errors
    65, 66, 67, 68, 69, 70, 71, 72, 0, 1, 0, 3, 0, 2, 1, 4, // name, errors
    0, 0, 0, 5, 5, 16, 27, 38, 49, // options
];

#[test]
fn sections_octet_by_octet() {
    let read = section("13.4 Options and lengths of a section");
    assert_eq!(tags(&read), ["s", &"G".repeat(92)].concat());
    assert_eq!(read[1].1, A_SECTION);
    // One octet early and two late, the last row but three and the last.
    assert_eq!(read[89].1, A_SECTION[..40]);
    assert_eq!(read[92].1, [&A_SECTION[..], &[0, 0]].concat());
    let options = section("13.8 Options of any octets");
    assert_eq!(tags(&options), ["s", &"O".repeat(21)].concat());
    assert_eq!(options[3].1, A_SECTION);
    assert_eq!(options[21].1, [255; 20]);
    let alive = section("7.8 24 and other numbers");
    assert_eq!(tags(&alive), ["s", &"sA".repeat(46)].concat());
    assert_eq!(alive[2].1[128..], A_SECTION);
    assert_eq!((alive[2].1[7], alive[2].1[59]), (169, 169));
    assert_eq!((alive[4].1[128 + 35], alive[4].1.len()), (4, 169));
}

/// 10593 is 41 x 256 + 97; 4294967295 is 255 four times.
#[test]
fn parts_of_sections_octet_by_octet() {
    let modules = section("13.6 Modules of any octets");
    let mut expected = vec![0, 0, 41, 97];
    expected.extend([0, 0, 41, 96]);
    assert_eq!(modules[4].1[..8], expected);
    assert_eq!(
        modules[8].1[..13],
        [0, 0, 0, 8, 0, 0, 0, 1, 255, 255, 255, 255, 0]
    );
    let errors = section("13.7 Errors by their index");
    assert_eq!(errors[3].1[..9], [255, 255, 255, 255, 0, 0, 0, 0, 0]);
    assert_eq!(errors[3].1.len(), 4 + 20);
}

/// The last row of 13.13: a buffer of 35, 5 modules of which 1 and 4 are dead.
#[test]
fn written_sections_octet_by_octet() {
    let rows = section("13.13 Numbers of errors");
    let mut expected = vec![0, 35, 0, 0, 0, 5, 0, 4, 9, 0, 0, 0];
    expected.extend([0, 4, 0, 6, 0, 1, 255, 255, 0, 2]);
    expected.extend([65, 66, 67, 68, 69, 70, 71, 72, 5, 16, 27]);
    assert_eq!(rows.last(), Some(&('Z', expected)));
    let mut short = vec![0, 19, 0, 0, 0, 0, 0, 0, 0, 0];
    short.extend([65, 66, 67, 68, 69, 70, 71, 72]);
    assert_eq!(section("13.9 What is written")[1], ('Z', short));
}

/// `ready()`: the base, and groups 5, 1, 255; and 14.1's row with 255 of them.
#[test]
fn groups_octet_by_octet() {
    let mut ready = setup_by_hand([0, 0, 16, 0, 0, 58, 152, 2], [2, 0, 9]);
    ready.splice(56.., [3, 5, 1, 255, 0, 0, 0, 0, 0]);
    let rows = section("14.10 Lengths of a multicast PDU");
    assert_eq!(rows[1], ('s', ready));
    let mut many = setup_by_hand([0, 0, 16, 0, 0, 58, 152, 2], [2, 0, 9]);
    many.splice(56.., [255, 1, 2, 3, 4, 5, 6, 7, 8]);
    let rows = section("14.1 Groups of a setup");
    assert_eq!(tags(&rows), ["s", &"S".repeat(53)].concat());
    assert_eq!(rows[5], ('S', many));
    // Clock 1000 is 3 x 256 + 232.
    let mut damage = vec![0, 0, 16, 0, 0, 58, 152, 0, 0, 0, 0, 0, 0, 3, 232, 2];
    damage.extend([9, 5, 1, 255, 0, 0, 0, 0, 0]);
    let rows = section("14.3 Groups of a damaged state");
    assert_eq!(tags(&rows), ["s", &"scaptPACQM".repeat(29)].concat());
    assert_eq!(rows[1 + 10 + 4], ('t', damage));
}

/// number(5, 100) to group 1 with 47 entries of the versions; and an entry.
#[test]
fn multicast_calls_octet_by_octet() {
    let rows = section("14.8 Two numbers at once");
    let mut expected = vec![0, 47, 0, 48, 1, 78, 85, 88, 77, 0, 0, 0, 74, 0, 1, 0, 7];
    expected.extend([0, 1, 0, 1, 0, 0, 0, 5, 0, 0, 0, 100, 128, 0, 0, 0]);
    expected.extend([0; 12]);
    expected.extend([0, 1, 0, 0, 0, 0, 0, 0, 0, 0, 0, 0, 0, 0, 1, 0, 1, 1, 0, 74]);
    expected.extend([0; 4]);
    expected.extend([100, 107, 114, 121, 128, 135, 142, 149, 156, 163]);
    assert_eq!(tags(&rows[..7]), "ssMsMse");
    assert_eq!(rows[2], ('M', expected.clone()));
    (expected[1], expected[3]) = (48, 47);
    assert_eq!(rows[4], ('M', expected));
    assert_eq!(rows[6], ('e', vec![0, 20, 0, 0, 0, 5, 128, 0, 0, 0]));
    let rows = section("14.2 What setup returns of groups");
    assert_eq!(
        tags(&rows),
        ["s", &"SW".repeat(6), &"eeeESE".repeat(4), "W"].concat()
    );
    // 1039 is 4 x 256 + 15.
    assert_eq!(rows[15], ('e', vec![4, 15, 0, 0, 0, 6, 0, 0, 0, 0]));
    // 1024 entries of each, sender 16:22, PRI 7, group 128.
    let last = &section("14.18 Sixteen senders and eight groups")[9].1;
    assert_eq!(last[..5], [4, 0, 4, 0, 128]);
    assert_eq!((last[14], &last[15..17], last[60]), (16, &[0, 22][..], 7));
    // What prints nothing before the call.
    let rows = section("14.17 What a refusal leaves of the tables");
    assert_eq!(tags(&rows[1..6]), "smmME");
}

/// Damage between the calls: N1 0 and 16, and R 113 of an open sender; the packet's
/// entry, and 14.8's a to j behind it.
#[test]
fn damage_beside_repeats_is_written() {
    let rows = section("15.4 Other numbers beside a repeat");
    assert_eq!(tags(&rows), "sPPPPPPPPtPtPPrPPP");
    assert_eq!((rows[9].1[2], rows[11].1[2]), (0, 16));
    // Place, pair, RV 5, R 113, open.
    let expected = [
        0, 1, 0, 7, 0, 0, 0, 5, 0, 0, 0, 113, 1, 0, 0, 0, 5, 0, 0, 0, 110,
    ];
    assert_eq!(rows[14].1[..21], expected);
    let rows = section("15.8 Other numbers beside a repeat to a group");
    let numbers = [
        "seM",
        "seM",
        "seeM",
        "seeM",
        &"seM".repeat(6),
        "steM",
        "seM",
    ];
    assert_eq!(tags(&rows), ["s", &numbers.concat()].concat());
    assert_eq!(rows[2], ('e', vec![0, 8, 0, 0, 0, 5, 0, 0, 0, 103]));
}

/// "such a program needs nothing of this page but "The calls as fields"".
#[test]
fn the_fields_alone_give_the_same_lines() {
    let replayed = lines_of(fields());
    let printed = second::edges::lines();
    let printed: Vec<&str> = printed.lines().collect();
    assert_eq!(replayed.len(), printed.len());
    for (at, line) in printed.iter().enumerate() {
        assert_eq!(replayed[at], *line, "line {}", at + 1);
    }
}
