//! The fault section of an alive line: its octets as they stand, or its parts by
//! name, right or wrong.

use crate::fault::{bits_length, NAME};
use crate::sections::SectionPlan;
use crate::text::{hex_octets, number_of, Values};

/// The names of the parts.
const PARTS: [&str; 5] = ["modules", "dead", "errors", "errname", "options"];
/// No field has room for more octets.
const LONGEST: u128 = 65_535;

/// The octets behind the first 128: none where the line names no section.
pub fn section_of(values: &mut Values) -> Result<Vec<u8>, String> {
    let by_parts = PARTS.into_iter().find(|name| values.names(name));
    match (values.take("section"), by_parts) {
        (Some(_), Some(name)) => Err(format!("section= and {name}= stand in one line")),
        (Some(word), None) => octets_of("section", word),
        (None, Some(_)) => Ok(plan_of(values)?.octets()),
        (None, None) => Ok(Vec::new()),
    }
}

/// `hex:0a0b`.
fn octets_of(name: &str, word: &str) -> Result<Vec<u8>, String> {
    match word.strip_prefix("hex:") {
        Some(hex) => hex_octets(hex).map_err(|what| format!("{name}=: {what}")),
        None => Err(format!("{name}=: {word:?} is not hex: and octets")),
    }
}

fn plan_of(values: &mut Values) -> Result<SectionPlan, String> {
    let modules = values.u32("modules", 0)?;
    if bits_length(modules) > LONGEST {
        return Err(format!("modules={modules} has more bits than a field"));
    }
    Ok(SectionPlan {
        modules,
        bits: bits_of(modules, values.take("dead").unwrap_or(""))?,
        numbers: numbers_of(values.take("errors").unwrap_or(""))?,
        name: name_of(values.take("errname").unwrap_or(""))?,
        options: octets_of("options", values.take("options").unwrap_or("hex:"))?,
    })
}

fn listed(list: &str) -> impl Iterator<Item = &str> {
    list.split(',').filter(|word| !word.is_empty())
}

/// `1,33`: the modules that are dead. Above the count there are places too, up to
/// the last of L octets.
fn bits_of(modules: u32, list: &str) -> Result<Vec<u8>, String> {
    let mut bits = vec![0; bits_length(modules) as usize];
    for word in listed(list) {
        let module = number_of(word, 8 * bits.len() as u128)?;
        let place = module.checked_sub(1).ok_or("dead=: modules begin with 1")? as usize;
        bits[place / 8] |= 1 << (place % 8);
    }
    Ok(bits)
}

/// `33:7,1:65535`: module and error of each.
fn numbers_of(list: &str) -> Result<Vec<u16>, String> {
    let mut numbers = Vec::new();
    for pair in listed(list) {
        let (module, error) = pair
            .split_once(':')
            .ok_or(format!("errors=: {pair:?} is not module:error"))?;
        for word in [module, error] {
            numbers.push(number_of(word, u16::MAX.into())? as u16);
        }
    }
    Ok(numbers)
}

/// Up to 8 ASCII characters, 0 behind them.
fn name_of(word: &str) -> Result<[u8; NAME], String> {
    if !word.is_ascii() || word.len() > NAME {
        return Err(format!("errname=: at most {NAME} ASCII characters"));
    }
    let mut name = [0; NAME];
    name[..word.len()].copy_from_slice(word.as_bytes());
    Ok(name)
}

#[cfg(test)]
mod tests {
    use crate::text::capture_of;

    /// The octets behind the field's head and the 128 of the alive signal.
    fn behind(words: &str) -> Vec<u8> {
        let field = capture_of(&format!("alive field=1 node=7 {words}")).unwrap();
        let packet = &field[3..];
        // ML, BSIZE and the field's length are all the same.
        let length = packet.len() as u16;
        assert_eq!(field[1..3], length.to_be_bytes());
        assert_eq!(packet[4..8], u32::from(length).to_be_bytes());
        assert_eq!(packet[58..60], length.to_be_bytes());
        packet[128..].to_vec()
    }

    #[test]
    fn octets_as_they_stand() {
        assert_eq!(behind("section=hex:0102ff"), [1, 2, 255]);
        assert_eq!(behind("section=hex:"), []);
        assert_eq!(behind(""), []);
        assert_eq!(behind("section=hex:0102 size=129"), [1]);
        assert_eq!(behind("section=hex:0102 size=132 fill=9"), [1, 2, 9, 9]);
    }

    #[test]
    fn parts_by_name() {
        let words = "modules=33 dead=1,8,9,33 errors=33:7,1:65535 errname=RAFT options=hex:090807";
        let expected = [
            0, 0, 0, 33, 0x81, 1, 0, 0, 1, 0, 0, 0, // modules, bits
            0, 0, 0, 2, b'R', b'A', b'F', b'T', 0, 0, 0, 0, // errors, name
            0, 33, 0, 7, 0, 1, 255, 255, // module, error
            0, 0, 0, 3, 9, 8, 7, // options
        ];
        assert_eq!(behind(words), expected);
        assert_eq!(behind("modules=0"), [0; 20]);
        assert_eq!(behind("options=hex:"), [0; 20]);
        // What 02 refuses: a bit above the count, an error of module 0.
        assert_eq!(behind("modules=1 dead=32")[4..8], [0, 0, 0, 128]);
        assert_eq!(behind("errors=0:1")[16..20], [0, 0, 0, 1]);
    }

    #[test]
    fn length_follows_nothing() {
        let field = capture_of("alive field=1 node=7 modules=0 length=140").unwrap();
        assert_eq!((field.len(), field[3 + 59]), (3 + 140, 148));
    }

    #[test]
    fn wrong_words() {
        let wrong = [
            "section=0102",
            "section=hex:012",
            "section=hex:01 modules=1",
            "modules=4294967296",
            "modules=4294967295",
            "dead=1",
            "modules=32 dead=33",
            "modules=32 dead=0",
            "errors=1",
            "errors=65536:1",
            "errname=ninechars",
            "options=01",
            // 65,408 octets of bits leave no room for the 128 and the counts.
            "modules=523264",
        ];
        for words in wrong {
            let line = format!("alive field=1 node=7 {words}");
            assert!(capture_of(&line).is_err(), "{words}");
        }
    }
}
