//! The calls of the fault section: each made, and kept as its line and its field.
//! "These calls touch no state and none of the storage."

use super::calls;
use super::past::{joined, sum, Past, FILL};
use crate::fault::{self, Parts};

/// "a buffer of up to 4,096 octets is at hand": no row and no random call has a
/// longer one.
pub const BUFFER_MOST: usize = 4_096;

/// "G number modules errors options o1 o2 ... o8".
pub fn read_call(past: &mut Past, octets: &[u8]) {
    let reading = fault::read(octets);
    let counts = [
        reading.number.into(),
        reading.modules,
        reading.errors,
        reading.options,
    ];
    let line = format!("G {} {}", joined(&counts), joined(&reading.name));
    past.made('G', octets, &line);
}

/// "B dead".
pub fn module_call(past: &mut Past, module: u32, octets: &[u8]) {
    let line = format!("B {}", u8::from(fault::dead(octets, module)));
    past.made('B', &calls::of_one(module, octets), &line);
}

/// "L module error".
pub fn error_call(past: &mut Past, index: u32, octets: &[u8]) {
    let (module, error) = fault::error(octets, index);
    past.made(
        'L',
        &calls::of_one(index, octets),
        &format!("L {module} {error}"),
    );
}

/// "O length sum".
pub fn options_call(past: &mut Past, octets: &[u8]) {
    let options = fault::options(octets);
    past.made(
        'O',
        octets,
        &format!("O {} {}", options.len(), sum(options)),
    );
}

/// "Z number length section-sum rest-sum".
pub fn write_call(past: &mut Past, parts: &Parts, buffer: usize) {
    assert!(buffer <= BUFFER_MOST, "no buffer of {buffer} octets");
    let mut octets = vec![FILL; buffer];
    let written = fault::write(parts, &mut octets);
    let (section, rest) = octets.split_at(written.length);
    let line = format!(
        "Z {} {} {} {}",
        written.number,
        written.length,
        sum(section),
        sum(rest)
    );
    past.made('Z', &calls::section(parts, buffer), &line);
}
