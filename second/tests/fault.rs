//! The fault section: both sides of each of its edges, with sections written
//! octet by octet from Table 9.

use second::fault::{bits_length, dead, error, options, read, write, Parts, Reading, Written};

const REFUSED: Reading = Reading {
    number: 24,
    modules: 0,
    errors: 0,
    options: 0,
    name: [0; 8],
};

/// A section's parts, any of which may be wrong.
#[derive(Clone)]
struct Section {
    modules: u32,
    bits: Vec<u8>,
    errors: u32,
    name: [u8; 8],
    list: Vec<(u16, u16)>,
    options: u32,
    area: Vec<u8>,
}

/// Two errors, five octets of options, and 33 modules, of which 1, 8, 9 and 33 are
/// dead: 4 + 8 + 4 + 8 + 8 + 4 + 5 = 41 octets.
fn raft() -> Section {
    Section {
        modules: 33,
        bits: vec![0x81, 1, 0, 0, 1, 0, 0, 0],
        errors: 2,
        name: *b"RAFT\0abc",
        list: vec![(33, 7), (1, 65_535)],
        options: 5,
        area: vec![9, 8, 7, 6, 5],
    }
}

/// No module, no error and no option, all of the name 0.
fn empty() -> Section {
    Section {
        modules: 0,
        bits: vec![],
        errors: 0,
        name: [0; 8],
        list: vec![],
        options: 0,
        area: vec![],
    }
}

impl Section {
    fn octets(&self) -> Vec<u8> {
        let mut octets = self.modules.to_be_bytes().to_vec();
        octets.extend(&self.bits);
        octets.extend(self.errors.to_be_bytes());
        octets.extend(self.name);
        for (module, error) in &self.list {
            octets.extend(module.to_be_bytes());
            octets.extend(error.to_be_bytes());
        }
        octets.extend(self.options.to_be_bytes());
        octets.extend(&self.area);
        octets
    }

    fn with(&self, change: impl Fn(&mut Section)) -> Section {
        let mut changed = self.clone();
        change(&mut changed);
        changed
    }

    fn modules(modules: u32, bits: &[u8]) -> Section {
        empty().with(|section| (section.modules, section.bits) = (modules, bits.to_vec()))
    }

    /// So many errors, each of module 1.
    fn errors(count: u32) -> Section {
        empty().with(|section| {
            (section.errors, section.list) = (count, vec![(1, 2); count as usize]);
        })
    }

    fn options(count: u32) -> Section {
        empty().with(|section| {
            (section.options, section.area) = (count, vec![255; count as usize]);
        })
    }

    /// The number that reading it gives; counts and name are those of its parts, or
    /// all 0.
    fn number(&self) -> u8 {
        let reading = read(&self.octets());
        let expected = match reading.number {
            0 => Reading {
                number: 0,
                modules: self.modules,
                errors: self.errors,
                options: self.options,
                name: self.name,
            },
            _ => REFUSED,
        };
        assert_eq!(reading, expected);
        reading.number
    }

    /// Writes it, bits and errors as they stand, into a buffer of so many octets
    /// 170: all of them, or none on a refusal, and nothing behind them.
    fn written(&self, buffer: usize) -> u8 {
        let numbers: Vec<u16> = self.list.iter().flat_map(|(m, e)| [*m, *e]).collect();
        let written = self.write(&numbers, buffer);
        written.number
    }

    fn write(&self, numbers: &[u16], buffer: usize) -> Written {
        let parts = Parts {
            modules: self.modules,
            bits: &self.bits,
            errors: numbers,
            name: self.name,
            options: &self.area,
        };
        let mut octets = vec![170; buffer];
        let written = write(&parts, &mut octets);
        let mut expected = vec![170; buffer];
        let mut length = 0;
        if written.number == 0 {
            let section = self.octets();
            length = section.len();
            expected[..length].copy_from_slice(&section);
        }
        assert_eq!(octets, expected);
        assert_eq!(written.length, length);
        written
    }
}

/// "L is (modules + 31) / 32 x 4, the division rounded down, so 33 modules give 8."
#[test]
fn l_by_02() {
    let lengths = [
        (0, 0),
        (1, 4),
        (7, 4),
        (8, 4),
        (9, 4),
        (31, 4),
        (32, 4),
        (33, 8),
        (64, 8),
        (65, 12),
        (10_592, 1_324),
        (10_593, 1_328),
        (4_294_967_264, 536_870_908),
        (4_294_967_265, 536_870_912),
        (4_294_967_295, 536_870_912),
    ];
    for (modules, length) in lengths {
        assert_eq!(bits_length(modules), length, "{modules}");
    }
}

#[test]
fn a_section_octet_by_octet() {
    let octets = [
        0, 0, 0, 33, // modules
        0x81, 1, 0, 0, 1, 0, 0, 0, // 1, 8, 9 and 33 are dead
        0, 0, 0, 2, // errors
        b'R', b'A', b'F', b'T', 0, b'a', b'b', b'c', // name
        0, 33, 0, 7, 0, 1, 255, 255, // module, error
        0, 0, 0, 5, // octets of options
        9, 8, 7, 6, 5,
    ];
    assert_eq!(raft().octets(), octets);
    assert_eq!(raft().number(), 0);
    for module in 0..=66 {
        let expected = [1, 8, 9, 33].contains(&module);
        assert_eq!(dead(&octets, module), expected, "module {module}");
    }
    assert!(!dead(&octets, u32::MAX));
    let errors = [0, 1, 2, 3, u32::MAX].map(|index| error(&octets, index));
    assert_eq!(errors, [(33, 7), (1, 65_535), (0, 0), (0, 0), (0, 0)]);
    assert_eq!(options(&octets), [9, 8, 7, 6, 5]);
    assert_eq!(raft().written(41), 0);
}

/// "The smallest section is 20 octets", all of them 0; and what is no section.
#[test]
fn the_empty_section_and_what_is_shorter_or_longer() {
    assert_eq!(empty().octets(), [0; 20]);
    assert_eq!(empty().number(), 0);
    for length in 0..=1_400 {
        let expected = if length == 20 { 0 } else { 24 };
        assert_eq!(read(&vec![0; length]).number, expected, "{length}");
    }
    let whole = raft().octets();
    for length in 0..whole.len() {
        assert_eq!(read(&whole[..length]), REFUSED, "{length}");
    }
    for more in [0, 1, 255] {
        assert_eq!(read(&[&whole[..], &[more]].concat()), REFUSED);
    }
}

/// Each place of the last word, on both sides of the count.
#[test]
fn bits_up_to_the_count_and_none_above() {
    for modules in [1u32, 7, 8, 9, 31, 32, 33, 64, 65] {
        let octets = (modules as usize).div_ceil(32) * 4;
        for bit in 0..8 * octets {
            let mut bits = vec![0; octets];
            bits[bit / 8] = 1 << (bit % 8);
            let section = Section::modules(modules, &bits);
            let within = bit < modules as usize;
            let expected = if within { 0 } else { 24 };
            assert_eq!(section.number(), expected, "{modules}, bit {bit}");
            assert_eq!(section.written(4_096), expected, "{modules}, bit {bit}");
            let found: Vec<u32> = (0..=100)
                .filter(|module| dead(&section.octets(), *module))
                .collect();
            let marked = [bit as u32 + 1];
            assert_eq!(found, marked[..usize::from(within)], "{modules}, bit {bit}");
        }
    }
    assert_eq!(Section::modules(32, &[255; 4]).number(), 0);
    assert_eq!(Section::modules(31, &[255; 4]).number(), 24);
    assert_eq!(Section::modules(31, &[255, 255, 255, 127]).number(), 0);
    assert_eq!(
        Section::modules(33, &[0, 0, 0, 0, 1, 0, 0, 128]).number(),
        24
    );
}

/// 1,344 less 20 is 1,324 octets of bits, or 331 words: 10,592 modules. One module
/// more is a word more.
#[test]
fn as_many_modules_as_fit() {
    let most = Section::modules(10_592, &[255; 1_324]);
    assert_eq!((most.octets().len(), most.number()), (1_344, 0));
    assert_eq!(most.written(1_344), 0);
    assert!(dead(&most.octets(), 10_592) && !dead(&most.octets(), 10_593));
    let more = Section::modules(10_593, &[0; 1_328]);
    assert_eq!((more.octets().len(), more.number()), (1_348, 24));
    assert_eq!((more.written(1_347), more.written(1_348)), (23, 24));
    // An error takes a word; so do 1 to 4 options: 330 words are 10,560 modules.
    let beside = |modules, octets, area| {
        Section::modules(modules, &vec![0; octets]).with(|section| {
            (section.errors, section.list) = (1, vec![(1, 1)]);
            (section.options, section.area) = (area, vec![0; area as usize]);
        })
    };
    assert_eq!(beside(10_560, 1_320, 0).number(), 0);
    assert_eq!(beside(10_561, 1_324, 0).number(), 24);
    assert_eq!(beside(10_560, 1_320, 1).number(), 24);
    assert_eq!(beside(10_528, 1_316, 4).number(), 0);
    assert_eq!(beside(10_528, 1_316, 5).number(), 24);
}

/// "331 without modules or options still fit": 20 + 4 x 331 = 1,344.
#[test]
fn as_many_errors_as_fit() {
    let lengths = [(0, 0), (1, 0), (330, 0), (331, 0), (332, 24)];
    for (count, number) in lengths {
        assert_eq!(Section::errors(count).number(), number, "{count}");
        assert_eq!(Section::errors(count).written(4_096), number, "{count}");
    }
    let one_option = Section::errors(331).with(|section| {
        (section.options, section.area) = (1, vec![0]);
    });
    assert_eq!(
        (one_option.octets().len(), one_option.number()),
        (1_345, 24)
    );
    let one_module = Section::errors(331).with(|section| {
        (section.modules, section.bits) = (1, vec![1, 0, 0, 0]);
    });
    assert_eq!(
        (one_module.octets().len(), one_module.number()),
        (1_348, 24)
    );
}

#[test]
fn as_many_options_as_fit() {
    for (count, number) in [(0, 0), (1, 0), (1_323, 0), (1_324, 0), (1_325, 24)] {
        let section = Section::options(count);
        assert_eq!(section.octets().len(), 20 + count as usize);
        assert_eq!(section.number(), number, "{count}");
        assert_eq!(section.written(4_096), number, "{count}");
        assert_eq!(options(&section.octets()).len(), count as usize);
    }
}

/// "4,294,967,295 modules, 1,073,741,824 errors do not wrap, they are 24."
#[test]
fn counts_that_would_wrap() {
    let modules = [
        4_294_967_264,
        4_294_967_265,
        4_294_967_266,
        4_294_967_295,
        2_147_483_648,
    ];
    for modules in modules {
        // With L 0, 4 or 8 these would be sections.
        for bits in [vec![], vec![0; 4], vec![0; 8]] {
            assert_eq!(Section::modules(modules, &bits).number(), 24, "{modules}");
        }
        let section = Section::modules(modules, &[]);
        assert_eq!(section.written(4_096), 23, "{modules}");
    }
    for (errors, listed) in [
        (1 << 30, 0),
        ((1 << 30) + 1, 1),
        (1 << 31, 0),
        (u32::MAX, 0),
    ] {
        let section = Section::errors(listed).with(|section| section.errors = errors);
        assert_eq!(section.number(), 24, "{errors}");
        // 16 + 4 x 2^30 is 16 only where it wraps.
        assert_eq!(error(&section.octets(), 1 << 30), (0, 0));
    }
    // 4 x (2^30 - 1) + 16 would wrap to 12, where the name ends.
    let in_the_name = empty().with(|section| {
        (section.errors, section.name) = ((1 << 30) - 1, [0, 0, 0, 0, 0, 0, 0, 4]);
    });
    assert_eq!(in_the_name.number(), 24);
    for count in [1, 4, 1_u32 << 31, 4_294_967_276, 4_294_967_280, u32::MAX] {
        let section = empty().with(|section| section.options = count);
        assert_eq!(section.number(), 24, "{count}");
    }
}

#[test]
fn counts_off_by_one() {
    let section = raft();
    assert_eq!(section.with(|s| s.options = 4).number(), 24);
    assert_eq!(section.with(|s| s.options = 6).number(), 24);
    assert_eq!(section.with(|s| s.options = 0).number(), 24);
    assert_eq!(section.with(|s| s.errors = 1).number(), 24);
    assert_eq!(section.with(|s| s.errors = 3).number(), 24);
    // 34 to 64 modules have the same L; 32 and 65 another.
    assert_eq!(section.with(|s| s.modules = 34).number(), 0);
    assert_eq!(section.with(|s| s.modules = 64).number(), 0);
    assert_eq!(section.with(|s| s.modules = 65).number(), 24);
    assert_eq!(section.with(|s| s.modules = 32).number(), 24);
}

/// "An error's module is 1 to 65,535 and may exceed the module count; 0 is 24. The
/// error's number and the name are any."
#[test]
fn errors_of_every_module_but_0() {
    let three = raft().with(|section| {
        (section.errors, section.list) = (3, vec![(1, 0), (2, 65_535), (65_535, 1)]);
    });
    assert_eq!((three.number(), three.written(45)), (0, 0));
    for place in 0..3 {
        let wrong = three.with(|section| section.list[place].0 = 0);
        assert_eq!((wrong.number(), wrong.written(45)), (24, 24), "{place}");
    }
    for module in [1, 255, 256, 65_535] {
        let section = Section::errors(1).with(|section| section.list[0] = (module, 0));
        assert_eq!((section.number(), section.written(24)), (0, 0), "{module}");
    }
    for name in [[0; 8], [255; 8], [1, 2, 3, 4, 5, 6, 7, 8]] {
        let section = raft().with(|section| section.name = name);
        assert_eq!((section.number(), section.written(41)), (0, 0));
    }
}

// Octets that are no section.

/// "an octet past the end counts as 0, octet by octet".
#[test]
fn parts_of_octets_that_end_early() {
    let whole = raft().octets();
    let module_8 = |length: usize| dead(&whole[..length], 8);
    assert_eq!(
        (module_8(3), module_8(4), module_8(5)),
        (false, false, true)
    );
    let first = |length: usize| error(&whole[..length], 0);
    // The error count's last octet is at 15, the first error at 24.
    assert_eq!((first(15), first(16)), ((0, 0), (0, 0)));
    assert_eq!((first(25), first(26)), ((0, 0), (33, 0)));
    assert_eq!((first(27), first(28)), ((33, 0), (33, 7)));
    let second = |length: usize| error(&whole[..length], 1);
    assert_eq!((second(31), second(32)), ((1, 0xff00), (1, 65_535)));
    let part = |length: usize| options(&whole[..length]).to_vec();
    assert_eq!((part(35), part(36)), (vec![], vec![]));
    assert_eq!((part(37), part(40)), (vec![9], vec![9, 8, 7, 6]));
    assert_eq!(options(&[&whole[..], &[1, 2]].concat()), [9, 8, 7, 6, 5]);
    assert_eq!((options(&[]), error(&[], 0)), (&[][..], (0, 0)));
    assert!(!dead(&[], 0) && !dead(&[], 1));
}

#[test]
fn parts_of_octets_with_great_counts() {
    let mut octets = [255; 20];
    // 2^32 - 1 modules: octet 19 has the bits of 121 to 128.
    assert!(dead(&octets, 1) && dead(&octets, 121) && dead(&octets, 128));
    assert!(!dead(&octets, 0) && !dead(&octets, 129) && !dead(&octets, u32::MAX));
    assert_eq!((error(&octets, 0), options(&octets)), ((0, 0), &[][..]));
    // 2^32 - 1 errors behind no modules: the first begins at octet 16.
    octets[..4].fill(0);
    assert_eq!(error(&octets, 0), (65_535, 65_535));
    assert_eq!(error(&octets, 1), (0, 0));
    assert_eq!(error(&octets, 1 << 30), (0, 0));
    assert_eq!(error(&octets, u32::MAX - 1), (0, 0));
    assert_eq!(
        (error(&octets, u32::MAX), options(&octets)),
        ((0, 0), &[][..])
    );
    // 2^32 - 1 options behind no errors: as far as there are octets.
    let octets = [&[0; 16][..], &[255; 4], &[1, 2, 3]].concat();
    assert_eq!(options(&octets), [1, 2, 3]);
}

// Writing.

#[test]
fn buffers_one_short_and_long() {
    for section in [
        empty(),
        raft(),
        Section::errors(331),
        Section::options(1_324),
    ] {
        let needed = section.octets().len();
        assert_eq!(section.written(needed - 1), 23, "{needed}");
        assert_eq!(section.written(needed), 0, "{needed}");
        assert_eq!(section.written(needed + 1), 0, "{needed}");
        assert_eq!(section.written(0), 23, "{needed}");
    }
}

/// "23 (buffer shorter than the section, in whole numbers, even above 1,344) comes
/// before 24."
#[test]
fn twenty_three_before_twenty_four() {
    let long = Section::options(1_325);
    assert_eq!((long.written(1_344), long.written(1_345)), (23, 24));
    let many = Section::errors(332);
    assert_eq!((many.written(1_347), many.written(1_348)), (23, 24));
    let of_module_0 = raft().with(|section| section.list[1].0 = 0);
    assert_eq!((of_module_0.written(40), of_module_0.written(41)), (23, 24));
    let marked = raft().with(|section| section.bits[7] = 128);
    assert_eq!((marked.written(40), marked.written(41)), (23, 24));
    // 4,294,967,295 modules need 20 + 536,870,912 octets.
    let modules = Section::modules(u32::MAX, &[]);
    assert_eq!(modules.written(4_096), 23);
}

/// The bits given are not L octets; what is needed goes by the module count.
#[test]
fn bits_of_another_length() {
    for length in [0, 1, 4, 7, 9, 12, 16] {
        let section = raft().with(|section| section.bits = vec![0; length]);
        assert_eq!(section.written(40), 23, "{length}");
        assert_eq!(section.written(41), 24, "{length}");
        assert_eq!(section.written(4_096), 24, "{length}");
    }
    assert_eq!(Section::modules(0, &[0]).written(20), 24);
    assert_eq!(Section::modules(0, &[0; 4]).written(4_096), 24);
    assert_eq!(Section::modules(0, &[]).written(20), 0);
}

/// 2 octets for each 16-bit number, odd in number or not.
#[test]
fn an_odd_number_of_numbers() {
    let number = |numbers: &[u16], buffer: usize| {
        let section = empty().with(|section| {
            section.errors = (numbers.len() / 2) as u32;
            section.list = numbers.chunks_exact(2).map(|n| (n[0], n[1])).collect();
        });
        section.write(numbers, buffer).number
    };
    assert_eq!((number(&[], 19), number(&[], 20)), (23, 0));
    assert_eq!((number(&[1], 21), number(&[1], 22)), (23, 24));
    assert_eq!((number(&[1, 0], 23), number(&[1, 0], 24)), (23, 0));
    assert_eq!((number(&[1, 0, 2], 25), number(&[1, 0, 2], 26)), (23, 24));
    assert_eq!((number(&[0, 1], 24), number(&[0], 22)), (24, 24));
}

/// "Reading gives back what was written, and writing what was read gives the same
/// octets."
#[test]
fn there_and_back() {
    let section = raft();
    let octets = section.octets();
    let reading = read(&octets);
    let bits: Vec<u8> = (0..8)
        .map(|octet| {
            let dead = (0..8).filter(|bit| dead(&octets, 8 * octet + bit + 1));
            dead.map(|bit| 1 << bit).sum()
        })
        .collect();
    let numbers: Vec<u16> = (0..reading.errors)
        .flat_map(|index| <[u16; 2]>::from(error(&octets, index)))
        .collect();
    let parts = Parts {
        modules: reading.modules,
        bits: &bits,
        errors: &numbers,
        name: reading.name,
        options: options(&octets),
    };
    let mut again = [0; 41];
    assert_eq!(write(&parts, &mut again).number, 0);
    assert_eq!(again, octets[..]);
}
