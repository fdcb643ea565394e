//! Alive signals and the clock: E.3.2's sample, the modes, both sides of each
//! time, and the maps.

mod common;

use common::{alive_of_node_2, figure_54, lay, receiver, sample_of_e_3_2};
use second::alive::alive;
use second::clock::clock;
use second::receiver::message;
use second::state::{setup, Groups, OpenMessage, Receiver, Setup, CLOCK_MOST};

/// An alive signal of node 2 with this al_mode and al_tm_out.
fn signal(mode: u8, seconds: u32) -> Vec<u8> {
    let mut packet = alive_of_node_2();
    packet[90] = mode;
    lay(&mut packet, 84, &seconds.to_be_bytes());
    packet
}

fn desk() -> Receiver {
    receiver(&[(1, 7), (1, 2)])
}

/// (number, dropped, dead)
fn at(state: &mut Receiver, ms: u64) -> (u8, u16, u16) {
    let answer = clock(state, ms);
    (answer.number, answer.dropped, answer.dead)
}

#[test]
fn the_sample_of_e_3_2_is_refused_for_its_group_alone() {
    let mut state = desk();
    assert_eq!(sample_of_e_3_2().len(), 128);
    assert_eq!(alive(&mut state, &sample_of_e_3_2()), 22);
    assert_eq!(state, desk());
    // With group 0: al_tm_out = 10 * 4 seconds.
    assert_eq!(alive(&mut state, &alive_of_node_2()), 0);
    assert_eq!(at(&mut state, 39_999), (0, 0, 0));
    assert_eq!(at(&mut state, 40_000), (0, 0, 0b10));
    assert_eq!(at(&mut state, 40_001), (0, 0, 0));
}

#[test]
fn never_heard_is_dead_and_not_called_dead() {
    let mut state = desk();
    assert_eq!(at(&mut state, CLOCK_MOST), (0, 0, 0));
    assert!(!state.senders[1].alive);
}

#[test]
fn modes_2_and_3_are_dead_from_then_on() {
    for mode in [2, 3] {
        let mut state = desk();
        state.clock = 5;
        assert_eq!(alive(&mut state, &signal(1, 1)), 0);
        let sender = &state.senders[1];
        assert_eq!(
            (sender.alive, sender.alive_stamp, sender.al_tm_out),
            (true, 5, 1)
        );
        assert_eq!(alive(&mut state, &signal(mode, 1)), 0);
        let sender = &state.senders[1];
        assert_eq!(
            (sender.alive, sender.alive_stamp, sender.al_tm_out),
            (false, 0, 0)
        );
        assert_eq!(at(&mut state, 60_000), (0, 0, 0));
        assert_eq!(alive(&mut state, &signal(1, 1)), 0);
        assert_eq!(at(&mut state, 61_000), (0, 0, 0b10));
    }
}

#[test]
fn a_new_signal_brings_a_new_stamp_and_time() {
    let mut state = desk();
    alive(&mut state, &signal(1, 10));
    assert_eq!(at(&mut state, 9_999), (0, 0, 0));
    alive(&mut state, &signal(1, 2));
    assert_eq!(at(&mut state, 11_998), (0, 0, 0));
    assert_eq!(at(&mut state, 11_999), (0, 0, 0b10));
}

#[test]
fn al_tm_out_0_is_dead_at_the_next_clock_call() {
    let mut state = desk();
    alive(&mut state, &signal(1, 0));
    assert!(state.senders[1].alive);
    assert_eq!(at(&mut state, 0), (0, 0, 0b10));
}

#[test]
fn long_times_are_reckoned_in_64_bits() {
    // 4,294,968 seconds are 704 ms past 2^32 ms.
    let mut state = desk();
    alive(&mut state, &signal(1, 4_294_968));
    assert_eq!(at(&mut state, 704), (0, 0, 0));
    assert_eq!(at(&mut state, 4_294_967_999), (0, 0, 0));
    assert_eq!(at(&mut state, 4_294_968_000), (0, 0, 0b10));
    alive(&mut state, &signal(1, u32::MAX));
    assert_eq!(at(&mut state, CLOCK_MOST), (0, 0, 0));
}

/// A fault section says nothing of the sender's life: the state is the same with
/// it and without.
#[test]
fn a_section_changes_nothing_of_what_is_heard() {
    for mode in [1, 2, 3] {
        let mut long = signal(mode, 9);
        // An empty section: 20 octets, each 0.
        long.resize(148, 0);
        (long[7], long[59]) = (148, 148);
        let (mut with, mut without) = (desk(), desk());
        for state in [&mut with, &mut without] {
            assert_eq!(alive(state, &signal(1, 5)), 0);
        }
        assert_eq!(alive(&mut with, &long), 0);
        assert_eq!(alive(&mut without, &signal(mode, 9)), 0);
        assert_eq!(with, without, "mode {mode}");
    }
}

/// A desk with drop time T and figure 54's message opened at ms 100.
fn opened(t: u32) -> Receiver {
    let wanted = Setup {
        mode: 0,
        n1: 16,
        t,
        senders: vec![(1, 2), (1, 7)],
        groups: Groups::default(),
    };
    let mut state = setup(&wanted).1;
    let mut storage = vec![0; 2 * 16_384];
    assert_eq!(at(&mut state, 100), (0, 0, 0));
    let answer = message(&mut state, &mut storage, &figure_54().pdu(3));
    assert_eq!(answer.number, 0);
    state
}

#[test]
fn messages_are_dropped_on_both_sides_of_t() {
    for t in [1, 15_000, 600_000] {
        let mut state = opened(t);
        let due = 100 + u64::from(t);
        assert_eq!(at(&mut state, due - 1), (0, 0, 0), "T {t}");
        assert!(state.senders[1].open);
        assert_eq!(at(&mut state, due), (0, 0b10, 0), "T {t}");
        assert!(!state.senders[1].open);
        assert_eq!(state.senders[1].message, OpenMessage::default());
        assert_eq!(at(&mut state, due), (0, 0, 0), "T {t}");
        let late = &mut opened(t);
        assert_eq!(at(late, CLOCK_MOST), (0, 0b10, 0), "T {t}");
    }
}

#[test]
fn a_later_piece_puts_off_the_drop() {
    let mut state = opened(15_000);
    let mut storage = vec![0; 2 * 16_384];
    assert_eq!(at(&mut state, 15_099), (0, 0, 0));
    message(&mut state, &mut storage, &figure_54().pdu(1));
    // A piece already held changes no stamp.
    assert_eq!(at(&mut state, 20_000), (0, 0, 0));
    message(&mut state, &mut storage, &figure_54().pdu(1));
    assert_eq!(at(&mut state, 30_098), (0, 0, 0));
    assert_eq!(at(&mut state, 30_099), (0, 0b10, 0));
}

#[test]
fn both_maps_of_sixteen_senders() {
    let senders: Vec<(u8, u16)> = (1..=16).map(|node| (1, node)).collect();
    let mut state = receiver(&senders);
    let mut storage = vec![0; 16 * 16_384];
    for node in [1, 5, 16] {
        let packet = figure_54().from(1, node).pdu(1);
        assert_eq!(message(&mut state, &mut storage, &packet).number, 0);
    }
    for node in [2u16, 16] {
        let mut packet = signal(1, 15);
        lay(&mut packet, 10, &node.to_be_bytes());
        assert_eq!(alive(&mut state, &packet), 0);
    }
    assert_eq!(at(&mut state, 14_999), (0, 0, 0));
    assert_eq!(at(&mut state, 15_000), (0, 0x8011, 0x8002));
    assert_eq!(at(&mut state, 15_000), (0, 0, 0));
}
