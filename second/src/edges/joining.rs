//! Section 5: joining.

use super::past::Past;

pub fn sections(past: &mut Past) {
    four_pieces(past);
    twelve_pieces(past);
    sixty_four_pieces(past);
    two_senders(past);
    drops(past);
    unlike_the_open_message(past);
    unchecked_of_several(past);
    the_kept_count(past);
}

fn four_pieces(past: &mut Past) {
    past.section("5.1 Four pieces");
    past.piece([1, 7, 5, 100, 1, 4_500, 1_332, 1]);
    past.ask();
    past.piece([1, 7, 5, 100, 1, 4_500, 1_332, 2]);
    past.piece([1, 7, 5, 100, 1, 4_500, 1_332, 3]);
    past.ask();
    past.piece([1, 7, 5, 100, 1, 4_500, 1_332, 4]);
    past.ask();
    past.piece([1, 7, 5, 100, 1, 4_500, 1_332, 3]);
    past.piece([1, 7, 5, 101, 1, 4_500, 1_332, 4]);
    past.piece([1, 7, 5, 101, 1, 4_500, 1_332, 4]);
    past.piece([1, 7, 5, 101, 1, 4_500, 1_332, 3]);
    past.piece([1, 7, 5, 101, 1, 4_500, 1_332, 2]);
    past.ask();
    past.piece([1, 7, 5, 101, 1, 4_500, 1_332, 3]);
    past.piece([1, 7, 5, 101, 1, 4_500, 1_332, 1]);
}

/// 12, 1, 11, 2, ..., 7, 6.
fn twelve_pieces(past: &mut Past) {
    past.section("5.2 Twelve pieces");
    for k in 1..=6 {
        past.piece([1, 7, 5, 100, 1, 16_384, 1_396, 13 - k]);
        past.piece([1, 7, 5, 100, 1, 16_384, 1_396, k]);
        past.ask();
    }
}

fn sixty_four_pieces(past: &mut Past) {
    past.section("5.3 Sixty-four pieces");
    for c in 1..=63 {
        past.piece([2, 9, 5, 99, 1, 16_384, 256, c]);
    }
    past.ask();
    for c in (1..=64).rev() {
        past.piece([2, 9, 5, 100, 1, 16_384, 256, c]);
    }
    past.ask();
}

fn two_senders(past: &mut Past) {
    past.section("5.4 Two senders");
    past.piece([2, 9, 5, 100, 1, 600, 256, 3]);
    past.ask();
    past.piece([1, 7, 5, 104, 1, 600, 256, 1]);
    past.ask();
    past.piece([1, 7, 5, 104, 1, 600, 256, 3]);
    past.piece([2, 9, 5, 100, 1, 600, 256, 1]);
    past.piece([1, 7, 5, 104, 1, 600, 256, 2]);
    past.ask();
    past.piece([2, 9, 5, 100, 1, 600, 256, 2]);
}

fn drops(past: &mut Past) {
    past.section("5.5 Drops");
    past.piece([1, 7, 5, 100, 1, 4_500, 1_332, 2]);
    past.piece([1, 7, 5, 101, 1, 4_500, 1_332, 1]);
    past.ask();
    past.piece([1, 7, 5, 100, 1, 4_500, 1_332, 1]);
    past.piece([1, 7, 6, 50, 1, 4_500, 1_332, 3]);
    past.piece([1, 7, 5, 101, 1, 4_500, 1_332, 4]);
    past.number(5, 102);
    past.ask();
    past.piece([1, 7, 5, 110, 1, 300, 256, 1]);
    past.piece([1, 7, 5, 102, 1, 300, 256, 1]);
    past.piece([1, 7, 5, 103, 1, 300, 256, 1]);
    past.number(5, 109);
    past.number(5, 112);
    past.piece([1, 7, 5, 2_147_483_647, 1, 300, 256, 1]);
    past.piece([1, 7, 5, 113, 1, 300, 256, 1]);
    past.piece([1, 7, 0, 1, 1, 300, 256, 2]);
    past.piece([1, 7, 0, 1, 1, 300, 256, 1]);
    past.show();
}

fn unlike_the_open_message(past: &mut Past) {
    past.section("5.6 Unlike the open message");
    past.piece([1, 7, 5, 100, 1, 4_500, 1_332, 2]);
    past.piece([1, 7, 5, 100, 2, 4_500, 1_332, 1]);
    past.piece([1, 7, 5, 100, 1, 4_501, 1_332, 1]);
    past.piece([1, 7, 5, 100, 1, 4_500, 1_333, 1]);
    past.piece([1, 7, 5, 100, 1, 4_500, 1_333, 4]);
    past.piece([1, 7, 5, 100, 1, 5_400, 1_332, 1]);
    past.piece([1, 7, 5, 100, 1, 4_500, 1_000, 1]);
    past.number(5, 100);
    past.piece([1, 7, 5, 100, 2, 4_500, 1_332, 2]);
    past.piece([1, 7, 5, 100, 1, 4_500, 1_332, 2]);
    past.raw(4_564, 1_396, 2, 4, 1_396);
    past.piece([1, 7, 5, 100, 1, 4_500, 1_332, 4]);
    past.piece([1, 7, 5, 100, 1, 4_500, 1_332, 1]);
    past.show();
    past.piece([1, 7, 5, 100, 1, 4_500, 1_332, 3]);
    past.piece([1, 7, 5, 100, 1, 4_500, 1_332, 3]);
}

fn unchecked_of_several(past: &mut Past) {
    past.section("5.7 Unchecked, of several pieces");
    past.piece([1, 7, 0, 1, 1, 300, 256, 2]);
    past.piece([1, 7, 0, 1, 1, 300, 256, 1]);
    past.piece([1, 7, 0, 1, 1, 300, 256, 1]);
    past.piece([1, 7, 0, 1, 2, 300, 256, 2]);
    past.piece([1, 7, 0, 1, 1, 300, 256, 1]);
    past.piece([1, 7, 0, 2, 1, 300, 256, 1]);
    past.piece([1, 7, 0, 1, 1, 300, 256, 1]);
    past.show();
    past.piece([1, 7, 0, 2, 1, 300, 256, 2]);
    past.show();
}

/// 02: "Keep the number in the open message's record." What each call leaves of
/// it.
fn the_kept_count(past: &mut Past) {
    past.section("5.8 The kept count");
    past.held_at(&[0, 1, 2, 15, 16, 255]);
    count_of_joins(past);
    count_beside_others(past);
    count_of_newcomers(past);
    count_of_deliveries(past);
    count_of_twelve(past);
    count_of_sixty_four(past);
    count_of_sixteen_senders(past);
}

/// One more with each piece that joins, and no more with one that is refused.
fn count_of_joins(past: &mut Past) {
    past.piece([1, 7, 5, 100, 1, 4_500, 1_332, 2]);
    past.held_at(&[0, 1, 2]);
    past.piece([1, 7, 5, 100, 1, 4_500, 1_332, 4]);
    past.held(0);
    past.show();
    let refused: [fn(&mut Past); 6] = [
        |past| past.piece([1, 7, 5, 100, 1, 4_500, 1_332, 4]),
        |past| past.piece([1, 7, 5, 99, 1, 4_500, 1_332, 1]),
        |past| past.piece([1, 7, 5, 100, 2, 4_500, 1_332, 1]),
        |past| past.raw(4_564, 1_396, 0, 4, 1_396),
        |past| past.laid(&[(20, 4, 0)]),
        |past| past.lend(0, 74),
    ];
    for call in refused {
        call(past);
        past.held(0);
    }
}

/// Another sender's piece, a signal and the time leave it as it is.
fn count_beside_others(past: &mut Past) {
    past.piece([2, 9, 5, 100, 1, 4_500, 1_332, 1]);
    past.held_at(&[0, 1, 2]);
    past.alive(1, 7, 1, 60);
    past.held_at(&[0, 1]);
    past.clock(1_000);
    past.held_at(&[0, 1]);
    past.piece([1, 7, 5, 100, 1, 4_500, 1_332, 1]);
    past.held_at(&[0, 1]);
}

/// Messages that replace the open one, and clock calls that drop it.
fn count_of_newcomers(past: &mut Past) {
    past.piece([1, 7, 5, 101, 1, 4_500, 1_332, 3]);
    past.held_at(&[0, 1]);
    past.show();
    past.piece([1, 7, 5, 101, 1, 4_500, 1_332, 1]);
    past.held(0);
    past.piece([1, 7, 6, 50, 1, 4_500, 1_332, 2]);
    past.held(0);
    past.piece([1, 7, 6, 50, 1, 4_500, 1_332, 1]);
    past.held(0);
    past.clock(15_999);
    past.held_at(&[0, 1]);
    past.clock(16_000);
    past.held_at(&[0, 1]);
    past.show();
}

fn count_of_deliveries(past: &mut Past) {
    for c in [4, 3, 2, 1] {
        past.piece([1, 7, 6, 50, 1, 4_500, 1_332, c]);
        past.held(0);
    }
    past.show();
    let calls: [fn(&mut Past); 7] = [
        |past| past.piece([1, 7, 6, 50, 1, 4_500, 1_332, 1]),
        |past| past.number(6, 51),
        |past| past.piece([1, 7, 6, 60, 1, 300, 256, 2]),
        |past| past.piece([1, 7, 6, 51, 1, 300, 256, 1]),
        |past| past.number(6, 61),
        |past| past.piece([1, 7, 0, 1, 1, 300, 256, 2]),
        |past| past.piece([1, 7, 0, 1, 1, 300, 256, 1]),
    ];
    for call in calls {
        call(past);
        past.held(0);
    }
    past.show();
}

fn count_of_twelve(past: &mut Past) {
    for k in 1..=6 {
        for c in [13 - k, k] {
            past.piece([1, 7, 7, 100, 1, 16_384, 1_396, c]);
            past.held(0);
        }
    }
}

/// 63 pieces from below, then from above.
fn count_of_sixty_four(past: &mut Past) {
    for c in 1..=63 {
        past.piece([2, 9, 5, 99, 1, 16_384, 256, c]);
        past.held(1);
    }
    past.show();
    for c in (1..=64).rev() {
        past.piece([2, 9, 5, 100, 1, 16_384, 256, c]);
        past.held(1);
    }
    past.show();
}

/// The last of sixteen places, and then none.
fn count_of_sixteen_senders(past: &mut Past) {
    past.setup([0, 16, 15_000, 16, 2, 8]);
    past.held_at(&[0, 15]);
    past.piece([16, 22, 5, 100, 1, 300, 256, 2]);
    past.held_at(&[0, 14, 15, 16, 255]);
    past.setup([0, 0, 15_000, 2, 2, 9]);
    past.held_at(&[0, 15, 255]);
}
