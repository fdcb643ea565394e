//! The scenes of random pasts: each makes a few calls that lead the receiver to
//! some edge of 01, whatever state it is in.

use crate::alive;
use crate::cut::{cut_piece, pieces, HeaderValues};
use crate::dice::Dice;
use crate::header::{self, Head, Place, HEADER};
use crate::numbers::{M, NEWER_MOST};
use crate::octets;
use crate::sections::{broken_section, good_section};
use crate::stage::Stage;
use crate::state::{Sender, Setup, CLOCK_MOST};

/// One scene.
pub type Scene = fn(&mut dyn Stage);

/// The deck. A scene that stands twice is played twice as often.
pub const SCENES: [Scene; 37] = [
    new_setup,
    new_setup,
    refused_setup,
    short_messages,
    joined_message,
    two_senders,
    two_senders,
    twelve_pieces,
    sixty_four_pieces,
    gap,
    restart,
    unchecked,
    version_nought,
    window_edges,
    ring_ends,
    newer_drops,
    other_version_drops,
    older_refused,
    came_round,
    came_round,
    half_the_ring,
    half_the_ring,
    unlike_open,
    held_twice,
    dropped_by_clock,
    dead_by_clock,
    clock_edges,
    clock_far,
    alive_modes,
    damaged_alive,
    broken_sections,
    damaged_pdu,
    test_message,
    stranger,
    length_edges,
    impossible_cut,
    noise,
];

/// A message that some sender means to send.
#[derive(Clone)]
pub struct Plan {
    pub values: HeaderValues,
    pub n: usize,
    pub u: usize,
}

impl Plan {
    pub fn pieces(&self) -> usize {
        pieces(self.n, self.u)
    }

    pub fn pdu(&self, piece: usize) -> Vec<u8> {
        let message: Vec<u8> = (0..self.n).map(|i| (i % 251) as u8).collect();
        let mut buffer = vec![0; 1_460];
        let answer = cut_piece(&self.values, &message, self.u, piece, &mut buffer);
        assert_eq!(answer.number, 0, "scenes plan messages that can be cut");
        buffer.truncate(answer.length);
        buffer
    }
}

/// The number `steps` after `seq` on the ring 1 to M.
pub fn after(seq: u32, steps: u64) -> u32 {
    ((u64::from(seq) - 1 + steps) % u64::from(M) + 1) as u32
}

/// The number `steps` before `seq` on the ring 1 to M.
pub fn before(seq: u32, steps: u64) -> u32 {
    after(seq, u64::from(M) - steps)
}

pub fn put(pdu: &mut [u8], place: Place, number: u64) {
    octets::write(pdu, place.start, place.size, number);
}

fn get(pdu: &[u8], place: Place) -> u64 {
    octets::read(pdu, place.start, place.size)
}

// ---- what the scenes share ----

pub fn any_seq(dice: &mut Dice) -> u32 {
    let far = dice.between(1, M.into()) as u32;
    dice.one_of(&[1, 2, 3, 100, 5_000, far, far, far, M - 1, M])
}

/// A version that is not 0, nor the sender's last or open one.
fn fresh_version(stage: &mut dyn Stage, at: usize) -> u32 {
    let sender = &stage.receiver().senders[at];
    let taken = [0, sender.last_version, sender.message.version];
    loop {
        let any = stage.dice().throw() as u32;
        let version = stage.dice().one_of(&[1, 2, 5, 6, u32::MAX, any]);
        if !taken.contains(&version) {
            return version;
        }
    }
}

/// A registered sender, by its place in the table.
pub fn any_sender(stage: &mut dyn Stage) -> usize {
    let count = stage.receiver().senders.len() as u64;
    stage.dice().below(count.max(1)) as usize
}

fn sender_at(stage: &dyn Stage, at: usize) -> &Sender {
    &stage.receiver().senders[at]
}

fn plan(stage: &mut dyn Stage, at: usize, version: u32, seq: u32) -> Plan {
    let sender = sender_at(stage, at);
    let (field, node) = (sender.field, sender.node);
    let dice = stage.dice();
    let values = HeaderValues {
        field,
        node,
        da: dice.one_of(&[0x0001_0001, 0, u32::MAX]),
        version,
        seq,
        m_ctl: dice.one_of(&[0x8000_0000, 0, u32::MAX]),
        tcd: dice.one_of(&[1, 2, 1_000, 59_999]),
        mode: header::ONLINE,
        pri: dice.below(8) as u8,
    };
    Plan {
        values,
        n: 10,
        u: 256,
    }
}

/// The same plan, with a message of one piece.
pub fn short(stage: &mut dyn Stage, plan: Plan) -> Plan {
    let any = stage.dice().below(1_397) as usize;
    let n = stage
        .dice()
        .one_of(&[0, 1, 255, 256, 257, 1_395, 1_396, any, any]);
    Plan {
        n,
        u: 1_396,
        ..plan
    }
}

/// The same plan, with a message of 2 to 6 pieces.
pub fn several(stage: &mut dyn Stage, plan: Plan) -> Plan {
    let dice = stage.dice();
    let any = dice.between(256, 1_396);
    let u = dice.one_of(&[256, 257, 1_332, 1_395, 1_396, any]);
    let whole = dice.between(1, 5) * u;
    let rest = dice.between(1, u);
    let n = whole + dice.one_of(&[1, 2, rest, u - 1, u]);
    Plan {
        n: n as usize,
        u: u as usize,
        ..plan
    }
}

/// One piece or several.
fn of_any_size(stage: &mut dyn Stage, plan: Plan) -> Plan {
    if stage.dice().one_in(2) {
        short(stage, plan)
    } else {
        several(stage, plan)
    }
}

pub fn send(stage: &mut dyn Stage, plan: &Plan, piece: usize) {
    stage.message(&plan.pdu(piece));
}

/// The pieces in random order, some of them twice.
pub fn order(dice: &mut Dice, pieces: usize) -> Vec<usize> {
    let mut order: Vec<usize> = (1..=pieces).collect();
    match dice.below(4) {
        0 => (),
        1 => order.reverse(),
        _ => dice.shuffle(&mut order),
    }
    for _ in 0..dice.below(4) {
        let again = dice.between(1, pieces as u64) as usize;
        let at = dice.below(order.len() as u64 + 1) as usize;
        order.insert(at, again);
    }
    order
}

fn send_all(stage: &mut dyn Stage, plan: &Plan) {
    for piece in order(stage.dice(), plan.pieces()) {
        send(stage, plan, piece);
    }
}

/// Sends some pieces of a message of several, but not all: it stays open.
fn send_some(stage: &mut dyn Stage, plan: &Plan) -> Vec<usize> {
    let mut pieces: Vec<usize> = (1..=plan.pieces()).collect();
    stage.dice().shuffle(&mut pieces);
    let some = stage.dice().between(1, plan.pieces() as u64 - 1) as usize;
    for piece in &pieces[..some] {
        send(stage, plan, *piece);
    }
    pieces
}

/// A sender with a last version not 0 and nothing open.
fn settled(stage: &mut dyn Stage) -> usize {
    let at = any_sender(stage);
    settle(stage, at);
    at
}

/// Gives the sender a last version not 0, and closes its open message.
pub fn settle(stage: &mut dyn Stage, at: usize) {
    let sender = sender_at(stage, at);
    if sender.open || sender.last_version == 0 {
        let version = fresh_version(stage, at);
        let seq = any_seq(stage.dice());
        let plan = plan(stage, at, version, seq);
        let plan = short(stage, plan);
        send(stage, &plan, 1);
    }
}

/// How far back a repeat may lie: 02, "0 to N1 - 1", each as likely.
pub fn any_age(stage: &mut dyn Stage) -> u64 {
    let n1 = u64::from(stage.receiver().n1);
    stage.dice().below(n1.max(1))
}

/// A plan under a settled sender's last version, `steps` after its last number.
pub fn following(stage: &mut dyn Stage, at: usize, steps: u64) -> Plan {
    let sender = sender_at(stage, at);
    let (version, last) = (sender.last_version, sender.last_number.max(1));
    plan(stage, at, version, after(last, steps))
}

pub fn tick(stage: &mut dyn Stage, ms: u64) {
    let now = stage.receiver().clock;
    stage.clock(now.saturating_add(ms));
}

// ---- setups ----

pub fn good_setup(stage: &mut dyn Stage) -> Setup {
    let (most, groups) = (stage.senders_most(), stage.groups());
    let dice = stage.dice();
    let count = dice.between(1, most) as usize;
    let mut senders = Vec::new();
    while senders.len() < count {
        let any = dice.between(1, 4_095) as u16;
        let node = dice.one_of(&[1, 2, 7, 9, 4_095, any]);
        let pair = (dice.one_of(&[1, 2, 255]), node);
        if !senders.contains(&pair) {
            senders.push(pair);
        }
    }
    Setup {
        mode: u8::from(dice.one_in(5)),
        n1: dice.one_of(&[1, 2, 16, 16, 16, 100, 1_024]),
        t: dice.one_of(&[1, 2, 1_000, 15_000, 15_000, 600_000]),
        senders,
        groups,
    }
}

pub fn new_setup(stage: &mut dyn Stage) {
    let setup = good_setup(stage);
    stage.setup(&setup);
}

pub fn refused_setup(stage: &mut dyn Stage) {
    let mut setup = good_setup(stage);
    let room = stage.senders_most() as usize - setup.senders.len();
    let dice = stage.dice();
    for _ in 0..dice.between(1, 2) {
        let last = setup.senders.len() - 1;
        match dice.below(6) {
            0 => setup.mode = dice.one_of(&[2, 3, 255]),
            1 => setup.n1 = dice.one_of(&[0, 1_025, 65_535]),
            2 => setup.t = dice.one_of(&[0, 600_001, u32::MAX]),
            3 => setup.senders[last].0 = 0,
            4 => setup.senders[last].1 = dice.one_of(&[0, 4_096, 65_535]),
            // A pair twice: two such turns need room for two more.
            _ if room >= 2 => setup.senders.push(setup.senders[0]),
            _ => setup.senders[last] = setup.senders[0],
        }
    }
    stage.setup(&setup);
}

/// Fields that meet the empty state.
pub fn before_setup(stage: &mut dyn Stage) {
    tick(stage, 5);
    stage.message(&[]);
    stage.message(&a_pdu_of_nobody());
    refused_setup(stage);
    tick(stage, 0);
    stage.clock(0u64);
    let alive = alive_pdu(stage.dice(), (1, 7), 1, 0, &[]);
    stage.alive(&alive);
}

pub fn a_pdu_of_nobody() -> Vec<u8> {
    let head = Head {
        ml: 64,
        field: 1,
        node: 7,
        version: 5,
        seq: 100,
        tcd: 1,
        cbn: 1,
        tbn: 1,
        bsize: 64,
        ..Head::fixed()
    };
    let mut pdu = vec![0; HEADER];
    header::write_head(&head, &mut pdu);
    pdu
}

// ---- messages that are joined and delivered ----

fn short_messages(stage: &mut dyn Stage) {
    let at = settled(stage);
    for _ in 0..stage.dice().between(1, 4) {
        let next = following(stage, at, 1);
        let next = short(stage, next);
        send(stage, &next, 1);
    }
}

fn joined_message(stage: &mut dyn Stage) {
    let at = settled(stage);
    let next = following(stage, at, 1);
    let next = several(stage, next);
    send_all(stage, &next);
    let late = stage.dice().between(1, next.pieces() as u64) as usize;
    send(stage, &next, late);
}

/// Two messages of two senders, their pieces in one another's midst, with clock
/// calls between them.
fn two_senders(stage: &mut dyn Stage) {
    let (one, other) = (settled(stage), settled(stage));
    let mut sent: Vec<(Plan, usize)> = Vec::new();
    for at in [one, other] {
        let next = following(stage, at, 1);
        let next = several(stage, next);
        let order = order(stage.dice(), next.pieces());
        let mut place = 0;
        for piece in order {
            place = stage.dice().between(place, sent.len() as u64);
            sent.insert(place as usize, (next.clone(), piece));
        }
    }
    for (plan, piece) in sent {
        if stage.dice().one_in(6) {
            let ms = stage.dice().below(400);
            tick(stage, ms);
        }
        send(stage, &plan, piece);
    }
}

fn twelve_pieces(stage: &mut dyn Stage) {
    longest(stage, 1_396);
}

fn sixty_four_pieces(stage: &mut dyn Stage) {
    if stage.dice().one_in(2) {
        longest(stage, 256);
    }
}

fn longest(stage: &mut dyn Stage, u: usize) {
    let at = settled(stage);
    let next = following(stage, at, 1);
    let next = Plan {
        n: 16_384,
        u,
        ..next
    };
    send_all(stage, &next);
}

// ---- the number check ----

fn gap(stage: &mut dyn Stage) {
    let at = settled(stage);
    let far = stage.dice().between(2, u64::from(M) - 2_000);
    let steps = stage.dice().one_of(&[2, 3, 4, far]);
    let ahead = following(stage, at, steps);
    let ahead = of_any_size(stage, ahead);
    send_all(stage, &ahead);
}

fn restart(stage: &mut dyn Stage) {
    let at = settled(stage);
    let version = fresh_version(stage, at);
    let seq = any_seq(stage.dice());
    let anew = plan(stage, at, version, seq);
    let anew = of_any_size(stage, anew);
    send_all(stage, &anew);
}

/// V_SEQ 0 with SEQ 1, again and again. "Delivery leaves RV and R", from which a
/// repeat is counted and the next number too.
fn unchecked(stage: &mut dyn Stage) {
    let at = any_sender(stage);
    for _ in 0..stage.dice().between(1, 3) {
        let free = plan(stage, at, 0, 1);
        let free = of_any_size(stage, free);
        send_all(stage, &free);
    }
    let age = any_age(stage);
    for steps in [u64::from(M) - age, 1] {
        let checked = following(stage, at, steps);
        send(stage, &checked, 1);
    }
}

/// V_SEQ 0 with SEQ not 1: the last version becomes 0, the next one is first.
fn version_nought(stage: &mut dyn Stage) {
    let at = settled(stage);
    for seq in [2, 2, 7, M] {
        let nought = plan(stage, at, 0, seq);
        send(stage, &nought, 1);
    }
    let version = fresh_version(stage, at);
    let first = plan(stage, at, version, 7);
    send(stage, &first, 1);
}

/// The repeats' window, on both sides of both its ends and within.
fn window_edges(stage: &mut dyn Stage) {
    let at = settled(stage);
    let n1 = u64::from(stage.receiver().n1);
    for _ in 0..4 {
        let age = any_age(stage);
        let sender = sender_at(stage, at);
        let (version, last) = (sender.last_version, sender.last_number.max(1));
        let edges = [
            last,
            before(last, age),
            before(last, n1 - 1),
            before(last, n1),
            before(last, n1 + 1),
            after(last, 1),
            after(last, 2),
        ];
        let seq = stage.dice().one_of(&edges);
        let edge = plan(stage, at, version, seq);
        let edge = of_any_size(stage, edge);
        send(stage, &edge, 1);
    }
}

/// Numbers on both sides of the ring's ends.
fn ring_ends(stage: &mut dyn Stage) {
    let at = settled(stage);
    let version = fresh_version(stage, at);
    let start = stage.dice().one_of(&[1, 2, 3, M - 2, M - 1, M]);
    let anew = plan(stage, at, version, start);
    send(stage, &anew, 1);
    for _ in 0..stage.dice().between(2, 6) {
        let steps = stage
            .dice()
            .one_of(&[1, 1, 1, 2, 3, u64::from(M) - 1, u64::from(M) - 4]);
        let near = following(stage, at, steps);
        let near = of_any_size(stage, near);
        send_all(stage, &near);
    }
}

// ---- drops and refusals beside an open message ----

/// Opens a message of several pieces and leaves it open.
pub fn open_one(stage: &mut dyn Stage, steps: u64) -> (usize, Plan, Vec<usize>) {
    let at = settled(stage);
    let opened = following(stage, at, steps);
    let opened = several(stage, opened);
    let pieces = send_some(stage, &opened);
    (at, opened, pieces)
}

fn newer_drops(stage: &mut dyn Stage) {
    let (_, opened, pieces) = open_one(stage, 1);
    let mut newer = opened.clone();
    newer.values.seq = after(newer.values.seq, 1);
    let newer = of_any_size(stage, newer);
    send(stage, &newer, 1);
    send(stage, &opened, pieces[0]);
    send_all(stage, &newer);
}

fn other_version_drops(stage: &mut dyn Stage) {
    let (at, opened, pieces) = open_one(stage, 1);
    let mut other = opened.clone();
    other.values.version = fresh_version(stage, at);
    if stage.dice().one_in(3) {
        (other.values.version, other.values.seq) = (0, 1);
    }
    let other = of_any_size(stage, other);
    send(stage, &other, 1);
    send(stage, &opened, pieces[0]);
    send_all(stage, &opened);
}

/// Numbers between the last delivered one and the open one; behind them repeats, of
/// age 0, any, N1 - 1, and what is no repeat any more.
fn older_refused(stage: &mut dyn Stage) {
    let (_, opened, pieces) = open_one(stage, 10);
    let (n1, age) = (u64::from(stage.receiver().n1), any_age(stage));
    for back in [1, 5, 9, 10, 10 + age, 9 + n1, 10 + n1] {
        let mut older = opened.clone();
        older.values.seq = before(older.values.seq, back);
        let older = of_any_size(stage, older);
        send(stage, &older, 1);
    }
    for piece in pieces {
        send(stage, &opened, piece);
    }
}

/// 02: "Cases: open M, 1 comes: replaced. Open 1, M comes: 18."
fn came_round(stage: &mut dyn Stage) {
    for _ in 0..2 {
        let first = stage.dice().one_of(&[M - 2, M - 1, M, 1, 2, 3]);
        newcomers(stage, first, |dice| {
            let steps = dice.between(1, 5);
            dice.one_of(&[steps, u64::from(M) - steps])
        });
    }
}

/// 02: "newer when (SEQ - open SEQ) modulo M is 1 to 1,073,741,823, and older when
/// it is larger."
fn half_the_ring(stage: &mut dyn Stage) {
    let most = NEWER_MOST;
    for _ in 0..2 {
        let any = any_seq(stage.dice());
        let first = stage
            .dice()
            .one_of(&[any, any, most, most + 1, most + 2, M]);
        newcomers(stage, first, |dice| {
            let most = u64::from(NEWER_MOST);
            let beside = dice.between(most - 2, most + 3);
            dice.one_of(&[most, most + 1, beside])
        });
    }
}

/// Opens a message under a version that the sender did not have, or under version
/// 0, so that no number is a repeat until one is delivered. Then others come, each
/// so many steps on from the one that was open, and behind each a piece of that
/// one: refused where it was dropped, joined where it stayed.
fn newcomers(stage: &mut dyn Stage, first: u32, steps: fn(&mut Dice) -> u64) {
    let at = settled(stage);
    let fresh = fresh_version(stage, at);
    let version = stage.dice().one_of(&[fresh, fresh, fresh, 0]);
    let opened = plan(stage, at, version, first);
    let mut opened = several(stage, opened);
    send(stage, &opened, 1);
    for _ in 0..3 {
        let seq = after(opened.values.seq, steps(stage.dice()));
        let newcomer = plan(stage, at, version, seq);
        let newcomer = of_any_size(stage, newcomer);
        send(stage, &newcomer, 1);
        send(stage, &opened, opened.pieces());
        let sender = sender_at(stage, at);
        if sender.open && sender.message.seq == seq {
            opened = newcomer;
        }
    }
}

/// The open message's version and number, but another code or cut.
fn unlike_open(stage: &mut dyn Stage) {
    let (_, opened, _) = open_one(stage, 1);
    for _ in 0..3 {
        let mut unlike = opened.clone();
        match stage.dice().below(5) {
            0 => unlike.values.tcd = 3,
            1 if unlike.n % unlike.u > 1 => unlike.n -= 1,
            2 => unlike.n = (unlike.n + unlike.u).min(16_384),
            3 => (unlike.n, unlike.u) = (700, 300),
            _ => unlike.n = 100,
        }
        let piece = stage.dice().between(1, unlike.pieces() as u64);
        send(stage, &unlike, piece as usize);
    }
    send_all(stage, &opened);
}

/// A piece once more, with other values that nobody compares.
fn held_twice(stage: &mut dyn Stage) {
    let (_, mut opened, pieces) = open_one(stage, 1);
    opened.values.pri = 7;
    opened.values.da ^= 1;
    opened.values.m_ctl ^= 1;
    send(stage, &opened, pieces[0]);
    for piece in pieces {
        send(stage, &opened, piece);
    }
}

// ---- clock and alive signals ----

/// Both sides of the drop time, sometimes with a piece that sets the stamp anew.
fn dropped_by_clock(stage: &mut dyn Stage) {
    let t = u64::from(stage.receiver().t);
    let (_, opened, pieces) = open_one(stage, 1);
    tick(stage, t - 1);
    if stage.dice().one_in(2) {
        let unheld = pieces[pieces.len() - 1];
        send(stage, &opened, unheld);
        tick(stage, t - 1);
    }
    tick(stage, 1);
    tick(stage, 0);
    send(stage, &opened, pieces[0]);
}

/// Both sides of a sender's time.
fn dead_by_clock(stage: &mut dyn Stage) {
    let at = any_sender(stage);
    let any = stage.dice().between(3, 200);
    let timeout = stage.dice().one_of(&[0, 1, 2, 60, any]);
    hear(stage, at, 1, timeout as u32);
    let ms = 1_000 * timeout;
    if ms > 0 {
        let early = stage.dice().below(ms);
        tick(stage, early);
        if stage.dice().one_in(3) {
            hear(stage, at, 1, timeout as u32);
            tick(stage, ms - 1);
        } else {
            tick(stage, ms - 1 - early);
        }
        tick(stage, 1);
    } else {
        tick(stage, 0);
    }
}

fn clock_edges(stage: &mut dyn Stage) {
    let ms = stage.dice().between(1, 100);
    tick(stage, ms);
    for _ in 0..3 {
        let now = stage.receiver().clock;
        let back = stage.dice().below(now.max(1));
        let edges = [
            now,
            now.saturating_sub(1),
            back,
            0,
            CLOCK_MOST + 1,
            u64::MAX,
        ];
        let ms = stage.dice().one_of(&edges);
        stage.clock(ms);
    }
}

/// The clock's limit, and a setup that brings it back to 0.
fn clock_far(stage: &mut dyn Stage) {
    if !stage.dice().one_in(3) {
        return;
    }
    let at = any_sender(stage);
    let timeout = stage
        .dice()
        .one_of(&[1_099_511_627, 1_099_511_628, u32::MAX]);
    hear(stage, at, 1, timeout);
    for ms in [CLOCK_MOST - 777, CLOCK_MOST + 1, CLOCK_MOST, CLOCK_MOST + 1] {
        stage.clock(ms);
    }
    new_setup(stage);
}

/// An alive signal with anything in the places that nobody looks at, and behind
/// its 128 octets these.
pub fn alive_pdu(
    dice: &mut Dice,
    from: (u8, u16),
    mode: u8,
    timeout: u32,
    section: &[u8],
) -> Vec<u8> {
    let size = (alive::ALIVE_LEAST + section.len()) as u16;
    let mut pdu: Vec<u8> = (0..alive::ALIVE_LEAST)
        .map(|_| dice.throw() as u8)
        .collect();
    let head = Head {
        ml: size.into(),
        field: from.0,
        node: from.1,
        da: dice.one_of(&[0, 0x0001_0000, 0xffff_0000]),
        version: dice.one_of(&[0, 5]),
        seq: dice.one_of(&[0, 1, 100, M, M + 1, u32::MAX]),
        m_ctl: 0x8000_0000,
        tcd: 60_003,
        mode: dice.below(2) as u16,
        pri: dice.below(8) as u8,
        cbn: 1,
        tbn: 1,
        bsize: size,
        ..Head::fixed()
    };
    header::write_head(&head, &mut pdu);
    put(&mut pdu, alive::AL_TM_OUT, timeout.into());
    put(&mut pdu, alive::AL_MODE, mode.into());
    put(&mut pdu, alive::AL_PROTOCOL, 4);
    put(&mut pdu, alive::AL_VER, 1);
    pdu.extend(section);
    pdu
}

/// With a fault section or without.
pub fn good_alive(stage: &mut dyn Stage, at: usize, mode: u8, timeout: u32) -> Vec<u8> {
    let section = match stage.dice().one_in(2) {
        true => good_section(stage.dice()),
        false => Vec::new(),
    };
    alive_of(stage, at, mode, timeout, &section)
}

/// Broken most of the time; now and then it is a section all the same.
pub fn broken_alive(stage: &mut dyn Stage, at: usize, mode: u8, timeout: u32) -> Vec<u8> {
    let section = broken_section(stage.dice());
    alive_of(stage, at, mode, timeout, &section)
}

fn alive_of(stage: &mut dyn Stage, at: usize, mode: u8, timeout: u32, section: &[u8]) -> Vec<u8> {
    let sender = sender_at(stage, at);
    let from = (sender.field, sender.node);
    alive_pdu(stage.dice(), from, mode, timeout, section)
}

pub fn hear(stage: &mut dyn Stage, at: usize, mode: u8, timeout: u32) {
    let pdu = good_alive(stage, at, mode, timeout);
    stage.alive(&pdu);
}

fn alive_modes(stage: &mut dyn Stage) {
    for _ in 0..4 {
        let at = any_sender(stage);
        let mode = stage.dice().between(1, 3) as u8;
        let timeout = stage.dice().one_of(&[0, 1, 60, u32::MAX]);
        hear(stage, at, mode, timeout);
        if stage.dice().one_in(3) {
            let ms = stage.dice().one_of(&[0, 999, 1_000, 60_000]);
            tick(stage, ms);
        }
    }
}

fn damaged_alive(stage: &mut dyn Stage) {
    for _ in 0..4 {
        let at = any_sender(stage);
        let mut pdu = good_alive(stage, at, 1, 60);
        for _ in 0..stage.dice().one_of(&[1, 1, 2]) {
            damage_alive(stage.dice(), &mut pdu);
        }
        stage.alive(&pdu);
    }
}

/// 02: "24 for a fault section that breaks these rules, after 22": in every mode,
/// at senders alive and dead, alone and with another number.
fn broken_sections(stage: &mut dyn Stage) {
    let at = any_sender(stage);
    hear(stage, at, 1, 60);
    for _ in 0..5 {
        let at = stage.dice().one_in(2).then_some(at);
        let at = at.unwrap_or_else(|| any_sender(stage));
        let mode = stage.dice().between(1, 3) as u8;
        let timeout = stage.dice().one_of(&[0, 1, 7]);
        let mut pdu = broken_alive(stage, at, mode, timeout);
        if stage.dice().one_in(5) {
            damage_alive(stage.dice(), &mut pdu);
        }
        stage.alive(&pdu);
    }
    tick(stage, 1);
}

/// Damages one thing that an alive call looks at.
fn damage_alive(dice: &mut Dice, pdu: &mut Vec<u8>) {
    let long = pdu.len() as u64;
    match dice.below(9) {
        0 => put(pdu, alive::AL_MODE, dice.one_of(&[0, 4, 255])),
        1 => put(pdu, alive::AL_PROTOCOL, dice.one_of(&[0, 3, 5])),
        2 => put(pdu, alive::AL_VER, dice.one_of(&[0, 2])),
        3 => put(pdu, header::DA, dice.one_of(&[1, 256, 0x0001_0001])),
        4 => put(pdu, header::ML, dice.one_of(&[long ^ 1, long + 1, 0])),
        5 => put(pdu, header::CBN, dice.one_of(&[0, 2])),
        6 => put(pdu, header::TBN, dice.one_of(&[0, 2])),
        7 => put(
            pdu,
            header::TCD,
            dice.one_of(&[0, 1, 60_002, 60_004, 65_535]),
        ),
        _ => match dice.below(3) {
            0 => resize(pdu, dice.one_of(&[0, 64, 127, 1_473, 2_000])),
            1 => pdu.push(0),
            _ => damage_header(dice, pdu),
        },
    }
}

/// Another length, with BSIZE and ML to match it.
pub fn resize(pdu: &mut Vec<u8>, length: usize) {
    pdu.resize(length, 0);
    put(pdu, header::BSIZE, length as u64);
    put(pdu, header::ML, length as u64);
}

// ---- damaged and strange PDUs ----

/// A PDU that would be stored or delivered.
fn good_pdu(stage: &mut dyn Stage) -> Vec<u8> {
    let at = settled(stage);
    let next = following(stage, at, 1);
    let next = of_any_size(stage, next);
    let piece = stage.dice().between(1, next.pieces() as u64);
    next.pdu(piece as usize)
}

/// A PDU that would be refused with 17, of any age.
fn repeated_pdu(stage: &mut dyn Stage) -> Vec<u8> {
    let at = settled(stage);
    let age = any_age(stage);
    let old = following(stage, at, u64::from(M) - age);
    let old = of_any_size(stage, old);
    let piece = stage.dice().between(1, old.pieces() as u64);
    old.pdu(piece as usize)
}

/// A good PDU, or now and then a repeat, so that other numbers come before 17.
pub fn good_or_repeated(stage: &mut dyn Stage) -> Vec<u8> {
    match stage.dice().one_in(3) {
        true => repeated_pdu(stage),
        false => good_pdu(stage),
    }
}

fn damaged_pdu(stage: &mut dyn Stage) {
    for _ in 0..6 {
        let mut pdu = good_or_repeated(stage);
        for _ in 0..stage.dice().one_of(&[1, 1, 2]) {
            damage_header(stage.dice(), &mut pdu);
        }
        stage.message(&pdu);
    }
}

/// Damages one place of the header: a chosen wrong value, or one bit.
pub fn damage_header(dice: &mut Dice, pdu: &mut [u8]) {
    let wrong = [
        (header::SEQ, 0),
        (header::SEQ, u64::from(M) + 1),
        (header::SEQ, u64::from(u32::MAX)),
        (header::TCD, 0),
        (header::TCD, 60_000),
        (header::TCD, 60_003),
        (header::TCD, 65_535),
        (header::MODE, 2),
        (header::MODE, 256),
        (header::PVER, 0),
        (header::PVER, 2),
        (header::PRI, 8),
        (header::PRI, 255),
    ];
    if dice.one_in(3) {
        let (place, number) = dice.one_of(&wrong);
        put(pdu, place, number);
        return;
    }
    let place = dice.one_of(&header::PLACES);
    let at = place.start + dice.below(place.size as u64) as usize;
    let bit = 1 << dice.below(8);
    if let Some(octet) = pdu.get_mut(at) {
        *octet ^= bit;
    }
}

/// Test messages: refused by an online node, taken by a test node, but for repeats.
fn test_message(stage: &mut dyn Stage) {
    let at = settled(stage);
    let back = u64::from(M) - any_age(stage);
    let steps = stage.dice().one_of(&[1, 1, back]);
    let mut next = following(stage, at, steps);
    next.values.mode = header::TEST;
    let next = of_any_size(stage, next);
    send_all(stage, &next);
}

/// PDUs from senders that are not registered.
fn stranger(stage: &mut dyn Stage) {
    for _ in 0..2 {
        let mut pdu = good_pdu(stage);
        let at = any_sender(stage);
        let mut signal = good_alive(stage, at, 1, 60);
        for pdu in [&mut pdu, &mut signal] {
            let node = get(pdu, header::SA_NODE);
            match stage.dice().below(4) {
                0 => put(pdu, header::SA_FIELD, stage.dice().one_of(&[0, 3, 254])),
                1 => put(pdu, header::SA_NODE, stage.dice().one_of(&[0, 3, 65_535])),
                2 => put(pdu, header::SA_NODE, node ^ 0x1000),
                _ => put(pdu, header::SA_DOMAIN, 1),
            }
        }
        stage.message(&pdu);
        stage.alive(&signal);
    }
}

/// Lengths on both sides of their limits, and unlike BSIZE.
fn length_edges(stage: &mut dyn Stage) {
    for _ in 0..4 {
        let mut pdu = good_pdu(stage);
        match stage.dice().below(4) {
            0 => resize(&mut pdu, stage.dice().one_of(&[64, 1_460, 1_461, 5_000])),
            1 => pdu.truncate(stage.dice().one_of(&[0, 1, 59, 60, 63])),
            2 => pdu.push(0),
            _ => {
                pdu.pop();
            }
        }
        stage.message(&pdu);
    }
}

/// Cuts on both sides of what is possible.
fn impossible_cut(stage: &mut dyn Stage) {
    for _ in 0..4 {
        let mut pdu = good_or_repeated(stage);
        let (ml, tbn) = (get(&pdu, header::ML), get(&pdu, header::TBN));
        let dice = stage.dice();
        match dice.below(6) {
            0 => put(&mut pdu, header::CBN, dice.one_of(&[0, tbn + 1, 255])),
            1 => put(
                &mut pdu,
                header::TBN,
                dice.one_of(&[0, tbn - 1, tbn + 1, 65, 255]),
            ),
            2 => put(
                &mut pdu,
                header::ML,
                dice.one_of(&[0, 63, 64, 16_449, u32::MAX.into()]),
            ),
            3 => put(&mut pdu, header::ML, dice.one_of(&[ml - 1, ml + 1])),
            4 => other_length(&mut pdu, dice.one_of(&[64, 65, 319, 320, 1_460])),
            _ => {
                let p = get(&pdu, header::BSIZE) - 64;
                let n = dice.one_of(&[tbn * p, tbn * p + 1, (tbn - 1) * p, (tbn - 1) * p + 1]);
                put(&mut pdu, header::ML, n + 64);
            }
        }
        stage.message(&pdu);
    }
}

/// Another length, with BSIZE to match it.
fn other_length(pdu: &mut Vec<u8>, length: usize) {
    pdu.resize(length, 0);
    put(pdu, header::BSIZE, length as u64);
}

/// Random octets, or a good PDU with some octets of its header changed.
fn noise(stage: &mut dyn Stage) {
    for _ in 0..3 {
        let mut pdu = good_pdu(stage);
        let dice = stage.dice();
        if dice.one_in(3) {
            let length = dice.below(200);
            pdu = (0..length).map(|_| dice.throw() as u8).collect();
        } else {
            for _ in 0..dice.between(1, 3) {
                let at = dice.below(64) as usize;
                pdu[at] = dice.throw() as u8;
            }
        }
        match dice.below(3) {
            2 => stage.alive(&pdu),
            _ => stage.message(&pdu),
        }
    }
}
