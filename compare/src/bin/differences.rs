//! Random and damaged inputs: state, every buffer and every answer compared after each call.
use compare::guarded::Guarded;
use compare::panel::{self, Lent};
use compare::random::Random;
use compare::reference::{self, Buffers, Seat, State, MNEMONICS};
use compare::tuned;

const CALLS: u64 = 1_200_000;

fn order(r: &mut Random, orders: u64, memory: u64) -> [u16; 4] {
    let mut cells = [0u16; 4];
    loop {
        // SET and the orders of general registers are frequent, so that short decks use both sets
        cells[0] = match r.below(32) {
            k @ 0..=7 => [9, 10, 17, 18, 21, 35, 35, 35][k as usize],
            _ => r.below(35) as u16 + 1,
        };
        // HALT ends a run, so it is seldom
        if cells[0] != 22 || r.chance(20) {
            break;
        }
    }
    let register = r.below(8) as u16;
    let at = match cells[0] {
        20 | 21 => r.below(orders + 1) as u16,
        _ => r.below(memory + 2) as u16,
    };
    match cells[0] {
        20 | 21 => (cells[1], cells[3]) = (register, at),
        2 | 3 | 6 | 8 | 12 | 14..=18 | 24 | 26 | 28 | 30 | 32 | 34 => {
            let index = if r.chance(2) { r.below(8) as u16 } else { 0 };
            // an index leaves it room
            let at = if index == 0 { at } else { at / 2 };
            (cells[1], cells[2], cells[3]) = (register, index, at);
        }
        19 | 35 => cells[2] = register % 2,
        22 => {}
        _ => (cells[1], cells[2]) = (register, r.below(8) as u16),
    }
    if r.chance(40) {
        cells[r.below(4) as usize] = (r.below(70_000) >> r.below(17)) as u16;
    }
    cells
}

/// Often an index, of which the upper halfword does not count, near the start of memory or near where a sum would wrap.
fn general(r: &mut Random) -> u32 {
    let upper = (r.next() as u32) << 16;
    match r.below(10) {
        0 => r.below(4) as u32,
        1..=6 => upper | r.below(16) as u32,
        7 => upper | 65_535 - r.below(40) as u32,
        _ => r.next() as u32,
    }
}

fn seat(r: &mut Random) -> Seat {
    let mut s = Seat::default();
    s.float = s.float.map(|_| r.float());
    s.general = s.general.map(|set| set.map(|_| general(r)));
    s.selector = r.below(2) as u32;
    s.code = [0, 1, 3][r.below(3) as usize];
    s.mask = r.below(2) as u32;
    s
}

fn state(r: &mut Random) -> State {
    State { seats: [seat(r), seat(r)], used: 0 }
}

/// A state that no call leaves behind, in either seat, whichever steps next; often one high bit is set above a legal value,
/// which a narrower word would not have.
fn wild(r: &mut Random, state: &mut State) {
    let s = &mut state.seats[r.below(2) as usize];
    match r.below(5) {
        0 => s.code = r.below(4) as u32 | 1 << r.below(32),
        1 => s.mask = r.below(2) as u32 | 1 << r.below(32),
        2 => state.used = r.next() as u32 >> r.below(32),
        3 => s.selector = r.below(2) as u32 | 1 << r.below(16),
        _ => s.pointer = r.next() as u16,
    }
}

/// The seat that a call is given: seldom one that there is not, and such a one is often 0 or 1 in a narrower word.
fn whose_turn(r: &mut Random) -> u32 {
    let seat = r.below(2) as u32;
    match r.below(40) {
        0 => seat | 2 << r.below(31),
        1 => u32::MAX - seat,
        _ => seat,
    }
}

/// A record of the form that no step wrote: any kind, either seat and either set, whatever set is selected now.
fn record(r: &mut Random, memory: u64) -> [u32; 4] {
    let kind = r.below(6);
    let status = r.below(65_536) >> r.below(17) | [0, 1, 3][r.below(3) as usize] << 16 | r.below(2) << 18;
    let place = match kind {
        0 => 0,
        1..=3 => r.below(8),
        _ => r.below(memory + 1),
    };
    let (left, right) = match kind {
        0 => (0, 0),
        2 | 5 => (r.next(), r.next()),
        _ => (r.next(), 0),
    };
    [status | kind << 19 | r.below(4) << 22, place, left, right].map(|word| word as u32)
}

/// Damages the record that a back step reads: another in its place, or one bit of its code, mask, kind, set, seat or above
/// them turned; now and then any word, too.
fn damage(r: &mut Random, s: &State, b: &mut Buffers) {
    let end = 4 * s.used as usize;
    if end == 0 || end > b.journal.len() {
        return;
    }
    let last = &mut b.journal[end - 4..end];
    if r.chance(3) {
        last[0] ^= 1 << (16 + r.below(16));
    } else {
        last.copy_from_slice(&record(r, b.memory.len() as u64));
    }
    if r.chance(6) {
        last[r.below(4) as usize] = r.next() as u32 >> r.below(32);
    }
}

/// Some bits set; often those past the end of memory, too, which change no answer.
fn protect_list(r: &mut Random, bytes: u64, memory: u64) -> Vec<u8> {
    let mut list: Vec<u8> = (0..bytes).map(|_| (0..8).fold(0, |b, k| b | (r.chance(12) as u8) << k)).collect();
    if memory % 8 > 0 && r.chance(2) {
        list.iter_mut().rev().take(1).for_each(|last| *last |= !0 << (memory % 8));
    }
    list
}

fn buffers(r: &mut Random) -> Buffers {
    let orders = r.below(12) + 1;
    let large = r.chance(2000);
    let memory = if large { 32_760 + r.below(16) } else { r.below(40) };
    let mut deck: Vec<u16> = (0..orders).flat_map(|_| order(r, orders, memory)).collect();
    let mut journal = r.below(120);
    let mut protect = memory.div_ceil(8);
    match r.below(200) {
        0 => deck.truncate(deck.len().saturating_sub(1)),
        1 => deck.push(7),
        2 => protect += 1,
        3 => protect = protect.saturating_sub(1),
        4 if large => journal = 16_380 + r.below(10),
        5 if large => deck.resize(16_384 + 4 * r.below(2) as usize, 0),
        _ => {}
    }
    Buffers {
        deck,
        memory: (0..memory).map(|_| if r.chance(3) { 0 } else { r.next() as u16 }).collect(),
        protect: protect_list(r, protect, memory),
        journal: (0..journal).map(|_| if r.chance(3) { r.next() as u32 } else { 0 }).collect(),
    }
}

/// Pairs of both seats and storage near one number, so that sums cancel and carry, or such that products stand at the limits.
fn alike(r: &mut Random, s: &mut State, memory: &mut [u16]) {
    let words = [r.float(), r.float()].map(u64::from);
    let number = words[0] << 32 | words[r.below(2) as usize];
    for pair in s.seats.iter_mut().flat_map(|seat| seat.float.chunks_exact_mut(2)) {
        let w = other(r, number);
        pair.copy_from_slice(&[(w >> 32) as u32, w as u32]);
    }
    for halfwords in memory.chunks_exact_mut(4) {
        let w = other(r, number);
        halfwords.copy_from_slice(&[(w >> 48) as u16, (w >> 32) as u16, (w >> 16) as u16, w as u16]);
    }
}

fn other(r: &mut Random, number: u64) -> u64 {
    if r.chance(3) {
        r.at_limit(number)
    } else {
        r.near(number)
    }
}

/// Calls on one machine until the budget of this machine is spent, each with the question why before it; how many were made.
fn machine(r: &mut Random) -> u64 {
    let mut b = buffers(r);
    let mut s = state(r);
    if !r.chance(4) {
        alike(r, &mut s, &mut b.memory);
    }
    if r.chance(10) {
        s.used = (b.journal.len() / 4) as u32;
    }
    let calls = 4 + r.below(60);
    for k in 0..calls {
        let (sound, call, seat) = (s, r.below(10), whose_turn(r));
        disturb(r, &mut s, &mut b, call < 3);
        ask(s, seat, &b);
        let mut lent = Lent::from(s);
        let mut memory = Guarded::new(&b.memory, 0xA5A5);
        let mut journal = Guarded::new(&b.journal, 0xA5A5_A5A5);
        let (ours, theirs) = match call {
            0 | 1 | 2 => (
                told(reference::back(&mut s, &mut b)),
                told(panel::back(&mut lent, memory.inner(), &b.protect, journal.inner())),
            ),
            3 => {
                let limit = if r.chance(3) { r.below(3) as u32 } else { r.below(200) as u32 };
                tuned_run(s, seat, &b, limit);
                (
                    reference::run(&mut s, seat, &mut b, limit),
                    panel::run(&mut lent, seat, &b.deck, memory.inner(), &b.protect, journal.inner(), limit),
                )
            }
            _ => {
                tuned_run(s, seat, &b, 1);
                (
                    (0, reference::step(&mut s, seat, &mut b)),
                    (0, panel::step(&mut lent, seat, &b.deck, memory.inner(), &b.protect, journal.inner())),
                )
            }
        };
        let same = ours == theirs && State::from(lent) == s && memory.is(&b.memory) && journal.is(&b.journal);
        assert!(
            same,
            "call {k} of seat {seat}: {ours:?} here, {theirs:?} in the panel library\n{s:?}\n{:?}\n{b:?}",
            State::from(lent)
        );
        // else every later call would be a 3 too
        if ours.1 == 3 {
            s = sound;
        }
    }
    calls
}

/// What a back step answers, as a run does: whose step it was, and 0 or the number of the stop.
fn told(whose: Result<u32, u8>) -> (u32, u8) {
    whose.map_or_else(|number| (0, number), |seat| (seat, 0))
}

/// What may happen between two calls; `back` if a back step comes next.
fn disturb(r: &mut Random, s: &mut State, b: &mut Buffers, back: bool) {
    while r.chance(20) {
        wild(r, s);
    }
    // most stops would come again at the same order
    for seat in &mut s.seats {
        if r.chance(3) {
            seat.pointer = r.below((b.deck.len() as u64 / 4).max(1)) as u16;
        }
    }
    if r.chance(60) && !b.journal.is_empty() {
        let at = r.below(b.journal.len() as u64) as usize;
        b.journal[at] = r.next() as u32 >> r.below(32);
    }
    if back && r.chance(8) {
        damage(r, s, b);
    }
}

/// Why the next step of a seat is stopped, asked of both; nothing is written.
fn ask(s: State, seat: u32, b: &Buffers) {
    let lent = Lent::from(s);
    let mut memory = Guarded::new(&b.memory, 0xA5A5);
    let mut journal = Guarded::new(&b.journal, 0xA5A5_A5A5);
    let ours = reference::why(&s, seat, b);
    let theirs = panel::why(&lent, seat, &b.deck, memory.inner(), &b.protect, journal.inner());
    let same = ours == theirs && State::from(lent) == s && memory.is(&b.memory) && journal.is(&b.journal);
    assert!(same, "why, seat {seat}: {ours:?} here, {theirs:?} in the panel library\n{s:?}\n{b:?}");
}

/// The tuned run is held to the reference too.
fn tuned_run(s: State, seat: u32, b: &Buffers, limit: u32) {
    let (mut one, mut other) = ((s, b.clone()), (s, b.clone()));
    let answers = (
        reference::run(&mut one.0, seat, &mut one.1, limit),
        tuned::run(&mut other.0, seat, &mut other.1, limit),
    );
    assert!(answers.0 == answers.1 && one == other, "{answers:?}: the tuned run of seat {seat} differs\n{s:?}\n{b:?}");
}

fn text(r: &mut Random) -> Vec<u8> {
    let mut t = b"op r1 r2 at\n".to_vec();
    let orders = if r.chance(500) { 4_000 } else { r.below(10) };
    for _ in 0..orders {
        let c = order(r, orders, 20);
        let name = MNEMONICS.get(c[0].wrapping_sub(1) as usize).unwrap_or(&"NO");
        t.extend(format!("{name} {} {} {}\n", c[1], c[2], c[3]).bytes());
    }
    if r.chance(2) {
        t.extend(b"\nat protect word\n");
        let mut at = 0;
        for _ in 0..r.below(10) {
            at += r.below(4);
            t.extend(format!("{at} {} {:04X}\n", r.below(2), r.next() as u16).bytes());
            at += (!r.chance(40)) as u64;
        }
    }
    for _ in 0..r.below(3) {
        let at = r.below(t.len() as u64) as usize;
        match r.below(5) {
            0 => t[at] = b" \n0123456789ABCDEFabLERSTop\r\t"[r.below(29) as usize],
            1 => drop(t.remove(at)),
            2 => t.insert(at, b" \n0"[r.below(3) as usize]),
            3 => t.truncate(at),
            _ => {}
        }
        if t.is_empty() {
            break;
        }
    }
    if r.chance(300) {
        t.resize(32_768 + r.below(3) as usize, b'\n');
    }
    t
}

fn reading(r: &mut Random) -> u64 {
    let t = text(r);
    let mut fill = |n: u64| (0..n).map(|_| r.next() as u16).collect::<Vec<u16>>();
    let (mut cells, mut memory) = (fill(40), fill(24));
    let mut protect: Vec<u8> = fill(3).iter().map(|x| *x as u8).collect();
    cells.truncate(if r.chance(4) { r.below(40) as usize } else { 40 });
    memory.truncate(if r.chance(4) { r.below(24) as usize } else { 24 });
    protect.truncate(if r.chance(4) { r.below(4) as usize } else { 3 });
    if r.chance(20) {
        cells.resize(17_000, 9);
    }
    let (mut c, mut m, mut p) = (Guarded::new(&cells, 0xA5A5), Guarded::new(&memory, 0xA5A5), Guarded::new(&protect, 0xA5));
    let theirs = panel::read(&t, c.inner(), m.inner(), p.inner());
    let mut tuned = (cells.clone(), memory.clone(), protect.clone());
    let quick = tuned::read(&t, &mut tuned.0, &mut tuned.1, &mut tuned.2);
    let ours = reference::read(&t, &mut cells, &mut memory, &mut protect);
    let same = ours == theirs && c.is(&cells) && m.is(&memory) && p.is(&protect);
    assert!(ours == quick && tuned == (cells, memory, protect), "the tuned reader differs:\n{}", String::from_utf8_lossy(&t));
    assert!(same, "{ours:?} here, {theirs:?} in the panel library:\n{}", String::from_utf8_lossy(&t));
    1
}

/// A piece of the chart of legal orders: any rank, often near the total or a block's end, into a buffer of any length.
fn charting(r: &mut Random) -> u64 {
    let n = match r.below(2000) {
        0 => 65_535 - r.below(3) as u16,
        1..=1500 => r.below(4) as u16,
        _ => r.below(40) as u16,
    };
    let total = 901 + 1040 * n as u64;
    let rank = match r.below(8) {
        0 => 0,
        1 => r.next() as u32,
        2 => (total + 2 - r.below(5)) as u32,
        3 => (64 * r.below(total / 64)) as u32,
        _ => r.below(total) as u32,
    };
    let length = match r.below(100) {
        0 => 4 * total.min(20_000),
        1..=79 => 4 * r.below(40),
        _ => r.below(160),
    };
    let mut cells: Vec<u16> = (0..length).map(|_| r.next() as u16).collect();
    let (mut lent, mut tuned) = (Guarded::new(&cells, 0xA5A5), cells.clone());
    let theirs = panel::chart(n, rank, lent.inner());
    let quick = tuned::chart(n, rank, &mut tuned);
    let ours = reference::chart(n, rank, &mut cells);
    assert!(ours == quick && tuned == cells, "the tuned chart differs: {n} {rank} {length}");
    assert!(ours == theirs && lent.is(&cells), "{ours:?} here, {theirs:?} in the panel library: {n} {rank} {length}");
    1
}

/// A deck in which most registers are loaded before they are read: loads of either set and without index, and now and then any
/// other order, in the second half more often; seldom damaged, or of a wrong length.
fn loaded(r: &mut Random) -> Vec<u16> {
    let orders = match r.below(400) {
        0 => 4_096,
        1..=10 => 0,
        11..=200 => r.below(12),
        _ => r.below(80),
    };
    let mut deck: Vec<u16> = (0..orders).flat_map(|p| {
        let register = r.below(8) as u16;
        let other = if 2 * p < orders { r.chance(10) } else { r.chance(2) };
        match r.below(24) {
            _ if other => sound(r, orders),
            0 => [35, 0, r.below(2) as u16, 0],
            1 => [20, r.below(8) as u16, 0, r.below(orders + 1) as u16],
            2 => [21, register, 0, r.below(orders + 1) as u16],
            // a square, which sets the second of an even pair
            3 => [31, register, register, 0],
            4..=10 => [2, register, 0, 0],
            _ => [17, register, 0, 0],
        }
    }).collect();
    if r.chance(20) && !deck.is_empty() {
        let at = r.below(deck.len() as u64) as usize;
        deck[at] = (r.below(70_000) >> r.below(17)) as u16;
    }
    match r.below(60) {
        0 => deck.truncate(deck.len() - r.below(4).min(orders) as usize),
        1 => deck.resize(16_384 + r.below(6) as usize, 0),
        _ => {}
    }
    deck
}

fn sound(r: &mut Random, orders: u64) -> [u16; 4] {
    loop {
        let cells = order(r, orders, 40);
        if reference::legal(cells) {
            return cells;
        }
    }
}

/// The first order that reads a register which may not be set; nothing is written.
fn questioning(r: &mut Random) -> u64 {
    let deck = loaded(r);
    let mut lent = Guarded::new(&deck, 0xA5A5);
    let theirs = panel::unset(lent.inner());
    let (ours, quick) = (reference::unset(&deck), tuned::unset(&deck));
    assert!(ours == quick, "{ours:?}, and in the tuned search {quick:?}: {deck:?}");
    assert!(ours == theirs && lent.is(&deck), "{ours:?} here, {theirs:?} in the panel library: {deck:?}");
    1
}

/// A deck in which jumps are seldom and most orders can be taken, so that runs come to a stop from 6 to 11 after some steps.
fn straight(r: &mut Random, memory: u64) -> Vec<u16> {
    let orders = if r.chance(300) { 4_096 } else { r.below(40) + 1 };
    let jumps = r.chance(12);
    (0..orders).flat_map(|_| loop {
        let cells = order(r, orders, memory);
        let often_stops = matches!(cells[0], 11..=14);
        let jump = matches!(cells[0], 20 | 21);
        if (!often_stops || r.chance(3)) && (!jump || jumps) && (reference::legal(cells) || r.chance(20)) {
            break cells;
        }
    }).collect()
}

/// The shortest stretch that still stops. State and memory are as they were after it, and the journal up to the used count, which
/// is often above 0; a refusal but 21 writes no word of it at all. The length that was found, where one was.
fn stretching(r: &mut Random) -> Option<u32> {
    let mut b = buffers(r);
    if r.chance(8) {
        b.memory.truncate(0);
        b.memory.resize(64, 0x4110);
        b.protect = vec![0; 8];
    }
    b.deck = straight(r, b.memory.len() as u64);
    if r.chance(3) {
        b.journal = (0..4 * r.below(60) + r.below(4)).map(|_| r.next() as u32).collect();
    }
    if r.chance(2) || b.deck.len() > 1_000 {
        b.journal.resize(16_384, 0);
    }
    let mut s = state(r);
    if !r.chance(3) {
        alike(r, &mut s, &mut b.memory);
    }
    let seat = whose_turn(r);
    s.used = r.below(b.journal.len() as u64 / 4 + 1).min(r.below(9)) as u32;
    for seat in &mut s.seats {
        seat.pointer = r.below(b.deck.len() as u64 / 4) as u16 >> r.below(8);
    }
    while r.chance(20) {
        wild(r, &mut s);
    }
    let lent = Lent::from(s);
    let mut memory = Guarded::new(&b.memory, 0xA5A5);
    let mut journal = Guarded::new(&b.journal, 0xA5A5_A5A5);
    let theirs = panel::stretch(&lent, seat, &b.deck, memory.inner(), &b.protect, journal.inner());
    let quick = tuned::stretch(&s, seat, &b);
    let before = b.clone();
    let ours = reference::stretch(&s, seat, &mut b);
    assert!(ours == quick, "{ours:?}, and in the tuned search {quick:?}, seat {seat}\n{s:?}\n{before:?}");
    let free = match theirs {
        Err(20 | 1..=3) => before.journal.len(),
        _ => 4 * s.used as usize,
    };
    let same = ours == theirs && State::from(lent) == s && memory.is(&before.memory) && journal.is_below(free, &before.journal);
    assert!(same, "stretch, seat {seat}: {ours:?} here, {theirs:?} in the panel library\n{s:?}\n{before:?}");
    ours.ok().map(|[first, last, _]| last - first + 1)
}

fn main() {
    let seed = std::env::args().nth(1).and_then(|s| s.parse().ok()).unwrap_or(20_261_115);
    let mut r = Random::new(seed);
    let mut lent = Lent::from(state(&mut r));
    panel::fresh(&mut lent);
    assert!(State::from(lent) == State::default());
    let (mut calls, mut texts, mut charts, mut searches) = (1, 0, 0, 0);
    let (mut stretches, mut found, mut long) = (0, 0, 0);
    while calls < CALLS {
        if r.chance(3) {
            texts += 1;
            calls += reading(&mut r);
        } else {
            calls += machine(&mut r);
        }
        if r.chance(2) {
            charts += 1;
            calls += charting(&mut r);
        }
        if r.chance(2) {
            searches += 1;
            calls += questioning(&mut r);
        }
        if r.chance(2) {
            let length = stretching(&mut r);
            calls += 1;
            stretches += 1;
            found += length.is_some() as u64;
            long += length.is_some_and(|n| n > 1) as u64;
        }
    }
    println!(
        "{calls} calls, {texts} of them texts, {charts} pieces of a chart, {searches} searches for registers that are not set, \
         {stretches} for the shortest stretch ({found} found, {long} of them of several orders), and before each other one the \
         question why: 0 differences (seed {seed})"
    );
}
