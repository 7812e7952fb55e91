//! Nanoseconds per step (or per byte of text, per order of the chart, per order of a deck that is searched), the proved library
//! beside the two plain implementations: all release builds, the same inputs, one run, the three sides alternating. The median
//! of the rounds counts.
use compare::panel::{self, Lent};
use compare::random::Random;
use compare::reference::{self, Buffers, Seat, State, MNEMONICS};
use compare::tuned;
use std::hint::black_box;
use std::time::Instant;

const ROUNDS: usize = 401;
const STEPS: u32 = 4_000;

struct Row {
    name: &'static str,
    unit: &'static str,
    /// the proved library, the reference, the tuned implementation
    times: [f64; 3],
    /// the reference's fastest and slowest tenth: how far the machine's own speed moves
    spread: [f64; 2],
}

impl Row {
    /// The proved library over the reference, and over the tuned implementation.
    fn ratios(&self) -> [f64; 2] {
        [self.times[0] / self.times[1], self.times[0] / self.times[2]]
    }
}

fn at(times: &mut [f64], tenths: usize) -> f64 {
    times.sort_by(f64::total_cmp);
    times[times.len() * tenths / 10]
}

/// The three sides in turn, the first one changing with each round; what a unit of work takes on each.
fn measure(name: &'static str, unit: &'static str, units: f64, sides: [&mut dyn FnMut(); 3]) -> Row {
    let mut times = [Vec::new(), Vec::new(), Vec::new()];
    for round in 0..ROUNDS {
        for k in 0..3 {
            let side = (round + k) % 3;
            let start = Instant::now();
            sides[side]();
            times[side].push(start.elapsed().as_nanos() as f64 / units);
        }
    }
    let spread = [at(&mut times[1], 1), at(&mut times[1], 9)];
    Row { name, unit, times: times.map(|mut t| at(&mut t, 5)), spread }
}

/// A deck whose last order jumps to the first: JN counts down from a large number.
fn looped(orders: &[[u16; 4]]) -> Vec<u16> {
    orders.iter().copied().chain([[21, 7, 0, 0]]).flatten().collect()
}

/// The large number that JN counts down from, in both sets of each seat.
fn counting(seats: [Seat; 2]) -> State {
    let mut s = State { seats, used: 0 };
    s.seats.iter_mut().flat_map(|seat| &mut seat.general).for_each(|set| set[7] = u32::MAX);
    s
}

/// A run of seat 0.
fn run(name: &'static str, orders: &[[u16; 4]], seat: Seat, memory: Vec<u16>) -> Row {
    let s = counting([seat, Seat::default()]);
    let n = memory.len();
    let b = Buffers { deck: looped(orders), memory, protect: vec![0; n.div_ceil(8)], journal: vec![0; 16_384] };
    let (mut c, mut d) = (b.clone(), b.clone());
    let (mut memory, mut journal) = (b.memory.clone(), b.journal.clone());
    let answers = [
        reference::run(&mut s.clone(), 0, &mut c.clone(), STEPS),
        tuned::run(&mut s.clone(), 0, &mut d.clone(), STEPS),
        panel::run(&mut Lent::from(s), 0, &b.deck, &mut memory.clone(), &b.protect, &mut journal.clone(), STEPS),
    ];
    assert_eq!(answers, [(STEPS, 0); 3]);
    measure(
        name,
        "ns/step",
        STEPS as f64,
        [
            &mut || {
                let mut lent = Lent::from(black_box(s));
                black_box(panel::run(&mut lent, black_box(0), &b.deck, &mut memory, &b.protect, &mut journal, STEPS));
                black_box(&lent);
            },
            &mut || {
                let mut s = black_box(s);
                black_box(reference::run(&mut s, black_box(0), &mut c, STEPS));
                black_box(&s);
            },
            &mut || {
                let mut s = black_box(s);
                black_box(tuned::run(&mut s, black_box(0), &mut d, STEPS));
                black_box(&s);
            },
        ],
    )
}

/// A call for each step on the plain sides too: the panel library is called through C's conventions and cannot be inlined.
#[inline(never)]
fn plain_step(s: &mut State, seat: u32, b: &mut Buffers) -> u8 {
    reference::step(s, seat, b)
}

#[inline(never)]
fn tuned_step(s: &mut State, seat: u32, b: &mut Buffers) -> (u32, u8) {
    tuned::run(s, seat, b, 1)
}

/// Single calls, as a step key makes them: of one user, at seat 0, or of two in turn.
fn stepping(name: &'static str, orders: &[[u16; 4]], users: &[Seat], memory: Vec<u16>) -> Row {
    let mut seats = [Seat::default(); 2];
    seats[..users.len()].copy_from_slice(users);
    let (s, last) = (counting(seats), users.len() as u32 - 1);
    let n = memory.len();
    let b = Buffers { deck: looped(orders), memory, protect: vec![0; n.div_ceil(8)], journal: vec![0; 16_384] };
    let (mut c, mut d) = (b.clone(), b.clone());
    let (mut memory, mut journal) = (b.memory.clone(), b.journal.clone());
    measure(
        name,
        "ns/call",
        STEPS as f64,
        [
            &mut || {
                let (mut lent, last) = (Lent::from(black_box(s)), black_box(last));
                for k in 0..STEPS {
                    assert_eq!(panel::step(&mut lent, k & last, &b.deck, &mut memory, &b.protect, &mut journal), 0);
                }
                black_box(&lent);
            },
            &mut || {
                let (mut s, last) = (black_box(s), black_box(last));
                for k in 0..STEPS {
                    assert_eq!(plain_step(&mut s, k & last, &mut c), 0);
                }
                black_box(&s);
            },
            &mut || {
                let (mut s, last) = (black_box(s), black_box(last));
                for k in 0..STEPS {
                    assert_eq!(tuned_step(&mut s, k & last, &mut d), (1, 0));
                }
                black_box(&s);
            },
        ],
    )
}

fn floats(r: &mut Random, mask: u32) -> Seat {
    let mut s = Seat::default();
    for k in 0..8 {
        // near one, so that no quotient leaves the range
        s.float[k] = 0x4100_0000 | r.next() as u32 & mask | 1;
    }
    s
}

fn words(r: &mut Random, mask: u32) -> Vec<u16> {
    (0..32).flat_map(|_| {
        let w = 0x4100_0000 | r.next() as u32 & mask | 1;
        [(w >> 16) as u16, w as u16]
    }).collect()
}

fn text(r: &mut Random) -> Vec<u8> {
    let mut t = b"op r1 r2 at\n".to_vec();
    loop {
        let code = r.below(34) as usize;
        let (a, b) = (r.below(8), r.below(8));
        let line = match code + 1 {
            1 | 4 | 5 | 7 | 9 | 10 | 11 | 13 | 23 | 25 | 27 | 29 | 31 | 33 => format!("{} {a} {b} 0\n", MNEMONICS[code]),
            19 => format!("UM 0 {} 0\n", b % 2),
            22 => "HALT 0 0 0\n".to_string(),
            _ => format!("{} {a} 0 {}\n", MNEMONICS[code], r.below(4_000)),
        };
        if t.len() + line.len() > 24_000 {
            break;
        }
        t.extend(line.bytes());
    }
    t.extend(b"\nat protect word\n");
    for at in 0.. {
        let line = format!("{at} {} {:04X}\n", r.below(2), r.next() as u16);
        if t.len() + line.len() > 32_768 {
            break;
        }
        t.extend(line.bytes());
    }
    t
}

fn reading(r: &mut Random) -> Row {
    type Lent = (Vec<u16>, Vec<u16>, Vec<u8>);
    let t = text(r);
    let blank: Lent = (vec![0; 16_384], vec![0; 4_096], vec![0; 512]);
    let (mut a, mut b, mut c) = (blank.clone(), blank.clone(), blank);
    let answers = [
        panel::read(&t, &mut a.0, &mut a.1, &mut a.2),
        reference::read(&t, &mut b.0, &mut b.1, &mut b.2),
        tuned::read(&t, &mut c.0, &mut c.1, &mut c.2),
    ];
    assert!(answers[0].is_ok() && answers[0] == answers[1] && answers[0] == answers[2] && a == b && a == c);
    measure(
        "(g) a deck text of 32 KiB",
        "ns/byte",
        t.len() as f64,
        [
            &mut || assert!(panel::read(black_box(&t), &mut a.0, &mut a.1, &mut a.2).is_ok()),
            &mut || assert!(reference::read(black_box(&t), &mut b.0, &mut b.1, &mut b.2).is_ok()),
            &mut || assert!(tuned::read(black_box(&t), &mut c.0, &mut c.1, &mut c.2).is_ok()),
        ],
    )
}

/// The whole chart of legal orders for a bound, into a buffer that holds it.
fn charting(name: &'static str, bound: u16) -> Row {
    let orders = 901 + 1040 * bound as usize;
    let blank = vec![0u16; 4 * orders];
    let (mut a, mut b, mut c) = (blank.clone(), blank.clone(), blank);
    let whole = Ok((orders as u32, orders as u32));
    let answers = [panel::chart(bound, 0, &mut a), reference::chart(bound, 0, &mut b), tuned::chart(bound, 0, &mut c)];
    assert!(answers == [whole; 3] && a == b && a == c);
    measure(
        name,
        "ns/order",
        orders as f64,
        [
            &mut || assert_eq!(panel::chart(black_box(bound), 0, &mut a), whole),
            &mut || assert_eq!(reference::chart(black_box(bound), 0, &mut b), whole),
            &mut || assert_eq!(tuned::chart(black_box(bound), 0, &mut c), whole),
        ],
    )
}

/// The search of a deck for registers read before they are set.
fn searching(name: &'static str, orders: &[[u16; 4]], found: [u32; 3]) -> Row {
    let deck: Vec<u16> = orders.iter().copied().flatten().collect();
    let found = Ok(Some(found));
    assert_eq!([panel::unset(&deck), reference::unset(&deck), tuned::unset(&deck)], [found; 3]);
    measure(
        name,
        "ns/order",
        orders.len() as f64,
        [
            &mut || assert_eq!(panel::unset(black_box(&deck)), found),
            &mut || assert_eq!(reference::unset(black_box(&deck)), found),
            &mut || assert_eq!(tuned::unset(black_box(&deck)), found),
        ],
    )
}

/// What the search for the shortest stretch takes longest on: only the whole deck stops, at its last order, and each trial takes
/// all orders before it. With what it finds.
fn worst_stretch(orders: u32) -> (State, Buffers, Result<[u32; 3], u8>) {
    // only UM makes the last order, a product below every characteristic, a 10
    let middle = [[2, 1, 0, 4], [23, 1, 2, 0], [15, 1, 0, 6], [5, 1, 2, 0], [10, 3, 1, 0], [18, 1, 0, 8]];
    let between = middle.into_iter().cycle().take(orders as usize - 2);
    let deck = [[19, 0, 1, 0]].into_iter().chain(between).chain([[32, 0, 0, 0]]).flatten().collect();
    let memory = vec![0x0110, 0, 0x4120, 0, 0x4130, 0, 0, 0, 0, 0];
    let mut seat = Seat::default();
    seat.float[0] = 0x0110_0000;
    let b = Buffers { deck, memory, protect: vec![0; 2], journal: vec![0; 16_384] };
    (State { seats: [seat, Seat::default()], used: 0 }, b, Ok([0, orders - 1, 10]))
}

/// A step here is one that is taken and taken back.
fn stretching(name: &'static str, orders: u32) -> Row {
    let (s, b, found) = worst_stretch(orders);
    let mut c = b.clone();
    let (mut memory, mut journal) = (b.memory.clone(), b.journal.clone());
    let lent = Lent::from(s);
    measure(
        name,
        "ns/step",
        (orders * (orders - 1) / 2) as f64,
        [
            &mut || {
                let lent = black_box(lent);
                assert_eq!(panel::stretch(&lent, 0, &b.deck, &mut memory, &b.protect, &mut journal), found);
            },
            &mut || assert_eq!(reference::stretch(black_box(&s), 0, &mut c), found),
            &mut || assert_eq!(tuned::stretch(black_box(&s), 0, &b), found),
        ],
    )
}

/// The same search on the largest deck, once, in seconds.
fn largest_stretch() -> f64 {
    let (s, mut b, found) = worst_stretch(4_096);
    let lent = Lent::from(s);
    let start = Instant::now();
    assert_eq!(panel::stretch(&lent, 0, &b.deck, &mut b.memory, &b.protect, &mut b.journal), found);
    start.elapsed().as_secs_f64()
}

/// 4,096 orders that load and use half of the registers, with loops and both sets; the last one reads one of the other half.
fn half_used() -> Vec<[u16; 4]> {
    let loop_of = |p: u16| {
        [
            [17, 1, 0, 0],
            [35, 0, p / 16 % 2, 0],
            [17, 1, 0, 0],
            [17, 2, 1, 4],
            [2, 0, 1, 8],
            [3, 2, 0, 12],
            [23, 0, 3, 0],
            [20, 4, 0, p + 9],
            [25, 0, 2, 0],
            [33, 2, 2, 0],
            [9, 3, 0, 0],
            [10, 1, 3, 0],
            [5, 0, 1, 0],
            [20, 2, 0, p + 4],
            [16, 2, 2, 16],
            [21, 2, 0, p + 3],
        ]
    };
    let mut deck: Vec<[u16; 4]> = (0..256).flat_map(|k| loop_of(16 * k)).collect();
    deck[4_095] = [1, 0, 7, 0];
    deck
}

/// 4,096 orders of which most are taken up once for each register: before them the deck branches into a part for each, and that
/// part loads every register but this one.
fn one_by_one() -> Vec<[u16; 4]> {
    const PART: u16 = 27;
    let start = |k: u16| 24 + PART * k;
    let tail = start(24);
    let mut deck: Vec<[u16; 4]> = (0..24).map(|k| [20, 7, 0, start(k)]).collect();
    for k in 0..24 {
        deck.extend((0..8).map(|r| if r == k { [19, 0, 0, 0] } else { [2, r, 0, 0] }));
        for set in [1, 0] {
            deck.push([35, 0, set, 0]);
            deck.extend((0..8).map(|r| if 8 + 8 * set + r == k { [19, 0, 0, 0] } else { [17, r, 0, 0] }));
        }
        deck.push([20, 7, 0, tail]);
    }
    deck.push([20, 7, 0, tail + 2]);
    deck.push([35, 0, 1, 0]);
    // either set, in jumps that lead back
    deck.extend((deck.len() as u16..4_095).map(|p| [20, 7, 0, p - 1]));
    deck.push([18, 7, 0, 0]);
    deck
}

fn drawn(rows: &[Row]) -> String {
    let height = 82 + 50 * rows.len();
    let mut out = format!(
        "<svg xmlns=\"http://www.w3.org/2000/svg\" width=\"720\" height=\"{height}\" font-family=\"sans-serif\" font-size=\"13\">\n\
         <rect width=\"720\" height=\"{height}\" fill=\"white\"/>\n\
         <text x=\"16\" y=\"24\" font-size=\"15\">Time of the proved library (1.0 = the same; shorter is faster)</text>\n\
         <rect x=\"16\" y=\"36\" width=\"12\" height=\"12\" fill=\"#4477aa\"/><text x=\"34\" y=\"47\">against plain Rust</text>\n\
         <rect x=\"176\" y=\"36\" width=\"12\" height=\"12\" fill=\"#ccbb44\"/><text x=\"194\" y=\"47\">against Rust tuned by hand</text>\n",
    );
    let scale = 220.0;
    for (k, r) in rows.iter().enumerate() {
        let y = 62 + 50 * k;
        out += &format!("<text x=\"16\" y=\"{}\">{}</text>\n", y + 24, r.name);
        for (i, (ratio, colour)) in r.ratios().into_iter().zip(["#4477aa", "#ccbb44"]).enumerate() {
            let (top, width) = (y + 20 * i, (ratio * scale).min(430.0));
            out += &format!("<rect x=\"270\" y=\"{top}\" width=\"{width:.1}\" height=\"17\" fill=\"{colour}\"/>\n");
            out += &format!("<text x=\"{:.1}\" y=\"{}\">{ratio:.2}</text>\n", 276.0 + width, top + 13);
        }
    }
    let x = 270.0 + scale;
    out += &format!("<line x1=\"{x}\" y1=\"56\" x2=\"{x}\" y2=\"{}\" stroke=\"#cc3311\" stroke-dasharray=\"4 3\"/>\n</svg>\n", height - 16);
    out
}

fn main() {
    let r = &mut Random::new(7);
    let mixed = [
        [2, 0, 0, 0],
        [12, 0, 0, 2],
        [9, 1, 0, 0],
        [10, 1, 1, 0],
        [15, 1, 0, 40],
        [5, 0, 1, 0],
        [20, 7, 0, 7],
        [17, 2, 0, 4],
        [21, 2, 0, 9],
        [18, 2, 0, 44],
        [3, 2, 0, 8],
        [16, 2, 0, 48],
        [4, 4, 2, 0],
        [19, 0, 1, 0],
    ];
    // divisors a little above and a little below one, so that no quotient leaves the range; the long ones unnormalised
    let shorts: Vec<[u16; 4]> = (0..12).map(|k| [11, k % 6, 6 + k % 2, 0]).collect();
    let longs: Vec<[u16; 4]> = (0..12).map(|k| [14, k % 3 * 2, 0, k % 2 * 4]).collect();
    let mut near_one = floats(r, 0x80ff_ffff);
    (near_one.float[6], near_one.float[7]) = (0x4110_0003, 0x40ff_fffb);
    let unnormalised = vec![0x4201, 0, 0, 0x1234, 0x4200, 0xffff, 0xffff, 0x4321];
    // long operands of several characteristics, so that one of two is moved
    let short_compares: Vec<[u16; 4]> = (0..12).map(|k| [5, k % 8, (k + 3) % 8, 0]).collect();
    let long_compares: Vec<[u16; 4]> = (0..12).map(|k| [7, k % 8, (k + 3) % 8, 0]).collect();
    let moves: Vec<[u16; 4]> =
        (0..12).map(|k| [[2, 15, 3, 16, 17, 18][k as usize % 6], k % 6, 0, k * 4]).collect();
    // the same through index registers, whose upper halfwords do not count
    let indexed_moves: Vec<[u16; 4]> = moves.iter().map(|o| [o[0], o[1], 1 + o[1] % 3, o[3]]).collect();
    let mut indexed = floats(r, 0x80ff_ffff);
    indexed.general[0][1..4].copy_from_slice(&[0x7fff_0004, 0x8000_0008, 0xffff_000c]);
    // what an add puts on is a little more than what a subtract takes off, so that the sums walk slowly, some through zero
    let short_sums: Vec<[u16; 4]> = (0..12).map(|k| [23 + k % 2 * 2, k % 3 * 2, 6 + k % 2, 0]).collect();
    let long_sums: Vec<[u16; 4]> = (0..12).map(|k| [28 + k % 2 * 2, k % 3 * 2, 0, k % 2 * 4]).collect();
    let mut walking = near_one;
    (walking.float[6], walking.float[7]) = (0x4180_2345, 0x417f_fedc);
    let addends = vec![0x4208, 0x0123, 0x4567, 0x89ab, 0x4207, 0xffed, 0xcba9, 0x8765];
    // multipliers a little above and a little below one; even registers fill a pair, odd ones one register
    let short_products: Vec<[u16; 4]> = (0..12).map(|k| [31, k % 6, 6 + k % 2, 0]).collect();
    let long_products: Vec<[u16; 4]> = (0..12).map(|k| [34, k % 3 * 2, 0, k % 2 * 4]).collect();
    // each set in turn: loads with and without index, a word to float and home again, and a count
    let both_sets: Vec<[u16; 4]> = (0..2)
        .flat_map(|set| {
            [
                [35, 0, set, 0],
                [17, 1, 0, 4 + 8 * set],
                [10, 2, 1, 0],
                [9, 3, 2, 0],
                [17, 4, 5, 24],
                [21, 6, 0, 6 * set + 6],
            ]
        })
        .collect();
    let mut two_tables = Seat::default();
    (two_tables.general[0][5], two_tables.general[1][5]) = (0x7fff_0004, 0x8000_0010);
    let rows = [
        run("(a) a mixed deck with loops", &mixed, floats(r, 0x80ff_ffff), words(r, 0xff_ffff)),
        run("(b) short divides", &shorts, near_one, vec![0; 64]),
        run("(c) long divides, unnormalised", &longs, floats(r, 0x800f_ffff), unnormalised.clone()),
        run("(d) short compares", &short_compares, floats(r, 0x80ff_ffff), vec![0; 64]),
        run("(e) loads and stores", &moves, floats(r, 0x80ff_ffff), words(r, 0xff_ffff)),
        stepping("(f) single steps of the mixed deck", &mixed, &[floats(r, 0x80ff_ffff)], words(r, 0xff_ffff)),
        reading(r),
        run("(h) short sums", &short_sums, walking, vec![0; 64]),
        run("(i) long sums, unnormalised", &long_sums, floats(r, 0x800f_ffff), addends),
        run("(j) short products", &short_products, near_one, vec![0; 64]),
        run("(k) long products, unnormalised", &long_products, floats(r, 0x800f_ffff), unnormalised),
        run("(l) long compares, unnormalised", &long_compares, floats(r, 0x870f_ffff), vec![0; 64]),
        run("(m) loads and stores, indexed", &indexed_moves, indexed, words(r, 0xff_ffff)),
        run("(n) general registers of both sets", &both_sets, two_tables, words(r, 0xff_ffff)),
        charting("(o) the chart of orders, bound 100", 100),
        charting("(p) the chart of orders, bound 1", 1),
        searching("(q) unset registers, half in use", &half_used(), [4_095, 0, 7]),
        searching("(r) unset registers, one at a time", &one_by_one(), [4_095, 1, 7]),
        stepping(
            "(s) single steps, two seats in turn",
            &mixed,
            &[floats(r, 0x80ff_ffff), floats(r, 0x80ff_ffff)],
            words(r, 0xff_ffff),
        ),
        stretching("(t) the shortest stretch, at its worst", 256),
    ];
    println!("{:<36} {:>8} {:>8} {:>8} {:>9} {:>9}", "", "proved", "plain", "tuned", "to plain", "to tuned");
    for r in &rows {
        let ([proved, plain, tuned], [to_plain, to_tuned]) = (r.times, r.ratios());
        println!("{:<36} {proved:>8.2} {plain:>8.2} {tuned:>8.2} {to_plain:>9.2} {to_tuned:>9.2}  {}", r.name, r.unit);
    }
    let [fast, slow] = rows[0].spread;
    println!("medians of {ROUNDS} rounds; in row (a) a tenth of the plain rounds was below {fast:.1}, a tenth above {slow:.1} ns/step");
    println!("the shortest stretch in 4,096 orders, at its worst: {:.2} s", largest_stretch());
    if let Some(path) = std::env::args().nth(1) {
        std::fs::write(path, drawn(&rows)).expect("the chart is written");
    }
}
