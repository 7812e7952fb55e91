//! Document 01 again, written from the papers in plain Rust: nothing here is shared with the proved code.
use std::cmp::Ordering;
use std::collections::VecDeque;

/// What the orders of one seat see.
#[derive(Clone, Copy, PartialEq, Eq, Debug, Default)]
pub struct Seat {
    pub float: [u32; 8],
    /// Two sets; the selector names the one in use.
    pub general: [[u32; 8]; 2],
    pub selector: u32,
    pub code: u32,
    pub mask: u32,
    pub pointer: u16,
}

/// The state of the desk: two seats (document 02, Job 12) and their common used count.
#[derive(Clone, Copy, PartialEq, Eq, Debug, Default)]
pub struct State {
    pub seats: [Seat; 2],
    pub used: u32,
}

/// The buffers that a call is lent.
#[derive(Clone, PartialEq, Eq, Debug)]
pub struct Buffers {
    pub deck: Vec<u16>,
    pub memory: Vec<u16>,
    pub protect: Vec<u8>,
    pub journal: Vec<u32>,
}

// ---- numbers: sign, characteristic, fraction of d hexadecimal digits

#[derive(Clone, Copy)]
struct Number {
    negative: bool,
    characteristic: i32,
    fraction: u64,
}

const TRUE_ZERO: Number = Number { negative: false, characteristic: 0, fraction: 0 };

fn short(w: u32) -> Number {
    Number {
        negative: w >> 31 == 1,
        characteristic: (w >> 24 & 0x7f) as i32,
        fraction: (w & 0xff_ffff) as u64,
    }
}

fn long(hi: u32, lo: u32) -> Number {
    Number {
        fraction: ((hi & 0xff_ffff) as u64) << 32 | lo as u64,
        ..short(hi)
    }
}

fn sign_code(n: Number) -> u32 {
    match (n.fraction, n.negative) {
        (0, _) => 0,
        (_, true) => 3,
        (_, false) => 1,
    }
}

/// The fraction moved left until its first digit of d is not zero. The fraction is not zero.
#[inline]
fn normal(n: Number, d: u32) -> Number {
    let zeros = n.fraction.leading_zeros() / 4 - (16 - d);
    Number {
        characteristic: n.characteristic - zeros as i32,
        fraction: n.fraction << (4 * zeros),
        ..n
    }
}

/// The condition code of a short compare: by exact value.
#[inline]
fn compare_short(a: Number, b: Number) -> u32 {
    let less = |x: bool| if x { 3 } else { 1 };
    match (a.fraction == 0, b.fraction == 0) {
        (true, true) => return 0,
        (true, false) => return less(!b.negative),
        (false, true) => return less(a.negative),
        (false, false) => {}
    }
    if a.negative != b.negative {
        return less(a.negative);
    }
    let (x, y) = (normal(a, 6), normal(b, 6));
    let (x, y) = ((x.characteristic, x.fraction), (y.characteristic, y.fraction));
    if x == y {
        0
    } else {
        less((x < y) != a.negative)
    }
}

/// The fraction with zeros for guard digits at the right, moved right until its characteristic is c. What falls past the
/// guard digits is dropped.
#[inline]
fn moved(n: Number, c: i32, guards: u32) -> u64 {
    let places = c - n.characteristic;
    if places < 16 {
        (n.fraction << (4 * guards)) >> (4 * places)
    } else {
        0
    }
}

/// The condition code of a long compare, by the note of 8.11: of the smaller characteristic's fraction, moved right as it is,
/// and of the other the first 64 bits are compared, with their signs.
#[inline]
fn compare_long(a: Number, b: Number) -> u32 {
    let c = a.characteristic.max(b.characteristic);
    let value = |n: Number| {
        let bits = moved(n, c, 2) as i128;
        if n.negative {
            -bits
        } else {
            bits
        }
    };
    match value(a).cmp(&value(b)) {
        Ordering::Equal => 0,
        Ordering::Greater => 1,
        Ordering::Less => 3,
    }
}

/// A result whose characteristic has been worked out: overflow is a stop, and so is underflow under mask 1;
/// under mask 0 an underflow gives true zero.
#[inline]
fn ranged(n: Number, mask: bool) -> Result<Number, u8> {
    match n.characteristic {
        128.. => Err(9),
        0..=127 => Ok(n),
        _ if mask => Err(10),
        _ => Ok(TRUE_ZERO),
    }
}

/// The quotient of two numbers of d digits: sign, characteristic and fraction, or a stop.
#[inline]
fn divide(a: Number, b: Number, d: u32, mask: bool) -> Result<Number, u8> {
    if b.fraction == 0 {
        return Err(8);
    }
    if a.fraction == 0 {
        return Ok(TRUE_ZERO);
    }
    let (x, y) = (normal(a, d), normal(b, d));
    // x.fraction / y.fraction lies between 1/16 and 16
    let (shift, carry) = if x.fraction >= y.fraction { (d - 1, 1) } else { (d, 0) };
    let fraction = if d == 6 {
        (x.fraction << (4 * shift)) / y.fraction
    } else {
        (((x.fraction as u128) << (4 * shift)) / y.fraction as u128) as u64
    };
    let characteristic = x.characteristic - y.characteristic + 64 + carry;
    ranged(Number { negative: a.negative != b.negative, characteristic, fraction }, mask)
}

/// An operand of a sum: with a zero fraction it counts as true zero.
fn operand(n: Number) -> Number {
    if n.fraction == 0 {
        TRUE_ZERO
    } else {
        n
    }
}

/// The fraction with its sign and one guard digit, moved right until its characteristic is c.
#[inline]
fn aligned(n: Number, c: i32) -> i64 {
    let fraction = moved(n, c, 1);
    if n.negative {
        -(fraction as i64)
    } else {
        fraction as i64
    }
}

/// The sum of two numbers of d digits: sign, characteristic and fraction, or a stop.
#[inline]
fn add(a: Number, b: Number, d: u32, mask: bool) -> Result<Number, u8> {
    let (x, y) = (operand(a), operand(b));
    let c = x.characteristic.max(y.characteristic);
    let sum = aligned(x, c) + aligned(y, c);
    if sum == 0 {
        return Ok(TRUE_ZERO);
    }
    // a carry, d digits and the guard digit: as a fraction of d + 2 digits it belongs to c + 1
    let whole = Number { negative: sum < 0, characteristic: c + 1, fraction: sum.unsigned_abs() };
    let n = normal(whole, d + 2);
    ranged(Number { fraction: n.fraction >> 8, ..n }, mask)
}

/// The product of two numbers of d digits as one of e: sign, characteristic and fraction, or a stop. 128 bits hold it whole.
#[inline]
fn multiply(a: Number, b: Number, d: u32, e: u32, mask: bool) -> Result<Number, u8> {
    if a.fraction == 0 || b.fraction == 0 {
        return Ok(TRUE_ZERO);
    }
    let product = a.fraction as u128 * b.fraction as u128;
    // as a fraction of 32 digits it has 32 - 2 d zeros before its own
    let zeros = product.leading_zeros() / 4;
    let characteristic = a.characteristic + b.characteristic - 64 + (32 - 2 * d) as i32 - zeros as i32;
    let fraction = ((product << (4 * zeros)) >> (128 - 4 * e)) as u64;
    ranged(Number { negative: a.negative != b.negative, characteristic, fraction }, mask)
}

fn pack_short(n: Number) -> u32 {
    (n.negative as u32) << 31 | (n.characteristic as u32) << 24 | n.fraction as u32
}

fn pack_long(n: Number) -> (u32, u32) {
    let hi = (n.negative as u32) << 31 | (n.characteristic as u32) << 24 | (n.fraction >> 32) as u32;
    (hi, n.fraction as u32)
}

/// CVFX: the word and its code, or 11.
fn to_fixed(w: u32) -> Result<(u32, u32), u8> {
    let n = short(w);
    if n.fraction == 0 {
        return Ok((0, 0));
    }
    // value * 65,536 = fraction * 16^(characteristic - 66)
    let places = n.characteristic - 66;
    let magnitude: u64 = if places > 8 {
        return Err(11);
    } else if places >= 0 {
        n.fraction << (4 * places)
    } else if places > -16 {
        n.fraction >> (-4 * places)
    } else {
        0
    };
    let signed = if n.negative { -(magnitude as i64) } else { magnitude as i64 };
    let word = i32::try_from(signed).map_err(|_| 11)?;
    let code = match word >> 16 {
        0 => 0,
        h if h < 0 => 3,
        _ => 1,
    };
    Ok((word as u32, code))
}

/// CVFL: the word and its code.
fn to_float(w: u32) -> (u32, u32) {
    let signed = w as i32;
    if signed == 0 {
        return (0, 0);
    }
    let magnitude = signed.unsigned_abs();
    let zeros = magnitude.leading_zeros() / 4;
    let n = Number {
        negative: signed < 0,
        characteristic: 68 - zeros as i32,
        fraction: ((magnitude << (4 * zeros)) >> 8) as u64,
    };
    (pack_short(n), sign_code(n))
}

// ---- orders

/// Largest r1 and r2, whether `at` is in use, and the halfwords of the storage operand.
fn form(code: u16) -> Option<(u16, u16, bool, usize)> {
    Some(match code {
        1 | 4 | 5 | 7 | 9 | 10 | 11 | 13 | 23 | 25 | 27 | 29 | 31 | 33 => (7, 7, false, 0),
        2 | 6 | 12 | 15 | 17 | 18 | 24 | 26 | 32 => (7, 7, true, 2),
        3 | 8 | 14 | 16 | 28 | 30 | 34 => (7, 7, true, 4),
        19 | 35 => (0, 1, false, 0),
        20 | 21 => (7, 0, true, 0),
        22 => (0, 0, false, 0),
        _ => return None,
    })
}

/// Check 5.
pub fn legal(cells: [u16; 4]) -> bool {
    match form(cells[0]) {
        None => false,
        Some((r1, r2, at, _)) => cells[1] <= r1 && cells[2] <= r2 && (at || cells[3] == 0),
    }
}

fn stores(code: u16) -> bool {
    matches!(code, 15 | 16 | 18)
}

/// The second operand of an add, or that of a subtract with its sign inverted.
fn addend(code: u16, n: Number) -> Number {
    let subtract = matches!(code, 25 | 26 | 29 | 30);
    Number { negative: n.negative != subtract, ..n }
}

/// What a step overwrites. A general register is named by its set and its number.
#[derive(Clone, Copy)]
enum Change {
    Nothing,
    Float(usize, u32),
    Pair(usize, u32, u32),
    General(usize, usize, u32),
    Two(usize, u32),
    Four(usize, u32, u32),
}

struct Effect {
    change: Change,
    code: u32,
    mask: u32,
    selector: u32,
    pointer: u16,
}

fn word(memory: &[u16], at: usize) -> u32 {
    (memory[at] as u32) << 16 | memory[at + 1] as u32
}

fn put(memory: &mut [u16], at: usize, w: u32) {
    memory[at] = (w >> 16) as u16;
    memory[at + 1] = w as u16;
}

/// The general registers that orders name (document 02, Job 8).
fn selected(s: &Seat) -> &[u32; 8] {
    &s.general[s.selector as usize]
}

/// Where the storage operand is (document 02, Job 7): r2 names an index register, unless it is 0.
fn address(s: &Seat, cells: [u16; 4]) -> usize {
    let index = match cells[2] {
        0 => 0,
        r => selected(s)[r as usize] & 0xffff,
    };
    cells[3] as usize + index as usize
}

/// One bit a halfword, lowest bit first.
fn protected(list: &[u8], a: usize) -> bool {
    list[a / 8] & 1 << (a % 8) != 0
}

/// Check 3, as far as it looks at a seat.
fn broken(s: &Seat) -> bool {
    s.code == 2 || s.code > 3 || s.mask > 1 || s.selector > 1
}

/// Checks 2 and 3: of both seats, whichever steps.
fn held(s: &State, memory: usize, protect: usize, journal: usize) -> Result<(), u8> {
    if memory > 32_768 || journal > 16_384 || protect != memory.div_ceil(8) {
        return Err(2);
    }
    if s.seats.iter().any(broken) || s.used as usize > journal / 4 {
        return Err(3);
    }
    Ok(())
}

/// Check 20, which stands before all others, and checks 1 to 3.
fn entry(s: &State, seat: u32, deck: usize, memory: usize, protect: usize, journal: usize) -> Result<(), u8> {
    if seat > 1 {
        return Err(20);
    }
    if deck % 4 != 0 || deck > 16_384 {
        return Err(1);
    }
    held(s, memory, protect, journal)
}

#[inline]
fn effect(s: &Seat, cells: [u16; 4], memory: &[u16]) -> Result<Effect, u8> {
    let [code, r1, r2, at] = cells;
    let (r1, r2, a) = (r1 as usize, r2 as usize, address(s, cells));
    let next = |change, code| Effect { change, code, mask: s.mask, selector: s.selector, pointer: s.pointer + 1 };
    let general = |r, w| Change::General(s.selector as usize, r, w);
    let pair = |r: usize| (s.float[r], s.float[(r + 1) % 8]);
    let second_short = || if form(code).unwrap().2 { word(memory, a) } else { s.float[r2] };
    let second_long = || {
        if form(code).unwrap().2 {
            (word(memory, a), word(memory, a + 2))
        } else {
            pair(r2)
        }
    };
    Ok(match code {
        1 | 2 => {
            let w = second_short();
            next(Change::Float(r1, w), sign_code(short(w)))
        }
        3 => {
            let (h, l) = second_long();
            next(Change::Pair(r1, h, l), sign_code(long(h, l)))
        }
        4 => {
            let w = s.float[r2];
            let w = if w & 0xff_ffff == 0 { 0 } else { w ^ 0x8000_0000 };
            next(Change::Float(r1, w), sign_code(short(w)))
        }
        5 | 6 => next(Change::Nothing, compare_short(short(s.float[r1]), short(second_short()))),
        7 | 8 => {
            let ((a, b), (c, d)) = (pair(r1), second_long());
            next(Change::Nothing, compare_long(long(a, b), long(c, d)))
        }
        9 => {
            let (w, cc) = to_fixed(s.float[r2])?;
            next(general(r1, w), cc)
        }
        10 => {
            let (w, cc) = to_float(selected(s)[r2]);
            next(Change::Float(r1, w), cc)
        }
        11 | 12 => {
            let q = divide(short(s.float[r1]), short(second_short()), 6, s.mask == 1)?;
            next(Change::Float(r1, pack_short(q)), s.code)
        }
        13 | 14 => {
            let ((a, b), (c, d)) = (pair(r1), second_long());
            let (h, l) = pack_long(divide(long(a, b), long(c, d), 14, s.mask == 1)?);
            next(Change::Pair(r1, h, l), s.code)
        }
        15 => next(Change::Two(a, s.float[r1]), s.code),
        16 => {
            let (h, l) = pair(r1);
            next(Change::Four(a, h, l), s.code)
        }
        17 => {
            let w = word(memory, a);
            let cc = match w as i32 {
                0 => 0,
                v if v < 0 => 3,
                _ => 1,
            };
            next(general(r1, w), cc)
        }
        18 => next(Change::Two(a, selected(s)[r1]), s.code),
        19 => Effect { mask: r2 as u32, ..next(Change::Nothing, s.code) },
        20 => {
            let bit = match s.code {
                0 => 4,
                1 => 2,
                _ => 1,
            };
            let mut e = next(Change::Nothing, s.code);
            if r1 & bit != 0 {
                e.pointer = at;
            }
            e
        }
        21 => {
            let w = selected(s)[r1].wrapping_sub(1);
            let mut e = next(general(r1, w), s.code);
            if w != 0 {
                e.pointer = at;
            }
            e
        }
        23 | 24 | 25 | 26 => {
            let n = add(short(s.float[r1]), addend(code, short(second_short())), 6, s.mask == 1)?;
            next(Change::Float(r1, pack_short(n)), sign_code(n))
        }
        27 | 28 | 29 | 30 => {
            let ((a, b), (c, d)) = (pair(r1), second_long());
            let n = add(long(a, b), addend(code, long(c, d)), 14, s.mask == 1)?;
            let (h, l) = pack_long(n);
            next(Change::Pair(r1, h, l), sign_code(n))
        }
        31 | 32 if r1 % 2 == 0 => {
            let (h, l) = pack_long(multiply(short(s.float[r1]), short(second_short()), 6, 14, s.mask == 1)?);
            next(Change::Pair(r1, h, l), s.code)
        }
        31 | 32 => {
            let n = multiply(short(s.float[r1]), short(second_short()), 6, 6, s.mask == 1)?;
            next(Change::Float(r1, pack_short(n)), s.code)
        }
        33 | 34 => {
            let ((a, b), (c, d)) = (pair(r1), second_long());
            let (h, l) = pack_long(multiply(long(a, b), long(c, d), 14, 14, s.mask == 1)?);
            next(Change::Pair(r1, h, l), s.code)
        }
        35 => Effect { selector: r2 as u32, ..next(Change::Nothing, s.code) },
        _ => return Err(12),
    })
}

/// Every check of a step in the table's order, or its effect.
fn decide(state: &State, seat: u32, b: &Buffers) -> Result<Effect, u8> {
    entry(state, seat, b.deck.len(), b.memory.len(), b.protect.len(), b.journal.len())?;
    let s = &state.seats[seat as usize];
    let p = s.pointer as usize;
    if p >= b.deck.len() / 4 {
        return Err(4);
    }
    let cells = [b.deck[4 * p], b.deck[4 * p + 1], b.deck[4 * p + 2], b.deck[4 * p + 3]];
    if !legal(cells) {
        return Err(5);
    }
    if cells[0] == 22 {
        return Err(12);
    }
    if state.used as usize == b.journal.len() / 4 {
        return Err(13);
    }
    let (_, _, _, span) = form(cells[0]).unwrap();
    let at = address(s, cells);
    if span > 0 && at + span > b.memory.len() {
        return Err(6);
    }
    if stores(cells[0]) && (at..at + span).any(|a| protected(&b.protect, a)) {
        return Err(7);
    }
    effect(s, cells, &b.memory)
}

/// Which of code, r1, r2 and at, 0 to 3, is the first that breaks check 5.
fn broken_cell(cells: [u16; 4]) -> u32 {
    match form(cells[0]) {
        None => 0,
        Some((r1, _, _, _)) if cells[1] > r1 => 1,
        Some((_, r2, _, _)) if cells[2] > r2 => 2,
        Some(_) => 3,
    }
}

/// The words of the operands that an order with a stop from 8 to 11 reads.
fn operand_words(s: &Seat, cells: [u16; 4], memory: &[u16]) -> Vec<u32> {
    let ([code, r1, r2, _], at) = (cells.map(usize::from), address(s, cells));
    let words = if matches!(code, 13 | 14 | 27..=30 | 33 | 34) { 2 } else { 1 };
    let register = |r: usize| (0..words).map(move |k| s.float[(r + k) % 8]);
    let storage = (0..words).map(|k| word(memory, at + 2 * k));
    match code {
        9 => register(r2).collect(),
        _ if form(cells[0]).unwrap().2 => register(r1).chain(storage).collect(),
        _ => register(r1).chain(register(r2)).collect(),
    }
}

/// Why the next step of a seat is stopped (document 02, Job 5): a number, and what it names.
pub fn why(state: &State, seat: u32, b: &Buffers) -> (u8, Vec<u32>) {
    let number = match decide(state, seat, b) {
        Ok(_) | Err(12 | 13) => return (18, vec![]),
        Err(n @ (1..=4 | 20)) => return (n, vec![]),
        Err(n) => n,
    };
    let s = &state.seats[seat as usize];
    let p = 4 * s.pointer as usize;
    let cells = [b.deck[p], b.deck[p + 1], b.deck[p + 2], b.deck[p + 3]];
    let addresses = || (address(s, cells)..).take(form(cells[0]).unwrap().3);
    let names = match number {
        5 => vec![broken_cell(cells)],
        6 => vec![addresses().find(|a| *a >= b.memory.len()).unwrap() as u32],
        7 => vec![addresses().find(|a| protected(&b.protect, *a)).unwrap() as u32],
        _ => operand_words(s, cells, &b.memory),
    };
    (number, names)
}

fn old(s: &Seat, memory: &[u16], c: Change) -> (u32, u32, u32, u32) {
    match c {
        Change::Nothing => (0, 0, 0, 0),
        Change::Float(r, _) => (1, r as u32, s.float[r], 0),
        Change::Pair(r, _, _) => (2, r as u32, s.float[r], s.float[(r + 1) % 8]),
        Change::General(set, r, _) => (3, r as u32, s.general[set][r], 0),
        Change::Two(a, _) => (4, a as u32, word(memory, a), 0),
        Change::Four(a, _, _) => (5, a as u32, word(memory, a), word(memory, a + 2)),
    }
}

fn apply(s: &mut Seat, memory: &mut [u16], e: &Effect) {
    match e.change {
        Change::Nothing => {}
        Change::Float(r, w) => s.float[r] = w,
        Change::Pair(r, h, l) => {
            s.float[r] = h;
            s.float[(r + 1) % 8] = l;
        }
        Change::General(set, r, w) => s.general[set][r] = w,
        Change::Two(a, w) => put(memory, a, w),
        Change::Four(a, h, l) => {
            put(memory, a, h);
            put(memory, a + 2, l);
        }
    }
    s.code = e.code;
    s.mask = e.mask;
    s.selector = e.selector;
    s.pointer = e.pointer;
}

/// One step of a seat: 0 or the number of the stop.
pub fn step(state: &mut State, seat: u32, b: &mut Buffers) -> u8 {
    let e = match decide(state, seat, b) {
        Ok(e) => e,
        Err(n) => return n,
    };
    let s = &mut state.seats[seat as usize];
    let (kind, place, left, right) = old(s, &b.memory, e.change);
    let head = s.pointer as u32 | s.code << 16 | s.mask << 18 | kind << 19 | s.selector << 22 | seat << 23;
    let k = 4 * state.used as usize;
    b.journal[k..k + 4].copy_from_slice(&[head, place, left, right]);
    apply(s, &mut b.memory, &e);
    state.used += 1;
    0
}

/// A run of a seat: the steps taken, and 0 or the number of the stop.
pub fn run(s: &mut State, seat: u32, b: &mut Buffers, limit: u32) -> (u32, u8) {
    if let Err(n) = entry(s, seat, b.deck.len(), b.memory.len(), b.protect.len(), b.journal.len()) {
        return (0, n);
    }
    let mut count = 0;
    while count < limit {
        match step(s, seat, b) {
            0 => count += 1,
            n => return (count, n),
        }
    }
    (count, 0)
}

/// A back step: the seat whose step it took back, or the number of the stop.
pub fn back(s: &mut State, b: &mut Buffers) -> Result<u32, u8> {
    held(s, b.memory.len(), b.protect.len(), b.journal.len())?;
    if s.used == 0 {
        return Err(14);
    }
    let k = 4 * (s.used as usize - 1);
    let [head, place, left, right] = [b.journal[k], b.journal[k + 1], b.journal[k + 2], b.journal[k + 3]];
    let r = place as usize;
    let (selector, seat) = (head >> 22 & 1, head >> 23);
    if seat > 1 {
        return Err(15);
    }
    let change = match head >> 19 & 7 {
        0 if place == 0 && left == 0 && right == 0 => Change::Nothing,
        1 if r < 8 && right == 0 => Change::Float(r, left),
        2 if r < 8 => Change::Pair(r, left, right),
        3 if r < 8 && right == 0 => Change::General(selector as usize, r, left),
        4 if right == 0 => Change::Two(r, left),
        5 => Change::Four(r, left, right),
        _ => return Err(15),
    };
    let span = match change {
        Change::Two(..) => 2,
        Change::Four(..) => 4,
        _ => 0,
    };
    if span > 0 && (r + span > b.memory.len() || (r..r + span).any(|a| protected(&b.protect, a))) {
        return Err(15);
    }
    let e = Effect {
        change,
        code: head >> 16 & 3,
        mask: head >> 18 & 1,
        selector,
        pointer: head as u16,
    };
    if e.code == 2 {
        return Err(15);
    }
    apply(&mut s.seats[seat as usize], &mut b.memory, &e);
    s.used -= 1;
    Ok(seat)
}

// ---- deck text

pub const MNEMONICS: [&str; 35] = [
    "LER", "LE", "LED", "LECR", "CER", "CE", "CEDR", "CED", "CVFX", "CVFL", "DER", "DE", "DEDR", "DED", "STE",
    "STED", "L", "ST", "UM", "JC", "JN", "HALT", "AER", "AE", "SER", "SE", "AEDR", "AED", "SEDR", "SED",
    "MER", "ME", "MEDR", "MED", "SET",
];

fn decimal(v: &[u8]) -> Option<u16> {
    if v.is_empty() || v.len() > 5 || (v.len() > 1 && v[0] == b'0') || !v.iter().all(u8::is_ascii_digit) {
        return None;
    }
    let n = v.iter().fold(0u32, |n, d| n * 10 + (d - b'0') as u32);
    u16::try_from(n).ok()
}

fn hex_word(v: &[u8]) -> Option<u16> {
    if v.len() != 4 {
        return None;
    }
    v.iter().try_fold(0u16, |n, d| {
        let d = match d {
            b'0'..=b'9' => d - b'0',
            b'A'..=b'F' => d - b'A' + 10,
            _ => return None,
        };
        Some(n << 4 | d as u16)
    })
}

fn mnemonic(v: &[u8]) -> Option<u16> {
    Some(match v {
        b"LER" => 1,
        b"LE" => 2,
        b"LED" => 3,
        b"LECR" => 4,
        b"CER" => 5,
        b"CE" => 6,
        b"CEDR" => 7,
        b"CED" => 8,
        b"CVFX" => 9,
        b"CVFL" => 10,
        b"DER" => 11,
        b"DE" => 12,
        b"DEDR" => 13,
        b"DED" => 14,
        b"STE" => 15,
        b"STED" => 16,
        b"L" => 17,
        b"ST" => 18,
        b"UM" => 19,
        b"JC" => 20,
        b"JN" => 21,
        b"HALT" => 22,
        b"AER" => 23,
        b"AE" => 24,
        b"SER" => 25,
        b"SE" => 26,
        b"AEDR" => 27,
        b"AED" => 28,
        b"SEDR" => 29,
        b"SED" => 30,
        b"MER" => 31,
        b"ME" => 32,
        b"MEDR" => 33,
        b"MED" => 34,
        b"SET" => 35,
        _ => return None,
    })
}

fn order(line: &[u8]) -> Option<[u16; 4]> {
    let mut v = line.split(|b| *b == b' ');
    let cells = [mnemonic(v.next()?)?, decimal(v.next()?)?, decimal(v.next()?)?, decimal(v.next()?)?];
    (v.next().is_none() && legal(cells)).then_some(cells)
}

fn halfword(line: &[u8]) -> Option<(u16, u8, u16)> {
    let mut v = line.split(|b| *b == b' ');
    let at = decimal(v.next()?)?;
    let protect = match v.next()? {
        b"0" => 0,
        b"1" => 1,
        _ => return None,
    };
    let word = hex_word(v.next()?)?;
    v.next().is_none().then_some((at, protect, word))
}

/// The order count, or the number and the line of a refusal. A refused text writes nothing.
pub fn read(text: &[u8], cells: &mut [u16], memory: &mut [u16], protect: &mut [u8]) -> Result<u32, (u8, u32)> {
    if text.len() > 32_768 {
        return Err((17, 0));
    }
    let mut orders: Vec<[u16; 4]> = Vec::new();
    let mut halfwords: Vec<(u16, u8, u16)> = Vec::new();
    #[derive(PartialEq)]
    enum Wants {
        Heading,
        Orders,
        Storage,
        Halfwords,
    }
    let mut wants = Wants::Heading;
    let mut number = 0;
    let mut rest = text;
    loop {
        number += 1;
        let Some(end) = rest.iter().position(|b| *b == b'\n') else {
            let may_end = matches!(wants, Wants::Orders | Wants::Halfwords);
            if rest.is_empty() && may_end {
                break;
            }
            return Err((16, number));
        };
        let line = &rest[..end];
        rest = &rest[end + 1..];
        match wants {
            Wants::Heading if line == b"op r1 r2 at" => wants = Wants::Orders,
            Wants::Storage if line == b"at protect word" => wants = Wants::Halfwords,
            Wants::Orders if line.is_empty() => wants = Wants::Storage,
            Wants::Orders => {
                let o = order(line).ok_or((16, number))?;
                if 4 * orders.len() + 4 > cells.len() {
                    return Err((17, number));
                }
                orders.push(o);
            }
            Wants::Halfwords => {
                let h = halfword(line).ok_or((16, number))?;
                if halfwords.last().is_some_and(|last| h.0 <= last.0) {
                    return Err((16, number));
                }
                if h.0 as usize >= memory.len() || h.0 as usize / 8 >= protect.len() {
                    return Err((17, number));
                }
                halfwords.push(h);
            }
            _ => return Err((16, number)),
        }
    }
    for (k, o) in orders.iter().enumerate() {
        cells[4 * k..4 * k + 4].copy_from_slice(o);
    }
    for (at, p, w) in halfwords {
        memory[at as usize] = w;
        let bit = 1 << (at % 8);
        let byte = &mut protect[at as usize / 8];
        *byte = if p == 1 { *byte | bit } else { *byte & !bit };
    }
    Ok(orders.len() as u32)
}

// ---- the chart of legal orders

/// Every legal order with `at` below n where it is in use, one after the other; those from a rank on are written while there
/// is room. The total and the orders written.
pub fn chart(n: u16, rank: u32, cells: &mut [u16]) -> Result<(u32, u32), u8> {
    if cells.len() % 4 != 0 {
        return Err(19);
    }
    let (mut total, mut end) = (0, 0);
    for code in 1..=35 {
        let Some((last_r1, last_r2, at_used, _)) = form(code) else { continue };
        let ats = if at_used { n } else { 1 };
        for r1 in 0..=last_r1 {
            for r2 in 0..=last_r2 {
                for at in 0..ats {
                    if total >= rank && end < cells.len() {
                        cells[end..end + 4].copy_from_slice(&[code, r1, r2, at]);
                        end += 4;
                    }
                    total += 1;
                }
            }
        }
    }
    Ok((total, (end / 4) as u32))
}

// ---- registers read before they are set

/// A float register, or a general one of a set.
#[derive(Clone, Copy, PartialEq, Eq)]
enum Register {
    Float(u16),
    General(u16, u16),
}

use Register::{Float, General};

/// Whether a register is R r, or for a long operand a member of pair r.
fn names(long: bool, r: u16, register: Register) -> bool {
    register == Float(r) || long && register == Float((r + 1) % 8)
}

fn has_pairs(code: u16) -> bool {
    matches!(code, 3 | 7 | 8 | 13 | 14 | 16 | 27..=30 | 33 | 34)
}

/// Whether an order reads a register, where the set is selected: as its first operand, as its second, or as the index of one in
/// storage.
fn reads([code, r1, r2, _]: [u16; 4], set: u16, register: Register) -> bool {
    let first = match code {
        5..=8 | 11..=16 | 23..=34 => names(has_pairs(code), r1, register),
        18 | 21 => register == General(set, r1),
        _ => false,
    };
    let second = match code {
        1 | 4 | 5 | 7 | 9 | 11 | 13 | 23 | 25 | 27 | 29 | 31 | 33 => names(has_pairs(code), r2, register),
        10 => register == General(set, r2),
        2 | 3 | 6 | 8 | 12 | 14..=18 | 24 | 26 | 28 | 30 | 32 | 34 => r2 != 0 && register == General(set, r2),
        _ => false,
    };
    first || second
}

/// Whether it writes one. A short product fills a pair if r1 is even.
fn writes([code, r1, _, _]: [u16; 4], set: u16, register: Register) -> bool {
    match code {
        1..=4 | 10..=14 | 23..=30 | 33 | 34 => names(has_pairs(code), r1, register),
        31 | 32 => names(r1 % 2 == 0, r1, register),
        9 | 17 | 21 => register == General(set, r1),
        _ => false,
    }
}

/// The lowest order that reads a register which some path from order 0 has not written: every order is visited, with each
/// selector, that a path reaches through orders which do not write the register.
fn first_read(orders: &[[u16; 4]], register: Register) -> Option<u32> {
    let mut seen = vec![[false; 2]; orders.len()];
    let mut queue = VecDeque::from([(0, 0)]);
    let mut first = None;
    while let Some((p, set)) = queue.pop_front() {
        if p >= orders.len() || seen[p][set as usize] {
            continue;
        }
        seen[p][set as usize] = true;
        let cells @ [code, _, r2, at] = orders[p];
        if reads(cells, set, register) && first.is_none_or(|lowest| p < lowest) {
            first = Some(p);
        }
        if writes(cells, set, register) || code == 22 {
            continue;
        }
        queue.push_back((p + 1, if code == 35 { r2 } else { set }));
        if matches!(code, 20 | 21) {
            queue.push_back((at as usize, set));
        }
    }
    first.map(|p| p as u32)
}

/// The lowest order that reads a register which may not be set, and the register: 0 a float one, 1 of set 0, 2 of set 1, and its
/// number.
pub fn unset(deck: &[u16]) -> Result<Option<[u32; 3]>, u8> {
    if deck.len() % 4 != 0 || deck.len() > 16_384 {
        return Err(1);
    }
    let orders: Vec<[u16; 4]> = deck.chunks_exact(4).map(|o| [o[0], o[1], o[2], o[3]]).collect();
    if !orders.iter().all(|o| legal(*o)) {
        return Err(5);
    }
    let registers = (0..24u16).map(|k| if k < 8 { Float(k) } else { General(k / 8 - 1, k % 8) });
    let found = registers.enumerate().filter_map(|(k, r)| first_read(&orders, r).map(|p| (p, k as u32)));
    // of several with the lowest order the first one counts
    Ok(found.min_by_key(|(p, _)| *p).map(|(p, k)| [p, k / 8, k % 8]))
}

// ---- the shortest stretch that still stops

/// A run of a seat from an order with all else as it is, taken back: how many steps it took, and its stop.
fn trial(s: &State, seat: u32, b: &mut Buffers, first: u16, limit: u32) -> (u32, u8) {
    let mut there = *s;
    there.seats[seat as usize].pointer = first;
    let ran = run(&mut there, seat, b, limit);
    for _ in 0..ran.0 {
        back(&mut there, b).expect("the step was just taken");
    }
    ran
}

/// The first order and the last of the shortest stretch, and the number that it stops by; or the number of the refusal. Memory
/// is left as it was, and so is the journal up to the used count.
pub fn stretch(s: &State, seat: u32, b: &mut Buffers) -> Result<[u32; 3], u8> {
    entry(s, seat, b.deck.len(), b.memory.len(), b.protect.len(), b.journal.len())?;
    if b.deck.chunks_exact(4).any(|order| matches!(order[0], 20 | 21)) {
        return Err(21);
    }
    let pointer = s.seats[seat as usize].pointer;
    let (count, stop) = trial(s, seat, b, pointer, u32::MAX);
    if !(6..=11).contains(&stop) {
        return Err(21);
    }
    let last = pointer + count as u16;
    let found = (pointer..=last).rev().find(|first| {
        let others = (last - first) as u32;
        trial(s, seat, b, *first, others + 1) == (others, stop)
    });
    let first = found.expect("the whole run stops so");
    Ok([first as u32, last as u32, stop as u32])
}
