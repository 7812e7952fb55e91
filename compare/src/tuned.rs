//! Document 01's run and reader once more, tuned as a good Rust programmer would: one match, the state changed in place, a
//! text read in one pass. Held to the reference by the comparison; a harder opponent for the benchmark.
use crate::reference::{Buffers, Seat, State};
use std::cmp::Ordering;

#[inline(always)]
fn norm(f: u64, d: u32) -> (u32, u64) {
    let z = f.leading_zeros() / 4 - (16 - d);
    (z, f << (4 * z))
}
#[inline(always)]
fn sign_code(neg: bool, f: u64) -> u32 {
    if f == 0 {
        0
    } else if neg {
        3
    } else {
        1
    }
}
/// A number that ranks as the magnitude of a short word does.
#[inline(always)]
fn key(w: u32) -> u64 {
    if fr(w) == 0 {
        return 0;
    }
    let (z, f) = norm(fr(w), 6);
    ((ch(w) + 6 - z) as u64) << 24 | f
}
#[inline(always)]
fn compare_short(a: u32, b: u32) -> u32 {
    ordered(a >> 31 == 1, key(a), b >> 31 == 1, key(b))
}
/// The first words a and b give the signs and the characteristics.
#[inline(always)]
fn compare_long(a: u32, fa: u64, b: u32, fb: u64) -> u32 {
    let (ca, cb) = (ch(a), ch(b));
    let c = ca.max(cb);
    // 64 bits each; what is moved past them is lost
    let x = (fa << 8).checked_shr(4 * (c - ca)).unwrap_or(0);
    let y = (fb << 8).checked_shr(4 * (c - cb)).unwrap_or(0);
    ordered(a >> 31 == 1, x, b >> 31 == 1, y)
}
/// A magnitude x and its sign against y.
#[inline(always)]
fn ordered(na: bool, x: u64, nb: bool, y: u64) -> u32 {
    let order = match (na && x > 0, nb && y > 0) {
        (false, false) => x.cmp(&y),
        (true, true) => y.cmp(&x),
        (true, false) => Ordering::Less,
        (false, true) => Ordering::Greater,
    };
    match order {
        Ordering::Less => 3,
        Ordering::Greater => 1,
        Ordering::Equal => 0,
    }
}
enum Q {
    Of(u32, u64),
    Zero,
    Stop(u8),
}
#[inline(always)]
fn divide(ca: u32, fa: u64, cb: u32, fb: u64, d: u32, mask: bool) -> Q {
    if fb == 0 {
        return Q::Stop(8);
    }
    if fa == 0 {
        return Q::Zero;
    }
    let ((za, x), (zb, y)) = (norm(fa, d), norm(fb, d));
    let lead = (x >= y) as u32;
    let c = (ca as i32 - za as i32) - (cb as i32 - zb as i32) + 64 + lead as i32;
    if c > 127 {
        return Q::Stop(9);
    }
    if c < 0 {
        return if mask { Q::Stop(10) } else { Q::Zero };
    }
    let n = 4 * (d - lead);
    let q = if d == 6 { (x << n) / y } else { (((x as u128) << n) / y as u128) as u64 };
    Q::Of(c as u32, q)
}
/// The words a and b give the signs and the characteristics; the sign of the sum stands above its characteristic.
#[inline(always)]
fn add(a: u32, fa: u64, b: u32, fb: u64, d: u32, mask: bool) -> Q {
    let ca = if fa == 0 { 0 } else { ch(a) };
    let cb = if fb == 0 { 0 } else { ch(b) };
    let c = ca.max(cb);
    // a guard digit each; what is moved past it is lost
    let x = (fa << 4 >> (4 * (c - ca)).min(63)) as i64;
    let y = (fb << 4 >> (4 * (c - cb)).min(63)) as i64;
    let sum = if (a ^ b) >> 31 == 1 { x - y } else { x + y };
    if sum == 0 {
        return Q::Zero;
    }
    let g = sum.unsigned_abs();
    let z = g.leading_zeros() / 4;
    let c = (c + 15 - d) as i32 - z as i32;
    if c > 127 {
        return Q::Stop(9);
    }
    if c < 0 {
        return if mask { Q::Stop(10) } else { Q::Zero };
    }
    Q::Of((a >> 31 ^ (sum < 0) as u32) << 7 | c as u32, g << (4 * z) >> (64 - 4 * d))
}
/// The product of two fractions of d digits, cut to e: their first digit is at most four places from that of a word of 16
/// or 32 digits.
#[inline(always)]
fn multiply(ca: u32, fa: u64, cb: u32, fb: u64, d: u32, e: u32, mask: bool) -> Q {
    if fa == 0 || fb == 0 {
        return Q::Zero;
    }
    let (z, f) = if d == 6 {
        let p = fa * fb;
        let z = p.leading_zeros() / 4;
        (z, p << (4 * z) >> (64 - 4 * e))
    } else {
        let p = fa as u128 * fb as u128;
        let z = p.leading_zeros() / 4;
        (z, (p << (4 * z) >> (128 - 4 * e)) as u64)
    };
    let c = (ca + cb) as i32 - 60 - z as i32;
    if c > 127 {
        return Q::Stop(9);
    }
    if c < 0 {
        return if mask { Q::Stop(10) } else { Q::Zero };
    }
    Q::Of(c as u32, f)
}
#[inline(always)]
fn ch(w: u32) -> u32 {
    w >> 24 & 127
}
#[inline(always)]
fn fr(w: u32) -> u64 {
    (w & 0xff_ffff) as u64
}
#[inline(always)]
fn word(m: &[u16], a: usize) -> u32 {
    (m[a] as u32) << 16 | m[a + 1] as u32
}

/// The selected set. The selector is 0 or 1; its lowest bit is taken to spare the check of an index.
#[inline(always)]
fn set(s: &Seat) -> usize {
    (s.selector & 1) as usize
}

struct Run<'a> {
    s: &'a mut Seat,
    used: &'a mut u32,
    /// Mask, selector and seat as they stand in word 0 of a record: the first two seldom change, the seat never.
    held: u32,
    journal: &'a mut [u32],
}
#[inline(always)]
fn held(s: &Seat) -> u32 {
    s.mask << 18 | s.selector << 22
}
impl Run<'_> {
    #[inline(always)]
    fn record(&mut self, kind: u32, place: u32, l: u32, r: u32) {
        let h = self.s.pointer as u32 | self.s.code << 16 | self.held | kind << 19;
        let k = 4 * *self.used as usize;
        self.journal[k..k + 4].copy_from_slice(&[h, place, l, r]);
        *self.used += 1;
    }
    #[inline(always)]
    fn float(&mut self, r: usize, w: u32, code: u32, p: u16) {
        self.record(1, r as u32, self.s.float[r], 0);
        self.s.float[r] = w;
        self.s.code = code;
        self.s.pointer = p;
    }
    #[inline(always)]
    fn pair(&mut self, r: usize, h: u32, l: u32, code: u32, p: u16) {
        let r2 = (r + 1) % 8;
        self.record(2, r as u32, self.s.float[r], self.s.float[r2]);
        self.s.float[r] = h;
        self.s.float[r2] = l;
        self.s.code = code;
        self.s.pointer = p;
    }
    #[inline(always)]
    fn general(&mut self, r: usize, w: u32, code: u32, p: u16) {
        let set = set(self.s);
        self.record(3, r as u32, self.s.general[set][r], 0);
        self.s.general[set][r] = w;
        self.s.code = code;
        self.s.pointer = p;
    }
    #[inline(always)]
    fn nothing(&mut self, code: u32, p: u16) {
        self.record(0, 0, 0, 0);
        self.s.code = code;
        self.s.pointer = p;
    }
    /// UM and SET.
    #[inline(always)]
    fn hold(&mut self, mask: u32, selector: u32, p: u16) {
        self.record(0, 0, 0, 0);
        self.s.mask = mask;
        self.s.selector = selector;
        self.s.pointer = p;
        self.held = self.held & 1 << 23 | held(self.s);
    }
}

const LIMITS: [(u16, u16, u16, u8, u8); 36] = {
    let mut t = [(0u16, 0u16, 0u16, 0u8, 0u8); 36];
    let mut k = 1;
    while k < 36 {
        t[k] = match k {
            1 | 4 | 5 | 7 | 9 | 10 | 11 | 13 | 23 | 25 | 27 | 29 | 31 | 33 => (7, 7, 0, 0, 0),
            15 | 18 => (7, 7, 65535, 2, 2),
            16 => (7, 7, 65535, 4, 4),
            2 | 6 | 12 | 17 | 24 | 26 | 32 => (7, 7, 65535, 2, 0),
            3 | 8 | 14 | 28 | 30 | 34 => (7, 7, 65535, 4, 0),
            19 | 35 => (0, 1, 0, 0, 0),
            22 => (0, 0, 0, 0, 0),
            _ => (7, 0, 65535, 0, 0),
        };
        k += 1;
    }
    t
};

/// The bits of up to eight halfwords are in two bytes.
#[inline(always)]
fn any_protected(list: &[u8], a: usize, span: usize) -> bool {
    let two = u16::from_le_bytes([list[a / 8], list.get(a / 8 + 1).copied().unwrap_or(0)]);
    two >> (a % 8) & ((1 << span) - 1) != 0
}

#[inline(always)]
fn sound(s: &Seat) -> bool {
    matches!(s.code, 0 | 1 | 3) && (s.mask | s.selector) < 2
}

pub fn run(st: &mut State, seat: u32, b: &mut Buffers, limit: u32) -> (u32, u8) {
    let State { seats, used } = st;
    if seat as usize >= seats.len() {
        return (0, 20);
    }
    if b.deck.len() % 4 != 0 || b.deck.len() > 16_384 {
        return (0, 1);
    }
    if b.memory.len() > 32_768 || b.journal.len() > 16_384 || b.protect.len() != b.memory.len().div_ceil(8) {
        return (0, 2);
    }
    let room = (b.journal.len() / 4) as u32;
    if !sound(&seats[0]) || !sound(&seats[1]) || *used > room {
        return (0, 3);
    }
    let (deck, memory, protect) = (&b.deck[..], &mut b.memory[..], &b.protect[..]);
    let s = &mut seats[seat as usize];
    let mut m = Run { held: held(s) | seat << 23, s, used, journal: &mut b.journal[..] };
    let mut count = 0;
    let mut stop = 0;
    while count < limit {
        let s = &*m.s;
        let p = s.pointer as usize;
        if p >= deck.len() / 4 {
            stop = 4;
            break;
        }
        let o = &deck[4 * p..4 * p + 4];
        let (code, r1, r2, at) = (o[0], o[1], o[2], o[3]);
        if code == 0 || code > 35 {
            stop = 5;
            break;
        }
        let l = LIMITS[code as usize];
        if r1 > l.0 || r2 > l.1 || at > l.2 {
            stop = 5;
            break;
        }
        if code == 22 {
            stop = 12;
            break;
        }
        if *m.used == room {
            stop = 13;
            break;
        }
        let (i, j) = ((r1 & 7) as usize, (r2 & 7) as usize);
        let general = &s.general[set(s)];
        let a = at as usize + if j == 0 { 0 } else { general[j] as u16 as usize };
        let span = l.3 as usize;
        if span > 0 && a + span > memory.len() {
            stop = 6;
            break;
        }
        if l.4 > 0 && any_protected(protect, a, span) {
            stop = 7;
            break;
        }
        let (cc, mask, next) = (s.code, s.mask, s.pointer + 1);
        let fa = s.float[i];
        let fb = s.float[(i + 1) & 7];
        match code {
            1 => {
                let w = s.float[j];
                m.float(i, w, sign_code(w >> 31 == 1, fr(w)), next);
            }
            2 => {
                let w = word(memory, a);
                m.float(i, w, sign_code(w >> 31 == 1, fr(w)), next);
            }
            3 => {
                let (h, l) = (word(memory, a), word(memory, a + 2));
                m.pair(i, h, l, sign_code(h >> 31 == 1, fr(h) << 32 | l as u64), next);
            }
            4 => {
                let w = s.float[j];
                let w = if fr(w) == 0 { 0 } else { w ^ 0x8000_0000 };
                m.float(i, w, sign_code(w >> 31 == 1, fr(w)), next);
            }
            5 | 6 => {
                let y = if code == 5 { s.float[j] } else { word(memory, a) };
                m.nothing(compare_short(fa, y), next);
            }
            7 | 8 => {
                let (h, l) =
                    if code == 7 { (s.float[j], s.float[(j + 1) & 7]) } else { (word(memory, a), word(memory, a + 2)) };
                let c = compare_long(fa, fr(fa) << 32 | fb as u64, h, fr(h) << 32 | l as u64);
                m.nothing(c, next);
            }
            9 => {
                let w = s.float[j];
                let (f, places) = (fr(w), ch(w) as i32 - 66);
                let v: i64 = if f == 0 {
                    0
                } else if places > 8 {
                    stop = 11;
                    break;
                } else {
                    let g = if places >= 0 {
                        f << (4 * places)
                    } else if places > -16 {
                        f >> (-4 * places)
                    } else {
                        0
                    } as i64;
                    if w >> 31 == 1 {
                        -g
                    } else {
                        g
                    }
                };
                let Ok(x) = i32::try_from(v) else {
                    stop = 11;
                    break;
                };
                let h = x >> 16;
                let c = if h == 0 {
                    0
                } else if h < 0 {
                    3
                } else {
                    1
                };
                m.general(i, x as u32, c, next);
            }
            10 => {
                let v = general[j] as i32;
                if v == 0 {
                    m.float(i, 0, 0, next);
                } else {
                    let g = v.unsigned_abs();
                    let z = g.leading_zeros() / 4;
                    let w = (v as u32 & 0x8000_0000) | (68 - z) << 24 | (g << (4 * z)) >> 8;
                    m.float(i, w, sign_code(v < 0, fr(w)), next);
                }
            }
            11 | 12 => {
                let y = if code == 11 { s.float[j] } else { word(memory, a) };
                match divide(ch(fa), fr(fa), ch(y), fr(y), 6, mask == 1) {
                    Q::Stop(n) => {
                        stop = n;
                        break;
                    }
                    Q::Zero => m.float(i, 0, cc, next),
                    Q::Of(c, f) => m.float(i, (fa ^ y) & 0x8000_0000 | c << 24 | f as u32, cc, next),
                }
            }
            13 | 14 => {
                let (h, l) = if code == 13 {
                    (s.float[j], s.float[(j + 1) & 7])
                } else {
                    (word(memory, a), word(memory, a + 2))
                };
                match divide(ch(fa), fr(fa) << 32 | fb as u64, ch(h), fr(h) << 32 | l as u64, 14, mask == 1) {
                    Q::Stop(n) => {
                        stop = n;
                        break;
                    }
                    Q::Zero => m.pair(i, 0, 0, cc, next),
                    Q::Of(c, f) => m.pair(i, (fa ^ h) & 0x8000_0000 | c << 24 | (f >> 32) as u32, f as u32, cc, next),
                }
            }
            15 | 18 => {
                let w = if code == 15 { fa } else { general[i] };
                m.record(4, a as u32, word(memory, a), 0);
                memory[a] = (w >> 16) as u16;
                memory[a + 1] = w as u16;
                m.s.pointer = next;
            }
            16 => {
                m.record(5, a as u32, word(memory, a), word(memory, a + 2));
                for (k, x) in [(fa >> 16) as u16, fa as u16, (fb >> 16) as u16, fb as u16].into_iter().enumerate() {
                    memory[a + k] = x;
                }
                m.s.pointer = next;
            }
            17 => {
                let w = word(memory, a);
                let c = if w == 0 {
                    0
                } else if (w as i32) < 0 {
                    3
                } else {
                    1
                };
                m.general(i, w, c, next);
            }
            19 => m.hold(r2 as u32, s.selector, next),
            20 => {
                let bit = match cc {
                    0 => 4,
                    1 => 2,
                    _ => 1,
                };
                m.nothing(cc, if r1 & bit != 0 { at } else { next });
            }
            21 => {
                let w = general[i].wrapping_sub(1);
                m.general(i, w, cc, if w != 0 { at } else { next });
            }
            23 | 24 | 25 | 26 => {
                let y = if code & 1 == 1 { s.float[j] } else { word(memory, a) };
                // 25 and 26 subtract
                let y = y ^ (code as u32 - 23) << 30 & 0x8000_0000;
                match add(fa, fr(fa), y, fr(y), 6, mask == 1) {
                    Q::Stop(n) => {
                        stop = n;
                        break;
                    }
                    Q::Zero => m.float(i, 0, 0, next),
                    Q::Of(c, f) => m.float(i, c << 24 | f as u32, if c > 127 { 3 } else { 1 }, next),
                }
            }
            27..=30 => {
                let (h, l) = if code & 1 == 1 {
                    (s.float[j], s.float[(j + 1) & 7])
                } else {
                    (word(memory, a), word(memory, a + 2))
                };
                // 29 and 30 subtract
                let h = h ^ (code as u32 - 27) << 30 & 0x8000_0000;
                match add(fa, fr(fa) << 32 | fb as u64, h, fr(h) << 32 | l as u64, 14, mask == 1) {
                    Q::Stop(n) => {
                        stop = n;
                        break;
                    }
                    Q::Zero => m.pair(i, 0, 0, 0, next),
                    Q::Of(c, f) => m.pair(i, c << 24 | (f >> 32) as u32, f as u32, if c > 127 { 3 } else { 1 }, next),
                }
            }
            31 | 32 => {
                let y = if code == 31 { s.float[j] } else { word(memory, a) };
                let sign = (fa ^ y) & 0x8000_0000;
                // an even register: both words of the long format
                let e = if i % 2 == 0 { 14 } else { 6 };
                match multiply(ch(fa), fr(fa), ch(y), fr(y), 6, e, mask == 1) {
                    Q::Stop(n) => {
                        stop = n;
                        break;
                    }
                    Q::Zero if e == 14 => m.pair(i, 0, 0, cc, next),
                    Q::Zero => m.float(i, 0, cc, next),
                    Q::Of(c, f) if e == 14 => m.pair(i, sign | c << 24 | (f >> 32) as u32, f as u32, cc, next),
                    Q::Of(c, f) => m.float(i, sign | c << 24 | f as u32, cc, next),
                }
            }
            35 => m.hold(mask, r2 as u32, next),
            _ => {
                let (h, l) = if code == 33 {
                    (s.float[j], s.float[(j + 1) & 7])
                } else {
                    (word(memory, a), word(memory, a + 2))
                };
                match multiply(ch(fa), fr(fa) << 32 | fb as u64, ch(h), fr(h) << 32 | l as u64, 14, 14, mask == 1) {
                    Q::Stop(n) => {
                        stop = n;
                        break;
                    }
                    Q::Zero => m.pair(i, 0, 0, cc, next),
                    Q::Of(c, f) => m.pair(i, (fa ^ h) & 0x8000_0000 | c << 24 | (f >> 32) as u32, f as u32, cc, next),
                }
            }
        }
        count += 1;
    }
    (count, stop)
}

// ---- deck text: one pass, values taken off a cursor; what the lines give is staged until the text is known to be good

const LONGEST: usize = 32_768;

struct Cursor<'a> {
    text: &'a [u8],
    at: usize,
}

impl Cursor<'_> {
    #[inline(always)]
    fn byte(&mut self) -> Option<u8> {
        let b = *self.text.get(self.at)?;
        self.at += 1;
        Some(b)
    }

    /// At most 65,535, without leading zeros, and the byte after it.
    #[inline(always)]
    fn decimal(&mut self, after: u8) -> Option<u16> {
        let from = self.at;
        let mut n = 0u32;
        loop {
            let b = self.byte()?;
            if b == after {
                break;
            }
            let d = b.wrapping_sub(b'0');
            if d > 9 || self.at - from > 5 {
                return None;
            }
            n = n * 10 + d as u32;
        }
        let digits = self.at - 1 - from;
        if digits == 0 || digits > 1 && self.text[from] == b'0' {
            return None;
        }
        u16::try_from(n).ok()
    }

    #[inline(always)]
    fn word(&mut self) -> Option<u16> {
        let mut n = 0u16;
        for _ in 0..4 {
            let b = self.byte()?;
            let d = match b {
                b'0'..=b'9' => b - b'0',
                b'A'..=b'F' => b - b'A' + 10,
                _ => return None,
            };
            n = n << 4 | d as u16;
        }
        (self.byte()? == b'\n').then_some(n)
    }

    #[inline(always)]
    fn mnemonic(&mut self) -> Option<u16> {
        let mut key = 0u32;
        for _ in 0..5 {
            let b = self.byte()?;
            if b == b' ' {
                return code(key);
            }
            if b == 0 || key >> 24 != 0 {
                return None;
            }
            key = key << 8 | b as u32;
        }
        None
    }

    #[inline(always)]
    fn order(&mut self) -> Option<[u16; 4]> {
        let o = [self.mnemonic()?, self.decimal(b' ')?, self.decimal(b' ')?, self.decimal(b'\n')?];
        let l = LIMITS[o[0] as usize];
        (o[1] <= l.0 && o[2] <= l.1 && o[3] <= l.2).then_some(o)
    }

    #[inline(always)]
    fn halfword(&mut self) -> Option<[u16; 3]> {
        let at = self.decimal(b' ')?;
        let protect = self.byte()?.wrapping_sub(b'0');
        if protect > 1 || self.byte()? != b' ' {
            return None;
        }
        Some([at, protect as u16, self.word()?])
    }

    fn heading(&mut self, wanted: &[u8]) -> Option<()> {
        let line = self.text.get(self.at..self.at + wanted.len())?;
        self.at += wanted.len();
        (line == wanted).then_some(())
    }
}

fn code(key: u32) -> Option<u16> {
    const fn k(name: &[u8]) -> u32 {
        let mut n = 0;
        let mut i = 0;
        while i < name.len() {
            n = n << 8 | name[i] as u32;
            i += 1;
        }
        n
    }
    macro_rules! codes {
        ($($name:ident = $n:literal),*) => {{
            $(const $name: u32 = k(stringify!($name).as_bytes());)*
            match key {
                $($name => Some($n),)*
                _ => None,
            }
        }};
    }
    codes!(
        LER = 1,
        LE = 2,
        LED = 3,
        LECR = 4,
        CER = 5,
        CE = 6,
        CEDR = 7,
        CED = 8,
        CVFX = 9,
        CVFL = 10,
        DER = 11,
        DE = 12,
        DEDR = 13,
        DED = 14,
        STE = 15,
        STED = 16,
        L = 17,
        ST = 18,
        UM = 19,
        JC = 20,
        JN = 21,
        HALT = 22,
        AER = 23,
        AE = 24,
        SER = 25,
        SE = 26,
        AEDR = 27,
        AED = 28,
        SEDR = 29,
        SED = 30,
        MER = 31,
        ME = 32,
        MEDR = 33,
        MED = 34,
        SET = 35
    )
}

/// The order count, or the number and the line of a refusal.
pub fn read(text: &[u8], cells: &mut [u16], memory: &mut [u16], protect: &mut [u8]) -> Result<u32, (u8, u32)> {
    if text.len() > LONGEST {
        return Err((17, 0));
    }
    let mut staged = [0u16; LONGEST / 2];
    let mut c = Cursor { text, at: 0 };
    let mut line = 1;
    c.heading(b"op r1 r2 at\n").ok_or((16, line))?;
    let mut n = 0;
    while c.at < text.len() && text[c.at] != b'\n' {
        line += 1;
        let o = c.order().ok_or((16, line))?;
        if n + 4 > cells.len() {
            return Err((17, line));
        }
        staged[n..n + 4].copy_from_slice(&o);
        n += 4;
    }
    let mut end = n;
    if c.at < text.len() {
        c.at += 1;
        line += 2;
        c.heading(b"at protect word\n").ok_or((16, line))?;
        let room = memory.len().min(8 * protect.len());
        let mut least = 0;
        while c.at < text.len() {
            line += 1;
            let h = c.halfword().filter(|h| h[0] as usize >= least).ok_or((16, line))?;
            if h[0] as usize >= room {
                return Err((17, line));
            }
            least = h[0] as usize + 1;
            staged[end..end + 3].copy_from_slice(&h);
            end += 3;
        }
    }
    cells[..n].copy_from_slice(&staged[..n]);
    for h in staged[n..end].chunks_exact(3) {
        memory[h[0] as usize] = h[2];
        let byte = &mut protect[h[0] as usize / 8];
        *byte = *byte & !(1 << (h[0] % 8)) | (h[1] as u8) << (h[0] % 8);
    }
    Ok((n / 4) as u32)
}

/// How many r1, r2 and `at` the orders of a code have.
#[inline(always)]
fn counts(code: u16, n: u32) -> (u32, u32, u32) {
    match code {
        1 | 4 | 5 | 7 | 9 | 10 | 11 | 13 | 23 | 25 | 27 | 29 | 31 | 33 => (8, 8, 1),
        19 | 35 => (1, 2, 1),
        20 | 21 => (8, 1, n),
        22 => (1, 1, 1),
        _ => (8, 8, n),
    }
}

/// A piece of the chart of legal orders: whole codes are skipped by their sizes, then runs of `at` are written.
pub fn chart(n: u16, rank: u32, cells: &mut [u16]) -> Result<(u32, u32), u8> {
    if cells.len() % 4 != 0 {
        return Err(19);
    }
    let (mut total, mut skip, mut end) = (0, rank, 0);
    for code in 1..=35 {
        let (r1s, r2s, ats) = counts(code, n as u32);
        let size = r1s * r2s * ats;
        total += size;
        if size <= skip {
            skip -= size;
            continue;
        }
        let (mut pair, mut at) = (skip / ats, skip % ats);
        skip = 0;
        while pair < r1s * r2s && end < cells.len() {
            let run = (ats - at).min(((cells.len() - end) / 4) as u32);
            let first = [code, (pair / r2s) as u16, (pair % r2s) as u16, at as u16];
            for (k, order) in cells[end..end + 4 * run as usize].chunks_exact_mut(4).enumerate() {
                order.copy_from_slice(&[first[0], first[1], first[2], first[3] + k as u16]);
            }
            end += 4 * run as usize;
            (pair, at) = (pair + 1, 0);
        }
    }
    Ok((total, (end / 4) as u32))
}

/// What an order reads and what it writes of the floats, then of the selected set, a bit a register.
#[inline(always)]
fn used([code, r1, r2, _]: [u16; 4]) -> (u32, u32) {
    let general = |r: u16| 256 << r;
    let float = |long: bool, r: u16| if long { 1 << r | 1 << ((r + 1) & 7) } else { 1 << r };
    let long = matches!(code, 3 | 7 | 8 | 13 | 14 | 16 | 27..=30 | 33 | 34);
    let index = if r2 == 0 { 0 } else { general(r2) };
    let (first, second) = (float(long, r1), float(long, r2));
    match code {
        1 | 4 => (second, first),
        2 | 3 => (index, first),
        5 | 7 => (first | second, 0),
        6 | 8 | 15 | 16 => (first | index, 0),
        9 => (second, general(r1)),
        10 => (general(r2), first),
        11 | 13 | 23 | 25 | 27 | 29 | 33 => (first | second, first),
        12 | 14 | 24 | 26 | 28 | 30 | 34 => (first | index, first),
        17 => (index, general(r1)),
        18 => (general(r1) | index, 0),
        21 => (general(r1), general(r1)),
        31 => (first | second, float(r1 & 1 == 0, r1)),
        32 => (first | index, float(r1 & 1 == 0, r1)),
        _ => (0, 0),
    }
}

/// The same of the floats, set 0 and set 1.
#[inline(always)]
fn of_set(bits: u32, set: usize) -> u32 {
    bits & 255 | (bits & 0xff00) << (8 * set)
}

/// Registers read before they are set, all 24 at a time: sweeps through the deck with what reaches each order unwritten, from
/// the lowest order to which a jump back brought more.
pub fn unset(deck: &[u16]) -> Result<Option<[u32; 3]>, u8> {
    if deck.len() % 4 != 0 || deck.len() > 16_384 {
        return Err(1);
    }
    let n = deck.len() / 4;
    let cells = |p: usize| [deck[4 * p], deck[4 * p + 1], deck[4 * p + 2], deck[4 * p + 3]];
    let legal = |o: [u16; 4]| {
        let l = LIMITS[if o[0] < 36 { o[0] as usize } else { 0 }];
        o[0].wrapping_sub(1) < 35 && o[1] <= l.0 && o[2] <= l.1 && o[3] <= l.2
    };
    if !(0..n).all(|p| legal(cells(p))) {
        return Err(5);
    }
    // by order and set, what reaches it unwritten, and what of that went on from it
    let mut bits = vec![[[0u32; 2]; 2]; n + 1];
    bits[0][0][0] = 0xff_ffff;
    let mut low = 0;
    while low < n {
        let from = low;
        low = n;
        for p in from..n {
            if bits[p][0][0] == bits[p][0][1] && bits[p][1][0] == bits[p][1][1] {
                continue;
            }
            let o = cells(p);
            let (_, written) = used(o);
            for set in 0..2 {
                let [here, gone] = &mut bits[p][set];
                if here == gone {
                    continue;
                }
                *gone = *here;
                let on = *here & !of_set(written, set);
                if o[0] == 22 {
                    continue;
                }
                bits[p + 1][if o[0] == 35 { (o[2] & 1) as usize } else { set }][0] |= on;
                let at = o[3] as usize;
                if matches!(o[0], 20 | 21) && at < n && bits[at][set][0] | on != bits[at][set][0] {
                    bits[at][set][0] |= on;
                    if at <= p {
                        low = low.min(at);
                    }
                }
            }
        }
    }
    for p in 0..n {
        let (read, _) = used(cells(p));
        let unset = of_set(read, 0) & bits[p][0][0] | of_set(read, 1) & bits[p][1][0];
        if unset != 0 {
            let k = unset.trailing_zeros();
            return Ok(Some([p as u32, k / 8, k % 8]));
        }
    }
    Ok(None)
}

/// The shortest stretch that still stops, by trials on copies: nothing is taken back, and memory is copied again only where an
/// order of the deck stores to it.
pub fn stretch(s: &State, seat: u32, b: &Buffers) -> Result<[u32; 3], u8> {
    let mut copy = b.clone();
    let (_, refused) = run(&mut s.clone(), seat, &mut copy, 0);
    if refused != 0 {
        return Err(refused);
    }
    let codes = || b.deck.iter().step_by(4);
    if codes().any(|code| matches!(code, 20 | 21)) {
        return Err(21);
    }
    let stores = codes().any(|code| matches!(code, 15 | 16 | 18));
    let mut trial = |first: u16, limit: u32| {
        let mut there = *s;
        there.seats[seat as usize].pointer = first;
        let ran = run(&mut there, seat, &mut copy, limit);
        if stores {
            copy.memory.copy_from_slice(&b.memory);
        }
        ran
    };
    let pointer = s.seats[seat as usize].pointer;
    let (count, stop) = trial(pointer, u32::MAX);
    if !(6..=11).contains(&stop) {
        return Err(21);
    }
    let last = pointer + count as u16;
    let mut first = last;
    while first > pointer && trial(first, (last - first) as u32 + 1) != ((last - first) as u32, stop) {
        first -= 1;
    }
    Ok([first as u32, last as u32, stop as u32])
}
