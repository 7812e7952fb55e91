//! The proved library, as C sees it. Nothing checks these declarations against the Rattle source but the comparison.
use crate::reference::{Seat, State};

#[repr(C)]
#[derive(Clone, Copy)]
struct Status {
    condition: u32,
    mask: u32,
    pointer: u16,
    selector: u16,
}

#[repr(C)]
#[derive(Clone, Copy)]
pub struct Registers {
    float: [u32; 8],
    status: Status,
    general: [[u32; 8]; 2],
}

#[repr(C)]
struct Answer {
    number: u32,
    value: u32,
}

#[repr(C)]
struct Cause {
    number: u32,
    count: u32,
    values: [u32; 4],
}

#[repr(C)]
struct Piece {
    number: u32,
    total: u32,
    written: u32,
}

#[repr(C)]
struct Finding {
    number: u32,
    found: u32,
    order: u32,
    kind: u32,
    reg: u32,
}

#[repr(C)]
struct Interval {
    number: u32,
    first: u32,
    last: u32,
    stop: u32,
}

#[repr(C)]
#[derive(Clone, Copy)]
pub struct Lent {
    seats: [Registers; 2],
    used: u32,
}

extern "C" {
    fn panel_fresh(state: *mut Lent);
    fn panel_step(
        state: *mut Lent,
        seat: u32,
        deck: *const u16,
        deck_len: usize,
        memory: *mut u16,
        memory_len: usize,
        protect: *const u8,
        protect_len: usize,
        journal: *mut u32,
        journal_len: usize,
    ) -> u8;
    fn panel_run(
        state: *mut Lent,
        seat: u32,
        deck: *const u16,
        deck_len: usize,
        memory: *mut u16,
        memory_len: usize,
        protect: *const u8,
        protect_len: usize,
        journal: *mut u32,
        journal_len: usize,
        limit: u32,
    ) -> Answer;
    fn panel_back(
        state: *mut Lent,
        memory: *mut u16,
        memory_len: usize,
        protect: *const u8,
        protect_len: usize,
        journal: *mut u32,
        journal_len: usize,
    ) -> Answer;
    fn panel_why(
        state: *const Lent,
        seat: u32,
        deck: *const u16,
        deck_len: usize,
        memory: *const u16,
        memory_len: usize,
        protect: *const u8,
        protect_len: usize,
        journal: *const u32,
        journal_len: usize,
    ) -> Cause;
    fn panel_read(
        text: *const u8,
        text_len: usize,
        cells: *mut u16,
        cells_len: usize,
        memory: *mut u16,
        memory_len: usize,
        protect: *mut u8,
        protect_len: usize,
    ) -> Answer;
    fn panel_chart(bound: u16, rank: u32, cells: *mut u16, cells_len: usize) -> Piece;
    fn panel_unset(deck: *const u16, deck_len: usize) -> Finding;
    fn panel_stretch(
        state: *const Lent,
        seat: u32,
        deck: *const u16,
        deck_len: usize,
        memory: *mut u16,
        memory_len: usize,
        protect: *const u8,
        protect_len: usize,
        journal: *mut u32,
        journal_len: usize,
    ) -> Interval;
}

impl From<Seat> for Registers {
    fn from(s: Seat) -> Registers {
        let Seat { float, general, selector, code, mask, pointer } = s;
        // states have selectors of 16 bits here
        let status = Status { condition: code, mask, pointer, selector: selector as u16 };
        Registers { float, general, status }
    }
}

impl From<Registers> for Seat {
    fn from(r: Registers) -> Seat {
        let Registers { float, general, status } = r;
        let Status { condition, mask, pointer, selector } = status;
        Seat { float, general, selector: selector as u32, code: condition, mask, pointer }
    }
}

impl From<State> for Lent {
    fn from(s: State) -> Lent {
        Lent { seats: s.seats.map(Registers::from), used: s.used }
    }
}

impl From<Lent> for State {
    fn from(l: Lent) -> State {
        State { seats: l.seats.map(Seat::from), used: l.used }
    }
}

pub fn fresh(s: &mut Lent) {
    unsafe { panel_fresh(s) }
}

#[inline]
pub fn step(s: &mut Lent, seat: u32, deck: &[u16], memory: &mut [u16], protect: &[u8], journal: &mut [u32]) -> u8 {
    unsafe {
        panel_step(
            s,
            seat,
            deck.as_ptr(),
            deck.len(),
            memory.as_mut_ptr(),
            memory.len(),
            protect.as_ptr(),
            protect.len(),
            journal.as_mut_ptr(),
            journal.len(),
        )
    }
}

#[inline]
pub fn run(
    s: &mut Lent,
    seat: u32,
    deck: &[u16],
    memory: &mut [u16],
    protect: &[u8],
    journal: &mut [u32],
    limit: u32,
) -> (u32, u8) {
    let a = unsafe {
        panel_run(
            s,
            seat,
            deck.as_ptr(),
            deck.len(),
            memory.as_mut_ptr(),
            memory.len(),
            protect.as_ptr(),
            protect.len(),
            journal.as_mut_ptr(),
            journal.len(),
            limit,
        )
    };
    (a.value, a.number as u8)
}

/// The seat whose step was taken back, or the number of the refusal, which names none.
#[inline]
pub fn back(s: &mut Lent, memory: &mut [u16], protect: &[u8], journal: &mut [u32]) -> Result<u32, u8> {
    let a = unsafe {
        panel_back(
            s,
            memory.as_mut_ptr(),
            memory.len(),
            protect.as_ptr(),
            protect.len(),
            journal.as_mut_ptr(),
            journal.len(),
        )
    };
    if a.number == 0 {
        return Ok(a.value);
    }
    assert_eq!(a.value, 0);
    Err(a.number as u8)
}

/// A number and what it names; values past the count are 0.
pub fn why(s: &Lent, seat: u32, deck: &[u16], memory: &[u16], protect: &[u8], journal: &[u32]) -> (u8, Vec<u32>) {
    let c = unsafe {
        panel_why(
            s,
            seat,
            deck.as_ptr(),
            deck.len(),
            memory.as_ptr(),
            memory.len(),
            protect.as_ptr(),
            protect.len(),
            journal.as_ptr(),
            journal.len(),
        )
    };
    let (values, rest) = c.values.split_at(c.count as usize);
    assert!(rest.iter().all(|v| *v == 0));
    (c.number as u8, values.to_vec())
}

#[inline]
pub fn read(text: &[u8], cells: &mut [u16], memory: &mut [u16], protect: &mut [u8]) -> Result<u32, (u8, u32)> {
    let a = unsafe {
        panel_read(
            text.as_ptr(),
            text.len(),
            cells.as_mut_ptr(),
            cells.len(),
            memory.as_mut_ptr(),
            memory.len(),
            protect.as_mut_ptr(),
            protect.len(),
        )
    };
    match a.number {
        0 => Ok(a.value),
        n => Err((n as u8, a.value)),
    }
}

/// The total and the orders written, or the number of the refusal.
#[inline]
pub fn chart(bound: u16, rank: u32, cells: &mut [u16]) -> Result<(u32, u32), u8> {
    let p = unsafe { panel_chart(bound, rank, cells.as_mut_ptr(), cells.len()) };
    match p.number {
        0 => Ok((p.total, p.written)),
        n => Err(n as u8),
    }
}

/// The order, the register's kind and its number, or the number of the refusal. What is not named is 0.
#[inline]
pub fn unset(deck: &[u16]) -> Result<Option<[u32; 3]>, u8> {
    let f = unsafe { panel_unset(deck.as_ptr(), deck.len()) };
    let named = [f.order, f.kind, f.reg];
    match (f.number, f.found) {
        (0, 1) => return Ok(Some(named)),
        (_, found) => assert!(found == 0 && named == [0; 3]),
    }
    match f.number {
        0 => Ok(None),
        n => Err(n as u8),
    }
}

/// The first order and the last of the shortest stretch, and the number that it stops by, or the number of the refusal. What is
/// not named is 0.
#[inline]
pub fn stretch(
    s: &Lent,
    seat: u32,
    deck: &[u16],
    memory: &mut [u16],
    protect: &[u8],
    journal: &mut [u32],
) -> Result<[u32; 3], u8> {
    let i = unsafe {
        panel_stretch(
            s,
            seat,
            deck.as_ptr(),
            deck.len(),
            memory.as_mut_ptr(),
            memory.len(),
            protect.as_ptr(),
            protect.len(),
            journal.as_mut_ptr(),
            journal.len(),
        )
    };
    let named = [i.first, i.last, i.stop];
    match i.number {
        0 => Ok(named),
        n => {
            assert_eq!(named, [0; 3]);
            Err(n as u8)
        }
    }
}
