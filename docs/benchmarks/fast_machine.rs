//! The machine's inner loop in plain Rust, in a fast form, for comparison: words stay packed from the queue to the slot and back, a queue
//! that slides, one jump for an instruction, a way of its own for each port. Each instruction is read from its 16 bytes when it is run. 1, 2
//! or 4 elements, a number that is known when this is compiled: one alone asks for no other, and several run in a thread each. It is no part
//! of what is proved, and an index whose bound the opened object gives is not checked.
//!
//! Build: rustc --edition 2021 -O fast_machine.rs. Run: fast_machine OBJECT INPUT [FRAMES [ELEMENTS [LOOK]]]. An object is taken to be sound.
//! FRAMES are those of one element. Of several elements, each looks at its boxes when it has made LOOK events, or has no token.
//!
//! A token is three words: `h` and `v` are its word as a slot holds it (state byte 0); `a` is where it goes: for an instruction
//! `frame << 32 | ip << 1 | port` with bit 31 clear; else bit 31, a kind in bits 24 to 30, and the rest above.

mod sound_object;

use sound_object::Code;
use std::array;
use std::collections::VecDeque;
use std::sync::atomic::{AtomicI64, Ordering::SeqCst};
use std::sync::{Mutex, OnceLock};
use std::thread;
use std::time::Instant;

const INT: u64 = 1 << 8;
const ZERO: u64 = 2 << 8;
const RANGE: u64 = 3 << 8;
const FRAME: u64 = 4 << 8;
const BACK: u64 = 5 << 8;
const HOST: u64 = 6 << 8;
const KIND: u64 = 0xff00;

/// The low half of an address.
const LOW: u64 = u32::MAX as u64;
/// In the low half of an address: for no instruction.
const AWAY: u64 = 1 << 31;
const TO_FETCH: u64 = AWAY;
/// A store's `h` has the value's kind, and bit 16 and bits 32 up of its continuation, bit 17 for a host's; `a` has the continuation's frame in bits 32 to 47 and the cell in bits 48 up.
const TO_STORE: u64 = AWAY | 1 << 24;
const TO_MANAGER: u64 = AWAY | 2 << 24;
const TO_RELEASE: u64 = AWAY | 3 << 24;
const TO_HOST: u64 = AWAY | 4 << 24;
/// An ip that no instruction has, found where an offset is added.
const TO_NOWHERE: u64 = AWAY | 5 << 24;

#[derive(Clone, Copy, PartialEq, Debug)]
enum Stop {
    /// The turn is over, or there is no room.
    Turn,
    Idle,
    Clash(u32),
    Stuck(u8),
}

type Token = [u64; 3];

/// The element of `N` that a token goes to, by its address. Frames and cells go round the elements: frame `f` is place `f / N` of element
/// `f % N`, and so is a cell. The frame manager and the outputs are those of element 0.
#[inline(always)]
fn element_of<const N: usize>(a: u64) -> usize {
    let number = match a & LOW {
        low if low & AWAY == 0 => a >> 32, // a frame
        TO_FETCH => a >> 32,
        TO_STORE => a >> 48,
        _ => 0,
    };
    number as usize % N
}

struct Cell {
    h: u64,
    v: u64,
    readers: Vec<(u64, u64)>,
}

struct Manager {
    free: Vec<u64>,
    top: [u64; 4],
    waiting: VecDeque<(u64, u64)>,
    out: u64,
}

impl Manager {
    fn new(n: u32) -> Manager {
        let mut m = Manager { free: vec![0; n.div_ceil(64) as usize], top: [0; 4], waiting: VecDeque::new(), out: n as u64 };
        for f in 1..n {
            m.give(f);
        }
        m
    }

    #[inline]
    fn give(&mut self, f: u32) {
        let w = f as usize / 64;
        self.free[w] |= 1 << (f % 64);
        self.top[w / 64] |= 1 << (w % 64);
        self.out -= 1;
    }

    #[inline]
    fn take(&mut self) -> Option<u32> {
        for t in 0..4 {
            if self.top[t] != 0 {
                let w = t * 64 + self.top[t].trailing_zeros() as usize;
                let b = self.free[w].trailing_zeros();
                self.free[w] &= self.free[w] - 1;
                if self.free[w] == 0 {
                    self.top[t] &= self.top[t] - 1;
                }
                self.out += 1;
                return Some(w as u32 * 64 + b);
            }
        }
        None
    }
}

/// An element of `N`: its slots, its queue, its cells, and the frame manager and the outputs, which only element 0 uses.
struct Lane<'a, const N: usize> {
    code: &'a Code<'a>,
    element: usize,
    slots: Vec<[u64; 2]>,
    width: usize,
    /// The words of its tokens, from `head` to `tail`.
    buf: Vec<u64>,
    head: usize,
    tail: usize,
    cells: Vec<Cell>,
    manager: Manager,
    outputs: Vec<Option<(u64, u64)>>,
    done: bool,
    made: u64,
    /// Its tokens for each other element that are not posted yet.
    sent: [Vec<Token>; N],
}

/// `c` plus an offset.
#[inline(always)]
fn beyond(h: u64, v: u64, offset: u64, end: u64) -> u64 {
    if h & KIND == BACK {
        let at = ((h >> 31) & !1) + 2 * offset;
        if at >= end {
            return TO_NOWHERE | at << 32;
        }
        v << 32 | at
    } else {
        TO_HOST | ((h >> 32) + offset) << 32
    }
}

/// `c` itself, with its port.
#[inline(always)]
fn back_to(h: u64, v: u64) -> u64 {
    if h & KIND == BACK {
        v << 32 | (h >> 31) & !1 | h >> 16 & 1
    } else {
        TO_HOST | h >> 32 << 32
    }
}

/// The head of the word `Back` with the place `at`.
#[inline(always)]
fn answer(at: u64) -> u64 {
    BACK | (at & 1) << 16 | ((at as u32) as u64 >> 1) << 32
}

#[inline(always)]
fn ints(op: u8, x: i64, y: i64) -> i64 {
    match op {
        1 => x.wrapping_add(y),
        2 => x.wrapping_sub(y),
        3 => x.wrapping_mul(y),
        6 => x & y,
        7 => x | y,
        8 => x ^ y,
        9 => x.wrapping_shl(y as u32),
        10 => x.wrapping_shr(y as u32),
        11 => i64::from(x == y),
        12 => i64::from(x != y),
        13 => i64::from(x < y),
        _ => i64::from(x <= y),
    }
}

/// An operator on any packed words; an `Err` is the rule of `Stuck`. `operand` has the origin in its high half.
#[cold]
#[inline(never)]
fn apply(op: u8, lh: u64, lv: u64, rh: u64, rv: u64, operand: u64) -> Result<(u64, u64), u8> {
    let (lk, rk) = (lh & KIND, rh & KIND);
    if lk > RANGE || rk > RANGE {
        return Err(4);
    }
    if lk != INT {
        return Ok((lk, lv));
    }
    if rk != INT {
        return Ok((rk, rv));
    }
    Ok(match op {
        4 | 5 if rv == 0 => (ZERO, operand >> 32),
        4 => (INT, (lv as i64).wrapping_div(rv as i64) as u64),
        5 => (INT, (lv as i64).wrapping_rem(rv as i64) as u64),
        _ => (INT, ints(op, lv as i64, rv as i64) as u64),
    })
}

impl<'a, const N: usize> Lane<'a, N> {
    fn new(code: &'a Code<'a>, element: usize, frames: u32) -> Lane<'a, N> {
        let elements = N as u32;
        Lane {
            code,
            element,
            slots: vec![[0, 0]; frames as usize * code.slots],
            width: code.slots,
            buf: Vec::new(),
            head: 0,
            tail: 0,
            cells: (0..code.cells.div_ceil(elements)).map(|_| Cell { h: 0, v: 0, readers: Vec::new() }).collect(),
            manager: Manager::new(frames * elements),
            outputs: vec![None; code.outputs],
            done: false,
            made: 0,
            sent: array::from_fn(|_| Vec::new()),
        }
    }

    /// Puts a token into the queue, or with what is sent to the element that it goes to.
    fn send(&mut self, t: Token) {
        let to = element_of::<N>(t[2]);
        if to == self.element { self.push(t) } else { self.sent[to].push(t) }
    }

    fn push(&mut self, t: Token) {
        if self.room() == 0 {
            self.make_room(1);
        }
        self.put(t);
    }

    #[inline]
    fn put(&mut self, t: Token) {
        self.buf[self.tail..self.tail + 3].copy_from_slice(&t);
        self.tail += 3;
    }

    fn len(&self) -> usize {
        (self.tail - self.head) / 3
    }

    /// How many tokens can go in.
    #[inline]
    fn room(&self) -> usize {
        (self.buf.len() - self.tail) / 3
    }

    /// Slides the tokens to the beginning, or grows.
    #[cold]
    #[inline(never)]
    fn make_room(&mut self, n: usize) {
        if self.room() >= n {
            return;
        }
        let words = 3 * self.len();
        if self.buf.len() >= 4 * (words + 3 * n) {
            self.buf.copy_within(self.head..self.tail, 0);
        } else {
            let mut buf = vec![0; (8 * (words + 3 * n)).max(3072)];
            buf[..words].copy_from_slice(&self.buf[self.head..self.tail]);
            self.buf = buf;
        }
        self.head = 0;
        self.tail = words;
    }

    /// A token that is for no instruction. Its own place is out of the queue already.
    #[inline(never)]
    fn away(&mut self, a: u64, h: u64, v: u64) -> Stop {
        match a >> 24 & 127 {
            0 => {
                let cell = &mut self.cells[(a >> 32) as usize / N];
                if cell.h != 0 {
                    let t = [cell.h, cell.v, back_to(h, v)];
                    self.send(t);
                } else {
                    cell.readers.push((h, v));
                }
            }
            1 => {
                let number = (a >> 48) as usize;
                let place = number / N;
                let kind = h & KIND;
                if self.cells[place].h != 0 {
                    return Stop::Clash(number as u32);
                }
                let readers = std::mem::take(&mut self.cells[place].readers);
                self.cells[place].h = kind;
                self.cells[place].v = v;
                for (rh, rv) in readers {
                    self.send([kind, v, back_to(rh, rv)]);
                }
                let back = if h >> 17 & 1 == 1 { TO_HOST | h >> 32 << 32 } else { (a >> 32 & 0xffff) << 32 | (h >> 31) & !1 | h >> 16 & 1 };
                self.send([kind, v, back]);
            }
            2 => match self.manager.take() {
                Some(f) => self.send([FRAME, f as u64, back_to(h, v)]),
                None => self.manager.waiting.push_back((h, v)),
            },
            3 => {
                let f = (a >> 32) as u32;
                if self.manager.free[f as usize / 64] >> (f % 64) & 1 == 1 {
                    return Stop::Stuck(5);
                }
                match self.manager.waiting.pop_front() {
                    Some((h, v)) => self.send([FRAME, f as u64, back_to(h, v)]),
                    None => self.manager.give(f),
                }
            }
            4 => {
                let port = (a >> 32) as usize;
                let n = self.outputs.len();
                if port > n || port == n && self.done || port < n && self.outputs[port].is_some() {
                    return Stop::Stuck(6);
                }
                if port == n {
                    self.done = true;
                } else if h & KIND > RANGE {
                    return Stop::Stuck(4);
                } else {
                    self.outputs[port] = Some((h & KIND, v));
                }
            }
            _ => return Stop::Stuck(1),
        }
        Stop::Turn
    }
}

#[inline(always)]
fn get(words: &[u64], i: usize) -> u64 {
    unsafe { *words.get_unchecked(i) }
}

#[inline(always)]
fn set(words: &mut [u64], i: usize, x: u64) {
    unsafe { *words.get_unchecked_mut(i) = x }
}

#[inline(always)]
fn load(bytes: &[u8], place: usize) -> u64 {
    unsafe { (bytes.as_ptr().add(place) as *const u64).read_unaligned() }
}

/// A token at an instruction: its word, its address without the port, its halves, and the instruction's first word.
#[derive(Clone, Copy)]
struct At {
    h: u64,
    v: u64,
    here: u64,
    at: usize,
    frame: u64,
    word: u64,
}

/// What a turn works on.
struct Work<'w, const N: usize> {
    code: &'w Code<'w>,
    instrs: &'w [u8],
    literals: &'w [u8],
    ends: u64,
    slots: &'w mut [[u64; 2]],
    width: usize,
    queue: &'w mut [u64],
    tail: usize,
    element: usize,
    sent: &'w mut [Vec<Token>; N],
}

const DID: u8 = 0;

impl<const N: usize> Work<'_, N> {
    #[inline(always)]
    fn put(&mut self, h: u64, v: u64, a: u64) {
        set(self.queue, self.tail, h);
        set(self.queue, self.tail + 1, v);
        set(self.queue, self.tail + 2, a);
        self.tail += 3;
    }

    /// As `Lane::send`, where there is room. A token that stays in its frame stays on its element, so it needs `put` alone.
    #[inline(always)]
    fn send(&mut self, h: u64, v: u64, a: u64) {
        let to = element_of::<N>(a);
        if N == 1 || to == self.element {
            self.put(h, v, a);
        } else {
            self.sent[to].push([h, v, a]);
        }
    }

    #[inline(always)]
    fn dest(&mut self, t: &At, half: u16, h: u64, v: u64) {
        if half != 0 {
            self.put(h, v, t.here + half.rotate_left(1) as u64);
        }
    }

    #[inline(always)]
    fn both(&mut self, t: &At, h: u64, v: u64) {
        self.dest(t, (t.word >> 32) as u16, h, v);
        self.dest(t, (t.word >> 48) as u16, h, v);
    }

    #[inline(always)]
    fn operand(&self, t: &At) -> u64 {
        load(self.instrs, 8 * t.at + 8)
    }

    #[inline(always)]
    fn literal(&self, t: &At) -> u64 {
        load(self.literals, 8 * self.operand(t) as u32 as usize)
    }

    #[inline(always)]
    fn place(&self, t: &At) -> usize {
        t.frame as usize / N * self.width + (t.word >> 16 & 0xffff) as usize
    }

    #[inline(always)]
    fn slot(&self, place: usize) -> [u64; 2] {
        unsafe { *self.slots.get_unchecked(place) }
    }

    #[inline(always)]
    fn set_slot(&mut self, place: usize, s: [u64; 2]) {
        unsafe { *self.slots.get_unchecked_mut(place) = s }
    }

    /// Meets at the slot; what fires has its left and its right word, whose state bytes are not cleared.
    #[inline(always)]
    fn pair<const R: bool>(&mut self, t: &At, fires: impl FnOnce(&mut Self, u64, u64, u64, u64, usize) -> u8) -> u8 {
        let place = self.place(t);
        let [s, sv] = self.slot(place);
        if s == 0 {
            self.set_slot(place, [t.h + 1 + R as u64, t.v]);
            return DID;
        }
        if s as u8 != 2 - R as u8 {
            return 3;
        }
        if R { fires(self, s, sv, t.h, t.v, place) } else { fires(self, t.h, t.v, s, sv, place) }
    }

    #[inline(always)]
    fn operator<const R: bool>(&mut self, op: u8, t: &At) -> u8 {
        if t.word & 0xff00 != 0 {
            return self.lone::<R>(op, t);
        }
        let place = self.place(t);
        let [s, sv] = self.slot(place);
        if s == 0 {
            self.set_slot(place, [t.h + 1 + R as u64, t.v]);
            return DID;
        }
        if s == INT + 2 - R as u64 && t.h == INT && op != 4 && op != 5 {
            self.set_slot(place, [0, 0]);
            let (x, y) = if R { (sv, t.v) } else { (t.v, sv) };
            self.both(t, INT, ints(op, x as i64, y as i64) as u64);
            return DID;
        }
        if s as u8 != 2 - R as u8 {
            return 3;
        }
        let operand = self.operand(t);
        let (rule, h, v) = if R { applied(op, s, sv, t.h, t.v, operand) } else { applied(op, t.h, t.v, s, sv, operand) };
        if rule == DID {
            self.set_slot(place, [0, 0]);
            self.both(t, h, v);
        }
        rule
    }

    #[inline(always)]
    fn lone<const R: bool>(&mut self, op: u8, t: &At) -> u8 {
        let literal = self.literal(t);
        let left = t.word & 0x200 != 0;
        if t.h == INT && op != 4 && op != 5 {
            let (x, y) = if left { (literal, t.v) } else { (t.v, literal) };
            self.both(t, INT, ints(op, x as i64, y as i64) as u64);
            return DID;
        }
        let operand = self.operand(t);
        let (rule, h, v) = if left { applied(op, INT, literal, t.h, t.v, operand) } else { applied(op, t.h, t.v, INT, literal, operand) };
        if rule == DID {
            self.both(t, h, v);
        }
        rule
    }

    #[inline(always)]
    fn there(&self, t: &At) -> u64 {
        t.at as u64 + ((t.word >> 32) as u16).rotate_left(1) as u64
    }

    #[inline(always)]
    fn request(&mut self, store: bool, t: &At, ih: u64, iv: u64, vh: u64, vv: u64) -> u8 {
        let operand = self.operand(t);
        let (base, len) = self.code.arrays[operand as u32 as usize];
        let there = self.there(t);
        if ih & KIND != INT {
            self.put(ih & KIND, iv, t.frame << 32 | there);
        } else if iv >= len as u64 {
            self.put(RANGE, operand >> 32, t.frame << 32 | there);
        } else if store {
            self.send(answer(there) & !KIND | vh & KIND, vv, TO_STORE | t.frame << 32 | (base as u64 + iv) << 48);
        } else {
            self.send(answer(there), t.frame, TO_FETCH | (base as u64 + iv) << 32);
        }
        DID
    }

    /// One way for each port; `R` is the right one.
    #[inline(always)]
    fn at<const R: bool>(&mut self, t: &At) -> u8 {
        match (t.word & 31) as u8 {
            1 => self.operator::<R>(1, t),
            2 => self.operator::<R>(2, t),
            3 => self.operator::<R>(3, t),
            4 => self.operator::<R>(4, t),
            5 => self.operator::<R>(5, t),
            6 => self.operator::<R>(6, t),
            7 => self.operator::<R>(7, t),
            8 => self.operator::<R>(8, t),
            9 => self.operator::<R>(9, t),
            10 => self.operator::<R>(10, t),
            11 => self.operator::<R>(11, t),
            12 => self.operator::<R>(12, t),
            13 => self.operator::<R>(13, t),
            14 => self.operator::<R>(14, t),
            19 => self.pair::<R>(t, |w, _, _, _, _, place| {
                w.set_slot(place, [0, 0]);
                w.both(t, INT, 0);
                DID
            }),
            20 => self.pair::<R>(t, |w, lh, lv, rh, rv, place| {
                if rh & KIND > RANGE {
                    return 4;
                }
                w.set_slot(place, [0, 0]);
                let half = if rh & KIND == INT && rv != 0 { t.word >> 32 } else { t.word >> 48 };
                w.dest(t, half as u16, lh & !255, lv);
                DID
            }),
            22 => self.pair::<R>(t, |w, lh, lv, rh, rv, place| {
                if lh & KIND > RANGE || rh & KIND > RANGE {
                    return 4;
                }
                w.set_slot(place, [0, 0]);
                w.request(true, t, lh, lv, rh, rv)
            }),
            25 => self.pair::<R>(t, |w, lh, lv, rh, rv, place| {
                if lh & KIND != FRAME {
                    return 4;
                }
                w.set_slot(place, [0, 0]);
                let operand = w.operand(t);
                let entry = unsafe { *w.code.entries.get_unchecked((operand >> 16) as usize) } as u64 + (operand & 0xffff);
                w.send(rh & !255, rv, lv << 32 | entry << 1);
                w.both(t, INT, 0);
                DID
            }),
            26 => self.pair::<R>(t, |w, lh, lv, rh, rv, place| {
                if lh & KIND < BACK || rh & KIND > RANGE {
                    return 4;
                }
                w.set_slot(place, [0, 0]);
                w.send(rh & KIND, rv, beyond(lh, lv, w.operand(t), w.ends));
                w.both(t, INT, 0);
                DID
            }),
            27 => self.pair::<R>(t, |w, lh, lv, _, _, place| {
                if lh & KIND < BACK {
                    return 4;
                }
                w.set_slot(place, [0, 0]);
                w.send(answer(w.there(t)), t.frame, beyond(lh, lv, w.operand(t), w.ends));
                DID
            }),
            0 => self.pair::<R>(t, |w, lh, lv, _, _, place| {
                if lh & KIND < BACK {
                    return 4;
                }
                w.set_slot(place, [0, 0]);
                w.send(INT, 0, TO_RELEASE | t.frame << 32);
                w.send(INT, 0, beyond(lh, lv, w.operand(t), w.ends));
                DID
            }),
            _ if R => 2,
            15 => self.neg(t, |x| x.wrapping_neg()),
            16 => self.neg(t, |x| !x),
            17 => {
                let v = self.literal(t);
                self.both(t, INT, v);
                DID
            }
            18 => {
                self.both(t, t.h, t.v);
                DID
            }
            21 => {
                if t.h & KIND > RANGE {
                    return 4;
                }
                self.request(false, t, t.h, t.v, INT, 0)
            }
            23 => {
                self.send(answer(self.there(t)), t.frame, TO_MANAGER);
                DID
            }
            24 => {
                if t.h != FRAME {
                    return 4;
                }
                let entry = unsafe { *self.code.entries.get_unchecked(self.operand(t) as usize) } as u64;
                self.send(answer(self.there(t) & !1), t.frame, t.v << 32 | entry << 1);
                self.dest(t, (t.word >> 48) as u16, INT, 0);
                DID
            }
            28 => {
                let place = self.place(t);
                if self.slot(place)[0] != 0 {
                    return 3;
                }
                self.set_slot(place, [3, self.operand(t) - 1]);
                self.both(t, INT, 0);
                DID
            }
            29 => {
                let place = self.place(t);
                let [s, n] = self.slot(place);
                if s != 3 {
                    return 3;
                }
                if t.h & KIND < BACK {
                    return 4;
                }
                if n > 0 {
                    self.set_slot(place, [3, n - 1]);
                    self.send(INT, 0, back_to(t.h, t.v));
                } else {
                    self.set_slot(place, [t.h | 4, t.v]);
                }
                DID
            }
            30 => {
                let place = self.place(t);
                let [s, n] = self.slot(place);
                if s as u8 == 4 {
                    self.set_slot(place, [3, 0]);
                    self.send(INT, 0, back_to(s, n));
                } else if s == 3 && n < self.operand(t) {
                    self.set_slot(place, [3, n + 1]);
                } else if s == 5 && n > 1 {
                    self.set_slot(place, [5, n - 1]);
                } else if s == 5 {
                    self.set_slot(place, [0, 0]);
                    self.dest(t, (t.word >> 32) as u16, INT, 0);
                } else {
                    return 3;
                }
                DID
            }
            _ => {
                let place = self.place(t);
                let [s, n] = self.slot(place);
                let k = self.operand(t);
                if s != 3 || n > k {
                    return 3;
                }
                if n == k {
                    self.set_slot(place, [0, 0]);
                    self.dest(t, (t.word >> 32) as u16, INT, 0);
                } else {
                    self.set_slot(place, [5, k - n]);
                }
                DID
            }
        }
    }

    #[inline(always)]
    fn neg(&mut self, t: &At, f: impl Fn(u64) -> u64) -> u8 {
        if t.h & KIND > RANGE {
            return 4;
        }
        self.both(t, t.h, if t.h == INT { f(t.v) } else { t.v });
        DID
    }
}

#[cold]
#[inline(never)]
fn applied(op: u8, lh: u64, lv: u64, rh: u64, rv: u64, operand: u64) -> (u8, u64, u64) {
    match apply(op, lh, lv, rh, rv, operand) {
        Ok((h, v)) => (DID, h, v),
        Err(rule) => (rule, 0, 0),
    }
}

const NONE: u8 = 0;
const ONE: u8 = 1;
const OUT: u8 = 2;

/// A token for no instruction that makes at most one token; `OUT`, where nothing was done, is all else.
#[inline(never)]
fn away_one<const N: usize>(cells: &mut [Cell], manager: &mut Manager, outputs: &mut [Option<(u64, u64)>], done: &mut bool, a: u64, h: u64, v: u64) -> (u8, Token) {
    let none = (NONE, [0; 3]);
    match a >> 24 & 127 {
        0 => {
            let cell = &mut cells[(a >> 32) as usize / N];
            if cell.h != 0 {
                return (ONE, [cell.h, cell.v, back_to(h, v)]);
            }
            cell.readers.push((h, v));
            none
        }
        1 => {
            let cell = &mut cells[(a >> 48) as usize / N];
            if cell.h != 0 || !cell.readers.is_empty() || h >> 17 & 1 == 1 {
                return (OUT, [0; 3]);
            }
            (cell.h, cell.v) = (h & KIND, v);
            (ONE, [h & KIND, v, (a >> 32 & 0xffff) << 32 | (h >> 31) & !1 | h >> 16 & 1])
        }
        2 => match manager.take() {
            Some(f) => (ONE, [FRAME, f as u64, back_to(h, v)]),
            None => {
                manager.waiting.push_back((h, v));
                none
            }
        },
        3 => {
            let f = (a >> 32) as u32;
            if manager.free[f as usize / 64] >> (f % 64) & 1 == 1 {
                return (OUT, [0; 3]);
            }
            match manager.waiting.pop_front() {
                Some((h, v)) => (ONE, [FRAME, f as u64, back_to(h, v)]),
                None => {
                    manager.give(f);
                    none
                }
            }
        }
        4 => {
            let port = (a >> 32) as usize;
            if port == outputs.len() && !*done {
                *done = true;
                none
            } else if port < outputs.len() && outputs[port].is_none() && h & KIND <= RANGE {
                outputs[port] = Some((h & KIND, v));
                none
            } else {
                (OUT, [0; 3])
            }
        }
        _ => (OUT, [0; 3]),
    }
}

impl<const N: usize> Lane<'_, N> {
    /// Up to `steps` events, oldest token first.
    fn run(&mut self, steps: u64) -> Stop {
        let mut left = steps;
        loop {
            let tokens = self.len();
            if self.room() < 3 * tokens + 4 {
                self.make_room(6 * tokens + 16);
            }
            let (made, rule) = self.turn(left);
            self.made += made;
            left -= made;
            if rule != DID {
                return Stop::Stuck(rule);
            }
            if self.head == self.tail {
                return Stop::Idle;
            }
            if left == 0 {
                return Stop::Turn;
            }
            let i = self.head;
            if (self.buf[i + 2] as i32) < 0 {
                let (h, v, a) = (self.buf[i], self.buf[i + 1], self.buf[i + 2]);
                self.head += 3;
                let stop = self.away(a, h, v);
                if stop != Stop::Turn {
                    self.head -= 3;
                    return stop;
                }
                self.made += 1;
                left -= 1;
            }
        }
    }

    /// Up to `left` events at instructions: how many, and the rule of a token that is stuck. The events go in generations: the
    /// tokens that are there at the beginning of one. There is room for what they make, and their number is no greater than what is left.
    #[inline(never)]
    fn turn(&mut self, left: u64) -> (u64, u8) {
        let code = self.code;
        let begun = self.head;
        let mut head = self.head;
        let last = begun.saturating_add((left as usize).saturating_mul(3));
        let mut work = Work {
            code,
            instrs: &code.bytes[8 * code.first_instr()..],
            literals: &code.bytes[8 * code.literals..],
            ends: 2 * code.instrs as u64,
            slots: &mut self.slots,
            width: self.width,
            queue: &mut self.buf,
            tail: self.tail,
            element: self.element,
            sent: &mut self.sent,
        };
        let most = work.queue.len();
        let mut rule = DID;
        'all: loop {
            let tail = work.tail;
            // The turns of several elements are short, so there a generation ends where the turn does.
            let end = if N == 1 { tail } else { tail.min(last) };
            if head == end || tail + 3 * (end - head) > most || end > last {
                // A last generation that is cut short is made one event at a time.
                if head == end || head >= last || tail + 9 > most {
                    break;
                }
            }
            let end = if tail + 3 * (end - head) > most || end > last { head + 3 } else { end };
            while head != end {
                let (h, v, a) = (get(work.queue, head), get(work.queue, head + 1), get(work.queue, head + 2));
                if (a as i32) < 0 {
                    let (done, token) = away_one::<N>(&mut self.cells, &mut self.manager, &mut self.outputs, &mut self.done, a, h, v);
                    if done == OUT {
                        break 'all;
                    }
                    if done == ONE {
                        work.send(token[0], token[1], token[2]);
                    }
                    head += 3;
                    continue;
                }
                let here = a & !1;
                let at = here as u32 as usize;
                let t = At { h, v, here, at, frame: a >> 32, word: load(work.instrs, 8 * at) };
                rule = if a & 1 == 1 { work.at::<true>(&t) } else { work.at::<false>(&t) };
                if rule != DID {
                    break 'all;
                }
                head += 3;
            }
        }
        let tail = work.tail;
        self.head = head;
        self.tail = tail;
        (((head - begun) / 3) as u64, rule)
    }
}

/// A box: what an element has posted to another. Each has a line of the cache of its own, since two threads look into it, and not the same two.
#[repr(align(64))]
#[derive(Default)]
struct Posted(Mutex<Vec<Token>>);

/// What the threads share.
struct Shared<const N: usize> {
    /// How many tokens there are: in queues, sent, and in boxes.
    live: AtomicI64,
    /// As `boxes[from][to]`.
    boxes: [[Posted; N]; N],
    /// Why a token cannot be taken.
    stuck: OnceLock<Stop>,
}

impl<const N: usize> Lane<'_, N> {
    /// How many tokens it has, with those that are not posted yet.
    fn tokens(&self) -> i64 {
        let sent: usize = self.sent.iter().map(Vec::len).sum();
        (self.len() + sent) as i64
    }

    /// Takes what the others have posted to it.
    fn take(&mut self, shared: &Shared<N>) {
        for boxes in &shared.boxes {
            if let Ok(mut tokens) = boxes[self.element].0.try_lock() {
                self.make_room(tokens.len());
                tokens.drain(..).for_each(|t| self.put(t));
            }
        }
    }

    /// Posts what is sent to the others, where they have taken all that was posted before.
    fn post(&mut self, shared: &Shared<N>) {
        for (sent, posted) in self.sent.iter_mut().zip(&shared.boxes[self.element]).filter(|(sent, _)| !sent.is_empty()) {
            if let Ok(mut tokens) = posted.0.try_lock() {
                if tokens.is_empty() {
                    std::mem::swap(&mut *tokens, sent);
                }
            }
        }
    }

    /// Runs until there is no token anywhere, or one cannot be taken. What a turn makes and takes is counted in one addition, before any of it is
    /// posted: so as long as there is a token, the number is not 0.
    fn run_beside(&mut self, shared: &Shared<N>, look: u64) {
        while shared.stuck.get().is_none() {
            self.take(shared);
            if self.len() > 0 {
                let before = self.tokens();
                let stop = self.run(look);
                if !matches!(stop, Stop::Turn | Stop::Idle) {
                    shared.stuck.get_or_init(|| stop);
                }
                shared.live.fetch_add(self.tokens() - before, SeqCst);
            } else if shared.live.load(SeqCst) == 0 {
                return;
            } else {
                thread::yield_now();
            }
            self.post(shared);
        }
    }
}

/// Runs the elements, each in a thread of its own.
fn run_threads<const N: usize>(lanes: &mut [Lane<N>; N], look: u64) -> Stop {
    let shared = Shared {
        live: AtomicI64::new(lanes.iter().map(Lane::tokens).sum()),
        boxes: array::from_fn(|_| array::from_fn(|_| Posted::default())),
        stuck: OnceLock::new(),
    };
    thread::scope(|scope| {
        for lane in lanes {
            scope.spawn(|| lane.run_beside(&shared, look));
        }
    });
    shared.stuck.into_inner().unwrap_or(Stop::Idle)
}

/// Runs the code on `N` elements, and prints what came of it and how long it took.
fn measure<const N: usize>(code: &Code, input: i64, frames: u32, look: u64) {
    let mut lanes: [Lane<N>; N] = array::from_fn(|element| Lane::new(code, element, frames));
    let first = u64::from(code.entries[code.main]);
    lanes[0].push([HOST, 0, first << 1]);
    lanes[0].push([INT, input as u64, (first + 1) << 1]);
    let begun = Instant::now();
    let end = if N == 1 { lanes[0].run(4_294_967_296) } else { run_threads(&mut lanes, look) };
    let time = begun.elapsed().as_secs_f64();
    code.print_cells(|number| {
        let cell = &lanes[number as usize % N].cells[number as usize / N];
        (cell.h == INT).then_some(cell.v as i64)
    });
    let made: u64 = lanes.iter().map(|lane| lane.made).sum();
    println!("{:?}, end {end:?}, {made} events, {time:.3} s, {:.1} M events/s", lanes[0].outputs, made as f64 / time / 1e6);
}

fn main() {
    let args: Vec<String> = std::env::args().collect();
    let number = |place: usize, other: u32| args.get(place).map_or(other, |it| it.parse().expect("a number"));
    let bytes = std::fs::read(&args[1]).expect("an object");
    let input: i64 = args[2].parse().expect("a number");
    let (frames, look) = (number(3, 8), u64::from(number(5, 1_024)));
    let code = Code::new(&bytes);
    match number(4, 1) {
        1 => measure::<1>(&code, input, frames, look),
        2 => measure::<2>(&code, input, frames, look),
        4 => measure::<4>(&code, input, frames, look),
        other => panic!("1, 2 or 4 elements, not {other}"),
    }
}
