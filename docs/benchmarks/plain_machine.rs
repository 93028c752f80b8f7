//! The machine's inner loop in plain Rust, for comparison: the same object, tokens in queues, slots as two words, each
//! instruction decoded from its 16 bytes when it is run, one match on its opcode. It is no part of what is proved.
//!
//! Build: rustc --edition 2021 -O plain_machine.rs. Run: plain_machine OBJECT INPUT [ELEMENTS [FRAMES [LOOK]]]. An object is taken to be
//! sound. With LOOK each element runs in a thread of its own, and looks at its boxes each time it has made that number of events.

mod sound_object;

use sound_object::Code;
use std::collections::VecDeque;
use std::sync::Mutex;
use std::sync::atomic::{AtomicI64, Ordering::SeqCst};
use std::thread;
use std::time::Instant;

#[derive(Clone, Copy, PartialEq, Debug)]
enum Value {
    Int(i64),
    Fault { kind: u8, origin: u32 },
}

#[derive(Clone, Copy, PartialEq, Debug)]
enum Cont {
    Frame { frame: u32, ip: u32, right: bool },
    Host { port: u32 },
}

#[derive(Clone, Copy, PartialEq, Debug)]
enum Word {
    Val(Value),
    Frame(u32),
    Back(Cont),
}

#[derive(Clone, Copy, Debug)]
enum To {
    Instr { frame: u32, ip: u32, right: bool },
    Fetch { cell: u32 },
    Store { cell: u32, value: Value },
    Manager,
    Release { frame: u32 },
    Host { port: u32 },
}

#[derive(Clone, Copy, Debug)]
struct Token {
    to: To,
    word: Word,
}

#[derive(Debug, PartialEq)]
enum End {
    NoToken,
    Clash(u32),
    Stuck(u8),
}

const SIGNAL: Word = Word::Val(Value::Int(0));

const EMPTY: u64 = 0;
const LEFT: u64 = 1;
const RIGHT: u64 = 2;
const CREDITS: u64 = 3;
const WAITER: u64 = 4;
const DRAINING: u64 = 5;

/// The two words of a word, with a slot's state in the low byte.
fn pack(state: u64, word: Word) -> [u64; 2] {
    let head = |kind: u64, port: u64, high: u32| state | kind << 8 | port << 16 | u64::from(high) << 32;
    match word {
        Word::Val(Value::Int(number)) => [head(1, 0, 0), number as u64],
        Word::Val(Value::Fault { kind, origin }) => [head(2 + u64::from(kind), 0, 0), u64::from(origin)],
        Word::Frame(frame) => [head(4, 0, 0), u64::from(frame)],
        Word::Back(Cont::Frame { frame, ip, right }) => [head(5, u64::from(right), ip), u64::from(frame)],
        Word::Back(Cont::Host { port }) => [head(6, 0, port), 0],
    }
}

fn unpack(slot: [u64; 2]) -> Word {
    match slot[0] >> 8 & 255 {
        1 => Word::Val(Value::Int(slot[1] as i64)),
        2 => Word::Val(Value::Fault { kind: 0, origin: slot[1] as u32 }),
        3 => Word::Val(Value::Fault { kind: 1, origin: slot[1] as u32 }),
        4 => Word::Frame(slot[1] as u32),
        5 => Word::Back(Cont::Frame { frame: slot[1] as u32, ip: (slot[0] >> 32) as u32, right: slot[0] >> 16 & 1 == 1 }),
        _ => Word::Back(Cont::Host { port: (slot[0] >> 32) as u32 }),
    }
}

/// The free frames as bits.
#[derive(Clone)]
struct Manager {
    free: Vec<u64>,
    waiting: VecDeque<Cont>,
}

impl Manager {
    fn request(&mut self, cont: Cont) -> Option<u32> {
        for (place, word) in self.free.iter_mut().enumerate() {
            if *word != 0 {
                let frame = 64 * place as u32 + word.trailing_zeros();
                *word &= *word - 1;
                return Some(frame);
            }
        }
        self.waiting.push_back(cont);
        None
    }

    fn is_out(&self, frame: u32) -> bool {
        self.free[frame as usize / 64] >> (frame % 64) & 1 == 0
    }

    fn release(&mut self, frame: u32) -> Option<Cont> {
        let cont = self.waiting.pop_front();
        if cont.is_none() {
            self.free[frame as usize / 64] |= 1 << (frame % 64);
        }
        cont
    }
}

#[derive(Clone)]
enum Cell {
    Readers(Vec<Cont>),
    Full(Value),
}

struct Lane {
    element: u32,
    elements: u32,
    slots: Vec<[u64; 2]>,
    width: usize,
    cells: Vec<Cell>,
    queue: VecDeque<Token>,
    made: u64,
}

/// What element 0 serves beside.
#[derive(Clone)]
struct Host {
    manager: Manager,
    outputs: Vec<Option<Value>>,
    done: bool,
}

fn back_to(cont: Cont) -> To {
    match cont {
        Cont::Frame { frame, ip, right } => To::Instr { frame, ip, right },
        Cont::Host { port } => To::Host { port },
    }
}

fn beyond(cont: Cont, offset: u64) -> To {
    match cont {
        Cont::Frame { frame, ip, .. } => To::Instr { frame, ip: ip + offset as u32, right: false },
        Cont::Host { port } => To::Host { port: port + offset as u32 },
    }
}

fn element_of(to: &To, elements: u32) -> u32 {
    match *to {
        To::Instr { frame, .. } => frame % elements,
        To::Fetch { cell } | To::Store { cell, .. } => cell % elements,
        _ => 0,
    }
}

fn apply(opcode: u8, left: Value, right: Value, origin: u32) -> Value {
    let (x, y) = match (left, right) {
        (Value::Int(x), Value::Int(y)) => (x, y),
        (Value::Fault { .. }, _) => return left,
        _ => return right,
    };
    Value::Int(match opcode {
        1 => x.wrapping_add(y),
        2 => x.wrapping_sub(y),
        3 => x.wrapping_mul(y),
        4 | 5 if y == 0 => return Value::Fault { kind: 0, origin },
        4 => x.wrapping_div(y),
        5 => x.wrapping_rem(y),
        6 => x & y,
        7 => x | y,
        8 => x ^ y,
        9 => x.wrapping_shl(y as u32),
        10 => x.wrapping_shr(y as u32),
        11 => i64::from(x == y),
        12 => i64::from(x != y),
        13 => i64::from(x < y),
        _ => i64::from(x <= y),
    })
}

impl Lane {
    fn send(&mut self, token: Token, sent: &mut Vec<Token>) {
        if element_of(&token.to, self.elements) == self.element {
            self.queue.push_back(token);
        } else {
            sent.push(token);
        }
    }

    fn to_dest(&mut self, frame: u32, ip: u32, half: u64, word: Word, sent: &mut Vec<Token>) {
        let ahead = half as u32 & 32_767;
        if ahead != 0 {
            let to = To::Instr { frame, ip: ip + ahead, right: half >> 15 & 1 == 1 };
            self.send(Token { to, word }, sent);
        }
    }

    /// The oldest token; `None` where there is none.
    fn step(&mut self, code: &Code, host: &mut Host, sent: &mut Vec<Token>) -> Option<Result<(), End>> {
        let token = *self.queue.front()?;
        let done = match token.to {
            To::Instr { frame, ip, right } => self.at_instruction(code, frame, ip, right, token.word, sent),
            to => self.elsewhere(to, token.word, host, sent),
        };
        if done.is_ok() {
            self.queue.pop_front();
            self.made += 1;
        }
        Some(done)
    }

    fn at_instruction(&mut self, code: &Code, frame: u32, ip: u32, right: bool, word: Word, sent: &mut Vec<Token>) -> Result<(), End> {
        if ip as usize >= code.instrs {
            return Err(End::Stuck(1));
        }
        let place = code.first_instr() + 2 * ip as usize;
        let head = code.word(place);
        let second = code.word(place + 1);
        let opcode = head as u8;
        let flag = (head >> 8) as u8;
        let slot = (frame / self.elements) as usize * self.width + (head >> 16) as usize % 65_536;
        let (d1, d2) = (head >> 32 & 65_535, head >> 48);
        let has_origin = code.version == 2 && matches!(opcode, 4 | 5 | 21 | 22);
        let (operand, origin) = if has_origin { (second & 0xffff_ffff, (second >> 32) as u32) } else { (second, 0) };
        match opcode {
            1..=14 if flag == 0 => self.dyadic(code, opcode, frame, ip, slot, right, word, d1, d2, operand, origin, sent),
            19 | 20 | 22 | 25 | 26 | 27 | 32 => self.dyadic(code, opcode, frame, ip, slot, right, word, d1, d2, operand, origin, sent),
            _ if right => Err(End::Stuck(2)),
            28..=31 => self.credit(opcode, frame, ip, slot, word, d1, d2, operand, sent),
            _ => self.monadic(code, opcode, flag, frame, ip, word, d1, d2, operand, origin, sent),
        }
    }

    fn monadic(&mut self, code: &Code, opcode: u8, flag: u8, frame: u32, ip: u32, word: Word, d1: u64, d2: u64, operand: u64, origin: u32, sent: &mut Vec<Token>) -> Result<(), End> {
        let word = match opcode {
            1..=14 => {
                let Word::Val(value) = word else { return Err(End::Stuck(4)) };
                let literal = Value::Int(code.word(code.literals + operand as usize) as i64);
                Word::Val(if flag == 1 { apply(opcode, value, literal, origin) } else { apply(opcode, literal, value, origin) })
            }
            15 | 16 => match word {
                Word::Val(Value::Int(x)) => Word::Val(Value::Int(if opcode == 15 { x.wrapping_neg() } else { !x })),
                Word::Val(_) => word,
                _ => return Err(End::Stuck(4)),
            },
            17 => Word::Val(Value::Int(code.word(code.literals + operand as usize) as i64)),
            18 => word,
            21 => {
                let Word::Val(index) = word else { return Err(End::Stuck(4)) };
                let (base, len) = code.arrays[operand as usize];
                match index {
                    Value::Int(number) if 0 <= number && number < i64::from(len) => {
                        let to = To::Fetch { cell: base + number as u32 };
                        self.send(Token { to, word: answer_to(frame, ip, d1) }, sent);
                    }
                    Value::Int(_) => self.to_dest(frame, ip, d1, Word::Val(Value::Fault { kind: 1, origin }), sent),
                    fault => self.to_dest(frame, ip, d1, Word::Val(fault), sent),
                }
                return Ok(());
            }
            23 => {
                self.send(Token { to: To::Manager, word: answer_to(frame, ip, d1) }, sent);
                return Ok(());
            }
            24 => {
                let Word::Frame(other) = word else { return Err(End::Stuck(4)) };
                let landing = Word::Back(Cont::Frame { frame, ip: ip + (d1 as u32 & 32_767), right: false });
                let to = To::Instr { frame: other, ip: code.entries[operand as usize], right: false };
                self.send(Token { to, word: landing }, sent);
                self.to_dest(frame, ip, d2, SIGNAL, sent);
                return Ok(());
            }
            _ => return Err(End::Stuck(1)),
        };
        self.to_dest(frame, ip, d1, word, sent);
        self.to_dest(frame, ip, d2, word, sent);
        Ok(())
    }

    fn dyadic(&mut self, code: &Code, opcode: u8, frame: u32, ip: u32, slot: usize, right: bool, word: Word, d1: u64, d2: u64, operand: u64, origin: u32, sent: &mut Vec<Token>) -> Result<(), End> {
        let held = self.slots[slot];
        let (left, right) = match (held[0] & 255, right) {
            (EMPTY, false) => {
                self.slots[slot] = pack(LEFT, word);
                return Ok(());
            }
            (EMPTY, true) => {
                self.slots[slot] = pack(RIGHT, word);
                return Ok(());
            }
            (LEFT, true) => (unpack(held), word),
            (RIGHT, false) => (word, unpack(held)),
            _ => return Err(End::Stuck(3)),
        };
        match (opcode, left, right) {
            (1..=14, Word::Val(x), Word::Val(y)) => {
                let value = Word::Val(apply(opcode, x, y, origin));
                self.to_dest(frame, ip, d1, value, sent);
                self.to_dest(frame, ip, d2, value, sent);
            }
            (19, _, _) => {
                self.to_dest(frame, ip, d1, SIGNAL, sent);
                self.to_dest(frame, ip, d2, SIGNAL, sent);
            }
            (20, _, Word::Val(value)) => {
                let holds = matches!(value, Value::Int(number) if number != 0);
                self.to_dest(frame, ip, if holds { d1 } else { d2 }, left, sent);
            }
            (22, Word::Val(index), Word::Val(value)) => {
                let (base, len) = code.arrays[operand as usize];
                match index {
                    Value::Int(number) if 0 <= number && number < i64::from(len) => {
                        let to = To::Store { cell: base + number as u32, value };
                        self.send(Token { to, word: answer_to(frame, ip, d1) }, sent);
                    }
                    Value::Int(_) => self.to_dest(frame, ip, d1, Word::Val(Value::Fault { kind: 1, origin }), sent),
                    fault => self.to_dest(frame, ip, d1, Word::Val(fault), sent),
                }
            }
            (25, Word::Frame(other), _) => {
                let ip_there = code.entries[(operand >> 16) as usize] + (operand & 65_535) as u32;
                self.send(Token { to: To::Instr { frame: other, ip: ip_there, right: false }, word: right }, sent);
                self.to_dest(frame, ip, d1, SIGNAL, sent);
                self.to_dest(frame, ip, d2, SIGNAL, sent);
            }
            (26, Word::Back(cont), Word::Val(_)) => {
                self.send(Token { to: beyond(cont, operand), word: right }, sent);
                self.to_dest(frame, ip, d1, SIGNAL, sent);
                self.to_dest(frame, ip, d2, SIGNAL, sent);
            }
            (27, Word::Back(cont), _) => self.send(Token { to: beyond(cont, operand), word: answer_to(frame, ip, d1) }, sent),
            (32, Word::Back(cont), _) => {
                self.send(Token { to: To::Release { frame }, word: SIGNAL }, sent);
                self.send(Token { to: beyond(cont, operand), word: SIGNAL }, sent);
            }
            _ => return Err(End::Stuck(4)),
        }
        self.slots[slot] = [EMPTY, 0];
        Ok(())
    }

    fn credit(&mut self, opcode: u8, frame: u32, ip: u32, slot: usize, word: Word, d1: u64, d2: u64, bound: u64, sent: &mut Vec<Token>) -> Result<(), End> {
        let held = self.slots[slot];
        let becomes = match (opcode, held[0] & 255) {
            (28, EMPTY) => {
                self.to_dest(frame, ip, d1, SIGNAL, sent);
                self.to_dest(frame, ip, d2, SIGNAL, sent);
                [CREDITS, bound - 1]
            }
            (29, CREDITS) => {
                let Word::Back(cont) = word else { return Err(End::Stuck(4)) };
                if held[1] == 0 {
                    pack(WAITER, word)
                } else {
                    self.send(Token { to: back_to(cont), word: SIGNAL }, sent);
                    [CREDITS, held[1] - 1]
                }
            }
            (30, CREDITS) if held[1] < bound => [CREDITS, held[1] + 1],
            (30, WAITER) => {
                if let Word::Back(cont) = unpack(held) {
                    self.send(Token { to: back_to(cont), word: SIGNAL }, sent);
                }
                [CREDITS, 0]
            }
            (30, DRAINING) if held[1] == 1 => {
                self.to_dest(frame, ip, d1, SIGNAL, sent);
                [EMPTY, 0]
            }
            (30, DRAINING) if held[1] > 1 => [DRAINING, held[1] - 1],
            (31, CREDITS) if held[1] == bound => {
                self.to_dest(frame, ip, d1, SIGNAL, sent);
                [EMPTY, 0]
            }
            (31, CREDITS) if held[1] < bound => [DRAINING, bound - held[1]],
            _ => return Err(End::Stuck(3)),
        };
        self.slots[slot] = becomes;
        Ok(())
    }

    fn elsewhere(&mut self, to: To, word: Word, host: &mut Host, sent: &mut Vec<Token>) -> Result<(), End> {
        match (to, word) {
            (To::Fetch { cell }, Word::Back(cont)) => match &mut self.cells[(cell / self.elements) as usize] {
                Cell::Full(value) => {
                    let word = Word::Val(*value);
                    self.send(Token { to: back_to(cont), word }, sent);
                }
                Cell::Readers(readers) => readers.push(cont),
            },
            (To::Store { cell, value }, Word::Back(cont)) => {
                let place = (cell / self.elements) as usize;
                if matches!(self.cells[place], Cell::Full(_)) {
                    return Err(End::Clash(cell));
                }
                if let Cell::Readers(readers) = std::mem::replace(&mut self.cells[place], Cell::Full(value)) {
                    for reader in readers {
                        self.send(Token { to: back_to(reader), word: Word::Val(value) }, sent);
                    }
                }
                self.send(Token { to: back_to(cont), word: Word::Val(value) }, sent);
            }
            (To::Manager, Word::Back(cont)) => {
                if let Some(frame) = host.manager.request(cont) {
                    self.send(Token { to: back_to(cont), word: Word::Frame(frame) }, sent);
                }
            }
            (To::Release { frame }, _) => {
                if !host.manager.is_out(frame) {
                    return Err(End::Stuck(5));
                }
                if let Some(cont) = host.manager.release(frame) {
                    self.send(Token { to: back_to(cont), word: Word::Frame(frame) }, sent);
                }
            }
            (To::Host { port }, word) => {
                let port = port as usize;
                if port > host.outputs.len() || port == host.outputs.len() && host.done {
                    return Err(End::Stuck(6));
                }
                if port == host.outputs.len() {
                    host.done = true;
                } else if host.outputs[port].is_some() {
                    return Err(End::Stuck(6));
                } else if let Word::Val(value) = word {
                    host.outputs[port] = Some(value);
                } else {
                    return Err(End::Stuck(4));
                }
            }
            _ => return Err(End::Stuck(4)),
        }
        Ok(())
    }
}

fn answer_to(frame: u32, ip: u32, half: u64) -> Word {
    Word::Back(Cont::Frame { frame, ip: ip + (half as u32 & 32_767), right: half >> 15 & 1 == 1 })
}

fn run(code: &Code, lanes: &mut [Lane], host: &mut Host, steps: u64) -> Option<End> {
    let mut sent = Vec::new();
    let elements = lanes.len() as u32;
    loop {
        for element in 0..lanes.len() {
            if !sent.is_empty() {
                for token in sent.drain(..) {
                    let token: Token = token;
                    lanes[element_of(&token.to, elements) as usize].queue.push_back(token);
                }
            }
            let lane = &mut lanes[element];
            if lane.made == steps && !lane.queue.is_empty() {
                return None;
            }
            match lane.step(code, host, &mut sent) {
                Some(Ok(())) => {}
                Some(Err(end)) => return Some(end),
                None => {
                    if sent.is_empty() && lanes.iter().all(|lane| lane.queue.is_empty()) {
                        return Some(End::NoToken);
                    }
                }
            }
        }
    }
}

/// What the threads of the elements share: how many tokens there are, and a box for each two elements.
struct Shared {
    elements: usize,
    live: AtomicI64,
    boxes: Vec<Mutex<Vec<Token>>>,
}

impl Shared {
    fn new(lanes: &[Lane]) -> Shared {
        let elements = lanes.len();
        let live = lanes.iter().map(|lane| lane.queue.len() as i64).sum();
        Shared { elements, live: AtomicI64::new(live), boxes: (0..elements * elements).map(|_| Mutex::default()).collect() }
    }

    /// Takes what lies in the boxes to this lane.
    fn take(&self, lane: &mut Lane, bundle: &mut Vec<Token>) {
        for from in 0..self.elements {
            if let Ok(mut tokens) = self.boxes[from * self.elements + lane.element as usize].try_lock() {
                std::mem::swap(&mut *tokens, bundle);
            }
            lane.queue.extend(bundle.drain(..));
        }
    }

    /// Posts what there is for other elements, where their boxes are empty.
    fn post(&self, element: u32, kept: &mut [Vec<Token>]) {
        for (to, bundle) in kept.iter_mut().enumerate().filter(|(_, bundle)| !bundle.is_empty()) {
            if let Ok(mut tokens) = self.boxes[element as usize * self.elements + to].try_lock() {
                if tokens.is_empty() {
                    std::mem::swap(&mut *tokens, bundle);
                }
            }
        }
    }
}

/// Runs an element in its thread until there are no tokens.
fn run_apart(code: &Code, lane: &mut Lane, host: &mut Host, shared: &Shared, look: u64) {
    let (mut sent, mut bundle, mut kept) = (Vec::new(), Vec::new(), vec![Vec::new(); shared.elements]);
    loop {
        shared.take(lane, &mut bundle);
        if lane.queue.is_empty() {
            if shared.live.load(SeqCst) == 0 {
                return;
            }
            thread::yield_now();
        }
        let before = lane.queue.len() as i64;
        for _ in 0..look {
            match lane.step(code, host, &mut sent) {
                Some(done) => done.expect("no end but rest"),
                None => break,
            }
        }
        shared.live.fetch_add(lane.queue.len() as i64 + sent.len() as i64 - before, SeqCst);
        for token in sent.drain(..) {
            let token: Token = token;
            kept[element_of(&token.to, lane.elements) as usize].push(token);
        }
        shared.post(lane.element, &mut kept);
    }
}

/// Runs the elements in threads. The frame manager and the outputs are element 0's.
fn run_free(code: &Code, lanes: &mut [Lane], host: &mut Host, look: u64) -> Option<End> {
    let shared = Shared::new(lanes);
    let mut hosts: Vec<Host> = lanes.iter().map(|_| host.clone()).collect();
    thread::scope(|scope| {
        for (lane, host) in lanes.iter_mut().zip(&mut hosts) {
            scope.spawn(|| run_apart(code, lane, host, &shared, look));
        }
    });
    *host = hosts.swap_remove(0);
    Some(End::NoToken)
}

fn main() {
    let args: Vec<String> = std::env::args().collect();
    let number = |place: usize, other: u32| args.get(place).map_or(other, |it| it.parse().expect("a number"));
    let bytes = std::fs::read(&args[1]).expect("an object");
    let input: i64 = args[2].parse().expect("a number");
    let elements = number(3, 1);
    let frames = number(4, 8);
    let code = Code::new(&bytes);
    let mut free = vec![0u64; (elements * frames) as usize / 64 + 1];
    for frame in 1..elements * frames {
        free[frame as usize / 64] |= 1 << (frame % 64);
    }
    let mut host = Host { manager: Manager { free, waiting: VecDeque::new() }, outputs: vec![None; code.outputs], done: false };
    let mut lanes: Vec<Lane> = (0..elements)
        .map(|element| Lane {
            element,
            elements,
            slots: vec![[0, 0]; frames as usize * code.slots],
            width: code.slots,
            cells: vec![Cell::Readers(Vec::new()); code.cells as usize / elements as usize + 1],
            queue: VecDeque::new(),
            made: 0,
        })
        .collect();
    let first = code.entries[code.main];
    let instr = |ip| To::Instr { frame: 0, ip, right: false };
    lanes[0].queue.push_back(Token { to: instr(first), word: Word::Back(Cont::Host { port: 0 }) });
    lanes[0].queue.push_back(Token { to: instr(first + 1), word: Word::Val(Value::Int(input)) });
    let begun = Instant::now();
    let end = match number(5, 0) {
        0 => run(&code, &mut lanes, &mut host, 4_294_967_296),
        look => run_free(&code, &mut lanes, &mut host, look.into()),
    };
    let time = begun.elapsed().as_secs_f64();
    code.print_cells(|number| match lanes[(number % elements) as usize].cells[(number / elements) as usize] {
        Cell::Full(Value::Int(it)) => Some(it),
        _ => None,
    });
    let made: Vec<u64> = lanes.iter().map(|lane| lane.made).collect();
    let events: u64 = made.iter().sum();
    println!("{:?}, end {end:?}, {events} events {made:?}, {time:.3} s, {:.1} M events/s", host.outputs, events as f64 / time / 1e6);
}
