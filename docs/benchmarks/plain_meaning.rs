//! The meaning of a graph in plain Rust, for comparison: the tagged tokens of `ets mean`, one activity at a time, in the same order. An invocation is
//! found in a map, tokens wait in a row of their invocation, and the uses of an output port are listed once. It is no part of what is proved.
//!
//! Build: rustc --edition 2021 -O plain_meaning.rs. Run: plain_meaning [--steps N], with a graph and its inputs on standard input. They are taken to be
//! sound. It prints what `ets mean` prints.

use std::collections::{HashMap, VecDeque};
use std::fmt::{self, Display};
use std::hash::{BuildHasherDefault, Hasher};
use std::io::{self, BufWriter, Write};
use std::str::{FromStr, Lines};

/// Where a fault was made: 1024 times the block, and the node, and 1; or 0 where that is not said.
type Origin = u32;

#[derive(Clone, Copy)]
enum Value {
    Int(i64),
    Fault(Fault),
}

/// A fault fills a word, so that values are copied by words.
#[derive(Clone, Copy)]
#[repr(align(8))]
struct Fault {
    is_range: bool,
    origin: Origin,
}

impl Value {
    fn is_true(self) -> bool {
        matches!(self, Value::Int(number) if number != 0)
    }
}

impl Display for Value {
    fn fmt(&self, f: &mut fmt::Formatter) -> fmt::Result {
        match *self {
            Value::Int(number) => write!(f, "{number}"),
            Value::Fault(Fault { is_range, origin }) => {
                write!(f, "fault {}", if is_range { "range" } else { "zero" })?;
                match origin.checked_sub(1) {
                    Some(place) => write!(f, " at {} {}", place / 1024, place % 1024),
                    None => Ok(()),
                }
            }
        }
    }
}

type Unary = fn(i64) -> i64;

const UNARY: [(&str, Unary); 2] = [("neg", |x| x.wrapping_neg()), ("not", |x| !x)];

/// An operator on two integers. It has no answer where the divisor is 0.
type Binary = fn(i64, i64) -> Option<i64>;

const BINARY: [(&str, Binary); 14] = [
    ("add", |x, y| Some(x.wrapping_add(y))),
    ("sub", |x, y| Some(x.wrapping_sub(y))),
    ("mul", |x, y| Some(x.wrapping_mul(y))),
    ("div", |x, y| (y != 0).then(|| x.wrapping_div(y))),
    ("rem", |x, y| (y != 0).then(|| x.wrapping_rem(y))),
    ("and", |x, y| Some(x & y)),
    ("or", |x, y| Some(x | y)),
    ("xor", |x, y| Some(x ^ y)),
    ("shl", |x, y| Some(x.wrapping_shl(y as u32))),
    ("shr", |x, y| Some(x.wrapping_shr(y as u32))),
    ("eq", |x, y| Some(i64::from(x == y))),
    ("ne", |x, y| Some(i64::from(x != y))),
    ("lt", |x, y| Some(i64::from(x < y))),
    ("le", |x, y| Some(i64::from(x <= y))),
];

/// What a faulty operand gives, the left one first, and else what the operator gives.
fn apply(operator: Binary, left: Value, right: Value, origin: Origin) -> Value {
    match (left, right) {
        (Value::Int(x), Value::Int(y)) => operator(x, y).map_or(Value::Fault(Fault { is_range: false, origin }), Value::Int),
        (Value::Int(_), fault) | (fault, _) => fault,
    }
}

/// What is done with a token. Arrays and blocks are given by their places.
#[derive(Clone, Copy)]
enum Action {
    /// An input or a merge passes the value on, and a conditional gives it to the gates of its arms.
    Pass,
    Lit(i64),
    Unary(Unary),
    Binary(Binary),
    /// An `enter` takes a value and a predicate.
    Gate { side: bool },
    Fetch(u32),
    Store(u32),
    Call(u32),
    StrictCall { block: u32, arity: u32 },
    /// A result of main or of a call.
    Out { result: u32 },
    /// A turn takes a flag and the next value of that input.
    Turn { input: u32 },
}

impl Action {
    /// How many places in a row the action needs.
    fn places(self) -> u32 {
        match self {
            Action::Binary(_) | Action::Gate { .. } | Action::Store(_) | Action::Turn { .. } => 1,
            Action::StrictCall { arity, .. } => arity,
            _ => 0,
        }
    }
}

/// Where a token can be: what is done there, with which operand, the place in the row where operands meet, and the first output port of the node.
#[derive(Clone, Copy)]
struct Spot {
    action: Action,
    operand: u16,
    origin: Origin,
    place: u32,
    port: u32,
}

/// A block as it is called, or as a loop turns it: the spot of its first input, and the places of a row.
struct Block {
    first: u32,
    places: u32,
}

struct Array<'a> {
    name: &'a str,
    first: usize,
    len: usize,
}

/// A graph. Each block is there twice: as it is called, and as a loop turns it. A port lists the spots that it sends to.
#[derive(Default)]
struct Graph<'a> {
    arrays: Vec<Array<'a>>,
    blocks: Vec<Block>,
    spots: Vec<Spot>,
    ports: Vec<Vec<u32>>,
}

impl Graph<'_> {
    /// How many cells all arrays have.
    fn cells(&self) -> usize {
        self.arrays.last().map_or(0, |it| it.first + it.len)
    }

    /// The cell that an index names in an array, or the fault.
    fn cell_of(&self, array: u32, index: Value, origin: Origin) -> Result<usize, Value> {
        let array = &self.arrays[array as usize];
        match index {
            Value::Int(number) if 0 <= number && number < array.len as i64 => Ok(array.first + number as usize),
            Value::Int(_) => Err(Value::Fault(Fault { is_range: true, origin })),
            fault => Err(fault),
        }
    }
}

fn number<T: FromStr>(word: &str) -> T {
    word.parse().unwrap_or_else(|_| panic!("{word}: no number"))
}

/// Reads a graph. It knows the name, the inputs and the outputs of each block, and of the block that it reads the first port of each node.
struct Reader<'a> {
    graph: Graph<'a>,
    has_origins: bool,
    shapes: Vec<(&'a str, u32, u32)>,
    nodes: Vec<u32>,
}

impl<'a> Reader<'a> {
    /// Reads a text, and returns the graph, the number of main's outputs, and the inputs.
    fn read(text: &'a str) -> (Graph<'a>, usize, usize, Vec<i64>) {
        let mut reader = Reader { graph: Graph::default(), has_origins: text.starts_with("etsgraph 2"), shapes: Vec::new(), nodes: Vec::new() };
        text.lines().for_each(|line| reader.add_name(line));
        let mut lines = text.lines();
        loop {
            match lines.next().expect("a line").split_once(' ') {
                Some(("block", _)) => [false, true].into_iter().for_each(|is_turned| reader.add_block(lines.clone(), is_turned)),
                Some(("main", name)) => {
                    let main = reader.block(name) as usize;
                    return (reader.graph, 2 * main, reader.shapes[main].2 as usize, lines.map(number).collect());
                }
                _ => {}
            }
        }
    }

    fn add_name(&mut self, line: &'a str) {
        match line.split(' ').collect::<Vec<_>>()[..] {
            ["array", name, len] => self.graph.arrays.push(Array { name, first: self.graph.cells(), len: number(len) }),
            ["block", name, inputs, outputs] => self.shapes.push((name, number(inputs), number(outputs))),
            _ => {}
        }
    }

    fn block(&self, name: &str) -> u32 {
        self.shapes.iter().position(|it| it.0 == name).expect("a block") as u32
    }

    fn array(&self, name: &str) -> u32 {
        self.graph.arrays.iter().position(|it| it.name == name).expect("an array") as u32
    }

    /// Adds a node with some operands and ports to the last block.
    fn add_node(&mut self, action: Action, operands: u16, ports: usize) -> u32 {
        let (number, node) = (self.graph.blocks.len() - 1, self.nodes.len());
        let origin = if self.has_origins { (1024 * (number / 2) + node + 1) as u32 } else { 0 };
        let (first, port) = (self.graph.spots.len() as u32, self.graph.ports.len() as u32);
        let place = self.graph.blocks[number].places;
        self.graph.blocks[number].places += action.places();
        self.graph.spots.extend((0..operands).map(|operand| Spot { action, operand, origin, place, port }));
        self.graph.ports.resize(port as usize + ports, Vec::new());
        self.nodes.push(port);
        first
    }

    /// Has a source send to a spot.
    fn connect(&mut self, source: &str, spot: u32) {
        let (node, port) = source.split_once('.').expect("a source");
        let port = self.nodes[number::<usize>(node)] as usize + number::<usize>(port);
        self.graph.ports[port].push(spot);
    }

    /// Adds the block that is next.
    fn add_block(&mut self, lines: Lines, is_turned: bool) {
        let (_, inputs, _) = self.shapes[self.graph.blocks.len() / 2];
        self.graph.blocks.push(Block { first: self.graph.spots.len() as u32, places: 0 });
        self.nodes.clear();
        for _ in 0..inputs {
            self.add_node(Action::Pass, 1, 1);
        }
        for line in lines {
            let words: Vec<&str> = line.split(' ').collect();
            match words[0] {
                "end" => break,
                "out" if is_turned => self.add_turns(inputs, &words[1..]),
                "out" => self.add_results(&words[1..]),
                _ => self.add_line(words[0], words[1], &words[2..]),
            }
        }
    }

    fn add_results(&mut self, sources: &[&str]) {
        for (result, source) in (0..).zip(sources) {
            let spot = self.add_node(Action::Out { result }, 1, 0);
            self.connect(source, spot);
        }
    }

    /// The first result is the flag of all turns. A block of another shape is not turned.
    fn add_turns(&mut self, inputs: u32, sources: &[&str]) {
        let first = self.graph.spots.len() as u32;
        for input in 0..inputs {
            let spot = self.add_node(Action::Turn { input }, 2, 0);
            self.connect(sources[0], spot);
        }
        for (input, source) in (0..inputs).zip(&sources[1..]) {
            self.connect(source, first + 2 * input + 1);
        }
    }

    fn add_line(&mut self, region: &str, word: &str, rest: &[&str]) {
        let outputs = |block: u32| self.shapes[block as usize].2 as usize;
        let (action, sources, ports) = match word {
            "lit" => (Action::Lit(number(rest[0])), &rest[1..], 1),
            "cond" => (Action::Pass, rest, 1),
            "enter" => (Action::Gate { side: region.ends_with('+') }, rest, 1),
            "merge" => (Action::Pass, &rest[1..], 1),
            "fetch" => (Action::Fetch(self.array(rest[0])), &rest[1..], 1),
            "store" => (Action::Store(self.array(rest[0])), &rest[1..], 1),
            "call" => (Action::Call(2 * self.block(rest[0])), &rest[1..], outputs(self.block(rest[0]))),
            "scall" => (Action::StrictCall { block: 2 * self.block(rest[0]), arity: rest.len() as u32 - 1 }, &rest[1..], outputs(self.block(rest[0]))),
            "loop" => (Action::Call(2 * self.block(rest[0]) + 1), &rest[2..], rest.len() - 2),
            _ => match UNARY.iter().find(|it| it.0 == word) {
                Some(&(_, operator)) => (Action::Unary(operator), rest, 1),
                None => (Action::Binary(BINARY.iter().find(|it| it.0 == word).expect("an operator").1), rest, 1),
            },
        };
        let is_gate = word == "enter";
        let spot = self.add_node(action, (sources.len() + usize::from(is_gate)) as u16, ports);
        (spot..).zip(sources).for_each(|(spot, source)| self.connect(source, spot));
        if is_gate {
            self.connect(&region.replace(['+', '-'], ".0"), spot + 1);
        }
    }
}

/// Where an invocation was made: by a node of another one, which is given by its first output port, and in which turn.
#[derive(Clone, Copy, PartialEq, Eq, Hash)]
struct Made {
    by: u32,
    port: u32,
    turn: u64,
}

/// A hash by products.
#[derive(Default)]
struct Product(u64);

impl Hasher for Product {
    fn write(&mut self, _: &[u8]) {
        unreachable!("only words are hashed")
    }

    fn write_u32(&mut self, word: u32) {
        self.write_u64(word.into());
    }

    fn write_u64(&mut self, word: u64) {
        self.0 = self.0.wrapping_add(word).wrapping_mul(0xf135_7aea_2e62_a9c5);
    }

    fn finish(&self) -> u64 {
        self.0.rotate_left(26)
    }
}

/// An invocation of a block, and where its row begins. Partners meet in it: in a sound graph at most one waits at each place.
#[derive(Clone, Copy)]
struct Invocation {
    made: Made,
    block: u32,
    row: usize,
}

#[derive(Clone, Copy)]
struct Token {
    context: u32,
    spot: u32,
    value: Value,
}

enum End {
    Rest,
    Clash { cell: usize },
    Steps,
}

/// A run. Main is invocation 0. The invocation that was entered last is looked at before the map is.
struct Run<'a> {
    graph: &'a Graph<'a>,
    left: u64,
    invocations: Vec<Invocation>,
    numbers: HashMap<Made, u32, BuildHasherDefault<Product>>,
    last: u32,
    rows: Vec<Option<Value>>,
    fresh: VecDeque<Token>,
    deferred: Vec<Token>,
    cells: Vec<Option<Value>>,
    outputs: Vec<Option<Value>>,
}

impl Run<'_> {
    fn run(&mut self) -> End {
        while let Some(token) = self.fresh.pop_front() {
            if let Err(end) = self.take(token) {
                return end;
            }
        }
        End::Rest
    }

    /// Does the activity of a token and its partners. Where one is missing, or a cell is empty, the token waits.
    fn take(&mut self, token: Token) -> Result<(), End> {
        let Token { context, value, .. } = token;
        let graph = self.graph;
        let spot = &graph.spots[token.spot as usize];
        let answer = match spot.action {
            Action::Pass => value,
            Action::Lit(number) => Value::Int(number),
            Action::Unary(operator) => match value {
                Value::Int(number) => Value::Int(operator(number)),
                fault => fault,
            },
            Action::Binary(operator) => match self.meet(context, spot, value) {
                Some((left, right)) => apply(operator, left, right, spot.origin),
                None => return Ok(()),
            },
            Action::Gate { side } => match self.meet(context, spot, value) {
                Some((value, predicate)) if predicate.is_true() == side => value,
                Some(_) => return self.count(),
                None => return Ok(()),
            },
            Action::Fetch(array) => match graph.cell_of(array, value, spot.origin).map(|cell| self.cells[cell]) {
                Ok(Some(held)) => held,
                Ok(None) => return Ok(self.deferred.push(token)),
                Err(fault) => fault,
            },
            Action::Store(array) => match self.meet(context, spot, value) {
                Some((index, value)) => match graph.cell_of(array, index, spot.origin) {
                    Ok(cell) => return self.store(context, spot.port, cell, value),
                    Err(fault) => fault,
                },
                None => return Ok(()),
            },
            Action::Call(block) => return self.enter(Made { by: context, port: spot.port, turn: 0 }, block, spot.operand.into(), value),
            Action::StrictCall { block, arity } => return self.call_if_ready(context, spot, block, arity, value),
            Action::Out { result } => return self.give(context, result, value),
            Action::Turn { input } => match self.meet(context, spot, value) {
                Some((flag, value)) => return self.turn(context, input, flag, value),
                None => return Ok(()),
            },
        };
        self.send(context, spot.port, answer)
    }

    /// Counts an activity. There is none after the last one that is allowed.
    fn count(&mut self) -> Result<(), End> {
        self.left = self.left.checked_sub(1).ok_or(End::Steps)?;
        Ok(())
    }

    /// Takes the partner that waits out of the row, and returns both in order, or leaves the value there.
    fn meet(&mut self, context: u32, spot: &Spot, value: Value) -> Option<(Value, Value)> {
        let place = self.invocations[context as usize].row + spot.place as usize;
        match self.rows[place].take() {
            Some(partner) if spot.operand == 0 => Some((value, partner)),
            Some(partner) => Some((partner, value)),
            None => {
                self.rows[place] = Some(value);
                None
            }
        }
    }

    fn send(&mut self, context: u32, port: u32, value: Value) -> Result<(), End> {
        self.count()?;
        for &spot in &self.graph.ports[port as usize] {
            self.fresh.push_back(Token { context, spot, value });
        }
        Ok(())
    }

    fn enter(&mut self, made: Made, block: u32, input: u32, value: Value) -> Result<(), End> {
        self.count()?;
        self.put(made, block, input, value);
        Ok(())
    }

    /// Puts a value at an input of an invocation.
    fn put(&mut self, made: Made, block: u32, input: u32, value: Value) {
        let context = self.number_of(made, block);
        self.fresh.push_back(Token { context, spot: self.graph.blocks[block as usize].first + input, value });
    }

    /// The number of the invocation that was made there. It is added where it is new.
    fn number_of(&mut self, made: Made, block: u32) -> u32 {
        if self.invocations[self.last as usize].made != made {
            let next = self.invocations.len() as u32;
            self.last = *self.numbers.entry(made).or_insert(next);
            if self.last == next {
                self.invocations.push(Invocation { made, block, row: self.rows.len() });
                self.rows.resize(self.rows.len() + self.graph.blocks[block as usize].places as usize, None);
            }
        }
        self.last
    }

    /// Makes a call where all its arguments are there: one activity.
    fn call_if_ready(&mut self, context: u32, spot: &Spot, block: u32, arity: u32, value: Value) -> Result<(), End> {
        let first = self.invocations[context as usize].row + spot.place as usize;
        self.rows[first + spot.operand as usize] = Some(value);
        if self.rows[first..][..arity as usize].iter().any(Option::is_none) {
            return Ok(());
        }
        self.count()?;
        let made = Made { by: context, port: spot.port, turn: 0 };
        for input in 0..arity {
            let value = self.rows[first + input as usize].take().expect("an argument");
            self.put(made, block, input, value);
        }
        Ok(())
    }

    /// Fills a cell, and has the deferred fetches looked at again.
    fn store(&mut self, context: u32, port: u32, cell: usize, value: Value) -> Result<(), End> {
        if self.cells[cell].is_some() {
            return Err(End::Clash { cell });
        }
        if self.left > 0 {
            self.cells[cell] = Some(value);
            self.fresh.extend(self.deferred.drain(..));
        }
        self.send(context, port, value)
    }

    /// Gives a result to the caller, or to an output.
    fn give(&mut self, context: u32, result: u32, value: Value) -> Result<(), End> {
        if context > 0 {
            let made = self.invocations[context as usize].made;
            return self.send(made.by, made.port + result, value);
        }
        self.count()?;
        self.outputs[result as usize] = Some(value);
        Ok(())
    }

    /// Gives a value to the next turn, or out of the loop.
    fn turn(&mut self, context: u32, input: u32, flag: Value, value: Value) -> Result<(), End> {
        let Invocation { made, block, .. } = self.invocations[context as usize];
        if flag.is_true() {
            self.enter(Made { turn: made.turn + 1, ..made }, block, input, value)
        } else {
            self.send(made.by, made.port + input, value)
        }
    }

    fn report(&self, end: &End, out: &mut impl Write) -> io::Result<()> {
        for (port, output) in self.outputs.iter().enumerate() {
            match output {
                Some(value) => writeln!(out, "output {port} {value}")?,
                None => writeln!(out, "output {port} -")?,
            }
        }
        for Array { name, first, len } in &self.graph.arrays {
            for (index, cell) in self.cells[*first..][..*len].iter().enumerate() {
                cell.map_or(Ok(()), |value| writeln!(out, "cell {name} {index} {value}"))?;
            }
        }
        match *end {
            End::Rest => writeln!(out, "end Rest"),
            End::Steps => writeln!(out, "end Steps"),
            End::Clash { cell } => {
                let array = self.graph.arrays.iter().rfind(|it| it.first <= cell).expect("an array");
                writeln!(out, "end Clash {} {}", array.name, cell - array.first)
            }
        }
    }
}

fn main() {
    let words: Vec<String> = std::env::args().collect();
    let text = io::read_to_string(io::stdin()).expect("a graph");
    let (graph, main, outputs, inputs) = Reader::read(&text);
    let Block { first, places } = graph.blocks[main];
    let mut run = Run {
        graph: &graph,
        left: words.get(2).map_or(1_000_000, |it| number(it)),
        invocations: vec![Invocation { made: Made { by: u32::MAX, port: 0, turn: 0 }, block: main as u32, row: 0 }],
        numbers: HashMap::default(),
        last: 0,
        rows: vec![None; places as usize],
        fresh: (first..).zip(inputs).map(|(spot, input)| Token { context: 0, spot, value: Value::Int(input) }).collect(),
        deferred: Vec::new(),
        cells: vec![None; graph.cells()],
        outputs: vec![None; outputs],
    };
    let end = run.run();
    run.report(&end, &mut BufWriter::new(io::stdout().lock())).expect("a pipe");
    std::process::exit(match end {
        End::Rest => 0,
        End::Clash { .. } => 3,
        End::Steps => 4,
    });
}
