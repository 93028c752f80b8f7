//! An object that is taken to be sound, for the machines in plain Rust beside this file: nothing of it is checked.
#![allow(dead_code)] // each machine uses a part of it

use std::io::{BufWriter, Write, stdout};

/// Its code: numbers are of words and of instructions.
pub struct Code<'a> {
    pub bytes: &'a [u8],
    pub version: u64,
    pub instrs: usize,
    pub literals: usize,
    pub entries: Vec<u32>,
    pub arrays: Vec<(u32, u32)>,
    pub cells: u32,
    pub outputs: usize,
    pub slots: usize,
    pub main: usize,
}

impl<'a> Code<'a> {
    pub fn new(bytes: &'a [u8]) -> Code<'a> {
        let word = |place: usize| u64::from_le_bytes(bytes[8 * place..8 * place + 8].try_into().unwrap());
        let (blocks, literals, arrays, main) = (word(2) as usize, word(3) as usize, word(4) as usize, word(5) as usize);
        let mut entries = Vec::new();
        let mut first = 0;
        let mut slots = 1;
        for block in 0..blocks {
            entries.push(first);
            first += word(6 + block) as u32;
            slots = slots.max((word(6 + block) >> 48) as usize);
        }
        let instrs = first as usize;
        let mut base = 0;
        let mut places = Vec::new();
        for array in 0..arrays {
            let len = word(6 + blocks + 2 * instrs + literals + array) as u32;
            places.push((base, len));
            base += len;
        }
        Code {
            bytes,
            version: word(1),
            instrs,
            literals: 6 + blocks + 2 * instrs,
            outputs: (word(6 + main) >> 40 & 255) as usize,
            entries,
            arrays: places,
            cells: base,
            slots,
            main,
        }
    }

    pub fn word(&self, place: usize) -> u64 {
        u64::from_le_bytes(self.bytes[8 * place..8 * place + 8].try_into().unwrap())
    }

    /// Prints the cells that are full, as a report lists them: `value` is the integer in the cell of a number.
    pub fn print_cells(&self, value: impl Fn(u32) -> Option<i64>) {
        let mut out = BufWriter::new(stdout().lock());
        for (array, &(base, len)) in self.arrays.iter().enumerate() {
            for index in 0..len {
                if let Some(it) = value(base + index) {
                    writeln!(out, "cell {array} {index} {it}").expect("standard output");
                }
            }
        }
    }

    /// The word with which the first instruction begins.
    pub fn first_instr(&self) -> usize {
        6 + self.entries.len()
    }
}
