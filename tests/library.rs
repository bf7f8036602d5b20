// The exported functions for programs that own a formula and its clauses, and a count of cases. The declarations are
// those of the Rust binding.
#![allow(dead_code, unused_imports)] // a program uses some of them
use std::fmt::Debug;

#[path = "../bindings/rust/src/sys.rs"]
mod sys;
pub use sys::{image_at, nearest, number_at, open, point_at, read, solve, Slot};
pub use sys::{
    ACCEPTED, CERTIFIED, OPENED, PARSED, REFUSED, SATISFIABLE, SHEET_ROOM, UNCERTIFIED, UNKNOWN, UNSATISFIABLE, WRITTEN,
};

// A formula with its clauses.
#[derive(Clone, PartialEq, Debug)]
pub struct Sheet {
    pub variables: u32,
    pub clauses: u32,
    pub target: u64,
    pub permutations: u32,
    pub images: Vec<u8>,
    pub positive: Vec<u64>,
    pub negative: Vec<u64>,
}

impl Sheet {
    fn lent(&self) -> sys::Formula<'_> {
        sys::Formula {
            variables: self.variables,
            clauses: self.clauses,
            target: self.target,
            permutations: self.permutations,
            images: &self.images,
            positive: &self.positive,
            negative: &self.negative,
        }
    }
}

pub fn write_sheet(s: &Sheet, out: &mut [u8], reply: &mut [u64]) -> u32 {
    sys::write_sheet(&s.lent(), out, reply)
}

pub fn search(s: &Sheet, points: &mut [u64], falsified: &mut [u32], depths: &mut [u32], reply: &mut [u64]) -> u32 {
    sys::search(&s.lent(), points, falsified, depths, reply)
}

pub fn write(
    s: &Sheet,
    points: &[u64],
    falsified: &[u32],
    depths: &[u32],
    filled: u32,
    out: &mut [u8],
    reply: &mut [u64],
) -> u32 {
    sys::write(&s.lent(), points, falsified, depths, filled, out, reply)
}

pub fn search_slots(s: &Sheet, slots: &mut [Slot], reply: &mut [u64]) -> u32 {
    sys::search_slots(&s.lent(), slots, reply)
}

pub fn write_slots(s: &Sheet, slots: &[Slot], filled: u32, out: &mut [u8], reply: &mut [u64]) -> u32 {
    sys::write_slots(&s.lent(), slots, filled, out, reply)
}

// Slots from the same places of three lists, as many as the shortest has.
pub fn joined(points: &[u64], falsified: &[u32], depths: &[u32]) -> Vec<Slot> {
    points
        .iter()
        .zip(falsified)
        .zip(depths)
        .map(|((&point, &falsified), &depth)| Slot { point, falsified, depth })
        .collect()
}

pub fn check(s: &Sheet, file: &[u8], reply: &mut [u64]) -> u32 {
    sys::check(&s.lent(), file, reply)
}

// Counts the cases of a program that came out as expected, and prints a line for each.
pub struct Count {
    passed: usize,
    failed: usize,
}

impl Count {
    pub fn new() -> Count {
        Count { passed: 0, failed: 0 }
    }

    pub fn compare<T: PartialEq + Debug>(&mut self, name: &str, got: T, wanted: T) {
        if got == wanted {
            println!("{name}: as expected");
            self.passed += 1;
        } else {
            println!("{name}: NOT as expected: {got:?} for {wanted:?}");
            self.failed += 1;
        }
    }

    pub fn expect(&mut self, name: &str, ok: bool) {
        self.compare(name, ok, true);
    }

    // Prints the count; exit status 1 if a case was not as expected.
    pub fn finish(self, what: &str) {
        println!("{what}: {} passed, {} failed", self.passed, self.failed);
        if self.failed > 0 {
            std::process::exit(1);
        }
    }
}
