// Answers a sheet: `cargo run --example sheet FILE`.
use jugbowo::{solve, Slots, Solution};

fn main() {
    let path = std::env::args().nth(1).expect("usage: sheet FILE");
    let text = std::fs::read(&path).expect("the sheet");
    match solve(&text, &mut Slots::new(65536)) {
        Ok(Solution::Satisfiable { point, distance, filled }) => {
            println!("{distance} changes: yes are {:?} ({filled} slots)", names(point))
        }
        Ok(Solution::Unsatisfiable { certificate, filled }) => {
            println!("cannot be met; certificate of {} bytes, {filled} points", certificate.len())
        }
        Ok(Solution::Unknown { bound, filled }) => println!("no room in {filled} slots; at least {bound} changes"),
        Err(refusal) => println!("{refusal}"),
    }
}

fn names(point: u64) -> Vec<u32> {
    (1..=64).filter(|i| point >> (i - 1) & 1 == 1).collect()
}
