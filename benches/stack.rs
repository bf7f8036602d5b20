// How much of the stack each exported function takes, on a small sheet, as most are, and on large ones, which make it
// go as deep as it goes: as many clauses, slots and permutations as there can be, and a certificate of as many points.
// For `nearest`, which takes texts of 65,536 bytes and has 4,096 slots, there are smaller ones among them.
#[path = "../tests/depth.rs"]
mod depth;
#[path = "../tests/library.rs"]
mod library;
#[path = "../tests/sheets.rs"]
mod sheets;
use depth::used;
use library::{Slot, ACCEPTED, CERTIFIED, OPENED, PARSED, SHEET_ROOM, UNSATISFIABLE, WRITTEN};

// The functions in the order in which they were called, with the bytes that each took.
type Taken = Vec<(&'static str, usize)>;

// Calls a function that answers a word.
fn call(taken: &mut Taken, name: &'static str, word: u64, task: &mut dyn FnMut(&mut [u64; 4]) -> u32) -> [u64; 4] {
    let mut reply = [9; 4];
    taken.push((name, used(&mut || assert_eq!(task(&mut reply), 1))));
    assert_eq!(reply[0], word, "{name}");
    reply
}

// Calls each function on one sheet that no point satisfies, with so many slots.
fn taken(variables: u32, clauses: &[(u64, u64)], permutations: &[Vec<u8>], room: usize) -> Taken {
    let s = &sheets::sheet(variables, clauses, permutations);
    let text = &sheets::text(variables, clauses, permutations);
    let mut t = Vec::new();
    let (mut p, mut q, mut four, mut kilo) = (vec![0; 4096], vec![0; 4096], [0; 4], [0; 1024]);
    call(&mut t, "read", PARSED, &mut |reply| library::read(text, &mut p, &mut q, &mut four, &mut kilo, reply));
    let mut written = vec![0; SHEET_ROOM];
    call(&mut t, "write_sheet", WRITTEN, &mut |reply| library::write_sheet(s, &mut written, reply));
    let (mut points, mut numbers, mut depths) = (vec![0; room], vec![0; room], vec![0; room]);
    let mut slots = vec![Slot { point: 0, falsified: 0, depth: 0 }; room];
    let mut out = vec![0; 32 + 1024 + 12 * room];
    let filled = call(&mut t, "search", UNSATISFIABLE, &mut |reply| {
        library::search(s, &mut points, &mut numbers, &mut depths, reply)
    })[1] as u32;
    call(&mut t, "write", WRITTEN, &mut |reply| library::write(s, &points, &numbers, &depths, filled, &mut out, reply));
    call(&mut t, "search_slots", UNSATISFIABLE, &mut |reply| library::search_slots(s, &mut slots, reply));
    let length =
        call(&mut t, "write_slots", WRITTEN, &mut |reply| library::write_slots(s, &slots, filled, &mut out, reply))[1]
            as usize;
    let file = &out[..length];
    call(&mut t, "check", ACCEPTED, &mut |reply| library::check(s, file, reply));
    let mut contents = [0; 8];
    call(&mut t, "open", OPENED, &mut |reply| library::open(file, &mut contents, reply));
    let [images, bodies, last] = [3, 5, 7].map(|place| &file[contents[place] as usize..]);
    if !permutations.is_empty() {
        call(&mut t, "image_at", 1, &mut |reply| library::image_at(images, variables as usize, 0, 1, reply));
    }
    call(&mut t, "point_at", 1, &mut |reply| library::point_at(bodies, filled as usize - 1, reply));
    call(&mut t, "number_at", 1, &mut |reply| library::number_at(last, filled as usize - 1, reply));
    call(&mut t, "solve", CERTIFIED, &mut |reply| {
        library::solve(text, &mut points, &mut numbers, &mut depths, &mut out, reply)
    });
    let mut printed = [0; 400];
    t.push(("nearest", used(&mut || assert!(library::nearest(text, &mut printed) > 0))));
    t
}

fn main() {
    let identity = |n: u8| vec![(1..=n).collect::<Vec<u8>>(); 16];
    let small = taken(2, &sheets::formula_a(), &[vec![2, 1]], 4096);
    let large = [
        taken(64, &sheets::cube(48), &identity(64), 65536),
        taken(30, &sheets::pigeons(5), &sheets::swaps(5), 65536),
        taken(30, &sheets::pigeons(5), &[], 65536),
        taken(10, &sheets::every(10), &identity(10), 65536),
    ];
    println!("| function | small, bytes | large, bytes |\n|---|---|---|");
    for (name, bytes) in small {
        let most = large.iter().flatten().filter(|(other, _)| *other == name).map(|&(_, most)| most).max();
        println!("| {name} | {bytes} | {} |", most.expect("each function has large inputs"));
    }
}
