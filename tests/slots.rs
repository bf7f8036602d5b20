// The search and the writer over one slice of slots beside those over three slices, on document 01's worked cases A
// and B and on refusals: each reply, the slots and the output have to be the same. Prints a line a case and a count;
// exit status 1 if one is not as expected.
mod library;
mod sheets;
use library::{joined, Count, Sheet, Slot, REFUSED, SATISFIABLE, UNKNOWN, UNSATISFIABLE, WRITTEN};
use sheets::{clause, formula_a, pigeons, sheet, swaps};

fn case_a(permutations: &[Vec<u8>]) -> Sheet {
    sheet(2, &formula_a(), permutations)
}

fn case_b() -> Sheet {
    sheet(3, &[&[1, 2][..], &[-1, 3]].map(clause), &[])
}

// What a slot holds before a search.
fn held(i: usize) -> Slot {
    Slot { point: 1000 + i as u64, falsified: 2000 + i as u32, depth: 3000 + i as u32 }
}

// What a search returns, its reply and the slots that it leaves.
type Found = (u32, Vec<u64>, Vec<Slot>);

// The same search in the slot form and in the parallel form.
fn both(s: &Sheet, count: usize, words: usize) -> (Found, Found) {
    let mut slots: Vec<Slot> = (0..count).map(held).collect();
    let mut points: Vec<u64> = slots.iter().map(|t| t.point).collect();
    let mut falsified: Vec<u32> = slots.iter().map(|t| t.falsified).collect();
    let mut depths: Vec<u32> = slots.iter().map(|t| t.depth).collect();
    let (mut reply, mut wanted) = (vec![9; words], vec![9; words]);
    let returned = library::search_slots(s, &mut slots, &mut reply);
    let parallel = library::search(s, &mut points, &mut falsified, &mut depths, &mut wanted);
    ((returned, reply, slots), (parallel, wanted, joined(&points, &falsified, &depths)))
}

// A search in both forms that answers these words; a refusal leaves every slot as it was.
fn searched(count: &mut Count, name: &str, s: &Sheet, slots: usize, wanted: [u64; 4]) -> Vec<Slot> {
    let (found, parallel) = both(s, slots, 5);
    count.compare(&format!("{name}: the reply"), found.1[..4].to_vec(), wanted.to_vec());
    count.expect(&format!("{name}: as the parallel form"), found == parallel);
    if wanted[0] == REFUSED {
        count.expect(&format!("{name}: slots unchanged"), found.2.iter().enumerate().all(|(i, &t)| t == held(i)));
    }
    found.2
}

fn worked(count: &mut Count) {
    let swap = [vec![2u8, 1]];
    searched(count, "A", &case_a(&[]), 4096, [UNSATISFIABLE, 4, 0, 0]);
    let slots = searched(count, "A with exchange 2 1", &case_a(&swap), 5, [UNSATISFIABLE, 3, 0, 0]);
    let filled = joined(&[0, 1, 3], &[1, 2, 4], &[0, 1, 2]);
    count.expect("A with exchange 2 1: its slots", slots == [filled, vec![held(3), held(4)]].concat());
    searched(count, "A, P = 4", &case_a(&[]), 4, [UNSATISFIABLE, 4, 0, 0]);
    searched(count, "A, P = 3", &case_a(&[]), 3, [UNKNOWN, 2, 3, 0]);
    searched(count, "A, P = 70,000", &case_a(&[]), 70000, [UNSATISFIABLE, 4, 0, 0]);
    searched(count, "B", &case_b(), 4096, [SATISFIABLE, 2, 1, 3]);
    let slots = searched(count, "B, P = 3", &case_b(), 3, [SATISFIABLE, 2, 1, 3]);
    count.expect("B, P = 3: its slots", slots == joined(&[0, 1, 2], &[1, 0, 0], &[0, 1, 1]));
    searched(count, "B, P = 2", &case_b(), 2, [UNKNOWN, 1, 2, 0]);
    searched(count, "B, P = 0", &case_b(), 0, [REFUSED, 13, 0, 0]);
    searched(count, "A, P = 0", &case_a(&[]), 0, [REFUSED, 13, 0, 0]);
    searched(count, "PH(4, 3) with its swaps", &sheet(12, &pigeons(3), &swaps(3)), 70000, [UNSATISFIABLE, 54, 0, 0]);
}

fn refused(count: &mut Count) {
    let mut more = case_a(&[]);
    more.clauses = 5;
    searched(count, "a clause too few lent", &more, 8, [REFUSED, 10, 0, 0]);
    searched(count, "not a permutation", &case_a(&[vec![1, 1]]), 8, [REFUSED, 11, 1, 0]);
    let mut flat = case_b();
    flat.permutations = 1;
    flat.images[..3].copy_from_slice(&[2, 1, 3]);
    searched(count, "a permutation that changes the clauses", &flat, 8, [REFUSED, 12, 1, 0]);
    for words in 0..4 {
        let (found, parallel) = both(&case_a(&[]), 8, words);
        count.expect(
            &format!("{words} words for the reply"),
            found == parallel && found.0 == 0 && found.2 == (0..8).map(held).collect::<Vec<_>>(),
        );
    }
}

// The writer in both forms, from the slots of a search: the reply, and the output with the bytes behind the
// certificate.
fn written(
    count: &mut Count,
    name: &str,
    s: &Sheet,
    slots: &[Slot],
    used: u32,
    bytes: usize,
    words: usize,
) -> Vec<u64> {
    let points: Vec<u64> = slots.iter().map(|t| t.point).collect();
    let falsified: Vec<u32> = slots.iter().map(|t| t.falsified).collect();
    let depths: Vec<u32> = slots.iter().map(|t| t.depth).collect();
    let (mut out, mut parallel) = (vec![9; bytes], vec![9; bytes]);
    let (mut reply, mut wanted) = (vec![9; words], vec![9; words]);
    let returned = library::write_slots(s, slots, used, &mut out, &mut reply);
    let same = library::write(s, &points, &falsified, &depths, used, &mut parallel, &mut wanted);
    count.expect(&format!("{name}: as the parallel form"), (returned, &reply, &out) == (same, &wanted, &parallel));
    reply
}

fn certificates(count: &mut Count) {
    let s = case_a(&[vec![2, 1]]);
    let slots = both(&s, 5, 4).0 .2;
    let mut wants = |name: &str, used: u32, bytes: usize, wanted: [u64; 4]| {
        let reply = written(count, name, &s, &slots, used, bytes, 5);
        count.compare(&format!("{name}: the reply"), reply[..4].to_vec(), wanted.to_vec());
    };
    wants("the certificate of A with exchange 2 1", 3, 72, [WRITTEN, 70, 0, 0]);
    wants("an output that just suffices", 3, 70, [WRITTEN, 70, 0, 0]);
    wants("an output too short", 3, 69, [REFUSED, 19, 70, 0]);
    wants("no slot to write", 0, 72, [REFUSED, 16, 0, 0]);
    wants("more slots than lent", 6, 72, [REFUSED, 16, 0, 0]);
    wants("a slot that was not filled", 4, 90, [REFUSED, 16, 4, 0]);
    for words in 0..4 {
        written(count, &format!("written with {words} words for the reply"), &s, &slots, 3, 72, words);
    }
    let many: Vec<Slot> = (0..70000).map(held).collect();
    written(count, "70,000 slots asked for", &s, &many, 70000, 72, 5);
    let large = sheet(30, &pigeons(5), &[]);
    let slots = searched(count, "PH(6, 5), P = 70,000", &large, 70000, [UNSATISFIABLE, 33411, 0, 0]);
    written(count, "the certificate of PH(6, 5)", &large, &slots, 33411, 500000, 5);
}

// As many slots lent as a search has places at each of its sizes, one fewer and one more; and as many written.
fn sizes(count: &mut Count) {
    let large = sheet(42, &pigeons(6), &[]);
    for room in [255, 256, 257, 4095, 4096, 4097] {
        let (found, parallel) = both(&large, room, 4);
        let full = found.1[0] == UNKNOWN && found.1[2] == room as u64;
        count.expect(&format!("PH(7, 6), P = {room}: all filled, as the parallel form"), full && found == parallel);
    }
    let s = sheet(20, &pigeons(4), &[]);
    let slots = searched(count, "PH(5, 4), P = 2,290", &s, 2290, [UNSATISFIABLE, 2289, 0, 0]);
    let reply = written(count, "the certificate of PH(5, 4)", &s, &slots, 2289, 50000, 5);
    count.expect("the certificate of PH(5, 4) is written", reply[0] == WRITTEN);
    for used in [1024, 1025, 8192, 8193] {
        let more: Vec<Slot> = (0..8193).map(|i| *slots.get(i).unwrap_or(&held(i))).collect();
        written(count, &format!("{used} slots asked for"), &s, &more, used, 200000, 5);
    }
}

// More slots lent than are used: the first 65,536 are filled, and those behind them stay.
fn all_used(count: &mut Count) {
    let (found, parallel) = both(&sheet(42, &pigeons(6), &[]), 65540, 4);
    count.expect("PH(7, 6), P = 65,540: as the parallel form", found == parallel);
    count.expect(
        "PH(7, 6), P = 65,540: 65,536 filled",
        found.1[0] == UNKNOWN && found.1[2] == 65536 && found.2[65535] != held(65535),
    );
    count.expect("PH(7, 6), P = 65,540: the last four unchanged", (65536..65540).all(|i| found.2[i] == held(i)));
}

fn main() {
    let mut count = Count::new();
    worked(&mut count);
    refused(&mut count);
    certificates(&mut count);
    sizes(&mut count);
    all_used(&mut count);
    count.finish("slots");
}
