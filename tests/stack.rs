// How much of the stack calls take that need little of it: a small search with 4,096 slots, the check of a file that is
// refused by 14, and writing a sheet, the largest too; and a search that fills all slots that there can be, in both
// forms. Prints a line a case and a count; exit status 1 if one of the first two takes 64 KiB or more, or another more
// than include/jugbowo.h says.
mod depth;
mod library;
mod sheets;
use library::{Count, Slot, REFUSED, SHEET_ROOM, UNSATISFIABLE, WRITTEN};
use sheets::{cube, formula_a, sheet};

const MOST: usize = 64 << 10;
// What the header says of jugbowo_write_sheet.
const MOST_WRITING: usize = 8 << 10;
// What it says of jugbowo_search and jugbowo_search_slots.
const MOST_SEARCHING: usize = 1 << 20;
const MOST_OVER_SLOTS: usize = 2 << 20;

// A call whose reply begins with these words and that takes less than so many bytes.
fn takes_less(count: &mut Count, name: &str, words: &[u64], most: usize, task: &mut dyn FnMut(&mut [u64; 4]) -> u32) {
    let mut reply = [9; 4];
    let bytes = depth::used(&mut || assert_eq!(task(&mut reply), 1));
    count.compare(&format!("{name}: the reply"), &reply[..words.len()], words);
    count.expect(&format!("{name}: {bytes} bytes of the stack, less than {most}"), bytes < most);
}

// Writing a small sheet and the largest, with all images lent and with no more than there are, with the room that
// always suffices and with none.
fn writing(count: &mut Count) {
    let small = sheet(2, &formula_a(), &[vec![2, 1]]);
    let mut few = small.clone();
    few.images.truncate(2);
    let large = sheet(64, &vec![(u64::MAX, u64::MAX); 4096], &vec![(1..=64).collect(); 16]);
    let mut out = vec![0; SHEET_ROOM];
    for (name, s) in
        [("a small sheet", &small), ("a small sheet, two images lent", &few), ("the largest sheet", &large)]
    {
        takes_less(count, &format!("writing {name}"), &[WRITTEN], MOST_WRITING, &mut |reply| {
            library::write_sheet(s, &mut out, reply)
        });
        takes_less(count, &format!("measuring {name}"), &[REFUSED, 19], MOST_WRITING, &mut |reply| {
            library::write_sheet(s, &mut [], reply)
        });
    }
}

// A search with as many variables, permutations and slots as there can be, over three slices and over one of structs.
fn searching(count: &mut Count) {
    let large = sheet(64, &cube(48), &vec![(1..=64).collect(); 16]);
    let (mut points, mut numbers, mut depths) = (vec![0; 65536], vec![0; 65536], vec![0; 65536]);
    takes_less(count, "the largest search", &[UNSATISFIABLE, 65536], MOST_SEARCHING, &mut |reply| {
        library::search(&large, &mut points, &mut numbers, &mut depths, reply)
    });
    let mut slots = vec![Slot { point: 0, falsified: 0, depth: 0 }; 65536];
    takes_less(count, "the largest search over slots", &[UNSATISFIABLE, 65536], MOST_OVER_SLOTS, &mut |reply| {
        library::search_slots(&large, &mut slots, reply)
    });
}

fn main() {
    let mut count = Count::new();
    let s = sheet(2, &formula_a(), &[vec![2, 1]]);
    let (mut points, mut numbers, mut depths) = (vec![0; 4096], vec![0; 4096], vec![0; 4096]);
    takes_less(&mut count, "a small search", &[UNSATISFIABLE, 3], MOST, &mut |reply| {
        library::search(&s, &mut points, &mut numbers, &mut depths, reply)
    });
    takes_less(&mut count, "a check refused by 14", &[REFUSED, 14, 31], MOST, &mut |reply| {
        library::check(&s, &[0; 31], reply)
    });
    writing(&mut count);
    searching(&mut count);
    count.finish("stack");
}
