// What a flip costs as the slots grow: the search over PH(7, 6), which fills every slot lent, without permutations
// and with 16, in one run. The 16 are the identity, so that both searches fill the same slots, and a flip that no
// slot covers costs 17 look-ups. The whole search is timed, and divided by the flips that it tried.
mod clock;
#[path = "../tests/library.rs"]
mod library;
#[path = "../tests/sheets.rs"]
mod sheets;
use clock::least;
use library::Sheet;

const HOLES: usize = 6;
const VARIABLES: usize = HOLES * (HOLES + 1);

// How many flips a search tries, and its seconds. Each point with a clause number had the variables of that clause
// flipped; of the last such point the search may have left some out.
fn measured(s: &Sheet, slots: usize) -> (f64, f64) {
    let found = sheets::search(s, slots);
    assert_eq!(found.reply[2], slots as u64, "all slots are filled");
    let numbers = found.numbers.iter().filter(|&&c| c > 0).map(|&c| c as usize - 1);
    let flips: u32 = numbers.map(|c| (s.positive[c] | s.negative[c]).count_ones()).sum();
    (flips as f64, least(1.0, [&mut || drop(sheets::search(s, slots))])[0])
}

fn main() {
    let identity: Vec<u8> = (1..=VARIABLES as u8).collect();
    println!("permutations slots flips microseconds-a-flip");
    for permutations in [vec![], vec![identity; 16]] {
        let s = sheets::sheet(VARIABLES as u32, &sheets::pigeons(HOLES), &permutations);
        for slots in [256, 1024, 4096, 16384, 65536] {
            let (flips, seconds) = measured(&s, slots);
            println!("{} {slots} {flips} {:.3}", permutations.len(), seconds / flips * 1e6);
        }
    }
}
