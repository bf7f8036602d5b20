// What checking a certificate costs as its points grow, without permutations and with 16, in one run. The clauses are
// all sign patterns of 8 variables, so that each point falsifies exactly one and has 8 flips to look up. Without
// permutations the points are all of m variables, and every flip is one of them. With 16 two more variables tell the
// parity of those 8, and only the last permutation, which exchanges the two, takes a flip to a point: the 15 before
// it are the identity, so that each of them costs an image and a look-up that finds nothing.
mod clock;
mod files;
#[path = "../tests/library.rs"]
mod library;
#[path = "../tests/sheets.rs"]
mod sheets;
use clock::least;

const LISTED: u32 = 8;

// The points of m variables, each with its parity shown by two more where there are permutations.
fn points(m: u32, shown: bool) -> Vec<u64> {
    let parity = |a: u64| (a & ((1 << LISTED) - 1)).count_ones() % 2;
    (0..1u64 << m).map(|a| if shown { a | 1 << (m + parity(a)) } else { a }).collect()
}

fn main() {
    println!("permutations points look-ups seconds microseconds-a-look-up");
    for listed in [0usize, 16] {
        for m in [10u32, 12, 14, 16] {
            let variables = if listed > 0 { m + 2 } else { m };
            let identity: Vec<u8> = (1..=variables as u8).collect();
            let mut permutations = vec![identity.clone(); listed];
            if let Some(last) = permutations.last_mut() {
                last.swap(m as usize, m as usize + 1);
            }
            let held = points(m, listed > 0);
            let all = (1u64 << LISTED) - 1;
            let file =
                files::certificate(variables, 1 << LISTED, &permutations, &held, |x| (all - (x & all)) as usize + 1);
            let (s, mut reply) = (sheets::sheet(variables, &sheets::every(LISTED), &[]), [0u64; 4]);
            let [seconds] = least(0.2, [&mut || assert_eq!(library::check(&s, &file, &mut reply), 1)]);
            assert_eq!(reply, [7, 0, 0, 0], "accepted");
            let lookups = held.len() as u32 * LISTED;
            println!("{listed} {} {lookups} {seconds:.4} {:.3}", held.len(), seconds / lookups as f64 * 1e6);
        }
    }
}
