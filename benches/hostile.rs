// What a file can cost whoever checks it, and a sheet whoever searches: each ordinary case beside the worst that was
// found, in one run, for the library and for the baseline. The index takes a tree by a hash of the point and goes down
// by its lowest digits, so hostile points have the hash of one of a few trees and the same 30 lowest digits; a hostile
// sheet repeats one clause, or has clauses of two hashes, which stand in two trees of guesses whatever is made of a
// hash. Prints a table; 'times' says how many times the ordinary time the hostile one is.
mod baseline;
mod beside;
mod clock;
mod files;
#[path = "../tests/library.rs"]
mod library;
#[path = "../tests/sheets.rs"]
mod sheets;
use library::{Sheet, ACCEPTED, REFUSED, SATISFIABLE, UNSATISFIABLE};

const POINTS: usize = 65536;
// The trees among which hostile points are spread.
const TREES: usize = 8;
// The digits that hostile points share.
const SHARED: u32 = 30;
// Digit 63, variable 64, is flipped; the last permutation exchanges digits 61 and 62, of which the points have the
// first.
const TOP: u64 = 1 << 63;
const FIRST: u64 = 1 << 61;
const SECOND: u64 = 1 << 62;

// How many heads the checker's index of so many points has.
const HEADS: u64 = 131072;

// The factors of a hash, of the lower and of the higher half, as crates/point_index has them.
const LOW: u32 = 1640531527;
const HIGH: u32 = 1779033703;

// The tree of a point.
fn tree(x: u64) -> usize {
    let hash = (x as u32).wrapping_mul(LOW).wrapping_add(((x >> 32) as u32).wrapping_mul(HIGH));
    (u64::from(hash) * HEADS >> 32) as usize
}

// The point with this lower half that has the hash.
fn completed(low: u32, hash: u32) -> u64 {
    let inverse = (0..5).fold(1u32, |i, _| i.wrapping_mul(2u32.wrapping_sub(HIGH.wrapping_mul(i))));
    let high = hash.wrapping_sub(low.wrapping_mul(LOW)).wrapping_mul(inverse);
    u64::from(high) << 32 | u64::from(low)
}

// Half as many points as a file holds, at random.
fn ordinary() -> Vec<u64> {
    files::random(88172645463325252).take(POINTS / 2).map(|x| x % FIRST | FIRST).collect()
}

// The same number, hostile: in trees so far apart that a flip of variable 64, which moves a point by half of the trees,
// leads from one of them to another.
fn chosen() -> Vec<u64> {
    let apart = HEADS as usize / TREES;
    let mut found = vec![Vec::new(); TREES];
    for x in (0..1u64 << 31).map(|c| c << SHARED | FIRST) {
        let k = tree(x) / apart;
        if tree(x) % apart == 0 && found[k].len() < POINTS / 2 / TREES {
            found[k].push(x);
        }
    }
    found.concat()
}

// The points of a file in which each flip of variable 64 is found by the last permutation alone: a half, and its
// flips, exchanged.
fn closed(half: &[u64]) -> Vec<u64> {
    half.iter().copied().chain(half.iter().map(|&x| x ^ TOP ^ FIRST ^ SECOND)).collect()
}

// Sixteen permutations that keep the clauses on variable 64: fifteen exchange two of the 30 lowest variables, the
// last two above.
fn permutations() -> Vec<Vec<u8>> {
    (0..15).map(|k| swapped(2 * k, 2 * k + 1)).chain([swapped(61, 62)]).collect()
}

fn swapped(a: usize, b: usize) -> Vec<u8> {
    let mut e: Vec<u8> = (1..=64).collect();
    e.swap(a, b);
    e
}

// A file over the two clauses on variable 64 alone.
fn file(permutations: &[Vec<u8>], points: &[u64]) -> (Sheet, Vec<u8>) {
    let file = files::certificate(64, 2, permutations, points, |x| if x & TOP == 0 { 1 } else { 2 });
    (sheets::sheet(64, &[(TOP, 0), (0, TOP)], &[]), file)
}

// Clauses with 16 permutations that exchange the first two variables, and a target that satisfies them all by variable
// 64; a file of one point that falsifies the first clause and has a flip that is not in it, so that it is refused by 18
// after the test that the permutations keep the clauses.
fn kept(clauses: &[(u64, u64)], point: u64) -> (Sheet, Vec<u8>) {
    let permutations = vec![swapped(0, 1); 16];
    let with: Vec<(u64, u64)> = clauses.iter().map(|&(positive, negative)| (positive | TOP, negative)).collect();
    let file = files::certificate(64, clauses.len() as u32, &permutations, &[point], |_| 1);
    (Sheet { target: TOP, ..sheets::sheet(64, &with, &permutations) }, file)
}

// One clause 4,095 times and the one to which the permutations send it.
fn repeated() -> Vec<(u64, u64)> {
    [vec![(1, 0); 4095], vec![(2, 0)]].concat()
}

// Clauses of variable 1 or 2 and others, as the permutations exchange them: at random, or such that those of variable 1
// have one hash, and so those of variable 2.
fn paired(crowded: bool) -> Vec<(u64, u64)> {
    let with_first = |x: u64| if crowded { completed(x as u32 & !2 | 1, 17) } else { x | TOP };
    let all = files::random(88172645463325252).map(with_first).filter(|x| x & TOP != 0).take(2048);
    all.map(|x| x & !TOP & !3).flat_map(|x| [(x | 1, 0), (x | 2, 0)]).collect()
}

// The clauses of a cube of 16 variables, the lowest or the highest of 64, with 16 permutations that move nothing, so
// that every flip costs 17 look-ups.
fn cube(first: u32) -> Sheet {
    let identity: Vec<u8> = (1..=64).collect();
    sheets::sheet(64, &sheets::cube(first), &vec![identity; 16])
}

// The milliseconds of the library and of the baseline, which answer the same.
fn both(library: &mut dyn FnMut() -> [u64; 4], baseline: &mut dyn FnMut() -> [u64; 4], wanted: [u64; 4]) -> [f64; 2] {
    let times = clock::least(
        0.2,
        [&mut || assert_eq!(library(), wanted, "the library"), &mut || assert_eq!(baseline(), wanted, "the baseline")],
    );
    times.map(|seconds| seconds * 1e3)
}

fn checked((s, file): &(Sheet, Vec<u8>), wanted: [u64; 4]) -> [f64; 2] {
    let (f, c) = (beside::formula(s), beside::clauses(s));
    let library = || {
        let mut reply = [9; 4];
        assert_eq!(library::check(s, file, &mut reply), 1);
        reply
    };
    let baseline = || beside::words(&baseline::check(&f, c, file), |_| [ACCEPTED, 0, 0, 0]);
    both(&mut { library }, &mut { baseline }, wanted)
}

fn searched(s: &Sheet, wanted: [u64; 4]) -> [f64; 2] {
    let (f, c) = (beside::formula(s), beside::clauses(s));
    let baseline = || beside::words(&baseline::Slots::new(POINTS).search(&f, c), beside::told);
    both(&mut || sheets::search(s, POINTS).reply, &mut { baseline }, wanted)
}

fn row(name: &str, ordinary: [f64; 2], hostile: [f64; 2]) {
    let cells: Vec<String> =
        [0, 1].map(|k| format!("{:.3} | {:.3} | {:.1}", ordinary[k], hostile[k], hostile[k] / ordinary[k])).to_vec();
    println!("| {name} | {} |", cells.join(" | "));
}

fn main() {
    let (random, chosen) = (ordinary(), chosen());
    assert_eq!(chosen.len(), POINTS / 2);
    println!("| case | ordinary, ms | hostile, ms | times | baseline: ordinary, ms | hostile, ms | times |");
    println!("|---|---|---|---|---|---|---|");
    let alone = |h: &[u64]| h.iter().copied().chain(h.iter().map(|&x| x ^ TOP)).collect::<Vec<u64>>();
    let accepted = [ACCEPTED, 0, 0, 0];
    row(
        "check 65,536 points, one flip each",
        checked(&file(&[], &alone(&random)), accepted),
        checked(&file(&[], &alone(&chosen)), accepted),
    );
    row(
        "the same with 16 permutations, 17 look-ups a flip",
        checked(&file(&permutations(), &closed(&random)), accepted),
        checked(&file(&permutations(), &closed(&chosen)), accepted),
    );
    let all = [UNSATISFIABLE, POINTS as u64, 0, 0];
    row("search, 4,096 clauses of 12 variables, 16 permutations", searched(&cube(0), all), searched(&cube(52), all));
    let (distinct, repeated) = (kept(&sheets::every(12), (1 << 12) - 1), kept(&repeated(), 0));
    let satisfied = [SATISFIABLE, TOP, 0, 1];
    row(
        "search, one clause 4,095 times, 16 permutations",
        searched(&distinct.0, satisfied),
        searched(&repeated.0, satisfied),
    );
    let refused = [REFUSED, 18, 1, 0];
    row("check, the same sheet", checked(&distinct, refused), checked(&repeated, refused));
    let (spread, crowded) = (kept(&paired(false), 0), kept(&paired(true), 0));
    row(
        "search, 4,096 clauses of two hashes, 16 permutations",
        searched(&spread.0, satisfied),
        searched(&crowded.0, satisfied),
    );
    row("check, the same sheet", checked(&spread, refused), checked(&crowded, refused));
}
