// The executed cases of the search (G.d): document 002's example of 14 points, pigeon-hole formulas, formulas at the
// limits, and what the order of the clauses changes and what it does not (2026-03). Prints a line a case and a count;
// exit status 1 if one is not as expected.
mod library;
mod sheets;
use library::{Count, Sheet, REFUSED, SATISFIABLE, UNKNOWN, UNSATISFIABLE};
use sheets::{clause, paper, pigeons, search, sheet, swaps};

// Document 002, example 2.
fn example(count: &mut Count) {
    let (clauses, mut wanted) = paper();
    let found = search(&sheet(6, &clauses, &[]), 20);
    let mut got: Vec<(u64, u32)> =
        found.points[..14].iter().copied().zip(found.numbers[..14].iter().copied()).collect();
    got.sort();
    wanted.sort();
    count.expect(
        "the paper's 14 points with the paper's clauses",
        found.reply == [UNSATISFIABLE, 14, 0, 0] && got == wanted,
    );
    count.expect(
        "slots beyond the 14 unchanged",
        found.points[14..].iter().all(|&x| x == 9) && found.depths[14..].iter().all(|&x| x == 9),
    );
}

fn pigeon_holes(count: &mut Count) {
    let plain = [4, 23, 196, 2289, 33411];
    let listed = [3, 9, 54, 443, 5445];
    for m in 1..=5 {
        let n = (m * (m + 1)) as u32;
        let found = search(&sheet(n, &pigeons(m), &[]), 65536);
        count.expect(&format!("PH({}, {m})", m + 1), found.reply == [UNSATISFIABLE, plain[m - 1], 0, 0]);
        let found = search(&sheet(n, &pigeons(m), &swaps(m)), 65536);
        count
            .expect(&format!("PH({}, {m}) with its swaps", m + 1), found.reply == [UNSATISFIABLE, listed[m - 1], 0, 0]);
    }
    let found = search(&sheet(42, &pigeons(6), &swaps(6)), 8192);
    count.expect("PH(7, 6) with its swaps fills 8,192 slots", found.reply[0] == UNKNOWN && found.reply[2] == 8192);
}

// 64 variables, 4,096 clauses and 16 permutations are taken, one more of each is refused.
fn limits(count: &mut Count) {
    let clauses: Vec<(u64, u64)> = (0..4096u64).map(|_| clause(&(1..=64).collect::<Vec<i32>>())).collect();
    let rotations: Vec<Vec<u8>> = (0..16).map(|r| (0..64).map(|i| ((i + r) % 64 + 1) as u8).collect()).collect();
    let found = search(&sheet(64, &clauses, &rotations), 100);
    // Variable v alone is covered as soon as one of the 16 rotations takes it to variable 1, from v = 50 on: the
    // target and 49 flips are stored.
    count.expect(
        "64 variables, 4,096 clauses, 16 permutations",
        found.reply == [SATISFIABLE, 1, 1, 50] && found.numbers[0] == 1,
    );
    let mut wide = sheet(64, &clauses, &rotations);
    wide.variables = 65;
    count.expect("65 variables", search(&wide, 100).reply == [REFUSED, 10, 0, 0]);
    let more: Vec<(u64, u64)> = [clauses.clone(), vec![(1, 0)]].concat();
    count.expect("4,097 clauses", search(&sheet(64, &more, &[]), 100).reply == [REFUSED, 10, 0, 0]);
    let mut many = sheet(64, &clauses, &rotations);
    many.permutations = 17;
    count.expect("17 permutations", search(&many, 100).reply == [REFUSED, 11, 17, 0]);
    count.expect("no slot", search(&sheet(64, &clauses, &rotations), 0).reply == [REFUSED, 13, 0, 0]);
}

// 2026-03: "tests all unprocessed points of that depth before it processes any": those of the level that is tested keep
// clause 0, and the slots filled stay filled, the smallest point being neither the first nor the last of them.
fn level(count: &mut Count) {
    let s = Sheet { target: 0b010, ..sheet(3, &[clause(&[1, -2, 3])], &[]) };
    let found = search(&s, 6);
    count.compare("three as near, the smallest", found.reply, [SATISFIABLE, 0, 1, 4]);
    let slots = (&found.points[..5], &found.numbers[..5], &found.depths[..5]);
    count.compare(
        "their slots",
        slots,
        (&[0b010, 0b011, 0b000, 0b110, 9][..], &[1, 0, 0, 0, 9][..], &[0, 1, 1, 1, 9][..]),
    );
    for (room, carried) in [(3, 1), (2, 1), (1, 1)] {
        count.compare(&format!("{room} slots"), search(&s, room).reply, [UNKNOWN, carried, room as u64, 0]);
    }
}

// 2026-03: "Editors of series want the same house choice each time, however the client ordered the rules." Without
// permutations it is the same; the slots filled are not, nor whether there is room; with permutations none of it is.
fn orders(count: &mut Count) {
    let pairs = [[-1, -2], [-2, -3], [-1, -3]].map(|c| clause(&c));
    let aimed = |order: [usize; 3], permutations: &[Vec<u8>]| Sheet {
        target: 0b111,
        ..sheet(3, &order.map(|k| pairs[k]), permutations)
    };
    for order in [[0, 1, 2], [0, 2, 1], [1, 0, 2], [1, 2, 0], [2, 0, 1], [2, 1, 0]] {
        let reply = search(&aimed(order, &[]), 8).reply;
        count.compare(&format!("clauses in the order {order:?}"), &reply[..3], &[SATISFIABLE, 0b001, 2]);
    }
    let turned = [vec![3, 1, 2]];
    let reply = search(&aimed([0, 1, 2], &turned), 8).reply;
    count.compare("with permutation 3 1 2", &reply[..3], &[SATISFIABLE, 0b010, 2]);
    let reply = search(&aimed([1, 0, 2], &turned), 8).reply;
    count.compare("with permutation 3 1 2, the first two swapped", &reply[..3], &[SATISFIABLE, 0b100, 2]);
    let (wide, narrow) = (clause(&[1, 2, 3]), clause(&[1]));
    let [first, second] = [[wide, narrow], [narrow, wide]].map(|clauses| sheet(3, &clauses, &[]));
    count.compare("the wide clause first", search(&first, 8).reply, [SATISFIABLE, 1, 1, 4]);
    count.compare("the wide clause first, 3 slots", search(&first, 3).reply, [UNKNOWN, 1, 3, 0]);
    count.compare("the wide clause last, 3 slots", search(&second, 3).reply, [SATISFIABLE, 1, 1, 2]);
}

fn main() {
    let mut count = Count::new();
    example(&mut count);
    pigeon_holes(&mut count);
    limits(&mut count);
    level(&mut count);
    orders(&mut count);
    count.finish("cases");
}
