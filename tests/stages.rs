// The search at the sizes where it goes from one index to a larger one, beside the implementation of reference.rs:
// numbers of slots around 128, 512 and 8,192, less the variables that one step may flip, and the most. A search pauses
// there, and what was found where a level was opened has to be known behind the pause: so there are sheets whose levels
// end at such a number, and before and behind it. Replies, slots and what lies behind them are compared. Prints how
// many searches were compared; exit status 1 if one differs.
mod lending;
mod library;
mod reference;
mod sheets;
use reference::{Reply, Sheet};
use std::collections::BTreeMap;

const HOLES: usize = 6;
const MOST: usize = 65536;
const ALL: &str = "all meet";

// How many searches were compared, by what they answer, and how many differ.
#[derive(Default)]
struct Compared {
    answers: BTreeMap<&'static str, usize>,
    differing: usize,
}

impl Compared {
    fn search(&mut self, name: &str, s: &Sheet, slots: usize) {
        let found = sheets::search(&lending::lent(s), slots);
        let (reply, filled) = reference::walk(s, slots);
        let padded = |part: Vec<u64>| [part, vec![9; slots - filled.len()]].concat();
        let words = lending::words(&reply);
        let same = found.reply[..words.len()] == words[..]
            && found.points == padded(filled.iter().map(|f| f.point).collect())
            && found.numbers.iter().map(|&x| x as u64).eq(padded(filled.iter().map(|f| f.rule as u64).collect()))
            && found.depths.iter().map(|&x| x as u64).eq(padded(filled.iter().map(|f| f.depth as u64).collect()));
        if !same {
            self.differing += 1;
            println!("{name}, {slots} slots: the searches differ: {:?} for {words:?}", found.reply);
        }
        let answer = match reply {
            Reply::Met { .. } => "met",
            Reply::Unmet { .. } => "cannot be met",
            Reply::NoRoom { .. } => "no room",
            Reply::Refused(number, _) => panic!("{name}: refused by {number}"),
        };
        *self.answers.entry(answer).or_default() += 1;
    }
}

// Numbers of slots where a search of n variables may pause, with those next to them.
fn around(heads: usize, n: usize) -> Vec<usize> {
    (heads - n - 2..=heads - n + 2).chain(heads - 2..=heads + 2).collect()
}

// A sheet as the reference has it; what the rules want is turned about at each name that is wished.
fn wishing(names: u32, wish: u64, rules: &[(u64, u64)], exchanges: &[Vec<u8>]) -> Sheet {
    let turned = |(yes, no): (u64, u64)| (yes & !wish | no & wish, no & !wish | yes & wish);
    let mut bytes = exchanges.concat();
    bytes.resize(1024, 0);
    let (yes, no) = rules.iter().copied().map(turned).unzip();
    Sheet { names, rules: rules.len() as u32, wish, exchanges: exchanges.len() as u32, bytes, yes, no }
}

// Rules from which a search fills just so many slots before it opens its last level: the first rule lists the names of
// the first group; a point that has one name of each group before has a rule of its own that wants none of these, or
// names of the next. Those of the last group are dealt out so that the number comes out. Also a name of the last slot.
fn levels(groups: &[u32], filled: usize) -> (Vec<(u64, u64)>, u64) {
    let (mut rules, mut level, mut first, mut last) = (Vec::new(), vec![0u64], 0, 0);
    let product = |of: &[u32]| of.iter().product::<u32>() as usize;
    let inner: usize = (0..groups.len()).map(|k| product(&groups[..k])).sum();
    // points without the name of a group that is not the last: they meet no rules, and lead to none that is not filled
    let without = |k: usize, t: usize| product(&groups[..t]) * product(&groups[t + 1..k]);
    let beside: usize = (2..groups.len()).flat_map(|k| (0..k - 1).map(move |t| without(k, t))).sum();
    for (k, &width) in groups.iter().enumerate() {
        let mut left = if k + 1 == groups.len() { filled - inner - beside } else { level.len() * width as usize };
        let mut next = Vec::new();
        for (done, &point) in level.iter().enumerate() {
            let others = level.len() - done - 1;
            let count = (left - others).min(width as usize);
            left -= count;
            rules.push(((1 << count) - 1 << first, point));
            next.extend((0..count as u32).map(|i| point | 1 << (first + i)));
            last = 1 << (first + count as u32 - 1);
        }
        assert_eq!(left, 0, "so many slots are not to be had with these groups");
        (level, first) = (next, first + width);
    }
    (rules, last)
}

// Sheets of such rules: every point of the last level meets them; those with one name do; none does, but those of a
// level behind do, by either of the two names that the groups leave over; none at all.
fn endings(groups: &[u32], filled: usize) -> Vec<(&'static str, Vec<(u64, u64)>)> {
    let (rules, last) = levels(groups, filled);
    let behind = 0b11u64.checked_shl(groups.iter().sum()).unwrap_or(0);
    let with = |rule: (u64, u64)| [&rules[..], &[rule]].concat();
    vec![
        (ALL, rules.clone()),
        ("few meet", with((last, 0))),
        ("the next meet", with((behind, 0))),
        ("none meets", with((0, 0))),
    ]
}

// Such a sheet with several numbers of slots; first, that it is one which fills just so many before its last level.
fn ending(compared: &mut Compared, (what, filled): (&str, usize), s: &Sheet, rooms: &[usize]) {
    if what == ALL && filled <= MOST {
        let met = reference::walk(s, MOST).0;
        assert!(matches!(met, Reply::Met { slots, .. } if slots == filled), "{filled} slots are not filled: {met:?}");
    }
    let name = format!("{filled} slots before the last level, {what}, {} exchanges", s.exchanges);
    rooms.iter().for_each(|&room| compared.search(&name, s, room));
}

// Levels that end where a search may pause, up to 8,192 slots.
fn borders(compared: &mut Compared) {
    let wish = 0x5A5A_C3C3_A5A5_3C3C;
    for (heads, groups) in [(128, &[8, 16][..]), (512, &[16, 40]), (8192, &[16, 18, 28])] {
        let names = groups.iter().sum::<u32>() + 2;
        // the two names left over are not wished, so that their exchange keeps the rules
        let wish = wish & u64::MAX >> (66 - names);
        let mut swap: Vec<u8> = (1..=names as u8).collect();
        swap.swap(names as usize - 2, names as usize - 1);
        for filled in around(heads, names as usize) {
            for (what, rules) in endings(groups, filled) {
                for exchanges in [vec![], vec![swap.clone()]] {
                    let s = wishing(names, wish, &rules, &exchanges);
                    ending(compared, (what, filled), &s, &[filled - 1, filled, filled + 1, MOST]);
                }
            }
        }
    }
}

// The same where all slots are filled.
fn most(compared: &mut Compared) {
    let groups = [14, 16, 17, 17];
    for filled in MOST - 1..=MOST + 1 {
        for (what, rules) in endings(&groups, filled).into_iter().take(2) {
            let s = wishing(64, 0x3C5A_0FF0_A5C3_9669, &rules, &[]);
            ending(compared, (what, filled), &s, &[MOST - 1, MOST, MOST + 1]);
        }
    }
}

// Random rules of three names, more or less many, so that levels end anywhere.
fn random(compared: &mut Compared) {
    let mut x = 88172645463325252u64;
    let mut next = || {
        x ^= x << 13;
        x ^= x >> 7;
        x ^= x << 17;
        x
    };
    for names in (20..=64).step_by(4) {
        let count = names as u64 * (2 + next() % 4);
        let rules: Vec<(u64, u64)> = (0..count)
            .map(|_| {
                let bit = |x: u64| 1u64 << (x % u64::from(names));
                let (a, b, c, signs) = (bit(next()), bit(next()), bit(next()), next());
                let side = |k: u32, x: u64| if signs >> (k + 40) & 1 == 1 { (x, 0) } else { (0, x) };
                [side(0, a), side(1, b), side(2, c)].iter().fold((0, 0), |all, one| (all.0 | one.0, all.1 | one.1))
            })
            .collect();
        let s = wishing(names, next() & u64::MAX >> (64 - names), &rules, &[]);
        let rooms = [128, 512, 8192].map(|heads| around(heads, names as usize)).concat();
        rooms.into_iter().chain([MOST]).for_each(|room| compared.search(&format!("{names} names"), &s, room));
    }
}

// Levels of two points each, 65 deep: document 002's example made longer, and without its last clause, so that it is
// met at its end.
fn chains(compared: &mut Compared) {
    let (n, k) = (64, 33);
    let steps = |from: i32, to: i32| (from..to).map(|i| sheets::clause(&[-i, i + 1])).collect::<Vec<_>>();
    let two = |a: i32, b: i32| vec![sheets::clause(&[a, b])];
    let open = [two(1, 2), steps(2, k), two(-k, 1), two(-1, k + 1), steps(k + 1, n)].concat();
    let closed = [&open[..], &two(-n, -1)].concat();
    for (name, rules) in [("a chain that is met", open), ("a chain that is closed", closed)] {
        let s = wishing(n as u32, 0, &rules, &[]);
        around(128, n as usize).into_iter().chain([MOST]).for_each(|room| compared.search(name, &s, room));
    }
}

// PH(7, 6), with its swaps and without.
fn pigeon_holes(compared: &mut Compared) {
    let variables = HOLES * (HOLES + 1);
    let stages = [128, 512, 8192].map(|heads| around(heads, variables)).concat();
    let sizes = [vec![1, 2], stages, vec![MOST - 1, MOST, MOST + 1]].concat();
    for permutations in [vec![], sheets::swaps(HOLES)] {
        let text = sheets::text(variables as u32, &sheets::pigeons(HOLES), &permutations);
        let s = reference::read(&text, 4096, 4096).expect("the sheet is sound");
        let name = format!("PH(7, 6) with {} permutations", permutations.len());
        sizes.iter().for_each(|&slots| compared.search(&name, &s, slots));
    }
}

fn main() {
    let mut compared = Compared::default();
    pigeon_holes(&mut compared);
    borders(&mut compared);
    most(&mut compared);
    random(&mut compared);
    chains(&mut compared);
    let answers: Vec<String> = compared.answers.iter().map(|(answer, count)| format!("{answer} {count}")).collect();
    println!("stages: searches compared: {}; {} differ", answers.join(", "), compared.differing);
    std::process::exit((compared.differing > 0) as i32);
}
