// Formulas that tests and benchmarks share, and a search over fresh slots.
#![allow(dead_code)] // a program uses some of them
use crate::library;
use crate::library::Sheet;

// A clause from literals as DIMACS has them: the sets of its positive and of its negative ones.
pub fn clause(literals: &[i32]) -> (u64, u64) {
    let set =
        |sign: i32| literals.iter().filter(|l| l.signum() == sign).map(|l| 1u64 << (l.abs() - 1)).fold(0, |a, b| a | b);
    (set(1), set(-1))
}

pub fn sheet(variables: u32, clauses: &[(u64, u64)], permutations: &[Vec<u8>]) -> Sheet {
    let mut images = permutations.concat();
    images.resize(1024, 0);
    Sheet {
        variables,
        clauses: clauses.len() as u32,
        target: 0,
        permutations: permutations.len() as u32,
        images,
        positive: clauses.iter().map(|c| c.0).collect(),
        negative: clauses.iter().map(|c| c.1).collect(),
    }
}

// The same formula as a text, with its permutations as `c exch` lines.
pub fn text(variables: u32, clauses: &[(u64, u64)], permutations: &[Vec<u8>]) -> Vec<u8> {
    let mut lines = vec![format!("p cnf {variables} {}", clauses.len())];
    let joined = |words: Vec<String>| words.join(" ");
    lines.extend(permutations.iter().map(|e| format!("c exch {}", joined(e.iter().map(|x| x.to_string()).collect()))));
    for (positive, negative) in clauses {
        let literals = |set: u64, sign: &'static str| {
            (1..=64).filter(move |i| set >> (i - 1) & 1 == 1).map(move |i| format!("{sign}{i}"))
        };
        let words = literals(*positive, "").chain(literals(*negative, "-")).chain(["0".to_string()]);
        lines.push(joined(words.collect()));
    }
    (lines.join("\n") + "\n").into_bytes()
}

// What a search answers and leaves in the slots that it filled.
pub struct Found {
    pub reply: [u64; 4],
    pub points: Vec<u64>,
    pub numbers: Vec<u32>,
    pub depths: Vec<u32>,
}

pub fn search(s: &Sheet, slots: usize) -> Found {
    let (mut points, mut numbers, mut depths) = (vec![9; slots], vec![9; slots], vec![9; slots]);
    let mut reply = [9; 4];
    assert_eq!(library::search(s, &mut points, &mut numbers, &mut depths, &mut reply), 1);
    Found { reply, points, numbers, depths }
}

// Document 01's formula A: (1 2) (-1 2) (1 -2) (-1 -2).
pub fn formula_a() -> Vec<(u64, u64)> {
    [[1, 2], [-1, 2], [1, -2], [-1, -2]].map(|c| clause(&c)).to_vec()
}

// All clauses that list each of the first n variables, as the sets of their positive literals ascend: each point
// falsifies just one of them.
pub fn every(n: u32) -> Vec<(u64, u64)> {
    let all = (1 << n) - 1;
    (0..=all).map(|positive| (positive, all - positive)).collect()
}

// 4,096 clauses of 12 variables among 16, from variable `first` + 1 on: from any point a search visits all points of
// the 16. The points with the digits of q, at variables that the lowest digit chooses, falsify a clause.
pub fn cube(first: u32) -> Vec<(u64, u64)> {
    let clause = |q: u64| {
        let place = |k: u32| first + if q & 1 == 0 || k == 0 { k } else { k + 4 };
        let spread = |set: u64| (0..12).filter(|k| set >> k & 1 == 1).map(|k| 1u64 << place(k)).sum::<u64>();
        (spread(!q), spread(q))
    };
    (0..1 << 12).map(clause).collect()
}

// Document 002, example 2: seven clauses over six variables, and its 14 points, written variable 1 first, each with
// the clause that it falsifies.
pub fn paper() -> (Vec<(u64, u64)>, Vec<(u64, u32)>) {
    let clauses = [&[1, 2][..], &[-2, 3], &[-3, 4], &[-4, 1], &[-1, 5], &[-5, 6], &[-6, -1]].map(clause);
    let listed = [
        ("000000", 1),
        ("010000", 2),
        ("011000", 3),
        ("011100", 4),
        ("111100", 5),
        ("111110", 6),
        ("111111", 7),
        ("011111", 4),
        ("011011", 3),
        ("010011", 2),
        ("000011", 1),
        ("100011", 7),
        ("100010", 6),
        ("100000", 5),
    ];
    let point = |digits: &str| digits.bytes().rev().fold(0u64, |x, b| x * 2 + (b - 48) as u64);
    (clauses.to_vec(), listed.iter().map(|(p, c)| (point(p), *c)).collect())
}

// PH(m + 1, m): each of m + 1 pigeons sits in a hole, and no two in one; variable (i - 1) m + k says that pigeon i
// sits in hole k.
pub fn pigeons(m: usize) -> Vec<(u64, u64)> {
    let seat = |i: usize, k: usize| (i * m + k + 1) as i32;
    let mut clauses: Vec<(u64, u64)> =
        (0..=m).map(|i| clause(&(0..m).map(|k| seat(i, k)).collect::<Vec<_>>())).collect();
    for k in 0..m {
        for i in 0..=m {
            for j in i + 1..=m {
                clauses.push(clause(&[-seat(i, k), -seat(j, k)]));
            }
        }
    }
    clauses
}

// Neighbouring holes swapped, and neighbouring pigeons swapped: symmetries of PH(m + 1, m).
pub fn swaps(m: usize) -> Vec<Vec<u8>> {
    let swapped = |x: usize, at: usize| {
        if x == at {
            at + 1
        } else if x == at + 1 {
            at
        } else {
            x
        }
    };
    let image = |i: usize, k: usize| (i * m + k + 1) as u8;
    let holes = (0..m - 1).map(|h| (0..=m).flat_map(|i| (0..m).map(move |k| image(i, swapped(k, h)))).collect());
    let pigeons = (0..m).map(|p| (0..=m).flat_map(|i| (0..m).map(move |k| image(swapped(i, p), k))).collect());
    holes.chain(pigeons).collect()
}
